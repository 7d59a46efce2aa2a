//! A list as a MiniZinc model: the earliest end of its plans.
use depot_host::lists::List;
use std::fmt::Write;

/// Jobs that share the modules, which rest for the changeover behind each, and wait for each other; the end is lowered. The area, which
/// every end has to cover, is said as well. The starts are narrowed by halves, the one with the fewest left first: of seven forms, tried
/// on a few lists of 10 jobs, none solved more.
pub fn of(list: &List) -> String {
    let n = list.jobs.len();
    let figures = |of: &dyn Fn(usize) -> u32| (0..n).map(|j| of(j).to_string()).collect::<Vec<_>>().join(",");
    let need = figures(&|j| list.jobs[j].modules.into());
    let minutes = figures(&|j| list.jobs[j].minutes.into());
    let arrival = figures(&|j| list.jobs[j].arrival.into());
    let kept = figures(&|j| (list.jobs[j].minutes + list.changeover).into());
    let (modules, changeover) = (list.modules, list.changeover);
    let mut model = format!(
        "include \"cumulative.mzn\";\n\
         array[1..{n}] of int: need = [{need}];\n\
         array[1..{n}] of int: minutes = [{minutes}];\n\
         array[1..{n}] of int: kept = [{kept}];\n\
         array[1..{n}] of int: arrival = [{arrival}];\n\
         array[1..{n}] of var 0..max(arrival) + sum(kept): start;\n\
         var 0..max(arrival) + sum(kept): end;\n\
         constraint forall(j in 1..{n})(arrival[j] <= start[j]);\n\
         constraint cumulative(start, kept, need, {modules});\n\
         constraint forall(j in 1..{n})(start[j] + minutes[j] <= end);\n\
         constraint sum(j in 1..{n})(need[j] * kept[j]) <= {modules} * (end + {changeover});\n"
    );
    for (j, job) in list.jobs.iter().enumerate() {
        for i in (0..n).filter(|i| job.earlier >> i & 1 == 1) {
            let (first, then) = (i + 1, j + 1);
            writeln!(model, "constraint start[{first}] + minutes[{first}] <= start[{then}];").unwrap();
        }
    }
    model + "solve :: int_search(start, first_fail, indomain_split) minimize end;\noutput [\"end \\(end)\\n\"];\n"
}

#[test]
fn a_model_says_which_jobs_wait() {
    let list = &depot_host::lists::read("two 2 4\n1 5 0 30\n3 7 1\n").unwrap()[0];
    let model = of(list);
    assert!(model.contains("need = [1,3]") && model.contains("minutes = [5,7]") && model.contains("start, kept, need, 4)"));
    assert!(model.contains("arrival = [30,0]") && model.contains("(arrival[j] <= start[j])"), "{model}");
    assert!(model.contains("constraint start[1] + minutes[1] <= start[2];"), "{model}");
    let resting = of(&list.clone().resting(10));
    assert!(resting.contains("kept = [15,17]") && resting.contains("<= 4 * (end + 10)"), "{resting}");
}
