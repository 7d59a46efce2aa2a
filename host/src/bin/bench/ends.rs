//! The call for the end alone beside planning: the same ends, and the ratio of the times, family by family.
use crate::child::{call, Side};
use crate::options::Options;
use std::collections::BTreeMap;

/// The lists that both calls solved, and the processor time of each.
#[derive(Default)]
struct Row {
    lists: usize,
    planning: f64,
    end: f64,
}

pub fn measure(options: &Options) {
    let cutoff = options.cutoff;
    println!(
        "the end alone beside planning, cut-off {} s; seconds of the processor over the lists that both solve",
        cutoff.as_secs_f64()
    );
    println!("{:<28} {:>7} {:>6} {:>10} {:>10} {:>6}", "lists", "memory", "solved", "planning", "end", "ratio");
    for group in &options.groups {
        for memory in options.memory_or(&[1 << 20]) {
            let mut rows: BTreeMap<String, Row> = BTreeMap::new();
            for list in &group.lists {
                let family = list.name.split(['#', '_']).next().unwrap_or(&list.name).to_string();
                let (Some(planned), Some(end)) =
                    (call(Side::Library, list, memory, cutoff), call(Side::End, list, memory, cutoff))
                else {
                    continue;
                };
                assert_eq!(end.end, planned.end, "{}", list.name);
                for name in [family, "all".into()] {
                    let row = rows.entry(name).or_default();
                    row.lists += 1;
                    row.planning += planned.seconds;
                    row.end += end.seconds;
                }
            }
            for (name, Row { lists, planning, end }) in rows {
                let about = format!("{} {name}", group.name);
                println!("{about:<28} {memory:>7} {lists:>6} {planning:>10.4} {end:>10.4} {:>6.2}", end / planning);
            }
        }
    }
}
