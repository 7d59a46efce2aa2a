//! How much stack the calls need.
use crate::guarded::{Against, Guarded};
use crate::raw_sheet::Sheet;
use crate::{
    card_length, earliest_end, label, label_of, plan, plan_within, read, sets, size, slack, usage, version, write, Desk, Job,
    Refusal, Runner, LONGEST_LABEL, LONGEST_SHEET, MOST_JOBS, MOST_POWER,
};
use std::ffi::{c_int, c_void};
use std::ptr;

/// `pthread_attr_t` has 56 bytes on x86-64.
type Attributes = [u64; 8];
type Start = extern "C" fn(*mut c_void) -> *mut c_void;

extern "C" {
    fn pthread_attr_init(attributes: *mut Attributes) -> c_int;
    fn pthread_attr_setstack(attributes: *mut Attributes, lowest: *mut c_void, length: usize) -> c_int;
    fn pthread_create(thread: *mut usize, attributes: *const Attributes, start: Start, argument: *mut c_void) -> c_int;
    fn pthread_join(thread: usize, result: *mut *mut c_void) -> c_int;
}

const ROOM: usize = 4 << 20;
const PAINT: u8 = 0xC3;

/// What the thread is to call, and where its stack stood then.
struct Task<'a> {
    call: &'a mut dyn FnMut(),
    from: usize,
}

extern "C" fn run(argument: *mut c_void) -> *mut c_void {
    // SAFETY: `needed` passes a live task.
    let task = unsafe { &mut *argument.cast::<Task>() };
    task.from = ptr::from_ref(&task) as usize;
    (task.call)();
    ptr::null_mut()
}

/// How many bytes of stack the call needs, by how deep it goes on a painted one.
pub fn needed(call: &mut dyn FnMut()) -> usize {
    let mut stack = Guarded::new(ROOM);
    let lowest = stack.lend(Against::Front, &vec![PAINT; ROOM]).as_mut_ptr();
    let mut task = Task { call, from: 0 };
    let mut attributes: Attributes = [0; 8];
    let mut thread = 0;
    // SAFETY: the thread runs on memory of its own and is joined before that memory and the task go.
    unsafe {
        assert_eq!(pthread_attr_init(&mut attributes), 0);
        assert_eq!(pthread_attr_setstack(&mut attributes, lowest.cast(), ROOM), 0);
        assert_eq!(pthread_create(&mut thread, &attributes, run, ptr::from_mut(&mut task).cast()), 0);
        assert_eq!(pthread_join(thread, ptr::null_mut()), 0);
    }
    let untouched = stack.left().iter().take_while(|byte| **byte == PAINT).count();
    task.from - (lowest as usize + untouched)
}

/// Every list plan ends the first five at minute 7, and 3 + 3 beside 2 + 2 + 2 ends at minute 6; the others come one after another.
fn ends_earlier(j: usize) -> Job {
    match [3, 3, 2, 2, 2].get(j) {
        Some(minutes) => Job { modules: 1, minutes: *minutes, ..Job::default() },
        None => Job { modules: 1, minutes: 1, earlier: (1 << j) - 1, ..Job::default() },
    }
}

/// The same for jobs of which two fill the largest cabinet: no list plan ends by minute 21 there, and the search finds a plan that does.
fn fills_the_largest(j: usize) -> Job {
    Job { modules: 32, ..ends_earlier(j) }
}

/// The list plans begin with the longest, and the tie rule with job 0.
fn longer_and_longer(j: usize) -> Job {
    Job { modules: 2, minutes: j as u16 + 1, ..Job::default() }
}

/// Marks of twenty jobs on which counting the job sets goes as deep as there are jobs: none, a chain, and pairs.
const SHAPES: [fn(usize) -> u32; 3] = [|_| 0, |j| (1 << j) >> 1, |j| if j % 2 == 1 { 1 << (j - 1) } else { 0 }];

/// What each exported call needs, by its name. Planning goes as deep as there are jobs, once for an earlier end and once for a lower job
/// in an order's first place: the larger of two lists. The call for the least count does the first with working memory of its own.
pub fn of_every_call() -> Vec<(&'static str, usize)> {
    let lists: [Vec<Job>; 2] = [(0..MOST_JOBS).map(ends_earlier).collect(), (0..MOST_JOBS).map(longer_and_longer).collect()];
    let mut work = vec![0; 1 << 20];
    let mut card = [0; card_length(MOST_JOBS)];
    let sheets = lists.map(|jobs| Sheet::of(2, jobs).bytes());
    let planning = sheets.each_ref().map(|sheet| done(|| plan(sheet, &mut card, &mut work)));
    let limited =
        |limit| sheets.each_ref().map(|sheet| done(|| plan_within(sheet, &mut [0; card_length(MOST_JOBS)], &mut [], limit)));
    let within = [limited(0), limited(1 << 20)].concat();
    let ends = sheets.each_ref().map(|sheet| done(|| earliest_end(sheet, &mut work)));
    let uses = sheets.each_ref().map(|sheet| done(|| usage(sheet, &mut work)));
    let slacks = sheets.each_ref().map(|sheet| done(|| slack(sheet, &mut work)));
    let wide = Sheet::of(2, (0..MOST_JOBS).map(fills_the_largest).collect()).bytes();
    let sizing = done(|| size(&wide, 21, &mut card, &mut work));
    let counting = SHAPES.map(|marks| {
        let jobs = (0..MOST_JOBS).map(|j| Job { modules: 1, minutes: 1, earlier: marks(j), ..Job::default() });
        let sheet = Sheet::of(2, jobs.collect()).bytes();
        done(|| sets(&sheet))
    });
    let counting = counting.into_iter().max().expect("there are shapes");
    let long = Job { label_len: LONGEST_LABEL as u8, modules: 64, minutes: 1440, ..Job::default() };
    let labels = [b'~'; LONGEST_LABEL * MOST_JOBS];
    let mut sheet = [0; LONGEST_SHEET];
    let writing = done(|| write(&[long; MOST_JOBS], &labels, 64, 30, &mut sheet));
    let reading = read(&sheet);
    let mut desk = Desk::default();
    let opening = done(|| Desk::open(MOST_POWER, &[50_000; 8], &[MOST_POWER; 8]).map(|opened| desk = opened));
    let (starting, stepping) = of_a_runner(&sheets[0]);
    vec![
        ("depot_version", done(|| Ok(version()))),
        ("depot_plan", planning[0].max(planning[1])),
        ("depot_plan_within", within.into_iter().max().expect("there are sheets")),
        ("depot_end", ends[0].max(ends[1])),
        ("depot_use", uses[0].max(uses[1])),
        ("depot_slack", slacks[0].max(slacks[1])),
        ("depot_size", sizing),
        ("depot_sets", counting),
        ("depot_read", done(|| read(&sheet))),
        ("depot_label", done(|| label(&sheet, MOST_JOBS - 1))),
        (
            "depot_label_of",
            done(|| reading.clone().and_then(|reading| label_of(&sheet, &reading, MOST_JOBS - 1).map(<[u8]>::len))),
        ),
        ("depot_write", writing),
        ("depot_desk_open", opening),
        ("depot_desk_change", done(|| desk.change(MOST_POWER, &[50_000; 8], &[MOST_POWER; 8]))),
        ("depot_desk_claim", done(|| desk.claim(7, 50_000))),
        ("depot_desk_hand_back", done(|| desk.hand_back(7, 50_000))),
        ("depot_desk_look", done(|| desk.look(7))),
        ("depot_runner_start", starting),
        ("depot_runner_step", stepping),
    ]
}

/// What a start needs for the sheet, and the most that a step of its runner needs, from the first minute to the last.
fn of_a_runner(sheet: &[u8]) -> (usize, usize) {
    let mut card = [0; card_length(MOST_JOBS)];
    plan(sheet, &mut card, &mut [0; 4096]).expect("the sheet is planned");
    let mut desk = Desk::open(MOST_POWER, &[50_000; 8], &[MOST_POWER; 8]).expect("the desk opens");
    let mut runner = Runner::start(sheet, &card, &desk, 7, 300);
    let starting = done(|| Runner::start(sheet, &card, &desk, 7, 300));
    let runner = runner.as_mut().expect("the runner starts");
    let mut stepping = 0;
    loop {
        let before = *runner;
        stepping = stepping.max(done(|| runner.step(&mut desk)));
        if *runner == before {
            return (starting, stepping);
        }
    }
}

/// The stack of a call that is answered.
fn done<T>(mut call: impl FnMut() -> Result<T, Refusal>) -> usize {
    let mut answered = false;
    let bytes = needed(&mut || answered = call().is_ok());
    assert!(answered);
    bytes
}
