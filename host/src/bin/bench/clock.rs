//! Processor time: what other programs do on the same machine does not count.
use std::ffi::c_int;
use std::fs;
use std::hint::black_box;
use std::time::Duration;

#[repr(C)]
struct Timespec {
    seconds: i64,
    nanoseconds: i64,
}

extern "C" {
    fn clock_gettime(clock: c_int, time: *mut Timespec) -> c_int;
}

const PROCESS: c_int = 2;

/// What C calls `struct rusage`: user and system time in seconds and microseconds, and 14 other figures.
#[repr(C)]
#[derive(Default)]
struct Usage {
    times: [i64; 4],
    others: [i64; 14],
}

extern "C" {
    fn getrusage(who: c_int, usage: *mut Usage) -> c_int;
}

const ENDED_CHILDREN: c_int = -1;

/// The processor time of this process so far, in seconds.
pub fn now() -> f64 {
    let mut time = Timespec { seconds: 0, nanoseconds: 0 };
    // SAFETY: a live place for the answer.
    assert_eq!(unsafe { clock_gettime(PROCESS, &mut time) }, 0);
    time.seconds as f64 + time.nanoseconds as f64 / 1e9
}

/// The processor time of all programs that were started and have ended so far, in seconds.
pub fn of_ended() -> f64 {
    let mut usage = Usage::default();
    // SAFETY: a live place for the answer.
    assert_eq!(unsafe { getrusage(ENDED_CHILDREN, &mut usage) }, 0);
    let [user, user_micros, system, system_micros] = usage.times.map(|figure| figure as f64);
    user + system + (user_micros + system_micros) / 1e6
}

/// The processor time of another process so far, none once it is gone.
pub fn of_process(id: u32) -> Option<Duration> {
    let text = fs::read_to_string(format!("/proc/{id}/stat")).ok()?;
    // behind the name in parentheses: the state is field 3, user and system time, in hundredths, are 14 and 15
    let fields: Vec<&str> = text.rsplit_once(')')?.1.split_whitespace().collect();
    let ticks: u64 = fields.get(11..13)?.iter().map(|field| field.parse::<u64>().unwrap_or(0)).sum();
    Some(Duration::from_millis(10 * ticks))
}

/// How long a call takes, in nanoseconds, from many calls one after another.
pub fn nanoseconds(mut call: impl FnMut(u32) -> bool) -> f64 {
    const CALLS: u32 = 1_000_000;
    let start = now();
    for i in 0..CALLS {
        black_box(call(black_box(i)));
    }
    (now() - start) * 1e9 / f64::from(CALLS)
}
