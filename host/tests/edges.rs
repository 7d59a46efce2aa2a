//! Every exported call with every argument at its edges, at the least, at the most and just past them: the answer and all lent
//! memory are what a reading of the requirements says.
use depot_host::compare::slack::expected as expected_slack;
use depot_host::guarded::{Against, Guarded};
use depot_host::plain_search::{mislead, GROUP};
use depot_host::raw_sheet::Sheet;
use depot_host::reference::runner::Follower;
use depot_host::{
    card_length, ffi, reference, Desk, Job, Runner, LONGEST_CARD, LONGEST_LABEL, LONGEST_SHEET, MOST_JOBS, MOST_POWER, NO_LIMIT,
};
use std::ptr::null_mut;

/// Lent memory that ends at a page that may not be touched.
struct Lent {
    memory: Guarded,
    at: *mut u8,
}

impl Lent {
    fn of(bytes: &[u8]) -> Lent {
        let mut memory = Guarded::new(bytes.len());
        let at = memory.lend(Against::End, bytes).as_mut_ptr();
        Lent { memory, at }
    }

    fn painted(length: usize) -> Lent {
        Lent::of(&vec![0x5A; length])
    }

    fn at<T>(&self) -> *mut T {
        self.at.cast()
    }

    fn len(&self) -> usize {
        self.memory.left().len()
    }

    /// Whether these bytes are at its front, and the paint is behind them.
    fn has(&self, front: &[u8]) -> bool {
        let (written, behind) = self.memory.left().split_at(front.len());
        self.memory.rest_untouched() && written == front && behind.iter().all(|byte| *byte == 0x5A)
    }
}

/// The edges of a number, and those of its width.
fn around(low: u32, high: u32, most: u32) -> Vec<u32> {
    let mut numbers = vec![0, 1, low.saturating_sub(1), low, high - 1, high, high.saturating_add(1), most - 1, most];
    numbers.retain(|number| *number <= most);
    numbers.sort();
    numbers.dedup();
    numbers
}

fn refusal<T>(answer: &Result<T, u32>) -> u32 {
    *answer.as_ref().err().unwrap_or(&0)
}

// ---- the version

#[test]
fn version() {
    let [major, minor, patch] = depot_host::version();
    assert!(minor < 1_000 && patch < 1_000);
    // SAFETY: the call is lent nothing.
    assert_eq!(unsafe { ffi::depot_version() }, 1_000_000 * major + 1_000 * minor + patch);
}

// ---- job sheets

const PLAIN: Job = Job { label_len: 1, modules: 1, minutes: 1, earlier: 0, departure: 0, arrival: 0 };

/// A job with each figure at each of its edges, in a list of n jobs.
fn edge_jobs(n: u32) -> Vec<Job> {
    let mut jobs = vec![PLAIN];
    jobs.extend(around(1, LONGEST_LABEL as u32, 255).iter().map(|x| Job { label_len: *x as u8, ..PLAIN }));
    jobs.extend(around(1, 64, 255).iter().map(|x| Job { modules: *x as u8, ..PLAIN }));
    jobs.extend(around(1, 1440, 65535).iter().map(|x| Job { minutes: *x as u16, ..PLAIN }));
    jobs.extend([1, 1 << (n - 1), 1 << n, 1 << 31, (1 << n) - 1, u32::MAX].map(|earlier| Job { earlier, ..PLAIN }));
    jobs.extend(around(0, 2880, 65535).iter().map(|x| Job { departure: *x as u16, ..PLAIN }));
    jobs.extend(around(0, 1440, 65535).iter().map(|x| Job { arrival: *x as u16, ..PLAIN }));
    jobs.push(Job { departure: 0, arrival: 1440, ..PLAIN });
    jobs.push(Job { departure: 2880, arrival: 1441, ..PLAIN });
    jobs
}

/// So many jobs, each behind the one before it, and the last of them as given.
fn chain(n: usize, last: Job) -> Vec<Job> {
    let mut jobs: Vec<Job> = (0..n as u32).map(|j| Job { earlier: (1 << j) >> 1, ..PLAIN }).collect();
    jobs[n - 1] = Job { earlier: last.earlier | jobs[n - 1].earlier, ..last };
    jobs
}

/// The parts of the sheet of these jobs.
fn parts(jobs: Vec<Job>, modules: u16) -> Sheet {
    let length = jobs.iter().map(|job| usize::from(job.label_len)).sum();
    Sheet { labels: vec![b'~'; length], offset: length as u32, count: jobs.len() as u16, modules, changeover: 0, jobs }
}

fn longest() -> Sheet {
    let longest_labels = chain(MOST_JOBS, PLAIN).into_iter().map(|job| Job {
        label_len: LONGEST_LABEL as u8,
        minutes: 1440,
        arrival: 1440,
        ..job
    });
    Sheet { changeover: 30, ..parts(longest_labels.collect(), 64) }
}

/// Sheets at the edges of what reading and planning check.
fn edge_sheets() -> Vec<Vec<u8>> {
    let mut sheets: Vec<Sheet> = around(1, 64, 65535).iter().map(|modules| parts(vec![], *modules as u16)).collect();
    for changeover in around(0, 30, 65535).into_iter().map(|minutes| minutes as u16) {
        sheets.push(Sheet { changeover, ..parts(vec![], 1) });
        sheets.push(Sheet { changeover, ..parts(chain(MOST_JOBS, PLAIN), 64) });
        // 3 comes before 19, and 19 before 4 and 5
        sheets.push(Sheet { changeover, ..parts(vec![PLAIN], 65) });
        sheets.push(Sheet { changeover, offset: 2, ..parts(vec![PLAIN], 1) });
        sheets.push(Sheet { changeover, ..parts(vec![Job { minutes: 0, ..PLAIN }], 1) });
    }
    for n in [1, MOST_JOBS] {
        sheets.extend(edge_jobs(n as u32).iter().map(|job| parts(chain(n, *job), 64)));
    }
    for byte in [0, 31, 32, 33, 126, 127, 255] {
        sheets.push(Sheet { labels: vec![byte], ..parts(vec![PLAIN], 1) });
        for place in 0..3 {
            let mut sheet = parts(vec![Job { label_len: 3, ..PLAIN }], 1);
            sheet.labels[place] = byte;
            sheets.push(sheet);
        }
    }
    for lengths in [[1, 2], [2, 1]] {
        let jobs = lengths.map(|label_len| Job { label_len, ..PLAIN });
        sheets.push(Sheet { labels: b"A B".to_vec(), ..parts(jobs.to_vec(), 1) });
    }
    for count in [0, 1, 2, 20, 21, 65535] {
        sheets.push(Sheet { count, ..parts(vec![PLAIN], 1) });
    }
    for offset in [0, 1, 2, u32::MAX - 21, u32::MAX] {
        sheets.push(Sheet { offset, ..parts(vec![PLAIN], 1) });
    }
    sheets.push(parts(chain(MOST_JOBS + 1, PLAIN), 64));
    sheets.push(longest());
    let mut bytes: Vec<Vec<u8>> = sheets.iter().map(Sheet::bytes).collect();
    assert!(bytes.iter().any(|sheet| sheet.len() == LONGEST_SHEET));
    for length in [0, 1, 9, 10, 11, LONGEST_SHEET - 1, LONGEST_SHEET, LONGEST_SHEET + 1, 1 << 16] {
        bytes.push(vec![0; length]);
        bytes.push([vec![b'~'; length], longest().bytes()].concat());
    }
    bytes
}

#[test]
fn planning() {
    let zeros = [0; 4096];
    for sheet in edge_sheets() {
        let n = reference::reading::read(&sheet).map_or(0, |sheet| sheet.jobs.len());
        let whole = card_length(n);
        for room in [0, 7, 8, whole - 1, whole, whole + 1, card_length(MOST_JOBS)] {
            let expected = reference::planning::plan(&sheet, room);
            for work_length in [0, 1, GROUP - 1, GROUP, GROUP + 1, 4096] {
                let mut planted = vec![0x5A; work_length];
                mislead(&mut planted, n);
                let (lent, card, work) = (Lent::of(&sheet), Lent::painted(room), Lent::of(&planted));
                // SAFETY: three buffers of their own.
                let answer = unsafe { ffi::depot_plan(lent.at(), lent.len(), card.at(), room, work.at(), work_length) };
                assert_eq!(answer, refusal(&expected), "sheet {sheet:02x?}, room {room}");
                assert!(card.has(expected.as_deref().unwrap_or(&[])), "sheet {sheet:02x?}, room {room}");
                assert!(work.has(if answer == 0 { &zeros[..work_length] } else { &planted }), "sheet {sheet:02x?}");
                assert!(lent.has(&sheet));
            }
        }
    }
}

#[test]
fn ends() {
    for sheet in edge_sheets() {
        let expected = reference::planning::end(&sheet);
        for work_length in [0, 1, 64] {
            let (lent, work) = (Lent::of(&sheet), Lent::painted(work_length));
            // SAFETY: two live buffers of these lengths.
            let answer = unsafe { ffi::depot_end(lent.at(), lent.len(), work.at(), work_length) };
            let figures = ffi::Earliest { refusal: refusal(&expected), end: expected.unwrap_or(0) as u16 };
            assert_eq!(answer, figures, "sheet {sheet:02x?}");
            let cleared = if answer.refusal == 0 { vec![0; work_length] } else { Vec::new() };
            assert!(work.has(&cleared) && lent.has(&sheet), "sheet {sheet:02x?}");
        }
    }
}

#[test]
fn uses() {
    for sheet in edge_sheets() {
        let expected = reference::usage::used(&sheet);
        let (per_mille, remainder) = expected.map_or((0, 0), |used| used.per_mille_and_remainder());
        for work_length in [0, 1, 64] {
            let (lent, work) = (Lent::of(&sheet), Lent::painted(work_length));
            // SAFETY: two live buffers of these lengths.
            let answer = unsafe { ffi::depot_use(lent.at(), lent.len(), work.at(), work_length) };
            let figures = ffi::Usage { refusal: refusal(&expected), per_mille: per_mille as u32, remainder: remainder as u32 };
            assert_eq!(answer, figures, "sheet {sheet:02x?}");
            let cleared = if answer.refusal == 0 { vec![0; work_length] } else { Vec::new() };
            assert!(work.has(&cleared) && lent.has(&sheet), "sheet {sheet:02x?}");
        }
    }
}

#[test]
fn slacks() {
    for sheet in edge_sheets() {
        let expected = expected_slack(&sheet);
        for work_length in [0, 1, 64] {
            let (lent, work) = (Lent::of(&sheet), Lent::painted(work_length));
            // SAFETY: two live buffers of these lengths.
            let answer = unsafe { ffi::depot_slack(lent.at(), lent.len(), work.at(), work_length) };
            assert_eq!(answer, expected, "sheet {sheet:02x?}");
            let cleared = if answer.refusal == 0 { vec![0; work_length] } else { Vec::new() };
            assert!(work.has(&cleared) && lent.has(&sheet), "sheet {sheet:02x?}");
        }
    }
}

#[test]
fn plans_within_a_limit() {
    let zeros = [0; 64];
    for sheet in edge_sheets() {
        let n = reference::reading::read(&sheet).map_or(0, |sheet| sheet.jobs.len());
        for limit in [0, 1, NO_LIMIT] {
            for room in [card_length(n) - 1, card_length(n)] {
                let expected = reference::planning::plan(&sheet, room);
                for work_length in [0, 1, 64] {
                    let (lent, card, work) = (Lent::of(&sheet), Lent::painted(room), Lent::painted(work_length));
                    // SAFETY: three buffers of their own.
                    let answer =
                        unsafe { ffi::depot_plan_within(lent.at(), lent.len(), card.at(), room, work.at(), work_length, limit) };
                    let about = format!("sheet {sheet:02x?}, limit {limit}, room {room}");
                    assert_eq!(answer.refusal, refusal(&expected), "{about}");
                    let cleared = if answer.refusal == 0 { &zeros[..work_length] } else { &[] };
                    assert!(work.has(cleared) && lent.has(&sheet), "{about}");
                    match expected {
                        Err(_) => assert!(card.has(&[]) && (answer.end, answer.bound, answer.exact) == (0, 0, 0), "{about}"),
                        Ok(ref bytes) => {
                            assert!(answer.exact == 1 || limit < NO_LIMIT, "{about}");
                            assert!(answer.exact == 0 || card.has(bytes), "{about}");
                            assert!(answer.bound <= answer.end, "{about}");
                        }
                    }
                }
            }
        }
    }
}

#[test]
fn sizes() {
    let zeros = [0; 64];
    for sheet in edge_sheets() {
        let n = reference::reading::read(&sheet).map_or(0, |sheet| sheet.jobs.len());
        for by in [0, 10, 28_800, 65_535] {
            for room in [card_length(n) - 1, card_length(n)] {
                let expected = reference::size::size(&sheet, by.into(), room);
                for work_length in [0, 1, 64] {
                    let (lent, card, work) = (Lent::of(&sheet), Lent::painted(room), Lent::painted(work_length));
                    // SAFETY: three buffers of their own.
                    let answer = unsafe { ffi::depot_size(lent.at(), lent.len(), by, card.at(), room, work.at(), work_length) };
                    let (modules, bytes) = expected.clone().unwrap_or_default();
                    let figures = ffi::Sized { refusal: refusal(&expected), modules: modules as u16 };
                    assert_eq!(answer, figures, "sheet {sheet:02x?}, by {by}, room {room}");
                    let cleared = if answer.refusal == 0 { &zeros[..work_length] } else { &[] };
                    assert!(
                        card.has(&bytes) && work.has(cleared) && lent.has(&sheet),
                        "sheet {sheet:02x?}, by {by}, room {room}"
                    );
                }
            }
        }
    }
}

#[test]
fn reading() {
    for sheet in edge_sheets() {
        let lent = Lent::of(&sheet);
        // SAFETY: a buffer of its own.
        let answer = unsafe { ffi::depot_read(lent.at(), lent.len()) };
        let expected = reference::reading::read(&sheet);
        assert_eq!(answer.refusal, refusal(&expected), "sheet {sheet:02x?}");
        assert_eq!(answer.count, expected.as_ref().map_or(0, |sheet| sheet.jobs.len()));
        assert_eq!(usize::from(answer.modules), expected.as_ref().map_or(0, |sheet| sheet.modules));
        assert_eq!(u32::from(answer.changeover), expected.as_ref().map_or(0, |sheet| sheet.changeover));
        assert!(lent.has(&sheet));
        // what was read writes the same sheet; what was refused has no jobs
        let (jobs, behind) = answer.jobs.split_at(answer.count);
        if expected.is_ok() {
            let labels = &sheet[..sheet.len() - 12 * jobs.len() - 10];
            assert_eq!(reference::writing::write(jobs, labels, answer.modules, answer.changeover, sheet.len()), Ok(sheet));
        }
        assert!(behind.iter().all(|job| *job == Job::default()));
    }
}

#[test]
fn job_sets() {
    for sheet in edge_sheets() {
        let lent = Lent::of(&sheet);
        // SAFETY: a buffer of its own.
        let answer = unsafe { ffi::depot_sets(lent.at(), lent.len()) };
        let expected = reference::sets::sets(&sheet);
        let sets = *expected.as_ref().unwrap_or(&0);
        assert_eq!(answer, ffi::SetCount { refusal: refusal(&expected), sets }, "sheet {sheet:02x?}");
        assert!(lent.has(&sheet));
    }
}

#[test]
fn labels() {
    for sheet in edge_sheets() {
        let n = reference::reading::read(&sheet).map_or(0, |sheet| sheet.jobs.len());
        for job in [0, 1, n.saturating_sub(1), n, MOST_JOBS - 1, MOST_JOBS, u32::MAX as usize, usize::MAX] {
            let lent = Lent::of(&sheet);
            // SAFETY: a buffer of its own.
            let answer = unsafe { ffi::depot_label(lent.at(), lent.len(), job) };
            let expected = reference::reading::label(&sheet, job);
            let (offset, length) = expected.as_ref().map_or((0, 0), |range| (range.start, range.len()));
            assert_eq!(answer, ffi::LabelPlace { refusal: refusal(&expected), offset, length }, "job {job} of {sheet:02x?}");
            assert!(lent.has(&sheet));
        }
    }
}

/// A label from a reading, whatever the reading is: one that was answered gives what the label call gives for its sheet.
#[test]
fn labels_of_readings() {
    for sheet in edge_sheets() {
        let lent = Lent::of(&sheet);
        // SAFETY: a buffer of its own.
        let reading = unsafe { ffi::depot_read(lent.at(), lent.len()) };
        for job in [0, 1, reading.count.saturating_sub(1), reading.count, MOST_JOBS - 1, MOST_JOBS, usize::MAX] {
            // SAFETY: the same buffer, and a call that is lent nothing.
            let (of_sheet, of_reading) =
                unsafe { (ffi::depot_label(lent.at(), lent.len(), job), ffi::depot_label_of(reading, job)) };
            assert_eq!(of_reading, of_sheet, "job {job} of {sheet:02x?}");
        }
    }
    for (label_len, refusal, count) in [0, 1, 16, 255].into_iter().flat_map(|length| {
        let counts = [0, 1, MOST_JOBS - 1, MOST_JOBS, MOST_JOBS + 1, usize::MAX];
        counts.into_iter().flat_map(move |count| [0, 1, 14, u32::MAX].map(|refusal| (length, refusal, count)))
    }) {
        let reading =
            ffi::Reading { refusal, jobs: [Job { label_len, ..Job::default() }; MOST_JOBS], count, modules: 0, changeover: 0 };
        for job in [0, 1, MOST_JOBS - 1, MOST_JOBS, MOST_JOBS + 1, usize::MAX] {
            // SAFETY: the call is lent nothing.
            let answer = unsafe { ffi::depot_label_of(reading, job) };
            let expected = match refusal {
                0 if job < count && job < MOST_JOBS => {
                    let length = usize::from(label_len);
                    ffi::LabelPlace { refusal: 0, offset: job * length, length }
                }
                0 => ffi::LabelPlace { refusal: 14, offset: 0, length: 0 },
                number => ffi::LabelPlace { refusal: number, offset: 0, length: 0 },
            };
            assert_eq!(answer, expected, "job {job} of {reading:?}");
        }
    }
}

fn write_and_compare(jobs: &[Job], labels: &[u8], modules: u16, changeover: u16, room: usize) {
    let out = Lent::painted(room);
    // SAFETY: a buffer of its own, and two slices that are read.
    let answer = unsafe {
        ffi::depot_write(jobs.as_ptr(), jobs.len(), labels.as_ptr(), labels.len(), modules, changeover, out.at(), out.len())
    };
    let expected = reference::writing::write(jobs, labels, modules, changeover, room);
    let written = expected.as_deref().unwrap_or(&[]);
    let about = || format!("{jobs:?}, {} label bytes, modules {modules}, changeover {changeover}, room {room}", labels.len());
    assert_eq!(answer, ffi::Written { refusal: refusal(&expected), length: written.len() }, "{}", about());
    assert!(out.has(written), "{}", about());
}

#[test]
fn writing() {
    let mut lists = vec![vec![], longest().jobs, chain(MOST_JOBS + 1, PLAIN), vec![PLAIN; 1000]];
    for n in [1, MOST_JOBS] {
        lists.extend(edge_jobs(n as u32).iter().map(|job| chain(n, *job)));
    }
    for jobs in lists {
        let whole: usize = jobs.iter().map(|job| usize::from(job.label_len)).sum();
        let length = whole + 12 * jobs.len() + 10;
        for labels in [0, whole.saturating_sub(1), whole, whole + 1] {
            for modules in around(1, 64, 65535) {
                for room in [0, 9, length - 1, length, length + 1, LONGEST_SHEET] {
                    for changeover in [0, 30, 31] {
                        write_and_compare(&jobs, &vec![b'!'; labels], modules as u16, changeover, room);
                    }
                }
            }
        }
    }
    for byte in [0, 32, 33, 126, 127, 255] {
        write_and_compare(&[PLAIN], &[byte], 1, 0, LONGEST_SHEET);
    }
    for changeover in around(0, 30, 65535) {
        write_and_compare(&[PLAIN], b"A", 1, changeover as u16, LONGEST_SHEET);
    }
}

// ---- the desk

fn bytes_of(desk: &Desk) -> Vec<u8> {
    let lists = [desk.held, desk.assured, desk.ceiling].concat();
    [desk.count, desk.limit].iter().chain(&lists).flat_map(|figure| figure.to_le_bytes()).collect()
}

/// Makes a call on a lent desk: the answer and the desk are the expected ones; refused, the desk is as before.
fn call_on(desk: &Desk, expected: Result<Desk, u32>, call: impl Fn(*mut Desk) -> u32) {
    let lent = Lent::of(&bytes_of(desk));
    assert_eq!(call(lent.at()), refusal(&expected), "{desk:?}");
    assert!(lent.has(&bytes_of(&expected.unwrap_or(*desk))), "{desk:?}");
}

#[test]
fn openings() {
    let kept = Desk { count: 3, limit: u32::MAX, held: [7; 8], ..Desk::default() };
    for limit in around(1, MOST_POWER, u32::MAX) {
        for (shares, tops) in (0..=9).flat_map(|shares| (0..=9).map(move |tops| (shares, tops))) {
            for share in [0, 1, limit / shares.max(1) as u32, limit, u32::MAX] {
                for top in [0, 1, limit.saturating_sub(1), limit, limit.saturating_add(1), u32::MAX] {
                    let (assured, ceilings) = (vec![share; shares], vec![top; tops]);
                    call_on(&kept, reference::desk::open(limit, &assured, &ceilings), |desk| {
                        // SAFETY: a live desk and two slices that are read.
                        unsafe { ffi::depot_desk_open(desk, limit, assured.as_ptr(), shares, ceilings.as_ptr(), tops) }
                    });
                }
            }
        }
    }
}

#[test]
fn changes() {
    for desk in edge_desks() {
        let held: u32 = desk.held.iter().fold(0, |sum, held| sum.wrapping_add(*held));
        let count = desk.count.min(9) as usize;
        for limit in [0, 1, held.wrapping_sub(1), held, desk.limit, MOST_POWER, MOST_POWER + 1, u32::MAX] {
            for (shares, tops) in [(0, 0), (1, 1), (2, 2), (8, 8), (9, 9), (count, count), (count, count + 1), (count + 1, count)]
            {
                for share in [0, 1, limit / shares.max(1) as u32, u32::MAX] {
                    for top in [0, desk.held[0].wrapping_sub(1), desk.held[0], limit, limit.saturating_add(1)] {
                        let (assured, ceilings) = (vec![share; shares], vec![top; tops]);
                        call_on(&desk, reference::desk::change(&desk, limit, &assured, &ceilings), |desk| {
                            // SAFETY: a live desk and two slices that are read.
                            unsafe { ffi::depot_desk_change(desk, limit, assured.as_ptr(), shares, ceilings.as_ptr(), tops) }
                        });
                    }
                }
            }
        }
    }
}

/// Desks at the edges of what calls can leave, and desks that they cannot.
fn edge_desks() -> Vec<Desk> {
    let mut desks = vec![Desk::default()];
    for count in [2, 8] {
        for limit in [1, 8, MOST_POWER] {
            for share in [0, 1, limit / count] {
                let shares = vec![share; count as usize];
                if let Ok(desk) = reference::desk::open(limit, &shares, &vec![limit; count as usize]) {
                    let room = reference::desk::look(&desk, 0).unwrap();
                    desks.push(desk);
                    desks.extend(reference::desk::claim(&desk, 0, room));
                    desks.push(Desk { count: desk.count - 1, ..desk });
                    desks.push(Desk { count: u32::MAX, ..desk });
                    desks.push(Desk { held: [u32::MAX; 8], ..desk });
                    desks.push(Desk { held: [0, 0, 0, 0, 0, 0, 0, limit + 1], ..desk });
                    desks.push(Desk { limit: u32::MAX, ..desk });
                }
            }
        }
    }
    let most = [u32::MAX; 8];
    desks.push(Desk { count: u32::MAX, limit: u32::MAX, held: most, assured: most, ceiling: most });
    desks
}

#[test]
fn claims_hand_backs_and_looks() {
    for desk in edge_desks() {
        for controller in [0, 1, desk.count.saturating_sub(1), desk.count, 7, 8, u32::MAX] {
            let room = reference::desk::look(&desk, controller).unwrap_or(1);
            let held = *desk.held.get(controller as usize).unwrap_or(&1);
            for bound in [0, 1, room, held, MOST_POWER, u32::MAX - held, u32::MAX - room, u32::MAX] {
                for power in [bound.saturating_sub(1), bound, bound.saturating_add(1)] {
                    call_on(&desk, reference::desk::claim(&desk, controller, power), |desk| {
                        // SAFETY: a live desk.
                        unsafe { ffi::depot_desk_claim(desk, controller, power) }
                    });
                    call_on(&desk, reference::desk::hand_back(&desk, controller, power), |desk| {
                        // SAFETY: a live desk.
                        unsafe { ffi::depot_desk_hand_back(desk, controller, power) }
                    });
                }
            }
            let expected = reference::desk::look(&desk, controller);
            call_on(&desk, expected.map(|_| desk), |lent| {
                // SAFETY: a live desk, which is read.
                let looked = unsafe { ffi::depot_desk_look(lent, controller) };
                assert_eq!(looked.power, expected.unwrap_or(0), "{desk:?}");
                looked.refusal
            });
        }
    }
}

// ---- the plan runner

/// A desk of 8 controllers that assures number 7 of all that a feeder can have.
fn generous() -> Desk {
    let assured = [0, 0, 0, 0, 0, 0, 0, MOST_POWER];
    reference::desk::open(MOST_POWER, &assured, &[MOST_POWER; 8]).unwrap()
}

/// Starts a runner through the exported call: the answer is the expected one.
fn start(sheet: &[u8], card: &[u8], desk: Desk, controller: u32, size: u32) -> ffi::Started {
    let (lent, lent_card) = (Lent::of(sheet), Lent::of(card));
    // SAFETY: two buffers of their own, which are read.
    let answer =
        unsafe { ffi::depot_runner_start(lent.at(), lent.len(), lent_card.at(), lent_card.len(), desk, controller, size) };
    let expected = Follower::start(sheet, card, &desk, controller, size);
    let runner = expected.as_ref().map_or(Runner::NONE, Follower::shown);
    let about = format!("controller {controller}, size {size}, {desk:?}, card {card:02x?} for {sheet:02x?}");
    assert_eq!(answer, ffi::Started { refusal: refusal(&expected), runner }, "{about}");
    assert!(lent.has(sheet) && lent_card.has(card), "{about}");
    answer
}

/// Does a runner's minute through the exported call: the answer, the desk and the runner are the expected ones.
fn step(runner: Runner, desk: Desk) -> u32 {
    // SAFETY: the call is lent nothing.
    let answer = unsafe { ffi::depot_runner_step(runner, desk) };
    let mut follower = Follower::left_as(&runner);
    let stepped = follower.as_mut().map_or(Err(14), |follower| follower.step(&desk));
    let left = follower.map_or(runner, |follower| follower.shown());
    let expected = ffi::Stepped { refusal: refusal(&stepped), desk: stepped.unwrap_or(desk), runner: left };
    assert_eq!(answer, expected, "{runner:?} on {desk:?}");
    answer.refusal
}

/// The card of a sheet that is planned, else that of no jobs.
fn card_of(sheet: &[u8]) -> Vec<u8> {
    reference::planning::plan(sheet, card_length(MOST_JOBS)).unwrap_or(vec![0; 8])
}

#[test]
fn starts() {
    for sheet in edge_sheets() {
        let card = card_of(&sheet);
        let modules = reference::reading::read(&sheet).map_or(1, |sheet| sheet.modules) as u32;
        let most = MOST_POWER / modules;
        for size in [0, 1, most, most + 1, 9_999, 10_000, 10_001, u32::MAX] {
            for controller in [6, 7, 8, u32::MAX] {
                start(&sheet, &card, generous(), controller, size);
            }
        }
        let longer = [&card[..], &[0]].concat();
        for card in [&[], &card[..7], &card[..card.len() - 1], &longer, &[0; 300]] {
            start(&sheet, card, generous(), 7, 1);
        }
        for desk in edge_desks() {
            start(&sheet, &card, desk, 0, 1);
        }
    }
}

/// The card of the job of one minute that starts then.
fn one_minute_card(start: u16) -> Vec<u8> {
    let (from, to) = (start.to_le_bytes(), start.wrapping_add(1).to_le_bytes());
    [&from[..], &to, &[1, 0, 0, 0, 0, 0, 0, 0, 0, 12, 0, 0, 0], &to, &[1, 0]].concat()
}

/// A job may end at minute 65,535 and no later; with a changeover its hand-back comes up to 30 minutes behind.
#[test]
fn the_latest_cards() {
    for changeover in [0, 30] {
        let sheet = Sheet { changeover, ..parts(vec![PLAIN], 1) }.bytes();
        for (from, number) in [(0, 0), (65_533, 0), (65_534, 0), (65_535, 26)] {
            let started = start(&sheet, &one_minute_card(from), generous(), 7, 10_000);
            assert_eq!(started.refusal, number);
            for minute in [0, 1, u32::from(from), u32::from(from) + 1, 65_535, 65_536, 65_565, 65_566, 65_567, u32::MAX] {
                step(Runner { minute, ..started.runner }, generous());
            }
        }
    }
}

/// Runners at the edges of what starts and steps can leave, and past them, at each minute of interest.
#[test]
fn steps() {
    assert_eq!(step(Runner::NONE, generous()), 14);
    let none = Runner { sheet: [u8::MAX; LONGEST_SHEET], card: [u8::MAX; LONGEST_CARD], ..Runner::NONE };
    assert_eq!(step(Runner { controller: u32::MAX, sheet_len: usize::MAX, card_len: usize::MAX, ..none }, generous()), 14);
    for sheet in [parts(vec![], 64), parts(chain(2, PLAIN), 64), longest()] {
        let sheet = sheet.bytes();
        let runner = start(&sheet, &card_of(&sheet), generous(), 7, 300).runner;
        let (end, changeover) = reference::planning::end(&sheet).map(|end| (end, u32::from(sheet[sheet.len() - 2]))).unwrap();
        for minute in [0, 1, end, end + changeover, end + changeover + 1, end + changeover + 2, u32::MAX] {
            step(Runner { minute, ..runner }, generous());
        }
        for controller in [0, 6, 7, 8, u32::MAX] {
            step(Runner { controller, ..runner }, generous());
        }
        for size in [0, 1, MOST_POWER / 64, MOST_POWER / 64 + 1, 10_000, 10_001, u32::MAX] {
            step(Runner { size, ..runner }, generous());
        }
        for sheet_len in [0, 9, 10, runner.sheet_len - 1, runner.sheet_len + 1, LONGEST_SHEET, LONGEST_SHEET + 1, usize::MAX] {
            step(Runner { sheet_len, ..runner }, generous());
        }
        for card_len in [0, 7, runner.card_len - 1, runner.card_len + 1, LONGEST_CARD, LONGEST_CARD + 1, usize::MAX] {
            step(Runner { card_len, ..runner }, generous());
        }
        for place in [0, runner.sheet_len - 1, runner.sheet_len.min(LONGEST_SHEET - 1), LONGEST_SHEET - 1] {
            let mut damaged = runner;
            damaged.sheet[place] ^= 0x80;
            assert_eq!(step(damaged, generous()), 14);
        }
        for place in [0, runner.card_len - 1, runner.card_len.min(LONGEST_CARD - 1), LONGEST_CARD - 1] {
            let mut damaged = runner;
            damaged.card[place] ^= 0x80;
            assert_eq!(step(damaged, generous()), 14);
        }
        for desk in edge_desks() {
            for controller in [0, 1, 7] {
                step(Runner { controller, ..runner }, desk);
            }
        }
    }
}

// ---- empty buffers

/// The pointer of an empty buffer is not looked at.
#[test]
fn empty_buffers_may_have_any_pointer() {
    let mut desk = Desk::default();
    let mut sheet = [0; 10];
    // SAFETY: buffers of no elements, beside a live desk and a live sheet.
    unsafe {
        assert_eq!(ffi::depot_plan(null_mut(), 0, null_mut(), 0, null_mut(), 0), 1);
        assert_eq!(ffi::depot_end(null_mut(), 0, null_mut(), 0).refusal, 1);
        let limited = ffi::Limited { refusal: 1, end: 0, bound: 0, exact: 0 };
        assert_eq!(ffi::depot_plan_within(null_mut(), 0, null_mut(), 0, null_mut(), 0, 0), limited);
        assert_eq!(ffi::depot_size(null_mut(), 0, 0, null_mut(), 0, null_mut(), 0), ffi::Sized { refusal: 1, modules: 0 });
        assert_eq!(ffi::depot_use(null_mut(), 0, null_mut(), 0), ffi::Usage { refusal: 1, per_mille: 0, remainder: 0 });
        assert_eq!(ffi::depot_slack(null_mut(), 0, null_mut(), 0).refusal, 1);
        assert_eq!(ffi::depot_read(null_mut(), 0).refusal, 1);
        assert_eq!(ffi::depot_sets(null_mut(), 0), ffi::SetCount { refusal: 1, sets: 0 });
        assert_eq!(ffi::depot_label(null_mut(), 0, 0).refusal, 1);
        assert_eq!(ffi::depot_write(null_mut(), 0, null_mut(), 0, 1, 7, null_mut(), 0).refusal, 10);
        assert_eq!(ffi::depot_write(null_mut(), 0, null_mut(), 0, 1, 7, sheet.as_mut_ptr(), 10).length, 10);
        assert_eq!(ffi::depot_desk_open(&mut desk, 1, null_mut(), 0, null_mut(), 0), 11);
        assert_eq!(ffi::depot_desk_change(&mut desk, 1, null_mut(), 0, null_mut(), 0), 14);
        assert_eq!(ffi::depot_runner_start(null_mut(), 0, null_mut(), 0, desk, 0, 0).refusal, 1);
        assert_eq!(ffi::depot_runner_start(sheet.as_ptr(), 10, null_mut(), 0, generous(), 7, 1).refusal, 26);
    }
    assert_eq!(sheet, [0, 0, 0, 0, 0, 0, 1, 0, 7, 0]);
}
