//! The examples E1 to E11 of docs/REQUIREMENTS.md, the plan runner on them, and the edges of a sheet, through the exported calls.
use depot_host::raw_sheet::Sheet;
use depot_host::{card_length, plan, sets, size, slack, usage, Card, Desk, Job, JobSlack, Refusal, Runner, Usage, LONGEST_SHEET};

/// A job of so many modules and minutes that waits for the jobs of a set.
fn job(modules: u8, minutes: u16, earlier: u32) -> Job {
    Job { modules, minutes, earlier, ..Job::default() }
}

/// The end and the order on the card of these jobs.
fn planned(modules: u16, jobs: Vec<Job>) -> Result<(u16, Vec<u8>), Refusal> {
    resting(modules, 0, jobs)
}

/// The same where modules rest between two jobs.
fn resting(modules: u16, changeover: u16, jobs: Vec<Job>) -> Result<(u16, Vec<u8>), Refusal> {
    let n = jobs.len();
    let mut card = vec![0; card_length(n)];
    plan(&Sheet { changeover, ..Sheet::of(modules, jobs) }.bytes(), &mut card, &mut [0; 4096])?;
    Ok((u16::from_le_bytes([card[13 * n + 4], card[13 * n + 5]]), card[12 * n..13 * n].to_vec()))
}

#[test]
fn e1() {
    let sheet = [
        0x41, 0x42, 0x43, 0x01, 0x01, 0x0A, 0x00, 0x00, 0x00, 0x00, 0x00, 0x1E, 0x00, 0x00, 0x00, 0x01, 0x02, 0x14, 0x00, 0x00,
        0x00, 0x00, 0x00, 0x19, 0x00, 0x00, 0x00, 0x01, 0x01, 0x0A, 0x00, 0x00, 0x00, 0x00, 0x00, 0x1E, 0x00, 0x00, 0x00, 0x03,
        0x00, 0x00, 0x00, 0x03, 0x00, 0x02, 0x00, 0x00, 0x00,
    ];
    let mut card = [0xEE; 48];
    assert_eq!(plan(&sheet, &mut card, &mut []), Ok(()));
    let rows =
        [[0, 0, 10, 0, 1, 0, 0, 0, 0, 0, 0, 0], [10, 0, 30, 0, 3, 0, 0, 0, 0, 0, 0, 0], [0, 0, 10, 0, 2, 0, 0, 0, 0, 0, 0, 0]];
    assert_eq!(card[..36], rows.concat());
    assert_eq!(card[36..], [0, 2, 1, 36, 0, 0, 0, 30, 0, 3, 0, 0xEE]);
}

#[test]
fn e2_to_e8() {
    let mut card = [1; 8];
    assert_eq!(plan(&Sheet::of(1, vec![]).bytes(), &mut card, &mut []), Ok(()));
    assert_eq!(card, [0; 8]);
    assert_eq!(planned(1, vec![job(2, 1, 0)]), Err(Refusal::OverWide));
    assert_eq!(planned(1, vec![job(1, 1, 2), job(1, 1, 1)]), Err(Refusal::Circular));
    assert_eq!(planned(1, vec![job(1, 1, 1)]), Err(Refusal::Circular));
    assert_eq!(planned(1, vec![job(1, 1, 2), job(2, 1, 1)]), Err(Refusal::OverWide));
    assert_eq!(planned(2, vec![job(1, 10, 0), job(1, 10, 0), job(1, 20, 0)]), Ok((20, vec![0, 2, 1])));
    let e8 = vec![job(1, 1, 0), job(1, 10, 0), job(2, 1, 1), job(1, 10, 4)];
    assert_eq!(planned(2, e8), Ok((12, vec![0, 2, 1, 3])));
}

/// The least counts of F-5's table: E1 by each minute, no jobs, a job that is wider than its cabinet, E6, and a job that no cabinet has room for.
#[test]
fn least_counts() {
    let sized = |modules, jobs: Vec<Job>, by| {
        let mut card = vec![0; card_length(jobs.len())];
        size(&Sheet::of(modules, jobs).bytes(), by, &mut card, &mut []).map(|count| (count, Card::of(&card).expect("a card")))
    };
    let e1 = || vec![job(1, 10, 0), job(2, 20, 0), job(1, 10, 0)];
    let count_and_end = |by| sized(2, e1(), by).map(|(count, card)| (count, card.end, card.order));
    for by in [0, 19] {
        assert_eq!(count_and_end(by), Err(Refusal::NoCountServes));
    }
    for by in [20, 29] {
        assert_eq!(count_and_end(by), Ok((3, 20, vec![0, 1, 2])));
    }
    for by in [30, 65_535] {
        assert_eq!(count_and_end(by), Ok((2, 30, vec![0, 2, 1])));
    }
    assert_eq!(sized(1, vec![], 0).map(|(count, card)| (count, card.end)), Ok((1, 0)));
    assert_eq!(sized(1, vec![job(3, 5, 0)], 5).map(|(count, card)| (count, card.end)), Ok((3, 5)));
    assert_eq!(sized(1, vec![job(2, 1, 2), job(1, 1, 1)], 65_535).map(|(count, _)| count), Err(Refusal::Circular));
    assert_eq!(sized(64, vec![job(65, 5, 0)], 65_535).map(|(count, _)| count), Err(Refusal::NoCountServes));
}

/// The job sets of E1 to E4 and E8: a chain of three beside a free job has 4 times 2.
#[test]
fn job_sets() {
    let counted = |modules, jobs| sets(&Sheet::of(modules, jobs).bytes());
    assert_eq!(counted(2, vec![job(1, 10, 0), job(2, 20, 0), job(1, 10, 0)]), Ok(8));
    assert_eq!(counted(1, vec![]), Ok(1));
    assert_eq!(counted(1, vec![job(2, 1, 0)]), Err(Refusal::OverWide));
    assert_eq!(counted(1, vec![job(1, 1, 2), job(1, 1, 1)]), Err(Refusal::Circular));
    assert_eq!(counted(2, vec![job(1, 1, 0), job(1, 10, 0), job(2, 1, 1), job(1, 10, 4)]), Ok(8));
}

/// The use of the cabinet: all of it in E1, 60 of 70 module-minutes with a changeover of 5, 23 of 24 in E8.
#[test]
fn use_of_the_cabinet() {
    let used = |modules, changeover, jobs| usage(&Sheet { changeover, ..Sheet::of(modules, jobs) }.bytes(), &mut [0; 4096]);
    let e1 = || vec![job(1, 10, 0), job(2, 20, 0), job(1, 10, 0)];
    assert_eq!(used(2, 0, e1()), Ok(Usage { per_mille: 1000, remainder: 0 }));
    assert_eq!(used(2, 5, e1()), Ok(Usage { per_mille: 857, remainder: 10 }));
    let e8 = vec![job(1, 1, 0), job(1, 10, 0), job(2, 1, 1), job(1, 10, 4)];
    assert_eq!(used(2, 0, e8), Ok(Usage { per_mille: 958, remainder: 8 }));
    assert_eq!(used(64, 0, vec![arriving(1440, job(1, 1, 0))]), Ok(Usage { per_mille: 0, remainder: 1000 }));
    assert_eq!(used(1, 0, vec![]), Err(Refusal::NoJobs));
    assert_eq!(used(1, 0, vec![job(1, 1, 2), job(1, 1, 1)]), Err(Refusal::Circular));
}

/// The slack of E1 to E4: E1's departures are 30, 25 and 30.
#[test]
fn slacks() {
    let given = |modules, jobs| slack(&Sheet::of(modules, jobs).bytes(), &mut []);
    let by = |departure, job| Job { departure, ..job };
    let free = |latest_start, slack| JobSlack { latest_start, slack, implied: 0 };
    let e1 = vec![by(30, job(1, 10, 0)), by(25, job(2, 20, 0)), by(30, job(1, 10, 0))];
    assert_eq!(given(2, e1), Ok(vec![free(20, 20), free(5, -5), free(20, 20)]));
    assert_eq!(given(1, vec![]), Ok(vec![]));
    assert_eq!(given(1, vec![job(2, 1, 0)]), Err(Refusal::OverWide));
    assert_eq!(given(1, vec![job(1, 1, 2), job(1, 1, 1)]), Err(Refusal::Circular));
}

#[test]
fn e9_to_e11() {
    let mut desk = Desk::open(10, &[4, 3], &[10, 10]).unwrap();
    assert_eq!((desk.look(0), desk.look(1)), (Ok(7), Ok(6)));
    assert_eq!(desk.claim(0, 7), Ok(()));
    assert_eq!(desk.claim(0, 1), Err(Refusal::DoesNotFit));
    assert_eq!(desk.claim(1, 3), Ok(()));
    assert_eq!(desk.claim(1, 1), Err(Refusal::DoesNotFit));
    assert_eq!(desk.hand_back(0, 8), Err(Refusal::ExceedsHolding));
    assert_eq!(desk.hand_back(0, 7), Ok(()));
    assert_eq!(Desk::open(10, &[6, 5], &[10, 10]), Err(Refusal::SharesExceedLimit));
    assert!(Desk::open(10, &[5, 5], &[10, 10]).is_ok());
}

/// E9 and E10 with modules of 30 kW: every figure times 300.
#[test]
fn e9_and_e10_in_hundreds_of_watts() {
    let mut desk = Desk::open(3_000, &[1_200, 900], &[3_000, 3_000]).unwrap();
    assert_eq!((desk.look(0), desk.look(1)), (Ok(2_100), Ok(1_800)));
    assert_eq!(desk.claim(0, 2_100), Ok(()));
    assert_eq!(desk.claim(0, 300), Err(Refusal::DoesNotFit));
    assert_eq!(desk.claim(1, 900), Ok(()));
    assert_eq!(desk.claim(1, 300), Err(Refusal::DoesNotFit));
    assert_eq!(desk.hand_back(0, 2_400), Err(Refusal::ExceedsHolding));
    assert_eq!(desk.hand_back(0, 2_100), Ok(()));
}

/// E1's plan on E9's desk with modules of 30 kW: what controller 0 holds behind each minute, beside a greedy neighbour.
#[test]
fn e1_followed_on_e9() {
    for (changeover, begins, ends) in [(0, 10, 30), (5, 15, 35)] {
        let jobs = vec![job(1, 10, 0), job(2, 20, 0), job(1, 10, 0)];
        let sheet = Sheet { changeover, ..Sheet::of(2, jobs) }.bytes();
        let mut card = [0; card_length(3)];
        plan(&sheet, &mut card, &mut []).unwrap();
        let mut desk = Desk::open(3_000, &[1_200, 900], &[3_000, 3_000]).unwrap();
        assert_eq!(Runner::start(&sheet, &card, &desk, 0, 601), Err(Refusal::NotReady));
        assert_eq!(Runner::start(&sheet, &card, &desk, 0, 0), Err(Refusal::ModuleSize));
        assert_eq!(Runner::start(&sheet, &card[..46], &desk, 0, 300), Err(Refusal::CardUnfit));
        let mut runner = Runner::start(&sheet, &card, &desk, 0, 300).unwrap();
        let last = ends + u32::from(changeover);
        for minute in 0..=last + 2 {
            let _ = desk.claim(1, desk.look(1).unwrap());
            assert_eq!(runner.step(&mut desk), Ok(()), "minute {minute}");
            assert_eq!(runner.minute, (minute + 1).min(last + 1));
            assert_eq!(desk.held[..2], [if minute < last { 600 } else { 0 }, 1_800]);
        }
        let row = &card[12..16];
        assert_eq!([row[0], row[2]].map(u32::from), [begins, ends]);
        runner.minute += 1;
        assert_eq!(runner.step(&mut desk), Err(Refusal::NoSuchNumber));
    }
}

#[test]
fn edges() {
    assert_eq!(planned(1, vec![job(1, 1440, 0)]), Ok((1440, vec![0])));
    assert_eq!(planned(1, vec![job(1, 1441, 0)]), Err(Refusal::RecordField));
    assert_eq!(planned(64, vec![job(64, 1, 0)]), Ok((1, vec![0])));
    assert_eq!(planned(65, vec![job(64, 1, 0)]), Err(Refusal::CabinetSize));
    let one_after_another = |n: u32| (0..n).map(|j| job(1, 1440, (1 << j) >> 1)).collect();
    assert_eq!(planned(1, one_after_another(20)), Ok((28_800, (0..20).collect())));
    assert_eq!(planned(1, one_after_another(21)), Err(Refusal::TooManyJobs));
    let late = |n: u32| -> Vec<Job> { (0..n).map(|j| arriving(1440, job(1, 1440, (1 << j) >> 1))).collect() };
    assert_eq!(planned(1, late(20)), Ok((30_240, (0..20).collect())));
    assert_eq!(planned(1, vec![arriving(1440, job(1, 1, 0))]), Ok((1441, vec![0])));
    assert_eq!(planned(1, vec![arriving(1441, job(1, 1, 0))]), Err(Refusal::RecordField));
    assert_eq!(planned(1, vec![Job { departure: 0, ..arriving(1440, job(1, 1, 0)) }]), Ok((1441, vec![0])));
}

fn arriving(arrival: u16, job: Job) -> Job {
    Job { arrival, ..job }
}

/// E1 with A arriving at 25: B runs first, and the tie rule has A before C, which could run from 20 to 30 and starts at 25.
#[test]
fn e1_with_a_on_the_road() {
    let mut card = [0; card_length(3)];
    let jobs = vec![arriving(25, job(1, 10, 0)), job(2, 20, 0), job(1, 10, 0)];
    assert_eq!(plan(&Sheet::of(2, jobs).bytes(), &mut card, &mut []), Ok(()));
    let rows =
        [[25, 0, 35, 0, 1, 0, 0, 0, 0, 0, 0, 0], [0, 0, 20, 0, 3, 0, 0, 0, 0, 0, 0, 0], [25, 0, 35, 0, 2, 0, 0, 0, 0, 0, 0, 0]];
    assert_eq!(card[..36], rows.concat());
    assert_eq!(card[36..], [1, 0, 2, 36, 0, 0, 0, 35, 0, 3, 0]);
}

/// E1 with modules that rest for 5 minutes: B starts when those of A and C have rested.
#[test]
fn e1_with_a_changeover() {
    let mut card = [0; card_length(3)];
    let jobs = vec![job(1, 10, 0), job(2, 20, 0), job(1, 10, 0)];
    let sheet = Sheet { changeover: 5, ..Sheet::of(2, jobs) };
    assert_eq!(plan(&sheet.bytes(), &mut card, &mut []), Ok(()));
    let rows =
        [[0, 0, 10, 0, 1, 0, 0, 0, 0, 0, 0, 0], [15, 0, 35, 0, 3, 0, 0, 0, 0, 0, 0, 0], [0, 0, 10, 0, 2, 0, 0, 0, 0, 0, 0, 0]];
    assert_eq!(card[..36], rows.concat());
    assert_eq!(card[36..], [0, 2, 1, 36, 0, 0, 0, 35, 0, 3, 0]);
}

/// Neither before the first job nor behind the last of a module is there a rest, and a wait on an earlier job has none.
#[test]
fn where_modules_do_not_rest() {
    assert_eq!(resting(1, 30, vec![job(1, 10, 0)]), Ok((10, vec![0])));
    assert_eq!(resting(2, 30, vec![job(1, 10, 0), job(1, 20, 1)]), Ok((30, vec![0, 1])));
    assert_eq!(resting(1, 30, vec![job(1, 10, 0), job(1, 20, 1)]), Ok((60, vec![0, 1])));
    assert_eq!(resting(1, 30, vec![job(1, 10, 0), job(1, 20, 0)]), Ok((60, vec![0, 1])));
}

#[test]
fn edges_of_the_changeover() {
    assert_eq!(resting(1, 31, vec![job(1, 10, 0)]), Err(Refusal::Changeover));
    assert_eq!(resting(65, 31, vec![job(1, 10, 0)]), Err(Refusal::CabinetSize));
    assert_eq!(resting(1, 31, vec![job(1, 0, 0)]), Err(Refusal::Changeover));
    let late = (0..20).map(|j| arriving(1440, job(1, 1440, (1 << j) >> 1))).collect();
    assert_eq!(resting(1, 30, late), Ok((30_810, (0..20).collect())));
}

/// The longest sheet, of 570 bytes, plans; with a byte more it is too long.
#[test]
fn longest_sheet() {
    let long_label = Job { label_len: 16, ..job(1, 1, 0) };
    let labels = vec![b'~'; 320];
    let mut sheet = Sheet { labels, jobs: vec![long_label; 20], offset: 320, count: 20, modules: 64, changeover: 30 };
    let mut card = [0; card_length(20)];
    assert_eq!(sheet.bytes().len(), LONGEST_SHEET);
    assert_eq!(plan(&sheet.bytes(), &mut card, &mut []), Ok(()));
    sheet.labels.push(b'~');
    assert_eq!(plan(&sheet.bytes(), &mut card, &mut []), Err(Refusal::SheetLength));
}
