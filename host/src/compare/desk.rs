//! The desk's calls against a reading of the requirements: answers, and every byte of the lent desk.
use crate::random::Random;
use crate::reference::desk as reference;
use crate::{ffi, Desk, MOST_POWER};

/// A number that is often small, at a bound or just past it.
fn figure(random: &mut Random, bound: u32) -> u32 {
    match random.place(12) {
        0 => 0,
        1 => bound,
        2 => bound.wrapping_add(1),
        3 => bound.wrapping_sub(1),
        4 => random.pick(&[1, MOST_POWER - 1, MOST_POWER, MOST_POWER + 1, 65_536, u32::MAX - 1, u32::MAX]),
        5 => random.word() as u32,
        _ => random.between(0, bound.min(MOST_POWER)),
    }
}

/// A claim with which a sum of the desk comes near 2 to the power 32, or just past it.
fn greedy(random: &mut Random, desk: &Desk, controller: u32) -> u32 {
    let own = desk.held[controller as usize % 8];
    let others = desk.held.iter().zip(&desk.assured).map(|(held, assured)| held.max(assured));
    let all = others.fold(0u32, |sum, reserve| sum.wrapping_add(*reserve));
    let sum = random.pick(&[own, all, own.wrapping_add(all), desk.limit]);
    0u32.wrapping_sub(sum).wrapping_add(random.between(0, 2)).wrapping_sub(1)
}

/// The figures of an opening that is often answered.
fn opening(random: &mut Random) -> (u32, Vec<u32>, Vec<u32>) {
    let count = if random.percent(90) { random.between(2, 8) } else { random.between(0, 10) } as usize;
    let most = random.pick(&[1, 3, 10, 100, 4096, MOST_POWER, MOST_POWER]);
    let limit = if random.percent(90) { random.between(1, most) } else { figure(random, MOST_POWER) };
    let mut ceilings: Vec<u32> = (0..count).map(|_| random.between(0, limit.min(MOST_POWER))).collect();
    let share = |c: &u32| c.min(&(limit / 3)) / 2;
    let mut assured: Vec<u32> = ceilings.iter().map(share).collect();
    if random.percent(30) && count > 0 {
        let place = random.place(count);
        assured[place] = figure(random, ceilings[place]);
    }
    if random.percent(10) && count > 0 {
        let place = random.place(count);
        ceilings[place] = figure(random, limit);
    }
    if random.percent(5) {
        ceilings.pop();
    }
    (limit, assured, ceilings)
}

/// The figures of a change that is often granted: near what is held and reserved.
fn new_figures(random: &mut Random, desk: &Desk) -> (u32, Vec<u32>, Vec<u32>) {
    let count = desk.count.min(9) as usize;
    let held = |i: usize| *desk.held.get(i).unwrap_or(&0);
    let reserve = |i: usize| held(i).max(*desk.assured.get(i).unwrap_or(&0));
    let [in_hand, in_all] =
        [&held as &dyn Fn(usize) -> u32, &reserve].map(|of| (0..count).fold(0u32, |sum, i| sum.wrapping_add(of(i))));
    let near = random.pick(&[in_hand, in_all, desk.limit, desk.limit.saturating_mul(2), MOST_POWER]);
    let limit = if random.percent(80) { near } else { figure(random, near) };
    let top = |random: &mut Random, i: usize| random.pick(&[limit, limit, held(i), held(i).wrapping_sub(1), limit / 2]);
    let mut ceilings: Vec<u32> = (0..count).map(|i| top(random, i)).collect();
    let share = |random: &mut Random, top: u32| random.pick(&[0, top / 2, top, top.min(limit / count.max(1) as u32)]);
    let mut assured: Vec<u32> = ceilings.iter().map(|top| share(random, *top)).collect();
    match random.place(20) {
        0 => assured.push(0),
        1 => ceilings.push(limit),
        2 => {
            assured.pop();
            ceilings.pop();
        }
        3 => assured.iter_mut().for_each(|share| *share = figure(random, limit)),
        _ => {}
    }
    (limit, assured, ceilings)
}

/// A desk that no calls left: an opened one with some figures changed, or any figures at all.
fn any_desk(random: &mut Random, opened: Desk) -> Desk {
    let mut desk = opened;
    if random.percent(20) {
        let mut small = || figure(random, 9);
        return Desk {
            count: small(),
            limit: small(),
            held: std::array::from_fn(|_| small()),
            assured: std::array::from_fn(|_| small()),
            ceiling: std::array::from_fn(|_| small()),
        };
    }
    for _ in 0..random.between(1, 2) {
        let place = random.place(8);
        match random.place(5) {
            0 => desk.count = figure(random, desk.count),
            1 => desk.limit = figure(random, desk.limit),
            2 => desk.held[place] = figure(random, desk.ceiling[place]),
            3 => desk.assured[place] = figure(random, desk.ceiling[place]),
            _ => desk.ceiling[place] = figure(random, desk.limit),
        }
    }
    desk
}

/// Kinds of calls, and the numbers that each can answer.
pub const KINDS: [(usize, &[usize]); 5] =
    [(0, &[0, 11, 12, 13]), (1, &[0, 14, 15, 16, 17]), (2, &[0, 14, 15, 18]), (3, &[0, 14]), (4, &[0, 11, 12, 13, 14, 21, 22])];

const CALLS: usize = 20;

/// How often each number was answered by each kind of call.
#[derive(Default)]
pub struct Answers {
    pub by: [[usize; 23]; 5],
    /// How many desks were compared with the desk of larger modules.
    pub scaled: usize,
}

/// The desk with every figure times s, where that fits.
fn scaled(desk: &Desk, s: u32) -> Option<Desk> {
    let list = |figures: [u32; 8]| figures.iter().map(|figure| figure.checked_mul(s)).collect::<Option<Vec<u32>>>();
    let whole = |figures| list(figures)?.try_into().ok();
    let limit = desk.limit.checked_mul(s).filter(|limit| *limit <= MOST_POWER)?;
    Some(Desk { count: desk.count, limit, held: whole(desk.held)?, assured: whole(desk.assured)?, ceiling: whole(desk.ceiling)? })
}

/// A call on the desk with every figure times s answers as on the desk, and a look shows s times as much.
fn same_times(desk: &Desk, controller: u32, power: u32, s: u32) -> bool {
    let (Some(larger), Some(more)) = (scaled(desk, s), power.checked_mul(s)) else {
        return false;
    };
    for (call, name) in [(Desk::claim as fn(&mut Desk, u32, u32) -> _, "claim"), (Desk::hand_back, "hand back")] {
        let (mut small, mut large) = (*desk, larger);
        let answers = (call(&mut small, controller, power), call(&mut large, controller, more));
        assert_eq!(answers.0, answers.1, "{name} {controller} {power} on {desk:?}, times {s}");
        assert_eq!(scaled(&small, s), Some(large), "{name} {controller} {power} on {desk:?}, times {s}");
    }
    assert_eq!(desk.look(controller).map(|power| power * s), larger.look(controller), "look {controller} on {desk:?}, times {s}");
    true
}

impl Answers {
    /// The library's answer and desk are the reference's; refused, the desk is as before.
    fn same(&mut self, kind: usize, answer: u32, desks: (&Desk, &Desk), expected: Result<Desk, u32>, call: &dyn Fn() -> String) {
        let (before, desk) = desks;
        let number = expected.err().unwrap_or(0);
        assert_eq!(answer, number, "{} on {before:?}", call());
        assert_eq!(*desk, expected.unwrap_or(*before), "{} on {before:?}", call());
        self.by[kind][number as usize] += 1;
    }

    fn open(&mut self, random: &mut Random, desk: &mut Desk) {
        let (limit, assured, ceilings) = opening(random);
        let before = *desk;
        // SAFETY: live slices and a live desk.
        let answer =
            unsafe { ffi::depot_desk_open(desk, limit, assured.as_ptr(), assured.len(), ceilings.as_ptr(), ceilings.len()) };
        let expected = reference::open(limit, &assured, &ceilings);
        self.same(0, answer, (&before, desk), expected, &|| format!("open {limit} {assured:?} {ceilings:?}"));
    }

    fn change(&mut self, random: &mut Random, desk: &mut Desk) {
        let (limit, assured, ceilings) = new_figures(random, desk);
        let before = *desk;
        // SAFETY: live slices and a live desk.
        let answer =
            unsafe { ffi::depot_desk_change(desk, limit, assured.as_ptr(), assured.len(), ceilings.as_ptr(), ceilings.len()) };
        let expected = reference::change(&before, limit, &assured, &ceilings);
        self.same(4, answer, (&before, desk), expected, &|| format!("change {limit} {assured:?} {ceilings:?}"));
    }

    fn claim(&mut self, random: &mut Random, desk: &mut Desk, controller: u32) {
        let room = reference::look(desk, controller).unwrap_or(10);
        let power = if random.percent(10) { greedy(random, desk, controller) } else { figure(random, room) };
        let before = *desk;
        // SAFETY: a live desk.
        let answer = unsafe { ffi::depot_desk_claim(desk, controller, power) };
        let expected = reference::claim(&before, controller, power);
        self.same(1, answer, (&before, desk), expected, &|| format!("claim {controller} {power}"));
    }

    fn hand_back(&mut self, random: &mut Random, desk: &mut Desk, controller: u32) {
        let held = desk.held[controller as usize % 8];
        let power = figure(random, held);
        let before = *desk;
        // SAFETY: a live desk.
        let answer = unsafe { ffi::depot_desk_hand_back(desk, controller, power) };
        let expected = reference::hand_back(&before, controller, power);
        self.same(2, answer, (&before, desk), expected, &|| format!("hand back {controller} {power}"));
    }

    fn look(&mut self, desk: &mut Desk, controller: u32) {
        let before = *desk;
        // SAFETY: a live desk.
        let looked = unsafe { ffi::depot_desk_look(desk, controller) };
        let expected = reference::look(&before, controller);
        assert_eq!(looked.power, expected.unwrap_or(0), "look {controller} on {before:?}");
        self.same(3, looked.refusal, (&before, desk), expected.map(|_| before), &|| format!("look {controller}"));
    }

    /// Opens a desk, spoils its figures now and then, and makes calls on it.
    pub fn on_a_desk(&mut self, random: &mut Random) {
        let mut desk = Desk { count: random.word() as u32, ..Desk::default() };
        self.open(random, &mut desk);
        while !reference::can_be_left(&desk) && random.percent(90) {
            self.open(random, &mut desk);
        }
        if random.percent(25) {
            desk = any_desk(random, desk);
        }
        for _ in 1..CALLS {
            let controller = if random.percent(95) { random.between(0, desk.count.clamp(1, 8) - 1) } else { figure(random, 8) };
            if random.percent(20) {
                let (power, s) = (figure(random, 10), random.pick(&[1, 2, 3, 300, 500, 10_000]));
                self.scaled += usize::from(same_times(&desk, controller, power, s));
            }
            match random.place(6) {
                0 | 1 => self.claim(random, &mut desk, controller),
                2 | 3 => self.hand_back(random, &mut desk, controller),
                4 => self.change(random, &mut desk),
                _ => self.look(&mut desk, controller),
            }
        }
    }

    pub fn calls(&self) -> usize {
        self.by.iter().flatten().sum()
    }
}
