//! The share desk: openings, changes, claims, hand-backs and looks, and which desks calls can leave.
use crate::{Desk, MOST_POWER};

/// A controller's figures, wide enough for every sum.
struct Place {
    held: u64,
    assured: u64,
    ceiling: u64,
}

impl Place {
    /// What others have to leave: "the larger of its holding and its assured share".
    fn reserved(&self) -> u64 {
        self.held.max(self.assured)
    }
}

fn places(desk: &Desk) -> [Place; 8] {
    std::array::from_fn(|i| Place {
        held: u64::from(desk.held[i]),
        assured: u64::from(desk.assured[i]),
        ceiling: u64::from(desk.ceiling[i]),
    })
}

/// Opening: the desk, or the number of the first check that fails.
pub fn open(limit: u32, assured: &[u32], ceilings: &[u32]) -> Result<Desk, u32> {
    if assured.len() != ceilings.len() || assured.len() < 2 || assured.len() > 8 {
        return Err(11);
    }
    let pairs = || assured.iter().zip(ceilings);
    if limit == 0 || limit > MOST_POWER || pairs().any(|(a, c)| a > c || *c > limit) {
        return Err(12);
    }
    if assured.iter().map(|a| u64::from(*a)).sum::<u64>() > u64::from(limit) {
        return Err(13);
    }
    let mut desk = Desk { count: assured.len() as u32, limit, ..Desk::default() };
    desk.assured[..assured.len()].copy_from_slice(assured);
    desk.ceiling[..ceilings.len()].copy_from_slice(ceilings);
    Ok(desk)
}

/// Whether an answered opening and later calls can leave this desk.
///
/// The limit, the shares and the ceilings are those of the opening or of a change, so opening must take them, and past the last
/// controller all is 0. Of the holdings two things hold at opening and after every granted call: each is within its ceiling, and the
/// reserves of all controllers add up to no more than L. (A claim that raises its controller's reserve was granted beside those of the
/// others; a hand-back raises none; a change checks both, 21 and 22.) Where both hold, an opening with these figures and one claim by
/// each controller for its holding leave the desk: no sum on the way exceeds the one at the end.
pub fn can_be_left(desk: &Desk) -> bool {
    let count = desk.count as usize;
    if count > 8 || open(desk.limit, &desk.assured[..count], &desk.ceiling[..count]).is_err() {
        return false;
    }
    let all = places(desk);
    let (controllers, past) = all.split_at(count);
    past.iter().all(|place| place.held == 0 && place.assured == 0 && place.ceiling == 0)
        && controllers.iter().all(|place| place.held <= place.ceiling)
        && controllers.iter().map(Place::reserved).sum::<u64>() <= u64::from(desk.limit)
}

/// A change of the figures: the desk as it then is, or the number of the first check that fails.
pub fn change(desk: &Desk, limit: u32, assured: &[u32], ceilings: &[u32]) -> Result<Desk, u32> {
    if !can_be_left(desk) {
        return Err(14);
    }
    let opened = open(limit, assured, ceilings);
    if opened == Err(11) || assured.len() != desk.count as usize {
        return Err(11);
    }
    let next = Desk { held: desk.held, ..opened? };
    let places = places(&next);
    if places.iter().any(|place| place.held > place.ceiling) {
        return Err(21);
    }
    if places.iter().map(Place::reserved).sum::<u64>() > u64::from(limit) {
        return Err(22);
    }
    Ok(next)
}

/// Whether check 14 fails.
pub(super) fn not_of_desk(desk: &Desk, controller: u32) -> bool {
    controller >= desk.count || !can_be_left(desk)
}

/// The number of the first check that a claim fails, 15 to 17, on a desk that calls can leave.
fn claim_refusal(desk: &Desk, controller: u32, power: u32) -> Option<u32> {
    let places = places(desk);
    let own = controller as usize;
    let sum = places[own].held + u64::from(power);
    let others: u64 = (0..places.len()).filter(|i| *i != own).map(|i| places[i].reserved()).sum();
    if power == 0 {
        Some(15)
    } else if sum > places[own].ceiling {
        Some(16)
    } else if sum + others > u64::from(desk.limit) {
        Some(17)
    } else {
        None
    }
}

/// A claim: the desk as it then is, or the number of the first check that fails.
pub fn claim(desk: &Desk, controller: u32, power: u32) -> Result<Desk, u32> {
    if not_of_desk(desk, controller) {
        return Err(14);
    }
    if let Some(refusal) = claim_refusal(desk, controller, power) {
        return Err(refusal);
    }
    let mut next = *desk;
    next.held[controller as usize] += power;
    Ok(next)
}

/// A hand-back: the desk as it then is, or the number of the first check that fails.
pub fn hand_back(desk: &Desk, controller: u32, power: u32) -> Result<Desk, u32> {
    if not_of_desk(desk, controller) {
        return Err(14);
    }
    if power == 0 {
        return Err(15);
    }
    let mut next = *desk;
    let held = &mut next.held[controller as usize];
    *held = held.checked_sub(power).ok_or(18u32)?;
    Ok(next)
}

/// Limits up to which a look tries every claim.
const SMALL: u32 = 5_000;

/// A look: the largest claim that would be granted now, or the number of the check that fails. On a small desk all claims are tried;
/// on others it is found by halving, since what is refused is refused for more, too.
pub fn look(desk: &Desk, controller: u32) -> Result<u32, u32> {
    if not_of_desk(desk, controller) {
        return Err(14);
    }
    let granted = |power: u32| claim_refusal(desk, controller, power).is_none();
    if desk.limit <= SMALL {
        return Ok((1..=desk.limit).rev().find(|power| granted(*power)).unwrap_or(0));
    }
    let (mut most, mut refused) = (0, desk.limit + 1);
    while refused - most > 1 {
        let middle = most + (refused - most) / 2;
        *if granted(middle) { &mut most } else { &mut refused } = middle;
    }
    Ok(most)
}
