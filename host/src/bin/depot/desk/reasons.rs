//! The sums behind a refusal, in plain words: those of K-2, from the desk's fields. The number itself is the library's.
use super::bars::may_claim;
use super::command::{given_names, Place};
use depot_host::units::in_kw;
use depot_host::{Desk, Refusal, MOST_POWER};

/// What a look gives, in words.
pub fn most_in_words(name: &str, most: u32) -> String {
    if most == 0 {
        return format!("{name} may claim nothing now");
    }
    format!("{name} may claim up to {} kW now", in_kw(most))
}

/// Why a change was refused.
pub fn of_change(desk: &Desk, limit: u32, places: &[Place], refusal: Refusal) -> Vec<String> {
    let held = |i: usize| desk.held[i];
    match refusal {
        Refusal::ListLengths => vec![format!("{} given; this desk has {} controllers", places.len(), desk.count)],
        Refusal::HoldingAboveCeiling => {
            let above = places.iter().enumerate().filter(|(i, place)| held(*i) > place.ceiling);
            let words = |(i, place): (usize, &Place)| {
                format!("{}: holds {} kW, above its new ceiling {}", place.name, in_kw(held(i)), in_kw(place.ceiling))
            };
            above.map(words).collect()
        }
        Refusal::HoldingsExceedLimit => {
            let raised = || places.iter().enumerate().map(|(i, place)| u64::from(held(i).max(place.assured)));
            let mut lines: Vec<String> =
                places.iter().enumerate().map(|(i, place)| reserve(&place.name, held(i), place.assured)).collect();
            let sums: Vec<String> = raised().map(in_kw).collect();
            let all = in_kw(raised().sum::<u64>());
            lines.push(format!("{} = {all} kW; the new limit is {}", sums.join(" + "), in_kw(limit)));
            lines
        }
        _ => of_opening(limit, places, refusal),
    }
}

/// Why an opening was refused.
pub fn of_opening(limit: u32, places: &[Place], refusal: Refusal) -> Vec<String> {
    match refusal {
        Refusal::ListLengths => vec![format!("{} given; a desk has 2 to 8 controllers", places.len())],
        Refusal::DeskFigures => {
            let mut lines = Vec::new();
            if !(1..=MOST_POWER).contains(&limit) {
                lines.push(format!("the limit {} kW is not 0.1 to {}", in_kw(limit), in_kw(MOST_POWER)));
            }
            for Place { name, assured, ceiling } in places {
                let [share, top, all] = [*assured, *ceiling, limit].map(in_kw);
                if assured > ceiling {
                    lines.push(format!("{name}: its share {share} exceeds its ceiling {top} kW"));
                }
                if *ceiling > limit {
                    lines.push(format!("{name}: its ceiling {top} exceeds the limit {all} kW"));
                }
            }
            lines
        }
        Refusal::SharesExceedLimit => {
            let shares: Vec<String> = places.iter().map(|place| in_kw(place.assured)).collect();
            let sum: u64 = places.iter().map(|place| u64::from(place.assured)).sum();
            vec![format!("{} = {} kW assured; the limit is {}", shares.join(" + "), in_kw(sum), in_kw(limit))]
        }
        _ => Vec::new(),
    }
}

/// Why a claim, a hand-back or a look was refused.
pub fn of_call(desk: &Desk, names: &[String], controller: u32, power: u32, refusal: Refusal) -> Vec<String> {
    let own = controller as usize;
    if refusal == Refusal::NoSuchNumber {
        let given: Vec<&str> = given_names(names).collect();
        let known = if given.is_empty() { String::new() } else { format!(": {}", given.join(", ")) };
        return vec![format!("this desk has the controllers 0 to {}{known}", desk.count.saturating_sub(1))];
    }
    let name = &names[own];
    let (held, ceiling) = (desk.held[own], in_kw(desk.ceiling[own]));
    let sum = u64::from(held) + u64::from(power);
    let claim = format!("{name}: {} held + {} claimed = {} kW", in_kw(held), in_kw(power), in_kw(sum));
    let most = most_in_words(name, may_claim(desk, own));
    match refusal {
        Refusal::PassesCeiling => vec![format!("{claim}; its ceiling is {ceiling}"), most],
        Refusal::DoesNotFit => {
            let others: Vec<usize> = (0..desk.count as usize).filter(|i| *i != own).collect();
            let mut lines = vec![claim];
            lines.extend(others.iter().map(|i| reserve(&names[*i], desk.held[*i], desk.assured[*i])));
            let reserved: u64 = others.iter().map(|i| u64::from(desk.held[*i].max(desk.assured[*i]))).sum();
            let [own, rest, all] = [sum, reserved, sum + reserved].map(in_kw);
            lines.push(format!("{own} + {rest} for the others = {all} kW; the limit is {}", in_kw(desk.limit)));
            lines.push(most);
            lines
        }
        Refusal::ExceedsHolding => {
            vec![format!("{name} holds {} kW; {} were to be handed back", in_kw(held), in_kw(power))]
        }
        _ => Vec::new(),
    }
}

/// What is kept for a controller: the larger of its holding and its assured share.
fn reserve(name: &str, held: u32, assured: u32) -> String {
    let [holds, share, larger] = [held, assured, held.max(assured)].map(in_kw);
    format!("{name}: holds {holds}, is assured {share}; the larger, {larger} kW, counts")
}
