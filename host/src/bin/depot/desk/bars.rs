//! The desk as bars: one for the feeder and one for each controller.
use depot_host::units::in_kw;
use depot_host::Desk;
use std::fmt::Write;

const WIDEST: u32 = 48;

/// The largest claim by a controller of this desk that would be granted now: the library's look.
pub fn may_claim(desk: &Desk, controller: usize) -> u32 {
    desk.look(controller as u32).expect("a desk that calls left, and one of its controllers")
}

/// What a controller is assured of and does not hold.
pub fn unused_share(desk: &Desk, i: usize) -> u32 {
    desk.assured[i].saturating_sub(desk.held[i])
}

pub fn text(desk: &Desk, names: &[String]) -> String {
    let count = desk.count as usize;
    let names = &names[..count];
    let wide = names.iter().map(String::len).max().unwrap_or(0).max("feeder".len());
    let held: u32 = desk.held[..count].iter().sum();
    let unused: u32 = (0..count).map(|i| unused_share(desk, i)).sum();
    let free = desk.limit - held - unused;
    let mut text = String::new();
    let bar = bar(desk.limit, [held, unused, free], desk.limit);
    let [held, unused, free, limit] = [held, unused, free, desk.limit].map(in_kw);
    writeln!(text, "{:<wide$} [{bar}] {held} held, {unused} reserved, {free} free of {limit} kW", "feeder").unwrap();
    for (i, name) in names.iter().enumerate() {
        text += &controller(desk, i, name, wide);
    }
    text + "# held   = assured and not used, reserved   . free to claim beyond its share   | ceiling\n"
}

fn controller(desk: &Desk, i: usize, name: &str, wide: usize) -> String {
    let (held, unused, may) = (desk.held[i], unused_share(desk, i), may_claim(desk, i));
    let bar = bar(desk.limit, [held, unused, may - unused], desk.ceiling[i]);
    let [held, assured, ceiling, may] = [held, desk.assured[i], desk.ceiling[i], may].map(in_kw);
    let figures = format!("holds {held}, assured {assured}, ceiling {ceiling}, may claim {may} kW");
    format!("{name:<wide$} [{bar}] {figures}\n")
}

/// Held, reserved and free side by side, and the ceiling's mark.
fn bar(limit: u32, parts: [u32; 3], ceiling: u32) -> String {
    let width = if limit > WIDEST { WIDEST } else { WIDEST / limit * limit };
    let at = |figure: u32| (u64::from(figure) * u64::from(width) + u64::from(limit) / 2) / u64::from(limit);
    let ends = [parts[0], parts[0] + parts[1], parts[0] + parts[1] + parts[2]].map(at);
    let sign = |place: u64| match place {
        place if place == at(ceiling) => '|',
        place if place < ends[0] => '#',
        place if place < ends[1] => '=',
        place if place < ends[2] => '.',
        _ => ' ',
    };
    (0..=u64::from(width)).map(sign).collect()
}

#[cfg(test)]
mod tests {
    use super::*;

    #[test]
    fn bars_of_small_and_large_limits() {
        assert_eq!(bar(4, [1, 1, 1], 4).len(), 49);
        assert_eq!(bar(48, [2, 1, 3], 10), format!("##=...    |{}", " ".repeat(38)));
        assert_eq!(bar(400_000, [400_000, 0, 0], 400_000), format!("{}|", "#".repeat(48)));
        assert_eq!(bar(400_000, [0, 0, 0], 0), format!("|{}", " ".repeat(48)));
    }
}
