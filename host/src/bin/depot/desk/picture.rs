//! The picture of a desk's calls: a row a call, with what each controller holds behind it, what stays reserved, and the limit. A claim that
//! is refused is drawn where it would lie.
use super::bars::unused_share;
use super::command::Command;
use depot_host::drawing::colours::{self, Palette, LIGHT, TINTS};
use depot_host::drawing::markup::escaped;
use depot_host::drawing::words::{anchored, at, width, within};
use depot_host::units::in_kw;
use depot_host::Desk;
use std::fmt::Write;

const WIDTH: f64 = 1120.0;
const MARGIN: f64 = 24.0;
const LEFT: f64 = 290.0;
const RIGHT: f64 = 790.0;
const TOP: f64 = 84.0;
const ROW: f64 = 34.0;
const BAR: f64 = 20.0;

/// A call, its answer in a few words, and the desk that it left.
pub struct Step {
    call: String,
    answer: String,
    desk: Desk,
    names: Vec<String>,
    /// Who claimed how much, where that was refused.
    refused: Option<(usize, u32)>,
}

/// What of a command its picture shows: the claim that it makes, where it makes one. None of a command that is no call on a desk.
pub fn shown(command: &Command) -> Option<Option<(usize, u32)>> {
    match command {
        Command::Claim { controller, power } => Some(Some((*controller as usize, *power))),
        Command::Open { .. } | Command::Change { .. } | Command::Back { .. } | Command::Look(_) => Some(None),
        _ => None,
    }
}

impl Step {
    /// The step of a line that was answered with this text, the claim that it made, and what it left.
    pub fn of(line: &str, text: &str, claim: Option<(usize, u32)>, left: (Desk, &[String])) -> Step {
        let refused = text.starts_with("refused");
        let mut lines = text.lines();
        let answer = match lines.next().unwrap_or("") {
            first if refused => first.split(':').next().unwrap_or(first).into(),
            first => match lines.next().filter(|_| first.contains(MAY_CLAIM)) {
                Some(second) => all_may_claim([first, second].into_iter().chain(lines)),
                None => first.to_string(),
            },
        };
        Step { call: line.into(), answer, desk: left.0, names: left.1.into(), refused: claim.filter(|_| refused) }
    }

    fn count(&self) -> usize {
        self.desk.count as usize
    }

    fn held(&self) -> u32 {
        self.desk.held[..self.count()].iter().sum()
    }

    /// The unused share of each controller but this one, summed up.
    fn reserved_but(&self, but: Option<usize>) -> u32 {
        (0..self.count()).filter(|i| Some(*i) != but).map(|i| unused_share(&self.desk, i)).sum()
    }

    /// Up to which power the row is drawn.
    fn most(&self) -> u32 {
        let claimed = self.refused.map_or(0, |(who, power)| (self.held() + self.reserved_but(Some(who))).saturating_add(power));
        self.desk.limit.max(claimed.min(2 * self.desk.limit))
    }
}

/// What a look says of a controller.
const MAY_CLAIM: &str = " may claim ";

/// What every controller may claim, in one line: of each its name and its figure.
fn all_may_claim<'a>(lines: impl Iterator<Item = &'a str>) -> String {
    let short = |line: &str| line.replacen(MAY_CLAIM, " ", 1).replacen("up to ", "", 1).trim_end_matches(" now").to_string();
    format!("may claim: {}", lines.map(short).collect::<Vec<_>>().join(", "))
}

/// The picture of these calls on light paper.
pub fn file(name: &str, steps: &[Step]) -> String {
    let most = f64::from(steps.iter().map(Step::most).max().unwrap_or(1));
    let x = |power: u32| LEFT + (RIGHT - LEFT) * f64::from(power) / most;
    let height = TOP + ROW * steps.len() as f64 + 58.0;
    let mut svg = format!(
        "<svg xmlns=\"http://www.w3.org/2000/svg\" class=\"chart\" width=\"{WIDTH}\" height=\"{height}\" \
         viewBox=\"0 0 {WIDTH} {height}\" role=\"img\" aria-label=\"{}\">\n<style>{}</style>\n\
         <rect class=\"paper\" width=\"{WIDTH}\" height=\"{height}\"/>\n",
        escaped(&format!("{name}: {} calls on a share desk", steps.len())),
        rules(&LIGHT)
    );
    svg += &within("title", 19.0, MARGIN, 34.0, name, WIDTH - 2.0 * MARGIN);
    svg += &at("lead", MARGIN, 56.0, "Each row is a call: what is held behind it, what stays reserved, and the feeder's limit.");
    for (place, step) in steps.iter().enumerate() {
        svg += &row(step, TOP + ROW * place as f64, &x);
    }
    svg += &limits(steps, &x);
    let names = steps.last().map_or(&[][..], |step| &step.names);
    svg += &legend(names, height - 18.0);
    svg + "</svg>\n"
}

fn rules(palette: &Palette) -> String {
    let Palette { soft, bars, late, end, .. } = palette;
    let mut css = format!(
        "{}.chart .bar{{stroke-width:1.2}}.chart .reserved{{fill:none;stroke-dasharray:3 2}}\
         .chart .refused{{fill:{};fill-opacity:0.6;stroke:{};stroke-width:1.8;stroke-dasharray:5 3}}\
         .chart .refused-word{{fill:{2};font-weight:bold}}\
         .chart .end{{stroke:{end};stroke-width:2.4;fill:none}}.chart .leader{{stroke:{soft};stroke-width:0.7}}",
        colours::rules(palette),
        late.0,
        late.1
    );
    for (place, (fill, edge)) in bars.iter().enumerate() {
        write!(css, ".chart .t{place}{{fill:{fill};stroke:{edge}}}.chart .reserved.t{place}{{fill:none}}").unwrap();
    }
    css
}

/// A piece of a row from one power to another, with a word where there is room for it beside the limit.
fn piece(class: &str, y: f64, (from, to): (f64, f64), limit: f64, word: &str) -> String {
    let mut svg =
        format!("<rect class=\"{class}\" x=\"{from:.1}\" y=\"{y:.1}\" width=\"{:.1}\" height=\"{BAR}\" rx=\"2\"/>\n", to - from);
    let (from, to) = if limit - from > to - limit { (from, to.min(limit)) } else { (from.max(limit), to) };
    if width(word, 11.0) + 6.0 < to - from {
        svg += &anchored("", "middle", (from + to) / 2.0, y + 14.0, word);
    }
    svg
}

fn row(step: &Step, y: f64, x: &dyn Fn(u32) -> f64) -> String {
    let own = step.refused.map(|(who, _)| who);
    let mut svg = within("", 11.0, MARGIN, y + 14.0, &step.call, LEFT - MARGIN - 12.0);
    let (mut at_power, limit) = (0, x(step.desk.limit));
    let mut put = |class: String, power: u32| {
        let from = at_power;
        at_power += power;
        if power > 0 {
            piece(&class, y, (x(from), x(at_power)), limit, &in_kw(power))
        } else {
            String::new()
        }
    };
    for i in 0..step.count() {
        svg += &put(format!("bar t{}", i % TINTS), step.desk.held[i]);
    }
    for i in (0..step.count()).filter(|i| Some(*i) != own).chain(own) {
        svg += &put(format!("bar reserved t{}", i % TINTS), unused_share(&step.desk, i));
    }
    if let Some((who, power)) = step.refused {
        let from = step.held() + step.reserved_but(Some(who));
        let to = from.saturating_add(power).min(2 * step.desk.limit);
        svg += &piece("refused", y, (x(from), x(to)), limit, &in_kw(power));
    }
    let class = if step.answer.starts_with("refused") { "refused-word" } else { "soft" };
    svg + &within(class, 11.0, RIGHT + 16.0, y + 14.0, &step.answer, WIDTH - RIGHT - 16.0 - MARGIN)
}

/// The limit of each row, one line where it stays.
fn limits(steps: &[Step], x: &dyn Fn(u32) -> f64) -> String {
    let mut d = String::new();
    for (place, step) in steps.iter().enumerate() {
        let (at, y) = (x(step.desk.limit), TOP + ROW * place as f64 - 7.0);
        write!(d, "{}{at:.1} {y:.1}L{at:.1} {:.1}", if place == 0 { "M" } else { "L" }, y + ROW).unwrap();
    }
    let first = steps.first().map_or(0, |step| step.desk.limit);
    let word = anchored("strong", "middle", x(first), TOP - 12.0, &format!("limit {} kW", in_kw(first)));
    format!("<path class=\"end\" d=\"{d}\"/>\n{word}")
}

fn legend(names: &[String], y: f64) -> String {
    let mut svg = String::new();
    let mut x = MARGIN;
    let mut entry = |class: &str, text: &str| {
        let shown = format!("<rect class=\"{class}\" x=\"{x:.1}\" y=\"{:.1}\" width=\"14\" height=\"10\" rx=\"2\"/>\n", y - 9.0);
        let word = at("", x + 20.0, y, text);
        x += 42.0 + width(text, 11.0);
        shown + &word
    };
    for (i, name) in names.iter().enumerate() {
        svg += &entry(&format!("bar t{}", i % TINTS), &format!("held by {name}"));
    }
    svg += &entry("bar reserved t0", "assured and not used, reserved");
    svg + &entry("refused", "claim that is refused")
}
