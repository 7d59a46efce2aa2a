//! Words that belong to places on a line: where they go so that none covers another.
use depot_host::drawing::markup::escaped;
pub use depot_host::drawing::words::{anchored, at, width, within, BOLD};

/// A word that belongs to a place on a line.
#[derive(Clone)]
pub struct Word {
    pub at: f64,
    pub text: String,
    pub late: bool,
}

/// On which side of the line the words stand.
#[derive(Clone, Copy, PartialEq, Eq)]
pub enum Side {
    Above,
    Below,
}

/// The least room between the feet of two slanting words.
const APART: f64 = 12.8;
/// How far the feet of the words are from the line.
const FOOT: f64 = 38.0;
/// How words slant: by 60 degrees, with its sine and cosine.
const SLANT: f64 = 60.0;
const UP: f64 = 0.8661;
const ALONG: f64 = 0.5;

/// How high the words stand, with their leaders.
pub fn fan_height(words: &[Word]) -> f64 {
    let highest = words.iter().map(|word| width(&word.text, 11.0 * BOLD)).fold(0.0, f64::max);
    if words.is_empty() {
        return 0.0;
    }
    FOOT + UP * highest + 8.0
}

/// How far a slanting word reaches to the right of its foot.
pub fn reach(text: &str) -> f64 {
    ALONG * width(text, 11.0 * BOLD) + 9.0
}

/// The feet of words: as near to their places as may be, apart from each other, and within the bounds.
pub fn feet(words: &[Word], left: f64, right: f64) -> Vec<f64> {
    let mut order: Vec<usize> = (0..words.len()).collect();
    order.sort_by(|a, b| words[*a].at.total_cmp(&words[*b].at));
    // groups that touch, each with its first foot and how many there are
    let mut groups: Vec<(f64, usize)> = Vec::new();
    for word in &order {
        groups.push((words[*word].at, 1));
        while let [.., (first, count), (next, more)] = groups[..] {
            if next >= first + APART * count as f64 {
                break;
            }
            let both = (first * count as f64 + (next - APART * count as f64) * more as f64) / (count + more) as f64;
            groups.truncate(groups.len() - 2);
            groups.push((both, count + more));
        }
    }
    let mut sorted: Vec<f64> =
        groups.iter().flat_map(|(first, count)| (0..*count).map(move |i| first + APART * i as f64)).collect();
    let mut bound = left;
    for foot in &mut sorted {
        *foot = foot.max(bound);
        bound = *foot + APART;
    }
    let mut bound = f64::INFINITY;
    for (foot, word) in sorted.iter_mut().zip(&order).rev() {
        *foot = foot.min(bound).min(right - reach(&words[*word].text));
        bound = *foot - APART;
    }
    let mut feet = vec![0.0; words.len()];
    for (foot, word) in sorted.into_iter().zip(order) {
        feet[word] = foot;
    }
    feet
}

/// The words, slanting away from the line, each with a leader from its place.
pub fn fan(words: &[Word], from: &[f64], line: f64, side: Side, left: f64, right: f64) -> String {
    let mut svg = String::new();
    let away = if side == Side::Above { -1.0 } else { 1.0 };
    for ((word, foot), from) in words.iter().zip(feet(words, left, right)).zip(from) {
        let (x, near, far) = (word.at, line + away * 10.0, line + away * (FOOT - 3.0));
        svg += &format!("<path class=\"leader\" d=\"M{x:.1} {from:.1}L{x:.1} {near:.1}L{foot:.1} {far:.1}\"/>\n");
        let (y, turn) = (line + away * FOOT + if side == Side::Above { 0.0 } else { 5.0 }, SLANT * away);
        let class = if word.late { "late-word" } else { "" };
        let text = escaped(&word.text);
        svg += &format!("<text class=\"{class}\" transform=\"translate({foot:.1} {y:.1}) rotate({turn:.0})\">{text}</text>\n");
    }
    svg
}

#[cfg(test)]
mod tests {
    use super::*;

    #[test]
    fn words_stand_apart_and_within_the_bounds() {
        for (first, step) in [(0.0, 0.0), (300.0, 3.0), (600.0, 0.0), (20.0, 40.0)] {
            let word = |i| Word { at: first + step * f64::from(i), text: format!("BUS{i}"), late: false };
            let words: Vec<Word> = (0..20).map(word).collect();
            let mut found = feet(&words, 10.0, 640.0);
            assert!(found.iter().zip(&words).all(|(foot, word)| *foot >= 10.0 && foot + reach(&word.text) <= 640.1));
            found.sort_by(f64::total_cmp);
            assert!(found.windows(2).all(|pair| pair[1] - pair[0] >= APART - 0.1), "{found:?}");
        }
    }

    #[test]
    fn a_word_with_room_stands_at_its_place() {
        let words = [100.0, 200.0].map(|at| Word { at, text: "A".into(), late: false });
        assert_eq!(feet(&words, 0.0, 640.0), [100.0, 200.0]);
    }
}
