//! Words in a picture: how wide they are at most, and where they stand.
use super::markup::escaped;

/// Bold letters are wider.
pub const BOLD: f64 = 1.08;

/// How wide a text is at most at this size: sans-serif faces differ, so the widest usual one counts.
pub fn width(text: &str, size: f64) -> f64 {
    let of = |c: char| match c {
        'i' | 'j' | 'l' | 'I' | '.' | ',' | ':' | ';' | '\'' | '|' | '!' | ' ' | '(' | ')' | '/' => 0.36,
        'm' | 'w' | 'M' | 'W' | '@' | '%' | '\u{2e80}'.. => 1.0,
        'A'..='Z' | 'À'..='Þ' | '&' | '+' | '<' | '>' | '=' | '~' | '^' | '#' | '$' => 0.74,
        _ => 0.6,
    };
    size * text.chars().map(of).sum::<f64>()
}

/// A text that begins here.
pub fn at(class: &str, x: f64, y: f64, text: &str) -> String {
    format!("<text class=\"{class}\" x=\"{x:.1}\" y=\"{y:.1}\">{}</text>\n", escaped(text))
}

/// A text whose middle or end is here.
pub fn anchored(class: &str, anchor: &str, x: f64, y: f64, text: &str) -> String {
    format!("<text class=\"{class}\" text-anchor=\"{anchor}\" x=\"{x:.1}\" y=\"{y:.1}\">{}</text>\n", escaped(text))
}

/// Classes of bold letters.
const BOLD_CLASSES: [&str; 2] = ["title", "strong"];

/// A text that begins here, in smaller letters where it would be wider than the room.
pub fn within(class: &str, size: f64, x: f64, y: f64, text: &str, room: f64) -> String {
    let bold = if BOLD_CLASSES.contains(&class) { BOLD } else { 1.0 };
    let wide = width(text, size * bold);
    let smaller = if wide > room { format!(" style=\"font-size:{:.1}px\"", size * room / wide) } else { String::new() };
    format!("<text class=\"{class}\" x=\"{x:.1}\" y=\"{y:.1}\"{smaller}>{}</text>\n", escaped(text))
}
