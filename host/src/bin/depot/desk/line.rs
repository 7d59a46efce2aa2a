//! A line that is being typed: its signs, the cursor, the lines before it, and how it is shown.
use super::keys::Key;

/// What a key did to the line.
#[derive(Debug, PartialEq, Eq)]
pub enum Typed {
    /// The line is to be shown again.
    Shown,
    /// It is to be shown on an empty screen.
    Cleared,
    /// It is done.
    Done(String),
    /// It was given up; whether there was something on it.
    GivenUp(bool),
    /// The program is to stop until it is called back.
    Suspended,
    /// There is no more to come.
    Closed,
}

#[derive(Default)]
pub struct Line {
    signs: Vec<char>,
    cursor: usize,
    /// The lines that were typed, and which of them is shown; behind the last one, the line that is being typed.
    before: Vec<String>,
    place: usize,
    /// What was typed before an earlier line was looked up.
    kept: Vec<char>,
}

impl Line {
    pub fn take(&mut self, key: Key) -> Typed {
        match key {
            Key::Sign(sign) => {
                self.signs.insert(self.cursor, sign);
                self.cursor += 1;
            }
            Key::Enter => return self.done(),
            Key::GiveUp => {
                let had_signs = !self.signs.is_empty();
                self.begin();
                return Typed::GivenUp(had_signs);
            }
            Key::Close if self.signs.is_empty() => return Typed::Closed,
            Key::Close | Key::Delete => self.delete(self.cursor, self.cursor + 1),
            Key::Backspace => self.delete(self.cursor.saturating_sub(1), self.cursor),
            Key::DeleteToStart => self.delete(0, self.cursor),
            Key::DeleteToEnd => self.delete(self.cursor, self.signs.len()),
            Key::DeleteWord => self.delete(self.word(), self.cursor),
            Key::Left => self.cursor = self.cursor.saturating_sub(1),
            Key::Right => self.cursor = (self.cursor + 1).min(self.signs.len()),
            Key::Home => self.cursor = 0,
            Key::End => self.cursor = self.signs.len(),
            Key::Up if self.place > 0 => self.look_up(self.place - 1),
            Key::Down if self.place < self.before.len() => self.look_up(self.place + 1),
            Key::Clear => return Typed::Cleared,
            Key::Suspend => return Typed::Suspended,
            Key::Up | Key::Down | Key::Other => {}
        }
        Typed::Shown
    }

    /// Deletes the signs from one place to another, where there are any.
    fn delete(&mut self, from: usize, to: usize) {
        let to = to.min(self.signs.len());
        if from < to {
            self.signs.drain(from..to);
            self.cursor = from;
        }
    }

    /// Where the word in front of the cursor begins.
    fn word(&self) -> usize {
        let spaces = self.signs[..self.cursor].iter().rev().take_while(|sign| **sign == ' ').count();
        let word = self.signs[..self.cursor - spaces].iter().rev().take_while(|sign| **sign != ' ').count();
        self.cursor - spaces - word
    }

    fn begin(&mut self) {
        self.signs.clear();
        self.kept.clear();
        self.cursor = 0;
        self.place = self.before.len();
    }

    fn done(&mut self) -> Typed {
        let line: String = self.signs.iter().collect();
        if !line.trim().is_empty() && self.before.last() != Some(&line) {
            self.before.push(line.clone());
        }
        self.begin();
        Typed::Done(line)
    }

    fn look_up(&mut self, place: usize) {
        if self.place == self.before.len() {
            self.kept = std::mem::take(&mut self.signs);
        }
        self.place = place;
        self.signs = self.before.get(place).map_or(self.kept.clone(), |line| line.chars().collect());
        self.cursor = self.signs.len();
    }

    /// What is written to show the line behind a prompt on a terminal of so many columns: of a line that is too long the part with the
    /// cursor. The last column stays free, so that no line is broken.
    pub fn shown(&self, prompt: &str, columns: usize) -> String {
        let prompt_wide = prompt.chars().count();
        let room = columns.saturating_sub(prompt_wide + 1).max(1);
        let from = (self.cursor + 1).saturating_sub(room);
        let part: String = self.signs.iter().skip(from).take(room).collect();
        let back = part.chars().count() - (self.cursor - from);
        let move_back = if back > 0 { format!("\x1b[{back}D") } else { String::new() };
        format!("\r{prompt}{part}\x1b[K{move_back}")
    }
}

#[cfg(test)]
mod tests {
    use super::super::keys;
    use super::*;

    /// The lines that these bytes give.
    fn typed(mut bytes: &[u8]) -> Vec<Typed> {
        let mut line = Line::default();
        let mut all = Vec::new();
        while let Some((key, length)) = keys::first(bytes) {
            bytes = &bytes[length..];
            match line.take(key) {
                Typed::Shown | Typed::Cleared => {}
                other => all.push(other),
            }
        }
        all
    }

    fn done(bytes: &[u8]) -> Vec<String> {
        typed(bytes).into_iter().map(|typed| if let Typed::Done(line) = typed { line } else { panic!("{typed:?}") }).collect()
    }

    #[test]
    fn signs_are_put_in_and_deleted() {
        assert_eq!(done(b"clam\x1b[Di\n"), ["claim"]);
        assert_eq!(done(b"xclaimm\x7f\x1b[H\x1b[3~\n"), ["claim"]);
        assert_eq!(done(b"claim yard 9\x17\x1775\x01\x05 1\n"), ["claim 75 1"]);
        assert_eq!(done(b"abc\x1b[D\x0b\x15x\x7f\x7f\x1b[3~\x1b[C\x1b[D\x1b[D\n"), [""]);
        assert_eq!(done("shöp\x1b[D\x7fo\r".as_bytes()), ["shop"]);
    }

    #[test]
    fn earlier_lines_are_looked_up() {
        assert_eq!(done(b"one\ntwo\n\x1b[A\x1b[A\n"), ["one", "two", "one"]);
        assert_eq!(done(b"one\ntwo\nth\x1b[A\x1b[A\x1b[A\x1b[B\x1b[B\x1b[Bree\n"), ["one", "two", "three"]);
        assert_eq!(
            done(b"one\n\n  \none\n\x1b[A\x1b[A!\n"),
            ["one", "", "  ", "one", "one!"],
            "an empty or a repeated line is not kept"
        );
        assert_eq!(done(b"\x1b[A\x1b[Bx\n"), ["x"]);
    }

    #[test]
    fn a_line_is_given_up_or_the_input_closed() {
        assert_eq!(typed(b"abc\x03x\n"), [Typed::GivenUp(true), Typed::Done("x".into())]);
        assert_eq!(typed(b"\x03\x04"), [Typed::GivenUp(false), Typed::Closed]);
        assert_eq!(typed(b"ab\x01\x04\n"), [Typed::Done("b".into())]);
        assert_eq!(typed(b"ab\x1ac\n"), [Typed::Suspended, Typed::Done("abc".into())]);
    }

    #[test]
    fn the_part_with_the_cursor_is_shown() {
        let mut line = Line::default();
        "claim yard 75".chars().for_each(|sign| assert_eq!(line.take(Key::Sign(sign)), Typed::Shown));
        assert_eq!(line.shown("desk> ", 80), "\rdesk> claim yard 75\x1b[K");
        assert_eq!(line.shown("desk> ", 12), "\rdesk> d 75\x1b[K");
        line.take(Key::Left);
        assert_eq!(line.shown("desk> ", 80), "\rdesk> claim yard 75\x1b[K\x1b[1D");
        line.take(Key::Home);
        assert_eq!(line.shown("desk> ", 12), "\rdesk> claim\x1b[K\x1b[5D");
        assert_eq!(line.shown("desk> ", 3), "\rdesk> c\x1b[K\x1b[1D");
    }
}
