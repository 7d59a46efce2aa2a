//! A terminal's keys: which key the bytes of standard input are, one after another.

/// A key, or what it asks for.
#[derive(Clone, Copy, Debug, PartialEq, Eq)]
pub enum Key {
    Sign(char),
    Enter,
    Left,
    Right,
    Home,
    End,
    Up,
    Down,
    Backspace,
    Delete,
    /// Deletes all in front of the cursor, all behind it, and the word in front of it.
    DeleteToStart,
    DeleteToEnd,
    DeleteWord,
    Clear,
    /// Ctrl-C: gives the line up.
    GiveUp,
    /// Ctrl-D: ends the input where the line is empty.
    Close,
    /// Ctrl-Z
    Suspend,
    /// A key that has no meaning here.
    Other,
}

const ESCAPE: u8 = 27;

/// The key at the front of these bytes, and how many of them it has; none where more of them must come.
pub fn first(bytes: &[u8]) -> Option<(Key, usize)> {
    let key = match *bytes.first()? {
        ESCAPE => return escaped(bytes),
        1 => Key::Home,
        2 => Key::Left,
        3 => Key::GiveUp,
        4 => Key::Close,
        5 => Key::End,
        6 => Key::Right,
        8 | 127 => Key::Backspace,
        b'\t' => Key::Sign(' '),
        b'\n' | b'\r' => Key::Enter,
        11 => Key::DeleteToEnd,
        12 => Key::Clear,
        14 => Key::Down,
        16 => Key::Up,
        21 => Key::DeleteToStart,
        23 => Key::DeleteWord,
        26 => Key::Suspend,
        0..32 => Key::Other,
        _ => return sign(bytes),
    };
    Some((key, 1))
}

/// A sign of one byte or of several, in UTF-8. Bytes that are none are passed over.
fn sign(bytes: &[u8]) -> Option<(Key, usize)> {
    let length = match bytes[0] {
        0..0x80 => 1,
        0xC2..0xE0 => 2,
        0xE0..0xF0 => 3,
        0xF0..0xF5 => 4,
        _ => return Some((Key::Other, 1)),
    };
    let Some(whole) = bytes.get(..length) else {
        let goes_on = bytes[1..].iter().all(|byte| byte & 0xC0 == 0x80);
        return if goes_on { None } else { Some((Key::Other, 1)) };
    };
    let read = std::str::from_utf8(whole).ok().and_then(|text| text.chars().next());
    Some(read.map_or((Key::Other, 1), |c| (if c.is_control() { Key::Other } else { Key::Sign(c) }, length)))
}

/// A key that is sent as an escape sequence: `ESC [`, figures, and a letter or a tilde; or `ESC O` and a letter. Behind an escape a control
/// byte is a key of its own, and any other sign one without a meaning here.
fn escaped(bytes: &[u8]) -> Option<(Key, usize)> {
    match *bytes.get(1)? {
        b'[' => {
            let end = 2 + bytes[2..].iter().position(|byte| !(0x20..0x40).contains(byte))?;
            let figure = std::str::from_utf8(&bytes[2..end]).unwrap_or("").split(';').next().unwrap_or("");
            let is_letter = (0x40..0x7F).contains(&bytes[end]);
            Some((named(bytes[end], figure), if is_letter { end + 1 } else { end }))
        }
        b'O' => Some((named(*bytes.get(2)?, ""), 3)),
        0..32 => Some((Key::Other, 1)),
        _ => Some((Key::Other, 2)),
    }
}

fn named(letter: u8, figure: &str) -> Key {
    match (letter, figure) {
        (b'A', _) => Key::Up,
        (b'B', _) => Key::Down,
        (b'C', _) => Key::Right,
        (b'D', _) => Key::Left,
        (b'H', _) | (b'~', "1" | "7") => Key::Home,
        (b'F', _) | (b'~', "4" | "8") => Key::End,
        (b'~', "3") => Key::Delete,
        _ => Key::Other,
    }
}

#[cfg(test)]
mod tests {
    use super::*;

    fn all(mut bytes: &[u8]) -> Vec<Key> {
        let mut keys = Vec::new();
        while let Some((key, length)) = first(bytes) {
            keys.push(key);
            bytes = &bytes[length..];
        }
        keys
    }

    #[test]
    fn keys_of_terminals() {
        use Key::*;
        assert_eq!(all(b"a\x7f\x08\x1b[A\x1bOB\x1b[1;5C\x1b[D"), [Sign('a'), Backspace, Backspace, Up, Down, Right, Left]);
        assert_eq!(
            all(b"\x1b[H\x1b[F\x1bOH\x1bOF\x1b[1~\x1b[4~\x1b[7~\x1b[8~\x1b[3~"),
            [Home, End, Home, End, Home, End, Home, End, Delete]
        );
        assert_eq!(
            all(b"\x01\x05\x02\x06\x10\x0e\x0b\x15\x17\x0c"),
            [Home, End, Left, Right, Up, Down, DeleteToEnd, DeleteToStart, DeleteWord, Clear]
        );
        assert_eq!(all(b"\x03\x04\r\n\t"), [GiveUp, Close, Enter, Enter, Sign(' ')]);
        assert_eq!(all("ü€😀".as_bytes()), [Sign('ü'), Sign('€'), Sign('😀')]);
    }

    /// Keys without a meaning are one key each, and leave no bytes behind; a key that has not come whole waits.
    #[test]
    fn other_bytes() {
        use Key::*;
        assert_eq!(
            all(b"\x1b[15~\x1b[200~x\x1bOP\x1bfy\0\x1b[\x1b[Az"),
            [Other, Other, Sign('x'), Other, Other, Sign('y'), Other, Other, Up, Sign('z')]
        );
        assert_eq!(
            all(b"\xff\x80a\xc3b\xed\xa0\x80c"),
            [Other, Other, Sign('a'), Other, Sign('b'), Other, Other, Other, Sign('c')]
        );
        assert_eq!(all(b"\x1b\r"), [Other, Enter]);
        for part in [&b"\x1b"[..], b"\x1b[", b"\x1b[1;", b"\x1bO", b"\xc3", b"\xe2\x82", b""] {
            assert_eq!(first(part), None, "{part:?}");
        }
    }

    /// Whatever bytes come, each step takes some of them.
    #[test]
    fn every_byte_is_taken() {
        for a in 0..=255 {
            for b in 0..=255 {
                let mut bytes = &[a, b, b'x', b'~', b'\n', 0x80, b'q', b'q'][..];
                while let Some((_, length)) = first(bytes) {
                    assert!(length > 0 && length <= bytes.len(), "{a} {b}");
                    bytes = &bytes[length..];
                }
                assert!(bytes.len() < 4, "{a} {b}: {bytes:?}");
            }
        }
    }
}
