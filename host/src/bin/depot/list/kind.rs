//! Whether a file is a list or a job sheet, which its bytes tell.
use super::COLUMNS;
use crate::coding::{text_of, utf_16};

/// Words of which a list has some.
const WORDS: [&str; 3] = ["cabinet", "changeover", "start"];

/// Whether these bytes are a list, and not a job sheet. Every sheet has a byte 0 near its end; no text has one, but in UTF-16.
pub fn is_list(name: &str, bytes: &[u8]) -> bool {
    if utf_16(bytes).is_some() {
        return true;
    }
    if bytes.contains(&0) {
        return false;
    }
    let text = text_of(bytes).to_ascii_lowercase();
    let words = || text.split(|c: char| !c.is_ascii_alphanumeric());
    let looks_so = words().any(|word| WORDS.contains(&word) || COLUMNS.contains(&word)) && text.contains([',', ';', '\t']);
    looks_so || name.to_ascii_lowercase().ends_with(".csv")
}

#[test]
fn lists_and_others() {
    let list = "cabinet,4\nlabel,modules,minutes,departure\nA,1,10,30\n";
    let utf_16: Vec<u8> = list.encode_utf16().flat_map(u16::to_le_bytes).collect();
    assert!(
        is_list("-", list.as_bytes()) && is_list("night.txt", &utf_16) && is_list("-", b"label;modules") && is_list("x.CSV", b"")
    );
    assert!(!is_list("-", b"") && !is_list("-", b"123456789") && !is_list("x.csv", &[0; 10]));
}
