//! Bytes of a file that people write, as text: in UTF-8, in UTF-16 or in the bytes of Windows, as spreadsheets save it.

/// The text of these bytes.
pub fn text_of(bytes: &[u8]) -> String {
    if let Some(text) = utf_16(bytes) {
        return text;
    }
    let bytes = bytes.strip_prefix(b"\xEF\xBB\xBF").unwrap_or(bytes);
    match std::str::from_utf8(bytes) {
        Ok(text) => text.into(),
        Err(_) => bytes.iter().map(|byte| char::from(*byte)).collect(),
    }
}

/// The text of bytes in UTF-16: told by its mark, or by the 0 behind or before each of the first four signs.
pub fn utf_16(bytes: &[u8]) -> Option<String> {
    let (little, behind_mark) = match bytes {
        [0xFF, 0xFE, rest @ ..] => (true, rest),
        [0xFE, 0xFF, rest @ ..] => (false, rest),
        _ if signs_and_zeros(bytes, 1) => (true, bytes),
        _ if signs_and_zeros(bytes, 0) => (false, bytes),
        _ => return None,
    };
    let unit = |pair: &[u8]| if little { u16::from_le_bytes([pair[0], pair[1]]) } else { u16::from_be_bytes([pair[0], pair[1]]) };
    Some(String::from_utf16_lossy(&behind_mark.chunks_exact(2).map(unit).collect::<Vec<u16>>()))
}

/// Whether the first eight bytes are signs with a 0 beside each, at this place of each pair.
fn signs_and_zeros(bytes: &[u8], zero: usize) -> bool {
    let pairs = bytes.chunks_exact(2).take(4);
    pairs.len() == 4 && pairs.into_iter().all(|pair| pair[zero] == 0 && (b'\t'..=b'~').contains(&pair[1 - zero]))
}

#[test]
fn every_coding_is_read() {
    let text = "cabinet,4\nKühler\n";
    let little: Vec<u8> = text.encode_utf16().flat_map(u16::to_le_bytes).collect();
    let big: Vec<u8> = text.encode_utf16().flat_map(u16::to_be_bytes).collect();
    let marked = |mark: &[u8], bytes: &[u8]| [mark, bytes].concat();
    let windows = text.chars().map(|c| c as u8).collect();
    let utf_8 = text.as_bytes().to_vec();
    for bytes in
        [marked(b"\xEF\xBB\xBF", &utf_8), marked(b"\xFF\xFE", &little), marked(b"\xFE\xFF", &big), utf_8, little, big, windows]
    {
        assert_eq!(text_of(&bytes), text);
    }
}
