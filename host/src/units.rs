//! Figures on command lines.
use crate::MOST_POWER;

/// A number of bytes, in digits or with K, M or G behind them.
pub fn bytes(word: &str) -> Option<usize> {
    let (number, unit) = match word.as_bytes().last()? {
        b'K' => (&word[..word.len() - 1], 1 << 10),
        b'M' => (&word[..word.len() - 1], 1 << 20),
        b'G' => (&word[..word.len() - 1], 1 << 30),
        _ => (word, 1),
    };
    usize::try_from(digits(number)?).ok()?.checked_mul(unit)
}

/// The same the other way round.
pub fn in_bytes(bytes: usize) -> String {
    match bytes {
        b if b >= 1 << 20 && b % (1 << 20) == 0 => format!("{}M", b >> 20),
        b if b >= 1 << 10 && b % (1 << 10) == 0 => format!("{}K", b >> 10),
        b => b.to_string(),
    }
}

/// Power in hundreds of watts, written in kW: `30`, `12.5` or `12.5kW`; or so many modules of a size, `3x30`. Else why it is none.
pub fn power(word: &str) -> Result<u32, String> {
    let none = || format!("found '{word}'; allowed: kW, as 30 or 12.5, or modules of a size, as 3x30");
    let (modules, size) = match word.split_once('x') {
        Some((modules, size)) => (digits(modules).ok_or_else(none)?, size),
        None => (1, word),
    };
    let size = size.strip_suffix("kW").unwrap_or(size);
    let (whole, part) = size.split_once('.').unwrap_or((size, "0"));
    let (whole, tenth) = (digits(whole).ok_or_else(none)?, part.get(..1).and_then(digits).ok_or_else(none)?);
    let finer = part.get(1..).filter(|finer| finer.bytes().all(|byte| byte.is_ascii_digit())).ok_or_else(none)?;
    let hundreds = whole.saturating_mul(10).saturating_add(tenth);
    if finer.bytes().any(|byte| byte != b'0') {
        let near = [hundreds, hundreds.saturating_add(1)].map(in_kw);
        return Err(format!("found '{word}'; allowed: whole hundreds of watts, so {} or {} kW", near[0], near[1]));
    }
    let all = u32::try_from(modules.saturating_mul(hundreds));
    all.map_err(|_| format!("found '{word}'; allowed: kW, up to {}", in_kw(u64::from(MOST_POWER))))
}

/// A number written in digits alone; one too large to be any figure is the largest.
fn digits(word: &str) -> Option<u64> {
    let all_digits = !word.is_empty() && word.bytes().all(|byte| byte.is_ascii_digit());
    all_digits.then(|| word.parse().unwrap_or(u64::MAX))
}

/// Hundreds of watts in kW, without the unit: `12.5`, `30`.
pub fn in_kw(hundreds: impl Into<u64>) -> String {
    let hundreds = hundreds.into();
    match hundreds % 10 {
        0 => (hundreds / 10).to_string(),
        tenth => format!("{}.{tenth}", hundreds / 10),
    }
}

#[test]
fn kilowatts() {
    let words = ["0", "30", "30kW", "12.5", "0.1", "12.50", "3x30", "2x12.5kW", "0x30", "429496729.5"];
    assert_eq!(words.map(power), [0, 300, 300, 125, 1, 125, 900, 250, 0, u32::MAX].map(Ok));
    for word in ["", "x", ".5", "5.", "-1", "1,5", "1e3", "30KW", "3x", "x30", "3x3x3", "30 kW", "1.5.5", "1.é"] {
        assert_eq!(power(word), Err(format!("found '{word}'; allowed: kW, as 30 or 12.5, or modules of a size, as 3x30")));
    }
    assert_eq!(power("12.55"), Err("found '12.55'; allowed: whole hundreds of watts, so 12.5 or 12.6 kW".into()));
    assert_eq!(power("0.01"), Err("found '0.01'; allowed: whole hundreds of watts, so 0 or 0.1 kW".into()));
    for word in ["429496729.6", "99999999999999999999", "99999999999x99999999999"] {
        assert_eq!(power(word), Err(format!("found '{word}'; allowed: kW, up to 40000")));
    }
    assert_eq!([0u32, 1, 10, 125, 400_000].map(in_kw), ["0", "0.1", "1", "12.5", "40000"]);
}

#[test]
fn numbers_of_bytes() {
    assert_eq!(["0", "735", "64K", "16M"].map(bytes), [Some(0), Some(735), Some(64 << 10), Some(16 << 20)]);
    assert_eq!(bytes("5G"), Some(5 << 30));
    assert_eq!(["", "K", "1T", "-1", "+1", "1.5M", "99999999999999999999M"].map(bytes), [None; 7]);
    assert_eq!([0, 735, 4096, 16 << 20].map(in_bytes), ["0", "735", "4K", "16M"]);
}
