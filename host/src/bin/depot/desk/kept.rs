//! A desk in a file: its bytes as firmware keeps them, and the controllers' names behind them, a line each.
use crate::outcome::{bytes_of, put};
use depot_host::{Desk, Refusal, MOST_CONTROLLERS};

/// How many bytes a desk has.
const LENGTH: usize = size_of::<Desk>();

pub fn save(file: &str, desk: &Desk, names: &[String]) -> Result<(), String> {
    let figures = [&[desk.count, desk.limit][..], &desk.held, &desk.assured, &desk.ceiling].concat();
    let mut bytes: Vec<u8> = figures.into_iter().flat_map(u32::to_le_bytes).collect();
    names.iter().for_each(|name| bytes.extend(format!("{name}\n").bytes()));
    put(file, &bytes).map_err(|trouble| trouble.text())
}

/// The desk of a file and its names, or why it is none: the library refuses a desk that no opening and later calls can leave.
pub fn load(file: &str) -> Result<(Desk, Vec<String>), String> {
    let bytes = bytes_of(file).map_err(|trouble| trouble.text())?;
    desk_of(&bytes).ok_or(format!("'{file}' is no desk; allowed: a file that 'save' wrote, or the {LENGTH} bytes of a desk"))
}

fn desk_of(bytes: &[u8]) -> Option<(Desk, Vec<String>)> {
    let (desk, names) = bytes.split_at_checked(LENGTH)?;
    let mut figures = desk.chunks_exact(4).map(|word| u32::from_le_bytes([word[0], word[1], word[2], word[3]]));
    let mut next = || figures.next().expect("a desk has that many figures");
    let (count, limit) = (next(), next());
    let [held, assured, ceiling] = [(); 3].map(|()| [(); MOST_CONTROLLERS].map(|()| next()));
    let desk = Desk { count, limit, held, assured, ceiling };
    if desk.look(0) == Err(Refusal::NoSuchNumber) {
        return None;
    }
    let given: Vec<String> = std::str::from_utf8(names).ok()?.lines().map(String::from).collect();
    let usual = || (0..count).map(|number| format!("controller {number}")).collect();
    let names = if given.is_empty() { usual() } else { given };
    let plain = names.iter().all(|name| !name.is_empty() && !name.chars().any(char::is_control));
    (plain && names.len() == count as usize).then_some((desk, names))
}
