//! The plan card, decoded: docs/REQUIREMENTS.md, P-20.
use crate::card_length;

/// A job's row: when it starts and ends, and its modules, bit m for module m.
#[derive(Clone, Copy, Debug, PartialEq, Eq)]
pub struct Row {
    pub start: u16,
    pub end: u16,
    pub modules: u64,
}

/// What an answered planning call leaves: a row for each job, the order, and the plan's end.
#[derive(Clone, Debug, PartialEq, Eq)]
pub struct Card {
    pub rows: Vec<Row>,
    pub order: Vec<u8>,
    pub end: u16,
}

impl Card {
    /// The card that these bytes are, none where they are no card.
    pub fn of(bytes: &[u8]) -> Option<Card> {
        let trailer: &[u8; 8] = bytes.last_chunk()?;
        let [o0, o1, o2, o3, e0, e1, n0, n1] = *trailer;
        let n = usize::from(u16::from_le_bytes([n0, n1]));
        let offset = u32::from_le_bytes([o0, o1, o2, o3]);
        if bytes.len() != card_length(n) || offset as usize != 12 * n {
            return None;
        }
        let (rows, behind) = bytes.split_at(12 * n);
        Some(Card { rows: rows.chunks(12).map(row).collect(), order: behind[..n].to_vec(), end: u16::from_le_bytes([e0, e1]) })
    }
}

fn row(bytes: &[u8]) -> Row {
    let modules = bytes[4..].iter().rev().fold(0, |set, byte| set << 8 | u64::from(*byte));
    Row { start: u16::from_le_bytes([bytes[0], bytes[1]]), end: u16::from_le_bytes([bytes[2], bytes[3]]), modules }
}

impl Row {
    /// The numbers of its modules, rising.
    pub fn module_numbers(&self) -> Vec<u32> {
        (0..64).filter(|m| self.modules >> m & 1 == 1).collect()
    }

    /// End minus departure: above 0 where the job ends after its departure.
    pub fn lateness(&self, departure: u16) -> i32 {
        i32::from(self.end) - i32::from(departure)
    }
}

#[cfg(test)]
mod tests {
    use super::*;

    /// The card of E1, as docs/REQUIREMENTS.md has it.
    const E1: [u8; 47] = [
        0, 0, 10, 0, 1, 0, 0, 0, 0, 0, 0, 0, 10, 0, 30, 0, 3, 0, 0, 0, 0, 0, 0, 0, 0, 0, 10, 0, 2, 0, 0, 0, 0, 0, 0, 0, 0, 2, 1,
        36, 0, 0, 0, 30, 0, 3, 0,
    ];

    #[test]
    fn e1_is_decoded() {
        let row = |start, end, modules| Row { start, end, modules };
        let rows = vec![row(0, 10, 1), row(10, 30, 3), row(0, 10, 2)];
        assert_eq!(Card::of(&E1), Some(Card { rows, order: vec![0, 2, 1], end: 30 }));
        assert_eq!(Card::of(&[0; 8]), Some(Card { rows: vec![], order: vec![], end: 0 }));
    }

    #[test]
    fn figures_of_several_bytes() {
        let mut bytes = [0; 21];
        bytes[..12].copy_from_slice(&[0x34, 0x12, 0x78, 0x56, 1, 0, 0, 0, 0, 0, 0, 0x80]);
        bytes[13..].copy_from_slice(&[12, 0, 0, 0, 0x78, 0x56, 1, 0]);
        let card = Card::of(&bytes).unwrap();
        assert_eq!(card.rows[0], Row { start: 0x1234, end: 0x5678, modules: 1 << 63 | 1 });
        assert_eq!(card.rows[0].module_numbers(), [0, 63]);
        assert_eq!(card.rows[0].lateness(2880), 0x5678 - 2880);
        assert_eq!(Row { start: 0, end: 1, modules: 1 }.lateness(2880), -2879);
        assert_eq!(card.end, 0x5678);
    }

    #[test]
    fn what_is_no_card() {
        for length in [0, 7, 46] {
            assert_eq!(Card::of(&E1[..length]), None);
        }
        assert_eq!(Card::of(&[&E1[..], &[0]].concat()), None);
        let mut moved = E1;
        moved[39] = 35;
        assert_eq!(Card::of(&moved), None);
    }
}
