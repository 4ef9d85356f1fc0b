//! What a `check` meets where bytes of NAKs were changed: bit 3 of byte 4, and bytes 33 and 34.

use super::CanCome;
use crate::model::{bit, HEADER, NAKS, ROW};
use crate::prompt::from_hex;
use crate::sights::{Glance, View};

/// Diagnostic status, and the bit of it that is EXCNAK.
const DIAGNOSTIC: usize = 4;
const EXCNAK: u8 = 3;

/// A number of each kind, the low byte first.
const NUMBERS: [[u8; 2]; 10] = [
    [0, 0],
    [1, 0],
    [127, 0],
    [128, 0],
    [129, 0],
    [130, 0],
    [0, 1],
    [1, 1],
    [128, 1],
    [129, 1],
];

pub(super) fn can_come() -> CanCome {
    const DONE: &[&str] = &["DONE"];
    const SHAPE: &[&str] = &["REFUSED 1 SHAPE"];
    let mut all = Vec::new();
    for number in NUMBERS {
        for (excnak, ta) in [(false, false), (false, true), (true, false), (true, true)] {
            let put = Put {
                row: 0,
                ta,
                excnak,
                number,
            };
            let well_formed = match number {
                [0, 0] => !excnak,
                [..=127, 0] => !excnak && !ta,
                [128, 0] => excnak && !ta,
                _ => false,
            };
            all.push((put.sight(), if well_formed { DONE } else { SHAPE }));
        }
    }
    all
}

/// What a row has of NAKs, in a network that is well formed else.
#[derive(Clone, Copy)]
pub(super) struct Put {
    row: usize,
    ta: bool,
    excnak: bool,
    number: [u8; 2],
}

impl Put {
    fn of(row: usize, glance: &Glance) -> Put {
        Put {
            row,
            ta: glance.transmit.idle(),
            excnak: glance.excnak(),
            number: u16::from(glance.transmit.naks()).to_le_bytes(),
        }
    }

    pub(super) fn sight(self) -> String {
        let number = match self.number {
            [0, 0] => "0",
            [1..=126, 0] => "1 to 126",
            [127, 0] => "127",
            [128, 0] => "128",
            [129, 0] => "129",
            [_, 0] => "130 to 255",
            [0, _] => "0 and a high byte",
            [1..=127, _] => "1 to 127 and a high byte",
            [128, _] => "128 and a high byte",
            [_, _] => "129 to 255 and a high byte",
        };
        let [excnak, ta] = [self.excnak, self.ta].map(u8::from);
        format!("check, EXCNAK {excnak}, TA {ta}, count {number}")
    }

    /// What was put when a call has been made: only such bytes were poked, all in one row, since the
    /// network was well formed.
    pub(super) fn after(
        put: Option<Put>,
        words: &[&str],
        before: Option<&View>,
        after: Option<&View>,
    ) -> Option<Put> {
        let ["poke", at, digits] = words else {
            return put.filter(|_| after.is_none() || matches!(words, ["check"]));
        };
        let at = at.parse::<usize>().ok()?.checked_sub(HEADER)?;
        let (row, byte) = (at / ROW, at % ROW);
        let found = match before {
            Some(before) => Put::of(row, before.rows.get(row)?),
            None => put.filter(|put| put.row == row)?,
        };
        found.with(byte, &from_hex(digits.as_bytes())?)
    }

    fn with(mut self, byte: usize, values: &[u8]) -> Option<Put> {
        match (byte, values) {
            (DIAGNOSTIC, [diagnostic]) if diagnostic & 3 == 0 => {
                self.excnak = bit(*diagnostic, EXCNAK);
            }
            (_, values) if byte >= NAKS.start && byte + values.len() <= NAKS.end => {
                self.number[byte - NAKS.start..][..values.len()].copy_from_slice(values);
            }
            _ => return None,
        }
        Some(self)
    }
}
