//! What a step meets whose answer names the row that answered an enquiry, request C-16: where that row
//! stands, and what else might be taken for it.

use super::{Glance, View};
use crate::model::Phase;

/// What these sights begin with.
pub const ANSWERED: &str = "step, answered ";

const BEFORE: &str = "before the holder";
const BEHIND: &str = "behind the holder";
const NOT_NEXT: &str = "by a row that is not next";
const TWO_DIGITS: &str = "by a row above 9";
const BEHIND_OFF_LINE: &str = "behind a row off line";
const BEHIND_TWIN: &str = "behind a row of that ID";
const BY_CHAINING: &str = "by a row with chaining";
const FOR_CHAINING: &str = "to a row with chaining";
const BY_COUNTING: &str = "by a row that has NAKs";

const ANY: [&str; 9] = [
    BEFORE,
    BEHIND,
    NOT_NEXT,
    TWO_DIGITS,
    BEHIND_OFF_LINE,
    BEHIND_TWIN,
    BY_CHAINING,
    FOR_CHAINING,
    BY_COUNTING,
];

const LONG_TO_SHORT: &str = "by a short row, long packet";

pub(super) fn can_come() -> Vec<(String, &'static [&'static str])> {
    const NAMES: &[&str] = &["HELD NAK", "HELD DELIVERED", "HELD UNACKNOWLEDGED"];
    const NOT_STORED: &[&str] = &["HELD NAK", "HELD UNACKNOWLEDGED"];
    let mut all: Vec<_> = ANY.map(|which| (answered(which), NAMES)).to_vec();
    all.push((answered(LONG_TO_SHORT), NOT_STORED));
    all
}

fn answered(which: &str) -> String {
    format!("{ANSWERED}{which}")
}

/// The sights of an answer that names such a row, where its number is not its ID.
pub fn sights(answer: &str, before: Option<&View>) -> Vec<String> {
    let words: Vec<&str> = answer.split(' ').collect();
    let (["HELD", _, row], Some(before)) = (words.as_slice(), before) else {
        return Vec::new();
    };
    let (Ok(row), Phase::Taken { holder }) = (row.parse::<usize>(), before.phase) else {
        return Vec::new();
    };
    match before.rows.get(row) {
        Some(target) if usize::from(target.node_id) != row => seen(before, holder, row, target),
        _ => Vec::new(),
    }
}

fn seen(before: &View, holder: usize, row: usize, target: &Glance) -> Vec<String> {
    let sender = &before.rows[holder];
    let earlier = &before.rows[..row];
    let twin = |other: &Glance| other.node_id == target.node_id;
    let too_long = before.packet_is_long == Some(true) && !target.long_packets;
    let all = [
        (BEFORE, row < holder),
        (BEHIND, row > holder),
        (NOT_NEXT, sender.nid != target.node_id),
        (TWO_DIGITS, row > 9),
        (BEHIND_OFF_LINE, earlier.iter().any(|other| !other.on_line)),
        (BEHIND_TWIN, earlier.iter().any(twin)),
        (BY_CHAINING, target.chaining),
        (FOR_CHAINING, sender.chaining),
        (BY_COUNTING, target.transmit.naks() > 0),
        (LONG_TO_SHORT, too_long),
    ];
    let seen = all.into_iter().filter(|(_, holds)| *holds);
    seen.map(|(which, _)| answered(which)).collect()
}
