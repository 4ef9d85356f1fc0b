//! What a `load` meets, request C-12: what else is wrong with an order than what it is refused for.

use crate::model::Network;
use crate::order::{self, RECORD};
use crate::prompt::from_hex;
use crate::refusal::Refusal;

/// What a record is refused for, in the order in which it is tested.
const REASONS: [Refusal; 5] = [
    Refusal::Mark,
    Refusal::OrderId,
    Refusal::Flags,
    Refusal::Name,
    Refusal::Twice,
];

pub(super) fn can_come() -> Vec<(String, &'static [&'static str])> {
    const LENGTH: &[&str] = &["REFUSED 14 LENGTH"];
    const BAD_RECORD: &[&str] = &[
        "REFUSED 15 MARK",
        "REFUSED 16 ORDER-ID",
        "REFUSED 17 FLAGS",
        "REFUSED 18 NAME",
        "REFUSED 19 TWICE",
    ];
    const TWICE: &[&str] = &["REFUSED 19 TWICE"];
    let mut all = vec![
        (load("no record"), LENGTH),
        (load("part of a record"), LENGTH),
        (load("above 60 records"), LENGTH),
        (load("a bad record too"), LENGTH),
        (load("wrong room"), LENGTH),
        (load("wrong room"), BAD_RECORD),
        (load("no other bad record"), BAD_RECORD),
        // It is alike to none before it.
        (load("the first record"), &BAD_RECORD[..4]),
        (load("the last record"), BAD_RECORD),
        (load("a record between"), BAD_RECORD),
        (in_it_too(Refusal::OrderId), &BAD_RECORD[..1]),
        (in_it_too(Refusal::Flags), &BAD_RECORD[..2]),
        (in_it_too(Refusal::Name), &BAD_RECORD[..3]),
        // Not with ORDER-ID: an earlier record with ID 0 would be named.
        (in_it_too(Refusal::Twice), &BAD_RECORD[..1]),
        (in_it_too(Refusal::Twice), &BAD_RECORD[2..4]),
        (load("three of one ID"), TWICE),
        (load("a pair within a pair"), TWICE),
    ];
    all.extend(REASONS.map(|reason| (behind_it(reason), BAD_RECORD)));
    all
}

fn load(what: &str) -> String {
    format!("load, {what}")
}

fn in_it_too(reason: Refusal) -> String {
    load(&format!("{} in it too", reason.name()))
}

fn behind_it(reason: Refusal) -> String {
    load(&format!("{} behind it", reason.name()))
}

/// The sights of a `load` with so many bytes lent, where the order itself is refused.
pub fn sights(words: &[&str], lent: usize) -> Vec<String> {
    match words {
        ["load"] => seen(&[], lent),
        ["load", digits] => {
            from_hex(digits.as_bytes()).map_or(Vec::new(), |order| seen(&order, lent))
        }
        _ => Vec::new(),
    }
}

fn seen(order: &[u8], lent: usize) -> Vec<String> {
    let faults = order::faults(order);
    let bad = faults.iter().position(|faults| !faults.is_empty());
    let mut seen = if !order::has_length(order) {
        wrong_length(order, bad.is_some())
    } else if let Some(bad) = bad {
        named(order, &faults, bad)
    } else {
        return Vec::new();
    };
    if lent != Network::length_for(faults.len()) {
        seen.push(load("wrong room"));
    }
    seen
}

fn wrong_length(order: &[u8], bad_record: bool) -> Vec<String> {
    let mut seen = vec![load(match order.len() {
        0 => "no record",
        length if length.is_multiple_of(RECORD) => "above 60 records",
        _ => "part of a record",
    })];
    seen.extend(bad_record.then(|| load("a bad record too")));
    seen
}

/// The record that is named: its place, what else is wrong with it, and what is behind it.
fn named(order: &[u8], faults: &[Vec<Refusal>], bad: usize) -> Vec<String> {
    let behind = faults[bad + 1..].concat();
    let mut seen = vec![load(match bad {
        0 => "the first record",
        _ if bad + 1 == faults.len() => "the last record",
        _ => "a record between",
    })];
    let mut note = |holds: bool, sight: String| seen.extend(holds.then_some(sight));
    note(behind.is_empty(), load("no other bad record"));
    for reason in REASONS {
        note(behind.contains(&reason), behind_it(reason));
        note(faults[bad][1..].contains(&reason), in_it_too(reason));
    }
    if faults[bad] == [Refusal::Twice] {
        let ids: Vec<u8> = order.chunks(RECORD).map(|record| record[2]).collect();
        let (id, behind) = (ids[bad], &ids[bad + 1..]);
        note(behind.contains(&id), load("three of one ID"));
        let mut before_both = ids.iter().take_while(|other| **other != id);
        let within = before_both.any(|other| behind.contains(other));
        note(within, load("a pair within a pair"));
    }
    seen
}
