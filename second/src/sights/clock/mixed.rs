//! What a call meets where rows on line have other times than each other: how they differ, which of them
//! does, and what else there is to refuse.

use std::collections::BTreeSet;

use super::{CanCome, Et, ANY, DONE};
use crate::model::{Phase, HEADER};
use crate::sights::View;

const MIXED: &[&str] = &["REFUSED 20 MIXED"];

pub(super) fn can_come() -> CanCome {
    const SHAPE: &[&str] = &["REFUSED 1 SHAPE"];
    const STEP: &[&str] = &["REFUSED 4 VALUE", "REFUSED 20 MIXED"];
    const LAP: &[&str] = &["REFUSED 7 BUSY", "REFUSED 13 ROOM", "REFUSED 20 MIXED"];
    let mut all = vec![
        (mixed("step"), ANY),
        (mixed("lap"), DONE),
        (mixed("clockstep"), STEP),
        (mixed("clocklap"), LAP),
    ];
    all.extend(PHASES.map(|phase| (mixed("clockstep") + phase, MIXED)));
    for word in ["clockstep", "clocklap"] {
        all.push((mixed(word) + NOT_WELL_FORMED, SHAPE));
        all.push((mixed(word) + TWO_ON_LINE, MIXED));
        all.extend(BITS.map(|bits| (mixed(word) + bits, MIXED)));
        all.extend(PLACES.map(|place| (mixed(word) + place, MIXED)));
    }
    all
}

// The names of the sights.

fn mixed(word: &str) -> String {
    format!("{word}, mixed")
}

const NOT_WELL_FORMED: &str = ", not well formed";
const TWO_ON_LINE: &str = ", two on line";

const PHASES: [&str; 3] = [" in LOST", " in PASS", " in TAKEN"];

/// The bits in which two kinds of rows differ.
const BITS: [&str; 4] = [" by ET1", " by ET2", " by both", ", three kinds"];

/// Of three or more on line, the one that differs from all others.
const PLACES: [&str; 3] = [", the first alone", ", the last alone", ", one between"];

/// How the rows on line differ.
pub(super) struct Mixed {
    /// Of each row on line.
    ets: Vec<Et>,
}

impl Mixed {
    /// None where they do not.
    pub(super) fn of(view: &View) -> Option<Mixed> {
        let ets: Vec<Et> = view.on_line().map(Et::of).collect();
        let differ = ets.windows(2).any(|pair| pair[0] != pair[1]);
        differ.then_some(Mixed { ets })
    }

    fn bits(&self) -> &'static str {
        let kinds: BTreeSet<Et> = self.ets.iter().copied().collect();
        let kinds: Vec<Et> = kinds.into_iter().collect();
        let [one, other] = kinds.as_slice() else {
            return BITS[3];
        };
        match (one.et1 != other.et1, one.et2 != other.et2) {
            (true, false) => BITS[0],
            (false, true) => BITS[1],
            _ => BITS[2],
        }
    }

    fn place(&self) -> Option<&'static str> {
        let last = self.ets.len() - 1;
        if last < 2 {
            return None;
        }
        let alone = |odd: &usize| {
            let mut others = self.ets.clone();
            others.remove(*odd);
            others.iter().all(|other| *other == others[0])
        };
        match (0..=last).find(alone)? {
            0 => Some(PLACES[0]),
            odd if odd == last => Some(PLACES[1]),
            _ => Some(PLACES[2]),
        }
    }

    fn sights(&self, word: &str, phase: Phase) -> Vec<String> {
        let mut seen = vec![mixed(word)];
        if !word.starts_with("clock") {
            return seen;
        }
        seen.push(mixed(word) + self.bits());
        seen.extend(self.place().map(|place| mixed(word) + place));
        seen.extend((self.ets.len() == 2).then(|| mixed(word) + TWO_ON_LINE));
        let phase = match phase {
            Phase::Lost => PHASES[0],
            Phase::Pass { .. } => PHASES[1],
            Phase::Taken { .. } => PHASES[2],
        };
        seen.extend((word == "clockstep").then(|| mixed(word) + phase));
        seen
    }
}

/// Keeps whether the rows were mixed when the network stopped being well formed.
#[derive(Default)]
pub(super) struct Watch {
    spoilt: bool,
}

impl Watch {
    pub(super) fn sights(
        &mut self,
        words: &[&str],
        before: Option<&View>,
        after: Option<&View>,
    ) -> Vec<String> {
        let found = before.and_then(|before| Some((Mixed::of(before)?, before.phase)));
        let seen = match (words, &found) {
            (["clockstep" | "clocklap", _], None) if self.spoilt => {
                vec![mixed(words[0]) + NOT_WELL_FORMED]
            }
            (["step" | "lap" | "clockstep" | "clocklap", _], Some((mixed, phase))) => {
                mixed.sights(words[0], *phase)
            }
            _ => Vec::new(),
        };
        if let ["poke" | "size" | "fresh" | "load", ..] = words {
            self.spoilt = found.is_some() && after.is_none() && in_header(words);
        }
        seen
    }
}

/// Whether one byte of the header is poked, so that the rows stay as they are.
fn in_header(words: &[&str]) -> bool {
    match words {
        ["poke", at, digits] => {
            digits.len() == 2 && at.parse::<usize>().is_ok_and(|at| at < HEADER)
        }
        _ => false,
    }
}
