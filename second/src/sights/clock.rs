//! What a clocked call meets, request C-15: which times the rows have, what it is that takes the time, and
//! what of the rows must not count; and the plain calls where rows have other times than each other.

mod mixed;

use std::collections::BTreeSet;

use super::{Glance, View};
use crate::line::{Outcome, Step};
use crate::model::{Configuration, Network, Phase};
use crate::packet::Layout;
use mixed::Mixed;

type CanCome = Vec<(String, &'static [&'static str])>;

const DONE: &[&str] = &["DONE"];
const QUIET: &[&str] = &["QUIET"];
const RECOVERED: &[&str] = &["RECOVERED"];

/// What comes with a node on line.
const ANY: &[&str] = &[
    "RECOVERED",
    "PASSED",
    "UNANSWERED",
    "TOKENLOST",
    "HELD NOTHING",
    "HELD MALFORMED",
    "HELD BROADCAST",
    "HELD NOANSWER",
    "HELD NAK",
    "HELD DELIVERED",
    "HELD UNACKNOWLEDGED",
];

/// What comes where a packet goes.
const SENT: &[&str] = &["HELD BROADCAST", "HELD DELIVERED", "HELD UNACKNOWLEDGED"];

/// Answers of each kind: a recovery, an invitation that is taken, one that is not, nothing sent.
const EACH_PHASE: &[&str] = &["RECOVERED", "PASSED", "UNANSWERED", "HELD NOTHING"];

pub(super) fn can_come() -> CanCome {
    let mut all = of_times();
    all.extend(of_packets());
    all.extend(of_recoveries());
    all.extend(of_rows_off_line());
    all.extend(mixed::can_come());
    all.extend(OUTCOMES.map(|outcome| (lap_with(outcome), DONE)));
    all
}

fn of_times() -> CanCome {
    const UNACKNOWLEDGED: &[&str] = &["HELD UNACKNOWLEDGED"];
    let mut all = Vec::new();
    for (et2, et1) in [(true, true), (true, false), (false, true), (false, false)] {
        let et = Et { et2, et1 };
        all.push((clockstep(&et.text()), ANY));
        all.push((clocklap(&et.text()), DONE));
        all.extend(UNHEARD.map(|why| (unheard(et, why), UNACKNOWLEDGED)));
    }
    all.push((clockstep(PRESCALER), ANY));
    all
}

fn of_packets() -> CanCome {
    const NOTHING: &[&str] = &["HELD NOTHING"];
    let mut all: CanCome = [1, 2, 253, 257, 258, 508]
        .map(|data_bytes| (packet_of(data_bytes), SENT))
        .to_vec();
    all.extend(BESIDE_ANOTHER.map(|place| (clockstep(place), SENT)));
    all.push((clockstep(NOTHING_LEFT), NOTHING));
    all
}

fn of_recoveries() -> CanCome {
    let mut all: CanCome = [1, 2, 255].map(|id| (recovered_id(id), RECOVERED)).to_vec();
    all.extend([0, 1, 2].map(|bursts| (recovered_by(bursts), RECOVERED)));
    all.extend(LOST_BY.map(|cause| (recovered_after(cause), RECOVERED)));
    all.push((clockstep(NOT_ROW_0), RECOVERED));
    all.push((clockstep(HIGHER_OFF_LINE), RECOVERED));
    all
}

fn of_rows_off_line() -> CanCome {
    const ALONE: &[&str] = &["RECOVERED", "UNANSWERED", "TOKENLOST", "HELD NOTHING"];
    const ALONE_OR_BUSY: &[&str] = &["REFUSED 7 BUSY", "REFUSED 12 ALONE"];
    let mut all = Vec::new();
    for why in OFF_LINE {
        all.push((clockstep(&differs(why)), EACH_PHASE));
        all.push((clocklap(&differs(why)), DONE));
    }
    for (few, step, lap) in [
        (NOBODY, QUIET, &ALONE_OR_BUSY[1..]),
        (ONE, ALONE, ALONE_OR_BUSY),
    ] {
        all.push((clockstep(few), step));
        all.push((clockstep(&others_differ(few)), step));
        all.push((clocklap(&others_differ(few)), lap));
    }
    all
}

// The names of the sights.

fn clockstep(what: &str) -> String {
    format!("clockstep, {what}")
}

fn clocklap(what: &str) -> String {
    format!("clocklap, {what}")
}

const PRESCALER: &str = "prescaler";

/// Why the ACK to a packet does not come.
const ACK_LOST: &str = "ACK lost";
const DAMAGED: &str = "packet damaged";
const TOO_LONG: &str = "long packet to a short row";

const UNHEARD: [&str; 3] = [ACK_LOST, DAMAGED, TOO_LONG];

fn unheard(et: Et, why: &str) -> String {
    clockstep(&format!("{}, {why}", et.text()))
}

fn packet_of(data_bytes: usize) -> String {
    let which = match data_bytes {
        1 => "1",
        253 => "253",
        257 => "257",
        508 => "508",
        2..=252 => "2 to 252",
        _ => "258 to 507",
    };
    clockstep(&format!("packet of {which}"))
}

/// Where the other packet that waits is of another length.
const BEHIND_CANCELLED: &str = "behind a cancelled packet";
const BEFORE_CANCELLED: &str = "before a cancelled packet";
const BEFORE_ANOTHER: &str = "before another packet";

const BESIDE_ANOTHER: [&str; 3] = [BEHIND_CANCELLED, BEFORE_CANCELLED, BEFORE_ANOTHER];

const NOTHING_LEFT: &str = "cancelled, nothing left";

fn recovered_id(id: u8) -> String {
    let which = match id {
        1 => "1",
        255 => "255",
        _ => "2 to 254",
    };
    clockstep(&format!("recovered ID {which}"))
}

/// By how many rows on line have MYRECON.
fn recovered_by(bursts: usize) -> String {
    let rows = ["no row", "one row", "several rows"][bursts.min(2)];
    clockstep(&format!("MYRECON in {rows}"))
}

const TOKEN_LOST: &str = "TOKENLOST";
const TIMER: &str = "a timer";
const CAME_ON_LINE: &str = "a row came on line";
const HOLDER_LEFT: &str = "the holder left";

const LOST_BY: [&str; 4] = [TOKEN_LOST, TIMER, CAME_ON_LINE, HOLDER_LEFT];

fn recovered_after(cause: &str) -> String {
    clockstep(&format!("recovered after {cause}"))
}

const NOT_ROW_0: &str = "recovered row not the first";
const HIGHER_OFF_LINE: &str = "recovered with a higher ID off line";

/// Why a row is off line.
const NO_TXEN: &str = "without TXEN";
const IN_RESET: &str = "in RESET";
const NO_ID: &str = "without an ID";

const OFF_LINE: [&str; 3] = [NO_TXEN, IN_RESET, NO_ID];

fn differs(why: &str) -> String {
    format!("a row {why} differs")
}

/// Where fewer than two are on line.
const NOBODY: &str = "nobody on line";
const ONE: &str = "one on line";

fn others_differ(few: &str) -> String {
    format!("{few}, others differ")
}

const OUTCOMES: [&str; 6] = [
    "MALFORMED",
    "BROADCAST",
    "NOANSWER",
    "NAK",
    "DELIVERED",
    "UNACKNOWLEDGED",
];

/// A lap in which a row's turn has this outcome.
fn lap_with(outcome: &str) -> String {
    clocklap(&format!("HELD {outcome}"))
}

/// The bits that choose the times.
#[derive(Clone, Copy, PartialEq, Eq, PartialOrd, Ord)]
pub(super) struct Et {
    et2: bool,
    et1: bool,
}

impl Et {
    fn of(row: &Glance) -> Et {
        let Configuration { et1, et2, .. } = row.configuration;
        Et { et2, et1 }
    }

    /// As C-15 writes them, ET2 first.
    fn text(self) -> String {
        format!("ET {}{}", u8::from(self.et2), u8::from(self.et1))
    }
}

/// A call and its answer without the time, as the plain call has them; None where it is not clocked.
pub fn without_time<'a>(words: &[&'a str], answer: &str) -> Option<(Vec<&'a str>, String)> {
    let told: Vec<&str> = answer.split(' ').collect();
    let (word, untimed) = match (words, told.as_slice()) {
        (["clockstep", _], ["REFUSED" | "ERROR", ..]) => ("step", told),
        (["clockstep", _], [step @ .., _]) => ("step", step.to_vec()),
        (["clocklap", _], ["DONE", total, _, takers @ ..]) => {
            ("lap", [&["DONE", *total], takers].concat())
        }
        (["clocklap", _], _) => ("lap", told),
        _ => return None,
    };
    Some((vec![word, words[1]], untimed.join(" ")))
}

/// The outcomes of the turns in a lap from here, if there is to be one.
pub fn turns(network: &Network) -> Vec<Outcome> {
    let mut network = network.clone();
    let mut outcomes = Vec::new();
    // 256 + 2n steps make a lap.
    for _ in 0..256 + 2 * network.on_line_count() {
        if let Ok(Step::Held(outcome)) = network.step(0) {
            outcomes.push(outcome);
        }
    }
    outcomes
}

/// Sees each call, and keeps what the next one needs of it.
#[derive(Default)]
pub struct Watch {
    /// What made the phase LOST.
    lost_by: Option<&'static str>,
    mixed: mixed::Watch,
}

impl Watch {
    /// The sights of a call; `turns` are those of the lap that it may be.
    pub fn sights(
        &mut self,
        words: &[&str],
        answer: &str,
        before: Option<&View>,
        after: Option<&View>,
        turns: &[Outcome],
    ) -> Vec<String> {
        let mut seen = self.mixed.sights(words, before, after);
        if let Some(before) = before {
            seen.extend(self.seen(words, answer, before, turns));
        }
        self.lost_by = match (before, after) {
            (Some(before), Some(after)) => lost_by(words, before, after).or(self.lost_by),
            _ => None,
        };
        if matches!(words, ["poke" | "size" | "fresh" | "load", ..]) {
            self.lost_by = None;
        }
        seen
    }

    fn seen(
        &self,
        words: &[&str],
        answer: &str,
        before: &View,
        turns: &[Outcome],
    ) -> BTreeSet<String> {
        let (["clockstep" | "clocklap", argument], None) = (words, Mixed::of(before)) else {
            return BTreeSet::new();
        };
        let mut seen = BTreeSet::from_iter(who_is_on_line(words[0], before));
        if answer.starts_with("RECOVERED") {
            seen.extend(self.recovered(before));
        }
        if words[0] == "clocklap" {
            seen.extend(turns.iter().filter_map(outcome_name).map(lap_with));
        } else {
            seen.extend(turn(before));
            seen.extend(unacknowledged(argument, answer, before));
        }
        seen
    }

    fn recovered(&self, before: &View) -> Vec<String> {
        let on_line = before.on_line();
        let Some(highest) = on_line.map(|row| row.node_id).max() else {
            return Vec::new();
        };
        let bursts = before.on_line().filter(|row| row.diagnostic.myrecon);
        let mut seen = vec![recovered_id(highest), recovered_by(bursts.count())];
        seen.extend(self.lost_by.map(recovered_after));
        let mut note = |holds: bool, sight: &str| seen.extend(holds.then(|| clockstep(sight)));
        note(before.rows[0].node_id != highest, NOT_ROW_0);
        let higher = |row: &Glance| row.node_id > highest;
        note(before.rows.iter().any(higher), HIGHER_OFF_LINE);
        seen
    }
}

/// What a call does to make the phase LOST, or to a phase that is; None where it does nothing of it.
fn lost_by(words: &[&str], before: &View, after: &View) -> Option<&'static str> {
    if after.phase != Phase::Lost {
        return None;
    }
    let newly_on_line = before.rows.iter().zip(&after.rows);
    let came = newly_on_line
        .filter(|(was, is)| !was.on_line && is.on_line)
        .count();
    match words[0] {
        "timer" if before.phase != Phase::Lost => Some(TIMER),
        "step" | "clockstep" if before.phase != Phase::Lost => Some(TOKEN_LOST),
        "write" if came > 0 => Some(CAME_ON_LINE),
        "write" | "reset" if before.phase != Phase::Lost => Some(HOLDER_LEFT),
        _ => None,
    }
}

/// The times, where there are rows on line and they have the same; and what does not count.
fn who_is_on_line(word: &str, before: &View) -> Vec<String> {
    let mut seen = Vec::new();
    let ets: BTreeSet<Et> = before.rows.iter().map(Et::of).collect();
    let few = match before.on_line().count() {
        0 => Some(NOBODY),
        1 => Some(ONE),
        _ => None,
    };
    let first = before.on_line().next().map(Et::of);
    let mut note = |what: String| seen.push(format!("{word}, {what}"));
    if let Some(et) = first {
        note(et.text());
    }
    match few {
        Some(few) if ets.len() > 1 => {
            note(few.to_string());
            note(others_differ(few));
        }
        Some(few) => note(few.to_string()),
        None => {
            let other = |row: &&Glance| Some(Et::of(row)) != first;
            let off_line = before.rows.iter().filter(other).filter_map(why_off_line);
            off_line.for_each(|why| note(differs(why)));
        }
    }
    let slow = |row: &Glance| row.setup > 1;
    if before.on_line().any(slow) {
        note(PRESCALER.to_string());
    }
    seen
}

/// Where one thing alone keeps a row off line.
fn why_off_line(row: &Glance) -> Option<&'static str> {
    let Configuration { reset, txen, .. } = row.configuration;
    match (txen, reset, row.node_id) {
        (false, false, 1..) => Some(NO_TXEN),
        (true, true, 1..) => Some(IN_RESET),
        (true, false, 0) => Some(NO_ID),
        _ => None,
    }
}

/// The packet that is tried, and what waits beside it.
fn turn(before: &View) -> Vec<String> {
    let Some(packet) = before.packet() else {
        let cancelled = !before.waiting.is_empty() && before.tried().is_none();
        return Vec::from_iter(cancelled.then(|| clockstep(NOTHING_LEFT)));
    };
    let mut seen = vec![packet_of(packet.data_bytes())];
    if let [(oldest, first), (second, other)] = before.waiting.as_slice() {
        let of_another_length = first.map(Layout::characters) != other.map(Layout::characters);
        let place = match (oldest.cancel_asked, second.cancel_asked) {
            (true, _) => BEHIND_CANCELLED,
            (false, true) => BEFORE_CANCELLED,
            (false, false) => BEFORE_ANOTHER,
        };
        seen.extend(of_another_length.then(|| clockstep(place)));
    }
    seen
}

fn unacknowledged(fault: &str, answer: &str, before: &View) -> Option<String> {
    let row = answer.strip_prefix("HELD UNACKNOWLEDGED ")?;
    let target = before.row(row.split(' ').next()?)?;
    let why = match fault {
        "1" => DAMAGED,
        _ if before.too_long_for(target) => TOO_LONG,
        _ => ACK_LOST,
    };
    Some(unheard(Et::of(before.on_line().next()?), why))
}

/// None of a turn in which nothing waits.
fn outcome_name(outcome: &Outcome) -> Option<&'static str> {
    match outcome {
        Outcome::Nothing => None,
        Outcome::Malformed => Some("MALFORMED"),
        Outcome::Broadcast => Some("BROADCAST"),
        Outcome::NoAnswer => Some("NOANSWER"),
        Outcome::Nak(_) => Some("NAK"),
        Outcome::Delivered(_) => Some("DELIVERED"),
        Outcome::Unacknowledged(_) => Some("UNACKNOWLEDGED"),
    }
}
