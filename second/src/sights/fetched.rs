//! What a call meets of the byte that register 4 gives, request C-13: whether it is the one that lies at
//! the pointer, and if not, what made it an old one.

use std::collections::BTreeSet;

use super::{Glance, View};
use crate::model::{Configuration, Mode, Row, PAGE, RAM};

/// What can make the byte that was fetched an old one.
const SHORT_PACKET: &str = "short packet";
const LONG_PACKET: &str = "long packet";
const OWN_ID: &str = "own ID";
const LAP: &str = "lap";
const WRITE: &str = "write";
const WRITE_MOVING_ON: &str = "write, AUTO-INC";
const RESET: &str = "reset";
const POKE_OF_RAM: &str = "poke of RAM";
const POKE_OF_BYTE_32: &str = "poke of byte 32";

const CAUSES: [&str; 9] = [
    SHORT_PACKET,
    LONG_PACKET,
    OWN_ID,
    LAP,
    WRITE,
    WRITE_MOVING_ON,
    RESET,
    POKE_OF_RAM,
    POKE_OF_BYTE_32,
];

/// What can come between a fetch and a read.
const LOADED_FOR_WRITES: &str = "loaded with RDDATA 0";
const AUTO_INC_CHANGED: &str = "AUTO-INC changed since";
const STAGED: &str = "other A9-A8 since";
const SOFTWARE_RESET: &str = "RESET since";
const READ_BEFORE: &str = "the same again";
const FRESH: &str = "none fetched since fresh";
const ORDER: &str = "none fetched since an order";
const OVER_THE_END: &str = "on from 3FF to 0 before";

const BETWEEN: [&str; 8] = [
    LOADED_FOR_WRITES,
    AUTO_INC_CHANGED,
    STAGED,
    SOFTWARE_RESET,
    READ_BEFORE,
    FRESH,
    ORDER,
    OVER_THE_END,
];

/// What the sights of a read that gives an old byte begin with.
pub const OLD_READ: &str = "read 4, old ";

pub(super) fn can_come() -> Vec<(String, &'static [&'static str])> {
    const DONE: &[&str] = &["DONE"];
    const VALUE: &[&str] = &["REFUSED 4 VALUE"];
    const DIRECTION: &[&str] = &["REFUSED 6 DIRECTION"];
    let mut all: Vec<_> = CAUSES.map(|cause| (old_by(cause), DONE)).to_vec();
    all.extend(BETWEEN.map(|what| (read(what), DONE)));
    all.extend([0, 255, 1_023].map(|pointer| (moves_on(pointer), DONE)));
    for flag in [false, true] {
        all.push((old_byte(flag), DONE));
        all.push((write_of_4(flag), DONE));
        all.extend([false, true].map(|auto_inc| (load(flag, auto_inc), DONE)));
    }
    all.extend(OTHERS.map(|sight| (sight.to_string(), DONE)));
    all.push((REFUSED_READ.to_string(), DIRECTION));
    all.push((REFUSED_WRITE.to_string(), DIRECTION));
    all.push((REFUSED_LOAD.to_string(), VALUE));
    all.extend(on_the_line());
    all
}

/// Those of steps and laps.
fn on_the_line() -> Vec<(String, &'static [&'static str])> {
    const ANY: &[&str] = &[
        "RECOVERED",
        "PASSED",
        "UNANSWERED",
        "TOKENLOST",
        "HELD NOTHING",
        "HELD MALFORMED",
        "HELD BROADCAST",
        "HELD NOANSWER",
        "HELD NAK",
        "HELD DELIVERED",
        "HELD UNACKNOWLEDGED",
    ];
    const SENT: &[&str] = &["HELD BROADCAST", "HELD DELIVERED", "HELD UNACKNOWLEDGED"];
    const STORED: &[&str] = &["HELD BROADCAST", "HELD DELIVERED"];
    const DELIVERED: &[&str] = &["HELD DELIVERED"];
    const DONE: &[&str] = &["DONE"];
    vec![
        (step("old byte at the holder"), ANY),
        (step("old byte at another row"), ANY),
        (step(&over_it(SHORT_PACKET)), SENT),
        (step(&over_it(LONG_PACKET)), SENT),
        (step(&over_it("end of a long packet")), DELIVERED),
        (step(&over_it(OWN_ID)), SENT),
        (step("packet at 0 after 3FF"), STORED),
        (lap("old byte"), DONE),
        (lap(&over_it("packet")), DONE),
    ]
}

// The names of the sights.

fn read(what: &str) -> String {
    format!("read 4, {what}")
}

fn old_by(cause: &str) -> String {
    format!("{OLD_READ}by {cause}")
}

fn old_byte(auto_inc: bool) -> String {
    format!("{OLD_READ}byte, AUTO-INC {}", u8::from(auto_inc))
}

/// An incremented read that leads on from here.
fn moves_on(pointer: usize) -> String {
    read(match pointer {
        _ if pointer == RAM - 1 => "on from 3FF to 0",
        _ if pointer % PAGE == PAGE - 1 => "on to the next page",
        _ => "on in the page",
    })
}

fn load(rddata: bool, auto_inc: bool) -> String {
    let [rddata, auto_inc] = [rddata, auto_inc].map(u8::from);
    format!("write 3, RDDATA {rddata} AUTO-INC {auto_inc}")
}

fn write_of_4(auto_inc: bool) -> String {
    format!("write 4, AUTO-INC {}", u8::from(auto_inc))
}

fn step(what: &str) -> String {
    format!("step, {what}")
}

fn lap(what: &str) -> String {
    format!("lap, {what}")
}

fn over_it(what: &str) -> String {
    format!("{what} over it")
}

const LOADED_AGAIN: &str = "write 3, pointer as it was";
const WRITTEN_AT_THE_END: &str = "write 4, on from 3FF to 0";
const MODE_WRITTEN: &str = "write 2, old byte";
const RESET_WRITTEN: &str = "RESET, old byte";
const CLEARED: &str = "reset, fetched byte";
const ANOTHER_CLEARED: &str = "reset, old byte at another row";
const TIMER: &str = "timer, old byte";
const MADE_FRESH: &str = "fresh, fetched byte before";
const MADE_BY_ORDER: &str = "load, fetched byte before";

const OTHERS: [&str; 9] = [
    LOADED_AGAIN,
    WRITTEN_AT_THE_END,
    MODE_WRITTEN,
    RESET_WRITTEN,
    CLEARED,
    ANOTHER_CLEARED,
    TIMER,
    MADE_FRESH,
    MADE_BY_ORDER,
];

const REFUSED_READ: &str = "read 4, RDDATA 0, old byte";
const REFUSED_WRITE: &str = "write 4, RDDATA 1, old byte";
const REFUSED_LOAD: &str = "write 3, above 255, old byte";

/// Register 4 of a row: what it gives, and what lies in RAM.
#[derive(Clone, Copy, PartialEq)]
pub(super) struct Data {
    mode: Mode,
    pointer: usize,
    fetched: u8,
    /// The RAM byte at the pointer.
    present: u8,
    /// The RAM byte to which the staged bits would lead with the pointer's low byte.
    staged: u8,
}

impl Data {
    pub(super) fn of(row: &Row) -> Data {
        let pointer = usize::from(row.pointer);
        let staged = PAGE * usize::from(row.mode.staged) + pointer % PAGE;
        Data {
            mode: row.mode,
            pointer,
            fetched: row.fetched,
            present: row.ram[pointer],
            staged: row.ram[staged],
        }
    }

    /// A read gives another byte than the one at the pointer.
    fn old(&self) -> bool {
        self.fetched != self.present
    }

    /// Neither a fetch nor a reset leaves it as it is.
    fn shows(&self) -> bool {
        self.old() && self.fetched != 0
    }
}

/// What came since the byte of a row was fetched.
#[derive(Clone, Default)]
struct Past {
    since: BTreeSet<&'static str>,
    /// What made it an old one.
    old_by: Option<&'static str>,
}

impl Past {
    fn of(what: Option<&'static str>) -> Past {
        Past {
            since: what.into_iter().collect(),
            old_by: None,
        }
    }

    /// A call other than one that fetched.
    fn goes_on(&mut self, call: Call, was: &Data, is: &Data) {
        let moved = (was.pointer, was.mode) != (is.pointer, is.mode);
        match call {
            Call::Reset | Call::Poke { .. } if moved || was.fetched != is.fetched => {
                *self = Past::default();
            }
            Call::Mode => {
                let auto_inc = is.old() && was.mode.auto_inc != is.mode.auto_inc;
                self.since.extend(auto_inc.then_some(AUTO_INC_CHANGED));
                let elsewhere = usize::from(is.mode.staged) != is.pointer / PAGE;
                let staged = elsewhere && is.staged != is.fetched;
                self.since.extend(staged.then_some(STAGED));
            }
            Call::SoftwareReset if is.fetched != 0 => {
                self.since.insert(SOFTWARE_RESET);
            }
            Call::Read if is.old() => {
                self.since.insert(READ_BEFORE);
            }
            _ => {}
        }
        if !is.old() {
            self.old_by = None;
        } else if !was.old() || was.fetched != is.fetched {
            self.old_by = call.cause(was, is);
        }
    }
}

/// A call as far as it can touch the byte of one row, or what lies at its pointer.
#[derive(Clone, Copy)]
enum Call {
    Read,
    Mode,
    Load,
    Write,
    SoftwareReset,
    Reset,
    Poke { of_one_byte: bool },
    Line(&'static str),
    Other,
}

impl Call {
    /// A call that was done, on the row that it names.
    fn of(words: &[&str]) -> Call {
        match words {
            ["read", _, "4"] => Call::Read,
            ["write", _, "2", _] => Call::Mode,
            ["write", _, "3", _] => Call::Load,
            ["write", _, "4", _] => Call::Write,
            ["write", _, "6", value] if sets_reset(value) => Call::SoftwareReset,
            ["reset", _] => Call::Reset,
            _ => Call::Other,
        }
    }

    /// A call that names no row.
    fn of_all(words: &[&str], before: &View, row: usize) -> Call {
        match words {
            ["poke", _, digits] => Call::Poke {
                of_one_byte: digits.len() == 2,
            },
            ["step", _] if before.phase.holder() == Some(row) => Call::Line(OWN_ID),
            ["step", _] => Call::Line(packet(before)),
            ["lap", _] => Call::Line(LAP),
            _ => Call::Other,
        }
    }

    fn fetches(self, was: &Data) -> bool {
        match self {
            Call::Load => true,
            Call::Read => was.mode.auto_inc,
            _ => false,
        }
    }

    fn cause(self, was: &Data, is: &Data) -> Option<&'static str> {
        match self {
            Call::Write if was.mode.auto_inc => Some(WRITE_MOVING_ON),
            Call::Write => Some(WRITE),
            Call::Reset => Some(RESET),
            Call::Poke { of_one_byte: true } if was.fetched != is.fetched => Some(POKE_OF_BYTE_32),
            Call::Poke { of_one_byte: true } if was.pointer == is.pointer => Some(POKE_OF_RAM),
            Call::Line(cause) => Some(cause),
            _ => None,
        }
    }
}

fn sets_reset(value: &str) -> bool {
    let configuration = value.parse().ok().map(Configuration::from_byte);
    configuration.is_some_and(|configuration| configuration.reset)
}

fn packet(before: &View) -> &'static str {
    match before.packet_is_long {
        Some(true) => LONG_PACKET,
        _ => SHORT_PACKET,
    }
}

/// Sees each call, and keeps what came since the byte of each row was fetched.
#[derive(Default)]
pub struct Watch {
    pasts: Vec<Past>,
}

impl Watch {
    /// The sights of a call, where the network was well formed before it and is after it.
    pub fn sights(
        &mut self,
        words: &[&str],
        answer: &str,
        before: Option<&View>,
        after: Option<&View>,
    ) -> Vec<String> {
        let done = answer.starts_with("DONE");
        let seen = match (before, after) {
            (Some(before), Some(after)) => self.seen(words, before, after),
            _ => Vec::new(),
        };
        let rows = after.map_or(0, |after| after.rows.len());
        match (words, before, after) {
            (["fresh", ..], ..) if done => self.pasts = vec![Past::of(Some(FRESH)); rows],
            (["load", ..], ..) if done => self.pasts = vec![Past::of(Some(ORDER)); rows],
            (_, Some(before), Some(after)) if before.rows.len() == rows => {
                self.go_on(words, done, before, after);
            }
            _ => self.pasts = vec![Past::default(); rows],
        }
        seen
    }

    fn go_on(&mut self, words: &[&str], done: bool, before: &View, after: &View) {
        let called = words.get(1).and_then(|row| row.parse().ok());
        let rows = before.rows.iter().zip(&after.rows);
        for (row, ((was, is), past)) in rows.zip(&mut self.pasts).enumerate() {
            let (was, is) = (&was.data, &is.data);
            let call = match Call::of_all(words, before, row) {
                Call::Other if done && called == Some(row) => Call::of(words),
                call => call,
            };
            if !call.fetches(was) {
                past.goes_on(call, was, is);
                continue;
            }
            let loaded = matches!(call, Call::Load);
            let for_writes = loaded && !was.mode.rddata && was.fetched != is.fetched;
            let over_the_end = !loaded && is.pointer == 0;
            *past = Past::of(match (for_writes, over_the_end) {
                (true, _) => Some(LOADED_FOR_WRITES),
                (_, true) => Some(OVER_THE_END),
                _ => None,
            });
        }
    }

    fn seen(&self, words: &[&str], before: &View, after: &View) -> Vec<String> {
        match words {
            ["step", _] => self.stepped(before, after),
            ["lap", _] => lapped(before, after),
            ["fresh", ..] => made(MADE_FRESH, before, after),
            ["load", ..] => made(MADE_BY_ORDER, before, after),
            [_, row, ..] => {
                let row = row.parse::<usize>().ok();
                let pair =
                    row.and_then(|row| Some((row, before.rows.get(row)?, after.rows.get(row)?)));
                pair.map_or(Vec::new(), |(row, was, is)| {
                    self.called(words, row, &was.data, &is.data, before)
                })
            }
            _ => Vec::new(),
        }
    }

    fn called(
        &self,
        words: &[&str],
        row: usize,
        was: &Data,
        is: &Data,
        before: &View,
    ) -> Vec<String> {
        let one = |holds: bool, sight: &str| holds.then(|| sight.to_string()).into_iter().collect();
        match words {
            ["read", _, "4"] => self.read(row, was, is),
            ["write", _, "2", _] => {
                let others = was.fetched != is.present && was.fetched != is.staged;
                one(was.mode != is.mode && others, MODE_WRITTEN)
            }
            ["write", _, "3", value] => loaded(value, was, is),
            ["write", _, "4", value] => written(value, was, is),
            ["write", _, "6", value] => one(sets_reset(value) && was.shows(), RESET_WRITTEN),
            ["reset", _] => {
                let mut seen: Vec<String> = one(was.fetched != 0 && is.present != 0, CLEARED);
                let another =
                    |(other, glance): (usize, &Glance)| other != row && glance.data.shows();
                let another = before.rows.iter().enumerate().any(another);
                seen.extend(another.then(|| ANOTHER_CLEARED.to_string()));
                seen
            }
            ["timer", _] => one(was.shows(), TIMER),
            _ => Vec::new(),
        }
    }

    fn read(&self, row: usize, was: &Data, is: &Data) -> Vec<String> {
        let auto_inc = was.mode.auto_inc;
        if !was.mode.rddata {
            let shows = auto_inc && was.old();
            return shows
                .then(|| REFUSED_READ.to_string())
                .into_iter()
                .collect();
        }
        let mut seen = Vec::new();
        seen.extend(was.old().then(|| old_byte(auto_inc)));
        let others = is.fetched != was.fetched && is.fetched != was.present;
        seen.extend((auto_inc && others).then(|| moves_on(was.pointer)));
        let past = &self.pasts[row];
        seen.extend(past.old_by.map(old_by));
        // These show only where an old byte is read.
        let only_old = |what: &str| [FRESH, ORDER, OVER_THE_END].contains(&what);
        let since = past.since.iter().copied();
        let since = since.filter(|what| was.old() || !only_old(what));
        seen.extend(since.map(read));
        seen
    }

    fn stepped(&self, before: &View, after: &View) -> Vec<String> {
        let holder = before.phase.holder().or(after.phase.holder());
        let mut seen = BTreeSet::new();
        let rows = before.rows.iter().zip(&after.rows).enumerate();
        for (row, (was, is)) in rows {
            let holds = Some(row) == holder;
            if was.on_line && was.data.shows() {
                let which = if holds { "the holder" } else { "another row" };
                seen.insert(step(&format!("old byte at {which}")));
            }
            if was.data.old() || !is.data.old() {
                continue;
            }
            if holds {
                seen.insert(step(&over_it(OWN_ID)));
                continue;
            }
            seen.insert(step(&over_it(packet(before))));
            let receive = was.receive.queue.oldest();
            let page = receive.map_or(0, |receive| usize::from(receive.page));
            if was.data.pointer >= PAGE * (page + 1) {
                seen.insert(step(&over_it("end of a long packet")));
            }
            if self.pasts[row].since.contains(OVER_THE_END) {
                seen.insert(step("packet at 0 after 3FF"));
            }
        }
        seen.into_iter().collect()
    }
}

/// A pointer load.
fn loaded(value: &str, was: &Data, is: &Data) -> Vec<String> {
    let mut seen = Vec::new();
    let another = ![0, was.fetched, was.present].contains(&is.fetched);
    seen.extend(another.then(|| load(was.mode.rddata, was.mode.auto_inc)));
    let as_it_was = was.pointer == is.pointer && was.old() && !is.old();
    seen.extend(as_it_was.then(|| LOADED_AGAIN.to_string()));
    let wide = value.parse::<u32>().is_ok_and(|value| value > 255);
    seen.extend((wide && was.old()).then(|| REFUSED_LOAD.to_string()));
    seen
}

/// A write of register 4 with a value that it can take.
fn written(value: &str, was: &Data, is: &Data) -> Vec<String> {
    let Ok(value) = value.parse::<u8>() else {
        return Vec::new();
    };
    let auto_inc = was.mode.auto_inc;
    if was.mode.rddata {
        let shows = auto_inc && was.old();
        return shows
            .then(|| REFUSED_WRITE.to_string())
            .into_iter()
            .collect();
    }
    if was.fetched == value || was.fetched == is.present {
        return Vec::new();
    }
    let mut seen = vec![write_of_4(auto_inc)];
    let over_the_end = was.pointer > is.pointer;
    seen.extend(over_the_end.then(|| WRITTEN_AT_THE_END.to_string()));
    seen
}

fn lapped(before: &View, after: &View) -> Vec<String> {
    let mut seen = Vec::new();
    let old = before.on_line().any(|row| row.data.shows());
    seen.extend(old.then(|| lap("old byte")));
    let mut rows = before.rows.iter().zip(&after.rows);
    let over = rows.any(|(was, is)| !was.data.old() && is.data.old());
    seen.extend(over.then(|| lap(&over_it("packet"))));
    seen
}

/// A network made where another was, of which a row had a byte fetched.
fn made(sight: &str, before: &View, after: &View) -> Vec<String> {
    let mut rows = before.rows.iter().zip(&after.rows);
    let cleared = rows.any(|(was, is)| was.data.fetched != 0 && is.data.fetched == 0);
    cleared.then(|| sight.to_string()).into_iter().collect()
}
