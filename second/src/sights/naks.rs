//! What a call meets of the NAKs that a row has counted, request C-16: how many there are, what ends them
//! and what leaves them, and whether they came one by one.

mod put;

use std::collections::BTreeSet;

use super::{Glance, View};
use crate::model::{Configuration, Diagnostic, Mask, Phase};
use crate::queue::{Enabled, Queue, MOST_NAKS};
use crate::registers::Command;
use put::Put;

type CanCome = Vec<(String, &'static [&'static str])>;

const DONE: &[&str] = &["DONE"];
const ACTIVE: &[&str] = &["DONE 1"];
const NAK: &[&str] = &["HELD NAK"];
const ENDS: &[&str] = &[
    "HELD MALFORMED",
    "HELD BROADCAST",
    "HELD NOANSWER",
    "HELD DELIVERED",
    "HELD UNACKNOWLEDGED",
];

/// What the sights of a NAK, of a read of register 1 and of an interrupt begin with.
pub const NAK_STEP: &str = "step, NAK ";
pub const READ_1: &str = "read 1, ";
pub const INTERRUPT: &str = "interrupt, ";

/// How many NAKs a row has counted. With the most EXCNAK is set.
#[derive(Clone, Copy, Debug, PartialEq)]
enum Counted {
    None,
    Few,
    Most,
}

const COUNTED: [Counted; 2] = [Counted::Few, Counted::Most];

impl Counted {
    fn from(naks: u8) -> Counted {
        match naks {
            0 => Counted::None,
            MOST_NAKS => Counted::Most,
            _ => Counted::Few,
        }
    }

    fn of(row: &Glance) -> Counted {
        Counted::from(row.transmit.naks())
    }

    fn any(self) -> bool {
        self != Counted::None
    }
}

pub(super) fn can_come() -> CanCome {
    let mut all: CanCome = [0, 1, MOST_NAKS - 1, MOST_NAKS]
        .map(|before| (nak(before), NAK))
        .to_vec();
    all.push((BY_ANOTHER_ROW.to_string(), NAK));
    all.push((ENDS_BEFORE_ITS_PAGE.to_string(), ENDS));
    all.push((CANCEL_BEFORE_ITS_PAGE.to_string(), NAK));
    all.push((since_enable(MOST_NAKS.into()).to_string(), NAK));
    all.push((since_enable(u32::from(MOST_NAKS) + 1).to_string(), NAK));
    all.extend([LAP_NAK, LAP_MOST, LAP_MOST_SINCE_ENABLE].map(|sight| (sight.to_string(), DONE)));
    for counted in COUNTED {
        all.extend(of_steps(counted));
        all.extend(of_calls(counted));
    }
    all.extend(of_flags());
    all.extend([PLAIN, CHAINING].into_iter().flat_map(of_interrupts));
    all.push((sight(&interrupt(ASLEEP, BIT_3), Counted::Most), ACTIVE));
    all.extend([false, true].map(|others| (read_1(Counted::Most, others), DONE)));
    all.push((read_1(Counted::Few, true), DONE));
    all.extend(put::can_come());
    all
}

fn of_steps(counted: Counted) -> CanCome {
    const NOTHING: &[&str] = &["HELD NOTHING"];
    const STORED: &[&str] = &["HELD BROADCAST", "HELD DELIVERED", "HELD UNACKNOWLEDGED"];
    const NO_TURN: &[&str] = &["RECOVERED", "PASSED", "UNANSWERED", "TOKENLOST"];
    let of = |step: &str, answers| (sight(step, counted), answers);
    vec![
        of(NAK_AFTER_CLEAR_FLAGS, NAK),
        of(ENDS_ALONE, ENDS),
        of(ENDS_BEFORE_A_SECOND, ENDS),
        of(CANCEL_WITHOUT_CHAINING, NOTHING),
        of(CANCEL_OF_THE_ONLY_ONE, NOTHING),
        of(CANCEL_OF_THE_OLDEST, NAK),
        of(CANCEL_OF_THE_SECOND, NAK),
        of(CANCEL_OF_BOTH, NOTHING),
        of(CANCEL_OF_A_RECEIVE, NAK),
        of(AT_THE_HOLDER, NO_TURN),
        of(AT_ANOTHER_ROW, NO_TURN),
        of(AT_ANOTHER_ROW, NOTHING),
        of(AT_ANOTHER_ROW, ENDS),
        of(AT_ANOTHER_ROW, NAK),
        of(WHERE_STORED, STORED),
    ]
}

fn of_calls(counted: Counted) -> CanCome {
    const DONE_OR_BUSY: &[&str] = &["DONE", "REFUSED 7 BUSY"];
    const BUSY: &[&str] = &["REFUSED 7 BUSY"];
    const NOTREADY: &[&str] = &["REFUSED 5 NOTREADY"];
    let mut all: CanCome = KEPT_OR_GONE
        .map(|call| (sight(call, counted), DONE))
        .to_vec();
    all.extend(WRITTEN.map(|register| (sight(&write(register), counted), DONE)));
    all.push((sight(ENABLE_TRANSMIT, counted), DONE_OR_BUSY));
    all.push((sight(OTHER_COMMAND, counted), DONE_OR_BUSY));
    all.push((sight(FLAGS_ASLEEP, counted), NOTREADY));
    all.push((sight(CCHEN_CHANGED, counted), BUSY));
    all
}

fn of_flags() -> CanCome {
    let mut all = Vec::new();
    for byte in [0x06, 0x0E, 0x16, 0x1E] {
        for por in [false, true] {
            for counted in [Counted::None, Counted::Few, Counted::Most] {
                all.push((sight(&flags(byte, por), counted), DONE));
            }
        }
    }
    all
}

fn of_interrupts(row: &str) -> CanCome {
    const NOT_ACTIVE: &[&str] = &["DONE 0"];
    let of = |mask, counted| sight(&interrupt(row, mask), counted);
    vec![
        (of(BIT_3, Counted::None), NOT_ACTIVE),
        (of(BIT_3, Counted::Few), NOT_ACTIVE),
        (of(BIT_3, Counted::Most), ACTIVE),
        (of(OTHER_BITS, Counted::Most), NOT_ACTIVE),
        (of(NO_BITS, Counted::Most), NOT_ACTIVE),
    ]
}

// The names of the sights.

fn sight(call: &str, counted: Counted) -> String {
    let counted = match counted {
        Counted::None => "no NAK",
        Counted::Few => "NAKs",
        Counted::Most => "EXCNAK",
    };
    format!("{call}, {counted}")
}

/// A NAK that comes to so many.
fn nak(before: u8) -> String {
    const LAST_BUT_ONE: u8 = MOST_NAKS - 1;
    let which = match before {
        0 => "1",
        MOST_NAKS => "above 128",
        LAST_BUT_ONE => "128",
        _ => "2 to 127",
    };
    format!("{NAK_STEP}{which}")
}

/// So many NAKs that all came since an Enable.
fn since_enable(naks: u32) -> &'static str {
    if naks == MOST_NAKS.into() {
        "step, NAK 128 since an Enable"
    } else {
        "step, NAK above 128 since an Enable"
    }
}

const BY_ANOTHER_ROW: &str = "step, NAK of another row than before";
const NAK_AFTER_CLEAR_FLAGS: &str = "step, NAK after Clear Flags";

const ENDS_ALONE: &str = "step, transmit ends";
const ENDS_BEFORE_A_SECOND: &str = "step, transmit ends, second moves up";
const ENDS_BEFORE_ITS_PAGE: &str = "step, transmit ends, its page again";
const CANCEL_WITHOUT_CHAINING: &str = "step, cancel without chaining";
const CANCEL_OF_THE_ONLY_ONE: &str = "step, cancel of the only one";
const CANCEL_OF_THE_OLDEST: &str = "step, cancel of the oldest";
const CANCEL_BEFORE_ITS_PAGE: &str = "step, cancel of the oldest, its page again";
const CANCEL_OF_THE_SECOND: &str = "step, cancel of the second";
const CANCEL_OF_BOTH: &str = "step, cancel of both";
const CANCEL_OF_A_RECEIVE: &str = "step, cancel of a receive";
const AT_THE_HOLDER: &str = "step, at the holder";
const AT_ANOTHER_ROW: &str = "step, at another row";
const WHERE_STORED: &str = "step, where a packet is stored";

const LAP_NAK: &str = "lap, a NAK";
const LAP_MOST: &str = "lap, NAK 128";
const LAP_MOST_SINCE_ENABLE: &str = "lap, NAK 128 since an Enable";
const LAP_ENDS: &str = "lap, transmit ends";
const LAP_STAYS: &str = "lap, as before";
const LAP_OFF_LINE: &str = "lap, row off line";

const DISABLE_TRANSMITTER: &str = "Disable Transmitter";
const FLAGS_CHAINING: &str = "Clear Flags, chaining";
const SOFTWARE_RESET: &str = "RESET";
const CONFIGURED: &str = "write 6";
const GONE_OFF_LINE: &str = "write 6, off line";
const COME_ON_LINE: &str = "write 6, on line";
const READ_ASLEEP: &str = "read 1, asleep";
const RESET: &str = "reset";
const ANOTHER_RESET: &str = "reset of another row";
const TIMER: &str = "timer";
const FRESH: &str = "fresh";
const LOAD: &str = "load";

/// What takes the NAKs of a row or leaves them, and is done.
const KEPT_OR_GONE: [&str; 15] = [
    LAP_ENDS,
    LAP_STAYS,
    LAP_OFF_LINE,
    DISABLE_TRANSMITTER,
    FLAGS_CHAINING,
    SOFTWARE_RESET,
    CONFIGURED,
    GONE_OFF_LINE,
    COME_ON_LINE,
    READ_ASLEEP,
    RESET,
    ANOTHER_RESET,
    TIMER,
    FRESH,
    LOAD,
];

const ENABLE_TRANSMIT: &str = "Enable Transmit";
const OTHER_COMMAND: &str = "other command";
const FLAGS_ASLEEP: &str = "Clear Flags, asleep";
const CCHEN_CHANGED: &str = "CCHEN changed";

/// Registers that a write leaves the NAKs with, beside 1 and 6.
const WRITTEN: [&str; 5] = ["0", "2", "3", "4", "7"];

fn write(register: &str) -> String {
    format!("write {register}")
}

fn flags(byte: u8, por: bool) -> String {
    format!("Clear Flags {byte:02X}, POR {}", u8::from(por))
}

const PLAIN: &str = "interrupt";
const CHAINING: &str = "interrupt, chaining";
const ASLEEP: &str = "interrupt, asleep";
const BIT_3: &str = "bit 3";
const OTHER_BITS: &str = "other bits";
const NO_BITS: &str = "no bits";

/// Where nothing but EXCNAK can make the interrupt, by what the mask has.
fn interrupt(row: &str, mask: &str) -> String {
    format!("{row}, mask {mask}")
}

fn read_1(counted: Counted, others: bool) -> String {
    let others = if others { ", other bits too" } else { "" };
    sight("read 1", counted) + others
}

/// What came since the packet that a row tries was enabled.
#[derive(Clone, Copy, Default)]
struct Past {
    /// NAKs since the Enable, where nothing else has touched their number.
    since_enable: Option<u32>,
    /// How many Clear Flags took, where no NAK has come since.
    cleared: Option<Counted>,
    /// The row that the last NAK was of.
    by: Option<usize>,
}

impl Past {
    fn one_more(self, by: Option<usize>) -> Past {
        Past {
            since_enable: self.since_enable.map(|naks| naks + 1),
            cleared: None,
            by,
        }
    }

    fn goes_on(self, call: Call, was: &Glance, is: &Glance) -> Past {
        let nothing = Past::default();
        let (before, after) = (was.transmit.naks(), is.transmit.naks());
        match call {
            Call::Nak(by) if asked(was.transmit.queue.oldest()) => Past {
                by: Some(by),
                ..nothing
            },
            Call::Nak(by) => self.one_more(Some(by)),
            Call::Lap if after == before + 1 => self.one_more(None),
            Call::Enable if was.transmit.idle() => Past {
                since_enable: Some(0),
                ..nothing
            },
            Call::Clear if before > 0 => Past {
                cleared: Some(Counted::of(was)),
                ..nothing
            },
            _ if was.transmit == is.transmit => self,
            _ => nothing,
        }
    }
}

fn asked(enabled: Option<Enabled>) -> bool {
    enabled.is_some_and(|enabled| enabled.cancel_asked)
}

/// A call that was done, as far as it makes NAKs or takes them.
#[derive(Clone, Copy)]
enum Call {
    Nak(usize),
    Lap,
    Enable,
    Clear,
    Other,
}

impl Call {
    fn of(words: &[&str], answer: &[&str], before: &View, row: usize) -> Call {
        match (words, answer) {
            (["step", _], ["HELD", "NAK", by]) if before.phase.holder() == Some(row) => {
                by.parse().map_or(Call::Other, Call::Nak)
            }
            (["lap", _], ["DONE", ..]) => Call::Lap,
            (["write", at, "1", value], ["DONE"]) if at.parse() == Ok(row) => {
                match command(value) {
                    Some(Command::EnableTransmit { .. }) => Call::Enable,
                    Some(Command::ClearFlags { por: true, .. }) => Call::Clear,
                    _ => Call::Other,
                }
            }
            _ => Call::Other,
        }
    }
}

fn command(value: &str) -> Option<Command> {
    Command::from_byte(value.parse().ok()?, true)
}

/// Sees each call, and keeps what came to the packets that wait.
#[derive(Default)]
pub struct Watch {
    pasts: Vec<Past>,
    put: Option<Put>,
}

impl Watch {
    /// The sights of a call, where the network was well formed before it and is after it; of a `check`
    /// also where NAKs were put that are not.
    pub fn sights(
        &mut self,
        words: &[&str],
        answer: &str,
        before: Option<&View>,
        after: Option<&View>,
    ) -> Vec<String> {
        let answer: Vec<&str> = answer.split(' ').collect();
        let mut seen = Vec::new();
        if let ["check"] = words {
            seen.extend(self.put.map(Put::sight));
        }
        self.put = Put::after(self.put, words, before, after);
        let rows = after.map_or(0, |after| after.rows.len());
        match (before, after) {
            (Some(before), Some(after)) if before.rows.len() == rows => {
                seen.extend(self.seen(words, &answer, before, after));
                self.go_on(words, &answer, before, after);
            }
            _ => self.pasts = vec![Past::default(); rows],
        }
        seen
    }

    fn go_on(&mut self, words: &[&str], answer: &[&str], before: &View, after: &View) {
        let rows = before.rows.iter().zip(&after.rows);
        for (row, ((was, is), past)) in rows.zip(&mut self.pasts).enumerate() {
            *past = past.goes_on(Call::of(words, answer, before, row), was, is);
        }
    }

    fn seen(&self, words: &[&str], answer: &[&str], before: &View, after: &View) -> Vec<String> {
        match words {
            ["step", _] => self.stepped(answer, before, after),
            ["lap" | FRESH | LOAD, ..] if answer[0] != "DONE" => Vec::new(),
            ["lap", _] => self.lapped(before, after),
            [call @ (FRESH | LOAD), ..] => made(call, before),
            ["reset", row] => reset(row, before),
            [_, row, ..] => {
                let pair = before.row(row).zip(after.row(row));
                pair.map_or(Vec::new(), |(was, is)| called(words, was, is))
            }
            _ => Vec::new(),
        }
    }

    fn stepped(&self, answer: &[&str], before: &View, after: &View) -> Vec<String> {
        let holder = before.phase.holder().or(after.phase.holder());
        let turn = matches!(before.phase, Phase::Taken { .. });
        let mut seen = BTreeSet::new();
        for (row, (was, is)) in before.rows.iter().zip(&after.rows).enumerate() {
            let counted = Counted::of(was);
            if !counted.any() {
                continue;
            }
            let mut note = |met: bool, step| seen.extend(met.then(|| sight(step, counted)));
            let holds = Some(row) == holder;
            note(!holds, AT_ANOTHER_ROW);
            note(!holds && was.receive != is.receive, WHERE_STORED);
            note(holds && !turn, AT_THE_HOLDER);
        }
        if let (true, Some(holder)) = (turn, holder) {
            seen.extend(self.turn(answer, holder, &before.rows[holder]));
        }
        seen.into_iter().collect()
    }

    /// The holder's turn: the cancels, and then the packet that is tried.
    fn turn(&self, answer: &[&str], holder: usize, was: &Glance) -> Vec<String> {
        let counted = Counted::of(was);
        let mut seen = Vec::new();
        if let Some(cancel) = cancelled(was).filter(|_| counted.any()) {
            seen.push(sight(cancel, counted));
            let again = cancel == CANCEL_OF_THE_OLDEST && page_again(was.transmit.queue);
            seen.extend(again.then(|| CANCEL_BEFORE_ITS_PAGE.to_string()));
        }
        let tried = was.transmit.queue.without_cancelled();
        let naks = tried.oldest().map_or(0, |oldest| oldest.naks);
        match answer {
            ["HELD", "NAK", by] => seen.extend(self.nak(holder, by, naks)),
            ["HELD", ..] if naks > 0 => {
                let ends = match tried.second() {
                    None => ENDS_ALONE,
                    Some(_) => ENDS_BEFORE_A_SECOND,
                };
                seen.push(sight(ends, Counted::from(naks)));
                seen.extend(page_again(tried).then(|| ENDS_BEFORE_ITS_PAGE.to_string()));
            }
            _ => {}
        }
        seen
    }

    fn nak(&self, holder: usize, by: &str, before: u8) -> Vec<String> {
        let Past {
            since_enable: since,
            cleared,
            by: last,
        } = self.pasts[holder];
        let mut seen = vec![nak(before)];
        seen.extend(cleared.map(|counted| sight(NAK_AFTER_CLEAR_FLAGS, counted)));
        let another = last.is_some_and(|last| by.parse() != Ok(last));
        seen.extend(another.then(|| BY_ANOTHER_ROW.to_string()));
        let since = since.filter(|since| since + 1 >= MOST_NAKS.into());
        seen.extend(since.map(|since| since_enable(since + 1).to_string()));
        seen
    }

    fn lapped(&self, before: &View, after: &View) -> Vec<String> {
        let mut seen = BTreeSet::new();
        let rows = before.rows.iter().zip(&after.rows);
        for ((was, is), past) in rows.zip(&self.pasts) {
            let counted = Counted::of(was);
            let (old, new) = (was.transmit.naks(), is.transmit.naks());
            let most = new == MOST_NAKS && new > old;
            if most && past.since_enable == Some(old.into()) {
                seen.insert(LAP_MOST_SINCE_ENABLE.to_string());
            }
            seen.extend(match old {
                _ if most => Some(LAP_MOST.to_string()),
                _ if new > old => Some(LAP_NAK.to_string()),
                0 => None,
                _ if new < old => Some(sight(LAP_ENDS, counted)),
                _ if was.on_line => Some(sight(LAP_STAYS, counted)),
                _ => Some(sight(LAP_OFF_LINE, counted)),
            });
        }
        seen.into_iter().collect()
    }
}

/// Whether the second is of the page of the oldest.
fn page_again(queue: Queue) -> bool {
    let page = |enabled: Enabled| enabled.page;
    queue.second().is_some() && queue.second().map(page) == queue.oldest().map(page)
}

/// What is cancelled at a row's turn.
fn cancelled(row: &Glance) -> Option<&'static str> {
    let queue = row.transmit.queue;
    let second = queue.second().map(|second| second.cancel_asked);
    match (asked(queue.oldest()), second) {
        (true, _) if !row.chaining => Some(CANCEL_WITHOUT_CHAINING),
        (true, None) => Some(CANCEL_OF_THE_ONLY_ONE),
        (true, Some(false)) => Some(CANCEL_OF_THE_OLDEST),
        (true, Some(true)) => Some(CANCEL_OF_BOTH),
        (false, Some(true)) => Some(CANCEL_OF_THE_SECOND),
        (false, _) if asked(row.receive.queue.oldest()) => Some(CANCEL_OF_A_RECEIVE),
        (false, _) => None,
    }
}

/// A network made where another was.
fn made(call: &str, before: &View) -> Vec<String> {
    let had = |counted: &Counted| before.rows.iter().any(|row| Counted::of(row) == *counted);
    let had = COUNTED.into_iter().filter(had);
    had.map(|counted| sight(call, counted)).collect()
}

fn reset(row: &str, before: &View) -> Vec<String> {
    let row = row.parse::<usize>().ok();
    let rows = before.rows.iter().enumerate();
    let rows = rows.filter(|(_, row)| Counted::of(row).any());
    let seen: BTreeSet<String> = rows
        .map(|(other, glance)| {
            let own = Some(other) == row;
            let call = if own { RESET } else { ANOTHER_RESET };
            sight(call, Counted::of(glance))
        })
        .collect();
    seen.into_iter().collect()
}

/// A call to one row.
fn called(words: &[&str], was: &Glance, is: &Glance) -> Vec<String> {
    let counted = Counted::of(was);
    let seen = match words {
        ["interrupt", _] => interrupted(was),
        ["write", _, "1", value] => return commanded(was, value),
        _ if !counted.any() => None,
        ["read", _, "1"] if !was.awake => Some(sight(READ_ASLEEP, counted)),
        ["read", _, "1"] => {
            let others = was.diagnostic != Diagnostic::default();
            Some(read_1(counted, others))
        }
        ["write", _, "6", value] => configured(was, is, value),
        ["write", _, register, _] if WRITTEN.contains(register) => {
            Some(sight(&write(register), counted))
        }
        ["timer", _] => Some(sight(TIMER, counted)),
        _ => None,
    };
    seen.into_iter().collect()
}

fn commanded(was: &Glance, value: &str) -> Vec<String> {
    let counted = Counted::of(was);
    let (Some(command), Ok(byte)) = (command(value), value.parse()) else {
        return Vec::new();
    };
    let mut seen = Vec::new();
    let mut note = |call: &str| seen.push(sight(call, counted));
    match command {
        Command::ClearFlags { por, .. } => {
            if was.awake {
                note(&flags(byte, was.por));
            }
            if por && counted.any() && was.awake && was.chaining {
                note(FLAGS_CHAINING);
            }
            if por && counted.any() && !was.awake {
                note(FLAGS_ASLEEP);
            }
        }
        _ if !was.awake || !counted.any() => {}
        Command::EnableTransmit { .. } => note(ENABLE_TRANSMIT),
        Command::DisableTransmitter => note(DISABLE_TRANSMITTER),
        _ => note(OTHER_COMMAND),
    }
    seen
}

fn configured(was: &Glance, is: &Glance, value: &str) -> Option<String> {
    let configuration = Configuration::from_byte(value.parse().ok()?);
    let call = match (was.on_line, is.on_line) {
        _ if configuration.cchen != was.chaining => CCHEN_CHANGED,
        _ if configuration.reset => SOFTWARE_RESET,
        (true, false) => GONE_OFF_LINE,
        (false, true) => COME_ON_LINE,
        _ => CONFIGURED,
    };
    Some(sight(call, Counted::of(was)))
}

fn interrupted(row: &Glance) -> Option<String> {
    let Mask {
        ri,
        excnak,
        recon,
        ta,
    } = row.mask;
    let (receive, transmit) = if row.chaining {
        (row.receive.completed(), row.transmit.completed())
    } else {
        (row.receive.idle(), row.transmit.idle())
    };
    if row.por || ri && receive || recon && row.recon || ta && transmit {
        return None;
    }
    let mask = match Counted::of(row) {
        _ if excnak => BIT_3,
        Counted::Most if row.mask == Mask::default() => NO_BITS,
        Counted::Most => OTHER_BITS,
        Counted::None | Counted::Few => return None,
    };
    let which = match (row.awake, row.chaining) {
        (false, _) => ASLEEP,
        (true, true) => CHAINING,
        (true, false) => PLAIN,
    };
    Some(sight(&interrupt(which, mask), Counted::of(row)))
}
