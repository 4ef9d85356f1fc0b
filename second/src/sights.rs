//! What a call meets that its words do not say: what waits in a row, what is not cleared, which
//! byte was changed before. The tally counts each of these sights with the answer that came.

pub mod fetched;
pub mod naks;
pub mod named;
pub mod orders;

use crate::model::{Configuration, Diagnostic, Mask, Network, Phase, Row, HEADER, REGISTERS, ROW};
use crate::queue::{Enabled, Queue, Side, MOST_NAKS};
use crate::registers::Command;

const TRANSMIT: &str = "transmit";
const RECEIVE: &str = "receive";

/// The sights with the answers that can come with each.
pub fn can_come() -> Vec<(String, &'static [&'static str])> {
    const DONE: &[&str] = &["DONE"];
    const SHAPE: &[&str] = &["REFUSED 1 SHAPE"];
    const DONE_OR_SHAPE: &[&str] = &["DONE", "REFUSED 1 SHAPE"];
    const BUSY: &[&str] = &["REFUSED 7 BUSY"];
    const DONE_OR_PAGE: &[&str] = &["DONE", "REFUSED 9 PAGE"];
    const DUPLICATE: &[&str] = &["REFUSED 10 DUPLICATE"];
    const NOTHING: &[&str] = &["HELD NOTHING"];
    const PACKET: &[&str] = &[
        "HELD BROADCAST",
        "HELD NOANSWER",
        "HELD NAK",
        "HELD DELIVERED",
        "HELD UNACKNOWLEDGED",
    ];
    const TRANSMIT_ENDS: &[&str] = &[
        "HELD MALFORMED",
        "HELD BROADCAST",
        "HELD NOANSWER",
        "HELD DELIVERED",
        "HELD UNACKNOWLEDGED",
    ];
    const RECEIVE_ENDS: &[&str] = &["HELD BROADCAST", "HELD DELIVERED", "HELD UNACKNOWLEDGED"];
    const STORED: &[&str] = &["HELD BROADCAST", "HELD DELIVERED"];

    let mut all = vec![
        (packet(false), PACKET),
        (packet(true), PACKET),
        (holder_off_line("PASS"), SHAPE),
        (holder_off_line("TAKEN"), SHAPE),
        (byte_changed("3"), DONE_OR_SHAPE),
        (byte_changed("16"), DONE_OR_SHAPE),
        (byte_changed("17"), DONE_OR_SHAPE),
        (byte_changed("18"), DONE_OR_SHAPE),
        (byte_changed("19"), DONE_OR_SHAPE),
        (byte_changed("20-30"), SHAPE),
        (byte_changed("31"), SHAPE),
        (byte_changed("32"), DONE),
        (byte_changed("33"), DONE_OR_SHAPE),
        (byte_changed("34"), SHAPE),
        (byte_changed("35-63"), SHAPE),
        (byte_changed("16-19 without CCHEN"), SHAPE),
        (odd_second_page(), SHAPE),
        (masked_in("TTA"), &["DONE 1"]),
        (masked_in("TRI"), &["DONE 1"]),
        (masked_in("TA"), &["DONE 0"]),
        (masked_in("RI"), &["DONE 0"]),
        (masked_in("neither"), &["DONE 0"]),
        (both_queues_full(), DONE),
        (tma_without_tta("Enable"), DONE),
        (tma_without_tta("Clear"), DONE),
        (transmit_stays(), &["HELD NAK"]),
        (only_the_second_wants_it(), &["HELD BROADCAST"]),
        (lap("all chaining"), DONE),
        (lap("some chaining"), DONE),
        (lap("some with two packets"), DONE),
    ];
    for (tri, tta) in [(false, false), (false, true), (true, false), (true, true)] {
        all.push((status(tri, tta), DONE));
    }
    for work in [Work::Idle, Work::Uncleared, Work::Waiting] {
        all.push((hardware_reset(work), DONE));
        all.push((software_reset(work), DONE));
    }
    for reset in [false, true] {
        // Nothing is uncleared where CCHEN is 0.
        all.push((change(false, reset, Work::Uncleared, false), DONE));
        for cchen in [true, false] {
            all.push((change(cchen, reset, Work::Idle, false), DONE));
            all.push((change(cchen, reset, Work::Waiting, false), BUSY));
        }
    }
    for cchen in [true, false] {
        all.push((change(cchen, false, Work::Idle, true), DUPLICATE));
        all.push((change(cchen, false, Work::Waiting, true), BUSY));
    }
    for (kind, ends, left) in [
        (TRANSMIT, TRANSMIT_ENDS, PACKET),
        (RECEIVE, RECEIVE_ENDS, STORED),
    ] {
        for (waiting, answers) in [(0, DONE_OR_PAGE), (1, DONE_OR_PAGE), (2, BUSY)] {
            all.push((enable(kind, waiting), answers));
            all.extend((0..=waiting).map(|asked| (disable(kind, asked, waiting), DONE)));
        }
        for uncleared in 0..=2 {
            all.push((clear(kind, uncleared), DONE));
            all.push((completion(kind, uncleared), ends));
        }
        all.push((moves_up(kind, false), ends));
        all.push((cancel(kind, "the only one"), NOTHING));
        all.push((cancel(kind, "the oldest of two"), left));
        all.push((cancel(kind, "the second"), left));
        all.push((cancel(kind, "both"), NOTHING));
    }
    all.push((moves_up(RECEIVE, true), STORED));
    all.push((completion_of_one_asked(), STORED));
    all.extend(orders::can_come());
    all.extend(fetched::can_come());
    all.extend(naks::can_come());
    all.extend(named::can_come());
    all
}

// The names of the sights.

fn packet(long: bool) -> String {
    format!("step, {} packet", if long { "long" } else { "short" })
}

fn holder_off_line(phase: &str) -> String {
    format!("step, {phase}, holder off line")
}

fn byte_changed(which: &str) -> String {
    format!("check, byte {which} changed")
}

fn odd_second_page() -> String {
    "check, odd second page and long".to_string()
}

fn status(tri: bool, tta: bool) -> String {
    format!("status, TRI {} TTA {}", u8::from(tri), u8::from(tta))
}

fn masked_in(bit: &str) -> String {
    format!("interrupt, {bit} masked in")
}

fn hardware_reset(work: Work) -> String {
    format!("reset, chaining, {work:?}")
}

fn software_reset(work: Work) -> String {
    format!("RESET, chaining, {work:?}")
}

fn change(cchen: bool, reset: bool, work: Work, id_taken: bool) -> String {
    let reset = if reset { " RESET" } else { "" };
    let id_taken = if id_taken { ", ID taken" } else { "" };
    format!("CCHEN to {}{reset}, {work:?}{id_taken}", u8::from(cchen))
}

fn enable(kind: &str, waiting: usize) -> String {
    format!("Enable {kind}, {waiting} waiting")
}

fn tma_without_tta(command: &str) -> String {
    format!("{command} transmit, TMA and no TTA")
}

fn both_queues_full() -> String {
    "Enable, then both queues full".to_string()
}

fn disable(kind: &str, asked: usize, waiting: usize) -> String {
    format!("Disable {kind}, {asked} of {waiting} asked")
}

fn clear(kind: &str, uncleared: u8) -> String {
    format!("Clear {kind}, {uncleared} uncleared")
}

fn cancel(kind: &str, which: &str) -> String {
    format!("{kind} cancel, {which}")
}

fn completion(kind: &str, uncleared: u8) -> String {
    format!("{kind} ends, {uncleared} uncleared")
}

fn completion_of_one_asked() -> String {
    format!("{RECEIVE} ends, cancel asked")
}

fn moves_up(kind: &str, asked: bool) -> String {
    let asked = if asked { ", cancel asked" } else { "" };
    format!("second {kind} moves up{asked}")
}

fn transmit_stays() -> String {
    "two transmits stay".to_string()
}

fn only_the_second_wants_it() -> String {
    "second receive for broadcasts".to_string()
}

fn lap(of: &str) -> String {
    format!("lap, {of}")
}

/// What there is to do in a row: with anything waiting, else with anything not cleared.
#[derive(Clone, Copy, Debug)]
enum Work {
    Idle,
    Uncleared,
    Waiting,
}

/// What is looked at in a row.
#[derive(Clone, Copy, PartialEq)]
struct Glance {
    node_id: u8,
    awake: bool,
    on_line: bool,
    chaining: bool,
    por: bool,
    recon: bool,
    diagnostic: Diagnostic,
    mask: Mask,
    nid: u8,
    transmit: Side,
    receive: Side,
    tma: bool,
    stored_tma: bool,
    long_packets: bool,
    data: fetched::Data,
}

impl Glance {
    fn at(row: &Row) -> Glance {
        Glance {
            node_id: row.node_id,
            awake: row.awake(),
            on_line: row.on_line(),
            chaining: row.chaining(),
            por: row.por,
            recon: row.recon,
            diagnostic: row.diagnostic,
            mask: row.mask,
            nid: row.nid,
            transmit: row.transmit,
            receive: row.receive,
            tma: row.tma,
            stored_tma: row.stored_tma,
            long_packets: row.long_packets,
            data: fetched::Data::of(row),
        }
    }

    fn work(&self) -> Work {
        let sides = [self.transmit, self.receive];
        if sides.iter().any(|side| !side.idle()) {
            Work::Waiting
        } else if sides.iter().any(Side::completed) {
            Work::Uncleared
        } else {
            Work::Idle
        }
    }

    fn excnak(&self) -> bool {
        self.transmit.naks() == MOST_NAKS
    }

    fn both_full(&self) -> bool {
        self.transmit.full(self.chaining) && self.receive.full(self.chaining)
    }
}

/// A well-formed network as it is before a call, or after it.
pub struct View {
    phase: Phase,
    rows: Vec<Glance>,
    /// Whether the packet that the holder is about to try is long; None where there is none.
    packet_is_long: Option<bool>,
}

impl View {
    pub fn of(network: &Network) -> View {
        View {
            phase: network.phase,
            rows: network.rows.iter().map(Glance::at).collect(),
            packet_is_long: packet_at_the_token(network),
        }
    }

    fn row(&self, number: &str) -> Option<&Glance> {
        self.rows.get(number.parse::<usize>().ok()?)
    }

    fn chaining_row(&self, number: &str) -> Option<&Glance> {
        self.row(number).filter(|row| row.chaining)
    }

    fn on_line(&self) -> impl Iterator<Item = &Glance> {
        self.rows.iter().filter(|row| row.on_line)
    }

    /// The phase of header bytes 4 and 5, where these are poked, the phase is not LOST and the
    /// holder is off line.
    fn without_holder(&self, at: &str, digits: &str) -> Option<&'static str> {
        if at != "4" || digits.len() != 4 {
            return None;
        }
        let [phase, holder] = u16::from_str_radix(digits, 16).ok()?.to_be_bytes();
        let off_line = self
            .rows
            .get(usize::from(holder))
            .filter(|row| !row.on_line);
        match (phase, off_line) {
            (1, Some(_)) => Some("PASS"),
            (2, Some(_)) => Some("TAKEN"),
            _ => None,
        }
    }
}

fn packet_at_the_token(network: &Network) -> Option<bool> {
    let Phase::Taken { holder } = network.phase else {
        return None;
    };
    let row = &network.rows[holder];
    let tried = row.transmit.queue.without_cancelled().oldest()?;
    Some(row.layout(tried.page)?.long())
}

/// Sees each call, and keeps what the next one needs of it.
#[derive(Default)]
pub struct Watch {
    /// What a `check` meets after the last call, which changed one byte of a well-formed network.
    changed: Vec<String>,
    /// The phase that a `step` meets with a holder off line, in a network that is well formed else,
    /// until other bytes are lent.
    without_holder: Option<&'static str>,
}

impl Watch {
    /// The sights of a call, where the network was well formed before it; of a `check` and a `step`
    /// also where it was before the bytes that they meet were changed.
    pub fn sights(
        &mut self,
        words: &[&str],
        before: Option<&View>,
        after: Option<&View>,
    ) -> Vec<String> {
        let changed = std::mem::take(&mut self.changed);
        if let ["check"] = words {
            return changed;
        }
        if let ["poke" | "size" | "fresh" | "load", ..] = words {
            self.without_holder = None;
        }
        let Some(before) = before else {
            let stepped = matches!(words, ["step", _]);
            let phase = self.without_holder.filter(|_| stepped);
            return phase.map(holder_off_line).into_iter().collect();
        };
        if let ["poke", at, digits] = words {
            self.without_holder = before.without_holder(at, digits);
            let differs = after.is_none_or(|after| after.rows != before.rows);
            if differs && digits.len() == 2 {
                self.changed = changed_byte(before, at, digits);
            }
        }
        match (words, after) {
            (["step", _], Some(after)) => step(before, after),
            (["write", row, "1", value], Some(after)) => {
                let command = value.parse().ok();
                let command = command.and_then(|byte| Command::from_byte(byte, true));
                before
                    .chaining_row(row)
                    .zip(after.chaining_row(row))
                    .zip(command)
                    .map_or(Vec::new(), |((was, is), command)| {
                        commanded(was, is, command)
                    })
            }
            (["write", row, "6", value], _) => {
                let configuration = value.parse().ok().map(Configuration::from_byte);
                let sight = before
                    .row(row)
                    .zip(configuration)
                    .and_then(|(row, configuration)| configured(before, row, configuration));
                sight.into_iter().collect()
            }
            (["read", row, "0"], _) => {
                let read = |row: &Glance| status(row.receive.completed(), row.transmit.completed());
                before.chaining_row(row).map(read).into_iter().collect()
            }
            (["interrupt", row], _) => {
                let sight = before.chaining_row(row).and_then(interrupt_asked);
                sight.into_iter().collect()
            }
            (["reset", row], _) => {
                let work = before.chaining_row(row).map(Glance::work);
                work.map(hardware_reset).into_iter().collect()
            }
            (["lap", _], _) => lap_asked(before),
            _ => Vec::new(),
        }
    }
}

/// One byte got another value: the status, one of those that are zero without chaining, or one of those
/// behind them.
fn changed_byte(before: &View, at: &str, digits: &str) -> Vec<String> {
    let at = at.parse::<usize>().ok();
    let at = at.and_then(|at| at.checked_sub(HEADER));
    let row = at.and_then(|at| before.rows.get(at / ROW));
    let (Some(at), Some(row), Ok(value)) = (at, row, u8::from_str_radix(digits, 16)) else {
        return Vec::new();
    };
    let byte = at % ROW;
    let mut seen = vec![match byte {
        3 => byte_changed("3"),
        16..=19 if row.chaining => byte_changed(&byte.to_string()),
        16..=19 => byte_changed("16-19 without CCHEN"),
        20..=30 => byte_changed("20-30"),
        31..=34 => byte_changed(&byte.to_string()),
        35..REGISTERS => byte_changed("35-63"),
        _ => return Vec::new(),
    }];
    // A second that may be, but for its page: bit 6 of byte 16 and bit 5 of byte 17 say that it waits.
    let odd_second = match byte {
        16 => !row.transmit.idle() && value & !0x80 & !0x02 == 0x41,
        17 => !row.receive.idle() && value & !0xC0 & !0x02 == 0x21,
        _ => false,
    };
    seen.extend((row.chaining && row.long_packets && odd_second).then(odd_second_page));
    seen
}

/// A command to a row with chaining.
fn commanded(was: &Glance, is: &Glance, command: Command) -> Vec<String> {
    if !was.awake {
        return Vec::new();
    }
    let enabled = |kind, side: Side| enable(kind, side.queue.waiting().count());
    let disabled = |kind, side: Side| {
        let asked = side.queue.waiting().filter(|enabled| enabled.cancel_asked);
        disable(kind, asked.count(), side.queue.waiting().count())
    };
    let mut seen = vec![match command {
        Command::EnableTransmit { .. } => enabled(TRANSMIT, was.transmit),
        Command::EnableReceive { .. } => enabled(RECEIVE, was.receive),
        Command::DisableTransmitter => disabled(TRANSMIT, was.transmit),
        Command::DisableReceiver => disabled(RECEIVE, was.receive),
        Command::ClearTransmitInterrupt => clear(TRANSMIT, was.transmit.uncleared),
        Command::ClearReceiveInterrupt => clear(RECEIVE, was.receive.uncleared),
        Command::LongPackets(_) | Command::ClearFlags { .. } => return Vec::new(),
    }];
    seen.extend((!was.both_full() && is.both_full()).then(both_queues_full));
    let kept_tma = was.tma && !was.transmit.completed();
    match command {
        Command::EnableTransmit { .. } if kept_tma => seen.push(tma_without_tta("Enable")),
        Command::ClearTransmitInterrupt if kept_tma => seen.push(tma_without_tta("Clear")),
        _ => {}
    }
    seen
}

/// A change of CCHEN, or a reset that keeps it set.
fn configured(before: &View, row: &Glance, configuration: Configuration) -> Option<String> {
    let Configuration {
        reset, cchen, txen, ..
    } = configuration;
    if cchen == row.chaining {
        return (cchen && reset).then(|| software_reset(row.work()));
    }
    let would_be_on_line = txen && !reset && !row.on_line && row.node_id != 0;
    let twin = |other: &Glance| other.node_id == row.node_id;
    let id_taken = would_be_on_line && before.on_line().any(twin);
    Some(change(cchen, reset, row.work(), id_taken))
}

/// Where one side alone can make the interrupt of a row with chaining.
fn interrupt_asked(row: &Glance) -> Option<String> {
    if row.por || row.mask.recon && row.recon || row.mask.excnak && row.excnak() {
        return None;
    }
    let decides = |side: Side, completed, idle| {
        if side.completed() {
            Some(masked_in(completed))
        } else {
            side.idle().then(|| masked_in(idle))
        }
    };
    match (row.mask.ta, row.mask.ri) {
        (true, true) => None,
        (true, false) => decides(row.transmit, "TTA", "TA"),
        (false, true) => decides(row.receive, "TRI", "RI"),
        (false, false) => {
            let any = row.transmit.completed() || row.receive.completed();
            any.then(|| masked_in("neither"))
        }
    }
}

fn step(before: &View, after: &View) -> Vec<String> {
    let (Phase::Taken { holder }, Phase::Pass { .. }) = (before.phase, after.phase) else {
        return Vec::new();
    };
    let mut seen: Vec<String> = before.packet_is_long.map(packet).into_iter().collect();
    for (index, (was, is)) in before.rows.iter().zip(&after.rows).enumerate() {
        if !was.chaining {
            continue;
        }
        if index == holder {
            seen.extend(turn(was, is));
        } else {
            seen.extend(listening(was, is));
        }
    }
    seen
}

/// The holder's row: the cancels, and then the oldest transmit that is left.
fn turn(was: &Glance, is: &Glance) -> Vec<String> {
    let cancels = [(TRANSMIT, was.transmit), (RECEIVE, was.receive)];
    let cancels = cancels.map(|(kind, side)| cancelled(kind, side.queue));
    let mut seen: Vec<String> = cancels.into_iter().flatten().collect();
    let tried = was.transmit.queue.without_cancelled();
    if !is.transmit.queue.waits_as(&tried) {
        seen.extend(ended(TRANSMIT, was.transmit.uncleared, tried));
    } else if tried.second().is_some() {
        seen.push(transmit_stays());
    }
    seen
}

fn cancelled(kind: &str, queue: Queue) -> Option<String> {
    let asked = |enabled: Enabled| enabled.cancel_asked;
    let which = match (queue.oldest().map(asked), queue.second().map(asked)) {
        (Some(true), None) => "the only one",
        (Some(true), Some(false)) => "the oldest of two",
        (Some(false), Some(true)) => "the second",
        (Some(true), Some(true)) => "both",
        _ => return None,
    };
    Some(cancel(kind, which))
}

/// A row other than the holder's, which may store.
fn listening(was: &Glance, is: &Glance) -> Vec<String> {
    let queue = was.receive.queue;
    let mut seen = Vec::new();
    if is.receive.queue != queue {
        seen.extend(ended(RECEIVE, was.receive.uncleared, queue));
        let asked = queue.oldest().is_some_and(|oldest| oldest.cancel_asked);
        seen.extend(asked.then(completion_of_one_asked));
    }
    let wanted = |enabled: Enabled| enabled.broadcasts;
    let wanted = (queue.oldest().map(wanted), queue.second().map(wanted));
    seen.extend((was.awake && wanted == (Some(false), Some(true))).then(only_the_second_wants_it));
    seen
}

/// The oldest of a queue ended.
fn ended(kind: &str, uncleared: u8, queue: Queue) -> Vec<String> {
    let mut seen = vec![completion(kind, uncleared)];
    seen.extend(
        queue
            .second()
            .map(|second| moves_up(kind, second.cancel_asked)),
    );
    seen
}

fn lap_asked(before: &View) -> Vec<String> {
    let chaining = before.on_line().filter(|row| row.chaining).count();
    if chaining == 0 {
        return Vec::new();
    }
    if chaining == before.on_line().count() {
        return vec![lap("all chaining")];
    }
    let two = |row: &Glance| row.transmit.queue.without_cancelled().second().is_some();
    let mut seen = vec![lap("some chaining")];
    seen.extend(
        before
            .on_line()
            .any(two)
            .then(|| lap("some with two packets")),
    );
    seen
}
