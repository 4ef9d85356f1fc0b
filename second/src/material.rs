//! Random material for the scenes of a campaign: orders, register bytes, values and lines.

use crate::model::{Configuration, Diagnostic, Mask, Mode, Row, MOST_ROWS, RAM, REGISTERS};
use crate::order::{ALL_FLAGS, ORDER_MARK, RECORD};
use crate::queue::{Enabled, Queue, Side, MOST_NAKS, MOST_UNCLEARED};
use crate::rng::Rng;
use crate::tally::COMMANDS;

/// Numbers that a byte does not hold and that a careless cut would turn into small ones.
pub const WIDE: [u32; 7] = [256, 257, 259, 263, 65_536, 65_537, u32::MAX];

/// Rows of a network: mostly few.
pub fn row_count(rng: &mut Rng) -> usize {
    match rng.weighted(&[5, 85, 4, 1, 2]) {
        0 => 1,
        1 => rng.between(2, 6),
        2 => 16,
        3 => MOST_ROWS,
        _ => rng.between(7, MOST_ROWS),
    }
}

/// Different node IDs: near each other, so that invitations soon meet one, or anywhere.
pub fn ids(rng: &mut Rng, count: usize) -> Vec<u8> {
    let highest = if rng.flag() {
        (count + 3).min(255)
    } else {
        255
    };
    let mut pool: Vec<u8> = (1..=255).collect();
    if rng.flag() {
        pool.reverse();
    }
    pool.truncate(highest);
    (0..count)
        .map(|_| pool.swap_remove(rng.below(pool.len())))
        .collect()
}

fn name(rng: &mut Rng) -> Vec<u8> {
    let mut name: Vec<u8> = (0..12).map(|_| rng.between(0x20, 0x7E) as u8).collect();
    name[0] = rng.between(0x21, 0x7E) as u8;
    name
}

/// A good order of this many records.
pub fn order(rng: &mut Rng, records: usize) -> Vec<u8> {
    let mut order = Vec::with_capacity(RECORD * records);
    for id in ids(rng, records) {
        order.extend(ORDER_MARK);
        order.extend([id, rng.below(4) as u8]);
        order.extend(name(rng));
    }
    order
}

/// A good order with all flags set: every receiver on, and for long packets.
pub fn order_of_receivers(rng: &mut Rng, records: usize) -> Vec<u8> {
    let mut order = order(rng, records);
    order
        .chunks_mut(RECORD)
        .for_each(|record| record[3] = ALL_FLAGS);
    order
}

/// An order in which most often a record is bad, or several are, each for one reason or for more.
pub fn order_with_bad_records(rng: &mut Rng, records: usize) -> Vec<u8> {
    let mut bytes = order(rng, records);
    if rng.one_in(3) {
        few_ids(rng, &mut bytes);
    }
    let mut record = rng.below(records);
    for _ in 0..rng.pick(&[0, 1, 1, 2, 3, 4, 5]) {
        spoil(rng, &mut bytes, record);
        if !rng.one_in(3) {
            record = rng.below(records);
        }
    }
    bytes
}

/// Gives some records the IDs of others, so that pairs cross and more than two are alike.
fn few_ids(rng: &mut Rng, order: &mut [u8]) {
    for record in 0..order.len() / RECORD {
        if rng.flag() {
            take_an_id(rng, order, record);
        }
    }
}

/// Gives a record the ID of any, which may be its own.
fn take_an_id(rng: &mut Rng, order: &mut [u8], record: usize) {
    let from = rng.below(order.len() / RECORD);
    order[RECORD * record + 2] = order[RECORD * from + 2];
}

/// Makes a record bad, or another that it is now alike to; one that is alone stays good at times.
fn spoil(rng: &mut Rng, order: &mut [u8], record: usize) {
    let bytes = &mut order[RECORD * record..][..RECORD];
    match rng.weighted(&[4, 4, 4, 3, 3, 8]) {
        0 => bytes[rng.below(2)] ^= 1 << rng.below(8),
        1 => bytes[2] = 0,
        2 => bytes[3] = rng.pick(&[4, 5, 7, 8, 0x10, 0x20, 0x40, 0x80, 0xFF]),
        3 => bytes[rng.between(4, 15)] = rng.pick(&[0x00, 0x1F, 0x7F, 0x80, 0xFF]),
        4 => bytes[4] = 0x20,
        _ => take_an_id(rng, order, record),
    }
}

/// An order that is not 1 to 60 whole records; those it has may be bad.
pub fn order_of_wrong_length(rng: &mut Rng, records: usize) -> Vec<u8> {
    let too_many = rng.one_in(3);
    let records = if too_many {
        rng.pick(&[MOST_ROWS + 1, MOST_ROWS + 2])
    } else {
        records
    };
    let mut bytes = if rng.flag() {
        order(rng, records)
    } else {
        order_with_bad_records(rng, records)
    };
    match rng.below(3) {
        _ if too_many => {}
        0 => bytes.truncate(bytes.len() - rng.between(1, 15)),
        1 => bytes.extend(vec![0x20; rng.between(1, 15)]),
        _ => bytes.clear(),
    }
    bytes
}

/// Register bytes of a well-formed row in any state at all.
pub fn registers(rng: &mut Rng, node_id: u8) -> [u8; REGISTERS] {
    let configuration = configuration(rng);
    let long_packets = rng.one_in(3);
    let most_waiting = if configuration.cchen { 2 } else { 1 };
    let mut side = |receive: bool| {
        let mut enabled = || enabled(rng, receive, long_packets);
        let (mut oldest, second) = (enabled(), enabled());
        oldest.naks = if receive { 0 } else { naks(rng) };
        let waiting = rng.below(most_waiting + 1);
        let completions = rng.below(usize::from(MOST_UNCLEARED) + 1) as u8;
        Side {
            queue: Queue::of(
                (waiting > 0).then_some(oldest),
                (waiting > 1).then_some(second),
            ),
            uncleared: if configuration.cchen { completions } else { 0 },
        }
    };
    let (transmit, receive) = (side(false), side(true));
    let row = Row {
        node_id,
        por: rng.one_in(4),
        recon: rng.flag(),
        transmit,
        receive,
        tma: rng.flag() && (transmit.idle() || transmit.completed()),
        stored_tma: rng.flag() && transmit.uncleared == MOST_UNCLEARED,
        diagnostic: diagnostic(rng),
        mask: mask(rng),
        configuration,
        setup: rng.below(8) as u8,
        tentative_id: nearby_id(rng),
        nid: nearby_id(rng),
        pointer: rng.below(RAM) as u16,
        mode: mode(rng),
        fetched: rng.byte(),
        long_packets,
        ram: [0; RAM],
    };
    row.registers()
}

fn mode(rng: &mut Rng) -> Mode {
    Mode {
        rddata: rng.flag(),
        auto_inc: rng.flag(),
        staged: rng.below(4) as u8,
    }
}

fn enabled(rng: &mut Rng, receive: bool, long_packets: bool) -> Enabled {
    Enabled {
        page: if long_packets {
            rng.pick(&[0, 2])
        } else {
            rng.below(4) as u8
        },
        broadcasts: receive && rng.flag(),
        cancel_asked: rng.one_in(6),
        naks: 0,
    }
}

/// NAKs that a transmit may have had.
pub fn naks(rng: &mut Rng) -> u8 {
    match rng.weighted(&[1, 3, 2, 4]) {
        0 => 0,
        1 => rng.between(1, usize::from(MOST_NAKS) - 2) as u8,
        2 => MOST_NAKS - 1,
        _ => MOST_NAKS,
    }
}

fn diagnostic(rng: &mut Rng) -> Diagnostic {
    Diagnostic {
        myrecon: rng.flag(),
        dupid: rng.flag(),
        rcvact: rng.flag(),
        token: rng.flag(),
        tentid: rng.flag(),
    }
}

fn mask(rng: &mut Rng) -> Mask {
    Mask {
        ri: rng.one_in(4),
        excnak: rng.flag(),
        recon: rng.one_in(4),
        ta: rng.one_in(4),
    }
}

fn configuration(rng: &mut Rng) -> Configuration {
    Configuration {
        reset: rng.one_in(8),
        cchen: rng.flag(),
        txen: !rng.one_in(4),
        et1: rng.flag(),
        et2: rng.flag(),
        backplane: rng.flag(),
        sub_address: rng.below(4) as u8,
    }
}

/// An ID of those most often in use.
pub fn nearby_id(rng: &mut Rng) -> u8 {
    match rng.weighted(&[8, 2, 1, 2]) {
        0 => rng.between(1, 9) as u8,
        1 => rng.between(250, 255) as u8,
        2 => 0,
        _ => rng.byte(),
    }
}

/// A configuration that keeps to the ordinary: on or off line, in reset or not, with chaining or
/// without.
pub fn plain_configuration(rng: &mut Rng) -> u8 {
    let configuration = rng.pick(&[
        0x18, 0x19, 0x1A, 0x1B, 0x38, 0x38, 0x38, 0x39, 0x39, 0x3A, 0x3B, 0x3C, 0x98, 0xB8, 0xB9,
    ]);
    configuration | rng.pick(&[0x00, 0x40])
}

/// A configuration with CCHEN as it is to be.
pub fn with_chaining(configuration: u8, cchen: bool) -> u8 {
    let configuration = Configuration::from_byte(configuration);
    Configuration {
        cchen,
        ..configuration
    }
    .byte()
}

/// The Enable bits of a page: n is bit 3, f is bit 5, and the page is 2n + f.
pub fn page_bits(page: u8) -> u8 {
    (page >> 1) << 3 | (page & 1) << 5
}

pub fn register_number(rng: &mut Rng) -> u32 {
    match rng.weighted(&[30, 1, 1]) {
        0 => rng.below(8) as u32,
        1 => rng.pick(&[8, 9, 255]),
        _ => rng.pick(&WIDE),
    }
}

/// A value for a register: most often one it takes.
pub fn register_value(rng: &mut Rng, register: u32) -> u32 {
    let byte = match (rng.weighted(&[12, 5, 2]), register) {
        (0, 0) => rng.byte() & 0x8D,
        (0, 1) => rng.pick(&COMMANDS),
        (0, 2) => rng.byte() & 0xC3,
        (0, 6) => plain_configuration(rng),
        (0, 7) => nearby_id(rng),
        (0 | 1, _) => rng.byte(),
        _ => return rng.pick(&WIDE),
    };
    u32::from(byte)
}

/// The first bytes of a packet for a DID: SID, DID and COUNT, in all their forms.
pub fn packet_header(rng: &mut Rng, did: u8, long: bool) -> Vec<u8> {
    let sid = rng.byte();
    let long_weight = if long { 18 } else { 2 };
    match rng.weighted(&[8, 2, long_weight, long_weight / 6, 2]) {
        0 => vec![sid, did, rng.between(3, 255) as u8],
        1 => vec![sid, did, rng.pick(&[3, 4, 254, 255])],
        2 => vec![sid, did, 0, rng.between(4, 255) as u8],
        3 => vec![sid, did, 0, rng.pick(&[0, 1, 2, 3, 4, 255])],
        _ => vec![sid, did, rng.pick(&[1, 2])],
    }
}

/// The words of the prompt with the number of their arguments; the last of `poke` and `load` is in
/// hex.
const WORDS: [(&str, usize); 15] = [
    ("size", 1),
    ("poke", 2),
    ("peek", 2),
    ("sum", 0),
    ("check", 0),
    ("fresh", 1),
    ("load", 1),
    ("read", 2),
    ("write", 3),
    ("reset", 1),
    ("timer", 1),
    ("interrupt", 1),
    ("step", 1),
    ("data", 2),
    ("lap", 1),
];

const NOT_NUMBERS: [&str; 10] = [
    "x",
    "-1",
    "+1",
    "0x10",
    "1h",
    "1.0",
    "1_000",
    "4294967296",
    "18446744073709551616",
    "\t1",
];

const NOT_HEX: [&str; 6] = ["4", "414", "4G", "g0", "-1", "0x"];

/// Past the limits of the buffer and of the list, whatever the length is.
const BEYOND: [&str; 9] = [
    "size 66401",
    "size 4294967295",
    "poke 66400 00",
    "poke 4294967295 00",
    "peek 0 66401",
    "peek 66401 0",
    "peek 4294967295 4294967295",
    "lap 71",
    "lap 4294967295",
];

/// A line that is not understood, whatever the network is.
pub fn not_understood(rng: &mut Rng) -> Vec<u8> {
    match rng.weighted(&[40, 10, 5, 5, 1]) {
        0 => misshapen(rng).into_bytes(),
        1 => rng.pick(&BEYOND).into(),
        2 => rng
            .pick(&["", " ", "  ", "xyzzy", "sums", "siz 0", "DONE", "sum\tsum"])
            .into(),
        3 => {
            // No word of the prompt can come of it: no byte is a letter.
            let count = rng.between(1, 40);
            rng.bytes(count)
                .into_iter()
                .map(|byte| byte | 0x80)
                .collect()
        }
        _ => vec![b'x'; rng.between(1_000, 150_000)],
    }
}

/// A line that would be understood but for one thing.
fn misshapen(rng: &mut Rng) -> String {
    let (word, count) = rng.pick(&WORDS);
    let in_hex = matches!(word, "poke" | "load");
    let mut arguments = vec!["0"; count];
    if in_hex {
        arguments[count - 1] = "00";
    }
    match rng.below(6) {
        // `load` alone is understood.
        0 if count > 0 && word != "load" => {
            arguments.pop();
        }
        4 if count > 0 && word != "load" => arguments[count - 1] = "",
        1 if count > 0 => {
            let place = rng.below(count);
            let hex_place = in_hex && place == count - 1;
            arguments[place] = rng.pick(if hex_place { &NOT_HEX } else { &NOT_NUMBERS });
        }
        2 => arguments.insert(rng.below(count + 1), ""),
        3 => return format!("{} {}", word.to_uppercase(), arguments.join(" ")),
        _ => arguments.push("0"),
    }
    let mut line = word.to_string();
    for argument in arguments {
        line = line + " " + argument;
    }
    line
}
