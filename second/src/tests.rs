//! Values worked out by hand from document 01, from request C-11 in `tests/chaining.rs`, from C-12 in
//! `tests/orders.rs`, from C-13 in `tests/fetched.rs`, from C-16 in `tests/naks.rs` and from C-24 in
//! `tests/shuffled.rs`.

mod chaining;
mod fetched;
mod naks;
mod orders;
mod shuffled;

use crate::model::{Network, Row, PAGE, RAM};
use crate::prompt::{fnv, hex_text, Prompt};
use crate::registers::Command;
use crate::tally::{CLEARS, COMMANDS};

/// A prompt with the calls by name.
struct Desk(Prompt);

impl Desk {
    fn fresh(rows: usize) -> Desk {
        let mut desk = Desk(Prompt::new());
        desk.gives(&format!("size {}", Network::length_for(rows)), "DONE");
        desk.gives(&format!("fresh {rows}"), "DONE");
        desk
    }

    /// Records of node ID, flags and name.
    fn loaded(records: &[(u8, u8, &str)]) -> Desk {
        let mut desk = Desk(Prompt::new());
        desk.gives(
            &format!("size {}", Network::length_for(records.len())),
            "DONE",
        );
        desk.gives(&format!("load {}", order(records)), "DONE");
        desk
    }

    fn sample() -> Desk {
        Desk::loaded(&SAMPLE)
    }

    fn answer(&mut self, line: &str) -> String {
        self.0.answer(line.as_bytes())
    }

    #[track_caller]
    fn gives(&mut self, line: &str, answer: &str) {
        assert_eq!(self.answer(line), answer, "{line}");
    }

    #[track_caller]
    fn errs(&mut self, line: &str) {
        assert!(self.answer(line).starts_with("ERROR"), "{line}");
    }

    /// A write, and the number it answers.
    #[track_caller]
    fn write(&mut self, row: u32, register: u32, value: u32, number: u8) {
        let answer = self.answer(&format!("write {row} {register} {value}"));
        assert_eq!(
            refusal(&answer),
            number,
            "write {row} {register} {value:02X}: {answer}"
        );
    }

    #[track_caller]
    fn reads(&mut self, row: u32, register: u32, value: u8) {
        self.gives(&format!("read {row} {register}"), &format!("DONE {value}"));
    }

    /// Register bytes of a row from this one on.
    #[track_caller]
    fn registers(&mut self, row: usize, from: usize, bytes: &[u8]) {
        let at = Network::length_for(row) + from;
        self.gives(
            &format!("peek {at} {}", bytes.len()),
            &format!("DONE {}", hex_text(bytes)),
        );
    }

    #[track_caller]
    fn ram(&mut self, row: usize, from: usize, bytes: &[u8]) {
        self.registers(row, 64 + from, bytes);
    }

    #[track_caller]
    fn set(&mut self, at: usize, bytes: &[u8]) {
        self.gives(&format!("poke {at} {}", hex_text(bytes)), "DONE");
    }

    /// Phase and holder.
    #[track_caller]
    fn header(&mut self, phase: u8, holder: u8) {
        self.gives("peek 4 2", &format!("DONE {}", hex_text(&[phase, holder])));
    }

    /// A packet of the data byte AA: 55, DID, COUNT, and AA at the end of the page.
    fn put(&mut self, row: u32, page: u32, did: u8, count: u8) {
        self.write(row, 2, 0x40 | page, 0);
        self.write(row, 3, 0, 0);
        for byte in [0x55, did, count] {
            self.write(row, 4, u32::from(byte), 0);
        }
        self.write(row, 3, 0xFF, 0);
        self.write(row, 4, 0xAA, 0);
    }

    /// Fault-free steps up to and including the one that passes the token to a row.
    fn pass_to(&mut self, row: u32) -> usize {
        let wanted = format!("PASSED {row}");
        (1..1000)
            .find(|_| self.answer("step 0") == wanted)
            .expect("the token comes round")
    }
}

const SAMPLE: [(u8, u8, &str); 3] = [(40, 1, "MIXER"), (7, 1, "SCALE"), (200, 1, "DRYER")];

fn order(records: &[(u8, u8, &str)]) -> String {
    let record = |(id, flags, name): &(u8, u8, &str)| {
        format!(
            "4F52{}{}",
            hex_text(&[*id, *flags]),
            hex_text(format!("{name:<12}").as_bytes())
        )
    };
    records.iter().map(record).collect()
}

fn refusal(answer: &str) -> u8 {
    match answer.split(' ').collect::<Vec<_>>().as_slice() {
        ["DONE", ..] => 0,
        ["REFUSED", number, _] => number.parse().expect("a number"),
        _ => panic!("neither done nor refused: {answer}"),
    }
}

#[test]
fn sample_order() {
    let mut desk = Desk::sample();
    desk.gives("peek 0 16", "DONE 414E0103000000000000000000000000");
    desk.gives("peek 16 16", "DONE 4E442811800038000000000000004000");
    desk.gives("peek 1104 16", "DONE 4E440711800038000000000000004000");
    desk.gives("peek 2192 16", "DONE 4E44C811800038000000000000004000");
    desk.gives("lap 3", "DONE 259 7 1 64 40 0 34 200 2 161");
    desk.header(2, 2);
    desk.gives("lap 3", "REFUSED 7 BUSY");
}

#[test]
fn lap_in_single_steps() {
    let mut desk = Desk::sample();
    desk.gives("step 0", "RECOVERED 2");
    assert_eq!(desk.pass_to(1), 64);
    desk.gives("step 0", "HELD NOTHING");
    assert_eq!(desk.pass_to(0), 34);
    desk.gives("step 0", "HELD NOTHING");
    assert_eq!(desk.pass_to(2), 161);
    // 1 + 64 + 1 + 34 + 1 + 161 = 262 = 256 + 2 x 3; later laps take three invitations.
    let later: Vec<String> = (0..6).map(|_| desk.answer("step 0")).collect();
    let held = "HELD NOTHING";
    assert_eq!(
        later,
        [held, "PASSED 1", held, "PASSED 0", held, "PASSED 2"]
    );
}

#[test]
fn laps_of_two_and_of_sixty() {
    let mut desk = Desk::loaded(&[(6, 0, "A"), (7, 0, "B")]);
    desk.gives("lap 1", "REFUSED 13 ROOM");
    desk.gives("lap 2", "DONE 258 6 0 256 7 1 2");
    let ids: Vec<(u8, u8, &str)> = (1..=61).map(|id| (id, 3, "N")).collect();
    let mut desk = Desk::loaded(&ids[..60]);
    assert!(desk.answer("lap 70").starts_with("DONE 316 1 0 198 2 1 2 "));
    desk.gives("size 66384", "DONE");
    desk.gives(&format!("load {}", order(&ids)), "REFUSED 14 LENGTH");
    desk.gives("fresh 61", "REFUSED 4 VALUE");
}

#[test]
fn lap_alone_and_of_those_on_line() {
    let mut desk = Desk::loaded(&[(7, 1, "A")]);
    desk.gives("lap 0", "REFUSED 12 ALONE");
    let mut desk = Desk::sample();
    desk.write(0, 6, 0x18, 0);
    desk.gives("lap 2", "DONE 258 7 1 64 200 2 194");
}

#[test]
fn counts_of_a_packet() {
    let mut row = Row::after_hardware_reset([0; RAM]);
    let mut length = |long, page: u8, count: [u8; 2]| {
        row.long_packets = long;
        row.ram[PAGE * usize::from(page) + 2..][..2].copy_from_slice(&count);
        row.page_data(page).map(<[u8]>::len)
    };
    assert_eq!(length(false, 0, [2, 9]), None);
    assert_eq!(length(false, 1, [3, 9]), Some(253));
    assert_eq!(length(false, 2, [255, 9]), Some(1));
    assert_eq!(length(false, 2, [0, 9]), None);
    assert_eq!(length(true, 0, [0, 3]), None);
    assert_eq!(length(true, 2, [0, 4]), Some(508));
    assert_eq!(length(true, 0, [0, 255]), Some(257));
    assert_eq!(length(true, 3, [0, 255]), None);
    assert_eq!(length(true, 3, [255, 0]), Some(1));
}

#[test]
fn twenty_commands_and_two() {
    let legal = |chaining| {
        (0..=255)
            .filter(|byte| Command::from_byte(*byte, chaining).is_some())
            .collect::<Vec<u8>>()
    };
    let mut listed = COMMANDS.to_vec();
    listed.sort_unstable();
    assert_eq!(legal(true), listed);
    listed.retain(|byte| !CLEARS.contains(byte));
    assert_eq!(listed.len(), 20);
    assert_eq!(legal(false), listed);
    let commands = [
        (0x0B, Command::EnableTransmit { page: 2 }),
        (
            0x2C,
            Command::EnableReceive {
                page: 3,
                broadcasts: false,
            },
        ),
        (
            0xA4,
            Command::EnableReceive {
                page: 1,
                broadcasts: true,
            },
        ),
        (
            0x16,
            Command::ClearFlags {
                por: false,
                recon: true,
            },
        ),
        (0x00, Command::ClearTransmitInterrupt),
        (0x08, Command::ClearReceiveInterrupt),
    ];
    for (byte, command) in commands {
        assert_eq!(Command::from_byte(byte, true), Some(command));
    }
}

#[test]
fn hardware_reset_and_fresh() {
    let reset = [0x4E, 0x44, 0, 0x91, 0, 0, 0x18, 0, 0, 0, 0, 0, 0, 0, 0, 0];
    let mut desk = Desk::fresh(2);
    desk.reads(1, 0, 0x91);
    desk.registers(1, 0, &reset);
    desk.gives("interrupt 0", "DONE 1");
    let mut desk = Desk::sample();
    desk.gives("step 0", "RECOVERED 2");
    desk.put(0, 0, 1, 3);
    desk.gives("reset 0", "DONE");
    desk.registers(0, 0, &reset);
    desk.ram(0, 0, &[0x55, 1, 3]);
    desk.header(1, 2);
    desk.gives("reset 2", "DONE");
    desk.header(0, 0);
}

#[test]
fn pointer_and_direction() {
    let mut desk = Desk::sample();
    desk.write(0, 2, 0xC3, 0);
    desk.reads(0, 2, 0xC0);
    desk.write(0, 3, 0xFF, 0);
    desk.reads(0, 2, 0xC3);
    desk.reads(0, 3, 0xFF);
    desk.reads(0, 4, 0);
    desk.reads(0, 2, 0xC0);
    desk.reads(0, 3, 0);
    desk.registers(0, 10, &[0, 0, 0xC3]);
    desk.write(0, 4, 1, 6);
    desk.write(0, 2, 0x03, 0);
    desk.gives("read 0 4", "REFUSED 6 DIRECTION");
    desk.write(0, 2, 0x04, 4);
}

#[test]
fn nid_goes_from_255_to_0() {
    let mut desk = Desk::loaded(&[(255, 0, "A"), (1, 0, "B")]);
    let expected = ["RECOVERED 0", "UNANSWERED 255", "UNANSWERED 0", "PASSED 1"];
    expected
        .iter()
        .for_each(|answer| desk.gives("step 0", answer));
}

#[test]
fn smallest_number_wins() {
    let mut desk = Desk::sample();
    desk.write(3, 9, 0, 2);
    desk.write(256, 5, 0, 2);
    desk.write(0, 5, 0xFF, 3);
    desk.write(0, 263, 0, 3);
    desk.write(0, 0, 256, 4);
    desk.write(0, 3, 256, 4);
    for mask in [0x10, 0x40, 0x20, 0x02] {
        desk.write(0, 0, mask, 4);
    }
    desk.write(0, 7, 40, 0); // sub-address 00: the tentative ID
    desk.write(0, 6, 0x3B, 0);
    desk.write(0, 7, 1, 3);
    desk.gives("read 0 7", "REFUSED 3 REGISTER");
    desk.write(0, 6, 0x3A, 0);
    desk.write(0, 7, 8, 4);
    desk.write(0, 6, 0x39, 0);
    desk.write(0, 7, 7, 8);
    desk.write(0, 7, 40, 8);
    desk.write(0, 6, 0x178, 4);
    desk.gives("step 4", "REFUSED 4 VALUE");
    desk.gives("step 0", "RECOVERED 2");
    desk.gives("lap 0", "REFUSED 7 BUSY");
    desk.set(6, &[1]);
    desk.gives("step 4", "REFUSED 1 SHAPE");
    desk.gives("check", "REFUSED 1 SHAPE");
}

#[test]
fn sleeping_rows() {
    let mut desk = Desk::fresh(1);
    desk.write(0, 0, 0x85, 0);
    desk.registers(0, 5, &[0x85]);
    desk.write(0, 1, 0x07, 4);
    desk.write(0, 1, 0x03, 5);
    desk.write(0, 2, 0x80, 0);
    desk.write(0, 4, 0, 6);
    desk.gives("timer 0", "REFUSED 5 NOTREADY");
    desk.gives("step 4", "REFUSED 4 VALUE");
    desk.gives("step 0", "QUIET");
    // Enable Receive, then ID 0: the row sleeps and keeps RI = 0.
    desk.write(0, 6, 0x19, 0);
    desk.write(0, 7, 5, 0);
    desk.write(0, 1, 0x04, 0);
    desk.write(0, 7, 0, 0);
    desk.reads(0, 0, 0x11);
    desk.ram(0, 0, &[0, 0]);
}

#[test]
fn busy_and_page() {
    let mut desk = Desk::loaded(&[(40, 2, "A"), (7, 0, "B")]);
    desk.write(0, 1, 0x23, 9);
    desk.write(0, 1, 0xA4, 9);
    desk.write(0, 1, 0x03, 0);
    desk.reads(0, 0, 0x90);
    desk.write(0, 1, 0x23, 7);
    desk.write(0, 1, 0x01, 0);
    desk.write(0, 1, 0x03, 7);
    desk.write(0, 1, 0x0D, 7);
    desk.registers(0, 13, &[0x80, 0, 1]);
    // Disable Receiver looks at RI alone.
    desk.write(1, 1, 0x84, 0);
    desk.write(1, 1, 0x02, 0);
    desk.registers(1, 13, &[0, 0xC0, 0]);
    desk.write(1, 1, 0x0D, 7);
}

#[test]
fn software_reset_and_coming_on_line() {
    let mut desk = Desk::sample();
    desk.gives("step 0", "RECOVERED 2");
    desk.write(0, 6, 0x3C, 0);
    desk.header(1, 2);
    desk.write(0, 6, 0x98, 0);
    desk.header(1, 2);
    desk.registers(0, 2, &[40, 0x91, 0, 0, 0x98, 0, 0, 40]);
    desk.write(0, 0, 0x85, 0);
    desk.write(0, 6, 0x98, 0);
    desk.registers(0, 5, &[0]);
    desk.write(0, 6, 0x38, 0);
    desk.header(0, 0);
    desk.registers(0, 4, &[0x80]);
    desk.gives("step 0", "RECOVERED 2");
    desk.write(2, 6, 0xB8, 0);
    desk.header(0, 0);
    desk.registers(2, 2, &[200, 0x91, 0, 0, 0xB8, 0, 0, 200]);
}

#[test]
fn duplicates() {
    let mut desk = Desk::sample();
    desk.write(0, 6, 0xB9, 0);
    desk.write(0, 7, 7, 0);
    desk.write(0, 6, 0x38, 10);
    desk.write(0, 6, 0xB8, 0);
    // A node ID write that brings a row on line.
    let mut desk = Desk::fresh(2);
    for (row, number) in [(0, 0), (1, 10)] {
        desk.write(row, 6, 0x39, 0);
        desk.write(row, 7, 5, number);
    }
    desk.registers(0, 2, &[5, 0x91, 0x80]);
    desk.registers(1, 2, &[0, 0x91, 0]);
}

#[test]
fn diagnostic_bits() {
    // Row 3 is off line with the ID of row 1; row 2 has it as tentative ID.
    let mut desk = Desk::loaded(&[(40, 1, "A"), (7, 1, "B"), (200, 1, "C"), (9, 0, "D")]);
    desk.write(3, 6, 0x19, 0);
    desk.write(3, 7, 7, 0);
    desk.write(2, 7, 7, 0);
    assert_eq!(desk.pass_to(1), 65);
    desk.reads(2, 1, 0x84);
    desk.reads(1, 1, 0xF0);
    desk.reads(0, 1, 0xB0);
    desk.reads(3, 1, 0xF0);
    desk.reads(3, 1, 0x00);
}

#[test]
fn off_line_rows_in_a_recovery() {
    let mut desk = Desk::sample();
    desk.write(0, 6, 0x18, 0);
    desk.gives("step 3", "RECOVERED 2");
    desk.registers(0, 2, &[40, 0x15, 0x80, 0, 0x18, 0, 0, 0]);
    desk.write(1, 6, 0x18, 0);
    desk.write(2, 6, 0x18, 0);
    desk.header(0, 0);
    desk.gives("step 3", "QUIET");
}

#[test]
fn invitation_destroyed() {
    let mut desk = Desk::sample();
    desk.gives("step 0", "RECOVERED 2");
    desk.gives("step 3", "TOKENLOST");
    desk.header(0, 0);
    desk.registers(0, 4, &[0xA0]);
    desk.registers(2, 4, &[0x80]);
    desk.registers(2, 9, &[200]);
}

#[test]
fn cancels() {
    let mut desk = Desk::sample();
    desk.put(1, 1, 40, 0xFF);
    desk.write(1, 1, 0x23, 0);
    desk.write(1, 1, 0x01, 0);
    desk.write(1, 1, 0x02, 0);
    desk.reads(1, 0, 0x10);
    desk.pass_to(1);
    desk.gives("step 0", "HELD NOTHING");
    desk.reads(1, 0, 0x95);
    desk.registers(1, 13, &[0, 0]);
    desk.ram(1, 0x100, &[0x55]);
}

#[test]
fn outcomes() {
    // Of each: DID, COUNT, the target's receiver off, fault, answer, sender's status, byte 0.
    let cases = [
        (40, 0xFF, false, 0, "HELD DELIVERED 0", 0x17, 7),
        (40, 0xFF, false, 3, "HELD DELIVERED 0", 0x17, 7),
        (40, 0xFF, false, 1, "HELD UNACKNOWLEDGED 0", 0x15, 7),
        (40, 0xFF, false, 2, "HELD UNACKNOWLEDGED 0", 0x15, 7),
        (40, 0xFF, true, 0, "HELD NAK 0", 0x14, 0x55),
        (9, 0xFF, false, 0, "HELD NOANSWER", 0x15, 0x55),
        (7, 0xFF, false, 0, "HELD NOANSWER", 0x15, 0x55),
        (0, 0xFF, false, 0, "HELD BROADCAST", 0x15, 7),
        (0, 0xFF, false, 1, "HELD BROADCAST", 0x15, 7),
        (0, 0x02, false, 0, "HELD MALFORMED", 0x15, 0x55),
        (40, 0x00, false, 0, "HELD MALFORMED", 0x15, 0x55),
    ];
    for (did, count, off, fault, answer, status, sid) in cases {
        let flags = if off { 0 } else { 1 };
        let mut desk = Desk::loaded(&[(40, flags, "A"), (7, 1, "B"), (200, 1, "C")]);
        desk.put(1, 1, did, count);
        desk.write(1, 1, 0x23, 0);
        desk.pass_to(1);
        desk.gives(&format!("step {fault}"), answer);
        desk.header(1, 1);
        desk.reads(1, 0, status);
        desk.ram(1, 0x100, &[sid, did, count]);
        let delivered = answer.starts_with("HELD DELIVERED");
        let stored = (delivered || fault == 2 || did == 0 && count > 2) && fault != 1;
        desk.ram(0, 0, if stored { &[7] } else { &[0] });
        desk.ram(0, 0xFF, if stored { &[0xAA] } else { &[0] });
        desk.registers(0, 14, if stored || off { &[0] } else { &[0x40] });
    }
}

#[test]
fn who_hears_a_packet() {
    let mut desk = Desk::sample();
    desk.put(1, 1, 40, 0xFF);
    desk.write(1, 1, 0x23, 0);
    desk.write(0, 1, 0x02, 0);
    desk.pass_to(1);
    for row in 0..3 {
        desk.answer(&format!("read {row} 1"));
    }
    desk.gives("step 2", "HELD UNACKNOWLEDGED 0");
    for row in 0..3 {
        desk.reads(row, 1, 0x20);
    }
    // The cancel that row 0 asked is gone with the packet it stored.
    desk.reads(0, 0, 0x95);
    desk.registers(0, 14, &[0]);
}

#[test]
fn long_packet_to_a_short_row() {
    let mut desk = Desk::loaded(&[(40, 1, "A"), (7, 3, "B"), (200, 3, "C")]);
    desk.set(Network::length_for(1) + 64 + 512, &[0x55, 40, 0, 0xFF]);
    desk.set(Network::length_for(1) + 64 + 1023, &[0xAA]);
    desk.write(1, 1, 0x0B, 0);
    desk.pass_to(1);
    desk.gives("step 0", "HELD UNACKNOWLEDGED 0");
    desk.reads(0, 0, 0x15);
    desk.registers(0, 14, &[0x40]);
    desk.reads(1, 0, 0x15);
    desk.reads(1, 1, 0xF0);
    // To the row with long packets it goes.
    desk.set(Network::length_for(1) + 64 + 513, &[200]);
    desk.write(1, 1, 0x0B, 0);
    desk.pass_to(1);
    desk.gives("step 0", "HELD DELIVERED 2");
    desk.ram(2, 0, &[7, 200, 0, 0xFF, 0]);
    desk.ram(2, 511, &[0xAA]);
    let data = desk.answer("data 2 0");
    assert!(data.starts_with("DONE 00") && data.ends_with("00AA") && data.len() == 5 + 2 * 257);
}

#[test]
fn page_reader() {
    let mut desk = Desk::sample();
    desk.set(Network::length_for(0) + 64, &[7, 40, 0, 0xFF]);
    desk.gives("data 0 0", "REFUSED 4 VALUE");
    desk.gives("data 0 4", "REFUSED 4 VALUE");
    desk.gives("data 0 256", "REFUSED 4 VALUE");
    desk.gives("data 3 4", "REFUSED 2 ROW");
    desk.put(0, 3, 9, 0xFE);
    desk.gives("data 0 3", "DONE 00AA");
}

#[test]
fn well_formed_or_not() {
    let row = Network::length_for(0);
    let bad: [(usize, &[u8]); 18] = [
        (0, &[0x42]),
        (2, &[2]),
        (3, &[2]),
        (4, &[3]),
        (4, &[0, 1]),
        (4, &[1, 3]),
        (15, &[1]),
        (row, &[0x4D]),
        (row + 3, &[0x19]),
        (row + 3, &[0x12]),
        (row + 4, &[0x08]),
        (row + 5, &[0x10]),
        (row + 7, &[8]),
        (row + 10, &[4]),
        (row + 13, &[0x80]),
        (row + 15, &[2]),
        (row + 63, &[1]),
        (row + 2, &[7]),
    ];
    for (at, bytes) in bad {
        let mut desk = Desk::sample();
        desk.set(at, bytes);
        desk.gives("check", "REFUSED 1 SHAPE");
        for line in [
            "read 0 0",
            "write 0 0 0",
            "reset 0",
            "timer 0",
            "interrupt 0",
            "step 0",
            "data 0 0",
            "lap 3",
        ] {
            desk.gives(line, "REFUSED 1 SHAPE");
        }
    }
    let good: [(usize, &[u8]); 6] = [
        (row + 5, &[8]),
        (row + 6, &[0x9B]),
        (row + 6, &[0x78]),
        (row + 8, &[7, 7]),
        (4, &[1, 2]),
        (row + 100, &[1]),
    ];
    for (at, bytes) in good {
        let mut desk = Desk::sample();
        desk.set(at, bytes);
        desk.gives("check", "DONE");
    }
    // Long packets: the transmit page by TA alone, the receive page by RI alone.
    let mut desk = Desk::sample();
    desk.set(row + 3, &[0x90]);
    desk.set(row + 13, &[1, 0, 1]);
    desk.gives("check", "REFUSED 1 SHAPE");
    desk.set(row + 13, &[2, 0, 1]);
    desk.gives("check", "DONE");
}

/// Request C-20: SHAPE comes first, whatever the fault, and no call answers 11.
#[test]
fn a_holder_off_line_is_shape() {
    for phase in [1, 2] {
        let mut desk = Desk::sample();
        desk.gives("write 0 6 24", "DONE"); // 18 hex: TXEN 0
        desk.set(4, &[phase, 0]);
        for fault in 0..=4 {
            desk.gives(&format!("step {fault}"), "REFUSED 1 SHAPE");
        }
        desk.gives("lap 3", "REFUSED 1 SHAPE");
        desk.set(4, &[phase, 1]);
        desk.gives("step 4", "REFUSED 4 VALUE");
        desk.gives("check", "DONE");
    }
}

#[test]
fn lengths() {
    let mut desk = Desk(Prompt::new());
    desk.gives("check", "REFUSED 1 SHAPE");
    desk.gives("load", "REFUSED 14 LENGTH");
    desk.gives("fresh 0", "REFUSED 4 VALUE");
    desk.gives("fresh 1", "REFUSED 13 ROOM");
    desk.gives(&format!("load {}", order(&SAMPLE)), "REFUSED 13 ROOM");
    desk.gives(&format!("load {}00", order(&SAMPLE)), "REFUSED 14 LENGTH");
    let mut desk = Desk::sample();
    for length in [3279, 3281, 15, 16, 1104] {
        desk.gives(&format!("size {length}"), "DONE");
        desk.gives("step 0", "REFUSED 1 SHAPE");
    }
    desk.gives("size 3280", "DONE");
    desk.gives("step 0", "RECOVERED 2");
}

#[test]
fn sums() {
    assert_eq!(fnv(b""), 0xCBF2_9CE4_8422_2325);
    assert_eq!(fnv(b"a"), 0xAF63_DC4C_8601_EC8C);
    assert_eq!(fnv(b"foobar"), 0x8594_4171_F739_67E8);
    Desk(Prompt::new()).gives("sum", "DONE CBF29CE484222325");
}

#[test]
fn lines() {
    let mut desk = Desk::sample();
    desk.gives("read 256 0", "REFUSED 2 ROW");
    desk.gives("read 4294967295 4294967295", "REFUSED 2 ROW");
    desk.gives("read 000 00", "DONE 17");
    desk.gives("poke 100 aBfF", "DONE");
    desk.gives("peek 100 3", "DONE ABFF00");
    desk.gives("peek 3280 0", "DONE");
    for line in [
        "",
        " ",
        "sum ",
        " sum",
        "size  5",
        "size 66401",
        "size 4294967296",
        "size -1",
        "size +1",
        "poke 0",
        "poke 0 ",
        "poke 0 4",
        "poke 0 4G",
        "poke 3280 00",
        "poke 3279 0000",
        "peek 3281 0",
        "peek 0 3281",
        "lap 71",
        "lap",
        "step",
        "read 0",
        "read 0 0 0",
        "write 0 0",
        "Sum",
        "load 4",
    ] {
        desk.errs(line);
    }
    desk.gives("size 66400", "DONE");
    desk.gives("peek 66399 1", "DONE 00");
    desk.gives("size 3280", "DONE");
    desk.gives("lap 70", "DONE 259 7 1 64 40 0 34 200 2 161");
}
