//! Request C-11: a test for each of its readings C11-01 to C11-19, with the numbers given there, and
//! some of what they leave to the request itself.

use super::{Desk, SAMPLE};
use crate::model::Network;

/// Rows with the IDs 40, 7 and 200, on line, receivers off but that of row 0; row 1 has chaining.
fn desk() -> Desk {
    let mut desk = Desk::loaded(&[(40, 1, "A"), (7, 0, "B"), (200, 0, "C")]);
    desk.write(1, 6, 0x78, 0);
    desk
}

impl Desk {
    /// A read of register 0 with POR and RECON cleared.
    #[track_caller]
    fn shows(&mut self, row: u32, status: u8) {
        self.write(row, 1, 0x1E, 0);
        self.reads(row, 0, status);
    }

    /// The next turn of a row.
    #[track_caller]
    fn turn(&mut self, row: u32, outcome: &str) {
        self.pass_to(row);
        self.gives("step 0", &format!("HELD {outcome}"));
    }

    /// Commands that are all done.
    #[track_caller]
    fn commands(&mut self, row: u32, bytes: &[u32]) {
        bytes.iter().for_each(|byte| self.write(row, 1, *byte, 0));
    }

    /// Packets in pages 0, 1 and so on of row 1, one for each DID.
    fn packets(&mut self, dids: &[u8]) {
        (0..)
            .zip(dids)
            .for_each(|(page, did)| self.put(1, page, *did, 0xFF));
    }
}

#[test]
fn c11_01_status_as_it_is_read() {
    let mut desk = desk();
    desk.shows(1, 0x60);
    desk.packets(&[40]);
    desk.commands(1, &[0x03]);
    desk.shows(1, 0x40);
    desk.turn(1, "DELIVERED 0");
    desk.shows(1, 0x63);
    // Byte 3 keeps its layout: RI, TMA, TA.
    desk.registers(1, 3, &[0x83]);
    // Row 0 has no chaining.
    desk.shows(0, 0x81);
}

#[test]
fn c11_02_status_after_a_reset() {
    let mut desk = desk();
    desk.write(1, 6, 0xF8, 0);
    desk.reads(1, 0, 0x70);
    desk.registers(1, 3, &[0x91]);
}

#[test]
fn c11_03_busy_with_two_waiting() {
    let mut desk = desk();
    desk.packets(&[40, 40]);
    desk.commands(1, &[0x03, 0x23]);
    desk.write(1, 1, 0x0B, 7);
    desk.turn(1, "DELIVERED 0");
    desk.registers(1, 18, &[1]);
    desk.commands(1, &[0x0B]);
    desk.write(1, 1, 0x2B, 7);
    desk.registers(1, 13, &[1, 0, 0, 0x42]);
    desk.commands(1, &[0x04, 0x84]);
    for enable in [0x04, 0x0C, 0x24, 0x2C, 0x84, 0x8C, 0xA4, 0xAC] {
        desk.write(1, 1, enable, 7);
    }
    desk.registers(1, 13, &[1, 0, 0, 0x42, 0x60]);
    // Without chaining one is the most.
    desk.commands(0, &[0x04]);
    desk.write(0, 1, 0x24, 7);
}

#[test]
fn c11_04_a_third_completion() {
    let mut desk = desk();
    desk.packets(&[40, 9, 40]);
    desk.commands(1, &[0x03, 0x23]);
    desk.turn(1, "DELIVERED 0");
    desk.commands(1, &[0x0B]);
    desk.turn(1, "NOANSWER");
    desk.registers(1, 18, &[0x02]);
    desk.commands(0, &[0x04]);
    desk.turn(1, "DELIVERED 0");
    desk.registers(1, 18, &[0x82]);
    desk.shows(1, 0x63);
    desk.commands(1, &[0x00]);
    desk.registers(1, 18, &[1]);
    desk.shows(1, 0x63);
    desk.commands(1, &[0x00]);
    desk.shows(1, 0x60);
    desk.registers(1, 16, &[0; 4]);
    // The first's stays where it was not acknowledged, and the newest replaces the stored one.
    desk.packets(&[9, 40, 9]);
    desk.commands(0, &[0x04]);
    desk.commands(1, &[0x03, 0x23]);
    desk.turn(1, "NOANSWER");
    desk.commands(1, &[0x0B]);
    desk.turn(1, "DELIVERED 0");
    desk.registers(1, 18, &[0x82]);
    desk.turn(1, "NOANSWER");
    desk.registers(1, 18, &[0x02]);
    desk.shows(1, 0x61);
    // A third reception leaves the count at two.
    desk.commands(1, &[0x00, 0x00, 0x04, 0x24]);
    desk.put(2, 0, 7, 0xFF);
    for count in [1, 2, 2] {
        desk.commands(2, &[0x03]);
        desk.turn(2, "DELIVERED 1");
        desk.registers(1, 19, &[count]);
        if count == 1 {
            desk.commands(1, &[0x0C]);
        }
    }
    desk.shows(1, 0xE0);
}

#[test]
fn c11_05_ta_and_ri_with_a_second_waiting() {
    let mut desk = desk();
    desk.packets(&[40, 40]);
    desk.commands(1, &[0x03, 0x23, 0x04, 0x24]);
    desk.turn(1, "DELIVERED 0");
    desk.shows(1, 0x03);
    desk.put(2, 0, 7, 0xFF);
    desk.commands(2, &[0x03]);
    desk.turn(2, "DELIVERED 1");
    desk.shows(1, 0x83);
    desk.commands(2, &[0x03]);
    desk.turn(2, "DELIVERED 1");
    desk.shows(1, 0xC3);
}

#[test]
fn c11_06_what_completes() {
    // Of each: DID, COUNT, fault, outcome, byte 18 after it.
    let cases = [
        (40, 0x02, 0, "MALFORMED", 1),
        (0, 0xFF, 0, "BROADCAST", 1),
        (9, 0xFF, 0, "NOANSWER", 1),
        (40, 0xFF, 0, "DELIVERED 0", 1),
        (40, 0xFF, 1, "UNACKNOWLEDGED 0", 1),
        (40, 0xFF, 2, "UNACKNOWLEDGED 0", 1),
        (200, 0xFF, 0, "NAK 2", 0),
    ];
    for (did, count, fault, outcome, uncleared) in cases {
        let mut desk = desk();
        desk.put(1, 0, did, count);
        desk.commands(1, &[0x03]);
        desk.pass_to(1);
        desk.gives(&format!("step {fault}"), &format!("HELD {outcome}"));
        desk.registers(1, 18, &[uncleared]);
    }
    let mut desk = desk();
    desk.packets(&[9]);
    desk.commands(1, &[0x03, 0x01]);
    desk.turn(1, "NOTHING");
    desk.shows(1, 0x60);
    desk.commands(1, &[0x03, 0x04]);
    desk.write(1, 6, 0xF8, 0);
    desk.registers(1, 13, &[0; 7]);
}

#[test]
fn c11_07_tma_of_the_oldest_uncleared() {
    let mut desk = desk();
    desk.packets(&[40]);
    desk.commands(1, &[0x03]);
    desk.turn(1, "DELIVERED 0");
    desk.commands(1, &[0x03]);
    desk.shows(1, 0x43);
    desk.gives("check", "DONE");
    // Not with TA = 0 and TTA = 0.
    desk.set(Network::length_for(1) + 18, &[0]);
    desk.gives("check", "REFUSED 1 SHAPE");
    desk.set(Network::length_for(1) + 18, &[1]);
    desk.commands(1, &[0x00]);
    desk.shows(1, 0x40);
    // TMA that was there before CCHEN stays, and an Enable with TTA = 0 clears it.
    desk.write(2, 6, 0x38, 0);
    desk.put(2, 0, 40, 0xFF);
    desk.commands(0, &[0x04]);
    desk.commands(2, &[0x03]);
    desk.turn(2, "DELIVERED 0");
    desk.write(2, 6, 0x78, 0);
    desk.shows(2, 0x62);
    desk.commands(2, &[0x00]);
    desk.shows(2, 0x62);
    desk.commands(2, &[0x03]);
    desk.shows(2, 0x40);
}

#[test]
fn c11_08_clears() {
    let mut desk = desk();
    let sum = desk.answer("sum");
    desk.commands(1, &[0x00, 0x08]);
    desk.gives("sum", &sum);
    for clear in [0x00, 0x08] {
        desk.write(0, 1, clear, 4);
        desk.write(1, 1, clear | 0x10, 4);
        desk.write(1, 1, clear | 0x100, 4);
    }
    desk.write(1, 6, 0xF8, 0);
    for clear in [0x00, 0x08] {
        desk.write(1, 1, clear, 5);
    }
    // Asleep for its ID, and with no chaining: VALUE comes first.
    let mut desk = Desk::fresh(1);
    desk.write(0, 1, 0x00, 4);
    desk.write(0, 6, 0x58, 0);
    desk.write(0, 1, 0x00, 5);
    desk.write(0, 1, 0x08, 5);
}

#[test]
fn c11_09_disables() {
    let mut desk = desk();
    desk.packets(&[9, 40]);
    desk.commands(1, &[0x03, 0x23, 0x01]);
    desk.registers(1, 13, &[0x80, 0, 0, 0x41]);
    desk.turn(1, "DELIVERED 0");
    desk.registers(1, 13, &[0, 0, 0, 0, 0, 1]);
    desk.commands(1, &[0x00, 0x03, 0x23, 0x01, 0x01]);
    desk.registers(1, 13, &[0x80, 0, 0, 0xC1]);
    desk.commands(1, &[0x01]);
    desk.registers(1, 13, &[0x80, 0, 0, 0xC1]);
    desk.turn(1, "NOTHING");
    desk.shows(1, 0x60);
    desk.registers(1, 13, &[0; 7]);
    // Receives: the oldest, and then both.
    desk.commands(1, &[0x84, 0x2C, 0x02]);
    desk.registers(1, 13, &[0, 0xC0, 0, 0, 0x23]);
    desk.turn(1, "NOTHING");
    desk.registers(1, 13, &[0, 0x03, 0, 0, 0, 0, 0]);
    desk.shows(1, 0x20);
    desk.commands(1, &[0x84, 0x02, 0x02]);
    desk.registers(1, 13, &[0, 0x83, 0, 0, 0xE0]);
    desk.turn(1, "NOTHING");
    desk.registers(1, 13, &[0; 7]);
    desk.shows(1, 0x60);
    // The second's mark alone, which only bytes can have: the oldest is tried.
    desk.commands(0, &[0x04]);
    desk.packets(&[40, 9]);
    desk.commands(1, &[0x03, 0x23]);
    desk.set(Network::length_for(1) + 16, &[0xC1]);
    desk.gives("check", "DONE");
    desk.turn(1, "DELIVERED 0");
    desk.registers(1, 13, &[0, 0, 0, 0, 0, 1]);
    desk.commands(1, &[0x03, 0x23]);
    desk.set(Network::length_for(1) + 16, &[0xC1]);
    desk.commands(1, &[0x01]);
    desk.registers(1, 13, &[0x80, 0, 0, 0xC1]);
}

#[test]
fn c11_10_a_packet_into_a_receive_whose_cancel_is_asked() {
    let mut desk = desk();
    desk.put(2, 0, 7, 0xFF);
    desk.commands(2, &[0x03]);
    desk.pass_to(2);
    desk.commands(1, &[0x04, 0x24, 0x02]);
    desk.registers(1, 14, &[0x80, 0, 0, 0x21]);
    desk.gives("step 0", "HELD DELIVERED 1");
    desk.registers(1, 14, &[0x01, 0, 0, 0, 0, 1]);
    desk.shows(1, 0xA0);
    desk.gives("data 1 0", "DONE AA");
}

#[test]
fn c11_11_bytes_16_to_31() {
    // The row's changes, then a byte and whether it is well formed with them.
    let waiting: &[(usize, u8)] = &[(3, 0x10)];
    let long: &[(usize, u8)] = &[(3, 0x10), (15, 1)];
    let idle: &[(usize, u8)] = &[];
    let cases = [
        (idle, (16, 0x40), false),
        (idle, (17, 0x20), false),
        (waiting, (16, 0x40), true),
        (waiting, (16, 0xC3), true),
        (waiting, (16, 0x03), false),
        (waiting, (16, 0x80), false),
        (waiting, (16, 0x60), false),
        (waiting, (16, 0x44), false),
        (waiting, (17, 0x20), true),
        (waiting, (17, 0xE3), true),
        (waiting, (17, 0x40), false),
        (waiting, (17, 0xC0), false),
        (waiting, (17, 0x30), false),
        (long, (16, 0x41), false),
        (long, (16, 0x42), true),
        (long, (17, 0x23), false),
        (long, (17, 0x62), true),
        (idle, (18, 0x02), true),
        (idle, (18, 0x82), true),
        (idle, (18, 0x03), false),
        (idle, (18, 0x81), false),
        (idle, (18, 0x80), false),
        (idle, (18, 0x04), false),
        (idle, (19, 0x02), true),
        (idle, (19, 0x03), false),
        (idle, (19, 0x82), false),
        (idle, (20, 0x01), false),
        (idle, (31, 0x80), false),
        (idle, (33, 0x01), false),
    ];
    for (changes, (byte, value), fits) in cases {
        for cchen in [0x58, 0x18] {
            let mut desk = Desk::fresh(1);
            let row = Network::length_for(0);
            for (byte, value) in changes.iter().chain(&[(6, cchen)]) {
                desk.set(row + byte, &[*value]);
            }
            desk.gives("check", "DONE");
            desk.set(row + byte, &[value]);
            let well_formed = fits && cchen == 0x58;
            desk.gives(
                "check",
                if well_formed {
                    "DONE"
                } else {
                    "REFUSED 1 SHAPE"
                },
            );
        }
    }
}

#[test]
fn c11_12_changes_of_cchen() {
    let mut desk = Desk::sample();
    let sum = desk.answer("sum");
    for configuration in [0x78, 0xF8, 0x58, 0xD8] {
        desk.write(0, 6, configuration, 7);
    }
    desk.gives("sum", &sum);
    desk.write(0, 6, 0xB8, 0);
    desk.write(0, 6, 0xF8, 0);
    desk.registers(0, 6, &[0xF8]);
    // A row that sleeps: BUSY as in any.
    let mut desk = Desk::fresh(1);
    desk.write(0, 6, 0x19, 0);
    desk.write(0, 7, 5, 0);
    desk.commands(0, &[0x03]);
    desk.write(0, 7, 0, 0);
    desk.write(0, 6, 0x58, 7);
    // Work waits in a row with chaining, of either kind; then completions alone, which are dropped.
    for enable in [0x03, 0x04] {
        let mut desk = self::desk();
        desk.commands(1, &[enable]);
        desk.write(1, 6, 0x38, 7);
        desk.write(1, 6, 0xB8, 7);
        desk.write(1, 6, 0x7C, 0);
        desk.write(1, 6, 0xF8, 0);
        desk.write(1, 6, 0x38, 0);
    }
    for configuration in [0x38, 0x39, 0x18] {
        let mut desk = self::desk();
        desk.packets(&[40]);
        desk.commands(1, &[0x03]);
        desk.turn(1, "DELIVERED 0");
        desk.write(1, 6, configuration, 0);
        desk.registers(1, 16, &[0; 16]);
        desk.reads(1, 0, 0x97);
    }
    let mut desk = self::desk();
    desk.packets(&[40]);
    desk.commands(1, &[0x03]);
    desk.turn(1, "DELIVERED 0");
    desk.write(1, 6, 0xB8, 0);
    desk.reads(1, 0, 0x91);
    // A hardware reset ends chaining, whatever waits.
    let mut desk = self::desk();
    desk.commands(1, &[0x03, 0x23, 0x04, 0x24]);
    desk.gives("reset 1", "DONE");
    desk.registers(1, 2, &[0, 0x91, 0, 0, 0x18]);
    desk.registers(1, 13, &[0; 19]);
}

#[test]
fn c11_12_busy_before_duplicate() {
    let mut desk = desk();
    desk.write(2, 6, 0x19, 0);
    desk.write(2, 7, 7, 0);
    desk.write(2, 6, 0x78, 10);
    desk.write(2, 1, 0x03, 0);
    desk.write(2, 6, 0x78, 7);
    desk.write(2, 6, 0x38, 10);
}

#[test]
fn c11_13_long_packets_and_one_page_twice() {
    let mut desk = desk();
    desk.commands(1, &[0x0D, 0x03]);
    desk.write(1, 1, 0x23, 9);
    desk.write(1, 1, 0x0D, 7);
    desk.commands(1, &[0x0B]);
    desk.write(1, 1, 0x23, 7);
    desk.write(1, 1, 0x24, 9);
    desk.commands(1, &[0x04]);
    desk.write(1, 1, 0xA4, 9);
    desk.commands(1, &[0x04]);
    desk.write(1, 1, 0xA4, 7);
    desk.registers(1, 13, &[0, 0, 1, 0x42, 0x20]);
    let mut desk = self::desk();
    desk.packets(&[9]);
    desk.commands(1, &[0x03, 0x03]);
    desk.turn(1, "NOANSWER");
    desk.turn(1, "NOANSWER");
    desk.registers(1, 18, &[2]);
}

#[test]
fn c11_14_value() {
    let mut desk = desk();
    for configuration in [0x58, 0x79, 0x7F, 0xFB, 0x40] {
        desk.write(2, 6, configuration, 0);
        desk.registers(2, 6, &[configuration as u8]);
    }
    desk.write(2, 6, 0x140, 4);
    desk.write(0, 6, 0x178, 4);
}

#[test]
fn c11_15_one_packet_a_token() {
    let mut desk = desk();
    desk.write(2, 6, 0x78, 0);
    desk.packets(&[200, 200]);
    desk.commands(1, &[0x03, 0x23]);
    desk.commands(2, &[0x04, 0x24]);
    desk.turn(1, "DELIVERED 2");
    desk.registers(2, 14, &[1, 0, 0, 0, 0, 1]);
    desk.gives("data 2 0", "DONE AA");
    desk.gives("data 2 1", "REFUSED 4 VALUE");
    desk.turn(1, "DELIVERED 2");
    desk.gives("data 2 1", "DONE AA");
    desk.registers(2, 14, &[0, 0, 0, 0, 0, 2]);
}

#[test]
fn c11_16_nak_keeps_the_oldest_first() {
    let mut desk = desk();
    desk.packets(&[200, 40]);
    desk.commands(1, &[0x03, 0x23]);
    desk.turn(1, "NAK 2");
    desk.turn(1, "NAK 2");
    desk.registers(1, 13, &[0, 0, 0, 0x41, 0, 0]);
    desk.commands(2, &[0x04]);
    desk.turn(1, "DELIVERED 2");
    desk.turn(1, "DELIVERED 0");
}

#[test]
fn c11_17_software_reset() {
    let mut desk = desk();
    desk.packets(&[40]);
    desk.commands(1, &[0x03]);
    desk.turn(1, "DELIVERED 0");
    desk.write(1, 6, 0xF8, 0);
    desk.write(1, 6, 0x78, 0);
    desk.reads(1, 0, 0x70);
    // Everything of 16-31, also while it waits.
    desk.commands(1, &[0x03, 0x23, 0x04, 0x84]);
    desk.set(Network::length_for(1) + 18, &[0x82, 2]);
    desk.write(1, 6, 0xF8, 0);
    desk.registers(1, 13, &[0; 19]);
    desk.registers(1, 6, &[0xF8]);
}

#[test]
fn c11_18_the_oldest_receive_decides_on_broadcasts() {
    let mut desk = desk();
    desk.put(2, 0, 0, 0xFF);
    desk.commands(1, &[0x04, 0xA4]);
    desk.commands(2, &[0x03]);
    desk.turn(2, "BROADCAST");
    desk.registers(1, 14, &[0, 0, 0, 0x61, 0, 0]);
    desk.ram(1, 0, &[0, 0, 0]);
    desk.ram(1, 256, &[0, 0, 0]);
    // The other way round the oldest takes it.
    desk.commands(1, &[0x02, 0x02]);
    desk.turn(1, "NOTHING");
    desk.commands(1, &[0xA4, 0x04]);
    desk.commands(2, &[0x03]);
    desk.turn(2, "BROADCAST");
    desk.registers(1, 14, &[0, 0, 0, 0, 0, 1]);
    desk.gives("data 1 1", "DONE AA");
}

#[test]
fn c11_19_moving_up() {
    let mut desk = desk();
    desk.put(2, 0, 7, 0xFF);
    desk.commands(2, &[0x03]);
    desk.pass_to(2);
    desk.commands(1, &[0x24, 0x8C, 0x02, 0x02]);
    desk.registers(1, 14, &[0x81, 0, 0, 0xE2]);
    desk.reads(1, 1, 0xF0);
    let before = desk.answer("peek 1104 14");
    desk.gives("step 0", "HELD DELIVERED 1");
    desk.registers(1, 14, &[0xC2, 0, 0, 0, 0, 1]);
    // Of bytes 0-13 only the diagnostic status moved, by RCVACT.
    desk.reads(1, 1, 0x20);
    desk.gives("peek 1104 14", &before);
    desk.shows(1, 0xA0);
    // A transmit moves up the same way, and TA stays 0.
    desk.turn(1, "NOTHING");
    desk.packets(&[9, 40]);
    desk.commands(1, &[0x03, 0x23]);
    desk.turn(1, "NOANSWER");
    desk.registers(1, 13, &[0x01, 0, 0, 0, 0, 1, 1]);
    desk.shows(1, 0xC1);
}

#[test]
fn interrupts_by_tta_and_tri() {
    let mut desk = desk();
    desk.packets(&[40, 9]);
    desk.commands(1, &[0x03, 0x23, 0x04]);
    for mask in [0x81, 0x8D] {
        desk.write(1, 0, mask, 0);
        desk.commands(1, &[0x1E]);
        desk.gives("interrupt 1", "DONE 0");
    }
    desk.turn(1, "DELIVERED 0");
    for (mask, active) in [(0x01, 1), (0x80, 0), (0x00, 0), (0x81, 1)] {
        desk.write(1, 0, mask, 0);
        desk.commands(1, &[0x1E]);
        desk.gives("interrupt 1", &format!("DONE {active}"));
    }
    desk.commands(1, &[0x00]);
    desk.gives("interrupt 1", "DONE 0");
    // TA is 1 and RI is 1: neither counts.
    desk.turn(1, "NOANSWER");
    desk.commands(1, &[0x00, 0x1E]);
    desk.gives("interrupt 1", "DONE 0");
    desk.put(2, 0, 7, 0xFF);
    desk.commands(2, &[0x03]);
    desk.turn(2, "DELIVERED 1");
    for (mask, active) in [(0x01, 0), (0x80, 1)] {
        desk.write(1, 0, mask, 0);
        desk.commands(1, &[0x1E]);
        desk.gives("interrupt 1", &format!("DONE {active}"));
    }
    desk.commands(1, &[0x08]);
    desk.gives("interrupt 1", "DONE 0");
    // RECON as ever.
    desk.gives("timer 1", "DONE");
    desk.gives("step 0", "RECOVERED 2");
    desk.write(1, 0, 0x04, 0);
    desk.gives("interrupt 1", "DONE 1");
}

#[test]
fn lap_of_both_kinds() {
    let mut desk = Desk::loaded(&SAMPLE);
    desk.write(1, 6, 0xB8, 0);
    desk.write(1, 6, 0x78, 0);
    desk.packets(&[40, 200]);
    desk.commands(1, &[0x03, 0x23]);
    desk.gives("lap 3", "DONE 259 7 1 64 40 0 34 200 2 161");
    // One went, the other waits for the next token.
    desk.registers(1, 13, &[0x01, 0, 0, 0, 0, 1, 0]);
    desk.gives("timer 1", "DONE");
    desk.gives("lap 3", "DONE 259 7 1 64 40 0 34 200 2 161");
    desk.registers(1, 13, &[0, 0, 0, 0, 0, 0x82, 0]);
}
