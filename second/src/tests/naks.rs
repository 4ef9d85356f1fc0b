//! Request C-16: a test for each of its readings C16-01 to C16-06, with the numbers given there, some of
//! what they leave to the request itself, and what the sights say of it.

use super::{order, Desk};
use crate::model::{Network, NAKS};
use crate::prompt::Prompt;
use crate::sights::naks::Watch;
use crate::sights::{named, View};

/// Rows with the IDs 40, 7 and 200, on line, their receivers off. Row 1 sends to row 0 from page 0, and
/// has been passed the token; what each has of diagnostic bits was read then.
fn desk() -> Desk {
    let mut desk = Desk::loaded(&[(40, 0, "A"), (7, 0, "B"), (200, 0, "C")]);
    desk.put(1, 0, 40, 0xFF);
    desk.write(1, 1, 0x03, 0);
    desk.pass_to(1);
    for row in 0..3 {
        desk.answer(&format!("read {row} 1"));
    }
    desk
}

/// The same with chaining in row 1, and a second packet, for row 2, behind the first.
fn chaining_desk() -> Desk {
    let mut desk = desk();
    desk.set(Network::length_for(1) + 6, &[0x78]);
    desk.put(1, 1, 200, 0xFF);
    desk.write(1, 1, 0x23, 0);
    desk
}

impl Desk {
    /// Turns of row 1 that is passed the token, each answered with a NAK of row 0; and it is again.
    #[track_caller]
    fn refused(&mut self, times: usize) {
        for _ in 0..times {
            self.gives("step 0", "HELD NAK 0");
            self.pass_to(1);
        }
    }

    /// Bytes 33 and 34 of row 1, and what EXCNAK in its byte 4 has to be with them.
    #[track_caller]
    fn counts(&mut self, naks: u8) {
        self.registers(1, NAKS.start, &[naks, 0]);
        let diagnostic = Network::length_for(1) + 4;
        let excnak = self.0.lent().image()[diagnostic] & 8 != 0;
        assert_eq!(excnak, naks == 128, "EXCNAK of {naks} NAKs");
        self.gives("check", "DONE");
    }

    /// So many NAKs in row 1, by its bytes.
    fn counted(&mut self, naks: u8) {
        let row = Network::length_for(1);
        let diagnostic = self.0.lent().image()[row + 4] & !8;
        let excnak = if naks == 128 { 8 } else { 0 };
        self.set(row + 4, &[diagnostic | excnak]);
        self.set(row + NAKS.start, &[naks]);
        self.counts(naks);
    }
}

#[test]
fn c16_01_the_bit_goes_when_the_transmit_ends() {
    let mut desk = desk();
    desk.refused(128);
    desk.counts(128);
    desk.write(0, 1, 0x04, 0);
    desk.gives("step 0", "HELD DELIVERED 0");
    desk.counts(0);
    desk.reads(1, 1, 0x70);
}

#[test]
fn c16_02_the_low_byte_first() {
    let mut desk = desk();
    desk.refused(127);
    desk.registers(1, NAKS.start, &[0x7F, 0x00]);
    desk.reads(1, 1, 0x70);
    desk.refused(1);
    desk.registers(1, NAKS.start, &[0x80, 0x00]);
    desk.reads(1, 1, 0x78);
    // Neither the rows that refuse nor those that listen count.
    for row in [0, 2] {
        desk.registers(row, NAKS.start, &[0, 0]);
    }
}

#[test]
fn c16_03_the_count_stays_at_128_and_clear_flags_takes_it() {
    let mut desk = desk();
    desk.refused(300);
    desk.counts(128);
    let mut desk = self::desk();
    desk.refused(100);
    desk.counts(100);
    desk.write(1, 1, 0x0E, 0);
    desk.counts(0);
    desk.refused(28);
    desk.counts(28);
    desk.refused(100);
    desk.counts(128);
    for (command, naks) in [(0x06, 128), (0x16, 128), (0x1E, 0)] {
        desk.write(1, 1, command, 0);
        desk.counts(naks);
    }
    desk.refused(1);
    desk.counts(1);
}

#[test]
fn c16_04_which_counts_are_well_formed() {
    let row = Network::length_for(1);
    for (status, configuration) in [(0x90, 0x38), (0x91, 0x38), (0x90, 0x78), (0x91, 0x78)] {
        let waits = status == 0x90;
        for excnak in [false, true] {
            let mut desk = Desk::loaded(&[(40, 0, "A"), (7, 0, "B")]);
            desk.set(
                row + 3,
                &[status, if excnak { 8 } else { 0 }, 0, configuration],
            );
            for high in [0, 1, 0x80, 0xFF] {
                for low in 0..=255 {
                    desk.set(row + NAKS.start, &[low, high]);
                    let fits = match low {
                        0 => !excnak,
                        1..=127 => !excnak && waits,
                        128 => excnak && waits,
                        _ => false,
                    };
                    let shape = ["REFUSED 1 SHAPE", "DONE"][usize::from(fits && high == 0)];
                    desk.gives("check", shape);
                }
            }
        }
    }
}

#[test]
fn c16_04_with_chaining_the_count_is_the_oldests() {
    let mut desk = chaining_desk();
    desk.refused(3);
    desk.counts(3);
    // It ends, and the second moves up.
    desk.write(0, 1, 0x04, 0);
    desk.gives("step 0", "HELD DELIVERED 0");
    desk.counts(0);
    desk.pass_to(1);
    desk.gives("step 0", "HELD NAK 2");
    desk.counts(1);
    // It is cancelled, and the second gets a NAK in the same step.
    for naks in [3, 128] {
        let mut desk = chaining_desk();
        desk.counted(naks);
        desk.write(1, 1, 0x01, 0);
        desk.counts(naks);
        desk.gives("step 0", "HELD NAK 2");
        desk.counts(1);
        desk.registers(1, 13, &[1, 0, 0, 0]);
    }
    // Both are cancelled.
    let mut desk = chaining_desk();
    desk.counted(128);
    desk.write(1, 1, 0x01, 0);
    desk.write(1, 1, 0x01, 0);
    desk.gives("step 0", "HELD NOTHING");
    desk.counts(0);
    // The second alone.
    for (naks, then) in [(3, 4), (128, 128)] {
        let mut desk = chaining_desk();
        desk.counted(naks);
        desk.set(Network::length_for(1) + 16, &[0xC1]);
        desk.gives("step 0", "HELD NAK 0");
        desk.counts(then);
        desk.registers(1, 13, &[0, 0, 0, 0]);
    }
}

/// A step by which a transmit ends, what is written or poked before it, and its answer.
type End = (&'static [(usize, u8)], &'static str, &'static str);

#[test]
fn each_end_takes_the_count() {
    const RECEIVES: &[(usize, u8)] = &[(0, 0x04)];
    // Row 0 takes a command; a byte of row 1's page gets a value.
    let ends: [End; 7] = [
        (&[(2, 2)], "step 0", "HELD MALFORMED"),
        (&[(1, 0)], "step 0", "HELD BROADCAST"),
        (&[(1, 9)], "step 0", "HELD NOANSWER"),
        (&[(1, 7)], "step 0", "HELD NOANSWER"),
        (RECEIVES, "step 0", "HELD DELIVERED 0"),
        (RECEIVES, "step 1", "HELD UNACKNOWLEDGED 0"),
        (RECEIVES, "step 2", "HELD UNACKNOWLEDGED 0"),
    ];
    for naks in [1, 127, 128] {
        for (changes, step, answer) in ends {
            for mut desk in [desk(), chaining_desk()] {
                desk.counted(naks);
                for (byte, value) in changes {
                    match byte {
                        0 => desk.write(0, 1, u32::from(*value), 0),
                        _ => desk.set(Network::length_for(1) + 64 + byte, &[*value]),
                    }
                }
                desk.gives(step, answer);
                desk.counts(0);
            }
        }
        // A cancel, at the token and not before.
        let mut desk = desk();
        desk.counted(naks);
        desk.write(1, 1, 0x01, 0);
        desk.counts(naks);
        desk.gives("step 0", "HELD NOTHING");
        desk.counts(0);
    }
}

#[test]
fn c16_05_which_answers_name_the_row() {
    // Row 1 sends to each of the others, and row 0 to row 1.
    for (did, row) in [(40, 0), (200, 2)] {
        for (fault, outcome) in [
            (0, "DELIVERED"),
            (1, "UNACKNOWLEDGED"),
            (2, "UNACKNOWLEDGED"),
        ] {
            let mut desk = desk();
            desk.set(Network::length_for(1) + 64 + 1, &[did]);
            desk.gives("step 0", &format!("HELD NAK {row}"));
            desk.pass_to(1);
            desk.write(row, 1, 0x04, 0);
            desk.gives(&format!("step {fault}"), &format!("HELD {outcome} {row}"));
        }
    }
    let mut desk = desk();
    desk.put(0, 0, 7, 0xFF);
    desk.write(0, 1, 0x03, 0);
    desk.pass_to(0);
    desk.gives("step 0", "HELD NAK 1");
    // An awake row off line with that ID is not the one that answers.
    desk.write(0, 6, 0x19, 0);
    desk.write(0, 7, 200, 0);
    desk.set(Network::length_for(1) + 64 + 1, &[200]);
    desk.pass_to(1);
    desk.gives("step 0", "HELD NAK 2");
}

#[test]
fn c16_06_clear_flags_whether_por_is_set() {
    let row = Network::length_for(1);
    for naks in [0, 1, 127, 128] {
        for status in [0x80, 0x90, 0x84, 0x94] {
            for (command, left) in [(0x06, naks), (0x0E, 0), (0x16, naks), (0x1E, 0)] {
                let mut desk = desk();
                desk.set(row + 3, &[status]);
                desk.counted(naks);
                desk.write(1, 1, command, 0);
                desk.counts(left);
                let cleared = (command & 8) << 1 | (command & 16) >> 2;
                desk.registers(1, 3, &[status & !(cleared as u8)]);
            }
        }
    }
    // A row that sleeps takes no command.
    let mut desk = desk();
    desk.counted(128);
    desk.write(1, 6, 0x19, 0);
    desk.write(1, 7, 0, 0);
    desk.write(1, 1, 0x0E, 5);
    desk.counts(128);
}

#[test]
fn register_1_keeps_excnak() {
    let mut desk = desk();
    let row = Network::length_for(1);
    desk.counted(128);
    desk.set(row + 4, &[0xFC]);
    for value in [0xFC, 0x08, 0x08] {
        desk.reads(1, 1, value);
        desk.counts(128);
    }
    desk.counted(127);
    desk.set(row + 4, &[0xF4]);
    for value in [0xF4, 0x00] {
        desk.reads(1, 1, value);
        desk.counts(127);
    }
}

#[test]
fn resets_take_the_count() {
    for naks in [1, 128] {
        let mut desk = desk();
        desk.counted(naks);
        desk.write(1, 6, 0x78, 7);
        desk.write(1, 6, 0xF8, 7);
        desk.counts(naks);
        desk.write(1, 6, 0xB8, 0);
        desk.counts(0);
        let mut desk = self::desk();
        desk.counted(naks);
        desk.gives("reset 0", "DONE");
        desk.counts(naks);
        desk.gives("reset 1", "DONE");
        desk.counts(0);
        // And a new network in the same bytes.
        let records = [(40, 0, "A"), (7, 0, "B"), (200, 0, "C")];
        for line in ["fresh 3".to_string(), format!("load {}", order(&records))] {
            let mut desk = self::desk();
            desk.counted(naks);
            desk.gives(&line, "DONE");
            desk.counts(0);
        }
    }
}

#[test]
fn the_interrupt_has_excnak_with_mask_bit_3() {
    for mut desk in [desk(), chaining_desk()] {
        desk.write(1, 1, 0x1E, 0);
        for (naks, mask, active) in [
            (128, 0x08, 1),
            (128, 0x00, 0),
            (128, 0x05, 0),
            (127, 0x08, 0),
            (0, 0x08, 0),
        ] {
            desk.counted(naks);
            desk.write(1, 0, mask, 0);
            desk.gives("interrupt 1", &format!("DONE {active}"));
        }
    }
    // Also of a row that sleeps.
    let mut desk = desk();
    desk.write(1, 1, 0x1E, 0);
    desk.counted(128);
    desk.write(1, 0, 0x08, 0);
    desk.write(1, 6, 0x19, 0);
    desk.write(1, 7, 0, 0);
    desk.gives("interrupt 1", "DONE 1");
}

/// What leaves the count: other commands and registers, a timer, the line, and a lap in which the row has
/// its turn once.
#[test]
fn what_leaves_the_count() {
    for naks in [1, 128] {
        let mut desk = chaining_desk();
        desk.counted(naks);
        for command in [0x00, 0x08, 0x04, 0x02, 0x01, 0x06, 0x16] {
            desk.write(1, 1, command, 0);
            desk.counts(naks);
        }
        desk.write(1, 1, 0x03, 7);
        for (register, value) in [
            (0, 0x8D),
            (2, 0x40),
            (3, 5),
            (4, 6),
            (6, 0x59),
            (7, 0),
            (6, 0x78),
        ] {
            desk.write(1, register, value, 0);
            desk.counts(naks);
        }
    }
    for naks in [1, 126, 127, 128] {
        let mut desk = desk();
        desk.counted(naks);
        desk.gives("timer 1", "DONE");
        desk.counts(naks);
        desk.gives("step 0", "RECOVERED 2");
        desk.gives("step 3", "TOKENLOST");
        desk.counts(naks);
        desk.gives("lap 3", "DONE 259 7 1 64 40 0 34 200 2 161");
        desk.counts(128.min(naks + 1));
    }
}

/// NAKs of several rows to one Enable are one count, and so where the page gets another DID.
#[test]
fn one_count_for_the_enable() {
    let mut desk = desk();
    for naks in (1..=6).step_by(2) {
        for (did, row, naks) in [(40, 0, naks), (200, 2, naks + 1)] {
            desk.set(Network::length_for(1) + 64 + 1, &[did]);
            desk.gives("step 0", &format!("HELD NAK {row}"));
            desk.counts(naks);
            desk.pass_to(1);
        }
    }
    // A new Enable begins anew.
    desk.write(1, 1, 0x01, 0);
    desk.gives("step 0", "HELD NOTHING");
    desk.write(1, 1, 0x03, 0);
    desk.pass_to(1);
    desk.gives("step 0", "HELD NAK 2");
    desk.counts(1);
}

/// What is seen of some lines behind those that load two rows, 5 and 6, with row 0 at the token and its
/// page 0 enabled; the packet there is for row 1, whose receiver is off.
#[track_caller]
fn sees(lines: &[(&str, &str, &[&str])]) {
    let load = format!("load {}", order(&[(5, 0, "A"), (6, 0, "B")]));
    let setup = [
        "size 2192",
        &load,
        "poke 4 0200",
        "poke 80 5506FF",
        "write 0 1 3",
    ];
    let mut desk = Desk(Prompt::new());
    let mut watch = Watch::default();
    let mut seen = |line: &str, answer: &str| {
        let view = |desk: &mut Desk| desk.0.lent().network().ok().map(View::of);
        let before = view(&mut desk);
        desk.gives(line, answer);
        let after = view(&mut desk);
        let words: Vec<&str> = line.split(' ').collect();
        watch.sights(&words, answer, before.as_ref(), after.as_ref())
    };
    for line in setup {
        assert_eq!(seen(line, "DONE"), [""; 0], "{line}");
    }
    for (line, answer, sights) in lines {
        assert_eq!(seen(line, answer), *sights, "{line}");
    }
}

#[test]
fn sights_of_naks() {
    sees(&[
        ("step 0", "HELD NAK 1", &["step, NAK 1"]),
        ("poke 4 0200", "DONE", &[]),
        ("step 0", "HELD NAK 1", &["step, NAK 2 to 127"]),
        ("read 0 1", "DONE 160", &["read 1, NAKs, other bits too"]),
        ("read 0 1", "DONE 0", &["read 1, NAKs"]),
        ("write 0 1 14", "DONE", &["Clear Flags 0E, POR 1, NAKs"]),
        ("write 0 1 14", "DONE", &["Clear Flags 0E, POR 0, no NAK"]),
        ("poke 4 0200", "DONE", &[]),
        (
            "step 0",
            "HELD NAK 1",
            &["step, NAK 1", "step, NAK after Clear Flags, NAKs"],
        ),
        ("write 0 6 120", "REFUSED 7 BUSY", &["CCHEN changed, NAKs"]),
        ("write 0 1 1", "DONE", &["Disable Transmitter, NAKs"]),
        ("poke 4 0200", "DONE", &[]),
        (
            "step 0",
            "HELD NOTHING",
            &["step, cancel without chaining, NAKs"],
        ),
    ]);
}

#[test]
fn sights_of_excnak() {
    sees(&[
        ("poke 20 88", "DONE", &[]),
        (
            "check",
            "REFUSED 1 SHAPE",
            &["check, EXCNAK 1, TA 0, count 0"],
        ),
        ("poke 49 7F", "DONE", &[]),
        (
            "check",
            "REFUSED 1 SHAPE",
            &["check, EXCNAK 1, TA 0, count 127"],
        ),
        ("poke 20 80", "DONE", &[]),
        ("check", "DONE", &["check, EXCNAK 0, TA 0, count 127"]),
        ("step 0", "HELD NAK 1", &["step, NAK 128"]),
        ("check", "DONE", &[]),
        ("write 0 1 22", "DONE", &["Clear Flags 16, POR 1, EXCNAK"]),
        ("write 0 0 8", "DONE", &["write 0, EXCNAK"]),
        // POR makes it active alone.
        ("interrupt 0", "DONE 1", &[]),
        ("poke 19 80", "DONE", &[]),
        ("interrupt 0", "DONE 1", &["interrupt, mask bit 3, EXCNAK"]),
        ("write 0 0 0", "DONE", &["write 0, EXCNAK"]),
        (
            "interrupt 0",
            "DONE 0",
            &["interrupt, mask no bits, EXCNAK"],
        ),
        ("step 0", "UNANSWERED 0", &["step, at the holder, EXCNAK"]),
        ("write 1 1 4", "DONE", &[]),
        ("poke 4 0200", "DONE", &[]),
        (
            "step 0",
            "HELD DELIVERED 1",
            &["step, transmit ends, EXCNAK"],
        ),
    ]);
}

/// A NAK for each lap, and the 128th and one more by steps.
#[test]
fn sights_of_naks_one_by_one() {
    let lap = ("lap 2", "DONE 258 5 0 256 6 1 2");
    let mut lines: Vec<(&str, &str, &[&str])> = Vec::new();
    for round in 0..127 {
        let kept: &[&str] = if round == 0 { &[] } else { &["timer, NAKs"] };
        lines.push(("timer 0", "DONE", kept));
        lines.push((lap.0, lap.1, &["lap, a NAK"]));
    }
    lines.push(("step 0", "HELD NOTHING", &["step, at another row, NAKs"]));
    lines.push(("step 0", "PASSED 0", &["step, at another row, NAKs"]));
    let by_a_step = [
        (
            "step 0",
            "HELD NAK 1",
            &["step, NAK 128", "step, NAK 128 since an Enable"] as &[_],
        ),
        ("poke 4 0200", "DONE", &[]),
        (
            "step 0",
            "HELD NAK 1",
            &["step, NAK above 128", "step, NAK above 128 since an Enable"],
        ),
    ];
    sees(&[lines.as_slice(), &by_a_step].concat());
    let by_a_lap = [
        ("timer 0", "DONE", &["timer, NAKs"] as &[_]),
        (
            lap.0,
            lap.1,
            &["lap, NAK 128", "lap, NAK 128 since an Enable"],
        ),
        ("timer 0", "DONE", &["timer, EXCNAK"]),
        (lap.0, lap.1, &["lap, as before, EXCNAK"]),
    ];
    lines.truncate(2 * 127);
    sees(&[lines.as_slice(), &by_a_lap].concat());
}

#[test]
fn sights_of_rows_named() {
    let mut desk = desk();
    let mut seen = |line: &str, answer: &str| {
        let before = desk.0.lent().network().ok().map(View::of);
        desk.gives(line, answer);
        named::sights(answer, before.as_ref())
    };
    // Row 1 has not yet invited any, and its NID is 7.
    assert_eq!(
        seen("step 0", "HELD NAK 0"),
        [
            "step, answered before the holder",
            "step, answered by a row that is not next",
        ]
    );
    assert_eq!(seen("step 0", "UNANSWERED 7"), [""; 0]);
    // To 200; row 0 goes off line and gets that ID.
    let setup = [
        "poke 4 0201",
        "poke 1169 C8",
        "write 0 6 25",
        "write 0 7 200",
    ];
    for line in setup {
        assert_eq!(seen(line, "DONE"), [""; 0], "{line}");
    }
    assert_eq!(
        seen("step 0", "HELD NAK 2"),
        [
            "step, answered behind the holder",
            "step, answered by a row that is not next",
            "step, answered behind a row off line",
            "step, answered behind a row of that ID",
        ]
    );
}
