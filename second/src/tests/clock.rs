//! Request C-15: a test for each of its readings C15-01 to C15-08, with the numbers given there, and what the
//! sights say of it.

use super::{Desk, SAMPLE};
use crate::model::Network;
use crate::sights::clock::{turns, without_time, Watch};
use crate::sights::View;

/// A configuration with TXEN for each (ET2, ET1), with its response and idle times.
const TIMES: [(u32, u64, u64); 4] = [
    (0x38, 780, 860),
    (0x28, 2_850, 3_160),
    (0x30, 5_630, 6_240),
    (0x20, 11_300, 12_370),
];

/// The sample order, row 1 at the token with a packet of one data byte for row 0 in its page 1.
fn desk() -> Desk {
    let mut desk = Desk::sample();
    desk.put(1, 1, 40, 0xFF);
    desk.write(1, 1, 0x23, 0);
    desk.token_to_row_1();
    desk
}

impl Desk {
    fn token_to_row_1(&mut self) {
        self.set(4, &[2, 1]);
    }

    fn configure_all(&mut self, configuration: u32) {
        for row in 0..3 {
            self.write(row, 6, configuration, 0);
        }
    }

    /// The time at the end of an answer to so many fault-free steps.
    fn tenths(&mut self, steps: usize) -> u64 {
        let time = |answer: String| answer.rsplit(' ').next()?.parse::<u64>().ok();
        (0..steps)
            .map(|_| time(self.answer("clockstep 0")).expect("a time"))
            .sum()
    }
}

#[test]
fn c15_01_which_bits_choose_which_times() {
    for (configuration, response, idle) in TIMES {
        let mut desk = Desk::sample();
        desk.configure_all(configuration);
        let recovery = 27_540 + idle + 1_460 * 55;
        desk.gives("clockstep 0", &format!("RECOVERED 2 {recovery}"));
        let unanswered = 156 + response;
        desk.gives("clockstep 0", &format!("UNANSWERED 200 {unanswered}"));
    }
    // Configuration 30 hex has ET1 alone.
    let mut desk = desk();
    desk.configure_all(0x30);
    desk.gives("clockstep 2", "HELD UNACKNOWLEDGED 0 6350");
}

#[test]
fn c15_02_each_answered_message_costs_the_turnaround() {
    let mut desk = desk();
    desk.gives("clockstep 0", "HELD DELIVERED 0 908");
    // Its receiver is off now.
    desk.write(1, 1, 0x23, 0);
    desk.token_to_row_1();
    desk.gives("clockstep 0", "HELD NAK 0 344");
    desk.gives("timer 0", "DONE");
    desk.gives("lap 3", "DONE 259 7 1 64 40 0 34 200 2 161");
    desk.gives("clockstep 0", "HELD NOTHING 0");
    desk.gives("clockstep 0", "PASSED 1 276");
}

#[test]
fn c15_03_a_lost_ack_is_no_answer() {
    for fault in [1, 2] {
        let mut desk = desk();
        desk.gives(&format!("clockstep {fault}"), "HELD UNACKNOWLEDGED 0 1500");
    }
    // Fault 3 meets no invitation.
    desk().gives("clockstep 3", "HELD DELIVERED 0 908");
    // A long packet of 257 bytes to a row that takes short ones: 344 + 11,684 + 780.
    let mut desk = Desk::loaded(&[(40, 1, "A"), (7, 3, "B"), (200, 3, "C")]);
    desk.set(Network::length_for(1) + 64 + 512, &[0x55, 40, 0, 0xFF]);
    desk.write(1, 1, 0x0B, 0);
    desk.token_to_row_1();
    desk.gives("clockstep 0", "HELD UNACKNOWLEDGED 0 12808");
    // To one that takes it: 344 + 11,684 + 188.
    desk.set(Network::length_for(1) + 64 + 513, &[200]);
    desk.write(1, 1, 0x0B, 0);
    desk.token_to_row_1();
    desk.gives("clockstep 0", "HELD DELIVERED 2 12216");
}

#[test]
fn c15_04_what_waits_and_what_does_not() {
    let page = Network::length_for(1) + 64 + 256;
    for fault in 0..=3 {
        for (did, count, answer) in [
            (9, 0xFF, "HELD NOANSWER 936"),
            (7, 0xFF, "HELD NOANSWER 936"),
            (0, 0xFF, "HELD BROADCAST 376"),
            (0, 0x03, "HELD BROADCAST 11464"),
            (0, 0x02, "HELD MALFORMED 0"),
        ] {
            let mut desk = desk();
            desk.set(page + 1, &[did, count]);
            desk.gives(&format!("clockstep {fault}"), answer);
        }
    }
    let mut desk = desk();
    desk.write(1, 1, 0x01, 0);
    desk.gives("clockstep 0", "HELD NOTHING 0");
    desk.gives("clockstep 0", "UNANSWERED 0 936");
    desk.gives("clockstep 3", "TOKENLOST 156");
}

#[test]
fn c15_05_one_burst_whatever_the_cause() {
    let mut desk = Desk::sample();
    desk.gives("clockstep 0", "RECOVERED 2 108700");
    desk.gives("clockstep 3", "TOKENLOST 156");
    desk.gives("clockstep 0", "RECOVERED 2 108700");
    desk.gives("timer 0", "DONE");
    desk.gives("timer 1", "DONE");
    desk.gives("clockstep 0", "RECOVERED 2 108700");
    // The highest goes: 255 - 40 is 215.
    desk.write(2, 6, 0x18, 0);
    desk.gives("clockstep 0", "RECOVERED 0 342300");
    for (id, time) in [(255, 28_400), (254, 29_860), (2, 397_780), (1, 399_240)] {
        let mut desk = Desk::loaded(&[(id, 0, "A")]);
        desk.gives("clockstep 0", &format!("RECOVERED 0 {time}"));
    }
}

/// The time of a lap is the sum over its steps, with what is sent in it.
#[test]
fn c15_06_a_lap_is_the_sum_of_its_steps() {
    for (configuration, ..) in TIMES {
        for did in [40, 200, 9, 0] {
            let queued = || {
                let mut desk = Desk::sample();
                desk.configure_all(configuration);
                desk.put(1, 1, did, 0x80);
                desk.write(1, 1, 0x23, 0);
                desk
            };
            let steps = queued().tenths(256 + 2 * 3);
            queued().gives(
                "clocklap 3",
                &format!("DONE 259 {steps} 7 1 64 40 0 34 200 2 161"),
            );
        }
    }
}

/// 27,540 + idle + 1,460(255 - h) + 256(156 + response) + 276n, and later 276n.
#[test]
fn idle_laps() {
    let mut desk = Desk::sample();
    desk.gives("clocklap 3", "DONE 259 349144 7 1 64 40 0 34 200 2 161");
    assert_eq!(desk.tenths(6), 828);
    for (configuration, response, idle) in TIMES {
        for (count, highest) in [(2, 255), (2, 2), (16, 100), (60, 200)] {
            let first = highest + 1 - count;
            let records: Vec<(u8, u8, &str)> = (0..count)
                .map(|row| ((first + row) as u8, 0, "N"))
                .collect();
            let mut desk = Desk::loaded(&records);
            for row in 0..count {
                desk.write(row, 6, configuration, 0);
            }
            let n = u64::from(count);
            let priority = 1_460 * (255 - u64::from(highest));
            let lap = 27_540 + idle + priority + 256 * (156 + response) + 276 * n;
            let answer = desk.answer("clocklap 60");
            assert!(
                answer.starts_with(&format!("DONE {} {lap} ", 256 + n)),
                "{answer}"
            );
            assert_eq!(desk.tenths(2 * count as usize), 276 * n);
        }
    }
}

#[test]
fn c15_07_mixed_is_of_rows_on_line_and_comes_last() {
    let mut desk = Desk::sample();
    desk.write(0, 6, 0x28, 0);
    let before = desk.answer("sum");
    desk.gives("clockstep 4", "REFUSED 4 VALUE");
    desk.gives("clocklap 2", "REFUSED 13 ROOM");
    for line in ["clockstep 0", "clockstep 3", "clocklap 3", "clocklap 70"] {
        desk.gives(line, "REFUSED 20 MIXED");
    }
    assert_eq!(desk.answer("sum"), before);
    desk.gives("step 0", "RECOVERED 2");
    desk.gives("clocklap 3", "REFUSED 7 BUSY");
    desk.gives("clockstep 0", "REFUSED 20 MIXED");
    desk.set(6, &[1]);
    desk.gives("clockstep 4", "REFUSED 1 SHAPE");
    desk.gives("clocklap 0", "REFUSED 1 SHAPE");
    desk.set(6, &[0]);
    // Off line it does not count; nor does anyone else beside one alone.
    desk.write(0, 6, 0x08, 0);
    desk.gives("clockstep 0", "UNANSWERED 200 936");
    desk.write(1, 6, 0x10, 0);
    desk.gives("clockstep 0", "UNANSWERED 201 936");
    desk.gives("timer 2", "DONE");
    desk.gives("clocklap 0", "REFUSED 12 ALONE");
    desk.write(2, 6, 0x00, 0);
    desk.gives("clocklap 0", "REFUSED 12 ALONE");
    desk.gives("clockstep 4", "REFUSED 4 VALUE");
    desk.gives("clockstep 0", "QUIET 0");
}

#[test]
fn c15_07_clocked_calls_leave_what_plain_calls_leave() {
    let (mut plain, mut clocked) = (desk(), desk());
    for fault in [0, 1, 2, 3, 0, 0, 0] {
        let answer = plain.answer(&format!("step {fault}"));
        let timed = clocked.answer(&format!("clockstep {fault}"));
        let time = timed.strip_prefix(&answer).expect("the same answer");
        assert!(time.starts_with(' '), "{timed}");
        assert_eq!(plain.answer("sum"), clocked.answer("sum"));
    }
    for desk in [&mut plain, &mut clocked] {
        desk.put(1, 1, 40, 0xFF);
        desk.write(1, 1, 0x23, 0);
        desk.gives("timer 1", "DONE");
    }
    plain.gives("lap 3", "DONE 259 7 1 64 40 0 34 200 2 161");
    assert!(clocked.answer("clocklap 3").starts_with("DONE 259 "));
    assert_eq!(plain.answer("sum"), clocked.answer("sum"));
}

/// The setup register slows the line by up to 8; no time here asks it.
#[test]
fn c15_08_the_prescaler_is_not_asked() {
    for setup in 0..8 {
        let mut desk = Desk::sample();
        for row in 0..3 {
            desk.set(Network::length_for(row) + 7, &[setup]);
        }
        desk.gives("clocklap 3", "DONE 259 349144 7 1 64 40 0 34 200 2 161");
    }
}

/// The time is that of the packet sent: of the second where the oldest is cancelled, and of the oldest where
/// the second is or waits.
#[test]
fn two_packets_of_other_lengths() {
    // Short packets of 1 and of 253 data bytes: 376 and 11,464.
    for (oldest, second, answer) in [
        (0x80, 0x42, "HELD DELIVERED 0 11996"),
        (0x00, 0xC2, "HELD DELIVERED 0 908"),
        (0x00, 0x42, "HELD DELIVERED 0 908"),
        (0x80, 0xC2, "HELD NOTHING 0"),
    ] {
        let mut desk = Desk::sample();
        let row = Network::length_for(1);
        desk.set(row + 3, &[0x10, 0x80, 0x00, 0x78]);
        desk.set(row + 13, &[oldest, 0x40, 0x00, second]);
        desk.set(row + 64, &[0x55, 40, 0xFF]);
        desk.set(row + 64 + 512, &[0x55, 40, 0x03]);
        desk.token_to_row_1();
        desk.gives("clockstep 0", answer);
    }
}

#[test]
fn clocked_lines() {
    let mut desk = Desk::sample();
    for line in [
        "clockstep",
        "clockstep ",
        "clockstep x",
        "clockstep 0 0",
        "clockstep 4294967296",
        "clocklap",
        "clocklap 71",
        "clocklap -1",
        "clocklap 3 3",
        "clock 0",
        "Clockstep 0",
    ] {
        desk.errs(line);
    }
    desk.gives("clockstep 4294967295", "REFUSED 4 VALUE");
    desk.gives("clocklap 070", "DONE 259 349144 7 1 64 40 0 34 200 2 161");
}

#[test]
fn a_clocked_call_as_the_plain_one() {
    for (line, answer, plain, untimed) in [
        ("clockstep 0", "QUIET 0", "step 0", "QUIET"),
        ("clockstep 0", "PASSED 1 276", "step 0", "PASSED 1"),
        (
            "clockstep 1",
            "HELD UNACKNOWLEDGED 0 1500",
            "step 1",
            "HELD UNACKNOWLEDGED 0",
        ),
        (
            "clockstep 0",
            "REFUSED 20 MIXED",
            "step 0",
            "REFUSED 20 MIXED",
        ),
        (
            "clocklap 3",
            "DONE 259 349144 7 1 64",
            "lap 3",
            "DONE 259 7 1 64",
        ),
        ("clocklap 2", "REFUSED 13 ROOM", "lap 2", "REFUSED 13 ROOM"),
    ] {
        let words: Vec<&str> = line.split(' ').collect();
        let (words, told) = without_time(&words, answer).expect("it is clocked");
        assert_eq!((words.join(" ").as_str(), told.as_str()), (plain, untimed));
    }
    assert_eq!(without_time(&["step", "0"], "PASSED 1"), None);
}

/// What is seen of some lines in the sample network.
#[track_caller]
fn sees(lines: &[(&str, &str, &[&str])]) {
    let mut desk = Desk::loaded(&SAMPLE);
    let mut watch = Watch::default();
    for (line, answer, sights) in lines {
        let view = |desk: &mut Desk| desk.0.lent().network().ok().map(View::of);
        let before = view(&mut desk);
        let in_a_lap = desk.0.lent().network().map(turns).unwrap_or_default();
        desk.gives(line, answer);
        let after = view(&mut desk);
        let words: Vec<&str> = line.split(' ').collect();
        let seen = watch.sights(&words, answer, before.as_ref(), after.as_ref(), &in_a_lap);
        assert_eq!(seen, *sights, "{line}");
    }
}

#[test]
fn sights_of_times() {
    sees(&[
        (
            "clockstep 0",
            "RECOVERED 2 108700",
            &[
                "clockstep, ET 11",
                "clockstep, MYRECON in several rows",
                "clockstep, recovered ID 2 to 254",
                "clockstep, recovered row not the first",
            ],
        ),
        ("step 3", "TOKENLOST", &[]),
        (
            "clockstep 0",
            "RECOVERED 2 108700",
            &[
                "clockstep, ET 11",
                "clockstep, MYRECON in several rows",
                "clockstep, recovered ID 2 to 254",
                "clockstep, recovered after TOKENLOST",
                "clockstep, recovered row not the first",
            ],
        ),
        ("poke 1168 5528FF", "DONE", &[]),
        ("write 1 1 3", "DONE", &[]),
        ("timer 0", "DONE", &[]),
        (
            "clocklap 3",
            "DONE 259 350052 7 1 64 40 0 34 200 2 161",
            &["clocklap, ET 11", "clocklap, HELD DELIVERED"],
        ),
        ("write 1 1 3", "DONE", &[]),
        ("write 0 1 4", "DONE", &[]),
        ("poke 4 0201", "DONE", &[]),
        (
            "clockstep 2",
            "HELD UNACKNOWLEDGED 0 1500",
            &[
                "clockstep, ET 11",
                "clockstep, ET 11, ACK lost",
                "clockstep, packet of 1",
            ],
        ),
    ]);
}

#[test]
fn sights_of_mixed_times() {
    sees(&[
        ("write 2 6 48", "DONE", &[]),
        (
            "clockstep 0",
            "REFUSED 20 MIXED",
            &[
                "clockstep, mixed",
                "clockstep, mixed by ET2",
                "clockstep, mixed, the last alone",
                "clockstep, mixed in LOST",
            ],
        ),
        ("poke 6 01", "DONE", &[]),
        (
            "clockstep 0",
            "REFUSED 1 SHAPE",
            &["clockstep, mixed, not well formed"],
        ),
        ("poke 6 00", "DONE", &[]),
        ("step 0", "RECOVERED 2", &["step, mixed"]),
        ("write 2 6 16", "DONE", &[]),
        (
            "clockstep 0",
            "RECOVERED 0 342300",
            &[
                "clockstep, ET 11",
                "clockstep, MYRECON in several rows",
                "clockstep, a row without TXEN differs",
                "clockstep, recovered ID 2 to 254",
                "clockstep, recovered after the holder left",
                "clockstep, recovered with a higher ID off line",
            ],
        ),
        ("write 1 6 144", "DONE", &[]),
        (
            "clockstep 0",
            "UNANSWERED 40 936",
            &[
                "clockstep, ET 11",
                "clockstep, one on line",
                "clockstep, one on line, others differ",
            ],
        ),
    ]);
}
