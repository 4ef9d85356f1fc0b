//! The fixed cases of request C-15, from its readings.

use super::{loaded, script, Script};
use crate::model::Network;

/// Configurations of rows on line, for (ET2, ET1) = 11, 10, 01 and 00, with their response and idle times.
const TIMES: [(u8, u64, u64); 4] = [
    (0x38, 780, 860),
    (0x28, 2_850, 3_160),
    (0x30, 5_630, 6_240),
    (0x20, 11_300, 12_370),
];

/// The IDs of rows 0, 1 and 2.
const IDS: [u8; 3] = [40, 7, 200];

/// The lap of these, and its time where nothing is sent and ET is 11.
const LAP: &str = "7 1 64 40 0 34 200 2 161";
const IDLE_LAP: u64 = 349_144;

/// Row 1 has been passed the token, and its page 0 is enabled.
const ENABLE: (&str, &str) = ("write 1 1 3", "DONE");
const TOKEN: (&str, &str) = ("poke 4 0201", "DONE");

/// Page 0 of row 1 gets a packet for row 0 of one data byte.
const FOR_ROW_0: (&str, &str) = ("poke 1168 5528FF", "DONE");

/// Row 0 receives.
const RECEIVE: (&str, &str) = ("write 0 1 4", "DONE");

/// The turn of row 1 with a packet in its page 0.
fn turn(before: &[(&str, &str)], fault: u32, answer: &str) -> Script {
    let mut lines = script(before);
    lines.extend(script(&[
        ENABLE,
        TOKEN,
        (&format!("clockstep {fault}"), answer),
    ]));
    lines
}

/// The readings C15-02, 03 and 04: each answer at ET 11, packets of one data byte.
pub fn answers() -> Script {
    let mut lines = loaded(&IDS, "DONE");
    lines.extend(script(&[
        ("clockstep 0", "RECOVERED 2 108700"),
        ("clockstep 0", "UNANSWERED 200 936"),
        ("clockstep 3", "TOKENLOST 156"),
        ("lap 3", &format!("DONE 259 {LAP}")),
        ("clockstep 0", "HELD NOTHING 0"),
        ("clockstep 0", "PASSED 1 276"),
    ]));
    lines.extend(turn(&[FOR_ROW_0], 0, "HELD DELIVERED 0 908"));
    lines.extend(turn(&[], 0, "HELD NAK 0 344"));
    let cancel = [("write 1 1 1", "DONE"), TOKEN];
    lines.extend(script(&cancel));
    lines.extend(script(&[("clockstep 0", "HELD NOTHING 0"), RECEIVE]));
    for fault in [1, 2] {
        lines.extend(turn(&[], fault, "HELD UNACKNOWLEDGED 0 1500"));
    }
    for (did, answer) in [
        ("09", "HELD NOANSWER 936"),
        ("07", "HELD NOANSWER 936"), // to itself
        ("00", "HELD BROADCAST 376"),
    ] {
        for fault in 0..=3 {
            let to = format!("poke 1169 {did}");
            lines.extend(turn(&[(&to, "DONE")], fault, answer));
        }
    }
    lines.extend(turn(&[("poke 1170 02", "DONE")], 0, "HELD MALFORMED 0"));
    for row in 0..3 {
        lines.extend(script(&[(&format!("write {row} 6 24"), "DONE")])); // TXEN 0
    }
    lines.extend(script(&[("clockstep 3", "QUIET 0")]));
    lines
}

/// The reading C15-01: what depends on the response time and on the idle time, by ET2 and ET1; bit 4 alone
/// is 01. And an idle lap by the formula for it.
pub fn four_rows_of_times() -> Script {
    let mut lines = loaded(&IDS, "DONE");
    for (configuration, response, idle) in TIMES {
        for row in 0..3 {
            let write = format!("write {row} 6 {configuration}");
            lines.extend(script(&[(&write, "DONE")]));
        }
        let recovery = 27_540 + idle + 1_460 * 55;
        let lap = recovery + 256 * (156 + response) + 3 * 276;
        lines.extend(script(&[
            ("timer 0", "DONE"),
            ("clockstep 0", &format!("RECOVERED 2 {recovery}")),
            ("clockstep 0", &format!("UNANSWERED 200 {}", 156 + response)),
            ("timer 0", "DONE"),
            ("clocklap 3", &format!("DONE 259 {lap} {LAP}")),
            ("clockstep 0", "HELD NOTHING 0"),
            ("clockstep 0", "PASSED 1 276"),
        ]));
        let unheard = format!("HELD UNACKNOWLEDGED 0 {}", 720 + response);
        let unanswered = format!("HELD NOANSWER {}", 156 + response);
        lines.extend(turn(&[FOR_ROW_0], 1, &unheard));
        lines.extend(turn(&[("poke 1169 09", "DONE")], 0, &unanswered));
        // Damaged, so that row 0 still receives.
        lines.extend(turn(&[("poke 1169 00", "DONE")], 1, "HELD BROADCAST 376"));
    }
    lines
}

/// Packets by their data bytes, short and long: to all, to row 2, which takes long ones, and to row 0,
/// which does not.
pub fn packets() -> Script {
    const SHORT: [(&str, u64); 4] = [
        ("FF", 376), // 1 data byte
        ("FE", 420),
        ("04", 11_420),
        ("03", 11_464), // 253
    ];
    const LONG: [(&str, u64); 4] = [
        ("00FF", 11_684), // 257
        ("00FE", 11_728),
        ("0005", 22_684),
        ("0004", 22_728), // 508
    ];
    let long = |row: usize| format!("poke {} 01", Network::length_for(row) + 15);
    let mut lines = loaded(&IDS, "DONE");
    lines.extend(script(&[(&long(1), "DONE"), (&long(2), "DONE")]));
    for (count, time) in SHORT.into_iter().chain(LONG) {
        let [to_all, to_row_2, to_row_0] =
            ["00", "C8", "28"].map(|did| format!("poke 1168 55{did}{count}"));
        let broadcast = format!("HELD BROADCAST {time}");
        let delivered = |row: usize| format!("HELD DELIVERED {row} {}", 532 + time);
        // Damaged, so that nobody stores it.
        lines.extend(turn(&[(&to_all, "DONE")], 1, &broadcast));
        lines.extend(turn(&[(&to_row_2, "DONE")], 0, &delivered(2)));
        lines.extend(script(&[("write 2 1 4", "DONE")]));
        if SHORT.contains(&(count, time)) {
            lines.extend(turn(&[(&to_row_0, "DONE")], 0, &delivered(0)));
            lines.extend(script(&[RECEIVE]));
        } else {
            let not_stored = format!("HELD UNACKNOWLEDGED 0 {}", 1_124 + time);
            lines.extend(turn(&[(&to_row_0, "DONE")], 0, &not_stored));
        }
    }
    lines
}

/// The reading C15-05: a burst, the idle time and what the recovered row's ID makes, after all rows came
/// on line, a destroyed invitation, a timer, and rows that left or came back.
pub fn recoveries() -> Script {
    let mut lines = loaded(&IDS, "DONE");
    lines.extend(script(&[
        ("clockstep 0", "RECOVERED 2 108700"),
        ("clockstep 3", "TOKENLOST 156"),
        ("clockstep 0", "RECOVERED 2 108700"),
        ("timer 0", "DONE"),
        ("clockstep 3", "RECOVERED 2 108700"),
        ("write 0 6 24", "DONE"), // 18 hex: TXEN 0
        ("write 1 6 24", "DONE"),
        ("write 0 6 56", "DONE"),
        ("write 1 6 56", "DONE"),
        ("clockstep 1", "RECOVERED 2 108700"),
        ("write 2 6 24", "DONE"),
        ("clockstep 2", "RECOVERED 0 342300"),
        ("write 0 6 24", "DONE"),
        ("clockstep 0", "RECOVERED 1 390480"),
    ]));
    for (id, answer) in [("FF", "28400"), ("FE", "29860"), ("01", "399240")] {
        lines.extend(script(&[
            ("timer 1", "DONE"),
            (&format!("poke 1106 {id}"), "DONE"),
            ("clockstep 0", &format!("RECOVERED 1 {answer}")),
        ]));
    }
    lines
}

/// A lap takes what its steps take: an idle one, one with a packet, and the steps of the second one by one.
pub fn laps() -> Script {
    let mut lines = loaded(&IDS, "DONE");
    let with_packet = IDLE_LAP + 908;
    lines.extend(script(&[
        ("clocklap 3", &format!("DONE 259 {IDLE_LAP} {LAP}")),
        FOR_ROW_0,
        ENABLE,
        ("timer 0", "DONE"),
        ("clocklap 70", &format!("DONE 259 {with_packet} {LAP}")),
    ]));
    lines.extend(loaded(&IDS, "DONE"));
    lines.extend(script(&[FOR_ROW_0, ENABLE]));
    let mut steps = vec!["RECOVERED 2 108700".to_string()];
    let unanswered = |id: u8| format!("UNANSWERED {id} 936");
    steps.extend((200..=255).chain(0..7).map(unanswered));
    steps.extend(["PASSED 1 276", "HELD DELIVERED 0 908"].map(str::to_string));
    steps.extend((7..40).map(unanswered));
    steps.extend(["PASSED 0 276", "HELD NOTHING 0"].map(str::to_string));
    steps.extend((40..200).map(unanswered));
    steps.push("PASSED 2 276".to_string());
    let time = |step: &String| step.rsplit(' ').next()?.parse::<u64>().ok();
    let sum: u64 = steps.iter().filter_map(time).sum();
    assert_eq!(sum, with_packet, "the steps written down here");
    // The later lap, 828 in all.
    for row in [1, 0, 2] {
        steps.push("HELD NOTHING 0".to_string());
        steps.push(format!("PASSED {row} 276"));
    }
    lines.extend(
        steps
            .into_iter()
            .map(|step| ("clockstep 0".to_string(), step)),
    );
    lines
}

/// The reading C15-07: MIXED is only for rows on line, only in clocked calls, and after all else.
pub fn mixed() -> Script {
    const MIXED: &str = "REFUSED 20 MIXED";
    let mut lines = loaded(&IDS, "DONE");
    lines.extend(each_row_differs(MIXED));
    lines.extend(script(&[
        ("write 1 6 48", "DONE"), // 30 hex
        ("clockstep 0", MIXED),
        ("clockstep 4", "REFUSED 4 VALUE"),
        ("clocklap 3", MIXED),
        ("clocklap 2", "REFUSED 13 ROOM"),
        ("poke 6 01", "DONE"),
        ("clockstep 4", "REFUSED 1 SHAPE"),
        ("clocklap 2", "REFUSED 1 SHAPE"),
        ("poke 6 00", "DONE"),
        ("peek 4 2", "DONE 0000"),
        ("step 0", "RECOVERED 2"),
        ("clockstep 0", MIXED),
        ("clocklap 2", "REFUSED 7 BUSY"),
        ("timer 0", "DONE"),
        ("lap 3", &format!("DONE 259 {LAP}")),
        ("clockstep 3", MIXED),
        ("peek 4 2", "DONE 0202"),
        // Off line it does not count: without TXEN, in RESET, without an ID.
        ("write 1 6 16", "DONE"),
        ("clockstep 0", "HELD NOTHING 0"),
        ("timer 2", "DONE"),
        ("clocklap 2", "DONE 258 348868 40 0 97 200 2 161"),
        ("write 1 6 176", "DONE"), // B0 hex
        ("clockstep 0", "HELD NOTHING 0"),
        ("poke 1106 00", "DONE"),
        ("poke 1110 30", "DONE"),
        ("clockstep 0", "PASSED 0 276"),
        // One on line, and none.
        ("write 0 6 24", "DONE"),
        ("timer 2", "DONE"),
        ("clocklap 0", "REFUSED 12 ALONE"),
        ("clockstep 0", "RECOVERED 2 108700"),
        ("write 2 6 40", "DONE"), // 28 hex
        ("clockstep 0", "UNANSWERED 200 3006"),
        ("write 2 6 8", "DONE"),
        ("clocklap 0", "REFUSED 12 ALONE"),
        ("clockstep 4", "REFUSED 4 VALUE"),
        ("clockstep 0", "QUIET 0"),
    ]));
    lines
}

/// Each row in each other way, and as the others again.
fn each_row_differs(answer: &str) -> Script {
    let mut lines = Script::new();
    for row in 0..3 {
        for (configuration, ..) in &TIMES[1..] {
            lines.extend(script(&[
                (&format!("write {row} 6 {configuration}"), "DONE"),
                ("clockstep 0", answer),
                ("clocklap 3", answer),
            ]));
        }
        lines.extend(script(&[(&format!("write {row} 6 56"), "DONE")]));
    }
    lines
}
