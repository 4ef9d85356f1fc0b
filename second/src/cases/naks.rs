//! The fixed cases of request C-16, from its readings.

use super::{loaded, script, Script};
use crate::model::Network;

/// Configurations: B8 hex, 38 and 78.
const RESET: &str = "184";
const ON_LINE: &str = "56";
const CHAINING: &str = "120";

/// Bytes 33 and 34 of row 0.
const COUNT: &str = "peek 49 2";

/// Two rows, 5 and 6, both with RI = 1, row 0 with this configuration; two of its pages hold a packet for
/// row 1. Its POR is cleared, the first page is enabled, and a lap has brought the first NAK.
fn refused_once(configuration: &str) -> Script {
    let page = Network::length_for(0) + 64;
    let mut lines = loaded(&[5, 6], "DONE");
    lines.extend(script(&[
        (&format!("write 0 6 {RESET}"), "DONE"),
        (&format!("write 0 6 {configuration}"), "DONE"),
        (&format!("write 1 6 {RESET}"), "DONE"),
        (&format!("write 1 6 {ON_LINE}"), "DONE"),
        (&format!("poke {page} 5506FF"), "DONE"),
        (&format!("poke {} AA5506FF", page + 255), "DONE"),
        ("write 0 1 14", "DONE"), // 0E hex
        ("write 0 1 3", "DONE"),
        ("lap 2", "DONE 258 5 0 256 6 1 2"),
        (COUNT, "DONE 0100"),
        ("read 0 1", "DONE 240"), // F0 hex: all but EXCNAK and TENTID
    ]));
    lines
}

/// The token goes round, with this fault at row 0's turn, and this answer.
fn turn(fault: u32, answer: &str) -> Script {
    script(&[
        ("step 0", "HELD NOTHING"),
        ("step 0", "PASSED 0"),
        (&format!("step {fault}"), answer),
        ("step 0", "PASSED 1"),
    ])
}

fn naks(count: usize) -> Script {
    (0..count).flat_map(|_| turn(0, "HELD NAK 1")).collect()
}

/// A packet for row 1 waits, or the one that waits has its DID again, and the 128th NAK has come. The
/// diagnostic status was read then: 78 hex, with what row 0 hears in a turn.
fn refused_128_times(enable: &[(&str, &str)]) -> Script {
    let mut lines = script(&[("poke 81 06FF", "DONE")]);
    lines.extend(script(enable));
    lines.extend(script(&[("poke 49 7F", "DONE")]));
    lines.extend(naks(1));
    lines.extend(script(&[(COUNT, "DONE 8000"), ("read 0 1", "DONE 120")]));
    lines
}

/// Ends of row 0's transmit from page 0: what is poked or written before, the fault, and the answer.
const ENDS: [((&str, &str), u32, &str); 5] = [
    (("poke 82 02", "DONE"), 0, "HELD MALFORMED"),
    (("poke 81 00", "DONE"), 0, "HELD BROADCAST"),
    (("poke 81 05", "DONE"), 0, "HELD NOANSWER"), // to itself
    (("write 1 1 4", "DONE"), 0, "HELD DELIVERED 1"),
    (("write 1 1 4", "DONE"), 2, "HELD UNACKNOWLEDGED 1"),
];

const FIRST_PAGE: (&str, &str) = ("write 0 1 3", "DONE");
const SECOND_PAGE: (&str, &str) = ("write 0 1 35", "DONE");
const DISABLE: (&str, &str) = ("write 0 1 1", "DONE");

/// After a turn that took the count.
const GONE: [(&str, &str); 2] = [(COUNT, "DONE 0000"), ("read 0 1", "DONE 112")];

/// The reading C16-05: row 1, ID 7, sends to row 0, ID 40, and to row 2, ID 200.
pub fn rows_named() -> Script {
    const ENABLE: (&str, &str) = ("write 1 1 3", "DONE");
    const TO_ROW_2: (&str, &str) = ("poke 1169 C8", "DONE");
    const ROUND: [(&str, &str); 5] = [
        ("step 0", "PASSED 0"),
        ("step 0", "HELD NOTHING"),
        ("step 0", "PASSED 2"),
        ("step 0", "HELD NOTHING"),
        ("step 0", "PASSED 1"),
    ];
    let mut lines = loaded(&[40, 7, 200], "DONE");
    lines.extend(script(&[
        ("lap 3", "DONE 259 7 1 64 40 0 34 200 2 161"),
        ("poke 1168 5528FF", "DONE"),
        ENABLE,
        ("step 0", "HELD NOTHING"),
        ("step 0", "PASSED 1"),
        ("step 0", "HELD DELIVERED 0"),
        ENABLE,
    ]));
    lines.extend(script(&ROUND));
    lines.extend(script(&[("step 0", "HELD NAK 0"), TO_ROW_2]));
    lines.extend(script(&ROUND));
    lines.extend(script(&[("step 1", "HELD UNACKNOWLEDGED 2"), ENABLE]));
    lines.extend(script(&ROUND));
    lines.extend(script(&[("step 2", "HELD UNACKNOWLEDGED 2"), ENABLE]));
    lines.extend(script(&ROUND));
    lines.extend(script(&[("step 0", "HELD NAK 2")]));
    lines
}

/// The readings C16-01, 02 and 03: 127, 128 and 300 NAKs; register 1 gives EXCNAK each time; then the
/// packet is delivered.
pub fn counted() -> Script {
    let mut lines = refused_once(ON_LINE);
    lines.extend(script(&[("write 0 0 8", "DONE")])); // the mask bit of EXCNAK
    lines.extend(naks(126));
    lines.extend(script(&[
        (COUNT, "DONE 7F00"),
        ("interrupt 0", "DONE 0"),
        ("read 0 1", "DONE 112"), // 70 hex
    ]));
    lines.extend(naks(1));
    lines.extend(script(&[
        (COUNT, "DONE 8000"),
        ("interrupt 0", "DONE 1"),
        ("read 0 1", "DONE 120"), // 78 hex
        ("read 0 1", "DONE 8"),
        ("read 0 1", "DONE 8"),
        (COUNT, "DONE 8000"),
        ("interrupt 0", "DONE 1"),
        ("write 0 0 1", "DONE"), // the mask bit of TA
        ("interrupt 0", "DONE 0"),
    ]));
    lines.extend(naks(172));
    lines.extend(script(&[
        (COUNT, "DONE 8000"),
        ("read 0 1", "DONE 120"),
        ("write 1 1 4", "DONE"),
    ]));
    lines.extend(turn(0, "HELD DELIVERED 1"));
    lines.extend(script(&[(COUNT, "DONE 0000"), ("read 0 1", "DONE 112")]));
    lines
}

/// The readings C16-03 and 06: 06 and 16 leave the count; 0E and 1E take it, whatever it is and with POR
/// or without; the next NAK makes 1, and 128 more set EXCNAK again.
pub fn flags_cleared() -> Script {
    let kept = |count| [("write 0 1 6", "DONE"), ("write 0 1 22", "DONE"), count];
    let mut lines = refused_once(ON_LINE);
    lines.extend(naks(99));
    lines.extend(script(&kept((COUNT, "DONE 6400"))));
    lines.extend(script(&[("write 0 1 14", "DONE"), (COUNT, "DONE 0000")]));
    lines.extend(naks(28));
    lines.extend(script(&[(COUNT, "DONE 1C00"), ("read 0 1", "DONE 112")]));
    lines.extend(naks(100));
    lines.extend(script(&kept((COUNT, "DONE 8000"))));
    lines.extend(script(&[
        ("read 0 1", "DONE 120"),
        ("write 0 1 30", "DONE"), // 1E hex
        (COUNT, "DONE 0000"),
        ("read 0 1", "DONE 0"),
    ]));
    lines.extend(naks(1));
    lines.extend(script(&[
        (COUNT, "DONE 0100"),
        ("poke 19 90", "DONE"), // RI and POR
        ("write 0 1 14", "DONE"),
        (COUNT, "DONE 0000"),
        ("read 0 0", "DONE 128"),
    ]));
    lines
}

/// The readings C16-01 and 04: each end of a transmit, a cancel, and both resets, with EXCNAK before.
pub fn ended() -> Script {
    let cancel = (DISABLE, 0, "HELD NOTHING");
    let mut lines = refused_once(ON_LINE);
    let mut enable: &[_] = &[];
    for (before, fault, answer) in ENDS.into_iter().chain([cancel]) {
        lines.extend(refused_128_times(enable));
        lines.extend(script(&[before, (COUNT, "DONE 8000")]));
        lines.extend(turn(fault, answer));
        lines.extend(script(&GONE));
        enable = &[FIRST_PAGE];
    }
    lines.extend(refused_128_times(enable));
    lines.extend(script(&[
        (&format!("write 0 6 {RESET}"), "DONE"),
        (COUNT, "DONE 0000"),
        ("read 0 1", "DONE 0"),
        (&format!("write 0 6 {ON_LINE}"), "DONE"),
        FIRST_PAGE,
        ("poke 20 88", "DONE"), // MYRECON and EXCNAK
        ("poke 49 80", "DONE"),
        ("check", "DONE"),
        ("reset 0", "DONE"),
        (COUNT, "DONE 0000"),
        ("read 0 1", "DONE 0"),
        ("check", "DONE"),
    ]));
    lines
}

/// The reading C16-04 in a row with chaining: a second Enable leaves the count, and so does a cancel of
/// the second; what ends or cancels the oldest takes it, also where the second gets a NAK at once.
pub fn of_the_oldest() -> Script {
    let mut lines = refused_once(CHAINING);
    lines.extend(script(&[SECOND_PAGE, (COUNT, "DONE 0100")]));
    lines.extend(naks(1));
    lines.extend(script(&[DISABLE, (COUNT, "DONE 0200")]));
    lines.extend(naks(1));
    let second_moved_up = ("peek 29 4", "DONE 01000000");
    lines.extend(script(&[(COUNT, "DONE 0100"), second_moved_up]));
    lines.extend(script(&[FIRST_PAGE, ("poke 32 C0", "DONE")]));
    lines.extend(naks(2));
    lines.extend(script(&[(COUNT, "DONE 0300"), second_moved_up]));
    lines.extend(refused_128_times(&[]));
    lines.extend(script(&[FIRST_PAGE, DISABLE, DISABLE]));
    lines.extend(script(&[(COUNT, "DONE 8000")]));
    lines.extend(turn(0, "HELD NOTHING"));
    lines.extend(script(&GONE));
    for (before, fault, answer) in ENDS {
        lines.extend(refused_128_times(&[FIRST_PAGE, SECOND_PAGE]));
        lines.extend(script(&[before, (COUNT, "DONE 8000")]));
        lines.extend(turn(fault, answer));
        lines.extend(script(&GONE));
        lines.extend(naks(1));
        lines.extend(script(&[(COUNT, "DONE 0100"), second_moved_up, DISABLE]));
        lines.extend(turn(0, "HELD NOTHING"));
        lines.extend(script(&GONE));
    }
    lines
}

/// Every value of byte 33, and of byte 34 with some of them, with EXCNAK and without, with TA of either
/// value, without chaining and with it.
pub fn bytes() -> Script {
    let mut lines = loaded(&[5, 6], "DONE");
    let row = Network::length_for(1);
    let count = row + 33;
    for configuration in ["38", "78"] {
        for (ta, excnak) in [(0, 0), (0, 8), (1, 0), (1, 8)] {
            lines.extend(script(&[
                (&format!("poke {} {configuration}", row + 6), "DONE"),
                (&format!("poke {} {:02X}", row + 3, 0x10 | ta), "DONE"),
                (&format!("poke {} {:02X}", row + 4, 0x80 | excnak), "DONE"),
            ]));
            for low in 0..=255 {
                let answer = match (low, excnak, ta) {
                    (0, 0, _) | (1..=127, 0, 0) | (128, 8, 0) => "DONE",
                    _ => "REFUSED 1 SHAPE",
                };
                let poke = format!("poke {count} {low:02X}00");
                lines.extend(script(&[(&poke, "DONE"), ("check", answer)]));
            }
            for (low, high) in (1..=255).flat_map(|high| [(0, high), (127, high), (128, high)]) {
                let poke = format!("poke {count} {low:02X}{high:02X}");
                lines.extend(script(&[(&poke, "DONE"), ("check", "REFUSED 1 SHAPE")]));
            }
            lines.extend(script(&[(&format!("poke {count} 0000"), "DONE")]));
        }
    }
    lines
}
