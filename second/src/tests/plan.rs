//! What `plan` prints for an order, request C-15, worked out by hand.

use super::{order, SAMPLE};
use crate::order::RECORD;
use crate::plan::text;
use crate::prompt::from_hex;

fn form(records: &[(u8, u8, &str)]) -> Vec<u8> {
    from_hex(order(records).as_bytes()).expect("an order in hex")
}

/// What is printed, with a line end behind each line.
#[track_caller]
fn prints(order: &[u8], lines: &[&str]) {
    let expected: String = lines.iter().flat_map(|line| [line, "\n"]).collect();
    assert_eq!(text(order), expected);
}

#[test]
fn three_stations() {
    prints(
        &form(&SAMPLE),
        &[
            "PLAN 3 NODES",
            "RECOVERY LAP 34.9144 MS",
            "LATER LAP 0.0828 MS",
            "FULL LAP 3.6816 MS",
        ],
    );
}

/// The highest ID is 2, so that the recovery takes longest; and 255, which takes shortest.
#[test]
fn two_stations() {
    let later = ["LATER LAP 0.0552 MS", "FULL LAP 2.4544 MS"];
    for (records, recovery) in [
        ([(1, 0, "A"), (2, 0, "B")], "RECOVERY LAP 63.7948 MS"),
        ([(255, 0, "A"), (1, 1, "B")], "RECOVERY LAP 26.8568 MS"),
    ] {
        let lines = ["PLAN 2 NODES", recovery, later[0], later[1]];
        prints(&form(&records), &lines);
    }
}

/// 60 times 12,272, or 23,536 with long packets.
#[test]
fn sixty_stations() {
    for (flags, full) in [
        (0, "FULL LAP 73.6320 MS"),
        (1, "FULL LAP 73.6320 MS"),
        (2, "FULL LAP 141.2160 MS"),
        (3, "FULL LAP 141.2160 MS"),
    ] {
        let records: Vec<(u8, u8, &str)> = (196..=255).map(|id| (id, flags, "N")).collect();
        prints(
            &form(&records),
            &[
                "PLAN 60 NODES",
                "RECOVERY LAP 28.4576 MS",
                "LATER LAP 1.6560 MS",
                full,
            ],
        );
    }
}

/// Each by its own flag, whoever the packet is for: two long ones and three short ones.
#[test]
fn mixed_flags() {
    let records = [
        (255, 0, "OVEN"),
        (1, 3, "PRESS 1"),
        (128, 2, "PRESS 2"),
        (127, 1, "CRANE"),
        (9, 0, "HOIST"),
    ];
    prints(
        &form(&records),
        &[
            "PLAN 5 NODES",
            "RECOVERY LAP 26.9396 MS",
            "LATER LAP 0.1380 MS",
            "FULL LAP 8.3888 MS",
        ],
    );
}

#[test]
fn full_laps_by_their_formula() {
    for records in 2..=60 {
        let flags = |id: u8| id % 4;
        let stations: Vec<(u8, u8, &str)> = (1..=records)
            .map(|row| 4 * row)
            .map(|id| (id, flags(id / 4), "N"))
            .collect();
        let full: u64 = (1..=records)
            .map(|row| match flags(row) & 2 {
                0 => 808 + 24 + 44 * (253 + 7),
                _ => 808 + 24 + 44 * (508 + 8),
            })
            .sum();
        let printed = text(&form(&stations));
        let line = format!("FULL LAP {}.{:04} MS", full / 10_000, full % 10_000);
        assert_eq!(printed.lines().last(), Some(line.as_str()));
        assert_eq!(printed.lines().count(), 4);
    }
}

#[test]
fn refusals() {
    let good = form(&SAMPLE);
    let with = |byte: usize, value: u8| {
        let mut order = good.clone();
        order[2 * RECORD + byte] = value;
        order
    };
    prints(&[], &["REFUSED 14"]);
    prints(&good[..47], &["REFUSED 14"]);
    prints(&[good.as_slice(), b"\n"].concat(), &["REFUSED 14"]);
    prints(&with(0, 0x4E), &["REFUSED 15 3"]);
    prints(&with(2, 0), &["REFUSED 16 3"]);
    prints(&with(3, 4), &["REFUSED 17 3"]);
    prints(&with(4, b' '), &["REFUSED 18 3"]);
    prints(&with(2, 7), &["REFUSED 19 3"]);
    prints(&good[..RECORD], &["REFUSED 12"]);
    let records: Vec<(u8, u8, &str)> = (1..=61).map(|id| (id, 0, "N")).collect();
    prints(&form(&records), &["REFUSED 14"]);
}
