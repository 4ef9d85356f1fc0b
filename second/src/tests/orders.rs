//! Request C-12: a test for each of its readings C12-01 to C12-05, every byte that makes a record bad,
//! and what the sights say of an order.

use super::{order, Desk};
use crate::cases::order_line;
use crate::model::{Network, MOST_ROWS};
use crate::order::{ORDER_MARK, RECORD};
use crate::prompt::{hex_text, Prompt};
use crate::sights::orders;

/// What can be wrong with a record, by its refusal, in the order in which it is tested.
const REASONS: [&str; 5] = ["15 MARK", "16 ORDER-ID", "17 FLAGS", "18 NAME", "19 TWICE"];

/// A line for records with the IDs 1, 2 and so on, each bad for these reasons; TWICE has the first's.
fn load(records: &[&[&str]]) -> String {
    let mut order = Vec::new();
    for (id, reasons) in (1..).zip(records) {
        let mut record = [0; RECORD];
        record[..2].copy_from_slice(&ORDER_MARK);
        record[2] = id;
        record[4..].copy_from_slice(b"NODE        ");
        for reason in *reasons {
            match *reason {
                "15 MARK" => record[1] = 0x53,
                "16 ORDER-ID" => record[2] = 0,
                "17 FLAGS" => record[3] = 4,
                "18 NAME" => record[4] = b' ',
                "19 TWICE" => record[2] = 1,
                other => panic!("{other} is no reason"),
            }
        }
        order.extend(record);
    }
    format!("load {}", hex_text(&order))
}

/// A desk that is lent the bytes of so many rows.
fn desk(rows: usize) -> Desk {
    let mut desk = Desk(Prompt::new());
    desk.gives(&format!("size {}", Network::length_for(rows)), "DONE");
    desk
}

#[test]
fn c12_01_record_by_record() {
    let mut desk = desk(3);
    for reason in REASONS {
        for behind in REASONS {
            let line = load(&[&[], &[reason], &[behind]]);
            desk.gives(&line, &format!("REFUSED {reason} 2"));
        }
    }
}

#[test]
fn c12_02_twice_is_the_later() {
    let mut desk = desk(4);
    for (ids, answer) in [
        ([0, 7, 0, 8], "REFUSED 16 ORDER-ID 1"),
        ([7, 0, 0, 8], "REFUSED 16 ORDER-ID 2"),
        ([7, 8, 9, 7], "REFUSED 19 TWICE 4"),
        ([9, 7, 7, 8], "REFUSED 19 TWICE 3"),
        ([7, 7, 7, 7], "REFUSED 19 TWICE 2"),
        // The pair within comes to its end first.
        ([7, 8, 8, 7], "REFUSED 19 TWICE 3"),
        ([7, 8, 7, 8], "REFUSED 19 TWICE 3"),
        ([7, 8, 9, 6], "DONE"),
    ] {
        desk.gives(&order_line(&ids), answer);
    }
}

#[test]
fn c12_03_length_and_others_name_no_record() {
    let mut desk = desk(1);
    let good = load(&[&[]]);
    desk.gives("load", "REFUSED 14 LENGTH");
    desk.gives("load 4F", "REFUSED 14 LENGTH");
    desk.gives(&good[..good.len() - 2], "REFUSED 14 LENGTH");
    desk.gives(&format!("{good}20"), "REFUSED 14 LENGTH");
    let many = [[].as_slice(); MOST_ROWS + 1];
    desk.gives(&load(&many), "REFUSED 14 LENGTH");
    desk.gives(&load(&many[..MOST_ROWS]), "REFUSED 13 ROOM");
    desk.gives(&good, "DONE");
    desk.gives("lap 1", "REFUSED 12 ALONE");
}

#[test]
fn c12_04_all_before_room() {
    let mut desk = Desk(Prompt::new());
    desk.gives("size 5", "DONE");
    desk.gives(&load(&[&["15 MARK"]]), "REFUSED 15 MARK 1");
    for reason in REASONS {
        let bad = load(&[&[], &[reason]]);
        desk.gives(&bad, &format!("REFUSED {reason} 2"));
        desk.gives(&format!("{bad}00"), "REFUSED 14 LENGTH");
    }
    desk.gives(&load(&[&[], &[]]), "REFUSED 13 ROOM");
}

#[test]
fn c12_05_first_reason_of_a_record() {
    let mut desk = desk(2);
    desk.gives(
        &load(&[&["16 ORDER-ID", "17 FLAGS"]]),
        "REFUSED 16 ORDER-ID 1",
    );
    for (place, first) in REASONS.iter().enumerate() {
        for other in &REASONS[place + 1..] {
            // No record is without an ID and alike to a good one.
            if (*first, *other) != ("16 ORDER-ID", "19 TWICE") {
                let line = load(&[&[], &[first, other]]);
                desk.gives(&line, &format!("REFUSED {first} 2"));
            }
        }
    }
    desk.gives(&load(&[&[], &REASONS[2..]]), "REFUSED 17 FLAGS 2");
}

/// Each byte of a record, with each of its values.
#[test]
fn bytes_of_a_record() {
    let good = order(&[(7, 3, "A B ~")]);
    let mut desk = desk(1);
    for byte in 0..RECORD {
        for value in 0..=255_u8 {
            let refused = match byte {
                0 => (value != 0x4F).then_some("15 MARK"),
                1 => (value != 0x52).then_some("15 MARK"),
                2 => (value == 0).then_some("16 ORDER-ID"),
                3 => (value > 3).then_some("17 FLAGS"),
                4 => (!(0x21..=0x7E).contains(&value)).then_some("18 NAME"),
                _ => (!(0x20..=0x7E).contains(&value)).then_some("18 NAME"),
            };
            let answer = refused.map_or("DONE".to_string(), |name| format!("REFUSED {name} 1"));
            let mut changed = good.clone();
            changed.replace_range(2 * byte..2 * byte + 2, &hex_text(&[value]));
            desk.gives(&format!("load {changed}"), &answer);
        }
    }
}

/// Whatever is lent: a network, one that is not well formed, or bytes of another length.
#[test]
fn a_refusal_changes_nothing() {
    let mut lines: Vec<String> = REASONS
        .iter()
        .map(|name| load(&[&[], &[name], &[]]))
        .collect();
    lines.extend(["load".to_string(), load(&[&[]]), load(&[&[]]) + "00"]);
    for (at, length) in [(100, 3280), (0, 3280), (0, 3279), (0, 5)] {
        let mut desk = Desk::sample();
        desk.set(at, &[0xA5]);
        desk.gives(&format!("size {length}"), "DONE");
        let before = desk.0.lent().image().to_vec();
        for line in &lines {
            assert!(desk.answer(line).starts_with("REFUSED 1"), "{line}");
            assert_eq!(desk.0.lent().image(), before, "{line}");
        }
    }
}

/// The sights of a line with the bytes of so many rows lent, without their first word.
#[track_caller]
fn seen(line: &str, rows: usize, expected: &[&str]) {
    let words: Vec<&str> = line.split(' ').collect();
    let sights = orders::sights(&words, Network::length_for(rows));
    let what = sights.iter().map(|sight| sight.replacen("load, ", "", 1));
    assert_eq!(what.collect::<Vec<_>>(), expected);
}

#[test]
fn sights_of_a_bad_record() {
    let flags = load(&[&[], &["17 FLAGS"], &[]]);
    seen(&flags, 3, &["a record between", "no other bad record"]);
    let mark_behind = load(&[&[], &["19 TWICE"], &["15 MARK"]]);
    let expected = ["a record between", "MARK behind it", "wrong room"];
    seen(&mark_behind, 2, &expected);
    let name_too = load(&[&["15 MARK", "18 NAME"]]);
    let expected = ["the first record", "no other bad record", "NAME in it too"];
    seen(&name_too, 1, &expected);
    seen(
        &order_line(&[7, 8, 8, 7]),
        4,
        &[
            "a record between",
            "TWICE behind it",
            "a pair within a pair",
        ],
    );
    seen(
        &order_line(&[7, 7, 7]),
        3,
        &["a record between", "TWICE behind it", "three of one ID"],
    );
    let last = ["the last record", "no other bad record"];
    seen(&order_line(&[7, 8, 7]), 3, &last);
}

#[test]
fn sights_of_a_length() {
    seen("load", 0, &["no record"]);
    let part = load(&[&["15 MARK"]]) + "00";
    seen(
        &part,
        2,
        &["part of a record", "a bad record too", "wrong room"],
    );
    let many = [[].as_slice(); MOST_ROWS + 1];
    seen(&load(&many), MOST_ROWS + 1, &["above 60 records"]);
}

#[test]
fn no_sights_of_a_good_order() {
    let good = load(&[&[], &[], &[]]);
    seen(&good, 3, &[]);
    seen(&good, 2, &[]);
    seen(&format!("{good}0"), 3, &[]);
    seen("check", 3, &[]);
}
