//! Rows in another order, request C-24: what is renamed, worked out by hand, and that a bench whose
//! answers depend on where a row stands is found.

use std::io;

use super::{Desk, SAMPLE};
use crate::comparison::Comparison;
use crate::peer::{InProcess, Peer};
use crate::scenes::Player;
use crate::shuffle::Shuffle;

/// MIXER goes to row 2, SCALE to row 0, DRYER to row 1.
fn shuffle() -> Shuffle {
    Shuffle::to(&[2, 0, 1])
}

#[test]
fn a_called_row_is_renamed() {
    for (line, renamed) in [
        ("read 0 6", "read 2 6"),
        ("write 1 4 200", "write 0 4 200"),
        ("reset 2", "reset 1"),
        ("timer 0", "timer 2"),
        ("interrupt 1", "interrupt 0"),
        ("data 2 3", "data 1 3"),
        // Past the rows.
        ("read 3 0", "read 3 0"),
        ("reset 4294967295", "reset 4294967295"),
        // A fault and a room are no rows.
        ("step 1", "step 1"),
        ("lap 2", "lap 2"),
        ("check", "check"),
        // The first and the last byte of a row: 16 + 1,088 x 2 and 16 + 1,088 - 1.
        ("poke 16 4E", "poke 2192 4E"),
        ("poke 2191 00", "poke 1103 00"),
    ] {
        assert_eq!(shuffle().line(line), renamed);
    }
}

#[test]
fn a_row_that_is_told_is_renamed() {
    for (line, answer, renamed) in [
        ("step 0", "RECOVERED 2", "RECOVERED 1"),
        ("step 0", "PASSED 1", "PASSED 0"),
        ("step 0", "UNANSWERED 1", "UNANSWERED 1"),
        ("step 0", "HELD NAK 0", "HELD NAK 2"),
        ("step 0", "HELD DELIVERED 1", "HELD DELIVERED 0"),
        ("step 2", "HELD UNACKNOWLEDGED 2", "HELD UNACKNOWLEDGED 1"),
        ("step 0", "HELD NOTHING", "HELD NOTHING"),
        ("step 4", "REFUSED 4 VALUE", "REFUSED 4 VALUE"),
        ("read 1 2", "DONE 1", "DONE 1"),
        ("interrupt 1", "DONE 1", "DONE 1"),
        ("data 1 0", "DONE 00", "DONE 00"),
        (
            "lap 3",
            "DONE 259 7 1 64 40 0 34 200 2 161",
            "DONE 259 7 0 64 40 2 34 200 1 161",
        ),
        ("lap 2", "REFUSED 13 ROOM", "REFUSED 13 ROOM"),
    ] {
        assert_eq!(shuffle().answer(line, answer), renamed);
    }
}

#[test]
fn rows_move_whole_and_the_holder_is_renamed() {
    let moved = [SAMPLE[1], SAMPLE[2], SAMPLE[0]];
    let (mut first, mut second) = (Desk::sample(), Desk::loaded(&moved));
    // In LOST byte 5 stays 0; then DRYER holds.
    first.header(0, 0);
    second.header(0, 0);
    in_that_order(&mut first, &mut second);
    first.gives("step 0", "RECOVERED 2");
    second.gives("step 0", "RECOVERED 1");
    first.header(1, 2);
    second.header(1, 1);
    in_that_order(&mut first, &mut second);
}

/// The second network is the first in that order, by its bytes and as a `peek` tells them.
#[track_caller]
fn in_that_order(first: &mut Desk, second: &mut Desk) {
    let image = first.0.lent().image().to_vec();
    assert_eq!(shuffle().network(&image), second.0.lent().image());
    let whole = format!("peek 0 {}", image.len());
    let renamed = shuffle().answer(&whole, &first.answer(&whole));
    assert_eq!(renamed, second.answer(&whole));
}

/// `scripts/rows-moved` is `scripts/rows` with rows renamed: each line but the order, and each answer.
#[test]
fn the_scripts_of_rows_differ_in_the_numbers_of_rows() {
    let shuffle = Shuffle::to(&[2, 0, 3, 1]);
    let first = exchanges(include_str!("../../../scripts/rows.out"));
    let second = exchanges(include_str!("../../../scripts/rows-moved.out"));
    assert_eq!(first.len(), second.len());
    for ((line, answer), (moved, renamed)) in first.into_iter().zip(second) {
        if !line.starts_with("load ") {
            assert_eq!(shuffle.line(line), moved);
        }
        assert_eq!(shuffle.answer(line, answer), renamed);
    }
}

/// The lines that a script sends, each with its answer.
fn exchanges(text: &str) -> Vec<(&str, &str)> {
    let lines: Vec<&str> = text.lines().collect();
    lines
        .windows(2)
        .filter_map(|pair| Some((pair[0].strip_prefix("> ")?, pair[1])))
        .collect()
}

/// The prompt of this program, with one answer changed.
struct Wrong {
    prompt: InProcess,
    answer: fn(&str) -> String,
}

impl Peer for Wrong {
    fn send(&mut self, lines: Vec<u8>) -> io::Result<()> {
        self.prompt.send(lines)
    }

    fn receive(&mut self) -> io::Result<String> {
        Ok((self.answer)(&self.prompt.receive()?))
    }

    fn rest(&mut self) -> io::Result<String> {
        self.prompt.rest()
    }
}

fn played(answer: fn(&str) -> String) -> Result<(), String> {
    let mut peer = Wrong {
        prompt: InProcess::new(),
        answer,
    };
    Player::new(Comparison::unjudged(&mut peer), 1).play_shuffled(5_000)
}

#[test]
fn an_answer_that_depends_on_the_place_of_a_row_is_found() {
    assert_eq!(played(str::to_string), Ok(()));
    let answers: [fn(&str) -> String; 5] = [
        |answer| answer.replace("RECOVERED 0", "RECOVERED 1"),
        |answer| answer.replace("PASSED 1", "PASSED 0"),
        |answer| answer.replace("HELD NAK 0", "HELD NAK 1"),
        |answer| answer.replace("HELD DELIVERED 1", "HELD DELIVERED 0"),
        |answer| answer.replace("HELD UNACKNOWLEDGED 0", "HELD UNACKNOWLEDGED 1"),
    ];
    for answer in answers {
        let found = played(answer).expect_err("it depends on the place");
        assert!(found.contains("in another order (row "), "{found}");
    }
}

/// Another answer that is the same wherever the rows stand is none of this scene's business.
#[test]
fn an_answer_that_is_wrong_in_every_order_alike_is_not() {
    let deaf = |answer: &str| match answer.strip_prefix("HELD DELIVERED ") {
        Some(_) => "HELD NOANSWER".to_string(),
        None => answer.to_string(),
    };
    assert_eq!(played(deaf), Ok(()));
}
