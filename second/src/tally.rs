//! How often each answer came, and which of those that can come did not.

use std::collections::BTreeMap;

use crate::comparison::Heard;
use crate::sights::{self, fetched, naks, named};

/// The words of the prompt that are compared, each with the answers it can give.
const ANSWERS: [(&str, &[&str]); 15] = [
    ("size", &["DONE", "ERROR"]),
    ("poke", &["DONE", "ERROR"]),
    ("peek", &["DONE", "ERROR"]),
    ("sum", &["DONE", "ERROR"]),
    ("check", &["DONE", "REFUSED 1 SHAPE", "ERROR"]),
    (
        "fresh",
        &["DONE", "REFUSED 4 VALUE", "REFUSED 13 ROOM", "ERROR"],
    ),
    (
        "load",
        &[
            "DONE",
            "REFUSED 13 ROOM",
            "REFUSED 14 LENGTH",
            "REFUSED 15 MARK",
            "REFUSED 16 ORDER-ID",
            "REFUSED 17 FLAGS",
            "REFUSED 18 NAME",
            "REFUSED 19 TWICE",
            "ERROR",
        ],
    ),
    (
        "read",
        &[
            "DONE",
            "REFUSED 1 SHAPE",
            "REFUSED 2 ROW",
            "REFUSED 3 REGISTER",
            "REFUSED 6 DIRECTION",
            "ERROR",
        ],
    ),
    (
        "write",
        &[
            "DONE",
            "REFUSED 1 SHAPE",
            "REFUSED 2 ROW",
            "REFUSED 3 REGISTER",
            "REFUSED 4 VALUE",
            "REFUSED 5 NOTREADY",
            "REFUSED 6 DIRECTION",
            "REFUSED 7 BUSY",
            "REFUSED 8 ONLINE",
            "REFUSED 9 PAGE",
            "REFUSED 10 DUPLICATE",
            "ERROR",
        ],
    ),
    (
        "reset",
        &["DONE", "REFUSED 1 SHAPE", "REFUSED 2 ROW", "ERROR"],
    ),
    (
        "timer",
        &[
            "DONE",
            "REFUSED 1 SHAPE",
            "REFUSED 2 ROW",
            "REFUSED 5 NOTREADY",
            "ERROR",
        ],
    ),
    (
        "interrupt",
        &[
            "DONE 0",
            "DONE 1",
            "REFUSED 1 SHAPE",
            "REFUSED 2 ROW",
            "ERROR",
        ],
    ),
    (
        "step",
        &[
            "QUIET",
            "RECOVERED",
            "PASSED",
            "UNANSWERED",
            "TOKENLOST",
            "HELD NOTHING",
            "HELD MALFORMED",
            "HELD BROADCAST",
            "HELD NOANSWER",
            "HELD NAK",
            "HELD DELIVERED",
            "HELD UNACKNOWLEDGED",
            "REFUSED 1 SHAPE",
            "REFUSED 4 VALUE",
            "ERROR",
        ],
    ),
    (
        "data",
        &[
            "DONE",
            "REFUSED 1 SHAPE",
            "REFUSED 2 ROW",
            "REFUSED 4 VALUE",
            "ERROR",
        ],
    ),
    (
        "lap",
        &[
            "DONE",
            "REFUSED 1 SHAPE",
            "REFUSED 7 BUSY",
            "REFUSED 12 ALONE",
            "REFUSED 13 ROOM",
            "ERROR",
        ],
    ),
];

/// The same, of a step by its fault.
const FAULT_ANSWERS: [(&str, &[&str]); 5] = [
    (
        "0",
        &[
            "QUIET",
            "RECOVERED",
            "PASSED",
            "UNANSWERED",
            "HELD DELIVERED",
        ],
    ),
    ("1", &["QUIET", "RECOVERED", "PASSED", "UNANSWERED"]),
    ("2", &["QUIET", "RECOVERED", "PASSED", "UNANSWERED"]),
    ("3", &["QUIET", "RECOVERED", "TOKENLOST", "HELD DELIVERED"]),
    ("above 3", &["REFUSED 1 SHAPE", "REFUSED 4 VALUE"]),
];

/// Outcomes that come with every fault from 0 to 3.
const ANY_FAULT: [&str; 6] = [
    "HELD NOTHING",
    "HELD MALFORMED",
    "HELD BROADCAST",
    "HELD NOANSWER",
    "HELD NAK",
    "HELD UNACKNOWLEDGED",
];

/// The same, of a read by its register.
const READ_ANSWERS: [(&str, &[&str]); 9] = [
    ("0", &["DONE"]),
    ("1", &["DONE"]),
    ("2", &["DONE"]),
    ("3", &["DONE"]),
    ("4", &["DONE", "REFUSED 6 DIRECTION"]),
    ("5", &["REFUSED 3 REGISTER"]),
    ("6", &["DONE"]),
    ("7", &["DONE", "REFUSED 3 REGISTER"]),
    ("above 7", &["REFUSED 3 REGISTER"]),
];

/// The same, of a write by its register.
const WRITE_ANSWERS: [(&str, &[&str]); 9] = [
    ("0", &["DONE", "REFUSED 4 VALUE"]),
    (
        "1",
        &[
            "DONE",
            "REFUSED 4 VALUE",
            "REFUSED 5 NOTREADY",
            "REFUSED 7 BUSY",
            "REFUSED 9 PAGE",
        ],
    ),
    ("2", &["DONE", "REFUSED 4 VALUE"]),
    ("3", &["DONE", "REFUSED 4 VALUE"]),
    ("4", &["DONE", "REFUSED 4 VALUE", "REFUSED 6 DIRECTION"]),
    ("5", &["REFUSED 3 REGISTER"]),
    (
        "6",
        &[
            "DONE",
            "REFUSED 4 VALUE",
            "REFUSED 7 BUSY",
            "REFUSED 10 DUPLICATE",
        ],
    ),
    (
        "7",
        &[
            "DONE",
            "REFUSED 3 REGISTER",
            "REFUSED 4 VALUE",
            "REFUSED 8 ONLINE",
            "REFUSED 10 DUPLICATE",
        ],
    ),
    ("above 7", &["REFUSED 3 REGISTER"]),
];

/// The same, of a call that was made a second time with rows in another order.
const SHUFFLED_ANSWERS: [(&str, &[&str]); 24] = [
    ("read", &["DONE", "REFUSED 2 ROW"]),
    ("read 4, old byte, AUTO-INC 0", &["DONE"]),
    ("read 4, old byte, AUTO-INC 1", &["DONE"]),
    ("read 4, old by short packet", &["DONE"]),
    ("read 4, old by own ID", &["DONE"]),
    ("read 4, old by write", &["DONE"]),
    ("read 4, old by reset", &["DONE"]),
    (
        "write",
        &[
            "DONE",
            "REFUSED 2 ROW",
            "REFUSED 7 BUSY",
            "REFUSED 10 DUPLICATE",
        ],
    ),
    ("reset", &["DONE", "REFUSED 2 ROW"]),
    ("timer", &["DONE", "REFUSED 2 ROW", "REFUSED 5 NOTREADY"]),
    ("interrupt", &["DONE 0", "DONE 1"]),
    ("step", &ANY_FAULT),
    (
        "step",
        &[
            "RECOVERED",
            "PASSED",
            "UNANSWERED",
            "TOKENLOST",
            "HELD DELIVERED",
            "REFUSED 4 VALUE",
        ],
    ),
    (
        ROW_RENAMED,
        &[
            "RECOVERED",
            "PASSED",
            "HELD NAK",
            "HELD DELIVERED",
            "HELD UNACKNOWLEDGED",
        ],
    ),
    ("step, answered before the holder", &ANSWERED),
    ("step, answered behind the holder", &ANSWERED),
    ("step, answered by a row that is not next", &ANSWERED),
    ("step, NAK 1", &["HELD NAK"]),
    ("step, NAK 2 to 127", &["HELD NAK"]),
    ("step, NAK 128", &["HELD NAK"]),
    ("read 1, EXCNAK, other bits too", &["DONE"]),
    ("interrupt, mask bit 3, EXCNAK", &["DONE 1"]),
    ("data", &["DONE", "REFUSED 4 VALUE"]),
    ("lap", &["DONE", "REFUSED 7 BUSY", "REFUSED 13 ROOM"]),
];

/// Outcomes with the row that answered an enquiry.
const ANSWERED: [&str; 3] = ["HELD NAK", "HELD DELIVERED", "HELD UNACKNOWLEDGED"];

/// The legal command bytes: twenty, and the two Clears.
pub const COMMANDS: [u8; 22] = [
    0x01, 0x02, 0x03, 0x0B, 0x23, 0x2B, 0x04, 0x0C, 0x24, 0x2C, 0x84, 0x8C, 0xA4, 0xAC, 0x05, 0x0D,
    0x06, 0x0E, 0x16, 0x1E, 0x00, 0x08,
];

/// Clear Transmit Interrupt and Clear Receive Interrupt, which only a row with chaining takes.
pub const CLEARS: [u8; 2] = [0x00, 0x08];

const SHUFFLED: &str = "in another order, ";

/// A step that tells a row which has another number in the other order.
const ROW_RENAMED: &str = "step, row renamed";

/// Counts by what was asked and what was answered.
#[derive(Default)]
pub struct Tally {
    words: BTreeMap<(String, String), u64>,
    closer: BTreeMap<(String, String), u64>,
    shuffled: BTreeMap<(String, String), u64>,
}

impl Tally {
    pub fn record(&mut self, words: &[&str], answer: &str, sights: &[String]) {
        let word = ANSWERS
            .iter()
            .map(|(word, _)| *word)
            .find(|word| words.first() == Some(word));
        let kind = kind(word.unwrap_or("other"), answer);
        if kind != "ERROR" {
            self.look_closer(words, &kind, sights);
        }
        count(&mut self.words, word.unwrap_or("other").to_string(), kind);
    }

    fn look_closer(&mut self, words: &[&str], kind: &str, sights: &[String]) {
        let mut note = |asked: String| count(&mut self.closer, asked, kind.to_string());
        sights.iter().cloned().for_each(&mut note);
        match words {
            ["step", fault] => note(format!("step, fault {}", capped(fault, 3))),
            ["read", _, register] => note(format!("read, register {}", capped(register, 7))),
            ["write", _, register, value] => {
                note(format!("write, register {}", capped(register, 7)));
                let command = value.parse().ok().filter(|byte| COMMANDS.contains(byte));
                if let ("1", Some(byte)) = (*register, command) {
                    note(command_name(byte));
                }
            }
            _ => {}
        }
    }

    /// A call that was answered alike with rows in another order. Of what it met, only what no word of
    /// the call says is counted: an old byte, NAKs, which row answered; and that a row told in the
    /// answer has another number.
    pub fn record_shuffled(&mut self, first: &Heard, heard: &Heard) {
        const COUNTED: [&str; 5] = [
            fetched::OLD_READ,
            naks::NAK_STEP,
            naks::READ_1,
            naks::INTERRUPT,
            named::ANSWERED,
        ];
        let word = heard.line.split(' ').next().unwrap_or_default();
        let sights = heard.sights.iter().map(String::as_str);
        let sights = sights.filter(|sight| COUNTED.iter().any(|kind| sight.starts_with(kind)));
        let renamed = word == "step" && first.answer != heard.answer;
        for asked in sights.chain([word]).chain(renamed.then_some(ROW_RENAMED)) {
            let asked = format!("{SHUFFLED}{asked}");
            count(&mut self.shuffled, asked, kind(word, &heard.answer));
        }
    }

    /// Those that can come and did not.
    pub fn missing(&self) -> Vec<String> {
        let mut missing = lacking(&self.words, can_come());
        missing.extend(lacking(&self.closer, can_come_closer()));
        missing
    }

    /// The same, of calls with rows in another order.
    pub fn missing_shuffled(&self) -> Vec<String> {
        lacking(&self.shuffled, keys(SHUFFLED, &SHUFFLED_ANSWERS))
    }

    pub fn print(&self) {
        print_table(&self.words);
        println!();
        print_table(&self.closer);
        println!();
        self.print_shuffled();
    }

    /// Those of calls with rows in another order alone.
    pub fn print_shuffled(&self) {
        print_table(&self.shuffled);
    }
}

fn lacking(counts: &BTreeMap<(String, String), u64>, wanted: Vec<(String, String)>) -> Vec<String> {
    let missing = wanted
        .into_iter()
        .filter(|key| !counts.contains_key(key))
        .map(|(asked, answer)| format!("{asked}: {answer}"));
    missing.collect()
}

fn print_table(counts: &BTreeMap<(String, String), u64>) {
    let mut lines: Vec<_> = counts.iter().collect();
    lines.sort_by_key(|((asked, answer), _)| (asked, refusal_number(answer), answer));
    for ((asked, answer), count) in lines {
        println!("{asked:<62}{answer:<24}{count:>10}");
    }
}

/// The number of a refusal, 0 of another answer.
fn refusal_number(answer: &str) -> u32 {
    let number = answer
        .strip_prefix("REFUSED ")
        .and_then(|rest| rest.split(' ').next());
    number.and_then(|number| number.parse().ok()).unwrap_or(0)
}

fn count(counts: &mut BTreeMap<(String, String), u64>, asked: String, answer: String) {
    *counts.entry((asked, answer)).or_default() += 1;
}

/// The answer without what belongs to the single call, as the record that is refused does, or the row
/// that is named.
fn kind(word: &str, answer: &str) -> String {
    let words: Vec<&str> = answer.split(' ').collect();
    match words.as_slice() {
        ["REFUSED", number, name, ..] => format!("REFUSED {number} {name}"),
        ["HELD", outcome, ..] => format!("HELD {outcome}"),
        ["DONE", ..] if word == "interrupt" => answer.to_string(),
        [first, ..] => first.to_string(),
        [] => String::new(),
    }
}

/// A number up to the last that has a line of its own in the table.
fn capped(number: &str, last: u32) -> String {
    match number.parse::<u32>() {
        Ok(number) if number <= last => number.to_string(),
        _ => format!("above {last}"),
    }
}

fn command_name(byte: u8) -> String {
    format!("command {byte:02X}")
}

fn keys(prefix: &str, table: &[(&str, &[&str])]) -> Vec<(String, String)> {
    let pairs = table.iter().flat_map(|(asked, answers)| {
        answers
            .iter()
            .map(move |answer| (format!("{prefix}{asked}"), answer.to_string()))
    });
    pairs.collect()
}

fn can_come() -> Vec<(String, String)> {
    let mut all = keys("", &ANSWERS);
    all.push(("other".to_string(), "ERROR".to_string()));
    all
}

fn can_come_closer() -> Vec<(String, String)> {
    let mut all = keys("step, fault ", &FAULT_ANSWERS);
    for fault in ["0", "1", "2", "3"] {
        all.extend(keys("step, fault ", &[(fault, &ANY_FAULT)]));
    }
    all.extend(keys("read, register ", &READ_ANSWERS));
    all.extend(keys("write, register ", &WRITE_ANSWERS));
    for byte in COMMANDS {
        let mut answers = vec!["DONE", "REFUSED 5 NOTREADY"];
        if CLEARS.contains(&byte) {
            answers.push("REFUSED 4 VALUE");
        }
        // Only Disable and the Clears find no card busy; the odd pages have f, bit 5.
        if matches!(byte & 7, 3..=5) {
            answers.push("REFUSED 7 BUSY");
        }
        if byte & 0x20 != 0 {
            answers.push("REFUSED 9 PAGE");
        }
        all.extend(keys(
            "",
            &[(command_name(byte).as_str(), answers.as_slice())],
        ));
    }
    for (sight, answers) in sights::can_come() {
        all.extend(keys("", &[(sight.as_str(), answers)]));
    }
    all
}
