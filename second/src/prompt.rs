//! The answers the program `bench` must give, line by line.
//!
//! `show` and `help` are for a person and are not compared, so they are not among the words here.

use crate::line::{Outcome, Step, Taker};
use crate::model::Network;
use crate::order::{BadRecord, NotLoaded};
use crate::refusal::Refusal;

/// Bytes in the buffer that the lent network is the beginning of.
pub const CAPACITY: usize = 66_400;

/// Entries that can be lent to a lap.
pub const MOST_ROOM: u32 = 70;

/// The lent bytes. A well-formed network is kept as structs, and its bytes are written when they
/// are asked for; anything else stays as bytes.
pub struct Lent {
    bytes: Vec<u8>,
    length: usize,
    reading: Reading,
}

enum Reading {
    NotYet,
    Malformed,
    WellFormed { network: Network, written: bool },
}

impl Lent {
    fn new() -> Lent {
        Lent {
            bytes: vec![0; CAPACITY],
            length: 0,
            reading: Reading::NotYet,
        }
    }

    pub fn length(&self) -> usize {
        self.length
    }

    /// The lent bytes as they are now.
    pub fn image(&mut self) -> &[u8] {
        let image = &mut self.bytes[..self.length];
        if let Reading::WellFormed {
            network,
            written: written @ false,
        } = &mut self.reading
        {
            network.encode(image);
            *written = true;
        }
        image
    }

    fn read(&mut self) {
        if matches!(self.reading, Reading::NotYet) {
            self.reading = match Network::decode(&self.bytes[..self.length]) {
                Some(network) => Reading::WellFormed {
                    network,
                    written: true,
                },
                None => Reading::Malformed,
            };
        }
    }

    /// The network to look at.
    pub fn network(&mut self) -> Result<&Network, Refusal> {
        self.read();
        match &self.reading {
            Reading::WellFormed { network, .. } => Ok(network),
            Reading::NotYet | Reading::Malformed => Err(Refusal::Shape),
        }
    }

    /// The network to be changed.
    fn network_mut(&mut self) -> Result<&mut Network, Refusal> {
        self.read();
        match &mut self.reading {
            Reading::WellFormed { network, written } => {
                *written = false;
                Ok(network)
            }
            Reading::NotYet | Reading::Malformed => Err(Refusal::Shape),
        }
    }

    /// Fills the lent bytes with a network of exactly their length.
    fn fill(&mut self, network: Network) {
        self.reading = Reading::WellFormed {
            network,
            written: false,
        };
    }

    fn resize(&mut self, length: usize) {
        self.image();
        self.length = length;
        self.reading = Reading::NotYet;
    }

    /// False, and nothing stored, where the bytes are not all inside the length.
    fn poke(&mut self, at: usize, bytes: &[u8]) -> bool {
        self.image();
        let lent = &mut self.bytes[..self.length];
        let place = at
            .checked_add(bytes.len())
            .and_then(|end| lent.get_mut(at..end));
        let Some(place) = place else { return false };
        place.copy_from_slice(bytes);
        self.reading = Reading::NotYet;
        true
    }
}

/// FNV-1a, 64 bits.
pub fn fnv(bytes: &[u8]) -> u64 {
    bytes.iter().fold(0xCBF2_9CE4_8422_2325, |sum, byte| {
        (sum ^ u64::from(*byte)).wrapping_mul(0x100_0000_01B3)
    })
}

/// Why a line is not done.
enum Complaint {
    Refused(Refusal),
    BadRecord(BadRecord),
    NotUnderstood(&'static str),
}

impl From<Refusal> for Complaint {
    fn from(refusal: Refusal) -> Complaint {
        Complaint::Refused(refusal)
    }
}

impl From<NotLoaded> for Complaint {
    fn from(not_loaded: NotLoaded) -> Complaint {
        match not_loaded {
            NotLoaded::Refused(refusal) => Complaint::Refused(refusal),
            NotLoaded::BadRecord(bad) => Complaint::BadRecord(bad),
        }
    }
}

type Answer = Result<String, Complaint>;

pub struct Prompt {
    lent: Lent,
}

impl Prompt {
    pub fn new() -> Prompt {
        Prompt { lent: Lent::new() }
    }

    pub fn lent(&mut self) -> &mut Lent {
        &mut self.lent
    }

    /// The answer line for one command line, both without their line ends.
    pub fn answer(&mut self, line: &[u8]) -> String {
        match self.obey(line) {
            Ok(answer) => answer,
            Err(Complaint::Refused(refusal)) => refused(refusal),
            Err(Complaint::BadRecord(BadRecord { record, reason })) => {
                format!("{} {record}", refused(reason))
            }
            Err(Complaint::NotUnderstood(what)) => format!("ERROR {what}"),
        }
    }

    fn obey(&mut self, line: &[u8]) -> Answer {
        let words: Vec<&[u8]> = line.split(|byte| *byte == b' ').collect();
        match words.as_slice() {
            [b"size", length] => self.size(number(length)?),
            [b"poke", at, bytes] => self.poke(number(at)?, &hex(bytes)?),
            [b"peek", at, count] => self.peek(number(at)?, number(count)?),
            [b"sum"] => Ok(format!("DONE {:016X}", fnv(self.lent.image()))),
            [b"check"] => self.lent.network().map(|_| done()).map_err(Complaint::from),
            [b"fresh", rows] => self.fresh(number(rows)?),
            [b"load"] => self.load(&[]),
            [b"load", order] => self.load(&hex(order)?),
            [b"read", row, register] => self.read(number(row)?, number(register)?),
            [b"write", row, register, value] => {
                let (row, register, value) = (number(row)?, number(register)?, number(value)?);
                self.lent.network_mut()?.write(row, register, value)?;
                Ok(done())
            }
            [b"reset", row] => {
                let row = number(row)?;
                self.lent.network_mut()?.hardware_reset(row)?;
                Ok(done())
            }
            [b"timer", row] => {
                let row = number(row)?;
                self.lent.network_mut()?.timer(row)?;
                Ok(done())
            }
            [b"interrupt", row] => {
                let row = number(row)?;
                let active = self.lent.network()?.interrupt(row)?;
                Ok(format!("DONE {}", u8::from(active)))
            }
            [b"step", fault] => {
                let fault = number(fault)?;
                Ok(step_text(self.lent.network_mut()?.step(fault)?))
            }
            [b"data", row, page] => {
                let (row, page) = (number(row)?, number(page)?);
                Ok(done_hex(self.lent.network()?.data(row, page)?))
            }
            [b"lap", room] => self.lap(number(room)?),
            _ => Err(Complaint::NotUnderstood("no such line")),
        }
    }

    fn size(&mut self, length: u32) -> Answer {
        let length = usize::try_from(length)
            .ok()
            .filter(|length| *length <= CAPACITY);
        self.lent
            .resize(length.ok_or(Complaint::NotUnderstood("above the buffer"))?);
        Ok(done())
    }

    fn poke(&mut self, at: u32, bytes: &[u8]) -> Answer {
        let inside = usize::try_from(at).is_ok_and(|at| self.lent.poke(at, bytes));
        inside
            .then(done)
            .ok_or(Complaint::NotUnderstood("outside the length"))
    }

    fn peek(&mut self, at: u32, count: u32) -> Answer {
        let place = usize::try_from(at).ok().zip(usize::try_from(count).ok());
        place
            .and_then(|(at, count)| Some(at..at.checked_add(count)?))
            .and_then(|place| self.lent.image().get(place))
            .map(done_hex)
            .ok_or(Complaint::NotUnderstood("outside the length"))
    }

    fn fresh(&mut self, rows: u32) -> Answer {
        let network = Network::fresh(rows, self.lent.length)?;
        self.lent.fill(network);
        Ok(done())
    }

    fn load(&mut self, order: &[u8]) -> Answer {
        let network = Network::load(order, self.lent.length)?;
        self.lent.fill(network);
        Ok(done())
    }

    fn read(&mut self, row: u32, register: u32) -> Answer {
        let value = self.lent.network_mut()?.read(row, register)?;
        Ok(format!("DONE {value}"))
    }

    fn lap(&mut self, room: u32) -> Answer {
        if room > MOST_ROOM {
            return Err(Complaint::NotUnderstood("more room than there is"));
        }
        let takers = self.lent.network_mut()?.lap(room as usize)?;
        Ok(lap_text(&takers))
    }
}

fn done() -> String {
    "DONE".to_string()
}

fn refused(refusal: Refusal) -> String {
    format!("REFUSED {} {}", refusal.number(), refusal.name())
}

fn done_hex(bytes: &[u8]) -> String {
    if bytes.is_empty() {
        done()
    } else {
        format!("DONE {}", hex_text(bytes))
    }
}

/// Pairs of upper-case hex digits.
pub fn hex_text(bytes: &[u8]) -> String {
    const DIGITS: [char; 16] = [
        '0', '1', '2', '3', '4', '5', '6', '7', '8', '9', 'A', 'B', 'C', 'D', 'E', 'F',
    ];
    bytes
        .iter()
        .flat_map(|byte| {
            [
                DIGITS[usize::from(byte >> 4)],
                DIGITS[usize::from(byte & 15)],
            ]
        })
        .collect()
}

fn lap_text(takers: &[Taker]) -> String {
    let total: u32 = takers.iter().map(|taker| taker.invitations).sum();
    let mut text = format!("DONE {total}");
    for Taker {
        node_id,
        row,
        invitations,
    } in takers
    {
        text += &format!(" {node_id} {row} {invitations}");
    }
    text
}

fn step_text(step: Step) -> String {
    match step {
        Step::Quiet => "QUIET".to_string(),
        Step::Recovered(row) => format!("RECOVERED {row}"),
        Step::Passed(row) => format!("PASSED {row}"),
        Step::Unanswered(id) => format!("UNANSWERED {id}"),
        Step::TokenLost => "TOKENLOST".to_string(),
        Step::Held(outcome) => format!("HELD {}", outcome_text(outcome)),
    }
}

fn outcome_text(outcome: Outcome) -> String {
    match outcome {
        Outcome::Nothing => "NOTHING".to_string(),
        Outcome::Malformed => "MALFORMED".to_string(),
        Outcome::Broadcast => "BROADCAST".to_string(),
        Outcome::NoAnswer => "NOANSWER".to_string(),
        Outcome::Nak(row) => format!("NAK {row}"),
        Outcome::Delivered(row) => format!("DELIVERED {row}"),
        Outcome::Unacknowledged(row) => format!("UNACKNOWLEDGED {row}"),
    }
}

/// A number of decimal digits, any count of them, up to 4294967295.
fn number(word: &[u8]) -> Result<u32, Complaint> {
    let digits = !word.is_empty() && word.iter().all(u8::is_ascii_digit);
    let text = std::str::from_utf8(word).ok().filter(|_| digits);
    text.and_then(|text| text.parse().ok())
        .ok_or(Complaint::NotUnderstood("not a number"))
}

fn hex(word: &[u8]) -> Result<Vec<u8>, Complaint> {
    from_hex(word).ok_or(Complaint::NotUnderstood("not pairs of hex digits"))
}

/// The bytes of at least one pair of hex digits, and of nothing else.
pub fn from_hex(word: &[u8]) -> Option<Vec<u8>> {
    let (pairs, rest) = word.as_chunks();
    if pairs.is_empty() || !rest.is_empty() {
        return None;
    }
    let byte = |[high, low]: &[u8; 2]| Some(digit(*high)? << 4 | digit(*low)?);
    pairs.iter().map(byte).collect()
}

fn digit(character: u8) -> Option<u8> {
    match character {
        b'0'..=b'9' => Some(character - b'0'),
        b'A'..=b'F' => Some(character - b'A' + 10),
        b'a'..=b'f' => Some(character - b'a' + 10),
        _ => None,
    }
}
