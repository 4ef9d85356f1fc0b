//! Request C-24: the rows of a network in another order, each row whole, and command lines and
//! answers with their rows renamed. It knows where rows lie in the bytes and which numbers name a
//! row, and none of the rules of document 01.

use crate::model::{Network, HEADER, ROW};
use crate::prompt::hex_text;
use crate::rng::Rng;

/// Another order of the rows of a network: row k goes to the place `places[k]`.
pub struct Shuffle {
    places: Vec<usize>,
}

impl Shuffle {
    /// The order with these places.
    #[cfg(test)]
    pub fn to(places: &[usize]) -> Shuffle {
        Shuffle {
            places: places.to_vec(),
        }
    }

    /// Any order, each as likely as the others.
    pub fn any(rng: &mut Rng, rows: usize) -> Shuffle {
        let mut places: Vec<usize> = (0..rows).collect();
        for last in (1..rows).rev() {
            places.swap(last, rng.below(last + 1));
        }
        Shuffle { places }
    }

    /// Whether a row goes to another place.
    pub fn moves(&self) -> bool {
        self.places
            .iter()
            .enumerate()
            .any(|(row, place)| row != *place)
    }

    /// A number past the rows stays.
    fn row(&self, row: usize) -> usize {
        self.places.get(row).copied().unwrap_or(row)
    }

    fn renamed(&self, word: &str) -> String {
        word.parse()
            .map_or_else(|_| word.to_string(), |row| self.row(row).to_string())
    }

    /// The network in that order; its holder, byte 5, is renamed where the phase, byte 4, is not
    /// LOST.
    pub fn network(&self, bytes: &[u8]) -> Vec<u8> {
        let mut shuffled = bytes.to_vec();
        if bytes[4] != 0 {
            shuffled[5] = self.row(usize::from(bytes[5])) as u8;
        }
        for (row, place) in self.places.iter().enumerate() {
            let (from, to) = (Network::length_for(row), Network::length_for(*place));
            shuffled[to..to + ROW].copy_from_slice(&bytes[from..from + ROW]);
        }
        shuffled
    }

    /// The line with the row that it calls renamed. A `poke` within a row goes to the same bytes of
    /// that row at its new place.
    pub fn line(&self, line: &str) -> String {
        let words: Vec<&str> = line.split(' ').collect();
        match words.as_slice() {
            [word @ ("read" | "write" | "reset" | "timer" | "interrupt" | "data"), row, rest @ ..] => {
                [&[*word, &self.renamed(row)], rest].concat().join(" ")
            }
            ["poke", at, bytes] => format!("poke {} {bytes}", self.place(at)),
            _ => line.to_string(),
        }
    }

    /// Where the byte at this place of a row lies in the other order.
    fn place(&self, at: &str) -> usize {
        let behind = at.parse().unwrap_or(0).max(HEADER) - HEADER;
        Network::length_for(self.row(behind / ROW)) + behind % ROW
    }

    /// The answer to a line with the rows that it names renamed. To a `peek` of the whole length it
    /// is the network.
    pub fn answer(&self, line: &str, answer: &str) -> String {
        let words: Vec<&str> = answer.split(' ').collect();
        match (line.split(' ').next(), words.as_slice()) {
            (Some("step"), [word @ ("RECOVERED" | "PASSED"), row]) => {
                format!("{word} {}", self.renamed(row))
            }
            (Some("step"), ["HELD", outcome @ ("NAK" | "DELIVERED" | "UNACKNOWLEDGED"), row]) => {
                format!("HELD {outcome} {}", self.renamed(row))
            }
            (Some("lap"), ["DONE", total, takers @ ..]) => {
                let mut text = format!("DONE {total}");
                // An entry is an ID, a row and a count.
                for (place, word) in takers.iter().enumerate() {
                    text += " ";
                    match place % 3 {
                        1 => text += &self.renamed(word),
                        _ => text += word,
                    }
                }
                text
            }
            (Some("peek"), ["DONE", digits]) => {
                let network = from_hex(digits);
                let whole = network.len() == Network::length_for(self.places.len());
                let bytes = if whole {
                    self.network(&network)
                } else {
                    network
                };
                format!("DONE {}", hex_text(&bytes))
            }
            _ => answer.to_string(),
        }
    }

    /// Where each row goes, for a person.
    pub fn text(&self) -> String {
        let moves = self.places.iter().enumerate();
        let moves: Vec<String> = moves
            .map(|(row, place)| format!("{row} to {place}"))
            .collect();
        moves.join(", ")
    }
}

/// The bytes that an answer gives as pairs of hex digits.
fn from_hex(digits: &str) -> Vec<u8> {
    (0..digits.len())
        .step_by(2)
        .filter_map(|at| u8::from_str_radix(digits.get(at..at + 2)?, 16).ok())
        .collect()
}
