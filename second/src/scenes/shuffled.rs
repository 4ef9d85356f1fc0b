//! The scene of rows in another order, request C-24.

use super::{Played, Player, MOST_POKED};
use crate::comparison::{shortened, Heard};
use crate::shuffle::Shuffle;

/// Calls shown before a difference, with the one that differs.
const SHOWN: usize = 20;

impl Player<'_> {
    /// Plays this scene alone until so many calls have been made.
    pub fn play_shuffled(&mut self, calls: u64) -> Played {
        while self.both.calls() < calls {
            if self.rng.one_in(4) {
                self.new_network()?;
            }
            self.in_another_order()?;
        }
        self.both.finish()
    }

    /// Calls on a network, and the same calls on its rows in another order. What the peer answers
    /// the second time, and the network that it leaves, have to be those of the first time with
    /// rows renamed; no rule of document 01 is asked for that.
    pub(super) fn in_another_order(&mut self) -> Played {
        self.ready()?;
        if self.on_line_count() < 2 && !self.rng.one_in(6) {
            let rows = self.rng.between(2, 5);
            self.loaded_network(rows)?;
            self.fill_ram()?;
        }
        let rows = self.rows();
        if rows == 0 {
            return Ok(());
        }
        let network = self.both.lent().image().to_vec();
        let shuffle = Shuffle::any(&mut self.rng, rows);
        self.put(&network)?;
        self.both.listen()?;
        for _ in 0..self.rng.between(4, 16) {
            self.call_of_any_row()?;
        }
        self.call(&format!("peek 0 {}", network.len()))?;
        let first = self.both.heard()?;
        self.put(&shuffle.network(&network))?;
        self.both.listen()?;
        for heard in &first {
            self.call(&shuffle.line(&heard.line))?;
        }
        let second = self.both.heard()?;
        for (at, (one, other)) in first.iter().zip(&second).enumerate() {
            if shuffle.answer(&one.line, &one.answer) != other.answer {
                return Err(difference(&shuffle, &first[..=at], other));
            }
            if shuffle.moves() {
                self.both.shuffled(one, other);
            }
        }
        Ok(())
    }

    /// Lends these bytes.
    fn put(&mut self, bytes: &[u8]) -> Played {
        self.call(&format!("size {}", bytes.len()))?;
        for (part, bytes) in bytes.chunks(MOST_POKED).enumerate() {
            self.poke(part * MOST_POKED, bytes)?;
        }
        Ok(())
    }

    /// A call, or some, of those that C-24 names: it makes no network, and what it pokes lies in a
    /// row.
    fn call_of_any_row(&mut self) -> Played {
        let any = self.some_row();
        let weights = [12, 8, 2, 2, 2, 4, 4, 2, 2, 2, 2, 2, 2, 2, 4];
        match self.rng.weighted(&weights) {
            0 => self.any_call(),
            1 => {
                let sender = self.some_row_on_line().unwrap_or(any);
                self.packet_tried(sender)
            }
            2 => self.waiting_packet(any),
            3 => self.enable_receive(any),
            4 => self.flags_and_cancels(any),
            5 => {
                let count = self.rng.between(1, 4);
                self.steps(count)
            }
            6 => self.coming_or_going(),
            7 => self.cancels_at_the_token(any),
            8 => self.change_chaining(any, 0x38),
            9 => self.masked_interrupt(any),
            10 => self.twin_and_tentative_id(),
            11 => self.packet_over_fetched_bytes(),
            12 => self.old_byte(any),
            13 => self.lap_anew(),
            _ => self.packet_with_naks(),
        }
    }
}

/// The calls of the first time up to the one that is answered otherwise in the other order.
fn difference(shuffle: &Shuffle, first: &[Heard], other: &Heard) -> String {
    let mut text = String::new();
    for Heard { line, answer, .. } in &first[first.len().saturating_sub(SHOWN)..] {
        text += &format!("> {line}\n  {}\n", shortened(answer));
    }
    let wanted = first
        .last()
        .map(|last| shuffle.answer(&last.line, &last.answer))
        .unwrap_or_default();
    let alike = wanted.bytes().zip(other.answer.bytes());
    let alike = alike.take_while(|(wanted, came)| wanted == came).count();
    text + &format!(
        "in another order (row {}):\n> {}\n  {}\nand not\n  {}\nfrom character {} on",
        shuffle.text(),
        other.line,
        shortened(&other.answer),
        shortened(&wanted),
        alike + 1
    )
}
