//! The scene of rows with chaining, request C-11.

use super::{Played, Player};
use crate::material;
use crate::model::{Network, Row, CHAINING};
use crate::tally::CLEARS;

impl Player<'_> {
    /// Rows with chaining beside rows without: what waits, what ends, what is cleared.
    pub(super) fn queues(&mut self) -> Played {
        self.ready()?;
        if self.on_line_count() < 2 {
            let rows = self.rng.between(2, 5);
            self.loaded_network(rows)?;
            self.fill_ram()?;
        }
        for row in 0..self.rows().min(6) {
            if self.rng.flag() && !self.row(row).is_some_and(Row::chaining) {
                // RESET ends what waits, so that CCHEN can change; it clears TMA too.
                if !self.rng.one_in(3) {
                    self.write(row, 6, 0xB8)?;
                }
                self.write(row, 6, 0x78)?;
                if self.rng.flag() {
                    self.write(row, 1, 0x0D)?;
                }
            }
        }
        for _ in 0..self.rng.between(8, 24) {
            if self.rows() == 0 {
                // Damage that calls had followed was undone to something else.
                break;
            }
            let any = self.some_row();
            let row = self.some_row_chaining().unwrap_or(any);
            match self.rng.weighted(&[5, 3, 4, 4, 2, 3, 4, 6, 2, 2, 1, 4, 5]) {
                0 => self.packet_tried(row)?,
                1 => self.packet_tried(any)?,
                2 => self.waiting_packet(row)?,
                3 => self.enable_receive(row)?,
                4 => self.some_commands(row, &[0x01, 0x02])?,
                5 => self.some_commands(row, &CLEARS)?,
                6 => {
                    let count = self.rng.between(1, 4);
                    self.steps(count)?;
                }
                7 => self.cancels_at_the_token(row)?,
                8 => self.masked_interrupt(row)?,
                9 => self.call(&format!("read {row} 0"))?,
                10 => self.settle()?,
                11 => {
                    let row = self.rng.pick(&[row, row, any]);
                    let change = self.changed_queue_byte(row);
                    self.damaged_by(change)?;
                }
                _ => self.chaining_ends(row)?,
            }
        }
        Ok(())
    }

    /// One of these commands, once to three times.
    fn some_commands(&mut self, row: usize, commands: &[u8]) -> Played {
        let command = self.rng.pick(commands);
        (0..self.rng.pick(&[1, 1, 2, 3])).try_for_each(|_| self.write(row, 1, command))
    }

    /// Two packets and two receives wait, cancels are asked of some, and the token comes, or a
    /// packet before it.
    pub(super) fn cancels_at_the_token(&mut self, row: usize) -> Played {
        self.receivers()?;
        for _ in 0..2 {
            self.waiting_packet(row)?;
            self.enable_receive(row)?;
        }
        match self.rng.below(3) {
            0 => self.some_commands(row, &[0x01])?,
            1 => self.some_commands(row, &[0x02])?,
            // Of the second alone, which no command does.
            _ => {
                let at = Network::length_for(row) + CHAINING.start;
                let seconds = self.both.lent().image().get(at..at + 2).map(<[u8]>::to_vec);
                for (at, second) in (at..).zip(seconds.unwrap_or_default()) {
                    if second != 0 {
                        self.poke(at, &[second | 0x80])?;
                    }
                }
            }
        }
        if self.rng.flag() {
            let sender = self.some_row();
            self.packet_tried(sender)?;
        }
        self.turn_of(row)
    }

    /// A reset, or CCHEN changed, with whatever waits or is not cleared; and the row back on line.
    fn chaining_ends(&mut self, row: usize) -> Played {
        if self.rng.flag() {
            for command in [0x01, 0x01, 0x02, 0x02] {
                self.write(row, 1, command)?;
            }
            self.turn_of(row)?;
        }
        match self.rng.below(6) {
            0 => self.configure(row, 0xB8)?,
            1 => self.call(&format!("reset {row}"))?,
            2 | 3 => {
                let configuration = material::plain_configuration(&mut self.rng);
                self.change_chaining(row, configuration)?;
            }
            // Off and on again: what is not cleared is gone, and TMA is still shown. A Clear has
            // nothing to clear, and an Enable takes TMA away.
            _ => {
                self.change_chaining(row, 0x38)?;
                self.change_chaining(row, 0x38)?;
                self.write(row, 1, 0x00)?;
                self.write(row, 1, 0x03)?;
            }
        }
        self.configure(row, 0x38)
    }

    /// A configuration with the CCHEN that the row does not have.
    pub(super) fn change_chaining(&mut self, row: usize, configuration: u8) -> Played {
        let chaining = self.row(row).is_some_and(Row::chaining);
        self.write(row, 6, material::with_chaining(configuration, !chaining))
    }

    /// Another second Enable, or other completions, most often such as a row with chaining may have.
    fn changed_queue_byte(&mut self, row: usize) -> (usize, Vec<u8>) {
        let page = self.rng.below(4) as u8;
        let transmit = self.rng.pick(&[0x40, 0x40, 0xC0, 0x80, 0x60]) | page;
        let receive = self.rng.pick(&[0x20, 0x60, 0xA0, 0xE0, 0xC0, 0x30]) | page;
        let completions = self.rng.pick(&[0x00, 0x01, 0x02, 0x03, 0x80, 0x81, 0x82]);
        let (byte, value) = self.rng.pick(&[
            (16, transmit),
            (16, transmit),
            (17, receive),
            (17, receive),
            (18, completions),
            (19, completions),
            (16, 0),
            (17, 0),
        ]);
        (Network::length_for(row) + byte, vec![value])
    }
}
