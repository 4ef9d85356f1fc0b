//! The scene of NAKs, request C-16: packets that are refused, and what their count meets.

use super::{Played, Player};
use crate::material::{self, page_bits};
use crate::model::{Network, Row, NAKS, PAGE, REGISTERS};
use crate::order::RECORD;
use crate::prompt::{hex_text, MOST_ROOM};
use crate::queue::MOST_NAKS;

/// Bytes of a row that this scene pokes.
const STATUS: usize = 3;
const DIAGNOSTIC: usize = 4;
const CONFIGURATION: usize = 6;
const SECOND_TRANSMIT: usize = 16;

const POR: u8 = 0x10;
const EXCNAK: u8 = 0x08;

impl Player<'_> {
    /// Rows that send to rows that do not receive, with any number of NAKs before.
    pub(super) fn naks(&mut self) -> Played {
        self.ready()?;
        if self.rng.one_in(10) {
            return self.naks_one_by_one();
        }
        if self.rng.one_in(3) {
            self.network_for_naks()?;
        }
        for _ in 0..self.rng.between(8, 14) {
            if self.rows() > 10 {
                self.packet_to_a_row_above_9()?;
            } else {
                self.naks_once()?;
            }
        }
        Ok(())
    }

    fn naks_once(&mut self) -> Played {
        if self.on_line_count() < 2 {
            self.network_for_naks()?;
        }
        let Some((sender, target)) = self.refusing_pair()? else {
            return Ok(());
        };
        self.aim(sender, target)?;
        let naks = material::naks(&mut self.rng);
        self.put_naks(sender, naks)?;
        let weights = [4, 18, 18, 7, 3, 3, 6, 5, 3, 7, 1, 2, 4, 6, 2];
        match self.rng.weighted(&weights) {
            0 => self.refused_again(sender, target),
            1 => self.refused_no_more(sender, target),
            2 => self.refused_and_cancelled(sender, target),
            3 => self.flags_cleared(sender, target),
            4 => self.diagnostic_reads(sender),
            5 => self.resets_with_naks(sender),
            6 => self.accesses_with_naks(sender),
            7 => self.interrupts_with_naks(sender),
            8 => self.laps_with_naks(sender),
            9 => self.any_naks_put(),
            10 => self.asleep_with_naks(sender),
            11 => self.network_over_naks(),
            12 => self.steps_with_naks(sender),
            13 => self.packet_to_one_refused(sender, target),
            _ => self.twin_before(sender, target),
        }
    }

    /// Most often few rows, some with chaining.
    fn network_for_naks(&mut self) -> Played {
        let rows = match self.rng.weighted(&[2, 7, 1]) {
            0 => 2,
            1 => self.rng.between(3, 5),
            _ => self.rng.between(11, 16),
        };
        self.loaded_network(rows)?;
        for row in 0..rows {
            if self.rng.flag() {
                self.poke(Network::length_for(row) + CONFIGURATION, &[0x78])?;
            }
        }
        let row = self.some_row();
        let long = self.rng.pick(&[0x05, 0x0D]);
        self.write(row, 1, long)
    }

    /// A row on line, and another that refuses its packets; None where there are no two.
    fn refusing_pair(&mut self) -> Result<Option<(usize, usize)>, String> {
        let refuses = |row: &Row| row.on_line() && row.ri();
        if self.some_row_that(refuses).is_none() {
            let row = self.some_row_on_line().unwrap_or(0);
            self.configure(row, 0xB8)?;
            self.configure(row, 0x38)?;
        }
        let target = self.some_row_that(refuses);
        let id = self.id_of(target.unwrap_or(0));
        let sends = |row: &Row| row.on_line() && row.node_id != id;
        let any = self.some_row_that(sends);
        let chaining = self.some_row_that(|row| sends(row) && row.chaining());
        let sender = self.rng.pick(&[any, chaining.or(any)]);
        Ok(sender.zip(target))
    }

    fn id_of(&mut self, row: usize) -> u8 {
        self.row(row).map_or(0, |row| row.node_id)
    }

    /// A packet for the target waits: the oldest, where there is one, has its DID now.
    fn aim(&mut self, row: usize, target: usize) -> Played {
        let did = self.id_of(target);
        let oldest = self.row(row).and_then(|row| row.transmit.queue.oldest());
        let page = match oldest {
            Some(oldest) => oldest.page,
            None => self.even_or_short_page(row),
        };
        self.packet_for(row, page, did)?;
        if oldest.is_some() {
            return Ok(());
        }
        self.write(row, 1, 0x03 | page_bits(page))
    }

    /// A page that an Enable is not refused for.
    fn even_or_short_page(&mut self, row: usize) -> u8 {
        let page = self.rng.below(4) as u8;
        let long = self.row(row).is_some_and(|row| row.long_packets);
        if long {
            page & 2
        } else {
            page
        }
    }

    /// The header of a packet that can be sent, a long one where there may be.
    fn packet_for(&mut self, row: usize, page: u8, did: u8) -> Played {
        let long = self.row(row).is_some_and(|row| row.long_packets) && page.is_multiple_of(2);
        let count = self.rng.between(4, 255) as u8;
        let header = if long && self.rng.flag() {
            vec![0x55, did, 0, count]
        } else {
            vec![0x55, did, count]
        };
        self.poke(page_start(row, page), &header)
    }

    /// A second packet for the target, where the row has chaining; it may be of the page of the first.
    fn second_for(&mut self, row: usize, target: usize) -> Played {
        let queue = self
            .row(row)
            .map(|row| (row.chaining(), row.transmit.queue));
        let Some((true, queue)) = queue else {
            return Ok(());
        };
        let oldest = queue.oldest().map_or(0, |oldest| oldest.page);
        let page = self.rng.pick(&[oldest, oldest ^ 2, oldest ^ 2]);
        let did = self.id_of(target);
        self.packet_for(row, page, did)?;
        self.write(row, 1, 0x03 | page_bits(page))
    }

    /// The row's oldest transmit gets this many NAKs.
    fn put_naks(&mut self, row: usize, naks: u8) -> Played {
        if self.row(row).is_none_or(Row::ta) {
            return Ok(());
        }
        let place = Network::length_for(row);
        let diagnostic = self.row(row).map_or(0, Row::diagnostic_status);
        let excnak = if naks == MOST_NAKS { EXCNAK } else { 0 };
        if diagnostic & EXCNAK != excnak {
            self.poke(place + DIAGNOSTIC, &[diagnostic ^ EXCNAK])?;
        }
        self.poke(place + NAKS.start, &[naks])
    }

    /// The row has been passed the token.
    fn token_to(&mut self, row: usize) -> Played {
        self.poke(4, &[2, row as u8])
    }

    fn refused_again(&mut self, sender: usize, target: usize) -> Played {
        self.turn_with_naks(sender)?;
        for _ in 0..self.rng.below(4) {
            if self.rng.flag() {
                let refuses = |row: &Row| row.on_line() && row.ri();
                let other = self.some_row_that(refuses).unwrap_or(target);
                self.aim(sender, other)?;
            }
            self.turn_with_naks(sender)?;
        }
        Ok(())
    }

    fn turn_with_naks(&mut self, row: usize) -> Played {
        self.token_to(row)?;
        self.step()
    }

    /// The packet ends in one way or another, perhaps with a second behind it. CCHEN may be changed then.
    fn refused_no_more(&mut self, sender: usize, target: usize) -> Played {
        if !self.rng.one_in(3) {
            self.second_for(sender, target)?;
        }
        let own = self.id_of(sender);
        let oldest = self.row(sender).and_then(|row| row.transmit.queue.oldest());
        let page = page_start(sender, oldest.map_or(0, |oldest| oldest.page));
        match self.rng.weighted(&[3, 3, 3, 5]) {
            0 => self.poke(page + 2, &[2])?,
            1 => self.poke(page + 1, &[0])?,
            2 => self.poke(page + 1, &[own])?,
            _ => self.enable_receive(target)?,
        }
        self.turn_with_naks(sender)?;
        match self.rng.below(12) {
            0 => {
                self.write(sender, 1, 0x00)?;
                self.change_chaining(sender, 0xB8)?;
                self.configure(sender, 0x38)
            }
            1 => {
                self.change_chaining(sender, 0x38)?;
                self.change_chaining(sender, 0x38)?;
                self.write(sender, 1, 0x00)
            }
            _ => Ok(()),
        }
    }

    /// Cancels of a transmit, or of a receive beside it, at the token.
    fn refused_and_cancelled(&mut self, sender: usize, target: usize) -> Played {
        if self.rng.below(5) < 3 {
            self.second_for(sender, target)?;
        }
        match self.rng.weighted(&[5, 3, 4, 2]) {
            0 => self.write(sender, 1, 0x01)?,
            1 => {
                self.write(sender, 1, 0x01)?;
                self.write(sender, 1, 0x01)?;
            }
            // Of the second alone, which no command does.
            2 => {
                let at = Network::length_for(sender) + SECOND_TRANSMIT;
                let second = self.both.lent().image().get(at).copied().unwrap_or(0);
                if second != 0 {
                    self.poke(at, &[second | 0x80])?;
                }
            }
            _ => {
                self.enable_receive(sender)?;
                self.write(sender, 1, 0x02)?;
            }
        }
        self.turn_with_naks(sender)
    }

    /// Clear Flags without bit 3 and with it, with POR or without, and most often a NAK behind it.
    fn flags_cleared(&mut self, sender: usize, target: usize) -> Played {
        if self.rng.flag() {
            self.poke_status(sender, |status| status ^ POR)?;
        }
        let left = self.rng.pick(&[0x06, 0x16]);
        self.write(sender, 1, left)?;
        let taken = self.rng.pick(&[0x0E, 0x1E]);
        self.write(sender, 1, taken)?;
        if self.rng.one_in(3) {
            return Ok(());
        }
        self.refused_again(sender, target)
    }

    fn poke_status(&mut self, row: usize, change: impl Fn(u8) -> u8) -> Played {
        let at = Network::length_for(row) + STATUS;
        let status = self.both.lent().image().get(at).copied().unwrap_or(0);
        self.poke(at, &[change(status)])
    }

    fn diagnostic_reads(&mut self, row: usize) -> Played {
        for _ in 0..self.rng.between(1, 3) {
            self.call(&format!("read {row} 1"))?;
            if self.rng.one_in(3) {
                self.step()?;
            }
        }
        Ok(())
    }

    /// A reset of the row or of another, or CCHEN changed, which is refused.
    fn resets_with_naks(&mut self, row: usize) -> Played {
        match self.rng.below(4) {
            0 => {
                self.configure(row, 0xB8)?;
                self.configure(row, 0x38)
            }
            1 => self.hardware_reset_and_back(row),
            2 => {
                let other = self.some_row();
                self.hardware_reset_and_back(other)
            }
            _ => {
                let configuration = self.rng.pick(&[0x38, 0xB8]);
                self.change_chaining(row, configuration)
            }
        }
    }

    /// Writes of other registers and other commands, off line and on line again.
    fn accesses_with_naks(&mut self, row: usize) -> Played {
        for _ in 0..self.rng.between(2, 4) {
            let byte = self.rng.byte();
            match self.rng.below(7) {
                0 => self.write(row, 0, byte & 0x8D)?,
                1 => self.write(row, 2, byte & 0x43)?,
                2 => self.write(row, 3, byte)?,
                3 => self.write(row, 4, byte)?,
                4 => self.write(row, 7, byte)?,
                5 => {
                    let commands = [0x01, 0x02, 0x03, 0x0B, 0x04, 0x84, 0x05, 0x0D, 0x00, 0x08];
                    let command = self.rng.pick(&commands);
                    self.write(row, 1, command)?;
                }
                _ => {
                    let configurations = [0x38, 0x39, 0x3B, 0x3C, 0x18, 0x18];
                    let configuration = self.rng.pick(&configurations);
                    self.configure(row, configuration)?;
                    self.call(&format!("read {row} 7"))?;
                }
            }
        }
        Ok(())
    }

    /// The interrupt without POR and RECON, by what is in the mask.
    fn interrupts_with_naks(&mut self, row: usize) -> Played {
        self.poke_status(row, |status| status & !(POR | 0x04))?;
        for _ in 0..self.rng.between(2, 4) {
            let mask = self
                .rng
                .pick(&[0x08, 0x08, 0x00, 0x00, 0x05, 0x85, 0x80, 0x01]);
            self.write(row, 0, mask)?;
            self.call(&format!("interrupt {row}"))?;
        }
        let any = self.some_row();
        self.masked_interrupt(any)
    }

    fn laps_with_naks(&mut self, row: usize) -> Played {
        for _ in 0..self.rng.between(1, 2) {
            self.call(&format!("timer {row}"))?;
            self.call(&format!("lap {MOST_ROOM}"))?;
        }
        Ok(())
    }

    /// Numbers of NAKs that are well formed and that are not, with EXCNAK and without, in a row with TA
    /// of either value.
    fn any_naks_put(&mut self) -> Played {
        let idle = !self.rng.one_in(3);
        let any = self.some_row();
        let row = self.some_row_that(|row| row.ta() == idle).unwrap_or(any);
        let diagnostic = self.row(row).map_or(0, Row::diagnostic_status);
        let naks = self.row(row).map_or(0, |row| row.transmit.naks());
        let place = Network::length_for(row);
        if self.rng.one_in(4) {
            let before = self.rng.between(20, 30);
            self.damaged_by((place + before, vec![1]))?;
        }
        for _ in 0..self.rng.between(4, 8) {
            self.some_bytes_put(place, diagnostic)?;
            self.call("check")?;
        }
        self.poke(place + DIAGNOSTIC, &[diagnostic])?;
        self.poke(place + NAKS.start, &[naks, 0])?;
        self.call("check")
    }

    /// One byte of the count, or both and EXCNAK.
    fn some_bytes_put(&mut self, place: usize, diagnostic: u8) -> Played {
        let above = self.rng.between(130, 255) as u8;
        let low = self.rng.pick(&[0, 1, 126, 127, 128, 129, above]);
        let high = self.rng.pick(&[0, 0, 0, 1, 128, 255]);
        let excnak = self.rng.pick(&[0, EXCNAK]);
        match self.rng.weighted(&[3, 1, 5]) {
            0 => self.poke(place + NAKS.start, &[low]),
            1 => self.poke(place + NAKS.start + 1, &[high]),
            _ => {
                self.poke(place + DIAGNOSTIC, &[diagnostic & !EXCNAK | excnak])?;
                self.poke(place + NAKS.start, &[low, high])
            }
        }
    }

    /// A row that sleeps keeps its NAKs, takes no Clear Flags, and comes back with its ID.
    fn asleep_with_naks(&mut self, row: usize) -> Played {
        let id = self.id_of(row);
        self.configure(row, 0x19)?;
        self.write(row, 7, 0)?;
        for command in [0x05, 0x06, 0x0E, 0x16, 0x1E] {
            self.write(row, 1, command)?;
        }
        self.poke_status(row, |status| status & !POR)?;
        self.write(row, 0, 0x08)?;
        self.call(&format!("interrupt {row}"))?;
        self.call(&format!("read {row} 1"))?;
        self.write(row, 7, id)?;
        self.configure(row, 0x38)
    }

    /// A new network in the bytes of one that has NAKs.
    fn network_over_naks(&mut self) -> Played {
        let rows = self.rows();
        if self.rng.flag() {
            return self.call(&format!("fresh {rows}"));
        }
        let order = material::order(&mut self.rng, rows);
        self.call(&format!("load {}", hex_text(&order)))
    }

    /// A packet from the row that refuses, to the one that it refuses or to all; cancels of what waits for
    /// it may be asked.
    fn packet_to_one_refused(&mut self, sender: usize, target: usize) -> Played {
        self.enable_receive(sender)?;
        if self.rng.flag() {
            self.enable_receive(sender)?;
            self.write(sender, 1, 0x02)?;
            self.write(sender, 1, 0x02)?;
        }
        self.aim(target, sender)?;
        if self.rng.flag() {
            let oldest = self.row(target).and_then(|row| row.transmit.queue.oldest());
            let page = oldest.map_or(0, |oldest| oldest.page);
            self.poke(page_start(target, page) + 1, &[0])?;
        }
        self.token_to(target)?;
        let fault = self.rng.pick(&[0, 2]);
        self.call(&format!("step {fault}"))
    }

    /// Steps of any phase.
    fn steps_with_naks(&mut self, sender: usize) -> Played {
        match self.rng.below(4) {
            0 => self.call(&format!("timer {sender}"))?,
            1 => self.poke(4, &[1, sender as u8])?,
            2 => {
                self.poke(4, &[1, sender as u8])?;
                self.call("step 3")?;
            }
            _ => self.token_to(sender)?,
        }
        let count = self.rng.between(1, 5);
        self.steps(count)
    }

    /// A packet for a row with a number of two digits, which receives or not.
    fn packet_to_a_row_above_9(&mut self) -> Played {
        let last = self.rows() - 1;
        let target = self.rng.between(10, last);
        let id = self.id_of(target);
        let sender = self.some_row_that(|row| row.on_line() && row.node_id != id);
        let Some(sender) = sender else {
            return self.network_for_naks();
        };
        if self.rng.flag() {
            self.enable_receive(target)?;
        }
        self.aim(sender, target)?;
        self.turn_with_naks(sender)
    }

    /// A row off line before the target has its ID: another may not be named for it.
    fn twin_before(&mut self, sender: usize, target: usize) -> Played {
        let twin = self.rng.below(target.max(1));
        if twin == sender || twin == target {
            return Ok(());
        }
        let id = self.id_of(target);
        self.configure(twin, 0x19)?;
        self.write(twin, 7, id)?;
        for _ in 0..3 {
            if self.rng.flag() {
                self.enable_receive(target)?;
            }
            self.aim(sender, target)?;
            self.turn_with_naks(sender)?;
        }
        Ok(())
    }

    /// A packet that has NAKs and gets one more, or is stored. The token comes to it by steps, and no
    /// byte outside the rows is poked.
    pub(super) fn packet_with_naks(&mut self) -> Played {
        let Some((sender, target)) = self.refusing_pair()? else {
            return Ok(());
        };
        if !self.settled() {
            self.settle()?;
        }
        self.aim(sender, target)?;
        let naks = material::naks(&mut self.rng);
        self.put_naks(sender, naks)?;
        if self.rng.one_in(3) {
            self.enable_receive(target)?;
        }
        self.turn_of(sender)?;
        match self.rng.below(3) {
            0 => self.interrupts_with_naks(sender),
            1 => self.call(&format!("read {sender} 1")),
            _ => Ok(()),
        }
    }

    /// NAKs to one Enable, each by itself, until more came than are counted: by laps, or by steps of the
    /// token's way round, or of the sender's turn alone.
    fn naks_one_by_one(&mut self) -> Played {
        let mut order = material::order(&mut self.rng, 2);
        order.chunks_mut(RECORD).for_each(|record| record[3] &= 2);
        self.network_of(&order)?;
        self.settle()?;
        // That of the higher ID ends a lap before its turn.
        let (sender, target) = if self.id_of(0) < self.id_of(1) {
            (0, 1)
        } else {
            (1, 0)
        };
        self.aim(sender, target)?;
        let by = self.rng.weighted(&[2, 1, 1]);
        for _ in 0..usize::from(MOST_NAKS) + self.rng.between(1, 10) {
            match by {
                0 => {
                    self.call(&format!("timer {sender}"))?;
                    self.call("lap 2")?;
                }
                1 => (0..4).try_for_each(|_| self.step_of_a_packet())?,
                _ => {
                    self.token_to(sender)?;
                    self.step_of_a_packet()?;
                }
            }
        }
        Ok(())
    }

    /// With a fault that only a packet would meet.
    fn step_of_a_packet(&mut self) -> Played {
        let fault = self.rng.pick(&[0, 0, 1, 2]);
        self.call(&format!("step {fault}"))
    }
}

fn page_start(row: usize, page: u8) -> usize {
    Network::length_for(row) + REGISTERS + PAGE * usize::from(page)
}
