//! The scene of the clock, request C-15: all that takes time, rows with times alike and not, and those off
//! line, whose times do not count.

use super::naks::page_start;
use super::{Played, Player};
use crate::material::{self, page_bits, ETS};
use crate::model::{Network, Phase, Row};
use crate::order::RECORD;
use crate::prompt::MOST_ROOM;
use crate::queue::Queue;

/// Bytes of a row that this scene pokes.
const NODE_ID: usize = 2;
const CONFIGURATION: usize = 6;
const SETUP: usize = 7;
const SECOND_TRANSMIT: usize = 16;

const RESET: u8 = 0x80;
const TXEN: u8 = 0x20;
const SUB_ADDRESS: u8 = 0x03;

impl Player<'_> {
    pub(super) fn clocks(&mut self) -> Played {
        self.ready()?;
        for _ in 0..self.rng.between(8, 14) {
            let unfit = self.on_line_count() < 2 || self.rows() > 6;
            if unfit || self.rng.one_in(12) {
                self.network_for_clocks()?;
            }
            self.clocked_once()?;
        }
        Ok(())
    }

    fn clocked_once(&mut self) -> Played {
        let mixed = self.mixed();
        if mixed && self.rng.flag() || self.rng.one_in(8) {
            self.times_alike()?;
        }
        match self.rng.weighted(&[36, 6, 8, 16, 7, 3, 3, 2]) {
            0 => self.packet_clocked(),
            1 => self.recovery_clocked(),
            2 => self.lap_of_packets_clocked(),
            3 => self.two_packets_clocked(),
            4 => self.times_mixed(),
            5 => self.off_line_differs(),
            6 => self.one_on_line(),
            _ => self.nobody_on_line(),
        }
    }

    /// Few rows with any flags, most often for long packets. Some have a prescaler, which no time depends
    /// on.
    fn network_for_clocks(&mut self) -> Played {
        let rows = self.rng.between(2, 5);
        let mut order = material::order(&mut self.rng, rows);
        for record in order.chunks_mut(RECORD) {
            record[3] |= self.rng.pick(&[0, 0, 2]);
        }
        self.network_of(&order)?;
        for row in 0..rows {
            if self.rng.one_in(4) {
                let setup = self.rng.between(2, 7) as u8;
                self.poke(Network::length_for(row) + SETUP, &[setup])?;
            }
        }
        self.times_alike()
    }

    // Times.

    fn times_alike(&mut self) -> Played {
        let et = self.rng.pick(&ETS);
        for row in 0..self.rows() {
            if self.et_of(row) != Some(et) {
                self.put_et(row, et)?;
            }
        }
        Ok(())
    }

    /// One row on line gets other times than it has, or each row any.
    fn times_differ(&mut self) -> Played {
        if self.rng.one_in(5) {
            return (0..self.rows()).try_for_each(|row| {
                let et = self.rng.pick(&ETS);
                self.put_et(row, et)
            });
        }
        let row = self.some_row_on_line().unwrap_or(0);
        self.put_other_et(row)
    }

    fn put_other_et(&mut self, row: usize) -> Played {
        let own = self.et_of(row);
        let other = ETS.map(Some).into_iter().filter(|et| *et != own);
        let others: Vec<u8> = other.flatten().collect();
        let et = self.rng.pick(&others);
        self.put_et(row, et)
    }

    /// By a write or by `poke`; all else of the configuration stays.
    fn put_et(&mut self, row: usize, et: u8) -> Played {
        let configuration = material::with_et(self.configuration_of(row), et);
        if self.rng.flag() {
            return self.write(row, 6, configuration);
        }
        self.poke(Network::length_for(row) + CONFIGURATION, &[configuration])
    }

    fn configuration_of(&mut self, row: usize) -> u8 {
        self.row(row).map_or(0, |row| row.configuration.byte())
    }

    // Clocked calls.

    fn clockstep(&mut self, faults: &[u32]) -> Played {
        let fault = self.rng.pick(faults);
        self.call(&format!("clockstep {fault}"))
    }

    fn clocksteps(&mut self, count: usize) -> Played {
        (0..count).try_for_each(|_| {
            let fault = self.fault();
            self.clockstep(&[fault])
        })
    }

    fn clocklap_anew(&mut self) -> Played {
        if self.phase() != Some(Phase::Lost) {
            self.timer_of_some_row()?;
        }
        self.call(&format!("clocklap {MOST_ROOM}"))
    }

    fn timer_of_some_row(&mut self) -> Played {
        let row = self.some_row_on_line().unwrap_or(0);
        self.call(&format!("timer {row}"))
    }

    // Packets.

    fn packet_clocked(&mut self) -> Played {
        let Some(sender) = self.packet_of_some_row()? else {
            return Ok(());
        };
        self.token_to(sender)?;
        self.clockstep(&[0, 0, 1, 2, 3])
    }

    /// A packet of any length waits, for a row that takes it or not, for all, or for nobody; or one that is
    /// malformed. The row that it waits in.
    fn packet_of_some_row(&mut self) -> Result<Option<usize>, String> {
        let Some((sender, target)) = self.pair_on_line() else {
            return Ok(None);
        };
        self.receiver(target)?;
        let (own, to) = (self.id_of(sender), self.id_of(target));
        let did = self.rng.pick(&[to, to, to, to, to, 0, own]);
        self.as_oldest(sender, |player, page| {
            player.packet_of_any_length(sender, page, did)?;
            if player.rng.one_in(6) {
                player.poke(page_start(sender, page) + 2, &[2])?;
            }
            Ok(())
        })?;
        Ok(Some(sender))
    }

    /// Two rows on line; at times one that takes only short packets is the second, and the other takes
    /// long ones.
    fn pair_on_line(&mut self) -> Option<(usize, usize)> {
        let long = |row: &Row| row.on_line() && row.long_packets;
        let short = |row: &Row| row.on_line() && !row.long_packets;
        let too_long = self.some_row_that(long).zip(self.some_row_that(short));
        if self.rng.one_in(5) && too_long.is_some() {
            return too_long;
        }
        let sender = self.some_row_on_line()?;
        let id = self.id_of(sender);
        let target = self.some_row_that(|row| row.on_line() && row.node_id != id)?;
        Some((sender, target))
    }

    /// Most often the row receives.
    fn receiver(&mut self, row: usize) -> Played {
        if self.row(row).is_some_and(Row::ri) && !self.rng.one_in(4) {
            self.enable_receive(row)?;
        }
        Ok(())
    }

    /// Of the fewest data bytes, of the most, or of any number between, short or long.
    fn packet_of_any_length(&mut self, row: usize, page: u8, did: u8) -> Played {
        let long = self.row(row).is_some_and(|row| row.long_packets) && page.is_multiple_of(2);
        let any = self.rng.between(5, 254) as u8;
        let header = if long && !self.rng.one_in(4) {
            vec![0x55, did, 0, self.rng.pick(&[4, 255, any])]
        } else {
            vec![0x55, did, self.rng.pick(&[3, 255, any])]
        };
        self.poke(page_start(row, page), &header)
    }

    /// Two packets wait, most often of other lengths, and cancels are asked of one, of both or of none.
    fn two_packets_clocked(&mut self) -> Played {
        let Some((sender, target)) = self.pair_on_line() else {
            return Ok(());
        };
        let chaining = material::with_chaining(self.configuration_of(sender), true);
        self.poke(Network::length_for(sender) + CONFIGURATION, &[chaining])?;
        if self.row(target).is_some_and(Row::ri) {
            self.enable_receive(target)?;
        }
        let waiting = |row: &Row| row.transmit.queue.waiting().count();
        for page in [0, 2] {
            if self.row(sender).map_or(2, waiting) < 2 {
                self.write(sender, 1, 0x03 | page_bits(page))?;
            }
        }
        let to = self.id_of(target);
        let did = self.rng.pick(&[to, to, 0]);
        let queue = self.row(sender).map(|row| row.transmit.queue);
        for waits in queue.iter().flat_map(Queue::waiting) {
            self.packet_of_any_length(sender, waits.page, did)?;
        }
        self.cancels_of_two(sender)?;
        self.token_to(sender)?;
        self.clockstep(&[0, 0, 0, 1, 2, 3])
    }

    fn cancels_of_two(&mut self, row: usize) -> Played {
        match self.rng.weighted(&[3, 3, 1, 3]) {
            0 => self.write(row, 1, 0x01),
            // Of the second alone, which no command does.
            1 => {
                let at = Network::length_for(row) + SECOND_TRANSMIT;
                let second = self.both.lent().image().get(at).copied().unwrap_or(0);
                self.poke(at, &[second | 0x80])
            }
            2 => {
                self.write(row, 1, 0x01)?;
                self.write(row, 1, 0x01)
            }
            _ => Ok(()),
        }
    }

    fn lap_of_packets_clocked(&mut self) -> Played {
        for _ in 0..self.rng.between(0, 3) {
            self.packet_of_some_row()?;
        }
        self.clocklap_anew()?;
        let count = self.rng.between(2, 4);
        self.clocksteps(count)
    }

    // Recoveries, and rows that do not count.

    /// A recovery after each thing that leads to one.
    fn recovery_clocked(&mut self) -> Played {
        if self.rng.flag() {
            // MYRECON is left only where a row bursts from here on.
            for row in 0..self.rows() {
                self.call(&format!("read {row} 1"))?;
            }
        }
        let row = self.some_row_on_line().unwrap_or(0);
        self.poke(4, &[1, row as u8])?;
        match self.rng.weighted(&[3, 1, 1, 1]) {
            0 => self.call("clockstep 3")?,
            1 => self.call(&format!("timer {row}"))?,
            2 => {
                self.configure(row, 0x18)?;
                self.configure(row, 0x38)?;
            }
            // It leaves, and comes back after the others have recovered.
            _ => {
                self.configure(row, 0x18)?;
                self.clocksteps(1)?;
                self.configure(row, 0x38)?;
            }
        }
        let count = self.rng.between(1, 2);
        self.clocksteps(count)
    }

    /// Some rows on line have other times than others. All else that clocked calls are refused for comes
    /// before that, and plain calls go on.
    fn times_mixed(&mut self) -> Played {
        self.times_alike()?;
        self.times_differ()?;
        self.timer_of_some_row()?;
        self.clocks_refused()?;
        self.clocks_refused()?;
        let row = self.some_row_on_line().unwrap_or(0);
        let phase = self.rng.pick(&[1, 2]);
        self.poke(4, &[phase, row as u8])?;
        self.clocks_refused()?;
        if self.rng.one_in(3) {
            self.meanwhile(6, &[1], Self::clocks_refused)?;
        }
        let count = self.rng.below(3);
        self.steps(count)
    }

    fn clocks_refused(&mut self) -> Played {
        self.clockstep(&[0, 0, 1, 1, 2, 2, 3, 3, 4, u32::MAX])?;
        let any = self.some_room();
        let room = self.rng.pick(&[any, MOST_ROOM as usize]);
        self.call(&format!("clocklap {room}"))
    }

    /// Rows off line have other times, and at least two on line have the same.
    fn off_line_differs(&mut self) -> Played {
        if self.on_line_count() < 3 {
            let rows = self.rng.between(3, 5);
            self.loaded_network(rows)?;
        }
        self.times_alike()?;
        let first = self.rng.below(3);
        for way in first..first + self.on_line_count().min(5) - 2 {
            let row = self.some_row_on_line().unwrap_or(0);
            self.off_line(row, way)?;
            self.put_other_et(row)?;
        }
        self.timer_of_some_row()?;
        self.clocksteps(2)?;
        self.clocklap_anew()?;
        let count = self.rng.between(2, 3);
        self.clocksteps(count)
    }

    /// Takes a row off line in one way alone.
    fn off_line(&mut self, row: usize, way: usize) -> Played {
        let on_line = self.configuration_of(row) & !RESET | TXEN;
        match way % 3 {
            0 => self.write(row, 6, on_line & !TXEN),
            1 => self.write(row, 6, on_line | RESET),
            _ => {
                self.write(row, 6, on_line & !TXEN & !SUB_ADDRESS | 1)?;
                self.write(row, 7, 0)?;
                self.write(row, 6, on_line)
            }
        }
    }

    /// All rows but one go off line, or all.
    fn only(&mut self, stays: Option<usize>) -> Played {
        for row in 0..self.rows() {
            if Some(row) != stays {
                let way = self.rng.below(3);
                self.off_line(row, way)?;
            }
        }
        Ok(())
    }

    /// One row stays on line, with any ID, most often with other times than another row.
    fn one_on_line(&mut self) -> Played {
        let row = self.some_row_on_line().unwrap_or(0);
        self.only(Some(row))?;
        if !self.rng.one_in(4) {
            self.put_other_et(row)?;
        }
        let own = self.id_of(row);
        let id = self.rng.pick(&[own, 1, 255]);
        self.poke(Network::length_for(row) + NODE_ID, &[id])?;
        self.token_to(row)?;
        self.clockstep(&[0, 1, 2, 3])?;
        self.clocks_refused()?;
        self.call(&format!("timer {row}"))?;
        self.clocks_refused()?;
        self.clockstep(&[0, 3])
    }

    /// No row is on line; most often one has other times than another.
    fn nobody_on_line(&mut self) -> Played {
        if self.rng.flag() {
            self.only(None)?;
        } else {
            let rows = self.rng.between(2, 4);
            self.fresh_network(rows)?;
        }
        if !self.rng.one_in(4) {
            let row = self.some_row();
            self.put_other_et(row)?;
        }
        self.clockstep(&[0, 1, 2, 3])?;
        self.clockstep(&[0, 1, 2, 3])?;
        self.steps(2)?;
        self.clocks_refused()
    }

    /// Clocked calls, and other times, of which none pokes a byte outside the rows.
    pub(super) fn clocked_in_rows(&mut self) -> Played {
        let alike = self.rows() <= 6 && self.rng.flag();
        if alike {
            self.times_alike()?;
        }
        match self.rng.weighted(&[4, 2, 1]) {
            0 => {
                let count = self.rng.between(1, 4);
                self.clocksteps(count)
            }
            1 => self.clocklap_anew(),
            _ => {
                self.times_differ()?;
                self.clocks_refused()
            }
        }
    }
}
