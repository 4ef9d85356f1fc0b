//! The scenes a campaign is made of. Each looks at the network as it stands and makes some calls;
//! which scene comes, and what it does, the seed decides.

mod fetched;
mod naks;
mod queues;
mod shuffled;

use crate::comparison::Comparison;
use crate::material::{self, WIDE};
use crate::model::{
    Network, Phase, Row, CHAINING, HEADER, MOST_ROWS, NAKS, PAGE, RAM, REGISTERS, ROW,
};
use crate::order::RECORD;
use crate::prompt::{hex_text, CAPACITY, MOST_ROOM};
use crate::rng::Rng;
use crate::tally::COMMANDS;

type Played = Result<(), String>;

/// Most bytes of one `poke`, so that its line is no longer than that of the longest order.
const MOST_POKED: usize = 512;

pub struct Player<'a> {
    both: Comparison<'a>,
    rng: Rng,
}

impl<'a> Player<'a> {
    pub fn new(both: Comparison<'a>, seed: u64) -> Player<'a> {
        Player {
            both,
            rng: Rng::new(seed),
        }
    }

    pub fn comparison(&self) -> &Comparison<'a> {
        &self.both
    }

    /// Plays scenes until so many calls have been made.
    pub fn play(&mut self, calls: u64) -> Played {
        while self.both.calls() < calls {
            self.scene()?;
        }
        self.both.finish()
    }

    fn scene(&mut self) -> Played {
        let weights = [
            3, 6, 7, 4, 4, 13, 13, 5, 9, 11, 8, 4, 15, 8, 3, 31, 12, 3, 18,
        ];
        match self.rng.weighted(&weights) {
            0 => self.new_network(),
            1 => self.fresh_of_any_size(),
            2 => self.orders(),
            3 => self.sizes(),
            4 => self.any_states(),
            5 => self.traffic(),
            6 => self.register_traffic(),
            7 => self.ram_access(),
            8 => self.comings_and_goings(),
            9 => self.damage(),
            10 => self.laps(),
            11 => self.page_readings(),
            12 => self.twins_and_tentative_ids(),
            13 => self.lines_not_understood(),
            14 => self.looks_at_bytes(),
            15 => self.queues(),
            16 => self.reads_ahead(),
            17 => self.in_another_order(),
            _ => self.naks(),
        }
    }

    // What the scenes have in common.

    fn call(&mut self, line: &str) -> Played {
        self.both.call(line.as_bytes())
    }

    fn write(&mut self, row: usize, register: u32, value: u8) -> Played {
        self.call(&format!("write {row} {register} {value}"))
    }

    fn poke(&mut self, at: usize, bytes: &[u8]) -> Played {
        // Digits of either case are taken.
        let mut digits = hex_text(bytes);
        if self.rng.one_in(4) {
            digits = digits.to_lowercase();
        }
        self.call(&format!("poke {at} {digits}"))
    }

    /// Rows of the network, 0 where it is not well formed.
    fn rows(&mut self) -> usize {
        self.both.network().map_or(0, |network| network.rows.len())
    }

    fn row(&mut self, row: usize) -> Option<&Row> {
        self.both
            .network()
            .and_then(|network| network.rows.get(row))
    }

    fn phase(&mut self) -> Option<Phase> {
        self.both.network().map(|network| network.phase)
    }

    fn on_line_count(&mut self) -> usize {
        self.both.network().map_or(0, Network::on_line_count)
    }

    /// A row of the network, or row 0 where it is not well formed.
    fn some_row(&mut self) -> usize {
        let rows = self.rows().max(1);
        self.rng.below(rows)
    }

    /// A row that is on line, where there is one.
    fn some_row_on_line(&mut self) -> Option<usize> {
        let on_line = self.on_line_count();
        let nth = self.rng.below(on_line.max(1));
        let network = self.both.network()?;
        (0..network.rows.len())
            .filter(|row| network.rows[*row].on_line())
            .nth(nth)
    }

    /// A row of which this holds, where there is one.
    fn some_row_that(&mut self, holds: impl Fn(&Row) -> bool) -> Option<usize> {
        let first = self.some_row();
        let network = self.both.network()?;
        let rows = network.rows.len();
        (first..first + rows)
            .map(|row| row % rows)
            .find(|row| holds(&network.rows[*row]))
    }

    fn some_row_chaining(&mut self) -> Option<usize> {
        self.some_row_that(Row::chaining)
    }

    /// Writes a configuration, with CCHEN as the row has it.
    fn configure(&mut self, row: usize, configuration: u8) -> Played {
        let chaining = self.row(row).is_some_and(Row::chaining);
        self.write(row, 6, material::with_chaining(configuration, chaining))
    }

    /// A row number that may be past the rows.
    fn row_number(&mut self) -> usize {
        match self.rng.weighted(&[20, 1, 1]) {
            0 => self.some_row(),
            1 => self.rows() + self.rng.below(2),
            _ => self.rng.pick(&WIDE) as usize,
        }
    }

    /// Sees to a network that is well formed and most often small.
    fn ready(&mut self) -> Played {
        let rows = self.rows();
        if rows == 0
            || rows == 1 && self.rng.flag()
            || rows > 6 && self.rng.flag()
            || self.rng.one_in(15)
        {
            self.new_network()?;
        }
        Ok(())
    }

    fn fault(&mut self) -> u32 {
        let weights = match self.phase() {
            Some(Phase::Taken { .. }) => [12, 5, 5, 4, 1],
            Some(Phase::Pass { .. }) => [40, 3, 3, 2, 1],
            Some(Phase::Lost) | None => [6, 2, 2, 2, 1],
        };
        match self.rng.weighted(&weights) {
            4 => self.rng.pick(&[4, 5, 7, 255, 256, 258, 65_536, u32::MAX]),
            fault => fault as u32,
        }
    }

    fn step(&mut self) -> Played {
        let fault = self.fault();
        self.call(&format!("step {fault}"))
    }

    fn steps(&mut self, count: usize) -> Played {
        (0..count).try_for_each(|_| self.step())
    }

    /// Leads the line to where every NID is the ID of the next row, so that steps meet packets and
    /// not idle invitations.
    fn settle(&mut self) -> Played {
        if self.phase() != Some(Phase::Lost) {
            let Some(row) = self.some_row_on_line() else {
                return Ok(());
            };
            self.call(&format!("timer {row}"))?;
        }
        self.call(&format!("lap {MOST_ROOM}"))
    }

    /// One call of any of the words that ask SHAPE.
    fn any_call(&mut self) -> Played {
        let row = self.row_number();
        match self.rng.below(9) {
            0 => self.call("check"),
            1 => self.any_read(),
            2 => self.any_write(),
            3 => self.call(&format!("reset {row}")),
            4 => self.call(&format!("timer {row}")),
            5 => self.call(&format!("interrupt {row}")),
            6 => self.step(),
            7 => self.any_data(),
            _ => self.any_lap(),
        }
    }

    fn any_read(&mut self) -> Played {
        let row = self.row_number();
        let register = material::register_number(&mut self.rng);
        // Numbers may have leading zeros.
        let zeros = if self.rng.one_in(20) { "00" } else { "" };
        self.call(&format!("read {zeros}{row} {zeros}{register}"))
    }

    fn any_write(&mut self) -> Played {
        let row = self.row_number();
        let register = material::register_number(&mut self.rng);
        let value = material::register_value(&mut self.rng, register);
        self.call(&format!("write {row} {register} {value}"))
    }

    fn any_data(&mut self) -> Played {
        let row = self.row_number();
        let page = match self.rng.weighted(&[12, 1, 1]) {
            0 => self.rng.below(4) as u32,
            1 => self.rng.pick(&[4, 5, 255]),
            _ => self.rng.pick(&WIDE),
        };
        self.call(&format!("data {row} {page}"))
    }

    fn any_lap(&mut self) -> Played {
        let on_line = self.on_line_count();
        let room = match self.rng.below(7) {
            0 | 1 => on_line,
            2 => on_line.saturating_sub(1),
            3 => self.rng.below(on_line + 1),
            4 => on_line + 1,
            5 => 0,
            _ => MOST_ROOM as usize,
        };
        self.call(&format!("lap {room}"))
    }

    // Networks.

    fn new_network(&mut self) -> Played {
        let rows = material::row_count(&mut self.rng);
        match self.rng.weighted(&[5, 2, 2]) {
            0 => self.loaded_network(rows)?,
            1 => {
                self.fresh_network(rows)?;
                self.set_up_by_registers()?;
            }
            _ => {
                self.fresh_network(rows)?;
                self.any_states()?;
            }
        }
        self.fill_ram()
    }

    fn loaded_network(&mut self, rows: usize) -> Played {
        let order = material::order(&mut self.rng, rows);
        self.network_of(&order)
    }

    fn network_of(&mut self, order: &[u8]) -> Played {
        let length = Network::length_for(order.len() / RECORD);
        self.call(&format!("size {length}"))?;
        self.call(&format!("load {}", hex_text(order)))
    }

    fn fresh_network(&mut self, rows: usize) -> Played {
        self.call(&format!("size {}", Network::length_for(rows)))?;
        self.call(&format!("fresh {rows}"))
    }

    /// Rows set up as loading does it, one thing or another left out or done otherwise. IDs may
    /// meet.
    fn set_up_by_registers(&mut self) -> Played {
        if self.rng.flag() {
            self.step()?;
        }
        for row in 0..self.rows() {
            let id = material::nearby_id(&mut self.rng);
            let chaining = self.rng.pick(&[0x00, 0x40]);
            self.write(row, 6, 0x19 | chaining)?;
            self.write(row, 7, id)?;
            if self.rng.one_in(3) {
                self.write(row, 1, 0x0D)?;
            }
            if self.rng.flag() {
                self.enable_receive(row)?;
            }
            let configuration = self.rng.pick(&[0x38, 0x38, 0x38, 0x38, 0x39, 0x18, 0x98]);
            self.write(row, 6, configuration | chaining)?;
        }
        if self.rng.flag() {
            self.step()?;
        }
        Ok(())
    }

    /// Puts rows into states by `poke` that registers would take long to lead to, or never would.
    fn any_states(&mut self) -> Played {
        if self.rows() == 0 {
            let rows = self.rng.between(2, 5);
            self.fresh_network(rows)?;
        }
        let rows = self.rows();
        let ids = material::ids(&mut self.rng, rows);
        // LOST, so that no holder is put off line on the way.
        self.poke(4, &[0, 0])?;
        for (row, mut id) in ids.into_iter().enumerate() {
            if self.rng.one_in(12) {
                id = material::nearby_id(&mut self.rng);
            }
            let registers = material::registers(&mut self.rng, id);
            self.poke(Network::length_for(row), &registers[..NAKS.end])?;
        }
        if let Some(holder) = self.some_row_on_line() {
            let phase = self.rng.below(3) as u8;
            let holder = if phase == 0 { 0 } else { holder as u8 };
            self.poke(4, &[phase, holder])?;
        }
        self.call("check")?;
        let count = self.rng.between(2, 8);
        self.steps(count)
    }

    /// Random bytes in RAM, so that every stored byte shows.
    fn fill_ram(&mut self) -> Played {
        for row in 0..self.rows().min(6) {
            for half in [0, MOST_POKED] {
                if self.rng.flag() {
                    let bytes = self.rng.bytes(MOST_POKED);
                    self.poke(Network::length_for(row) + REGISTERS + half, &bytes)?;
                }
            }
        }
        Ok(())
    }

    fn fresh_of_any_size(&mut self) -> Played {
        let rows = match self.rng.weighted(&[4, 2, 1, 1]) {
            0 => self.rng.between(1, 5),
            1 => self.rng.pick(&[0, 61, 62, 255]),
            2 => self.rng.pick(&WIDE) as usize,
            _ => self.rng.between(1, MOST_ROWS),
        };
        let exact = Network::length_for(rows.min(MOST_ROWS + 1));
        let length = if self.rng.one_in(3) {
            self.wrong_length(exact)
        } else {
            exact
        };
        self.call(&format!("size {length}"))?;
        self.call(&format!("fresh {rows}"))?;
        self.any_call()?;
        self.any_call()
    }

    /// A length near this one, or any.
    fn wrong_length(&mut self, length: usize) -> usize {
        let wrong = match self.rng.below(8) {
            0 => length + 1,
            1 => length.saturating_sub(1),
            2 => length + ROW,
            3 => length.saturating_sub(ROW),
            4 => self.rng.below(HEADER + 2),
            5 => length.saturating_sub(16),
            6 => self.rng.below(length + 1),
            _ => CAPACITY,
        };
        wrong.min(CAPACITY)
    }

    /// Good orders and bad ones, into lent bytes of one length.
    fn orders(&mut self) -> Played {
        let records = match self.rng.weighted(&[38, 1, 1]) {
            0 => self.rng.between(1, 6),
            1 => MOST_ROWS,
            _ => self.rng.between(7, MOST_ROWS),
        };
        let exact = Network::length_for(records);
        let length = if self.rng.one_in(3) {
            self.wrong_length(exact)
        } else {
            exact
        };
        self.call(&format!("size {length}"))?;
        for _ in 0..self.rng.between(10, 30) {
            let order = match self.rng.weighted(&[2, 8, 2]) {
                0 => material::order(&mut self.rng, records),
                1 => material::order_with_bad_records(&mut self.rng, records),
                _ => material::order_of_wrong_length(&mut self.rng, records),
            };
            match order.as_slice() {
                [] => self.call("load")?,
                order => self.call(&format!("load {}", hex_text(order)))?,
            }
        }
        self.any_call()
    }

    /// Wrong lengths and back again: what lies beyond the length stays.
    fn sizes(&mut self) -> Played {
        self.ready()?;
        let right = self.both.lent().length();
        for _ in 0..self.rng.between(1, 3) {
            let wrong = self.wrong_length(right);
            self.call(&format!("size {wrong}"))?;
            self.any_call()?;
            if self.rng.one_in(6) {
                let zeros = "0".repeat(self.rng.below(12));
                self.call(&format!("size {zeros}{wrong}"))?;
            }
        }
        self.call(&format!("size {right}"))?;
        self.call("check")
    }

    // Packets.

    fn traffic(&mut self) -> Played {
        self.ready()?;
        if self.on_line_count() < 2 && !self.rng.one_in(6) {
            let rows = self.rng.between(2, 5);
            self.loaded_network(rows)?;
            self.fill_ram()?;
        }
        for _ in 0..self.rng.between(5, 15) {
            let row = self.some_row();
            match self.rng.weighted(&[14, 2, 2, 2, 3, 1, 2]) {
                0 => {
                    let sender = self.some_row_on_line().unwrap_or(row);
                    self.packet_tried(sender)?;
                }
                1 => self.waiting_packet(row)?,
                2 => self.enable_receive(row)?,
                3 => self.flags_and_cancels(row)?,
                4 => {
                    let count = self.rng.between(1, 4);
                    self.steps(count)?;
                }
                5 => self.call(&format!("read {row} 1"))?,
                _ => self.masked_interrupt(row)?,
            }
        }
        Ok(())
    }

    /// The interrupt of a row whose POR is cleared.
    fn masked_interrupt(&mut self, row: usize) -> Played {
        let mask = self.rng.pick(&[0x80, 0x08, 0x04, 0x01, 0x00, 0x8D]);
        self.write(row, 0, mask)?;
        self.write(row, 1, 0x0E)?;
        self.call(&format!("interrupt {row}"))
    }

    /// Whether every NID is the ID of another row on line.
    fn settled(&mut self) -> bool {
        self.both.network().is_some_and(|network| {
            let rows = network
                .rows
                .iter()
                .enumerate()
                .filter(|(_, row)| row.on_line());
            let mut passing =
                rows.map(|(index, row)| network.other_on_line(index, row.nid).is_some());
            network.phase != Phase::Lost && passing.all(|passes| passes)
        })
    }

    /// Receivers that may wait, a packet, and the token until the sender has had it.
    fn packet_tried(&mut self, sender: usize) -> Played {
        self.receivers()?;
        self.waiting_packet(sender)?;
        if self.rng.one_in(8) {
            self.flags_and_cancels(sender)?;
        }
        self.turn_of(sender)
    }

    fn receivers(&mut self) -> Played {
        if !self.settled() && !self.rng.one_in(8) {
            self.settle()?;
        }
        for row in 0..self.rows().min(6) {
            let idle = self.row(row).is_some_and(Row::ri);
            if self.rng.one_in(if idle { 2 } else { 12 }) {
                self.enable_receive(row)?;
            }
        }
        Ok(())
    }

    /// Steps until the sender has had its turn, where it comes soon.
    fn turn_of(&mut self, sender: usize) -> Played {
        for _ in 0..2 * self.on_line_count().min(6) + 1 {
            let at_the_token = self.phase() == Some(Phase::Taken { holder: sender });
            if at_the_token && self.rng.one_in(3) {
                // So that what the sender hears now is seen.
                self.call(&format!("read {sender} 1"))?;
            }
            self.step()?;
            if at_the_token {
                break;
            }
        }
        Ok(())
    }

    fn enable_receive(&mut self, row: usize) -> Played {
        let page = self.page_for(row);
        let broadcasts = if self.rng.one_in(3) { 0x00 } else { 0x80 };
        self.write(row, 1, 0x04 | broadcasts | material::page_bits(page))
    }

    fn flags_and_cancels(&mut self, row: usize) -> Played {
        let command = self.rng.pick(&[
            0x01, 0x01, 0x02, 0x02, 0x05, 0x05, 0x0D, 0x0D, 0x06, 0x0E, 0x0E, 0x16, 0x1E, 0x00,
            0x08,
        ]);
        self.write(row, 1, command)
    }

    /// A page the row takes most often: an even one where its packets may be long.
    fn page_for(&mut self, row: usize) -> u8 {
        let long = self.row(row).is_some_and(|row| row.long_packets);
        if long && !self.rng.one_in(6) {
            self.rng.pick(&[0, 2])
        } else {
            self.rng.below(4) as u8
        }
    }

    /// Writes a packet into a page, by registers or by `poke`, and enables the transmitter on it.
    fn waiting_packet(&mut self, row: usize) -> Played {
        let long = self.row(row).is_some_and(|row| row.long_packets);
        let page = self.page_for(row);
        let did = self.did_for(row);
        let header = material::packet_header(&mut self.rng, did, long);
        let at = PAGE * usize::from(page);
        match self.rng.weighted(&[3, 1, 3]) {
            0 => self.fill_by_increment(row, at, &header)?,
            1 => self.fill_by_pointer(row, at, &header)?,
            _ => self.poke(Network::length_for(row) + REGISTERS + at, &header)?,
        }
        self.write(row, 1, 0x03 | material::page_bits(page))
    }

    /// Where a packet may go: to another row on line, to all, to itself, to one off line, nowhere.
    fn did_for(&mut self, row: usize) -> u8 {
        let one = self.some_row_on_line();
        let another = self.some_row_on_line();
        let target = match self.rng.weighted(&[10, 3, 1, 2, 1]) {
            0 => one.filter(|one| *one != row).or(another).unwrap_or(row),
            1 => return 0,
            2 => row,
            3 => self.some_row(),
            _ => return self.rng.byte(),
        };
        self.row(target).map_or(0, |row| row.node_id)
    }

    fn fill_by_increment(&mut self, row: usize, at: usize, bytes: &[u8]) -> Played {
        self.write(row, 2, 0x40 | (at >> 8) as u8)?;
        self.write(row, 3, at as u8)?;
        bytes.iter().try_for_each(|byte| self.write(row, 4, *byte))
    }

    fn fill_by_pointer(&mut self, row: usize, at: usize, bytes: &[u8]) -> Played {
        self.write(row, 2, (at >> 8) as u8)?;
        for (place, byte) in (at..).zip(bytes) {
            self.write(row, 3, place as u8)?;
            self.write(row, 4, *byte)?;
        }
        Ok(())
    }

    fn page_readings(&mut self) -> Played {
        self.ready()?;
        for _ in 0..self.rng.between(2, 6) {
            let row = self.some_row();
            let page = self.rng.below(4);
            if self.rng.flag() {
                let did = self.rng.byte();
                let header = material::packet_header(&mut self.rng, did, true);
                self.poke(Network::length_for(row) + REGISTERS + PAGE * page, &header)?;
            }
            self.call(&format!("data {row} {page}"))?;
            self.any_data()?;
        }
        Ok(())
    }

    // Registers.

    fn register_traffic(&mut self) -> Played {
        self.ready()?;
        for _ in 0..self.rng.between(8, 20) {
            let row = self.some_row();
            match self.rng.weighted(&[10, 5, 2, 1]) {
                0 => self.any_write()?,
                1 => self.any_read()?,
                2 => self.call(&format!("interrupt {row}"))?,
                _ => self.step()?,
            }
        }
        Ok(())
    }

    /// Pointer, staged bits, both directions, and the pointer's way over the end of RAM.
    fn ram_access(&mut self) -> Played {
        self.ready()?;
        let row = self.some_row();
        let mode = self.rng.pick(&[0x00, 0x40, 0x40, 0x80, 0xC0, 0xC0]);
        let at = if self.rng.flag() {
            RAM - self.rng.between(1, 3)
        } else {
            self.rng.below(RAM)
        };
        self.write(row, 2, mode | (at >> 8) as u8)?;
        self.call(&format!("read {row} 2"))?;
        self.write(row, 3, at as u8)?;
        for _ in 0..self.rng.between(2, 6) {
            let value = self.rng.byte();
            match self.rng.weighted(&[6, 6, 1, 1, 1]) {
                0 => self.call(&format!("read {row} 4"))?,
                1 => self.write(row, 4, value)?,
                2 => self.call(&format!("read {row} 2"))?,
                3 => self.call(&format!("read {row} 3"))?,
                _ => self.write(row, 2, value & 0xC3)?,
            }
        }
        Ok(())
    }

    /// Rows that come on line, go off, sleep, wake, are reset, and take each other's IDs.
    fn comings_and_goings(&mut self) -> Played {
        self.ready()?;
        for _ in 0..self.rng.between(5, 15) {
            self.coming_or_going()?;
        }
        Ok(())
    }

    fn coming_or_going(&mut self) -> Played {
        let row = self.row_number();
        match self.rng.weighted(&[8, 6, 3, 2, 2, 4, 4]) {
            0 => {
                let configuration = material::plain_configuration(&mut self.rng);
                self.write(row, 6, configuration)?;
                if self.rng.one_in(4) {
                    self.call(&format!("read {row} 7"))?;
                }
                Ok(())
            }
            1 => {
                let other = self.some_row();
                let theirs = self.row(other).map_or(0, |row| row.node_id);
                let nearby = material::nearby_id(&mut self.rng);
                let id = self.rng.pick(&[theirs, nearby, nearby, 0]);
                self.write(row, 7, id)
            }
            2 => self.call(&format!("reset {row}")),
            3 => self.call(&format!("timer {row}")),
            4 => self.call(&format!("interrupt {row}")),
            5 => {
                for _ in 0..self.rng.between(1, 4) {
                    let command = self.rng.pick(&COMMANDS);
                    self.write(row, 1, command)?;
                }
                Ok(())
            }
            _ => self.step(),
        }
    }

    /// Awake rows off line with the ID of one on line (DUPID), and tentative IDs that are taken
    /// (TENTID), while the token goes round.
    fn twins_and_tentative_ids(&mut self) -> Played {
        self.ready()?;
        self.twin_and_tentative_id()
    }

    fn twin_and_tentative_id(&mut self) -> Played {
        let Some(original) = self.some_row_on_line() else {
            return Ok(());
        };
        let any = self.some_row();
        let chaining = self.some_row_chaining().unwrap_or(any);
        let twin = self.rng.pick(&[any, chaining]);
        let id = self.row(original).map_or(0, |row| row.node_id);
        if twin != original {
            let reset = self.rng.flag();
            if reset {
                self.configure(twin, 0x99)?;
            }
            self.configure(twin, 0x19)?;
            if self.rng.one_in(3) {
                // On line but for its ID, so that the write of the ID itself is refused.
                self.write(twin, 7, 0)?;
                self.configure(twin, 0x39)?;
            }
            self.write(twin, 7, id)?;
            if !reset {
                self.enable_receive(twin)?;
            }
            match self.rng.weighted(&[2, 4, 2]) {
                0 => self.configure(twin, 0x39)?,
                // CCHEN is to change with the write that would put it on line.
                1 => self.change_chaining(twin, 0x39)?,
                _ => {}
            }
        }
        let asking = self.some_row();
        let txen = self
            .row(asking)
            .map_or(0, |row| row.configuration.byte() & 0x20);
        self.configure(asking, 0x18 | txen)?;
        self.write(asking, 7, id)?;
        self.settle()?;
        for _ in 0..self.rng.between(2, 8) {
            let row = self.some_row();
            self.step()?;
            self.call(&format!("read {row} 1"))?;
        }
        Ok(())
    }

    // Laps, damage, and the lines themselves.

    fn laps(&mut self) -> Played {
        self.ready()?;
        match self.rng.below(4) {
            // All but one go off line.
            0 => {
                let stays = self.some_row_on_line();
                for row in 0..self.rows().min(6) {
                    if Some(row) != stays {
                        self.configure(row, 0x18)?;
                    }
                }
                self.any_lap()?;
            }
            // A lap that packets wait for.
            1 => {
                for _ in 0..self.rng.between(1, 3) {
                    let row = self.some_row();
                    self.waiting_packet(row)?;
                }
                self.settle()?;
            }
            _ => self.any_lap()?,
        }
        for _ in 0..self.rng.between(1, 4) {
            self.lap_anew()?;
        }
        Ok(())
    }

    /// A lap, most often from LOST.
    fn lap_anew(&mut self) -> Played {
        if let (Some(row), true) = (self.some_row_on_line(), self.rng.flag()) {
            self.call(&format!("timer {row}"))?;
        }
        self.any_lap()
    }

    fn damage(&mut self) -> Played {
        self.ready()?;
        for _ in 0..self.rng.between(1, 4) {
            let change = self.changed_bytes();
            self.damaged_by(change)?;
        }
        if self.rng.flag() {
            self.steps_without_holder()?;
        }
        self.call("check")
    }

    /// Some bytes changed, a `check` and some calls, and the bytes put back.
    fn damaged_by(&mut self, (at, new): (usize, Vec<u8>)) -> Played {
        self.meanwhile(at, &new, |player| {
            player.call("check")?;
            for _ in 0..player.rng.below(4) {
                player.any_call()?;
            }
            Ok(())
        })
    }

    /// Steps, and perhaps a lap, in PASS or TAKEN while the holder is off line (C-20).
    fn steps_without_holder(&mut self) -> Played {
        let Some(holder) = self.some_row_that(|row| !row.on_line()) else {
            return Ok(());
        };
        let phase = self.rng.pick(&[1, 2]);
        self.meanwhile(4, &[phase, holder as u8], |player| {
            let count = player.rng.between(1, 4);
            player.steps(count)?;
            if player.rng.flag() {
                player.any_lap()?;
            }
            Ok(())
        })
    }

    /// Makes calls while some bytes are others, and puts the bytes back.
    fn meanwhile(
        &mut self,
        at: usize,
        new: &[u8],
        calls: impl FnOnce(&mut Self) -> Played,
    ) -> Played {
        let place = at..at + new.len();
        let Some(old) = self.both.lent().image().get(place).map(<[u8]>::to_vec) else {
            return Ok(());
        };
        self.poke(at, new)?;
        calls(self)?;
        self.poke(at, &old)
    }

    /// Where bytes are to be changed, and to what.
    fn changed_bytes(&mut self) -> (usize, Vec<u8>) {
        let row = Network::length_for(self.some_row());
        let at = match self.rng.weighted(&[4, 8, 4, 1, 3, 2, 2, 2]) {
            0 => self.rng.below(HEADER),
            1 => row + self.rng.below(CHAINING.start),
            2 => row + self.rng.between(CHAINING.start, REGISTERS - 1),
            3 => row + REGISTERS + self.rng.below(RAM),
            // Pages that are enabled or not, odd ones with long packets too.
            4 => {
                let [transmit, receive, long] =
                    [0x83, 0xC3, 0x01].map(|bits| self.rng.byte() & bits);
                return (row + 13, vec![transmit, receive, long]);
            }
            // The ID of a row that is on line.
            5 => {
                let twin = self.some_row_on_line().and_then(|twin| self.row(twin));
                return (row + 2, vec![twin.map_or(0, |twin| twin.node_id)]);
            }
            // TMA set or not, with TA or without.
            6 => {
                let status = self.both.lent().image().get(row + 3).copied();
                let flipped = status.unwrap_or(0) ^ self.rng.pick(&[0x02, 0x03]);
                return (row + 3, vec![flipped]);
            }
            // A holder that may be off line or past the rows.
            _ => {
                let rows = self.rows();
                let (phase, holder) = (self.rng.below(4), self.rng.below(rows + 2));
                return (4, vec![phase as u8, holder as u8]);
            }
        };
        let old = self.both.lent().image().get(at).copied().unwrap_or(0);
        let flipped = old ^ 1 << self.rng.below(8);
        let other = self.rng.byte();
        (at, vec![self.rng.pick(&[flipped, flipped, flipped, other])])
    }

    fn lines_not_understood(&mut self) -> Played {
        for _ in 0..self.rng.between(3, 9) {
            let line = material::not_understood(&mut self.rng);
            self.both.call(&line)?;
        }
        let length = self.both.lent().length();
        match self.rng.below(4) {
            0 => self.call(&format!("poke {length} 00")),
            1 => self.call(&format!("peek {} {}", length / 2, length - length / 2 + 1)),
            2 => self.call(&format!("poke {} 0000", length.saturating_sub(1))),
            _ => self.call(&format!("peek {} 0", length + 1)),
        }
    }

    fn looks_at_bytes(&mut self) -> Played {
        let length = self.both.lent().length();
        let at = self.rng.below(length + 1);
        let count = self.rng.below((length - at).min(ROW) + 1);
        self.call(&format!("peek {at} {count}"))?;
        if self.rng.one_in(10) {
            self.call(&format!("peek 0 {length}"))?;
        }
        self.call("sum")
    }
}
