//! The scene of register 4, request C-13: bytes that are fetched, grow old, and are read.

use super::{Played, Player};
use crate::material::{self, WIDE};
use crate::model::{Network, Row, FETCHED, PAGE, RAM, REGISTERS};

impl Player<'_> {
    /// Rows that most often all receive, long packets too, and what makes their fetched bytes old.
    pub(super) fn reads_ahead(&mut self) -> Played {
        self.ready()?;
        let mut anew = self.rng.one_in(3);
        for _ in 0..self.rng.between(3, 6) {
            if anew || self.on_line_count() < 2 {
                let rows = self.rng.between(2, 4);
                let order = material::order_of_receivers(&mut self.rng, rows);
                self.network_of(&order)?;
                self.fill_ram()?;
            }
            anew = false;
            let row = self.some_row();
            match self.rng.weighted(&[12, 6, 2, 1]) {
                0 => self.packet_over_fetched_bytes()?,
                1 => self.old_byte(row)?,
                // The byte that may hold anything, or one beside it.
                2 => {
                    let byte = self.rng.between(FETCHED - 1, FETCHED + 2);
                    let value = self.rng.between(1, 255) as u8;
                    self.damaged_by((Network::length_for(row) + byte, vec![value]))?;
                }
                _ => self.read_before_any_load()?,
            }
        }
        Ok(())
    }

    /// A byte is fetched, something is done that may make it an old one, and it is read.
    pub(super) fn old_byte(&mut self, row: usize) -> Played {
        let page = PAGE * self.rng.below(4);
        let any = self.rng.below(PAGE);
        let at = page + self.rng.pick(&[any, 0, PAGE - 1]);
        self.different_bytes(row, at)?;
        self.fetch(row, at)?;
        for _ in 0..self.rng.between(1, 3) {
            self.grows_old(row)?;
        }
        self.read_on(row)
    }

    /// Bytes at an address and behind it that differ from each other and from 0.
    fn different_bytes(&mut self, row: usize, at: usize) -> Played {
        let first = self.rng.between(1, 253) as u8;
        let bytes = [first, first + 1, first + 2];
        if self.rng.flag() {
            return self.fill_by_increment(row, at, &bytes);
        }
        let ram = Network::length_for(row) + REGISTERS;
        let (here, over_the_end) = bytes.split_at(bytes.len().min(RAM - at));
        self.poke(ram + at, here)?;
        if over_the_end.is_empty() {
            return Ok(());
        }
        self.poke(ram, over_the_end)
    }

    /// Leads the pointer to an address: by a load, or by an incremented read of the byte before it. To 0
    /// it goes over the end of RAM most often.
    fn fetch(&mut self, row: usize, at: usize) -> Played {
        let by_a_read = self.rng.one_in(3) || at == 0 && self.rng.flag();
        if by_a_read {
            self.load_pointer(row, 0xC0, (at + RAM - 1) % RAM)?;
            return self.call(&format!("read {row} 4"));
        }
        let mode = self.rng.pick(&[0x00, 0x40, 0x80, 0x80, 0xC0, 0xC0]);
        self.load_pointer(row, mode, at)
    }

    fn load_pointer(&mut self, row: usize, mode: u8, at: usize) -> Played {
        self.write(row, 2, mode | (at >> 8) as u8)?;
        self.write(row, 3, at as u8)
    }

    /// Something that makes the fetched byte an old one, or that leaves it as it is.
    fn grows_old(&mut self, row: usize) -> Played {
        let place = Network::length_for(row);
        let pointer = self.row(row).map_or(0, |row| usize::from(row.pointer));
        let byte = self.rng.byte();
        match self.rng.weighted(&[4, 2, 2, 2, 2, 3, 2, 1]) {
            0 => {
                let mode = self.rng.pick(&[0x00, 0x40]) | self.rng.below(4) as u8;
                self.write(row, 2, mode)?;
                self.write(row, 4, byte)
            }
            1 => self.hardware_reset_and_back(row),
            2 => {
                self.configure(row, 0xB8)?;
                self.configure(row, 0x38)
            }
            3 => self.poke(place + REGISTERS + pointer, &[byte]),
            4 => self.poke(place + FETCHED, &[byte]),
            5 => self.refused_accesses(row),
            6 => {
                self.call(&format!("timer {row}"))?;
                let count = self.rng.between(0, 2);
                self.steps(count)
            }
            // The pointer is loaded with what it is.
            _ => self.load_pointer(row, 0x80, pointer),
        }
    }

    /// A hardware reset, and the row on line again with its ID.
    pub(super) fn hardware_reset_and_back(&mut self, row: usize) -> Played {
        let id = self.row(row).map_or(0, |row| row.node_id);
        self.call(&format!("reset {row}"))?;
        self.write(row, 6, 0x19)?;
        self.write(row, 7, id)?;
        self.write(row, 6, 0x38)
    }

    /// A load that is refused, and a read or a write against the direction.
    fn refused_accesses(&mut self, row: usize) -> Played {
        let wide = self.rng.pick(&WIDE);
        self.call(&format!("write {row} 3 {wide}"))?;
        if self.rng.flag() {
            self.write(row, 2, 0x40)?;
            return self.call(&format!("read {row} 4"));
        }
        self.write(row, 2, 0xC0)?;
        let byte = self.rng.byte();
        self.write(row, 4, byte)
    }

    /// Reads of register 4; before them register 2 is written where RDDATA is 0, and else at times.
    fn read_on(&mut self, row: usize) -> Played {
        let rddata = self.row(row).is_some_and(|row| row.mode.rddata);
        if !rddata || self.rng.one_in(3) {
            let mode = self.rng.pick(&[0x80, 0xC0]) | self.rng.below(4) as u8;
            self.write(row, 2, mode)?;
        }
        let read = format!("read {row} 4");
        (0..self.rng.between(1, 3)).try_for_each(|_| self.call(&read))
    }

    /// A new network, in which no pointer was loaded: 0 is read, whatever is in RAM.
    fn read_before_any_load(&mut self) -> Played {
        let rows = self.rng.between(2, 4);
        if self.rng.flag() {
            self.loaded_network(rows)?;
        } else {
            self.fresh_network(rows)?;
        }
        let row = self.some_row();
        self.poke(Network::length_for(row) + REGISTERS, &[0x11, 0x22, 0x33])?;
        self.read_on(row)
    }

    /// A packet goes from one row to another. Before it does, the byte that its own ID is written over
    /// is fetched in the one, and a byte that the packet is stored over in the other.
    pub(super) fn packet_over_fetched_bytes(&mut self) -> Played {
        if !self.settled() {
            self.settle()?;
        }
        let Some(sender) = self.some_row_that(|row| row.on_line() && row.ta()) else {
            return Ok(());
        };
        let id = self.row(sender).map_or(0, |row| row.node_id);
        let another = self.some_row_that(|row| row.on_line() && row.node_id != id);
        let Some(receiver) = another else {
            return Ok(());
        };
        let is_long = |row: &Row| row.long_packets;
        let long = [sender, receiver].map(|row| self.row(row).is_some_and(is_long));
        let long = long == [true, true] && !self.rng.one_in(4);
        self.fetch_where_it_is_stored(receiver, long)?;
        let to = self.row(receiver).map_or(0, |row| row.node_id);
        let did = self.rng.pick(&[to, 0]);
        self.packet_from_fetched_byte(sender, did, long)?;
        if self.rng.one_in(4) {
            self.settle()?;
        } else {
            self.turn_of(sender)?;
        }
        self.read_on(receiver)?;
        self.read_on(sender)
    }

    /// Fetches a byte of the page that a packet is going to be stored in: one of its header, or its last.
    fn fetch_where_it_is_stored(&mut self, row: usize, long: bool) -> Played {
        if self.row(row).is_some_and(Row::ri) {
            self.enable_receive(row)?;
        }
        let receive = self.row(row).and_then(|row| row.receive.queue.oldest());
        let page = receive.map_or(0, |receive| usize::from(receive.page));
        let last = if long { 2 * PAGE - 1 } else { PAGE - 1 };
        let at = PAGE * page + self.rng.pick(&[0, 0, 0, 1, 2, last, last, last]);
        self.different_bytes(row, at)?;
        self.fetch(row, at)
    }

    /// A packet with another SID than the row's ID waits, its byte 0 fetched.
    fn packet_from_fetched_byte(&mut self, row: usize, did: u8, long: bool) -> Played {
        let page = self.page_for(row);
        let at = PAGE * usize::from(page);
        let id = self.row(row).map_or(0, |row| row.node_id);
        let sid = id.wrapping_add(self.rng.between(1, 255) as u8);
        let count = self.rng.between(4, 255) as u8;
        let header: &[u8] = if long {
            &[sid, did, 0, count]
        } else {
            &[sid, did, count]
        };
        self.poke(Network::length_for(row) + REGISTERS + at, header)?;
        self.fetch(row, at)?;
        self.write(row, 1, 0x03 | material::page_bits(page))
    }
}
