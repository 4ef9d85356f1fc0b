//! Document 01, "One line step", with requests C-11 and C-16, and the lap call.

use crate::model::{Network, Phase, Row};
use crate::packet::Packet;
use crate::refusal::Refusal;

#[derive(Clone, Copy, Debug, PartialEq, Eq)]
enum Fault {
    None,
    PacketDamaged,
    AckLost,
    InvitationDestroyed,
}

impl Fault {
    fn from_number(number: u32) -> Result<Fault, Refusal> {
        match number {
            0 => Ok(Fault::None),
            1 => Ok(Fault::PacketDamaged),
            2 => Ok(Fault::AckLost),
            3 => Ok(Fault::InvitationDestroyed),
            _ => Err(Refusal::Value),
        }
    }
}

/// Where ACK or NAK answered the enquiry, with the row that did.
#[derive(Clone, Copy, Debug, PartialEq, Eq)]
pub enum Outcome {
    Nothing,
    Malformed,
    Broadcast,
    NoAnswer,
    Nak(usize),
    Delivered(usize),
    Unacknowledged(usize),
}

#[derive(Clone, Copy, Debug, PartialEq, Eq)]
pub enum Step {
    Quiet,
    Recovered(usize),
    Passed(usize),
    Unanswered(u8),
    TokenLost,
    Held(Outcome),
}

#[derive(Clone, Copy, Debug, PartialEq, Eq)]
pub struct Taker {
    pub node_id: u8,
    pub row: usize,
    /// Since the holder before, the one that was taken among them.
    pub invitations: u32,
}

impl Row {
    /// The oldest transmit ends. The TMA of a completion that is not cleared stays shown; then the
    /// new one is stored, also over one that is stored.
    fn transmit_ends(&mut self, acknowledged: bool) {
        if self.transmit.completed() {
            self.stored_tma = acknowledged;
        } else {
            self.tma = acknowledged;
        }
        self.transmit.complete(self.chaining());
    }

    fn cancels_take_effect(&mut self) {
        self.transmit.cancels_take_effect();
        self.receive.cancels_take_effect();
    }

    /// Stores a packet where it can be: not in a row with RI = 1, not a long one where long
    /// packets are 0. A cancel that is only asked does not hinder it.
    fn store(&mut self, packet: &Packet) -> bool {
        let Some(receive) = self.receive.queue.oldest() else {
            return false;
        };
        if packet.long() && !self.long_packets {
            return false;
        }
        self.lay_down(receive.page, packet);
        self.receive.complete(self.chaining());
        true
    }

    /// The oldest receive decides.
    fn wants_broadcasts(&self) -> bool {
        self.receive
            .queue
            .oldest()
            .is_some_and(|receive| receive.broadcasts)
    }
}

impl Network {
    pub fn step(&mut self, fault: u32) -> Result<Step, Refusal> {
        Ok(self.step_with(Fault::from_number(fault)?))
    }

    /// Starts in LOST and ends where the first holder is passed the token again, in TAKEN, before
    /// that holder's own turn: so it makes 256 + 2n line steps.
    pub fn lap(&mut self, room: usize) -> Result<Vec<Taker>, Refusal> {
        let on_line = self.on_line_count();
        if self.phase != Phase::Lost {
            return Err(Refusal::Busy);
        }
        if on_line < 2 {
            return Err(Refusal::Alone);
        }
        if room < on_line {
            return Err(Refusal::Room);
        }
        let mut takers = Vec::with_capacity(on_line);
        let mut first = None;
        let mut invitations = 0;
        loop {
            match self.step_with(Fault::None) {
                Step::Recovered(row) => first = Some(row),
                Step::Unanswered(_) => invitations += 1,
                Step::Passed(row) => {
                    let node_id = self.rows[row].node_id;
                    takers.push(Taker {
                        node_id,
                        row,
                        invitations: invitations + 1,
                    });
                    invitations = 0;
                    if first == Some(row) {
                        return Ok(takers);
                    }
                }
                Step::Quiet | Step::TokenLost | Step::Held(_) => {}
            }
        }
    }

    fn step_with(&mut self, fault: Fault) -> Step {
        match self.phase {
            Phase::Lost => self.recover(),
            Phase::Pass { holder } => self.invite(holder, fault),
            Phase::Taken { holder } => {
                self.phase = Phase::Pass { holder };
                Step::Held(self.take_turn(holder, fault))
            }
        }
    }

    fn recover(&mut self) -> Step {
        let highest = (0..self.rows.len())
            .filter(|row| self.rows[*row].on_line())
            .max_by_key(|row| self.rows[*row].node_id);
        let Some(holder) = highest else {
            return Step::Quiet;
        };
        for row in self.rows.iter_mut().filter(|row| row.awake()) {
            row.recon = true;
            if row.on_line() {
                row.nid = row.node_id;
            }
        }
        self.phase = Phase::Pass { holder };
        Step::Recovered(holder)
    }

    fn invite(&mut self, holder: usize, fault: Fault) -> Step {
        self.others_hear(holder);
        if fault == Fault::InvitationDestroyed {
            self.phase = Phase::Lost;
            return Step::TokenLost;
        }
        for row in self.other_awake(holder) {
            row.diagnostic.token = true;
        }
        let invited = self.rows[holder].nid;
        let Some(taker) = self.other_on_line(holder, invited) else {
            self.rows[holder].nid = invited.wrapping_add(1);
            return Step::Unanswered(invited);
        };
        for row in self
            .rows
            .iter_mut()
            .filter(|row| row.awake() && row.node_id == invited)
        {
            row.diagnostic.dupid = true;
        }
        // The inviting holder is among those that may find their tentative ID taken.
        for row in self.other_awake(taker) {
            row.diagnostic.tentid |= row.tentative_id == invited;
        }
        self.phase = Phase::Taken { holder: taker };
        Step::Passed(taker)
    }

    /// The holder's turn in TAKEN.
    fn take_turn(&mut self, holder: usize, fault: Fault) -> Outcome {
        let row = &mut self.rows[holder];
        row.cancels_take_effect();
        let Some(page) = row.transmit.queue.oldest().map(|transmit| transmit.page) else {
            return Outcome::Nothing;
        };
        let Some(layout) = row.layout(page) else {
            row.transmit_ends(false);
            return Outcome::Malformed;
        };
        let did = row.did(page);
        // From here on something is sent, an enquiry or a broadcast packet.
        self.others_hear(holder);
        if did == 0 {
            let packet = self.rows[holder].send(page, layout);
            self.broadcast(holder, &packet, fault);
            self.rows[holder].transmit_ends(false);
            return Outcome::Broadcast;
        }
        let Some(target) = self.other_on_line(holder, did) else {
            self.rows[holder].transmit_ends(false);
            return Outcome::NoAnswer;
        };
        // ACK or NAK answers the enquiry, and the holder hears it.
        self.rows[holder].diagnostic.rcvact = true;
        if self.rows[target].ri() {
            self.rows[holder].transmit.nak();
            return Outcome::Nak(target);
        }
        let packet = self.rows[holder].send(page, layout);
        let stored = fault != Fault::PacketDamaged && self.rows[target].store(&packet);
        let heard = stored && fault != Fault::AckLost;
        self.rows[holder].transmit_ends(heard);
        if heard {
            Outcome::Delivered(target)
        } else {
            Outcome::Unacknowledged(target)
        }
    }

    /// Every other awake row, on line or not, decides for itself.
    fn broadcast(&mut self, holder: usize, packet: &Packet, fault: Fault) {
        if fault == Fault::PacketDamaged {
            return;
        }
        for row in self.other_awake(holder) {
            if row.wants_broadcasts() {
                row.store(packet);
            }
        }
    }

    fn other_awake(&mut self, than: usize) -> impl Iterator<Item = &mut Row> {
        let others = self
            .rows
            .iter_mut()
            .enumerate()
            .filter(move |(index, _)| *index != than);
        others.map(|(_, row)| row).filter(|row| row.awake())
    }

    fn others_hear(&mut self, holder: usize) {
        for row in self.other_awake(holder) {
            row.diagnostic.rcvact = true;
        }
    }
}
