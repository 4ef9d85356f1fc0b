//! Document 01, "Registers", with requests C-11, C-13 and C-16: the calls on one card, and what they do
//! to the line.

use crate::model::{bit, Configuration, Diagnostic, Mask, Mode, Network, Phase, Row, RAM};
use crate::queue::Side;
use crate::refusal::Refusal;

/// What a register number reaches, register 7 by its sub-address.
#[derive(Clone, Copy)]
enum Register {
    StatusOrMask,
    DiagnosticOrCommand,
    PointerHigh,
    PointerLow,
    Data,
    Configuration,
    TentativeId,
    NodeId,
    Setup,
}

/// The twenty legal commands, and the two Clears that a row with chaining takes beside them.
#[derive(Clone, Copy, Debug, PartialEq, Eq)]
pub enum Command {
    DisableTransmitter,
    DisableReceiver,
    EnableTransmit { page: u8 },
    EnableReceive { page: u8, broadcasts: bool },
    LongPackets(bool),
    ClearFlags { por: bool, recon: bool },
    ClearTransmitInterrupt,
    ClearReceiveInterrupt,
}

impl Command {
    pub fn from_byte(byte: u8, chaining: bool) -> Option<Command> {
        let page = 2 * u8::from(bit(byte, 3)) + u8::from(bit(byte, 5));
        // The low three bits say the kind; beside them each kind has free bits of its own, and
        // all others are 0.
        let (command, free) = match byte & 7 {
            0 if !chaining => return None,
            0 if bit(byte, 3) => (Command::ClearReceiveInterrupt, 0x08),
            0 => (Command::ClearTransmitInterrupt, 0x00),
            1 => (Command::DisableTransmitter, 0x00),
            2 => (Command::DisableReceiver, 0x00),
            3 => (Command::EnableTransmit { page }, 0x28),
            4 => (
                Command::EnableReceive {
                    page,
                    broadcasts: bit(byte, 7),
                },
                0xA8,
            ),
            5 => (Command::LongPackets(bit(byte, 3)), 0x08),
            6 => (
                Command::ClearFlags {
                    por: bit(byte, 3),
                    recon: bit(byte, 4),
                },
                0x18,
            ),
            _ => return None,
        };
        (byte & !7 & !free == 0).then_some(command)
    }
}

impl Row {
    fn register(&self, number: u32) -> Result<Register, Refusal> {
        match (number, self.configuration.sub_address) {
            (0, _) => Ok(Register::StatusOrMask),
            (1, _) => Ok(Register::DiagnosticOrCommand),
            (2, _) => Ok(Register::PointerHigh),
            (3, _) => Ok(Register::PointerLow),
            (4, _) => Ok(Register::Data),
            (6, _) => Ok(Register::Configuration),
            (7, 0) => Ok(Register::TentativeId),
            (7, 1) => Ok(Register::NodeId),
            (7, 2) => Ok(Register::Setup),
            _ => Err(Refusal::Register),
        }
    }

    fn read(&mut self, register: Register) -> Result<u8, Refusal> {
        match register {
            Register::StatusOrMask => Ok(self.status_read()),
            Register::DiagnosticOrCommand => Ok(self.read_diagnostic()),
            Register::PointerHigh => {
                let [pointer_high, _] = self.pointer.to_be_bytes();
                Ok(Mode {
                    staged: pointer_high,
                    ..self.mode
                }
                .byte())
            }
            Register::PointerLow => {
                let [_, pointer_low] = self.pointer.to_be_bytes();
                Ok(pointer_low)
            }
            Register::Data if !self.mode.rddata => Err(Refusal::Direction),
            Register::Data => Ok(self.read_data()),
            Register::Configuration => Ok(self.configuration.byte()),
            Register::TentativeId => Ok(self.tentative_id),
            Register::NodeId => Ok(self.node_id),
            Register::Setup => Ok(self.setup),
        }
    }

    /// All bits are zeroed but EXCNAK, which stays as long as the NAKs are counted.
    fn read_diagnostic(&mut self) -> u8 {
        let status = self.diagnostic_status();
        self.diagnostic = Diagnostic::default();
        status
    }

    /// The byte that was fetched; with AUTO-INC the next one is fetched then.
    fn read_data(&mut self) -> u8 {
        let data = self.fetched;
        if self.mode.auto_inc {
            self.fetch_at(self.next_pointer());
        }
        data
    }

    /// A write fetches nothing, also where the pointer moves on after it: "Only a pointer load or an
    /// incremented read fetches".
    fn write_data(&mut self, value: u8) {
        self.ram[usize::from(self.pointer)] = value;
        if self.mode.auto_inc {
            self.pointer = self.next_pointer();
        }
    }

    fn next_pointer(&self) -> u16 {
        (self.pointer + 1) % RAM as u16
    }

    /// Leads the pointer to an address and fetches the byte there, whatever RDDATA is.
    fn fetch_at(&mut self, pointer: u16) {
        self.pointer = pointer;
        self.fetched = self.ram[usize::from(pointer)];
    }

    /// A write as far as the row alone decides it. The tests of each register stand in the order
    /// of their numbers.
    fn write(&mut self, register: Register, value: u8) -> Result<(), Refusal> {
        match register {
            Register::StatusOrMask => self.mask = Mask::from_byte(value).ok_or(Refusal::Value)?,
            Register::DiagnosticOrCommand => {
                let command = Command::from_byte(value, self.chaining());
                self.command(command.ok_or(Refusal::Value)?)?;
            }
            Register::PointerHigh => self.mode = Mode::from_byte(value).ok_or(Refusal::Value)?,
            Register::PointerLow => {
                self.fetch_at(u16::from_be_bytes([self.mode.staged, value]));
            }
            Register::Data if self.mode.rddata => return Err(Refusal::Direction),
            Register::Data => self.write_data(value),
            Register::Configuration => {
                self.configure(Configuration::from_byte(value))?;
            }
            Register::TentativeId => self.tentative_id = value,
            Register::NodeId if self.on_line() => return Err(Refusal::Online),
            Register::NodeId => self.node_id = value,
            Register::Setup if value > 7 => return Err(Refusal::Value),
            Register::Setup => self.setup = value,
        }
        Ok(())
    }

    /// Every write with RESET = 1 resets, also where RESET was set before. CCHEN changes only with
    /// nothing waiting, whatever RESET is; what is not cleared then is dropped.
    fn configure(&mut self, configuration: Configuration) -> Result<(), Refusal> {
        if configuration.cchen != self.chaining() {
            if !self.ta() || !self.ri() {
                return Err(Refusal::Busy);
            }
            self.transmit.uncleared = 0;
            self.receive.uncleared = 0;
            self.stored_tma = false;
        }
        self.configuration = configuration;
        if configuration.reset {
            self.por = true;
            self.recon = false;
            self.transmit = Side::default();
            self.receive = Side::default();
            self.tma = false;
            self.stored_tma = false;
            self.diagnostic = Diagnostic::default();
            self.mask = Mask::default();
            self.long_packets = false;
        }
        Ok(())
    }

    fn command(&mut self, command: Command) -> Result<(), Refusal> {
        if !self.awake() {
            return Err(Refusal::NotReady);
        }
        match command {
            Command::DisableTransmitter => self.transmit.disable(),
            Command::DisableReceiver => self.receive.disable(),
            Command::EnableTransmit { page } => {
                self.may_enable(self.transmit, page)?;
                // TMA stays where it is that of a completion.
                self.tma &= self.transmit.completed();
                self.transmit.enable(page, false);
            }
            Command::EnableReceive { page, broadcasts } => {
                self.may_enable(self.receive, page)?;
                self.receive.enable(page, broadcasts);
            }
            Command::LongPackets(_) if !self.ta() || !self.ri() => return Err(Refusal::Busy),
            Command::LongPackets(long) => self.long_packets = long,
            Command::ClearFlags { por, recon } => {
                self.por &= !por;
                self.recon &= !recon;
                if por {
                    self.transmit.forget_naks();
                }
            }
            Command::ClearTransmitInterrupt if !self.transmit.completed() => {}
            Command::ClearTransmitInterrupt => {
                self.transmit.clear();
                // None is stored where there was one completion.
                self.tma = std::mem::take(&mut self.stored_tma);
            }
            Command::ClearReceiveInterrupt => self.receive.clear(),
        }
        Ok(())
    }

    /// BUSY comes before PAGE; f = 1 is the odd page.
    fn may_enable(&self, side: Side, page: u8) -> Result<(), Refusal> {
        if side.full(self.chaining()) {
            return Err(Refusal::Busy);
        }
        if page % 2 == 1 && self.long_packets {
            return Err(Refusal::Page);
        }
        Ok(())
    }

    /// The mask bits of RI and TA are those of TRI and TTA with chaining.
    fn interrupt(&self) -> bool {
        let (receive, transmit) = if self.chaining() {
            (self.receive.completed(), self.transmit.completed())
        } else {
            (self.ri(), self.ta())
        };
        self.por
            || self.mask.ri && receive
            || self.mask.excnak && self.excnak()
            || self.mask.recon && self.recon
            || self.mask.ta && transmit
    }
}

impl Network {
    /// The row of a number that may be any.
    pub fn index(&self, row: u32) -> Result<usize, Refusal> {
        usize::try_from(row)
            .ok()
            .filter(|row| *row < self.rows.len())
            .ok_or(Refusal::Row)
    }

    pub fn read(&mut self, row: u32, register: u32) -> Result<u8, Refusal> {
        let index = self.index(row)?;
        let row = &mut self.rows[index];
        row.read(row.register(register)?)
    }

    /// A value above 255 has an unnamed bit in every register.
    pub fn write(&mut self, row: u32, register: u32, value: u32) -> Result<(), Refusal> {
        let index = self.index(row)?;
        let register = self.rows[index].register(register)?;
        let value = u8::try_from(value).map_err(|_| Refusal::Value)?;
        let mut after = self.rows[index].clone();
        after.write(register, value)?;
        if after.on_line() && self.taken_by_another(index, after.node_id) {
            return Err(Refusal::Duplicate);
        }
        self.replace(index, after);
        Ok(())
    }

    pub fn hardware_reset(&mut self, row: u32) -> Result<(), Refusal> {
        let index = self.index(row)?;
        self.replace(index, Row::after_hardware_reset(self.rows[index].ram));
        Ok(())
    }

    pub fn timer(&mut self, row: u32) -> Result<(), Refusal> {
        let index = self.index(row)?;
        if !self.rows[index].on_line() {
            return Err(Refusal::NotReady);
        }
        self.burst(index);
        Ok(())
    }

    pub fn interrupt(&self, row: u32) -> Result<bool, Refusal> {
        Ok(self.rows[self.index(row)?].interrupt())
    }

    /// The on-line row with this ID other than the one given.
    pub fn other_on_line(&self, than: usize, id: u8) -> Option<usize> {
        (0..self.rows.len())
            .find(|row| *row != than && self.rows[*row].on_line() && self.rows[*row].node_id == id)
    }

    fn taken_by_another(&self, row: usize, id: u8) -> bool {
        self.other_on_line(row, id).is_some()
    }

    /// Puts a changed row in its place: one that comes on line bursts, and a holder that goes off
    /// line leaves the phase LOST.
    fn replace(&mut self, index: usize, after: Row) {
        let before = std::mem::replace(&mut self.rows[index], after);
        match (before.on_line(), self.rows[index].on_line()) {
            (false, true) => self.burst(index),
            (true, false) if self.phase.holder() == Some(index) => self.phase = Phase::Lost,
            _ => {}
        }
    }

    fn burst(&mut self, index: usize) {
        self.rows[index].diagnostic.myrecon = true;
        self.phase = Phase::Lost;
    }
}
