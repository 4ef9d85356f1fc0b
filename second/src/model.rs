//! Document 01, "The saved network": the header and the rows as structs, and the bytes they are
//! saved as, with those that request C-11 adds for rows with chaining, the one that C-13 adds and the
//! two of C-16.
//!
//! Reading takes each named bit into its field. Bytes that the fields do not give back as they were
//! are not well formed, nor are those whose fields do not fit each other.

use crate::queue::{Enabled, Queue, Side, MOST_NAKS, MOST_UNCLEARED};

pub const HEADER: usize = 16;
pub const REGISTERS: usize = 64;
pub const RAM: usize = 1024;
pub const ROW: usize = REGISTERS + RAM;
pub const PAGE: usize = 256;
pub const MOST_ROWS: usize = 60;

/// The bytes of a row that are only for chaining; those past byte 19 are zero there too.
pub const CHAINING: std::ops::Range<usize> = 16..32;

/// The byte of a row that may hold anything: what register 4 gives.
pub const FETCHED: usize = 32;

/// The bytes of a row that count NAKs, the low one first.
pub const NAKS: std::ops::Range<usize> = 33..35;

const NETWORK_MARK: [u8; 2] = [0x41, 0x4E];
const ROW_MARK: [u8; 2] = [0x4E, 0x44];
const VERSION: u8 = 1;

pub fn bit(byte: u8, number: u8) -> bool {
    byte >> number & 1 == 1
}

fn set(number: u8, on: bool) -> u8 {
    u8::from(on) << number
}

/// Register 1 but for EXCNAK, which the count of NAKs gives.
#[derive(Clone, Copy, Debug, Default, PartialEq, Eq)]
pub struct Diagnostic {
    pub myrecon: bool,
    pub dupid: bool,
    pub rcvact: bool,
    pub token: bool,
    pub tentid: bool,
}

impl Diagnostic {
    fn from_named_bits(byte: u8) -> Self {
        Diagnostic {
            myrecon: bit(byte, 7),
            dupid: bit(byte, 6),
            rcvact: bit(byte, 5),
            token: bit(byte, 4),
            tentid: bit(byte, 2),
        }
    }

    fn byte(self) -> u8 {
        set(7, self.myrecon)
            | set(6, self.dupid)
            | set(5, self.rcvact)
            | set(4, self.token)
            | set(2, self.tentid)
    }
}

/// The interrupt mask.
#[derive(Clone, Copy, Debug, Default, PartialEq, Eq)]
pub struct Mask {
    pub ri: bool,
    pub excnak: bool,
    pub recon: bool,
    pub ta: bool,
}

impl Mask {
    fn from_named_bits(byte: u8) -> Self {
        Mask {
            ri: bit(byte, 7),
            excnak: bit(byte, 3),
            recon: bit(byte, 2),
            ta: bit(byte, 0),
        }
    }

    /// None where an unnamed bit is set.
    pub fn from_byte(byte: u8) -> Option<Self> {
        Some(Self::from_named_bits(byte)).filter(|mask| mask.byte() == byte)
    }

    pub fn byte(self) -> u8 {
        set(7, self.ri) | set(3, self.excnak) | set(2, self.recon) | set(0, self.ta)
    }
}

/// The configuration register. Every bit of it has a name.
#[derive(Clone, Copy, Debug, PartialEq, Eq)]
pub struct Configuration {
    pub reset: bool,
    pub cchen: bool,
    pub txen: bool,
    pub et1: bool,
    pub et2: bool,
    pub backplane: bool,
    pub sub_address: u8,
}

impl Configuration {
    /// The value after a hardware reset, 18 hex.
    pub const DEFAULT: Configuration = Configuration {
        reset: false,
        cchen: false,
        txen: false,
        et1: true,
        et2: true,
        backplane: false,
        sub_address: 0,
    };

    pub fn from_byte(byte: u8) -> Self {
        Configuration {
            reset: bit(byte, 7),
            cchen: bit(byte, 6),
            txen: bit(byte, 5),
            et1: bit(byte, 4),
            et2: bit(byte, 3),
            backplane: bit(byte, 2),
            sub_address: byte & 3,
        }
    }

    pub fn byte(self) -> u8 {
        set(7, self.reset)
            | set(6, self.cchen)
            | set(5, self.txen)
            | set(4, self.et1)
            | set(3, self.et2)
            | set(2, self.backplane)
            | self.sub_address
    }
}

/// Byte 12: what register 2 was last written with.
#[derive(Clone, Copy, Debug, Default, PartialEq, Eq)]
pub struct Mode {
    pub rddata: bool,
    pub auto_inc: bool,
    /// A9-A8, which wait here until register 3 is written.
    pub staged: u8,
}

impl Mode {
    fn from_named_bits(byte: u8) -> Self {
        Mode {
            rddata: bit(byte, 7),
            auto_inc: bit(byte, 6),
            staged: byte & 3,
        }
    }

    /// None where an unnamed bit is set.
    pub fn from_byte(byte: u8) -> Option<Self> {
        Some(Self::from_named_bits(byte)).filter(|mode| mode.byte() == byte)
    }

    pub fn byte(self) -> u8 {
        set(7, self.rddata) | set(6, self.auto_inc) | self.staged
    }
}

/// The bits that say in bytes 16 and 17 that a second Enable waits.
const SECOND_TRANSMIT: u8 = 6;
const SECOND_RECEIVE: u8 = 5;

impl Enabled {
    fn transmit_from_named_bits(byte: u8) -> Self {
        Enabled {
            page: byte & 3,
            broadcasts: false,
            cancel_asked: bit(byte, 7),
            naks: 0,
        }
    }

    fn receive_from_named_bits(byte: u8) -> Self {
        Enabled {
            broadcasts: bit(byte, 6),
            ..Enabled::transmit_from_named_bits(byte)
        }
    }

    /// Bytes 13 and 14, of the oldest; and 16 and 17 but for the bit that a second waits.
    fn byte(self) -> u8 {
        set(7, self.cancel_asked) | set(6, self.broadcasts) | self.page
    }
}

impl Queue {
    /// Zero where nothing waits.
    fn oldest_byte(&self) -> u8 {
        self.oldest().map_or(0, Enabled::byte)
    }

    /// Zero where no second waits.
    fn second_byte(&self, waits: u8) -> u8 {
        self.second()
            .map_or(0, |enabled| enabled.byte() | set(waits, true))
    }
}

/// One card.
#[derive(Clone, Debug, PartialEq, Eq)]
pub struct Row {
    pub node_id: u8,
    pub por: bool,
    pub recon: bool,
    pub transmit: Side,
    pub receive: Side,
    /// The TMA shown: of the oldest completion that is not cleared, where there is one.
    pub tma: bool,
    /// The TMA of the second completion that is not cleared.
    pub stored_tma: bool,
    pub diagnostic: Diagnostic,
    pub mask: Mask,
    pub configuration: Configuration,
    pub setup: u8,
    pub tentative_id: u8,
    pub nid: u8,
    pub pointer: u16,
    pub mode: Mode,
    /// What a read of register 4 gives, whatever lies at the pointer by then.
    pub fetched: u8,
    pub long_packets: bool,
    pub ram: [u8; RAM],
}

impl Row {
    /// A row after hardware reset.
    pub fn after_hardware_reset(ram: [u8; RAM]) -> Row {
        Row {
            node_id: 0,
            por: true,
            recon: false,
            transmit: Side::default(),
            receive: Side::default(),
            tma: false,
            stored_tma: false,
            diagnostic: Diagnostic::default(),
            mask: Mask::default(),
            configuration: Configuration::DEFAULT,
            setup: 0,
            tentative_id: 0,
            nid: 0,
            pointer: 0,
            mode: Mode::default(),
            fetched: 0,
            long_packets: false,
            ram,
        }
    }

    pub fn awake(&self) -> bool {
        self.node_id != 0 && !self.configuration.reset
    }

    pub fn on_line(&self) -> bool {
        self.awake() && self.configuration.txen
    }

    pub fn chaining(&self) -> bool {
        self.configuration.cchen
    }

    pub fn ta(&self) -> bool {
        self.transmit.idle()
    }

    pub fn ri(&self) -> bool {
        self.receive.idle()
    }

    /// Byte 3, which is the same with chaining and without.
    fn status(&self) -> u8 {
        set(7, self.ri()) | self.status_in_both() | set(0, self.ta())
    }

    /// What a read of register 0 gives: with chaining TRI and TTA stand where the mask bits are,
    /// and RI and TA at bits 6 and 5.
    pub fn status_read(&self) -> u8 {
        if !self.chaining() {
            return self.status();
        }
        set(7, self.receive.completed())
            | set(6, self.ri())
            | set(5, self.ta())
            | self.status_in_both()
            | set(0, self.transmit.completed())
    }

    fn status_in_both(&self) -> u8 {
        set(4, self.por) | set(2, self.recon) | set(1, self.tma)
    }

    /// So many NAKs came to the oldest transmit that no more are counted.
    pub fn excnak(&self) -> bool {
        self.transmit.naks() == MOST_NAKS
    }

    /// Byte 4, and register 1 as it is read.
    pub fn diagnostic_status(&self) -> u8 {
        self.diagnostic.byte() | set(3, self.excnak())
    }

    /// The 64 register bytes of the row.
    pub fn registers(&self) -> [u8; REGISTERS] {
        let [pointer_high, pointer_low] = self.pointer.to_be_bytes();
        let named = [
            ROW_MARK[0],
            ROW_MARK[1],
            self.node_id,
            self.status(),
            self.diagnostic_status(),
            self.mask.byte(),
            self.configuration.byte(),
            self.setup,
            self.tentative_id,
            self.nid,
            pointer_high,
            pointer_low,
            self.mode.byte(),
            self.transmit.queue.oldest_byte(),
            self.receive.queue.oldest_byte(),
            u8::from(self.long_packets),
            self.transmit.queue.second_byte(SECOND_TRANSMIT),
            self.receive.queue.second_byte(SECOND_RECEIVE),
            set(7, self.stored_tma) | self.transmit.uncleared,
            self.receive.uncleared,
        ];
        let mut registers = [0; REGISTERS];
        registers[..named.len()].copy_from_slice(&named);
        registers[FETCHED] = self.fetched;
        registers[NAKS].copy_from_slice(&u16::from(self.transmit.naks()).to_le_bytes());
        registers
    }

    fn decode(bytes: &[u8]) -> Option<Row> {
        let registers: &[u8; REGISTERS] = bytes.get(..REGISTERS)?.try_into().ok()?;
        let ram: [u8; RAM] = bytes.get(REGISTERS..)?.try_into().ok()?;
        let row = Row::from_named_bits(registers, ram);
        let holds =
            row.registers() == *registers && row.enabled_pages_fit() && row.completions_fit();
        holds.then_some(row)
    }

    /// The register bytes by their numbers in document 01 and in the requests. Where TA or RI is 1, a
    /// second that waits moves up, and the bytes do not come back as they were; nor do NAKs with TA = 1,
    /// above 128, or with another EXCNAK than theirs.
    fn from_named_bits(registers: &[u8; REGISTERS], ram: [u8; RAM]) -> Row {
        let status = registers[3];
        let [transmits, receives] = Row::queues(registers);
        Row {
            node_id: registers[2],
            por: bit(status, 4),
            recon: bit(status, 2),
            transmit: Side {
                queue: transmits,
                uncleared: registers[18] & 3,
            },
            receive: Side {
                queue: receives,
                uncleared: registers[19] & 3,
            },
            tma: bit(status, 1),
            stored_tma: bit(registers[18], 7),
            diagnostic: Diagnostic::from_named_bits(registers[4]),
            mask: Mask::from_named_bits(registers[5]),
            configuration: Configuration::from_byte(registers[6]),
            setup: registers[7] & 7,
            tentative_id: registers[8],
            nid: registers[9],
            pointer: u16::from_be_bytes([registers[10] & 3, registers[11]]),
            mode: Mode::from_named_bits(registers[12]),
            fetched: registers[FETCHED],
            long_packets: registers[15] == 1,
            ram,
        }
    }

    /// What waits to be sent, and what to be received.
    fn queues(registers: &[u8; REGISTERS]) -> [Queue; 2] {
        let status = registers[3];
        let [transmit, receive] = [registers[13], registers[14]];
        let [second_transmit, second_receive] = [registers[16], registers[17]];
        let naks = u16::from_le_bytes([registers[NAKS.start], registers[NAKS.start + 1]]);
        let oldest_transmit = || Enabled {
            naks: naks.min(u16::from(MOST_NAKS)) as u8,
            ..Enabled::transmit_from_named_bits(transmit)
        };
        let transmits = Queue::of(
            (!bit(status, 0)).then(oldest_transmit),
            bit(second_transmit, SECOND_TRANSMIT)
                .then(|| Enabled::transmit_from_named_bits(second_transmit)),
        );
        let receives = Queue::of(
            (!bit(status, 7)).then(|| Enabled::receive_from_named_bits(receive)),
            bit(second_receive, SECOND_RECEIVE)
                .then(|| Enabled::receive_from_named_bits(second_receive)),
        );
        [transmits, receives]
    }

    /// "with long packets 1, an enabled page (TA = 0, RI = 0) is even": each by itself.
    fn enabled_pages_fit(&self) -> bool {
        let [transmits, receives] = [self.transmit, self.receive].map(|side| side.queue);
        let mut enabled = transmits.waiting().chain(receives.waiting());
        !self.long_packets || enabled.all(|enabled| enabled.page % 2 == 0)
    }

    /// A second Enable and completions only with chaining; at most two completions, and only the
    /// second has a TMA stored; TMA only with TTA or with TA.
    fn completions_fit(&self) -> bool {
        let fits = |side: Side| {
            let unused = side.queue.second().is_none() && side.uncleared == 0;
            side.uncleared <= MOST_UNCLEARED && (self.chaining() || unused)
        };
        fits(self.transmit)
            && fits(self.receive)
            && (!self.stored_tma || self.transmit.uncleared == MOST_UNCLEARED)
            && (!self.tma || self.transmit.completed() || self.ta())
    }
}

/// Header bytes 4 and 5.
#[derive(Clone, Copy, Debug, PartialEq, Eq)]
pub enum Phase {
    Lost,
    Pass { holder: usize },
    Taken { holder: usize },
}

impl Phase {
    pub fn holder(self) -> Option<usize> {
        match self {
            Phase::Lost => None,
            Phase::Pass { holder } | Phase::Taken { holder } => Some(holder),
        }
    }

    fn from_bytes(number: u8, holder: u8) -> Option<Phase> {
        let holder = usize::from(holder);
        match number {
            0 => Some(Phase::Lost),
            1 => Some(Phase::Pass { holder }),
            2 => Some(Phase::Taken { holder }),
            _ => None,
        }
    }

    fn number(self) -> u8 {
        match self {
            Phase::Lost => 0,
            Phase::Pass { .. } => 1,
            Phase::Taken { .. } => 2,
        }
    }
}

/// A well-formed network.
#[derive(Clone, Debug, PartialEq, Eq)]
pub struct Network {
    pub phase: Phase,
    pub rows: Vec<Row>,
}

impl Network {
    pub const fn length_for(rows: usize) -> usize {
        HEADER + ROW * rows
    }

    /// The network these bytes save, or None where they are not well formed (SHAPE).
    pub fn decode(bytes: &[u8]) -> Option<Network> {
        let header: &[u8; HEADER] = bytes.get(..HEADER)?.try_into().ok()?;
        let rows = usize::from(header[3]);
        if !(1..=MOST_ROWS).contains(&rows) || bytes.len() != Network::length_for(rows) {
            return None;
        }
        let phase = Phase::from_bytes(header[4], header[5])?;
        let rows = bytes[HEADER..]
            .chunks_exact(ROW)
            .map(Row::decode)
            .collect::<Option<Vec<_>>>()?;
        let network = Network { phase, rows };
        let holds = network.header() == *header && network.ids_differ() && network.holder_on_line();
        holds.then_some(network)
    }

    /// Writes the network over bytes of its own length.
    pub fn encode(&self, bytes: &mut [u8]) {
        let (header, rows) = bytes.split_at_mut(HEADER);
        header.copy_from_slice(&self.header());
        for (row, bytes) in self.rows.iter().zip(rows.chunks_exact_mut(ROW)) {
            let (registers, ram) = bytes.split_at_mut(REGISTERS);
            registers.copy_from_slice(&row.registers());
            ram.copy_from_slice(&row.ram);
        }
    }

    fn header(&self) -> [u8; HEADER] {
        // Rows are at most 60, so both numbers fit a byte.
        let rows = self.rows.len() as u8;
        let holder = self.phase.holder().unwrap_or(0) as u8;
        let mut header = [0; HEADER];
        header[..6].copy_from_slice(&[
            NETWORK_MARK[0],
            NETWORK_MARK[1],
            VERSION,
            rows,
            self.phase.number(),
            holder,
        ]);
        header
    }

    fn ids_differ(&self) -> bool {
        let mut ids: Vec<u8> = self
            .rows
            .iter()
            .filter(|row| row.on_line())
            .map(|row| row.node_id)
            .collect();
        ids.sort_unstable();
        ids.windows(2).all(|pair| pair[0] != pair[1])
    }

    fn holder_on_line(&self) -> bool {
        self.phase
            .holder()
            .is_none_or(|holder| self.rows.get(holder).is_some_and(Row::on_line))
    }

    pub fn on_line_count(&self) -> usize {
        self.rows.iter().filter(|row| row.on_line()).count()
    }
}
