//! Document 01, "Order forms and the lap", with request C-12: fresh networks, order forms and loading.

use std::collections::BTreeSet;

use crate::model::{bit, Network, Phase, Row, MOST_ROWS, RAM};
use crate::refusal::Refusal;

pub const RECORD: usize = 16;
pub const ORDER_MARK: [u8; 2] = [0x4F, 0x52];

/// The flags by their bits; no other bit is set.
const RECEIVE_ON: u8 = 0;
const LONG: u8 = 1;
pub const ALL_FLAGS: u8 = 1 << RECEIVE_ON | 1 << LONG;

/// A bad record, from 1, and the first thing that is wrong with it.
#[derive(Clone, Copy, Debug, PartialEq, Eq)]
pub struct BadRecord {
    pub record: usize,
    pub reason: Refusal,
}

/// Why an order is not loaded. LENGTH and ROOM name no record.
#[derive(Clone, Copy, Debug, PartialEq, Eq)]
pub enum NotLoaded {
    Refused(Refusal),
    BadRecord(BadRecord),
}

impl From<Refusal> for NotLoaded {
    fn from(refusal: Refusal) -> NotLoaded {
        NotLoaded::Refused(refusal)
    }
}

/// A record as it is written, good or bad.
struct Record {
    mark: [u8; 2],
    node_id: u8,
    flags: u8,
    name: [u8; 12],
}

impl Record {
    fn of(bytes: &[u8; RECORD]) -> Record {
        let [mark_0, mark_1, node_id, flags, name @ ..] = *bytes;
        Record {
            mark: [mark_0, mark_1],
            node_id,
            flags,
            name,
        }
    }

    /// What is wrong with it, in the order in which C-12 tests it.
    fn faults(&self, met_before: bool) -> Vec<Refusal> {
        let printable = self.name.iter().all(|byte| (0x20..=0x7E).contains(byte));
        let tests = [
            (Refusal::Mark, self.mark != ORDER_MARK),
            (Refusal::OrderId, self.node_id == 0),
            (Refusal::Flags, self.flags > ALL_FLAGS),
            (Refusal::Name, !printable || self.name[0] == b' '),
            (Refusal::Twice, met_before),
        ];
        let failed = tests.into_iter().filter(|(_, fails)| *fails);
        failed.map(|(reason, _)| reason).collect()
    }
}

/// Whether an order is 1 to 60 whole records, which else is LENGTH.
pub fn has_length(order: &[u8]) -> bool {
    let whole = order.len().is_multiple_of(RECORD);
    whole && (1..=MOST_ROWS).contains(&(order.len() / RECORD))
}

fn records(order: &[u8]) -> Vec<Record> {
    let (whole, _) = order.as_chunks();
    whole.iter().map(Record::of).collect()
}

/// What is wrong with each whole record of an order. TWICE asks for the ID in all records before;
/// those before the first bad one are good.
pub fn faults(order: &[u8]) -> Vec<Vec<Refusal>> {
    let mut met = BTreeSet::new();
    let faults = |record: &Record| record.faults(!met.insert(record.node_id));
    records(order).iter().map(faults).collect()
}

fn first_bad_record(order: &[u8]) -> Option<BadRecord> {
    (1..).zip(faults(order)).find_map(|(record, faults)| {
        let reason = *faults.first()?;
        Some(BadRecord { record, reason })
    })
}

impl Network {
    /// The fresh call on lent bytes of this length.
    pub fn fresh(rows: u32, length: usize) -> Result<Network, Refusal> {
        let rows = usize::try_from(rows).map_err(|_| Refusal::Value)?;
        if !(1..=MOST_ROWS).contains(&rows) {
            return Err(Refusal::Value);
        }
        if length != Network::length_for(rows) {
            return Err(Refusal::Room);
        }
        Ok(Network::of_rows(rows))
    }

    fn of_rows(rows: usize) -> Network {
        Network {
            phase: Phase::Lost,
            rows: vec![Row::after_hardware_reset([0; RAM]); rows],
        }
    }

    /// Loading into lent bytes of this length. LENGTH is tested before the records and these before
    /// ROOM, so that the smallest number does not win here.
    pub fn load(order: &[u8], length: usize) -> Result<Network, NotLoaded> {
        if !has_length(order) {
            return Err(Refusal::Length.into());
        }
        if let Some(bad) = first_bad_record(order) {
            return Err(NotLoaded::BadRecord(bad));
        }
        let records = records(order);
        if length != Network::length_for(records.len()) {
            return Err(Refusal::Room.into());
        }
        let mut network = Network::of_rows(records.len());
        for (row, record) in (0..).zip(&records) {
            network.set_up(row, record)?;
        }
        Ok(network)
    }

    /// The register program of one record. The IDs differ, so nothing in it refuses.
    fn set_up(&mut self, row: u32, record: &Record) -> Result<(), Refusal> {
        self.write(row, 6, 0x19)?;
        self.write(row, 7, u32::from(record.node_id))?;
        if bit(record.flags, LONG) {
            self.write(row, 1, 0x0D)?;
        }
        if bit(record.flags, RECEIVE_ON) {
            self.write(row, 1, 0x84)?;
        }
        self.write(row, 6, 0x38)
    }
}
