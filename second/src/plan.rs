//! What the program `plan` must print for an order form, request C-15: how long its laps take. Each is made
//! here and clocked.

use crate::model::{Network, MOST_ROWS, PAGE};
use crate::order::{BadRecord, NotLoaded, RECORD};
use crate::refusal::Refusal;

/// The page that packets go from, and the one that they are stored in; each begins 512 bytes.
const SENT_FROM: u8 = 2;
const STORED_IN: u8 = 0;

/// Tenths of a microsecond.
const MILLISECOND: u64 = 10_000;

/// The times of laps of one order, in tenths of a microsecond.
struct Laps {
    nodes: usize,
    recovery: u64,
    later: u64,
    full: u64,
}

/// All that is printed, with its line ends.
pub fn text(order: &[u8]) -> String {
    match laps(order) {
        Ok(laps) => format!(
            "PLAN {} NODES\nRECOVERY LAP {} MS\nLATER LAP {} MS\nFULL LAP {} MS\n",
            laps.nodes,
            milliseconds(laps.recovery),
            milliseconds(laps.later),
            milliseconds(laps.full)
        ),
        Err(NotLoaded::Refused(refusal)) => format!("REFUSED {}\n", refusal.number()),
        Err(NotLoaded::BadRecord(BadRecord { record, reason })) => {
            format!("REFUSED {} {record}\n", reason.number())
        }
    }
}

fn laps(order: &[u8]) -> Result<Laps, NotLoaded> {
    let mut network = Network::load(order, Network::length_for(order.len() / RECORD))?;
    let (takers, recovery) = network.clocked_lap(MOST_ROWS)?;
    let later = further_lap(&mut network)?;
    all_send(&mut network);
    let full = further_lap(&mut network)?;
    Ok(Laps {
        nodes: takers.len(),
        recovery,
        later,
        full,
    })
}

/// From where a lap ends to there again: each row has its turn and passes the token on.
fn further_lap(network: &mut Network) -> Result<u64, Refusal> {
    let steps = 2 * network.on_line_count();
    (0..steps)
        .map(|_| network.clocked_step(0).map(|(_, tenths)| tenths))
        .sum()
}

/// In every row the longest packet that its own flags allow waits for the row that it passes the token
/// to. It is not asked who could take them: here every row receives, and long ones too.
fn all_send(network: &mut Network) {
    for row in &mut network.rows {
        // COUNT 3, or the long COUNT 4.
        let [count, long_count] = if row.long_packets { [0, 4] } else { [3, 0] };
        let page = PAGE * usize::from(SENT_FROM);
        row.ram[page..page + 4].copy_from_slice(&[0, row.nid, count, long_count]);
        row.transmit.enable(SENT_FROM, false);
        row.long_packets = true;
        if row.ri() {
            row.receive.enable(STORED_IN, false);
        }
    }
}

fn milliseconds(tenths: u64) -> String {
    format!("{}.{:04}", tenths / MILLISECOND, tenths % MILLISECOND)
}
