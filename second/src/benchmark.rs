//! How fast laps and steps go through a program, and the same lines here.

use std::time::{Duration, Instant};

use crate::cases::order_line;
use crate::model::Network;
use crate::peer::{InProcess, Peer};
use crate::prompt::MOST_ROOM;

const ROWS: [usize; 3] = [2, 16, 60];
const LAPS: usize = 200;
const STEPS: usize = 10_000;

/// The time of the same lines there and here.
#[derive(Clone, Copy)]
struct Times {
    there: Duration,
    here: Duration,
}

impl Times {
    fn less(self, other: Times) -> Times {
        Times {
            there: self.there.saturating_sub(other.there),
            here: self.here.saturating_sub(other.here),
        }
    }

    fn print(self, rows: usize, work: &str, count: usize) {
        let each = |time: Duration| time.as_secs_f64() * 1e6 / count as f64;
        let (there, here) = (each(self.there), each(self.here));
        println!(
            "{rows:>4}  {work:<10}{count:>6}{there:>14.2}{here:>14.2}{:>9.2}",
            there / here
        );
    }
}

pub fn run(peer: &mut dyn Peer) -> Result<(), String> {
    let mut own = InProcess::new();
    let mut laps = Vec::new();
    println!("microseconds each: the command, over pipes, and this program, in process");
    println!("rows  work       times       command          here    ratio");
    for rows in ROWS {
        let load = order_line(&spread_ids(rows));
        let size = format!("size {}", Network::length_for(rows));
        time(peer, &mut own, vec![size, load.clone()])?;
        let loads = time(peer, &mut own, vec![load.clone(); LAPS])?;
        let load_and_lap = [load.clone(), format!("lap {MOST_ROOM}")];
        let laps_too = std::iter::repeat_n(load_and_lap, LAPS).flatten().collect();
        let both = time(peer, &mut own, laps_too)?;
        time(peer, &mut own, vec![load])?;
        let steps = time(peer, &mut own, vec!["step 0".to_string(); STEPS])?;
        loads.print(rows, "load", LAPS);
        both.print(rows, "load, lap", LAPS);
        both.less(loads).print(rows, "lap", LAPS);
        steps.print(rows, "step", STEPS);
        laps.push((
            rows,
            both.less(loads).there.as_secs_f64() * 1e3 / LAPS as f64,
        ));
    }
    println!();
    for (rows, milliseconds) in laps {
        println!(
            "one recovery lap of {rows} rows: {milliseconds:.3} ms; on the line itself 24 to 61 ms"
        );
    }
    Ok(())
}

/// IDs spread over 1 to 255.
fn spread_ids(rows: usize) -> Vec<u8> {
    (1..=rows).map(|row| (row * 255 / rows) as u8).collect()
}

/// Sends the lines all at once to each, and times them until the last answer.
fn time(peer: &mut dyn Peer, own: &mut InProcess, lines: Vec<String>) -> Result<Times, String> {
    let (theirs, there) = timed(peer, &lines)?;
    let (ours, here) = timed(own, &lines)?;
    if theirs != ours {
        return Err("the answers differ: run the campaign first".to_string());
    }
    Ok(Times { there, here })
}

fn timed(peer: &mut dyn Peer, lines: &[String]) -> Result<(Vec<String>, Duration), String> {
    let text = lines
        .iter()
        .flat_map(|line| [line.as_str(), "\n"])
        .collect::<String>();
    let started = Instant::now();
    peer.send(text.into_bytes())
        .map_err(|error| error.to_string())?;
    let answers = lines
        .iter()
        .map(|_| peer.receive())
        .collect::<Result<Vec<_>, _>>();
    let taken = started.elapsed();
    answers
        .map(|answers| (answers, taken))
        .map_err(|error| error.to_string())
}
