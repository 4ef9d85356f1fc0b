//! The second program: document 01 with requests C-11, C-12, C-13, C-16 and C-20, held against the
//! program `bench`.

mod benchmark;
mod cases;
mod comparison;
mod line;
mod material;
mod model;
mod order;
mod packet;
mod peer;
mod prompt;
mod queue;
mod refusal;
mod registers;
mod rng;
mod scenes;
mod shuffle;
mod sights;
mod sweeps;
mod tally;
#[cfg(test)]
mod tests;

use std::io::{self, BufRead, Write};
use std::process::ExitCode;
use std::time::Instant;

use comparison::Comparison;
use peer::{InProcess, Peer, Piped};
use prompt::Prompt;
use scenes::Player;

const USAGE: &str = "\
second campaign CALLS SEED -- COMMAND ARGS..   random calls, every answer and byte compared
second self CALLS SEED                         the same against the prompt of this program
second shuffled CALLS SEED -- COMMAND ARGS..   random calls, and the same with rows in another order
second cases -- COMMAND ARGS..                 the fixed cases
second bench -- COMMAND ARGS..                 how fast it is
second prompt                                  answers the lines of standard input itself";

fn main() -> ExitCode {
    let arguments: Vec<String> = std::env::args().skip(1).collect();
    let words: Vec<&str> = arguments.iter().map(String::as_str).collect();
    let result = match words.as_slice() {
        ["campaign", calls, seed, "--", _, ..] => {
            start(&arguments[4..]).and_then(|mut peer| campaign(&mut peer, calls, seed))
        }
        ["self", calls, seed] => campaign(&mut InProcess::new(), calls, seed),
        ["shuffled", calls, seed, "--", _, ..] => {
            start(&arguments[4..]).and_then(|mut peer| shuffled(&mut peer, calls, seed))
        }
        ["cases", "--", _, ..] => start(&arguments[2..]).and_then(|mut peer| cases::run(&mut peer)),
        ["bench", "--", _, ..] => {
            start(&arguments[2..]).and_then(|mut peer| benchmark::run(&mut peer))
        }
        ["prompt"] => prompt().map_err(|error| error.to_string()),
        _ => {
            eprintln!("{USAGE}");
            return ExitCode::from(2);
        }
    };
    match result {
        Ok(()) => ExitCode::SUCCESS,
        Err(what) => {
            println!("{what}");
            ExitCode::FAILURE
        }
    }
}

fn start(command: &[String]) -> Result<Piped, String> {
    Piped::start(command).map_err(|error| format!("{}: {error}", command.join(" ")))
}

/// Answers each line of standard input, until it ends.
fn prompt() -> io::Result<()> {
    let mut prompt = Prompt::new();
    let mut answers = io::stdout().lock();
    for line in io::stdin().lock().split(b'\n') {
        writeln!(answers, "{}", prompt.answer(&line?))?;
    }
    Ok(())
}

fn number(text: &str) -> Result<u64, String> {
    text.parse().map_err(|error| format!("{text}: {error}"))
}

fn campaign(peer: &mut dyn Peer, calls: &str, seed: &str) -> Result<(), String> {
    let (calls, seed) = (number(calls)?, number(seed)?);
    let started = Instant::now();
    let mut player = Player::new(Comparison::new(peer), seed);
    player.play(calls)?;
    let tally = player.comparison().tally();
    tally.print();
    let calls = player.comparison().calls();
    println!();
    println!(
        "{calls} calls of seed {seed} alike, with as many sums, in {:.1} s",
        started.elapsed().as_secs_f64()
    );
    all_came(&tally.missing())
}

/// Holds the peer against itself, with rows in another order.
fn shuffled(peer: &mut dyn Peer, calls: &str, seed: &str) -> Result<(), String> {
    let (calls, seed) = (number(calls)?, number(seed)?);
    let mut player = Player::new(Comparison::unjudged(peer), seed);
    player.play_shuffled(calls)?;
    let tally = player.comparison().tally();
    tally.print_shuffled();
    let calls = player.comparison().calls();
    println!("\n{calls} calls of seed {seed}, alike with rows in another order");
    all_came(&tally.missing_shuffled())
}

fn all_came(missing: &[String]) -> Result<(), String> {
    match missing {
        [] => Ok(()),
        missing => Err(format!("can come and did not:\n{}", missing.join("\n"))),
    }
}
