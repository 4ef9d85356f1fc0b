//! Calls made here and at a peer alike: every answer is compared, and after every call, by `sum`,
//! every lent byte.

use std::collections::VecDeque;

use crate::model::Network;
use crate::peer::Peer;
use crate::prompt::{Lent, Prompt};
use crate::sights::{fetched, naks, named, orders, View, Watch};
use crate::tally::Tally;

/// Calls sent at a time. While the peer works on them the next ones are made.
const BATCH: usize = 200;

/// Calls shown before a difference.
const SHOWN: usize = 20;

/// Characters shown of one line.
const WIDTH: usize = 2_100;

/// A call, what it met here, and what the peer answered.
pub struct Heard {
    pub line: String,
    pub sights: Vec<String>,
    pub answer: String,
}

/// One call as it went here.
struct Exchange {
    line: Vec<u8>,
    answer: String,
    sum: String,
    /// Only while the peer's answers are kept.
    sights: Vec<String>,
}

pub struct Comparison<'a> {
    own: Prompt,
    peer: &'a mut dyn Peer,
    unsent: Vec<u8>,
    unsent_calls: usize,
    waiting: VecDeque<Exchange>,
    compared: VecDeque<Exchange>,
    compared_calls: u64,
    calls: u64,
    judges: bool,
    heard: Option<Vec<Heard>>,
    watch: Watch,
    fetched: fetched::Watch,
    naks: naks::Watch,
    tally: Tally,
}

impl<'a> Comparison<'a> {
    pub fn new(peer: &'a mut dyn Peer) -> Comparison<'a> {
        Comparison {
            judges: true,
            ..Comparison::unjudged(peer)
        }
    }

    /// What goes on here only leads to calls: the peer may answer otherwise.
    pub fn unjudged(peer: &'a mut dyn Peer) -> Comparison<'a> {
        Comparison {
            own: Prompt::new(),
            peer,
            unsent: Vec::new(),
            unsent_calls: 0,
            waiting: VecDeque::new(),
            compared: VecDeque::new(),
            compared_calls: 0,
            calls: 0,
            judges: false,
            heard: None,
            watch: Watch::default(),
            fetched: fetched::Watch::default(),
            naks: naks::Watch::default(),
            tally: Tally::default(),
        }
    }

    pub fn calls(&self) -> u64 {
        self.calls
    }

    pub fn tally(&self) -> &Tally {
        &self.tally
    }

    pub fn lent(&mut self) -> &mut Lent {
        self.own.lent()
    }

    /// The network as it stands here after all calls so far; None where it is not well formed.
    pub fn network(&mut self) -> Option<&Network> {
        self.own.lent().network().ok()
    }

    /// Makes a call here and queues it for the peer.
    pub fn call(&mut self, line: &[u8]) -> Result<(), String> {
        let (answer, sights) = self.call_here(line);
        let sum = self.own.answer(b"sum");
        let listening = self.heard.is_some();
        self.unsent.extend_from_slice(line);
        self.unsent.extend_from_slice(b"\nsum\n");
        self.unsent_calls += 1;
        self.calls += 1;
        self.waiting.push_back(Exchange {
            line: line.to_vec(),
            answer,
            sum,
            sights: if listening { sights } else { Vec::new() },
        });
        if self.unsent_calls == BATCH {
            self.send()?;
            self.compare_down_to(BATCH)?;
        }
        Ok(())
    }

    /// The answer to a call here, and what it met.
    fn call_here(&mut self, line: &[u8]) -> (String, Vec<String>) {
        let before = self.network().map(View::of);
        let answer = self.own.answer(line);
        let after = self.network().map(View::of);
        let text = String::from_utf8_lossy(line);
        let words: Vec<&str> = text.split(' ').collect();
        let (before, after) = (before.as_ref(), after.as_ref());
        let mut sights = self.watch.sights(&words, before, after);
        sights.extend(self.fetched.sights(&words, &answer, before, after));
        sights.extend(self.naks.sights(&words, &answer, before, after));
        sights.extend(named::sights(&answer, before));
        sights.extend(orders::sights(&words, self.own.lent().length()));
        self.tally.record(&words, &answer, &sights);
        (answer, sights)
    }

    /// Keeps what the peer answers from now on.
    pub fn listen(&mut self) -> Result<(), String> {
        self.catch_up()?;
        self.heard = Some(Vec::new());
        Ok(())
    }

    /// What it answered since `listen`.
    pub fn heard(&mut self) -> Result<Vec<Heard>, String> {
        self.catch_up()?;
        Ok(self.heard.take().unwrap_or_default())
    }

    /// Notes a call that was answered alike with rows in another order.
    pub fn shuffled(&mut self, first: &Heard, heard: &Heard) {
        self.tally.record_shuffled(first, heard);
    }

    /// Compares all that still waits, and sees that nothing more comes.
    pub fn finish(&mut self) -> Result<(), String> {
        self.catch_up()?;
        let rest = self.peer.rest().map_err(|error| error.to_string())?;
        if rest.is_empty() {
            Ok(())
        } else {
            Err(format!(
                "after the last answer there came: {}",
                shortened(&rest)
            ))
        }
    }

    fn catch_up(&mut self) -> Result<(), String> {
        self.send()?;
        self.compare_down_to(0)
    }

    fn send(&mut self) -> Result<(), String> {
        if self.unsent_calls == 0 {
            return Ok(());
        }
        self.unsent_calls = 0;
        self.peer
            .send(std::mem::take(&mut self.unsent))
            .map_err(|error| self.broken(&error.to_string()))
    }

    fn compare_down_to(&mut self, left: usize) -> Result<(), String> {
        while self.waiting.len() > left {
            let Some(exchange) = self.waiting.pop_front() else {
                break;
            };
            self.compare(&exchange)?;
            self.compared_calls += 1;
            self.compared.push_back(exchange);
            if self.compared.len() > SHOWN {
                self.compared.pop_front();
            }
        }
        Ok(())
    }

    fn compare(&mut self, exchange: &Exchange) -> Result<(), String> {
        let mut received = || self.peer.receive().map_err(|error| error.to_string());
        let theirs = received().and_then(|answer| Ok((answer, received()?)));
        let (answer, sum) =
            theirs.map_err(|error| self.broken(&format!("{error}\n{}", shown(exchange))))?;
        if let Some(heard) = &mut self.heard {
            heard.push(Heard {
                line: String::from_utf8_lossy(&exchange.line).into_owned(),
                sights: exchange.sights.clone(),
                answer: answer.clone(),
            });
        }
        if !self.judges || same(&exchange.answer, &answer) && exchange.sum == sum {
            return Ok(());
        }
        Err(self.broken(&format!(
            "difference\n> {}\n  here:  {}\n         sum {}\n  there: {}\n         sum {}",
            shortened(&String::from_utf8_lossy(&exchange.line)),
            shortened(&exchange.answer),
            exchange.sum,
            shortened(&answer),
            shortened(&sum),
        )))
    }

    /// What went wrong, after the calls that went before.
    fn broken(&self, what: &str) -> String {
        let before: String = self
            .compared
            .iter()
            .map(|exchange| shown(exchange) + "\n")
            .collect();
        format!("{before}call {}: {what}", self.compared_calls + 1)
    }
}

/// Of an ERROR only the first word is laid down.
pub fn same(here: &str, there: &str) -> bool {
    if here.starts_with("ERROR") {
        there.starts_with("ERROR")
    } else {
        here == there
    }
}

fn shown(exchange: &Exchange) -> String {
    let line = shortened(&String::from_utf8_lossy(&exchange.line));
    format!(
        "> {line}\n  {}   sum {}",
        shortened(&exchange.answer),
        exchange.sum
    )
}

pub fn shortened(text: &str) -> String {
    let head: String = text.chars().take(WIDTH).collect();
    if head.len() == text.len() {
        head
    } else {
        format!("{head}.. ({} bytes)", text.len())
    }
}
