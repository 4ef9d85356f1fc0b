//! Request C-15, "How long is a lap": what is on the line in a step, and the time of it in tenths of a
//! microsecond. The step says what it sends and whether it is answered; nothing here asks what it answers.
//!
//! The prescaler of the setup register is not asked: C-15 names no time for it.

use crate::model::{Configuration, Network};
use crate::packet::Layout;
use crate::refusal::Refusal;

const ALERT_BURST: u64 = 24;
const CHARACTER: u64 = 44;
const TURNAROUND: u64 = 120;

/// Once in a recovery, however many rows burst, and where none did.
const RECOVERY_BURST: u64 = 27_540;

/// For each ID that the holder's is below 255.
const PRIORITY: u64 = 1_460;

/// 001's table 1 is in microseconds.
const MICROSECOND: u64 = 10;

/// What takes time on the line.
#[derive(Clone, Copy, Debug, PartialEq, Eq)]
pub enum Sound {
    /// All that comes before a row holds the token in PASS.
    Recovery { holder_id: u8 },
    /// An alert burst and so many characters.
    Message { characters: usize },
    /// Between a message and its answer.
    Turnaround,
    /// Behind a message that should have been answered.
    NoAnswer,
}

impl Sound {
    /// EOT and the DID twice, or ENQ and the DID twice.
    pub const INVITATION: Sound = Sound::Message { characters: 3 };
    pub const ENQUIRY: Sound = Sound::Message { characters: 3 };

    /// ACK or NAK, which come after a turnaround.
    pub const REPLY: [Sound; 2] = [Sound::Turnaround, Sound::Message { characters: 1 }];

    pub fn packet(layout: Layout) -> Sound {
        Sound::Message {
            characters: layout.characters(),
        }
    }
}

/// What a call puts on the line, in order.
pub type Sounds = Vec<Sound>;

/// A row of 001's table 1.
#[derive(Clone, Copy, Debug, PartialEq, Eq)]
pub struct Times {
    response: u64,
    idle: u64,
}

impl Times {
    fn set_by(configuration: Configuration) -> Times {
        let (response, idle) = match (configuration.et2, configuration.et1) {
            (true, true) => (78, 86),
            (true, false) => (285, 316),
            (false, true) => (563, 624),
            (false, false) => (1_130, 1_237),
        };
        Times {
            response: response * MICROSECOND,
            idle: idle * MICROSECOND,
        }
    }

    pub fn tenths(self, sounds: &[Sound]) -> u64 {
        sounds.iter().map(|sound| self.of(*sound)).sum()
    }

    fn of(self, sound: Sound) -> u64 {
        match sound {
            Sound::Recovery { holder_id } => {
                RECOVERY_BURST + self.idle + PRIORITY * u64::from(u8::MAX - holder_id)
            }
            Sound::Message { characters } => ALERT_BURST + CHARACTER * characters as u64,
            Sound::Turnaround => TURNAROUND,
            Sound::NoAnswer => self.response,
        }
    }
}

impl Network {
    /// The times that all rows on line have, which else is MIXED. With nobody on line nothing is sent, and
    /// any times will do.
    pub fn times(&self) -> Result<Times, Refusal> {
        let on_line = self.rows.iter().filter(|row| row.on_line());
        let mut times = on_line.map(|row| Times::set_by(row.configuration));
        let Some(first) = times.next() else {
            return Ok(Times::set_by(Configuration::DEFAULT));
        };
        if times.all(|other| other == first) {
            Ok(first)
        } else {
            Err(Refusal::Mixed)
        }
    }
}
