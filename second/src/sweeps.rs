//! Every value of a byte, where the rules of document 01 and of requests C-11, C-13 and C-16 say how many
//! of them are taken.
//!
//! The network has one row. Its byte b is at `ROW + b`, and page 0 of its RAM at `RAM`.

use std::collections::BTreeSet;

use crate::peer::Peer;

const ROW: usize = 16;
const RAM: usize = ROW + 64;

/// A byte of the row, and the value that it gets.
type Change = (usize, u8);

/// A byte of the row, and how many of its values are well formed.
type Fitting = (usize, usize);

/// A fresh network of one row, with changes.
fn card(changes: &[Change]) -> Vec<String> {
    let mut lines = vec!["size 1104".to_string(), "fresh 1".to_string()];
    lines.extend(changes.iter().map(|(byte, value)| set(*byte, *value)));
    lines
}

fn set(byte: usize, value: u8) -> String {
    format!("poke {} {value:02X}", ROW + byte)
}

/// The answer to the last of some lines, for each value.
fn sweep(peer: &mut dyn Peer, lines: impl Fn(u8) -> Vec<String>) -> Result<Vec<String>, String> {
    let scripts: Vec<Vec<String>> = (0..=255).map(lines).collect();
    let sent = scripts.concat().join("\n") + "\n";
    peer.send(sent.into_bytes())
        .map_err(|error| error.to_string())?;
    let mut last = Vec::new();
    for script in &scripts {
        let mut answer = String::new();
        for _ in script {
            answer = peer.receive().map_err(|error| error.to_string())?;
        }
        last.push(answer);
    }
    Ok(last)
}

/// How many values are answered DONE, which is to be `expected`.
fn count(
    peer: &mut dyn Peer,
    what: &str,
    expected: usize,
    lines: impl Fn(u8) -> Vec<String>,
) -> Result<(), String> {
    let answers = sweep(peer, lines)?;
    let done = answers.iter().filter(|answer| *answer == "DONE").count();
    if done == expected {
        Ok(())
    } else {
        Err(format!(
            "{what} takes {done} of the 256 values and not {expected}"
        ))
    }
}

/// Writes to an awake row with ID 07, by its status, its configuration and more; RI, POR, RECON and
/// TA are set where the status is 95.
pub fn registers(peer: &mut dyn Peer) -> Result<(), String> {
    const ON_LINE: &[Change] = &[(3, 0x95), (6, 0x38)];
    const CHAINING: &[Change] = &[(3, 0x95), (6, 0x78)];
    const ONE_EACH: &[Change] = &[(3, 0x14), (6, 0x38)];
    const CHAINING_ONE_EACH: &[Change] = &[(3, 0x14), (6, 0x78)];
    const CHAINING_TWO_EACH: &[Change] = &[(3, 0x14), (6, 0x78), (16, 0x40), (17, 0x20)];
    const TAKEN: [(u8, &[Change], usize); 22] = [
        (0, ON_LINE, 16),
        (1, ON_LINE, 20),
        (2, ON_LINE, 16),
        (3, ON_LINE, 256),
        (4, ON_LINE, 256),
        (5, ON_LINE, 0),
        (6, ON_LINE, 256),
        (7, &[(3, 0x95), (6, 0x18)], 256),
        (7, &[(3, 0x95), (6, 0x19)], 256),
        (7, &[(3, 0x95), (6, 0x1A)], 8),
        (7, &[(3, 0x95), (6, 0x1B)], 0),
        (0, CHAINING, 16),
        (1, CHAINING, 22),
        (6, CHAINING, 256),
        // No Enable, nor 05 or 0D; with chaining a second Enable and the Clears, and no third.
        (1, ONE_EACH, 6),
        (1, CHAINING_ONE_EACH, 20),
        (1, CHAINING_TWO_EACH, 8),
        // Only the even pages with long packets.
        (1, &[(3, 0x14), (6, 0x78), (15, 1)], 14),
        // CCHEN stays as it is with TA = 0, and with RI = 0.
        (6, &[(3, 0x94), (6, 0x38)], 128),
        (6, &[(3, 0x15), (6, 0x38)], 128),
        (6, &[(3, 0x94), (6, 0x78)], 128),
        (6, &[(3, 0x15), (6, 0x78)], 128),
    ];
    for (register, changes, expected) in TAKEN {
        let what = format!("register {register} of a row with the changes {changes:02X?}");
        count(peer, &what, expected, |value| {
            let mut lines = card(&[(2, 0x07)]);
            lines.extend(changes.iter().map(|(byte, value)| set(*byte, *value)));
            lines.push(format!("write 0 {register} {value}"));
            lines
        })?;
    }
    Ok(())
}

/// The bytes of a row: of a fresh one, of one with TA and RI 0, of the same with long packets 1, and
/// of the same with an odd page to send or to fill; then of rows with chaining, which wait once or
/// twice, or have completions that are not cleared; and of rows with NAKs.
pub fn forms(peer: &mut dyn Peer) -> Result<(), String> {
    const FRESH: &[Fitting] = &[
        (0, 1),
        (1, 1),
        (2, 256),
        (3, 24),
        (4, 32),
        (5, 16),
        (6, 256),
        (7, 8),
        (8, 256),
        (9, 256),
        (10, 4),
        (11, 256),
        (12, 16),
        (13, 1),
        (14, 1),
        (15, 2),
        (16, 1),
        (17, 1),
        (18, 1),
        (19, 1),
        (20, 1),
        (31, 1),
        (32, 256),
        (33, 1),
        (34, 1),
        (35, 1),
        (63, 1),
        (64, 256),
        (1087, 256),
    ];
    const ENABLED: &[Fitting] = &[
        (3, 24),
        (4, 32),
        (6, 256),
        (13, 8),
        (14, 16),
        (15, 2),
        (33, 128),
        (34, 1),
    ];
    const ODD: &[Fitting] = &[(3, 0), (15, 1)];
    const IDLE_CHAINING: &[Fitting] = &[
        (3, 24),
        (6, 256),
        (13, 1),
        (14, 1),
        (16, 1),
        (17, 1),
        (18, 4),
        (19, 3),
        (20, 1),
        (31, 1),
        (32, 256),
        (33, 1),
        (34, 1),
        (35, 1),
        (63, 1),
    ];
    const ENABLED_CHAINING: &[Fitting] = &[
        (3, 24),
        (4, 32),
        (6, 256),
        (13, 8),
        (14, 16),
        (15, 2),
        (16, 9),
        (17, 17),
        (18, 4),
        (19, 3),
        (20, 1),
        (33, 128),
        (34, 1),
    ];
    const SECOND_ODD: &[Fitting] = &[(15, 1)];
    const NAKS: &[Fitting] = &[(3, 8), (4, 32), (6, 256), (33, 128), (34, 1)];
    const EXCNAK: &[Fitting] = &[(3, 8), (4, 32), (6, 256), (33, 1), (34, 1)];
    let cards: [(&[Change], &[Fitting]); 21] = [
        (&[], FRESH),
        (&[(3, 0x10)], ENABLED),
        (&[(3, 0x10)], &[(16, 1), (17, 1), (18, 1), (19, 1)]),
        (&[(3, 0x10), (15, 1)], &[(13, 4), (14, 8)]),
        (&[(3, 0x10), (15, 1), (13, 0x01)], ODD),
        (&[(3, 0x10), (15, 1), (14, 0x41)], ODD),
        (&[(6, 0x58)], IDLE_CHAINING),
        // TMA also with TTA; completions only with CCHEN.
        (&[(6, 0x58), (18, 0x01)], &[(3, 32), (6, 128), (18, 4)]),
        (&[(6, 0x58), (18, 0x82)], &[(3, 32), (6, 128), (18, 4)]),
        (&[(6, 0x58), (19, 0x01)], &[(3, 24), (6, 128), (19, 3)]),
        (&[(6, 0x58), (3, 0x10)], ENABLED_CHAINING),
        // TMA = 1 with TA = 0 needs a completion.
        (&[(6, 0x58), (3, 0x12), (18, 0x01)], &[(3, 32), (18, 3)]),
        (
            &[(6, 0x58), (3, 0x10), (15, 1)],
            &[(13, 4), (14, 8), (16, 5), (17, 9)],
        ),
        // A second only with CCHEN, and with TA, or RI, 0.
        (
            &[(6, 0x58), (3, 0x10), (16, 0x40)],
            &[(3, 8), (6, 128), (13, 8), (15, 2), (16, 9)],
        ),
        (
            &[(6, 0x58), (3, 0x10), (17, 0x20)],
            &[(3, 12), (6, 128), (14, 16), (15, 2), (17, 17)],
        ),
        (&[(6, 0x58), (3, 0x10), (16, 0x41)], SECOND_ODD),
        (&[(6, 0x58), (3, 0x10), (17, 0x61)], SECOND_ODD),
        // NAKs only with TA = 0, and EXCNAK with 128.
        (&[(3, 0x10), (33, 0x7F)], NAKS),
        (&[(6, 0x58), (3, 0x10), (33, 0x01)], NAKS),
        (&[(3, 0x10), (33, 0x80), (4, 0x08)], EXCNAK),
        (&[(6, 0x58), (3, 0x10), (33, 0x80), (4, 0x08)], EXCNAK),
    ];
    for (changes, bytes) in cards {
        for (byte, expected) in bytes {
            let what = format!("byte {byte} of a row with the changes {changes:02X?}");
            count(peer, &what, *expected, |value| {
                let mut lines = card(changes);
                lines.extend([set(*byte, value), "check".to_string()]);
                lines
            })?;
        }
    }
    Ok(())
}

/// The numbers of data bytes that some pair of count bytes gives, with long packets 0 or 1.
pub fn lengths(peer: &mut dyn Peer) -> Result<(), String> {
    let mut seen = BTreeSet::new();
    for long in [0, 1] {
        for first in 0..=255 {
            let answers = sweep(peer, |next| {
                let mut lines = match next {
                    0 => card(&[(15, long)]),
                    _ => Vec::new(),
                };
                lines.push(format!("poke {} {first:02X}{next:02X}", RAM + 2));
                lines.push("data 0 0".to_string());
                lines
            })?;
            let data = answers.iter().filter_map(|a| a.strip_prefix("DONE "));
            seen.extend(data.map(|hex| hex.len() / 2));
        }
    }
    if seen.iter().copied().eq((1..=253).chain(257..=508)) {
        Ok(())
    } else {
        Err(format!("N is one of {seen:?}"))
    }
}
