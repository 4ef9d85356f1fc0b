//! The fixed cases of document 01, "Sums to prove and sums to run", two of its "differ" for every pair
//! of rows and of records (C-14), two of request C-12, one of C-11, three of C-13, those of C-16, and the
//! sweeps.

mod naks;

use crate::model::{Network, MOST_ROWS};
use crate::order::{ORDER_MARK, RECORD};
use crate::peer::{InProcess, Peer};
use crate::prompt::hex_text;
use crate::sweeps;

/// Lines with the answers that the documents give them.
type Script = Vec<(String, String)>;

enum Case {
    Lines(fn() -> Script),
    FaultOnBroadcast,
    Sweep(fn(&mut dyn Peer) -> Result<(), String>),
}

const CASES: [(&str, Case); 21] = [
    ("one row refuses ALONE", Case::Lines(one_row)),
    ("60 rows load, 61 refuse", Case::Lines(sixty_and_one)),
    (
        "no two of 60 rows on line have one ID",
        Case::Lines(two_rows_alike),
    ),
    (
        "no two of 60 records have one ID",
        Case::Lines(two_records_alike),
    ),
    (
        "a bad record of 60 is named, whichever it is",
        Case::Lines(each_record_bad),
    ),
    (
        "the first bad record is named, for the first reason",
        Case::Lines(several_reasons),
    ),
    (
        "a packet to one's own ID gets NOANSWER",
        Case::Lines(to_own_id),
    ),
    (
        "fault 2 on a broadcast changes nothing",
        Case::FaultOnBroadcast,
    ),
    (
        "two packets queued go one a token",
        Case::Lines(two_packets_queued),
    ),
    (
        "register 4 gives the byte that was fetched",
        Case::Lines(bytes_fetched),
    ),
    (
        "a packet leaves the fetched byte as it is",
        Case::Lines(packet_over_a_fetched_byte),
    ),
    (
        "of bytes 20 to 63 of a row only 32 may hold anything",
        Case::Lines(byte_32_alone),
    ),
    (
        "a step names the row that answered",
        Case::Lines(naks::rows_named),
    ),
    (
        "the 128th NAK sets EXCNAK, and no more are counted",
        Case::Lines(naks::counted),
    ),
    (
        "Clear Flags with bit 3 begins the count anew",
        Case::Lines(naks::flags_cleared),
    ),
    (
        "the count ends with the transmit, however that ends",
        Case::Lines(naks::ended),
    ),
    (
        "with chaining it is the count of the oldest",
        Case::Lines(naks::of_the_oldest),
    ),
    (
        "the bytes of a count that are well formed",
        Case::Lines(naks::bytes),
    ),
    (
        "the values that each register takes",
        Case::Sweep(sweeps::registers),
    ),
    (
        "the values with which a row is well formed",
        Case::Sweep(sweeps::forms),
    ),
    (
        "N is 1-253 or 257-508, whatever the count bytes",
        Case::Sweep(sweeps::lengths),
    ),
];

pub fn run(peer: &mut dyn Peer) -> Result<(), String> {
    let mut both = Both {
        there: peer,
        here: InProcess::new(),
    };
    let mut failed = false;
    for (name, case) in CASES {
        let result = match case {
            Case::Lines(script) => both.follow(&script()),
            Case::FaultOnBroadcast => both.fault_on_broadcast(),
            Case::Sweep(sweep) => both.each(sweep),
        };
        println!(
            "{name}: {}",
            result
                .as_ref()
                .err()
                .map_or("as the documents have it", String::as_str)
        );
        failed |= result.is_err();
    }
    if failed {
        Err("not all cases are as the documents have them".to_string())
    } else {
        Ok(())
    }
}

/// An order for these IDs, all with the receiver on.
fn order(ids: &[u8]) -> Vec<u8> {
    let mut order = Vec::new();
    for id in ids {
        order.extend(ORDER_MARK);
        order.extend([*id, 1]);
        order.extend(b"NODE        ");
    }
    order
}

pub fn order_line(ids: &[u8]) -> String {
    load_line(&order(ids))
}

fn load_line(order: &[u8]) -> String {
    format!("load {}", hex_text(order))
}

fn script(lines: &[(&str, &str)]) -> Script {
    lines
        .iter()
        .map(|(line, answer)| (line.to_string(), answer.to_string()))
        .collect()
}

fn loaded(ids: &[u8], answer: &str) -> Script {
    let size = format!("size {}", Network::length_for(ids.len()));
    script(&[(&size, "DONE"), (&order_line(ids), answer)])
}

fn one_row() -> Script {
    let mut lines = loaded(&[7], "DONE");
    lines.extend(script(&[
        ("lap 1", "REFUSED 12 ALONE"),
        ("step 0", "RECOVERED 0"),
    ]));
    lines
}

fn sixty_and_one() -> Script {
    let ids: Vec<u8> = (1..=MOST_ROWS as u8 + 1).collect();
    let mut lines = loaded(&ids[..MOST_ROWS], "DONE");
    lines.extend(script(&[("check", "DONE")]));
    lines.extend(loaded(&ids, "REFUSED 14 LENGTH"));
    lines.extend(script(&[
        ("fresh 61", "REFUSED 4 VALUE"),
        ("check", "REFUSED 1 SHAPE"),
    ]));
    lines
}

/// Every pair of sixty rows on line: with one ID they are SHAPE, and are not once the later is off line.
fn two_rows_alike() -> Script {
    let ids: Vec<u8> = (1..=MOST_ROWS as u8).collect();
    let mut lines = loaded(&ids, "DONE");
    for (later, own) in ids.iter().enumerate() {
        let row = Network::length_for(later);
        let [id, configuration] = [row + 2, row + 6];
        for earlier in &ids[..later] {
            lines.extend(script(&[
                (&format!("poke {id} {earlier:02X}"), "DONE"),
                ("check", "REFUSED 1 SHAPE"),
                (&format!("poke {configuration} 18"), "DONE"),
                ("check", "DONE"),
                (&format!("poke {configuration} 38"), "DONE"), // TXEN
            ]));
        }
        lines.extend(script(&[
            (&format!("poke {id} {own:02X}"), "DONE"),
            ("check", "DONE"),
        ]));
    }
    lines
}

/// Every pair of sixty records: with one ID they are TWICE, and the later is named.
fn two_records_alike() -> Script {
    let ids: Vec<u8> = (1..=MOST_ROWS as u8).collect();
    let mut lines = loaded(&ids, "DONE");
    for later in 0..ids.len() {
        for earlier in &ids[..later] {
            let mut alike = ids.clone();
            alike[later] = *earlier;
            let answer = format!("REFUSED 19 TWICE {}", later + 1);
            lines.push((order_line(&alike), answer));
        }
    }
    lines
}

/// A byte of a record, and a value that makes the record bad.
type Fault = (usize, u8);

const MARK: Fault = (1, 0x53);
const ORDER_ID: Fault = (2, 0x00);
const FLAGS: Fault = (3, 0x04);
const NAME: Fault = (4, 0x20);

/// The line of an order for these IDs, with faults in one record, from 1.
fn bad_line(ids: &[u8], record: usize, faults: &[Fault]) -> String {
    let mut order = order(ids);
    for (byte, value) in faults {
        order[RECORD * (record - 1) + byte] = *value;
    }
    load_line(&order)
}

/// Every one of sixty records with each thing that can be wrong with it alone.
fn each_record_bad() -> Script {
    const REASONS: [(Fault, &str); 7] = [
        ((0, 0x4E), "15 MARK"),
        (MARK, "15 MARK"),
        (ORDER_ID, "16 ORDER-ID"),
        (FLAGS, "17 FLAGS"),
        (NAME, "18 NAME"),
        ((5, 0x1F), "18 NAME"),
        ((15, 0x7F), "18 NAME"),
    ];
    let ids: Vec<u8> = (1..=MOST_ROWS as u8).collect();
    let mut lines = loaded(&ids, "DONE");
    for record in 1..=ids.len() {
        for (fault, reason) in REASONS {
            let line = bad_line(&ids, record, &[fault]);
            lines.push((line, format!("REFUSED {reason} {record}")));
        }
    }
    lines
}

/// The readings C12-01, 02, 05 and 04: the first bad record, whatever the others are; of its reasons
/// the first; and all before ROOM.
fn several_reasons() -> Script {
    let bad_mark = bad_line(&[7], 1, &[MARK]);
    let mut lines = loaded(&[7, 8, 9], "DONE");
    lines.extend(script(&[
        (&bad_line(&[7, 7, 9], 3, &[MARK]), "REFUSED 19 TWICE 2"),
        (&order_line(&[0, 0]), "REFUSED 16 ORDER-ID 1"),
        (&order_line(&[7, 7, 7]), "REFUSED 19 TWICE 2"),
        (&order_line(&[7, 8, 8, 7]), "REFUSED 19 TWICE 3"),
        (&bad_line(&[0], 1, &[FLAGS]), "REFUSED 16 ORDER-ID 1"),
        (&bad_line(&[7, 0], 2, &[MARK]), "REFUSED 15 MARK 2"),
        (&bad_line(&[7, 7], 2, &[FLAGS, NAME]), "REFUSED 17 FLAGS 2"),
        (&bad_line(&[7, 7], 2, &[NAME]), "REFUSED 18 NAME 2"),
        ("size 5", "DONE"),
        (&bad_mark, "REFUSED 15 MARK 1"),
        (&format!("{bad_mark}00"), "REFUSED 14 LENGTH"),
        ("load", "REFUSED 14 LENGTH"),
        (&order_line(&[7]), "REFUSED 13 ROOM"),
        (&format!("size {}", Network::length_for(3)), "DONE"),
        ("check", "DONE"),
    ]));
    lines
}

/// Two rows, 5 and 6; row 0, that of ID 5, has a packet of one byte waiting for this DID, and has
/// just been passed the token: 6 invites itself, then 7 and so on to 255, 0, 1 and so on to 5.
fn row_0_at_the_token(did: u8) -> Script {
    let mut lines = loaded(&[5, 6], "DONE");
    let page = Network::length_for(0) + 64 + 256;
    lines.extend(script(&[
        (&format!("poke {page} 55{did:02X}FF"), "DONE"),
        (&format!("poke {} AA", page + 255), "DONE"),
        ("write 0 1 35", "DONE"), // 23 hex: Enable Transmit from page 1
        ("step 0", "RECOVERED 1"),
    ]));
    for invited in (6..=255).chain(0..=4) {
        lines.extend(script(&[("step 0", &format!("UNANSWERED {invited}"))]));
    }
    lines.extend(script(&[("step 0", "PASSED 0")]));
    lines
}

fn to_own_id() -> Script {
    let mut lines = row_0_at_the_token(5);
    lines.extend(script(&[
        ("step 0", "HELD NOANSWER"),
        ("read 0 0", "DONE 21"), // 15 hex: POR, RECON and TA, RI 0 still
        ("peek 336 3", "DONE 5505FF"), // no packet went, so its byte 0 is as it was
    ]));
    lines
}

/// Two rows with chaining, 5 and 6; 5 has two packets for 6, which has two receives waiting. A lap
/// is as long as without them, and takes the first; the next token takes the second.
fn two_packets_queued() -> Script {
    let mut lines = loaded(&[5, 6], "DONE");
    let page = Network::length_for(0) + 64;
    lines.extend(script(&[
        ("write 0 6 120", "REFUSED 7 BUSY"), // 78 hex: CCHEN and TXEN, while a receive waits
        ("write 0 6 184", "DONE"),           // B8 hex: RESET
        ("write 0 6 120", "DONE"),
        ("write 1 6 184", "DONE"),
        ("write 1 6 120", "DONE"),
        (&format!("poke {page} 5506FF"), "DONE"),
        (&format!("poke {} AA5506FF", page + 255), "DONE"),
        (&format!("poke {} BB", page + 511), "DONE"),
        ("write 0 1 3", "DONE"),
        ("write 0 1 35", "DONE"),
        ("write 0 1 11", "REFUSED 7 BUSY"),
        ("write 1 1 4", "DONE"),
        ("write 1 1 36", "DONE"),
        ("write 1 1 12", "REFUSED 7 BUSY"),
        ("lap 2", "DONE 258 5 0 256 6 1 2"),
        ("read 0 0", "DONE 87"), // 57 hex: RI, POR, RECON, TMA and TTA; TA is 0
        ("read 1 0", "DONE 180"), // B4 hex: TRI, TA, POR and RECON; RI is 0
        ("data 1 0", "DONE AA"),
        ("data 1 1", "REFUSED 4 VALUE"),
        ("step 0", "HELD NOTHING"),
        ("step 0", "PASSED 0"),
        ("step 0", "HELD DELIVERED 1"),
        ("data 1 1", "DONE BB"),
        ("read 0 0", "DONE 119"), // 77 hex: TA too
        ("write 0 1 0", "DONE"),
        ("read 0 0", "DONE 119"), // the second's
        ("write 0 1 0", "DONE"),
        ("read 0 0", "DONE 116"), // 74 hex: TMA and TTA are 0
    ]));
    lines
}

/// The readings C13-05, 01 and 02: before any load 0 is fetched; a load fetches, whatever RDDATA is; a
/// write does not, also one after which the pointer moves on; a read without AUTO-INC does not.
fn bytes_fetched() -> Script {
    let mut lines = loaded(&[40, 7, 200], "DONE");
    lines.extend(script(&[
        ("poke 80 11", "DONE"),    // RAM 0 of row 0
        ("poke 85 7766", "DONE"),  // RAM 5 and 6
        ("write 0 2 128", "DONE"), // 80 hex: RDDATA
        ("read 0 4", "DONE 0"),
        ("write 0 2 0", "DONE"),
        ("write 0 3 5", "DONE"),
        ("read 0 4", "REFUSED 6 DIRECTION"),
        ("write 0 2 128", "DONE"),
        ("read 0 4", "DONE 119"), // 77 hex
        ("write 0 2 0", "DONE"),
        ("write 0 4 153", "DONE"), // 99 hex
        ("write 0 2 128", "DONE"),
        ("read 0 4", "DONE 119"),
        ("read 0 4", "DONE 119"),
        ("peek 85 2", "DONE 9966"),
        ("write 0 2 64", "DONE"), // 40 hex: AUTO-INC
        ("write 0 3 5", "DONE"),
        ("write 0 4 136", "DONE"), // 88 hex
        ("write 0 2 131", "DONE"), // 83 hex: RDDATA, and staged A9-A8
        ("read 0 4", "DONE 153"),
        ("read 0 3", "DONE 6"),
        ("peek 85 2", "DONE 8866"),
        ("poke 48 5A", "DONE"), // byte 32 of row 0
        ("check", "DONE"),
        ("read 0 4", "DONE 90"), // 5A hex
    ]));
    lines
}

/// The reading C13-04: an incremented read fetches the next byte, 0 behind 1,023, and a packet stored
/// over it then does not change what is read. After that a software reset keeps the byte, and a
/// hardware reset does not.
fn packet_over_a_fetched_byte() -> Script {
    let mut lines = loaded(&[40, 7, 200], "DONE");
    lines.extend(script(&[
        ("poke 80 11334455", "DONE"), // RAM 0 to 3 of row 0
        ("poke 1103 22", "DONE"),     // RAM 3FF
        ("write 0 2 195", "DONE"),    // C3 hex: RDDATA, AUTO-INC, and staged A9-A8
        ("write 0 3 255", "DONE"),
        ("read 0 4", "DONE 34"),      // 22 hex
        ("peek 48 1", "DONE 11"),     // byte 32 of row 0
        ("poke 1168 5528FF", "DONE"), // a packet from row 1, ID 7, to ID 28 hex
        ("poke 1423 AA", "DONE"),
        ("write 1 1 3", "DONE"),
        ("lap 3", "DONE 259 7 1 64 40 0 34 200 2 161"),
        ("data 0 0", "DONE AA"),
        ("peek 80 3", "DONE 0728FF"),
        ("read 0 4", "DONE 17"), // 11 hex
        ("read 0 4", "DONE 40"), // 28 hex, which was fetched behind the packet
        ("peek 48 1", "DONE FF"),
        ("write 0 6 184", "DONE"), // B8 hex: RESET
        ("read 0 4", "DONE 255"),
        ("write 0 6 56", "DONE"),
        ("peek 48 1", "DONE 55"), // RAM 3, in the gap
        ("reset 0", "DONE"),
        ("peek 48 1", "DONE 00"),
        ("write 0 2 128", "DONE"),
        ("read 0 4", "DONE 0"),
        ("peek 80 4", "DONE 0728FF55"),
    ]));
    lines
}

/// Every byte of a row behind those of C-11, its first bit or its last set, without chaining and with it.
/// TA is 1, so that no NAK may be counted.
fn byte_32_alone() -> Script {
    let mut lines = loaded(&[5, 6], "DONE");
    let row = Network::length_for(1);
    for configuration in ["38", "78"] {
        lines.extend(script(&[
            (&format!("poke {} {configuration}", row + 6), "DONE"),
            ("check", "DONE"),
        ]));
        for byte in 20..64 {
            let answer = match byte {
                32 => "DONE",
                _ => "REFUSED 1 SHAPE",
            };
            for (value, answer) in [("01", answer), ("80", answer), ("00", "DONE")] {
                let poke = format!("poke {} {value}", row + byte);
                lines.extend(script(&[(&poke, "DONE"), ("check", answer)]));
            }
        }
    }
    lines
}

/// The two that must give the answers written down.
struct Both<'a> {
    there: &'a mut dyn Peer,
    here: InProcess,
}

impl Both<'_> {
    fn follow(&mut self, script: &Script) -> Result<(), String> {
        for (line, expected) in script {
            let (here, there) = self.answers(line)?;
            for (which, answer) in [("here", here), ("there", there)] {
                if answer != *expected {
                    return Err(format!(
                        "{which} `{line}` gave `{answer}` and not `{expected}`"
                    ));
                }
            }
        }
        Ok(())
    }

    /// The same bytes come of fault 0 and of fault 2 from the same bytes.
    fn fault_on_broadcast(&mut self) -> Result<(), String> {
        let mut sums = Vec::new();
        for fault in [0, 2] {
            self.follow(&row_0_at_the_token(0))?;
            let before = self.answers("sum")?;
            let step = format!("step {fault}");
            self.follow(&script(&[
                (&step, "HELD BROADCAST"),
                ("data 1 0", "DONE AA"),
            ]))?;
            sums.push([before, self.answers("sum")?]);
        }
        let alike =
            |[before, after]: &[(String, String); 2]| before.0 == before.1 && after.0 == after.1;
        if sums[0] == sums[1] && sums.iter().all(alike) {
            Ok(())
        } else {
            Err(format!(
                "sums here and there before and after the step: {sums:?}"
            ))
        }
    }

    fn each(&mut self, sweep: fn(&mut dyn Peer) -> Result<(), String>) -> Result<(), String> {
        sweep(&mut self.here).map_err(|error| format!("here {error}"))?;
        sweep(self.there).map_err(|error| format!("there {error}"))
    }

    fn answers(&mut self, line: &str) -> Result<(String, String), String> {
        Ok((answer(&mut self.here, line)?, answer(self.there, line)?))
    }
}

fn answer(peer: &mut dyn Peer, line: &str) -> Result<String, String> {
    peer.send(format!("{line}\n").into_bytes())
        .map_err(|error| error.to_string())?;
    peer.receive().map_err(|error| error.to_string())
}
