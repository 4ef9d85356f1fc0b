//! Request C-13: a test for each of its readings C13-01 to C13-06, with the numbers given there, some of
//! what they leave to the request itself, and what the sights say of it.

use super::{order, Desk, SAMPLE};
use crate::model::{Network, FETCHED};
use crate::prompt::Prompt;
use crate::sights::fetched::Watch;
use crate::sights::View;

impl Desk {
    /// RAM bytes of row 0 from this address on.
    fn lay(&mut self, at: usize, bytes: &[u8]) {
        self.set(Network::length_for(0) + 64 + at, bytes);
    }

    /// Mode and low pointer of row 0.
    #[track_caller]
    fn point(&mut self, mode: u32, low: u32) {
        self.write(0, 2, mode, 0);
        self.write(0, 3, low, 0);
    }

    /// Byte 32 of row 0.
    #[track_caller]
    fn fetched(&mut self, byte: u8) {
        self.registers(0, FETCHED, &[byte]);
    }
}

#[test]
fn c13_01_every_load_fetches() {
    let mut desk = Desk::sample();
    desk.lay(5, &[0x77, 0x78]);
    desk.point(0x00, 5);
    desk.fetched(0x77);
    desk.write(0, 2, 0x80, 0);
    desk.reads(0, 4, 0x77);
    // With AUTO-INC too, and of a pointer that is there already.
    for mode in [0x00, 0x40, 0x80, 0xC0] {
        desk.point(mode, 6);
        desk.fetched(0x78);
        desk.set(Network::length_for(0) + FETCHED, &[0]);
        desk.write(0, 3, 6, 0);
        desk.fetched(0x78);
        desk.point(mode, 5);
        desk.fetched(0x77);
    }
    // Not one that is refused.
    desk.write(0, 3, 262, 4);
    desk.fetched(0x77);
}

#[test]
fn c13_02_writes_fetch_nothing() {
    let mut desk = Desk::sample();
    desk.lay(5, &[0x77, 0x78]);
    desk.point(0x00, 5);
    desk.write(0, 4, 0x99, 0);
    desk.write(0, 2, 0x80, 0);
    desk.reads(0, 4, 0x77);
    desk.ram(0, 5, &[0x99, 0x78]);
    desk.point(0x40, 5);
    desk.write(0, 4, 0x88, 0);
    desk.registers(0, 10, &[0, 6]);
    desk.write(0, 2, 0x80, 0);
    desk.reads(0, 4, 0x99);
    desk.ram(0, 5, &[0x88, 0x78]);
    // Over the end.
    desk.lay(0, &[0x11]);
    desk.lay(0x3FF, &[0x22]);
    desk.point(0x43, 0xFF);
    desk.write(0, 4, 0x33, 0);
    desk.registers(0, 10, &[0, 0]);
    desk.fetched(0x22);
    desk.ram(0, 0x3FF, &[0x33]);
}

#[test]
fn c13_03_register_2_fetches_nothing() {
    let mut desk = Desk::sample();
    desk.lay(5, &[0x77]);
    desk.lay(0x305, &[0x66]);
    desk.point(0x00, 5);
    desk.lay(5, &[0x55]);
    for mode in [0x83, 0xC3, 0x43, 0x03, 0x80, 0x00] {
        desk.write(0, 2, mode, 0);
        desk.fetched(0x77);
    }
    desk.point(0x83, 5);
    desk.fetched(0x66);
}

#[test]
fn c13_04_an_incremented_read_fetches_the_next() {
    let mut desk = Desk::sample();
    desk.lay(0, &[0x11, 0x12]);
    desk.lay(0x3FF, &[0x22]);
    desk.point(0xC3, 0xFF);
    desk.reads(0, 4, 0x22);
    desk.put(1, 0, 40, 0xFF);
    desk.write(1, 1, 0x03, 0);
    desk.pass_to(1);
    desk.gives("step 0", "HELD DELIVERED 0");
    desk.ram(0, 0, &[7, 40, 0xFF]);
    desk.reads(0, 4, 0x11);
    desk.reads(0, 4, 40);
    desk.registers(0, 10, &[0, 2, 0xC3]);
    desk.fetched(0xFF);
    // From page to page, and without AUTO-INC always the same.
    desk.lay(0xFF, &[0x31, 0x32, 0x33]);
    desk.point(0xC0, 0xFF);
    desk.reads(0, 4, 0x31);
    desk.reads(0, 4, 0x32);
    desk.write(0, 2, 0x80, 0);
    desk.lay(0x101, &[0x44]);
    desk.reads(0, 4, 0x33);
    desk.reads(0, 4, 0x33);
}

/// A network saved before has byte 32 = 0, as a new one has.
#[test]
fn c13_05_before_any_load() {
    for mut desk in [Desk::sample(), Desk::fresh(2)] {
        desk.lay(0, &[0x11, 0x12]);
        desk.fetched(0);
        desk.write(0, 2, 0xC0, 0);
        desk.reads(0, 4, 0);
        desk.reads(0, 4, 0x12);
        desk.gives("check", "DONE");
    }
    // And new over an old one.
    let mut desk = Desk::sample();
    for line in ["fresh 3".to_string(), format!("load {}", order(&SAMPLE))] {
        desk.set(Network::length_for(0) + FETCHED, &[0x5A]);
        desk.gives(&line, "DONE");
        desk.fetched(0);
    }
}

#[test]
fn c13_06_direction_is_asked_as_before() {
    let mut desk = Desk::sample();
    desk.lay(5, &[0x77, 0x78]);
    desk.point(0x40, 5);
    desk.lay(5, &[0x55]);
    desk.gives("read 0 4", "REFUSED 6 DIRECTION");
    desk.registers(0, 10, &[0, 5]);
    desk.fetched(0x77);
    desk.write(0, 2, 0xC0, 0);
    desk.write(0, 4, 0x99, 6);
    desk.registers(0, 10, &[0, 5]);
    desk.fetched(0x77);
    desk.ram(0, 5, &[0x55, 0x78]);
}

#[test]
fn byte_32_may_hold_anything() {
    let row = Network::length_for(1);
    let mut desk = Desk::sample();
    for byte in 0..=255 {
        desk.set(row + FETCHED, &[byte]);
        desk.gives("check", "DONE");
        desk.write(1, 2, 0x80, 0);
        desk.reads(1, 4, byte);
    }
    for other in (20..64).filter(|byte| *byte != FETCHED) {
        desk.set(row + other, &[1]);
        desk.gives("check", "REFUSED 1 SHAPE");
        desk.set(row + other, &[0]);
    }
    desk.gives("check", "DONE");
}

#[test]
fn resets() {
    let mut desk = Desk::sample();
    desk.lay(0, &[0x11]);
    desk.lay(5, &[0x77]);
    desk.set(Network::length_for(1) + FETCHED, &[0x5A]);
    desk.point(0x80, 5);
    desk.lay(5, &[0x55]);
    desk.write(0, 6, 0xB8, 0);
    desk.reads(0, 4, 0x77);
    desk.write(0, 6, 0x38, 0);
    desk.reads(0, 4, 0x77);
    desk.gives("reset 0", "DONE");
    desk.fetched(0);
    desk.ram(0, 0, &[0x11]);
    desk.registers(1, FETCHED, &[0x5A]);
    desk.gives("reset 1", "DONE");
    desk.registers(1, FETCHED, &[0]);
}

/// The bytes of the rows through a recovery, invitations, turns, a timer and a lap.
#[test]
fn the_line_leaves_it() {
    let mut desk = Desk::sample();
    for row in 0..3 {
        desk.set(Network::length_for(row) + FETCHED, &[0x71 + row as u8]);
    }
    desk.gives("lap 3", "DONE 259 7 1 64 40 0 34 200 2 161");
    desk.gives("step 0", "HELD NOTHING");
    desk.gives("step 3", "TOKENLOST");
    desk.gives("step 0", "RECOVERED 2");
    desk.gives("timer 1", "DONE");
    for row in 0..3 {
        desk.registers(row, FETCHED, &[0x71 + row as u8]);
    }
}

/// Row 1 reads byte 0 of the page that it sends, where its own ID is written then.
#[test]
fn own_id_over_it() {
    for (did, answer) in [(40, "HELD DELIVERED 0"), (0, "HELD BROADCAST")] {
        let mut desk = Desk::sample();
        desk.put(1, 0, did, 0xFF);
        desk.write(1, 2, 0x80, 0);
        desk.write(1, 3, 0, 0);
        desk.write(1, 1, 0x03, 0);
        desk.pass_to(1);
        desk.gives("step 0", answer);
        desk.ram(1, 0, &[7]);
        desk.reads(1, 4, 0x55);
        desk.write(1, 3, 0, 0);
        desk.reads(1, 4, 7);
    }
}

/// What is seen of some lines, each with its answer.
#[track_caller]
fn sees(lines: &[(&str, &str, &[&str])]) {
    let mut desk = Desk(Prompt::new());
    let mut watch = Watch::default();
    for (line, answer, sights) in lines {
        let view = |desk: &mut Desk| desk.0.lent().network().ok().map(View::of);
        let before = view(&mut desk);
        desk.gives(line, answer);
        let after = view(&mut desk);
        let words: Vec<&str> = line.split(' ').collect();
        let seen = watch.sights(&words, answer, before.as_ref(), after.as_ref());
        assert_eq!(seen, *sights, "{line}");
    }
}

#[test]
fn sights_of_a_byte_that_was_never_fetched() {
    sees(&[
        ("size 1104", "DONE", &[]),
        ("fresh 1", "DONE", &[]),
        ("poke 80 1122", "DONE", &[]),
        ("write 0 2 192", "DONE", &["write 2, old byte"]),
        (
            "read 0 4",
            "DONE 0",
            &[
                "read 4, old byte, AUTO-INC 1",
                "read 4, on in the page",
                "read 4, AUTO-INC changed since",
                "read 4, none fetched since fresh",
            ],
        ),
        ("read 0 4", "DONE 34", &["read 4, on in the page"]),
    ]);
}

#[test]
fn sights_of_writes_and_a_reset() {
    sees(&[
        ("size 1104", "DONE", &[]),
        ("fresh 1", "DONE", &[]),
        ("poke 85 7766", "DONE", &[]),
        ("write 0 3 5", "DONE", &["write 3, RDDATA 0 AUTO-INC 0"]),
        ("write 0 4 153", "DONE", &["write 4, AUTO-INC 0"]),
        ("read 0 4", "REFUSED 6 DIRECTION", &[]),
        ("write 0 2 195", "DONE", &["write 2, old byte"]),
        (
            "read 0 4",
            "DONE 119",
            &[
                "read 4, old byte, AUTO-INC 1",
                "read 4, on in the page",
                "read 4, old by write",
                "read 4, AUTO-INC changed since",
                "read 4, loaded with RDDATA 0",
                "read 4, other A9-A8 since",
            ],
        ),
        ("poke 80 11", "DONE", &[]),
        ("reset 0", "DONE", &["reset, fetched byte"]),
        ("write 0 2 128", "DONE", &["write 2, old byte"]),
        (
            "read 0 4",
            "DONE 0",
            &["read 4, old byte, AUTO-INC 0", "read 4, old by reset"],
        ),
        ("poke 48 5A", "DONE", &[]),
        (
            "read 0 4",
            "DONE 90",
            &[
                "read 4, old byte, AUTO-INC 0",
                "read 4, old by poke of byte 32",
            ],
        ),
        (
            "read 0 4",
            "DONE 90",
            &[
                "read 4, old byte, AUTO-INC 0",
                "read 4, old by poke of byte 32",
                "read 4, the same again",
            ],
        ),
        ("write 0 3 0", "DONE", &["write 3, pointer as it was"]),
        ("read 0 4", "DONE 17", &[]),
    ]);
}

/// Row 1 is at the token and sends to row 0; byte 0 of either page is fetched, in row 0 behind 3FF.
#[test]
fn sights_of_a_packet() {
    sees(&[
        ("size 3280", "DONE", &[]),
        (&format!("load {}", order(&SAMPLE)), "DONE", &[]),
        ("poke 4 0201", "DONE", &[]),
        ("poke 1168 5528FF", "DONE", &[]),
        ("poke 80 11", "DONE", &[]),
        ("poke 1103 22", "DONE", &[]),
        // A fetch at 300, to which the staged bits lead, would not show.
        ("write 0 2 195", "DONE", &[]),
        ("write 0 3 255", "DONE", &["write 3, RDDATA 1 AUTO-INC 1"]),
        ("read 0 4", "DONE 34", &["read 4, on from 3FF to 0"]),
        ("write 1 3 0", "DONE", &["write 3, pointer as it was"]),
        ("write 1 1 3", "DONE", &[]),
        (
            "step 0",
            "HELD DELIVERED 0",
            &[
                "step, own ID over it",
                "step, packet at 0 after 3FF",
                "step, short packet over it",
            ],
        ),
        (
            "read 0 4",
            "DONE 17",
            &[
                "read 4, old byte, AUTO-INC 1",
                "read 4, on in the page",
                "read 4, old by short packet",
                "read 4, on from 3FF to 0 before",
            ],
        ),
        ("write 1 2 128", "DONE", &["write 2, old byte"]),
        (
            "read 1 4",
            "DONE 85",
            &[
                "read 4, old byte, AUTO-INC 0",
                "read 4, old by own ID",
                "read 4, loaded with RDDATA 0",
            ],
        ),
    ]);
}
