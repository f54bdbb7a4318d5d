//! How long one call of the bank takes: the library beside the account, on the same orders and
//! readings, in one run. There is no account of it in C.
//!
//! The account is measured behind the same interface as the library (39 packed bytes in and out) and
//! once more with the bank kept as a struct in 64-bit time.

use crate::rounds::{best, head, line, ROUNDS};
use callcontrol_tests::account::bank::{self, Bank, BANK_LEN, LONGEST, TABLE_LEN};
use callcontrol_tests::library;
use std::hint::black_box;

const CALLS: usize = 4096;
const TIMERS: [u16; 7] = [301, 302, 303, 306, 308, 310, 311];
/// Before the wrap, which every case goes over.
const FIRST: u32 = u32::MAX - 2000;

/// Deadlines by which all seven are due 100 ms on, in no order of their numbers, two of them equal.
const SOON: [u32; TABLE_LEN] =
    [70, 20, 90, 20, 50, 10, 60, 60, 60, 60, 60, 60, 60, 60, 60, 60, 60, 60, 60, 60, 60, 60];
const IN_ORDER: [u16; 7] = [311, 302, 306, 308, 310, 301, 303];
const LATE: [u32; TABLE_LEN] = [LONGEST; TABLE_LEN];

/// A bank as a host holds it.
trait Held: Copy {
    /// With what the call returned.
    fn new(reading: u32) -> (Self, u32);
    fn stop(&mut self, timer: u16) -> u32;
    fn start(&mut self, table: &[u32], timer: u16, code: u8) -> u32;
    fn advance(&mut self, reading: u32, due: &mut [u16]) -> u32;

    fn started(table: &[u32]) -> Self {
        let (mut held, _) = Self::new(FIRST);
        for timer in TIMERS {
            held.start(table, timer, 0);
        }
        held
    }
}

#[derive(Clone, Copy)]
struct Library([u8; BANK_LEN]);

impl Held for Library {
    fn new(reading: u32) -> (Library, u32) {
        let mut bytes = [0; BANK_LEN];
        let word = library::bank::new(&mut bytes, reading);
        (Library(bytes), word)
    }
    fn stop(&mut self, timer: u16) -> u32 {
        library::bank::stop(&mut self.0, timer)
    }
    fn start(&mut self, table: &[u32], timer: u16, code: u8) -> u32 {
        library::bank::start(&mut self.0, table, timer, code)
    }
    fn advance(&mut self, reading: u32, due: &mut [u16]) -> u32 {
        library::bank::advance(&mut self.0, reading, due)
    }
}

/// Called as the library is: a function of its own, which the caller's loop is not mixed with.
#[derive(Clone, Copy)]
struct Packed([u8; BANK_LEN]);

impl Held for Packed {
    #[inline(never)]
    fn new(reading: u32) -> (Packed, u32) {
        let mut bytes = [0; BANK_LEN];
        let word = bank::new(&mut bytes, reading);
        (Packed(bytes), word)
    }
    #[inline(never)]
    fn stop(&mut self, timer: u16) -> u32 {
        bank::stop(&mut self.0, timer)
    }
    #[inline(never)]
    fn start(&mut self, table: &[u32], timer: u16, code: u8) -> u32 {
        bank::start(&mut self.0, table, timer, code)
    }
    #[inline(never)]
    fn advance(&mut self, reading: u32, due: &mut [u16]) -> u32 {
        bank::advance(&mut self.0, reading, due)
    }
}

#[derive(Clone, Copy)]
struct Unpacked(Bank);

impl Held for Unpacked {
    #[inline(never)]
    fn new(reading: u32) -> (Unpacked, u32) {
        (Unpacked(Bank::new(u64::from(reading))), BANK_LEN as u32)
    }
    #[inline(never)]
    fn stop(&mut self, timer: u16) -> u32 {
        bank::word(self.0.stop(timer).map(|()| 0))
    }
    #[inline(never)]
    fn start(&mut self, table: &[u32], timer: u16, code: u8) -> u32 {
        bank::word(self.0.start(table, timer, code).map(|()| 0))
    }
    #[inline(never)]
    fn advance(&mut self, reading: u32, due: &mut [u16]) -> u32 {
        bank::word(self.0.advance(reading, due))
    }
}

/// What the calls of a case gave, so that no one can leave out the work.
fn add(sum: u64, word: u32, due: &[u16]) -> u64 {
    due.iter().fold(sum.wrapping_mul(31).wrapping_add(u64::from(word)), |sum, &timer| {
        sum.wrapping_mul(31).wrapping_add(u64::from(timer))
    })
}

/// What all calls of a case give where each gives this.
fn all(word: u32, due: &[u16]) -> u64 {
    (0..CALLS).fold(0, |sum, _| add(sum, word, due))
}

fn news<H: Held>() -> u64 {
    (0..CALLS as u32).fold(0, |sum, passed| {
        let (held, word) = H::new(black_box(FIRST.wrapping_add(passed)));
        black_box(&held);
        add(sum, word, &[])
    })
}

fn nothing_due<H: Held>() -> u64 {
    let mut held = H::started(&LATE);
    let mut due = [0; 7];
    (0..CALLS as u32).fold(0, |sum, passed| {
        let word = held.advance(black_box(FIRST.wrapping_add(passed)), black_box(&mut due));
        add(sum, word, &due)
    })
}

/// The bank is put back before each call; that takes each side the same.
fn all_seven_due<H: Held>() -> u64 {
    let ready = H::started(&SOON);
    let mut due = [0; 7];
    (0..CALLS as u32).fold(0, |sum, _| {
        let mut held = *black_box(&ready);
        let word = held.advance(black_box(FIRST.wrapping_add(100)), black_box(&mut due));
        black_box(&held);
        add(sum, word, &due)
    })
}

fn starts<H: Held>() -> u64 {
    let (mut held, _) = H::new(FIRST);
    (0..CALLS).fold(0, |sum, call| {
        let (timer, code) = (TIMERS[call % 7], (call % 16) as u8);
        add(sum, held.start(black_box(&SOON), black_box(timer), black_box(code)), &[])
    })
}

fn stops<H: Held>() -> u64 {
    let mut held = H::started(&LATE);
    (0..CALLS).fold(0, |sum, call| add(sum, held.stop(black_box(TIMERS[call % 7])), &[]))
}

pub fn main() {
    type Case = fn() -> u64;
    let cases: [(&str, u64, [Case; 3]); 5] = [
        (
            "bank_new",
            all(BANK_LEN as u32, &[]),
            [news::<Library>, news::<Packed>, news::<Unpacked>],
        ),
        (
            "bank_advance, nothing due",
            all(0, &[0; 7]),
            [nothing_due::<Library>, nothing_due::<Packed>, nothing_due::<Unpacked>],
        ),
        (
            "bank_advance, all seven due",
            all(7, &IN_ORDER),
            [all_seven_due::<Library>, all_seven_due::<Packed>, all_seven_due::<Unpacked>],
        ),
        ("bank_start", all(0, &[]), [starts::<Library>, starts::<Packed>, starts::<Unpacked>]),
        ("bank_stop", all(0, &[]), [stops::<Library>, stops::<Packed>, stops::<Unpacked>]),
    ];
    println!("In the column struct the account keeps the bank as a struct, in 64-bit time.");
    head("timers kept by the library (no account in C)", &["account", "struct"]);
    for (name, expected, sides) in cases {
        assert!(sides.iter().all(|side| side() == expected), "{name}: it went another way");
        let times =
            best(name, ROUNDS, CALLS, sides.each_ref().map(|side| side as &dyn Fn() -> u64));
        line(name, CALLS, CALLS, times);
    }
}
