//! How long one step of the console takes: the library beside the account and plain C, on the same tape of
//! events for up to eight calls, in one run.
//!
//! The account is measured behind the same interface as the library (176 packed bytes in and out) and
//! once more with the eight calls kept as structs. Then the events of the tape by where they go, each from
//! the table it met on the tape, and a fresh table.

use crate::rounds::{best, entry, head, line};
use callcontrol_tests::account::console::{self, Console, Goes, TABLE_LEN};
use callcontrol_tests::account::Event;
use callcontrol_tests::library;
use callcontrol_tests::tape::{console_tape, ConsoleTape, CONSOLE_OUT_LEN, EVENTS};
use callcontrol_tests::yardstick;
use std::hint::black_box;

const ROUNDS: usize = 100;
/// Turns of one kind: as many tables as the processor keeps at hand.
const TURNS: usize = 1000;

/// What a run over the tape gave, so that no one can leave out the work.
#[derive(Clone, Copy, Debug, PartialEq, Eq)]
struct Sum {
    words: u64,
    table: [u8; TABLE_LEN],
}

fn run_packed(tape: &ConsoleTape, step: impl Fn(&mut [u8], u8, &[u8], &mut [u8]) -> u32) -> Sum {
    let mut table = Console::FRESH.pack();
    let mut out = [0; CONSOLE_OUT_LEN];
    let mut words = 0u64;
    for (place, event) in tape.events() {
        let word = step(&mut table, place, event, black_box(&mut out));
        words = words.wrapping_mul(31).wrapping_add(u64::from(word));
    }
    Sum { words, table }
}

#[inline(never)]
fn account_step(table: &mut [u8], place: u8, event: &[u8], out: &mut [u8]) -> u32 {
    console::step(table, place, event, out)
}

#[inline(never)]
fn struct_step(console: &mut Console, place: u8, event: &[u8], out: &mut [u8]) -> u32 {
    match console.step(place, event, out) {
        Ok(count) => count as u32,
        Err(refusal) => u32::from(refusal.number()) << 24 | u32::from(refusal.place()) << 16,
    }
}

fn run_struct(tape: &ConsoleTape) -> Sum {
    let mut console = Console::FRESH;
    let mut out = [0; CONSOLE_OUT_LEN];
    let mut words = 0u64;
    for (place, event) in tape.events() {
        let word = struct_step(&mut console, place, event, black_box(&mut out));
        words = words.wrapping_mul(31).wrapping_add(u64::from(word));
    }
    Sum { words, table: console.pack() }
}

pub fn main() {
    let tape = console_tape();
    let mut answers = std::collections::BTreeMap::new();
    let (mut console, mut busy) = (Console::FRESH, 0);
    for (place, event) in tape.events() {
        let word = struct_step(&mut console, place, event, &mut [0; CONSOLE_OUT_LEN]);
        *answers.entry(word >> 24).or_insert(0) += 1;
        busy += console.calls.iter().filter(|call| call.state as u8 != 0).count();
    }
    println!(
        "console: {EVENTS} events from fresh, {:.1} places busy on average, by answer: {answers:?}",
        busy as f64 / EVENTS as f64
    );

    let times = best(
        "the console's tape",
        ROUNDS,
        EVENTS,
        [
            &|| run_packed(black_box(&tape), library::console::step),
            &|| run_packed(black_box(&tape), account_step),
            &|| run_struct(black_box(&tape)),
            &|| run_packed(black_box(&tape), yardstick::quick::console_step),
            &|| run_packed(black_box(&tape), yardstick::small::console_step),
        ],
    );
    println!("best of {ROUNDS} alternating rounds:");
    let names = [
        "library",
        "account, packed table",
        "account, table kept as structs",
        "plain C, -O3",
        "plain C, -Os",
    ];
    println!("  {:<34}{:>8}{:>15}", "", "ns", "library/");
    for (name, it) in names.into_iter().zip(times) {
        println!("  {name:<34}{it:>8.1}{:>15.2}", times[0] / it);
    }

    let others = ["account", "C -O3", "C -Os"];
    head("console_step by where the event goes", &others);
    for (kind, turns, on_tape) in kinds(&tape) {
        let name = format!("{kind}, {on_tape} on the tape");
        let (taken, times) = entry(
            &name,
            &turns,
            [
                |turn, lent| turn.step(lent, library::console::step),
                |turn, lent| turn.step(lent, account_step),
                |turn, lent| turn.step(lent, yardstick::quick::console_step),
                |turn, lent| turn.step(lent, yardstick::small::console_step),
            ],
        );
        line(&name, turns.len(), taken, times);
    }

    head("console_fresh", &others);
    let (taken, times) = entry(
        "console_fresh",
        &[(); EVENTS],
        [
            |_, lent| library::console::fresh(&mut lent[..TABLE_LEN]),
            |_, lent| console::fresh(&mut lent[..TABLE_LEN]),
            |_, lent| yardstick::quick::console_fresh(&mut lent[..TABLE_LEN]),
            |_, lent| yardstick::small::console_fresh(&mut lent[..TABLE_LEN]),
        ],
    );
    assert_eq!(taken, EVENTS, "each call makes a table");
    line("console_fresh", EVENTS, taken, times);
}

/// An event with the table that it met on the tape.
struct Turn<'a> {
    table: [u8; TABLE_LEN],
    place: u8,
    event: &'a [u8],
}

impl Turn<'_> {
    /// The table is put back before each call, behind what is written; that takes each side the same.
    fn step(&self, lent: &mut [u8], step: impl Fn(&mut [u8], u8, &[u8], &mut [u8]) -> u32) -> u32 {
        let (out, behind) = lent.split_at_mut(CONSOLE_OUT_LEN);
        let table = &mut behind[..TABLE_LEN];
        table.copy_from_slice(&self.table);
        step(table, self.place, self.event, out)
    }
}

/// The first turns of each kind, and how many the tape has.
fn kinds(tape: &ConsoleTape) -> [(&'static str, Vec<Turn<'_>>, usize); 5] {
    let mut kinds = [
        "to the place named",
        "to the holder of an identifier",
        "to an IDLE place, or refused",
        "BREAK and RESUME",
        "unreadable",
    ]
    .map(|kind| (kind, Vec::new(), 0));
    let mut table = Console::FRESH.pack();
    for (place, event) in tape.events() {
        let kind = match Event::read(event) {
            Err(_) => 4,
            Ok(Event::SetupRequest { .. } | Event::DSetup { .. }) => 2,
            Ok(read) => match Console::FRESH.goes(0, read) {
                Ok(Goes::ToAllThatTakeIt) => 3,
                Ok(Goes::To(_)) => 0,
                Err(_) => 1,
            },
        };
        let (_, turns, on_tape) = &mut kinds[kind];
        *on_tape += 1;
        if turns.len() < TURNS {
            turns.push(Turn { table, place, event });
        }
        console::step(&mut table, place, event, &mut [0; CONSOLE_OUT_LEN]);
    }
    kinds
}
