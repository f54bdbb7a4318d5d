//! How long a step of direct mode takes, and each of its other entries: the library beside the account,
//! on the same tape of events.

use crate::rounds::{best, entry, head, line, Entry, ROUNDS};
use callcontrol_tests::account::direct::{self, RECORD_LEN, STEP_MAX};
use callcontrol_tests::library::direct_mode;
use callcontrol_tests::tape::{direct_tape, DirectTape, EVENTS};
use std::collections::BTreeMap;
use std::hint::black_box;

/// What a run over the tape gave.
#[derive(Debug, PartialEq, Eq)]
struct Given {
    words: u64,
    record: [u8; RECORD_LEN],
}

fn run(tape: &DirectTape, step: impl Fn(&mut [u8], &[u8], &mut [u8]) -> u32) -> Given {
    let (mut record, mut out) = ([0; RECORD_LEN], [0; STEP_MAX]);
    let mut words = 0u64;
    for (begins, event) in tape.events() {
        if begins {
            record = [0; RECORD_LEN];
        }
        let word = step(&mut record, event, black_box(&mut out));
        words = words.wrapping_mul(31).wrapping_add(u64::from(word));
    }
    Given { words, record }
}

/// Called as the library is: a function of its own, which the caller's loop is not mixed with.
#[inline(never)]
fn account_step(record: &mut [u8], event: &[u8], out: &mut [u8]) -> u32 {
    direct::step(record, event, out)
}

pub fn main() {
    let tape = direct_tape();
    let mut answers = BTreeMap::<u32, usize>::new();
    let (mut record, mut messages) = ([0; RECORD_LEN], Vec::new());
    for (begins, event) in tape.events() {
        if begins {
            record = [0; RECORD_LEN];
        }
        let mut out = [0; STEP_MAX];
        let word = direct::step(&mut record, event, &mut out);
        *answers.entry(word >> 24).or_default() += 1;
        let mut rest = &out[..(word & 0xFFFF) as usize];
        while let [low, high, ..] = *rest {
            let (one, behind) = rest.split_at(usize::from(u16::from_le_bytes([low, high])));
            messages.push(one.to_vec());
            rest = behind;
        }
    }
    println!("direct mode: {EVENTS} events from fresh, by answer: {answers:?}");
    head("direct mode (no account in C)", &["account"]);
    let times = best(
        "direct_step",
        ROUNDS,
        EVENTS,
        [&|| run(black_box(&tape), direct_mode::step), &|| run(black_box(&tape), account_step)],
    );
    line("direct_step", EVENTS, answers[&0], times);

    let events: Vec<Vec<u8>> = tape.events().map(|(_, event)| event.to_vec()).collect();
    let entries: [(&str, &[Vec<u8>], [Entry<Vec<u8>>; 2]); 5] = [
        (
            "direct_fresh",
            &events,
            [
                |_, lent| direct_mode::fresh(&mut lent[..RECORD_LEN]),
                |_, lent| direct::fresh(&mut lent[..RECORD_LEN]),
            ],
        ),
        (
            "direct_check_event",
            &events,
            [|bytes, _| direct_mode::check_event(bytes), |bytes, _| direct::check_event(bytes)],
        ),
        (
            "direct_check_message",
            &messages,
            [|bytes, _| direct_mode::check_message(bytes), |bytes, _| direct::check_message(bytes)],
        ),
        (
            "direct_copy_event",
            &events,
            [
                |bytes, lent| direct_mode::copy_event(bytes, lent),
                |bytes, lent| direct::copy_event(bytes, lent),
            ],
        ),
        (
            "direct_copy_message",
            &messages,
            [
                |bytes, lent| direct_mode::copy_message(bytes, lent),
                |bytes, lent| direct::copy_message(bytes, lent),
            ],
        ),
    ];
    for (name, inputs, sides) in entries {
        let (taken, times) = entry(name, inputs, sides);
        let all = !name.ends_with("_event");
        assert!(taken == inputs.len() || !all, "{name}: {taken} of {} taken", inputs.len());
        line(name, inputs.len(), taken, times);
    }
}
