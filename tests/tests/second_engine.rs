//! The archive of the smallest set, in place of the other: a set changes it and not a line of C. That
//! both engines leave the same bytes is seen in every test that makes steps (`sidebyside`); here is
//! that it would be seen if they did not, what is said of the archive alone, and what a table may
//! have wrong: a kind with a field at its limits, a record with a byte changed, and every length.

use callcontrol_tests::account::kinds::{size_of, Field, Takes, EVENTS};
use callcontrol_tests::account::{boundary, Call, Event, Mode, Plane, State, Timer};
use callcontrol_tests::generate::{event, sound_record, Bytes, Random};
use callcontrol_tests::histories::root;
use callcontrol_tests::library::{self, BRIDGED, SMALL_ARCHIVE};
use callcontrol_tests::programs::{build_with, code_and_constants_of, run, stack_used_with, CC};
use callcontrol_tests::request::{Function, Request};
use callcontrol_tests::sidebyside::{tell, Queue};
use callcontrol_tests::tape::tape;
use std::collections::BTreeSet;
use std::fs;
use std::path::Path;

#[test]
fn one_call_prints_the_same_with_either_archive() {
    let program = Path::new(env!("CARGO_TARGET_TMPDIR")).join("one_call_small");
    let strict = ["-std=c11", "-Wall", "-Wextra", "-Werror"];
    build_with(&[SMALL_ARCHIVE], CC, &strict, "examples/c/one_call.c", &program);
    let output = run(&program).output().expect("what was built can be run");
    assert!(output.status.success(), "{}", output.status);
    let expected = fs::read_to_string(root().join("examples/c/one_call.stdout")).expect("the file");
    assert_eq!(String::from_utf8_lossy(&output.stdout), expected);
}

#[test]
fn a_step_uses_less_than_a_kibibyte_of_stack() {
    if cfg!(not(target_arch = "x86_64")) && !BRIDGED {
        println!("not measured: this is not the library that is shipped, which is x86-64 code");
        return;
    }
    let bytes = stack_used_with(&[SMALL_ARCHIVE], "tests/bridge/stack.c", &tape().with_lengths());
    println!("{bytes} bytes of stack");
    assert!((64..1024).contains(&bytes), "{bytes} bytes of stack");
}

#[test]
fn what_both_engines_have_is_asked_of_both() {
    assert_eq!(Function::Fresh.of_second_engine(), Some(Function::SmallFresh));
    assert_eq!(Function::Step.of_second_engine(), Some(Function::SmallStep));
}

/// One byte of what the second engine writes, expected otherwise.
#[test]
#[should_panic(expected = "the library differs from what is expected")]
fn a_byte_of_the_second_engine_alone_is_compared() {
    let mut queue = Queue::new();
    let setup = [10, 0, 0x01, 0x01, 7, 0, 0, 0, 0, 1];
    let fresh = Call::FRESH.pack();
    let step = Request::step(&fresh, &setup, 64, 0x5A);
    let step = Request { function: Function::SmallStep, ..step };
    queue.check(&step, |record, event, out| {
        let word = boundary::step(record, event, out);
        out[0] ^= 1;
        word
    });
    queue.finish();
}

/// Sound records of every state, and in CALL-ACTIVE of every path and plane: with every flag both
/// ways, and with no timer running that need not run and every one that may.
fn situations(identifier: u16) -> Vec<Call> {
    use callcontrol_tests::account::Path;
    let mut calls = vec![Call::FRESH];
    let both = [false, true];
    for state in State::ALL {
        for path in Path::ALL {
            for &plane in Plane::ALL {
                for &kept in Plane::ALL {
                    for mode in [Mode::Simplex, Mode::Duplex] {
                        for asked in both {
                            for sent in both {
                                for run in both {
                                    let mut timers = [run; 7];
                                    timers[Timer::T306 as usize] = path == Path::Restoring;
                                    timers[Timer::T311 as usize] = plane == Plane::Transmit;
                                    let (address, t310_code, slots) = (7, 3, 2);
                                    let call = Call {
                                        state,
                                        identifier,
                                        address,
                                        mode,
                                        asked,
                                        sent,
                                        path,
                                        plane,
                                        kept,
                                        t310_code,
                                        timers,
                                        slots,
                                    };
                                    if call.sound() {
                                        calls.push(call);
                                    }
                                }
                            }
                        }
                    }
                }
            }
        }
    }
    calls
}

/// The least and the most of a field, and what is beside them; of a timer each.
fn limits(field: &Field) -> Vec<u32> {
    match field.takes {
        Takes::Range(least, most) => {
            least.checked_sub(1).into_iter().chain([least, most, most + 1]).collect()
        }
        Takes::Listed => {
            field.words.iter().flat_map(|&(value, _)| [value - 1, value, value + 1]).collect()
        }
        Takes::CodeOfTimer => unreachable!("no event has START's field"),
    }
}

/// In every situation every kind of event, in each of its sizes, with each field at its limits and beside them, by
/// both engines as by the account. Each value that is in range is taken in some situation.
#[test]
fn every_kind_with_every_field_at_its_limits() {
    const HELD: u16 = 21;
    let mut queue = Queue::new();
    let (mut steps, mut in_range, mut taken) = (0u64, BTreeSet::new(), BTreeSet::new());
    for kind in EVENTS.iter().filter(|kind| !kind.is_retired()) {
        for fields in kind.bodies {
            let least = |field: &Field| match field.takes {
                _ if field.letter == 'i' => u32::from(HELD),
                Takes::Range(least, _) => least,
                _ => field.words[0].0,
            };
            // A kind without a field is tried as it is.
            let tried: Vec<(usize, u32)> = match fields.len() {
                0 => vec![(0, 0)],
                all => (0..all)
                    .flat_map(|at| limits(&fields[at]).into_iter().map(move |value| (at, value)))
                    .collect(),
            };
            for (at, value) in tried {
                let mut values: Vec<u32> = fields.iter().map(least).collect();
                let mut held = HELD;
                if let Some(field) = fields.get(at) {
                    values[at] = value;
                    if field.letter == 'i' && field.takes(value, 0) {
                        held = value as u16;
                    }
                }
                let len = (4 + size_of(fields)) as u16;
                let mut bytes = [len.to_le_bytes(), kind.number.to_le_bytes()].concat();
                for (field, value) in fields.iter().zip(&values) {
                    bytes.extend(&value.to_le_bytes()[..field.size]);
                }
                let tried = (kind.number, len, at, value);
                if fields.get(at).map_or(true, |field| field.takes(value, 0)) {
                    in_range.insert(tried);
                }
                for call in situations(held) {
                    if queue.step(&call.pack(), &bytes, 64, steps as u8).answer == 0 {
                        taken.insert(tried);
                    }
                    steps += 1;
                }
            }
        }
    }
    queue.finish();
    tell(&format!("{steps} steps, {} values in range", in_range.len()));
    assert!(in_range.len() > 100);
    assert_eq!(taken, in_range);
}

/// A record of every situation with any one byte set to any value: refused or taken by both engines as by
/// the account.
#[test]
fn a_record_with_any_byte_changed() {
    let mut queue = Queue::new();
    let mut answers = [0u64; 10];
    let release = Bytes::of_event(Event::DRelease { i: 21 });
    for call in situations(21) {
        for at in 0..call.pack().len() {
            for value in 0..=255 {
                let mut record = call.pack();
                record[at] = value;
                let step = queue.step(&record, release.as_slice(), 64, value);
                answers[step.answer as usize] += 1;
            }
        }
    }
    queue.finish();
    tell(&format!("records with one byte changed, by answer {answers:?}"));
    for answer in [0, 1, 5] {
        assert!(answers[answer] > 0, "answer {answer} was never seen");
    }
}

/// Each record of every length that is damaged, and each cut event, is refused by both engines as by
/// the account; and a record of 22 bytes alone is made fresh.
#[test]
fn records_and_events_of_every_length() {
    let mut random = Random::new(0x5EC0);
    let mut queue = Queue::new();
    for len in 0..=64 {
        let fresh = vec![random.byte(); len];
        queue.check(&Request::fresh(&fresh, 0x99), |record, _, _| boundary::fresh(record));
        for _ in 0..200 {
            let mut record: Vec<u8> = sound_record(&mut random).pack().to_vec();
            record.resize(len, random.byte());
            let bytes = Bytes::of_event(event(&mut random, 1));
            queue.step(&record, bytes.as_slice(), 64, random.byte());
            let record = sound_record(&mut random).pack();
            let mut bytes = bytes.as_slice().to_vec();
            bytes.resize(len, random.byte());
            if len > 1 && random.flip() {
                bytes[..2].copy_from_slice(&(len as u16).to_le_bytes());
            }
            queue.step(&record, &bytes, 64, random.byte());
        }
    }
    queue.finish();
}

/// Size is what this engine is for: code and constants of a step, as measured with this kit's compiler (6,122 bytes), to 2 %, and at most 0.60
/// of the first engine's.
#[test]
fn a_program_that_only_steps_stays_small() {
    let step = ["callcontrol_step"];
    let first = library::archives().find(|path| path.ends_with("/libhost.a")).expect("an archive");
    let (first, second) =
        (code_and_constants_of(first, &step), code_and_constants_of(SMALL_ARCHIVE, &step));
    println!("{first} bytes by the first engine, {second} by the second");
    assert!(second <= 6244, "{second} bytes");
    assert!(second * 100 <= first * 60, "{second} of {first} bytes");
}
