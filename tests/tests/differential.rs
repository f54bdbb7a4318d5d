//! Library and account agree, byte for byte, on millions of generated steps: on runs from fresh,
//! on sound records out of reach, on records that are none, and on damaged events. After each of them
//! the timers that run by the messages written and the expiries taken are those in the record.

use callcontrol_tests::account::running::Running;
use callcontrol_tests::account::{
    boundary, records, Call, Event, History, Message, Plane, State, Timer,
};
use callcontrol_tests::generate::{
    damaged_event, damaged_record, event, likely_event, sound_record, Bytes, Random,
};
use callcontrol_tests::request::Request;
use callcontrol_tests::sidebyside::{tell, Queue, Said};
use std::thread;

const THREADS: u64 = 2;
/// Each thread makes this many steps of each part.
const STEPS_FROM_FRESH: usize = 6_000_000;
const STEPS_OUT_OF_REACH: usize = 3_000_000;
const STEPS_DAMAGED_RECORD: usize = 1_500_000;
const STEPS_DAMAGED_EVENT: usize = 2_000_000;
const STEPS_IN_ALL: u64 = THREADS
    * (STEPS_FROM_FRESH + STEPS_OUT_OF_REACH + STEPS_DAMAGED_RECORD + STEPS_DAMAGED_EVENT) as u64;

const _: () = assert!(STEPS_IN_ALL >= 25_000_000);

/// Steps seen, by answer.
type Answers = [u64; 10];

/// Mostly room enough, and every length from 0 to 64.
fn out_len(random: &mut Random) -> usize {
    if random.one_in(4) {
        random.below(65)
    } else {
        64
    }
}

/// Mostly the held i, sometimes another, sometimes 0.
fn identifier_like(random: &mut Random, held: u16) -> u16 {
    match random.below(8) {
        0 => 0,
        1 => held.wrapping_add(1).clamp(1, 16383),
        _ => held,
    }
}

/// The timers that run after a step by what was taken and written.
fn running_after(before: Running, event: &[u8], step: &Said) -> Running {
    if step.answer != 0 {
        return before;
    }
    let taken = before.taken(Event::read(event).expect("what is taken can be read"));
    records::messages(step.written()).fold(taken, |running, message| {
        let message = message.expect("only messages are written");
        assert!(!matches!(message, Message::UInfo { .. }), "no step writes U-INFO");
        running.told(message).expect("STOP is written only for a running timer")
    })
}

/// One step from a record that was not reached: the timers that its own flags say, and then the
/// messages. Not so where a call ends before U-SETUP was sent: those rows stop T303 alone, which from
/// fresh is the only one that can run there.
fn timers_agree(before: &[u8], event: &[u8], step: &Said) {
    if let (Some(before), Some(after)) = (Call::unpack(before), Call::unpack(step.record)) {
        let running = running_after(Running { timers: before.timers }, event, step);
        let ends_unsent = step.answer == 0
            && (before.state, before.sent) == (State::MoCallSetup, false)
            && after == Call::FRESH
            && !matches!(
                Event::read(event),
                Ok(Event::DDisconnect { .. } | Event::DRelease { .. })
            );
        if ends_unsent {
            assert!(!running.running(Timer::T303), "STOP for T303");
        } else {
            assert_eq!(running.timers, after.timers, "the timers by the messages are those held");
        }
    }
}

fn runs_from_fresh(seed: u64) -> Answers {
    let mut random = Random::new(seed);
    let mut queue = Queue::new();
    let mut answers = Answers::default();
    let mut left = STEPS_FROM_FRESH;
    while left > 0 {
        // A run may hold several calls, one after another.
        let steps = (1 + random.below(400)).min(left);
        let ending = random.pick(&[4, 16, 64]);
        left -= steps;

        let fresh =
            queue.check(&Request::fresh(&[0xEE; 22], 0xEE), |record, _, _| boundary::fresh(record));
        assert_eq!((fresh.answer, fresh.count), (0, 22), "fresh is answer 0 and 22 bytes");
        let mut record = fresh.next();
        let mut history = History::EMPTY;
        let mut told = Plane::Off;
        let mut running = Running::NONE;
        for _ in 0..steps {
            let call = Call::unpack(&record).expect("a step gives a record back");
            let bytes = match random.below(16) {
                0 => {
                    let i = identifier_like(&mut random, call.identifier);
                    let event = event(&mut random, i);
                    damaged_event(&mut random, event)
                }
                1..=3 => {
                    let i = identifier_like(&mut random, call.identifier);
                    Bytes::of_event(event(&mut random, i))
                }
                _ => Bytes::of_event(likely_event(&mut random, &call, ending)),
            };
            let out_len = out_len(&mut random);
            let step = queue.step(&record, bytes.as_slice(), out_len, random.byte());
            answers[step.answer as usize] += 1;
            record = step.next();
            running = running_after(running, bytes.as_slice(), &step);

            if step.answer == 0 {
                let event = Event::read(bytes.as_slice()).expect("what is taken can be read");
                history = history.then(event);
                for message in records::messages(step.written()) {
                    if let Message::Configure { p } = message.expect("only messages are written") {
                        told = p;
                    }
                }
            }
            let Call { state, plane, timers, slots, .. } =
                Call::unpack(&record).expect("a step gives a record back");
            assert_eq!(running.timers, timers, "the timers by the messages are those held");
            assert!(state != State::Idle || running == Running::NONE, "none runs in IDLE");
            assert_eq!(told, plane, "the last CONFIGURE is the plane held");
            assert_eq!(history.plane(), plane, "the plane by history is the plane held");
            let by_history = if state == State::Idle { 1 } else { history.slots() };
            assert_eq!(by_history, slots, "the slots by history are the slots held");
        }
    }
    queue.finish();
    answers
}

fn sound_records_out_of_reach(seed: u64) -> Answers {
    let mut random = Random::new(seed);
    let mut queue = Queue::new();
    let mut answers = Answers::default();
    for _ in 0..STEPS_OUT_OF_REACH {
        let call = sound_record(&mut random);
        let event = if random.flip() {
            likely_event(&mut random, &call, 3)
        } else {
            let i = identifier_like(&mut random, call.identifier);
            event(&mut random, i)
        };
        let out_len = out_len(&mut random);
        let bytes = Bytes::of_event(event);
        let step = queue.step(&call.pack(), bytes.as_slice(), out_len, random.byte());
        answers[step.answer as usize] += 1;
        timers_agree(&call.pack(), bytes.as_slice(), &step);
        let next = Call::unpack(step.record).expect("a step gives a record back");
        assert!(next.sound(), "every step from a sound record gives a sound one");
    }
    queue.finish();
    answers
}

fn records_that_are_none(seed: u64) -> Answers {
    let mut random = Random::new(seed);
    let mut queue = Queue::new();
    let mut answers = Answers::default();
    for _ in 0..STEPS_DAMAGED_RECORD {
        let record = damaged_record(&mut random);
        let held = Call::unpack(record.as_slice()).map_or(1, |call| call.identifier.min(16383));
        let event = event(&mut random, held);
        let bytes = if random.one_in(4) {
            damaged_event(&mut random, event)
        } else {
            Bytes::of_event(event)
        };
        let out_len = out_len(&mut random);
        let step = queue.step(record.as_slice(), bytes.as_slice(), out_len, random.byte());
        answers[step.answer as usize] += 1;
        timers_agree(record.as_slice(), bytes.as_slice(), &step);
    }
    queue.finish();
    answers
}

fn damaged_events(seed: u64) -> Answers {
    let mut random = Random::new(seed);
    let mut queue = Queue::new();
    let mut answers = Answers::default();
    for _ in 0..STEPS_DAMAGED_EVENT {
        let call = sound_record(&mut random);
        let event = if random.flip() {
            likely_event(&mut random, &call, 4)
        } else {
            event(&mut random, call.identifier)
        };
        let bytes = damaged_event(&mut random, event);
        let out_len = out_len(&mut random);
        let step = queue.step(&call.pack(), bytes.as_slice(), out_len, random.byte());
        answers[step.answer as usize] += 1;
        timers_agree(&call.pack(), bytes.as_slice(), &step);
    }
    queue.finish();
    answers
}

#[test]
fn library_and_account_agree_on_generated_steps() {
    type Part = fn(u64) -> Answers;
    let parts: [(&str, Part); 4] = [
        ("runs from fresh", runs_from_fresh),
        ("sound records out of reach", sound_records_out_of_reach),
        ("records that are none", records_that_are_none),
        ("damaged events", damaged_events),
    ];
    let mut all = Answers::default();
    tell("steps by answer                      0         1         2         3         4         5         6         7         8         9");
    for (number, (name, part)) in parts.into_iter().enumerate() {
        let answers = thread::scope(|scope| {
            let threads: Vec<_> = (0..THREADS)
                .map(|thread| scope.spawn(move || part(0x5EED_0000 + 16 * number as u64 + thread)))
                .collect();
            let mut sum = Answers::default();
            for thread in threads {
                match thread.join() {
                    Ok(answers) => (0..10).for_each(|answer| sum[answer] += answers[answer]),
                    Err(difference) => std::panic::resume_unwind(difference),
                }
            }
            sum
        });
        tell(&row(name, &answers));
        (0..10).for_each(|answer| all[answer] += answers[answer]);
    }
    tell(&row("all", &all));
    assert_eq!(all.iter().sum::<u64>(), STEPS_IN_ALL);
    for (answer, seen) in all.iter().enumerate() {
        assert!(*seen > 0, "answer {answer} was never seen");
    }
}

fn row(name: &str, answers: &Answers) -> String {
    let mut row = format!("{name:<28}");
    for seen in answers {
        row += &format!("{seen:>10}");
    }
    row
}
