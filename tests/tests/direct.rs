//! Direct mode: the library beside the second account, on every record that a small alphabet of
//! events reaches, on generated events, and on every kind.

use callcontrol_tests::account::direct::{self, RECORD_LEN, STEP_MAX};
use callcontrol_tests::library::BRIDGED;
use callcontrol_tests::programs::stack_used;
use callcontrol_tests::request::{Function, Request};
use callcontrol_tests::sidebyside::Queue;
use std::collections::{BTreeSet, VecDeque};

fn event(kind: u16, body: &[u8]) -> Vec<u8> {
    let size = (4 + body.len()) as u16;
    [&size.to_le_bytes()[..], &kind.to_le_bytes(), body].concat()
}

/// One step of both; gives the answer, the count and the record then.
fn step(queue: &mut Queue, record: &[u8], event: &[u8], lent: usize) -> (u32, usize, Vec<u8>) {
    let request = Request::of(Function::DirectStep, record, event, lent, 0xA5);
    let said = queue.check(&request, direct::step);
    (said.answer, said.count, said.record.to_vec())
}

#[test]
fn the_fresh_record_is_written_into_seven_bytes_alone() {
    let mut queue = Queue::new();
    for len in 0..=16 {
        let bytes = vec![0xEE; len];
        let request = Request::of(Function::DirectFresh, &bytes, &[], 0, 0x11);
        let said = queue.check(&request, |bytes, _, _| direct::fresh(bytes));
        assert_eq!(said.answer, u32::from(len != RECORD_LEN));
    }
    queue.finish();
}

/// Grades and attempts at, below and above each limit; every report; both timers; bytes that are no
/// event.
fn alphabet() -> Vec<Vec<u8>> {
    let mut events = Vec::new();
    for [target, lowest] in [[5, 3], [5, 5], [0, 0], [255, 0], [3, 5]] {
        for attempts in [0, 1, 2, 3, 15, 16] {
            events.push(event(0x0801, &[target, lowest, attempts]));
        }
    }
    events.extend((0..=3).map(|v| event(0x0802, &[v])));
    events.extend([0, 2, 3, 4, 5, 6, 255].map(|t| event(0x0803, &[t])));
    events.push(event(0x0804, &[]));
    events.extend([303u16, 311, 301].map(|n| event(0x0805, &n.to_le_bytes())));
    events.extend([
        vec![],
        vec![4, 0, 1],
        vec![5, 0, 4, 8],
        event(0x0806, &[]),
        event(0x0804, &[0]),
    ]);
    events
}

#[test]
fn every_record_that_the_alphabet_reaches() {
    let (events, mut queue) = (alphabet(), Queue::new());
    let mut reached = BTreeSet::from([vec![0; RECORD_LEN]]);
    let mut open: VecDeque<Vec<u8>> = reached.iter().cloned().collect();
    let mut answers = BTreeSet::new();
    let mut most = 0;
    while let Some(record) = open.pop_front() {
        for event in &events {
            for lent in 0..=STEP_MAX + 1 {
                let (answer, count, next) = step(&mut queue, &record, event, lent);
                answers.insert(answer);
                most = most.max(count);
                assert!(lent < STEP_MAX || answer != 7);
                if reached.insert(next.clone()) {
                    open.push_back(next);
                }
            }
        }
    }
    queue.finish();
    assert_eq!(answers, BTreeSet::from([0, 2, 3, 4, 7, 60, 61]));
    assert_eq!(most, STEP_MAX);
    assert!(reached.len() > 150, "only {} records", reached.len());
}

/// Every byte in each field of records of every state, and every two bytes in the fields that the
/// rules compare: those that are not sound are answer 1, and the others step as the account says.
#[test]
fn every_byte_in_every_field() {
    let mut queue = Queue::new();
    let records = [
        [0; RECORD_LEN],
        [1, 9, 4, 3, 1, 0, 0],
        [1, 9, 4, 3, 3, 1, 0],
        [1, 255, 255, 15, 15, 1, 0],
        [2, 9, 4, 3, 2, 0, 1],
    ];
    let events = [
        event(0x0801, &[9, 4, 3]),
        event(0x0802, &[0]),
        event(0x0802, &[1]),
        event(0x0803, &[5]),
        event(0x0804, &[]),
        event(0x0805, &303u16.to_le_bytes()),
    ];
    let mut sound = BTreeSet::new();
    let mut expect = |record: &[u8; RECORD_LEN]| {
        for event in &events {
            if step(&mut queue, record, event, STEP_MAX).0 != 1 {
                sound.insert(*record);
            }
        }
    };
    for record in records {
        for field in 0..RECORD_LEN {
            for byte in 0..=255 {
                let mut spoiled = record;
                spoiled[field] = byte;
                expect(&spoiled);
            }
        }
    }
    // Target and lowest; limit and used.
    for pair in [1, 3] {
        for bytes in 0..=0xFFFFu16 {
            let mut spoiled = records[2];
            spoiled[pair..pair + 2].copy_from_slice(&bytes.to_le_bytes());
            expect(&spoiled);
        }
    }
    queue.finish();
    // Of the pairs alone: lowest to target, and 1 to limit for each limit of 1 to 15.
    let alike = |record: &&[u8; RECORD_LEN]| record[5..] == [1, 0] && record[0] == 1;
    let graded = sound.iter().filter(alike).filter(|record| record[3..5] == [3, 3]).count();
    let limited = sound.iter().filter(alike).filter(|record| record[1..3] == [9, 4]).count();
    assert_eq!((graded, limited), (256 * 257 / 2, 15 * 16 / 2));
}

/// A generator of numbers that does not repeat within any test: SplitMix64.
struct Numbers(u64);

impl Numbers {
    fn next(&mut self) -> u64 {
        self.0 = self.0.wrapping_add(0x9E37_79B9_7F4A_7C15);
        let mut z = self.0;
        z = (z ^ z >> 30).wrapping_mul(0xBF58_476D_1CE4_E5B9);
        z = (z ^ z >> 27).wrapping_mul(0x94D0_49BB_1331_11EB);
        z ^ z >> 31
    }

    fn below(&mut self, n: u64) -> u64 {
        self.next() % n
    }
}

/// Ten million steps, most of them such as a call wants next, each from the record that the last
/// gave; now and then a record of any bytes, and an event that was damaged.
#[test]
fn ten_million_generated_steps() {
    let (mut numbers, mut queue) = (Numbers(14), Queue::new());
    let mut record = vec![0; RECORD_LEN];
    let mut taken = [0u32; 5];
    for turn in 0..10_000_000u32 {
        if numbers.below(5_000) == 0 {
            record = (0..RECORD_LEN).map(|_| numbers.below(4) as u8).collect();
        }
        let [state, target, lowest, .., dt303, _] = record[..] else { unreachable!() };
        let kind = match (state, dt303, numbers.below(8)) {
            (_, _, 0) => 0x0801 + numbers.below(5) as u16,
            (0, _, _) => 0x0801,
            (1, 0, _) => 0x0802,
            (1, _, 1..=4) => 0x0805,
            (1, _, 5) => 0x0804,
            (1, ..) => 0x0803,
            _ => 0x0801 + numbers.below(6) as u16,
        };
        let body: Vec<u8> = match kind {
            0x0801 => vec![numbers.below(6) as u8, numbers.below(6) as u8, numbers.below(18) as u8],
            0x0802 => vec![numbers.below(9).saturating_sub(5) as u8],
            0x0803 => vec![(u64::from(lowest) + numbers.below(4)).saturating_sub(1).min(255) as u8],
            0x0805 => if numbers.below(8) == 0 { 311u16 } else { 303 }.to_le_bytes().to_vec(),
            _ => vec![],
        };
        let mut event = event(kind, &body);
        if numbers.below(64) == 0 {
            let at = numbers.below(event.len() as u64) as usize;
            event[at] = numbers.next() as u8;
        }
        let lent = if numbers.below(16) == 0 { numbers.below(28) as usize } else { STEP_MAX };
        let (answer, _, next) = step(&mut queue, &record, &event, lent);
        if answer == 0 && (0x0801..=0x0805).contains(&kind) {
            taken[usize::from(kind - 0x0801)] += 1;
        }
        // No row leaves ACTIVE, so a host begins fresh.
        let done = next[0] == 2 && numbers.below(4) == 0 || next[0] > 2 || answer == 1;
        record = if done { vec![0; RECORD_LEN] } else { next };
        assert!(target >= lowest || state == 0 || answer == 1 || turn == 0);
    }
    queue.finish();
    assert!(taken.iter().all(|&count| count > 10_000), "{taken:?}");
}

#[test]
fn every_kind_and_every_body_of_one_byte() {
    let mut queue = Queue::new();
    let mut known = [0, 0];
    for kind in 0..=0xFFFF {
        for body in 0..=3 {
            let bytes = event(kind, &vec![0; body]);
            let check = Request::check(Function::DirectCheckEvent, &bytes, 3);
            let said = queue.check(&check, |_, bytes, _| direct::check_event(bytes)).answer;
            known[0] += u32::from(said == 0);
            let check = Request::check(Function::DirectCheckMessage, &bytes, 3);
            let said = queue.check(&check, |_, bytes, _| direct::check_message(bytes)).answer;
            known[1] += u32::from(said == 0);
        }
    }
    // Of each table those whose body of so many zeros reads: no timer has the number 0.
    assert_eq!(known, [4, 6]);
    for kind in (0x0801..=0x0805).chain(0x0901..=0x0922) {
        for value in 0..=0xFFFFu16 {
            let [low, high] = value.to_le_bytes();
            for body in [&[low][..], &[low, high], &[low, high, low]] {
                if body.len() == 1 && high > 0 {
                    continue;
                }
                let bytes = event(kind, body);
                for lent in [bytes.len() - 1, bytes.len()] {
                    let copy = Request::copy(Function::DirectCopyEvent, &bytes, lent, 5);
                    queue.check(&copy, |_, bytes, out| direct::copy_event(bytes, out));
                    let copy = Request::copy(Function::DirectCopyMessage, &bytes, lent, 5);
                    queue.check(&copy, |_, bytes, out| direct::copy_message(bytes, out));
                }
            }
        }
    }
    queue.finish();
}

/// Calls that go through every row, on a painted stack.
#[test]
fn a_step_uses_less_than_512_bytes_of_stack() {
    if cfg!(not(target_arch = "x86_64")) && !BRIDGED {
        println!("not measured: this is not the library that is shipped, which is x86-64 code");
        return;
    }
    let request = || event(0x0801, &[9, 4, 2]);
    let sent = || event(0x0802, &[0]);
    let expiry = || event(0x0805, &303u16.to_le_bytes());
    let mut events = vec![request(), sent(), expiry(), sent(), expiry()];
    events.extend([request(), event(0x0802, &[1]), request(), sent(), event(0x0804, &[])]);
    events.extend([request(), sent(), event(0x0803, &[3]), event(0x0801, &[9, 4, 16])]);
    events.extend([request(), sent(), event(0x0803, &[5]), expiry(), request()]);
    let mut tape = Vec::new();
    for event in events {
        tape.extend_from_slice(&(event.len() as u32).to_le_bytes());
        tape.extend_from_slice(&event);
    }
    let bytes = stack_used("tests/bridge/stack_direct.c", &tape);
    println!("{bytes} bytes of stack");
    // A step that used next to nothing would not have been played.
    assert!((32..512).contains(&bytes), "{bytes} bytes of stack");
}
