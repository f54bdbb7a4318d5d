//! At every record that can be reached from fresh with a small alphabet, library and account
//! agree on every event of that alphabet, and plane and slots are those that the history gives.

use callcontrol_tests::account::{
    records, Call, Event, History, Message, Plane, State, RECORD_LEN,
};
use callcontrol_tests::explore::{alphabet, explore, written, Letters};
use callcontrol_tests::sidebyside::{tell, Queue};
use std::collections::HashSet;

/// A record together with what led to it, as far as plane and slots by history ask: so these are
/// compared for every history, not for the shortest to each record.
#[derive(Clone, Copy, PartialEq, Eq, Hash)]
struct Node {
    record: [u8; RECORD_LEN],
    history: History,
}

#[test]
fn every_reachable_record_and_event_agree() {
    let events = written(alphabet(&Letters::ENDS));
    let first = Node { record: Call::FRESH.pack(), history: History::EMPTY };
    let mut steps = 0u64;
    let mut answers = [0u64; 10];
    let mut longest = 0;
    let mut longest_steps = HashSet::new();
    let mut queue = Queue::new();

    let nodes = explore(first, &events, |node, event, bytes| {
        let whole = queue.step(&node.record, bytes, 64, steps as u8);
        steps += 1;
        answers[whole.answer as usize] += 1;
        if whole.answer != 0 {
            return None;
        }
        let (record, count, written) = (whole.next(), whole.count, whole.written().to_vec());

        if count > longest {
            longest = count;
            longest_steps.clear();
        }
        if count == longest {
            longest_steps.insert((
                node.record[0],
                bytes[2..4].to_vec(),
                bytes.get(6..8).map(<[u8]>::to_vec),
            ));
        }

        // Room for exactly what is written is enough, one byte less is not.
        let exact = queue.step(&node.record, bytes, count, !(steps as u8));
        assert_eq!((exact.answer, exact.written()), (0, &written[..]));
        steps += 1;
        answers[exact.answer as usize] += 1;
        if count > 0 {
            let short = queue.step(&node.record, bytes, count - 1, steps as u8);
            assert_eq!((short.answer, short.count), (7, 0));
            steps += 1;
            answers[short.answer as usize] += 1;
        }

        let next = Node { record, history: node.history.then(event) };
        let call = Call::unpack(&record).expect("a step gives a record back");
        assert!(call.sound(), "every step from a sound record gives a sound one");
        assert_eq!(next.history.plane(), call.plane, "the plane by history is the plane held");
        slots_by_history(&call, next.history);
        let before = Call::unpack(&node.record).expect("reached by a step").plane;
        assert_eq!(last_configure(&written).unwrap_or(before), call.plane);
        Some(next)
    });
    // MODIFY request, retired: 9 everywhere, and the record stays.
    for node in &nodes {
        let step = queue.step(&node.record, &[5, 0, 0x05, 0x01, steps as u8], 64, steps as u8);
        assert_eq!((step.answer, step.place, step.count), (9, 0, 0));
        assert_eq!(step.next(), node.record);
        steps += 1;
    }
    queue.finish();

    let records: HashSet<[u8; RECORD_LEN]> = nodes.iter().map(|node| node.record).collect();
    tell(&format!(
        "{} events, {} records reached ({} with their histories), {steps} steps, by answer {answers:?}",
        events.len(),
        records.len(),
        nodes.len(),
    ));
    // Nothing unsound, no damaged event was handed in; every other answer must have come up.
    for answer in [0, 5, 6, 7, 8] {
        assert!(answers[answer] > 0, "answer {answer} was never seen");
    }
    assert!(records.len() > 1000, "the alphabet reaches too little to show anything");
    // STOP of T302 or T303, START of T310 and T311, CONFIGURE and SETUP confirm: D-CONNECT (0203) in
    // MO-CALL-SETUP (1) with grant 0 in simplex, and no other step, writes 32 bytes.
    assert_eq!(longest, 6 + 7 + 7 + 5 + 7);
    assert_eq!(longest_steps, HashSet::from([(1, vec![0x03, 0x02], Some(vec![0, 0]))]));
}

/// Outside IDLE the held number is the one that the history gives, in IDLE it is 1.
fn slots_by_history(call: &Call, history: History) {
    let by_history = if call.state == State::Idle { 1 } else { history.slots() };
    assert_eq!(by_history, call.slots, "the slots by history are the slots held");
}

/// Every number of slots in each event that may carry them, and in each none: what they write is
/// looked at by its bytes.
#[test]
fn every_number_of_slots_at_every_reachable_record() {
    let events = written(alphabet(&Letters::SLOTS));
    let first = Node { record: Call::FRESH.pack(), history: History::EMPTY };
    let mut queue = Queue::new();
    let (mut steps, mut changed, mut alone) = (0u64, 0u64, 0u64);
    let nodes = explore(first, &events, |node, event, bytes| {
        let step = queue.step(&node.record, bytes, 32, steps as u8);
        steps += 1;
        if step.answer != 0 {
            return None;
        }
        let next = Node { record: step.next(), history: node.history.then(event) };
        let (before, after) = (Call::unpack(&node.record)?, Call::unpack(&next.record)?);
        slots_by_history(&after, next.history);
        let written = step.written();
        match event {
            // 0501: as long as the request, with the same byte at its end.
            Event::SetupRequest { .. } => {
                let len = bytes.len();
                assert_eq!(written[..4], [len as u8, 0, 0x01, 0x05]);
                assert_eq!(written[4..len], bytes[4..]);
            }
            // CONFIGURE p, then 0709 with the mode received and the number held now.
            Event::DInfo { d, s, .. } => {
                let told = &written[written.len() - 11..];
                let plane = if d == before.mode { before.plane } else { Plane::Off };
                let expected =
                    [5, 0, 0x03, 0x06, plane as u8, 6, 0, 0x09, 0x07, d as u8, after.slots];
                assert_eq!(told, expected);
                changed += u64::from(after.slots != before.slots);
                if d == before.mode && s.is_some_and(|s| s != before.slots) {
                    assert_eq!(after.plane, before.plane);
                    alone += 1;
                }
            }
            _ => {}
        }
        Some(next)
    });
    queue.finish();
    let held: HashSet<u8> = nodes.iter().map(|node| node.record[21]).collect();
    assert_eq!(held, HashSet::from([1, 2, 3, 4]));
    tell(&format!(
        "{} records with their histories, {steps} steps; slots changed by D-INFO in {changed}, alone in {alone}",
        nodes.len()
    ));
    assert!(changed > alone && alone > 0);
}

fn last_configure(written: &[u8]) -> Option<Plane> {
    records::messages(written)
        .filter_map(|message| match message.expect("only messages are written") {
            Message::Configure { p } => Some(p),
            _ => None,
        })
        .last()
}

/// A step is taken exactly when the buffer holds what it writes, whatever its length is.
#[test]
fn every_buffer_length_from_0_to_64_at_every_step_that_is_taken() {
    let events = written(alphabet(&Letters::FEW));
    let mut steps = 0u64;
    let mut queue = Queue::new();
    explore(Call::FRESH.pack(), &events, |record, _, bytes| {
        let whole = queue.step(record, bytes, 64, 0x3C);
        if whole.answer != 0 {
            return None;
        }
        let (next, written) = (whole.next(), whole.written().to_vec());
        for out_len in 0..=64 {
            let lent = queue.step(record, bytes, out_len, steps as u8);
            steps += 1;
            if out_len < written.len() {
                assert_eq!((lent.answer, lent.count), (7, 0));
            } else {
                assert_eq!((lent.answer, lent.written()), (0, &written[..]));
            }
        }
        Some(next)
    });
    queue.finish();
    tell(&format!("{steps} steps with every length of buffer"));
}

/// Every sound record over a few values of the numbers, whether it can be reached or not: all
/// states, paths and planes with every set of running timers.
fn sound_records() -> Vec<Call> {
    use callcontrol_tests::account::{Mode, Path};
    let mut records = vec![Call::FRESH];
    let both = [false, true];
    for state in State::ALL {
        for identifier in [0, 1] {
            for &mode in Mode::ALL {
                for asked in both {
                    for sent in both {
                        for path in Path::ALL {
                            for &plane in Plane::ALL {
                                for &kept in Plane::ALL {
                                    for running in 0..128u8 {
                                        let call = Call {
                                            state,
                                            identifier,
                                            address: 1,
                                            mode,
                                            asked,
                                            sent,
                                            path,
                                            plane,
                                            kept,
                                            t310_code: 5,
                                            timers: [0, 1, 2, 3, 4, 5, 6]
                                                .map(|bit| running >> bit & 1 == 1),
                                            slots: 3,
                                        };
                                        if call.sound() {
                                            records.push(call);
                                        }
                                    }
                                }
                            }
                        }
                    }
                }
            }
        }
    }
    records
}

#[test]
fn every_sound_record_over_few_values_and_every_event_agree() {
    let events = written(alphabet(&Letters::FEW));
    let records = sound_records();
    let mut steps = 0u64;
    let mut longest = 0;
    let mut queue = Queue::new();
    for call in &records {
        let record = call.pack();
        for (_, bytes) in &events {
            let whole = queue.step(&record, bytes.as_slice(), 64, steps as u8);
            steps += 1;
            longest = longest.max(whole.count);
            let next = Call::unpack(whole.record).expect("a step gives a record back");
            assert!(next.sound(), "every step from a sound record gives a sound one");
            assert_ne!(whole.answer, 7, "64 bytes are enough for every step");
            for message in records::messages(whole.written()) {
                let message = message.expect("only messages are written");
                assert!(!matches!(message, Message::UInfo { .. }), "no step writes U-INFO");
            }
        }
    }
    queue.finish();
    tell(&format!(
        "{} sound records, {} events, {steps} steps, at most {longest} bytes written",
        records.len(),
        events.len()
    ));
    // D-DISCONNECT with six timers running: six STOPs, U-RELEASE, CONFIGURE, RELEASE indication.
    assert_eq!(longest, 6 * 6 + 6 + 5 + 5);
}

/// Every packed record over few values of each byte: those that are not sound, and only those,
/// are answer 1, whatever else is wrong.
#[test]
fn every_record_over_few_values_is_refused_exactly_when_it_is_not_sound() {
    let break_event = [4, 0, 0x03, 0x03];
    let no_event = [0xFF; 3];
    let (mut sound, mut unsound) = (0u64, 0u64);
    let mut record = [0u8; RECORD_LEN];
    let mut queue = Queue::new();
    for state in 0..=6 {
        for identifier in [0u16, 1, 16383, 16384] {
            for path in 0..=3 {
                for plane in 0..=5 {
                    for kept in 0..=5 {
                        for (code, slots) in [(0, 1), (15, 4), (16, 1), (3, 0), (3, 5), (3, 2)] {
                            for t306 in 0..=2 {
                                for t311 in 0..=2 {
                                    record[0] = state;
                                    record[1..3].copy_from_slice(&identifier.to_le_bytes());
                                    record[10] = path;
                                    record[11] = plane;
                                    record[12] = kept;
                                    record[13] = code;
                                    record[17] = t306;
                                    record[20] = t311;
                                    record[21] = slots;
                                    let taken = queue.step(&record, &break_event, 64, code).answer;
                                    let refused = queue.step(&record, &no_event, 64, code).answer;
                                    if taken == 1 {
                                        assert_eq!(refused, 1);
                                        unsound += 1;
                                    } else {
                                        assert_eq!(refused, 2);
                                        sound += 1;
                                    }
                                }
                            }
                        }
                    }
                }
            }
        }
    }
    tell(&format!("{sound} sound and {unsound} unsound records told apart"));
    assert!(sound > 0 && unsound > 0);

    // Each byte of fresh changed to each other value: IDLE only if fresh.
    for at in 0..RECORD_LEN {
        for value in 0..=255 {
            let mut record = Call::FRESH.pack();
            let same = record[at] == value;
            record[at] = value;
            let answer = queue.step(&record, &break_event, 64, 0xA5).answer;
            let mo_or_disconnect = at == 0 && (value == 1 || value == 5);
            let expected = if same || mo_or_disconnect { 6 } else { 1 };
            assert_eq!(answer, expected, "fresh with byte {at} set to {value}");
        }
    }
    queue.finish();
}
