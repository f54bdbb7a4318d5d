//! No timer is left behind: at every record that a small alphabet reaches from fresh, by every way to
//! it that matters, the timers that run by the messages are those in the record; none runs in IDLE; a
//! call writes at most one U-DISCONNECT and one U-RELEASE; and a release ends.

use callcontrol_tests::account::running::Running;
use callcontrol_tests::account::{records, Call, Event, Message, State, Timer, RECORD_LEN};
use callcontrol_tests::explore::{alphabet, explore, written, Letters};
use callcontrol_tests::generate::Bytes;
use callcontrol_tests::sidebyside::{tell, Queue};
use std::collections::HashSet;

/// A record with what was read from events and messages on the way to it.
#[derive(Clone, Copy, PartialEq, Eq, Hash)]
struct Node {
    record: [u8; RECORD_LEN],
    running: Running,
    /// Written in this call so far.
    u_disconnects: u8,
    u_releases: u8,
}

const FIRST: Node = Node {
    record: [0, 0, 0, 0, 0, 0, 0, 0, 0, 0, 0, 4, 4, 0, 0, 0, 0, 0, 0, 0, 0, 1],
    running: Running::NONE,
    u_disconnects: 0,
    u_releases: 0,
};

fn call(record: &[u8]) -> Call {
    Call::unpack(record).expect("a step gives a record back")
}

impl Node {
    fn then(&self, event: Event, record: [u8; RECORD_LEN], written: &[u8]) -> Node {
        let mut next = Node { record, running: self.running.taken(event), ..*self };
        if call(&self.record).state == State::Idle {
            // The turn that leaves IDLE begins a call.
            (next.u_disconnects, next.u_releases) = (0, 0);
        }
        for message in records::messages(written) {
            let message = message.expect("only messages are written");
            next.running = next.running.told(message).expect("STOP is for a running timer");
            next.u_disconnects += u8::from(matches!(message, Message::UDisconnect { .. }));
            next.u_releases += u8::from(matches!(message, Message::URelease { .. }));
        }
        next
    }
}

#[test]
fn every_reached_record_runs_the_timers_that_its_messages_say() {
    let events = written(alphabet(&Letters::ENDS));
    let expiry = |n| Bytes::of_event(Event::Expiry { n });
    let release = Bytes::of_event(Event::ReleaseRequest);
    let mut queue = Queue::new();
    let (mut steps, mut u_disconnects, mut u_releases) = (0u64, 0u64, 0u64);

    let nodes = explore(FIRST, &events, |node, event, bytes| {
        steps += 1;
        let step = queue.step(&node.record, bytes, 64, steps as u8);
        if step.answer != 0 {
            return None;
        }
        let next = node.then(event, step.next(), step.written());
        let held = call(&next.record);
        assert_eq!(next.running.timers, held.timers, "{event:?} from {:?}", call(&node.record));
        if held.state == State::Idle {
            assert_eq!(next.running, Running::NONE, "none runs in IDLE");
        }
        assert!(next.u_disconnects <= 1, "a second U-DISCONNECT by {event:?}");
        assert!(next.u_releases <= 1, "a second U-RELEASE by {event:?}");
        u_disconnects += u64::from(next.u_disconnects);
        u_releases += u64::from(next.u_releases);
        Some(next)
    });

    // From each of them: the release, and the expiry of each timer, with 32 bytes lent and with more.
    let (mut taken, mut late) = (0u64, 0u64);
    for node in &nodes {
        for room in [32, 33, 64] {
            let released = queue.step(&node.record, release.as_slice(), room, 0x32);
            let record = released.next();
            let ended = queue.step(&record, expiry(Timer::T308).as_slice(), room, 0x32).next();
            assert_eq!(ended, Call::FRESH.pack(), "released from {:?}", call(&node.record));
            for &n in Timer::ALL {
                let step = queue.step(&node.record, expiry(n).as_slice(), room, 0x23);
                let expected = if node.running.running(n) { 0 } else { 6 };
                assert_eq!(step.answer, expected, "expiry of {n:?} at {:?}", call(&node.record));
                taken += u64::from(step.answer == 0);
                late += u64::from(step.answer == 6);
            }
        }
    }
    queue.finish();
    let records: HashSet<[u8; RECORD_LEN]> = nodes.iter().map(|node| node.record).collect();
    tell(&format!(
        "{} records reached ({} with what led to them), {steps} steps; {taken} expiries taken, {late} late",
        records.len(),
        nodes.len()
    ));
    assert!(u_disconnects > 0 && u_releases > 0 && taken > 0 && late > 0);
}

/// Timers start, are stopped and expire; two calls one after the other, the second with a colliding
/// release. What runs is written out by hand.
#[test]
fn two_calls_one_after_the_other() {
    use callcontrol_tests::account::{Grant, Mode};
    use Timer::{T301, T302, T303, T306, T308, T310, T311};
    let granted = Grant::Granted;
    let d = Mode::Simplex;
    let turns: &[(Event, &[Timer])] = &[
        (Event::SetupRequest { a: 7, d, q: true, s: None }, &[T303]),
        (Event::DCallProceeding { i: 21 }, &[T302]),
        (Event::DConnect { i: 21, g: granted, d, o: 3, s: None }, &[T310, T311]),
        (Event::Expiry { n: T311 }, &[T310]),
        (Event::DTxGranted { i: 21, g: granted }, &[T310, T311]),
        (Event::Break, &[T310]),
        (Event::Resume, &[T306, T310]),
        (Event::Break, &[T310]),
        (Event::Resume, &[T306, T310]),
        (Event::Expiry { n: T306 }, &[T308]),
        (Event::Expiry { n: T308 }, &[]),
        (Event::DSetup { i: 22, a: 9, d }, &[]),
        (Event::SetupResponse, &[T301]),
        (Event::DConnectAcknowledge { i: 22, g: granted, o: 5 }, &[T310, T311]),
        (Event::ReleaseRequest, &[T308]),
        (Event::DDisconnect { i: 22 }, &[]),
    ];
    let mut queue = Queue::new();
    let mut node = FIRST;
    for &(event, running) in turns {
        let step = queue.step(&node.record, Bytes::of_event(event).as_slice(), 32, 0x44);
        assert_eq!(step.answer, 0, "{event:?} is taken");
        node = node.then(event, step.next(), step.written());
        let by_hand = Timer::ALL.iter().map(|timer| running.contains(timer));
        assert!(by_hand.eq(node.running.timers), "{event:?}: {:?}", node.running);
        assert_eq!(call(&node.record).timers, node.running.timers, "{event:?}");
    }
    assert_eq!(node.record, FIRST.record);
    assert_eq!((node.u_disconnects, node.u_releases), (1, 1), "of the second call");
    queue.finish();
}
