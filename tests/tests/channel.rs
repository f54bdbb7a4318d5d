//! Channel change responses: library and account agree on every call, from every arrangement of few
//! numbers and on long random runs, and each question that was taken is answered exactly once.
//!
//! What is answered is read from the bytes alone, and counted without the account.

use callcontrol_tests::account::channel::{self, Rooms, FOUR, ROOMS_LEN};
use callcontrol_tests::account::{records, Message, Verdict};
use callcontrol_tests::generate::Random;
use callcontrol_tests::programs::stack_used;
use callcontrol_tests::request::{channel_input, Function, Place, Request};
use callcontrol_tests::sidebyside::{tell, Queue};
use std::collections::{BTreeMap, HashSet};

/// What a host calls.
#[derive(Clone, Copy, Debug)]
enum Turn {
    Ask { number: u16, call: u16, asked: u8 },
    Pdu { number: u16, call: u16, result: u32 },
    Decide { number: u16, what: u8 },
    Ended { call: u16 },
}

impl Turn {
    fn request(self) -> (Function, [u8; 8]) {
        match self {
            Turn::Ask { number, call, asked } => {
                (Function::ChannelAsk, channel_input(number, call, asked.into()))
            }
            Turn::Pdu { number, call, result } => {
                (Function::ChannelPdu, channel_input(number, call, result))
            }
            Turn::Decide { number, what } => {
                (Function::ChannelDecide, channel_input(number, 0, what.into()))
            }
            Turn::Ended { call } => (Function::ChannelEnded, channel_input(0, call, 0)),
        }
    }

    /// As the account does it.
    fn account(self, rooms: &mut [u8], out: &mut [u8]) -> u32 {
        match self {
            Turn::Ask { number, call, asked } => channel::ask(rooms, number, call, asked, out),
            Turn::Pdu { number, call, result } => channel::pdu(rooms, number, call, result, out),
            Turn::Decide { number, what } => channel::decide(rooms, number, what, out),
            Turn::Ended { call } => channel::ended(rooms, call, out),
        }
    }
}

struct Host<'a> {
    queue: &'a mut Queue,
    rooms: [u8; ROOMS_LEN],
    places: [Place; 3],
    calls: u64,
}

impl<'a> Host<'a> {
    fn new(queue: &'a mut Queue) -> Host<'a> {
        let request = Request::of(Function::ChannelFresh, &[0xC7; ROOMS_LEN], &[], 0, 0xC7);
        let said = queue.check(&request, |rooms, _, _| channel::fresh(rooms));
        assert_eq!(said.word, ROOMS_LEN as u32);
        let rooms = said.record.try_into().expect("still 20 bytes");
        Host { queue, rooms, places: [Place::Between; 3], calls: 0 }
    }

    fn turn(&mut self, turn: Turn, lent: usize) -> (u32, Vec<Message>) {
        let (function, input) = turn.request();
        let filler = (self.calls as u8).wrapping_mul(29);
        let request = Request::of(function, &self.rooms, &input, lent, filler).at(self.places);
        let said = self.queue.check(&request, |rooms, _, out| turn.account(rooms, out));
        self.calls += 1;
        self.rooms = said.record.try_into().expect("still 20 bytes");
        let messages = records::messages(said.written()).map(|m| m.expect("it reads back"));
        (said.answer, messages.collect())
    }
}

/// From every arrangement of five numbers, two calls and both kinds of waiting that can be reached:
/// every question, decision and end, each with room and without.
#[test]
fn every_turn_from_every_arrangement_of_five_numbers() {
    let mut queue = Queue::new();
    let mut host = Host::new(&mut queue);
    let mut seen = HashSet::from([Rooms::FRESH.pack()]);
    let mut next = vec![Rooms::FRESH.pack()];
    let mut turns = Vec::new();
    for number in 1..=5 {
        for asked in 0..=8 {
            let calls: &[u16] = if matches!(asked, 2 | 3) { &[20, 21] } else { &[20] };
            let lent: &[usize] = match asked {
                2 => &[0],
                3 => &[3, 4],
                _ => &[6, 7],
            };
            for &call in calls {
                for &lent in lent {
                    turns.push((Turn::Ask { number, call, asked }, lent));
                }
            }
        }
        for what in 0..=5 {
            for lent in [6, 7] {
                turns.push((Turn::Decide { number, what }, lent));
            }
        }
    }
    for call in [20, 21, 22] {
        for lent in [0, 6, 7, 13, 14, 20, 21, 27, 28, 40] {
            turns.push((Turn::Ended { call }, lent));
        }
    }
    for (asked, call) in [(0, 16383), (0, 16384), (2, 16384)] {
        turns.push((Turn::Ask { number: 1, call, asked }, 7));
    }
    turns.push((Turn::Ended { call: 16384 }, 28));

    let mut most = 0;
    while let Some(rooms) = next.pop() {
        for &(turn, lent) in &turns {
            host.rooms = rooms;
            host.turn(turn, lent);
            if seen.insert(host.rooms) {
                next.push(host.rooms);
            }
        }
        most = most.max(Rooms::unpack(&rooms).expect("rooms").waiting().count());
    }
    let calls = host.calls;
    // Four of five numbers in some order, each of two calls and two kinds, or fewer.
    let arrangements: usize = [(1, 1), (4, 5 * 4), (6, 20 * 16), (4, 60 * 64), (1, 120 * 256)]
        .map(|(a, b)| a * b)
        .iter()
        .sum();
    assert_eq!(seen.len(), arrangements);
    assert_eq!(most, FOUR);
    queue.finish();
    tell(&format!("{calls} calls from {} arrangements", seen.len()));
}

/// Runs as a host makes them, from four free rooms; numbers and calls from few, so that they meet.
#[test]
fn each_question_of_a_run_is_answered_exactly_once() {
    let mut random = Random::new(0xC4A7);
    let mut queue = Queue::new();
    let (mut calls, mut answers, mut runs) = (0, 0, 0);
    let mut given = BTreeMap::<u32, u64>::new();
    while calls < 10_000_000 {
        let mut host = Host::new(&mut queue);
        // Taken and not yet answered: what may answer it.
        let mut open = BTreeMap::<u16, (u16, u8)>::new();
        let numbers: &[u16] =
            random.pick(&[&[1, 2][..], &[0, 1, 2, 3, 4, 5, 6], &[7, 65535, 256, 0, 9]]);
        let among: &[u16] = random.pick(&[&[5][..], &[5, 6, 0], &[1, 16383, 16384, 2]]);
        for _ in 0..2000 {
            let (number, call) = (random.pick(numbers), random.pick(among));
            let lent = random.pick(&[7, 28, 28, 28, 40, 6, 3, 4, 0, 14, 27]);
            let turn = match random.below(10) {
                0..=3 => Turn::Ask {
                    number,
                    call,
                    asked: random.pick(&[2, 3, 2, 3, 2, 0, 1, 4, 5, 6, 7, 8, 255]),
                },
                4 => Turn::Pdu {
                    number,
                    call,
                    result: random.pick(&[
                        0,
                        32,
                        6 << 24,
                        4 << 24 | 5 << 16,
                        1 << 24,
                        255 << 24,
                        0xFF_FFFF,
                    ]),
                },
                5..=8 => Turn::Decide { number, what: random.pick(&[0, 1, 2, 3, 4, 0, 3, 4, 5]) },
                _ => Turn::Ended { call },
            };
            let (answer, messages) = host.turn(turn, lent);
            *given.entry(answer).or_default() += 1;
            let mut told = messages.iter().filter_map(|message| match *message {
                Message::ChannelAnswer { number, v } => Some((number, v)),
                Message::Cancel => None,
                ref other => panic!("{other:?} is not for the lower layers' questions"),
            });
            if answer != 0 {
                assert_eq!(told.next(), None);
                continue;
            }
            match turn {
                Turn::Ask { number, call, asked: asked @ (2 | 3) } => {
                    assert_eq!(told.next(), None, "it waits");
                    assert_eq!(messages.contains(&Message::Cancel), asked == 3);
                    assert_eq!(open.insert(number, (call, asked)), None, "it waited already");
                }
                Turn::Ask { number, asked, .. } => {
                    let v = match asked {
                        0 | 5 => Verdict::Accept,
                        1 | 7 => Verdict::Reject,
                        6 => Verdict::Ignore,
                        _ => panic!("{asked} is not taken"),
                    };
                    assert_eq!(told.next(), Some((number, v)));
                }
                Turn::Pdu { number, result, .. } => {
                    let v = if result >> 24 == 0 { Verdict::Accept } else { Verdict::Reject };
                    assert_eq!(told.next(), Some((number, v)));
                }
                Turn::Decide { number, what } => {
                    let (_, asked) = open.remove(&number).expect("it was asked, and not answered");
                    assert_eq!(asked, if what < 3 { 2 } else { 3 });
                    let v = match what {
                        0 | 3 => Verdict::Accept,
                        1 | 2 => Verdict::Reject,
                        _ => Verdict::Ignore,
                    };
                    assert_eq!(told.next(), Some((number, v)));
                    answers += 1;
                }
                Turn::Ended { call } => {
                    while let Some((number, v)) = told.next() {
                        let (of, _) = open.remove(&number).expect("it was asked, and not answered");
                        assert_eq!((of, v), (call, Verdict::Reject));
                        answers += 1;
                    }
                    assert!(
                        open.values().all(|&(of, _)| of != call),
                        "one of the call still waits"
                    );
                }
            }
            assert_eq!(told.next(), None, "one answer too many");
            assert!(open.len() <= FOUR);
        }
        calls += host.calls;
        runs += 1;
    }
    queue.finish();
    tell(&format!(
        "{calls} calls in {runs} runs, {answers} questions that waited; by answer {given:?}"
    ));
    assert!(answers > 100_000);
    for answer in [0, 4, 7, 50, 51, 52, 53] {
        assert!(given[&answer] > 1000, "{answer} was hardly given: {given:?}");
    }
}

/// Any bytes, of any length: rooms that are not sound are answer 1, before all else.
#[test]
fn any_bytes_as_rooms() {
    let mut random = Random::new(0x20B);
    let mut queue = Queue::new();
    let mut sound = 0;
    for _ in 0..300_000 {
        let len = random.pick(&[20, 20, 20, 20, 20, 20, 20, 19, 21, 0]);
        let mut bytes: Vec<u8> = (0..len).map(|_| random.word() as u8).collect();
        if len == ROOMS_LEN {
            for at in (0..ROOMS_LEN).step_by(5) {
                bytes[at] = random.pick(&[0, 0, 1, 1, 2, 2, 3]);
                bytes[at + 1] %= 4;
                bytes[at + 2] = 0;
                if random.one_in(8) {
                    bytes[at + 4] |= 0x40;
                } else {
                    bytes[at + 4] &= 0x3F;
                }
                if bytes[at] == 0 && !random.one_in(20) {
                    bytes[at..at + 5].fill(0);
                }
            }
        }
        let held = Rooms::unpack(&bytes);
        let is_sound = held.is_some_and(|rooms| rooms.sound());
        sound += u32::from(is_sound);
        let turn = match random.below(4) {
            0 => {
                Turn::Ask { number: random.below(5) as u16, call: 7, asked: random.below(9) as u8 }
            }
            1 => Turn::Pdu { number: random.below(5) as u16, call: 7, result: 0 },
            2 => Turn::Decide { number: random.below(5) as u16, what: random.below(6) as u8 },
            _ => Turn::Ended { call: 7 },
        };
        let (function, input) = turn.request();
        let request = Request::of(function, &bytes, &input, 28, 0x3C);
        let said = queue.check(&request, |rooms, _, out| turn.account(rooms, out));
        assert_eq!(said.answer == 1, !is_sound);
    }
    queue.finish();
    assert!(sound > 30_000, "{sound}");
}

#[test]
fn fresh_rooms_have_20_bytes() {
    let mut queue = Queue::new();
    for len in 0..=64 {
        let bytes = vec![0x5D; len];
        let request = Request::of(Function::ChannelFresh, &bytes, &[], 0, 0x5D);
        let said = queue.check(&request, |rooms, _, _| channel::fresh(rooms));
        assert_eq!(said.answer, u32::from(len != ROOMS_LEN));
    }
    queue.finish();
}

#[test]
fn nothing_beyond_the_lent_bytes_is_touched() {
    let mut random = Random::new(0x1E47);
    let mut queue = Queue::new();
    for _ in 0..3000 {
        let mut host = Host::new(&mut queue);
        host.places = [(); 3].map(|()| random.pick(&[Place::AtStart, Place::AtEnd]));
        for _ in 0..20 {
            let number = random.below(5) as u16;
            let turn = match random.below(6) {
                0..=2 => Turn::Ask { number, call: 3, asked: random.below(9) as u8 },
                3..=4 => Turn::Decide { number, what: random.below(6) as u8 },
                _ => Turn::Ended { call: 3 },
            };
            host.turn(turn, random.pick(&[0, 3, 4, 6, 7, 14, 28]));
        }
    }
    queue.finish();
}

#[test]
fn a_call_uses_less_than_512_bytes_of_stack() {
    let bytes = stack_used("tests/bridge/stack_channel.c", &[]);
    tell(&format!("{bytes} bytes of stack"));
    assert!((8..512).contains(&bytes), "{bytes} bytes of stack");
}
