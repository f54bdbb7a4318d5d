//! Readers and writers: every record in range is read and written back as it was, and every
//! length, kind, body size or field out of range gives its answer, with 4 its place, and changes no
//! byte.

use callcontrol_tests::account::{boundary, Call, State};
use callcontrol_tests::generate::{self, Bytes, Random};
use callcontrol_tests::library;
use callcontrol_tests::request::{Function, Request};
use callcontrol_tests::sidebyside::{tell, Queue};

/// The letters of a body, with their sizes and ranges, taken from the paper a second time: as a
/// table, apart from the account's readers.
#[derive(Clone, Copy, PartialEq)]
enum Letter {
    /// i, 1..16383.
    I,
    /// i where 0 is allowed.
    I0,
    /// a, where 0 is refused.
    A,
    /// a, 0 for unknown.
    A0,
    /// g.
    G,
    /// d, q, r or k.
    Bit,
    /// o.
    O,
    /// o, or 16 for absent.
    O16,
    /// n.
    N,
    /// n and o of START: o is 0 but for T310.
    NO,
    C,
    P,
    X,
    /// The place of a console, 0..7.
    Place,
    /// Slots per frame, 1..4.
    S,
    /// A question's number, any.
    U,
    /// What it is answered, 0..2.
    V,
}

use Letter::*;

const TIMERS: [u64; 7] = [301, 302, 303, 306, 308, 310, 311];

impl Letter {
    fn size(self) -> usize {
        match self {
            A | A0 => 4,
            I | I0 | N | U => 2,
            NO => 3,
            _ => 1,
        }
    }

    fn allows(self, value: u64) -> bool {
        match self {
            I => (1..=16383).contains(&value),
            I0 => value <= 16383,
            A => (1..=16_777_215).contains(&value),
            A0 => value <= 16_777_215,
            G => value <= 3,
            Bit => value <= 1,
            O => value <= 15,
            O16 => value <= 16,
            N => TIMERS.contains(&value),
            NO => {
                let (n, o) = (value & 0xFFFF, value >> 16);
                TIMERS.contains(&n) && o <= if n == 310 { 15 } else { 0 }
            }
            C | P | S => (1..=4).contains(&value),
            X => value <= 8,
            Place => value <= 7,
            U => value <= 65535,
            V => value <= 2,
        }
    }

    /// Where in the letter the first bad field begins.
    fn bad_at(self, value: u64) -> Option<usize> {
        match self {
            _ if self.allows(value) => None,
            // n is good, so it is o that does not suit it.
            NO if TIMERS.contains(&(value & 0xFFFF)) => Some(2),
            _ => Some(0),
        }
    }

    /// Values at and around every edge of the range, in and out of it.
    fn edges(self) -> Vec<u64> {
        match self {
            I | I0 | U => vec![0, 1, 2, 255, 256, 16382, 16383, 16384, 16385, 32768, 65535],
            A | A0 => vec![
                0,
                1,
                2,
                255,
                256,
                65535,
                65536,
                16_777_214,
                16_777_215,
                16_777_216,
                16_777_217,
                0x8000_0000,
                0xFFFF_FFFF,
            ],
            N => (0..=65535).filter(|n| *n < 2 || *n > 65533 || (290..=330).contains(n)).collect(),
            NO => {
                let mut edges = Vec::new();
                for n in [0, 300, 301, 302, 303, 304, 305, 306, 307, 308, 309, 310, 311, 312, 65535]
                {
                    for o in [0, 1, 2, 14, 15, 16, 17, 128, 255] {
                        edges.push(n | o << 16);
                    }
                }
                edges
            }
            _ => (0..=255).collect(),
        }
    }
}

/// A kind that may carry slots has a line for each of its two bodies.
#[rustfmt::skip]
const EVENTS: &[(u16, &[Letter])] = &[
    (0x0101, &[A, Bit, Bit]), (0x0101, &[A, Bit, Bit, S]), (0x0102, &[]), (0x0103, &[]), (0x0104, &[Bit]),
    (0x0201, &[I]), (0x0202, &[I]), (0x0203, &[I, G, Bit, O]), (0x0203, &[I, G, Bit, O, S]),
    (0x0204, &[I, G, O]), (0x0205, &[I, A0, Bit]),
    (0x0206, &[I, Bit, O16, Bit]), (0x0206, &[I, Bit, O16, Bit, S]), (0x0207, &[I, G]), (0x0208, &[I]),
    (0x0209, &[I, G]), (0x020A, &[I]), (0x020B, &[I, Bit]), (0x020C, &[I, G, Bit, O16]),
    (0x020D, &[I0]), (0x020E, &[I0]),
    (0x0301, &[]), (0x0302, &[]), (0x0303, &[]), (0x0304, &[]),
    (0x0401, &[N]),
];

#[rustfmt::skip]
const MESSAGES: &[(u16, &[Letter])] = &[
    (0x0501, &[A, Bit, Bit]), (0x0501, &[A, Bit, Bit, S]), (0x0502, &[I]), (0x0503, &[I0, C]), (0x0504, &[I0]),
    (0x0505, &[I, Bit]), (0x0506, &[I]), (0x0507, &[I]), (0x0508, &[I, A0, Bit]),
    (0x0601, &[N]), (0x0602, &[NO]), (0x0603, &[P]), (0x0604, &[]), (0x0605, &[Place]), (0x0606, &[U, V]),
    (0x0701, &[I, A0, Bit]), (0x0702, &[I, G]), (0x0703, &[]), (0x0704, &[]), (0x0705, &[G]),
    (0x0706, &[C]), (0x0707, &[]), (0x0708, &[X]), (0x0709, &[Bit, S]),
];

/// What the readers give for a body of the right size: answer and place of the first bad field.
fn expected(letters: &[Letter], values: &[u64]) -> Expected {
    let mut at = 4;
    for (letter, &value) in letters.iter().zip(values) {
        if let Some(within) = letter.bad_at(value) {
            return bad(at + within);
        }
        at += letter.size();
    }
    TAKEN
}

fn size_of(letters: &[Letter]) -> usize {
    letters.iter().map(|letter| letter.size()).sum()
}

/// Answer and place.
type Expected = (u32, usize);

const TAKEN: Expected = (0, 0);
const LENGTH: Expected = (2, 0);
const KIND: Expected = (3, 0);
const RETIRED: Expected = (9, 0);
/// MODIFY request, an event no more.
const MODIFY_REQUEST: u16 = 0x0105;
/// A body of a wrong size is bad at 2.
const SIZE: Expected = (4, 2);

fn bad(place: usize) -> Expected {
    (4, place)
}

fn word((answer, place): Expected) -> u32 {
    answer << 24 | (place as u32) << 16
}

/// One of the two readers with its writer, library and account.
struct Side {
    name: &'static str,
    kinds: &'static [(u16, &'static [Letter])],
    check: Function,
    copy: Function,
    account_check: fn(&[u8]) -> u32,
    account_copy: fn(&[u8], &mut [u8]) -> u32,
}

const SIDES: [Side; 2] = [
    Side {
        name: "event",
        kinds: EVENTS,
        check: Function::CheckEvent,
        copy: Function::CopyEvent,
        account_check: boundary::check_event,
        account_copy: boundary::copy_event,
    },
    Side {
        name: "message",
        kinds: MESSAGES,
        check: Function::CheckMessage,
        copy: Function::CopyMessage,
        account_check: boundary::check_message,
        account_copy: boundary::copy_message,
    },
];

impl Side {
    /// The letters of a body of this kind and size.
    fn letters(&self, kind: u16, size: usize) -> Option<&'static [Letter]> {
        let fits = |line: &&(u16, &[Letter])| line.0 == kind && size_of(line.1) == size;
        self.kinds.iter().find(fits).map(|line| line.1)
    }

    /// Whether the reader of this side answers 9 to this kind.
    fn retires(&self, kind: u16) -> bool {
        self.check == Function::CheckEvent && kind == MODIFY_REQUEST
    }

    /// Hands `bytes` to the library's reader and, with every length of buffer that matters, to
    /// its writer, and compares with `expected` and with the account.
    fn expect(&self, queue: &mut Queue, bytes: &[u8], expected: Expected) {
        let filler = 0xC3u8.wrapping_add(bytes.len() as u8);
        self.expect_of_reader(queue, bytes, expected);
        if self.check == Function::CheckEvent {
            for state in State::ALL.into_iter().filter(|&state| state != State::Idle) {
                let call = Call { state, identifier: 1, ..Call::FRESH };
                queue.step(&call.pack(), bytes, 64, filler);
            }
        }
        let longest = if expected == TAKEN { bytes.len() + 2 } else { 12 };
        for out_len in 0..=longest {
            queue.check(&Request::copy(self.copy, bytes, out_len, filler), |_, bytes, out| {
                let mut said = out.to_vec();
                let word = match expected {
                    TAKEN if out_len >= bytes.len() => {
                        out[..bytes.len()].copy_from_slice(bytes);
                        bytes.len() as u32
                    }
                    TAKEN => word((7, 0)),
                    refusal => word(refusal),
                };
                assert_eq!((self.account_copy)(bytes, &mut said), word, "account's {}", self.name);
                assert_eq!(said, out, "account's copy of {}", self.name);
                word
            });
        }
    }

    /// An event is handed to the step too: the second engine reads it by a table of its own.
    fn expect_of_reader(&self, queue: &mut Queue, bytes: &[u8], expected: Expected) {
        let filler = 0xC3u8.wrapping_add(bytes.len() as u8);
        if self.check == Function::CheckEvent {
            let step = queue.step(&Call::FRESH.pack(), bytes, 64, filler);
            let read = if matches!(step.answer, 5 | 6) { 0 } else { step.answer };
            assert_eq!((read, step.place as usize), expected, "a step reads as the reader does");
        }
        queue.check(&Request::check(self.check, bytes, filler), |_, bytes, _| {
            assert_eq!((self.account_check)(bytes), word(expected), "account's {}", self.name);
            word(expected)
        });
    }
}

fn record(kind: u16, letters: &[Letter], values: &[u64]) -> Vec<u8> {
    let mut bytes = vec![0, 0];
    bytes.extend(kind.to_le_bytes());
    for (letter, value) in letters.iter().zip(values) {
        bytes.extend(&value.to_le_bytes()[..letter.size()]);
    }
    let len = bytes.len() as u16;
    bytes[..2].copy_from_slice(&len.to_le_bytes());
    bytes
}

fn with_length_field(bytes: &[u8], len: u16) -> Vec<u8> {
    let mut bytes = bytes.to_vec();
    bytes[..2].copy_from_slice(&len.to_le_bytes());
    bytes
}

/// One value in range for each letter, different from letter to letter.
fn some_values(letters: &[Letter], random: &mut Random) -> Vec<u64> {
    letters
        .iter()
        .map(|letter| {
            let allowed: Vec<u64> =
                letter.edges().into_iter().filter(|&value| letter.allows(value)).collect();
            random.pick(&allowed)
        })
        .collect()
}

#[test]
fn every_combination_of_edge_values_is_read_exactly_when_each_is_in_range() {
    let mut queue = Queue::new();
    let mut tried = 0u64;
    for side in &SIDES {
        for &(kind, letters) in side.kinds {
            // A few edges per letter where all combinations would be too many.
            let edges: Vec<Vec<u64>> = letters
                .iter()
                .map(|letter| match letter {
                    Bit | G | C | P | V => (0..=5).chain([255]).collect(),
                    S => vec![0, 1, 4, 5, 255],
                    O | O16 => vec![0, 1, 3, 14, 15, 16, 17, 255],
                    X | Place => (0..=10).chain([255]).collect(),
                    _ => letter.edges(),
                })
                .collect();
            let mut at = vec![0; letters.len()];
            loop {
                let values: Vec<u64> = edges.iter().zip(&at).map(|(edge, &at)| edge[at]).collect();
                let expected = expected(letters, &values);
                side.expect(&mut queue, &record(kind, letters, &values), expected);
                tried += 1;
                let Some(place) = (0..at.len()).find(|&place| at[place] + 1 < edges[place].len())
                else {
                    break;
                };
                at[place] += 1;
                at[..place].fill(0);
            }
        }
    }
    queue.finish();
    tell(&format!("{tried} combinations of edge values"));
}

#[test]
fn each_field_alone_over_all_its_edges() {
    let mut queue = Queue::new();
    let mut random = Random::new(0xF1E1D);
    for side in &SIDES {
        for &(kind, letters) in side.kinds {
            for (place, letter) in letters.iter().enumerate() {
                let others = some_values(letters, &mut random);
                for value in letter.edges() {
                    let mut values = others.clone();
                    values[place] = value;
                    let expected = expected(letters, &values);
                    assert_eq!(expected == TAKEN, letter.allows(value));
                    side.expect(&mut queue, &record(kind, letters, &values), expected);
                }
            }
        }
    }
    queue.finish();
}

/// Two fields at every edge of their ranges, all others in range: the place is that of the first.
#[test]
fn each_pair_of_fields_over_all_their_edges() {
    let mut queue = Queue::new();
    let mut random = Random::new(0x9A145);
    let (mut pairs, mut both_bad) = (0u64, 0u64);
    for side in &SIDES {
        for &(kind, letters) in side.kinds {
            for second in 0..letters.len() {
                for first in 0..second {
                    let others = some_values(letters, &mut random);
                    for one in letters[first].edges() {
                        for other in letters[second].edges() {
                            let mut values = others.clone();
                            (values[first], values[second]) = (one, other);
                            let expected = expected(letters, &values);
                            side.expect_of_reader(
                                &mut queue,
                                &record(kind, letters, &values),
                                expected,
                            );
                            let place: usize =
                                letters[..first].iter().map(|letter| letter.size()).sum();
                            if !letters[first].allows(one) && !letters[second].allows(other) {
                                assert_eq!(expected, bad(4 + place), "the first of the two");
                                both_bad += 1;
                            }
                            pairs += 1;
                        }
                    }
                }
            }
        }
    }
    queue.finish();
    tell(&format!("{pairs} pairs of fields, both bad in {both_bad}"));
    assert!(both_bad > 0);
}

/// Written out by hand, with the offsets counted in the bytes.
#[test]
fn places_counted_by_hand() {
    let mut queue = Queue::new();
    let [events, messages] = &SIDES;
    let mut event = |bytes: &[u8], place| events.expect(&mut queue, bytes, bad(place));
    // SETUP request a d q: a at 4, d at 8, q at 9.
    event(&[10, 0, 0x01, 0x01, 0, 0, 0, 0, 2, 2], 4);
    event(&[10, 0, 0x01, 0x01, 7, 0, 0, 0, 2, 2], 8);
    event(&[10, 0, 0x01, 0x01, 7, 0, 0, 0, 1, 2], 9);
    // D-CONNECT i g d o: i at 4, g at 6, d at 7, o at 8.
    event(&[9, 0, 0x03, 0x02, 0, 0x40, 4, 2, 16], 4);
    event(&[9, 0, 0x03, 0x02, 1, 0, 4, 2, 16], 6);
    event(&[9, 0, 0x03, 0x02, 1, 0, 3, 2, 16], 7);
    event(&[9, 0, 0x03, 0x02, 1, 0, 3, 1, 16], 8);
    // D-SETUP i a d: i at 4, a at 6, d at 10.
    event(&[11, 0, 0x05, 0x02, 0, 0, 0, 0, 0, 1, 2], 4);
    event(&[11, 0, 0x05, 0x02, 1, 0, 0, 0, 0, 1, 2], 6);
    event(&[11, 0, 0x05, 0x02, 1, 0, 0, 0, 0, 0, 2], 10);
    // D-INFO i r o d: o at 7, where 16 is absent and 17 is bad.
    event(&[9, 0, 0x06, 0x02, 1, 0, 2, 17, 2], 6);
    event(&[9, 0, 0x06, 0x02, 1, 0, 1, 17, 2], 7);
    event(&[9, 0, 0x06, 0x02, 1, 0, 1, 16, 2], 8);
    event(&[6, 0, 0x01, 0x04, 0x31, 0x01], 4);
    // Slots at the end of a longer body: at 10 in SETUP request, at 9 in D-CONNECT and D-INFO.
    for s in [0, 5, 255] {
        event(&[11, 0, 0x01, 0x01, 7, 0, 0, 0, 1, 1, s], 10);
        event(&[10, 0, 0x03, 0x02, 1, 0, 3, 1, 15, s], 9);
        event(&[10, 0, 0x06, 0x02, 1, 0, 1, 16, 1, s], 9);
    }
    event(&[11, 0, 0x01, 0x01, 7, 0, 0, 0, 1, 2, 5], 9);
    event(&[10, 0, 0x03, 0x02, 1, 0, 3, 1, 16, 0], 8);
    // A size that is neither of the two; and no other kind has a second.
    event(&[12, 0, 0x01, 0x01, 7, 0, 0, 0, 1, 1, 4, 4], 2);
    event(&[8, 0, 0x03, 0x02, 1, 0, 3, 1], 2);
    event(&[11, 0, 0x06, 0x02, 1, 0, 1, 16, 1, 4, 4], 2);
    event(&[9, 0, 0x04, 0x02, 1, 0, 3, 15, 4], 2);
    event(&[12, 0, 0x05, 0x02, 1, 0, 9, 0, 0, 0, 1, 4], 2);
    event(&[10, 0, 0x0C, 0x02, 1, 0, 3, 1, 16, 4], 2);
    // The size comes before the fields.
    event(&[9, 0, 0x01, 0x01, 0, 0, 0, 0, 2], 2);
    event(&[5, 0, 0x02, 0x01, 0xFF], 2);
    event(&[4, 0, 0x01, 0x02], 2);
    let mut message = |bytes: &[u8], place| messages.expect(&mut queue, bytes, bad(place));
    // START n o: n at 4; o at 6, also where it does not suit its n.
    message(&[7, 0, 0x02, 0x06, 0x31, 0x01, 1], 4);
    message(&[7, 0, 0x02, 0x06, 0x2D, 0x01, 1], 6);
    message(&[7, 0, 0x02, 0x06, 0x36, 0x01, 16], 6);
    // U-DISCONNECT i c, U-CALL RESTORE i a q.
    message(&[7, 0, 0x03, 0x05, 0, 0, 0], 6);
    message(&[11, 0, 0x08, 0x05, 1, 0, 0, 0, 0, 1, 2], 6);
    message(&[11, 0, 0x08, 0x05, 1, 0, 0, 0, 0, 0, 2], 10);
    message(&[4, 0, 0x03, 0x06], 2);
    // 0606 u v: v at 6.
    message(&[7, 0, 0x06, 0x06, 0xFF, 0xFF, 3], 6);
    // U-SETUP with slots, at 10; MODIFY indication d s always has them, at 5.
    message(&[11, 0, 0x01, 0x05, 7, 0, 0, 0, 1, 1, 5], 10);
    message(&[11, 0, 0x01, 0x05, 7, 0, 0, 0, 1, 1, 0], 10);
    message(&[12, 0, 0x01, 0x05, 7, 0, 0, 0, 1, 1, 1, 1], 2);
    message(&[6, 0, 0x09, 0x07, 2, 5], 4);
    message(&[6, 0, 0x09, 0x07, 1, 5], 5);
    message(&[6, 0, 0x09, 0x07, 0, 0], 5);
    message(&[5, 0, 0x09, 0x07, 1], 2);
    queue.finish();
}

#[test]
fn random_records_in_range_come_back_as_they_were() {
    let mut queue = Queue::new();
    let mut random = Random::new(0x0DD5EED);
    for _ in 0..200_000 {
        let i = if random.one_in(8) { 0 } else { generate::identifier(&mut random) };
        let event = Bytes::of_event(generate::event(&mut random, i));
        SIDES[0].expect(&mut queue, event.as_slice(), TAKEN);
        let message = Bytes::of_message(generate::message(&mut random));
        SIDES[1].expect(&mut queue, message.as_slice(), TAKEN);
        // Neither reader takes the other's records.
        SIDES[0].expect(&mut queue, message.as_slice(), KIND);
        SIDES[1].expect(&mut queue, event.as_slice(), KIND);
    }
    queue.finish();
}

#[test]
fn damaged_records_get_the_accounts_answer() {
    let mut queue = Queue::new();
    let mut random = Random::new(0xBAD);
    let mut answers = [0u64; 10];
    for _ in 0..1_000_000 {
        let i = generate::identifier(&mut random);
        let event = generate::event(&mut random, i);
        let bytes = generate::damaged_event(&mut random, event);
        for side in &SIDES {
            let word = (side.account_check)(bytes.as_slice());
            let (answer, _) = library::split(word);
            answers[answer as usize] += 1;
            side.expect_of_reader(
                &mut queue,
                bytes.as_slice(),
                (answer, library::place(word) as usize),
            );
        }
    }
    queue.finish();
    tell(&format!("damaged records by answer {answers:?}"));
    for answer in [0, 2, 3, 9, 4] {
        assert!(answers[answer] > 0, "answer {answer} was never seen");
    }
}

/// 0105 is no event, whatever its body: 9 with place 0, behind 2 and before 4. It is no message either,
/// and its neighbours are what they were; U-INFO, which it used to lead to, is still read and written.
#[test]
fn modify_request_is_retired() {
    let mut queue = Queue::new();
    let [events, messages] = &SIDES;
    for len in 4..=64u8 {
        for filler in [0, 1, 2, 255] {
            let mut bytes = vec![filler; len.into()];
            bytes[..4].copy_from_slice(&[len, 0, 0x05, 0x01]);
            events.expect(&mut queue, &bytes, RETIRED);
            messages.expect(&mut queue, &bytes, KIND);
            bytes[0] = len + 1;
            events.expect(&mut queue, &bytes, LENGTH);
        }
    }
    events.expect(&mut queue, &[5, 0, 0x04, 0x01, 2], bad(4));
    events.expect(&mut queue, &[5, 0, 0x06, 0x01, 1], KIND);
    events.expect(&mut queue, &[5, 0, 0x05, 0x02, 1], SIZE);
    for d in [0, 1] {
        messages.expect(&mut queue, &[7, 0, 0x05, 0x05, 21, 0, d], TAKEN);
        events.expect(&mut queue, &[7, 0, 0x05, 0x05, 21, 0, d], KIND);
    }
    messages.expect(&mut queue, &[7, 0, 0x05, 0x05, 21, 0, 2], bad(6));
    queue.finish();
}

#[test]
fn every_wrong_length_is_2() {
    let mut queue = Queue::new();
    let mut random = Random::new(0x1E46);
    for side in &SIDES {
        for &(kind, letters) in side.kinds {
            let whole = record(kind, letters, &some_values(letters, &mut random));
            // Fewer bytes handed in than the field says, or under 4.
            for len in 0..whole.len() {
                side.expect(&mut queue, &whole[..len], LENGTH);
            }
            // More bytes handed in than the field says.
            for more in 1..=8 {
                let mut long = whole.clone();
                long.extend(vec![0; more]);
                side.expect(&mut queue, &long, LENGTH);
            }
            // A field that says something else of the same bytes.
            for len in (0..=40).chain([255, 256, 0x0400, 0x0A00, 65535]) {
                if len as usize != whole.len() {
                    side.expect(&mut queue, &with_length_field(&whole, len), LENGTH);
                }
            }
        }
        // A length under 4 is 2 even where it is what was handed in.
        side.expect(&mut queue, &[], LENGTH);
        side.expect(&mut queue, &[1], LENGTH);
        side.expect(&mut queue, &[2, 0], LENGTH);
        side.expect(&mut queue, &[3, 0, 3], LENGTH);
        // The wrong length comes before the wrong kind and the wrong body.
        side.expect(&mut queue, &[5, 0, 0xFF, 0xFF], LENGTH);
        side.expect(&mut queue, &[9, 0, 0x01, 0x02, 0xFF, 0xFF], LENGTH);
    }
    queue.finish();
}

#[test]
fn a_length_is_never_taken_modulo_65536() {
    let mut queue = Queue::new();
    for side in &SIDES {
        for &(kind, letters) in side.kinds {
            let whole = record(kind, letters, &some_values(letters, &mut Random::new(1)));
            let mut long = whole.clone();
            long.resize(65536 + whole.len(), 0);
            side.expect(&mut queue, &long, LENGTH);
        }
        for len in [65535usize, 65536, 65537, 65540, 131_072, 131_076] {
            let mut bytes = vec![0u8; len];
            bytes[..4].copy_from_slice(&[0xFF, 0xFF, 0xFF, 0xFF]);
            side.expect(&mut queue, &bytes, if len == 65535 { KIND } else { LENGTH });
            let kind = side.kinds[1].0;
            bytes[2..4].copy_from_slice(&kind.to_le_bytes());
            side.expect(&mut queue, &bytes, if len == 65535 { SIZE } else { LENGTH });
        }
    }
    queue.finish();
}

#[test]
fn each_body_size_but_the_right_one_is_4() {
    let mut queue = Queue::new();
    let mut random = Random::new(0xB0D1);
    for side in &SIDES {
        for &(kind, letters) in side.kinds {
            let whole = record(kind, letters, &some_values(letters, &mut random));
            for len in 4..=40 {
                let mut bytes = whole.clone();
                bytes.resize(len, 1);
                // One byte more or less may be the kind's other body: 1 is in range for slots.
                let fits = side.letters(kind, len - 4).is_some();
                let expected = if fits { TAKEN } else { SIZE };
                side.expect(&mut queue, &with_length_field(&bytes, len as u16), expected);
                // The size is checked before the fields: 255 is in range for none of them.
                if !fits {
                    bytes[4..].fill(255);
                    side.expect(&mut queue, &with_length_field(&bytes, len as u16), SIZE);
                }
            }
        }
    }
    queue.finish();
}

#[test]
fn all_65536_kinds_with_several_body_sizes() {
    let mut queue = Queue::new();
    let mut taken = 0;
    for side in &SIDES {
        for kind in 0..=0xFFFFu16 {
            let known = side.kinds.iter().find(|(known, _)| *known == kind);
            for body_len in 0..=9 {
                // All ones is in range for every letter but n, so a known kind may also be 0.
                let mut bytes = vec![1u8; 4 + body_len];
                bytes[..2].copy_from_slice(&(4 + body_len as u16).to_le_bytes());
                bytes[2..4].copy_from_slice(&kind.to_le_bytes());
                let expected = match (known, side.letters(kind, body_len)) {
                    _ if side.retires(kind) => RETIRED,
                    (None, _) => KIND,
                    (_, None) => SIZE,
                    (_, Some(letters)) => {
                        // 01 01 01 01 is an address over its range, and it never stands behind n.
                        let out_of_range = |letter: &Letter| matches!(letter, N | NO | A | A0);
                        let before = letters.iter().take_while(|letter| !out_of_range(letter));
                        if letters.iter().any(out_of_range) {
                            bad(4 + before.map(|letter| letter.size()).sum::<usize>())
                        } else {
                            TAKEN
                        }
                    }
                };
                taken += u32::from(expected == TAKEN);
                if known.is_some() {
                    side.expect(&mut queue, &bytes, expected);
                } else {
                    side.expect_of_reader(&mut queue, &bytes, expected);
                    queue.check(&Request::copy(side.copy, &bytes, 16, 0x7E), |_, _, _| {
                        word(expected)
                    });
                }
            }
        }
    }
    queue.finish();
    assert!(taken > 0);
}

#[test]
fn fresh_is_written_only_to_22_bytes() {
    let mut queue = Queue::new();
    for len in 0..=64 {
        queue.check(&Request::fresh(&vec![0x99; len], 0x99), |record, _, _| {
            if len != 22 {
                return word((1, 0));
            }
            record[..21]
                .copy_from_slice(&[0, 0, 0, 0, 0, 0, 0, 0, 0, 0, 0, 4, 4, 0, 0, 0, 0, 0, 0, 0, 0]);
            record[21] = 1;
            22
        });
    }
    queue.finish();
}
