//! Records that arrive in pieces: for every cutting of an input, library and account agree on each
//! call, and what comes out is what the whole input holds.
//!
//! What an input holds is told a second time here, from the whole of it and without a reader.

use callcontrol_tests::account::pieces::{self, Reader};
use callcontrol_tests::generate::{event, Bytes, Random};
use callcontrol_tests::programs::stack_used;
use callcontrol_tests::request::{Function, Place, Request};
use callcontrol_tests::sidebyside::{tell, Queue};

/// The records at the front of an input, the bytes behind them, and whether their length can't be
/// passed over, in which case nothing is carried.
#[derive(Debug, Default, PartialEq, Eq)]
struct Held {
    records: Vec<Vec<u8>>,
    carried: Vec<u8>,
    stopped: bool,
}

fn held(mut input: &[u8]) -> Held {
    let mut held = Held::default();
    while let [low, high, ..] = *input {
        let len = low as usize + 256 * high as usize;
        if !(4..=64).contains(&len) {
            held.stopped = true;
            return held;
        }
        if input.len() < len {
            break;
        }
        held.records.push(input[..len].to_vec());
        input = &input[len..];
    }
    held.carried = input.to_vec();
    held
}

/// A host with a serial line. Its carry is longer than it need be by `spare`.
struct Line<'a> {
    queue: &'a mut Queue,
    reader: [u8; 2],
    carry: Vec<u8>,
    places: [Place; 3],
    seen: Held,
    calls: u64,
}

impl<'a> Line<'a> {
    fn new(queue: &'a mut Queue, spare: usize) -> Line<'a> {
        let carry = vec![0xD7; 64 + spare];
        let places = [Place::Between; 3];
        let mut line =
            Line { queue, reader: [0xEE, 0xEE], carry, places, seen: Held::default(), calls: 0 };
        line.reset();
        line
    }

    fn reset(&mut self) {
        let request = Request::of(Function::PiecesFresh, &self.reader, &[], 0, 0x3B);
        let said = self.queue.check(&request, |reader, _, _| pieces::fresh(reader));
        assert_eq!((said.word, said.record), (2, &[0, 0][..]), "fresh counts its 2 bytes");
        self.reader = [0, 0];
    }

    /// One call: the answer, where the record is, its size, and the bytes used.
    fn next(&mut self, piece: &[u8]) -> (u32, u32, usize, usize) {
        let filler = self.calls as u8 ^ 0x96;
        let request =
            Request::of(Function::PiecesNext, &self.reader, piece, self.carry.len(), filler)
                .holding(&self.carry)
                .at(self.places);
        let said =
            self.queue.check(&request, |reader, piece, carry| pieces::next(reader, carry, piece));
        self.reader.copy_from_slice(said.record);
        self.carry.copy_from_slice(said.out);
        self.calls += 1;
        let word = said.word;
        (word >> 24, word >> 16 & 0xFF, (word >> 8 & 0xFF) as usize, (word & 0xFF) as usize)
    }

    /// `record_in` gives back, as a part of the carry or of the piece, the record that the numbers say.
    fn given_back(&mut self, lies: u32, size: usize, piece: &[u8], record: &[u8]) {
        let filler = self.calls as u8 ^ 0x69;
        let request = Request::of(Function::RecordIn, &self.carry, piece, 64, filler)
            .with(lies | (size as u32) << 8);
        let said = self.queue.check(&request, |_, _, out| {
            out[..size].copy_from_slice(record);
            size as u32
        });
        assert_eq!(said.written(), record, "the record handed on");
    }

    /// One piece, until nothing more is found in it. Gives the last answer.
    fn piece(&mut self, mut piece: &[u8]) -> u32 {
        loop {
            let carried_before = self.reader[0];
            let (answer, lies, size, used) = self.next(piece);
            if answer != 0 {
                assert_eq!((lies, size, used), (0, 0, 0), "a refusal hands nothing on");
                self.seen.stopped = true;
                return answer;
            }
            let record = match lies {
                0 => {
                    assert_eq!(used, piece.len(), "what is no whole record is carried");
                    self.given_back(0, 0, piece, &[]);
                    return 0;
                }
                1 => {
                    assert!(carried_before > 0, "in the carry only if it began there");
                    &self.carry[..size]
                }
                2 => {
                    assert_eq!(carried_before, 0, "in the piece only if it began there");
                    &piece[..size]
                }
                _ => panic!("{lies} says where a record is"),
            };
            let record = record.to_vec();
            self.given_back(lies, size, piece, &record);
            self.seen.records.push(record);
            piece = &piece[used..];
        }
    }

    /// What was seen of all pieces so far.
    fn seen(&mut self) -> &Held {
        self.seen.carried = self.carry[..self.reader[0] as usize].to_vec();
        self.seen.stopped = self.reader[1] == 1;
        &self.seen
    }
}

/// An input in the pieces that end at these places, each with an empty one before it or not.
fn expect_of_cutting(
    queue: &mut Queue,
    input: &[u8],
    ends: &[usize],
    empty: bool,
    spare: usize,
) -> u64 {
    let mut line = Line::new(queue, spare);
    let mut start = 0;
    for &end in ends.iter().chain([&input.len()]) {
        if empty {
            line.piece(&[]);
        }
        line.piece(&input[start..end]);
        start = end;
    }
    assert_eq!(*line.seen(), held(input), "{input:02x?} cut at {ends:?}");
    line.calls
}

fn record(len: usize, random: &mut Random) -> Vec<u8> {
    let mut record: Vec<u8> = (0..len).map(|_| random.byte()).collect();
    record[..2].copy_from_slice(&(len as u16).to_le_bytes());
    record
}

/// Lengths that can't be passed over, those beside the limits more often than others.
fn impossible(random: &mut Random) -> u16 {
    match random.below(3) {
        0 => random.pick(&[0, 1, 2, 3, 65, 66, 127, 128, 255, 256, 260, 0x0400, 0x4000, 65535]),
        1 => 65 + random.below(65536 - 65) as u16,
        _ => random.pick(&[3, 65]),
    }
}

/// Records one after another, of every length that is allowed, some of them events.
fn stream(random: &mut Random, about: usize, longest: usize) -> Vec<u8> {
    let mut stream = Vec::new();
    while stream.len() < about {
        if random.one_in(4) {
            let event = event(random, 1);
            stream.extend(Bytes::of_event(event).as_slice());
        } else {
            let len = 4 + random.below(longest - 3);
            stream.extend(record(len, random));
        }
    }
    stream
}

/// A stream that has a wrong length in it, is cut, has a byte changed, or is noise.
fn damaged_stream(random: &mut Random, about: usize) -> Vec<u8> {
    let mut bytes = stream(random, about, 64);
    match random.below(5) {
        0 => {
            // Before the first record, behind the last, or between two.
            let starts = record_starts(&bytes);
            let at = random.pick(&starts);
            let wrong = impossible(random).to_le_bytes();
            bytes.splice(at..at, wrong);
        }
        1 => {
            let len = random.below(bytes.len() + 1);
            bytes.truncate(len);
        }
        2 if !bytes.is_empty() => {
            let at = random.below(bytes.len());
            bytes[at] = random.byte();
        }
        3 if !bytes.is_empty() => {
            let at = random.below(bytes.len());
            bytes.remove(at);
        }
        _ => bytes.iter_mut().for_each(|byte| {
            // Mostly zeros, so that lengths are not all impossible.
            *byte = if random.flip() { 0 } else { random.below(72) as u8 }
        }),
    }
    bytes
}

fn record_starts(stream: &[u8]) -> Vec<usize> {
    let mut starts = vec![0];
    for record in held(stream).records {
        starts.push(starts[starts.len() - 1] + record.len());
    }
    starts
}

#[test]
fn every_cutting_of_short_inputs() {
    let mut random = Random::new(0xC077);
    let mut queue = Queue::new();
    let (mut cuttings, mut calls) = (0u64, 0u64);
    let mut inputs: Vec<Vec<u8>> = vec![
        vec![],
        vec![4],
        vec![4, 0, 0x01, 0x03],
        vec![4, 0, 0x01, 0x03, 5, 0, 0x04, 0x01, 1],
        vec![4, 0, 0x01, 0x03, 4, 0, 0x03, 0x03, 4, 0, 0x04, 0x03],
        vec![7, 0, 0x07, 0x02, 21, 0, 0, 4, 0, 0x01, 0x03, 4],
        // A length under 4 and one over 64, first, behind a record, and with its second byte missing.
        vec![3, 0, 0x01, 0x03, 4, 0],
        vec![65, 0, 0x01, 0x03],
        vec![4, 0, 0x01, 0x03, 3, 0, 4, 0, 0x01, 0x03],
        vec![4, 0, 0x01, 0x03, 65, 0, 4, 0, 0x01, 0x03],
        vec![4, 0, 0x01, 0x03, 4, 1, 4, 0, 0x01, 0x03],
        vec![4, 0, 0x01, 0x03, 0],
        // The longest that is allowed, not yet whole.
        vec![64, 0, 1, 2, 3, 4, 5, 6, 7, 8],
    ];
    for _ in 0..12 {
        inputs.push(stream(&mut random, 8, 5).into_iter().take(12).collect());
        inputs.push(damaged_stream(&mut random, 9).into_iter().take(11).collect());
    }
    for input in &inputs {
        let between = input.len().saturating_sub(1);
        for cut in 0..1u32 << between {
            let ends: Vec<usize> =
                (0..between).filter(|at| cut >> at & 1 == 1).map(|at| at + 1).collect();
            for empty in [false, true] {
                calls += expect_of_cutting(&mut queue, input, &ends, empty, 0);
                cuttings += 1;
            }
        }
    }
    queue.finish();
    tell(&format!("{} short inputs, {cuttings} cuttings, {calls} calls", inputs.len()));
}

/// Every place to cut a stream of long records once, and twice at neighbouring places.
#[test]
fn every_place_to_cut_long_records() {
    let mut random = Random::new(0x10E6);
    let mut queue = Queue::new();
    let input = [64, 63, 4, 64, 5, 33].map(|len| record(len, &mut random)).concat();
    for first in 0..=input.len() {
        expect_of_cutting(&mut queue, &input, &[first], false, 0);
        for second in first..=(first + 3).min(input.len()) {
            expect_of_cutting(&mut queue, &input, &[first, second], true, 7);
        }
    }
    // One byte at a time, and pieces of one size.
    for size in 1..=130 {
        let ends: Vec<usize> =
            (1..).map(|n| n * size).take_while(|&end| end < input.len()).collect();
        expect_of_cutting(&mut queue, &input, &ends, size % 2 == 0, 0);
    }
    queue.finish();
}

fn some_ends(random: &mut Random, len: usize, most: usize) -> Vec<usize> {
    let (mut ends, mut end) = (Vec::new(), 0);
    loop {
        end += random.below(most + 1);
        if end >= len {
            return ends;
        }
        ends.push(end);
        // A step of 0 is an empty piece, which must not go on for ever.
        if most == 0 {
            end += 1;
        }
    }
}

#[test]
fn random_streams_in_random_pieces() {
    let mut random = Random::new(0x57EA);
    let mut queue = Queue::new();
    let (mut calls, mut records, mut stopped, mut carrying) = (0u64, 0, 0, 0);
    for round in 0..40_000 {
        let about = random.below(300);
        let input = match round % 2 {
            0 => stream(&mut random, about, 64),
            _ => damaged_stream(&mut random, about),
        };
        let most = random.pick(&[1, 3, 10, 40, 64, 65, 130, 400]);
        let ends = some_ends(&mut random, input.len(), most);
        let (empty, spare) = (random.one_in(4), random.pick(&[0, 0, 1, 64]));
        calls += expect_of_cutting(&mut queue, &input, &ends, empty, spare);
        let held = held(&input);
        records += held.records.len();
        stopped += usize::from(held.stopped);
        carrying += usize::from(!held.carried.is_empty());
    }
    queue.finish();
    tell(&format!(
        "40000 streams, {calls} calls, {records} records; {stopped} stopped, {carrying} end with bytes carried"
    ));
    assert!(stopped > 1000 && carrying > 1000, "too few of one kind");
}

#[test]
fn pieces_of_up_to_70000_bytes() {
    let mut random = Random::new(0xB16);
    let mut queue = Queue::new();
    for size in [255, 256, 257, 1000, 4096, 65_535, 65_536, 65_537, 65_600, 70_000] {
        let mut input = stream(&mut random, 70_000, 64);
        input.truncate(70_000 + random.below(60));
        let ends: Vec<usize> =
            (1..).map(|n| n * size).take_while(|&end| end < input.len()).collect();
        expect_of_cutting(&mut queue, &input, &ends, false, 0);
    }
    // A large piece in which the first record began before, and one with a wrong length far in.
    let mut input = [&[64, 0][..], &stream(&mut random, 69_000, 64)].concat();
    expect_of_cutting(&mut queue, &input, &[1], false, 0);
    expect_of_cutting(&mut queue, &input, &[2], false, 0);
    input = stream(&mut random, 66_000, 64);
    input.extend([65, 0]);
    input.extend(stream(&mut random, 4000, 64));
    expect_of_cutting(&mut queue, &input, &[], false, 0);
    queue.finish();
}

/// No byte beside the lent ones is touched, not even read: memory that may not be touched lies on
/// one side of each.
#[test]
fn nothing_beyond_the_lent_bytes_is_touched() {
    let mut random = Random::new(0x0FFE);
    let mut queue = Queue::new();
    for _ in 0..4000 {
        let about = random.below(200);
        let input = damaged_stream(&mut random, about);
        let mut line = Line::new(&mut queue, 0);
        line.places = [(); 3].map(|()| random.pick(&[Place::AtStart, Place::AtEnd]));
        let mut start = 0;
        for end in some_ends(&mut random, input.len(), 40).into_iter().chain([input.len()]) {
            line.piece(&input[start..end]);
            start = end;
        }
        assert_eq!(*line.seen(), held(&input));
    }
    queue.finish();
}

#[test]
fn every_length_field_in_one_piece_and_over_two() {
    let mut queue = Queue::new();
    for len in 0..=65535u16 {
        let [low, high] = len.to_le_bytes();
        let answer = if (4..=64).contains(&len) { 0 } else { 20 };
        let whole = Line::new(&mut queue, 0).piece(&[low, high]);
        let mut line = Line::new(&mut queue, 0);
        assert_eq!(line.piece(&[low]), 0, "one byte says nothing yet");
        let second = line.piece(&[high]);
        assert_eq!((whole, second), (answer, answer), "length {len}");
        let reader = if answer == 0 { [2, 0] } else { [0, 1] };
        assert_eq!(line.reader, reader, "length {len}");
    }
    queue.finish();
}

#[test]
fn a_stopped_reader_refuses_every_piece_until_it_is_reset() {
    let mut random = Random::new(0x5709);
    let mut queue = Queue::new();
    for _ in 0..300 {
        let mut line = Line::new(&mut queue, 0);
        let before = stream(&mut random, 40, 20);
        assert_eq!(line.piece(&before), 0);
        let wrong = [&impossible(&mut random).to_le_bytes()[..], &before].concat();
        let cut = random.below(3);
        line.piece(&wrong[..cut]);
        line.piece(&wrong[cut..]);
        assert_eq!(line.reader, [0, 1], "it carries nothing and is stopped");
        let carry = line.carry.clone();
        for piece in [&[][..], &[4], &before, &wrong] {
            assert_eq!(line.piece(piece), 21);
        }
        assert_eq!((line.reader, &line.carry), ([0, 1], &carry));
        line.reset();
        line.seen = Held::default();
        line.piece(&before);
        assert_eq!(*line.seen(), held(&before), "after a reset nothing of the past is left");
    }
    queue.finish();
}

/// 1, then 22, 21 and 20, whatever else applies; and nothing is changed by them but by 20.
#[test]
fn refusals_come_in_their_order() {
    let mut queue = Queue::new();
    let wrong = [3, 0, 0x01, 0x03];
    let good = [4, 0, 0x01, 0x03];
    let mut expect = |reader: &[u8], carry_len: usize, piece: &[u8], answer: u32| {
        let carry = vec![0; carry_len];
        let request =
            Request::of(Function::PiecesNext, reader, piece, carry_len, 0x42).holding(&carry);
        let said = queue.check(&request, |reader, piece, carry| pieces::next(reader, carry, piece));
        assert_eq!(said.answer, answer, "{reader:?}, carry of {carry_len}, {piece:?}");
        if answer != 0 && answer != 20 {
            assert_eq!((said.record, said.out), (reader, &carry[..]));
        }
    };
    for piece in [&wrong[..], &good, &[]] {
        for carry_len in (0..=70).chain([128, 255, 256, 257, 320, 65_536, 65_599, 65_600]) {
            let room = carry_len >= 64;
            let open = match (room, piece == wrong) {
                (false, _) => 22,
                (true, true) => 20,
                (true, false) => 0,
            };
            expect(&[0, 0], carry_len, piece, open);
            for carried in 0..64 {
                expect(&[carried, 1], carry_len, piece, if room { 21 } else { 22 });
            }
            // Another length, more carried than a reader carries, and a flag that is none.
            for reader in [&[][..], &[0], &[0, 0, 0], &[0, 1, 0], &[0; 64]] {
                expect(reader, carry_len, piece, 1);
            }
            for over in 64..=255 {
                expect(&[over, 0], carry_len, piece, 1);
                expect(&[over, 1], carry_len, piece, 1);
            }
            for flag in 2..=255 {
                expect(&[0, flag], carry_len, piece, 1);
            }
        }
    }
    for len in 0..=40 {
        let reader = vec![0x99; len];
        let request = Request::of(Function::PiecesFresh, &reader, &[], 0, 0x99);
        let said = queue.check(&request, |reader, _, _| pieces::fresh(reader));
        assert_eq!(said.answer, u32::from(len != 2), "a reader of {len} bytes made fresh");
    }
    queue.finish();
}

/// Every number of bytes carried, with every length they can begin and every size of the next piece.
#[test]
fn every_carry_that_a_run_can_leave() {
    let mut random = Random::new(0xCA44);
    let mut queue = Queue::new();
    let mut calls = 0u64;
    for len in 4..=64 {
        let whole = [record(len, &mut random), record(64, &mut random)].concat();
        for carried in 1..len {
            for more in (0..=len - carried + 1).chain([len - carried + 64]) {
                let mut line = Line::new(&mut queue, 0);
                line.piece(&whole[..carried]);
                assert_eq!(Reader::unpack(&line.reader), Some(Reader { carried, stopped: false }));
                line.piece(&whole[carried..][..more]);
                assert_eq!(*line.seen(), held(&whole[..carried + more]));
                calls += line.calls;
            }
        }
    }
    queue.finish();
    tell(&format!("{calls} calls with a carry"));
}

#[test]
fn a_call_uses_less_than_512_bytes_of_stack() {
    let mut random = Random::new(0x57AC);
    let mut tape = Vec::new();
    for _ in 0..2000 {
        let input = damaged_stream(&mut random, 200);
        let mut start = 0;
        for end in some_ends(&mut random, input.len(), 90).into_iter().chain([input.len()]) {
            tape.extend(((end - start) as u32).to_le_bytes());
            tape.extend(&input[start..end]);
            start = end;
        }
    }
    let bytes = stack_used("tests/bridge/stack_pieces.c", &tape);
    tell(&format!("{bytes} bytes of stack"));
    // A call that used next to nothing would not have been made.
    assert!((8..512).contains(&bytes), "{bytes} bytes of stack");
}

/// Carries that no run leaves, since the host wrote to them: library and account still agree, and a
/// length that is not above the bytes carried is impossible, also with an empty piece.
#[test]
fn a_carry_that_the_host_has_spoiled() {
    let mut random = Random::new(0x5901);
    let mut queue = Queue::new();
    let (mut handed_on, mut within) = (0, 0);
    for _ in 0..200_000 {
        let carried = random.below(64) as u8;
        let mut carry: Vec<u8> = (0..64 + random.below(3)).map(|_| random.byte()).collect();
        carry[0] = random.below(80) as u8;
        carry[1] = random.pick(&[0, 0, 0, 1]);
        let piece = if random.one_in(4) { 0 } else { random.below(80) };
        let piece: Vec<u8> = (0..piece).map(|_| random.below(70) as u8).collect();
        let places = [(); 3].map(|()| random.pick(&[Place::Between, Place::AtStart, Place::AtEnd]));
        let reader = [carried, 0];
        let request =
            Request::of(Function::PiecesNext, &reader, &piece, carry.len(), random.byte())
                .holding(&carry)
                .at(places);
        let said = queue.check(&request, |reader, piece, carry| pieces::next(reader, carry, piece));
        let [used, size, lies, answer] = said.word.to_le_bytes();
        let after = Reader::unpack(said.record).expect("a reader is given back");
        if carry[1] == 0 && carried >= 2 && (4..=carried).contains(&carry[0]) {
            assert_eq!(answer, 20, "{carried} carried of a record of {}", carry[0]);
            within += 1;
        }
        match (answer, lies) {
            (0, 0) => assert_eq!(size, 0),
            (0, 1) => assert!((4..=64).contains(&size) && after == Reader::FRESH),
            (0, 2) => assert!((4..=piece.len().min(64)).contains(&(size as usize))),
            (20, 0) => {
                assert_eq!((size, used, after), (0, 0, Reader { carried: 0, stopped: true }))
            }
            _ => panic!("answer {answer}, and {lies} says where the record is"),
        }
        assert!(used as usize <= piece.len());
        handed_on += u32::from(answer == 0 && lies != 0);
    }
    queue.finish();
    assert!(handed_on > 10_000 && within > 10_000, "{handed_on} handed on, {within} impossible");
}
