//! The bank of timers: library and account agree on every call, on runs through many wraps of the
//! counter, and each timer is handed out at the first accepted reading at or after its deadline.
//!
//! The account keeps 64-bit time over a whole run; the library has 39 bytes. What one call hands out is
//! held once more against the orders given, in true time, without the account.

use callcontrol_tests::account::bank::{Bank, Refusal, BANK_LEN, LONGEST, TABLE_LEN};
use callcontrol_tests::account::{bank, Timer};
use callcontrol_tests::generate::Random;
use callcontrol_tests::programs::stack_used;
use callcontrol_tests::request::{Function, Place, Request};
use callcontrol_tests::sidebyside::{tell, Queue};

const TIMERS: [u16; 7] = [301, 302, 303, 306, 308, 310, 311];
const WRAP: u64 = 1 << 32;
const HALF: u64 = 1 << 31;

/// The table's place for a timer, as the header's order has it.
fn entry(timer: u16, code: u8) -> usize {
    match timer {
        310 => 6 + code as usize,
        _ => {
            [301, 302, 303, 306, 308, 311].iter().position(|&known| known == timer).expect("known")
        }
    }
}

/// A table in which every entry has this length.
fn all(length: u32) -> [u32; TABLE_LEN] {
    [length; TABLE_LEN]
}

/// A host that runs its timers by the bank, with the same bank in 64-bit time beside it.
struct Host<'a> {
    queue: &'a mut Queue,
    bytes: [u8; BANK_LEN],
    truth: Bank,
    /// True deadlines, by the orders given alone.
    ordered: [Option<u64>; 7],
    places: [Place; 3],
    calls: u64,
}

impl<'a> Host<'a> {
    fn new(queue: &'a mut Queue, now: u64) -> Host<'a> {
        let truth = Bank::new(now);
        let request =
            Request::of(Function::BankNew, &[0xEE; BANK_LEN], &[], 0, 0xEE).with(now as u32);
        let said = queue.check(&request, |bank, _, _| {
            bank.copy_from_slice(&truth.pack());
            BANK_LEN as u32
        });
        let bytes = said.record.try_into().expect("still 39 bytes");
        let places = [Place::Between; 3];
        Host { queue, bytes, truth, ordered: [None; 7], places, calls: 0 }
    }

    /// One call, which is expected to do to the bytes what `order` does in 64-bit time.
    fn call(
        &mut self,
        function: Function,
        number: u32,
        table: &[u32],
        list: usize,
        order: impl FnOnce(&mut Bank, &mut [u16]) -> Result<usize, Refusal>,
    ) -> (u32, Vec<u16>) {
        let table: Vec<u8> = table.iter().flat_map(|length| length.to_le_bytes()).collect();
        let filler = (self.calls as u8).wrapping_mul(37);
        let request = Request::of(function, &self.bytes, &table, 2 * list, filler)
            .with(number)
            .at(self.places);
        let truth = &mut self.truth;
        let said = self.queue.check(&request, |bank, _, out| {
            let mut due = vec![u16::from_le_bytes([filler, filler]); list];
            let result = order(truth, &mut due);
            bank.copy_from_slice(&truth.pack());
            for (place, number) in out.chunks_exact_mut(2).zip(due) {
                place.copy_from_slice(&number.to_le_bytes());
            }
            bank::word(result)
        });
        self.calls += 1;
        self.bytes = said.record.try_into().expect("still 39 bytes");
        let due = said.out.chunks_exact(2).take(said.count);
        (said.answer, due.map(|pair| u16::from_le_bytes([pair[0], pair[1]])).collect())
    }

    fn stop(&mut self, timer: u16) -> u32 {
        let (answer, _) = self
            .call(Function::BankStop, timer.into(), &[], 0, |bank, _| bank.stop(timer).map(|()| 0));
        if answer == 0 {
            self.ordered[place_of(timer)] = None;
        }
        answer
    }

    fn start(&mut self, table: &[u32], timer: u16, code: u8) -> u32 {
        let number = u32::from(timer) | u32::from(code) << 16;
        let (answer, _) = self.call(Function::BankStart, number, table, 0, |bank, _| {
            bank.start(table, timer, code).map(|()| 0)
        });
        if answer == 0 {
            let length = table[entry(timer, code)];
            self.ordered[place_of(timer)] = Some(self.truth.now + u64::from(length));
        }
        answer
    }

    /// A reading of the counter; gives the timers handed out.
    fn read(&mut self, reading: u32, list: usize) -> (u32, Vec<u16>) {
        let before = self.truth.now;
        let (answer, due) = self.call(Function::BankAdvance, reading, &[], list, |bank, due| {
            bank.advance(reading, due)
        });
        if answer == 0 {
            self.held_to_the_orders(before, &due);
        }
        (answer, due)
    }

    /// A reading at a true time, which the premise of the request allows.
    fn at(&mut self, now: u64, list: usize) -> (u32, Vec<u16>) {
        assert!(now >= self.truth.now && now - self.truth.now < HALF, "as the request asks");
        let (answer, due) = self.read(now as u32, list);
        assert_ne!(answer, 32, "a reading that the premise allows is never earlier");
        assert_eq!(self.truth.now, if answer == 0 { now } else { self.truth.now });
        (answer, due)
    }

    /// "handed out at the first accepted reading at or after its deadline, once, and never sooner".
    fn held_to_the_orders(&mut self, before: u64, due: &[u16]) {
        let now = self.truth.now;
        let mut last = (0, 0);
        for &timer in due {
            let deadline =
                self.ordered[place_of(timer)].take().expect("it was started, and not since");
            assert!(deadline <= now, "T{timer} is handed out too soon");
            assert!(deadline > before, "T{timer} was due at an earlier reading");
            assert!((deadline, timer) > last, "the order of {due:?}");
            last = (deadline, timer);
        }
        for deadline in self.ordered.into_iter().flatten() {
            assert!(deadline > now, "one that is due is left out of {due:?}");
        }
        let running = self.ordered.map(|deadline| u8::from(deadline.is_some()));
        assert_eq!(self.bytes[32..], running, "those run that were started and not since");
    }
}

fn place_of(timer: u16) -> usize {
    TIMERS.iter().position(|&known| known == timer).expect("a timer")
}

/// Times at and beside those at which a 32-bit counter, or its sign, wraps.
fn around_wraps() -> Vec<u64> {
    let wraps = [0, HALF, WRAP, WRAP + HALF, 2 * WRAP, 3 * WRAP - (1 << 30), 1000 * WRAP];
    let mut times = Vec::new();
    for wrap in wraps {
        times.extend((wrap.saturating_sub(4)..=wrap + 4).filter(|time| *time > 0 || wrap == 0));
    }
    times
}

fn a_length(random: &mut Random) -> u32 {
    match random.below(8) {
        // So few values that deadlines are often equal.
        0..=3 => 1 + random.below(6) as u32,
        4 => 1 + random.below(5000) as u32,
        5 => 1 + random.below(LONGEST as usize) as u32,
        6 => LONGEST - random.below(3) as u32,
        _ => random.pick(&[0, LONGEST + 1, 1 << 31, u32::MAX]),
    }
}

fn a_table(random: &mut Random) -> Vec<u32> {
    let len = if random.one_in(10) { random.below(30) } else { TABLE_LEN };
    (0..len).map(|_| a_length(random)).collect()
}

/// Less than 2^31.
fn a_gap(random: &mut Random) -> u64 {
    match random.below(10) {
        0 => 0,
        1..=4 => random.below(8) as u64,
        5..=6 => random.below(6000) as u64,
        7 => LONGEST as u64 - 4 + random.below(8) as u64,
        8 => random.word() % HALF,
        _ => HALF - 1 - random.below(3) as u64,
    }
}

fn some_order(host: &mut Host, random: &mut Random) {
    match random.below(3) {
        0 => {
            let timer =
                if random.one_in(12) { random.below(400) as u16 } else { random.pick(&TIMERS) };
            host.stop(timer);
        }
        _ => {
            let timer = if random.one_in(20) {
                300 + random.below(20) as u16
            } else {
                random.pick(&TIMERS)
            };
            let code = if random.one_in(12) { random.byte() } else { random.below(16) as u8 };
            let table = a_table(random);
            host.start(&table, timer, code);
        }
    }
}

#[test]
fn random_runs_in_true_time() {
    let mut random = Random::new(0xBA4C);
    let mut queue = Queue::new();
    let times = around_wraps();
    let (mut calls, mut wraps, mut handed_out, mut answers) = (0u64, 0u64, 0u64, [0u64; 34]);
    for _ in 0..6000 {
        let first = if random.flip() { random.pick(&times) } else { random.word() >> 24 };
        let mut host = Host::new(&mut queue, first);
        for _ in 0..random.below(300) {
            match random.below(16) {
                0..=8 => some_order(&mut host, &mut random),
                // Back, by less than 2^31 or exactly: not accepted.
                9 => {
                    let back =
                        1 + random.pick(&[0, 1, 7, (1 << 30) - 1, (1 << 31) - 2, (1 << 31) - 1]);
                    let (answer, _) = host.read((host.truth.now as u32).wrapping_sub(back), 7);
                    assert_eq!(answer, 32);
                }
                _ => {
                    let gap = a_gap(&mut random);
                    let list = if random.one_in(3) { random.below(9) } else { 7 };
                    let now = host.truth.now + gap;
                    wraps += now / WRAP - host.truth.now / WRAP;
                    let (answer, due) = host.at(now, list);
                    answers[answer as usize] += 1;
                    handed_out += due.len() as u64;
                }
            }
        }
        calls += host.calls;
    }
    queue.finish();
    tell(&format!(
        "6000 runs, {calls} calls, {wraps} wraps, {handed_out} timers handed out; readings accepted {}, too many due {}",
        answers[0], answers[33]
    ));
    assert!(wraps > 1000 && handed_out > 100_000 && answers[33] > 1000);
}

/// Where the premise does not hold, bank and account are still told the same.
#[test]
fn runs_whose_readings_leap_further_than_the_premise_allows() {
    let mut random = Random::new(0x1EA9);
    let mut queue = Queue::new();
    for _ in 0..3000 {
        let first = random.word() >> 20;
        let mut host = Host::new(&mut queue, first);
        let mut counter = first;
        for _ in 0..100 {
            if random.flip() {
                some_order(&mut host, &mut random);
            } else {
                counter += match random.below(4) {
                    0 => HALF - 2 + random.below(4) as u64,
                    1 => random.word() % (3 * WRAP),
                    2 => WRAP - 2 + random.below(4) as u64,
                    _ => a_gap(&mut random),
                };
                host.read(counter as u32, random.below(9));
            }
        }
    }
    queue.finish();
}

/// Each timer alone at its deadline: one millisecond before, at it, and behind it, from every time
/// around a wrap, with the shortest and longest lengths.
#[test]
fn a_deadline_around_every_wrap() {
    let mut queue = Queue::new();
    let mut calls = 0u64;
    let lengths = [1, 2, 3, 4, 5, 1000, LONGEST - 1, LONGEST];
    for now in around_wraps() {
        for &timer in &TIMERS {
            for length in lengths {
                let deadline = now + u64::from(length);
                let last = now + HALF - 1;
                for reading in [deadline - 1, deadline, deadline + 1, last - 1, last] {
                    let mut host = Host::new(&mut queue, now);
                    assert_eq!(host.start(&all(length), timer, 7), 0);
                    let (answer, due) = host.at(reading, 1);
                    assert_eq!(answer, 0);
                    let expected = if reading >= deadline { vec![timer] } else { vec![] };
                    assert_eq!(
                        due, expected,
                        "T{timer} of {length} ms at {now}, read at {reading}"
                    );
                    // Once; and not later than the next.
                    let (_, due) = host.at(reading + 1, 1);
                    assert_eq!(due.len(), usize::from(reading + 1 == deadline));
                    calls += host.calls;
                }
            }
        }
    }
    queue.finish();
    tell(&format!("{calls} calls around wraps"));
}

/// Every order of seven deadlines that has few values, ties among them included, at one reading.
#[test]
fn every_way_to_be_due_at_once() {
    let mut queue = Queue::new();
    let values = 3u32;
    for choice in 0..values.pow(7) {
        for now in [5, WRAP - 2, HALF - 2] {
            let mut host = Host::new(&mut queue, now);
            let lengths: Vec<u32> =
                (0..7).map(|timer| 1 + choice / values.pow(timer) % values).collect();
            // Started in another order than by number, so that this can't be what decides.
            for &timer in &[308, 301, 311, 303, 310, 306, 302] {
                assert_eq!(host.start(&all(lengths[place_of(timer)]), timer, 0), 0);
            }
            let mut expected: Vec<(u32, u16)> = lengths.iter().copied().zip(TIMERS).collect();
            expected.sort();
            let expected: Vec<u16> = expected.into_iter().map(|(_, timer)| timer).collect();
            for list in 0..7 {
                assert_eq!(host.at(now + 3, list).0, 33, "a list of {list} for seven");
            }
            assert_eq!(host.at(now + 3, 7 + choice as usize % 3), (0, expected));
        }
    }
    queue.finish();
}

/// The list may be as short as what is due, and a reading refused for it is as if never made.
#[test]
fn a_list_too_short_leaves_the_reading_unaccepted() {
    let mut queue = Queue::new();
    for now in around_wraps() {
        for due in 1..=7usize {
            for list in 0..=9 {
                let mut host = Host::new(&mut queue, now);
                for (place, &timer) in TIMERS.iter().enumerate() {
                    // The first `due` of them are due 10 ms from now, the others later.
                    let length = if place < due { 10 } else { 11 };
                    assert_eq!(host.start(&all(length), timer, 15), 0);
                }
                let (answer, handed_out) = host.at(now + 10, list);
                if list >= due {
                    assert_eq!((answer, &handed_out[..]), (0, &TIMERS[..due]));
                    continue;
                }
                assert_eq!((answer, handed_out), (33, vec![]));
                // The last reading is still the first: an earlier one than that refused is accepted,
                // and a start counts from it.
                assert_eq!(host.start(&all(1), 301, 0), 0);
                let (answer, handed_out) = host.at(now + 1, 7);
                assert_eq!((answer, handed_out), (0, vec![301]));
            }
        }
    }
    queue.finish();
}

#[test]
fn forward_or_back_is_told_by_the_sign_of_the_wrapped_difference() {
    let mut queue = Queue::new();
    for now in around_wraps() {
        for (ahead, answer) in [
            (0, 0),
            (1, 0),
            ((1 << 30) + 1, 0),
            ((1 << 31) - 1, 0),
            (1 << 31, 32),
            ((1 << 31) + 1, 32),
            (u32::MAX - 1, 32),
            (u32::MAX, 32),
        ] {
            let mut host = Host::new(&mut queue, now);
            host.start(&all(LONGEST), 303, 0);
            assert_eq!(host.read((now as u32).wrapping_add(ahead), 7).0, answer, "{ahead} ahead");
            // 32 comes before 33: every timer would be due, and the list has no room.
            let mut host = Host::new(&mut queue, now);
            host.start(&all(1), 303, 0);
            let expected = if answer == 0 && ahead > 0 { 33 } else { answer };
            assert_eq!(host.read((now as u32).wrapping_add(ahead), 0).0, expected, "{ahead} ahead");
        }
    }
    queue.finish();
}

/// Why the premise is there: a gap of 2^31 ms is told as a step back, and one of 2^32 as none.
#[test]
fn a_gap_of_2_to_the_31_goes_wrong() {
    let mut queue = Queue::new();
    let mut host = Host::new(&mut queue, 1000);
    assert_eq!(host.start(&all(100), 301, 0), 0);
    assert_eq!(host.read((1000 + HALF) as u32, 7), (32, vec![]), "long due, and refused");
    assert_eq!(host.read((1000 + WRAP) as u32, 7), (0, vec![]), "long due, and not handed out");
    assert_eq!(host.read((1100 + WRAP) as u32, 7), (0, vec![301]), "2^32 ms late");
    queue.finish();
}

/// A run through two wraps, step by step, with what is expected written out.
#[test]
fn a_run_through_two_wraps() {
    let mut table = all(1000);
    table[entry(303, 0)] = 300;
    table[entry(308, 0)] = LONGEST;
    table[entry(310, 2)] = 50_000;
    table[entry(310, 3)] = 400;
    let mut queue = Queue::new();
    let mut host = Host::new(&mut queue, WRAP - 500);
    assert_eq!(host.start(&table, 303, 0), 0);
    assert_eq!(host.start(&table, 310, 2), 0);
    assert_eq!(host.at(WRAP - 201, 7), (0, vec![]));
    assert_eq!(host.at(WRAP - 200, 7), (0, vec![303]));
    assert_eq!(host.start(&table, 310, 3), 0, "anew, from the last reading");
    assert_eq!(host.at(WRAP + 199, 7), (0, vec![]));
    assert_eq!(host.at(WRAP + 200, 7), (0, vec![310]));
    assert_eq!(host.start(&table, 308, 0), 0);
    assert_eq!(host.start(&table, 306, 0), 0);
    assert_eq!(host.stop(306), 0);
    assert_eq!(host.at(WRAP + 200 + u64::from(LONGEST) - 1, 7), (0, vec![]));
    assert_eq!(host.at(WRAP + HALF, 7), (0, vec![308]));
    assert_eq!(host.start(&table, 308, 0), 0);
    assert_eq!(host.start(&table, 311, 0), 0);
    assert_eq!(host.at(2 * WRAP - 1, 1), (33, vec![]), "both are due");
    assert_eq!(host.at(2 * WRAP - 1, 2), (0, vec![311, 308]), "the earlier deadline first");
    assert_eq!(host.start(&table, 302, 0), 0);
    assert_eq!(host.at(2 * WRAP + 998, 7), (0, vec![]));
    assert_eq!(host.at(2 * WRAP + 5000, 7), (0, vec![302]));
    queue.finish();
}

#[test]
fn every_timer_number_and_every_code() {
    let mut queue = Queue::new();
    let table: Vec<u32> = (0..TABLE_LEN as u32).map(|entry| 100 + entry).collect();
    for timer in 0..=65535u16 {
        let known = TIMERS.contains(&timer);
        let mut host = Host::new(&mut queue, WRAP - 50);
        assert_eq!(host.stop(timer), if known { 0 } else { 30 }, "STOP {timer}");
        // 30 comes before 31.
        assert_eq!(host.start(&[], timer, 255), if known { 31 } else { 30 }, "START {timer}");
        assert_eq!(host.start(&table, timer, 0), if known { 0 } else { 30 }, "START {timer}");
    }
    // A code over 15 has no length, however long the table is.
    for code in 16..=255u8 {
        let mut host = Host::new(&mut queue, WRAP - 50);
        assert_eq!(host.start(&[100; 300], 310, code), 31, "START 310 {code}");
    }
    for code in 0..=255u8 {
        for &timer in &TIMERS {
            let mut host = Host::new(&mut queue, WRAP - 50);
            let answer = if timer == 310 && code > 15 { 31 } else { 0 };
            assert_eq!(host.start(&table, timer, code), answer, "START {timer} {code}");
            if answer == 0 {
                let length = u64::from(table[entry(timer, code)]);
                assert_eq!(host.at(WRAP - 51 + length, 7), (0, vec![]));
                assert_eq!(host.at(WRAP - 50 + length, 7), (0, vec![timer]));
            }
        }
    }
    queue.finish();
}

#[test]
fn every_length_of_table_and_the_edges_of_each_length() {
    let mut queue = Queue::new();
    for &timer in &TIMERS {
        for code in [0, 1, 7, 14, 15] {
            let own = entry(timer, code);
            for len in 0..=30 {
                // Only its own entry counts: the others are out of range.
                let mut table = vec![0; len];
                if own < len {
                    table[own] = 77;
                }
                let mut host = Host::new(&mut queue, 3);
                assert_eq!(host.start(&table, timer, code), if own < len { 0 } else { 31 });
            }
            for (length, answer) in [
                (0, 31),
                (1, 0),
                (LONGEST - 1, 0),
                (LONGEST, 0),
                (LONGEST + 1, 31),
                (1 << 31, 31),
                ((1 << 31) + 1, 31),
                (u32::MAX, 31),
            ] {
                let mut table = all(5);
                table[own] = length;
                let mut host = Host::new(&mut queue, WRAP - 1);
                assert_eq!(host.start(&table, timer, code), answer, "T{timer} of {length} ms");
            }
        }
    }
    queue.finish();
}

/// STOP of a timer that does not run is taken and changes nothing; START of a running one counts anew.
#[test]
fn stop_and_start_at_every_set_of_running_timers() {
    let mut queue = Queue::new();
    for running in 0..128u8 {
        for &timer in &TIMERS {
            let mut host = Host::new(&mut queue, HALF - 20);
            for (place, &started) in TIMERS.iter().enumerate() {
                if running >> place & 1 == 1 {
                    host.start(&all(40 + place as u32), started, 0);
                }
            }
            host.at(HALF, 0);
            let before = host.bytes;
            assert_eq!(host.stop(timer), 0);
            if running >> place_of(timer) & 1 == 0 {
                assert_eq!(host.bytes, before, "nothing to stop");
            }
            assert_eq!(host.start(&all(25), timer, 0), 0);
            assert_eq!(host.start(&all(30), timer, 0), 0);
            host.at(HALF + 19, 0);
            for later in 20..=31 {
                host.at(HALF + later, 7);
            }
        }
    }
    queue.finish();
}

/// Bytes that are no bank are answer 1 before all others, and nothing is changed.
#[test]
fn bytes_that_are_no_bank() {
    let mut queue = Queue::new();
    let mut random = Random::new(0x0B4D);
    let calls = [
        (Function::BankStop, 301),
        (Function::BankStop, 305),
        (Function::BankStart, 301),
        (Function::BankStart, 305),
        (Function::BankAdvance, 0),
        (Function::BankAdvance, 1 << 31),
    ];
    let mut expect = |bytes: &[u8]| {
        for (function, number) in calls {
            let request = Request::of(function, bytes, &[0; 8], 14, 0x81).with(number);
            queue.check(&request, |_, _, _| 1 << 24);
        }
    };
    for len in (0..=100).filter(|&len| len != BANK_LEN) {
        expect(&vec![0; len]);
        expect(&vec![1; len]);
    }
    for flag in 32..BANK_LEN {
        for value in 2..=255 {
            let mut bytes: Vec<u8> = (0..32).map(|_| random.byte()).collect();
            bytes.extend([1, 0, 1, 0, 1, 1, 0]);
            bytes[flag] = value;
            expect(&bytes);
        }
    }
    for len in 0..=100 {
        let bytes = vec![0x99; len];
        let request = Request::of(Function::BankNew, &bytes, &[], 0, 0x99).with(7);
        queue.check(&request, |bytes, _, _| bank::new(bytes, 7));
    }
    queue.finish();
}

/// Banks that no run gives, which the account's true time has no word for. By the definition's own
/// rule: due is a running timer whose deadline is not after the reading by the sign of the wrapped
/// difference, and the one that is late by more goes first.
#[test]
fn a_bank_that_the_host_has_spoiled() {
    let mut random = Random::new(0x5901);
    let mut queue = Queue::new();
    let (mut accepted, mut short, mut not_by_time) = (0, 0, 0);
    for round in 0..200_000 {
        let mut bytes: Vec<u8> = (0..32).map(|_| random.byte()).collect();
        bytes.extend([(); 7].map(|()| u8::from(random.flip())));
        let number = |bytes: &[u8], at: usize| {
            u32::from_le_bytes([bytes[at], bytes[at + 1], bytes[at + 2], bytes[at + 3]])
        };
        let last = number(&bytes, 0);
        let reading = last.wrapping_add((random.word() >> 32) as u32 >> random.below(2));
        // Deadlines at both edges of due, and equal ones.
        for timer in 0..7 {
            if round % 2 == 0 {
                let ahead = random.pick(&[0, 1, u32::MAX, 1 << 31, (1 << 31) - 1, (1 << 31) + 1]);
                let deadline = reading.wrapping_add(ahead);
                bytes[4 + 4 * timer..][..4].copy_from_slice(&deadline.to_le_bytes());
            }
        }
        let late = |timer: usize| reading.wrapping_sub(number(&bytes, 4 + 4 * timer)) as i32;
        let mut due: Vec<usize> =
            (0..7).filter(|&timer| bytes[32 + timer] == 1 && late(timer) >= 0).collect();
        // A sort that keeps the order of equal ones.
        due.sort_by_key(|&timer| -late(timer));

        let list = random.below(9);
        let places = [(); 3].map(|()| random.pick(&[Place::Between, Place::AtStart, Place::AtEnd]));
        let request = Request::of(Function::BankAdvance, &bytes, &[], 2 * list, random.byte())
            .with(reading)
            .at(places);
        let said = queue.check(&request, |bank, _, out| {
            if reading.wrapping_sub(last) as i32 >= 0 && due.len() <= list {
                bank[..4].copy_from_slice(&reading.to_le_bytes());
                for (&timer, place) in due.iter().zip(out.chunks_exact_mut(2)) {
                    bank[32 + timer] = 0;
                    place.copy_from_slice(&TIMERS[timer].to_le_bytes());
                }
                due.len() as u32
            } else if (reading.wrapping_sub(last) as i32) < 0 {
                32 << 24
            } else {
                33 << 24
            }
        });
        accepted += u32::from(said.answer == 0);
        short += u32::from(said.answer == 33);
        let time =
            Bank::unpack(&bytes).and_then(|mut bank| bank.advance(reading, &mut [0; 7]).ok());
        not_by_time += u32::from(said.answer == 0 && time != Some(due.len()));
    }
    queue.finish();
    assert!(accepted > 10_000 && short > 10_000, "{accepted} accepted, {short} lists too short");
    assert!(not_by_time > 10_000, "{not_by_time} that true time tells otherwise");
}

#[test]
fn nothing_beyond_the_lent_numbers_is_touched() {
    let mut random = Random::new(0x7A3E);
    let mut queue = Queue::new();
    for _ in 0..2000 {
        let first = random.word() >> 24;
        let mut host = Host::new(&mut queue, first);
        host.places = [(); 3].map(|()| random.pick(&[Place::AtStart, Place::AtEnd]));
        for _ in 0..30 {
            if random.one_in(3) {
                let (gap, list) = (a_gap(&mut random), random.below(9));
                host.at(host.truth.now + gap, list);
            } else {
                some_order(&mut host, &mut random);
            }
        }
    }
    queue.finish();
}

#[test]
fn the_accounts_timers_are_those_of_the_call_record() {
    assert_eq!(Timer::ALL.iter().map(|timer| timer.number()).collect::<Vec<_>>(), TIMERS);
}

#[test]
fn a_call_uses_less_than_512_bytes_of_stack() {
    let bytes = stack_used("tests/bridge/stack_bank.c", &[]);
    tell(&format!("{bytes} bytes of stack"));
    assert!((8..512).contains(&bytes), "{bytes} bytes of stack");
}
