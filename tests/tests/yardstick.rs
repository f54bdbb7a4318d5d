//! The accounts in plain C, by which the library's time and code are measured, agree with the Rust
//! account: at -O3 and at -Os, on every answer, record, table and byte of a buffer.

use callcontrol_tests::account::console::{self, Console, PLACES, TABLE_LEN};
use callcontrol_tests::account::{boundary, Call, Event, State, RECORD_LEN};
use callcontrol_tests::generate::{
    damaged_event, damaged_record, event, identifier, likely_event, message, sound_record, Bytes,
    Random,
};
use callcontrol_tests::yardstick::{quick, small};

const STEPS: usize = 1_000_000;
const CONSOLE_STEPS: usize = 500_000;
const ROOM: usize = 420;

/// What a call leaves: the word, and the bytes of what it may write.
type Left = (u32, Vec<u8>, Vec<u8>);

fn left(held: &[u8], room: usize, call: impl Fn(&mut [u8], &mut [u8]) -> u32) -> Left {
    let (mut held, mut out) = (held.to_vec(), vec![0xA5; room]);
    let word = call(&mut held, &mut out);
    (word, held, out)
}

fn agree_on_a_step(record: &[u8], event: &[u8], room: usize) -> Left {
    let expected = left(record, room, |record, out| boundary::step(record, event, out));
    assert_eq!(left(record, room, |record, out| quick::step(record, event, out)), expected);
    assert_eq!(left(record, room, |record, out| small::step(record, event, out)), expected);
    expected
}

fn agree_on_a_console_step(table: &[u8], place: u8, event: &[u8], room: usize) -> Left {
    let by = |step: fn(&mut [u8], u8, &[u8], &mut [u8]) -> u32| {
        left(table, room, |table, out| step(table, place, event, out))
    };
    let expected = by(console::step);
    assert_eq!(by(quick::console_step), expected, "{table:?} {place} {event:?} {room}");
    assert_eq!(by(small::console_step), expected, "{table:?} {place} {event:?} {room}");
    expected
}

/// An event for a call: likely, any, or damaged.
fn for_call(random: &mut Random, call: &Call) -> Bytes {
    let held = if random.one_in(6) { call.identifier ^ 1 } else { call.identifier };
    match random.below(12) {
        0 => {
            let event = event(random, held);
            damaged_event(random, event)
        }
        1..=3 => Bytes::of_event(event(random, held)),
        _ => Bytes::of_event(likely_event(random, call, 20)),
    }
}

/// Mostly room enough.
fn room(random: &mut Random, most: usize) -> usize {
    match random.below(4) {
        0 => random.below(most),
        _ => most,
    }
}

#[test]
fn a_step_in_c_is_the_accounts_step() {
    let mut random = Random::new(0x57E9);
    let mut answers = [0; 10];
    let mut record = Call::FRESH.pack().to_vec();
    for _ in 0..STEPS {
        // On from the last record, from any sound one, or from bytes that may be none.
        match random.below(8) {
            0 => record = sound_record(&mut random).pack().to_vec(),
            1 => record = damaged_record(&mut random).as_slice().to_vec(),
            _ => {}
        }
        let call = Call::unpack(&record).filter(Call::sound).unwrap_or(Call::FRESH);
        let event = for_call(&mut random, &call);
        let room = room(&mut random, 64);
        let (word, after, _) = agree_on_a_step(&record, event.as_slice(), room);
        answers[(word >> 24) as usize] += 1;
        record = if word >> 24 == 1 { Call::FRESH.pack().to_vec() } else { after };
    }
    assert!(answers.iter().all(|&count| count > 100), "every answer is met: {answers:?}");
}

#[test]
fn reading_and_copying_in_c_is_the_accounts() {
    let mut random = Random::new(0xC0B1);
    for _ in 0..STEPS {
        let bytes = match random.below(4) {
            0 => {
                let i = identifier(&mut random);
                let event = event(&mut random, i);
                damaged_event(&mut random, event)
            }
            1 => {
                let i = identifier(&mut random);
                Bytes::of_event(event(&mut random, i))
            }
            _ => {
                let mut bytes = Bytes::of_message(message(&mut random));
                if random.flip() {
                    let at = random.below(bytes.as_slice().len());
                    bytes.as_mut_slice()[at] = random.byte();
                }
                bytes
            }
        };
        let bytes = bytes.as_slice();
        let room = room(&mut random, 16);
        assert_eq!(quick::check_event(bytes), boundary::check_event(bytes));
        assert_eq!(small::check_event(bytes), boundary::check_event(bytes));
        assert_eq!(quick::check_message(bytes), boundary::check_message(bytes));
        assert_eq!(small::check_message(bytes), boundary::check_message(bytes));
        let copies: [(fn(&[u8], &mut [u8]) -> u32, [fn(&[u8], &mut [u8]) -> u32; 2]); 2] = [
            (boundary::copy_event, [quick::copy_event, small::copy_event]),
            (boundary::copy_message, [quick::copy_message, small::copy_message]),
        ];
        for (account, others) in copies {
            let expected = left(&[], room, |_, out| account(bytes, out));
            for copy in others {
                assert_eq!(left(&[], room, |_, out| copy(bytes, out)), expected, "{bytes:?}");
            }
        }
    }
}

#[test]
fn fresh_in_c_is_the_accounts() {
    for len in
        [0, RECORD_LEN - 1, RECORD_LEN, RECORD_LEN + 1, TABLE_LEN - 1, TABLE_LEN, TABLE_LEN + 1]
    {
        let held = vec![0xEE; len];
        let one = left(&held, 0, |record, _| boundary::fresh(record));
        assert_eq!(left(&held, 0, |record, _| quick::fresh(record)), one);
        assert_eq!(left(&held, 0, |record, _| small::fresh(record)), one);
        let eight = left(&held, 0, |table, _| console::fresh(table));
        assert_eq!(left(&held, 0, |table, _| quick::console_fresh(table)), eight);
        assert_eq!(left(&held, 0, |table, _| small::console_fresh(table)), eight);
    }
}

/// A sound table without an IDLE place.
fn busy_table(random: &mut Random) -> Console {
    let mut console = Console::FRESH;
    for (place, call) in console.calls.iter_mut().enumerate() {
        while call.state == State::Idle {
            *call = sound_record(random);
        }
        call.identifier = 1 + place as u16;
    }
    assert!(console.sound());
    console
}

#[test]
fn a_console_step_in_c_is_the_accounts_step() {
    let mut random = Random::new(0xC045);
    let mut answers = [0; 44];
    let mut table = Console::FRESH.pack().to_vec();
    for _ in 0..CONSOLE_STEPS {
        match random.below(8) {
            0 => {
                // Sound records, which may be alike.
                let place = random.below(PLACES);
                let record = sound_record(&mut random).pack();
                table[place * RECORD_LEN..][..RECORD_LEN].copy_from_slice(&record);
            }
            1 => {
                let at = random.below(TABLE_LEN);
                table[at] = table[at].wrapping_add(random.pick(&[1, 255, 2]));
            }
            2 => table.truncate(random.pick(&[0, RECORD_LEN, TABLE_LEN - 1, TABLE_LEN])),
            _ => {}
        }
        let console = Console::unpack(&table).filter(Console::sound).unwrap_or(Console::FRESH);
        let place = random.below(PLACES);
        let idle = console.calls.iter().any(|call| call.state == State::Idle);
        let event = match random.below(8) {
            0 => Bytes::of_event(random.pick(&[Event::Break, Event::Resume])),
            1 | 2 if idle => for_call(&mut random, &Call::FRESH),
            _ => for_call(&mut random, &console.calls[place]),
        };
        let place = if random.one_in(16) { random.byte() } else { place as u8 };
        let room = room(&mut random, ROOM);
        let (word, after, _) = agree_on_a_console_step(&table, place, event.as_slice(), room);
        answers[(word >> 24) as usize] += 1;
        table = match word >> 24 {
            1 if random.flip() => busy_table(&mut random).pack().to_vec(),
            1 => Console::FRESH.pack().to_vec(),
            _ => after,
        };
    }
    for answer in [0, 1, 2, 3, 4, 5, 6, 7, 8, 9, 40, 41, 42, 43] {
        assert!(answers[answer] > 10, "every answer is met: {answer}: {answers:?}");
    }
}
