//! Slots per frame in whole calls, by the bytes: what is told of them, and the number in the record
//! after each event, written out by hand. The same call alone and at a place of a console.

use callcontrol_tests::account::console::{self, TABLE_LEN};
use callcontrol_tests::account::RECORD_LEN;
use callcontrol_tests::histories::bytes_of;
use callcontrol_tests::library;
use callcontrol_tests::request::{Function, Request};
use callcontrol_tests::sidebyside::{Queue, Said};

/// Where the number stands in a record.
const AT_SLOTS: usize = 21;

/// An event, what it writes, and the number held after it.
struct Turn {
    event: &'static str,
    writes: &'static str,
    slots: u8,
}

const fn turn(event: &'static str, writes: &'static str, slots: u8) -> Turn {
    Turn { event, writes, slots }
}

/// Asked for with 3; the old D-CONNECT keeps them; D-INFO changes them alone, in plane 2, and with the
/// mode; a break, a restoration and a pause keep them; the old D-INFO tells the number held; the call's
/// end leaves 1, and the next call has what its D-CONNECT brings.
const CALL: &[Turn] = &[
    // SETUP request, 3: U-SETUP with 3, START 303.
    turn("0B00 0101 07000000 00 01 03", "0B00 0105 07000000 00 01 03  0700 0206 2F01 00", 3),
    // D-CONNECT without: STOP 303, START 310 with 3, CONFIGURE 2, SETUP confirm.
    turn(
        "0900 0302 1500 03 00 03",
        "0600 0106 2F01  0700 0206 3601 03  0500 0306 02  0700 0207 1500 03",
        3,
    ),
    // D-INFO, 1, simplex as before: CONFIGURE 2 again, MODIFY indication simplex 1.
    turn("0A00 0602 1500 00 10 00 01", "0500 0306 02  0600 0907 00 01", 1),
    // D-INFO, 4 and duplex: CONFIGURE 4, MODIFY indication duplex 4.
    turn("0A00 0602 1500 00 10 01 04", "0500 0306 04  0600 0907 01 04", 4),
    // BREAK, RESUME with q 1 for duplex, BREAK, RESUME, D-CALL RESTORE granted to another.
    turn("0400 0303", "0500 0306 04", 4),
    turn("0400 0403", "0B00 0805 1500 07000000 01  0700 0206 3201 00", 4),
    turn("0400 0303", "0600 0106 3201  0500 0306 04", 4),
    turn("0400 0403", "0B00 0805 1500 07000000 01  0700 0206 3201 00", 4),
    turn("0900 0C02 1500 03 00 10", "0600 0106 3201  0500 0306 02  0500 0807 03", 4),
    // D-INFO without, duplex as before: the number held.
    turn("0900 0602 1500 00 10 01", "0500 0306 02  0600 0907 01 04", 4),
    // D-TX WAIT and D-TX CONTINUE.
    turn("0600 0A02 1500", "0500 0306 04  0500 0807 06", 4),
    turn("0700 0B02 1500 01", "0500 0306 02  0500 0807 07", 4),
    // D-INFO without, simplex: off, the number held.
    turn("0900 0602 1500 00 10 00", "0500 0306 04  0600 0907 00 04", 4),
    // RELEASE request: STOP 310, U-DISCONNECT, START 308, CONFIGURE 4; expiry of T308 ends the call.
    turn("0400 0301", "0600 0106 3601  0700 0305 1500 01  0700 0206 3401 00  0500 0306 04", 4),
    turn("0600 0104 3401", "0500 0306 04  0400 0707", 1),
    // The next call: SETUP request without, D-CONNECT with 2, not granted.
    turn("0A00 0101 07000000 00 00", "0A00 0105 07000000 00 00  0700 0206 2F01 00", 1),
    turn(
        "0A00 0302 1600 01 00 05 02",
        "0600 0106 2F01  0700 0206 3601 05  0500 0306 04  0700 0207 1600 01",
        2,
    ),
    // D-DISCONNECT: STOP 310, U-RELEASE, CONFIGURE 4, RELEASE indication 3.
    turn("0600 0D02 1600", "0600 0106 3601  0600 0405 1600  0500 0306 04  0500 0607 03", 1),
    // One that comes in has 1, also after D-CONNECT ACKNOWLEDGE.
    turn("0B00 0502 1700 09000000 00", "0B00 0107 1700 09000000 00", 1),
    turn("0400 0201", "0600 0205 1700  0700 0206 2D01 00", 1),
    turn(
        "0800 0402 1700 03 03",
        "0600 0106 2D01  0700 0206 3601 03  0500 0306 02  0500 0507 03",
        1,
    ),
    turn("0A00 0602 1700 00 10 00 03", "0500 0306 02  0600 0907 00 03", 3),
];

#[test]
fn a_call_alone() {
    let mut record = [0xEE; RECORD_LEN];
    assert_eq!(library::split(library::fresh(&mut record)), (0, 22));
    assert_eq!(record[AT_SLOTS], 1);
    for Turn { event, writes, slots } in CALL {
        let (mut out, writes) = ([0xEE; 32], bytes_of(writes));
        let word = library::step(&mut record, &bytes_of(event), &mut out);
        assert_eq!(library::split(word), (0, writes.len() as u32), "{event}");
        assert_eq!(out[..writes.len()], writes, "{event}");
        assert_eq!(record[AT_SLOTS], *slots, "{event}");
    }
}

/// At place 1, while a call with 4 slots waits at place 0.
#[test]
fn the_same_at_a_place_of_a_console() {
    let mut queue = Queue::new();
    let mut table = console::Console::FRESH.pack();
    let set_up = [
        "0B00 0101 09000000 00 00 04", // SETUP request with 4
        "0900 0302 6300 01 00 00",     // D-CONNECT i 99 without, not granted
        "0400 0301",                   // RELEASE request at place 0
    ];
    for event in set_up {
        table = after(&console_step(&mut queue, &table, 0, event));
    }
    let first = table[..RECORD_LEN].to_vec();
    assert_eq!(first[AT_SLOTS], 4, "CALL-DISCONNECT keeps them");
    for Turn { event, writes, slots } in CALL {
        let step = console_step(&mut queue, &table, 1, event);
        let expected = [&[5, 0, 0x05, 0x06, 1], &bytes_of(writes)[..]].concat();
        assert_eq!(step.written(), expected, "{event}");
        table = after(&step);
        assert_eq!(table[RECORD_LEN + AT_SLOTS], *slots, "{event}");
        assert_eq!(table[..RECORD_LEN], first, "{event}: the other place");
    }
    queue.finish();
}

/// An event for a console, which is taken by library and account alike.
fn console_step<'a>(queue: &'a mut Queue, table: &[u8], place: u8, event: &str) -> Said<'a> {
    let bytes = bytes_of(event);
    let request = Request::of(Function::ConsoleStep, table, &bytes, 64, 0x5C).with(place.into());
    let said = queue.check(&request, |table, event, out| console::step(table, place, event, out));
    assert_eq!(said.answer, 0, "{event}");
    said
}

fn after(step: &Said<'_>) -> [u8; TABLE_LEN] {
    step.record.try_into().expect("still as long")
}

/// 21 bytes, the record as it was without slots, are no record: answer 1, and nothing is changed.
#[test]
fn a_record_without_slots_is_none() {
    let mut old = [0u8; 21];
    (old[11], old[12]) = (4, 4);
    let before = old;
    let mut out = [0xEE; 32];
    let set_up = bytes_of("0A00 0101 07000000 00 01");
    assert_eq!(library::step(&mut old, &set_up, &mut out), 1 << 24);
    assert_eq!(library::fresh(&mut old), 1 << 24);
    assert_eq!((old, out), (before, [0xEE; 32]));
    let mut queue = Queue::new();
    let table = old.repeat(8);
    for function in [Function::ConsoleFresh, Function::ConsoleStep] {
        queue.check(&Request::of(function, &table, &set_up, 32, 0x5C), |_, _, _| 1 << 24);
    }
    queue.finish();
}
