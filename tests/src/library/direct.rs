//! The library linked into this process.

use super::bank;
use super::channel;
use super::console;
use super::direct_mode;
use super::small;
use crate::request::{self, Function, Place, BLOCK, INPUT, OUT, RECORD};
use std::ffi::c_void;

mod exported {
    extern "C" {
        pub fn callcontrol_fresh(record: *mut u8, record_len: usize) -> u32;
        pub fn callcontrol_step(
            record: *mut u8,
            record_len: usize,
            event: *const u8,
            event_len: usize,
            out: *mut u8,
            out_len: usize,
        ) -> u32;
        pub fn callcontrol_check_event(bytes: *const u8, len: usize) -> u32;
        pub fn callcontrol_check_message(bytes: *const u8, len: usize) -> u32;
        pub fn callcontrol_copy_event(
            bytes: *const u8,
            len: usize,
            out: *mut u8,
            out_len: usize,
        ) -> u32;
        pub fn callcontrol_copy_message(
            bytes: *const u8,
            len: usize,
            out: *mut u8,
            out_len: usize,
        ) -> u32;
    }
}

pub use exported::callcontrol_step;

// Each call below is sound for the same reason: pointer and length come from one slice, a slice
// that may be written is borrowed alone, and the library keeps no pointer after it returns.

#[inline]
pub fn fresh(record: &mut [u8]) -> u32 {
    unsafe { exported::callcontrol_fresh(record.as_mut_ptr(), record.len()) }
}

#[inline]
pub fn step(record: &mut [u8], event: &[u8], out: &mut [u8]) -> u32 {
    unsafe {
        exported::callcontrol_step(
            record.as_mut_ptr(),
            record.len(),
            event.as_ptr(),
            event.len(),
            out.as_mut_ptr(),
            out.len(),
        )
    }
}

#[inline]
pub fn check_event(bytes: &[u8]) -> u32 {
    unsafe { exported::callcontrol_check_event(bytes.as_ptr(), bytes.len()) }
}

#[inline]
pub fn check_message(bytes: &[u8]) -> u32 {
    unsafe { exported::callcontrol_check_message(bytes.as_ptr(), bytes.len()) }
}

#[inline]
pub fn copy_event(bytes: &[u8], out: &mut [u8]) -> u32 {
    unsafe {
        exported::callcontrol_copy_event(bytes.as_ptr(), bytes.len(), out.as_mut_ptr(), out.len())
    }
}

#[inline]
pub fn copy_message(bytes: &[u8], out: &mut [u8]) -> u32 {
    unsafe {
        exported::callcontrol_copy_message(bytes.as_ptr(), bytes.len(), out.as_mut_ptr(), out.len())
    }
}

/// Makes the calls of a batch; `done` becomes the batch after them.
pub fn perform(batch: &[u8], done: &mut Vec<u8>) {
    done.clear();
    done.extend_from_slice(batch);
    let mut rest = &mut done[..];
    for frame in request::each(batch) {
        let (frame, after) = std::mem::take(&mut rest).split_at_mut(frame.len());
        rest = after;
        let places = [RECORD, INPUT, OUT].map(|slice| request::place(frame, slice));
        let (function, number) = (request::function(frame), request::number(frame));
        let home = request::slices_mut(frame);
        let word = if places == [Place::Between; 3] {
            call(function, number, home)
        } else {
            ISLANDS.with_borrow_mut(|islands| {
                let [record, input, out] = islands;
                let mut lent = [
                    record.lend(home[RECORD], places[RECORD]),
                    input.lend(home[INPUT], places[INPUT]),
                    out.lend(home[OUT], places[OUT]),
                ];
                let word = call(function, number, lent.each_mut().map(|slice| &mut **slice));
                for (home, lent) in home.into_iter().zip(lent) {
                    home.copy_from_slice(lent);
                }
                word
            })
        };
        request::set_word(frame, word);
    }
}

fn call(function: Function, number: u32, [record, input, out]: [&mut [u8]; 3]) -> u32 {
    match function {
        Function::Fresh => fresh(record),
        Function::Step => step(record, input, out),
        Function::CheckEvent => check_event(input),
        Function::CheckMessage => check_message(input),
        Function::CopyEvent => copy_event(input, out),
        Function::CopyMessage => copy_message(input, out),
        Function::PiecesFresh => super::pieces::fresh(record),
        Function::PiecesNext => super::pieces::next(record, out, input),
        Function::RecordIn => {
            super::pieces::record_in(number as u8, (number >> 8) as u8, record, input, out)
        }
        Function::BankNew => bank::new(record, number),
        Function::BankStop => bank::stop(record, number as u16),
        Function::BankStart => {
            bank::start(record, bank::numbers(input), number as u16, (number >> 16) as u8)
        }
        Function::BankAdvance => bank::advance(record, number, bank::numbers(out)),
        Function::ConsoleFresh => console::fresh(record),
        Function::ConsoleStep => console::step(record, number as u8, input, out),
        Function::ChannelFresh => channel::fresh(record),
        Function::ChannelAsk => {
            let (number, call, asked) = request::channel_numbers(input);
            channel::ask(record, number, call, asked as u8, out)
        }
        Function::ChannelPdu => {
            let (number, call, result) = request::channel_numbers(input);
            channel::pdu(record, number, call, result, out)
        }
        Function::ChannelDecide => {
            let (number, _, decision) = request::channel_numbers(input);
            channel::decide(record, number, decision as u8, out)
        }
        Function::ChannelEnded => {
            let (_, call, _) = request::channel_numbers(input);
            channel::ended(record, call, out)
        }
        Function::Play => play(record, input, out, number, false, |record, _, event, lent| {
            step(record, event, lent)
        }),
        Function::ConsolePlay => play(record, input, out, number, true, console::step),
        Function::DirectFresh => direct_mode::fresh(record),
        Function::DirectStep => direct_mode::step(record, input, out),
        Function::DirectCheckEvent => direct_mode::check_event(input),
        Function::DirectCheckMessage => direct_mode::check_message(input),
        Function::DirectCopyEvent => direct_mode::copy_event(input, out),
        Function::DirectCopyMessage => direct_mode::copy_message(input, out),
        Function::SmallFresh => small::fresh(record),
        Function::SmallStep => small::step(record, input, out),
    }
}

/// What `play` in bridge.c does.
fn play(
    record: &mut [u8],
    mut input: &[u8],
    mut out: &mut [u8],
    lent: u32,
    console: bool,
    step: impl Fn(&mut [u8], u8, &[u8], &mut [u8]) -> u32,
) -> u32 {
    let (head, lent, mut played) = (4 + record.len(), lent as usize, 0);
    while !input.is_empty() && out.len() >= head + lent {
        let place = if console { input[0] } else { 0 };
        let event = &input[usize::from(console)..];
        let (event, rest) = event.split_at(u16::from_le_bytes([event[0], event[1]]) as usize);
        let word = step(record, place, event, &mut out[head..head + lent]);
        out[..4].copy_from_slice(&word.to_le_bytes());
        out[4..head].copy_from_slice(record);
        out = &mut out[head + (word & 0xFFFF) as usize..];
        input = rest;
        played += 1;
    }
    played
}

thread_local! {
    static ISLANDS: std::cell::RefCell<[Island; 3]> =
        std::cell::RefCell::new([Island::new(), Island::new(), Island::new()]);
}

/// A block that may be used between two that may not be touched.
struct Island {
    start: *mut u8,
}

extern "C" {
    fn mmap(
        at: *mut c_void,
        len: usize,
        access: i32,
        flags: i32,
        file: i32,
        off: i64,
    ) -> *mut c_void;
    fn mprotect(at: *mut c_void, len: usize, access: i32) -> i32;
}

const NONE: i32 = 0;
const READ_WRITE: i32 = 1 | 2;
const PRIVATE_ANONYMOUS: i32 = 0x02 | 0x20;

impl Island {
    fn new() -> Island {
        unsafe {
            let all = mmap(std::ptr::null_mut(), 3 * BLOCK, NONE, PRIVATE_ANONYMOUS, -1, 0);
            assert_ne!(all as isize, -1, "no memory");
            let start = all.byte_add(BLOCK);
            assert_eq!(mprotect(start, BLOCK, READ_WRITE), 0);
            Island { start: start.cast() }
        }
    }

    /// A copy of these bytes at one of the two shores.
    fn lend(&mut self, bytes: &[u8], place: Place) -> &mut [u8] {
        assert!(bytes.len() <= BLOCK);
        let start = if place == Place::AtEnd { BLOCK - bytes.len() } else { 0 };
        let lent = unsafe { std::slice::from_raw_parts_mut(self.start.add(start), bytes.len()) };
        lent.copy_from_slice(bytes);
        lent
    }
}
