//! How long one step takes, and how much stack: both engines beside the account and plain C, on the same
//! tapes of events, in one run.
//!
//! The account is measured behind the same interface as the library (22 packed bytes in and out)
//! and once more with the record kept unpacked, which is what a host in Rust would do.

use crate::rounds::{best, entry, head, line, Entry, ROUNDS as ENTRY_ROUNDS};
use callcontrol_tests::account::{boundary, Call, RECORD_LEN};
use callcontrol_tests::library;
use callcontrol_tests::tape::{tape, tape_with_slots, Tape, EVENTS, OUT_LEN};
use callcontrol_tests::yardstick;
use std::hint::black_box;

const ROUNDS: usize = 400;

/// The account as a C host would call it.
#[inline(never)]
unsafe extern "C" fn account_step(
    record: *mut u8,
    record_len: usize,
    event: *const u8,
    event_len: usize,
    out: *mut u8,
    out_len: usize,
) -> u32 {
    boundary::step(
        std::slice::from_raw_parts_mut(record, record_len),
        std::slice::from_raw_parts(event, event_len),
        std::slice::from_raw_parts_mut(out, out_len),
    )
}

type PackedStep = unsafe extern "C" fn(*mut u8, usize, *const u8, usize, *mut u8, usize) -> u32;

#[inline(never)]
fn struct_step(call: &mut Call, event: &[u8], out: &mut [u8]) -> u32 {
    boundary::word(call.step(event, out))
}

/// What a run over the tape gave, so that no one can leave out the work, and all can be seen to
/// have done the same.
#[derive(Clone, Copy, Debug, PartialEq, Eq)]
struct Sum {
    words: u64,
    record: [u8; RECORD_LEN],
}

/// A loop for each side, in which its step is called directly, as a host would.
fn run(tape: &Tape, step: impl Fn(&mut [u8], &[u8], &mut [u8]) -> u32) -> Sum {
    let mut record = Call::FRESH.pack();
    let mut out = [0u8; OUT_LEN];
    let mut words = 0u64;
    for event in tape.events() {
        let word = step(&mut record, event, black_box(&mut out));
        words = words.wrapping_mul(31).wrapping_add(u64::from(word));
    }
    Sum { words, record }
}

fn run_account(tape: &Tape) -> Sum {
    run(tape, |record, event, out| unsafe {
        let (held, size) = (record.as_mut_ptr(), record.len());
        account_step(held, size, event.as_ptr(), event.len(), out.as_mut_ptr(), out.len())
    })
}

fn run_account_struct(tape: &Tape) -> Sum {
    let mut call = Call::FRESH;
    let mut out = [0u8; OUT_LEN];
    let mut words = 0u64;
    for event in tape.events() {
        let word = struct_step(&mut call, event, black_box(&mut out));
        words = words.wrapping_mul(31).wrapping_add(u64::from(word));
    }
    Sum { words, record: call.pack() }
}

pub fn main() {
    let tapes = [("without slots", tape()), ("with slots", tape_with_slots())];
    for (what, tape) in &tapes {
        steps(what, tape);
    }
    fresh();
    readers(&tapes[0].1);

    println!("stack of one step in bytes, the most over each tape (goal: under 1024):");
    println!("  {:<34}{:>14}{:>14}", "", tapes[0].0, tapes[1].0);
    let steps: [(&str, PackedStep); 5] = [
        ("first engine", library::callcontrol_step),
        ("second engine", library::small::small_callcontrol_step),
        ("account, packed record", account_step),
        ("plain C, -O3", yardstick::quick::bare_step),
        ("plain C, -Os", yardstick::small::bare_step),
    ];
    for (name, step) in steps {
        print!("  {name:<34}");
        for (_, tape) in &tapes {
            match stack::deepest(tape, step) {
                Some(bytes) => print!("{bytes:>14}"),
                None => print!("{:>14}", "not measured"),
            }
        }
        println!();
    }
}

/// Both engines beside each other side: nanoseconds, and the ratio of each engine to it.
fn engines<const N: usize>(names: [&str; N], best: [f64; N]) {
    println!("  {:<34}{:>8}{:>15}{:>15}", "", "ns", "first engine/", "second engine/");
    for (name, it) in names.into_iter().zip(best) {
        println!("  {name:<34}{it:>8.1}{:>15.2}{:>15.2}", best[0] / it, best[1] / it);
    }
}

fn steps(what: &str, tape: &Tape) {
    let mut answers = [0u32; 10];
    let mut record = Call::FRESH.pack();
    for event in tape.events() {
        answers[(boundary::step(&mut record, event, &mut [0; OUT_LEN]) >> 24) as usize] += 1;
    }
    println!("a step, tape {what}: {EVENTS} events from fresh, by answer 0 to 9: {answers:?}");
    let times = best(
        what,
        ROUNDS,
        EVENTS,
        [
            &|| run(black_box(tape), library::step),
            &|| run(black_box(tape), library::small::step),
            &|| run_account(black_box(tape)),
            &|| run_account_struct(black_box(tape)),
            &|| run(black_box(tape), yardstick::quick::step),
            &|| run(black_box(tape), yardstick::small::step),
        ],
    );
    println!(
        "best of {ROUNDS} alternating rounds (goal: second engine at most 2 times the first):"
    );
    let names = [
        "first engine",
        "second engine",
        "account, packed record",
        "account, record kept as a struct",
        "plain C, -O3",
        "plain C, -Os",
    ];
    engines(names, times);
}

fn fresh() {
    let (taken, times) = entry(
        "fresh",
        &[(); EVENTS],
        [
            |_, lent| library::fresh(&mut lent[..RECORD_LEN]),
            |_, lent| library::small::fresh(&mut lent[..RECORD_LEN]),
            |_, lent| boundary::fresh(&mut lent[..RECORD_LEN]),
            |_, lent| yardstick::quick::fresh(&mut lent[..RECORD_LEN]),
            |_, lent| yardstick::small::fresh(&mut lent[..RECORD_LEN]),
        ],
    );
    assert_eq!(taken, EVENTS, "each call makes a record");
    println!("fresh: {EVENTS} calls, {taken} taken, best of {ENTRY_ROUNDS} alternating rounds:");
    engines(["first engine", "second engine", "account", "plain C, -O3", "plain C, -Os"], times);
}

/// The other entries for one call, over the events of the tape and over the messages that it writes.
fn readers(tape: &Tape) {
    let mut messages: Vec<Vec<u8>> = Vec::new();
    let mut record = Call::FRESH.pack();
    for event in tape.events() {
        let mut out = [0; OUT_LEN];
        let word = boundary::step(&mut record, event, &mut out);
        let mut rest = &out[..(word & 0xFFFF) as usize];
        while let [low, high, ..] = *rest {
            let (one, behind) = rest.split_at(usize::from(u16::from_le_bytes([low, high])));
            messages.push(one.to_vec());
            rest = behind;
        }
    }
    let events: Vec<Vec<u8>> = tape.events().map(<[u8]>::to_vec).collect();

    let entries: [(&str, &[Vec<u8>], [Entry<Vec<u8>>; 4]); 4] = [
        (
            "check_event",
            &events,
            [
                |bytes, _| library::check_event(bytes),
                |bytes, _| boundary::check_event(bytes),
                |bytes, _| yardstick::quick::check_event(bytes),
                |bytes, _| yardstick::small::check_event(bytes),
            ],
        ),
        (
            "check_message",
            &messages,
            [
                |bytes, _| library::check_message(bytes),
                |bytes, _| boundary::check_message(bytes),
                |bytes, _| yardstick::quick::check_message(bytes),
                |bytes, _| yardstick::small::check_message(bytes),
            ],
        ),
        (
            "copy_event",
            &events,
            [
                |bytes, lent| library::copy_event(bytes, lent),
                |bytes, lent| boundary::copy_event(bytes, lent),
                |bytes, lent| yardstick::quick::copy_event(bytes, lent),
                |bytes, lent| yardstick::small::copy_event(bytes, lent),
            ],
        ),
        (
            "copy_message",
            &messages,
            [
                |bytes, lent| library::copy_message(bytes, lent),
                |bytes, lent| boundary::copy_message(bytes, lent),
                |bytes, lent| yardstick::quick::copy_message(bytes, lent),
                |bytes, lent| yardstick::small::copy_message(bytes, lent),
            ],
        ),
    ];
    head("the other entries for one call", &["account", "C -O3", "C -Os"]);
    for (name, inputs, sides) in entries {
        let (taken, times) = entry(name, inputs, sides);
        line(name, inputs.len(), taken, times);
    }
}

/// The stack a step uses, measured by giving it a painted stack of its own and looking how far
/// down the paint is gone.
mod stack {
    use super::{Call, PackedStep, Tape, OUT_LEN};

    const SIZE: usize = 256 * 1024;

    #[repr(C, align(16))]
    struct Painted([u8; SIZE]);

    pub fn deepest(tape: &Tape, step: PackedStep) -> Option<usize> {
        // Two colours: what is written may happen to be one of them.
        Some(deepest_in(tape, step, 0xA5)?.max(deepest_in(tape, step, 0x5A)?))
    }

    fn deepest_in(tape: &Tape, step: PackedStep, paint: u8) -> Option<usize> {
        let mut stack = Box::new(Painted([paint; SIZE]));
        let top = unsafe { stack.0.as_mut_ptr().add(SIZE) };
        let mut record = Call::FRESH.pack();
        let mut out = [0u8; OUT_LEN];
        for event in tape.events() {
            unsafe { call_on(top, step, &mut record, event, &mut out)? };
        }
        let untouched = stack.0.iter().take_while(|&&byte| byte == paint).count();
        assert!(untouched > 0, "the painted stack was too small");
        Some(SIZE - untouched)
    }

    #[cfg(target_arch = "aarch64")]
    unsafe fn call_on(
        top: *mut u8,
        step: PackedStep,
        record: &mut [u8],
        event: &[u8],
        out: &mut [u8],
    ) -> Option<u32> {
        let word: u64;
        std::arch::asm!(
            "mov x20, sp",
            "mov sp, {top}",
            "blr {step}",
            "mov sp, x20",
            top = in(reg) top,
            step = in(reg) step,
            inout("x0") record.as_mut_ptr() => word,
            in("x1") record.len(),
            in("x2") event.as_ptr(),
            in("x3") event.len(),
            in("x4") out.as_mut_ptr(),
            in("x5") out.len(),
            out("x20") _,
            clobber_abi("C"),
        );
        Some(word as u32)
    }

    #[cfg(target_arch = "x86_64")]
    unsafe fn call_on(
        top: *mut u8,
        step: PackedStep,
        record: &mut [u8],
        event: &[u8],
        out: &mut [u8],
    ) -> Option<u32> {
        let word: u64;
        std::arch::asm!(
            "mov r12, rsp",
            "mov rsp, {top}",
            "call {step}",
            "mov rsp, r12",
            top = in(reg) top,
            step = in(reg) step,
            in("rdi") record.as_mut_ptr(),
            in("rsi") record.len(),
            in("rdx") event.as_ptr(),
            in("rcx") event.len(),
            in("r8") out.as_mut_ptr(),
            in("r9") out.len(),
            out("rax") word,
            out("r12") _,
            clobber_abi("C"),
        );
        Some(word as u32)
    }

    #[cfg(not(any(target_arch = "aarch64", target_arch = "x86_64")))]
    unsafe fn call_on(
        _top: *mut u8,
        _step: PackedStep,
        _record: &mut [u8],
        _event: &[u8],
        _out: &mut [u8],
    ) -> Option<u32> {
        None
    }
}
