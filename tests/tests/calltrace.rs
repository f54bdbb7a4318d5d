//! The program calltrace prints, for each history, exactly the lines that the paper gives.
//!
//! The lines were written by hand from the paper; one test shows that the account and the library
//! make the same of them, so a wrong line cannot hide behind a wrong program.

use callcontrol_tests::account::{boundary, Call};
use callcontrol_tests::histories::{input, lines, names, root, trace};
use callcontrol_tests::library;
use callcontrol_tests::programs::{self, run_within, Limits, Ran, LIMITS};
use std::env;
use std::fs::{self, File};
use std::process::{Command, Stdio};
use std::time::Duration;

/// What it prints. It ends by itself, within the limits, and has nothing to complain of.
fn calltrace(input: &[u8]) -> String {
    let ran = run_within(programs::calltrace(), Some(input), &LIMITS);
    assert!(ran.status.success(), "{}: {}", ran.status, ran.stderr);
    assert_eq!(ran.stderr, "", "written to standard error");
    ran.stdout
}

#[track_caller]
fn prints(name: &str) {
    assert_eq!(calltrace(&input(name)), lines(name), "{name}");
}

macro_rules! histories {
    ($($name:ident)+) => {
        $(
            #[test]
            fn $name() {
                prints(stringify!($name));
            }
        )+

        const TESTED: &[&str] = &[$(stringify!($name)),+];
    };
}

histories! {
    checked_example
    whole_call
    set_up_outgoing
    set_up_incoming
    set_up_abandoned
    queue_and_grant
    pause_and_continue
    break_active
    break_restoring
    break_wait
    two_breaks
    colliding_release
    modify
    no_limit_outgoing
    no_limit_restored
    own_transmission
    slots
    older_set
    expiry_t301
    expiry_t302
    expiry_t303
    expiry_t306
    expiry_t308
    expiry_t310
    expiry_t311
    damaged_input
    cut_stray_byte
    cut_record
    cut_length_alone
    cut_kind
    length_under_4
    length_zero
    empty
}

#[test]
fn every_history_is_tested_and_account_and_library_give_its_lines() {
    let mut tested = TESTED.to_vec();
    tested.sort();
    assert_eq!(names(), tested);
    for name in tested {
        let (input, lines) = (input(name), lines(name));
        let fresh = Call::FRESH.pack();
        assert_eq!(trace(&input, fresh, boundary::step), lines, "account, {name}");
        assert_eq!(trace(&input, fresh, library::step), lines, "library, {name}");
    }
}

/// Whole records as long as the length field allows are answered and passed over.
#[test]
fn records_of_65535_bytes() {
    let long = |kind: [u8; 2]| {
        let mut record = vec![0x04; 65535];
        record[..2].copy_from_slice(&[0xFF, 0xFF]);
        record[2..4].copy_from_slice(&kind);
        record
    };
    let mut input = vec![0x0A, 0, 0x01, 0x01, 7, 0, 0, 0, 0, 1]; // SETUP request
    input.extend(long([0x03, 0x03])); // BREAK with 65531 bytes of body
    input.extend([4, 0, 0x01, 0x03]); // REPORT sent
    input.extend(long([0x05, 0x03])); // no event kind
    input.extend([9, 0, 0x03, 0x02, 21, 0, 0, 0, 3]); // D-CONNECT
    assert_eq!(
        calltrace(&input),
        "answer state plane bytes place\n\
         0 MO-CALL-SETUP 4 17 0\n\
         4 MO-CALL-SETUP 4 0 2\n\
         0 MO-CALL-SETUP 4 0 0\n\
         3 MO-CALL-SETUP 4 0 0\n\
         0 CALL-ACTIVE 1 32 0\n"
    );
    // The same, cut one byte before its end.
    let mut input = long([0x03, 0x03]);
    input.pop();
    assert_eq!(calltrace(&input), "answer state plane bytes place\n2 IDLE 4 0 0\n");
}

/// Two thousand calls one after another: the program must not run out of what it holds them in.
#[test]
fn a_long_history_goes_through() {
    let once = input("colliding_release");
    let mut input = Vec::new();
    for _ in 0..2000 {
        input.extend(&once);
    }
    let expected = trace(&input, Call::FRESH.pack(), boundary::step);
    let printed = calltrace(&input);
    assert!(printed == expected, "2000 times colliding_release is printed otherwise");
}

/// The input that is kept with the program, which `rt ci` runs it on, ends with a cut record.
#[test]
fn the_stored_input() {
    let stored = |name| fs::read(root().join("crates/calltrace").join(name)).expect("it is stored");
    let (input, expected) = (stored("stdin"), stored("stdout"));
    let expected = String::from_utf8(expected).expect("it is text");
    assert_eq!(trace(&input, Call::FRESH.pack(), boundary::step), expected);
    assert_eq!(calltrace(&input), expected);
}

/// An input that cannot be read is told, and counts as ended. What is told is the only sign.
#[test]
fn an_input_that_cannot_be_read() {
    let mut command = programs::calltrace();
    command.stdin(File::open(root()).expect("a folder, which is no input"));
    let ran = run_within(command, None, &LIMITS);
    assert_eq!(ran.stdout, "answer state plane bytes place\n");
    assert_eq!(ran.stderr, "calltrace: standard input cannot be read\n");
    assert!(ran.status.success(), "the language has no exit status");
}

/// An output that cannot be written is told once, and ends the program, at whatever line that is.
#[test]
fn an_output_that_cannot_be_written() {
    let long = input("colliding_release").repeat(2000);
    for input in [input("checked_example"), long] {
        let mut command = Command::new("sh");
        command.arg("-c").arg("exec \"$@\" >/dev/full").arg("sh");
        let calltrace = programs::calltrace();
        command.arg(calltrace.get_program()).args(calltrace.get_args());
        let ran = run_within(command, Some(&input), &LIMITS);
        assert_eq!(ran.stdout, "");
        assert_eq!(ran.stderr, "calltrace: standard output cannot be written\n");
        assert!(ran.status.success(), "the language has no exit status");
    }
}

/// Runs the program with a `write` of the tests' own, which takes one byte of the output at a time, and none behind the first `most`.
fn run_with_short_writes(input: &[u8], most: usize) -> Ran {
    let x86 = cfg!(target_arch = "x86_64");
    let name = format!("short_write-{most}-{}-{}.so", input.len(), std::process::id());
    let object = env::temp_dir().join(name);
    let mut compile = Command::new(if x86 { "gcc" } else { "x86_64-linux-gnu-gcc" });
    compile.args(["-std=gnu11", "-O2", "-Wall", "-Wextra", "-Werror", "-fno-builtin"]);
    compile.args(["-shared", "-fPIC", "-nostdlib"]).arg(format!("-DMOST={most}"));
    compile.arg(root().join("tests/c/short_write.c")).arg("-o").arg(&object);
    let compiled = compile.output().unwrap_or_else(|error| panic!("{error}: {compile:?}"));
    assert!(compiled.status.success(), "{}", String::from_utf8_lossy(&compiled.stderr));
    let mut command = programs::calltrace();
    match x86 {
        true => command.env("LD_PRELOAD", &object),
        false => command.env("QEMU_SET_ENV", format!("LD_PRELOAD={}", object.display())),
    };
    let ran = run_within(command, Some(input), &LIMITS);
    let _ = fs::remove_file(object);
    ran
}

/// Where a write takes less than it was given, the program goes on behind that, and each line comes out once.
#[test]
fn an_output_that_takes_one_byte_at_a_time() {
    for input in [input("checked_example"), input("colliding_release").repeat(1000)] {
        let ran = run_with_short_writes(&input, 1 << 30);
        assert_eq!(ran.stderr, "");
        let expected = trace(&input, Call::FRESH.pack(), boundary::step);
        assert!(ran.stdout == expected, "not each line once, behind a short write");
    }
}

/// Where the output fails behind short writes, that is told, and what came before stands. So that `write` is the one that runs.
#[test]
fn an_output_that_fails_behind_short_writes() {
    let long = input("colliding_release").repeat(1000);
    for (input, most) in [(input("whole_call"), 300), (long, 100_000)] {
        let ran = run_with_short_writes(&input, most);
        assert_eq!(ran.stderr, "calltrace: standard output cannot be written\n");
        let expected = trace(&input, Call::FRESH.pack(), boundary::step);
        assert!(ran.stdout == expected[..most], "something else than its first {most} bytes");
    }
}

/// The limits hold: a program that goes on or writes on fails a test, and does not hang it.
#[test]
#[should_panic(expected = "goes on for too long")]
fn a_program_that_goes_on_is_ended() {
    let mut command = Command::new("sleep");
    command.arg("600").stdin(Stdio::null());
    run_within(command, None, &Limits { time: Duration::from_millis(100), ..LIMITS });
}

#[test]
#[should_panic(expected = "writes too much")]
fn a_program_that_writes_on_is_ended() {
    let mut command = Command::new("yes");
    command.stdin(Stdio::null());
    run_within(command, None, &Limits { bytes: 1 << 16, ..LIMITS });
}
