//! The C example that reads a serial line prints what calltrace prints for the same bytes, however
//! the line is cut.

use callcontrol_tests::histories::{input, lines, names, root};
use callcontrol_tests::programs::{self, build, run, CC};
use std::fs;
use std::io::Write;
use std::path::{Path, PathBuf};
use std::process::{Command, Stdio};
use std::thread;

fn built(name: &str) -> PathBuf {
    let program = Path::new(env!("CARGO_TARGET_TMPDIR")).join(name);
    let strict = ["-std=c11", "-Wall", "-Wextra", "-Werror"];
    let complaints = build(CC, &strict, "examples/c/serial_line.c", &program);
    assert_eq!(complaints, "");
    program
}

/// What a program prints for some input.
fn printed(mut command: Command, input: &[u8]) -> String {
    let mut running = command
        .stdin(Stdio::piped())
        .stdout(Stdio::piped())
        .spawn()
        .unwrap_or_else(|error| panic!("it does not start: {error}: {command:?}"));
    let mut stdin = running.stdin.take().expect("piped");
    let input = input.to_vec();
    // Beside the reading, so that neither pipe can fill up; a program that has ended at a cut
    // record need not read the rest.
    let writer = thread::spawn(move || {
        let _ = stdin.write_all(&input);
    });
    let output = running.wait_with_output().expect("it ends");
    writer.join().expect("the writer ends");
    String::from_utf8(output.stdout).expect("text")
}

fn serial_line(program: &Path, seed: u32, input: &[u8]) -> String {
    let mut command = run(program);
    command.arg(seed.to_string());
    printed(command, input)
}

#[test]
fn the_papers_example_gives_the_stored_lines() {
    let program = built("serial_line");
    let input = fs::read(root().join("crates/calltrace/stdin")).expect("the file");
    let stored = fs::read_to_string(root().join("examples/c/serial_line.stdout")).expect("it");
    for seed in 0..200 {
        assert_eq!(serial_line(&program, seed, &input), stored, "seed {seed}");
    }
}

/// Every history, which has no length above 64, in several cuttings.
#[test]
fn every_history_gives_calltraces_lines() {
    let program = built("serial_line_histories");
    for name in names() {
        let (input, lines) = (input(&name), lines(&name));
        assert_eq!(printed(programs::calltrace(), &input), lines, "{name}");
        for seed in 0..8 {
            assert_eq!(serial_line(&program, seed, &input), lines, "{name}, seed {seed}");
        }
    }
}

/// A line with many calls: a thousand pieces and more.
#[test]
fn a_long_line_gives_calltraces_lines() {
    let program = built("serial_line_long");
    let once = input("colliding_release");
    let input: Vec<u8> = once.iter().copied().cycle().take(once.len() * 200).collect();
    let expected = printed(programs::calltrace(), &input);
    for seed in 0..4 {
        assert!(serial_line(&program, seed, &input) == expected, "seed {seed}");
    }
}

/// A length above 64 stops the line, where calltrace would go on: the records before it are taken.
#[test]
fn a_length_above_64_stops_the_line() {
    let program = built("serial_line_stop");
    let mut input = vec![0x0A, 0, 0x01, 0x01, 7, 0, 0, 0, 0, 1]; // SETUP request
    input.extend([65, 0]);
    input.extend([0; 63]);
    input.extend([4, 0, 0x01, 0x03]); // REPORT sent
    for seed in 0..50 {
        assert_eq!(
            serial_line(&program, seed, &input),
            "answer state plane bytes place\n0 MO-CALL-SETUP 4 17 0\n2 MO-CALL-SETUP 4 0 0\n",
            "seed {seed}"
        );
    }
}
