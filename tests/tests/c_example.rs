//! Every C example builds against the library without a warning and prints what it is said to print.

use callcontrol_tests::histories::root;
use callcontrol_tests::programs::{build, run, run_within, CC, LIMITS};
use std::fs;
use std::path::Path;

/// All warnings that a host may have switched on.
const STRICT: [&str; 7] =
    ["-std=c11", "-O2", "-Wall", "-Wextra", "-Wpedantic", "-Wconversion", "-Werror"];

/// What an example prints, on the event file of the program calltrace for one that reads.
fn printed(name: &str) -> String {
    let program = Path::new(env!("CARGO_TARGET_TMPDIR")).join(format!("example_{name}"));
    let complaints = build(CC, &STRICT, &format!("examples/c/{name}.c"), &program);
    assert_eq!(complaints, "", "{name}");
    let events = fs::read(root().join("crates/calltrace/stdin")).expect("the event file");
    let ran = run_within(run(&program), Some(&events), &LIMITS);
    assert!(ran.status.success(), "{name}: {}", ran.status);
    assert_eq!(ran.stderr, "", "{name}");
    ran.stdout
}

fn stored(name: &str) -> String {
    let path = root().join(format!("examples/c/{name}.stdout"));
    fs::read_to_string(&path).unwrap_or_else(|error| panic!("{}: {error}", path.display()))
}

#[test]
fn every_example_prints_what_it_is_said_to_print() {
    let mut names: Vec<String> = fs::read_dir(root().join("examples/c"))
        .expect("the folder of examples")
        .map(|entry| entry.expect("a file in it").path())
        .filter(|path| path.extension().is_some_and(|ending| ending == "c"))
        .map(|path| path.file_stem().expect("a name").to_string_lossy().into_owned())
        .collect();
    names.sort();
    assert!(names.len() >= 5, "only these were found: {names:?}");
    for name in names {
        assert_eq!(printed(&name), stored(&name), "{name}");
    }
}

/// The counter wraps in the middle of both examples with timers: the first readings shown are before
/// the wrap, the last behind it.
#[test]
fn the_counter_wraps_in_the_examples_with_timers() {
    for name in ["timed_call", "console_timed"] {
        let lines = stored(name);
        let readings: Vec<&str> = lines.lines().filter(|line| !line.starts_with(' ')).collect();
        assert!(readings[0].starts_with("FFFF"), "{name}");
        assert!(readings[readings.len() - 1].starts_with("0000"), "{name}");
    }
}
