//! The header that builds events and reads messages: it is strict C11 and C++17, every function of it
//! is held against the library, and a number of it that is wrong is noticed.

use callcontrol_tests::account::kinds;
use callcontrol_tests::histories::root;
use callcontrol_tests::programs::{build, run, CC, CXX};
use std::fs;
use std::path::Path;
use std::process::Stdio;

const SOURCE: &str = "tests/c/uses_records.c";
const STRICT: [&str; 5] = ["-Wall", "-Wextra", "-Wpedantic", "-Werror", "-Wconversion"];

fn text(file: &str) -> String {
    fs::read_to_string(root().join(file)).unwrap_or_else(|error| panic!("{file}: {error}"))
}

fn the_header() -> String {
    text("include/callcontrol_records.h")
}

#[test]
fn every_function_agrees_with_the_library_in_c_and_cpp() {
    let languages: [(&str, &[&str]); 2] =
        [(CC, &["-std=c11"]), (CXX, &["-x", "c++", "-std=c++17"])];
    for (at, (compiler, language)) in languages.into_iter().enumerate() {
        let program = Path::new(env!("CARGO_TARGET_TMPDIR")).join(format!("uses_records_{at}"));
        let complaints = build(compiler, &[language, &STRICT].concat(), SOURCE, &program);
        assert_eq!(complaints, "", "{compiler} says something");
        let status = run(&program).status().expect("what was built can be run");
        assert!(status.success(), "{compiler}: {status}");
    }
}

/// The names of the functions that the header defines.
fn functions() -> Vec<String> {
    let header = the_header();
    let defined = header.lines().filter(|line| line.starts_with("static inline "));
    defined
        .map(|line| {
            let before = line.split('(').next().expect("a line");
            before.rsplit([' ', '*']).next().expect("a name").to_owned()
        })
        .collect()
}

#[test]
fn every_function_is_used() {
    let source = text(SOURCE);
    let functions = functions();
    assert!(functions.len() > 70, "only {} were found", functions.len());
    for name in functions {
        assert!(source.contains(&format!("{name}(")), "{name}");
    }
}

/// A kind that is not retired has a builder for each of its bodies, or a reader for each of its fields.
#[test]
fn every_kind_is_there() {
    let functions = functions();
    for kind in kinds::EVENTS.iter().filter(|kind| !kind.is_retired()) {
        let name = kind.name.to_lowercase().replace([' ', '-'], "_");
        let builders = functions.iter().filter(|function| {
            let rest = function.strip_prefix("callcontrol_event_");
            rest.is_some_and(|rest| rest == name || rest == format!("{name}_slots"))
        });
        assert_eq!(builders.count(), kind.bodies.len(), "{}", kind.name);
    }
    for kind in kinds::MESSAGES {
        let name = kind.name.to_lowercase().replace([' ', '-'], "_");
        let fields = kind.bodies.iter().map(|fields| fields.len()).max().expect("a body");
        let readers = functions.iter().filter(|function| {
            let rest = function.strip_prefix(&format!("callcontrol_{name}_"));
            rest.is_some_and(|rest| rest != "has_slots")
        });
        assert_eq!(readers.count(), fields, "{}", kind.name);
    }
}

/// The header with each number in a function an expression: one more than it says for the number
/// whose turn the environment says that it is. With how many there are.
fn with_expressions() -> (String, usize) {
    let (mut header, mut turns) = (String::new(), 0);
    for line in the_header().lines() {
        if line == "#include \"callcontrol.h\"" {
            header += "#include \"callcontrol.h\"\n#include <stdlib.h>\nstatic int is_wrong(int turn)\n{\n    \
                       const char *wrong = getenv(\"WRONG\");\n    \
                       return wrong != NULL && atoi(wrong) == turn;\n}\n";
            continue;
        }
        let mut rest = line;
        if line.starts_with("    ") {
            let is_word = |char: char| char.is_alphanumeric() || char == '_';
            while let Some(at) = rest.find(is_word) {
                let end = rest[at..].find(|char| !is_word(char)).map_or(rest.len(), |len| at + len);
                let word = &rest[at..end];
                header += &rest[..at];
                if word.starts_with(|char: char| char.is_ascii_digit()) {
                    header += &format!("({word} + is_wrong({turns}))");
                    turns += 1;
                } else {
                    header += word;
                }
                rest = &rest[end..];
            }
        }
        header += rest;
        header += "\n";
    }
    (header, turns)
}

#[test]
fn a_wrong_number_is_noticed() {
    let folder = Path::new(env!("CARGO_TARGET_TMPDIR")).join("wrong_records");
    fs::create_dir_all(&folder).expect("a folder");
    let (header, turns) = with_expressions();
    assert!(turns > 120, "only {turns} numbers were found");
    fs::write(folder.join("callcontrol_records.h"), header).expect("a header is written");
    let program = folder.join("uses_records");
    let include = format!("-I{}", folder.display());
    build(CC, &["-std=gnu11", "-w", &include], SOURCE, &program);
    let succeeds = |wrong: usize| {
        let mut program = run(&program);
        let ran = program.env("WRONG", wrong.to_string()).stderr(Stdio::null()).status();
        ran.expect("what was built can be run").success()
    };
    assert!(succeeds(turns), "with every number right it succeeds");
    let unnoticed: Vec<usize> = (0..turns).filter(|&wrong| succeeds(wrong)).collect();
    assert!(unnoticed.is_empty(), "{unnoticed:?}");
}
