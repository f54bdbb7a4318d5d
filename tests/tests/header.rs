//! The C header can be included as strict C11 and as strict C++17, every name in it is used, and
//! its numbers are the library's.

use callcontrol_tests::account::boundary;
use callcontrol_tests::histories::root;
use callcontrol_tests::programs::{build, run, CC, CXX};
use callcontrol_tests::request::{Function, Request};
use callcontrol_tests::sidebyside::Queue;
use std::collections::BTreeSet;
use std::fs;
use std::ops::RangeInclusive;
use std::path::Path;
use std::process::Stdio;
use std::thread;

const STRICT: [&str; 5] = ["-Wall", "-Wextra", "-Wpedantic", "-Werror", "-Wconversion"];

/// Compiles, links with the library, and runs.
fn builds_and_runs(compiler: &str, language: &[&str], name: &str) {
    let program = Path::new(env!("CARGO_TARGET_TMPDIR")).join(name);
    let complaints =
        build(compiler, &[language, &STRICT].concat(), "tests/c/uses_header.c", &program);
    assert_eq!(complaints, "", "{compiler} says something");
    let status = run(&program).status().expect("what was built can be run");
    assert!(status.success(), "{name}: {status}");
}

#[test]
fn the_header_is_strict_c11() {
    builds_and_runs(CC, &["-std=c11"], "uses_header_c11");
}

#[test]
fn the_header_is_strict_cpp17() {
    builds_and_runs(CXX, &["-x", "c++", "-std=c++17"], "uses_header_cpp17");
}

fn the_header() -> String {
    fs::read_to_string(root().join("include/callcontrol.h")).expect("the header")
}

/// The words of a C source outside its comments.
fn words(source: &str) -> BTreeSet<String> {
    let code = source.split("/*").map(|part| part.split_once("*/").map_or(part, |(_, code)| code));
    let apart = |char: char| !char.is_alphanumeric() && char != '_';
    code.flat_map(|code| code.split(apart)).map(str::to_owned).collect()
}

/// All that `tests/c/uses_header.c` leaves out of what the header declares is the header's guard.
#[test]
fn every_name_of_the_header_is_used() {
    let is_ours = |word: &&String| word.to_lowercase().starts_with("callcontrol_");
    let source = fs::read_to_string(root().join("tests/c/uses_header.c")).expect("the source");
    let (declared, used) = (words(&the_header()), words(&source));
    let declared: BTreeSet<&String> = declared.iter().filter(is_ours).collect();
    assert!(declared.len() > 250, "only {} names were found", declared.len());
    let unused: Vec<_> = declared.into_iter().filter(|&name| !used.contains(name)).collect();
    assert_eq!(unused, ["CALLCONTROL_H"]);
}

/// The header with each number an expression: one more than it says for the name whose turn the
/// environment says that it is. With the names in the order of their turns.
fn with_expressions() -> (String, Vec<String>) {
    let (mut header, mut behind, mut names) = (String::new(), String::new(), Vec::new());
    for line in the_header().lines() {
        let constant =
            line.strip_prefix("#define CALLCONTROL_").and_then(|rest| rest.split_once(' '));
        let enumerator = line.trim_start().strip_prefix("CALLCONTROL_");
        let enumerator = enumerator.and_then(|rest| rest.split_once(" = "));
        let Some((name, value)) = constant.or(enumerator) else {
            header += &format!("{line}\n");
            if line == "#define CALLCONTROL_H" {
                header += "#include <stdlib.h>\nstatic int is_wrong(int turn)\n{\n    \
                           const char *wrong = getenv(\"WRONG\");\n    \
                           return wrong != NULL && atoi(wrong) == turn;\n}\n";
            }
            continue;
        };
        let value = value.trim().split([',', ' ']).next().expect("a number");
        behind += &format!("#define CALLCONTROL_{name} ({value} + is_wrong({}))\n", names.len());
        if enumerator.is_some() {
            header += &line.replacen("CALLCONTROL_", "RIGHT_", 1);
            header += "\n";
        }
        names.push(format!("CALLCONTROL_{name}"));
    }
    let end = header.rfind("#endif").expect("the end of the guard");
    header.insert_str(end, &behind);
    (header, names)
}

/// `tests/c/uses_header.c` fails for a wrong number, whatever name has it.
#[test]
fn a_wrong_number_of_any_name_is_noticed() {
    let folder = Path::new(env!("CARGO_TARGET_TMPDIR")).join("wrong_numbers");
    fs::create_dir_all(&folder).expect("a folder");
    let (header, names) = with_expressions();
    assert!(names.len() > 200, "only {} numbers were found", names.len());
    fs::write(folder.join("callcontrol.h"), header).expect("a header is written");
    let program = folder.join("uses_header");
    let include = format!("-I{}", folder.display());
    // An array whose size is an expression is none of strict C11's.
    build(CC, &["-std=gnu11", "-w", &include], "tests/c/uses_header.c", &program);
    let succeeds = |wrong: usize| {
        let mut program = run(&program);
        let ran = program.env("WRONG", wrong.to_string()).stderr(Stdio::null()).status();
        ran.expect("what was built can be run").success()
    };
    assert!(succeeds(names.len()), "with every number right it succeeds");
    let turns: Vec<usize> = (0..names.len()).collect();
    let unnoticed: Vec<&String> = thread::scope(|scope| {
        let each = turns.chunks(names.len().div_ceil(4)).map(|part| {
            scope.spawn(|| part.iter().filter(|&&wrong| succeeds(wrong)).collect::<Vec<_>>())
        });
        let each: Vec<_> = each.collect();
        let unnoticed = each.into_iter().flat_map(|part| part.join().expect("it ran"));
        unnoticed.map(|&at| &names[at]).collect()
    });
    assert!(unnoticed.is_empty(), "{unnoticed:?}");
}

/// Name and value of every enumerator in one enum of the header.
fn enumerators(tag: &str) -> Vec<(String, u32)> {
    let header = the_header();
    let start = header.find(&format!("enum {tag} {{")).unwrap_or_else(|| panic!("no enum {tag}"));
    let body = header[start..].split('}').next().expect("an end");
    body.lines()
        .skip(1)
        .filter_map(|line| line.split_once('='))
        .map(|(name, rest)| {
            let value = rest.trim().split([',', ' ']).next().expect("a value");
            let value = match value.strip_prefix("0x") {
                Some(hex) => u32::from_str_radix(hex, 16),
                None => value.parse(),
            };
            (name.trim().to_owned(), value.expect("a number"))
        })
        .collect()
}

/// The numbers whose record the library's reader answers so.
fn answered(
    reader: Function,
    so: fn(u32) -> bool,
    numbers: RangeInclusive<u32>,
    record: fn(u32) -> Vec<u8>,
) -> BTreeSet<u32> {
    let mut queue = Queue::new();
    let answered = numbers
        .filter(|&number| {
            let record = record(number);
            let check = Request::check(reader, &record, number as u8);
            let said = queue.check(&check, |_, bytes, _| match reader {
                Function::CheckEvent => boundary::check_event(bytes),
                _ => boundary::check_message(bytes),
            });
            so(said.answer)
        })
        .collect();
    queue.finish();
    answered
}

#[test]
fn the_headers_kinds_are_the_librarys_kinds() {
    let tables = [
        ("callcontrol_event_kind", Function::CheckEvent),
        ("callcontrol_message_kind", Function::CheckMessage),
    ];
    for (tag, check) in tables {
        let named: BTreeSet<u32> = enumerators(tag).into_iter().map(|(_, kind)| kind).collect();
        let known = answered(
            check,
            |answer| answer != 3,
            0..=0xFFFF,
            |kind| vec![4, 0, kind as u8, (kind >> 8) as u8],
        );
        assert_eq!(named, known, "{tag}");
    }
}

/// The value of a `#define` of the header that is a number.
fn defined(name: &str) -> u32 {
    let header = the_header();
    let find = |line: &str| {
        let value = line.strip_prefix("#define ")?.strip_prefix(name)?.strip_prefix(' ')?;
        value.split_once('u').expect("an unsigned number").0.parse().ok()
    };
    header.lines().find_map(find).unwrap_or_else(|| panic!("{name} is not defined"))
}

#[test]
fn the_headers_sizes_are_the_librarys() {
    let mut queue = Queue::new();
    for (function, name) in [
        (Function::Fresh, "CALLCONTROL_RECORD_SIZE"),
        (Function::ConsoleFresh, "CALLCONTROL_TABLE_SIZE"),
        (Function::ChannelFresh, "CALLCONTROL_ROOMS_SIZE"),
    ] {
        let bytes = vec![0xEE; defined(name) as usize];
        let said =
            queue.check(
                &Request::of(function, &bytes, &[], 0, 0x11),
                |bytes, _, _| match function {
                    Function::Fresh => boundary::fresh(bytes),
                    Function::ChannelFresh => callcontrol_tests::account::channel::fresh(bytes),
                    _ => callcontrol_tests::account::console::fresh(bytes),
                },
            );
        assert_eq!((said.answer, said.count), (0, bytes.len()), "{name}");
    }
    queue.finish();
    // s, at the end of D-INFO.
    let slots: BTreeSet<u32> = (1..=defined("CALLCONTROL_SLOTS_MAX")).collect();
    let known = answered(
        Function::CheckEvent,
        |answer| answer == 0,
        0..=255,
        |s| vec![10, 0, 0x06, 0x02, 1, 0, 0, 16, 0, s as u8],
    );
    assert_eq!(slots, known);
    let fields = enumerators("callcontrol_field");
    assert_eq!(fields.last(), Some(&("CALLCONTROL_AT_SLOTS".to_owned(), 21)));
}

/// The retired kind keeps its name, and is the only one to be answered with 9.
#[test]
fn the_headers_retired_kind_is_the_librarys() {
    let named: BTreeSet<u32> = enumerators("callcontrol_event_kind")
        .into_iter()
        .filter(|(name, _)| name == "CALLCONTROL_MODIFY_REQUEST")
        .map(|(_, kind)| kind)
        .collect();
    let retired = answered(
        Function::CheckEvent,
        |answer| answer == 9,
        0..=0xFFFF,
        |kind| vec![5, 0, kind as u8, (kind >> 8) as u8, 0],
    );
    assert_eq!((named.len(), named), (1, retired));
    let answers = enumerators("callcontrol_answer");
    assert!(answers.contains(&("CALLCONTROL_RETIRED".to_owned(), 9)));
}

#[test]
fn the_headers_timers_and_planes_are_the_librarys() {
    let timers: BTreeSet<u32> =
        enumerators("callcontrol_timer").into_iter().map(|(_, number)| number).collect();
    let known = answered(
        Function::CheckEvent,
        |answer| answer == 0,
        0..=0xFFFF,
        |n| vec![6, 0, 0x01, 0x04, n as u8, (n >> 8) as u8],
    );
    assert_eq!(timers, known);
    let planes: BTreeSet<u32> =
        enumerators("callcontrol_plane").into_iter().map(|(_, number)| number).collect();
    let known = answered(
        Function::CheckMessage,
        |answer| answer == 0,
        0..=255,
        |p| vec![5, 0, 0x03, 0x06, p as u8],
    );
    assert_eq!(planes, known);
}
