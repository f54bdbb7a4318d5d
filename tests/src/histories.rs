//! Histories kept as files: what goes in as hex with comments, what must be printed as lines.

use crate::account::{State, RECORD_LEN};
use crate::library;
use std::fs;
use std::path::PathBuf;

/// The repository root, from which the tests name what they build or run.
pub fn root() -> PathBuf {
    PathBuf::from(env!("CARGO_MANIFEST_DIR")).join("..")
}

fn file(name: &str, ending: &str) -> String {
    let path = PathBuf::from(env!("CARGO_MANIFEST_DIR")).join("histories").join(name);
    let path = path.with_extension(ending);
    fs::read_to_string(&path).unwrap_or_else(|error| panic!("{}: {error}", path.display()))
}

/// The bytes of a history.
pub fn input(name: &str) -> Vec<u8> {
    bytes_of(&file(name, "hex"))
}

/// What calltrace must print for it.
pub fn lines(name: &str) -> String {
    file(name, "lines")
}

/// Every history there is.
pub fn names() -> Vec<String> {
    let folder = PathBuf::from(env!("CARGO_MANIFEST_DIR")).join("histories");
    let mut names: Vec<String> = fs::read_dir(folder)
        .expect("the folder of histories")
        .map(|entry| entry.expect("a file in it").path())
        .filter(|path| path.extension().is_some_and(|ending| ending == "hex"))
        .map(|path| path.file_stem().expect("a name").to_string_lossy().into_owned())
        .collect();
    names.sort();
    names
}

/// Hex digits in pairs; `#` begins a comment, blanks are for the eye.
pub fn bytes_of(hex: &str) -> Vec<u8> {
    let digits: Vec<u8> = hex
        .lines()
        .flat_map(|line| line.split('#').next().expect("split gives at least one").chars())
        .filter(|char| !char.is_whitespace())
        .map(|char| char.to_digit(16).unwrap_or_else(|| panic!("{char:?} is no hex digit")) as u8)
        .collect();
    assert!(digits.len().is_multiple_of(2), "half a byte");
    digits.chunks(2).map(|pair| pair[0] << 4 | pair[1]).collect()
}

/// What the paper says calltrace prints, with the steps made by `step` (record, event, out).
pub fn trace(
    mut input: &[u8],
    mut record: [u8; RECORD_LEN],
    step: impl Fn(&mut [u8], &[u8], &mut [u8]) -> u32,
) -> String {
    let mut lines = String::from("answer state plane bytes place\n");
    let mut line = |word: u32, record: &[u8; RECORD_LEN]| {
        let state = State::from_number(record[0]).expect("a state");
        let ((answer, count), place) = (library::split(word), library::place(word));
        lines += &format!("{answer} {} {} {count} {place}\n", state.name(), record[11]);
    };
    while !input.is_empty() {
        let len = match *input {
            [low, high, ..] => u16::from_le_bytes([low, high]) as usize,
            _ => 0,
        };
        if len < 4 || len > input.len() {
            line(2 << 24, &record);
            break;
        }
        let (event, rest) = input.split_at(len);
        let word = step(&mut record, event, &mut [0; 64]);
        line(word, &record);
        input = rest;
    }
    lines
}
