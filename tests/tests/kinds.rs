//! The account's table of kinds, names and fields is the header's and the library's: every kind has
//! its name, letters and numbers there, and every field takes just the values that the library takes.

use callcontrol_tests::account::kinds::{
    most_code, size_of, Field, Kind, Takes, ANSWERS, EVENTS, MESSAGES,
};
use callcontrol_tests::histories::root;
use callcontrol_tests::request::{self, Function, Request};
use callcontrol_tests::{library, replay};
use std::collections::BTreeMap;
use std::fs;

const TABLES: [(&[Kind], Function, &str); 2] = [
    (EVENTS, Function::CheckEvent, "callcontrol_event_kind"),
    (MESSAGES, Function::CheckMessage, "callcontrol_message_kind"),
];

/// Name, number and comment of each entry of an enum of the header.
fn entries(tag: &str) -> Vec<(String, u32, String)> {
    let header = fs::read_to_string(root().join("include/callcontrol.h")).expect("the header");
    let start = header.find(&format!("enum {tag} {{")).unwrap_or_else(|| panic!("no enum {tag}"));
    let body = header[start..].split("};").next().expect("an end");
    body.lines()
        .skip(1)
        .filter_map(|line| line.split_once('='))
        .map(|(name, rest)| {
            let value = rest.trim().split([',', ' ']).next().expect("a value");
            let value = match value.strip_prefix("0x") {
                Some(hex) => u32::from_str_radix(hex, 16),
                None => value.parse(),
            };
            let comment = rest.split_once("/*").map_or("", |(_, comment)| comment);
            let name = name.trim().trim_start_matches("CALLCONTROL_").to_owned();
            (name, value.expect("a number"), comment.trim_end_matches("*/").trim().to_owned())
        })
        .collect()
}

/// A name of the paper as the header writes it.
fn in_header(name: &str) -> String {
    name.to_uppercase().replace(['-', ' '], "_")
}

#[test]
fn every_kind_of_the_header_is_in_the_table_with_its_name_and_letters() {
    for (table, _, tag) in TABLES {
        let named: BTreeMap<u32, (String, String)> =
            entries(tag).into_iter().map(|(name, kind, letters)| (kind, (name, letters))).collect();
        let known: Vec<u32> = table.iter().map(|kind| u32::from(kind.number)).collect();
        assert_eq!(known, named.keys().copied().collect::<Vec<_>>(), "{tag}, by rising number");
        for kind in table {
            let (name, comment) = &named[&u32::from(kind.number)];
            assert_eq!(&in_header(kind.name), name);
            if kind.is_retired() {
                assert!(comment.starts_with("retired"), "{name}: {comment}");
                continue;
            }
            // The letters stand first; what they mean may follow.
            let longest = kind.bodies.last().expect("a body");
            let letters: String = longest.iter().map(|field| field.letter).collect();
            let said = comment.split([':', ',']).next().expect("a first part");
            let said: String = said.split_whitespace().take_while(|word| word.len() == 1).collect();
            assert_eq!(letters, said, "{name}");
        }
    }
}

/// Words of a table as the header names them, with their numbers.
fn words(kind: u16, letter: char) -> Vec<(String, u32)> {
    let (events, _, _) = TABLES[0];
    let (messages, _, _) = TABLES[1];
    let kind = events.iter().chain(messages).find(|known| known.number == kind).expect("a kind");
    let longest = kind.bodies.last().expect("a body");
    let field = longest.iter().find(|field| field.letter == letter).expect("a letter");
    field.words.iter().map(|&(number, word)| (in_header(word), number)).collect()
}

/// Words of fields that have an enum of their own in the header.
#[test]
fn values_have_the_names_of_the_header() {
    let named = |tag: &str, before: &str| -> Vec<(String, u32)> {
        let plain = |name: String| name.trim_start_matches(before).to_owned();
        entries(tag).into_iter().map(|(name, value, _)| (plain(name), value)).collect()
    };
    assert_eq!(words(0x0205, 'd'), named("callcontrol_mode", ""));
    assert_eq!(words(0x0207, 'g'), named("callcontrol_grant", ""));
    assert_eq!(words(0x0706, 'c'), named("callcontrol_cause", ""));
    assert_eq!(words(0x0401, 'n'), named("callcontrol_timer", ""));
    assert_eq!(words(0x0603, 'p'), named("callcontrol_plane", "PLANE_"));
    // Below 4 the TX indication is the grant; above, the table says more than the header's names.
    let indications = words(0x0708, 'x');
    assert_eq!(indications[..4], words(0x0207, 'g'));
    let begin = |(name, number): &(String, u32)| {
        (name.split('_').next().expect("a word").to_owned(), *number)
    };
    let named: Vec<_> = named("callcontrol_tx_indication", "TX_").iter().map(begin).collect();
    assert_eq!(indications[4..].iter().map(begin).collect::<Vec<_>>(), named);
}

#[test]
fn answers_are_those_of_the_header() {
    let named: Vec<(u32, String)> =
        entries("callcontrol_answer").into_iter().map(|(name, number, _)| (number, name)).collect();
    let known: Vec<(u32, String)> =
        ANSWERS.iter().map(|&(number, name, _)| (number, name.to_owned())).collect();
    assert_eq!(known, named);
}

/// Records for a reader of the library, with the word expected of each.
#[derive(Default)]
struct Checks {
    batch: Vec<u8>,
    expected: Vec<u32>,
}

impl Checks {
    fn add(&mut self, reader: Function, record: &[u8], answer: u32, place: usize) {
        Request::check(reader, record, 0).push(&mut self.batch);
        self.expected.push(answer << 24 | (place as u32) << 16);
    }

    fn made(self) -> usize {
        let mut done = Vec::new();
        library::perform(&self.batch, &mut done);
        let count = self.expected.len();
        for (frame, expected) in request::each(&done).zip(self.expected) {
            assert_eq!(
                request::word(frame),
                expected,
                "answer and place {:#x}, {}",
                request::word(frame),
                request::describe(frame)
            );
        }
        count
    }
}

fn record(kind: u16, fields: &[Field], values: &[u32]) -> Vec<u8> {
    let len = (4 + size_of(fields)) as u16;
    let mut record = [len.to_le_bytes(), kind.to_le_bytes()].concat();
    for (field, value) in fields.iter().zip(values) {
        record.extend(&value.to_le_bytes()[..field.size]);
    }
    record
}

/// The least and the greatest value of a field.
fn limits(field: &Field, first: u32) -> (u32, u32) {
    match field.takes {
        Takes::Range(least, most) => (least, most),
        Takes::CodeOfTimer => (0, most_code(first)),
        Takes::Listed => (field.words[0].0, field.words[field.words.len() - 1].0),
    }
}

#[test]
fn every_field_takes_what_the_library_takes() {
    let mut checks = Checks::default();
    for (table, reader, _) in TABLES {
        for kind in table {
            for fields in kind.bodies {
                for (at, field) in fields.iter().enumerate() {
                    // Every first value where the limits of another field hang on it, else one.
                    let firsts: Vec<u32> = match field.takes {
                        Takes::CodeOfTimer => fields[0].words.iter().map(|&(n, _)| n).collect(),
                        _ => vec![limits(&fields[0], 0).0],
                    };
                    for first in firsts {
                        let mut values: Vec<u32> =
                            fields.iter().map(|field| limits(field, first).0).collect();
                        values[0] = first;
                        let place = 4 + size_of(&fields[..at]);
                        let (least, most) = limits(field, first);
                        let top = u32::MAX >> (32 - 8 * field.size);
                        // All of a byte; of a larger one the limits, what is beside them, and the edges.
                        let tried: Vec<u32> = match field.size {
                            1 => (0..=255).collect(),
                            2 => (0..=u32::from(u16::MAX)).collect(),
                            _ => vec![0, 1, least, most - 1, most, most + 1, top - 1, top],
                        };
                        for value in tried {
                            values[at] = value;
                            let takes = field.takes(value, first);
                            let (answer, place) = match takes {
                                _ if kind.is_retired() => (9, 0),
                                true => (0, 0),
                                false => (4, place),
                            };
                            checks.add(
                                reader,
                                &record(kind.number, fields, &values),
                                answer,
                                place,
                            );
                        }
                    }
                }
            }
        }
    }
    assert!(checks.made() > 1_000_000);
}

/// A body of another size than the table's is refused for its size.
#[test]
fn every_kind_has_the_sizes_of_the_table_and_no_other() {
    let mut checks = Checks::default();
    for (table, reader, _) in TABLES {
        for number in 0..=u16::MAX {
            let kind = table.iter().find(|kind| kind.number == number);
            let sizes = if kind.is_some() { 0..20 } else { 0..1 };
            for size in sizes {
                let values: Option<Vec<u32>> = kind
                    .and_then(|kind| kind.body(size))
                    .map(|fields| fields.iter().map(|field| limits(field, 0).0).collect());
                match (kind, values) {
                    (None, _) => {
                        checks.add(reader, &record(number, &[], &[]), 3, 0);
                    }
                    (Some(kind), Some(values)) => {
                        let fields = kind.body(size).expect("it was just found");
                        let answer = if kind.is_retired() { 9 } else { 0 };
                        checks.add(reader, &record(number, fields, &values), answer, 0);
                    }
                    (Some(kind), None) => {
                        let mut record = record(number, &[], &[]);
                        record.resize(4 + size, 0);
                        record[0] = record.len() as u8;
                        let (answer, place) = if kind.is_retired() { (9, 0) } else { (4, 2) };
                        checks.add(reader, &record, answer, place);
                    }
                }
            }
        }
    }
    assert!(checks.made() > 2 * 65536);
}

/// A console looks at the place beside an event just where the table says that the event names one.
#[test]
fn events_that_name_a_place() {
    for kind in EVENTS {
        let fields = kind.bodies[0];
        let values: Vec<u32> = fields.iter().map(|field| limits(field, 0).0).collect();
        let mut file = vec![9];
        file.extend(record(kind.number, fields, &values));
        let options = replay::Options { console: true, ..replay::Options::default() };
        let mut text = Vec::new();
        replay::run(&file[..], &options, &mut text).expect("nothing fails");
        let text = String::from_utf8(text).expect("it is text");
        assert_eq!(text.contains("answer   40:"), kind.names_place(), "{}: {text}", kind.name);
    }
}
