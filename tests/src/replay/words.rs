//! Records, answers and calls in words, all of them from the account's table.

use crate::account::kinds::{self, most_code, size_of, Field, Kind, Takes, PLANES};
use crate::account::records::HEAD_LEN;
use crate::account::{Call, Plane, State, Timer};

/// Text that grows; quicker than formatting, for a million records.
#[derive(Default)]
pub struct Text(pub Vec<u8>);

impl Text {
    pub fn put(&mut self, words: &str) -> &mut Text {
        self.0.extend_from_slice(words.as_bytes());
        self
    }

    pub fn number(&mut self, number: impl Into<u64>) -> &mut Text {
        let (mut digits, mut at, mut left) = ([0; 20], 20, number.into());
        loop {
            at -= 1;
            digits[at] = b'0' + (left % 10) as u8;
            left /= 10;
            if left == 0 {
                break;
            }
        }
        self.0.extend_from_slice(&digits[at..]);
        self
    }

    /// The first few of some bytes, in hex.
    pub fn hex(&mut self, bytes: &[u8]) -> &mut Text {
        const SHOWN: usize = 16;
        const DIGITS: &[u8; 16] = b"0123456789abcdef";
        for (at, &byte) in bytes.iter().take(SHOWN).enumerate() {
            if at > 0 {
                self.put(" ");
            }
            self.0.extend([DIGITS[usize::from(byte >> 4)], DIGITS[usize::from(byte & 15)]]);
        }
        if bytes.len() > SHOWN {
            self.put(" ..");
        }
        self
    }

    pub fn kind(&mut self, kind: u16) -> &mut Text {
        const DIGITS: &[u8; 16] = b"0123456789ABCDEF";
        for shift in [12, 8, 4, 0] {
            self.0.push(DIGITS[usize::from(kind >> shift & 15)]);
        }
        self
    }

    pub fn clear(&mut self) {
        self.0.clear();
    }

    pub fn as_str(&self) -> &str {
        std::str::from_utf8(&self.0).expect("words are put in whole")
    }
}

/// Kinds by their numbers, at once.
pub struct Names {
    kinds: Vec<Option<&'static Kind>>,
}

impl Names {
    pub fn of(table: &'static [Kind]) -> Names {
        let most = table.iter().map(|kind| kind.number).max().unwrap_or(0);
        let mut kinds = vec![None; usize::from(most) + 1];
        for kind in table {
            kinds[usize::from(kind.number)] = Some(kind);
        }
        Names { kinds }
    }

    pub fn get(&self, number: u16) -> Option<&'static Kind> {
        self.kinds.get(usize::from(number)).copied().flatten()
    }
}

/// The kind that a record says it is of.
pub fn kind_of(record: &[u8]) -> Option<u16> {
    record.get(2..HEAD_LEN).map(|kind| u16::from_le_bytes([kind[0], kind[1]]))
}

/// A record in words, whatever it holds: `D-CONNECT i 21, granted, simplex, T310 code 3`.
pub fn record(text: &mut Text, kind: Option<&'static Kind>, record: &[u8]) {
    let body = record.get(HEAD_LEN..).unwrap_or(&[]);
    let Some(kind) = kind else {
        text.put("kind ").kind(kind_of(record).unwrap_or(0));
        if let Some(message) = kind_of(record).and_then(kinds::message) {
            text.put(" (").put(message.name).put(", a message)");
        }
        bytes_of(text, body);
        return;
    };
    text.put(kind.name);
    match kind.body(body.len()) {
        Some(fields) => fields_of(text, fields, body),
        None => bytes_of(text, body),
    }
}

fn bytes_of(text: &mut Text, body: &[u8]) {
    text.put(", body of ").number(body.len() as u64);
    text.put(if body.len() == 1 { " byte" } else { " bytes" });
    if !body.is_empty() {
        text.put(": ").hex(body);
    }
}

fn fields_of(text: &mut Text, fields: &[Field], mut rest: &[u8]) {
    let (mut between, mut first) = (" ", 0);
    for (at, field) in fields.iter().enumerate() {
        let Some(value) = field.value(rest) else { return };
        rest = &rest[field.size..];
        if at == 0 {
            first = value;
        }
        // A timer without codes has none to be told of.
        if field.takes == Takes::CodeOfTimer && value == 0 && most_code(first) == 0 {
            continue;
        }
        text.put(between);
        between = ", ";
        match field.word(value) {
            Some(word) => text.put(word),
            None if field.takes == Takes::Listed => {
                text.0.push(field.letter as u8);
                text.put(" ").number(value)
            }
            None => text.put(field.before).put(" ").number(value),
        };
    }
}

/// What is wrong with a record that is answered 4, at this place.
pub fn bad_body(text: &mut Text, kind: &Kind, record: &[u8], place: u32) {
    let body = &record[HEAD_LEN..];
    let Some(field) = kind.field_at(place as usize, body.len()) else {
        text.put("the body has ").number(body.len() as u64);
        text.put(if body.len() == 1 { " byte, " } else { " bytes, " });
        text.put(kind.name).put(" has ");
        for (at, fields) in kind.bodies.iter().enumerate() {
            text.put(if at > 0 { " or " } else { "" }).number(size_of(fields) as u64);
        }
        return;
    };
    let value = field.value(&record[place as usize..]).unwrap_or(0);
    text.put(field.name).put(" (").put(field.letter.encode_utf8(&mut [0; 4]));
    text.put(") at offset ").number(place).put(" is ").number(value).put(", not ");
    match field.takes {
        Takes::Range(least, most) => {
            text.number(least).put(" to ").number(most);
        }
        Takes::CodeOfTimer => {
            text.put("one of its timer");
        }
        Takes::Listed => {
            for (at, &(number, _)) in field.words.iter().enumerate() {
                let between = match at {
                    0 => "",
                    _ if at + 1 == field.words.len() => " or ",
                    _ => ", ",
                };
                text.put(between).number(number);
            }
        }
    }
}

/// 1 slot, 2 slots.
pub fn slots(text: &mut Text, slots: u8) {
    text.number(slots).put(if slots == 1 { " slot" } else { " slots" });
}

/// State and path. Only an active call has a path that can be other than up.
pub fn state(text: &mut Text, call: &Call) {
    text.put(call.state.name()).put(", path ").put(call.path.name());
}

pub fn plane_name(plane: Plane) -> &'static str {
    PLANES.iter().find(|&&(number, _)| number == plane as u32).map_or("", |&(_, name)| name)
}

pub fn plane(text: &mut Text, plane: Plane) {
    text.number(plane as u8).put(" ").put(plane_name(plane));
}

/// The timers that run; none is said, too.
pub fn timers(text: &mut Text, call: &Call) {
    let mut some = false;
    for &timer in Timer::ALL {
        if call.running(timer) {
            text.put(if some { " T" } else { "T" }).number(timer.number());
            some = true;
        }
    }
    if !some {
        text.put("none");
    }
}

/// What else a call holds.
pub fn held(text: &mut Text, call: &Call) {
    if call.state == State::Idle {
        text.put("none");
        return;
    }
    text.put("i ").number(call.identifier);
    if call.identifier == 0 {
        text.put(" (none yet)");
    }
    text.put(", address ");
    match call.address {
        0 => text.put("unknown"),
        address => text.number(address),
    };
    text.put(if call.mode as u8 == 0 { ", simplex" } else { ", duplex" });
    text.put(", T310 code ").number(call.t310_code);
    text.put(if call.asked { ", asked" } else { ", not asked" });
    text.put(if call.sent { ", sent" } else { ", not sent" });
    if call.state == State::Wait {
        text.put(", kept plane ");
        plane(text, call.kept);
    }
}
