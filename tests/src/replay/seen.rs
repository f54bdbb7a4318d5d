//! One record of a file with all that came of it.

use super::source::Fault;
use super::words::{self, kind_of, Names, Text};
use crate::account::console::{Console, Goes, PLACES, TABLE_LEN};
use crate::account::kinds::{Kind, EVENTS};
use crate::account::records::{Event, HEAD_LEN};
use crate::account::{Call, RECORD_LEN};
use crate::library;

pub struct Seen<'a> {
    /// Counted from 1.
    pub number: u64,
    pub offset: u64,
    pub line: Option<u64>,
    pub fault: Option<Fault>,
    /// Of a console: the byte before the record; none where the file ends before it.
    pub place: Option<u8>,
    pub bytes: &'a [u8],
    pub kind: Option<&'static Kind>,
    pub answer: u32,
    /// The place in the result: where the record is wrong.
    pub bad: u32,
    /// What it was taken by, or what refused it; nothing where a console found no place for it.
    pub parts: &'a [Part<'a>],
    /// The calls before it: one, or a console's eight.
    pub before: &'a [Call],
}

/// A call that a record went to.
#[derive(Clone, Copy)]
pub struct Part<'a> {
    pub place: usize,
    pub before: Call,
    pub after: Call,
    pub messages: &'a [u8],
}

impl Seen<'_> {
    pub fn taken(&self) -> bool {
        self.answer == 0
    }

    /// Name of the event; a TX request says which, and an expiry its timer.
    pub fn name(&self, text: &mut Text) {
        match self.kind {
            Some(kind) if matches!(kind.number, TX_REQUEST | EXPIRY) => {
                words::record(text, Some(kind), self.bytes);
            }
            Some(kind) => {
                text.put(kind.name);
            }
            None => {
                text.put("a record of no event kind");
            }
        }
    }

    /// The i of a network event.
    pub fn identifier(&self) -> Option<u16> {
        let fields = self.kind?.body(self.bytes.len() - HEAD_LEN)?;
        let first = fields.first().filter(|field| field.letter == 'i')?;
        first.value(&self.bytes[HEAD_LEN..]).map(|i| i as u16)
    }
}

const TX_REQUEST: u16 = 0x0104;
const EXPIRY: u16 = 0x0401;

/// Whole messages, one after another.
pub fn messages(mut bytes: &[u8]) -> impl Iterator<Item = &[u8]> {
    std::iter::from_fn(move || {
        let len = u16::from_le_bytes([*bytes.first()?, *bytes.get(1)?]) as usize;
        let (message, rest) = bytes.split_at(len.max(HEAD_LEN).min(bytes.len()));
        bytes = rest;
        Some(message)
    })
}

const PLACE: u16 = 0x0605;

/// The calls as they stand, from which each result of the library is seen.
pub struct Watch {
    console: bool,
    events: Names,
    calls: Vec<Call>,
    raw: Vec<u8>,
}

impl Watch {
    pub fn new(console: bool) -> Watch {
        let places = if console { PLACES } else { 1 };
        let calls = vec![Call::FRESH; places];
        let raw = Call::FRESH.pack().repeat(places);
        Watch { console, events: Names::of(EVENTS), calls, raw }
    }

    /// Shows one record with its result (word, record or table after it, messages) to `with`.
    pub fn see(
        &mut self,
        (number, offset, line, fault): (u64, u64, Option<u64>, Option<Fault>),
        bytes: &[u8],
        result: &[u8],
        with: impl FnOnce(&Seen),
    ) {
        let word = u32::from_le_bytes(result[..4].try_into().expect("a word"));
        let len = if self.console { TABLE_LEN } else { RECORD_LEN };
        let (after, messages) = result[4..].split_at(len);
        let (place, bytes) = match (self.console, bytes) {
            (true, [place, event @ ..]) => (Some(*place), event),
            _ => (None, bytes),
        };
        let kind = kind_of(bytes).and_then(|kind| self.events.get(kind));
        let (answer, _) = library::split(word);

        let mut parts =
            [Part { place: 0, before: Call::FRESH, after: Call::FRESH, messages: &[] }; PLACES];
        let mut count = 0;
        if !self.console {
            let before = self.calls[0];
            parts[0] = Part { place: 0, before, after: self.moved(0, after), messages };
            count = 1;
        } else if answer == 0 {
            let mut written = split_by_place(messages);
            for (at, written) in written.iter_mut().enumerate() {
                let range = at * RECORD_LEN..(at + 1) * RECORD_LEN;
                if after[range.clone()] != self.raw[range.clone()] || !written.is_empty() {
                    let before = self.calls[at];
                    let after = self.moved(at, &after[range]);
                    parts[count] = Part { place: at, before, after, messages: written };
                    count += 1;
                }
            }
        } else if let Some(at) = self.refused_at(place, bytes, answer) {
            let call = self.calls[at];
            parts[0] = Part { place: at, before: call, after: call, messages: &[] };
            count = 1;
        }
        let seen = Seen {
            number,
            offset,
            line,
            fault,
            place,
            bytes,
            kind,
            answer,
            bad: library::place(word),
            parts: &parts[..count],
            before: &self.calls,
        };
        with(&seen);
        for part in &parts[..count] {
            self.calls[part.place] = part.after;
        }
        self.raw.copy_from_slice(after);
    }

    /// As they stand now.
    pub fn calls(&self) -> &[Call] {
        &self.calls
    }

    /// The call in these bytes; where they are as before, the same as before.
    fn moved(&self, at: usize, bytes: &[u8]) -> Call {
        let range = at * RECORD_LEN..(at + 1) * RECORD_LEN;
        if self.raw[range] == *bytes {
            return self.calls[at];
        }
        Call::unpack(bytes).expect("the library gives call records")
    }

    /// The place whose state refused a console's event, or that holds its identifier already.
    fn refused_at(&self, place: Option<u8>, event: &[u8], answer: u32) -> Option<usize> {
        let calls = <[Call; PLACES]>::try_from(&self.calls[..]).ok()?;
        let event = Event::read(event).ok()?;
        match (Console { calls }).goes(place?, event) {
            Ok(Goes::To(at)) => Some(at),
            _ if answer == HELD => {
                let Event::DSetup { i, .. } = event else { return None };
                self.calls.iter().position(|call| call.identifier == i)
            }
            _ => None,
        }
    }
}

const HELD: u32 = 41;

/// The messages behind each record 0605.
fn split_by_place(all: &[u8]) -> [&[u8]; PLACES] {
    let mut by_place: [&[u8]; PLACES] = [&[]; PLACES];
    let (mut at, mut from, mut place) = (0, 0, None);
    for message in messages(all) {
        if kind_of(message) == Some(PLACE) {
            if let Some(place) = place {
                by_place[place] = &all[from..at];
            }
            place = message.get(HEAD_LEN).map(|&place| usize::from(place) % PLACES);
            from = at + message.len();
        }
        at += message.len();
    }
    if let Some(place) = place {
        by_place[place] = &all[from..at];
    }
    by_place
}
