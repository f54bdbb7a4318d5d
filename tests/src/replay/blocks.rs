//! A block of plain text for each record: what it was, what came of it, and how the call then stood.

use super::seen::{messages, Part, Seen};
use super::source::Fault;
use super::words::{self, kind_of, Names, Text};
use crate::account::kinds::{self, Party, MESSAGES};
use crate::account::State;

pub struct Blocks {
    messages: Names,
}

impl Blocks {
    pub fn new() -> Blocks {
        Blocks { messages: Names::of(MESSAGES) }
    }

    pub fn block<'a>(&self, text: &mut Text, seen: &Seen, comments: impl Iterator<Item = &'a str>) {
        self.title(text, seen);
        for comment in comments {
            text.put("  # ").put(comment).put("\n");
        }
        text.put("  answer   ").number(seen.answer).put(": ");
        answer(text, seen);
        text.put("\n");
        match (seen.place, seen.parts) {
            (None, [part]) => self.part(text, seen, part, "  "),
            (Some(_), []) => places(text, seen),
            (_, parts) => {
                for part in parts {
                    text.put("  place ").number(part.place as u64).put("\n");
                    self.part(text, seen, part, "    ");
                }
            }
        }
        text.put("\n");
    }

    fn title(&self, text: &mut Text, seen: &Seen) {
        text.put("Record ").number(seen.number).put(" at offset ").number(seen.offset);
        if let Some(line) = seen.line {
            text.put(", line ").number(line);
        }
        if let Some(fault) = seen.fault {
            text.put(", the last one\n  ");
            faulty(text, seen, fault);
            text.put("\n");
            return;
        }
        if let Some(kind) = seen.kind {
            text.put(", from the ").put(kind.party.name());
        }
        if let Some(place) = seen.place {
            text.put(", place ").number(place);
            if !seen.kind.is_some_and(|kind| kind.names_place()) {
                text.put(" (not looked at)");
            }
        }
        text.put("\n  ");
        words::record(text, seen.kind, seen.bytes);
        text.put("\n");
    }

    fn part(&self, text: &mut Text, seen: &Seen, part: &Part, indent: &str) {
        let (before, after) = (&part.before, &part.after);
        text.put(indent).put("state    ");
        words::state(text, before);
        if (before.state, before.path) != (after.state, after.path) {
            text.put(" -> ");
            words::state(text, after);
        } else if seen.taken() {
            text.put(", as before");
        }
        text.put("\n");
        if after.state != State::Idle {
            text.put(indent).put("call     ");
            words::held(text, after);
            text.put("\n");
        }
        text.put(indent).put("plane    ");
        words::plane(text, before.plane);
        if before.plane != after.plane {
            text.put(" -> ");
            words::plane(text, after.plane);
        }
        if after.state != State::Idle || before.slots != after.slots {
            text.put("\n").put(indent).put("slots    ").number(before.slots);
            if before.slots != after.slots {
                text.put(" -> ").number(after.slots);
            }
        }
        text.put("\n").put(indent).put("timers   ");
        words::timers(text, after);
        text.put("\n");
        for message in messages(part.messages) {
            let kind = kind_of(message).and_then(|kind| self.messages.get(kind));
            text.put(indent).put(match kind.map(|kind| kind.party) {
                Some(Party::User) => "to the user          ",
                Some(Party::Network) => "to the network       ",
                Some(Party::LowerLayers) => "to the lower layers  ",
                Some(Party::Timers) => "to the timers        ",
                Some(Party::Console) | None => "to nobody            ",
            });
            words::record(text, kind, message);
            text.put("\n");
        }
    }
}

/// What an answer means for this record.
pub fn answer(text: &mut Text, seen: &Seen) {
    match (seen.answer, seen.kind) {
        (4, Some(kind)) => {
            words::bad_body(text, kind, seen.bytes, seen.bad);
            return;
        }
        (answer, _) => {
            text.put(kinds::answer(answer).unwrap_or("an answer that is not known"));
        }
    }
    match (seen.answer, seen.place, seen.parts) {
        (0, Some(_), parts) => {
            text.put(if parts.len() == 1 { " at place " } else { " at places " });
            for (at, part) in parts.iter().enumerate() {
                let between = match at {
                    0 => "",
                    _ if at + 1 == parts.len() => " and ",
                    _ => ", ",
                };
                text.put(between).number(part.place as u64);
            }
        }
        (5, None, [part]) => {
            text.put(": it has i ").number(seen.identifier().unwrap_or(0));
            text.put(", held is i ").number(part.before.identifier);
            text.put(if part.before.identifier == 0 { " (none)" } else { "" });
        }
        (5, ..) => {
            text.put(": no place holds i ").number(seen.identifier().unwrap_or(0));
        }
        (6, Some(_), []) => {
            text.put(": no place would take it");
        }
        (41, _, [part]) => {
            text.put(": i ").number(part.before.identifier);
            text.put(" at place ").number(part.place as u64);
        }
        _ => {}
    }
}

/// The places of a console outside IDLE, where an event went to none.
fn places(text: &mut Text, seen: &Seen) {
    text.put("  places   ");
    let mut some = false;
    for (place, call) in seen.before.iter().enumerate() {
        if call.state != State::Idle {
            text.put(if some { "; " } else { "" });
            text.number(place as u64).put(" ");
            words::state(text, call);
            text.put(", i ").number(call.identifier);
            some = true;
        }
    }
    text.put(if some { "\n" } else { "all IDLE\n" });
}

/// What is there of a record that is none.
fn faulty(text: &mut Text, seen: &Seen, fault: Fault) {
    if let Some(place) = seen.place {
        text.put("place ").number(place).put(", then ");
    }
    let bytes = seen.bytes;
    let there = |text: &mut Text, len: usize| {
        text.number(len as u64).put(if len == 1 { " byte" } else { " bytes" });
    };
    match (fault, bytes) {
        (_, []) => {
            text.put("nothing: the record is cut");
        }
        (_, [_]) => {
            text.put("one byte alone, half a length field: ").hex(bytes);
        }
        (Fault::Cut, &[low, high, ..]) => {
            text.put("cut: its length field says ");
            there(text, usize::from(u16::from_le_bytes([low, high])));
            text.put(", ").number(bytes.len() as u64).put(" are there: ").hex(bytes);
        }
        (Fault::ShortLength, &[low, high, ..]) => {
            text.put("its length field says ");
            there(text, usize::from(u16::from_le_bytes([low, high])));
            text.put(", under 4; nothing behind it can be read: ").hex(bytes);
        }
    }
}
