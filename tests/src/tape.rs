//! The events that the library is measured on.

use crate::account::channel::{By, Rooms, ROOMS_LEN};
use crate::account::console::{Console, PLACES};
use crate::account::{direct, Call, Event};
use crate::generate::{
    damaged_event, event, event_without_slots, likely_event, likely_event_without_slots, Bytes,
    Random,
};

pub const EVENTS: usize = 16_384;
pub const OUT_LEN: usize = 64;
pub const CONSOLE_OUT_LEN: usize = 256;
/// Four answers to questions.
pub const CHANNEL_OUT_LEN: usize = 28;

/// Event records one after another, as they would come from a queue.
pub struct Tape {
    bytes: Vec<u8>,
    ends: Vec<usize>,
}

impl Tape {
    pub fn events(&self) -> impl Iterator<Item = &[u8]> {
        let mut start = 0;
        self.ends.iter().map(move |&end| {
            let event = &self.bytes[start..end];
            start = end;
            event
        })
    }

    /// Those that are whole, which a file or a serial line goes on behind.
    pub fn whole(&self) -> impl Iterator<Item = &[u8]> {
        self.events().filter(|event| whole(event))
    }

    /// The events one after another, each after its length as u32: what a program of `bridge/` plays.
    pub fn with_lengths(&self) -> Vec<u8> {
        let mut bytes = Vec::new();
        for event in self.events() {
            bytes.extend((event.len() as u32).to_le_bytes());
            bytes.extend(event);
        }
        bytes
    }
}

/// Whether these bytes are as long as their length field says.
pub fn whole(event: &[u8]) -> bool {
    event.len() >= 4 && usize::from(u16::from_le_bytes([event[0], event[1]])) == event.len()
}

/// Calls set up, granted, paused, broken, restored and released, one after another from fresh;
/// about one event in ten is none of theirs, or damaged. None carries slots, so that what is measured on
/// it can be compared with what was measured before there were any.
pub fn tape() -> Tape {
    tape_of(event_without_slots, likely_event_without_slots)
}

/// The same with slots in half of the events that may carry them.
pub fn tape_with_slots() -> Tape {
    tape_of(event, likely_event)
}

fn tape_of(
    event: fn(&mut Random, u16) -> Event,
    likely_event: fn(&mut Random, &Call, usize) -> Event,
) -> Tape {
    let mut random = Random::new(0x7A9E);
    let mut tape = Tape { bytes: Vec::new(), ends: Vec::new() };
    let mut call = Call::FRESH;
    for _ in 0..EVENTS {
        let bytes = match random.below(40) {
            0 => {
                let event = event(&mut random, call.identifier);
                damaged_event(&mut random, event)
            }
            1 => Bytes::of_event(event(&mut random, call.identifier ^ 1)),
            2 | 3 => Bytes::of_event(event(&mut random, call.identifier)),
            _ => Bytes::of_event(likely_event(&mut random, &call, 20)),
        };
        let _ = call.step(bytes.as_slice(), &mut [0; OUT_LEN]);
        tape.bytes.extend(bytes.as_slice());
        tape.ends.push(tape.bytes.len());
    }
    tape
}

/// Events for a console, each with the place handed in beside it.
pub struct ConsoleTape {
    events: Vec<(u8, Bytes)>,
}

impl ConsoleTape {
    pub fn events(&self) -> impl Iterator<Item = (u8, &[u8])> {
        self.events.iter().map(|(place, event)| (*place, event.as_slice()))
    }
}

/// Up to eight calls at once from fresh, broken and restored together; about one event in ten is
/// none of theirs, or damaged. None carries slots.
pub fn console_tape() -> ConsoleTape {
    let mut random = Random::new(0x7A9E_C045);
    let mut events = Vec::new();
    let mut console = Console::FRESH;
    for _ in 0..EVENTS {
        let busy: Vec<usize> = (0..PLACES).filter(|&at| console.calls[at] != Call::FRESH).collect();
        let idle = Call::FRESH;
        let (place, call) = match busy[..] {
            [] => (0, idle),
            _ if random.one_in(10) => (0, idle),
            _ => {
                let place = random.pick(&busy);
                (place, console.calls[place])
            }
        };
        let bytes = match random.below(40) {
            0 => {
                let event = event_without_slots(&mut random, call.identifier);
                damaged_event(&mut random, event)
            }
            1 | 2 => Bytes::of_event(event_without_slots(&mut random, call.identifier)),
            3 => Bytes::of_event(random.pick(&[Event::Break, Event::Resume])),
            _ => Bytes::of_event(likely_event_without_slots(&mut random, &call, 20)),
        };
        let _ = console.step(place as u8, bytes.as_slice(), &mut [0; CONSOLE_OUT_LEN]);
        events.push((place as u8, bytes));
    }
    ConsoleTape { events }
}

/// What a host calls about a question of the lower layers.
#[derive(Clone, Copy, Debug)]
pub enum ChannelTurn {
    Ask { number: u16, call: u16, asked: u8 },
    Pdu { number: u16, call: u16, result: u32 },
    Decide { number: u16, decision: u8 },
    Ended { call: u16 },
}

/// Questions, decisions and ends of calls from four free rooms on, each with the rooms that it meets;
/// numbers and calls are few, so that some are refused, and most decisions are waited for.
pub fn channel_tape() -> Vec<([u8; ROOMS_LEN], ChannelTurn)> {
    let mut random = Random::new(0x7A9E_C4A7);
    let mut turns = Vec::new();
    let mut rooms = Rooms::FRESH;
    for _ in 0..EVENTS {
        let (number, call) = (random.below(8) as u16, 5 + random.below(3) as u16);
        let waiting: Vec<_> = rooms.waiting().collect();
        let turn = match random.below(10) {
            0 => ChannelTurn::Ended { call },
            1 | 2 => ChannelTurn::Pdu { number, call, result: random.pick(&[0, 32, 6 << 24]) },
            3..=5 if random.one_in(10) => {
                ChannelTurn::Decide { number, decision: random.below(6) as u8 }
            }
            3..=5 if !waiting.is_empty() => {
                let held = random.pick(&waiting);
                let decisions: &[u8] = match held.by {
                    By::User => &[0, 1, 2],
                    By::Cancel => &[3, 4],
                };
                ChannelTurn::Decide { number: held.number, decision: random.pick(decisions) }
            }
            _ => ChannelTurn::Ask {
                number,
                call,
                asked: random.pick(&[0, 1, 2, 2, 2, 3, 3, 3, 4, 5, 6, 7, 8]),
            },
        };
        turns.push((rooms.pack(), turn));
        let out = &mut [0; CHANNEL_OUT_LEN];
        let _ = match turn {
            ChannelTurn::Ask { number, call, asked } => rooms.ask(number, call, asked, out),
            ChannelTurn::Pdu { number, call, result } => {
                rooms.pdu(number, call, result >> 24 == 0, out)
            }
            ChannelTurn::Decide { number, decision } => rooms.decide(number, decision, out),
            ChannelTurn::Ended { call } => rooms.ended(call, out),
        };
    }
    turns
}

/// Events of direct mode; before some of them a host begins with a fresh record, since no event leads
/// out of ACTIVE.
pub struct DirectTape {
    events: Vec<(bool, Bytes)>,
}

impl DirectTape {
    /// Each with whether the record is made fresh before it.
    pub fn events(&self) -> impl Iterator<Item = (bool, &[u8])> {
        self.events.iter().map(|(begins, event)| (*begins, event.as_slice()))
    }
}

/// Calls of direct mode one after another, answered, refused and repeated; about one event in eight is
/// any, and one in 64 is damaged.
pub fn direct_tape() -> DirectTape {
    let mut random = Random::new(0x7A9E_D1EC);
    let mut events = Vec::new();
    let mut record = [0; direct::RECORD_LEN];
    for _ in 0..EVENTS {
        let begins = record[0] == 2 && random.one_in(4);
        if begins {
            direct::fresh(&mut record);
        }
        let [state, _, lowest, .., dt303, _] = record;
        let kind = match (state, dt303, random.below(8)) {
            (_, _, 0) => 0x0801 + random.below(5) as u16,
            (0, _, _) => 0x0801,
            (1, 0, _) => 0x0802,
            (1, _, 1..=4) => 0x0805,
            (1, _, 5) => 0x0804,
            (1, ..) => 0x0803,
            _ => 0x0801 + random.below(6) as u16,
        };
        let mut below = |bound| random.below(bound) as u8;
        let body = match kind {
            0x0801 => vec![below(6), below(6), below(18)],
            0x0802 => vec![below(9).saturating_sub(5)],
            0x0803 => vec![lowest.saturating_add(below(4)).saturating_sub(1)],
            0x0805 => if below(8) == 0 { 311u16 } else { 303 }.to_le_bytes().to_vec(),
            _ => vec![],
        };
        let size = 4 + body.len() as u16;
        let mut event = Bytes::new(&[&size.to_le_bytes(), &kind.to_le_bytes(), &body[..]].concat());
        if random.one_in(64) {
            let at = random.below(event.as_slice().len());
            event.as_mut_slice()[at] = random.byte();
        }
        direct::step(&mut record, event.as_slice(), &mut [0; OUT_LEN]);
        events.push((begins, event));
    }
    DirectTape { events }
}
