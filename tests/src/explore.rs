//! Every record that can be reached from fresh with a small alphabet of field values.

use crate::account::{Event, Grant, Mode, Timer};
use crate::generate::Bytes;
use std::collections::{HashSet, VecDeque};
use std::hash::Hash;

/// The values the letters take; the alphabet is every event made of them.
pub struct Letters {
    pub identifiers: &'static [u16],
    pub addresses: &'static [u32],
    /// 16 stands for absent, where that is allowed.
    pub t310_codes: &'static [u8],
    /// 0 stands for the old record, without them.
    pub slots: &'static [u8],
}

impl Letters {
    /// Both ends of what a field holds, and a second identifier to disagree with.
    pub const ENDS: Letters = Letters {
        identifiers: &[0, 1, 2, 16383],
        addresses: &[0, 1, 16_777_215],
        t310_codes: &[0, 3, 15, 16],
        slots: &[0, 4],
    };

    /// Enough to see every way from one state to another.
    pub const FEW: Letters = Letters {
        identifiers: &[0, 1, 2],
        addresses: &[0, 1],
        t310_codes: &[0, 3, 16],
        slots: &[0, 2],
    };

    /// Every number of slots, and little else.
    pub const SLOTS: Letters = Letters {
        identifiers: &[0, 1, 2],
        addresses: &[1],
        t310_codes: &[3, 16],
        slots: &[0, 1, 2, 3, 4],
    };
}

/// Every event with these letters, by rising kind.
pub fn alphabet(letters: &Letters) -> Vec<Event> {
    let mut events = Vec::new();
    let both = [false, true];
    let known = letters.addresses.iter().copied().filter(|&a| a != 0);
    let identifiers: Vec<u16> = letters.identifiers.iter().copied().filter(|&i| i != 0).collect();
    let codes: Vec<u8> = letters.t310_codes.iter().copied().filter(|&o| o != 16).collect();
    let codes_or_absent: Vec<Option<u8>> =
        letters.t310_codes.iter().map(|&o| if o == 16 { None } else { Some(o) }).collect();

    let slots: Vec<Option<u8>> =
        letters.slots.iter().map(|&s| if s == 0 { None } else { Some(s) }).collect();

    for a in known {
        for &d in Mode::ALL {
            for &s in &slots {
                events.extend(both.map(|q| Event::SetupRequest { a, d, q, s }));
            }
        }
    }
    events.push(Event::SetupResponse);
    events.push(Event::ReleaseRequest);
    events.extend(both.map(|k| Event::TxRequest { k }));
    for &i in &identifiers {
        events.push(Event::DCallProceeding { i });
        events.push(Event::DAlert { i });
        for &g in Grant::ALL {
            for &o in &codes {
                for &d in Mode::ALL {
                    events.extend(slots.iter().map(|&s| Event::DConnect { i, g, d, o, s }));
                }
                events.push(Event::DConnectAcknowledge { i, g, o });
            }
            events.push(Event::DTxGranted { i, g });
            events.push(Event::DTxInterrupt { i, g });
            for &o in &codes_or_absent {
                events.extend(both.map(|r| Event::DCallRestore { i, g, r, o }));
            }
        }
        for &d in Mode::ALL {
            events.extend(letters.addresses.iter().map(|&a| Event::DSetup { i, a, d }));
            for &o in &codes_or_absent {
                for &s in &slots {
                    events.extend(both.map(|r| Event::DInfo { i, r, o, d, s }));
                }
            }
        }
        events.push(Event::DTxCeased { i });
        events.push(Event::DTxWait { i });
        events.extend(both.map(|k| Event::DTxContinue { i, k }));
    }
    for &i in letters.identifiers {
        events.push(Event::DDisconnect { i });
        events.push(Event::DRelease { i });
    }
    events.push(Event::ReportSent);
    events.push(Event::ReportFailed);
    events.push(Event::Break);
    events.push(Event::Resume);
    events.extend(Timer::ALL.iter().map(|&n| Event::Expiry { n }));

    // Written once here rather than at every record.
    events.sort_by_key(|&event| {
        let bytes = Bytes::of_event(event);
        let kind = u16::from_le_bytes([bytes.as_slice()[2], bytes.as_slice()[3]]);
        (kind, bytes.as_slice().to_vec())
    });
    events
}

/// Breadth first: `visit` is called with every reachable node and every event, and gives the node
/// the event leads to if it is taken. Gives all nodes, in the order they were first reached.
pub fn explore<Node: Copy + Eq + Hash>(
    first: Node,
    events: &[(Event, Bytes)],
    mut visit: impl FnMut(&Node, Event, &[u8]) -> Option<Node>,
) -> Vec<Node> {
    let mut seen = HashSet::from([first]);
    let mut waiting = VecDeque::from([first]);
    let mut reached = Vec::new();
    while let Some(node) = waiting.pop_front() {
        reached.push(node);
        for (event, bytes) in events {
            if let Some(next) = visit(&node, *event, bytes.as_slice()) {
                if seen.insert(next) {
                    waiting.push_back(next);
                }
            }
        }
    }
    reached
}

/// The alphabet with its bytes at hand.
pub fn written(events: Vec<Event>) -> Vec<(Event, Bytes)> {
    events.into_iter().map(|event| (event, Bytes::of_event(event))).collect()
}
