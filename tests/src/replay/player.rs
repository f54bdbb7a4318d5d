//! Records through the library: each is handed to the step, in the order of the file, from the record
//! that the last one left.

use super::source::{Batch, Fault, Head, Item};
use crate::account::console::TABLE_LEN;
use crate::account::RECORD_LEN;
use crate::library;
use crate::request::{self, Function, Request, OUT, RECORD};

/// What the program `calltrace` lends, so that no answer differs from its.
pub const LENT: usize = 64;
/// More than any step of a console writes.
pub const CONSOLE_LENT: usize = 512;
/// Room for what a run of steps gives.
const ROOM: usize = 1 << 18;

pub struct Player {
    console: bool,
    /// The call record or the table.
    held: Vec<u8>,
    sent: Vec<u8>,
    done: Vec<u8>,
}

impl Player {
    /// From fresh.
    pub fn new(console: bool) -> Player {
        let (function, len) = match console {
            false => (Function::Fresh, RECORD_LEN),
            true => (Function::ConsoleFresh, TABLE_LEN),
        };
        let held = vec![0; len];
        let mut player = Player { console, held, sent: Vec::new(), done: Vec::new() };
        player.perform(Request::of(function, &[], &[], 0, 0));
        player
    }

    /// How many bytes stand in the results before the messages of a record.
    pub fn head(console: bool) -> usize {
        4 + if console { TABLE_LEN } else { RECORD_LEN }
    }

    /// Makes a step for each record of a batch. For each the results have the word, the record after
    /// it (for a console the table), and the messages.
    pub fn play(&mut self, batch: &Batch, results: &mut Vec<u8>) {
        results.clear();
        let mut rest = &batch.bytes[..];
        let mut heads = batch.items.iter().filter_map(|item| match item {
            Item::Record(head) => Some(head),
            _ => None,
        });
        let last = batch.items.iter().rev().find_map(|item| match item {
            Item::Record(head) => Some(head),
            _ => None,
        });
        let faulty = last.filter(|head| head.fault.is_some());
        let whole = batch.bytes.len() - faulty.map_or(0, |head| head.size);
        let mut left = whole;
        while left > 0 {
            let played = self.run(&rest[..left], results);
            let used: usize = heads.by_ref().take(played).map(|head| head.size).sum();
            assert!(used > 0, "there is room for one step");
            left -= used;
            rest = &rest[used..];
        }
        if let Some(head) = faulty {
            self.faulty(head, rest, results);
        }
    }

    fn run(&mut self, input: &[u8], results: &mut Vec<u8>) -> usize {
        let (function, lent) = match self.console {
            false => (Function::Play, LENT),
            true => (Function::ConsolePlay, CONSOLE_LENT),
        };
        self.perform(Request::of(function, &[], input, ROOM, 0).with(lent as u32));
        let played = request::word(&self.done) as usize;
        let out = request::slice(&self.done, OUT);
        let (mut used, head) = (0, Player::head(self.console));
        for _ in 0..played {
            used += head + count(&out[used..]);
        }
        results.extend_from_slice(&out[..used]);
        played
    }

    /// The last record, with the bytes that are there.
    fn faulty(&mut self, head: &Head, bytes: &[u8], results: &mut Vec<u8>) {
        debug_assert!(matches!(head.fault, Some(Fault::Cut | Fault::ShortLength)));
        let request = match (self.console, bytes) {
            (true, &[place, ref event @ ..]) => {
                Request::of(Function::ConsoleStep, &[], event, CONSOLE_LENT, 0)
                    .with(u32::from(place))
            }
            _ => Request::of(Function::Step, &[], bytes, LENT, 0),
        };
        self.perform(request);
        let word = request::word(&self.done);
        results.extend_from_slice(&word.to_le_bytes());
        results.extend_from_slice(&self.held);
        results.extend_from_slice(&request::slice(&self.done, OUT)[..(word & 0xFFFF) as usize]);
    }

    /// Makes one call with the record held, and holds what it gives.
    fn perform(&mut self, request: Request) {
        self.sent.clear();
        Request { record: &self.held, ..request }.push(&mut self.sent);
        library::perform(&self.sent, &mut self.done);
        self.held.copy_from_slice(request::slice(&self.done, RECORD));
    }
}

/// The bytes of messages of the first record in the results.
pub fn count(results: &[u8]) -> usize {
    usize::from(u16::from_le_bytes([results[0], results[1]]))
}
