//! The second, independent account of the paper: from a sound record every event is taken or
//! refused, and written out, exactly as the tables say.
//!
//! It is written from the paper alone, in the paper's order and with the paper's names, so that
//! the two can be read side by side. Fields of events and messages keep the paper's letters.
//! Only `core` is used and nothing is allocated: the same files serve as the baseline of the
//! benchmark and of the comparison of sizes.

pub mod bank;
pub mod boundary;
pub mod call;
pub mod channel;
pub mod console;
pub mod direct;
pub mod history;
pub mod kinds;
pub mod pieces;
pub mod records;
pub mod running;
pub mod step;

pub use call::{Call, Path, State, RECORD_LEN};
pub use history::History;
pub use records::{Cause, Event, Grant, Message, Mode, Plane, Timer, Verdict};

/// Why something was not taken; 0 is `Ok`.
#[derive(Clone, Copy, Debug, PartialEq, Eq)]
pub enum Refusal {
    /// 1: record not sound.
    NotSound,
    /// 2: under 4 bytes handed in, or length field differs from the bytes handed in.
    Length,
    /// 3: kind is no event kind (for messages: no message kind).
    Kind,
    /// 4: body size or a field out of range. A reader gives the byte offset in the record of the
    /// first bad field, or 2 for the size; a writer gives 0.
    Field { place: u8 },
    /// 5: network event but D-SETUP, whose i differs from the held one.
    Identifier,
    /// 6: no row for this state.
    NoRow,
    /// 7: messages longer than the lent buffer.
    Buffer,
    /// 8, after 6 and before 7: D-INFO over own transmission.
    OwnTransmission,
    /// 9, after 3 and before 4: a kind that is taken no more.
    Retired,
}

impl Refusal {
    /// By the table of answers.
    pub const fn number(self) -> u8 {
        match self {
            Refusal::NotSound => 1,
            Refusal::Length => 2,
            Refusal::Kind => 3,
            Refusal::Field { .. } => 4,
            Refusal::Identifier => 5,
            Refusal::NoRow => 6,
            Refusal::Buffer => 7,
            Refusal::OwnTransmission => 8,
            Refusal::Retired => 9,
        }
    }

    /// Which field was wrong; 0 with every answer but 4.
    pub const fn place(self) -> u8 {
        match self {
            Refusal::Field { place } => place,
            _ => 0,
        }
    }
}
