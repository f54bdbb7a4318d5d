//! Every kind of event and message in the paper's words: its name, whom it is from or for, and its
//! fields in the order of its body, each with the values that it takes and what they mean.
//!
//! The one table that names are taken from. It is for people: [`super::Event`] and
//! [`super::Message`] read without it.

use super::records::{
    ABSENT_T310_CODE, HEAD_LEN, MAX_ADDRESS, MAX_IDENTIFIER, MAX_PLACE, MAX_SLOTS, MAX_T310_CODE,
    MAX_TX_INDICATION,
};
use super::Timer;

/// Whom an event is from, or a message is for.
#[derive(Clone, Copy, Debug, PartialEq, Eq)]
pub enum Party {
    User,
    LowerLayers,
    Network,
    Timers,
    /// 0605 orders nothing: it says whose messages follow.
    Console,
}

impl Party {
    pub const fn name(self) -> &'static str {
        match self {
            Party::User => "user",
            Party::LowerLayers => "lower layers",
            Party::Network => "network",
            Party::Timers => "timers",
            Party::Console => "console",
        }
    }
}

#[derive(Clone, Copy, Debug)]
pub struct Kind {
    pub number: u16,
    pub name: &'static str,
    pub party: Party,
    /// The fields of its body; of each body, where a kind has bodies of several lengths.
    pub bodies: &'static [&'static [Field]],
}

#[derive(Clone, Copy, Debug)]
pub struct Field {
    /// The paper's.
    pub letter: char,
    /// What it is called where it is wrong.
    pub name: &'static str,
    /// In bytes.
    pub size: usize,
    pub takes: Takes,
    /// What stands before a number that has no words of its own.
    pub before: &'static str,
    /// Numbers that are said in words.
    pub words: &'static [(u32, &'static str)],
}

/// The values of a field.
#[derive(Clone, Copy, Debug, PartialEq, Eq)]
pub enum Takes {
    /// From the first to the last.
    Range(u32, u32),
    /// Those that have words, and no other.
    Listed,
    /// In START: a T310 code for T310, else 0.
    CodeOfTimer,
}

impl Field {
    /// The number in the first bytes of what is left of a body, if that is long enough.
    pub fn value(&self, rest: &[u8]) -> Option<u32> {
        let bytes = rest.get(..self.size)?;
        Some(bytes.iter().rev().fold(0, |value, &byte| value << 8 | u32::from(byte)))
    }

    /// Whether a reader takes this value; `first` is that of the first field of the body.
    pub fn takes(&self, value: u32, first: u32) -> bool {
        match self.takes {
            Takes::Range(least, most) => least <= value && value <= most,
            Takes::Listed => self.word(value).is_some(),
            Takes::CodeOfTimer => value <= most_code(first),
        }
    }

    pub fn word(&self, value: u32) -> Option<&'static str> {
        self.words.iter().find(|&&(number, _)| number == value).map(|&(_, word)| word)
    }
}

/// The greatest o of START n.
pub const fn most_code(n: u32) -> u32 {
    if n == Timer::T310.number() as u32 {
        MAX_T310_CODE as u32
    } else {
        0
    }
}

impl Kind {
    /// The body with this many bytes.
    pub fn body(&self, size: usize) -> Option<&'static [Field]> {
        self.bodies.iter().copied().find(|fields| size_of(fields) == size)
    }

    /// Whether the kind is taken no more: answer 9, whatever its body. Its name and its fields are for older files.
    pub fn is_retired(&self) -> bool {
        RETIRED.contains(&self.number)
    }

    /// Of a console: whether this event goes to the place that is named beside it. The others find
    /// theirs themselves.
    pub fn names_place(&self) -> bool {
        match self.party {
            Party::User => self.number != SETUP_REQUEST && !self.is_retired(),
            Party::LowerLayers => matches!(self.number, REPORT_SENT | REPORT_FAILED),
            Party::Timers => true,
            Party::Network | Party::Console => false,
        }
    }

    /// The field that begins at this offset of a record with a body of this many bytes.
    pub fn field_at(&self, place: usize, size: usize) -> Option<&'static Field> {
        let mut at = HEAD_LEN;
        self.body(size)?.iter().find(|field| {
            at += field.size;
            at - field.size == place
        })
    }
}

/// Bytes of a body with these fields.
pub fn size_of(fields: &[Field]) -> usize {
    fields.iter().map(|field| field.size).sum()
}

const fn number(
    letter: char,
    name: &'static str,
    size: usize,
    range: (u32, u32),
    words: &'static [(u32, &'static str)],
) -> Field {
    Field { letter, name, size, takes: Takes::Range(range.0, range.1), before: name, words }
}

const fn listed(
    letter: char,
    name: &'static str,
    size: usize,
    words: &'static [(u32, &'static str)],
) -> Field {
    Field { letter, name, size, takes: Takes::Listed, before: name, words }
}

// ---- The letters -------------------------------------------------------------------------------

const I: Field =
    Field { before: "i", ..number('i', "identifier", 2, (1, MAX_IDENTIFIER as u32), &[]) };
const I_OR_ZERO: Field =
    Field { takes: Takes::Range(0, MAX_IDENTIFIER as u32), words: &[(0, "i 0 (none)")], ..I };
const A: Field = number('a', "address", 4, (0, MAX_ADDRESS), &[(0, "address unknown")]);
const A_KNOWN: Field = Field { takes: Takes::Range(1, MAX_ADDRESS), ..A };
const G: Field = listed('g', "grant", 1, GRANTS);
const D: Field = listed('d', "mode", 1, &[(0, "simplex"), (1, "duplex")]);
const Q: Field = listed(
    'q',
    "request to transmit",
    1,
    &[(0, "no request to transmit"), (1, "request to transmit")],
);
const R: Field = listed('r', "reset of T310", 1, &[(0, "T310 not reset"), (1, "T310 reset")]);
const K_REQUEST: Field = listed('k', "demand or cease", 1, &[(0, "cease"), (1, "demand")]);
const K_CONTINUE: Field =
    listed('k', "continue", 1, &[(0, "with the plane off"), (1, "with the kept plane")]);
const O: Field =
    number('o', "T310 code", 1, (0, MAX_T310_CODE as u32), &[(0, "T310 code 0 (no limit)")]);
const O_OR_ABSENT: Field = Field {
    takes: Takes::Range(0, ABSENT_T310_CODE as u32),
    words: &[(0, "T310 code 0 (no limit)"), (ABSENT_T310_CODE as u32, "no T310 code")],
    ..O
};
const O_OF_TIMER: Field = Field { takes: Takes::CodeOfTimer, before: "code", words: &[], ..O };
const N: Field = listed(
    'n',
    "timer",
    2,
    &[
        (301, "T301"),
        (302, "T302"),
        (303, "T303"),
        (306, "T306"),
        (308, "T308"),
        (310, "T310"),
        (311, "T311"),
    ],
);
const C: Field = listed(
    'c',
    "cause",
    1,
    &[(1, "cause user"), (2, "cause timer"), (3, "cause network"), (4, "cause transfer failed")],
);
const P: Field = listed('p', "plane", 1, PLANES);
const X: Field = number('x', "TX indication", 1, (0, MAX_TX_INDICATION as u32), TX_INDICATIONS);
const S: Field = number('s', "slots", 1, (1, MAX_SLOTS as u32), &[]);
const U: Field = number('u', "question", 2, (0, 65_535), &[]);
const V: Field = listed('v', "verdict", 1, &[(0, "accept"), (1, "reject"), (2, "ignore")]);
const Y: Field = number('y', "place", 1, (0, MAX_PLACE as u32), &[]);

const GRANTS: &[(u32, &str)] =
    &[(0, "granted"), (1, "not granted"), (2, "queued"), (3, "granted to another")];
/// What CONFIGURE tells the lower layers.
pub const PLANES: &[(u32, &str)] =
    &[(1, "transmit"), (2, "receive"), (3, "transmit and receive"), (4, "off")];
const TX_INDICATIONS: &[(u32, &str)] = &[
    (0, "granted"),
    (1, "not granted"),
    (2, "queued"),
    (3, "granted to another"),
    (4, "ceased"),
    (5, "interrupted"),
    (6, "wait"),
    (7, "continued with the kept plane"),
    (8, "continued with the plane off"),
];

// ---- The kinds ---------------------------------------------------------------------------------

const fn kind(
    number: u16,
    name: &'static str,
    party: Party,
    bodies: &'static [&'static [Field]],
) -> Kind {
    Kind { number, name, party, bodies }
}

use Party::{Console, LowerLayers, Network, Timers, User};

pub const EVENTS: &[Kind] = &[
    kind(0x0101, "SETUP request", User, &[&[A_KNOWN, D, Q], &[A_KNOWN, D, Q, S]]),
    kind(0x0102, "SETUP response", User, &[&[]]),
    kind(0x0103, "RELEASE request", User, &[&[]]),
    kind(0x0104, "TX request", User, &[&[K_REQUEST]]),
    kind(0x0105, "MODIFY request", User, &[&[D]]),
    kind(0x0201, "D-CALL PROCEEDING", Network, &[&[I]]),
    kind(0x0202, "D-ALERT", Network, &[&[I]]),
    kind(0x0203, "D-CONNECT", Network, &[&[I, G, D, O], &[I, G, D, O, S]]),
    kind(0x0204, "D-CONNECT ACKNOWLEDGE", Network, &[&[I, G, O]]),
    kind(0x0205, "D-SETUP", Network, &[&[I, A, D]]),
    kind(0x0206, "D-INFO", Network, &[&[I, R, O_OR_ABSENT, D], &[I, R, O_OR_ABSENT, D, S]]),
    kind(0x0207, "D-TX GRANTED", Network, &[&[I, G]]),
    kind(0x0208, "D-TX CEASED", Network, &[&[I]]),
    kind(0x0209, "D-TX INTERRUPT", Network, &[&[I, G]]),
    kind(0x020A, "D-TX WAIT", Network, &[&[I]]),
    kind(0x020B, "D-TX CONTINUE", Network, &[&[I, K_CONTINUE]]),
    kind(0x020C, "D-CALL RESTORE", Network, &[&[I, G, R, O_OR_ABSENT]]),
    kind(0x020D, "D-DISCONNECT", Network, &[&[I_OR_ZERO]]),
    kind(0x020E, "D-RELEASE", Network, &[&[I_OR_ZERO]]),
    kind(0x0301, "REPORT sent", LowerLayers, &[&[]]),
    kind(0x0302, "REPORT failed", LowerLayers, &[&[]]),
    kind(0x0303, "BREAK", LowerLayers, &[&[]]),
    kind(0x0304, "RESUME", LowerLayers, &[&[]]),
    kind(0x0401, "expiry", Timers, &[&[N]]),
];

pub const MESSAGES: &[Kind] = &[
    kind(0x0501, "U-SETUP", Network, &[&[A_KNOWN, D, Q], &[A_KNOWN, D, Q, S]]),
    kind(0x0502, "U-CONNECT", Network, &[&[I]]),
    kind(0x0503, "U-DISCONNECT", Network, &[&[I_OR_ZERO, C]]),
    kind(0x0504, "U-RELEASE", Network, &[&[I_OR_ZERO]]),
    kind(0x0505, "U-INFO", Network, &[&[I, D]]),
    kind(0x0506, "U-TX DEMAND", Network, &[&[I]]),
    kind(0x0507, "U-TX CEASED", Network, &[&[I]]),
    kind(0x0508, "U-CALL RESTORE", Network, &[&[I, A, Q]]),
    kind(0x0601, "STOP", Timers, &[&[N]]),
    kind(0x0602, "START", Timers, &[&[N, O_OF_TIMER]]),
    kind(0x0603, "CONFIGURE", LowerLayers, &[&[P]]),
    kind(0x0604, "CANCEL", LowerLayers, &[&[]]),
    kind(0x0605, "PLACE", Console, &[&[Y]]),
    kind(0x0606, "CHANNEL ANSWER", LowerLayers, &[&[U, V]]),
    kind(0x0701, "SETUP indication", User, &[&[I, A, D]]),
    kind(0x0702, "SETUP confirm", User, &[&[I, G]]),
    kind(0x0703, "PROCEED", User, &[&[]]),
    kind(0x0704, "ALERT", User, &[&[]]),
    kind(0x0705, "COMPLETE", User, &[&[G]]),
    kind(0x0706, "RELEASE indication", User, &[&[C]]),
    kind(0x0707, "RELEASE confirm", User, &[&[]]),
    kind(0x0708, "TX indication", User, &[&[X]]),
    kind(0x0709, "MODIFY indication", User, &[&[D, S]]),
];

/// Kinds of events that are taken no more.
const RETIRED: &[u16] = &[0x0105];

const SETUP_REQUEST: u16 = 0x0101;
const REPORT_SENT: u16 = 0x0301;
const REPORT_FAILED: u16 = 0x0302;

/// The answers of a step and of a console's step, with the name that the header gives each.
pub const ANSWERS: &[(u32, &str, &str)] = &[
    (0, "TAKEN", "taken"),
    (1, "NOT_SOUND", "the call record is not sound"),
    (2, "BAD_LENGTH", "under 4 bytes, or the length field differs from them"),
    (3, "UNKNOWN_KIND", "the kind is no event kind"),
    (4, "BAD_BODY", "body size or a field out of range"),
    (5, "OTHER_CALL", "a network event of another call"),
    (6, "NO_ROW", "no row for this event in this state"),
    (7, "NO_ROOM", "the messages are longer than the lent buffer"),
    (8, "OWN_TRANSMISSION", "D-INFO over own transmission"),
    (9, "RETIRED", "the kind is retired"),
    (40, "PLACE_OVER", "the place that is named is over 7"),
    (41, "ID_HELD", "D-SETUP with an identifier that a place holds"),
    (42, "ID_AWAITED", "SETUP request while a place outside IDLE has no identifier"),
    (43, "NO_IDLE_PLACE", "no place is in IDLE"),
];

pub fn event(number: u16) -> Option<&'static Kind> {
    EVENTS.iter().find(|kind| kind.number == number)
}

pub fn message(number: u16) -> Option<&'static Kind> {
    MESSAGES.iter().find(|kind| kind.number == number)
}

/// What an answer means.
pub fn answer(number: u32) -> Option<&'static str> {
    ANSWERS.iter().find(|&&(known, ..)| known == number).map(|&(_, _, meaning)| meaning)
}
