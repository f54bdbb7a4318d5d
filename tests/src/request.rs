//! One call of the library as bytes: a head, then the three slices that may be lent, each between
//! guard bytes. `bridge/bridge.c` has the same head.

use std::fmt::Write;

/// By the numbers that the bridge knows them by.
#[derive(Clone, Copy, Debug, PartialEq, Eq)]
#[repr(u8)]
pub enum Function {
    Fresh = 0,
    Step = 1,
    CheckEvent = 2,
    CheckMessage = 3,
    CopyEvent = 4,
    CopyMessage = 5,
    // Reader, carry as the buffer, piece as the input.
    PiecesFresh = 6,
    PiecesNext = 7,
    // Bank, table as the input, list as the buffer; beside them a reading, a timer, or a timer and,
    // above its 16 bits, a code.
    BankNew = 8,
    BankStop = 9,
    BankStart = 10,
    BankAdvance = 11,
    // Table as the record, beside the slices the place.
    ConsoleFresh = 12,
    ConsoleStep = 13,
    // Rooms as the record, and as the input a number and a call, each u16, and what is asked or
    // decided or what the step returned, u32.
    ChannelFresh = 20,
    ChannelAsk = 21,
    ChannelPdu = 22,
    ChannelDecide = 23,
    ChannelEnded = 24,
    // A run of steps, each from the record that the last one gave. The input is whole event records
    // one after another, for a console each behind its place; the buffer gets for each its word, the
    // record after it and its messages, as long as there is room; beside them stands how many bytes
    // each step is lent. Gives how many records were handed in.
    Play = 14,
    ConsolePlay = 15,
    // Of the tests' own archive: carry as the record, piece as the input; beside them the place and, above
    // its 8 bits, the size that PiecesNext gave.
    RecordIn = 31,
    // Direct mode: its record of 7 bytes.
    DirectFresh = 40,
    DirectStep = 41,
    DirectCheckEvent = 42,
    DirectCheckMessage = 43,
    DirectCopyEvent = 44,
    DirectCopyMessage = 45,
    // Fresh and Step of the archive with the second engine.
    SmallFresh = 200,
    SmallStep = 201,
}

impl Function {
    pub const ALL: &'static [Function] = &[
        Function::Fresh,
        Function::Step,
        Function::CheckEvent,
        Function::CheckMessage,
        Function::CopyEvent,
        Function::CopyMessage,
        Function::PiecesFresh,
        Function::PiecesNext,
        Function::BankNew,
        Function::BankStop,
        Function::BankStart,
        Function::BankAdvance,
        Function::ConsoleFresh,
        Function::ConsoleStep,
        Function::ChannelFresh,
        Function::ChannelAsk,
        Function::ChannelPdu,
        Function::ChannelDecide,
        Function::ChannelEnded,
        Function::Play,
        Function::ConsolePlay,
        Function::DirectFresh,
        Function::DirectStep,
        Function::DirectCheckEvent,
        Function::DirectCheckMessage,
        Function::DirectCopyEvent,
        Function::DirectCopyMessage,
        Function::RecordIn,
        Function::SmallFresh,
        Function::SmallStep,
    ];

    /// The same of the second engine, where it has it.
    pub fn of_second_engine(self) -> Option<Function> {
        match self {
            Function::Fresh => Some(Function::SmallFresh),
            Function::Step => Some(Function::SmallStep),
            _ => None,
        }
    }

    /// Splits a result of this function into answer and what is counted.
    pub fn split(self, word: u32) -> (u32, u32) {
        match self {
            // Where a record was found and its size stand above the bytes used.
            Function::PiecesFresh | Function::PiecesNext => (word >> 24, word & 0xFF_FFFF),
            Function::BankNew
            | Function::BankStop
            | Function::BankStart
            | Function::BankAdvance => (word >> 24, word & 0xFF_FFFF),
            _ => crate::library::split(word),
        }
    }

    /// Whether this refusal leaves every lent byte as it was.
    pub fn keeps_all(self, answer: u32) -> bool {
        // An impossible length stops the reader.
        answer != 0 && (self, answer) != (Function::PiecesNext, 20)
    }

    /// What the address of each slice is a multiple of.
    fn alignment(self) -> usize {
        match self {
            Function::BankStart | Function::BankAdvance => 4,
            _ => 1,
        }
    }
}

/// Number, call, and what is asked, decided or was returned, as a channel function gets them.
pub fn channel_input(number: u16, call: u16, value: u32) -> [u8; 8] {
    let mut input = [0; 8];
    input[..2].copy_from_slice(&number.to_le_bytes());
    input[2..4].copy_from_slice(&call.to_le_bytes());
    input[4..].copy_from_slice(&value.to_le_bytes());
    input
}

pub fn channel_numbers(input: &[u8]) -> (u16, u16, u32) {
    let number = u16::from_le_bytes([input[0], input[1]]);
    let call = u16::from_le_bytes([input[2], input[3]]);
    (number, call, u32::from_le_bytes([input[4], input[5], input[6], input[7]]))
}

/// Where a slice lies while the library has it.
#[derive(Clone, Copy, Debug, PartialEq, Eq)]
#[repr(u8)]
pub enum Place {
    /// Where it is, between its guard bytes.
    Between,
    /// Its first byte is the first after memory that may not be touched at all.
    AtStart,
    /// Its last byte is the last before such memory.
    AtEnd,
}

/// A slice at a place other than [`Place::Between`] is at most this long. A multiple of every page
/// size in use.
pub const BLOCK: usize = 65536;

/// Which of the three slices.
pub const RECORD: usize = 0;
pub const INPUT: usize = 1;
pub const OUT: usize = 2;

/// What is asked of the library. A function that takes no record, input or buffer gets none of it.
#[derive(Clone, Copy)]
pub struct Request<'a> {
    pub function: Function,
    pub record: &'a [u8],
    /// The event or message.
    pub input: &'a [u8],
    pub out_len: usize,
    /// What the front of the buffer holds before.
    pub held: &'a [u8],
    /// What is handed in beside the slices; 0 where a function takes nothing else.
    pub number: u32,
    /// What the guard bytes and the rest of the buffer hold before.
    pub filler: u8,
    pub places: [Place; 3],
}

impl<'a> Request<'a> {
    pub fn fresh(record: &'a [u8], filler: u8) -> Request<'a> {
        Request::of(Function::Fresh, record, &[], 0, filler)
    }

    pub fn step(record: &'a [u8], event: &'a [u8], out_len: usize, filler: u8) -> Request<'a> {
        Request::of(Function::Step, record, event, out_len, filler)
    }

    /// One of the readers.
    pub fn check(function: Function, bytes: &'a [u8], filler: u8) -> Request<'a> {
        Request::of(function, &[], bytes, 0, filler)
    }

    /// One of the writers.
    pub fn copy(function: Function, bytes: &'a [u8], out_len: usize, filler: u8) -> Request<'a> {
        Request::of(function, &[], bytes, out_len, filler)
    }

    pub fn of(
        function: Function,
        record: &'a [u8],
        input: &'a [u8],
        out_len: usize,
        filler: u8,
    ) -> Request<'a> {
        let places = [Place::Between; 3];
        Request { function, record, input, out_len, held: &[], number: 0, filler, places }
    }

    pub fn holding(self, held: &'a [u8]) -> Request<'a> {
        Request { held, ..self }
    }

    pub fn with(self, number: u32) -> Request<'a> {
        Request { number, ..self }
    }

    pub fn at(self, places: [Place; 3]) -> Request<'a> {
        Request { places, ..self }
    }

    /// Writes it behind what is in the batch.
    pub fn push(&self, batch: &mut Vec<u8>) {
        let lens = [self.record.len(), self.input.len(), self.out_len];
        assert!(self.places == [Place::Between; 3] || lens.iter().all(|&len| len <= BLOCK));
        // So that lent bytes do not always begin at the same alignment.
        let mut end = HEAD + self.filler as usize % 8;
        let starts = lens.map(|len| {
            let start = (end + GUARD).next_multiple_of(self.function.alignment());
            end = start + len;
            start
        });
        let size = (end + GUARD).next_multiple_of(8);

        let begin = batch.len();
        batch.resize(begin + size, self.filler);
        let frame = &mut batch[begin..];
        frame[..HEAD].fill(0);
        put(frame, 0, size);
        frame[4] = self.function as u8;
        for slice in 0..3 {
            frame[5 + slice] = self.places[slice] as u8;
            put(frame, 12 + 8 * slice, starts[slice]);
            put(frame, 16 + 8 * slice, lens[slice]);
        }
        put(frame, 36, self.number as usize);
        frame[starts[RECORD]..][..lens[RECORD]].copy_from_slice(self.record);
        frame[starts[INPUT]..][..lens[INPUT]].copy_from_slice(self.input);
        frame[starts[OUT]..][..self.held.len()].copy_from_slice(self.held);
    }
}

const HEAD: usize = 40;
const GUARD: usize = 24;

fn put(frame: &mut [u8], at: usize, number: usize) {
    let number = u32::try_from(number).expect("lengths are small");
    frame[at..at + 4].copy_from_slice(&number.to_le_bytes());
}

fn get(frame: &[u8], at: usize) -> usize {
    u32::from_le_bytes(frame[at..at + 4].try_into().expect("four bytes")) as usize
}

// What follows takes a request as it stands in a batch: before it was made, after, or as it should
// be after.

/// The requests of a batch, one by one.
pub fn each(batch: &[u8]) -> impl Iterator<Item = &[u8]> {
    let mut rest = batch;
    std::iter::from_fn(move || {
        let (frame, after) =
            rest.split_at(if rest.is_empty() { return None } else { get(rest, 0) });
        rest = after;
        Some(frame)
    })
}

pub fn function(frame: &[u8]) -> Function {
    let number = frame[4];
    let known = Function::ALL.iter().find(|&&known| known as u8 == number);
    *known.unwrap_or_else(|| panic!("no function has number {number}"))
}

pub fn set_function(frame: &mut [u8], function: Function) {
    frame[4] = function as u8;
}

/// What was handed in beside the slices.
pub fn number(frame: &[u8]) -> u32 {
    get(frame, 36) as u32
}

pub fn place(frame: &[u8], slice: usize) -> Place {
    match frame[5 + slice] {
        0 => Place::Between,
        1 => Place::AtStart,
        _ => Place::AtEnd,
    }
}

pub fn word(frame: &[u8]) -> u32 {
    get(frame, 8) as u32
}

pub fn set_word(frame: &mut [u8], word: u32) {
    put(frame, 8, word as usize);
}

pub fn slice(frame: &[u8], slice: usize) -> &[u8] {
    &frame[get(frame, 12 + 8 * slice)..][..get(frame, 16 + 8 * slice)]
}

/// Record, input and buffer.
pub fn slices_mut(frame: &mut [u8]) -> [&mut [u8]; 3] {
    let places =
        [RECORD, INPUT, OUT].map(|slice| (get(frame, 12 + 8 * slice), get(frame, 16 + 8 * slice)));
    let (mut passed, mut rest) = (0, frame);
    places.map(|(start, len)| {
        let (slice, after) = std::mem::take(&mut rest)[start - passed..].split_at_mut(len);
        (passed, rest) = (start + len, after);
        slice
    })
}

/// All but the word.
pub fn same_bytes(one: &[u8], other: &[u8]) -> bool {
    one[..8] == other[..8] && one[12..] == other[12..]
}

/// What was asked, for messages of failed tests.
pub fn describe(frame: &[u8]) -> String {
    format!(
        "{:?} {}\n  record   {}\n  input    {}\n  buffer   {} bytes",
        function(frame),
        number(frame),
        hex(slice(frame, RECORD)),
        hex(slice(frame, INPUT)),
        slice(frame, OUT).len()
    )
}

/// How what the library did differs from what was expected.
pub fn difference(before: &[u8], done: &[u8], said: &[u8]) -> String {
    let result = |frame| {
        let (answer, count) = function(frame).split(word(frame));
        format!(
            "answer {answer} place {} count {count}\n    record {}\n    buffer {}",
            crate::library::place(word(frame)),
            hex(slice(frame, RECORD)),
            hex(slice(frame, OUT))
        )
    };
    // Head, guards and input may not change: put what may change back, and compare.
    let mut rest = done.to_vec();
    for which in [RECORD, OUT] {
        let kept = slice(before, which).to_vec();
        let start = get(before, 12 + 8 * which);
        rest[start..start + kept.len()].copy_from_slice(&kept);
    }
    let around = if same_bytes(&rest, before) { "kept" } else { "CHANGED" };
    format!(
        "{}\n  library  {}\n  expected {}\n  input and bytes around the lent ones: {around}",
        describe(before),
        result(done),
        result(said),
    )
}

/// Bytes as two-digit hex, the first few of them.
pub fn hex(bytes: &[u8]) -> String {
    let mut text = String::new();
    for byte in &bytes[..bytes.len().min(128)] {
        let _ = write!(text, "{byte:02x} ");
    }
    if bytes.len() > 128 {
        let _ = write!(text, "... {} bytes", bytes.len());
    }
    text
}
