//! Where records come from: any byte string is taken apart into whole records, and at most one last
//! one that is cut or has a length under 4, with which it ends.

use crate::account::records::HEAD_LEN;
use std::io::{ErrorKind, Read, Result};

/// How much is read at a time.
const CHUNK: usize = 1 << 16;
/// A line or a comment that is longer is not kept together.
const LONG_LINE: usize = 1 << 16;
const LONG_COMMENT: usize = 1 << 10;

/// Why a record is the last one.
#[derive(Clone, Copy, Debug, PartialEq, Eq)]
pub enum Fault {
    /// Fewer bytes are there than it begins to say.
    Cut,
    /// Its length field is under 4, so that nothing can be passed over.
    ShortLength,
}

/// A record, with the bytes that stand in the batch for it: for a console its place comes first.
#[derive(Clone, Copy, Debug)]
pub struct Head {
    pub offset: u64,
    /// In hex text, where it begins.
    pub line: Option<u64>,
    pub size: usize,
    pub fault: Option<Fault>,
}

#[derive(Debug)]
pub enum Item {
    Record(Head),
    /// A comment that stands before the record that follows.
    Before(String),
    /// A comment in or behind the last record.
    Beside(String),
    /// The hex text can't be read from here on.
    NoHex(String),
}

/// What one reading gave.
#[derive(Default)]
pub struct Batch {
    pub items: Vec<Item>,
    pub bytes: Vec<u8>,
}

pub struct Source<R> {
    from: R,
    console: bool,
    hex: Option<Hex>,
    chunk: Vec<u8>,
    /// Bytes that no record was made of yet, and the offset of the first.
    window: Vec<u8>,
    offset: u64,
    ended: bool,
}

impl<R: Read> Source<R> {
    pub fn new(from: R, hex: bool, console: bool) -> Source<R> {
        let hex = hex.then(Hex::new);
        let chunk = vec![0; CHUNK];
        Source { from, console, hex, chunk, window: Vec::new(), offset: 0, ended: false }
    }

    /// Reads on and gives the records that are then whole; false where there is no more.
    pub fn next(&mut self, batch: &mut Batch) -> Result<bool> {
        batch.items.clear();
        batch.bytes.clear();
        if self.ended {
            return Ok(false);
        }
        let got = loop {
            match self.from.read(&mut self.chunk) {
                Err(error) if error.kind() == ErrorKind::Interrupted => {}
                got => break got?,
            }
        };
        self.ended = got == 0;
        let mut no_hex = None;
        match &mut self.hex {
            None => self.window.extend_from_slice(&self.chunk[..got]),
            Some(hex) => {
                no_hex = hex.read(&self.chunk[..got], &mut self.window);
                self.ended |= no_hex.is_some();
            }
        }
        self.records(batch);
        batch.items.extend(no_hex.map(Item::NoHex));
        Ok(true)
    }

    fn records(&mut self, batch: &mut Batch) {
        let mut from = 0;
        while from < self.window.len() {
            let rest = &self.window[from..];
            let (size, fault) = match length(rest, self.console) {
                Some(size) if size < HEAD_LEN + usize::from(self.console) => {
                    (rest.len().min(HEAD_LEN + usize::from(self.console)), Some(Fault::ShortLength))
                }
                Some(size) if size <= rest.len() => (size, None),
                _ if self.ended => (rest.len(), Some(Fault::Cut)),
                _ => break,
            };
            let line = self.hex.as_mut().map(|hex| hex.before(from, &mut batch.items));
            batch.items.push(Item::Record(Head {
                offset: self.offset + from as u64,
                line,
                size,
                fault,
            }));
            batch.bytes.extend_from_slice(&rest[..size]);
            if let Some(hex) = &mut self.hex {
                hex.beside(from + size, &mut batch.items);
            }
            from += size;
            if fault.is_some() {
                self.ended = true;
                from = self.window.len();
            }
        }
        self.window.drain(..from);
        self.offset += from as u64;
        if let Some(hex) = &mut self.hex {
            hex.passed(from, self.ended, self.window.is_empty(), &mut batch.items);
        }
    }
}

/// How many bytes the record at the front says it has, its place counted too.
fn length(rest: &[u8], console: bool) -> Option<usize> {
    let at = usize::from(console);
    match rest.get(at..at + 2) {
        Some(&[low, high]) => Some(u16::from_le_bytes([low, high]) as usize + at),
        _ => None,
    }
}

/// Hex text, read line by line: digits in pairs; `#` begins a comment, blanks are for the eye.
struct Hex {
    /// The part of a line that is not read yet.
    text: Vec<u8>,
    line: u64,
    digit: Option<u8>,
    /// Whether this line has had a digit, and where in a comment it is.
    digits: bool,
    comment: Option<Vec<u8>>,
    /// The line of each byte of the window.
    lines: Vec<u64>,
    comments: Vec<Comment>,
}

struct Comment {
    /// How many bytes of the window stand before it.
    at: usize,
    /// Its line has digits before it.
    behind_digits: bool,
    text: String,
}

impl Hex {
    fn new() -> Hex {
        Hex {
            text: Vec::new(),
            line: 1,
            digit: None,
            digits: false,
            comment: None,
            lines: Vec::new(),
            comments: Vec::new(),
        }
    }

    /// Reads whole lines; no text is the end. Gives what can't be read.
    fn read(&mut self, text: &[u8], window: &mut Vec<u8>) -> Option<String> {
        self.text.extend_from_slice(text);
        let whole = match self.text.iter().rposition(|&byte| byte == b'\n') {
            _ if text.is_empty() || self.text.len() > LONG_LINE => self.text.len(),
            Some(last) => last + 1,
            None => 0,
        };
        let rest = self.text.split_off(whole);
        let lines = std::mem::replace(&mut self.text, rest);
        for &byte in &lines {
            if let Some(fault) = self.byte(byte, window) {
                return Some(fault);
            }
        }
        if !text.is_empty() {
            return None;
        }
        self.end_of_line(window.len());
        self.digit.map(|_| format!("line {}: half a byte, which is not read", self.line))
    }

    fn byte(&mut self, byte: u8, window: &mut Vec<u8>) -> Option<String> {
        if byte == b'\n' {
            self.end_of_line(window.len());
            self.line += 1;
            return None;
        }
        if let Some(comment) = &mut self.comment {
            if comment.len() < LONG_COMMENT {
                comment.push(byte);
            }
            return None;
        }
        match (char::from(byte).to_digit(16), self.digit) {
            (Some(low), Some(high)) => {
                window.push(high << 4 | low as u8);
                self.lines.push(self.line);
                self.digit = None;
            }
            (Some(high), None) => {
                self.digit = Some(high as u8);
                self.digits = true;
            }
            (None, _) if byte == b'#' => self.comment = Some(Vec::new()),
            (None, _) if byte.is_ascii_whitespace() => {}
            (None, _) => {
                let shown = if byte.is_ascii_graphic() {
                    format!("`{}`", char::from(byte))
                } else {
                    format!("byte {byte:02x}")
                };
                return Some(format!(
                    "line {}: {shown} is no hex digit; nothing is read from here on",
                    self.line
                ));
            }
        }
        None
    }

    fn end_of_line(&mut self, at: usize) {
        if let Some(comment) = self.comment.take() {
            let mut text = String::from_utf8_lossy(&comment).into_owned();
            // What a terminal would take as an order is not for the eye.
            text.retain(|char| char == '\t' || !char.is_control());
            if comment.len() >= LONG_COMMENT {
                text += " ...";
            }
            self.comments.push(Comment {
                at,
                behind_digits: self.digits,
                text: text.trim().to_owned(),
            });
        }
        self.digits = false;
    }

    /// Comments before the record that begins here, and its line.
    fn before(&mut self, start: usize, items: &mut Vec<Item>) -> u64 {
        let count = self.comments.iter().take_while(|comment| comment.at <= start).count();
        items.extend(self.comments.drain(..count).map(|comment| Item::Before(comment.text)));
        self.lines[start]
    }

    /// Comments in or behind the record that ends here.
    fn beside(&mut self, end: usize, items: &mut Vec<Item>) {
        let of_it =
            |comment: &&Comment| comment.at < end || (comment.at == end && comment.behind_digits);
        let count = self.comments.iter().take_while(of_it).count();
        items.extend(self.comments.drain(..count).map(|comment| Item::Beside(comment.text)));
    }

    /// So many bytes of the window are gone. Where no record is begun, its comments go, too.
    fn passed(&mut self, count: usize, ended: bool, empty: bool, items: &mut Vec<Item>) {
        self.lines.drain(..count);
        for comment in &mut self.comments {
            comment.at = comment.at.saturating_sub(count);
        }
        if ended || empty || self.comments.len() > CHUNK {
            items.extend(self.comments.drain(..).map(|comment| Item::Before(comment.text)));
        }
    }
}
