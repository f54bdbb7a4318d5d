//! Records that arrive in pieces: the records, their order and the bytes still carried are the same
//! for every cutting of the input.
//!
//! Carried bytes and piece are looked at as one list, in which the first record either is whole or
//! is not. At most one record is handed on by a call; the caller goes on with the rest of the piece.

/// Bytes of a packed reader: how many bytes are carried, and whether it is stopped.
pub const READER_LEN: usize = 2;
/// A carry buffer has at least this many bytes.
pub const CARRY_LEN: usize = 64;
/// A record is passed over only with a length from 4 to 64.
pub const SHORTEST: usize = 4;
pub const LONGEST: usize = 64;

#[derive(Clone, Copy, Debug, PartialEq, Eq)]
#[repr(u8)]
pub enum Refusal {
    /// 1: the bytes are no reader.
    NoReader = 1,
    /// 20: length impossible.
    ImpossibleLength = 20,
    /// 21: reader stopped.
    Stopped = 21,
    /// 22: carry buffer under 64 bytes.
    Carry = 22,
}

/// Where a whole record lies, and its size.
#[derive(Clone, Copy, Debug, PartialEq, Eq)]
pub enum Found {
    Nothing,
    /// At the front of the carry.
    InCarry(usize),
    /// At the front of the piece.
    InPiece(usize),
}

#[derive(Clone, Copy, Debug, PartialEq, Eq)]
pub struct Reader {
    /// 0..63: a record that is whole is handed on, not carried.
    pub carried: usize,
    pub stopped: bool,
}

impl Reader {
    pub const FRESH: Reader = Reader { carried: 0, stopped: false };

    /// Takes one piece, or what the last call left of it. Gives what was found, and how many bytes
    /// of the piece were used.
    pub fn next(&mut self, carry: &mut [u8], piece: &[u8]) -> Result<(Found, usize), Refusal> {
        // The order of the request, which is not the order of the numbers.
        if carry.len() < CARRY_LEN {
            return Err(Refusal::Carry);
        }
        if self.stopped {
            return Err(Refusal::Stopped);
        }
        let carried = self.carried;
        let all = carried + piece.len();
        if all < 2 {
            return Ok((Found::Nothing, self.carry_on(carry, piece)));
        }

        let byte = |at: usize| if at < carried { carry[at] } else { piece[at - carried] };
        let len = u16::from_le_bytes([byte(0), byte(1)]) as usize;
        // A record that what is carried already holds would have been handed on before, so a length
        // that says so is another's writing in the carry.
        if !(SHORTEST..=LONGEST).contains(&len) || len <= carried {
            *self = Reader { carried: 0, stopped: true };
            return Err(Refusal::ImpossibleLength);
        }
        if all < len {
            return Ok((Found::Nothing, self.carry_on(carry, piece)));
        }
        if carried == 0 {
            return Ok((Found::InPiece(len), len));
        }
        let used = self.carry_on(carry, &piece[..len - carried]);
        self.carried = 0;
        Ok((Found::InCarry(len), used))
    }

    /// Puts bytes behind those carried, and counts them.
    fn carry_on(&mut self, carry: &mut [u8], bytes: &[u8]) -> usize {
        carry[self.carried..][..bytes.len()].copy_from_slice(bytes);
        self.carried += bytes.len();
        bytes.len()
    }

    pub fn unpack(bytes: &[u8]) -> Option<Reader> {
        match *bytes {
            [carried, stopped] if (carried as usize) < LONGEST && stopped <= 1 => {
                Some(Reader { carried: carried as usize, stopped: stopped == 1 })
            }
            _ => None,
        }
    }

    pub fn pack(&self) -> [u8; READER_LEN] {
        [self.carried as u8, self.stopped as u8]
    }
}

// Behind the host boundary: the library's two functions over slices.

fn refused(refusal: Refusal) -> u32 {
    (refusal as u32) << 24
}

pub fn fresh(reader: &mut [u8]) -> u32 {
    if reader.len() != READER_LEN {
        return refused(Refusal::NoReader);
    }
    reader.copy_from_slice(&Reader::FRESH.pack());
    READER_LEN as u32
}

/// Answer, where the record is (0 nowhere, 1 carry, 2 piece), its size, bytes used: a byte each.
pub fn next(reader: &mut [u8], carry: &mut [u8], piece: &[u8]) -> u32 {
    let Some(mut held) = Reader::unpack(reader) else {
        return refused(Refusal::NoReader);
    };
    let result = held.next(carry, piece);
    reader.copy_from_slice(&held.pack());
    match result {
        Err(refusal) => refused(refusal),
        Ok((found, used)) => {
            let (lies, size) = match found {
                Found::Nothing => (0, 0),
                Found::InCarry(size) => (1, size),
                Found::InPiece(size) => (2, size),
            };
            lies << 16 | (size as u32) << 8 | used as u32
        }
    }
}

#[cfg(test)]
mod examples {
    use super::*;

    /// Answer, where the record is, size and bytes used.
    fn took(reader: &mut [u8; 2], carry: &mut [u8; 64], piece: &[u8]) -> (u32, u32, u32, u32) {
        let word = next(reader, carry, piece);
        (word >> 24, word >> 16 & 0xFF, word >> 8 & 0xFF, word & 0xFF)
    }

    const REPORT_SENT: [u8; 4] = [4, 0, 0x01, 0x03];
    const TX_DEMAND: [u8; 5] = [5, 0, 0x04, 0x01, 1];

    #[test]
    fn three_records_at_once() {
        let piece = [&REPORT_SENT[..], &TX_DEMAND, &REPORT_SENT].concat();
        let (mut reader, mut carry) = ([0, 0], [0xEE; 64]);
        assert_eq!(took(&mut reader, &mut carry, &piece), (0, 2, 4, 4));
        assert_eq!(took(&mut reader, &mut carry, &piece[4..]), (0, 2, 5, 5));
        assert_eq!(took(&mut reader, &mut carry, &piece[9..]), (0, 2, 4, 4));
        assert_eq!(took(&mut reader, &mut carry, &[]), (0, 0, 0, 0));
        assert_eq!((reader, carry), ([0, 0], [0xEE; 64]), "nothing was carried");
    }

    #[test]
    fn a_record_over_three_pieces() {
        let (mut reader, mut carry) = ([0, 0], [0xEE; 64]);
        assert_eq!(took(&mut reader, &mut carry, &TX_DEMAND[..1]), (0, 0, 0, 1));
        assert_eq!(took(&mut reader, &mut carry, &TX_DEMAND[1..3]), (0, 0, 0, 2));
        assert_eq!(reader, [3, 0]);
        let last = [&TX_DEMAND[3..], &REPORT_SENT[..]].concat();
        assert_eq!(took(&mut reader, &mut carry, &last), (0, 1, 5, 2));
        assert_eq!((reader, &carry[..5]), ([0, 0], &TX_DEMAND[..]));
        assert_eq!(took(&mut reader, &mut carry, &last[2..]), (0, 2, 4, 4));
    }

    #[test]
    fn records_before_an_impossible_length_are_handed_on_first() {
        for len in [3u16, 65, 256] {
            let piece = [&REPORT_SENT[..], &len.to_le_bytes(), &REPORT_SENT].concat();
            let (mut reader, mut carry) = ([0, 0], [0xEE; 64]);
            assert_eq!(took(&mut reader, &mut carry, &piece), (0, 2, 4, 4));
            assert_eq!(took(&mut reader, &mut carry, &piece[4..]), (20, 0, 0, 0));
            assert_eq!((reader, carry), ([0, 1], [0xEE; 64]), "it carries nothing");
            assert_eq!(took(&mut reader, &mut carry, &REPORT_SENT), (21, 0, 0, 0));
            assert_eq!(next(&mut reader, &mut carry[..63], &REPORT_SENT), 22 << 24);
            assert_eq!(fresh(&mut reader), 2);
            assert_eq!(took(&mut reader, &mut carry, &REPORT_SENT), (0, 2, 4, 4));
        }
    }
}
