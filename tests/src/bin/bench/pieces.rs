//! How long one call of the reader of records in pieces takes: the library beside the account, on the
//! records of the tape as they come over a serial line.

use crate::rounds::{best, entry, head, line, ROUNDS};
use callcontrol_tests::account::pieces::{self, CARRY_LEN, READER_LEN};
use callcontrol_tests::library;
use callcontrol_tests::tape::{tape, EVENTS};
use std::hint::black_box;

/// What a run over a line gave.
#[derive(Debug, PartialEq, Eq)]
struct Given {
    words: u64,
    calls: usize,
    taken: usize,
    reader: [u8; READER_LEN],
    carry: [u8; CARRY_LEN],
}

/// Each piece is handed over, and then what is left of it, until nothing is found.
fn run(bytes: &[u8], cut: usize, next: impl Fn(&mut [u8], &mut [u8], &[u8]) -> u32) -> Given {
    let (mut reader, mut carry) = ([0; READER_LEN], [0; CARRY_LEN]);
    let (mut words, mut calls, mut taken) = (0u64, 0, 0);
    for mut piece in bytes.chunks(cut) {
        loop {
            let word = next(&mut reader, black_box(&mut carry), piece);
            words = words.wrapping_mul(31).wrapping_add(u64::from(word));
            calls += 1;
            taken += usize::from(word >> 24 == 0);
            piece = &piece[(word & 0xFF) as usize..];
            if word >> 16 == 0 {
                break;
            }
        }
    }
    Given { words, calls, taken, reader, carry }
}

/// Called as the library is: a function of its own, which the caller's loop is not mixed with.
#[inline(never)]
fn account_next(reader: &mut [u8], carry: &mut [u8], piece: &[u8]) -> u32 {
    pieces::next(reader, carry, piece)
}

pub fn main() {
    head("records from a serial line (no account in C)", &["account"]);
    let (taken, times) = entry(
        "pieces_fresh",
        &[(); EVENTS],
        [
            |_, lent| library::pieces::fresh(&mut lent[..READER_LEN]),
            |_, lent| pieces::fresh(&mut lent[..READER_LEN]),
        ],
    );
    assert_eq!(taken, EVENTS, "each call makes a reader");
    line("pieces_fresh", EVENTS, taken, times);

    let bytes: Vec<u8> = tape().whole().flatten().copied().collect();
    for (name, cut) in [
        ("pieces_next, 64 bytes at a time", 64),
        ("pieces_next, 8 bytes at a time", 8),
        ("pieces_next, byte by byte", 1),
    ] {
        let Given { calls, taken, .. } = run(&bytes, cut, account_next);
        assert_eq!(taken, calls, "every record of the line is handed on");
        let times = best(
            name,
            ROUNDS,
            calls,
            [&|| run(black_box(&bytes), cut, library::pieces::next), &|| {
                run(black_box(&bytes), cut, account_next)
            }],
        );
        line(name, calls, taken, times);
    }
}
