//! The two entries of a serial line.

use crate::account::pieces;
use core::slice::{from_raw_parts, from_raw_parts_mut};

#[no_mangle]
pub unsafe extern "C" fn callcontrol_pieces_fresh(reader: *mut u8, reader_len: usize) -> u32 {
    pieces::fresh(from_raw_parts_mut(reader, reader_len))
}

#[no_mangle]
pub unsafe extern "C" fn callcontrol_pieces_next(
    reader: *mut u8,
    reader_len: usize,
    carry: *mut u8,
    carry_len: usize,
    piece: *const u8,
    piece_len: usize,
) -> u32 {
    pieces::next(
        from_raw_parts_mut(reader, reader_len),
        from_raw_parts_mut(carry, carry_len),
        from_raw_parts(piece, piece_len),
    )
}
