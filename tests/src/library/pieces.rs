//! The reader of records in pieces, linked into this process.

mod exported {
    extern "C" {
        pub fn callcontrol_pieces_fresh(reader: *mut u8, reader_len: usize) -> u32;
        pub fn callcontrol_pieces_next(
            reader: *mut u8,
            reader_len: usize,
            carry: *mut u8,
            carry_len: usize,
            piece: *const u8,
            piece_len: usize,
        ) -> u32;
        pub fn callcontrol_test_record_in(
            lies: u8,
            size: u8,
            carry: *const u8,
            carry_len: usize,
            piece: *const u8,
            piece_len: usize,
            out: *mut u8,
            out_len: usize,
        ) -> u32;
    }
}

// Sound for the reason that stands in direct.rs.

#[inline]
pub fn fresh(reader: &mut [u8]) -> u32 {
    unsafe { exported::callcontrol_pieces_fresh(reader.as_mut_ptr(), reader.len()) }
}

#[inline]
pub fn next(reader: &mut [u8], carry: &mut [u8], piece: &[u8]) -> u32 {
    unsafe {
        exported::callcontrol_pieces_next(
            reader.as_mut_ptr(),
            reader.len(),
            carry.as_mut_ptr(),
            carry.len(),
            piece.as_ptr(),
            piece.len(),
        )
    }
}

/// The record that `next` handed on with this number of where it lies and this size, copied.
#[inline]
pub fn record_in(lies: u8, size: u8, carry: &[u8], piece: &[u8], out: &mut [u8]) -> u32 {
    unsafe {
        exported::callcontrol_test_record_in(
            lies,
            size,
            carry.as_ptr(),
            carry.len(),
            piece.as_ptr(),
            piece.len(),
            out.as_mut_ptr(),
            out.len(),
        )
    }
}
