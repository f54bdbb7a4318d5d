//! The bank's four entries.

use crate::account::bank;
use core::slice::{from_raw_parts, from_raw_parts_mut};

#[no_mangle]
pub unsafe extern "C" fn callcontrol_bank_new(bank: *mut u8, bank_len: usize, reading: u32) -> u32 {
    bank::new(from_raw_parts_mut(bank, bank_len), reading)
}

#[no_mangle]
pub unsafe extern "C" fn callcontrol_bank_stop(bank: *mut u8, bank_len: usize, timer: u16) -> u32 {
    bank::stop(from_raw_parts_mut(bank, bank_len), timer)
}

#[no_mangle]
pub unsafe extern "C" fn callcontrol_bank_start(
    bank: *mut u8,
    bank_len: usize,
    lengths: *const u32,
    lengths_len: usize,
    timer: u16,
    code: u8,
) -> u32 {
    bank::start(
        from_raw_parts_mut(bank, bank_len),
        from_raw_parts(lengths, lengths_len),
        timer,
        code,
    )
}

#[no_mangle]
pub unsafe extern "C" fn callcontrol_bank_advance(
    bank: *mut u8,
    bank_len: usize,
    reading: u32,
    due: *mut u16,
    due_len: usize,
) -> u32 {
    bank::advance(from_raw_parts_mut(bank, bank_len), reading, from_raw_parts_mut(due, due_len))
}
