//! The bank of timers, linked into this process.

pub(super) mod exported {
    extern "C" {
        pub fn callcontrol_bank_new(bank: *mut u8, bank_len: usize, reading: u32) -> u32;
        pub fn callcontrol_bank_stop(bank: *mut u8, bank_len: usize, timer: u16) -> u32;
        pub fn callcontrol_bank_start(
            bank: *mut u8,
            bank_len: usize,
            table: *const u32,
            table_len: usize,
            timer: u16,
            code: u8,
        ) -> u32;
        pub fn callcontrol_bank_advance(
            bank: *mut u8,
            bank_len: usize,
            reading: u32,
            due: *mut u16,
            due_len: usize,
        ) -> u32;
    }
}

// Sound for the reason that stands in direct.rs.

#[inline]
pub fn new(bank: &mut [u8], reading: u32) -> u32 {
    unsafe { exported::callcontrol_bank_new(bank.as_mut_ptr(), bank.len(), reading) }
}

#[inline]
pub fn stop(bank: &mut [u8], timer: u16) -> u32 {
    unsafe { exported::callcontrol_bank_stop(bank.as_mut_ptr(), bank.len(), timer) }
}

#[inline]
pub fn start(bank: &mut [u8], table: &[u32], timer: u16, code: u8) -> u32 {
    unsafe {
        exported::callcontrol_bank_start(
            bank.as_mut_ptr(),
            bank.len(),
            table.as_ptr(),
            table.len(),
            timer,
            code,
        )
    }
}

#[inline]
pub fn advance(bank: &mut [u8], reading: u32, due: &mut [u16]) -> u32 {
    unsafe {
        exported::callcontrol_bank_advance(
            bank.as_mut_ptr(),
            bank.len(),
            reading,
            due.as_mut_ptr(),
            due.len(),
        )
    }
}

/// Numbers that lie in lent bytes.
pub(super) fn numbers<T>(bytes: &mut [u8]) -> &mut [T] {
    // Each pattern of bytes is one of the numbers used here.
    let (before, numbers, after) = unsafe { bytes.align_to_mut::<T>() };
    assert!(before.is_empty() && after.is_empty(), "lent numbers are whole and aligned");
    numbers
}
