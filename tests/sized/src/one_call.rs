//! The six entries for one call.

use crate::account::boundary;
use core::slice::{from_raw_parts, from_raw_parts_mut};

#[no_mangle]
pub unsafe extern "C" fn callcontrol_fresh(record: *mut u8, record_len: usize) -> u32 {
    boundary::fresh(from_raw_parts_mut(record, record_len))
}

#[no_mangle]
pub unsafe extern "C" fn callcontrol_step(
    record: *mut u8,
    record_len: usize,
    event: *const u8,
    event_len: usize,
    out: *mut u8,
    out_len: usize,
) -> u32 {
    boundary::step(
        from_raw_parts_mut(record, record_len),
        from_raw_parts(event, event_len),
        from_raw_parts_mut(out, out_len),
    )
}

#[no_mangle]
pub unsafe extern "C" fn callcontrol_check_event(bytes: *const u8, len: usize) -> u32 {
    boundary::check_event(from_raw_parts(bytes, len))
}

#[no_mangle]
pub unsafe extern "C" fn callcontrol_check_message(bytes: *const u8, len: usize) -> u32 {
    boundary::check_message(from_raw_parts(bytes, len))
}

#[no_mangle]
pub unsafe extern "C" fn callcontrol_copy_event(
    bytes: *const u8,
    len: usize,
    out: *mut u8,
    out_len: usize,
) -> u32 {
    boundary::copy_event(from_raw_parts(bytes, len), from_raw_parts_mut(out, out_len))
}

#[no_mangle]
pub unsafe extern "C" fn callcontrol_copy_message(
    bytes: *const u8,
    len: usize,
    out: *mut u8,
    out_len: usize,
) -> u32 {
    boundary::copy_message(from_raw_parts(bytes, len), from_raw_parts_mut(out, out_len))
}
