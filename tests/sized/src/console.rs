//! A console's two entries.

use crate::account::console;
use core::slice::{from_raw_parts, from_raw_parts_mut};

#[no_mangle]
pub unsafe extern "C" fn callcontrol_console_fresh(table: *mut u8, table_len: usize) -> u32 {
    console::fresh(from_raw_parts_mut(table, table_len))
}

#[no_mangle]
pub unsafe extern "C" fn callcontrol_console_step(
    table: *mut u8,
    table_len: usize,
    place: u8,
    event: *const u8,
    event_len: usize,
    out: *mut u8,
    out_len: usize,
) -> u32 {
    console::step(
        from_raw_parts_mut(table, table_len),
        place,
        from_raw_parts(event, event_len),
        from_raw_parts_mut(out, out_len),
    )
}
