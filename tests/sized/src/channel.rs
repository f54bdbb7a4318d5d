//! The five entries for channel questions.

use crate::account::channel;
use core::slice::from_raw_parts_mut;

#[no_mangle]
pub unsafe extern "C" fn callcontrol_channel_fresh(rooms: *mut u8, rooms_len: usize) -> u32 {
    channel::fresh(from_raw_parts_mut(rooms, rooms_len))
}

#[no_mangle]
pub unsafe extern "C" fn callcontrol_channel_ask(
    rooms: *mut u8,
    rooms_len: usize,
    number: u16,
    call: u16,
    asked: u8,
    out: *mut u8,
    out_len: usize,
) -> u32 {
    channel::ask(
        from_raw_parts_mut(rooms, rooms_len),
        number,
        call,
        asked,
        from_raw_parts_mut(out, out_len),
    )
}

#[no_mangle]
pub unsafe extern "C" fn callcontrol_channel_pdu(
    rooms: *mut u8,
    rooms_len: usize,
    number: u16,
    call: u16,
    result: u32,
    out: *mut u8,
    out_len: usize,
) -> u32 {
    channel::pdu(
        from_raw_parts_mut(rooms, rooms_len),
        number,
        call,
        result,
        from_raw_parts_mut(out, out_len),
    )
}

#[no_mangle]
pub unsafe extern "C" fn callcontrol_channel_decide(
    rooms: *mut u8,
    rooms_len: usize,
    number: u16,
    decision: u8,
    out: *mut u8,
    out_len: usize,
) -> u32 {
    channel::decide(
        from_raw_parts_mut(rooms, rooms_len),
        number,
        decision,
        from_raw_parts_mut(out, out_len),
    )
}

#[no_mangle]
pub unsafe extern "C" fn callcontrol_channel_ended(
    rooms: *mut u8,
    rooms_len: usize,
    call: u16,
    out: *mut u8,
    out_len: usize,
) -> u32 {
    channel::ended(from_raw_parts_mut(rooms, rooms_len), call, from_raw_parts_mut(out, out_len))
}
