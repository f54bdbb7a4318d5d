//! Channel change responses, linked into this process.

mod exported {
    extern "C" {
        pub fn callcontrol_channel_fresh(rooms: *mut u8, rooms_len: usize) -> u32;
        pub fn callcontrol_channel_ask(
            rooms: *mut u8,
            rooms_len: usize,
            number: u16,
            call: u16,
            asked: u8,
            out: *mut u8,
            out_len: usize,
        ) -> u32;
        pub fn callcontrol_channel_pdu(
            rooms: *mut u8,
            rooms_len: usize,
            number: u16,
            call: u16,
            result: u32,
            out: *mut u8,
            out_len: usize,
        ) -> u32;
        pub fn callcontrol_channel_decide(
            rooms: *mut u8,
            rooms_len: usize,
            number: u16,
            decision: u8,
            out: *mut u8,
            out_len: usize,
        ) -> u32;
        pub fn callcontrol_channel_ended(
            rooms: *mut u8,
            rooms_len: usize,
            call: u16,
            out: *mut u8,
            out_len: usize,
        ) -> u32;
    }
}

// Sound for the reason that stands in direct.rs.

#[inline]
pub fn fresh(rooms: &mut [u8]) -> u32 {
    unsafe { exported::callcontrol_channel_fresh(rooms.as_mut_ptr(), rooms.len()) }
}

#[inline]
pub fn ask(rooms: &mut [u8], number: u16, call: u16, asked: u8, out: &mut [u8]) -> u32 {
    unsafe {
        exported::callcontrol_channel_ask(
            rooms.as_mut_ptr(),
            rooms.len(),
            number,
            call,
            asked,
            out.as_mut_ptr(),
            out.len(),
        )
    }
}

#[inline]
pub fn pdu(rooms: &mut [u8], number: u16, call: u16, result: u32, out: &mut [u8]) -> u32 {
    unsafe {
        exported::callcontrol_channel_pdu(
            rooms.as_mut_ptr(),
            rooms.len(),
            number,
            call,
            result,
            out.as_mut_ptr(),
            out.len(),
        )
    }
}

#[inline]
pub fn decide(rooms: &mut [u8], number: u16, decision: u8, out: &mut [u8]) -> u32 {
    unsafe {
        exported::callcontrol_channel_decide(
            rooms.as_mut_ptr(),
            rooms.len(),
            number,
            decision,
            out.as_mut_ptr(),
            out.len(),
        )
    }
}

#[inline]
pub fn ended(rooms: &mut [u8], call: u16, out: &mut [u8]) -> u32 {
    unsafe {
        exported::callcontrol_channel_ended(
            rooms.as_mut_ptr(),
            rooms.len(),
            call,
            out.as_mut_ptr(),
            out.len(),
        )
    }
}
