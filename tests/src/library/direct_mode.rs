//! Direct mode's six entries, linked into this process.

extern "C" {
    fn callcontrol_direct_fresh(record: *mut u8, record_len: usize) -> u32;
    fn callcontrol_direct_step(
        record: *mut u8,
        record_len: usize,
        event: *const u8,
        event_len: usize,
        out: *mut u8,
        out_len: usize,
    ) -> u32;
    fn callcontrol_direct_check_event(bytes: *const u8, len: usize) -> u32;
    fn callcontrol_direct_check_message(bytes: *const u8, len: usize) -> u32;
    fn callcontrol_direct_copy_event(
        bytes: *const u8,
        len: usize,
        out: *mut u8,
        out_len: usize,
    ) -> u32;
    fn callcontrol_direct_copy_message(
        bytes: *const u8,
        len: usize,
        out: *mut u8,
        out_len: usize,
    ) -> u32;
}

// Each call below is sound for the same reason: pointer and length come from one slice, a slice
// that may be written is borrowed alone, and the library keeps no pointer after it returns.

#[inline]
pub fn fresh(record: &mut [u8]) -> u32 {
    unsafe { callcontrol_direct_fresh(record.as_mut_ptr(), record.len()) }
}

#[inline]
pub fn step(record: &mut [u8], event: &[u8], out: &mut [u8]) -> u32 {
    unsafe {
        callcontrol_direct_step(
            record.as_mut_ptr(),
            record.len(),
            event.as_ptr(),
            event.len(),
            out.as_mut_ptr(),
            out.len(),
        )
    }
}

#[inline]
pub fn check_event(bytes: &[u8]) -> u32 {
    unsafe { callcontrol_direct_check_event(bytes.as_ptr(), bytes.len()) }
}

#[inline]
pub fn check_message(bytes: &[u8]) -> u32 {
    unsafe { callcontrol_direct_check_message(bytes.as_ptr(), bytes.len()) }
}

#[inline]
pub fn copy_event(bytes: &[u8], out: &mut [u8]) -> u32 {
    unsafe {
        callcontrol_direct_copy_event(bytes.as_ptr(), bytes.len(), out.as_mut_ptr(), out.len())
    }
}

#[inline]
pub fn copy_message(bytes: &[u8], out: &mut [u8]) -> u32 {
    unsafe {
        callcontrol_direct_copy_message(bytes.as_ptr(), bytes.len(), out.as_mut_ptr(), out.len())
    }
}
