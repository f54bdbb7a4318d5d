//! The second engine linked into this process: the archive of the smallest set has the names of the
//! other, so here each begins with `small_` (see `build.rs`).

extern "C" {
    fn small_callcontrol_fresh(record: *mut u8, record_len: usize) -> u32;
    pub fn small_callcontrol_step(
        record: *mut u8,
        record_len: usize,
        event: *const u8,
        event_len: usize,
        out: *mut u8,
        out_len: usize,
    ) -> u32;
}

// Sound for the reason that `direct` gives.

#[inline]
pub fn fresh(record: &mut [u8]) -> u32 {
    unsafe { small_callcontrol_fresh(record.as_mut_ptr(), record.len()) }
}

#[inline]
pub fn step(record: &mut [u8], event: &[u8], out: &mut [u8]) -> u32 {
    unsafe {
        small_callcontrol_step(
            record.as_mut_ptr(),
            record.len(),
            event.as_ptr(),
            event.len(),
            out.as_mut_ptr(),
            out.len(),
        )
    }
}
