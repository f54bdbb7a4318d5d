//! The console, linked into this process.

mod exported {
    extern "C" {
        pub fn callcontrol_console_fresh(table: *mut u8, table_len: usize) -> u32;
        pub fn callcontrol_console_step(
            table: *mut u8,
            table_len: usize,
            place: u8,
            event: *const u8,
            event_len: usize,
            out: *mut u8,
            out_len: usize,
        ) -> u32;
    }
}

// Sound for the reason that stands in direct.rs.

#[inline]
pub fn fresh(table: &mut [u8]) -> u32 {
    unsafe { exported::callcontrol_console_fresh(table.as_mut_ptr(), table.len()) }
}

#[inline]
pub fn step(table: &mut [u8], place: u8, event: &[u8], out: &mut [u8]) -> u32 {
    unsafe {
        exported::callcontrol_console_step(
            table.as_mut_ptr(),
            table.len(),
            place,
            event.as_ptr(),
            event.len(),
            out.as_mut_ptr(),
            out.len(),
        )
    }
}
