//! The accounts in plain C (`yardstick/`), built for speed and for size: what the library's time and
//! code are measured by.

macro_rules! plain {
    ($module:ident, $fresh:ident, $step:ident, $check_event:ident, $check_message:ident,
     $copy_event:ident, $copy_message:ident, $console_fresh:ident, $console_step:ident) => {
        pub mod $module {
            extern "C" {
                fn $fresh(record: *mut u8, record_len: usize) -> u32;
                pub fn $step(
                    record: *mut u8,
                    record_len: usize,
                    event: *const u8,
                    event_len: usize,
                    out: *mut u8,
                    out_len: usize,
                ) -> u32;
                fn $check_event(bytes: *const u8, len: usize) -> u32;
                fn $check_message(bytes: *const u8, len: usize) -> u32;
                fn $copy_event(bytes: *const u8, len: usize, out: *mut u8, out_len: usize) -> u32;
                fn $copy_message(bytes: *const u8, len: usize, out: *mut u8, out_len: usize)
                    -> u32;
                fn $console_fresh(table: *mut u8, table_len: usize) -> u32;
                fn $console_step(
                    table: *mut u8,
                    table_len: usize,
                    place: u8,
                    event: *const u8,
                    event_len: usize,
                    out: *mut u8,
                    out_len: usize,
                ) -> u32;
            }

            /// The bare step, for measurements that must call it without a wrapper between.
            pub use $step as bare_step;

            #[inline]
            pub fn fresh(record: &mut [u8]) -> u32 {
                unsafe { $fresh(record.as_mut_ptr(), record.len()) }
            }

            #[inline]
            pub fn step(record: &mut [u8], event: &[u8], out: &mut [u8]) -> u32 {
                let (lent, room) = (out.as_mut_ptr(), out.len());
                let (held, size) = (record.as_mut_ptr(), record.len());
                unsafe { $step(held, size, event.as_ptr(), event.len(), lent, room) }
            }

            #[inline]
            pub fn check_event(bytes: &[u8]) -> u32 {
                unsafe { $check_event(bytes.as_ptr(), bytes.len()) }
            }

            #[inline]
            pub fn check_message(bytes: &[u8]) -> u32 {
                unsafe { $check_message(bytes.as_ptr(), bytes.len()) }
            }

            #[inline]
            pub fn copy_event(bytes: &[u8], out: &mut [u8]) -> u32 {
                unsafe { $copy_event(bytes.as_ptr(), bytes.len(), out.as_mut_ptr(), out.len()) }
            }

            #[inline]
            pub fn copy_message(bytes: &[u8], out: &mut [u8]) -> u32 {
                unsafe { $copy_message(bytes.as_ptr(), bytes.len(), out.as_mut_ptr(), out.len()) }
            }

            #[inline]
            pub fn console_fresh(table: &mut [u8]) -> u32 {
                unsafe { $console_fresh(table.as_mut_ptr(), table.len()) }
            }

            #[inline]
            pub fn console_step(table: &mut [u8], place: u8, event: &[u8], out: &mut [u8]) -> u32 {
                let (lent, room) = (out.as_mut_ptr(), out.len());
                let (held, size) = (table.as_mut_ptr(), table.len());
                unsafe { $console_step(held, size, place, event.as_ptr(), event.len(), lent, room) }
            }
        }
    };
}

plain!(
    quick,
    plain_fresh,
    plain_step,
    plain_check_event,
    plain_check_message,
    plain_copy_event,
    plain_copy_message,
    plain_console_fresh,
    plain_console_step
);
plain!(
    small,
    plain_small_fresh,
    plain_small_step,
    plain_small_check_event,
    plain_small_check_message,
    plain_small_copy_event,
    plain_small_copy_message,
    plain_small_console_fresh,
    plain_small_console_step
);
