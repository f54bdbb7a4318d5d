//! The library under test, as its C host sees it: functions over lent bytes.
//!
//! Nothing here knows the paper. Where the archives hold code of this machine they are linked, and
//! the functions are called directly. Elsewhere the same functions go over a bridge: a small
//! program for the library's machine, run by an emulator, that makes the calls.

#[cfg(not(bridged))]
pub mod bank;
#[cfg(bridged)]
mod bridge;
#[cfg(not(bridged))]
pub mod channel;
#[cfg(not(bridged))]
pub mod console;
#[cfg(not(bridged))]
mod direct;
#[cfg(not(bridged))]
pub mod direct_mode;
#[cfg(not(bridged))]
pub mod pieces;
#[cfg(not(bridged))]
pub mod small;

#[cfg(bridged)]
use bridge as way;
#[cfg(not(bridged))]
use direct as way;

pub use way::{check_event, check_message, copy_event, copy_message, fresh, perform, step};

/// The bare step, for measurements that must call it without a wrapper between.
#[cfg(not(bridged))]
pub use direct::callcontrol_step;

/// Whether a call is so slow that many should be made at once, by [`perform`].
pub const BRIDGED: bool = cfg!(bridged);

/// The archives these functions are from.
pub fn archives() -> impl Iterator<Item = &'static str> {
    env!("CALLCONTROL_ARCHIVES").split(':')
}

/// The archive with the second engine, whose names are those of the first.
pub const SMALL_ARCHIVE: &str = env!("CALLCONTROL_SMALL_ARCHIVE");

/// The same with `small_` before each name, for a program that links both.
pub const SMALL_RENAMED: &str = env!("CALLCONTROL_SMALL_RENAMED");

/// Splits a result into answer and count of bytes written.
pub fn split(word: u32) -> (u32, u32) {
    (word >> 24, word & 0xFFFF)
}

/// The place in a result: where the bad field was, with answer 4.
pub fn place(word: u32) -> u32 {
    word >> 16 & 0xFF
}
