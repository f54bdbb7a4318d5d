//! The account as a C host would link it: the exported names of a group of entries, each group a feature,
//! and nothing of std.

#![no_std]
// The functions of a group need only a part of the account.
#![allow(dead_code, unused_imports)]

#[path = "../../src/account/mod.rs"]
mod account;

#[cfg(feature = "bank")]
mod bank;
#[cfg(feature = "channel")]
mod channel;
#[cfg(feature = "console")]
mod console;
#[cfg(feature = "direct")]
mod direct;
#[cfg(feature = "one_call")]
mod one_call;
#[cfg(feature = "pieces")]
mod pieces;

#[panic_handler]
fn panic(_: &core::panic::PanicInfo<'_>) -> ! {
    loop {}
}
