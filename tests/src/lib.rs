//! What the tests share: the account (what the paper says), the library (what is tested),
//! and the means to put the two side by side.

pub mod account;
pub mod drawing;
pub mod drawing_console;
pub mod explore;
pub mod generate;
pub mod histories;
pub mod library;
pub mod programs;
pub mod replay;
pub mod request;
pub mod sidebyside;
pub mod tape;
pub mod yardstick;
