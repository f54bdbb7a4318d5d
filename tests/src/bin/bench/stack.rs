//! How much stack one step takes by both engines where the library is called over a bridge: a program of
//! `bridge/` plays the tapes on a painted one.

use callcontrol_tests::library::{archives, SMALL_ARCHIVE};
use callcontrol_tests::programs::{stack_used_with, CC};
use callcontrol_tests::tape::{tape, tape_with_slots};

pub fn main() {
    // The program is for the machine of the library that is shipped.
    if !cfg!(target_arch = "x86_64") && !CC.starts_with("x86_64") {
        return;
    }
    println!("stack of one step in bytes, the most over each tape (goal: under 1024):");
    println!("  {:<34}{:>14}{:>14}", "", "without slots", "with slots");
    let first: Vec<_> = archives().collect();
    for (name, archives) in [("first engine", &first[..]), ("second engine", &[SMALL_ARCHIVE])] {
        let [without, with] = [tape(), tape_with_slots()]
            .map(|tape| stack_used_with(archives, "tests/bridge/stack.c", &tape.with_lengths()));
        println!("  {name:<34}{without:>14}{with:>14}");
    }
}
