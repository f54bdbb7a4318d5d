//! The code and the stack of `callcontrol_step` in the archive of a set with one call stay what they
//! were with every request in and messages by line: an entry that weighs on them belongs into another
//! archive. So does the code of a console's two entries.

use callcontrol_tests::library::BRIDGED;
use callcontrol_tests::programs::{code_of, stack_used};
use callcontrol_tests::tape::tape;

/// Bytes that a program has more for naming `callcontrol_step`, and bytes of stack of a step.
/// Measured with the compiler of this kit; docs/PORT.md has what the older kit's gave.
const CODE: usize = 12122;
const STACK: usize = 432;

/// Bytes that a program has more for naming a console's two entries.
const CONSOLE: usize = 15541;

/// As measured, and 2 % more.
fn held(what: &str, bytes: usize, measured: usize) {
    println!("{bytes} bytes of {what}, {measured} when it was measured");
    assert!(bytes <= measured + measured / 50, "{bytes} bytes of {what}, {measured} before");
    // One that is far below was not measured at all.
    assert!(bytes >= measured / 2, "{bytes} bytes of {what}, {measured} before");
}

fn shipped() -> bool {
    let shipped = cfg!(target_arch = "x86_64") || BRIDGED;
    if !shipped {
        println!("not measured: this is not the library that is shipped, which is x86-64 code");
    }
    shipped
}

#[test]
fn the_code_of_a_step_stays() {
    if shipped() {
        held("code", code_of("host", &["callcontrol_step"]), CODE);
    }
}

#[test]
fn the_stack_of_a_step_stays() {
    if shipped() {
        held("stack", stack_used("tests/bridge/stack.c", &tape().with_lengths()), STACK);
    }
}

#[test]
fn the_code_of_a_console_stays() {
    if shipped() {
        let both = ["callcontrol_console_fresh", "callcontrol_console_step"];
        held("code", code_of("host_console", &both), CONSOLE);
    }
}
