//! One step uses less than 1 KiB of stack, measured on a painted one.

use callcontrol_tests::library::BRIDGED;
use callcontrol_tests::programs::stack_used;
use callcontrol_tests::tape::{tape, tape_with_slots};

#[test]
fn a_step_uses_less_than_a_kibibyte_of_stack() {
    if cfg!(not(target_arch = "x86_64")) && !BRIDGED {
        println!("not measured: this is not the library that is shipped, which is x86-64 code");
        return;
    }
    for tape in [tape(), tape_with_slots()] {
        let bytes = stack_used("tests/bridge/stack.c", &tape.with_lengths());
        println!("{bytes} bytes of stack");
        // A step that used next to nothing would not have been played.
        assert!((64..1024).contains(&bytes), "{bytes} bytes of stack");
    }
}
