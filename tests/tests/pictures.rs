//! The pictures of the states and of a console's ways in docs/ are those that the library gives.

use callcontrol_tests::{drawing, drawing_console, histories};
use std::fs;

#[test]
fn the_picture_of_the_states_is_drawn_from_the_library() {
    let committed = fs::read_to_string(histories::root().join("docs/states.svg"))
        .expect("docs/states.svg is there");
    assert!(
        committed == drawing::states_svg(),
        "docs/states.svg is not what the library gives; \
         `cargo run --release --offline --manifest-path tests/Cargo.toml --bin draw_states` writes it"
    );
}

#[test]
fn the_picture_of_the_console_is_drawn_from_the_library() {
    let committed = fs::read_to_string(histories::root().join("docs/console.svg"))
        .expect("docs/console.svg is there");
    assert!(
        committed == drawing_console::console_svg(),
        "docs/console.svg is not what the library gives; \
         `cargo run --release --offline --manifest-path tests/Cargo.toml --bin draw_console` writes it"
    );
}
