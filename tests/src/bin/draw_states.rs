//! Writes docs/states.svg anew from the library.

use callcontrol_tests::{drawing, histories};

fn main() {
    let path = histories::root().join("docs/states.svg");
    std::fs::write(&path, drawing::states_svg())
        .unwrap_or_else(|error| panic!("{}: {error}", path.display()));
}
