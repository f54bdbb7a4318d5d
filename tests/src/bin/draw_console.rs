//! Writes docs/console.svg anew from the library.

use callcontrol_tests::{drawing_console, histories};

fn main() {
    let path = histories::root().join("docs/console.svg");
    std::fs::write(&path, drawing_console::console_svg())
        .unwrap_or_else(|error| panic!("{}: {error}", path.display()));
}
