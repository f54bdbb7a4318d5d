//! Writes anew what `replay` makes of the stored histories, and its picture in docs/: whoever runs it
//! reads the difference, for the tests then hold to it.

use callcontrol_tests::replay::stored;
use std::fs;

fn main() {
    for (path, text) in stored::texts() {
        fs::write(&path, text).unwrap_or_else(|error| panic!("{}: {error}", path.display()));
    }
    let (path, picture) = stored::picture();
    fs::write(&path, picture).unwrap_or_else(|error| panic!("{}: {error}", path.display()));
}
