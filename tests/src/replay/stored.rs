//! What is stored of `replay`'s doing: the text of every history, and the picture of one.

use super::{run, Options};
use crate::histories;
use std::fs::{self, File};
use std::path::PathBuf;

/// The history that docs/replay.svg shows.
const SHOWN: &str = "whole_call";

fn folder() -> PathBuf {
    histories::root().join("tests/histories")
}

/// Files of hex text, and whether they are a console's.
pub fn files() -> Vec<(PathBuf, bool)> {
    let of = |folder: PathBuf, console: bool| {
        let mut files: Vec<PathBuf> = fs::read_dir(folder)
            .expect("a folder of histories")
            .map(|entry| entry.expect("a file in it").path())
            .filter(|path| path.extension().is_some_and(|ending| ending == "hex"))
            .collect();
        files.sort();
        files.into_iter().map(move |path| (path, console))
    };
    of(folder(), false).chain(of(folder().join("console"), true)).collect()
}

/// For each file of hex text, where its text is stored and what it should be.
pub fn texts() -> Vec<(PathBuf, String)> {
    let text = |(path, console): (PathBuf, bool)| {
        let options = Options { hex: true, console, ..Options::default() };
        let (mut text, from) = (Vec::new(), File::open(&path).expect("it was just seen"));
        run(from, &options, &mut text).unwrap_or_else(|fault| panic!("{fault:?}"));
        (path.with_extension("text"), String::from_utf8(text).expect("it is text"))
    };
    files().into_iter().map(text).collect()
}

/// Where the picture is, and what it should be.
pub fn picture() -> (PathBuf, String) {
    let drawn = std::env::temp_dir().join(format!("replay-{}.svg", std::process::id()));
    let title = format!("{SHOWN}.hex");
    let from = File::open(folder().join(&title)).expect("it is stored");
    let options = Options { hex: true, svg: Some(drawn.clone()), title, ..Options::default() };
    run(from, &options, &mut std::io::sink()).unwrap_or_else(|fault| panic!("{fault:?}"));
    let picture = fs::read_to_string(&drawn).expect("it was just drawn");
    let _ = fs::remove_file(drawn);
    (histories::root().join("docs/replay.svg"), picture)
}
