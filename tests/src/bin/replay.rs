//! A set's event file in words and as a picture: `examples/replay` builds and runs it.

use callcontrol_tests::replay::{self, Fault, Options};
use std::ffi::OsString;
use std::fs::File;
use std::io::{self, ErrorKind};
use std::path::PathBuf;
use std::process::ExitCode;

const USE: &str = "replay [--hex] [--console] [--svg OUT] [--refused] FILE";

fn main() -> ExitCode {
    let (options, file) = match options(std::env::args_os().skip(1)) {
        Ok(options) => options,
        Err(fault) => {
            eprintln!("replay: {fault}; use: {USE}");
            return ExitCode::from(2);
        }
    };
    let from = match File::open(&file) {
        Ok(from) => from,
        Err(error) => {
            eprintln!("replay: {} cannot be opened: {error}", file.display());
            return ExitCode::from(2);
        }
    };
    match replay::run(from, &options, &mut io::stdout()) {
        Ok(()) => ExitCode::SUCCESS,
        // Nobody reads on.
        Err(Fault::Write(error)) if error.kind() == ErrorKind::BrokenPipe => ExitCode::SUCCESS,
        Err(Fault::Write(error)) => {
            eprintln!("replay: the text cannot be written: {error}");
            ExitCode::FAILURE
        }
        Err(Fault::Read(error)) => {
            eprintln!("replay: {} cannot be read: {error}", file.display());
            ExitCode::from(2)
        }
        Err(Fault::Chart(path, error)) => {
            eprintln!("replay: {} cannot be written: {error}", path.display());
            ExitCode::from(2)
        }
    }
}

fn options(mut arguments: impl Iterator<Item = OsString>) -> Result<(Options, PathBuf), String> {
    let (mut options, mut file) = (Options::default(), None::<PathBuf>);
    let mut only_files = false;
    while let Some(argument) = arguments.next() {
        match argument.to_str().filter(|_| !only_files) {
            Some("--hex") => options.hex = true,
            Some("--console") => options.console = true,
            Some("--refused") => options.refused = true,
            Some("--svg") => {
                let path = arguments.next().ok_or("--svg wants a file to write")?;
                options.svg = Some(path.into());
            }
            Some("--") => only_files = true,
            Some(unknown) if unknown.starts_with('-') && unknown.len() > 1 => {
                return Err(format!("{unknown} is not known"));
            }
            _ if file.is_some() => return Err(String::from("one file is replayed at a time")),
            _ => file = Some(argument.into()),
        }
    }
    let file = file.ok_or("no file is named")?;
    let name = file.file_name().unwrap_or_default().to_string_lossy();
    options.title = name.into_owned();
    Ok((options, file))
}
