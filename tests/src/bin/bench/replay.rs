//! How many records a second `replay` tells of, from a file of a million, and how much memory it takes.

use callcontrol_tests::replay::{self, Options};
use callcontrol_tests::tape::{console_tape, tape, whole};
use std::fs::{self, File, OpenOptions};
use std::io::{BufWriter, Write};
use std::time::Instant;

const RECORDS: usize = 1_000_000;
const RUNS: usize = 3;

pub fn main() {
    let path = std::env::temp_dir().join(format!("replay-bench-{}", std::process::id()));
    for console in [false, true] {
        let records: Vec<Vec<u8>> = match console {
            false => tape().whole().map(<[u8]>::to_vec).collect(),
            true => console_tape()
                .events()
                .filter(|(_, event)| whole(event))
                .map(|(place, event)| [&[place], event].concat())
                .collect(),
        };
        let mut file = BufWriter::new(File::create(&path).expect("a file can be made"));
        for record in records.iter().cycle().take(RECORDS) {
            file.write_all(record).expect("there is room");
        }
        file.into_inner().expect("there is room");
        let options = Options { console, ..Options::default() };
        let mut out = OpenOptions::new().write(true).open("/dev/null").expect("it is there");
        let times: Vec<f64> = (0..RUNS)
            .map(|_| {
                let start = Instant::now();
                let from = File::open(&path).expect("it was just made");
                replay::run(from, &options, &mut out).expect("nothing fails");
                start.elapsed().as_secs_f64()
            })
            .collect();
        let rates: Vec<String> =
            times.iter().map(|time| format!("{:.0}", RECORDS as f64 / time)).collect();
        let what = if console { "a console's file" } else { "a file" };
        println!(
            "replay: {what} of {RECORDS} records, {} bytes: {} records a second; {}",
            fs::metadata(&path).expect("it is there").len(),
            rates.join(", "),
            most_memory()
        );
    }
    let _ = fs::remove_file(path);
}

/// The most memory that this process had so far.
fn most_memory() -> String {
    let status = fs::read_to_string("/proc/self/status").unwrap_or_default();
    let most = status.lines().find(|line| line.starts_with("VmHWM:")).unwrap_or("memory not known");
    most.split_whitespace().collect::<Vec<_>>().join(" ")
}
