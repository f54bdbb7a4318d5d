//! How many instructions one step takes: the bridge, a small program that calls the library, is run
//! under the emulator, which logs each instruction, or under valgrind, which counts them.

use callcontrol_tests::account::{boundary, Call};
#[cfg(not(bridged))]
use callcontrol_tests::library;
use callcontrol_tests::programs;
use callcontrol_tests::request::{Function, Request};
use callcontrol_tests::tape::{tape, tape_with_slots, OUT_LEN};
use std::io::{BufRead, BufReader, Write};
use std::process::{Command, Stdio};

const STEPS: usize = 2000;

pub fn main() {
    for (what, tape) in [("without slots", tape()), ("with slots", tape_with_slots())] {
        let (mut steps, mut second, mut refusals) = (Vec::new(), Vec::new(), Vec::new());
        let mut record = Call::FRESH.pack();
        for event in tape.events().take(STEPS) {
            let step = Request::step(&record, event, OUT_LEN, 0);
            step.push(&mut steps);
            Request { function: Function::SmallStep, ..step }.push(&mut second);
            // What any call takes: one that is refused at once.
            Request::fresh(&[], 0).push(&mut refusals);
            boundary::step(&mut record, event, &mut [0; OUT_LEN]);
        }
        let (Some(steps), Some(second), Some(refusals)) =
            (count(&steps), count(&second), count(&refusals))
        else {
            println!(
                "Instructions are not counted: that takes an emulator that logs, or valgrind."
            );
            return;
        };
        let [each, second] = [steps, second].map(|all| all.saturating_sub(refusals) / STEPS);
        println!(
            "{each} instructions per step, {second} by the second engine, over {STEPS} steps of the \
             tape {what}"
        );
    }
}

/// The bridge and how its instructions are found in what is logged: the ways to try, one after another.
#[cfg(bridged)]
fn ways() -> Vec<(Command, fn(&str) -> usize)> {
    let traced = |line: &str| usize::from(line.starts_with("Trace"));
    // The name of the option has changed between versions.
    ["-one-insn-per-tb", "-singlestep"]
        .into_iter()
        .filter_map(|one_by_one| programs::bridge(&[one_by_one, "-d", "exec,nochain"]))
        .map(|bridge| (bridge, traced as fn(&str) -> usize))
        .collect()
}

#[cfg(not(bridged))]
fn ways() -> Vec<(Command, fn(&str) -> usize)> {
    let program = std::path::Path::new(env!("OUT_DIR")).join("counted");
    let archives: Vec<_> = library::archives().chain([library::SMALL_RENAMED]).collect();
    let options = ["-std=c11", "-O2"];
    programs::build_with(&archives, programs::CC, &options, "tests/bridge/bridge.c", &program);
    let mut command = Command::new("valgrind");
    command.args(["--tool=callgrind", "--callgrind-out-file=/dev/null"]).arg(program);
    let collected = |line: &str| {
        let said = line.split_once("Collected :").map(|(_, count)| count.trim());
        said.and_then(|count| count.parse().ok()).unwrap_or(0)
    };
    vec![(command, collected)]
}

/// The instructions the bridge takes to serve this batch, its start and end included.
fn count(batch: &[u8]) -> Option<usize> {
    ways().into_iter().find_map(|(mut command, instructions_in)| {
        let mut bridge = command
            .stdin(Stdio::piped())
            .stdout(Stdio::null())
            .stderr(Stdio::piped())
            .spawn()
            .ok()?;
        let mut to = bridge.stdin.take()?;
        let batch = [&(batch.len() as u32).to_le_bytes(), batch].concat();
        let writer = std::thread::spawn(move || to.write_all(&batch).is_ok());
        let lines = BufReader::new(bridge.stderr.take()?).lines();
        let count = lines.map_while(Result::ok).map(|line| instructions_in(&line)).sum();
        let served = writer.join().is_ok_and(|written| written);
        (bridge.wait().ok()?.success() && served && count > 0).then_some(count)
    })
}
