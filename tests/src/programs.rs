//! Building and running programs for the machine the library is for, on this machine.

use crate::histories::root;
use std::env;
use std::ffi::OsStr;
use std::io::{Read, Write};
use std::path::Path;
use std::process::{Command, ExitStatus, Stdio};
use std::sync::mpsc;
use std::thread;
use std::time::{Duration, Instant};

/// Compilers of C and of C++ for the library's machine.
pub const CC: &str = env!("CALLCONTROL_CC");
pub const CXX: &str = env!("CALLCONTROL_CXX");
/// What runs a program of that machine; empty where this machine does.
const EMULATOR: &str = env!("CALLCONTROL_EMULATOR");

/// Compiles a source of this repository and links it with the library, as C programs are linked.
/// Gives what the compiler said.
pub fn build(compiler: &str, arguments: &[&str], source: &str, program: &Path) -> String {
    let archives: Vec<_> = crate::library::archives().collect();
    build_with(&archives, compiler, arguments, source, program)
}

/// The same with other archives.
pub fn build_with(
    archives: &[&str],
    compiler: &str,
    arguments: &[&str],
    source: &str,
    program: &Path,
) -> String {
    let object = program.with_extension("o");
    let mut compile = Command::new(compiler);
    compile.args(arguments).arg("-I").arg(root().join("include"));
    compile.arg("-c").arg(root().join(source)).arg("-o").arg(&object);
    let mut link = Command::new(CC);
    link.arg(object).args(archives).arg("-o").arg(program);
    if !EMULATOR.is_empty() {
        // So that the emulator need not find the libraries of its machine.
        link.arg("-static");
    }
    [compile, link]
        .map(|mut command| {
            let output = command
                .output()
                .unwrap_or_else(|error| panic!("{error} (see tests/README.md): {command:?}"));
            let complaints = String::from_utf8_lossy(&output.stderr).into_owned();
            assert!(output.status.success(), "{command:?} says:\n{complaints}");
            complaints
        })
        .concat()
}

/// Builds a program of `bridge/` that measures stack, hands it what it plays, and gives what it prints.
pub fn stack_used(source: &str, tape: &[u8]) -> usize {
    let archives: Vec<_> = crate::library::archives().collect();
    stack_used_with(&archives, source, tape)
}

/// The same with other archives.
pub fn stack_used_with(archives: &[&str], source: &str, tape: &[u8]) -> usize {
    let name = Path::new(source).file_stem().expect("a file").to_string_lossy();
    let program = env::temp_dir().join(format!("{name}-{}-{}", archives.len(), std::process::id()));
    let strict = ["-std=gnu11", "-O2", "-Wall", "-Wextra", "-Werror"];
    build_with(archives, CC, &strict, source, &program);
    // Names are found at the start: what the loader uses at a first call of memcpy is not the library's.
    let mut command = run(&program);
    command.env("LD_BIND_NOW", "1");
    let ran = run_within(command, Some(tape), &LIMITS);
    for file in [&program, &program.with_extension("o")] {
        let _ = std::fs::remove_file(file);
    }
    assert!(ran.status.success(), "{source}: {}", ran.status);
    ran.stdout.trim().parse().expect("it prints a number")
}

/// The code that a program has more for naming these functions of an archive, what it does not need dropped.
pub fn code_of(archive: &str, functions: &[&str]) -> usize {
    let is_it = |path: &&str| path.ends_with(&format!("/lib{archive}.a"));
    let archive = crate::library::archives().find(is_it).expect("an archive of the tests");
    let [code, none] = [functions, &[]].map(|names| sections_of(names, archive)[0]);
    none.abs_diff(code)
}

/// The same of an archive at some path, its constants counted too.
pub fn code_and_constants_of(archive: &str, functions: &[&str]) -> usize {
    let [all, none] = [functions, &[]].map(|names| sections_of(names, archive).iter().sum());
    usize::abs_diff(none, all)
}

/// The bytes of code and of constants in a program that names these functions and calls none.
fn sections_of(functions: &[&str], archive: &str) -> [usize; 2] {
    let declared = functions.iter().map(|name| format!("void {name}(void);\n"));
    let named = functions.iter().map(|name| format!("(void *){name}, "));
    let source = format!(
        "{}void *const volatile named[] = {{{}0}};\nint main(void) {{ return named[0] != 0; }}\n",
        declared.collect::<String>(),
        named.collect::<String>()
    );
    let name = Path::new(archive).file_stem().expect("a file").to_string_lossy();
    let program =
        env::temp_dir().join(format!("{name}-{}-{}", functions.len(), std::process::id()));
    let file = program.with_extension("c");
    std::fs::write(&file, source).expect("a file for the program");
    let mut link = Command::new(CC);
    link.args(["-std=c11", "-Os", "-ffunction-sections", "-fdata-sections", "-Wl,--gc-sections"]);
    link.arg(&file).arg(archive).arg("-o").arg(&program);
    let linked = link.output().unwrap_or_else(|error| panic!("{error}: {link:?}"));
    assert!(linked.status.success(), "{}", String::from_utf8_lossy(&linked.stderr));
    let mut size = Command::new(CC.replace("gcc", "size"));
    let said = size.arg("-A").arg(&program).output();
    let said = said.unwrap_or_else(|error| panic!("{error}: {size:?}"));
    for file in [&program, &file] {
        let _ = std::fs::remove_file(file);
    }
    let said = String::from_utf8_lossy(&said.stdout).into_owned();
    [".text ", ".rodata "].map(|section| {
        // A program without constants has no such section.
        let line = said.lines().find_map(|line| line.strip_prefix(section));
        line.map_or(0, |line| {
            line.split_whitespace().next().and_then(|bytes| bytes.parse().ok()).expect("its bytes")
        })
    })
}

/// The bridge, under an emulator with these options; none where there is no emulator.
#[cfg(bridged)]
pub fn bridge(emulator_options: &[&str]) -> Option<Command> {
    let mut command = Command::new(EMULATOR);
    command.args(emulator_options).arg(env!("CALLCONTROL_BRIDGE_PROGRAM"));
    (!EMULATOR.is_empty()).then_some(command)
}

/// A program built by [`build`], or the bridge.
pub fn run(program: impl AsRef<OsStr>) -> Command {
    if EMULATOR.is_empty() {
        return Command::new(program);
    }
    let mut command = Command::new(EMULATOR);
    command.arg(program);
    command
}

/// What a program wrote, and how it ended.
pub struct Ran {
    pub stdout: String,
    pub stderr: String,
    pub status: ExitStatus,
}

/// How long a program may take, and how many bytes it may write to either of its outputs.
pub struct Limits {
    pub time: Duration,
    pub bytes: usize,
}

/// Far more than any test here needs, on an emulated machine too.
pub const LIMITS: Limits = Limits { time: Duration::from_secs(60), bytes: 4 << 20 };

/// Runs a program on this input, or on the standard input that it was given where there is none. One
/// that goes past its limits is ended, and so is the test.
pub fn run_within(mut command: Command, input: Option<&[u8]>, limits: &Limits) -> Ran {
    if input.is_some() {
        command.stdin(Stdio::piped());
    }
    let mut running = command
        .stdout(Stdio::piped())
        .stderr(Stdio::piped())
        .spawn()
        .unwrap_or_else(|error| panic!("does not start: {error}: {command:?}"));
    let deadline = Instant::now() + limits.time;

    // Each pipe has a thread of its own, so that none can fill up and hold the others. A program that
    // has ended at a cut record need not read the rest.
    if let (Some(mut stdin), Some(input)) = (running.stdin.take(), input.map(<[u8]>::to_vec)) {
        thread::spawn(move || {
            let _ = stdin.write_all(&input);
        });
    }
    let (send, outputs) = mpsc::channel();
    let pipes: [Box<dyn Read + Send>; 2] = [
        Box::new(running.stdout.take().expect("piped")),
        Box::new(running.stderr.take().expect("piped")),
    ];
    let most = limits.bytes;
    for (place, pipe) in pipes.into_iter().enumerate() {
        let send = send.clone();
        thread::spawn(move || {
            let mut bytes = Vec::new();
            let _ = pipe.take(most as u64 + 1).read_to_end(&mut bytes);
            let _ = send.send((place, bytes));
        });
    }

    let ended = (|| {
        let mut written = [String::new(), String::new()];
        for _ in 0..2 {
            let left = deadline.saturating_duration_since(Instant::now());
            let (place, bytes) = outputs.recv_timeout(left).map_err(|_| "goes on for too long")?;
            if bytes.len() > most {
                return Err("writes too much");
            }
            written[place] = String::from_utf8(bytes).map_err(|_| "writes what is no text")?;
        }
        // Both outputs are closed, and the program may still go on.
        loop {
            match running.try_wait().expect("it was started here") {
                Some(status) => return Ok((written, status)),
                None if Instant::now() > deadline => return Err("goes on for too long"),
                None => thread::sleep(Duration::from_millis(1)),
            }
        }
    })();
    match ended {
        Ok(([stdout, stderr], status)) => Ran { stdout, stderr, status },
        Err(fault) => {
            let _ = running.kill();
            let _ = running.wait();
            panic!("{fault}: {command:?}");
        }
    }
}

/// The program calltrace, as anyone would run it: by the script that finds what it needs on this machine.
pub fn calltrace() -> Command {
    let Some(given) = env::var_os("CALLTRACE") else {
        let program = root().join("target/bin/calltrace");
        assert!(
            program.is_file(),
            "{} is missing: build the program calltrace first, or name it in CALLTRACE",
            program.display()
        );
        return Command::new(root().join("examples/calltrace"));
    };
    if Path::new(&given).is_file() {
        return Command::new(given);
    }
    // A command with its arguments.
    let given = given.into_string().expect("CALLTRACE is text");
    let mut words = given.split_whitespace();
    let mut command = Command::new(words.next().expect("CALLTRACE names a program"));
    command.args(words);
    command
}
