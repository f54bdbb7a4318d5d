//! Gives every test the library as its host gets it: static archives, nothing else.
//!
//! Where the archives hold code of this machine they are linked. Elsewhere a small program, the
//! bridge, is linked with them, and the tests call the library through that.

use std::path::{Path, PathBuf};
use std::process::Command;
use std::{env, fs, process};

/// The archives that the tests link, all into one program: each has names of its own.
const ARCHIVES: [&str; 4] = ["host", "host_console", "host_direct", "host_test"];

/// The archive with the second engine, whose entries have the names of the first's.
const SMALL: &str = "host_small";

fn main() {
    println!("cargo:rustc-check-cfg=cfg(bridged)");
    println!("cargo:rerun-if-env-changed=CALLCONTROL_LIB_DIR");
    println!("cargo:rerun-if-env-changed=CALLCONTROL_BRIDGE");
    println!("cargo:rerun-if-changed=build.rs");
    let manifest = PathBuf::from(env::var_os("CARGO_MANIFEST_DIR").expect("cargo sets it"));
    let folder = match env::var_os("CALLCONTROL_LIB_DIR") {
        Some(folder) => PathBuf::from(folder),
        None => manifest.join("../target/staticlib"),
    };
    let archives = ARCHIVES.map(|name| archive(&folder, name));
    let paths = archives.each_ref().map(|archive| archive.display().to_string());
    println!("cargo:rustc-env=CALLCONTROL_ARCHIVES={}", paths.join(":"));
    let small = archive(&folder, SMALL);
    println!("cargo:rustc-env=CALLCONTROL_SMALL_ARCHIVE={}", small.display());

    build_yardstick(&manifest);
    let own = machine_of(&archives[0]) == this_machine();
    let (cc, cxx, emulator) = match own {
        true => ("gcc", "g++", ""),
        false => ("x86_64-linux-gnu-gcc", "x86_64-linux-gnu-g++", "qemu-x86_64"),
    };
    println!("cargo:rustc-env=CALLCONTROL_CC={cc}");
    println!("cargo:rustc-env=CALLCONTROL_CXX={cxx}");
    println!("cargo:rustc-env=CALLCONTROL_EMULATOR={emulator}");

    if own && env::var_os("CALLCONTROL_BRIDGE").is_none() {
        let folder = archives[0].parent().expect("a file lies in a folder");
        println!("cargo:rustc-link-search=native={}", folder.display());
        for name in ARCHIVES {
            println!("cargo:rustc-link-lib=static={name}");
        }
        let beside = renamed("objcopy", &small);
        let folder = beside.parent().expect("a file lies in a folder");
        println!("cargo:rustc-link-search=native={}", folder.display());
        println!("cargo:rustc-link-lib=static={SMALL}_renamed");
    } else {
        for tool in [cc, emulator] {
            if !tool.is_empty() && Command::new(tool).arg("--version").output().is_err() {
                stop(&format!("{tool} is missing.\n  {}", what_to_install(own)));
            }
        }
        let all = archives.iter().cloned().chain([renamed(&cc.replace("gcc", "objcopy"), &small)]);
        let program = build_bridge(cc, &manifest, &all.collect::<Vec<_>>(), own);
        println!("cargo:rustc-cfg=bridged");
        println!("cargo:rustc-env=CALLCONTROL_BRIDGE_PROGRAM={}", program.display());
    }
}

/// The archive of the second engine with `small_` before each of its names, so that a program can link it beside the other.
fn renamed(objcopy: &str, archive: &Path) -> PathBuf {
    let folder = PathBuf::from(env::var_os("OUT_DIR").expect("cargo sets it"));
    let renamed = folder.join(format!("lib{SMALL}_renamed.a"));
    let mut command = Command::new(objcopy);
    for name in ["callcontrol_fresh", "callcontrol_step"] {
        command.arg("--redefine-sym").arg(format!("{name}=small_{name}"));
    }
    let status = command.arg(archive).arg(&renamed).status();
    if !status.is_ok_and(|status| status.success()) {
        stop(&format!("{objcopy} does not rename the entries of {}.", archive.display()));
    }
    println!("cargo:rustc-env=CALLCONTROL_SMALL_RENAMED={}", renamed.display());
    renamed
}

/// An archive of this name in this folder.
fn archive(folder: &Path, name: &str) -> PathBuf {
    let archive = folder.join(format!("lib{name}.a"));
    println!("cargo:rerun-if-changed={}", archive.display());
    if !archive.is_file() {
        stop(&format!(
            "{} is missing.\n  Run `tests/archives.sh build` first,\n  \
             or name the folder that holds the archives in CALLCONTROL_LIB_DIR.",
            archive.display()
        ));
    }
    archive.canonicalize().expect("it was just seen")
}

fn build_bridge(cc: &str, manifest: &Path, archives: &[PathBuf], own: bool) -> PathBuf {
    let source = manifest.join("bridge/bridge.c");
    let include = manifest.join("../include");
    println!("cargo:rerun-if-changed={}", source.display());
    println!("cargo:rerun-if-changed={}", include.join("callcontrol.h").display());
    let program = PathBuf::from(env::var_os("OUT_DIR").expect("cargo sets it")).join("bridge");
    let output = Command::new(cc)
        .args(["-std=c11", "-O2", "-Wall", "-Wextra", "-static", "-I"])
        .arg(include)
        .arg(source)
        .args(archives)
        .arg("-o")
        .arg(&program)
        .output()
        .expect("it was just seen to start");
    if !output.status.success() {
        stop(&format!(
            "{cc} cannot build the bridge to the library:\n\n{}\n  If something of the C library \
             is missing:\n  {}",
            String::from_utf8_lossy(&output.stderr),
            what_to_install(own)
        ));
    }
    program
}

/// The accounts in plain C, for this machine: at -O3, and under names of their own at -Os.
fn build_yardstick(manifest: &Path) {
    let folder = manifest.join("yardstick");
    println!("cargo:rerun-if-changed={}", folder.display());
    let out = PathBuf::from(env::var_os("OUT_DIR").expect("cargo sets it"));
    let mut objects = Vec::new();
    for (options, kind) in [(&["-O3"][..], "quick"), (&["-Os", "-DFOR_SIZE"], "small")] {
        for name in ["step", "console"] {
            let object = out.join(format!("{name}-{kind}.o"));
            let mut compile = Command::new("gcc");
            compile.args(["-std=gnu11", "-Wall", "-Wextra", "-Wno-maybe-uninitialized", "-fPIC"]);
            compile.args(options).arg("-c").arg(folder.join(format!("{name}.c")));
            run(compile.arg("-o").arg(&object));
            objects.push(object);
        }
    }
    let archive = out.join("libyardstick.a");
    let _ = fs::remove_file(&archive);
    run(Command::new("ar").arg("rcs").arg(archive).args(objects));
    println!("cargo:rustc-link-search=native={}", out.display());
    println!("cargo:rustc-link-lib=static=yardstick");
}

fn run(command: &mut Command) {
    match command.output() {
        Err(error) => stop(&format!("{error}: {command:?}\n  {}", what_to_install(true))),
        Ok(output) if !output.status.success() => {
            stop(&format!("{command:?} says:\n{}", String::from_utf8_lossy(&output.stderr)))
        }
        Ok(_) => {}
    }
}

fn what_to_install(own: bool) -> &'static str {
    if own {
        "apt-get install gcc g++"
    } else {
        "The library is x86-64 code, which this machine needs other tools for:\n  \
         apt-get install gcc-x86-64-linux-gnu g++-x86-64-linux-gnu qemu-user\n  \
         or run tests/needs.sh, which does that."
    }
}

/// The machine that code in the archive is for, as ELF numbers machines.
fn machine_of(archive: &Path) -> u16 {
    let bytes = fs::read(archive).expect("the archive can be read");
    let object = bytes.windows(20).find(|bytes| bytes.starts_with(b"\x7FELF"));
    object.map_or(0, |head| u16::from_le_bytes([head[18], head[19]]))
}

fn this_machine() -> u16 {
    match env::var("CARGO_CFG_TARGET_ARCH").as_deref() {
        Ok("x86_64") => 62,
        Ok("aarch64") => 183,
        _ => u16::MAX,
    }
}

fn stop(message: &str) -> ! {
    eprintln!("\n  {message}\n");
    process::exit(1);
}
