//! What an archive wants from outside stays what a host was told: `libhost.a` and direct mode's want
//! nothing, no other that a host links wants more than `memcpy` and `memset`.

use callcontrol_tests::library::{SMALL_ARCHIVE, archives};
use std::process::Command;

/// The names that an archive leaves to the linker, by `nm`.
fn wanted(archive: &str) -> Vec<String> {
    let output = Command::new("nm").args(["-u", archive]).output().expect("nm runs");
    assert!(output.status.success(), "nm -u {archive}: {}", output.status);
    let lines = String::from_utf8(output.stdout).expect("names");
    let mut names: Vec<_> = lines
        .lines()
        .filter_map(|line| line.trim().strip_prefix("U "))
        .map(str::to_owned)
        .collect();
    names.sort();
    names.dedup();
    names
}

fn wants_at_most(archive: &str, allowed: &[&str]) {
    let names = wanted(archive);
    println!("{archive} wants {names:?}");
    for name in &names {
        assert!(allowed.contains(&name.as_str()), "{archive} wants {name} from outside");
    }
}

#[test]
fn no_archive_wants_more_than_a_host_was_told() {
    let mut seen = 0;
    for archive in archives() {
        let allowed: &[&str] = match archive.rsplit('/').next() {
            Some("libhost.a" | "libhost_direct.a") => &[],
            Some("libhost_console.a") => &["memcpy"],
            // For the tests alone: no host links it.
            Some("libhost_test.a") => continue,
            _ => panic!("{archive}: what may it want?"),
        };
        wants_at_most(archive, allowed);
        seen += 1;
    }
    assert_eq!(seen, 3, "the archives that a host links, but the smallest set's");
    wants_at_most(SMALL_ARCHIVE, &["memcpy", "memset"]);
}

#[test]
fn a_name_that_is_wanted_is_seen() {
    let console =
        archives().find(|path| path.ends_with("/libhost_console.a")).expect("a console's");
    assert_eq!(wanted(console), ["memcpy"]);
}
