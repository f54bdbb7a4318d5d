//! What README.md and docs/HOST.md tell to type works: every command in them is run, and every
//! fragment of C is a part of an example.
//!
//! A code block is fenced and says what it is: `sh` has commands, `text` what the commands before it
//! print, `c` a fragment. A command that proves something, or runs all tests, is not run again here;
//! of such a one everything that it names must be there.

use callcontrol_tests::histories::root;
use callcontrol_tests::programs::{run, CC};
use std::collections::HashSet;
use std::fs;
use std::path::{Path, PathBuf};
use std::process::Command;

const DOCUMENTS: [&str; 2] = ["README.md", "docs/HOST.md"];

struct Block {
    /// Document and line, for a complaint.
    at: String,
    language: String,
    text: String,
}

/// Every code block of a document. One that is set in by blanks would go past the test, so there is
/// none.
fn blocks(document: &str) -> Vec<Block> {
    let text = fs::read_to_string(root().join(document)).expect("the document");
    let mut blocks: Vec<Block> = Vec::new();
    let mut inside = false;
    for (number, line) in text.lines().enumerate() {
        let at = format!("{document}:{}", number + 1);
        match line.strip_prefix("```") {
            Some(language) if !inside => {
                assert!(["sh", "text", "c"].contains(&language), "{at}: {language:?}");
                blocks.push(Block { at, language: language.to_owned(), text: String::new() });
                inside = true;
            }
            Some(end) => {
                assert_eq!(end, "", "{at}");
                inside = false;
            }
            None if inside => blocks.last_mut().expect("one is open").text += &format!("{line}\n"),
            None => assert!(!line.starts_with("    "), "{at}: a code block that is not fenced"),
        }
    }
    assert!(!inside, "{document} ends within a code block");
    blocks
}

/// Runs a command of a document in the repository root, and gives what it prints. The programs that
/// the commands build go into `folder`, and the archives are those that all tests use.
fn printed(command: &str, folder: &Path) -> String {
    let words: Vec<&str> = command.split_whitespace().collect();
    let mut command = match words[0] {
        "gcc" => {
            let mut gcc = Command::new(CC);
            // What the text says of a machine that is not x86-64.
            gcc.args((CC != "gcc").then_some("-static"));
            gcc.args(words[1..].iter().map(|word| named(word, folder)));
            gcc
        }
        program if program.starts_with("target/") => run(named(program, folder)),
        program => {
            let mut other = Command::new(program);
            other.args(&words[1..]);
            other
        }
    };
    let output = command
        .current_dir(root())
        .output()
        .unwrap_or_else(|error| panic!("does not start: {error}: {command:?}"));
    let complaints = String::from_utf8_lossy(&output.stderr);
    assert!(output.status.success(), "{command:?}: {}\n{complaints}", output.status);
    assert_eq!(complaints, "", "{command:?}");
    String::from_utf8(output.stdout).expect("text")
}

/// The file that a word of a command stands for here.
fn named(word: &str, folder: &Path) -> PathBuf {
    if let Some(archive) = word.strip_prefix("target/staticlib/") {
        return archives().join(archive);
    }
    word.strip_prefix("target/").map_or(PathBuf::from(word), |program| folder.join(program))
}

/// The folder of the archives that the tests use.
fn archives() -> PathBuf {
    let mut archives = callcontrol_tests::library::archives();
    let first = Path::new(archives.next().expect("there is one"));
    first.parent().expect("it lies in a folder").to_owned()
}

/// Whether a command is one that is too long to be run here; then what it names must be there.
fn is_long(command: &str, at: &str) -> bool {
    let words: Vec<&str> = command.split_whitespace().collect();
    match words[..] {
        ["rt", "ci", ref crates @ ..] => {
            let known = fs::read_to_string(root().join("crates.txt")).expect("the list of crates");
            assert!(!crates.is_empty(), "{at}: {command}");
            for name in crates {
                let listed = known.lines().any(|line| line.split([':', ' ']).next() == Some(name));
                assert!(listed, "{at}: no crate {name}");
                assert!(root().join("crates").join(name).is_dir(), "{at}: no crate {name}");
            }
            true
        }
        ["tests/archives.sh", "build", ref names @ ..] => {
            assert!(!names.is_empty(), "{at}: {command}");
            for name in names {
                assert!(archives().join(format!("lib{name}.a")).is_file(), "{at}: {name}");
            }
            true
        }
        [".ci/run"] => {
            assert!(root().join(".ci/run").is_file(), "{at}");
            true
        }
        _ => false,
    }
}

#[test]
fn every_command_of_the_documents_works() {
    let folder = Path::new(env!("CARGO_TARGET_TMPDIR")).join("documents");
    fs::create_dir_all(&folder).expect("a folder for programs");
    let mut ran = 0;
    for document in DOCUMENTS {
        let mut before = None;
        for block in blocks(document) {
            let at = &block.at;
            match block.language.as_str() {
                "sh" => {
                    let mut all = String::new();
                    for command in block.text.lines().flat_map(|line| line.split(" && ")) {
                        if is_long(command, at) {
                            continue;
                        }
                        let output = printed(command, &folder);
                        let example = command.strip_prefix("target/").map(|name| {
                            root().join("examples/c").join(name).with_extension("stdout")
                        });
                        if let Some(stored) = example.filter(|stored| stored.is_file()) {
                            assert_eq!(output, fs::read_to_string(stored).expect("it"), "{at}");
                        }
                        all += &output;
                        ran += 1;
                    }
                    before = Some(all);
                }
                "text" => assert_eq!(before.take().as_ref(), Some(&block.text), "{at}"),
                _ => before = None,
            }
        }
    }
    // `cat`, and two examples that are compiled and run.
    assert!(ran >= 5, "only {ran} commands were found");
}

#[test]
fn every_fragment_of_c_is_a_part_of_an_example() {
    let examples: Vec<String> = fs::read_dir(root().join("examples/c"))
        .expect("the examples")
        .map(|entry| entry.expect("a file in it").path())
        .filter(|path| path.extension().is_some_and(|ending| ending == "c"))
        .map(|path| fs::read_to_string(path).expect("an example"))
        .collect();
    let fragments: Vec<Block> = DOCUMENTS
        .iter()
        .flat_map(|document| blocks(document))
        .filter(|block| block.language == "c")
        .collect();
    assert!(fragments.len() >= 4, "only {} fragments were found", fragments.len());
    for fragment in fragments {
        let lines = format!("\n{}", fragment.text);
        assert!(
            examples.iter().any(|example| example.contains(&lines)),
            "{}: no example has these lines",
            fragment.at
        );
    }
}

/// The names in backquotes of a document, outside its code blocks.
fn names(document: &str) -> Vec<String> {
    let text = fs::read_to_string(root().join(document)).expect("the document");
    let outside: String = text.split("```").step_by(2).collect::<Vec<&str>>().join(" ");
    outside.split('`').skip(1).step_by(2).map(str::to_owned).collect()
}

/// The files and folders that the documents name are there, and so are the header's names.
#[test]
fn what_the_documents_name_is_there() {
    let read = |name| fs::read_to_string(root().join(name)).expect("a header");
    let header = ["include/callcontrol.h", "include/callcontrol_records.h"].map(read).concat();
    for document in DOCUMENTS {
        for name in names(document) {
            let word = name.split([' ', '(']).next().unwrap_or("");
            let folders = ["crates/", "docs/", "examples/", "include/", "tests/", ".ci/"];
            if folders.iter().any(|folder| word.starts_with(folder)) {
                assert!(root().join(word).exists(), "{document}: {word} is not there");
            }
            if let Some(start) = word.strip_suffix("..") {
                assert!(
                    !start.starts_with("callcontrol") || header.contains(start),
                    "{document}: {word}"
                );
            } else if word.ends_with(".h") && !word.contains('/') {
                assert!(root().join("include").join(word).exists(), "{document}: {word}");
            } else if word.to_lowercase().starts_with("callcontrol_") {
                let has = header
                    .split(|char: char| !char.is_alphanumeric() && char != '_')
                    .any(|named| named == word);
                assert!(has, "{document}: the header has no {word}");
            }
        }
    }
}

/// HOST names every entry of the header, and every archive; each number of an answer stands in the
/// first column of its table of answers.
#[test]
fn the_guide_names_every_entry_archive_and_answer() {
    let header = fs::read_to_string(root().join("include/callcontrol.h")).expect("the header");
    let guide = fs::read_to_string(root().join("docs/HOST.md")).expect("the guide");
    let named = names("docs/HOST.md");
    let entries =
        header.split("uint32_t callcontrol_").skip(1).filter_map(|rest| rest.split_once('('));
    let entries = entries.map(|(name, _)| format!("callcontrol_{name}"));
    let archives = callcontrol_tests::library::archives().map(|path| {
        Path::new(path).file_name().expect("it has a name").to_string_lossy().into_owned()
    });
    let wanted: Vec<String> = entries.chain(archives).collect();
    assert!(wanted.len() > 20, "only {} entries and archives were found", wanted.len());
    for name in &wanted {
        assert!(named.contains(name), "docs/HOST.md does not name {name}");
    }
    let table = guide.split("| Answer | Of |").nth(1).expect("the table of answers");
    let first = table.lines().filter_map(|line| line.strip_prefix("| ")?.split_once(" |"));
    let numbers: Vec<&str> = first.flat_map(|(cell, _)| cell.split(", ")).collect();
    let enums = header.split("_answer {").skip(1).filter_map(|rest| rest.split_once('}'));
    let answers: Vec<String> = enums
        .flat_map(|(body, _)| body.lines())
        .filter_map(|line| line.split_once(" = "))
        .map(|(_, rest)| rest.chars().take_while(char::is_ascii_digit).collect())
        .collect();
    assert!(answers.len() > 20, "only {} answers were found", answers.len());
    for answer in &answers {
        assert!(numbers.contains(&answer.as_str()), "docs/HOST.md has no answer {answer}");
    }
}

/// Every word of the crates' code, definitions and proofs and of the header, and the name of every
/// file and folder, with its ending and without. What an edit says is not among them.
fn words_and_files(folder: &Path, known: &mut HashSet<String>) {
    for path in fs::read_dir(folder).expect("a folder").map(|entry| entry.expect("in it").path()) {
        let name = path.file_name().expect("it has a name").to_string_lossy().into_owned();
        if name == "target" {
            continue;
        }
        known.insert(path.file_stem().expect("a name").to_string_lossy().into_owned());
        known.insert(name);
        let ending = path.extension().unwrap_or_default();
        if path.is_dir() {
            words_and_files(&path, known);
        } else if ending == "rt" || ending == "antt" || ending == "h" {
            let text = fs::read_to_string(&path).expect("a text");
            let apart = |char: char| char.is_whitespace() || "(){}[],;:.`=<>|&*+/".contains(char);
            known.extend(text.split(apart).map(str::to_owned));
        }
    }
}

/// What MAP, PROMISES and DECISIONS name is there: definitions, functions, lemmas, edits, files. A name
/// with a blank or two dots in it is a piece of code, and one that begins with a stroke an option.
#[test]
fn what_map_promises_and_decisions_name_is_there() {
    let folders = ["crates", "docs", "examples", "include", "tests", ".ci"];
    let mut known = HashSet::from(folders.map(str::to_owned));
    for folder in folders {
        words_and_files(&root().join(folder), &mut known);
    }
    for document in ["docs/MAP.md", "docs/PROMISES.md", "docs/DECISIONS.md"] {
        let names = names(document);
        assert!(names.len() > 100, "only {} names were found in {document}", names.len());
        let is_code =
            |name: &String| name.contains(' ') || name.contains("..") || name.starts_with('-');
        for name in names.iter().filter(|name| !is_code(name)) {
            let is_there = |part: &str| match part.strip_suffix('*') {
                Some(start) => known.iter().any(|word| word.starts_with(start)),
                None => known.contains(part),
            };
            let whole = |part: &str| is_there(part) || part.split('.').all(is_there);
            let path = name.split_once('/').is_some_and(|(first, _)| folders.contains(&first));
            let found = if path {
                root().join(name).exists()
            } else {
                name.split(['/', ':']).filter(|part| !part.is_empty()).all(whole)
            };
            assert!(found, "{document}: {name} is not there");
        }
    }
}
