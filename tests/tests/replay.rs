//! `replay` tells of every file what the library makes of it: the texts that are stored, what the
//! account counts on random files, and files made to break it.

use callcontrol_tests::account::console::{Console, PLACES};
use callcontrol_tests::account::records::messages;
use callcontrol_tests::account::{boundary, kinds, Call, Cause, Event, Message, Plane};
use callcontrol_tests::generate::{damaged_event, event, likely_event, Bytes, Random};
use callcontrol_tests::histories::{self, root, trace};
use callcontrol_tests::programs::{run_within, Limits, LIMITS};
use callcontrol_tests::replay::{self, stored, Options};
use callcontrol_tests::sidebyside::tell;
use callcontrol_tests::tape::tape;
use std::collections::BTreeMap;
use std::fs::{self, File};
use std::io::{Read, Write};
use std::path::{Path, PathBuf};
use std::process::{Command, Stdio};
use std::time::Duration;

const PROGRAM: &str = env!("CARGO_BIN_EXE_replay");

const WRITE: &str = "`cargo run --release --offline --manifest-path tests/Cargo.toml --bin \
                     write_replays` writes it; then read what changed";

/// The text of a file, without the program around it.
fn text_of(file: &[u8], options: &Options) -> String {
    let mut text = Vec::new();
    replay::run(file, options, &mut text).unwrap_or_else(|fault| panic!("{fault:?}"));
    String::from_utf8(text).expect("it is text")
}

fn console() -> Options {
    Options { console: true, ..Options::default() }
}

fn temporary(name: &str) -> PathBuf {
    Path::new(env!("CARGO_TARGET_TMPDIR")).join(name)
}

// ---- What is stored ----------------------------------------------------------------------------

#[test]
fn every_stored_history_has_its_text() {
    for (path, text) in stored::texts() {
        let held = fs::read_to_string(&path).unwrap_or_default();
        assert!(held == text, "{} is not what replay gives; {WRITE}", path.display());
    }
    // And none is stored that nothing holds.
    for folder in ["tests/histories", "tests/histories/console"] {
        for entry in fs::read_dir(root().join(folder)).expect("the folder") {
            let path = entry.expect("a file").path();
            let orphan = path.extension().is_some_and(|ending| ending == "text")
                && !path.with_extension("hex").is_file();
            assert!(!orphan, "{} has no history", path.display());
        }
    }
}

#[test]
fn the_picture_in_docs_is_drawn_from_its_history() {
    let (path, picture) = stored::picture();
    let held = fs::read_to_string(&path).unwrap_or_default();
    assert!(held == picture, "{} is not what replay draws; {WRITE}", path.display());
}

/// A file of bytes gives the same blocks as its hex text, but for lines and comments.
#[test]
fn hex_text_and_bytes_give_the_same() {
    for (path, console) in stored::files() {
        let hex = fs::read_to_string(&path).expect("it is stored");
        let options = Options { console, ..Options::default() };
        let of_bytes = text_of(&histories::bytes_of(&hex), &options);
        let of_hex = text_of(hex.as_bytes(), &Options { hex: true, ..options });
        let plain = |line: &str| match line.split_once(", line ") {
            Some((before, after)) => {
                let rest = after.trim_start_matches(|char: char| char.is_ascii_digit());
                format!("{before}{rest}")
            }
            None => line.to_owned(),
        };
        let of_hex: Vec<String> = of_hex
            .lines()
            .filter(|line| !line.trim_start().starts_with('#'))
            .map(plain)
            .skip_while(String::is_empty)
            .collect();
        let of_bytes: Vec<&str> = of_bytes.lines().collect();
        // A comment behind the last record is set off by an empty line.
        let same = of_hex
            .iter()
            .filter(|line| !line.is_empty())
            .eq(of_bytes.iter().filter(|line| !line.is_empty()));
        assert!(same, "{}", path.display());
    }
}

/// Every comment of a history is kept.
#[test]
fn comments_are_kept() {
    for (path, text) in stored::texts() {
        let hex = fs::read_to_string(path.with_extension("hex")).expect("it is stored");
        let of = |text: &str| -> Vec<String> {
            text.lines()
                .filter_map(|line| line.split_once('#'))
                .map(|(_, comment)| comment.trim().to_owned())
                .collect()
        };
        assert_eq!(of(&text), of(&hex), "{}", path.display());
    }
}

/// Three calls at once have a page each, and what went to one is not on the page of another.
#[test]
fn a_console_log_with_three_calls() {
    let path = root().join("tests/histories/console/three_calls.hex");
    let drawn = temporary("three_calls.svg");
    let options =
        Options { hex: true, svg: Some(drawn.clone()), title: "three".to_owned(), ..console() };
    let text = text_of(&fs::read(path).expect("it is stored"), &options);
    for line in [
        "  calls         3: 1 ended by the user, 1 ended by a timer, 1 ended by the network",
        "  breaks        2, restorations 1",
        "    call 1 at place 0, plane 1 transmit: from D-CONNECT at record 4 to BREAK at record 9",
    ] {
        assert!(text.lines().any(|given| given == line), "{line}");
    }
    let page = |name: &str| fs::read_to_string(drawn.with_file_name(name)).expect("a page");
    let pages = [page("three_calls.svg"), page("three_calls-2.svg"), page("three_calls-3.svg")];
    for (at, (page, title)) in pages
        .iter()
        .zip([
            "Call 1 at place 0: outgoing to address 7, i 21, from three",
            "Call 2 at place 1: incoming from address 9, i 30, from three",
            "Call 3 at place 2: outgoing to address 8, i 40, from three",
        ])
        .enumerate()
    {
        assert!(page.contains(&format!(">{title}<")), "page {at}");
        // Events of all places are on each page that they went to; others on one alone.
        assert_eq!(page.contains(">BREAK<"), at < 2, "page {at}");
        assert_eq!(page.contains(">expiry T306<"), at == 1, "page {at}");
        assert_eq!(page.contains(">D-DISCONNECT i 21<"), at == 0, "page {at}");
        // What found no place is on the page of every call that then was.
        assert!(page.contains("refused, 5: a network event of another call: no place holds i 99"));
    }
    assert!(!drawn.with_file_name("three_calls-4.svg").exists());
}

// ---- Pictures ----------------------------------------------------------------------------------

/// One page for each call, and one where there was none; each is a well-formed picture.
#[test]
fn a_page_for_each_call() {
    for (path, console) in stored::files() {
        let name = path.file_stem().expect("a name").to_string_lossy().into_owned();
        let folder = temporary(&format!("pages_{name}"));
        let _ = fs::remove_dir_all(&folder);
        fs::create_dir_all(&folder).expect("a folder can be made");
        let svg = Some(folder.join("page.svg"));
        let options = Options { hex: true, console, svg, ..Options::default() };
        let text = text_of(&fs::read(&path).expect("it is stored"), &options);
        let calls = text.lines().find_map(|line| line.strip_prefix("  calls         "));
        let calls: usize =
            calls.expect("the line").split(':').next().expect("a number").parse().expect("one");
        let mut pages: Vec<String> = fs::read_dir(&folder)
            .expect("the folder")
            .map(|entry| fs::read_to_string(entry.expect("a file").path()).expect("a picture"))
            .collect();
        assert_eq!(pages.len(), calls.max(1), "{name}");
        for page in &mut pages {
            well_formed(page);
        }
        let _ = fs::remove_dir_all(folder);
    }
}

/// Pages of a longer file that was drawn before do not stay; what only has the name of a page does.
#[test]
fn pages_of_an_earlier_file_are_removed() {
    let folder = temporary("pages_again");
    let _ = fs::remove_dir_all(&folder);
    fs::create_dir_all(&folder).expect("a folder can be made");
    let options = Options { svg: Some(folder.join("page.svg")), hex: true, ..Options::default() };
    // A call that the user cancels, so many times.
    let call = "0A00 0101 07000000 00 01\n0400 0301\n";
    let drawn = |calls: usize| {
        text_of(call.repeat(calls).as_bytes(), &options);
        let mut names: Vec<String> = fs::read_dir(&folder)
            .expect("it was made")
            .map(|entry| entry.expect("a file").file_name().to_string_lossy().into_owned())
            .collect();
        names.sort();
        names
    };
    let first = ["page-2.svg", "page-3.svg", "page-4.svg", "page.svg"];
    assert_eq!(drawn(4), first);
    assert_eq!(drawn(4), first);
    assert_eq!(drawn(2), ["page-2.svg", "page.svg"]);
    fs::write(folder.join("page-3.svg"), "<svg>of another</svg>").expect("a file");
    assert_eq!(drawn(0), ["page-3.svg", "page.svg"]);
}

/// Each element is closed, in order, and no sign stands bare.
fn well_formed(svg: &str) {
    let mut open = Vec::new();
    for part in svg.split('<').skip(1) {
        let (tag, text) = part.split_once('>').expect("a tag ends");
        assert!(!text.contains('>'), "{text}");
        let name = tag.trim_start_matches('/').split([' ', '/']).next().expect("a name");
        if tag.starts_with('/') {
            assert_eq!(open.pop(), Some(name), "{tag}");
        } else if !tag.ends_with('/') {
            open.push(name);
        }
        for after in text.split('&').skip(1) {
            assert!(["amp;", "lt;", "gt;", "quot;"].iter().any(|sign| after.starts_with(sign)));
        }
    }
    assert!(open.is_empty(), "{open:?} not closed");
}

/// A long call is drawn with its beginning and its end, and says what is left out.
#[test]
fn a_long_call_is_drawn_in_part() {
    let mut file = histories::input("whole_call");
    let end = file.split_off(file.len() - 14);
    for _ in 0..10_000 {
        file.extend([4, 0, 0x04, 0x03]); // RESUME: no row
    }
    file.extend(end);
    let drawn = temporary("long.svg");
    text_of(&file, &Options { svg: Some(drawn.clone()), ..Options::default() });
    let page = fs::read_to_string(drawn).expect("a page");
    well_formed(&page);
    assert!(page.contains(">SETUP request address 7, simplex, request to transmit<"));
    assert!(page.contains(">D-RELEASE i 21<"));
    assert!(page.contains("9714 records are not drawn"), "{}", page.len());
    assert!(page.len() < 1 << 20);
}

// ---- The summary against the account -----------------------------------------------------------

/// What the account counts of a file, by its messages and events, not by its records.
#[derive(Default)]
struct Counts {
    records: u64,
    bytes: u64,
    taken: u64,
    refused: BTreeMap<(u8, u16), (u64, u64)>,
    calls: u64,
    /// User, timer, network, transfer failed.
    ended: [u64; 4],
    breaks: u64,
    restorations: u64,
    stretches: Vec<String>,
    places: [OfPlace; PLACES],
}

#[derive(Default)]
struct OfPlace {
    call: u64,
    released: Option<Cause>,
    /// Since which record the plane is to transmit.
    transmits: Option<(u64, Plane)>,
}

impl Counts {
    fn refused(&mut self, answer: u8, kind: u16) {
        self.refused.entry((answer, kind)).or_insert((0, self.records)).0 += 1;
    }

    fn taken(&mut self, event: Event, at: usize, written: &[Message], console: bool) {
        let place = &mut self.places[at];
        self.breaks += u64::from(event == Event::Break);
        self.restorations += u64::from(matches!(event, Event::DCallRestore { .. }));
        for message in written {
            match *message {
                Message::USetup { .. } | Message::SetupIndication { .. } => {
                    self.calls += 1;
                    place.call = self.calls;
                    place.released = None;
                }
                Message::UDisconnect { c, .. } => place.released = Some(c),
                Message::Configure { p } => {
                    let on = matches!(p, Plane::Transmit | Plane::TransmitAndReceive);
                    match place.transmits {
                        None if on => place.transmits = Some((self.records, p)),
                        Some((from, plane)) if !on => {
                            let to = format!("record {}", self.records);
                            self.stretches.push(stretch(place.call, at, console, plane, from, &to));
                            place.transmits = None;
                        }
                        _ => {}
                    }
                }
                Message::ReleaseConfirm
                | Message::ReleaseIndication { c: Cause::Network | Cause::TransferFailed } => {
                    let how = match (place.released, message) {
                        (Some(Cause::User), _) => 0,
                        (Some(_), _) => 1,
                        // Cancelled before it was sent.
                        (None, Message::ReleaseConfirm) => 0,
                        (None, Message::ReleaseIndication { c: Cause::Network }) => 2,
                        (None, _) => 3,
                    };
                    self.ended[how] += 1;
                    place.call = 0;
                }
                _ => {}
            }
        }
    }

    /// The lines of the summary that say so.
    fn lines(&self, console: bool) -> Vec<String> {
        let refused = self.records - self.taken;
        let mut lines = vec![
            format!(
                "  records       {}, {} bytes: {} taken, {refused} refused",
                self.records, self.bytes, self.taken
            ),
            format!("  refused       {refused}"),
        ];
        let mut answers: BTreeMap<u8, u64> = BTreeMap::new();
        for (&(answer, _), &(count, _)) in &self.refused {
            *answers.entry(answer).or_default() += count;
        }
        for (&answer, &all) in &answers {
            let meaning = kinds::answer(u32::from(answer)).expect("an answer");
            lines.push(format!("    answer {answer}, {meaning}: {all}"));
            for (&(of, kind), &(count, first)) in &self.refused {
                if of == answer {
                    let name = kinds::event(kind).map_or("no event kind", |kind| kind.name);
                    lines.push(format!("      {count} x {name}, first at record {first}"));
                }
            }
        }
        let hows = ["by the user", "by a timer", "by the network", "as the transfer failed"];
        let mut parts: Vec<String> = self
            .ended
            .iter()
            .zip(hows)
            .filter(|&(&count, _)| count > 0)
            .map(|(count, how)| format!("{count} ended {how}"))
            .collect();
        let open = self.calls - self.ended.iter().sum::<u64>();
        parts.extend((open > 0).then(|| format!("{open} open")));
        lines.push(format!("  calls         {}: {}", self.calls, parts.join(", ")));
        lines.push(format!("  breaks        {}, restorations {}", self.breaks, self.restorations));
        let mut stretches = self.stretches.clone();
        for (at, place) in self.places.iter().enumerate() {
            if let Some((from, plane)) = place.transmits {
                stretches.push(stretch(
                    place.call,
                    at,
                    console,
                    plane,
                    from,
                    "the end of the file",
                ));
            }
        }
        lines.push(format!(
            "  transmitting  {} stretch{} in which the set had the plane to transmit",
            stretches.len(),
            if stretches.len() == 1 { "" } else { "es" }
        ));
        lines.extend(stretches);
        lines
    }
}

fn stretch(call: u64, at: usize, console: bool, plane: Plane, from: u64, to: &str) -> String {
    let place = if console { format!(" at place {at}") } else { String::new() };
    let plane = if plane == Plane::Transmit { "1 transmit" } else { "3 transmit and receive" };
    format!("    call {call}{place}, plane {plane}: record {from} to {to}")
}

/// A line of the summary, with the names of events left out where it tells of a stretch; none where it
/// tells of a call or a break.
fn told(line: &str) -> Option<String> {
    if !line.starts_with("    call ") {
        return Some(line.to_owned());
    }
    let (begin, rest) = line.split_once(": from ").filter(|_| line.contains(", plane "))?;
    if line.contains(": outgoing") || line.contains(": incoming") {
        return None;
    }
    let (from, to) = rest.split_once(" to ").expect("a stretch ends");
    let record = |words: &str| match words.split_once(" at record ") {
        Some((_, number)) => format!("record {number}"),
        None => words.to_owned(),
    };
    Some(format!("{begin}: {} to {}", record(from), record(to)))
}

fn summary_lines(text: &str) -> Vec<String> {
    text.lines().skip_while(|&line| line != "Summary").skip(1).filter_map(told).collect()
}

/// A record that a file can go on behind.
fn whole(bytes: &Bytes) -> bool {
    let bytes = bytes.as_slice();
    bytes.len() >= 4 && usize::from(u16::from_le_bytes([bytes[0], bytes[1]])) == bytes.len()
}

fn next_event(random: &mut Random, call: &Call) -> Bytes {
    loop {
        let bytes = match random.below(20) {
            0 => {
                let event = event(random, call.identifier);
                damaged_event(random, event)
            }
            1 => Bytes::of_event(event(random, call.identifier ^ 1)),
            2 | 3 => Bytes::of_event(event(random, call.identifier)),
            _ => Bytes::of_event(likely_event(random, call, 20)),
        };
        if whole(&bytes) {
            return bytes;
        }
    }
}

fn kind_of(bytes: &[u8]) -> u16 {
    let kind = u16::from_le_bytes([bytes[2], bytes[3]]);
    kinds::event(kind).map_or(0, |kind| kind.number)
}

#[test]
fn the_summary_is_what_the_account_counts() {
    let mut random = Random::new(0x5EE2);
    let mut all = 0;
    for round in 0..60 {
        let (mut counts, mut call, mut file) = (Counts::default(), Call::FRESH, Vec::new());
        for _ in 0..random.below(if round < 30 { 60 } else { 4000 }) {
            let bytes = next_event(&mut random, &call);
            let bytes = bytes.as_slice();
            counts.records += 1;
            counts.bytes += bytes.len() as u64;
            let mut out = [0; 64];
            match call.step(bytes, &mut out) {
                Err(refusal) => counts.refused(refusal.number(), kind_of(bytes)),
                Ok(count) => {
                    counts.taken += 1;
                    let written: Vec<Message> =
                        messages(&out[..count]).map(|message| message.expect("one")).collect();
                    let event = Event::read(bytes).expect("it was taken");
                    counts.taken(event, 0, &written, false);
                }
            }
            file.extend(bytes);
        }
        if counts.calls == 0 {
            continue;
        }
        all += counts.records;
        let text = text_of(&file, &Options::default());
        assert_eq!(summary_lines(&text), counts.lines(false), "round {round}");
    }
    assert!(all > 30_000);
    tell(&format!("replay: {all} records of random files, each summary as the account counts"));
}

#[test]
fn the_summary_of_a_console_is_what_the_account_counts() {
    let mut random = Random::new(0xC045);
    for round in 0..30 {
        let (mut counts, mut console, mut file) = (Counts::default(), Console::FRESH, Vec::new());
        for _ in 0..2000 {
            let place = random.below(9);
            let call = console.calls.get(place).copied().unwrap_or(Call::FRESH);
            let bytes = match random.below(30) {
                0 => Bytes::of_event(Event::Break),
                1 => Bytes::of_event(Event::Resume),
                _ => next_event(&mut random, &call),
            };
            let bytes = bytes.as_slice();
            counts.records += 1;
            counts.bytes += bytes.len() as u64 + 1;
            let (mut out, before) = ([0; 512], console);
            match console.step(place as u8, bytes, &mut out) {
                Err(refusal) => counts.refused(refusal.number(), kind_of(bytes)),
                Ok(count) => {
                    counts.taken += 1;
                    let event = Event::read(bytes).expect("it was taken");
                    let mut written: [Vec<Message>; PLACES] = Default::default();
                    let mut at = 0;
                    for message in messages(&out[..count]) {
                        match message.expect("one") {
                            Message::Place { place } => at = usize::from(place),
                            message => written[at].push(message),
                        }
                    }
                    for (at, written) in written.iter().enumerate() {
                        if before.calls[at] != console.calls[at] || !written.is_empty() {
                            counts.taken(event, at, written, true);
                        }
                    }
                }
            }
            file.push(place as u8);
            file.extend(bytes);
        }
        let text = text_of(&file, &self::console());
        assert_eq!(summary_lines(&text), counts.lines(true), "round {round}");
    }
}

// ---- Any byte string ---------------------------------------------------------------------------

/// Answer, state and plane of each block, as `calltrace` prints them.
fn answers(text: &str) -> Vec<String> {
    let mut lines = Vec::new();
    let mut answer = String::new();
    let mut state = String::new();
    for line in text.lines() {
        let last = |line: &str| line.rsplit(" -> ").next().expect("a last one").to_owned();
        if let Some(rest) = line.strip_prefix("  answer   ") {
            answer = rest.split(':').next().expect("a number").to_owned();
        } else if let Some(rest) = line.strip_prefix("  state    ") {
            state = last(rest).split(',').next().expect("a state").to_owned();
        } else if let Some(rest) = line.strip_prefix("  plane    ") {
            let plane = last(rest).split(' ').next().expect("a number").to_owned();
            lines.push(format!("{answer} {state} {plane}"));
        }
    }
    lines
}

/// Of any bytes the blocks say what calltrace's lines say, and end where they do.
fn told_as_traced(file: &[u8]) {
    let traced = trace(file, Call::FRESH.pack(), boundary::step);
    let traced: Vec<String> = traced
        .lines()
        .skip(1)
        .map(|line| line.split(' ').take(3).collect::<Vec<_>>().join(" "))
        .collect();
    assert_eq!(answers(&text_of(file, &Options::default())), traced, "{file:02x?}");
}

#[test]
fn every_history_cut_anywhere() {
    for name in histories::names() {
        let file = histories::input(&name);
        for end in 0..=file.len() {
            told_as_traced(&file[..end]);
        }
    }
}

#[test]
fn any_bytes_are_a_file() {
    let mut random = Random::new(0xF11E);
    for round in 0..3000 {
        let len = random.below(if round % 10 == 0 { 3000 } else { 40 });
        // Bytes at random, and bytes that look like records.
        let small = random.flip();
        let byte = |random: &mut Random| if small { random.byte() % 12 } else { random.byte() };
        let file: Vec<u8> = (0..len).map(|_| byte(&mut random)).collect();
        told_as_traced(&file);
        for hex in [false, true] {
            for console in [false, true] {
                let svg = (round % 50 == 0).then(|| temporary("any.svg"));
                let options = Options { hex, console, svg, ..Options::default() };
                let text = text_of(&file, &options);
                assert!(text.contains("Summary\n"), "{file:02x?}");
            }
        }
    }
}

#[test]
fn what_a_bad_record_is_shown_as() {
    let shows = |file: &[u8], options: &Options, line: &str| {
        let text = text_of(file, options);
        assert!(text.lines().any(|given| given == line), "{line}\nis not in\n{text}");
    };
    let plain = Options::default();
    shows(&[4], &plain, "  one byte alone, half a length field: 04");
    shows(&[9, 0, 3], &plain, "  cut: its length field says 9 bytes, 3 are there: 09 00 03");
    shows(
        &[3, 0, 3, 2, 9, 9],
        &plain,
        "  its length field says 3 bytes, under 4; nothing behind it can be read: 03 00 03 02",
    );
    shows(
        &[0, 0],
        &plain,
        "  its length field says 0 bytes, under 4; nothing behind it can be read: 00 00",
    );
    shows(&[4, 0, 1, 5], &plain, "  kind 0501 (U-SETUP, a message), body of 0 bytes");
    shows(&[6, 0, 0xFF, 0xFF, 7, 8], &plain, "  kind FFFF, body of 2 bytes: 07 08");
    shows(
        &[6, 0, 0x0E, 0x02, 5, 0],
        &plain,
        "  answer   5: a network event of another call: it has i 5, held is i 0 (none)",
    );
    shows(
        &[6, 0, 0x0E, 0x02, 0, 64],
        &plain,
        "  answer   4: identifier (i) at offset 4 is 16384, not 0 to 16383",
    );
    shows(&[5, 0, 0x0E, 0x02, 0], &plain, "  answer   4: the body has 1 byte, D-RELEASE has 2");
    shows(
        &[6, 0, 0x01, 0x04, 44, 1],
        &plain,
        "  answer   4: timer (n) at offset 4 is 300, not 301, 302, 303, 306, 308, 310 or 311",
    );
    shows(&[3], &console(), "  place 3, then nothing: the record is cut");
    shows(&[9, 4, 0, 3, 1], &console(), "  answer   40: the place that is named is over 7");
    let hex = Options { hex: true, ..Options::default() };
    shows(b"0400 0303\n04x", &hex, "line 2: `x` is no hex digit; nothing is read from here on");
    shows(
        b"0400 0303\n\xFF",
        &hex,
        "line 2: byte ff is no hex digit; nothing is read from here on",
    );
    shows(b"0400 0303 0", &hex, "line 1: half a byte, which is not read");
    shows(b"04\n00 # half\n0303 # \x1b[31mred\n", &hex, "  # [31mred");
}

/// Long records, lines and comments are passed over, and not held.
#[test]
fn long_records_lines_and_comments() {
    let mut long = vec![0; 65535];
    long[..4].copy_from_slice(&[0xFF, 0xFF, 0x03, 0x03]);
    let file = [&[4, 0, 1, 3][..], &long, &[4, 0, 1, 3]].concat();
    told_as_traced(&file);
    told_as_traced(&file[..60_000]);
    let mut hex = b"# ".to_vec();
    hex.extend(vec![b'x'; 1 << 20]);
    hex.extend(b"\n0400 0303 # ");
    hex.extend(vec![b'y'; 1 << 20]);
    hex.extend(b"\n");
    hex.extend(b" ".repeat(1 << 20));
    hex.extend(b"0400 0403\n");
    let text = text_of(&hex, &Options { hex: true, ..Options::default() });
    assert!(text.len() < 10_000, "{}", text.len());
    assert_eq!(answers(&text), ["6 IDLE 4", "6 IDLE 4"]);
}

#[test]
fn refused_records_alone() {
    let options = Options { hex: true, refused: true, ..Options::default() };
    for name in histories::names() {
        let hex = fs::read(root().join(format!("tests/histories/{name}.hex"))).expect("stored");
        let text = text_of(&hex, &options);
        let all = text_of(&hex, &Options { hex: true, ..Options::default() });
        assert!(!text.contains("answer   0:"), "{name}");
        let blocks = |text: &str| -> Vec<String> {
            text.split("\n\n")
                .filter(|block| block.contains("\n  answer   "))
                .map(str::to_owned)
                .collect()
        };
        let (some, all) = (blocks(&text), blocks(&all));
        let refused = all.iter().filter(|block| !block.contains("\n  answer   0:"));
        // A comment that stood before a block is not kept.
        let plain = |block: &String| {
            let lines = block.lines().skip_while(|line| line.starts_with('#'));
            lines.collect::<Vec<_>>().join("\n")
        };
        assert!(refused.map(plain).eq(some.iter().map(plain)), "{name}");
    }
}

// ---- The program -------------------------------------------------------------------------------

#[test]
fn a_file_that_cannot_be_opened_or_read() {
    for (file, fault) in [("no/such/file", "opened"), ("/", "read")] {
        let mut command = Command::new(PROGRAM);
        command.arg(file).stdin(Stdio::null());
        let ran = run_within(command, None, &LIMITS);
        assert_eq!(ran.status.code(), Some(2));
        assert_eq!(ran.stdout, "");
        assert_eq!(ran.stderr.lines().count(), 1, "{}", ran.stderr);
        assert!(ran.stderr.starts_with(&format!("replay: {file} cannot be {fault}: ")));
    }
}

#[test]
fn what_is_asked_wrongly_is_told_in_a_line() {
    for arguments in [&[][..], &["--what", "file"], &["--svg"], &["one", "two"], &["--hex"]] {
        let mut command = Command::new(PROGRAM);
        command.args(arguments).stdin(Stdio::null());
        let ran = run_within(command, None, &LIMITS);
        assert_eq!(ran.status.code(), Some(2), "{arguments:?}");
        assert_eq!((ran.stdout.as_str(), ran.stderr.lines().count()), ("", 1), "{arguments:?}");
    }
}

#[test]
fn a_closed_pipe_ends_it_quietly() {
    let file = temporary("closed_pipe");
    fs::write(&file, histories::input("colliding_release").repeat(5000)).expect("written");
    let mut running = Command::new(PROGRAM)
        .arg(&file)
        .stdin(Stdio::null())
        .stdout(Stdio::piped())
        .stderr(Stdio::piped())
        .spawn()
        .expect("it starts");
    let mut some = [0; 1000];
    let mut stdout = running.stdout.take().expect("piped");
    stdout.read_exact(&mut some).expect("it writes");
    drop(stdout);
    let ended = running.wait_with_output().expect("it ends");
    assert_eq!(String::from_utf8_lossy(&ended.stderr), "");
    assert!(ended.status.success(), "{}", ended.status);
}

#[test]
fn an_output_that_cannot_be_written() {
    let file = root().join("tests/histories/whole_call.hex");
    let mut command = Command::new(PROGRAM);
    command.arg("--hex").arg(&file).stdin(Stdio::null()).stderr(Stdio::piped());
    command.stdout(File::options().write(true).open("/dev/full").expect("it is there"));
    let ended = command.output().expect("it runs");
    assert_eq!(ended.status.code(), Some(1));
    assert_eq!(String::from_utf8_lossy(&ended.stderr).lines().count(), 1);
    let mut command = Command::new(PROGRAM);
    command.args(["--hex", "--svg", "/no/such/folder/x.svg"]).arg(file).stdin(Stdio::null());
    let ran = run_within(command, None, &LIMITS);
    assert_eq!(ran.status.code(), Some(2));
    assert!(ran.stderr.starts_with("replay: /no/such/folder/x.svg cannot be written: "));
}

/// The most memory that a process had so far, in KiB.
fn most_memory(process: u32) -> u64 {
    let status = fs::read_to_string(format!("/proc/{process}/status")).expect("it still runs");
    let most = status.lines().find_map(|line| line.strip_prefix("VmHWM:")).expect("a line");
    most.trim().trim_end_matches(" kB").parse().expect("a number")
}

/// A file of a million records streams: after all of it no more memory was used than after a tenth.
#[test]
fn a_million_records_in_constant_memory() {
    let records: Vec<Vec<u8>> =
        tape().events().filter(|event| whole(&Bytes::new(event))).map(<[u8]>::to_vec).collect();
    let mut running = Command::new(PROGRAM)
        .arg("/dev/stdin")
        .stdin(Stdio::piped())
        .stdout(Stdio::piped())
        .spawn()
        .expect("it starts");
    let (mut stdin, stdout) = (running.stdin.take(), running.stdout.take());
    let reader = std::thread::spawn(move || {
        let (mut stdout, mut last) = (stdout.expect("piped"), Vec::new());
        let (mut some, mut count) = (vec![0; 1 << 16], 0u64);
        while let Ok(got @ 1..) = stdout.read(&mut some) {
            count += got as u64;
            last.extend_from_slice(&some[..got]);
            let keep = last.len().saturating_sub(1 << 16);
            last.drain(..keep);
        }
        (count, last)
    });
    let mut memory = Vec::new();
    let mut batch = Vec::new();
    for (at, record) in records.iter().cycle().take(1_000_000).enumerate() {
        batch.extend(record);
        if (at + 1) % 100_000 == 0 {
            stdin.as_mut().expect("piped").write_all(&batch).expect("it reads");
            batch.clear();
            memory.push(most_memory(running.id()));
        }
    }
    drop(stdin.take());
    let (count, last) = reader.join().expect("it reads to the end");
    assert!(running.wait().expect("it ends").success());
    assert!(count > 100_000_000, "{count}");
    assert!(String::from_utf8_lossy(&last).contains("    call "));
    tell(&format!("replay: memory after each 100,000 records, in KiB: {memory:?}"));
    let (tenth, all) = (memory[1], memory[9]);
    assert!(all < tenth + 8192 && all < 65536, "{memory:?}");
}

/// The script builds what it needs, and hands on what it is asked.
#[test]
fn the_script_runs_the_program() {
    let mut command = Command::new(root().join("examples/replay"));
    command.arg("--hex").arg(root().join("tests/histories/whole_call.hex")).stdin(Stdio::null());
    let ran = run_within(command, None, &Limits { time: Duration::from_secs(600), ..LIMITS });
    assert!(ran.status.success(), "{}", ran.stderr);
    let stored = fs::read_to_string(root().join("tests/histories/whole_call.text"));
    assert_eq!(ran.stdout, stored.expect("it is stored"));
}
