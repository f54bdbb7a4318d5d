//! What a whole file comes to: its calls and how each ended, breaks and restorations, what was refused
//! and how often, and every stretch in which the set had the plane to transmit.

use super::seen::{Part, Seen};
use super::spool::Spool;
use super::words::{self, Text};
use crate::account::kinds::{self, event, Party};
use crate::account::{Call, Path, Plane, State};
use std::collections::BTreeMap;
use std::io::{Result, Write};

/// How a call ended, by what began its release.
#[derive(Clone, Copy, Debug, PartialEq, Eq)]
pub enum End {
    User,
    Timer,
    Network,
    TransferFailed,
}

impl End {
    pub const ALL: [End; 4] = [End::User, End::Timer, End::Network, End::TransferFailed];

    fn words(self) -> &'static str {
        match self {
            End::User => "by the user",
            End::Timer => "by a timer",
            End::Network => "by the network",
            End::TransferFailed => "as the transfer failed",
        }
    }
}

#[derive(Default)]
pub struct Summary {
    console: bool,
    pub records: u64,
    pub bytes: u64,
    pub taken: u64,
    /// How often, and where first, by answer and kind; a record of no event kind counts as kind 0.
    pub refused: BTreeMap<(u32, u16), (u64, u64)>,
    pub calls: u64,
    /// In the order of [`End::ALL`].
    pub ended: [u64; 4],
    pub breaks: u64,
    pub restorations: u64,
    pub stretches: u64,
    open: Vec<Option<Open>>,
    list_of_calls: Spool,
    list_of_breaks: Spool,
    list_of_stretches: Spool,
    line: Text,
}

/// A call that has not ended.
struct Open {
    number: u64,
    first: u64,
    outgoing: bool,
    identifier: u16,
    address: u32,
    release: Option<(End, Cause)>,
    broken: Option<Broken>,
    transmits: Option<(Cause, Plane)>,
}

struct Broken {
    at: u64,
    resumed: Option<u64>,
}

/// An event by its name, and the number of its record.
struct Cause {
    name: String,
    at: u64,
}

impl Cause {
    fn of(seen: &Seen) -> Cause {
        let mut name = Text::default();
        seen.name(&mut name);
        Cause { name: name.as_str().to_owned(), at: seen.number }
    }

    fn put(&self, line: &mut Text) {
        line.put(&self.name).put(" at record ").number(self.at);
    }
}

fn transmits(plane: Plane) -> bool {
    matches!(plane, Plane::Transmit | Plane::TransmitAndReceive)
}

impl Summary {
    pub fn new(console: bool) -> Summary {
        let places = if console { crate::account::console::PLACES } else { 1 };
        Summary { console, open: (0..places).map(|_| None).collect(), ..Summary::default() }
    }

    pub fn add(&mut self, seen: &Seen) -> Result<()> {
        self.records += 1;
        self.bytes += (seen.bytes.len() + usize::from(seen.place.is_some())) as u64;
        if !seen.taken() {
            let kind = seen.kind.map_or(0, |kind| kind.number);
            let (count, _) = self.refused.entry((seen.answer, kind)).or_insert((0, seen.number));
            *count += 1;
            return Ok(());
        }
        self.taken += 1;
        for part in seen.parts {
            self.step(seen, part)?;
        }
        Ok(())
    }

    fn step(&mut self, seen: &Seen, part: &Part) -> Result<()> {
        let (before, after) = (&part.before, &part.after);
        let place = &mut self.open[part.place];
        if before.state == State::Idle && after.state != State::Idle {
            self.calls += 1;
            *place = Some(Open {
                number: self.calls,
                first: seen.number,
                outgoing: after.state == State::MoCallSetup,
                identifier: 0,
                address: after.address,
                release: None,
                broken: None,
                transmits: None,
            });
        }
        let Some(open) = place else { return Ok(()) };
        if after.identifier != 0 {
            open.identifier = after.identifier;
        }
        let name = Name { number: open.number, place: self.console.then_some(part.place) };

        if transmits(before.plane) && !transmits(after.plane) {
            if let Some((from, plane)) = open.transmits.take() {
                self.line.clear();
                stretch(&mut self.line, &name, &from, plane, Some(&Cause::of(seen)));
                self.list_of_stretches.put(&self.line.0)?;
            }
        }
        if !transmits(before.plane) && transmits(after.plane) {
            self.stretches += 1;
            open.transmits = Some((Cause::of(seen), after.plane));
        }

        let (was, is) = (before.path, after.path);
        if was != is {
            if let (Path::Broken, Path::Restoring, Some(broken)) = (was, is, &mut open.broken) {
                broken.resumed = Some(seen.number);
            } else if let Some(broken) = open.broken.take() {
                self.line.clear();
                let how = match (is, after.state) {
                    (Path::Broken, _) => "broken again at record ",
                    (_, State::CallActive) => "restored at record ",
                    _ => "released at record ",
                };
                a_break(&mut self.line, &name, &broken, how, Some(seen.number));
                self.list_of_breaks.put(&self.line.0)?;
                self.restorations += u64::from(is == Path::Up && after.state == State::CallActive);
            }
            if is == Path::Broken {
                self.breaks += 1;
                open.broken = Some(Broken { at: seen.number, resumed: None });
            }
        }

        if after.state == State::CallDisconnect && before.state != State::CallDisconnect {
            open.release = Some((end(seen), Cause::of(seen)));
        }
        if before.state != State::Idle && after.state == State::Idle {
            let (how, begun) = match open.release.take() {
                Some((how, begun)) => (how, Some(begun)),
                None => (end(seen), None),
            };
            self.ended[how as usize] += 1;
            self.line.clear();
            call(&mut self.line, &name, open, Some(seen.number));
            self.line.put("; ended ").put(how.words()).put(": ");
            if let Some(begun) = begun {
                begun.put(&mut self.line);
                self.line.put(", closed by ");
            }
            Cause::of(seen).put(&mut self.line);
            self.line.put("\n");
            self.list_of_calls.put(&self.line.0)?;
            self.open[part.place] = None;
        }
        Ok(())
    }

    /// Writes it, with the calls as they stand at the end of the file.
    pub fn give(mut self, calls: &[Call], out: &mut impl Write) -> Result<()> {
        let open = std::mem::take(&mut self.open);
        let mut still = 0u64;
        for (place, (open, held)) in open.iter().zip(calls).enumerate() {
            let Some(open) = open else { continue };
            still += 1;
            let name = Name { number: open.number, place: self.console.then_some(place) };
            self.line.clear();
            call(&mut self.line, &name, open, None);
            if let Some((how, begun)) = &open.release {
                self.line.put("; released ").put(how.words()).put(": ");
                begun.put(&mut self.line);
            }
            self.line.put("; open at the end of the file: ");
            words::state(&mut self.line, held);
            self.line.put(", plane ");
            words::plane(&mut self.line, held.plane);
            self.line.put("\n");
            self.list_of_calls.put(&self.line.0)?;
            if let Some(broken) = &open.broken {
                self.line.clear();
                a_break(&mut self.line, &name, broken, "still so at the end of the file", None);
                self.list_of_breaks.put(&self.line.0)?;
            }
            if let Some((from, plane)) = &open.transmits {
                self.line.clear();
                stretch(&mut self.line, &name, from, *plane, None);
                self.list_of_stretches.put(&self.line.0)?;
            }
        }

        let mut text = Text::default();
        text.put("Summary\n  records       ").number(self.records).put(", ").number(self.bytes);
        text.put(" bytes: ").number(self.taken).put(" taken, ");
        text.number(self.records - self.taken).put(" refused\n");
        text.put("  refused       ").number(self.records - self.taken).put("\n");
        let mut last = None;
        for (&(answer, kind), &(count, first)) in &self.refused {
            if last != Some(answer) {
                let of_answer = self.refused.range((answer, 0)..=(answer, u16::MAX));
                let all: u64 = of_answer.map(|(_, &(count, _))| count).sum();
                text.put("    answer ").number(answer).put(", ");
                text.put(kinds::answer(answer).unwrap_or("not known")).put(": ");
                text.number(all).put("\n");
                last = Some(answer);
            }
            let name = match (event(kind), answer) {
                (Some(kind), _) => kind.name,
                (None, 2) => "the last record",
                (None, _) => "no event kind",
            };
            text.put("      ").number(count).put(" x ").put(name);
            text.put(", first at record ").number(first).put("\n");
        }
        text.put("  calls         ").number(self.calls);
        let mut between = ": ";
        for (at, end) in End::ALL.into_iter().enumerate() {
            if self.ended[at] > 0 {
                text.put(between).number(self.ended[at]).put(" ended ").put(end.words());
                between = ", ";
            }
        }
        if still > 0 {
            text.put(between).number(still).put(" open");
        }
        text.put("\n");
        out.write_all(&text.0)?;
        std::mem::take(&mut self.list_of_calls).give(out)?;
        text.clear();
        text.put("  breaks        ").number(self.breaks).put(", restorations ");
        text.number(self.restorations).put("\n");
        out.write_all(&text.0)?;
        std::mem::take(&mut self.list_of_breaks).give(out)?;
        text.clear();
        text.put("  transmitting  ").number(self.stretches);
        text.put(if self.stretches == 1 { " stretch" } else { " stretches" });
        text.put(" in which the set had the plane to transmit\n");
        out.write_all(&text.0)?;
        self.list_of_stretches.give(out)
    }
}

/// What begins a release, or ends a call at once.
fn end(seen: &Seen) -> End {
    match seen.kind.map(|kind| kind.party) {
        Some(Party::Timers) => End::Timer,
        Some(Party::Network) => End::Network,
        Some(Party::LowerLayers) => End::TransferFailed,
        _ => End::User,
    }
}

struct Name {
    number: u64,
    place: Option<usize>,
}

impl Name {
    fn put(&self, line: &mut Text) {
        line.put("    call ").number(self.number);
        if let Some(place) = self.place {
            line.put(" at place ").number(place as u64);
        }
    }
}

fn call(line: &mut Text, name: &Name, open: &Open, last: Option<u64>) {
    name.put(line);
    line.put(", ");
    records(line, open.first, last);
    match (open.outgoing, open.address) {
        (true, address) => line.put(": outgoing to address ").number(address),
        (false, 0) => line.put(": incoming from an unknown address"),
        (false, address) => line.put(": incoming from address ").number(address),
    };
    match open.identifier {
        0 => line.put(", no identifier"),
        i => line.put(", i ").number(i),
    };
}

fn records(line: &mut Text, first: u64, last: Option<u64>) {
    match last {
        Some(last) if last == first => line.put("record ").number(first),
        Some(last) => line.put("records ").number(first).put(" to ").number(last),
        None => line.put("from record ").number(first).put(" on"),
    };
}

fn a_break(line: &mut Text, name: &Name, broken: &Broken, how: &str, at: Option<u64>) {
    name.put(line);
    line.put(", broken at record ").number(broken.at);
    if let Some(resumed) = broken.resumed {
        line.put(", RESUME at record ").number(resumed);
    }
    line.put(", ").put(how);
    if let Some(at) = at {
        line.number(at);
    }
    line.put("\n");
}

fn stretch(line: &mut Text, name: &Name, from: &Cause, plane: Plane, to: Option<&Cause>) {
    name.put(line);
    line.put(", plane ");
    words::plane(line, plane);
    line.put(": from ");
    from.put(line);
    match to {
        Some(to) => {
            line.put(" to ");
            to.put(line);
        }
        None => {
            line.put(" to the end of the file");
        }
    }
    line.put("\n");
}
