//! The picture of a call: user, call control, lower layers and network side by side, time running
//! down, with a bar for each timer that runs and a band for the plane. One page for a call.

use super::blocks;
use super::seen::{messages, Part, Seen};
use super::words::{self, kind_of, Names, Text};
use super::Fault;
use crate::account::console::PLACES;
use crate::account::kinds::{Party, MESSAGES};
use crate::account::records::{Message, MAX_T310_CODE};
use crate::account::{self, Path, Plane, State, Timer};
use std::collections::VecDeque;
use std::fmt::Write;
use std::path::PathBuf;

/// So many records are drawn from the beginning of a page, and so many from its end.
const FIRST: usize = 150;
const LAST: usize = 150;

pub struct Charts {
    path: PathBuf,
    title: String,
    console: bool,
    names: Names,
    /// The calls begun, and the pages written.
    calls: u64,
    written: u64,
    pages: Vec<Page>,
}

impl Charts {
    pub fn new(path: PathBuf, title: String, console: bool) -> Charts {
        let places = if console { PLACES } else { 1 };
        let pages = (0..places).map(|_| Page::default()).collect();
        Charts { path, title, console, names: Names::of(MESSAGES), calls: 0, written: 0, pages }
    }

    pub fn add(&mut self, seen: &Seen) -> Result<(), Fault> {
        for part in seen.parts {
            let begins = part.before.state == State::Idle && part.after.state != State::Idle;
            if begins {
                self.calls += 1;
                if self.pages[part.place].call.is_some() {
                    self.write(part.place)?;
                }
                self.pages[part.place].call = Some(Call {
                    number: self.calls,
                    outgoing: part.after.state == State::MoCallSetup,
                    address: part.after.address,
                    identifier: 0,
                    ended: false,
                });
            }
            let row = Row::of(seen, part, &self.names);
            let page = &mut self.pages[part.place];
            if let Some(call) = &mut page.call {
                call.identifier = call.identifier.max(part.after.identifier);
                call.ended |= part.before.state != State::Idle && part.after.state == State::Idle;
            }
            page.push(row);
        }
        if seen.parts.is_empty() {
            // What no place was found for is shown with every call that then was.
            let open = |page: &Page| page.call.as_ref().is_some_and(|call| !call.ended);
            let none = !self.pages.iter().any(open);
            for (place, page) in self.pages.iter_mut().enumerate() {
                if open(page) || (none && place == 0) {
                    let call = seen.before[place];
                    let part = Part { place, before: call, after: call, messages: &[] };
                    page.push(Row::of(seen, &part, &self.names));
                }
            }
        }
        Ok(())
    }

    /// The pages of the last calls; one without a call where there was none. Pages of a longer file
    /// that was drawn here before would look like calls of this one, and are removed.
    pub fn end(mut self) -> Result<(), Fault> {
        for place in 0..self.pages.len() {
            if self.pages[place].call.is_some() {
                self.write(place)?;
            }
        }
        if self.written == 0 {
            self.write(0)?;
        }
        for number in self.calls.max(1) + 1.. {
            let path = self.page(number);
            // A file of another's that has the name of a page stays.
            let is_page = std::fs::read_to_string(&path).is_ok_and(|svg| {
                svg.starts_with("<svg") && svg.contains(&format!(">Call {number}"))
            });
            if !is_page {
                break;
            }
            std::fs::remove_file(&path).map_err(|error| Fault::Chart(path, error))?;
        }
        Ok(())
    }

    /// The file of the call of this number.
    fn page(&self, number: u64) -> PathBuf {
        if number == 1 {
            return self.path.clone();
        }
        let stem = self.path.file_stem().unwrap_or_default().to_string_lossy();
        let name = match self.path.extension().map(|ending| ending.to_string_lossy()) {
            Some(ending) => format!("{stem}-{number}.{ending}"),
            None => format!("{stem}-{number}"),
        };
        self.path.with_file_name(name)
    }

    fn write(&mut self, place: usize) -> Result<(), Fault> {
        let page = std::mem::take(&mut self.pages[place]);
        let number = page.call.as_ref().map_or(1, |call| call.number);
        let path = self.page(number);
        let svg = page.svg(&self.title, self.console.then_some(place));
        self.written += 1;
        std::fs::write(&path, svg).map_err(|error| Fault::Chart(path, error))
    }
}

#[derive(Default)]
struct Page {
    call: Option<Call>,
    first: Vec<Row>,
    last: VecDeque<Row>,
    /// Between the two.
    left_out: u64,
}

struct Call {
    number: u64,
    outgoing: bool,
    address: u32,
    identifier: u16,
    ended: bool,
}

/// What is said of a call where it changes.
#[derive(Clone, Copy, PartialEq, Eq)]
struct Situation {
    state: State,
    path: Path,
    slots: u8,
}

impl Situation {
    fn of(call: &account::Call) -> Situation {
        Situation { state: call.state, path: call.path, slots: call.slots }
    }

    fn words(self) -> String {
        let mut text = Text::default();
        text.put(self.state.name());
        if self.path != Path::Up {
            text.put(", ").put(self.path.name());
        }
        if self.slots != account::Call::FRESH.slots {
            text.put(", ");
            words::slots(&mut text, self.slots);
        }
        text.as_str().to_owned()
    }
}

/// What is drawn of a record.
struct Row {
    number: u64,
    from: Option<Party>,
    event: String,
    /// Why it was refused.
    refused: Option<String>,
    expired: Option<Timer>,
    /// How the call stood before and after it.
    before: Situation,
    after: Situation,
    plane: Plane,
    timers: [bool; 7],
    stopped: Vec<Timer>,
    started: Vec<(Timer, u8)>,
    /// All but STOP and START.
    messages: Vec<(Party, String, bool)>,
}

impl Row {
    fn of(seen: &Seen, part: &Part, names: &Names) -> Row {
        let mut text = Text::default();
        if seen.fault.is_some() {
            text.put("a record that is cut");
        } else {
            words::record(&mut text, seen.kind, seen.bytes);
        }
        let event = text.as_str().to_owned();
        let refused = (!seen.taken()).then(|| {
            text.clear();
            text.put("refused, ").number(seen.answer).put(": ");
            blocks::answer(&mut text, seen);
            text.as_str().to_owned()
        });
        let (before, call) = (part.before, part.after);
        let mut row = Row {
            number: seen.number,
            from: seen.kind.filter(|_| seen.fault.is_none()).map(|kind| kind.party),
            event,
            refused,
            expired: None,
            before: Situation::of(&before),
            after: Situation::of(&call),
            plane: call.plane,
            timers: call.timers,
            stopped: Vec::new(),
            started: Vec::new(),
            messages: Vec::new(),
        };
        if seen.taken() && row.from == Some(Party::Timers) {
            row.expired = seen.bytes.get(4..6).and_then(|number| {
                Timer::from_timer_number(u16::from_le_bytes([number[0], number[1]]))
            });
        }
        for message in messages(part.messages) {
            match Message::read(message) {
                Ok(Message::Stop { n }) => row.stopped.push(n),
                Ok(Message::Start { n, o }) => row.started.push((n, o)),
                read => {
                    let kind = kind_of(message).and_then(|kind| names.get(kind));
                    text.clear();
                    words::record(&mut text, kind, message);
                    let tells_plane = matches!(read, Ok(Message::Configure { .. }));
                    let to = kind.map_or(Party::LowerLayers, |kind| kind.party);
                    row.messages.push((to, text.as_str().to_owned(), tells_plane));
                }
            }
        }
        row
    }

    fn height(&self) -> i32 {
        let refused = if self.refused.is_some() { REASON } else { 0 };
        let pill = if self.before != self.after { PILL } else { 0 };
        PAD + LINE * (1 + self.messages.len() as i32) + refused + pill + PAD
    }
}

// ---- The layout --------------------------------------------------------------------------------

const PAD: i32 = 5;
const LINE: i32 = 22;
const REASON: i32 = 15;
const PILL: i32 = 28;
const TOP: i32 = 118;
const TIMERS_AT: i32 = 64;
const TIMER_WIDTH: i32 = 34;
const TO_USER: i32 = 64;
const USER_TO_CONTROL: i32 = 400;
const CONTROL_TO_LOWER: i32 = 260;
const LOWER_TO_NETWORK: i32 = 240;
const RIGHT: i32 = 90;
const BAND: i32 = 16;
const LEGEND: i32 = 84;

const INK: &str = "#212529";
const GREY: &str = "#8a929a";
const TIMER: &str = "#0b7285";
const EXPIRED: &str = "#e03131";

fn colour(plane: Plane) -> &'static str {
    match plane {
        Plane::Transmit => "#e8590c",
        Plane::Receive => "#228be6",
        Plane::TransmitAndReceive => "#9c36b5",
        Plane::Off => "#dee2e6",
    }
}

/// Of the strip beside the band.
fn path_colour(path: Path) -> Option<&'static str> {
    match path {
        Path::Up => None,
        Path::Broken => Some("#e03131"),
        Path::Restoring => Some("#fab005"),
    }
}

/// Where the lanes are, and what is drawn so far: bars and bands behind, the rest before them.
struct Drawing {
    timers: Vec<Timer>,
    user: i32,
    control: i32,
    lower: i32,
    network: i32,
    behind: String,
    before: String,
}

impl Page {
    fn push(&mut self, row: Row) {
        if self.first.len() < FIRST {
            self.first.push(row);
            return;
        }
        if self.last.len() == LAST {
            self.last.pop_front();
            self.left_out += 1;
        }
        self.last.push_back(row);
    }

    fn rows(&self) -> impl Iterator<Item = &Row> {
        self.first.iter().chain(&self.last)
    }

    fn svg(&self, title: &str, place: Option<usize>) -> String {
        let used = |&&timer: &&Timer| {
            self.rows().any(|row| {
                row.timers[timer as usize]
                    || row.started.iter().any(|&(started, _)| started == timer)
            })
        };
        let timers: Vec<Timer> = Timer::ALL.iter().filter(used).copied().collect();
        let user = TIMERS_AT + TIMER_WIDTH * timers.len() as i32 + TO_USER;
        let control = user + USER_TO_CONTROL;
        let lower = control + CONTROL_TO_LOWER;
        let network = lower + LOWER_TO_NETWORK;
        let width = network + RIGHT;
        let mut drawing = Drawing {
            timers,
            user,
            control,
            lower,
            network,
            behind: String::new(),
            before: String::new(),
        };
        let bottom = self.draw(&mut drawing, width);
        let height = bottom + LEGEND;

        let mut svg = format!(
            "<svg xmlns=\"http://www.w3.org/2000/svg\" viewBox=\"0 0 {width} {height}\" \
             width=\"{width}\" height=\"{height}\" font-family=\"Helvetica, Arial, sans-serif\" \
             font-size=\"12.5\">\n<rect width=\"{width}\" height=\"{height}\" fill=\"#ffffff\"/>\n"
        );
        self.head(&mut svg, title, place);
        drawing.lanes(&mut svg, bottom);
        svg += &drawing.behind;
        svg += &drawing.before;
        drawing.legend(&mut svg, bottom);
        svg += "</svg>\n";
        svg
    }

    fn head(&self, svg: &mut String, title: &str, place: Option<usize>) {
        let mut line = match &self.call {
            None => String::from("No call"),
            Some(call) => {
                let whom = match (call.outgoing, call.address) {
                    (true, address) => format!("outgoing to address {address}"),
                    (false, 0) => String::from("incoming from an unknown address"),
                    (false, address) => format!("incoming from address {address}"),
                };
                let i = match call.identifier {
                    0 => String::from("no identifier"),
                    i => format!("i {i}"),
                };
                let at = place.map_or(String::new(), |place| format!(" at place {place}"));
                format!("Call {}{at}: {whom}, {i}", call.number)
            }
        };
        if !title.is_empty() {
            let _ = write!(line, ", from {title}");
        }
        let _ = writeln!(
            svg,
            "<text x=\"16\" y=\"30\" font-size=\"18\" font-weight=\"bold\" fill=\"{INK}\">{}</text>",
            escaped(&line)
        );
        let mut numbers = self.rows().map(|row| row.number);
        let records = match (numbers.next(), numbers.last()) {
            (None, _) => String::from("no records"),
            (Some(first), None) => format!("record {first}"),
            (Some(first), Some(last)) => format!("records {first} to {last}"),
        };
        let how = match &self.call {
            None => "",
            Some(call) if call.ended => "; the call has ended",
            Some(_) => "; the call is open at the end of the file",
        };
        let _ = writeln!(svg, "<text x=\"16\" y=\"52\" fill=\"{INK}\">{records}{how}</text>");
    }

    /// Draws all rows and gives where they end.
    fn draw(&self, drawing: &mut Drawing, width: i32) -> i32 {
        let mut y = TOP;
        let fresh = Situation::of(&account::Call::FRESH);
        let start = self.rows().next().map_or(fresh, |row| row.before);
        drawing.pill(y + PILL / 2, &start.words());
        y += PILL;
        let mut band = (y, Plane::Off);
        let mut strip = (y, start.path);
        let mut bars: [Option<(i32, u64, u8)>; 7] = [None; 7];
        for (at, row) in self.rows().enumerate() {
            if at == FIRST && self.left_out > 0 {
                drawing.note(y + 14, &format!("{} records are not drawn", self.left_out));
                y += LINE;
            }
            if at % 2 == 0 {
                let _ = writeln!(
                    drawing.behind,
                    "<rect x=\"8\" y=\"{y}\" width=\"{}\" height=\"{}\" fill=\"#000000\" \
                     fill-opacity=\"0.035\"/>",
                    width - 16,
                    row.height()
                );
            }
            y = self.row(drawing, row, y, &mut band, &mut strip, &mut bars);
        }
        drawing.band(band, y);
        drawing.strip(strip, y);
        for (timer, bar) in Timer::ALL.iter().zip(bars) {
            if let Some(bar) = bar {
                drawing.bar(*timer, bar, y, Mark::None);
            }
        }
        y
    }

    fn row(
        &self,
        drawing: &mut Drawing,
        row: &Row,
        top: i32,
        band: &mut (i32, Plane),
        strip: &mut (i32, Path),
        bars: &mut [Option<(i32, u64, u8)>; 7],
    ) -> i32 {
        let mut y = top + PAD + LINE - 5;
        let _ = writeln!(
            drawing.before,
            "<text x=\"48\" y=\"{}\" text-anchor=\"end\" fill=\"{GREY}\">{}</text>",
            y + 4,
            row.number
        );
        drawing.event(row, y);
        if let Some(reason) = &row.refused {
            drawing.reason(row.from, y + 13, reason);
            y += REASON;
        }
        // Timers. Where records were left out, a bar may begin or end without an order.
        let ordered = y - 2;
        for &timer in Timer::ALL {
            let held = &mut bars[timer as usize];
            let started = row.started.iter().find(|&&(started, _)| started == timer);
            let running = row.timers[timer as usize];
            if row.expired == Some(timer) {
                if let Some(bar) = held.take() {
                    drawing.bar(timer, bar, ordered, Mark::Expiry);
                }
            } else if row.stopped.contains(&timer) || (!running && started.is_none()) {
                if let Some(bar) = held.take() {
                    drawing.bar(timer, bar, ordered, Mark::Stop);
                }
            }
            if let Some(&(_, code)) = started {
                if let Some(bar) = held.take() {
                    drawing.bar(timer, bar, ordered, Mark::Again);
                }
                *held = Some((ordered + 4, row.number, code));
            } else if running && held.is_none() {
                *held = Some((top, row.number, MAX_T310_CODE + 1));
            }
        }
        let mut told = None;
        for (to, words, tells_plane) in &row.messages {
            y += LINE;
            drawing.message(*to, y, words);
            if *tells_plane {
                told = Some(y);
            }
        }
        if row.plane != band.1 {
            let at = told.unwrap_or(y);
            drawing.band(*band, at);
            *band = (at, row.plane);
        }
        if row.after.path != strip.1 {
            drawing.strip(*strip, y);
            *strip = (y, row.after.path);
        }
        if row.before != row.after {
            drawing.pill(y + 5 + PILL / 2, &row.after.words());
        }
        top + row.height()
    }
}

/// How a bar ends.
#[derive(PartialEq)]
enum Mark {
    /// It still runs.
    None,
    Stop,
    Expiry,
    /// Started anew.
    Again,
}

impl Drawing {
    fn lane(&self, party: Party) -> i32 {
        match party {
            Party::User => self.user,
            Party::LowerLayers | Party::Console => self.lower,
            Party::Network => self.network,
            Party::Timers => TIMERS_AT,
        }
    }

    fn column(&self, timer: Timer) -> i32 {
        let at = self.timers.iter().position(|&shown| shown == timer).unwrap_or(0);
        TIMERS_AT + TIMER_WIDTH * at as i32 + TIMER_WIDTH / 2
    }

    fn lanes(&self, svg: &mut String, bottom: i32) {
        let top = TOP - 12;
        for (x, name) in [
            (self.user, "user"),
            (self.control, "call control"),
            (self.lower, "lower layers"),
            (self.network, "network"),
        ] {
            let _ = writeln!(
                svg,
                "<line x1=\"{x}\" y1=\"{top}\" x2=\"{x}\" y2=\"{bottom}\" stroke=\"#adb5bd\"/>\n\
                 <rect x=\"{}\" y=\"{}\" width=\"120\" height=\"28\" rx=\"4\" fill=\"#f1f3f5\" \
                 stroke=\"{INK}\"/>\n<text x=\"{x}\" y=\"{}\" text-anchor=\"middle\" \
                 font-weight=\"bold\" fill=\"{INK}\">{name}</text>",
                x - 60,
                top - 30,
                top - 11
            );
        }
        for &timer in &self.timers {
            let x = self.column(timer);
            let _ = writeln!(
                svg,
                "<line x1=\"{x}\" y1=\"{top}\" x2=\"{x}\" y2=\"{bottom}\" stroke=\"#e9ecef\"/>\n\
                 <text x=\"{x}\" y=\"{}\" text-anchor=\"middle\" font-size=\"10.5\" \
                 fill=\"{TIMER}\">T{}</text>",
                top - 11,
                timer.number()
            );
        }
    }

    fn arrow(&mut self, from: i32, to: i32, y: i32, colour: &str, refused: bool) {
        let back = if to > from { -8 } else { 8 };
        // One that is refused does not arrive: a cross stands for its head.
        let (dashes, head) = if refused {
            let cross = format!(
                "<path d=\"M{} {} l8 8 m0 -8 l-8 8\" stroke=\"{colour}\" stroke-width=\"1.6\"/>",
                to + back - 4,
                y - 4
            );
            (" stroke-dasharray=\"5 4\"", cross)
        } else {
            ("", format!("<path d=\"M{to} {y} l{back} -4 v8 z\" fill=\"{colour}\"/>"))
        };
        let end = if refused { to + back } else { to };
        let _ = writeln!(
            self.before,
            "<line x1=\"{from}\" y1=\"{y}\" x2=\"{end}\" y2=\"{y}\" stroke=\"{colour}\" \
             stroke-width=\"1.3\"{dashes}/>\n{head}"
        );
    }

    /// Words over an arrow, clear of the lines that they cross. Those to or from the left end at call
    /// control, the others begin there.
    fn label(&mut self, left: bool, y: i32, colour: &str, size: &str, words: &str) {
        let (x, anchor) = match left {
            true => (self.control - BAND / 2 - 16, "end"),
            false => (self.control + BAND / 2 + 14, "start"),
        };
        let _ = writeln!(
            self.before,
            "<text x=\"{x}\" y=\"{y}\" text-anchor=\"{anchor}\" fill=\"{colour}\" \
             stroke=\"#ffffff\" stroke-width=\"3\" paint-order=\"stroke\"{size}>{}</text>",
            escaped(words)
        );
    }

    fn event(&mut self, row: &Row, y: i32) {
        let colour = if row.refused.is_some() { GREY } else { INK };
        let left = matches!(row.from, Some(Party::User | Party::Timers) | None);
        let from = match (row.from, row.expired) {
            (_, Some(timer)) => self.column(timer),
            (Some(Party::Timers) | None, _) => self.control - 90,
            (Some(party), _) => self.lane(party),
        };
        let near = if left { -BAND / 2 - 2 } else { BAND / 2 + 2 };
        let to = self.control + near;
        self.arrow(from, to, y, colour, row.refused.is_some());
        self.label(left, y - 5, colour, "", &row.event);
    }

    fn reason(&mut self, from: Option<Party>, y: i32, reason: &str) {
        let left = matches!(from, Some(Party::User | Party::Timers) | None);
        self.label(left, y, GREY, " font-size=\"11\" font-style=\"italic\"", reason);
    }

    fn message(&mut self, to: Party, y: i32, words: &str) {
        let left = to == Party::User;
        let near = if left { -BAND / 2 - 2 } else { BAND / 2 + 2 };
        self.arrow(self.control + near, self.lane(to), y, INK, false);
        self.label(left, y - 5, INK, "", words);
    }

    fn pill(&mut self, middle: i32, words: &str) {
        let width = words.len() as i32 * 7 + 22;
        let _ = writeln!(
            self.before,
            "<rect x=\"{}\" y=\"{}\" width=\"{width}\" height=\"20\" rx=\"10\" fill=\"#fff9db\" \
             stroke=\"{INK}\"/>\n<text x=\"{}\" y=\"{}\" text-anchor=\"middle\" font-size=\"11.5\" \
             fill=\"{INK}\">{words}</text>",
            self.control - width / 2,
            middle - 10,
            self.control,
            middle + 4
        );
    }

    fn note(&mut self, y: i32, words: &str) {
        let _ = writeln!(
            self.before,
            "<text x=\"{}\" y=\"{y}\" text-anchor=\"middle\" font-style=\"italic\" \
             fill=\"{GREY}\">{words}</text>",
            self.control
        );
    }

    fn band(&mut self, (from, plane): (i32, Plane), to: i32) {
        let _ = writeln!(
            self.behind,
            "<rect x=\"{}\" y=\"{from}\" width=\"{BAND}\" height=\"{}\" fill=\"{}\">\
             <title>plane {} {}</title></rect>",
            self.control - BAND / 2,
            to - from,
            colour(plane),
            plane as u8,
            words::plane_name(plane)
        );
    }

    fn strip(&mut self, (from, path): (i32, Path), to: i32) {
        let Some(colour) = path_colour(path) else { return };
        let _ = writeln!(
            self.behind,
            "<rect x=\"{}\" y=\"{from}\" width=\"5\" height=\"{}\" fill=\"{colour}\">\
             <title>path {}</title></rect>",
            self.control - BAND / 2 - 5,
            to - from,
            path.name()
        );
    }

    fn bar(&mut self, timer: Timer, (from, record, code): (i32, u64, u8), to: i32, mark: Mark) {
        let x = self.column(timer);
        let number = timer.number();
        let coded = timer == Timer::T310 && code <= MAX_T310_CODE;
        let of_code = if coded { format!(" code {code}") } else { String::new() };
        let _ = writeln!(
            self.before,
            "<rect x=\"{}\" y=\"{from}\" width=\"14\" height=\"{}\" rx=\"2\" fill=\"{TIMER}\" \
             fill-opacity=\"0.8\"><title>T{number}{of_code}, from record {record}</title></rect>",
            x - 7,
            (to - from).max(3)
        );
        if coded && to - from > 16 {
            let _ = writeln!(
                self.before,
                "<text x=\"{x}\" y=\"{}\" text-anchor=\"middle\" font-size=\"9.5\" \
                 fill=\"#ffffff\">{code}</text>",
                from + 12
            );
        }
        let end = match mark {
            Mark::None => return,
            Mark::Stop | Mark::Again => {
                format!("<path d=\"M{} {to} h20\" stroke=\"{INK}\" stroke-width=\"2.5\"/>", x - 10)
            }
            Mark::Expiry => {
                format!("<path d=\"M{} {} h18 l-9 11 z\" fill=\"{EXPIRED}\"/>", x - 9, to - 5)
            }
        };
        let _ = writeln!(self.before, "{end}");
    }

    fn legend(&self, svg: &mut String, bottom: i32) {
        let (first, second) = (bottom + 34, bottom + 60);
        let mut x = 16;
        for &plane in Plane::ALL {
            let shape = format!("<rect x=\"{x}\" y=\"{}\" width=\"14\" height=\"14\"", first - 7);
            let shape = format!("{shape} fill=\"{}\"/>", colour(plane));
            x = swatch(svg, x, first, &shape, &format!("plane {}", words::plane_name(plane)));
        }
        for path in [Path::Broken, Path::Restoring] {
            let colour = path_colour(path).unwrap_or(INK);
            let shape = format!(
                "<rect x=\"{}\" y=\"{}\" width=\"5\" height=\"14\" fill=\"{colour}\"/>",
                x + 5,
                first - 7
            );
            x = swatch(svg, x, first, &shape, &format!("path {}", path.name()));
        }
        let mut x = 16;
        let shape = format!(
            "<rect x=\"{}\" y=\"{}\" width=\"14\" height=\"14\" rx=\"2\" fill=\"{TIMER}\" \
             fill-opacity=\"0.8\"/>",
            x,
            second - 7
        );
        x = swatch(svg, x, second, &shape, "timer runs (T310 with its code)");
        let shape =
            format!("<path d=\"M{x} {second} h16\" stroke=\"{INK}\" stroke-width=\"2.5\"/>");
        x = swatch(svg, x, second, &shape, "stopped or started anew");
        let shape = format!("<path d=\"M{x} {} h16 l-8 10 z\" fill=\"{EXPIRED}\"/>", second - 5);
        x = swatch(svg, x, second, &shape, "expired");
        let shape = format!(
            "<path d=\"M{x} {second} h16\" stroke=\"{GREY}\" stroke-width=\"1.3\" \
             stroke-dasharray=\"5 4\"/>"
        );
        swatch(svg, x, second, &shape, "refused");
    }
}

/// One entry of the legend; gives where the next begins.
fn swatch(svg: &mut String, x: i32, y: i32, shape: &str, words: &str) -> i32 {
    let _ = writeln!(
        svg,
        "{shape}<text x=\"{}\" y=\"{}\" font-size=\"11.5\" fill=\"{INK}\">{words}</text>",
        x + 22,
        y + 4
    );
    x + 48 + 6 * words.len() as i32
}

fn escaped(words: &str) -> String {
    let mut safe = String::with_capacity(words.len());
    for char in words.chars() {
        match char {
            '&' => safe += "&amp;",
            '<' => safe += "&lt;",
            '>' => safe += "&gt;",
            '"' => safe += "&quot;",
            char if char.is_control() => safe.push('?'),
            char => safe.push(char),
        }
    }
    safe
}
