//! The picture of where a console's event goes: which kinds go which way, and every number in it,
//! are what the library answers.
//!
//! Where boxes lie and the words of a rule are laid out by hand below. A kind that goes a way
//! without a place in the layout is an error, not left out.

use crate::account::kinds::{Kind, EVENTS};
use crate::account::{Call, Event, Mode, State, RECORD_LEN};
use crate::drawing::{open, LINE};
use crate::explore::{alphabet, Letters};
use crate::generate::Bytes;
use crate::library::split;
use crate::request::{Function, Request};
use crate::sidebyside::alone;
use std::collections::BTreeMap;
use std::fmt::Write;

const PLACES: usize = 8;
/// The most that a console's step writes, on a table that began fresh.
const ROOM: usize = 184;

/// Which way a kind goes.
#[derive(Clone, Copy, Debug, PartialEq, Eq, PartialOrd, Ord)]
enum Way {
    /// To the place that is handed in beside it.
    Named,
    /// To the lowest place in IDLE, unless a place holds its identifier.
    Incoming,
    /// To the lowest place in IDLE, unless a place outside IDLE has no identifier.
    Outgoing,
    /// To the place that holds its identifier, else to the one that has none.
    Holder,
    /// To every place that has a row for it.
    Every,
}

use Way::*;

impl Way {
    const ALL: [Way; 5] = [Named, Incoming, Outgoing, Holder, Every];
}

/// Eight records, and the answers of the library on them.
struct Table([Call; PLACES]);

impl Table {
    fn answer(&self, place: u8, event: Event, room: usize) -> u32 {
        let mut table = [0; PLACES * RECORD_LEN];
        for (record, call) in table.chunks_exact_mut(RECORD_LEN).zip(&self.0) {
            record.copy_from_slice(&call.pack());
        }
        let bytes = Bytes::of_event(event);
        let request = Request::of(Function::ConsoleStep, &table, bytes.as_slice(), room, 0)
            .with(place.into());
        split(alone(&request).word).0
    }

    fn fresh() -> Table {
        Table([Call::FRESH; PLACES])
    }

    /// Every place rings, each with an identifier of its own from 1 on.
    fn full() -> Table {
        let mut table = Table::fresh();
        for (at, call) in table.0.iter_mut().enumerate() {
            *call = ringing(at as u16 + 1);
        }
        table
    }

    /// One call that was asked for and has no identifier yet.
    fn awaiting() -> Table {
        let mut table = Table::fresh();
        table.0[0] = Call { state: State::MoCallSetup, address: 7, ..Call::FRESH };
        table
    }
}

fn ringing(i: u16) -> Call {
    Call {
        state: State::MtCallSetup,
        identifier: i,
        address: 7,
        mode: Mode::Simplex,
        ..Call::FRESH
    }
}

fn d_setup(i: u16) -> Event {
    Event::DSetup { i, a: 7, d: Mode::Simplex }
}

/// The answers that tell the ways apart, each found on a table that has nothing else against the event.
struct Numbers {
    place_over: u32,
    held: u32,
    awaited: u32,
    none_idle: u32,
    no_holder: u32,
    no_row: u32,
    no_room: u32,
}

fn numbers(setup_request: Event) -> Numbers {
    Numbers {
        place_over: Table::fresh().answer(PLACES as u8, Event::ReleaseRequest, ROOM),
        held: Table::full().answer(0, d_setup(1), ROOM),
        awaited: Table::awaiting().answer(0, setup_request, ROOM),
        none_idle: Table::full().answer(0, d_setup(100), ROOM),
        no_holder: Table::fresh().answer(0, Event::DRelease { i: 1 }, ROOM),
        no_row: Table::fresh().answer(0, Event::Break, ROOM),
        no_room: Table::full().answer(0, Event::DRelease { i: 1 }, 0),
    }
}

fn way(event: Event, n: &Numbers) -> Way {
    if Table::fresh().answer(PLACES as u8, event, ROOM) == n.place_over {
        return Named;
    }
    match Table::fresh().answer(0, event, ROOM) {
        0 if Table::awaiting().answer(0, event, ROOM) == n.awaited => Outgoing,
        0 => Incoming,
        answer if answer == n.no_holder => Holder,
        answer if answer == n.no_row => Every,
        answer => panic!("{event:?} goes no way that the picture knows: {answer}"),
    }
}

/// The kinds of each way, by rising number.
fn ways(events: &[Event], n: &Numbers) -> BTreeMap<Way, Vec<&'static Kind>> {
    let mut ways: BTreeMap<Way, Vec<&'static Kind>> = BTreeMap::new();
    for kind in EVENTS {
        let of_kind = events.iter().filter(|event| {
            let bytes = Bytes::of_event(**event);
            bytes.as_slice()[2..4] == kind.number.to_le_bytes()
        });
        let found: Vec<Way> = of_kind.map(|&event| way(event, n)).collect();
        let Some(&first) = found.first() else { continue };
        assert!(found.iter().all(|way| *way == first), "{} goes two ways", kind.name);
        ways.entry(first).or_default().push(kind);
    }
    ways
}

// ---- The layout --------------------------------------------------------------------------------

const WIDTH: i32 = 1480;
const HEIGHT: i32 = 770;
const COLUMN: i32 = 264;

fn left(way: Way) -> i32 {
    40 + (COLUMN + 20)
        * Way::ALL.iter().position(|one| *one == way).expect("it is one of them") as i32
}

fn boxed(svg: &mut String, x: i32, y: i32, width: i32, height: i32, title: &str, lines: &[String]) {
    assert!((lines.len() as i32 + 1) * LINE + 16 <= height, "too many lines for the box {title:?}");
    let middle = x + width / 2;
    let _ = writeln!(
        svg,
        "<rect class=\"box\" x=\"{x}\" y=\"{y}\" width=\"{width}\" height=\"{height}\" rx=\"9\"/>\n\
         <text class=\"title\" x=\"{middle}\" y=\"{}\">{title}</text>",
        y + LINE + 4
    );
    for (line, text) in lines.iter().enumerate() {
        let line_y = y + 8 + LINE * (line as i32 + 2);
        let _ = writeln!(svg, "<text class=\"stays\" x=\"{middle}\" y=\"{line_y}\">{text}</text>");
    }
}

fn arrow(svg: &mut String, x: i32, from: i32, to: i32) {
    let _ = writeln!(svg, "<polyline class=\"way\" points=\"{x},{from} {x},{to}\"/>");
}

/// The picture, drawn from the library as it is linked.
pub fn console_svg() -> String {
    let events = alphabet(&Letters::FEW);
    let setup_request = *events
        .iter()
        .find(|event| matches!(event, Event::SetupRequest { .. }))
        .expect("the alphabet has one");
    let n = numbers(setup_request);
    let mut ways = ways(&events, &n);

    let mut svg = open(WIDTH, HEIGHT, "Where an event of a console goes", "draw_console");
    let answers: Vec<String> =
        first_answers().iter().map(|(number, what)| format!("{number} {what}")).collect();
    let before = "What comes back before any place is looked for";
    boxed(&mut svg, 40, 70, WIDTH - 80, 60, before, &[answers.join(" · ")]);

    for way in Way::ALL {
        let x = left(way);
        let kinds = ways.remove(&way).unwrap_or_else(|| panic!("no kind goes {way:?}"));
        let names: Vec<String> = kinds.iter().map(|kind| kind.name.to_owned()).collect();
        arrow(&mut svg, x + COLUMN / 2, 130, 160);
        boxed(&mut svg, x, 160, COLUMN, 290, "", &names);
        let (title, rule) = match way {
            Named => ("the place named", vec![format!("over {}: {}", PLACES - 1, n.place_over)]),
            Incoming => (
                "the lowest IDLE place",
                vec![
                    format!("a place holds its identifier: {}", n.held),
                    format!("no place is IDLE: {}", n.none_idle),
                ],
            ),
            Outgoing => (
                "the lowest IDLE place",
                vec![
                    format!("a call has no identifier yet: {}", n.awaited),
                    format!("no place is IDLE: {}", n.none_idle),
                ],
            ),
            Holder => (
                "the holder of its identifier",
                vec![
                    "else the one outside IDLE without one".to_owned(),
                    format!("neither: {}", n.no_holder),
                ],
            ),
            Every => (
                "every place with a row for it",
                vec![
                    format!("no place has one: {}", n.no_row),
                    format!("no room for all: {}", n.no_room),
                ],
            ),
        };
        arrow(&mut svg, x + COLUMN / 2, 450, 490);
        boxed(&mut svg, x, 490, COLUMN, 90, title, &rule);
        arrow(&mut svg, x + COLUMN / 2, 580, 620);
    }
    assert!(ways.is_empty(), "ways the layout does not have: {ways:?}");

    let one = left(Every) - 20 - 40;
    let step = format!(
        "6 no row in its state · 8 D-INFO while it transmits · {} its messages are longer than what is lent",
        n.no_room
    );
    boxed(
        &mut svg,
        40,
        620,
        one,
        90,
        "the step of that place",
        &[
            step,
            "record 0605 with the place, then its messages; the other seven records stay"
                .to_owned(),
        ],
    );
    boxed(
        &mut svg,
        left(Every),
        620,
        COLUMN,
        90,
        "the step of each",
        &["0605 and its messages, rising".to_owned(), "all of them, or none".to_owned()],
    );
    let _ = writeln!(
        svg,
        "<text class=\"note\" x=\"40\" y=\"740\">The first answer that applies is given. A refusal changes no record and writes no byte. \
         A place that writes nothing has no record 0605.</text>"
    );
    svg += "</svg>\n";
    svg
}

/// What is answered before a place is looked for, in its order, each by an input that has nothing before it against it.
fn first_answers() -> Vec<(u32, &'static str)> {
    let fresh = Table::fresh();
    let mut table = [0; PLACES * RECORD_LEN];
    for (record, call) in table.chunks_exact_mut(RECORD_LEN).zip(&fresh.0) {
        record.copy_from_slice(&call.pack());
    }
    let ask = |table: &[u8], bytes: &[u8]| {
        split(alone(&Request::of(Function::ConsoleStep, table, bytes, ROOM, 0)).word).0
    };
    vec![
        (ask(&table[1..], &[4, 0, 3, 3]), "the table is not sound"),
        (ask(&table, &[5, 0, 3, 3]), "a wrong length"),
        (ask(&table, &[4, 0, 9, 9]), "an unknown kind"),
        (ask(&table, &[6, 0, 5, 1, 0, 0]), "a retired kind"),
        (ask(&table, &[5, 0, 3, 3, 0]), "a wrong body"),
    ]
}
