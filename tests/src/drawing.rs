//! The picture of the states: every arrow in it is a step the library has taken, and every step
//! it has taken is in the picture.
//!
//! Where boxes and arrows lie is laid out by hand below; what they say is found by exploring. A
//! way from one box to another that has no place in the layout is an error, not left out.

use crate::account::{Call, Event, Path, State, Timer, RECORD_LEN};
use crate::explore::{alphabet, explore, written, Letters};
use crate::sidebyside::Queue;
use std::collections::BTreeMap;
use std::fmt::Write;

/// A state, with CALL-ACTIVE taken apart by its path.
#[derive(Clone, Copy, Debug, PartialEq, Eq, PartialOrd, Ord)]
pub enum Situation {
    Idle,
    MoCallSetup,
    MtCallSetup,
    Up,
    Broken,
    Restoring,
    Wait,
    CallDisconnect,
}

use Situation::*;

impl Situation {
    const ALL: [Situation; 8] =
        [Idle, MoCallSetup, MtCallSetup, Up, Broken, Restoring, Wait, CallDisconnect];

    fn of(record: &[u8; RECORD_LEN]) -> Situation {
        let state = State::from_number(record[0]).expect("a state");
        let path = Path::from_number(record[10]).expect("a path");
        match (state, path) {
            (State::Idle, _) => Idle,
            (State::MoCallSetup, _) => MoCallSetup,
            (State::MtCallSetup, _) => MtCallSetup,
            (State::CallActive, Path::Up) => Up,
            (State::CallActive, Path::Broken) => Broken,
            (State::CallActive, Path::Restoring) => Restoring,
            (State::Wait, _) => Wait,
            (State::CallDisconnect, _) => CallDisconnect,
        }
    }

    fn title(self) -> &'static str {
        match self {
            Idle => "IDLE",
            MoCallSetup => "MO-CALL-SETUP",
            MtCallSetup => "MT-CALL-SETUP",
            Up => "CALL-ACTIVE, path up",
            Broken => "CALL-ACTIVE, broken",
            Restoring => "CALL-ACTIVE, restoring",
            Wait => "WAIT",
            CallDisconnect => "CALL-DISCONNECT",
        }
    }
}

/// What an event is called in the picture, after its place by rising kind.
fn label(event: Event) -> (u32, String) {
    let (place, name) = match event {
        Event::SetupRequest { .. } => (1, "SETUP request"),
        Event::SetupResponse => (2, "SETUP response"),
        Event::ReleaseRequest => (3, "RELEASE request"),
        Event::TxRequest { k: true } => (4, "TX demand"),
        Event::TxRequest { k: false } => (5, "TX cease"),
        Event::DCallProceeding { .. } => (7, "D-CALL PROCEEDING"),
        Event::DAlert { .. } => (8, "D-ALERT"),
        Event::DConnect { .. } => (9, "D-CONNECT"),
        Event::DConnectAcknowledge { .. } => (10, "D-CONNECT ACKNOWLEDGE"),
        Event::DSetup { .. } => (11, "D-SETUP"),
        Event::DInfo { .. } => (12, "D-INFO in plane 2 or 4"),
        Event::DTxGranted { .. } => (13, "D-TX GRANTED"),
        Event::DTxCeased { .. } => (14, "D-TX CEASED"),
        Event::DTxInterrupt { .. } => (15, "D-TX INTERRUPT"),
        Event::DTxWait { .. } => (16, "D-TX WAIT"),
        Event::DTxContinue { .. } => (17, "D-TX CONTINUE"),
        Event::DCallRestore { .. } => (18, "D-CALL RESTORE"),
        Event::DDisconnect { .. } => (19, "D-DISCONNECT"),
        Event::DRelease { .. } => (20, "D-RELEASE"),
        Event::ReportSent => (21, "REPORT sent"),
        Event::ReportFailed => (22, "REPORT failed"),
        Event::Break => (23, "BREAK"),
        Event::Resume => (24, "RESUME"),
        Event::Expiry { n } => return (25 + n as u32, format!("T{} expiry", n.number())),
    };
    debug_assert!(place < 25 && Timer::ALL.len() == 7);
    (place, name.to_owned())
}

/// Which way leads where, and whether records that were sent, or not sent, went it.
type Ways = BTreeMap<(Situation, (u32, String)), BTreeMap<Situation, [bool; 2]>>;

/// Explores the library as the exhaustive test does.
fn ways() -> Ways {
    let events = written(alphabet(&Letters::FEW));
    let mut ways = Ways::new();
    let mut queue = Queue::new();
    explore(Call::FRESH.pack(), &events, |record, event, bytes| {
        let step = queue.step(record, bytes, 64, 0);
        if step.answer != 0 {
            return None;
        }
        let next = step.next();
        let to = ways.entry((Situation::of(record), label(event))).or_default();
        to.entry(Situation::of(&next)).or_default()[record[9] as usize] = true;
        Some(next)
    });
    queue.finish();
    ways
}

/// The labels from one situation to another, by rising kind. An event that leads to two places
/// says which of them it means, where `sent` decides.
fn arrows(ways: &Ways) -> BTreeMap<(Situation, Situation), Vec<String>> {
    let mut arrows: BTreeMap<_, Vec<String>> = BTreeMap::new();
    for ((from, (_, name)), to_all) in ways {
        for (to, sent) in to_all {
            let text = match sent {
                [true, false] if to_all.len() > 1 => format!("{name} (not sent)"),
                [false, true] if to_all.len() > 1 => format!("{name} (sent)"),
                _ => name.clone(),
            };
            arrows.entry((*from, *to)).or_default().push(text);
        }
    }
    arrows
}

// ---- The layout --------------------------------------------------------------------------------

const WIDTH: i32 = 1480;
const HEIGHT: i32 = 1150;
pub(crate) const LINE: i32 = 19;

/// Middle and size of a box.
struct Place {
    x: i32,
    y: i32,
    width: i32,
    height: i32,
}

fn place(situation: Situation) -> Place {
    let (x, y, width, height) = match situation {
        Idle => (740, 110, 200, 60),
        MoCallSetup => (330, 285, 270, 110),
        MtCallSetup => (1150, 285, 270, 72),
        Up => (740, 565, 290, 206),
        Broken => (740, 820, 290, 92),
        Restoring => (1150, 820, 250, 60),
        Wait => (330, 565, 200, 60),
        CallDisconnect => (740, 1030, 290, 72),
    };
    Place { x, y, width, height }
}

/// A frame around boxes; what all of them have in common is drawn once, from the frame.
struct Frame {
    caption: &'static str,
    members: &'static [Situation],
    to: Situation,
    left: i32,
    top: i32,
    right: i32,
    bottom: i32,
    route: Route,
}

/// The corners of an arrow, and where its label stands.
struct Route {
    corners: &'static [(i32, i32)],
    label: (i32, i32),
    anchor: &'static str,
}

const FRAMES: [Frame; 2] = [
    Frame {
        caption: "in a call",
        members: &[MoCallSetup, MtCallSetup, Up, Broken, Restoring, Wait, CallDisconnect],
        to: Idle,
        left: 85,
        top: 195,
        right: 1400,
        bottom: 1090,
        route: Route { corners: &[(790, 195), (790, 140)], label: (804, 172), anchor: "start" },
    },
    Frame {
        caption: "call set up",
        members: &[Up, Broken, Restoring, Wait],
        to: CallDisconnect,
        left: 190,
        top: 420,
        right: 1310,
        bottom: 915,
        route: Route { corners: &[(740, 915), (740, 994)], label: (754, 953), anchor: "start" },
    },
];

#[rustfmt::skip]
const ROUTES: &[((Situation, Situation), Route)] = &[
    ((Idle, MoCallSetup), Route {
        corners: &[(640, 122), (330, 122), (330, 230)], label: (485, 141), anchor: "middle" }),
    ((Idle, MtCallSetup), Route {
        corners: &[(840, 110), (1150, 110), (1150, 249)], label: (995, 101), anchor: "middle" }),
    ((MoCallSetup, Idle), Route {
        corners: &[(465, 268), (690, 268), (690, 140)], label: (478, 259), anchor: "start" }),
    ((MoCallSetup, Up), Route {
        corners: &[(465, 315), (690, 315), (690, 462)], label: (478, 307), anchor: "start" }),
    ((MtCallSetup, Up), Route {
        corners: &[(1015, 285), (790, 285), (790, 462)], label: (902, 276), anchor: "middle" }),
    ((MoCallSetup, CallDisconnect), Route {
        corners: &[(195, 285), (135, 285), (135, 1018), (595, 1018)], label: (365, 1009), anchor: "middle" }),
    ((MtCallSetup, CallDisconnect), Route {
        corners: &[(1285, 285), (1355, 285), (1355, 1045), (885, 1045)], label: (1120, 1065), anchor: "middle" }),
    ((Up, Wait), Route {
        corners: &[(595, 550), (430, 550)], label: (512, 541), anchor: "middle" }),
    ((Wait, Up), Route {
        corners: &[(430, 580), (595, 580)], label: (512, 600), anchor: "middle" }),
    ((Up, Broken), Route {
        corners: &[(740, 668), (740, 774)], label: (754, 726), anchor: "start" }),
    ((Wait, Broken), Route {
        corners: &[(330, 595), (330, 820), (595, 820)], label: (344, 726), anchor: "start" }),
    ((Broken, Restoring), Route {
        corners: &[(885, 805), (1025, 805)], label: (955, 796), anchor: "middle" }),
    ((Restoring, Broken), Route {
        corners: &[(1025, 835), (885, 835)], label: (955, 855), anchor: "middle" }),
    ((Restoring, Up), Route {
        corners: &[(1150, 790), (1150, 565), (885, 565)], label: (1017, 556), anchor: "middle" }),
    ((Restoring, CallDisconnect), Route {
        corners: &[(1150, 850), (1150, 1015), (885, 1015)], label: (1017, 1006), anchor: "middle" }),
    ((CallDisconnect, Idle), Route {
        corners: &[(595, 1045), (40, 1045), (40, 96), (640, 96)], label: (345, 87), anchor: "middle" }),
];

// ---- The drawing -------------------------------------------------------------------------------

const STYLE: &str = "\
  text { font-family: 'DejaVu Sans', Verdana, Helvetica, sans-serif; font-size: 13px; fill: #1d2733; }
  .heading { font-size: 20px; font-weight: bold; }
  .title { font-size: 15px; font-weight: bold; text-anchor: middle; }
  .stays { fill: #3d5168; text-anchor: middle; }
  .caption { font-style: italic; fill: #7a6a45; }
  .note { fill: #55626f; }
  .box { fill: #eef4fb; stroke: #2f5c8f; stroke-width: 2; }
  .frame { fill: none; stroke: #b59a5b; stroke-width: 1.5; stroke-dasharray: 7 5; }
  .way { fill: none; stroke: #33475b; stroke-width: 1.6; marker-end: url(#head); }
  .common { fill: none; stroke: #9a7b2f; stroke-width: 2.2; marker-end: url(#common-head); }
";

/// The head of a picture, up to its heading.
pub(crate) fn open(width: i32, height: i32, heading: &str, program: &str) -> String {
    let mut svg = String::new();
    let _ = writeln!(
        svg,
        "<svg xmlns=\"http://www.w3.org/2000/svg\" width=\"{width}\" height=\"{height}\" \
         viewBox=\"0 0 {width} {height}\">\n\
         <title>{heading}</title>\n\
         <!-- Drawn from the library by tests/src/bin/{program}.rs; do not edit. -->\n\
         <style>\n{STYLE}</style>\n\
         <defs>"
    );
    for (id, colour) in [("head", "#33475b"), ("common-head", "#9a7b2f")] {
        let _ = writeln!(
            svg,
            "  <marker id=\"{id}\" viewBox=\"0 0 10 10\" refX=\"9.5\" refY=\"5\" markerWidth=\"10\" \
             markerHeight=\"10\" markerUnits=\"userSpaceOnUse\" orient=\"auto\">\
             <path d=\"M0,0 L10,5 L0,10 z\" fill=\"{colour}\"/></marker>"
        );
    }
    svg += "</defs>\n";
    let _ = writeln!(svg, "<rect width=\"{width}\" height=\"{height}\" fill=\"#ffffff\"/>");
    let _ = writeln!(svg, "<text class=\"heading\" x=\"40\" y=\"44\">{heading}</text>");
    svg
}

/// The picture, drawn from the library as it is linked.
pub fn states_svg() -> String {
    let ways = ways();
    let mut arrows = arrows(&ways);

    let mut svg = open(WIDTH, HEIGHT, "The states of one call", "draw_states");

    for frame in &FRAMES {
        let common = take_common(&mut arrows, frame);
        let _ = writeln!(
            svg,
            "<rect class=\"frame\" x=\"{}\" y=\"{}\" width=\"{}\" height=\"{}\" rx=\"14\"/>\n\
             <text class=\"caption\" x=\"{}\" y=\"{}\">{}</text>",
            frame.left,
            frame.top,
            frame.right - frame.left,
            frame.bottom - frame.top,
            frame.left + 14,
            frame.top + 21,
            frame.caption
        );
        assert!(!common.is_empty(), "nothing in common for the frame {:?}", frame.caption);
        draw_route(&mut svg, "common", &frame.route, &[common.join(", ")]);
    }

    for situation in Situation::ALL {
        let stays = arrows.remove(&(situation, situation)).unwrap_or_default();
        draw_box(&mut svg, situation, &stays);
    }

    for (way, route) in ROUTES {
        let labels = arrows
            .remove(way)
            .unwrap_or_else(|| panic!("the library has no way {way:?}, the layout has"));
        // Next to a box there is room in height, elsewhere in width.
        let lines = if *way == (MoCallSetup, Idle) { labels } else { vec![labels.join(", ")] };
        draw_route(&mut svg, "way", route, &lines);
    }
    assert!(arrows.is_empty(), "ways the layout does not have: {arrows:?}");

    let _ = writeln!(
        svg,
        "<text class=\"note\" x=\"85\" y=\"1124\">Inside a box: events that are taken there and \
         lead nowhere else. From a dashed frame: events that every box inside it has in common. \
         All other events are refused.</text>"
    );
    svg += "</svg>\n";
    svg
}

/// The labels that every member of the frame has on its way out; they are drawn once.
fn take_common(
    arrows: &mut BTreeMap<(Situation, Situation), Vec<String>>,
    frame: &Frame,
) -> Vec<String> {
    let of = |arrows: &BTreeMap<_, Vec<String>>, member| {
        arrows.get(&(member, frame.to)).cloned().unwrap_or_default()
    };
    let mut common = of(arrows, frame.members[0]);
    for &member in frame.members {
        let labels = of(arrows, member);
        common.retain(|label| labels.contains(label));
    }
    for &member in frame.members {
        if let Some(labels) = arrows.get_mut(&(member, frame.to)) {
            labels.retain(|label| !common.contains(label));
            if labels.is_empty() {
                arrows.remove(&(member, frame.to));
            }
        }
    }
    common
}

fn draw_box(svg: &mut String, situation: Situation, stays: &[String]) {
    let Place { x, y, width, height } = place(situation);
    let lines = stays.len() as i32;
    assert!(lines * LINE + 40 <= height, "the box {situation:?} is too small for {lines} lines");
    let _ = writeln!(
        svg,
        "<rect class=\"box\" x=\"{}\" y=\"{}\" width=\"{width}\" height=\"{height}\" rx=\"9\"/>",
        x - width / 2,
        y - height / 2
    );
    let title_y = y - lines * LINE / 2 + 5;
    let _ = writeln!(
        svg,
        "<text class=\"title\" x=\"{x}\" y=\"{title_y}\">{}</text>",
        situation.title()
    );
    for (line, text) in stays.iter().enumerate() {
        let line_y = title_y + 3 + LINE * (line as i32 + 1);
        let _ = writeln!(svg, "<text class=\"stays\" x=\"{x}\" y=\"{line_y}\">{text}</text>");
    }
}

/// Lines of the label end at its place, so that they grow upwards, away from the arrow.
fn draw_route(svg: &mut String, class: &str, route: &Route, lines: &[String]) {
    let corners: Vec<String> = route.corners.iter().map(|(x, y)| format!("{x},{y}")).collect();
    let _ = writeln!(svg, "<polyline class=\"{class}\" points=\"{}\"/>", corners.join(" "));
    let (x, last_y) = route.label;
    for (line, text) in lines.iter().enumerate() {
        let y = last_y - LINE * (lines.len() - 1 - line) as i32;
        let _ = writeln!(
            svg,
            "<text x=\"{x}\" y=\"{y}\" text-anchor=\"{}\">{text}</text>",
            route.anchor
        );
    }
}
