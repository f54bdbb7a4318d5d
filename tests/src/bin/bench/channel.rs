//! How long one call about a channel question takes: the library beside the account, each turn of the
//! tape on the rooms that it met there.

use crate::rounds::{entry, head, line};
use callcontrol_tests::account::channel::{self, ROOMS_LEN};
use callcontrol_tests::library;
use callcontrol_tests::tape::{channel_tape, ChannelTurn, CHANNEL_OUT_LEN, EVENTS};

type Met = ([u8; ROOMS_LEN], ChannelTurn);

/// The rooms are put back before each call, behind what it writes; that takes each side the same.
fn put_back<'a>(rooms: &[u8], lent: &'a mut [u8]) -> (&'a mut [u8], &'a mut [u8]) {
    let (out, behind) = lent.split_at_mut(CHANNEL_OUT_LEN);
    let held = &mut behind[..ROOMS_LEN];
    held.copy_from_slice(rooms);
    (held, out)
}

fn library((rooms, turn): &Met, lent: &mut [u8]) -> u32 {
    let (rooms, out) = put_back(rooms, lent);
    match *turn {
        ChannelTurn::Ask { number, call, asked } => {
            library::channel::ask(rooms, number, call, asked, out)
        }
        ChannelTurn::Pdu { number, call, result } => {
            library::channel::pdu(rooms, number, call, result, out)
        }
        ChannelTurn::Decide { number, decision } => {
            library::channel::decide(rooms, number, decision, out)
        }
        ChannelTurn::Ended { call } => library::channel::ended(rooms, call, out),
    }
}

fn account((rooms, turn): &Met, lent: &mut [u8]) -> u32 {
    let (rooms, out) = put_back(rooms, lent);
    match *turn {
        ChannelTurn::Ask { number, call, asked } => channel::ask(rooms, number, call, asked, out),
        ChannelTurn::Pdu { number, call, result } => channel::pdu(rooms, number, call, result, out),
        ChannelTurn::Decide { number, decision } => channel::decide(rooms, number, decision, out),
        ChannelTurn::Ended { call } => channel::ended(rooms, call, out),
    }
}

pub fn main() {
    head("channel questions (no account in C)", &["account"]);
    let (taken, times) = entry(
        "channel_fresh",
        &[(); EVENTS],
        [
            |_, lent| library::channel::fresh(&mut lent[..ROOMS_LEN]),
            |_, lent| channel::fresh(&mut lent[..ROOMS_LEN]),
        ],
    );
    assert_eq!(taken, EVENTS, "each call makes rooms");
    line("channel_fresh", EVENTS, taken, times);

    let tape = channel_tape();
    let kinds: [(&str, fn(&ChannelTurn) -> bool); 4] = [
        ("channel_ask", |turn| matches!(turn, ChannelTurn::Ask { .. })),
        ("channel_pdu", |turn| matches!(turn, ChannelTurn::Pdu { .. })),
        ("channel_decide", |turn| matches!(turn, ChannelTurn::Decide { .. })),
        ("channel_ended", |turn| matches!(turn, ChannelTurn::Ended { .. })),
    ];
    for (name, is_it) in kinds {
        let turns: Vec<Met> = tape.iter().copied().filter(|(_, turn)| is_it(turn)).collect();
        let (taken, times) = entry(name, &turns, [library, account]);
        assert!(taken > turns.len() / 2, "{name}: most are taken");
        line(name, turns.len(), taken, times);
    }
    let (taken, times) = entry("the tape", &tape, [library, account]);
    line("all of them, as on the tape", tape.len(), taken, times);
}
