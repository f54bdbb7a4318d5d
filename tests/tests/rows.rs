//! Every row of the paper's steps, one by one and written out by hand: from this record, this
//! event gives that record and writes these messages, in this order.
//!
//! Nothing here asks the account for an answer; only its names for records and messages are used.

use callcontrol_tests::account::{
    Call, Cause, Event, Grant, Message, Mode, Path, Plane, State, Timer,
};
use callcontrol_tests::generate::Bytes;
use callcontrol_tests::library;

use Event::*;
use Grant::*;
use Message::*;
use Mode::*;
use Timer::*;

const I: u16 = 21;
const A: u32 = 7;

/// A record with these timers running and no others.
fn with(call: Call, running: &[Timer]) -> Call {
    let mut timers = [false; 7];
    for &timer in running {
        timers[timer as usize] = true;
    }
    Call { timers, ..call }
}

/// MO-CALL-SETUP as SETUP request leaves it.
fn mo() -> Call {
    with(Call { state: State::MoCallSetup, address: A, ..Call::FRESH }, &[T303])
}

/// MO-CALL-SETUP after D-CALL PROCEEDING.
fn mo_proceeding() -> Call {
    with(Call { identifier: I, sent: true, ..mo() }, &[T302])
}

/// MT-CALL-SETUP as D-SETUP leaves it.
fn mt() -> Call {
    Call { state: State::MtCallSetup, identifier: I, address: A, ..Call::FRESH }
}

/// CALL-ACTIVE, path up, simplex, sent, T310 running with code 3.
fn active(plane: Plane) -> Call {
    let call = Call {
        state: State::CallActive,
        identifier: I,
        address: A,
        sent: true,
        plane,
        t310_code: 3,
        ..Call::FRESH
    };
    if plane == Plane::Transmit {
        with(call, &[T310, T311])
    } else {
        with(call, &[T310])
    }
}

/// With code 0, no limit: T310 does not run.
fn unlimited(call: Call) -> Call {
    let mut timers = call.timers;
    timers[T310 as usize] = false;
    Call { t310_code: 0, timers, ..call }
}

fn duplex(call: Call) -> Call {
    Call { mode: Duplex, ..call }
}

fn asked(call: Call) -> Call {
    Call { asked: true, ..call }
}

fn broken() -> Call {
    Call { path: Path::Broken, ..active(Plane::Off) }
}

fn restoring() -> Call {
    with(Call { path: Path::Restoring, ..active(Plane::Off) }, &[T306, T310])
}

fn wait(kept: Plane) -> Call {
    Call { state: State::Wait, kept, ..active(Plane::Off) }
}

/// CALL-DISCONNECT as a release of `active` leaves it.
fn disconnect() -> Call {
    let call = Call { state: State::CallDisconnect, sent: false, ..active(Plane::Off) };
    with(call, &[T308])
}

const OFF: Message = Configure { p: Plane::Off };

fn start(n: Timer) -> Message {
    Start { n, o: 0 }
}

fn stop(n: Timer) -> Message {
    Stop { n }
}

fn x(x: u8) -> Message {
    TxIndication { x }
}

#[track_caller]
fn row(given: Call, event: Event, gives: Call, writes: &[Message]) {
    let mut expected = Vec::new();
    for &message in writes {
        expected.extend_from_slice(Bytes::of_message(message).as_slice());
    }
    let mut record = given.pack();
    let mut out = [0xEE; 64];
    let bytes = Bytes::of_event(event);
    let word = library::step(&mut record, bytes.as_slice(), &mut out);
    assert_eq!(library::split(word), (0, expected.len() as u32), "{event:?} at {given:?}");
    assert_eq!(out[..expected.len()], expected, "{event:?} at {given:?} writes");
    assert!(out[expected.len()..].iter().all(|&byte| byte == 0xEE));
    assert_eq!(Call::unpack(&record), Some(gives), "{event:?} at {given:?} gives");
}

#[track_caller]
fn refused(answer: u32, given: Call, event: Event) {
    let mut record = given.pack();
    let mut out = [0xEE; 64];
    let bytes = Bytes::of_event(event);
    let word = library::step(&mut record, bytes.as_slice(), &mut out);
    assert_eq!(library::split(word), (answer, 0), "{event:?} at {given:?}");
    assert_eq!(record, given.pack());
    assert_eq!(out, [0xEE; 64]);
}

#[track_caller]
fn no_row(given: Call, event: Event) {
    refused(6, given, event);
}

#[test]
fn idle() {
    let fresh = Call::FRESH;
    row(
        fresh,
        SetupRequest { a: A, d: Simplex, q: false, s: None },
        mo(),
        &[USetup { a: A, d: Simplex, q: false, s: None }, start(T303)],
    );
    row(
        fresh,
        SetupRequest { a: 16_777_215, d: Duplex, q: true, s: None },
        duplex(asked(Call { address: 16_777_215, ..mo() })),
        &[USetup { a: 16_777_215, d: Duplex, q: true, s: None }, start(T303)],
    );
    row(
        fresh,
        DSetup { i: I, a: A, d: Simplex },
        mt(),
        &[SetupIndication { i: I, a: A, d: Simplex }],
    );
    row(
        fresh,
        DSetup { i: 1, a: 0, d: Duplex },
        duplex(Call { identifier: 1, address: 0, ..mt() }),
        &[SetupIndication { i: 1, a: 0, d: Duplex }],
    );
    for event in [SetupResponse, ReleaseRequest, ReportSent, ReportFailed, Break, Resume] {
        no_row(fresh, event);
    }
    for &n in Timer::ALL {
        no_row(fresh, Expiry { n });
    }
    no_row(fresh, DDisconnect { i: 0 });
    no_row(fresh, DRelease { i: 0 });
    refused(5, fresh, DDisconnect { i: 1 });
    refused(5, fresh, DRelease { i: 1 });
    refused(5, fresh, DCallProceeding { i: 1 });
    refused(5, fresh, DCallRestore { i: 16383, g: Granted, r: false, o: None });
}

#[test]
fn mo_call_setup() {
    row(mo(), ReportSent, Call { sent: true, ..mo() }, &[]);
    no_row(mo_proceeding(), ReportSent);
    row(
        mo(),
        ReportFailed,
        Call::FRESH,
        &[stop(T303), ReleaseIndication { c: Cause::TransferFailed }],
    );
    no_row(mo_proceeding(), ReportFailed);
    row(mo(), DCallProceeding { i: I }, mo_proceeding(), &[stop(T303), start(T302), Proceed]);
    row(mo(), DAlert { i: I }, mo_proceeding(), &[stop(T303), start(T302), Alert]);
    row(mo_proceeding(), DCallProceeding { i: I }, mo_proceeding(), &[start(T302), Proceed]);
    row(mo_proceeding(), DAlert { i: I }, mo_proceeding(), &[start(T302), Alert]);
    refused(5, mo_proceeding(), DAlert { i: I + 1 });

    let connect = |g, d, o| DConnect { i: I, g, d, o, s: None };
    let t310 = |o| Start { n: T310, o };
    let confirm = |g| SetupConfirm { i: I, g };
    row(
        mo(),
        connect(Granted, Simplex, 3),
        active(Plane::Transmit),
        &[stop(T303), t310(3), start(T311), Configure { p: Plane::Transmit }, confirm(Granted)],
    );
    row(
        asked(mo_proceeding()),
        connect(Granted, Duplex, 3),
        duplex(active(Plane::TransmitAndReceive)),
        &[stop(T302), t310(3), Configure { p: Plane::TransmitAndReceive }, confirm(Granted)],
    );
    row(
        asked(duplex(mo_proceeding())),
        connect(NotGranted, Simplex, 15),
        Call { t310_code: 15, ..active(Plane::Off) },
        &[stop(T302), t310(15), OFF, confirm(NotGranted)],
    );
    row(
        asked(mo()),
        connect(Queued, Simplex, 0),
        asked(unlimited(active(Plane::Off))),
        &[stop(T303), OFF, confirm(Queued)],
    );
    row(
        asked(mo()),
        connect(GrantedToAnother, Simplex, 3),
        asked(active(Plane::Receive)),
        &[stop(T303), t310(3), Configure { p: Plane::Receive }, confirm(GrantedToAnother)],
    );

    row(mo(), ReleaseRequest, Call::FRESH, &[stop(T303), Cancel, ReleaseConfirm]);
    // Sent, no identifier yet: 0 is the dummy.
    let sent = Call { sent: true, ..asked(mo()) };
    let given_up =
        with(Call { state: State::CallDisconnect, sent: false, asked: false, ..mo() }, &[T308]);
    row(
        sent,
        ReleaseRequest,
        given_up,
        &[stop(T303), UDisconnect { i: 0, c: Cause::User }, start(T308), OFF],
    );
    let timed_out = [UDisconnect { i: 0, c: Cause::Timer }, start(T308), OFF, BY_TIMER];
    row(sent, Expiry { n: T303 }, given_up, &timed_out);
    row(mo(), Expiry { n: T303 }, given_up, &timed_out);
    row(
        mo_proceeding(),
        Expiry { n: T302 },
        Call { identifier: I, ..given_up },
        &[UDisconnect { i: I, c: Cause::Timer }, start(T308), OFF, BY_TIMER],
    );
    no_row(mo(), Expiry { n: T302 });
    no_row(mo(), DConnectAcknowledge { i: I, g: Granted, o: 0 });
    no_row(mo(), DSetup { i: I, a: A, d: Simplex });
    no_row(mo(), SetupRequest { a: A, d: Simplex, q: false, s: None });
    no_row(mo(), Break);

    // 0 is held: every i agrees.
    row(mo(), DDisconnect { i: 0 }, Call::FRESH, &[stop(T303), URelease { i: 0 }, OFF, BY_NETWORK]);
    row(
        mo(),
        DDisconnect { i: 99 },
        Call::FRESH,
        &[stop(T303), URelease { i: 99 }, OFF, BY_NETWORK],
    );
    row(sent, DRelease { i: 99 }, Call::FRESH, &[stop(T303), OFF, BY_NETWORK]);
    refused(5, mo_proceeding(), DRelease { i: 0 });
}

const BY_TIMER: Message = ReleaseIndication { c: Cause::Timer };
const BY_NETWORK: Message = ReleaseIndication { c: Cause::Network };

#[test]
fn mt_call_setup() {
    let answered = with(mt(), &[T301]);
    row(mt(), SetupResponse, answered, &[UConnect { i: I }, start(T301)]);
    no_row(answered, SetupResponse);
    no_row(mt(), DConnectAcknowledge { i: I, g: Granted, o: 3 });
    refused(5, mt(), DConnectAcknowledge { i: I - 1, g: Granted, o: 3 });

    let acknowledge = |g, o| DConnectAcknowledge { i: I, g, o };
    let t310 = |o| Start { n: T310, o };
    let not_sent = |call| Call { sent: false, ..call };
    row(
        answered,
        acknowledge(Granted, 3),
        not_sent(active(Plane::Transmit)),
        &[
            stop(T301),
            t310(3),
            start(T311),
            Configure { p: Plane::Transmit },
            Complete { g: Granted },
        ],
    );
    row(
        duplex(answered),
        acknowledge(Granted, 0),
        not_sent(duplex(unlimited(active(Plane::TransmitAndReceive)))),
        &[stop(T301), Configure { p: Plane::TransmitAndReceive }, Complete { g: Granted }],
    );
    row(
        answered,
        acknowledge(GrantedToAnother, 3),
        not_sent(active(Plane::Receive)),
        &[stop(T301), t310(3), Configure { p: Plane::Receive }, Complete { g: GrantedToAnother }],
    );
    for g in [NotGranted, Queued] {
        row(
            answered,
            acknowledge(g, 3),
            not_sent(active(Plane::Off)),
            &[stop(T301), t310(3), OFF, Complete { g }],
        );
    }

    let given_up = with(Call { state: State::CallDisconnect, ..mt() }, &[T308]);
    row(mt(), ReleaseRequest, given_up, &[UDisconnect { i: I, c: Cause::User }, start(T308), OFF]);
    row(
        answered,
        ReleaseRequest,
        given_up,
        &[stop(T301), UDisconnect { i: I, c: Cause::User }, start(T308), OFF],
    );
    row(
        answered,
        Expiry { n: T301 },
        given_up,
        &[UDisconnect { i: I, c: Cause::Timer }, start(T308), OFF, BY_TIMER],
    );
    row(mt(), DDisconnect { i: I }, Call::FRESH, &[URelease { i: I }, OFF, BY_NETWORK]);
    row(answered, DRelease { i: I }, Call::FRESH, &[stop(T301), OFF, BY_NETWORK]);
    no_row(mt(), ReportSent);
    no_row(mt(), ReportFailed);
}

#[test]
fn call_active_path_up_by_the_user() {
    let demand = TxRequest { k: true };
    let cease = TxRequest { k: false };
    for plane in [Plane::Receive, Plane::Off] {
        row(active(plane), demand, asked(active(plane)), &[UTxDemand { i: I }]);
        no_row(asked(active(plane)), demand);
        row(asked(active(plane)), cease, active(plane), &[UTxCeased { i: I }]);
        no_row(active(plane), cease);
    }
    no_row(active(Plane::Transmit), demand);
    let both = duplex(active(Plane::TransmitAndReceive));
    no_row(both, demand);
    no_row(both, cease);
    row(asked(both), cease, both, &[UTxCeased { i: I }]);
    row(active(Plane::Transmit), cease, active(Plane::Off), &[stop(T311), UTxCeased { i: I }, OFF]);
    // Out of reach: plane 1 comes first, and its row does not speak of asked.
    row(
        asked(active(Plane::Transmit)),
        cease,
        asked(active(Plane::Off)),
        &[stop(T311), UTxCeased { i: I }, OFF],
    );
    row(
        active(Plane::Transmit),
        Expiry { n: T311 },
        active(Plane::Off),
        &[UTxCeased { i: I }, OFF],
    );
    no_row(active(Plane::Off), Expiry { n: T311 });
    no_row(active(Plane::Off), SetupResponse);
    no_row(active(Plane::Off), ReportSent);
    no_row(active(Plane::Off), ReportFailed);
    no_row(active(Plane::Off), Resume);
}

/// Code 0 is no limit: where a row would start T310 with it, T310 stops if it runs, and no START is
/// written. A held 0 counts too.
#[test]
fn t310_without_a_limit() {
    let info = |r, o| DInfo { i: I, r, o, d: Simplex, s: None };
    for &plane in &[Plane::Receive, Plane::Off] {
        let again = [Configure { p: plane }, ModifyIndication { d: Simplex, s: 1 }];
        let stopping = [&[stop(T310)], &again[..]].concat();
        let starting = [&[Start { n: T310, o: 9 }], &again[..]].concat();
        let (limited, unlimited) = (active(plane), unlimited(active(plane)));
        row(limited, info(true, Some(0)), unlimited, &stopping);
        row(limited, info(false, Some(0)), limited, &again);
        row(unlimited, info(true, Some(0)), unlimited, &again);
        row(unlimited, info(true, None), unlimited, &again);
        row(unlimited, info(false, Some(9)), unlimited, &again);
        row(unlimited, info(true, Some(9)), Call { t310_code: 9, ..limited }, &starting);
        // Sound and out of reach: T310 runs with a held 0.
        row(Call { t310_code: 0, ..limited }, info(true, None), unlimited, &stopping);
    }
    let restore = |r, o| DCallRestore { i: I, g: NotGranted, r, o };
    let (limited, unlimited_off) = (restoring(), unlimited(active(Plane::Off)));
    let stops = [stop(T306), stop(T310), x(1)];
    row(limited, restore(true, Some(0)), unlimited_off, &stops);
    row(unlimited(limited), restore(true, None), unlimited_off, &[stop(T306), x(1)]);
    row(unlimited(limited), restore(false, Some(9)), unlimited_off, &[stop(T306), x(1)]);
    row(
        unlimited(limited),
        restore(true, Some(9)),
        Call { t310_code: 9, ..active(Plane::Off) },
        &[stop(T306), Start { n: T310, o: 9 }, x(1)],
    );
    // Sound and out of reach: T310 runs before the call is connected.
    row(
        with(mo(), &[T303, T310]),
        DConnect { i: I, g: NotGranted, d: Simplex, o: 0, s: None },
        unlimited_off,
        &[stop(T303), stop(T310), OFF, SetupConfirm { i: I, g: NotGranted }],
    );
    row(
        with(mt(), &[T301, T310]),
        DConnectAcknowledge { i: I, g: NotGranted, o: 0 },
        Call { sent: false, ..unlimited_off },
        &[stop(T301), stop(T310), OFF, Complete { g: NotGranted }],
    );
    // What does not run does not expire.
    no_row(unlimited_off, Expiry { n: T310 });
}

#[test]
fn d_info() {
    let info = |r, o, d| DInfo { i: I, r, o, d, s: None };
    for &plane in &[Plane::Receive, Plane::Off] {
        let call = active(plane);
        let again = Configure { p: plane };
        // The mode stays: the plane is told again.
        row(
            call,
            info(false, None, Simplex),
            call,
            &[again, ModifyIndication { d: Simplex, s: 1 }],
        );
        row(
            call,
            info(false, Some(9), Simplex),
            call,
            &[again, ModifyIndication { d: Simplex, s: 1 }],
        );
        row(
            call,
            info(true, Some(9), Simplex),
            Call { t310_code: 9, ..call },
            &[Start { n: T310, o: 9 }, again, ModifyIndication { d: Simplex, s: 1 }],
        );
        row(
            call,
            info(true, None, Simplex),
            call,
            &[Start { n: T310, o: 3 }, again, ModifyIndication { d: Simplex, s: 1 }],
        );
    }
    // The mode changes: off.
    row(
        active(Plane::Receive),
        info(true, Some(0), Duplex),
        duplex(unlimited(active(Plane::Off))),
        &[stop(T310), OFF, ModifyIndication { d: Duplex, s: 1 }],
    );
    row(
        duplex(active(Plane::Receive)),
        info(false, Some(0), Simplex),
        active(Plane::Off),
        &[OFF, ModifyIndication { d: Simplex, s: 1 }],
    );
    no_row(broken(), info(false, None, Simplex));
    no_row(restoring(), info(false, None, Simplex));
    no_row(wait(Plane::Off), info(false, None, Simplex));
}

/// MODIFY request, 0105, is retired: 9 in every state, whatever its body, before 4 and before 7, and
/// after 1 and 2; the call is unchanged.
#[test]
fn modify_request_is_retired() {
    let calls = [
        Call::FRESH,
        mo(),
        mo_proceeding(),
        mt(),
        active(Plane::Off),
        active(Plane::Transmit),
        duplex(active(Plane::TransmitAndReceive)),
        broken(),
        restoring(),
        wait(Plane::Receive),
        disconnect(),
    ];
    for call in calls {
        for body in [&[][..], &[0], &[1], &[2], &[255], &[1, 0], &[0; 60]] {
            let event = [&[4 + body.len() as u8, 0, 0x05, 0x01], body].concat();
            let mut record = call.pack();
            for room in [0, 32] {
                let mut out = vec![0xEE; room];
                let word = library::step(&mut record, &event, &mut out);
                assert_eq!(word, 9 << 24, "{body:?} at {call:?}");
                assert_eq!(record, call.pack());
                assert!(out.iter().all(|&byte| byte == 0xEE));
            }
            // 2 and 1 come before it.
            let mut longer = event.clone();
            longer.push(0);
            assert_eq!(library::step(&mut record, &longer, &mut []), 2 << 24);
            record[11] = 0;
            assert_eq!(library::step(&mut record, &event, &mut []), 1 << 24);
        }
    }
}

/// The slots: SETUP request, D-CONNECT and D-INFO store those that they carry and else keep the held
/// number; U-SETUP carries them when the request did, MODIFY indication always.
#[test]
fn slots() {
    let held = |call: Call, slots| Call { slots, ..call };
    for s in 1..=4 {
        row(
            Call::FRESH,
            SetupRequest { a: A, d: Simplex, q: false, s: Some(s) },
            held(mo(), s),
            &[USetup { a: A, d: Simplex, q: false, s: Some(s) }, start(T303)],
        );
        // The held number of a fresh record is 1, and a U-SETUP without slots does not say so.
        for held_before in 1..=4 {
            let connect = |s| DConnect { i: I, g: NotGranted, d: Simplex, o: 3, s };
            let confirm =
                [stop(T303), Start { n: T310, o: 3 }, OFF, SetupConfirm { i: I, g: NotGranted }];
            let (set_up, connected) = (held(mo(), held_before), active(Plane::Off));
            row(set_up, connect(Some(s)), held(connected, s), &confirm);
            row(set_up, connect(None), held(connected, held_before), &confirm);

            let info = |d, s| DInfo { i: I, r: false, o: None, d, s };
            for &plane in &[Plane::Receive, Plane::Off] {
                let call = held(active(plane), held_before);
                let again = Configure { p: plane };
                // The slots alone, changed or not: the present plane again.
                row(
                    call,
                    info(Simplex, Some(s)),
                    held(call, s),
                    &[again, ModifyIndication { d: Simplex, s }],
                );
                row(
                    call,
                    info(Simplex, None),
                    call,
                    &[again, ModifyIndication { d: Simplex, s: held_before }],
                );
                // With the mode: off.
                row(
                    call,
                    info(Duplex, Some(s)),
                    held(duplex(active(Plane::Off)), s),
                    &[OFF, ModifyIndication { d: Duplex, s }],
                );
                row(
                    call,
                    info(Duplex, None),
                    held(duplex(active(Plane::Off)), held_before),
                    &[OFF, ModifyIndication { d: Duplex, s: held_before }],
                );
            }
            no_row(held(broken(), held_before), info(Simplex, Some(s)));
            no_row(held(restoring(), held_before), info(Simplex, Some(s)));
            no_row(held(wait(Plane::Off), held_before), info(Simplex, Some(s)));
            no_row(held(disconnect(), held_before), info(Simplex, Some(s)));
        }
        // No other row changes them until the end, which leaves the fresh record.
        let held = |call| held(call, s);
        row(held(active(Plane::Receive)), Break, held(broken()), &[OFF]);
        row(
            held(broken()),
            Resume,
            held(restoring()),
            &[UCallRestore { i: I, a: A, q: false }, start(T306)],
        );
        row(
            held(restoring()),
            DCallRestore { i: I, g: GrantedToAnother, r: false, o: None },
            held(active(Plane::Receive)),
            &[stop(T306), Configure { p: Plane::Receive }, x(3)],
        );
        row(held(active(Plane::Off)), DTxWait { i: I }, held(wait(Plane::Off)), &[OFF, x(6)]);
        let release = [stop(T310), UDisconnect { i: I, c: Cause::User }, start(T308), OFF];
        row(held(active(Plane::Off)), ReleaseRequest, held(disconnect()), &release);
        row(held(disconnect()), Expiry { n: T308 }, Call::FRESH, &[OFF, ReleaseConfirm]);
        row(
            Call { slots: s, ..mo() },
            ReportFailed,
            Call::FRESH,
            &[stop(T303), ReleaseIndication { c: Cause::TransferFailed }],
        );
    }
    // An incoming call has 1.
    row(
        Call::FRESH,
        DSetup { i: I, a: A, d: Simplex },
        Call { slots: 1, ..mt() },
        &[SetupIndication { i: I, a: A, d: Simplex }],
    );
}

/// No change of service over a speaker: D-INFO is refused with 8 in planes 1 and 3, whatever it
/// brings, before 7 and after 5.
#[test]
fn d_info_over_own_transmission() {
    for call in [active(Plane::Transmit), duplex(active(Plane::TransmitAndReceive))] {
        for (r, o) in [(false, None), (true, None), (true, Some(9)), (true, Some(0))] {
            for (d, s) in [(Simplex, None), (Duplex, None), (Simplex, Some(3)), (Duplex, Some(1))] {
                let info = DInfo { i: I, r, o, d, s };
                refused(8, call, info);
                refused(5, call, DInfo { i: I + 1, r, o, d, s });
                // With no room at all 7 applies too, and 8 is given.
                let mut record = call.pack();
                let word = library::step(&mut record, Bytes::of_event(info).as_slice(), &mut []);
                assert_eq!(library::split(word), (8, 0));
                assert_eq!(record, call.pack());
            }
        }
    }
    // Sound and out of reach: plane 3 in a simplex call.
    refused(
        8,
        active(Plane::TransmitAndReceive),
        DInfo { i: I, r: false, o: None, d: Simplex, s: None },
    );
}

#[test]
fn call_active_path_up_by_the_network() {
    let granted = |g| DTxGranted { i: I, g };
    let transmit = Configure { p: Plane::Transmit };
    row(
        asked(active(Plane::Off)),
        granted(Granted),
        active(Plane::Transmit),
        &[start(T311), transmit, x(0)],
    );
    row(
        active(Plane::Transmit),
        granted(Granted),
        active(Plane::Transmit),
        &[start(T311), transmit, x(0)],
    );
    row(
        asked(duplex(active(Plane::Receive))),
        granted(Granted),
        duplex(active(Plane::TransmitAndReceive)),
        &[Configure { p: Plane::TransmitAndReceive }, x(0)],
    );
    row(asked(active(Plane::Receive)), granted(NotGranted), active(Plane::Receive), &[x(1)]);
    row(active(Plane::Transmit), granted(NotGranted), active(Plane::Transmit), &[x(1)]);
    row(asked(active(Plane::Receive)), granted(Queued), asked(active(Plane::Receive)), &[x(2)]);
    row(
        asked(active(Plane::Transmit)),
        granted(GrantedToAnother),
        asked(active(Plane::Receive)),
        &[stop(T311), Configure { p: Plane::Receive }, x(3)],
    );
    refused(5, active(Plane::Off), DTxGranted { i: I + 1, g: Granted });

    row(active(Plane::Receive), DTxCeased { i: I }, active(Plane::Off), &[OFF, x(4)]);
    row(active(Plane::Off), DTxCeased { i: I }, active(Plane::Off), &[OFF, x(4)]);
    row(active(Plane::Transmit), DTxCeased { i: I }, active(Plane::Off), &[stop(T311), OFF, x(4)]);

    let interrupt = |g| DTxInterrupt { i: I, g };
    for g in [Granted, NotGranted, Queued] {
        row(
            asked(active(Plane::Transmit)),
            interrupt(g),
            asked(active(Plane::Off)),
            &[stop(T311), OFF, x(5)],
        );
    }
    row(
        active(Plane::Transmit),
        interrupt(GrantedToAnother),
        active(Plane::Receive),
        &[stop(T311), Configure { p: Plane::Receive }, x(5)],
    );

    for &plane in &[Plane::Receive, Plane::TransmitAndReceive, Plane::Off] {
        row(asked(active(plane)), DTxWait { i: I }, asked(wait(plane)), &[OFF, x(6)]);
    }
    row(active(Plane::Transmit), DTxWait { i: I }, wait(Plane::Transmit), &[stop(T311), OFF, x(6)]);

    for event in [
        DCallProceeding { i: I },
        DAlert { i: I },
        DConnect { i: I, g: Granted, d: Simplex, o: 0, s: None },
        DTxContinue { i: I, k: true },
        DCallRestore { i: I, g: Granted, r: true, o: None },
        DSetup { i: I, a: A, d: Simplex },
        DSetup { i: I + 1, a: A, d: Simplex },
    ] {
        no_row(active(Plane::Off), event);
    }
}

#[test]
fn break_and_resume() {
    row(active(Plane::Transmit), Break, asked(broken()), &[stop(T311), OFF]);
    row(duplex(active(Plane::TransmitAndReceive)), Break, asked(duplex(broken())), &[OFF]);
    for plane in [Plane::Receive, Plane::Off] {
        row(active(plane), Break, broken(), &[OFF]);
        row(asked(active(plane)), Break, asked(broken()), &[OFF]);
    }

    row(broken(), TxRequest { k: true }, asked(broken()), &[]);
    no_row(asked(broken()), TxRequest { k: true });
    row(asked(broken()), TxRequest { k: false }, broken(), &[]);
    no_row(broken(), TxRequest { k: false });
    no_row(broken(), Break);
    no_row(broken(), DTxGranted { i: I, g: Granted });
    no_row(broken(), DCallRestore { i: I, g: Granted, r: false, o: None });

    let restore = |q| UCallRestore { i: I, a: A, q };
    row(broken(), Resume, restoring(), &[restore(false), start(T306)]);
    row(asked(broken()), Resume, asked(restoring()), &[restore(true), start(T306)]);
    row(duplex(broken()), Resume, asked(duplex(restoring())), &[restore(true), start(T306)]);
    row(
        Call { address: 0, ..broken() },
        Resume,
        Call { address: 0, ..restoring() },
        &[UCallRestore { i: I, a: 0, q: false }, start(T306)],
    );
    no_row(restoring(), Resume);
    no_row(restoring(), TxRequest { k: true });
    no_row(asked(restoring()), TxRequest { k: false });

    row(asked(restoring()), Break, asked(broken()), &[stop(T306), OFF]);
    row(restoring(), Break, broken(), &[stop(T306), OFF]);
}

#[test]
fn d_call_restore() {
    let restore = |g, r, o| DCallRestore { i: I, g, r, o };
    row(
        asked(restoring()),
        restore(Granted, false, Some(9)),
        active(Plane::Transmit),
        &[stop(T306), start(T311), Configure { p: Plane::Transmit }, x(0)],
    );
    row(
        asked(restoring()),
        restore(Granted, true, Some(9)),
        Call { t310_code: 9, ..active(Plane::Transmit) },
        &[stop(T306), Start { n: T310, o: 9 }, start(T311), Configure { p: Plane::Transmit }, x(0)],
    );
    row(
        asked(duplex(restoring())),
        restore(Granted, true, None),
        duplex(active(Plane::TransmitAndReceive)),
        &[stop(T306), Start { n: T310, o: 3 }, Configure { p: Plane::TransmitAndReceive }, x(0)],
    );
    row(
        asked(restoring()),
        restore(NotGranted, false, None),
        active(Plane::Off),
        &[stop(T306), x(1)],
    );
    row(
        asked(restoring()),
        restore(Queued, true, Some(0)),
        asked(unlimited(active(Plane::Off))),
        &[stop(T306), stop(T310), x(2)],
    );
    row(
        asked(restoring()),
        restore(GrantedToAnother, false, None),
        asked(active(Plane::Receive)),
        &[stop(T306), Configure { p: Plane::Receive }, x(3)],
    );
}

#[test]
fn wait_rows() {
    let go_on = |k| DTxContinue { i: I, k };
    row(
        wait(Plane::Transmit),
        go_on(true),
        active(Plane::Transmit),
        &[start(T311), Configure { p: Plane::Transmit }, x(7)],
    );
    for &plane in &[Plane::Receive, Plane::TransmitAndReceive, Plane::Off] {
        row(asked(wait(plane)), go_on(true), asked(active(plane)), &[Configure { p: plane }, x(7)]);
    }
    for &plane in Plane::ALL {
        row(wait(plane), go_on(false), active(Plane::Off), &[OFF, x(8)]);
        row(wait(plane), Break, broken(), &[OFF, x(8)]);
        row(asked(wait(plane)), Break, asked(broken()), &[OFF, x(8)]);
        for event in [
            TxRequest { k: true },
            TxRequest { k: false },
            DTxGranted { i: I, g: Granted },
            DTxCeased { i: I },
            DTxInterrupt { i: I, g: Granted },
            DTxWait { i: I },
            Resume,
        ] {
            no_row(asked(wait(plane)), event);
        }
    }
}

#[test]
fn release() {
    let u_disconnect = |c| UDisconnect { i: I, c };
    let calls: [(Call, &[Timer]); 7] = [
        (active(Plane::Off), &[T310]),
        (asked(active(Plane::Receive)), &[T310]),
        (active(Plane::Transmit), &[T310, T311]),
        (asked(broken()), &[T310]),
        (asked(restoring()), &[T306, T310]),
        (wait(Plane::Transmit), &[T310]),
        (asked(wait(Plane::Receive)), &[T310]),
    ];
    for (call, running) in calls {
        let mut writes: Vec<Message> = running.iter().map(|&n| stop(n)).collect();
        writes.extend([u_disconnect(Cause::User), start(T308), OFF]);
        row(call, ReleaseRequest, disconnect(), &writes);

        // What expired gets no STOP.
        let mut writes: Vec<Message> =
            running.iter().filter(|&&n| n != T310).map(|&n| stop(n)).collect();
        writes.extend([u_disconnect(Cause::Timer), start(T308), OFF, BY_TIMER]);
        row(call, Expiry { n: T310 }, disconnect(), &writes);

        let mut writes: Vec<Message> = running.iter().map(|&n| stop(n)).collect();
        writes.extend([OFF, BY_NETWORK]);
        row(call, DRelease { i: I }, Call::FRESH, &writes);
        writes.insert(running.len(), URelease { i: I });
        row(call, DDisconnect { i: I }, Call::FRESH, &writes);
    }
    row(
        restoring(),
        Expiry { n: T306 },
        disconnect(),
        &[stop(T310), u_disconnect(Cause::Timer), start(T308), OFF, BY_TIMER],
    );
}

#[test]
fn call_disconnect() {
    let sent = Call { sent: true, ..disconnect() };
    row(disconnect(), ReportSent, sent, &[]);
    no_row(sent, ReportSent);
    row(disconnect(), ReportFailed, Call::FRESH, &[stop(T308), OFF, ReleaseConfirm]);
    no_row(sent, ReportFailed);
    for call in [disconnect(), sent] {
        row(call, Expiry { n: T308 }, Call::FRESH, &[OFF, ReleaseConfirm]);
        no_row(call, ReleaseRequest);
        no_row(call, Expiry { n: T310 });
        no_row(with(call, &[T308, T310]), Expiry { n: T310 });
        no_row(call, Break);
    }
    row(
        disconnect(),
        DDisconnect { i: I },
        Call::FRESH,
        &[stop(T308), Cancel, URelease { i: I }, OFF, BY_NETWORK],
    );
    row(sent, DDisconnect { i: I }, Call::FRESH, &[stop(T308), URelease { i: I }, OFF, BY_NETWORK]);
    row(disconnect(), DRelease { i: I }, Call::FRESH, &[stop(T308), Cancel, OFF, BY_NETWORK]);
    row(sent, DRelease { i: I }, Call::FRESH, &[stop(T308), OFF, ReleaseConfirm]);

    // With the dummy identifier held, every i agrees and the received one is written.
    let dummy = Call { identifier: 0, ..sent };
    row(
        dummy,
        DDisconnect { i: 99 },
        Call::FRESH,
        &[stop(T308), URelease { i: 99 }, OFF, BY_NETWORK],
    );
    row(
        dummy,
        DDisconnect { i: 0 },
        Call::FRESH,
        &[stop(T308), URelease { i: 0 }, OFF, BY_NETWORK],
    );
    refused(5, sent, DRelease { i: 0 });
}

/// Sound records that cannot be reached are treated by the same rows.
#[test]
fn several_timers_running_at_once() {
    let all_but_306 = with(active(Plane::Transmit), &[T301, T302, T303, T308, T310, T311]);
    let stops_but_308 = [stop(T301), stop(T302), stop(T303), stop(T310), stop(T311)];

    // T308 runs and is started: START only, also where all are stopped.
    let mut writes = stops_but_308.to_vec();
    writes.extend([UDisconnect { i: I, c: Cause::User }, start(T308), OFF]);
    row(all_but_306, ReleaseRequest, disconnect(), &writes);

    // Any of the five releases, wherever it runs.
    for n in [T301, T302, T303, T310] {
        let mut writes: Vec<Message> =
            stops_but_308.into_iter().filter(|&message| message != stop(n)).collect();
        writes.extend([UDisconnect { i: I, c: Cause::Timer }, start(T308), OFF, BY_TIMER]);
        row(all_but_306, Expiry { n }, disconnect(), &writes);
    }
    no_row(all_but_306, Expiry { n: T308 });

    // A row that names its timers leaves the others running.
    row(
        all_but_306,
        DTxCeased { i: I },
        with(active(Plane::Off), &[T301, T302, T303, T308, T310]),
        &[stop(T311), OFF, x(4)],
    );
    row(
        with(mo(), &[T301, T302, T303, T308, T310]),
        DConnect { i: I, g: GrantedToAnother, d: Simplex, o: 3, s: None },
        with(active(Plane::Receive), &[T301, T308, T310]),
        &[
            stop(T302),
            stop(T303),
            Start { n: T310, o: 3 },
            Configure { p: Plane::Receive },
            SetupConfirm { i: I, g: GrantedToAnother },
        ],
    );
    // Fresh without "stop all": only the named timer gets a STOP.
    row(
        with(mo(), &[T301, T302, T303, T308, T310]),
        ReportFailed,
        Call::FRESH,
        &[stop(T303), ReleaseIndication { c: Cause::TransferFailed }],
    );
    row(
        with(mo(), &[T301, T302, T308, T310]),
        ReleaseRequest,
        Call::FRESH,
        &[Cancel, ReleaseConfirm],
    );
    // Stop all in CALL-DISCONNECT; the expired one gets no STOP.
    row(
        with(disconnect(), &[T301, T302, T303, T308, T310]),
        Expiry { n: T308 },
        Call::FRESH,
        &[stop(T301), stop(T302), stop(T303), stop(T310), OFF, ReleaseConfirm],
    );
}
