//! The paper's checked examples and easy slips, one by one, through the library.

use callcontrol_tests::account::RECORD_LEN;
use callcontrol_tests::histories::bytes_of;
use callcontrol_tests::library::{fresh, split, step};

/// A call held by a host, with what the last step wrote.
struct Host {
    record: [u8; RECORD_LEN],
    written: Vec<u8>,
}

impl Host {
    fn fresh() -> Host {
        let mut record = [0xFF; RECORD_LEN];
        assert_eq!(split(fresh(&mut record)), (0, 22));
        Host { record, written: Vec::new() }
    }

    /// Hands in an event given as hex, with this much room; gives the answer.
    fn with_room(&mut self, room: usize, event: &str) -> u32 {
        let mut out = vec![0xEE; room];
        let before = self.record;
        let (answer, count) = split(step(&mut self.record, &bytes_of(event), &mut out));
        if answer != 0 {
            assert_eq!(count, 0, "a refusal counts 0 bytes");
            assert_eq!(self.record, before, "a refusal returns the record as given");
            assert!(out.iter().all(|&byte| byte == 0xEE), "a refusal changes no byte");
        }
        assert!(out[count as usize..].iter().all(|&byte| byte == 0xEE));
        out.truncate(count as usize);
        self.written = out;
        answer
    }

    fn answer(&mut self, event: &str) -> u32 {
        self.with_room(64, event)
    }

    #[track_caller]
    fn taken(&mut self, event: &str) -> &mut Host {
        assert_eq!(self.answer(event), 0, "{event} is taken");
        self
    }

    fn state(&self) -> u8 {
        self.record[0]
    }

    fn asked(&self) -> u8 {
        self.record[8]
    }

    fn plane(&self) -> u8 {
        self.record[11]
    }

    #[track_caller]
    fn wrote(&self, messages: &str) {
        assert_eq!(self.written, bytes_of(messages));
    }

    /// CALL-ACTIVE, path up, simplex, plane 1, asked 0, i 21, T310 code 3.
    fn transmitting() -> Host {
        let mut host = Host::fresh();
        host.taken(SETUP_REQUEST).taken(D_CONNECT_GRANTED);
        assert_eq!((host.state(), host.plane(), host.asked()), (CALL_ACTIVE, 1, 0));
        host
    }
}

const MO_CALL_SETUP: u8 = 1;
const MT_CALL_SETUP: u8 = 2;
const CALL_ACTIVE: u8 = 3;
const CALL_DISCONNECT: u8 = 5;

const SETUP_REQUEST: &str = "0A00 0101 07000000 00 01";
const D_CONNECT_GRANTED: &str = "0900 0302 1500 00 00 03";
const RELEASE_REQUEST: &str = "0400 0301";
const REPORT_SENT: &str = "0400 0103";
const BREAK: &str = "0400 0303";
const RESUME: &str = "0400 0403";
const D_TX_WAIT: &str = "0600 0A02 1500";

#[test]
fn fresh_d_release_0_gives_6() {
    assert_eq!(Host::fresh().answer("0600 0E02 0000"), 6);
}

#[test]
fn fresh_d_release_5_gives_5() {
    assert_eq!(Host::fresh().answer("0600 0E02 0500"), 5);
}

#[test]
fn fresh_d_setup_16383_is_taken() {
    let mut host = Host::fresh();
    host.taken("0B00 0502 FF3F 07000000 00");
    assert_eq!(host.state(), MT_CALL_SETUP);
    host.wrote("0B00 0107 FF3F 07000000 00");
}

#[test]
fn fresh_d_setup_16384_gives_4() {
    assert_eq!(Host::fresh().answer("0B00 0502 0040 07000000 00"), 4);
}

#[test]
fn mt_call_setup_before_the_response_d_connect_acknowledge_gives_6() {
    let mut host = Host::fresh();
    host.taken("0B00 0502 1500 07000000 00");
    assert_eq!(host.answer("0800 0402 1500 00 03"), 6);
}

#[test]
fn plane_1_d_tx_interrupt_3_gives_plane_2() {
    let mut host = Host::transmitting();
    host.taken("0700 0902 1500 03");
    assert_eq!(host.plane(), 2);
    host.wrote("0600 0106 3701  0500 0306 02  0500 0807 05"); // STOP 311, CONFIGURE 2, TX indication 5
}

#[test]
fn plane_1_d_tx_wait_then_d_tx_continue_1_gives_plane_1() {
    let mut host = Host::transmitting();
    host.taken(D_TX_WAIT).wrote("0600 0106 3701  0500 0306 04  0500 0807 06");
    host.taken("0700 0B02 1500 01");
    assert_eq!(host.plane(), 1);
    host.wrote("0700 0206 3701 00  0500 0306 01  0500 0807 07"); // START 311, CONFIGURE 1, TX indication 7
}

#[test]
fn plane_1_asked_0_break_resume_asks_q_1() {
    let mut host = Host::transmitting();
    host.taken(BREAK).taken(RESUME);
    host.wrote("0B00 0805 1500 07000000 01  0700 0206 3201 00"); // U-CALL RESTORE q 1, START 306
}

#[test]
fn plane_1_asked_0_d_tx_wait_break_resume_asks_q_0() {
    let mut host = Host::transmitting();
    host.taken(D_TX_WAIT).taken(BREAK).taken(RESUME);
    host.wrote("0B00 0805 1500 07000000 00  0700 0206 3201 00"); // U-CALL RESTORE q 0, START 306
}

#[test]
fn d_connect_needs_32_bytes_and_31_give_7() {
    let mut host = Host::fresh();
    host.taken(SETUP_REQUEST);
    assert_eq!(host.record[14..21], [0, 0, 1, 0, 0, 0, 0], "T303 alone runs");
    assert_eq!(host.with_room(31, D_CONNECT_GRANTED), 7);
    assert_eq!(host.with_room(32, D_CONNECT_GRANTED), 0);
    assert_eq!(host.state(), CALL_ACTIVE);
    // STOP 303, START 310 with 3, START 311, CONFIGURE 1, SETUP confirm 21 granted.
    host.wrote(
        "0600 0106 2F01  0700 0206 3601 03  0700 0206 3701 00  0500 0306 01  0700 0207 1500 00",
    );
}

/// The input shown for calltrace, step by step (the program itself is run in calltrace.rs).
#[test]
fn the_calltrace_example_step_by_step() {
    let mut host = Host::fresh();
    let steps = [
        (SETUP_REQUEST, 0, MO_CALL_SETUP, 4, 17),
        (REPORT_SENT, 0, MO_CALL_SETUP, 4, 0),
        (D_CONNECT_GRANTED, 0, CALL_ACTIVE, 1, 32),
        (BREAK, 0, CALL_ACTIVE, 4, 11),
        ("0700 0702 1500 00", 6, CALL_ACTIVE, 4, 0),
    ];
    for (event, answer, state, plane, bytes) in steps {
        assert_eq!(host.answer(event), answer, "{event}");
        assert_eq!((host.state(), host.plane(), host.written.len()), (state, plane, bytes));
    }
}

#[test]
fn easy_slip_a_break_in_wait_does_not_ask() {
    let mut host = Host::transmitting();
    host.taken(D_TX_WAIT).taken(BREAK);
    assert_eq!(host.asked(), 0);
    host.wrote("0500 0306 04  0500 0807 08"); // CONFIGURE 4 once, TX indication 8
}

#[test]
fn easy_slip_no_local_cancel_when_an_identifier_came_before_the_report() {
    let mut host = Host::fresh();
    host.taken(SETUP_REQUEST).taken("0600 0102 1500"); // D-CALL PROCEEDING
    host.taken(RELEASE_REQUEST);
    assert_eq!(host.state(), CALL_DISCONNECT);
    // STOP 302, U-DISCONNECT 21 cause 1, START 308, CONFIGURE 4; no CANCEL.
    host.wrote("0600 0106 2E01  0700 0305 1500 01  0700 0206 3401 00  0500 0306 04");
}

#[test]
fn easy_slip_t310_is_not_restarted_at_a_restoration_with_r_0() {
    let mut host = Host::transmitting();
    host.taken(BREAK).taken(RESUME);
    host.taken("0900 0C02 1500 00 00 07"); // D-CALL RESTORE granted, r 0, code 7
    assert_eq!(host.record[13], 3, "the held T310 code stays");
    // STOP 306, START 311, CONFIGURE 1, TX indication 0.
    host.wrote("0600 0106 3201  0700 0206 3701 00  0500 0306 01  0500 0807 00");
}
