//! What docs/HOST.md says would happen to a host that does not keep its rules does happen, and what it
//! says that a host may rely on holds.

use callcontrol_tests::account::{State, RECORD_LEN};
use callcontrol_tests::histories::bytes_of;
use callcontrol_tests::library::{fresh, split, step};
use callcontrol_tests::request::{channel_input, Function, Request};
use callcontrol_tests::sidebyside::alone;

const SETUP_REQUEST: &str = "0A00 0101 07000000 00 01";
const RELEASE_REQUEST: &str = "0400 0301";
const REPORT_SENT: &str = "0400 0103";
const REPORT_FAILED: &str = "0400 0203";
const PROCEEDING: &str = "0600 0102 1500";
const ALERT: &str = "0600 0202 1500";
/// Granted, T310 with code 3.
const CONNECT: &str = "0900 0302 1500 00 00 03";
const GRANTED: &str = "0700 0702 1500 00";
const CEASED: &str = "0600 0802 1500";
/// T310 anew with the held code.
const INFO: &str = "0900 0602 1500 01 10 00";
const EXPIRY_302: &str = "0600 0104 2E01";
const EXPIRY_303: &str = "0600 0104 2F01";
const EXPIRY_306: &str = "0600 0104 3201";
const EXPIRY_308: &str = "0600 0104 3401";
const EXPIRY_310: &str = "0600 0104 3601";
const EXPIRY_311: &str = "0600 0104 3701";

struct Host {
    record: [u8; RECORD_LEN],
    written: Vec<u8>,
}

impl Host {
    /// After these events, which are all taken.
    fn after(events: &[&str]) -> Host {
        let mut host = Host { record: [0; RECORD_LEN], written: Vec::new() };
        fresh(&mut host.record);
        for event in events {
            assert_eq!(host.answer(event), 0, "{event}");
        }
        host
    }

    fn answer(&mut self, event: &str) -> u32 {
        let mut out = [0; 32];
        let (answer, count) = split(step(&mut self.record, &bytes_of(event), &mut out));
        self.written = out[..count as usize].to_vec();
        answer
    }

    fn state(&self) -> State {
        State::from_number(self.record[0]).expect("a state")
    }

    fn plane(&self) -> u8 {
        self.record[11]
    }

    fn is_fresh(&self) -> bool {
        self.record == Host::after(&[]).record
    }
}

#[test]
fn reports_are_for_u_setup_and_u_disconnect_alone() {
    // In CALL-DISCONNECT a REPORT counts for U-DISCONNECT, whosever it is: of U-TX CEASED, of U-SETUP.
    let mut host = Host::after(&[SETUP_REQUEST, CONNECT, "0500 0401 00", RELEASE_REQUEST]);
    assert_eq!((host.answer(REPORT_FAILED), host.state()), (0, State::Idle));
    let mut host = Host::after(&[SETUP_REQUEST, PROCEEDING, RELEASE_REQUEST]);
    assert_eq!((host.answer(REPORT_FAILED), host.state()), (0, State::Idle));
    // Once the network has named the call, that of U-SETUP gets 6.
    for named in [PROCEEDING, ALERT, CONNECT] {
        let mut host = Host::after(&[SETUP_REQUEST, named]);
        assert_eq!(host.answer(REPORT_SENT), 6);
        assert_eq!(host.answer(REPORT_FAILED), 6);
    }
    // REPORT failed of U-SETUP ends the call with RELEASE indication 4, of U-DISCONNECT with confirm.
    let mut host = Host::after(&[SETUP_REQUEST, REPORT_FAILED]);
    assert!(host.is_fresh() && host.written.ends_with(&[5, 0, 0x06, 0x07, 4]));
    host = Host::after(&[SETUP_REQUEST, CONNECT, RELEASE_REQUEST, REPORT_FAILED]);
    assert!(host.is_fresh() && host.written.ends_with(&[4, 0, 0x07, 0x07]));
}

#[test]
fn a_late_report_counts_for_the_next_call() {
    // The first call is cancelled; its REPORT comes when the next one is being set up.
    let mut host = Host::after(&[SETUP_REQUEST, RELEASE_REQUEST]);
    assert!(host.is_fresh());
    assert_eq!(host.written[6..10], [4, 0, 0x04, 0x06], "CANCEL, behind STOP of T303");
    assert_eq!(host.answer(REPORT_FAILED), 6, "with no call it is harmless");
    assert_eq!(host.answer(SETUP_REQUEST), 0);
    assert_eq!(
        (host.answer(REPORT_FAILED), host.state()),
        (0, State::Idle),
        "the next call is lost"
    );
}

#[test]
fn cancel_is_about_the_pdu_before() {
    // D-DISCONNECT before U-DISCONNECT is reported: STOP of T308, CANCEL, then U-RELEASE.
    let mut host = Host::after(&[SETUP_REQUEST, CONNECT, RELEASE_REQUEST]);
    assert_eq!(host.answer("0600 0D02 1500"), 0);
    let kinds = [0x01, 0x06, 0x04, 0x06, 0x04, 0x05];
    assert_eq!([&host.written[2..4], &host.written[8..10], &host.written[12..14]].concat(), kinds);
}

/// The rooms of waiting channel questions.
struct Rooms(Vec<u8>);

impl Rooms {
    fn fresh() -> Rooms {
        Rooms(alone(&Request::of(Function::ChannelFresh, &[0; 20], &[], 0, 0)).record)
    }

    /// The answer, and what was written.
    fn turn(&mut self, function: Function, number: u16, call: u16, what: u32) -> (u32, Vec<u8>) {
        let input = channel_input(number, call, what);
        let done = alone(&Request::of(function, &self.0, &input, 28, 0xC3));
        self.0 = done.record;
        let (answer, count) = split(done.word);
        (answer, done.out[..count as usize].to_vec())
    }

    fn ask(&mut self, number: u16, call: u16, asked: u32) -> (u32, Vec<u8>) {
        self.turn(Function::ChannelAsk, number, call, asked)
    }

    fn decide(&mut self, number: u16, decision: u32) -> (u32, Vec<u8>) {
        self.turn(Function::ChannelDecide, number, 0, decision)
    }
}

const CANCEL: [u8; 4] = [4, 0, 0x04, 0x06];

/// Taken, with an answer to the lower layers: 0 accept, 1 reject, 2 ignore.
fn told(number: u8, verdict: u8) -> (u32, Vec<u8>) {
    (0, vec![7, 0, 0x06, 0x06, number, 0, verdict])
}

#[test]
fn a_steps_cancel_ends_the_call() {
    let calls: [&[&str]; 3] = [
        &[SETUP_REQUEST, RELEASE_REQUEST],
        &[SETUP_REQUEST, CONNECT, RELEASE_REQUEST, "0600 0D02 1500"],
        &[SETUP_REQUEST, CONNECT, RELEASE_REQUEST, "0600 0E02 1500"],
    ];
    for events in calls {
        let host = Host::after(events);
        assert!(host.written.windows(4).any(|bytes| bytes == CANCEL), "{events:?}");
        assert!(host.is_fresh(), "{events:?}");
    }
}

#[test]
fn a_channel_questions_cancel_leaves_the_individual_call_as_it_was() {
    let (mut host, mut rooms) = (Host::after(&[SETUP_REQUEST]), Rooms::fresh());
    assert_eq!(rooms.ask(1, 41, 3), (0, CANCEL.to_vec()));
    // The REPORT of its own U-SETUP is handed in as before: the user who hangs up then writes
    // U-DISCONNECT. Were it dropped, he would cancel a U-SETUP that was sent.
    assert_eq!((host.answer(REPORT_SENT), host.answer(RELEASE_REQUEST)), (0, 0));
    assert_eq!(host.state(), State::CallDisconnect);
    assert_eq!(rooms.decide(1, 4), told(1, 2));
}

#[test]
fn a_group_call_kept_in_a_call_record_is_left_behind() {
    let (mut host, mut rooms) = (Host::after(&[SETUP_REQUEST]), Rooms::fresh());
    assert_eq!(rooms.ask(1, 41, 3), (0, CANCEL.to_vec()));
    assert_eq!(rooms.decide(1, 3), told(1, 0), "the cancel worked, and the channel is followed");
    assert_eq!(host.state(), State::MoCallSetup, "no step is told");
    assert_eq!((host.answer(EXPIRY_303), host.state()), (0, State::CallDisconnect));
    assert_eq!(host.written[..7], [7, 0, 0x03, 0x05, 0, 0, 2], "U-DISCONNECT into the group call");
}

#[test]
fn a_decision_is_for_one_question_of_a_call() {
    let mut rooms = Rooms::fresh();
    for number in 1..=4 {
        assert_eq!(rooms.ask(number, 40, 2), (0, vec![]));
    }
    assert_eq!(rooms.decide(1, 0), told(1, 0));
    assert_eq!(rooms.ask(5, 40, 2), (0, vec![]), "in the room of the first");
    assert_eq!(rooms.ask(6, 40, 2), (51, vec![]), "the next repeat has none");
    assert_eq!(rooms.decide(2, 2), told(2, 1), "T330 rejects the channel that was accepted");
    for number in 3..=5 {
        assert_eq!(rooms.decide(number, 0), told(number as u8, 0));
    }
    assert_eq!(rooms.0, Rooms::fresh().0);
}

#[test]
fn a_cancel_of_which_nothing_is_heard_is_decided_at_t330() {
    let mut rooms = Rooms::fresh();
    for number in 1..=4 {
        assert_eq!(rooms.ask(number, 40 + number, 3), (0, CANCEL.to_vec()));
    }
    assert_eq!(rooms.ask(5, 50, 2), (51, vec![]), "four wait for a cancel");
    assert_eq!(rooms.decide(1, 2), (52, vec![]), "T330's own decision is for the user's");
    assert_eq!(rooms.decide(1, 4), told(1, 2), "so it has failed");
    assert_eq!(rooms.decide(1, 3), (52, vec![]), "what is heard later is for nobody");
    assert_eq!(rooms.ask(5, 50, 2), (0, vec![]), "in the room of the first");
    assert_eq!(rooms.decide(5, 2), told(5, 1));
}

#[test]
fn the_question_on_the_ending_pdu_is_accepted_before_the_end_or_after_it() {
    for asked in [0, 5] {
        for end_first in [false, true] {
            let mut rooms = Rooms::fresh();
            assert_eq!(rooms.ask(1, 40, 2), (0, vec![]));
            let turns = [end_first, !end_first].map(|end| {
                if end {
                    rooms.turn(Function::ChannelEnded, 0, 40, 0)
                } else {
                    rooms.ask(2, 40, asked)
                }
            });
            assert_eq!(turns[usize::from(end_first)], told(2, 0), "asked {asked}");
            assert_eq!(turns[usize::from(!end_first)], told(1, 1), "asked {asked}");
            assert_eq!(rooms.0, Rooms::fresh().0);
        }
    }
}

#[test]
fn an_expiry_still_in_hand_counts_for_the_timer_that_was_started_anew() {
    let mut host = Host::after(&[SETUP_REQUEST, CONNECT, CEASED, INFO]);
    assert_eq!(
        (host.answer(EXPIRY_310), host.state()),
        (0, State::CallDisconnect),
        "the call is cut"
    );
    let mut host = Host::after(&[SETUP_REQUEST, PROCEEDING, ALERT]);
    assert_eq!((host.answer(EXPIRY_302), host.state()), (0, State::CallDisconnect));
    let mut host = Host::after(&[SETUP_REQUEST, CONNECT, GRANTED]);
    assert_eq!((host.answer(EXPIRY_311), host.plane()), (0, 4), "the words are cut off");
    // Of a timer that does not run it is 6 and changes nothing.
    let mut host = Host::after(&[SETUP_REQUEST, CONNECT, CEASED]);
    let before = host.record;
    for late in [EXPIRY_302, EXPIRY_308, EXPIRY_311] {
        assert_eq!((host.answer(late), host.record), (6, before));
    }
}

/// Direct mode: the answer of each event, and the attempts used and messages after the last.
fn direct(events: &[&str]) -> (Vec<u32>, u8, Vec<u8>) {
    let mut record = vec![0; 7];
    let (mut answers, mut written) = (Vec::new(), Vec::new());
    for event in events {
        let event = bytes_of(event);
        let done = alone(&Request::of(Function::DirectStep, &record, &event, 27, 0x5A));
        let (answer, count) = split(done.word);
        answers.push(answer);
        record = done.record;
        written = done.out[..count as usize].to_vec();
    }
    (answers, record[4], written)
}

#[test]
fn a_late_expiry_of_dt303_counts_for_the_next_call() {
    let (setup, sent) = ("0700 0108 09 04 03", "0500 0208 00");
    let (disconnect, expiry) = ("0400 0408", "0600 0508 2F01");
    // DM-DISCONNECT stops DT303. As long as it does not run an expiry is 61: in IDLE, and in the next
    // call until DM-SETUP PRES is reported sent.
    let stopped = [setup, sent, disconnect, expiry, setup, expiry];
    assert_eq!(direct(&stopped), (vec![0, 0, 0, 61, 0, 61], 1, vec![]));
    // Then it is taken: DM-RELEASE, and the second of the next call's three attempts.
    let late = [setup, sent, disconnect, setup, sent, expiry];
    let written = vec![4, 0, 0x03, 0x09, 6, 0, 0x01, 0x09, 9, 4];
    assert_eq!(direct(&late), (vec![0; 6], 2, written));
}

/// What one reading of a bank hands out together is handed in together: the expiry behind a STOP of
/// its timer is 6 and changes nothing.
#[test]
fn of_two_timers_due_at_one_reading_the_second_is_harmless() {
    let speaking = &[SETUP_REQUEST, CONNECT][..];
    let restoring = &[SETUP_REQUEST, CONNECT, "0400 0303", "0400 0403"];
    for (call, first, second, answer) in [
        (speaking, EXPIRY_310, EXPIRY_311, 6),
        (speaking, EXPIRY_311, EXPIRY_310, 0),
        (restoring, EXPIRY_306, EXPIRY_310, 6),
        (restoring, EXPIRY_310, EXPIRY_306, 6),
    ] {
        let mut host = Host::after(call);
        assert_eq!(host.answer(first), 0);
        let between = host.record;
        assert_eq!(host.answer(second), answer, "{first}, {second}");
        assert!(answer == 0 || host.record == between);
        assert_eq!(host.state(), State::CallDisconnect);
    }
}

#[test]
fn release_request_and_expiry_of_t308_are_rid_of_any_call() {
    let calls: [&[&str]; 6] = [
        &[],
        &[SETUP_REQUEST],
        &[SETUP_REQUEST, PROCEEDING],
        &[SETUP_REQUEST, CONNECT, "0600 0A02 1500"],
        &[SETUP_REQUEST, CONNECT, "0400 0303", "0400 0403"],
        &[SETUP_REQUEST, CONNECT, RELEASE_REQUEST],
    ];
    for events in calls {
        let mut host = Host::after(events);
        host.answer(RELEASE_REQUEST);
        host.answer(EXPIRY_308);
        assert!(host.is_fresh(), "{events:?}");
    }
}

/// A bank in which every timer runs for 10,000 ms, carrying out what a step wrote.
struct Bank(Vec<u8>);

impl Bank {
    fn new() -> Bank {
        Bank(alone(&Request::of(Function::BankNew, &[0; 39], &[], 0, 0)).record)
    }

    fn carry_out(&mut self, written: &[u8]) {
        let lengths: Vec<u8> = [10_000u32; 22].into_iter().flat_map(u32::to_le_bytes).collect();
        let mut rest = written;
        while !rest.is_empty() {
            let (message, behind) = rest.split_at(usize::from(rest[0]));
            let number = |at: usize| u32::from(message[at]);
            let order = match message[2..4] {
                [0x01, 0x06] => Request::of(Function::BankStop, &self.0, &[], 0, 0)
                    .with(number(4) | number(5) << 8),
                [0x02, 0x06] => Request::of(Function::BankStart, &self.0, &lengths, 0, 0)
                    .with(number(4) | number(5) << 8 | number(6) << 16),
                _ => {
                    rest = behind;
                    continue;
                }
            };
            let done = alone(&order);
            assert_eq!(done.word, 0);
            self.0 = done.record;
            rest = behind;
        }
    }

    /// The timers that a reading hands out.
    fn due(&mut self, reading: u32) -> Vec<u16> {
        let request = Request::of(Function::BankAdvance, &self.0, &[], 14, 0).with(reading);
        let done = alone(&request);
        self.0 = done.record;
        let count = done.word as usize;
        assert!(count <= 7, "it is taken");
        let pairs = done.out.chunks_exact(2).take(count);
        pairs.map(|pair| u16::from_le_bytes([pair[0], pair[1]])).collect()
    }

    fn stop(&mut self, timer: u32) {
        self.0 = alone(&Request::of(Function::BankStop, &self.0, &[], 0, 0).with(timer)).record;
    }
}

/// The events of a call from its set-up to its release, each with its timers carried out.
fn released(host: &mut Host, bank: &mut Bank) {
    for event in [SETUP_REQUEST, CONNECT, RELEASE_REQUEST] {
        assert_eq!(host.answer(event), 0);
        bank.carry_out(&host.written);
    }
}

/// T308's expiry that the host made itself gets no STOP, so a bank goes on with it until it is stopped there.
#[test]
fn after_an_expiry_of_its_own_a_host_stops_t308_in_the_bank() {
    for stops in [false, true] {
        let (mut host, mut bank) = (Host::after(&[]), Bank::new());
        released(&mut host, &mut bank);
        assert_eq!(host.answer(EXPIRY_308), 0);
        bank.carry_out(&host.written);
        assert!(host.is_fresh());
        if stops {
            bank.stop(308);
        }
        // The next call is up when the old T308 would run out.
        assert_eq!(bank.due(4_000), [0u16; 0]);
        for event in [SETUP_REQUEST, CONNECT, CEASED] {
            assert_eq!(host.answer(event), 0);
            bank.carry_out(&host.written);
        }
        let before = host.record;
        let left = bank.due(10_000);
        assert_eq!(left, if stops { vec![] } else { vec![308] });
        for _ in left {
            assert_eq!((host.answer(EXPIRY_308), host.record), (6, before), "it cuts nothing");
        }
        // And its release has the whole time, since START counts anew.
        assert_eq!(host.answer(RELEASE_REQUEST), 0);
        bank.carry_out(&host.written);
        assert_eq!(bank.due(19_999), [0u16; 0]);
        assert_eq!(bank.due(20_000), [308]);
    }
}

#[test]
fn an_event_of_no_bytes_tells_a_damaged_record_from_a_sound_one() {
    for events in [&[][..], &[SETUP_REQUEST], &[SETUP_REQUEST, CONNECT]] {
        let mut host = Host::after(events);
        let sound = host.record;
        assert_eq!((host.answer(""), host.record), (2, sound));
        host.record[11] = 0;
        assert_eq!(host.answer(""), 1);
    }
}
