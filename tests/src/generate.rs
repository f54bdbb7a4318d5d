//! What the tests are fed with: everything follows from a seed, so a failure can be run again.

use crate::account::records::{
    MAX_ADDRESS, MAX_IDENTIFIER, MAX_RECORD_LEN, MAX_SLOTS, MAX_T310_CODE,
};
use crate::account::{
    Call, Event, Grant, Message, Mode, Path, Plane, State, Timer, Verdict, RECORD_LEN,
};

/// Splitmix64: small, seedable, and good enough to choose test cases.
pub struct Random(u64);

impl Random {
    pub fn new(seed: u64) -> Random {
        Random(seed)
    }

    pub fn word(&mut self) -> u64 {
        self.0 = self.0.wrapping_add(0x9E37_79B9_7F4A_7C15);
        let mut z = self.0;
        z = (z ^ (z >> 30)).wrapping_mul(0xBF58_476D_1CE4_E5B9);
        z = (z ^ (z >> 27)).wrapping_mul(0x94D0_49BB_1331_11EB);
        z ^ (z >> 31)
    }

    /// 0..bound, evenly enough for small bounds.
    pub fn below(&mut self, bound: usize) -> usize {
        ((self.word() >> 32).wrapping_mul(bound as u64) >> 32) as usize
    }

    pub fn flip(&mut self) -> bool {
        self.word() >> 63 == 1
    }

    pub fn one_in(&mut self, n: usize) -> bool {
        self.below(n) == 0
    }

    pub fn byte(&mut self) -> u8 {
        (self.word() >> 56) as u8
    }

    pub fn pick<T: Copy>(&mut self, from: &[T]) -> T {
        from[self.below(from.len())]
    }
}

/// A few bytes held without allocation: a record of the host or one made wrong.
#[derive(Clone, Copy)]
pub struct Bytes {
    bytes: [u8; Bytes::ROOM],
    len: usize,
}

impl Bytes {
    pub const ROOM: usize = 48;

    pub fn new(bytes: &[u8]) -> Bytes {
        let mut held = Bytes { bytes: [0; Bytes::ROOM], len: bytes.len() };
        held.bytes[..bytes.len()].copy_from_slice(bytes);
        held
    }

    pub fn of_event(event: Event) -> Bytes {
        let mut bytes = [0; Bytes::ROOM];
        let len = event.write(&mut bytes[..MAX_RECORD_LEN]).expect("an event in range fits");
        Bytes { bytes, len }
    }

    pub fn of_message(message: Message) -> Bytes {
        let mut bytes = [0; Bytes::ROOM];
        let len = message.write(&mut bytes[..MAX_RECORD_LEN]).expect("a message in range fits");
        Bytes { bytes, len }
    }

    pub fn as_slice(&self) -> &[u8] {
        &self.bytes[..self.len]
    }

    pub fn as_mut_slice(&mut self) -> &mut [u8] {
        &mut self.bytes[..self.len]
    }

    fn set_length_field(&mut self, len: usize) {
        self.bytes[..2].copy_from_slice(&(len as u16).to_le_bytes());
    }
}

pub fn identifier(random: &mut Random) -> u16 {
    if random.flip() {
        random.pick(&[1, 2, 21, 255, 256, MAX_IDENTIFIER - 1, MAX_IDENTIFIER])
    } else {
        1 + random.below(MAX_IDENTIFIER as usize) as u16
    }
}

pub fn address(random: &mut Random) -> u32 {
    if random.flip() {
        random.pick(&[0, 1, 255, 256, 65535, 65536, MAX_ADDRESS - 1, MAX_ADDRESS])
    } else {
        random.below(MAX_ADDRESS as usize + 1) as u32
    }
}

pub fn known_address(random: &mut Random) -> u32 {
    address(random).max(1)
}

pub fn mode(random: &mut Random) -> Mode {
    random.pick(Mode::ALL)
}

pub fn grant(random: &mut Random) -> Grant {
    random.pick(Grant::ALL)
}

pub fn t310_code(random: &mut Random) -> u8 {
    random.below(MAX_T310_CODE as usize + 1) as u8
}

pub fn t310_code_or_absent(random: &mut Random) -> Option<u8> {
    if random.one_in(3) {
        None
    } else {
        Some(t310_code(random))
    }
}

pub fn slots(random: &mut Random) -> u8 {
    1 + random.below(MAX_SLOTS as usize) as u8
}

/// The old record as often as the longer one.
pub fn slots_or_none(random: &mut Random) -> Option<u8> {
    random.flip().then(|| slots(random))
}

/// The event, half of the time with slots where it may carry them.
fn with_or_without_slots(random: &mut Random, mut event: Event) -> Event {
    if let Event::SetupRequest { s, .. } | Event::DConnect { s, .. } | Event::DInfo { s, .. } =
        &mut event
    {
        *s = slots_or_none(random);
    }
    event
}

/// One event of any kind. Network events carry i.
pub fn event(random: &mut Random, i: u16) -> Event {
    let event = event_without_slots(random, i);
    with_or_without_slots(random, event)
}

/// The same, with the old records alone.
pub fn event_without_slots(random: &mut Random, i: u16) -> Event {
    let nonzero = if i == 0 { identifier(random) } else { i };
    match random.below(23) {
        0 => Event::SetupRequest {
            a: known_address(random),
            d: mode(random),
            q: random.flip(),
            s: None,
        },
        1 => Event::SetupResponse,
        2 => Event::ReleaseRequest,
        3 => Event::TxRequest { k: random.flip() },
        4 => Event::DCallProceeding { i: nonzero },
        5 => Event::DAlert { i: nonzero },
        6 => Event::DConnect {
            i: nonzero,
            g: grant(random),
            d: mode(random),
            o: t310_code(random),
            s: None,
        },
        7 => Event::DConnectAcknowledge { i: nonzero, g: grant(random), o: t310_code(random) },
        8 => Event::DSetup { i: nonzero, a: address(random), d: mode(random) },
        9 => Event::DInfo {
            i: nonzero,
            r: random.flip(),
            o: t310_code_or_absent(random),
            d: mode(random),
            s: None,
        },
        10 => Event::DTxGranted { i: nonzero, g: grant(random) },
        11 => Event::DTxCeased { i: nonzero },
        12 => Event::DTxInterrupt { i: nonzero, g: grant(random) },
        13 => Event::DTxWait { i: nonzero },
        14 => Event::DTxContinue { i: nonzero, k: random.flip() },
        15 => Event::DCallRestore {
            i: nonzero,
            g: grant(random),
            r: random.flip(),
            o: t310_code_or_absent(random),
        },
        16 => Event::DDisconnect { i },
        17 => Event::DRelease { i },
        18 => Event::ReportSent,
        19 => Event::ReportFailed,
        20 => Event::Break,
        21 => Event::Resume,
        _ => Event::Expiry { n: random.pick(Timer::ALL) },
    }
}

/// One message of any kind.
pub fn message(random: &mut Random) -> Message {
    use crate::account::Cause;
    let i = identifier(random);
    let i_or_zero = if random.one_in(4) { 0 } else { i };
    match random.below(23) {
        0 => Message::USetup {
            a: known_address(random),
            d: mode(random),
            q: random.flip(),
            s: slots_or_none(random),
        },
        1 => Message::UConnect { i },
        2 => Message::UDisconnect { i: i_or_zero, c: random.pick(Cause::ALL) },
        3 => Message::URelease { i: i_or_zero },
        4 => Message::UInfo { i, d: mode(random) },
        5 => Message::UTxDemand { i },
        6 => Message::UTxCeased { i },
        7 => Message::UCallRestore { i, a: address(random), q: random.flip() },
        8 => Message::Stop { n: random.pick(Timer::ALL) },
        9 => {
            let n = random.pick(Timer::ALL);
            Message::Start { n, o: if n == Timer::T310 { t310_code(random) } else { 0 } }
        }
        10 => Message::Configure { p: random.pick(Plane::ALL) },
        11 => Message::Cancel,
        12 => Message::SetupIndication { i, a: address(random), d: mode(random) },
        13 => Message::SetupConfirm { i, g: grant(random) },
        14 => Message::Proceed,
        15 => Message::Alert,
        16 => Message::Complete { g: grant(random) },
        17 => Message::ReleaseIndication { c: random.pick(Cause::ALL) },
        18 => Message::ReleaseConfirm,
        19 => Message::TxIndication { x: random.below(9) as u8 },
        20 => Message::Place { place: random.below(8) as u8 },
        21 => Message::ChannelAnswer { number: random.word() as u16, v: random.pick(Verdict::ALL) },
        _ => Message::ModifyIndication { d: mode(random), s: slots(random) },
    }
}

/// An event a network and a user could well send now, so that runs get deep into a call.
/// One in `ending` ends or may end the call.
pub fn likely_event(random: &mut Random, call: &Call, ending: usize) -> Event {
    let event = likely_event_without_slots(random, call, ending);
    with_or_without_slots(random, event)
}

/// The same, with the old records alone.
pub fn likely_event_without_slots(random: &mut Random, call: &Call, ending: usize) -> Event {
    let i = if call.identifier == 0 { identifier(random) } else { call.identifier };
    if random.one_in(ending) {
        return match random.below(5) {
            0 => Event::ReleaseRequest,
            1 => Event::DDisconnect { i },
            2 => Event::DRelease { i },
            3 => Event::ReportFailed,
            _ => Event::Expiry { n: a_running_timer(random, call) },
        };
    }
    let r = random.flip();
    let k = random.flip();
    match (call.state, call.path) {
        (State::Idle, _) => {
            if random.flip() {
                Event::SetupRequest { a: known_address(random), d: mode(random), q: k, s: None }
            } else {
                Event::DSetup { i, a: address(random), d: mode(random) }
            }
        }
        (State::MoCallSetup, _) => match random.below(6) {
            0 => Event::ReportSent,
            1 => Event::DCallProceeding { i },
            2 => Event::DAlert { i },
            _ => Event::DConnect {
                i,
                g: grant(random),
                d: mode(random),
                o: t310_code(random),
                s: None,
            },
        },
        (State::MtCallSetup, _) => {
            if call.running(Timer::T301) {
                Event::DConnectAcknowledge { i, g: grant(random), o: t310_code(random) }
            } else {
                Event::SetupResponse
            }
        }
        (State::CallActive, Path::Up) => match random.below(13) {
            0..=2 => Event::TxRequest { k },
            3 | 4 => {
                Event::DInfo { i, r, o: t310_code_or_absent(random), d: mode(random), s: None }
            }
            5..=7 => Event::DTxGranted { i, g: grant(random) },
            8 => Event::DTxCeased { i },
            9 => Event::DTxInterrupt { i, g: grant(random) },
            10 => Event::DTxWait { i },
            11 => Event::Break,
            _ => Event::Expiry { n: Timer::T311 },
        },
        (State::CallActive, Path::Broken) => {
            if random.one_in(3) {
                Event::TxRequest { k }
            } else {
                Event::Resume
            }
        }
        (State::CallActive, Path::Restoring) => {
            if random.one_in(4) {
                Event::Break
            } else {
                Event::DCallRestore { i, g: grant(random), r, o: t310_code_or_absent(random) }
            }
        }
        (State::Wait, _) => {
            if random.one_in(4) {
                Event::Break
            } else {
                Event::DTxContinue { i, k }
            }
        }
        (State::CallDisconnect, _) => match random.below(4) {
            0 => Event::ReportSent,
            1 => Event::Expiry { n: Timer::T308 },
            2 => Event::DRelease { i },
            _ => Event::DDisconnect { i },
        },
    }
}

fn a_running_timer(random: &mut Random, call: &Call) -> Timer {
    let first = random.below(Timer::ALL.len());
    let in_turn = |n| Timer::ALL[(first + n) % Timer::ALL.len()];
    (0..Timer::ALL.len()).map(in_turn).find(|&n| call.running(n)).unwrap_or(Timer::ALL[first])
}

/// Any sound record, most of them out of reach from fresh.
pub fn sound_record(random: &mut Random) -> Call {
    let state = random.pick(&State::ALL);
    if state == State::Idle {
        return Call::FRESH;
    }
    let mut call = Call {
        state,
        identifier: identifier(random),
        address: address(random),
        mode: mode(random),
        asked: random.flip(),
        sent: random.flip(),
        path: Path::Up,
        plane: Plane::Off,
        kept: Plane::Off,
        t310_code: t310_code(random),
        timers: [(); 7].map(|()| random.flip()),
        slots: slots(random),
    };
    if matches!(state, State::MoCallSetup | State::CallDisconnect) && random.one_in(3) {
        call.identifier = 0;
    }
    if state == State::CallActive {
        call.path = random.pick(&[Path::Up, Path::Up, Path::Broken, Path::Restoring]);
        if call.path == Path::Up {
            call.plane = random.pick(Plane::ALL);
        }
    }
    if state == State::Wait {
        call.kept = random.pick(Plane::ALL);
    }
    call.timers[Timer::T306 as usize] = call.path == Path::Restoring;
    call.timers[Timer::T311 as usize] = call.plane == Plane::Transmit;
    debug_assert!(call.sound());
    call
}

/// Bytes handed in as a call record that are none, or one that is not sound: mostly a sound
/// record with a field or two changed, since those are the ones a careless check would take.
pub fn damaged_record(random: &mut Random) -> Bytes {
    let mut record = Bytes::new(&sound_record(random).pack());
    match random.below(8) {
        0 => {
            // Another length.
            let len = random.below(Bytes::ROOM);
            record.len = if len == RECORD_LEN { RECORD_LEN + 1 } else { len };
            for byte in &mut record.bytes[RECORD_LEN..] {
                *byte = random.byte();
            }
        }
        1 => {
            for byte in &mut record.bytes[..RECORD_LEN] {
                *byte = random.byte();
            }
        }
        2 => {
            // Every byte small: a record, seldom a sound one.
            for byte in &mut record.bytes[..RECORD_LEN] {
                *byte = random.below(3) as u8;
            }
            record.bytes[0] = random.below(6) as u8;
            record.bytes[11] = 1 + random.below(4) as u8;
            record.bytes[12] = 1 + random.below(4) as u8;
            record.bytes[21] = random.below(6) as u8;
        }
        changes => {
            for _ in 0..(1 + changes % 3) {
                let at = random.below(RECORD_LEN);
                record.bytes[at] = match random.below(4) {
                    0 => random.byte(),
                    1 => record.bytes[at].wrapping_add(1),
                    2 => record.bytes[at].wrapping_sub(1),
                    _ => random.below(20) as u8,
                };
            }
        }
    }
    record
}

/// An event record made wrong: short, long, of another kind or a retired one, or with a byte changed.
pub fn damaged_event(random: &mut Random, event: Event) -> Bytes {
    let mut record = Bytes::of_event(event);
    match random.below(11) {
        0 => record.len = random.below(record.len),
        1 => record.len += 1 + random.below(Bytes::ROOM - MAX_RECORD_LEN),
        2 => {
            // Another body size, and a length field that owns up to it.
            record.len = random.below(Bytes::ROOM);
            record.set_length_field(record.len);
        }
        3 => record.bytes[random.below(2)] = random.byte(),
        4 => {
            let off = random.pick(&[-2isize, -1, 1, 2, 256]);
            record.set_length_field((record.len as isize + off) as usize);
        }
        5 => record.bytes[2 + random.below(2)] = random.byte(),
        6 => record.bytes[2] = record.bytes[2].wrapping_add(random.pick(&[1, 255])),
        // MODIFY request, whatever its body.
        7 => record.bytes[2..4].copy_from_slice(&[0x05, 0x01]),
        8 => {
            record.len = random.below(Bytes::ROOM);
            for byte in &mut record.bytes[..record.len] {
                *byte = random.byte();
            }
        }
        _ => {
            let at = random.below(record.len);
            record.bytes[at] = match random.below(3) {
                0 => random.byte(),
                1 => record.bytes[at].wrapping_add(1),
                _ => random.below(20) as u8,
            };
        }
    }
    record
}
