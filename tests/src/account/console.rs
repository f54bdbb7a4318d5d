//! The console: eight places, each with a call of its own; every event goes to the places that the
//! request names, and leaves every other record unchanged.

use super::records::HEAD_LEN;
use super::{Call, Event, Message, State, RECORD_LEN};

pub const PLACES: usize = 8;
/// Bytes of a table: the eight records one after the other.
pub const TABLE_LEN: usize = PLACES * RECORD_LEN;
/// The record 0605 before a place's messages.
const MARK_LEN: usize = HEAD_LEN + 1;
/// More than any step writes.
const ROOM: usize = 64;

#[derive(Clone, Copy, Debug, PartialEq, Eq)]
pub enum Refusal {
    /// 1 to 9: as the step gives them, 1 also for the table and 5 where no place fits.
    Step(super::Refusal),
    /// 40: place over 7.
    Place,
    /// 41: D-SETUP with an identifier already held.
    Held,
    /// 42: SETUP request while a place outside IDLE has no identifier.
    Unidentified,
    /// 43: no IDLE place.
    Full,
}

impl From<super::Refusal> for Refusal {
    fn from(refusal: super::Refusal) -> Refusal {
        Refusal::Step(refusal)
    }
}

impl Refusal {
    pub const fn number(self) -> u8 {
        match self {
            Refusal::Step(refusal) => refusal.number(),
            Refusal::Place => 40,
            Refusal::Held => 41,
            Refusal::Unidentified => 42,
            Refusal::Full => 43,
        }
    }

    /// Which field of the event was wrong.
    pub const fn place(self) -> u8 {
        match self {
            Refusal::Step(refusal) => refusal.place(),
            _ => 0,
        }
    }
}

/// Where an event goes.
#[derive(Clone, Copy, Debug, PartialEq, Eq)]
pub enum Goes {
    To(usize),
    /// BREAK and RESUME.
    ToAllThatTakeIt,
}

#[derive(Clone, Copy, Debug, PartialEq, Eq, Hash)]
pub struct Console {
    pub calls: [Call; PLACES],
}

impl Console {
    pub const FRESH: Console = Console { calls: [Call::FRESH; PLACES] };

    /// Each record sound, no identifier above 0 held twice, and at most one place outside IDLE
    /// without one.
    pub fn sound(&self) -> bool {
        let twice = |at: usize| {
            let call = &self.calls[at];
            let same = |other: &Call| busy(other) && other.identifier == call.identifier;
            busy(call) && self.calls[..at].iter().any(same)
        };
        self.calls.iter().all(Call::sound) && !(1..PLACES).any(twice)
    }

    fn held_by(&self, i: u16) -> Option<usize> {
        self.calls.iter().position(|call| busy(call) && call.identifier == i)
    }

    fn lowest_idle(&self) -> Option<usize> {
        self.calls.iter().position(|call| !busy(call))
    }

    /// The places an event goes to. `place` is looked at only for an event that names one.
    pub fn goes(&self, place: u8, event: Event) -> Result<Goes, Refusal> {
        match event {
            Event::SetupResponse
            | Event::ReleaseRequest
            | Event::TxRequest { .. }
            | Event::ReportSent
            | Event::ReportFailed
            | Event::Expiry { .. } => match place as usize {
                place @ 0..PLACES => Ok(Goes::To(place)),
                _ => Err(Refusal::Place),
            },
            Event::DSetup { i, .. } => match self.held_by(i) {
                Some(_) => Err(Refusal::Held),
                None => self.lowest_idle().map(Goes::To).ok_or(Refusal::Full),
            },
            Event::SetupRequest { .. } => match self.held_by(0) {
                Some(_) => Err(Refusal::Unidentified),
                None => self.lowest_idle().map(Goes::To).ok_or(Refusal::Full),
            },
            Event::Break | Event::Resume => Ok(Goes::ToAllThatTakeIt),
            Event::DCallProceeding { i }
            | Event::DAlert { i }
            | Event::DConnect { i, .. }
            | Event::DConnectAcknowledge { i, .. }
            | Event::DInfo { i, .. }
            | Event::DTxGranted { i, .. }
            | Event::DTxCeased { i }
            | Event::DTxInterrupt { i, .. }
            | Event::DTxWait { i }
            | Event::DTxContinue { i, .. }
            | Event::DCallRestore { i, .. }
            | Event::DDisconnect { i }
            | Event::DRelease { i } => {
                let fits = self.held_by(i).or_else(|| self.held_by(0));
                fits.map(Goes::To).ok_or(Refusal::Step(super::Refusal::Identifier))
            }
        }
    }

    /// Takes one event record, with the place handed in beside it; writes what it orders, each place's
    /// messages behind a record 0605, and counts the bytes. A refusal changes nothing.
    pub fn step(&mut self, place: u8, event: &[u8], out: &mut [u8]) -> Result<usize, Refusal> {
        if !self.sound() {
            return Err(super::Refusal::NotSound.into());
        }
        let event = Event::read(event)?;
        match self.goes(place, event)? {
            Goes::To(at) => Ok(take(at, &mut self.calls[at], event, out)?),
            Goes::ToAllThatTakeIt => self.take_all(event, out),
        }
    }

    /// All of them take it or, for lack of room, none.
    fn take_all(&mut self, event: Event, out: &mut [u8]) -> Result<usize, Refusal> {
        let (mut takes, mut room) = ([false; PLACES], 0);
        for (at, call) in self.calls.iter().enumerate() {
            if let Ok(count) = take(at, &mut call.clone(), event, &mut [0; ROOM]) {
                takes[at] = true;
                room += count;
            }
        }
        if takes == [false; PLACES] {
            return Err(super::Refusal::NoRow.into());
        }
        if room > out.len() {
            return Err(super::Refusal::Buffer.into());
        }
        let mut written = 0;
        for at in (0..PLACES).filter(|&at| takes[at]) {
            written += take(at, &mut self.calls[at], event, &mut out[written..])?;
        }
        Ok(written)
    }

    /// The console in these bytes; none if they are no eight records. It need not be sound.
    pub fn unpack(bytes: &[u8]) -> Option<Console> {
        let bytes: &[u8; TABLE_LEN] = bytes.try_into().ok()?;
        let mut console = Console::FRESH;
        for (call, record) in console.calls.iter_mut().zip(bytes.chunks_exact(RECORD_LEN)) {
            *call = Call::unpack(record)?;
        }
        Some(console)
    }

    pub fn pack(&self) -> [u8; TABLE_LEN] {
        let mut bytes = [0; TABLE_LEN];
        for (record, call) in bytes.chunks_exact_mut(RECORD_LEN).zip(&self.calls) {
            record.copy_from_slice(&call.pack());
        }
        bytes
    }
}

fn busy(call: &Call) -> bool {
    call.state != State::Idle
}

/// One place's step. A place that writes nothing has no record 0605, and needs no room for it.
fn take(at: usize, call: &mut Call, event: Event, out: &mut [u8]) -> Result<usize, super::Refusal> {
    let (mark, messages) = match out.len() {
        0..MARK_LEN => (&mut [][..], &mut [][..]),
        _ => out.split_at_mut(MARK_LEN),
    };
    let count = call.take(event, messages)?;
    if count == 0 {
        return Ok(0);
    }
    Message::Place { place: at as u8 }
        .write(mark)
        .expect("there is room for the messages behind it");
    Ok(MARK_LEN + count)
}

// Behind the host boundary: the library's two functions over slices.

fn word(result: Result<usize, Refusal>) -> u32 {
    match result {
        Ok(count) => count as u32,
        Err(refusal) => u32::from(refusal.number()) << 24 | u32::from(refusal.place()) << 16,
    }
}

pub fn fresh(table: &mut [u8]) -> u32 {
    if table.len() != TABLE_LEN {
        return word(Err(super::Refusal::NotSound.into()));
    }
    table.copy_from_slice(&Console::FRESH.pack());
    word(Ok(TABLE_LEN))
}

pub fn step(table: &mut [u8], place: u8, event: &[u8], out: &mut [u8]) -> u32 {
    let Some(held) = Console::unpack(table) else {
        return word(Err(super::Refusal::NotSound.into()));
    };
    let mut console = held;
    let result = console.step(place, event, out);
    for (at, record) in table.chunks_exact_mut(RECORD_LEN).enumerate() {
        if console.calls[at] != held.calls[at] {
            record.copy_from_slice(&console.calls[at].pack());
        }
    }
    word(result)
}

#[cfg(test)]
mod examples {
    use super::super::{Grant, Mode, Timer};
    use super::*;
    use crate::generate::Bytes;

    struct Host {
        table: [u8; TABLE_LEN],
        written: Vec<u8>,
    }

    impl Host {
        fn fresh() -> Host {
            let mut table = [0xEE; TABLE_LEN];
            assert_eq!(fresh(&mut table), 176);
            Host { table, written: Vec::new() }
        }

        fn with_room(&mut self, room: usize, place: u8, event: Event) -> u32 {
            let (mut out, before) = (vec![0xEE; room], self.table);
            let word = step(&mut self.table, place, Bytes::of_event(event).as_slice(), &mut out);
            let (answer, count) = (word >> 24, word as usize & 0xFFFF);
            assert!(out[count..].iter().all(|&byte| byte == 0xEE));
            assert!(answer == 0 || (count == 0 && self.table == before));
            out.truncate(count);
            self.written = out;
            answer
        }

        fn answer(&mut self, place: u8, event: Event) -> u32 {
            self.with_room(200, place, event)
        }

        fn call(&self, place: usize) -> Call {
            Console::unpack(&self.table).expect("a table").calls[place]
        }
    }

    const SETUP: Event = Event::SetupRequest { a: 7, d: Mode::Simplex, q: true, s: None };

    fn d_setup(i: u16) -> Event {
        Event::DSetup { i, a: 9, d: Mode::Simplex }
    }

    fn d_connect(i: u16) -> Event {
        Event::DConnect { i, g: Grant::Granted, d: Mode::Simplex, o: 3, s: None }
    }

    #[test]
    fn a_places_messages_follow_a_record_0605() {
        let mut host = Host::fresh();
        // SETUP request names no place: 200 is ignored.
        assert_eq!(host.answer(200, SETUP), 0);
        assert_eq!(host.written[..5], [5, 0, 0x05, 0x06, 0]);
        assert_eq!(host.written.len(), 5 + 17);
        assert_eq!(host.answer(0, d_setup(5)), 0);
        assert_eq!(host.written[..5], [5, 0, 0x05, 0x06, 1], "the lowest IDLE place");
        // A place that writes nothing has no such record, and needs no room.
        assert_eq!(host.with_room(0, 0, Event::ReportSent), 0);
        assert_eq!(host.written, []);
        // 5 bytes more than the step alone.
        assert_eq!(host.with_room(36, 0, d_connect(21)), 7);
        assert_eq!(host.with_room(37, 0, d_connect(21)), 0);
        assert_eq!((host.call(0).identifier, host.call(1).identifier), (21, 5));
    }

    #[test]
    fn where_a_network_event_goes() {
        let mut host = Host::fresh();
        assert_eq!(host.answer(0, Event::DRelease { i: 0 }), 5, "no place outside IDLE");
        assert_eq!(host.answer(0, d_setup(5)), 0);
        assert_eq!(host.answer(0, d_connect(6)), 5, "no place fits");
        assert_eq!(host.answer(0, SETUP), 0);
        assert_eq!(host.answer(0, d_connect(5)), 6, "to the place that holds it, which has no row");
        assert_eq!(host.answer(0, d_connect(6)), 0, "else to the one that holds none");
        assert_eq!(host.call(1).identifier, 6);
        assert_eq!(host.answer(0, Event::DRelease { i: 0 }), 5, "0 is held by none");
    }

    #[test]
    fn refusals_of_the_console() {
        let mut host = Host::fresh();
        assert_eq!(host.answer(8, Event::ReleaseRequest), 40);
        assert_eq!(host.answer(7, Event::ReleaseRequest), 6);
        assert_eq!(host.answer(0, SETUP), 0);
        assert_eq!(host.answer(0, SETUP), 42, "a place outside IDLE has no identifier");
        for i in 1..8 {
            assert_eq!(host.answer(0, d_setup(i)), 0);
        }
        assert_eq!(host.answer(0, d_setup(3)), 41);
        assert_eq!(host.answer(0, d_setup(30)), 43);
        assert_eq!(host.answer(0, SETUP), 42);
        assert_eq!(host.answer(0, d_connect(30)), 0);
        assert_eq!(host.answer(0, SETUP), 43);
        assert_eq!(host.answer(255, Event::Expiry { n: Timer::T303 }), 40);
    }

    #[test]
    fn break_and_resume_go_to_all_or_none() {
        let mut host = Host::fresh();
        assert_eq!(host.answer(0, Event::Break), 6);
        for i in [21, 22] {
            assert_eq!(host.answer(0, SETUP), 0);
            assert_eq!(host.answer(0, d_connect(i)), 0);
        }
        assert_eq!(host.answer(0, d_setup(5)), 0);
        // Each: 0605, STOP 311, CONFIGURE 4.
        assert_eq!(host.with_room(31, 0, Event::Break), 7);
        assert_eq!(host.with_room(32, 9, Event::Break), 0);
        assert_eq!(host.written[..5], [5, 0, 0x05, 0x06, 0]);
        assert_eq!(host.written[16..21], [5, 0, 0x05, 0x06, 1], "places rising");
        assert_eq!(host.answer(0, Event::Break), 6, "none would take a second");
        assert_eq!(host.with_room(45, 0, Event::Resume), 7);
        assert_eq!(host.with_room(46, 0, Event::Resume), 0);
    }

    #[test]
    fn tables_that_are_none() {
        let good = Host::fresh();
        let event = Bytes::of_event(Event::Break);
        let expect = |table: &[u8], answer: u32| {
            let mut after = table.to_vec();
            assert_eq!(step(&mut after, 0, event.as_slice(), &mut []), answer << 24);
            assert_eq!(after, table);
        };
        expect(&good.table[..154], 1);
        expect(&[&good.table[..], &good.table[..RECORD_LEN]].concat(), 1);
        let held = |identifiers: [u16; 2]| {
            let mut console = Console::FRESH;
            for (at, identifier) in [(1, identifiers[0]), (6, identifiers[1])] {
                let state = State::CallDisconnect;
                console.calls[at] = Call { state, identifier, ..Call::FRESH };
            }
            console.pack()
        };
        expect(&held([3, 4]), 6);
        expect(&held([0, 4]), 6);
        expect(&held([4, 4]), 1);
        expect(&held([0, 0]), 1);
        let mut unsound = good.table;
        unsound[7 * RECORD_LEN + 8] = 1;
        expect(&unsound, 1);
    }
}
