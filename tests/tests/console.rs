//! The console: library and account agree on every event, on tables reached from eight fresh records
//! and on tables that no run gives; and each place is a call of its own over the events that went to it.
//!
//! Where an event went is told a second time here, from the bytes before and after and from what was
//! written, by the step of a single call alone.

use callcontrol_tests::account::console::{self, Console, Goes, PLACES, TABLE_LEN};
use callcontrol_tests::account::{
    records, Call, Event, History, Message, Plane, State, Timer, RECORD_LEN,
};
use callcontrol_tests::explore::{alphabet, written, Letters};
use callcontrol_tests::generate::{
    damaged_event, damaged_record, event, identifier, likely_event, sound_record, Bytes, Random,
};
use callcontrol_tests::programs::stack_used;
use callcontrol_tests::request::{Function, Place, Request};
use callcontrol_tests::sidebyside::{tell, Queue};
use callcontrol_tests::tape::console_tape;
use std::collections::{HashSet, VecDeque};
use std::thread;

const THREADS: u64 = 2;
/// Each thread hands in this many events of each part.
const EVENTS_FROM_FRESH: usize = 4_000_000;
const EVENTS_OUT_OF_REACH: usize = 1_000_000;
const EVENTS_DAMAGED_TABLE: usize = 750_000;
const EVENTS_IN_ALL: u64 =
    THREADS * (EVENTS_FROM_FRESH + EVENTS_OUT_OF_REACH + EVENTS_DAMAGED_TABLE) as u64;
const _: () = assert!(EVENTS_IN_ALL >= 10_000_000);

/// Events seen, by answer.
type Answers = [u64; 44];
const ANSWERS: [usize; 12] = [0, 1, 2, 3, 9, 4, 40, 41, 42, 43, 5, 6];

/// A table's record at a place.
fn record(table: &[u8], place: usize) -> &[u8] {
    &table[RECORD_LEN * place..][..RECORD_LEN]
}

fn call(table: &[u8], place: usize) -> Call {
    Call::unpack(record(table, place)).expect("a step gives records back")
}

/// What was handed in and what came of it.
struct Turn<'a> {
    before: &'a [u8],
    event: &'a [u8],
    answer: u32,
    after: &'a [u8],
    written: &'a [u8],
}

/// The messages of each place, as they stand behind its record 0605.
fn by_place(written: &[u8]) -> Vec<(usize, Vec<u8>)> {
    let mut places: Vec<(usize, Vec<u8>)> = Vec::new();
    for message in records::messages(written) {
        match message.expect("only messages are written") {
            Message::Place { place } => places.push((place as usize, Vec::new())),
            message => {
                let (_, messages) = places.last_mut().expect("a place stands before its messages");
                messages.extend_from_slice(Bytes::of_message(message).as_slice());
            }
        }
    }
    places
}

impl Turn<'_> {
    /// What the request says of every event that is taken, from the bytes alone: what each place made
    /// of it is what the step of one call makes of it, places rise, and one that writes nothing has no
    /// record 0605. Gives the places that it went to.
    fn taken_by(&self) -> Vec<usize> {
        assert_eq!(self.answer, 0);
        let event = Event::read(self.event).expect("what is taken can be read");
        let told = by_place(self.written);
        assert!(told.windows(2).all(|two| two[0].0 < two[1].0), "places rise");
        assert!(
            told.iter().all(|(_, messages)| !messages.is_empty()),
            "0605 has messages behind it"
        );

        // All that would take BREAK or RESUME; of another event, the one place that changed or wrote.
        let everywhere = matches!(event, Event::Break | Event::Resume);
        let mut went = Vec::new();
        for place in 0..PLACES {
            let mut out = [0; 64];
            let mut alone = call(self.before, place);
            let step = alone.step(self.event, &mut out);
            let messages =
                told.iter().find(|(at, _)| *at == place).map(|(_, messages)| &messages[..]);
            let touched =
                record(self.before, place) != record(self.after, place) || messages.is_some();
            if touched || (everywhere && step.is_ok()) {
                let count = step.expect("what goes to a place is taken there");
                assert_eq!(alone.pack(), record(self.after, place), "the step's record");
                assert_eq!(messages.unwrap_or_default(), &out[..count], "the step's messages");
                went.push(place);
            }
        }
        assert!(
            everywhere || went.len() <= 1,
            "an event for one place leaves every other unchanged"
        );
        went
    }
}

/// No two places hold one identifier, and at most one outside IDLE has none.
fn identifiers_apart(table: &[u8]) {
    let mut held = HashSet::new();
    for place in 0..PLACES {
        let call = call(table, place);
        assert!(call.sound(), "every step from a sound record gives a sound one");
        if call.state != State::Idle {
            assert!(held.insert(call.identifier), "identifier {} is held twice", call.identifier);
        }
    }
}

/// A host of a console, with all that each place should have come to beside it.
struct Host<'a> {
    queue: &'a mut Queue,
    table: [u8; TABLE_LEN],
    /// By the events that went to each place alone.
    alone: [(Call, History, Plane); PLACES],
    answers: Answers,
    /// The most that one place's event, BREAK and RESUME wrote.
    most: [usize; 3],
    calls: u64,
}

impl<'a> Host<'a> {
    fn fresh(queue: &'a mut Queue) -> Host<'a> {
        let request = Request::of(Function::ConsoleFresh, &[0xEE; TABLE_LEN], &[], 0, 0xEE);
        let said = queue.check(&request, |table, _, _| console::fresh(table));
        assert_eq!((said.answer, said.count), (0, TABLE_LEN), "fresh counts its 176 bytes");
        let table = said.record.try_into().expect("still as long");
        let alone = [(Call::FRESH, History::EMPTY, Plane::Off); PLACES];
        Host { queue, table, alone, answers: [0; 44], most: [0; 3], calls: 0 }
    }

    /// One event, with so much room.
    fn hand_in(&mut self, place: u8, event: &[u8], room: usize) -> u32 {
        let filler = (self.calls as u8).wrapping_mul(29);
        self.calls += 1;
        let request =
            Request::of(Function::ConsoleStep, &self.table, event, room, filler).with(place.into());
        let said =
            self.queue.check(&request, |table, event, out| console::step(table, place, event, out));
        let answer = said.answer;
        self.answers[answer as usize] += 1;
        assert_ne!(answer, 1, "a table reached from fresh is sound");
        if answer == 0 {
            let written = said.written();
            let turn = Turn { before: &self.table, event, answer: 0, after: said.record, written };
            let mut went = turn.taken_by();
            let read = Event::read(event).expect("it was taken");
            if went.is_empty() {
                // It changed nothing and wrote nothing: the account says where it went.
                let held = Console::unpack(&self.table).expect("a table");
                if let Ok(Goes::To(at)) = held.goes(place, read) {
                    went.push(at);
                }
            }
            let kind = match read {
                Event::Break => 1,
                Event::Resume => 2,
                _ => 0,
            };
            self.most[kind] = self.most[kind].max(written.len());
            let told = by_place(written);
            for place in went {
                let (call, history, plane) = &mut self.alone[place];
                let mut out = [0; 64];
                let count = call.step(event, &mut out).expect("it is taken by that call alone");
                *history = history.then(read);
                for message in records::messages(&out[..count]) {
                    if let Ok(Message::Configure { p }) = message {
                        *plane = p;
                    }
                }
                let messages = told.iter().find(|(at, _)| *at == place);
                assert_eq!(messages.map_or(&[][..], |(_, bytes)| bytes), &out[..count]);
            }
            self.table = said.record.try_into().expect("still as long");
            identifiers_apart(&self.table);
            for (place, (alone, history, told)) in self.alone.iter().enumerate() {
                let held = call(&self.table, place);
                assert_eq!(held, *alone, "the record of place {place} is that of its own events");
                assert_eq!(history.plane(), held.plane, "the plane by history at place {place}");
                assert_eq!(*told, held.plane, "the last CONFIGURE at place {place}");
            }
        }
        answer
    }

    fn taken(&mut self, place: u8, event: Event) {
        let bytes = Bytes::of_event(event);
        assert_eq!(self.hand_in(place, bytes.as_slice(), 256), 0, "{event:?} at {place}");
    }
}

fn room(random: &mut Random) -> usize {
    match random.below(8) {
        0 => random.below(200),
        1 => random.below(45),
        _ => 256,
    }
}

/// An event a console's network and users could well send now, with the place that it is for.
fn likely(random: &mut Random, table: &[u8], busy_most: usize) -> (u8, Event) {
    let calls: Vec<Call> = (0..PLACES).map(|place| call(table, place)).collect();
    let busy: Vec<usize> = (0..PLACES).filter(|&at| calls[at].state != State::Idle).collect();
    if busy.len() < busy_most && random.one_in(3) {
        return (random.byte(), likely_event(random, &Call::FRESH, 1000));
    }
    if random.one_in(12) {
        return (random.byte(), if random.flip() { Event::Break } else { Event::Resume });
    }
    match busy[..] {
        [] => (random.byte(), likely_event(random, &Call::FRESH, 1000)),
        _ => {
            let place = random.pick(&busy);
            let ending = random.pick(&[6, 30]);
            (place as u8, likely_event(random, &calls[place], ending))
        }
    }
}

fn runs_from_fresh(seed: u64) -> Answers {
    let mut random = Random::new(seed);
    let mut queue = Queue::new();
    let mut answers = [0; 44];
    let mut most = [0; 3];
    let mut left = EVENTS_FROM_FRESH;
    while left > 0 {
        let events = (1 + random.below(600)).min(left);
        let busy_most = 1 + random.below(9);
        left -= events;
        let mut host = Host::fresh(&mut queue);
        for _ in 0..events {
            let (place, chosen) = likely(&mut random, &host.table, busy_most);
            let held = call(&host.table, random.below(PLACES)).identifier;
            let (place, bytes) = match random.below(20) {
                0 => {
                    let chosen = event(&mut random, held);
                    (place, damaged_event(&mut random, chosen))
                }
                1 | 2 => (random.below(9) as u8, Bytes::of_event(event(&mut random, held))),
                3 => (random.byte(), Bytes::of_event(chosen)),
                _ => (place, Bytes::of_event(chosen)),
            };
            let room = room(&mut random);
            host.hand_in(place, bytes.as_slice(), room);
        }
        (0..44).for_each(|answer| answers[answer] += host.answers[answer]);
        (0..3).for_each(|kind| most[kind] = most[kind].max(host.most[kind]));
    }
    queue.finish();
    assert!(most[0] <= 37 && most[1] <= 128 && most[2] <= 184, "at most {most:?} bytes");
    answers
}

/// A sound table, most of them out of reach from fresh.
fn sound_table(random: &mut Random) -> Console {
    let mut console = Console::FRESH;
    let idle = random.pick(&[0, 2, 6]);
    let mut held = HashSet::new();
    for call in &mut console.calls {
        if random.below(8) < idle {
            continue;
        }
        *call = sound_record(random);
        while call.state != State::Idle && !held.insert(call.identifier) {
            call.identifier = identifier(random);
        }
    }
    assert!(console.sound());
    console
}

fn event_for(random: &mut Random, console: &Console) -> (u8, Bytes) {
    let place = random.below(PLACES);
    let held = console.calls[place];
    let chosen = match random.below(3) {
        0 => event(random, held.identifier),
        1 => random.pick(&[Event::Break, Event::Resume]),
        _ => likely_event(random, &held, 3),
    };
    let place = if random.one_in(6) { random.byte() } else { place as u8 };
    let bytes = match random.below(12) {
        0 => damaged_event(random, chosen),
        _ => Bytes::of_event(chosen),
    };
    (place, bytes)
}

fn sound_tables_out_of_reach(seed: u64) -> Answers {
    let mut random = Random::new(seed);
    let mut queue = Queue::new();
    let mut answers = [0; 44];
    for _ in 0..EVENTS_OUT_OF_REACH {
        let console = sound_table(&mut random);
        let (place, bytes) = event_for(&mut random, &console);
        let table = console.pack();
        let (event, room, filler) = (bytes.as_slice(), random.below(420), random.byte());
        let request =
            Request::of(Function::ConsoleStep, &table, event, room, filler).with(place.into());
        let said =
            queue.check(&request, |table, event, out| console::step(table, place, event, out));
        answers[said.answer as usize] += 1;
        assert_ne!(said.answer, 1);
        if said.answer == 0 {
            let (after, written) = (said.record, said.written());
            Turn { before: &table, event, answer: 0, after, written }.taken_by();
            identifiers_apart(after);
        }
    }
    queue.finish();
    answers
}

/// Another length, a record that is none, one that is not sound, an identifier held twice, two places
/// outside IDLE without one; or a sound table after all.
fn damaged_tables(seed: u64) -> Answers {
    let mut random = Random::new(seed);
    let mut queue = Queue::new();
    let mut answers = [0; 44];
    for _ in 0..EVENTS_DAMAGED_TABLE {
        let console = sound_table(&mut random);
        let (place, bytes) = event_for(&mut random, &console);
        let mut table = console.pack().to_vec();
        let (one, other) = (random.below(PLACES), random.below(PLACES));
        match random.below(6) {
            0 => table.resize(random.pick(&[0, 1, 22, 88, 154, 168, 175, 177, 198, 352]), 0),
            1 => {
                let damaged = damaged_record(&mut random);
                let record = &mut table[RECORD_LEN * one..][..RECORD_LEN];
                let len = damaged.as_slice().len().min(RECORD_LEN);
                record[..len].copy_from_slice(&damaged.as_slice()[..len]);
            }
            2 => table[RECORD_LEN * one..][..RECORD_LEN]
                .copy_from_slice(&console.calls[other].pack()),
            3 => {
                // Two places with one identifier, whatever else they are.
                let mut call = console.calls[one];
                call.identifier = console.calls[other].identifier;
                table[RECORD_LEN * one..][..RECORD_LEN].copy_from_slice(&call.pack());
            }
            4 => {
                for at in [one, other] {
                    let mut call = console.calls[at];
                    call.identifier = 0;
                    table[RECORD_LEN * at..][..RECORD_LEN].copy_from_slice(&call.pack());
                }
            }
            _ => {
                let at = random.below(TABLE_LEN);
                table[at] = table[at].wrapping_add(random.pick(&[1, 255, 2, 4]));
            }
        }
        let (room, filler) = (random.below(420), random.byte());
        let request = Request::of(Function::ConsoleStep, &table, bytes.as_slice(), room, filler)
            .with(place.into());
        let said =
            queue.check(&request, |table, event, out| console::step(table, place, event, out));
        answers[said.answer as usize] += 1;
    }
    queue.finish();
    answers
}

#[test]
fn library_and_account_agree_on_generated_events() {
    type Part = fn(u64) -> Answers;
    let parts: [(&str, Part); 3] = [
        ("runs from fresh", runs_from_fresh),
        ("sound tables out of reach", sound_tables_out_of_reach),
        ("damaged tables", damaged_tables),
    ];
    let mut all = [0; 44];
    let shown: Vec<usize> = ANSWERS.into_iter().chain([8, 7]).collect();
    let row = |name: &str, seen: &Answers| {
        let seen: String = shown.iter().map(|&answer| format!("{:>9}", seen[answer])).collect();
        tell(&format!("{name:<28}{seen}"));
    };
    let head: String = shown.iter().map(|answer| format!("{answer:>9}")).collect();
    tell(&format!("{:<28}{head}", "events by answer"));
    for (number, (name, part)) in parts.into_iter().enumerate() {
        let answers = thread::scope(|scope| {
            let threads: Vec<_> = (0..THREADS)
                .map(|thread| scope.spawn(move || part(0xC045_0000 + 16 * number as u64 + thread)))
                .collect();
            let mut sum = [0; 44];
            for thread in threads {
                match thread.join() {
                    Ok(answers) => (0..44).for_each(|answer| sum[answer] += answers[answer]),
                    Err(difference) => std::panic::resume_unwind(difference),
                }
            }
            sum
        });
        row(name, &answers);
        (0..44).for_each(|answer| all[answer] += answers[answer]);
    }
    row("all", &all);
    assert_eq!(all.iter().sum::<u64>(), EVENTS_IN_ALL);
    for answer in ANSWERS.into_iter().chain([8, 7]) {
        assert!(all[answer] > 0, "answer {answer} was never seen");
    }
}

/// Every table in which at most two places are busy that a small alphabet reaches, with every event of
/// it at every place that it can name, and one that is none.
#[test]
fn every_table_of_two_busy_places_and_every_event() {
    const FEW: Letters =
        Letters { identifiers: &[0, 1, 2], addresses: &[1], t310_codes: &[3], slots: &[0] };
    let events: Vec<(Event, Bytes)> = written(alphabet(&FEW))
        .into_iter()
        .filter(|(event, _)| match *event {
            // What differs only in what a step stores is left to the tests of the step.
            Event::DInfo { r, .. } | Event::DCallRestore { r, .. } => r,
            _ => true,
        })
        .collect();
    let names_a_place = |event: &Event| {
        matches!(
            event,
            Event::SetupResponse
                | Event::ReleaseRequest
                | Event::TxRequest { .. }
                | Event::ReportSent
                | Event::ReportFailed
                | Event::Expiry { .. }
        )
    };
    let mut queue = Queue::new();
    let first = Console::FRESH.pack();
    let mut seen = HashSet::from([first]);
    let mut waiting = VecDeque::from([first]);
    let (mut steps, mut answers) = (0u64, [0u64; 44]);
    while let Some(table) = waiting.pop_front() {
        for (event, bytes) in &events {
            let places: &[u8] = if names_a_place(event) { &[0, 1, 2, 8] } else { &[200] };
            for &place in places {
                steps += 1;
                let bytes = bytes.as_slice();
                let request = Request::of(Function::ConsoleStep, &table, bytes, 64, steps as u8)
                    .with(place.into());
                let said = queue
                    .check(&request, |table, event, out| console::step(table, place, event, out));
                answers[said.answer as usize] += 1;
                if said.answer != 0 {
                    continue;
                }
                let next: [u8; TABLE_LEN] = said.record.try_into().expect("still as long");
                let written = said.written();
                Turn { before: &table, event: bytes, answer: 0, after: &next, written }.taken_by();
                identifiers_apart(&next);
                let busy = (0..PLACES).filter(|&at| next[RECORD_LEN * at] != 0).count();
                if busy <= 2 && seen.insert(next) {
                    waiting.push_back(next);
                }
            }
        }
    }
    queue.finish();
    tell(&format!(
        "{} tables of at most two busy places, {} events, {steps} steps: {} taken",
        seen.len(),
        events.len(),
        answers[0]
    ));
    for answer in [0, 40, 41, 42, 5, 6] {
        assert!(answers[answer] > 0, "answer {answer} was never seen");
    }
    assert!(seen.len() > 1000, "the alphabet reaches too little to show anything");
}

fn d_setup(i: u16) -> Event {
    use callcontrol_tests::account::Mode;
    Event::DSetup { i, a: 9, d: Mode::Simplex }
}

fn set_up() -> Event {
    use callcontrol_tests::account::Mode;
    Event::SetupRequest { a: 7, d: Mode::Simplex, q: true, s: None }
}

fn d_connect(i: u16) -> Event {
    use callcontrol_tests::account::{Grant, Mode};
    Event::DConnect { i, g: Grant::Granted, d: Mode::Simplex, o: 3, s: None }
}

/// The bounds that are said of a reached table, each reached: 37 for one place, 128 for BREAK, 184 for
/// RESUME; one byte less is 7 and nothing is changed.
#[test]
fn how_much_room_is_needed() {
    let mut queue = Queue::new();
    let mut host = Host::fresh(&mut queue);
    for i in 1..=8 {
        host.taken(0, set_up());
        let connect = Bytes::of_event(d_connect(i));
        assert_eq!(host.hand_in(0, connect.as_slice(), 36), 7);
        assert_eq!(host.hand_in(0, connect.as_slice(), 37), 0);
    }
    for (event, needed) in [(Event::Break, 128), (Event::Resume, 184), (Event::Break, 128)] {
        let bytes = Bytes::of_event(event);
        for room in 0..needed {
            assert_eq!(host.hand_in(0, bytes.as_slice(), room), 7, "{event:?} with {room} bytes");
        }
        assert_eq!(host.hand_in(0, bytes.as_slice(), needed), 0, "{event:?} with {needed} bytes");
    }
    assert_eq!(host.most, [37, 128, 184]);
    queue.finish();
}

/// An event that writes nothing needs no room, also at a place.
#[test]
fn what_writes_nothing_needs_no_room() {
    let mut queue = Queue::new();
    let mut host = Host::fresh(&mut queue);
    host.taken(0, set_up());
    assert_eq!(host.hand_in(0, Bytes::of_event(Event::ReportSent).as_slice(), 0), 0);
    host.taken(0, d_connect(21));
    host.taken(0, Event::Break);
    // Broken, asked: a cease changes asked and writes nothing.
    let cease = Bytes::of_event(Event::TxRequest { k: false });
    for room in 0..5 {
        let demand = Bytes::of_event(Event::TxRequest { k: true });
        assert_eq!(host.hand_in(0, cease.as_slice(), room), 0);
        assert_eq!(host.hand_in(0, demand.as_slice(), room), 0);
    }
    queue.finish();
}

/// Every place beside every event: only those that name a place are refused with 40, and only for a
/// place over 7.
#[test]
fn every_place_beside_every_kind_of_event() {
    let mut queue = Queue::new();
    let kinds = alphabet(&Letters {
        identifiers: &[0, 1],
        addresses: &[1],
        t310_codes: &[3],
        slots: &[0, 2],
    });
    let mut host = Host::fresh(&mut queue);
    host.taken(0, d_setup(1));
    let table = host.table;
    for event in kinds {
        let bytes = Bytes::of_event(event);
        let kind = u16::from_le_bytes([bytes.as_slice()[2], bytes.as_slice()[3]]);
        let names = matches!(kind, 0x0102..=0x0104 | 0x0301 | 0x0302 | 0x0401);
        for place in 0..=255 {
            host.table = table;
            host.alone[0].0 = call(&table, 0);
            (1..PLACES).for_each(|at| host.alone[at].0 = Call::FRESH);
            host.alone
                .iter_mut()
                .for_each(|alone| (alone.1, alone.2) = (History::EMPTY, Plane::Off));
            let answer = host.hand_in(place, bytes.as_slice(), 256);
            assert_eq!(answer == 40, names && place > 7, "{event:?} with place {place}: {answer}");
        }
    }
    queue.finish();
}

/// The order of the refusals, each with every later one that can apply at the same time.
#[test]
fn refusals_come_in_their_order() {
    let mut queue = Queue::new();
    let mut expect = |table: &[u8], place: u8, event: &[u8], room: usize, answer: u32| {
        let request =
            Request::of(Function::ConsoleStep, table, event, room, 0x6D).with(place.into());
        let said =
            queue.check(&request, |table, event, out| console::step(table, place, event, out));
        assert_eq!(said.answer, answer, "{event:02x?} with place {place} and {room} bytes");
    };
    let held = |identifiers: &[u16]| {
        let mut console = Console::FRESH;
        for (at, &identifier) in identifiers.iter().enumerate() {
            let mut timers = [false; 7];
            timers[Timer::T308 as usize] = true;
            console.calls[at] =
                Call { state: State::CallDisconnect, identifier, timers, ..Call::FRESH };
        }
        console.pack()
    };
    let bytes_of = |event: Event| Bytes::of_event(event).as_slice().to_vec();
    let damaged: [(&[u8], u32); 6] = [
        (&[4, 0, 3], 2),
        (&[5, 0, 0x03, 0x01], 2),
        (&[4, 0, 0xFF, 0x01], 3),
        // MODIFY request is retired, whatever its body.
        (&[5, 0, 0x05, 0x01, 1], 9),
        (&[6, 0, 0x05, 0x01, 2, 2], 9),
        (&[5, 0, 0x04, 0x01, 2], 4),
    ];
    let full = held(&[1, 2, 3, 4, 5, 6, 7, 8]);
    let full_without = held(&[1, 2, 3, 0, 5, 6, 7, 8]);

    // 1 before all: each of its reasons, with an event that would be 2, 3, 9, 4, 40, 41, 42, 5 or 6.
    let mut unsound = held(&[]);
    unsound[RECORD_LEN * 7 + 9] = 1;
    let mut no_record = held(&[]);
    no_record[RECORD_LEN * 3] = 6;
    let events = [
        bytes_of(Event::ReleaseRequest),
        bytes_of(d_setup(1)),
        bytes_of(set_up()),
        bytes_of(d_connect(9)),
        bytes_of(Event::Resume),
    ];
    let none: [&[u8]; 8] = [
        &[],
        &full[..154],
        &full[..168],
        &[full, full].concat(),
        &unsound,
        &no_record,
        &held(&[4, 5, 4]),
        &held(&[0, 5, 0]),
    ];
    for table in none {
        for (event, _) in damaged {
            expect(table, 9, event, 0, 1);
        }
        for event in &events {
            expect(table, 9, event, 0, 1);
        }
    }
    // 2, 3, 9 and 4 before the place is looked at, and whatever the table holds.
    for (event, answer) in damaged {
        for table in [&full, &full_without, &held(&[])] {
            expect(table, 9, event, 0, answer);
            expect(table, 0, event, 0, answer);
        }
    }
    // 40 before the step's 6 and 7.
    expect(&held(&[]), 8, &bytes_of(Event::ReleaseRequest), 0, 40);
    expect(&full, 8, &bytes_of(Event::Expiry { n: Timer::T308 }), 0, 40);
    expect(&full, 7, &bytes_of(Event::Expiry { n: Timer::T308 }), 0, 7);
    expect(&full, 7, &bytes_of(Event::Expiry { n: Timer::T301 }), 0, 6);
    // 41 before 43, 42 before 43, and 43 before 7.
    expect(&full, 9, &bytes_of(d_setup(8)), 0, 41);
    expect(&held(&[8]), 9, &bytes_of(d_setup(8)), 0, 41);
    expect(&full, 9, &bytes_of(d_setup(9)), 0, 43);
    expect(&held(&[8]), 9, &bytes_of(d_setup(9)), 0, 7);
    expect(&full_without, 9, &bytes_of(set_up()), 0, 42);
    expect(&held(&[0]), 9, &bytes_of(set_up()), 0, 42);
    expect(&full, 9, &bytes_of(set_up()), 0, 43);
    expect(&held(&[8]), 9, &bytes_of(set_up()), 0, 7);
    // D-SETUP asks for no place without an identifier, SETUP request for no identifier.
    expect(&held(&[0]), 9, &bytes_of(d_setup(9)), 0, 7);
    // 5 where no place fits, before 6; the place without an identifier takes what no other holds.
    expect(&full, 0, &bytes_of(d_connect(9)), 0, 5);
    expect(&full, 0, &bytes_of(d_connect(8)), 0, 6);
    expect(&full_without, 0, &bytes_of(d_connect(9)), 0, 6);
    expect(&full, 0, &bytes_of(Event::DRelease { i: 0 }), 0, 5);
    expect(&full_without, 0, &bytes_of(Event::DRelease { i: 0 }), 0, 7);
    expect(&held(&[]), 0, &bytes_of(Event::DRelease { i: 0 }), 0, 5);
    // BREAK and RESUME with no place that would take them.
    expect(&full, 0, &bytes_of(Event::Break), 0, 6);
    expect(&full, 0, &bytes_of(Event::Resume), 0, 6);
    queue.finish();
}

/// The place that holds the identifier comes before the one that holds none, wherever the two are.
#[test]
fn where_a_network_event_goes() {
    let mut queue = Queue::new();
    for holding in 0..PLACES {
        for without in 0..PLACES {
            let mut console = Console::FRESH;
            let state = State::CallDisconnect;
            console.calls[holding] = Call { state, identifier: 21, ..Call::FRESH };
            if without != holding {
                console.calls[without] = Call { state, ..Call::FRESH };
            }
            for i in [0, 21, 22] {
                let table = console.pack();
                let event = Bytes::of_event(Event::DRelease { i });
                let request =
                    Request::of(Function::ConsoleStep, &table, event.as_slice(), 64, 0x17).with(99);
                let said =
                    queue.check(&request, |table, event, out| console::step(table, 99, event, out));
                let goes = match i {
                    21 => Some(holding),
                    _ => (without != holding).then_some(without),
                };
                assert_eq!(said.answer, if goes.is_some() { 0 } else { 5 });
                for place in 0..PLACES {
                    let expected =
                        if goes == Some(place) { Call::FRESH } else { console.calls[place] };
                    assert_eq!(record(said.record, place), expected.pack(), "place {place}");
                }
            }
        }
    }
    queue.finish();
}

/// SETUP request and D-SETUP go to the lowest IDLE place, whichever are busy.
#[test]
fn a_call_begins_at_the_lowest_idle_place() {
    let mut queue = Queue::new();
    for busy in 0..=255u8 {
        let mut console = Console::FRESH;
        for place in (0..PLACES).filter(|place| busy >> place & 1 == 1) {
            let identifier = 100 + place as u16;
            console.calls[place] = Call { state: State::CallDisconnect, identifier, ..Call::FRESH };
        }
        let table = console.pack();
        for event in [set_up(), d_setup(5)] {
            let bytes = Bytes::of_event(event);
            let request =
                Request::of(Function::ConsoleStep, &table, bytes.as_slice(), 64, busy).with(7);
            let said =
                queue.check(&request, |table, event, out| console::step(table, 7, event, out));
            let lowest = busy.trailing_ones() as usize;
            assert_eq!(said.answer, if lowest < PLACES { 0 } else { 43 });
            let begun: Vec<usize> =
                (0..PLACES).filter(|&at| record(said.record, at) != record(&table, at)).collect();
            assert_eq!(begun, if lowest < PLACES { vec![lowest] } else { vec![] });
        }
    }
    queue.finish();
}

/// One place transmits, is broken and restored while another is set up and ends.
#[test]
fn two_places_at_work() {
    use callcontrol_tests::account::Grant;
    let mut queue = Queue::new();
    let mut host = Host::fresh(&mut queue);
    host.taken(0, set_up());
    host.taken(0, d_connect(21));
    host.taken(0, d_setup(22));
    host.taken(1, Event::SetupResponse);
    host.taken(0, Event::Break);
    assert_eq!(call(&host.table, 1).state, State::MtCallSetup, "no row for BREAK there");
    host.taken(0, Event::DConnectAcknowledge { i: 22, g: Grant::GrantedToAnother, o: 3 });
    host.taken(0, Event::Resume);
    assert_eq!(call(&host.table, 1).plane, Plane::Receive, "not broken, so not resumed");
    host.taken(0, Event::DDisconnect { i: 22 });
    assert_eq!(call(&host.table, 1), Call::FRESH);
    host.taken(0, Event::DCallRestore { i: 21, g: Grant::Granted, r: false, o: None });
    assert_eq!(call(&host.table, 0).plane, Plane::Transmit);
    host.taken(0, Event::ReleaseRequest);
    host.taken(0, Event::Expiry { n: Timer::T308 });
    assert_eq!(host.table, Console::FRESH.pack());
    queue.finish();
}

#[test]
fn fresh_is_written_only_to_176_bytes() {
    let mut queue = Queue::new();
    for len in 0..=400 {
        let bytes = vec![0x99; len];
        let request = Request::of(Function::ConsoleFresh, &bytes, &[], 0, 0x99);
        let said = queue.check(&request, |table, _, _| console::fresh(table));
        assert_eq!(said.answer, u32::from(len != TABLE_LEN));
        if len == TABLE_LEN {
            let fresh = [0, 0, 0, 0, 0, 0, 0, 0, 0, 0, 0, 4, 4, 0, 0, 0, 0, 0, 0, 0, 0, 1];
            assert_eq!(said.record, fresh.repeat(8));
        }
    }
    queue.finish();
}

#[test]
fn nothing_beyond_the_lent_bytes_is_touched() {
    let mut random = Random::new(0xC0_15A4);
    let mut queue = Queue::new();
    for _ in 0..100_000 {
        let console = sound_table(&mut random);
        let (place, bytes) = event_for(&mut random, &console);
        let mut table = console.pack().to_vec();
        if random.one_in(8) {
            table.resize(random.below(200), 0);
        }
        let places = [(); 3].map(|()| random.pick(&[Place::AtStart, Place::AtEnd]));
        let room = random.below(200);
        let request = Request::of(Function::ConsoleStep, &table, bytes.as_slice(), room, 0x5A)
            .with(place.into())
            .at(places);
        queue.check(&request, |table, event, out| console::step(table, place, event, out));
    }
    queue.finish();
}

#[test]
fn a_step_uses_less_than_2_kibibytes_of_stack() {
    let mut tape = Vec::new();
    for (place, event) in console_tape().events() {
        tape.extend((event.len() as u32).to_le_bytes());
        tape.push(place);
        tape.extend(event);
    }
    let bytes = stack_used("tests/bridge/stack_console.c", &tape);
    tell(&format!("{bytes} bytes of stack"));
    // A step that used next to nothing would not have been played.
    assert!((64..2048).contains(&bytes), "{bytes} bytes of stack");
}
