//! The library touches no byte beyond what is lent: each slice lies flush against memory that may
//! not be touched at all, so that even one byte read past its end, or before its start, would
//! end the test.

#![cfg(target_os = "linux")]

use callcontrol_tests::account::boundary;
use callcontrol_tests::generate::{
    damaged_event, damaged_record, event, likely_event, sound_record, Bytes, Random,
};
use callcontrol_tests::request::{Function, Place, Request};
use callcontrol_tests::sidebyside::Queue;

#[test]
fn nothing_beyond_the_lent_bytes_is_touched() {
    let mut queue = Queue::new();
    let mut random = Random::new(0x15_1A4D);
    for _ in 0..300_000 {
        let call = sound_record(&mut random);
        let chosen = match random.below(3) {
            0 => event(&mut random, call.identifier),
            _ => likely_event(&mut random, &call, 3),
        };
        let record = match random.below(4) {
            0 => damaged_record(&mut random),
            _ => Bytes::new(&call.pack()),
        };
        let bytes = match random.below(4) {
            0 => damaged_event(&mut random, chosen),
            _ => Bytes::of_event(chosen),
        };
        let (record, bytes) = (record.as_slice(), bytes.as_slice());
        let out_len = random.below(65);
        let places = [(); 3].map(|()| random.pick(&[Place::AtStart, Place::AtEnd]));

        let step = Request::step(record, bytes, out_len, 0x5A).at(places);
        let said = queue.check(&step, boundary::step);
        let written = Bytes::new(&said.written()[..said.written().len().min(Bytes::ROOM)]);

        // The readers and writers, on the event and on what the step wrote first.
        let first = written.as_slice().first().map_or(0, |&len| len as usize);
        let message = &written.as_slice()[..first];
        for bytes in [bytes, message] {
            let check = |function| Request::check(function, bytes, 0xA6).at(places);
            let copy = |function| Request::copy(function, bytes, out_len, 0xA6).at(places);
            queue.check(&check(Function::CheckEvent), |_, bytes, _| boundary::check_event(bytes));
            queue.check(&check(Function::CheckMessage), |_, bytes, _| {
                boundary::check_message(bytes)
            });
            queue.check(&copy(Function::CopyEvent), |_, bytes, out| {
                boundary::copy_event(bytes, out)
            });
            queue.check(&copy(Function::CopyMessage), |_, bytes, out| {
                boundary::copy_message(bytes, out)
            });
        }

        // And a record to be made fresh.
        let len = random.pick(&[0, 1, 21, 22, 22, 22, 23, 64]);
        let fresh = [0x77; 64];
        let fresh = Request::fresh(&fresh[..len], 0x77).at(places);
        queue.check(&fresh, |record, _, _| boundary::fresh(record));
    }
    queue.finish();
}
