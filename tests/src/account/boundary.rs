//! The account behind the host boundary: the same six functions as the library, over slices, each
//! returning answer * 2^24 + place * 2^16 + count.

use super::{Call, Event, Message, Refusal, RECORD_LEN};

/// The word that stands for a result.
#[inline]
pub fn word(result: Result<usize, Refusal>) -> u32 {
    match result {
        Ok(count) => count as u32,
        Err(refusal) => u32::from(refusal.number()) << 24 | u32::from(refusal.place()) << 16,
    }
}

pub fn fresh(record: &mut [u8]) -> u32 {
    let Ok(record) = <&mut [u8; RECORD_LEN]>::try_from(record) else {
        return word(Err(Refusal::NotSound));
    };
    *record = Call::FRESH.pack();
    word(Ok(RECORD_LEN))
}

pub fn step(record: &mut [u8], event: &[u8], out: &mut [u8]) -> u32 {
    let Ok(record) = <&mut [u8; RECORD_LEN]>::try_from(record) else {
        return word(Err(Refusal::NotSound));
    };
    let Some(mut call) = Call::unpack(record) else {
        return word(Err(Refusal::NotSound));
    };
    let result = call.step(event, out);
    if result.is_ok() {
        *record = call.pack();
    }
    word(result)
}

pub fn check_event(bytes: &[u8]) -> u32 {
    word(Event::read(bytes).map(|_| 0))
}

pub fn check_message(bytes: &[u8]) -> u32 {
    word(Message::read(bytes).map(|_| 0))
}

pub fn copy_event(bytes: &[u8], out: &mut [u8]) -> u32 {
    word(Event::read(bytes).and_then(|event| event.write(out)))
}

pub fn copy_message(bytes: &[u8], out: &mut [u8]) -> u32 {
    word(Message::read(bytes).and_then(|message| message.write(out)))
}
