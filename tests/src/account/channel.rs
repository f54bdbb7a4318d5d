//! Channel change responses, request 11 and clause 14.5.3.2: each question of the lower layers is
//! answered once, at once or when its decision or its call's end comes.
//!
//! At most four questions wait, each in the lowest room that was free when it came.

use super::{Message, Verdict};

/// Bytes of packed rooms: four times what the question waits for, its number and its call.
pub const ROOMS_LEN: usize = 20;
/// Questions that may wait.
pub const FOUR: usize = 4;
/// A call is known by an identifier up to this.
const LAST_IDENTIFIER: u16 = 16383;

#[derive(Clone, Copy, Debug, PartialEq, Eq)]
#[repr(u8)]
pub enum Refusal {
    /// 1: the rooms are not sound, or the bytes are no rooms.
    NotSound = 1,
    /// 4: a call that is no identifier, or a number that stands for no question or decision.
    Field = 4,
    /// 7: what is written is longer than the lent buffer.
    Buffer = 7,
    /// 50: question number already waiting.
    Waiting = 50,
    /// 51: it would have to wait and four do.
    Four = 51,
    /// 52: a decision that no waiting question of that number waits for.
    Nobody = 52,
    /// 53: a group that we are calling, with another service or U-SETUP reported sent.
    OwnGroup = 53,
}

/// What a waiting question is decided by.
#[derive(Clone, Copy, Debug, PartialEq, Eq)]
pub enum By {
    /// SETUP response, RELEASE request or T330.
    User,
    /// Whether the cancellation of U-SETUP was successful.
    Cancel,
}

#[derive(Clone, Copy, Debug, PartialEq, Eq)]
pub struct Question {
    pub number: u16,
    pub call: u16,
    pub by: By,
}

/// None is a free room.
#[derive(Clone, Copy, Debug, PartialEq, Eq)]
pub struct Rooms(pub [Option<Question>; FOUR]);

/// What the rules of the clause make of a question.
enum Rule {
    Answer(Verdict),
    Wait(By),
    Open,
}

/// The rules in their order: 14.5.3.2.2, then those of 14.5.3.2.3.
fn rule(asked: u8) -> Option<Rule> {
    Some(match asked {
        // Individually addressed: the CC obeys the PDU, or does not.
        0 => Rule::Answer(Verdict::Accept),
        1 => Rule::Answer(Verdict::Reject),
        // Group addressed D-SETUP, not currently attempting to call this group.
        2 => Rule::Wait(By::User),
        // Attempting to call it, no successful transmission of U-SETUP reported, compatible.
        3 => Rule::Wait(By::Cancel),
        // Attempting to call it, not compatible or reported.
        4 => Rule::Open,
        // Relates to an ongoing call, and is obeyed.
        5 => Rule::Answer(Verdict::Accept),
        // Not obeyed, transmitting traffic, D-TX GRANTED or D-TX INTERRUPT.
        6 => Rule::Answer(Verdict::Ignore),
        // Not obeyed, in all other cases.
        7 => Rule::Answer(Verdict::Reject),
        _ => return None,
    })
}

/// Who decides, and what it comes to.
fn decision(what: u8) -> Option<(By, Verdict)> {
    Some(match what {
        0 => (By::User, Verdict::Accept),
        1 | 2 => (By::User, Verdict::Reject),
        3 => (By::Cancel, Verdict::Accept),
        4 => (By::Cancel, Verdict::Ignore),
        _ => return None,
    })
}

impl Rooms {
    pub const FRESH: Rooms = Rooms([None; FOUR]);

    pub fn waiting(&self) -> impl Iterator<Item = Question> + '_ {
        self.0.iter().copied().flatten()
    }

    fn waits(&self, number: u16) -> bool {
        self.waiting().any(|question| question.number == number)
    }

    pub fn sound(&self) -> bool {
        self.waiting().all(|question| question.call <= LAST_IDENTIFIER)
            && (1..FOUR).all(|k| {
                let Some(last) = self.0[k] else { return true };
                self.0[..k].iter().flatten().all(|before| before.number != last.number)
            })
    }

    pub fn ask(
        &mut self,
        number: u16,
        call: u16,
        asked: u8,
        out: &mut [u8],
    ) -> Result<usize, Refusal> {
        if !self.sound() {
            return Err(Refusal::NotSound);
        }
        if call > LAST_IDENTIFIER {
            return Err(Refusal::Field);
        }
        let rule = rule(asked).ok_or(Refusal::Field)?;
        if self.waits(number) {
            return Err(Refusal::Waiting);
        }
        match rule {
            Rule::Answer(v) => answer(number, v, out),
            Rule::Wait(by) => {
                let room = self.0.iter_mut().find(|room| room.is_none()).ok_or(Refusal::Four)?;
                let count = match by {
                    By::User => 0,
                    By::Cancel => Message::Cancel.write(out).map_err(|_| Refusal::Buffer)?,
                };
                *room = Some(Question { number, call, by });
                Ok(count)
            }
            Rule::Open => Err(Refusal::OwnGroup),
        }
    }

    /// "Individually addressed: accept if the step takes the PDU, else reject, never ignore."
    pub fn pdu(
        &mut self,
        number: u16,
        call: u16,
        taken: bool,
        out: &mut [u8],
    ) -> Result<usize, Refusal> {
        self.ask(number, call, if taken { 0 } else { 1 }, out)
    }

    pub fn decide(&mut self, number: u16, what: u8, out: &mut [u8]) -> Result<usize, Refusal> {
        if !self.sound() {
            return Err(Refusal::NotSound);
        }
        let (by, v) = decision(what).ok_or(Refusal::Field)?;
        let room = self
            .0
            .iter_mut()
            .find(|room| room.is_some_and(|held| held.number == number && held.by == by))
            .ok_or(Refusal::Nobody)?;
        let count = answer(number, v, out)?;
        *room = None;
        Ok(count)
    }

    /// "A call's end rejects its waiting questions": all of them, or none for lack of room.
    pub fn ended(&mut self, call: u16, out: &mut [u8]) -> Result<usize, Refusal> {
        if !self.sound() {
            return Err(Refusal::NotSound);
        }
        if call > LAST_IDENTIFIER {
            return Err(Refusal::Field);
        }
        let of_call = |room: &Option<Question>| room.is_some_and(|held| held.call == call);
        if self.0.iter().filter(|room| of_call(room)).count() * 7 > out.len() {
            return Err(Refusal::Buffer);
        }
        let mut count = 0;
        for room in self.0.iter_mut().filter(|room| of_call(room)) {
            let number = room.take().expect("it is of the call").number;
            count += answer(number, Verdict::Reject, &mut out[count..])?;
        }
        Ok(count)
    }

    /// None where the bytes are no rooms. A free room is zeros.
    pub fn unpack(bytes: &[u8]) -> Option<Rooms> {
        let bytes: &[u8; ROOMS_LEN] = bytes.try_into().ok()?;
        let mut rooms = Rooms::FRESH;
        for (room, at) in rooms.0.iter_mut().zip((0..ROOMS_LEN).step_by(5)) {
            let number = u16::from_le_bytes([bytes[at + 1], bytes[at + 2]]);
            let call = u16::from_le_bytes([bytes[at + 3], bytes[at + 4]]);
            *room = match bytes[at] {
                0 if number == 0 && call == 0 => None,
                1 => Some(Question { number, call, by: By::User }),
                2 => Some(Question { number, call, by: By::Cancel }),
                _ => return None,
            };
        }
        Some(rooms)
    }

    pub fn pack(&self) -> [u8; ROOMS_LEN] {
        let mut bytes = [0; ROOMS_LEN];
        for (room, at) in self.0.iter().zip((0..ROOMS_LEN).step_by(5)) {
            if let Some(held) = room {
                bytes[at] = match held.by {
                    By::User => 1,
                    By::Cancel => 2,
                };
                bytes[at + 1..at + 3].copy_from_slice(&held.number.to_le_bytes());
                bytes[at + 3..at + 5].copy_from_slice(&held.call.to_le_bytes());
            }
        }
        bytes
    }
}

fn answer(number: u16, v: Verdict, out: &mut [u8]) -> Result<usize, Refusal> {
    Message::ChannelAnswer { number, v }.write(out).map_err(|_| Refusal::Buffer)
}

// Behind the host boundary: the library's five functions over slices.

pub fn word(result: Result<usize, Refusal>) -> u32 {
    match result {
        Ok(count) => count as u32,
        Err(refusal) => (refusal as u32) << 24,
    }
}

pub fn fresh(rooms: &mut [u8]) -> u32 {
    if rooms.len() != ROOMS_LEN {
        return word(Err(Refusal::NotSound));
    }
    rooms.copy_from_slice(&Rooms::FRESH.pack());
    word(Ok(ROOMS_LEN))
}

fn on_rooms(bytes: &mut [u8], turn: impl FnOnce(&mut Rooms) -> Result<usize, Refusal>) -> u32 {
    let Some(mut rooms) = Rooms::unpack(bytes) else {
        return word(Err(Refusal::NotSound));
    };
    let result = turn(&mut rooms);
    if result.is_ok() {
        bytes.copy_from_slice(&rooms.pack());
    }
    word(result)
}

pub fn ask(bytes: &mut [u8], number: u16, call: u16, asked: u8, out: &mut [u8]) -> u32 {
    on_rooms(bytes, |rooms| rooms.ask(number, call, asked, out))
}

/// `result` is what the step returned, whose answer stands above 24 bits.
pub fn pdu(bytes: &mut [u8], number: u16, call: u16, result: u32, out: &mut [u8]) -> u32 {
    on_rooms(bytes, |rooms| rooms.pdu(number, call, result >> 24 == 0, out))
}

pub fn decide(bytes: &mut [u8], number: u16, what: u8, out: &mut [u8]) -> u32 {
    on_rooms(bytes, |rooms| rooms.decide(number, what, out))
}

pub fn ended(bytes: &mut [u8], call: u16, out: &mut [u8]) -> u32 {
    on_rooms(bytes, |rooms| rooms.ended(call, out))
}
