//! The bank of seven timers, kept in time that never wraps: a timer is handed out at the first
//! accepted reading at or after its deadline, once, and never sooner.
//!
//! The host's counter has 32 bits, the account's time has 64. Only `advance` looks at a reading, and
//! makes of it the time that it stands for if less than 2^31 ms have passed.

use super::Timer;

/// Bytes of a packed bank: last reading, seven deadlines, seven flags.
pub const BANK_LEN: usize = 39;
/// Lengths of T301 T302 T303 T306 T308 T311, then of T310 for each of its codes.
pub const TABLE_LEN: usize = 22;
/// A timer runs for 1 ms to this.
pub const LONGEST: u32 = 1 << 30;
/// A reading this far on, or further, is told as earlier.
const HALF: u32 = 1 << 31;

#[derive(Clone, Copy, Debug, PartialEq, Eq)]
#[repr(u8)]
pub enum Refusal {
    /// 1: the bytes are no bank.
    NoBank = 1,
    /// 30: timer unknown.
    Timer = 30,
    /// 31: length out of range or missing.
    LengthOutOfRange = 31,
    /// 32: reading earlier than the last.
    Earlier = 32,
    /// 33: the lent list is shorter than the number due.
    List = 33,
}

#[derive(Clone, Copy, Debug, PartialEq, Eq)]
pub struct Bank {
    /// Of the last reading that was accepted.
    pub now: u64,
    /// By rising number, each of a timer that runs or once ran.
    pub deadlines: [u64; 7],
    pub running: [bool; 7],
}

impl Bank {
    pub const fn new(now: u64) -> Bank {
        Bank { now, deadlines: [0; 7], running: [false; 7] }
    }

    pub fn stop(&mut self, timer: u16) -> Result<(), Refusal> {
        let timer = Timer::from_timer_number(timer).ok_or(Refusal::Timer)?;
        self.running[timer as usize] = false;
        Ok(())
    }

    /// Counts from the last reading. The code is looked at for T310 alone.
    pub fn start(&mut self, table: &[u32], timer: u16, code: u8) -> Result<(), Refusal> {
        let timer = Timer::from_timer_number(timer).ok_or(Refusal::Timer)?;
        let entry = match timer {
            Timer::T301 => 0,
            Timer::T302 => 1,
            Timer::T303 => 2,
            Timer::T306 => 3,
            Timer::T308 => 4,
            Timer::T311 => 5,
            Timer::T310 if code <= 15 => 6 + code as usize,
            Timer::T310 => return Err(Refusal::LengthOutOfRange),
        };
        match table.get(entry) {
            Some(&length @ 1..=LONGEST) => {
                self.deadlines[timer as usize] = self.now + u64::from(length);
                self.running[timer as usize] = true;
                Ok(())
            }
            _ => Err(Refusal::LengthOutOfRange),
        }
    }

    /// Hands out every timer due at this reading, earliest deadline first, equal deadlines by rising
    /// number, and counts them.
    pub fn advance(&mut self, reading: u32, due: &mut [u16]) -> Result<usize, Refusal> {
        let passed = reading.wrapping_sub(self.now as u32);
        if passed >= HALF {
            return Err(Refusal::Earlier);
        }
        let now = self.now + u64::from(passed);
        let is_due =
            |timer: &Timer| self.running[*timer as usize] && self.deadlines[*timer as usize] <= now;
        let count = Timer::ALL.iter().filter(|timer| is_due(timer)).count();
        let due = due.get_mut(..count).ok_or(Refusal::List)?;

        let mut running = self.running;
        for place in due {
            // The first of those left with the least deadline.
            let next = (0..7)
                .filter(|&timer| running[timer])
                .min_by_key(|&timer| self.deadlines[timer])
                .expect("so many are due");
            running[next] = false;
            *place = Timer::ALL[next].number();
        }
        self.running = running;
        self.now = now;
        Ok(count)
    }

    /// The bank in these bytes; none if they are no bank. Its time begins with the last reading, far
    /// enough from 0 for deadlines of the past. True only of banks that a run gives, whose deadlines
    /// lie within 2^31 ms of the last reading.
    pub fn unpack(bytes: &[u8]) -> Option<Bank> {
        let bytes: &[u8; BANK_LEN] = bytes.try_into().ok()?;
        let number = |at: usize| {
            u32::from_le_bytes([bytes[at], bytes[at + 1], bytes[at + 2], bytes[at + 3]])
        };
        let mut bank = Bank::new(1 << 32 | u64::from(number(0)));
        for timer in 0..7 {
            let ahead = number(4 + 4 * timer).wrapping_sub(number(0)) as i32;
            bank.deadlines[timer] = bank.now.wrapping_add_signed(i64::from(ahead));
            bank.running[timer] = match bytes[32 + timer] {
                0 => false,
                1 => true,
                _ => return None,
            };
        }
        Some(bank)
    }

    /// As 32-bit readings.
    pub fn pack(&self) -> [u8; BANK_LEN] {
        let mut bytes = [0; BANK_LEN];
        bytes[..4].copy_from_slice(&(self.now as u32).to_le_bytes());
        for timer in 0..7 {
            let deadline = self.deadlines[timer] as u32;
            bytes[4 + 4 * timer..][..4].copy_from_slice(&deadline.to_le_bytes());
            bytes[32 + timer] = self.running[timer] as u8;
        }
        bytes
    }
}

// Behind the host boundary: the library's four functions over slices.

pub fn word(result: Result<usize, Refusal>) -> u32 {
    match result {
        Ok(count) => count as u32,
        Err(refusal) => (refusal as u32) << 24,
    }
}

pub fn new(bank: &mut [u8], reading: u32) -> u32 {
    if bank.len() != BANK_LEN {
        return word(Err(Refusal::NoBank));
    }
    bank.copy_from_slice(&Bank::new(u64::from(reading)).pack());
    word(Ok(BANK_LEN))
}

fn with(bank: &mut [u8], order: impl FnOnce(&mut Bank) -> Result<usize, Refusal>) -> u32 {
    let Some(mut held) = Bank::unpack(bank) else {
        return word(Err(Refusal::NoBank));
    };
    let result = order(&mut held);
    if result.is_ok() {
        bank.copy_from_slice(&held.pack());
    }
    word(result)
}

pub fn stop(bank: &mut [u8], timer: u16) -> u32 {
    with(bank, |bank| bank.stop(timer).map(|()| 0))
}

pub fn start(bank: &mut [u8], table: &[u32], timer: u16, code: u8) -> u32 {
    with(bank, |bank| bank.start(table, timer, code).map(|()| 0))
}

pub fn advance(bank: &mut [u8], reading: u32, due: &mut [u16]) -> u32 {
    with(bank, |bank| bank.advance(reading, due))
}

#[cfg(test)]
mod examples {
    use super::*;

    /// T301 100 ms, T302 200 ms and so on by the table's order; T310 1000 ms and its code.
    fn table() -> [u32; TABLE_LEN] {
        core::array::from_fn(|entry| match entry {
            0..=5 => 100 * (entry as u32 + 1),
            _ => 1000 + (entry as u32 - 6),
        })
    }

    #[test]
    fn earliest_deadline_first_and_equal_ones_by_rising_number() {
        let mut bank = Bank::new(0);
        let mut equal = table();
        equal[5] = 100;
        for timer in [311, 303, 301, 302] {
            bank.start(&equal, timer, 99).unwrap();
        }
        let mut due = [0xEEEE; 5];
        assert_eq!(bank.advance(99, &mut due), Ok(0), "never sooner");
        assert_eq!(bank.advance(100, &mut due), Ok(2), "at its deadline");
        assert_eq!(due, [301, 311, 0xEEEE, 0xEEEE, 0xEEEE]);
        assert_eq!(bank.advance(1000, &mut due), Ok(2), "once");
        assert_eq!(due[..2], [302, 303]);
        assert_eq!(bank.advance(5000, &mut due), Ok(0));
    }

    #[test]
    fn a_start_counts_from_the_last_reading_and_anew() {
        let mut bank = Bank::new(0);
        let mut due = [0; 7];
        bank.advance(50, &mut due).unwrap();
        bank.start(&table(), 301, 0).unwrap();
        bank.advance(100, &mut due).unwrap();
        bank.start(&table(), 301, 0).unwrap();
        assert_eq!(bank.advance(199, &mut due), Ok(0));
        assert_eq!(bank.advance(200, &mut due), Ok(1));
        bank.start(&table(), 310, 15).unwrap();
        bank.stop(310).unwrap();
        assert_eq!(bank.advance(90_000, &mut due), Ok(0));
    }

    #[test]
    fn refusals_change_nothing() {
        let mut bank = Bank::new(1000);
        bank.start(&table(), 301, 0).unwrap();
        bank.start(&table(), 302, 0).unwrap();
        let held = bank;
        let mut due = [0; 1];
        assert_eq!(bank.stop(304), Err(Refusal::Timer));
        assert_eq!(bank.start(&[], 305, 0), Err(Refusal::Timer));
        assert_eq!(bank.start(&table(), 310, 16), Err(Refusal::LengthOutOfRange));
        assert_eq!(bank.start(&table()[..6], 310, 0), Err(Refusal::LengthOutOfRange));
        assert_eq!(bank.start(&[0], 301, 0), Err(Refusal::LengthOutOfRange));
        assert_eq!(bank.start(&[LONGEST + 1], 301, 0), Err(Refusal::LengthOutOfRange));
        assert_eq!(bank.advance(999, &mut due), Err(Refusal::Earlier));
        assert_eq!(bank.advance(1000u32.wrapping_add(1 << 31), &mut due), Err(Refusal::Earlier));
        assert_eq!(bank.advance(1200, &mut due), Err(Refusal::List));
        assert_eq!((bank, due), (held, [0]));
        assert_eq!(bank.advance(1199, &mut due), Ok(1), "1200 was not accepted");
    }

    #[test]
    fn over_the_wrap_and_packed() {
        let mut bytes = [0xEE; BANK_LEN];
        assert_eq!(new(&mut bytes, u32::MAX - 9), 39);
        assert_eq!(start(&mut bytes, &table(), 301, 0), 0);
        assert_eq!(bytes[4..8], 90u32.to_le_bytes());
        let mut due = [0; 7];
        assert_eq!(advance(&mut bytes, u32::MAX, &mut due), 0);
        assert_eq!(advance(&mut bytes, 89, &mut due), 0);
        assert_eq!(advance(&mut bytes, 90, &mut due), 1);
        assert_eq!(due[0], 301);
        bytes[38] = 2;
        assert_eq!(stop(&mut bytes, 999), 1 << 24, "no bank, before all others");
    }
}
