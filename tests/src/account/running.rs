//! Which timers run, read from the messages written and the expiries taken alone: started, and neither
//! stopped nor expired since.
//!
//! Kept apart from the steps on purpose, as the plane by history is: no record is looked at, so that
//! the two can be compared.

use super::{Event, Message, Timer};

#[derive(Clone, Copy, Debug, Default, PartialEq, Eq, Hash)]
pub struct Running {
    /// By rising number.
    pub timers: [bool; 7],
}

impl Running {
    /// Before the first event.
    pub const NONE: Running = Running { timers: [false; 7] };

    /// After an event that was taken, before what it wrote is read.
    #[must_use]
    pub fn taken(mut self, event: Event) -> Running {
        if let Event::Expiry { n } = event {
            self.timers[n as usize] = false;
        }
        self
    }

    /// After one message more. None for a STOP of a timer that does not run, which is never written.
    pub fn told(mut self, message: Message) -> Option<Running> {
        match message {
            Message::Start { n, .. } => self.timers[n as usize] = true,
            Message::Stop { n } if !self.running(n) => return None,
            Message::Stop { n } => self.timers[n as usize] = false,
            _ => {}
        }
        Some(self)
    }

    pub fn running(&self, timer: Timer) -> bool {
        self.timers[timer as usize]
    }
}

#[cfg(test)]
mod examples {
    use super::*;

    #[test]
    fn started_and_neither_stopped_nor_expired_since() {
        let start = |n| Message::Start { n, o: 0 };
        let stop = |n| Message::Stop { n };
        let set_up = Running::NONE.told(start(Timer::T303)).unwrap();
        assert!(set_up.running(Timer::T303));
        assert_eq!(set_up.told(start(Timer::T303)), Some(set_up), "started anew");
        assert_eq!(set_up.told(Message::Cancel), Some(set_up));
        assert_eq!(set_up.told(stop(Timer::T303)), Some(Running::NONE));
        assert_eq!(set_up.told(stop(Timer::T302)), None, "it does not run");
        let expired = set_up.taken(Event::Expiry { n: Timer::T303 });
        assert_eq!(expired, Running::NONE);
        assert_eq!(expired.told(stop(Timer::T303)), None, "an expired one gets no STOP");
        assert_eq!(set_up.taken(Event::Break), set_up);
    }
}
