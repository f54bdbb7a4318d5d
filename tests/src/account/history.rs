//! The plane and the slots by history: which plane holds, and which number of slots, is decided by the
//! taken events alone, without a look at any record.
//!
//! The rules are kept apart from the steps on purpose (their own G, their own mode), so that the two
//! can be compared.

use super::{Event, Grant, Mode, Plane};

#[derive(Clone, Copy, Debug, PartialEq, Eq, Hash)]
pub struct History {
    mode: Mode,
    plane: Plane,
    /// The plane before the last D-TX WAIT.
    before_wait: Plane,
    /// The last number carried by an event of the last call.
    slots: u8,
}

impl History {
    /// No event taken yet. Before the first d and the first D-TX WAIT no rule asks for them.
    pub const EMPTY: History =
        History { mode: Mode::Simplex, plane: Plane::Off, before_wait: Plane::Off, slots: 1 };

    pub fn plane(&self) -> Plane {
        self.plane
    }

    /// Outside IDLE: the last number carried by a SETUP request, D-CONNECT or D-INFO of this call,
    /// else 1. A call begins with SETUP request or D-SETUP.
    pub fn slots(&self) -> u8 {
        self.slots
    }

    /// The history with one more taken event.
    pub fn then(self, event: Event) -> History {
        let mode = match event {
            Event::SetupRequest { d, .. }
            | Event::DSetup { d, .. }
            | Event::DConnect { d, .. }
            | Event::DInfo { d, .. } => d,
            _ => self.mode,
        };
        let before_wait = match event {
            Event::DTxWait { .. } => self.plane,
            _ => self.before_wait,
        };
        let plane = match event {
            Event::DConnect { g, .. } | Event::DConnectAcknowledge { g, .. } => {
                granted(g, mode).unwrap_or(Plane::Off)
            }
            Event::DTxGranted { g, .. } | Event::DCallRestore { g, .. } => {
                granted(g, mode).unwrap_or(self.plane)
            }
            Event::DTxInterrupt { g: Grant::GrantedToAnother, .. } => Plane::Receive,
            Event::DTxInterrupt { .. } => Plane::Off,
            Event::DTxContinue { k: true, .. } => before_wait,
            Event::DTxContinue { k: false, .. }
            | Event::DTxCeased { .. }
            | Event::DTxWait { .. }
            | Event::Break
            | Event::ReleaseRequest
            | Event::DDisconnect { .. }
            | Event::DRelease { .. }
            | Event::Expiry { .. } => Plane::Off,
            Event::DInfo { .. } if mode != self.mode => Plane::Off,
            Event::TxRequest { k: false } if self.plane == Plane::Transmit => Plane::Off,
            _ => self.plane,
        };
        let slots = match event {
            Event::SetupRequest { s, .. } => s.unwrap_or(1),
            Event::DSetup { .. } => 1,
            Event::DConnect { s, .. } | Event::DInfo { s, .. } => s.unwrap_or(self.slots),
            _ => self.slots,
        };
        History { mode, plane, before_wait, slots }
    }
}

/// G, as far as it concerns the plane; none where it gives no CONFIGURE.
fn granted(g: Grant, mode: Mode) -> Option<Plane> {
    match (g, mode) {
        (Grant::Granted, Mode::Simplex) => Some(Plane::Transmit),
        (Grant::Granted, Mode::Duplex) => Some(Plane::TransmitAndReceive),
        (Grant::GrantedToAnother, _) => Some(Plane::Receive),
        (Grant::NotGranted | Grant::Queued, _) => None,
    }
}
