//! The call record: 22 bytes stand for a call exactly when they unpack and are sound.

use super::records::{MAX_ADDRESS, MAX_IDENTIFIER, MAX_SLOTS, MAX_T310_CODE};
use super::{Mode, Plane, Timer};

/// Bytes of a packed record.
pub const RECORD_LEN: usize = 22;

#[derive(Clone, Copy, Debug, PartialEq, Eq, Hash, PartialOrd, Ord)]
#[repr(u8)]
pub enum State {
    Idle = 0,
    MoCallSetup = 1,
    MtCallSetup = 2,
    CallActive = 3,
    Wait = 4,
    CallDisconnect = 5,
}

impl State {
    pub const ALL: [State; 6] = [
        State::Idle,
        State::MoCallSetup,
        State::MtCallSetup,
        State::CallActive,
        State::Wait,
        State::CallDisconnect,
    ];

    pub const fn from_number(number: u8) -> Option<State> {
        Some(match number {
            0 => State::Idle,
            1 => State::MoCallSetup,
            2 => State::MtCallSetup,
            3 => State::CallActive,
            4 => State::Wait,
            5 => State::CallDisconnect,
            _ => return None,
        })
    }

    /// As the paper and the program `calltrace` write it.
    pub const fn name(self) -> &'static str {
        match self {
            State::Idle => "IDLE",
            State::MoCallSetup => "MO-CALL-SETUP",
            State::MtCallSetup => "MT-CALL-SETUP",
            State::CallActive => "CALL-ACTIVE",
            State::Wait => "WAIT",
            State::CallDisconnect => "CALL-DISCONNECT",
        }
    }
}

#[derive(Clone, Copy, Debug, PartialEq, Eq, Hash, PartialOrd, Ord)]
#[repr(u8)]
pub enum Path {
    Up = 0,
    Broken = 1,
    Restoring = 2,
}

impl Path {
    pub const ALL: [Path; 3] = [Path::Up, Path::Broken, Path::Restoring];

    pub const fn from_number(number: u8) -> Option<Path> {
        Some(match number {
            0 => Path::Up,
            1 => Path::Broken,
            2 => Path::Restoring,
            _ => return None,
        })
    }

    pub const fn name(self) -> &'static str {
        match self {
            Path::Up => "up",
            Path::Broken => "broken",
            Path::Restoring => "restoring",
        }
    }
}

#[derive(Clone, Copy, Debug, PartialEq, Eq, Hash)]
pub struct Call {
    pub state: State,
    pub identifier: u16,
    pub address: u32,
    pub mode: Mode,
    pub asked: bool,
    pub sent: bool,
    pub path: Path,
    /// Last told by CONFIGURE.
    pub plane: Plane,
    /// Kept in a pause.
    pub kept: Plane,
    pub t310_code: u8,
    /// Running or not, in the order of [`Timer::ALL`].
    pub timers: [bool; 7],
    /// Slots per frame.
    pub slots: u8,
}

impl Call {
    pub const FRESH: Call = Call {
        state: State::Idle,
        identifier: 0,
        address: 0,
        mode: Mode::Simplex,
        asked: false,
        sent: false,
        path: Path::Up,
        plane: Plane::Off,
        kept: Plane::Off,
        t310_code: 0,
        timers: [false; 7],
        slots: 1,
    };

    #[inline]
    pub fn running(&self, timer: Timer) -> bool {
        self.timers[timer as usize]
    }

    /// Sound, clause by clause.
    #[inline]
    pub fn sound(&self) -> bool {
        let numbers_in_range = self.identifier <= MAX_IDENTIFIER
            && self.address <= MAX_ADDRESS
            && self.t310_code <= MAX_T310_CODE
            && (1..=MAX_SLOTS).contains(&self.slots);
        let idle_only_if_fresh = self.state != State::Idle || *self == Call::FRESH;
        let t311_runs_in_plane_1 = self.running(Timer::T311) == (self.plane == Plane::Transmit);
        let t306_runs_restoring = self.running(Timer::T306) == (self.path == Path::Restoring);
        let active = self.state == State::CallActive;
        let plane_off = self.plane == Plane::Off || (active && self.path == Path::Up);
        let path_up = self.path == Path::Up || active;
        let nothing_kept = self.kept == Plane::Off || self.state == State::Wait;
        let identified = self.identifier != 0
            || matches!(self.state, State::Idle | State::MoCallSetup | State::CallDisconnect);
        numbers_in_range
            && idle_only_if_fresh
            && t311_runs_in_plane_1
            && t306_runs_restoring
            && plane_off
            && path_up
            && nothing_kept
            && identified
    }

    /// Whether a network event with this i is one of this call.
    #[inline]
    pub fn agrees(&self, i: u16) -> bool {
        i == self.identifier || (self.identifier == 0 && self.state != State::Idle)
    }

    /// The record held in these bytes; none if they are no record. It need not be sound.
    #[rustfmt::skip]
    #[inline]
    pub fn unpack(bytes: &[u8]) -> Option<Call> {
        let [state, i0, i1, a0, a1, a2, a3, mode, asked, sent, path, plane, kept, t310_code,
            timers @ .., slots]: [u8; RECORD_LEN] = bytes.try_into().ok()?;
        let timers: [u8; 7] = timers;
        // All flags at once: none is over 1 exactly when no bit but the lowest is set in any.
        if timers.iter().fold(asked | sent, |all, &flag| all | flag) > 1 {
            return None;
        }
        Some(Call {
            state: State::from_number(state)?,
            identifier: u16::from_le_bytes([i0, i1]),
            address: u32::from_le_bytes([a0, a1, a2, a3]),
            mode: Mode::from_number(mode)?,
            asked: asked == 1,
            sent: sent == 1,
            path: Path::from_number(path)?,
            plane: Plane::from_number(plane)?,
            kept: Plane::from_number(kept)?,
            t310_code,
            timers: timers.map(|flag| flag == 1),
            slots,
        })
    }

    #[inline]
    pub fn pack(&self) -> [u8; RECORD_LEN] {
        let [i0, i1] = self.identifier.to_le_bytes();
        let [a0, a1, a2, a3] = self.address.to_le_bytes();
        let [t301, t302, t303, t306, t308, t310, t311] = self.timers.map(u8::from);
        [
            self.state as u8,
            i0,
            i1,
            a0,
            a1,
            a2,
            a3,
            self.mode as u8,
            self.asked as u8,
            self.sent as u8,
            self.path as u8,
            self.plane as u8,
            self.kept as u8,
            self.t310_code,
            t301,
            t302,
            t303,
            t306,
            t308,
            t310,
            t311,
            self.slots,
        ]
    }
}
