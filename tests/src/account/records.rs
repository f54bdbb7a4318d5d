//! Event and message records: a record is read exactly when its length, kind and every field are
//! as the paper allows, and what is written reads back as the same.

use super::Refusal;

pub const MAX_IDENTIFIER: u16 = 16383;
pub const MAX_ADDRESS: u32 = 16_777_215;
pub const MAX_T310_CODE: u8 = 15;
/// In D-INFO and D-CALL RESTORE alone: no T310 code is given.
pub const ABSENT_T310_CODE: u8 = 16;
pub const MAX_TX_INDICATION: u8 = 8;
pub const MAX_SLOTS: u8 = 4;
/// Of the console.
pub const MAX_PLACE: u8 = 7;

/// Length and kind.
pub const HEAD_LEN: usize = 4;
/// The longest records (U-CALL RESTORE, SETUP indication, D-SETUP, SETUP request and U-SETUP with
/// slots) have a body of 7 bytes.
pub const MAX_RECORD_LEN: usize = 11;

/// An enum whose cases carry the numbers they have in a record.
macro_rules! numbered {
    ($(#[$about:meta])* $name:ident { $($case:ident = $number:literal),+ $(,)? }) => {
        $(#[$about])*
        #[derive(Clone, Copy, Debug, PartialEq, Eq, Hash)]
        #[repr(u8)]
        pub enum $name { $($case = $number),+ }

        impl $name {
            pub const ALL: &'static [Self] = &[$(Self::$case),+];

            pub const fn from_number(number: u8) -> Option<Self> {
                match number {
                    $($number => Some(Self::$case),)+
                    _ => None,
                }
            }
        }
    };
}

numbered! {
    /// d.
    Mode { Simplex = 0, Duplex = 1 }
}

numbered! {
    /// g.
    Grant { Granted = 0, NotGranted = 1, Queued = 2, GrantedToAnother = 3 }
}

numbered! {
    /// c.
    Cause { User = 1, Timer = 2, Network = 3, TransferFailed = 4 }
}

numbered! {
    /// p, the plane told by CONFIGURE.
    Plane { Transmit = 1, Receive = 2, TransmitAndReceive = 3, Off = 4 }
}

numbered! {
    /// v, what a question of the lower layers is answered.
    Verdict { Accept = 0, Reject = 1, Ignore = 2 }
}

numbered! {
    /// n, by its place in the call record's array; [`Timer::number`] is what a record says.
    Timer { T301 = 0, T302 = 1, T303 = 2, T306 = 3, T308 = 4, T310 = 5, T311 = 6 }
}

impl Timer {
    const NUMBERS: [u16; 7] = [301, 302, 303, 306, 308, 310, 311];

    pub const fn number(self) -> u16 {
        Self::NUMBERS[self as usize]
    }

    pub const fn from_timer_number(number: u16) -> Option<Timer> {
        Some(match number {
            301 => Timer::T301,
            302 => Timer::T302,
            303 => Timer::T303,
            306 => Timer::T306,
            308 => Timer::T308,
            310 => Timer::T310,
            311 => Timer::T311,
            _ => return None,
        })
    }
}

/// What comes in. In TX request k is true for a demand and false for a cease; where o may be
/// absent, `None` is the paper's 16. Where s, the slots, is `None` the record is the old one, without
/// the byte at its end.
#[derive(Clone, Copy, Debug, PartialEq, Eq)]
pub enum Event {
    // User.
    SetupRequest { a: u32, d: Mode, q: bool, s: Option<u8> },
    SetupResponse,
    ReleaseRequest,
    TxRequest { k: bool },
    // Network.
    DCallProceeding { i: u16 },
    DAlert { i: u16 },
    DConnect { i: u16, g: Grant, d: Mode, o: u8, s: Option<u8> },
    DConnectAcknowledge { i: u16, g: Grant, o: u8 },
    DSetup { i: u16, a: u32, d: Mode },
    DInfo { i: u16, r: bool, o: Option<u8>, d: Mode, s: Option<u8> },
    DTxGranted { i: u16, g: Grant },
    DTxCeased { i: u16 },
    DTxInterrupt { i: u16, g: Grant },
    DTxWait { i: u16 },
    DTxContinue { i: u16, k: bool },
    DCallRestore { i: u16, g: Grant, r: bool, o: Option<u8> },
    DDisconnect { i: u16 },
    DRelease { i: u16 },
    // Lower layers.
    ReportSent,
    ReportFailed,
    Break,
    Resume,
    // A timer ran out.
    Expiry { n: Timer },
}

/// What goes out. A U-SETUP without s is the old record; MODIFY indication always has s.
#[derive(Clone, Copy, Debug, PartialEq, Eq)]
pub enum Message {
    // U-PDUs.
    USetup {
        a: u32,
        d: Mode,
        q: bool,
        s: Option<u8>,
    },
    UConnect {
        i: u16,
    },
    UDisconnect {
        i: u16,
        c: Cause,
    },
    URelease {
        i: u16,
    },
    /// No step writes it any more; message files hold it.
    UInfo {
        i: u16,
        d: Mode,
    },
    UTxDemand {
        i: u16,
    },
    UTxCeased {
        i: u16,
    },
    UCallRestore {
        i: u16,
        a: u32,
        q: bool,
    },
    // Orders to timers and lower layers.
    Stop {
        n: Timer,
    },
    Start {
        n: Timer,
        o: u8,
    },
    Configure {
        p: Plane,
    },
    Cancel,
    // Before the messages of a place of the console.
    Place {
        place: u8,
    },
    // To the lower layers' question of this number. No step writes it.
    ChannelAnswer {
        number: u16,
        v: Verdict,
    },
    // To the user.
    SetupIndication {
        i: u16,
        a: u32,
        d: Mode,
    },
    SetupConfirm {
        i: u16,
        g: Grant,
    },
    Proceed,
    Alert,
    Complete {
        g: Grant,
    },
    ReleaseIndication {
        c: Cause,
    },
    ReleaseConfirm,
    TxIndication {
        x: u8,
    },
    ModifyIndication {
        d: Mode,
        s: u8,
    },
}

impl Event {
    pub fn read(bytes: &[u8]) -> Result<Event, Refusal> {
        let (kind, body) = open(bytes)?;
        // The size is checked before the fields, and these from left to right.
        Ok(match kind {
            0x0101 => {
                let mut b = body.with_or_without_slots(6)?;
                Event::SetupRequest { a: b.a_known()?, d: b.d()?, q: b.flag()?, s: b.s_at_end()? }
            }
            0x0102 => body.of(0).map(|_| Event::SetupResponse)?,
            0x0103 => body.of(0).map(|_| Event::ReleaseRequest)?,
            0x0104 => Event::TxRequest { k: body.of(1)?.flag()? },
            // MODIFY request, whatever its body. Its number is not given to anything else.
            0x0105 => return Err(Refusal::Retired),
            0x0201 => Event::DCallProceeding { i: body.of(2)?.i()? },
            0x0202 => Event::DAlert { i: body.of(2)?.i()? },
            0x0203 => {
                let mut b = body.with_or_without_slots(5)?;
                Event::DConnect { i: b.i()?, g: b.g()?, d: b.d()?, o: b.o()?, s: b.s_at_end()? }
            }
            0x0204 => {
                let mut b = body.of(4)?;
                Event::DConnectAcknowledge { i: b.i()?, g: b.g()?, o: b.o()? }
            }
            0x0205 => {
                let mut b = body.of(7)?;
                Event::DSetup { i: b.i()?, a: b.a()?, d: b.d()? }
            }
            0x0206 => {
                let mut b = body.with_or_without_slots(5)?;
                Event::DInfo {
                    i: b.i()?,
                    r: b.flag()?,
                    o: b.o_or_absent()?,
                    d: b.d()?,
                    s: b.s_at_end()?,
                }
            }
            0x0207 => {
                let mut b = body.of(3)?;
                Event::DTxGranted { i: b.i()?, g: b.g()? }
            }
            0x0208 => Event::DTxCeased { i: body.of(2)?.i()? },
            0x0209 => {
                let mut b = body.of(3)?;
                Event::DTxInterrupt { i: b.i()?, g: b.g()? }
            }
            0x020A => Event::DTxWait { i: body.of(2)?.i()? },
            0x020B => {
                let mut b = body.of(3)?;
                Event::DTxContinue { i: b.i()?, k: b.flag()? }
            }
            0x020C => {
                let mut b = body.of(5)?;
                Event::DCallRestore { i: b.i()?, g: b.g()?, r: b.flag()?, o: b.o_or_absent()? }
            }
            0x020D => Event::DDisconnect { i: body.of(2)?.i_or_zero()? },
            0x020E => Event::DRelease { i: body.of(2)?.i_or_zero()? },
            0x0301 => body.of(0).map(|_| Event::ReportSent)?,
            0x0302 => body.of(0).map(|_| Event::ReportFailed)?,
            0x0303 => body.of(0).map(|_| Event::Break)?,
            0x0304 => body.of(0).map(|_| Event::Resume)?,
            0x0401 => Event::Expiry { n: body.of(2)?.n()? },
            _ => return Err(Refusal::Kind),
        })
    }

    /// Writes the record to the front of `out` and gives its length.
    pub fn write(&self, out: &mut [u8]) -> Result<usize, Refusal> {
        if !self.in_range() {
            return Err(Refusal::Field { place: 0 });
        }
        write(self, out)
    }

    /// Whether every number is one a reader would take.
    pub fn in_range(&self) -> bool {
        match *self {
            Event::SetupRequest { a, s, .. } => address_known(a) && s.is_none_or(slots),
            Event::DSetup { i, a, .. } => identifier(i) && address(a),
            Event::DConnect { i, o, s, .. } => identifier(i) && t310_code(o) && s.is_none_or(slots),
            Event::DConnectAcknowledge { i, o, .. } => identifier(i) && t310_code(o),
            Event::DInfo { i, o, s, .. } => {
                identifier(i) && o.is_none_or(t310_code) && s.is_none_or(slots)
            }
            Event::DCallRestore { i, o, .. } => identifier(i) && o.is_none_or(t310_code),
            Event::DCallProceeding { i }
            | Event::DAlert { i }
            | Event::DTxGranted { i, .. }
            | Event::DTxCeased { i }
            | Event::DTxInterrupt { i, .. }
            | Event::DTxWait { i }
            | Event::DTxContinue { i, .. } => identifier(i),
            Event::DDisconnect { i } | Event::DRelease { i } => identifier_or_zero(i),
            Event::SetupResponse
            | Event::ReleaseRequest
            | Event::TxRequest { .. }
            | Event::ReportSent
            | Event::ReportFailed
            | Event::Break
            | Event::Resume
            | Event::Expiry { .. } => true,
        }
    }

    /// The i of a network event but D-SETUP, which must agree with the held one.
    #[inline]
    pub fn call_identifier(&self) -> Option<u16> {
        match *self {
            Event::DCallProceeding { i }
            | Event::DAlert { i }
            | Event::DConnect { i, .. }
            | Event::DConnectAcknowledge { i, .. }
            | Event::DInfo { i, .. }
            | Event::DTxGranted { i, .. }
            | Event::DTxCeased { i }
            | Event::DTxInterrupt { i, .. }
            | Event::DTxWait { i }
            | Event::DTxContinue { i, .. }
            | Event::DCallRestore { i, .. }
            | Event::DDisconnect { i }
            | Event::DRelease { i } => Some(i),
            _ => None,
        }
    }
}

impl Put for Event {
    fn put(&self, sink: &mut impl Sink) {
        match *self {
            Event::SetupRequest { a, d, q, s } => {
                let [a0, a1, a2, a3] = a.to_le_bytes();
                match s {
                    None => sink.record(0x0101, [a0, a1, a2, a3, d as u8, q as u8]),
                    Some(s) => sink.record(0x0101, [a0, a1, a2, a3, d as u8, q as u8, s]),
                }
            }
            Event::SetupResponse => sink.record(0x0102, []),
            Event::ReleaseRequest => sink.record(0x0103, []),
            Event::TxRequest { k } => sink.record(0x0104, [k as u8]),
            Event::DCallProceeding { i } => sink.record(0x0201, i.to_le_bytes()),
            Event::DAlert { i } => sink.record(0x0202, i.to_le_bytes()),
            Event::DConnect { i, g, d, o, s } => {
                let [i0, i1] = i.to_le_bytes();
                match s {
                    None => sink.record(0x0203, [i0, i1, g as u8, d as u8, o]),
                    Some(s) => sink.record(0x0203, [i0, i1, g as u8, d as u8, o, s]),
                }
            }
            Event::DConnectAcknowledge { i, g, o } => {
                let [i0, i1] = i.to_le_bytes();
                sink.record(0x0204, [i0, i1, g as u8, o]);
            }
            Event::DSetup { i, a, d } => {
                let [i0, i1] = i.to_le_bytes();
                let [a0, a1, a2, a3] = a.to_le_bytes();
                sink.record(0x0205, [i0, i1, a0, a1, a2, a3, d as u8]);
            }
            Event::DInfo { i, r, o, d, s } => {
                let [i0, i1] = i.to_le_bytes();
                let o = o.unwrap_or(ABSENT_T310_CODE);
                match s {
                    None => sink.record(0x0206, [i0, i1, r as u8, o, d as u8]),
                    Some(s) => sink.record(0x0206, [i0, i1, r as u8, o, d as u8, s]),
                }
            }
            Event::DTxGranted { i, g } => {
                let [i0, i1] = i.to_le_bytes();
                sink.record(0x0207, [i0, i1, g as u8]);
            }
            Event::DTxCeased { i } => sink.record(0x0208, i.to_le_bytes()),
            Event::DTxInterrupt { i, g } => {
                let [i0, i1] = i.to_le_bytes();
                sink.record(0x0209, [i0, i1, g as u8]);
            }
            Event::DTxWait { i } => sink.record(0x020A, i.to_le_bytes()),
            Event::DTxContinue { i, k } => {
                let [i0, i1] = i.to_le_bytes();
                sink.record(0x020B, [i0, i1, k as u8]);
            }
            Event::DCallRestore { i, g, r, o } => {
                let [i0, i1] = i.to_le_bytes();
                sink.record(0x020C, [i0, i1, g as u8, r as u8, o.unwrap_or(ABSENT_T310_CODE)]);
            }
            Event::DDisconnect { i } => sink.record(0x020D, i.to_le_bytes()),
            Event::DRelease { i } => sink.record(0x020E, i.to_le_bytes()),
            Event::ReportSent => sink.record(0x0301, []),
            Event::ReportFailed => sink.record(0x0302, []),
            Event::Break => sink.record(0x0303, []),
            Event::Resume => sink.record(0x0304, []),
            Event::Expiry { n } => sink.record(0x0401, n.number().to_le_bytes()),
        }
    }
}

impl Message {
    pub fn read(bytes: &[u8]) -> Result<Message, Refusal> {
        let (kind, body) = open(bytes)?;
        Ok(match kind {
            0x0501 => {
                let mut b = body.with_or_without_slots(6)?;
                Message::USetup { a: b.a_known()?, d: b.d()?, q: b.flag()?, s: b.s_at_end()? }
            }
            0x0502 => Message::UConnect { i: body.of(2)?.i()? },
            0x0503 => {
                let mut b = body.of(3)?;
                Message::UDisconnect { i: b.i_or_zero()?, c: b.c()? }
            }
            0x0504 => Message::URelease { i: body.of(2)?.i_or_zero()? },
            0x0505 => {
                let mut b = body.of(3)?;
                Message::UInfo { i: b.i()?, d: b.d()? }
            }
            0x0506 => Message::UTxDemand { i: body.of(2)?.i()? },
            0x0507 => Message::UTxCeased { i: body.of(2)?.i()? },
            0x0508 => {
                let mut b = body.of(7)?;
                Message::UCallRestore { i: b.i()?, a: b.a()?, q: b.flag()? }
            }
            0x0601 => Message::Stop { n: body.of(2)?.n()? },
            0x0602 => {
                let mut b = body.of(3)?;
                let n = b.n()?;
                Message::Start { n, o: b.o_of(n)? }
            }
            0x0603 => Message::Configure { p: body.of(1)?.p()? },
            0x0604 => body.of(0).map(|_| Message::Cancel)?,
            0x0605 => Message::Place { place: body.of(1)?.place()? },
            0x0606 => {
                let mut b = body.of(3)?;
                Message::ChannelAnswer { number: b.number()?, v: b.v()? }
            }
            0x0701 => {
                let mut b = body.of(7)?;
                Message::SetupIndication { i: b.i()?, a: b.a()?, d: b.d()? }
            }
            0x0702 => {
                let mut b = body.of(3)?;
                Message::SetupConfirm { i: b.i()?, g: b.g()? }
            }
            0x0703 => body.of(0).map(|_| Message::Proceed)?,
            0x0704 => body.of(0).map(|_| Message::Alert)?,
            0x0705 => Message::Complete { g: body.of(1)?.g()? },
            0x0706 => Message::ReleaseIndication { c: body.of(1)?.c()? },
            0x0707 => body.of(0).map(|_| Message::ReleaseConfirm)?,
            0x0708 => Message::TxIndication { x: body.of(1)?.x()? },
            0x0709 => {
                let mut b = body.of(2)?;
                Message::ModifyIndication { d: b.d()?, s: b.s()? }
            }
            _ => return Err(Refusal::Kind),
        })
    }

    /// Writes the record to the front of `out` and gives its length.
    pub fn write(&self, out: &mut [u8]) -> Result<usize, Refusal> {
        if !self.in_range() {
            return Err(Refusal::Field { place: 0 });
        }
        write(self, out)
    }

    /// Whether every number is one a reader would take.
    pub fn in_range(&self) -> bool {
        match *self {
            Message::USetup { a, s, .. } => address_known(a) && s.is_none_or(slots),
            Message::UConnect { i }
            | Message::UInfo { i, .. }
            | Message::UTxDemand { i }
            | Message::UTxCeased { i }
            | Message::SetupConfirm { i, .. } => identifier(i),
            Message::UDisconnect { i, .. } | Message::URelease { i } => identifier_or_zero(i),
            Message::UCallRestore { i, a, .. } | Message::SetupIndication { i, a, .. } => {
                identifier(i) && address(a)
            }
            Message::Start { n, o } => start_code(n, o),
            Message::TxIndication { x } => x <= MAX_TX_INDICATION,
            Message::Place { place } => place <= MAX_PLACE,
            Message::Stop { .. }
            | Message::ChannelAnswer { .. }
            | Message::Configure { .. }
            | Message::Cancel
            | Message::Proceed
            | Message::Alert
            | Message::Complete { .. }
            | Message::ReleaseIndication { .. }
            | Message::ReleaseConfirm => true,
            Message::ModifyIndication { s, .. } => slots(s),
        }
    }
}

impl Put for Message {
    #[inline]
    fn put(&self, sink: &mut impl Sink) {
        match *self {
            Message::USetup { a, d, q, s } => {
                let [a0, a1, a2, a3] = a.to_le_bytes();
                match s {
                    None => sink.record(0x0501, [a0, a1, a2, a3, d as u8, q as u8]),
                    Some(s) => sink.record(0x0501, [a0, a1, a2, a3, d as u8, q as u8, s]),
                }
            }
            Message::UConnect { i } => sink.record(0x0502, i.to_le_bytes()),
            Message::UDisconnect { i, c } => {
                let [i0, i1] = i.to_le_bytes();
                sink.record(0x0503, [i0, i1, c as u8]);
            }
            Message::URelease { i } => sink.record(0x0504, i.to_le_bytes()),
            Message::UInfo { i, d } => {
                let [i0, i1] = i.to_le_bytes();
                sink.record(0x0505, [i0, i1, d as u8]);
            }
            Message::UTxDemand { i } => sink.record(0x0506, i.to_le_bytes()),
            Message::UTxCeased { i } => sink.record(0x0507, i.to_le_bytes()),
            Message::UCallRestore { i, a, q } => {
                let [i0, i1] = i.to_le_bytes();
                let [a0, a1, a2, a3] = a.to_le_bytes();
                sink.record(0x0508, [i0, i1, a0, a1, a2, a3, q as u8]);
            }
            Message::Stop { n } => sink.record(0x0601, n.number().to_le_bytes()),
            Message::Start { n, o } => {
                let [n0, n1] = n.number().to_le_bytes();
                sink.record(0x0602, [n0, n1, o]);
            }
            Message::Configure { p } => sink.record(0x0603, [p as u8]),
            Message::Cancel => sink.record(0x0604, []),
            Message::Place { place } => sink.record(0x0605, [place]),
            Message::ChannelAnswer { number, v } => {
                let [n0, n1] = number.to_le_bytes();
                sink.record(0x0606, [n0, n1, v as u8]);
            }
            Message::SetupIndication { i, a, d } => {
                let [i0, i1] = i.to_le_bytes();
                let [a0, a1, a2, a3] = a.to_le_bytes();
                sink.record(0x0701, [i0, i1, a0, a1, a2, a3, d as u8]);
            }
            Message::SetupConfirm { i, g } => {
                let [i0, i1] = i.to_le_bytes();
                sink.record(0x0702, [i0, i1, g as u8]);
            }
            Message::Proceed => sink.record(0x0703, []),
            Message::Alert => sink.record(0x0704, []),
            Message::Complete { g } => sink.record(0x0705, [g as u8]),
            Message::ReleaseIndication { c } => sink.record(0x0706, [c as u8]),
            Message::ReleaseConfirm => sink.record(0x0707, []),
            Message::TxIndication { x } => sink.record(0x0708, [x]),
            Message::ModifyIndication { d, s } => sink.record(0x0709, [d as u8, s]),
        }
    }
}

/// The messages of one step, one after another as they were written. What is not a whole message
/// ends it with the reader's refusal.
pub fn messages(mut bytes: &[u8]) -> impl Iterator<Item = Result<Message, Refusal>> + '_ {
    core::iter::from_fn(move || {
        if bytes.is_empty() {
            return None;
        }
        let len = match bytes {
            &[l0, l1, ..] => u16::from_le_bytes([l0, l1]) as usize,
            _ => 0,
        };
        let whole = if len >= HEAD_LEN && len <= bytes.len() { len } else { bytes.len() };
        let (record, rest) = bytes.split_at(whole);
        let read = Message::read(record);
        bytes = if read.is_ok() { rest } else { &[] };
        Some(read)
    })
}

// Ranges of the letters that are plain numbers here.

fn identifier_or_zero(i: u16) -> bool {
    i <= MAX_IDENTIFIER
}

fn identifier(i: u16) -> bool {
    i != 0 && identifier_or_zero(i)
}

fn address(a: u32) -> bool {
    a <= MAX_ADDRESS
}

fn address_known(a: u32) -> bool {
    a != 0 && address(a)
}

fn t310_code(o: u8) -> bool {
    o <= MAX_T310_CODE
}

fn slots(s: u8) -> bool {
    (1..=MAX_SLOTS).contains(&s)
}

fn start_code(n: Timer, o: u8) -> bool {
    if n == Timer::T310 {
        t310_code(o)
    } else {
        o == 0
    }
}

/// Opens a record: its kind, and its body still to be read.
#[inline]
fn open(bytes: &[u8]) -> Result<(u16, Body<'_>), Refusal> {
    let &[l0, l1, k0, k1, ref body @ ..] = bytes else {
        return Err(Refusal::Length);
    };
    // Widening the field, not narrowing the count: 65540 bytes do not have length 4.
    if u16::from_le_bytes([l0, l1]) as usize != bytes.len() {
        return Err(Refusal::Length);
    }
    Ok((u16::from_le_bytes([k0, k1]), Body { rest: body, at: HEAD_LEN as u8 }))
}

/// The body of a record, read letter by letter.
struct Body<'a> {
    rest: &'a [u8],
    /// Where the rest begins in the record.
    at: u8,
}

impl<'a> Body<'a> {
    /// This body, if it has the size that its kind asks for.
    #[inline]
    fn of(self, size: usize) -> Result<Body<'a>, Refusal> {
        if self.rest.len() == size {
            Ok(self)
        } else {
            Err(Refusal::Field { place: 2 })
        }
    }

    /// This body, if it has the size of the old record or one byte more, the slots at its end.
    #[inline]
    fn with_or_without_slots(self, size: usize) -> Result<Body<'a>, Refusal> {
        let longer = self.rest.len() == size + 1;
        self.of(if longer { size + 1 } else { size })
    }

    /// The next letter, of N bytes, if `value` makes something of them; else its place is the bad one.
    #[inline]
    fn letter<const N: usize, T>(
        &mut self,
        value: impl FnOnce([u8; N]) -> Option<T>,
    ) -> Result<T, Refusal> {
        let bad = Refusal::Field { place: self.at };
        let (letter, rest) = self.rest.split_first_chunk().ok_or(bad)?;
        self.rest = rest;
        self.at += N as u8;
        value(*letter).ok_or(bad)
    }

    fn byte<T>(&mut self, value: impl FnOnce(u8) -> Option<T>) -> Result<T, Refusal> {
        self.letter(|[byte]| value(byte))
    }

    fn i_or_zero(&mut self) -> Result<u16, Refusal> {
        self.letter(|i| Some(u16::from_le_bytes(i)).filter(|&i| identifier_or_zero(i)))
    }

    fn i(&mut self) -> Result<u16, Refusal> {
        self.letter(|i| Some(u16::from_le_bytes(i)).filter(|&i| identifier(i)))
    }

    fn a(&mut self) -> Result<u32, Refusal> {
        self.letter(|a| Some(u32::from_le_bytes(a)).filter(|&a| address(a)))
    }

    fn a_known(&mut self) -> Result<u32, Refusal> {
        self.letter(|a| Some(u32::from_le_bytes(a)).filter(|&a| address_known(a)))
    }

    fn g(&mut self) -> Result<Grant, Refusal> {
        self.byte(Grant::from_number)
    }

    fn d(&mut self) -> Result<Mode, Refusal> {
        self.byte(Mode::from_number)
    }

    /// q, r or k.
    fn flag(&mut self) -> Result<bool, Refusal> {
        self.byte(|flag| match flag {
            0 => Some(false),
            1 => Some(true),
            _ => None,
        })
    }

    fn o(&mut self) -> Result<u8, Refusal> {
        self.byte(|o| Some(o).filter(|&o| t310_code(o)))
    }

    fn o_or_absent(&mut self) -> Result<Option<u8>, Refusal> {
        self.byte(|o| match o {
            ABSENT_T310_CODE => Some(None),
            o => Some(Some(o)).filter(|_| t310_code(o)),
        })
    }

    fn s(&mut self) -> Result<u8, Refusal> {
        self.byte(|s| Some(s).filter(|&s| slots(s)))
    }

    /// The slots at the end of a longer record; none in an old one.
    fn s_at_end(&mut self) -> Result<Option<u8>, Refusal> {
        if self.rest.is_empty() {
            return Ok(None);
        }
        self.s().map(Some)
    }

    /// The o of START n.
    fn o_of(&mut self, n: Timer) -> Result<u8, Refusal> {
        self.byte(|o| Some(o).filter(|&o| start_code(n, o)))
    }

    fn n(&mut self) -> Result<Timer, Refusal> {
        self.letter(|n| Timer::from_timer_number(u16::from_le_bytes(n)))
    }

    fn c(&mut self) -> Result<Cause, Refusal> {
        self.byte(Cause::from_number)
    }

    fn p(&mut self) -> Result<Plane, Refusal> {
        self.byte(Plane::from_number)
    }

    fn place(&mut self) -> Result<u8, Refusal> {
        self.byte(|place| Some(place).filter(|&place| place <= MAX_PLACE))
    }

    /// Any number.
    fn number(&mut self) -> Result<u16, Refusal> {
        self.letter(|number| Some(u16::from_le_bytes(number)))
    }

    fn v(&mut self) -> Result<Verdict, Refusal> {
        self.byte(Verdict::from_number)
    }

    fn x(&mut self) -> Result<u8, Refusal> {
        self.byte(|x| Some(x).filter(|&x| x <= MAX_TX_INDICATION))
    }
}

/// Something made of records.
pub(super) trait Put {
    fn put(&self, sink: &mut impl Sink);
}

/// Where records go: first to be counted, then, if they fit, to be written.
pub(super) trait Sink {
    fn record<const N: usize>(&mut self, kind: u16, body: [u8; N]);
}

/// Writes all of it or, where it does not fit, nothing.
#[inline]
pub(super) fn write(what: &impl Put, out: &mut [u8]) -> Result<usize, Refusal> {
    let mut count = Count(0);
    what.put(&mut count);
    let out = out.get_mut(..count.0).ok_or(Refusal::Buffer)?;
    what.put(&mut Pen { out, at: 0 });
    Ok(count.0)
}

struct Count(usize);

impl Sink for Count {
    #[inline]
    fn record<const N: usize>(&mut self, _kind: u16, _body: [u8; N]) {
        self.0 += HEAD_LEN + N;
    }
}

struct Pen<'a> {
    out: &'a mut [u8],
    at: usize,
}

impl Sink for Pen<'_> {
    #[inline]
    fn record<const N: usize>(&mut self, kind: u16, body: [u8; N]) {
        let len = HEAD_LEN + N;
        let record = &mut self.out[self.at..self.at + len];
        record[..2].copy_from_slice(&(len as u16).to_le_bytes());
        record[2..HEAD_LEN].copy_from_slice(&kind.to_le_bytes());
        record[HEAD_LEN..].copy_from_slice(&body);
        self.at += len;
    }
}
