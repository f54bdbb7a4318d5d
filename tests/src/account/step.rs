//! The steps: from a sound record every event has one answer, one next record and one row of
//! messages, and a refusal changes nothing.

use super::records::{write, Put, Sink};
use super::{Call, Cause, Event, Grant, Message, Mode, Path, Plane, Refusal, State, Timer};

impl Call {
    /// Takes one event record, writes what it orders to the front of `out` and counts the bytes.
    /// A refusal leaves the call and `out` as they are.
    #[inline]
    pub fn step(&mut self, event: &[u8], out: &mut [u8]) -> Result<usize, Refusal> {
        // The checks stand in the order of the answers, in which 8 comes after 6 and before 7: the
        // first that applies is given.
        if !self.sound() {
            return Err(Refusal::NotSound);
        }
        let event = Event::read(event)?;
        self.take(event, out)
    }

    /// Takes one event that was read, on a sound record.
    #[inline]
    pub fn take(&mut self, event: Event, out: &mut [u8]) -> Result<usize, Refusal> {
        if event.call_identifier().is_some_and(|i| !self.agrees(i)) {
            return Err(Refusal::Identifier);
        }
        let mut turn = Turn { call: *self, orders: Orders::NONE };
        if !turn.take(event) {
            return Err(Refusal::NoRow);
        }
        if matches!(event, Event::DInfo { .. }) && self.transmits() {
            return Err(Refusal::OwnTransmission);
        }
        let count = write(&turn.orders, out)?;
        *self = turn.call;
        Ok(count)
    }

    /// Whether the set has the U-plane to transmit: plane 1 or 3.
    fn transmits(&self) -> bool {
        matches!(self.plane, Plane::Transmit | Plane::TransmitAndReceive)
    }
}

/// A set of timers, gone through by rising number.
#[derive(Clone, Copy)]
struct Timers(u8);

impl Timers {
    const NONE: Timers = Timers(0);

    fn insert(&mut self, timer: Timer) {
        self.0 |= 1 << timer as u8;
    }

    fn remove(&mut self, timer: Timer) {
        self.0 &= !(1 << timer as u8);
    }
}

impl Iterator for Timers {
    type Item = Timer;

    #[inline]
    fn next(&mut self) -> Option<Timer> {
        let next = Timer::from_number(self.0.trailing_zeros() as u8)?;
        self.remove(next);
        Some(next)
    }
}

/// What one step writes. Each kind of message has its own place, so the order of writing does
/// not depend on the order in which a row is spelled out.
struct Orders {
    stops: Timers,
    cancel: bool,
    pdu: Option<Message>,
    starts: Timers,
    /// Goes with START of T310; every other timer has 0.
    t310_code: u8,
    configure: Option<Plane>,
    user: Option<Message>,
}

impl Orders {
    const NONE: Orders = Orders {
        stops: Timers::NONE,
        cancel: false,
        pdu: None,
        starts: Timers::NONE,
        t310_code: 0,
        configure: None,
        user: None,
    };
}

impl Put for Orders {
    #[inline]
    fn put(&self, sink: &mut impl Sink) {
        for n in self.stops {
            Message::Stop { n }.put(sink);
        }
        if self.cancel {
            Message::Cancel.put(sink);
        }
        if let Some(pdu) = self.pdu {
            pdu.put(sink);
        }
        for n in self.starts {
            let o = if n == Timer::T310 { self.t310_code } else { 0 };
            Message::Start { n, o }.put(sink);
        }
        if let Some(p) = self.configure {
            Message::Configure { p }.put(sink);
        }
        if let Some(user) = self.user {
            user.put(sink);
        }
    }
}

/// A step being made: the record as it will be, and what will be written.
struct Turn {
    call: Call,
    orders: Orders,
}

impl Turn {
    /// Follows the row for this event; false if there is none.
    fn take(&mut self, event: Event) -> bool {
        if let Event::Expiry { n } = event {
            // An expiry row needs its timer running. What expired runs no longer and, not
            // running, gets no STOP.
            if !core::mem::take(&mut self.call.timers[n as usize]) {
                return false;
            }
        }
        let Call { state, path, identifier: i, asked, sent, plane, .. } = self.call;

        match (state, path, event) {
            // IDLE.
            (State::Idle, _, Event::SetupRequest { a, d, q, s }) => {
                self.call.state = State::MoCallSetup;
                self.call.address = a;
                self.call.mode = d;
                self.call.asked = q;
                self.slots(s);
                self.pdu(Message::USetup { a, d, q, s });
                self.start(Timer::T303);
            }
            (State::Idle, _, Event::DSetup { i, a, d }) => {
                self.call.state = State::MtCallSetup;
                self.call.identifier = i;
                self.call.address = a;
                self.call.mode = d;
                self.user(Message::SetupIndication { i, a, d });
            }

            // MO-CALL-SETUP.
            (State::MoCallSetup, _, Event::ReportSent) if !sent => self.call.sent = true,
            (State::MoCallSetup, _, Event::ReportFailed) if !sent => {
                self.stop(Timer::T303);
                self.user(Message::ReleaseIndication { c: Cause::TransferFailed });
                self.call = Call::FRESH;
            }
            (State::MoCallSetup, _, Event::DCallProceeding { i }) => {
                self.progress(i, Message::Proceed);
            }
            (State::MoCallSetup, _, Event::DAlert { i }) => self.progress(i, Message::Alert),
            (State::MoCallSetup, _, Event::DConnect { i, g, d, o, s }) => {
                self.call.identifier = i;
                self.call.mode = d;
                self.slots(s);
                self.call.sent = true;
                self.call.state = State::CallActive;
                self.stop(Timer::T302);
                self.stop(Timer::T303);
                self.start_t310(o);
                self.grant_or_off(g);
                self.user(Message::SetupConfirm { i, g });
            }
            (State::MoCallSetup, _, Event::ReleaseRequest) if !sent => {
                self.orders.cancel = true;
                self.stop(Timer::T303);
                self.user(Message::ReleaseConfirm);
                self.call = Call::FRESH;
            }

            // MT-CALL-SETUP.
            (State::MtCallSetup, _, Event::SetupResponse) if !self.call.running(Timer::T301) => {
                self.pdu(Message::UConnect { i });
                self.start(Timer::T301);
            }
            (State::MtCallSetup, _, Event::DConnectAcknowledge { g, o, .. })
                if self.call.running(Timer::T301) =>
            {
                self.call.state = State::CallActive;
                self.stop(Timer::T301);
                self.start_t310(o);
                self.grant_or_off(g);
                self.user(Message::Complete { g });
            }

            // CALL-ACTIVE, path up.
            (State::CallActive, Path::Up, Event::TxRequest { k: true })
                if !asked && matches!(plane, Plane::Receive | Plane::Off) =>
            {
                self.pdu(Message::UTxDemand { i });
                self.call.asked = true;
            }
            (State::CallActive, Path::Up, Event::TxRequest { k: false })
                if plane == Plane::Transmit =>
            {
                self.pdu(Message::UTxCeased { i });
                self.off();
            }
            (State::CallActive, Path::Up, Event::TxRequest { k: false }) if asked => {
                self.pdu(Message::UTxCeased { i });
                self.call.asked = false;
            }
            (State::CallActive, Path::Up, Event::DInfo { r, o, d, s, .. }) => {
                self.restart_t310(r, o);
                self.slots(s);
                if d != self.call.mode {
                    self.call.mode = d;
                    self.off();
                } else {
                    // Told again, not given anew, whether or not the slots change: T311 stays as it is.
                    self.orders.configure = Some(plane);
                }
                self.user(Message::ModifyIndication { d, s: self.call.slots });
            }
            (State::CallActive, Path::Up, Event::DTxGranted { g, .. }) => {
                self.grant(g);
                self.tx_indication(g as u8);
            }
            (State::CallActive, Path::Up, Event::DTxCeased { .. }) => {
                self.off();
                self.tx_indication(4);
            }
            (State::CallActive, Path::Up, Event::DTxInterrupt { g, .. }) => {
                self.configure(match g {
                    Grant::GrantedToAnother => Plane::Receive,
                    _ => Plane::Off,
                });
                self.tx_indication(5);
            }
            (State::CallActive, Path::Up, Event::DTxWait { .. }) => {
                self.call.state = State::Wait;
                self.call.kept = plane;
                self.off();
                self.tx_indication(6);
            }
            (State::CallActive, Path::Up, Event::Break) => {
                self.call.path = Path::Broken;
                if matches!(plane, Plane::Transmit | Plane::TransmitAndReceive) {
                    self.call.asked = true;
                }
                self.off();
            }
            (State::CallActive, Path::Up, Event::Expiry { n: Timer::T311 }) => {
                self.pdu(Message::UTxCeased { i });
                self.off();
            }

            // CALL-ACTIVE, broken.
            (State::CallActive, Path::Broken, Event::TxRequest { k }) if k != asked => {
                self.call.asked = k;
            }
            (State::CallActive, Path::Broken, Event::Resume) => {
                let q = asked || self.call.mode == Mode::Duplex;
                self.call.asked = q;
                self.call.path = Path::Restoring;
                self.pdu(Message::UCallRestore { i, a: self.call.address, q });
                self.start(Timer::T306);
            }

            // CALL-ACTIVE, restoring.
            (State::CallActive, Path::Restoring, Event::Break) => {
                self.stop(Timer::T306);
                self.call.path = Path::Broken;
                self.off();
            }
            (State::CallActive, Path::Restoring, Event::DCallRestore { g, r, o, .. }) => {
                self.stop(Timer::T306);
                self.call.path = Path::Up;
                self.grant(g);
                self.restart_t310(r, o);
                self.tx_indication(g as u8);
            }

            // WAIT.
            (State::Wait, _, Event::DTxContinue { k: true, .. }) => {
                let kept = self.leave_wait();
                self.configure(kept);
                self.tx_indication(7);
            }
            (State::Wait, _, Event::DTxContinue { k: false, .. }) => {
                self.leave_wait();
                self.off();
                self.tx_indication(8);
            }
            (State::Wait, _, Event::Break) => {
                // The permission was lost when the pause began, so asked stays.
                self.leave_wait();
                self.call.path = Path::Broken;
                self.off();
                self.tx_indication(8);
            }

            // Release. MO-CALL-SETUP not sent was met above.
            (
                State::MoCallSetup | State::MtCallSetup | State::CallActive | State::Wait,
                _,
                Event::ReleaseRequest,
            ) => self.release(Cause::User),
            (
                State::MoCallSetup | State::MtCallSetup | State::CallActive | State::Wait,
                _,
                Event::Expiry {
                    n: Timer::T301 | Timer::T302 | Timer::T303 | Timer::T306 | Timer::T310,
                },
            ) => {
                self.release(Cause::Timer);
                self.user(Message::ReleaseIndication { c: Cause::Timer });
            }

            // CALL-DISCONNECT.
            (State::CallDisconnect, _, Event::ReportSent) if !sent => self.call.sent = true,
            (State::CallDisconnect, _, Event::ReportFailed) if !sent => {
                self.end(Message::ReleaseConfirm);
            }
            (State::CallDisconnect, _, Event::Expiry { n: Timer::T308 }) => {
                self.end(Message::ReleaseConfirm);
            }

            // D-DISCONNECT and D-RELEASE, not in IDLE.
            (State::Idle, _, _) => return false,
            (_, _, Event::DDisconnect { i }) => {
                self.orders.cancel = state == State::CallDisconnect && !sent;
                self.pdu(Message::URelease { i });
                self.end(Message::ReleaseIndication { c: Cause::Network });
            }
            (_, _, Event::DRelease { .. }) => {
                self.orders.cancel = state == State::CallDisconnect && !sent;
                self.end(if state == State::CallDisconnect && sent {
                    Message::ReleaseConfirm
                } else {
                    Message::ReleaseIndication { c: Cause::Network }
                });
            }

            _ => return false,
        }
        true
    }

    /// D-CALL PROCEEDING or D-ALERT: an identifier proves the set-up was sent.
    fn progress(&mut self, i: u16, user: Message) {
        self.call.identifier = i;
        self.call.sent = true;
        self.stop(Timer::T303);
        self.start(Timer::T302);
        self.user(user);
    }

    /// The slots that an event carries; the old record keeps the held number.
    fn slots(&mut self, s: Option<u8>) {
        if let Some(s) = s {
            self.call.slots = s;
        }
    }

    /// Grant rule G.
    fn grant(&mut self, g: Grant) {
        match g {
            Grant::Granted => self.configure(match self.call.mode {
                Mode::Simplex => Plane::Transmit,
                Mode::Duplex => Plane::TransmitAndReceive,
            }),
            Grant::GrantedToAnother => self.configure(Plane::Receive),
            Grant::NotGranted | Grant::Queued => {}
        }
        if matches!(g, Grant::Granted | Grant::NotGranted) {
            self.call.asked = false;
        }
    }

    /// G with off for 1 and 2.
    fn grant_or_off(&mut self, g: Grant) {
        self.grant(g);
        if matches!(g, Grant::NotGranted | Grant::Queued) {
            self.off();
        }
    }

    /// "r and o as in D-INFO".
    fn restart_t310(&mut self, r: bool, o: Option<u8>) {
        if r {
            self.start_t310(o.unwrap_or(self.call.t310_code));
        }
    }

    /// Back to CALL-ACTIVE; gives the plane that was kept.
    fn leave_wait(&mut self) -> Plane {
        self.call.state = State::CallActive;
        core::mem::replace(&mut self.call.kept, Plane::Off)
    }

    fn release(&mut self, c: Cause) {
        self.stop_all();
        self.pdu(Message::UDisconnect { i: self.call.identifier, c });
        self.start(Timer::T308);
        self.off();
        self.call.sent = false;
        self.call.asked = false;
        self.call.path = Path::Up;
        self.call.kept = Plane::Off;
        self.call.state = State::CallDisconnect;
    }

    /// "Stop all, off, ..., fresh".
    fn end(&mut self, user: Message) {
        self.stop_all();
        self.off();
        self.user(user);
        self.call = Call::FRESH;
    }

    fn off(&mut self) {
        self.configure(Plane::Off);
    }

    /// Gives a plane; only plane 1 has T311.
    fn configure(&mut self, plane: Plane) {
        if plane == Plane::Transmit {
            self.start(Timer::T311);
        } else {
            self.stop(Timer::T311);
        }
        self.call.plane = plane;
        self.orders.configure = Some(plane);
    }

    /// STOP is written only for a running timer.
    fn stop(&mut self, timer: Timer) {
        if core::mem::take(&mut self.call.timers[timer as usize]) {
            self.orders.stops.insert(timer);
        }
    }

    fn stop_all(&mut self) {
        for &timer in Timer::ALL {
            self.stop(timer);
        }
    }

    /// Starting a running one writes START only, also in a row that says stop all.
    fn start(&mut self, timer: Timer) {
        self.call.timers[timer as usize] = true;
        self.orders.stops.remove(timer);
        self.orders.starts.insert(timer);
    }

    /// Code 0 is no limit: what would start T310 with it stops T310.
    fn start_t310(&mut self, o: u8) {
        self.call.t310_code = o;
        self.orders.t310_code = o;
        if o == 0 {
            self.stop(Timer::T310);
        } else {
            self.start(Timer::T310);
        }
    }

    fn pdu(&mut self, pdu: Message) {
        self.orders.pdu = Some(pdu);
    }

    fn user(&mut self, primitive: Message) {
        self.orders.user = Some(primitive);
    }

    fn tx_indication(&mut self, x: u8) {
        self.user(Message::TxIndication { x });
    }
}
