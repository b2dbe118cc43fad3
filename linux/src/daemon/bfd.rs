//! Sessions of BFD with the neighbours of interfaces whose settings have them (RFC 5881, 5882). A neighbour that is lost
//! is told to the library by its goodbye.
use super::watched::Kind;
use super::{Daemon, Fatal, Place};
use crate::bfd::{Change, Control, Session, State, Times};
use crate::packet::goodbye_of;
use log::{debug, info, warn};
use std::net::Ipv4Addr;

impl Daemon {
    fn times_of(&self, number: u32) -> Option<Times> {
        self.ports.get(number as usize).filter(|port| port.standing.is_up() && !port.is_removed)?.settings.bfd
    }

    fn index_of(&self, number: u32) -> Option<u32> {
        self.ports.get(number as usize).and_then(|port| port.index)
    }

    /// Listens where the settings say so, and has a session with each neighbour there and with no one else.
    pub(super) fn watch_sessions(&mut self) {
        for number in 0..self.ports.len() as u32 {
            self.listen_for_sessions(number);
        }
        let now = self.now();
        let places: Vec<_> = self.sessions.keys().copied().collect();
        for place in places {
            match self.times_of(place.0).filter(|_| self.neighbours.known.contains_key(&place)) {
                Some(times) => {
                    if let Some(session) = self.sessions.get_mut(&place) {
                        session.set_times(times, now);
                    }
                }
                None => self.end_session(place),
            }
        }
        let known: Vec<_> = self.neighbours.known.keys().copied().collect();
        for place in known {
            let times = self.times_of(place.0).filter(|_| !self.sessions.contains_key(&place));
            if let Some(times) = times {
                let discriminator = self.a_discriminator();
                self.sessions.insert(place, Session::new(times, discriminator, now));
            }
        }
    }

    fn listen_for_sessions(&mut self, number: u32) {
        let wanted = self.times_of(number).and_then(|_| self.index_of(number));
        let before = self.ports[number as usize].bfd_index;
        if wanted == before {
            return;
        }
        if let Some(index) = before {
            self.kernel.hear_bfd_no_more(index);
        }
        self.ports[number as usize].bfd_index = None;
        if let Some(index) = wanted {
            match self.kernel.hear_bfd_on(index) {
                Ok(()) => self.ports[number as usize].bfd_index = Some(index),
                Err(error) => warn!("BFD can't be heard on {}: {error}", self.name(number)),
            }
        }
    }

    fn a_discriminator(&self) -> u32 {
        loop {
            let drawn = rand::random();
            if drawn != 0 && !self.sessions.values().any(|session| session.discriminator == drawn) {
                return drawn;
            }
        }
    }

    pub(super) fn end_session(&mut self, place: Place) {
        if let Some(session) = self.sessions.remove(&place) {
            self.send_bfd(place, &session.ended());
        }
    }

    fn send_bfd(&mut self, (number, to): Place, packet: &[u8]) {
        let from = self.ports.get(number as usize).and_then(|port| port.address());
        let sent = match (self.index_of(number), from) {
            (Some(index), Some(from)) => self.kernel.send_bfd(index, (from, to), packet),
            _ => return,
        };
        if let Err(error) = sent {
            debug!("BFD can't be sent to {to} on {}: {error}", self.name(number));
        }
    }

    // ---- what happens

    /// A packet came from an address on an interface.
    pub(super) fn heard_bfd(&mut self, index: u32, from: Ipv4Addr, packet: &[u8]) -> Result<(), Fatal> {
        let (number, control) = match (self.port_of_index(index), Control::read(packet)) {
            (Some(port), Some(control)) => (port.number, control),
            _ => return Ok(()),
        };
        let place = (number, from);
        let now = self.now();
        let session = match self.sessions.get_mut(&place) {
            Some(session) if [0, session.discriminator].contains(&control.yours) => session,
            _ => return Ok(()),
        };
        let change = session.heard(&control, now);
        self.after_bfd(place, change)
    }

    /// What is due by the clock.
    pub(super) fn keep_sessions(&mut self) -> Result<(), Fatal> {
        let now = self.now();
        let due: Vec<_> = self.sessions.iter().filter(|(_, it)| it.due() <= now).map(|(place, _)| *place).collect();
        for place in due {
            if let Some(change) = self.sessions.get_mut(&place).map(|session| session.passes(now)) {
                self.after_bfd(place, change)?;
            }
        }
        Ok(())
    }

    fn after_bfd(&mut self, place: Place, change: Change) -> Result<(), Fatal> {
        if let Some(packet) = &change.packet {
            self.send_bfd(place, packet);
        }
        let is_told = (change.is_up || change.is_lost) && self.may_say(Kind::Sessions, Some(place.0));
        if change.is_up && is_told {
            info!("BFD: the session with {} on {} is up", place.1, self.name(place.0));
        }
        if change.is_lost && is_told {
            info!("BFD: {} on {} is gone", place.1, self.name(place.0));
        }
        if change.is_lost {
            self.advance()?;
            self.take_part(place.0, &goodbye_of(place.1))?;
        }
        Ok(())
    }

    /// The state of a neighbour's session, where it has one.
    pub fn bfd_state(&self, place: &Place) -> Option<State> {
        self.sessions.get(place).map(|session| session.state)
    }
}
