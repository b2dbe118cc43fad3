//! The router as candidate BSR and as candidate RP (RFC 5059), where its settings say so: as what it stands, and what it
//! is told as the BSR.
use super::{Daemon, Fatal, Pace};
use crate::packet::advertisement_of;
use crate::settings::{CandidacySettings, RpSettings};
use log::{debug, error, info, warn};
use std::net::Ipv4Addr;
use viqeshor::{Error, LearnedRp, Range, Reason, Role, Verdict};

/// Of an advertisement of the router's own RP, in s.
const HOLDTIME: u16 = 150;

impl Daemon {
    /// The router stands as its settings say from here on, in each role whose address it has, and the kernel. One that stood
    /// otherwise begins anew, and the BSR is told before of an RP that goes.
    pub(super) fn stand(&mut self) -> Result<(), Fatal> {
        let wanted = self.settings.candidacy.of_own(|address| self.is_there(address));
        if self.core.stands_as() == wanted.as_ref() {
            return Ok(());
        }
        if self.core.stands_as().map_or(false, |it| it.says_less(wanted.as_ref())) {
            self.leave_as_rp();
        }
        self.say_roles(wanted.as_ref());
        self.core.stand(wanted, self.now())?;
        // Its first timers come as time passes next, in this turn.
        self.pace = Pace::default();
        Ok(())
    }

    /// Whether an address is the router's, and the kernel has it there.
    fn is_there(&self, address: Ipv4Addr) -> bool {
        let own = self.ports.iter().filter(|port| !port.is_removed && port.address() == Some(address));
        let links = own.filter_map(|port| self.machine.link(&port.settings.name));
        links.map(|link| link.index).any(|index| self.machine.has(index, address))
    }

    fn say_roles(&self, wanted: Option<&CandidacySettings>) {
        let stands: Vec<_> = wanted.iter().flat_map(|it| it.roles()).collect();
        for (role, address) in self.settings.candidacy.roles() {
            match stands.contains(&(role, address)) {
                true => info!("the router is a {role} as {address}"),
                false => warn!("no interface has {address}: the router is no {role} until one has"),
            }
        }
        if stands.is_empty() {
            info!("the router is no candidate BSR, and no candidate RP");
        }
    }

    /// The BSR is told that the router goes as RP, where it stands as one.
    pub(super) fn leave_as_rp(&mut self) {
        match self.core.leave_as_rp() {
            Ok(()) => self.leave(),
            Err(error) => error!("the BSR can't be told that the router goes as RP: {error}"),
        }
    }

    /// Whether the router is the elected BSR.
    pub fn is_bsr(&self) -> bool {
        self.core.standing().map_or(false, |standing| standing.role == Some(Role::Elected))
    }

    /// Whether the router isn't the BSR, though what it said as such still counts: its candidacy has begun anew.
    pub(super) fn was_bsr(&self) -> bool {
        let own = self.core.stands_as().and_then(|it| it.bsr).map(|it| it.address);
        own.is_some() && !self.is_bsr() && self.core.elected().map(|it| it.bsr) == own
    }

    /// The router is the BSR again, at a moment in ms. No RP tells it sooner for that, so it holds those that it said before
    /// until their ends, but for an own one that goes; its own are those of its settings.
    pub(super) fn hold_again(&mut self, moment: u64) -> Result<(), Fatal> {
        let stands = self.core.stands_as().cloned().unwrap_or_default();
        let (bsr, own) = match &stands.bsr {
            Some(bsr) => (bsr.address, stands.rp.as_ref()),
            None => return Ok(()),
        };
        let learned = self.core.learned();
        let left = |rp: &LearnedRp| (rp.end.saturating_sub(moment) / 1_000).min(u16::MAX.into()) as u16;
        let before = learned.iter().map(|rp| (rp.range, rp.priority, left(rp)));
        let goes = learned.iter().filter(|rp| self.is_own(rp.range.rp)).map(|rp| (rp.range, rp.priority, 0));
        let ranges = own.into_iter().flat_map(|rp| rp.ranges.iter().map(move |range| (rp, range)));
        let stays = ranges.map(|(rp, range)| (Range::of(*range, rp.address), rp.priority, HOLDTIME));
        let held: Vec<_> = before.chain(goes).chain(stays).collect();
        for (range, priority, holdtime) in held {
            let RpSettings { groups, address } = RpSettings::of(&range);
            match self.core.hear_unicast(&advertisement_of(bsr, groups, (address, priority as u8), holdtime)) {
                Err(error @ (Error::Lost | Error::Failed)) => return Err(Fatal::Router(error)),
                Err(Error::Memory) => self.core.refused_memory += 1,
                _ => {}
            }
        }
        Ok(())
    }

    /// A packet to the router that it ignored as not for it may be the advertisement of a candidate RP.
    pub(super) fn hear_advertisement(&mut self, bytes: &[u8]) -> Result<(), Fatal> {
        let reason = match self.core.hear_unicast(bytes) {
            Ok(Verdict::Done) => {
                self.counters.advertisements_taken += 1;
                return Ok(());
            }
            Ok(Verdict::Ignored(Reason::OtherType)) => return Ok(()),
            Ok(Verdict::Ignored(reason)) => reason as u32,
            Err(Error::Refused(refusal)) => refusal as u32,
            // It is as if the message hadn't come.
            Err(Error::Memory) => {
                self.core.refused_memory += 1;
                return Ok(());
            }
            Err(error) => return Err(Fatal::Router(error)),
        };
        *self.counters.advertisements_left_out.entry(reason).or_default() += 1;
        debug!("the advertisement isn't taken: {}", viqeshor::answer_text(reason));
        Ok(())
    }
}
