//! Bootstraps (RFC 5059): RPs that are learned of them, beside those of the file. Of several RPs of a range one is chosen
//! for the range, or for each group.
use super::{Daemon, Event, Fatal};
use crate::core::ranges_of;
use crate::left::{Left, LeftRange};
use crate::packet::{bsr_of, Packet};
use crate::policy::Cause;
use crate::settings::RpSettings;
use crate::words;
use log::{debug, info, warn};
use std::collections::BTreeSet;
use std::net::Ipv4Addr;
use viqeshor::{Choice, Error, Heard, LearnedRp};

/// After a start a neighbour may say at once what was said before, in ms (RFC 5059, 3.5.1).
const REFRESH: u64 = 60_000;
/// The fragments of a message come together, in ms.
const FRAGMENTS: u64 = 1_000;
/// A BSR of which nothing is heard for so long is gone, in ms (RFC 5059, 5, BS_Timeout).
const BS_TIMEOUT: u64 = 130_000;

/// An RP of a range that the file has, or that is learned.
pub struct Rp {
    pub range: RpSettings,
    /// Of one that is learned; `None` where the file has it.
    pub learned: Option<LearnedRp>,
    pub chosen: Chosen,
}

/// For which groups of its range an RP is the router's.
#[derive(Clone, Copy, Debug, PartialEq, Eq)]
pub enum Chosen {
    /// For all of them, but for those of a longer range.
    Range,
    /// For those for which it is chosen among the RPs of the range, but for those of a longer range.
    Groups,
    /// For none: the file has the range, or another RP of it is chosen.
    Nothing,
}

impl Chosen {
    pub fn name(self) -> &'static str {
        match self {
            Chosen::Range => "range",
            Chosen::Groups => "groups",
            Chosen::Nothing => "nothing",
        }
    }
}

impl Daemon {
    /// Bootstraps are heard from here on where the settings say so. A router that hears no more of them has the RPs of the
    /// file alone.
    pub(super) fn listen(&mut self) -> Result<(), Fatal> {
        let now = self.now();
        match (self.settings.bsr.as_ref(), self.core.choice()) {
            (Some(settings), None) => self.core.listen(settings, &ranges_of(&self.settings.rps), now + REFRESH),
            (None, Some(choice)) => {
                self.core.listen_no_more();
                self.see_elected();
                self.due.unheard = None;
                self.set_ranges()?;
                match choice {
                    Choice::Range => Ok(()),
                    Choice::Group => self.take_back(choice),
                }
            }
            _ => Ok(()),
        }
    }

    /// Where the settings say so, an RP is chosen for something else from here on.
    pub(super) fn choose(&mut self) -> Result<(), Fatal> {
        let wanted = self.settings.bsr.as_ref().map(|bsr| bsr.choice);
        match (wanted, self.core.choice()) {
            (Some(wanted), Some(before)) if wanted != before => {
                self.advance()?;
                self.core.choose(wanted)?;
                self.give()?;
                self.take_back(before)
            }
            _ => Ok(()),
        }
    }

    /// What the router was given of what is learned, for such a choice, it has no more.
    fn take_back(&mut self, choice: Choice) -> Result<(), Fatal> {
        match choice {
            Choice::Range => self.set_ranges(),
            Choice::Group => {
                self.take_also(Event::Candidates(&[]))?;
                self.all_unknown_may_differ();
                Ok(())
            }
        }
    }

    /// The ranges of the file as they were told to the router, for one that goes on in its place; `None` where no
    /// Bootstraps are heard.
    pub(super) fn left_ranges(&self) -> Option<Vec<LeftRange>> {
        self.core.listens().then(|| LeftRange::of(&ranges_of(&self.settings.rps)))
    }

    /// What the router before this one learned of Bootstraps is known here too, where they are heard still. It answers whether
    /// that is so: an older router left nothing of it.
    pub(super) fn resume_listener(&mut self, left: &Left) -> bool {
        let (limit, saved) = match (&self.settings.bsr, &left.listener) {
            (Some(bsr), Some(saved)) => (bsr.limit, saved),
            _ => return false,
        };
        let resumed = self.core.resume_listener(saved, limit);
        if let Err(error) = &resumed {
            warn!("what was learned of Bootstraps can't be restored: {error}");
        }
        resumed.is_ok()
    }

    /// The router before this one heard Bootstraps, and what it learned of them isn't known: it stays with the library's
    /// router, until a BSR has had the time to say it again. It answers whether that is so: the file has to have the same
    /// ranges.
    pub(super) fn keeps_learned(&mut self, left: Option<&[LeftRange]>) -> bool {
        let is_same = left.map_or(false, |left| left == LeftRange::of(&ranges_of(&self.settings.rps)));
        let keeps = is_same && self.core.listens();
        self.due.unheard = keeps.then(|| self.now() + BS_TIMEOUT);
        keeps
    }

    /// No BSR said anew what the router before this one had learned.
    pub(super) fn forget_unheard(&mut self) -> Result<(), Fatal> {
        self.give()
    }

    /// A packet that the router ignored as PIM of another type may be a Bootstrap.
    pub(super) fn hear_bootstrap(&mut self, number: u32, bytes: &[u8]) -> Result<(), Fatal> {
        if !self.core.listens() || !self.believes(number, bytes) {
            return Ok(());
        }
        let left_out = |it: &mut Daemon, number: u32| *it.counters.bootstraps_left_out.entry(number).or_default() += 1;
        match self.core.hear(number, bytes) {
            Ok(Heard::Taken { moved }) => {
                self.counters.bootstraps_taken += 1;
                self.leave();
                self.see_elected();
                match self.due.unheard {
                    // Other fragments may say the rest of what the router before this one had learned.
                    Some(due) => self.due.unheard = Some(due.min(self.now() + FRAGMENTS)),
                    None if moved => self.give_anew()?,
                    None => {}
                }
            }
            Ok(Heard::Other) => {}
            Ok(Heard::Ignored(reason)) => {
                left_out(self, reason as u32);
                debug!("the Bootstrap doesn't count: {}", viqeshor::answer_text(reason as u32));
            }
            Err(Error::Refused(refusal)) => {
                left_out(self, refusal as u32);
                debug!("the Bootstrap is refused: {}", Error::Refused(refusal));
            }
            // It is as if the message hadn't come.
            Err(Error::Memory) => self.core.refused_memory += 1,
            Err(error) => return Err(Fatal::Router(error)),
        }
        Ok(())
    }

    /// Whether a Bootstrap on the interface, of its BSR, is believed by the settings.
    fn believes(&mut self, number: u32, bytes: &[u8]) -> bool {
        let bsr = Packet::read(bytes).and_then(bsr_of);
        let (cause, place) = (self.disbelieved(number, bsr), self.name(number).to_string());
        match (cause, bsr) {
            // On a border they are as they should be.
            (Some(Cause::BsrBorder), Some(_)) => self.policy.refusals.count(Cause::BsrBorder, &place),
            (Some(cause), Some(_)) => {
                self.policy.refusals.note(self.now(), cause, &place, &words::of(bytes));
            }
            _ => {}
        }
        cause.is_none()
    }

    /// By which setting it isn't.
    fn disbelieved(&self, number: u32, bsr: Option<Ipv4Addr>) -> Option<Cause> {
        let is_border = self.ports.get(number as usize).map_or(true, |port| port.settings.is_bsr_border);
        let from = self.settings.bsr.as_ref().and_then(|bsr| bsr.from.as_ref());
        let is_named = |from: &Vec<Ipv4Addr>| bsr.map_or(false, |bsr| from.contains(&bsr));
        match is_border {
            true => Some(Cause::BsrBorder),
            false => (!from.map_or(true, is_named)).then_some(Cause::OtherBsr),
        }
    }

    /// Notes since when which BSR is elected.
    fn see_elected(&mut self) {
        let (before, bsr) = (self.bsr_since.map(|(bsr, _)| bsr), self.core.elected().map(|it| it.bsr));
        if before == bsr {
            return;
        }
        self.bsr_since = bsr.map(|bsr| (bsr, self.now()));
        match bsr {
            Some(bsr) if self.is_own(bsr) => info!("the router is the BSR, as {bsr}"),
            Some(bsr) => info!("the BSR is {bsr}"),
            None => info!("no BSR is heard any more"),
        }
    }

    /// The RPs moved: the library's router is given them, by the number of the event before.
    fn give_anew(&mut self) -> Result<(), Fatal> {
        self.counters.bootstrap_moves += 1;
        self.give()?;
        info!("Bootstraps say the RPs of {} ranges", self.learned_ranges());
        Ok(())
    }

    /// The library's router is given the RPs that are learned. What it may have of the router before this one goes.
    pub(super) fn give(&mut self) -> Result<(), Fatal> {
        let was_kept = self.due.unheard.take().is_some();
        match self.core.choice() {
            Some(Choice::Group) => {
                let candidates = self.core.candidates();
                self.take_also(Event::Candidates(&candidates))?;
            }
            _ => {
                let ranges = self.core.given();
                self.take_also(Event::Learned(&ranges))?;
            }
        }
        self.all_unknown_may_differ();
        match self.core.choice() {
            Some(Choice::Group) if was_kept => self.take_back(Choice::Range),
            Some(Choice::Range) if was_kept => self.take_back(Choice::Group),
            _ => Ok(()),
        }
    }

    /// Of how many ranges the router has a learned RP.
    pub fn learned_ranges(&self) -> usize {
        let given = self.core.learned().into_iter().filter(|rp| rp.is_given);
        given.map(|rp| (rp.range.prefix, rp.range.length)).collect::<BTreeSet<_>>().len()
    }

    /// Time passes up to a moment, and on the way to the end of each RP that is learned, and to each that is of a candidacy.
    pub(super) fn pass_to(&mut self, moment: u64) -> Result<(), Fatal> {
        let mut is_first = true;
        while let Some(end) = self.core.next_end().filter(|end| *end <= moment) {
            self.pass_part(end, is_first)?;
            is_first = false;
        }
        self.pass_part(moment, is_first)
    }

    fn pass_part(&mut self, moment: u64, is_first: bool) -> Result<(), Fatal> {
        match is_first {
            true => self.take(Event::Advance(moment))?,
            false => self.take_also(Event::Advance(moment))?,
        };
        let was_bsr = self.was_bsr();
        let moved = self.core.pass(moment)?;
        self.leave();
        self.see_elected();
        if was_bsr && self.is_bsr() {
            self.hold_again(moment)?;
        }
        if moved {
            self.give_anew()?;
        }
        Ok(())
    }

    /// The RPs of the file, and those that are learned.
    pub fn rps(&self) -> Vec<Rp> {
        let of_file =
            self.settings.rps.iter().map(|range| Rp { range: range.clone(), learned: None, chosen: Chosen::Range });
        let is_by_group = self.core.choice() == Some(Choice::Group);
        let learned = self.core.learned().into_iter().map(|rp| {
            let range = RpSettings::of(&rp.range);
            let is_of_file = self.settings.rps.iter().any(|of_file| of_file.groups == range.groups);
            let chosen = match (rp.is_given && !is_of_file, is_by_group) {
                (false, _) => Chosen::Nothing,
                (true, true) => Chosen::Groups,
                (true, false) => Chosen::Range,
            };
            Rp { range, learned: Some(rp), chosen }
        });
        of_file.chain(learned).collect()
    }
}
