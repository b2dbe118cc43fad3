//! What comes from other routers and from hosts: PIM and IGMP.
use super::{Answer, Daemon, Event, Fatal, Ledger, Neighbour};
use crate::older::Older;
use crate::packet::{
    as_of_nobody, fill_registered, generation_of, is_of_host, is_pim, message_of, priority_of, Packet, HELLO,
};
use crate::policy::registered;
use crate::{split, stand_in, words};
use log::debug;
use std::net::Ipv4Addr;
use viqeshor::{Error, Refusal};

/// The most bytes of a packet that the library reads.
const MOST_READ: usize = 1500;

/// The groups that a packet to a group is about; `None` where it is about more than groups.
fn groups_of(bytes: &[u8]) -> Option<Vec<Ipv4Addr>> {
    const ASSERT: u8 = 5;
    const ASSERTED_GROUP_AT: usize = 8;
    let packet = Packet::read(bytes)?;
    if let Some(records) = split::records(packet) {
        return Some(records.iter().map(|record| record.group).collect());
    }
    if let Some(older) = Older::read(packet) {
        return Some(vec![older.group]);
    }
    if let Some(message) = split::join_prune(packet) {
        return Some(message.entries.iter().map(|entry| entry.key.group).collect());
    }
    let is_assert = is_pim(packet, ASSERT) && packet.content().len() >= ASSERTED_GROUP_AT + 4;
    is_assert.then(|| vec![crate::packet::address(packet.content(), ASSERTED_GROUP_AT)])
}

impl Daemon {
    /// PIM or IGMP to a group came.
    pub(super) fn heard(&mut self, index: u32, frame: &[u8]) -> Result<(), Fatal> {
        // Behind a short packet a card puts what the link wants.
        let bytes = Packet::read(frame).map_or(frame, Packet::bytes);
        let number = match self.port_of_index(index) {
            Some(port) if port.standing.is_up() && !port.own.is_apart => port.number,
            _ => return Ok(()),
        };
        self.catch_up()?;
        self.heard_on(number, bytes)
    }

    /// IGMP of a program on the machine came: its reports are heard as those of a host that has no address.
    pub(super) fn heard_own(&mut self, bytes: &[u8]) -> Result<(), Fatal> {
        let from = Packet::read(bytes).filter(|packet| is_of_host(*packet)).map(Packet::source);
        // Another router's interface may have the same address, in another VRF.
        let linked = || self.ports.iter().filter(|port| !port.own.is_apart);
        let indices = || linked().filter_map(|port| port.index);
        let index = from.and_then(|from| indices().find(|index| self.machine.has(*index, from)));
        if let Some(index) = index {
            self.counters.own_reports += 1;
            return self.heard(index, &as_of_nobody(bytes));
        }
        Ok(())
    }

    fn heard_on(&mut self, number: u32, bytes: &[u8]) -> Result<(), Fatal> {
        let passed = &mut self.ports[number as usize].passed;
        passed.heard += 1;
        passed.messages.received.count(Packet::read(bytes).and_then(message_of));
        debug!("hears on {}: {}", self.name(number), words::of(bytes));
        self.watch_querier(number, bytes);
        self.watch_hosts(number, bytes);
        let Daemon { policy, core, kernel, machine, ports, .. } = self;
        let let_in = match policy.let_in(&mut Ledger { core, kernel: kernel.as_ref(), machine, ports }, number, bytes) {
            Some(let_in) => let_in,
            None => {
                debug!("it isn't let through");
                return Ok(());
            }
        };
        match let_in.len() {
            0..=MOST_READ => self.take_part(number, &let_in),
            _ => split::within(&let_in, MOST_READ).iter().try_for_each(|part| self.take_part(number, part)),
        }
    }

    /// A message that the library reads: one that came in fragments may be longer, and is taken in parts.
    pub(super) fn take_part(&mut self, number: u32, let_in: &[u8]) -> Result<(), Fatal> {
        let hello = Packet::read(let_in).filter(|packet| is_pim(*packet, HELLO));
        let newcomer = hello.filter(|hello| self.is_of_newcomer(number, *hello)).map(Packet::source);
        if let Some(packet) = hello {
            let said = Neighbour {
                since: self.now(),
                said: words::of(let_in),
                priority: priority_of(packet),
                generation: generation_of(packet),
            };
            self.neighbours.hellos.insert((number, packet.source()), said);
            self.neighbours.are_stale = true;
        }
        self.watch_prunes(number, let_in);
        let asserted = self.asserted(number, let_in);
        let answer = self.take(Event::Frame(number, let_in))?;
        self.after(answer, let_in);
        if answer == Answer::OtherType {
            self.hear_bootstrap(number, let_in)?;
        }
        if answer == Answer::Done {
            self.watch_older(number, let_in);
            asserted.iter().for_each(|asserted| self.watch_forwarder(number, let_in, asserted));
            newcomer.iter().for_each(|newcomer| self.has_newcomer(number, *newcomer));
        }
        if let Answer::Refused(refusal) = answer {
            self.ports[number as usize].passed.refused += 1;
            debug!("it is refused: {}", Error::Refused(refusal));
            if refusal == Refusal::Full {
                self.offer_parts(number, let_in)?;
            }
        }
        Ok(())
    }

    /// What was told of sources without a fact may differ after a packet.
    fn after(&mut self, answer: Answer, bytes: &[u8]) {
        if answer != Answer::Done || self.plane.an_unknown().is_none() {
            return;
        }
        match groups_of(bytes) {
            Some(groups) => groups.into_iter().for_each(|group| self.unknown_of_may_differ(group)),
            None => self.all_unknown_may_differ(),
        }
    }

    /// A full router is offered a message part by part, so that what it knows is refreshed.
    fn offer_parts(&mut self, number: u32, bytes: &[u8]) -> Result<(), Fatal> {
        let parts = split::parts(bytes);
        self.counters.split += u64::from(!parts.is_empty());
        for part in parts {
            self.counters.parts += 1;
            let answer = self.take(Event::Frame(number, &part))?;
            self.after(answer, &part);
            self.counters.parts_taken += u64::from(answer == Answer::Done);
        }
        Ok(())
    }

    /// PIM to an address of the machine came. A packet in a Register that the library doesn't read has a stand-in.
    pub(super) fn heard_unicast(&mut self, bytes: &[u8]) -> Result<(), Fatal> {
        self.catch_up()?;
        self.counters.unicasts_heard += 1;
        self.counters.unicasts.received.count(Packet::read(bytes).and_then(message_of));
        let mut bytes = bytes.to_vec();
        self.counters.checksums_filled += u64::from(fill_registered(&mut bytes));
        debug!("takes {}", words::of(&bytes));
        let Daemon { policy, core, kernel, machine, ports, .. } = self;
        if !policy.unicast(&mut Ledger { core, kernel: kernel.as_ref(), machine, ports }, &bytes) {
            return Ok(());
        }
        let key = registered(&bytes);
        self.in_hand = key.map(|key| (key, None));
        let stands = stand_in::of_registered(&bytes);
        let answer = match &stands {
            Some((itself, given)) => self.take_for(Event::Unicast(given), Some(itself)),
            None => self.take(Event::Unicast(&bytes)),
        };
        self.in_hand = None;
        match key {
            Some(key) => self.unknown_of_may_differ(key.group),
            None => self.all_unknown_may_differ(),
        }
        match answer? {
            Answer::Done => self.watch_registered(stands.as_ref().map_or(&bytes, |(_, given)| given)),
            Answer::Refused(refusal) => debug!("it is refused: {}", Error::Refused(refusal)),
            Answer::NotForMe => self.hear_advertisement(&bytes)?,
            _ => {}
        }
        Ok(())
    }
}
