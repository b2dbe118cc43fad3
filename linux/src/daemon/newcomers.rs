//! A neighbour that has just come, or has begun anew, learns at once what Bootstraps said before (RFC 5059, 3.5): the
//! designated router of its link tells it, by Bootstraps with the No-Forward bit.
use super::{send_on, Daemon};
use crate::packet::{generation_of, says_goodbye, to_link, Packet};
use crate::ports::Newcomers;
use std::collections::BTreeMap;
use std::net::Ipv4Addr;
use viqeshor::Range;

/// The most bytes of a message, as those that the library writes have, and the most RPs of a range in it.
const MOST_BYTES: usize = 1_460;
const MOST_RPS: usize = 143;
/// Where no RP has a mask.
const USUAL_MASK: u32 = 30;

/// An RP of a range, with its priority and the seconds that it holds.
pub struct ToldRp {
    pub range: Range,
    pub priority: u32,
    pub holdtime: u16,
}

/// What a BSR said, as Bootstraps with the No-Forward bit (4.1), each of whole ranges where one has room for them.
pub fn no_forward((bsr, priority): (Ipv4Addr, u32), hash_length: u32, tag: u16, rps: &[ToldRp]) -> Vec<Vec<u8>> {
    let mut ranges: BTreeMap<(Ipv4Addr, u32), Vec<&ToldRp>> = BTreeMap::new();
    for rp in rps {
        ranges.entry((rp.range.prefix, rp.range.length)).or_default().push(rp);
    }
    let mut head = vec![0x24, 0x80, 0, 0];
    head.extend(tag.to_be_bytes());
    head.extend([hash_length as u8, priority as u8, 1, 0]);
    head.extend(bsr.octets());
    let (mut messages, mut message) = (Vec::new(), head.clone());
    for ((prefix, length), rps) in ranges {
        for part in rps.chunks(MOST_RPS) {
            let mut text = vec![1, 0, 0, length as u8];
            text.extend(prefix.octets());
            text.extend([rps.len() as u8, part.len() as u8, 0, 0]);
            for rp in part {
                text.extend([1, 0]);
                text.extend(rp.range.rp.octets());
                text.extend(rp.holdtime.to_be_bytes());
                text.extend([rp.priority as u8, 0]);
            }
            if message.len() + text.len() > MOST_BYTES {
                messages.push(std::mem::replace(&mut message, head.clone()));
            }
            message.extend(text);
        }
    }
    messages.push(message);
    messages
}

impl Daemon {
    /// Whether a Hello on an interface, which isn't taken yet, is of a neighbour that has just come, or has begun anew.
    pub(super) fn is_of_newcomer(&self, number: u32, hello: Packet) -> bool {
        let known = self.neighbours.known.get(&(number, hello.source()));
        let generations = known.and_then(|known| known.generation.zip(generation_of(hello)));
        let is_new = generations.map_or(known.is_none(), |(before, now)| before != now);
        is_new && !says_goodbye(hello)
    }

    /// The router has such a neighbour from here on: where it is the one to tell it, it does after its next Hello there.
    pub(super) fn has_newcomer(&mut self, number: u32, newcomer: Ipv4Addr) {
        if self.core.elected().is_some() && self.is_dr_beside(number, newcomer) {
            self.ports[number as usize].newcomers = Newcomers::Ungreeted;
        }
    }

    /// Whether the router is the designated router of a link, or would be without a neighbour that is.
    fn is_dr_beside(&self, number: u32, newcomer: Ipv4Addr) -> bool {
        let port = &self.ports[number as usize];
        let (dr, own) = match (self.core.link(number).and_then(|link| link.dr), port.address()) {
            (Some(dr), Some(own)) => (dr, own),
            _ => return false,
        };
        if dr != newcomer {
            return dr == own;
        }
        let others: Vec<_> =
            self.neighbours.known.iter().filter(|(at, _)| at.0 == number && at.1 != newcomer).collect();
        // RFC 7761, 4.3.2.
        let is_by_priority = others.iter().all(|(_, it)| it.priority.is_some());
        let rank = |priority: Option<u32>, address: Ipv4Addr| (priority.filter(|_| is_by_priority), address);
        let own = rank(Some(port.settings.priority), own);
        others.iter().all(|(at, it)| rank(it.priority, at.1) < own)
    }

    /// Where newcomers know the router by now, they are told: each RP holds for the whole seconds that are left here.
    pub(super) fn tell_newcomers(&mut self) {
        let is_told = |newcomers: Newcomers| newcomers == Newcomers::Greeted;
        if !self.ports.iter().any(|port| is_told(port.newcomers)) {
            return;
        }
        let (now, learned) = (self.now(), self.core.learned());
        let left = |end: u64| (end.saturating_sub(now) / 1_000).min(u16::MAX.into()) as u16;
        let told = learned.iter().map(|rp| ToldRp { range: rp.range, priority: rp.priority, holdtime: left(rp.end) });
        let rps: Vec<_> = told.filter(|rp| rp.holdtime > 0).collect();
        let mask = learned.first().map_or(USUAL_MASK, |rp| rp.hash_length);
        let elected = self.core.elected().map(|it| (it.bsr, it.priority));
        let messages = elected.map_or_else(Vec::new, |bsr| no_forward(bsr, mask, rand::random(), &rps));
        let Daemon { kernel, ports, policy, .. } = self;
        for port in ports.iter_mut().filter(|port| is_told(port.newcomers)) {
            port.newcomers = Newcomers::Nobody;
            if let Some(own) = port.address().filter(|_| port.standing.is_up()) {
                let is_passive = policy.is_passive(port.number);
                for message in &messages {
                    send_on(kernel.as_mut(), Some(&mut *port), is_passive, &to_link(own, message));
                }
            }
        }
    }
}
