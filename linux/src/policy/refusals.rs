//! What the policy refused, counted, and said at a bounded rate.
use crate::said::WINDOW;
use log::warn;
use std::collections::BTreeMap;
use std::fmt;

/// Why something was refused.
#[derive(Clone, Copy, Debug, PartialEq, Eq, PartialOrd, Ord, Hash)]
pub enum Cause {
    Passive,
    FarTtl,
    OtherSubnet,
    NotBelieved,
    Neighbours,
    JoinList,
    Groups,
    HostGroups,
    Sources,
    Joins,
    SendList,
    Streams,
    RegisterList,
    Registered,
    Reserve,
    OlderHost,
    SourceSpecific,
    Guard,
    BsrBorder,
    OtherBsr,
}

impl Cause {
    /// Its name among the labels of metrics.
    pub fn name(self) -> &'static str {
        match self {
            Cause::Passive => "passive",
            Cause::FarTtl => "ttl",
            Cause::OtherSubnet => "unnumbered",
            Cause::NotBelieved => "neighbors",
            Cause::Neighbours => "max_neighbors",
            Cause::JoinList => "join",
            Cause::Groups => "max_groups",
            Cause::HostGroups => "max_host_groups",
            Cause::Sources => "max_sources",
            Cause::Joins => "max_joins",
            Cause::SendList => "send",
            Cause::Streams => "max_streams",
            Cause::RegisterList => "register",
            Cause::Registered => "max_registered",
            Cause::Reserve => "limit",
            Cause::OlderHost => "older_hosts",
            Cause::SourceSpecific => "ssm",
            Cause::Guard => "guard",
            Cause::BsrBorder => "bsr_border",
            Cause::OtherBsr => "from",
        }
    }
}

impl fmt::Display for Cause {
    fn fmt(&self, to: &mut fmt::Formatter) -> fmt::Result {
        to.write_str(match self {
            Cause::Passive => "PIM on a passive interface",
            Cause::FarTtl => "PIM whose TTL isn't 1",
            Cause::OtherSubnet => "PIM of an address that isn't of the link, which isn't `unnumbered`",
            Cause::NotBelieved => "PIM of a router that isn't among `neighbors`",
            Cause::Neighbours => "a neighbour above `max_neighbors`",
            Cause::JoinList => "a group or source that `join` doesn't permit",
            Cause::Groups => "a group of hosts above `max_groups`",
            Cause::HostGroups => "a group of one host above `max_host_groups`",
            Cause::Sources => "sources of a group above `max_sources`",
            Cause::Joins => "a join or an Assert of neighbours above `max_joins`",
            Cause::SendList => "a source or group that `send` doesn't permit",
            Cause::Streams => "a source above `max_streams`",
            Cause::RegisterList => "a Register of a source or group that `register` doesn't permit",
            Cause::Registered => "a source of a Register above `max_registered`",
            Cause::Reserve => "the rest of `limit` is kept for neighbours",
            Cause::OlderHost => "a message of IGMPv1 or IGMPv2 that `older_hosts` doesn't hear",
            Cause::SourceSpecific => "a message of IGMPv1 or IGMPv2 for an SSM group",
            Cause::Guard => "IGMP or PIM that `guard` doesn't let be forwarded as data",
            Cause::BsrBorder => "a Bootstrap on a `bsr_border`",
            Cause::OtherBsr => "a Bootstrap of a BSR that isn't among `from`",
        })
    }
}

#[derive(Clone, Copy, Debug, Default)]
struct Refused {
    count: u64,
    /// As many as the last line counted, and when it was said, in ms.
    said: u64,
    said_at: Option<u64>,
}

/// By the cause and the interface, or where else it was.
#[derive(Debug, Default)]
pub struct Refusals(BTreeMap<(Cause, String), Refused>);

impl Refusals {
    /// Counts one without a line.
    pub fn count(&mut self, cause: Cause, place: &str) {
        self.0.entry((cause, place.to_string())).or_default().count += 1;
    }

    /// Says how many were refused since the last line of each kind, where that was some time ago.
    pub fn say_rest(&mut self, now: u64) {
        for ((cause, place), it) in &mut self.0 {
            let is_due = it.said_at.map_or(false, |at| at + WINDOW <= now);
            if is_due && it.count > it.said {
                warn!("refused on {place}: {cause}: {} more since the last line", it.count - it.said);
                *it = Refused { said: it.count, said_at: Some(now), ..*it };
            }
        }
    }

    /// Counts one, and says it where no line was said of its kind for a time. It tells whether it did.
    pub fn note(&mut self, now: u64, cause: Cause, place: &str, what: &dyn fmt::Display) -> bool {
        self.count(cause, place);
        let it = self.0.entry((cause, place.to_string())).or_default();
        let is_due = it.said_at.map_or(true, |at| at + WINDOW <= now);
        if is_due {
            match it.count - it.said - 1 {
                0 => warn!("refused on {place}: {cause}: {what}"),
                more => warn!("refused on {place}: {cause}: {what}, and {more} more since the last line"),
            }
            *it = Refused { said: it.count, said_at: Some(now), ..*it };
        }
        is_due
    }

    /// Each with what it is called, and its count.
    pub fn counts(&self) -> impl Iterator<Item = (String, u64)> + '_ {
        self.0.iter().map(|((cause, place), it)| (format!("refused on {place}: {cause}"), it.count))
    }

    /// Each with its interface, or where else it was.
    pub fn by_cause(&self) -> impl Iterator<Item = (Cause, &str, u64)> + '_ {
        self.0.iter().map(|((cause, place), it)| (*cause, place.as_str(), it.count))
    }

    /// Counts from 0 again.
    pub fn clear(&mut self) {
        self.0.clear();
    }

    #[cfg(test)]
    pub fn of(&self, cause: Cause) -> u64 {
        self.0.iter().filter(|((its, _), _)| *its == cause).map(|(_, it)| it.count).sum()
    }
}

#[cfg(test)]
mod tests {
    use super::*;

    #[test]
    fn lines_come_at_a_bounded_rate() {
        let mut it = Refusals::default();
        let said: Vec<_> =
            [0, 1, 9_999, 10_000, 10_001].iter().map(|now| it.note(*now, Cause::Groups, "eth0", &"x")).collect();
        assert_eq!(said, [true, false, false, true, false]);
        assert!(it.note(10_002, Cause::Groups, "eth1", &"x"));
        assert_eq!(it.of(Cause::Groups), 6);
        // The last of the first interface is told of when it is time, and then nothing is left.
        let rest = |it: &Refusals| it.0.values().map(|it| it.count - it.said).collect::<Vec<_>>();
        it.say_rest(19_999);
        assert_eq!(rest(&it), [1, 0]);
        it.say_rest(20_000);
        assert_eq!(rest(&it), [0, 0]);
    }
}
