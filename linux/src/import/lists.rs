//! Prefix lists of FRR as rules of ours. FRR's pimd asks whether an address is within a prefix, whatever bounds of
//! lengths (`ge`, `le`) the rule has.
use super::configuration::Place;
use crate::settings::{mask, Subnet};
use serde::Serialize;
use std::net::Ipv4Addr;

/// A rule of a prefix list.
#[derive(Clone, Debug, PartialEq, Eq, Serialize)]
pub struct Entry {
    /// Where it stands.
    #[serde(flatten)]
    pub place: Place,
    sequence: u32,
    pub permits: bool,
    pub prefix: Subnet,
}

impl Entry {
    /// Of the words behind the list's name: `[seq N] permit|deny PREFIX [ge N] [le N]`.
    pub fn read(place: &Place, words: &[&str], before: u32) -> Option<Entry> {
        const STEP: u32 = 5;
        let (sequence, words) = match words {
            ["seq", number, rest @ ..] => (number.parse().ok()?, rest),
            rest => (before + STEP, rest),
        };
        let (permits, prefix, bounds) = match words {
            [action @ ("permit" | "deny"), prefix, bounds @ ..] => (*action == "permit", *prefix, bounds),
            _ => return None,
        };
        let prefix = match prefix {
            "any" => Subnet { address: Ipv4Addr::UNSPECIFIED, length: 0 },
            other => subnet(other)?,
        };
        let is_bound = |bound: &[&str]| matches!(bound, ["ge" | "le", number] if number.parse::<u8>().is_ok());
        bounds.chunks(2).all(is_bound).then(|| Entry { place: place.clone(), sequence, permits, prefix })
    }

    pub fn sequence(&self) -> u32 {
        self.sequence
    }
}

pub fn subnet(text: &str) -> Option<Subnet> {
    let (address, length) = text.split_once('/')?;
    let (address, length): (Ipv4Addr, u8) = (address.parse().ok()?, length.parse().ok()?);
    (length <= 32).then_some(Subnet { address, length })
}

/// The groups within a prefix; `None` where there are none.
pub fn groups_within(prefix: Subnet) -> Option<Subnet> {
    const ALL: Subnet = Subnet { address: Ipv4Addr::new(224, 0, 0, 0), length: 4 };
    if prefix.length <= ALL.length {
        return prefix.overlaps(ALL).then_some(ALL);
    }
    let address = (u32::from(prefix.address) & mask(prefix.length)).into();
    ALL.contains(prefix.prefix()).then_some(Subnet { address, length: prefix.length })
}

#[cfg(test)]
mod tests {
    use super::*;

    fn read(text: &str, before: u32) -> Option<Entry> {
        Entry::read(&Place::default(), &text.split(' ').collect::<Vec<_>>(), before)
    }

    fn entry(text: &str) -> Entry {
        read(text, 5).expect(text)
    }

    #[test]
    fn a_rule_has_a_number_and_a_prefix() {
        assert_eq!((entry("permit any").sequence, entry("seq 7 deny 239.1.0.0/16 ge 17 le 32").sequence), (10, 7));
        assert_eq!(entry("permit any").prefix.to_string(), "0.0.0.0/0");
        for wrong in ["permit 239.1.0.0", "permit 239.1.0.0/33", "permit any le", "allow any", "seq x permit any"] {
            assert!(read(wrong, 0).is_none(), "{wrong}");
        }
    }

    #[test]
    fn only_groups_are_taken_of_a_prefix() {
        let within = |text: &str| groups_within(subnet(text).expect(text)).map(|it| it.to_string());
        assert_eq!(within("0.0.0.0/0").as_deref(), Some("224.0.0.0/4"));
        assert_eq!(within("239.1.2.3/16").as_deref(), Some("239.1.0.0/16"));
        assert_eq!((within("10.0.0.0/8"), within("0.0.0.0/1")), (None, None));
    }
}
