//! Hosts of IGMPv1 and IGMPv2: what they say, and how an interface speaks IGMP with them.
use crate::packet::{address, Packet, IGMP};
use std::fmt;
use std::net::Ipv4Addr;
use viqeshor::{OlderHosts, QueryVersion};

const QUERY: u8 = 0x11;
const REPORT_ONE: u8 = 0x12;
const REPORT_TWO: u8 = 0x16;
const LEAVE: u8 = 0x17;
/// So long is a query, and at least so long what hosts say; there the group stands (RFC 2236, 2).
const LENGTH: usize = 8;
const GROUP_AT: usize = 4;
/// The first byte of SSM groups (RFC 4607).
const SSM: u8 = 232;

/// What an older host speaks.
#[derive(Clone, Copy, Debug, PartialEq, Eq, PartialOrd, Ord, Hash)]
pub enum Version {
    One,
    Two,
}

impl Version {
    /// Of a group, as the library tells it.
    pub fn of_mode(mode: u32) -> Version {
        if mode == 1 {
            Version::One
        } else {
            Version::Two
        }
    }
}

impl fmt::Display for Version {
    fn fmt(&self, to: &mut fmt::Formatter) -> fmt::Result {
        to.write_str(match self {
            Version::One => "IGMPv1",
            Version::Two => "IGMPv2",
        })
    }
}

/// A report or a Leave of such a host.
#[derive(Clone, Copy, Debug, PartialEq, Eq)]
pub struct Older {
    pub version: Version,
    pub group: Ipv4Addr,
    pub is_leave: bool,
}

impl Older {
    /// `None` where the packet is none, or isn't whole.
    pub fn read(packet: Packet) -> Option<Older> {
        let content = packet.content();
        if packet.protocol() != IGMP || content.len() < LENGTH {
            return None;
        }
        let (version, is_leave) = match content[0] {
            REPORT_ONE => (Version::One, false),
            REPORT_TWO => (Version::Two, false),
            LEAVE => (Version::Two, true),
            _ => return None,
        };
        Some(Older { version, group: address(content, GROUP_AT), is_leave })
    }

    /// Of 224.0.0.0/24, whose packets never leave their link.
    pub fn is_of_link(self) -> bool {
        self.group.octets().starts_with(&[224, 0, 0])
    }

    pub fn is_source_specific(self) -> bool {
        self.group.octets()[0] == SSM
    }
}

impl fmt::Display for Older {
    fn fmt(&self, to: &mut fmt::Formatter) -> fmt::Result {
        write!(to, "{} {} of {}", self.version, if self.is_leave { "Leave" } else { "report" }, self.group)
    }
}

/// Whether a packet is a query of IGMPv1 or IGMPv2 (RFC 3376, 7.1).
pub fn is_query(packet: Packet) -> bool {
    let content = packet.content();
    packet.protocol() == IGMP && content.len() == LENGTH && content[0] == QUERY
}

/// How an interface speaks IGMP: which older hosts it hears, and by which version it asks.
#[derive(Clone, Copy, Debug, PartialEq, Eq)]
pub struct Speech {
    pub older_hosts: OlderHosts,
    pub queries: QueryVersion,
}

impl Speech {
    /// That of a router that the library has just made.
    pub const NEW: Speech = Speech { older_hosts: OlderHosts::Nobody, queries: QueryVersion::Three };

    pub fn hears(self, older: Older) -> bool {
        match self.older_hosts {
            OlderHosts::All => true,
            OlderHosts::VersionTwo => older.version == Version::Two,
            OlderHosts::Nobody => false,
        }
    }
}

#[cfg(test)]
mod tests {
    use super::*;
    use crate::packet::{with_content, UDP};

    fn read(protocol: u8, content: &[u8]) -> Option<Older> {
        let header = [0x45, 0, 0, 0, 0, 0, 0, 0, 1, protocol, 0, 0, 10, 0, 0, 2, 239, 1, 1, 1];
        Older::read(Packet::read(&with_content(&header, content)).expect("it is a packet"))
    }

    #[test]
    fn each_message_is_read() {
        let told = |kind| read(IGMP, &[kind, 0, 0, 0, 239, 1, 1, 1]).map(|older| older.to_string());
        let some = |text: &str| Some(text.to_string());
        assert_eq!(told(0x12), some("IGMPv1 report of 239.1.1.1"));
        assert_eq!(told(0x16), some("IGMPv2 report of 239.1.1.1"));
        assert_eq!(told(0x17), some("IGMPv2 Leave of 239.1.1.1"));
        assert_eq!((told(0x11), told(0x22)), (None, None));
        let is_older = |content: &[u8]| {
            let header = [0x45, 0, 0, 0, 0, 0, 0, 0, 1, IGMP, 0, 0, 10, 0, 0, 2, 224, 0, 0, 1];
            is_query(Packet::read(&with_content(&header, content)).expect("it is a packet"))
        };
        assert!(is_older(&[0x11; 8]) && !is_older(&[0x11; 12]) && !is_older(&[0x16; 8]));
        assert_eq!((read(IGMP, &[0x16, 0, 0, 0, 239, 1, 1]), read(UDP, &[0x16, 0, 0, 0, 239, 1, 1, 1])), (None, None));
    }

    #[test]
    fn a_setting_hears_its_versions() {
        let hears = |older_hosts| {
            [0x12, 0x16, 0x17].map(|kind| {
                let older = read(IGMP, &[kind, 0, 0, 0, 239, 1, 1, 1]).expect("it is one");
                Speech { older_hosts, ..Speech::NEW }.hears(older)
            })
        };
        assert_eq!(hears(OlderHosts::All), [true; 3]);
        assert_eq!(hears(OlderHosts::VersionTwo), [false, true, true]);
        assert_eq!(hears(OlderHosts::Nobody), [false; 3]);
    }
}
