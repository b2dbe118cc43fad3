//! IPv4 packets as bytes: the fields that the router's machine asks for, and checksums.
use crate::counters::Message;
use crate::settings::Subnet;
use std::net::Ipv4Addr;
use std::ops::Range;

pub const IGMP: u8 = 2;
pub const UDP: u8 = 17;
pub const PIM: u8 = 103;
const ALL_PIM_ROUTERS: Ipv4Addr = Ipv4Addr::new(224, 0, 0, 13);

/// Two bytes as a number.
pub fn two(bytes: &[u8], at: usize) -> usize {
    usize::from(bytes[at]) << 8 | usize::from(bytes[at + 1])
}

pub fn address(bytes: &[u8], at: usize) -> Ipv4Addr {
    Ipv4Addr::new(bytes[at], bytes[at + 1], bytes[at + 2], bytes[at + 3])
}

/// An IPv4 packet whose header and total length are there.
#[derive(Clone, Copy, Debug, PartialEq, Eq)]
pub struct Packet<'a> {
    bytes: &'a [u8],
}

impl<'a> Packet<'a> {
    /// What a link put behind the packet is left out.
    pub fn read(bytes: &'a [u8]) -> Option<Packet<'a>> {
        if bytes.len() < 20 || bytes[0] >> 4 != 4 {
            return None;
        }
        let (header, total) = (header_length(bytes), two(bytes, 2));
        (header >= 20 && header <= total && total <= bytes.len()).then(|| Packet { bytes: &bytes[..total] })
    }

    pub fn bytes(self) -> &'a [u8] {
        self.bytes
    }

    pub fn header(self) -> &'a [u8] {
        &self.bytes[..header_length(self.bytes)]
    }

    pub fn content(self) -> &'a [u8] {
        &self.bytes[header_length(self.bytes)..]
    }

    pub fn protocol(self) -> u8 {
        self.bytes[9]
    }

    pub fn ttl(self) -> u8 {
        self.bytes[8]
    }

    pub fn source(self) -> Ipv4Addr {
        address(self.bytes, 12)
    }

    pub fn destination(self) -> Ipv4Addr {
        address(self.bytes, 16)
    }

    /// It is PIM between the routers of a link.
    pub fn is_pim_of_link(self) -> bool {
        self.protocol() == PIM && self.destination() == ALL_PIM_ROUTERS
    }

    /// It is neither PIM nor IGMP between routers and hosts of a link.
    pub fn is_data(self) -> bool {
        self.protocol() != IGMP && !self.is_pim_of_link()
    }

    pub fn is_fragment(self) -> bool {
        two(self.bytes, 6) & 0x3fff != 0
    }
}

fn header_length(bytes: &[u8]) -> usize {
    usize::from(bytes[0] & 15) * 4
}

/// The sum of RFC 1071, not complemented, over several pieces; all but the last have an even length.
pub fn sum(pieces: &[&[u8]]) -> u16 {
    let words = pieces.iter().flat_map(|piece| piece.chunks(2));
    let total: u64 = words.map(|pair| u64::from(pair[0]) << 8 | u64::from(*pair.get(1).unwrap_or(&0))).sum();
    let mut folded = total;
    while folded > 0xffff {
        folded = (folded >> 16) + (folded & 0xffff);
    }
    folded as u16
}

/// Puts the checksum of some bytes at a place in them.
pub fn put_checksum(bytes: &mut [u8], at: usize) {
    bytes[at..at + 2].fill(0);
    let checksum = !sum(&[bytes]);
    bytes[at..at + 2].copy_from_slice(&checksum.to_be_bytes());
}

/// A packet with the header of another one and a content of its own.
pub fn with_content(header: &[u8], content: &[u8]) -> Vec<u8> {
    let mut packet = [header, content].concat();
    let total = packet.len() as u16;
    packet[2..4].copy_from_slice(&total.to_be_bytes());
    put_checksum(&mut packet[..header.len()], 10);
    packet
}

/// Fills in a UDP or TCP checksum that the sender left to its card. Then the place holds the sum of the pseudo header
/// alone. A checksum that is right stays, and so does one that is wrong in another way. It tells whether one was
/// filled in.
pub fn fill_checksum(packet: &mut [u8]) -> bool {
    let (header, place, pseudo) = match Packet::read(packet) {
        Some(it) if !it.is_fragment() => match (it.protocol(), it.content().len()) {
            (UDP, 8..) => (it.header().len(), 6, pseudo_header(it)),
            (TCP, 20..) => (it.header().len(), 16, pseudo_header(it)),
            _ => return false,
        },
        _ => return false,
    };
    let total = two(packet, 2);
    let content = &mut packet[header..total];
    let left = sum(&[&pseudo]);
    if two(content, place) != usize::from(left) || sum(&[&pseudo, content]) == 0xffff {
        return false;
    }
    content[place..place + 2].fill(0);
    // In UDP 0 says that there is no checksum, and 0xffff is the same sum.
    let checksum = match !sum(&[&pseudo, content]) {
        0 => 0xffff,
        other => other,
    };
    content[place..place + 2].copy_from_slice(&checksum.to_be_bytes());
    true
}

const TCP: u8 = 6;

fn pseudo_header(packet: Packet) -> [u8; 12] {
    let mut pseudo = [0; 12];
    pseudo[..8].copy_from_slice(&packet.bytes[12..20]);
    pseudo[9] = packet.protocol();
    pseudo[10..].copy_from_slice(&(packet.content().len() as u16).to_be_bytes());
    pseudo
}

/// The type of a Hello.
pub const HELLO: u8 = 0;
pub const BOOTSTRAP: u8 = 4;

/// Whether a packet is a PIM message of a type, with a whole header.
pub fn is_pim(packet: Packet, kind: u8) -> bool {
    packet.protocol() == PIM && packet.content().len() >= 4 && packet.content()[0] == 0x20 | kind
}

/// The BSR of a Bootstrap (RFC 5059, 4.1), which is in the BSR's encoded address.
pub fn bsr_of(packet: Packet) -> Option<Ipv4Addr> {
    const ADDRESS_AT: usize = 10;
    let has_one = is_pim(packet, BOOTSTRAP) && packet.content().len() >= ADDRESS_AT + 4;
    has_one.then(|| address(packet.content(), ADDRESS_AT))
}

/// What message of PIM or IGMP a packet is; `None` for data.
pub fn message_of(packet: Packet) -> Option<Message> {
    const NULL_REGISTER: u8 = 0x40;
    let content = packet.content();
    let kind = content.first().copied().unwrap_or(u8::MAX);
    match (packet.protocol(), kind) {
        (PIM, 0x20) => Some(Message::Hello),
        (PIM, 0x21) if content.get(4).map_or(false, |flags| flags & NULL_REGISTER != 0) => Some(Message::NullRegister),
        (PIM, 0x21) => Some(Message::Register),
        (PIM, 0x22) => Some(Message::RegisterStop),
        (PIM, 0x23) => Some(Message::JoinPrune),
        (PIM, 0x24) => Some(Message::Bootstrap),
        (PIM, 0x25) => Some(Message::Assert),
        (PIM, 0x28) => Some(Message::Advertisement),
        (PIM, _) => Some(Message::OtherPim),
        (IGMP, 0x11) => Some(Message::Query),
        (IGMP, 0x22) => Some(Message::Report),
        (IGMP, 0x12 | 0x16 | 0x17) => Some(Message::OlderReport),
        (IGMP, _) => Some(Message::OtherIgmp),
        _ => None,
    }
}

/// The goodbye of a router: a Hello that holds for no time.
pub fn goodbye_of(router: Ipv4Addr) -> Vec<u8> {
    to_link(router, &[0x20, 0, 0, 0, 0, 1, 0, 2, 0, 0])
}

/// A message of PIM without its checksum, to the routers of a link.
pub fn to_link(from: Ipv4Addr, message: &[u8]) -> Vec<u8> {
    let mut message = message.to_vec();
    put_checksum(&mut message, 2);
    let mut header = [0x45, 0xc0, 0, 0, 0, 0, 0, 0, 1, PIM, 0, 0, 0, 0, 0, 0, 0, 0, 0, 0];
    header[12..16].copy_from_slice(&from.octets());
    header[16..].copy_from_slice(&ALL_PIM_ROUTERS.octets());
    with_content(&header, &message)
}

/// The advertisement of a candidate RP of groups to a BSR (RFC 5059, 4.2), which holds for some seconds.
pub fn advertisement_of(bsr: Ipv4Addr, groups: Subnet, (rp, priority): (Ipv4Addr, u8), holdtime: u16) -> Vec<u8> {
    let mut message = vec![0x28, 0, 0, 0, 1, priority];
    message.extend(holdtime.to_be_bytes());
    message.extend([1, 0]);
    message.extend(rp.octets());
    message.extend([1, 0, 0, groups.length]);
    message.extend(groups.address.octets());
    put_checksum(&mut message, 2);
    let mut header = [0x45, 0xc0, 0, 0, 0, 0, 0, 0, 1, PIM, 0, 0, 0, 0, 0, 0, 0, 0, 0, 0];
    header[12..16].copy_from_slice(&rp.octets());
    header[16..].copy_from_slice(&bsr.octets());
    with_content(&header, &message)
}

/// Whether a packet is a report or a Leave of a host, of any version.
pub fn is_of_host(packet: Packet) -> bool {
    matches!(message_of(packet), Some(Message::Report | Message::OlderReport))
}

/// The same report or Leave as of a host that has no address yet (RFC 3376, 4.2.13).
pub fn as_of_nobody(report: &[u8]) -> Vec<u8> {
    let mut own = report.to_vec();
    own[12..16].fill(0);
    let header = header_length(&own);
    put_checksum(&mut own[..header], 10);
    own
}

/// The options of a Hello: the kind of each, and where its value lies in the message. What isn't whole is left out.
pub fn options(message: &[u8]) -> Vec<(usize, Range<usize>)> {
    let mut at = 4;
    let mut found = Vec::new();
    while at + 4 <= message.len() {
        let value = at + 4..at + 4 + two(message, at + 2);
        if value.end > message.len() {
            break;
        }
        found.push((two(message, at), value.clone()));
        at = value.end;
    }
    found
}

const HOLDTIME: usize = 1;
const PRIORITY: usize = 19;
const GENERATION: usize = 20;

/// The DR priority of a Hello, where it has one.
pub fn priority_of(hello: Packet) -> Option<u32> {
    number_of(hello, PRIORITY)
}

/// The generation ID of a Hello, where it has one.
pub fn generation_of(hello: Packet) -> Option<u32> {
    number_of(hello, GENERATION)
}

fn number_of(hello: Packet, option: usize) -> Option<u32> {
    let message = hello.content();
    let found = options(message).into_iter().find(|(kind, value)| *kind == option && value.len() == 4);
    found.map(|(_, value)| address(message, value.start).into())
}

/// Whether a Hello holds for no time.
pub fn says_goodbye(hello: Packet) -> bool {
    let message = hello.content();
    options(message).into_iter().any(|(kind, value)| kind == HOLDTIME && message[value] == [0, 0])
}

/// The same Hello with another holdtime, in seconds; 0 says goodbye. `None` where the packet is no Hello.
pub fn with_holdtime(hello: &[u8], holdtime: u16) -> Option<Vec<u8>> {
    let packet = Packet::read(hello).filter(|packet| is_pim(*packet, HELLO))?;
    let mut content = packet.content().to_vec();
    for (_, value) in options(&content).into_iter().filter(|(kind, value)| *kind == HOLDTIME && value.len() == 2) {
        content[value].copy_from_slice(&holdtime.to_be_bytes());
    }
    put_checksum(&mut content, 2);
    Some(with_content(packet.header(), &content))
}

/// Fills in the checksum of the packet in a Register: its source may have left it to a card, which the DR's kernel
/// never asked.
pub fn fill_registered(bytes: &mut [u8]) -> bool {
    const REGISTER: u8 = 1;
    let register = Packet::read(bytes).filter(|packet| is_pim(*packet, REGISTER));
    match register.map(|packet| (packet.header().len(), packet.header().len() + 8)) {
        // A checksum over the whole Register, as old routers make it, says what was sent.
        Some((header, inner)) if inner < bytes.len() && sum(&[&bytes[header..inner]]) == 0xffff => {
            fill_checksum(&mut bytes[inner..])
        }
        _ => false,
    }
}

#[cfg(test)]
mod tests {
    use super::*;

    pub fn packet(protocol: u8, destination: [u8; 4], content: &[u8]) -> Vec<u8> {
        let mut header = [0x45, 0, 0, 0, 0, 0, 0, 0, 16, protocol, 0, 0, 10, 1, 0, 50, 0, 0, 0, 0];
        header[16..].copy_from_slice(&destination);
        with_content(&header, content)
    }

    fn udp(checksum: u16) -> Vec<u8> {
        let check = checksum.to_be_bytes();
        packet(UDP, [239, 1, 1, 1], &[0x13, 0x8c, 0x13, 0x8c, 0, 11, check[0], check[1], b'a', b'b', b'c'])
    }

    fn right() -> u16 {
        let packet = udp(0);
        let read = Packet::read(&packet).unwrap();
        !sum(&[&pseudo_header(read), read.content()])
    }

    #[test]
    fn a_header_sums_to_nothing() {
        assert_eq!(sum(&[&udp(0)[..20]]), 0xffff);
    }

    #[test]
    fn what_the_card_was_to_fill_is_filled() {
        let left = sum(&[&pseudo_header(Packet::read(&udp(0)).unwrap())]);
        let mut packet = udp(left);
        assert!(fill_checksum(&mut packet));
        assert_eq!(packet, udp(right()));
        assert!(!fill_checksum(&mut packet));
    }

    #[test]
    fn other_checksums_stay() {
        for checksum in [0, 1, right()] {
            let mut packet = udp(checksum);
            assert!(!fill_checksum(&mut packet));
            assert_eq!(packet, udp(checksum));
        }
    }

    #[test]
    fn a_fragment_stays() {
        let mut packet = udp(sum(&[&pseudo_header(Packet::read(&udp(0)).unwrap())]));
        packet[6] = 0x20;
        let before = packet.clone();
        assert!(!fill_checksum(&mut packet));
        assert_eq!(packet, before);
    }

    #[test]
    fn a_goodbye_is_the_hello_without_its_time() {
        let hello = [0x20, 0, 0xdf, 0xfc, 0, 1, 0, 2, 0, 105, 0, 20, 0, 4, 1, 2, 3, 4];
        let said = with_holdtime(&packet(PIM, [224, 0, 0, 13], &hello), 0).unwrap();
        let content = Packet::read(&said).unwrap().content();
        assert_eq!(&content[4..], [0, 1, 0, 2, 0, 0, 0, 20, 0, 4, 1, 2, 3, 4]);
        assert_eq!(sum(&[content]), 0xffff);
        assert!(says_goodbye(Packet::read(&said).unwrap()));
        assert!(says_goodbye(Packet::read(&goodbye_of(Ipv4Addr::new(10, 0, 0, 1))).unwrap()));
        assert!(!says_goodbye(Packet::read(&packet(PIM, [224, 0, 0, 13], &hello)).unwrap()));
        assert_eq!(with_holdtime(&udp(0), 0), None);
    }

    #[test]
    fn a_hello_has_its_priority() {
        let hello = |content: &[u8]| priority_of(Packet::read(&packet(PIM, [224, 0, 0, 13], content)).unwrap());
        assert_eq!(hello(&[0x20, 0, 0, 0, 0, 1, 0, 2, 0, 105, 0, 19, 0, 4, 0, 0, 1, 2]), Some(258));
        assert_eq!(hello(&[0x20, 0, 0, 0, 0, 1, 0, 2, 0, 105]), None);
        assert_eq!(hello(&[0x20, 0, 0, 0, 0, 19, 0, 4, 0, 0, 1]), None);
    }

    #[test]
    fn the_packet_in_a_register_is_filled() {
        let register = |inner: &[u8], checksum: [u8; 2]| {
            let head = [0x21, 0, checksum[0], checksum[1], 0, 0, 0, 0];
            packet(PIM, [10, 0, 0, 1], &[&head, inner].concat())
        };
        let left = udp(sum(&[&pseudo_header(Packet::read(&udp(0)).unwrap())]));
        let mut bytes = register(&left, [0xde, 0xff]);
        assert!(fill_registered(&mut bytes));
        assert_eq!(bytes, register(&udp(right()), [0xde, 0xff]));
        assert!(!fill_registered(&mut register(&left, [0, 0])));
        assert!(!fill_registered(&mut register(&udp(right()), [0xde, 0xff])));
        assert!(!fill_registered(&mut udp(0)));
    }

    #[test]
    fn short_packets_are_none() {
        let whole = udp(0);
        assert_eq!(Packet::read(&whole[..19]), None);
        assert_eq!(Packet::read(&whole[..30]), None);
        assert_eq!(Packet::read(&[whole.clone(), vec![0; 9]].concat()).unwrap().bytes(), whole);
    }
}
