//! Data packets that the library doesn't read: fragments, and packets of more than 1,500 bytes.
//!
//! Each of them is an IPv4 packet like any other, and is forwarded as it is (RFC 1812, 5.2.6: a router doesn't
//! reassemble what it forwards). The library decides of a packet by its header alone. So it is given a short whole
//! packet with the same header, and in each copy and in the Register that it sends of that one the packet itself
//! stands.
use crate::packet::{is_pim, put_checksum, two, with_content, Packet};

/// The most bytes of a packet that the library reads.
const MOST_READ: usize = 1500;
/// As much content of the packet goes into the stand-in.
const CONTENT: usize = 8;
const REGISTER: u8 = 1;
/// The PIM header and the flags before the packet in a Register.
const REGISTER_HEAD: usize = 8;
const NULL_REGISTER: u8 = 0x40;
const LONGEST: usize = 65_535;

/// A packet for the library in place of one that it doesn't read; `None` where it reads that one, or has to refuse it.
pub fn of(packet: &[u8]) -> Option<Vec<u8>> {
    let whole = Packet::read(packet).filter(|whole| crate::packet::sum(&[whole.header()]) == 0xffff)?;
    if !whole.is_fragment() && whole.bytes().len() <= MOST_READ {
        return None;
    }
    let mut header = whole.header().to_vec();
    // Neither an offset nor more fragments, but DF as it was.
    header[6] &= 0x40;
    header[7] = 0;
    Some(with_content(&header, &whole.content()[..whole.content().len().min(CONTENT)]))
}

/// The packet in a Register, and the Register with a stand-in for it; `None` as above, or where it is no Register of
/// data.
pub fn of_registered(bytes: &[u8]) -> Option<(Vec<u8>, Vec<u8>)> {
    let outer = Packet::read(bytes)?;
    let (head, inner) = registered(outer)?;
    let stand_in = of(inner)?;
    // A Register with a wrong checksum stays as it is, for the library to refuse it (RFC 7761, 4.9.3).
    let is_right = [head, outer.content()].iter().any(|part| crate::packet::sum(&[part]) == 0xffff);
    if !is_right {
        return None;
    }
    let mut head = head.to_vec();
    put_checksum(&mut head, 2);
    let whole = Packet::read(inner)?.bytes().to_vec();
    Some((whole, with_content(outer.header(), &[head, stand_in].concat())))
}

fn registered(outer: Packet<'_>) -> Option<(&[u8], &[u8])> {
    let content = outer.content();
    let is_data = is_pim(outer, REGISTER) && content.len() > REGISTER_HEAD && content[4] & NULL_REGISTER == 0;
    is_data.then(|| content.split_at(REGISTER_HEAD))
}

/// The packet itself, with another TTL.
fn with_ttl(packet: &[u8], ttl: u8) -> Vec<u8> {
    let mut own = packet.to_vec();
    own[8] = ttl;
    let header = usize::from(own[0] & 15) * 4;
    put_checksum(&mut own[..header], 10);
    own
}

/// A copy of a stand-in, with the packet itself.
pub fn copy(packet: &[u8], sent: &[u8]) -> Vec<u8> {
    with_ttl(packet, sent[8])
}

/// A Register of a stand-in, with the packet itself; `None` where it is no such Register, or would be longer than a
/// packet can be.
pub fn register(packet: &[u8], sent: &[u8]) -> Option<Vec<u8>> {
    let outer = Packet::read(sent)?;
    let (head, inner) = registered(outer)?;
    if inner[12..20] != packet[12..20] || outer.header().len() + head.len() + packet.len() > LONGEST {
        return None;
    }
    Some(with_content(outer.header(), &[head.to_vec(), with_ttl(packet, inner[8])].concat()))
}

const MORE_FRAGMENTS: usize = 0x2000;
const DONT_FRAGMENT: usize = 0x4000;
const OFFSET: usize = 0x1fff;

/// The packet in fragments of at most so many bytes (RFC 791, 3.2); `None` where it must not be fragmented, or can't.
pub fn fragments(packet: Packet, most: usize) -> Option<Vec<Vec<u8>>> {
    let (header, content) = (packet.header(), packet.content());
    let flags = two(header, 6);
    let room = most.checked_sub(header.len())? & !7;
    if flags & DONT_FRAGMENT != 0 || room == 0 {
        return None;
    }
    let later = of_later_fragments(header);
    let piece = |(number, part): (usize, &[u8])| {
        let at = number * room;
        let is_last = at + part.len() == content.len();
        let mut own = if number == 0 { header.to_vec() } else { later.clone() };
        let more = if is_last { flags & MORE_FRAGMENTS } else { MORE_FRAGMENTS };
        own[6..8].copy_from_slice(&((more | ((flags & OFFSET) + at / 8)) as u16).to_be_bytes());
        with_content(&own, part)
    };
    Some(content.chunks(room).enumerate().map(piece).collect())
}

/// A header with those options alone that go into every fragment.
fn of_later_fragments(header: &[u8]) -> Vec<u8> {
    let mut own = header[..20].to_vec();
    let mut at = 20;
    while at < header.len() && header[at] > 1 {
        let length = usize::from(*header.get(at + 1).unwrap_or(&0));
        if length < 2 || at + length > header.len() {
            break;
        }
        if header[at] & 0x80 != 0 {
            own.extend(&header[at..at + length]);
        }
        at += length;
    }
    own.resize((own.len() + 3) & !3, 0);
    own[0] = 0x40 | (own.len() / 4) as u8;
    own
}

#[cfg(test)]
mod tests {
    use super::*;
    use crate::packet::{sum, PIM, UDP};

    fn packet(flags: u16, length: usize) -> Vec<u8> {
        let mut header = [0x45, 7, 0, 0, 1, 2, 0, 0, 16, UDP, 0, 0, 10, 1, 0, 50, 239, 1, 1, 1];
        header[6..8].copy_from_slice(&flags.to_be_bytes());
        let content: Vec<u8> = (0..length).map(|number| (number % 251) as u8).collect();
        with_content(&header, &content)
    }

    fn register_of(inner: &[u8], flags: u8) -> Vec<u8> {
        let header = [0x45, 0, 0, 0, 0, 0, 0, 0, 64, PIM, 0, 0, 10, 2, 0, 1, 10, 4, 0, 2];
        let mut head = [0x21, 0, 0, 0, flags, 0, 0, 0];
        put_checksum(&mut head, 2);
        with_content(&header, &[&head, inner].concat())
    }

    #[test]
    fn what_the_library_reads_stands_for_itself() {
        assert_eq!(of(&packet(0x4000, 1480)), None);
        let mut wrong = packet(0x2000, 100);
        wrong[10] ^= 1;
        assert_eq!(of(&wrong), None);
        assert_eq!(of(&[0x45; 12]), None);
    }

    #[test]
    fn a_fragment_and_a_long_packet_have_a_stand_in() {
        let own = packet(0x00b9, 100);
        let stand_in = of(&own).expect("it is a fragment");
        let read = Packet::read(&stand_in).expect("it is a packet");
        assert!(!read.is_fragment() && sum(&[read.header()]) == 0xffff);
        assert_eq!(
            (read.bytes().len(), read.source(), read.ttl()),
            (28, Packet::read(&own).expect("so is it").source(), 16)
        );
        let long = of(&packet(0x4000, 1481)).expect("it is long");
        assert_eq!((long.len(), long[6]), (28, 0x40));
    }

    #[test]
    fn copies_and_registers_have_the_packet_itself() {
        let own = packet(0x2000, 1480);
        let mut sent = of(&own).expect("it is a fragment");
        sent[8] = 15;
        let left = copy(&own, &sent);
        assert_eq!((left[8], &left[20..], &left[6..8]), (15, &own[20..], &own[6..8]));
        assert_eq!(sum(&[&left[..20]]), 0xffff);
        let registered = register(&own, &register_of(&sent, 0)).expect("it is a Register");
        assert_eq!(registered, register_of(&left, 0));
        assert_eq!(register(&own, &register_of(&sent, NULL_REGISTER)), None);
        let longest = packet(0, 65_515);
        assert_eq!(register(&longest, &register_of(&of(&longest).expect("it is long"), 0)), None);
    }

    #[test]
    fn a_register_of_a_fragment_has_a_stand_in() {
        let own = packet(0x2000, 1480);
        let (inner, given) = of_registered(&register_of(&own, 0)).expect("it is a Register of a fragment");
        assert_eq!((inner, given), (own.clone(), register_of(&of(&own).expect("it is a fragment"), 0)));
        assert_eq!(of_registered(&register_of(&packet(0, 1480), 0)), None);
        let mut wrong = register_of(&own, 0);
        wrong[22] ^= 1;
        assert_eq!(of_registered(&wrong), None);
    }

    #[test]
    fn fragments_are_the_packet_in_parts() {
        let own = packet(0x2003, 3000);
        let parts = fragments(Packet::read(&own).expect("it is a packet"), 1500).expect("it may be fragmented");
        let places: Vec<_> = parts.iter().map(|part| (part.len(), two(part, 6))).collect();
        assert_eq!(places, [(1500, 0x2003), (1500, 0x2003 + 185), (60, 0x2003 + 370)]);
        let content: Vec<u8> = parts.iter().flat_map(|part| part[20..].to_vec()).collect();
        assert_eq!(content, own[20..]);
        assert!(parts.iter().all(|part| sum(&[&part[..20]]) == 0xffff));
        assert_eq!(fragments(Packet::read(&packet(0x4000, 3000)).expect("it is a packet"), 1500), None);
    }

    #[test]
    fn later_fragments_have_the_options_that_are_copied() {
        let header = [
            0x48, 0, 0, 0, 0, 0, 0, 0, 16, UDP, 0, 0, 10, 1, 0, 50, 239, 1, 1, 1, 7, 4, 4, 0, 0x94, 4, 0, 0, 0, 0, 0, 0,
        ];
        let own = with_content(&header, &[9; 64]);
        let parts = fragments(Packet::read(&own).expect("it is a packet"), 80).expect("it may be fragmented");
        assert_eq!(parts.iter().map(|part| part[0]).collect::<Vec<_>>(), [0x48, 0x46]);
        assert_eq!(parts[1][20..24], [0x94, 4, 0, 0]);
    }
}
