//! Messages of MSDP as bytes (RFC 3618, 12).
use crate::mroute::Key;
use crate::packet::{address, two, Packet};
use std::net::Ipv4Addr;

const SOURCE_ACTIVE: u8 = 1;
const KEEPALIVE: u8 = 4;
const HEADER: usize = 3;
/// Of a Source-Active message before its entries, and of an entry.
const BEFORE_ENTRIES: usize = 8;
const ENTRY: usize = 12;
/// One octet counts them.
pub const MOST_ENTRIES: usize = 255;
/// The route prefix length of a source.
const OF_A_SOURCE: u8 = 32;

/// A Source-Active message (SA).
#[derive(Clone, Debug, PartialEq, Eq)]
pub struct SourceActive<'a> {
    pub rp: Ipv4Addr,
    /// Without entries of other prefixes than a source's.
    pub keys: Vec<Key>,
    /// The packet that it encapsulates, with its key, the last entry's.
    pub packet: Option<(Key, &'a [u8])>,
}

#[derive(Clone, Debug, PartialEq, Eq)]
pub enum Message<'a> {
    SourceActive(SourceActive<'a>),
    Keepalive,
    /// Of a type that isn't known, or isn't used: it is discarded, and the session goes on (13).
    Other(u8),
}

/// What stands at the beginning of bytes that came.
#[derive(Clone, Debug, PartialEq, Eq)]
pub enum Read<'a> {
    /// A message, and how long it is.
    Whole(Message<'a>, usize),
    /// More of it has to come.
    Part,
    /// Its format is wrong: the session is reset (13).
    Wrong(&'static str),
}

fn key_at(bytes: &[u8], at: usize) -> Key {
    Key { group: address(bytes, at + 4), source: address(bytes, at + 8) }
}

/// The packet is one of the last entry, as its header says.
fn packet_of(last: Option<Key>, data: &[u8]) -> Option<(Key, &[u8])> {
    let (key, packet) = (last?, Packet::read(data)?);
    let is_of_it = packet.bytes().len() == data.len() && packet.source() == key.source;
    (is_of_it && packet.destination() == key.group).then_some((key, data))
}

fn source_active(message: &[u8]) -> Read<'_> {
    if message.len() < BEFORE_ENTRIES {
        return Read::Wrong("a Source-Active message is shorter than its address");
    }
    let count = usize::from(message[3]);
    let end = BEFORE_ENTRIES + ENTRY * count;
    if message.len() < end {
        return Read::Wrong("a Source-Active message is shorter than its entries");
    }
    let places = || (0..count).map(|number| BEFORE_ENTRIES + ENTRY * number);
    let is_source = |at: &usize| message[at + 3] == OF_A_SOURCE;
    let keys = places().filter(is_source).map(|at| key_at(message, at)).collect();
    let last = places().next_back().filter(is_source).map(|at| key_at(message, at));
    let packet = packet_of(last, &message[end..]);
    Read::Whole(Message::SourceActive(SourceActive { rp: address(message, 4), keys, packet }), message.len())
}

/// A message that is longer than 9192 octets is taken as any other (12).
pub fn read(bytes: &[u8]) -> Read<'_> {
    if bytes.len() < HEADER {
        return Read::Part;
    }
    let (kind, length) = (bytes[0], two(bytes, 1));
    if length < HEADER || (kind == KEEPALIVE && length != HEADER) {
        return Read::Wrong("the length of a message is wrong");
    }
    match bytes.get(..length) {
        None => Read::Part,
        Some(message) if kind == SOURCE_ACTIVE => source_active(message),
        Some(_) if kind == KEEPALIVE => Read::Whole(Message::Keepalive, length),
        Some(_) => Read::Whole(Message::Other(kind), length),
    }
}

pub fn keepalive() -> Vec<u8> {
    vec![KEEPALIVE, 0, HEADER as u8]
}

/// Source-Active messages of an RP with all these sources, without packets.
pub fn source_actives(rp: Ipv4Addr, keys: &[Key]) -> Vec<u8> {
    let one = |keys: &[Key]| {
        let length = (BEFORE_ENTRIES + ENTRY * keys.len()) as u16;
        let mut message = vec![SOURCE_ACTIVE];
        message.extend(length.to_be_bytes());
        message.push(keys.len() as u8);
        message.extend(rp.octets());
        for key in keys {
            message.extend([0, 0, 0, OF_A_SOURCE]);
            message.extend(key.group.octets());
            message.extend(key.source.octets());
        }
        message
    };
    keys.chunks(MOST_ENTRIES).flat_map(one).collect()
}

#[cfg(test)]
mod tests {
    use super::*;
    use rand::{Rng, SeedableRng};

    const RP: Ipv4Addr = Ipv4Addr::new(10, 0, 0, 9);

    fn key(last: u8) -> Key {
        Key { source: [10, 1, 0, last].into(), group: [239, 1, 1, last].into() }
    }

    fn whole(bytes: &[u8]) -> (SourceActive<'_>, usize) {
        match read(bytes) {
            Read::Whole(Message::SourceActive(it), length) => (it, length),
            other => panic!("{other:?}"),
        }
    }

    /// A packet of a source to its group.
    fn data(key: Key, length: usize) -> Vec<u8> {
        let mut packet = vec![0; length];
        (packet[0], packet[3], packet[8], packet[9]) = (0x45, length as u8, 9, 17);
        packet[12..16].copy_from_slice(&key.source.octets());
        packet[16..20].copy_from_slice(&key.group.octets());
        packet
    }

    #[test]
    fn what_is_written_is_read() {
        let keys = [key(1), key(2)];
        let bytes = source_actives(RP, &keys);
        let wanted =
            [1, 0, 32, 2, 10, 0, 0, 9, 0, 0, 0, 32, 239, 1, 1, 1, 10, 1, 0, 1, 0, 0, 0, 32, 239, 1, 1, 2, 10, 1, 0, 2];
        assert_eq!(bytes, wanted);
        assert_eq!(whole(&bytes), (SourceActive { rp: RP, keys: keys.to_vec(), packet: None }, 32));
        assert_eq!(read(&keepalive()), Read::Whole(Message::Keepalive, 3));
        assert!(source_actives(RP, &[]).is_empty());
        // More than an octet counts are several messages.
        let many: Vec<_> = (0..600).map(|number| key((number % 200) as u8)).collect();
        let bytes = source_actives(RP, &many);
        let (mut at, mut found) = (0, Vec::new());
        while at < bytes.len() {
            let (it, length) = whole(&bytes[at..]);
            found.extend(it.keys);
            at += length;
        }
        assert_eq!(found, many);
    }

    #[test]
    fn a_packet_is_of_the_last_entry() {
        let with = |data: &[u8]| {
            let mut bytes = source_actives(RP, &[key(1), key(2)]);
            bytes.extend(data);
            bytes[2] = bytes.len() as u8;
            bytes
        };
        let packet = data(key(2), 28);
        let bytes = with(&packet);
        assert_eq!(whole(&bytes).0.packet, Some((key(2), &packet[..])));
        // One of another entry, one whose length differs, and what is no packet are left out, and the entries stay.
        for wrong in [data(key(1), 28), [&packet[..], &[0]].concat(), packet[..27].to_vec(), vec![7; 5]] {
            let bytes = with(&wrong);
            let (it, length) = whole(&bytes);
            assert_eq!((it.keys.len(), it.packet, length), (2, None, bytes.len()));
        }
    }

    #[test]
    fn an_entry_of_another_prefix_is_left_out() {
        let mut bytes = source_actives(RP, &[key(1), key(2)]);
        bytes[BEFORE_ENTRIES + 3] = 24;
        assert_eq!(whole(&bytes).0.keys, [key(2)]);
        // Reserved octets are ignored.
        bytes[BEFORE_ENTRIES] = 255;
        assert_eq!(whole(&bytes).0.keys, [key(2)]);
    }

    #[test]
    fn a_message_that_is_cut_is_waited_for_and_a_wrong_one_is_told() {
        let bytes = source_actives(RP, &[key(1), key(2)]);
        assert!((0..bytes.len()).all(|length| read(&bytes[..length]) == Read::Part));
        let is_wrong = |bytes: &[u8]| matches!(read(bytes), Read::Wrong(_));
        assert!(is_wrong(&[4, 0, 2]) && is_wrong(&[4, 0, 4, 0]) && is_wrong(&[1, 0, 0]) && is_wrong(&[9, 0, 1]));
        assert!(is_wrong(&[1, 0, 7, 0, 0, 0, 0]));
        // More entries than there is room for.
        let mut short = bytes.clone();
        short[3] = 3;
        assert!(is_wrong(&short));
        assert_eq!(read(&[6, 0, 5, 1, 2]), Read::Whole(Message::Other(6), 5));
        assert_eq!(read(&[2, 0, 8, 0, 0, 0, 0, 0]), Read::Whole(Message::Other(2), 8));
        // Longer than a message is to be, and taken.
        let mut long = source_actives(RP, &[key(1)]);
        long.resize(20_000, 0);
        long[1..3].copy_from_slice(&20_000u16.to_be_bytes());
        assert_eq!(whole(&long), (SourceActive { rp: RP, keys: vec![key(1)], packet: None }, 20_000));
    }

    #[test]
    fn no_bytes_are_read_past_their_end() {
        let mut draws = rand::rngs::StdRng::seed_from_u64(7);
        for _ in 0..20_000 {
            let mut bytes: Vec<u8> = (0..draws.gen_range(0..80)).map(|_| draws.gen()).collect();
            if let Some(kind) = bytes.first_mut() {
                *kind = draws.gen_range(0..6);
            }
            if bytes.len() > 2 && draws.gen() {
                bytes[1] = 0;
                bytes[2] = draws.gen_range(0..90);
            }
            if let Read::Whole(message, length) = read(&bytes) {
                assert!((HEADER..=bytes.len()).contains(&length));
                if let Message::SourceActive(it) = message {
                    assert!(it.keys.len() <= MOST_ENTRIES);
                }
            }
        }
    }
}
