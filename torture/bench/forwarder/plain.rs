//! A plain forwarder: a hash map from (S,G) to a row. It tests of a packet what the router tests, and keeps the end of each row's
//! keepalive timer. Whoever joins is told to it.
use std::collections::HashMap;
use std::hash::{BuildHasherDefault, Hasher};

/// How long a source is kept after its last packet, in ms.
const KEEPALIVE: u64 = 210_000;
const FRAME_LIMIT: usize = 1500;
const HEADER_LENGTH: usize = 20;
const PROTOCOL_IGMP: u8 = 2;
const PROTOCOL_PIM: u8 = 103;
const ALL_PIM_ROUTERS: u32 = 0xE000_000D;

/// A hash that costs a few instructions, as that of a forwarder: the usual one of Rust withstands chosen keys, and costs more.
#[derive(Default)]
pub struct Mixed(u64);

impl Hasher for Mixed {
    fn finish(&self) -> u64 {
        self.0
    }

    fn write(&mut self, bytes: &[u8]) {
        bytes.iter().for_each(|&byte| self.write_u64(u64::from(byte)));
    }

    fn write_u64(&mut self, number: u64) {
        let mixed = (self.0 ^ number).wrapping_mul(0x9E37_79B9_7F4A_7C15);
        self.0 = mixed ^ mixed >> 32;
    }
}

struct Row {
    rpf: u32,
    /// The interfaces on which it leaves, by their bits.
    olist: u128,
    /// In ms.
    keepalive: u64,
}

/// A packet that was read.
struct Packet<'a> {
    bytes: &'a [u8],
    source: u32,
    group: u32,
}

/// Why a packet isn't forwarded.
#[derive(Debug, PartialEq)]
pub struct Stopped;

pub struct Plain {
    /// The router's address on each interface.
    addresses: Vec<u32>,
    is_up: u128,
    rows: HashMap<u64, Row, BuildHasherDefault<Mixed>>,
    /// In ms.
    pub present: u64,
}

fn u16_at(bytes: &[u8], at: usize) -> u16 {
    u16::from_be_bytes([bytes[at], bytes[at + 1]])
}

fn u32_at(bytes: &[u8], at: usize) -> u32 {
    u32::from_be_bytes([bytes[at], bytes[at + 1], bytes[at + 2], bytes[at + 3]])
}

/// The one's complement of the one's complement sum of the 16-bit words of a header, two of them at a time.
pub fn sum16(header: &[u8]) -> u16 {
    let total: u64 = header.chunks_exact(4).map(|words| u64::from(u32_at(words, 0))).sum();
    let folded = (total & 0xFFFF_FFFF) + (total >> 32);
    let folded = (folded & 0xFFFF) + (folded >> 16);
    let folded = (folded & 0xFFFF) + (folded >> 16);
    !((folded & 0xFFFF) + (folded >> 16)) as u16
}

/// The checksum of a header whose TTL is one lower (RFC 1624).
fn lowered(header: &[u8]) -> u16 {
    let (check, word) = (u16_at(header, 10), u16_at(header, 8));
    let total = u32::from(!check) + u32::from(!word) + u32::from(word - 0x100);
    let folded = (total & 0xFFFF) + (total >> 16);
    !((folded & 0xFFFF) + (folded >> 16)) as u16
}

fn key_of(source: u32, group: u32) -> u64 {
    u64::from(source) << 32 | u64::from(group)
}

/// Reads an IPv4 packet that is no fragment and names a host as its source.
fn read(bytes: &[u8]) -> Result<Packet<'_>, Stopped> {
    if bytes.len() < HEADER_LENGTH || bytes[0] >> 4 != 4 {
        return Err(Stopped);
    }
    let header_length = 4 * usize::from(bytes[0] & 0x0F);
    let total_length = usize::from(u16_at(bytes, 2));
    if header_length < HEADER_LENGTH || total_length < header_length || bytes.len() < total_length {
        return Err(Stopped);
    }
    let header = &bytes[..header_length];
    if sum16(header) != 0 || u16_at(bytes, 6) & 0x3FFF != 0 {
        return Err(Stopped);
    }
    let (source, group) = (u32_at(bytes, 12), u32_at(bytes, 16));
    if source == 0 || source >= 0xE000_0000 {
        return Err(Stopped);
    }
    Ok(Packet { bytes: &bytes[..total_length], source, group })
}

impl Plain {
    pub fn new(addresses: Vec<u32>) -> Plain {
        let is_up = (1 << addresses.len()) - 1;
        Plain { addresses, is_up, rows: HashMap::default(), present: 0 }
    }

    pub fn put(&mut self, source: u32, group: u32, rpf: u32, olist: u128) {
        self.rows.insert(key_of(source, group), Row { rpf, olist, keepalive: 0 });
    }

    /// Tests where the packet came and where it goes, as the router does for data.
    fn judge<'a>(&self, iface: u32, bytes: &'a [u8]) -> Result<Packet<'a>, Stopped> {
        if iface as usize >= self.addresses.len() || self.is_up >> iface & 1 == 0 || bytes.len() > FRAME_LIMIT {
            return Err(Stopped);
        }
        let packet = read(bytes)?;
        let protocol = bytes[9];
        if protocol == PROTOCOL_IGMP || (protocol == PROTOCOL_PIM && packet.group == ALL_PIM_ROUTERS) {
            return Err(Stopped);
        }
        let (is_multicast, is_link_local) = (packet.group >> 28 == 14, packet.group >> 8 == 0xE0_0000);
        if self.addresses.contains(&packet.source) || !is_multicast || is_link_local {
            return Err(Stopped);
        }
        Ok(packet)
    }

    /// Forwards a packet that came on an interface: its row's keepalive timer starts anew, and each copy is written into the room
    /// and sent from there.
    pub fn frame(
        &mut self,
        iface: u32,
        bytes: &[u8],
        room: &mut [u8],
        mut send: impl FnMut(u32, &[u8]),
    ) -> Result<(), Stopped> {
        let packet = self.judge(iface, bytes)?;
        let row = self.rows.get_mut(&key_of(packet.source, packet.group)).ok_or(Stopped)?;
        if row.rpf != iface {
            return Err(Stopped);
        }
        row.keepalive = self.present + KEEPALIVE;
        let time_to_live = bytes[8];
        if time_to_live <= 1 {
            return Ok(());
        }
        let check = lowered(bytes).to_be_bytes();
        let mut left = row.olist & !(1 << iface);
        while left != 0 {
            let copy = &mut room[..packet.bytes.len()];
            copy.copy_from_slice(packet.bytes);
            copy[8] = time_to_live - 1;
            copy[10..12].copy_from_slice(&check);
            send(left.trailing_zeros(), copy);
            left &= left - 1;
        }
        Ok(())
    }
}
