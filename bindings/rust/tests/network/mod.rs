//! A router between two neighbours, and Bootstraps (RFC 5059) written byte by byte. The messages are those of the worked runs
//! of `crates/pim_bsr/specs/Runs.antt`.
// Each file of tests takes some of it.
#![allow(dead_code)]
use std::net::Ipv4Addr;
use viqeshor::{Bsr, Error, Interface, Range, Route, Router, Settings, Target, Verdict};

pub const HELLO_ABOVE: &str = "45C0001E000000000167CEAB0A000001E000000D2000DFFC00010002FFFF";
pub const HELLO_BELOW: &str = "45C0001E000000000167CDAA0A000102E000000D2000DFFC00010002FFFF";
pub const DONE: Result<Verdict, Error> = Ok(Verdict::Done);
pub const ABOVE: [u8; 4] = [10, 0, 0, 1];
pub const BELOW: [u8; 4] = [10, 0, 1, 2];
pub const BSR: [u8; 4] = [10, 9, 9, 9];
/// The RPs of 239.0.0.0/8: the hash prefers the first, and then the second.
pub const FIRST: [u8; 4] = [10, 99, 0, 1];
pub const SECOND: [u8; 4] = [10, 88, 0, 9];
pub const THIRD: [u8; 4] = [10, 77, 0, 2];
pub const STATIC: [u8; 4] = [10, 0, 0, 99];

pub fn bytes_of(hex: &str) -> Vec<u8> {
    (0..hex.len()).step_by(2).map(|at| u8::from_str_radix(&hex[at..at + 2], 16).unwrap()).collect()
}

pub fn address(last: [u8; 4]) -> Ipv4Addr {
    Ipv4Addr::from(last)
}

/// The Internet checksum of bytes whose own is 0.
pub fn sum(bytes: &[u8]) -> [u8; 2] {
    let mut total: u32 =
        bytes.chunks(2).map(|pair| u32::from(pair[0]) << 8 | u32::from(*pair.get(1).unwrap_or(&0))).sum();
    while total > 0xFFFF {
        total = (total & 0xFFFF) + (total >> 16);
    }
    (!(total as u16)).to_be_bytes()
}

/// A PIM message from an address to all PIM routers, with a TTL of 1.
pub fn packet(source: [u8; 4], message: Vec<u8>) -> Vec<u8> {
    packet_to([224, 0, 0, 13], 1, source, message)
}

/// A PIM message to an address, with a TTL.
pub fn packet_to(destination: [u8; 4], ttl: u8, source: [u8; 4], mut message: Vec<u8>) -> Vec<u8> {
    let told = sum(&message);
    message[2..4].copy_from_slice(&told);
    let length = (20 + message.len()) as u16;
    let mut header = vec![0x45, 0xC0, 0, 0, 0, 0, 0, 0, ttl, 103, 0, 0];
    header[2..4].copy_from_slice(&length.to_be_bytes());
    header.extend(source);
    header.extend(destination);
    let told = sum(&header);
    header[10..12].copy_from_slice(&told);
    header.extend(message);
    header
}

/// What a Bootstrap says of its BSR, with a hash mask of 30 bits (section 4.1).
#[derive(Clone, Copy)]
pub struct Head {
    pub no_forward: bool,
    pub tag: u16,
    pub priority: u8,
    pub bsr: [u8; 4],
}

pub const HEAD: Head = Head { no_forward: false, tag: 7, priority: 10, bsr: BSR };

/// A range, and the RPs of it that a fragment has: each an address and a holdtime, of priority 5.
pub struct Said<'a> {
    pub zone: bool,
    pub rp_count: u8,
    pub rps: &'a [([u8; 4], u16)],
}

/// 239.0.0.0/8, said with a host bit.
pub fn wide(rp_count: u8, rps: &[([u8; 4], u16)]) -> Said<'_> {
    Said { zone: false, rp_count, rps }
}

pub fn bootstrap(head: Head, range: &Said<'_>) -> Vec<u8> {
    let mut message = vec![0x24, u8::from(head.no_forward) << 7, 0, 0];
    message.extend(head.tag.to_be_bytes());
    message.extend([30, head.priority, 1, 0]);
    message.extend(head.bsr);
    message.extend([1, 0, u8::from(range.zone), 8, 239, 0, 0, 1]);
    message.extend([range.rp_count, range.rps.len() as u8, 0, 0]);
    for (rp, holdtime) in range.rps {
        message.extend([1, 0]);
        message.extend(rp);
        message.extend(holdtime.to_be_bytes());
        message.extend([5, 0]);
    }
    message
}

pub fn configured() -> [Range; 1] {
    [Range::new(address([239, 1, 0, 0]), 16, address(STATIC))]
}

/// With a neighbour above, over which the routes to the BSR and the RPs lead, and one below, 1 s after the start.
pub fn router() -> Router {
    let interfaces = [Interface::new(address([10, 0, 0, 2]), 24), Interface::new(address([10, 0, 1, 1]), 24)];
    let to = |prefix| Route::new(address(prefix), 16, address(ABOVE), 0);
    let routes = [to([10, 9, 0, 0]), to([10, 77, 0, 0]), to([10, 88, 0, 0]), to([10, 99, 0, 0])];
    let mut router = Router::new(&Settings::default(), &interfaces, &routes, &configured()).unwrap();
    for iface in 0..2 {
        assert_eq!(router.up(iface, 7), DONE);
        router.clear();
    }
    for (iface, hello) in [HELLO_ABOVE, HELLO_BELOW].into_iter().enumerate() {
        assert_eq!(router.frame(iface as u32, &bytes_of(hello), 0), DONE);
        router.clear();
    }
    router.run_to(1000, || 7, |_, _| ()).unwrap();
    router
}

pub fn listener(limit: u32) -> Bsr {
    Bsr::new(limit, &configured(), 60_000).unwrap()
}

/// The RP of a group, as the router has it.
pub fn rp(router: &Router, group: [u8; 4]) -> Option<Ipv4Addr> {
    router.tree(address(group)).unwrap().rp
}

pub type Sent = Vec<(Target, Vec<u8>)>;
