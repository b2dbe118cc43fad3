//! A packet in words, for the lines of the log.
use crate::older::Older;
use crate::packet::{address, options, two, Packet, IGMP, PIM, UDP};
use std::net::Ipv4Addr;

/// How many names of a list are written out.
const SOME: usize = 4;

pub fn of(bytes: &[u8]) -> String {
    match Packet::read(bytes) {
        None => format!("{} bytes that are no IPv4 packet", bytes.len()),
        Some(packet) => format!("{} > {}: {}", packet.source(), packet.destination(), content(packet)),
    }
}

fn content(packet: Packet) -> String {
    let bytes = packet.content();
    let read = match packet.protocol() {
        PIM => pim(bytes),
        IGMP => Older::read(packet).map(|older| older.to_string()).or_else(|| igmp(bytes)),
        UDP => udp(packet),
        other => Some(format!("protocol {other}, {} bytes, TTL {}", bytes.len(), packet.ttl())),
    };
    read.unwrap_or_else(|| format!("protocol {}, malformed", packet.protocol()))
}

fn udp(packet: Packet) -> Option<String> {
    let bytes = packet.content();
    (bytes.len() >= 8)
        .then(|| format!("data, UDP to port {}, {} bytes, TTL {}", two(bytes, 2), bytes.len() - 8, packet.ttl()))
}

fn listed(names: Vec<String>) -> String {
    let more = names.len().saturating_sub(SOME);
    let shown = names.into_iter().take(SOME).collect::<Vec<_>>().join(", ");
    if more == 0 {
        shown
    } else {
        format!("{shown} and {more} more")
    }
}

fn pim(bytes: &[u8]) -> Option<String> {
    match bytes.first()? {
        0x20 => Some(format!("PIM Hello{}", hello(bytes))),
        0x21 => register(bytes),
        0x22 if bytes.len() >= 18 => {
            Some(format!("PIM Register-Stop of ({}, {})", star(address(bytes, 14)), address(bytes, 8)))
        }
        0x23 => join_prune(bytes),
        0x24 => bootstrap(bytes),
        0x25 => assert(bytes),
        0x28 => advertisement(bytes),
        other => Some(format!("PIM version {}, type {}", other >> 4, other & 15)),
    }
}

/// Of RFC 5059, section 4.1: each range with as many RPs as it has here, of how many.
fn bootstrap(bytes: &[u8]) -> Option<String> {
    const RANGES: usize = 14;
    const RP: usize = 10;
    let (priority, mut at, mut ranges) = (bytes.get(7)?, RANGES, Vec::new());
    while let Some(range) = bytes.get(at..at + 12) {
        ranges.push(format!("{}/{} ({} of {})", address(range, 4), range[3], range[9], range[8]));
        at += range.len() + RP * usize::from(range[9]);
    }
    let bsr = (bytes.len() >= RANGES).then(|| address(bytes, 10))?;
    Some(format!("PIM Bootstrap of {bsr}, priority {priority}, with RPs of {}", listed(ranges)))
}

/// Of RFC 5059, section 4.2: an RP with its ranges.
fn advertisement(bytes: &[u8]) -> Option<String> {
    const RANGES: usize = 14;
    let head = bytes.get(..RANGES)?;
    let ranges = bytes[RANGES..].chunks_exact(8).map(|range| format!("{}/{}", address(range, 4), range[3])).collect();
    let (rp, priority, holdtime) = (address(head, 10), head[5], two(head, 6));
    Some(format!("PIM Candidate-RP-Advertisement of {rp}, priority {priority}, for {holdtime} s: {}", listed(ranges)))
}

fn star(source: Ipv4Addr) -> String {
    if source.is_unspecified() {
        "*".to_string()
    } else {
        source.to_string()
    }
}

fn hello(bytes: &[u8]) -> String {
    let option = |(kind, place): (usize, std::ops::Range<usize>)| {
        let value = &bytes[place];
        match (kind, value.len()) {
            (1, 2) if value == [0, 0] => " that says goodbye".to_string(),
            (1, 2) => format!(" for {} s", two(value, 0)),
            (2, 4) => {
                format!(", propagation delay {} ms, override interval {} ms", two(value, 0) & 0x7fff, two(value, 2))
            }
            (19, 4) => format!(", DR priority {}", u32::from(address(value, 0))),
            (20, 4) => format!(", generation {}", u32::from(address(value, 0))),
            _ => String::new(),
        }
    };
    options(bytes).into_iter().map(option).collect()
}

fn register(bytes: &[u8]) -> Option<String> {
    let kind = if bytes.get(4)? & 0x40 != 0 { "Null-Register" } else { "Register" };
    let inner = Packet::read(bytes.get(8..)?).map(|inner| format!(" of ({}, {})", inner.source(), inner.destination()));
    Some(format!("PIM {kind}{}", inner.unwrap_or_default()))
}

fn assert(bytes: &[u8]) -> Option<String> {
    if bytes.len() < 26 {
        return None;
    }
    let (group, source) = (address(bytes, 8), star(address(bytes, 14)));
    let preference = u32::from(address(bytes, 18));
    let (rpt, metric) = (if preference >> 31 == 1 { ", rpt" } else { "" }, u32::from(address(bytes, 22)));
    if preference & 0x7fff_ffff == 0x7fff_ffff && metric == u32::MAX {
        return Some(format!("PIM AssertCancel of ({source}, {group})"));
    }
    Some(format!("PIM Assert of ({source}, {group}{rpt}), preference {}, metric {metric}", preference & 0x7fff_ffff))
}

/// A source entry of a Join/Prune.
fn entry(bytes: &[u8], at: usize, group: Ipv4Addr) -> Option<String> {
    let flags = *bytes.get(at..at + 8)?.get(2)?;
    let source = address(bytes, at + 4);
    Some(match flags & 3 {
        3 => format!("(*, {group}) by {source}"),
        1 => format!("({source}, {group}, rpt)"),
        _ => format!("({source}, {group})"),
    })
}

fn join_prune(bytes: &[u8]) -> Option<String> {
    if bytes.len() < 14 {
        return None;
    }
    let (mut joins, mut prunes) = (Vec::new(), Vec::new());
    let mut at = 14;
    for _ in 0..bytes[11] {
        let (group, joined, pruned) = (address(bytes.get(at..at + 12)?, 4), two(bytes, at + 8), two(bytes, at + 10));
        let entries = (0..joined + pruned).map(|number| entry(bytes, at + 12 + 8 * number, group));
        let mut entries = entries.collect::<Option<Vec<_>>>()?;
        prunes.extend(entries.split_off(joined));
        joins.append(&mut entries);
        at += 12 + 8 * (joined + pruned);
    }
    let part = |word: &str, names: Vec<String>| {
        if names.is_empty() {
            None
        } else {
            Some(format!("{word} {}", listed(names)))
        }
    };
    let parts: Vec<_> = [part("join", joins), part("prune", prunes)].into_iter().flatten().collect();
    Some(format!("PIM Join/Prune to {} for {} s: {}", address(bytes, 6), two(bytes, 12), parts.join(", ")))
}

/// A time of IGMPv3 (RFC 3376, 4.1.1 and 4.1.7).
fn code(value: u8) -> u32 {
    let value = u32::from(value);
    if value < 128 {
        value
    } else {
        (value & 15 | 16) << ((value >> 4 & 7) + 3)
    }
}

fn igmp(bytes: &[u8]) -> Option<String> {
    match bytes.first()? {
        0x11 if bytes.len() >= 12 => Some(query(bytes)),
        0x11 if bytes.len() == 8 => Some(older_query(bytes)),
        0x22 => report(bytes),
        0x11 | 0x12 | 0x16 | 0x17 => None,
        other => Some(format!("IGMP type {other}")),
    }
}

/// What a query asks for.
fn asked(group: Ipv4Addr, sources: usize) -> String {
    match (group.is_unspecified(), sources) {
        (true, _) => "all groups".to_string(),
        (false, 0) => group.to_string(),
        (false, _) => format!("{sources} sources of {group}"),
    }
}

/// One of IGMPv1 has no time (RFC 2236, 4).
fn older_query(bytes: &[u8]) -> String {
    let of = asked(address(bytes, 4), 0);
    match bytes[1] {
        0 => format!("IGMPv1 query of {of}"),
        tenths => format!("IGMPv2 query of {of}: answer within {} s", f64::from(tenths) / 10.0),
    }
}

fn query(bytes: &[u8]) -> String {
    let of = asked(address(bytes, 4), two(bytes, 10));
    let tenths = code(bytes[1]);
    format!(
        "IGMP query of {of}: answer within {} s, robustness {}, interval {} s",
        f64::from(tenths) / 10.0,
        bytes[8] & 7,
        code(bytes[9])
    )
}

fn report(bytes: &[u8]) -> Option<String> {
    const NAMES: [&str; 7] = ["?", "IS_IN", "IS_EX", "TO_IN", "TO_EX", "ALLOW", "BLOCK"];
    let mut records = Vec::new();
    let mut at = 8;
    for _ in 0..two(bytes.get(..8)?, 6) {
        let head = bytes.get(at..at + 8)?;
        let count = two(head, 2);
        let sources = bytes.get(at + 8..at + 8 + 4 * count)?;
        let names = (0..count).map(|number| address(sources, 4 * number).to_string()).collect();
        let name = NAMES.get(usize::from(head[0])).unwrap_or(&"?");
        records.push(format!("{name} {} {{{}}}", address(head, 4), listed(names)));
        at += 8 + 4 * count + 4 * usize::from(head[1]);
    }
    Some(format!("IGMP report: {}", listed(records)))
}

#[cfg(test)]
mod tests {
    use super::*;
    use crate::packet::with_content;

    fn said(protocol: u8, content: &[u8]) -> String {
        let header = [0x45, 0, 0, 0, 0, 0, 0, 0, 16, protocol, 0, 0, 10, 0, 0, 2, 224, 0, 0, 13];
        let text = of(&with_content(&header, content));
        text.strip_prefix("10.0.0.2 > 224.0.0.13: ").unwrap().to_string()
    }

    #[test]
    fn pim_is_said() {
        let hello = [0x20, 0, 0, 0, 0, 1, 0, 2, 0, 105, 0, 19, 0, 4, 0, 0, 0, 1, 0, 2, 0, 4, 1, 0xf4, 9, 0xc4];
        assert_eq!(
            said(PIM, &hello),
            "PIM Hello for 105 s, DR priority 1, propagation delay 500 ms, override interval 2500 ms"
        );
        assert_eq!(said(PIM, &[0x20, 0, 0, 0, 0, 1, 0, 2, 0, 0]), "PIM Hello that says goodbye");
        let stop = [0x22, 0, 0, 0, 1, 0, 0, 32, 239, 1, 1, 1, 1, 0, 10, 1, 0, 50];
        assert_eq!(said(PIM, &stop), "PIM Register-Stop of (10.1.0.50, 239.1.1.1)");
        let join = [
            0x23, 0, 0, 0, 1, 0, 10, 0, 0, 1, 0, 1, 0, 210, 1, 0, 0, 32, 239, 1, 1, 1, 0, 1, 0, 1, 1, 0, 7, 32, 10, 9,
            9, 9, 1, 0, 5, 32, 10, 1, 0, 50,
        ];
        assert_eq!(
            said(PIM, &join),
            "PIM Join/Prune to 10.0.0.1 for 210 s: join (*, 239.1.1.1) by 10.9.9.9, prune (10.1.0.50, 239.1.1.1, rpt)"
        );
        let assert = [0x25, 0, 0, 0, 1, 0, 0, 32, 239, 1, 1, 1, 1, 0, 10, 1, 0, 50, 0x80, 0, 0, 110, 0, 0, 0, 20];
        assert_eq!(said(PIM, &assert), "PIM Assert of (10.1.0.50, 239.1.1.1, rpt), preference 110, metric 20");
        let mut bootstrap = vec![0x24, 0, 0, 0, 0, 7, 30, 10, 1, 0, 10, 9, 9, 9, 1, 0, 0, 8, 239, 0, 0, 0, 3, 1, 0, 0];
        bootstrap.extend([1, 0, 10, 99, 0, 1, 0, 150, 0, 0, 1, 0, 0, 16, 225, 1, 0, 0, 0, 0, 0, 0]);
        let ranges = "239.0.0.0/8 (1 of 3), 225.1.0.0/16 (0 of 0)";
        assert_eq!(said(PIM, &bootstrap), format!("PIM Bootstrap of 10.9.9.9, priority 10, with RPs of {ranges}"));
        let advertisement = [0x28, 0, 0, 0, 1, 192, 0, 150, 1, 0, 10, 9, 0, 7, 1, 0, 0, 8, 239, 0, 0, 0];
        let words = "PIM Candidate-RP-Advertisement of 10.9.0.7, priority 192, for 150 s: 239.0.0.0/8";
        assert_eq!(said(PIM, &advertisement), words);
    }

    #[test]
    fn igmp_and_data_are_said() {
        let query = [0x11, 100, 0, 0, 0, 0, 0, 0, 2, 125, 0, 0];
        assert_eq!(said(IGMP, &query), "IGMP query of all groups: answer within 10 s, robustness 2, interval 125 s");
        assert_eq!(said(IGMP, &[0x11, 100, 0, 0, 0, 0, 0, 0]), "IGMPv2 query of all groups: answer within 10 s");
        assert_eq!(said(IGMP, &[0x11, 0, 0, 0, 0, 0, 0, 0]), "IGMPv1 query of all groups");
        let older = [0x12, 0x16, 0x17].map(|kind| said(IGMP, &[kind, 0, 0, 0, 239, 1, 1, 1]));
        assert_eq!(older, ["IGMPv1 report of 239.1.1.1", "IGMPv2 report of 239.1.1.1", "IGMPv2 Leave of 239.1.1.1"]);
        let report = [0x22, 0, 0, 0, 0, 0, 0, 1, 4, 0, 0, 1, 239, 1, 1, 1, 10, 1, 0, 50];
        assert_eq!(said(IGMP, &report), "IGMP report: TO_EX 239.1.1.1 {10.1.0.50}");
        assert_eq!(said(UDP, &[0, 1, 0x13, 0x8c, 0, 9, 0, 0, 7]), "data, UDP to port 5004, 1 bytes, TTL 16");
    }

    #[test]
    fn what_is_cut_short_is_malformed() {
        assert_eq!(said(PIM, &[0x23, 0, 0, 0, 1, 0, 10, 0, 0, 1, 0, 1, 0, 210]), "protocol 103, malformed");
        assert_eq!(said(PIM, &[0x24, 0, 0, 0, 0, 7, 30, 10, 1, 0, 10, 9, 9]), "protocol 103, malformed");
        assert_eq!(said(PIM, &[0x28, 0, 0, 0, 1, 192, 0, 150, 1, 0, 10, 9, 0]), "protocol 103, malformed");
        assert_eq!(said(IGMP, &[0x22, 0, 0, 0, 0, 0, 0, 1]), "protocol 2, malformed");
        assert_eq!(said(IGMP, &[0x16, 0, 0, 0, 239, 1, 1]), "protocol 2, malformed");
        assert_eq!(said(IGMP, &[0x11, 100, 0, 0, 0, 0, 0, 0, 2]), "protocol 2, malformed");
        assert_eq!(of(&[1, 2, 3]), "3 bytes that are no IPv4 packet");
    }
}
