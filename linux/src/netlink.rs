//! What the kernel tells of links, addresses, routes and its forwarding cache.
use crate::mroute::Key;
use crate::packet::address;
use crate::routes::{Hop, KernelRoute, Kind};
use crate::settings::Subnet;
use log::warn;
use netlink_packet_route::nlas::{address as address_nlas, route as route_nlas};
use netlink_packet_route::nlas::{DefaultNla, Nla};
use netlink_packet_route::traits::Parseable;
use netlink_packet_route::{
    AddressMessage, NetlinkHeader, NetlinkMessage, NetlinkPayload, RouteMessage, RtnlMessage, AF_INET, NLM_F_ACK,
    NLM_F_CREATE, NLM_F_DUMP, NLM_F_EXCL, NLM_F_REQUEST, RTNH_F_DEAD, RTNLGRP_IPV4_IFADDR, RTNLGRP_IPV4_ROUTE,
    RTNLGRP_LINK, RTN_BLACKHOLE, RTN_THROW, RTN_UNICAST,
};
use netlink_sys::protocols::NETLINK_ROUTE;
use netlink_sys::{Socket, SocketAddr};
use std::collections::HashMap;
use std::fmt;
use std::io;
use std::os::unix::io::{AsRawFd, RawFd};

/// Of the kernel's multicast routes.
const RTNL_FAMILY_IPMR: u8 = 128;
const IFF_UP: u32 = 1;
const IFF_LOOPBACK: u32 = 8;
const IFF_RUNNING: u32 = 0x40;
const RTNH_F_LINKDOWN: u8 = 16;
/// The kernel tells a time in hundredths of a second.
const MS_PER_TICK: u64 = 10;
/// Of linux/rtnetlink.h, linux/if_link.h and linux/nexthop.h.
const RTM_NEWLINK: u16 = 16;
const RTM_DELLINK: u16 = 17;
const RTM_GETLINK: u16 = 18;
const RTM_NEWRULE: u16 = 32;
const RTM_DELRULE: u16 = 33;
const RTM_NEWNEXTHOP: u16 = 104;
const RTM_DELNEXTHOP: u16 = 105;
const RTM_GETNEXTHOP: u16 = 106;
const IFLA_IFNAME: u16 = 3;
const IFLA_MTU: u16 = 4;
const IFLA_LINKINFO: u16 = 18;
const IFLA_INFO_KIND: u16 = 1;
const IFLA_INFO_DATA: u16 = 2;
const IFLA_VRF_TABLE: u16 = 1;
/// Of linux/fib_rules.h.
const FR_ACT_TO_TBL: u8 = 1;
const FRA_IIFNAME: u16 = 3;
const FRA_PRIORITY: u16 = 6;
const FRA_FWMARK: u16 = 10;
const FRA_TABLE: u16 = 15;
const FRA_PROTOCOL: u16 = 21;
const RTPROT_MROUTED: u8 = 17;
/// Before the rules that are there without one of somebody.
const RULE_PRIORITY: u32 = 1_000;
const NHA_ID: u16 = 1;
const NHA_GROUP: u16 = 2;
const NHA_BLACKHOLE: u16 = 4;
const NHA_OIF: u16 = 5;
const NHA_GATEWAY: u16 = 6;
const RTA_NH_ID: u16 = 30;
const RTNLGRP_NEXTHOP: u32 = 32;
/// The kernel fills messages of up to 32 KiB where it was read with so much room, and for each begins at the start of
/// its table: with little room a long table takes it seconds.
const ROOM: usize = 64 << 10;
/// The header of each message, and what is before the attributes of a link and of a next hop.
const HEADER: usize = 16;
const LINK_HEAD: usize = 16;
const NEXTHOP_HEAD: usize = 8;
/// Where a route's flags are.
const ROUTE_FLAGS_AT: usize = 8;
const GROUP_MEMBER: usize = 8;

#[derive(Clone, Debug, PartialEq, Eq)]
pub struct Link {
    pub index: u32,
    pub name: String,
    /// The most bytes of a packet.
    pub mtu: u32,
    /// It is up, and has a carrier.
    pub is_running: bool,
    pub is_loopback: bool,
    /// Its addresses are for the machine alone: of the kind `dummy`, or a VRF.
    pub is_dummy: bool,
    /// Of a VRF its table.
    pub vrf_table: Option<u32>,
}

/// A rule by which packets go by a table (ip rule, ip mrule).
#[derive(Clone, Debug, PartialEq, Eq)]
pub struct Rule {
    table: u32,
    which: Which,
}

/// Which packets.
#[derive(Clone, Debug, PartialEq, Eq)]
enum Which {
    /// Multicast that comes on an interface.
    Interface(String),
    /// Unicast with the table's number as its mark.
    Mark,
}

impl fmt::Display for Rule {
    fn fmt(&self, to: &mut fmt::Formatter) -> fmt::Result {
        match &self.which {
            Which::Interface(name) => write!(to, "the rule of {name} for the table {}", self.table),
            Which::Mark => write!(to, "the rule of the mark {}", self.table),
        }
    }
}

impl Rule {
    pub fn of_interface(table: u32, name: &str) -> Rule {
        Rule { table, which: Which::Interface(name.to_string()) }
    }

    pub fn of_mark(table: u32) -> Rule {
        Rule { table, which: Which::Mark }
    }

    fn message(&self, kind: u16, flags: u16, sequence: u32) -> Vec<u8> {
        const RULE_HEAD: usize = 12;
        let (family, which) = match &self.which {
            Which::Interface(name) => (RTNL_FAMILY_IPMR, (FRA_IIFNAME, [name.as_bytes(), &[0]].concat())),
            Which::Mark => (AF_INET as u8, (FRA_FWMARK, self.table.to_ne_bytes().to_vec())),
        };
        let mut bytes = request(kind, RULE_HEAD, sequence);
        bytes[6..8].copy_from_slice(&flags.to_ne_bytes());
        (bytes[HEADER], bytes[HEADER + 7]) = (family, FR_ACT_TO_TBL);
        put_attribute(&mut bytes, which.0, &which.1);
        put_attribute(&mut bytes, FRA_TABLE, &self.table.to_ne_bytes());
        put_attribute(&mut bytes, FRA_PRIORITY, &RULE_PRIORITY.to_ne_bytes());
        put_attribute(&mut bytes, FRA_PROTOCOL, &[RTPROT_MROUTED]);
        let length = bytes.len() as u32;
        bytes[..4].copy_from_slice(&length.to_ne_bytes());
        bytes
    }
}

/// Appends an attribute.
fn put_attribute(bytes: &mut Vec<u8>, kind: u16, value: &[u8]) {
    bytes.extend(((4 + value.len()) as u16).to_ne_bytes());
    bytes.extend(kind.to_ne_bytes());
    bytes.extend(value);
    bytes.resize((bytes.len() + 3) & !3, 0);
}

/// What changed.
#[derive(Clone, Debug, PartialEq, Eq)]
pub enum Change {
    Link(Link),
    LinkGone(u32),
    Address {
        index: u32,
        subnet: Subnet,
    },
    AddressGone {
        index: u32,
        subnet: Subnet,
    },
    Routes,
    /// Some were lost: all is to be read anew.
    Lost,
}

/// What an entry of the forwarding cache has forwarded.
#[derive(Clone, Copy, Debug, PartialEq, Eq)]
pub struct Used {
    pub key: Key,
    pub packets: u64,
    pub bytes: u64,
    /// Of the packets those that came on another interface.
    pub stray: u64,
    /// In ms, since the last of them came.
    pub idle: u64,
}

pub struct Netlink {
    asks: Socket,
    changes: Socket,
    sequence: u32,
}

fn serialized(message: RtnlMessage, sequence: u32) -> Vec<u8> {
    let header =
        NetlinkHeader { flags: NLM_F_DUMP | NLM_F_REQUEST, sequence_number: sequence, ..NetlinkHeader::default() };
    let mut packet = NetlinkMessage { header, payload: NetlinkPayload::from(message) };
    packet.finalize();
    let mut bytes = vec![0; packet.buffer_len()];
    packet.serialize(&mut bytes);
    bytes
}

/// A request for all of a kind, whose message has a head of so many bytes that are all 0.
fn request(kind: u16, head: usize, sequence: u32) -> Vec<u8> {
    let mut bytes = ((HEADER + head) as u32).to_ne_bytes().to_vec();
    bytes.extend(kind.to_ne_bytes());
    bytes.extend((NLM_F_DUMP | NLM_F_REQUEST).to_ne_bytes());
    bytes.extend(sequence.to_ne_bytes());
    bytes.resize(HEADER + head, 0);
    bytes
}

/// A message as it came, or as far as it is read here.
enum Message {
    Link {
        is_gone: bool,
        link: Link,
    },
    NextHop(Option<(u32, NextHop)>),
    /// With the flags of its next hop, where it has one alone: the crate keeps those that it knows.
    Route {
        flags: u8,
        route: RouteMessage,
    },
    Other(RtnlMessage),
    Failed(io::Error),
    Done,
}

/// A next hop object (ip nexthop).
#[derive(Clone, Debug, PartialEq, Eq)]
enum NextHop {
    One(Hop),
    Group(Vec<u32>),
    Blackhole,
}

/// The messages of a datagram, each with its sequence number. One that can't be read is left out, with a line.
fn messages(bytes: &[u8]) -> Vec<(u32, Message)> {
    let mut rest = bytes;
    let mut found = Vec::new();
    while rest.len() >= HEADER {
        let length = word(rest, 0) as usize;
        if length < HEADER || length > rest.len() {
            break;
        }
        found.extend(message(&rest[..length]).map(|read| (word(rest, 8), read)));
        rest = &rest[rest.len().min((length + 3) & !3)..];
    }
    found
}

/// Links and next hops are read here: of their many attributes few are wanted, and one that nobody knows yet costs
/// nothing.
fn message(bytes: &[u8]) -> Option<Message> {
    let (kind, content) = (u16::from_ne_bytes([bytes[4], bytes[5]]), &bytes[HEADER..]);
    match kind {
        RTM_NEWLINK | RTM_DELLINK => link_of(content).map(|link| Message::Link { is_gone: kind == RTM_DELLINK, link }),
        RTM_NEWNEXTHOP | RTM_DELNEXTHOP => Some(Message::NextHop(next_hop_of(content))),
        _ => match NetlinkMessage::<RtnlMessage>::deserialize(bytes).map(|message| message.payload) {
            Ok(NetlinkPayload::InnerMessage(RtnlMessage::NewRoute(route))) => {
                Some(Message::Route { flags: word(content, ROUTE_FLAGS_AT) as u8, route })
            }
            Ok(NetlinkPayload::InnerMessage(inner)) => Some(Message::Other(inner)),
            Ok(NetlinkPayload::Error(error)) => Some(Message::Failed(io::Error::from_raw_os_error(-error.code))),
            Ok(_) => Some(Message::Done),
            Err(error) => {
                warn!("a message of the kernel (type {kind}) can't be read: {error}");
                None
            }
        },
    }
}

/// The attributes of a message, each with its type.
fn attributes(bytes: &[u8]) -> Vec<(u16, &[u8])> {
    let mut rest = bytes;
    let mut found = Vec::new();
    while rest.len() >= 4 {
        let length = usize::from(u16::from_ne_bytes([rest[0], rest[1]]));
        if length < 4 || length > rest.len() {
            break;
        }
        // The highest two bits are flags.
        found.push((u16::from_ne_bytes([rest[2], rest[3]]) & 0x3fff, &rest[4..length]));
        rest = &rest[rest.len().min((length + 3) & !3)..];
    }
    found
}

fn word(bytes: &[u8], at: usize) -> u32 {
    bytes.get(at..at + 4).map_or(0, |four| u32::from_ne_bytes([four[0], four[1], four[2], four[3]]))
}

/// `None` for what a bridge says of its ports, and for what is cut short.
fn link_of(content: &[u8]) -> Option<Link> {
    const AF_UNSPEC: u8 = 0;
    let attributes = attributes(content.get(LINK_HEAD..)?);
    let value = |kind| attributes.iter().find(|(found, _)| *found == kind).map(|(_, value)| *value);
    let name = value(IFLA_IFNAME).unwrap_or_default();
    let name = String::from_utf8_lossy(name).trim_end_matches('\0').to_string();
    let (index, flags) = (word(content, 4), word(content, 8));
    let is_running = flags & (IFF_UP | IFF_RUNNING) == IFF_UP | IFF_RUNNING;
    let mtu = value(IFLA_MTU).map_or(0, |value| word(value, 0));
    let is_loopback = flags & IFF_LOOPBACK != 0;
    let information = value(IFLA_LINKINFO);
    let vrf_table = information.and_then(vrf_table);
    let is_dummy = vrf_table.is_some() || information.map_or(false, |it| is_of_kind(it, b"dummy"));
    (content[0] == AF_UNSPEC).then_some(Link { index, name, mtu, is_running, is_loopback, is_dummy, vrf_table })
}

/// An attribute among others.
fn within(bytes: &[u8], wanted: u16) -> Option<&[u8]> {
    attributes(bytes).into_iter().find(|(kind, _)| *kind == wanted).map(|(_, value)| value)
}

/// Whether what a link says of its kind is this kind.
fn is_of_kind(information: &[u8], wanted: &[u8]) -> bool {
    let rest = within(information, IFLA_INFO_KIND).and_then(|kind| kind.strip_prefix(wanted));
    rest.map_or(false, |rest| rest.iter().all(|byte| *byte == 0))
}

fn vrf_table(information: &[u8]) -> Option<u32> {
    let table = within(within(information, IFLA_INFO_DATA)?, IFLA_VRF_TABLE)?;
    is_of_kind(information, b"vrf").then(|| word(table, 0))
}

/// Whether a next hop with these flags is one by which nothing leaves.
fn is_dead(flags: u8) -> bool {
    flags & (RTNH_F_DEAD | RTNH_F_LINKDOWN) != 0
}

/// A next hop object with its number.
fn next_hop_of(content: &[u8]) -> Option<(u32, NextHop)> {
    let mut hop = Hop { gateway: None, index: 0, is_dead: is_dead(word(content, 4) as u8) };
    let (mut number, mut group, mut is_blackhole) = (None, None, false);
    for (kind, value) in attributes(content.get(NEXTHOP_HEAD..)?) {
        match kind {
            NHA_ID => number = Some(word(value, 0)),
            NHA_GROUP => group = Some(value.chunks_exact(GROUP_MEMBER).map(|member| word(member, 0)).collect()),
            NHA_BLACKHOLE => is_blackhole = true,
            NHA_OIF => hop.index = word(value, 0),
            NHA_GATEWAY => hop.gateway = four(value),
            _ => {}
        }
    }
    let found = match group {
        Some(members) => NextHop::Group(members),
        None if is_blackhole => NextHop::Blackhole,
        None => NextHop::One(hop),
    };
    number.map(|number| (number, found))
}

impl Netlink {
    pub fn open() -> io::Result<Netlink> {
        let mut asks = Socket::new(NETLINK_ROUTE)?;
        asks.bind_auto()?;
        asks.connect(&SocketAddr::new(0, 0))?;
        let mut changes = Socket::new(NETLINK_ROUTE)?;
        changes.bind_auto()?;
        for group in [RTNLGRP_LINK, RTNLGRP_IPV4_IFADDR, RTNLGRP_IPV4_ROUTE, RTNLGRP_NEXTHOP] {
            changes.add_membership(group)?;
        }
        changes.set_non_blocking(true)?;
        Ok(Netlink { asks, changes, sequence: 0 })
    }

    /// All that the kernel has of a kind.
    fn dump(&mut self, asked: impl FnOnce(u32) -> Vec<u8>) -> io::Result<Vec<Message>> {
        self.sequence += 1;
        self.asks.send(&asked(self.sequence), 0)?;
        let (mut found, mut bytes) = (Vec::new(), Vec::with_capacity(ROOM));
        loop {
            bytes.clear();
            if self.asks.recv(&mut bytes, libc::MSG_TRUNC)? > bytes.len() {
                return Err(io::Error::new(io::ErrorKind::InvalidData, "a message of the kernel is too long"));
            }
            for (_, message) in messages(&bytes).into_iter().filter(|(sequence, _)| *sequence == self.sequence) {
                match message {
                    Message::Failed(error) => return Err(error),
                    Message::Done => return Ok(found),
                    other => found.push(other),
                }
            }
        }
    }

    pub fn links(&mut self) -> io::Result<Vec<Link>> {
        let found = self.dump(|sequence| request(RTM_GETLINK, LINK_HEAD, sequence))?;
        Ok(found
            .into_iter()
            .filter_map(|it| if let Message::Link { link, .. } = it { Some(link) } else { None })
            .collect())
    }

    /// The IPv4 addresses, each with the kernel's number of its interface.
    pub fn addresses(&mut self) -> io::Result<Vec<(u32, Subnet)>> {
        let mut asked = AddressMessage::default();
        asked.header.family = AF_INET as u8;
        let found = self.dump(|sequence| serialized(RtnlMessage::GetAddress(asked), sequence))?;
        let subnet = |it: &Message| match it {
            Message::Other(RtnlMessage::NewAddress(it)) => subnet_of(it),
            _ => None,
        };
        Ok(found.iter().filter_map(subnet).collect())
    }

    fn next_hops(&mut self) -> io::Result<HashMap<u32, NextHop>> {
        let found = self.dump(|sequence| request(RTM_GETNEXTHOP, NEXTHOP_HEAD, sequence))?;
        Ok(found.into_iter().filter_map(|it| if let Message::NextHop(hop) = it { hop } else { None }).collect())
    }

    /// The routes of a table. Those that name a next hop object have what that says.
    pub fn routes(&mut self, table: u32) -> io::Result<Vec<KernelRoute>> {
        let mut asked = RouteMessage::default();
        asked.header.address_family = AF_INET as u8;
        let found = self.dump(|sequence| serialized(RtnlMessage::GetRoute(asked), sequence))?;
        let route = |it: &Message| match it {
            Message::Route { flags, route } => route_of(route, *flags, table),
            _ => None,
        };
        let mut routes: Vec<_> = found.iter().filter_map(route).collect();
        if routes.iter().any(|(_, object)| object.is_some()) {
            let objects = self.next_hops()?;
            routes
                .iter_mut()
                .for_each(|(route, object)| object.iter().for_each(|number| resolve(route, *number, &objects)));
        }
        Ok(routes.into_iter().map(|(route, _)| route).collect())
    }

    /// Adds a rule, where there is none like it.
    pub fn add_rule(&mut self, rule: &Rule) -> io::Result<()> {
        const FLAGS: u16 = NLM_F_REQUEST | NLM_F_ACK | NLM_F_CREATE | NLM_F_EXCL;
        match self.dump(|sequence| rule.message(RTM_NEWRULE, FLAGS, sequence)) {
            Err(error) if error.raw_os_error() == Some(libc::EEXIST) => Ok(()),
            other => other.map(|_| ()),
        }
    }

    pub fn remove_rule(&mut self, rule: &Rule) -> io::Result<()> {
        const FLAGS: u16 = NLM_F_REQUEST | NLM_F_ACK;
        self.dump(|sequence| rule.message(RTM_DELRULE, FLAGS, sequence)).map(|_| ())
    }

    /// What the entries of the forwarding cache of a table have forwarded.
    pub fn used(&mut self, table: u32) -> io::Result<Vec<Used>> {
        let mut asked = RouteMessage::default();
        asked.header.address_family = RTNL_FAMILY_IPMR;
        let found = self.dump(|sequence| serialized(RtnlMessage::GetRoute(asked), sequence))?;
        let used = |it: &Message| match it {
            Message::Route { route, .. } => used_of(route, table),
            _ => None,
        };
        Ok(found.iter().filter_map(used).collect())
    }

    /// The next changes, or `None` where none wait.
    pub fn hear(&mut self) -> io::Result<Option<Vec<Change>>> {
        match self.changes.recv_from_full() {
            Ok((bytes, _)) => Ok(Some(messages(&bytes).into_iter().filter_map(|(_, it)| change_of(it)).collect())),
            Err(error) if error.kind() == io::ErrorKind::WouldBlock => Ok(None),
            Err(error) if error.raw_os_error() == Some(libc::ENOBUFS) => Ok(Some(vec![Change::Lost])),
            Err(error) => Err(error),
        }
    }
}

impl AsRawFd for Netlink {
    fn as_raw_fd(&self) -> RawFd {
        self.changes.as_raw_fd()
    }
}

fn change_of(message: Message) -> Option<Change> {
    match message {
        Message::Link { is_gone: true, link } => Some(Change::LinkGone(link.index)),
        Message::Link { link, .. } => Some(Change::Link(link)),
        Message::NextHop(_) | Message::Route { .. } | Message::Other(RtnlMessage::DelRoute(_)) => Some(Change::Routes),
        Message::Other(RtnlMessage::NewAddress(it)) => {
            subnet_of(&it).map(|(index, subnet)| Change::Address { index, subnet })
        }
        Message::Other(RtnlMessage::DelAddress(it)) => {
            subnet_of(&it).map(|(index, subnet)| Change::AddressGone { index, subnet })
        }
        _ => None,
    }
}

/// Gives a route the next hops of an object, or of a group of them.
fn resolve(route: &mut KernelRoute, number: u32, objects: &HashMap<u32, NextHop>) {
    let members = match objects.get(&number) {
        Some(NextHop::Group(members)) => members.clone(),
        _ => vec![number],
    };
    let found: Vec<_> = members.iter().filter_map(|member| objects.get(member)).collect();
    if !found.is_empty() && found.iter().all(|object| **object == NextHop::Blackhole) {
        route.kind = Kind::Refusing;
    }
    route.hops =
        found.iter().filter_map(|object| if let NextHop::One(hop) = object { Some(*hop) } else { None }).collect();
    if found.is_empty() {
        warn!("a route of the kernel names the next hop object {number}, which isn't there: it leads nowhere");
    }
}

fn subnet_of(message: &AddressMessage) -> Option<(u32, Subnet)> {
    // On a link between two `Address` is the other end.
    let local =
        message.nlas.iter().find_map(|nla| if let address_nlas::Nla::Local(bytes) = nla { four(bytes) } else { None });
    let subnet = Subnet { address: local?.into(), length: message.header.prefix_len };
    Some((message.header.index, subnet))
}

fn four(bytes: &[u8]) -> Option<u32> {
    (bytes.len() == 4).then(|| address(bytes, 0).into())
}

fn eight(bytes: &[u8]) -> u64 {
    bytes.get(..8).map_or(0, |eight| u64::from_ne_bytes([0, 1, 2, 3, 4, 5, 6, 7].map(|at| eight[at])))
}

/// With the number of its next hop object, where it has one.
fn route_of(message: &RouteMessage, flags: u8, table: u32) -> Option<(KernelRoute, Option<u32>)> {
    let header = &message.header;
    let kind = match header.kind {
        RTN_UNICAST => Kind::Unicast,
        RTN_BLACKHOLE..=RTN_THROW => Kind::Refusing,
        _ => return None,
    };
    let mut route = KernelRoute {
        prefix: 0,
        length: header.destination_prefix_length,
        kind,
        metric: 0,
        protocol: header.protocol,
        hops: Vec::new(),
    };
    let mut own = Hop { gateway: None, index: 0, is_dead: is_dead(flags) };
    let (mut in_table, mut object) = (u32::from(header.table), None);
    for nla in &message.nlas {
        match nla {
            route_nlas::Nla::Destination(bytes) => route.prefix = four(bytes)?,
            route_nlas::Nla::Priority(metric) => route.metric = *metric,
            route_nlas::Nla::Table(number) => in_table = *number,
            route_nlas::Nla::Gateway(bytes) => own.gateway = four(bytes),
            route_nlas::Nla::Oif(index) => own.index = *index,
            route_nlas::Nla::MultiPath(bytes) => route.hops = hops_of(bytes),
            route_nlas::Nla::Other(nla) if nla.kind() == RTA_NH_ID => object = nla_word(nla),
            _ => {}
        }
    }
    if route.hops.is_empty() {
        route.hops.push(own);
    }
    (in_table == table && header.address_family == AF_INET as u8).then_some((route, object))
}

fn nla_word(nla: &DefaultNla) -> Option<u32> {
    let mut value = vec![0; nla.value_len()];
    nla.emit_value(&mut value);
    (value.len() == 4).then(|| word(&value, 0))
}

/// The next hops of a route that has several.
fn hops_of(bytes: &[u8]) -> Vec<Hop> {
    let mut rest = bytes;
    let mut found = Vec::new();
    while rest.len() >= 8 {
        let length = usize::from(u16::from_ne_bytes([rest[0], rest[1]]));
        if length < 8 || length > rest.len() {
            break;
        }
        let own = &rest[..length];
        if let Ok(hop) = route_nlas::NextHop::parse(&route_nlas::NextHopBuffer::new(&own)) {
            let gateway =
                hop.nlas
                    .iter()
                    .find_map(|nla| if let route_nlas::Nla::Gateway(bytes) = nla { four(bytes) } else { None });
            found.push(Hop { gateway, index: hop.interface_id, is_dead: is_dead(rest[2]) });
        }
        rest = &rest[rest.len().min((length + 3) & !3)..];
    }
    found
}

fn used_of(message: &RouteMessage, table: u32) -> Option<Used> {
    let (mut source, mut group, mut counts, mut idle) = (None, None, None, 0);
    let mut in_table = u32::from(message.header.table);
    for nla in &message.nlas {
        match nla {
            route_nlas::Nla::Table(number) => in_table = *number,
            route_nlas::Nla::Source(bytes) => source = four(bytes),
            route_nlas::Nla::Destination(bytes) => group = four(bytes),
            route_nlas::Nla::MfcStats(bytes) if bytes.len() >= 24 => {
                counts = Some((eight(bytes), eight(&bytes[8..]), eight(&bytes[16..])));
            }
            route_nlas::Nla::Expires(bytes) => idle = eight(bytes).saturating_mul(MS_PER_TICK),
            _ => {}
        }
    }
    let (packets, bytes, stray) = counts.filter(|_| in_table == table)?;
    Some(Used { key: Key { source: source?.into(), group: group?.into() }, packets, bytes, stray, idle })
}

#[cfg(test)]
mod tests {
    use super::*;
    use std::net::Ipv4Addr;

    fn route(kind: u8, nlas: Vec<route_nlas::Nla>) -> RouteMessage {
        let mut message = RouteMessage::default();
        message.header.address_family = AF_INET as u8;
        message.header.kind = kind;
        message.header.table = 254;
        message.header.destination_prefix_length = 16;
        message.nlas = nlas;
        message
    }

    #[test]
    fn a_route_with_several_next_hops_has_each() {
        let mut several = Vec::new();
        for (flags, index, last) in [(0u8, 3u32, 2u8), (1, 4, 9)] {
            several.extend(16u16.to_ne_bytes());
            several.extend([flags, 0]);
            several.extend(index.to_ne_bytes());
            several.extend(8u16.to_ne_bytes());
            several.extend(5u16.to_ne_bytes());
            several.extend([10, 0, 0, last]);
        }
        let nlas = vec![route_nlas::Nla::Destination(vec![10, 9, 0, 0]), route_nlas::Nla::MultiPath(several)];
        let (read, object) = route_of(&route(RTN_UNICAST, nlas), 0, 254).unwrap();
        assert_eq!(object, None);
        let hop = |last, index, is_dead| Hop { gateway: Some(Ipv4Addr::new(10, 0, 0, last).into()), index, is_dead };
        assert_eq!(read.hops, [hop(2, 3, false), hop(9, 4, true)]);
        assert_eq!((read.prefix, read.length), (Ipv4Addr::new(10, 9, 0, 0).into(), 16));
    }

    /// As Linux 6.18 told `10.1.0.0/24 via 10.2.0.1 dev va metric 10`, without a carrier; with one the flags are 0.
    #[test]
    fn a_route_by_a_link_without_a_carrier_is_dead() {
        let recorded =
            "4400000018000200070000007d5d000002180000fe0300011000000008000f00fe000000080001000a010000080006000a\
                        000000080005000a0200010800040003000000";
        let byte = |at: usize| u8::from_str_radix(&recorded[at..at + 2], 16).unwrap();
        let mut bytes: Vec<_> = (0..recorded.len()).step_by(2).map(byte).collect();
        for (flags, is_dead) in [(0x10, true), (0, false), (1, true)] {
            bytes[HEADER + ROUTE_FLAGS_AT] = flags;
            let read = match &messages(&bytes)[..] {
                [(7, Message::Route { flags, route })] => route_of(route, *flags, 254),
                _ => None,
            };
            let (route, _) = read.expect("it is one route of the table");
            let gateway = Some(Ipv4Addr::new(10, 2, 0, 1).into());
            assert_eq!((route.metric, route.hops), (10, vec![Hop { gateway, index: 3, is_dead }]));
        }
    }

    #[test]
    fn only_the_table_is_read() {
        assert_eq!(route_of(&route(RTN_UNICAST, vec![route_nlas::Nla::Table(7)]), 0, 254), None);
        assert!(route_of(&route(RTN_UNICAST, vec![route_nlas::Nla::Table(700)]), 0, 700).is_some());
        assert_eq!(route_of(&route(RTN_BLACKHOLE, Vec::new()), 0, 254).unwrap().0.kind, Kind::Refusing);
        assert_eq!(route_of(&route(2, Vec::new()), 0, 254), None);
    }

    #[test]
    fn an_entry_tells_its_use() {
        let counts = [5u64, 600, 2].iter().flat_map(|it| it.to_ne_bytes()).collect();
        let nlas = vec![
            route_nlas::Nla::Source(vec![10, 1, 0, 50]),
            route_nlas::Nla::Destination(vec![239, 1, 1, 1]),
            route_nlas::Nla::MfcStats(counts),
            route_nlas::Nla::Expires(30u64.to_ne_bytes().to_vec()),
        ];
        let key = Key { source: Ipv4Addr::new(10, 1, 0, 50), group: Ipv4Addr::new(239, 1, 1, 1) };
        let used = Used { key, packets: 5, bytes: 600, stray: 2, idle: 300 };
        assert_eq!(used_of(&route(RTN_UNICAST, nlas.clone()), 254), Some(used));
        assert_eq!(used_of(&route(RTN_UNICAST, nlas), 253), None);
    }

    fn attribute(kind: u16, value: &[u8]) -> Vec<u8> {
        let mut bytes = Vec::new();
        put_attribute(&mut bytes, kind, value);
        bytes
    }

    #[test]
    fn a_vrf_tells_its_table() {
        let data = attribute(IFLA_VRF_TABLE, &100u32.to_ne_bytes());
        let information = |kind: &[u8]| [attribute(IFLA_INFO_KIND, kind), attribute(IFLA_INFO_DATA, &data)].concat();
        assert_eq!(vrf_table(&information(b"vrf\0")), Some(100));
        assert_eq!((vrf_table(&information(b"vrfs\0")), vrf_table(&attribute(IFLA_INFO_KIND, b"vrf\0"))), (None, None));
    }

    #[test]
    fn a_rule_is_as_the_kernel_reads_it() {
        let bytes = Rule::of_interface(300, "eth0").message(RTM_NEWRULE, NLM_F_REQUEST, 7);
        assert_eq!((word(&bytes, 0) as usize, word(&bytes, 8)), (bytes.len(), 7));
        // struct fib_rule_hdr: the family first, the action as its eighth byte.
        assert_eq!(bytes[HEADER..HEADER + 12], [128, 0, 0, 0, 0, 0, 0, 1, 0, 0, 0, 0]);
        let told = attributes(&bytes[HEADER + 12..]);
        assert_eq!(told[0], (3, &b"eth0\0"[..]));
        assert_eq!((told[1].0, word(told[1].1, 0)), (15, 300));
    }

    fn as_message(kind: u16, content: &[u8]) -> Vec<u8> {
        let mut bytes = request(kind, 0, 7);
        bytes[..4].copy_from_slice(&((HEADER + content.len()) as u32).to_ne_bytes());
        bytes.extend(content);
        bytes
    }

    #[test]
    fn a_link_is_read_whatever_else_it_has() {
        let mut content = vec![0, 0, 1, 0];
        content.extend([5u32, IFF_UP | IFF_RUNNING, 0].iter().flat_map(|it| it.to_ne_bytes()));
        // An attribute of a wrong length and one that nobody knows, before the name.
        content
            .extend([attribute(18, &[1, 2, 3]), attribute(999, &[4; 9]), attribute(IFLA_IFNAME, b"vxlan7\0")].concat());
        content.extend(attribute(IFLA_MTU, &1450u32.to_ne_bytes()));
        let found = messages(&as_message(RTM_NEWLINK, &content));
        let wanted = Link {
            index: 5,
            name: "vxlan7".to_string(),
            mtu: 1450,
            is_running: true,
            is_loopback: false,
            is_dummy: false,
            vrf_table: None,
        };
        assert!(matches!(&found[..], [(7, Message::Link { is_gone: false, link })] if *link == wanted));
        for (kind, is_dummy) in [(&b"dummy\0"[..], true), (&b"dummy2\0"[..], false), (&b"veth\0"[..], false)] {
            let more = attribute(IFLA_LINKINFO, &attribute(IFLA_INFO_KIND, kind));
            let link = link_of(&[&content[..16], &more[..]].concat()).expect("it is a link");
            assert_eq!(link.is_dummy, is_dummy);
        }
        // What a bridge says of its port.
        content[0] = 7;
        assert!(messages(&as_message(RTM_NEWLINK, &content)).is_empty());
    }

    #[test]
    fn a_route_by_a_next_hop_object_has_its_hops() {
        let object = |number: u32, more: Vec<u8>| {
            let content = [vec![2, 0, 0, 0, 0, 0, 0, 0], attribute(NHA_ID, &number.to_ne_bytes()), more].concat();
            next_hop_of(&content).expect("it has a number")
        };
        let one =
            |last: u8| [attribute(NHA_OIF, &3u32.to_ne_bytes()), attribute(NHA_GATEWAY, &[10, 0, 0, last])].concat();
        let group: Vec<u8> = [1u32, 0, 2, 0].iter().flat_map(|it| it.to_ne_bytes()).collect();
        let objects = HashMap::from([
            object(1, one(2)),
            object(2, one(9)),
            object(3, attribute(NHA_GROUP, &group)),
            object(4, attribute(NHA_BLACKHOLE, &[])),
        ]);
        let (mut told, _) = route_of(&route(RTN_UNICAST, Vec::new()), 0, 254).expect("it is of the table");
        resolve(&mut told, 3, &objects);
        let hop = |last| Hop { gateway: Some(Ipv4Addr::new(10, 0, 0, last).into()), index: 3, is_dead: false };
        assert_eq!((told.kind, &told.hops[..]), (Kind::Unicast, &[hop(2), hop(9)][..]));
        resolve(&mut told, 4, &objects);
        assert_eq!((told.kind, told.hops.len()), (Kind::Refusing, 0));
    }
}
