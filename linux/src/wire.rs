//! The sockets by which packets come and leave.
use crate::bfd;
use crate::inherited::Inherited;
use crate::packet::{Packet, IGMP, PIM};
use rand::Rng;
use socket2::{Domain, Protocol, SockAddr, Socket, Type};
use std::collections::hash_map::{Entry, HashMap};
use std::collections::VecDeque;
use std::io;
use std::mem::{size_of, zeroed, MaybeUninit};
use std::net::{Ipv4Addr, SocketAddrV4};
use std::os::unix::io::{AsRawFd, RawFd};
use std::time::{Duration, Instant};

const ROOM: usize = 16 << 20;
// linux/if_packet.h
const PACKET_OTHERHOST: u32 = 3;
const PACKET_LOOPBACK: u32 = 5;
const PACKET_FANOUT: i32 = 18;
const FANOUT_DEFRAG_UNIQUE: u32 = (0x8000 | 0x2000) << 16;
/// Where hosts report their groups (RFC 3376, 4.2.14), and where they leave them by IGMPv2 (RFC 2236, 3).
const OF_ROUTERS: [Ipv4Addr; 2] = [Ipv4Addr::new(224, 0, 0, 22), Ipv4Addr::new(224, 0, 0, 2)];
const SKF_AD_PKTTYPE: u32 = (-0x1000i32 + 4) as u32;
const ETH_P_IP: u16 = 0x0800;

/// An instruction of a classic socket filter (linux/filter.h).
pub fn instruction(code: u16, jt: u8, jf: u8, k: u32) -> libc::sock_filter {
    libc::sock_filter { code, jt, jf, k }
}

const LOAD_WORD: u16 = 0x20;
const LOAD_BYTE: u16 = 0x30;
const AND: u16 = 0x54;
const IF_EQUAL: u16 = 0x15;
const IF_AT_LEAST: u16 = 0x35;
const RETURN: u16 = 0x06;

/// As much room as the kernel gives; what doesn't fit is lost, and nothing else.
pub fn room_for_bursts(socket: &Socket) {
    if set_option(socket, libc::SOL_SOCKET, libc::SO_RCVBUFFORCE, &(ROOM as i32)).is_err() {
        let _ = socket.set_recv_buffer_size(ROOM);
    }
}

/// Sets an option of a socket that its crate doesn't have.
pub fn set_option<T>(socket: &Socket, level: i32, option: i32, value: &T) -> io::Result<()> {
    let length = size_of::<T>() as libc::socklen_t;
    let place: *const T = value;
    // SAFETY: the place has as many bytes as are said, and the kernel keeps none of it.
    match unsafe { libc::setsockopt(socket.as_raw_fd(), level, option, place.cast(), length) } {
        0 => Ok(()),
        _ => Err(io::Error::last_os_error()),
    }
}

/// What a socket is limited to.
#[derive(Clone, Debug, PartialEq, Eq)]
pub enum Scope {
    All,
    /// What it sends bears a mark.
    Mark(u32),
    /// It is of a VRF.
    Device(String),
}

impl Scope {
    pub fn limit(&self, socket: &Socket) -> io::Result<()> {
        match self {
            Scope::All => Ok(()),
            Scope::Mark(mark) => socket.set_mark(*mark),
            Scope::Device(name) => socket.bind_device(Some(name.as_bytes())),
        }
    }
}

/// What was received, or `None` where nothing waits.
pub fn waiting(received: io::Result<usize>, room: &[MaybeUninit<u8>]) -> io::Result<Option<&[u8]>> {
    match received {
        // SAFETY: the kernel wrote the first `length` bytes of the room.
        Ok(length) => Ok(Some(unsafe { &*(&room[..length] as *const [MaybeUninit<u8>] as *const [u8]) })),
        Err(error) if error.kind() == io::ErrorKind::WouldBlock => Ok(None),
        Err(error) => Err(error),
    }
}

/// Hears PIM and IGMP to groups on all interfaces, and sends packets on links as they are.
pub struct Links {
    socket: Socket,
    /// Sends what the machine's own programs are to hear too.
    shared: Socket,
    batch: Batch,
}

/// Packets that are received together, by one call of the kernel.
struct Batch {
    /// For one packet after the other. The kernel writes into it, so what no long packet came to takes no memory.
    room: Vec<u8>,
    from: Vec<libc::sockaddr_ll>,
    /// Of which each names its part of the room, and its address; neither moves.
    _places: Vec<libc::iovec>,
    messages: Vec<libc::mmsghdr>,
    read: VecDeque<(u32, Vec<u8>)>,
    /// Nothing else waited when it was read last.
    is_drained: bool,
    /// When it was read last, unless more may have waited then.
    drained: Option<Instant>,
}

impl Batch {
    const MOST: usize = 32;
    /// The most bytes of a packet.
    const LONGEST: usize = 65_536;
    /// One that comes so soon after others is of a burst, and waits so long for those behind it: a wait for the kernel
    /// and a call of it cost more of a processor than a packet does.
    const BURST: Duration = Duration::from_millis(1);
    const BEHIND_IT: Duration = Duration::from_micros(200);

    fn new() -> Batch {
        let mut room = vec![0; Batch::MOST * Batch::LONGEST];
        // SAFETY: all-zero bytes are values of both.
        let mut from: Vec<libc::sockaddr_ll> = vec![unsafe { zeroed() }; Batch::MOST];
        let mut messages: Vec<libc::mmsghdr> = vec![unsafe { zeroed() }; Batch::MOST];
        let parts = room.chunks_mut(Batch::LONGEST);
        let place = |part: &mut [u8]| libc::iovec { iov_base: part.as_mut_ptr().cast(), iov_len: part.len() };
        let mut places: Vec<_> = parts.map(place).collect();
        for ((message, place), from) in messages.iter_mut().zip(&mut places).zip(&mut from) {
            let from: *mut libc::sockaddr_ll = from;
            message.msg_hdr.msg_name = from.cast();
            message.msg_hdr.msg_namelen = size_of::<libc::sockaddr_ll>() as libc::socklen_t;
            message.msg_hdr.msg_iov = place;
            message.msg_hdr.msg_iovlen = 1;
        }
        Batch { room, from, _places: places, messages, read: VecDeque::new(), is_drained: false, drained: None }
    }

    /// The next packet that waits at a packet socket, with the kernel's number of its interface. After the last one that
    /// waited there is none, once.
    fn next(&mut self, socket: &Socket) -> io::Result<Option<(u32, Vec<u8>)>> {
        if self.read.is_empty() && !std::mem::take(&mut self.is_drained) {
            if self.drained.map_or(false, |at| at.elapsed() < Batch::BURST) {
                std::thread::sleep(Batch::BEHIND_IT);
            }
            self.fill(socket)?;
        }
        Ok(self.read.pop_front())
    }

    fn fill(&mut self, socket: &Socket) -> io::Result<()> {
        // SAFETY: each message names an address, a place and a part of the room of its own, all of which are there.
        let count = unsafe {
            let (messages, most) = (self.messages.as_mut_ptr(), Batch::MOST as libc::c_uint);
            libc::recvmmsg(socket.as_raw_fd(), messages, most, libc::MSG_DONTWAIT, std::ptr::null_mut())
        };
        if count < 0 {
            let error = io::Error::last_os_error();
            return if error.kind() == io::ErrorKind::WouldBlock { Ok(()) } else { Err(error) };
        }
        let count = count as usize;
        self.is_drained = count < Batch::MOST;
        self.drained = self.is_drained.then(Instant::now);
        for number in 0..count {
            let message = &mut self.messages[number];
            message.msg_hdr.msg_namelen = size_of::<libc::sockaddr_ll>() as libc::socklen_t;
            let at = number * Batch::LONGEST;
            let packet = self.room[at..at + message.msg_len as usize].to_vec();
            self.read.push_back((self.from[number].sll_ifindex as u32, packet));
        }
        Ok(())
    }
}

fn link_address(index: u32, hardware: [u8; 6]) -> SockAddr {
    // SAFETY: all-zero bytes are a value of both, and a link's address fits.
    unsafe {
        let mut storage: libc::sockaddr_storage = zeroed();
        let place: *mut libc::sockaddr_storage = &mut storage;
        let link = &mut *place.cast::<libc::sockaddr_ll>();
        link.sll_family = libc::AF_PACKET as u16;
        link.sll_protocol = ETH_P_IP.to_be();
        link.sll_ifindex = index as i32;
        link.sll_halen = 6;
        link.sll_addr[..6].copy_from_slice(&hardware);
        SockAddr::new(storage, size_of::<libc::sockaddr_ll>() as libc::socklen_t)
    }
}

/// The Ethernet address of a group (RFC 1112).
pub fn group_hardware(packet: &[u8]) -> [u8; 6] {
    [0x01, 0x00, 0x5e, packet[17] & 0x7f, packet[18], packet[19]]
}

impl Links {
    pub fn open(inherited: &mut Inherited) -> io::Result<Links> {
        let socket = inherited.take("links").map_or_else(Links::hearing, Ok)?;
        let shared = inherited.take("links-shared").map_or_else(Links::shared, Ok)?;
        Ok(Links { socket, shared, batch: Batch::new() })
    }

    /// What another router may go on with, by names.
    pub fn sockets(&self) -> [(&'static str, RawFd); 2] {
        [("links", self.socket.as_raw_fd()), ("links-shared", self.shared.as_raw_fd())]
    }

    fn hearing() -> io::Result<Socket> {
        let socket = Socket::new(Domain::PACKET, Type::DGRAM, Some(Protocol::from(0)))?;
        socket.attach_filter(&[
            instruction(LOAD_WORD, 0, 0, SKF_AD_PKTTYPE),
            instruction(IF_AT_LEAST, 7, 0, PACKET_OTHERHOST),
            instruction(LOAD_BYTE, 0, 0, 9),
            instruction(IF_EQUAL, 1, 0, u32::from(PIM)),
            instruction(IF_EQUAL, 0, 4, u32::from(IGMP)),
            instruction(LOAD_BYTE, 0, 0, 16),
            instruction(AND, 0, 0, 0xf0),
            instruction(IF_EQUAL, 0, 1, 0xe0),
            instruction(RETURN, 0, 0, u32::MAX),
            instruction(RETURN, 0, 0, 0),
        ])?;
        socket.set_nonblocking(true)?;
        room_for_bursts(&socket);
        // Bound only now, so that nothing comes past the filter.
        socket.bind(&link_address(0, [0; 6]))?;
        // A group of one, so that the kernel reassembles fragments before they come here.
        set_option(&socket, libc::SOL_PACKET, PACKET_FANOUT, &FANOUT_DEFRAG_UNIQUE)?;
        Ok(socket)
    }

    fn shared() -> io::Result<Socket> {
        let shared = Socket::new(Domain::IPV4, Type::RAW, Some(Protocol::from(libc::IPPROTO_RAW)))?;
        shared.set_nonblocking(true)?;
        shared.set_multicast_loop_v4(true)?;
        Ok(shared)
    }

    /// The next packet, with the kernel's number of its interface.
    pub fn hear(&mut self) -> io::Result<Option<(u32, Vec<u8>)>> {
        self.batch.next(&self.socket)
    }

    /// Whether packets were received that nobody has heard.
    pub fn has_read(&self) -> bool {
        !self.batch.read.is_empty()
    }

    pub fn send(&self, index: u32, packet: &[u8]) -> io::Result<()> {
        self.socket.send_to(packet, &link_address(index, group_hardware(packet))).map(|_| ())
    }

    /// Sends a packet to a group so that the machine hears it too.
    pub fn send_shared(&self, index: u32, packet: &[u8]) -> io::Result<()> {
        set_option(&self.shared, libc::IPPROTO_IP, libc::IP_MULTICAST_IF, &by_index(Ipv4Addr::UNSPECIFIED, index))?;
        let to = Packet::read(packet).ok_or(io::ErrorKind::InvalidInput)?.destination();
        self.shared.send_to(packet, &SockAddr::from(SocketAddrV4::new(to, 0))).map(|_| ())
    }
}

/// Hears the reports of the machine's own programs, which the kernel shows to members of their group alone.
pub struct OwnReports {
    socket: Socket,
    /// A member of the groups of routers on each interface, by the kernel's number: a socket has few memberships.
    members: HashMap<u32, Socket>,
}

/// Of a membership, before the kernel's number of its interface.
const MEMBER: &str = "member-";

impl OwnReports {
    pub fn open(scope: &Scope, inherited: &mut Inherited) -> io::Result<OwnReports> {
        let socket = inherited.take("own-reports").map_or_else(|| OwnReports::hearing(scope), Ok)?;
        let indices = inherited.names(MEMBER).into_iter().filter_map(|index| index.parse().ok());
        let members = indices.filter_map(|index| Some((index, inherited.take(&format!("{MEMBER}{index}"))?)));
        Ok(OwnReports { socket, members: members.collect() })
    }

    /// What another router may go on with, by names.
    pub fn sockets(&self) -> Vec<(String, RawFd)> {
        let members = self.members.iter().map(|(index, socket)| (format!("{MEMBER}{index}"), socket.as_raw_fd()));
        members.chain([("own-reports".to_string(), self.socket.as_raw_fd())]).collect()
    }

    fn hearing(scope: &Scope) -> io::Result<Socket> {
        let socket = Socket::new(Domain::IPV4, Type::RAW, Some(Protocol::from(i32::from(IGMP))))?;
        scope.limit(&socket)?;
        // What the machine sent itself, and no message of its multicast routing, which has the protocol 0.
        socket.attach_filter(&[
            instruction(LOAD_WORD, 0, 0, SKF_AD_PKTTYPE),
            instruction(IF_EQUAL, 0, 3, PACKET_LOOPBACK),
            instruction(LOAD_BYTE, 0, 0, 9),
            instruction(IF_EQUAL, 0, 1, u32::from(IGMP)),
            instruction(RETURN, 0, 0, u32::MAX),
            instruction(RETURN, 0, 0, 0),
        ])?;
        socket.set_nonblocking(true)?;
        Ok(socket)
    }

    /// An interface from which they are to be heard.
    pub fn hear_from(&mut self, index: u32) -> io::Result<()> {
        self.members.remove(&index);
        let member = Socket::new(Domain::IPV4, Type::DGRAM, None)?;
        for group in OF_ROUTERS {
            set_option(&member, libc::IPPROTO_IP, libc::IP_ADD_MEMBERSHIP, &by_index(group, index))?;
        }
        self.members.insert(index, member);
        Ok(())
    }

    pub fn hears_from(&self, index: u32) -> bool {
        self.members.contains_key(&index)
    }

    pub fn hear<'a>(&self, room: &'a mut [MaybeUninit<u8>]) -> io::Result<Option<&'a [u8]>> {
        waiting(self.socket.recv(room), room)
    }
}

impl AsRawFd for OwnReports {
    fn as_raw_fd(&self) -> RawFd {
        self.socket.as_raw_fd()
    }
}

fn by_index(group: Ipv4Addr, index: u32) -> libc::ip_mreqn {
    libc::ip_mreqn {
        imr_multiaddr: libc::in_addr { s_addr: u32::from(group).to_be() },
        imr_address: libc::in_addr { s_addr: 0 },
        imr_ifindex: index as i32,
    }
}

impl AsRawFd for Links {
    fn as_raw_fd(&self) -> RawFd {
        self.socket.as_raw_fd()
    }
}

/// Hears PIM to addresses of the machine, whole, and sends to those of others by its routes.
pub struct Unicasts {
    heard: Socket,
    sent: Socket,
    scope: Scope,
}

impl Unicasts {
    pub fn open(scope: Scope, inherited: &mut Inherited) -> io::Result<Unicasts> {
        let heard = inherited.take("unicasts").map_or_else(|| Unicasts::hearing(&scope), Ok)?;
        let sent = inherited.take("unicasts-sent").map_or_else(|| Unicasts::sending(&scope), Ok)?;
        Ok(Unicasts { heard, sent, scope })
    }

    /// What another router may go on with, by names.
    pub fn sockets(&self) -> [(&'static str, RawFd); 2] {
        [("unicasts", self.heard.as_raw_fd()), ("unicasts-sent", self.sent.as_raw_fd())]
    }

    fn hearing(scope: &Scope) -> io::Result<Socket> {
        let heard = Socket::new(Domain::IPV4, Type::RAW, Some(Protocol::from(i32::from(PIM))))?;
        scope.limit(&heard)?;
        heard.attach_filter(&[
            instruction(LOAD_BYTE, 0, 0, 16),
            instruction(AND, 0, 0, 0xf0),
            instruction(IF_EQUAL, 0, 1, 0xe0),
            instruction(RETURN, 0, 0, 0),
            instruction(RETURN, 0, 0, u32::MAX),
        ])?;
        heard.set_nonblocking(true)?;
        room_for_bursts(&heard);
        Ok(heard)
    }

    fn sending(scope: &Scope) -> io::Result<Socket> {
        let sent = Socket::new(Domain::IPV4, Type::RAW, Some(Protocol::from(libc::IPPROTO_RAW)))?;
        scope.limit(&sent)?;
        sent.set_nonblocking(true)?;
        Ok(sent)
    }

    pub fn hear<'a>(&self, room: &'a mut [MaybeUninit<u8>]) -> io::Result<Option<&'a [u8]>> {
        waiting(self.heard.recv(room), room)
    }

    /// A packet that is longer than its link takes leaves in fragments, by a header that the kernel makes of the same
    /// values.
    pub fn send(&self, packet: &[u8]) -> io::Result<()> {
        let whole = Packet::read(packet).ok_or(io::ErrorKind::InvalidInput)?;
        let to = SockAddr::from(SocketAddrV4::new(whole.destination(), 0));
        match self.sent.send_to(packet, &to) {
            Err(error) if error.raw_os_error() == Some(libc::EMSGSIZE) => send_in_fragments(whole, &to, &self.scope),
            other => other.map(|_| ()),
        }
    }
}

fn send_in_fragments(packet: Packet, to: &SockAddr, scope: &Scope) -> io::Result<()> {
    let socket = Socket::new(Domain::IPV4, Type::RAW, Some(Protocol::from(i32::from(packet.protocol()))))?;
    // What comes to it is nobody's.
    socket.attach_filter(&[instruction(RETURN, 0, 0, 0)])?;
    scope.limit(&socket)?;
    socket.bind(&SockAddr::from(SocketAddrV4::new(packet.source(), 0)))?;
    socket.set_ttl(u32::from(packet.ttl()))?;
    socket.set_tos(u32::from(packet.header()[1]))?;
    set_option(&socket, libc::IPPROTO_IP, libc::IP_MTU_DISCOVER, &libc::IP_PMTUDISC_DONT)?;
    socket.send_to(packet.content(), to).map(|_| ())
}

impl AsRawFd for Unicasts {
    fn as_raw_fd(&self) -> RawFd {
        self.heard.as_raw_fd()
    }
}

/// Hears and sends packets of BFD (RFC 5881).
#[derive(Default)]
pub struct Liveness {
    /// By the kernel's number of an interface.
    listeners: HashMap<u32, Socket>,
    /// By the same, and the other side.
    senders: HashMap<(u32, Ipv4Addr), Socket>,
}

/// Of what BFD has, before the kernel's number of an interface, and the other side.
pub const BFD: &str = "bfd-";

impl Liveness {
    pub fn open(inherited: &mut Inherited) -> Liveness {
        let mut liveness = Liveness::default();
        for name in inherited.names(BFD) {
            let socket = inherited.take(&format!("{BFD}{name}"));
            let (index, to) = name.split_once('-').unwrap_or((&name, ""));
            match (index.parse(), to.parse(), socket) {
                (Ok(index), Ok(to), Some(socket)) => {
                    liveness.senders.insert((index, to), socket);
                }
                (Ok(index), Err(_), Some(socket)) => {
                    liveness.listeners.insert(index, socket);
                }
                _ => {}
            }
        }
        liveness
    }

    /// What another router may go on with, by names.
    pub fn sockets(&self) -> Vec<(String, RawFd)> {
        let listeners = self.listeners.iter().map(|(index, socket)| (format!("{BFD}{index}"), socket.as_raw_fd()));
        let sender =
            |((index, to), socket): (&(u32, Ipv4Addr), &Socket)| (format!("{BFD}{index}-{to}"), socket.as_raw_fd());
        listeners.chain(self.senders.iter().map(sender)).collect()
    }

    /// An interface on which it is to be heard: what a router between might have sent on isn't.
    pub fn hear_on(&mut self, index: u32, name: &str) -> io::Result<()> {
        const SKF_NET_OFF: u32 = -0x10_0000i32 as u32;
        const TTL_AT: u32 = 8;
        // Of the router before this one.
        if self.listeners.contains_key(&index) {
            return Ok(());
        }
        let socket = Socket::new(Domain::IPV4, Type::DGRAM, None)?;
        socket.bind_device(Some(name.as_bytes()))?;
        socket.attach_filter(&[
            instruction(LOAD_BYTE, 0, 0, SKF_NET_OFF + TTL_AT),
            instruction(IF_EQUAL, 0, 1, u32::from(bfd::TTL)),
            instruction(RETURN, 0, 0, u32::MAX),
            instruction(RETURN, 0, 0, 0),
        ])?;
        socket.set_nonblocking(true)?;
        socket.bind(&SockAddr::from(SocketAddrV4::new(Ipv4Addr::UNSPECIFIED, bfd::PORT)))?;
        self.listeners.insert(index, socket);
        Ok(())
    }

    pub fn hear_no_more(&mut self, index: u32) {
        self.listeners.remove(&index);
        self.senders.retain(|(of, _), _| *of != index);
    }

    pub fn waits(&self) -> impl Iterator<Item = RawFd> + '_ {
        self.listeners.values().map(AsRawFd::as_raw_fd)
    }

    /// The next packet, with the kernel's number of its interface, and whose it is.
    pub fn hear(&self, room: &mut [MaybeUninit<u8>]) -> io::Result<Option<(u32, Ipv4Addr, Vec<u8>)>> {
        for (index, socket) in &self.listeners {
            let (received, from) = match socket.recv_from(room) {
                Ok((length, from)) => (Ok(length), from.as_socket_ipv4().map(|from| *from.ip())),
                Err(error) => (Err(error), None),
            };
            if let (Some(packet), Some(from)) = (waiting(received, room)?, from) {
                return Ok(Some((*index, from, packet.to_vec())));
            }
        }
        Ok(None)
    }

    /// Each session has a socket, and so a port of its own.
    pub fn send(&mut self, link: (u32, &str), ends: (Ipv4Addr, Ipv4Addr), packet: &[u8]) -> io::Result<()> {
        let (from, to) = ends;
        let socket = match self.senders.entry((link.0, to)) {
            Entry::Occupied(found) => found.into_mut(),
            Entry::Vacant(place) => place.insert(Liveness::sender(link.1, from)?),
        };
        socket.send_to(packet, &SockAddr::from(SocketAddrV4::new(to, bfd::PORT))).map(|_| ())
    }

    fn sender(name: &str, from: Ipv4Addr) -> io::Result<Socket> {
        const TRIES: usize = 64;
        const NETWORK_CONTROL: u32 = 0xc0;
        let socket = Socket::new(Domain::IPV4, Type::DGRAM, None)?;
        socket.bind_device(Some(name.as_bytes()))?;
        socket.set_nonblocking(true)?;
        socket.set_ttl(u32::from(bfd::TTL))?;
        socket.set_tos(NETWORK_CONTROL)?;
        // What comes to it is nobody's.
        socket.attach_filter(&[instruction(RETURN, 0, 0, 0)])?;
        let ports = (0..TRIES).map(|_| rand::thread_rng().gen_range(bfd::SOURCE_PORTS));
        let mut last = io::Error::from(io::ErrorKind::AddrInUse);
        for port in ports {
            match socket.bind(&SockAddr::from(SocketAddrV4::new(from, port))) {
                Ok(()) => return Ok(socket),
                Err(error) => last = error,
            }
        }
        Err(last)
    }
}

#[cfg(test)]
mod tests {
    use super::*;

    #[test]
    fn a_group_has_its_ethernet_address() {
        let mut packet = [0; 20];
        packet[16..].copy_from_slice(&[239, 129, 2, 3]);
        assert_eq!(group_hardware(&packet), [1, 0, 0x5e, 1, 2, 3]);
    }
}
