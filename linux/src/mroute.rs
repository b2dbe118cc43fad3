//! The kernel's multicast forwarding: virtual interfaces, the forwarding cache, and what the kernel hands up.
use crate::wire::Scope;
use socket2::{Domain, Protocol, Socket, Type};
use std::fmt;
use std::io;
use std::mem::MaybeUninit;
use std::net::Ipv4Addr;
use std::os::unix::io::{AsRawFd, RawFd};

/// The highest; the interfaces have those below.
pub const REGISTER_VIF: u16 = 31;
const VIFS: usize = 32;

// linux/mroute.h
const MRT_INIT: i32 = 200;
const MRT_DONE: i32 = 201;
const MRT_ADD_VIF: i32 = 202;
const MRT_DEL_VIF: i32 = 203;
const MRT_ADD_MFC: i32 = 204;
const MRT_DEL_MFC: i32 = 205;
const MRT_PIM: i32 = 208;
const MRT_TABLE: i32 = 209;
const VIFF_REGISTER: u8 = 4;
const VIFF_USE_IFINDEX: u8 = 8;
/// Of linux/sockios.h: the first of a protocol's own.
const SIOCGETVIFCNT: libc::c_ulong = 0x89e0;
const IGMPMSG_NOCACHE: u8 = 1;
const IGMPMSG_WRONGVIF: u8 = 2;
const IGMPMSG_WHOLEPKT: u8 = 3;
const IGMPMSG_WRVIFWHOLE: i32 = 4;

/// A source and a group.
#[derive(Clone, Copy, Debug, PartialEq, Eq, Hash, PartialOrd, Ord)]
pub struct Key {
    pub source: Ipv4Addr,
    pub group: Ipv4Addr,
}

impl fmt::Display for Key {
    fn fmt(&self, to: &mut fmt::Formatter) -> fmt::Result {
        write!(to, "({}, {})", self.source, self.group)
    }
}

/// What stands in the forwarding cache: packets are accepted on one virtual interface, and leave on others.
#[derive(Clone, Copy, Debug, PartialEq, Eq)]
pub struct Forwarded {
    pub parent: u16,
    /// Bit i is virtual interface i.
    pub outgoing: u32,
}

#[repr(C)]
struct VifControl {
    vif: u16,
    flags: u8,
    threshold: u8,
    rate_limit: u32,
    index: i32,
    remote: u32,
}

#[repr(C)]
struct MfcControl {
    origin: [u8; 4],
    group: [u8; 4],
    parent: u16,
    thresholds: [u8; VIFS],
    packets: u32,
    bytes: u32,
    wrong_interface: u32,
    expire: i32,
}

/// What the kernel has forwarded by a virtual interface.
#[derive(Clone, Copy, Debug, Default, PartialEq, Eq)]
pub struct Carried {
    pub packets_in: u64,
    pub packets_out: u64,
    pub bytes_in: u64,
    pub bytes_out: u64,
}

#[repr(C)]
struct VifRequest {
    vif: u16,
    packets_in: libc::c_ulong,
    packets_out: libc::c_ulong,
    bytes_in: libc::c_ulong,
    bytes_out: libc::c_ulong,
}

/// What the kernel hands up.
#[derive(Clone, Debug, PartialEq, Eq)]
pub enum Upcall {
    /// There is no entry for a packet that came; the kernel keeps a few of them until there is one.
    NoCache { vif: u16, key: Key },
    /// A packet came on an interface where the entry doesn't accept it; once in three seconds for an entry.
    Stray { vif: u16, key: Key, packet: Vec<u8> },
    /// A packet that went to the register tunnel.
    Whole { key: Key, packet: Vec<u8> },
}

impl Upcall {
    /// The kernel's message: an IPv4 header of its own, whose TTL, protocol and checksum say what it is, then the
    /// packet.
    pub fn read(message: &[u8]) -> Option<Upcall> {
        if message.len() < 20 || message[9] != 0 {
            return None;
        }
        let vif = u16::from(message[10]) | u16::from(message[11]) << 8;
        let key = Key { source: crate::packet::address(message, 12), group: crate::packet::address(message, 16) };
        let packet = || message[20..].to_vec();
        match message[8] {
            IGMPMSG_NOCACHE => Some(Upcall::NoCache { vif, key }),
            IGMPMSG_WHOLEPKT => Some(Upcall::Whole { key, packet: packet() }),
            kind if i32::from(kind) == IGMPMSG_WRVIFWHOLE => Some(Upcall::Stray { vif, key, packet: packet() }),
            // The same packet follows whole.
            IGMPMSG_WRONGVIF => None,
            _ => None,
        }
    }
}

/// The socket that makes this process the kernel's multicast router. The kernel forgets all of it where it is closed.
pub struct Mroute {
    socket: Socket,
}

/// The socket's name among those that another router may go on with.
pub const MROUTE: &str = "mroute";

impl Mroute {
    /// That of the router before this one, which the kernel's interfaces and entries are still of.
    pub fn of(socket: Socket) -> Mroute {
        Mroute { socket }
    }

    /// The kernel forgets all of it, though others may have the socket too.
    pub fn end(&self) -> io::Result<()> {
        self.set(MRT_DONE, &1i32)
    }

    /// Of a table, or of the usual one.
    pub fn open(table: Option<u32>, scope: &Scope) -> io::Result<Mroute> {
        let socket = Socket::new(Domain::IPV4, Type::RAW, Some(Protocol::from(i32::from(crate::packet::IGMP))))?;
        // IGMP that the machine hears for itself comes here too; what the kernel hands up has the protocol 0.
        socket.attach_filter(&[
            crate::wire::instruction(0x30, 0, 0, 9),
            crate::wire::instruction(0x15, 0, 1, 0),
            crate::wire::instruction(0x06, 0, 0, u32::MAX),
            crate::wire::instruction(0x06, 0, 0, 0),
        ])?;
        socket.set_nonblocking(true)?;
        crate::wire::room_for_bursts(&socket);
        scope.limit(&socket)?;
        let mroute = Mroute { socket };
        if let Some(table) = table {
            mroute.set(MRT_TABLE, &table)?;
        }
        mroute.set(MRT_INIT, &1i32)?;
        mroute.set(MRT_PIM, &IGMPMSG_WRVIFWHOLE)?;
        mroute.set_vif(REGISTER_VIF, VIFF_REGISTER, 0)?;
        Ok(mroute)
    }

    fn set<T>(&self, option: i32, value: &T) -> io::Result<()> {
        crate::wire::set_option(&self.socket, libc::IPPROTO_IP, option, value)
    }

    fn set_vif(&self, vif: u16, flags: u8, index: i32) -> io::Result<()> {
        self.set(MRT_ADD_VIF, &VifControl { vif, flags, threshold: 1, rate_limit: 0, index, remote: 0 })
    }

    pub fn add_vif(&self, vif: u16, index: u32) -> io::Result<()> {
        self.set_vif(vif, VIFF_USE_IFINDEX, index as i32)
    }

    pub fn remove_vif(&self, vif: u16) -> io::Result<()> {
        self.set(MRT_DEL_VIF, &VifControl { vif, flags: 0, threshold: 0, rate_limit: 0, index: 0, remote: 0 })
    }

    /// What a virtual interface has carried since it was added.
    pub fn carried(&self, vif: u16) -> io::Result<Carried> {
        let mut asked = VifRequest { vif, packets_in: 0, packets_out: 0, bytes_in: 0, bytes_out: 0 };
        let place: *mut VifRequest = &mut asked;
        // SAFETY: the kernel reads and writes one such structure at the place.
        match unsafe { libc::ioctl(self.socket.as_raw_fd(), SIOCGETVIFCNT, place) } {
            0 => Ok(Carried {
                packets_in: asked.packets_in,
                packets_out: asked.packets_out,
                bytes_in: asked.bytes_in,
                bytes_out: asked.bytes_out,
            }),
            _ => Err(io::Error::last_os_error()),
        }
    }

    fn set_mfc(&self, option: i32, key: Key, forwarded: Forwarded) -> io::Result<()> {
        // The threshold 1 lets a packet out whose TTL is above 1: where one is 0, none leaves.
        let mut thresholds = [0; VIFS];
        (0..VIFS).filter(|vif| forwarded.outgoing >> vif & 1 == 1).for_each(|vif| thresholds[vif] = 1);
        let (origin, group) = (key.source.octets(), key.group.octets());
        let (packets, bytes, wrong_interface, expire) = (0, 0, 0, 0);
        self.set(
            option,
            &MfcControl {
                origin,
                group,
                parent: forwarded.parent,
                thresholds,
                packets,
                bytes,
                wrong_interface,
                expire,
            },
        )
    }

    /// Puts an entry in, or changes it. Packets that the kernel kept for it go on by it.
    pub fn put(&self, key: Key, forwarded: Forwarded) -> io::Result<()> {
        self.set_mfc(MRT_ADD_MFC, key, forwarded)
    }

    pub fn remove(&self, key: Key) -> io::Result<()> {
        self.set_mfc(MRT_DEL_MFC, key, Forwarded { parent: 0, outgoing: 0 })
    }

    /// The next message, or `None` where none waits.
    pub fn hear<'a>(&self, room: &'a mut [MaybeUninit<u8>]) -> io::Result<Option<&'a [u8]>> {
        crate::wire::waiting(self.socket.recv(room), room)
    }
}

impl AsRawFd for Mroute {
    fn as_raw_fd(&self) -> RawFd {
        self.socket.as_raw_fd()
    }
}

#[cfg(test)]
mod tests {
    use super::*;
    use std::mem::size_of;

    fn message(kind: u8, vif: u8) -> Vec<u8> {
        let mut bytes = vec![0x45, 0, 0, 0, 0, 0, 0, 0, kind, 0, vif, 0, 10, 1, 0, 50, 239, 1, 1, 1];
        bytes.extend(b"packet");
        bytes
    }

    #[test]
    fn the_structures_are_the_kernels() {
        assert_eq!((size_of::<VifControl>(), size_of::<MfcControl>()), (16, 60));
        assert_eq!(size_of::<VifRequest>(), 5 * size_of::<libc::c_ulong>());
    }

    #[test]
    fn each_message_is_read() {
        let key = Key { source: Ipv4Addr::new(10, 1, 0, 50), group: Ipv4Addr::new(239, 1, 1, 1) };
        assert_eq!(Upcall::read(&message(1, 3)), Some(Upcall::NoCache { vif: 3, key }));
        assert_eq!(Upcall::read(&message(2, 3)), None);
        assert_eq!(Upcall::read(&message(3, 31)), Some(Upcall::Whole { key, packet: b"packet".to_vec() }));
        assert_eq!(Upcall::read(&message(4, 3)), Some(Upcall::Stray { vif: 3, key, packet: b"packet".to_vec() }));
        assert_eq!(Upcall::read(&message(5, 3)), None);
    }

    #[test]
    fn igmp_is_no_message() {
        let mut heard = message(1, 3);
        heard[9] = 2;
        assert_eq!(Upcall::read(&heard), None);
        assert_eq!(Upcall::read(&message(1, 3)[..19]), None);
    }
}
