//! What the router asks of the machine that it runs on. It is a trait, so that the router has tests without a machine.
use crate::error::Fatal;
use crate::inherited::Inherited;
use crate::left::clock;
use crate::mroute::{Carried, Forwarded, Key, Mroute, Upcall, MROUTE};
use crate::netlink::{Change, Link, Netlink, Used};
use crate::packet::{Packet, IGMP};
use crate::plane::Cache;
use crate::routes::KernelRoute;
use crate::settings::Subnet;
use crate::stand_in::fragments;
use crate::tables::{Domain, Tables};
use crate::wire::{Links, Liveness, OwnReports, Unicasts};
use log::debug;
use std::collections::HashMap;
use std::io;
use std::mem::MaybeUninit;
use std::net::Ipv4Addr;
use std::os::unix::io::{AsRawFd, RawFd};

const ROOM: usize = 65_536;
const IGMP_QUERY: u8 = 0x11;

/// Where something can wait.
#[derive(Clone, Copy, Debug, PartialEq, Eq, Hash)]
pub enum Source {
    Changes,
    Upcalls,
    Unicasts,
    OwnReports,
    Frames,
    Bfd,
}

/// What happened.
#[derive(Clone, Debug, PartialEq, Eq)]
pub enum Event {
    Changes(Vec<Change>),
    Upcall(Upcall),
    /// PIM to an address of the machine.
    Unicast(Vec<u8>),
    /// IGMP of a program on the machine itself.
    OwnReport(Vec<u8>),
    /// PIM or IGMP to a group, with the kernel's number of the interface.
    Frame {
        index: u32,
        packet: Vec<u8>,
    },
    /// BFD of an address, with the kernel's number of the interface.
    Bfd {
        index: u32,
        from: Ipv4Addr,
        packet: Vec<u8>,
    },
    /// What waited is nothing for the router.
    Nothing,
}

pub trait Kernel: Cache {
    /// In ms, since the router began.
    fn now(&self) -> u64;
    /// What the machine's clock showed then, in ns.
    fn began(&self) -> u64;
    /// What a router may go on with that takes this one's place, by names.
    fn sockets(&self) -> Vec<(String, RawFd)>;
    /// The kernel forgets the virtual interfaces and the entries, though others may have the socket too.
    fn end(&mut self);
    /// What the router has set stays when it ends, for the next one.
    fn stay(&mut self);
    /// The next of what waits at a place, or `None`.
    fn hear(&mut self, from: Source) -> io::Result<Option<Event>>;
    /// Whether what waits at a place was read already, in part: it is to be heard in this turn.
    fn has_read(&self, from: Source) -> bool;
    /// What becomes readable where something waits.
    fn waits(&self) -> Vec<(Source, RawFd)>;

    fn links(&mut self) -> io::Result<Vec<Link>>;
    /// Each with the kernel's number of its interface.
    fn addresses(&mut self) -> io::Result<Vec<(u32, Subnet)>>;
    /// Those of a table, or of the router's own.
    fn routes(&mut self, table: Option<u32>) -> io::Result<Vec<KernelRoute>>;
    /// Whose entries the forwarding cache has.
    fn multicast_table(&self) -> u32;
    /// Whether packets are dropped whose route back leads elsewhere.
    fn is_filter_strict(&self, name: &str) -> bool;

    fn add_vif(&mut self, vif: u16, index: u32) -> io::Result<()>;
    /// One that the router before this one had: it is added where it isn't there any more.
    fn resume_vif(&mut self, vif: u16, index: u32) -> io::Result<()>;
    fn remove_vif(&mut self, vif: u16) -> io::Result<()>;
    /// What the entries of the forwarding cache have forwarded.
    fn used(&mut self) -> io::Result<Vec<Used>>;

    /// What a virtual interface has carried since it was added.
    fn carried(&self, vif: u16) -> io::Result<Carried>;

    /// A packet to a group leaves by an interface.
    fn send_on(&mut self, index: u32, packet: &[u8]) -> io::Result<()>;
    fn send_unicast(&mut self, packet: &[u8]) -> io::Result<()>;

    fn hear_bfd_on(&mut self, index: u32) -> io::Result<()>;
    fn hear_bfd_no_more(&mut self, index: u32);
    /// From one address to another, on an interface.
    fn send_bfd(&mut self, index: u32, ends: (Ipv4Addr, Ipv4Addr), packet: &[u8]) -> io::Result<()>;
}

/// Linux.
pub struct Linux {
    /// In ns.
    began: u64,
    mroute: Mroute,
    links: Links,
    unicasts: Unicasts,
    own_reports: OwnReports,
    liveness: Liveness,
    netlink: Netlink,
    tables: Tables,
    /// The rules of the tables stay.
    stays: bool,
    names: HashMap<u32, String>,
    /// The most bytes of a packet, by the kernel's number of an interface.
    mtus: HashMap<u32, usize>,
    room: Vec<MaybeUninit<u8>>,
}

impl Linux {
    /// With the sockets of the router before this one, where there are some, and its timestamp 0, in ns.
    pub fn open(domain: &Domain, began: Option<u64>, inherited: &mut Inherited) -> Result<Linux, Fatal> {
        let mut netlink = Netlink::open().map_err(Fatal::Netlink)?;
        let tables = Tables::of(domain, &mut netlink).map_err(Fatal::Netlink)?;
        let scope = tables.scope();
        let mroute = match inherited.take(MROUTE) {
            Some(socket) => Mroute::of(socket),
            None => Mroute::open(tables.asked(), &scope).map_err(Fatal::MulticastRouting)?,
        };
        let mut linux = Linux {
            began: began.unwrap_or_else(clock),
            mroute,
            links: Links::open(inherited).map_err(Fatal::Socket)?,
            own_reports: OwnReports::open(&scope, inherited).map_err(Fatal::Socket)?,
            liveness: Liveness::open(inherited),
            unicasts: Unicasts::open(scope, inherited).map_err(Fatal::Socket)?,
            netlink,
            tables,
            stays: false,
            names: HashMap::new(),
            mtus: HashMap::new(),
            room: vec![MaybeUninit::uninit(); ROOM],
        };
        linux.tables.begin(&mut linux.netlink).map_err(Fatal::Netlink)?;
        Ok(linux)
    }

    fn changes(&mut self) -> io::Result<Option<Event>> {
        let changes = self.netlink.hear()?;
        for change in changes.iter().flatten() {
            if let Change::Link(link) = change {
                self.mtus.insert(link.index, link.mtu as usize);
                self.names.insert(link.index, link.name.clone());
            }
        }
        Ok(changes.map(Event::Changes))
    }

    fn send_in_fragments(&self, index: u32, packet: &[u8], error: io::Error) -> io::Result<()> {
        let mtu = self.mtus.get(&index).copied().unwrap_or(0);
        match Packet::read(packet).and_then(|whole| fragments(whole, mtu)) {
            Some(parts) => parts.iter().try_for_each(|part| self.links.send(index, part)),
            None => Err(error),
        }
    }
}

impl Drop for Linux {
    fn drop(&mut self) {
        if !self.stays {
            self.tables.clear(&mut self.netlink);
        }
    }
}

fn is_query(packet: &[u8]) -> bool {
    Packet::read(packet).map_or(false, |it| it.protocol() == IGMP && it.content().first() == Some(&IGMP_QUERY))
}

impl Cache for Linux {
    fn put(&self, key: Key, forwarded: Forwarded) -> io::Result<()> {
        self.mroute.put(key, forwarded)
    }

    fn remove(&self, key: Key) -> io::Result<()> {
        self.mroute.remove(key)
    }
}

impl Kernel for Linux {
    fn now(&self) -> u64 {
        clock().saturating_sub(self.began) / 1_000_000
    }

    fn began(&self) -> u64 {
        self.began
    }

    fn sockets(&self) -> Vec<(String, RawFd)> {
        let fixed = self.links.sockets().into_iter().chain(self.unicasts.sockets());
        let fixed = fixed.chain([(MROUTE, self.mroute.as_raw_fd())]).map(|(name, fd)| (name.to_string(), fd));
        fixed.chain(self.own_reports.sockets()).chain(self.liveness.sockets()).collect()
    }

    fn end(&mut self) {
        if let Err(error) = self.mroute.end() {
            debug!("the kernel's multicast routing was ended: {error}");
        }
    }

    fn stay(&mut self) {
        self.stays = true;
    }

    fn hear(&mut self, from: Source) -> io::Result<Option<Event>> {
        let room = &mut self.room;
        match from {
            Source::Changes => self.changes(),
            Source::Upcalls => {
                let message = self.mroute.hear(room)?;
                Ok(message.map(|message| Upcall::read(message).map_or(Event::Nothing, Event::Upcall)))
            }
            Source::Unicasts => Ok(self.unicasts.hear(room)?.map(|packet| Event::Unicast(packet.to_vec()))),
            Source::OwnReports => Ok(self.own_reports.hear(room)?.map(|packet| Event::OwnReport(packet.to_vec()))),
            Source::Bfd => {
                let heard = self.liveness.hear(room)?;
                Ok(heard.map(|(index, from, packet)| Event::Bfd { index, from, packet }))
            }
            Source::Frames => Ok(self.links.hear()?.map(|(index, packet)| Event::Frame { index, packet })),
        }
    }

    fn has_read(&self, from: Source) -> bool {
        from == Source::Frames && self.links.has_read()
    }

    fn waits(&self) -> Vec<(Source, RawFd)> {
        let own = [
            (Source::Changes, self.netlink.as_raw_fd()),
            (Source::Upcalls, self.mroute.as_raw_fd()),
            (Source::Unicasts, self.unicasts.as_raw_fd()),
            (Source::OwnReports, self.own_reports.as_raw_fd()),
            (Source::Frames, self.links.as_raw_fd()),
        ];
        own.into_iter().chain(self.liveness.waits().map(|fd| (Source::Bfd, fd))).collect()
    }

    fn links(&mut self) -> io::Result<Vec<Link>> {
        let links = self.netlink.links()?;
        self.mtus = links.iter().map(|link| (link.index, link.mtu as usize)).collect();
        self.names = links.iter().map(|link| (link.index, link.name.clone())).collect();
        Ok(links)
    }

    fn addresses(&mut self) -> io::Result<Vec<(u32, Subnet)>> {
        self.netlink.addresses()
    }

    fn routes(&mut self, table: Option<u32>) -> io::Result<Vec<KernelRoute>> {
        self.netlink.routes(table.unwrap_or(self.tables.unicast))
    }

    fn multicast_table(&self) -> u32 {
        self.tables.multicast
    }

    fn is_filter_strict(&self, name: &str) -> bool {
        let filter = |of: &str| {
            let text = std::fs::read_to_string(format!("/proc/sys/net/ipv4/conf/{of}/rp_filter"));
            text.map_or(0, |text| text.trim().parse().unwrap_or(0))
        };
        filter("all").max(filter(name)) == 1
    }

    fn add_vif(&mut self, vif: u16, index: u32) -> io::Result<()> {
        self.mroute.add_vif(vif, index)?;
        if let Some(name) = self.names.get(&index) {
            self.tables.lead(&mut self.netlink, vif, name)?;
        }
        self.own_reports.hear_from(index)
    }

    fn resume_vif(&mut self, vif: u16, index: u32) -> io::Result<()> {
        if self.mroute.carried(vif).is_err() {
            return self.add_vif(vif, index);
        }
        if let Some(name) = self.names.get(&index) {
            self.tables.lead(&mut self.netlink, vif, name)?;
        }
        match self.own_reports.hears_from(index) {
            true => Ok(()),
            false => self.own_reports.hear_from(index),
        }
    }

    fn remove_vif(&mut self, vif: u16) -> io::Result<()> {
        self.tables.lead_no_more(&mut self.netlink, vif);
        self.mroute.remove_vif(vif)
    }

    fn used(&mut self) -> io::Result<Vec<Used>> {
        self.netlink.used(self.tables.multicast)
    }

    fn carried(&self, vif: u16) -> io::Result<Carried> {
        self.mroute.carried(vif)
    }

    fn send_on(&mut self, index: u32, packet: &[u8]) -> io::Result<()> {
        let sent =
            if is_query(packet) { self.links.send_shared(index, packet) } else { self.links.send(index, packet) };
        match sent {
            Err(error) if error.raw_os_error() == Some(libc::EMSGSIZE) => self.send_in_fragments(index, packet, error),
            other => other,
        }
    }

    fn send_unicast(&mut self, packet: &[u8]) -> io::Result<()> {
        self.unicasts.send(packet)
    }

    fn hear_bfd_on(&mut self, index: u32) -> io::Result<()> {
        let name = self.names.get(&index).ok_or(io::ErrorKind::NotFound)?;
        self.liveness.hear_on(index, name)
    }

    fn hear_bfd_no_more(&mut self, index: u32) {
        self.liveness.hear_no_more(index);
    }

    fn send_bfd(&mut self, index: u32, ends: (Ipv4Addr, Ipv4Addr), packet: &[u8]) -> io::Result<()> {
        let name = self.names.get(&index).ok_or(io::ErrorKind::NotFound)?;
        self.liveness.send((index, name), ends, packet)
    }
}
