//! Sessions of MSDP (RFC 3618) with other RPs: their sockets, what is told to them and taken of them.
//!
//! What a peer says of a source is given to the library as a DR's Register of it, from the peer. The router tells of the
//! sources that DRs register with it, and of those on links of which it is the DR, where it is the RP; of a source that it
//! knows of a peer alone it never tells as its own.
use super::watched::Kind;
use super::{Daemon, Event, Fatal};
use crate::core::Answer;
use crate::mroute::Key;
use crate::msdp::session::Told;
use crate::msdp::{
    is_passed_on, is_rpf_peer, Cache, Neighbour, Put, Session, ADVERTISEMENT, CONNECT_RETRY, PORT, REGISTERED,
};
use crate::settings::MsdpPeer;
use crate::tables::Domain;
use crate::wire::Scope;
use log::{debug, info, warn};
use socket2::{Domain as Family, Protocol, SockAddr, Socket, Type};
use std::collections::BTreeMap;
use std::io::{self, Read, Write};
use std::net::{Ipv4Addr, SocketAddrV4};
use std::os::unix::io::{AsRawFd, RawFd};
use viqeshor::{ActiveRow, SourceActive};

/// How often sessions and sources are looked at, in ms.
const TICK: u64 = 1_000;
/// So many bytes of a peer are read before others have their turn.
const TURN: usize = 65_536;
/// So many connections are taken in a turn.
const MOST_WELCOMED: usize = 16;

/// How a peer's session stands.
enum Line {
    Down,
    Connecting(Socket),
    Up(Socket, Session),
}

/// What is counted of a peer.
#[derive(Clone, Copy, Debug, Default, PartialEq, Eq)]
pub struct Tally {
    pub resets: u64,
    /// Sources that weren't taken: not of the RPF peer, by the settings, for want of room.
    pub not_rpf: u64,
    pub not_permitted: u64,
    pub no_room: u64,
}

struct Peer {
    address: Ipv4Addr,
    line: Line,
    /// When it is connected to again, in ms.
    retry: u64,
    /// Why the last session is over.
    why: Option<String>,
    tally: Tally,
}

impl Peer {
    fn new(address: Ipv4Addr, now: u64) -> Peer {
        Peer { address, line: Line::Down, retry: now, why: None, tally: Tally::default() }
    }

    fn is_up(&self) -> bool {
        matches!(self.line, Line::Up(..))
    }

    fn socket(&self) -> Option<&Socket> {
        match &self.line {
            Line::Down => None,
            Line::Connecting(socket) | Line::Up(socket, _) => Some(socket),
        }
    }
}

/// A source of which the router tells.
#[derive(Clone, Copy, Debug)]
struct Own {
    /// When it is told of next, in ms.
    due: u64,
    /// Registers of it came lately, until then, in ms.
    registered: Option<u64>,
}

#[derive(Default)]
pub struct Msdp {
    listener: Option<Socket>,
    listen_due: u64,
    peers: BTreeMap<Ipv4Addr, Peer>,
    pub cache: Cache,
    own: BTreeMap<Key, Own>,
    due: u64,
    /// When the sources on the router's own links are looked for, in ms.
    scan_due: u64,
}

/// What is shown of a peer.
pub struct Shown {
    pub peer: Ipv4Addr,
    pub address: Ipv4Addr,
    pub mesh: Option<String>,
    pub state: &'static str,
    /// In ms.
    pub since: Option<u64>,
    pub heard: u64,
    pub sent: u64,
    pub kept: usize,
    pub tally: Tally,
    pub why: Option<String>,
}

impl Msdp {
    pub fn is_on(&self) -> bool {
        !self.peers.is_empty()
    }

    /// What is to be waited for, and whether there is something to write.
    pub fn waits(&self) -> Vec<(RawFd, bool)> {
        let listener = self.listener.iter().map(|socket| (socket.as_raw_fd(), false));
        let of = |peer: &Peer| {
            let writes = match &peer.line {
                Line::Connecting(_) => true,
                Line::Up(_, session) => !session.leaves().is_empty(),
                Line::Down => false,
            };
            peer.socket().map(|socket| (socket.as_raw_fd(), writes))
        };
        listener.chain(self.peers.values().filter_map(of)).collect()
    }

    /// When something is to be done, in ms.
    pub fn due(&self) -> Option<u64> {
        self.is_on().then_some(self.due)
    }

    /// Of which sources the router tells.
    pub fn own(&self) -> impl Iterator<Item = Key> + '_ {
        self.own.keys().copied()
    }

    fn neighbours<'a>(&self, settings: &'a [MsdpPeer], rp: Ipv4Addr) -> Vec<Neighbour<'a>> {
        let of = |it: &'a MsdpPeer| Neighbour {
            address: it.peer,
            mesh: it.mesh.as_deref(),
            is_static: it.rpf.iter().any(|subnet| subnet.contains(rp.into())),
            is_up: self.peers.get(&it.peer).map_or(false, Peer::is_up),
        };
        settings.iter().map(of).collect()
    }

    fn tell(&mut self, to: &MsdpPeer, rp: Ipv4Addr, keys: &[Key], now: u64) {
        if let Some(Line::Up(_, session)) = self.peers.get_mut(&to.peer).map(|peer| &mut peer.line) {
            let told: Vec<_> =
                keys.iter().filter(|key| to.tell.permits(Some(key.source), key.group)).copied().collect();
            session.tell(rp, &told, now);
        }
    }

    fn shown(&self, settings: &MsdpPeer) -> Option<Shown> {
        let peer = self.peers.get(&settings.peer)?;
        let (state, session) = match &peer.line {
            Line::Up(_, session) => ("established", Some(session)),
            Line::Connecting(_) => ("connecting", None),
            Line::Down if settings.listens() => ("listening", None),
            Line::Down => ("inactive", None),
        };
        Some(Shown {
            peer: settings.peer,
            address: settings.address,
            mesh: settings.mesh.clone(),
            state,
            since: session.map(|session| session.since),
            heard: session.map_or(0, |session| session.counts.heard),
            sent: session.map_or(0, |session| session.counts.sent),
            kept: self.cache.count(settings.peer),
            tally: peer.tally,
            why: peer.why.clone(),
        })
    }
}

/// A socket of TCP that never waits.
fn socket_of(scope: &Scope, address: Ipv4Addr, port: u16) -> io::Result<Socket> {
    let socket = Socket::new(Family::IPV4, Type::STREAM.nonblocking(), Some(Protocol::TCP))?;
    scope.limit(&socket)?;
    socket.set_reuse_address(true)?;
    socket.bind(&SockAddr::from(SocketAddrV4::new(address, port)))?;
    Ok(socket)
}

fn listen(scope: &Scope) -> io::Result<Socket> {
    let socket = socket_of(scope, Ipv4Addr::UNSPECIFIED, PORT)?;
    socket.listen(MOST_WELCOMED as i32)?;
    Ok(socket)
}

fn connect(scope: &Scope, from: Ipv4Addr, to: Ipv4Addr) -> io::Result<Socket> {
    let socket = socket_of(scope, from, 0)?;
    match socket.connect(&SockAddr::from(SocketAddrV4::new(to, PORT))) {
        Err(error) if error.raw_os_error() != Some(libc::EINPROGRESS) => Err(error),
        _ => Ok(socket),
    }
}

/// A connection that is tried: whether it is there.
fn is_connected(socket: &Socket) -> io::Result<bool> {
    match socket.take_error()? {
        Some(error) => Err(error),
        None => match socket.peer_addr() {
            Ok(_) => Ok(true),
            Err(error) if error.kind() == io::ErrorKind::NotConnected => Ok(false),
            Err(error) => Err(error),
        },
    }
}

/// Writes what the socket takes.
fn write(socket: &Socket, session: &mut Session) -> io::Result<()> {
    while !session.leaves().is_empty() {
        match (&*socket).write(session.leaves()) {
            Ok(count) => session.left(count),
            Err(error) if error.kind() == io::ErrorKind::WouldBlock => return Ok(()),
            Err(error) if error.kind() == io::ErrorKind::Interrupted => {}
            Err(error) => return Err(error),
        }
    }
    Ok(())
}

/// Reads what waits, up to a bound. An `Err` says why the session is over.
fn read(socket: &Socket, session: &mut Session, now: u64) -> Result<Vec<Told>, String> {
    let (mut room, mut told) = ([0; 16_384], Vec::new());
    for _ in 0..TURN / room.len() {
        match (&*socket).read(&mut room) {
            Ok(0) => return Err("the peer closed it".to_string()),
            Ok(count) => told.extend(session.heard(&room[..count], now)?),
            Err(error) if error.kind() == io::ErrorKind::WouldBlock => break,
            Err(error) if error.kind() == io::ErrorKind::Interrupted => {}
            Err(error) => return Err(error.to_string()),
        }
    }
    Ok(told)
}

/// A source of which MSDP may tell.
fn is_of_msdp(key: Key) -> bool {
    let [first, second, third, _] = key.group.octets();
    let is_for_a_link = [first, second, third] == [224, 0, 0];
    let is_host = !(key.source.is_multicast() || key.source.is_loopback() || key.source.is_broadcast());
    let is_usual = key.source.octets()[0] != 0 && key.source.octets()[0] < 224;
    key.group.is_multicast() && !is_for_a_link && first != 232 && is_host && is_usual
}

impl Daemon {
    fn msdp_scope(&self) -> Scope {
        match &self.settings.domain {
            Domain::Usual => Scope::All,
            Domain::Table(number) => Scope::Mark(*number),
            Domain::Vrf(name) => Scope::Device(name.clone()),
        }
    }

    /// Peers go by the settings.
    pub(super) fn set_msdp(&mut self) {
        let now = self.now();
        let (wanted, msdp) = (&self.settings.msdp, &mut self.msdp);
        let is_wanted =
            |at: &Ipv4Addr, peer: &Peer| wanted.iter().any(|it| it.peer == *at && it.address == peer.address);
        let gone: Vec<_> = msdp.peers.iter().filter(|(at, peer)| !is_wanted(at, peer)).map(|(at, _)| *at).collect();
        for at in gone {
            msdp.peers.remove(&at);
            msdp.cache.forget_peer(at);
        }
        for it in wanted {
            msdp.peers.entry(it.peer).or_insert_with(|| Peer::new(it.address, now));
        }
        if !wanted.iter().any(MsdpPeer::listens) {
            msdp.listener = None;
        }
        if wanted.is_empty() {
            msdp.own.clear();
        }
        (msdp.due, msdp.scan_due, msdp.listen_due) = (now, now, now);
    }

    /// The address by which the router tells of its sources: the one of the first peer, the same for all of them.
    fn originator(&self) -> Option<Ipv4Addr> {
        self.settings.msdp.first().map(|it| it.address)
    }

    // ---- sessions

    fn msdp_listens(&mut self) {
        let now = self.now();
        if self.msdp.listener.is_some()
            || self.msdp.listen_due > now
            || !self.settings.msdp.iter().any(MsdpPeer::listens)
        {
            return;
        }
        match listen(&self.msdp_scope()) {
            Ok(listener) => self.msdp.listener = Some(listener),
            Err(error) => {
                self.msdp.listen_due = now + CONNECT_RETRY;
                if self.may_say(Kind::Msdp, None) {
                    warn!("MSDP can't be heard at port {PORT}: {error}; it is tried again");
                }
            }
        }
    }

    /// Peers connect; anybody else is let go at once.
    fn msdp_welcomes(&mut self) {
        for _ in 0..MOST_WELCOMED {
            let (socket, from) = match self.msdp.listener.as_ref().map(Socket::accept) {
                Some(Ok((socket, from))) => (socket, from.as_socket_ipv4().map(|it| *it.ip())),
                _ => return,
            };
            let to = socket.local_addr().ok().and_then(|it| it.as_socket_ipv4()).map(|it| *it.ip());
            let is_peer = |it: &&MsdpPeer| Some(it.peer) == from && Some(it.address) == to && it.listens();
            let peer = self.settings.msdp.iter().find(is_peer).map(|it| it.peer);
            match peer.filter(|_| socket.set_nonblocking(true).is_ok()) {
                Some(peer) => {
                    if self.msdp.peers.get(&peer).map_or(false, Peer::is_up) {
                        self.msdp_ends(peer, "the peer connects anew");
                    }
                    self.msdp_is_up(peer, socket);
                }
                None => {
                    self.counters.msdp_strangers += 1;
                    debug!("MSDP: a connection of no peer that connects, {from:?}, is let go");
                }
            }
        }
    }

    pub(super) fn msdp_is_up(&mut self, at: Ipv4Addr, socket: Socket) {
        let now = self.now();
        if let Some(peer) = self.msdp.peers.get_mut(&at) {
            peer.line = Line::Up(socket, Session::new(now));
            peer.why = None;
        }
        if self.may_say(Kind::Msdp, None) {
            info!("MSDP: the session with {at} is up");
        }
        self.msdp_tells_all(at);
    }

    /// A peer whose session has come up is told of all sources that are known (5.2).
    fn msdp_tells_all(&mut self, at: Ipv4Addr) {
        let now = self.now();
        let (to, originator) = match (self.settings.msdp.iter().find(|it| it.peer == at), self.originator()) {
            (Some(to), Some(originator)) => (to.clone(), originator),
            _ => return,
        };
        let own: Vec<_> = self.msdp.own().collect();
        self.msdp.tell(&to, originator, &own, now);
        let mesh_of =
            |peer: Ipv4Addr| self.settings.msdp.iter().find(|it| it.peer == peer).and_then(|it| it.mesh.as_deref());
        let mut kept: BTreeMap<Ipv4Addr, Vec<Key>> = BTreeMap::new();
        for (key, rp, entry) in self.msdp.cache.entries() {
            if rp != at && is_passed_on((entry.from, mesh_of(entry.from)), (at, to.mesh.as_deref())) {
                kept.entry(rp).or_default().push(key);
            }
        }
        kept.into_iter().for_each(|(rp, keys)| self.msdp.tell(&to, rp, &keys, now));
    }

    fn msdp_ends(&mut self, at: Ipv4Addr, why: &str) {
        let retry = self.now() + CONNECT_RETRY;
        let was_up = match self.msdp.peers.get_mut(&at) {
            Some(peer) => {
                let was_up = peer.is_up();
                peer.tally.resets += u64::from(was_up);
                (peer.line, peer.retry, peer.why) = (Line::Down, retry, Some(why.to_string()));
                was_up
            }
            None => return,
        };
        if was_up && self.may_say(Kind::Msdp, None) {
            warn!("MSDP: the session with {at} is over: {why}");
        } else {
            debug!("MSDP: no session with {at}: {why}");
        }
    }

    /// The router's side connects, where it has the lower address (11).
    fn msdp_connects(&mut self) {
        let (now, scope) = (self.now(), self.msdp_scope());
        let is_due = |peer: &Peer| matches!(peer.line, Line::Down) && peer.retry <= now;
        let wanted = self.settings.msdp.iter().filter(|it| !it.listens());
        let due: Vec<_> = wanted
            .filter(|it| self.msdp.peers.get(&it.peer).map_or(false, is_due))
            .map(|it| (it.address, it.peer))
            .collect();
        for (from, to) in due {
            let tried = connect(&scope, from, to);
            if let Some(peer) = self.msdp.peers.get_mut(&to) {
                peer.retry = now + CONNECT_RETRY;
                match tried {
                    Ok(socket) => peer.line = Line::Connecting(socket),
                    Err(error) => peer.why = Some(error.to_string()),
                }
            }
        }
    }

    /// Something waits at a socket of MSDP, or may be written there.
    pub(super) fn msdp_turn(&mut self) -> Result<(), Fatal> {
        self.msdp_welcomes();
        let peers: Vec<_> = self.msdp.peers.keys().copied().collect();
        peers.into_iter().try_for_each(|at| self.msdp_serves(at))
    }

    fn msdp_serves(&mut self, at: Ipv4Addr) -> Result<(), Fatal> {
        let now = self.now();
        let peer = match self.msdp.peers.get_mut(&at) {
            Some(peer) => peer,
            None => return Ok(()),
        };
        match std::mem::replace(&mut peer.line, Line::Down) {
            Line::Down => {}
            Line::Connecting(socket) => match is_connected(&socket) {
                Ok(true) => self.msdp_is_up(at, socket),
                Ok(false) => peer.line = Line::Connecting(socket),
                Err(error) => self.msdp_ends(at, &error.to_string()),
            },
            Line::Up(socket, mut session) => {
                let read = read(&socket, &mut session, now);
                peer.line = Line::Up(socket, session);
                match read {
                    Ok(told) => told.into_iter().try_for_each(|told| self.msdp_takes(at, told))?,
                    Err(why) => self.msdp_ends(at, &why),
                }
            }
        }
        self.msdp_writes(at);
        Ok(())
    }

    fn msdp_writes(&mut self, at: Ipv4Addr) {
        let written = match self.msdp.peers.get_mut(&at).map(|peer| &mut peer.line) {
            Some(Line::Up(socket, session)) => write(socket, session),
            _ => return,
        };
        if let Err(error) = written {
            self.msdp_ends(at, &error.to_string());
        }
    }

    /// What is due by the clock.
    pub(super) fn keep_msdp(&mut self) -> Result<(), Fatal> {
        let now = self.now();
        if self.msdp.due().map_or(true, |due| now < due) {
            return Ok(());
        }
        self.msdp.due = now + TICK;
        self.msdp_listens();
        let mut over = Vec::new();
        for (at, peer) in &mut self.msdp.peers {
            match &mut peer.line {
                Line::Up(_, session) => over.extend(session.passes(now).err().map(|why| (*at, why))),
                Line::Connecting(_) if peer.retry <= now => over.push((*at, "it doesn't answer")),
                _ => {}
            }
        }
        over.into_iter().for_each(|(at, why)| self.msdp_ends(at, why));
        self.msdp_connects();
        self.msdp.cache.forget(now);
        if self.msdp.scan_due <= now {
            self.msdp.scan_due = now + ADVERTISEMENT;
            self.find_own()?;
        }
        self.tell_own();
        let peers: Vec<_> = self.msdp.peers.keys().copied().collect();
        peers.into_iter().for_each(|at| self.msdp_writes(at));
        Ok(())
    }

    // ---- what the router tells

    /// Sources on the router's own links.
    fn find_own(&mut self) -> Result<(), Fatal> {
        let active = self.core.rows_of::<ActiveRow>()?;
        active.iter().for_each(|row| self.watch_own(Key { source: row.source, group: row.group }));
        Ok(())
    }

    /// The row of a source changed: it is told of at once, where it is one on a link of which the router is the DR.
    pub(super) fn watch_own(&mut self, key: Key) {
        if self.msdp.is_on() && !self.msdp.own.contains_key(&key) && self.core.is_own_source(key) {
            self.msdp_has_new(key, None);
        }
    }

    /// The router took a packet by unicast: a source that a DR registers by it is told of while Registers come.
    pub(super) fn watch_registered(&mut self, packet: &[u8]) {
        if !self.msdp.is_on() {
            return;
        }
        if let Some(key) = self.core.registered(packet) {
            let end = self.now() + REGISTERED;
            match self.msdp.own.get_mut(&key) {
                Some(own) => own.registered = Some(end),
                None => self.msdp_has_new(key, Some(end)),
            }
        }
    }

    fn msdp_has_new(&mut self, key: Key, registered: Option<u64>) {
        let now = self.now();
        if is_of_msdp(key) {
            self.msdp.own.insert(key, Own { due: now, registered });
            self.msdp.due = now;
        }
    }

    /// Whether the router tells of a source still.
    fn is_own_still(&mut self, key: Key, own: Own) -> bool {
        let is_registered = own.registered.map_or(false, |end| self.now() < end);
        let is_rp = || self.core.rp(key.group).map_or(false, |rp| self.core.told.is_own(rp));
        self.core.is_kept_alive(key) && ((is_registered && is_rp()) || self.core.is_own_source(key))
    }

    /// Each source is told of once in 60 s, at a time of its own (5.1, 5.2).
    fn tell_own(&mut self) {
        let now = self.now();
        let due: Vec<_> =
            self.msdp.own.iter().filter(|(_, own)| own.due <= now).map(|(key, own)| (*key, *own)).collect();
        let mut told = Vec::new();
        for (key, own) in due {
            match self.is_own_still(key, own) {
                true => {
                    told.push(key);
                    self.msdp.own.insert(key, Own { due: now + ADVERTISEMENT, ..own });
                }
                false => {
                    self.msdp.own.remove(&key);
                }
            }
        }
        if let (Some(originator), false) = (self.originator(), told.is_empty()) {
            let Daemon { settings, msdp, .. } = self;
            settings.msdp.iter().for_each(|to| msdp.tell(to, originator, &told, now));
        }
    }

    // ---- what the router takes

    fn tally(&mut self, at: Ipv4Addr) -> Option<&mut Tally> {
        self.msdp.peers.get_mut(&at).map(|peer| &mut peer.tally)
    }

    /// A peer said that sources of an RP send.
    fn msdp_takes(&mut self, from: Ipv4Addr, told: Told) -> Result<(), Fatal> {
        let now = self.now();
        let settings = match self.settings.msdp.iter().find(|it| it.peer == from) {
            Some(settings) => settings.clone(),
            None => return Ok(()),
        };
        let neighbours = self.msdp.neighbours(&self.settings.msdp, told.rp);
        if self.originator() == Some(told.rp) || !is_rpf_peer(from, told.rp, &neighbours) {
            self.tally(from).into_iter().for_each(|it| it.not_rpf += told.keys.len() as u64);
            return Ok(());
        }
        let mut passed = Vec::new();
        for key in told.keys {
            if !is_of_msdp(key) || !settings.accept.permits(Some(key.source), key.group) {
                self.tally(from).into_iter().for_each(|it| it.not_permitted += 1);
                continue;
            }
            match self.msdp.cache.put(key, told.rp, from, settings.max_kept as usize, now) {
                Put::Full => {
                    self.tally(from).into_iter().for_each(|it| it.no_room += 1);
                    continue;
                }
                Put::PassedOn => passed.push(key),
                Put::Kept => {}
            }
            let packet = told.packet.as_ref().filter(|(of, _)| *of == key).map(|(_, packet)| &packet[..]);
            self.give_source(from, key, packet.unwrap_or(&[]))?;
        }
        let Daemon { settings: all, msdp, .. } = self;
        let is_told = |to: &&MsdpPeer| is_passed_on((from, settings.mesh.as_deref()), (to.peer, to.mesh.as_deref()));
        all.msdp
            .iter()
            .filter(is_told)
            .filter(|to| to.peer != told.rp)
            .for_each(|to| msdp.tell(to, told.rp, &passed, now));
        Ok(())
    }

    /// The library's router is told of a source, where it is the RP.
    fn give_source(&mut self, peer: Ipv4Addr, key: Key, packet: &[u8]) -> Result<(), Fatal> {
        let rp = match self.core.rp(key.group).filter(|rp| self.core.told.is_own(*rp)) {
            Some(rp) => rp,
            None => return Ok(()),
        };
        let told = SourceActive { peer, rp, source: key.source, group: key.group, packet };
        let given = match self.core.source_active(&told) {
            Some(given) => given,
            None => return Ok(()),
        };
        self.catch_up()?;
        self.in_hand = Some((key, None));
        // The peer registers nothing: it is sent no Register-Stop.
        self.silent_to = Some(peer);
        let answer = self.take(Event::Unicast(&given));
        (self.in_hand, self.silent_to) = (None, None);
        self.unknown_of_may_differ(key.group);
        if let Answer::Refused(refusal) = answer? {
            debug!("MSDP: {key} is refused: {}", viqeshor::Error::Refused(refusal));
        }
        Ok(())
    }

    // ---- for people

    pub fn msdp_peers(&self) -> Vec<Shown> {
        self.settings.msdp.iter().filter_map(|it| self.msdp.shown(it)).collect()
    }
}
