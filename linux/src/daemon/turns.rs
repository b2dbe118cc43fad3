//! The loop: what waits at the sockets, what is due by the clock, and what signals ask for.
use super::cleared::Lines;
use super::upgrade::Keeping;
use super::watched::Kind;
use super::{Answer, Daemon, Event, Fatal};
use crate::bfd::Session;
use crate::control::Control;
use crate::core::ranges_of;
use crate::inherited::Inherited;
use crate::kernel::{self, Source};
use crate::program::{hold_signals, Program};
use crate::server::Server;
use crate::{metrics, settings};
use log::{error, info, warn};
use nix::poll::{poll, PollFd, PollFlags};
use signal_hook::consts::{SIGHUP, SIGINT, SIGTERM, SIGUSR1, SIGUSR2};
use std::net::SocketAddr;
use std::os::unix::io::{AsRawFd, RawFd};
use std::os::unix::net::UnixStream;
use std::sync::atomic::{AtomicBool, Ordering};
use std::sync::Arc;
use viqeshor::Choice;

/// How often the kernel's counts are read, in ms; where reading them takes long, for a part of the time.
const LOOK_EVERY: u64 = 10_000;
const PART_OF_TIME: u64 = 10;
/// So many sources that were refused are asked for again after a look: of a flood each would cost a packet anew.
const MOST_ASKED_AGAIN: usize = 1_024;
/// A source without a fact of which nothing comes for so long has no entry, in ms.
const IDLE: u64 = 60_000;
/// How long after a try what the sockets of clients want is tried again, in ms.
const AGAIN: u64 = 5_000;
/// So many messages of a socket are taken before the others have their turn.
const TURN: usize = 256;

/// What a signal asked for.
struct Asked {
    end: Arc<AtomicBool>,
    restart: Arc<AtomicBool>,
    reload: Arc<AtomicBool>,
    upgrade: Arc<AtomicBool>,
    wakes: UnixStream,
}

impl Asked {
    fn new() -> std::io::Result<Asked> {
        let (wakes, other) = UnixStream::pair()?;
        wakes.set_nonblocking(true)?;
        let [end, restart, reload, upgrade] = [(); 4].map(|()| Arc::default());
        let asked = Asked { end, restart, reload, upgrade, wakes };
        let flags = [
            (SIGTERM, &asked.end),
            (SIGINT, &asked.end),
            (SIGUSR1, &asked.restart),
            (SIGHUP, &asked.reload),
            (SIGUSR2, &asked.upgrade),
        ];
        for (signal, flag) in flags {
            signal_hook::flag::register(signal, Arc::clone(flag))?;
            signal_hook::low_level::pipe::register(signal, other.try_clone()?)?;
        }
        // The router before this one may have had them wait.
        hold_signals(false);
        Ok(asked)
    }

    fn is_over(&self) -> bool {
        [&self.end, &self.restart].iter().any(|flag| flag.load(Ordering::Relaxed))
    }

    fn forget_wakes(&self) {
        let mut room = [0; 64];
        while matches!(std::io::Read::read(&mut &self.wakes, &mut room), Ok(length) if length > 0) {}
    }
}

/// Where something waits.
#[derive(Default)]
struct Ready {
    sources: Vec<Source>,
    /// A signal came.
    is_woken: bool,
    /// A client came, or asks.
    is_asked: bool,
    /// A peer of MSDP.
    is_of_peers: bool,
}

/// Where clients ask.
pub(super) struct Servers {
    control: Control,
    metrics: Option<(SocketAddr, Server)>,
    /// Why the control socket, or that of metrics, isn't as the settings have it.
    wanting: [Option<String>; 2],
    /// When that is tried again, in ms.
    due: Option<u64>,
}

const CONTROL: &str = "control";
const METRICS: &str = "metrics";

impl Servers {
    /// With the listeners of the router before this one, where it listened there.
    fn open(settings: &settings::Settings, inherited: &mut Inherited) -> Result<Servers, Fatal> {
        let path = || settings.control.path.clone();
        let before = inherited.take(CONTROL).and_then(|listener| Control::resume(&settings.control, listener).ok());
        let control = match before {
            Some(control) => control,
            None => Control::open(&settings.control).map_err(|error| Fatal::Control { path: path(), error })?,
        };
        let before = inherited.take(METRICS).zip(settings.metrics);
        let metrics = before.and_then(|(listener, at)| Some((at, metrics::resume(at, listener).ok()?)));
        let mut servers = Servers { control, metrics, wanting: Default::default(), due: None };
        servers.try_again(settings, 0);
        Ok(servers)
    }

    /// Tries what the settings want of the sockets and the machine didn't have. A line says what is wanting, and when it
    /// is there.
    fn try_again(&mut self, settings: &settings::Settings, now: u64) {
        let control = self.control.open_up().err();
        let control = control.map(|error| {
            format!("the control socket {} is for the router's user alone: {error}", settings.control.path.display())
        });
        let wanted = settings.metrics.filter(|_| self.metrics.is_none());
        let metrics = match wanted.map(|at| (at, metrics::listen(at))) {
            Some((at, Err(error))) => Some(format!("metrics can't be answered at {at}: {error}")),
            Some((at, Ok(server))) => {
                self.metrics = Some((at, server));
                None
            }
            None => None,
        };
        let found = [control, metrics];
        for (before, after) in self.wanting.iter().zip(&found).filter(|(before, after)| before != after) {
            match (before, after) {
                (_, Some(after)) => warn!("{after}; it is tried again"),
                (Some(before), None) => info!("this is over: {before}"),
                (None, None) => {}
            }
        }
        self.due = found.iter().any(Option::is_some).then_some(now + AGAIN);
        self.wanting = found;
    }

    /// What another router may go on with, by names.
    pub(super) fn sockets(&self) -> Vec<(String, RawFd)> {
        let metrics = self.metrics.iter().map(|(_, server)| (METRICS.to_string(), server.listener()));
        metrics.chain([(CONTROL.to_string(), self.control.listener())]).collect()
    }

    /// The processes that write answers.
    pub(super) fn answers(&self) -> Vec<i32> {
        self.each().flat_map(|server| server.answers().iter().copied()).collect()
    }

    /// Listens for Prometheus where other settings say.
    fn take_settings(&mut self, settings: &settings::Settings, now: u64) {
        if self.metrics.as_ref().map(|(at, _)| *at) != settings.metrics {
            self.metrics = None;
            self.try_again(settings, now);
        }
    }

    fn each(&self) -> impl Iterator<Item = &Server> {
        std::iter::once(&*self.control).chain(self.metrics.iter().map(|(_, server)| server))
    }

    fn serve(&mut self, daemon: &mut Daemon) {
        self.control.serve(&mut Lines(daemon));
        if let Some((_, server)) = &mut self.metrics {
            server.serve(&mut metrics::Http(daemon));
        }
    }
}

impl Daemon {
    /// The settings anew. A file with a problem changes nothing.
    fn reload(&mut self) -> Result<(), Fatal> {
        let read = std::fs::read_to_string(&self.file).map_err(|error| vec![error.to_string()]);
        let said = |problems: Vec<settings::Problem>| problems.iter().map(|problem| problem.to_string()).collect();
        match read.and_then(|text| settings::read(&text).map_err(said)) {
            Ok(new) => self.take_settings(new),
            Err(problems) => {
                problems.iter().for_each(|problem| error!("{}: {problem}", self.file.display()));
                error!("the settings stay as they were");
                Ok(())
            }
        }
    }

    pub(super) fn take_settings(&mut self, mut new: settings::Settings) -> Result<(), Fatal> {
        if new.control != self.settings.control {
            warn!("socket differs in the file, or socket_group or socket_mode: it is taken by a restart");
            new.control = self.settings.control.clone();
        }
        if new.domain != self.settings.domain {
            warn!("table or vrf differs in the file: it is taken by a restart");
            new.domain = self.settings.domain.clone();
        }
        log::set_max_level(new.level);
        let is_limit_new = new.bsr.as_ref().map_or(false, |bsr| self.core.set_limit(bsr.limit));
        let are_rps_new = new.rps != self.settings.rps || is_limit_new;
        let is_router_new = self.settings.differs_in_router(&new);
        self.settings = new;
        crate::ports::take_settings(&mut self.ports, &self.settings.interfaces);
        self.set_policy();
        self.repeat_hellos_anew();
        self.neighbours.are_stale = true;
        if is_router_new {
            self.reconfigure("the settings differ")?;
        }
        // With a configuration the library's router is given the ranges of the file, but where RPs are learned beside them.
        if are_rps_new && (!is_router_new || self.core.listens()) {
            self.set_ranges()?;
        }
        self.speak()?;
        self.choose()?;
        self.record();
        self.set_msdp();
        self.place_all();
        // What was refused may be permitted now: the next packet asks.
        self.plane.unknown().into_iter().for_each(|key| self.withdraw(key));
        self.read_routes()?;
        info!("the settings are read anew: {} RP ranges", self.settings.rps.len());
        Ok(())
    }

    pub(super) fn set_ranges(&mut self) -> Result<(), Fatal> {
        self.advance()?;
        let ranges = ranges_of(&self.settings.rps);
        match self.take(Event::Ranges(&ranges))? {
            Answer::Refused(refusal) => error!("the RP ranges are refused: {}", viqeshor::Error::Refused(refusal)),
            // Beside more ranges, or under a lower limit, there may be fewer.
            _ if self.core.choice() == Some(Choice::Group) => self.give()?,
            _ => {}
        }
        self.all_unknown_may_differ();
        Ok(())
    }

    /// Until it is asked to end, or can't go on; with what else the router before this one had.
    pub fn run(&mut self, inherited: &mut Inherited, answers: Vec<i32>) -> Result<(), Fatal> {
        let program = Program::running();
        let asked = Asked::new().map_err(Fatal::Signals)?;
        let mut servers = Servers::open(&self.settings, inherited)?;
        servers.control.take_answers(answers);
        self.keeping = Keeping::new(self.kernel.as_ref());
        info!(
            "the router begins in {}: {} interfaces, {} RP ranges, the library {}",
            self.settings.domain,
            self.ports.len(),
            self.settings.rps.len(),
            viqeshor::version()
        );
        self.begin()?;
        while !asked.is_over() {
            let ready = self.wait(&asked, &servers)?;
            if ready.is_woken {
                asked.forget_wakes();
            }
            let [reload, upgrade] = [&asked.reload, &asked.upgrade].map(|flag| flag.swap(false, Ordering::Relaxed));
            let is_other = reload && program.has_changed();
            if upgrade || is_other {
                self.ask_successor(&program, is_other);
            }
            if self.follow_successor(&program, &servers) || (reload && !is_other) {
                self.reload()?;
                servers.take_settings(&self.settings, self.now());
            }
            self.turn(&ready.sources)?;
            if ready.is_of_peers {
                self.msdp_turn()?;
            }
            self.house_keeping()?;
            self.serve(&mut servers, ready.is_asked);
            self.keep();
        }
        if asked.end.load(Ordering::Relaxed) || !self.keep_for_next() {
            self.say_goodbye();
            self.keep_no_more();
        }
        Ok(())
    }

    /// Clients are answered, and what their sockets lack is tried again.
    fn serve(&mut self, servers: &mut Servers, is_asked: bool) {
        if is_asked || servers.each().any(|server| server.due().is_some()) {
            servers.serve(self);
        }
        if servers.due.map_or(false, |due| due <= self.now()) {
            servers.try_again(&self.settings, self.now());
        }
    }

    pub(super) fn begin(&mut self) -> Result<(), Fatal> {
        self.record();
        self.set_msdp();
        self.settle_ports()?;
        if !self.ports.iter().any(|port| port.standing.is_up()) {
            warn!("no interface is up: the router waits for one");
        }
        self.read_routes()?;
        self.watch_addresses();
        Ok(())
    }

    /// Where something waits, once something does or is due.
    fn wait(&mut self, asked: &Asked, servers: &Servers) -> Result<Ready, Fatal> {
        let own = self.kernel.waits();
        let others = [asked.wakes.as_raw_fd()].into_iter().chain(servers.each().flat_map(Server::waits));
        let all = own.iter().map(|(_, fd)| *fd).chain(others);
        let peers = self.msdp.waits();
        let of_peer = |(fd, writes): &(RawFd, bool)| {
            PollFd::new(*fd, if *writes { PollFlags::POLLIN | PollFlags::POLLOUT } else { PollFlags::POLLIN })
        };
        let mut waits: Vec<_> = peers.iter().map(of_peer).collect();
        waits.extend(all.map(|fd| PollFd::new(fd, PollFlags::POLLIN)));
        let due = &self.due;
        let times = [
            self.core.next_moment(),
            self.routing.due,
            Some(0).filter(|_| self.routing.is_urgent),
            due.machine,
            due.unset,
            due.addresses,
            due.learned,
            due.unheard,
            self.successor.due(self.now()),
            self.core.record_due(),
            Some(self.keeping.due(self.now())).filter(|_| self.settings.restart.saves),
            servers.each().filter_map(Server::due).min().map(|left| self.kernel.now() + left),
            servers.due,
            self.ports.iter().filter_map(|port| port.hello_due).min(),
            self.overrides.due(),
            self.sessions.values().map(Session::due).min(),
            self.msdp.due(),
        ];
        let next = times.into_iter().flatten().fold(due.look, u64::min);
        match poll(&mut waits, next.saturating_sub(self.now()).min(LOOK_EVERY) as i32) {
            Err(nix::errno::Errno::EINTR) | Ok(0) => return Ok(Ready::default()),
            Err(error) => return Err(error.into()),
            Ok(_) => {}
        }
        let is_ready = |wait: &PollFd| wait.revents().map_or(true, |found| !found.is_empty());
        let (at_peers, waits) = waits.split_at(peers.len());
        let (at_kernel, others) = waits.split_at(own.len());
        let sources = own.iter().zip(at_kernel).filter(|(_, wait)| is_ready(wait)).map(|((source, _), _)| *source);
        let (wakes, clients) = others.split_at(1);
        Ok(Ready {
            sources: sources.collect(),
            is_woken: wakes.iter().any(is_ready),
            is_asked: clients.iter().any(is_ready),
            is_of_peers: at_peers.iter().any(is_ready),
        })
    }

    /// What waits at the sockets that are ready, in turn.
    pub(super) fn turn(&mut self, ready: &[Source]) -> Result<(), Fatal> {
        for (source, most) in [
            (Source::Changes, usize::MAX),
            (Source::Bfd, TURN),
            (Source::Upcalls, TURN),
            (Source::Unicasts, TURN),
            (Source::OwnReports, TURN),
            (Source::Frames, TURN),
        ] {
            let mut left = if ready.contains(&source) { most } else { 0 };
            while left > 0 || self.kernel.has_read(source) {
                left = left.saturating_sub(1);
                match self.kernel.hear(source) {
                    Ok(Some(event)) => self.happens(event)?,
                    Ok(None) => break,
                    // A link that went is told so once, and what didn't fit is lost.
                    Err(error) => {
                        if self.may_say(Kind::Sockets, None) {
                            warn!("what waits at a socket ({source:?}) can't be read: {error}");
                        }
                        break;
                    }
                }
            }
        }
        Ok(())
    }

    fn happens(&mut self, event: kernel::Event) -> Result<(), Fatal> {
        match event {
            kernel::Event::Changes(changes) => self.changed(changes),
            kernel::Event::Upcall(upcall) => self.upcall(upcall),
            kernel::Event::Unicast(packet) => self.heard_unicast(&packet),
            kernel::Event::OwnReport(packet) => self.heard_own(&packet),
            kernel::Event::Frame { index, packet } => self.heard(index, &packet),
            kernel::Event::Bfd { index, from, packet } => self.heard_bfd(index, from, &packet),
            kernel::Event::Nothing => Ok(()),
        }
    }

    /// What is due by the clock, and what the events of this turn left to do.
    pub(super) fn house_keeping(&mut self) -> Result<(), Fatal> {
        self.advance()?;
        let now = self.now();
        let is_due = |due: Option<u64>| due.map_or(false, |due| due <= now);
        if is_due(self.due.machine) {
            self.read_machine()?;
        }
        if is_due(self.due.addresses) {
            self.take_addresses()?;
        }
        if is_due(self.due.learned) {
            self.has_learned()?;
        }
        if is_due(self.due.unheard) {
            self.forget_unheard()?;
        }
        if is_due(self.routing.due) {
            self.read_routes()?;
        } else if self.routing.is_urgent {
            self.take_routes()?;
        }
        if self.due.look <= now {
            self.look()?;
            self.due.look = now + LOOK_EVERY.max(PART_OF_TIME * (self.now() - now));
            self.say_what_was_left_out();
            self.plane.idle(IDLE).into_iter().for_each(|key| self.withdraw(key));
            // There may be room for it by now: its next packet asks again.
            self.plane.untold(MOST_ASKED_AGAIN).into_iter().for_each(|key| self.withdraw(key));
        }
        self.refresh_unknown();
        if is_due(self.due.unset) {
            self.set_again();
        }
        self.repeat_hellos();
        self.tell_newcomers();
        self.override_again();
        self.keep_sessions()?;
        self.keep_msdp()?;
        if self.neighbours.are_stale {
            self.watch_neighbours()?;
            self.watch_sessions();
        }
        self.core.end_turn(self.now());
        Ok(())
    }

    /// Hellos go by the settings at once.
    fn repeat_hellos_anew(&mut self) {
        let now = self.now();
        self.ports.iter_mut().for_each(|port| port.hello_due = port.hello.as_ref().map(|_| now));
    }

    /// The last Hello of an interface leaves again, where the library's own come too seldom for the settings.
    fn repeat_hellos(&mut self) {
        let now = self.now();
        let Daemon { kernel, ports, policy, .. } = self;
        for port in ports.iter_mut().filter(|port| port.hello_due.map_or(false, |due| due <= now)) {
            port.hello_due = None;
            if let Some(hello) = port.hello.clone().filter(|_| port.standing.is_up()) {
                let is_passive = policy.is_passive(port.number);
                super::send_on(kernel.as_mut(), Some(port), is_passive, &hello);
            }
        }
    }

    /// Each neighbour is told at once that the router goes, and the BSR that its RP does.
    pub(super) fn say_goodbye(&mut self) {
        self.leave_as_rp();
        let places: Vec<_> = self.sessions.keys().copied().collect();
        places.into_iter().for_each(|place| self.end_session(place));
        (0..self.ports.len() as u32).for_each(|number| self.say_goodbye_on(number));
        self.plane.clear(self.kernel.as_ref());
        info!("the router ends");
    }
}
