//! The library's router, with the random numbers that it draws: what of the daemon calls the library is here.
use crate::error::Fatal;
use crate::left::Told;
use crate::mroute::Key;
use crate::older::Speech;
use crate::outgoing::Outgoing;
use crate::packet::{self, is_pim, HELLO};
use crate::plane::Row;
use crate::ports::{self, Places, Port};
use crate::recorder::{answer_of, Configuration, Place, Recorder, Set};
use crate::settings::{BsrSettings, CandidacySettings, RpSettings, Settings};
use log::{error, info};
use rand::rngs::{OsRng, StdRng};
use rand::{Rng, RngCore, SeedableRng};
use std::collections::{BTreeMap, BTreeSet};
use std::net::Ipv4Addr;
use viqeshor::{
    Bsr, Candidacy, Candidate, Choice, Elected, Error, Heard, HeldRp, LearnedPart, LearnedRp, Link, NeighbourRow,
    OlderRow, Range, Reason, Refusal, Route, Router, RpSet, SourceActive, SourceTree, Standing, Table, TableRow,
    Target, Tree, Verdict,
};

/// A Hello that an event triggers leaves after a part of Triggered_Hello_Delay, in ms (RFC 7761, 4.3.1 and 4.11), which
/// is the event's number modulo this.
const TRIGGERED_HELLO_DELAY: u32 = 5_000;
/// Neighbours are to know each other sooner: here it leaves after so many ms at most.
const SOON: u32 = 100;

/// What happens to the router.
#[derive(Clone, Copy, Debug)]
pub enum Event<'a> {
    /// Time passes up to a moment, in ms.
    Advance(u64),
    /// A packet to a group came on an interface.
    Frame(u32, &'a [u8]),
    /// PIM to an address of the router came.
    Unicast(&'a [u8]),
    Up(u32),
    Down(u32),
    Routes(&'a [Route]),
    /// The RP ranges of the file are replaced.
    Ranges(&'a [Range]),
    /// The RP ranges are replaced by these: those that are learned of Bootstraps beside those of the file.
    Learned(&'a [Range]),
    /// The candidate RPs are replaced by these: those that are learned of Bootstraps, where one is chosen for each group.
    Candidates(&'a [Candidate]),
    /// The kernel saw a packet of a source on an interface.
    Seen(u32, Key),
}

impl Event<'_> {
    /// Whether a Hello may follow of it: an interface goes up, or a neighbour is new or has begun anew.
    fn triggers_hello(&self) -> bool {
        match self {
            Event::Up(_) => true,
            Event::Frame(_, bytes) => packet::Packet::read(bytes).map_or(false, |frame| is_pim(frame, HELLO)),
            _ => false,
        }
    }
}

/// What an event came to.
#[derive(Clone, Copy, Debug, PartialEq, Eq)]
pub enum Answer {
    Done,
    Ignored,
    /// Ignored as PIM of a type that the library's router doesn't handle.
    OtherType,
    /// Ignored as not for the library's router.
    NotForMe,
    /// The guard stopped it.
    Guarded,
    Refused(Refusal),
}

pub struct Core {
    router: Router,
    /// What is to leave, of the events since `each_packet`.
    sent: Outgoing,
    /// By which it was made, or goes on.
    pub told: Told,
    draws: StdRng,
    /// The number of the last event.
    draw: u32,
    /// What hears Bootstraps, and the most RPs that it keeps, where they are heard.
    listener: Option<(Bsr, u32)>,
    /// By which the router stands as BSR or RP, and as what, where it does.
    candidacy: Option<(Candidacy, CandidacySettings)>,
    /// What the router was told of how its interfaces speak IGMP.
    speech: BTreeMap<u32, Speech>,
    /// On which interfaces the router before this one knew older hosts, as long as it isn't told which they hear.
    restored: BTreeSet<u32>,
    /// Whether its guard is on.
    has_guard: bool,
    /// The sets of RPs that share an address, as the router has them.
    rp_sets: Vec<RpSet>,
    /// How often memory was refused for a table that was to be read.
    pub refused_memory: u64,
    recorder: Option<Recorder>,
    /// The next moment, where nothing happened since it was asked for.
    next: Option<Option<u64>>,
}

/// What the library's router has of the machine.
#[derive(Clone, Debug, PartialEq)]
pub struct Given {
    pub interfaces: Vec<viqeshor::Interface>,
    /// Its own on no link.
    pub addresses: Vec<Ipv4Addr>,
}

impl Given {
    pub fn of(ports: &[Port]) -> Given {
        Given { interfaces: ports.iter().map(Port::told).collect(), addresses: ports::apart(ports) }
    }
}

/// As far as the library is told when its router is made, or goes on with another configuration.
pub fn told_of(settings: &Settings, given: &Given) -> Told {
    let interface =
        |it: &viqeshor::Interface| (it.address, it.length, it.priority, it.propagation_delay, it.override_interval);
    Told {
        limit: settings.limit,
        robustness: settings.robustness,
        query_interval: settings.query_interval,
        query_response: settings.query_response,
        last_member_query: settings.last_member_query,
        stays_on_shared_tree: settings.stays_on_shared_tree,
        interfaces: given.interfaces.iter().map(interface).collect(),
        addresses: given.addresses.clone(),
    }
}

pub fn ranges_of(rps: &[RpSettings]) -> Vec<Range> {
    rps.iter().map(|rp| Range::new(rp.groups.address, rp.groups.length.into(), rp.address)).collect()
}

fn settings_of(settings: &Settings, given: &Given) -> viqeshor::Settings {
    viqeshor::Settings {
        limit: settings.limit,
        robustness: settings.robustness,
        query_interval: settings.query_interval,
        query_response_interval: settings.query_response,
        last_member_query_interval: settings.last_member_query,
        stays_on_shared_tree: settings.stays_on_shared_tree,
        addresses: given.addresses.clone(),
    }
}

impl Core {
    /// A router without routes, at moment 0 and with every interface down.
    pub fn new(settings: &Settings, given: &Given) -> Result<Core, Fatal> {
        let router = Router::new(&settings_of(settings, given), &given.interfaces, &[], &ranges_of(&settings.rps));
        Core::of(router.map_err(Fatal::Settings)?, told_of(settings, given))
    }

    fn of(router: Router, told: Told) -> Result<Core, Fatal> {
        Ok(Core {
            router,
            sent: Outgoing::default(),
            told,
            draws: StdRng::from_rng(OsRng)?,
            draw: 0,
            listener: None,
            candidacy: None,
            speech: BTreeMap::new(),
            restored: BTreeSet::new(),
            has_guard: true,
            rp_sets: Vec::new(),
            refused_memory: 0,
            recorder: None,
            next: None,
        })
    }

    /// The router whose state the bytes are, which goes on from there.
    pub fn restore(saved: &[u8], told: Told) -> Result<Core, Fatal> {
        let mut core = Core::of(Router::restore(saved).map_err(Fatal::Settings)?, told)?;
        core.restored = core.older_rows()?.iter().map(|row| row.iface).collect();
        Ok(core)
    }

    /// The router's state as bytes. What is to leave isn't in them.
    pub fn save(&self) -> Result<Vec<u8>, Error> {
        self.router.save()
    }

    // ---- recorded

    /// Events are recorded from here on, a moment in ms, or no more.
    pub fn record(&mut self, place: Option<&Place>, now: u64) {
        if self.recorder.as_ref().map(Recorder::place) == place {
            return;
        }
        self.recorder = None;
        if let Some(place) = place {
            let set = Set { speech: &self.speech, has_guard: self.has_guard, rp_sets: &self.rp_sets };
            match Recorder::begin(place, &mut self.router, &set, now) {
                Ok(recorder) => {
                    info!("events are recorded in {}", place.folder.display());
                    self.recorder = Some(recorder);
                }
                Err(error) => error!("events can't be recorded in {}: {error}", place.folder.display()),
            }
        }
    }

    /// After a turn, at a moment in ms, what was recorded is written where it has waited for long.
    pub fn end_turn(&mut self, now: u64) {
        let Core { router, recorder, speech, has_guard, rp_sets, .. } = self;
        if let Some(recorder) = recorder {
            let written = recorder.end_turn(router, &Set { speech, has_guard: *has_guard, rp_sets }, now);
            self.was_recorded(written);
        }
    }

    /// When it is to be written, in ms.
    pub fn record_due(&self) -> Option<u64> {
        self.recorder.as_ref().and_then(Recorder::due)
    }

    /// What was recorded is written.
    pub fn flush_record(&mut self) {
        let written = self.recorder.as_mut().map_or(Ok(()), Recorder::flush);
        self.was_recorded(written);
    }

    fn was_recorded(&mut self, written: std::io::Result<()>) {
        if let Err(error) = written {
            error!("events are recorded no more: {error}");
            self.recorder = None;
        }
    }

    /// How an interface speaks IGMP from here on. Where it is to hear other older hosts, those are forgotten that were
    /// heard there; of those that the router before this one knew it keeps whom it hears. One that the router doesn't
    /// have, since it refused another configuration, is left out.
    pub fn speak(&mut self, iface: u32, wanted: Speech) -> Result<(), Fatal> {
        self.next = None;
        let told = self.speech.entry(iface).or_insert(Speech::NEW);
        let mut answer = Ok(());
        let mut set = Vec::new();
        if self.restored.remove(&iface) || told.older_hosts != wanted.older_hosts {
            answer = self.router.set_older_hosts(iface, wanted.older_hosts);
            set.push((b'o', wanted.older_hosts as u32, answer));
        }
        if told.queries != wanted.queries && answer.is_ok() {
            answer = self.router.set_query_version(iface, wanted.queries);
            set.push((b'q', wanted.queries as u32, answer));
        }
        if let Some(recorder) = &mut self.recorder {
            let number = |answer: Result<(), Error>| answer.map_or_else(Error::number, |()| 0);
            let note = |(letter, value, answer)| recorder.set(letter, iface, value, number(answer));
            let written = set.into_iter().try_for_each(note);
            self.was_recorded(written);
        }
        let told = self.speech.entry(iface).or_insert(Speech::NEW);
        match answer {
            Ok(()) => *told = wanted,
            Err(Error::Refused(Refusal::BadInterface)) => {}
            Err(error) => return Err(Fatal::Router(error)),
        }
        Ok(())
    }

    /// From here on IGMP and PIM are stopped that would be forwarded as data, or aren't.
    pub fn set_guard(&mut self, is_on: bool) -> Result<(), Fatal> {
        if self.has_guard != is_on {
            self.router.set_guard(is_on).map_err(Fatal::Router)?;
            self.has_guard = is_on;
            let written = self.recorder.as_mut().map_or(Ok(()), |it| it.set(b'd', 0, is_on.into(), 0));
            self.was_recorded(written);
        }
        Ok(())
    }

    /// From here on the router shares addresses by those of these sets that it can have. It answers why it can't have the
    /// others.
    pub fn set_rp_sets(&mut self, wanted: &[RpSet]) -> Result<Vec<String>, Fatal> {
        let (fit, unfit): (Vec<_>, Vec<_>) = wanted.iter().cloned().partition(|set| self.told.unfit(set).is_none());
        self.share(fit)?;
        Ok(unfit.iter().filter_map(|set| self.told.unfit(set)).collect())
    }

    /// The sets by which it does.
    pub fn rp_sets(&self) -> &[RpSet] {
        &self.rp_sets
    }

    fn share(&mut self, sets: Vec<RpSet>) -> Result<(), Fatal> {
        if self.rp_sets == sets {
            return Ok(());
        }
        self.next = None;
        self.router.set_rp_sets(&sets).map_err(Fatal::Router)?;
        let written = self.recorder.as_mut().map_or(Ok(()), |it| it.set_rp_sets(&sets));
        self.rp_sets = sets;
        self.was_recorded(written);
        Ok(())
    }

    /// The router goes on with another configuration and these routes; where interfaces get other numbers, by their places.
    /// What is to leave then has the numbers that they get, and nothing is to leave before. Refused, it stays as it was. It
    /// is no event.
    pub fn reload(
        &mut self,
        settings: &Settings,
        given: &Given,
        routes: &[Route],
        places: Option<&Places>,
    ) -> Result<Answer, Fatal> {
        let (told, before) = (told_of(settings, given), self.rp_sets.clone());
        // A router keeps its sets, and takes no configuration to which they don't fit.
        self.share(before.iter().filter(|set| told.unfit(set).is_none()).cloned().collect())?;
        let answer = self.configure(settings, given, routes, places)?;
        match answer {
            Answer::Refused(_) => self.share(before)?,
            _ => self.told = told,
        }
        Ok(answer)
    }

    fn configure(
        &mut self,
        settings: &Settings,
        given: &Given,
        routes: &[Route],
        places: Option<&Places>,
    ) -> Result<Answer, Fatal> {
        self.next = None;
        let draw = self.draws.next_u32();
        // Those that are learned stay, and then the file's are set beside them.
        let ranges = self.listener.as_ref().map_or_else(|| ranges_of(&settings.rps), |(bsr, _)| bsr.given());
        let configured = settings_of(settings, given);
        let (interfaces, numbers) = (&given.interfaces, places.map(Places::as_slice));
        let done = match numbers {
            None => self.router.reload(&configured, interfaces, routes, &ranges, draw),
            Some(places) => self.router.reload_places(&configured, interfaces, routes, &ranges, places, draw),
        };
        let before = self.sent.len();
        self.sent.take(&mut self.router);
        if let Some(recorder) = &mut self.recorder {
            let configuration =
                Configuration { settings: &configured, interfaces, routes, ranges: &ranges, places: numbers };
            let answer = done.map_or_else(Error::number, |()| 0);
            let written = recorder.reload(self.sent.since(before), &configuration, draw, answer);
            self.was_recorded(written);
        }
        match done {
            Ok(()) => {
                if let Some(places) = places {
                    self.renumber(places);
                }
                Ok(Answer::Done)
            }
            Err(Error::Refused(refusal)) => Ok(Answer::Refused(refusal)),
            Err(error) => Err(Fatal::Router(error)),
        }
    }

    fn renumber(&mut self, places: &Places) {
        self.sent.renumber(places);
        let speech = std::mem::take(&mut self.speech);
        self.speech = speech.into_iter().filter_map(|(iface, told)| Some((places.get(iface)?, told))).collect();
    }

    /// A number for an event.
    fn draw(&mut self, event: &Event) -> u32 {
        let drawn = self.draws.next_u32();
        match event.triggers_hello() {
            true => drawn - drawn % TRIGGERED_HELLO_DELAY + self.draws.gen_range(0..SOON),
            false => drawn,
        }
    }

    /// An event, by a number of its own.
    pub fn take(&mut self, event: Event) -> Result<Answer, Fatal> {
        self.draw = self.draw(&event);
        self.take_also(event)
    }

    /// An event that follows of the one before, by the same number.
    pub fn take_also(&mut self, event: Event) -> Result<Answer, Fatal> {
        self.next = None;
        let draw = self.draw;
        let verdict = self.tell(event, draw);
        let before = self.sent.len();
        self.sent.take(&mut self.router);
        if let Some(recorder) = &mut self.recorder {
            // With those of the file the router was given those that are learned beside them.
            let given = self.listener.as_ref().map_or_else(Vec::new, |(bsr, _)| bsr.given());
            let event = match event {
                Event::Ranges(_) if self.listener.is_some() && verdict.is_ok() => Event::Learned(&given),
                event => event,
            };
            let written = recorder.event(self.sent.since(before), &event, draw, answer_of(&verdict));
            self.was_recorded(written);
        }
        match verdict {
            Ok(Verdict::Done) => Ok(Answer::Done),
            Ok(Verdict::Ignored(Reason::Guarded)) => Ok(Answer::Guarded),
            Ok(Verdict::Ignored(Reason::OtherType)) => Ok(Answer::OtherType),
            Ok(Verdict::Ignored(Reason::NotForMe)) => Ok(Answer::NotForMe),
            Ok(Verdict::Ignored(_)) => Ok(Answer::Ignored),
            Err(Error::Refused(refusal)) => Ok(Answer::Refused(refusal)),
            Err(error) => Err(Fatal::Router(error)),
        }
    }

    fn tell(&mut self, event: Event, draw: u32) -> Result<Verdict, Error> {
        let Core { router, listener, .. } = self;
        match event {
            Event::Advance(moment) => router.advance(moment, draw),
            Event::Frame(iface, packet) => router.frame(iface, packet, draw),
            Event::Unicast(packet) => router.unicast(packet, draw),
            Event::Up(iface) => router.up(iface, draw),
            Event::Down(iface) => router.down(iface, draw),
            Event::Routes(routes) => router.set_routes(routes, draw),
            Event::Ranges(ranges) => match listener {
                Some((bsr, limit)) => bsr.set_ranges(router, *limit, ranges, draw),
                None => router.set_ranges(ranges, draw),
            },
            Event::Learned(_) => match listener {
                Some((bsr, _)) => bsr.give(router, draw),
                None => Ok(Verdict::Done),
            },
            Event::Candidates(candidates) => router.set_candidates(candidates, draw),
            Event::Seen(iface, key) => router.seen(iface, key.source, key.group, draw),
        }
    }

    /// In ms; `None` where no timer runs, no RP that is learned ends, and no candidacy is due.
    pub fn next_moment(&mut self) -> Option<u64> {
        let (router, end) = (&self.router, self.next_end());
        *self.next.get_or_insert_with(|| router.next_moment().into_iter().chain(end).min())
    }

    // ---- MSDP

    /// The packet in which the router is to be given a Source-Active message; `None` where it is to be given nothing, or
    /// memory is refused.
    pub fn source_active(&mut self, told: &SourceActive) -> Option<Vec<u8>> {
        let given = self.router.source_active_packet(told);
        self.refused_memory += u64::from(matches!(given, Err(Error::Memory)));
        given.ok().flatten()
    }

    /// The source that a DR's Register to the router names.
    pub fn registered(&self, packet: &[u8]) -> Option<Key> {
        self.router.registered(packet).map(|name| Key { source: name.source(), group: name.group() })
    }

    /// Whether the router is the RP of a source on a link of which it is the DR.
    pub fn is_own_source(&self, key: Key) -> bool {
        self.router.is_own_source(key.source, key.group)
    }

    /// Whether KeepaliveTimer(S,G) runs.
    pub fn is_kept_alive(&self, key: Key) -> bool {
        self.source_tree(key).map_or(false, |tree| tree.is_kept_alive)
    }

    /// RP(G).
    pub fn rp(&self, group: Ipv4Addr) -> Option<Ipv4Addr> {
        self.tree(group).and_then(|tree| tree.rp)
    }

    // ---- Bootstraps

    /// Whether they are heard.
    pub fn listens(&self) -> bool {
        self.listener.is_some()
    }

    /// They are heard from here on as the settings say, beside these ranges, which the router has; until a moment, in ms,
    /// a neighbour may say at once what it learned before.
    pub fn listen(&mut self, settings: &BsrSettings, ranges: &[Range], refresh_end: u64) -> Result<(), Fatal> {
        let mut bsr = Bsr::new(settings.limit, ranges, refresh_end).map_err(Fatal::Router)?;
        bsr.set_choice(settings.choice).map_err(Fatal::Router)?;
        self.listener = Some((bsr, settings.limit));
        Ok(())
    }

    /// What one of several RPs of a range is chosen for, where they are heard.
    pub fn choice(&self) -> Option<Choice> {
        self.listener.as_ref().map(|(bsr, _)| bsr.choice())
    }

    /// It is chosen for something else, as the router is to be given at once.
    pub fn choose(&mut self, choice: Choice) -> Result<(), Fatal> {
        match &mut self.listener {
            Some((bsr, _)) => bsr.set_choice(choice).map_err(Fatal::Router),
            None => Ok(()),
        }
    }

    /// What was known of them, beside the ranges that the router then had, is known again, and as many RPs are kept from the
    /// next event on that sets the ranges of the file.
    pub fn resume_listener(&mut self, saved: &[u8], limit: u32) -> Result<(), Error> {
        self.listener = Some((Bsr::restore(saved)?, limit));
        Ok(())
    }

    /// What is known of them, as bytes; `None` where nobody listens, or memory is refused.
    pub fn saved_listener(&self) -> Option<Vec<u8>> {
        self.listener.as_ref().and_then(|(bsr, _)| bsr.save().ok())
    }

    /// They are heard no more.
    pub fn listen_no_more(&mut self) {
        self.listener = None;
        self.next = None;
    }

    /// As many RPs are kept from the next event on that sets the ranges of the file. It answers whether it was another
    /// number.
    pub fn set_limit(&mut self, limit: u32) -> bool {
        let before = self.listener.as_mut().map(|(_, kept)| std::mem::replace(kept, limit));
        before.map_or(false, |before| before != limit)
    }

    /// A packet that the router ignored for its type is heard. What leaves of it is to leave.
    pub fn hear(&mut self, iface: u32, packet: &[u8]) -> Result<Heard, Error> {
        self.next = None;
        let Core { router, listener, candidacy, draws, .. } = self;
        let heard = match (listener, candidacy) {
            (Some((bsr, _)), Some((candidacy, _))) => candidacy.hear(bsr, router, iface, packet, draws.next_u32())?,
            (Some((bsr, _)), None) => bsr.hear(router, iface, packet)?,
            (None, _) => Heard::Other,
        };
        self.sent.take(&mut self.router);
        Ok(heard)
    }

    /// When the first RP that is learned ends, or a timer of the candidacy, in ms.
    pub fn next_end(&self) -> Option<u64> {
        let learned = self.listener.as_ref().and_then(|(bsr, _)| bsr.next_end());
        let candidacy = self.candidacy.as_ref().and_then(|(it, _)| it.next_end());
        learned.into_iter().chain(candidacy).min()
    }

    /// Time passed to a moment, in ms. It tells whether the router is to be given other ranges. What leaves of it is to
    /// leave.
    pub fn pass(&mut self, moment: u64) -> Result<bool, Fatal> {
        self.next = None;
        let Core { router, listener, candidacy, draws, .. } = self;
        let moved = match (listener, candidacy) {
            (Some((bsr, _)), Some((candidacy, _))) => candidacy.pass(bsr, router, moment, draws.next_u32())?,
            (Some((bsr, _)), None) => bsr.pass(moment)?,
            (None, _) => false,
        };
        self.sent.take(&mut self.router);
        Ok(moved)
    }

    /// The BSR that is elected.
    pub fn elected(&self) -> Option<Elected> {
        self.listener.as_ref().and_then(|(bsr, _)| bsr.elected())
    }

    /// The ranges that the router is to have, where they are heard.
    pub fn given(&self) -> Vec<Range> {
        self.listener.as_ref().map_or_else(Vec::new, |(bsr, _)| bsr.given())
    }

    /// The candidate RPs that the router is to have, where they are heard.
    pub fn candidates(&self) -> Vec<Candidate> {
        self.listener.as_ref().map_or_else(Vec::new, |(bsr, _)| bsr.candidates())
    }

    /// The RPs that are learned.
    pub fn learned(&self) -> Vec<LearnedRp> {
        self.listener.as_ref().map_or_else(Vec::new, |(bsr, _)| bsr.rps())
    }

    /// Those of which fragments are missing.
    pub fn learned_parts(&self) -> Vec<LearnedPart> {
        self.listener.as_ref().map_or_else(Vec::new, |(bsr, _)| bsr.parts())
    }

    // ---- candidacies

    /// As what the router stands.
    pub fn stands_as(&self) -> Option<&CandidacySettings> {
        self.candidacy.as_ref().map(|(_, settings)| settings)
    }

    /// It stands so from a moment on, in ms, by a candidacy that begins anew, or as nothing.
    pub fn stand(&mut self, wanted: Option<CandidacySettings>, now: u64) -> Result<(), Fatal> {
        self.next = None;
        let begun = |it: CandidacySettings| Ok((Candidacy::new(it.bsr.as_ref(), it.rp.as_ref(), now)?, it));
        self.candidacy = wanted.map(begun).transpose().map_err(Fatal::Router)?;
        Ok(())
    }

    /// The elected BSR is told that the router goes as RP, where it stands as one.
    pub fn leave_as_rp(&mut self) -> Result<(), Error> {
        let Core { router, listener, candidacy, .. } = self;
        if let (Some((bsr, _)), Some((candidacy, _))) = (listener, candidacy) {
            candidacy.leave(bsr, router)?;
        }
        self.sent.take(&mut self.router);
        Ok(())
    }

    /// A packet to an address of the router, which this ignored as not for it, is heard.
    pub fn hear_unicast(&mut self, packet: &[u8]) -> Result<Verdict, Error> {
        self.next = None;
        match &mut self.candidacy {
            Some((candidacy, _)) => candidacy.hear_unicast(&mut self.router, packet),
            None => Ok(Verdict::Ignored(Reason::OtherType)),
        }
    }

    /// How the candidacy stands.
    pub fn standing(&self) -> Option<Standing> {
        self.candidacy.as_ref().map(|(candidacy, _)| candidacy.standing())
    }

    /// The RPs that advertised themselves to the router as BSR.
    pub fn held(&self) -> Vec<HeldRp> {
        self.candidacy.as_ref().map_or_else(Vec::new, |(candidacy, _)| candidacy.rps())
    }

    /// Whether no packet is to leave.
    pub fn sends_nothing(&self) -> bool {
        self.sent.len() == 0
    }

    /// Each packet that is to leave, in their order.
    pub fn packets(&self) -> impl Iterator<Item = (Target, &[u8])> {
        self.sent.since(0)
    }

    /// Hands on each packet that is to leave, once, in the order in which they are to.
    pub fn each_packet(&mut self, mut take: impl FnMut(Target, &[u8])) {
        self.packets().for_each(|(target, bytes)| take(target, bytes));
        self.sent.clear();
    }

    /// The sources whose rows the last event changed.
    pub fn changed(&mut self) -> Vec<Key> {
        self.router.changed().iter().map(|name| Key { source: name.source(), group: name.group() }).collect()
    }

    /// What the kernel may do of a source's packets; `None` where all are the router's.
    pub fn offload(&mut self, key: Key) -> Option<Row> {
        self.router.offload(key.source, key.group).map(Row::from)
    }

    /// Whether that may have changed at the last event.
    pub fn may_differ(&mut self, key: Key) -> bool {
        self.router.may_differ(key.source, key.group)
    }

    /// The kernel forwarded a packet of a source at a moment, in ms. It tells whether the source's keepalive timer
    /// runs.
    pub fn keep(&mut self, key: Key, moment: u64) -> Result<bool, Fatal> {
        self.next = None;
        let runs = self.router.keep(key.source, key.group, moment)?;
        if let Some(recorder) = &mut self.recorder {
            let written = recorder.kept(key, moment, runs);
            self.was_recorded(written);
        }
        Ok(runs)
    }

    pub fn rows(&mut self, table: Table) -> Result<Vec<viqeshor::Row>, Fatal> {
        let read = self.router.rows(table);
        self.refused_memory += u64::from(matches!(read, Err(Error::Memory)));
        Ok(read?)
    }

    /// The rows of the table of one kind of row.
    pub fn rows_of<R: TableRow>(&mut self) -> Result<Vec<R>, Fatal> {
        Ok(self.rows(R::TABLE)?.into_iter().filter_map(R::of).collect())
    }

    /// The groups on interfaces that have older hosts.
    pub fn older_rows(&mut self) -> Result<Vec<OlderRow>, Fatal> {
        let read = self.router.older_rows();
        self.refused_memory += u64::from(matches!(read, Err(Error::Memory)));
        Ok(read?)
    }

    /// The macros of (*,G); `None` once the router is lost.
    pub fn tree(&self, group: Ipv4Addr) -> Option<Tree> {
        self.router.tree(group)
    }

    /// The macros of (S,G) and of (S,G,rpt); `None` once the router is lost.
    pub fn source_tree(&self, key: Key) -> Option<SourceTree> {
        self.router.source_tree(key.source, key.group)
    }

    /// An interface with its DR and its querier; `None` once the router is lost.
    pub fn link(&self, iface: u32) -> Option<Link> {
        self.router.link(iface)
    }

    /// Each neighbour with its interface.
    pub fn neighbours(&mut self) -> Result<Vec<(u32, Ipv4Addr)>, Fatal> {
        Ok(self.rows_of::<NeighbourRow>()?.iter().map(|row| (row.iface, row.address)).collect())
    }
}
