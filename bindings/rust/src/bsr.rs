//! RPs that are learned of Bootstraps (RFC 5059).
use crate::raw::{Draw, Range as CRange};
use crate::{
    all_written, done, ends, made, verdict, written, Candidacy, Candidate, Error, Range, Reason, Router, Target,
    Verdict, ABI, MOST_BYTES,
};
use std::ffi::c_void;
use std::fmt;
use std::net::Ipv4Addr;
use std::ptr::NonNull;

/// The latest timestamp of an event, in ms.
const LAST_MOMENT: u64 = 1 << 62;

/// What an RP is chosen for, of several that a learned range has.
#[derive(Clone, Copy, Debug, PartialEq, Eq)]
pub enum Choice {
    /// For the range, by the hash of its prefix: all its groups have one RP, as with FRR.
    Range,
    /// For each group, by the hash of the group (RFC 7761, section 4.7.2).
    Group,
}

/// The number of a choice for each group.
const FOR_GROUP: u32 = 1;

/// The elected bootstrap router.
#[derive(Clone, Copy, Debug, PartialEq, Eq)]
#[non_exhaustive]
pub struct Elected {
    /// Its address.
    pub bsr: Ipv4Addr,
    /// The higher is preferred.
    pub priority: u32,
    /// When the Bootstrap Timer expires, in ms: 130 s after its last message.
    pub end: u64,
}

/// An RP of a learned range, in force.
#[derive(Clone, Copy, Debug, PartialEq, Eq)]
#[non_exhaustive]
pub struct LearnedRp {
    /// The range and its RP.
    pub range: Range,
    /// The lower is preferred.
    pub priority: u32,
    /// The bits of the hash function's mask.
    pub hash_length: u32,
    /// The router is given it: as the one that is chosen of its range, which isn't configured, or as a candidate.
    pub is_given: bool,
    /// When its holdtime is over, in ms.
    pub end: u64,
}

/// An RP of a range, of a message of which other fragments are missing. It isn't in force.
#[derive(Clone, Copy, Debug, PartialEq, Eq)]
#[non_exhaustive]
pub struct LearnedPart {
    /// The range and its RP.
    pub range: Range,
    /// The lower is preferred.
    pub priority: u32,
    /// In seconds; 0 takes the RP away.
    pub holdtime: u32,
    /// The message's.
    pub bsr: Ipv4Addr,
    /// The message's fragment tag.
    pub tag: u32,
    /// When it is forgotten, in ms: 130 s after it came.
    pub end: u64,
}

/// What became of a packet that a listener or a candidacy heard.
#[derive(Clone, Copy, Debug, PartialEq, Eq)]
pub enum Heard {
    /// It is no Bootstrap.
    Other,
    /// It doesn't count: `OwnBsr`, `NoNeighbour`, `Scoped`, `LateRefresh`, `NotFromRpf` or `NotPreferred`.
    Ignored(Reason),
    /// It counts, and is sent on; or a candidate BSR sends it on without taking what it says, or answers it.
    Taken {
        /// The router is to be given other RPs.
        moved: bool,
    },
}

impl Heard {
    /// By the number that the library answers.
    pub(crate) fn of(answer: u32, moved: bool) -> Result<Heard, Error> {
        match verdict(answer)? {
            Verdict::Done => Ok(Heard::Taken { moved }),
            Verdict::Ignored(Reason::OtherType) => Ok(Heard::Other),
            Verdict::Ignored(reason) => Ok(Heard::Ignored(reason)),
        }
    }
}

/// A listener, which hears Bootstraps before a [`Router`] and says which RPs the router is to have: those of the configured
/// ranges, and of each learned range the one that a hash of the range's prefix chooses, or all as candidates, of which it
/// chooses for each group ([`Bsr::choose`]).
///
/// With a listener a program calls [`Bsr::frame`] in the place of [`Router::frame`], [`Bsr::run_to`] in the place of
/// [`Router::run_to`], and [`Bsr::set_ranges`] in the place of [`Router::set_ranges`]; the next timestamp at which time is
/// to pass is [`Bsr::next_moment`]. The other calls are the steps of these. A reload gives the router the ranges that it
/// has ([`Bsr::given`]), and then [`Bsr::set_ranges`] sets the new configured ones. [`Bsr::save`] is called beside
/// [`Router::save`].
// The pointer is of a listener that `viq_bsr_new` or `viq_bsr_restore` made, until it is dropped, as that of a `Router`.
pub struct Bsr {
    at: NonNull<c_void>,
    /// The ranges that are configured.
    configured: Vec<Range>,
}

// SAFETY: as of a `Router`.
unsafe impl Send for Bsr {}

impl fmt::Debug for Bsr {
    fn fmt(&self, to: &mut fmt::Formatter<'_>) -> fmt::Result {
        to.debug_struct("Bsr").field("elected", &self.elected()).field("rps", &self.rps()).finish_non_exhaustive()
    }
}

/// The packets that are to be sent, one by one.
pub(crate) fn send_all(router: &mut Router, send: &mut impl FnMut(Target, &[u8])) {
    let mut room = [0; MOST_BYTES];
    while let Some((target, bytes)) = router.take(&mut room) {
        send(target, bytes);
    }
}

/// The sooner of two timestamps.
pub(crate) fn sooner(one: Option<u64>, other: Option<u64>) -> Option<u64> {
    one.into_iter().chain(other).min()
}

/// A listener, with the candidacy beside it where there is one.
pub(crate) struct Listening<'a> {
    pub bsr: &'a mut Bsr,
    pub candidacy: Option<&'a mut Candidacy>,
}

impl Listening<'_> {
    pub fn frame(
        &mut self,
        router: &mut Router,
        iface: u32,
        packet: &[u8],
        draw: u32,
        send: &mut impl FnMut(Target, &[u8]),
    ) -> Result<Verdict, Error> {
        let verdict = router.frame(iface, packet, draw)?;
        send_all(router, send);
        if verdict != Verdict::Ignored(Reason::OtherType) {
            return Ok(verdict);
        }
        let heard = match &mut self.candidacy {
            Some(candidacy) => candidacy.hear(self.bsr, router, iface, packet, draw)?,
            None => self.bsr.hear(router, iface, packet)?,
        };
        match heard {
            Heard::Other => Ok(verdict),
            Heard::Ignored(reason) => Ok(Verdict::Ignored(reason)),
            Heard::Taken { moved } => {
                send_all(router, send);
                self.bsr.give_if(moved, router, draw, send)?;
                Ok(Verdict::Done)
            }
        }
    }

    pub fn advance(
        &mut self,
        router: &mut Router,
        moment: u64,
        draw: u32,
        send: &mut impl FnMut(Target, &[u8]),
    ) -> Result<Verdict, Error> {
        while let Some(end) = self.next_end().filter(|end| *end <= moment && moment <= LAST_MOMENT) {
            self.step(router, end, draw, send)?;
        }
        self.step(router, moment, draw, send)
    }

    pub fn run_to(
        &mut self,
        router: &mut Router,
        now: u64,
        draw: &mut impl FnMut() -> u32,
        send: &mut impl FnMut(Target, &[u8]),
    ) -> Result<(), Error> {
        send_all(router, send);
        loop {
            let moment = sooner(router.next_moment(), self.next_end()).map_or(now, |moment| moment.min(now));
            self.advance(router, moment, draw(), send)?;
            if moment == now && sooner(router.next_moment(), self.next_end()).map_or(true, |moment| moment > now) {
                return Ok(());
            }
        }
    }

    fn next_end(&self) -> Option<u64> {
        sooner(self.bsr.next_end(), self.candidacy.as_ref().and_then(|candidacy| candidacy.next_end()))
    }

    /// Time passes up to a timestamp at which nothing of the listener and of the candidacy was due before.
    fn step(
        &mut self,
        router: &mut Router,
        moment: u64,
        draw: u32,
        send: &mut impl FnMut(Target, &[u8]),
    ) -> Result<Verdict, Error> {
        let verdict = router.advance(moment, draw)?;
        send_all(router, send);
        let moved = match &mut self.candidacy {
            Some(candidacy) => candidacy.pass(self.bsr, router, moment, draw)?,
            None => self.bsr.pass(moment)?,
        };
        send_all(router, send);
        self.bsr.give_if(moved, router, draw, send)?;
        Ok(verdict)
    }
}

impl Bsr {
    /// Makes a listener, which knows no BSR, for a router that has these ranges. It keeps at most `limit` RPs, 1 to 256,
    /// with those of messages of which fragments are missing. Until the timestamp `refresh_end` one message may come that
    /// a neighbour sends to a router which has just started: 60,000 ms after the router started, or 0 for none.
    pub fn new(limit: u32, ranges: &[Range], refresh_end: u64) -> Result<Bsr, Error> {
        let given: Vec<_> = ranges.iter().map(Range::given).collect();
        // SAFETY: the list is passed as its pointer and its length, and what points to the listener is only written.
        let at = made(|at| unsafe { with_lists!(viq_bsr_new(at, ABI, limit; given; refresh_end)) })?;
        Ok(Bsr { at, configured: ranges.to_vec() })
    }

    /// Makes a listener of what `save` returned, which knows what the one knew that was saved, its configured ranges too.
    /// It is for the router that is restored of what was saved at the same moment. Bytes that are none of a listener are
    /// refused, whatever they are.
    pub fn restore(saved: &[u8]) -> Result<Bsr, Error> {
        // SAFETY: the bytes are passed as their pointer and their length, and what points to the listener is only written.
        let at = made(|at| unsafe { viq_bsr_restore(at, ABI, saved.as_ptr(), saved.len()) })?;
        let mut bsr = Bsr { at, configured: Vec::new() };
        bsr.configured = bsr.ranges();
        Ok(bsr)
    }

    /// All that the listener knows as bytes, of which `restore` makes a listener. A router's `save` doesn't have it.
    pub fn save(&self) -> Result<Vec<u8>, Error> {
        let size = self.save_into(&mut [])?;
        let mut saved = vec![0; size];
        self.save_into(&mut saved)?;
        Ok(saved)
    }

    /// Saves it into `room`, as many of its bytes as it holds. Returns how many there are.
    pub fn save_into(&self, room: &mut [u8]) -> Result<usize, Error> {
        let mut size = 0;
        // SAFETY: the listener is there; the room is passed as its pointer and its length.
        done(unsafe { viq_bsr_save(self.at.as_ptr(), room.as_mut_ptr(), room.len(), &mut size) })?;
        Ok(size)
    }

    fn ranges(&self) -> Vec<Range> {
        let range_of = |range: CRange| Range::new(range.prefix.into(), range.length, range.rp.into());
        // SAFETY: the listener is there.
        unsafe { all_written(viq_bsr_configured(self.at()), |index, to| viq_bsr_range(self.at(), index, to), range_of) }
    }

    // ---- whole steps

    /// A packet came on an interface, to a group, as by `Router::frame`. Where the router ignores it for its type the
    /// listener hears it, and where the RPs moved the router is given them. Each packet that leaves is passed to `send`
    /// with its bytes. Returns what the router made of the packet, or else the listener.
    pub fn frame(
        &mut self,
        router: &mut Router,
        iface: u32,
        packet: &[u8],
        draw: u32,
        mut send: impl FnMut(Target, &[u8]),
    ) -> Result<Verdict, Error> {
        Listening { bsr: self, candidacy: None }.frame(router, iface, packet, draw, &mut send)
    }

    /// Time passes up to a timestamp, as by `Router::advance`, and on the way to the end of each RP, where the router is
    /// given other RPs. Each packet that leaves is passed to `send`.
    pub fn advance(
        &mut self,
        router: &mut Router,
        moment: u64,
        draw: u32,
        mut send: impl FnMut(Target, &[u8]),
    ) -> Result<Verdict, Error> {
        Listening { bsr: self, candidacy: None }.advance(router, moment, draw, &mut send)
    }

    /// Time passes up to the timestamp `now`, timer by timer, as by `Router::run_to`.
    pub fn run_to(
        &mut self,
        router: &mut Router,
        now: u64,
        mut draw: impl FnMut() -> u32,
        mut send: impl FnMut(Target, &[u8]),
    ) -> Result<(), Error> {
        Listening { bsr: self, candidacy: None }.run_to(router, now, &mut draw, &mut send)
    }

    /// The timestamp at which time is to pass: the next timer of the router expires, or an RP of the listener.
    pub fn next_moment(&self, router: &Router) -> Option<u64> {
        sooner(router.next_moment(), self.next_end())
    }

    fn give_if(
        &self,
        moved: bool,
        router: &mut Router,
        draw: u32,
        send: &mut impl FnMut(Target, &[u8]),
    ) -> Result<(), Error> {
        if moved {
            self.give(router, draw)?;
            send_all(router, send);
        }
        Ok(())
    }

    /// Has an RP chosen for something else: the router is given the RPs so, and what the former choice gave it goes. Each
    /// packet that leaves is passed to `send`.
    pub fn choose(
        &mut self,
        router: &mut Router,
        choice: Choice,
        draw: u32,
        mut send: impl FnMut(Target, &[u8]),
    ) -> Result<Verdict, Error> {
        self.set_choice(choice)?;
        self.give_if(true, router, draw, &mut send)?;
        let verdict = match choice {
            Choice::Range => router.set_candidates(&[], draw)?,
            Choice::Group => router.set_ranges(&self.configured, draw)?,
        };
        send_all(router, &mut send);
        Ok(verdict)
    }

    // ---- the steps one by one

    /// Has an RP chosen for something else, which is no event, and the first step of `choose`: `give` follows, and then what
    /// the former choice gave goes.
    pub fn set_choice(&mut self, choice: Choice) -> Result<(), Error> {
        // SAFETY: the listener is there and borrowed alone.
        done(unsafe { viq_bsr_choose(self.at_mut(), u32::from(choice == Choice::Group)) })
    }

    /// Hears a packet that came on an interface, and that the router ignored by `Reason::OtherType`. What is sent on is
    /// then to be taken of the router. An `Err` changes nothing: `Refusal::Full` where there is no room for the RPs, other
    /// refusals where the packet can't be read.
    pub fn hear(&mut self, router: &mut Router, iface: u32, packet: &[u8]) -> Result<Heard, Error> {
        let mut moved = false;
        // SAFETY: the listener and the router are there and borrowed alone; the packet is passed as its pointer and its
        // length.
        let answer = unsafe { with_lists!(viq_bsr_hear(self.at_mut(), router.at_mut(), iface; packet; &mut moved)) };
        Heard::of(answer, moved)
    }

    /// An event of the router: its ranges are replaced by those that the listener has for it, or its candidates where an RP
    /// is chosen for each group.
    pub fn give(&self, router: &mut Router, draw: u32) -> Result<Verdict, Error> {
        // SAFETY: the listener is there, and the router is there and borrowed alone.
        verdict(unsafe { viq_bsr_give(self.at.as_ptr(), router.at_mut(), Draw { bits: draw }) })
    }

    /// When the first of the RPs in force expires, in ms.
    pub fn next_end(&self) -> Option<u64> {
        // SAFETY: the listener is there.
        ends(unsafe { viq_bsr_next(self.at.as_ptr()) })
    }

    /// Time passed to a timestamp: what has expired is forgotten. Returns whether the router is to be given other RPs.
    pub fn pass(&mut self, moment: u64) -> Result<bool, Error> {
        let mut moved = false;
        // SAFETY: the listener is there and borrowed alone.
        done(unsafe { viq_bsr_pass(self.at_mut(), moment, &mut moved) })?;
        Ok(moved)
    }

    /// Other configured ranges, and another limit as in `new`: an event of the router, whose ranges are replaced by these
    /// and the learned ones beside them. Where it isn't done the listener stays as it is. Where an RP is chosen for each
    /// group the ranges are these alone, and `give` follows where it is done: there may be room for fewer candidates.
    pub fn set_ranges(
        &mut self,
        router: &mut Router,
        limit: u32,
        ranges: &[Range],
        draw: u32,
    ) -> Result<Verdict, Error> {
        let given: Vec<_> = ranges.iter().map(Range::given).collect();
        let (at, router, draw) = (self.at_mut(), router.at_mut(), Draw { bits: draw });
        // SAFETY: the listener and the router are there and borrowed alone; the list is passed as its pointer and its
        // length.
        let verdict = verdict(unsafe { with_lists!(viq_bsr_ranges(at, router, limit; given; draw)) })?;
        if verdict == Verdict::Done {
            self.configured = ranges.to_vec();
        }
        Ok(verdict)
    }

    // ---- what was learned

    /// The elected BSR.
    pub fn elected(&self) -> Option<Elected> {
        // SAFETY: the listener is there.
        let told: Option<raw::Elected> = written(|told| unsafe { viq_bsr_elected(self.at(), told) });
        told.map(|it| Elected { bsr: it.bsr.into(), priority: it.priority, end: it.end })
    }

    /// The RPs in force, in the order in which they were learned.
    pub fn rps(&self) -> Vec<LearnedRp> {
        let rp_of = |row: raw::Rp| LearnedRp {
            range: Range::new(row.prefix.into(), row.length, row.rp.into()),
            priority: row.priority,
            hash_length: row.hash_length,
            is_given: row.is_given,
            end: row.end,
        };
        // SAFETY: the listener is there.
        unsafe { all_written(viq_bsr_rps(self.at()), |index, row| viq_bsr_rp(self.at(), index, row), rp_of) }
    }

    /// The RPs of messages of which fragments are missing.
    pub fn parts(&self) -> Vec<LearnedPart> {
        let part_of = |row: raw::Part| LearnedPart {
            range: Range::new(row.prefix.into(), row.length, row.rp.into()),
            priority: row.priority,
            holdtime: row.holdtime,
            bsr: row.bsr.into(),
            tag: row.tag,
            end: row.end,
        };
        // SAFETY: the listener is there.
        unsafe { all_written(viq_bsr_parts(self.at()), |index, row| viq_bsr_part(self.at(), index, row), part_of) }
    }

    /// What an RP is chosen for; of a new listener a range.
    pub fn choice(&self) -> Choice {
        // SAFETY: the listener is there.
        match unsafe { viq_bsr_choice(self.at.as_ptr()) } {
            FOR_GROUP => Choice::Group,
            _ => Choice::Range,
        }
    }

    /// The configured ranges.
    pub fn configured(&self) -> &[Range] {
        &self.configured
    }

    /// The ranges that the router is given: the configured ones, and where an RP is chosen for a range those of the RPs that
    /// it is given.
    pub fn given(&self) -> Vec<Range> {
        let learned = match self.choice() {
            Choice::Range => self.rps(),
            Choice::Group => Vec::new(),
        };
        let learned = learned.into_iter().filter(|rp| rp.is_given).map(|rp| rp.range);
        self.configured.iter().copied().chain(learned).collect()
    }

    /// The candidates that the router is given: all RPs in force where one is chosen for each group, else none.
    pub fn candidates(&self) -> Vec<Candidate> {
        let offered = match self.choice() {
            Choice::Range => Vec::new(),
            Choice::Group => self.rps(),
        };
        offered.iter().map(|rp| Candidate::new(rp.range, rp.priority, rp.hash_length)).collect()
    }

    pub(crate) fn at(&self) -> *const c_void {
        self.at.as_ptr()
    }

    pub(crate) fn at_mut(&mut self) -> *mut c_void {
        self.at.as_ptr()
    }
}

impl Drop for Bsr {
    fn drop(&mut self) {
        // SAFETY: the listener is there, and nobody has it after this.
        unsafe { viq_bsr_end(self.at.as_ptr()) }
    }
}

/// The values of C.
mod raw {
    #[repr(C)]
    #[derive(Default)]
    pub struct Elected {
        pub bsr: u32,
        pub priority: u32,
        pub end: u64,
    }

    #[repr(C)]
    #[derive(Default)]
    pub struct Rp {
        pub prefix: u32,
        pub length: u32,
        pub rp: u32,
        pub priority: u32,
        pub hash_length: u32,
        pub is_given: bool,
        pub end: u64,
    }

    #[repr(C)]
    #[derive(Default)]
    pub struct Part {
        pub prefix: u32,
        pub length: u32,
        pub rp: u32,
        pub priority: u32,
        pub holdtime: u32,
        pub bsr: u32,
        pub tag: u32,
        pub end: u64,
    }
}

list_calls! {
    viq_bsr_new(bsr: *mut *mut c_void, abi: u32, limit: u32; CRange; refresh_end: u64) -> u32;
    viq_bsr_ranges(bsr: *mut c_void, router: *mut c_void, limit: u32; CRange; draw: Draw) -> u32;
    viq_bsr_hear(bsr: *mut c_void, router: *mut c_void, iface: u32; u8; moved: *mut bool) -> u32;
}

extern "C" {
    fn viq_bsr_restore(bsr: *mut *mut c_void, abi: u32, bytes: *const u8, length: usize) -> u32;
    fn viq_bsr_save(bsr: *const c_void, room: *mut u8, room_length: usize, size: *mut usize) -> u32;
    fn viq_bsr_end(bsr: *mut c_void);
    fn viq_bsr_give(bsr: *const c_void, router: *mut c_void, draw: Draw) -> u32;
    fn viq_bsr_next(bsr: *const c_void) -> u64;
    fn viq_bsr_pass(bsr: *mut c_void, moment: u64, moved: *mut bool) -> u32;
    fn viq_bsr_choose(bsr: *mut c_void, choice: u32) -> u32;
    fn viq_bsr_choice(bsr: *const c_void) -> u32;
    fn viq_bsr_configured(bsr: *const c_void) -> usize;
    fn viq_bsr_range(bsr: *const c_void, index: usize, range: *mut CRange) -> bool;
    fn viq_bsr_elected(bsr: *const c_void, elected: *mut raw::Elected) -> bool;
    fn viq_bsr_rps(bsr: *const c_void) -> usize;
    fn viq_bsr_rp(bsr: *const c_void, index: usize, row: *mut raw::Rp) -> bool;
    fn viq_bsr_parts(bsr: *const c_void) -> usize;
    fn viq_bsr_part(bsr: *const c_void, index: usize, row: *mut raw::Part) -> bool;
}
