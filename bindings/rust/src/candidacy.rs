//! Candidate bootstrap routers and candidate RPs (RFC 5059).
use crate::bsr::{send_all, sooner, Heard, Listening};
use crate::raw::Draw;
use crate::{
    all_written, done, ends, made, verdict, Bsr, Error, Prefix, Range, Reason, Router, Target, Verdict, ABI, NEVER,
};
use std::ffi::c_void;
use std::fmt;
use std::net::Ipv4Addr;
use std::ptr::NonNull;

/// As what bootstrap router (BSR) a router stands.
#[derive(Clone, Copy, Debug, PartialEq, Eq)]
pub struct CandidateBsr {
    /// One of the router's own, to which all routers of the domain have a route.
    pub address: Ipv4Addr,
    /// The higher is preferred, at most 255.
    pub priority: u32,
    /// The bits of the hash function's mask that it says, at most 32.
    pub hash_length: u32,
    /// The most RPs of ranges that it holds, 1 to 255: at most 143 where all may be of one range.
    pub limit: u32,
}

impl CandidateBsr {
    /// Of the usual priority, 64 (RFC 5059, 4.1), with a mask of 30 bits, and with room for 255 RPs of ranges.
    pub fn new(address: Ipv4Addr) -> CandidateBsr {
        CandidateBsr { address, priority: 64, hash_length: 30, limit: 255 }
    }
}

/// As RP of what a router stands.
#[derive(Clone, Debug, PartialEq, Eq)]
pub struct CandidateRp {
    /// One of the router's own, to which all routers of the domain have a route.
    pub address: Ipv4Addr,
    /// The lower is preferred, at most 255.
    pub priority: u32,
    /// Of which groups: 1 to 183 prefixes in 224.0.0.0/4, without host bits.
    pub ranges: Vec<Prefix>,
}

impl CandidateRp {
    /// Of the usual priority, 192.
    pub fn new(address: Ipv4Addr, ranges: &[Prefix]) -> CandidateRp {
        CandidateRp { address, priority: 192, ranges: ranges.to_vec() }
    }
}

/// What a router is as candidate BSR.
#[derive(Clone, Copy, Debug, PartialEq, Eq, Hash)]
pub enum Role {
    /// Another one is the BSR.
    Candidate,
    /// None is: it may become the BSR.
    Pending,
    /// It is the BSR.
    Elected,
}

/// How a candidacy stands.
#[derive(Clone, Copy, Debug, PartialEq, Eq)]
#[non_exhaustive]
pub struct Standing {
    /// As candidate BSR; `None` where it doesn't stand as such.
    pub role: Option<Role>,
    /// When the candidate's Bootstrap Timer expires, in ms.
    pub end: Option<u64>,
    /// The BSR that is told of the RP.
    pub told: Option<Ipv4Addr>,
    /// When it is told next, in ms.
    pub told_end: Option<u64>,
}

/// An RP of a range that advertised itself to a candidate BSR.
#[derive(Clone, Copy, Debug, PartialEq, Eq)]
#[non_exhaustive]
pub struct HeldRp {
    /// The range and its RP.
    pub range: Range,
    /// The lower is preferred.
    pub priority: u32,
    /// In seconds.
    pub holdtime: u32,
    /// When its holdtime is over, in ms.
    pub end: u64,
}

/// A candidacy, by which a [`Router`] with a listener ([`Bsr`]) stands as bootstrap router, as RP, or as both. A candidate
/// BSR yields to one of more weight. Elected it says in Bootstraps which RPs advertised themselves to it, and the listener
/// learns them as all others do. A candidate RP advertises itself to the elected BSR.
///
/// With a candidacy a program calls [`Candidacy::frame`], [`Candidacy::run_to`] and [`Candidacy::next_moment`] in the place
/// of those of the listener, and [`Candidacy::unicast`] in the place of [`Router::unicast`]. The other calls of the listener
/// stay as they are. A candidacy isn't saved: beside a restored router it is made anew. Before one goes, [`Candidacy::leave`]
/// says that its RP goes.
// The pointer is of a candidacy that `viq_candidacy_new` made, until it is dropped, as that of a `Router`.
pub struct Candidacy {
    at: NonNull<c_void>,
}

// SAFETY: as of a `Router`.
unsafe impl Send for Candidacy {}

impl fmt::Debug for Candidacy {
    fn fmt(&self, to: &mut fmt::Formatter<'_>) -> fmt::Result {
        to.debug_struct("Candidacy")
            .field("standing", &self.standing())
            .field("rps", &self.rps())
            .finish_non_exhaustive()
    }
}

impl Candidacy {
    /// Makes a candidacy at the router's present, a timestamp in ms. Time is to pass to the present once more, so that a
    /// candidate RP follows a BSR that is elected already. `Error::NoSetting` says that a value is out of its
    /// range, that an address is no host's, or that a range is no prefix of groups.
    pub fn new(as_bsr: Option<&CandidateBsr>, as_rp: Option<&CandidateRp>, now: u64) -> Result<Candidacy, Error> {
        let (settings, ranges) = (raw::Settings::of(as_bsr, as_rp), raw::ranges(as_rp));
        // SAFETY: the settings are there, the list is passed as its pointer and its length, and what points to the candidacy
        // is only written.
        let at = made(|at| unsafe { with_lists!(viq_candidacy_new(at, ABI, &settings; ranges; now)) })?;
        Ok(Candidacy { at })
    }

    // ---- whole steps

    /// A packet came on an interface, to a group, as by [`Bsr::frame`]. Where the router ignores it for its type the
    /// candidacy hears it, and where the RPs moved the router is given them. Each packet that leaves is passed to `send`
    /// with its bytes. Returns what the router made of the packet, or else the candidacy.
    pub fn frame(
        &mut self,
        bsr: &mut Bsr,
        router: &mut Router,
        iface: u32,
        packet: &[u8],
        draw: u32,
        mut send: impl FnMut(Target, &[u8]),
    ) -> Result<Verdict, Error> {
        Listening { bsr, candidacy: Some(self) }.frame(router, iface, packet, draw, &mut send)
    }

    /// A packet to one of the router's addresses came, as by [`Router::unicast`]. Where the router ignores it as not for it
    /// the candidacy hears it: an elected BSR takes the advertisements of candidate RPs. Each packet that leaves is passed to
    /// `send`. Returns what the candidacy made of an advertisement to it, and else what the router made of the packet.
    pub fn unicast(
        &mut self,
        router: &mut Router,
        packet: &[u8],
        draw: u32,
        mut send: impl FnMut(Target, &[u8]),
    ) -> Result<Verdict, Error> {
        let verdict = router.unicast(packet, draw)?;
        send_all(router, &mut send);
        match verdict {
            Verdict::Ignored(Reason::NotForMe) => match self.hear_unicast(router, packet)? {
                Verdict::Ignored(Reason::OtherType) => Ok(verdict),
                heard => Ok(heard),
            },
            _ => Ok(verdict),
        }
    }

    /// Time passes up to a timestamp, as by [`Bsr::advance`], and on the way to the end of each timer of the listener and of
    /// the candidacy. Each packet that leaves is passed to `send`.
    pub fn advance(
        &mut self,
        bsr: &mut Bsr,
        router: &mut Router,
        moment: u64,
        draw: u32,
        mut send: impl FnMut(Target, &[u8]),
    ) -> Result<Verdict, Error> {
        Listening { bsr, candidacy: Some(self) }.advance(router, moment, draw, &mut send)
    }

    /// Time passes up to the timestamp `now`, timer by timer, as by [`Router::run_to`].
    pub fn run_to(
        &mut self,
        bsr: &mut Bsr,
        router: &mut Router,
        now: u64,
        mut draw: impl FnMut() -> u32,
        mut send: impl FnMut(Target, &[u8]),
    ) -> Result<(), Error> {
        Listening { bsr, candidacy: Some(self) }.run_to(router, now, &mut draw, &mut send)
    }

    /// The timestamp at which time is to pass: the next timer of the router expires, or one of the listener or of the
    /// candidacy.
    pub fn next_moment(&self, bsr: &Bsr, router: &Router) -> Option<u64> {
        sooner(bsr.next_moment(router), self.next_end())
    }

    // ---- the steps one by one

    /// Hears a packet that came on an interface, and that the router ignored by `Reason::OtherType`, in the place of
    /// [`Bsr::hear`]. What is sent on, or answered, is then to be taken of the router. An `Err` changes nothing.
    pub fn hear(
        &mut self,
        bsr: &mut Bsr,
        router: &mut Router,
        iface: u32,
        packet: &[u8],
        draw: u32,
    ) -> Result<Heard, Error> {
        let (mut moved, draw) = (false, Draw { bits: draw });
        // SAFETY: the candidacy, the listener and the router are there and borrowed alone; the packet is passed as its
        // pointer and its length.
        let answer = unsafe {
            let (at, bsr, router) = (self.at_mut(), bsr.at_mut(), router.at_mut());
            with_lists!(viq_candidacy_hear(at, bsr, router, iface; packet; draw, &mut moved))
        };
        Heard::of(answer, moved)
    }

    /// Hears a packet to one of the router's addresses, which the router ignored by `Reason::NotForMe`. `Verdict::Done` says
    /// that an advertisement was taken, `Reason::OtherType` that it is none to the candidate BSR's address, and
    /// `Reason::NotElected` that the router isn't the BSR. An `Err` changes nothing.
    pub fn hear_unicast(&mut self, router: &mut Router, packet: &[u8]) -> Result<Verdict, Error> {
        // SAFETY: the candidacy and the router are there and borrowed alone; the packet is passed as its pointer and its
        // length.
        verdict(unsafe { viq_candidacy_unicast(self.at_mut(), router.at_mut(), packet.as_ptr(), packet.len()) })
    }

    /// When the first of its timers expires, in ms.
    pub fn next_end(&self) -> Option<u64> {
        // SAFETY: the candidacy is there.
        ends(unsafe { viq_candidacy_next(self.at.as_ptr()) })
    }

    /// Time passed to a timestamp, the router's present, for the listener too, in the place of [`Bsr::pass`]: of each timer
    /// that is due one step is taken. What is sent is then to be taken of the router. Returns whether the router is to be
    /// given other RPs.
    pub fn pass(&mut self, bsr: &mut Bsr, router: &mut Router, moment: u64, draw: u32) -> Result<bool, Error> {
        let (mut moved, draw) = (false, Draw { bits: draw });
        // SAFETY: the candidacy, the listener and the router are there and borrowed alone.
        let answer =
            unsafe { viq_candidacy_pass(self.at_mut(), bsr.at_mut(), router.at_mut(), moment, draw, &mut moved) };
        done(answer)?;
        Ok(moved)
    }

    /// Says that the RP goes: an advertisement that takes it away is to be sent to the elected BSR, and then to be taken of
    /// the router. Where the router stands as no RP, or where no BSR is elected, there is none.
    pub fn leave(&self, bsr: &Bsr, router: &mut Router) -> Result<(), Error> {
        // SAFETY: the candidacy and the listener are there, and the router is there and borrowed alone.
        done(unsafe { viq_candidacy_leave(self.at.as_ptr(), bsr.at(), router.at_mut()) })
    }

    // ---- what it knows

    /// How it stands.
    pub fn standing(&self) -> Standing {
        let mut told = raw::State::default();
        // SAFETY: the candidacy is there.
        unsafe { viq_candidacy_state(self.at.as_ptr(), &mut told) };
        let role = match told.role {
            1 => Some(Role::Candidate),
            2 => Some(Role::Pending),
            3 => Some(Role::Elected),
            _ => None,
        };
        let is_told = told.told != 0;
        Standing {
            role,
            end: role.and_then(|_| ends(told.end)),
            told: is_told.then(|| told.told.into()),
            told_end: ends(told.told_end).filter(|_| is_told),
        }
    }

    /// The RPs that advertised themselves to it, in the order in which they came.
    pub fn rps(&self) -> Vec<HeldRp> {
        let rp_of = |row: raw::Rp| HeldRp {
            range: Range::new(row.prefix.into(), row.length, row.rp.into()),
            priority: row.priority,
            holdtime: row.holdtime,
            end: row.end,
        };
        let at = self.at.as_ptr();
        // SAFETY: the candidacy is there.
        unsafe { all_written(viq_candidacy_rps(at), |index, row| viq_candidacy_rp(at, index, row), rp_of) }
    }

    fn at_mut(&mut self) -> *mut c_void {
        self.at.as_ptr()
    }
}

impl Drop for Candidacy {
    fn drop(&mut self) {
        // SAFETY: the candidacy is there, and nobody has it after this.
        unsafe { viq_candidacy_end(self.at.as_ptr()) }
    }
}

/// The values of C.
mod raw {
    use super::{CandidateBsr, CandidateRp, NEVER};

    #[repr(C)]
    #[derive(Default)]
    pub struct Settings {
        is_bsr: bool,
        bsr: u32,
        bsr_priority: u32,
        hash_length: u32,
        limit: u32,
        is_rp: bool,
        rp: u32,
        rp_priority: u32,
    }

    impl Settings {
        /// What is of a role in which the router doesn't stand isn't read.
        pub fn of(as_bsr: Option<&CandidateBsr>, as_rp: Option<&CandidateRp>) -> Settings {
            let mut told = Settings { is_bsr: as_bsr.is_some(), is_rp: as_rp.is_some(), ..Settings::default() };
            if let Some(it) = as_bsr {
                (told.bsr, told.bsr_priority) = (it.address.into(), it.priority);
                (told.hash_length, told.limit) = (it.hash_length, it.limit);
            }
            if let Some(it) = as_rp {
                (told.rp, told.rp_priority) = (it.address.into(), it.priority);
            }
            told
        }
    }

    #[repr(C)]
    pub struct Prefix {
        prefix: u32,
        length: u32,
    }

    /// Those of a candidate RP.
    pub fn ranges(as_rp: Option<&CandidateRp>) -> Vec<Prefix> {
        let ranges = as_rp.map_or(&[][..], |it| &it.ranges);
        ranges.iter().map(|it| Prefix { prefix: it.address.into(), length: it.length }).collect()
    }

    #[repr(C)]
    pub struct State {
        pub role: u32,
        pub end: u64,
        pub told: u32,
        pub told_end: u64,
    }

    impl Default for State {
        fn default() -> State {
            State { role: 0, end: NEVER, told: 0, told_end: NEVER }
        }
    }

    #[repr(C)]
    #[derive(Default)]
    pub struct Rp {
        pub prefix: u32,
        pub length: u32,
        pub rp: u32,
        pub priority: u32,
        pub holdtime: u32,
        pub end: u64,
    }
}

list_calls! {
    viq_candidacy_new(
        candidacy: *mut *mut c_void, abi: u32, settings: *const raw::Settings; raw::Prefix; moment: u64
    ) -> u32;
    viq_candidacy_hear(
        candidacy: *mut c_void, bsr: *mut c_void, router: *mut c_void, iface: u32; u8; draw: Draw, moved: *mut bool
    ) -> u32;
}

extern "C" {
    fn viq_candidacy_end(candidacy: *mut c_void);
    fn viq_candidacy_unicast(candidacy: *mut c_void, router: *mut c_void, packet: *const u8, length: usize) -> u32;
    fn viq_candidacy_next(candidacy: *const c_void) -> u64;
    fn viq_candidacy_pass(
        candidacy: *mut c_void,
        bsr: *mut c_void,
        router: *mut c_void,
        moment: u64,
        draw: Draw,
        moved: *mut bool,
    ) -> u32;
    fn viq_candidacy_leave(candidacy: *const c_void, bsr: *const c_void, router: *mut c_void) -> u32;
    fn viq_candidacy_state(candidacy: *const c_void, state: *mut raw::State) -> bool;
    fn viq_candidacy_rps(candidacy: *const c_void) -> usize;
    fn viq_candidacy_rp(candidacy: *const c_void, index: usize, row: *mut raw::Rp) -> bool;
}
