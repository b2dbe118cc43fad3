//! A multicast router: PIM Sparse Mode (RFC 7761) and IGMPv3 (RFC 3376). It is what `include/viqeshor/viqeshor.h`
//! describes.
//!
//! A program gives a [`Router`] its events, by one call an event, or by one many frames ([`Router::frames`]), and after
//! each takes the packets that are to be sent: until then the router takes no other event, and answers
//! [`Error::Untaken`]. The router starts no thread, opens no socket and reads no clock. With the program's own
//! `clock_ms`, `receive`, `wait_until`, `send` and `random`:
//!
//! ```ignore
//! loop {
//!     router.run_to(clock_ms(), random, send)?;                        // time passes, and packets leave
//!     while let Some((iface, packet)) = receive() {
//!         if let Err(lost @ (Error::Lost | Error::Failed)) = router.frame(iface, &packet, random()) {
//!             return Err(lost);
//!         }
//!         router.drain().for_each(|sent| send(sent.target, &sent.bytes));
//!     }
//!     wait_until(router.next_moment());                                // or a packet comes
//! }
//! ```
//!
//! A moment is a timestamp, in milliseconds from any beginning, at most 2^62. A draw is a random number, another one
//! with each event.
#![deny(missing_debug_implementations, missing_docs, unsafe_op_in_unsafe_fn)]
use std::ffi::CStr;
use std::fmt;
use std::net::Ipv4Addr;
use std::os::raw::{c_char, c_void};
use std::ptr::{null_mut, NonNull};
use std::str::FromStr;

/// Declares calls of C that take lists, each as its pointer and its length, between what stands before and behind them.
macro_rules! list_calls {
    ($($name:ident($($before:ident: $first:ty),*; $($item:ty),*; $($behind:ident: $last:ty),*) -> $answer:ty;)*) => {
        extern "C" {
            $(fn $name($($before: $first,)* $(_: *const $item, _: usize,)* $($behind: $last,)*) -> $answer;)*
        }
    };
}

/// Calls one of them.
macro_rules! with_lists {
    ($name:ident($($before:expr),*; $($list:expr),*; $($behind:expr),*)) => {
        $name($($before,)* $($list.as_ptr(), $list.len(),)* $($behind,)*)
    };
}

mod bsr;
mod candidacy;
mod record;
mod rows;
mod sources;
mod trees;

pub use bsr::{Bsr, Choice, Elected, Heard, LearnedPart, LearnedRp};
pub use candidacy::{Candidacy, CandidateBsr, CandidateRp, HeldRp, Role, Standing};
pub use record::Call;
pub use rows::{
    ActiveRow, AssertRow, DownstreamRow, DownstreamState, GroupRow, NeighbourRow, RegisterState, Row, RptRow,
    SourceRow, TableRow, UpstreamRow,
};
pub use sources::SourceActive;
pub use trees::{Hop, LanDelay, Link, Neighbour, Path, Querier, Querying, Rpf, RptState, SourceTree, Tree};

/// The most bytes that a packet has.
pub const MOST_BYTES: usize = 1528;
/// What this crate and the library have to agree on: `VIQ_ABI` of `viqeshor.h`.
pub const ABI: u32 = 13;

const DONE: u32 = 0;
const MEMORY: u32 = 40;
const FAILED: u32 = 41;
const LOST: u32 = 43;
const NO_TIMER: u32 = 52;
const OTHER_ABI: u32 = 53;
const NO_SETTING: u32 = 54;
const UNTAKEN: u32 = 55;
const NEVER: u64 = u64::MAX;
const NO_PLACE: u32 = u32::MAX;
const NO_INTERFACE: u32 = u32::MAX;

// ---- what is given

/// An address and the length of a prefix, as `"10.0.0.1/24"` says them.
#[derive(Clone, Copy, Debug, PartialEq, Eq, Hash)]
pub struct Prefix {
    /// With host bits, where they are those of an interface.
    pub address: Ipv4Addr,
    /// Any number: the router refuses one that is too large.
    pub length: u32,
}

/// A text that is no [`Prefix`].
#[derive(Clone, Copy, Debug, PartialEq, Eq, Hash)]
pub struct NoPrefix;

impl fmt::Display for NoPrefix {
    fn fmt(&self, to: &mut fmt::Formatter) -> fmt::Result {
        to.write_str("no address and length, as in 10.0.0.1/24")
    }
}

impl std::error::Error for NoPrefix {}

impl FromStr for Prefix {
    type Err = NoPrefix;

    fn from_str(text: &str) -> Result<Prefix, NoPrefix> {
        let (address, length) = text.split_once('/').ok_or(NoPrefix)?;
        let is_number = length.bytes().all(|digit| digit.is_ascii_digit());
        match (address.parse(), length.parse()) {
            (Ok(address), Ok(length)) if is_number => Ok(Prefix { address, length }),
            _ => Err(NoPrefix),
        }
    }
}

/// An interface of the router.
#[derive(Clone, Copy, Debug, PartialEq, Eq)]
pub struct Interface {
    /// The router's, on the link.
    pub address: Ipv4Addr,
    /// Of the subnet's prefix.
    pub length: u32,
    /// As designated router.
    pub priority: u32,
    /// In ms.
    pub propagation_delay: u32,
    /// In ms.
    pub override_interval: u32,
}

impl Interface {
    /// With the usual priority and delays.
    pub fn new(address: Ipv4Addr, length: u32) -> Interface {
        Interface { address, length, priority: 1, propagation_delay: 500, override_interval: 2500 }
    }

    /// The same, as `Interface::at("10.0.0.1/24".parse()?)`.
    pub fn at(prefix: Prefix) -> Interface {
        Interface::new(prefix.address, prefix.length)
    }

    fn given(&self) -> raw::Interface {
        raw::Interface {
            address: self.address.into(),
            length: self.length,
            priority: self.priority,
            propagation_delay: self.propagation_delay,
            override_interval: self.override_interval,
        }
    }
}

/// A unicast route.
#[derive(Clone, Copy, Debug, PartialEq, Eq)]
pub struct Route {
    /// Without host bits.
    pub prefix: Ipv4Addr,
    /// Of the prefix, at most 32.
    pub length: u32,
    /// A host's address on the link, and none of the router's.
    pub next_hop: Ipv4Addr,
    /// The interface to it.
    pub iface: u32,
    /// The lower is better.
    pub preference: u32,
    /// As an Assert tells it.
    pub metric: u32,
}

impl Route {
    /// With the preference 110 and the metric 20.
    pub fn new(prefix: Ipv4Addr, length: u32, next_hop: Ipv4Addr, iface: u32) -> Route {
        Route { prefix, length, next_hop, iface, preference: 110, metric: 20 }
    }

    /// The same, as `Route::to("10.1.0.0/16".parse()?, next_hop, 0)`.
    pub fn to(prefix: Prefix, next_hop: Ipv4Addr, iface: u32) -> Route {
        Route::new(prefix.address, prefix.length, next_hop, iface)
    }

    fn given(&self) -> raw::Route {
        raw::Route {
            prefix: self.prefix.into(),
            length: self.length,
            next_hop: self.next_hop.into(),
            iface: self.iface,
            preference: self.preference,
            metric: self.metric,
        }
    }
}

/// A range of groups, and its RP.
#[derive(Clone, Copy, Debug, PartialEq, Eq)]
pub struct Range {
    /// In 224.0.0.0/4, without host bits.
    pub prefix: Ipv4Addr,
    /// Of the prefix, 4 to 32.
    pub length: u32,
    /// Of the groups.
    pub rp: Ipv4Addr,
}

impl Range {
    /// Of a prefix of groups.
    pub fn new(prefix: Ipv4Addr, length: u32, rp: Ipv4Addr) -> Range {
        Range { prefix, length, rp }
    }

    /// The same, as `Range::of("239.0.0.0/8".parse()?, rp)`.
    pub fn of(prefix: Prefix, rp: Ipv4Addr) -> Range {
        Range::new(prefix.address, prefix.length, rp)
    }

    fn given(&self) -> raw::Range {
        raw::Range { prefix: self.prefix.into(), length: self.length, rp: self.rp.into() }
    }
}

/// An RP of a range of groups, which may have several: of each group one of them is chosen (RFC 7761, section 4.7.1).
#[derive(Clone, Copy, Debug, PartialEq, Eq)]
pub struct Candidate {
    /// The range and its RP.
    pub range: Range,
    /// At most 255; the lower is preferred.
    pub priority: u32,
    /// The bits of the hash function's mask, at most 32; 30 is usual.
    pub hash_length: u32,
}

impl Candidate {
    /// Of a range with its RP.
    pub fn new(range: Range, priority: u32, hash_length: u32) -> Candidate {
        Candidate { range, priority, hash_length }
    }

    fn given(&self) -> raw::Candidate {
        let raw::Range { prefix, length, rp } = self.range.given();
        raw::Candidate { prefix, length, rp, priority: self.priority, hash_length: self.hash_length }
    }
}

/// A set of routers that share an address, the RP of their groups, as one of them knows it (RFC 4610).
#[derive(Clone, Debug, PartialEq, Eq)]
pub struct RpSet {
    /// An address of each router of the set, and the RP of its groups; of no other set.
    pub shared: Ipv4Addr,
    /// An address of the router, by which the others know it; shared in no set.
    pub own: Ipv4Addr,
    /// Their own addresses: at most 16 hosts', none twice, none of the router.
    pub others: Vec<Ipv4Addr>,
}

impl RpSet {
    // With the pointer to these others, which have to live as long.
    fn given(&self, others: &[u32]) -> raw::RpSet {
        raw::RpSet {
            shared: self.shared.into(),
            own: self.own.into(),
            others: others.as_ptr(),
            other_count: others.len(),
        }
    }
}

/// The others of each set as C takes them.
fn given_others(sets: &[RpSet]) -> Vec<Vec<u32>> {
    sets.iter().map(|set| set.others.iter().map(|other| (*other).into()).collect()).collect()
}

/// Sets as C takes them, with these others, which have to live as long.
fn given_sets(sets: &[RpSet], others: &[Vec<u32>]) -> Vec<raw::RpSet> {
    sets.iter().zip(others).map(|(set, others)| set.given(others)).collect()
}

/// Which hosts of older versions of IGMP an interface hears (RFC 3376, sections 7.3.2 and 9.2).
#[derive(Clone, Copy, Debug, Default, PartialEq, Eq, Hash)]
#[repr(u32)]
pub enum OlderHosts {
    /// None, as of a new router.
    #[default]
    Nobody = 0,
    /// Those of IGMPv2.
    VersionTwo = 1,
    /// Those of IGMPv1 and IGMPv2.
    All = 2,
}

/// The version in which an interface queries (RFC 3376, section 7.3.1).
#[derive(Clone, Copy, Debug, Default, PartialEq, Eq, Hash)]
#[repr(u32)]
pub enum QueryVersion {
    /// Its queries leave cut behind their group, as those of IGMPv2.
    Two = 2,
    /// As of a new router.
    #[default]
    Three = 3,
}

/// What a configuration has beside its interfaces, routes and ranges; `Settings::default()` is what is usual.
#[derive(Clone, Debug, PartialEq, Eq)]
pub struct Settings {
    /// Of facts.
    pub limit: u32,
    /// The querier's, 2 to 7 (RFC 3376, section 8.1).
    pub robustness: u32,
    /// In seconds.
    pub query_interval: u32,
    /// In tenths of a second.
    pub query_response_interval: u32,
    /// In tenths of a second.
    pub last_member_query_interval: u32,
    /// The router never changes to a source's tree.
    pub stays_on_shared_tree: bool,
    /// The router's own that are of no interface, as a loopback's: at most 16, each a host's, none twice, none of an
    /// interface or in its subnet.
    pub addresses: Vec<Ipv4Addr>,
}

impl Settings {
    fn given_addresses(&self) -> Vec<u32> {
        self.addresses.iter().map(|address| (*address).into()).collect()
    }

    // With these addresses, which have to live as long.
    fn given(&self, addresses: &[u32]) -> raw::Settings {
        raw::Settings {
            limit: self.limit,
            robustness: self.robustness,
            query_interval: self.query_interval,
            query_response_interval: self.query_response_interval,
            last_member_query_interval: self.last_member_query_interval,
            stays_on_shared_tree: self.stays_on_shared_tree,
            addresses: addresses.as_ptr(),
            address_count: addresses.len(),
        }
    }
}

/// A configuration as C takes it.
struct Given {
    settings: raw::Settings,
    /// To which the settings point.
    _addresses: Vec<u32>,
    interfaces: Vec<raw::Interface>,
    routes: Vec<raw::Route>,
    ranges: Vec<raw::Range>,
}

impl Given {
    fn of(settings: &Settings, interfaces: &[Interface], routes: &[Route], ranges: &[Range]) -> Given {
        let addresses = settings.given_addresses();
        Given {
            settings: settings.given(&addresses),
            _addresses: addresses,
            interfaces: interfaces.iter().map(Interface::given).collect(),
            routes: routes.iter().map(Route::given).collect(),
            ranges: ranges.iter().map(Range::given).collect(),
        }
    }
}

impl Default for Settings {
    fn default() -> Settings {
        Settings {
            limit: 65536,
            robustness: 2,
            query_interval: 125,
            query_response_interval: 100,
            last_member_query_interval: 10,
            stays_on_shared_tree: false,
            addresses: Vec::new(),
        }
    }
}

// ---- what is answered

macro_rules! numbered {
    ($(#[$about:meta])* $name:ident { $($(#[$says:meta])* $variant:ident = $number:literal,)* }) => {
        $(#[$about])*
        #[derive(Clone, Copy, Debug, PartialEq, Eq, Hash)]
        #[non_exhaustive]
        #[repr(u32)]
        pub enum $name { $($(#[$says])* $variant = $number,)* }

        impl $name {
            fn of(number: u32) -> Option<$name> {
                match number {
                    $($number => Some($name::$variant),)*
                    _ => None,
                }
            }
        }
    };
}

numbered! {
    /// A refusal, which changed nothing. `docs/SCENARIOS.md` has each, and `docs/SAVED.md` those of saved bytes, from
    /// `NotOurs` on.
    Refusal {
        /// The packet is shorter than its lengths and counts say.
        Short = 1,
        /// Another version than IPv4 or PIM 2.
        BadVersion = 2,
        /// A wrong checksum.
        BadChecksum = 3,
        /// A wrong length.
        BadLength = 4,
        /// An address that can't stand there.
        BadAddress = 5,
        /// No group where a group has to stand.
        NotMulticast = 6,
        /// IGMPv1 or IGMPv2.
        OldVersion = 7,
        /// Another IGMP type than query and report.
        UnknownType = 8,
        /// A fragment.
        Fragment = 9,
        /// The moment is before the present.
        MomentBack = 20,
        /// The moment is above 2^62.
        MomentFar = 21,
        /// There is no such interface.
        BadInterface = 22,
        /// The interface is down.
        InterfaceDown = 23,
        /// The limit of facts, or of neighbours on an interface, leaves no room.
        Full = 24,
        /// Routes that can't stand.
        BadRoutes = 25,
        /// RP ranges that can't stand.
        BadRanges = 26,
        /// No interfaces, or more than 120.
        InterfaceCount = 30,
        /// An interface's address is no host's.
        InterfaceAddress = 31,
        /// An interface's prefix length isn't 1 to 31.
        InterfaceLength = 32,
        /// Two subnets overlap.
        Overlap = 33,
        /// The limit isn't 1 to 1,000,000.
        BadLimit = 34,
        /// A value of the querier is out of range.
        BadQuerier = 35,
        /// An interface's delay is out of range.
        BadDelay = 36,
        /// Configured routes that can't stand.
        ConfiguredRoutes = 37,
        /// Configured RP ranges that can't stand.
        ConfiguredRanges = 38,
        /// Own addresses that can't stand.
        OwnAddresses = 70,
        /// A map of places that doesn't name each interface once.
        PlacesDontFit = 73,
        /// Candidate RPs that can't stand.
        BadCandidates = 76,
        /// Sets of RPs that share an address, which the router can't have.
        BadRpSet = 74,
        /// The bytes are no saved state.
        NotOurs = 60,
        /// The state was saved in another version of its format.
        OtherVersion = 61,
        /// The saved state is cut short.
        CutShort = 62,
        /// A flag or a tag of the saved state is none that there is.
        OutOfRange = 63,
        /// The keys of a table of the saved state don't rise.
        KeysDontRise = 64,
        /// Bytes follow the saved state.
        LeftOver = 65,
        /// No router has the saved configuration, or a fact under such a key.
        NotHeld = 66,
        /// A timer of the saved state has expired, or a fact is of an interface that is down.
        NotSettled = 67,
        /// An assert or an SPTbit of the saved state would go, or a register isn't as it has to be.
        NotQuiet = 68,
        /// The saved state is damaged: its sum is another one.
        Damaged = 69,
        /// A timer of the saved state ends later than it may, or a fact lies where none can.
        NotNear = 72,
        /// The saved groups of older hosts can't be read, or are none that the saved router can have.
        HostsNotHeld = 71,
        /// The saved RPs of Bootstraps are none that a listener can have.
        RpsNotHeld = 75,
    }
}

numbered! {
    /// Why an event was ignored, which changed nothing.
    Reason {
        /// The router's own packet.
        Own = 101,
        /// Not for this router.
        NotForMe = 102,
        /// A PIM message of another type.
        OtherType = 103,
        /// For a range of groups.
        Mask = 104,
        /// A group that stays on its link.
        LinkLocal = 105,
        /// The sender is no neighbour.
        NoNeighbour = 106,
        /// The sender isn't the RP.
        NotRp = 107,
        /// It is so already.
        Already = 108,
        /// The guard stopped IGMP or PIM that would be forwarded as data.
        Guarded = 109,
        /// The Bootstrap's BSR is the router itself.
        OwnBsr = 110,
        /// The Bootstrap is of an admin scope zone.
        Scoped = 111,
        /// The Bootstrap is for a router that has just started.
        LateRefresh = 112,
        /// The Bootstrap doesn't come from the RPF neighbour of its BSR.
        NotFromRpf = 113,
        /// The Bootstrap's BSR has less weight than the elected one.
        NotPreferred = 114,
        /// The router isn't the elected BSR.
        NotElected = 115,
    }
}

/// What became of an event that was in order.
#[derive(Clone, Copy, Debug, PartialEq, Eq, Hash)]
pub enum Verdict {
    /// The router did what it says.
    Done,
    /// It was for nothing that the router has to do.
    Ignored(Reason),
}

/// Why a call did nothing.
#[derive(Clone, Copy, Debug, PartialEq, Eq, Hash)]
#[non_exhaustive]
pub enum Error {
    /// The event, the configuration or the saved state was refused, and nothing has changed.
    Refused(Refusal),
    /// Memory was refused, and nothing has changed: the call may be made again.
    Memory,
    /// Memory was refused amid a change: the router is lost, and answers `Failed` to every later event.
    Lost,
    /// The router was lost before.
    Failed,
    /// The library is of another version than this crate.
    OtherAbi,
    /// The library has no setting of this number.
    NoSetting,
    /// Packets of the event before are untaken, and nothing has changed: they are for `drain`, `take` or `clear`.
    Untaken,
    /// An answer that this crate doesn't know.
    Unknown(u32),
}

impl Error {
    fn of(answer: u32) -> Error {
        match answer {
            MEMORY => Error::Memory,
            LOST => Error::Lost,
            FAILED => Error::Failed,
            OTHER_ABI => Error::OtherAbi,
            NO_SETTING => Error::NoSetting,
            UNTAKEN => Error::Untaken,
            _ => Refusal::of(answer).map_or(Error::Unknown(answer), Error::Refused),
        }
    }

    /// Its number in `include/viqeshor/viqeshor.h`.
    pub fn number(self) -> u32 {
        match self {
            Error::Refused(refusal) => refusal as u32,
            Error::Memory => MEMORY,
            Error::Lost => LOST,
            Error::Failed => FAILED,
            Error::OtherAbi => OTHER_ABI,
            Error::NoSetting => NO_SETTING,
            Error::Untaken => UNTAKEN,
            Error::Unknown(number) => number,
        }
    }
}

impl fmt::Display for Error {
    fn fmt(&self, to: &mut fmt::Formatter) -> fmt::Result {
        write!(to, "{} ({})", answer_text(self.number()), self.number())
    }
}

impl std::error::Error for Error {}

fn done(answer: u32) -> Result<(), Error> {
    match answer {
        DONE => Ok(()),
        _ => Err(Error::of(answer)),
    }
}

fn verdict(answer: u32) -> Result<Verdict, Error> {
    match answer {
        DONE => Ok(Verdict::Done),
        _ => Reason::of(answer).map_or(Err(Error::of(answer)), |reason| Ok(Verdict::Ignored(reason))),
    }
}

/// The first item of a list of routes, ranges or candidates that can't stand.
#[derive(Clone, Copy, Debug, PartialEq, Eq)]
pub struct RefusedAt {
    /// Counted from 0.
    pub index: usize,
    /// Its number in `include/viqeshor/viqeshor.h`.
    pub reason: u32,
}

impl RefusedAt {
    fn from_c(of: raw::RefusedAt) -> RefusedAt {
        RefusedAt { index: of.index, reason: of.reason }
    }
}

impl fmt::Display for RefusedAt {
    fn fmt(&self, to: &mut fmt::Formatter) -> fmt::Result {
        // SAFETY: the call takes any number.
        write!(to, "number {}, {}", self.index, text(unsafe { viq_refused_text(self.reason) }))
    }
}

/// Which route is refused to a router with these settings and interfaces, and why: after `Refusal::ConfiguredRoutes` or
/// `Refusal::BadRoutes`. `None` where all can stand.
pub fn refused_route(settings: &Settings, interfaces: &[Interface], routes: &[Route]) -> Option<RefusedAt> {
    let addresses = settings.given_addresses();
    let interfaces: Vec<_> = interfaces.iter().map(Interface::given).collect();
    let routes: Vec<_> = routes.iter().map(Route::given).collect();
    // SAFETY: each list is passed as its pointer and its length.
    written(|at| unsafe { with_lists!(viq_routes_refused_at(; interfaces, addresses, routes; at)) })
        .map(RefusedAt::from_c)
}

/// Which range is refused, and why: after `Refusal::ConfiguredRanges` or `Refusal::BadRanges`.
pub fn refused_range(ranges: &[Range]) -> Option<RefusedAt> {
    let ranges: Vec<_> = ranges.iter().map(Range::given).collect();
    // SAFETY: the list is passed as its pointer and its length.
    written(|at| unsafe { with_lists!(viq_ranges_refused_at(; ranges; at)) }).map(RefusedAt::from_c)
}

/// Which candidate is refused, and why: after `Refusal::BadCandidates`.
pub fn refused_candidate(candidates: &[Candidate]) -> Option<RefusedAt> {
    let candidates: Vec<_> = candidates.iter().map(Candidate::given).collect();
    // SAFETY: the list is passed as its pointer and its length.
    written(|at| unsafe { with_lists!(viq_candidates_refused_at(; candidates; at)) }).map(RefusedAt::from_c)
}

// ---- what the router answers

/// Where a packet goes.
#[derive(Clone, Copy, Debug, PartialEq, Eq, Hash)]
pub enum Target {
    /// PIM or IGMP, on this interface, to its group.
    Frame(u32),
    /// Data that is forwarded, on this interface, to its group.
    Copy(u32),
    /// By unicast routing, to this address.
    Unicast(Ipv4Addr),
}

impl Target {
    fn from_c(of: &raw::Packet) -> Target {
        match of.kind {
            raw::COPY => Target::Copy(of.iface),
            raw::UNICAST => Target::Unicast(of.destination.into()),
            _ => Target::Frame(of.iface),
        }
    }

    /// The interface, of a packet that leaves on one.
    pub fn iface(self) -> Option<u32> {
        match self {
            Target::Frame(iface) | Target::Copy(iface) => Some(iface),
            Target::Unicast(_) => None,
        }
    }
}

/// What a packet says, by its first bytes; its checksums and lengths aren't tested.
pub fn message(packet: &[u8]) -> &'static str {
    // SAFETY: the packet is passed as its pointer and its length; the second call takes any number.
    text(unsafe { viq_message_text(viq_message(packet.as_ptr(), packet.len())) })
}

/// What a record of a report says of its sources (RFC 3376, section 4.2.12).
#[derive(Clone, Copy, Debug, PartialEq, Eq, Hash)]
#[repr(u32)]
pub enum Asks {
    /// These are wanted, and no others.
    IsIn = 1,
    /// All but these are wanted.
    IsEx = 2,
    /// From now on these are wanted, and no others.
    ToIn = 3,
    /// From now on all but these are wanted.
    ToEx = 4,
    /// These are wanted too.
    Allow = 5,
    /// These are wanted no more.
    Block = 6,
}

/// A report of a host with one record, a whole packet as `Router::frame` takes it. `None` where there are too many
/// sources for one.
pub fn report(host: Ipv4Addr, asks: Asks, group: Ipv4Addr, sources: &[Ipv4Addr]) -> Option<Vec<u8>> {
    let sources: Vec<u32> = sources.iter().map(|source| (*source).into()).collect();
    let mut room = vec![0; MOST_BYTES];
    let (host, asks, group) = (host.into(), asks as u32, group.into());
    // SAFETY: the sources and the room are passed as their pointers and their lengths.
    let size = unsafe { with_lists!(viq_report(host, asks, group; sources; room.as_mut_ptr(), room.len())) };
    room.truncate(size);
    (size > 0).then_some(room)
}

/// A packet that came on an interface, to a group, as [`Router::frame`] is given it.
#[derive(Clone, Copy, Debug, PartialEq, Eq)]
pub struct Received<'a> {
    /// Where it came.
    pub iface: u32,
    /// All of it, from the IP header on.
    pub packet: &'a [u8],
    /// Of its event.
    pub draw: u32,
}

impl Received<'_> {
    // With the packet's pointer, which has to live as long.
    fn given(&self) -> raw::Received {
        raw::Received {
            iface: self.iface,
            packet: self.packet.as_ptr(),
            length: self.packet.len(),
            draw: Draw { bits: self.draw },
        }
    }
}

/// A packet that is to be sent.
#[derive(Clone, Debug, PartialEq, Eq, Hash)]
#[non_exhaustive]
pub struct Sent {
    /// Where it goes.
    pub target: Target,
    /// All of it, from the IP header on.
    pub bytes: Vec<u8>,
}

/// The packets that are to be sent, each of which is taken as it is given. What isn't asked for remains untaken.
#[derive(Debug)]
pub struct Drain<'a> {
    router: &'a mut Router,
}

impl Iterator for Drain<'_> {
    type Item = Sent;

    fn next(&mut self) -> Option<Sent> {
        let mut room = [0; MOST_BYTES];
        self.router.take(&mut room).map(|(target, bytes)| Sent { target, bytes: bytes.to_vec() })
    }

    fn size_hint(&self) -> (usize, Option<usize>) {
        let count = self.router.packet_count();
        (count, Some(count))
    }
}

impl ExactSizeIterator for Drain<'_> {}

/// A table that can be read.
#[derive(Clone, Copy, Debug, PartialEq, Eq, Hash)]
#[repr(u8)]
pub enum Table {
    /// PIM neighbours.
    Neighbours = b'N',
    /// What hosts want of groups.
    Groups = b'G',
    /// Sources that hosts want or exclude.
    Sources = b'S',
    /// What other routers joined or pruned.
    Downstream = b'D',
    /// Asserts that the router won or lost.
    Asserts = b'A',
    /// Trees that the router has joined.
    Upstream = b'U',
    /// Sources of shared trees that the router has joined.
    Trees = b'R',
    /// Active sources.
    Active = b'F',
}

impl Table {
    /// In the order in which they are printed.
    pub const ALL: [Table; 8] = [
        Table::Neighbours,
        Table::Groups,
        Table::Sources,
        Table::Downstream,
        Table::Asserts,
        Table::Upstream,
        Table::Trees,
        Table::Active,
    ];
}

/// A group in an older mode on an interface: a host of IGMPv1 or IGMPv2 reported it.
#[derive(Clone, Copy, Debug, PartialEq, Eq)]
pub struct OlderRow {
    /// Where it was reported.
    pub iface: u32,
    /// That was reported.
    pub group: Ipv4Addr,
    /// The version, 1 or 2.
    pub mode: u32,
    /// When the IGMPv1 Host Present timer expires, in ms, if it runs.
    pub one_end: Option<u64>,
    /// When the IGMPv2 Host Present timer expires, in ms, if it runs.
    pub two_end: Option<u64>,
}

impl OlderRow {
    fn from_c(of: raw::OlderRow) -> OlderRow {
        OlderRow {
            iface: of.iface,
            group: of.group.into(),
            mode: of.mode,
            one_end: ends(of.one_end),
            two_end: ends(of.two_end),
        }
    }
}

/// A set of interfaces.
#[repr(C)]
#[derive(Clone, Copy, Debug, Default, PartialEq, Eq)]
pub struct Interfaces {
    /// Interface 0 is the lowest bit, 63 the highest.
    pub low: u64,
    /// Interface 64 is the lowest bit.
    pub high: u64,
}

impl Interfaces {
    /// Whether the interface is in the set.
    pub fn contains(self, iface: u32) -> bool {
        iface < 128 && (u128::from(self.high) << 64 | u128::from(self.low)) >> iface & 1 == 1
    }

    /// The interfaces in the set, ascending.
    pub fn iter(self) -> impl Iterator<Item = u32> {
        (0..128).filter(move |iface| self.contains(*iface))
    }
}

/// How data of a source to a group is forwarded.
#[repr(C)]
#[derive(Clone, Copy, Debug, Default, PartialEq, Eq)]
#[non_exhaustive]
pub struct Forwarding {
    rpf: u32,
    shared_rpf: u32,
    /// SPTbit(S,G).
    pub has_spt_bit: bool,
    /// The register tunnel is in the first two lists.
    pub has_tunnel: bool,
    /// immediate_olist(S,G).
    pub immediate: Interfaces,
    /// inherited_olist(S,G).
    pub inherited: Interfaces,
    /// inherited_olist(S,G,rpt).
    pub shared_tree: Interfaces,
}

impl Forwarding {
    /// RPF_interface(S).
    pub fn rpf(&self) -> Option<u32> {
        (self.rpf != NO_INTERFACE).then_some(self.rpf)
    }

    /// RPF_interface(RP(G)): none at the RP itself.
    pub fn shared_rpf(&self) -> Option<u32> {
        (self.shared_rpf != NO_INTERFACE).then_some(self.shared_rpf)
    }
}

/// What a data plane may do with the packets of a source to a group.
#[repr(C)]
#[derive(Clone, Copy, Debug, Default, PartialEq, Eq)]
#[non_exhaustive]
pub struct PlaneRow {
    /// The source has a fact: the row is valid until `Router::changed` lists the source. Otherwise it is valid until
    /// `Router::may_differ` is true for the source.
    pub is_known: bool,
    incoming: u32,
    /// Where copies of accepted packets leave, except the interface on which they came.
    pub outgoing: Interfaces,
    /// Where a packet shows that the source is alive, accepted or not.
    pub alive: Interfaces,
    /// Where a packet is the router's, whatever else the row says.
    pub to_core: Interfaces,
}

impl PlaneRow {
    /// Where packets are accepted.
    pub fn incoming(&self) -> Option<u32> {
        (self.incoming != NO_INTERFACE).then_some(self.incoming)
    }
}

/// A source of a group.
#[repr(C)]
#[derive(Clone, Copy, Debug, Default, PartialEq, Eq, Hash)]
pub struct SourceGroup {
    source: u32,
    group: u32,
}

impl SourceGroup {
    /// S.
    pub fn source(&self) -> Ipv4Addr {
        self.source.into()
    }

    /// G.
    pub fn group(&self) -> Ipv4Addr {
        self.group.into()
    }
}

// ---- the calls

/// The values of C that aren't those of the crate.
mod raw {
    pub const COPY: u32 = 2;
    pub const UNICAST: u32 = 3;

    #[repr(C)]
    pub struct Interface {
        pub address: u32,
        pub length: u32,
        pub priority: u32,
        pub propagation_delay: u32,
        pub override_interval: u32,
    }

    #[repr(C)]
    pub struct Settings {
        pub limit: u32,
        pub robustness: u32,
        pub query_interval: u32,
        pub query_response_interval: u32,
        pub last_member_query_interval: u32,
        pub stays_on_shared_tree: bool,
        pub addresses: *const u32,
        pub address_count: usize,
    }

    #[repr(C)]
    pub struct Route {
        pub prefix: u32,
        pub length: u32,
        pub next_hop: u32,
        pub iface: u32,
        pub preference: u32,
        pub metric: u32,
    }

    #[repr(C)]
    #[derive(Default)]
    pub struct Range {
        pub prefix: u32,
        pub length: u32,
        pub rp: u32,
    }

    #[repr(C)]
    pub struct Candidate {
        pub prefix: u32,
        pub length: u32,
        pub rp: u32,
        pub priority: u32,
        pub hash_length: u32,
    }

    #[repr(C)]
    pub struct RpSet {
        pub shared: u32,
        pub own: u32,
        pub others: *const u32,
        pub other_count: usize,
    }

    #[repr(C)]
    #[derive(Default)]
    pub struct Packet {
        pub kind: u32,
        pub iface: u32,
        pub destination: u32,
        pub length: usize,
    }

    #[repr(C)]
    #[derive(Default)]
    pub struct RefusedAt {
        pub index: usize,
        pub reason: u32,
    }

    #[repr(C)]
    #[derive(Default)]
    pub struct OlderRow {
        pub iface: u32,
        pub group: u32,
        pub mode: u32,
        pub one_end: u64,
        pub two_end: u64,
    }

    #[repr(C)]
    #[derive(Clone, Copy)]
    pub struct Draw {
        pub bits: u32,
    }

    #[repr(C)]
    pub struct Received {
        pub iface: u32,
        pub packet: *const u8,
        pub length: usize,
        pub draw: Draw,
    }
}
use raw::Draw;

extern "C" {
    fn viq_version() -> *const c_char;
    fn viq_answer_text(answer: u32) -> *const c_char;
    fn viq_refused_text(reason: u32) -> *const c_char;
    fn viq_message(packet: *const u8, length: usize) -> u32;
    fn viq_message_text(message: u32) -> *const c_char;
    fn viq_save(router: *const c_void, room: *mut u8, room_length: usize, size: *mut usize) -> u32;
    fn viq_restore(router: *mut *mut c_void, abi: u32, bytes: *const u8, length: usize) -> u32;
    fn viq_end(router: *mut c_void);
    fn viq_advance(router: *mut c_void, moment: u64, draw: Draw) -> u32;
    fn viq_frame(router: *mut c_void, iface: u32, packet: *const u8, length: usize, draw: Draw) -> u32;
    fn viq_unicast(router: *mut c_void, packet: *const u8, length: usize, draw: Draw) -> u32;
    fn viq_up(router: *mut c_void, iface: u32, draw: Draw) -> u32;
    fn viq_down(router: *mut c_void, iface: u32, draw: Draw) -> u32;
    fn viq_packets(router: *const c_void) -> usize;
    fn viq_take(router: *mut c_void, packet: *mut raw::Packet, room: *mut u8, room_length: usize) -> bool;
    fn viq_clear(router: *mut c_void);
    fn viq_copies(router: *const c_void) -> u32;
    fn viq_next_moment(router: *const c_void) -> u64;
    fn viq_read(router: *mut c_void, letter: u8) -> u32;
    fn viq_rows(router: *const c_void) -> usize;
    fn viq_row(router: *const c_void, index: usize, row: *mut rows::raw::Row) -> bool;
    fn viq_older(router: *mut c_void, iface: u32, hosts: u32) -> u32;
    fn viq_query_version(router: *mut c_void, iface: u32, version: u32) -> u32;
    fn viq_guard(router: *mut c_void, on: u32) -> u32;
    fn viq_older_read(router: *mut c_void) -> u32;
    fn viq_older_rows(router: *const c_void) -> usize;
    fn viq_older_row(router: *const c_void, index: usize, row: *mut raw::OlderRow) -> bool;
    fn viq_cached(router: *const c_void, source: u32, group: u32, forwarding: *mut Forwarding) -> bool;
    fn viq_tree(router: *const c_void, group: u32, tree: *mut trees::raw::Tree) -> bool;
    fn viq_source_tree(router: *const c_void, source: u32, group: u32, tree: *mut trees::raw::SourceTree) -> bool;
    fn viq_link(router: *const c_void, iface: u32, link: *mut trees::raw::Link) -> bool;
    fn viq_neighbour(router: *const c_void, iface: u32, address: u32, neighbour: *mut trees::raw::Neighbour) -> bool;
    fn viq_offload(router: *const c_void, source: u32, group: u32, row: *mut PlaneRow) -> bool;
    fn viq_changed(router: *const c_void) -> usize;
    fn viq_changed_source(router: *const c_void, index: usize, name: *mut SourceGroup) -> bool;
    fn viq_may_differ(router: *const c_void, source: u32, group: u32) -> bool;
    fn viq_seen(router: *mut c_void, iface: u32, source: u32, group: u32, draw: Draw) -> u32;
    fn viq_keep(router: *mut c_void, source: u32, group: u32, moment: u64) -> u32;
    fn viq_sum(router: *const c_void) -> u32;
    fn viq_probes(router: *const c_void) -> u64;
    fn viq_touched(router: *const c_void) -> u64;
}

list_calls! {
    viq_routes_refused_at(; raw::Interface, u32, raw::Route; at: *mut raw::RefusedAt) -> bool;
    viq_ranges_refused_at(; raw::Range; at: *mut raw::RefusedAt) -> bool;
    viq_candidates_refused_at(; raw::Candidate; at: *mut raw::RefusedAt) -> bool;
    viq_report(host: u32, kind: u32, group: u32; u32; room: *mut u8, room_length: usize) -> usize;
    viq_new(
        router: *mut *mut c_void, abi: u32, settings: *const raw::Settings; raw::Interface, raw::Route, raw::Range;
    ) -> u32;
    viq_reload(
        router: *mut c_void, settings: *const raw::Settings; raw::Interface, raw::Route, raw::Range; draw: Draw
    ) -> u32;
    viq_reload_places(
        router: *mut c_void, settings: *const raw::Settings; raw::Interface, raw::Route, raw::Range, u32; draw: Draw
    ) -> u32;
    viq_frames(router: *mut c_void; raw::Received; answers: *mut u32) -> usize;
    viq_routes(router: *mut c_void; raw::Route; draw: Draw) -> u32;
    viq_ranges(router: *mut c_void; raw::Range; draw: Draw) -> u32;
    viq_candidates(router: *mut c_void; raw::Candidate; draw: Draw) -> u32;
    viq_anycast(router: *mut c_void; raw::RpSet;) -> u32;
}

/// What a call of C writes, where it answers that there is something.
fn written<T: Default>(call: impl FnOnce(&mut T) -> bool) -> Option<T> {
    let mut told = T::default();
    call(&mut told).then_some(told)
}

/// So many rows, each of which a call of C writes by its number.
fn all_written<T: Default, R>(count: usize, call: impl Fn(usize, &mut T) -> bool, of: impl Fn(T) -> R) -> Vec<R> {
    (0..count).filter_map(|index| written(|row| call(index, row))).map(of).collect()
}

/// What a call of C makes, and where it lies.
fn made(call: impl FnOnce(&mut *mut c_void) -> u32) -> Result<NonNull<c_void>, Error> {
    let mut made = null_mut();
    match (call(&mut made), NonNull::new(made)) {
        (DONE, Some(at)) => Ok(at),
        (answer, _) => Err(Error::of(answer)),
    }
}

/// Places as C takes them. No number that is close to that of no place is of an interface.
pub(crate) fn given_places(places: &[Option<u32>]) -> Vec<u32> {
    places.iter().map(|place| place.map_or(NO_PLACE, |number| number.min(NO_PLACE - 1))).collect()
}

fn ends(moment: u64) -> Option<u64> {
    (moment != NEVER).then_some(moment)
}

fn text(from: *const c_char) -> &'static str {
    // SAFETY: the library's texts are constants that end with a zero.
    unsafe { CStr::from_ptr(from) }.to_str().unwrap_or("")
}

/// The version of the library, and how it was built: `proved` or `not proved`.
pub fn version() -> &'static str {
    // SAFETY: the call takes nothing.
    text(unsafe { viq_version() })
}

/// What an answer's number says.
pub fn answer_text(answer: u32) -> &'static str {
    // SAFETY: the call takes any number.
    text(unsafe { viq_answer_text(answer) })
}

/// A router, which is freed when it is dropped.
// The pointer is of a router that `viq_new` or `viq_restore` made, until it is dropped: this is what makes each call below safe. Those
// that change it borrow it alone.
pub struct Router(NonNull<c_void>);

// SAFETY: a router is memory of its own, taken by malloc. What it does depends on no thread, and one thread has it at a
// time.
unsafe impl Send for Router {}

impl fmt::Debug for Router {
    fn fmt(&self, to: &mut fmt::Formatter<'_>) -> fmt::Result {
        to.debug_struct("Router")
            .field("next_moment", &self.next_moment())
            .field("packets", &self.packet_count())
            .finish_non_exhaustive()
    }
}

impl Router {
    /// Makes a router, at time 0 and with all interfaces down.
    pub fn new(
        settings: &Settings,
        interfaces: &[Interface],
        routes: &[Route],
        ranges: &[Range],
    ) -> Result<Router, Error> {
        let to = Given::of(settings, interfaces, routes, ranges);
        // SAFETY: each list is passed as its pointer and its length, and what points to the router is only written.
        made(|at| unsafe { with_lists!(viq_new(at, ABI, &to.settings; to.interfaces, to.routes, to.ranges;)) })
            .map(Router)
    }

    /// Puts the router under another configuration, which is given whole, as to `new`. Interfaces are numbered in the order
    /// in which they are given: those past the last one go down and are removed, those that are added are down, and the
    /// others stay as they are. Then settings, routes and ranges are those of the configuration, and what follows is done
    /// as after an event. What leaves, among it a Hello on each interface that is up and whose address, priority or
    /// delays differ, is then to be sent. A data plane reads all its rows again. Where the limit is below the number of
    /// facts, they all stay, and none is made until there is room. An `Err` that a configuration is refused changes
    /// nothing.
    pub fn reload(
        &mut self,
        settings: &Settings,
        interfaces: &[Interface],
        routes: &[Route],
        ranges: &[Range],
        draw: u32,
    ) -> Result<(), Error> {
        let (to, draw) = (Given::of(settings, interfaces, routes, ranges), Draw { bits: draw });
        // SAFETY: the router is there and borrowed alone; each list is passed as its pointer and its length.
        done(unsafe { with_lists!(viq_reload(self.at_mut(), &to.settings; to.interfaces, to.routes, to.ranges; draw)) })
    }

    /// Puts the router under another configuration whose interfaces may be left out, added or in another order. `places`
    /// has of each interface of the router, in the order of its configuration, the number of the one of the other
    /// configuration that has its link, or `None`. An interface with a place keeps what it has at its new number, and
    /// stays up or down; one without goes down; one to which none goes is new, and down. The neighbours of an interface
    /// go whose address, or the length of whose subnet, is another one. All else is as with `reload`. What is to be sent
    /// leaves on the old interface of its link: a `Target` then has a number of before. An `Err` that the configuration
    /// is refused, or after it the map (`Refusal::PlacesDontFit`), changes nothing: a map fits that has as many items as the
    /// router has interfaces, and no number twice or past the last interface.
    pub fn reload_places(
        &mut self,
        settings: &Settings,
        interfaces: &[Interface],
        routes: &[Route],
        ranges: &[Range],
        places: &[Option<u32>],
        draw: u32,
    ) -> Result<(), Error> {
        let (to, draw) = (Given::of(settings, interfaces, routes, ranges), Draw { bits: draw });
        let places = given_places(places);
        // SAFETY: the router is there and borrowed alone; each list is passed as its pointer and its length.
        done(unsafe {
            with_lists!(viq_reload_places(self.at_mut(), &to.settings; to.interfaces, to.routes, to.ranges, places; draw))
        })
    }

    /// Makes a router that goes on from the state that `save` returned: the same events and draws bring the same answers
    /// and packets, once `set_rp_sets`, `set_older_hosts` and `set_query_version` have set what they had. It has nothing to
    /// send, and its guard is on. Bytes that are no saved state of a router are refused, whatever they are.
    pub fn restore(saved: &[u8]) -> Result<Router, Error> {
        // SAFETY: the bytes are passed as their pointer and their length, and what points to the router is only written.
        made(|at| unsafe { viq_restore(at, ABI, saved.as_ptr(), saved.len()) }).map(Router)
    }

    /// The state of the router as bytes, of which `restore` makes a router that goes on from it. What isn't in them:
    /// what the clock showed at timestamp 0, packets that are untaken, and what `set_guard`, `set_rp_sets`,
    /// `set_older_hosts` and `set_query_version` set.
    pub fn save(&self) -> Result<Vec<u8>, Error> {
        let size = self.save_into(&mut [])?;
        let mut saved = vec![0; size];
        self.save_into(&mut saved)?;
        Ok(saved)
    }

    /// Saves the state into `room`, as many of its bytes as it holds. Returns how many there are.
    pub fn save_into(&self, room: &mut [u8]) -> Result<usize, Error> {
        let mut size = 0;
        // SAFETY: the router is there; the room is passed as its pointer and its length.
        done(unsafe { viq_save(self.at(), room.as_mut_ptr(), room.len(), &mut size) })?;
        Ok(size)
    }

    fn at(&self) -> *const c_void {
        self.0.as_ptr()
    }

    fn at_mut(&mut self) -> *mut c_void {
        self.0.as_ptr()
    }

    // ---- events

    /// Time passes up to the timestamp `moment`, which may not be before the present.
    pub fn advance(&mut self, moment: u64, draw: u32) -> Result<Verdict, Error> {
        // SAFETY: the router is there and borrowed alone.
        verdict(unsafe { viq_advance(self.at_mut(), moment, Draw { bits: draw }) })
    }

    /// Time passes up to the timestamp `now`, timer by timer, each with a draw of its own; each packet that is untaken or
    /// leaves on the way is passed to `send` with its bytes.
    pub fn run_to(
        &mut self,
        now: u64,
        mut draw: impl FnMut() -> u32,
        mut send: impl FnMut(Target, &[u8]),
    ) -> Result<(), Error> {
        let mut room = [0; MOST_BYTES];
        let mut reached = None;
        loop {
            while let Some((target, bytes)) = self.take(&mut room) {
                send(target, bytes);
            }
            if reached == Some(now) && self.next_moment().map_or(true, |moment| moment > now) {
                return Ok(());
            }
            let moment = self.next_moment().map_or(now, |moment| moment.min(now));
            self.advance(moment, draw())?;
            reached = Some(moment);
        }
    }

    /// A packet came on an interface, to a group: PIM, IGMP or data.
    pub fn frame(&mut self, iface: u32, packet: &[u8], draw: u32) -> Result<Verdict, Error> {
        // SAFETY: the router is there and borrowed alone; the packet is passed as its pointer and its length.
        verdict(unsafe { viq_frame(self.at_mut(), iface, packet.as_ptr(), packet.len(), Draw { bits: draw }) })
    }

    /// Packets came on interfaces, to groups, one after the other: each is an event, as by `frame`, in its turn. Returns
    /// what became of those that were given: all up to the first one that is ignored by `Reason::OtherType`, or after
    /// which packets are untaken, `touched` isn't 0, or the router is lost; at least one where there is one. Each but the last of them sent nothing, and changed no row
    /// of a source with a fact. The program does what it does after an event, and gives the rest by another call.
    pub fn frames(&mut self, frames: &[Received<'_>]) -> Vec<Result<Verdict, Error>> {
        let given: Vec<_> = frames.iter().map(Received::given).collect();
        let mut answers = vec![DONE; given.len()];
        // SAFETY: the router is there and borrowed alone; the list is passed as its pointer and its length, each packet in
        // it too, and there are as many answers.
        let count = unsafe { with_lists!(viq_frames(self.at_mut(); given; answers.as_mut_ptr())) };
        answers.into_iter().take(count).map(verdict).collect()
    }

    /// A PIM packet came for an address of the router.
    pub fn unicast(&mut self, packet: &[u8], draw: u32) -> Result<Verdict, Error> {
        // SAFETY: as of `frame`.
        verdict(unsafe { viq_unicast(self.at_mut(), packet.as_ptr(), packet.len(), Draw { bits: draw }) })
    }

    /// An interface goes up.
    pub fn up(&mut self, iface: u32, draw: u32) -> Result<Verdict, Error> {
        // SAFETY: the router is there and borrowed alone.
        verdict(unsafe { viq_up(self.at_mut(), iface, Draw { bits: draw }) })
    }

    /// An interface goes down.
    pub fn down(&mut self, iface: u32, draw: u32) -> Result<Verdict, Error> {
        // SAFETY: the router is there and borrowed alone.
        verdict(unsafe { viq_down(self.at_mut(), iface, Draw { bits: draw }) })
    }

    /// All unicast routes are replaced.
    pub fn set_routes(&mut self, routes: &[Route], draw: u32) -> Result<Verdict, Error> {
        let given: Vec<_> = routes.iter().map(Route::given).collect();
        // SAFETY: the router is there and borrowed alone; the list is passed as its pointer and its length.
        verdict(unsafe { with_lists!(viq_routes(self.at_mut(); given; Draw { bits: draw })) })
    }

    /// All RP ranges are replaced.
    pub fn set_ranges(&mut self, ranges: &[Range], draw: u32) -> Result<Verdict, Error> {
        let given: Vec<_> = ranges.iter().map(Range::given).collect();
        // SAFETY: as of `set_routes`.
        verdict(unsafe { with_lists!(viq_ranges(self.at_mut(); given; Draw { bits: draw })) })
    }

    /// All candidate RPs are replaced, at most 256; a new router has none. The RP ranges stay, as the candidates do with
    /// `set_ranges` and `reload`. Where a range contains a group as well, the longer prefix of the two decides, and of one
    /// prefix the range has the RP; `tree` tells the RP of a group.
    pub fn set_candidates(&mut self, candidates: &[Candidate], draw: u32) -> Result<Verdict, Error> {
        let given: Vec<_> = candidates.iter().map(Candidate::given).collect();
        // SAFETY: as of `set_routes`.
        verdict(unsafe { with_lists!(viq_candidates(self.at_mut(); given; Draw { bits: draw })) })
    }

    // ---- what is to be sent

    /// How many packets are untaken.
    pub fn packet_count(&self) -> usize {
        // SAFETY: the router is there.
        unsafe { viq_packets(self.at()) }
    }

    /// Takes the first of them: where it goes, and its bytes, which are written into `room`.
    pub fn take<'a>(&mut self, room: &'a mut [u8; MOST_BYTES]) -> Option<(Target, &'a [u8])> {
        let mut packet = raw::Packet::default();
        // SAFETY: the router is there and borrowed alone; the room is passed as its pointer and its length.
        let is_taken = unsafe { viq_take(self.at_mut(), &mut packet, room.as_mut_ptr(), room.len()) };
        is_taken.then(|| (Target::from_c(&packet), &room[..packet.length]))
    }

    /// Takes them one by one, in the order in which they are to leave.
    pub fn drain(&mut self) -> Drain<'_> {
        Drain { router: self }
    }

    /// Drops all that are untaken.
    pub fn clear(&mut self) {
        // SAFETY: the router is there and borrowed alone.
        unsafe { viq_clear(self.at_mut()) }
    }

    /// How many copies of data the last event sent, taken or not.
    pub fn copies(&self) -> usize {
        // SAFETY: the router is there.
        unsafe { viq_copies(self.at()) as usize }
    }

    /// The timestamp at which the next timer expires: time is to pass then.
    pub fn next_moment(&self) -> Option<u64> {
        // SAFETY: the router is there.
        ends(unsafe { viq_next_moment(self.at()) })
    }

    // ---- what the router knows

    /// The rows of a table, ascending by their keys.
    pub fn rows(&mut self, table: Table) -> Result<Vec<Row>, Error> {
        // SAFETY: the router is there and borrowed alone.
        match unsafe { viq_read(self.at_mut(), table as u8) } {
            DONE => Ok(self.read_rows()),
            answer => Err(Error::of(answer)),
        }
    }

    /// The rows of the table of one kind of row, ascending by their keys.
    pub fn rows_of<R: TableRow>(&mut self) -> Result<Vec<R>, Error> {
        Ok(self.rows(R::TABLE)?.into_iter().filter_map(R::of).collect())
    }

    /// The rows of the table that was read last.
    fn read_rows(&self) -> Vec<Row> {
        // SAFETY: the router is there.
        let count = unsafe { viq_rows(self.at()) };
        (0..count).filter_map(|index| self.row(index)).collect()
    }

    fn row(&self, index: usize) -> Option<Row> {
        let mut row = rows::raw::Row::default();
        // SAFETY: the router is there, and writes the member of the row's table where it answers that there is a row.
        unsafe { viq_row(self.at(), index, &mut row).then(|| Row::from_c(&row)).flatten() }
    }

    /// How data of a source to a group is forwarded, as the forwarding cache has it; `None` where there is no fact of
    /// the source.
    pub fn cached(&self, source: Ipv4Addr, group: Ipv4Addr) -> Option<Forwarding> {
        // SAFETY: the router is there.
        written(|told| unsafe { viq_cached(self.at(), source.into(), group.into(), told) })
    }

    // ---- trees and links: each macro of RFC 7761, evaluated anew; all are `None` for a lost router

    /// The macros of (\*,G) of any group.
    pub fn tree(&self, group: Ipv4Addr) -> Option<Tree> {
        // SAFETY: the router is there.
        written(|told| unsafe { viq_tree(self.at(), group.into(), told) }).map(Tree::from_c)
    }

    /// The macros of (S,G) and of (S,G,rpt) of any source of any group, whether it has a fact or not.
    pub fn source_tree(&self, source: Ipv4Addr, group: Ipv4Addr) -> Option<SourceTree> {
        // SAFETY: the router is there.
        written(|told| unsafe { viq_source_tree(self.at(), source.into(), group.into(), told) }).map(SourceTree::from_c)
    }

    /// An interface with its DR and its querier; `None` also where it isn't configured.
    pub fn link(&self, iface: u32) -> Option<Link> {
        // SAFETY: the router is there.
        written(|told| unsafe { viq_link(self.at(), iface, told) }).map(Link::from_c)
    }

    /// A neighbour with the options of its last Hello; `None` also where there is none of this address. The table of
    /// neighbours lists them.
    pub fn neighbour(&self, iface: u32, address: Ipv4Addr) -> Option<Neighbour> {
        // SAFETY: the router is there.
        written(|told| unsafe { viq_neighbour(self.at(), iface, address.into(), told) }).map(Neighbour::from_c)
    }

    /// Sets whether the guard is on, as it is in a new router. It stops by `Reason::Guarded` what would be forwarded as
    /// data though hosts and routers read it as IGMP or PIM: a Register whose packet inside is of these, or is for
    /// 224.0.0.0/24, and on a link PIM to a group outside 224.0.0.0/24. It is no event.
    pub fn set_guard(&mut self, is_on: bool) -> Result<(), Error> {
        // SAFETY: the router is there and borrowed alone.
        done(unsafe { viq_guard(self.at_mut(), is_on.into()) })
    }

    /// Sets the sets of RPs that share an address, in place of those before: none in a new router, and in a restored one.
    /// A Register to a set's shared address is then sent on to the others, and sources on the router's own links are
    /// announced to them: at once, and at each timestamp that is a multiple of 60,000 ms. It is no event. An `Err` leaves
    /// those before: `Refusal::BadRpSet` where the router can't have the sets. `reload` and `reload_places` keep the sets,
    /// and refuse a configuration so to whose addresses they don't fit.
    pub fn set_rp_sets(&mut self, sets: &[RpSet]) -> Result<(), Error> {
        let others = given_others(sets);
        let given = given_sets(sets, &others);
        // SAFETY: the router is there and borrowed alone; the list, and in it those of others, are passed as their pointers
        // and their lengths.
        done(unsafe { with_lists!(viq_anycast(self.at_mut(); given;)) })
    }

    // ---- older versions of IGMP

    /// Sets which hosts of older versions an interface hears from then on, and forgets what it heard before; where it
    /// heard none it keeps what was restored of those that it is to hear. A new router hears none of them, and refuses
    /// their messages by `Refusal::OldVersion`. It is no event.
    pub fn set_older_hosts(&mut self, iface: u32, hosts: OlderHosts) -> Result<(), Error> {
        // SAFETY: the router is there and borrowed alone.
        done(unsafe { viq_older(self.at_mut(), iface, hosts as u32) })
    }

    /// Sets the version in which an interface queries. It is no event. All routers of a link have to query in one
    /// version.
    pub fn set_query_version(&mut self, iface: u32, version: QueryVersion) -> Result<(), Error> {
        // SAFETY: the router is there and borrowed alone.
        done(unsafe { viq_query_version(self.at_mut(), iface, version as u32) })
    }

    /// The groups that are in an older mode, ascending by interface and then by group.
    pub fn older_rows(&mut self) -> Result<Vec<OlderRow>, Error> {
        // SAFETY: the router is there and borrowed alone.
        done(unsafe { viq_older_read(self.at_mut()) })?;
        let at = self.at();
        // SAFETY: the router is there.
        Ok(unsafe { all_written(viq_older_rows(at), |index, row| viq_older_row(at, index, row), OlderRow::from_c) })
    }

    // ---- a data plane: `include/viqeshor/plane.h` says what one owes

    /// What a data plane may do with the packets of a source to a group; `None` where all are the router's.
    pub fn offload(&self, source: Ipv4Addr, group: Ipv4Addr) -> Option<PlaneRow> {
        // SAFETY: the router is there.
        written(|row| unsafe { viq_offload(self.at(), source.into(), group.into(), row) })
    }

    /// The sources whose rows may have changed at the last event, each once, ascending by group and then by source.
    pub fn changed(&self) -> Vec<SourceGroup> {
        // SAFETY: the router is there.
        let changed = |index: usize, name: &mut _| unsafe { viq_changed_source(self.at(), index, name) };
        // SAFETY: as above.
        all_written(unsafe { viq_changed(self.at()) }, changed, |name| name)
    }

    /// Whether what `offload` returns for a source, with a fact or without one, may have changed at the last event.
    pub fn may_differ(&self, source: Ipv4Addr, group: Ipv4Addr) -> bool {
        // SAFETY: the router is there.
        unsafe { viq_may_differ(self.at(), source.into(), group.into()) }
    }

    /// An event: a data plane saw a packet of a source to a group on an interface. No copy and no Register of the
    /// packet leaves.
    pub fn seen(&mut self, iface: u32, source: Ipv4Addr, group: Ipv4Addr, draw: u32) -> Result<Verdict, Error> {
        // SAFETY: the router is there and borrowed alone.
        verdict(unsafe { viq_seen(self.at_mut(), iface, source.into(), group.into(), Draw { bits: draw }) })
    }

    /// A data plane forwarded a packet of a source to a group at the timestamp `moment`, at most 2^62. Where the
    /// source's keepalive timer runs, its expiry moves to 210 s after that, unless it is later already. Returns whether
    /// the timer runs; only `seen` starts one.
    pub fn keep(&mut self, source: Ipv4Addr, group: Ipv4Addr, moment: u64) -> Result<bool, Error> {
        // SAFETY: the router is there and borrowed alone.
        match unsafe { viq_keep(self.at_mut(), source.into(), group.into(), moment) } {
            DONE => Ok(true),
            NO_TIMER => Ok(false),
            answer => Err(Error::of(answer)),
        }
    }

    /// The sum of the packets that are to be sent, which is in a record.
    pub fn sum(&self) -> u32 {
        // SAFETY: the router is there.
        unsafe { viq_sum(self.at()) }
    }

    // ---- costs

    /// The trie nodes that the last event visited.
    pub fn probes(&self) -> u64 {
        // SAFETY: the router is there.
        unsafe { viq_probes(self.at()) }
    }

    /// The rows of the forwarding cache that the last event evaluated, put in and took out.
    pub fn touched(&self) -> u64 {
        // SAFETY: the router is there.
        unsafe { viq_touched(self.at()) }
    }
}

impl Drop for Router {
    fn drop(&mut self) {
        // SAFETY: the router is there, and nobody has it after this.
        unsafe { viq_end(self.0.as_ptr()) }
    }
}
