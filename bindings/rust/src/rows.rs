//! The rows of tables: a value of its own for each kind of row.
use crate::{ends, Table};
use std::net::Ipv4Addr;

/// A PIM neighbour.
#[derive(Clone, Copy, Debug, PartialEq, Eq)]
pub struct NeighbourRow {
    /// The interface.
    pub iface: u32,
    /// The neighbour's.
    pub address: Ipv4Addr,
    /// When its holdtime expires, in ms, or `None`.
    pub end: Option<u64>,
}

/// What hosts want of a group.
#[derive(Clone, Copy, Debug, PartialEq, Eq)]
pub struct GroupRow {
    /// The interface.
    pub iface: u32,
    /// G.
    pub group: Ipv4Addr,
    /// Every source but those that they exclude; else only the sources of the rows of S.
    pub is_exclude: bool,
    /// When EXCLUDE mode ends, in ms; `None` in INCLUDE mode.
    pub end: Option<u64>,
}

/// A source that hosts want or exclude.
#[derive(Clone, Copy, Debug, PartialEq, Eq)]
pub struct SourceRow {
    /// The interface.
    pub iface: u32,
    /// G.
    pub group: Ipv4Addr,
    /// S.
    pub source: Ipv4Addr,
    /// Until when they want it, in ms; `None` where they exclude it.
    pub end: Option<u64>,
}

/// A downstream state of an interface.
#[derive(Clone, Copy, Debug, PartialEq, Eq, Hash)]
#[non_exhaustive]
pub enum DownstreamState {
    /// A Join holds it.
    Joined,
    /// A Prune came, and takes effect unless a Join overrides it.
    PrunePending,
    /// Of (S,G,rpt) alone.
    Pruned,
}

/// What other routers joined or pruned.
#[derive(Clone, Copy, Debug, PartialEq, Eq)]
pub struct DownstreamRow {
    /// The interface.
    pub iface: u32,
    /// G.
    pub group: Ipv4Addr,
    /// `None` for (\*,G).
    pub source: Option<Ipv4Addr>,
    /// Of (S,G,rpt); else of (\*,G) or (S,G).
    pub is_rpt: bool,
    /// Of the machine.
    pub state: DownstreamState,
    /// When the Expiry Timer expires, in ms, or `None`.
    pub end: Option<u64>,
    /// When the Prune-Pending Timer expires, in ms; `None` in another state.
    pub pending: Option<u64>,
}

/// An assert.
#[derive(Clone, Copy, Debug, PartialEq, Eq)]
pub struct AssertRow {
    /// The interface.
    pub iface: u32,
    /// G.
    pub group: Ipv4Addr,
    /// `None` for (\*,G).
    pub source: Option<Ipv4Addr>,
    /// The router lost it; else it won.
    pub is_loser: bool,
    /// The winner's address: the router's own where it won.
    pub winner: Ipv4Addr,
    /// When the Assert Timer expires, in ms.
    pub end: u64,
}

/// A tree that the router has joined upstream.
#[derive(Clone, Copy, Debug, PartialEq, Eq)]
pub struct UpstreamRow {
    /// G.
    pub group: Ipv4Addr,
    /// `None` for (\*,G).
    pub source: Option<Ipv4Addr>,
    /// When the next Join leaves, in ms.
    pub next_join: u64,
}

/// A source of a shared tree that the router has joined.
#[derive(Clone, Copy, Debug, PartialEq, Eq)]
pub struct RptRow {
    /// G.
    pub group: Ipv4Addr,
    /// S.
    pub source: Ipv4Addr,
    /// The router pruned it off the shared tree.
    pub is_pruned: bool,
}

/// The state of a register at the source's DR.
#[derive(Clone, Copy, Debug, PartialEq, Eq, Hash)]
#[non_exhaustive]
pub enum RegisterState {
    /// Registers are sent.
    Joined,
    /// A Null-Register was sent.
    JoinPending,
    /// A Register-Stop came.
    Pruned,
}

/// An active source.
#[derive(Clone, Copy, Debug, PartialEq, Eq)]
pub struct ActiveRow {
    /// G.
    pub group: Ipv4Addr,
    /// S.
    pub source: Ipv4Addr,
    /// When the keepalive timer expires, in ms; `None` where it doesn't run.
    pub keepalive: Option<u64>,
    /// SPTbit(S,G).
    pub spt_bit: bool,
    /// `None` elsewhere than at the source's DR.
    pub register: Option<RegisterState>,
}

/// A row of any table.
#[derive(Clone, Copy, Debug, PartialEq, Eq)]
#[non_exhaustive]
pub enum Row {
    /// N.
    Neighbour(NeighbourRow),
    /// G.
    Group(GroupRow),
    /// S.
    Source(SourceRow),
    /// D.
    Downstream(DownstreamRow),
    /// A.
    Assert(AssertRow),
    /// U.
    Upstream(UpstreamRow),
    /// R.
    Rpt(RptRow),
    /// F.
    Active(ActiveRow),
}

/// A kind of row, which is of one table.
pub trait TableRow: sealed::Sealed + Copy {
    /// Of which they are rows.
    const TABLE: Table;

    /// The row, if it is of this kind.
    fn of(row: Row) -> Option<Self>;
}

mod sealed {
    pub trait Sealed {}
}

macro_rules! of_tables {
    ($($row:ident $kind:ident $table:ident,)*) => {
        $(
            impl sealed::Sealed for $row {}

            impl TableRow for $row {
                const TABLE: Table = Table::$table;

                fn of(row: Row) -> Option<$row> {
                    match row {
                        Row::$kind(row) => Some(row),
                        _ => None,
                    }
                }
            }
        )*
    };
}

of_tables! {
    NeighbourRow Neighbour Neighbours,
    GroupRow Group Groups,
    SourceRow Source Sources,
    DownstreamRow Downstream Downstream,
    AssertRow Assert Asserts,
    UpstreamRow Upstream Upstream,
    RptRow Rpt Trees,
    ActiveRow Active Active,
}

fn source_of(address: u32) -> Option<Ipv4Addr> {
    (address != 0).then(|| address.into())
}

fn downstream_state(number: u32) -> DownstreamState {
    match number {
        2 => DownstreamState::PrunePending,
        3 => DownstreamState::Pruned,
        _ => DownstreamState::Joined,
    }
}

fn register_state(number: u32) -> Option<RegisterState> {
    match number {
        1 => Some(RegisterState::Joined),
        2 => Some(RegisterState::JoinPending),
        3 => Some(RegisterState::Pruned),
        _ => None,
    }
}

impl NeighbourRow {
    fn from_c(of: raw::Neighbour) -> NeighbourRow {
        NeighbourRow { iface: of.iface, address: of.address.into(), end: ends(of.end) }
    }
}

impl GroupRow {
    fn from_c(of: raw::Group) -> GroupRow {
        GroupRow { iface: of.iface, group: of.group.into(), is_exclude: of.is_exclude, end: ends(of.end) }
    }
}

impl SourceRow {
    fn from_c(of: raw::Source) -> SourceRow {
        SourceRow { iface: of.iface, group: of.group.into(), source: of.source.into(), end: ends(of.end) }
    }
}

impl DownstreamRow {
    fn from_c(of: raw::Downstream) -> DownstreamRow {
        DownstreamRow {
            iface: of.iface,
            group: of.group.into(),
            source: source_of(of.source),
            is_rpt: of.is_rpt,
            state: downstream_state(of.state),
            end: ends(of.end),
            pending: ends(of.pending),
        }
    }
}

impl AssertRow {
    fn from_c(of: raw::Assert) -> AssertRow {
        AssertRow {
            iface: of.iface,
            group: of.group.into(),
            source: source_of(of.source),
            is_loser: of.is_loser,
            winner: of.winner.into(),
            end: of.end,
        }
    }
}

impl UpstreamRow {
    fn from_c(of: raw::Upstream) -> UpstreamRow {
        UpstreamRow { group: of.group.into(), source: source_of(of.source), next_join: of.next_join }
    }
}

impl RptRow {
    fn from_c(of: raw::Rpt) -> RptRow {
        RptRow { group: of.group.into(), source: of.source.into(), is_pruned: of.is_pruned }
    }
}

impl ActiveRow {
    fn from_c(of: raw::Active) -> ActiveRow {
        ActiveRow {
            group: of.group.into(),
            source: of.source.into(),
            keepalive: ends(of.keepalive),
            spt_bit: of.spt_bit,
            register: register_state(of.register_state),
        }
    }
}

impl Row {
    /// The row that the library wrote; `None` of a table that isn't known here.
    ///
    /// # Safety
    ///
    /// The member of the row's table is written.
    pub(crate) unsafe fn from_c(row: &raw::Row) -> Option<Row> {
        let letter = u8::try_from(row.table).ok()?;
        // SAFETY: the caller says so of the member of this table.
        unsafe {
            match letter {
                b'N' => Some(Row::Neighbour(NeighbourRow::from_c(row.of.neighbour))),
                b'G' => Some(Row::Group(GroupRow::from_c(row.of.group))),
                b'S' => Some(Row::Source(SourceRow::from_c(row.of.source))),
                b'D' => Some(Row::Downstream(DownstreamRow::from_c(row.of.downstream))),
                b'A' => Some(Row::Assert(AssertRow::from_c(row.of.asserted))),
                b'U' => Some(Row::Upstream(UpstreamRow::from_c(row.of.upstream))),
                b'R' => Some(Row::Rpt(RptRow::from_c(row.of.rpt))),
                b'F' => Some(Row::Active(ActiveRow::from_c(row.of.active))),
                _ => None,
            }
        }
    }
}

/// Rows as `viqeshor.h` has them.
pub(crate) mod raw {
    #[repr(C)]
    #[derive(Clone, Copy)]
    pub struct Neighbour {
        pub iface: u32,
        pub address: u32,
        pub end: u64,
    }

    #[repr(C)]
    #[derive(Clone, Copy)]
    pub struct Group {
        pub iface: u32,
        pub group: u32,
        pub is_exclude: bool,
        pub end: u64,
    }

    #[repr(C)]
    #[derive(Clone, Copy)]
    pub struct Source {
        pub iface: u32,
        pub group: u32,
        pub source: u32,
        pub end: u64,
    }

    #[repr(C)]
    #[derive(Clone, Copy)]
    pub struct Downstream {
        pub iface: u32,
        pub group: u32,
        pub source: u32,
        pub is_rpt: bool,
        pub state: u32,
        pub end: u64,
        pub pending: u64,
    }

    #[repr(C)]
    #[derive(Clone, Copy)]
    pub struct Assert {
        pub iface: u32,
        pub group: u32,
        pub source: u32,
        pub is_loser: bool,
        pub winner: u32,
        pub end: u64,
    }

    #[repr(C)]
    #[derive(Clone, Copy)]
    pub struct Upstream {
        pub group: u32,
        pub source: u32,
        pub next_join: u64,
    }

    #[repr(C)]
    #[derive(Clone, Copy)]
    pub struct Rpt {
        pub group: u32,
        pub source: u32,
        pub is_pruned: bool,
    }

    #[repr(C)]
    #[derive(Clone, Copy)]
    pub struct Active {
        pub group: u32,
        pub source: u32,
        pub keepalive: u64,
        pub spt_bit: bool,
        pub register_state: u32,
    }

    #[repr(C)]
    pub union Columns {
        pub neighbour: Neighbour,
        pub group: Group,
        pub source: Source,
        pub downstream: Downstream,
        pub asserted: Assert,
        pub upstream: Upstream,
        pub rpt: Rpt,
        pub active: Active,
    }

    #[repr(C)]
    pub struct Row {
        pub table: u32,
        pub of: Columns,
    }

    impl Default for Row {
        fn default() -> Row {
            Row { table: 0, of: Columns { rpt: Rpt { group: 0, source: 0, is_pruned: false } } }
        }
    }
}
