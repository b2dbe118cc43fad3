//! MSDP (RFC 3618): sources of other RPs. What peers say is read by `tlv`, kept by `cache`, and each session is a machine of
//! bytes and time, `session`. None of these has a socket or a clock: `daemon/msdp.rs` has them.
pub mod cache;
pub mod session;
pub mod tlv;

pub use cache::{Cache, Put};
pub use session::Session;

use std::net::Ipv4Addr;

/// Where the peer with the higher address listens (11).
pub const PORT: u16 = 639;
/// Times, in ms (5).
pub const ADVERTISEMENT: u64 = 60_000;
pub const HOLD: u64 = 75_000;
pub const KEEPALIVE: u64 = 60_000;
pub const CONNECT_RETRY: u64 = 30_000;
/// SG-State-Period: at least the SA-Advertisement-Period and the SA-Hold-Down-Period, 30 s (5.3).
pub const STATE: u64 = 150_000;
/// An SA that is passed on isn't passed on again for so long: at most twice in a period of advertisement (4).
pub const PASS_AGAIN: u64 = 30_000;
/// Keepalive_Period of the RP: so long after its last Register a source is told of (RFC 7761, 4.11).
pub const REGISTERED: u64 = 210_000;

/// What decides whose SAs are taken.
#[derive(Clone, Copy, Debug, PartialEq, Eq)]
pub struct Neighbour<'a> {
    pub address: Ipv4Addr,
    pub mesh: Option<&'a str>,
    /// It is the static RPF peer of the RP.
    pub is_static: bool,
    pub is_up: bool,
}

/// Whether an SA of an RP is taken of a peer: of a member of a mesh group always (10.2), of another one if it is the RPF peer
/// (10.1.3). That is the RP itself where it is a peer (i), else the first that the settings name for the RP (v). A peer whose
/// session isn't up is none.
pub fn is_rpf_peer(from: Ipv4Addr, rp: Ipv4Addr, peers: &[Neighbour]) -> bool {
    let is_member = |peer: &Neighbour| peer.address == from && peer.mesh.is_some();
    if peers.iter().any(is_member) {
        return true;
    }
    let up = || peers.iter().filter(|peer| peer.is_up);
    let chosen = up().find(|peer| peer.address == rp).or_else(|| up().find(|peer| peer.is_static));
    chosen.map_or(false, |peer| peer.address == from)
}

/// Whether what came of one peer is passed on to another: not to itself, nor within a mesh group (10.2).
pub fn is_passed_on(from: (Ipv4Addr, Option<&str>), to: (Ipv4Addr, Option<&str>)) -> bool {
    from.0 != to.0 && (from.1.is_none() || from.1 != to.1)
}

#[cfg(test)]
mod tests {
    use super::*;

    const ONE: Ipv4Addr = Ipv4Addr::new(10, 0, 0, 1);
    const OTHER: Ipv4Addr = Ipv4Addr::new(10, 0, 0, 2);
    const FAR: Ipv4Addr = Ipv4Addr::new(10, 9, 9, 9);

    fn peer(address: Ipv4Addr, mesh: Option<&str>, is_static: bool) -> Neighbour<'_> {
        Neighbour { address, mesh, is_static, is_up: true }
    }

    #[test]
    fn an_sa_is_taken_of_the_rp_itself_or_of_its_static_peer() {
        let peers = [peer(ONE, None, false), peer(OTHER, None, true)];
        assert!(is_rpf_peer(ONE, ONE, &peers) && !is_rpf_peer(OTHER, ONE, &peers));
        assert!(is_rpf_peer(OTHER, FAR, &peers) && !is_rpf_peer(ONE, FAR, &peers));
        // A session that is down makes no RPF peer.
        let down = [Neighbour { is_up: false, ..peers[0] }, peers[1]];
        assert!(is_rpf_peer(OTHER, ONE, &down) && !is_rpf_peer(ONE, ONE, &down));
        // Of two the first is the static peer.
        let two = [peer(ONE, None, true), peer(OTHER, None, true)];
        assert!(is_rpf_peer(ONE, FAR, &two) && !is_rpf_peer(OTHER, FAR, &two));
        assert!(!is_rpf_peer(FAR, FAR, &two));
    }

    #[test]
    fn members_of_a_mesh_group_are_believed_and_told_nothing_of_each_other() {
        let peers = [peer(ONE, Some("a"), false), peer(OTHER, None, false)];
        assert!(is_rpf_peer(ONE, FAR, &peers) && !is_rpf_peer(OTHER, FAR, &peers));
        assert!(!is_passed_on((ONE, Some("a")), (OTHER, Some("a"))));
        assert!(is_passed_on((ONE, Some("a")), (OTHER, Some("b"))));
        assert!(is_passed_on((ONE, Some("a")), (OTHER, None)) && is_passed_on((ONE, None), (OTHER, Some("a"))));
        assert!(is_passed_on((ONE, None), (OTHER, None)) && !is_passed_on((ONE, None), (ONE, None)));
    }
}
