//! Sources of other RPs (MSDP, RFC 3618): the joint of its sessions, which are a program's, to the router.
use crate::{done, verdict, written, Draw, Error, Router, SourceGroup, Verdict, MOST_BYTES};
use std::ffi::c_void;
use std::net::Ipv4Addr;

/// A Source-Active message (SA) of one source, as the router is given it.
#[derive(Clone, Copy, Debug, PartialEq, Eq)]
pub struct SourceActive<'a> {
    /// The peer that sent it.
    pub peer: Ipv4Addr,
    /// The RP of the group, an address of the router.
    pub rp: Ipv4Addr,
    /// S.
    pub source: Ipv4Addr,
    /// G.
    pub group: Ipv4Addr,
    /// The packet that it encapsulates; empty where it has none. One of another source or group, or longer than 1,500
    /// bytes, is left out.
    pub packet: &'a [u8],
}

#[repr(C)]
struct Told {
    peer: u32,
    rp: u32,
    source: u32,
    group: u32,
    packet: *const u8,
    length: usize,
}

extern "C" {
    fn viq_source_active(router: *mut c_void, told: *const Told, draw: Draw) -> u32;
    fn viq_source_active_packet(
        router: *const c_void,
        told: *const Told,
        room: *mut u8,
        room_length: usize,
        size: *mut usize,
    ) -> u32;
    fn viq_registered(router: *const c_void, packet: *const u8, length: usize, name: *mut SourceGroup) -> bool;
    fn viq_own_source(router: *const c_void, source: u32, group: u32) -> bool;
}

impl SourceActive<'_> {
    fn told(&self) -> Told {
        Told {
            peer: self.peer.into(),
            rp: self.rp.into(),
            source: self.source.into(),
            group: self.group.into(),
            packet: self.packet.as_ptr(),
            length: self.packet.len(),
        }
    }
}

impl Router {
    // ---- sources of other RPs

    /// An SA as an event: `unicast` of what `source_active_packet` returns, or `Reason::NotForMe`, where nothing has
    /// changed, of a source on a link of the router's. A Register-Stop to the peer may be among what is to be sent then; it
    /// isn't to be sent, since the peer registers nothing.
    pub fn source_active(&mut self, told: &SourceActive, draw: u32) -> Result<Verdict, Error> {
        // SAFETY: the router is there and borrowed alone; the packet is passed as its pointer and its length.
        verdict(unsafe { viq_source_active(self.at_mut(), &told.told(), Draw { bits: draw }) })
    }

    /// The packet in which the router is to be given an SA, as if a DR had sent it; `None` of a source on a link of the
    /// router's, where it hears the source itself. A program that records its events records it as one of `unicast`.
    pub fn source_active_packet(&self, told: &SourceActive) -> Result<Option<Vec<u8>>, Error> {
        let (mut room, mut size) = (vec![0; MOST_BYTES], 0);
        // SAFETY: the router is there; the packet and the room are passed as their pointers and their lengths.
        done(unsafe { viq_source_active_packet(self.at(), &told.told(), room.as_mut_ptr(), room.len(), &mut size) })?;
        room.truncate(size);
        Ok((size > 0).then_some(room))
    }

    /// The source that a packet of `unicast` registers, if it is a DR's Register to the RP of its group, an address of the
    /// router's. An RP tells its peers of the source for as long as Registers come, at least one every 90 s.
    pub fn registered(&self, packet: &[u8]) -> Option<SourceGroup> {
        // SAFETY: the router is there; the packet is passed as its pointer and its length.
        written(|name| unsafe { viq_registered(self.at(), packet.as_ptr(), packet.len(), name) })
    }

    /// Whether a source is on a link of which the router is the DR, sends, and has the router as the RP of its group: an RP
    /// tells its peers of it. The sources with a fact are the rows of `Table::Active`.
    pub fn is_own_source(&self, source: Ipv4Addr, group: Ipv4Addr) -> bool {
        // SAFETY: the router is there.
        unsafe { viq_own_source(self.at(), source.into(), group.into()) }
    }
}
