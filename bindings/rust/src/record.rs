//! Records of what a router took (docs/LIBRARY.md, "A recording").
use crate::{
    done, given_others, given_places, given_sets, raw, Candidate, Error, Given, Interface, Range, Route, RpSet,
    Settings,
};

/// A call that a router took, and what it answered. A field that its kind of call doesn't have isn't read.
#[repr(C)]
#[derive(Clone, Copy, Debug, Default, PartialEq, Eq)]
pub struct Call {
    /// In ms, of time that passed and of a packet that a data plane forwarded.
    pub moment: u64,
    /// Of its kind, as `viq_record` has it.
    pub letter: u32,
    /// Of an event.
    pub draw: u32,
    /// Of an event on an interface, and of a setting of one.
    pub iface: u32,
    /// Of a report of a data plane, as the next one.
    pub source: u32,
    /// As a number, like the source.
    pub group: u32,
    /// What an interface was set to.
    pub value: u32,
    /// The number of the answer.
    pub answer: u32,
    /// What `Router::sum` told after an event that was done; else 0.
    pub sum: u32,
}

list_calls! {
    viq_record(call: *const Call; u8; room: *mut u8, room_length: usize, size: *mut usize) -> u32;
    viq_record_routes(call: *const Call; raw::Route; room: *mut u8, room_length: usize, size: *mut usize) -> u32;
    viq_record_ranges(call: *const Call; raw::Range; room: *mut u8, room_length: usize, size: *mut usize) -> u32;
    viq_record_candidates(
        call: *const Call; raw::Candidate; room: *mut u8, room_length: usize, size: *mut usize
    ) -> u32;
    viq_record_anycast(call: *const Call; raw::RpSet; room: *mut u8, room_length: usize, size: *mut usize) -> u32;
    viq_record_reload(
        call: *const Call, settings: *const raw::Settings; raw::Interface, raw::Route, raw::Range;
        room: *mut u8, room_length: usize, size: *mut usize
    ) -> u32;
    viq_record_reload_places(
        call: *const Call, settings: *const raw::Settings; raw::Interface, raw::Route, raw::Range, u32;
        room: *mut u8, room_length: usize, size: *mut usize
    ) -> u32;
}

/// Puts a record behind others; `least` is how long it is expected to be. `write` writes as much of it as there is room
/// for, and tells its size.
fn put(to: &mut Vec<u8>, least: usize, write: impl Fn(&mut [u8], &mut usize) -> u32) -> Result<(), Error> {
    let (front, mut room, mut size) = (to.len(), least, 0);
    loop {
        to.resize(front + room, 0);
        let answer = done(write(&mut to[front..], &mut size));
        if answer.is_err() || size <= room {
            to.truncate(front + if answer.is_ok() { size } else { 0 });
            return answer;
        }
        room = size;
    }
}

impl Call {
    /// Puts the record of a call without a list behind others; the packet is read where its kind has one. An `Err` is want
    /// of memory, and puts nothing, as of each of these functions.
    pub fn put(&self, packet: &[u8], to: &mut Vec<u8>) -> Result<(), Error> {
        put(to, packet.len() + 64, |room, size| {
            // SAFETY: the packet and the room are passed as their pointers and their lengths.
            unsafe { with_lists!(viq_record(self; packet; room.as_mut_ptr(), room.len(), size)) }
        })
    }

    /// Puts the record of new routes behind others.
    pub fn put_routes(&self, routes: &[Route], to: &mut Vec<u8>) -> Result<(), Error> {
        let routes: Vec<_> = routes.iter().map(Route::given).collect();
        put(to, 24 * routes.len() + 64, |room, size| {
            // SAFETY: the list and the room are passed as their pointers and their lengths.
            unsafe { with_lists!(viq_record_routes(self; routes; room.as_mut_ptr(), room.len(), size)) }
        })
    }

    /// Puts the record of new ranges behind others.
    pub fn put_ranges(&self, ranges: &[Range], to: &mut Vec<u8>) -> Result<(), Error> {
        let ranges: Vec<_> = ranges.iter().map(Range::given).collect();
        put(to, 12 * ranges.len() + 64, |room, size| {
            // SAFETY: the list and the room are passed as their pointers and their lengths.
            unsafe { with_lists!(viq_record_ranges(self; ranges; room.as_mut_ptr(), room.len(), size)) }
        })
    }

    /// Puts the record of new candidate RPs behind others.
    pub fn put_candidates(&self, candidates: &[Candidate], to: &mut Vec<u8>) -> Result<(), Error> {
        let candidates: Vec<_> = candidates.iter().map(Candidate::given).collect();
        put(to, 20 * candidates.len() + 64, |room, size| {
            // SAFETY: the list and the room are passed as their pointers and their lengths.
            unsafe { with_lists!(viq_record_candidates(self; candidates; room.as_mut_ptr(), room.len(), size)) }
        })
    }

    /// Puts the record of sets of RPs, as `Router::set_rp_sets` takes them, behind others.
    pub fn put_rp_sets(&self, sets: &[RpSet], to: &mut Vec<u8>) -> Result<(), Error> {
        let others = given_others(sets);
        let given = given_sets(sets, &others);
        put(to, 32 * given.len() + 64, |room, size| {
            // SAFETY: the list, those of others in it, and the room are passed as their pointers and their lengths.
            unsafe { with_lists!(viq_record_anycast(self; given; room.as_mut_ptr(), room.len(), size)) }
        })
    }

    /// Puts the record of another configuration behind others.
    pub fn put_reload(
        &self,
        settings: &Settings,
        interfaces: &[Interface],
        routes: &[Route],
        ranges: &[Range],
        to: &mut Vec<u8>,
    ) -> Result<(), Error> {
        let Given { settings, interfaces, routes, ranges, .. } = &Given::of(settings, interfaces, routes, ranges);
        put(to, 20 * interfaces.len() + 24 * routes.len() + 12 * ranges.len() + 192, |room, size| {
            let (at, length) = (room.as_mut_ptr(), room.len());
            // SAFETY: each list and the room are passed as their pointers and their lengths.
            unsafe { with_lists!(viq_record_reload(self, settings; interfaces, routes, ranges; at, length, size)) }
        })
    }

    /// Puts the record of another configuration by a map of places, as `Router::reload_places` takes it, behind others.
    pub fn put_reload_places(
        &self,
        settings: &Settings,
        interfaces: &[Interface],
        routes: &[Route],
        ranges: &[Range],
        places: &[Option<u32>],
        to: &mut Vec<u8>,
    ) -> Result<(), Error> {
        let Given { settings, interfaces, routes, ranges, .. } = &Given::of(settings, interfaces, routes, ranges);
        let places = given_places(places);
        let least = 20 * interfaces.len() + 24 * routes.len() + 12 * ranges.len() + 4 * places.len() + 192;
        put(to, least, |room, size| {
            let (at, length) = (room.as_mut_ptr(), room.len());
            // SAFETY: each list and the room are passed as their pointers and their lengths.
            unsafe {
                with_lists!(viq_record_reload_places(
                    self, settings; interfaces, routes, ranges, places; at, length, size
                ))
            }
        })
    }
}
