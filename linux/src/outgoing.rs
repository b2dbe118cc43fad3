//! Packets that the library's router has to send, taken of it after each event and kept until they leave.
use crate::ports::Places;
use viqeshor::{Router, Target, MOST_BYTES};

/// No interface has this number: what is to leave there doesn't.
const NOWHERE: u32 = u32::MAX;

#[derive(Default)]
pub struct Outgoing {
    /// Where each goes, and where its bytes end.
    ends: Vec<(Target, usize)>,
    bytes: Vec<u8>,
}

impl Outgoing {
    /// Takes what the router has to send.
    pub fn take(&mut self, router: &mut Router) {
        // Most events send nothing, and no room is made for them.
        if router.packet_count() == 0 {
            return;
        }
        let mut room = [0; MOST_BYTES];
        while let Some((target, bytes)) = router.take(&mut room) {
            self.bytes.extend_from_slice(bytes);
            self.ends.push((target, self.bytes.len()));
        }
    }

    /// Interfaces have other numbers.
    pub fn renumber(&mut self, places: &Places) {
        let there = |iface: u32| places.get(iface).unwrap_or(NOWHERE);
        for (target, _) in &mut self.ends {
            *target = match *target {
                Target::Frame(iface) => Target::Frame(there(iface)),
                Target::Copy(iface) => Target::Copy(there(iface)),
                Target::Unicast(address) => Target::Unicast(address),
            };
        }
    }

    pub fn len(&self) -> usize {
        self.ends.len()
    }

    /// The packets behind the first so many, in the order in which they are to leave.
    pub fn since(&self, first: usize) -> impl Iterator<Item = (Target, &[u8])> {
        let mut begin = first.checked_sub(1).map_or(0, |last| self.ends[last].1);
        self.ends[first..].iter().map(move |(target, end)| {
            let bytes = &self.bytes[begin..*end];
            begin = *end;
            (*target, bytes)
        })
    }

    pub fn clear(&mut self) {
        self.ends.clear();
        self.bytes.clear();
    }
}
