//! What the router counts of itself.
use std::collections::BTreeMap;
use std::time::Duration;

/// What the router did since it began, or since its counters were cleared.
#[derive(Clone, Debug, Default)]
pub struct Counters {
    /// Events that the library refused, by the number of the answer.
    pub refused: BTreeMap<u32, u64>,
    /// Bootstraps that didn't count, by the number of the answer.
    pub bootstraps_left_out: BTreeMap<u32, u64>,
    /// Advertisements of candidate RPs that weren't taken, by the number of the answer.
    pub advertisements_left_out: BTreeMap<u32, u64>,
    /// PIM from and to addresses of routers.
    pub unicasts: Passing,
    /// How long an event took, with all that followed of it.
    pub took: Durations,
    // tables/metrics.toml has those below.
    /// The number of events given to the router.
    pub events: u64,
    /// The number of events that it ignored.
    pub ignored: u64,
    /// The number of messages that a full router was offered in parts.
    pub split: u64,
    /// The number of parts offered.
    pub parts: u64,
    /// The number of parts taken.
    pub parts_taken: u64,
    /// The number of sources of which the kernel's counts told.
    pub kept: u64,
    /// The number of packets of which the router was told that they were seen.
    pub seen: u64,
    /// The number of times that the router was made anew.
    pub made_anew: u64,
    /// The number of times that the router took another configuration.
    pub reloaded: u64,
    /// The number of Bootstraps that counted.
    pub bootstraps_taken: u64,
    /// The number of times that Bootstraps moved the RPs.
    pub bootstrap_moves: u64,
    /// The number of advertisements of RPs that the router took.
    pub advertisements_taken: u64,
    /// The number of connections to the port of MSDP of no peer that connects.
    pub msdp_strangers: u64,
    /// The number of reports of programs on the router.
    pub own_reports: u64,
    /// The number of unicasts heard.
    pub unicasts_heard: u64,
    /// The number of unicasts sent.
    pub unicasts_sent: u64,
    /// The number of unicasts that couldn't be sent.
    pub unicasts_not_sent: u64,
    /// The number of fragments and long packets that a short one stood for.
    pub stood_in: u64,
    /// The number of checksums filled in.
    pub checksums_filled: u64,
    /// The number of Join/Prunes that left in a packet with others.
    pub packed: u64,
    /// The number of packets for which the kernel had no entry.
    pub no_cache: u64,
    /// The number of strays that the kernel told.
    pub strays: u64,
    /// The number of packets that the kernel handed up whole.
    pub whole: u64,
    /// The number of rows told to the kernel.
    pub entries_written: u64,
    /// The number of rows withdrawn from the kernel.
    pub entries_removed: u64,
    /// The number of rows that the kernel refused.
    pub entries_refused: u64,
}

/// How many there were by the reason in words, of counts by the number of the answer.
pub fn by_reason(counts: &BTreeMap<u32, u64>) -> impl Iterator<Item = (&'static str, u64)> + '_ {
    counts.iter().map(|(number, count)| {
        let words = viqeshor::answer_text(*number);
        (words.strip_prefix("ignored: ").unwrap_or(words), *count)
    })
}

/// What a message of PIM or IGMP is.
#[derive(Clone, Copy, Debug, PartialEq, Eq)]
pub enum Message {
    Hello,
    Register,
    NullRegister,
    RegisterStop,
    JoinPrune,
    Assert,
    Bootstrap,
    /// Of a candidate RP.
    Advertisement,
    OtherPim,
    Query,
    Report,
    /// Of IGMPv1 and IGMPv2: reports and leaves.
    OlderReport,
    OtherIgmp,
}

impl Message {
    pub const ALL: [Message; 13] = [
        Message::Hello,
        Message::Register,
        Message::NullRegister,
        Message::RegisterStop,
        Message::JoinPrune,
        Message::Assert,
        Message::Bootstrap,
        Message::Advertisement,
        Message::OtherPim,
        Message::Query,
        Message::Report,
        Message::OlderReport,
        Message::OtherIgmp,
    ];

    pub fn is_pim(self) -> bool {
        (self as usize) < Message::Query as usize
    }

    /// Its name among the labels of metrics.
    pub fn name(self) -> &'static str {
        match self {
            Message::Hello => "hello",
            Message::Register => "register",
            Message::NullRegister => "null_register",
            Message::RegisterStop => "register_stop",
            Message::JoinPrune => "join_prune",
            Message::Assert => "assert",
            Message::Bootstrap => "bootstrap",
            Message::Advertisement => "candidate_rp",
            Message::OtherPim | Message::OtherIgmp => "other",
            Message::Query => "query",
            Message::Report => "report",
            Message::OlderReport => "older_report",
        }
    }
}

/// How many messages of each kind.
#[derive(Clone, Copy, Debug, Default, PartialEq, Eq)]
pub struct Tally([u64; Message::ALL.len()]);

impl Tally {
    pub fn count(&mut self, message: Option<Message>) {
        if let Some(message) = message {
            self.0[message as usize] += 1;
        }
    }

    pub fn of(&self, message: Message) -> u64 {
        self.0[message as usize]
    }
}

/// Messages by their direction.
#[derive(Clone, Copy, Debug, Default, PartialEq, Eq)]
pub struct Passing {
    pub received: Tally,
    pub sent: Tally,
}

/// How often something took at most so long.
#[derive(Clone, Debug, Default)]
pub struct Durations {
    /// By the bounds, those above each lower one.
    counts: [u64; Durations::BOUNDS.len()],
    pub count: u64,
    pub sum: Duration,
}

impl Durations {
    /// In microseconds.
    pub const BOUNDS: [u64; 11] = [10, 30, 100, 300, 1_000, 3_000, 10_000, 30_000, 100_000, 300_000, 1_000_000];

    pub fn note(&mut self, took: Duration) {
        self.count += 1;
        self.sum += took;
        let microseconds = took.as_micros();
        if let Some(at) = Durations::BOUNDS.iter().position(|bound| microseconds <= u128::from(*bound)) {
            self.counts[at] += 1;
        }
    }

    /// Each bound, in seconds, with how many were within it.
    pub fn within(&self) -> impl Iterator<Item = (f64, u64)> + '_ {
        let sums = self.counts.iter().scan(0, |sum, count| {
            *sum += count;
            Some(*sum)
        });
        Durations::BOUNDS.iter().map(|bound| *bound as f64 / 1e6).zip(sums)
    }
}

#[cfg(test)]
mod tests {
    use super::*;

    #[test]
    fn durations_are_counted_within_their_bounds() {
        let mut it = Durations::default();
        [5, 10, 11, 2_000_000].into_iter().for_each(|took| it.note(Duration::from_micros(took)));
        let found: Vec<_> = it.within().collect();
        assert_eq!((found[0], found[1], found[10]), ((0.00001, 2), (0.00003, 3), (1.0, 3)));
        assert_eq!((it.count, it.sum), (4, Duration::from_micros(2_000_026)));
    }

    #[test]
    fn a_message_has_a_place_and_a_name_of_its_own() {
        for (place, message) in Message::ALL.iter().enumerate() {
            assert_eq!(*message as usize, place);
        }
        let mut names: Vec<_> = Message::ALL.iter().map(|message| (message.is_pim(), message.name())).collect();
        names.sort_unstable();
        names.dedup();
        assert_eq!(names.len(), Message::ALL.len());
    }
}
