//! Puts the wheel, the sorted timers and the trie beside plain `BTreeMap`s that do the same, and prints the times and
//! their ratios. Each measurement is repeated, the two sides in turn, and the median counts. Both sides must find the
//! same, or the program stops.

use std::collections::{BTreeMap, BTreeSet};
use std::hint::black_box;
use std::sync::Mutex;
use std::time::Instant;

const RUN: u64 = 210_000;
const EVENTS: u64 = 10;
/// Timers and lookups, if no other number is given; a tenth as many routes.
const COUNT: usize = 1_000_000;

/// As the library takes it.
#[repr(C)]
#[derive(Clone, Copy)]
struct GivenTimer {
    moment: u64,
    kind: u32,
    iface: u32,
    group: u32,
    source: u32,
}

#[repr(C)]
#[derive(Clone, Copy)]
struct GivenRoute {
    address: u32,
    length: u32,
    value: u32,
}

unsafe extern "C" {
    safe fn bench_wheel(given: *const GivenTimer, len: usize) -> u64;
    safe fn bench_sorted(given: *const GivenTimer, len: usize) -> u64;
    safe fn bench_refresh(given: *const GivenTimer, len: usize) -> u64;
    safe fn bench_ask(given: *const GivenTimer, len: usize, count: usize) -> u64;
    safe fn bench_trie(
        given: *const GivenRoute,
        len: usize,
        addresses: *const u32,
        address_count: usize,
    ) -> u64;
}

static MARKS: Mutex<Vec<Instant>> = Mutex::new(Vec::new());

#[unsafe(no_mangle)]
extern "C" fn bench_mark() {
    MARKS.lock().unwrap().push(Instant::now());
}

/// The seconds between the marks that the run makes, and what it found.
fn measured(run: impl FnOnce() -> u64) -> (Vec<f64>, u64) {
    MARKS.lock().unwrap().clear();
    let found = run();
    let marks = MARKS.lock().unwrap();
    let phases = marks
        .windows(2)
        .map(|pair| (pair[1] - pair[0]).as_secs_f64());
    (phases.collect(), found)
}

// ---- the same by plain maps

#[derive(Clone, Copy, PartialEq, Eq, PartialOrd, Ord)]
struct Key {
    iface: u32,
    group: u32,
    source: Option<u32>,
    rpt: bool,
}

#[derive(Clone, Copy, PartialEq, Eq, PartialOrd, Ord)]
struct Timer {
    kind: u32,
    key: Key,
}

/// When each timer ends, and the ends in their order.
#[derive(Default)]
struct Maps {
    moments: BTreeMap<Timer, u64>,
    ends: BTreeSet<(u64, Timer)>,
}

impl Maps {
    fn set(&mut self, timer: Timer, moment: u64) {
        if let Some(old) = self.moments.insert(timer, moment) {
            self.ends.remove(&(old, timer));
        }
        self.ends.insert((moment, timer));
    }

    fn cancel(&mut self, timer: Timer) {
        if let Some(old) = self.moments.remove(&timer) {
            self.ends.remove(&(old, timer));
        }
    }

    fn pop_due(&mut self, moment: u64) -> Option<(u64, Timer)> {
        let due = *self.ends.first()?;
        if due.0 > moment {
            return None;
        }
        self.ends.pop_first();
        self.moments.remove(&due.1);
        Some(due)
    }
}

fn timers_of(given: &[GivenTimer]) -> Vec<(Timer, u64)> {
    let timer = |one: &GivenTimer| Timer {
        kind: one.kind,
        key: Key {
            iface: one.iface,
            group: one.group,
            source: (one.source != 0).then_some(one.source),
            rpt: false,
        },
    };
    given.iter().map(|one| (timer(one), one.moment)).collect()
}

fn mixed(sum: u64, (moment, timer): (u64, Timer)) -> u64 {
    let key = timer.key;
    sum.rotate_left(5) ^ moment ^ u64::from(key.group) ^ u64::from(key.source.unwrap_or(0))
}

fn set_and_take(given: &[GivenTimer]) -> u64 {
    let all = timers_of(given);
    let mut maps = Maps::default();
    let set_all = |maps: &mut Maps| {
        all.iter()
            .for_each(|&(timer, moment)| maps.set(timer, moment))
    };
    bench_mark();
    set_all(&mut maps);
    bench_mark();
    all.iter().for_each(|one| maps.cancel(one.0));
    bench_mark();
    set_all(&mut maps);
    bench_mark();
    let mut sum = 0;
    for _ in 0..all.len() {
        if let Some(due) = maps.pop_due(u64::MAX) {
            sum = mixed(sum, due);
        }
    }
    bench_mark();
    sum
}

fn refresh_all(given: &[GivenTimer]) -> u64 {
    let all = timers_of(given);
    let mut maps = Maps::default();
    all.iter()
        .for_each(|&(timer, moment)| maps.set(timer, moment));
    bench_mark();
    let mut sum = 0;
    for (event, one) in all.iter().enumerate() {
        let present = event as u64 / EVENTS;
        for _ in 0..1000 {
            let Some(due) = maps.pop_due(present) else {
                break;
            };
            sum = mixed(sum, due);
            maps.set(due.1, present + RUN);
        }
        maps.set(one.0, present + RUN);
    }
    bench_mark();
    sum
}

fn ask_often(given: &[GivenTimer], count: usize) -> u64 {
    let mut maps = Maps::default();
    timers_of(given)
        .iter()
        .for_each(|&(timer, moment)| maps.set(timer, moment));
    bench_mark();
    let mut found = 0;
    for moment in 0..count as u64 {
        found += u64::from(maps.pop_due(black_box(moment / EVENTS)).is_some());
    }
    bench_mark();
    found
}

/// One map for each length, from 32 down to 0.
struct Lengths {
    maps: Vec<(u32, u32, BTreeMap<u32, u32>)>,
}

impl Lengths {
    fn longest(&self, address: u32) -> Option<(u32, u32)> {
        let of_length = |(length, mask, map): &(u32, u32, BTreeMap<u32, u32>)| {
            map.get(&(address & mask)).map(|value| (*length, *value))
        };
        self.maps.iter().find_map(of_length)
    }
}

fn lengths_of(given: &[GivenRoute]) -> Lengths {
    let mask = |length: u32| u32::MAX.checked_shl(32 - length).unwrap_or(0);
    let mut maps: Vec<_> = (0..=32)
        .rev()
        .map(|length| (length, mask(length), BTreeMap::new()))
        .collect();
    for one in given {
        maps[(32 - one.length) as usize]
            .2
            .insert(one.address, one.value);
    }
    maps.retain(|(_, _, map)| !map.is_empty());
    Lengths { maps }
}

fn look_up_all(given: &[GivenRoute], addresses: &[u32]) -> u64 {
    bench_mark();
    let lengths = lengths_of(given);
    bench_mark();
    let mut sum = 0u64;
    for &address in addresses {
        if let Some((length, value)) = lengths.longest(address) {
            sum = sum.rotate_left(5) ^ u64::from(value) ^ u64::from(length);
        }
    }
    bench_mark();
    sum
}

// ---- what is given

/// Numbers without order, the same in each run (splitmix64).
struct Numbers(u64);

impl Numbers {
    fn next(&mut self) -> u64 {
        self.0 = self.0.wrapping_add(0x9e37_79b9_7f4a_7c15);
        let mut mix = self.0;
        mix = (mix ^ (mix >> 30)).wrapping_mul(0xbf58_476d_1ce4_e5b9);
        mix = (mix ^ (mix >> 27)).wrapping_mul(0x94d0_49bb_1331_11eb);
        mix ^ (mix >> 31)
    }

    fn below(&mut self, end: u64) -> u64 {
        self.next() % end
    }
}

/// Nine of ten end within 210 seconds, most others within an hour, one of a hundred anywhere up to 2^62.
fn spread(numbers: &mut Numbers) -> u64 {
    match numbers.below(100) {
        0..90 => 1 + numbers.below(RUN),
        90..99 => 1 + numbers.below(3_600_000),
        _ => 1 + numbers.below(1 << 62),
    }
}

/// No two of the timers are one: the sources count up.
fn timers(count: usize, mut moment: impl FnMut(&mut Numbers) -> u64) -> Vec<GivenTimer> {
    let mut numbers = Numbers(1);
    let mut all: Vec<_> = (0..count)
        .map(|place| GivenTimer {
            moment: moment(&mut numbers),
            kind: [3, 5, 7, 8][place % 4],
            iface: numbers.below(100) as u32,
            group: 0xe800_0000 + numbers.below(10_000) as u32,
            source: 0x0a00_0001 + place as u32,
        })
        .collect();
    for place in (1..count).rev() {
        all.swap(place, numbers.below(place as u64 + 1) as usize);
    }
    all
}

/// Lengths about as they are in a full table: most are 24, and next come 22, 23 and 20.
fn routes(count: usize) -> Vec<GivenRoute> {
    let mut numbers = Numbers(2);
    let mut all = BTreeMap::new();
    while all.len() < count {
        let length = match numbers.below(100) {
            0..56 => 24,
            56..67 => 23,
            67..79 => 22,
            79..84 => 21,
            84..89 => 20,
            89..94 => 16 + numbers.below(4) as u32,
            94..97 => 8 + numbers.below(8) as u32,
            _ => 25 + numbers.below(8) as u32,
        };
        let address =
            (0x0100_0000 + numbers.below(0xdf00_0000)) as u32 & (u32::MAX << (32 - length));
        all.insert((address, length), all.len() as u32);
    }
    let given = |((address, length), value)| GivenRoute {
        address,
        length,
        value,
    };
    let mut all: Vec<_> = all.into_iter().map(given).collect();
    for place in (1..count).rev() {
        all.swap(place, numbers.below(place as u64 + 1) as usize);
    }
    all
}

/// Nine of ten addresses lie in a route.
fn addresses(routes: &[GivenRoute], count: usize) -> Vec<u32> {
    let mut numbers = Numbers(3);
    let mut address = || {
        let route = routes[numbers.below(routes.len() as u64) as usize];
        let host = numbers.next() as u32 & u32::MAX.checked_shr(route.length).unwrap_or(0);
        if numbers.below(10) < 9 {
            route.address | host
        } else {
            numbers.next() as u32
        }
    };
    (0..count).map(|_| address()).collect()
}

// ---- the table

fn median(mut of: Vec<f64>) -> f64 {
    of.sort_by(f64::total_cmp);
    of[of.len() / 2]
}

/// Runs the two in turn, and prints a line for each phase that has a name.
fn compare(
    repeats: usize,
    count: usize,
    names: &[&str],
    ours: impl Fn() -> u64,
    plain: impl Fn() -> u64,
) {
    let (mut our_times, mut plain_times) = (Vec::new(), Vec::new());
    for _ in 0..repeats {
        let (our_phases, our_found) = measured(&ours);
        let (plain_phases, plain_found) = measured(&plain);
        assert_eq!(our_phases.len(), names.len(), "a phase is missing");
        assert_eq!(our_found, plain_found, "they don't find the same");
        our_times.push(our_phases);
        plain_times.push(plain_phases);
    }
    for (phase, name) in names
        .iter()
        .enumerate()
        .filter(|(_, name)| !name.is_empty())
    {
        let nanoseconds = |times: &[Vec<f64>]| {
            median(times.iter().map(|t| t[phase]).collect()) * 1e9 / count as f64
        };
        let (our, plain) = (nanoseconds(&our_times), nanoseconds(&plain_times));
        println!(
            "| {name} | {count} | {our:.0} | {plain:.0} | {:.2} |",
            our / plain
        );
    }
}

fn compare_timers(
    repeats: usize,
    given: &[GivenTimer],
    names: &[&str],
    ours: fn(*const GivenTimer, usize) -> u64,
) {
    compare(
        repeats,
        given.len(),
        names,
        || ours(given.as_ptr(), given.len()),
        || set_and_take(given),
    );
}

fn main() {
    let mut arguments = std::env::args().skip(1);
    let repeats = arguments
        .next()
        .map_or(5, |text| text.parse().expect("a number of repeats"));
    let wanted = arguments.next().unwrap_or_default();
    let chosen = |part: &str| wanted.is_empty() || wanted == part;
    let count = arguments
        .next()
        .map_or(COUNT, |text| text.parse().expect("a count"));
    println!("| what | how many | ns each | BTreeMap, ns each | ratio |");
    println!("|---|---|---|---|---|");
    if chosen("spread") {
        let names = ["Wheel, set", "Wheel, cancel", "", "Wheel, pop_due"];
        compare_timers(repeats, &timers(count, spread), &names, |at, len| {
            bench_wheel(at, len)
        });
    }
    if chosen("seconds") {
        let whole_seconds = |numbers: &mut Numbers| 1000 * (1 + numbers.below(RUN / 1000));
        let names = [
            "Wheel at 210 moments, set",
            "Wheel at 210 moments, cancel",
            "",
            "Wheel at 210 moments, pop_due",
        ];
        compare_timers(
            repeats,
            &timers(count, whole_seconds),
            &names,
            |at, len| bench_wheel(at, len),
        );
    }
    if chosen("one") {
        let names = [
            "Wheel at one moment, set",
            "Wheel at one moment, cancel",
            "",
            "Wheel at one moment, pop_due",
        ];
        compare_timers(repeats, &timers(count, |_| RUN), &names, |at, len| {
            bench_wheel(at, len)
        });
    }
    if chosen("refresh") {
        let given = timers(count, |numbers| 1 + numbers.below(RUN));
        let ours = || bench_refresh(given.as_ptr(), given.len());
        compare(
            repeats,
            given.len(),
            &["Wheel, an event that moves one timer on"],
            ours,
            || refresh_all(&given),
        );
    }
    if chosen("ask") {
        let given = timers(count, |numbers| RUN / 2 + numbers.below(RUN / 2));
        let ours = || bench_ask(given.as_ptr(), given.len(), count);
        compare(
            repeats,
            count,
            &["Wheel, pop_due with nothing due"],
            ours,
            || ask_often(&given, count),
        );
    }
    if chosen("sorted") {
        let names = [
            "SortedTimers, set",
            "SortedTimers, cancel",
            "",
            "SortedTimers, pop_due",
        ];
        compare_timers(repeats, &timers(count, spread), &names, |at, len| {
            bench_sorted(at, len)
        });
        let names = [
            "SortedTimers at one moment, set",
            "SortedTimers at one moment, cancel",
            "",
            "SortedTimers at one moment, pop_due",
        ];
        compare_timers(repeats, &timers(count, |_| RUN), &names, |at, len| {
            bench_sorted(at, len)
        });
    }
    if chosen("trie") {
        let given = routes(count / 10);
        let looked_up = addresses(&given, count);
        let ours = || {
            bench_trie(
                given.as_ptr(),
                given.len(),
                looked_up.as_ptr(),
                looked_up.len(),
            )
        };
        compare(repeats, count, &["", "Trie, longest"], ours, || {
            look_up_all(&given, &looked_up)
        });
    }
}
