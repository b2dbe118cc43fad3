//! The router as a library and a plain forwarder take the same packets, in one process. `torture/run forward` builds and runs it.
//!
//!     forwarder SETUP COPIES ROWS BYTES PACKETS time|count
//!
//! SETUP has a line for each event before the data: `up IFACE`, or `frame IFACE HEX`. With `time` the packets go through both in turn,
//! a batch each, and the nanoseconds of both a packet are printed. With `count` all go first through the one and then through the
//! other, for a count of instructions in `library_batch` and `plain_batch`.
mod plain;

use plain::{Plain, sum16};
use std::hint::black_box;
use std::time::Instant;
use viqeshor::{Error, Interface, MOST_BYTES, Range, Route, Router, Settings, Verdict};

const BATCH: usize = 64;
const FIRST_GROUP: u32 = 0xE101_0000;
const FIRST_SOURCE: u32 = 0x0A80_0000;
const SOURCES_A_GROUP: u32 = 100;
const DRAW: u32 = 7;
const DONE: Result<Verdict, Error> = Ok(Verdict::Done);

/// Packets of one length, one after the other.
struct Batch {
    bytes: Vec<u8>,
    length: usize,
}

impl Batch {
    fn new(length: usize) -> Batch {
        let mut bytes = vec![0; BATCH * length];
        for packet in bytes.chunks_exact_mut(length) {
            packet[0] = 0x45;
            packet[2..4].copy_from_slice(&(length as u16).to_be_bytes());
            packet[8..10].copy_from_slice(&[64, 17]);
        }
        Batch { bytes, length }
    }

    /// Makes each a packet of one of the rows.
    fn fill(&mut self, mut row: impl FnMut() -> u32) {
        for packet in self.bytes.chunks_exact_mut(self.length) {
            let (source, group) = names_of(row());
            packet[10..12].fill(0);
            packet[12..16].copy_from_slice(&source.to_be_bytes());
            packet[16..20].copy_from_slice(&group.to_be_bytes());
            let check = sum16(&packet[..20]).to_be_bytes();
            packet[10..12].copy_from_slice(&check);
        }
    }
}

/// What is sent: counted, and summed so that nothing of a header is left unread.
#[derive(Debug, Default, PartialEq)]
struct Sent {
    copies: usize,
    sum: u64,
}

impl Sent {
    #[inline(always)]
    fn take(&mut self, iface: u32, bytes: &[u8]) {
        let word = u64::from_le_bytes([bytes[8], bytes[9], bytes[10], bytes[11], bytes[12], bytes[13], bytes[14], bytes[15]]);
        self.copies += 1;
        self.sum = self.sum.rotate_left(9) ^ word ^ u64::from(iface);
    }
}

fn names_of(row: u32) -> (u32, u32) {
    (FIRST_SOURCE + row % SOURCES_A_GROUP, FIRST_GROUP + row / SOURCES_A_GROUP)
}

fn random(state: &mut u64) -> u32 {
    *state = state.wrapping_mul(6_364_136_223_846_793_005).wrapping_add(1_442_695_040_888_963_407);
    (*state >> 33) as u32
}

#[unsafe(no_mangle)]
#[inline(never)]
fn library_batch(router: &mut Router, batch: &Batch, room: &mut [u8; MOST_BYTES]) -> Sent {
    let mut sent = Sent::default();
    for packet in batch.bytes.chunks_exact(batch.length) {
        let answer = router.frame(0, packet, DRAW);
        assert_eq!(answer, DONE);
        while let Some((target, bytes)) = router.take(room) {
            sent.take(target.iface().unwrap_or(0), bytes);
        }
    }
    sent
}

#[unsafe(no_mangle)]
#[inline(never)]
fn plain_batch(plain: &mut Plain, batch: &Batch, room: &mut [u8; MOST_BYTES]) -> Sent {
    let mut sent = Sent::default();
    for packet in batch.bytes.chunks_exact(batch.length) {
        let answer = plain.frame(0, packet, room, |iface, bytes| sent.take(iface, bytes));
        assert_eq!(answer, Ok(()));
    }
    sent
}

/// Where the counts of the one side end and those of the other begin.
#[unsafe(no_mangle)]
#[inline(never)]
fn phase_over(sum: u64) {
    black_box(sum);
}

struct Both {
    router: Router,
    plain: Plain,
    rows: u32,
    room: [u8; MOST_BYTES],
    moment: u64,
}

impl Both {
    /// The router after the events of the setup, and a plain forwarder that is told the same interfaces and the rows.
    fn new(setup: &str, copies: u32, rows: u32) -> Both {
        let settings = Settings { limit: 1_000_000, ..Settings::default() };
        let addresses: Vec<u32> = (0..=copies).map(|iface| 0x0A00_0002 | iface << 8).collect();
        let of = |&address: &u32| Interface { address: address.into(), length: 24, priority: 1, propagation_delay: 500, override_interval: 2500 };
        let interfaces: Vec<Interface> = addresses.iter().map(of).collect();
        let to = |prefix: u32, length| Route { prefix: prefix.into(), length, next_hop: 0x0A00_0001_u32.into(), iface: 0, preference: 110, metric: 20 };
        let routes = [to(0x0A09_0900, 24), to(0x0A80_0000, 9)];
        let ranges = [Range { prefix: 0xE000_0000_u32.into(), length: 4, rp: 0x0A09_0909_u32.into() }];
        let mut router = Router::new(&settings, &interfaces, &routes, &ranges).expect("a router");
        setup.lines().for_each(|line| take_line(&mut router, line));
        let mut plain = Plain::new(addresses);
        (0..rows).map(names_of).for_each(|(source, group)| plain.put(source, group, 0, (2 << copies) - 2));
        Both { router, plain, rows, room: [0; MOST_BYTES], moment: 0 }
    }

    /// Makes the router's rows by two packets of each source: the second sets SPTbit.
    fn make_rows(&mut self, batch: &mut Batch) {
        let mut next = 0;
        for _ in 0..(2 * self.rows).div_ceil(BATCH as u32) {
            batch.fill(|| {
                next += 1;
                (next - 1) % self.rows
            });
            let mut packets = batch.bytes.chunks_exact(batch.length);
            assert!(packets.all(|packet| {
                self.router.clear();
                self.router.frame(0, packet, DRAW) == DONE
            }));
            self.router.clear();
        }
    }

    /// Each packet of the batch goes through both: in the router by a row with SPTbit. Both have to send the same.
    fn compare(&mut self, batch: &Batch) {
        for packet in batch.bytes.chunks_exact(batch.length) {
            let [source, group] = [12, 16].map(|at| u32::from_be_bytes(packet[at..at + 4].try_into().expect("an address")));
            assert!(self.router.cached(source.into(), group.into()).is_some_and(|it| it.has_spt_bit));
            assert_eq!(self.router.frame(0, packet, DRAW), DONE);
            let one: Vec<(u32, Vec<u8>)> = self.router.drain().map(|it| (it.target.iface().unwrap_or(0), it.bytes)).collect();
            let mut other = Vec::new();
            let answer = self.plain.frame(0, packet, &mut self.room, |iface, bytes| other.push((iface, bytes.to_vec())));
            assert_eq!((answer, one), (Ok(()), other));
        }
    }

    /// A millisecond passes in both.
    fn tick(&mut self) {
        self.moment += 1;
        assert_eq!(self.router.advance(self.moment, DRAW), DONE);
        self.router.clear();
        self.plain.present = self.moment;
    }

    /// A batch through one side: 0 is the router, 1 the plain forwarder.
    fn through(&mut self, side: usize, batch: &Batch) -> Sent {
        match side {
            0 => library_batch(&mut self.router, batch, &mut self.room),
            _ => plain_batch(&mut self.plain, batch, &mut self.room),
        }
    }

    /// The same, with its nanoseconds.
    fn through_timed(&mut self, side: usize, batch: &Batch) -> (Sent, u128) {
        let began = Instant::now();
        let sent = self.through(side, batch);
        (sent, began.elapsed().as_nanos())
    }

    /// So many packets of any rows, each batch through the one and then through the other: the median of the batches' nanoseconds a
    /// packet, for each side.
    fn timed(&mut self, batch: &mut Batch, packets: usize, mut state: u64) -> [u128; 2] {
        let mut nanoseconds = [Vec::new(), Vec::new()];
        for turn in 0..packets / BATCH {
            self.tick();
            batch.fill(|| random(&mut state) % self.rows);
            let (first, second) = (turn % 2, 1 - turn % 2);
            let (one, other) = (self.through_timed(first, batch), self.through_timed(second, batch));
            assert_eq!(one.0, other.0);
            nanoseconds[first].push(one.1);
            nanoseconds[second].push(other.1);
        }
        nanoseconds.map(|batches| median(batches) / BATCH as u128)
    }

    /// So many packets of any rows through one side: what all that is sent sums up to.
    fn all_through(&mut self, side: usize, batch: &mut Batch, packets: usize, mut state: u64) -> u64 {
        let mut sum = 0;
        for _ in 0..packets / BATCH {
            self.tick();
            batch.fill(|| random(&mut state) % self.rows);
            sum ^= self.through(side, batch).sum;
        }
        sum
    }

    /// The same packets through the one, and then through the other.
    fn counted(&mut self, batch: &mut Batch, packets: usize, state: u64) {
        let sum = self.all_through(0, batch, packets, state);
        phase_over(sum);
        assert_eq!(self.all_through(1, batch, packets, state), sum);
    }
}

fn take_line(router: &mut Router, line: &str) {
    let words: Vec<&str> = line.split(' ').collect();
    let iface = words[1].parse().expect("an interface");
    let answer = match words[0] {
        "up" => router.up(iface, DRAW),
        _ => router.frame(iface, &bytes_of(words[2]), DRAW),
    };
    assert_eq!(answer, DONE, "{line}");
    router.clear();
}

fn bytes_of(hex: &str) -> Vec<u8> {
    let byte = |at| u8::from_str_radix(&hex[at..at + 2], 16).expect("hex digits");
    (0..hex.len()).step_by(2).map(byte).collect()
}

fn median(mut numbers: Vec<u128>) -> u128 {
    numbers.sort_unstable();
    numbers[numbers.len() / 2]
}

fn main() {
    let words: Vec<String> = std::env::args().collect();
    let number = |at: usize| words[at].parse::<u32>().expect("a number");
    let (copies, rows, packets) = (number(2), number(3), number(5) as usize);
    let setup = std::fs::read_to_string(&words[1]).expect("the setup");
    let (mut both, mut batch) = (Both::new(&setup, copies, rows), Batch::new(number(4) as usize));
    both.make_rows(&mut batch);
    let mut state = 1;
    batch.fill(|| random(&mut state) % rows);
    both.compare(&batch);
    match words[6].as_str() {
        "count" => both.counted(&mut batch, packets, state),
        _ => {
            let [library, plain] = both.timed(&mut batch, packets, state);
            println!("{library} {plain}");
        }
    }
}
