//! Sends numbered packets to a group at a rate, or counts those that arrive.
//!
//!     stream send GROUP ADDRESS COUNT RATE [BYTES]          from the interface that has the address
//!     stream receive GROUP ADDRESS COUNT SECONDS [BYTES]    until a second after the last one came, or for so long
//!
//! The receiver prints `joined` once it has, and at the end how many came, how many of these twice, how many ms after
//! it had joined the first one came, and the longest time between two of them.
use socket2::{Domain, SockAddr, Socket, Type};
use std::io;
use std::net::{Ipv4Addr, SocketAddrV4, UdpSocket};
use std::os::unix::io::AsRawFd;
use std::time::{Duration, Instant};

const PORT: u16 = 5004;
const USUAL_BYTES: usize = 100;
const MOST_BYTES: usize = 65_507;
/// So many threads send, since the kernel carries a packet through all namespaces before a call returns.
const SENDERS: usize = 8;
const ROOM: i32 = 64 << 20;
/// So long after the last one came the receiver still takes those that come late, and those that come twice.
const AFTERWARDS: Duration = Duration::from_secs(1);

/// Sends the packets of some numbers, each when it is due at the rate of all.
fn send_some(
    group: Ipv4Addr,
    from: Ipv4Addr,
    numbers: impl Iterator<Item = u64>,
    rate: u64,
    bytes: usize,
) -> io::Result<()> {
    let socket = Socket::new(Domain::IPV4, Type::DGRAM, None)?;
    socket.set_multicast_if_v4(&from)?;
    socket.set_multicast_ttl_v4(16)?;
    let socket = UdpSocket::from(socket);
    let to = SocketAddrV4::new(group, PORT);
    let began = Instant::now();
    let mut packet = vec![b'.'; bytes];
    for number in numbers {
        let due = Duration::from_nanos(number * 1_000_000_000 / rate);
        let early = due.saturating_sub(began.elapsed());
        if early > Duration::from_millis(1) {
            std::thread::sleep(early);
        }
        packet[..8].copy_from_slice(&number.to_be_bytes());
        socket.send_to(&packet, to)?;
    }
    Ok(())
}

fn send(group: Ipv4Addr, from: Ipv4Addr, count: u64, rate: u64, bytes: usize) -> io::Result<()> {
    let began = Instant::now();
    std::thread::scope(|scope| {
        let mut senders = Vec::new();
        for first in 0..SENDERS as u64 {
            let numbers = (first..count).step_by(SENDERS);
            senders.push(scope.spawn(move || send_some(group, from, numbers, rate, bytes)));
        }
        senders.into_iter().try_for_each(|sender| sender.join().unwrap_or_else(|_| Err(io::ErrorKind::Other.into())))
    })?;
    let seconds = began.elapsed().as_secs_f64();
    println!("sent {count} in {seconds:.2} s, {:.0} a second", count as f64 / seconds);
    Ok(())
}

fn receive(group: Ipv4Addr, at: Ipv4Addr, count: u64, seconds: u64, bytes: usize) -> io::Result<()> {
    let socket = Socket::new(Domain::IPV4, Type::DGRAM, None)?;
    let room: *const i32 = &ROOM;
    // SAFETY: the place has the four bytes that are said. Where the right is missing the usual room has to do.
    unsafe { libc::setsockopt(socket.as_raw_fd(), libc::SOL_SOCKET, libc::SO_RCVBUFFORCE, room.cast(), 4) };
    socket.set_reuse_address(true)?;
    socket.bind(&SockAddr::from(SocketAddrV4::new(group, PORT)))?;
    socket.join_multicast_v4(&group, &at)?;
    let socket = UdpSocket::from(socket);
    socket.set_read_timeout(Some(Duration::from_millis(200)))?;
    println!("joined");
    let joined = Instant::now();
    let mut end = joined + Duration::from_secs(seconds);
    let (mut seen, mut all, mut packet) = (vec![false; count as usize], 0u64, vec![0u8; MOST_BYTES]);
    let (mut first, mut last, mut gap) = (None, joined, Duration::ZERO);
    let (mut left, mut is_over) = (count, false);
    while Instant::now() < end {
        match socket.recv(&mut packet) {
            Ok(length) if length == bytes => {}
            _ => continue,
        }
        let now = Instant::now();
        gap = if first.is_some() { gap.max(now - last) } else { gap };
        first.get_or_insert(now - joined);
        last = now;
        let mut number = [0; 8];
        number.copy_from_slice(&packet[..8]);
        let number = u64::from_be_bytes(number);
        all += 1;
        if let Some(place) = seen.get_mut(number as usize).filter(|place| !**place) {
            *place = true;
            left -= 1;
        }
        if !is_over && number + 1 == count {
            (is_over, end) = (true, end.min(now + AFTERWARDS));
        }
    }
    // Where the stream ended before its last packet, until now.
    gap = if !is_over && first.is_some() { gap.max(last.elapsed()) } else { gap };
    let first = first.map_or_else(|| "never".to_string(), |first| format!("after {} ms", first.as_millis()));
    let (came, gap) = (count - left, gap.as_millis());
    println!("received {came} of {count}, and {} twice, the first {first}, the longest gap {gap} ms", all - came);
    Ok(())
}

fn main() -> io::Result<()> {
    let words: Vec<_> = std::env::args().skip(1).collect();
    let number = |at: usize| words.get(at).and_then(|word| word.parse().ok()).ok_or(io::ErrorKind::InvalidInput);
    let address = |at: usize| words.get(at).and_then(|word| word.parse().ok()).ok_or(io::ErrorKind::InvalidInput);
    let bytes = number(5).map_or(USUAL_BYTES, |bytes| bytes as usize);
    match words.first().map(String::as_str) {
        Some("send") => send(address(1)?, address(2)?, number(3)?, number(4)?, bytes),
        Some("receive") => receive(address(1)?, address(2)?, number(3)?, number(4)?, bytes),
        _ => Err(io::Error::new(
            io::ErrorKind::InvalidInput,
            "stream send|receive GROUP ADDRESS COUNT RATE|SECONDS [BYTES]",
        )),
    }
}
