//! The same as `join.c`, in Rust.
use std::net::Ipv4Addr;
use viqeshor::{Error, Interface, Range, Route, Router, Settings, Target, Verdict};

fn bytes_of(hex: &str) -> Vec<u8> {
    let digit = |at: usize| hex.as_bytes()[at] as char;
    let nibble = |at| digit(at).to_digit(16).unwrap_or(0) as u8;
    (0..hex.len() / 2).map(|at| nibble(2 * at) << 4 | nibble(2 * at + 1)).collect()
}

#[derive(Default)]
struct Printer {
    moves: usize,
    frames: usize,
}

impl Printer {
    /// What became of an event, and what leaves.
    fn took(&mut self, router: &mut Router, answer: Result<Verdict, Error>) -> Result<(), Error> {
        self.moves += 1;
        match answer {
            Ok(Verdict::Done) => println!("move {} r done", self.moves),
            Ok(Verdict::Ignored(reason)) => println!("move {} r ignored {reason:?}", self.moves),
            Err(Error::Refused(refusal)) => {
                println!("move {} r refused {}", self.moves, refusal as u32)
            }
            Err(fault) => return Err(fault),
        }
        for sent in router.drain() {
            self.frames += 1;
            let hex: String = sent.bytes.iter().map(|byte| format!("{byte:02x}")).collect();
            let (number, link) = (self.frames, |iface: u32| ["n", "m", "o"][iface as usize]);
            match sent.target {
                Target::Unicast(to) => println!("unicast {number} {to} {hex}"),
                Target::Copy(iface) => println!("copy {number} {} {hex}", link(iface)),
                Target::Frame(iface) => println!("frame {number} {} {hex}", link(iface)),
            }
        }
        Ok(())
    }
}

fn main() -> Result<(), Error> {
    let interfaces = [[10, 0, 0, 2], [10, 0, 1, 1], [10, 0, 2, 1]].map(|own: [u8; 4]| Interface::new(own.into(), 24));
    let next_hop = Ipv4Addr::new(10, 0, 0, 1);
    let routes = [[10, 9, 9, 0], [10, 0, 3, 0]].map(|prefix: [u8; 4]| Route::new(prefix.into(), 24, next_hop, 0));
    let ranges = [Range::new(Ipv4Addr::new(224, 0, 0, 0), 4, Ipv4Addr::new(10, 9, 9, 9))];
    let mut router = Router::new(&Settings::default(), &interfaces, &routes, &ranges)?;
    let mut printer = Printer::default();
    for iface in 0..3 {
        let answer = router.up(iface, 7);
        printer.took(&mut router, answer)?;
    }
    let packets = [
        (0, 0, "45C0001E000000000167CEAB0A000001E000000D2000DFFC00010002FFFF"),
        (0, 1, "45C0001E000000000167CDAA0A000102E000000D2000DFFC00010002FFFF"),
        (0, 1, "45C00036000000000167CD920A000102E000000D2300DBB301000A0001010001000101000020E101010100010000010004200A000305"),
        (999, 0, "4500001C0000000040118BCA0A000305E10101010001000200030004"),
        (1000, 0, "4500001C0001000040118BC90A000305E10101010001000200030004"),
    ];
    for (moment, iface, hex) in packets {
        if moment > 0 {
            let answer = router.advance(moment, 0);
            printer.took(&mut router, answer)?;
        }
        let answer = router.frame(iface, &bytes_of(hex), 0);
        printer.took(&mut router, answer)?;
    }
    Ok(())
}
