//! Sessions of MSDP: what peers say is taken, what the router tells, and what ends a session.
use super::*;
use crate::msdp::{session::Told, tlv, Session};
use std::io::{Read, Write};
use std::net::{TcpListener, TcpStream};
use std::time::Duration;

const OWN: Ipv4Addr = Ipv4Addr::new(10, 1, 0, 1);
const PEER: Ipv4Addr = Ipv4Addr::new(10, 9, 0, 2);
const OTHER: Ipv4Addr = Ipv4Addr::new(10, 9, 0, 3);
const JOIN_PRUNE: u8 = 3;

fn with_peers(peers: &[(Ipv4Addr, &str)]) -> String {
    let of = |(peer, more): &(Ipv4Addr, &str)| format!("[[msdp]]\npeer = \"{peer}\"\naddress = \"{OWN}\"\n{more}");
    format!("{TWO}{}", peers.iter().map(of).collect::<String>())
}

/// The other end of a session.
struct End {
    stream: TcpStream,
    session: Session,
}

/// A session with a peer comes up.
fn meets(daemon: &mut Daemon, peer: Ipv4Addr) -> End {
    let listener = TcpListener::bind("127.0.0.1:0").expect("it listens");
    let stream = TcpStream::connect(listener.local_addr().expect("it has one")).expect("it connects");
    let (own, _) = listener.accept().expect("it is there");
    own.set_nonblocking(true).expect("it is a socket");
    stream.set_read_timeout(Some(Duration::from_millis(200))).expect("it is a socket");
    daemon.msdp_is_up(peer, own.into());
    End { stream, session: Session::new(0) }
}

impl End {
    fn says(&mut self, daemon: &mut Daemon, bytes: &[u8]) {
        self.stream.write_all(bytes).expect("it is read");
        std::thread::sleep(Duration::from_millis(20));
        daemon.msdp_turn().expect("it goes on");
        daemon.house_keeping().expect("it goes on");
    }

    /// What was said to it since it was asked last; `None` where the session is over.
    fn hears(&mut self, daemon: &mut Daemon) -> Option<Vec<(Ipv4Addr, Vec<Key>)>> {
        daemon.msdp_turn().expect("it goes on");
        let mut room = [0; 65_536];
        match self.stream.read(&mut room) {
            Ok(0) => None,
            Ok(count) => {
                let told = self.session.heard(&room[..count], 0).expect("it is in order");
                Some(told.into_iter().map(|Told { rp, keys, .. }| (rp, keys)).collect())
            }
            Err(_) => Some(Vec::new()),
        }
    }
}

/// A Register of a DR, which isn't at the end of its way.
fn registered(key: Key) -> (Source, kernel::Event) {
    registered_with(key, 40)
}

fn registered_with(key: Key, length: usize) -> (Source, kernel::Event) {
    let content = [summed(&[0x21, 0, 0, 0, 0, 0, 0, 0]), data(key.source, key.group, 0, length)].concat();
    let mut whole = packet(PIM, [10, 1, 0, 2].into(), OWN, &content);
    whole[8] = 64;
    put_checksum(&mut whole[..20], 10);
    (Source::Unicasts, kernel::Event::Unicast(whole))
}

fn has_joined(fake: &Fake) -> bool {
    let is_join = |(index, bytes): &(u32, Vec<u8>)| {
        *index == ETH0 && Packet::read(bytes).map_or(false, |packet| is_pim(packet, JOIN_PRUNE))
    };
    fake.sent.borrow().iter().any(is_join)
}

#[test]
fn a_source_that_a_peer_says_is_joined_for_receivers_and_never_told_on_as_ones_own() {
    let (mut daemon, fake) = begun(&with_peers(&[(PEER, "mesh = \"a\"\n"), (OTHER, "")]), &both());
    let stream = key(FAR, [239, 1, 1, 1]);
    let (mut end, mut other) = (meets(&mut daemon, PEER), meets(&mut daemon, OTHER));
    happens(&mut daemon, &fake, report(ETH1, [10, 5, 0, 77], stream.group));
    assert!(!has_joined(&fake));
    end.says(&mut daemon, &tlv::source_actives(PEER, &[stream]));
    assert!(daemon.core.is_kept_alive(stream) && has_joined(&fake));
    // The peer gets no Register-Stop, and hears nothing of it; another one does, of its RP.
    assert!(fake.unicasts.borrow().is_empty());
    assert_eq!(end.hears(&mut daemon), Some(vec![]));
    assert_eq!(other.hears(&mut daemon), Some(vec![(PEER, vec![stream])]));
    passes(&mut daemon, &fake, 70_000);
    let later = [end.hears(&mut daemon), other.hears(&mut daemon)].into_iter().flatten().flatten();
    assert!(later.into_iter().all(|(rp, _)| rp != OWN) && daemon.msdp.own().count() == 0);
    // A receiver that comes later has it at once.
    let second = key(FAR, [239, 1, 1, 2]);
    end.says(&mut daemon, &tlv::source_actives(PEER, &[second]));
    fake.sent.take();
    happens(&mut daemon, &fake, report(ETH1, [10, 5, 0, 77], second.group));
    assert!(has_joined(&fake));
    // One that comes to the cache is there for 150 s, and the peer is told to one that comes later.
    assert_eq!(daemon.msdp.cache.count(PEER), 2);
    passes(&mut daemon, &fake, 160_000);
    assert_eq!(daemon.msdp.cache.count(PEER), 0);
}

#[test]
fn a_source_that_registers_is_told_at_once_and_each_minute_while_registers_come() {
    let (mut daemon, fake) = begun(&with_peers(&[(PEER, "")]), &both());
    let stream = key(FAR, [239, 1, 1, 1]);
    let mut end = meets(&mut daemon, PEER);
    happens(&mut daemon, &fake, registered(stream));
    assert_eq!(end.hears(&mut daemon), Some(vec![(OWN, vec![stream])]));
    happens(&mut daemon, &fake, registered(stream));
    assert_eq!(end.hears(&mut daemon), Some(vec![]));
    let mut told = 0;
    for _ in 0..10 {
        end.says(&mut daemon, &tlv::keepalive());
        passes(&mut daemon, &fake, 30_000);
        told += end.hears(&mut daemon).expect("it is up").len();
    }
    // Until 210 s after the last Register: at 60, 120 and 180 s.
    assert_eq!((told, daemon.msdp.own().count()), (3, 0));
    // One that sends long packets is told too.
    let long = key(FAR, [239, 1, 1, 3]);
    happens(&mut daemon, &fake, registered_with(long, 3_000));
    assert_eq!(end.hears(&mut daemon), Some(vec![(OWN, vec![long])]));
    // One of a group of which another router is the RP isn't told.
    happens(&mut daemon, &fake, registered(key(FAR, [239, 2, 1, 1])));
    assert_eq!((end.hears(&mut daemon), daemon.msdp.own().count()), (Some(vec![]), 1));
}

#[test]
fn a_source_on_the_routers_own_link_is_told_and_not_taken_of_a_peer() {
    let (mut daemon, fake) = begun(&with_peers(&[(PEER, "")]), &both());
    let stream = key(NEAR, [239, 1, 1, 1]);
    let mut end = meets(&mut daemon, PEER);
    passes(&mut daemon, &fake, 6_000);
    end.says(&mut daemon, &tlv::source_actives(PEER, &[stream]));
    assert!(!daemon.core.is_kept_alive(stream) && daemon.msdp.own().count() == 0);
    end.hears(&mut daemon);
    happens(&mut daemon, &fake, no_cache(1, stream));
    assert_eq!(end.hears(&mut daemon), Some(vec![(OWN, vec![stream])]));
    // A peer whose session comes up hears all that is known.
    let mut end = meets(&mut daemon, PEER);
    assert_eq!(end.hears(&mut daemon), Some(vec![(OWN, vec![stream])]));
}

#[test]
fn what_isnt_of_the_rpf_peer_or_not_permitted_isnt_taken() {
    let rules = "max_kept = 2\naccept = [{ groups = \"239.1.0.0/16\" }]\ntell = [{ groups = \"239.1.1.0/24\" }]\n";
    let (mut daemon, fake) = begun(&with_peers(&[(PEER, rules), (OTHER, "rpf = [\"10.8.0.0/16\"]\n")]), &both());
    let (mut end, mut other) = (meets(&mut daemon, PEER), meets(&mut daemon, OTHER));
    let all: Vec<_> = (1..=4).map(|last| key(FAR, [239, 1, 2, last])).collect();
    // Of another RP it isn't the RPF peer.
    let far_rp = Ipv4Addr::new(10, 8, 0, 1);
    end.says(&mut daemon, &tlv::source_actives(far_rp, &all));
    assert_eq!(daemon.msdp.cache.len(), 0);
    other.says(&mut daemon, &tlv::source_actives(far_rp, &all[..1]));
    assert_eq!(daemon.msdp.cache.count(OTHER), 1);
    let odd = [[239, 2, 1, 1], [224, 0, 0, 5], [232, 1, 1, 1], [10, 1, 1, 1]].map(|group| key(FAR, group));
    end.says(&mut daemon, &tlv::source_actives(PEER, &odd));
    end.says(&mut daemon, &tlv::source_actives(PEER, &[key([224, 1, 1, 1].into(), [239, 1, 1, 1])]));
    assert_eq!(daemon.msdp.cache.count(PEER), 0);
    end.says(&mut daemon, &tlv::source_actives(PEER, &all));
    let tally = daemon.msdp_peers()[0].tally;
    assert_eq!((daemon.msdp.cache.count(PEER), tally.not_rpf, tally.not_permitted, tally.no_room), (2, 4, 5, 2));
    // What names this router as its RP has been here.
    end.says(&mut daemon, &tlv::source_actives(OWN, &all));
    assert_eq!(daemon.msdp_peers()[0].tally.not_rpf, 8);
    // Groups that aren't to be told to it aren't.
    end.hears(&mut daemon);
    happens(&mut daemon, &fake, registered(key(FAR, [239, 1, 9, 9])));
    assert_eq!(end.hears(&mut daemon), Some(vec![]));
    happens(&mut daemon, &fake, registered(key(FAR, [239, 1, 1, 9])));
    assert_eq!(end.hears(&mut daemon), Some(vec![(OWN, vec![key(FAR, [239, 1, 1, 9])])]));
}

#[test]
fn wrong_bytes_silence_and_other_settings_end_a_session() {
    let (mut daemon, fake) = begun(&with_peers(&[(PEER, "")]), &both());
    for wrong in [
        &[1, 0, 3][..],
        &[4, 0, 9, 0, 0, 0, 0, 0, 0],
        &[0, 0, 0, 0],
        &[1, 0, 20, 9, 1, 2, 3, 4, 0, 0, 0, 32, 1, 2, 3, 4, 5, 6, 7, 8],
    ] {
        let mut end = meets(&mut daemon, PEER);
        end.says(&mut daemon, wrong);
        assert_eq!((end.hears(&mut daemon), daemon.msdp_peers()[0].since), (None, None));
    }
    let mut end = meets(&mut daemon, PEER);
    end.says(&mut daemon, b"GET / HTTP/1.1\r\n\r\n");
    assert!(daemon.msdp_peers()[0].since.is_some());
    passes(&mut daemon, &fake, 76_000);
    assert_eq!((daemon.msdp_peers()[0].since, daemon.msdp_peers()[0].tally.resets), (None, 5));
    let mut end = meets(&mut daemon, PEER);
    daemon.take_settings(settings::read(TWO).expect("they are in order")).expect("it goes on");
    assert_eq!((end.hears(&mut daemon), daemon.msdp_peers().len(), daemon.msdp.due()), (None, 0, None));
}

#[test]
fn what_is_shown_of_msdp_is_as_its_schema_says() {
    let (mut daemon, fake) = begun(&with_peers(&[(PEER, "mesh = \"a\"\n"), (OTHER, "")]), &both());
    let mut end = meets(&mut daemon, PEER);
    end.says(&mut daemon, &tlv::source_actives(PEER, &[key(FAR, [239, 1, 1, 1])]));
    happens(&mut daemon, &fake, registered(key(FAR, [239, 1, 1, 2])));
    let mut text = Vec::new();
    crate::show::answer(&mut daemon, "show msdp json", &mut text).expect("it is written");
    let shown: serde_json::Value = serde_json::from_slice(&text).expect("it is JSON");
    assert!(crate::schemas::Schema::read("show-msdp").fits(&shown));
    let whats: Vec<_> = shown["msdp"].as_array().unwrap().iter().map(|row| row["what"].as_str().unwrap()).collect();
    assert_eq!(whats, ["peer", "peer", "heard", "told"]);
    assert_eq!((&shown["msdp"][0]["state"], &shown["msdp"][1]["state"]), (&"established".into(), &"inactive".into()));
}
