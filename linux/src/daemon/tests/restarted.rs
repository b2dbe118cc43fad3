//! A router in the place of another one: it goes on where that was, or says why it can't.
use super::older::{asked, in_mode, said, version, LAST_MEMBER, LEAVE, PRESENT, REPORT_ONE, REPORT_TWO};
use super::*;
use crate::bfd::{Control, Session, State, Times};
use crate::left::Left;

const GROUP: Ipv4Addr = Ipv4Addr::new(239, 1, 1, 1);

/// What a daemon leaves.
pub(super) fn left_by(daemon: &Daemon) -> (Left, Vec<u8>) {
    (daemon.left(), daemon.core.save().expect("it is saved"))
}

/// A machine as another one, of which no event waits and nothing was sent.
pub(super) fn same_machine(fake: &Fake) -> Rc<Fake> {
    let other = Fake::default();
    other.now.set(fake.now.get());
    *other.addresses.borrow_mut() = fake.addresses.borrow().clone();
    *other.entries.borrow_mut() = fake.entries.borrow().clone();
    *other.used.borrow_mut() = fake.used.borrow().clone();
    Rc::new(other)
}

pub(super) fn resumed(settings: &str, fake: &Rc<Fake>, left: (Left, Vec<u8>), way: Way) -> Daemon {
    let settings = settings::read(settings).expect("they are in order");
    let kernel = Box::new(Handle(Rc::clone(fake)));
    let mut daemon = Daemon::resume(Path::new("none"), settings, kernel, (left.0, &left.1), way).expect("it goes on");
    daemon.begin().expect("it begins");
    daemon.house_keeping().expect("it goes on");
    daemon
}

/// A router with a stream that flows, a source that nobody asks for, and a group that a host asks for.
fn at_work() -> (Daemon, Rc<Fake>, Key, Key) {
    let (mut daemon, fake) = begun(TWO, &both());
    happens(&mut daemon, &fake, report(ETH1, [10, 5, 0, 77], GROUP));
    let (flows, idle) = (key([10, 1, 0, 50].into(), GROUP.octets()), key(NEAR, [239, 2, 1, 1]));
    happens(&mut daemon, &fake, no_cache(0, flows));
    happens(&mut daemon, &fake, no_cache(1, idle));
    passes(&mut daemon, &fake, 6_000);
    (daemon, fake, flows, idle)
}

fn tables(daemon: &mut Daemon) -> Vec<Vec<viqeshor::Row>> {
    Table::ALL.iter().map(|table| daemon.core.rows(*table).expect("it tells")).collect()
}

#[test]
fn it_goes_on_and_nobody_notices() {
    let (mut daemon, fake, flows, _) = at_work();
    let (before, entries) = (tables(&mut daemon), fake.entries.borrow().clone());
    assert_eq!(fake.entry(flows), Some(Forwarded { parent: 0, outgoing: 0b10 }));
    let other = same_machine(&fake);
    let mut next = resumed(TWO, &other, left_by(&daemon), Way::Whole);
    assert_eq!(tables(&mut next), before);
    // Nothing leaves, and nothing is set in the kernel.
    assert!(other.sent.borrow().is_empty() && other.unicasts.borrow().is_empty());
    assert_eq!((other.puts.get(), other.entries.borrow().clone()), (0, entries));
    assert_eq!((other.vifs.borrow().clone(), other.resumed_vifs.borrow().clone()), (vec![], vec![(0, 2), (1, 3)]));
    assert_eq!(next.neighbours.known.len(), 1);
    // It follows events as the one before it does.
    for (daemon, fake) in [(&mut daemon, &fake), (&mut next, &other)] {
        happens(daemon, fake, report(ETH0, [10, 1, 0, 77], GROUP));
        passes(daemon, fake, 1_000);
    }
    let after = tables(&mut daemon);
    assert_eq!(tables(&mut next), after);
    assert_eq!(other.entries.borrow().clone(), fake.entries.borrow().clone());
    // Its own timers end as they would have.
    let hellos = |fake: &Fake| fake.sent.borrow().iter().filter(|(_, it)| it[9] == PIM && it[20] == 0x20).count();
    let sent = hellos(&fake);
    passes(&mut daemon, &fake, 40_000);
    passes(&mut next, &other, 40_000);
    assert_eq!(hellos(&fake) - sent, hellos(&other));
}

/// A router that knows a host of IGMPv1, and ten seconds later one of IGMPv2 too.
fn with_older_hosts(group: Ipv4Addr) -> (Daemon, Rc<Fake>) {
    let (mut daemon, fake) = begun(TWO, &both());
    happens(&mut daemon, &fake, said(REPORT_ONE, group));
    passes(&mut daemon, &fake, 10_000);
    happens(&mut daemon, &fake, said(REPORT_TWO, group));
    (daemon, fake)
}

#[test]
fn older_hosts_are_known_to_the_next_router() {
    let group = Ipv4Addr::new(239, 2, 1, 1);
    let (daemon, fake) = with_older_hosts(group);
    for way in [Way::Whole, Way::Death] {
        let other = same_machine(&fake);
        let mut next = resumed(TWO, &other, left_by(&daemon), way);
        assert_eq!(version(&mut next, group), in_mode("IGMPv1", Some(PRESENT / 1_000 - 10)));
        // A Leave counts for nothing (RFC 3376, 7.3.2).
        let before = other.sent.borrow().len();
        happens(&mut next, &other, said(LEAVE, group));
        passes(&mut next, &other, LAST_MEMBER + 200);
        assert_eq!((asked(&other, ETH1, before), version(&mut next, group).is_some()), (Vec::new(), true));
        passes(&mut next, &other, PRESENT - 12_200);
        assert_eq!(version(&mut next, group), in_mode("IGMPv2", Some(10)));
    }
}

#[test]
fn the_next_router_keeps_the_older_hosts_that_it_hears() {
    let group = Ipv4Addr::new(239, 2, 1, 1);
    let (daemon, fake) = with_older_hosts(group);
    for (hosts, wanted) in [("v2", in_mode("IGMPv2", Some(PRESENT / 1_000))), ("none", in_mode("IGMPv3", None))] {
        let other = same_machine(&fake);
        let settings = format!("[igmp]\nolder_hosts = \"{hosts}\"\n{TWO}");
        let mut next = resumed(&settings, &other, left_by(&daemon), Way::Whole);
        assert_eq!(version(&mut next, group), wanted);
    }
}

#[test]
fn a_source_keeps_its_quota() {
    let (daemon, fake, ..) = at_work();
    let settings = format!("{TWO}[policy]\nmax_streams = 1\n");
    let other = same_machine(&fake);
    let mut next = resumed(&settings, &other, left_by(&daemon), Way::Whole);
    let second = key([10, 1, 0, 51].into(), GROUP.octets());
    happens(&mut next, &other, no_cache(0, second));
    assert!(next.core.offload(second).map_or(true, |row| !row.is_known));
    assert!(next.policy.refusals.counts().any(|(_, count)| count == 1));
}

#[test]
fn after_a_death_each_entry_is_set_again_and_strangers_go() {
    let (daemon, fake, flows, idle) = at_work();
    let left = left_by(&daemon);
    let other = same_machine(&fake);
    // What came after the state was saved.
    let stranger = key(NEAR, [239, 2, 9, 9]);
    let nowhere = Forwarded { parent: REGISTER_VIF, outgoing: 0 };
    other.entries.borrow_mut().insert(stranger, nowhere);
    other.entries.borrow_mut().insert(flows, nowhere);
    other.entries.borrow_mut().remove(&idle);
    let keys: Vec<_> = other.entries.borrow().keys().copied().collect();
    let used = |key| Used { key, packets: 1, bytes: 1, stray: 0, idle: 0 };
    *other.used.borrow_mut() = keys.into_iter().map(used).collect();
    other.now.set(fake.now.get() + 3_000);
    let next = resumed(TWO, &other, left, Way::Death);
    assert_eq!(other.entries.borrow().clone(), fake.entries.borrow().clone());
    assert_eq!(next.neighbours.known.len(), 1);
}

#[test]
fn what_changed_on_the_machine_is_taken() {
    let (daemon, fake, flows, _) = at_work();
    let other = same_machine(&fake);
    other.addresses.borrow_mut().retain(|(index, _)| *index != ETH1);
    let mut next = resumed(TWO, &other, left_by(&daemon), Way::Whole);
    assert!(next.ports[0].standing.is_up() && !next.ports[1].standing.is_up());
    assert!(next.core.rows(Table::Groups).expect("it tells").is_empty());
    assert_ne!(other.entry(flows), Some(Forwarded { parent: 0, outgoing: 0b10 }));
}

#[test]
fn spoilt_bytes_have_it_made_anew_while_the_kernel_forwards() {
    let (daemon, fake, flows, idle) = at_work();
    for way in [Way::Whole, Way::Death] {
        let (left, mut saved) = left_by(&daemon);
        saved[4] ^= 1;
        let other = same_machine(&fake);
        let mut next = resumed(TWO, &other, (left, saved), way);
        assert_eq!(next.counters.made_anew, 1);
        assert!(next.ports.iter().all(|port| port.standing.is_up()));
        assert_eq!(other.entry(flows), fake.entry(flows));
        assert_eq!(other.entry(idle), None);
        // It learns what it needs, while packets flow.
        *other.used.borrow_mut() = vec![Used { key: flows, packets: 9, bytes: 900, stray: 0, idle: 0 }];
        happens(&mut next, &other, hello());
        happens(&mut next, &other, report(ETH1, [10, 5, 0, 77], GROUP));
        passes(&mut next, &other, 13_000);
        assert_eq!(other.entry(flows).map(|it| it.outgoing), Some(0b10));
    }
}

#[test]
fn other_settings_are_taken_by_a_router_that_goes_on() {
    let (daemon, fake, flows, _) = at_work();
    for way in [Way::Whole, Way::Death] {
        let other = same_machine(&fake);
        let next = resumed(&format!("limit = 3000\n{TWO}"), &other, left_by(&daemon), way);
        assert_eq!((next.counters.made_anew, next.counters.reloaded, next.core.told.limit), (0, 1, 3000));
        assert_eq!((other.entry(flows), next.neighbours.known.len()), (fake.entry(flows), 1));
    }
}

#[test]
fn an_interface_less_goes_down_and_one_more_is_taken() {
    let (daemon, fake, ..) = at_work();
    let one = TWO.replace("[[interface]]\nname = \"eth1\"\n", "");
    let next = resumed(&one, &same_machine(&fake), left_by(&daemon), Way::Whole);
    assert!(next.ports[0].standing.is_up() && next.ports.len() == 1 && next.core.link(1).is_none());
    let three = format!("{TWO}[[interface]]\nname = \"eth7\"\n");
    let next = resumed(&three, &same_machine(&fake), left_by(&daemon), Way::Whole);
    assert_eq!((next.counters.made_anew, next.counters.reloaded, next.ports.len()), (0, 1, 3));
    assert!(next.core.link(2).is_some());
}

#[test]
fn other_ranges_are_taken() {
    let (daemon, fake, ..) = at_work();
    let other = TWO.replace("10.9.0.1", "10.9.0.2");
    let mut next = resumed(&other, &same_machine(&fake), left_by(&daemon), Way::Whole);
    let (mut usual, _) = begun(&other, &both());
    for daemon in [&mut next, &mut usual] {
        daemon.core.take(Event::Seen(1, key(NEAR, [239, 2, 1, 9]))).expect("it goes on");
    }
    assert_eq!(next.counters.made_anew, 0);
    let told = |daemon: &mut Daemon| {
        let mut targets = Vec::new();
        daemon.core.each_packet(|target, _| targets.push(target));
        targets
    };
    assert_eq!(told(&mut next), told(&mut usual));
}

#[test]
fn a_session_goes_on_by_exec_and_begins_anew_after_a_death() {
    let settings = TWO.replace("name = \"eth0\"\n", "name = \"eth0\"\nbfd = true\n");
    let (mut daemon, fake) = begun(&settings, &both());
    let place = (0, Ipv4Addr::new(10, 1, 0, 2));
    let mut other_side = Session::new(Times { interval: 300, multiplier: 3 }, 77, 0);
    for _ in 0..200 {
        fake.now.set(fake.now.get() + 20);
        daemon.house_keeping().expect("it goes on");
        let sent: Vec<_> = fake.bfd.borrow_mut().drain(..).collect();
        let heard = sent.iter().filter_map(|(_, packet)| Control::read(packet));
        let answers: Vec<_> = heard.filter_map(|control| other_side.heard(&control, fake.now.get()).packet).collect();
        for packet in answers.into_iter().chain(other_side.passes(fake.now.get()).packet) {
            let event = kernel::Event::Bfd { index: ETH0, from: place.1, packet };
            happens(&mut daemon, &fake, (Source::Bfd, event));
        }
    }
    assert_eq!(daemon.bfd_state(&place), Some(State::Up));
    let next = resumed(&settings, &same_machine(&fake), left_by(&daemon), Way::Whole);
    assert_eq!(next.sessions.get(&place), daemon.sessions.get(&place));
    let next = resumed(&settings, &same_machine(&fake), left_by(&daemon), Way::Death);
    assert_eq!(next.bfd_state(&place), Some(State::Down));
    assert_eq!(next.neighbours.known.len(), 1);
}

#[test]
fn the_state_is_saved_in_a_file() {
    let (daemon, _, flows, _) = at_work();
    let path = std::env::temp_dir().join(format!("viqeshord-state-{}", std::process::id()));
    daemon.save(&path).expect("it is saved");
    let (left, saved) = Left::read(&std::fs::read(&path).expect("it is there")).expect("it is whole");
    assert_eq!(saved, daemon.core.save().expect("it is saved"));
    assert!(left.entries.iter().any(|entry| entry.key() == flows));
    assert_eq!((left.told, left.ports.len()), (daemon.core.told.clone(), 2));
    std::fs::remove_file(&path).expect("it is there");
}

#[test]
fn a_restart_keeps_what_a_stop_gives_up() {
    let folder = std::env::temp_dir().join(format!("viqeshord-restart-{}", std::process::id()));
    std::fs::create_dir_all(&folder).expect("it is made");
    let settings = format!("socket = \"{}/control\"\n{TWO}", folder.display());
    let (mut daemon, fake) = begun(&settings, &both());
    let sent = fake.sent.borrow().len();
    assert!(daemon.keep_for_next());
    // No neighbour hears of it.
    assert_eq!((fake.stays.get(), fake.is_ended.get(), fake.sent.borrow().len()), (true, false, sent));
    let file = daemon.settings.state_file();
    let (left, _) = Left::read(&std::fs::read(&file).expect("it is there")).expect("it is whole");
    assert!(left.is_in_order && !left_by(&daemon).0.is_in_order);
    daemon.keep_no_more();
    assert!(fake.is_ended.get() && !file.exists());
    // Where no state is to be saved it is a stop.
    let (mut daemon, fake) = begun(&format!("{settings}[restart]\nsave = false\n"), &both());
    assert!(!daemon.keep_for_next() && !fake.stays.get() && !file.exists());
    std::fs::remove_dir_all(&folder).expect("it is there");
}

#[test]
fn a_recorded_router_goes_on_in_its_files() {
    let folder = std::env::temp_dir().join(format!("viqeshord-recorded-{}", std::process::id()));
    std::fs::create_dir_all(&folder).expect("it is made");
    let settings = format!("{TWO}[recorder]\nfolder = \"{}\"\n", folder.display());
    let (mut daemon, fake) = begun(&settings, &both());
    happens(&mut daemon, &fake, report(ETH1, [10, 5, 0, 77], GROUP));
    passes(&mut daemon, &fake, 300);
    let size = |number: u32| std::fs::metadata(folder.join(format!("router.{number}"))).map_or(0, |it| it.len());
    let first = size(0);
    assert!(first > 0 && size(1) == 0);
    std::thread::sleep(Duration::from_millis(20));
    let other = same_machine(&fake);
    let mut next = resumed(&settings, &other, left_by(&daemon), Way::Whole);
    happens(&mut next, &other, report(ETH1, [10, 5, 0, 77], GROUP));
    passes(&mut next, &other, 300);
    assert!(size(0) == first && size(1) > 0);
    next.take_settings(settings::read(TWO).expect("they are in order")).expect("it goes on");
    let second = size(1);
    happens(&mut next, &other, report(ETH1, [10, 5, 0, 77], GROUP));
    passes(&mut next, &other, 300);
    assert_eq!(size(1), second);
    std::fs::remove_dir_all(&folder).expect("it is there");
}

/// The time of the processor that this thread has had, in ns.
fn own_time() -> u64 {
    let mut time = libc::timespec { tv_sec: 0, tv_nsec: 0 };
    // SAFETY: the place is one such structure.
    unsafe { libc::clock_gettime(libc::CLOCK_THREAD_CPUTIME_ID, &mut time) };
    time.tv_sec as u64 * 1_000_000_000 + time.tv_nsec as u64
}

/// What happens in each turn, by its number.
type Happening<'a> = &'a dyn Fn(u32) -> (Source, kernel::Event);

/// How long an event takes at the median of some rounds, in ns: of the daemon and the library, without the machine.
fn event_takes(settings: &str, event: Happening) -> u64 {
    const EVENTS: u32 = 2_000;
    let (mut daemon, fake) = begun(settings, &both());
    happens(&mut daemon, &fake, report(ETH1, [10, 5, 0, 77], GROUP));
    let mut rounds: Vec<_> = (0..15)
        .map(|round| {
            let began = own_time();
            for number in 0..EVENTS {
                happens(&mut daemon, &fake, event(round * EVENTS + number));
            }
            fake.sent.borrow_mut().clear();
            (own_time() - began) / u64::from(EVENTS)
        })
        .collect();
    rounds.sort_unstable();
    rounds[rounds.len() / 2]
}

#[test]
#[ignore = "it measures, and prints what it found"]
fn what_recording_costs() {
    let folder = std::env::temp_dir().join(format!("viqeshord-cost-{}", std::process::id()));
    std::fs::create_dir_all(&folder).expect("it is made");
    let recorded = format!("{TWO}[recorder]\nfolder = \"{}\"\n", folder.display());
    let data = data([10, 1, 0, 50].into(), GROUP, 0, 1_000);
    let flows = key([10, 1, 0, 50].into(), GROUP.octets());
    let kinds: [(&str, Happening); 4] = [
        ("a report of a known group", &|_| report(ETH1, [10, 5, 0, 77], GROUP)),
        ("a report of a new group", &|number| report(ETH1, [10, 5, 0, 77], (0xef01_0200 + number % 7_000).into())),
        ("a Hello", &|_| hello()),
        ("a packet of 1,000 bytes that the router copies", &|_| whole(flows, data.clone())),
    ];
    for (what, event) in kinds {
        let [without, with] = [TWO, &recorded].map(|settings| event_takes(settings, event));
        println!("{what}: {without} ns, {with} ns recorded");
    }
    std::fs::remove_dir_all(&folder).expect("it is there");
}
