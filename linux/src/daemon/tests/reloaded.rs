//! Other settings while the router runs: it goes on with what it knows, and so do the streams.
use super::*;
use crate::packet::{priority_of, two};

/// A daemon with a stream from eth1 to eth0, which the kernel forwards, and its source and entry.
fn streaming(settings: &str) -> (Daemon, Rc<Fake>, Key) {
    let (mut daemon, fake) = begun(settings, &both());
    let stream = key(NEAR, [239, 1, 1, 1]);
    happens(&mut daemon, &fake, report(ETH0, [10, 1, 0, 77], stream.group));
    happens(&mut daemon, &fake, no_cache(1, stream));
    // The first Hellos leave.
    passes(&mut daemon, &fake, 6_000);
    assert_eq!(fake.entry(stream), FLOWS);
    fake.sent.borrow_mut().clear();
    (daemon, fake, stream)
}

const FLOWS: Option<Forwarded> = Some(Forwarded { parent: 1, outgoing: 0b01 });

fn takes(daemon: &mut Daemon, text: &str) {
    daemon.take_settings(settings::read(text).expect("they are in order")).expect("it goes on");
}

/// The Hellos that left on an interface: from where, with which priority and holdtime.
fn hellos(fake: &Fake, index: u32) -> Vec<(Ipv4Addr, Option<u32>, usize)> {
    let told = |bytes: &[u8]| {
        let packet = Packet::read(bytes).filter(|packet| is_pim(*packet, 0))?;
        Some((packet.source(), priority_of(packet), two(bytes, 28)))
    };
    fake.sent.borrow().iter().filter(|(to, _)| *to == index).filter_map(|(_, bytes)| told(bytes)).collect()
}

#[test]
fn other_settings_cost_no_stream() {
    let (mut daemon, fake, stream) = streaming(TWO);
    let before = daemon.core.rows(Table::Groups).expect("it tells");
    let other = format!("limit = 1000\nspt = \"never\"\n{TWO}[igmp]\nrobustness = 3\n");
    takes(&mut daemon, &other);
    assert_eq!((daemon.counters.reloaded, daemon.counters.made_anew, fake.entry(stream)), (1, 0, FLOWS));
    assert_eq!(daemon.core.rows(Table::Groups).expect("it tells"), before);
    assert_eq!((daemon.neighbours.known.len(), daemon.core.told.limit), (1, 1000));
    assert!(daemon.core.told.stays_on_shared_tree);
    assert!(fake.copies().is_empty());
    passes(&mut daemon, &fake, 1_000);
    assert_eq!(fake.entry(stream), FLOWS);
}

#[test]
fn another_priority_is_told_at_once() {
    let (mut daemon, fake, stream) = streaming(TWO);
    takes(&mut daemon, &TWO.replace("\"eth1\"\n", "\"eth1\"\npriority = 7\n"));
    assert!(hellos(&fake, ETH1).contains(&([10, 5, 0, 1].into(), Some(7), 105)));
    assert_eq!((daemon.counters.reloaded, fake.entry(stream)), (1, FLOWS));
}

#[test]
fn an_interface_more_goes_up_and_one_less_goes_down() {
    let (mut daemon, fake, stream) = streaming(TWO);
    let three = format!("{TWO}[[interface]]\nname = \"eth7\"\n");
    takes(&mut daemon, &three);
    assert_eq!((daemon.ports.len(), daemon.ports[2].standing.is_up(), fake.entry(stream)), (3, false, FLOWS));
    assert!(daemon.core.link(2).is_some());
    let one = TWO.replace("[[interface]]\nname = \"eth0\"\n", "");
    takes(&mut daemon, &one);
    let told = |daemon: &Daemon| daemon.ports.iter().map(|port| port.standing.is_up()).collect::<Vec<_>>();
    assert_eq!((told(&daemon), daemon.name(0)), (vec![true], "eth1"));
    assert!(daemon.core.link(1).is_none());
    assert_eq!(hellos(&fake, ETH0).last(), Some(&([10, 1, 0, 1].into(), Some(1), 0)));
    assert_ne!(fake.entry(stream).map(|it| it.outgoing & 0b01), Some(0b01));
    takes(&mut daemon, TWO);
    assert_eq!((told(&daemon), daemon.name(1)), (vec![true, true], "eth0"));
    assert_eq!((daemon.counters.reloaded, daemon.counters.made_anew), (3, 0));
    happens(&mut daemon, &fake, report(ETH0, [10, 1, 0, 77], stream.group));
    happens(&mut daemon, &fake, whole(stream, data(NEAR, stream.group, 0, 40)));
    assert_eq!(fake.entry(stream), FLOWS);
}

#[test]
fn a_list_without_its_first_interface_costs_no_stream() {
    let three = format!("[[interface]]\nname = \"eth7\"\n{TWO}");
    let (mut daemon, fake, stream) = streaming(&three);
    let groups = |daemon: &mut Daemon| daemon.core.rows_of::<viqeshor::GroupRow>().expect("it tells");
    let (before, neighbours) = (groups(&mut daemon), daemon.neighbours.known.len());
    assert_eq!((before[0].iface, daemon.ports[2].vif, neighbours), (1, Some(1), 1));
    let written = fake.puts.get();
    takes(&mut daemon, TWO);
    passes(&mut daemon, &fake, 1_000);
    assert_eq!((fake.entry(stream), fake.puts.get()), (FLOWS, written));
    let numbers: Vec<_> = daemon.ports.iter().map(|port| (port.number, port.vif)).collect();
    assert_eq!((numbers, daemon.core.link(2)), (vec![(0, Some(0)), (1, Some(1))], None));
    // What the interfaces had they have at their new numbers.
    let after: Vec<_> = before.into_iter().map(|row| viqeshor::GroupRow { iface: 0, ..row }).collect();
    assert_eq!(groups(&mut daemon), after);
    let neighbours: Vec<_> = daemon.neighbours.known.keys().map(|place| place.0).collect();
    assert_eq!((neighbours, daemon.counters.reloaded, daemon.counters.made_anew), (vec![0], 1, 0));
    // Packets come and leave by them.
    let other = key(NEAR, [239, 1, 1, 2]);
    happens(&mut daemon, &fake, report(ETH0, [10, 1, 0, 78], other.group));
    happens(&mut daemon, &fake, no_cache(1, other));
    assert_eq!(fake.entry(other), FLOWS);
}

#[test]
fn another_order_costs_no_stream() {
    let (mut daemon, fake, stream) = streaming(TWO);
    let mut parts: Vec<_> = TWO.split("[[interface]]\n").collect();
    let last = parts.len() - 1;
    parts.swap(1, last);
    let written = fake.puts.get();
    takes(&mut daemon, &parts.join("[[interface]]\n"));
    assert_eq!((fake.entry(stream), fake.puts.get()), (FLOWS, written));
}

#[test]
fn another_address_is_told_at_once_and_the_old_one_is_left() {
    let (mut daemon, fake, stream) = streaming(TWO);
    let other = subnet([10, 5, 9, 1]);
    fake.addresses.borrow_mut().push((ETH1, other));
    let event = kernel::Event::Changes(vec![Change::Address { index: ETH1, subnet: other }]);
    happens(&mut daemon, &fake, (Source::Changes, event));
    takes(&mut daemon, &TWO.replace("\"eth1\"\n", "\"eth1\"\naddress = \"10.5.9.1/24\"\n"));
    let found: Vec<_> = hellos(&fake, ETH1).into_iter().map(|(from, _, holdtime)| (from, holdtime)).collect();
    assert_eq!(found[..2], [([10, 5, 0, 1].into(), 0), ([10, 5, 9, 1].into(), 105)]);
    assert!(daemon.ports[1].standing.is_up() && daemon.ports[1].own.subnet == Some(other));
    assert_eq!((daemon.counters.reloaded, daemon.counters.made_anew), (1, 0));
    // The source isn't on the link any more.
    assert_ne!(fake.entry(stream), FLOWS);
}

#[test]
fn what_the_router_refuses_changes_nothing() {
    let (mut daemon, fake, stream) = streaming(TWO);
    let saved = daemon.core.save().expect("it is saved");
    daemon.settings.limit = 0;
    daemon.reconfigure("a test").expect("it goes on");
    assert_eq!((daemon.core.save().expect("it is saved"), fake.entry(stream)), (saved, FLOWS));
    assert_eq!(daemon.counters.reloaded, 0);
}

#[test]
fn it_is_recorded() {
    let folder = std::env::temp_dir().join(format!("viqeshord-reloaded-{}", std::process::id()));
    std::fs::create_dir_all(&folder).expect("it is made");
    let recorded = format!("{TWO}[recorder]\nfolder = \"{}\"\n", folder.display());
    let (mut daemon, _, _) = streaming(&recorded);
    takes(&mut daemon, &format!("limit = 1000\n{recorded}"));
    daemon.core.flush_record();
    let files = std::fs::read_dir(&folder).expect("it is there").filter_map(Result::ok);
    let written = files.filter_map(|file| std::fs::read(file.path()).ok()).max_by_key(Vec::len).expect("one is there");
    // A record of a reload behind its draw (docs/LIBRARY.md, "A recording"): the settings, two interfaces, no address of
    // none, one route and two ranges, as docs/SAVED.md has them, and the answer.
    let words = |numbers: &[u32]| numbers.iter().flat_map(|number| number.to_be_bytes()).collect::<Vec<_>>();
    let mut wanted = [words(&[1000]), vec![0], words(&[2, 125, 100, 10])].concat();
    wanted.extend(words(&[0, 2, 0x0a01_0001, 24, 1, 500, 2500, 0x0a05_0001, 24, 1, 500, 2500]));
    wanted.extend(words(&[0, 0, 0, 1, 0x0a09_0000, 16, 0x0a01_0002, 0, 110, 1]));
    wanted.extend(words(&[0, 2, 0xef01_0000, 16, 0x0a01_0001, 0xef02_0000, 16, 0x0a09_0001, 0]));
    assert!(written.windows(wanted.len()).any(|it| it == wanted));
    std::fs::remove_dir_all(&folder).expect("it is there");
}
