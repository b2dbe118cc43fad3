//! What operators see and clear: `show`, its schemas, the metrics, `clear`.
use super::bootstraps::{bootstrap, listening};
use super::*;
use crate::daemon::cleared::Lines;
use crate::metrics::{text, Http};
use crate::schemas::Schema;
use crate::server::Answers;
use crate::show::{self, Topic};
use clap::ValueEnum;
use serde_json::{json, Value};

const ROUTER: Ipv4Addr = Ipv4Addr::new(10, 1, 0, 1);
const SHARED: u8 = 7;
const SOURCE: u8 = 4;
const RPT: u8 = 5;

/// A name of a Join/Prune: its flags, and the source or the RP.
type Name = (u8, [u8; 4]);

/// A Join/Prune of a neighbour to the router.
fn join_prune(from: [u8; 4], group: Ipv4Addr, joins: &[Name], prunes: &[Name]) -> (Source, kernel::Event) {
    let mut content = vec![0x23, 0, 0, 0, 1, 0];
    content.extend(ROUTER.octets());
    content.extend([0, 1, 0, 210, 1, 0, 0, 32]);
    content.extend(group.octets());
    content.extend([0, joins.len() as u8, 0, prunes.len() as u8]);
    for (flags, source) in joins.iter().chain(prunes) {
        content.extend([1, 0, *flags, 32]);
        content.extend(source);
    }
    frame(ETH0, packet(PIM, from.into(), [224, 0, 0, 13].into(), &summed(&content)))
}

/// A neighbour's Assert of a group's shared tree.
fn assert_of(from: [u8; 4], group: Ipv4Addr) -> (Source, kernel::Event) {
    let mut content = vec![0x25, 0, 0, 0, 1, 0, 0, 32];
    content.extend(group.octets());
    content.extend([1, 0, 0, 0, 0, 0, 0x80, 0, 0, 1, 0, 0, 0, 1]);
    frame(ETH0, packet(PIM, from.into(), [224, 0, 0, 13].into(), &summed(&content)))
}

fn hello_of(from: [u8; 4]) -> (Source, kernel::Event) {
    let content = summed(&[0x20, 0, 0, 0, 0, 1, 0, 2, 0, 105, 0, 19, 0, 4, 0, 0, 0, 0]);
    frame(ETH0, packet(PIM, from.into(), [224, 0, 0, 13].into(), &content))
}

/// A router with something in each of its tables.
fn busy() -> (Daemon, Rc<Fake>) {
    let peer = "[[msdp]]\npeer = \"10.9.0.9\"\naddress = \"10.1.0.1\"\n";
    let (mut daemon, fake) = begun(&format!("{}{peer}", listening()), &both());
    let (own, far) = (Ipv4Addr::new(239, 1, 1, 1), Ipv4Addr::new(239, 2, 1, 1));
    for event in [
        hello_of([10, 1, 0, 3]),
        bootstrap(&[([239, 1, 0, 0], 16, [10, 9, 0, 7])]),
        report(ETH1, [10, 5, 0, 77], own),
        report(ETH1, [10, 5, 0, 77], far),
        join_prune(
            [10, 1, 0, 2],
            own,
            &[(SHARED, ROUTER.octets()), (SOURCE, [10, 5, 0, 50])],
            &[(RPT, [10, 5, 0, 51])],
        ),
        register(&data(FAR, own, 0, 40)),
        no_cache(0, key(FAR, [239, 2, 1, 1])),
        no_cache(0, key(FAR, [239, 7, 7, 7])),
    ] {
        happens(&mut daemon, &fake, event);
    }
    passes(&mut daemon, &fake, 5_000);
    happens(&mut daemon, &fake, assert_of([10, 1, 0, 3], far));
    (daemon, fake)
}

/// What a client reads.
fn answer(daemon: &mut Daemon, line: &str) -> String {
    let mut text = Vec::new();
    show::answer(daemon, line, &mut text).expect("memory takes it");
    String::from_utf8(text).expect("it is text")
}

pub(super) fn shown(daemon: &mut Daemon, line: &str) -> Vec<Value> {
    let said = answer(daemon, &format!("show {line} json"));
    let mut whole: Value = serde_json::from_str(&said).unwrap_or_else(|_| panic!("{said}"));
    let name = line.split(' ').next().unwrap_or_default();
    whole[name].as_array_mut().map(std::mem::take).unwrap_or_else(|| panic!("{said}"))
}

// ---- schemas

#[test]
fn each_answer_fits_its_schema() {
    let (mut daemon, _) = busy();
    for topic in Topic::value_variants() {
        let schema = Schema::read(&format!("show-{}", topic.name()));
        let said = answer(&mut daemon, &format!("show {} json", topic.name()));
        let value: Value = serde_json::from_str(&said).expect("it is JSON");
        assert!(value[topic.name()].as_array().map_or(false, |rows| !rows.is_empty()), "{said}");
        assert!(schema.fits(&value), "{said}");
        // A row that lacks a value, or has another one, doesn't fit.
        let mut wrong = value.clone();
        wrong[topic.name()][0]["more"] = Value::Null;
        assert!(!schema.fits(&wrong), "{said}");
    }
}

// ---- tables

#[test]
fn joins_of_each_kind_are_shown() {
    let (mut daemon, _) = busy();
    let rows = shown(&mut daemon, "joins");
    let told = |row: &Value| {
        let text = |name: &str| row[name].as_str().expect("a text").to_string();
        (text("source"), text("type"), text("state"))
    };
    let mut found: Vec<_> = rows.iter().map(told).collect();
    found.sort_unstable();
    let wanted = [("*", "*,G", "joined"), ("10.5.0.50", "S,G", "joined"), ("10.5.0.51", "S,G,rpt", "pruned")];
    assert_eq!(found, wanted.map(|(source, kind, state)| (source.to_string(), kind.to_string(), state.to_string())));
}

#[test]
fn a_tree_is_joined_at_the_next_hop_or_at_the_winner_of_an_assert() {
    let (mut daemon, fake) = begun(TWO, &both());
    let group = Ipv4Addr::new(239, 2, 1, 1);
    happens(&mut daemon, &fake, hello_of([10, 1, 0, 3]));
    happens(&mut daemon, &fake, report(ETH1, [10, 5, 0, 77], group));
    let told = |daemon: &mut Daemon| {
        let row = shown(daemon, "upstream").remove(0);
        assert_eq!((&row["source"], &row["rpf_interface"]), (&"*".into(), &"eth0".into()));
        (row["rpf_neighbor"].clone(), row["by_assert"].clone())
    };
    assert_eq!(told(&mut daemon), ("10.1.0.2".into(), false.into()));
    happens(&mut daemon, &fake, assert_of([10, 1, 0, 3], group));
    assert_eq!(told(&mut daemon), ("10.1.0.3".into(), true.into()));
    let lost = shown(&mut daemon, "asserts").remove(0);
    assert_eq!((&lost["state"], &lost["winner"]), (&"loser".into(), &"10.1.0.3".into()));
    // The neighbour hears it: RPF' is where the Join goes (RFC 7761, 4.5.6).
    passes(&mut daemon, &fake, 5_000);
    let to_winner = |bytes: &Vec<u8>| bytes[9] == PIM && bytes[20] == 0x23 && bytes[26..30] == [10, 1, 0, 3];
    assert!(fake.sent.borrow().iter().any(|(_, bytes)| to_winner(bytes)));
}

/// Of a neighbour on the second interface.
fn on_eth1(from: [u8; 4], content: &[u8]) -> (Source, kernel::Event) {
    frame(ETH1, packet(PIM, from.into(), [224, 0, 0, 13].into(), &summed(content)))
}

#[test]
fn a_lost_assert_takes_its_interface_off_the_shared_tree() {
    let (mut daemon, fake) = begun(TWO, &both());
    let group = [239, 2, 1, 1];
    let hello = [0x20, 0, 0, 0, 0, 1, 0, 2, 0, 105, 0, 19, 0, 4, 0, 0, 0, 0];
    let to_router = [0x23, 0, 0, 0, 1, 0, 10, 5, 0, 1, 0, 1, 0, 210, 1, 0, 0, 32];
    let join = [&to_router[..], &group, &[0, 1, 0, 0, 1, 0, SHARED, 32, 10, 9, 0, 1]].concat();
    let best = [0x80, 0, 0, 0, 0, 0, 0, 0];
    let assert = [&[0x25, 0, 0, 0, 1, 0, 0, 32][..], &group, &[1, 0, 0, 0, 0, 0], &best].concat();
    let told = |daemon: &mut Daemon| {
        let row = shown(daemon, "mroute").remove(0);
        assert_eq!(row["asked_by"], json!(["routers"]));
        row["outgoing"].clone()
    };
    for event in [on_eth1([10, 5, 0, 2], &hello), on_eth1([10, 5, 0, 3], &hello), on_eth1([10, 5, 0, 2], &join)] {
        happens(&mut daemon, &fake, event);
    }
    assert_eq!(told(&mut daemon), json!(["eth1"]));
    happens(&mut daemon, &fake, on_eth1([10, 5, 0, 3], &assert));
    assert_eq!(told(&mut daemon), json!([]));
    let why = shown(&mut daemon, "why 239.2.1.1").remove(0);
    assert_eq!((&why["interface"], &why["is_outgoing"]), (&json!("eth1"), &json!(false)));
    assert_eq!(why["reasons"], json!(["joined (*,G)"]));
    assert_eq!(why["kept_off"], json!(["lost assert (*,G) to 10.5.0.3"]));
}

#[test]
fn each_interface_of_a_tree_has_its_reasons() {
    let (mut daemon, _) = busy();
    let told = |daemon: &mut Daemon, of: &str| {
        let cells = |row: &Value| {
            let names = ["source", "interface", "is_outgoing", "reasons", "kept_off"];
            json!(names.map(|name| row[name].clone()))
        };
        shown(daemon, of).iter().map(cells).collect::<Vec<_>>()
    };
    let (joined, member, from_eth1) = ("joined (*,G)", "local member (*,G)", "packets come from there");
    let shared = [json!(["*", "eth0", true, [joined], []]), json!(["*", "eth1", true, [member], []])];
    let own = [
        json!(["10.5.0.50", "eth0", true, ["joined (S,G)", joined], []]),
        json!(["10.5.0.50", "eth1", false, [member], [from_eth1]]),
    ];
    let pruned = [
        json!(["10.5.0.51", "eth0", false, [joined], ["pruned (S,G,rpt)"]]),
        json!(["10.5.0.51", "eth1", false, [member], [from_eth1]]),
    ];
    assert_eq!(told(&mut daemon, "why 239.1.1.1 10.5.0.50"), own);
    assert_eq!(told(&mut daemon, "why 239.1.1.1 10.5.0.51"), pruned);
    let whole = told(&mut daemon, "why 239.1.1.1");
    assert!([&shared[..], &own, &pruned].concat().iter().all(|row| whole.contains(row)), "{whole:?}");
    assert!(told(&mut daemon, "why").len() > whole.len());
    for line in ["show why 10.1.1.1", "show why here", "show why 239.1.1.1 10.5.0.50 10.5.0.51"] {
        assert!(answer(&mut daemon, line).starts_with("error: "), "{line}");
    }
}

#[test]
fn rows_of_a_group_or_of_a_source_are_shown() {
    let (mut daemon, _) = busy();
    let about = |row: &Value| [row["group"].clone(), row["source"].clone()];
    for topic in ["mroute", "igmp", "joins", "upstream"] {
        let all: Vec<_> = shown(&mut daemon, topic).iter().map(about).collect();
        for [group, source] in &all {
            let of_group: Vec<_> = all.iter().filter(|it| it[0] == *group).cloned().collect();
            let found = |daemon: &mut Daemon, line: String| shown(daemon, &line).iter().map(about).collect::<Vec<_>>();
            let group = group.as_str().expect("an address");
            assert_eq!(found(&mut daemon, format!("{topic} {group}")), of_group, "{topic}");
            if let Some(source) = source.as_str().filter(|source| *source != "*") {
                let of_source: Vec<_> = of_group.into_iter().filter(|it| it[1] == source).collect();
                assert_eq!(found(&mut daemon, format!("{topic} {group} {source}")), of_source, "{topic}");
            }
        }
        assert!(shown(&mut daemon, &format!("{topic} 239.9.9.9")).is_empty());
        assert!(answer(&mut daemon, &format!("show {topic} 10.5.0.50")).starts_with("error: "));
    }
    assert_eq!(shown(&mut daemon, "igmp 239.1.1.1").len(), 1);
    assert_eq!(shown(&mut daemon, "mroute 239.1.1.1").len(), 2);
}

#[test]
fn the_way_to_an_address_is_shown() {
    let (mut daemon, _) = busy();
    let far = shown(&mut daemon, "rpf 10.9.3.3").remove(0);
    assert_eq!(
        (&far["next_hop"], &far["prefix"], &far["metric"]),
        (&"10.1.0.2".into(), &"10.9.0.0/16".into(), &1.into())
    );
    let near = shown(&mut daemon, "rpf 10.5.0.9").remove(0);
    assert_eq!(
        (&near["next_hop"], &near["prefix"], &near["interface"]),
        (&"10.5.0.9".into(), &Value::Null, &"eth1".into())
    );
    let nowhere = shown(&mut daemon, "rpf 192.0.2.1").remove(0);
    assert_eq!(nowhere["interface"], Value::Null);
    let all: Vec<_> = shown(&mut daemon, "rpf").iter().map(|row| row["address"].to_string()).collect();
    assert!(all.contains(&"\"10.9.0.1\"".to_string()) && all.contains(&"\"10.9.0.50\"".to_string()), "{all:?}");
    assert!(answer(&mut daemon, "show rpf here").starts_with("error: "));
    assert!(answer(&mut daemon, "show rp 10.1.0.1").starts_with("error: "));
}

// ---- metrics

/// Each sample with its value, where each stands below its family's type, and counters are named as such.
pub(super) fn samples(text: &str) -> BTreeMap<String, f64> {
    let (mut family, mut found) = (String::new(), BTreeMap::new());
    for line in text.lines() {
        if let Some(rest) = line.strip_prefix("# TYPE ") {
            let (name, kind) = rest.split_once(' ').expect("a type");
            assert_eq!(kind == "counter", name.ends_with("_total"), "{line}");
            family = name.to_string();
        } else if !line.starts_with("# HELP ") {
            let (name, value) = line.rsplit_once(' ').expect("a value");
            assert!(name.starts_with(&family), "{line} stands below {family}");
            assert!(found.insert(name.to_string(), value.parse().expect(line)).is_none(), "{line} stands twice");
        }
    }
    found
}

#[test]
fn metrics_tell_what_happened() {
    let (mut daemon, _) = busy();
    let found = samples(&text(&mut daemon).expect("it tells"));
    let of = |name: &str| *found.get(&format!("viqeshor_{name}")).unwrap_or_else(|| panic!("{name} of {found:?}"));
    assert_eq!(of("pim_neighbors{interface=\"eth0\"}"), 2.0);
    let received = |kind: &str, of: &str| {
        format!("{of}_messages_total{{interface=\"eth0\",type=\"{kind}\",direction=\"received\"}}")
    };
    assert_eq!(of(&received("hello", "pim")), 2.0);
    assert_eq!((of(&received("assert", "pim")), of(&received("join_prune", "pim"))), (1.0, 1.0));
    assert_eq!(of("igmp_messages_total{interface=\"eth1\",type=\"report\",direction=\"received\"}"), 2.0);
    assert!(of("igmp_messages_total{interface=\"eth1\",type=\"query\",direction=\"sent\"}") >= 1.0);
    assert_eq!(of("pim_messages_total{interface=\"\",type=\"register\",direction=\"received\"}"), 1.0);
    assert_eq!(
        of("pim_messages_total{interface=\"\",type=\"register_stop\",direction=\"sent\"}"),
        of("unicasts_sent_total")
    );
    assert_eq!(of("forwarded_packets_total{interface=\"eth1\",direction=\"received\"}"), 11.0);
    assert_eq!(
        (of("igmp_groups{interface=\"eth1\"}"), of("pim_asserts{interface=\"eth0\",state=\"loser\"}")),
        (2.0, 1.0)
    );
    assert_eq!(of("pim_joins{interface=\"eth0\",type=\"S,G,rpt\"}"), 1.0);
    assert_eq!(of("event_duration_seconds_count"), of("events_total"));
    assert_eq!(of("event_duration_seconds_bucket{le=\"+Inf\"}"), of("events_total"));
    assert_eq!((of("mroute_entries"), of("facts_limit")), (3.0, 65_536.0));
}

/// A file of the repository.
fn file(path: &str) -> String {
    let path = format!("{}/../{path}", env!("CARGO_MANIFEST_DIR"));
    std::fs::read_to_string(&path).expect(&path)
}

#[test]
fn each_metric_is_documented_and_what_is_watched_is_one() {
    let (mut daemon, _) = busy();
    let told = text(&mut daemon).expect("it tells");
    let families: BTreeSet<_> = told
        .lines()
        .filter_map(|line| line.strip_prefix("# TYPE viqeshor_"))
        .map(|line| line.split(' ').next().unwrap_or_default())
        .collect();
    let guide = file("docs/LINUX.md");
    for name in &families {
        assert!(guide.contains(&format!("`{name}`")), "docs/LINUX.md doesn't name {name}");
    }
    for path in ["linux/monitoring/alerts.yml", "linux/monitoring/grafana.json"] {
        let watched = file(path);
        let names = watched.split("viqeshor_").skip(1).map(|rest| {
            let name = rest.split(|letter: char| !letter.is_ascii_lowercase() && letter != '_').next().unwrap_or("");
            name.strip_suffix("_bucket").unwrap_or(name)
        });
        let unknown: Vec<_> = names.filter(|name| !families.contains(name)).collect();
        assert!(unknown.is_empty(), "{path} has {unknown:?}");
    }
    let panels: Value = serde_json::from_str(&file("linux/monitoring/grafana.json")).expect("it is JSON");
    assert!(panels["panels"].as_array().map_or(0, Vec::len) >= 8);
}

#[test]
fn http_is_answered() {
    let (mut daemon, _) = begun(TWO, &both());
    let mut told = |line: &str| {
        let mut answer = Vec::new();
        Http(&mut daemon).tell(line, &mut answer).expect("memory takes it");
        String::from_utf8(answer).expect("it is text")
    };
    let whole = told("GET /metrics HTTP/1.1");
    let (head, body) = whole.split_once("\r\n\r\n").expect("a head and a body");
    assert!(head.starts_with("HTTP/1.1 200 OK\r\nContent-Type: text/plain; version=0.0.4"));
    assert!(head.contains(&format!("Content-Length: {}\r\n", body.len())) && body.contains("viqeshor_events_total"));
    assert!(told("HEAD /metrics HTTP/1.1").ends_with("\r\n\r\n"));
    assert!(
        told("GET / HTTP/1.1").starts_with("HTTP/1.1 404 ")
            && told("POST /metrics HTTP/1.1").starts_with("HTTP/1.1 405 ")
    );
    assert!(told("").starts_with("HTTP/1.1 405 "));
    assert_eq!(Http(&mut daemon).act("GET /metrics HTTP/1.1", None), None);
}

// ---- clear

fn cleared(daemon: &mut Daemon, line: &str, user: Option<u32>) -> String {
    Lines(daemon).act(line, user).expect("it is to be done")
}

#[test]
fn clear_is_for_root_and_the_router_itself() {
    let (mut daemon, _) = busy();
    assert!(daemon.counters.events > 0);
    let others = [None, Some(nix::unistd::geteuid().as_raw() + 4_711)];
    for user in others {
        assert!(cleared(&mut daemon, "clear counters", user).starts_with("error: "));
        assert!(daemon.counters.events > 0);
    }
    assert_eq!(cleared(&mut daemon, "clear counters", Some(0)), "");
    assert_eq!((daemon.counters.events, daemon.ports[0].passed.heard), (0, 0));
    assert_eq!(cleared(&mut daemon, "clear all", Some(0)), "error: clear takes counters, mroute, or interface NAME\n");
    assert_eq!(Lines(&mut daemon).act("show rp", Some(0)), None);
}

#[test]
fn clear_mroute_makes_the_entries_anew() {
    let (mut daemon, fake) = busy();
    let (known, unknown) = (key(FAR, [239, 2, 1, 1]), key(FAR, [239, 7, 7, 7]));
    let before = (fake.entry(known), daemon.core.rows(Table::Active).expect("it tells"));
    assert!(before.0.is_some() && fake.entry(unknown).is_some());
    // As where somebody else took it out.
    fake.entries.borrow_mut().remove(&known);
    assert_eq!(cleared(&mut daemon, "clear mroute", Some(0)), "");
    assert_eq!((fake.entry(known), daemon.core.rows(Table::Active).expect("it tells")), before);
    assert_eq!(fake.entry(unknown), None);
}

#[test]
fn clear_interface_begins_it_anew() {
    let (mut daemon, fake) = busy();
    let generation = |fake: &Fake| {
        let is_hello =
            |(on, bytes): &&(u32, Vec<u8>)| *on == ETH0 && Packet::read(bytes).map_or(false, |it| is_pim(it, 0));
        let sent = fake.sent.borrow();
        let last = sent.iter().rfind(is_hello).expect("one left").1.clone();
        let at = last.windows(4).position(|four| four == [0, 20, 0, 4]).expect("it has one") + 4;
        last[at..at + 4].to_vec()
    };
    let before = generation(&fake);
    assert_eq!(cleared(&mut daemon, "clear interface eth0", Some(0)), "");
    passes(&mut daemon, &fake, 6_000);
    assert!(generation(&fake) != before && daemon.neighbours.known.is_empty());
    assert!(daemon.ports.iter().all(|port| port.standing.is_up()));
    assert_eq!(cleared(&mut daemon, "clear interface eth9", Some(0)), "error: no interface eth9 is up\n");
}
