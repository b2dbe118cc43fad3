//! The settings, written as TOML.
use super::configuration::{Configuration, HelloTimes, Interface, Said};
use super::lists::{groups_within, Entry};
use super::{candidates, Left};
use crate::settings::Subnet;
use std::fmt::Write;

/// The distances that FRR has where its configuration says nothing of them: they are compared in asserts.
const DISTANCES: [(&str, u32); 8] = [
    ("kernel", 0),
    ("static", 1),
    ("bgp", 20),
    ("eigrp", 90),
    ("babel", 100),
    ("ospf", 110),
    ("isis", 115),
    ("rip", 120),
];

/// What is of all interfaces here and of each in FRR: the name, what FRR has where nothing is said, and the value.
type OfEach = (&'static str, u32, fn(&Interface) -> &Option<Said<u32>>);
const OF_IGMP: [OfEach; 3] = [
    ("query_interval", 125, |it| &it.query_interval),
    ("query_response", 100, |it| &it.query_response),
    ("last_member_query", 10, |it| &it.last_member_query),
];

/// The settings in TOML, and the lines that aren't in them, or not as they stand.
pub fn written(mut found: Configuration) -> (String, Vec<Left>) {
    let interfaces = std::mem::take(&mut found.interfaces);
    let joins = interfaces.iter().flat_map(|it| &it.joins);
    joins.for_each(|join| {
        found.leave(&join.place, "the router joins nothing itself; a program on it that joins receives")
    });
    let (taken, others): (Vec<_>, Vec<_>) = interfaces.into_iter().partition(|it| it.has_pim || it.has_igmp);
    others.iter().for_each(|it| without_pim(&mut found, it));
    let mut text =
        String::from("# Made from FRR's configuration by viqeshord import, which reported what it left out.\n");
    found.vrf.iter().for_each(|vrf| text.push_str(&format!("vrf = \"{vrf}\"\n")));
    if found.spt_never.is_some() {
        text.push_str("spt = \"never\"\n");
    }
    igmp(&mut found, &taken, &mut text);
    register(&mut found, &mut text);
    let (candidate_bsr, candidate_rp) = candidates::written(&mut found, &taken);
    let stands = candidate_bsr.is_some() || candidate_rp.is_some();
    if stands || taken.iter().any(Interface::hears_bootstraps) {
        text.push_str("\n# As FRR does on each interface without `no ip pim bsm`.\n[bsr]\nlisten = true\n");
    }
    [candidate_bsr, candidate_rp].iter().flatten().for_each(|lines| text.push_str(lines));
    text.push_str("\n[routes.preferences]\n");
    DISTANCES.iter().for_each(|(name, distance)| text.push_str(&format!("{name} = {distance}\n")));
    taken.iter().for_each(|it| interface(&mut found, it, &mut text));
    for Said { value, .. } in &found.rps {
        let _ = writeln!(text, "\n[[rp]]\ngroups = \"{}\"\naddress = \"{}\"", value.groups, value.address);
    }
    msdp(&mut found, &mut text);
    (text, found.left)
}

/// Lines of an interface that isn't the router's.
fn without_pim(found: &mut Configuration, it: &Interface) {
    let lists = [&it.boundary, &it.neighbours].map(|given| given.as_ref().map(|said| &said.place));
    let numbers = OF_IGMP.map(|(_, _, value)| value(it).as_ref().map(|said| &said.place));
    for place in lists.into_iter().chain(numbers).flatten() {
        found.leave(place, &format!("{} has neither `ip pim` nor `ip igmp`", it.name));
    }
}

fn igmp(found: &mut Configuration, interfaces: &[Interface], text: &mut String) {
    let mut lines = Vec::new();
    for (name, usual, value) in OF_IGMP {
        let hosts: Vec<_> = interfaces.iter().filter(|it| it.has_igmp).collect();
        let of = |it: &Interface| value(it).as_ref().map_or(usual, |said| said.value);
        let taken = match hosts.iter().find_map(|it| value(it).as_ref()) {
            Some(said) => said.value,
            None => continue,
        };
        let is_of_all = hosts.iter().all(|it| of(it) == taken);
        for said in interfaces.iter().filter_map(|it| value(it).as_ref()).filter(|_| !is_of_all) {
            let what = match said.value == taken {
                true => "this one is taken, though others differ",
                false => "that of another interface is taken",
            };
            found.leave(&said.place, &format!("{name} is one setting for all interfaces: {what}"));
        }
        let tenths = f64::from(taken) / 10.0;
        lines.push(if name == "query_interval" {
            format!("{name} = {taken}")
        } else {
            format!("{name} = {tenths:.1}")
        });
    }
    if !lines.is_empty() {
        let _ = writeln!(text, "\n[igmp]\n{}", lines.join("\n"));
    }
}

fn rule(key: &str, subnet: Option<Subnet>, permits: bool) -> String {
    let fits = subnet.map(|subnet| format!("{key} = \"{subnet}\""));
    let permit = (!permits).then(|| "permit = false".to_string());
    let parts: Vec<_> = fits.into_iter().chain(permit).collect();
    if parts.is_empty() {
        "{}".to_string()
    } else {
        format!("{{ {} }}", parts.join(", "))
    }
}

/// FRR refuses a peer that stands alone and in a mesh group.
fn msdp(found: &mut Configuration, text: &mut String) {
    for Said { value, .. } in &found.msdp_peers {
        let _ = writeln!(text, "\n[[msdp]]\npeer = \"{}\"\naddress = \"{}\"", value.peer, value.source);
    }
    for group in std::mem::take(&mut found.mesh_groups) {
        for member in &group.members {
            match group.source {
                Some(source) => {
                    let _ = writeln!(text, "\n[[msdp]]\npeer = \"{}\"\naddress = \"{source}\"", member.value);
                    let _ = writeln!(text, "mesh = {:?}", group.name);
                }
                None => found.leave(&member.place, &format!("the mesh group {} has no source", group.name)),
            }
        }
    }
}

fn register(found: &mut Configuration, text: &mut String) {
    let list = found.register.take().and_then(|named| found.rules(&named));
    if let Some(list) = list {
        let sources = |entry: &Entry| rule("sources", (entry.prefix.length > 0).then_some(entry.prefix), entry.permits);
        let _ = writeln!(text, "\n[policy]\nregister = [{}]", list.iter().map(sources).collect::<Vec<_>>().join(", "));
    }
}

fn interface(found: &mut Configuration, it: &Interface, text: &mut String) {
    let _ = writeln!(text, "\n[[interface]]\nname = \"{}\"", it.name);
    if let Some(address) = it.addresses.first() {
        let _ = writeln!(text, "address = \"{}\"", address.value);
    }
    // Where FRR speaks no PIM only hosts are.
    if it.passive.is_some() || !it.has_pim {
        text.push_str("passive = true\n");
    }
    if it.no_bsm.is_some() {
        text.push_str("bsr_border = true\n");
    }
    if let Some(priority) = it.priority {
        let _ = writeln!(text, "priority = {priority}");
    }
    if let Some(times) = &it.hello {
        hello(found, times, text);
    }
    if let Some(times) = &it.bfd {
        text.push_str("bfd = true\n");
        times.value.iter().for_each(|times| {
            text.push_str(&format!("bfd_interval = {}\nbfd_multiplier = {}\n", times.interval, times.multiplier))
        });
    }
    if it.version_2.is_some() {
        text.push_str("version = 2\n");
    }
    if let Some(named) = &it.boundary {
        boundary(found, named, text);
    }
    if let Some(named) = &it.neighbours {
        neighbours(found, named, text);
    }
    if !it.has_igmp && it.name != crate::settings::LOOPBACK {
        text.push_str("# FRR has no `ip igmp` here. This router hears hosts on each of its interfaces.\n");
    }
}

/// The times of a Hello, where our router has such.
fn hello(found: &mut Configuration, times: &Said<HelloTimes>, text: &mut String) {
    const MOST: u32 = 30;
    let HelloTimes { interval, holdtime } = times.value;
    if !(1..=MOST).contains(&interval) || holdtime.map_or(false, |holdtime| holdtime <= interval) {
        return found.leave(&times.place, "the interval has to be at most 30 s, and the holdtime longer");
    }
    let _ = writeln!(text, "hello_interval = {interval}.0");
    holdtime.iter().for_each(|holdtime| text.push_str(&format!("hello_holdtime = {holdtime}\n")));
}

fn boundary(found: &mut Configuration, named: &Said<String>, text: &mut String) {
    let list = match found.rules(named) {
        Some(list) => list,
        None => return,
    };
    let mut rules = Vec::new();
    for entry in list {
        match groups_within(entry.prefix) {
            Some(groups) => rules.push(rule("groups", (groups.length > 4).then_some(groups), entry.permits)),
            None => found.leave(&entry.place, "no group is within its prefix"),
        }
    }
    let _ = writeln!(text, "join = [{}]", rules.join(", "));
}

fn neighbours(found: &mut Configuration, named: &Said<String>, text: &mut String) {
    let list = match found.rules(named) {
        Some(list) => list,
        None => return,
    };
    let (permitted, denied): (Vec<_>, Vec<_>) = list.into_iter().partition(|entry| entry.permits);
    for entry in denied {
        found.leave(&entry.place, "`neighbors` can only permit: what it doesn't name is refused");
    }
    let names: Vec<_> = permitted.iter().map(|entry| format!("\"{}\"", entry.prefix)).collect();
    let _ = writeln!(text, "neighbors = [{}]", names.join(", "));
}
