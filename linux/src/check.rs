//! What `--check` says of settings in which nothing is wrong: what an operator may want to know, and what the machine
//! lacks now, for which the router waits.
use crate::netlink::{Link, Netlink};
use crate::settings::{InterfaceSettings, Settings, Subnet};
use crate::tables::Domain;
use nix::unistd::Group;
use std::io;
use std::net::{Ipv4Addr, SocketAddr, TcpListener};

/// Links, and addresses by the numbers of links.
type Has = (Vec<Link>, Vec<(u32, Subnet)>);

/// All that is to be said.
pub fn notes(settings: &Settings) -> Vec<String> {
    let mut notes = of_quotas(settings);
    notes.extend(of_the_file(settings));
    let read = Netlink::open().and_then(|mut netlink| Ok((netlink.links()?, netlink.addresses()?)));
    notes.extend(match read {
        Ok(has) => of_the_machine(settings, &has),
        Err(error) => vec![format!("this machine's interfaces can't be read: {error}")],
    });
    notes.extend(settings.metrics.and_then(without_address));
    notes.extend(settings.control.group.as_deref().and_then(without_group));
    notes
}

fn of_quotas(settings: &Settings) -> Vec<String> {
    let (hosts, reserve) = settings.shares();
    let limit = u64::from(settings.limit);
    let mut notes =
        vec![format!("of the limit of {limit} facts {reserve} are kept for neighbours; hosts may take {hosts}")];
    if hosts + reserve > limit {
        notes.push(
            "max_groups and max_streams of all interfaces together are more than what is left of the limit: \
             neighbours find room all the same, but hosts of some interfaces may leave those of others without"
                .to_string(),
        );
    }
    notes
}

/// Whether any host of an interface's link may speak PIM with the router.
pub fn is_open(interface: &InterfaceSettings) -> bool {
    let policy = &interface.policy;
    !interface.may_be_apart() && !policy.is_passive && policy.neighbours.is_none()
}

fn of_the_file(settings: &Settings) -> Vec<String> {
    let mut notes = Vec::new();
    if settings.rps.is_empty() && settings.bsr.is_none() {
        notes.push("there is no [[rp]]: only groups of 232.0.0.0/8, whose sources hosts name, get a tree".to_string());
    }
    let is_rp = |address: Ipv4Addr| settings.rps.iter().any(|rp| rp.address == address);
    for set in settings.rp_sets.iter().filter(|set| !is_rp(set.shared)) {
        notes.push(format!(
            "no [[rp]] has the address {}, which this router shares: it is the RP of no group",
            set.shared
        ));
    }
    let room = settings.bsr.as_ref().map_or(0, |bsr| bsr.limit);
    if let Some(bsr) = settings.candidacy.bsr.filter(|bsr| bsr.limit > room) {
        notes.push(format!(
            "the candidate BSR holds up to {} RPs of ranges, and the router itself learns {room} at most: `limit` of [bsr]",
            bsr.limit
        ));
    }
    if settings.stays_on_shared_tree && !settings.rp_sets.is_empty() {
        notes.push(
            "with spt \"never\" this router joins no source of which another RP of [[anycast]] tells it".to_string(),
        );
    }
    if settings.stays_on_shared_tree && !settings.msdp.is_empty() {
        notes.push("with spt \"never\" this router joins no source of which a peer of [[msdp]] tells it".to_string());
    }
    let open: Vec<_> = settings.interfaces.iter().filter(|it| is_open(it)).map(|it| it.name.as_str()).collect();
    if !open.is_empty() {
        notes.push(format!(
            "neither `passive` nor `neighbors` on {}: a host there that sends PIM may stop the streams of its link",
            open.join(", ")
        ));
    }
    notes
}

fn of_the_machine(settings: &Settings, (links, addresses): &Has) -> Vec<String> {
    let link = |name: &str| links.iter().find(|link| link.name == name);
    let mut notes = Vec::new();
    let absent: Vec<_> =
        settings.interfaces.iter().map(|it| it.name.as_str()).filter(|name| link(name).is_none()).collect();
    if !absent.is_empty() {
        notes.push(format!("this machine has no interface {} now", absent.join(", ")));
    }
    match &settings.domain {
        Domain::Vrf(name) if link(name).and_then(|link| link.vrf_table).is_none() => {
            notes.push(format!("this machine has no VRF {name} now: the router waits for it"));
        }
        _ => {}
    }
    let is_given = |address: Ipv4Addr| {
        let given = settings.interfaces.iter().filter_map(|it| it.address).any(|subnet| subnet.address == address);
        given || addresses.iter().any(|(_, subnet)| subnet.address == address)
    };
    for (role, address) in settings.candidacy.roles().filter(|(_, address)| !is_given(*address)) {
        notes.push(format!("no interface has {address} now: the router is no {role} until one of its interfaces has"));
    }
    for interface in settings.interfaces.iter().filter(|it| it.address.is_none()) {
        let index = link(&interface.name).map(|link| link.index);
        let there: Vec<_> = addresses.iter().filter(|(at, _)| Some(*at) == index).map(|(_, subnet)| *subnet).collect();
        notes.extend(interface.strangers(&there).map(|stranger| {
            format!("{}: the neighbor {stranger} isn't in its subnet, and `unnumbered` isn't set", interface.name)
        }));
    }
    notes
}

/// A socket can't be bound to an address that the machine doesn't have.
fn without_address(at: SocketAddr) -> Option<String> {
    let any_port = SocketAddr::new(at.ip(), 0);
    let error = TcpListener::bind(any_port).err().filter(|error| error.kind() == io::ErrorKind::AddrNotAvailable)?;
    Some(format!("metrics can't be answered at {at} now: {error}; the router tries again until it has the address"))
}

fn without_group(name: &str) -> Option<String> {
    let is_there = matches!(Group::from_name(name), Ok(Some(_)));
    (!is_there).then(|| {
        format!("this machine has no group {name} now: until it has, the control socket is the router's alone")
    })
}

#[cfg(test)]
mod tests {
    use super::*;
    use crate::settings::read;

    const TWO: &str = "[[interface]]\nname = \"eth0\"\n[[interface]]\nname = \"eth1\"\npassive = true\n";

    fn noted(text: &str, words: &str) -> usize {
        let settings = read(text).expect("nothing is wrong");
        notes(&settings).iter().filter(|note| note.contains(words)).count()
    }

    #[test]
    fn what_an_operator_may_miss_is_noted() {
        let rp = "[[rp]]\ngroups = \"239.0.0.0/8\"\naddress = \"10.0.0.1\"\n";
        assert_eq!((noted(TWO, "no [[rp]]"), noted(&format!("{TWO}{rp}"), "no [[rp]]")), (1, 0));
        assert_eq!(noted(TWO, "neither `passive` nor `neighbors` on eth0:"), 1);
        let listed = TWO.replace("\"eth0\"\n", "\"eth0\"\nneighbors = [\"10.0.0.2\"]\n");
        assert_eq!(noted(&listed, "neither `passive`"), 0);
        let with_peer = format!("{TWO}[[msdp]]\npeer = \"10.0.0.2\"\naddress = \"10.0.0.1\"\n");
        let never = format!("spt = \"never\"\n{with_peer}");
        assert_eq!((noted(&with_peer, "[[msdp]]"), noted(&never, "[[msdp]]")), (0, 1));
    }

    #[test]
    fn the_hardened_configuration_of_the_guide_leaves_nothing_open() {
        let path = concat!(env!("CARGO_MANIFEST_DIR"), "/../docs/LINUX.md");
        let guide = std::fs::read_to_string(path).expect(path);
        let part = guide.split("### A hardened configuration").nth(1).expect("it is there");
        let code = part.lines().skip_while(|line| !line.starts_with("    "));
        let code = code.take_while(|line| line.is_empty() || line.starts_with("    "));
        let text: String = code.map(|line| format!("{}\n", line.trim())).collect();
        let settings = read(&text).expect("nothing is wrong");
        assert_eq!((settings.interfaces.len(), settings.rps.len()), (2, 1));
        assert!(!settings.interfaces.iter().any(is_open) && settings.policy.register.0.is_some());
        assert!(of_the_file(&settings).is_empty());
    }

    #[test]
    fn what_the_machine_lacks_is_noted() {
        let group = |name: &str| format!("socket_group = \"{name}\"\n{TWO}");
        let own = Group::from_gid(nix::unistd::getgid()).expect("it is read").expect("it is there").name;
        assert_eq!((noted(&group("viqeshor-none"), "no group"), noted(&group(&own), "no group")), (1, 0));
        let metrics = |at: &str| format!("[metrics]\nlisten = \"{at}\"\n{TWO}");
        assert_eq!(
            (noted(&metrics("192.0.2.77:9791"), "metrics"), noted(&metrics("127.0.0.1:9791"), "metrics")),
            (1, 0)
        );
        assert_eq!(noted(&format!("vrf = \"vq-none\"\n{TWO}"), "no VRF vq-none"), 1);
        let absent = read(&TWO.replace("eth", "vq-none")).expect("nothing is wrong");
        assert_eq!(
            of_the_machine(&absent, &(Vec::new(), Vec::new())),
            ["this machine has no interface vq-none0, vq-none1 now"]
        );
    }

    #[test]
    fn what_a_candidate_lacks_is_noted() {
        let text = "[bsr]\nlisten = true\nlimit = 9\ncandidate = { address = \"192.0.2.77\" }\n";
        let of = |text: &str| noted(&format!("{TWO}{text}"), "candidate BSR");
        assert_eq!((of(text), of(&text.replace("77\"", "77\", limit = 9"))), (2, 1));
    }

    #[test]
    fn neighbours_elsewhere_are_noted_where_the_machine_has_the_address() {
        let eth0 = Link {
            index: 7,
            name: "eth0".to_string(),
            mtu: 1500,
            is_running: true,
            is_loopback: false,
            is_dummy: false,
            vrf_table: None,
        };
        let has = (vec![eth0], vec![(7, Subnet { address: [10, 0, 0, 1].into(), length: 24 })]);
        let of = |lines: &str| {
            let text = format!("[[interface]]\nname = \"eth0\"\nneighbors = [\"10.0.0.2\", \"10.9.0.2\"]\n{lines}");
            of_the_machine(&read(&text).expect("nothing is wrong"), &has)
        };
        assert_eq!(of(""), ["eth0: the neighbor 10.9.0.2/32 isn't in its subnet, and `unnumbered` isn't set"]);
        assert!(of("unnumbered = true\n").is_empty());
    }
}
