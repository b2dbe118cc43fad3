//! Configurations as FRR writes them, and the settings that are made of them.
use super::*;
use crate::bfd::Times;
use crate::schemas::Schema;
use crate::settings::{self, Settings};
use crate::tables::Domain;
use serde_json::{json, Value};
use viqeshor::QueryVersion;

/// As FRR 8.4.4 prints it for `show running-config`.
const FRR_8: &str = "Building configuration...

Current configuration:
!
frr version 8.4.4
frr defaults traditional
hostname vm
no ip forwarding
no ipv6 forwarding
ip pim rp 10.255.0.1 239.1.0.0/16
ip pim rp 10.255.0.2 prefix-list rps
ip pim join-prune-interval 30
ip pim ssm prefix-list ssm
ip pim register-accept-list dr
ip pim spt-switchover infinity-and-beyond
service integrated-vtysh-config
!
interface eth0
 ip address 10.1.0.1/24
 ip igmp
 ip igmp last-member-query-count 3
 ip igmp query-max-response-time 20
 ip igmp version 2
 ip igmp join 239.1.1.1
 ip pim
 ip pim bfd
 ip pim drpriority 100
 ip pim hello 5 18
 ip igmp query-interval 20
 ip multicast boundary oil local
exit
!
interface eth1
 ip igmp
 ip igmp query-interval 30
 ip igmp query-max-response-time 20
 ip pim
 ip pim passive
exit
!
interface eth2
 ip ospf cost 10
exit
!
interface lo
 ip pim
exit
!
router ospf
 network 10.0.0.0/8 area 0
exit
!
ip prefix-list local seq 5 deny 239.255.0.0/16 le 32
ip prefix-list local seq 10 permit any
ip prefix-list ssm seq 5 permit 232.0.0.0/8 le 32
ip prefix-list rps seq 5 permit 239.2.0.0/16
ip prefix-list rps seq 10 permit 239.3.0.0/16 le 32
ip prefix-list dr seq 5 permit 10.1.0.0/16 le 32
!
end
";

/// As FRR 10 prints it, in two VRFs.
const FRR_10: &str = "frr version 10.1
frr defaults traditional
!
vrf red
exit-vrf
!
interface eth0
 ip pim
 ip pim allowed-neighbors prefix-list routers
exit
!
interface eth1 vrf red
 ip igmp
 ip igmp static-group 239.9.9.9
exit
!
interface eth2 vrf red
 ip pim
 ip pim hello 60
exit
!
router pim
 rp 10.255.0.1 224.0.0.0/4
 rp keep-alive-timer 300
 ecmp
 keep-alive-timer 210
 msdp peer 10.9.9.9 source 10.1.1.1
exit
!
router pim vrf red
 rp 10.254.0.1
 ssm prefix-list all
exit
!
ip prefix-list routers seq 5 permit 10.1.0.2/32
ip prefix-list routers seq 10 deny 10.1.0.0/24 le 32
ip prefix-list all seq 5 permit 224.0.0.0/4 le 32
ipv6 pim rp 2001:db8::1
";

/// What says how routes are found, and lines of which settings have nothing.
const ROUTES: &str = "frr version 8.4.4
frr defaults datacenter
hostname r1
ip prefix-list unnamed seq 5 permit 10.0.0.0/8
ip route 10.9.0.0/24 10.0.1.2
ip route 10.8.0.0/24 10.0.1.2 30
ip route 10.7.0.0/24 Null0
access-list 1 seq 5 permit any
router ospf
 network 10.0.0.0/8 area 0
exit
router bgp 65000 vrf red
exit
router ospf6
exit
route-map all permit 10
 match ip address 1
exit
interface eth0 vrf default
 description to r2
 ip address 10.0.1.1/24
 ip address 10.0.2.1/24 label eth0:1
 ip address dhcp
 ip ospf cost 5
 ip pim
 ip pim hello 60
 ip igmp join 239.1.1.1
 ip igmp join-group 232.1.1.1 10.9.0.9
 shutdown
exit
vrf red
 ip route 10.6.0.0/24 10.0.1.3
 vni 100
exit-vrf
";

fn told(configuration: &str, vrf: Option<&str>) -> Value {
    serde_json::to_value(read(configuration, vrf)).expect("it is JSON")
}

fn lines_of(left: &Value) -> Vec<u64> {
    left.as_array().expect("a list").iter().filter_map(|left| left["line"].as_u64()).collect()
}

fn taken(configuration: &str, vrf: Option<&str>) -> (Settings, Vec<String>) {
    let imported = of(configuration, vrf);
    let settings =
        settings::read(&imported.settings).unwrap_or_else(|problems| panic!("{problems:?}\n{}", imported.settings));
    (settings, imported.left.iter().map(|left| left.text.clone()).collect())
}

#[test]
fn a_configuration_of_frr_8_is_taken() {
    let (it, left) = taken(FRR_8, None);
    let [eth0, eth1, lo] = [0, 1, 2].map(|at| &it.interfaces[at]);
    assert_eq!((it.interfaces.len(), &eth0.name[..], &eth1.name[..], &lo.name[..]), (3, "eth0", "eth1", "lo"));
    assert_eq!(eth0.address.map(|it| it.to_string()).as_deref(), Some("10.1.0.1/24"));
    assert_eq!((eth0.priority, eth0.hello.interval, eth0.hello.holdtime), (100, 50, 18));
    assert_eq!((eth0.speech.queries, eth1.speech.queries), (QueryVersion::Two, QueryVersion::Three));
    assert_eq!((eth0.bfd, eth1.bfd), (Some(Times { interval: 300, multiplier: 3 }), None));
    assert!(!eth0.policy.is_passive && eth1.policy.is_passive && !lo.policy.is_passive);
    let joins = |group: [u8; 4]| eth0.policy.join.permits(None, group.into());
    assert!(
        joins([239, 1, 1, 1]) && !joins([239, 255, 1, 1]) && eth1.policy.join.permits(None, [239, 255, 1, 1].into())
    );
    let registers = |source: [u8; 4]| it.policy.register.permits(Some(source.into()), [239, 1, 1, 1].into());
    assert!(registers([10, 1, 7, 7]) && !registers([10, 2, 7, 7]));
    assert!(it.stays_on_shared_tree);
    assert_eq!((it.query_interval, it.query_response, it.last_member_query), (20, 20, 10));
    let rps: Vec<_> = it.rps.iter().map(|rp| format!("{} {}", rp.address, rp.groups)).collect();
    assert_eq!(rps, ["10.255.0.1 239.1.0.0/16", "10.255.0.2 239.2.0.0/16", "10.255.0.2 239.3.0.0/16"]);
    assert_eq!((it.routes.preference_of(188), it.routes.preference_of(196), it.domain), (110, 1, Domain::Usual));
    let wanted = [
        "ip pim join-prune-interval 30",
        "ip igmp last-member-query-count 3",
        "ip igmp join 239.1.1.1",
        "ip igmp query-interval 20",
        "ip igmp query-interval 30",
    ];
    assert_eq!(left, wanted);
}

#[test]
fn peers_of_msdp_are_taken() {
    let text =
        "interface eth0\n ip pim\n!\nip msdp peer 10.0.0.2 source 10.0.0.1\nip msdp mesh-group a source 10.0.0.1\n\
        ip msdp mesh-group a member 10.0.0.3\nip msdp mesh-group b member 10.0.0.4\nip msdp timers 60 75 30\n";
    let (it, left) = taken(text, None);
    let peers: Vec<_> = it.msdp.iter().map(|it| (it.peer.to_string(), it.mesh.clone())).collect();
    assert_eq!(peers, [("10.0.0.2".to_string(), None), ("10.0.0.3".to_string(), Some("a".to_string()))]);
    assert!(it.msdp.iter().all(|it| it.address == std::net::Ipv4Addr::new(10, 0, 0, 1)));
    assert_eq!(left, ["ip msdp mesh-group b member 10.0.0.4", "ip msdp timers 60 75 30"]);
    let (it, _) = taken(FRR_10, None);
    assert_eq!(it.msdp.len(), 1);
}

#[test]
fn a_configuration_of_frr_10_is_taken_by_its_vrf() {
    let (it, left) = taken(FRR_10, None);
    assert_eq!((it.interfaces.len(), &it.interfaces[0].name[..], it.domain), (1, "eth0", Domain::Usual));
    let believed: Vec<_> = it.interfaces[0].policy.neighbours.iter().flatten().map(|it| it.to_string()).collect();
    assert_eq!((believed, it.rps.len()), (vec!["10.1.0.2/32".to_string()], 1));
    let of_default = [
        "ip igmp",
        "ip igmp static-group 239.9.9.9",
        "ip pim",
        "ip pim hello 60",
        "rp keep-alive-timer 300",
        "ecmp",
        "rp 10.254.0.1",
        "ssm prefix-list all",
        "ip prefix-list routers seq 10 deny 10.1.0.0/24 le 32",
        "ipv6 pim rp 2001:db8::1",
    ];
    assert_eq!(left, of_default);
    let (it, left) = taken(FRR_10, Some("red"));
    let names: Vec<_> = it.interfaces.iter().map(|it| (&it.name[..], it.policy.is_passive)).collect();
    assert_eq!(names, [("eth1", true), ("eth2", false)]);
    assert_eq!((it.domain, it.rps[0].groups.to_string()), (Domain::Vrf("red".to_string()), "224.0.0.0/4".to_string()));
    for line in
        ["ip igmp static-group 239.9.9.9", "ip pim hello 60", "ssm prefix-list all", "rp 10.255.0.1 224.0.0.0/4"]
    {
        assert!(left.iter().any(|text| text == line), "{line} isn't among {left:?}");
    }
}

#[test]
fn a_line_that_is_left_has_its_number_and_a_reason() {
    let text = "interface eth0\n ip pim\n ip pim hello 60 200\nno ip pim passive\nno ip pim unicast-bsm\nno ip igmp\n";
    let left = of(text, None).left;
    let said: Vec<_> = left.iter().map(Left::to_string).collect();
    assert_eq!(
        said,
        [
            "line 3: \"ip pim hello 60 200\": the interval has to be at most 30 s, and the holdtime longer",
            "line 6: \"no ip igmp\": a line that begins with `no` isn't read",
        ]
    );
}

#[test]
fn bootstraps_are_heard_as_by_frr() {
    let pim = |name: &str, more: &str| format!("interface {name}\n ip pim\n{more}");
    let heard = |text: &str| taken(text, None).0.bsr.is_some();
    let no_bsm = " no ip pim bsm\n";
    assert!(heard(&pim("eth0", "")) && heard(FRR_8));
    assert!(!heard(&pim("eth0", no_bsm)) && !heard(&pim("eth0", " ip pim passive\n")));
    assert!(!heard("interface eth0\n ip igmp\n"));
    let text = pim("eth0", no_bsm) + &pim("eth1", " ip pim bsm\n ip pim unicast-bsm\n") + &pim("eth2", no_bsm);
    let (it, left) = taken(&(text + "interface eth2\n ip pim bsm\n"), None);
    let borders: Vec<_> = it.interfaces.iter().map(|port| port.is_bsr_border).collect();
    assert_eq!((borders, it.bsr.is_some()), (vec![true, false, false], true));
    assert_eq!(left, ["ip pim unicast-bsm"]);
    let line = json!({"line": 3, "text": "no ip pim bsm"});
    assert_eq!(told(&pim("eth0", no_bsm), None)["interfaces"][0]["no_bsm"], line);
}

/// As FRR 10.3 prints it.
const CANDIDATES: &str = "interface eth0
 ip address 10.1.0.1/24
 ip pim
exit
interface lo
 ip address 10.255.0.3/32
 ip pim
exit
router pim
 bsr candidate-rp interval 30
 bsr candidate-rp group 239.0.0.0/8
 bsr candidate-rp group 232.0.0.0/8
 bsr candidate-rp group 225.0.0.0/8
 bsr candidate-bsr priority 20 source address 10.1.0.1
exit
";

#[test]
fn candidates_are_taken_of_frr_10() {
    let (it, left) = taken(CANDIDATES, None);
    let (bsr, rp) = (it.candidacy.bsr.expect("a BSR"), it.candidacy.rp.expect("an RP"));
    assert_eq!((bsr.address, bsr.priority, bsr.hash_length), ([10, 1, 0, 1].into(), 20, 30));
    let ranges: Vec<_> = rp.ranges.iter().map(|range| (range.address, range.length)).collect();
    assert_eq!((rp.address, rp.priority), ([10, 255, 0, 3].into(), 192));
    assert_eq!(ranges, [([239, 0, 0, 0].into(), 8), ([225, 0, 0, 0].into(), 8)]);
    assert_eq!(left, ["bsr candidate-rp interval 30", "bsr candidate-rp group 232.0.0.0/8"]);
    let told = told(CANDIDATES, None);
    let value = json!({"priority": 20, "interval": null, "source": {"kind": "address", "of": "10.1.0.1"}});
    assert_eq!(told["candidate_bsr"]["value"], value);
    assert_eq!(told["candidate_rp"]["value"]["source"], json!({"kind": "loopback"}));
    assert!(Schema::read("import").fits(&told));
    // Of an interface, and of all; without groups there is no RP, and without an address there is no candidate.
    let of = |source: &str| {
        let text = CANDIDATES.replace("priority 20 source address 10.1.0.1", source);
        taken(&text, None).0.candidacy.bsr.map(|bsr| (bsr.address, bsr.priority))
    };
    assert_eq!(of("source interface eth0"), Some(([10, 1, 0, 1].into(), 64)));
    assert_eq!((of("source any"), of("")), (Some(([10, 255, 0, 3].into(), 64)), Some(([10, 255, 0, 3].into(), 64))));
    assert_eq!((of("source address 10.9.9.9"), of("source interface eth9")), (None, None));
    let (it, left) = taken(&CANDIDATES.replace(" bsr candidate-rp group", "! "), None);
    assert_eq!((it.candidacy.rp, left), (None, vec!["bsr candidate-rp interval 30".to_string()]));
    let (it, left) = taken(&CANDIDATES.replace("interval 30", "period 30"), None);
    assert_eq!((it.candidacy.rp, left.len()), (None, 4));
}

#[test]
fn lists_that_are_missing_or_fit_nothing_are_said() {
    let text = "interface eth0\n ip pim\n ip multicast boundary oil none\ninterface eth1\n ip pim\n ip multicast boundary oil some\n\
        ip pim rp 10.0.0.1 prefix-list none\nip pim ssm prefix-list some\n\
        ip prefix-list some permit 239.1.0.0/16\nip prefix-list some deny 10.0.0.0/8 le 32\nip prefix-list some permit here\n";
    let imported = of(text, None);
    let (settings, lines) = taken(text, None);
    assert!(settings.rps.is_empty() && settings.interfaces[0].policy.join.permits(None, [239, 2, 1, 1].into()));
    let joins = |group: [u8; 4]| settings.interfaces[1].policy.join.permits(None, group.into());
    assert!(joins([239, 1, 1, 1]) && !joins([239, 2, 1, 1]));
    let numbers: Vec<_> = imported.left.iter().map(|left| left.line).collect();
    assert_eq!(numbers, [3, 7, 8, 10, 11], "{lines:?}");
}

#[test]
fn what_was_read_fits_its_schema() {
    let schema = Schema::read("import");
    let texts = [FRR_8, FRR_10, ROUTES, "interface eth0\n ip pim\n ip pim bfd 3 100 200\n"];
    for (text, vrf) in texts.iter().flat_map(|text| [(text, None), (text, Some("red"))]) {
        let mut told = told(text, vrf);
        assert!(schema.fits(&told), "{told:#}");
        told["more"] = Value::Null;
        assert!(!schema.fits(&told));
    }
    for (name, wrong) in [("hello", json!({"line": 1, "text": ""})), ("priority", json!("7")), ("joins", json!([7]))] {
        let mut told = told(FRR_8, None);
        told["interfaces"][0][name] = wrong;
        assert!(!schema.fits(&told), "{name}");
    }
}

#[test]
fn routes_are_read_and_what_finds_them() {
    let told = told(ROUTES, None);
    let route = |line: u64, text: &str, prefix: &str, distance: u64| json!({"line": line, "text": text, "value": {"prefix": prefix, "next_hop": "10.0.1.2", "distance": distance}});
    let routes = [
        route(5, "ip route 10.9.0.0/24 10.0.1.2", "10.9.0.0/24", 1),
        route(6, "ip route 10.8.0.0/24 10.0.1.2 30", "10.8.0.0/24", 30),
    ];
    assert_eq!((&told["static_routes"], &told["uses_default_route"]), (&json!(routes), &json!(true)));
    assert_eq!(told["protocols"], json!([{"line": 9, "text": "router ospf", "value": "ospf"}]));
    let eth0 = &told["interfaces"][0];
    let addresses: Vec<_> = eth0["addresses"].as_array().into_iter().flatten().map(|it| &it["value"]).collect();
    assert_eq!(addresses, ["10.0.1.1/24", "10.0.2.1/24"]);
    assert_eq!(eth0["is_shut_down"], true);
    let hello = json!({"line": 26, "text": "ip pim hello 60", "value": {"interval": 60, "holdtime": null}});
    let joins = [
        json!({"line": 27, "text": "ip igmp join 239.1.1.1", "value": {"group": "239.1.1.1", "source": null}}),
        json!({"line": 28, "text": "ip igmp join-group 232.1.1.1 10.9.0.9",
            "value": {"group": "232.1.1.1", "source": "10.9.0.9"}}),
    ];
    assert_eq!((&eth0["hello"], &eth0["joins"]), (&hello, &json!(joins)));
    assert_eq!((lines_of(&told["left"]), lines_of(&told["others"])), (vec![], vec![4, 7, 8, 14, 16, 23, 24, 32, 33]));
    let numbers: Vec<_> = of(ROUTES, None).left.iter().map(|left| left.line).collect();
    assert_eq!(numbers, [26, 27, 28]);
}

#[test]
fn numbers_that_are_none_and_what_router_pim_takes_back_are_said() {
    let text =
        "interface eth0\n ip igmp\n ip igmp query-interval soon\n ip igmp query-max-response-time 99999999999\n \
        ip igmp last-member-query-interval -1\nrouter pim\n no ecmp\n no msdp peer 10.9.9.9\n no send-v6-secondary\n";
    let (it, left) = taken(text, None);
    assert_eq!((it.query_interval, it.query_response, it.last_member_query), (125, 100, 10));
    let said = "ip igmp query-interval soon, ip igmp query-max-response-time 99999999999, \
        ip igmp last-member-query-interval -1, no ecmp, no msdp peer 10.9.9.9";
    assert_eq!(left.join(", "), said);
}

#[test]
fn a_block_goes_on_behind_blanks_and_comments() {
    let (it, left) = taken("interface eth0\n\n ip pim\n! more\n exit-address-family\n ip pim drpriority 7\n", None);
    assert_eq!((it.interfaces[0].priority, it.interfaces.len(), left.len()), (7, 1, 0));
}

#[test]
fn of_a_vrf_its_own_lines_are_read() {
    let told = told(ROUTES, Some("red"));
    assert_eq!((&told["interfaces"], &told["uses_default_route"]), (&json!([]), &json!(false)));
    assert_eq!(told["protocols"], json!([{"line": 12, "text": "router bgp 65000 vrf red", "value": "bgp"}]));
    let value = json!({"prefix": "10.6.0.0/24", "next_hop": "10.0.1.3", "distance": 1});
    assert_eq!(told["static_routes"], json!([{"line": 32, "text": "ip route 10.6.0.0/24 10.0.1.3", "value": value}]));
    assert_eq!(lines_of(&told["left"]), [25, 26, 27, 28]);
    let left = &of(ROUTES, Some("red")).left[0];
    let said = "line 25: \"ip pim\": it is of the VRF default, not of red: import without --vrf reads it";
    assert_eq!(left.to_string(), said);
}

#[test]
fn ranges_of_a_list_have_the_lines_of_its_rules() {
    let ranges = [
        (10, "ip pim rp 10.255.0.1 239.1.0.0/16", "239.1.0.0/16", "10.255.0.1"),
        (56, "ip prefix-list rps seq 5 permit 239.2.0.0/16", "239.2.0.0/16", "10.255.0.2"),
        (57, "ip prefix-list rps seq 10 permit 239.3.0.0/16 le 32", "239.3.0.0/16", "10.255.0.2"),
    ];
    let wanted = ranges.map(|(line, text, groups, address)| {
        json!({"line": line, "text": text, "value": {"groups": groups, "address": address}})
    });
    assert_eq!(told(FRR_8, None)["rps"], json!(wanted));
    let text = "ip pim rp 10.0.0.1 prefix-list some\nip prefix-list some deny 239.1.0.0/16\n\
        ip prefix-list some permit 10.0.0.0/8\nip prefix-list some permit 232.1.0.0/16\nip pim rp 10.0.0.2 0.0.0.0/0\n";
    let told = told(text, None);
    assert_eq!(told["rps"][0]["value"], json!({"groups": "224.0.0.0/4", "address": "10.0.0.2"}));
    assert_eq!(lines_of(&told["left"]), [2, 3, 4]);
}
