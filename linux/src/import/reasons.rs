//! Lines that aren't read, and why.

/// The beginnings of lines about multicast.
const MULTICAST: [&str; 9] = [
    "ip pim",
    "ip igmp",
    "ip multicast",
    "ip mroute",
    "ip msdp",
    "ipv6 pim",
    "ipv6 mld",
    "ipv6 mroute",
    "ipv6 multicast",
];
/// Lines that say what is so here anyway: of FRR's usual times, of the version, of what isn't done.
const SAME: [&str; 11] = [
    "ip pim join-prune-interval 60",
    "ip pim keep-alive-timer 210",
    "ip pim register-suppress-time 60",
    "ip pim send-v6-secondary",
    "no ip pim unicast-bsm",
    "no ip pim send-v6-secondary",
    "ip igmp version 3",
    "ip igmp last-member-query-count 2",
    "ip multicast-routing",
    "no ip igmp proxy",
    "no ip pim passive",
];
/// The beginnings of lines that say nothing of the network.
const QUIET: [&str; 14] = [
    "frr ",
    "hostname ",
    "service ",
    "log ",
    "password ",
    "description ",
    "ip forwarding",
    "ipv6 forwarding",
    "no ip forwarding",
    "no ipv6 forwarding",
    "no shutdown",
    "line ",
    "Building configuration",
    "Current configuration",
];
/// Why a line that begins so isn't read.
const REASONS: [(&str, &str); 35] = [
    ("no ", "a line that begins with `no` isn't read"),
    ("ipv6 ", "the router is for IPv4 only"),
    ("ip pim bfd", "its times are in a profile of bfdd"),
    ("ip pim ecmp", "of several next hops one is taken"),
    ("ip pim join-prune-interval", "Joins are repeated every 60 s"),
    ("ip pim keep-alive-timer", "the keepalive period is 210 s"),
    ("ip pim rp keep-alive-timer", "the RP's keepalive period is that of RFC 7761"),
    ("ip pim register-suppress-time", "the register suppression time is 60 s"),
    ("ip pim packets", "the router reads packets from all sockets in turn"),
    ("ip pim unicast-bsm", "Bootstraps to an address of a router aren't heard"),
    ("ip pim bsr", "it is no line of a candidate BSR or a candidate RP that is known"),
    ("ip pim use-source", "Hellos leave from the interface's address"),
    ("ip pim spt-switchover", "whether the router leaves the RP's tree is decided for all groups alike"),
    ("ip pim", "it has no counterpart"),
    ("ip igmp static-group", "there are no static joins"),
    ("ip igmp version", "its queries can be of version 2 or 3"),
    ("ip igmp last-member-query-count", "it is the robustness, which all interfaces share"),
    ("ip igmp", "it has no counterpart"),
    ("ip multicast boundary", "only `oil` with a prefix list is taken"),
    ("ip multicast", "it has no counterpart"),
    ("ip mroute", "there are no static trees"),
    ("ip msdp", "only peers with a source, and mesh groups, are taken"),
    ("ip address", "it is no IPv4 address with its length"),
    ("ip route", "its next hop is no address, or it has words that aren't known"),
    ("router", "its protocol finds no routes that are known here"),
    ("ip ospf", ROUTING),
    ("ip rip", ROUTING),
    ("isis", ROUTING),
    ("mpls", ROUTING),
    ("route-map", "no range of groups is made of it"),
    ("access-list", "no range of groups is made of it"),
    ("bandwidth", LINK),
    ("link-detect", LINK),
    ("multicast", LINK),
    ("mtu", LINK),
];
const ROUTING: &str = "it is of a routing protocol";
const LINK: &str = "it is of the link";
/// What an operator may want to know besides.
const ADVICE: [(&str, &str); 7] = [
    ("ip pim ecmp", "that of the highest address"),
    ("ip igmp static-group", "a program on the router that joins has the same effect"),
    ("ip pim bfd", "set `bfd_interval` and `bfd_multiplier` of the interface"),
    ("ip pim use-source", "set `address`"),
    ("ip pim spt-switchover", "set `spt`"),
    ("ip igmp last-member-query-count", "set `robustness` of [igmp]"),
    ("ip multicast boundary", "set `join` of the interface"),
];

/// Whether a line is about multicast, or takes something of it back.
pub fn is_multicast(text: &str) -> bool {
    let what = text.strip_prefix("no ").unwrap_or(text);
    MULTICAST.iter().any(|beginning| what.starts_with(beginning))
}

/// Whether a line says nothing of the network, or what is so anyway.
pub fn says_nothing(text: &str) -> bool {
    SAME.contains(&text) || QUIET.iter().any(|beginning| text.starts_with(beginning))
}

/// Why a line isn't read, and what an operator may want to know besides.
pub fn why(text: &str) -> (&'static str, Option<&'static str>) {
    let found = |table: &[(&str, &'static str)]| {
        table.iter().find(|(beginning, _)| text.starts_with(beginning)).map(|(_, words)| *words)
    };
    (found(&REASONS).unwrap_or("the line isn't known"), found(&ADVICE))
}
