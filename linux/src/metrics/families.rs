//! Each metric, with what the exporter says of it: `dev/tables` writes them of tables/metrics.toml.
use super::{Family, Kind};

macro_rules! families {
    ($($constant:ident $kind:ident $name:literal $help:literal;)*) => {
        $(pub const $constant: Family = Family { name: $name, kind: Kind::$kind, help: $help };)*
    };
}

families! {
    PIM_NEIGHBORS Gauge "pim_neighbors" "The PIM neighbours of the interface.";
    INTERFACE_UP Gauge "interface_up" "Whether the interface is up for the router.";
    INTERFACE_DR Gauge "interface_dr" "Whether the router is the designated router of the link.";
    INTERFACE_MESSAGES_TOTAL Counter "interface_messages_total" "Messages of PIM and IGMP that came.";
    INTERFACE_REFUSED_MESSAGES_TOTAL Counter "interface_refused_messages_total" "Messages that the library refused.";
    INTERFACE_ROUTER_COPIES_TOTAL Counter "interface_router_copies_total"
        "Packets of data that the router itself sent.";
    INTERFACE_NOT_SENT_TOTAL Counter "interface_not_sent_total" "Packets that couldn't be sent.";
    PIM_NEIGHBOR_UPTIME_SECONDS Gauge "pim_neighbor_uptime_seconds" "For how long a neighbour has been known.";
    BFD_SESSION_UP Gauge "bfd_session_up" "Whether the BFD session with a neighbour is up.";
    FORWARDED_PACKETS_TOTAL Counter "forwarded_packets_total"
        "Packets of data that the kernel received and sent by the interface.";
    FORWARDED_BYTES_TOTAL Counter "forwarded_bytes_total"
        "Bytes of data that the kernel received and sent by the interface.";
    PIM_MESSAGES_TOTAL Counter "pim_messages_total"
        "Messages of PIM, by type; those to an address of a router have an empty interface.";
    IGMP_MESSAGES_TOTAL Counter "igmp_messages_total" "Messages of IGMP, by type.";
    MROUTE_ENTRIES Gauge "mroute_entries" "The number of entries in the kernel's forwarding cache.";
    ACTIVE_SOURCES Gauge "active_sources" "Sources of groups that have a fact in the library.";
    IGMP_GROUPS Gauge "igmp_groups" "Groups that hosts reported.";
    IGMP_SOURCES Gauge "igmp_sources" "Sources of groups that hosts named.";
    IGMP_OLDER_GROUPS Gauge "igmp_older_groups" "Groups in the compatibility mode of an older version, by version.";
    PIM_JOINS Gauge "pim_joins" "What neighbours have joined, by type; for S,G,rpt what they have pruned.";
    PIM_UPSTREAM_JOINS Gauge "pim_upstream_joins" "Trees that the router has joined.";
    PIM_ASSERTS Gauge "pim_asserts" "Asserts, by whether the router won.";
    FACTS Gauge "facts" "Facts that the library holds, without asserts.";
    FACTS_LIMIT Gauge "facts_limit" "The most facts that the library may hold.";
    EVENTS_TOTAL Counter "events_total" "The number of events given to the router.";
    EVENT_DURATION_SECONDS Histogram "event_duration_seconds"
        "How long an event took in the library, with what was sent and set after it.";
    EVENTS_IGNORED_TOTAL Counter "events_ignored_total" "The number of events that it ignored.";
    EVENTS_ALL_REFUSED_TOTAL Counter "events_all_refused_total" "The number of events that it refused.";
    EVENTS_REFUSED_TOTAL Counter "events_refused_total" "Events that the library refused, by reason.";
    MESSAGES_SPLIT_TOTAL Counter "messages_split_total"
        "The number of messages that a full router was offered in parts.";
    PARTS_OFFERED_TOTAL Counter "parts_offered_total" "The number of parts offered.";
    PARTS_TAKEN_TOTAL Counter "parts_taken_total" "The number of parts taken.";
    LIBRARY_MEMORY_REFUSALS_TOTAL Counter "library_memory_refusals_total"
        "The number of times that memory was refused to the library for a table.";
    SOURCES_KEPT_TOTAL Counter "sources_kept_total" "The number of sources of which the kernel's counts told.";
    PACKETS_SEEN_TOTAL Counter "packets_seen_total"
        "The number of packets of which the router was told that they were seen.";
    ROUTER_MADE_ANEW_TOTAL Counter "router_made_anew_total" "The number of times that the router was made anew.";
    ROUTER_RELOADED_TOTAL Counter "router_reloaded_total"
        "The number of times that the router took another configuration.";
    BOOTSTRAPS_TAKEN_TOTAL Counter "bootstraps_taken_total" "The number of Bootstraps that counted.";
    BOOTSTRAPS_LEFT_OUT_TOTAL Counter "bootstraps_left_out_total" "The number of Bootstraps that didn't count.";
    BOOTSTRAPS_LEFT_OUT_BY_REASON_TOTAL Counter "bootstraps_left_out_by_reason_total"
        "Bootstraps that didn't count, by reason.";
    BOOTSTRAP_MOVES_TOTAL Counter "bootstrap_moves_total" "The number of times that Bootstraps moved the RPs.";
    BOOTSTRAP_RPS Gauge "bootstrap_rps" "The number of RPs learned of Bootstraps.";
    BOOTSTRAP_RANGES Gauge "bootstrap_ranges" "The number of ranges of which the router has a learned RP.";
    BOOTSTRAP_CANDIDATES Gauge "bootstrap_candidates"
        "The number of learned RPs of which one is chosen for each group.";
    BSR_ELECTED Gauge "bsr_elected" "Whether the router is the elected bootstrap router.";
    ADVERTISED_RPS Gauge "advertised_rps" "The number of RPs of ranges that advertised themselves to the router.";
    ADVERTISEMENTS_TAKEN_TOTAL Counter "advertisements_taken_total"
        "The number of advertisements of RPs that the router took.";
    ADVERTISEMENTS_LEFT_OUT_TOTAL Counter "advertisements_left_out_total"
        "The number of advertisements of RPs that the router didn't take.";
    ADVERTISEMENTS_LEFT_OUT_BY_REASON_TOTAL Counter "advertisements_left_out_by_reason_total"
        "Advertisements of RPs that the router didn't take, by reason.";
    MSDP_SESSION_UP Gauge "msdp_session_up" "Whether the MSDP session with a peer is up.";
    MSDP_RESETS_TOTAL Counter "msdp_resets_total" "Sessions of MSDP that are over.";
    MSDP_SOURCES Gauge "msdp_sources" "Sources that a peer of MSDP said last.";
    MSDP_NOT_TAKEN_TOTAL Counter "msdp_not_taken_total" "Sources of a peer of MSDP that weren't taken, by reason.";
    MSDP_OWN_SOURCES Gauge "msdp_own_sources" "The number of sources of which the router tells its peers.";
    MSDP_STRANGERS_TOTAL Counter "msdp_strangers_total"
        "The number of connections to the port of MSDP of no peer that connects.";
    POLICY_REFUSED_TOTAL Counter "policy_refused_total" "Packets and items that the settings refused, by setting.";
    OWN_REPORTS_TOTAL Counter "own_reports_total" "The number of reports of programs on the router.";
    UNICASTS_RECEIVED_TOTAL Counter "unicasts_received_total" "The number of unicasts heard.";
    UNICASTS_SENT_TOTAL Counter "unicasts_sent_total" "The number of unicasts sent.";
    UNICASTS_NOT_SENT_TOTAL Counter "unicasts_not_sent_total" "The number of unicasts that couldn't be sent.";
    LONG_PACKETS_TOTAL Counter "long_packets_total"
        "The number of fragments and long packets that a short one stood for.";
    CHECKSUMS_FILLED_TOTAL Counter "checksums_filled_total" "The number of checksums filled in.";
    JOIN_PRUNES_PACKED_TOTAL Counter "join_prunes_packed_total"
        "The number of Join/Prunes that left in a packet with others.";
    UPTIME_SECONDS Gauge "uptime_seconds" "The time since the router began.";
    RESIDENT_MEMORY_BYTES Gauge "resident_memory_bytes" "The memory of the router (RSS).";
    BUILD_INFO Gauge "build_info" "The versions of the daemon and of the library.";
    KERNEL_NO_CACHE_TOTAL Counter "kernel_no_cache_total" "The number of packets for which the kernel had no entry.";
    KERNEL_STRAYS_TOTAL Counter "kernel_strays_total" "The number of strays that the kernel told.";
    KERNEL_WHOLE_PACKETS_TOTAL Counter "kernel_whole_packets_total"
        "The number of packets that the kernel handed up whole.";
    KERNEL_ENTRIES_WRITTEN_TOTAL Counter "kernel_entries_written_total" "The number of rows told to the kernel.";
    KERNEL_ENTRIES_REMOVED_TOTAL Counter "kernel_entries_removed_total" "The number of rows withdrawn from the kernel.";
    KERNEL_ENTRIES_REFUSED_TOTAL Counter "kernel_entries_refused_total" "The number of rows that the kernel refused.";
    ROUTES Gauge "routes" "The number of routes told to the router.";
    KERNEL_ROUTES_TAKEN Gauge "kernel_routes_taken" "The number of kernel routes taken by their next hop.";
    KERNEL_ROUTES_MULTIPATH Gauge "kernel_routes_multipath"
        "The number of kernel routes taken that have several next hops.";
    KERNEL_ROUTES_HIGHER_METRIC Gauge "kernel_routes_higher_metric"
        "The number of kernel routes left out for a lower metric.";
    KERNEL_ROUTES_REFUSING Gauge "kernel_routes_refusing" "The number of kernel routes that refuse packets.";
    KERNEL_ROUTES_ELSEWHERE Gauge "kernel_routes_elsewhere" "The number of kernel routes elsewhere.";
}
