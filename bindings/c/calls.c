/* The calls of viqeshor.h and plane.h, each by the one of its name of crates/pim_c. What C hands on is the pointer
 * alone, which the proved calls leave where it is: NULL is the handle that has no router. A list that is longer than
 * any that is accepted isn't read: one that is refused for the same reason, at the same place in the order of tests,
 * stands for it; an empty one for interfaces and for places. */
#include "core.h"

#define CORE(router) (&(struct viq_core){(void *)(router), (router) != NULL})
#define LISTENER(bsr) (&(struct viq_core_bsr){(void *)(bsr), (bsr) != NULL})
#define CANDIDACY(candidacy) (&(struct viq_core_candidacy){(void *)(candidacy), (candidacy) != NULL})

/* 0.0.0.0 is no host's address, and no prefix is longer than 32 bits. */
static const uint32_t no_address = 0;
static const struct viq_route no_route = {0, 33, 0, 0, 0, 0};
static const struct viq_range no_range = {0, 33, 0};
static const struct viq_candidate no_candidate = {0, 33, 0, 0, 0};
static const struct viq_rp_set no_rp_set = {0, 0, NULL, 0};
static const struct viq_prefix no_prefix = {0, 33};

struct route_list {
    const struct viq_route *at;
    size_t count;
};
struct range_list {
    const struct viq_range *at;
    size_t count;
};
struct candidate_list {
    const struct viq_candidate *at;
    size_t count;
};

struct rp_set_list {
    const struct viq_rp_set *at;
    size_t count;
};

static struct route_list routes_of(const struct viq_route *routes, size_t count) {
    struct route_list given = {routes, count}, refused = {&no_route, 1};
    return count <= VIQ_MOST_ROUTES ? given : refused;
}

static struct range_list ranges_of(const struct viq_range *ranges, size_t count) {
    struct range_list given = {ranges, count}, refused = {&no_range, 1};
    return count <= VIQ_MOST_RANGES ? given : refused;
}

static struct candidate_list candidates_of(const struct viq_candidate *candidates, size_t count) {
    struct candidate_list given = {candidates, count}, refused = {&no_candidate, 1};
    return count <= VIQ_MOST_CANDIDATES ? given : refused;
}

/* Each refusal of sets is the same. */
static struct rp_set_list rp_sets_of(const struct viq_rp_set *sets, size_t count) {
    struct rp_set_list given = {sets, count}, refused = {&no_rp_set, 1};
    if (count > VIQ_MOST_RP_SETS) return refused;
    for (size_t at = 0; at < count; at++)
        if (sets[at].other_count > VIQ_MOST_OTHERS) return refused;
    return given;
}

static struct viq_core_configuration core_of(const struct viq_settings *settings,
                                             const struct viq_interface *interfaces, size_t interface_count,
                                             const struct viq_route *routes, size_t route_count,
                                             const struct viq_range *ranges, size_t range_count) {
    bool has_addresses = settings->address_count <= VIQ_MOST_ADDRESSES;
    struct route_list given_routes = routes_of(routes, route_count);
    struct range_list given_ranges = ranges_of(ranges, range_count);
    struct viq_core_configuration core = {
        {settings->limit, settings->robustness, settings->query_interval, settings->query_response_interval,
         settings->last_member_query_interval, settings->stays_on_shared_tree},
        has_addresses ? settings->addresses : &no_address,
        has_addresses ? settings->address_count : 1,
        interfaces,
        interface_count <= VIQ_MOST_INTERFACES ? interface_count : 0,
        given_routes.at,
        given_routes.count,
        given_ranges.at,
        given_ranges.count};
    return core;
}

uint32_t viq_new(struct viq_router **router, uint32_t abi, const struct viq_settings *settings,
                 const struct viq_interface *interfaces, size_t interface_count, const struct viq_route *routes,
                 size_t route_count, const struct viq_range *ranges, size_t range_count) {
    struct viq_core core = {NULL, false};
    *router = NULL;
    if (abi != VIQ_ABI) return VIQ_OTHER_ABI;
    struct viq_core_configuration given =
        core_of(settings, interfaces, interface_count, routes, route_count, ranges, range_count);
    uint32_t answer = viq_core_new(&core, &given);
    if (core.is_there) *router = (struct viq_router *)core.place;
    return answer;
}

uint32_t viq_reload(struct viq_router *router, const struct viq_settings *settings,
                    const struct viq_interface *interfaces, size_t interface_count, const struct viq_route *routes,
                    size_t route_count, const struct viq_range *ranges, size_t range_count, struct viq_draw draw) {
    struct viq_core_configuration given =
        core_of(settings, interfaces, interface_count, routes, route_count, ranges, range_count);
    return viq_core_reload(CORE(router), draw.bits, &given);
}

uint32_t viq_reload_places(struct viq_router *router, const struct viq_settings *settings,
                           const struct viq_interface *interfaces, size_t interface_count,
                           const struct viq_route *routes, size_t route_count, const struct viq_range *ranges,
                           size_t range_count, const uint32_t *places, size_t place_count, struct viq_draw draw) {
    if (place_count > VIQ_MOST_INTERFACES) place_count = 0;
    struct viq_core_configuration given =
        core_of(settings, interfaces, interface_count, routes, route_count, ranges, range_count);
    return viq_core_reload_places(CORE(router), draw.bits, &given, places, place_count);
}

uint32_t viq_restore(struct viq_router **router, uint32_t abi, const uint8_t *bytes, size_t length) {
    struct viq_core core = {NULL, false};
    *router = NULL;
    if (abi != VIQ_ABI) return VIQ_OTHER_ABI;
    uint32_t answer = viq_core_restore(&core, bytes, length);
    if (core.is_there) *router = (struct viq_router *)core.place;
    return answer;
}

uint32_t viq_save(const struct viq_router *router, uint8_t *room, size_t room_length, size_t *size) {
    return viq_core_save(CORE(router), room, room_length, size);
}

void viq_end(struct viq_router *router) { viq_core_end(CORE(router)); }

uint32_t viq_advance(struct viq_router *router, uint64_t moment, struct viq_draw draw) {
    return viq_core_advance(CORE(router), draw.bits, moment);
}

uint32_t viq_frame(struct viq_router *router, uint32_t iface, const uint8_t *packet, size_t length,
                   struct viq_draw draw) {
    return viq_core_frame(CORE(router), draw.bits, iface, packet, length);
}

/* Whether the program has nothing to do before the next event, after one that was answered so. */
static bool goes_on(const struct viq_router *router, uint32_t answer) {
    return !viq_is_lost(answer) && answer != VIQ_OTHER_TYPE && router != NULL && viq_packets(router) == 0 &&
           viq_touched(router) == 0;
}

size_t viq_frames(struct viq_router *router, const struct viq_received *frames, size_t count, uint32_t *answers) {
    for (size_t at = 0; at < count; at++) {
        const struct viq_received *frame = &frames[at];
        answers[at] = viq_frame(router, frame->iface, frame->packet, frame->length, frame->draw);
        if (!goes_on(router, answers[at])) return at + 1;
    }
    return count;
}

uint32_t viq_unicast(struct viq_router *router, const uint8_t *packet, size_t length, struct viq_draw draw) {
    return viq_core_unicast(CORE(router), draw.bits, packet, length);
}

uint32_t viq_up(struct viq_router *router, uint32_t iface, struct viq_draw draw) {
    return viq_core_up(CORE(router), draw.bits, iface);
}

uint32_t viq_down(struct viq_router *router, uint32_t iface, struct viq_draw draw) {
    return viq_core_down(CORE(router), draw.bits, iface);
}

uint32_t viq_routes(struct viq_router *router, const struct viq_route *routes, size_t count, struct viq_draw draw) {
    struct route_list given = routes_of(routes, count);
    return viq_core_routes(CORE(router), draw.bits, given.at, given.count);
}

uint32_t viq_ranges(struct viq_router *router, const struct viq_range *ranges, size_t count, struct viq_draw draw) {
    struct range_list given = ranges_of(ranges, count);
    return viq_core_ranges(CORE(router), draw.bits, given.at, given.count);
}

uint32_t viq_candidates(struct viq_router *router, const struct viq_candidate *candidates, size_t count,
                        struct viq_draw draw) {
    struct candidate_list given = candidates_of(candidates, count);
    return viq_core_candidates(CORE(router), draw.bits, given.at, given.count);
}

size_t viq_packets(const struct viq_router *router) { return viq_core_packets(CORE(router)); }

bool viq_take(struct viq_router *router, struct viq_packet *packet, uint8_t *room, size_t room_length) {
    return viq_core_take(CORE(router), packet, room, room_length);
}

void viq_clear(struct viq_router *router) { viq_core_clear(CORE(router)); }

uint32_t viq_copies(const struct viq_router *router) { return viq_core_copies(CORE(router)); }

uint64_t viq_next_moment(const struct viq_router *router) { return viq_core_next_moment(CORE(router)); }

uint32_t viq_read(struct viq_router *router, uint8_t letter) { return viq_core_read(CORE(router), letter); }

size_t viq_rows(const struct viq_router *router) { return viq_core_rows(CORE(router)); }

bool viq_row(const struct viq_router *router, size_t index, struct viq_row *row) {
    struct viq_core_row told;
    if (!viq_core_row(CORE(router), index, &told)) return false;
    row->table = told.table;
    switch (told.table) {
    case 'N': row->of.neighbour = told.neighbour; break;
    case 'G': row->of.group = told.group; break;
    case 'S': row->of.source = told.source; break;
    case 'D': row->of.downstream = told.downstream; break;
    case 'A': row->of.asserted = told.asserted; break;
    case 'U': row->of.upstream = told.upstream; break;
    case 'R': row->of.rpt = told.rpt; break;
    case 'F': row->of.active = told.active; break;
    }
    return true;
}

uint32_t viq_older(struct viq_router *router, uint32_t iface, uint32_t hosts) {
    return viq_core_older(CORE(router), iface, hosts);
}

uint32_t viq_query_version(struct viq_router *router, uint32_t iface, uint32_t version) {
    return viq_core_query_version(CORE(router), iface, version);
}

uint32_t viq_guard(struct viq_router *router, uint32_t on) { return viq_core_guard(CORE(router), on); }

uint32_t viq_anycast(struct viq_router *router, const struct viq_rp_set *sets, size_t count) {
    struct rp_set_list given = rp_sets_of(sets, count);
    return viq_core_anycast(CORE(router), given.at, given.count);
}

uint32_t viq_source_active(struct viq_router *router, const struct viq_source_active *told, struct viq_draw draw) {
    uint8_t packet[VIQ_MOST_BYTES];
    size_t size = 0;
    uint32_t answer = viq_source_active_packet(router, told, packet, sizeof packet, &size);
    if (answer != VIQ_DONE) return answer;
    return size == 0 ? VIQ_NOT_FOR_ME : viq_unicast(router, packet, size, draw);
}

uint32_t viq_source_active_packet(const struct viq_router *router, const struct viq_source_active *told, uint8_t *room,
                                  size_t room_length, size_t *size) {
    return viq_core_source_active(CORE(router), told, room, room_length, size);
}

bool viq_registered(const struct viq_router *router, const uint8_t *packet, size_t length,
                    struct viq_source_group *name) {
    return viq_core_registered(CORE(router), packet, length, name);
}

bool viq_own_source(const struct viq_router *router, uint32_t source, uint32_t group) {
    return viq_core_own_source(CORE(router), source, group);
}

uint32_t viq_older_read(struct viq_router *router) { return viq_core_older_read(CORE(router)); }

size_t viq_older_rows(const struct viq_router *router) { return viq_core_older_rows(CORE(router)); }

bool viq_older_row(const struct viq_router *router, size_t index, struct viq_older_row *row) {
    return viq_core_older_row(CORE(router), index, row);
}

bool viq_cached(const struct viq_router *router, uint32_t source, uint32_t group, struct viq_forwarding *forwarding) {
    return viq_core_cached(CORE(router), source, group, forwarding);
}

bool viq_tree(const struct viq_router *router, uint32_t group, struct viq_tree *tree) {
    return viq_core_tree(CORE(router), group, tree);
}

bool viq_source_tree(const struct viq_router *router, uint32_t source, uint32_t group, struct viq_source_tree *tree) {
    return viq_core_source_tree(CORE(router), source, group, tree);
}

bool viq_link(const struct viq_router *router, uint32_t iface, struct viq_link *link) {
    return viq_core_link(CORE(router), iface, link);
}

bool viq_neighbour(const struct viq_router *router, uint32_t iface, uint32_t address, struct viq_neighbour *neighbour) {
    return viq_core_neighbour(CORE(router), iface, address, neighbour);
}

bool viq_offload(const struct viq_router *router, uint32_t source, uint32_t group, struct viq_plane_row *row) {
    return viq_core_offload(CORE(router), source, group, row);
}

size_t viq_changed(const struct viq_router *router) { return viq_core_changed(CORE(router)); }

bool viq_changed_source(const struct viq_router *router, size_t index, struct viq_source_group *name) {
    return viq_core_changed_source(CORE(router), index, name);
}

bool viq_may_differ(const struct viq_router *router, uint32_t source, uint32_t group) {
    return viq_core_may_differ(CORE(router), source, group);
}

uint32_t viq_seen(struct viq_router *router, uint32_t iface, uint32_t source, uint32_t group, struct viq_draw draw) {
    return viq_core_seen(CORE(router), draw.bits, iface, source, group);
}

uint32_t viq_keep(struct viq_router *router, uint32_t source, uint32_t group, uint64_t moment) {
    return viq_core_keep(CORE(router), source, group, moment);
}

uint32_t viq_record(const struct viq_call *call, const uint8_t *packet, size_t length, uint8_t *room,
                    size_t room_length, size_t *size) {
    return viq_core_record(call, packet, length, room, room_length, size);
}

uint32_t viq_record_routes(const struct viq_call *call, const struct viq_route *routes, size_t count, uint8_t *room,
                           size_t room_length, size_t *size) {
    struct route_list given = routes_of(routes, count);
    return viq_core_record_routes(call, given.at, given.count, room, room_length, size);
}

uint32_t viq_record_ranges(const struct viq_call *call, const struct viq_range *ranges, size_t count, uint8_t *room,
                           size_t room_length, size_t *size) {
    struct range_list given = ranges_of(ranges, count);
    return viq_core_record_ranges(call, given.at, given.count, room, room_length, size);
}

uint32_t viq_record_candidates(const struct viq_call *call, const struct viq_candidate *candidates, size_t count,
                               uint8_t *room, size_t room_length, size_t *size) {
    struct candidate_list given = candidates_of(candidates, count);
    return viq_core_record_candidates(call, given.at, given.count, room, room_length, size);
}

uint32_t viq_record_anycast(const struct viq_call *call, const struct viq_rp_set *sets, size_t count, uint8_t *room,
                            size_t room_length, size_t *size) {
    struct rp_set_list given = rp_sets_of(sets, count);
    return viq_core_record_anycast(call, given.at, given.count, room, room_length, size);
}

uint32_t viq_record_reload(const struct viq_call *call, const struct viq_settings *settings,
                           const struct viq_interface *interfaces, size_t interface_count,
                           const struct viq_route *routes, size_t route_count, const struct viq_range *ranges,
                           size_t range_count, uint8_t *room, size_t room_length, size_t *size) {
    struct viq_core_configuration given =
        core_of(settings, interfaces, interface_count, routes, route_count, ranges, range_count);
    return viq_core_record_reload(call, &given, room, room_length, size);
}

uint32_t viq_record_reload_places(const struct viq_call *call, const struct viq_settings *settings,
                                  const struct viq_interface *interfaces, size_t interface_count,
                                  const struct viq_route *routes, size_t route_count, const struct viq_range *ranges,
                                  size_t range_count, const uint32_t *places, size_t place_count, uint8_t *room,
                                  size_t room_length, size_t *size) {
    if (place_count > VIQ_MOST_INTERFACES) place_count = 0;
    struct viq_core_configuration given =
        core_of(settings, interfaces, interface_count, routes, route_count, ranges, range_count);
    return viq_core_record_reload_places(call, &given, places, place_count, room, room_length, size);
}

uint32_t viq_sum(const struct viq_router *router) { return viq_core_sum(CORE(router)); }

uint64_t viq_probes(const struct viq_router *router) { return viq_core_probes(CORE(router)); }

uint64_t viq_touched(const struct viq_router *router) { return viq_core_touched(CORE(router)); }

uint32_t viq_bsr_new(struct viq_bsr **bsr, uint32_t abi, uint32_t limit, const struct viq_range *ranges, size_t count,
                     uint64_t refresh_end) {
    struct viq_core_bsr core = {NULL, false};
    struct range_list given = ranges_of(ranges, count);
    *bsr = NULL;
    if (abi != VIQ_ABI) return VIQ_OTHER_ABI;
    uint32_t answer = viq_core_bsr_new(&core, limit, given.at, given.count, refresh_end);
    if (core.is_there) *bsr = (struct viq_bsr *)core.place;
    return answer;
}

uint32_t viq_bsr_restore(struct viq_bsr **bsr, uint32_t abi, const uint8_t *bytes, size_t length) {
    struct viq_core_bsr core = {NULL, false};
    *bsr = NULL;
    if (abi != VIQ_ABI) return VIQ_OTHER_ABI;
    uint32_t answer = viq_core_bsr_restore(&core, bytes, length);
    if (core.is_there) *bsr = (struct viq_bsr *)core.place;
    return answer;
}

uint32_t viq_bsr_save(const struct viq_bsr *bsr, uint8_t *room, size_t room_length, size_t *size) {
    return viq_core_bsr_save(LISTENER(bsr), room, room_length, size);
}

void viq_bsr_end(struct viq_bsr *bsr) { viq_core_bsr_end(LISTENER(bsr)); }

uint32_t viq_bsr_hear(struct viq_bsr *bsr, struct viq_router *router, uint32_t iface, const uint8_t *packet,
                      size_t length, bool *moved) {
    return viq_core_bsr_hear(LISTENER(bsr), CORE(router), iface, packet, length, moved);
}

uint32_t viq_bsr_give(const struct viq_bsr *bsr, struct viq_router *router, struct viq_draw draw) {
    return viq_core_bsr_give(LISTENER(bsr), CORE(router), draw.bits);
}

uint64_t viq_bsr_next(const struct viq_bsr *bsr) { return viq_core_bsr_next(LISTENER(bsr)); }

uint32_t viq_bsr_pass(struct viq_bsr *bsr, uint64_t moment, bool *moved) {
    return viq_core_bsr_pass(LISTENER(bsr), moment, moved);
}

uint32_t viq_bsr_ranges(struct viq_bsr *bsr, struct viq_router *router, uint32_t limit, const struct viq_range *ranges,
                        size_t count, struct viq_draw draw) {
    struct range_list given = ranges_of(ranges, count);
    return viq_core_bsr_ranges(LISTENER(bsr), CORE(router), draw.bits, limit, given.at, given.count);
}

uint32_t viq_bsr_choose(struct viq_bsr *bsr, uint32_t choice) { return viq_core_bsr_choose(LISTENER(bsr), choice); }

uint32_t viq_bsr_choice(const struct viq_bsr *bsr) { return viq_core_bsr_choice(LISTENER(bsr)); }

size_t viq_bsr_configured(const struct viq_bsr *bsr) { return viq_core_bsr_configured(LISTENER(bsr)); }

bool viq_bsr_range(const struct viq_bsr *bsr, size_t index, struct viq_range *range) {
    return viq_core_bsr_range(LISTENER(bsr), index, range);
}

bool viq_bsr_elected(const struct viq_bsr *bsr, struct viq_bsr_elected *elected) {
    return viq_core_bsr_elected(LISTENER(bsr), elected);
}

size_t viq_bsr_rps(const struct viq_bsr *bsr) { return viq_core_bsr_rps(LISTENER(bsr)); }

bool viq_bsr_rp(const struct viq_bsr *bsr, size_t index, struct viq_bsr_rp *row) {
    return viq_core_bsr_rp(LISTENER(bsr), index, row);
}

size_t viq_bsr_parts(const struct viq_bsr *bsr) { return viq_core_bsr_parts(LISTENER(bsr)); }

bool viq_bsr_part(const struct viq_bsr *bsr, size_t index, struct viq_bsr_part *row) {
    return viq_core_bsr_part(LISTENER(bsr), index, row);
}

uint32_t viq_candidacy_new(struct viq_candidacy **candidacy, uint32_t abi, const struct viq_candidacy_settings *settings,
                           const struct viq_prefix *ranges, size_t count, uint64_t moment) {
    struct viq_core_candidacy core = {NULL, false};
    bool is_read = count <= VIQ_MOST_ADVERTISED;
    *candidacy = NULL;
    if (abi != VIQ_ABI) return VIQ_OTHER_ABI;
    uint32_t answer =
        viq_core_candidacy_new(&core, settings, is_read ? ranges : &no_prefix, is_read ? count : 1, moment);
    if (core.is_there) *candidacy = (struct viq_candidacy *)core.place;
    return answer;
}

void viq_candidacy_end(struct viq_candidacy *candidacy) { viq_core_candidacy_end(CANDIDACY(candidacy)); }

uint32_t viq_candidacy_hear(struct viq_candidacy *candidacy, struct viq_bsr *bsr, struct viq_router *router,
                            uint32_t iface, const uint8_t *packet, size_t length, struct viq_draw draw, bool *moved) {
    return viq_core_candidacy_hear(CANDIDACY(candidacy), LISTENER(bsr), CORE(router), iface, packet, length, draw.bits,
                                   moved);
}

uint32_t viq_candidacy_unicast(struct viq_candidacy *candidacy, struct viq_router *router, const uint8_t *packet,
                               size_t length) {
    return viq_core_candidacy_unicast(CANDIDACY(candidacy), CORE(router), packet, length);
}

uint64_t viq_candidacy_next(const struct viq_candidacy *candidacy) {
    return viq_core_candidacy_next(CANDIDACY(candidacy));
}

uint32_t viq_candidacy_pass(struct viq_candidacy *candidacy, struct viq_bsr *bsr, struct viq_router *router,
                            uint64_t moment, struct viq_draw draw, bool *moved) {
    return viq_core_candidacy_pass(CANDIDACY(candidacy), LISTENER(bsr), CORE(router), moment, draw.bits, moved);
}

uint32_t viq_candidacy_leave(const struct viq_candidacy *candidacy, const struct viq_bsr *bsr,
                             struct viq_router *router) {
    return viq_core_candidacy_leave(CANDIDACY(candidacy), LISTENER(bsr), CORE(router));
}

bool viq_candidacy_state(const struct viq_candidacy *candidacy, struct viq_candidacy_state *state) {
    return viq_core_candidacy_state(CANDIDACY(candidacy), state);
}

size_t viq_candidacy_rps(const struct viq_candidacy *candidacy) {
    return viq_core_candidacy_rps(CANDIDACY(candidacy));
}

bool viq_candidacy_rp(const struct viq_candidacy *candidacy, size_t index, struct viq_candidacy_rp *row) {
    return viq_core_candidacy_rp(CANDIDACY(candidacy), index, row);
}
