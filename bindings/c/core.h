/* The calls of crates/pim_c, each proved, by which calls.c makes those of viqeshor.h and plane.h. A program doesn't
 * make them. */
#ifndef VIQESHOR_CORE_H
#define VIQESHOR_CORE_H

#include <viqeshor/plane.h>

/* A router, or none: a pointer, and whether it is one. */
struct viq_core {
    void *place;
    bool is_there;
};

/* A listener for Bootstraps, or none, in the same way. */
struct viq_core_bsr {
    void *place;
    bool is_there;
};

/* A candidacy, or none, in the same way. */
struct viq_core_candidacy {
    void *place;
    bool is_there;
};

/* The settings but the addresses. */
struct viq_core_settings {
    uint32_t limit;
    uint32_t robustness;
    uint32_t query_interval;
    uint32_t query_response_interval;
    uint32_t last_member_query_interval;
    bool stays_on_shared_tree;
};

/* A configuration: the settings, and the lists that stand beside them. */
struct viq_core_configuration {
    struct viq_core_settings settings;
    const uint32_t *addresses;
    size_t address_count;
    const struct viq_interface *interfaces;
    size_t interface_count;
    const struct viq_route *routes;
    size_t route_count;
    const struct viq_range *ranges;
    size_t range_count;
};

/* A row with room for the columns of each kind; those of other kinds than the row's are 0. */
struct viq_core_row {
    uint32_t table;
    struct viq_neighbour_row neighbour;
    struct viq_group_row group;
    struct viq_source_row source;
    struct viq_downstream_row downstream;
    struct viq_assert_row asserted;
    struct viq_upstream_row upstream;
    struct viq_rpt_row rpt;
    struct viq_active_row active;
};

uint32_t viq_core_new(struct viq_core *router, const struct viq_core_configuration *given);
uint32_t viq_core_reload(struct viq_core *router, uint32_t draw, const struct viq_core_configuration *given);
uint32_t viq_core_reload_places(struct viq_core *router, uint32_t draw, const struct viq_core_configuration *given,
                                const uint32_t *places, size_t place_count);
uint32_t viq_core_restore(struct viq_core *router, const uint8_t *bytes, size_t length);
uint32_t viq_core_save(struct viq_core *router, uint8_t *room, size_t room_length, size_t *size);
void viq_core_end(struct viq_core *router);
uint32_t viq_core_advance(struct viq_core *router, uint32_t draw, uint64_t moment);
uint32_t viq_core_frame(struct viq_core *router, uint32_t draw, uint32_t iface, const uint8_t *packet, size_t length);
uint32_t viq_core_unicast(struct viq_core *router, uint32_t draw, const uint8_t *packet, size_t length);
uint32_t viq_core_up(struct viq_core *router, uint32_t draw, uint32_t iface);
uint32_t viq_core_down(struct viq_core *router, uint32_t draw, uint32_t iface);
uint32_t viq_core_routes(struct viq_core *router, uint32_t draw, const struct viq_route *routes, size_t count);
uint32_t viq_core_ranges(struct viq_core *router, uint32_t draw, const struct viq_range *ranges, size_t count);
uint32_t viq_core_candidates(struct viq_core *router, uint32_t draw, const struct viq_candidate *candidates, size_t count);
size_t viq_core_packets(struct viq_core *router);
bool viq_core_take(struct viq_core *router, struct viq_packet *packet, uint8_t *room, size_t room_length);
void viq_core_clear(struct viq_core *router);
uint32_t viq_core_copies(struct viq_core *router);
uint64_t viq_core_next_moment(struct viq_core *router);
uint32_t viq_core_read(struct viq_core *router, uint8_t letter);
size_t viq_core_rows(struct viq_core *router);
bool viq_core_row(struct viq_core *router, size_t index, struct viq_core_row *row);
uint32_t viq_core_older(struct viq_core *router, uint32_t iface, uint32_t hosts);
uint32_t viq_core_query_version(struct viq_core *router, uint32_t iface, uint32_t version);
uint32_t viq_core_guard(struct viq_core *router, uint32_t on);
uint32_t viq_core_anycast(struct viq_core *router, const struct viq_rp_set *sets, size_t count);
uint32_t viq_core_older_read(struct viq_core *router);
size_t viq_core_older_rows(struct viq_core *router);
bool viq_core_older_row(struct viq_core *router, size_t index, struct viq_older_row *row);
bool viq_core_cached(struct viq_core *router, uint32_t source, uint32_t group, struct viq_forwarding *forwarding);
bool viq_core_tree(struct viq_core *router, uint32_t group, struct viq_tree *tree);
bool viq_core_source_tree(struct viq_core *router, uint32_t source, uint32_t group, struct viq_source_tree *tree);
bool viq_core_link(struct viq_core *router, uint32_t iface, struct viq_link *link);
bool viq_core_neighbour(struct viq_core *router, uint32_t iface, uint32_t address, struct viq_neighbour *neighbour);
bool viq_core_offload(struct viq_core *router, uint32_t source, uint32_t group, struct viq_plane_row *row);
size_t viq_core_changed(struct viq_core *router);
bool viq_core_changed_source(struct viq_core *router, size_t index, struct viq_source_group *name);
bool viq_core_may_differ(struct viq_core *router, uint32_t source, uint32_t group);
uint32_t viq_core_seen(struct viq_core *router, uint32_t draw, uint32_t iface, uint32_t source, uint32_t group);
uint32_t viq_core_keep(struct viq_core *router, uint32_t source, uint32_t group, uint64_t moment);
uint32_t viq_core_record(const struct viq_call *call, const uint8_t *packet, size_t length, uint8_t *room,
                         size_t room_length, size_t *size);
uint32_t viq_core_record_routes(const struct viq_call *call, const struct viq_route *routes, size_t count,
                                uint8_t *room, size_t room_length, size_t *size);
uint32_t viq_core_record_ranges(const struct viq_call *call, const struct viq_range *ranges, size_t count,
                                uint8_t *room, size_t room_length, size_t *size);
uint32_t viq_core_record_candidates(const struct viq_call *call, const struct viq_candidate *candidates, size_t count,
                                    uint8_t *room, size_t room_length, size_t *size);
uint32_t viq_core_record_anycast(const struct viq_call *call, const struct viq_rp_set *sets, size_t count,
                                 uint8_t *room, size_t room_length, size_t *size);
uint32_t viq_core_record_reload(const struct viq_call *call, const struct viq_core_configuration *given,
                                uint8_t *room, size_t room_length, size_t *size);
uint32_t viq_core_record_reload_places(const struct viq_call *call, const struct viq_core_configuration *given,
                                       const uint32_t *places, size_t place_count, uint8_t *room,
                                       size_t room_length, size_t *size);
uint32_t viq_core_source_active(struct viq_core *router, const struct viq_source_active *told, uint8_t *room,
                                size_t room_length, size_t *size);
bool viq_core_registered(struct viq_core *router, const uint8_t *packet, size_t length, struct viq_source_group *name);
bool viq_core_own_source(struct viq_core *router, uint32_t source, uint32_t group);
uint32_t viq_core_sum(struct viq_core *router);
uint64_t viq_core_probes(struct viq_core *router);
uint64_t viq_core_touched(struct viq_core *router);
uint32_t viq_core_bsr_new(struct viq_core_bsr *listener, uint32_t limit, const struct viq_range *ranges, size_t count,
                          uint64_t refresh_end);
uint32_t viq_core_bsr_restore(struct viq_core_bsr *listener, const uint8_t *bytes, size_t length);
uint32_t viq_core_bsr_save(struct viq_core_bsr *listener, uint8_t *room, size_t room_length, size_t *size);
void viq_core_bsr_end(struct viq_core_bsr *listener);
uint32_t viq_core_bsr_hear(struct viq_core_bsr *listener, struct viq_core *router, uint32_t iface,
                           const uint8_t *packet, size_t length, bool *moved);
uint32_t viq_core_bsr_give(struct viq_core_bsr *listener, struct viq_core *router, uint32_t draw);
uint64_t viq_core_bsr_next(struct viq_core_bsr *listener);
uint32_t viq_core_bsr_pass(struct viq_core_bsr *listener, uint64_t moment, bool *moved);
uint32_t viq_core_bsr_ranges(struct viq_core_bsr *listener, struct viq_core *router, uint32_t draw, uint32_t limit,
                             const struct viq_range *ranges, size_t count);
uint32_t viq_core_bsr_choose(struct viq_core_bsr *listener, uint32_t choice);
uint32_t viq_core_bsr_choice(struct viq_core_bsr *listener);
size_t viq_core_bsr_configured(struct viq_core_bsr *listener);
bool viq_core_bsr_range(struct viq_core_bsr *listener, size_t index, struct viq_range *range);
bool viq_core_bsr_elected(struct viq_core_bsr *listener, struct viq_bsr_elected *elected);
size_t viq_core_bsr_rps(struct viq_core_bsr *listener);
bool viq_core_bsr_rp(struct viq_core_bsr *listener, size_t index, struct viq_bsr_rp *row);
size_t viq_core_bsr_parts(struct viq_core_bsr *listener);
bool viq_core_bsr_part(struct viq_core_bsr *listener, size_t index, struct viq_bsr_part *row);
uint32_t viq_core_candidacy_new(struct viq_core_candidacy *candidacy, const struct viq_candidacy_settings *settings,
                                const struct viq_prefix *ranges, size_t count, uint64_t moment);
void viq_core_candidacy_end(struct viq_core_candidacy *candidacy);
uint32_t viq_core_candidacy_hear(struct viq_core_candidacy *candidacy, struct viq_core_bsr *listener,
                                 struct viq_core *router, uint32_t iface, const uint8_t *packet, size_t length,
                                 uint32_t draw, bool *moved);
uint32_t viq_core_candidacy_unicast(struct viq_core_candidacy *candidacy, struct viq_core *router,
                                    const uint8_t *packet, size_t length);
uint64_t viq_core_candidacy_next(struct viq_core_candidacy *candidacy);
uint32_t viq_core_candidacy_pass(struct viq_core_candidacy *candidacy, struct viq_core_bsr *listener,
                                 struct viq_core *router, uint64_t moment, uint32_t draw, bool *moved);
uint32_t viq_core_candidacy_leave(struct viq_core_candidacy *candidacy, struct viq_core_bsr *listener,
                                  struct viq_core *router);
bool viq_core_candidacy_state(struct viq_core_candidacy *candidacy, struct viq_candidacy_state *state);
size_t viq_core_candidacy_rps(struct viq_core_candidacy *candidacy);
bool viq_core_candidacy_rp(struct viq_core_candidacy *candidacy, size_t index, struct viq_candidacy_rp *row);

#endif
