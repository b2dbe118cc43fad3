/* Tries each call of viqeshor.h and plane.h, and what they say of each. A line for each answer that is another one, and
 * a line with their number. */
#include <stdio.h>
#include <string.h>

#include <viqeshor/plane.h>

#define COUNT(items) (sizeof(items) / sizeof *(items))

static unsigned tried, wrong;

static void is(const char *what, uint64_t got, uint64_t wanted) {
    tried++;
    if (got == wanted) return;
    wrong++;
    printf("%s: %llu in place of %llu\n", what, (unsigned long long)got, (unsigned long long)wanted);
}

/* The Internet checksum of bytes, which takes its place among them. */
static void set_sum(uint8_t *bytes, size_t length, size_t place) {
    uint32_t sum = 0;
    for (size_t at = 0; at < length; at += 2) sum += (uint32_t)bytes[at] << 8 | bytes[at + 1];
    while (sum >> 16) sum = (sum & 0xffff) + (sum >> 16);
    bytes[place] = (uint8_t)(~sum >> 8);
    bytes[place + 1] = (uint8_t)~sum;
}

/* Before each event the packets of the one before are dropped, but where a call is written in brackets. */
#define viq_advance(router, ...) (viq_clear(router), viq_advance(router, __VA_ARGS__))
#define viq_frame(router, ...) (viq_clear(router), viq_frame(router, __VA_ARGS__))
#define viq_unicast(router, ...) (viq_clear(router), viq_unicast(router, __VA_ARGS__))
#define viq_up(router, ...) (viq_clear(router), viq_up(router, __VA_ARGS__))
#define viq_down(router, ...) (viq_clear(router), viq_down(router, __VA_ARGS__))
#define viq_routes(router, ...) (viq_clear(router), viq_routes(router, __VA_ARGS__))
#define viq_ranges(router, ...) (viq_clear(router), viq_ranges(router, __VA_ARGS__))
#define viq_candidates(router, ...) (viq_clear(router), viq_candidates(router, __VA_ARGS__))
#define viq_seen(router, ...) (viq_clear(router), viq_seen(router, __VA_ARGS__))
#define viq_reload(router, ...) (viq_clear(router), viq_reload(router, __VA_ARGS__))
#define viq_reload_places(router, ...) (viq_clear(router), viq_reload_places(router, __VA_ARGS__))

static const struct viq_settings usual = VIQ_USUAL_SETTINGS;
static const struct viq_interface three[] = {{0x0a000002, 24, 1, 500, 2500}, {0x0a000101, 24, 1, 500, 2500}, {0x0a000201, 24, 1, 500, 2500}};
static const struct viq_route two[] = {{0x0a090900, 24, 0x0a000001, 0, 110, 20}, {0x0a000300, 24, 0x0a000001, 0, 110, 20}};
static const struct viq_range one[] = {{0xe0000000, 4, 0x0a090909}};
/* Two RPs of 239.0.0.0/8. */
static const struct viq_candidate pair[] = {{0xef000000, 8, 0x0a090909, 7, 30}, {0xef000000, 8, 0x0a080808, 7, 30}};

static uint32_t made(struct viq_router **router, const struct viq_settings *settings) {
    return viq_new(router, VIQ_ABI, settings, three, COUNT(three), two, COUNT(two), one, COUNT(one));
}

/* Whether a router can be made, which is ended then. */
static uint32_t can_be_made(const struct viq_settings *settings, const struct viq_interface *interfaces, size_t interface_count,
                            const struct viq_route *routes, size_t route_count, const struct viq_range *ranges, size_t range_count) {
    struct viq_router *router = (struct viq_router *)&wrong;
    uint32_t answer = viq_new(&router, VIQ_ABI, settings, interfaces, interface_count, routes, route_count, ranges, range_count);
    is("a router where there is one", router != NULL, answer == VIQ_DONE);
    viq_end(router);
    return answer;
}

/* Another configuration: the first so many of the interfaces. */
static uint32_t reloaded(struct viq_router *router, const struct viq_settings *settings, size_t count) {
    return viq_reload(router, settings, three, count, two, count ? COUNT(two) : 0, one, COUNT(one), viq_draw(7));
}

/* The same three interfaces, and one range, by a map of places. */
static uint32_t placed(struct viq_router *router, const struct viq_settings *settings, const uint32_t *places, size_t count) {
    return viq_reload_places(router, settings, three, COUNT(three), two, COUNT(two), one, COUNT(one), places, count, viq_draw(7));
}

/* ---- no router */

static void without_a_router(void) {
    uint8_t room[2] = {7, 7};
    struct viq_packet packet = {7, 7, 7, 7};
    struct viq_row row = {.table = 7};
    struct viq_forwarding forwarding = {.rpf = 7};
    struct viq_plane_row plane = {.incoming = 7};
    struct viq_source_group name = {7, 7};
    struct viq_older_row older_row = {.iface = 7};
    struct viq_received frames[2] = {{0, room, 2, {0}}, {0, room, 2, {0}}};
    uint32_t answers[2] = {7, 7};
    is("advance without a router", viq_advance(NULL, 1, viq_draw(0)), VIQ_NO_ROUTER);
    is("frame without a router", viq_frame(NULL, 0, room, 2, viq_draw(0)), VIQ_NO_ROUTER);
    is("frames without a router", viq_frames(NULL, frames, 2, answers), 1);
    is("their answers", answers[0] == VIQ_NO_ROUTER && answers[1] == 7, true);
    is("no frames without a router", viq_frames(NULL, NULL, 0, NULL), 0);
    is("unicast without a router", viq_unicast(NULL, room, 2, viq_draw(0)), VIQ_NO_ROUTER);
    is("up without a router", viq_up(NULL, 0, viq_draw(0)), VIQ_NO_ROUTER);
    is("down without a router", viq_down(NULL, 0, viq_draw(0)), VIQ_NO_ROUTER);
    is("routes without a router", viq_routes(NULL, two, 2, viq_draw(0)), VIQ_NO_ROUTER);
    is("ranges without a router", viq_ranges(NULL, one, 1, viq_draw(0)), VIQ_NO_ROUTER);
    is("candidates without a router", viq_candidates(NULL, pair, 2, viq_draw(0)), VIQ_NO_ROUTER);
    is("reload without a router", reloaded(NULL, &usual, 3), VIQ_NO_ROUTER);
    is("reload by places without a router", placed(NULL, &usual, NULL, 0), VIQ_NO_ROUTER);
    is("packets without a router", viq_packets(NULL), 0);
    is("packet without a router", viq_take(NULL, &packet, room, 2), false);
    viq_clear(NULL);
    is("its packet", packet.kind == 7 && packet.iface == 7 && packet.destination == 7 && packet.length == 7, true);
    is("its room", room[0] == 7 && room[1] == 7, true);
    is("copies without a router", viq_copies(NULL), 0);
    is("next moment without a router", viq_next_moment(NULL), VIQ_NEVER);
    is("read without a router", viq_read(NULL, 'N'), VIQ_NO_ROUTER);
    is("read of no table without a router", viq_read(NULL, 'X'), VIQ_NO_TABLE);
    is("rows without a router", viq_rows(NULL), 0);
    is("row without a router", viq_row(NULL, 0, &row), false);
    is("its row", row.table, 7);
    is("older hosts without a router", viq_older(NULL, 0, VIQ_OLDER_ALL), VIQ_NO_ROUTER);
    is("no setting of them without a router", viq_older(NULL, 0, 3), VIQ_NO_SETTING);
    is("a guard without a router", viq_guard(NULL, 1), VIQ_NO_ROUTER);
    is("no setting of it without a router", viq_guard(NULL, 2), VIQ_NO_SETTING);
    is("no sets of RPs without a router", viq_anycast(NULL, NULL, 0), VIQ_NO_ROUTER);
    is("version 2 without a router", viq_query_version(NULL, 0, 2), VIQ_NO_ROUTER);
    is("groups in an older mode without a router", viq_older_read(NULL), VIQ_NO_ROUTER);
    is("how many without a router", viq_older_rows(NULL), 0);
    is("one of them without a router", viq_older_row(NULL, 0, &older_row), false);
    is("what isn't written of it", older_row.iface, 7);
    is("cached without a router", viq_cached(NULL, 0x0a000305, 0xe1010101, &forwarding), false);
    struct viq_tree tree = {.rpf_cause = 7};
    struct viq_source_tree source_tree = {.rpf_cause = 7};
    struct viq_link link = {.dr = 7};
    struct viq_neighbour neighbour = {.end = 7};
    is("a tree without a router", viq_tree(NULL, 0xe1010101, &tree), false);
    is("a source's tree without a router", viq_source_tree(NULL, 0x0a000305, 0xe1010101, &source_tree), false);
    is("a link without a router", viq_link(NULL, 0, &link), false);
    is("a neighbour without a router", viq_neighbour(NULL, 0, 0x0a000001, &neighbour), false);
    is("what isn't told of trees", tree.rpf_cause == 7 && source_tree.rpf_cause == 7, true);
    is("what isn't told of links", link.dr == 7 && neighbour.end == 7, true);
    is("its forwarding", forwarding.rpf, 7);
    is("offload without a router", viq_offload(NULL, 0x0a000305, 0xe1010101, &plane), false);
    is("its row", plane.incoming, 7);
    is("changed without a router", viq_changed(NULL), 0);
    is("a changed source without a router", viq_changed_source(NULL, 0, &name), false);
    is("its name", name.source == 7 && name.group == 7, true);
    is("may differ without a router", viq_may_differ(NULL, 0x0a000305, 0xe1010101), true);
    is("seen without a router", viq_seen(NULL, 0, 0x0a000305, 0xe1010101, viq_draw(0)), VIQ_NO_ROUTER);
    is("keep without a router", viq_keep(NULL, 0x0a000305, 0xe1010101, 1), VIQ_NO_ROUTER);
    is("probes without a router", viq_probes(NULL), 0);
    is("touched without a router", viq_touched(NULL), 0);
    size_t size = 7;
    is("save without a router", viq_save(NULL, room, 2, &size), VIQ_NO_ROUTER);
    is("what isn't written of it", size == 7 && room[0] == 7 && room[1] == 7, true);
    viq_end(NULL);
}

/* ---- configurations that are refused */

static void refused_settings(void) {
    struct { struct viq_settings settings; uint32_t answer; } tries[] = {
        {{0, 2, 125, 100, 10, false, NULL, 0}, 34}, {{1000001, 2, 125, 100, 10, false, NULL, 0}, 34}, {{65536, 1, 125, 100, 10, false, NULL, 0}, 35},
        {{65536, 8, 125, 100, 10, false, NULL, 0}, 35}, {{65536, 2, 0, 100, 10, false, NULL, 0}, 35}, {{65536, 2, 31745, 100, 10, false, NULL, 0}, 35},
        {{65536, 2, 125, 0, 10, false, NULL, 0}, 35}, {{65536, 2, 125, 1250, 10, false, NULL, 0}, 35}, {{65536, 2, 31744, 31745, 10, false, NULL, 0}, 35},
        {{65536, 2, 125, 100, 0, false, NULL, 0}, 35}, {{65536, 2, 125, 100, 256, false, NULL, 0}, 35},
        {{1, 2, 1, 1, 1, true, NULL, 0}, 0}, {{1000000, 7, 31744, 31744, 255, false, NULL, 0}, 0}, {{65536, 2, 125, 1249, 10, true, NULL, 0}, 0},
    };
    for (size_t at = 0; at < COUNT(tries); at++) 
        is("settings", can_be_made(&tries[at].settings, three, COUNT(three), two, COUNT(two), one, COUNT(one)), tries[at].answer);
}

/* Own addresses of no interface: as many as there may be, and each reason to refuse them. */
static void refused_addresses(void) {
    static const uint32_t own[] = {0x0aff0001, 0x0aff0000}, twice[] = {0x0aff0001, 1, 0x0aff0001};
    static const uint32_t nobody = 0, group = 0xe0000000, last = 0xdfffffff, of_an_interface = 0x0a000101, of_its_subnet = 0x0a0001ff;
    static uint32_t many[VIQ_MOST_ADDRESSES + 1];
    for (uint32_t at = 0; at < COUNT(many); at++) many[at] = 0x0aff0000 + at;
    struct { const uint32_t *addresses; size_t count; uint32_t answer; } tries[] = {
        {own, 2, 0}, {NULL, 0, 0}, {&last, 1, 0}, {many, VIQ_MOST_ADDRESSES, 0}, {many, VIQ_MOST_ADDRESSES + 1, 70}, {many, SIZE_MAX, 70},
        {twice, 3, 70}, {twice, 2, 0}, {&nobody, 1, 70}, {&group, 1, 70}, {&of_an_interface, 1, 70}, {&of_its_subnet, 1, 70},
    };
    for (size_t at = 0; at < COUNT(tries); at++) {
        struct viq_settings settings = usual, bad = usual;
        settings.addresses = bad.addresses = tries[at].addresses;
        settings.address_count = bad.address_count = tries[at].count;
        bad.limit = 0;
        is("addresses", can_be_made(&settings, three, COUNT(three), two, COUNT(two), one, COUNT(one)), tries[at].answer);
        is("what is tested before them", can_be_made(&bad, three, COUNT(three), two, COUNT(two), one, COUNT(one)), VIQ_BAD_LIMIT);
        is("a refusal as others", viq_is_refused(tries[at].answer), tries[at].answer != 0);
    }
    struct viq_settings settings = usual;
    settings.addresses = own;
    settings.address_count = 2;
    struct viq_route to_itself = {0x0a090900, 24, 0x0aff0000, 0, 110, 20};
    struct viq_refused_at at = {7, 7};
    is("a next hop of no interface", can_be_made(&settings, three, COUNT(three), &to_itself, 1, one, 1), VIQ_CONFIGURED_ROUTES);
    is("it is told", viq_routes_refused_at(three, COUNT(three), own, 2, &to_itself, 1, &at) && at.reason == VIQ_ITEM_OWN, true);
    is("it is another's", can_be_made(&usual, three, COUNT(three), &to_itself, 1, one, 1), VIQ_DONE);
}

/* It is the RP by an address of no interface, and is another one's router without it. */
static void rp_on_no_interface(void) {
    static const uint32_t own = 0x0a090909;
    struct viq_settings settings = usual;
    struct viq_router *router = NULL;
    struct viq_tree tree;
    settings.addresses = &own;
    settings.address_count = 1;
    is("a router with an address", made(&router, &settings), VIQ_DONE);
    is("its interface goes up", viq_up(router, 0, viq_draw(0)), VIQ_DONE);
    is("the tree of its group", viq_tree(router, 0xe1010101, &tree), true);
    is("no way to itself", tree.rp.value == own && !tree.path.is_there, true);
    is("another configuration", reloaded(router, &usual, COUNT(three)), VIQ_DONE);
    is("the tree again", viq_tree(router, 0xe1010101, &tree), true);
    is("a way to the RP", tree.path.is_there && tree.path.next_hop == 0x0a000001, true);
    is("the address again", reloaded(router, &settings, COUNT(three)), VIQ_DONE);
    is("the tree then", viq_tree(router, 0xe1010101, &tree) && !tree.path.is_there, true);
    viq_end(router);
}

static void refused_interfaces(void) {
    struct { struct viq_interface interface; uint32_t answer; } tries[] = {
        {{0, 24, 1, 500, 2500}, 31}, {{0xe0000000, 24, 1, 500, 2500}, 31}, {{0x0a000002, 0, 1, 500, 2500}, 32},
        {{0x0a000002, 32, 1, 500, 2500}, 32}, {{0x0a000002, 24, 1, 32768, 2500}, 36}, {{0x0a000002, 24, 1, 500, 65536}, 36},
        {{0xdffffffe, 31, 0, 32767, 65535}, 0}, {{1, 1, UINT32_MAX, 0, 0}, 0},
    };
    struct viq_interface many[121];
    for (size_t at = 0; at < COUNT(tries); at++)
        is("an interface", can_be_made(&usual, &tries[at].interface, 1, two, 0, one, 0), tries[at].answer);
    for (uint32_t at = 0; at < COUNT(many); at++) many[at] = (struct viq_interface){0x0a000001 + (at << 8), 24, 1, 500, 2500};
    is("no interfaces", can_be_made(&usual, many, 0, two, 0, one, 0), 30);
    is("121 interfaces", can_be_made(&usual, many, 121, two, 0, one, 0), 30);
    is("120 interfaces", can_be_made(&usual, many, 120, two, 0, one, 0), VIQ_DONE);
    many[7].length = 16;
    is("overlap", can_be_made(&usual, many, 120, two, 0, one, 0), 33);
}

/* As events, and in the configuration with an answer of 12 more. */
static void refused_lists(struct viq_router *router) {
    struct { struct viq_route route; uint32_t answer; } routes[] = {
        {{0x0a090901, 24, 0x0a000001, 0, 110, 20}, 25}, {{0x0a090900, 33, 0x0a000001, 0, 110, 20}, 25},
        {{0x0a090900, 24, 0x0a000001, 3, 110, 20}, 25}, {{0x0a090900, 24, 0x0a000002, 0, 110, 20}, 25},
        {{0x0a090900, 24, 0xe0000001, 0, 110, 20}, 25}, {{0x0a090900, 24, 0x0a000001, 0, 0x7fffffff, 20}, 25},
        {{0x0a090900, 24, 0x0a000001, 0, 0x7ffffffe, UINT32_MAX}, 0}, {{0, 0, 0x0a000201 + 5, 2, 0, 0}, 0},
    };
    struct { struct viq_range range; uint32_t answer; } ranges[] = {
        {{0xe0000001, 4, 0x0a090909}, 26}, {{0xe0000000, 3, 0x0a090909}, 26}, {{0xe1010101, 33, 0x0a090909}, 26},
        {{0x0a000000, 8, 0x0a090909}, 26}, {{0xe0000000, 4, 0xe0000001}, 26}, {{0xe1010101, 32, 0x0a000002}, 0},
    };
    for (size_t at = 0; at < COUNT(routes); at++) {
        uint32_t answer = routes[at].answer;
        is("a route", viq_routes(router, &routes[at].route, 1, viq_draw(0)), answer);
        is("a configured route", can_be_made(&usual, three, 3, &routes[at].route, 1, one, 1), answer ? answer + 12 : 0);
    }
    for (size_t at = 0; at < COUNT(ranges); at++) {
        uint32_t answer = ranges[at].answer;
        is("a range", viq_ranges(router, &ranges[at].range, 1, viq_draw(0)), answer);
        is("a configured range", can_be_made(&usual, three, 3, two, 2, &ranges[at].range, 1), answer ? answer + 12 : 0);
    }
    struct viq_route twice[] = {two[0], two[0]};
    is("a route twice", viq_routes(router, twice, 2, viq_draw(0)), 25);
    is("no routes", viq_routes(router, twice, 0, viq_draw(0)), VIQ_DONE);
    is("no ranges", viq_ranges(router, one, 0, viq_draw(0)), VIQ_DONE);
    is("no routes at NULL", viq_routes(router, NULL, 0, viq_draw(0)), VIQ_DONE);
    is("no ranges at NULL", viq_ranges(router, NULL, 0, viq_draw(0)), VIQ_DONE);
    is("no lists at NULL", can_be_made(&usual, three, 3, NULL, 0, NULL, 0), VIQ_DONE);
    is("no interfaces at NULL", can_be_made(&usual, NULL, 0, NULL, 0, NULL, 0), VIQ_INTERFACE_COUNT);
}

/* A list that is too long is refused by its count, and isn't read: here it isn't there. */
/* Each reason, at an item behind one that can stand; and that the library refuses as they tell. */
static void refused_items(void) {
    struct { struct viq_route route; uint32_t reason; } wrong[] = {
        {{0x0a000000, 33, 0x0a000001, 0, 1, 1}, VIQ_ITEM_LENGTH}, {{0x0a000001, 31, 0x0a000001, 0, 1, 1}, VIQ_ITEM_HOST_BITS},
        {{1, 0, 0x0a000001, 0, 1, 1}, VIQ_ITEM_HOST_BITS}, {{0, 0, 0x0a000001, 3, 1, 1}, VIQ_ITEM_INTERFACE},
        {{0, 0, 0, 0, 1, 1}, VIQ_ITEM_NO_HOST}, {{0, 0, 0xe0000000, 0, 1, 1}, VIQ_ITEM_NO_HOST},
        {{0, 0, 0x0a000201, 0, 1, 1}, VIQ_ITEM_OWN}, {{0, 0, 0x0a000001, 0, 0x7fffffff, 1}, VIQ_ITEM_PREFERENCE},
        {two[0], VIQ_ITEM_TWICE}, {{0, 0, 0xdfffffff, 2, 0x7ffffffe, UINT32_MAX}, 0}, {{5, 32, 1, 0, 0, 0}, 0}};
    struct { struct viq_range range; uint32_t reason; } bad[] = {
        {{0xe0000000, 3, 1}, VIQ_ITEM_LENGTH}, {{0xe0000000, 33, 1}, VIQ_ITEM_LENGTH}, {{0xe0000001, 31, 1}, VIQ_ITEM_HOST_BITS},
        {{0xd0000000, 4, 1}, VIQ_ITEM_NO_GROUPS}, {{0xe8000000, 8, 0}, VIQ_ITEM_NO_HOST},
        {{0xe8000000, 8, 0xe0000000}, VIQ_ITEM_NO_HOST}, {one[0], VIQ_ITEM_TWICE}, {{0xe0000000, 5, 1}, 0}};
    struct { struct viq_candidate candidate; uint32_t reason; } odd[] = {
        {{0xe0000000, 3, 1, 0, 0}, VIQ_ITEM_LENGTH}, {{0xe0000000, 33, 1, 0, 0}, VIQ_ITEM_LENGTH},
        {{0xe0000001, 31, 1, 0, 0}, VIQ_ITEM_HOST_BITS}, {{0xd0000000, 4, 1, 0, 0}, VIQ_ITEM_NO_GROUPS},
        {{0xe8000000, 8, 0, 0, 0}, VIQ_ITEM_NO_HOST}, {{0xe8000000, 8, 0xe0000000, 0, 0}, VIQ_ITEM_NO_HOST},
        {{0xef000000, 8, 1, 256, 0}, VIQ_ITEM_PRIORITY}, {{0xef000000, 8, 1, 0, 33}, VIQ_ITEM_HASH_LENGTH},
        {{0xef000000, 8, 0x0a090909, 0, 0}, VIQ_ITEM_RP_TWICE}, {{0xef000000, 9, 0x0a090909, 7, 30}, 0}, {{0xef000000, 8, 1, 255, 32}, 0}};
    struct viq_refused_at at = {7, 7};
    for (size_t n = 0; n < COUNT(odd); n++) {
        struct viq_candidate candidates[] = {pair[0], odd[n].candidate};
        struct viq_router *router;
        is("a candidate that is refused", viq_candidates_refused_at(candidates, 2, &at), odd[n].reason != 0);
        is("its reason", at.reason, odd[n].reason);
        is("its place", at.index, odd[n].reason ? 1 : 2);
        is("a router for it", made(&router, &usual), VIQ_DONE);
        is("as the library says", viq_candidates(router, candidates, 2, viq_draw(0)), odd[n].reason ? VIQ_BAD_CANDIDATES : VIQ_DONE);
        viq_end(router);
    }
    for (size_t n = 0; n < COUNT(wrong); n++) {
        struct viq_route routes[] = {two[0], wrong[n].route};
        is("a route that is refused", viq_routes_refused_at(three, COUNT(three), NULL, 0, routes, 2, &at), wrong[n].reason != 0);
        is("its reason", at.reason, wrong[n].reason);
        is("its place", at.index, wrong[n].reason ? 1 : 2);
        is("as the library says", can_be_made(&usual, three, COUNT(three), routes, 2, NULL, 0), wrong[n].reason ? 37 : 0);
    }
    for (size_t n = 0; n < COUNT(bad); n++) {
        struct viq_range ranges[] = {one[0], bad[n].range};
        is("a range that is refused", viq_ranges_refused_at(ranges, 2, &at), bad[n].reason != 0);
        is("its reason", at.reason, bad[n].reason);
        is("its place", at.index, bad[n].reason ? 1 : 2);
        is("as the library says", can_be_made(&usual, three, COUNT(three), NULL, 0, ranges, 2), bad[n].reason ? 38 : 0);
    }
    static struct viq_route many[VIQ_MOST_ROUTES];
    for (uint32_t n = 0; n < COUNT(many); n++) many[n] = (struct viq_route){n << 8, 24, 0x0a000001, 0, 1, 1};
    is("as many as there may be", viq_routes_refused_at(three, COUNT(three), NULL, 0, many, COUNT(many), &at), false);
    many[99000] = many[70000];
    many[50000] = many[90000];
    is("two that are there twice", viq_routes_refused_at(three, COUNT(three), NULL, 0, many, COUNT(many), &at), true);
    is("the first of them", at.index == 90000 && at.reason == VIQ_ITEM_TWICE, true);
    is("too many", viq_routes_refused_at(three, COUNT(three), NULL, 0, many, SIZE_MAX, &at), true);
    is("the first too many", at.index == VIQ_MOST_ROUTES && at.reason == VIQ_ITEM_COUNT, true);
    is("too many ranges", viq_ranges_refused_at(one, SIZE_MAX, &at) && at.index == VIQ_MOST_RANGES && at.reason == VIQ_ITEM_COUNT, true);
    is("too many candidates", viq_candidates_refused_at(pair, SIZE_MAX, &at) && at.index == VIQ_MOST_CANDIDATES && at.reason == VIQ_ITEM_COUNT, true);
    is("no lists", viq_routes_refused_at(NULL, 0, NULL, 0, NULL, 0, &at) || viq_ranges_refused_at(NULL, 0, &at), false);
    is("no candidates", viq_candidates_refused_at(NULL, 0, &at), false);
    for (uint32_t reason = 0; reason < VIQ_ITEM_RP_TWICE; reason++)
        is("a text of its own", strcmp(viq_refused_text(reason), viq_refused_text(reason + 1)) != 0, true);
}

static void long_lists(struct viq_router *router) {
    static const size_t counts[] = {VIQ_MOST_ROUTES + 1, (size_t)1 << 40, SIZE_MAX};
    static const struct viq_settings bad = {0, 2, 125, 100, 10, false, NULL, 0};
    for (size_t at = 0; at < COUNT(counts); at++) {
        is("too many interfaces", can_be_made(&usual, three, counts[at], two, 2, one, 1), VIQ_INTERFACE_COUNT);
        is("too many routes", can_be_made(&usual, three, 3, two, counts[at], one, 1), VIQ_CONFIGURED_ROUTES);
        is("too many ranges", can_be_made(&usual, three, 3, two, 2, one, counts[at]), VIQ_CONFIGURED_RANGES);
        is("what is tested before", can_be_made(&bad, three, 3, two, counts[at], one, counts[at]), VIQ_BAD_LIMIT);
        is("routes before ranges", can_be_made(&usual, three, 3, two, counts[at], one, counts[at]), VIQ_CONFIGURED_ROUTES);
        is("too many new routes", viq_routes(router, two, counts[at], viq_draw(0)), VIQ_BAD_ROUTES);
        is("too many new ranges", viq_ranges(router, one, counts[at], viq_draw(0)), VIQ_BAD_RANGES);
        is("too many candidates", viq_candidates(router, pair, counts[at], viq_draw(0)), VIQ_BAD_CANDIDATES);
    }
    is("257 candidates", viq_candidates(router, pair, VIQ_MOST_CANDIDATES + 1, viq_draw(0)), VIQ_BAD_CANDIDATES);
    is("257 ranges", viq_ranges(router, one, VIQ_MOST_RANGES + 1, viq_draw(0)), VIQ_BAD_RANGES);
    is("no node is visited", viq_probes(router), 0);
}

static void other_abi(void) {
    struct viq_router *router = (struct viq_router *)&wrong;
    uint32_t other[] = {0, VIQ_ABI + 1, UINT32_MAX};
    for (size_t at = 0; at < COUNT(other); at++) {
        uint32_t answer = viq_new(&router, other[at], &usual, three, COUNT(three), two, COUNT(two), one, COUNT(one));
        is("another ABI", answer, VIQ_OTHER_ABI);
        is("no router of it", router == NULL, true);
    }
    is("the library's own", viq_abi(), VIQ_ABI);
}

static void configurations(void) {
    struct viq_router *router = (struct viq_router *)&wrong, *other = NULL;
    is("new", made(&router, &usual), VIQ_DONE);
    is("the router", router != NULL, true);
    is("up", viq_up(router, 0, viq_draw(7)), VIQ_DONE);
    struct viq_settings wrong_one = {0, 2, 125, 100, 10, false, NULL, 0};
    is("new that is refused", made(&other, &wrong_one), 34);
    is("there is none", other == NULL, true);
    is("its packets", viq_packets(router), 1);
    is("new beside it", made(&other, &usual), VIQ_DONE);
    is("its first moment", viq_next_moment(other), VIQ_NEVER);
    is("no packets", viq_packets(other), 0);
    viq_end(router);
    refused_settings();
    refused_addresses();
    rp_on_no_interface();
    refused_interfaces();
    refused_lists(other);
    long_lists(other);
    refused_items();
    other_abi();
    viq_end(other);
}

/* ---- events: a Join of 10.0.1.2 and two packets of its source, as in crates/test_scenarios/data/a_join_that_is_over.toml
 * */

static const char hello_above[] = "45C0001E000000000167CEAB0A000001E000000D2000DFFC00010002FFFF";
static const char hello_below[] = "45C0001E000000000167CDAA0A000102E000000D2000DFFC00010002FFFF";
static const char join[] =
    "45C00036000000000167CD920A000102E000000D2300DBB301000A0001010001000101000020E101010100010000010004200A000305";
static const char data[] = "4500001C0000000040118BCA0A000305E10101010001000200030004";
static const char copy[] = "4500001C000000003F118CCA0A000305E10101010001000200030004";

static size_t bytes_of(const char *hex, uint8_t *bytes) {
    size_t count = 0;
    for (unsigned byte; sscanf(hex + 2 * count, "%2x", &byte) == 1; count++) bytes[count] = (uint8_t)byte;
    return count;
}

static uint32_t frame(struct viq_router *router, uint32_t iface, const char *hex) {
    uint8_t packet[VIQ_MOST_BYTES];
    return viq_frame(router, iface, packet, bytes_of(hex, packet), viq_draw(0));
}

static void moments_and_interfaces(struct viq_router *router) {
    uint8_t none[1] = {0};
    is("advance to 5", viq_advance(router, 5, viq_draw(0)), VIQ_DONE);
    is("advance back", viq_advance(router, 4, viq_draw(0)), 20);
    is("advance to the present", viq_advance(router, 5, viq_draw(0)), VIQ_DONE);
    is("advance too far", viq_advance(router, ((uint64_t)1 << 62) + 1, viq_draw(0)), 21);
    is("up of no interface", viq_up(router, 3, viq_draw(0)), 22);
    is("down of no interface", viq_down(router, 3, viq_draw(0)), 22);
    is("frame on no interface", frame(router, 3, data), 22);
    is("frame on one that is down", frame(router, 0, data), 23);
    is("down of one that is down", viq_down(router, 0, viq_draw(0)), VIQ_ALREADY);
    is("up", viq_up(router, 0, viq_draw(7)), VIQ_DONE);
    is("a packet of it", viq_packets(router), 1);
    is("up once more", viq_up(router, 0, viq_draw(7)), VIQ_ALREADY);
    is("no packet of what is ignored", viq_packets(router), 0);
    is("a frame without bytes", viq_frame(router, 0, none, 0, viq_draw(0)), 1);
    is("a unicast without bytes", viq_unicast(router, none, 0, viq_draw(0)), 1);
    is("a unicast of NULL", viq_unicast(router, NULL, 0, viq_draw(0)), 1);
    is("a frame of NULL", viq_frame(router, 0, NULL, 0, viq_draw(0)), 1);
    is("up of the second", viq_up(router, 1, viq_draw(7)), VIQ_DONE);
    is("up of the third", viq_up(router, 2, viq_draw(7)), VIQ_DONE);
}

static void packets(struct viq_router *router) {
    uint8_t wanted[VIQ_MOST_BYTES], room[VIQ_MOST_BYTES];
    struct viq_packet packet = {7, 7, 7, 7};
    size_t length = bytes_of(copy, wanted);
    is("hello", frame(router, 0, hello_above), VIQ_DONE);
    is("hello of the other", frame(router, 1, hello_below), VIQ_DONE);
    is("join", frame(router, 1, join), VIQ_DONE);
    is("a Hello and a Join", viq_packets(router), 2);
    is("the Hello", viq_take(router, &packet, room, sizeof room), true);
    is("the Join", viq_take(router, &packet, room, sizeof room), true);
    is("it is no copy", packet.kind == VIQ_FRAME && packet.iface == 0, true);
    is("none is a copy", viq_copies(router), 0);
    is("data", frame(router, 0, data), VIQ_DONE);
    is("one packet", viq_packets(router), 1);
    is("a copy", viq_copies(router), 1);
    packet.length = 7;
    memset(room, 7, sizeof room);
    is("the copy into a room that is one byte too small", viq_take(router, &packet, room, length - 1), false);
    is("the copy into no room", viq_take(router, &packet, room, 0), false);
    is("the copy into no room at NULL", viq_take(router, &packet, NULL, 0), false);
    is("what isn't written", packet.length == 7 && room[0] == 7 && viq_packets(router) == 1, true);
    is("the copy", viq_take(router, &packet, room, sizeof room), true);
    is("what it is", packet.kind == VIQ_COPY && packet.iface == 1 && packet.destination == 0 && packet.length == length, true);
    is("its bytes", memcmp(room, wanted, length) == 0, true);
    is("the rest of the room", room[length] == 7 && room[sizeof room - 1] == 7, true);
    is("it is taken", viq_packets(router), 0);
    is("a second packet", viq_take(router, &packet, room, sizeof room), false);
    is("what was sent", viq_copies(router), 1);
    is("the node of the group and of the source", viq_probes(router) >= 1, true);
    is("data of the known source", frame(router, 0, data), VIQ_DONE);
    is("its nodes", viq_probes(router) >= 1 && viq_probes(router) <= 66, true);
    is("no row is touched", viq_touched(router), 0);
}

/* Whether an event is refused, and nothing is changed by it. */
static void untaken(struct viq_router *router) {
    static uint8_t before[4096], after[sizeof before];
    uint8_t bytes[VIQ_MOST_BYTES];
    size_t length = bytes_of(data, bytes), size = 0, size_after = 0;
    viq_clear(router);
    is("a frame whose copy stays", (viq_frame)(router, 0, bytes, length, viq_draw(0)), VIQ_DONE);
    is("save before", viq_save(router, before, sizeof before, &size), VIQ_DONE);
    uint32_t answers[] = {
        (viq_advance)(router, 9, viq_draw(0)), (viq_frame)(router, 0, bytes, length, viq_draw(0)),
        (viq_frame)(router, 9, NULL, 0, viq_draw(0)), (viq_unicast)(router, NULL, 0, viq_draw(0)),
        (viq_up)(router, 0, viq_draw(0)), (viq_down)(router, 0, viq_draw(0)),
        (viq_routes)(router, two, 1, viq_draw(0)), (viq_ranges)(router, one, 0, viq_draw(0)),
        (viq_candidates)(router, pair, 2, viq_draw(0)),
        (viq_seen)(router, 0, 0x0a000305, 0xe1010101, viq_draw(0)),
        (viq_reload)(router, &usual, three, COUNT(three), two, COUNT(two), one, COUNT(one), viq_draw(0))};
    for (size_t at = 0; at < COUNT(answers); at++) is("untaken", answers[at], VIQ_UNTAKEN);
    struct viq_received frames[] = {{0, bytes, length, viq_draw(0)}, {0, bytes, length, viq_draw(0)}};
    uint32_t told[] = {7, 7};
    is("one of two frames", viq_frames(router, frames, 2, told), 1);
    is("untaken too", told[0] == VIQ_UNTAKEN && told[1] == 7, true);
    is("no frames", viq_frames(router, NULL, 0, NULL), 0);
    is("keep sends nothing", viq_keep(router, 0x0a000306, 0xe1010101, 1), VIQ_NO_TIMER);
    is("save after", viq_save(router, after, sizeof after, &size_after), VIQ_DONE);
    is("the same state", size == size_after && memcmp(before, after, size) == 0, true);
    is("the packet is there", viq_packets(router) == 1 && viq_copies(router) == 1 && viq_touched(router) == 0, true);
    viq_clear(router);
    is("it is dropped", viq_packets(router), 0);
    is("what is ignored is taken", (viq_up)(router, 0, viq_draw(0)), VIQ_ALREADY);
}

static void tables(struct viq_router *router) {
    static const struct { uint8_t letter; size_t rows; } wanted[] = {{'N', 2}, {'G', 0}, {'S', 0}, {'D', 1}, {'A', 0}, {'U', 1}, {'R', 0}, {'F', 1}};
    struct viq_row row = {.table = 7};
    for (size_t at = 0; at < COUNT(wanted); at++) {
        is("read", viq_read(router, wanted[at].letter), VIQ_DONE);
        is("how many rows", viq_rows(router), wanted[at].rows);
    }
    is("no table", viq_read(router, 'n'), VIQ_NO_TABLE);
    is("the rows before it", viq_rows(router), 1);
    is("neighbours", viq_read(router, 'N'), VIQ_DONE);
    is("no third one", viq_row(router, 2, &row), false);
    is("what isn't written", row.table, 7);
    is("the second one", viq_row(router, 1, &row), true);
    struct viq_neighbour_row neighbour = row.of.neighbour;
    is("its table", row.table == 'N' && neighbour.iface == 1 && neighbour.address == 0x0a000102 && neighbour.end == VIQ_NEVER, true);
    is("joins", viq_read(router, 'D'), VIQ_DONE);
    is("the join", viq_row(router, 0, &row), true);
    struct viq_downstream_row join = row.of.downstream;
    is("whose", row.table == 'D' && join.iface == 1 && join.group == 0xe1010101 && join.source == 0x0a000305 && !join.is_rpt, true);
    is("joined for a second", join.state == VIQ_JOINED && join.end == 5 + 1000 && join.pending == VIQ_NEVER, true);
    is("upstream", viq_read(router, 'U'), VIQ_DONE);
    is("what is joined", viq_row(router, 0, &row), true);
    struct viq_upstream_row upstream = row.of.upstream;
    is("its source", row.table == 'U' && upstream.group == 0xe1010101 && upstream.source == 0x0a000305, true);
    is("the next Join is to come", upstream.next_join > 5 && upstream.next_join <= 5 + 60000, true);
    is("active", viq_read(router, 'F'), VIQ_DONE);
    is("the source", viq_row(router, 0, &row), true);
    struct viq_active_row active = row.of.active;
    is("which", row.table == 'F' && active.group == 0xe1010101 && active.source == 0x0a000305, true);
    is("by its own tree, without a register", active.spt_bit && active.register_state == VIQ_REGISTER_NONE, true);
    is("joins once more", viq_read(router, 'D'), VIQ_DONE);
    is("down", viq_down(router, 1, viq_draw(0)), VIQ_DONE);
    is("the rows stay", viq_rows(router), 1);
    is("joins again", viq_read(router, 'D'), VIQ_DONE);
    is("there is none", viq_rows(router), 0);
}

static void cached(struct viq_router *router) {
    struct viq_forwarding told = {.rpf = 7};
    is("no fact of another source", viq_cached(router, 0x0a000306, 0xe1010101, &told), false);
    is("what isn't told", told.rpf, 7);
    is("the source's row", viq_cached(router, 0x0a000305, 0xe1010101, &told), true);
    is("by the source's tree", told.rpf == 0 && told.has_spt_bit && !told.has_tunnel, true);
    is("the way to the RP", told.shared_rpf, 0);
    is("immediate_olist", told.immediate.low == 1 << 1 && told.immediate.high == 0, true);
    is("inherited_olist", told.inherited.low == 1 << 1 && told.inherited.high == 0, true);
    is("inherited_olist on the shared tree", told.shared_tree.low == 0 && told.shared_tree.high == 0, true);
}

/* ---- trees and links */

static void told_trees(struct viq_router *router) {
    struct viq_tree tree = {.rpf_cause = 7};
    is("a group's tree", viq_tree(router, 0xe1010101, &tree), true);
    is("its RP", tree.rp.is_there && tree.rp.value == 0x0a090909, true);
    is("the way to it", tree.path.is_there && !tree.path.is_connected && tree.path.iface == 0 && tree.path.next_hop == 0x0a000001, true);
    is("as the route says", tree.path.preference == 110 && tree.path.metric == 20, true);
    is("its neighbour", tree.rpf_neighbour.is_there && tree.rpf_neighbour.iface == 0 && tree.rpf_neighbour.address == 0x0a000001, true);
    is("by the next hop", tree.rpf_cause, VIQ_RPF_NEXT_HOP);
    is("nobody asks", tree.join_desired || tree.joins.low || tree.immediate_olist.low || tree.pim_include.low, false);
    is("an SSM group's tree", viq_tree(router, 0xe8010101, &tree), true);
    is("it has no RP", tree.rp.is_there || tree.path.is_there || tree.rpf_neighbour.is_there, false);
    is("and so no neighbour", tree.rpf_cause, VIQ_RPF_NO_RP);
    struct viq_source_tree source = {.rpf_cause = 7};
    is("a source's tree", viq_source_tree(router, 0x0a000305, 0xe1010101, &source), true);
    is("it is joined", source.join_desired && source.joins.low == 1 << 1 && source.immediate_olist.low == 1 << 1, true);
    is("and inherited", source.inherited_olist.low == 1 << 1 && source.inherited_olist_rpt.low == 0, true);
    is("to its neighbour", source.rpf_neighbour.is_there && source.rpf_neighbour.address == 0x0a000001, true);
    is("by its next hop", source.rpf_cause, VIQ_RPF_NEXT_HOP);
    is("its bit and its timer", source.spt_bit && source.is_kept_alive, true);
    is("no tunnel", source.has_tunnel || source.could_register || source.prune_desired, false);
    is("the group isn't joined", source.rpt_state, VIQ_RPT_NOT_JOINED);
    is("another source's tree", viq_source_tree(router, 0x0a000306, 0xe1010101, &source), true);
    is("nobody joined it", source.join_desired || source.joins.low || source.inherited_olist.low || source.spt_bit, false);
    is("one on a link of the router", viq_source_tree(router, 0x0a000207, 0xe1010101, &source), true);
    is("which is no neighbour", source.path.is_connected && source.rpf_cause == VIQ_RPF_CONNECTED, true);
    is("one of the router's own", viq_source_tree(router, 0x0a000101, 0xe1010101, &source), true);
    is("which has no way", !source.path.is_there && source.rpf_cause == VIQ_RPF_OWN, true);
}

static void told_links(struct viq_router *router) {
    struct viq_link link = {.dr = 7};
    is("no interface of this number", viq_link(router, 3, &link), false);
    is("what isn't told", link.dr, 7);
    is("a link", viq_link(router, 1, &link), true);
    is("it is up", link.is_up, true);
    is("the neighbour is the DR", !link.is_dr && link.dr == 0x0a000102, true);
    is("the router queries", link.querier.role == VIQ_QUERIER_OWN && link.querier.robustness == 2 && link.querier.query_interval == 125, true);
    struct viq_neighbour neighbour = {.end = 7};
    is("no neighbour of this address", viq_neighbour(router, 1, 0x0a000103, &neighbour), false);
    is("nor is it told", neighbour.end, 7);
    is("a neighbour", viq_neighbour(router, 1, 0x0a000102, &neighbour), true);
    is("which stays for ever", neighbour.end, VIQ_NEVER);
}

/* ---- a data plane: the source of the Join, another one, and a third that is on the router's own link */

static void told_rows(struct viq_router *router) {
    struct viq_plane_row row = {.incoming = 7};
    is("the source's row", viq_offload(router, 0x0a000305, 0xe1010101, &row), true);
    is("it is known", row.is_known, true);
    is("by the source's tree", row.incoming, 0);
    is("where copies leave", row.outgoing.low == 1 << 1 && row.outgoing.high == 0, true);
    is("where it is alive", row.alive.low == 1 << 0 && row.alive.high == 0, true);
    is("where it is the router's", row.to_core.low == 1 << 1 && row.to_core.high == 0, true);
    is("another source's row", viq_offload(router, 0x0a000306, 0xe1010101, &row), true);
    is("it is unknown", row.is_known, false);
    is("by the shared tree", row.incoming, 0);
    is("no copies", row.outgoing.low | row.outgoing.high, 0);
    is("nobody hears of it", row.alive.low | row.alive.high, 0);
    is("nowhere the router's", row.to_core.low | row.to_core.high, 0);
    is("one on a link of the router", viq_offload(router, 0x0a000207, 0xe1010101, &row), true);
    is("whose first packet is the router's", row.to_core.low, 1 << 2);
}

static void told_packets(struct viq_router *router) {
    struct viq_source_group name = {7, 7};
    is("seen", viq_seen(router, 0, 0x0a000305, 0xe1010101, viq_draw(0)), VIQ_DONE);
    is("nothing leaves", viq_packets(router), 0);
    is("nothing is touched", viq_touched(router), 0);
    is("nothing changed", viq_changed(router), 0);
    is("nothing may differ", viq_may_differ(router, 0x0a000305, 0xe1010101), false);
    is("seen on no interface", viq_seen(router, 3, 0x0a000305, 0xe1010101, viq_draw(0)), 22);
    is("seen of an address of the router", viq_seen(router, 0, 0x0a000002, 0xe1010101, viq_draw(0)), VIQ_OWN);
    is("seen to no group", viq_seen(router, 0, 0x0a000305, 0x0a000306, viq_draw(0)), VIQ_NOT_FOR_ME);
    is("seen of a source on a link", viq_seen(router, 2, 0x0a000207, 0xe1010101, viq_draw(0)), VIQ_DONE);
    is("its row changed", viq_changed(router), 1);
    is("whose", viq_changed_source(router, 0, &name), true);
    is("its source and group", name.source == 0x0a000207 && name.group == 0xe1010101, true);
    is("no second one", viq_changed_source(router, 1, &name), false);
    is("it may differ", viq_may_differ(router, 0x0a000207, 0xe1010101), true);
    is("others don't", viq_may_differ(router, 0x0a000306, 0xe1010102), false);
    is("keep", viq_keep(router, 0x0a000305, 0xe1010101, 1000), VIQ_DONE);
    is("what changed stays", viq_changed(router), 1);
    is("keep at the last moment", viq_keep(router, 0x0a000306, 0xe1010101, (uint64_t)1 << 62), VIQ_NO_TIMER);
    is("keep beyond it", viq_keep(router, 0x0a000305, 0xe1010101, ((uint64_t)1 << 62) + 1), VIQ_MOMENT_FAR);
    is("keep of another source", viq_keep(router, 0x0a000306, 0xe1010101, 1000), VIQ_NO_TIMER);
    is("active sources", viq_read(router, 'F'), VIQ_DONE);
    is("how many", viq_rows(router), 2);
}

static void kept(struct viq_router *router) {
    struct viq_row row = {.table = 7};
    is("the second one", viq_row(router, 1, &row), true);
    is("it is kept for 210 s", row.of.active.source == 0x0a000305 && row.of.active.keepalive == 1000 + 210000, true);
    is("keep at an earlier moment", viq_keep(router, 0x0a000305, 0xe1010101, 500), VIQ_DONE);
    is("active sources again", viq_read(router, 'F'), VIQ_DONE);
    is("the second one again", viq_row(router, 1, &row), true);
    is("its end stays", row.of.active.keepalive, 1000 + 210000);
}

static void plane(void) {
    struct viq_router *router = NULL;
    is("new for a plane", made(&router, &usual), VIQ_DONE);
    moments_and_interfaces(router);
    packets(router);
    told_rows(router);
    told_packets(router);
    kept(router);
    viq_end(router);
}

/* A router with room for one fact. */
static void full(void) {
    struct viq_settings small = VIQ_USUAL_SETTINGS;
    struct viq_router *router = NULL;
    struct viq_plane_row row = {.incoming = 7};
    small.limit = 1;
    is("new with room for one", made(&router, &small), VIQ_DONE);
    is("up", viq_up(router, 2, viq_draw(7)), VIQ_DONE);
    is("an unknown source's row", viq_offload(router, 0x0a000306, 0xe1010101, &row), true);
    is("seen of a source on a link", viq_seen(router, 2, 0x0a000207, 0xe1010101, viq_draw(0)), VIQ_DONE);
    row.incoming = 7;
    is("any source may differ", viq_may_differ(router, 0x0a000306, 0xe1010101), true);
    is("there is no room", viq_offload(router, 0x0a000306, 0xe1010101, &row), false);
    is("what isn't written", row.incoming, 7);
    is("the known one's row", viq_offload(router, 0x0a000207, 0xe1010101, &row), true);
    is("of another group there is no room", viq_seen(router, 2, 0x0a000207, 0xe1010102, viq_draw(0)), VIQ_FULL);
    viq_end(router);
}

/* New routes and RP ranges: the sources for which the route to them, RP(G) or the route to RP(G) is another one. */
static void moved_sources(void) {
    struct viq_router *router = NULL;
    is("new", made(&router, &usual), VIQ_DONE);
    is("up", viq_up(router, 0, viq_draw(7)), VIQ_DONE);
    is("all may differ", viq_may_differ(router, 0x0a090905, 0xe1010101), true);
    is("a route goes", viq_routes(router, two, 1, viq_draw(0)), VIQ_DONE);
    is("a source behind it", viq_may_differ(router, 0x0a000305, 0xe1010101), true);
    is("one behind the other route", viq_may_differ(router, 0x0a090905, 0xe1010101), false);
    is("the same route again", viq_routes(router, two, 1, viq_draw(0)), VIQ_DONE);
    is("nothing differs", viq_may_differ(router, 0x0a000305, 0xe1010101), false);
    is("the route to the RP goes", viq_routes(router, two, 0, viq_draw(0)), VIQ_DONE);
    is("a source without a route", viq_may_differ(router, 0x0a000305, 0xe1010101), true);
    is("to a group without an RP", viq_may_differ(router, 0x0a000305, 0xe8010101), false);
    is("the RP goes", viq_ranges(router, one, 0, viq_draw(0)), VIQ_DONE);
    is("a source of its group", viq_may_differ(router, 0x0a000305, 0xe1010101), true);
    is("of a group that had none", viq_may_differ(router, 0x0a000305, 0xe8010101), false);
    is("candidates come", viq_candidates(router, pair, 2, viq_draw(0)), VIQ_DONE);
    is("a source of their groups", viq_may_differ(router, 0x0a000305, 0xef010101), true);
    is("of another group", viq_may_differ(router, 0x0a000305, 0xe1010101), false);
    viq_end(router);
}

/* The RP of a group, or 0. */
static uint32_t rp_of(struct viq_router *router, uint32_t group) {
    struct viq_tree tree = {.rpf_cause = 7};
    return viq_tree(router, group, &tree) && tree.rp.is_there ? tree.rp.value : 0;
}

/* The RP of 239.1.1.1 with these candidates. */
static uint32_t rp_with(struct viq_router *router, const struct viq_candidate *candidates, size_t count) {
    is("candidates", viq_candidates(router, candidates, count, viq_draw(0)), VIQ_DONE);
    return rp_of(router, 0xef010101);
}

/* By RFC 7761, 4.7.2, Value(239.1.1.1, M, C) is 1,909,564,438 of 10.8.8.8 and 458,221,737 of 10.9.9.9 with a mask of 30
 * bits, 464,069,967 and 1,219,757,756 with one of 32. */
static void candidates(void) {
    enum { EIGHT = 0x0a080808, NINE = 0x0a090909, OTHER = 0x0a000309 };
    static const struct viq_candidate of_32[] = {{0xef000000, 8, NINE, 7, 32}, {0xef000000, 8, EIGHT, 7, 32}};
    static const struct viq_candidate lower[] = {{0xef000000, 8, NINE, 6, 30}, {0xef000000, 8, EIGHT, 7, 30}};
    static const struct viq_candidate longer[] = {{0xef000000, 8, NINE, 0, 30}, {0xef000000, 12, OTHER, 255, 0}};
    static const struct viq_candidate wide[] = {{0xe0000000, 4, EIGHT, 0, 30}};
    static const struct viq_range same[] = {{0xef000000, 8, OTHER}};
    struct viq_router *router = NULL, *again = NULL;
    uint8_t bytes[1024];
    size_t size = 0;
    is("new for candidates", made(&router, &usual), VIQ_DONE);
    is("the RP of the range", rp_of(router, 0xef010101), NINE);
    is("by the hash", rp_with(router, pair, COUNT(pair)), EIGHT);
    is("a group of the range alone", rp_of(router, 0xe1010101), NINE);
    is("an SSM group", rp_of(router, 0xe8010101), 0);
    is("by a longer mask", rp_with(router, of_32, COUNT(of_32)), NINE);
    is("by the priority", rp_with(router, lower, COUNT(lower)), NINE);
    is("by the longer prefix", rp_with(router, longer, COUNT(longer)), OTHER);
    is("of one prefix the range", rp_with(router, wide, COUNT(wide)), NINE);
    is("both again", rp_with(router, pair, COUNT(pair)), EIGHT);
    is("what is refused changes nothing", viq_candidates(router, (struct viq_candidate[]){pair[0], pair[0]}, 2, viq_draw(0)), VIQ_BAD_CANDIDATES);
    is("they stay then", rp_of(router, 0xef010101), EIGHT);
    is("a range of their prefix", viq_ranges(router, same, COUNT(same), viq_draw(0)), VIQ_DONE);
    is("it has the RP", rp_of(router, 0xef010101), OTHER);
    is("no range", viq_ranges(router, NULL, 0, viq_draw(0)), VIQ_DONE);
    is("they stay with new ranges", rp_of(router, 0xef010101), EIGHT);
    is("another configuration", reloaded(router, &usual, 2), VIQ_DONE);
    is("they stay with it", rp_of(router, 0xef010101), EIGHT);
    is("saved", viq_save(router, bytes, sizeof bytes, &size), VIQ_DONE);
    is("in version 4", memcmp(bytes, "VQST\0\4", 6), 0);
    is("restored", viq_restore(&again, VIQ_ABI, bytes, size), VIQ_DONE);
    is("with them", rp_of(again, 0xef010101), EIGHT);
    is("without candidates", rp_with(router, NULL, 0), NINE);
    viq_end(again);
    viq_end(router);
}

/* A router with 120 interfaces, and hosts on some that want a source of a group: what is told of interface 64 and
 * above. */
static void many_interfaces(void) {
    static const uint32_t hosts[] = {1, 63, 64, 119};
    struct viq_interface many[120];
    struct viq_router *router = NULL;
    struct viq_forwarding told;
    struct viq_plane_row row;
    uint8_t packet[] = {0x45, 0, 0, 28, 0, 0, 0, 0, 64, 17, 0, 0, 10, 0, 0, 9, 232, 1, 1, 1, 0, 1, 0, 2, 0, 8, 0, 0};
    for (uint32_t at = 0; at < COUNT(many); at++) many[at] = (struct viq_interface){0x0a000001 + (at << 8), 24, 1, 500, 2500};
    is("120 interfaces", viq_new(&router, VIQ_ABI, &usual, many, COUNT(many), NULL, 0, one, 1), VIQ_DONE);
    for (uint32_t at = 0; at < COUNT(many); at++) is("up", viq_up(router, at, viq_draw(at)), VIQ_DONE);
    for (size_t at = 0; at < COUNT(hosts); at++) {
        /* ALLOW of 10.0.0.9 in 232.1.1.1 */
        uint8_t report[] = {0x46, 0xc0, 0, 44, 0, 0, 0, 0, 1, 2, 0, 0, 10, 0, (uint8_t)hosts[at], 9, 224, 0, 0, 22, 0x94, 4, 0, 0,
                            0x22, 0, 0, 0, 0, 0, 0, 1, 5, 0, 0, 1, 232, 1, 1, 1, 10, 0, 0, 9};
        set_sum(report, 24, 10);
        set_sum(report + 24, 20, 2);
        is("a report", viq_frame(router, hosts[at], report, sizeof report, viq_draw(0)), VIQ_DONE);
    }
    set_sum(packet, 20, 10);
    is("data of the source", viq_frame(router, 0, packet, sizeof packet, viq_draw(0)), VIQ_DONE);
    is("its copies", viq_copies(router), COUNT(hosts));
    is("its row", viq_cached(router, 0x0a000009, 0xe8010101, &told), true);
    is("no RP", told.shared_rpf, VIQ_NO_INTERFACE);
    is("the low word", told.inherited.low, (uint64_t)1 << 63 | 1 << 1);
    is("the high word", told.inherited.high, (uint64_t)1 << 55 | 1);
    is("interface 63, by name", viq_has(&told.inherited, 63) && viq_has(&told.inherited, 64) && !viq_has(&told.inherited, 62), true);
    is("no interface 128", viq_has(&told.inherited, 128), false);
    is("its row for a plane", viq_offload(router, 0x0a000009, 0xe8010101, &row), true);
    is("the low word of it", row.outgoing.low, (uint64_t)1 << 63 | 1 << 1);
    is("the high word of it", row.outgoing.high, (uint64_t)1 << 55 | 1);
    viq_end(router);
}

/* ---- the guard */

enum { IGMP = 2, UDP = 17, PIM = 103, OURS = 0xe1010101, LINK_LOCAL = 0xe0000005 };

/* A packet of 28 bytes of the source 10.0.3.5. */
static void put_packet(uint8_t *bytes, uint8_t protocol, uint32_t group) {
    const uint8_t packet[] = {0x45, 0, 0, 28, 0, 0, 0, 0, 64, protocol, 0, 0, 10, 0, 3, 5, (uint8_t)(group >> 24),
                              (uint8_t)(group >> 16), (uint8_t)(group >> 8), (uint8_t)group, 1, 2, 3, 4, 5, 6, 7, 8};
    memcpy(bytes, packet, sizeof packet);
    set_sum(bytes, 20, 10);
}

/* A Register of such a packet, from 10.0.3.1 to 10.0.1.1. */
static uint32_t registered(struct viq_router *router, uint8_t protocol, uint32_t group) {
    uint8_t bytes[56] = {0x45, 0, 0, 56, 0, 0, 0, 0, 60, PIM, 0, 0, 10, 0, 3, 1, 10, 0, 1, 1, 0x21, 0, 0xde, 0xff};
    set_sum(bytes, 20, 10);
    put_packet(bytes + 28, protocol, group);
    return viq_unicast(router, bytes, sizeof bytes, viq_draw(0));
}

/* The packet itself on interface 0, towards its source. */
static uint32_t forwarded(struct viq_router *router, uint8_t protocol, uint32_t group) {
    uint8_t bytes[28];
    put_packet(bytes, protocol, group);
    return viq_frame(router, 0, bytes, sizeof bytes, viq_draw(0));
}

static void on_guard(struct viq_router *router) {
    is("a Register of data", registered(router, UDP, OURS), VIQ_DONE);
    is("its copy", viq_copies(router) == 1 && viq_changed(router) > 0, true);
    is("while its packets are untaken", (viq_unicast)(router, NULL, 0, viq_draw(0)), VIQ_UNTAKEN);
    is("a Register of IGMP", registered(router, IGMP, OURS), VIQ_GUARDED);
    is("is ignored", viq_is_ignored(VIQ_GUARDED), true);
    is("nothing is sent of it", viq_packets(router) + viq_copies(router) + viq_changed(router) + viq_touched(router), 0);
    is("a Register of PIM", registered(router, PIM, OURS), VIQ_GUARDED);
    is("a Register for a link alone", registered(router, UDP, LINK_LOCAL), VIQ_GUARDED);
    is("nothing is sent of them", viq_packets(router), 0);
    is("PIM on a link, to another group", forwarded(router, PIM, OURS), VIQ_GUARDED);
    is("nothing is sent of that", viq_packets(router), 0);
}

static void off_guard(struct viq_router *router) {
    is("a Register of IGMP, unguarded", registered(router, IGMP, OURS), VIQ_DONE);
    is("its copy", viq_copies(router), 1);
    is("a Register of PIM, unguarded", registered(router, PIM, OURS), VIQ_DONE);
    is("its copy too", viq_copies(router), 1);
    is("a Register for a link alone, unguarded", registered(router, UDP, LINK_LOCAL), VIQ_LINK_LOCAL);
}

static void guarded(void) {
    static const struct viq_range own[] = {{0xe0000000, 4, 0x0a000101}};
    struct viq_router *router = NULL, *other = NULL;
    uint8_t report[40], saved[4096];
    size_t size = 0;
    is("new with a guard", viq_new(&router, VIQ_ABI, &usual, three, COUNT(three), two, COUNT(two), own, COUNT(own)), VIQ_DONE);
    for (uint32_t iface = 0; iface < COUNT(three); iface++) is("up", viq_up(router, iface, viq_draw(7)), VIQ_DONE);
    is("a host's report", viq_report(0x0a000209, VIQ_TO_EX, OURS, NULL, 0, report, sizeof report), 40);
    is("its group", viq_frame(router, 2, report, 40, viq_draw(0)), VIQ_DONE);
    on_guard(router);
    is("neither on nor off", viq_guard(router, 2), VIQ_NO_SETTING);
    is("it stays on", registered(router, IGMP, OURS), VIQ_GUARDED);
    is("off", viq_guard(router, 0), VIQ_DONE);
    is("put under the same configuration", viq_reload(router, &usual, three, COUNT(three), two, COUNT(two), own, COUNT(own), viq_draw(7)), VIQ_DONE);
    is("saved", viq_save(router, saved, sizeof saved, &size) == VIQ_DONE && size <= sizeof saved, true);
    is("restored", viq_restore(&other, VIQ_ABI, saved, size), VIQ_DONE);
    is("which has a guard", registered(other, IGMP, OURS), VIQ_GUARDED);
    viq_end(other);
    off_guard(router);
    is("on again", viq_guard(router, 1), VIQ_DONE);
    is("a Register of IGMP again", registered(router, IGMP, OURS), VIQ_GUARDED);
    is("data on a link", forwarded(router, UDP, OURS) == VIQ_DONE && viq_copies(router) == 1, true);
    viq_end(router);
}

/* ---- RPs that share an address */

enum { SHARED = 0x0a090909, OTHER = 0x0a000307, ITS_OWN = 0x0a000002 };

/* A Register of data, from 10.0.3.LAST to an address. */
static uint32_t registered_at(struct viq_router *router, uint8_t last, uint32_t to) {
    uint8_t bytes[56] = {0x45, 0, 0, 56, 0, 0, 0, 0, 60, PIM, 0, 0, 10, 0, 3, last, (uint8_t)(to >> 24), (uint8_t)(to >> 16),
                         (uint8_t)(to >> 8), (uint8_t)to, 0x21, 0, 0xde, 0xff};
    set_sum(bytes, 20, 10);
    put_packet(bytes + 28, UDP, OURS);
    return (viq_unicast)(router, bytes, sizeof bytes, viq_draw(0));
}

/* Whether the packets that are to be sent go by unicast to these addresses, 0 where there is no second one. */
static bool goes_to(struct viq_router *router, uint32_t first, uint32_t second) {
    struct viq_packet packet;
    uint8_t room[1528];
    size_t count = second ? 2 : 1;
    bool is_so = viq_packets(router) == count;
    for (size_t at = 0; is_so && at < count; at++)
        is_so = viq_take(router, &packet, room, sizeof room) && packet.kind == VIQ_UNICAST && packet.destination == (at ? second : first);
    return is_so;
}

static void sets_that_are_refused(struct viq_router *router) {
    static uint32_t others[VIQ_MOST_OTHERS + 1];
    static struct viq_rp_set many[VIQ_MOST_RP_SETS + 1];
    for (uint32_t at = 0; at < COUNT(others); at++) others[at] = OTHER + at;
    const uint32_t twice[] = {OTHER, OTHER}, own[] = {0x0a000101}, no_host[] = {0};
    const struct viq_rp_set wrong[] = {
        {0x0a090908, ITS_OWN, others, 1}, {SHARED, 0x0a000003, others, 1}, {SHARED, SHARED, others, 1}, {SHARED, ITS_OWN, twice, 2},
        {SHARED, ITS_OWN, own, 1}, {SHARED, ITS_OWN, no_host, 1}, {SHARED, ITS_OWN, others, COUNT(others)}, {0, 0, NULL, 0}};
    for (size_t at = 0; at < COUNT(wrong); at++) is("a set that no router has", viq_anycast(router, &wrong[at], 1), VIQ_BAD_RP_SET);
    const struct viq_rp_set far = {SHARED, ITS_OWN, NULL, SIZE_MAX}, two_sets[] = {{SHARED, ITS_OWN, others, 1}, {SHARED, ITS_OWN, others, 1}};
    is("far too many others, which aren't read", viq_anycast(router, &far, 1), VIQ_BAD_RP_SET);
    is("an address in two sets", viq_anycast(router, two_sets, 2), VIQ_BAD_RP_SET);
    is("too many sets", viq_anycast(router, many, COUNT(many)), VIQ_BAD_RP_SET);
    is("far too many, which aren't read", viq_anycast(router, NULL, SIZE_MAX), VIQ_BAD_RP_SET);
    is("as many others as there may be", viq_anycast(router, &(struct viq_rp_set){SHARED, ITS_OWN, others, VIQ_MOST_OTHERS}, 1), VIQ_DONE);
    is("none", viq_anycast(router, NULL, 0), VIQ_DONE);
}

static void shared_addresses(void) {
    static const struct viq_range ranges[] = {{0xe0000000, 4, SHARED}};
    static const uint32_t shared[] = {SHARED}, others[] = {OTHER};
    static const struct viq_rp_set set[] = {{SHARED, ITS_OWN, others, 1}};
    struct viq_settings settings = usual;
    struct viq_router *router = NULL, *other = NULL;
    uint8_t saved[4096];
    size_t size = 0;
    settings.addresses = shared, settings.address_count = COUNT(shared);
    is("new with a shared address", viq_new(&router, VIQ_ABI, &settings, three, COUNT(three), two, COUNT(two), ranges, 1), VIQ_DONE);
    sets_that_are_refused(router);
    is("no timer", viq_next_moment(router), VIQ_NEVER);
    is("a set", viq_anycast(router, set, 1), VIQ_DONE);
    is("when sources are announced", viq_next_moment(router), 60000);
    is("a Register to the shared address", registered_at(router, 1, SHARED), VIQ_DONE);
    is("a set while its packets are untaken", viq_anycast(router, set, 1), VIQ_DONE);
    is("it goes on, and then a Register-Stop", goes_to(router, OTHER, 0x0a000301), true);
    is("one of the other", registered_at(router, 7, ITS_OWN), VIQ_DONE);
    is("a Register-Stop alone", goes_to(router, OTHER, 0), true);
    is("a set that is refused leaves it", viq_anycast(router, &(struct viq_rp_set){0}, 1), VIQ_BAD_RP_SET);
    is("under another configuration", viq_reload(router, &settings, three, 2, NULL, 0, ranges, 1, viq_draw(7)), VIQ_DONE);
    viq_clear(router);
    is("without the address", viq_reload(router, &usual, three, 3, NULL, 0, ranges, 1, viq_draw(7)), VIQ_BAD_RP_SET);
    is("by places", viq_reload_places(router, &usual, three, 3, NULL, 0, ranges, 1, (uint32_t[]){0, 1}, 2, viq_draw(7)), VIQ_BAD_RP_SET);
    is("it goes on still", registered_at(router, 1, SHARED) == VIQ_DONE && goes_to(router, OTHER, 0x0a000301), true);
    is("saved", viq_save(router, saved, sizeof saved, &size) == VIQ_DONE && size <= sizeof saved, true);
    is("restored", viq_restore(&other, VIQ_ABI, saved, size), VIQ_DONE);
    is("which has no set", registered_at(other, 1, SHARED) == VIQ_DONE && goes_to(other, 0x0a000301, 0), true);
    viq_end(other);
    is("no set any more", viq_anycast(router, NULL, 0), VIQ_DONE);
    is("it goes on no more", registered_at(router, 1, SHARED) == VIQ_DONE && goes_to(router, 0x0a000301, 0), true);
    is("without the address then", viq_reload(router, &usual, three, 3, NULL, 0, ranges, 1, viq_draw(7)), VIQ_DONE);
    viq_end(router);
}

/* ---- sources of other RPs (MSDP) */

enum { PEER = 0x0a090902, NEAR = 0x0a00004d };

static void sources_without_a_router(void) {
    const struct viq_source_active told = {PEER, ITS_OWN, 0x0a000305, OURS, NULL, 0};
    struct viq_source_group name = {1, 2};
    uint8_t room[48];
    size_t size = 7;
    is("an SA without a router", viq_source_active(NULL, &told, viq_draw(0)), VIQ_NO_ROUTER);
    is("its packet", viq_source_active_packet(NULL, &told, room, sizeof room, &size), VIQ_NO_ROUTER);
    is("which has no size", size, 7);
    is("what registers", viq_registered(NULL, NULL, 0, &name) || name.source != 1 || name.group != 2, false);
    is("an own source", viq_own_source(NULL, NEAR, OURS), false);
}

static void sources_of_other_rps(void) {
    static const struct viq_range ranges[] = {{0xe0000000, 4, ITS_OWN}};
    struct viq_source_active told = {PEER, ITS_OWN, 0x0a000305, OURS, NULL, 0};
    struct viq_source_group name = {1, 2};
    struct viq_router *router = NULL;
    uint8_t room[48] = {0}, data[28] = {0x45, 0, 0, 28, 0, 0, 0, 0, 16, UDP, 0, 0, 10, 0, 0, 77, OURS >> 24, OURS >> 16 & 255, OURS >> 8 & 255, OURS & 255};
    size_t size = 7;
    sources_without_a_router();
    is("new as an RP", viq_new(&router, VIQ_ABI, &usual, three, COUNT(three), two, COUNT(two), ranges, 1), VIQ_DONE);
    is("up", viq_up(router, 0, viq_draw(0)), VIQ_DONE);
    viq_clear(router);
    is("an SA", viq_source_active(router, &told, viq_draw(0)), VIQ_DONE);
    is("while packets are untaken", viq_source_active(router, &told, viq_draw(0)), VIQ_UNTAKEN);
    is("a Register-Stop to the peer", goes_to(router, PEER, 0), true);
    is("no source of its own", viq_own_source(router, told.source, told.group), false);
    is("its packet, as much as fits", viq_source_active_packet(router, &told, room, 4, &size), VIQ_DONE);
    is("how long it is", size == 48 && room[0] == 0x45 && room[3] == 48 && room[4] == 0 && room[8] == 0, true);
    is("its packet", viq_source_active_packet(router, &told, room, sizeof room, &size) == VIQ_DONE && room[8] == 1, true);
    is("it registers nothing", viq_registered(router, room, sizeof room, &name), false);
    room[8] = 60, room[10] = room[11] = 0;
    set_sum(room, 20, 10);
    is("one of a DR does", viq_registered(router, room, sizeof room, &name), true);
    is("which source", name.source == told.source && name.group == told.group, true);
    is("a packet of another source is left out", viq_source_active_packet(router, &(struct viq_source_active){PEER, ITS_OWN, NEAR + 0x300, OURS, data, sizeof data}, room, sizeof room, &size) == VIQ_DONE && size == 48, true);
    told.source = NEAR;
    is("an SA of a source on its link", viq_source_active(router, &told, viq_draw(0)), VIQ_NOT_FOR_ME);
    is("its packet has no bytes", viq_source_active_packet(router, &told, room, sizeof room, &size) == VIQ_DONE && size == 0, true);
    set_sum(data, 20, 10);
    is("a packet of it", viq_frame(router, 0, data, sizeof data, viq_draw(0)), VIQ_DONE);
    is("an own source", viq_own_source(router, NEAR, OURS), true);
    viq_end(router);
}

/* ---- RPs that are learned of Bootstraps: the messages, and what follows of them, are those of the worked runs of
 * crates/pim_bsr/specs/Runs.antt */

enum { THE_BSR = 0x0a090909, FIRST = 0x0a630001, SECOND = 0x0a580009, THIRD = 0x0a4d0002, WIDE = 0xef000000, STATIC = 0x0a000063 };

static const struct viq_range narrow[] = {{0xef010000, 16, STATIC}};

/* Writes a Bootstrap of the neighbour above (RFC 5059, 4.1): 239.0.0.0/8, said with a host bit, has 3 RPs, of which these are
 * in the fragment, with a holdtime of 150 s. */
static size_t put_bootstrap(uint8_t *bytes, const uint32_t *rps, uint8_t count) {
    const uint8_t head[] = {0x45, 0xc0, 0, 46 + 10 * count, 0, 0, 0, 0, 1, PIM, 0, 0, 10, 0, 0, 1, 224, 0, 0, 13, 0x24, 0, 0, 0, 0, 7,
                            30, 10, 1, 0, 10, 9, 9, 9, 1, 0, 0, 8, 239, 0, 0, 1, 3, count, 0, 0};
    size_t length = sizeof head;
    memcpy(bytes, head, sizeof head);
    for (size_t at = 0; at < count; at++, length += 10) {
        const uint8_t rp[] = {1, 0, (uint8_t)(rps[at] >> 24), (uint8_t)(rps[at] >> 16), (uint8_t)(rps[at] >> 8), (uint8_t)rps[at], 0, 150, 5, 0};
        memcpy(bytes + length, rp, sizeof rp);
    }
    set_sum(bytes, 20, 10);
    set_sum(bytes + 20, length - 20, 2);
    return length;
}

static void without_a_listener(struct viq_router *router) {
    struct viq_bsr_elected elected = {7, 7, 7};
    struct viq_bsr_rp rp = {.rp = 7};
    struct viq_bsr_part part = {.rp = 7};
    struct viq_range range = {.rp = 7};
    uint8_t none[1] = {0};
    bool moved = true;
    is("hear without a listener", viq_bsr_hear(NULL, router, 0, none, 1, &moved), VIQ_NO_LISTENER);
    is("nothing moved of it", moved, false);
    is("give without a listener", viq_bsr_give(NULL, router, viq_draw(7)), VIQ_NO_LISTENER);
    moved = true;
    is("pass without a listener", viq_bsr_pass(NULL, 1, &moved), VIQ_NO_LISTENER);
    is("nothing moved of that", moved, false);
    is("ranges without a listener", viq_bsr_ranges(NULL, router, 1, one, 1, viq_draw(7)), VIQ_NO_LISTENER);
    is("no limit without a listener", viq_bsr_ranges(NULL, router, 0, one, 1, viq_draw(7)), VIQ_NO_SETTING);
    is("a choice without a listener", viq_bsr_choose(NULL, VIQ_FOR_GROUP), VIQ_NO_LISTENER);
    is("no choice without a listener", viq_bsr_choose(NULL, 2), VIQ_NO_SETTING);
    is("what is chosen for without one", viq_bsr_choice(NULL), VIQ_FOR_RANGE);
    is("next without a listener", viq_bsr_next(NULL), VIQ_NEVER);
    is("elected without a listener", viq_bsr_elected(NULL, &elected), false);
    is("RPs without a listener", viq_bsr_rps(NULL) + viq_bsr_parts(NULL) + viq_bsr_configured(NULL), 0);
    is("one of them without a listener", viq_bsr_rp(NULL, 0, &rp) || viq_bsr_part(NULL, 0, &part) || viq_bsr_range(NULL, 0, &range), false);
    is("what isn't written of them", elected.bsr == 7 && rp.rp == 7 && part.rp == 7 && range.rp == 7, true);
    viq_bsr_end(NULL);
}

static void new_listeners(struct viq_bsr **bsr) {
    *bsr = (struct viq_bsr *)&wrong;
    is("a listener of another ABI", viq_bsr_new(bsr, VIQ_ABI + 1, 100, narrow, 1, 60000), VIQ_OTHER_ABI);
    is("no listener of it", *bsr == NULL, true);
    is("a limit of 0", viq_bsr_new(bsr, VIQ_ABI, 0, narrow, 1, 60000), VIQ_NO_SETTING);
    is("a limit of 257", viq_bsr_new(bsr, VIQ_ABI, 257, narrow, 1, 60000), VIQ_NO_SETTING);
    is("no listener of that", *bsr == NULL, true);
    is("the greatest limit", viq_bsr_new(bsr, VIQ_ABI, 256, NULL, 0, 0), VIQ_DONE);
    viq_bsr_end(*bsr);
    is("a listener", viq_bsr_new(bsr, VIQ_ABI, 100, narrow, 1, 60000), VIQ_DONE);
    is("next of a new one", viq_bsr_next(*bsr), VIQ_NEVER);
}

/* The first fragment comes at 1 s. */
static void first_fragment(struct viq_bsr *bsr, struct viq_router *router) {
    static const uint32_t rps[] = {SECOND, THIRD};
    uint8_t bytes[128], room[VIQ_MOST_BYTES];
    size_t length = put_bootstrap(bytes, rps, 2);
    struct viq_packet packet = {7, 7, 7, 7};
    struct viq_bsr_part part = {.rp = 7};
    bool moved = true;
    is("a Bootstrap at the router", viq_frame(router, 0, bytes, length, viq_draw(7)), VIQ_OTHER_TYPE);
    const struct viq_received both[] = {{0, bytes, length, viq_draw(7)}, {0, bytes, length, viq_draw(7)}};
    uint32_t answers[] = {7, 7};
    is("many frames stop behind it", viq_frames(router, both, 2, answers) == 1 && answers[0] == VIQ_OTHER_TYPE && answers[1] == 7, true);
    is("hear without a router", viq_bsr_hear(bsr, NULL, 0, bytes, length, &moved), VIQ_NO_ROUTER);
    is("nothing moved without a router", moved, false);
    is("hear a fragment", viq_bsr_hear(bsr, router, 0, bytes, length, &moved), VIQ_DONE);
    is("nothing moved", moved, false);
    is("parts", viq_bsr_parts(bsr) == 2 && viq_bsr_rps(bsr) == 0 && !viq_bsr_part(bsr, 2, &part), true);
    is("a part", viq_bsr_part(bsr, 0, &part), true);
    is("its range", part.prefix == WIDE && part.length == 8 && part.rp == SECOND, true);
    is("its message", part.bsr == THE_BSR && part.tag == 7 && part.priority == 5 && part.holdtime == 150 && part.end == 131000, true);
    is("hear while packets are untaken", viq_bsr_hear(bsr, router, 0, bytes, length, &moved), VIQ_UNTAKEN);
    is("give while packets are untaken", viq_bsr_give(bsr, router, viq_draw(7)), VIQ_UNTAKEN);
    for (uint32_t iface = 0; iface < 2; iface++) {
        is("sent on", viq_take(router, &packet, room, sizeof room) && packet.kind == VIQ_FRAME && packet.iface == iface, true);
        memcpy(bytes + 12, iface ? "\x0a\0\1\1" : "\x0a\0\0\2", 4);
        set_sum((memset(bytes + 10, 0, 2), bytes), 20, 10);
        is("as it came", packet.length == length && memcmp(room, bytes, length) == 0, true);
    }
    is("on no other interface", viq_packets(router), 0);
}

/* The second one comes 5 ms later, and completes the range. */
static void second_fragment(struct viq_bsr *bsr, struct viq_router *router) {
    static const uint32_t rps[] = {FIRST};
    uint8_t bytes[128];
    size_t length = put_bootstrap(bytes, rps, 1);
    struct viq_bsr_elected elected = {7, 7, 7};
    struct viq_bsr_rp rp = {.rp = 7};
    bool moved = false;
    is("advance", viq_advance(router, 1005, viq_draw(7)), VIQ_DONE);
    is("the second one at the router", viq_frame(router, 0, bytes, length, viq_draw(7)), VIQ_OTHER_TYPE);
    is("hear from no neighbour", viq_bsr_hear(bsr, router, 2, bytes, length, &moved), VIQ_NO_NEIGHBOUR);
    is("hear the second one", viq_bsr_hear(bsr, router, 0, bytes, length, &moved), VIQ_DONE);
    is("the ranges moved", moved, true);
    is("it isn't given yet", rp_of(router, 0xef090909), 0);
    viq_clear(router);
    is("give", viq_bsr_give(bsr, router, viq_draw(7)), VIQ_DONE);
    is("the learned RP", rp_of(router, 0xef090909), FIRST);
    is("the configured RP", rp_of(router, 0xef010101), STATIC);
    is("RPs", viq_bsr_rps(bsr) == 3 && viq_bsr_parts(bsr) == 0 && !viq_bsr_rp(bsr, 3, &rp), true);
    is("one that isn't chosen", viq_bsr_rp(bsr, 0, &rp) && rp.rp == SECOND && !rp.is_given, true);
    is("the one that is", viq_bsr_rp(bsr, 2, &rp) && rp.rp == FIRST && rp.is_given, true);
    is("what it has", rp.prefix == WIDE && rp.length == 8 && rp.priority == 5 && rp.hash_length == 30 && rp.end == 151005, true);
    is("elected", viq_bsr_elected(bsr, &elected), true);
    is("who is", elected.bsr == THE_BSR && elected.priority == 10 && elected.end == 131005, true);
    is("next end", viq_bsr_next(bsr), 151005);
}

/* A listener of these bytes, which is ended; or why there is none. */
static uint32_t listening(const uint8_t *bytes, size_t length) {
    struct viq_bsr *bsr = (struct viq_bsr *)&wrong;
    uint32_t answer = viq_bsr_restore(&bsr, VIQ_ABI, bytes, length);
    is("a listener where there is one", bsr != NULL, answer == VIQ_DONE);
    viq_bsr_end(bsr);
    return answer;
}

/* A listener in the place of one that heard a fragment: the run goes on with it. */
static struct viq_bsr *saved_and_restored(struct viq_bsr *bsr) {
    static uint8_t saved[256], again[sizeof saved];
    struct viq_bsr *other = (struct viq_bsr *)&wrong;
    struct viq_range range = {.rp = 7};
    size_t size = 7, size_again = 7;
    is("save without a listener", viq_bsr_save(NULL, saved, sizeof saved, &size), VIQ_NO_LISTENER);
    is("no size of it", size, 7);
    is("the size of a listener", viq_bsr_save(bsr, NULL, 0, &size), VIQ_DONE);
    is("one range, a BSR, two parts, and a message of 46 bytes", size, 197);
    is("save a part", viq_bsr_save(bsr, saved, 6, &size) == VIQ_DONE && memcmp(saved, "VIQB\0\1\0", 7) == 0, true);
    is("save a listener", viq_bsr_save(bsr, saved, sizeof saved, &size), VIQ_DONE);
    viq_bsr_end(bsr);
    is("another ABI", viq_bsr_restore(&other, VIQ_ABI + 1, saved, size), VIQ_OTHER_ABI);
    is("no listener of it", other == NULL, true);
    for (size_t at = 0; at < size; at++) {
        is("cut", listening(saved, at), at < 6 ? VIQ_CUT_SHORT : VIQ_DAMAGED);
        saved[at] ^= 0x20;
        is("changed", listening(saved, size), at < 4 ? VIQ_NOT_OURS : at < 6 ? VIQ_OTHER_VERSION : VIQ_DAMAGED);
        saved[at] ^= 0x20;
    }
    is("restore a listener", viq_bsr_restore(&other, VIQ_ABI, saved, size), VIQ_DONE);
    is("save it again", viq_bsr_save(other, again, sizeof again, &size_again), VIQ_DONE);
    is("the same bytes of it", size == size_again && memcmp(saved, again, size) == 0, true);
    is("its range", viq_bsr_configured(other) == 1 && viq_bsr_range(other, 0, &range) && !viq_bsr_range(other, 1, &range), true);
    is("as it was given", memcmp(&range, narrow, sizeof range), 0);
    return other;
}

static void other_ranges(struct viq_bsr *bsr, struct viq_router *router) {
    static const struct viq_range wide[] = {{WIDE, 8, STATIC}}, twice[] = {{WIDE, 8, STATIC}, {WIDE, 8, STATIC}};
    viq_clear(router);
    is("ranges twice", viq_bsr_ranges(bsr, router, 100, twice, 2, viq_draw(7)), VIQ_BAD_RANGES);
    is("far too many, which aren't read", viq_bsr_ranges(bsr, router, 100, NULL, SIZE_MAX, viq_draw(7)), VIQ_BAD_RANGES);
    is("a limit that isn't one", viq_bsr_ranges(bsr, router, 257, wide, 1, viq_draw(7)), VIQ_NO_SETTING);
    is("ranges without a router", viq_bsr_ranges(bsr, NULL, 100, wide, 1, viq_draw(7)), VIQ_NO_ROUTER);
    is("the learned RP stays", rp_of(router, 0xef090909), FIRST);
    is("the range configured", viq_bsr_ranges(bsr, router, 100, wide, 1, viq_draw(7)), VIQ_DONE);
    is("its RP", rp_of(router, 0xef090909), STATIC);
    is("the former ones", viq_bsr_ranges(bsr, router, 100, narrow, 1, viq_draw(7)), VIQ_DONE);
    is("the learned RP again", rp_of(router, 0xef090909), FIRST);
}

/* An RP of each group, by the values that the worked run has, and of the range again. */
static void for_each_group(struct viq_bsr *bsr, struct viq_router *router) {
    struct viq_bsr_rp rp = {.rp = 7};
    is("for a range", viq_bsr_choice(bsr), VIQ_FOR_RANGE);
    is("for neither", viq_bsr_choose(bsr, 2), VIQ_NO_SETTING);
    is("for each group", viq_bsr_choose(bsr, VIQ_FOR_GROUP) == VIQ_DONE && viq_bsr_choice(bsr) == VIQ_FOR_GROUP, true);
    is("every RP is given", viq_bsr_rp(bsr, 0, &rp) && rp.rp == SECOND && rp.is_given, true);
    is("the candidates", viq_bsr_give(bsr, router, viq_draw(7)), VIQ_DONE);
    is("beside the range that is there", rp_of(router, 0xef000004), FIRST);
    is("the configured range alone", viq_bsr_ranges(bsr, router, 100, narrow, 1, viq_draw(7)), VIQ_DONE);
    is("one group's RP", rp_of(router, 0xef000001), FIRST);
    is("another's", rp_of(router, 0xef000004), THIRD);
    is("the configured RP still", rp_of(router, 0xef010004), STATIC);
    is("for a range again", viq_bsr_choose(bsr, VIQ_FOR_RANGE), VIQ_DONE);
    is("the range", viq_bsr_give(bsr, router, viq_draw(7)), VIQ_DONE);
    is("no candidates", viq_candidates(router, NULL, 0, viq_draw(7)), VIQ_DONE);
    is("one RP for both", rp_of(router, 0xef000001) == FIRST && rp_of(router, 0xef000004) == FIRST, true);
}

static void ends_of_learned(struct viq_bsr *bsr, struct viq_router *router) {
    struct viq_bsr_elected elected = {7, 7, 7};
    bool moved = true;
    is("before the end", viq_bsr_pass(bsr, 151004, &moved), VIQ_DONE);
    is("nothing moved before", moved, false);
    is("nobody is elected", viq_bsr_elected(bsr, &elected), false);
    is("at the end", viq_bsr_pass(bsr, 151005, &moved), VIQ_DONE);
    is("they moved", moved, true);
    is("give the configured ones", viq_bsr_give(bsr, router, viq_draw(7)), VIQ_DONE);
    is("no RP any more", rp_of(router, 0xef090909), 0);
    is("the configured one", rp_of(router, 0xef010101), STATIC);
}

static void bootstraps(void) {
    struct viq_router *router = NULL;
    struct viq_bsr *bsr = NULL;
    is("new for Bootstraps", viq_new(&router, VIQ_ABI, &usual, three, COUNT(three), two, COUNT(two), narrow, 1), VIQ_DONE);
    without_a_listener(router);
    new_listeners(&bsr);
    for (uint32_t iface = 0; iface < 3; iface++) is("up for Bootstraps", viq_up(router, iface, viq_draw(7)), VIQ_DONE);
    is("the neighbour above", frame(router, 0, hello_above), VIQ_DONE);
    is("the neighbour below", frame(router, 1, hello_below), VIQ_DONE);
    is("advance to 1 s", viq_advance(router, 1000, viq_draw(7)), VIQ_DONE);
    first_fragment(bsr, router);
    bsr = saved_and_restored(bsr);
    second_fragment(bsr, router);
    other_ranges(bsr, router);
    for_each_group(bsr, router);
    ends_of_learned(bsr, router);
    viq_bsr_end(bsr);
    viq_end(router);
}

/* ---- candidate BSRs and candidate RPs: two routers of a link, which both stand as both */

enum { LEFT_ROUTER = 0x0a000001, RIGHT_ROUTER = 0x0a000002, NEVER_TOLD = 0 };

static const struct viq_prefix of_left[] = {{WIDE, 8}}, of_right[] = {{0xef020000, 16}, {0xef030000, 16}};
static const struct viq_candidacy_settings stands_left = {true, LEFT_ROUTER, 10, 30, 255, true, LEFT_ROUTER, 192};
static const struct viq_candidacy_settings stands_right = {true, RIGHT_ROUTER, 20, 30, 2, true, RIGHT_ROUTER, 192};

struct station {
    struct viq_router *router;
    struct viq_bsr *bsr;
    struct viq_candidacy *candidacy;
};
struct waiting {
    int to;
    struct viq_packet packet;
    uint8_t bytes[VIQ_MOST_BYTES];
};
static struct station stations[2];
static struct waiting waiting[64];
static size_t posted, delivered;
static uint32_t last_told, last_heard;

/* What a router sends waits for the other one. */
static void post(int from) {
    for (;; posted++) {
        struct waiting *next = &waiting[posted % COUNT(waiting)];
        if (!viq_take(stations[from].router, &next->packet, next->bytes, sizeof next->bytes)) return;
        next->to = 1 - from;
    }
}

static void give_if(bool moved, int at) {
    if (moved) is("the RPs are given", viq_bsr_give(stations[at].bsr, stations[at].router, viq_draw(7)), VIQ_DONE);
    post(at);
}

/* A packet comes, as the page of the header says. */
static void deliver(const struct waiting *it) {
    struct station *to = &stations[it->to];
    bool moved = false;
    if (it->packet.kind == VIQ_UNICAST) {
        is("an advertisement isn't the router's", viq_unicast(to->router, it->bytes, it->packet.length, viq_draw(7)), VIQ_NOT_FOR_ME);
        last_told = viq_candidacy_unicast(to->candidacy, to->router, it->bytes, it->packet.length);
    } else if (viq_frame(to->router, 0, it->bytes, it->packet.length, viq_draw(7)) == VIQ_OTHER_TYPE) {
        last_heard = viq_candidacy_hear(to->candidacy, to->bsr, to->router, 0, it->bytes, it->packet.length, viq_draw(7), &moved);
    }
    post(it->to);
    give_if(moved, it->to);
}

static void deliver_all(void) {
    while (delivered < posted) {
        struct waiting it = waiting[delivered++ % COUNT(waiting)];
        if (stations[it.to].router) deliver(&it);
    }
}

static uint64_t sooner(uint64_t one, uint64_t other) { return one < other ? one : other; }

static uint64_t end_of(int at) {
    struct station *it = &stations[at];
    return it->router ? sooner(viq_next_moment(it->router), sooner(viq_bsr_next(it->bsr), viq_candidacy_next(it->candidacy))) : VIQ_NEVER;
}

static void pass_one(int at, uint64_t moment) {
    struct station *it = &stations[at];
    bool moved = false;
    if (!it->router) return;
    is("the router goes on", viq_advance(it->router, moment, viq_draw(7)), VIQ_DONE);
    post(at);
    is("time passes", viq_candidacy_pass(it->candidacy, it->bsr, it->router, moment, viq_draw(7), &moved), VIQ_DONE);
    post(at);
    give_if(moved, at);
    deliver_all();
}

/* Time goes to a moment, from end to end. */
static void go_to(uint64_t moment) {
    for (uint64_t end; (end = sooner(end_of(0), end_of(1))) <= moment;) pass_one(end_of(0) == end ? 0 : 1, end);
    pass_one(0, moment);
    pass_one(1, moment);
}

static struct viq_candidacy_state state_of(int at) {
    struct viq_candidacy_state state = {7, 7, 7, 7};
    is("how it stands", viq_candidacy_state(stations[at].candidacy, &state), true);
    return state;
}

static void without_a_candidacy(struct viq_bsr *bsr, struct viq_router *router) {
    struct viq_candidacy_state state = {.role = 7};
    struct viq_candidacy_rp row = {.rp = 7};
    uint8_t none[1] = {0};
    bool moved = true;
    is("hear without a candidacy", viq_candidacy_hear(NULL, bsr, router, 0, none, 1, viq_draw(7), &moved), VIQ_NO_CANDIDACY);
    is("nothing moved of it", moved, false);
    is("a unicast without one", viq_candidacy_unicast(NULL, router, none, 1), VIQ_NO_CANDIDACY);
    is("next without one", viq_candidacy_next(NULL), VIQ_NEVER);
    moved = true;
    is("pass without one", viq_candidacy_pass(NULL, bsr, router, 1, viq_draw(7), &moved), VIQ_NO_CANDIDACY);
    is("nothing moved of that", moved, false);
    is("leave without one", viq_candidacy_leave(NULL, bsr, router), VIQ_NO_CANDIDACY);
    is("state without one", viq_candidacy_state(NULL, &state), false);
    is("RPs without one", viq_candidacy_rps(NULL), 0);
    is("an RP without one", viq_candidacy_rp(NULL, 0, &row), false);
    is("what isn't written of them", state.role == 7 && row.rp == 7, true);
    viq_candidacy_end(NULL);
}

static uint32_t candidacy_of(const struct viq_candidacy_settings *settings, const struct viq_prefix *ranges, size_t count) {
    struct viq_candidacy *candidacy = (struct viq_candidacy *)&wrong;
    uint32_t answer = viq_candidacy_new(&candidacy, VIQ_ABI, settings, ranges, count, 0);
    is("a candidacy where there is one", candidacy != NULL, answer == VIQ_DONE);
    viq_candidacy_end(candidacy);
    return answer;
}

/* Each value past each of its ends. */
static void refused_candidacies(void) {
    struct viq_candidacy *candidacy = (struct viq_candidacy *)&wrong;
    struct viq_prefix many[VIQ_MOST_ADVERTISED + 1];
    struct { struct viq_candidacy_settings settings; uint32_t answer; } tries[] = {
        {{true, 0, 0, 0, 1, true, 1, 0}, 54}, {{true, 0xe0000000, 0, 0, 1, true, 1, 0}, 54}, {{true, 1, 256, 0, 1, true, 1, 0}, 54},
        {{true, 1, 0, 33, 1, true, 1, 0}, 54}, {{true, 1, 0, 0, 0, true, 1, 0}, 54}, {{true, 1, 0, 0, 256, true, 1, 0}, 54},
        {{true, 1, 0, 0, 1, true, 0, 0}, 54}, {{true, 1, 0, 0, 1, true, 0xe0000000, 0}, 54}, {{true, 1, 0, 0, 1, true, 1, 256}, 54},
        {{true, 1, 0, 0, 1, true, 1, 0}, 0}, {{true, 0xdfffffff, 255, 32, 255, true, 0xdfffffff, 255}, 0},
        {{false, 0, 256, 33, 0, true, 1, 0}, 0}, {{true, 1, 0, 0, 1, false, 0, 256}, 0}, {{false, 0, 256, 33, 256, false, 0, 256}, 0},
    };
    struct { struct viq_prefix range; uint32_t answer; } ranges[] = {
        {{0xe0000000, 4}, 0}, {{0xef010101, 32}, 0}, {{0xef000000, 3}, 54}, {{0xef010101, 33}, 54}, {{0xef010101, 24}, 54}, {{0x0a000000, 8}, 54}, {{0xf0000000, 4}, 54},
    };
    for (size_t at = 0; at < COUNT(tries); at++) is("a candidacy", candidacy_of(&tries[at].settings, of_left, 1), tries[at].answer);
    for (size_t at = 0; at < COUNT(ranges); at++) is("a range of an RP", candidacy_of(&stands_left, &ranges[at].range, 1), ranges[at].answer);
    for (uint32_t at = 0; at < COUNT(many); at++) many[at] = (struct viq_prefix){0xef000000 + (at << 8), 24};
    is("no range of an RP", candidacy_of(&stands_left, NULL, 0), VIQ_NO_SETTING);
    is("as many as there may be", candidacy_of(&stands_left, many, VIQ_MOST_ADVERTISED), VIQ_DONE);
    is("one more", candidacy_of(&stands_left, many, VIQ_MOST_ADVERTISED + 1), VIQ_NO_SETTING);
    is("far too many, which aren't read", candidacy_of(&stands_left, NULL, SIZE_MAX), VIQ_NO_SETTING);
    is("what isn't read of no RP", candidacy_of(&(struct viq_candidacy_settings){.is_rp = false}, NULL, SIZE_MAX), VIQ_DONE);
    is("another ABI", viq_candidacy_new(&candidacy, VIQ_ABI + 1, &stands_left, of_left, 1, 0), VIQ_OTHER_ABI);
    is("no candidacy of it", candidacy == NULL, true);
    is("a moment too late", viq_candidacy_new(&candidacy, VIQ_ABI, &stands_left, of_left, 1, (1ull << 62) + 1), VIQ_MOMENT_FAR);
    is("the last moment", viq_candidacy_new(&candidacy, VIQ_ABI, &stands_left, of_left, 1, 1ull << 62), VIQ_DONE);
    viq_candidacy_end(candidacy);
}

/* An advertisement of the left router as RP of 239.0.0.0/8, to the right one; `count` bytes of its message. */
static size_t put_advertisement(uint8_t *bytes, size_t count) {
    const uint8_t head[] = {0x45, 0xc0, 0, (uint8_t)(20 + count), 0, 0, 0, 0, 64, PIM, 0, 0, 10, 0, 0, 1, 10, 0, 0, 2};
    const uint8_t message[] = {0x28, 0, 0, 0, 1, 192, 0, 150, 1, 0, 10, 0, 0, 1, 1, 0, 0, 8, 239, 0, 0, 0};
    memcpy(bytes, head, sizeof head);
    memcpy(bytes + sizeof head, message, sizeof message);
    set_sum(bytes, 20, 10);
    set_sum(bytes + 20, sizeof message, 2);
    return sizeof head + count;
}

enum { OF_ADVERTISEMENT = 22 };

/* Until one of the two is elected nobody takes an advertisement, nor hears one that is cut. */
static void before_an_election(void) {
    struct viq_candidacy *right = stations[1].candidacy;
    uint8_t bytes[64];
    size_t length = put_advertisement(bytes, OF_ADVERTISEMENT);
    struct viq_candidacy_state state = state_of(1);
    is("pending", state.role == VIQ_BSR_PENDING && state.end == 5000 && state.told == NEVER_TOLD && state.told_end == VIQ_NEVER, true);
    is("its first end", viq_candidacy_next(right), 5000);
    is("no BSR yet", viq_candidacy_unicast(right, stations[1].router, bytes, length), VIQ_NOT_ELECTED);
    is("a unicast without a router", viq_candidacy_unicast(right, NULL, bytes, length), VIQ_NO_ROUTER);
    is("one to another address", viq_candidacy_unicast(stations[0].candidacy, stations[0].router, bytes, length), VIQ_OTHER_TYPE);
    for (size_t at = 0; at < length; at++) is("a cut packet", viq_candidacy_unicast(right, stations[1].router, bytes, at), VIQ_OTHER_TYPE);
}

/* Who has more weight is elected, and says the RPs of both. */
static void an_election(void) {
    struct viq_candidacy_state left, right;
    struct viq_bsr_elected elected = {7, 7, 7};
    struct viq_candidacy_rp row = {.rp = 7};
    go_to(4999);
    is("none yet", state_of(0).role == VIQ_BSR_PENDING && state_of(1).role == VIQ_BSR_PENDING, true);
    go_to(16000);
    left = state_of(0), right = state_of(1);
    is("who yields", left.role == VIQ_BSR_CANDIDATE && left.told == RIGHT_ROUTER, true);
    is("who is elected", right.role == VIQ_BSR_ELECTED && right.told == RIGHT_ROUTER, true);
    is("the left one knows it", viq_bsr_elected(stations[0].bsr, &elected) && elected.bsr == RIGHT_ROUTER && elected.priority == 20, true);
    is("the right one too", viq_bsr_elected(stations[1].bsr, &elected) && elected.bsr == RIGHT_ROUTER, true);
    is("what was told", last_told, VIQ_DONE);
    is("as many RPs as it holds", viq_candidacy_rps(stations[1].candidacy), 2);
    is("no more of them", viq_candidacy_rp(stations[1].candidacy, 2, &row) || row.rp != 7, false);
    is("the first", viq_candidacy_rp(stations[1].candidacy, 0, &row) && row.priority == 192 && row.holdtime == 150, true);
    is("the left one holds none", viq_candidacy_rps(stations[0].candidacy), 0);
    is("both learn the same", viq_bsr_rps(stations[0].bsr) == 2 && viq_bsr_rps(stations[1].bsr) == 2, true);
}

/* Packets to the elected BSR: what is taken, what is refused, what is cut. */
static void advertisements(void) {
    struct station *right = &stations[1];
    uint8_t bytes[64];
    size_t length = put_advertisement(bytes, OF_ADVERTISEMENT), held = viq_candidacy_rps(right->candidacy);
    for (size_t count = 0; count < OF_ADVERTISEMENT; count++) {
        size_t cut = put_advertisement(bytes, count);
        is("a cut message", viq_candidacy_unicast(right->candidacy, right->router, bytes, cut), count < 4 ? VIQ_OTHER_TYPE : VIQ_SHORT);
    }
    put_advertisement(bytes, OF_ADVERTISEMENT);
    bytes[20 + 18] = 10;
    is("no range of groups", viq_candidacy_unicast(right->candidacy, right->router, bytes, length), VIQ_NOT_MULTICAST);
    bytes[20] = 0x24;
    is("no advertisement", viq_candidacy_unicast(right->candidacy, right->router, bytes, length), VIQ_OTHER_TYPE);
    is("as many RPs as before", viq_candidacy_rps(right->candidacy), held);
    put_advertisement(bytes, OF_ADVERTISEMENT);
    bytes[20 + 7] = 0;
    is("one that goes", viq_candidacy_unicast(right->candidacy, right->router, bytes, length), VIQ_DONE);
    is("it doesn't hold it", viq_candidacy_rps(right->candidacy) < held, true);
    put_advertisement(bytes, OF_ADVERTISEMENT);
    is("it comes again", viq_candidacy_unicast(right->candidacy, right->router, bytes, length), VIQ_DONE);
    is("it holds it", viq_candidacy_rps(right->candidacy), held);
}

/* Bootstraps at the one that yielded, while packets are untaken and without the others; a message cut at each byte. */
static void bootstraps_at_a_candidate(void) {
    struct station *left = &stations[0];
    struct viq_candidacy_state before = state_of(0), after;
    uint8_t bytes[128];
    static const uint32_t rps[] = {FIRST};
    size_t length = put_bootstrap(bytes, rps, 1);
    bool moved = true;
    is("hear without a listener", viq_candidacy_hear(left->candidacy, NULL, left->router, 0, bytes, length, viq_draw(7), &moved), VIQ_NO_LISTENER);
    is("nothing moved of it", moved, false);
    is("hear without a router", viq_candidacy_hear(left->candidacy, left->bsr, NULL, 0, bytes, length, viq_draw(7), &moved), VIQ_NO_ROUTER);
    is("of no neighbour", viq_candidacy_hear(left->candidacy, left->bsr, left->router, 0, bytes, length, viq_draw(7), &moved), VIQ_NO_NEIGHBOUR);
    for (size_t at = 0; at < length; at++)
        is("a cut packet", viq_candidacy_hear(left->candidacy, left->bsr, left->router, 0, bytes, at, viq_draw(7), &moved), VIQ_OTHER_TYPE);
    is("pass without a listener", viq_candidacy_pass(left->candidacy, NULL, left->router, 16000, viq_draw(7), &moved), VIQ_NO_LISTENER);
    is("pass without a router", viq_candidacy_pass(left->candidacy, left->bsr, NULL, 16000, viq_draw(7), &moved), VIQ_NO_ROUTER);
    is("pass to a moment too late", viq_candidacy_pass(NULL, NULL, NULL, (1ull << 62) + 1, viq_draw(7), &moved), VIQ_MOMENT_FAR);
    is("leave without a listener", viq_candidacy_leave(left->candidacy, NULL, left->router), VIQ_NO_LISTENER);
    is("leave without a router", viq_candidacy_leave(left->candidacy, left->bsr, NULL), VIQ_NO_ROUTER);
    after = state_of(0);
    is("nothing changed", memcmp(&before, &after, sizeof before), 0);
}

/* The left RP goes: the BSR is told, and says it. */
static void one_leaves(void) {
    struct station *left = &stations[0];
    struct viq_packet packet = {7, 7, 7, 7};
    uint8_t bytes[128];
    static const uint32_t rps[] = {FIRST};
    size_t length = put_bootstrap(bytes, rps, 1), held = viq_candidacy_rps(stations[1].candidacy);
    bool moved = true;
    is("the left one leaves", viq_candidacy_leave(left->candidacy, left->bsr, left->router), VIQ_DONE);
    is("a packet of it", viq_packets(left->router), 1);
    is("hear while packets are untaken", viq_candidacy_hear(left->candidacy, left->bsr, left->router, 0, bytes, length, viq_draw(7), &moved), VIQ_UNTAKEN);
    is("nothing moved of it", moved, false);
    is("pass while they are", viq_candidacy_pass(left->candidacy, left->bsr, left->router, 16000, viq_draw(7), &moved), VIQ_UNTAKEN);
    is("leave while they are", viq_candidacy_leave(left->candidacy, left->bsr, left->router), VIQ_UNTAKEN);
    struct waiting *next = &waiting[posted % COUNT(waiting)];
    is("to the BSR", viq_take(left->router, &next->packet, next->bytes, sizeof next->bytes) && next->packet.kind == VIQ_UNICAST && next->packet.destination == RIGHT_ROUTER, true);
    packet = next->packet;
    is("with no holdtime", packet.length == 42 && next->bytes[26] == 0 && next->bytes[27] == 0, true);
    next->to = 1, posted++;
    deliver_all();
    is("it was taken", last_told == VIQ_DONE && viq_candidacy_rps(stations[1].candidacy) < held, true);
    is("the BSR leaves", viq_candidacy_leave(stations[1].candidacy, stations[1].bsr, stations[1].router), VIQ_DONE);
    is("it tells nobody", viq_packets(stations[1].router), 0);
}

static void end_station(int at) {
    viq_candidacy_end(stations[at].candidacy);
    viq_bsr_end(stations[at].bsr);
    viq_end(stations[at].router);
    stations[at] = (struct station){NULL, NULL, NULL};
}

static void candidacies(void) {
    static const struct viq_interface interfaces[] = {{LEFT_ROUTER, 24, 1, 500, 2500}, {RIGHT_ROUTER, 24, 1, 500, 2500}};
    refused_candidacies();
    for (int at = 0; at < 2; at++) {
        struct station *it = &stations[at];
        is("new that stands", viq_new(&it->router, VIQ_ABI, &usual, &interfaces[at], 1, NULL, 0, NULL, 0), VIQ_DONE);
        is("its listener", viq_bsr_new(&it->bsr, VIQ_ABI, 256, NULL, 0, 60000), VIQ_DONE);
        is("its candidacy", viq_candidacy_new(&it->candidacy, VIQ_ABI, at ? &stands_right : &stands_left, at ? of_right : of_left, at ? 2 : 1, 0), VIQ_DONE);
        is("up that stands", viq_up(it->router, 0, viq_draw(7)), VIQ_DONE);
        post(at);
    }
    without_a_candidacy(stations[0].bsr, stations[0].router);
    before_an_election();
    an_election();
    advertisements();
    bootstraps_at_a_candidate();
    one_leaves();
    end_station(1);
    go_to(300000);
    is("the other is the BSR then", state_of(0).role, VIQ_BSR_ELECTED);
    is("and its own RP", viq_candidacy_rps(stations[0].candidacy) == 1 && rp_of(stations[0].router, 0xef090909) == LEFT_ROUTER, true);
    end_station(0);
}

/* ---- hosts and routers of older versions */

enum { OLDER_BYTES = 32 };

/* A message of eight bytes, from 10.0.IFACE.HOST. */
static void put_older(uint8_t *bytes, uint8_t iface, uint8_t host, uint8_t type, uint32_t group) {
    const uint8_t packet[OLDER_BYTES] = {0x46, 0, 0, OLDER_BYTES, 0, 0, 0, 0, 1, IGMP, 0, 0, 10, 0, iface, host, 224, 0, 0, 1, 0x94, 4, 0, 0,
                                         type, 0, 0, 0, (uint8_t)(group >> 24), (uint8_t)(group >> 16), (uint8_t)(group >> 8), (uint8_t)group};
    memcpy(bytes, packet, sizeof packet);
    set_sum(bytes, 24, 10);
    set_sum(bytes + 24, 8, 2);
}

/* The same, on its interface. */
static uint32_t older(struct viq_router *router, uint8_t iface, uint8_t host, uint8_t type, uint32_t group) {
    uint8_t bytes[OLDER_BYTES];
    put_older(bytes, iface, host, type, group);
    return viq_frame(router, iface, bytes, sizeof bytes, viq_draw(0));
}

/* A BLOCK of 10.0.0.9 in 239.1.1.1, of a host of IGMPv3 on interface 1. */
static uint32_t blocked(struct viq_router *router) {
    uint8_t report[] = {0x46, 0xc0, 0, 44, 0, 0, 0, 0, 1, 2, 0, 0, 10, 0, 1, 8, 224, 0, 0, 22, 0x94, 4, 0, 0,
                        0x22, 0, 0, 0, 0, 0, 0, 1, 6, 0, 0, 1, 239, 1, 1, 1, 10, 0, 0, 9};
    set_sum(report, 24, 10);
    set_sum(report + 24, 20, 2);
    return viq_frame(router, 1, report, sizeof report, viq_draw(0));
}

enum { QUERY = 0x11, REPORT_ONE = 0x12, REPORT_TWO = 0x16, LEAVE = 0x17, THEIRS = 0xef010101 };

static void settings_of_older(struct viq_router *router) {
    is("a report of IGMPv2, unheard", older(router, 1, 9, REPORT_TWO, THEIRS), VIQ_OLD_VERSION);
    is("a query of IGMPv2, unheard", older(router, 0, 1, QUERY, 0), VIQ_OLD_VERSION);
    is("no rows", viq_older_read(router), VIQ_DONE);
    is("none", viq_older_rows(router), 0);
    is("older hosts of no interface", viq_older(router, 3, VIQ_OLDER_ALL), VIQ_BAD_INTERFACE);
    is("no such hosts", viq_older(router, 1, 3), VIQ_NO_SETTING);
    is("no version of an interface", viq_query_version(router, 1, 4), VIQ_NO_SETTING);
    is("version 1", viq_query_version(router, 1, 1), VIQ_NO_SETTING);
    is("version 2 of no interface", viq_query_version(router, 3, 2), VIQ_BAD_INTERFACE);
    is("a report of IGMPv2, still unheard", older(router, 1, 9, REPORT_TWO, THEIRS), VIQ_OLD_VERSION);
}

static void groups_of_older(struct viq_router *router) {
    struct viq_older_row row = {.iface = 7};
    is("hosts of both versions", viq_older(router, 1, VIQ_OLDER_ALL), VIQ_DONE);
    is("a report of IGMPv2", older(router, 1, 9, REPORT_TWO, THEIRS), VIQ_DONE);
    is("of SSM", older(router, 1, 9, REPORT_TWO, 0xe8010101), VIQ_OLD_VERSION);
    is("another interface hears nobody", older(router, 2, 9, REPORT_TWO, THEIRS), VIQ_OLD_VERSION);
    is("read", viq_older_read(router), VIQ_DONE);
    is("a group", viq_older_rows(router), 1);
    is("it is there", viq_older_row(router, 0, &row), true);
    is("which", row.iface == 1 && row.group == THEIRS && row.mode == 2, true);
    is("for [Older Host Present Interval]", row.two_end == 5 + 260000 && row.one_end == VIQ_NEVER, true);
    row.iface = 7;
    is("no second one", viq_older_row(router, 1, &row), false);
    is("what isn't written", row.iface, 7);
    is("a BLOCK of another host", blocked(router), VIQ_DONE);
    is("sources", viq_read(router, 'S'), VIQ_DONE);
    is("none is excluded", viq_rows(router), 0);
    is("a report of IGMPv1", older(router, 1, 10, REPORT_ONE, THEIRS), VIQ_DONE);
    is("a Leave beside it", older(router, 1, 9, LEAVE, THEIRS), VIQ_OLD_VERSION);
    is("read again", viq_older_read(router), VIQ_DONE);
    is("the group again", viq_older_row(router, 0, &row) && row.mode == 1 && row.one_end == 5 + 260000, true);
    is("hosts of IGMPv2 alone", viq_older(router, 1, VIQ_OLDER_TWO), VIQ_DONE);
    is("what was read stays", viq_older_rows(router), 1);
    is("read once more", viq_older_read(router), VIQ_DONE);
    is("what was heard is forgotten", viq_older_rows(router), 0);
    is("a report of IGMPv1, unheard", older(router, 1, 10, REPORT_ONE, THEIRS), VIQ_OLD_VERSION);
}

static void end_of_older(struct viq_router *router) {
    struct viq_packet packet = {7, 7, 7, 7};
    uint8_t room[VIQ_MOST_BYTES];
    is("a report of IGMPv2", older(router, 1, 9, REPORT_TWO, THEIRS), VIQ_DONE);
    is("its Leave", older(router, 1, 9, LEAVE, THEIRS), VIQ_DONE);
    is("the query of the group", viq_take(router, &packet, room, sizeof room), true);
    is("it is one of IGMPv3", packet.iface == 1 && packet.length == 36, true);
    is("nobody answers", viq_advance(router, 5 + 2000, viq_draw(0)), VIQ_DONE);
    is("groups", viq_read(router, 'G'), VIQ_DONE);
    is("there is none", viq_rows(router), 0);
    is("read", viq_older_read(router), VIQ_DONE);
    is("none is in an older mode", viq_older_rows(router), 0);
    is("version 2", viq_query_version(router, 1, 2), VIQ_DONE);
    is("a report of IGMPv2 again", older(router, 1, 9, REPORT_TWO, THEIRS), VIQ_DONE);
    is("its Leave again", older(router, 1, 9, LEAVE, THEIRS), VIQ_DONE);
    is("the query of the group again", viq_take(router, &packet, room, sizeof room), true);
    is("it is one of IGMPv2", packet.iface == 1 && packet.length == 32 && room[24] == QUERY && room[25] == 10, true);
    is("a query of IGMPv2 where hosts aren't heard", older(router, 0, 1, QUERY, 0), VIQ_OLD_VERSION);
    is("version 2 there", viq_query_version(router, 0, 2), VIQ_DONE);
    is("a query of IGMPv2", older(router, 0, 1, QUERY, 0), VIQ_DONE);
    is("version 3 there", viq_query_version(router, 0, 3), VIQ_DONE);
    is("a query of IGMPv2 then", older(router, 0, 1, QUERY, 0), VIQ_OLD_VERSION);
}

static void older_versions(void) {
    struct viq_router *router = NULL;
    is("new for older hosts", made(&router, &usual), VIQ_DONE);
    moments_and_interfaces(router);
    settings_of_older(router);
    groups_of_older(router);
    end_of_older(router);
    viq_end(router);
}

/* ---- many frames by one call: one router is given each frame by a call of its own, the other one all by few calls */

enum { KINDS = 14, ROUNDS = 60, IN_A_ROUND = 25, ROOM = 64 };

/* What a router sent: of each packet what it is, where it goes, and its bytes. */
struct sent {
    size_t length;
    uint8_t bytes[1 << 16];
};

static void take_all(struct viq_router *router, struct sent *sent) {
    struct viq_packet packet = {7, 7, 7, 7};
    uint8_t room[VIQ_MOST_BYTES];
    while (sent->length + sizeof packet + sizeof room <= sizeof sent->bytes && viq_take(router, &packet, room, sizeof room)) {
        uint32_t head[] = {packet.kind, packet.iface, packet.destination, (uint32_t)packet.length};
        memcpy(sent->bytes + sent->length, head, sizeof head);
        memcpy(sent->bytes + sent->length + sizeof head, room, packet.length);
        sent->length += sizeof head + packet.length;
    }
    is("all is taken", viq_packets(router), 0);
}

/* By a call for each. `ends` tells behind which there is something to do. */
static void give_each(struct viq_router *router, const struct viq_received *frames, size_t count, uint32_t *answers, bool *ends,
                      struct sent *sent) {
    for (size_t at = 0; at < count; at++) {
        answers[at] = (viq_frame)(router, frames[at].iface, frames[at].packet, frames[at].length, frames[at].draw);
        ends[at] = viq_packets(router) != 0 || viq_touched(router) != 0;
        take_all(router, sent);
    }
}

/* By few calls, of which each ends there. It tells how many. */
static size_t give_all(struct viq_router *router, const struct viq_received *frames, size_t count, uint32_t *answers,
                       const bool *ends, struct sent *sent) {
    size_t calls = 0;
    for (size_t at = 0, wanted; at < count; at += wanted, calls++) {
        for (wanted = 1; at + wanted < count && !ends[at + wanted - 1];) wanted++;
        is("how many are given", viq_frames(router, frames + at, count - at, answers + at), wanted);
        take_all(router, sent);
    }
    return calls;
}

/* Gives both routers the same frames: then they have answered and sent the same, and are the same. It tells how many calls
 * were enough for the second one. */
static size_t given_both(struct viq_router *const *routers, const struct viq_received *frames, size_t count, uint32_t *answers) {
    static struct sent sent[2];
    static uint8_t saved[2][1 << 14];
    uint32_t others[IN_A_ROUND];
    bool ends[IN_A_ROUND];
    size_t sizes[2] = {0, 0};
    sent[0].length = sent[1].length = 0;
    give_each(routers[0], frames, count, answers, ends, &sent[0]);
    size_t calls = give_all(routers[1], frames, count, others, ends, &sent[1]);
    is("the same answers", memcmp(answers, others, count * sizeof *answers), 0);
    is("the same packets", sent[0].length == sent[1].length && memcmp(sent[0].bytes, sent[1].bytes, sent[0].length) == 0, true);
    for (size_t at = 0; at < 2; at++)
        is("saved", viq_save(routers[at], saved[at], sizeof saved[at], &sizes[at]) == VIQ_DONE && sizes[at] <= sizeof saved[at], true);
    is("the same state", sizes[0] == sizes[1] && memcmp(saved[0], saved[1], sizes[0]) == 0, true);
    return calls;
}

/* Two neighbours, a Join, data and a host, new and known; and what is refused, ignored or guarded. */
static void put_frames(struct viq_received *frames) {
    static uint8_t bytes[KINDS][ROOM];
    static const struct { uint32_t iface; const char *hex; } texts[KINDS] = {
        {0, hello_above}, {1, hello_below}, {1, ""}, {3, hello_above}, {1, join}, {1, join}, {0, data}, {1, join}, {0, data}, {0, data},
        {2, ""}, {2, ""}, {0, data}, {1, ""}};
    static const uint32_t source = 0x0a000305;
    for (size_t at = 0; at < KINDS; at++)
        frames[at] = (struct viq_received){texts[at].iface, bytes[at], bytes_of(texts[at].hex, bytes[at]), viq_draw(0)};
    put_packet(bytes[8], PIM, OURS);
    /* A packet of the router's own address. */
    memcpy(bytes[9] + 10, "\0\0\x0a\0\0\2", 6);
    set_sum(bytes[9], 20, 10);
    for (size_t at = 10; at < 12; at++)
        frames[at].length = viq_report(0x0a000209, VIQ_ALLOW, OURS, &source, 1, bytes[at], ROOM);
    put_older(bytes[13], 1, 9, REPORT_TWO, THEIRS);
    frames[13].length = OLDER_BYTES;
}

/* A number that isn't foretold by eye. */
static uint32_t scattered(uint32_t *seed) {
    *seed = *seed * 1664525 + 1013904223;
    return *seed >> 8;
}

static void many_frames(void) {
    static const uint32_t wanted[KINDS] = {0, 0, VIQ_SHORT, VIQ_BAD_INTERFACE, 0, 0, 0, 0, VIQ_GUARDED, VIQ_OWN, 0, 0, 0, VIQ_OLD_VERSION};
    struct viq_router *routers[2] = {NULL, NULL};
    struct viq_received kinds[KINDS], frames[IN_A_ROUND];
    uint32_t answers[IN_A_ROUND], seed = 7;
    for (size_t at = 0; at < 2; at++) {
        is("new for many frames", made(&routers[at], &usual), VIQ_DONE);
        moments_and_interfaces(routers[at]);
        viq_clear(routers[at]);
    }
    put_frames(kinds);
    /* Something is to be done behind the first Join and each packet, which send, and the first report, which changes the row. */
    is("five calls for all kinds", given_both(routers, kinds, KINDS, answers), 5);
    is("what they are answered", memcmp(answers, wanted, sizeof wanted), 0);
    for (uint32_t round = 1; round <= ROUNDS; round++) {
        for (size_t at = 0; at < IN_A_ROUND; at++) {
            frames[at] = kinds[scattered(&seed) % KINDS];
            frames[at].draw = viq_draw(scattered(&seed));
        }
        given_both(routers, frames, IN_A_ROUND, answers);
        for (size_t at = 0; at < 2; at++) is("time passes", viq_advance(routers[at], 5 + 300 * round, viq_draw(seed)), VIQ_DONE);
        viq_clear(routers[0]);
        viq_clear(routers[1]);
    }
    viq_end(routers[0]);
    viq_end(routers[1]);
}

/* ---- another configuration */

/* What is refused changes nothing. */
static void refused_reloads(struct viq_router *router) {
    static const struct viq_settings bad = {0, 2, 125, 100, 10, false, NULL, 0};
    static const size_t counts[] = {0, VIQ_MOST_INTERFACES + 1, SIZE_MAX};
    is("a row that was read", viq_read(router, 'N') == VIQ_DONE && viq_rows(router) == 2, true);
    is("a bad limit", reloaded(router, &bad, 3), VIQ_BAD_LIMIT);
    for (size_t at = 0; at < COUNT(counts); at++)
        is("so many interfaces", viq_reload(router, &usual, three, counts[at], NULL, 0, NULL, 0, viq_draw(0)), VIQ_INTERFACE_COUNT);
    is("a route of no interface", viq_reload(router, &usual, three, 1, (struct viq_route[]){{0, 0, 0x0a000201 + 5, 2, 0, 0}}, 1, NULL, 0, viq_draw(0)), VIQ_CONFIGURED_ROUTES);
    is("too many routes", viq_reload(router, &usual, three, 3, two, SIZE_MAX, one, 1, viq_draw(0)), VIQ_CONFIGURED_ROUTES);
    is("too many ranges", viq_reload(router, &usual, three, 3, two, 2, one, SIZE_MAX, viq_draw(0)), VIQ_CONFIGURED_RANGES);
    is("the rows stay", viq_rows(router), 2);
    is("nothing may differ by it", viq_may_differ(router, 0x0a000306, 0xe1010102), false);
}

static void same_configuration(struct viq_router *router) {
    uint64_t next = viq_next_moment(router);
    is("the same configuration", reloaded(router, &usual, 3), VIQ_DONE);
    is("nothing leaves", viq_packets(router), 0);
    is("no copy", viq_copies(router), 0);
    is("the same timers", viq_next_moment(router), next);
    is("rows are dropped", viq_rows(router), 0);
    is("the source is listed", viq_changed(router), 1);
    is("all may differ", viq_may_differ(router, 0x0a000306, 0xe1010102), true);
    is("data goes on", frame(router, 0, data) == VIQ_DONE && viq_copies(router) == 1, true);
}

static void other_configurations(struct viq_router *router) {
    struct viq_interface four[] = {three[0], three[1], three[2], {0x0a000401, 24, 1, 500, 2500}};
    struct viq_settings small = VIQ_USUAL_SETTINGS;
    struct viq_packet packet = {7, 7, 7, 7};
    struct viq_link link;
    uint8_t room[VIQ_MOST_BYTES];
    small.limit = 1;
    four[1].priority = 9;
    is("another priority, an interface more, a limit below the facts", viq_reload(router, &small, four, 4, two, COUNT(two), one, COUNT(one), viq_draw(7)), VIQ_DONE);
    is("a Hello", viq_packets(router), 1);
    is("there", viq_take(router, &packet, room, sizeof room) && packet.kind == VIQ_FRAME && packet.iface == 1, true);
    is("the new one is down", viq_link(router, 3, &link) && !link.is_up, true);
    is("it goes up", viq_up(router, 3, viq_draw(7)), VIQ_DONE);
    is("facts stay", viq_read(router, 'D') == VIQ_DONE && viq_rows(router) == 1, true);
    is("there is no room for another", viq_seen(router, 2, 0x0a000207, 0xe1010102, viq_draw(0)), VIQ_FULL);
    is("data goes on", frame(router, 0, data) == VIQ_DONE && viq_copies(router) == 1, true);
    is("two interfaces less", reloaded(router, &usual, 2), VIQ_DONE);
    is("they are gone", viq_link(router, 2, &link), false);
    is("up of one", viq_up(router, 2, viq_draw(7)), VIQ_BAD_INTERFACE);
    is("data still goes on", frame(router, 0, data) == VIQ_DONE && viq_copies(router) == 1, true);
    is("the joined one less", viq_reload(router, &usual, three, 1, two, COUNT(two), one, COUNT(one), viq_draw(7)), VIQ_DONE);
    is("its Join is gone", viq_read(router, 'D') == VIQ_DONE && viq_rows(router) == 0, true);
    is("no copy leaves", frame(router, 0, data) == VIQ_DONE && viq_copies(router) == 0, true);
}

/* What was set of older hosts stays with the interfaces that stay. */
static void reloads_with_older(void) {
    struct viq_router *router = NULL;
    is("new for older hosts and reloads", made(&router, &usual), VIQ_DONE);
    moments_and_interfaces(router);
    is("hosts of both versions", viq_older(router, 1, VIQ_OLDER_ALL), VIQ_DONE);
    is("version 2", viq_query_version(router, 1, 2), VIQ_DONE);
    is("a report of IGMPv2", older(router, 1, 9, REPORT_TWO, THEIRS), VIQ_DONE);
    is("the groups", viq_older_read(router) == VIQ_DONE && viq_older_rows(router) == 1, true);
    is("an interface less", viq_reload(router, &usual, three, 2, NULL, 0, one, 1, viq_draw(7)), VIQ_DONE);
    is("what was read is dropped", viq_older_rows(router), 0);
    is("the group is there", viq_older_read(router) == VIQ_DONE && viq_older_rows(router) == 1, true);
    is("no setting of the one that is gone", viq_older(router, 2, VIQ_OLDER_ALL), VIQ_BAD_INTERFACE);
    is("the interface once more", reloaded(router, &usual, 3), VIQ_DONE);
    is("it goes up", viq_up(router, 2, viq_draw(7)), VIQ_DONE);
    is("it hears nobody", older(router, 2, 9, REPORT_TWO, THEIRS), VIQ_OLD_VERSION);
    is("it can", viq_older(router, 2, VIQ_OLDER_ALL), VIQ_DONE);
    is("and then does", older(router, 2, 9, REPORT_TWO, THEIRS), VIQ_DONE);
    is("all are gone", viq_reload(router, &usual, three, 1, NULL, 0, one, 1, viq_draw(7)), VIQ_DONE);
    is("with their groups", viq_older_read(router) == VIQ_DONE && viq_older_rows(router) == 0, true);
    viq_end(router);
}

/* A map that doesn't fit changes nothing. */
static void refused_places(struct viq_router *router) {
    static const struct viq_settings bad = {0, 2, 125, 100, 10, false, NULL, 0};
    static const uint32_t each[] = {0, 1, 2, VIQ_NO_PLACE}, twice[] = {0, 1, 1}, past[] = {0, 1, 3}, far[] = {0, 1, UINT32_MAX - 1};
    static const size_t counts[] = {0, 2, 4, SIZE_MAX};
    is("a row that was read", viq_read(router, 'N') == VIQ_DONE && viq_rows(router) == 2, true);
    for (size_t at = 0; at < COUNT(counts); at++)
        is("so many places", placed(router, &usual, each, counts[at]), VIQ_PLACES_DONT_FIT);
    is("no places", placed(router, &usual, NULL, 0), VIQ_PLACES_DONT_FIT);
    is("a place twice", placed(router, &usual, twice, 3), VIQ_PLACES_DONT_FIT);
    is("a place past the last one", placed(router, &usual, past, 3), VIQ_PLACES_DONT_FIT);
    is("a place far past it", placed(router, &usual, far, 3), VIQ_PLACES_DONT_FIT);
    is("a bad limit goes first", placed(router, &bad, twice, 3), VIQ_BAD_LIMIT);
    is("the rows stay", viq_rows(router), 2);
    is("nothing may differ by it", viq_may_differ(router, 0x0a000306, 0xe1010102), false);
}

/* The interfaces the other way round, then without the one that was first. The stream goes on. */
static void other_places(struct viq_router *router) {
    struct viq_interface turned[] = {three[2], three[1], three[0]}, less[] = {three[1], three[0]};
    struct viq_route there[] = {two[0], two[1]}, then[] = {two[0], two[1]};
    static const uint32_t round[] = {2, 1, 0}, without[] = {VIQ_NO_PLACE, 0, 1}, none[] = {VIQ_NO_PLACE, VIQ_NO_PLACE};
    struct viq_packet packet = {7, 7, 7, 7};
    struct viq_link link;
    uint8_t room[VIQ_MOST_BYTES];
    there[0].iface = there[1].iface = 2;
    then[0].iface = then[1].iface = 1;
    is("the other way round", viq_reload_places(router, &usual, turned, 3, there, COUNT(there), one, COUNT(one), round, 3, viq_draw(7)), VIQ_DONE);
    is("nothing leaves", viq_packets(router), 0);
    is("rows are dropped", viq_rows(router), 0);
    is("all may differ", viq_may_differ(router, 0x0a000306, 0xe1010102), true);
    is("they stay up", viq_link(router, 0, &link) && link.is_up && viq_link(router, 2, &link) && link.is_up, true);
    is("data comes there", frame(router, 2, data) == VIQ_DONE && viq_copies(router) == 1, true);
    is("and leaves", viq_take(router, &packet, room, sizeof room) && packet.kind == VIQ_COPY && packet.iface == 1, true);
    is("without the first", viq_reload_places(router, &usual, less, 2, then, COUNT(then), one, COUNT(one), without, 3, viq_draw(7)), VIQ_DONE);
    is("nothing leaves then", viq_packets(router), 0);
    is("there are two", viq_link(router, 2, &link), false);
    is("data comes as before", frame(router, 1, data) == VIQ_DONE && viq_copies(router) == 1, true);
    is("and leaves as before", viq_take(router, &packet, room, sizeof room) && packet.kind == VIQ_COPY && packet.iface == 0, true);
    is("the neighbours are there", viq_read(router, 'N') == VIQ_DONE && viq_rows(router) == 2, true);
    is("none is kept", viq_reload_places(router, &usual, less, 2, then, COUNT(then), one, COUNT(one), none, 2, viq_draw(7)), VIQ_DONE);
    is("all facts are gone", viq_read(router, 'N') == VIQ_DONE && viq_rows(router) == 0, true);
    is("and they are down", viq_link(router, 0, &link) && !link.is_up, true);
}

/* What was set of older hosts goes with the links. */
static void places_with_older(void) {
    struct viq_router *router = NULL;
    struct viq_interface turned[] = {three[1], three[0]};
    struct viq_older_row row = {.iface = 7};
    static const uint32_t round[] = {1, 0, VIQ_NO_PLACE}, without[] = {0, VIQ_NO_PLACE};
    is("new for older hosts and places", made(&router, &usual), VIQ_DONE);
    moments_and_interfaces(router);
    is("hosts of both versions", viq_older(router, 1, VIQ_OLDER_ALL), VIQ_DONE);
    is("a report of IGMPv2", older(router, 1, 9, REPORT_TWO, THEIRS), VIQ_DONE);
    is("turned", viq_reload_places(router, &usual, turned, 2, NULL, 0, one, 1, round, 3, viq_draw(7)), VIQ_DONE);
    is("the group is there", viq_older_read(router) == VIQ_DONE && viq_older_rows(router) == 1, true);
    is("on the other number", viq_older_row(router, 0, &row) && row.iface == 0, true);
    is("which hears such hosts", older(router, 0, 9, REPORT_TWO, THEIRS), VIQ_DONE);
    is("the other one doesn't", older(router, 1, 9, REPORT_TWO, THEIRS), VIQ_OLD_VERSION);
    is("it is left out", viq_reload_places(router, &usual, &three[0], 1, NULL, 0, one, 1, (uint32_t[]){VIQ_NO_PLACE, 0}, 2, viq_draw(7)), VIQ_DONE);
    is("and its group is gone", viq_older_read(router) == VIQ_DONE && viq_older_rows(router) == 0, true);
    is("the place of the other", viq_reload_places(router, &usual, turned, 2, NULL, 0, one, 1, without, 1, viq_draw(7)), VIQ_DONE);
    viq_end(router);
}

static void places(void) {
    struct viq_router *router = NULL;
    is("new for places", made(&router, &usual), VIQ_DONE);
    moments_and_interfaces(router);
    packets(router);
    refused_places(router);
    other_places(router);
    viq_end(router);
    places_with_older();
}

static void reloads(void) {
    struct viq_router *router = NULL;
    is("new for reloads", made(&router, &usual), VIQ_DONE);
    moments_and_interfaces(router);
    packets(router);
    refused_reloads(router);
    same_configuration(router);
    other_configurations(router);
    viq_end(router);
    reloads_with_older();
    places();
}

/* ---- saved and restored */

static uint8_t saved[4096], again[4096];

static uint32_t crc_of(uint32_t crc, const uint8_t *bytes, size_t length) {
    for (size_t at = 0; at < length; at++) {
        crc ^= bytes[at];
        for (int bit = 0; bit < 8; bit++) crc = crc & 1 ? crc >> 1 ^ 0xedb88320 : crc >> 1;
    }
    return crc;
}

/* Whether bytes are refused; a router of them is ended. */
static uint32_t restored(const uint8_t *bytes, size_t length) {
    struct viq_router *router = (struct viq_router *)&wrong;
    uint32_t answer = viq_restore(&router, VIQ_ABI, bytes, length);
    is("a router where there is one", router != NULL, answer == VIQ_DONE);
    viq_end(router);
    return answer;
}

/* Bytes with their sum, and how many there are then. */
static uint8_t whole[sizeof saved + 4];

static size_t with_sum(const uint8_t *bytes, size_t length) {
    uint32_t sum = ~crc_of(UINT32_MAX, bytes, length);
    memcpy(whole, bytes, length);
    for (int at = 0; at < 4; at++) whole[length + at] = (uint8_t)(sum >> (24 - 8 * at));
    return length + 4;
}

/* The same of these bytes and their sum. */
static uint32_t summed(const uint8_t *bytes, size_t length) { return restored(whole, with_sum(bytes, length)); }

/* A listener that knows one RP of 239.0.0.0/8, which has to be what a message can say. */
static void listeners_of_bytes(void) {
    uint8_t bytes[87] = "VIQB\0\1";
    const uint8_t rp[] = {239, 0, 0, 0, 0, 0, 0, 8, 30, 10, 9, 9, 9};
    bytes[21] = 1;                    /* the limit */
    bytes[39] = 1;                    /* how many RPs are in force */
    memcpy(bytes + 40, rp, sizeof rp);
    is("one RP", listening(whole, with_sum(bytes, 86)), VIQ_DONE);
    is("a byte more", listening(whole, with_sum(bytes, 87)), VIQ_LEFT_OVER);
    is("a byte less", listening(whole, with_sum(bytes, 85)), VIQ_CUT_SHORT);
    bytes[47] = 3;
    is("a range that is too wide", listening(whole, with_sum(bytes, 86)), VIQ_RPS_NOT_HELD);
    bytes[47] = 33;
    is("one that is too narrow", listening(whole, with_sum(bytes, 86)), VIQ_RPS_NOT_HELD);
    bytes[47] = 8;
    bytes[49] = 224;
    is("a group as RP", listening(whole, with_sum(bytes, 86)), VIQ_RPS_NOT_HELD);
    bytes[49] = 10;
    bytes[21] = 0;
    is("no room", listening(whole, with_sum(bytes, 86)), VIQ_RPS_NOT_HELD);
    bytes[21] = 1;
    bytes[22] = 2;
    is("no such flag", listening(whole, with_sum(bytes, 86)), VIQ_OUT_OF_RANGE);
}

static void sizes(struct viq_router *router) {
    size_t size = 7, other = 7;
    is("the size", viq_save(router, NULL, 0, &size), VIQ_DONE);
    is("it fits", size > 100 && size < sizeof saved, true);
    memset(saved, 7, sizeof saved);
    is("save into too little", viq_save(router, saved, 6, &other), VIQ_DONE);
    is("the same size", other, size);
    is("as many as fit", memcmp(saved, "VQST\0\2", 6) == 0 && saved[6] == 7, true);
    is("save into more", viq_save(router, saved, sizeof saved, &other), VIQ_DONE);
    is("the same size again", other, size);
    is("the rest stays", saved[size], 7);
    is("save again", viq_save(router, again, size, &other), VIQ_DONE);
    is("the same bytes", memcmp(saved, again, size), 0);
}

/* What a router goes on with is what one sends that was never saved. */
static void goes_on(struct viq_router *router) {
    struct viq_router *other = NULL;
    struct viq_forwarding told;
    size_t size = 0, size_again = 0;
    is("save", viq_save(router, saved, sizeof saved, &size), VIQ_DONE);
    is("restore", viq_restore(&other, VIQ_ABI, saved, size), VIQ_DONE);
    is("nothing to send", viq_packets(other), 0);
    is("no rows", viq_rows(other), 0);
    is("no costs", viq_probes(other) + viq_touched(other), 0);
    is("nothing changed", viq_changed(other), 0);
    is("nothing may differ", viq_may_differ(other, 0x0a000305, 0xe1010101), false);
    is("the same next moment", viq_next_moment(other), viq_next_moment(router));
    is("its forwarding cache", viq_cached(other, 0x0a000305, 0xe1010101, &told) && told.immediate.low == 1 << 1, true);
    is("data of the saved one", frame(router, 0, data), VIQ_DONE);
    is("data of the restored one", frame(other, 0, data), VIQ_DONE);
    is("copies of both", viq_copies(router) == 1 && viq_copies(other) == 1, true);
    is("time of the saved one", viq_advance(router, 100000, viq_draw(9)), VIQ_DONE);
    is("time of the restored one", viq_advance(other, 100000, viq_draw(9)), VIQ_DONE);
    is("packets of both", viq_packets(router), viq_packets(other));
    is("save of the saved one", viq_save(router, saved, sizeof saved, &size), VIQ_DONE);
    is("save of the restored one", viq_save(other, again, sizeof again, &size_again), VIQ_DONE);
    is("the same state", size == size_again && memcmp(saved, again, size) == 0, true);
    is("older hosts, which it may hear", viq_older(other, 1, VIQ_OLDER_ALL), VIQ_DONE);
    viq_end(other);
}

/* Bytes of no router. */
static void refused_bytes(struct viq_router *router) {
    struct viq_router *other = (struct viq_router *)&wrong;
    size_t size = 0;
    is("save for what is refused", viq_save(router, saved, sizeof saved, &size), VIQ_DONE);
    is("no bytes", restored(NULL, 0), VIQ_CUT_SHORT);
    is("one byte", restored(saved, 1), VIQ_CUT_SHORT);
    for (size_t length = 0; length < 6; length++) is("cut short", restored(saved, length), VIQ_CUT_SHORT);
    for (size_t length = 6; length < size; length++) is("without its sum", restored(saved, length), VIQ_DAMAGED);
    /* What is missing is read of the sum first, where a flag may be none. */
    for (size_t length = 6; length < size - 4; length++) {
        uint32_t answer = summed(saved, length);
        is("cut short, and its sum", answer == VIQ_CUT_SHORT || answer == VIQ_OUT_OF_RANGE, true);
    }
    for (size_t at = 6; at < size; at++) {
        saved[at] ^= 1 << at % 8;
        is("one bit", restored(saved, size), VIQ_DAMAGED);
        saved[at] ^= 1 << at % 8;
    }
    saved[size] = 0;
    is("one byte more", restored(saved, size + 1), VIQ_DAMAGED);
    memset(saved + size - 4, 0, 1);
    is("one byte more, and its sum", summed(saved, size - 3), VIQ_LEFT_OVER);
    saved[0] ^= 1;
    is("another beginning", summed(saved, size - 4), VIQ_NOT_OURS);
    saved[0] ^= 1;
    saved[5] = 1;
    is("another version", summed(saved, size - 4), VIQ_OTHER_VERSION);
    saved[5] = 2;
    saved[10] = 2;
    is("no such switch", summed(saved, size - 4), VIQ_OUT_OF_RANGE);
    saved[10] = 0;
    memset(saved + 6, 0, 4);
    is("no limit", summed(saved, size - 4), VIQ_NOT_HELD);
    saved[7] = 1;
    is("as it was", summed(saved, size - 4), VIQ_DONE);
    is("another ABI", viq_restore(&other, VIQ_ABI + 1, saved, size), VIQ_OTHER_ABI);
    is("no router of it", other == NULL, true);
}

static void saved_routers(void) {
    struct viq_router *router = NULL;
    is("new that is saved", made(&router, &usual), VIQ_DONE);
    sizes(router);
    refused_bytes(router);
    moments_and_interfaces(router);
    packets(router);
    sizes(router);
    refused_bytes(router);
    goes_on(router);
    viq_end(router);
    listeners_of_bytes();
}

/* ---- records */

/* A number in network order. */
static size_t put(uint8_t *to, uint64_t number, size_t width) {
    for (size_t at = 0; at < width; at++) to[at] = (uint8_t)(number >> 8 * (width - 1 - at));
    return width;
}

/* The sum of the packets, which are taken one by one. */
static uint32_t sum_of_taken(struct viq_router *router) {
    uint32_t crc = 0xffffffff;
    struct viq_packet packet;
    uint8_t room[VIQ_MOST_BYTES], head[13];
    while (viq_take(router, &packet, room, sizeof room)) {
        head[0] = packet.kind == VIQ_UNICAST ? 'u' : 'f';
        put(head + 1, packet.kind == VIQ_UNICAST ? packet.destination : packet.iface, 4);
        put(head + 5, packet.length, 8);
        crc = crc_of(crc_of(crc, head, sizeof head), room, packet.length);
    }
    return ~crc;
}

/* Whether behind bytes, but for the last four, is their CRC-32. */
static bool is_summed(const uint8_t *bytes, size_t length) {
    uint8_t sum[4];
    put(sum, ~crc_of(UINT32_MAX, bytes, length - 4) & UINT32_MAX, 4);
    return memcmp(bytes + length - 4, sum, 4) == 0;
}

static void recorded(const char *what, const struct viq_call *call, const uint8_t *packet, size_t length, const char *wanted, size_t size) {
    uint8_t room[256];
    size_t told = 7, whole = size ? size + 4 : 0;
    is(what, viq_record(call, packet, length, NULL, 0, &told), VIQ_DONE);
    is("its size", told, whole);
    memset(room, 7, sizeof room);
    is("into room", viq_record(call, packet, length, room, sizeof room, &told), VIQ_DONE);
    is("its bytes", memcmp(room, wanted, size), 0);
    is("its sum", !size || is_summed(room, whole), true);
    is("the rest of the room", room[whole], 7);
}

#define RECORDED(what, call, packet, length, wanted) recorded(what, call, packet, length, wanted, sizeof wanted - 1)
#define END "\0\0\0\x18\1\2\3\4"

static void record_calls(void) {
    struct viq_call call = {0x0102030405060708, 'a', 9, 3, 0x0a000305, 0xe1010101, 2, VIQ_FULL, 0x01020304};
    RECORDED("advance", &call, NULL, 0, "a\0\0\0\x9\1\2\3\4\5\6\7\x8" END);
    call.letter = 'f';
    RECORDED("frame", &call, (const uint8_t *)"xyz", 3, "f\0\0\0\x9\0\0\0\3\0\0\0\0\0\0\0\3xyz" END);
    call.letter = 'u';
    RECORDED("unicast", &call, (const uint8_t *)"xyz", 3, "u\0\0\0\x9\0\0\0\0\0\0\0\3xyz" END);
    call.letter = '+';
    RECORDED("up", &call, NULL, 0, "+\0\0\0\x9\0\0\0\3" END);
    call.letter = '-';
    RECORDED("down", &call, NULL, 0, "-\0\0\0\x9\0\0\0\3" END);
    call.letter = 's';
    RECORDED("seen", &call, NULL, 0, "s\0\0\0\x9\0\0\0\3\x0a\0\3\5\xe1\1\1\1" END);
    call.letter = 'k';
    RECORDED("keep", &call, NULL, 0, "k\x0a\0\3\5\xe1\1\1\1\1\2\3\4\5\6\7\x8" END);
    call.letter = 'o';
    RECORDED("older", &call, NULL, 0, "o\0\0\0\3\0\0\0\2" END);
    call.letter = 'q';
    RECORDED("query version", &call, NULL, 0, "q\0\0\0\3\0\0\0\2" END);
    call.letter = 'x';
    RECORDED("no kind of call", &call, NULL, 0, "");
}

static void record_lists(void) {
    static const char ranges[] = "g\0\0\0\x9\0\0\0\0\0\0\0\1\xe0\0\0\0\0\0\0\4\x0a\x9\x9\x9" END;
    static const char several[] = "h\0\0\0\x9\0\0\0\0\0\0\0\1\xef\0\0\0\0\0\0\x8\x0a\x9\x9\x9\0\0\0\7\0\0\0\x1e" END;
    static const char none[] = "r\0\0\0\x9\0\0\0\0\0\0\0\0" END;
    struct viq_call call = {.draw = 9, .answer = VIQ_FULL, .sum = 0x01020304};
    uint8_t room[512], long_one[64];
    size_t size = 7, other = 7;
    is("ranges", viq_record_ranges(&call, one, COUNT(one), room, sizeof room, &size), VIQ_DONE);
    is("the bytes of ranges", size == sizeof ranges + 3 && memcmp(room, ranges, size - 4) == 0 && is_summed(room, size), true);
    is("a candidate", viq_record_candidates(&call, pair, 1, room, sizeof room, &size), VIQ_DONE);
    is("the bytes of a candidate", size == sizeof several + 3 && memcmp(room, several, size - 4) == 0 && is_summed(room, size), true);
    is("no routes", viq_record_routes(&call, NULL, 0, room, sizeof room, &size), VIQ_DONE);
    is("the bytes of no routes", size == sizeof none + 3 && memcmp(room, none, size - 4) == 0 && is_summed(room, size), true);
    is("two routes", viq_record_routes(&call, two, COUNT(two), NULL, 0, &size), VIQ_DONE);
    is("their size", size, 1 + 4 + 8 + 2 * 24 + 8 + 4);
    is("too many routes", viq_record_routes(&call, two, VIQ_MOST_ROUTES + 1, long_one, sizeof long_one, &other), VIQ_DONE);
    is("as one that is refused", other == 1 + 4 + 8 + 24 + 8 + 4 && long_one[20] == 33, true);
    is("too many candidates", viq_record_candidates(&call, pair, SIZE_MAX, long_one, sizeof long_one, &other), VIQ_DONE);
    is("as one that is refused too", other == 1 + 4 + 8 + 20 + 8 + 4 && long_one[20] == 33, true);
    is("a reload", viq_record_reload(&call, &usual, three, COUNT(three), two, COUNT(two), one, COUNT(one), room, sizeof room, &size), VIQ_DONE);
    is("its size", size, 1 + 4 + 21 + 8 + 3 * 20 + 8 + 8 + 2 * 24 + 8 + 12 + 8 + 4);
    is("its sum", is_summed(room, size), true);
    static const uint32_t own[] = {0x0aff0001, 0x0aff0000};
    struct viq_settings settings = usual;
    settings.addresses = own;
    settings.address_count = COUNT(own);
    is("one with addresses", viq_record_reload(&call, &settings, three, 0, NULL, 0, NULL, 0, room, sizeof room, &size), VIQ_DONE);
    is("its size then", size, 1 + 4 + 21 + 8 + 8 + 2 * 4 + 8 + 8 + 8 + 4);
    is("its addresses", memcmp(room + 34, "\0\0\0\0\0\0\0\2\x0a\xff\0\1\x0a\xff\0\0", 16), 0);
    is("its beginning", memcmp(room, "c\0\0\0\x9\0\1\0\0\0\0\0\0\2\0\0\0\x7d", 18), 0);
}

static void record_places(void) {
    static const uint32_t places[] = {VIQ_NO_PLACE, 0};
    struct viq_call call = {.draw = 9, .answer = VIQ_FULL, .sum = 0x01020304};
    uint8_t room[512];
    size_t size = 7;
    is("a reload by places", viq_record_reload_places(&call, &usual, three, COUNT(three), two, COUNT(two), one, COUNT(one), places, COUNT(places), room, sizeof room, &size), VIQ_DONE);
    is("its size", size, 1 + 4 + 21 + 8 + 3 * 20 + 8 + 8 + 2 * 24 + 8 + 12 + 8 + 2 * 4 + 8 + 4);
    is("its sum", is_summed(room, size), true);
    is("its beginning", memcmp(room, "m\0\0\0\x9\0\1\0\0\0\0\0\0\2\0\0\0\x7d", 18), 0);
    is("its places", memcmp(room + size - 28, "\0\0\0\0\0\0\0\2\xff\xff\xff\xff\0\0\0\0" END, 24), 0);
    is("too many places", viq_record_reload_places(&call, &usual, three, 3, NULL, 0, NULL, 0, places, VIQ_MOST_INTERFACES + 1, room, sizeof room, &size), VIQ_DONE);
    is("as none", memcmp(room + size - 20, "\0\0\0\0\0\0\0\0" END, 16), 0);
}

static void records(void) {
    record_places();
    struct viq_router *router = NULL;
    is("the check value of CRC-32", (uint32_t)~crc_of(0xffffffff, (const uint8_t *)"123456789", 9), 0xcbf43926);
    is("the sum without a router", viq_sum(NULL), 0);
    is("new that is recorded", made(&router, &usual), VIQ_DONE);
    is("the sum of nothing", viq_sum(router), 0);
    moments_and_interfaces(router);
    packets(router);
    is("data that is summed", frame(router, 0, data), VIQ_DONE);
    is("there are packets", viq_packets(router) != 0, true);
    uint32_t sum = viq_sum(router);
    is("their sum", sum, sum_of_taken(router));
    is("the sum of none", viq_sum(router), 0);
    is("time that is summed", viq_advance(router, 100000, viq_draw(9)), VIQ_DONE);
    sum = viq_sum(router);
    is("the sum of messages", sum, sum_of_taken(router));
    record_calls();
    record_lists();
    viq_end(router);
}

/* ---- messages and reports */

static uint32_t message_of(const char *hex) {
    uint8_t bytes[VIQ_MOST_BYTES];
    return viq_message(bytes, bytes_of(hex, bytes));
}

static void messages(void) {
    static const char head[] = "4500001500000000016700000A000001E000000D";
    static const struct { const char *type; uint32_t message; } types[] = {{"20", VIQ_HELLO}, {"21", VIQ_REGISTER}, {"22", VIQ_REGISTER_STOP},
        {"23", VIQ_JOIN_PRUNE}, {"24", VIQ_OTHER_PIM}, {"25", VIQ_ASSERT}, {"26", VIQ_OTHER_PIM}, {"10", VIQ_OTHER_PIM}, {"", VIQ_NO_PACKET}};
    for (size_t at = 0; at < COUNT(types); at++) {
        char hex[64];
        snprintf(hex, sizeof hex, "%s%s", head, types[at].type);
        is("a message of PIM", message_of(hex), types[at].message);
    }
    is("a Hello", message_of(hello_above), VIQ_HELLO);
    is("a Join", message_of(join), VIQ_JOIN_PRUNE);
    is("data", message_of(data), VIQ_DATA);
    is("no bytes", viq_message(NULL, 0), VIQ_NO_PACKET);
    is("another version", message_of("6500001C0000000040118BCA0A000305E1010101"), VIQ_NO_PACKET);
    is("a header that is too short", message_of("4400001C0000000040118BCA0A000305E1010101"), VIQ_NO_PACKET);
    static const struct { const char *hex; uint32_t message; } igmp[] = {{"46000020000000000102000000000000E00000019404000011", VIQ_QUERY},
        {"46000020000000000102000000000000E00000019404000012", VIQ_REPORT}, {"46000020000000000102000000000000E00000019404000016", VIQ_REPORT},
        {"46000020000000000102000000000000E00000019404000017", VIQ_LEAVE}, {"46000020000000000102000000000000E00000019404000013", VIQ_OTHER_IGMP}};
    for (size_t at = 0; at < COUNT(igmp); at++) is("a message of IGMP", message_of(igmp[at].hex), igmp[at].message);
    for (uint32_t message = 0; message < VIQ_OTHER_IGMP; message++)
        is("a name of its own", strcmp(viq_message_text(message), viq_message_text(message + 1)) != 0, true);
    is("a name of none", strcmp(viq_message_text(99), "no packet"), 0);
}

/* As torture/library_threads.c has it, written by hand. */
static void reports(void) {
    static const uint8_t wanted[] = {0x46, 0xc0, 0, 0x28, 0, 0, 0, 0, 1, 2, 0x38, 0xf1, 10, 0, 1, 9, 224, 0, 0, 22, 0x94, 4,
        0, 0, 0x22, 0, 0xe9, 0xfb, 0, 0, 0, 1, 4, 0, 0, 0, 239, 1, 1, 1};
    struct viq_router *router = NULL;
    uint8_t room[VIQ_MOST_BYTES];
    uint32_t sources[VIQ_MOST_SOURCES] = {0x0a000009, 0x0a000008};
    memset(room, 7, sizeof room);
    is("no room", viq_report(0x0a000109, VIQ_TO_EX, 0xef010101, NULL, 0, room, 39), 0);
    is("too many sources", viq_report(0x0a000109, VIQ_ALLOW, 0xef010101, sources, VIQ_MOST_SOURCES + 1, room, sizeof room), 0);
    is("too many to count", viq_report(0x0a000109, VIQ_ALLOW, 0xef010101, sources, SIZE_MAX, room, sizeof room), 0);
    is("nothing is written", room[0] == 7 && room[39] == 7, true);
    is("a report", viq_report(0x0a000109, VIQ_TO_EX, 0xef010101, NULL, 0, room, sizeof room), sizeof wanted);
    is("its bytes", memcmp(room, wanted, sizeof wanted) == 0 && room[sizeof wanted] == 7, true);
    is("what it is", viq_message(room, sizeof wanted), VIQ_REPORT);
    is("new that hears hosts", made(&router, &usual), VIQ_DONE);
    is("up", viq_up(router, 2, viq_draw(7)), VIQ_DONE);
    is("a report of sources", viq_report(0x0a000209, VIQ_ALLOW, 0xe8010101, sources, 2, room, sizeof room), 48);
    is("the router takes it", viq_frame(router, 2, room, 48, viq_draw(0)), VIQ_DONE);
    is("both are wanted", viq_read(router, 'S') == VIQ_DONE && viq_rows(router) == 2, true);
    is("as many as there may be", viq_report(0x0a000209, VIQ_BLOCK, 0xe8010101, sources, VIQ_MOST_SOURCES, room, sizeof room), 40 + 4 * VIQ_MOST_SOURCES);
    is("the router takes them", viq_frame(router, 2, room, 40 + 4 * VIQ_MOST_SOURCES, viq_draw(0)), VIQ_DONE);
    viq_end(router);
}

static void texts(void) {
    is("the version", strncmp(viq_version(), VIQ_VERSION " ", sizeof VIQ_VERSION), 0);
    is("how it was built", strstr(viq_version(), "proved") != NULL, true);
    is("done", strcmp(viq_answer_text(VIQ_DONE), "done"), 0);
    is("no answer", strcmp(viq_answer_text(VIQ_IGNORED), "no answer of this library"), 0);
    is("refused", viq_is_refused(VIQ_FULL) && viq_is_refused(38) && viq_is_refused(VIQ_PLACES_DONT_FIT) && !viq_is_refused(VIQ_DONE) && !viq_is_refused(VIQ_MEMORY), true);
    is("ignored", viq_is_ignored(VIQ_OWN) && viq_is_ignored(VIQ_ALREADY) && viq_is_ignored(VIQ_GUARDED) && !viq_is_ignored(VIQ_NO_TIMER) && !viq_is_ignored(VIQ_NOT_QUIET) && !viq_is_ignored(VIQ_IGNORED), true);
    is("untaken", viq_is_refused(VIQ_UNTAKEN) || viq_is_ignored(VIQ_UNTAKEN) || viq_is_lost(VIQ_UNTAKEN), false);
    is("lost", viq_is_lost(VIQ_LOST) && viq_is_lost(VIQ_FAILED) && !viq_is_lost(VIQ_MEMORY), true);
    is("refused past the first numbers", viq_is_refused(VIQ_OWN_ADDRESSES) && viq_is_refused(VIQ_PLACES_DONT_FIT) && viq_is_refused(VIQ_BAD_CANDIDATES) && viq_is_refused(VIQ_BAD_RP_SET) && !viq_is_refused(VIQ_NOT_NEAR), true);
    is("the last reason", strcmp(viq_answer_text(VIQ_NOT_ELECTED), viq_answer_text(VIQ_NOT_ELECTED + 1)) != 0, true);
}

int main(void) {
    struct viq_router *router, *other;
    without_a_router();
    configurations();
    is("new", made(&router, &usual), VIQ_DONE);
    is("new of another", made(&other, &usual), VIQ_DONE);
    moments_and_interfaces(router);
    packets(router);
    untaken(router);
    cached(router);
    told_trees(router);
    told_links(router);
    tables(router);
    many_interfaces();
    plane();
    full();
    moved_sources();
    candidates();
    guarded();
    shared_addresses();
    sources_of_other_rps();
    bootstraps();
    candidacies();
    older_versions();
    many_frames();
    reloads();
    saved_routers();
    records();
    messages();
    reports();
    texts();
    is("the other's moment", viq_next_moment(other), VIQ_NEVER);
    is("the other's packets", viq_packets(other), 0);
    viq_end(router);
    viq_end(other);
    printf("%u calls and values, %u other than the headers say\n", tried, wrong);
    return wrong != 0;
}
