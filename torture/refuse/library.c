/* Plays the events of one router over and over, with one allocation refused each time, and looks at what the library
 * says then.
 *
 * Standard input has lines of words: `interface`, `route`, `range` and `candidate` with their numbers, `new` with the six
 * settings, and then a line an event, as `frame DRAW IFACE HEX`; `new` takes the lists that stand before it, `routes
 * DRAW`, `ranges DRAW` and `candidates DRAW` those since then. All is played a second time as behind a data plane: of each packet of data the router
 * is told by viq_seen and viq_keep. Linked with --wrap=malloc, realloc and free. */
#include <stdio.h>
#include <stdlib.h>
#include <string.h>

#include <viqeshor/plane.h>

#include "wrapped.h"

enum { MOST_EVENTS = 4096, MOST_ITEMS = 4096, MOST_SOURCES = 64 };
static const char tables[] = "NGSDAURF";

/* ---- memory */

static int refuses(void) { return ++asked == refused_at; }

/* ---- what is played */

struct event {
    char kind; /* a f u + - r g h, and s k of a data plane */
    uint32_t draw, iface;
    uint64_t moment;
    size_t first, count; /* bytes, routes, ranges or candidates */
};

static struct viq_settings settings;
static struct viq_interface interfaces[128];
static uint32_t addresses[VIQ_MOST_ADDRESSES];
static struct viq_route routes[MOST_ITEMS];
static struct viq_range ranges[MOST_ITEMS];
static struct viq_candidate candidates[MOST_ITEMS];
static uint8_t bytes[MOST_EVENTS * 256];
static struct event events[MOST_EVENTS];
static size_t interface_count, address_count, route_count, range_count, byte_count, event_count, first_routes, first_ranges;
static size_t candidate_count, taken_routes, taken_ranges, taken_candidates;

static uint32_t number(void) {
    char *word = strtok(NULL, " \n");
    return word ? (uint32_t)strtoul(word, NULL, 10) : 0;
}

static void read_bytes(struct event *event) {
    const char *word = strtok(NULL, " \n");
    unsigned value;
    event->first = byte_count;
    for (; word && sscanf(word, "%2x", &value) == 1 && byte_count < sizeof bytes; word += 2) bytes[byte_count++] = (uint8_t)value;
    event->count = byte_count - event->first;
}

static void read_event(const char *word) {
    struct event *event = &events[event_count];
    if (++event_count > MOST_EVENTS) exit(2);
    event->kind = strcmp(word, "up") == 0 ? '+' : strcmp(word, "down") == 0 ? '-' : strcmp(word, "ranges") == 0 ? 'g' : word[0];
    if (strcmp(word, "candidates") == 0) event->kind = 'h';
    event->draw = number();
    if (event->kind == 'a') event->moment = strtoull(strtok(NULL, " \n"), NULL, 10);
    if (event->kind == 'f' || event->kind == '+' || event->kind == '-') event->iface = number();
    if (event->kind == 'f' || event->kind == 'u') read_bytes(event);
    if (event->kind == 'r') {
        event->first = taken_routes;
        event->count = route_count - taken_routes;
        taken_routes = route_count;
    }
    if (event->kind == 'g') {
        event->first = taken_ranges;
        event->count = range_count - taken_ranges;
        taken_ranges = range_count;
    }
    if (event->kind == 'h') {
        event->first = taken_candidates;
        event->count = candidate_count - taken_candidates;
        taken_candidates = candidate_count;
    }
}

static void read_line(char *line) {
    const char *word = strtok(line, " \n");
    if (!word) return;
    if (strcmp(word, "new") == 0) {
        uint32_t given[6];
        for (int at = 0; at < 6; at++) given[at] = number();
        settings = (struct viq_settings){given[0], given[1], given[2], given[3], given[4], given[5] != 0, addresses,
                                         address_count};
        first_routes = taken_routes = route_count;
        first_ranges = taken_ranges = range_count;
    } else if (strcmp(word, "interface") == 0) {
        uint32_t *to = &interfaces[interface_count++].address;
        for (int at = 0; at < 5; at++) to[at] = number();
    } else if (strcmp(word, "address") == 0) {
        if (address_count == VIQ_MOST_ADDRESSES) exit(2);
        addresses[address_count++] = number();
    } else if (strcmp(word, "route") == 0) {
        if (route_count == MOST_ITEMS) exit(2);
        uint32_t *to = &routes[route_count++].prefix;
        for (int at = 0; at < 6; at++) to[at] = number();
    } else if (strcmp(word, "range") == 0) {
        if (range_count == MOST_ITEMS) exit(2);
        uint32_t *to = &ranges[range_count++].prefix;
        for (int at = 0; at < 3; at++) to[at] = number();
    } else if (strcmp(word, "candidate") == 0) {
        if (candidate_count == MOST_ITEMS) exit(2);
        uint32_t *to = &candidates[candidate_count++].prefix;
        for (int at = 0; at < 5; at++) to[at] = number();
    } else {
        read_event(word);
    }
}

static uint32_t number_at(const uint8_t *from) {
    return (uint32_t)from[0] << 24 | (uint32_t)from[1] << 16 | (uint32_t)from[2] << 8 | from[3];
}
static uint32_t source_in(const struct event *event) { return number_at(bytes + event->first + 12); }
static uint32_t group_in(const struct event *event) { return number_at(bytes + event->first + 16); }

/* Neither PIM nor IGMP, and long enough to be asked. */
static int is_data(const struct event *event) {
    const uint8_t *packet = bytes + event->first;
    return event->kind == 'f' && event->count >= 20 && packet[9] != 2 && packet[9] != 103;
}

/* What a data plane tells in place of each packet of data. */
static void put_behind_a_plane(void) {
    static struct event given[MOST_EVENTS];
    size_t count = event_count;
    uint64_t now = 0;
    memcpy(given, events, sizeof given);
    event_count = 0;
    for (size_t at = 0; at < count && event_count + 2 < MOST_EVENTS; at++) {
        if (given[at].kind == 'a') now = given[at].moment;
        events[event_count++] = given[at];
        if (!is_data(&given[at])) continue;
        events[event_count - 1].kind = 's';
        events[event_count] = given[at];
        events[event_count].kind = 'k';
        events[event_count++].moment = now;
    }
}

static uint32_t play(struct viq_router *router, const struct event *event) {
    viq_clear(router);
    switch (event->kind) {
    case 'a': return viq_advance(router, event->moment, viq_draw(event->draw));
    case 'f': return viq_frame(router, event->iface, bytes + event->first, event->count, viq_draw(event->draw));
    case 'u': return viq_unicast(router, bytes + event->first, event->count, viq_draw(event->draw));
    case '+': return viq_up(router, event->iface, viq_draw(event->draw));
    case '-': return viq_down(router, event->iface, viq_draw(event->draw));
    case 's': return viq_seen(router, event->iface, source_in(event), group_in(event), viq_draw(event->draw));
    case 'k': return viq_keep(router, source_in(event), group_in(event), event->moment);
    case 'r': return viq_routes(router, routes + event->first, event->count, viq_draw(event->draw));
    case 'h': return viq_candidates(router, candidates + event->first, event->count, viq_draw(event->draw));
    default: return viq_ranges(router, ranges + event->first, event->count, viq_draw(event->draw));
    }
}

/* ---- what is seen */

struct seen {
    uint64_t packets, cached, next, probes, touched;
    uint32_t answer, copies;
};
static struct { uint32_t source, group; } sources[MOST_SOURCES];
static size_t source_count;

static uint64_t mixed(uint64_t sum, const void *from, size_t count) {
    for (size_t at = 0; at < count; at++) sum = (sum ^ ((const uint8_t *)from)[at]) * 1099511628211u;
    return sum;
}

static const uint64_t no_packets = 14695981039346656037u;

/* It takes them. */
static uint64_t packets_of(struct viq_router *router) {
    uint64_t sum = no_packets;
    uint8_t room[VIQ_MOST_BYTES];
    struct viq_packet packet;
    while (viq_take(router, &packet, room, sizeof room)) {
        uint64_t words[] = {packet.kind, packet.iface, packet.destination, packet.length};
        sum = mixed(mixed(sum, words, sizeof words), room, packet.length);
    }
    return sum;
}

/* The rows of the forwarding cache, of every source that comes up. 0 where there is none. */
static uint64_t cached_of(const struct viq_router *router) {
    uint64_t sum = 0;
    for (size_t at = 0; at < source_count; at++) {
        struct viq_forwarding told;
        if (!viq_cached(router, sources[at].source, sources[at].group, &told)) continue;
        uint64_t words[] = {at + 1, told.rpf, told.shared_rpf, told.has_spt_bit, told.has_tunnel,
                            told.immediate.low, told.immediate.high, told.inherited.low, told.inherited.high,
                            told.shared_tree.low, told.shared_tree.high};
        sum = mixed(sum + 1, words, sizeof words);
    }
    return sum;
}

static struct seen look(const struct viq_router *router, uint32_t answer, uint64_t packets) {
    return (struct seen){packets, cached_of(router), viq_next_moment(router), viq_probes(router), viq_touched(router),
                         answer, viq_copies(router)};
}

static int same(struct seen a, struct seen b) {
    return a.packets == b.packets && a.cached == b.cached && a.next == b.next && a.probes == b.probes && a.touched == b.touched &&
           a.answer == b.answer && a.copies == b.copies;
}

#define MIXED(sum, ...) mixed(sum, (uint64_t[]){__VA_ARGS__}, sizeof (uint64_t[]){__VA_ARGS__})

static uint64_t columns_of(const struct viq_row *row, uint64_t sum) {
    switch (row->table) {
    case 'N': return MIXED(sum, row->of.neighbour.iface, row->of.neighbour.address, row->of.neighbour.end);
    case 'G': return MIXED(sum, row->of.group.iface, row->of.group.group, row->of.group.is_exclude, row->of.group.end);
    case 'S': return MIXED(sum, row->of.source.iface, row->of.source.group, row->of.source.source, row->of.source.end);
    case 'D': return MIXED(sum, row->of.downstream.iface, row->of.downstream.group, row->of.downstream.source,
                           row->of.downstream.is_rpt, row->of.downstream.state, row->of.downstream.end,
                           row->of.downstream.pending);
    case 'A': return MIXED(sum, row->of.asserted.iface, row->of.asserted.group, row->of.asserted.source,
                           row->of.asserted.is_loser, row->of.asserted.winner, row->of.asserted.end);
    case 'U': return MIXED(sum, row->of.upstream.group, row->of.upstream.source, row->of.upstream.next_join);
    case 'R': return MIXED(sum, row->of.rpt.group, row->of.rpt.source, row->of.rpt.is_pruned);
    case 'F': return MIXED(sum, row->of.active.group, row->of.active.source, row->of.active.keepalive,
                           row->of.active.spt_bit, row->of.active.register_state);
    }
    return sum;
}

static uint64_t rows_of(const struct viq_router *router, uint64_t sum) {
    struct viq_row row;
    for (size_t index = 0; viq_row(router, index, &row); index++) sum = columns_of(&row, MIXED(sum, row.table));
    return sum;
}

/* What came of a run: all as without a refusal; a lost router; a call that changed nothing, after which all came;
 * anything else. */
enum { DONE_WITHOUT, LOST, UNCHANGED, OTHER };

/* All tables. Where memory is refused, nothing has changed, and the table is read once more. */
static int read_all(struct viq_router *router, uint64_t *sum, int *was_refused) {
    for (const char *table = tables; *table; table++) {
        uint64_t before = rows_of(router, 0);
        uint32_t answer = viq_read(router, (uint8_t)*table);
        if (answer == VIQ_MEMORY) {
            *was_refused = UNCHANGED;
            if (rows_of(router, 0) != before) return 0;
            answer = viq_read(router, (uint8_t)*table);
        }
        if (answer != VIQ_DONE) return 0;
        *sum = rows_of(router, *sum);
    }
    return 1;
}

static uint8_t saved[1 << 20], again[sizeof saved];

/* The bytes of a router's state. Where memory is refused nothing is written, and they are asked for once more. */
static int save(const struct viq_router *router, uint8_t *room, size_t *size, int *was_refused) {
    *size = SIZE_MAX;
    uint32_t answer = viq_save(router, room, sizeof saved, size);
    if (answer == VIQ_MEMORY) {
        *was_refused = UNCHANGED;
        if (*size != SIZE_MAX) return 0;
        answer = viq_save(router, room, sizeof saved, size);
    }
    return answer == VIQ_DONE && *size <= sizeof saved;
}

/* Whether a router of these bytes saves the same. Where memory is refused there is none, and it is made once more. */
static int is_restored(const struct viq_router *router, int *was_refused) {
    struct viq_router *other = (struct viq_router *)&again;
    size_t size, size_again;
    if (!save(router, saved, &size, was_refused)) return 0;
    uint32_t answer = viq_restore(&other, VIQ_ABI, saved, size);
    if (answer == VIQ_MEMORY) {
        *was_refused = UNCHANGED;
        if (other != NULL) return 0;
        answer = viq_restore(&other, VIQ_ABI, saved, size);
    }
    if (answer != VIQ_DONE) return 0;
    int is_same = save(other, again, &size_again, was_refused) && size == size_again && memcmp(saved, again, size) == 0;
    viq_end(other);
    return is_same;
}

static struct seen full[MOST_EVENTS];
static uint64_t full_rows;

/* Whether a router is lost: it answers so, and nothing else is told. The rows that were read stay. */
static int is_lost(struct viq_router *router, uint64_t rows) {
    uint8_t none[1] = {0};
    uint32_t answers[] = {viq_up(router, 0, viq_draw(1)), viq_down(router, 0, viq_draw(1)), viq_advance(router, UINT64_MAX, viq_draw(1)),
                          viq_frame(router, 0, none, 0, viq_draw(1)), viq_unicast(router, none, 0, viq_draw(1)),
                          viq_routes(router, routes, first_routes, viq_draw(1)), viq_ranges(router, ranges, first_ranges, viq_draw(1)),
                          viq_candidates(router, candidates, candidate_count ? 1 : 0, viq_draw(1)),
                          viq_seen(router, 0, 0x0a000009, 0xe8010101, viq_draw(1)), viq_keep(router, 0x0a000009, 0xe8010101, 1)};
    struct viq_received frames[2] = {{0, none, 0, {1}}, {0, none, 0, {1}}};
    uint32_t told[2] = {VIQ_DONE, VIQ_DONE};
    struct viq_plane_row offered;
    struct viq_source_group name;
    size_t size;
    if (viq_save(router, saved, sizeof saved, &size) != VIQ_FAILED) return 0;
    if (viq_frames(router, frames, 2, told) != 1 || told[0] != VIQ_FAILED || told[1] != VIQ_DONE) return 0;
    for (size_t at = 0; at < sizeof answers / sizeof *answers; at++)
        if (answers[at] != VIQ_FAILED) return 0;
    for (const char *table = tables; *table; table++)
        if (viq_read(router, (uint8_t)*table) != VIQ_FAILED) return 0;
    struct seen wanted = {no_packets, 0, VIQ_NEVER, 0, 0, VIQ_FAILED, 0};
    if (viq_offload(router, 0x0a000009, 0xe8010101, &offered) || viq_changed(router) || viq_changed_source(router, 0, &name)) return 0;
    if (viq_packets(router) != 0 || rows_of(router, 0) != rows) return 0;
    return viq_may_differ(router, 0x0a000009, 0xe8010101) && same(look(router, VIQ_FAILED, packets_of(router)), wanted);
}

/* Finds every source of which there is a fact after some event. */
static void find_sources(struct viq_router *router) {
    struct viq_row row;
    if (viq_read(router, 'F') != VIQ_DONE) return;
    for (size_t index = 0; viq_row(router, index, &row); index++) {
        size_t at = 0;
        struct viq_active_row active = row.of.active;
        while (at < source_count && (sources[at].source != active.source || sources[at].group != active.group)) at++;
        if (at < source_count || source_count == MOST_SOURCES) continue;
        sources[source_count].source = active.source;
        sources[source_count++].group = active.group;
    }
}

static uint32_t made(struct viq_router **router) {
    return viq_new(router, VIQ_ABI, &settings, interfaces, interface_count, routes, first_routes, ranges, first_ranges);
}

static void play_for_sources(void) {
    struct viq_router *router = NULL;
    if (made(&router) != VIQ_DONE) return;
    for (size_t at = 0; at < event_count; at++) {
        (void)play(router, &events[at]);
        find_sources(router);
    }
    viq_end(router);
}

static int is_copied(const struct event *event) { return event->kind == 'r' || event->kind == 'g' || event->kind == 'h'; }

/* Such an answer takes no memory but that of a copy: the event is ignored, or refused for its bytes, its moment or its
 * interface. Of viq_seen and viq_keep it isn't said. */
static int is_sure(const struct event *event, uint32_t answer) {
    bool is_told = event->kind == 's' || event->kind == 'k';
    return !is_told && ((answer >= VIQ_SHORT && answer <= VIQ_INTERFACE_DOWN) || viq_is_ignored(answer));
}

/* After memory was refused to an event: each answer says what became of the router. */
static int after_refusal(struct viq_router *router, size_t at, uint32_t answer, struct seen before, uint64_t rows) {
    if (answer == VIQ_LOST) return is_lost(router, rows) && !is_sure(&events[at], full[at].answer) ? LOST : OTHER;
    return is_copied(&events[at]) && viq_packets(router) == 0 && same(look(router, before.answer, before.packets), before) &&
           rows_of(router, 0) == rows ? UNCHANGED : OTHER;
}

/* A run, which ends its router. */
static int run_on(struct viq_router *router, int is_first) {
    uint64_t sum = 0;
    int was_refused = DONE_WITHOUT;
    struct seen before = look(router, VIQ_DONE, no_packets);
    for (size_t at = 0; at < event_count; at++) {
        uint64_t rows = rows_of(router, 0);
        uint32_t answer = play(router, &events[at]);
        if (answer == VIQ_MEMORY || answer == VIQ_LOST) {
            was_refused = after_refusal(router, at, answer, before, rows);
            if (was_refused != UNCHANGED) return was_refused;
            answer = play(router, &events[at]);
        }
        struct seen now = look(router, answer, packets_of(router));
        if (is_first) full[at] = now;
        else if (!same(now, full[at])) return OTHER;
        before = now;
        if (at % 8 == 0 && viq_read(router, (uint8_t)tables[at / 8 % 8]) == VIQ_MEMORY) {
            was_refused = UNCHANGED;
            if (!same(look(router, answer, now.packets), now) || viq_read(router, (uint8_t)tables[at / 8 % 8]) != VIQ_DONE) return OTHER;
        }
    }
    if (!read_all(router, &sum, &was_refused) || !is_restored(router, &was_refused)) return OTHER;
    if (is_first) full_rows = sum;
    else if (sum != full_rows) return OTHER;
    return was_refused;
}

static int run(int is_first) {
    struct viq_router *router = (struct viq_router *)&full_rows;
    uint32_t answer = made(&router);
    if (answer == VIQ_MEMORY) {
        bool is_none = router == NULL && viq_up(router, 0, viq_draw(1)) == VIQ_NO_ROUTER && viq_next_moment(router) == VIQ_NEVER;
        return is_none ? UNCHANGED : OTHER;
    }
    if (answer != VIQ_DONE) return OTHER;
    int outcome = run_on(router, is_first);
    viq_end(router);
    return outcome;
}

static unsigned long outcomes[OTHER + 1], allocations, played;

/* All runs, with each allocation refused in turn. */
static int refuse_each(void) {
    refused_at = 0;
    kept = 0, asked = 0;
    if (run(1) != DONE_WITHOUT || kept != 0) return printf("the full run fails, or keeps %ld blocks\n", kept), 0;
    unsigned long total = asked;
    for (refused_at = 1; refused_at <= total; refused_at++) {
        asked = 0, kept = 0;
        int outcome = run(0);
        if (kept != 0 || outcome == OTHER) printf("refused at %lu: outcome %d, %ld blocks kept\n", refused_at, outcome, kept);
        outcomes[kept == 0 ? outcome : OTHER]++;
    }
    allocations += total;
    played += event_count;
    return 1;
}

int main(void) {
    static char line[8192];
    while (fgets(line, sizeof line, stdin)) read_line(line);
    setvbuf(stdout, NULL, _IONBF, 0);
    play_for_sources();
    if (!refuse_each()) return 1;
    put_behind_a_plane();
    play_for_sources();
    if (!refuse_each()) return 1;
    printf("%lu events, %lu allocations, %lu routers lost, %lu calls that changed nothing, %lu done without, %lu other\n", played,
           allocations, outcomes[LOST], outcomes[UNCHANGED], outcomes[DONE_WITHOUT], outcomes[OTHER]);
    return outcomes[OTHER] != 0;
}
