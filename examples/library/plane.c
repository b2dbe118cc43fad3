/* The router of join.c behind a data plane: a table of rows that the router tells, by which packets of data are
 * forwarded or dropped without it. A kernel or a chip would stand in its place. It prints what join.c prints. */
#include <stdio.h>
#include <stdlib.h>
#include <string.h>

#include <viqeshor/plane.h>

#define HELLO_ABOVE "45C0001E000000000167CEAB0A000001E000000D2000DFFC00010002FFFF"
#define HELLO_BELOW "45C0001E000000000167CDAA0A000102E000000D2000DFFC00010002FFFF"
#define JOIN "45C00036000000000167CD920A000102E000000D2300DBB301000A0001010001000101000020E1010101000100" \
             "00010004200A000305"
#define DATA "4500001C0000000040118BCA0A000305E10101010001000200030004"
#define MORE_DATA "4500001C0001000040118BC90A000305E10101010001000200030004"

enum { MOST_ROWS = 64, INTERFACES = 3 };
static const struct viq_interface interfaces[INTERFACES] = {
    {0x0a000002, 24, 1, 500, 2500}, {0x0a000101, 24, 1, 500, 2500}, {0x0a000201, 24, 1, 500, 2500}};

/* A source of a group: its row, and the last packet of which the router has still to hear. */
struct entry {
    uint32_t source, group;
    struct viq_plane_row row;
    bool is_noted;
    uint32_t iface;
    uint64_t moment;
};

static struct viq_router *router = NULL;
static struct entry entries[MOST_ROWS];
static size_t entry_count;
static bool is_up[INTERFACES];
static uint64_t now;
static unsigned moves, frames, decided;

/* ---- what is printed */

static void print_packet(const struct viq_packet *packet, const uint8_t *bytes) {
    printf("%s %u %c ", packet->kind == VIQ_COPY ? "copy" : "frame", ++frames, "nmo"[packet->iface]);
    for (size_t at = 0; at < packet->length; at++) printf("%02x", bytes[at]);
    putchar('\n');
}

static void print_sent(void) {
    uint8_t bytes[VIQ_MOST_BYTES];
    struct viq_packet packet;
    while (viq_take(router, &packet, bytes, sizeof bytes)) print_packet(&packet, bytes);
}

/* ---- rows */

static void let_go(struct entry *entry) { *entry = entries[--entry_count]; }

/* The entry of a source; NULL where its packets are the router's. */
static struct entry *find(uint32_t source, uint32_t group) {
    struct entry made = {.source = source, .group = group};
    for (size_t at = 0; at < entry_count; at++)
        if (entries[at].source == source && entries[at].group == group) return &entries[at];
    if (entry_count == MOST_ROWS || !viq_offload(router, source, group, &made.row)) return NULL;
    entries[entry_count] = made;
    return &entries[entry_count++];
}

/* After each event: the rows of the changed sources are asked anew, and those of sources without a fact go where they
 * may differ. */
static uint32_t took(uint32_t answer) {
    struct viq_source_group name;
    if (viq_is_lost(answer)) exit(1);
    for (size_t index = 0; viq_changed_source(router, index, &name); index++)
        for (size_t at = entry_count; at-- > 0;)
            if (entries[at].source == name.source && entries[at].group == name.group &&
                !viq_offload(router, name.source, name.group, &entries[at].row)) let_go(&entries[at]);
    for (size_t at = entry_count; at-- > 0;)
        if (!entries[at].row.is_known && viq_may_differ(router, entries[at].source, entries[at].group))
            let_go(&entries[at]);
    return answer;
}

/* ---- what the router is told of packets that it didn't see */

static struct entry *first_noted(void) {
    struct entry *first = NULL;
    for (size_t at = 0; at < entry_count; at++)
        if (entries[at].is_noted && (!first || entries[at].moment < first->moment)) first = &entries[at];
    return first;
}

/* Each note is told with its moment. The draws are of no account, since no timer ends and nothing leaves. */
static void catch_up(void) {
    for (struct entry *noted; (noted = first_noted());) {
        uint32_t source = noted->source, group = noted->group, answer = viq_keep(router, source, group, noted->moment);
        noted->is_noted = false;
        if (answer != VIQ_DONE && answer != VIQ_NO_TIMER) exit(1);
        if (answer == VIQ_DONE) continue;
        uint32_t iface = noted->iface;
        took(viq_advance(router, noted->moment, viq_draw(0)));
        took(viq_seen(router, iface, source, group, viq_draw(0)));
    }
    took(viq_advance(router, now, viq_draw(0)));
}

/* ---- packets */

static uint32_t number(const uint8_t *bytes, size_t count) {
    uint32_t value = 0;
    while (count-- > 0) value = value << 8 | *bytes++;
    return value;
}

static uint32_t sum_of(const uint8_t *bytes, size_t length) {
    uint32_t sum = 0;
    for (size_t at = 0; at < length; at += 2) sum += number(bytes + at, 2);
    while (sum >> 16) sum = (sum & 0xffff) + (sum >> 16);
    return sum;
}

/* Whether a row is to be asked of a packet. */
static bool is_data(uint32_t iface, const uint8_t *packet, size_t length) {
    if (iface >= INTERFACES || !is_up[iface] || length > 1500 || length < 20 || packet[0] >> 4 != 4) return false;
    size_t header = 4 * (packet[0] & 15), total = number(packet + 2, 2);
    if (header < 20 || total < header || length < total || sum_of(packet, header) != 0xffff) return false;
    uint32_t source = number(packet + 12, 4), group = number(packet + 16, 4);
    for (size_t at = 0; at < INTERFACES; at++)
        if (source == interfaces[at].address) return false;
    bool is_whole = (number(packet + 6, 2) & 0x3fff) == 0;
    bool is_data = group >> 28 == 14 && group >> 8 != 0xe00000 && packet[9] != 2;
    return is_whole && is_data && source > 0 && source < 0xe0000000;
}

static void copy(const struct entry *entry, uint32_t iface, const uint8_t *packet) {
    struct viq_packet to = {.kind = VIQ_COPY, .length = number(packet + 2, 2)};
    uint8_t bytes[1500];
    if (packet[8] <= 1) return;
    memcpy(bytes, packet, to.length);
    bytes[8]--;
    bytes[10] = bytes[11] = 0;
    uint32_t sum = ~sum_of(bytes, 4 * (bytes[0] & 15)) & 0xffff;
    bytes[10] = (uint8_t)(sum >> 8);
    bytes[11] = (uint8_t)sum;
    for (to.iface = 0; to.iface < INTERFACES; to.iface++)
        if (to.iface != iface && viq_has(&entry->row.outgoing, to.iface)) print_packet(&to, bytes);
}

/* Forwards a packet, or drops it; false where it is the router's. */
static bool is_forwarded(uint32_t iface, const uint8_t *packet, size_t length) {
    struct entry *entry = is_data(iface, packet, length) ? find(number(packet + 12, 4), number(packet + 16, 4)) : NULL;
    if (!entry || viq_has(&entry->row.to_core, iface)) return false;
    printf("move %u r done\n", ++moves);
    decided++;
    if (viq_has(&entry->row.alive, iface)) {
        entry->is_noted = true;
        entry->iface = iface;
        entry->moment = now;
    }
    if (iface == entry->row.incoming) copy(entry, iface, packet);
    return true;
}

/* ---- events */

static void answered(uint32_t answer) {
    if (viq_is_ignored(answer)) printf("move %u r ignored %u\n", ++moves, (unsigned)answer);
    else if (viq_is_refused(answer)) printf("move %u r refused %u\n", ++moves, (unsigned)answer);
    else printf("move %u r done\n", ++moves);
    print_sent();
}

static void up(uint32_t iface) {
    catch_up();
    is_up[iface] = true;
    answered(took(viq_up(router, iface, viq_draw(7))));
}

static void frame(uint32_t iface, const char *hex) {
    uint8_t packet[VIQ_MOST_BYTES];
    size_t length = 0;
    for (unsigned byte; sscanf(hex + 2 * length, "%2x", &byte) == 1; length++) packet[length] = (uint8_t)byte;
    if (is_forwarded(iface, packet, length)) return;
    catch_up();
    answered(took(viq_frame(router, iface, packet, length, viq_draw(0))));
}

/* Time passes up to a moment; the router need not know it where nothing ends by then. */
static void advance(uint64_t moment) {
    if (moment >= viq_next_moment(router)) {
        catch_up();
        now = moment;
        answered(took(viq_advance(router, moment, viq_draw(0))));
        return;
    }
    now = moment;
    printf("move %u r done\n", ++moves);
}

int main(void) {
    struct viq_settings settings = VIQ_USUAL_SETTINGS;
    struct viq_route routes[] = {{0x0a090900, 24, 0x0a000001, 0, 110, 20}, {0x0a000300, 24, 0x0a000001, 0, 110, 20}};
    struct viq_range ranges[] = {{0xe0000000, 4, 0x0a090909}};
    uint32_t answer = viq_new(&router, VIQ_ABI, &settings, interfaces, INTERFACES, routes, 2, ranges, 1);
    if (answer != VIQ_DONE) return printf("refused %u\n", (unsigned)answer), 1;
    for (uint32_t iface = 0; iface < INTERFACES; iface++) up(iface);
    frame(0, HELLO_ABOVE);
    frame(1, HELLO_BELOW);
    frame(1, JOIN);
    advance(999);
    frame(0, DATA);
    advance(1000);
    frame(0, MORE_DATA);
    fprintf(stderr, "%u packets decided by the plane\n", decided);
    viq_end(router);
    return 0;
}
