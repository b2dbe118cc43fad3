/* A router that takes the events of a file, of which some are counted: `events FILE INTERFACES`. All interfaces are up.
 *
 * A line is `up IFACE`, `down IFACE`, `frame IFACE HEX`, `unicast HEX` or `advance MOMENT`; `route PREFIX LENGTH
 * NEXT_HOP IFACE` or `range PREFIX LENGTH RP`, which are kept, and `routes` or `ranges`, which take those kept in place
 * of the router's; `seen`, `offload` or `differs IFACE SOURCE GROUP`; `reload`, by the configuration that is; `save`;
 * `restore`, which goes on with a router of what was saved; or `take`, which takes what is to be sent. Before any other
 * event that is taken and not counted. `kept IFACE HEX` keeps a frame, and `many` gives those kept by one call. What is
 * counted begins with a full stop, and goes by the function `counted`.
 *
 * A line `kind` begins a part: it goes on from what stands before the first of them, in a process of its own unless it
 * is the last. At its end a line is printed: the process, how many were counted (of `take` and `many`, packets), an
 * answer that isn't VIQ_DONE or 0, by how much the meter of trie nodes rose, the bytes given and sent, and nanoseconds. */
#define _POSIX_C_SOURCE 200809L
#include <stdio.h>
#include <stdlib.h>
#include <string.h>
#include <sys/wait.h>
#include <time.h>
#include <unistd.h>

#include <valgrind/callgrind.h>
#include <viqeshor/plane.h>

enum { MOST_KEPT = 100 };

static struct viq_router *router = NULL, *restored = NULL;
static struct viq_settings settings = VIQ_USUAL_SETTINGS;
static struct viq_interface interfaces[VIQ_MOST_INTERFACES];
static struct viq_route routes[VIQ_MOST_ROUTES];
static struct viq_range ranges[VIQ_MOST_RANGES] = {{0xe0000000, 4, 0x0a090909}, {0xef000000, 8, 0x0a000002}};
static size_t interface_count, route_count = 0, range_count = 2, saved_size, taken;
static bool are_routes_taken = true, are_ranges_taken = true, is_counting = false;
static uint8_t packet[VIQ_MOST_BYTES], room[VIQ_MOST_BYTES], *saved = NULL;
static unsigned long long numbers[3], moved, probes, count, nanoseconds;
static uint8_t kept_bytes[MOST_KEPT][VIQ_MOST_BYTES];
static struct viq_received kept[MOST_KEPT];
static size_t kept_count;

static uint32_t take_all(void) {
    struct viq_packet told;
    for (taken = 0; viq_take(router, &told, room, sizeof room); taken++) moved += told.length;
    return VIQ_DONE;
}

/* Gives the frames that are kept, of which none but the last is to send or to change a row. */
static uint32_t many(void) {
    uint32_t answers[MOST_KEPT], wrong = VIQ_DONE;
    if (viq_frames(router, kept, kept_count, answers) != kept_count) return VIQ_UNTAKEN;
    for (size_t at = 0; at < kept_count; at++) wrong |= answers[at];
    return wrong;
}

/* What is counted. */
__attribute__((noinline)) uint32_t counted(const char *word, size_t length) {
    struct viq_draw draw = viq_draw(7);
    uint32_t iface = (uint32_t)numbers[0], source = (uint32_t)numbers[1], group = (uint32_t)numbers[2];
    struct viq_plane_row row;
    switch (word[0] << 8 | word[1]) {
    case 'u' << 8 | 'p': return viq_up(router, iface, draw);
    case 'u' << 8 | 'n': return viq_unicast(router, packet, length, draw);
    case 'd' << 8 | 'o': return viq_down(router, iface, draw);
    case 'd' << 8 | 'i': return viq_may_differ(router, source, group) ? VIQ_NO_TIMER : VIQ_DONE;
    case 'f' << 8 | 'r': return viq_frame(router, iface, packet, length, draw);
    case 'a' << 8 | 'd': return viq_advance(router, numbers[0], draw);
    case 'r' << 8 | 'o': return viq_routes(router, routes, route_count, draw);
    case 'r' << 8 | 'a': return viq_ranges(router, ranges, range_count, draw);
    case 's' << 8 | 'e': return viq_seen(router, iface, source, group, draw);
    case 'o' << 8 | 'f': return viq_offload(router, source, group, &row) ? VIQ_DONE : VIQ_FAILED;
    case 's' << 8 | 'a': return viq_save(router, saved, saved_size, &saved_size);
    case 't' << 8 | 'a': return take_all();
    case 'm' << 8 | 'a': return many();
    case 'r' << 8 | 'e':
        if (word[2] == 's') return viq_restore(&restored, VIQ_ABI, saved, saved_size);
        return viq_reload(router, &settings, interfaces, interface_count, routes, route_count, ranges, range_count,
                          draw);
    default: exit(2);
    }
}

static size_t bytes(const char *hex) {
    size_t length = 0;
    unsigned byte;
    for (; length < sizeof packet && sscanf(hex + 2 * length, "%2x", &byte) == 1; length++)
        packet[length] = (uint8_t)byte;
    return length;
}

static bool is_kept_frame(const char *line) {
    struct viq_received *frame = &kept[kept_count];
    char hex[2 * VIQ_MOST_BYTES + 1];
    if (sscanf(line, "kept %u %3056s", &frame->iface, hex) != 2 || kept_count == MOST_KEPT) return false;
    frame->length = bytes(hex);
    frame->packet = memcpy(kept_bytes[kept_count++], packet, frame->length);
    frame->draw = viq_draw(7);
    return true;
}

static bool is_kept(const char *line) {
    struct viq_route *route = &routes[are_routes_taken ? 0 : route_count];
    struct viq_range *range = &ranges[are_ranges_taken ? 0 : range_count];
    if (sscanf(line, "route %u %u %u %u", &route->prefix, &route->length, &route->next_hop, &route->iface) == 4) {
        route->preference = 110;
        route->metric = 20;
        route_count = are_routes_taken ? 1 : route_count + 1;
        are_routes_taken = false;
        return true;
    }
    if (sscanf(line, "range %u %u %u", &range->prefix, &range->length, &range->rp) != 3) return false;
    range_count = are_ranges_taken ? 1 : range_count + 1;
    are_ranges_taken = false;
    return true;
}

/* How many bytes an event is given, or a save answers. */
static size_t given_by(const char *word, size_t length) {
    if (!strcmp(word, "save") || !strcmp(word, "restore")) return saved_size;
    if (!strcmp(word, "many")) return kept_count * kept[0].length;
    return word[0] == 'r' ? route_count * sizeof routes[0] + range_count * sizeof ranges[0] : length;
}

static uint32_t measured(const char *word, size_t length) {
    struct timespec from, to;
    if (!is_counting) CALLGRIND_START_INSTRUMENTATION;
    is_counting = true;
    clock_gettime(CLOCK_PROCESS_CPUTIME_ID, &from);
    uint32_t answer = counted(word, length);
    clock_gettime(CLOCK_PROCESS_CPUTIME_ID, &to);
    nanoseconds += (unsigned long long)(to.tv_sec - from.tv_sec) * 1000000000ULL;
    nanoseconds += (unsigned long long)to.tv_nsec - (unsigned long long)from.tv_nsec;
    probes += viq_probes(router);
    count += word[0] == 't' ? taken : word[0] == 'm' ? kept_count : 1;
    if (word[0] != 't') take_all();
    moved += given_by(word, length);
    return answer;
}

/* Takes one event; answers how it was answered. */
static uint32_t take(char *line) {
    bool is_counted = line[0] == '.';
    char word[16] = "", hex[2 * VIQ_MOST_BYTES + 1] = "";
    unsigned long long before = moved;
    line += is_counted;
    if (is_kept(line) || is_kept_frame(line)) return VIQ_DONE;
    memset(numbers, 0, sizeof numbers);
    if (sscanf(line, "frame %llu %3056s", &numbers[0], hex) < 1 && sscanf(line, "unicast %3056s", hex) < 1)
        sscanf(line, "%*s %llu %llu %llu", &numbers[0], &numbers[1], &numbers[2]);
    sscanf(line, "%15s", word);
    if (word[0] == 'r' && word[1] == 'o') are_routes_taken = true;
    if (word[0] == 'r' && word[1] == 'a') are_ranges_taken = true;
    if (word[0] != 't') take_all();
    if (!strcmp(word, "save") && viq_save(router, NULL, 0, &saved_size) != VIQ_DONE) return VIQ_MEMORY;
    if (!strcmp(word, "save") && !(saved = realloc(saved, saved_size))) return VIQ_MEMORY;
    moved = before;
    uint32_t answer = is_counted ? measured(word, bytes(hex)) : counted(word, bytes(hex));
    if (restored) {
        viq_end(router);
        router = restored;
        restored = NULL;
    }
    return answer;
}

/* Takes the events of a part up to the next; prints what they took, and answers where the next begins. */
static char *play(char *text, bool is_told) {
    uint32_t wrong = VIQ_DONE;
    while (*text && strncmp(text, "kind\n", 5)) {
        char *end = strchr(text, '\n');
        *end = 0;
        uint32_t answer = take(text);
        if (answer != VIQ_DONE) wrong = answer;
        text = end + 1;
    }
    if (is_told) {
        printf("%d %llu %u", (int)getpid(), count, (unsigned)wrong);
        printf(" %llu %llu %llu\n", probes, moved, nanoseconds);
    }
    if (!is_told && wrong != VIQ_DONE) exit(3);
    fflush(stdout);
    return text;
}

static char *file_of(const char *path) {
    FILE *file = fopen(path, "r");
    if (!file || fseek(file, 0, SEEK_END)) exit(2);
    size_t length = (size_t)ftell(file);
    char *text = calloc(length + 1, 1);
    rewind(file);
    if (!text || fread(text, 1, length, file) != length) exit(2);
    fclose(file);
    return text;
}

int main(int words, char **word) {
    if (words != 3 || (interface_count = (size_t)atoi(word[2])) > VIQ_MOST_INTERFACES) return 2;
    char *text = file_of(word[1]);
    for (uint32_t at = 0; at < interface_count; at++)
        interfaces[at] = (struct viq_interface){0x0a000002 + (at << 8), 24, 1, 500, 2500};
    settings.limit = 1000000;
    if (viq_new(&router, VIQ_ABI, &settings, interfaces, interface_count, routes, 0, ranges, range_count) != VIQ_DONE)
        return 1;
    for (uint32_t at = 0; at < interface_count; at++, viq_clear(router))
        if (viq_up(router, at, viq_draw(7)) != VIQ_DONE) return 1;
    for (char *part = play(text, false), *next; *part; part = next) {
        next = strstr(part + 5, "\nkind\n");
        next = next ? next + 1 : part + strlen(part);
        if (*next && fork()) {
            wait(NULL);
            continue;
        }
        play(part + 5, true);
        break;
    }
    /* At this `write` torture/bench/memory.c tells what is held. */
    viq_clear(router);
    return write(STDOUT_FILENO, "\n", 1) != 1;
}
