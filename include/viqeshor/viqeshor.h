/* The multicast router in programs of other languages: PIM Sparse Mode (RFC 7761) and IGMPv3 (RFC 3376).
 *
 * A program gives the router its events, by one call an event, or by one many frames (viq_frames), and after each event
 * takes the packets that are to be sent: until then the router takes no other event. The router starts no thread, opens
 * no socket and reads no clock. With the program's own `clock_ms`, `receive`, `wait_until` and `send`, and a `send_all`
 * that is one line, `while (viq_take(router, &packet, room, sizeof room)) send(&packet, room);`:
 *
 *     while (viq_advance(router, clock_ms(), viq_draw(random())) == VIQ_DONE) {        time passes
 *         send_all(router);                                                            packets out
 *         while (receive(&iface, bytes, &length)) {                                    a packet came
 *             answer = viq_frame(router, iface, bytes, length, viq_draw(random()));    events in
 *             if (!viq_is_lost(answer)) send_all(router);                              packets out
 *         }
 *         wait_until(viq_next_moment(router));                                         or a packet comes
 *     }
 *
 * Words:
 *
 * - moment: a timestamp, in ms from any beginning, at most 2^62. viq_advance gives the router the present.
 * - draw: a random number of 32 bits, another one with each event. Random delays are computed from it.
 * - fact: an entry of the router's state, of a group or a source that is asked for or that sends, or of a neighbour: a
 *   membership, a Join, an Assert, a source that is kept alive. viq_settings limits how many there are.
 * - copy: a packet of data that the router forwards, as it leaves on an interface.
 * - interface: a number, from 0, in the order in which the interfaces were given to viq_new, viq_reload or
 *   viq_reload_places.
 *
 * Numbers are in the machine's byte order, addresses too: 10.0.0.1 is 0x0a000001. Packets are whole IPv4 packets, as on
 * the wire. examples/library of the repository has whole programs, LIBRARY.md says what the program has to do, and
 * viqeshor/plane.h describes a kernel or a chip that forwards by itself.
 *
 * Pointers: each is aligned to its type, points to as many values as the parameter after it counts, and overlaps no
 * other of its call. One that has a count of 0 after it may be NULL. A router may be NULL: the call answers as if there
 * were none. No other pointer may be NULL. What pointers point to belongs to the program. It is read or written during
 * the call alone, and the router keeps no pointer.
 *
 * At any time at most one call uses a router, from whichever thread. Different routers share nothing. No call aborts,
 * blocks or calls back, and none may be made from a signal handler. Memory is taken by malloc and realloc, and given
 * back by free: a block has to be aligned to each power of two up to 16 that divides its size. */
#ifndef VIQESHOR_VIQESHOR_H
#define VIQESHOR_VIQESHOR_H

#include <stdbool.h>
#include <stddef.h>
#include <stdint.h>

#ifdef __cplusplus
extern "C" {
#endif

/* What a compiler can look for in a call: a pointer that must not be NULL, an answer that nobody reads. */
#if defined(__GNUC__) || defined(__clang__)
#define VIQ_NOT_NULL(place) __attribute__((nonnull(place)))
#define VIQ_READ_ANSWER __attribute__((warn_unused_result))
#else
#define VIQ_NOT_NULL(place)
#define VIQ_READ_ANSWER
#endif

/* The version of this header. While the first number is 0, each second one is another library, for which a program has
 * to be compiled again. */
#define VIQ_VERSION "0.9.0"
#define VIQ_VERSION_MAJOR 0
#define VIQ_VERSION_MINOR 9
#define VIQ_VERSION_PATCH 0

/* The number of what a compiled program and a library have to agree on: the values, the calls and the numbers of this
 * header and of plane.h. Wherever one of them changes, this number changes. A program passes it to viq_new, viq_restore,
 * viq_bsr_new, viq_bsr_restore and viq_candidacy_new, which refuse any other. */
#define VIQ_ABI 13

/* The library's number: VIQ_ABI as it was built with. */
uint32_t viq_abi(void);

/* The version of the library, a blank, and `proved` or `not proved`: how it was built. */
const char *viq_version(void);

/* A router. Whoever made it by viq_new or viq_restore frees it by viq_end. */
struct viq_router;

/* A draw. It has a type of its own, so that a compiler finds another number of an event in its place. */
struct viq_draw {
    uint32_t bits;
};
static inline struct viq_draw viq_draw(uint32_t bits) {
    struct viq_draw draw;
    draw.bits = bits;
    return draw;
}

/* Answers. Refusals of packets, events and configurations, those of saved bytes, and reasons to ignore an event, which
 * are above VIQ_IGNORED: after all of these nothing has changed. SCENARIOS.md has each ("Refusals", "Reasons to
 * ignore"), and SAVED.md those of saved bytes ("What is refused"). */
enum {
    VIQ_DONE = 0,

    /* of a packet */
    VIQ_SHORT = 1,
    VIQ_BAD_VERSION = 2,
    VIQ_BAD_CHECKSUM = 3,
    VIQ_BAD_LENGTH = 4,
    VIQ_BAD_ADDRESS = 5,
    VIQ_NOT_MULTICAST = 6,
    VIQ_OLD_VERSION = 7,
    VIQ_UNKNOWN_TYPE = 8,
    VIQ_FRAGMENT = 9,

    /* of an event */
    VIQ_MOMENT_BACK = 20,
    VIQ_MOMENT_FAR = 21,
    VIQ_BAD_INTERFACE = 22,
    VIQ_INTERFACE_DOWN = 23,
    VIQ_FULL = 24,
    VIQ_BAD_ROUTES = 25,
    VIQ_BAD_RANGES = 26,

    /* of a configuration */
    VIQ_INTERFACE_COUNT = 30,
    VIQ_INTERFACE_ADDRESS = 31,
    VIQ_INTERFACE_LENGTH = 32,
    VIQ_OVERLAP = 33,
    VIQ_BAD_LIMIT = 34,
    VIQ_BAD_QUERIER = 35,
    VIQ_BAD_DELAY = 36,
    VIQ_CONFIGURED_ROUTES = 37,
    VIQ_CONFIGURED_RANGES = 38,
    VIQ_OWN_ADDRESSES = 70,
    VIQ_PLACES_DONT_FIT = 73,
    VIQ_BAD_CANDIDATES = 76,
    VIQ_BAD_RP_SET = 74,

    VIQ_MEMORY = 40, /* memory was refused, and nothing has changed: the call may be made again */
    VIQ_FAILED = 41, /* the router was lost before: free it, and make another */
    VIQ_LOST = 43, /* memory was refused amid a change: the router is lost, and later events answer VIQ_FAILED */
    VIQ_NO_ROUTER = 50, /* the router is NULL */
    VIQ_NO_TABLE = 51, /* no table has this letter */
    VIQ_NO_TIMER = 52, /* no keepalive timer of the source runs, and none was started */
    VIQ_OTHER_ABI = 53, /* the program was compiled for another library than this one */
    VIQ_NO_SETTING = 54, /* no setting has this number */
    VIQ_UNTAKEN = 55, /* packets of the event before are untaken, and nothing has changed: viq_take, viq_clear */
    VIQ_NO_LISTENER = 56, /* the listener is NULL */
    VIQ_NO_CANDIDACY = 57, /* the candidacy is NULL */

    /* of saved bytes */
    VIQ_NOT_OURS = 60,
    VIQ_OTHER_VERSION = 61,
    VIQ_CUT_SHORT = 62,
    VIQ_OUT_OF_RANGE = 63,
    VIQ_KEYS_DONT_RISE = 64,
    VIQ_LEFT_OVER = 65,
    VIQ_NOT_HELD = 66,
    VIQ_NOT_SETTLED = 67,
    VIQ_NOT_QUIET = 68,
    VIQ_DAMAGED = 69,
    VIQ_NOT_NEAR = 72,
    VIQ_HOSTS_NOT_HELD = 71,
    VIQ_RPS_NOT_HELD = 75,

    VIQ_IGNORED = 100, /* no answer: the reasons to ignore an event are the numbers above it */
    VIQ_OWN = 101,
    VIQ_NOT_FOR_ME = 102,
    VIQ_OTHER_TYPE = 103,
    VIQ_MASK = 104,
    VIQ_LINK_LOCAL = 105,
    VIQ_NO_NEIGHBOUR = 106,
    VIQ_NOT_RP = 107,
    VIQ_ALREADY = 108,
    VIQ_GUARDED = 109,
    VIQ_OWN_BSR = 110,
    VIQ_SCOPED = 111,
    VIQ_LATE_REFRESH = 112,
    VIQ_NOT_FROM_RPF = 113,
    VIQ_NOT_PREFERRED = 114,
    VIQ_NOT_ELECTED = 115
};

/* Whether an event or a configuration was refused; whether an event was ignored; whether the router is lost, by this
 * event or an earlier one. */
static inline bool viq_is_refused(uint32_t answer) {
    return (answer > VIQ_DONE && answer < VIQ_MEMORY) || answer == VIQ_OWN_ADDRESSES ||
           answer == VIQ_PLACES_DONT_FIT || answer == VIQ_BAD_CANDIDATES || answer == VIQ_BAD_RP_SET;
}
static inline bool viq_is_ignored(uint32_t answer) { return answer > VIQ_IGNORED; }
static inline bool viq_is_lost(uint32_t answer) { return answer == VIQ_LOST || answer == VIQ_FAILED; }

/* The meaning of an answer in a few words; never NULL. */
const char *viq_answer_text(uint32_t answer);

/* No time: no timer runs, or none expires. */
#define VIQ_NEVER UINT64_MAX

/* No interface. */
#define VIQ_NO_INTERFACE UINT32_MAX

/* ---- the configuration */

/* The most of each list. A longer one is refused by its count, and isn't read. */
#define VIQ_MOST_INTERFACES 120
#define VIQ_MOST_ADDRESSES 16
#define VIQ_MOST_ROUTES 100000
#define VIQ_MOST_RANGES 256
#define VIQ_MOST_CANDIDATES 256

struct viq_interface {
    uint32_t address;           /* the router's, below 224.0.0.0 and not 0 */
    uint32_t length;            /* of the subnet's prefix, 1 to 31; subnets don't overlap */
    uint32_t priority;          /* as DR; 1 is usual */
    uint32_t propagation_delay; /* ms, at most 32767; 500 is usual */
    uint32_t override_interval; /* ms, at most 65535; 2500 is usual */
};

struct viq_route {
    uint32_t prefix; /* with no host bits; each prefix once */
    uint32_t length; /* at most 32 */
    uint32_t next_hop; /* no address of the router */
    uint32_t iface;
    uint32_t preference; /* at most 0x7ffffffe; the lower is better */
    uint32_t metric;
};

/* A range of groups, and its RP. */
struct viq_range {
    uint32_t prefix; /* in 224.0.0.0/4, with no host bits; each prefix once */
    uint32_t length; /* 4 to 32 */
    uint32_t rp;
};

/* An RP of a range of groups, which may have several, by viq_candidates: of each group one of them is chosen. */
struct viq_candidate {
    uint32_t prefix;      /* in 224.0.0.0/4, with no host bits */
    uint32_t length;      /* 4 to 32 */
    uint32_t rp;          /* each once for a prefix */
    uint32_t priority;    /* at most 255; the lower is preferred */
    uint32_t hash_length; /* bits of the hash function's mask, at most 32; 30 is usual */
};

struct viq_settings {
    uint32_t limit;                      /* of facts, 1 to 1,000,000 */
    uint32_t robustness;                 /* 2 to 7 */
    uint32_t query_interval;             /* seconds, 1 to 31744 */
    uint32_t query_response_interval;    /* tenths of a second, 1 to 31744, and below the query interval */
    uint32_t last_member_query_interval; /* tenths of a second, 1 to 255 */
    bool stays_on_shared_tree;           /* the router never changes to a source's tree */
    const uint32_t *addresses;           /* the router's own that are of no interface, as a loopback's: hosts', none twice,
                                          * none of an interface or in its subnet */
    size_t address_count;
};
#define VIQ_USUAL_SETTINGS {65536, 2, 125, 100, 10, false, NULL, 0}

/* Makes a router, at time 0 and with all interfaces down: 1 to VIQ_MOST_INTERFACES interfaces, at most VIQ_MOST_ROUTES
 * routes, VIQ_MOST_RANGES ranges and VIQ_MOST_ADDRESSES addresses of no interface. The second argument is VIQ_ABI. It
 * answers VIQ_DONE, a refusal of 30 to 38 or 70, VIQ_MEMORY or VIQ_OTHER_ABI. It writes what `router` points to, and
 * doesn't read it: the new router, or NULL where there is none. */
VIQ_READ_ANSWER VIQ_NOT_NULL(1) VIQ_NOT_NULL(3)
uint32_t viq_new(struct viq_router **router, uint32_t abi, const struct viq_settings *settings,
                 const struct viq_interface *interfaces, size_t interface_count, const struct viq_route *routes,
                 size_t route_count, const struct viq_range *ranges, size_t range_count);

/* Why an item of a list of routes, ranges or candidates can't stand. */
enum {
    VIQ_ITEM_LENGTH = 1,       /* a prefix longer than 32, or of groups and shorter than 4 */
    VIQ_ITEM_HOST_BITS = 2,    /* its prefix has host bits */
    VIQ_ITEM_INTERFACE = 3,    /* no interface has its number */
    VIQ_ITEM_NO_HOST = 4,      /* its next hop or RP is no host's address */
    VIQ_ITEM_OWN = 5,          /* its next hop is an address of the router */
    VIQ_ITEM_PREFERENCE = 6,   /* it is above 0x7ffffffe */
    VIQ_ITEM_NO_GROUPS = 7,    /* its prefix isn't in 224.0.0.0/4 */
    VIQ_ITEM_TWICE = 8,        /* one before it has the same prefix */
    VIQ_ITEM_COUNT = 9,        /* there are too many: it is the first that is */
    VIQ_ITEM_PRIORITY = 10,    /* its priority is above 255 */
    VIQ_ITEM_HASH_LENGTH = 11, /* its hash mask has more than 32 bits */
    VIQ_ITEM_RP_TWICE = 12     /* one before it has the same prefix and the same RP */
};
struct viq_refused_at {
    size_t index;    /* of the first that can't stand, counted from 0 */
    uint32_t reason; /* VIQ_ITEM_.. */
};

/* Tell which route, range or candidate is refused, and why, after VIQ_BAD_ROUTES, VIQ_CONFIGURED_ROUTES,
 * VIQ_BAD_RANGES, VIQ_CONFIGURED_RANGES or VIQ_BAD_CANDIDATES. The interfaces, of which the addresses are read, and the
 * addresses of no interface are those of the router. They answer false where all can stand. Where memory is refused, a
 * route that repeats another isn't looked for. */
VIQ_READ_ANSWER VIQ_NOT_NULL(7)
bool viq_routes_refused_at(const struct viq_interface *interfaces, size_t interface_count, const uint32_t *addresses,
                           size_t address_count, const struct viq_route *routes, size_t count,
                           struct viq_refused_at *at);
VIQ_READ_ANSWER VIQ_NOT_NULL(3)
bool viq_ranges_refused_at(const struct viq_range *ranges, size_t count, struct viq_refused_at *at);
VIQ_READ_ANSWER VIQ_NOT_NULL(3)
bool viq_candidates_refused_at(const struct viq_candidate *candidates, size_t count, struct viq_refused_at *at);

/* The meaning of such a reason in a few words; never NULL. */
const char *viq_refused_text(uint32_t reason);

/* Puts a router that works under another configuration. Interfaces are numbered in the order in which they are given, as
 * in viq_new: those past the last one go down first, those that are added are down until viq_up, and the others stay up
 * or down. Then settings, routes and ranges are those of the configuration, and what follows is done as after an event;
 * the present stays. A Hello leaves at once on an interface that is up and whose address, priority or delays differ;
 * before it, where the address differs, one with holdtime 0 leaves from the old address.
 * Candidate RPs stay. Where the limit is below the number of facts they all stay, and an event that needs a new one is
 * refused until there is room. The interfaces that stay keep what viq_older and viq_query_version set, and the groups
 * in an older mode; one that is added is as in a new router.
 *
 * It answers VIQ_DONE; a refusal of 30 to 38 or 70 as viq_new does, VIQ_BAD_RP_SET where the sets of viq_anycast don't
 * fit, VIQ_UNTAKEN or VIQ_MEMORY, where nothing has changed; VIQ_LOST, VIQ_FAILED or VIQ_NO_ROUTER. Once it is done,
 * what it sent is to be sent, and viq_copies answers 0; the rows that were read are dropped; and a data plane reads all
 * its rows again: viq_changed lists each source with a fact before or after it, and viq_may_differ is true for all
 * sources. */
VIQ_READ_ANSWER VIQ_NOT_NULL(2)
uint32_t viq_reload(struct viq_router *router, const struct viq_settings *settings,
                    const struct viq_interface *interfaces, size_t interface_count, const struct viq_route *routes,
                    size_t route_count, const struct viq_range *ranges, size_t range_count, struct viq_draw draw);

/* Stands for no place in a map of places. */
#define VIQ_NO_PLACE UINT32_MAX

/* Puts a router that works under another configuration whose interfaces may be left out, added or in another order.
 * `places` has an item for each interface of the router, in the order of its configuration: the number of the interface
 * of the other configuration that has its link, or VIQ_NO_PLACE. No number stands twice. Each interface with a place
 * keeps what it has at its new number: it stays up or down, with its facts and their timers, what viq_older and
 * viq_query_version set, and its groups in an older mode. One without a place goes down. One to which none goes is new,
 * and down until viq_up. Where the address of an interface, or the length of its subnet, is another one, its neighbours
 * go too. All else is as with viq_reload. What is to be sent then leaves on the old interface of its link: the `iface` of
 * viq_take is a number of before.
 *
 * It answers as viq_reload does, and VIQ_PLACES_DONT_FIT where the configuration is accepted and the map doesn't fit: there
 * are more items or fewer than the router has interfaces, a number stands twice, or no interface of the other
 * configuration has it. Then nothing has changed. */
VIQ_READ_ANSWER VIQ_NOT_NULL(2)
uint32_t viq_reload_places(struct viq_router *router, const struct viq_settings *settings,
                           const struct viq_interface *interfaces, size_t interface_count,
                           const struct viq_route *routes, size_t route_count, const struct viq_range *ranges,
                           size_t range_count, const uint32_t *places, size_t place_count, struct viq_draw draw);

/* Frees the router and its memory. With NULL it does nothing. */
void viq_end(struct viq_router *router);

/* ---- a state as bytes; SAVED.md describes them */

/* Saves the router's state, which stays as it is: its configuration, its time, its routes, ranges and candidate RPs,
 * and all its facts with the expiries of their timers, and the groups in an older mode. `size` gets how many bytes
 * there are. As many of them as room_length allows are written into `room`, and the rest of `room` is unchanged. So the
 * call tells the size where room_length is 0; the size is the same until the next event, viq_seen, viq_keep, viq_older
 * or viq_reload. It answers VIQ_DONE; VIQ_MEMORY, VIQ_FAILED or VIQ_NO_ROUTER, where nothing is written.
 *
 * These aren't saved, and a program keeps what it needs of them: what the clock showed at time 0, the source of draws,
 * packets that are untaken, rows that were read, and what viq_guard, viq_anycast, viq_older and viq_query_version set. */
VIQ_READ_ANSWER VIQ_NOT_NULL(4)
uint32_t viq_save(const struct viq_router *router, uint8_t *room, size_t room_length, size_t *size);

/* Makes a router of saved bytes, which goes on from their state as the router that was saved: the same events and draws
 * bring the same answers and packets, once viq_anycast, viq_older and viq_query_version have set what they had. It has
 * nothing to send and no rows that were read, and its guard is on. All that viq_save wrote is restored, by a library
 * that writes the same version of the format. Bytes may be anything: all others are refused that aren't of a state at
 * rest with timers in their periods. The second argument is VIQ_ABI. It answers VIQ_DONE, a refusal of saved bytes,
 * VIQ_MEMORY or VIQ_OTHER_ABI. It writes what `router` points to as viq_new does. */
VIQ_READ_ANSWER VIQ_NOT_NULL(1)
uint32_t viq_restore(struct viq_router **router, uint32_t abi, const uint8_t *bytes, size_t length);

/* ---- events: each answers VIQ_DONE, a reason to ignore, a refusal of a packet or an event, VIQ_UNTAKEN, VIQ_LOST,
 * VIQ_FAILED or VIQ_NO_ROUTER
 *
 * While packets of the event before are untaken each event answers VIQ_UNTAKEN, and nothing changes.
 *
 * Where memory is refused for an event the router is lost: it answers VIQ_LOST, and VIQ_FAILED to every later event.
 * The event didn't happen, and nothing of it is to be sent. Routes, ranges and candidates are copied before the router
 * takes them: where memory is refused for the copy, the call answers VIQ_MEMORY, nothing has changed, and the calls
 * below return what they returned before. An event that is ignored, or refused for its bytes, its timestamp or its
 * interface, takes no memory, and is answered neither VIQ_LOST nor VIQ_MEMORY. */

/* Time passes up to `moment`, which may not be before the present: each timer that expires by then fires. */
VIQ_READ_ANSWER
uint32_t viq_advance(struct viq_router *router, uint64_t moment, struct viq_draw draw);

/* A packet came on an interface, to a group: PIM, IGMP or data. */
VIQ_READ_ANSWER
uint32_t viq_frame(struct viq_router *router, uint32_t iface, const uint8_t *packet, size_t length,
                   struct viq_draw draw);

/* A packet that came on an interface, and the draw of its event: what viq_frame is given. */
struct viq_received {
    uint32_t iface;
    const uint8_t *packet;
    size_t length;
    struct viq_draw draw;
};

/* Packets came on interfaces, to groups, one after the other: each is an event, and is given to the router in its turn as
 * by viq_frame. The call stops behind the first one that answers VIQ_OTHER_TYPE, or after which packets are untaken,
 * viq_touched isn't 0, or the router is lost or NULL. It answers how many were given: 0 where count is 0, else at least
 * 1. `answers` points to `count` numbers, and may be NULL where that is 0: what each of those was answered is written
 * there, and the rest is unchanged.
 *
 * So each that was given but the last one sent nothing, and changed no row of a source with a fact. What the calls below
 * tell of the last event, they tell of the last one that was given: the program does what it does after an event, and
 * gives those that are left by another call. For the rows of sources without a fact viq_may_differ tells of that last
 * one alone; plane.h says what a data plane does of the others (duty 6). */
VIQ_READ_ANSWER
size_t viq_frames(struct viq_router *router, const struct viq_received *frames, size_t count, uint32_t *answers);

/* A PIM packet came for an address of the router: a Register or a Register-Stop. */
VIQ_READ_ANSWER
uint32_t viq_unicast(struct viq_router *router, const uint8_t *packet, size_t length, struct viq_draw draw);

/* An interface goes up, or down. */
VIQ_READ_ANSWER
uint32_t viq_up(struct viq_router *router, uint32_t iface, struct viq_draw draw);
VIQ_READ_ANSWER
uint32_t viq_down(struct viq_router *router, uint32_t iface, struct viq_draw draw);

/* All unicast routes, or all RP ranges, are replaced. */
VIQ_READ_ANSWER
uint32_t viq_routes(struct viq_router *router, const struct viq_route *routes, size_t count, struct viq_draw draw);
VIQ_READ_ANSWER
uint32_t viq_ranges(struct viq_router *router, const struct viq_range *ranges, size_t count, struct viq_draw draw);

/* All candidate RPs are replaced, at most VIQ_MOST_CANDIDATES; a new router has none. The RP ranges stay, as the
 * candidates do with viq_ranges and viq_reload.
 *
 * A range of groups may have several candidates. Of those whose prefix contains a group the one is chosen that has the
 * longest prefix, of these the lowest number as its priority, then the greatest value of the hash function of RFC 7761
 * (section 4.7.2) for the group, and then the highest address. Where a range of viq_ranges contains the group too, the
 * longer prefix of the two decides, and of one prefix the range has the RP. viq_tree tells the RP of a group. */
VIQ_READ_ANSWER
uint32_t viq_candidates(struct viq_router *router, const struct viq_candidate *candidates, size_t count,
                        struct viq_draw draw);

/* ---- what is to be sent: the packets of the last event, or of viq_reload since, that are untaken
 *
 * Each packet is given once, in the order in which they are to leave, and none is lost but by viq_clear. NULL has nothing
 * to send, nor has a router that an event lost; one that viq_keep lost has what was untaken then. */

/* The most bytes that a packet has. */
#define VIQ_MOST_BYTES 1528

/* What a packet is. */
enum {
    VIQ_FRAME = 1,  /* PIM or IGMP, on the interface, to its group */
    VIQ_COPY = 2,   /* data that is forwarded, on the interface, to its group */
    VIQ_UNICAST = 3 /* by unicast routing to the destination */
};

struct viq_packet {
    uint32_t kind;
    uint32_t iface;       /* or 0 */
    uint32_t destination; /* or 0 */
    size_t length;        /* bytes, at most VIQ_MOST_BYTES */
};

/* What a whole IPv4 packet says, by its first bytes; its checksums and lengths aren't tested. */
enum {
    VIQ_NO_PACKET = 0, /* no IPv4 packet */
    VIQ_DATA = 1,      /* neither PIM nor IGMP */
    VIQ_HELLO = 2,
    VIQ_REGISTER = 3,
    VIQ_REGISTER_STOP = 4,
    VIQ_JOIN_PRUNE = 5,
    VIQ_ASSERT = 6,
    VIQ_OTHER_PIM = 7,
    VIQ_QUERY = 8,  /* of any version of IGMP, as the two below */
    VIQ_REPORT = 9,
    VIQ_LEAVE = 10,
    VIQ_OTHER_IGMP = 11
};
uint32_t viq_message(const uint8_t *packet, size_t length);

/* The name of such a message; never NULL. */
const char *viq_message_text(uint32_t message);

/* How many packets are untaken. */
VIQ_READ_ANSWER
size_t viq_packets(const struct viq_router *router);

/* Takes the first of them. Its bytes are written into `room`; the rest of `room` is unchanged. It answers false, and
 * nothing changes, where none is untaken, or room_length is less than the packet's length: VIQ_MOST_BYTES is enough for
 * each. */
VIQ_READ_ANSWER VIQ_NOT_NULL(2)
bool viq_take(struct viq_router *router, struct viq_packet *packet, uint8_t *room, size_t room_length);

/* Drops all that are untaken. */
void viq_clear(struct viq_router *router);

/* How many copies the last event sent, taken or not. */
VIQ_READ_ANSWER
uint32_t viq_copies(const struct viq_router *router);

/* The timestamp at which the next timer expires, or VIQ_NEVER: viq_advance is to be called then. It is VIQ_NEVER for a
 * lost router, and for NULL. */
VIQ_READ_ANSWER
uint64_t viq_next_moment(const struct viq_router *router);

/* ---- what the router knows */

/* A row of N: a PIM neighbour. */
struct viq_neighbour_row {
    uint32_t iface;
    uint32_t address; /* the neighbour's */
    uint64_t end;     /* ms, when its holdtime expires, or VIQ_NEVER */
};

/* A row of G: what hosts want of a group. */
struct viq_group_row {
    uint32_t iface;
    uint32_t group;
    bool is_exclude; /* every source but those that they exclude; else only the sources of the rows of S */
    uint64_t end;    /* ms, when EXCLUDE mode ends; VIQ_NEVER in INCLUDE mode */
};

/* A row of S: a source that hosts want or exclude. */
struct viq_source_row {
    uint32_t iface;
    uint32_t group;
    uint32_t source;
    uint64_t end; /* ms, until when they want it; VIQ_NEVER where they exclude it */
};

/* A row of D: what other routers joined or pruned. */
enum {
    VIQ_JOINED = 1,
    VIQ_PRUNE_PENDING = 2, /* a Prune came, and takes effect unless a Join overrides it */
    VIQ_PRUNED = 3         /* of (S,G,rpt) alone */
};
struct viq_downstream_row {
    uint32_t iface;
    uint32_t group;
    uint32_t source;  /* 0 for (*,G) */
    bool is_rpt;      /* of (S,G,rpt); else of (*,G) or (S,G) */
    uint32_t state;   /* VIQ_JOINED, VIQ_PRUNE_PENDING or VIQ_PRUNED */
    uint64_t end;     /* ms, when the Expiry Timer expires, or VIQ_NEVER */
    uint64_t pending; /* ms, when the Prune-Pending Timer expires; VIQ_NEVER in another state */
};

/* A row of A: an assert. */
struct viq_assert_row {
    uint32_t iface;
    uint32_t group;
    uint32_t source; /* 0 for (*,G) */
    bool is_loser;   /* the router lost it; else it won */
    uint32_t winner; /* the winner's address: the router's own where it won */
    uint64_t end;    /* ms, when the Assert Timer expires */
};

/* A row of U: a tree that the router has joined upstream. */
struct viq_upstream_row {
    uint32_t group;
    uint32_t source;    /* 0 for (*,G) */
    uint64_t next_join; /* ms, when the next Join leaves */
};

/* A row of R: a source of a shared tree that the router has joined. */
struct viq_rpt_row {
    uint32_t group;
    uint32_t source;
    bool is_pruned; /* the router pruned it off the shared tree */
};

/* A row of F: an active source. */
enum { VIQ_REGISTER_NONE = 0, VIQ_REGISTER_JOINED = 1, VIQ_REGISTER_JOIN_PENDING = 2, VIQ_REGISTER_PRUNED = 3 };
struct viq_active_row {
    uint32_t group;
    uint32_t source;
    uint64_t keepalive;      /* ms, when the keepalive timer expires; VIQ_NEVER where it doesn't run */
    bool spt_bit;            /* SPTbit(S,G) */
    uint32_t register_state; /* of the register at the source's DR, VIQ_REGISTER_..; VIQ_REGISTER_NONE elsewhere */
};

/* A row of a table: its letter, and the member of that table. No other member may be read. SCENARIOS.md describes the
 * tables. */
struct viq_row {
    uint32_t table; /* N, G, S, D, A, U, R or F */
    union {
        struct viq_neighbour_row neighbour;   /* N */
        struct viq_group_row group;           /* G */
        struct viq_source_row source;         /* S */
        struct viq_downstream_row downstream; /* D */
        struct viq_assert_row asserted;       /* A */
        struct viq_upstream_row upstream;     /* U */
        struct viq_rpt_row rpt;               /* R */
        struct viq_active_row active;         /* F */
    } of;
};

/* Reads the table of a letter: N, G, S, D, A, U, R or F. It answers VIQ_DONE; VIQ_MEMORY, where nothing has changed;
 * VIQ_FAILED, VIQ_NO_ROUTER or VIQ_NO_TABLE. */
VIQ_READ_ANSWER
uint32_t viq_read(struct viq_router *router, uint8_t letter);

/* How many rows the table had that was read last; and one of them, counted from 0, ascending by their keys. viq_row
 * answers false, and writes nothing, where there is none of that number. The rows remain as they were read, whatever
 * happens to the router, until a table is read again, or viq_reload is done. */
VIQ_READ_ANSWER
size_t viq_rows(const struct viq_router *router);
VIQ_NOT_NULL(3)
bool viq_row(const struct viq_router *router, size_t index, struct viq_row *row);

/* A set of interfaces, as bits. */
struct viq_interfaces {
    uint64_t low;  /* 0 to 63, the lowest bit first */
    uint64_t high; /* 64 to 119, the lowest bit first */
};
static inline bool viq_has(const struct viq_interfaces *set, uint32_t iface) {
    return iface < 128 && ((iface < 64 ? set->low >> iface : set->high >> (iface - 64)) & 1) != 0;
}

/* How data of a source to a group is forwarded: a row of the forwarding cache. */
struct viq_forwarding {
    uint32_t rpf;                      /* RPF_interface(S), or VIQ_NO_INTERFACE */
    uint32_t shared_rpf;               /* RPF_interface(RP(G)), or VIQ_NO_INTERFACE: also at the RP itself */
    bool has_spt_bit;                  /* SPTbit(S,G) */
    bool has_tunnel;                   /* the register tunnel is in the first two lists */
    struct viq_interfaces immediate;   /* immediate_olist(S,G) */
    struct viq_interfaces inherited;   /* inherited_olist(S,G) */
    struct viq_interfaces shared_tree; /* inherited_olist(S,G,rpt) */
};

/* Reads the row of a source and a group. It answers false, and writes nothing, where there is no fact of the source,
 * for a lost router, and for NULL. */
VIQ_READ_ANSWER VIQ_NOT_NULL(4)
bool viq_cached(const struct viq_router *router, uint32_t source, uint32_t group, struct viq_forwarding *forwarding);

/* ---- trees and links: the macros of RFC 7761, each evaluated anew in the present state
 *
 * The calls of this part answer false, and write nothing, for a lost router, and for NULL. */

/* A number that may not be there; its value is 0 then. */
struct viq_number {
    bool is_there;
    uint32_t value;
};

/* A neighbour that may not be there; all is 0 then. */
struct viq_hop {
    bool is_there;
    uint32_t iface;
    uint32_t address;
};

/* A unicast route that may not be there; all is 0 then. */
struct viq_path {
    bool is_there;
    bool is_connected; /* it leads to a link of the router: the next hop is the address itself */
    uint32_t iface;    /* RPF_interface */
    uint32_t next_hop;
    uint32_t preference;
    uint32_t metric;
};

/* Where RPF' comes from, or why there is none. The root is RP(G) of RPF'(*,G), and S of RPF'(S,G). */
enum {
    VIQ_RPF_WINNER = 1,       /* the winner of an assert that the router lost on the RPF interface */
    VIQ_RPF_NEXT_HOP = 2,     /* the next hop of the route to the root */
    VIQ_RPF_CONNECTED = 3,    /* none: the root is on a link of the router, and is no neighbour */
    VIQ_RPF_NO_NEIGHBOUR = 4, /* none: the next hop is no neighbour */
    VIQ_RPF_NO_ROUTE = 5,     /* none: there is no route to the root over an interface that is up */
    VIQ_RPF_OWN = 6,          /* none: the root is the router itself */
    VIQ_RPF_NO_RP = 7         /* none: the group has no RP */
};

/* The macros of (*,G). */
struct viq_tree {
    struct viq_number rp;         /* RP(G) */
    struct viq_path path;         /* the route to RP(G) */
    struct viq_hop rpf_neighbour; /* RPF'(*,G) */
    uint32_t rpf_cause;           /* VIQ_RPF_.. */
    bool join_desired;            /* JoinDesired(*,G) */
    struct viq_interfaces joins;  /* joins(*,G) */
    struct viq_interfaces local_receiver_include; /* local_receiver_include(*,G): where hosts want the group */
    struct viq_interfaces pim_include;     /* pim_include(*,G): where the router serves them */
    struct viq_interfaces lost_assert;     /* lost_assert(*,G) */
    struct viq_interfaces won_assert;      /* where AssertWinner(*,G,I) is the router */
    struct viq_interfaces immediate_olist; /* immediate_olist(*,G) */
};

/* The macros of any group. */
VIQ_READ_ANSWER VIQ_NOT_NULL(3)
bool viq_tree(const struct viq_router *router, uint32_t group, struct viq_tree *tree);

/* The upstream state of (S,G,rpt). */
enum { VIQ_RPT_NOT_JOINED = 0, VIQ_RPT_PRUNED = 1, VIQ_RPT_NOT_PRUNED = 2 };

/* The macros of (S,G) and of (S,G,rpt). */
struct viq_source_tree {
    struct viq_path path;             /* the route to S */
    struct viq_hop rpf_neighbour;     /* RPF'(S,G) */
    uint32_t rpf_cause;               /* VIQ_RPF_.. */
    struct viq_hop rpf_neighbour_rpt; /* RPF'(S,G,rpt) */
    uint32_t rpt_state;               /* VIQ_RPT_.. */
    bool spt_bit;                     /* SPTbit(S,G) */
    bool is_kept_alive;               /* KeepaliveTimer(S,G) is running */
    bool join_desired;                /* JoinDesired(S,G) */
    bool prune_desired;               /* PruneDesired(S,G,rpt) */
    bool could_register;              /* CouldRegister(S,G) */
    bool has_tunnel;                  /* the register tunnel is in joins, immediate_olist and inherited_olist */
    struct viq_interfaces joins;      /* joins(S,G) */
    struct viq_interfaces prunes;     /* prunes(S,G,rpt) */
    struct viq_interfaces local_receiver_include; /* local_receiver_include(S,G) */
    struct viq_interfaces local_receiver_exclude; /* local_receiver_exclude(S,G) */
    struct viq_interfaces pim_include;            /* pim_include(S,G) */
    struct viq_interfaces pim_exclude;            /* pim_exclude(S,G) */
    struct viq_interfaces lost_assert;            /* lost_assert(S,G) */
    struct viq_interfaces lost_assert_rpt;        /* lost_assert(S,G,rpt) */
    struct viq_interfaces won_assert;             /* where AssertWinner(S,G,I) is the router */
    struct viq_interfaces immediate_olist;        /* immediate_olist(S,G) */
    struct viq_interfaces inherited_olist;        /* inherited_olist(S,G) */
    struct viq_interfaces inherited_olist_rpt;    /* inherited_olist(S,G,rpt) */
};

/* The macros of any source of any group, whether it has a fact or not. */
VIQ_READ_ANSWER VIQ_NOT_NULL(4)
bool viq_source_tree(const struct viq_router *router, uint32_t source, uint32_t group, struct viq_source_tree *tree);

/* Who queries on an interface (RFC 3376, section 6.6.2). */
enum {
    VIQ_QUERIER_NONE = 0, /* nobody: the interface is down, and all is 0, or VIQ_NEVER for a time */
    VIQ_QUERIER_OWN = 1,  /* the router itself */
    VIQ_QUERIER_OTHER = 2 /* another router, with a lower address */
};
struct viq_querier {
    uint32_t role;           /* VIQ_QUERIER_.. */
    uint64_t end;            /* ms, when the next general query leaves, or when the router takes over from the other */
    uint32_t startup_left;   /* startup queries that are still to leave with it; 0 where another router queries */
    uint32_t robustness;     /* the values in force, which a querier announces to the others */
    uint32_t query_interval; /* seconds */
};

/* An interface that is configured. */
struct viq_link {
    bool is_up;
    bool is_dr;  /* I_am_DR(I): the interface is up, and the router itself is the DR */
    uint32_t dr; /* DR(I), an address; 0 where the interface is down */
    struct viq_querier querier;
};

/* An interface. It answers false also where it isn't configured. */
VIQ_READ_ANSWER VIQ_NOT_NULL(3)
bool viq_link(const struct viq_router *router, uint32_t iface, struct viq_link *link);

/* The LAN Prune Delay option of a Hello, which may not be there; all is 0 then. */
struct viq_lan_delay {
    bool is_there;
    bool can_track;             /* the T bit: the neighbour can turn Join suppression off */
    uint32_t propagation_delay; /* ms */
    uint32_t override_interval; /* ms */
};

/* A neighbour with the options of its last Hello. */
struct viq_neighbour {
    uint64_t end;                 /* ms, when its holdtime expires, or VIQ_NEVER */
    struct viq_number priority;   /* DR Priority */
    struct viq_number generation; /* Generation ID */
    struct viq_lan_delay lan_delay;
};

/* A neighbour; the table N lists them. It answers false also where the interface has no neighbour of this address. */
VIQ_READ_ANSWER VIQ_NOT_NULL(4)
bool viq_neighbour(const struct viq_router *router, uint32_t iface, uint32_t address, struct viq_neighbour *neighbour);

/* ---- hosts, for programs that try a router */

/* What a record of a report says of its sources (RFC 3376, section 4.2.12). A host that wants a group of any source
 * says VIQ_TO_EX of none, and one that wants it no more VIQ_TO_IN of none. */
enum { VIQ_IS_IN = 1, VIQ_IS_EX = 2, VIQ_TO_IN = 3, VIQ_TO_EX = 4, VIQ_ALLOW = 5, VIQ_BLOCK = 6 };

/* The most sources of a report. */
#define VIQ_MOST_SOURCES 360

/* Writes a report of a host with one record, a whole IPv4 packet, as viq_frame takes it, and answers how many bytes it
 * has: 40, and 4 for each source. It answers 0, and writes nothing, where there are more sources than VIQ_MOST_SOURCES
 * or there is no room. */
VIQ_READ_ANSWER
size_t viq_report(uint32_t host, uint32_t kind, uint32_t group, const uint32_t *sources, size_t count, uint8_t *room,
                  size_t room_length);

/* ---- the guard before a router
 *
 * RFC 7761 forwards what a Register brings, whatever it is: one packet by unicast to an RP would put a query or reports
 * on the RP's links, which hosts and routers there take for their own. So a new router, or a restored one, has a guard.
 * It stops a Register whose packet inside is of IGMP or PIM, or is for 224.0.0.0/24, and on a link PIM to a group
 * outside 224.0.0.0/24: viq_unicast or viq_frame then answers VIQ_GUARDED. No copy of viq_take is IGMP or PIM.
 *
 * Sets the guard: 1 on, 0 off. It is no event: what is to be sent, the costs, what changed and the present are unchanged
 * by it. It may be called at any time, and viq_reload leaves the guard as it is. It answers VIQ_DONE, VIQ_NO_SETTING,
 * VIQ_FAILED or VIQ_NO_ROUTER. */
VIQ_READ_ANSWER
uint32_t viq_guard(struct viq_router *router, uint32_t on);

/* ---- RPs that share an address (RFC 4610)
 *
 * Several routers can be the RP of a group under one address (Anycast RP), which each of them has besides its own:
 * unicast routing leads to the nearest that works. Each sends the others the Registers that come to it, and announces
 * the sources on its own links to them by Null-Registers, so that all of them know the group's sources.
 *
 * A new router, or a restored one, has no set; then nothing of this happens. */

/* The most sets, and the most others of a set. A longer list is refused by its count, and isn't read. A router has at
 * most 136 addresses, of which each set shares another one and none shares the own one of a set. */
#define VIQ_MOST_RP_SETS 135
#define VIQ_MOST_OTHERS 16

/* A set of routers that share an address, as one of them knows it. */
struct viq_rp_set {
    uint32_t shared;        /* an address of the router, and the RP of the set's groups; no other set's */
    uint32_t own;           /* an address of the router by which the others know it; shared in no set */
    const uint32_t *others; /* the own addresses of the others: hosts', none twice, none of the router */
    size_t other_count;
};

/* Sets the sets of RPs, in place of those before; without a set the router shares no address. It is no event: what is
 * to be sent, the costs, what changed and the present are unchanged by it; viq_next_moment may be sooner. It may be
 * called at any time. Where the sets are refused those before stay.
 *
 * From then on a Register to the shared address of a set, from none of its others, is sent on to each of them, from the
 * own address and with a TTL lower by 1, before what the router itself sends; one with a TTL of 1 isn't. A Register
 * from one of the others to the own address counts as one to the shared address, and isn't sent on. A source is
 * announced where a link of which the router is the DR has it and it is kept alive: as soon as a packet of it comes by
 * viq_frame or viq_seen, and at each timestamp that is a multiple of 60,000 ms, which viq_next_moment tells.
 *
 * viq_reload and viq_reload_places keep the sets, and refuse a configuration, by VIQ_BAD_RP_SET, to whose addresses
 * they don't fit. So addresses are added before their sets, and taken away after them. viq_save has none of the sets.
 *
 * It answers VIQ_DONE; VIQ_BAD_RP_SET or VIQ_MEMORY, where nothing has changed; VIQ_FAILED or VIQ_NO_ROUTER. */
VIQ_READ_ANSWER
uint32_t viq_anycast(struct viq_router *router, const struct viq_rp_set *sets, size_t count);

/* ---- sources of other RPs (MSDP, RFC 3618)
 *
 * RPs tell each other of the sources that register to them, by Source-Active messages (SAs) over sessions of TCP. The
 * sessions are a program's; these calls are the joint to the router. An SA is taken as if a DR had sent a Null-Register of
 * its source, or a Register of the packet that it encapsulates: the RP knows the source for 210 s, and joins it where the
 * group has receivers. Without these calls nothing of this happens. */

/* A source of a group. */
struct viq_source_group {
    uint32_t source;
    uint32_t group;
};

/* An SA of one source. */
struct viq_source_active {
    uint32_t peer;         /* the peer that sent it: a host's address */
    uint32_t rp;           /* the RP of the group, an address of the router */
    uint32_t source;       /* a host's address */
    uint32_t group;        /* a group's address */
    const uint8_t *packet; /* the packet that it encapsulates; one of another source or group, or longer than 1,500 bytes,
                            * is left out */
    size_t length;         /* or 0 */
};

/* An SA as an event of the router: viq_unicast of what viq_source_active_packet writes, and answers as that does; or
 * VIQ_NOT_FOR_ME, where nothing has changed, of a source on a link of the router's, where it hears the source itself.
 * VIQ_NOT_FOR_ME also answers an SA to an address that isn't the router's. One to an address that isn't the RP of the
 * group changes nothing. A VIQ_UNICAST to the peer, a Register-Stop, may be among what is to be sent then: it isn't to be
 * sent, since the peer registers nothing. */
VIQ_READ_ANSWER VIQ_NOT_NULL(2)
uint32_t viq_source_active(struct viq_router *router, const struct viq_source_active *told, struct viq_draw draw);

/* Writes the packet in which the router is to be given an SA, as many of its bytes as the room holds, and how many it has,
 * at most VIQ_MOST_BYTES; 0 where it is to be given nothing. It has a TTL of 1, so that viq_anycast's sets don't send it
 * on. A program that records its events records it as one of viq_unicast. It answers VIQ_DONE; VIQ_MEMORY, VIQ_FAILED or
 * VIQ_NO_ROUTER, where nothing is written. */
VIQ_READ_ANSWER VIQ_NOT_NULL(2) VIQ_NOT_NULL(5)
uint32_t viq_source_active_packet(const struct viq_router *router, const struct viq_source_active *told, uint8_t *room,
                                  size_t room_length, size_t *size);

/* Which sources an RP tells its peers of: those that register to it, and those on links of which it is the DR; never one
 * that it knows by an SA alone.
 *
 * The source that a packet of viq_unicast registers, if it is a DR's Register, or a Null-Register, to the RP of its group,
 * an address of the router's. It answers false, and writes nothing, for any other packet: one that another of a set of
 * viq_anycast sent on, one with a TTL of 1, as an SA's has. The router tells of the source for as long as Registers come:
 * a DR sends one at least every 90 s. */
VIQ_READ_ANSWER VIQ_NOT_NULL(4)
bool viq_registered(const struct viq_router *router, const uint8_t *packet, size_t length,
                    struct viq_source_group *name);

/* Whether a source is on a link of which the router is the DR, sends, and has the router as the RP of its group. The sources
 * with a fact are the rows of table F. */
VIQ_READ_ANSWER
bool viq_own_source(const struct viq_router *router, uint32_t source, uint32_t group);

/* ---- RPs that are learned of Bootstraps (RFC 5059)
 *
 * The routers of a domain can learn their RPs of one of them, the bootstrap router (BSR), whose Bootstrap messages they
 * send on from neighbour to neighbour. A listener hears these messages before a router, keeps what they say for as long
 * as they say it, and says which RPs the router is to have beside the configured ranges. A configured range wins over
 * a learned one of the same prefix. Of the RPs of one learned range the router is given the one that a hash of the
 * range's prefix chooses, in a range; or, where viq_bsr_choose says so, all of them as candidates, of which it chooses
 * for each group. Without a candidacy (below) the router is no candidate BSR or RP, and admin scope zones aren't built.
 * Without a listener nothing of this happens.
 *
 * A program that has a listener makes these calls, in this order:
 *
 * - A packet on a link goes to the router by viq_frame. Where this answers VIQ_OTHER_TYPE the packet goes to
 *   viq_bsr_hear. What that sends on is taken by viq_take, as after an event, and leaves first. Where it says that the
 *   RPs moved, viq_bsr_give follows, with the draw of the packet's event.
 * - Time passes to a moment: while viq_bsr_next isn't later than the moment, viq_advance to viq_bsr_next, viq_bsr_pass
 *   to the same, and viq_bsr_give where that says that the RPs moved. Then viq_advance to the moment, and viq_bsr_pass
 *   to the moment. Time is to pass at the sooner one of viq_next_moment and viq_bsr_next.
 * - Other configured ranges are set by viq_bsr_ranges, in place of viq_ranges. Where an RP is chosen for each group,
 *   viq_bsr_give follows where it is done: beside more ranges, or under a lower limit, there may be fewer candidates.
 * - Another configuration is set by viq_reload, or viq_reload_places, with the ranges that the router has: those that
 *   were configured before, and where an RP is chosen for a range, those of viq_bsr_rp that it is given; candidates stay.
 *   Then viq_bsr_ranges sets the new configured ones.
 * - Another choice: viq_bsr_choose, viq_bsr_give, and then what the former choice gave is taken back: for each group by
 *   viq_ranges with the configured ranges, for a range by viq_candidates with none.
 * - A listener that comes is made of the ranges that the router has. One that goes leaves them to viq_ranges, and no
 *   candidates.
 *
 * What a listener knows isn't saved by viq_save, but by viq_bsr_save; a restored router has the ranges and the candidates
 * that it was given last, and goes on with the listener that viq_bsr_restore makes of what was saved with it. */

/* A listener. Whoever made it by viq_bsr_new or viq_bsr_restore frees it by viq_bsr_end. A listener may be NULL, as a router may. At any
 * time at most one call uses a listener. */
struct viq_bsr;

/* Makes a listener, which knows no BSR. `limit` is the most RPs that it keeps, with those of messages of which
 * fragments are missing, 1 to VIQ_MOST_RANGES; a router has at most VIQ_MOST_RANGES ranges, so that fewer are kept
 * where more are configured. The ranges are those that the router has. Until `refresh_end`, a moment, one message may
 * come that a neighbour sends to a router which has just started (section 3.5.1): 60,000 ms after the router started,
 * or 0 for none. An RP is chosen for a range. The second argument is VIQ_ABI. It answers VIQ_DONE, VIQ_NO_SETTING for
 * another limit, VIQ_MEMORY or VIQ_OTHER_ABI. It writes what `bsr` points to, and doesn't read it: the new listener, or
 * NULL where there is none. */
VIQ_READ_ANSWER VIQ_NOT_NULL(1)
uint32_t viq_bsr_new(struct viq_bsr **bsr, uint32_t abi, uint32_t limit, const struct viq_range *ranges, size_t count,
                     uint64_t refresh_end);

/* Saves all that the listener knows, which stays as it is: the configured ranges, the limit and the choice, the
 * elected BSR, the RPs in force and those of messages of which fragments are missing, with the moments at which they
 * expire, and the last message. `size` gets how many bytes there are. As many of them as room_length allows are
 * written into `room`, and the rest of `room` is unchanged. It answers VIQ_DONE; VIQ_MEMORY or VIQ_NO_LISTENER, where
 * nothing is written. */
VIQ_READ_ANSWER VIQ_NOT_NULL(4)
uint32_t viq_bsr_save(const struct viq_bsr *bsr, uint8_t *room, size_t room_length, size_t *size);

/* Makes a listener of saved bytes, which knows what the one knew that was saved. It is for the router that is restored of
 * what viq_save wrote at the same moment. All that viq_bsr_save wrote is restored, by a library that writes the same
 * version of the format. Bytes may be anything: others are refused, or give a listener whose ranges a router refuses
 * exactly where it refuses the configured ones alone. The second argument is VIQ_ABI. It answers VIQ_DONE, a refusal of
 * saved bytes, VIQ_MEMORY or VIQ_OTHER_ABI. It writes what `bsr` points to as viq_bsr_new does. */
VIQ_READ_ANSWER VIQ_NOT_NULL(1)
uint32_t viq_bsr_restore(struct viq_bsr **bsr, uint32_t abi, const uint8_t *bytes, size_t length);

/* Frees the listener and its memory. With NULL it does nothing. */
void viq_bsr_end(struct viq_bsr *bsr);

/* Hears a packet that came on an interface, and to which viq_frame answered VIQ_OTHER_TYPE. It is no event: of the
 * router it changes what is to be sent alone. `moved` gets whether the router is to be given other RPs; it gets
 * false with each other answer than VIQ_DONE.
 *
 * VIQ_DONE: a Bootstrap counts, and is sent on as it came, on each interface with neighbours. With all others nothing
 * has changed. VIQ_OTHER_TYPE: the packet is no Bootstrap. A refusal of a packet: it can't be read as one. Why a
 * Bootstrap doesn't count, in the order of the tests: VIQ_OWN_BSR, VIQ_NO_NEIGHBOUR, VIQ_SCOPED, VIQ_LATE_REFRESH,
 * VIQ_NOT_FROM_RPF, VIQ_NOT_PREFERRED, and VIQ_FULL where there is no room for its RPs. VIQ_UNTAKEN; VIQ_MEMORY, where
 * it counts or there is no room for its RPs; VIQ_FAILED, VIQ_NO_ROUTER or VIQ_NO_LISTENER. */
VIQ_READ_ANSWER VIQ_NOT_NULL(6)
uint32_t viq_bsr_hear(struct viq_bsr *bsr, struct viq_router *router, uint32_t iface, const uint8_t *packet,
                      size_t length, bool *moved);

/* An event of the router: its ranges are replaced by those that the listener has for it, the configured ones and one of
 * each learned range that isn't configured. Where an RP is chosen for each group, its candidates are replaced instead, by
 * all RPs in force. The listener stays as it is. It answers as viq_ranges does, VIQ_BAD_RANGES exactly where viq_ranges
 * would with the configured ones alone, and as viq_candidates, but never VIQ_BAD_CANDIDATES; or VIQ_NO_LISTENER, where
 * nothing has changed. */
VIQ_READ_ANSWER
uint32_t viq_bsr_give(const struct viq_bsr *bsr, struct viq_router *router, struct viq_draw draw);

/* When the first of the RPs in force expires, in ms; VIQ_NEVER where there is none, and for NULL. */
VIQ_READ_ANSWER
uint64_t viq_bsr_next(const struct viq_bsr *bsr);

/* Time passed to a moment: RPs, fragments and the elected BSR are forgotten that have expired by then. `moved` gets
 * whether the router is to be given other RPs. It answers VIQ_DONE; VIQ_MEMORY, where nothing has changed, and which
 * isn't answered where no RP in force expired; or VIQ_NO_LISTENER. */
VIQ_READ_ANSWER VIQ_NOT_NULL(3)
uint32_t viq_bsr_pass(struct viq_bsr *bsr, uint64_t moment, bool *moved);

/* Other configured ranges, and another limit on the RPs that are kept, as in viq_bsr_new. It is an event of the
 * router: its ranges are replaced by these, and where an RP is chosen for a range by the learned ones beside them.
 * Where that answers VIQ_DONE the listener has the new configured ranges and the new limit, and RPs for which there is
 * no room then are forgotten, the newest first; else it stays as it is. It answers as viq_ranges does, VIQ_BAD_RANGES
 * exactly where viq_ranges would with the new ones alone; VIQ_NO_SETTING for another limit or VIQ_NO_LISTENER, where
 * nothing has changed. */
VIQ_READ_ANSWER
uint32_t viq_bsr_ranges(struct viq_bsr *bsr, struct viq_router *router, uint32_t limit, const struct viq_range *ranges,
                        size_t count, struct viq_draw draw);

/* What an RP is chosen for, of several that a learned range has. */
enum {
    VIQ_FOR_RANGE = 0, /* for the range, by the hash of its prefix: all its groups have one RP, as with FRR */
    VIQ_FOR_GROUP = 1  /* for each group, by the hash of the group (RFC 7761, section 4.7.2) */
};

/* Has an RP chosen for something else. It is no event: what the router is given then says the page above. It answers
 * VIQ_DONE; VIQ_NO_SETTING where the choice is none of the two, or VIQ_NO_LISTENER, where nothing has changed. */
VIQ_READ_ANSWER
uint32_t viq_bsr_choose(struct viq_bsr *bsr, uint32_t choice);

/* What an RP is chosen for; for NULL a range. */
VIQ_READ_ANSWER
uint32_t viq_bsr_choice(const struct viq_bsr *bsr);

/* How many ranges are configured; and one of them, counted from 0. viq_bsr_range answers false, and writes nothing, where
 * there is none of that number. */
VIQ_READ_ANSWER
size_t viq_bsr_configured(const struct viq_bsr *bsr);
VIQ_NOT_NULL(3)
bool viq_bsr_range(const struct viq_bsr *bsr, size_t index, struct viq_range *range);

/* The elected BSR. */
struct viq_bsr_elected {
    uint32_t bsr;      /* its address */
    uint32_t priority; /* 0 to 255; the higher is preferred */
    uint64_t end;      /* ms, when the Bootstrap Timer expires: 130 s after its last message */
};

/* The elected BSR; false, and nothing is written, where none is elected, and for NULL. */
VIQ_NOT_NULL(2)
bool viq_bsr_elected(const struct viq_bsr *bsr, struct viq_bsr_elected *elected);

/* An RP of a learned range, in force. */
struct viq_bsr_rp {
    uint32_t prefix; /* of the range */
    uint32_t length;
    uint32_t rp;
    uint32_t priority;    /* 0 to 255; the lower is preferred */
    uint32_t hash_length; /* bits of the hash function's mask, 0 to 32 */
    bool is_given;        /* the router is given it: chosen of its range, which isn't configured, or as a candidate */
    uint64_t end;         /* ms, when its holdtime is over */
};

/* How many RPs are in force; and one of them, counted from 0, in the order in which they were learned. viq_bsr_rp
 * answers false, and writes nothing, where there is none of that number. */
VIQ_READ_ANSWER
size_t viq_bsr_rps(const struct viq_bsr *bsr);
VIQ_NOT_NULL(3)
bool viq_bsr_rp(const struct viq_bsr *bsr, size_t index, struct viq_bsr_rp *row);

/* An RP of a range, of a message of which other fragments are missing. It isn't in force. */
struct viq_bsr_part {
    uint32_t prefix; /* of the range */
    uint32_t length;
    uint32_t rp;
    uint32_t priority; /* 0 to 255; the lower is preferred */
    uint32_t holdtime; /* seconds; 0 takes the RP away */
    uint32_t bsr;      /* the message's */
    uint32_t tag;      /* the message's fragment tag */
    uint64_t end;      /* ms, when it is forgotten: 130 s after it came */
};

/* How many such RPs there are; and one of them, as viq_bsr_rp. */
VIQ_READ_ANSWER
size_t viq_bsr_parts(const struct viq_bsr *bsr);
VIQ_NOT_NULL(3)
bool viq_bsr_part(const struct viq_bsr *bsr, size_t index, struct viq_bsr_part *row);

/* ---- candidate BSRs and candidate RPs (RFC 5059)
 *
 * A router with a listener may also stand as BSR, or as RP, or as both. What it needs for that is a candidacy. As a
 * candidate BSR it yields to any that has more weight, and where it hears of none it is elected itself: then it sends
 * Bootstraps, which say the RPs that advertised themselves to it, and its listener learns them as all others do. As a
 * candidate RP it tells the elected BSR every 60 s for which groups it would be the RP. Admin scope zones aren't built.
 * Without a candidacy nothing of this happens.
 *
 * A program that has a candidacy makes these calls, in this order. After each of them that has a router the packets are
 * taken by viq_take, as after an event, and leave first. Where one says that the RPs moved, viq_bsr_give follows, with
 * the draw of the call.
 *
 * - A packet on a link goes to the router by viq_frame. Where this answers VIQ_OTHER_TYPE the packet goes to
 *   viq_candidacy_hear, in place of viq_bsr_hear.
 * - A packet to one of the router's addresses goes to it by viq_unicast. Where this answers VIQ_NOT_FOR_ME the packet
 *   goes to viq_candidacy_unicast.
 * - Time passes to a moment: while the sooner one of viq_bsr_next and viq_candidacy_next isn't later than the moment,
 *   viq_advance to that sooner one, and viq_candidacy_pass to the same, in place of viq_bsr_pass. Then viq_advance to
 *   the moment, and viq_candidacy_pass to the moment. Time is to pass at the soonest one of viq_next_moment,
 *   viq_bsr_next and viq_candidacy_next.
 * - A candidacy that comes is made at the router's present, and viq_candidacy_pass to it follows.
 * - A candidacy that goes says by viq_candidacy_leave that its RP goes.
 *
 * The other calls of a listener are those of the page above. What a candidacy knows isn't saved: after a restart it is
 * made anew. */

/* A candidacy. Whoever made it by viq_candidacy_new frees it by viq_candidacy_end. A candidacy may be NULL, as a router
 * may. At any time at most one call uses a candidacy. */
struct viq_candidacy;

/* The most RPs of ranges that a candidate BSR holds; the most ranges of a candidate RP, which a packet has room for. A
 * longer list is refused by its count, and isn't read. */
#define VIQ_MOST_HELD 255
#define VIQ_MOST_ADVERTISED 183

/* As what a router stands. What is only of a role in which it doesn't stand isn't read. */
struct viq_candidacy_settings {
    bool is_bsr;           /* it is a candidate BSR */
    uint32_t bsr;          /* its address as such: one of its own, to which all routers of the domain have a route */
    uint32_t bsr_priority; /* 0 to 255; the higher is preferred; 64 is usual */
    uint32_t hash_length;  /* bits of the hash function's mask that it says, 0 to 32; 30 is usual */
    uint32_t limit;        /* the most RPs of ranges that it holds, 1 to VIQ_MOST_HELD; 143 is safe for one range */
    bool is_rp;            /* it is a candidate RP */
    uint32_t rp;           /* its address as such, of the same kind */
    uint32_t rp_priority;  /* 0 to 255; the lower is preferred; 192 is usual */
};

/* A prefix of groups, in 224.0.0.0/4 and with no host bits. */
struct viq_prefix {
    uint32_t prefix;
    uint32_t length; /* 4 to 32 */
};

/* Makes a candidacy, at the router's present. The ranges are those of which the router would be the RP, 1 to
 * VIQ_MOST_ADVERTISED where it stands as RP; else they aren't read. The third argument is VIQ_ABI. It answers VIQ_DONE;
 * VIQ_NO_SETTING where a value is out of its range, an address is no host's or a range is no prefix of groups;
 * VIQ_MOMENT_FAR, VIQ_MEMORY or VIQ_OTHER_ABI. It writes what `candidacy` points to, and doesn't read it: the new
 * candidacy, or NULL where there is none. */
VIQ_READ_ANSWER VIQ_NOT_NULL(1) VIQ_NOT_NULL(3)
uint32_t viq_candidacy_new(struct viq_candidacy **candidacy, uint32_t abi, const struct viq_candidacy_settings *settings,
                           const struct viq_prefix *ranges, size_t count, uint64_t moment);

/* Frees the candidacy and its memory. With NULL it does nothing. */
void viq_candidacy_end(struct viq_candidacy *candidacy);

/* Hears a packet that came on an interface, and to which viq_frame answered VIQ_OTHER_TYPE, in place of viq_bsr_hear: it
 * is no event, and of the router it changes what is to be sent alone. `moved` gets whether the router is to be given
 * other RPs; it gets false with each other answer than VIQ_DONE.
 *
 * VIQ_DONE: a Bootstrap counts, and is sent on; or a candidate BSR sends it on and doesn't take what it says; or it
 * answers it by one of its own, since it is the BSR. With all others nothing has changed, but that an elected BSR, which
 * answers VIQ_NOT_PREFERRED, may say sooner that it is one, and that a candidate RP tells the BSR that its listener
 * knows. The others are those of viq_bsr_hear, in the order of its tests, with VIQ_NOT_PREFERRED where the candidate
 * neither takes nor sends it on; VIQ_NO_CANDIDACY is looked for before VIQ_NO_LISTENER, and that before
 * VIQ_NO_ROUTER. */
VIQ_READ_ANSWER VIQ_NOT_NULL(8)
uint32_t viq_candidacy_hear(struct viq_candidacy *candidacy, struct viq_bsr *bsr, struct viq_router *router,
                            uint32_t iface, const uint8_t *packet, size_t length, struct viq_draw draw, bool *moved);

/* Hears a packet to one of the router's addresses, to which viq_unicast answered VIQ_NOT_FOR_ME. It is no event, and
 * changes nothing of the router.
 *
 * VIQ_DONE: an advertisement of a candidate RP was taken by an elected BSR, which says it as soon as it may:
 * viq_candidacy_next may be sooner. With all others nothing has changed. VIQ_OTHER_TYPE: the packet is no advertisement
 * to the candidate BSR's address. A refusal of a packet: it can't be read as one. VIQ_NOT_ELECTED: another one is the
 * BSR, or none is. VIQ_MEMORY; VIQ_FAILED, VIQ_NO_ROUTER or VIQ_NO_CANDIDACY. Packets may be untaken. */
VIQ_READ_ANSWER
uint32_t viq_candidacy_unicast(struct viq_candidacy *candidacy, struct viq_router *router, const uint8_t *packet,
                               size_t length);

/* When the first timer of the candidacy expires, in ms; VIQ_NEVER where none runs, and for NULL. */
VIQ_READ_ANSWER
uint64_t viq_candidacy_next(const struct viq_candidacy *candidacy);

/* Time passed to a moment, which is the router's present, for the listener too, in place of viq_bsr_pass: what has
 * expired by then is forgotten, and of each timer of the candidacy that is due one step is taken. A BSR that is elected
 * sends a Bootstrap, a candidate RP an advertisement, which leaves by unicast routing. `moved` gets whether the router is
 * to be given other RPs; it gets false with each other answer than VIQ_DONE. It answers VIQ_DONE; where nothing has
 * changed VIQ_MOMENT_FAR, VIQ_UNTAKEN, VIQ_MEMORY, VIQ_FAILED, VIQ_NO_ROUTER, VIQ_NO_LISTENER or VIQ_NO_CANDIDACY. */
VIQ_READ_ANSWER VIQ_NOT_NULL(6)
uint32_t viq_candidacy_pass(struct viq_candidacy *candidacy, struct viq_bsr *bsr, struct viq_router *router,
                            uint64_t moment, struct viq_draw draw, bool *moved);

/* Says that the RP goes: an advertisement with holdtime 0 is to be sent to the elected BSR. Where the router doesn't
 * stand as RP, or no BSR is elected, nothing is. The candidacy stays as it is. It answers VIQ_DONE; where nothing has
 * changed VIQ_UNTAKEN, VIQ_MEMORY, VIQ_FAILED, VIQ_NO_ROUTER, VIQ_NO_LISTENER or VIQ_NO_CANDIDACY. */
VIQ_READ_ANSWER
uint32_t viq_candidacy_leave(const struct viq_candidacy *candidacy, const struct viq_bsr *bsr,
                             struct viq_router *router);

/* What a router is as candidate BSR. */
enum {
    VIQ_BSR_NONE = 0,      /* it doesn't stand as BSR */
    VIQ_BSR_CANDIDATE = 1, /* another one is the BSR */
    VIQ_BSR_PENDING = 2,   /* none is: it may become the BSR */
    VIQ_BSR_ELECTED = 3    /* it is the BSR */
};

/* How a candidacy stands. */
struct viq_candidacy_state {
    uint32_t role;     /* as candidate BSR */
    uint64_t end;      /* ms, when the candidate's Bootstrap Timer expires; VIQ_NEVER where it doesn't stand as BSR */
    uint32_t told;     /* the BSR that is told of the RP; 0 where none is */
    uint64_t told_end; /* ms, when it is told next; VIQ_NEVER where none is */
};

/* How a candidacy stands; false, and nothing is written, for NULL. */
VIQ_NOT_NULL(2)
bool viq_candidacy_state(const struct viq_candidacy *candidacy, struct viq_candidacy_state *state);

/* An RP of a range that advertised itself to a candidate BSR. */
struct viq_candidacy_rp {
    uint32_t prefix; /* of the range */
    uint32_t length;
    uint32_t rp;
    uint32_t priority; /* 0 to 255; the lower is preferred */
    uint32_t holdtime; /* seconds */
    uint64_t end;      /* ms, when its holdtime is over */
};

/* How many there are; and one of them, counted from 0, in the order in which they came. viq_candidacy_rp answers false,
 * and writes nothing, where there is none of that number. */
VIQ_READ_ANSWER
size_t viq_candidacy_rps(const struct viq_candidacy *candidacy);
VIQ_NOT_NULL(3)
bool viq_candidacy_rp(const struct viq_candidacy *candidacy, size_t index, struct viq_candidacy_rp *row);

/* ---- older versions of IGMP (RFC 3376, section 7.3)
 *
 * A new router hears no older version: it refuses each message of one by VIQ_OLD_VERSION. The calls of this part are no
 * events: what is to be sent, the costs, what changed and the present are unchanged by them. They may be made at any
 * time. */

/* Which hosts of older versions an interface hears. */
enum {
    VIQ_OLDER_NONE = 0, /* none, as of a new router */
    VIQ_OLDER_TWO = 1,  /* those of IGMPv2 */
    VIQ_OLDER_ALL = 2   /* those of IGMPv1 and IGMPv2, as RFC 3376 asks for (7.3.2) */
};

/* Sets which hosts of older versions an interface hears. From then on it takes a report or a Leave of such a host for
 * the IGMPv3 report that says the same. A group that such a host reports is in the mode of its version for [Older Host
 * Present Interval] (260 s with the usual settings), as long as there is a record of it. In mode IGMPv2 a BLOCK and the
 * sources of a TO_EX are left out of IGMPv3 reports, in mode IGMPv1 a TO_IN too, and Leaves are refused. Messages about
 * groups of 224.0.0.0/24 and of SSM stay refused. One forged report of IGMPv1 makes Leaves of its group ineffective for
 * that time; with VIQ_OLDER_TWO no such report is heard (9.2). An interface that hears older hosts also elects its
 * querier by the queries of IGMPv2 routers.
 *
 * What the interface heard before is forgotten; where it heard nobody it keeps what viq_restore brought of those that it
 * is to hear. It answers VIQ_DONE; VIQ_BAD_INTERFACE, VIQ_NO_SETTING or VIQ_MEMORY,
 * where nothing has changed; VIQ_FAILED or VIQ_NO_ROUTER. */
VIQ_READ_ANSWER
uint32_t viq_older(struct viq_router *router, uint32_t iface, uint32_t hosts);

/* Sets the version in which an interface queries, 2 or 3; it is 3 in a new router. In version 2 its queries leave cut
 * behind their group, as those of IGMPv2, and it elects its querier by the queries of IGMPv2 routers. All routers of a
 * link have to query in one version (7.3.1). It answers as viq_older does. */
VIQ_READ_ANSWER
uint32_t viq_query_version(struct viq_router *router, uint32_t iface, uint32_t version);

/* A group in an older mode on an interface. A timer that doesn't run has VIQ_NEVER. */
struct viq_older_row {
    uint32_t iface;
    uint32_t group;
    uint32_t mode;    /* the version, 1 or 2 */
    uint64_t one_end; /* ms, when the IGMPv1 Host Present timer expires */
    uint64_t two_end; /* ms, when the IGMPv2 Host Present timer expires */
};

/* Reads the groups that are in an older mode now. It answers VIQ_DONE; VIQ_MEMORY, where nothing has changed;
 * VIQ_FAILED or VIQ_NO_ROUTER. */
VIQ_READ_ANSWER
uint32_t viq_older_read(struct viq_router *router);

/* How many groups were read by viq_older_read last; and one of them, counted from 0, ascending by interface and then by
 * group. viq_older_row answers false, and writes nothing, where there is none of that number. They remain as they were
 * read until they are read again, or viq_reload is done. */
VIQ_READ_ANSWER
size_t viq_older_rows(const struct viq_router *router);
VIQ_NOT_NULL(3)
bool viq_older_row(const struct viq_router *router, size_t index, struct viq_older_row *row);

/* ---- records of what a router took; LIBRARY.md describes a recording */

/* A call that a router took, and what it answered. A field that its kind of call doesn't have isn't read. */
struct viq_call {
    uint64_t moment; /* ms, of viq_advance and viq_keep */
    uint32_t letter; /* of its kind */
    uint32_t draw;   /* of an event */
    uint32_t iface;
    uint32_t source; /* of viq_seen and viq_keep, as the next one */
    uint32_t group;
    uint32_t value;  /* what viq_older, viq_query_version or viq_guard set */
    uint32_t answer;
    uint32_t sum;    /* viq_sum after an event that answered VIQ_DONE, else 0 */
};

/* Writes the record of a call: 'a' viq_advance, 'f' viq_frame, 'u' viq_unicast, '+' viq_up, '-' viq_down, 's' viq_seen,
 * 'k' viq_keep, 'o' viq_older, 'q' viq_query_version, 'd' viq_guard. The packet is that of viq_frame and viq_unicast,
 * and isn't read for another. `size` gets how many bytes there are, 0 for another letter. As many of them as room_length
 * allows are written into `room`, and the rest of `room` is unchanged. It answers VIQ_DONE; VIQ_MEMORY, where nothing is
 * written. */
VIQ_READ_ANSWER VIQ_NOT_NULL(1) VIQ_NOT_NULL(6)
uint32_t viq_record(const struct viq_call *call, const uint8_t *packet, size_t length, uint8_t *room,
                    size_t room_length, size_t *size);

/* Write the record of viq_routes, of viq_ranges, of viq_candidates, of viq_anycast, and of another configuration,
 * without a map of places and by one, in the same way, whatever the letter is. A list that viq_routes, viq_ranges,
 * viq_candidates, viq_anycast, viq_new or viq_reload_places refuses for its length is recorded as one that is refused
 * alike. */
VIQ_READ_ANSWER VIQ_NOT_NULL(1) VIQ_NOT_NULL(6)
uint32_t viq_record_routes(const struct viq_call *call, const struct viq_route *routes, size_t count, uint8_t *room,
                           size_t room_length, size_t *size);
VIQ_READ_ANSWER VIQ_NOT_NULL(1) VIQ_NOT_NULL(6)
uint32_t viq_record_ranges(const struct viq_call *call, const struct viq_range *ranges, size_t count, uint8_t *room,
                           size_t room_length, size_t *size);
VIQ_READ_ANSWER VIQ_NOT_NULL(1) VIQ_NOT_NULL(6)
uint32_t viq_record_candidates(const struct viq_call *call, const struct viq_candidate *candidates, size_t count,
                               uint8_t *room, size_t room_length, size_t *size);
VIQ_READ_ANSWER VIQ_NOT_NULL(1) VIQ_NOT_NULL(6)
uint32_t viq_record_anycast(const struct viq_call *call, const struct viq_rp_set *sets, size_t count, uint8_t *room,
                            size_t room_length, size_t *size);
VIQ_READ_ANSWER VIQ_NOT_NULL(1) VIQ_NOT_NULL(2) VIQ_NOT_NULL(11)
uint32_t viq_record_reload(const struct viq_call *call, const struct viq_settings *settings,
                           const struct viq_interface *interfaces, size_t interface_count,
                           const struct viq_route *routes, size_t route_count, const struct viq_range *ranges,
                           size_t range_count, uint8_t *room, size_t room_length, size_t *size);
VIQ_READ_ANSWER VIQ_NOT_NULL(1) VIQ_NOT_NULL(2) VIQ_NOT_NULL(13)
uint32_t viq_record_reload_places(const struct viq_call *call, const struct viq_settings *settings,
                                  const struct viq_interface *interfaces, size_t interface_count,
                                  const struct viq_route *routes, size_t route_count, const struct viq_range *ranges,
                                  size_t range_count, const uint32_t *places, size_t place_count, uint8_t *room,
                                  size_t room_length, size_t *size);

/* The sum of the packets that are untaken, as viq_packets counts them: their CRC-32 (RFC 1952, section 8). So it is
 * asked for before they are taken. */
VIQ_READ_ANSWER
uint32_t viq_sum(const struct viq_router *router);

/* ---- costs */

/* What the last event cost: the count of trie nodes that it visited; and the rows of the forwarding cache that it
 * evaluated, put in and took out, together. Both are 0 for a lost router, and for NULL. */
VIQ_READ_ANSWER
uint64_t viq_probes(const struct viq_router *router);
VIQ_READ_ANSWER
uint64_t viq_touched(const struct viq_router *router);

#ifdef __cplusplus
}
#endif
#endif
