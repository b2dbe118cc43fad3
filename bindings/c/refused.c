/* Which item of a list of routes, ranges or candidates is refused, and why: by the tests of crates/pim_model (`is_route`,
 * `is_rp_range`, `are_distinct`, `is_candidate`, `are_distinct_candidates` of specs/Limits.antt), item by item. */
#include <stdlib.h>

#include <viqeshor/viqeshor.h>

static bool is_host(uint32_t address) { return address != 0 && address < 0xe0000000; }

static bool has_host_bits(uint32_t prefix, uint32_t length) { return length < 32 && prefix << length != 0; }

/* The router's interfaces, and its addresses of no interface. */
struct own {
    const struct viq_interface *interfaces;
    size_t interface_count;
    const uint32_t *addresses;
    size_t address_count;
};

static bool is_own(const struct own *own, uint32_t address) {
    for (size_t at = 0; at < own->interface_count; at++)
        if (own->interfaces[at].address == address) return true;
    for (size_t at = 0; at < own->address_count; at++)
        if (own->addresses[at] == address) return true;
    return false;
}

static uint32_t fault_of_route(const struct own *own, const struct viq_route *route) {
    if (route->length > 32) return VIQ_ITEM_LENGTH;
    if (has_host_bits(route->prefix, route->length)) return VIQ_ITEM_HOST_BITS;
    if (route->iface >= own->interface_count) return VIQ_ITEM_INTERFACE;
    if (!is_host(route->next_hop)) return VIQ_ITEM_NO_HOST;
    if (is_own(own, route->next_hop)) return VIQ_ITEM_OWN;
    return route->preference > 0x7ffffffe ? VIQ_ITEM_PREFERENCE : 0;
}

static uint32_t fault_of_range(const struct viq_range *range) {
    if (range->length > 32 || range->length < 4) return VIQ_ITEM_LENGTH;
    if (has_host_bits(range->prefix, range->length)) return VIQ_ITEM_HOST_BITS;
    if (range->prefix >> 28 != 14) return VIQ_ITEM_NO_GROUPS;
    return is_host(range->rp) ? 0 : VIQ_ITEM_NO_HOST;
}

static uint32_t fault_of_candidate(const struct viq_candidate *candidate) {
    const struct viq_range range = {candidate->prefix, candidate->length, candidate->rp};
    uint32_t reason = fault_of_range(&range);
    if (reason) return reason;
    if (candidate->priority > 255) return VIQ_ITEM_PRIORITY;
    return candidate->hash_length > 32 ? VIQ_ITEM_HASH_LENGTH : 0;
}

/* ---- prefixes that are there twice, of candidates with the same RP */

struct named {
    uint32_t prefix, length, rp;
    size_t index;
};

static int compare(const void *one, const void *other) {
    const struct named *a = one, *b = other;
    if (a->prefix != b->prefix) return a->prefix < b->prefix ? -1 : 1;
    if (a->length != b->length) return a->length < b->length ? -1 : 1;
    if (a->rp != b->rp) return a->rp < b->rp ? -1 : 1;
    return a->index < b->index ? -1 : 1;
}

/* The first that repeats one before it, or their count. */
static size_t first_repeated(struct named *names, size_t count) {
    size_t first = count;
    qsort(names, count, sizeof *names, compare);
    for (size_t at = 1; at < count; at++)
        if (names[at].prefix == names[at - 1].prefix && names[at].length == names[at - 1].length &&
            names[at].rp == names[at - 1].rp && names[at].index < first)
            first = names[at].index;
    return first;
}

static bool told(struct viq_refused_at *at, size_t index, uint32_t reason) {
    at->index = index;
    at->reason = reason;
    return reason != 0;
}

/* The first item that can't stand: by itself, or since it repeats one before it. */
static bool told_first(struct viq_refused_at *at, size_t wrong, uint32_t reason, size_t repeated, uint32_t twice) {
    return repeated < wrong ? told(at, repeated, twice) : told(at, wrong, reason);
}

bool viq_routes_refused_at(const struct viq_interface *interfaces, size_t interface_count, const uint32_t *addresses,
                           size_t address_count, const struct viq_route *routes, size_t count,
                           struct viq_refused_at *at) {
    const struct own own = {interfaces, interface_count, addresses, address_count};
    size_t wrong = 0;
    uint32_t reason = 0;
    if (count > VIQ_MOST_ROUTES) return told(at, VIQ_MOST_ROUTES, VIQ_ITEM_COUNT);
    while (wrong < count && !(reason = fault_of_route(&own, &routes[wrong]))) wrong++;
    struct named *names = malloc((count + 1) * sizeof *names);
    for (size_t index = 0; names && index < count; index++)
        names[index] = (struct named){routes[index].prefix, routes[index].length, 0, index};
    size_t repeated = names ? first_repeated(names, count) : count;
    free(names);
    return told_first(at, wrong, reason, repeated, VIQ_ITEM_TWICE);
}

bool viq_ranges_refused_at(const struct viq_range *ranges, size_t count, struct viq_refused_at *at) {
    struct named names[VIQ_MOST_RANGES];
    size_t wrong = 0;
    uint32_t reason = 0;
    if (count > VIQ_MOST_RANGES) return told(at, VIQ_MOST_RANGES, VIQ_ITEM_COUNT);
    while (wrong < count && !(reason = fault_of_range(&ranges[wrong]))) wrong++;
    for (size_t index = 0; index < count; index++)
        names[index] = (struct named){ranges[index].prefix, ranges[index].length, 0, index};
    return told_first(at, wrong, reason, first_repeated(names, count), VIQ_ITEM_TWICE);
}

bool viq_candidates_refused_at(const struct viq_candidate *candidates, size_t count, struct viq_refused_at *at) {
    struct named names[VIQ_MOST_CANDIDATES];
    size_t wrong = 0;
    uint32_t reason = 0;
    if (count > VIQ_MOST_CANDIDATES) return told(at, VIQ_MOST_CANDIDATES, VIQ_ITEM_COUNT);
    while (wrong < count && !(reason = fault_of_candidate(&candidates[wrong]))) wrong++;
    for (size_t index = 0; index < count; index++)
        names[index] = (struct named){candidates[index].prefix, candidates[index].length, candidates[index].rp, index};
    return told_first(at, wrong, reason, first_repeated(names, count), VIQ_ITEM_RP_TWICE);
}

const char *viq_refused_text(uint32_t reason) {
    switch (reason) {
    case VIQ_ITEM_LENGTH: return "no prefix has this length there";
    case VIQ_ITEM_HOST_BITS: return "its prefix has host bits";
    case VIQ_ITEM_INTERFACE: return "there is no such interface";
    case VIQ_ITEM_NO_HOST: return "its next hop or RP is no host's address";
    case VIQ_ITEM_OWN: return "its next hop is the router's own";
    case VIQ_ITEM_PREFERENCE: return "its preference is above 0x7ffffffe";
    case VIQ_ITEM_NO_GROUPS: return "its prefix isn't in 224.0.0.0/4";
    case VIQ_ITEM_TWICE: return "one before it has the same prefix";
    case VIQ_ITEM_COUNT: return "there are too many";
    case VIQ_ITEM_PRIORITY: return "its priority is above 255";
    case VIQ_ITEM_HASH_LENGTH: return "its hash mask has more than 32 bits";
    case VIQ_ITEM_RP_TWICE: return "one before it has the same prefix and the same RP";
    default: return "nothing is wrong with it";
    }
}
