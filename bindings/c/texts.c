/* What a library says of itself, and what an answer says. */
#include <viqeshor/viqeshor.h>

#ifndef VIQ_HOW
#define VIQ_HOW "not proved"
#endif

uint32_t viq_abi(void) { return VIQ_ABI; }

const char *viq_version(void) { return VIQ_VERSION " " VIQ_HOW; }

const char *viq_answer_text(uint32_t answer) {
    switch (answer) {
    case VIQ_DONE: return "done";
    case VIQ_SHORT: return "the packet is shorter than its lengths and counts say";
    case VIQ_BAD_VERSION: return "another version than IPv4 or PIM 2";
    case VIQ_BAD_CHECKSUM: return "a wrong checksum";
    case VIQ_BAD_LENGTH: return "a wrong length";
    case VIQ_BAD_ADDRESS: return "an address that can't stand there";
    case VIQ_NOT_MULTICAST: return "no group where a group has to stand";
    case VIQ_OLD_VERSION: return "IGMPv1 or IGMPv2";
    case VIQ_UNKNOWN_TYPE: return "another IGMP type than query and report";
    case VIQ_FRAGMENT: return "a fragment";
    case VIQ_MOMENT_BACK: return "the moment is before the present";
    case VIQ_MOMENT_FAR: return "the moment is above 2^62";
    case VIQ_BAD_INTERFACE: return "there is no such interface";
    case VIQ_INTERFACE_DOWN: return "the interface is down";
    case VIQ_FULL: return "the limit of facts, or of neighbours on an interface, leaves no room";
    case VIQ_BAD_ROUTES: return "routes that can't stand";
    case VIQ_BAD_RANGES: return "RP ranges that can't stand";
    case VIQ_INTERFACE_COUNT: return "no interfaces, or more than 120";
    case VIQ_INTERFACE_ADDRESS: return "an interface's address is no host's";
    case VIQ_INTERFACE_LENGTH: return "an interface's prefix length isn't 1 to 31";
    case VIQ_OVERLAP: return "two subnets overlap";
    case VIQ_BAD_LIMIT: return "the limit isn't 1 to 1,000,000";
    case VIQ_BAD_QUERIER: return "a value of the querier is out of range";
    case VIQ_BAD_DELAY: return "an interface's delay is out of range";
    case VIQ_CONFIGURED_ROUTES: return "configured routes that can't stand";
    case VIQ_CONFIGURED_RANGES: return "configured RP ranges that can't stand";
    case VIQ_OWN_ADDRESSES: return "own addresses that can't stand";
    case VIQ_PLACES_DONT_FIT: return "a map of places that doesn't name each interface once";
    case VIQ_BAD_CANDIDATES: return "candidate RPs that can't stand";
    case VIQ_BAD_RP_SET: return "sets of RPs that share an address, which the router can't have";
    case VIQ_MEMORY: return "memory was refused, and nothing has changed";
    case VIQ_FAILED: return "the router was lost before";
    case VIQ_LOST: return "memory was refused, and the router is lost";
    case VIQ_NO_ROUTER: return "there is no router";
    case VIQ_NO_TABLE: return "no table has this letter";
    case VIQ_NO_TIMER: return "no keepalive timer of the source runs";
    case VIQ_OTHER_ABI: return "the program was compiled for another version of the library";
    case VIQ_NO_SETTING: return "no setting has this number";
    case VIQ_UNTAKEN: return "packets of the event before are untaken";
    case VIQ_NO_LISTENER: return "there is no listener for Bootstraps";
    case VIQ_NO_CANDIDACY: return "there is no candidacy";
    case VIQ_NOT_OURS: return "the bytes are no saved state";
    case VIQ_OTHER_VERSION: return "the state was saved in another version of its format";
    case VIQ_CUT_SHORT: return "the saved state is cut short";
    case VIQ_OUT_OF_RANGE: return "a flag or a tag of the saved state is none that there is";
    case VIQ_KEYS_DONT_RISE: return "the keys of a table of the saved state don't rise";
    case VIQ_LEFT_OVER: return "bytes follow the saved state";
    case VIQ_NOT_HELD: return "no router has the saved configuration, or a fact under such a key";
    case VIQ_NOT_SETTLED: return "a timer of the saved state has expired, or a fact is of an interface that is down";
    case VIQ_NOT_QUIET: return "an assert or an SPTbit of the saved state would go, or a register isn't as it has to be";
    case VIQ_DAMAGED: return "the saved state is damaged: its sum is another one";
    case VIQ_NOT_NEAR: return "a timer of the saved state ends later than it may, or a fact lies where none can";
    case VIQ_HOSTS_NOT_HELD: return "the saved groups of older hosts can't be read, or are none that the saved router can have";
    case VIQ_RPS_NOT_HELD: return "the saved RPs of Bootstraps are none that a listener can have";
    case VIQ_OWN: return "ignored: the router's own packet";
    case VIQ_NOT_FOR_ME: return "ignored: not for this router";
    case VIQ_OTHER_TYPE: return "ignored: a PIM message of another type";
    case VIQ_MASK: return "ignored: for a range of groups";
    case VIQ_LINK_LOCAL: return "ignored: a group that stays on its link";
    case VIQ_NO_NEIGHBOUR: return "ignored: the sender is no neighbour";
    case VIQ_NOT_RP: return "ignored: the sender isn't the RP";
    case VIQ_ALREADY: return "ignored: it is so already";
    case VIQ_GUARDED: return "ignored: the guard stopped IGMP or PIM that would be forwarded as data";
    case VIQ_OWN_BSR: return "ignored: the Bootstrap's BSR is the router itself";
    case VIQ_SCOPED: return "ignored: the Bootstrap is of an admin scope zone";
    case VIQ_LATE_REFRESH: return "ignored: the Bootstrap is for a router that has just started";
    case VIQ_NOT_FROM_RPF: return "ignored: the Bootstrap doesn't come from the RPF neighbour of its BSR";
    case VIQ_NOT_PREFERRED: return "ignored: the Bootstrap's BSR has less weight than the elected one";
    case VIQ_NOT_ELECTED: return "ignored: the router isn't the elected BSR";
    default: return "no answer of this library";
    }
}
