"""The answers of the core, its printed rows and what holds where nothing is said, for the tools: `dev/tables` writes
all of it."""

# ---- answers
# The names of refusals, by their numbers.
REFUSALS = {
    1: "Short",
    2: "BadVersion",
    3: "BadChecksum",
    4: "BadLength",
    5: "BadAddress",
    6: "NotMulticast",
    7: "OldVersion",
    8: "UnknownType",
    9: "Fragment",
    20: "MomentBack",
    21: "MomentFar",
    22: "NoInterface",
    23: "InterfaceDown",
    24: "Full",
    25: "BadRoutes",
    26: "BadRps",
    27: "BadMove",
    30: "InterfaceCount",
    31: "InterfaceAddress",
    32: "InterfaceLength",
    33: "Overlap",
    34: "BadLimit",
    35: "BadQuerier",
    36: "BadDelay",
    37: "ConfiguredRoutes",
    38: "ConfiguredRps",
    39: "BadScenario",
    70: "OwnAddresses",
    73: "PlacesDontFit",
    76: "BadCandidates",
    74: "BadRpSet",
}
# The numbers of reasons to ignore.
IGNORED = {
    "Own": 101,
    "NotForMe": 102,
    "OtherType": 103,
    "Mask": 104,
    "LinkLocal": 105,
    "NoNeighbour": 106,
    "NotRp": 107,
    "Already": 108,
    "Guarded": 109,
    "OwnBsr": 110,
    "Scoped": 111,
    "LateRefresh": 112,
    "NotFromRpf": 113,
    "NotPreferred": 114,
    "NotElected": 115,
}
# The numbers of the refusals of saved bytes, and of states that no router goes on from.
REFUSED_BYTES = (60, 61, 62, 63, 64, 65, 69)
REFUSED_STATES = (66, 67, 68, 72, 71)
# What the refusals of moves, by their numbers as texts, and the reasons to ignore them mean.
MEANINGS = {
    "1": "the packet is shorter than its lengths and counts say: is it cut, or is an Ethernet header before it?",
    "2": "the IP version isn't 4, or PIM's isn't 2",
    "3": "a checksum is wrong: the IP header's, PIM's or IGMP's",
    "4": "a wrong IP length; more than 1,500 bytes, 1,528 as a unicast; a Hello option of a wrong length; a query of "
         "9 to 11 bytes; a mask in a Bootstrap outside 4 to 32 bits",
    "5": "an IP source that no host has, an encoded address of another family, or a wrong source in an Assert",
    "6": "a group field, or the destination of a registered packet, isn't in 224.0.0.0/4",
    "7": "IGMPv1 or IGMPv2 that the router doesn't hear: by its `older_hosts`, of a group of 224.0.0.0/24 or SSM, or "
         "a Leave while a host of IGMPv1 wants the group",
    "8": "an IGMP type other than query and report",
    "9": "the packet is a fragment",
    "20": "the moment is before the router's present",
    "21": "the moment is above 2^62",
    "22": "the router has no interface of this number; they are counted from 0",
    "23": "the interface is down when the packet comes: an `up` is missing before, or the packet is lost on purpose",
    "24": "it needs more new facts than `limit` leaves room for, or is the Hello of a 65th neighbour on the "
          "interface, or a Bootstrap of too many RPs",
    "73": "the map of places has no line for an interface, names a place that the other configuration doesn't have, "
          "or names one twice",
    "74": "sets of RPs that share an address don't fit the router's addresses, or each other",
    "Own": "the packet's source is an address of the router, which hears itself",
    "NotForMe": "on a link: IGMP or data to no group, a Register or Register-Stop; as a unicast: for another router, "
                "or not one of these two",
    "OtherType": "a PIM message of a type that the router doesn't know, as Bootstrap",
    "Mask": "an Assert or Register-Stop for a range of groups",
    "LinkLocal": "a group in 224.0.0.0/24, which never leaves its link",
    "NoNeighbour": "a Join/Prune, an Assert or a farewell from an address without a live Hello: the Hello is missing, "
                   "or is over",
    "NotRp": "a Register-Stop from another address than the group's RP: the router goes on registering",
    "Already": "`up` of an interface that is up, or `down` of one that is down",
    "Guarded": "the guard stops a Register with IGMP or PIM inside, or for 224.0.0.0/24, and PIM on a link to another "
               "group",
    "OwnBsr": "a Bootstrap whose BSR is an address of the router",
    "Scoped": "a Bootstrap of an admin scope zone: these aren't built",
    "LateRefresh": "a Bootstrap with the No-Forward bit, after one counted, or more than 60 s after the start",
    "NotFromRpf": "a Bootstrap from another neighbour or interface than the route to its BSR has, or without such a "
                  "route",
    "NotPreferred": "a Bootstrap of another BSR than the elected one, with a lower priority, or with the same and a "
                    "lower address",
    "NotElected": "a Candidate-RP-Advertisement to a candidate BSR that isn't elected: who is the BSR?",
}
# ---- rows
# The rows of the definitions: the first number of each, and its columns, each a kind with its words.
ROWS = {
    "N": (10, [("iface", []), ("address", []), ("end", ["never"])]),
    "G": (11, [("iface", []), ("address", []), ("flag", ["include", "exclude"]), ("end", ["never"])]),
    "S": (12, [("iface", []), ("address", []), ("address", []), ("end", ["-"])]),
    "D": (13, [("iface", []), ("address", []), ("source", []), ("tree", []),
               ("downstream", ["join", "pending", "prune"]), ("end", ["never"]), ("end", ["-"])]),
    "A": (14, [("iface", []), ("address", []), ("source", []), ("nothing", []), ("role", ["winner", "loser"]),
               ("address", []), ("moment", [])]),
    "U": (15, [("address", []), ("source", []), ("moment", [])]),
    "R": (16, [("address", []), ("address", []), ("flag", ["notpruned", "pruned"])]),
    "F": (17, [("address", []), ("address", []), ("end", ["-"]), ("flag", ["-", "spt"]),
               ("register", ["-", "join", "pending", "prune"])]),
}
# ---- defaults
# What holds where a scenario says nothing, by its keys; the first are a router's.
USUAL = {
    "limit": 65536,
    "rv": 2,
    "qi": 125,
    "qri": 100,
    "lmqi": 10,
    "priority": 1,
    "propagation": 500,
    "override": 2500,
}
# The keys of an interface's delays.
DELAYS = ("propagation", "override")
# The library's names of a router's keys.
SETTINGS = {
    "limit": "limit",
    "rv": "robustness",
    "qi": "query_interval",
    "qri": "query_response_interval",
    "lmqi": "last_member_query_interval",
}
