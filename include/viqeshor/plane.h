/* A data plane: a kernel or a chip that forwards by rows that it reads from the router. DATAPLANE.md has more of it.
 *
 * A packet that a row decides is forwarded or dropped by the plane, and reported to the router later. A packet that no
 * row decides is the router's: the plane hands it over whole by viq_frame. What plane and router send together is then
 * what the router alone would send, event by event. For this the plane has the following duties. After each duty stands
 * what goes wrong where it is neglected.
 *
 * 1. One order. Packets, reports and events come one after the other, and each packet goes by the rows that hold at its
 *    timestamp. No packet goes by a row that an earlier event has changed, nor at or after the router's next moment
 *    before viq_advance. (Neglected by a plane that lags: until it has the new rows, packets go where nobody asks for
 *    them, and don't go where somebody does; what they have to begin, such as a Register, an Assert or the change to
 *    the source's tree, waits for as long.)
 *
 * 2. Tests of each packet before a row is used. A packet goes by a row where all of this holds; else it is the
 *    router's:
 *    - Its interface is configured and up.
 *    - It has at most 1500 bytes, of which at least 20 are its header, of version 4, with a right checksum. Its total
 *      length covers the header and is at most the number of bytes. It is no fragment (DF may be set).
 *    - Its source is above 0, below 224.0.0.0, and no address of the router, up or down.
 *    - Its destination is in 224.0.0.0/4, and not in 224.0.0.0/24.
 *    - Its protocol isn't 2, IGMP's.
 *    (Neglected: packets are forwarded that no router forwards, and IGMP and PIM don't reach this one.)
 *
 * 3. Forwarding as the router does. On an interface of to_core the packet is the router's. Else, on the incoming
 *    interface, a copy leaves on each outgoing interface except the one on which it came, with the TTL lower by one, a
 *    new checksum, and no bytes past the total length; no copy leaves where the TTL was 0 or 1. On any other interface
 *    nothing leaves. (Neglected: packets loop or come twice; without to_core no Register begins, no Assert is sent, and
 *    no router changes to the source's tree.)
 *
 * 4. Notes. Where a packet goes by its row, and its interface is in alive, accepted or not, the plane notes the source,
 *    the group, the interface and the timestamp. The note replaces an earlier one of this source and group. (Neglected:
 *    the router takes the source for silent after 210 s, and removes its state though it sends.)
 *
 * 5. Catching up. Before each event of the router's own, also before viq_frame of a data packet, the plane reports all
 *    its notes and drops them. Then it lets the router advance to the present. It does so too when the router's next
 *    moment has come, which is at most 30 s ahead while an interface is up. Each note is reported by viq_keep with its
 *    timestamp. Where that answers VIQ_NO_TIMER the note is reported by viq_advance to its timestamp and viq_seen.
 *    Notes that are reported by viq_seen go in the order of their timestamps, the others in any order. These reports
 *    send nothing. The present may lie beyond the router's next moment: then timers expire in the advance to it, and
 *    what this sends is to be sent, as of any event. viq_advance and viq_seen are events: duty 6 applies after each.
 *    (Neglected: as of 4. A note that is reported with a later timestamp keeps the source alive as much longer.)
 *
 * 6. Reading rows again. After each event, viq_seen and viq_advance too, the plane calls viq_offload again for each
 *    source that viq_changed lists, and drops the row where that answers false. It drops the row of a source without a
 *    fact (is_known is false) where viq_may_differ answers true, or all such rows, and reads one when a packet comes.
 *    (Neglected: as in a plane that lags, for as long as the source sends.)
 *
 *    viq_frames is the events of the packets that were given, of which all but the last changed no row of a source with a
 *    fact. Where one of them but the last was answered VIQ_DONE, the plane drops all rows of sources without a fact. So a
 *    plane with many of these gives each packet by viq_frame.
 *
 *    viq_reload and viq_reload_places count as an event for duties 1, 5 and 6. A row that is read then names interfaces
 *    by the numbers of the other configuration, and none that was removed.
 *
 *    Before viq_save the plane reports its notes, and lets the router advance to the present, as duty 5 says. Beside a
 *    router that viq_restore made it has no rows and no notes: no packet goes by a row that it had before until
 *    viq_offload has given the row again, and viq_changed lists none.
 *
 * 7. Dropping everything. After an answer of VIQ_LOST or VIQ_FAILED the plane drops all rows and notes.
 *    (Neglected: packets go by rows that nobody maintains.) */
#ifndef VIQESHOR_PLANE_H
#define VIQESHOR_PLANE_H

#include "viqeshor.h"

#ifdef __cplusplus
extern "C" {
#endif

/* What a data plane may do with the packets of a source to a group. */
struct viq_plane_row {
    bool is_known;                  /* the source has a fact: the row is valid until viq_changed lists the source */
    uint32_t incoming;              /* where packets are accepted, or VIQ_NO_INTERFACE */
    struct viq_interfaces outgoing; /* where copies of these leave, except the interface on which they came */
    struct viq_interfaces alive;    /* where a packet shows that the source is alive, accepted or not */
    struct viq_interfaces to_core;  /* where a packet is the router's, whatever else the row says */
};

/* Reads the row of a source and a group. It answers false, and writes nothing, where all packets are the router's
 * (there is no fact of the source and no room for one), for a lost router, and for NULL. */
VIQ_READ_ANSWER VIQ_NOT_NULL(4)
bool viq_offload(const struct viq_router *router, uint32_t source, uint32_t group, struct viq_plane_row *row);

/* How many sources there are whose rows may have changed at the last event; and one of them, counted from 0. Each source
 * is listed once, ascending by group and then by source. viq_changed_source answers false, and writes nothing, where
 * there is none of that number. There is none where viq_touched is 0, and none for a lost router. */
VIQ_READ_ANSWER
size_t viq_changed(const struct viq_router *router);
VIQ_NOT_NULL(3)
bool viq_changed_source(const struct viq_router *router, size_t index, struct viq_source_group *name);

/* Whether the row that viq_offload reads for a source, with a fact or without one, may have changed at the last event.
 * Where it answers false, each packet is decided as before. After new routes, RP ranges or candidate RPs it is true for
 * the sources for which RP(G), the route to it or the route to S differs. It is true for a lost router, and for NULL. */
VIQ_READ_ANSWER
bool viq_may_differ(const struct viq_router *router, uint32_t source, uint32_t group);

/* An event: the plane saw a packet of a source to a group on an interface. It does what viq_frame does with such a
 * packet with a TTL of 1: no copy and no Register of it leaves, and anything else that it causes is to be sent. */
VIQ_READ_ANSWER
uint32_t viq_seen(struct viq_router *router, uint32_t iface, uint32_t source, uint32_t group, struct viq_draw draw);

/* The plane forwarded a packet of a source to a group at the timestamp `moment`, at most 2^62. Where the source's
 * keepalive timer runs, its expiry moves to 210 s after that, unless it is later already. This is no event: what is to
 * be sent, the costs, what changed and the present are unchanged. It answers VIQ_DONE; VIQ_NO_TIMER; VIQ_MOMENT_FAR,
 * where nothing has changed; VIQ_LOST, VIQ_FAILED or VIQ_NO_ROUTER. */
VIQ_READ_ANSWER
uint32_t viq_keep(struct viq_router *router, uint32_t source, uint32_t group, uint64_t moment);

#ifdef __cplusplus
}
#endif
#endif
