/* Two routers, and the link between them as a queue in memory. A host behind the second asks for a group, and a source
 * behind the first, the RP, sends three packets. Prints the messages by which the group is joined, and what comes to the
 * host. */
#include <stdio.h>
#include <stdlib.h>

#include <viqeshor/viqeshor.h>

enum { MOST = 64, LINK = 0, HOSTS = 1 };
static struct viq_router *routers[2];
static struct frame { unsigned to; size_t length; uint8_t bytes[VIQ_MOST_BYTES]; } queue[MOST];
static size_t first, last;

/* What an event sent: on the link it waits for the other router. */
static void took(unsigned at, uint32_t answer) {
    struct frame *frame = &queue[last % MOST];
    struct viq_packet packet;
    if (answer != VIQ_DONE) exit(printf("%s\n", viq_answer_text(answer)));
    for (; last - first < MOST && viq_take(routers[at], &packet, frame->bytes, VIQ_MOST_BYTES); frame = &queue[last % MOST]) {
        uint32_t message = viq_message(frame->bytes, packet.length);
        if (message == VIQ_JOIN_PRUNE || message == VIQ_DATA)
            printf("router %u, %s: %s\n", at, packet.iface == LINK ? "to the other one" : "to its host", viq_message_text(message));
        frame->to = 1 - at;
        frame->length = packet.length;
        if (packet.iface == LINK) last++;
    }
}

/* The other router takes what waits on the link, and what follows of that. */
static void settle(void) {
    for (; first != last; first++) {
        struct frame *frame = &queue[first % MOST];
        took(frame->to, viq_frame(routers[frame->to], LINK, frame->bytes, frame->length, viq_draw(0)));
    }
}

int main(void) {
    static const struct viq_interface interfaces[2][2] = {{{0x0a000001, 24, 1, 500, 2500}, {0x0a000101, 24, 1, 500, 2500}},
                                                          {{0x0a000002, 24, 1, 500, 2500}, {0x0a000201, 24, 1, 500, 2500}}};
    static const struct viq_settings settings = {65536, 2, 125, 100, 10, true, NULL, 0};
    static const struct viq_route route = {0x0a000100, 24, 0x0a000001, LINK, 110, 20};
    static const struct viq_range range = {0xef000000, 8, 0x0a000001};
    static const uint8_t data[] = {0x45, 0, 0, 28, 0, 0, 0, 0, 64, 17, 0x7f, 0xc8, 10, 0, 1, 7, 239, 1, 1, 1, 0, 1, 0, 2, 0, 8, 0, 0};
    uint8_t report[VIQ_MOST_BYTES];
    size_t length = viq_report(0x0a000209, VIQ_TO_EX, 0xef010101, NULL, 0, report, sizeof report);
    for (unsigned at = 0; at < 2; at++) {
        if (viq_new(&routers[at], VIQ_ABI, &settings, interfaces[at], 2, &route, at, &range, 1) != VIQ_DONE) return 1;
        for (uint32_t iface = 0; iface < 2; iface++) took(at, viq_up(routers[at], iface, viq_draw(0)));
    }
    for (unsigned at = 0; at < 2; at++) took(at, viq_advance(routers[at], 100, viq_draw(0)));
    settle();
    took(1, viq_frame(routers[1], HOSTS, report, length, viq_draw(0)));
    settle();
    for (int n = 0; n < 3; n++) {
        took(0, viq_frame(routers[0], HOSTS, data, sizeof data, viq_draw(0)));
        settle();
    }
    for (unsigned at = 0; at < 2; at++) viq_end(routers[at]);
    return 0;
}
