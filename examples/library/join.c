/* One router: 10.0.1.2 joins a source, data comes and is copied, the Join ends, and data comes again. What becomes of
 * each event and what leaves is printed as ./pimlab prints it; crates/test_scenarios/data/a_join_that_is_over.toml is the
 * same as a scenario. */
#include <stdio.h>
#include <stdlib.h>

#include <viqeshor/viqeshor.h>

#define HELLO_ABOVE "45C0001E000000000167CEAB0A000001E000000D2000DFFC00010002FFFF"
#define HELLO_BELOW "45C0001E000000000167CDAA0A000102E000000D2000DFFC00010002FFFF"
#define JOIN "45C00036000000000167CD920A000102E000000D2300DBB301000A0001010001000101000020E1010101000100" \
             "00010004200A000305"
#define DATA "4500001C0000000040118BCA0A000305E10101010001000200030004"
#define MORE_DATA "4500001C0001000040118BC90A000305E10101010001000200030004"

static const char *const links = "nmo";
static int moves, frames;

static void print_packet(const struct viq_packet *packet, const uint8_t *bytes) {
    unsigned to = (unsigned)packet->destination;
    if (packet->kind == VIQ_UNICAST)
        printf("unicast %d %u.%u.%u.%u ", ++frames, to >> 24, to >> 16 & 255, to >> 8 & 255, to & 255);
    else printf("%s %d %c ", packet->kind == VIQ_COPY ? "copy" : "frame", ++frames, links[packet->iface]);
    for (size_t at = 0; at < packet->length; at++) printf("%02x", bytes[at]);
    putchar('\n');
}

/* What became of an event, and what leaves. */
static void took(struct viq_router *router, uint32_t answer) {
    uint8_t bytes[VIQ_MOST_BYTES];
    struct viq_packet packet;
    if (viq_is_lost(answer)) exit(1);
    if (viq_is_ignored(answer)) printf("move %d r ignored %u\n", ++moves, (unsigned)answer);
    else if (viq_is_refused(answer)) printf("move %d r refused %u\n", ++moves, (unsigned)answer);
    else printf("move %d r done\n", ++moves);
    while (viq_take(router, &packet, bytes, sizeof bytes)) print_packet(&packet, bytes);
}

/* A packet came on an interface. The draw should be a random number. */
static void frame(struct viq_router *router, uint32_t iface, const char *hex) {
    uint8_t packet[VIQ_MOST_BYTES];
    size_t length = 0;
    for (unsigned byte; sscanf(hex + 2 * length, "%2x", &byte) == 1; length++) packet[length] = (uint8_t)byte;
    took(router, viq_frame(router, iface, packet, length, viq_draw(0)));
}

int main(void) {
    struct viq_settings settings = VIQ_USUAL_SETTINGS;
    struct viq_interface interfaces[] = {
        {0x0a000002, 24, 1, 500, 2500}, {0x0a000101, 24, 1, 500, 2500}, {0x0a000201, 24, 1, 500, 2500}};
    struct viq_route routes[] = {{0x0a090900, 24, 0x0a000001, 0, 110, 20}, {0x0a000300, 24, 0x0a000001, 0, 110, 20}};
    struct viq_range ranges[] = {{0xe0000000, 4, 0x0a090909}};
    struct viq_router *router = NULL;
    uint32_t answer = viq_new(&router, VIQ_ABI, &settings, interfaces, 3, routes, 2, ranges, 1);
    if (answer != VIQ_DONE) return printf("refused %u\n", (unsigned)answer), 1;
    for (uint32_t iface = 0; iface < 3; iface++) took(router, viq_up(router, iface, viq_draw(7)));
    frame(router, 0, HELLO_ABOVE);
    frame(router, 1, HELLO_BELOW);
    frame(router, 1, JOIN);
    took(router, viq_advance(router, 999, viq_draw(0)));
    frame(router, 0, DATA);
    took(router, viq_advance(router, 1000, viq_draw(0)));
    frame(router, 0, MORE_DATA);
    viq_end(router);
    return 0;
}
