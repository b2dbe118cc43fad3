/* One router a thread: four threads use the library at once, each with a router of its own, which has to do what the
 * first one did alone. It prints nothing where it does; the status is 1 where one differs. */
#include <pthread.h>
#include <stdio.h>
#include <stdlib.h>
#include <viqeshor/viqeshor.h>

enum { THREADS = 4, ROUNDS = 25 };

/* A report of a member of 239.1.1.1, and a packet to it. */
static const uint8_t REPORT[] = {0x46, 0xc0, 0, 0x28, 0, 0, 0, 0, 1, 2, 0x38, 0xf1, 10, 0, 1, 9, 224, 0, 0, 22, 0x94, 4,
    0, 0, 0x22, 0, 0xe9, 0xfb, 0, 0, 0, 1, 4, 0, 0, 0, 239, 1, 1, 1};
static const uint8_t DATA[] = {0x45, 0, 0, 28, 0, 0, 0, 0, 64, 17, 0x80, 0xc8, 10, 0, 0, 7, 239, 1, 1, 1, 0, 1, 0, 2, 0, 8, 0, 0};

static uint32_t mixed(uint32_t sum, uint32_t value) { return (sum ^ value) * 16777619u; }

/* What a router answers and sends, as a sum. */
static uint32_t took(struct viq_router *router, uint32_t sum, uint32_t answer) {
    sum = mixed(mixed(mixed(sum, answer), viq_sum(router)), (uint32_t)viq_packets(router));
    viq_clear(router);
    return sum;
}

static uint32_t round_of(struct viq_router *router, uint32_t sum, uint64_t moment) {
    struct viq_row row;
    sum = took(router, sum, viq_advance(router, moment, viq_draw(7)));
    sum = took(router, sum, viq_frame(router, 1, REPORT, sizeof REPORT, viq_draw(7)));
    sum = took(router, sum, viq_frame(router, 0, DATA, sizeof DATA, viq_draw(7)));
    if (viq_read(router, 'G') == VIQ_DONE && viq_row(router, 0, &row)) sum = mixed(sum, (uint32_t)viq_rows(router));
    return sum;
}

/* The sum of a router's life; 0 where there is none, or where it didn't take the packets. */
static void *life(void *found) {
    struct viq_settings settings = VIQ_USUAL_SETTINGS;
    struct viq_interface interfaces[] = {{0x0a000002, 24, 1, 500, 2500}, {0x0a000101, 24, 1, 500, 2500}};
    struct viq_range ranges[] = {{0xe0000000, 4, 0x0a000002}};
    struct viq_router *router = NULL;
    uint32_t sum = 1;
    if (viq_new(&router, VIQ_ABI, &settings, interfaces, 2, NULL, 0, ranges, 1) != VIQ_DONE) return NULL;
    for (uint32_t iface = 0; iface < 2; iface++) sum = took(router, sum, viq_up(router, iface, viq_draw(7)));
    for (uint64_t at = 1; at <= ROUNDS; at++) sum = round_of(router, sum, 10000 * at);
    *(uint32_t *)found = viq_rows(router) == 1 && viq_copies(router) == 1 ? sum : 0;
    viq_end(router);
    return NULL;
}

int main(void) {
    pthread_t threads[THREADS];
    uint32_t alone = 0, found[THREADS] = {0};
    life(&alone);
    for (int each = 0; each < THREADS; each++)
        if (pthread_create(&threads[each], NULL, life, &found[each])) return 1;
    for (int each = 0; each < THREADS; each++) pthread_join(threads[each], NULL);
    for (int each = 0; each < THREADS; each++)
        if (alone == 0 || found[each] != alone) return printf("thread %d: %u, alone %u\n", each, found[each], alone), 1;
    return 0;
}
