/* What a packet is, and reports of hosts for programs that try a router. */
#include <string.h>

#include <viqeshor/viqeshor.h>

enum { IGMP = 2, PIM = 103, HEADER = 24, RECORD = 16 };

static uint32_t pim_message(uint8_t first) {
    static const uint32_t kinds[] = {VIQ_HELLO, VIQ_REGISTER, VIQ_REGISTER_STOP, VIQ_JOIN_PRUNE, VIQ_OTHER_PIM, VIQ_ASSERT};
    size_t type = first & 15;
    return first >> 4 == 2 && type < sizeof kinds / sizeof *kinds ? kinds[type] : VIQ_OTHER_PIM;
}

static uint32_t igmp_message(uint8_t type) {
    switch (type) {
    case 0x11: return VIQ_QUERY;
    case 0x12: case 0x16: case 0x22: return VIQ_REPORT;
    case 0x17: return VIQ_LEAVE;
    default: return VIQ_OTHER_IGMP;
    }
}

uint32_t viq_message(const uint8_t *packet, size_t length) {
    size_t header = length < 20 ? 0 : 4 * (packet[0] & 15u);
    if (header < 20 || packet[0] >> 4 != 4) return VIQ_NO_PACKET;
    if (packet[9] != IGMP && packet[9] != PIM) return VIQ_DATA;
    if (length <= header) return VIQ_NO_PACKET;
    return packet[9] == PIM ? pim_message(packet[header]) : igmp_message(packet[header]);
}

const char *viq_message_text(uint32_t message) {
    static const char *const texts[] = {"no packet", "data", "Hello", "Register", "Register-Stop", "Join/Prune", "Assert",
                                        "other PIM", "query", "report", "Leave", "other IGMP"};
    return message < sizeof texts / sizeof *texts ? texts[message] : texts[VIQ_NO_PACKET];
}

static void put(uint8_t *to, uint32_t value, size_t width) {
    while (width > 0) {
        to[--width] = (uint8_t)value;
        value >>= 8;
    }
}

/* The Internet checksum of bytes of an even count, which takes its place among them. */
static void set_sum(uint8_t *bytes, size_t length, size_t place) {
    uint32_t sum = 0;
    for (size_t at = 0; at < length; at += 2) sum += (uint32_t)bytes[at] << 8 | bytes[at + 1];
    while (sum >> 16) sum = (sum & 0xffff) + (sum >> 16);
    put(bytes + place, ~sum, 2);
}

size_t viq_report(uint32_t host, uint32_t kind, uint32_t group, const uint32_t *sources, size_t count,
                  uint8_t *room, size_t room_length) {
    static const uint8_t front[HEADER + RECORD] = {0x46, 0xc0, 0, 0, 0, 0, 0, 0, 1, IGMP, 0, 0, 0, 0, 0, 0, 224, 0, 0, 22,
                                                   0x94, 4, 0, 0, 0x22, 0, 0, 0, 0, 0, 0, 1};
    if (count > VIQ_MOST_SOURCES || room_length < sizeof front + 4 * count) return 0;
    size_t length = sizeof front + 4 * count;
    memcpy(room, front, sizeof front);
    put(room + 2, (uint32_t)length, 2);
    put(room + 12, host, 4);
    room[HEADER + 8] = (uint8_t)kind;
    put(room + HEADER + 10, (uint32_t)count, 2);
    put(room + HEADER + 12, group, 4);
    for (size_t at = 0; at < count; at++) put(room + sizeof front + 4 * at, sources[at], 4);
    set_sum(room, HEADER, 10);
    set_sum(room + HEADER, length - HEADER, 2);
    return length;
}
