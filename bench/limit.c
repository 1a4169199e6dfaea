/* See limit.h. In a file of its own, so that no call of it is laid into bench.c's loops, as none of the library's is. */
#include "limit.h"

#include <string.h>

static uint32_t four(const uint8_t *b) { return (uint32_t)b[0] << 24 | (uint32_t)b[1] << 16 | (uint32_t)b[2] << 8 | b[3]; }

static void put_four(uint8_t *b, uint32_t n) { b[0] = n >> 24, b[1] = n >> 16, b[2] = n >> 8, b[3] = n; }

uint8_t hand_read(struct hand *p, const uint8_t *frame, size_t n)
{
    if (n == 0) return 1;
    if (n > 8192) return 5;
    if (frame[0] >> 5 != 7) {
        *p = (struct hand){.kind = 4, .len = n};
        return 0;
    }
    if (n < 5) return 2;
    uint8_t type = frame[0] >> 3 & 3, hops = (frame[0] & 7) + 1;
    const uint8_t *mic = frame + n - 4;
    switch (type) {
    case 0:
        if (n < 14) return 4;
        *p = (struct hand){.hop_count = hops, .has_mic = true, .mic = four(mic), .relay_id = four(frame + 6),
                           .uplink_id = frame[1] << 4 | frame[2] >> 4, .dr = frame[2] & 15, .rssi = -frame[3],
                           .snr = ((frame[4] & 63) ^ 32) - 32, .channel = frame[5], .odd = frame[4] >> 6, .start = 10, .len = n - 14};
        return 0;
    case 1: {
        if (n < 15) return 4;
        uint32_t steps = (uint32_t)frame[3] << 16 | frame[4] << 8 | frame[5];
        *p = (struct hand){.kind = 1, .payload_type = 1, .hop_count = hops, .has_mic = true, .mic = four(mic), .relay_id = four(frame + 7),
                           .uplink_id = frame[1] << 4 | frame[2] >> 4, .dr = frame[2] & 15, .frequency = steps * (steps < 12000000 ? 100 : 200),
                           .tx_power = frame[6] >> 4, .delay = (frame[6] & 15) + 1, .start = 11, .len = n - 15};
        return 0;
    }
    default:
        if (n < 13) return 4;
        *p = (struct hand){.kind = type, .payload_type = type, .hop_count = hops, .has_mic = true, .mic = four(mic), .relay_id = four(frame + 5),
                           .timestamp = four(frame + 1), .content = n > 13, .start = n > 13 ? 9 : 0, .len = n - 13};
        return 0;
    }
}

uint8_t hand_write(const struct hand *p, const uint8_t *frame, size_t n, uint8_t *out, size_t out_len, uint64_t *length)
{
    if (p->kind != 0 || p->payload_type > 3) return 29;
    if (p->hop_count == 0) return 6;
    if (p->hop_count > 8) return 7;
    if (p->len > 0 && (p->start > n || p->len > n - p->start)) return 45;
    if (p->uplink_id > 4095) return 8;
    if (p->dr > 15) return 9;
    if (p->rssi > 0) return 10;
    if (p->rssi < -255) return 11;
    if (p->snr < -32) return 12;
    if (p->snr > 31) return 13;
    if (!p->has_mic) return 27;
    if (p->len > 8192 - 14) return 5;
    if (out_len < 14 + p->len) return 21;
    out[0] = 0xe0 | p->payload_type << 3 | (p->hop_count - 1);
    out[1] = p->uplink_id >> 4;
    out[2] = p->uplink_id << 4 | p->dr;
    out[3] = -p->rssi;
    out[4] = p->snr & 63;
    out[5] = p->channel;
    put_four(out + 6, p->relay_id);
    if (p->len > 0) memcpy(out + 10, frame + p->start, p->len);
    put_four(out + 10 + p->len, p->mic);
    *length = 14 + p->len;
    return 0;
}
