/* Every payload over a few small alphabets, of up to 14 bytes or 11, as an event's and as a command's: what the library calls clean, held to what it
   writes. Each is sealed, opened and written again: clean has to be said exactly where the payload's own bytes are written. It has to be said the same
   by mesh_packet_decode, by mesh_items_count and by `kept_as_is` below. Prints the counts; the status is 1 where anything is otherwise. */
#include "mesh.h"

#include <stdio.h>
#include <string.h>

enum { LONGEST = 14, HEAD = 9, MIC = 4, FRAME = HEAD + LONGEST + MIC };

/* Tag 0, which is a heartbeat's in an event; the length of one path entry, or of two; one odd bit, or the other; a length that is no path's. In
   11 bytes there is room for a heartbeat of one entry and one that is skipped. */
static const struct {
    size_t longest, letters;
    uint8_t letter[4];
} ALPHABETS[] = {{14, 3, {0, 6, 0x40}}, {14, 3, {0, 6, 0x80}}, {14, 3, {0, 12, 0x40}}, {14, 3, {0, 12, 0x80}}, {14, 3, {0, 1, 6}},
                 {11, 4, {0, 1, 6, 0x40}}, {11, 4, {0, 1, 6, 0x80}}};
static const uint32_t PAYLOADS = 47057075, CLEAN[] = {6977652, 5231486};

static const uint8_t KEY[16] = {1, 2, 3, 4, 5, 6, 7, 8, 9, 10, 11, 12, 13, 14, 15, 16};
static const uint8_t HEADS[2][HEAD] = {{0xf8, 0, 0, 0, 60, 0x0a, 0x0b, 0x0c, 0x0d}, {0xf0, 0, 0, 0, 60, 0x0a, 0x0b, 0x0c, 0x0d}};

/* The rule, read by hand: every byte belongs to an item, no heartbeat is uneven, and none has an odd bit. */
static bool kept_as_is(bool is_event, const uint8_t *s, size_t n) {
    size_t at = 0;
    while (at < n) {
        if (n - at < 2 || n - at - 2 < s[at + 1]) return false;
        const size_t len = s[at + 1];
        if (is_event && s[at] == 0) {
            if (len % 6) return false;
            for (size_t i = 5; i < len; i += 6)
                if (s[at + 2 + i] & 0xc0) return false;
        }
        at += 2 + len;
    }
    return true;
}

static bool opened(bool is_event, const uint8_t *payload, const uint8_t *stream, size_t n, bool *clean) {
    uint8_t frame[FRAME] = {0}, work[LONGEST], out[FRAME];
    mesh_packet p;
    mesh_counts sealed, plain, bare;
    uint64_t length = 0;
    memcpy(frame, HEADS[is_event], HEAD);
    memcpy(frame + HEAD, payload, n);
    if (mesh_packet_read_mesh(&p, frame, HEAD + n + MIC) || mesh_packet_decode(&p, frame, HEAD + n + MIC, NULL, 0, &plain)) return false;
    for (size_t i = 0; i < n; i++) frame[HEAD + i] ^= stream[i];
    if (mesh_packet_read_mesh(&p, frame, HEAD + n + MIC) || mesh_packet_decrypt(&p, KEY, frame, HEAD + n + MIC, work, LONGEST, &sealed)) return false;
    mesh_lent lent = mesh_lent_frame(frame, HEAD + n + MIC);
    lent.work = work, lent.work_len = LONGEST;
    if (mesh_packet_write(&p, &lent, out, FRAME, &length) || mesh_items_count(is_event, payload, n, &bare)) return false;
    const bool same = length == HEAD + n + MIC && memcmp(out + HEAD, payload, n) == 0;
    *clean = sealed.clean;
    return sealed.clean == same && plain.clean == same && bare.clean == same && kept_as_is(is_event, payload, n) == same;
}

int main(void) {
    uint32_t payloads = 0, clean[2] = {0, 0};
    uint8_t streams[2][LONGEST], zeros[LONGEST] = {0};
    for (int is_event = 0; is_event < 2; is_event++)
        if (mesh_stream(KEY, !is_event, 0x0a0b0c0d, 60, zeros, LONGEST, streams[is_event], LONGEST)) return 1;
    for (size_t a = 0; a < sizeof ALPHABETS / sizeof *ALPHABETS; a++) {
        for (size_t n = 0; n <= ALPHABETS[a].longest; n++) {
            uint8_t digits[LONGEST] = {0}, payload[LONGEST];
            size_t i;
            memset(payload, ALPHABETS[a].letter[0], sizeof payload);
            do {
                for (int is_event = 0; is_event < 2; is_event++) {
                    bool is_clean = false;
                    if (!opened(is_event, payload, streams[is_event], n, &is_clean)) {
                        printf("%s's payload of %zu bytes:", is_event ? "an event" : "a command", n);
                        for (i = 0; i < n; i++) printf(" %02x", payload[i]);
                        printf("\n");
                        return 1;
                    }
                    clean[is_event] += is_clean;
                }
                payloads++;
                for (i = 0; i < n && digits[i] == ALPHABETS[a].letters - 1; i++) digits[i] = 0, payload[i] = ALPHABETS[a].letter[0];
                if (i < n) payload[i] = ALPHABETS[a].letter[++digits[i]];
            } while (i < n);
        }
    }
    printf("%u payloads, clean as an event's %u, as a command's %u\n", payloads, clean[1], clean[0]);
    return payloads != PAYLOADS || clean[0] != CLEAN[0] || clean[1] != CLEAN[1];
}
