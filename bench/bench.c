/* Speed and stack of the cipher, the MIC and the stream, beside OpenSSL's, and of whole frames, reading and writing beside limit.c, in one
   process. bench/run builds and runs it twice: with the processor's AES instructions and with them switched off for OpenSSL; the port uses
   none, so its figures should be the same in both. `bench limit` measures the last part alone. */
#define _GNU_SOURCE
#define OPENSSL_SUPPRESS_DEPRECATED
#include <openssl/aes.h>
#include <openssl/cmac.h>
#include <openssl/crypto.h>
#include <openssl/evp.h>
#include <stdio.h>
#include <stdlib.h>
#include <string.h>
#include <time.h>

#include "limit.h"
#include "mesh.h"
#include "stack.h"

static uint8_t key[16], message[255], block[16], tag[16], sealed[255], work[255];
static uint64_t counts[MESH_COUNTS_NUMBERS];
static uint32_t ready[MESH_CIPHER_WORDS];

static double now(void)
{
    struct timespec t;
    clock_gettime(CLOCK_MONOTONIC, &t);
    return t.tv_sec * 1e9 + t.tv_nsec;
}

/* The least of many short runs: what the work takes when nothing disturbs it. Each run feeds its output to the next. */
#define TIME(result, count, work)                              \
    do {                                                       \
        double least = 1e18;                                   \
        for (int run = 0; run < 25; run++) {                   \
            double start = now();                              \
            for (long i = 0; i < (count); i++) { work; }       \
            double each = (now() - start) / (count);           \
            if (each < least) least = each;                    \
        }                                                      \
        result = least;                                        \
    } while (0)

static void fail(const char *what)
{
    fprintf(stderr, "bench: %s\n", what);
    exit(1);
}

/* ---- the same answers first */

static void agree(void)
{
    AES_KEY theirs;
    uint8_t mine[16], other[16];
    size_t length;
    CMAC_CTX *context = CMAC_CTX_new();
    for (int round = 0; round < 20000; round++) {
        for (int i = 0; i < 16; i++) key[i] = rand(), mine[i] = other[i] = rand();
        size_t n = rand() % 256;
        for (size_t i = 0; i < n; i++) message[i] = rand();
        AES_set_encrypt_key(key, 128, &theirs);
        AES_encrypt(other, other, &theirs);
        mesh_encrypt_block(key, mine);
        if (memcmp(mine, other, 16)) fail("a block differs from OpenSSL's");
        CMAC_Init(context, key, 16, EVP_aes_128_cbc(), NULL);
        CMAC_Update(context, message, n);
        CMAC_Final(context, other, &length);
        mesh_cmac(key, message, n, mine);
        if (length != 16 || memcmp(mine, other, 16)) fail("a MIC differs from OpenSSL's");
        mesh_prepare(key, ready);
        mesh_mac(ready, message, n, mine);
        if (memcmp(mine, other, 16)) fail("a MIC under a prepared cipher differs from OpenSSL's");
    }
    CMAC_CTX_free(context);
    printf("20000 blocks and 20000 MICs of 0 to 255 bytes: equal to OpenSSL's\n");
    EVP_CIPHER_CTX *ctr = EVP_CIPHER_CTX_new();
    for (int round = 0; round < 20000; round++) {
        uint8_t theirs_sealed[255], first[16] = {1};
        int written;
        uint32_t relay = (uint32_t)rand() * 3u, time = (uint32_t)rand() * 5u;
        bool command = rand() & 1;
        size_t n = rand() % 256;
        for (int i = 0; i < 16; i++) key[i] = rand();
        for (size_t i = 0; i < n; i++) message[i] = rand();
        first[5] = command, first[15] = 1;
        for (int i = 0; i < 4; i++) first[6 + i] = relay >> (24 - 8 * i), first[10 + i] = time >> (24 - 8 * i);
        EVP_EncryptInit_ex(ctr, EVP_aes_128_ctr(), NULL, key, first);
        EVP_EncryptUpdate(ctr, theirs_sealed, &written, message, (int)n);
        if (mesh_stream(key, command, relay, time, message, n, sealed, 255) || memcmp(sealed, theirs_sealed, n))
            fail("a sealed payload differs from OpenSSL's CTR");
        if (mesh_stream(key, command, relay, time, sealed, n, work, 255) || memcmp(work, message, n))
            fail("an opened payload differs from the clear one");
    }
    EVP_CIPHER_CTX_free(ctr);
    printf("20000 payloads of 0 to 255 bytes, sealed and opened: equal to OpenSSL's CTR\n");
}

/* A frame from its bytes on: read, and its MIC validated. */
static uint8_t validated(const uint8_t *frame, size_t n, bool *valid)
{
    mesh_packet packet;
    mesh_lent lent = mesh_lent_frame(frame, n);
    uint8_t refused = mesh_packet_read(&packet, frame, n);
    return refused ? refused : mesh_packet_validate(&packet, key, &lent, valid);
}

/* Frames of every type: what the hop edit leaves is the frame with the count set, an uplink's odd bits cleared, and OpenSSL's MIC over
   that. */
static void agree_frames(void)
{
    static const size_t least[4] = {14, 15, 13, 13};
    uint8_t frame[255], theirs[255];
    bool valid;
    size_t length;
    CMAC_CTX *context = CMAC_CTX_new();
    for (int round = 0; round < 20000; round++) {
        int type = rand() & 3, hops = 1 + (rand() & 7);
        size_t n = least[type] + rand() % (256 - least[type]);
        for (int i = 0; i < 16; i++) key[i] = rand();
        for (size_t i = 0; i < n; i++) frame[i] = rand();
        frame[0] = 0xe0 | type << 3 | (rand() & 7);
        memcpy(theirs, frame, n);
        theirs[0] = 0xe0 | type << 3 | (hops - 1);
        if (type == 0) theirs[4] &= 63;
        CMAC_Init(context, key, 16, EVP_aes_128_cbc(), NULL);
        CMAC_Update(context, theirs, n - 4);
        CMAC_Final(context, tag, &length);
        memcpy(theirs + n - 4, tag, 4);
        if (mesh_set_hop_count(key, frame, n, hops) || memcmp(frame, theirs, n)) fail("a hop edit differs");
        if (validated(frame, n, &valid) || !valid) fail("an edited frame is not valid");
        frame[n - 1 - rand() % 4] ^= 1 << (rand() & 7);
        if (validated(frame, n, &valid) || valid) fail("a frame with another MIC is valid");
        memcpy(theirs, frame, n);
        if (mesh_set_hop_count(key, frame, n, 0) != 6 || mesh_set_hop_count(key, frame, n, 9) != 7 || memcmp(frame, theirs, n))
            fail("a refused edit changes the frame");
        if (mesh_set_hop_count(key, frame, least[type] - 1, hops) != 4 || memcmp(frame, theirs, n)) fail("a short frame is edited");
    }
    CMAC_CTX_free(context);
    printf("20000 frames of 13 to 255 bytes, edited, validated and refused: as OpenSSL's CMAC has them\n");
}

/* Sequences of adds beside a list of the last records, which is what the rules say. */
static void agree_cache(void)
{
    mesh_record_of last[MESH_CACHE_MOST], r;
    uint32_t words[MESH_CACHE_WORDS];
    uint8_t is_new;
    long adds = 0, hits = 0;
    if (mesh_cache_clear(words, 0) != 24 || mesh_cache_clear(words, 65) != 24) fail("a cache of 0 or 65 is made");
    for (uint32_t size = 1; size <= 64; size++) {
        uint32_t held = 0;
        if (mesh_cache_clear(words, size)) fail("a cache is refused");
        for (int turn = 0; turn < 2000; turn++, adds++) {
            /* records that are nearly the same, so that about half of them are hits */
            r.type = rand() & 7 ? 0 : rand() & 3, r.uplink_id = rand() % (size + 2), r.timestamp = !(rand() & 7);
            r.relay_id = rand() & 7 ? 0x0a0b0c0d : 0x0a0b0c0d ^ 1u << (rand() & 31);
            bool there = false;
            for (uint32_t i = 0; i < held; i++) there |= memcmp(&last[i], &r, sizeof r) == 0;
            if (!there) {
                if (held == size) memmove(last, last + 1, --held * sizeof r);
                last[held++] = r;
            }
            hits += there;
            if (mesh_cache_add(words, (const uint64_t *)&r, &is_new) || is_new == there)
                fail("the cache differs from the list of the last records");
        }
    }
    printf("%ld adds to caches of 1 to 64, %ld of them hits: as a list of the last records has them\n", adds, hits);
}

/* ---- reading and writing, beside what is written by hand */

static mesh_packet packet_of(const struct hand *h)
{
    return (mesh_packet){.kind = h->kind, .payload_type = h->payload_type, .hop_count = h->hop_count, .has_mic = h->has_mic, .mic = h->mic,
                         .relay_id = h->relay_id, .uplink_id = h->uplink_id, .dr = h->dr, .channel = h->channel, .frequency = h->frequency,
                         .tx_power = h->tx_power, .delay = h->delay, .timestamp = h->timestamp, .content = h->content, .start = h->start, .len = h->len,
                         .odd = h->odd, .rssi = h->rssi, .snr = h->snr};
}

static bool same_packet(const mesh_packet *p, const struct hand *h)
{
    mesh_packet q = packet_of(h);
    return memcmp(p, &q, MESH_PACKET_NUMBERS * sizeof(uint64_t)) == 0 && p->rssi == q.rssi && p->snr == q.snr;
}

/* Random frames, of all lengths up to two beyond the shortest and some longer, and random uplinks with a fault in some field or in none. */
static void agree_limit(void)
{
    static uint8_t frame[8200], out[2][8200];
    long taken = 0, wrote = 0;
    for (int round = 0; round < 100000; round++) {
        size_t n = round % 100 ? (size_t)(rand() % (rand() & 3 ? 18 : 300)) : 8188 + (size_t)(rand() % 8);
        for (size_t i = 0; i < n; i++) frame[i] = rand();
        if (rand() & 7) frame[0] |= 0xe0;
        mesh_packet p;
        struct hand h;
        memset(&p, 0xa5, sizeof p), memset(&h, 0xa5, sizeof h);
        uint8_t mine = mesh_packet_read(&p, frame, n), theirs = hand_read(&h, frame, n);
        if (mine != theirs || (mine == 0 && !same_packet(&p, &h))) fail("a frame is read otherwise than by hand");
        for (size_t i = 0; mine && i < sizeof p; i++)
            if (((uint8_t *)&p)[i] != 0xa5) fail("a refused reading changes the packet");
        taken += mine == 0;
    }
    for (int round = 0; round < 100000; round++) {
        struct hand h = {.hop_count = 1 + (rand() & 7), .has_mic = true, .mic = (uint32_t)rand() * 3u, .relay_id = (uint32_t)rand() * 5u,
                         .uplink_id = rand() & 4095, .dr = rand() & 15, .rssi = -(rand() & 255), .snr = (rand() & 63) - 32, .channel = rand(),
                         .odd = rand(), .start = rand() % 30, .len = rand() % 30};
        size_t n = 60, room = 14 + h.len + rand() % 3;
        for (int faults = rand() % 3; faults > 0; faults--)
            switch (rand() % 12) {
            case 0: h.payload_type = rand(); break;
            case 1: h.hop_count = rand() % 12; break;
            case 2: h.hop_count = 0; break;
            case 3: h.start = rand() % 90; break;
            case 4: h.len = (uint64_t)rand() << (rand() & 63); break;
            case 5: h.uplink_id = rand(); break;
            case 6: h.dr = rand(); break;
            case 7: h.rssi = rand(); break;
            case 8: h.snr = rand(); break;
            case 9: h.has_mic = false; break;
            case 10: room = rand() % 40; break;
            default: n = 8200, h.start = 0, h.len = 8170 + rand() % 20;
            }
        mesh_packet p = packet_of(&h);
        mesh_lent lent = mesh_lent_frame(frame, n);
        uint64_t mine_length = 77, their_length = 77;
        memset(out, 0xa5, sizeof out);
        uint8_t mine = mesh_packet_write(&p, &lent, out[0], room, &mine_length), theirs = hand_write(&h, frame, n, out[1], room, &their_length);
        if (mine != theirs || mine_length != their_length || memcmp(out[0], out[1], sizeof out[0])) fail("an uplink is written otherwise than by hand");
        wrote += mine == 0;
    }
    printf("100000 frames read, %ld of them taken, and 100000 uplinks written, %ld of them taken: as by hand\n", taken, wrote);
}

static int by_size(const void *a, const void *b) { return (*(const double *)a > *(const double *)b) - (*(const double *)a < *(const double *)b); }

/* In turns of each, so that what disturbs one disturbs the other: the medians. */
#define BESIDE(what, mine, theirs)                                                                                       \
    do {                                                                                                                 \
        enum { TURNS = 501, CALLS = 2000 };                                                                              \
        static double times[2][TURNS];                                                                                   \
        for (int turn = 0; turn < TURNS; turn++) {                                                                       \
            double start = now();                                                                                        \
            for (long i = 0; i < CALLS; i++) { mine; }                                                                   \
            double between = now();                                                                                      \
            for (long i = 0; i < CALLS; i++) { theirs; }                                                                 \
            times[0][turn] = (between - start) / CALLS, times[1][turn] = (now() - between) / CALLS;                      \
        }                                                                                                                \
        for (int side = 0; side < 2; side++) qsort(times[side], TURNS, sizeof(double), by_size);                         \
        printf("%-44s %9.1f %9.1f %8.2f\n", what, times[0][TURNS / 2], times[1][TURNS / 2], times[0][TURNS / 2] / times[1][TURNS / 2]); \
    } while (0)

static void beside_limit(void)
{
    enum { KINDS = 16, LENGTH = 14 + 20 };
    static uint8_t frames[KINDS][LENGTH], out[64];
    static mesh_packet packets[KINDS], p;
    static struct hand hands[KINDS], h;
    static mesh_lent lents[KINDS];
    uint64_t length, sum = 0;
    for (int k = 0; k < KINDS; k++) {
        for (int i = 0; i < LENGTH; i++) frames[k][i] = rand();
        frames[k][0] = 0xe0 | (k & 7);
        if (mesh_packet_read(&packets[k], frames[k], LENGTH) || hand_read(&hands[k], frames[k], LENGTH)) fail("an uplink is refused");
        lents[k] = mesh_lent_frame(frames[k], LENGTH);
    }
    printf("%-44s %9s %9s %8s\n", "ns, medians of 501 turns of 2,000 calls", "port", "by hand", "ratio");
    BESIDE("an uplink of 34 bytes read into the struct", sum += mesh_packet_read(&p, frames[i % KINDS], LENGTH) + p.mic,
           sum += hand_read(&h, frames[i % KINDS], LENGTH) + h.mic);
    BESIDE("an uplink of 34 bytes written", sum += mesh_packet_write(&packets[i % KINDS], &lents[i % KINDS], out, sizeof out, &length) + length + out[9],
           sum += hand_write(&hands[i % KINDS], frames[i % KINDS], LENGTH, out, sizeof out, &length) + length + out[9]);
    /* what was summed up is used, or the loops could be left out */
    if (sum == 1) printf("\n");
}

/* ---- the stack */

static uint8_t uplink[64], event[64];
static mesh_packet packets[2];

static void sign(void) { mesh_cmac(key, message, 255, tag); }
static void sign_ready(void) { mesh_mac(ready, message, 255, tag); }
static void edit(void) { mesh_set_hop_count(key, uplink, sizeof uplink, 2); }
static void open_event(void) { mesh_packet_decrypt(&packets[1], key, event, sizeof event, work, sizeof work, (mesh_counts *)counts); }

static void validate(void)
{
    mesh_lent lent = mesh_lent_frame(uplink, sizeof uplink);
    bool valid;
    mesh_packet_validate(&packets[0], key, &lent, &valid);
}

static void stacks(void)
{
    const struct { const char *what; void (*work)(void); } rows[] = {
        {"mesh_cmac", sign}, {"mesh_mac, key ready", sign_ready}, {"mesh_validate", validate}, {"mesh_set_hop_count", edit}, {"mesh_decrypt", open_event}};
    uplink[0] = 0xe0, event[0] = 0xf0;
    if (mesh_packet_read_mesh(&packets[0], uplink, sizeof uplink) || mesh_packet_read_mesh(&packets[1], event, sizeof event)) fail("a frame is refused");
    printf("bytes of stack\n");
    for (size_t i = 0; i < sizeof rows / sizeof *rows; i++) printf("%-44s %9zu\n", rows[i].what, depth(rows[i].work));
}

static void row(const char *what, double mine, double theirs, const char *whose)
{
    printf("%-44s %9.1f %9.1f %8.2f   %s\n", what, mine, theirs, mine / theirs, whose);
}

int main(int count, char **words)
{
    srand(4493);
    agree_limit();
    if (count > 1 && strcmp(words[1], "limit") == 0) {
        beside_limit();
        return 0;
    }
    agree();
    agree_frames();
    agree_cache();
    for (int i = 0; i < 16; i++) key[i] = i * 7 + 1;
    for (int i = 0; i < 255; i++) message[i] = i * 11 + 3;
    mesh_prepare(key, ready);

    double blocks, once, expand, mac14, mac255, ready14, ready255;
    TIME(blocks, 20000, mesh_encipher(ready, block));
    TIME(once, 5000, mesh_encrypt_block(key, block); key[0] = block[0]);
    TIME(expand, 5000, mesh_prepare(key, ready); key[15] += ready[MESH_CIPHER_WORDS - 1]);
    TIME(mac14, 5000, mesh_cmac(key, message, 14, tag); message[0] = tag[0]; key[1] = tag[1]);
    TIME(mac255, 2000, mesh_cmac(key, message, 255, tag); message[0] = tag[0]; key[1] = tag[1]);
    TIME(ready14, 5000, mesh_mac(ready, message, 14, tag); message[0] = tag[0]);
    TIME(ready255, 2000, mesh_mac(ready, message, 255, tag); message[0] = tag[0]);

    /* items of 8 bytes each, so that opening has something to count */
    double seal100, open100;
    for (int i = 0; i < 100; i++) message[i] = i % 10 == 0 ? 1 : i % 10 == 1 ? 8 : i;
    TIME(seal100, 5000, mesh_stream(key, false, 0x0a0b0c0d, 60, message, 100, sealed, 255); key[1] = sealed[3]);
    TIME(open100, 5000, mesh_stream(key, false, 0x0a0b0c0d, 60, sealed, 100, work, 255);
         mesh_count(true, work, 100, counts); key[1] = work[3] + counts[0]);

    /* an uplink; each turn edits what the last one left, and validates it as it stands */
    double edit14, edit255, valid14, valid255;
    uint8_t frame[255];
    bool valid = false;
    memcpy(frame, message, 255);
    frame[0] = 0xe0;
    TIME(edit14, 5000, mesh_set_hop_count(key, frame, 14, 1 + (frame[13] & 7)); key[1] = frame[12]);
    TIME(valid14, 5000, validated(frame, 14, &valid); frame[13] += valid; key[1]++);
    TIME(edit255, 2000, mesh_set_hop_count(key, frame, 255, 1 + (frame[254] & 7)); key[1] = frame[253]);
    TIME(valid255, 2000, validated(frame, 255, &valid); frame[254] += valid; key[1]++);

    /* a cache of 64 that is full: records that were never added, and the newest and the oldest that are there */
    double fresh, newest, oldest;
    uint32_t held[MESH_CACHE_WORDS];
    uint64_t known[MESH_RECORD_NUMBERS] = {0, 1, 0, 0x0a0b0c0d};
    uint8_t is_new = 0;
    mesh_cache_clear(held, 64);
    TIME(fresh, 5000, mesh_cache_add(held, known, &is_new); known[2] += is_new);
    known[2] = held[67 + (held[2] + 63) % 64];
    TIME(newest, 5000, mesh_cache_add(held, known, &is_new); known[2] += is_new);
    known[2] = held[67 + held[2]];
    TIME(oldest, 5000, mesh_cache_add(held, known, &is_new); known[2] += is_new);

    AES_KEY theirs;
    uint8_t many[4096] = {0};
    int written;
    size_t length;
    double table, bulk, their_expand, set14, set255, same14, same255;
    AES_set_encrypt_key(key, 128, &theirs);
    TIME(table, 20000, AES_encrypt(block, block, &theirs));
    EVP_CIPHER_CTX *ecb = EVP_CIPHER_CTX_new();
    EVP_EncryptInit_ex(ecb, EVP_aes_128_ecb(), NULL, key, NULL);
    EVP_CIPHER_CTX_set_padding(ecb, 0);
    TIME(bulk, 100, EVP_EncryptUpdate(ecb, many, &written, many, 4096));
    bulk /= 256;
    TIME(their_expand, 5000, EVP_EncryptInit_ex(ecb, NULL, NULL, key, NULL); key[0]++);
    double ctr100;
    uint8_t first[16] = {1, [15] = 1};
    EVP_CIPHER_CTX *ctr = EVP_CIPHER_CTX_new();
    EVP_EncryptInit_ex(ctr, EVP_aes_128_ctr(), NULL, key, first);
    TIME(ctr100, 2000, EVP_EncryptInit_ex(ctr, NULL, NULL, key, first);
         EVP_EncryptUpdate(ctr, sealed, &written, message, 100); key[1] = sealed[3]);
    CMAC_CTX *context = CMAC_CTX_new();
    const EVP_CIPHER *cbc = EVP_aes_128_cbc();
    CMAC_Init(context, key, 16, cbc, NULL);
#define SET(n)                                                                                  \
    CMAC_Init(context, key, 16, NULL, NULL); CMAC_Update(context, message, n);                  \
    CMAC_Final(context, tag, &length); message[0] = tag[0]; key[1] = tag[1]
#define SAME(n)                                                                                 \
    CMAC_Init(context, NULL, 0, NULL, NULL); CMAC_Update(context, message, n);                  \
    CMAC_Final(context, tag, &length); message[0] = tag[0]
    TIME(set14, 2000, SET(14));
    TIME(set255, 1000, SET(255));
    TIME(same14, 2000, SAME(14));
    TIME(same255, 1000, SAME(255));

    printf("%-44s %9s %9s %8s\n", "ns, the least of 25 runs", "port", "OpenSSL", "ratio");
    row("a block, key ready", blocks, bulk, "EVP ECB, 256 blocks a call");
    row("a block, key ready", blocks, table, "AES_encrypt");
    row("key made ready: the table laid out", expand, their_expand, "EVP_EncryptInit_ex, key expanded");
    row("MIC of 14 bytes, key set each time", mac14, set14, "CMAC, context reused");
    row("MIC of 255 bytes, key set each time", mac255, set255, "CMAC, context reused");
    row("MIC of 14 bytes, key ready", ready14, same14, "CMAC, key kept");
    row("MIC of 255 bytes, key ready", ready255, same255, "CMAC, key kept");
    row("100 bytes sealed, key set each time", seal100, ctr100, "EVP CTR, context reused");
    row("100 bytes opened and counted, key set", open100, ctr100, "EVP CTR, context reused");
    printf("%-44s %9.1f\n", "a block, key set", once);
    printf("%-44s %9.1f\n", "hop edit of an uplink of 14 bytes", edit14);
    printf("%-44s %9.1f\n", "hop edit of an uplink of 255 bytes", edit255);
    printf("%-44s %9.1f\n", "an uplink of 14 bytes read and validated", valid14);
    printf("%-44s %9.1f\n", "an uplink of 255 bytes read and validated", valid255);
    printf("%-44s %9.1f\n", "a new record, in a full cache of 64", fresh);
    printf("%-44s %9.1f\n", "a hit there, the newest record", newest);
    printf("%-44s %9.1f\n", "a hit there, the oldest record", oldest);

    beside_limit();

    stacks();
    return words[0] == NULL;
}
