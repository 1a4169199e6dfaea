/* Every exported function of mesh.h at its limits, with lengths and places that do not fit, and the functions on structs with null for every
 * slice. The answers are 0 and refusals' numbers, and what a refused call was lent is as it was. Each thing that is lent lies in an allocation of its own and of exactly its size, so that valgrind, or
 * AddressSanitizer where the library is built with it, sees a byte read or written beside it. Prints `N checks passed`, or what failed. */
#include <inttypes.h>
#include <stdio.h>
#include <stdlib.h>
#include <string.h>

#include "mesh.h"

#define BEFORE 0xa5

static unsigned long checks;

#define CHECK(truth)                                                                                                                         \
    do {                                                                                                                                     \
        checks++;                                                                                                                            \
        if (!(truth)) {                                                                                                                      \
            fprintf(stderr, "%s:%d: %s\n", __FILE__, __LINE__, #truth);                                                                      \
            exit(1);                                                                                                                         \
        }                                                                                                                                    \
    } while (0)

#define COUNT(list) (sizeof(list) / sizeof *(list))

/* ---- what is lent */

static void *room(size_t n) {
    void *b = malloc(n);
    if (!b) {
        fprintf(stderr, "no memory, or none of no bytes\n");
        exit(2);
    }
    memset(b, BEFORE, n);
    return b;
}

static void *copy(const void *from, size_t n) {
    void *b = room(n);
    if (n) memcpy(b, from, n);
    return b;
}

static bool untouched(const void *b, size_t n) {
    for (size_t i = 0; i < n; i++)
        if (((const uint8_t *)b)[i] != BEFORE) return false;
    return true;
}

/* Gives back what was lent to be read, which no call changes. */
static void back(void *lent, const void *from, size_t n) {
    CHECK(n == 0 || memcmp(lent, from, n) == 0);
    free(lent);
}

/* Bytes with this first one. The caller frees them. */
static uint8_t *bytes(uint8_t first, size_t n) {
    uint8_t *b = room(n);
    for (size_t i = 0; i < n; i++) b[i] = (uint8_t)(i * 7 + 1);
    if (n) b[0] = first;
    return b;
}

static const uint8_t KEY[16] = {0, 1, 2, 3, 4, 5, 6, 7, 8, 9, 10, 11, 12, 13, 14, 15};

static mesh_packet good(uint8_t kind) {
    mesh_packet p;
    memset(&p, 0, sizeof p);
    p.kind = kind;
    p.payload_type = kind == MESH_LORA ? 0 : kind;
    p.hop_count = 1;
    p.has_mic = true;
    p.mic = 0x01020304;
    p.relay_id = 0x0a0b0c0d;
    p.uplink_id = 291;
    p.dr = 5;
    p.rssi = -80;
    p.snr = 7;
    p.channel = 2;
    p.frequency = 868100000;
    p.tx_power = 3;
    p.delay = 1;
    p.timestamp = 60;
    return p;
}

static mesh_packet at(uint8_t kind, uint8_t content, uint64_t start, uint64_t len) {
    mesh_packet p = good(kind);
    p.content = content;
    p.start = start;
    p.len = len;
    return p;
}

/* Places and lengths outside any slice. A run of no bytes is empty wherever it stands. */
static const uint64_t FAR[][2] = {{0, UINT64_MAX}, {UINT64_MAX, 1}, {UINT64_MAX, UINT64_MAX}, {1, UINT64_MAX}, {1ull << 63, 1ull << 63}};

static mesh_lent lend(const mesh_lent *l) {
    mesh_lent c = *l;
    c.frame = copy(l->frame, l->frame_len);
    c.work = copy(l->work, l->work_len);
    c.kinds = copy(l->kinds, l->kinds_len * sizeof *l->kinds);
    c.spans = copy(l->spans, l->spans_len * sizeof *l->spans);
    c.ids = copy(l->ids, l->ids_len * sizeof *l->ids);
    c.rssis = copy(l->rssis, l->rssis_len * sizeof *l->rssis);
    c.snrs = copy(l->snrs, l->snrs_len);
    return c;
}

static void take_back(const mesh_lent *c, const mesh_lent *l) {
    back((void *)c->frame, l->frame, l->frame_len);
    back((void *)c->work, l->work, l->work_len);
    back((void *)c->kinds, l->kinds, l->kinds_len * sizeof *l->kinds);
    back((void *)c->spans, l->spans, l->spans_len * sizeof *l->spans);
    back((void *)c->ids, l->ids, l->ids_len * sizeof *l->ids);
    back((void *)c->rssis, l->rssis, l->rssis_len * sizeof *l->rssis);
    back((void *)c->snrs, l->snrs, l->snrs_len);
}

static const mesh_lent NONE;

/* A packet's numbers, in their own allocation, and what a call is to have left of them. */
#define NUMBERS (MESH_PACKET_NUMBERS * sizeof(uint64_t))

static uint64_t *numbers_of(const mesh_packet *p) { return copy(p, NUMBERS); }

static void left(uint64_t *numbers, const mesh_packet *p) { back(numbers, p, NUMBERS); }

/* ---- the calls; each gives the number */

static mesh_packet read_as;

enum reader { ANY, MESH, BODY };

static uint8_t do_read(enum reader reader, uint8_t kind, const uint8_t *b, size_t n) {
    uint8_t *frame = copy(b, n);
    uint64_t *numbers = room(NUMBERS);
    int16_t *rssi = room(sizeof *rssi);
    int8_t *snr = room(sizeof *snr);
    uint8_t r = reader == ANY    ? mesh_read(frame, n, numbers, rssi, snr)
                : reader == MESH ? mesh_read_mesh(frame, n, numbers, rssi, snr)
                                 : mesh_read_body(kind, frame, n, numbers, rssi, snr);
    if (r) {
        CHECK(untouched(numbers, NUMBERS) && untouched(rssi, sizeof *rssi) && untouched(snr, sizeof *snr));
    } else {
        memcpy(&read_as, numbers, NUMBERS);
        read_as.rssi = *rssi;
        read_as.snr = *snr;
    }
    back(frame, b, n);
    free(numbers);
    free(rssi);
    free(snr);
    return r;
}

static uint8_t written[9000];
static uint64_t written_length;

/* After a call that writes n bytes or is refused. */
static void wrote(uint8_t r, uint8_t *out, size_t out_len, uint64_t *length) {
    if (r) {
        CHECK(untouched(out, out_len) && untouched(length, sizeof *length));
    } else {
        CHECK(*length <= out_len && *length <= sizeof written);
        CHECK(untouched(out + *length, out_len - *length));
        memcpy(written, out, *length);
        written_length = *length;
    }
    free(out);
    free(length);
}

static uint8_t do_write(bool body, const mesh_packet *p, const mesh_lent *l, size_t out_len) {
    mesh_lent c = lend(l);
    uint8_t *out = room(out_len);
    uint64_t *length = room(sizeof *length);
    uint64_t *numbers = numbers_of(p);
    uint8_t r = body ? mesh_write_body(numbers, p->rssi, p->snr, MESH_LENT_OF(&c), out, out_len, length)
                     : mesh_write(numbers, p->rssi, p->snr, MESH_LENT_OF(&c), out, out_len, length);
    wrote(r, out, out_len, length);
    left(numbers, p);
    take_back(&c, l);
    return r;
}

static uint64_t mic_made;

static uint8_t do_sign(const mesh_packet *p, const mesh_lent *l) {
    mesh_lent c = lend(l);
    uint8_t *key = copy(KEY, 16);
    mesh_packet after = *p;
    uint64_t *numbers = numbers_of(p);
    uint8_t r = mesh_sign(numbers, p->rssi, p->snr, key, MESH_LENT_OF(&c));
    if (r == 0) {
        memcpy(&after, numbers, NUMBERS);
        mic_made = after.mic;
        CHECK(mic_made <= UINT32_MAX);
        /* No other number changes. */
        after = *p;
        after.has_mic = 1;
        after.mic = mic_made;
    }
    left(numbers, &after);
    back(key, KEY, 16);
    take_back(&c, l);
    return r;
}

static uint8_t was_valid;

static uint8_t do_validate(const mesh_packet *p, const mesh_lent *l) {
    mesh_lent c = lend(l);
    uint8_t *key = copy(KEY, 16);
    uint8_t *valid = room(1);
    uint64_t *numbers = numbers_of(p);
    uint8_t r = mesh_validate(numbers, p->rssi, p->snr, key, MESH_LENT_OF(&c), valid);
    left(numbers, p);
    if (r) CHECK(*valid == BEFORE);
    was_valid = *valid;
    back(key, KEY, 16);
    free(valid);
    take_back(&c, l);
    return r;
}

static uint64_t place_after[3], counts_after[MESH_COUNTS_NUMBERS];

/* After a call that sets where the payload lies, and no other number, or is refused. */
static void placed(uint8_t r, uint64_t *numbers, const mesh_packet *p) {
    mesh_packet after = *p;
    if (r == 0) {
        memcpy(&after, numbers, NUMBERS);
        const uint64_t place[3] = {after.content, after.start, after.len};
        memcpy(place_after, place, sizeof place);
        after = *p;
        after.content = place[0];
        after.start = place[1];
        after.len = place[2];
    }
    left(numbers, &after);
}

static uint8_t do_seal(const mesh_packet *p, const mesh_lent *l, size_t out_len) {
    mesh_lent c = lend(l);
    uint8_t *key = copy(KEY, 16);
    uint8_t *out = room(out_len);
    uint64_t *numbers = numbers_of(p);
    uint8_t r = mesh_seal(numbers, key, MESH_LENT_OF(&c), out, out_len);
    placed(r, numbers, p);
    if (r == 0 && place_after[0] == MESH_SEALED) {
        CHECK(place_after[1] == 0 && place_after[2] <= out_len && untouched(out + place_after[2], out_len - place_after[2]));
        memcpy(written, out, place_after[2]);
    } else {
        CHECK(untouched(out, out_len));
    }
    back(key, KEY, 16);
    free(out);
    take_back(&c, l);
    return r;
}

static uint8_t do_decrypt(const mesh_packet *p, const uint8_t *b, size_t n, const uint8_t *held, size_t work_len) {
    uint8_t *frame = copy(b, n), *key = copy(KEY, 16);
    uint8_t *work = held ? copy(held, work_len) : room(work_len);
    uint64_t *counts = room(sizeof counts_after), *numbers = numbers_of(p);
    uint8_t r = mesh_decrypt(numbers, key, frame, n, work, work_len, counts);
    placed(r, numbers, p);
    if (r) {
        CHECK(untouched(counts, sizeof counts_after) && (held ? memcmp(work, held, work_len) == 0 : untouched(work, work_len)));
    } else {
        memcpy(counts_after, counts, sizeof counts_after);
        if (place_after[0] == MESH_OPEN_IN_WORK) {
            const uint64_t len = place_after[2];
            CHECK(place_after[1] == 0 && len <= work_len && (held || untouched(work + len, work_len - len)));
            memcpy(written, work, len);
        }
    }
    back(frame, b, n);
    back(key, KEY, 16);
    free(work);
    free(counts);
    return r;
}

static uint8_t do_decode(const mesh_packet *p, const uint8_t *b, size_t n, const uint8_t *w, size_t w_len) {
    uint8_t *frame = copy(b, n), *work = copy(w, w_len);
    uint64_t *counts = room(sizeof counts_after), *numbers = numbers_of(p);
    uint8_t r = mesh_decode(numbers, frame, n, work, w_len, counts);
    placed(r, numbers, p);
    if (r)
        CHECK(untouched(counts, sizeof counts_after));
    else
        memcpy(counts_after, counts, sizeof counts_after);
    back(frame, b, n);
    back(work, w, w_len);
    free(counts);
    return r;
}

static uint8_t do_hops(uint8_t *b, size_t n, uint8_t hop_count) {
    uint8_t *frame = copy(b, n), *key = copy(KEY, 16);
    uint8_t r = mesh_set_hop_count(key, frame, n, hop_count);
    if (r)
        CHECK(n == 0 || memcmp(frame, b, n) == 0);
    else
        memcpy(b, frame, n);
    back(key, KEY, 16);
    free(frame);
    return r;
}

static uint64_t item_found[MESH_ITEM_NUMBERS];

static uint8_t do_item(bool is_event, const uint8_t *b, size_t n, uint64_t place) {
    uint8_t *payload = copy(b, n);
    uint64_t *item = room(sizeof item_found);
    uint8_t r = mesh_item(is_event, payload, n, place, item);
    if (r)
        CHECK(untouched(item, sizeof item_found));
    else
        memcpy(item_found, item, sizeof item_found);
    back(payload, b, n);
    free(item);
    return r;
}

static bool found(uint64_t what, uint64_t kind, uint64_t tag, uint64_t start, uint64_t len, uint64_t next) {
    const uint64_t item[MESH_ITEM_NUMBERS] = {what, kind, tag, start, len, next};
    return memcmp(item, item_found, sizeof item) == 0;
}

static uint8_t do_count(bool is_event, const uint8_t *b, size_t n) {
    uint8_t *payload = copy(b, n);
    uint64_t *counts = room(sizeof counts_after);
    uint8_t r = mesh_count(is_event, payload, n, counts);
    if (r)
        CHECK(untouched(counts, sizeof counts_after));
    else
        memcpy(counts_after, counts, sizeof counts_after);
    back(payload, b, n);
    free(counts);
    return r;
}

static bool counted(uint64_t kept, uint64_t skipped, uint64_t kept_bytes, uint64_t skipped_bytes, uint64_t cut_bytes, uint64_t clean) {
    const uint64_t counts[MESH_COUNTS_NUMBERS] = {kept, skipped, kept_bytes, skipped_bytes, cut_bytes, clean};
    return memcmp(counts, counts_after, sizeof counts) == 0;
}

static uint8_t do_stream(bool is_command, const uint8_t *b, size_t n, size_t out_len) {
    uint8_t *payload = copy(b, n), *key = copy(KEY, 16), *out = room(out_len);
    uint64_t *length = room(sizeof *length);
    uint8_t r = mesh_stream(key, is_command, 0x0a0b0c0d, 60, payload, n, out, out_len);
    if (r == 0) *length = n;
    wrote(r, out, out_len, length);
    back(payload, b, n);
    back(key, KEY, 16);
    return r;
}

/* ---- reading */

static void reading(void) {
    static const uint8_t firsts[] = {0x40, 0xe0, 0xe8, 0xf0, 0xf8};
    static const size_t least[] = {0, 14, 15, 13, 13}, start[] = {0, 10, 11, 9, 9};
    for (size_t i = 0; i < COUNT(firsts); i++) {
        uint8_t *b = bytes(firsts[i], 8193);
        CHECK(do_read(ANY, 0, b, 0) == 1 && do_read(MESH, 0, b, 0) == 1);
        CHECK(do_read(ANY, 0, b, 8193) == 5 && do_read(MESH, 0, b, 8193) == 5);
        CHECK(do_read(ANY, 0, b, 8192) == 0 && do_read(MESH, 0, b, 8192) == (i ? 0 : 3));
        for (size_t n = 1; n < 5; n++) CHECK(do_read(ANY, 0, b, n) == (i ? 2 : 0) && do_read(MESH, 0, b, n) == 2);
        if (i == 0) {
            CHECK(read_as.kind == MESH_LORA && read_as.start == 0 && read_as.len == 4);
        } else {
            for (size_t n = 5; n < least[i]; n++) CHECK(do_read(ANY, 0, b, n) == 4 && do_read(MESH, 0, b, n) == 4);
            CHECK(do_read(MESH, 0, b, least[i]) == 0 && read_as.kind == i - 1 && read_as.hop_count == 1 && read_as.len == 0);
            CHECK(do_read(ANY, 0, b, 8192) == 0 && read_as.start == start[i] && read_as.len == 8192 - least[i]);
            const uint8_t kind = (uint8_t)(i - 1);
            for (size_t n = 0; n < least[i] - 5; n++) CHECK(do_read(BODY, kind, b, n) == 4);
            CHECK(do_read(BODY, kind, b, least[i] - 5) == 0 && do_read(BODY, kind, b, 8187) == 0);
            CHECK(read_as.hop_count == 0 && read_as.has_mic == 0 && read_as.len == 8192 - least[i]);
            CHECK(do_read(BODY, kind, b, 8188) == 5);
        }
        for (unsigned kind = 4; kind < 256; kind++) CHECK(do_read(BODY, (uint8_t)kind, b, kind % 2 ? 0 : 8188) == 29);
        free(b);
    }
}

/* ---- writing */

/* What all calls that lay a packet out answer of one with this fault, with and without the faults that come before it. */
static void fault(uint8_t number, mesh_packet p, const mesh_lent *l) {
    CHECK(do_write(false, &p, l, 0) == number && do_write(true, &p, l, 0) == number);
    CHECK(do_sign(&p, l) == number && do_validate(&p, l) == number);
    p.odd = UINT64_MAX;
    CHECK(do_write(false, &p, l, 0) == number && do_write(true, &p, l, 0) == number && do_sign(&p, l) == number && do_validate(&p, l) == number);
    p.has_mic = false;
    CHECK(do_write(false, &p, l, 0) == (number == 5 ? 27 : number) && do_sign(&p, l) == number && do_validate(&p, l) == 27);
    p.has_mic = true;
    p.hop_count = 0;
    CHECK(do_write(false, &p, l, 0) == 6 && do_write(true, &p, l, 0) == number && do_sign(&p, l) == 6 && do_validate(&p, l) == 6);
    p.hop_count = 9;
    CHECK(do_write(false, &p, l, 0) == 7 && do_write(true, &p, l, 0) == number && do_sign(&p, l) == 7 && do_validate(&p, l) == 7);
    p.payload_type = 4;
    CHECK(do_write(false, &p, l, 0) == 29 && do_write(true, &p, l, 0) == 29 && do_sign(&p, l) == 29 && do_validate(&p, l) == 29);
    p.payload_type = 0;
    p.kind = 5;
    CHECK(do_write(false, &p, l, 0) == 29 && do_write(true, &p, l, 0) == 29 && do_sign(&p, l) == 29 && do_validate(&p, l) == 29);
}

static void writing(void) {
    const uint8_t three[3] = {1, 2, 3};
    const mesh_lent l = mesh_lent_frame(three, 3);
    mesh_packet p;
#define FAULT(number, kind, change)                                                                                                          \
    do {                                                                                                                                     \
        p = good(kind);                                                                                                                      \
        change;                                                                                                                              \
        fault(number, p, &l);                                                                                                                \
    } while (0)
    FAULT(8, MESH_UPLINK, (p.uplink_id = 4096, p.dr = 16));
    FAULT(9, MESH_UPLINK, (p.dr = 16, p.rssi = 1));
    FAULT(10, MESH_UPLINK, (p.rssi = 1, p.snr = -33));
    FAULT(10, MESH_UPLINK, p.rssi = INT16_MAX);
    FAULT(11, MESH_UPLINK, (p.rssi = -256, p.snr = -33));
    FAULT(11, MESH_UPLINK, p.rssi = INT16_MIN);
    FAULT(12, MESH_UPLINK, p.snr = -33);
    FAULT(12, MESH_UPLINK, p.snr = INT8_MIN);
    FAULT(13, MESH_UPLINK, p.snr = 32);
    FAULT(13, MESH_UPLINK, p.snr = INT8_MAX);
    FAULT(8, MESH_DOWNLINK, (p.uplink_id = UINT16_MAX, p.dr = 16));
    FAULT(9, MESH_DOWNLINK, (p.dr = UINT8_MAX, p.delay = 0));
    FAULT(14, MESH_DOWNLINK, (p.delay = 0, p.tx_power = 16));
    FAULT(15, MESH_DOWNLINK, (p.delay = 17, p.tx_power = 16));
    FAULT(16, MESH_DOWNLINK, (p.delay = 17, p.frequency = 1));
    FAULT(17, MESH_DOWNLINK, p.frequency = 1677721650);
    FAULT(17, MESH_DOWNLINK, p.frequency = UINT32_MAX);
    FAULT(18, MESH_DOWNLINK, p.frequency = 1);
    FAULT(18, MESH_DOWNLINK, p.frequency = 2400000003);
    FAULT(38, MESH_DOWNLINK, p.frequency = 1200000000);
    FAULT(38, MESH_DOWNLINK, p.frequency = 2400000001);
    for (uint8_t kind = 0; kind < 4; kind++) {
        for (size_t i = 0; i < COUNT(FAR); i++) fault(45, at(kind, MESH_SEALED, FAR[i][0], FAR[i][1]), &l);
        fault(45, at(kind, MESH_SEALED, 0, 4), &l);
        fault(45, at(kind, MESH_SEALED, 3, 1), &l);
        fault(45, at(kind, MESH_SEALED, 4, 1), &l);
        fault(45, at(kind, MESH_SEALED, 0, 1), &NONE);
        p = at(kind, MESH_SEALED, UINT64_MAX, 0);
        CHECK(do_write(false, &p, &NONE, 15) == 0 && written_length == (kind == 0 ? 14u : kind == 1 ? 15u : 13u));
        CHECK(do_write(false, &p, &NONE, written_length - 1) == 21);
        for (uint8_t hops = 1; hops <= 8; hops++) {
            p.hop_count = hops;
            CHECK(do_write(false, &p, &l, 20) == 0 && written[0] == (0xe0 | kind << 3 | (hops - 1)));
        }
        /* 8,192 bytes and one more. */
        uint8_t *b = bytes(9, 8200);
        const mesh_lent big = mesh_lent_frame(b, 8200);
        const uint64_t most = 8192 - (kind == 0 ? 14u : kind == 1 ? 15u : 13u);
        fault(5, at(kind, MESH_SEALED, 1, most + 1), &big);
        p = at(kind, MESH_SEALED, 1, most + 1);
        p.frequency = 1200000000;
        fault(kind == MESH_DOWNLINK ? 38 : 5, p, &big);
        p = at(kind, MESH_SEALED, 1, most);
        CHECK(do_write(false, &p, &big, 8191) == 21 && do_write(true, &p, &big, 8186) == 21);
        CHECK(do_write(false, &p, &big, 8192) == 0 && written_length == 8192);
        CHECK(memcmp(written + 8188 - most, b + 1, most) == 0 && memcmp(written + 8188, "\1\2\3\4", 4) == 0);
        CHECK(do_write(true, &p, &big, 8200) == 0 && written_length == 8187);
        CHECK(do_sign(&p, &big) == 0);
        p.mic = mic_made;
        CHECK(do_validate(&p, &big) == 0 && was_valid == 1);
        p.mic ^= 1;
        CHECK(do_validate(&p, &big) == 0 && was_valid == 0);
        free(b);
    }
    /* LoRa frames are written, and nothing else is done with them. */
    for (size_t i = 0; i < COUNT(FAR); i++) {
        p = at(MESH_LORA, 0, FAR[i][0], FAR[i][1]);
        CHECK(do_write(false, &p, &l, 9) == 45);
    }
    p = at(MESH_LORA, 0, 0, 3);
    CHECK(do_write(false, &p, &l, 2) == 21 && do_write(false, &p, &l, 3) == 0 && written_length == 3);
    CHECK(do_write(true, &p, &l, 9) == 29 && do_sign(&p, &l) == 29 && do_validate(&p, &l) == 29);
    p.len = 0;
    CHECK(do_write(false, &p, &NONE, 0) == 0 && written_length == 0);
    uint8_t *b = bytes(0x40, 8193);
    const mesh_lent big = mesh_lent_frame(b, 8193);
    p = at(MESH_LORA, 0, 0, 8193);
    CHECK(do_write(false, &p, &big, 9000) == 5);
    p.len = 8192;
    CHECK(do_write(false, &p, &big, 8191) == 21 && do_write(false, &p, &big, 8192) == 0 && written_length == 8192);
    free(b);
}

static uint8_t value[300];
static uint32_t ids[50];
static int16_t rssis[50];
static int8_t snrs[50];

/* The number that every call gives of these items; 0 with the payload in written. */
static uint8_t compose(uint8_t kind, const uint8_t (*kinds)[2], size_t kinds_len, const uint32_t (*spans)[2], size_t spans_len, uint64_t count) {
    const mesh_lent l = {NULL, 0, value, 300, kinds, kinds_len, spans, spans_len, ids, 50, rssis, 50, snrs, 50};
    mesh_packet p = at(kind, MESH_ITEMS, UINT64_MAX, count);
    const uint8_t r = do_write(false, &p, &l, 8192);
    const uint64_t length = written_length;
    CHECK(do_sign(&p, &l) == r && do_validate(&p, &l) == r && do_seal(&p, &l, 8192) == r && do_write(true, &p, &l, 8187) == r);
    CHECK(r || (place_after[2] == length - 13 && written_length == length - 5));
    if (r == 0) {
        CHECK(length == 13 || do_seal(&p, &l, length - 14) == 21);
        CHECK(do_seal(&p, &l, length - 13) == 0 && do_write(true, &p, &l, length - 6) == 21);
    }
    CHECK(do_write(false, &p, &l, 8192) == r);
    return r;
}

static uint8_t compose_one(uint8_t kind, uint8_t item_kind, uint8_t tag, uint32_t place, uint32_t len) {
    const uint8_t kinds[1][2] = {{item_kind, tag}};
    const uint32_t spans[1][2] = {{place, len}};
    return compose(kind, kinds, 1, spans, 1, 1);
}

static void composing(void) {
    for (size_t i = 0; i < 300; i++) value[i] = (uint8_t)i;
    for (size_t i = 0; i < 50; i++) {
        ids[i] = (uint32_t)i;
        rssis[i] = -1;
        snrs[i] = -1;
    }
    uint8_t kinds[32][2];
    for (size_t i = 0; i < 32; i++) {
        kinds[i][0] = MESH_ITEM_PROPRIETARY;
        kinds[i][1] = 1;
    }
    uint32_t spans[32][2] = {{0, 256}, {301, 1}};
    static const uint64_t counts[] = {1, 2, UINT64_MAX};
    for (size_t i = 0; i < COUNT(counts); i++) {
        CHECK(compose(MESH_EVENT, kinds, 0, spans, 0, counts[i]) == 45);
        CHECK(compose(MESH_EVENT, kinds, 2, spans, 0, counts[i]) == 45);
        CHECK(compose(MESH_COMMAND, kinds, 0, spans, 2, counts[i]) == 45);
    }
    CHECK(compose(MESH_EVENT, kinds, 2, spans, 2, 0) == 0 && written_length == 13);
    CHECK(compose(MESH_EVENT, kinds, 2, spans, 2, 2) == 45 && compose(MESH_EVENT, kinds, 2, spans, 2, 1) == 19);
    static const uint32_t outside[][2] = {{301, 1}, {300, 1}, {0, 301}, {UINT32_MAX, 1}, {1, UINT32_MAX}, {UINT32_MAX, UINT32_MAX}};
    for (size_t i = 0; i < COUNT(outside); i++)
        for (uint8_t item_kind = MESH_ITEM_HEARTBEAT; item_kind <= MESH_ITEM_PATH; item_kind++)
            for (uint8_t kind = MESH_EVENT; kind <= MESH_COMMAND; kind++)
                CHECK(compose_one(kind, item_kind, 1, outside[i][0], outside[i][1]) ==
                      (kind == MESH_COMMAND && item_kind != MESH_ITEM_PROPRIETARY ? 29 : 45));
    for (uint8_t kind = MESH_EVENT; kind <= MESH_COMMAND; kind++) {
        const uint8_t any = MESH_ITEM_PROPRIETARY;
        CHECK(compose_one(kind, any, 1, 0, 256) == 19);
        CHECK(compose_one(kind, any, 1, 45, 255) == 0 && written_length == 270 && memcmp(written + 11, value + 45, 255) == 0);
        CHECK(compose_one(kind, any, 1, 300, 0) == 0 && written_length == 15);
        CHECK(compose_one(kind, any, 1, UINT32_MAX, 0) == 0 && written_length == 15);
        CHECK(compose_one(kind, any, 0, 0, 5) == (kind == MESH_EVENT ? 20 : 0));
        CHECK(compose_one(kind, any, 0, 0, 6) == 0);
    }
    /* A heartbeat in bytes, and a path, have tag 0 whatever stands beside them. */
    CHECK(compose_one(MESH_EVENT, MESH_ITEM_HEARTBEAT, 9, 0, 5) == 20 && compose_one(MESH_EVENT, MESH_ITEM_HEARTBEAT, 9, 0, 258) == 19);
    CHECK(compose_one(MESH_EVENT, MESH_ITEM_HEARTBEAT, 9, 250, 6) == 0 && written_length == 21 && memcmp(written + 9, "\0\6\372\373\374\375\376\77", 8) == 0);
    CHECK(compose_one(MESH_EVENT, MESH_ITEM_PATH, 9, 0, 43) == 19 && compose_one(MESH_EVENT, MESH_ITEM_PATH, 9, 9, 42) == 45);
    CHECK(compose_one(MESH_EVENT, MESH_ITEM_PATH, 9, 8, 42) == 0 && written_length == 267 && memcmp(written + 9, "\0\374\0\0\0\10\1\77", 8) == 0);
    CHECK(compose_one(MESH_EVENT, MESH_ITEM_PATH, 9, 50, 0) == 0 && written_length == 15);

    /* The three lists of a path reach as far as the shortest. */
    const uint8_t path[1][2] = {{MESH_ITEM_PATH, 0}};
    const uint32_t two[1][2] = {{0, 2}}, one[1][2] = {{0, 1}};
    for (size_t i = 0; i < 3; i++) {
        mesh_lent l = {NULL, 0, NULL, 0, path, 1, two, 1, ids, i == 0 ? 1 : 9, rssis, i == 1 ? 1 : 9, snrs, i == 2 ? 1 : 9};
        mesh_packet p = at(MESH_EVENT, MESH_ITEMS, 0, 1);
        CHECK(do_write(false, &p, &l, 99) == 45);
        l.spans = one;
        CHECK(do_write(false, &p, &l, 99) == 0 && written_length == 21);
    }
    static const int16_t bad_rssi[] = {1, -256, 0, 0};
    static const int8_t bad_snr[] = {32, 32, -33, 32};
    for (uint8_t i = 0; i < 4; i++) {
        rssis[49] = bad_rssi[i];
        snrs[49] = bad_snr[i];
        CHECK(compose_one(MESH_EVENT, MESH_ITEM_PATH, 0, 0, 50) == 10 + i && compose_one(MESH_EVENT, MESH_ITEM_PATH, 0, 49, 1) == 10 + i);
        CHECK(compose_one(MESH_EVENT, MESH_ITEM_PATH, 0, 0, 49) == 19);
    }

    /* 31 items of 257 bytes and one of 212 are 8,179. */
    for (size_t i = 0; i < 32; i++) {
        spans[i][0] = 0;
        spans[i][1] = i < 31 ? 255 : 210;
    }
    CHECK(compose(MESH_COMMAND, kinds, 32, spans, 32, 32) == 0 && written_length == 8192);
    spans[31][1] = 211;
    CHECK(compose(MESH_COMMAND, kinds, 32, spans, 32, 32) == 5);
    CHECK(compose(MESH_COMMAND, kinds, 32, spans, 31, 32) == 45);
}

/* What every call answers of a packet that has a code which is none: 29, before 6 and 7, 27, 45 and 21. */
static void none(mesh_packet p, const mesh_lent *l) {
    static const uint8_t hop_counts[] = {0, 1, 9};
    for (size_t i = 0; i < COUNT(hop_counts); i++)
        for (unsigned mic = 0; mic < 2; mic++) {
            p.hop_count = hop_counts[i];
            p.has_mic = mic;
            CHECK(do_write(false, &p, l, 0) == 29 && do_write(true, &p, l, 0) == 29 && do_seal(&p, l, 0) == 29);
            CHECK(do_sign(&p, l) == 29 && do_validate(&p, l) == 29);
        }
}

/* Numbers that are wider than 32 bits. The first ones' low bits are good ones. */
static const uint64_t WIDE[] = {1ull << 32, (1ull << 32) + 1, 1ull << 63, UINT64_MAX};

/* Numbers of odd bits: those that are read, 0 aside, and others, whose low bits are such. */
static const uint64_t ODD[] = {1, 2, 3, 4, 5, 64, 255, 256, 257, 259, 65537, 1ull << 32, (1ull << 32) + 1, (1ull << 32) + 3, 1ull << 63, UINT64_MAX};

/* That every call answers the same of two packets, and what it leaves is the same. */
static void alike(const mesh_packet *p, const mesh_packet *q, const mesh_lent *l) {
    const mesh_packet *const both[2] = {p, q};
    uint8_t r[2][8], bytes_of[2][3][99];
    uint64_t made[2][5];
    memset(bytes_of, 0, sizeof bytes_of);
    memset(made, 0, sizeof made);
    for (size_t i = 0; i < 2; i++) {
        for (size_t body = 0; body < 2; body++) {
            r[i][body] = do_write(body, both[i], l, 99);
            if (r[i][body]) continue;
            made[i][body] = written_length;
            memcpy(bytes_of[i][body], written, written_length);
        }
        r[i][2] = do_sign(both[i], l);
        if (r[i][2] == 0) made[i][2] = mic_made;
        r[i][3] = do_validate(both[i], l);
        if (r[i][3] == 0) made[i][3] = was_valid;
        r[i][4] = do_seal(both[i], l, 99);
        if (r[i][4] == 0) made[i][4] = place_after[2];
        if (r[i][4] == 0 && place_after[0] == MESH_SEALED) memcpy(bytes_of[i][2], written, place_after[2]);
        r[i][5] = do_decrypt(both[i], l->frame, l->frame_len, NULL, 99);
        r[i][6] = do_decode(both[i], l->frame, l->frame_len, NULL, 0);
        mesh_record_of known;
        r[i][7] = mesh_packet_record(both[i], &known);
    }
    CHECK(memcmp(r[0], r[1], sizeof r[0]) == 0 && memcmp(made[0], made[1], sizeof made[0]) == 0);
    CHECK(memcmp(bytes_of[0], bytes_of[1], sizeof bytes_of[0]) == 0);
}

/* A number that is wider than its field: refused with 29 before all else where nothing else refuses it, and otherwise as the field's largest. */
static void widths(void) {
    const mesh_lent l = mesh_lent_frame((const uint8_t *)"\1\2\3", 3);
#define LARGEST(field, most)                                                                                                                 \
    do {                                                                                                                                     \
        mesh_packet q = p, w = p;                                                                                                            \
        q.field = most;                                                                                                                      \
        for (size_t k = 0; k < COUNT(WIDE); k++) {                                                                                           \
            w.field = WIDE[k];                                                                                                               \
            alike(&q, &w, &l);                                                                                                               \
        }                                                                                                                                    \
        w.field = (uint64_t)most + 1;                                                                                                        \
        alike(&q, &w, &l);                                                                                                                   \
    } while (0)
    static const uint8_t hop_counts[] = {0, 1, 9};
    for (uint8_t kind = MESH_UPLINK; kind <= MESH_LORA; kind++)
        for (size_t i = 0; i < COUNT(hop_counts); i++) {
            mesh_packet p = at(kind, kind == MESH_EVENT || kind == MESH_COMMAND ? MESH_SEALED : 0, 0, 3);
            p.hop_count = hop_counts[i];
            p.has_mic = i;
            LARGEST(kind, UINT8_MAX);
            LARGEST(payload_type, UINT8_MAX);
            LARGEST(hop_count, UINT8_MAX);
            LARGEST(dr, UINT8_MAX);
            LARGEST(frequency, UINT32_MAX);
            LARGEST(tx_power, UINT8_MAX);
            LARGEST(delay, UINT8_MAX);
            LARGEST(content, UINT8_MAX);
            for (size_t k = 0; k <= COUNT(WIDE); k++) {
                mesh_packet none_is[5] = {p, p, p, p, p};
                none_is[0].mic = none_is[1].relay_id = none_is[2].timestamp = WIDE[k % COUNT(WIDE)];
                none_is[3].channel = k < COUNT(WIDE) ? WIDE[k] : UINT8_MAX + 1;
                none_is[4].uplink_id = k < COUNT(WIDE) ? WIDE[k] : UINT16_MAX + 1;
                for (size_t n = 0; n < COUNT(none_is); n++) {
                    none(none_is[n], &l);
                    CHECK(do_decrypt(&none_is[n], l.frame, 3, NULL, 0) == 29 && do_decode(&none_is[n], l.frame, 3, NULL, 0) == 29);
                    mesh_record_of known = {7, 7, 7, 7};
                    CHECK(mesh_packet_record(&none_is[n], &known) == 29 && known.type == 7 && known.relay_id == 7);
                }
            }
            /* A number that is none but 0 is a MIC's: 2 as 1. */
            mesh_packet q = p, w = p;
            q.has_mic = 1;
            for (size_t k = 0; k <= COUNT(WIDE); k++) {
                w.has_mic = k < COUNT(WIDE) ? WIDE[k] : 2;
                alike(&q, &w, &l);
            }
            /* Any number of odd bits is taken, and none is written. */
            q = w = p;
            for (size_t k = 0; k < COUNT(ODD); k++) {
                w.odd = ODD[k];
                alike(&q, &w, &l);
            }
        }
#undef LARGEST
    mesh_packet p = good(MESH_UPLINK);
    CHECK((p.dr = 300, do_write(false, &p, &NONE, 99)) == 9 && (p.uplink_id = 1ull << 16, do_write(false, &p, &NONE, 99)) == 29);
    p.uplink_id = 0;
    CHECK((p.hop_count = 300, do_write(false, &p, &NONE, 99)) == 7 && (p.relay_id = 1ull << 32, do_write(false, &p, &NONE, 99)) == 29);
    p = good(MESH_DOWNLINK);
    CHECK((p.frequency = 1ull << 32, do_write(false, &p, &NONE, 99)) == 17 && (p.delay = 257, do_write(false, &p, &NONE, 99)) == 16);
    CHECK((p.tx_power = 256, do_write(false, &p, &NONE, 99)) == 15 && (p.payload_type = 256, do_write(false, &p, &NONE, 99)) == 29);
    p = good(MESH_EVENT);
    CHECK((p.content = 256, do_write(false, &p, &NONE, 99)) == 29 && (p.content = 0, p.kind = 256, do_write(false, &p, &NONE, 99)) == 29);
    /* Of each number that include/mesh.table has a refusal for: a packet that has it is refused so, and any other not otherwise. */
#define WIDER(field, bits, refusal)                                                                                                          \
    do {                                                                                                                                     \
        int refused = 0;                                                                                                                     \
        for (uint8_t kind = MESH_UPLINK; kind <= MESH_COMMAND; kind++) {                                                                     \
            mesh_packet w = good(kind);                                                                                                      \
            w.field = 1ull << (bits);                                                                                                        \
            uint8_t r = do_write(false, &w, &NONE, 99);                                                                                      \
            refused += r == (refusal);                                                                                                       \
            CHECK(r == 0 || r == (refusal));                                                                                                 \
        }                                                                                                                                    \
        CHECK(refused > 0);                                                                                                                  \
    } while (0)
#define RECORD_WIDER(field, bits, refusal)                                                                                                   \
    do {                                                                                                                                     \
        mesh_cache c;                                                                                                                        \
        mesh_record_of w = {0, 0, 0, 0};                                                                                                     \
        bool is_new = false;                                                                                                                 \
        CHECK(mesh_cache_clear(c.words, 1) == 0);                                                                                            \
        w.field = 1ull << (bits);                                                                                                            \
        CHECK(mesh_cache_see(&c, &w, &is_new) == (refusal) && !is_new);                                                                      \
        CHECK((is_new = true, mesh_cache_see(&c, &w, &is_new)) == (refusal) && is_new);                                                      \
        w.field = 0;                                                                                                                         \
        CHECK(mesh_cache_see(&c, &w, &is_new) == 0 && is_new && mesh_cache_see(&c, &w, &is_new) == 0 && !is_new);                            \
    } while (0)
/* from include/mesh.table: widths */
    WIDER(kind, 8, MESH_TYPE_LARGE);
    WIDER(payload_type, 8, MESH_TYPE_LARGE);
    WIDER(hop_count, 8, MESH_HOPS_MANY);
    WIDER(mic, 32, MESH_TYPE_LARGE);
    WIDER(relay_id, 32, MESH_TYPE_LARGE);
    WIDER(uplink_id, 16, MESH_TYPE_LARGE);
    WIDER(dr, 8, MESH_DR_LARGE);
    WIDER(channel, 8, MESH_TYPE_LARGE);
    WIDER(frequency, 32, MESH_FREQUENCY_LARGE);
    WIDER(tx_power, 8, MESH_TX_POWER_LARGE);
    WIDER(delay, 8, MESH_DELAY_LARGE);
    WIDER(timestamp, 32, MESH_TYPE_LARGE);
    WIDER(content, 8, MESH_TYPE_LARGE);
    RECORD_WIDER(type, 8, MESH_TYPE_LARGE);
    RECORD_WIDER(uplink_id, 16, MESH_TYPE_LARGE);
    RECORD_WIDER(timestamp, 32, MESH_TYPE_LARGE);
    RECORD_WIDER(relay_id, 32, MESH_TYPE_LARGE);
/* end */
#undef WIDER
#undef RECORD_WIDER
    p = good(MESH_UPLINK);
    CHECK((p.has_mic = 2, do_write(false, &p, &NONE, 99)) == 0 && written_length == 14 && (p.has_mic = 0, do_write(false, &p, &NONE, 99)) == 27);
}

/* Null for each slice that has nothing, and a refusal that leaves what it would have answered. */
static void beside_null(void) {
    const uint8_t kinds[2][2] = {{MESH_ITEM_PATH, 0}, {MESH_ITEM_PROPRIETARY, 1}}, nothing[1] = {0};
    const uint32_t spans[2][2] = {{0, 2}, {0, 3}};
    for (int item = 0; item < 2; item++) {
        const bool path = item == 0;
        const mesh_lent whole = {nothing, 0, path ? nothing : value, path ? 0 : 3, &kinds[item], 1, &spans[item], 1, ids, path ? 2 : 0, rssis, path ? 2 : 0, snrs, path ? 2 : 0};
        mesh_packet p = at(MESH_EVENT, MESH_ITEMS, 0, 1);
        uint8_t want[99], got[99];
        uint64_t n = 0, m = 0;
        CHECK(mesh_packet_write(&p, &whole, want, sizeof want, &n) == 0 && n == (path ? 27u : 18u));
        for (int slice = 0; slice < 32; slice++) {
            mesh_lent l = whole;
            if (slice & 1) l.frame = NULL;
            if (slice & 2 && path) l.work = NULL;
            if (slice & 4 && !path) l.ids = NULL;
            if (slice & 8 && !path) l.rssis = NULL;
            if (slice & 16 && !path) l.snrs = NULL;
            CHECK(mesh_packet_write(&p, &l, got, sizeof got, &m) == 0 && m == n && memcmp(want, got, n) == 0);
        }
    }
    mesh_lent l = mesh_lent_frame(value, 3);
    mesh_packet p = at(MESH_UPLINK, 0, 0, 3);
    uint8_t out[99];
    uint64_t length;
    l.work_len = 40;
    CHECK(mesh_packet_write(&p, &l, out, sizeof out, &length) == 45);
    l.work_len = 0, l.ids_len = 1;
    CHECK(mesh_packet_write(&p, &l, out, sizeof out, &length) == 45);
    l.ids_len = 0;
    CHECK(mesh_packet_write(&p, &l, out, sizeof out, &length) == 0);
    const uint8_t key[16] = {0};
    bool valid = true;
    p.has_mic = 0;
    CHECK(mesh_packet_validate(&p, key, &l, &valid) == 27 && valid && (valid = false, mesh_packet_validate(&p, key, &l, &valid)) == 27 && !valid);
}

static void codes(void) {
    const uint32_t spans[2][2] = {{301, 1}, {0, 256}};
    for (uint8_t kind = MESH_EVENT; kind <= MESH_COMMAND; kind++) {
        for (unsigned item_kind = 0; item_kind < 256; item_kind++) {
            const bool is_one = item_kind == MESH_ITEM_PROPRIETARY || (kind == MESH_EVENT && item_kind >= 1 && item_kind <= 3);
            const uint8_t kinds[2][2] = {{MESH_ITEM_PROPRIETARY, 1}, {(uint8_t)item_kind, 1}};
            const mesh_lent l = {NULL, 0, value, 300, kinds, 2, spans, 2, ids, 50, rssis, 50, snrs, 50};
            mesh_packet p = at(kind, MESH_ITEMS, 0, 2);
            if (is_one) {
                CHECK(do_write(false, &p, &l, 0) == 45 && do_seal(&p, &l, 0) == 45 && do_sign(&p, &l) == 45);
            } else {
                none(p, &l);
                /* Of those that both lists have, 29, also where the content counts more; what it does not count is not looked at. */
                p.len = UINT64_MAX;
                none(p, &l);
                mesh_lent few = l;
                few.spans_len = 1;
                CHECK(do_write(false, &p, &few, 0) == 45 && do_seal(&p, &few, 0) == 45 && do_sign(&p, &few) == 45);
                p.len = 1;
                CHECK(do_write(false, &p, &l, 0) == 45);
            }
        }
        const mesh_lent l = mesh_lent_frame(value, 3);
        for (unsigned content = 5; content < 256; content++)
            for (uint64_t len = 0; len < 6; len += 3) {
                mesh_packet p = at(kind, (uint8_t)content, 1, len);
                none(p, &l);
                CHECK(do_decrypt(&p, value, 3, NULL, 0) == 29 && do_decode(&p, value, 3, NULL, 0) == 29);
                mesh_record_of known = {7, 7, 7, 7};
                CHECK(mesh_packet_record(&p, &known) == 29 && known.type == 7 && known.relay_id == 7);
            }
    }
    /* Of the others the content is not looked at. */
    const mesh_lent l = mesh_lent_frame(value, 3);
    for (uint8_t kind = MESH_UPLINK; kind <= MESH_LORA; kind++) {
        if (kind == MESH_EVENT || kind == MESH_COMMAND) continue;
        mesh_packet p = at(kind, 255, 0, 3);
        CHECK(do_write(false, &p, &l, 99) == 0 && do_write(true, &p, &l, 99) == (kind == MESH_LORA ? 29 : 0));
    }
}

/* Frame, work and key are parts of one allocation that overlap. */
static void shared(void) {
    uint8_t *b = room(40);
    for (size_t i = 0; i < 40; i++) b[i] = (uint8_t)i;
    const uint8_t kinds[2][2] = {{MESH_ITEM_PROPRIETARY, 1}, {MESH_ITEM_PROPRIETARY, 2}};
    const uint32_t spans[2][2] = {{0, 3}, {1, 3}};
    const mesh_lent l = {b + 4, 26, b + 10, 30, kinds, 2, spans, 2, NULL, 0, NULL, 0, NULL, 0};
    mesh_packet p = at(MESH_EVENT, MESH_ITEMS, 0, 2);
    uint8_t out[23], sealed[10], apart[10];
    uint64_t length;
    mesh_counts counts;
    CHECK(mesh_packet_write(&p, &l, out, sizeof out, &length) == 0 && memcmp(out + 9, "\1\3\12\13\14\2\3\13\14\15", 10) == 0);
    mesh_packet q = p;
    uint8_t *key = copy(b + 8, 16);
    CHECK(mesh_packet_sign(&p, b + 8, &l) == 0 && mesh_packet_sign(&q, key, &l) == 0 && p.mic == q.mic);
    CHECK(mesh_packet_seal(&p, b + 8, &l, sealed, 10) == 0 && mesh_packet_seal(&q, key, &l, apart, 10) == 0 && memcmp(sealed, apart, 10) == 0);
    uint8_t tag[16], again[16];
    mesh_cmac(b + 8, b, 40, tag);
    mesh_cmac(key, b, 40, again);
    CHECK(memcmp(tag, again, 16) == 0);
    p = at(MESH_EVENT, MESH_SEALED, 2, 5);
    CHECK(mesh_packet_decode(&p, b + 4, 26, b + 10, 30, &counts) == 0 && counts.cut_bytes == 5);
    free(key);
    free(b);
}

/* ---- the hop edit, sealing and opening */

static void hops(void) {
    static const uint8_t firsts[] = {0xe0, 0xe8, 0xf0, 0xf8};
    static const size_t least[] = {14, 15, 13, 13};
    uint8_t *b = bytes(0xe0, 8193);
    CHECK(do_hops(b, 8193, 0) == 5 && do_hops(b, 0, 0) == 1 && do_hops(b, 4, 0) == 2 && do_hops(b, 13, 0) == 4);
    b[0] = 0x40;
    CHECK(do_hops(b, 14, 0) == 3);
    for (size_t i = 0; i < 4; i++) {
        const size_t lengths[] = {least[i], 100, 8192};
        for (size_t k = 0; k < 3; k++) {
            b[0] = firsts[i];
            CHECK(do_hops(b, lengths[k], 0) == 6 && do_hops(b, lengths[k], 9) == 7 && do_hops(b, lengths[k], 255) == 7);
            for (uint8_t hop = 1; hop <= 8; hop++) {
                CHECK(do_hops(b, lengths[k], hop) == 0 && b[0] == (firsts[i] | (hop - 1)));
                mesh_packet p;
                const mesh_lent l = mesh_lent_frame(b, lengths[k]);
                CHECK(mesh_packet_read_mesh(&p, b, lengths[k]) == 0 && do_validate(&p, &l) == 0 && was_valid == 1);
            }
        }
    }
    free(b);
}

/* The hop edit as mesh.h's comment has it. */
static bool pass_on(uint8_t *frame, size_t n, const uint8_t key[16]) {
    mesh_packet p;
    mesh_lent lent = mesh_lent_frame(frame, n);
    bool valid = false, edited = false;
    if (mesh_packet_read_mesh(&p, frame, n) == 0 && mesh_packet_validate(&p, key, &lent, &valid) == 0 && valid)
        edited = mesh_set_hop_count(key, frame, n, (uint8_t)(p.hop_count + 1)) == 0;
    return edited;
}

/* What is valid goes on with one hop more, up to the eighth; what is forged stays as it is, and would not if it were not validated. */
static void validated(void) {
    uint8_t *b = bytes(0xe0, 20), *forged = copy(b, 20);
    CHECK(!pass_on(b, 20, KEY) && memcmp(b, forged, 20) == 0);
    CHECK(mesh_set_hop_count(KEY, b, 20, 1) == 0 && memcmp(b + 16, forged + 16, 4) != 0);
    for (uint8_t hop = 1; hop < 8; hop++) CHECK(pass_on(b, 20, KEY) && b[0] == (0xe0 | hop));
    CHECK(!pass_on(b, 20, KEY) && b[0] == 0xe7 && !pass_on(b, 13, KEY));
    free(b);
    free(forged);
}

static void sealing(void) {
    uint8_t *b = bytes(9, 8200);
    uint8_t sealed[8179];
    const mesh_lent l = {b, 8200, b, 8200, NULL, 0, NULL, 0, NULL, 0, NULL, 0, NULL, 0};
    mesh_packet p;
    for (uint8_t kind = MESH_EVENT; kind <= MESH_COMMAND; kind++) {
        for (size_t i = 0; i < COUNT(FAR) + 3; i++) {
            static const uint64_t near[][2] = {{8200, 1}, {8201, 1}, {0, 8201}};
            const uint64_t *far = i < COUNT(FAR) ? FAR[i] : near[i - COUNT(FAR)];
            p = at(kind, MESH_SEALED, far[0], far[1]);
            CHECK(do_seal(&p, &l, 0) == 45 && do_decrypt(&p, b, 8200, NULL, 0) == 45 && do_decode(&p, b, 8200, b, 8200) == 45);
            for (p.content = MESH_OPEN_IN_FRAME; p.content <= MESH_OPEN_IN_WORK; p.content++)
                CHECK(do_seal(&p, &l, 0) == 45 && do_write(false, &p, &l, 0) == 45 && do_sign(&p, &l) == 45);
            p.payload_type = 4;
            CHECK(do_seal(&p, &l, 0) == 29 && do_decrypt(&p, b, 8200, NULL, 0) == 29 && do_decode(&p, b, 8200, b, 8200) == 29);
        }
        p = at(kind, MESH_SEALED, 1, 8180);
        CHECK(do_seal(&p, &l, 9000) == 5 && do_decrypt(&p, b, 8200, NULL, 9000) == 5 && do_decode(&p, b, 8200, b, 8200) == 5);
        p.len = 8179;
        p.hop_count = 0;
        p.has_mic = false;
        CHECK(do_seal(&p, &l, 8178) == 21 && do_decrypt(&p, b, 8200, NULL, 8178) == 21);
        CHECK(do_decode(&p, b, 8200, b, 0) == 0 && place_after[0] == MESH_OPEN_IN_FRAME && place_after[1] == 1);
        uint64_t counts[MESH_COUNTS_NUMBERS];
        memcpy(counts, counts_after, sizeof counts);
        CHECK(do_seal(&p, &l, 8179) == 0 && place_after[0] == MESH_SEALED && place_after[2] == 8179);
        memcpy(sealed, written, sizeof sealed);
        mesh_packet q = at(kind, MESH_SEALED, 0, 8179);
        CHECK(do_decrypt(&q, sealed, 8179, NULL, 8179) == 0 && place_after[0] == MESH_OPEN_IN_WORK);
        CHECK(memcmp(written, b + 1, 8179) == 0 && memcmp(counts, counts_after, sizeof counts) == 0);
        CHECK(do_decrypt(&q, sealed, 8179, NULL, 8190) == 0 && do_count(kind == MESH_EVENT, b + 1, 8179) == 0);
        CHECK(memcmp(counts, counts_after, sizeof counts) == 0);
        /* One byte of everything. */
        p = at(kind, MESH_SEALED, 0, 1);
        CHECK(do_decrypt(&p, b, 1, NULL, 0) == 21 && do_decrypt(&p, b, 1, NULL, 1) == 0 && do_decrypt(&p, b, 0, NULL, 1) == 45);
    }
    /* Open already. */
    static const uint8_t items[] = {1, 0, 2, 0, 3};
    for (size_t n = 0; n <= sizeof items; n++) {
        const uint8_t number = n < 2 ? 0 : n < 4 ? 23 : 22;
        p = at(MESH_EVENT, MESH_OPEN_IN_FRAME, 0, n);
        CHECK(do_decrypt(&p, items, n, NULL, 9) == number && do_decode(&p, items, n, NULL, 0) == (number ? 255 : 0));
        p.content = MESH_OPEN_IN_WORK;
        CHECK(do_decrypt(&p, NULL, 0, items, n) == number && do_decode(&p, NULL, 0, items, n) == (number ? 255 : 0));
        p = at(MESH_COMMAND, MESH_ITEMS, 0, n / 2);
        CHECK(do_decrypt(&p, NULL, 0, NULL, 0) == number && do_decode(&p, NULL, 0, NULL, 0) == (number ? 255 : 0));
    }
    p = at(MESH_COMMAND, MESH_ITEMS, 0, UINT64_MAX);
    CHECK(do_decrypt(&p, NULL, 0, NULL, 0) == 22 && do_decode(&p, NULL, 0, NULL, 0) == 255);
    /* Nothing to do, in no room at all; a frequency that is not written is not asked. */
    for (uint8_t kind = 0; kind < 4; kind++) {
        p = good(kind);
        p.frequency = 1200000000;
        CHECK(do_seal(&p, &NONE, 0) == 0 && place_after[0] == 0 && place_after[2] == 0);
        CHECK(do_decrypt(&p, NULL, 0, NULL, 0) == 0 && counted(0, 0, 0, 0, 0, 1) && place_after[2] == 0);
        CHECK(do_decode(&p, NULL, 0, NULL, 0) == 0 && counted(0, 0, 0, 0, 0, 1) && place_after[2] == 0);
    }
    for (unsigned kind = 4; kind < 256; kind++) {
        p = good((uint8_t)kind);
        p.payload_type = 0;
        CHECK(do_seal(&p, &NONE, 0) == 29 && do_decrypt(&p, NULL, 0, NULL, 0) == 29 && do_decode(&p, NULL, 0, NULL, 0) == 29);
    }
    free(b);
}

/* ---- items, the stream and heartbeats */

static void items(void) {
    uint8_t ones[8180];
    memset(ones, 1, sizeof ones);
    CHECK(do_item(true, ones, 8180, 0) == 5 && do_item(false, ones, 8180, UINT64_MAX) == 5 && do_count(true, ones, 8180) == 5);
    CHECK(do_count(false, ones, 8179) == 0 && counted(2726, 0, 8178, 0, 1, 0));
    CHECK(do_item(true, ones, 8179, 0) == 0 && found(MESH_KEPT, 2, 1, 2, 1, 3));
    CHECK(do_item(true, ones, 8179, 8178) == 0 && found(MESH_CUT, 0, 0, 8178, 1, 8179));
    static const uint64_t far[] = {8179, 8180, UINT64_MAX, UINT64_MAX - 1, 1ull << 63};
    for (size_t i = 0; i < COUNT(far); i++) {
        CHECK(do_item(true, ones, 8179, far[i]) == 0 && found(MESH_END, 0, 0, 0, 0, 8179));
        CHECK(do_item(false, NULL, 0, far[i]) == 0 && found(MESH_END, 0, 0, 0, 0, 0));
    }
    CHECK(do_count(true, NULL, 0) == 0 && counted(0, 0, 0, 0, 0, 1));
    static const uint8_t six[] = {0, 6, 1, 2, 3, 4, 5, 6}, five[] = {0, 5, 1, 2, 3, 4, 5};
    CHECK(do_item(true, six, 8, 0) == 0 && found(MESH_KEPT, MESH_ITEM_HEARTBEAT, 0, 2, 6, 8));
    CHECK(do_item(true, five, 7, 0) == 0 && found(MESH_SKIPPED, MESH_ITEM_HEARTBEAT, 0, 2, 5, 7));
    CHECK(do_item(false, five, 7, 0) == 0 && found(MESH_KEPT, MESH_ITEM_PROPRIETARY, 0, 2, 5, 7));
    for (size_t n = 1; n < 8; n++) CHECK(do_item(true, six, n, 0) == 0 && found(MESH_CUT, 0, 0, 0, n, n));
    /* Example P11. */
    static const uint8_t p11[] = {1, 2, 0xaa, 0xbb, 0, 5, 1, 2, 3, 4, 5, 2, 0, 3, 9, 0xcc};
    CHECK(do_count(true, p11, sizeof p11) == 0 && counted(2, 1, 6, 7, 3, 0));
    CHECK(do_count(false, p11, sizeof p11) == 0 && counted(3, 0, 13, 0, 3, 0));
    /* Each byte of the longest path, as every byte: only the odd bits of an snr byte keep an event from being clean. */
    uint8_t path[254] = {0, 252};
    for (size_t i = 2; i < sizeof path; i++) {
        for (unsigned b = 0; b < 256; b++) {
            path[i] = (uint8_t)b;
            CHECK(do_count(true, path, sizeof path) == 0 && counted(1, 0, 254, 0, 0, i % 6 != 1 || b < 64));
        }
        CHECK(do_count(false, path, sizeof path) == 0 && counted(1, 0, 254, 0, 0, 1));
        path[i] = 0;
    }
    path[0] = 1;
    memset(path + 2, 0xff, sizeof path - 2);
    CHECK(do_count(true, path, sizeof path) == 0 && counted(1, 0, 254, 0, 0, 1));
}

static uint8_t do_item_write(bool is_event, uint8_t kind, uint8_t tag, const uint8_t *b, size_t n, size_t out_len) {
    uint8_t *from = copy(b, n), *out = room(out_len);
    uint64_t *length = room(sizeof *length);
    uint8_t r = mesh_item_write(is_event, kind, tag, from, n, out, out_len, length);
    wrote(r, out, out_len, length);
    back(from, b, n);
    return r;
}

static bool wrote_bytes(const void *b, size_t n) { return written_length == n && memcmp(written, b, n) == 0; }

static void items_alone(void) {
    uint8_t *b = bytes(0xff, 300);
    for (unsigned kind = 0; kind < 256; kind++) {
        const bool value_kind = kind == MESH_ITEM_PROPRIETARY, none = !value_kind && kind != MESH_ITEM_HEARTBEAT;
        CHECK(do_item_write(true, (uint8_t)kind, 1, b, 300, 0) == (none ? 29 : 19));
        CHECK(do_item_write(false, (uint8_t)kind, 1, b, 300, 0) == (value_kind ? 19 : 29));
    }
    for (int is_event = 0; is_event < 2; is_event++) {
        const uint8_t any = MESH_ITEM_PROPRIETARY;
        CHECK(do_item_write(is_event, any, 9, b, 255, 256) == 21 && do_item_write(is_event, any, 9, b, 255, 300) == 0);
        CHECK(written_length == 257 && written[0] == 9 && written[1] == 255 && memcmp(written + 2, b, 255) == 0);
        CHECK(do_item_write(is_event, any, 9, b, 256, 300) == 19 && do_item_write(is_event, any, 9, NULL, 0, 1) == 21);
        CHECK(do_item_write(is_event, any, 9, NULL, 0, 2) == 0 && wrote_bytes("\11\0", 2));
        CHECK(do_item_write(is_event, any, 0, b, 5, 9) == (is_event ? 20 : 0) && do_item_write(is_event, any, 0, b, 256, 0) == 19);
    }
    /* A heartbeat has tag 0, and its odd bits are cleared; in a command the same bytes are a value. */
    static const uint8_t six[] = {1, 2, 3, 4, 5, 0xff};
    CHECK(do_item_write(true, MESH_ITEM_HEARTBEAT, 9, six, 6, 8) == 0 && wrote_bytes("\0\6\1\2\3\4\5\77", 8));
    CHECK(do_item_write(true, MESH_ITEM_PROPRIETARY, 0, six, 6, 8) == 0 && wrote_bytes("\0\6\1\2\3\4\5\77", 8));
    CHECK(do_item_write(false, MESH_ITEM_PROPRIETARY, 0, six, 6, 8) == 0 && wrote_bytes("\0\6\1\2\3\4\5\377", 8));
    CHECK(do_item_write(true, MESH_ITEM_HEARTBEAT, 9, b, 253, 300) == 20 && do_item_write(true, MESH_ITEM_HEARTBEAT, 9, b, 252, 253) == 21);
    CHECK(do_item_write(true, MESH_ITEM_HEARTBEAT, 9, NULL, 0, 2) == 0 && wrote_bytes("\0\0", 2));
    /* What a walk stands at: a kept item as it stood, but for those bits; a skipped one and a cut tail are refused. */
    static const uint8_t many[] = {7, 2, 0xaa, 0xbb, 0, 6, 1, 2, 3, 4, 5, 0xff, 0, 5, 1, 2, 3, 4, 5, 3, 9, 0xcc};
    static const uint8_t number[] = {0, 0, 20, 29};
    uint8_t out[99];
    uint64_t length = 0;
    mesh_items it = mesh_items_begin(true, many, sizeof many);
    CHECK(mesh_items_write(&it, out, sizeof out, &length) == 29);
    for (size_t i = 0; i < COUNT(number); i++) {
        CHECK(mesh_items_next(&it) && mesh_items_write(&it, out, sizeof out, &length) == number[i]);
        if (i == 0) CHECK(length == 4 && memcmp(out, many, 4) == 0 && mesh_items_write(&it, NULL, 4, &length) == 45 && mesh_items_write(&it, NULL, 0, &length) == 21);
        if (i == 1) CHECK(length == 8 && memcmp(out, many + 4, 7) == 0 && out[7] == 0x3f);
    }
    free(b);
}

/* The loops as mesh.h's comments have them (tools/bindings looks). */

static void walked(bool is_event, const uint8_t *payload, size_t n) {
    uint64_t at = 0, item[MESH_ITEM_NUMBERS];
    while (mesh_item(is_event, payload, n, at, item) == 0 && item[0] != MESH_END) at = item[5];
    CHECK(at == n);
}

static uint8_t kept_kinds[4096][2];
static uint32_t kept_spans[4096][2];
static size_t kept_count;
static const uint8_t *kept_from;

static void keep(uint8_t kind, uint8_t tag, const uint8_t *at, size_t len) {
    kept_kinds[kept_count][0] = kind;
    kept_kinds[kept_count][1] = tag;
    kept_spans[kept_count][0] = (uint32_t)(at - kept_from);
    kept_spans[kept_count++][1] = (uint32_t)len;
}

static uint8_t keep_all(bool is_event, const uint8_t *payload, size_t n) {
    kept_from = payload;
    kept_count = 0;
    mesh_items it = mesh_items_begin(is_event, payload, n);
    while (mesh_items_next(&it))
        if (it.found == MESH_KEPT) keep(it.kind, it.tag, it.value, it.len);
    if (it.refused) return it.refused;
    return 0;
}

/* A payload walked: it ends within as many steps as it has bytes, by the place behind each and by the iterator, which say the same; the sums
 * are what mesh_count says. Its kept items, lent back as they were read, are written, sealed and signed as the open payload itself is. */
static void walk(uint8_t kind, const uint8_t *from, size_t n) {
    const bool is_event = kind == MESH_EVENT;
    uint8_t *payload = copy(from, n);
    uint64_t place = 0, items = 0, skipped = 0, kept_bytes = 0, skipped_bytes = 0, cut_bytes = 0, odd = 0;
    mesh_items it = mesh_items_begin(is_event, payload, n);
    CHECK(it.found == MESH_END && it.refused == 0);
    while (mesh_items_next(&it)) {
        CHECK(do_item(is_event, payload, n, place) == 0);
        CHECK(found(it.found, it.kind, it.tag, it.place, it.len, item_found[5]) && it.value == payload + it.place);
        CHECK(item_found[5] > place && item_found[5] <= n);
        items += it.found == MESH_KEPT;
        skipped += it.found == MESH_SKIPPED;
        for (size_t i = 5; it.found == MESH_KEPT && it.kind == MESH_ITEM_HEARTBEAT && i < it.len; i += 6) odd |= it.value[i] & 0xc0;
        *(it.found == MESH_KEPT ? &kept_bytes : it.found == MESH_SKIPPED ? &skipped_bytes : &cut_bytes) += item_found[5] - place;
        place = item_found[5];
    }
    CHECK(place == n && it.found == MESH_END && it.refused == 0 && !mesh_items_next(&it));
    CHECK(do_count(is_event, payload, n) == 0 && counted(items, skipped, kept_bytes, skipped_bytes, cut_bytes, skipped + cut_bytes + odd == 0));
    walked(is_event, payload, n);
    CHECK(keep_all(is_event, payload, n) == 0 && kept_count == items);
    const mesh_lent l = {NULL, 0, payload, n, kept_kinds, kept_count, kept_spans, kept_count, NULL, 0, NULL, 0, NULL, 0};
    const mesh_packet open = at(kind, MESH_OPEN_IN_WORK, 0, n), again = at(kind, MESH_ITEMS, 0, kept_count);
    uint8_t *first = room(8192);
    CHECK(do_write(false, &open, &l, 8192) == 0);
    const uint64_t length = written_length;
    memcpy(first, written, length);
    CHECK(length == 13 + kept_bytes && do_write(false, &again, &l, 8192) == 0 && written_length == length && memcmp(first, written, length) == 0);
    CHECK(do_seal(&open, &l, n) == 0);
    memcpy(first, written, kept_bytes);
    CHECK(do_seal(&again, &l, kept_bytes) == 0 && place_after[2] == kept_bytes && memcmp(first, written, kept_bytes) == 0);
    CHECK(do_sign(&open, &l) == 0);
    const uint64_t mic = mic_made;
    CHECK(do_sign(&again, &l) == 0 && mic_made == mic);
    free(first);
    back(payload, from, n);
}

static void walks(void) {
    static const uint8_t cut[] = {1, 1, 0xaa, 2, 9, 0};
    /* A heartbeat with odd bits, others of tag 0 and not, one that an event skips, and a cut tail. */
    static const uint8_t many[] = {0, 6, 1, 2, 3, 4, 80, 0xc7, 1, 2, 0xaa, 0xbb, 0, 5, 1, 2, 3, 4, 5, 0, 0, 255, 1, 7, 3, 9, 0xcc};
    uint8_t some[8180];
    uint32_t seed = 1;
    for (uint8_t kind = MESH_EVENT; kind <= MESH_COMMAND; kind++) {
        for (size_t n = 0; n <= sizeof cut; n++) walk(kind, cut, n);
        for (size_t n = 0; n <= sizeof many; n++) walk(kind, many, n);
        for (unsigned i = 0; i < 300; i++) {
            const size_t n = i < 296 ? i : i < 298 ? 4000 : 8179;
            for (size_t k = 0; k < n; k++) {
                seed = seed * 1664525u + 1013904223u;
                /* Many zeros and sixes, so that there are heartbeats. */
                some[k] = (seed >> 28) < 6 ? 0 : (seed >> 28) < 12 ? 6 : (uint8_t)(seed >> 16);
            }
            walk(kind, some, n);
        }
        memset(some, 0, sizeof some);
        walk(kind, some, 8179);
        CHECK(keep_all(kind == MESH_EVENT, some, 8180) == 5 && kept_count == 0);
        mesh_items it = mesh_items_begin(kind == MESH_EVENT, some, 8180);
        CHECK(!mesh_items_next(&it) && it.refused == 5 && !mesh_items_next(&it) && it.found == MESH_END);
    }
    CHECK(keep_all(true, cut, sizeof cut) == 0 && kept_count == 1 && kept_kinds[0][0] == MESH_ITEM_PROPRIETARY && kept_kinds[0][1] == 1);
    CHECK(keep_all(true, many, sizeof many) == 0 && kept_count == 4 && kept_kinds[0][0] == MESH_ITEM_HEARTBEAT && kept_kinds[0][1] == 0);
}

static void stream(void) {
    uint8_t *b = bytes(1, 8180), sealed[8179];
    CHECK(do_stream(true, b, 8180, 9000) == 5 && do_stream(true, b, 8180, 0) == 5);
    CHECK(do_stream(true, b, 8179, 8178) == 21 && do_stream(false, b, 1, 0) == 21);
    CHECK(do_stream(true, NULL, 0, 0) == 0 && do_stream(true, NULL, 0, 3) == 0);
    for (size_t n = 0; n < 70; n++) CHECK(do_stream(n % 2, b, n, n) == 0);
    CHECK(do_stream(true, b, 8179, 8190) == 0);
    memcpy(sealed, written, sizeof sealed);
    CHECK(do_stream(true, sealed, 8179, 8179) == 0 && memcmp(written, b, 8179) == 0);
    memset(b, 0, 8179);
    CHECK(do_stream(true, b, 8179, 8179) == 0);
    CHECK(memcmp(written, written + 256 * 16, 16) == 0 && memcmp(written, written + 255 * 16, 16) != 0);
    free(b);
}

static uint8_t do_heartbeat(const uint8_t *b, size_t n, uint64_t places, uint64_t expected) {
    uint8_t *v = copy(b, n);
    uint64_t *entries = room(sizeof *entries);
    uint8_t r = mesh_heartbeat(v, n, places, entries);
    CHECK(r ? untouched(entries, sizeof *entries) : *entries == expected);
    back(v, b, n);
    free(entries);
    return r;
}

/* The low six bits of an snr byte, with their sign. */
static int8_t snr_of(uint8_t b) { return (int8_t)(b % 64 < 32 ? b % 64 : b % 64 - 64); }

static uint8_t do_entry(const uint8_t *b, size_t n, uint64_t i) {
    uint8_t *v = copy(b, n), *odd = room(1);
    uint32_t *id = room(sizeof *id);
    int16_t *rssi = room(sizeof *rssi);
    int8_t *snr = room(sizeof *snr);
    uint8_t r = mesh_heartbeat_entry(v, n, i, id, rssi, snr, odd);
    if (r) {
        CHECK(untouched(id, sizeof *id) && untouched(rssi, sizeof *rssi) && untouched(snr, sizeof *snr) && untouched(odd, 1));
    } else {
        uint8_t *six = copy(b + 6 * i, 6), *odd2 = room(1);
        uint32_t *id2 = room(sizeof *id2);
        int16_t *rssi2 = room(sizeof *rssi2);
        int8_t *snr2 = room(sizeof *snr2);
        mesh_path_read(six, id2, rssi2, snr2, odd2);
        CHECK(*id == *id2 && *rssi == *rssi2 && *snr == *snr2 && *odd == *odd2);
        CHECK(*rssi == -six[4] && *snr == snr_of(six[5]) && *odd == six[5] / 64);
        back(six, b + 6 * i, 6);
        free(odd2);
        free(id2);
        free(rssi2);
        free(snr2);
    }
    back(v, b, n);
    free(odd);
    free(id);
    free(rssi);
    free(snr);
    return r;
}

static void heartbeats(void) {
    uint8_t *b = bytes(1, 300);
    CHECK(do_heartbeat(b, 256, 0, 0) == 19 && do_heartbeat(b, 258, 99, 0) == 19);
    CHECK(do_heartbeat(b, 255, 0, 0) == 20 && do_heartbeat(b, 1, 0, 0) == 20);
    CHECK(do_heartbeat(b, 252, 41, 0) == 21 && do_heartbeat(b, 6, 0, 0) == 21);
    CHECK(do_heartbeat(b, 252, 42, 42) == 0 && do_heartbeat(b, 252, UINT64_MAX, 42) == 0 && do_heartbeat(b, 0, 0, 0) == 0);
    /* Six times the last three is 2, 0 and 4 modulo 2^64. */
    static const uint64_t far[] = {2, UINT64_MAX, 0x2aaaaaaaaaaaaaab, 0x8000000000000000, 0x5555555555555556};
    for (size_t i = 0; i < COUNT(far); i++) CHECK(do_entry(b, 12, far[i]) == 45 && do_entry(b, 0, far[i]) == 45);
    CHECK(do_entry(b, 0, 0) == 45 && do_entry(b, 6, 1) == 45 && do_entry(b, 252, 42) == 45);
    for (uint64_t i = 0; i < 42; i++) CHECK(do_entry(b, 252, i) == 0);
    /* What mesh_heartbeat refuses has no entries. */
    for (size_t n = 0; n <= 300; n++)
        for (uint64_t i = 0; i < 51; i++) CHECK(do_entry(b, n, i) == (n > 255 ? 19 : n % 6 ? 20 : i < n / 6 ? 0 : 45));
    CHECK(do_entry(b, 7, UINT64_MAX) == 20 && do_entry(b, 300, UINT64_MAX) == 19);
    free(b);
}

static uint8_t do_heartbeat_write(const uint32_t *a, size_t na, const int16_t *b, size_t nb, const int8_t *c, size_t nc, size_t out_len) {
    uint32_t *x = copy(a, na * sizeof *a);
    int16_t *y = copy(b, nb * sizeof *b);
    int8_t *z = copy(c, nc);
    uint8_t *out = room(out_len);
    uint64_t *length = room(sizeof *length);
    uint8_t r = mesh_heartbeat_write(x, na, y, nb, z, nc, out, out_len, length);
    wrote(r, out, out_len, length);
    back(x, a, na * sizeof *a);
    back(y, b, nb * sizeof *b);
    back(z, c, nc);
    return r;
}

static void heartbeats_written(void) {
    uint32_t a[43];
    int16_t b[43];
    int8_t c[43];
    for (size_t i = 0; i < 43; i++) {
        a[i] = (uint32_t)i;
        b[i] = -1;
        c[i] = -1;
    }
    CHECK(do_heartbeat_write(a, 43, b, 43, c, 43, 999) == 19 && do_heartbeat_write(a, 42, b, 42, c, 42, 251) == 21);
    CHECK(do_heartbeat_write(a, 42, b, 42, c, 42, 252) == 0 && written_length == 252);
    CHECK(memcmp(written + 246, "\0\0\0\51\1\77", 6) == 0);
    CHECK(do_heartbeat_write(a, 42, b, 42, c, 42, 300) == 0 && do_heartbeat_write(a, 0, b, 0, c, 0, 0) == 0);
    static const int16_t bad_rssi[] = {1, -256, 0, 0};
    static const int8_t bad_snr[] = {32, 32, -33, 32};
    for (uint8_t i = 0; i < 4; i++) {
        b[42] = bad_rssi[i];
        c[42] = bad_snr[i];
        CHECK(do_heartbeat_write(a, 43, b, 43, c, 43, 0) == 10 + i);
    }
    /* The shortest list counts. */
    for (size_t i = 0; i < 3; i++) {
        const uint8_t r = do_heartbeat_write(a, i == 0 ? 1 : 2, b, i == 1 ? 1 : 2, c, i == 2 ? 1 : 2, 12);
        CHECK(r == 0 && written_length == 6);
    }
}

/* The same on structs. */

static uint8_t do_entries_read(const uint8_t *b, size_t n, size_t places) {
    uint8_t *v = copy(b, n);
    mesh_path_entry *list = room(places * sizeof *list), *one = room(sizeof *one);
    uint64_t *entries = room(sizeof *entries);
    const uint8_t r = mesh_path_entries_read(v, n, list, places, entries);
    const size_t count = r ? 0 : (size_t)*entries;
    CHECK(do_heartbeat(b, n, places, count) == r && (r == 0 || untouched(entries, sizeof *entries)));
    CHECK(count <= places && untouched(list + count, (places - count) * sizeof *list));
    for (size_t i = 0; i < count; i++) {
        uint32_t id;
        int16_t rssi;
        int8_t snr;
        uint8_t odd;
        CHECK(mesh_heartbeat_entry(v, n, i, &id, &rssi, &snr, &odd) == 0 && mesh_path_entry_read(v, n, i, one) == 0);
        CHECK(odd == v[6 * i + 5] / 64 && snr == snr_of(v[6 * i + 5]));
        CHECK(list[i].relay_id == id && list[i].rssi == rssi && list[i].snr == snr && list[i].odd == odd);
        CHECK(one->relay_id == id && one->rssi == rssi && one->snr == snr && one->odd == odd);
    }
    memset(one, BEFORE, sizeof *one);
    CHECK(mesh_path_entry_read(v, n, n / 6, one) == (n > 255 ? 19 : n % 6 ? 20 : 45) && untouched(one, sizeof *one));
    if (count) {
        /* Written again they are the value, but for the odd bits. */
        uint8_t *out = room(n);
        uint64_t *length = room(sizeof *length);
        CHECK(mesh_path_entries_write(list, count, out, n, length) == 0 && *length == n);
        for (size_t i = 0; i < n; i++) CHECK(out[i] == (i % 6 == 5 ? v[i] & 63 : v[i]));
        free(out);
        free(length);
    }
    back(v, b, n);
    free(list);
    free(one);
    free(entries);
    return r;
}

static uint8_t do_entries_write(const mesh_path_entry *from, size_t n, size_t out_len) {
    mesh_path_entry *list = copy(from, n * sizeof *list);
    uint8_t *out = room(out_len);
    uint64_t *length = room(sizeof *length);
    const uint8_t r = mesh_path_entries_write(list, n, out, out_len, length);
    wrote(r, out, out_len, length);
    back(list, from, n * sizeof *list);
    return r;
}

static void entries(void) {
    uint8_t *b = bytes(1, 300);
    for (size_t n = 0; n <= 300; n++)
        for (size_t places = 0; places < 52; places++) CHECK(do_entries_read(b, n, places) == (n > 255 ? 19 : n % 6 ? 20 : n / 6 > places ? 21 : 0));
    free(b);
    mesh_path_entry list[100];
    memset(list, 0, sizeof list);
    for (size_t i = 0; i < 100; i++) {
        list[i].relay_id = (uint32_t)i;
        list[i].rssi = list[i].snr = -1;
    }
    for (size_t n = 0; n <= 100; n++) CHECK(do_entries_write(list, n, 6 * n) == (n > 42 ? 19 : 0) && (n > 42 || written_length == 6 * n));
    CHECK(do_entries_write(list, 42, 251) == 21 && do_entries_write(list, 1, 0) == 21 && do_entries_write(list, 42, 300) == 0);
    CHECK(memcmp(written + 246, "\0\0\0\51\1\77", 6) == 0);
    /* Any odd bits are taken, and none are written. */
    uint8_t even[252];
    memcpy(even, written, sizeof even);
    for (unsigned odd = 0; odd < 256; odd++) {
        for (size_t i = 0; i < 100; i++) list[i].odd = (uint8_t)(odd + i);
        CHECK(do_entries_write(list, 42, 252) == 0 && wrote_bytes(even, sizeof even) && do_entries_write(list, 43, 999) == 19);
    }
    /* The first bad entry comes before all else, wherever it stands. */
    static const int16_t bad_rssi[] = {1, -256, 0, 0};
    static const int8_t bad_snr[] = {32, 32, -33, 32};
    static const size_t places[] = {0, 41, 42, 43, 44, 98};
    for (uint8_t i = 0; i < 4; i++)
        for (size_t k = 0; k < COUNT(places); k++) {
            mesh_path_entry bad[100];
            memcpy(bad, list, sizeof bad);
            bad[places[k]].rssi = bad_rssi[i];
            bad[places[k]].snr = bad_snr[i];
            bad[99].rssi = i == 0 ? -256 : 1;
            CHECK(do_entries_write(bad, 100, 0) == 10 + i && do_entries_write(bad, places[k] + 1, 600) == 10 + i);
            CHECK(do_entries_write(bad, places[k], 600) == (places[k] > 42 ? 19 : 0));
        }
}

/* ---- null

 * Every function on structs with null for each of its slices: with a length it is 45, before the library is called, and nothing is changed;
 * without one it is a slice of nothing. */

static const size_t LENGTHS[] = {1, 13, 4000, SIZE_MAX};

/* The number of every call that is lent these slices, of any packet. */
static void lacking(const mesh_lent *l, uint8_t *out, size_t out_len) {
    for (uint8_t kind = MESH_UPLINK; kind <= MESH_LORA; kind++)
        for (uint8_t content = MESH_EMPTY; content <= MESH_ITEMS; content++) {
            mesh_packet p = at(kind, content, 0, 1);
            const mesh_packet before = p;
            uint64_t length = 77;
            bool valid = true;
            CHECK(mesh_packet_write(&p, l, out, out_len, &length) == 45 && mesh_packet_write_body(&p, l, out, out_len, &length) == 45);
            CHECK(mesh_packet_seal(&p, KEY, l, out, out_len) == 45 && length == 77);
            if (out) CHECK(mesh_packet_sign(&p, KEY, l) == 45 && mesh_packet_validate(&p, KEY, l, &valid) == 45 && valid);
            CHECK(p.kind == before.kind && p.mic == before.mic && p.content == before.content && p.start == before.start && p.len == before.len);
        }
}

static void nulls(void) {
    const uint8_t kinds[1][2] = {{MESH_ITEM_PROPRIETARY, 1}};
    const uint32_t spans[1][2] = {{0, 1}};
    const mesh_lent whole = {value, 3, value, 300, kinds, 1, spans, 1, ids, 50, rssis, 50, snrs, 50};
    uint8_t *out = room(99);
    mesh_packet p;
    mesh_counts c;
    uint64_t length = 77;
    mesh_path_entry list[2];
    memset(&c, BEFORE, sizeof c);
    memset(list, BEFORE, sizeof list);
    for (size_t i = 0; i < COUNT(LENGTHS); i++) {
        const size_t n = LENGTHS[i];
        memset(&p, BEFORE, sizeof p);
        CHECK(mesh_packet_read(&p, NULL, n) == 45 && mesh_packet_read_mesh(&p, NULL, n) == 45);
        for (unsigned kind = 0; kind < 256; kind++) CHECK(mesh_packet_read_body(&p, (uint8_t)kind, NULL, n) == 45);
        CHECK(untouched(&p, sizeof p));

        mesh_lent l = whole;
        l.frame = NULL, l.frame_len = n;
        lacking(&l, out, 99);
        l = mesh_lent_frame(NULL, n);
        lacking(&l, out, 99);
        l = whole;
        l.work = NULL, l.work_len = n;
        lacking(&l, out, 99);
        l = whole;
        l.kinds = NULL, l.kinds_len = n;
        lacking(&l, out, 99);
        l = whole;
        l.spans = NULL, l.spans_len = n;
        lacking(&l, out, 99);
        l = whole;
        l.ids = NULL, l.ids_len = n;
        lacking(&l, out, 99);
        l = whole;
        l.rssis = NULL, l.rssis_len = n;
        lacking(&l, out, 99);
        l = whole;
        l.snrs = NULL, l.snrs_len = n;
        lacking(&l, out, 99);
        lacking(&whole, NULL, n);

        for (uint8_t kind = MESH_UPLINK; kind <= MESH_LORA; kind++)
            for (uint8_t content = MESH_EMPTY; content <= MESH_ITEMS; content++) {
                p = at(kind, content, 0, 1);
                CHECK(mesh_packet_decrypt(&p, KEY, NULL, n, out, 99, &c) == 45 && mesh_packet_decrypt(&p, KEY, value, 3, NULL, n, &c) == 45);
                CHECK(mesh_packet_decode(&p, NULL, n, out, 99, &c) == 45 && mesh_packet_decode(&p, value, 3, NULL, n, &c) == 45);
                CHECK(p.content == content && p.len == 1 && untouched(&c, sizeof c));
            }

        mesh_items it = mesh_items_begin(true, NULL, n);
        CHECK(it.refused == 45 && !mesh_items_next(&it) && it.refused == 45 && it.found == MESH_END);
        CHECK(mesh_items_count(true, NULL, n, &c) == 45 && mesh_items_count(false, NULL, n, &c) == 45 && untouched(&c, sizeof c));
        CHECK(mesh_path_entries_read(NULL, n, list, 2, &length) == 45 && mesh_path_entries_read(value, 6, NULL, n, &length) == 45);
        CHECK(mesh_path_entry_read(NULL, n, 0, list) == 45 && untouched(list, sizeof list));
        CHECK(mesh_path_entries_write(NULL, n, out, 99, &length) == 45 && mesh_path_entries_write(list, 1, NULL, n, &length) == 45);
        CHECK(length == 77 && untouched(out, 99));
    }

    /* Nothing of everything. */
    CHECK(mesh_packet_read(&p, NULL, 0) == 1 && mesh_packet_read_mesh(&p, NULL, 0) == 1 && mesh_packet_read_body(&p, MESH_EVENT, NULL, 0) == 4);
    p = good(MESH_EVENT);
    bool valid = true;
    CHECK(mesh_packet_write(&p, &NONE, NULL, 0, &length) == 21 && mesh_packet_write_body(&p, &NONE, NULL, 0, &length) == 21 && length == 77);
    CHECK(mesh_packet_write(&p, &NONE, out, 13, &length) == 0 && length == 13);
    CHECK(mesh_packet_validate(&p, KEY, &NONE, &valid) == 0 && !valid && mesh_packet_sign(&p, KEY, &NONE) == 0);
    CHECK(mesh_packet_validate(&p, KEY, &NONE, &valid) == 0 && valid);
    CHECK(mesh_packet_seal(&p, KEY, &NONE, NULL, 0) == 0 && p.content == MESH_EMPTY);
    CHECK(mesh_packet_decrypt(&p, KEY, NULL, 0, NULL, 0, &c) == 0 && c.clean && mesh_packet_decode(&p, NULL, 0, NULL, 0, &c) == 0 && c.kept == 0);
    p = at(MESH_LORA, 0, 0, 0);
    CHECK(mesh_packet_write(&p, &NONE, NULL, 0, &length) == 0 && length == 0);
    mesh_items it = mesh_items_begin(true, NULL, 0);
    CHECK(!mesh_items_next(&it) && it.refused == 0);
    CHECK(mesh_items_count(true, NULL, 0, &c) == 0 && c.kept == 0 && c.clean == 1);
    CHECK(mesh_path_entries_read(NULL, 0, NULL, 0, &length) == 0 && length == 0 && mesh_path_entries_read(value, 6, NULL, 0, &length) == 21);
    CHECK(mesh_path_entry_read(NULL, 0, 0, list) == 45);
    CHECK(mesh_path_entries_write(NULL, 0, NULL, 0, &length) == 0 && length == 0);
    list[0].rssi = list[0].snr = 0;
    CHECK(mesh_path_entries_write(list, 1, NULL, 0, &length) == 21);
    free(out);
}

/* ---- fields */

static void fields(void) {
    for (unsigned n = 0; n < 256; n++) {
        CHECK(mesh_type((uint8_t)n) == (n < 4 ? 0 : 29));
        uint8_t *header = room(2);
        const uint8_t r = mesh_header_read((uint8_t)n, header);
        CHECK(n < 0xe0 ? r == 3 && untouched(header, 2) : r == 0 && header[0] == ((n >> 3) & 3) && header[1] == (n & 7) + 1);
        free(header);
        for (unsigned hop = 0; hop < 256; hop++) {
            uint8_t *b = room(1);
            const uint8_t w = mesh_header_write((uint8_t)n, (uint8_t)hop, b);
            CHECK(w == (n > 3 ? 29 : hop == 0 ? 6 : hop > 8 ? 7 : 0));
            CHECK(*b == (w ? BEFORE : (0xe0 | n << 3 | (hop - 1))));
            free(b);
        }
    }
}

static uint8_t do_uplink(uint16_t id, uint8_t dr, int16_t rssi, int8_t snr) {
    uint8_t *b = room(5);
    uint8_t r = mesh_uplink_metadata_write(id, dr, rssi, snr, 255, b);
    if (r) {
        CHECK(untouched(b, 5));
    } else {
        uint64_t *n = room(4 * sizeof *n);
        int16_t *rssi2 = room(sizeof *rssi2);
        int8_t *snr2 = room(sizeof *snr2);
        mesh_uplink_metadata_read(b, n, rssi2, snr2);
        CHECK(n[0] == id && n[1] == dr && n[2] == 255 && n[3] == 0 && *rssi2 == rssi && *snr2 == snr);
        free(n);
        free(rssi2);
        free(snr2);
    }
    free(b);
    return r;
}

static uint8_t do_downlink(uint16_t id, uint8_t dr, uint32_t frequency, uint8_t tx_power, uint8_t delay) {
    uint8_t *b = room(6);
    uint8_t r = mesh_downlink_metadata_write(id, dr, frequency, tx_power, delay, b);
    if (r) {
        CHECK(untouched(b, 6));
    } else {
        uint64_t *n = room(5 * sizeof *n);
        mesh_downlink_metadata_read(b, n);
        CHECK(n[0] == id && n[1] == dr && n[2] == frequency && n[3] == tx_power && n[4] == delay);
        free(n);
    }
    free(b);
    return r;
}

static uint8_t do_path(int16_t rssi, int8_t snr) {
    uint8_t *b = room(6);
    uint8_t r = mesh_path_write(UINT32_MAX, rssi, snr, b);
    CHECK(r ? untouched(b, 6) : memcmp(b, "\377\377\377\377", 4) == 0 && b[5] < 64);
    if (r == 0) CHECK(do_entry(b, 6, 0) == 0);
    free(b);
    return r;
}

static uint8_t do_frequency(uint32_t hertz) {
    uint8_t *b = room(3);
    uint8_t r = mesh_frequency_write(hertz, b);
    if (r) {
        CHECK(untouched(b, 3));
    } else {
        uint32_t *h = room(sizeof *h);
        CHECK(mesh_frequency_read(b, 3, h) == 0 && *h == hertz);
        free(h);
    }
    free(b);
    return r;
}

static void metadata(void) {
    CHECK(do_uplink(4096, 16, 1, -33) == 8 && do_uplink(4095, 16, 1, -33) == 9 && do_uplink(4095, 15, 1, -33) == 10);
    CHECK(do_uplink(4095, 15, -256, -33) == 11 && do_uplink(4095, 15, -255, -33) == 12 && do_uplink(4095, 15, -255, 32) == 13);
    CHECK(do_uplink(4095, 15, -255, -32) == 0 && do_uplink(0, 0, 0, 31) == 0);
    CHECK(do_downlink(4096, 16, 1, 16, 0) == 8 && do_downlink(4095, 16, 1, 16, 0) == 9 && do_downlink(4095, 15, 1, 16, 0) == 14);
    CHECK(do_downlink(4095, 15, 1, 16, 17) == 15 && do_downlink(4095, 15, 1, 15, 17) == 16);
    CHECK(do_downlink(4095, 15, 1677721650, 15, 16) == 17 && do_downlink(4095, 15, 1, 15, 16) == 18);
    CHECK(do_downlink(4095, 15, 1200000000, 15, 17) == 16 && do_downlink(4095, 15, 1200000000, 15, 16) == 38);
    CHECK(do_downlink(4095, 15, 868100000, 15, 16) == 0 && do_downlink(0, 0, 0, 0, 1) == 0);
    CHECK(do_path(1, -33) == 10 && do_path(-256, -33) == 11 && do_path(-255, -33) == 12 && do_path(-255, 32) == 13);
    CHECK(do_path(-255, -32) == 0 && do_path(0, 31) == 0);
    CHECK(do_frequency(1677721600) == 17 && do_frequency(UINT32_MAX) == 17 && do_frequency(1677721650) == 17 && do_frequency(3355443200) == 17);
    CHECK(do_frequency(1677721599) == 18 && do_frequency(1) == 18 && do_frequency(2400000199) == 18 && do_frequency(3355443199) == 18);
    CHECK(do_frequency(1200000000) == 38 && do_frequency(1677721500) == 38 && do_frequency(2400000001) == 38 && do_frequency(3355443001) == 38);
    CHECK(do_frequency(0) == 0 && do_frequency(868100000) == 0 && do_frequency(1199999900) == 0);
    CHECK(do_frequency(2400000000) == 0 && do_frequency(2400000200) == 0 && do_frequency(3355443000) == 0);
    for (size_t n = 0; n < 8; n++) {
        uint8_t *b = room(n);
        uint32_t *h = room(sizeof *h);
        const uint8_t r = mesh_frequency_read(b, n, h);
        CHECK(n == 3 ? r == 0 : r == 28 && untouched(h, sizeof *h));
        free(b);
        free(h);
    }
}

/* ---- keys, cipher and MIC */

static uint8_t do_key(bool text, const void *b, size_t n) {
    uint8_t *from = copy(b, n), *key = room(16);
    uint8_t r = text ? mesh_key_of_text(from, n, key) : mesh_key(from, n, key);
    if (r)
        CHECK(untouched(key, 16));
    else
        memcpy(written, key, 16);
    back(from, b, n);
    free(key);
    return r;
}

static void keys(void) {
    uint8_t text[40];
    memset(text, 'g', sizeof text);
    for (size_t n = 0; n <= 40; n++) {
        CHECK(do_key(false, text, n) == (n == 16 ? 0 : 25) && do_key(true, text, n) == (n == 32 ? 26 : 25));
        uint8_t *out = room(n), *key = copy(KEY, 16);
        const uint8_t r = mesh_key_text(key, out, n);
        if (n < 32)
            CHECK(r == 21 && untouched(out, n));
        else
            CHECK(r == 0 && memcmp(out, "000102030405060708090a0b0c0d0e0f", 32) == 0 && untouched(out + 32, n - 32));
        back(key, KEY, 16);
        free(out);
    }
    static const uint8_t bad[] = {'g', 'G', '/', ':', '@', '`', ' ', 0, 0xff};
    for (size_t i = 0; i < 32; i++)
        for (size_t k = 0; k < COUNT(bad); k++) {
            memset(text, 'a', 32);
            text[i] = bad[k];
            CHECK(do_key(true, text, 32) == 26);
        }
    CHECK(do_key(true, "000102030405060708090A0B0c0D0e0f", 32) == 0 && memcmp(written, KEY, 16) == 0);
    uint8_t *key = room(16);
    mesh_null_key(key);
    for (size_t i = 0; i < 16; i++) CHECK(key[i] == 0);
    free(key);
}

static void cipher(void) {
    /* FIPS 197, C.1. */
    static const uint8_t clear[16] = {0x00, 0x11, 0x22, 0x33, 0x44, 0x55, 0x66, 0x77, 0x88, 0x99, 0xaa, 0xbb, 0xcc, 0xdd, 0xee, 0xff};
    static const uint8_t made[16] = {0x69, 0xc4, 0xe0, 0xd8, 0x6a, 0x7b, 0x04, 0x30, 0xd8, 0xcd, 0xb7, 0x80, 0x70, 0xb4, 0xc5, 0x5a};
    uint8_t *key = copy(KEY, 16), *a = copy(clear, 16), *b = copy(clear, 16);
    uint32_t *words = room(MESH_CIPHER_WORDS * sizeof *words);
    mesh_encrypt_block(key, a);
    mesh_prepare(key, words);
    uint32_t *before = copy(words, MESH_CIPHER_WORDS * sizeof *words);
    mesh_encipher(words, b);
    CHECK(memcmp(a, made, 16) == 0 && memcmp(b, made, 16) == 0);
    memset(a, 0, 16);
    memset(b, 0, 16);
    b[0] = 1;
    mesh_encrypt_block(key, a);
    mesh_encrypt_block(key, b);
    uint8_t *signing = room(16), *encryption = room(16);
    mesh_signing_key(key, signing);
    mesh_encryption_key(key, encryption);
    CHECK(memcmp(a, signing, 16) == 0 && memcmp(b, encryption, 16) == 0);
    for (size_t n = 0; n <= 9000; n = n < 70 ? n + 1 : n == 70 ? 8192 : n == 8192 ? 9000 : 9001) {
        uint8_t *message = bytes(1, n), *same = copy(message, n);
        mesh_cmac(key, same, n, a);
        mesh_mac(words, same, n, b);
        CHECK(memcmp(a, b, 16) == 0);
        back(same, message, n);
        free(message);
    }
    back(words, before, MESH_CIPHER_WORDS * sizeof *words);
    back(key, KEY, 16);
    free(before);
    free(a);
    free(b);
    free(signing);
    free(encryption);
    /* Words that no key makes are a cipher too, if no good one. */
    words = room(MESH_CIPHER_WORDS * sizeof *words);
    b = room(16);
    mesh_encipher(words, b);
    mesh_mac(words, clear, 16, b);
    CHECK(untouched(words, MESH_CIPHER_WORDS * sizeof *words));
    free(words);
    /* Who lends more than is asked has the same cipher, and the rest as it was. */
    words = room(300 * sizeof *words);
    mesh_prepare(KEY, words);
    memcpy(b, clear, 16);
    mesh_encipher(words, b);
    CHECK(memcmp(b, made, 16) == 0 && untouched(words + MESH_CIPHER_WORDS, (300 - MESH_CIPHER_WORDS) * sizeof *words));
    free(words);
    free(b);
    /* RFC 4493, examples 1 and 2. */
    static const uint8_t rfc[16] = {0x2b, 0x7e, 0x15, 0x16, 0x28, 0xae, 0xd2, 0xa6, 0xab, 0xf7, 0x15, 0x88, 0x09, 0xcf, 0x4f, 0x3c};
    static const uint8_t m16[16] = {0x6b, 0xc1, 0xbe, 0xe2, 0x2e, 0x40, 0x9f, 0x96, 0xe9, 0x3d, 0x7e, 0x11, 0x73, 0x93, 0x17, 0x2a};
    static const uint8_t t0[16] = {0xbb, 0x1d, 0x69, 0x29, 0xe9, 0x59, 0x37, 0x28, 0x7f, 0xa3, 0x7d, 0x12, 0x9b, 0x75, 0x67, 0x46};
    static const uint8_t t16[16] = {0x07, 0x0a, 0x16, 0xb4, 0x6b, 0x4d, 0x41, 0x44, 0xf7, 0x9b, 0xdd, 0x9d, 0xd0, 0x4a, 0x28, 0x7c};
    uint8_t tag[16];
    mesh_cmac(rfc, m16, 0, tag);
    CHECK(memcmp(tag, t0, 16) == 0);
    mesh_cmac(rfc, m16, 16, tag);
    CHECK(memcmp(tag, t16, 16) == 0);
}

/* ---- duplicates */

static uint8_t do_record(const mesh_packet *p, uint64_t id, uint64_t timestamp) {
    mesh_record_of *known = room(sizeof *known);
    uint64_t *numbers = numbers_of(p);
    uint8_t r = mesh_record(numbers, (uint64_t *)known);
    if (r)
        CHECK(untouched(known, sizeof *known));
    else
        CHECK(known->type == p->payload_type && known->uplink_id == id && known->timestamp == timestamp && known->relay_id == p->relay_id);
    left(numbers, p);
    free(known);
    return r;
}

/* 0 and 1 of a record that is seen and new, or the number. */
static unsigned add_record(uint32_t *held, const mesh_record_of *known) {
    uint32_t *words = copy(held, sizeof(mesh_cache));
    uint64_t *record = copy(known, sizeof *known);
    uint8_t *is_new = room(1);
    const uint8_t r = mesh_cache_add(words, record, is_new);
    back(record, known, sizeof *known);
    CHECK(r ? *is_new == BEFORE : *is_new < 2);
    CHECK((r == 0 && *is_new == 1) || memcmp(words, held, sizeof(mesh_cache)) == 0);
    const unsigned answer = r ? r : *is_new;
    memcpy(held, words, sizeof(mesh_cache));
    free(words);
    free(is_new);
    return answer;
}

static unsigned add(uint32_t *held, uint8_t type, uint32_t relay_id) {
    const mesh_record_of known = {type, 1, 2, relay_id};
    return add_record(held, &known);
}

static void caches(void) {
    mesh_packet p;
    for (uint8_t kind = 0; kind < 4; kind++) {
        p = at(kind, MESH_SEALED, UINT64_MAX, UINT64_MAX);
        CHECK(do_record(&p, kind < 2 ? 291 : 0, kind < 2 ? 0 : 60) == 0);
        p.payload_type = 4;
        CHECK(do_record(&p, 0, 0) == 29);
    }
    for (unsigned kind = 4; kind < 256; kind++) {
        p = good((uint8_t)kind);
        p.payload_type = 0;
        CHECK(do_record(&p, 0, 0) == 29);
    }
    static const uint32_t sizes[] = {0, 65, 66, UINT32_MAX, 1, 2, 63, 64};
    for (size_t i = 0; i < COUNT(sizes); i++) {
        const uint32_t size = sizes[i];
        uint32_t *words = room(sizeof(mesh_cache));
        if (i < 4) {
            CHECK(mesh_cache_clear(words, size) == 24 && untouched(words, sizeof(mesh_cache)));
        } else {
            CHECK(mesh_cache_clear(words, size) == 0 && add(words, 4, 0) == 29 && add(words, 255, 0) == 29);
            for (uint32_t id = 0; id < 3 * size; id++) {
                CHECK(add(words, 0, id) == 1 && add(words, 0, id) == 0);
                CHECK(add(words, 0, id < size ? 0 : id - size + 1) == 0);
            }
            CHECK(add(words, 0, 2 * size - 1) == 1);
            /* A number that is wider than its field is 29. */
            for (size_t k = 0; k < COUNT(WIDE); k++) {
                const mesh_record_of known[] = {
                    {WIDE[k], 1, 2, 3}, {0, WIDE[k], 2, 3}, {0, 1, WIDE[k], 3}, {0, 1, 2, WIDE[k]}, {UINT8_MAX + 1, 1, 2, 3}, {0, UINT16_MAX + 1, 2, 3}};
                for (size_t n = 0; n < COUNT(known); n++) CHECK(add_record(words, &known[n]) == 29);
            }
            const mesh_record_of largest = {3, UINT16_MAX, UINT32_MAX, UINT32_MAX};
            CHECK(add_record(words, &largest) == 1 && add_record(words, &largest) == 0);
        }
        free(words);
    }
    /* Words that no cache is: refused or taken, and nothing beside them is touched. */
    mesh_cache none;
    memset(&none, 0, sizeof none);
    CHECK(add(none.words, 0, 1) == 24);
    static const uint32_t odd[] = {0, 1, 63, 64, 65, UINT32_MAX};
    for (size_t i = 0; i < MESH_CACHE_WORDS; i++)
        for (size_t k = 0; k < COUNT(odd); k++)
            for (uint32_t fill = 0; fill < 4; fill++) {
                mesh_cache c;
                for (size_t w = 0; w < MESH_CACHE_WORDS; w++) c.words[w] = fill == 3 ? UINT32_MAX : 31 * fill;
                c.words[i] = odd[k];
                add(c.words, 0, 1);
            }
}

/* ---- text */

static uint8_t do_dump(bool line, const void *b, size_t n, size_t out_len) {
    uint8_t *from = copy(b, n), *out = room(out_len);
    uint64_t *length = room(sizeof *length);
    uint8_t r = line ? mesh_dump_line(from, n, out, out_len, length) : mesh_dump_frame(from, n, out, out_len, length);
    wrote(r, out, out_len, length);
    back(from, b, n);
    return r;
}

static bool text(const char *expected) { return written_length == strlen(expected) && memcmp(written, expected, strlen(expected)) == 0; }

static void dumps(void) {
    static const char *const lines[][2] = {
        {"e012355007020a0b0c0d11223344", "[Uplink hop_count: 1, uplink_id: 291, relay_id: 0a0b0c0d, mic: 11223344]"},
        {"e012355047020a0b0c0d11223344", "[Uplink hop_count: 1, uplink_id: 291, relay_id: 0a0b0c0d, mic: 11223344 odd: 1]"},
        {"e012355087020a0b0c0d11223344", "[Uplink hop_count: 1, uplink_id: 291, relay_id: 0a0b0c0d, mic: 11223344 odd: 2]"},
        {"e7ffffffffffffffffffffffffff", "[Uplink hop_count: 8, uplink_id: 4095, relay_id: ffffffff, mic: ffffffff odd: 3]"},
        {"F20000003c0a0b0c0d01020304", "[Event hop_count: 3, timestamp: 60, relay_id: 0a0b0c0d]"},
        {"efffff000000000a0b0c0dffffffff", "[Downlink hop_count: 8, uplink_id: 4095, relay_id: 0a0b0c0d, mic: ffffffff]"},
        {"efffffffffffff0a0b0c0dffffffff", "[Downlink hop_count: 8, uplink_id: 4095, relay_id: 0a0b0c0d, mic: ffffffff]"},
        {"ffffffffff0a0b0c0d01020304", "[Command hop_count: 8, timestamp: 4294967295, relay_id: 0a0b0c0d]"},
        {"40", "lora 1"},
        {"e0", "refused 2"},
        {"", "refused 1"},
        {"4", "refused 30"},
        {"4g", "refused 30"},
    };
    for (size_t i = 0; i < COUNT(lines); i++) {
        const size_t n = strlen(lines[i][0]), most = strlen(lines[i][1]);
        for (size_t out_len = 0; out_len < most; out_len++) CHECK(do_dump(true, lines[i][0], n, out_len) == 21);
        CHECK(do_dump(true, lines[i][0], n, most) == 0 && text(lines[i][1]));
        CHECK(do_dump(true, lines[i][0], n, 99) == 0 && text(lines[i][1]));
    }
    uint8_t *b = room(70000);
    memset(b, '4', 70000);
    CHECK(do_dump(true, b, 2 * 8192, 9) == 0 && text("lora 8192"));
    CHECK(do_dump(true, b, 2 * 8193, 9) == 0 && text("refused 5"));
    CHECK(do_dump(true, b, 2 * 8192 + 1, 10) == 0 && text("refused 30"));
    CHECK(do_dump(true, b, 70000, 9) == 0 && text("refused 5"));
    CHECK(do_dump(false, b, 8192, 9) == 0 && text("lora 8192"));
    CHECK(do_dump(false, b, 8193, 9) == 0 && text("refused 5"));
    CHECK(do_dump(false, b, 0, 9) == 0 && text("refused 1") && do_dump(false, b, 0, 8) == 21);
    b[0] = 0xe0;
    CHECK(do_dump(false, b, 13, 9) == 0 && text("refused 4") && do_dump(false, b, 4, 9) == 0 && text("refused 2"));
    free(b);
}

static uint8_t do_text(const mesh_packet *p, size_t out_len) {
    uint8_t *out = room(out_len);
    uint64_t *length = room(sizeof *length), *numbers = numbers_of(p);
    uint8_t r = mesh_text(numbers, out, out_len, length);
    wrote(r, out, out_len, length);
    left(numbers, p);
    return r;
}

/* That text, and before its bracket the odd bits where they are shown. */
static bool text_with(const char *even, uint64_t odd) {
    static const char *const ends[] = {"]", " odd: 1]", " odd: 2]", " odd: 3]"};
    const char *end = ends[odd < COUNT(ends) ? odd : 0];
    const size_t n = strlen(even) - 1, m = strlen(end);
    return written_length == n + m && memcmp(written, even, n) == 0 && memcmp(written + n, end, m) == 0;
}

static void texts_of_packets(void) {
    static const char *const shown[][2] = {
        {"[Uplink hop_count: 1, uplink_id: 291, relay_id: 0a0b0c0d, mic: 01020304]", "[Uplink hop_count: 1, uplink_id: 291, relay_id: 0a0b0c0d, mic: ]"},
        {"[Downlink hop_count: 1, uplink_id: 291, relay_id: 0a0b0c0d, mic: 01020304]", "[Downlink hop_count: 1, uplink_id: 291, relay_id: 0a0b0c0d, mic: ]"},
        {"[Event hop_count: 1, timestamp: 60, relay_id: 0a0b0c0d]", "[Event hop_count: 1, timestamp: 60, relay_id: 0a0b0c0d]"},
        {"[Command hop_count: 1, timestamp: 60, relay_id: 0a0b0c0d]", "[Command hop_count: 1, timestamp: 60, relay_id: 0a0b0c0d]"},
    };
    for (uint8_t kind = MESH_UPLINK; kind <= MESH_COMMAND; kind++)
        for (unsigned bare = 0; bare < 2; bare++) {
            mesh_packet p = at(kind, kind < MESH_EVENT ? 0 : MESH_ITEMS, UINT64_MAX, UINT64_MAX);
            p.has_mic = !bare;
            const size_t most = strlen(shown[kind][bare]);
            for (size_t out_len = 0; out_len < most; out_len++) CHECK(do_text(&p, out_len) == 21);
            CHECK(do_text(&p, most) == 0 && text(shown[kind][bare]) && do_text(&p, 99) == 0 && text(shown[kind][bare]));
            uint8_t out[MESH_TEXT_MOST];
            uint64_t length = 0;
            CHECK(mesh_packet_text(&p, out, sizeof out, &length) == 0 && length == most && memcmp(out, shown[kind][bare], most) == 0);
            CHECK(mesh_packet_text(&p, NULL, 9, &length) == 45 && mesh_packet_text(&p, NULL, 0, &length) == 21 && length == most);
            /* Odd bits are shown of an uplink, 1 to 3. */
            for (size_t k = 0; k < COUNT(ODD); k++) {
                const uint64_t odd = kind == MESH_UPLINK ? ODD[k] : 0;
                const size_t all = most + (odd > 0 && odd < 4 ? 7 : 0);
                p.odd = ODD[k];
                CHECK(do_text(&p, 99) == 0 && text_with(shown[kind][bare], odd) && do_text(&p, all) == 0 && text_with(shown[kind][bare], odd));
                CHECK(do_text(&p, all - 1) == 21 && do_text(&p, most - 1) == 21 && do_text(&p, 0) == 21);
                memset(out, BEFORE, sizeof out);
                CHECK((length = 77, mesh_packet_text(&p, out, all - 1, &length)) == 21 && length == 77 && untouched(out, sizeof out));
                CHECK(mesh_packet_text(&p, out, all, &length) == 0 && length == all && memcmp(out, written, all) == 0);
            }
            p.odd = 0;
            /* A hop count is a byte, and more counts as its largest; the fields are shown as they are. */
            p.hop_count = UINT64_MAX;
            CHECK(do_text(&p, 99) == 0 && written_length == most + 2);
            p.payload_type = 4;
            CHECK(do_text(&p, 0) == 29);
            p.payload_type = 0;
            p.relay_id = 1ull << 32;
            CHECK(do_text(&p, 0) == 29);
        }
    mesh_packet p = good(MESH_LORA);
    CHECK(do_text(&p, 99) == 29);
    /* The label goes by the header, the fields by the payload. */
    p = good(MESH_DOWNLINK);
    p.payload_type = MESH_COMMAND;
    CHECK(do_text(&p, 99) == 0 && text("[Command hop_count: 1, uplink_id: 291, relay_id: 0a0b0c0d, mic: 01020304]"));
    p.payload_type = MESH_UPLINK, p.odd = 3;
    CHECK(do_text(&p, 99) == 0 && text("[Uplink hop_count: 1, uplink_id: 291, relay_id: 0a0b0c0d, mic: 01020304]"));
    /* The longest. */
    p = good(MESH_UPLINK);
    p.payload_type = MESH_DOWNLINK, p.hop_count = UINT64_MAX, p.uplink_id = UINT16_MAX, p.relay_id = p.mic = UINT32_MAX, p.odd = 3;
    CHECK(do_text(&p, MESH_TEXT_MOST) == 0 && text("[Downlink hop_count: 255, uplink_id: 65535, relay_id: ffffffff, mic: ffffffff odd: 3]"));
}

/* ---- odd bits: every snr byte, beside bytes that have these two bits set, and not, themselves */

static void odd_metadata(const uint8_t from[5]) {
    uint8_t *b = copy(from, 5), *again = room(5);
    uint64_t *n = room(4 * sizeof *n);
    int16_t *rssi = room(sizeof *rssi);
    int8_t *snr = room(sizeof *snr);
    mesh_uplink_metadata_read(b, n, rssi, snr);
    CHECK(n[0] == b[0] * 16u + b[1] / 16 && n[1] == b[1] % 16 && n[2] == b[4] && n[3] == b[3] / 64 && *rssi == -b[2] && *snr == snr_of(b[3]));
    CHECK(mesh_uplink_metadata_write((uint16_t)n[0], (uint8_t)n[1], *rssi, *snr, (uint8_t)n[2], again) == 0);
    CHECK(again[3] == b[3] % 64 && (memcmp(again, b, 5) == 0) == (n[3] == 0));
    back(b, from, 5);
    free(again);
    free(n);
    free(rssi);
    free(snr);
}

/* A frame of any kind, read by each reader and written, signed and edited. Its fifth byte is the snr of an uplink. */
static void odd_frame(uint8_t kind, const uint8_t from[20]) {
    const uint64_t odd = kind == MESH_UPLINK ? from[4] / 64 : 0;
    uint8_t even[20], frame[20];
    memcpy(frame, from, 20);
    memcpy(even, from, 20);
    if (odd) even[4] %= 64;
    CHECK(do_read(ANY, 0, even, 20) == 0 && read_as.kind == kind && read_as.odd == 0);
    mesh_packet p = read_as;
    for (enum reader reader = ANY; reader <= (kind == MESH_LORA ? ANY : MESH); reader++) {
        CHECK(do_read(reader, 0, frame, 20) == 0 && read_as.odd == odd && read_as.rssi == p.rssi && read_as.snr == p.snr);
        CHECK(kind != MESH_UPLINK || read_as.snr == snr_of(frame[4]));
        read_as.odd = 0;
        CHECK(memcmp(&read_as, &p, NUMBERS) == 0);
    }
    CHECK(mesh_packet_read(&p, frame, 20) == 0 && p.odd == odd);
    const mesh_lent l = mesh_lent_frame(frame, 20);
    CHECK(do_write(false, &p, &l, 20) == 0 && wrote_bytes(even, 20) && wrote_bytes(frame, 20) == (odd == 0));
    if (kind == MESH_LORA) return;
    CHECK(mesh_packet_read_mesh(&p, frame, 20) == 0 && p.odd == odd && do_read(BODY, kind, frame + 1, 15) == 0 && read_as.odd == odd);
    CHECK(mesh_packet_read_body(&p, kind, frame + 1, 15) == 0 && p.odd == odd && mesh_packet_read(&p, frame, 20) == 0);
    CHECK(do_write(true, &p, &l, 15) == 0 && wrote_bytes(even + 1, 15));
    /* The text, of the frame and of the packet. */
    char shown[MESH_TEXT_MOST + 1] = "";
    CHECK(do_dump(false, even, 20, MESH_TEXT_MOST) == 0);
    memcpy(shown, written, written_length);
    CHECK(do_dump(false, frame, 20, MESH_TEXT_MOST) == 0 && text_with(shown, odd) && do_text(&p, MESH_TEXT_MOST) == 0 && text_with(shown, odd));
    /* The MIC is over bytes that have the bits 0, so it holds with any. */
    CHECK(do_sign(&p, &l) == 0);
    const uint64_t mic = p.mic = mic_made;
    CHECK(do_validate(&p, &l) == 0 && was_valid == 1);
    p.odd = 0;
    CHECK(do_validate(&p, &l) == 0 && was_valid == 1 && do_sign(&p, &l) == 0 && mic_made == mic);
    /* The hop edit clears them in the frame. */
    CHECK(do_hops(frame, 20, 8) == 0 && frame[4] == even[4] && do_read(MESH, 0, frame, 20) == 0 && read_as.odd == 0);
    p.hop_count = 8;
    p.mic = read_as.mic;
    CHECK(memcmp(&read_as, &p, NUMBERS) == 0 && read_as.rssi == p.rssi && read_as.snr == p.snr && do_validate(&p, &l) == 0 && was_valid == 1);
}

static void odd_bits(void) {
    static const uint8_t beside[] = {0, 0x40, 0x80, 0xff};
    for (unsigned b = 0; b < 256; b++)
        for (size_t i = 0; i < COUNT(beside); i++) {
            uint8_t some[20];
            memset(some, beside[i], sizeof some);
            some[4] = (uint8_t)b;
            odd_metadata(some + 1);
            for (uint8_t kind = MESH_UPLINK; kind <= MESH_LORA; kind++) {
                some[0] = kind == MESH_LORA ? 0x40 : (uint8_t)(0xe0 | kind << 3);
                odd_frame(kind, some);
            }
            /* Three entries, no two with the same odd bits. */
            some[0] = some[4] = beside[i];
            for (size_t k = 0; k < 3; k++) some[6 * k + 5] = (uint8_t)(b + 64 * k);
            for (size_t k = 0; k < 3; k++) CHECK(do_entry(some, 18, k) == 0);
            CHECK(do_entries_read(some, 18, 3) == 0 && do_entries_read(some, 18, 2) == 21 && do_entries_read(some, 17, 3) == 20);
        }
}

/* ---- the texts of refusals */

/* from include/mesh.table: refusals */
static const uint8_t REFUSALS[] = {
    MESH_FRAME_EMPTY,
    MESH_FRAME_SHORT,
    MESH_NOT_MESH,
    MESH_BODY_SHORT,
    MESH_FRAME_LONG,
    MESH_HOPS_NONE,
    MESH_HOPS_MANY,
    MESH_UPLINK_ID_LARGE,
    MESH_DR_LARGE,
    MESH_RSSI_LARGE,
    MESH_RSSI_SMALL,
    MESH_SNR_SMALL,
    MESH_SNR_LARGE,
    MESH_DELAY_NONE,
    MESH_TX_POWER_LARGE,
    MESH_DELAY_LARGE,
    MESH_FREQUENCY_LARGE,
    MESH_FREQUENCY_STEP,
    MESH_ITEM_LONG,
    MESH_HEARTBEAT_LENGTH,
    MESH_OUTPUT_SHORT,
    MESH_OPEN_MANY,
    MESH_OPEN_ONE,
    MESH_CACHE_SIZE,
    MESH_KEY_LENGTH,
    MESH_KEY_DIGIT,
    MESH_MIC_MISSING,
    MESH_FREQUENCY_LENGTH,
    MESH_TYPE_LARGE,
    MESH_LINE_DIGITS,
    MESH_FREQUENCY_OTHER,
    MESH_OUTSIDE,
};
/* end */

/* Each has a text that no other has, and any other number has none. */
static void texts(void) {
    unsigned said = 0;
    for (unsigned n = 0; n < 256; n++) said += mesh_refusal_text((uint8_t)n)[0] != 0;
    CHECK(said == COUNT(REFUSALS));
    for (size_t i = 0; i < COUNT(REFUSALS); i++) {
        CHECK(mesh_refusal_text(REFUSALS[i])[0] != 0);
        for (size_t k = 0; k < i; k++) CHECK(strcmp(mesh_refusal_text(REFUSALS[k]), mesh_refusal_text(REFUSALS[i])) != 0);
    }
    CHECK(strcmp(mesh_refusal_text(1), "the frame has no bytes") == 0 && mesh_refusal_text(0)[0] == 0 && mesh_refusal_text(MESH_ALREADY_OPEN)[0] == 0);
}

int main(void) {
    if (mesh_version() != MESH_VERSION) return 1;
    texts();
    reading();
    writing();
    composing();
    codes();
    widths();
    beside_null();
    shared();
    hops();
    validated();
    sealing();
    items();
    items_alone();
    walks();
    stream();
    heartbeats();
    heartbeats_written();
    entries();
    nulls();
    fields();
    metadata();
    keys();
    cipher();
    caches();
    dumps();
    texts_of_packets();
    odd_bits();
    printf("%lu checks passed\n", checks);
    return 0;
}
