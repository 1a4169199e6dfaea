/* The answering machine of the port: compare/PROTOCOL.md on standard input and output.
 *
 * It takes requests apart and prints answers. Every value and every refusal is the library's: a request is `bad` where it cannot be said
 * in include/mesh.h's types at all, and otherwise whatever the library answers is printed. Nothing is refused before the whole line has
 * been taken apart, so `bad` precedes every number, and a key is made (25) before the call that takes it. */
#include <errno.h>
#include <signal.h>
#include <stdio.h>
#include <stdlib.h>
#include <string.h>
#include <unistd.h>

#include "mesh.h"

/* ---- lists that grow; each keeps its room from one line to the next */

static void *more_room(void *at, size_t *room, size_t want, size_t each) {
    size_t n = *room < 64 ? 64 : *room;
    while (n < want && n <= SIZE_MAX / 2) n *= 2;
    void *made = n < want || n > SIZE_MAX / each ? NULL : realloc(at, n * each);
    if (!made) {
        fputs("port: no memory for this line\n", stderr);
        exit(1);
    }
    *room = n;
    return made;
}

/* Room for k more behind the n that are there. One element stands there from the start on: no list that is lent is a null pointer. */
#define NEED(list, k)                                                                                                                      \
    do {                                                                                                                                   \
        if ((list).room - (list).n < (k) || !(list).at)                                                                                    \
            (list).at = more_room((list).at, &(list).room, (list).n + (k), sizeof *(list).at);                                             \
    } while (0)
#define PUSH(list, value)                                                                                                                  \
    do {                                                                                                                                   \
        NEED(list, 1);                                                                                                                     \
        (list).at[(list).n++] = (value);                                                                                                   \
    } while (0)

typedef struct bytes {
    uint8_t *at;
    size_t n, room;
} bytes;

typedef struct slice {
    const uint8_t *at;
    size_t n;
} slice;

typedef struct span {
    size_t start, len;
} span;

/* what a line says: hex words in `frame`, values of items in `work`, and the lists beside a packet */
static bytes frame, work;
static struct {
    uint8_t (*at)[2];
    size_t n, room;
} kinds;
static struct {
    uint32_t (*at)[2];
    size_t n, room;
} spans;
static struct {
    uint32_t *at;
    size_t n, room;
} ids;
static struct {
    int16_t *at;
    size_t n, room;
} rssis;
static struct {
    int8_t *at;
    size_t n, room;
} snrs;
static struct {
    span *at;
    size_t n, room;
} frames;
static struct {
    mesh_record_of *at;
    size_t n, room;
} records;

/* what the library writes into: over the longest frame, so that 21 is never answered */
static uint8_t made[2 * MESH_FRAME_MOST];
static uint8_t clear[2 * MESH_FRAME_MOST];

static void forget_line(void) {
    frame.n = work.n = kinds.n = spans.n = ids.n = rssis.n = snrs.n = frames.n = records.n = 0;
    NEED(frame, 1);
    NEED(work, 1);
    NEED(kinds, 1);
    NEED(spans, 1);
    NEED(ids, 1);
    NEED(rssis, 1);
    NEED(snrs, 1);
}

/* a packet's payload lies in `in`, which is what was read, or all hex words of a packet */
static mesh_lent lent(slice in) {
    mesh_lent l = {in.at,
                   in.n,
                   work.at,
                   work.n,
                   (const uint8_t(*)[2])kinds.at,
                   kinds.n,
                   (const uint32_t(*)[2])spans.at,
                   spans.n,
                   ids.at,
                   ids.n,
                   rssis.at,
                   rssis.n,
                   snrs.at,
                   snrs.n};
    return l;
}

/* ---- answers */

static bytes out;

static void put_bytes(const void *at, size_t n) {
    if (n == 0) return;
    NEED(out, n);
    memcpy(out.at + out.n, at, n);
    out.n += n;
}

static void put(const char *text) { put_bytes(text, strlen(text)); }

static void put_number(int64_t n) {
    char text[24];
    int k = snprintf(text, sizeof text, "%lld", (long long)n);
    put_bytes(text, (size_t)k);
}

static void put_digits(const uint8_t *b, size_t n) {
    NEED(out, 2 * n);
    for (size_t i = 0; i < n; i++) {
        out.at[out.n++] = (uint8_t)"0123456789abcdef"[b[i] >> 4];
        out.at[out.n++] = (uint8_t)"0123456789abcdef"[b[i] & 15];
    }
}

static void put_hex(const uint8_t *b, size_t n) {
    if (n == 0) put("-");
    put_digits(b, n);
}

/* a relay id or a MIC */
static void put_four(uint64_t n) {
    const uint8_t b[4] = {(uint8_t)(n >> 24), (uint8_t)(n >> 16), (uint8_t)(n >> 8), (uint8_t)n};
    put_digits(b, 4);
}

/* ---- words. The first fault is kept in `fault`; after it every word is nothing, and the answer will be `bad`. */

static const char *fault;
static slice rest;
static bool more;

static void bad(const char *why) {
    if (!fault) fault = why;
}

/* what stands before a byte; the rest is what stands behind it, where it is there */
static slice cut(slice *from, uint8_t at, bool *found) {
    slice head = *from;
    const uint8_t *k = head.n ? memchr(head.at, at, head.n) : NULL;
    *found = k != NULL;
    if (k) {
        head.n = (size_t)(k - head.at);
        from->at = k + 1;
        from->n -= head.n + 1;
    } else {
        from->at += from->n;
        from->n = 0;
    }
    return head;
}

static slice word(void) {
    slice none = {(const uint8_t *)"", 0};
    if (!more) bad("a word is missing");
    if (fault) return none;
    slice w = cut(&rest, ' ', &more);
    if (w.n == 0) bad("an empty word");
    return w;
}

/* whether the line is at its end, and good */
static bool whole(void) {
    if (more) bad("a word too many");
    return !fault;
}

static bool is(slice s, const char *text) { return s.n == strlen(text) && memcmp(s.at, text, s.n) == 0; }

static bool begins(slice *s, const char *text) {
    size_t n = strlen(text);
    if (s->n < n || memcmp(s->at, text, n) != 0) return false;
    s->at += n;
    s->n -= n;
    return true;
}

/* digits, and no sign */
static uint64_t count_of(slice s, uint64_t most) {
    uint64_t n = 0;
    if (s.n == 0) bad("no number");
    for (size_t i = 0; i < s.n && !fault; i++) {
        if (s.at[i] < '0' || s.at[i] > '9') {
            bad("no number");
        } else if (n > (most - (s.at[i] - '0')) / 10) {
            bad("a number outside its type");
        } else {
            n = n * 10 + (s.at[i] - '0');
        }
    }
    return fault ? 0 : n;
}

static int64_t signed_of(slice s, int64_t least, int64_t most) {
    if (begins(&s, "-")) return -(int64_t)count_of(s, (uint64_t)-least);
    return (int64_t)count_of(s, (uint64_t)most);
}

static uint8_t u8_of(slice s) { return (uint8_t)count_of(s, UINT8_MAX); }
static uint16_t u16_of(slice s) { return (uint16_t)count_of(s, UINT16_MAX); }
static uint32_t u32_of(slice s) { return (uint32_t)count_of(s, UINT32_MAX); }
static int16_t i16_of(slice s) { return (int16_t)signed_of(s, INT16_MIN, INT16_MAX); }
static int8_t i8_of(slice s) { return (int8_t)signed_of(s, INT8_MIN, INT8_MAX); }

static int digit_of(uint8_t c) {
    if (c >= '0' && c <= '9') return c - '0';
    if (c >= 'a' && c <= 'f') return c - 'a' + 10;
    if (c >= 'A' && c <= 'F') return c - 'A' + 10;
    return -1;
}

/* pairs of digits, laid behind what `to` holds */
static span unhex(bytes *to, slice s) {
    span at = {to->n, 0};
    if (s.n % 2) bad("an odd count of digits");
    if (fault) return at;
    NEED(*to, s.n / 2);
    for (size_t i = 0; i < s.n; i += 2) {
        int a = digit_of(s.at[i]), b = digit_of(s.at[i + 1]);
        if (a < 0 || b < 0) {
            bad("no hex digit");
            return at;
        }
        to->at[to->n++] = (uint8_t)(a << 4 | b);
    }
    at.len = s.n / 2;
    return at;
}

static span hex(void) {
    slice w = word();
    if (is(w, "-")) w.n = 0;
    return unhex(&frame, w);
}

/* once the line has been taken apart, and `frame` stays where it is */
static slice bytes_of(span s) {
    slice b = {frame.at + s.start, s.len};
    return b;
}

static slice all_hex(void) {
    slice b = {frame.at, frame.n};
    return b;
}

/* exactly so many bytes */
static void sized(slice s, uint8_t *to, size_t n) {
    if (s.n != 2 * n) bad("hex of the wrong size");
    for (size_t i = 0; i < n && !fault; i++) {
        int a = digit_of(s.at[2 * i]), b = digit_of(s.at[2 * i + 1]);
        if (a < 0 || b < 0) bad("no hex digit");
        else to[i] = (uint8_t)(a << 4 | b);
    }
}

static uint32_t four_of(slice s) {
    uint8_t b[4] = {0};
    sized(s, b, 4);
    return (uint32_t)b[0] << 24 | (uint32_t)b[1] << 16 | (uint32_t)b[2] << 8 | b[3];
}

static const char *const NAMES[4] = {"up", "down", "event", "command"};

static uint8_t kind_of(slice s) {
    for (uint8_t k = 0; k < 4; k++)
        if (is(s, NAMES[k])) return k;
    bad("an unknown type");
    return 0;
}

static bool is_command_word(void) {
    uint8_t k = kind_of(word());
    if (k != MESH_EVENT && k != MESH_COMMAND) bad("event or command");
    return k == MESH_COMMAND;
}

/* RELAY/RSSI/SNR, at the end of the lists */
static void entry(slice s) {
    bool second, third, fourth;
    slice relay = cut(&s, '/', &second), rssi = cut(&s, '/', &third), snr = cut(&s, '/', &fourth);
    if (!second || !third || fourth) bad("a path entry is RELAY/RSSI/SNR");
    PUSH(ids, four_of(relay));
    PUSH(rssis, i16_of(rssi));
    PUSH(snrs, i8_of(snr));
}

static void path(slice s) {
    bool again = s.n > 0;
    while (again && !fault) entry(cut(&s, ';', &again));
}

static void lend_item(uint8_t kind, uint8_t tag, size_t start, size_t len) {
    if (start > UINT32_MAX || len > UINT32_MAX) bad("an item that no span of 32 bits reaches");
    NEED(kinds, 1);
    NEED(spans, 1);
    kinds.at[kinds.n][0] = kind;
    kinds.at[kinds.n++][1] = tag;
    spans.at[spans.n][0] = (uint32_t)start;
    spans.at[spans.n++][1] = (uint32_t)len;
}

static void item(bool is_event, slice s) {
    bool valued;
    slice name = cut(&s, '=', &valued);
    if (!valued) {
        bad("an item without =");
    } else if (is_event && is(name, "hb")) {
        size_t start = ids.n;
        path(s);
        lend_item(MESH_ITEM_PATH, 0, start, ids.n - start);
    } else {
        uint8_t tag = u8_of(name);
        span value = unhex(&work, s);
        lend_item(MESH_ITEM_PROPRIETARY, tag, value.start, value.len);
    }
}

static void body(mesh_packet *p) {
    slice w = word();
    if (is(w, "empty")) {
        p->content = MESH_EMPTY;
    } else if (begins(&w, "sealed:")) {
        span run = unhex(&frame, w);
        p->content = MESH_SEALED;
        p->start = run.start;
        p->len = run.len;
    } else if (begins(&w, "open:")) {
        bool again = w.n > 0;
        while (again && !fault) item(p->kind == MESH_EVENT, cut(&w, ',', &again));
        p->content = MESH_ITEMS;
        p->len = kinds.n;
    } else {
        bad("empty, sealed: or open:");
    }
}

static void run(mesh_packet *p) {
    span b = hex();
    p->start = b.start;
    p->len = b.len;
}

static mesh_packet up_meta(mesh_packet p) {
    p.uplink_id = u16_of(word());
    p.dr = u8_of(word());
    p.rssi = i16_of(word());
    p.snr = i8_of(word());
    p.channel = u8_of(word());
    /* any number is taken, and none is written or shown */
    p.odd = UINT64_MAX;
    return p;
}

static mesh_packet down_meta(mesh_packet p) {
    p.uplink_id = u16_of(word());
    p.dr = u8_of(word());
    p.frequency = u32_of(word());
    p.tx_power = u8_of(word());
    p.delay = u8_of(word());
    return p;
}

static const mesh_packet NOTHING = {0};

static mesh_packet mesh_words(slice first) {
    mesh_packet p = NOTHING;
    p.kind = p.payload_type = kind_of(first);
    bool other;
    slice second = word(), before = cut(&second, '@', &other);
    if (other) p.payload_type = kind_of(before);
    p.hop_count = u8_of(other ? second : before);
    switch (p.kind) {
    case MESH_UPLINK:
    case MESH_DOWNLINK:
        p = p.kind == MESH_UPLINK ? up_meta(p) : down_meta(p);
        p.relay_id = four_of(word());
        run(&p);
        break;
    default:
        p.timestamp = u32_of(word());
        p.relay_id = four_of(word());
        body(&p);
    }
    slice mic = word();
    p.has_mic = !is(mic, "none");
    if (p.has_mic) p.mic = four_of(mic);
    return p;
}

static mesh_packet mesh(void) { return mesh_words(word()); }

static mesh_packet packet(void) {
    slice first = word();
    if (!is(first, "lora")) return mesh_words(first);
    mesh_packet p = NOTHING;
    p.kind = MESH_LORA;
    run(&p);
    return p;
}

/* ---- packets written */

static void put_up_meta(const mesh_packet *p) {
    put_number(p->uplink_id), put(" ");
    put_number(p->dr), put(" ");
    put_number(p->rssi), put(" ");
    put_number(p->snr), put(" ");
    put_number(p->channel);
}

static void put_down_meta(const mesh_packet *p) {
    put_number(p->uplink_id), put(" ");
    put_number(p->dr), put(" ");
    put_number(p->frequency), put(" ");
    put_number(p->tx_power), put(" ");
    put_number(p->delay);
}

static void put_entry(uint32_t relay_id, int16_t rssi, int8_t snr) {
    put_four(relay_id), put("/");
    put_number(rssi), put("/");
    put_number(snr);
}

static void put_path(const mesh_path_entry *list, uint64_t entries) {
    for (uint64_t i = 0; i < entries; i++) {
        if (i > 0) put(";");
        put_entry(list[i].relay_id, list[i].rssi, list[i].snr);
    }
}

/* an item of a clear payload */
static uint8_t put_item(const mesh_items *it) {
    if (it->kind != MESH_ITEM_HEARTBEAT) {
        put_number(it->tag), put("=");
        put_digits(it->value, it->len);
        return 0;
    }
    mesh_path_entry list[MESH_PATH_MOST];
    uint64_t entries;
    uint8_t r = mesh_path_entries_read(it->value, it->len, list, MESH_PATH_MOST, &entries);
    if (r) return r;
    put("hb=");
    put_path(list, entries);
    return 0;
}

/* a BODY of the items that a clear payload keeps */
static uint8_t put_kept(bool is_event, const uint8_t *payload, size_t n) {
    mesh_items it = mesh_items_begin(is_event, payload, n);
    bool any = false;
    while (mesh_items_next(&it)) {
        if (it.found != MESH_KEPT) continue;
        put(any ? "," : "open:");
        uint8_t r = put_item(&it);
        if (r) return r;
        any = true;
    }
    if (it.refused) return it.refused;
    if (!any) put("empty");
    return 0;
}

/* a PACKET without type, hop count and MIC; its payload lies in `in` or in `opened` */
static uint8_t put_payload(const mesh_packet *p, const uint8_t *in, const uint8_t *opened) {
    uint8_t r = 0;
    switch (p->kind) {
    case MESH_UPLINK:
    case MESH_DOWNLINK:
        if (p->kind == MESH_UPLINK) put_up_meta(p);
        else put_down_meta(p);
        put(" "), put_four(p->relay_id), put(" ");
        put_hex(in + p->start, (size_t)p->len);
        break;
    default:
        put_number(p->timestamp), put(" ");
        put_four(p->relay_id), put(" ");
        if (p->content == MESH_SEALED) {
            put("sealed:");
            put_digits(in + p->start, (size_t)p->len);
        } else if (p->content == MESH_OPEN_IN_FRAME || p->content == MESH_OPEN_IN_WORK) {
            r = put_kept(p->kind == MESH_EVENT, (p->content == MESH_OPEN_IN_FRAME ? in : opened) + p->start, (size_t)p->len);
        } else {
            put("empty");
        }
    }
    return r;
}

static uint8_t put_mesh(const mesh_packet *p, const uint8_t *in, const uint8_t *opened) {
    put(NAMES[p->kind & 3]), put(" ");
    if (p->payload_type != p->kind) put(NAMES[p->payload_type & 3]), put("@");
    put_number(p->hop_count), put(" ");
    uint8_t r = put_payload(p, in, opened);
    put(" ");
    if (p->has_mic) put_four(p->mic);
    else put("none");
    return r;
}

static uint8_t put_packet(const mesh_packet *p, const uint8_t *in) {
    if (p->kind != MESH_LORA) return put_mesh(p, in, in);
    put("lora ");
    put_hex(in + p->start, (size_t)p->len);
    return 0;
}

static void put_counts(const mesh_counts *c) {
    put_number((int64_t)c->kept), put(" ");
    put_number((int64_t)c->skipped), put(" ");
    put_number((int64_t)c->kept_bytes), put(" ");
    put_number((int64_t)c->skipped_bytes), put(" ");
    put_number((int64_t)c->cut_bytes), put(" ");
    put(c->clean ? "clean" : "unclean");
}

static void put_opened(bool was_sealed, const mesh_counts *c) {
    if (was_sealed) put_counts(c);
    else put("- - - - - -");
}

/* whether opening it is an opening: a run of no bytes counts as empty */
static bool sealed(const mesh_packet *p) { return p->content == MESH_SEALED && p->len > 0; }

static void put_yes(bool yes) { put(yes ? "yes" : "no"); }

static uint8_t put_key(const uint8_t key[16]) {
    uint8_t r = mesh_key_text(key, made, sizeof made);
    if (r == 0) put_bytes(made, 32);
    return r;
}

/* ---- requests. Each answers 0 with what stands behind `ok `, or the library's number; `bad` is seen from `fault`. */

static uint8_t key_of(span s, uint8_t key[16]) {
    slice b = bytes_of(s);
    return mesh_key(b.at, b.n, key);
}

static uint8_t frame_written(const mesh_packet *p, slice in) {
    mesh_lent l = lent(in);
    uint64_t n = 0;
    uint8_t r = mesh_packet_write(p, &l, made, sizeof made, &n);
    if (r == 0) put_hex(made, (size_t)n);
    return r;
}

static uint8_t do_read(void) {
    span s = hex();
    mesh_packet p;
    if (!whole()) return 0;
    slice b = bytes_of(s);
    uint8_t r = mesh_packet_read(&p, b.at, b.n);
    return r ? r : put_packet(&p, b.at);
}

static uint8_t do_meshread(void) {
    span s = hex();
    mesh_packet p;
    if (!whole()) return 0;
    slice b = bytes_of(s);
    uint8_t r = mesh_packet_read_mesh(&p, b.at, b.n);
    return r ? r : put_mesh(&p, b.at, b.at);
}

static uint8_t do_body(void) {
    uint8_t kind = kind_of(word());
    span s = hex();
    mesh_packet p;
    if (!whole()) return 0;
    slice b = bytes_of(s);
    uint8_t r = mesh_packet_read_body(&p, kind, b.at, b.n);
    return r ? r : put_payload(&p, b.at, b.at);
}

static uint8_t do_write(void) {
    mesh_packet p = packet();
    return whole() ? frame_written(&p, all_hex()) : 0;
}

static uint8_t do_rw(void) {
    span s = hex();
    mesh_packet p;
    if (!whole()) return 0;
    slice b = bytes_of(s);
    uint8_t r = mesh_packet_read(&p, b.at, b.n);
    return r ? r : frame_written(&p, b);
}

static uint8_t do_show(void) {
    uint64_t n = 0;
    more = false;
    uint8_t r = mesh_dump_line(rest.at, rest.n, made, sizeof made, &n);
    if (r == 0) put_bytes(made, (size_t)n);
    return r;
}

static uint8_t do_text(void) {
    mesh_packet p = mesh();
    uint64_t n = 0;
    if (!whole()) return 0;
    uint8_t r = mesh_packet_text(&p, made, sizeof made, &n);
    if (r == 0) put_bytes(made, (size_t)n);
    return r;
}

static uint8_t do_hop(void) {
    uint8_t key[16];
    span k = hex();
    uint8_t hop_count = u8_of(word());
    span b = hex();
    if (!whole()) return 0;
    uint8_t r = key_of(k, key);
    if (r == 0) r = mesh_set_hop_count(key, frame.at + b.start, b.len, hop_count);
    if (r == 0) put_hex(frame.at + b.start, b.len);
    return r;
}

static uint8_t do_sign(void) {
    uint8_t key[16];
    span k = hex();
    mesh_packet p = mesh();
    if (!whole()) return 0;
    mesh_lent l = lent(all_hex());
    uint8_t r = key_of(k, key);
    if (r == 0) r = mesh_packet_sign(&p, key, &l);
    if (r == 0) put_four(p.mic);
    return r;
}

static uint8_t do_signframe(void) {
    uint8_t key[16];
    span k = hex(), s = hex();
    mesh_packet p;
    if (!whole()) return 0;
    slice b = bytes_of(s);
    mesh_lent l = lent(b);
    uint8_t r = key_of(k, key);
    if (r == 0) r = mesh_packet_read_mesh(&p, b.at, b.n);
    if (r == 0) r = mesh_packet_sign(&p, key, &l);
    return r ? r : frame_written(&p, b);
}

static uint8_t validated(const mesh_packet *p, const uint8_t key[16], slice in) {
    mesh_lent l = lent(in);
    bool valid = false;
    uint8_t r = mesh_packet_validate(p, key, &l, &valid);
    if (r == 0) put_yes(valid);
    return r;
}

static uint8_t do_validate(void) {
    uint8_t key[16];
    span k = hex();
    mesh_packet p = mesh();
    if (!whole()) return 0;
    uint8_t r = key_of(k, key);
    return r ? r : validated(&p, key, all_hex());
}

static uint8_t do_check(void) {
    uint8_t key[16];
    span k = hex(), s = hex();
    mesh_packet p;
    if (!whole()) return 0;
    slice b = bytes_of(s);
    uint8_t r = key_of(k, key);
    if (r == 0) r = mesh_packet_read_mesh(&p, b.at, b.n);
    return r ? r : validated(&p, key, b);
}

static uint8_t do_seal(void) {
    uint8_t key[16];
    span k = hex();
    mesh_packet p = mesh();
    if (!whole()) return 0;
    mesh_lent l = lent(all_hex());
    uint8_t r = key_of(k, key);
    if (r == 0) r = mesh_packet_seal(&p, key, &l, made, sizeof made);
    /* what is sealed lies in `made`; an uplink's or downlink's payload is where it was */
    return r ? r : put_mesh(&p, p.kind == MESH_EVENT || p.kind == MESH_COMMAND ? made : frame.at, work.at);
}

static uint8_t decrypted(mesh_packet *p, const uint8_t key[16], slice in) {
    bool was_sealed = sealed(p);
    mesh_counts c;
    uint8_t r = mesh_packet_decrypt(p, key, in.at, in.n, clear, sizeof clear, &c);
    if (r) return r;
    put_opened(was_sealed, &c), put(" ");
    return put_mesh(p, in.at, clear);
}

static uint8_t do_decrypt(void) {
    uint8_t key[16];
    span k = hex();
    mesh_packet p = mesh();
    if (!whole()) return 0;
    uint8_t r = key_of(k, key);
    return r ? r : decrypted(&p, key, all_hex());
}

static uint8_t do_openframe(void) {
    uint8_t key[16];
    span k = hex(), s = hex();
    mesh_packet p;
    if (!whole()) return 0;
    slice b = bytes_of(s);
    uint8_t r = key_of(k, key);
    if (r == 0) r = mesh_packet_read_mesh(&p, b.at, b.n);
    return r ? r : decrypted(&p, key, b);
}

static uint8_t decoded(mesh_packet *p, slice in) {
    bool was_sealed = sealed(p);
    mesh_counts c;
    uint8_t r = mesh_packet_decode(p, in.at, in.n, work.at, work.n, &c);
    if (r == MESH_ALREADY_OPEN) {
        put("open");
        return 0;
    }
    if (r) return r;
    put_opened(was_sealed, &c), put(" ");
    return put_mesh(p, in.at, work.at);
}

static uint8_t do_decode(void) {
    mesh_packet p = mesh();
    return whole() ? decoded(&p, all_hex()) : 0;
}

static uint8_t do_decodeframe(void) {
    span s = hex();
    mesh_packet p;
    if (!whole()) return 0;
    slice b = bytes_of(s);
    uint8_t r = mesh_packet_read_mesh(&p, b.at, b.n);
    return r ? r : decoded(&p, b);
}

static uint8_t do_items(void) {
    bool is_event = !is_command_word();
    span s = hex();
    if (!whole()) return 0;
    slice b = bytes_of(s);
    mesh_counts c;
    uint8_t r = mesh_items_count(is_event, b.at, b.n, &c);
    if (r) return r;
    put_counts(&c);
    mesh_items it = mesh_items_begin(is_event, b.at, b.n);
    while (mesh_items_next(&it)) {
        put(it.found == MESH_KEPT ? " kept:" : it.found == MESH_SKIPPED ? " skip:" : " cut:");
        if (it.found != MESH_CUT) put_number(it.tag), put(":");
        put_number((int64_t)it.place), put(":");
        put_number((int64_t)it.len);
    }
    if (it.refused) return it.refused;
    put(" ");
    return put_kept(is_event, b.at, b.n);
}

/* the face has no call for a sealed item alone: it is what a body has behind timestamp and relay id */
static uint8_t sealed_written(uint8_t kind, span run) {
    mesh_packet p = NOTHING;
    p.kind = kind;
    p.content = MESH_SEALED;
    p.start = run.start;
    p.len = run.len;
    mesh_lent l = lent(all_hex());
    uint64_t n = 0;
    uint8_t r = mesh_packet_write_body(&p, &l, made, sizeof made, &n);
    if (r == 0) put_hex(made + 8, (size_t)n - 8);
    return r;
}

static uint8_t do_item(void) {
    bool is_event = !is_command_word();
    slice w = word();
    if (begins(&w, "sealed=")) {
        span run = unhex(&frame, w);
        return whole() ? sealed_written(is_event ? MESH_EVENT : MESH_COMMAND, run) : 0;
    }
    item(is_event, w);
    if (!whole()) return 0;
    uint8_t r = 0, kind = kinds.at[0][0], tag = kinds.at[0][1];
    slice value = {work.at, work.n};
    uint64_t n = 0;
    if (kind == MESH_ITEM_PATH) {
        r = mesh_heartbeat_write(ids.at, ids.n, rssis.at, rssis.n, snrs.at, snrs.n, clear, sizeof clear, &n);
        kind = MESH_ITEM_HEARTBEAT;
        value.at = clear;
        value.n = (size_t)n;
    }
    if (r == 0) r = mesh_item_write(is_event, kind, tag, value.at, value.n, made, sizeof made, &n);
    if (r == 0) put_hex(made, (size_t)n);
    return r;
}

static uint8_t do_stream(void) {
    uint8_t key[16];
    bool is_command = is_command_word();
    span k = hex();
    uint32_t relay_id = four_of(word()), timestamp = u32_of(word());
    span s = hex();
    if (!whole()) return 0;
    slice b = bytes_of(s);
    uint8_t r = key_of(k, key);
    if (r == 0) r = mesh_stream(key, is_command, relay_id, timestamp, b.at, b.n, made, sizeof made);
    if (r == 0) put_hex(made, b.n);
    return r;
}

static uint8_t do_hdr(void) {
    uint8_t b, header[2];
    sized(word(), &b, 1);
    if (!whole()) return 0;
    uint8_t r = mesh_header_read(b, header);
    if (r) return r;
    put(NAMES[header[0] & 3]), put(" ");
    put_number(header[1]);
    return 0;
}

static uint8_t do_hdrw(void) {
    uint8_t type = kind_of(word()), hop_count = u8_of(word()), b;
    if (!whole()) return 0;
    uint8_t r = mesh_header_write(type, hop_count, &b);
    if (r == 0) put_hex(&b, 1);
    return r;
}

static uint8_t do_type(void) {
    uint8_t n = u8_of(word());
    if (!whole()) return 0;
    uint8_t r = mesh_type(n);
    if (r == 0) put(NAMES[n & 3]);
    return r;
}

/* a type's number as the library reads it from a header that it wrote */
static uint8_t do_typew(void) {
    uint8_t type = kind_of(word()), b, header[2];
    if (!whole()) return 0;
    uint8_t r = mesh_header_write(type, 1, &b);
    if (r == 0) r = mesh_header_read(b, header);
    if (r == 0) put_number(header[0]);
    return r;
}

static uint8_t do_upmeta(void) {
    uint8_t b[5];
    uint64_t n[4];
    mesh_packet p = NOTHING;
    sized(word(), b, 5);
    if (!whole()) return 0;
    mesh_uplink_metadata_read(b, n, &p.rssi, &p.snr);
    p.uplink_id = n[0];
    p.dr = n[1];
    p.channel = n[2];
    put_up_meta(&p);
    return 0;
}

static uint8_t do_upmetaw(void) {
    uint8_t b[5];
    mesh_packet p = up_meta(NOTHING);
    if (!whole()) return 0;
    uint8_t r = mesh_uplink_metadata_write((uint16_t)p.uplink_id, (uint8_t)p.dr, p.rssi, p.snr, (uint8_t)p.channel, b);
    if (r == 0) put_hex(b, 5);
    return r;
}

static uint8_t do_downmeta(void) {
    uint8_t b[6];
    uint64_t n[5];
    mesh_packet p = NOTHING;
    sized(word(), b, 6);
    if (!whole()) return 0;
    mesh_downlink_metadata_read(b, n);
    p.uplink_id = n[0];
    p.dr = n[1];
    p.frequency = n[2];
    p.tx_power = n[3];
    p.delay = n[4];
    put_down_meta(&p);
    return 0;
}

static uint8_t do_downmetaw(void) {
    uint8_t b[6];
    mesh_packet p = down_meta(NOTHING);
    if (!whole()) return 0;
    uint8_t r = mesh_downlink_metadata_write((uint16_t)p.uplink_id, (uint8_t)p.dr, (uint32_t)p.frequency, (uint8_t)p.tx_power, (uint8_t)p.delay, b);
    if (r == 0) put_hex(b, 6);
    return r;
}

static uint8_t do_freq(void) {
    span s = hex();
    uint32_t hertz;
    if (!whole()) return 0;
    slice b = bytes_of(s);
    uint8_t r = mesh_frequency_read(b.at, b.n, &hertz);
    if (r == 0) put_number(hertz);
    return r;
}

static uint8_t do_freqw(void) {
    uint8_t b[3];
    uint32_t hertz = u32_of(word());
    if (!whole()) return 0;
    uint8_t r = mesh_frequency_write(hertz, b);
    if (r == 0) put_hex(b, 3);
    return r;
}

static uint8_t do_path(void) {
    uint8_t b[6];
    uint32_t relay_id;
    int16_t rssi;
    int8_t snr;
    uint8_t odd;
    sized(word(), b, 6);
    if (!whole()) return 0;
    mesh_path_read(b, &relay_id, &rssi, &snr, &odd);
    put_entry(relay_id, rssi, snr);
    return 0;
}

static uint8_t do_pathw(void) {
    uint8_t b[6];
    entry(word());
    if (!whole()) return 0;
    uint8_t r = mesh_path_write(ids.at[0], rssis.at[0], snrs.at[0], b);
    if (r == 0) put_hex(b, 6);
    return r;
}

/* The path of a heartbeat's value, which is the last word. */
static uint8_t path_of_value(mesh_path_entry list[MESH_PATH_MOST], uint64_t *entries) {
    span s = hex();
    *entries = 0;
    if (!whole()) return 0;
    slice b = bytes_of(s);
    return mesh_path_entries_read(b.at, b.n, list, MESH_PATH_MOST, entries);
}

static uint8_t do_hb(void) {
    mesh_path_entry list[MESH_PATH_MOST];
    uint64_t entries;
    uint8_t r = path_of_value(list, &entries);
    if (r) return r;
    put_number((int64_t)entries), put(" ");
    if (entries == 0) put("-");
    put_path(list, entries);
    return 0;
}

/* The odd bits that are read: of a frame, of metadata, of a path entry, of each entry of a heartbeat's value. */
static uint8_t do_odd(void) {
    slice of = word();
    if (is(of, "frame")) {
        span s = hex();
        mesh_packet p;
        if (!whole()) return 0;
        slice b = bytes_of(s);
        uint8_t r = mesh_packet_read_mesh(&p, b.at, b.n);
        if (r == 0) put_number((int64_t)p.odd);
        return r;
    }
    if (is(of, "upmeta")) {
        uint8_t b[5];
        uint64_t n[4];
        mesh_packet p;
        sized(word(), b, 5);
        if (!whole()) return 0;
        mesh_uplink_metadata_read(b, n, &p.rssi, &p.snr);
        put_number((int64_t)n[3]);
        return 0;
    }
    if (is(of, "path")) {
        uint8_t b[6];
        mesh_path_entry e;
        sized(word(), b, 6);
        if (!whole()) return 0;
        mesh_path_read(b, &e.relay_id, &e.rssi, &e.snr, &e.odd);
        put_number(e.odd);
        return 0;
    }
    if (is(of, "hb")) {
        mesh_path_entry list[MESH_PATH_MOST];
        uint64_t entries;
        uint8_t r = path_of_value(list, &entries);
        if (r) return r;
        if (entries == 0) put("-");
        for (uint64_t i = 0; i < entries; i++) put(i ? " " : ""), put_number(list[i].odd);
        return 0;
    }
    bad("what has odd bits");
    return 0;
}

static uint8_t do_hbw(void) {
    slice w = word();
    uint64_t n = 0;
    if (!is(w, "-")) path(w);
    if (!whole()) return 0;
    uint8_t r = mesh_heartbeat_write(ids.at, ids.n, rssis.at, rssis.n, snrs.at, snrs.n, made, sizeof made, &n);
    if (r == 0) put_hex(made, (size_t)n);
    return r;
}

static uint8_t do_keytext(void) {
    uint8_t key[16];
    span s = hex();
    if (!whole()) return 0;
    slice b = bytes_of(s);
    uint8_t r = mesh_key_of_text(b.at, b.n, key);
    return r ? r : put_key(key);
}

static uint8_t do_key(void) {
    uint8_t key[16];
    span k = hex();
    if (!whole()) return 0;
    uint8_t r = key_of(k, key);
    return r ? r : put_key(key);
}

static uint8_t derived(void (*derive)(const uint8_t root[16], uint8_t key[16])) {
    uint8_t root[16], key[16];
    span k = hex();
    if (!whole()) return 0;
    uint8_t r = key_of(k, root);
    if (r) return r;
    derive(root, key);
    return put_key(key);
}

static uint8_t do_signkey(void) { return derived(mesh_signing_key); }
static uint8_t do_enckey(void) { return derived(mesh_encryption_key); }

static uint8_t do_nullkey(void) {
    uint8_t key[16];
    if (!whole()) return 0;
    mesh_null_key(key);
    return put_key(key);
}

static uint8_t record_at(span s, mesh_record_of *known) {
    mesh_packet p;
    slice b = bytes_of(s);
    uint8_t r = mesh_packet_read_mesh(&p, b.at, b.n);
    return r ? r : mesh_packet_record(&p, known);
}

static uint8_t do_record(void) {
    span b = hex();
    mesh_record_of known;
    if (!whole()) return 0;
    uint8_t r = record_at(b, &known);
    if (r) return r;
    put(NAMES[known.type & 3]), put(" ");
    put_number(known.uplink_id), put(" ");
    put_number(known.timestamp), put(" ");
    put_four(known.relay_id);
    return 0;
}

/* SIZE is a number of 64 bits to the oracle; what 32 cannot say is as much too large as the largest that they can */
static uint32_t cache_size(void) {
    uint64_t size = count_of(word(), UINT64_MAX);
    return size > UINT32_MAX ? UINT32_MAX : (uint32_t)size;
}

static uint8_t put_seen(mesh_cache *c, const mesh_record_of *known, bool first) {
    bool is_new = false;
    uint8_t r = mesh_cache_see(c, known, &is_new);
    if (r) return r;
    if (!first) put(" ");
    put_yes(is_new);
    return 0;
}

static uint8_t do_cache(void) {
    mesh_cache c;
    uint32_t size = cache_size();
    while (more && !fault) PUSH(frames, hex());
    if (!whole()) return 0;
    uint8_t r = mesh_cache_clear(c.words, size);
    for (size_t i = 0; i < frames.n && r == 0; i++) {
        mesh_record_of known;
        r = record_at(frames.at[i], &known);
        if (r == 0) r = put_seen(&c, &known, i == 0);
    }
    return r;
}

/* TYPE/ID/TIMESTAMP/RELAY */
static mesh_record_of record_of(slice s) {
    bool second, third, fourth, fifth;
    slice type = cut(&s, '/', &second), id = cut(&s, '/', &third), timestamp = cut(&s, '/', &fourth), relay = cut(&s, '/', &fifth);
    if (!second || !third || !fourth || fifth) bad("a record is TYPE/ID/TIMESTAMP/RELAY");
    mesh_record_of known;
    known.type = kind_of(type);
    known.uplink_id = u16_of(id);
    known.timestamp = u32_of(timestamp);
    known.relay_id = four_of(relay);
    return known;
}

static uint8_t do_cacherec(void) {
    mesh_cache c;
    uint32_t size = cache_size();
    while (more && !fault) PUSH(records, record_of(word()));
    if (!whole()) return 0;
    uint8_t r = mesh_cache_clear(c.words, size);
    for (size_t i = 0; i < records.n && r == 0; i++) r = put_seen(&c, &records.at[i], i == 0);
    return r;
}

static uint8_t do_aes(void) {
    uint8_t key[16], block[16];
    span k = hex();
    sized(word(), block, 16);
    if (!whole()) return 0;
    uint8_t r = key_of(k, key);
    if (r) return r;
    mesh_encrypt_block(key, block);
    put_hex(block, 16);
    return 0;
}

static uint8_t do_cmac(void) {
    uint8_t key[16], tag[16];
    span k = hex(), s = hex();
    if (!whole()) return 0;
    slice b = bytes_of(s);
    uint8_t r = key_of(k, key);
    if (r) return r;
    mesh_cmac(key, b.at, b.n, tag);
    put_hex(tag, 16);
    return 0;
}

static const struct {
    const char *name;
    uint8_t (*answer)(void);
} REQUESTS[] = {
    {"read", do_read},
    {"meshread", do_meshread},
    {"body", do_body},
    {"write", do_write},
    {"rw", do_rw},
    {"show", do_show},
    {"text", do_text},
    {"hop", do_hop},
    {"sign", do_sign},
    {"signframe", do_signframe},
    {"validate", do_validate},
    {"check", do_check},
    {"seal", do_seal},
    {"decrypt", do_decrypt},
    {"decode", do_decode},
    {"openframe", do_openframe},
    {"decodeframe", do_decodeframe},
    {"items", do_items},
    {"item", do_item},
    {"stream", do_stream},
    {"hdr", do_hdr},
    {"hdrw", do_hdrw},
    {"type", do_type},
    {"typew", do_typew},
    {"upmeta", do_upmeta},
    {"upmetaw", do_upmetaw},
    {"downmeta", do_downmeta},
    {"downmetaw", do_downmetaw},
    {"freq", do_freq},
    {"freqw", do_freqw},
    {"path", do_path},
    {"pathw", do_pathw},
    {"hb", do_hb},
    {"hbw", do_hbw},
    {"odd", do_odd},
    {"keytext", do_keytext},
    {"key", do_key},
    {"nullkey", do_nullkey},
    {"signkey", do_signkey},
    {"enckey", do_enckey},
    {"record", do_record},
    {"cache", do_cache},
    {"cacherec", do_cacherec},
    {"aes", do_aes},
    {"cmac", do_cmac},
};

static uint8_t asked(void) {
    slice what = word();
    for (size_t i = 0; i < sizeof REQUESTS / sizeof *REQUESTS && !fault; i++)
        if (is(what, REQUESTS[i].name)) return REQUESTS[i].answer();
    bad("an unknown word");
    return 0;
}

static void answer(const uint8_t *line, size_t n) {
    size_t start = out.n;
    fault = NULL;
    rest.at = line;
    rest.n = n;
    more = true;
    forget_line();
    put("ok ");
    uint8_t r = asked();
    if (fault || r) {
        out.n = start;
        put(fault ? "bad " : "no ");
        if (fault) put(fault);
        else put_number(r);
    } else if (out.n == start + 3) {
        /* a cache to which nothing was added */
        out.n--;
    }
    put("\n");
}

static void give(void) {
    size_t done = 0;
    while (done < out.n) {
        ssize_t n = write(STDOUT_FILENO, out.at + done, out.n - done);
        if (n < 0 && errno == EINTR) continue;
        /* whoever asked has gone */
        if (n <= 0) exit(0);
        done += (size_t)n;
    }
    out.n = 0;
}

int main(void) {
    static bytes held; /* what was read and is not answered yet */
    size_t seen = 0;   /* in held: no newline before it */
    signal(SIGPIPE, SIG_IGN);
    for (;;) {
        NEED(held, 1 << 16);
        ssize_t n = read(STDIN_FILENO, held.at + held.n, held.room - held.n);
        if (n < 0 && errno == EINTR) continue;
        if (n <= 0) break;
        held.n += (size_t)n;
        size_t start = 0;
        const uint8_t *end;
        while (seen < held.n && (end = memchr(held.at + seen, '\n', held.n - seen)) != NULL) {
            size_t at = (size_t)(end - held.at);
            answer(held.at + start, at - start);
            start = seen = at + 1;
            if (out.n > 1 << 20) give();
        }
        if (start > 0) memmove(held.at, held.at + start, held.n - start);
        held.n -= start;
        seen = held.n;
        /* every line that has come is answered before more is waited for */
        give();
    }
    if (held.n > 0) answer(held.at, held.n);
    give();
    return 0;
}
