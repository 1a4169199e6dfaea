/* What a console does with each frame that it receives: it reads the frame, validates it, looks it up, opens it, finds the relay, and passes on
 * what is valid and new with one hop more. The frames are built in; bindings/rust/examples/console.rs has the same and prints the same. docs/LINKING.md says how to build it. */
#include <inttypes.h>
#include <stdio.h>
#include <string.h>

#include "mesh.h"

/* An uplink, the same over one hop more, a forged one, a sealed event of a heartbeat and another item, a command, a LoRa frame, an uplink of
 * a relay that is not listed, and what is no frame. They are signed and sealed with the keys that are derived from ROOT. */
static const char *const FRAMES[] = {
    "e012355007020a0b0c0d4001020304b2212410",
    "e112355007020a0b0c0d4001020304e7d64029",
    "e012455007020a0b0c0d40010203040c68db6a",
    "f16553f1000a0b0c0ed551e26d3c75b19fa00c339ce33e52d260245db5e612fb",
    "f86553f13c0a0b0c0d3a8dbdd2f6cdbb",
    "4011223344",
    "e012355007020a0b0c1d4001020304fbe54ffc",
    "e000",
};

static const char ROOT[] = "000102030405060708090a0b0c0d0e0f";

/* The relays that are known. Ids are the same where all eight digits are. */
static const struct {
    uint32_t id;
    const char *name;
} RELAYS[] = {{0x0a0b0c0d, "mill"}, {0x0a0b0c0e, "church"}};

struct keys {
    uint8_t signing[16];
    uint8_t encryption[16];
};

enum received { NEW, DUPLICATE, LORA, NOT_VALID, REFUSED };

/* Reads, validates, looks up and opens a frame into packet; what it is known by is in known, what its items are in counts, and of REFUSED the
 * number in refused. Unless it is NEW, the cache and the work buffer are as they were: a frame that does not validate is neither added nor
 * opened. */
static enum received receive(const uint8_t *frame, size_t n, const struct keys *keys, mesh_cache *cache, uint8_t *work, size_t work_len,
                             mesh_packet *packet, mesh_record_of *known, mesh_counts *counts, uint8_t *refused) {
    mesh_lent lent = mesh_lent_frame(frame, n);
    bool valid = false, is_new = false;
    if ((*refused = mesh_packet_read(packet, frame, n))) return REFUSED;
    if (packet->kind == MESH_LORA) return LORA;
    if ((*refused = mesh_packet_validate(packet, keys->signing, &lent, &valid))) return REFUSED;
    if (!valid) return NOT_VALID;
    if ((*refused = mesh_packet_record(packet, known))) return REFUSED;
    /* On a copy, which takes the cache's place once all is done. */
    mesh_cache seen = *cache;
    if ((*refused = mesh_cache_see(&seen, known, &is_new))) return REFUSED;
    if (!is_new) return DUPLICATE;
    if ((*refused = mesh_packet_decrypt(packet, keys->encryption, frame, n, work, work_len, counts))) return REFUSED;
    *cache = seen;
    return NEW;
}

static void print_relay(uint64_t id) {
    const char *name = "not listed";
    for (size_t i = 0; i < sizeof RELAYS / sizeof *RELAYS; i++)
        if (RELAYS[i].id == id) name = RELAYS[i].name;
    printf("%08" PRIx64 " (%s)", id, name);
}

static void print_hex(const uint8_t *b, uint64_t n) {
    for (uint64_t i = 0; i < n; i++) printf("%02x", b[i]);
    printf("\n");
}

static void print_heartbeat(const uint8_t *value, size_t n) {
    mesh_path_entry path[MESH_PATH_MOST];
    uint64_t entries;
    printf("  heartbeat\n");
    if (mesh_path_entries_read(value, n, path, MESH_PATH_MOST, &entries)) return;
    for (uint64_t i = 0; i < entries; i++) {
        printf("    ");
        print_relay(path[i].relay_id);
        printf(" rssi %d snr %d\n", path[i].rssi, path[i].snr);
    }
}

/* The items of a packet that was opened into work. */
static void print_items(const mesh_packet *p, const uint8_t *work) {
    if (p->content != MESH_OPEN_IN_WORK) return;
    mesh_items it = mesh_items_begin(p->kind == MESH_EVENT, work + p->start, p->len);
    while (mesh_items_next(&it)) {
        if (it.found == MESH_SKIPPED) {
            printf("  skipped: %zu bytes\n", it.len);
        } else if (it.found == MESH_CUT) {
            printf("  cut: %zu bytes\n", it.len);
        } else if (it.kind == MESH_ITEM_HEARTBEAT) {
            print_heartbeat(it.value, it.len);
        } else {
            printf("  item %d: ", it.tag);
            print_hex(it.value, it.len);
        }
    }
}

static void print_packet(const mesh_packet *p, const uint8_t *frame, const uint8_t *work) {
    switch (p->kind) {
    case MESH_UPLINK:
        printf("uplink %" PRIu64 " from ", p->uplink_id);
        print_relay(p->relay_id);
        printf(" rssi %d snr %d: ", p->rssi, p->snr);
        print_hex(frame + p->start, p->len);
        break;
    case MESH_DOWNLINK:
        printf("downlink %" PRIu64 " to ", p->uplink_id);
        print_relay(p->relay_id);
        printf(": ");
        print_hex(frame + p->start, p->len);
        break;
    default:
        printf("%s at %" PRIu64 " %s ", p->kind == MESH_EVENT ? "event" : "command", p->timestamp, p->kind == MESH_EVENT ? "from" : "to");
        print_relay(p->relay_id);
        printf("\n");
        print_items(p, work);
    }
}

/* One hop more, in the frame's own buffer. The hop edit signs whatever it is given, so only a frame that was validated comes here: a forged one
 * would go on with a good MIC. */
static void pass_on(uint8_t *frame, size_t n, const struct keys *keys, const mesh_packet *p) {
    uint8_t refused = mesh_set_hop_count(keys->signing, frame, n, (uint8_t)(p->hop_count + 1));
    if (refused) {
        printf("  not passed on: refused %u\n", refused);
        return;
    }
    printf("  passed on: ");
    print_hex(frame, n);
}

static unsigned digit(char c) { return c <= '9' ? (unsigned)(c - '0') : (unsigned)(c - 'a' + 10); }

int main(void) {
    static uint8_t frame[MESH_FRAME_MOST], work[MESH_PAYLOAD_MOST];
    uint8_t root[16];
    struct keys keys;
    mesh_cache cache;
    if (mesh_version() != MESH_VERSION) return 1;
    if (mesh_key_of_text((const uint8_t *)ROOT, strlen(ROOT), root)) return 1;
    mesh_signing_key(root, keys.signing);
    mesh_encryption_key(root, keys.encryption);
    if (mesh_cache_clear(cache.words, MESH_CACHE_MOST)) return 1;
    for (size_t i = 0; i < sizeof FRAMES / sizeof *FRAMES; i++) {
        size_t n = strlen(FRAMES[i]) / 2;
        for (size_t k = 0; k < n; k++) frame[k] = (uint8_t)(16 * digit(FRAMES[i][2 * k]) + digit(FRAMES[i][2 * k + 1]));
        mesh_packet packet;
        mesh_record_of known;
        mesh_counts counts;
        uint8_t refused;
        switch (receive(frame, n, &keys, &cache, work, sizeof work, &packet, &known, &counts, &refused)) {
        case NEW:
            print_packet(&packet, frame, work);
            pass_on(frame, n, &keys, &packet);
            break;
        case DUPLICATE:
            printf("duplicate: ");
            print_relay(known.relay_id);
            printf("\n");
            break;
        case LORA: printf("lora: %" PRIu64 " bytes\n", packet.len); break;
        case NOT_VALID: printf("not valid\n"); break;
        case REFUSED: printf("refused %u\n", refused); break;
        }
    }
    return 0;
}
