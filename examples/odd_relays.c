/* Which relays set odd bits, and how often. Reads frames from standard input, a line of hex each, as mesh-dump does, of any number of lines. A relay
 * that passes an uplink on clears its bits, so only those with a hop count of 1 tell of the relay that they name. With a root key (32 digits) events
 * that validate are opened too, and the entries of their paths counted. How many lines were read, and how many were no frame of the mesh, is said on
 * standard error. docs/LINKING.md says how to build it.
 *
 *     ./odd_relays < FILE
 *     ./odd_relays 000102030405060708090a0b0c0d0e0f < FILE */
#include <inttypes.h>
#include <stdio.h>
#include <stdlib.h>
#include <string.h>

#include "mesh.h"

struct seen {
    uint32_t id;
    uint64_t uplinks, odd_uplinks, entries, odd_entries;
};

static struct seen *relays;
static size_t count;

static struct seen *relay(uint32_t id) {
    for (size_t i = 0; i < count; i++)
        if (relays[i].id == id) return &relays[i];
    struct seen *more = realloc(relays, (count + 1) * sizeof *more);
    if (!more) exit(1);
    relays = more;
    relays[count] = (struct seen){.id = id};
    return &relays[count++];
}

/* The most first, and then by id. */
static int order(const void *a, const void *b) {
    const struct seen *x = a, *y = b;
    uint64_t m = x->odd_uplinks + x->odd_entries, n = y->odd_uplinks + y->odd_entries;
    return m != n ? (m < n ? 1 : -1) : x->id != y->id ? (x->id < y->id ? -1 : 1) : 0;
}

/* A line of hex into frame; -1 at the input's end, and no bytes where it is none or too long. */
static long next_frame(uint8_t frame[MESH_FRAME_MOST]) {
    size_t digits = 0;
    bool good = true;
    int c = getchar();
    if (c == EOF) return -1;
    for (; c != EOF && c != '\n'; c = getchar()) {
        int v = c >= '0' && c <= '9' ? c - '0' : c >= 'a' && c <= 'f' ? c - 'a' + 10 : c >= 'A' && c <= 'F' ? c - 'A' + 10 : -1;
        if (v < 0 || digits == 2 * MESH_FRAME_MOST) good = false;
        if (!good) continue;
        frame[digits / 2] = (uint8_t)(digits % 2 ? frame[digits / 2] << 4 | v : v);
        digits++;
    }
    return good && digits % 2 == 0 ? (long)(digits / 2) : 0;
}

static void look_at_paths(const mesh_packet *p, const uint8_t *work) {
    mesh_path_entry path[MESH_PATH_MOST];
    uint64_t entries;
    mesh_items it = mesh_items_begin(true, work + p->start, p->len);
    while (mesh_items_next(&it)) {
        if (it.found != MESH_KEPT || it.kind != MESH_ITEM_HEARTBEAT) continue;
        if (mesh_path_entries_read(it.value, it.len, path, MESH_PATH_MOST, &entries)) continue;
        for (uint64_t i = 0; i < entries; i++) {
            struct seen *by = relay(path[i].relay_id);
            by->entries++;
            by->odd_entries += path[i].odd != 0;
        }
    }
}

int main(int argc, char **argv) {
    static uint8_t frame[MESH_FRAME_MOST], work[MESH_PAYLOAD_MOST];
    uint8_t root[16], signing[16], key[16];
    uint64_t lines = 0, passed_over = 0;
    mesh_packet p;
    mesh_counts counts;
    if (mesh_version() != MESH_VERSION) return 1;
    if (argc > 2 || (argc == 2 && mesh_key_of_text((const uint8_t *)argv[1], strlen(argv[1]), root))) {
        fprintf(stderr, "usage: odd_relays [ROOT KEY, of 32 digits] < FRAMES\n");
        return 1;
    }
    if (argc == 2) mesh_signing_key(root, signing), mesh_encryption_key(root, key);
    for (long n; (n = next_frame(frame)) >= 0; lines++) {
        const mesh_lent lent = mesh_lent_frame(frame, (size_t)n);
        bool valid = false;
        if (mesh_packet_read_mesh(&p, frame, (size_t)n)) {
            passed_over++;
        } else if (p.kind == MESH_UPLINK && p.hop_count == 1) {
            struct seen *by = relay((uint32_t)p.relay_id);
            by->uplinks++;
            by->odd_uplinks += p.odd != 0;
        } else if (p.kind == MESH_EVENT && argc == 2) {
            /* what another key sealed would open to anything */
            if (mesh_packet_validate(&p, signing, &lent, &valid) || !valid) continue;
            if (mesh_packet_decrypt(&p, key, frame, (size_t)n, work, sizeof work, &counts) == 0 && p.content == MESH_OPEN_IN_WORK)
                look_at_paths(&p, work);
        }
    }
    if (count) qsort(relays, count, sizeof *relays, order);
    for (size_t i = 0; i < count && relays[i].odd_uplinks + relays[i].odd_entries; i++) {
        const struct seen *by = &relays[i];
        printf("%08" PRIx32 ": odd bits in %" PRIu64 " of %" PRIu64 " uplinks", by->id, by->odd_uplinks, by->uplinks);
        if (argc == 2) printf(" and %" PRIu64 " of %" PRIu64 " path entries", by->odd_entries, by->entries);
        printf("\n");
    }
    free(relays);
    fprintf(stderr, "%" PRIu64 " lines, %" PRIu64 " of them no frame of the mesh\n", lines, passed_over);
    if (ferror(stdin)) fprintf(stderr, "the input cannot be read\n");
    return ferror(stdin) != 0;
}
