/* The calls that bench/turns measures. It is compiled twice: as `after` over the archive of this tree, and as `before` over an older one, whose
   functions then have `before_` before their names. */
#include <string.h>

#include "mesh.h"
#include "side.h"

/* ALONE: a byte that readers load alone. To load it with others the next call would wait until it is stored. */
enum { MOST = 8192, ALONE = 5 };

/* All that the calls are given and leave, on both sides at the same place of a cache line. */
static _Alignas(64) struct {
    uint8_t key[16], block[16], tag[16], frame[MOST], downlink[MOST], event[MOST], message[MOST], work[MOST], out[MOST];
    struct { uint8_t clear[MOST], sealed[MOST]; mesh_packet decoded; } beats[3];
    uint32_t words[MESH_CIPHER_WORDS];
    mesh_packet packet;
    mesh_counts counts;
    uint64_t length, valid;
    uint32_t hertz;
} the;

/* A cipher of an archive that asks for more than this header, too. */
static uint32_t ready[MESH_CIPHER_WORDS + 256];
static uint64_t refusals;

/* Events whose payload is heartbeats and one item behind them, by size. No odd bit is set: every entry is asked. */
static const uint8_t BEATS_KEY[16] = {1};
static size_t beats_of(size_t n) { return n == 64 ? 0 : n == 255 ? 1 : 2; }

static void make_beats(size_t n)
{
    uint8_t *clear = the.beats[beats_of(n)].clear, *sealed = the.beats[beats_of(n)].sealed, *item = clear + 9;
    for (int i = 0; i < MOST; i++) clear[i] = (uint8_t)(i * 11 + 3);
    clear[0] = 0xf0;
    size_t left = n - 13;
    while (left > 10) {
        const size_t most = (left - 4) / 6, entries = most < 42 ? most : 42;
        item[0] = 0, item[1] = (uint8_t)(6 * entries);
        for (size_t i = 1; i <= entries; i++) item[1 + 6 * i] &= 63;
        item += 2 + 6 * entries, left -= 2 + 6 * entries;
    }
    item[0] = 1, item[1] = (uint8_t)(left - 2);
    memcpy(sealed, clear, MOST);
    refusals += mesh_packet_read_mesh(&the.packet, clear, n);
    refusals += mesh_stream(BEATS_KEY, false, the.packet.relay_id, the.packet.timestamp, clear + 9, n - 13, sealed + 9, n - 13);
    refusals += mesh_packet_decode(&the.packet, clear, n, NULL, 0, &the.counts);
    the.beats[beats_of(n)].decoded = the.packet;
}

static void begin(void)
{
    memset(&the, 0, sizeof the);
    for (int i = 0; i < 16; i++) the.key[i] = (uint8_t)(i * 7 + 1), the.block[i] = (uint8_t)i;
    for (int i = 0; i < MOST; i++) the.message[i] = the.frame[i] = the.downlink[i] = the.event[i] = (uint8_t)(i * 11 + 3);
    the.frame[0] = 0xe0, the.downlink[0] = 0xe8, the.event[0] = 0xf0;
    the.hertz = 2400000000;
    mesh_prepare(the.key, ready);
    refusals = 0;
    make_beats(64), make_beats(255), make_beats(MOST);
}

static void block_ready(void) { mesh_encipher(ready, the.block); }

static void block_set(void)
{
    mesh_encrypt_block(the.key, the.block);
    the.key[1] = the.block[1];
}

static void prepared(void)
{
    mesh_prepare(the.key, ready);
    the.key[1]++;
    memcpy(the.words + MESH_CIPHER_WORDS - 4, ready + MESH_CIPHER_WORDS - 4, 4 * sizeof *ready);
}

static void mic(size_t n)
{
    mesh_cmac(the.key, the.message, n, the.tag);
    the.message[0] = the.tag[0];
    the.key[1] = the.tag[1];
}

static void mic_ready(size_t n)
{
    mesh_mac(ready, the.message, n, the.tag);
    the.message[0] = the.tag[0];
}

static void streamed(size_t n)
{
    refusals += mesh_stream(the.key, false, 0x0a0b0c0d, 60, the.message, n, the.work, MOST);
    the.key[1] = the.work[3];
}

/* an event of n bytes, its payload sealed, from its bytes on */
static void opened(size_t n)
{
    refusals += mesh_packet_read_mesh(&the.packet, the.event, n);
    refusals += mesh_packet_decrypt(&the.packet, the.key, the.event, n, the.work, MOST, &the.counts);
    the.key[1] = the.work[3];
}

/* the same of heartbeats; and these where they lie clear: decoded, and written once they are */
static void opened_beats(size_t n)
{
    uint8_t *frame = the.beats[beats_of(n)].sealed;
    refusals += mesh_packet_read_mesh(&the.packet, frame, n);
    refusals += mesh_packet_decrypt(&the.packet, BEATS_KEY, frame, n, the.work, MOST, &the.counts);
    frame[n - 1] = (uint8_t)(frame[n - 1] + the.counts.clean);
}

static void decoded(size_t n)
{
    uint8_t *frame = the.beats[beats_of(n)].clear;
    refusals += mesh_packet_read_mesh(&the.packet, frame, n);
    refusals += mesh_packet_decode(&the.packet, frame, n, NULL, 0, &the.counts);
    frame[n - 1] = (uint8_t)(frame[n - 1] + the.counts.clean);
}

static void written(size_t n)
{
    uint8_t *frame = the.beats[beats_of(n)].clear;
    mesh_lent lent = mesh_lent_frame(frame, n);
    refusals += mesh_packet_write(&the.beats[beats_of(n)].decoded, &lent, the.out, MOST, &the.length);
    frame[n - 5]++;
}

/* an uplink of n bytes, from its bytes on */
static void validated(size_t n)
{
    mesh_lent lent = mesh_lent_frame(the.frame, n);
    bool valid = false;
    refusals += mesh_packet_read_mesh(&the.packet, the.frame, n);
    refusals += mesh_packet_validate(&the.packet, the.key, &lent, &valid);
    the.valid += valid;
    the.key[1]++;
}

static void edited(size_t n)
{
    refusals += mesh_set_hop_count(the.key, the.frame, n, 1 + (the.frame[n - 1] & 7));
    the.key[1] = the.frame[n - 2];
}

static void read(void)
{
    refusals += mesh_packet_read(&the.packet, the.frame, 64);
    the.frame[ALONE]++;
}

static void wrote(uint8_t *frame)
{
    mesh_lent lent = mesh_lent_frame(frame, 64);
    refusals += mesh_packet_read(&the.packet, frame, 64);
    refusals += mesh_packet_write(&the.packet, &lent, the.work, MOST, &the.length);
    frame[ALONE]++;
}

static void wrote_uplink(void) { wrote(the.frame); }
static void wrote_downlink(void) { wrote(the.downlink); }

static void dumped(void)
{
    refusals += mesh_dump_frame(the.frame, 64, the.out, MOST, &the.length);
    the.frame[ALONE]++;
}

static void frequency(void)
{
    refusals += mesh_frequency_write(the.hertz, the.work);
    the.hertz += 200;
}

#define AT(what, n) static void what##_##n(void) { what(n); }
AT(mic, 14) AT(mic, 64) AT(mic, 255) AT(mic, 8192) AT(mic_ready, 14) AT(mic_ready, 64) AT(mic_ready, 255) AT(mic_ready, 8192)
AT(streamed, 64) AT(streamed, 255) AT(streamed, 8179) AT(opened, 64) AT(opened, 255) AT(opened, 8192)
AT(opened_beats, 64) AT(opened_beats, 255) AT(opened_beats, 8192) AT(decoded, 64) AT(decoded, 255) AT(decoded, 8192)
AT(written, 64) AT(written, 255) AT(written, 8192)
AT(validated, 14) AT(validated, 64) AT(validated, 255) AT(validated, 8192) AT(edited, 14) AT(edited, 64) AT(edited, 255) AT(edited, 8192)

static const struct call calls[] = {
    {"a block, key ready (mesh_encipher)", block_ready, 2000, true},
    {"a block, key set (mesh_encrypt_block)", block_set, 1000, true},
    {"key made ready (mesh_prepare)", prepared, 2000, true},
    {"MIC of 14 bytes, key set (mesh_cmac)", mic_14, 600, true},
    {"MIC of 64 bytes, key set", mic_64, 300, false},
    {"MIC of 255 bytes, key set", mic_255, 100, false},
    {"MIC of 8,192 bytes, key set", mic_8192, 4, false},
    {"MIC of 14 bytes, key ready (mesh_mac)", mic_ready_14, 600, true},
    {"MIC of 64 bytes, key ready", mic_ready_64, 300, false},
    {"MIC of 255 bytes, key ready", mic_ready_255, 100, false},
    {"MIC of 8,192 bytes, key ready", mic_ready_8192, 4, false},
    {"64 bytes sealed (mesh_stream)", streamed_64, 300, true},
    {"255 bytes sealed", streamed_255, 100, false},
    {"8,179 bytes sealed", streamed_8179, 4, false},
    {"an event of 64 bytes opened (mesh_decrypt)", opened_64, 300, true},
    {"an event of 255 bytes opened", opened_255, 100, false},
    {"an event of 8,192 bytes opened", opened_8192, 4, false},
    {"heartbeats, 64 bytes, opened", opened_beats_64, 300, true},
    {"heartbeats, 255 bytes, opened", opened_beats_255, 100, false},
    {"heartbeats, 8,192 bytes, opened", opened_beats_8192, 4, false},
    {"heartbeats, 64 bytes, decoded (mesh_decode)", decoded_64, 3000, true},
    {"heartbeats, 255 bytes, decoded", decoded_255, 3000, false},
    {"heartbeats, 8,192 bytes, decoded", decoded_8192, 100, false},
    {"heartbeats, 64 bytes, written", written_64, 1000, true},
    {"heartbeats, 255 bytes, written", written_255, 300, false},
    {"heartbeats, 8,192 bytes, written", written_8192, 10, false},
    {"an uplink of 14 bytes validated (mesh_validate)", validated_14, 600, true},
    {"an uplink of 64 bytes validated", validated_64, 300, false},
    {"an uplink of 255 bytes validated", validated_255, 100, false},
    {"an uplink of 8,192 bytes validated", validated_8192, 4, false},
    {"hop edit of 14 bytes (mesh_set_hop_count)", edited_14, 600, true},
    {"hop edit of 64 bytes", edited_64, 300, false},
    {"hop edit of 255 bytes", edited_255, 100, false},
    {"hop edit of 8,192 bytes", edited_8192, 4, false},
    {"an uplink of 64 bytes read (mesh_read)", read, 5000, true},
    {"read and written (mesh_write)", wrote_uplink, 3000, true},
    {"a downlink of 64 bytes read and written", wrote_downlink, 3000, true},
    {"the line of an uplink (mesh_dump_frame)", dumped, 1000, true},
    {"a frequency written (mesh_frequency_write)", frequency, 5000, false},
};

static uint64_t refused(void) { return refusals; }

const struct side SIDE = {calls, sizeof calls / sizeof *calls, mesh_version, begin, refused, &the, sizeof the};
