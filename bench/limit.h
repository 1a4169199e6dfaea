/* A frame read, and an uplink written, by hand in C: what bench.c measures the library beside. The refusals and their order are the library's, and a
   refusal changes nothing; bench.c holds both to it. */
#include <stdbool.h>
#include <stddef.h>
#include <stdint.h>

struct hand {
    uint8_t kind, payload_type, hop_count;
    bool has_mic;
    uint32_t mic, relay_id;
    uint16_t uplink_id;
    uint8_t dr;
    int16_t rssi;
    int8_t snr;
    uint8_t channel, odd;
    uint32_t frequency;
    uint8_t tx_power, delay;
    uint32_t timestamp;
    uint8_t content;
    uint64_t start, len;
};

/* Any frame: 1, 5, 2, 4. */
uint8_t hand_read(struct hand *p, const uint8_t *frame, size_t n);

/* An uplink: 29, 6, 7, 45, 8 to 13, 27, 5, 21. */
uint8_t hand_write(const struct hand *p, const uint8_t *frame, size_t n, uint8_t *out, size_t out_len, uint64_t *length);
