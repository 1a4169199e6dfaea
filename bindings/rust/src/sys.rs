//! The exported functions of `include/mesh.h`, and the codes that their numbers take, as they stand there.
//!
//! The prover does not know these declarations; `tools/faces` compares them, as text, with the header and with the library. Pointers are never
//! null, also where a length is 0, and what is written overlaps nothing else that the same call is lent; slices and references of Rust keep
//! both.
#![allow(dead_code)]

// from include/mesh.table: codes
pub(crate) const MESH_VERSION: u32 = 6;

// enum mesh_size
pub(crate) const MESH_CACHE_WORDS: usize = 195;
pub(crate) const MESH_CIPHER_WORDS: usize = 260;
pub(crate) const MESH_PACKET_NUMBERS: usize = 17;
pub(crate) const MESH_RECORD_NUMBERS: usize = 4;
pub(crate) const MESH_COUNTS_NUMBERS: usize = 6;
pub(crate) const MESH_ITEM_NUMBERS: usize = 6;

// enum mesh_refusal
pub(crate) const MESH_ALREADY_OPEN: u8 = 255;

// enum mesh_kind
pub(crate) const MESH_UPLINK: u8 = 0;
pub(crate) const MESH_DOWNLINK: u8 = 1;
pub(crate) const MESH_EVENT: u8 = 2;
pub(crate) const MESH_COMMAND: u8 = 3;
pub(crate) const MESH_LORA: u8 = 4;

// enum mesh_content
pub(crate) const MESH_EMPTY: u8 = 0;
pub(crate) const MESH_SEALED: u8 = 1;
pub(crate) const MESH_OPEN_IN_FRAME: u8 = 2;
pub(crate) const MESH_OPEN_IN_WORK: u8 = 3;
pub(crate) const MESH_ITEMS: u8 = 4;

// enum mesh_found
pub(crate) const MESH_END: u8 = 0;
pub(crate) const MESH_KEPT: u8 = 1;
pub(crate) const MESH_SKIPPED: u8 = 2;
pub(crate) const MESH_CUT: u8 = 3;

// enum mesh_item_kind
pub(crate) const MESH_ITEM_HEARTBEAT: u8 = 1;
pub(crate) const MESH_ITEM_PROPRIETARY: u8 = 2;
pub(crate) const MESH_ITEM_PATH: u8 = 3;
// end

extern "C" {
    pub(crate) fn mesh_version() -> u32;

    // Reading.
    pub(crate) fn mesh_read(frame: *const u8, n: usize, numbers: *mut [u64; MESH_PACKET_NUMBERS], rssi: *mut i16, snr: *mut i8) -> u8;
    pub(crate) fn mesh_read_mesh(frame: *const u8, n: usize, numbers: *mut [u64; MESH_PACKET_NUMBERS], rssi: *mut i16, snr: *mut i8) -> u8;
    pub(crate) fn mesh_read_body(
        kind: u8,
        body: *const u8,
        n: usize,
        numbers: *mut [u64; MESH_PACKET_NUMBERS],
        rssi: *mut i16,
        snr: *mut i8,
    ) -> u8;

    // Writing.
    pub(crate) fn mesh_write(
        numbers: *const [u64; MESH_PACKET_NUMBERS],
        rssi: i16,
        snr: i8,
        frame: *const u8,
        frame_len: usize,
        work: *const u8,
        work_len: usize,
        kinds: *const [u8; 2],
        kinds_len: usize,
        spans: *const [u32; 2],
        spans_len: usize,
        ids: *const u32,
        ids_len: usize,
        rssis: *const i16,
        rssis_len: usize,
        snrs: *const i8,
        snrs_len: usize,
        out: *mut u8,
        out_len: usize,
        length: *mut u64,
    ) -> u8;
    pub(crate) fn mesh_write_body(
        numbers: *const [u64; MESH_PACKET_NUMBERS],
        rssi: i16,
        snr: i8,
        frame: *const u8,
        frame_len: usize,
        work: *const u8,
        work_len: usize,
        kinds: *const [u8; 2],
        kinds_len: usize,
        spans: *const [u32; 2],
        spans_len: usize,
        ids: *const u32,
        ids_len: usize,
        rssis: *const i16,
        rssis_len: usize,
        snrs: *const i8,
        snrs_len: usize,
        out: *mut u8,
        out_len: usize,
        length: *mut u64,
    ) -> u8;

    // Signing keys.
    pub(crate) fn mesh_sign(
        numbers: *mut [u64; MESH_PACKET_NUMBERS],
        rssi: i16,
        snr: i8,
        key: *const [u8; 16],
        frame: *const u8,
        frame_len: usize,
        work: *const u8,
        work_len: usize,
        kinds: *const [u8; 2],
        kinds_len: usize,
        spans: *const [u32; 2],
        spans_len: usize,
        ids: *const u32,
        ids_len: usize,
        rssis: *const i16,
        rssis_len: usize,
        snrs: *const i8,
        snrs_len: usize,
    ) -> u8;
    pub(crate) fn mesh_validate(
        numbers: *const [u64; MESH_PACKET_NUMBERS],
        rssi: i16,
        snr: i8,
        key: *const [u8; 16],
        frame: *const u8,
        frame_len: usize,
        work: *const u8,
        work_len: usize,
        kinds: *const [u8; 2],
        kinds_len: usize,
        spans: *const [u32; 2],
        spans_len: usize,
        ids: *const u32,
        ids_len: usize,
        rssis: *const i16,
        rssis_len: usize,
        snrs: *const i8,
        snrs_len: usize,
        valid: *mut u8,
    ) -> u8;
    pub(crate) fn mesh_set_hop_count(key: *const [u8; 16], frame: *mut u8, n: usize, hop_count: u8) -> u8;

    // Encryption keys.
    pub(crate) fn mesh_seal(
        numbers: *mut [u64; MESH_PACKET_NUMBERS],
        key: *const [u8; 16],
        frame: *const u8,
        frame_len: usize,
        work: *const u8,
        work_len: usize,
        kinds: *const [u8; 2],
        kinds_len: usize,
        spans: *const [u32; 2],
        spans_len: usize,
        ids: *const u32,
        ids_len: usize,
        rssis: *const i16,
        rssis_len: usize,
        snrs: *const i8,
        snrs_len: usize,
        out: *mut u8,
        out_len: usize,
    ) -> u8;
    pub(crate) fn mesh_decrypt(
        numbers: *mut [u64; MESH_PACKET_NUMBERS],
        key: *const [u8; 16],
        frame: *const u8,
        frame_len: usize,
        work: *mut u8,
        work_len: usize,
        counts: *mut [u64; MESH_COUNTS_NUMBERS],
    ) -> u8;
    pub(crate) fn mesh_decode(
        numbers: *mut [u64; MESH_PACKET_NUMBERS],
        frame: *const u8,
        frame_len: usize,
        work: *const u8,
        work_len: usize,
        counts: *mut [u64; MESH_COUNTS_NUMBERS],
    ) -> u8;

    // Items of a clear payload.
    pub(crate) fn mesh_item(is_event: bool, payload: *const u8, n: usize, at: u64, item: *mut [u64; MESH_ITEM_NUMBERS]) -> u8;
    pub(crate) fn mesh_count(is_event: bool, payload: *const u8, n: usize, counts: *mut [u64; MESH_COUNTS_NUMBERS]) -> u8;
    pub(crate) fn mesh_item_write(
        is_event: bool,
        kind: u8,
        tag: u8,
        value: *const u8,
        n: usize,
        out: *mut u8,
        out_len: usize,
        length: *mut u64,
    ) -> u8;
    pub(crate) fn mesh_stream(
        key: *const [u8; 16],
        is_command: bool,
        relay_id: u32,
        timestamp: u32,
        payload: *const u8,
        n: usize,
        out: *mut u8,
        out_len: usize,
    ) -> u8;

    // Heartbeats.
    pub(crate) fn mesh_heartbeat(value: *const u8, n: usize, places: u64, entries: *mut u64) -> u8;
    pub(crate) fn mesh_heartbeat_entry(
        value: *const u8,
        n: usize,
        i: u64,
        relay_id: *mut u32,
        rssi: *mut i16,
        snr: *mut i8,
        odd: *mut u8,
    ) -> u8;
    pub(crate) fn mesh_heartbeat_write(
        ids: *const u32,
        ids_len: usize,
        rssis: *const i16,
        rssis_len: usize,
        snrs: *const i8,
        snrs_len: usize,
        out: *mut u8,
        out_len: usize,
        length: *mut u64,
    ) -> u8;

    // Fields alone.
    pub(crate) fn mesh_type(n: u8) -> u8;
    pub(crate) fn mesh_header_read(b: u8, header: *mut [u8; 2]) -> u8;
    pub(crate) fn mesh_header_write(type_: u8, hop_count: u8, b: *mut u8) -> u8;
    pub(crate) fn mesh_uplink_metadata_read(b: *const [u8; 5], numbers: *mut [u64; 4], rssi: *mut i16, snr: *mut i8);
    pub(crate) fn mesh_uplink_metadata_write(uplink_id: u16, dr: u8, rssi: i16, snr: i8, channel: u8, b: *mut [u8; 5]) -> u8;
    pub(crate) fn mesh_downlink_metadata_read(b: *const [u8; 6], numbers: *mut [u64; 5]);
    pub(crate) fn mesh_downlink_metadata_write(uplink_id: u16, dr: u8, frequency: u32, tx_power: u8, delay: u8, b: *mut [u8; 6]) -> u8;
    pub(crate) fn mesh_frequency_read(b: *const u8, n: usize, hertz: *mut u32) -> u8;
    pub(crate) fn mesh_frequency_write(hertz: u32, b: *mut [u8; 3]) -> u8;
    pub(crate) fn mesh_path_read(b: *const [u8; 6], relay_id: *mut u32, rssi: *mut i16, snr: *mut i8, odd: *mut u8);
    pub(crate) fn mesh_path_write(relay_id: u32, rssi: i16, snr: i8, b: *mut [u8; 6]) -> u8;

    // Keys, cipher and MIC.
    pub(crate) fn mesh_key(b: *const u8, n: usize, key: *mut [u8; 16]) -> u8;
    pub(crate) fn mesh_key_of_text(text: *const u8, n: usize, key: *mut [u8; 16]) -> u8;
    pub(crate) fn mesh_key_text(key: *const [u8; 16], out: *mut u8, out_len: usize) -> u8;
    pub(crate) fn mesh_null_key(key: *mut [u8; 16]);
    pub(crate) fn mesh_signing_key(root: *const [u8; 16], key: *mut [u8; 16]);
    pub(crate) fn mesh_encryption_key(root: *const [u8; 16], key: *mut [u8; 16]);
    pub(crate) fn mesh_encrypt_block(key: *const [u8; 16], block: *mut [u8; 16]);
    pub(crate) fn mesh_prepare(key: *const [u8; 16], cipher: *mut [u32; MESH_CIPHER_WORDS]);
    pub(crate) fn mesh_encipher(cipher: *const [u32; MESH_CIPHER_WORDS], block: *mut [u8; 16]);
    pub(crate) fn mesh_cmac(key: *const [u8; 16], message: *const u8, n: usize, out: *mut [u8; 16]);
    pub(crate) fn mesh_mac(cipher: *const [u32; MESH_CIPHER_WORDS], message: *const u8, n: usize, out: *mut [u8; 16]);

    // The duplicate record and the cache.
    pub(crate) fn mesh_record(numbers: *const [u64; MESH_PACKET_NUMBERS], record: *mut [u64; MESH_RECORD_NUMBERS]) -> u8;
    pub(crate) fn mesh_cache_clear(words: *mut [u32; MESH_CACHE_WORDS], size: u32) -> u8;
    pub(crate) fn mesh_cache_add(words: *mut [u32; MESH_CACHE_WORDS], record: *const [u64; MESH_RECORD_NUMBERS], is_new: *mut u8) -> u8;

    // The text of a packet, and what mesh-dump prints.
    pub(crate) fn mesh_text(numbers: *const [u64; MESH_PACKET_NUMBERS], out: *mut u8, out_len: usize, length: *mut u64) -> u8;
    pub(crate) fn mesh_dump_line(line: *const u8, n: usize, out: *mut u8, out_len: usize, length: *mut u64) -> u8;
    pub(crate) fn mesh_dump_frame(frame: *const u8, n: usize, out: *mut u8, out_len: usize, length: *mut u64) -> u8;
}
