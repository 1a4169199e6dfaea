//! The one module that calls `sys`: each exported function as a safe one over slices and references, with no meaning added.
//!
//! Why each call is sound: a slice is lent as its own pointer and length, an array by a reference to as many elements as the header names,
//! and Rust lets nothing overlap what is lent to be written.
#![allow(unsafe_code)]

use crate::sys;
use crate::sys::{MESH_ALREADY_OPEN, MESH_CACHE_WORDS, MESH_CIPHER_WORDS};
use crate::sys::{MESH_COUNTS_NUMBERS, MESH_ITEM_NUMBERS, MESH_PACKET_NUMBERS, MESH_RECORD_NUMBERS};
use crate::Refusal;

// from include/mesh.table: numbers
/// A packet's numbers, each as wide as its field.
#[derive(Clone, Copy, Default)]
pub(crate) struct PacketNumbers {
    pub kind: u8,
    pub payload_type: u8,
    pub hop_count: u8,
    pub has_mic: bool,
    pub mic: u32,
    pub relay_id: u32,
    pub uplink_id: u16,
    pub dr: u8,
    pub channel: u8,
    pub frequency: u32,
    pub tx_power: u8,
    pub delay: u8,
    pub timestamp: u32,
    pub content: u8,
    pub start: u64,
    pub len: u64,
    pub odd: u8,
    pub rssi: i16,
    pub snr: i8,
}

impl PacketNumbers {
    // What the library stores is no wider than its field.
    fn of(n: [u64; MESH_PACKET_NUMBERS], rssi: i16, snr: i8) -> PacketNumbers {
        PacketNumbers {
            kind: n[0] as u8,
            payload_type: n[1] as u8,
            hop_count: n[2] as u8,
            has_mic: n[3] != 0,
            mic: n[4] as u32,
            relay_id: n[5] as u32,
            uplink_id: n[6] as u16,
            dr: n[7] as u8,
            channel: n[8] as u8,
            frequency: n[9] as u32,
            tx_power: n[10] as u8,
            delay: n[11] as u8,
            timestamp: n[12] as u32,
            content: n[13] as u8,
            start: n[14],
            len: n[15],
            odd: n[16] as u8,
            rssi,
            snr,
        }
    }

    fn numbers(&self) -> [u64; MESH_PACKET_NUMBERS] {
        [
            self.kind.into(),
            self.payload_type.into(),
            self.hop_count.into(),
            self.has_mic.into(),
            self.mic.into(),
            self.relay_id.into(),
            self.uplink_id.into(),
            self.dr.into(),
            self.channel.into(),
            self.frequency.into(),
            self.tx_power.into(),
            self.delay.into(),
            self.timestamp.into(),
            self.content.into(),
            self.start,
            self.len,
            self.odd.into(),
        ]
    }
}

/// A record's numbers, each as wide as its field.
#[derive(Clone, Copy, Default)]
pub(crate) struct RecordNumbers {
    pub type_: u8,
    pub uplink_id: u16,
    pub timestamp: u32,
    pub relay_id: u32,
}

impl RecordNumbers {
    // What the library stores is no wider than its field.
    fn of(n: [u64; MESH_RECORD_NUMBERS]) -> RecordNumbers {
        RecordNumbers { type_: n[0] as u8, uplink_id: n[1] as u16, timestamp: n[2] as u32, relay_id: n[3] as u32 }
    }

    fn numbers(&self) -> [u64; MESH_RECORD_NUMBERS] {
        [self.type_.into(), self.uplink_id.into(), self.timestamp.into(), self.relay_id.into()]
    }
}

/// A count's numbers, each as wide as its field.
#[derive(Clone, Copy, Default)]
pub(crate) struct Counts {
    pub kept: u64,
    pub skipped: u64,
    pub kept_bytes: u64,
    pub skipped_bytes: u64,
    pub cut_bytes: u64,
    pub clean: bool,
}

impl Counts {
    // What the library stores is no wider than its field.
    fn of(n: [u64; MESH_COUNTS_NUMBERS]) -> Counts {
        Counts { kept: n[0], skipped: n[1], kept_bytes: n[2], skipped_bytes: n[3], cut_bytes: n[4], clean: n[5] != 0 }
    }
}

/// An item's numbers, each as wide as its field.
#[derive(Clone, Copy, Default)]
pub(crate) struct At {
    pub found: u8,
    pub kind: u8,
    pub tag: u8,
    pub start: u64,
    pub len: u64,
    pub next: u64,
}

impl At {
    // What the library stores is no wider than its field.
    fn of(n: [u64; MESH_ITEM_NUMBERS]) -> At {
        At { found: n[0] as u8, kind: n[1] as u8, tag: n[2] as u8, start: n[3], len: n[4], next: n[5] }
    }
}
// end

/// What holds a packet's payload.
#[derive(Clone, Copy, Default)]
pub(crate) struct Lent<'a> {
    pub frame: &'a [u8],
    pub work: &'a [u8],
    pub kinds: &'a [[u8; 2]],
    pub spans: &'a [[u32; 2]],
    pub ids: &'a [u32],
    pub rssis: &'a [i16],
    pub snrs: &'a [i8],
}

/// Where a payload lies after sealing or opening.
#[derive(Clone, Copy)]
pub(crate) struct Place {
    pub content: u8,
    pub start: u64,
    pub len: u64,
}

fn answer(number: u8) -> Result<(), Refusal> {
    if number == 0 {
        Ok(())
    } else {
        Err(Refusal::of(number))
    }
}

/// The place that a call left in the numbers of a packet.
fn place(numbers: [u64; MESH_PACKET_NUMBERS]) -> Place {
    let PacketNumbers { content, start, len, .. } = PacketNumbers::of(numbers, 0, 0);
    Place { content, start, len }
}

macro_rules! with_lent {
    ($call:ident, [$($before:expr),*], $l:expr $(, $rest:expr)*) => {
        unsafe {
            sys::$call(
                $($before,)* $l.frame.as_ptr(), $l.frame.len(), $l.work.as_ptr(), $l.work.len(), $l.kinds.as_ptr(), $l.kinds.len(),
                $l.spans.as_ptr(), $l.spans.len(), $l.ids.as_ptr(), $l.ids.len(), $l.rssis.as_ptr(), $l.rssis.len(), $l.snrs.as_ptr(),
                $l.snrs.len() $(, $rest)*
            )
        }
    };
}

// Version 1 has no such function: the crate is not linked with an archive of it.
#[used]
static ASKED: unsafe extern "C" fn() -> u32 = sys::mesh_version;

pub(crate) fn version() -> u32 {
    unsafe { sys::mesh_version() }
}

// ---- frames

pub(crate) fn read(frame: &[u8]) -> Result<PacketNumbers, Refusal> {
    let (mut numbers, mut rssi, mut snr) = ([0; MESH_PACKET_NUMBERS], 0, 0);
    answer(unsafe { sys::mesh_read(frame.as_ptr(), frame.len(), &mut numbers, &mut rssi, &mut snr) })?;
    Ok(PacketNumbers::of(numbers, rssi, snr))
}

pub(crate) fn read_mesh(frame: &[u8]) -> Result<PacketNumbers, Refusal> {
    let (mut numbers, mut rssi, mut snr) = ([0; MESH_PACKET_NUMBERS], 0, 0);
    answer(unsafe { sys::mesh_read_mesh(frame.as_ptr(), frame.len(), &mut numbers, &mut rssi, &mut snr) })?;
    Ok(PacketNumbers::of(numbers, rssi, snr))
}

pub(crate) fn read_body(kind: u8, body: &[u8]) -> Result<PacketNumbers, Refusal> {
    let (mut numbers, mut rssi, mut snr) = ([0; MESH_PACKET_NUMBERS], 0, 0);
    answer(unsafe { sys::mesh_read_body(kind, body.as_ptr(), body.len(), &mut numbers, &mut rssi, &mut snr) })?;
    Ok(PacketNumbers::of(numbers, rssi, snr))
}

pub(crate) fn write(p: &PacketNumbers, l: &Lent, out: &mut [u8]) -> Result<usize, Refusal> {
    let mut length = 0;
    answer(with_lent!(mesh_write, [&p.numbers(), p.rssi, p.snr], l, out.as_mut_ptr(), out.len(), &mut length))?;
    Ok(length as usize)
}

pub(crate) fn write_body(p: &PacketNumbers, l: &Lent, out: &mut [u8]) -> Result<usize, Refusal> {
    let mut length = 0;
    answer(with_lent!(mesh_write_body, [&p.numbers(), p.rssi, p.snr], l, out.as_mut_ptr(), out.len(), &mut length))?;
    Ok(length as usize)
}

pub(crate) fn sign(p: &PacketNumbers, key: &[u8; 16], l: &Lent) -> Result<u32, Refusal> {
    let mut numbers = p.numbers();
    answer(with_lent!(mesh_sign, [&mut numbers, p.rssi, p.snr, key], l))?;
    Ok(PacketNumbers::of(numbers, p.rssi, p.snr).mic)
}

pub(crate) fn validate(p: &PacketNumbers, key: &[u8; 16], l: &Lent) -> Result<bool, Refusal> {
    let mut valid = 0;
    answer(with_lent!(mesh_validate, [&p.numbers(), p.rssi, p.snr, key], l, &mut valid))?;
    Ok(valid != 0)
}

pub(crate) fn set_hop_count(key: &[u8; 16], frame: &mut [u8], hop_count: u8) -> Result<(), Refusal> {
    answer(unsafe { sys::mesh_set_hop_count(key, frame.as_mut_ptr(), frame.len(), hop_count) })
}

pub(crate) fn seal(p: &PacketNumbers, key: &[u8; 16], l: &Lent, out: &mut [u8]) -> Result<Place, Refusal> {
    let mut numbers = p.numbers();
    answer(with_lent!(mesh_seal, [&mut numbers, key], l, out.as_mut_ptr(), out.len()))?;
    Ok(place(numbers))
}

pub(crate) fn decrypt(p: &PacketNumbers, key: &[u8; 16], frame: &[u8], work: &mut [u8]) -> Result<(Counts, Place), Refusal> {
    let (mut numbers, mut counts) = (p.numbers(), [0; MESH_COUNTS_NUMBERS]);
    let (from, n) = (frame.as_ptr(), frame.len());
    answer(unsafe { sys::mesh_decrypt(&mut numbers, key, from, n, work.as_mut_ptr(), work.len(), &mut counts) })?;
    Ok((Counts::of(counts), place(numbers)))
}

/// `None` where the payload is open already.
pub(crate) fn decode(p: &PacketNumbers, frame: &[u8], work: &[u8]) -> Result<Option<(Counts, Place)>, Refusal> {
    let (mut numbers, mut counts) = (p.numbers(), [0; MESH_COUNTS_NUMBERS]);
    match unsafe { sys::mesh_decode(&mut numbers, frame.as_ptr(), frame.len(), work.as_ptr(), work.len(), &mut counts) } {
        0 => Ok(Some((Counts::of(counts), place(numbers)))),
        MESH_ALREADY_OPEN => Ok(None),
        number => Err(Refusal::of(number)),
    }
}

// ---- items and heartbeats

pub(crate) fn item(is_event: bool, payload: &[u8], at: u64) -> Result<At, Refusal> {
    let mut item = [0; MESH_ITEM_NUMBERS];
    answer(unsafe { sys::mesh_item(is_event, payload.as_ptr(), payload.len(), at, &mut item) })?;
    Ok(At::of(item))
}

pub(crate) fn count(is_event: bool, payload: &[u8]) -> Result<Counts, Refusal> {
    let mut counts = [0; MESH_COUNTS_NUMBERS];
    answer(unsafe { sys::mesh_count(is_event, payload.as_ptr(), payload.len(), &mut counts) })?;
    Ok(Counts::of(counts))
}

pub(crate) fn item_write(is_event: bool, kind: u8, tag: u8, value: &[u8], out: &mut [u8]) -> Result<usize, Refusal> {
    let (mut length, from, n) = (0, value.as_ptr(), value.len());
    answer(unsafe { sys::mesh_item_write(is_event, kind, tag, from, n, out.as_mut_ptr(), out.len(), &mut length) })?;
    Ok(length as usize)
}

pub(crate) fn stream(
    key: &[u8; 16],
    is_command: bool,
    relay_id: u32,
    timestamp: u32,
    payload: &[u8],
    out: &mut [u8],
) -> Result<(), Refusal> {
    let (from, n) = (payload.as_ptr(), payload.len());
    answer(unsafe { sys::mesh_stream(key, is_command, relay_id, timestamp, from, n, out.as_mut_ptr(), out.len()) })
}

pub(crate) fn heartbeat(value: &[u8], places: u64) -> Result<u64, Refusal> {
    let mut entries = 0;
    answer(unsafe { sys::mesh_heartbeat(value.as_ptr(), value.len(), places, &mut entries) })?;
    Ok(entries)
}

pub(crate) fn heartbeat_entry(value: &[u8], i: u64) -> Result<(u32, i16, i8, u8), Refusal> {
    let (mut relay_id, mut rssi, mut snr, mut odd) = (0, 0, 0, 0);
    answer(unsafe { sys::mesh_heartbeat_entry(value.as_ptr(), value.len(), i, &mut relay_id, &mut rssi, &mut snr, &mut odd) })?;
    Ok((relay_id, rssi, snr, odd))
}

pub(crate) fn heartbeat_write(ids: &[u32], rssis: &[i16], snrs: &[i8], out: &mut [u8]) -> Result<usize, Refusal> {
    let mut length = 0;
    answer(unsafe {
        sys::mesh_heartbeat_write(
            ids.as_ptr(),
            ids.len(),
            rssis.as_ptr(),
            rssis.len(),
            snrs.as_ptr(),
            snrs.len(),
            out.as_mut_ptr(),
            out.len(),
            &mut length,
        )
    })?;
    Ok(length as usize)
}

// ---- fields

pub(crate) fn payload_type(n: u8) -> Result<(), Refusal> {
    answer(unsafe { sys::mesh_type(n) })
}

pub(crate) fn header_read(b: u8) -> Result<[u8; 2], Refusal> {
    let mut header = [0; 2];
    answer(unsafe { sys::mesh_header_read(b, &mut header) })?;
    Ok(header)
}

pub(crate) fn header_write(type_: u8, hop_count: u8) -> Result<u8, Refusal> {
    let mut b = 0;
    answer(unsafe { sys::mesh_header_write(type_, hop_count, &mut b) })?;
    Ok(b)
}

pub(crate) fn uplink_metadata_read(b: &[u8; 5]) -> ([u64; 4], i16, i8) {
    let (mut numbers, mut rssi, mut snr) = ([0; 4], 0, 0);
    unsafe { sys::mesh_uplink_metadata_read(b, &mut numbers, &mut rssi, &mut snr) };
    (numbers, rssi, snr)
}

pub(crate) fn uplink_metadata_write(uplink_id: u16, dr: u8, rssi: i16, snr: i8, channel: u8) -> Result<[u8; 5], Refusal> {
    let mut b = [0; 5];
    answer(unsafe { sys::mesh_uplink_metadata_write(uplink_id, dr, rssi, snr, channel, &mut b) })?;
    Ok(b)
}

pub(crate) fn downlink_metadata_read(b: &[u8; 6]) -> [u64; 5] {
    let mut numbers = [0; 5];
    unsafe { sys::mesh_downlink_metadata_read(b, &mut numbers) };
    numbers
}

pub(crate) fn downlink_metadata_write(uplink_id: u16, dr: u8, frequency: u32, tx_power: u8, delay: u8) -> Result<[u8; 6], Refusal> {
    let mut b = [0; 6];
    answer(unsafe { sys::mesh_downlink_metadata_write(uplink_id, dr, frequency, tx_power, delay, &mut b) })?;
    Ok(b)
}

pub(crate) fn frequency_read(b: &[u8]) -> Result<u32, Refusal> {
    let mut hertz = 0;
    answer(unsafe { sys::mesh_frequency_read(b.as_ptr(), b.len(), &mut hertz) })?;
    Ok(hertz)
}

pub(crate) fn frequency_write(hertz: u32) -> Result<[u8; 3], Refusal> {
    let mut b = [0; 3];
    answer(unsafe { sys::mesh_frequency_write(hertz, &mut b) })?;
    Ok(b)
}

pub(crate) fn path_read(b: &[u8; 6]) -> (u32, i16, i8, u8) {
    let (mut relay_id, mut rssi, mut snr, mut odd) = (0, 0, 0, 0);
    unsafe { sys::mesh_path_read(b, &mut relay_id, &mut rssi, &mut snr, &mut odd) };
    (relay_id, rssi, snr, odd)
}

pub(crate) fn path_write(relay_id: u32, rssi: i16, snr: i8) -> Result<[u8; 6], Refusal> {
    let mut b = [0; 6];
    answer(unsafe { sys::mesh_path_write(relay_id, rssi, snr, &mut b) })?;
    Ok(b)
}

// ---- keys, cipher and MIC

pub(crate) fn key(b: &[u8]) -> Result<[u8; 16], Refusal> {
    let mut key = [0; 16];
    answer(unsafe { sys::mesh_key(b.as_ptr(), b.len(), &mut key) })?;
    Ok(key)
}

pub(crate) fn key_of_text(text: &[u8]) -> Result<[u8; 16], Refusal> {
    let mut key = [0; 16];
    answer(unsafe { sys::mesh_key_of_text(text.as_ptr(), text.len(), &mut key) })?;
    Ok(key)
}

pub(crate) fn key_text(key: &[u8; 16], out: &mut [u8]) -> Result<(), Refusal> {
    answer(unsafe { sys::mesh_key_text(key, out.as_mut_ptr(), out.len()) })
}

pub(crate) fn null_key() -> [u8; 16] {
    let mut key = [0; 16];
    unsafe { sys::mesh_null_key(&mut key) };
    key
}

pub(crate) fn signing_key(root: &[u8; 16]) -> [u8; 16] {
    let mut key = [0; 16];
    unsafe { sys::mesh_signing_key(root, &mut key) };
    key
}

pub(crate) fn encryption_key(root: &[u8; 16]) -> [u8; 16] {
    let mut key = [0; 16];
    unsafe { sys::mesh_encryption_key(root, &mut key) };
    key
}

pub(crate) fn encrypt_block(key: &[u8; 16], block: &mut [u8; 16]) {
    unsafe { sys::mesh_encrypt_block(key, block) }
}

pub(crate) fn prepare(key: &[u8; 16]) -> [u32; MESH_CIPHER_WORDS] {
    let mut cipher = [0; MESH_CIPHER_WORDS];
    unsafe { sys::mesh_prepare(key, &mut cipher) };
    cipher
}

pub(crate) fn encipher(cipher: &[u32; MESH_CIPHER_WORDS], block: &mut [u8; 16]) {
    unsafe { sys::mesh_encipher(cipher, block) }
}

pub(crate) fn cmac(key: &[u8; 16], message: &[u8]) -> [u8; 16] {
    let mut out = [0; 16];
    unsafe { sys::mesh_cmac(key, message.as_ptr(), message.len(), &mut out) };
    out
}

pub(crate) fn mac(cipher: &[u32; MESH_CIPHER_WORDS], message: &[u8]) -> [u8; 16] {
    let mut out = [0; 16];
    unsafe { sys::mesh_mac(cipher, message.as_ptr(), message.len(), &mut out) };
    out
}

// ---- duplicates and text

pub(crate) fn record(p: &PacketNumbers) -> Result<RecordNumbers, Refusal> {
    let mut record = [0; MESH_RECORD_NUMBERS];
    answer(unsafe { sys::mesh_record(&p.numbers(), &mut record) })?;
    Ok(RecordNumbers::of(record))
}

pub(crate) fn cache_clear(words: &mut [u32; MESH_CACHE_WORDS], size: u32) -> Result<(), Refusal> {
    answer(unsafe { sys::mesh_cache_clear(words, size) })
}

pub(crate) fn cache_add(words: &mut [u32; MESH_CACHE_WORDS], record: &RecordNumbers) -> Result<bool, Refusal> {
    let mut is_new = 0;
    answer(unsafe { sys::mesh_cache_add(words, &record.numbers(), &mut is_new) })?;
    Ok(is_new != 0)
}

pub(crate) fn text(p: &PacketNumbers, out: &mut [u8]) -> Result<usize, Refusal> {
    let mut length = 0;
    answer(unsafe { sys::mesh_text(&p.numbers(), out.as_mut_ptr(), out.len(), &mut length) })?;
    Ok(length as usize)
}

pub(crate) fn dump_line(line: &[u8], out: &mut [u8]) -> Result<usize, Refusal> {
    let mut length = 0;
    answer(unsafe { sys::mesh_dump_line(line.as_ptr(), line.len(), out.as_mut_ptr(), out.len(), &mut length) })?;
    Ok(length as usize)
}

pub(crate) fn dump_frame(frame: &[u8], out: &mut [u8]) -> Result<usize, Refusal> {
    let mut length = 0;
    answer(unsafe { sys::mesh_dump_frame(frame.as_ptr(), frame.len(), out.as_mut_ptr(), out.len(), &mut length) })?;
    Ok(length as usize)
}
