//! The library as C has it: a packet as include/mesh.h's struct, which is its array under names.
use crate::sys;
use crate::sys::{MESH_CACHE_WORDS, MESH_COUNTS_NUMBERS, MESH_ITEM_NUMBERS, MESH_PACKET_NUMBERS, MESH_RECORD_NUMBERS};

pub const FRAME_MOST: usize = 8192;

pub type Numbers = [u64; MESH_PACKET_NUMBERS];
pub type Known = [u64; MESH_RECORD_NUMBERS];

#[derive(Clone, Debug, Default, PartialEq, Eq)]
#[repr(C)]
pub struct Packet {
    pub kind: u64,
    pub payload_type: u64,
    pub hop_count: u64,
    pub has_mic: u64,
    pub mic: u64,
    pub relay_id: u64,
    pub uplink_id: u64,
    pub dr: u64,
    pub channel: u64,
    pub frequency: u64,
    pub tx_power: u64,
    pub delay: u64,
    pub timestamp: u64,
    pub content: u64,
    pub start: u64,
    pub len: u64,
    pub odd: u64,
    pub rssi: i16,
    pub snr: i8,
}

// as the header's static assertions
const _: () = assert!(std::mem::offset_of!(Packet, odd) == 8 * (MESH_PACKET_NUMBERS - 1));

impl Packet {
    fn numbers(&self) -> *const Numbers {
        std::ptr::from_ref(self).cast()
    }

    fn numbers_mut(&mut self) -> *mut Numbers {
        std::ptr::from_mut(self).cast()
    }
}

#[derive(Clone, Copy, Default)]
pub struct Lent<'a> {
    pub frame: &'a [u8],
    pub work: &'a [u8],
    pub kinds: &'a [[u8; 2]],
    pub spans: &'a [[u32; 2]],
    pub ids: &'a [u32],
    pub rssis: &'a [i16],
    pub snrs: &'a [i8],
}

impl<'a> Lent<'a> {
    pub fn frame(frame: &'a [u8]) -> Self {
        Lent { frame, ..Lent::default() }
    }
}

macro_rules! of_lent {
    ($f:ident, ($($before:expr),*), $l:expr $(, $more:expr)*) => {
        unsafe {
            sys::$f(
                $($before,)*
                $l.frame.as_ptr(), $l.frame.len(), $l.work.as_ptr(), $l.work.len(), $l.kinds.as_ptr(), $l.kinds.len(), $l.spans.as_ptr(),
                $l.spans.len(), $l.ids.as_ptr(), $l.ids.len(), $l.rssis.as_ptr(), $l.rssis.len(), $l.snrs.as_ptr(), $l.snrs.len() $(, $more)*
            )
        }
    };
}

#[inline]
fn held(refused: u8) {
    assert!(refused == 0, "the port refuses with {refused}");
}

/// As the header's `mesh_packet_read`: into a packet of the caller's, which here must be taken.
#[inline]
pub fn read_into(p: &mut Packet, frame: &[u8]) {
    let (rssi, snr) = (&raw mut p.rssi, &raw mut p.snr);
    held(unsafe { sys::mesh_read(frame.as_ptr(), frame.len(), p.numbers_mut(), rssi, snr) });
}

pub fn read(frame: &[u8]) -> Packet {
    let mut p = Packet::default();
    read_into(&mut p, frame);
    p
}

/// The numbers alone, and rssi and snr.
pub fn read_numbers(frame: &[u8], n: &mut Numbers, rssi: &mut i16, snr: &mut i8) {
    held(unsafe { sys::mesh_read(frame.as_ptr(), frame.len(), n, rssi, snr) });
}

pub fn write(p: &Packet, l: &Lent, out: &mut [u8]) -> usize {
    let mut length = 0;
    held(of_lent!(mesh_write, (p.numbers(), p.rssi, p.snr), l, out.as_mut_ptr(), out.len(), &mut length));
    length as usize
}

pub fn validate(p: &Packet, key: &[u8; 16], l: &Lent) -> bool {
    let mut valid = 0;
    held(of_lent!(mesh_validate, (p.numbers(), p.rssi, p.snr, key), l, &mut valid));
    valid != 0
}

pub fn set_hop_count(key: &[u8; 16], frame: &mut [u8], hop_count: u8) {
    held(unsafe { sys::mesh_set_hop_count(key, frame.as_mut_ptr(), frame.len(), hop_count) });
}

/// Body, start and len of the sealed payload in `out`. On a copy: the packet is sealed again in the next turn.
pub fn seal(p: &Packet, key: &[u8; 16], l: &Lent, out: &mut [u8]) -> [u64; 3] {
    let mut p = p.clone();
    held(of_lent!(mesh_seal, (p.numbers_mut(), key), l, out.as_mut_ptr(), out.len()));
    [p.content, p.start, p.len]
}

/// The counts of items and bytes, and content, start and len of the clear payload in `work`; on a copy.
pub fn decrypt(p: &Packet, key: &[u8; 16], frame: &[u8], work: &mut [u8]) -> ([u64; MESH_COUNTS_NUMBERS], [u64; 3]) {
    let (mut p, mut counts) = (p.clone(), [0; MESH_COUNTS_NUMBERS]);
    let (from, n) = (frame.as_ptr(), frame.len());
    held(unsafe { sys::mesh_decrypt(p.numbers_mut(), key, from, n, work.as_mut_ptr(), work.len(), &mut counts) });
    (counts, [p.content, p.start, p.len])
}

/// What stands at a place of an event's clear payload: found, kind, tag, place and length of the value, and the place behind it.
pub fn item(payload: &[u8], at: u64) -> [u64; MESH_ITEM_NUMBERS] {
    let mut item = [0; MESH_ITEM_NUMBERS];
    held(unsafe { sys::mesh_item(true, payload.as_ptr(), payload.len(), at, &mut item) });
    item
}

/// As the header's `mesh_packet_record`: type, uplink id, timestamp and relay id.
#[inline]
pub fn record_into(p: &Packet, known: &mut Known) {
    held(unsafe { sys::mesh_record(p.numbers(), known) });
}

pub struct Cache(pub [u32; MESH_CACHE_WORDS]);

impl Cache {
    pub fn new(size: u32) -> Self {
        let mut words = [0; MESH_CACHE_WORDS];
        held(unsafe { sys::mesh_cache_clear(&mut words, size) });
        Cache(words)
    }

    pub fn add(&mut self, known: &Known) -> bool {
        let mut is_new = 0;
        held(unsafe { sys::mesh_cache_add(&mut self.0, known, &mut is_new) });
        is_new != 0
    }
}

pub fn dump_frame(frame: &[u8], out: &mut [u8]) -> usize {
    let mut length = 0;
    held(unsafe { sys::mesh_dump_frame(frame.as_ptr(), frame.len(), out.as_mut_ptr(), out.len(), &mut length) });
    length as usize
}

pub fn dump_line(line: &[u8], out: &mut [u8]) -> usize {
    let mut length = 0;
    held(unsafe { sys::mesh_dump_line(line.as_ptr(), line.len(), out.as_mut_ptr(), out.len(), &mut length) });
    length as usize
}
