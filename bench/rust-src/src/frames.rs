//! The frames that are timed: the same few of each length for both sides, from a fixed seed.
use crate::{port, sys};
use original::aes128::Aes128Key;
use original::packets::*;
use std::time::{Duration, UNIX_EPOCH};

/// So many of each length, so that no call meets the bytes of the call before.
pub const KINDS: usize = 8;

const ITEM: usize = 32;

pub struct Random(u64);

impl Random {
    pub fn new(seed: u64) -> Self {
        Random(seed)
    }

    pub fn next(&mut self) -> u64 {
        self.0 = self.0.wrapping_add(0x9e3779b97f4a7c15);
        let mut z = self.0;
        z = (z ^ (z >> 30)).wrapping_mul(0xbf58476d1ce4e5b9);
        z = (z ^ (z >> 27)).wrapping_mul(0x94d049bb133111eb);
        z ^ (z >> 31)
    }

    pub fn bytes(&mut self, n: usize) -> Vec<u8> {
        (0..n).map(|_| self.next() as u8).collect()
    }
}

pub struct Up {
    pub frame: Vec<u8>,
    pub key: [u8; 16],
    pub hex: Vec<u8>,
}

pub fn mesh(p: Packet) -> MeshPacket {
    match p {
        Packet::Mesh(m) => m,
        Packet::Lora(_) => panic!("no mesh frame"),
    }
}

/// Uplinks of a length, signed.
pub fn uplinks(length: usize) -> Vec<Up> {
    uplinks_from(length, 0)
}

pub fn uplinks_from(length: usize, seed: u64) -> Vec<Up> {
    let mut random = Random::new(length as u64 + (seed << 40));
    (0..KINDS)
        .map(|_| {
            let mut frame = random.bytes(length);
            let key: [u8; 16] = random.bytes(16).try_into().unwrap();
            frame[0] = 0xe0 | (random.next() & 7) as u8;
            let mut p = mesh(Packet::from_slice(&frame).unwrap());
            p.set_mic(Aes128Key::from_bytes(key)).unwrap();
            let frame = p.to_vec().unwrap();
            assert!(frame.len() == length);
            Up { hex: hex::encode(&frame).into_bytes(), frame, key }
        })
        .collect()
}

/// An event of composed items, for both sides, and its sealed frame; one of 14 bytes has no room for an item, and is sealed alone.
pub struct Told {
    pub key: [u8; 16],
    pub open: MeshPacket,
    pub sealed: MeshPacket,
    pub frame: Vec<u8>,
    pub clear: Vec<u8>,
    pub composed: port::Packet,
    pub values: Vec<u8>,
    pub kinds: Vec<[u8; 2]>,
    pub spans: Vec<[u32; 2]>,
}

impl Told {
    pub fn lent(&self) -> port::Lent<'_> {
        port::Lent { work: &self.values, kinds: &self.kinds, spans: &self.spans, ..port::Lent::default() }
    }
}

/// Lengths of items of 32 bytes, header and all, of which the last takes up what is left.
fn lengths(payload: usize) -> Vec<usize> {
    let mut each = vec![ITEM; payload / ITEM];
    match payload % ITEM {
        0 => {}
        1 => *each.last_mut().expect("an item") += 1,
        rest => each.push(rest),
    }
    each
}

pub fn events(length: usize) -> Vec<Told> {
    let mut random = Random::new(length as u64 + (1 << 32));
    (0..KINDS)
        .map(|_| {
            let key: [u8; 16] = random.bytes(16).try_into().unwrap();
            let (timestamp, relay_id) = (random.next() as u32, random.next() as u32);
            let hop_count = (random.next() & 7) as u8 + 1;
            let payload = length - 13;
            let (mut values, mut kinds, mut spans, mut items) = (vec![], vec![], vec![], vec![]);
            if payload > 1 {
                for n in lengths(payload) {
                    let (tag, value) = ((random.next() % 255) as u8 + 1, random.bytes(n - 2));
                    kinds.push([sys::MESH_ITEM_PROPRIETARY, tag]);
                    spans.push([values.len() as u32, value.len() as u32]);
                    values.extend_from_slice(&value);
                    items.push(Event::Proprietary((tag, value)));
                }
            } else {
                items.push(Event::Encrypted(random.bytes(payload)));
            }
            let clear: Vec<u8> = items.iter().flat_map(|i| i.encode().unwrap()).collect();
            assert!(clear.len() == payload);
            let open = MeshPacket {
                mhdr: MHDR { payload_type: PayloadType::Event, hop_count },
                payload: Payload::Event(EventPayload {
                    timestamp: UNIX_EPOCH + Duration::from_secs(timestamp.into()),
                    relay_id: relay_id.to_be_bytes(),
                    events: items,
                }),
                mic: None,
            };
            let mut sealed = open.clone();
            sealed.encrypt(Aes128Key::from_bytes(key)).unwrap();
            sealed.set_mic(Aes128Key::from_bytes(key)).unwrap();
            let frame = sealed.to_vec().unwrap();
            assert!(frame.len() == length);
            let composed = port::Packet {
                kind: 2,
                payload_type: 2,
                hop_count: hop_count.into(),
                relay_id: relay_id.into(),
                timestamp: timestamp.into(),
                content: 4,
                start: 0,
                len: kinds.len() as u64,
                ..port::Packet::default()
            };
            Told { key, open, sealed, frame, clear, composed, values, kinds, spans }
        })
        .collect()
}
