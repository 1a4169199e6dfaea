//! The C face itself, as `src/sys.rs` declares it: every exported function at its limits, with lengths and places that do not fit. The
//! answers are 0 and refusals' numbers, and what a refused call was lent is as it was.
#[path = "../src/sys.rs"]
mod sys;

// The archive comes with the crate.
use lemikanto as _;

use sys::{MESH_CACHE_WORDS, MESH_CIPHER_WORDS, MESH_PACKET_NUMBERS};
use sys::{MESH_ITEM_HEARTBEAT as HEARTBEAT, MESH_ITEM_PATH as PATH, MESH_ITEM_PROPRIETARY as PROPRIETARY};

const UPLINK: u64 = sys::MESH_UPLINK as u64;
const DOWNLINK: u64 = sys::MESH_DOWNLINK as u64;
const EVENT: u64 = sys::MESH_EVENT as u64;
const COMMAND: u64 = sys::MESH_COMMAND as u64;
const LORA: u64 = sys::MESH_LORA as u64;
const SEALED: u64 = sys::MESH_SEALED as u64;
const IN_FRAME: u64 = sys::MESH_OPEN_IN_FRAME as u64;
const IN_WORK: u64 = sys::MESH_OPEN_IN_WORK as u64;
const ITEMS: u64 = sys::MESH_ITEMS as u64;

/// What stands in every output before a call.
const BEFORE: u8 = 0xa5;
/// Places and lengths outside any slice. A run of no bytes is empty wherever it stands.
const FAR: [(u64, u64); 5] = [(0, u64::MAX), (u64::MAX, 1), (u64::MAX, u64::MAX), (1, u64::MAX), (1 << 63, 1 << 63)];

#[derive(Clone, Copy, Debug, PartialEq)]
struct P {
    kind: u64,
    payload_type: u64,
    hop_count: u64,
    has_mic: u64,
    mic: u64,
    relay_id: u64,
    uplink_id: u64,
    dr: u64,
    channel: u64,
    frequency: u64,
    tx_power: u64,
    delay: u64,
    timestamp: u64,
    content: u64,
    start: u64,
    len: u64,
    odd: u64,
    rssi: i16,
    snr: i8,
}

type Numbers = [u64; MESH_PACKET_NUMBERS];

fn numbers(p: &P) -> Numbers {
    [
        p.kind,
        p.payload_type,
        p.hop_count,
        p.has_mic,
        p.mic,
        p.relay_id,
        p.uplink_id,
        p.dr,
        p.channel,
        p.frequency,
        p.tx_power,
        p.delay,
        p.timestamp,
        p.content,
        p.start,
        p.len,
        p.odd,
    ]
}

fn of(n: Numbers, rssi: i16, snr: i8) -> P {
    let [kind, payload_type, hop_count, has_mic, mic, relay_id, uplink_id, dr, rest @ ..] = n;
    let [channel, frequency, tx_power, delay, timestamp, content, start, len, odd] = rest;
    P {
        kind,
        payload_type,
        hop_count,
        has_mic,
        mic,
        relay_id,
        uplink_id,
        dr,
        channel,
        frequency,
        tx_power,
        delay,
        timestamp,
        content,
        start,
        len,
        odd,
        rssi,
        snr,
    }
}

/// A packet that is written, of any kind; its payload is empty.
const fn good(kind: u64) -> P {
    P {
        kind,
        payload_type: if kind == LORA { 0 } else { kind },
        hop_count: 1,
        has_mic: 1,
        mic: 0x0102_0304,
        relay_id: 0x0a0b_0c0d,
        uplink_id: 291,
        dr: 5,
        rssi: -80,
        snr: 7,
        channel: 2,
        frequency: 868_100_000,
        tx_power: 3,
        delay: 1,
        timestamp: 60,
        content: 0,
        start: 0,
        len: 0,
        odd: 0,
    }
}

#[derive(Clone, Copy, Default)]
struct L<'a> {
    frame: &'a [u8],
    work: &'a [u8],
    kinds: &'a [[u8; 2]],
    spans: &'a [[u32; 2]],
    ids: &'a [u32],
    rssis: &'a [i16],
    snrs: &'a [i8],
}

fn framed(frame: &[u8]) -> L<'_> {
    L { frame, ..L::default() }
}

macro_rules! lent {
    ($call:ident, [$($before:expr),*], $l:expr $(, $rest:expr)*) => {
        unsafe {
            sys::$call(
                $($before,)* $l.frame.as_ptr(), $l.frame.len(), $l.work.as_ptr(), $l.work.len(), $l.kinds.as_ptr(), $l.kinds.len(),
                $l.spans.as_ptr(), $l.spans.len(), $l.ids.as_ptr(), $l.ids.len(), $l.rssis.as_ptr(), $l.rssis.len(), $l.snrs.as_ptr(),
                $l.snrs.len() $(, $rest)*
            )
        }
    };
}

type Read = (u8, Numbers, i16, i8);

fn unread(number: u8) -> Read {
    (number, [77; MESH_PACKET_NUMBERS], 77, 77)
}

fn read(b: &[u8]) -> Read {
    let (mut n, mut r, mut s) = ([77; MESH_PACKET_NUMBERS], 77, 77);
    let number = unsafe { sys::mesh_read(b.as_ptr(), b.len(), &mut n, &mut r, &mut s) };
    (number, n, r, s)
}

fn read_mesh(b: &[u8]) -> Read {
    let (mut n, mut r, mut s) = ([77; MESH_PACKET_NUMBERS], 77, 77);
    let number = unsafe { sys::mesh_read_mesh(b.as_ptr(), b.len(), &mut n, &mut r, &mut s) };
    (number, n, r, s)
}

fn read_body(kind: u64, b: &[u8]) -> Read {
    let (mut n, mut r, mut s) = ([77; MESH_PACKET_NUMBERS], 77, 77);
    let number = unsafe { sys::mesh_read_body(kind as u8, b.as_ptr(), b.len(), &mut n, &mut r, &mut s) };
    (number, n, r, s)
}

/// The bytes that were written. Where the call is refused, or beyond them, the output must be as it was.
type Wrote = Result<Vec<u8>, u8>;

fn wrote(number: u8, length: u64, out: Vec<u8>) -> Wrote {
    if number != 0 {
        assert_eq!(length, 77);
        assert!(out.iter().all(|b| *b == BEFORE));
        return Err(number);
    }
    let (front, rest) = out.split_at(length as usize);
    assert!(rest.iter().all(|b| *b == BEFORE));
    Ok(front.to_vec())
}

fn write(p: &P, l: &L, room: usize) -> Wrote {
    let (mut out, mut length) = (vec![BEFORE; room], 77);
    let number = lent!(mesh_write, [&numbers(p), p.rssi, p.snr], l, out.as_mut_ptr(), room, &mut length);
    wrote(number, length, out)
}

fn write_body(p: &P, l: &L, room: usize) -> Wrote {
    let (mut out, mut length) = (vec![BEFORE; room], 77);
    let number = lent!(mesh_write_body, [&numbers(p), p.rssi, p.snr], l, out.as_mut_ptr(), room, &mut length);
    wrote(number, length, out)
}

/// Has_mic and mic alone change.
fn sign(p: &P, key: &[u8; 16], l: &L) -> Result<u64, u8> {
    let mut n = numbers(p);
    let number = lent!(mesh_sign, [&mut n, p.rssi, p.snr, key], l);
    let mic = of(n, 0, 0).mic;
    if number != 0 {
        assert_eq!(n, numbers(p));
        return Err(number);
    }
    assert_eq!(n, numbers(&P { has_mic: 1, mic, ..*p }));
    assert!(mic <= u64::from(u32::MAX));
    Ok(mic)
}

fn validate(p: &P, key: &[u8; 16], l: &L) -> Result<u8, u8> {
    let mut valid = 77;
    match lent!(mesh_validate, [&numbers(p), p.rssi, p.snr, key], l, &mut valid) {
        0 => Ok(valid),
        n => {
            assert_eq!(valid, 77);
            Err(n)
        }
    }
}

fn set_hop_count(key: &[u8; 16], frame: &mut [u8], hop_count: u8) -> u8 {
    let before = frame.to_vec();
    let number = unsafe { sys::mesh_set_hop_count(key, frame.as_mut_ptr(), frame.len(), hop_count) };
    if number != 0 {
        assert_eq!(frame, before);
    }
    number
}

/// Content, start and len; they alone change.
fn place(number: u8, n: Numbers, p: &P) -> [u64; 3] {
    let P { content, start, len, .. } = of(n, 0, 0);
    assert_eq!(n, numbers(&if number == 0 { P { content, start, len, ..*p } } else { *p }));
    [content, start, len]
}

fn seal(p: &P, key: &[u8; 16], l: &L, room: usize) -> Result<([u64; 3], Vec<u8>), u8> {
    let (mut n, mut out) = (numbers(p), vec![BEFORE; room]);
    let number = lent!(mesh_seal, [&mut n, key], l, out.as_mut_ptr(), room);
    let place = place(number, n, p);
    if number != 0 {
        assert!(out.iter().all(|b| *b == BEFORE));
        return Err(number);
    }
    Ok((place, out))
}

type Opened = ([u64; 6], [u64; 3], Vec<u8>);

fn decrypt_in(p: &P, key: &[u8; 16], frame: &[u8], mut work: Vec<u8>) -> Result<Opened, u8> {
    let (mut n, before, mut counts) = (numbers(p), work.clone(), [77; 6]);
    let number = unsafe { sys::mesh_decrypt(&mut n, key, frame.as_ptr(), frame.len(), work.as_mut_ptr(), work.len(), &mut counts) };
    let place = place(number, n, p);
    if number != 0 {
        assert_eq!((counts, work), ([77; 6], before));
        return Err(number);
    }
    Ok((counts, place, work))
}

fn decrypt(p: &P, key: &[u8; 16], frame: &[u8], room: usize) -> Result<Opened, u8> {
    decrypt_in(p, key, frame, vec![BEFORE; room])
}

fn decode(p: &P, frame: &[u8], work: &[u8]) -> Result<([u64; 6], [u64; 3]), u8> {
    let (mut n, mut counts) = (numbers(p), [77; 6]);
    let number = unsafe { sys::mesh_decode(&mut n, frame.as_ptr(), frame.len(), work.as_ptr(), work.len(), &mut counts) };
    let place = place(number, n, p);
    if number != 0 {
        assert_eq!(counts, [77; 6]);
        return Err(number);
    }
    Ok((counts, place))
}

fn item(is_event: bool, b: &[u8], at: u64) -> Result<[u64; 6], u8> {
    let mut item = [77; 6];
    match unsafe { sys::mesh_item(is_event, b.as_ptr(), b.len(), at, &mut item) } {
        0 => Ok(item),
        n => {
            assert_eq!(item, [77; 6]);
            Err(n)
        }
    }
}

fn item_write(is_event: bool, kind: u8, tag: u8, b: &[u8], room: usize) -> Wrote {
    let (mut out, mut length) = (vec![BEFORE; room], 77);
    let number = unsafe { sys::mesh_item_write(is_event, kind, tag, b.as_ptr(), b.len(), out.as_mut_ptr(), room, &mut length) };
    wrote(number, length, out)
}

fn text(p: &P, room: usize) -> Wrote {
    let (mut out, mut length) = (vec![BEFORE; room], 77);
    let number = unsafe { sys::mesh_text(&numbers(p), out.as_mut_ptr(), room, &mut length) };
    wrote(number, length, out)
}

fn count(is_event: bool, b: &[u8]) -> Result<[u64; 6], u8> {
    let mut counts = [77; 6];
    match unsafe { sys::mesh_count(is_event, b.as_ptr(), b.len(), &mut counts) } {
        0 => Ok(counts),
        n => {
            assert_eq!(counts, [77; 6]);
            Err(n)
        }
    }
}

fn stream(is_command: bool, b: &[u8], room: usize) -> Wrote {
    let mut out = vec![BEFORE; room];
    let number = unsafe { sys::mesh_stream(&KEY, is_command, 0x0a0b_0c0d, 60, b.as_ptr(), b.len(), out.as_mut_ptr(), room) };
    wrote(number, if number == 0 { b.len() as u64 } else { 77 }, out)
}

const KEY: [u8; 16] = [0, 1, 2, 3, 4, 5, 6, 7, 8, 9, 10, 11, 12, 13, 14, 15];

fn frame(first: u8, len: usize) -> Vec<u8> {
    let mut b: Vec<u8> = (0..len).map(|i| (i * 7 + 1) as u8).collect();
    if let Some(b) = b.first_mut() {
        *b = first;
    }
    b
}

#[test]
fn versions() {
    assert_eq!(unsafe { sys::mesh_version() }, sys::MESH_VERSION);
    assert_eq!(lemikanto::version(), lemikanto::VERSION);
}

// ---- reading

#[test]
fn reading() {
    for first in [0x40, 0xe0, 0xe8, 0xf0, 0xf8] {
        assert_eq!(read(&frame(first, 0)), unread(1));
        assert_eq!(read_mesh(&frame(first, 0)), unread(1));
        assert_eq!(read(&frame(first, 8193)), unread(5));
        assert_eq!(read_mesh(&frame(first, 8193)), unread(5));
        assert_eq!(read(&frame(first, 8192)).0, 0);
    }
    for len in 1..=4 {
        assert_eq!(read(&frame(0xe0, len)), unread(2));
        assert_eq!(read_mesh(&frame(0x40, len)), unread(2));
        assert_eq!(read(&frame(0x40, len)).1[13..], [0, 0, len as u64, 0]);
    }
    assert_eq!(read_mesh(&frame(0xdf, 5)), unread(3));
    assert_eq!(read_mesh(&frame(0x40, 8192)), unread(3));
    for (first, least, start) in [(0xe0, 14, 10), (0xe8, 15, 11), (0xf0, 13, 9), (0xf8, 13, 9)] {
        let kind = ((first >> 3) & 3) as u64;
        for len in 5..least {
            assert_eq!(read(&frame(first, len)), unread(4));
            assert_eq!(read_mesh(&frame(first, len)), unread(4));
        }
        for len in [least, least + 1, 8192] {
            let b = frame(first | 7, len);
            let (number, n, rssi, snr) = read_mesh(&b);
            assert_eq!((number, n, rssi, snr), read(&b));
            assert_eq!((number, n[0], n[1], n[2], n[3]), (0, kind, kind, 8, 1));
            let content = if kind < 2 || len == least { 0 } else { SEALED };
            let at = if kind >= 2 && len == least { 0 } else { start };
            assert_eq!(n[13..], [content, at, (len - least) as u64, 0]);
        }
    }
}

#[test]
fn reading_bodies() {
    for kind in [4, 5, 255] {
        assert_eq!(read_body(kind, &[]), unread(29));
        assert_eq!(read_body(kind, &frame(0, 8188)), unread(29));
    }
    for (kind, least) in [(UPLINK, 9), (DOWNLINK, 10), (EVENT, 8), (COMMAND, 8)] {
        for len in 0..least {
            assert_eq!(read_body(kind, &frame(0, len)), unread(4));
        }
        assert_eq!(read_body(kind, &frame(0, 8188)), unread(5));
        for len in [least, 8187] {
            let (number, n, ..) = read_body(kind, &frame(0, len));
            assert_eq!((number, n[0], n[2], n[3], n[15]), (0, kind, 0, 0, (len - least) as u64));
        }
    }
}

/// Every snr byte, beside bytes that have these two bits set, and not, themselves. Of what is no uplink there are no odd bits.
#[test]
fn odd_bits() {
    for b in 0..=255 {
        let (odd, snr) = (b / 64, (b << 2) as i8 >> 2);
        for n in [0, 0x40, 0x80, 0xff] {
            let rssi = -i16::from(n);
            for kind in [UPLINK, DOWNLINK, EVENT, COMMAND, LORA] {
                let mut frame = [n; 20];
                (frame[0], frame[4]) = (if kind == LORA { 0x40 } else { 0xe0 | (kind as u8) << 3 }, b);
                let mut even = frame;
                if kind == UPLINK {
                    even[4] %= 64;
                }
                let told = |r: Read| of(r.1, r.2, r.3);
                let p = told(read(&frame));
                let expected = if kind == UPLINK { (u64::from(odd), rssi, snr) } else { (0, 0, 0) };
                assert_eq!((p.kind, (p.odd, p.rssi, p.snr)), (kind, expected));
                assert_eq!(P { odd: 0, ..p }, told(read(&even)));
                assert_eq!(write(&p, &framed(&frame), 20).unwrap(), even);
                if kind == LORA {
                    continue;
                }
                assert_eq!(p, told(read_mesh(&frame)));
                let body = told(read_body(kind, &frame[1..16]));
                assert_eq!((body.odd, body.rssi, body.snr), expected);
                assert_eq!(write_body(&p, &framed(&frame), 20).unwrap(), even[1..16]);
                // The MIC is over bytes that have them 0.
                let mic = sign(&p, &KEY, &framed(&frame)).unwrap();
                assert_eq!(sign(&P { odd: 0, ..p }, &KEY, &framed(&frame)), Ok(mic));
                assert_eq!(validate(&P { mic, ..p }, &KEY, &framed(&frame)), Ok(1));
                assert_eq!(set_hop_count(&KEY, &mut frame, 8), 0);
                assert_eq!(frame[1..16], even[1..16]);
                let edited = told(read(&frame));
                assert_eq!(edited, P { hop_count: 8, mic: edited.mic, odd: 0, ..p });
            }
            let (mut m, mut r, mut s) = ([77; 4], 77, 77);
            unsafe { sys::mesh_uplink_metadata_read(&[n, n, n, b, n], &mut m, &mut r, &mut s) };
            let wide = u64::from(n);
            assert_eq!((m, r, s), ([wide << 4 | wide >> 4, wide & 15, wide, u64::from(odd)], rssi, snr));
            let (mut id, mut r, mut s, mut o) = (77, 77, 77, 77);
            unsafe { sys::mesh_path_read(&[n, n, n, n, n, b], &mut id, &mut r, &mut s, &mut o) };
            assert_eq!((id, r, s, o), (u32::from_be_bytes([n; 4]), rssi, snr, odd));
            let value = [n, n, n, n, n, !b, n, n, n, n, n, b];
            let (mut id, mut r, mut s, mut o) = (77, 77, 77, 77);
            assert_eq!(unsafe { sys::mesh_heartbeat_entry(value.as_ptr(), 12, 1, &mut id, &mut r, &mut s, &mut o) }, 0);
            assert_eq!((id, r, s, o), (u32::from_be_bytes([n; 4]), rssi, snr, odd));
        }
    }
}

// ---- writing

/// The refusals that writing a frame, writing a body, signing and validating share, in their order: each packet is refused for all that
/// follow it too.
fn faults(p: P) -> Vec<(u8, P)> {
    let mut list = vec![];
    for (start, len) in FAR.into_iter().chain([(0, 4), (4, 1), (3, 1), (2, 2)]) {
        let content = if p.kind < 2 { 0 } else { SEALED };
        list.push((45, P { start, len, content, uplink_id: 4096, delay: 0, ..p }));
    }
    if p.kind < 2 {
        list.push((8, P { uplink_id: 4096, dr: 16, rssi: 1, delay: 0, ..p }));
        list.push((8, P { uplink_id: u64::from(u16::MAX), ..p }));
        list.push((9, P { dr: 16, rssi: 1, delay: 0, ..p }));
        list.push((9, P { dr: 255, ..p }));
    }
    if p.kind == UPLINK {
        list.push((10, P { rssi: 1, snr: -33, ..p }));
        list.push((10, P { rssi: i16::MAX, ..p }));
        list.push((11, P { rssi: -256, snr: -33, ..p }));
        list.push((11, P { rssi: i16::MIN, ..p }));
        list.push((12, P { snr: -33, ..p }));
        list.push((12, P { snr: i8::MIN, ..p }));
        list.push((13, P { snr: 32, ..p }));
        list.push((13, P { snr: i8::MAX, ..p }));
    }
    if p.kind == DOWNLINK {
        list.push((14, P { delay: 0, tx_power: 16, frequency: 1, ..p }));
        list.push((15, P { delay: 17, tx_power: 16, frequency: 1, ..p }));
        list.push((15, P { tx_power: 255, ..p }));
        list.push((16, P { delay: 17, frequency: 1, ..p }));
        list.push((16, P { delay: 255, ..p }));
        list.push((17, P { frequency: 1_677_721_650, ..p }));
        list.push((17, P { frequency: u64::from(u32::MAX), ..p }));
        list.push((18, P { frequency: 1, ..p }));
        list.push((18, P { frequency: 868_100_001, ..p }));
        list.push((18, P { frequency: 2_400_000_003, ..p }));
        list.push((38, P { frequency: 1_200_000_000, ..p }));
        list.push((38, P { frequency: 1_677_721_500, ..p }));
        list.push((38, P { frequency: 2_400_000_001, ..p }));
    }
    list
}

#[test]
fn writing_refuses_in_order() {
    let three = [1, 2, 3];
    let l = framed(&three);
    for kind in [5, 6, 255] {
        let p = P { kind, hop_count: 0, ..good(UPLINK) };
        assert_eq!(write(&p, &l, 100), Err(29));
        assert_eq!(write_body(&p, &l, 100), Err(29));
        assert_eq!(sign(&p, &KEY, &l), Err(29));
        assert_eq!(validate(&p, &KEY, &l), Err(29));
    }
    for kind in 0..4 {
        let p = good(kind);
        for payload_type in [4, 255] {
            let p = P { payload_type, hop_count: 0, ..p };
            assert_eq!(write(&p, &l, 100), Err(29));
            assert_eq!(write_body(&p, &l, 100), Err(29));
            assert_eq!(sign(&p, &KEY, &l), Err(29));
            assert_eq!(validate(&p, &KEY, &l), Err(29));
        }
        for (number, p) in faults(p) {
            for (hops, hop_count) in [(6, 0), (7, 9), (7, 255)] {
                let p = P { hop_count, ..p };
                assert_eq!(write(&p, &l, 0), Err(hops));
                assert_eq!(sign(&p, &KEY, &l), Err(hops));
                assert_eq!(validate(&p, &KEY, &l), Err(hops));
                assert_eq!(validate(&P { has_mic: 0, ..p }, &KEY, &l), Err(27));
                assert_eq!(write_body(&p, &l, 0), Err(number));
            }
            assert_eq!(write(&P { has_mic: 0, ..p }, &l, 0), Err(number));
            assert_eq!(sign(&p, &KEY, &l), Err(number));
            assert_eq!(validate(&p, &KEY, &l), Err(number));
            assert_eq!(validate(&P { has_mic: 0, ..p }, &KEY, &l), Err(27));
            assert_eq!(write_body(&p, &l, 0), Err(number));
        }
        for start in [3, 4, u64::MAX] {
            let p = P { start, content: SEALED, ..p };
            assert_eq!(write(&p, &l, 100), write(&good(kind), &L::default(), 100));
        }
        for hop_count in 1..=8 {
            assert_eq!(write(&P { hop_count, ..p }, &l, 100).unwrap()[0], (0xe0 | kind << 3 | (hop_count - 1)) as u8);
        }
    }
    for (start, len) in FAR {
        assert_eq!(write(&P { start, len, ..good(LORA) }, &l, 10), Err(45));
    }
    for f in [sign, |p: &P, k: &[u8; 16], l: &L| validate(p, k, l).map(u64::from)] {
        assert_eq!(f(&good(LORA), &KEY, &l), Err(29));
    }
}

#[test]
fn writing_at_the_most() {
    let long = frame(9, 8200);
    let l = framed(&long);
    for (kind, rest) in [(UPLINK, 14), (DOWNLINK, 15), (EVENT, 13), (COMMAND, 13)] {
        let p = P { content: SEALED, start: 1, len: 8192 - rest, ..good(kind) };
        let over = P { len: p.len + 1, ..p };
        assert_eq!(write(&over, &l, 0), Err(5));
        assert_eq!(write(&P { has_mic: 0, ..over }, &l, 0), Err(27));
        assert_eq!(write_body(&over, &l, 0), Err(5));
        assert_eq!(sign(&over, &KEY, &l), Err(5));
        assert_eq!(validate(&over, &KEY, &l), Err(5));
        assert_eq!(sign(&P { frequency: 1_200_000_000, ..over }, &KEY, &l), Err(if kind == DOWNLINK { 38 } else { 5 }));
        assert_eq!(write(&p, &l, 8191), Err(21));
        assert_eq!(write_body(&p, &l, 8186), Err(21));
        let b = write(&p, &l, 8192).unwrap();
        assert_eq!(b.len(), 8192);
        assert_eq!(write(&p, &l, 8200), Ok(b.clone()));
        assert_eq!(write_body(&p, &l, 8187).unwrap(), b[1..8188]);
        assert_eq!(b[8188..], [1, 2, 3, 4]);
        assert!(sign(&p, &KEY, &l).is_ok());
        assert_eq!(validate(&p, &KEY, &l), Ok(0));
    }
    let p = P { len: 8193, ..good(LORA) };
    assert_eq!(write(&p, &l, 9000), Err(5));
    let p = P { len: 8192, ..p };
    assert_eq!(write(&p, &l, 8191), Err(21));
    assert_eq!(write(&p, &l, 8192).unwrap(), long[..8192]);
    assert_eq!(write(&good(LORA), &L::default(), 0), Ok(vec![]));
}

#[test]
fn writing_over_shared_ranges() {
    // Frame and work are parts of one buffer that overlap, and the key lies in them too.
    let one: [u8; 40] = std::array::from_fn(|i| i as u8);
    let (f, w) = (&one[4..30], &one[10..]);
    let key: &[u8; 16] = one[8..24].try_into().unwrap();
    let l = L { frame: f, work: w, ..L::default() };
    let p = P { content: SEALED, start: 2, len: 5, ..good(EVENT) };
    assert_eq!(&write(&p, &l, 18).unwrap()[9..14], &one[6..11]);
    // 0c 0d ..: a cut item.
    let p = P { content: IN_WORK, start: 2, len: 5, ..good(EVENT) };
    assert_eq!(write(&p, &l, 18).unwrap().len(), 13);
    let kinds = [[PROPRIETARY, 1], [PROPRIETARY, 2]];
    let spans = [[0, 3], [1, 3]];
    let both = L { kinds: &kinds, spans: &spans, ..l };
    let p = P { content: ITEMS, len: 2, ..p };
    assert_eq!(write(&p, &both, 23).unwrap()[9..19], [1, 3, 10, 11, 12, 2, 3, 11, 12, 13]);
    let apart = key.to_owned();
    assert_eq!(sign(&p, key, &both), sign(&p, &apart, &both));
    let (place, out) = seal(&p, key, &both, 10).unwrap();
    assert_eq!(place, [1, 0, 10]);
    assert_eq!(seal(&p, &apart, &both, 10).unwrap().1, out);
    assert_eq!(decode(&P { content: SEALED, start: 2, len: 5, ..p }, f, f), decode(&P { content: SEALED, start: 2, len: 5, ..p }, f, w));
}

#[test]
fn composing() {
    let value = frame(1, 300);
    let ids = [1; 50];
    let rssis = [-1; 50];
    let snrs = [2; 50];
    let at = |kinds: &[[u8; 2]], spans: &[[u32; 2]], len: u64, kind: u64| {
        let l = L { frame: &[], work: &value, kinds, spans, ids: &ids, rssis: &rssis, snrs: &snrs };
        let p = P { content: ITEMS, len, ..good(kind) };
        let w = write(&p, &l, 8192);
        assert_eq!(write_body(&p, &l, 8192), w.clone().map(|b| b[1..b.len() - 4].to_vec()));
        assert_eq!(seal(&p, &KEY, &l, 8192).map(|(place, _)| place[2]), w.clone().map(|b| b.len() as u64 - 13));
        assert_eq!(sign(&p, &KEY, &l).map(|_| ()), w.clone().map(|_| ()));
        assert_eq!(validate(&p, &KEY, &l).map(|_| ()), w.clone().map(|_| ()));
        assert_eq!(write(&P { start: u64::MAX, ..p }, &l, 8192), w);
        w.map(|b| b[9..b.len() - 4].to_vec())
    };
    let any = [PROPRIETARY, 1];
    // Counts that the lists lack.
    for len in [1, 2, u64::MAX] {
        assert_eq!(at(&[], &[], len, EVENT), Err(45));
        assert_eq!(at(&[any; 2], &[], len, EVENT), Err(45));
        assert_eq!(at(&[], &[[0, 1], [0, 1]], len, COMMAND), Err(45));
    }
    assert_eq!(at(&[any], &[[0, 1]], 0, EVENT), Ok(vec![]));
    // Values: place, length.
    for span in [[301, 1], [300, 1], [0, 301], [u32::MAX, 1], [1, u32::MAX], [u32::MAX, u32::MAX]] {
        for kind in [HEARTBEAT, PROPRIETARY, PATH] {
            assert_eq!(at(&[[kind, 1]], &[span], 1, EVENT), Err(45));
        }
        assert_eq!(at(&[any], &[span], 1, COMMAND), Err(45));
    }
    assert_eq!(at(&[any], &[[0, 256]], 1, EVENT), Err(19));
    assert_eq!(at(&[any], &[[0, 256]], 1, COMMAND), Err(19));
    assert_eq!(at(&[any], &[[45, 255]], 1, EVENT).unwrap()[2..], value[45..300]);
    assert_eq!(at(&[any], &[[300, 0]], 1, COMMAND), Ok(vec![1, 0]));
    // Tag 0 of an event is a heartbeat; of a command it is any. A heartbeat's own tag is 0.
    for beat in [[PROPRIETARY, 0], [HEARTBEAT, 0], [HEARTBEAT, 9]] {
        assert_eq!(at(&[beat], &[[0, 5]], 1, EVENT), Err(20));
        assert_eq!(at(&[beat], &[[0, 6]], 1, EVENT), Ok(vec![0, 6, 1, 8, 15, 22, 29, 36]));
        assert_eq!(at(&[beat], &[[0, 256]], 1, EVENT), Err(19));
    }
    assert_eq!(at(&[[PROPRIETARY, 0]], &[[0, 5]], 1, COMMAND).unwrap().len(), 7);
    // Paths.
    assert_eq!(at(&[[PATH, 9]], &[[0, 43]], 1, EVENT), Err(19));
    assert_eq!(at(&[[PATH, 9]], &[[9, 42]], 1, EVENT), Err(45));
    assert_eq!(at(&[[PATH, 9]], &[[8, 42]], 1, EVENT).unwrap().len(), 254);
    assert_eq!(at(&[[PATH, 9]], &[[50, 0]], 1, EVENT), Ok(vec![0, 0]));
    // 45 of any item precedes 19 of the first.
    assert_eq!(at(&[any, any], &[[0, 256], [301, 1]], 2, EVENT), Err(45));
    assert_eq!(at(&[[PROPRIETARY, 0], any], &[[0, 5], [0, 256]], 2, EVENT), Err(19));

    // A path's lists of unequal length reach as far as the shortest; its entries are judged before lengths.
    let p = P { content: ITEMS, len: 1, ..good(EVENT) };
    for (ids, rssis, snrs) in [(&ids[..1], &rssis[..], &snrs[..]), (&ids, &rssis[..1], &snrs), (&ids, &rssis, &snrs[..1])] {
        let l = L { kinds: &[[PATH, 0]], spans: &[[0, 2]], ids, rssis, snrs, ..L::default() };
        assert_eq!(write(&p, &l, 99), Err(45));
        assert_eq!(write(&p, &L { spans: &[[0, 1]], ..l }, 99).unwrap().len(), 21);
    }
    for (number, rssi, snr) in [(10, 1, 40), (11, -256, 40), (12, 0, -33), (13, 0, 32)] {
        let (rssis, snrs) = ([rssi; 50], [snr; 50]);
        let l = L { kinds: &[[PATH, 0]], spans: &[[0, 43]], ids: &ids, rssis: &rssis, snrs: &snrs, ..L::default() };
        assert_eq!(write(&p, &l, 0), Err(number));
        assert_eq!(seal(&p, &KEY, &l, 0), Err(number));
    }

    // 31 items of 257 bytes and one of 212 are 8,179.
    let kinds = [any; 32];
    let mut spans = [[0, 255]; 32];
    spans[31] = [0, 210];
    assert_eq!(at(&kinds, &spans, 32, EVENT).unwrap().len(), 8179);
    spans[31] = [0, 211];
    assert_eq!(at(&kinds, &spans, 32, EVENT), Err(5));
    assert_eq!(at(&kinds, &spans, 32, COMMAND), Err(5));
}

/// Every call that takes composed items refuses a kind that is none with 29, before all else: before 6 and 7, 27, 45 and 21.
#[test]
fn kinds_that_are_none() {
    let value = frame(1, 300);
    let refused = |kind: u64, kinds: &[[u8; 2]], spans: &[[u32; 2]]| {
        let l = L { work: &value, kinds, spans, ..L::default() };
        for hop_count in [0, 1, 9] {
            for has_mic in [0, 1] {
                let p = P { content: ITEMS, len: kinds.len() as u64, hop_count, has_mic, ..good(kind) };
                assert_eq!(write(&p, &l, 0), Err(29));
                assert_eq!(write_body(&p, &l, 0), Err(29));
                assert_eq!(sign(&p, &KEY, &l), Err(29));
                assert_eq!(validate(&p, &KEY, &l), Err(29));
                assert_eq!(seal(&p, &KEY, &l, 0), Err(29));
            }
        }
    };
    let any = [PROPRIETARY, 1];
    for none in [0, 4, 5, 127, 255] {
        for kind in [EVENT, COMMAND] {
            refused(kind, &[[none, 1]], &[[0, 1]]);
            refused(kind, &[[none, 0]], &[[301, 1]]);
            refused(kind, &[any, [none, 1]], &[[301, 1], [0, 256]]);
        }
    }
    for none in [HEARTBEAT, PATH] {
        refused(COMMAND, &[[none, 1]], &[[0, 0]]);
        refused(COMMAND, &[any, any, [none, 0]], &[[0, 256], [301, 1], [0, 6]]);
    }
    // An item is what both lists have: of one that they lack, 45.
    let l = L { work: &value, kinds: &[any, [0, 1]], spans: &[[0, 1]], ..L::default() };
    assert_eq!(write(&P { content: ITEMS, len: 2, ..good(EVENT) }, &l, 99), Err(45));
    let l = L { work: &value, kinds: &[any, [0, 1]], spans: &[[0, 1]; 2], ..L::default() };
    assert_eq!(write(&P { content: ITEMS, len: 3, ..good(EVENT) }, &l, 99), Err(29));
    // Items that the body does not count are not looked at.
    let l = L { work: &value, kinds: &[any, [0, 0]], spans: &[[0, 1], [0, 1]], ..L::default() };
    for kind in [EVENT, COMMAND] {
        assert_eq!(write(&P { content: ITEMS, len: 1, ..good(kind) }, &l, 99).unwrap()[9..12], [1, 1, 1]);
        assert_eq!(write(&P { len: 1, ..good(kind) }, &l, 99).unwrap().len(), 13);
    }
}

/// Numbers that are wider than 32 bits. The low bits of the first two are good ones.
const WIDE: [u64; 4] = [1 << 32, (1 << 32) + 1, 1 << 63, u64::MAX];

/// Numbers of odd bits: those that are read, and others, whose low bits are such.
const ODD: [u64; 14] = [0, 1, 2, 3, 4, 5, 255, 256, 257, 259, 1 << 32, (1 << 32) + 1, (1 << 32) + 3, u64::MAX];

/// What every call answers of a packet.
fn answers(p: &P, frame: &[u8]) -> impl PartialEq + std::fmt::Debug {
    let l = framed(frame);
    let opened = (seal(p, &KEY, &l, 99), decrypt(p, &KEY, frame, 99), decode(p, frame, &[]));
    (write(p, &l, 99), write_body(p, &l, 99), sign(p, &KEY, &l), validate(p, &KEY, &l), opened, record(p))
}

/// A number that is wider than its field counts as the field's largest; where nothing refuses that, it is 29 before all else.
#[test]
fn numbers_that_are_wide() {
    let three = [1, 2, 3];
    type Set = fn(&mut P, u64);
    let largest: [(u64, Set); 8] = [
        (255, |p, n| p.kind = n),
        (255, |p, n| p.payload_type = n),
        (255, |p, n| p.hop_count = n),
        (255, |p, n| p.dr = n),
        (4_294_967_295, |p, n| p.frequency = n),
        (255, |p, n| p.tx_power = n),
        (255, |p, n| p.delay = n),
        (255, |p, n| p.content = n),
    ];
    let none: [(u64, Set); 5] = [
        (4_294_967_296, |p, n| p.mic = n),
        (4_294_967_296, |p, n| p.relay_id = n),
        (65_536, |p, n| p.uplink_id = n),
        (256, |p, n| p.channel = n),
        (4_294_967_296, |p, n| p.timestamp = n),
    ];
    for kind in [UPLINK, DOWNLINK, EVENT, COMMAND, LORA] {
        for (hop_count, has_mic) in [(0, 0), (1, 1), (9, 1)] {
            let p = P { hop_count, has_mic, content: SEALED, len: 3, ..good(kind) };
            for (most, set) in largest {
                let mut q = p;
                set(&mut q, most);
                for wide in WIDE.into_iter().chain([most + 1]) {
                    let mut w = p;
                    set(&mut w, wide);
                    assert_eq!(answers(&w, &three), answers(&q, &three));
                }
            }
            for (least, set) in none {
                for wide in WIDE.into_iter().chain([least]) {
                    let mut w = p;
                    set(&mut w, wide);
                    let l = framed(&three);
                    assert_eq!((write(&w, &l, 0), write_body(&w, &l, 0)), (Err(29), Err(29)));
                    assert_eq!((sign(&w, &KEY, &l), validate(&w, &KEY, &l)), (Err(29), Err(29)));
                    assert_eq!((seal(&w, &KEY, &l, 0), decrypt(&w, &KEY, &three, 0)), (Err(29), Err(29)));
                    assert_eq!((decode(&w, &three, &[]), record(&w)), (Err(29), (29, [77; 4])));
                }
            }
            // Any number but 0 is a MIC's.
            for has_mic in WIDE.into_iter().chain([2]) {
                assert_eq!(answers(&P { has_mic, ..p }, &three), answers(&P { has_mic: 1, ..p }, &three));
            }
            // Any number of odd bits is taken, and changes nothing.
            for odd in ODD {
                assert_eq!(answers(&P { odd, ..p }, &three), answers(&p, &three));
            }
        }
    }
    let l = L::default();
    let (up, down, event) = (good(UPLINK), good(DOWNLINK), good(EVENT));
    for (number, p) in [
        (7, P { hop_count: 300, ..up }),
        (29, P { uplink_id: 1 << 16, ..up }),
        (9, P { dr: 300, ..up }),
        (15, P { tx_power: 256, ..down }),
        (16, P { delay: 257, ..down }),
        (17, P { frequency: 1 << 32, ..down }),
        (29, P { kind: 256, ..up }),
        (29, P { payload_type: 256, ..up }),
        (29, P { content: 256, ..event }),
        (29, P { relay_id: 1 << 32, dr: 300, ..up }),
    ] {
        assert_eq!(write(&p, &l, 99), Err(number));
    }
}

/// So it is with a content that is none; of uplinks, downlinks and LoRa frames it is not looked at.
#[test]
fn bodies_that_are_none() {
    let three = [1, 2, 3];
    let l = framed(&three);
    for content in [5, 6, 127, 255] {
        for kind in [EVENT, COMMAND] {
            for (start, len) in [(0, 0), (0, 3), (9, 9)] {
                for hop_count in [0, 1, 9] {
                    for has_mic in [0, 1] {
                        let p = P { content, start, len, hop_count, has_mic, ..good(kind) };
                        assert_eq!(write(&p, &l, 0), Err(29));
                        assert_eq!(write_body(&p, &l, 0), Err(29));
                        assert_eq!(sign(&p, &KEY, &l), Err(29));
                        assert_eq!(validate(&p, &KEY, &l), Err(29));
                        assert_eq!(seal(&p, &KEY, &l, 0), Err(29));
                        assert_eq!(decrypt(&p, &KEY, &three, 0), Err(29));
                        assert_eq!(decode(&p, &three, &[]), Err(29));
                    }
                }
            }
        }
        for kind in [UPLINK, DOWNLINK, LORA] {
            let p = P { len: 3, ..good(kind) };
            assert_eq!(write(&P { content, ..p }, &l, 99), write(&p, &l, 99));
            assert!(write(&p, &l, 99).is_ok());
        }
        for kind in [UPLINK, DOWNLINK] {
            let p = P { len: 3, ..good(kind) };
            assert_eq!(sign(&P { content, ..p }, &KEY, &l), sign(&p, &KEY, &l));
            assert!(seal(&P { content, ..p }, &KEY, &l, 0).is_ok());
        }
    }
}

/// The items that reading lists, lent back as they were read, are written, sealed and signed as the open payload itself is.
#[test]
fn lent_back() {
    // A heartbeat with odd bits, others of tags 0 and not, one that an event skips, and a cut tail.
    let payload = [0, 6, 1, 2, 3, 4, 80, 0xc7, 1, 2, 0xaa, 0xbb, 0, 5, 1, 2, 3, 4, 5, 0, 0, 255, 1, 7, 3, 9, 0xcc];
    for kind in [EVENT, COMMAND] {
        let (mut kinds, mut spans, mut at) = (vec![], vec![], 0);
        loop {
            let [found, kind, tag, start, len, next] = item(kind == EVENT, &payload, at).unwrap();
            match found as u8 {
                sys::MESH_END => break,
                sys::MESH_KEPT => {
                    kinds.push([kind as u8, tag as u8]);
                    spans.push([start as u32, len as u32]);
                }
                _ => (),
            }
            assert!(next > at);
            at = next;
        }
        assert_eq!(kinds.len(), if kind == EVENT { 4 } else { 5 });
        let l = L { work: &payload, kinds: &kinds, spans: &spans, ..L::default() };
        let again = P { content: ITEMS, len: kinds.len() as u64, ..good(kind) };
        let open = P { content: IN_WORK, len: payload.len() as u64, ..good(kind) };
        let written = write(&open, &l, 99).unwrap();
        assert_eq!(written[16], if kind == EVENT { 0x07 } else { 0xc7 });
        assert_eq!(write(&again, &l, 99).unwrap(), written);
        assert_eq!(write_body(&again, &l, 99), write_body(&open, &l, 99));
        assert_eq!(seal(&again, &KEY, &l, 99), seal(&open, &KEY, &l, 99));
        assert_eq!(sign(&again, &KEY, &l), sign(&open, &KEY, &l));
    }
}

// ---- signing, sealing, opening

#[test]
fn hop_edit() {
    let mut buffer = frame(0xe0, 8193);
    assert_eq!(set_hop_count(&KEY, &mut buffer, 0), 5);
    assert_eq!(set_hop_count(&KEY, &mut [], 0), 1);
    assert_eq!(set_hop_count(&KEY, &mut frame(0x40, 4), 0), 2);
    assert_eq!(set_hop_count(&KEY, &mut frame(0x40, 14), 0), 3);
    assert_eq!(set_hop_count(&KEY, &mut frame(0xe0, 13), 0), 4);
    for (first, least) in [(0xe0, 14), (0xe8, 15), (0xf0, 13), (0xf8, 13)] {
        for len in [least, 100, 8192] {
            let mut b = frame(first, len);
            assert_eq!(set_hop_count(&KEY, &mut b, 0), 6);
            assert_eq!(set_hop_count(&KEY, &mut b, 9), 7);
            assert_eq!(set_hop_count(&KEY, &mut b, 255), 7);
            for hop_count in 1..=8 {
                let before = b.clone();
                assert_eq!(set_hop_count(&KEY, &mut b, hop_count), 0);
                assert_eq!(b[0], first | (hop_count - 1));
                assert_eq!(b[1..3], before[1..3]);
                let (_, n, rssi, snr) = read_mesh(&b);
                let p = of(n, rssi, snr);
                assert_eq!(validate(&p, &KEY, &framed(&b)), Ok(1));
                assert_eq!(validate(&P { mic: p.mic ^ 1, ..p }, &KEY, &framed(&b)), Ok(0));
            }
        }
    }
}

#[test]
fn sealing_and_opening() {
    let long = frame(9, 8200);
    let l = framed(&long);
    for kind in [EVENT, COMMAND] {
        let p = P { content: SEALED, start: 1, len: 8179, ..good(kind) };
        for payload_type in [4, 255] {
            assert_eq!(seal(&P { payload_type, ..p }, &KEY, &l, 0), Err(29));
            assert_eq!(decrypt(&P { payload_type, ..p }, &KEY, &long, 0), Err(29));
            assert_eq!(decode(&P { payload_type, ..p }, &long, &[]), Err(29));
        }
        for (start, len) in FAR.into_iter().chain([(8200, 1), (8201, 1), (0, 8201)]) {
            let p = P { start, len, ..p };
            assert_eq!(seal(&p, &KEY, &l, 0), Err(45));
            assert_eq!(decrypt(&p, &KEY, &long, 0), Err(45));
            assert_eq!(decode(&p, &long, &[]), Err(45));
            for content in [IN_FRAME, IN_WORK] {
                let p = P { content, ..p };
                assert_eq!(seal(&p, &KEY, &L { work: &long, ..l }, 0), Err(45));
                assert_eq!(write(&p, &L { work: &long, ..l }, 0), Err(45));
            }
        }
        let over = P { len: 8180, ..p };
        assert_eq!(seal(&over, &KEY, &l, 9000), Err(5));
        assert_eq!(decrypt(&over, &KEY, &long, 9000), Err(5));
        assert_eq!(decode(&over, &long, &[]), Err(5));
        assert_eq!(seal(&p, &KEY, &l, 8178), Err(21));
        assert_eq!(decrypt(&p, &KEY, &long, 8178), Err(21));
        // Sealing twice gives the clear bytes; hop count and MIC do not matter.
        let (place, out) = seal(&P { hop_count: 0, has_mic: 0, ..p }, &KEY, &l, 8179).unwrap();
        assert_eq!(place, [1, 0, 8179]);
        let q = P { content: place[0], start: place[1], len: place[2], ..p };
        let (_, back) = seal(&q, &KEY, &framed(&out), 8190).unwrap();
        assert_eq!(back[..8179], long[1..8180]);
        assert_eq!(back[8179..], [BEFORE; 11]);
        let (counts, place, work) = decrypt(&q, &KEY, &out, 8179).unwrap();
        assert_eq!(place, [3, 0, 8179]);
        assert_eq!(work, long[1..8180]);
        assert_eq!(counts[2] + counts[3] + counts[4], 8179);
        assert_eq!(Ok(counts), count(kind == EVENT, &work));
        assert_eq!(decode(&p, &long, &[]), Ok((counts, [2, 1, 8179])));
        let tight = [decrypt(&q, &KEY, &out, 8180).unwrap().2[8179]];
        assert_eq!(tight, [BEFORE]);
    }
    // Open already: with none, one and more items.
    for (payload, number) in [(&[1, 0, 2, 0][..], 22), (&[1, 0][..], 23), (&[1, 0, 9][..], 23)] {
        for (content, frame, work) in [(IN_FRAME, payload, &[][..]), (IN_WORK, &[][..], payload)] {
            let p = P { content, len: payload.len() as u64, ..good(EVENT) };
            assert_eq!(decode(&p, frame, work), Err(255));
            assert_eq!(decrypt_in(&p, &KEY, frame, work.to_vec()), Err(number));
            assert_eq!(seal(&p, &KEY, &L { frame, work, ..L::default() }, 4).unwrap().0[0], 1);
        }
    }
    assert_eq!(decrypt(&P { content: ITEMS, len: 2, ..good(COMMAND) }, &KEY, &[], 0), Err(22));
    assert_eq!(decrypt(&P { content: ITEMS, len: u64::MAX, ..good(COMMAND) }, &KEY, &[], 0), Err(22));
    assert_eq!(decrypt(&P { content: ITEMS, len: 1, ..good(COMMAND) }, &KEY, &[], 0), Err(23));
    assert_eq!(decode(&P { content: ITEMS, len: 1, ..good(COMMAND) }, &[], &[]), Err(255));
    // Nothing to do, in no room at all: an empty payload and what has no items.
    for p in [good(UPLINK), good(DOWNLINK), good(EVENT), good(COMMAND)] {
        let (place, out) = seal(&p, &KEY, &L::default(), 0).unwrap();
        assert_eq!((place, out.len()), ([0, 0, 0], 0));
        assert_eq!(decrypt(&p, &KEY, &[], 0), Ok(([0, 0, 0, 0, 0, 1], [0, 0, 0], vec![])));
        assert_eq!(decode(&p, &[], &[]), Ok(([0, 0, 0, 0, 0, 1], [0, 0, 0])));
    }
    assert_eq!(seal(&P { start: 1, len: 2, ..good(UPLINK) }, &KEY, &l, 0), Ok(([0, 1, 2], vec![])));
    for kind in [4, 5, 255] {
        assert_eq!(seal(&P { kind, ..good(UPLINK) }, &KEY, &l, 0), Err(29));
        assert_eq!(decrypt(&P { kind, ..good(UPLINK) }, &KEY, &[], 0), Err(29));
        assert_eq!(decode(&P { kind, ..good(UPLINK) }, &[], &[]), Err(29));
    }
}

// ---- items, heartbeats and the stream

#[test]
fn items() {
    let long = vec![1; 8180];
    assert_eq!(item(true, &long, 0), Err(5));
    assert_eq!(item(false, &long, u64::MAX), Err(5));
    assert_eq!(count(true, &long), Err(5));
    assert_eq!(count(false, &long[..8179]), Ok([2726, 0, 8178, 0, 1, 0]));
    assert_eq!(item(true, &long[..8179], 0), Ok([1, 2, 1, 2, 1, 3]));
    assert_eq!(item(true, &long[..8179], 8178), Ok([3, 0, 0, 8178, 1, 8179]));
    for at in [8179, 8180, u64::MAX, u64::MAX - 1, 1 << 63] {
        assert_eq!(item(true, &long[..8179], at), Ok([0, 0, 0, 0, 0, 8179]));
        assert_eq!(item(false, &[], at), Ok([0; 6]));
    }
    assert_eq!(count(true, &[]), Ok([0, 0, 0, 0, 0, 1]));
    assert_eq!(item(true, &[0, 6, 1, 2, 3, 4, 5, 6], 0), Ok([1, 1, 0, 2, 6, 8]));
    assert_eq!(item(true, &[0, 5, 1, 2, 3, 4, 5], 0), Ok([2, 1, 0, 2, 5, 7]));
    assert_eq!(item(false, &[0, 5, 1, 2, 3, 4, 5], 0), Ok([1, 2, 0, 2, 5, 7]));
    for end in 1..=7 {
        assert_eq!(item(true, &[0, 6, 1, 2, 3, 4, 5, 6][..end], 0), Ok([3, 0, 0, 0, end as u64, end as u64]));
    }
    // The place behind a cut tail and behind the end is the payload's length, so that a walk by it ends.
    let cut = [1, 1, 0xaa, 2, 9, 0];
    assert_eq!(item(true, &cut, 0), Ok([1, 2, 1, 2, 1, 3]));
    assert_eq!(item(true, &cut, 3), Ok([3, 0, 0, 3, 3, 6]));
    assert_eq!(item(true, &cut, 6), Ok([0, 0, 0, 0, 0, 6]));
}

#[test]
fn items_alone() {
    let value = frame(0xff, 300);
    for kind in 0..=u8::MAX {
        let none = !(1..=2).contains(&kind);
        assert_eq!(item_write(true, kind, 1, &value, 0), Err(if none { 29 } else { 19 }));
        assert_eq!(item_write(false, kind, 1, &value, 0), Err(if kind == PROPRIETARY { 19 } else { 29 }));
    }
    for is_event in [true, false] {
        assert_eq!(item_write(is_event, PROPRIETARY, 9, &value[..255], 256), Err(21));
        assert_eq!(item_write(is_event, PROPRIETARY, 9, &value[..255], 300).unwrap(), [&[9, 255][..], &value[..255]].concat());
        assert_eq!(item_write(is_event, PROPRIETARY, 9, &[], 2).unwrap(), [9, 0]);
        assert_eq!(item_write(is_event, PROPRIETARY, 9, &[], 1), Err(21));
        assert_eq!(item_write(is_event, PROPRIETARY, 0, &value[..256], 0), Err(19));
        assert_eq!(item_write(is_event, PROPRIETARY, 0, &value[..5], 0), Err(if is_event { 20 } else { 21 }));
    }
    // A heartbeat has tag 0 and no odd bits; in a command the same bytes are a value.
    let six = [1, 2, 3, 4, 5, 0xff];
    assert_eq!(item_write(true, HEARTBEAT, 9, &six, 8).unwrap(), [0, 6, 1, 2, 3, 4, 5, 0x3f]);
    assert_eq!(item_write(true, PROPRIETARY, 0, &six, 8).unwrap(), [0, 6, 1, 2, 3, 4, 5, 0x3f]);
    assert_eq!(item_write(false, PROPRIETARY, 0, &six, 8).unwrap(), [0, 6, 1, 2, 3, 4, 5, 0xff]);
    assert_eq!(item_write(true, HEARTBEAT, 9, &[], 2).unwrap(), [0, 0]);
    assert_eq!(item_write(true, HEARTBEAT, 9, &value[..253], 300), Err(20));
    assert_eq!(item_write(true, HEARTBEAT, 9, &value[..252], 300).unwrap().len(), 254);
    // One that was read is written as it stood, and read again as it was.
    let payload = [7, 2, 0xaa, 0xbb, 0, 6, 1, 2, 3, 4, 5, 6];
    for (at, end) in [(0, 4), (4, 12)] {
        let [found, kind, tag, start, len, next] = item(true, &payload, at as u64).unwrap();
        assert_eq!((found, next), (1, end as u64));
        let bytes = item_write(true, kind as u8, tag as u8, &payload[start as usize..][..len as usize], 300).unwrap();
        assert_eq!(bytes, payload[at..end]);
        assert_eq!(item(true, &bytes, 0), Ok([1, kind, tag, 2, len, bytes.len() as u64]));
    }
}

#[test]
fn key_stream() {
    let long = frame(1, 8180);
    assert_eq!(stream(true, &long, 9000), Err(5));
    assert_eq!(stream(true, &long, 0), Err(5));
    assert_eq!(stream(true, &long[..8179], 8178), Err(21));
    assert_eq!(stream(true, &long[..1], 0), Err(21));
    assert_eq!(stream(true, &[], 0), Ok(vec![]));
    assert_eq!(stream(true, &[], 3), Ok(vec![]));
    let sealed = stream(true, &long[..8179], 8190).unwrap();
    assert_eq!(stream(true, &sealed, 8179).unwrap(), long[..8179]);
    assert_ne!(stream(false, &sealed, 8179).unwrap(), long[..8179]);
    // The block number is a byte: block 257 repeats block 1.
    let zeros = stream(true, &[0; 8179], 8179).unwrap();
    assert_eq!(zeros[..16], zeros[256 * 16..257 * 16]);
    assert_ne!(zeros[..16], zeros[255 * 16..256 * 16]);
}

#[test]
fn heartbeats() {
    let value = frame(1, 300);
    let entries = |len: usize, places: u64| {
        let mut n = 77;
        match unsafe { sys::mesh_heartbeat(value.as_ptr(), len, places, &mut n) } {
            0 => Ok(n),
            r => {
                assert_eq!(n, 77);
                Err(r)
            }
        }
    };
    assert_eq!(entries(256, 0), Err(19));
    assert_eq!(entries(258, 99), Err(19));
    assert_eq!(entries(255, 0), Err(20));
    assert_eq!(entries(1, 0), Err(20));
    assert_eq!(entries(252, 41), Err(21));
    assert_eq!(entries(6, 0), Err(21));
    assert_eq!(entries(252, 42), Ok(42));
    assert_eq!(entries(252, u64::MAX), Ok(42));
    assert_eq!(entries(0, 0), Ok(0));

    let entry = |len: usize, i: u64| {
        let (mut id, mut rssi, mut snr, mut odd) = (77, 77, 77, 77);
        match unsafe { sys::mesh_heartbeat_entry(value.as_ptr(), len, i, &mut id, &mut rssi, &mut snr, &mut odd) } {
            0 => Ok((id, rssi, snr, odd)),
            r => {
                assert_eq!((id, rssi, snr, odd), (77, 77, 77, 77));
                Err(r)
            }
        }
    };
    // The last three: six times the place is 2, 0 and 4 modulo 2^64.
    for i in [2, u64::MAX, 1 << 63, 0x2aaa_aaaa_aaaa_aaab, 0x8000_0000_0000_0000, 0x5555_5555_5555_5556] {
        assert_eq!(entry(12, i), Err(45));
        assert_eq!(entry(0, i), Err(45));
    }
    assert_eq!(entry(0, 0), Err(45));
    // What `mesh_heartbeat` refuses has no entries.
    for i in [0, 1, 49, u64::MAX] {
        assert_eq!(entry(5, i), Err(20));
        assert_eq!(entry(7, i), Err(20));
        assert_eq!(entry(255, i), Err(20));
        assert_eq!(entry(256, i), Err(19));
        assert_eq!(entry(258, i), Err(19));
        assert_eq!(entry(300, i), Err(19));
    }
    assert_eq!(entry(6, 1), Err(45));
    assert_eq!(entry(252, 42), Err(45));
    for i in 0..42 {
        let b: [u8; 6] = value[6 * i..6 * i + 6].try_into().unwrap();
        let (mut id, mut rssi, mut snr, mut odd) = (77, 77, 77, 77);
        unsafe { sys::mesh_path_read(&b, &mut id, &mut rssi, &mut snr, &mut odd) };
        assert_eq!(odd, b[5] / 64);
        assert_eq!(entry(252, i as u64), Ok((id, rssi, snr, odd)));
    }
}

#[test]
fn heartbeats_written() {
    let ids: [u32; 43] = std::array::from_fn(|i| i as u32);
    let write = |ids: &[u32], rssis: &[i16], snrs: &[i8], room: usize| {
        let (mut out, mut length) = (vec![BEFORE; room], 77);
        let (a, b, c) = (ids.as_ptr(), rssis.as_ptr(), snrs.as_ptr());
        let o = out.as_mut_ptr();
        let number = unsafe { sys::mesh_heartbeat_write(a, ids.len(), b, rssis.len(), c, snrs.len(), o, room, &mut length) };
        wrote(number, length, out)
    };
    assert_eq!(write(&ids, &[-1; 43], &[1; 43], 999), Err(19));
    assert_eq!(write(&ids[..42], &[-1; 42], &[1; 42], 251), Err(21));
    let b = write(&ids[..42], &[-1; 42], &[-1; 42], 252).unwrap();
    assert_eq!(b[246..], [0, 0, 0, 41, 1, 0x3f]);
    assert_eq!(write(&ids[..42], &[-1; 42], &[-1; 42], 300), Ok(b));
    assert_eq!(write(&[], &[], &[], 0), Ok(vec![]));
    for (number, rssi, snr) in [(10, 1, 40), (11, -256, 40), (12, 0, -33), (13, 0, 32)] {
        assert_eq!(write(&ids, &[rssi; 43], &[snr; 43], 0), Err(number));
    }
    // The shortest list counts.
    for (a, b, c) in [(1, 2, 2), (2, 1, 2), (2, 2, 1)] {
        let w = write(&ids[..a], &[0; 2][..b], &[0; 2][..c], 12);
        assert_eq!(w, Ok(vec![0; 6]));
    }
}

// ---- fields

#[test]
fn types_and_headers() {
    for n in 0..=255 {
        assert_eq!(unsafe { sys::mesh_type(n) }, if n < 4 { 0 } else { 29 });
        let mut header = [77; 2];
        let number = unsafe { sys::mesh_header_read(n, &mut header) };
        if n >= 0xe0 {
            assert_eq!((number, header), (0, [(n >> 3) & 3, (n & 7) + 1]));
        } else {
            assert_eq!((number, header), (3, [77; 2]));
        }
        for hop_count in [0, 1, 8, 9, 255] {
            let mut b = 77;
            let number = unsafe { sys::mesh_header_write(n, hop_count, &mut b) };
            let expected = match (n, hop_count) {
                (4.., _) => (29, 77),
                (_, 0) => (6, 77),
                (_, 9..) => (7, 77),
                _ => (0, 0xe0 | n << 3 | (hop_count - 1)),
            };
            assert_eq!((number, b), expected);
        }
    }
}

#[test]
fn metadata() {
    let uplink = |uplink_id, dr, rssi, snr| {
        let mut b = [BEFORE; 5];
        let number = unsafe { sys::mesh_uplink_metadata_write(uplink_id, dr, rssi, snr, 255, &mut b) };
        assert!(number == 0 || b == [BEFORE; 5]);
        if number == 0 {
            let (mut n, mut r, mut s) = ([77; 4], 77, 77);
            unsafe { sys::mesh_uplink_metadata_read(&b, &mut n, &mut r, &mut s) };
            assert_eq!((n, r, s), ([uplink_id as u64, dr as u64, 255, 0], rssi, snr));
        }
        number
    };
    assert_eq!(uplink(4096, 16, 1, -33), 8);
    assert_eq!(uplink(4095, 16, 1, -33), 9);
    assert_eq!(uplink(4095, 15, 1, -33), 10);
    assert_eq!(uplink(4095, 15, -256, -33), 11);
    assert_eq!(uplink(4095, 15, -255, -33), 12);
    assert_eq!(uplink(4095, 15, -255, 32), 13);
    assert_eq!(uplink(4095, 15, -255, -32), 0);
    assert_eq!(uplink(0, 0, 0, 31), 0);

    let downlink = |uplink_id, dr, frequency, tx_power, delay| {
        let mut b = [BEFORE; 6];
        let number = unsafe { sys::mesh_downlink_metadata_write(uplink_id, dr, frequency, tx_power, delay, &mut b) };
        assert!(number == 0 || b == [BEFORE; 6]);
        if number == 0 {
            let mut n = [77; 5];
            unsafe { sys::mesh_downlink_metadata_read(&b, &mut n) };
            assert_eq!(n, [uplink_id as u64, dr as u64, frequency as u64, tx_power as u64, delay as u64]);
        }
        number
    };
    assert_eq!(downlink(4096, 16, 1, 16, 0), 8);
    assert_eq!(downlink(4095, 16, 1, 16, 0), 9);
    assert_eq!(downlink(4095, 15, 1, 16, 0), 14);
    assert_eq!(downlink(4095, 15, 1, 16, 17), 15);
    assert_eq!(downlink(4095, 15, 1, 15, 17), 16);
    assert_eq!(downlink(4095, 15, 1_677_721_650, 15, 16), 17);
    assert_eq!(downlink(4095, 15, 1, 15, 16), 18);
    assert_eq!(downlink(4095, 15, 1_200_000_000, 15, 17), 16);
    assert_eq!(downlink(4095, 15, 1_200_000_000, 15, 16), 38);
    assert_eq!(downlink(4095, 15, 2_400_000_000, 15, 16), 0);
    assert_eq!(downlink(4095, 15, 868_100_000, 15, 16), 0);
    assert_eq!(downlink(0, 0, 0, 0, 1), 0);
}

#[test]
fn frequencies() {
    let bytes = [0xff; 6];
    for n in [0, 1, 2, 4, 6] {
        let mut hertz = 77;
        assert_eq!(unsafe { sys::mesh_frequency_read(bytes.as_ptr(), n, &mut hertz) }, 28);
        assert_eq!(hertz, 77);
    }
    let mut hertz = 0;
    assert_eq!(unsafe { sys::mesh_frequency_read(bytes.as_ptr(), 3, &mut hertz) }, 0);
    assert_eq!(hertz, 3_355_443_000);
    let write = |hertz| {
        let mut b = [BEFORE; 3];
        let number = unsafe { sys::mesh_frequency_write(hertz, &mut b) };
        assert!(number == 0 || b == [BEFORE; 3]);
        (number, b)
    };
    assert_eq!(write(1_677_721_600).0, 17);
    assert_eq!(write(u32::MAX).0, 17);
    assert_eq!(write(1_677_721_599).0, 18);
    assert_eq!(write(1).0, 18);
    assert_eq!(write(2_399_999_999).0, 17);
    for hertz in [1_200_000_000, 1_677_721_500, 2_400_000_001, 3_355_443_001] {
        assert_eq!(write(hertz).0, 38);
    }
    assert_eq!(write(0), (0, [0; 3]));
    assert_eq!(write(1_199_999_900), (0, [0xb7, 0x1a, 0xff]));
    assert_eq!(write(2_400_000_000), (0, [0xb7, 0x1b, 0x00]));
    assert_eq!(write(3_355_443_000), (0, [0xff; 3]));
}

#[test]
fn path_entries() {
    for (number, rssi, snr) in [(10, 1, -33), (11, -256, -33), (12, -255, -33), (13, -255, 32), (0, -255, -32), (0, 0, 31)] {
        let mut b = [BEFORE; 6];
        assert_eq!(unsafe { sys::mesh_path_write(u32::MAX, rssi, snr, &mut b) }, number);
        assert!(number == 0 || b == [BEFORE; 6]);
        if number == 0 {
            let (mut id, mut r, mut s, mut odd) = (77, 77, 77, 77);
            unsafe { sys::mesh_path_read(&b, &mut id, &mut r, &mut s, &mut odd) };
            assert_eq!((id, r, s, odd), (u32::MAX, rssi, snr, 0));
        }
    }
}

// ---- keys, cipher and MIC

#[test]
fn keys() {
    let bytes = [7; 40];
    for n in (0..=40).filter(|n| *n != 16) {
        let mut key = [BEFORE; 16];
        assert_eq!(unsafe { sys::mesh_key(bytes.as_ptr(), n, &mut key) }, 25);
        assert_eq!(key, [BEFORE; 16]);
    }
    let mut key = [BEFORE; 16];
    assert_eq!(unsafe { sys::mesh_key(bytes.as_ptr(), 16, &mut key) }, 0);
    assert_eq!(key, [7; 16]);

    let of_text = |text: &[u8]| {
        let mut key = [BEFORE; 16];
        let number = unsafe { sys::mesh_key_of_text(text.as_ptr(), text.len(), &mut key) };
        assert!(number == 0 || key == [BEFORE; 16]);
        (number, key)
    };
    for n in (0..=40).filter(|n| *n != 32) {
        assert_eq!(of_text(&[b'g'; 40][..n]).0, 25);
    }
    for i in 0..32 {
        for bad in [b'g', b'G', b'/', b':', b'@', b'`', b' ', 0, 0xff] {
            let mut text = [b'a'; 32];
            text[i] = bad;
            assert_eq!(of_text(&text).0, 26);
        }
    }
    assert_eq!(of_text(b"000102030405060708090A0B0c0D0e0f"), (0, KEY));

    for room in 0..=40 {
        let mut out = vec![BEFORE; room];
        let number = unsafe { sys::mesh_key_text(&KEY, out.as_mut_ptr(), room) };
        if room < 32 {
            assert_eq!(number, 21);
            assert!(out.iter().all(|b| *b == BEFORE));
        } else {
            assert_eq!(number, 0);
            assert_eq!(&out[..32], b"000102030405060708090a0b0c0d0e0f");
            assert!(out[32..].iter().all(|b| *b == BEFORE));
        }
    }
    let mut key = [BEFORE; 16];
    unsafe { sys::mesh_null_key(&mut key) };
    assert_eq!(key, [0; 16]);
}

#[test]
fn cipher_and_mac() {
    let mut cipher = [0; MESH_CIPHER_WORDS];
    unsafe { sys::mesh_prepare(&KEY, &mut cipher) };
    let (mut signing, mut zeros) = ([0; 16], [0; 16]);
    unsafe {
        sys::mesh_signing_key(&KEY, &mut signing);
        sys::mesh_encipher(&cipher, &mut zeros);
    }
    assert_eq!(signing, zeros);
    let (mut encryption, mut one) = ([0; 16], [0; 16]);
    one[0] = 1;
    unsafe {
        sys::mesh_encryption_key(&KEY, &mut encryption);
        sys::mesh_encrypt_block(&KEY, &mut one);
    }
    assert_eq!(encryption, one);
    // The key lies in the message.
    let message = frame(0, 9000);
    let key: &[u8; 16] = message[10..26].try_into().unwrap();
    unsafe { sys::mesh_prepare(key, &mut cipher) };
    for n in (0..=70).chain([8192, 9000]) {
        let (mut a, mut b) = ([0; 16], [0; 16]);
        unsafe {
            sys::mesh_cmac(key, message.as_ptr(), n, &mut a);
            sys::mesh_mac(&cipher, message.as_ptr(), n, &mut b);
        }
        assert_eq!(a, b);
        assert_ne!(a, [0; 16]);
    }
    // Words that no key makes are a cipher too, if no good one.
    let mut block = [9; 16];
    unsafe { sys::mesh_encipher(&[u32::MAX; MESH_CIPHER_WORDS], &mut block) };
    let mut out = [0; 16];
    unsafe { sys::mesh_mac(&[u32::MAX; MESH_CIPHER_WORDS], message.as_ptr(), 33, &mut out) };
}

// ---- duplicates

fn record(p: &P) -> (u8, [u64; 4]) {
    let mut known = [77; 4];
    let number = unsafe { sys::mesh_record(&numbers(p), &mut known) };
    (number, known)
}

type Words = [u32; MESH_CACHE_WORDS];

fn add_record(words: &mut Words, record: [u64; 4]) -> Result<u8, u8> {
    let before = *words;
    let mut is_new = 77;
    match unsafe { sys::mesh_cache_add(words, &record, &mut is_new) } {
        0 => {
            assert!(is_new == 1 || before == *words);
            Ok(is_new)
        }
        n => {
            assert_eq!((is_new, *words), (77, before));
            Err(n)
        }
    }
}

fn add(words: &mut Words, type_: u64, relay_id: u32) -> Result<u8, u8> {
    add_record(words, [type_, 1, 2, relay_id.into()])
}

#[test]
fn records() {
    for kind in [4, 5, 255] {
        assert_eq!(record(&P { kind, ..good(UPLINK) }), (29, [77; 4]));
        assert_eq!(record(&P { payload_type: kind, ..good(UPLINK) }), (29, [77; 4]));
    }
    for kind in [UPLINK, DOWNLINK] {
        assert_eq!(record(&P { hop_count: 0, has_mic: 0, ..good(kind) }), (0, [kind, 291, 0, 0x0a0b_0c0d]));
    }
    for kind in [EVENT, COMMAND] {
        let p = P { start: u64::MAX, len: u64::MAX, content: SEALED, ..good(kind) };
        assert_eq!(record(&p), (0, [kind, 0, 60, 0x0a0b_0c0d]));
    }
}

#[test]
fn caches() {
    for size in [0, 65, 66, u32::MAX] {
        let mut words = [0xa5a5_a5a5; MESH_CACHE_WORDS];
        assert_eq!(unsafe { sys::mesh_cache_clear(&mut words, size) }, 24);
        assert_eq!(words, [0xa5a5_a5a5; MESH_CACHE_WORDS]);
    }
    for size in [1, 2, 63, 64] {
        let mut words = [0xa5a5_a5a5; MESH_CACHE_WORDS];
        assert_eq!(unsafe { sys::mesh_cache_clear(&mut words, size) }, 0);
        for type_ in [4, 255] {
            assert_eq!(add(&mut words, type_, 0), Err(29));
        }
        for id in 0..3 * size {
            assert_eq!(add(&mut words, 0, id), Ok(1));
            assert_eq!(add(&mut words, 0, id), Ok(0));
            assert_eq!(add(&mut words, 0, id.saturating_sub(size - 1)), Ok(0));
        }
        assert_eq!(add(&mut words, 0, 2 * size - 1), Ok(1));
        // A number that is wider than its field is 29.
        for wide in WIDE {
            for record in [[wide, 1, 2, 3], [0, wide, 2, 3], [0, 1, wide, 3], [0, 1, 2, wide], [256, 1, 2, 3], [0, 1 << 16, 2, 3]] {
                assert_eq!(add_record(&mut words, record), Err(29));
            }
        }
        let largest = [3, u16::MAX.into(), u32::MAX.into(), u32::MAX.into()];
        assert_eq!((add_record(&mut words, largest), add_record(&mut words, largest)), (Ok(1), Ok(0)));
    }
    // Words that no cache is: refused, or taken, but never left.
    assert_eq!(add(&mut [0; MESH_CACHE_WORDS], 0, 1), Err(24));
    for i in 0..MESH_CACHE_WORDS {
        for word in [0, 1, 64, 65, u32::MAX] {
            let mut words = [3; MESH_CACHE_WORDS];
            words[i] = word;
            let _ = add(&mut words, 0, 1);
            let mut words = [u32::MAX; MESH_CACHE_WORDS];
            words[i] = word;
            let _ = add(&mut words, 3, 1);
        }
    }
}

// ---- text

#[test]
fn dumps() {
    let line = |b: &[u8], room: usize| {
        let (mut out, mut length) = (vec![BEFORE; room], 77);
        let number = unsafe { sys::mesh_dump_line(b.as_ptr(), b.len(), out.as_mut_ptr(), room, &mut length) };
        wrote(number, length, out)
    };
    let dump = |b: &[u8], room: usize| {
        let (mut out, mut length) = (vec![BEFORE; room], 77);
        let number = unsafe { sys::mesh_dump_frame(b.as_ptr(), b.len(), out.as_mut_ptr(), room, &mut length) };
        wrote(number, length, out)
    };
    for (input, text) in [
        ("e012355007020a0b0c0d11223344", "[Uplink hop_count: 1, uplink_id: 291, relay_id: 0a0b0c0d, mic: 11223344]"),
        ("e012355047020a0b0c0d11223344", "[Uplink hop_count: 1, uplink_id: 291, relay_id: 0a0b0c0d, mic: 11223344 odd: 1]"),
        ("e012355087020a0b0c0d11223344", "[Uplink hop_count: 1, uplink_id: 291, relay_id: 0a0b0c0d, mic: 11223344 odd: 2]"),
        ("e0123550C7020a0b0c0d11223344", "[Uplink hop_count: 1, uplink_id: 291, relay_id: 0a0b0c0d, mic: 11223344 odd: 3]"),
        ("F20000003c0a0b0c0d01020304", "[Event hop_count: 3, timestamp: 60, relay_id: 0a0b0c0d]"),
        ("40", "lora 1"),
        ("e0", "refused 2"),
        ("", "refused 1"),
        ("4", "refused 30"),
        ("4g", "refused 30"),
    ] {
        assert_eq!(line(input.as_bytes(), text.len()).unwrap(), text.as_bytes());
        assert_eq!(line(input.as_bytes(), 99).unwrap(), text.as_bytes());
        for room in 0..text.len() {
            assert_eq!(line(input.as_bytes(), room), Err(21));
        }
    }
    assert_eq!(line(&[b'4'; 2 * 8193], 9).unwrap(), b"refused 5");
    assert_eq!(line(&[b'4'; 2 * 8192], 9).unwrap(), b"lora 8192");
    assert_eq!(line(&[b'4'; 2 * 8192 + 1], 10).unwrap(), b"refused 30");
    assert_eq!(line(&[b'4'; 70_000], 9).unwrap(), b"refused 5");
    assert_eq!(dump(&[], 9).unwrap(), b"refused 1");
    assert_eq!(dump(&[], 8), Err(21));
    assert_eq!(dump(&frame(0x40, 8193), 9).unwrap(), b"refused 5");
    assert_eq!(dump(&frame(0x40, 8192), 9).unwrap(), b"lora 8192");
    assert_eq!(dump(&frame(0xe0, 13), 9).unwrap(), b"refused 4");
    let longest = [0xef, 0xff, 0xff, 0, 0, 0, 0, 1, 2, 3, 4, 5, 6, 7, 8];
    assert_eq!(dump(&longest, 90).unwrap(), b"[Downlink hop_count: 8, uplink_id: 4095, relay_id: 01020304, mic: 05060708]");
}

#[test]
fn texts() {
    let shown = [
        "[Uplink hop_count: 1, uplink_id: 291, relay_id: 0a0b0c0d, mic: 01020304]",
        "[Downlink hop_count: 1, uplink_id: 291, relay_id: 0a0b0c0d, mic: 01020304]",
        "[Event hop_count: 1, timestamp: 60, relay_id: 0a0b0c0d]",
        "[Command hop_count: 1, timestamp: 60, relay_id: 0a0b0c0d]",
    ];
    for (kind, shown) in (0..).zip(shown) {
        let p = good(kind);
        for room in 0..shown.len() {
            assert_eq!(text(&p, room), Err(21));
        }
        for room in [shown.len(), 99] {
            assert_eq!(text(&p, room).unwrap(), shown.as_bytes());
        }
        // Without a MIC nothing stands in its place. What no frame has is shown too: a hop count is a byte, and more counts as its largest.
        let bare = text(&P { has_mic: 0, ..p }, 99).unwrap();
        assert_eq!(bare, shown.replace("01020304", "").as_bytes());
        for (hop_count, said) in [(0, "hop_count: 0,"), (9, "hop_count: 9,"), (256, "hop_count: 255,"), (u64::MAX, "hop_count: 255,")] {
            let p = P { hop_count, start: u64::MAX, len: u64::MAX, ..p };
            assert_eq!(text(&p, 99).unwrap(), shown.replace("hop_count: 1,", said).as_bytes());
        }
        // Odd bits are shown of an uplink, 1 to 3; what is more, also in a byte's width, is not.
        for odd in ODD {
            let p = P { odd, ..p };
            let said = if kind == UPLINK && (1..4).contains(&odd) { shown.replace(']', &format!(" odd: {odd}]")) } else { shown.into() };
            assert_eq!(text(&p, 99).unwrap(), said.as_bytes());
            assert_eq!(text(&p, said.len()).unwrap(), said.as_bytes());
            assert_eq!(text(&p, said.len() - 1), Err(21));
        }
        // The label goes by the header, the fields by the payload.
        let other = P { payload_type: 3 - kind, ..p };
        assert!(text(&other, 99).unwrap().starts_with(shown_label(3 - kind)));
        for none in [P { payload_type: 4, ..p }, P { mic: 1 << 32, ..p }, P { timestamp: 1 << 32, ..p }, P { content: 5, kind: 2, ..p }] {
            assert_eq!(text(&none, 0), Err(29));
        }
    }
    assert_eq!(text(&good(LORA), 99), Err(29));
    let longest = P { uplink_id: 65535, hop_count: 255, mic: u32::MAX.into(), relay_id: u32::MAX.into(), ..good(DOWNLINK) };
    assert_eq!(text(&longest, 90).unwrap(), b"[Downlink hop_count: 255, uplink_id: 65535, relay_id: ffffffff, mic: ffffffff]");
    let longest = P { kind: UPLINK, odd: 3, ..longest };
    assert_eq!(text(&longest, 90).unwrap(), b"[Downlink hop_count: 255, uplink_id: 65535, relay_id: ffffffff, mic: ffffffff odd: 3]");
}

fn shown_label(type_: u64) -> &'static [u8] {
    [&b"[Uplink "[..], b"[Downlink ", b"[Event ", b"[Command "][type_ as usize]
}
