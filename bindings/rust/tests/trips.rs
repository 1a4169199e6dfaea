//! Round trips: packets of pseudo-random fields and payloads are written, read, signed, sealed and opened.
mod common;

use common::Lcg;
use lemikanto::*;

fn relay_id(g: &mut Lcg) -> RelayId {
    RelayId::from(g.next())
}

fn path(g: &mut Lcg, most: u32) -> Vec<RelayPath> {
    let entries = 0..g.to(most);
    let entry = |_| RelayPath { relay_id: relay_id(g), rssi: -(g.to(255) as i16), snr: g.to(63) as i8 - 32, odd: g.to(255) as u8 };
    entries.map(entry).collect()
}

fn value(g: &mut Lcg) -> Vec<u8> {
    let most = if g.to(9) == 0 { 255 } else { 20 };
    let len = g.to(most);
    g.bytes(len as usize)
}

fn item(g: &mut Lcg) -> Item {
    match g.to(2) {
        0 => Item::Heartbeat(path(g, 42)),
        _ => Item::Proprietary(1 + g.to(254) as u8, value(g)),
    }
}

fn command(g: &mut Lcg) -> Command {
    Command::Proprietary(g.to(255) as u8, value(g))
}

fn payload<'a>(g: &mut Lcg, bytes: &'a [u8]) -> Payload<'a> {
    let relay_id = relay_id(g);
    match g.to(3) {
        0 => Payload::Uplink(UplinkPayload {
            metadata: UplinkMetadata {
                uplink_id: g.to(4095) as u16,
                dr: g.to(15) as u8,
                rssi: -(g.to(255) as i16),
                snr: g.to(63) as i8 - 32,
                channel: g.to(255) as u8,
                odd: g.to(255) as u8,
            },
            relay_id,
            phy_payload: bytes,
        }),
        1 => Payload::Downlink(DownlinkPayload {
            metadata: DownlinkMetadata {
                uplink_id: g.to(4095) as u16,
                dr: g.to(15) as u8,
                frequency: if g.to(1) == 0 { g.to(11_999_999) * 100 } else { 2_400_000_000 + g.to(4_777_215) * 200 },
                tx_power: g.to(15) as u8,
                delay: 1 + g.to(15) as u8,
            },
            relay_id,
            phy_payload: bytes,
        }),
        2 => Payload::Event(EventPayload {
            timestamp: g.next() * 2 + 1,
            relay_id,
            events: Content::Items((0..g.to(8)).map(|_| item(g)).collect()),
        }),
        _ => Payload::Command(CommandPayload {
            timestamp: g.next() * 2 + 1,
            relay_id,
            commands: Content::Items((0..g.to(8)).map(|_| command(g)).collect()),
        }),
    }
}

fn type_of(p: &Payload) -> PayloadType {
    match p {
        Payload::Uplink(_) => PayloadType::Uplink,
        Payload::Downlink(_) => PayloadType::Downlink,
        Payload::Event(_) => PayloadType::Event,
        Payload::Command(_) => PayloadType::Command,
    }
}

/// As it is read back: odd bits are taken, whatever they are, and none are written.
fn even<'a>(p: &Payload<'a>) -> Payload<'a> {
    let mut p = p.clone();
    match &mut p {
        Payload::Uplink(u) => u.metadata.odd = 0,
        Payload::Event(EventPayload { events: Content::Items(items), .. }) => {
            for item in items {
                if let Item::Heartbeat(path) = item {
                    path.iter_mut().for_each(|entry| entry.odd = 0);
                }
            }
        }
        _ => {}
    }
    p
}

fn body_of(p: &Payload) -> Vec<u8> {
    match p {
        Payload::Uplink(p) => p.to_vec(),
        Payload::Downlink(p) => p.to_vec(),
        Payload::Event(p) => p.to_vec(),
        Payload::Command(p) => p.to_vec(),
    }
    .expect("a body")
}

#[test]
fn packets() {
    let mut g = Lcg(1);
    let keys = Keys::from_root(&common::root());
    for round in 0..4000 {
        let len = g.to(if round % 50 == 0 { 8177 } else { 60 }) as usize;
        let bytes = g.bytes(len);
        let payload = payload(&mut g, &bytes);
        let mhdr = Header { payload_type: type_of(&payload), hop_count: 1 + g.to(7) as u8 };
        let clear = MeshPacket { mhdr, payload, mic: None };
        let mut out = vec![0; PAYLOAD_MOST];
        let mut sent = clear.clone();
        sent.encrypt(&keys.encryption, &mut out).expect("sealed");
        assert_eq!(sent.to_vec(), Err(Refusal::MicMissing));
        sent.set_mic(&keys.signing).expect("signed");
        let frame = sent.to_vec().expect("written");
        assert_eq!(frame[1..frame.len() - 4], body_of(&sent.payload));
        assert_eq!(sent.validate_mic(&keys.signing), Ok(true));
        assert_eq!(body_of(&even(&clear.payload)), body_of(&clear.payload));
        let clear = MeshPacket { payload: even(&clear.payload), ..clear };

        // Read, it is the packet that was sent, without odd bits: a payload of no items is read as empty.
        sent.payload = even(&sent.payload);
        let mut read = MeshPacket::from_slice(&frame).expect("read");
        let none = |p: &Payload| match p {
            Payload::Event(p) => matches!(&p.events, Content::Items(i) if i.is_empty()),
            Payload::Command(p) => matches!(&p.commands, Content::Items(i) if i.is_empty()),
            _ => false,
        };
        if none(&sent.payload) {
            match &mut sent.payload {
                Payload::Event(p) => p.events = Content::Empty,
                Payload::Command(p) => p.commands = Content::Empty,
                _ => {}
            }
        }
        assert_eq!(read, sent);
        assert_eq!(Packet::from_slice(&frame), Ok(Packet::Mesh(read.clone())));
        assert_eq!(Packet::Mesh(read.clone()).to_vec().as_ref(), Ok(&frame));
        assert_eq!(read.validate_mic(&keys.signing), Ok(true));
        assert_eq!(read.validate_mic(&keys.encryption), Ok(false));
        let mut changed = frame.clone();
        let at = 1 + g.to(frame.len() as u32 - 2) as usize;
        changed[at] ^= 1 << g.to(5);
        assert_eq!(MeshPacket::from_slice(&changed).expect("read").validate_mic(&keys.signing), Ok(false));
        assert_eq!(read.record(), clear.record());

        // Its body alone.
        let body = &frame[1..frame.len() - 4];
        match &read.payload {
            Payload::Uplink(p) => assert_eq!(UplinkPayload::from_slice(body).as_ref(), Ok(p)),
            Payload::Downlink(p) => assert_eq!(DownlinkPayload::from_slice(body).as_ref(), Ok(p)),
            Payload::Event(p) => assert_eq!(EventPayload::from_slice(body).as_ref(), Ok(p)),
            Payload::Command(p) => assert_eq!(CommandPayload::from_slice(body).as_ref(), Ok(p)),
        }

        // Opened, its items are those that were composed, and written open it is the clear packet.
        let mut work = vec![0; PAYLOAD_MOST];
        let opening = read.decrypt(&keys.encryption, &mut work).expect("opened");
        assert!(opening.clean);
        match (&read.payload, &clear.payload) {
            (Payload::Event(p), Payload::Event(q)) => {
                let found: Vec<Item> = p.items().expect("items").map(|f| kept(f).to_item()).collect();
                assert_eq!(Content::Items(found), q.events);
                assert_eq!(p.to_vec(), q.to_vec());
            }
            (Payload::Command(p), Payload::Command(q)) => {
                let found = p.items().expect("items").map(|f| kept(f).to_command().expect("a command has no heartbeats"));
                assert_eq!(Content::Items(found.collect()), q.commands);
                assert_eq!(p.to_vec(), q.to_vec());
            }
            (p, q) => assert_eq!(p, q),
        }

        // The hop edit is the packet with another hop count, signed again.
        let hop_count = 1 + g.to(7) as u8;
        let mut edited = frame.clone();
        set_hop_count(&mut edited, hop_count, &keys.signing).expect("edited");
        sent.mhdr.hop_count = hop_count;
        sent.set_mic(&keys.signing).expect("signed");
        assert_eq!(sent.to_vec(), Ok(edited));
    }
}

fn kept(found: Found) -> Kept {
    match found {
        Found::Kept(k) => k,
        other => panic!("{other:?}"),
    }
}

#[test]
fn any_bytes() {
    let mut g = Lcg(2);
    for _ in 0..20_000 {
        let len = g.to(40) as usize;
        let mut b = g.bytes(len);
        if let Some(first) = b.first_mut() {
            if g.to(3) > 0 {
                *first |= 0xe0;
            }
        }
        // A heartbeat, where it is an event's payload.
        if len > 16 && g.to(3) == 0 {
            (b[9], b[10]) = (0, 6 * g.to(2) as u8);
        }
        let text = dump_frame_text(&b).expect("text");
        match Packet::from_slice(&b) {
            Ok(Packet::Lora(lora)) => {
                assert_eq!(lora, b);
                assert_eq!(text, format!("lora {len}"));
                assert_eq!(MeshPacket::from_slice(&b), Err(if len < 5 { Refusal::FrameShort } else { Refusal::NotMesh }));
            }
            Ok(Packet::Mesh(mut p)) => {
                assert_eq!(MeshPacket::from_slice(&b), Ok(p.clone()));
                assert_eq!(p.to_string(), text);
                // The odd bits of an uplink's snr are told and shown, and written as 0.
                let mut expected = b.clone();
                if let Payload::Uplink(u) = &p.payload {
                    assert_eq!(u.metadata.odd, b[4] / 64);
                    assert_eq!(text.ends_with(&format!(" odd: {}]", b[4] / 64)), b[4] > 63);
                    expected[4] &= 0x3f;
                }
                assert_eq!(text.contains("odd"), expected != b);
                assert_eq!(p.to_vec(), Ok(expected));
                let was_empty = matches!(&p.payload, Payload::Event(e) if e.events == Content::Empty)
                    || matches!(&p.payload, Payload::Command(c) if c.commands == Content::Empty)
                    || matches!(p.payload, Payload::Uplink(_) | Payload::Downlink(_));
                let opening = p.decode().expect("decoded").expect("was not open");
                if was_empty {
                    assert_eq!(opening, Opening { clean: true, ..Opening::default() });
                } else {
                    assert_eq!(opening.kept_bytes + opening.skipped_bytes + opening.cut_bytes, len - 13);
                    if opening.kept == 0 {
                        // It is empty from now on.
                        assert_eq!(p.to_vec().map(|b| b.len()), Ok(13));
                        assert_eq!(p.decode(), Ok(Some(Opening { clean: true, ..Opening::default() })));
                        continue;
                    }
                    assert_eq!(p.decode(), Ok(None));
                    let items = match &p.payload {
                        Payload::Event(e) => e.items(),
                        Payload::Command(c) => c.items(),
                        _ => unreachable!(),
                    }
                    .expect("items");
                    assert_eq!(items.opening(), opening);
                    assert_eq!(items.clone().filter(|f| matches!(f, Found::Kept(_))).count(), opening.kept);
                    assert_eq!(items.clone().filter(|f| matches!(f, Found::Skipped(_))).count(), opening.skipped);
                    // Each entry of a path tells its own, and any keeps the payload from being clean.
                    let mut odd = 0;
                    for found in items.clone() {
                        if let Found::Kept(Kept::Heartbeat(h)) = found {
                            for (entry, six) in h.relay_path().iter().zip(h.as_slice().chunks(6)) {
                                assert_eq!(entry.odd, six[5] / 64);
                                odd |= entry.odd;
                            }
                        }
                    }
                    assert_eq!(opening.clean, opening.skipped == 0 && opening.cut_bytes == 0 && odd == 0);
                    let cut: usize = items.filter_map(|f| if let Found::Cut(c) = f { Some(c.len()) } else { None }).sum();
                    assert_eq!(cut, opening.cut_bytes);
                    let written = p.to_vec().expect("written");
                    assert_eq!(written.len(), 13 + opening.kept_bytes);
                    // What was read, given back, is written as the open payload is.
                    let is_kept = |f: &Found| matches!(f, Found::Kept(_));
                    match &mut p.payload {
                        Payload::Event(e) => {
                            e.events = Content::Items(e.items().expect("items").filter(is_kept).map(|f| kept(f).to_item()).collect());
                        }
                        Payload::Command(c) => {
                            let again = c.items().expect("items").filter(is_kept).map(|f| kept(f).to_command());
                            c.commands = Content::Items(again.collect::<Result<_, _>>().expect("no heartbeats"));
                        }
                        _ => unreachable!(),
                    }
                    assert_eq!(p.to_vec(), Ok(written));
                }
            }
            Err(r) => assert_eq!(text, format!("refused {}", r.number())),
        }
    }
}
