//! The crate's own shapes at their limits: what is refused, with which refusal, and that it changed nothing.
mod common;

use common::{hex, root};
use lemikanto::*;

const BEFORE: u8 = 0xa5;

fn uplink(phy_payload: &[u8]) -> MeshPacket<'_> {
    MeshPacket {
        mhdr: Header { payload_type: PayloadType::Uplink, hop_count: 1 },
        payload: Payload::Uplink(UplinkPayload {
            metadata: UplinkMetadata { uplink_id: 291, dr: 5, rssi: -80, snr: 7, channel: 2, odd: 0 },
            relay_id: RelayId([10, 11, 12, 13]),
            phy_payload,
        }),
        mic: Some([1, 2, 3, 4]),
    }
}

fn downlink(phy_payload: &[u8]) -> MeshPacket<'_> {
    MeshPacket {
        mhdr: Header { payload_type: PayloadType::Downlink, hop_count: 1 },
        payload: Payload::Downlink(DownlinkPayload {
            metadata: DownlinkMetadata { uplink_id: 291, dr: 5, frequency: 868_100_000, tx_power: 3, delay: 1 },
            relay_id: RelayId([10, 11, 12, 13]),
            phy_payload,
        }),
        mic: Some([1, 2, 3, 4]),
    }
}

fn event(events: Content<'_, Item>) -> MeshPacket<'_> {
    MeshPacket {
        mhdr: Header { payload_type: PayloadType::Event, hop_count: 1 },
        payload: Payload::Event(EventPayload { timestamp: 60, relay_id: RelayId([10, 11, 12, 13]), events }),
        mic: Some([1, 2, 3, 4]),
    }
}

fn command(commands: Content<'_, Command>) -> MeshPacket<'_> {
    MeshPacket {
        mhdr: Header { payload_type: PayloadType::Command, hop_count: 1 },
        payload: Payload::Command(CommandPayload { timestamp: 60, relay_id: RelayId([10, 11, 12, 13]), commands }),
        mic: Some([1, 2, 3, 4]),
    }
}

/// What every call that lays a packet out answers of one that is refused; none of them changes the packet or an output.
fn refused(packet: &MeshPacket, number: u8) {
    let refusal = Refusal::from_number(number).expect("the number of a refusal");
    let mut out = [BEFORE; 8200];
    assert_eq!(packet.write(&mut out), Err(refusal));
    assert_eq!(packet.to_vec(), Err(refusal));
    assert_eq!(Packet::Mesh(packet.clone()).write(&mut out), Err(refusal));
    assert_eq!(Packet::Mesh(packet.clone()).to_vec(), Err(refusal));
    let mut signed = packet.clone();
    assert_eq!(signed.set_mic(&root()), Err(refusal));
    assert_eq!(signed, *packet);
    assert_eq!(packet.validate_mic(&root()), Err(refusal));
    assert_eq!(MeshPacket { mic: None, ..packet.clone() }.validate_mic(&root()), Err(Refusal::MicMissing));
    assert!(out.iter().all(|b| *b == BEFORE));
}

#[test]
fn hops() {
    for packet in [uplink(&[]), downlink(&[]), event(Content::Empty), command(Content::Empty)] {
        for (hop_count, number) in [(0, 6), (9, 7), (255, 7)] {
            refused(&MeshPacket { mhdr: Header { hop_count, ..packet.mhdr }, ..packet.clone() }, number);
        }
        for hop_count in [1, 8] {
            let packet = MeshPacket { mhdr: Header { hop_count, ..packet.mhdr }, ..packet.clone() };
            let frame = packet.to_vec().unwrap();
            assert_eq!(MeshPacket::from_slice(&frame), Ok(packet));
        }
        assert_eq!(MeshPacket { mic: None, ..packet.clone() }.to_vec(), Err(Refusal::MicMissing));
    }
    for (hop_count, number) in [(0, 6), (9, 7)] {
        let header = Header { payload_type: PayloadType::Event, hop_count };
        assert_eq!(header.to_byte().map_err(Refusal::number), Err(number));
    }
    for n in 0..=255 {
        assert_eq!(PayloadType::from_byte(n).map(PayloadType::to_byte), if n < 4 { Ok(n) } else { Err(Refusal::TypeLarge) });
        assert_eq!(Header::from_byte(n).and_then(Header::to_byte), if n >= 0xe0 { Ok(n) } else { Err(Refusal::NotMesh) });
    }
}

#[test]
fn uplink_fields() {
    let with = |change: fn(&mut UplinkMetadata)| {
        let mut packet = uplink(&[1, 2, 3]);
        if let Payload::Uplink(p) = &mut packet.payload {
            change(&mut p.metadata);
        }
        packet
    };
    for (number, change) in [
        (8, (|m| m.uplink_id = 4096) as fn(&mut UplinkMetadata)),
        (9, |m| m.dr = 16),
        (10, |m| m.rssi = 1),
        (11, |m| m.rssi = -256),
        (12, |m| m.snr = -33),
        (13, |m| m.snr = 32),
    ] {
        let packet = with(change);
        refused(&packet, number);
        let Payload::Uplink(p) = &packet.payload else { unreachable!() };
        assert_eq!(p.to_vec().map_err(Refusal::number), Err(number));
        assert_eq!(p.metadata.to_bytes().map_err(Refusal::number), Err(number));
    }
    let most = with(|m| *m = UplinkMetadata { uplink_id: 4095, dr: 15, rssi: -255, snr: -32, channel: 255, odd: 0 });
    assert_eq!(MeshPacket::from_slice(&most.to_vec().unwrap()), Ok(most.clone()));
}

/// Every snr byte, beside bytes that have these two bits set, and not, themselves: told by all that reads one, and written as 0.
#[test]
fn odd_bits_read() {
    for b in 0..=255 {
        let (odd, even, snr) = (b / 64, b % 64, (b << 2) as i8 >> 2);
        for n in [0, 0x40, 0x80, 0xff] {
            let m = UplinkMetadata::from_bytes([n, n, n, b, n]);
            assert_eq!(m, UplinkMetadata { odd, snr, ..UplinkMetadata::from_bytes([n, n, n, 0, n]) });
            assert_eq!(m.to_bytes(), Ok([n, n, n, even, n]));
            assert_eq!(m.to_bytes() == Ok([n, n, n, b, n]), odd == 0);

            let p = RelayPath::from_bytes([n, n, n, n, n, b]);
            assert_eq!(p, RelayPath { relay_id: RelayId([n; 4]), rssi: -i16::from(n), snr, odd });
            assert_eq!(p.to_bytes(), Ok([n, n, n, n, n, even]));
            assert_eq!(p.to_bytes() == Ok([n, n, n, n, n, b]), odd == 0);

            // Three entries, no two with the same odd bits.
            let value: Vec<u8> = (0..3).flat_map(|i| [n, n, n, n, n, b.wrapping_add(64 * i)]).collect();
            let path = [0, 1, 2].map(|i| RelayPath { odd: (odd + i) % 4, ..p });
            let beat = Heartbeat::from_slice(&value).unwrap();
            let mut list = [RelayPath::default(); 3];
            assert_eq!((beat.read_into(&mut list), list), (Ok(3), path));
            assert_eq!(beat.relay_path(), path);
            for (i, entry) in path.iter().enumerate() {
                assert_eq!(beat.entry(i), Ok(*entry));
            }
            let cleared = [n, n, n, n, n, even].repeat(3);
            assert_eq!(heartbeat_to_vec(&path).as_ref(), Ok(&cleared));
            let payload = [&[0, 18], &value[..]].concat();
            let Some(Found::Kept(kept)) = Items::of_event(&payload).unwrap().next() else { panic!() };
            assert_eq!(kept.to_item(), Item::Heartbeat(path.to_vec()));
            assert_eq!(kept.to_item().encode().unwrap()[2..], cleared);

            for first in [0xe0, 0xe8, 0xf0, 0xf8] {
                let mut frame = vec![n; 20];
                (frame[0], frame[4]) = (first, b);
                let p = MeshPacket::from_slice(&frame).unwrap();
                assert_eq!(Packet::from_slice(&frame), Ok(Packet::Mesh(p.clone())));
                let mut written = frame.clone();
                if let Payload::Uplink(u) = &p.payload {
                    assert_eq!(u.metadata, m);
                    assert_eq!(UplinkPayload::from_slice(&frame[1..16]).as_ref(), Ok(u));
                    written[4] = even;
                }
                let shows = first == 0xe0 && odd > 0;
                assert_eq!(p.to_vec().as_ref(), Ok(&written));
                assert_eq!(p.to_vec().as_ref() == Ok(&frame), !shows);
                // Before the bracket stand those that were read.
                let (text, plain) = (dump_frame_text(&frame).unwrap(), dump_frame_text(&written).unwrap());
                assert_eq!(text, if shows { plain.replace(']', &format!(" odd: {odd}]")) } else { plain });
                assert_eq!(p.to_string(), text);
                assert!(text.len() <= TEXT_MOST);
            }
        }
    }
}

/// Any odd bits are taken by all that writes, signs and seals, and none are written. Of an uplink 1, 2 and 3 are shown.
#[test]
fn odd_bits_given() {
    let even = uplink(&[1, 2, 3]);
    let with = |packet: &MeshPacket<'static>, odd| {
        let mut packet = packet.clone();
        if let Payload::Uplink(p) = &mut packet.payload {
            p.metadata.odd = odd;
        }
        packet
    };
    let entry = RelayPath { relay_id: RelayId([1, 2, 3, 4]), rssi: -1, snr: -1, odd: 0 };
    let sealed = |path: &[RelayPath]| {
        let mut out = [0; 20];
        let mut packet = event(Content::Items(vec![Item::Heartbeat(path.to_vec())]));
        let open = packet.to_vec().unwrap();
        packet.encrypt(&root(), &mut out).unwrap();
        packet.set_mic(&root()).unwrap();
        (open, packet.to_vec().unwrap())
    };
    let mut signed = even.clone();
    signed.set_mic(&root()).unwrap();
    for odd in 0..=255 {
        let packet = with(&even, odd);
        let Payload::Uplink(p) = &packet.payload else { unreachable!() };
        assert_eq!(packet.to_vec(), even.to_vec());
        assert_eq!(Packet::Mesh(packet.clone()).to_vec(), even.to_vec());
        assert_eq!(p.to_vec().unwrap(), even.to_vec().unwrap()[1..13]);
        assert_eq!(p.metadata.to_bytes(), Ok([0x12, 0x35, 0x50, 0x07, 0x02]));
        assert_eq!(packet.record(), even.record());
        let mut other = packet.clone();
        assert_eq!(other.set_mic(&root()), Ok(()));
        assert_eq!(other, with(&signed, odd));
        assert_eq!(other.validate_mic(&root()), Ok(true));
        assert_eq!(other.encrypt(&root(), &mut []), Ok(()));
        assert_eq!(other.decode(), Ok(Some(Opening { clean: true, ..Opening::default() })));
        assert_eq!(other, with(&signed, odd));
        assert_eq!(MeshPacket::from_slice(&other.to_vec().unwrap()), Ok(signed.clone()));

        let path = [RelayPath { odd, ..entry }, entry];
        assert_eq!(path[0].to_bytes(), Ok([1, 2, 3, 4, 1, 0x3f]));
        assert_eq!(heartbeat_to_vec(&path), heartbeat_to_vec(&[entry; 2]));
        assert_eq!(Event::Heartbeat(path.to_vec()).encode(), Event::Heartbeat(vec![entry; 2]).encode());
        assert_eq!(sealed(&path), sealed(&[entry; 2]));

        let shown = if (1..4).contains(&odd) { format!(" odd: {odd}]") } else { "]".into() };
        let text = even.to_string().replace(']', &shown);
        assert_eq!(packet.to_string(), text);
        assert_eq!(MeshPacket { mic: None, ..packet.clone() }.to_string(), text.replace("01020304", ""));
        let mut out = [BEFORE; 99];
        assert_eq!(packet.write_text(&mut out[..text.len() - 1]), Err(Refusal::OutputShort));
        assert_eq!(out, [BEFORE; 99]);
        assert_eq!(packet.write_text(&mut out), Ok(text.len()));
        // The label goes by the header, the bits by the payload.
        let header = Header { payload_type: PayloadType::Downlink, hop_count: 1 };
        assert_eq!(MeshPacket { mhdr: header, ..packet.clone() }.to_string(), text.replace("Uplink", "Downlink"));
    }
    // What is refused is refused for that, whatever the bits.
    for odd in [0, 3, 255] {
        let mut packet = with(&even, odd);
        if let Payload::Uplink(p) = &mut packet.payload {
            p.metadata.snr = 32;
        }
        refused(&packet, 13);
        assert_eq!(RelayPath { odd, snr: 32, ..entry }.to_bytes(), Err(Refusal::SnrLarge));
    }
    for packet in [downlink(&[1, 2, 3]), event(Content::Empty), command(Content::Empty)] {
        assert!(!MeshPacket { mhdr: even.mhdr, ..packet }.to_string().contains("odd"));
    }
}

#[test]
fn downlink_fields() {
    for (number, change) in [
        (8, (|m| m.uplink_id = 4096) as fn(&mut DownlinkMetadata)),
        (9, |m| m.dr = 16),
        (14, |m| m.delay = 0),
        (15, |m| m.tx_power = 16),
        (16, |m| m.delay = 17),
        (17, |m| m.frequency = 1_677_721_600),
        (18, |m| m.frequency = 868_100_001),
        (38, |m| m.frequency = 1_200_000_000),
    ] {
        let mut packet = downlink(&[1, 2, 3]);
        if let Payload::Downlink(p) = &mut packet.payload {
            change(&mut p.metadata);
            assert_eq!(p.to_vec().map_err(Refusal::number), Err(number));
            assert_eq!(p.metadata.to_bytes().map_err(Refusal::number), Err(number));
        }
        refused(&packet, number);
    }
}

#[test]
fn frames_at_the_most() {
    let long = vec![7; 8193];
    for (most, make) in [(8178, uplink as fn(&[u8]) -> MeshPacket<'_>), (8177, downlink)] {
        refused(&make(&long[..most + 1]), 5);
        let packet = make(&long[..most]);
        let mut out = [BEFORE; 8193];
        assert_eq!(packet.write(&mut out[..8191]), Err(Refusal::OutputShort));
        assert_eq!(out, [BEFORE; 8193]);
        assert_eq!(packet.write(&mut out), Ok(8192));
        assert_eq!(out[8192], BEFORE);
        assert_eq!(MeshPacket::from_slice(&out[..8192]), Ok(packet));
        assert_eq!(MeshPacket::from_slice(&out), Err(Refusal::FrameLong));
        let body = &out[1..8189];
        let kind = PayloadType::from_byte((out[0] >> 3) & 3).unwrap();
        let read = match kind {
            PayloadType::Uplink => UplinkPayload::from_slice(body).map(|_| ()),
            _ => DownlinkPayload::from_slice(body).map(|_| ()),
        };
        assert_eq!(read, Err(Refusal::FrameLong));
    }
    for make in [|b| event(Content::Sealed(b)), |b| command(Content::Sealed(b)), |b| event(Content::Open(b)), |b| command(Content::Open(b))]
        as [fn(&[u8]) -> MeshPacket<'_>; 4]
    {
        // Open runs are written as the items they keep: here all but the last byte.
        refused(&make(&vec![1; 8181]), 5);
        assert!(make(&long[..8179]).to_vec().is_ok());
    }
    assert_eq!(Packet::Lora(&long).to_vec(), Err(Refusal::FrameLong));
    assert_eq!(Packet::Lora(&long[..8192]).to_vec().unwrap(), long[..8192]);
    assert_eq!(Packet::Lora(&[]).to_vec(), Ok(vec![]));
    assert_eq!(Packet::Lora(&[1, 2]).write(&mut [0]), Err(Refusal::OutputShort));
    assert_eq!(Packet::from_slice(&long), Err(Refusal::FrameLong));
    assert_eq!(Packet::from_slice(&[]), Err(Refusal::FrameEmpty));
    assert_eq!(Packet::from_slice(&[0xe0]), Err(Refusal::FrameShort));
    assert_eq!(MeshPacket::from_slice(&[]), Err(Refusal::FrameEmpty));
    assert_eq!(MeshPacket::from_slice(&long[..100]), Err(Refusal::NotMesh));
    assert_eq!(UplinkPayload::from_slice(&long[..8]), Err(Refusal::BodyShort));
    assert_eq!(DownlinkPayload::from_slice(&long[..9]), Err(Refusal::BodyShort));
    assert_eq!(EventPayload::from_slice(&long[..7]), Err(Refusal::BodyShort));
    assert_eq!(CommandPayload::from_slice(&long[..7]), Err(Refusal::BodyShort));
    assert_eq!(EventPayload::from_slice(&long[..8]).unwrap().events, Content::Empty);
    assert_eq!(CommandPayload::from_slice(&long[..8]).unwrap().commands, Content::Empty);
    for (first, least) in [(0xe0, 14), (0xe8, 15), (0xf0, 13), (0xf8, 13)] {
        let mut b = vec![0; least];
        b[0] = first;
        assert_eq!(Packet::from_slice(&b[..least - 1]), Err(Refusal::BodyShort));
        assert!(matches!(Packet::from_slice(&b), Ok(Packet::Mesh(_))));
    }
}

#[test]
fn composed_items() {
    let entry = RelayPath { relay_id: RelayId([1, 2, 3, 4]), rssi: -1, snr: -1, odd: 0 };
    let items = |list: Vec<Item>| event(Content::Items(list));
    refused(&items(vec![Item::Heartbeat(vec![entry; 43])]), 19);
    refused(&items(vec![Item::Proprietary(1, vec![0; 256])]), 19);
    refused(&items(vec![Item::Proprietary(1, vec![0; 70_000])]), 19);
    refused(&command(Content::Items(vec![Command::Proprietary(0, vec![0; 256])])), 19);
    refused(&items(vec![Item::Proprietary(0, vec![0; 5])]), 20);
    for (number, rssi, snr) in [(10, 1, 0), (11, -256, 0), (12, 0, -33), (13, 0, 32)] {
        let bad = RelayPath { rssi, snr, ..entry };
        assert_eq!(bad.to_bytes().map_err(Refusal::number), Err(number));
        // Judged before any length, wherever it stands.
        let mut path = vec![entry; 60];
        path[59] = bad;
        refused(&items(vec![Item::Proprietary(1, vec![0; 256]), Item::Heartbeat(path)]), number);
    }
    let full = Item::Proprietary(1, vec![9; 255]);
    let mut list = vec![full.clone(); 31];
    list.push(Item::Proprietary(2, vec![9; 210]));
    let frame = items(list.clone()).to_vec().unwrap();
    assert_eq!(frame.len(), 8192);
    list[31] = Item::Proprietary(2, vec![9; 211]);
    refused(&items(list.clone()), 5);
    let mut out = [BEFORE; 8200];
    assert_eq!(items(list).encrypt(&root(), &mut out), Err(Refusal::FrameLong));
    assert_eq!(out, [BEFORE; 8200]);

    let beat = items(vec![Item::Heartbeat(vec![entry; 42]), full, Item::Proprietary(255, vec![])]);
    let mut tried = beat.clone();
    let mut short = [BEFORE; 512];
    assert_eq!(tried.encrypt(&root(), &mut short), Err(Refusal::OutputShort));
    assert_eq!(tried, beat);
    assert_eq!(short, [BEFORE; 512]);
    let mut packet = beat.clone();
    let mut exact = [BEFORE; 513];
    assert_eq!(packet.encrypt(&root(), &mut exact), Ok(()));
    let frame = packet.to_vec().unwrap();
    let mut work = [BEFORE; 514];
    let mut read = MeshPacket::from_slice(&frame).unwrap();
    let as_read = read.clone();
    let mut small = [BEFORE; 512];
    assert_eq!(read.decrypt(&root(), &mut small), Err(Refusal::OutputShort));
    assert_eq!(read, as_read);
    let opening = read.decrypt(&root(), &mut work).unwrap();
    assert_eq!(opening, Opening { kept: 3, kept_bytes: 513, clean: true, ..Opening::default() });
    let mut other = [BEFORE; 600];
    assert_eq!(read.decrypt(&root(), &mut other), Err(Refusal::OpenMany));
    assert_eq!(read.decode(), Ok(None));
    assert_eq!(read.to_vec().unwrap()[1..522], beat.to_vec().unwrap()[1..522]);
    let Payload::Event(e) = &read.payload else { unreachable!() };
    let found: Vec<Item> = e.items().unwrap().map(|f| if let Found::Kept(k) = f { k.to_item() } else { panic!() }).collect();
    let Payload::Event(b) = &beat.payload else { unreachable!() };
    assert_eq!(Content::Items(found), b.events);
    assert_eq!(small, [BEFORE; 512]);
    assert_eq!(other, [BEFORE; 600]);
    assert_eq!(work[513], BEFORE);
}

/// What was read and is given back unchanged is written as the open payload itself is.
#[test]
fn given_back() {
    // A heartbeat with odd bits, others of tags 0 and not, one that an event skips, and a cut tail.
    let payload = hex("0006 01020304 50c7 0102aabb 0005 0102030405 0000 ff0107 0309cc");
    let kept = |items: Items| items.filter_map(|f| if let Found::Kept(k) = f { Some(k.to_item()) } else { None }).collect::<Vec<_>>();
    let again = kept(Items::of_event(&payload).unwrap());
    assert_eq!(again.len(), 4);
    let open = event(Content::Open(&payload)).to_vec().unwrap();
    assert_eq!(open[9..open.len() - 4], hex("0006 01020304 5007 0102aabb 0000 ff0107"));
    assert_eq!(event(Content::Items(again)).to_vec().unwrap(), open);

    let again: Result<Vec<Command>, Refusal> =
        Items::of_command(&payload).unwrap().filter_map(|f| if let Found::Kept(k) = f { Some(k.to_command()) } else { None }).collect();
    let again = again.unwrap();
    assert_eq!(again.len(), 5);
    let open = command(Content::Open(&payload)).to_vec().unwrap();
    assert_eq!(open[9..open.len() - 4], payload[..payload.len() - 3]);
    assert_eq!(command(Content::Items(again)).to_vec().unwrap(), open);

    // A command has no heartbeats.
    let Some(Found::Kept(beat)) = Items::of_event(&payload).unwrap().next() else { unreachable!() };
    assert_eq!(beat.to_command(), Err(Refusal::TypeLarge));
}

/// Clean is told exactly where the opened packet is written as the payload stood.
#[test]
fn clean_as_written() {
    // One path entry, or two, with none of an snr byte's odd bits, or one of them; one of tag 1; one skipped; one byte cut.
    for (payload, in_event, in_command) in [
        ("", true, true),
        ("0006 01020304 5007", true, true),
        ("0006 01020304 5047", false, true),
        ("0006 01020304 5087", false, true),
        ("000c 01020304 5007 01020304 50c7", false, true),
        ("0106 01020304 50c7", true, true),
        ("0005 01020304 50", false, true),
        ("0006 01020304 5007 00", false, false),
    ] {
        let payload = hex(payload);
        for (packet, clean) in [(event(Content::Sealed(&payload)), in_event), (command(Content::Sealed(&payload)), in_command)] {
            let mut read = packet.clone();
            let opening = read.decode().unwrap().unwrap();
            assert_eq!(opening.clean, clean);
            assert_eq!(read.to_vec() == packet.to_vec(), clean);
            // Sealed, and opened with the key.
            let (mut sealed, mut work) = (vec![0; payload.len()], vec![0; payload.len()]);
            let mut packet = packet;
            packet.encrypt(&root(), &mut sealed).unwrap();
            assert_eq!(packet.decrypt(&root(), &mut work), Ok(opening));
            assert_eq!(packet.to_vec(), read.to_vec());
        }
        assert_eq!(Items::of_event(&payload).unwrap().opening().clean, in_event);
        assert_eq!(Items::of_command(&payload).unwrap().opening().clean, in_command);
    }
}

#[test]
fn open_already() {
    let mut work = [BEFORE; 100];
    let mut one = event(Content::Open(&[1, 0]));
    assert_eq!(one.clone().decrypt(&root(), &mut work), Err(Refusal::OpenOne));
    assert_eq!(work, [BEFORE; 100]);
    let mut two = command(Content::Open(&[1, 0, 2, 0, 3]));
    let mut work = [BEFORE; 100];
    assert_eq!(two.decrypt(&root(), &mut work), Err(Refusal::OpenMany));
    let mut items = command(Content::Items(vec![Command::Proprietary(1, vec![])]));
    let mut work = [BEFORE; 100];
    assert_eq!(items.decrypt(&root(), &mut work), Err(Refusal::OpenOne));
    for packet in [&mut one, &mut two, &mut items] {
        assert_eq!(packet.decode(), Ok(None));
    }
    // What keeps nothing counts as empty, and stands for nothing from then on.
    let clean = Opening { clean: true, ..Opening::default() };
    for mut packet in [event(Content::Open(&[1])), event(Content::Items(vec![])), event(Content::Sealed(&[])), event(Content::Empty)] {
        let mut sealed = packet.clone();
        assert_eq!(sealed.encrypt(&root(), &mut []), Ok(()));
        assert_eq!(sealed, event(Content::Empty));
        assert_eq!(packet.decode(), Ok(Some(clean)));
        assert_eq!(packet.decrypt(&root(), &mut []), Ok(clean));
        assert_eq!(packet, event(Content::Empty));
    }
    for packet in [uplink(&[1]), downlink(&[1])] {
        let mut same = packet.clone();
        assert_eq!(same.encrypt(&root(), &mut []), Ok(()));
        assert_eq!(same.decrypt(&root(), &mut []), Ok(clean));
        assert_eq!(same.decode(), Ok(Some(clean)));
        assert_eq!(same, packet);
    }
    // Sealing what is sealed opens it, and it is still marked sealed.
    let (mut first, mut second) = ([0; 3], [0; 3]);
    let mut packet = event(Content::Sealed(&[1, 1, 5]));
    packet.encrypt(&root(), &mut first).unwrap();
    packet.encrypt(&root(), &mut second).unwrap();
    assert_eq!(packet, event(Content::Sealed(&[1, 1, 5])));
    let long = [1; 8180];
    let mut work = [0; 9000];
    assert_eq!(event(Content::Sealed(&long)).decrypt(&root(), &mut work), Err(Refusal::FrameLong));
    assert_eq!(event(Content::Sealed(&long)).decode(), Err(Refusal::FrameLong));
    assert_eq!(event(Content::Open(&long)).decode(), Ok(None));
}

#[test]
fn ranges_of_one_buffer() {
    // Payload and key are parts of one buffer that overlap; the output is another.
    let one: [u8; 64] = std::array::from_fn(|i| i as u8);
    let key = Key::from_slice(&one[8..24]).unwrap();
    let apart = one[4..30].to_vec();
    let mut shared = uplink(&one[4..30]);
    let mut copied = uplink(&apart);
    shared.set_mic(&key).unwrap();
    copied.set_mic(&key).unwrap();
    assert_eq!(shared, copied);
    assert_eq!(shared.to_vec(), copied.to_vec());
    // A packet inside a packet, over the same bytes.
    let outer = shared.to_vec().unwrap();
    let p = MeshPacket::from_slice(&outer).unwrap();
    let Payload::Uplink(u) = &p.payload else { unreachable!() };
    assert_eq!(u.phy_payload, &one[4..30]);
    assert_eq!(Packet::from_slice(u.phy_payload), Ok(Packet::Lora(&one[4..30])));
    // Items over a part of the payload that other items are read from.
    let payload = [1, 4, 2, 2, 7, 7];
    assert_eq!(Items::of_command(&payload).unwrap().count(), 1);
    assert_eq!(Items::of_command(&payload[2..]).unwrap().next(), Some(Found::Kept(Kept::Proprietary(2, &[7, 7]))));
}

#[test]
fn items_and_heartbeats() {
    let long = [1; 8180];
    assert_eq!(Items::of_event(&long).map(|_| ()), Err(Refusal::FrameLong));
    assert_eq!(Items::of_command(&long).map(|_| ()), Err(Refusal::FrameLong));
    assert_eq!(Items::of_event(&long[..8179]).unwrap().count(), 2727);
    assert_eq!(Items::of_event(&[]).unwrap().next(), None);
    let mut cut = Items::of_event(&[5]).unwrap();
    assert_eq!(cut.next(), Some(Found::Cut(&[5])));
    assert_eq!(cut.next(), None);
    assert_eq!(cut.next(), None);
    let tail = [1, 1, 0xaa, 2, 9, 0];
    let found = [Found::Kept(Kept::Proprietary(1, &[0xaa])), Found::Cut(&[2, 9, 0])];
    assert_eq!(Items::of_event(&tail).unwrap().collect::<Vec<_>>(), found);
    assert_eq!(Items::of_command(&tail).unwrap().collect::<Vec<_>>(), found);

    let value: Vec<u8> = (0..258).map(|i| i as u8).collect();
    assert_eq!(Heartbeat::from_slice(&value), Err(Refusal::ItemLong));
    assert_eq!(Heartbeat::from_slice(&value[..256]), Err(Refusal::ItemLong));
    assert_eq!(Heartbeat::from_slice(&value[..255]), Err(Refusal::HeartbeatLength));
    assert_eq!(Heartbeat::from_slice(&value[..7]), Err(Refusal::HeartbeatLength));
    assert_eq!(Heartbeat::from_slice(&value[..6]).unwrap().entry(1), Err(Refusal::Outside));
    let beat = Heartbeat::from_slice(&value[..252]).unwrap();
    assert_eq!(beat.len(), 42);
    assert_eq!(beat.entry(42), Err(Refusal::Outside));
    assert_eq!(beat.entry(usize::MAX), Err(Refusal::Outside));
    assert_eq!(beat.entry(1), Ok(RelayPath::from_bytes([6, 7, 8, 9, 10, 11])));
    let mut list = [RelayPath::default(); 43];
    assert_eq!(beat.read_into(&mut list[..41]), Err(Refusal::OutputShort));
    assert_eq!(list, [RelayPath::default(); 43]);
    assert_eq!(beat.read_into(&mut list), Ok(42));
    assert_eq!(list[..42], beat.relay_path());
    assert_eq!(list[42], RelayPath::default());
    let none = Heartbeat::from_slice(&[]).unwrap();
    assert!(none.is_empty());
    assert_eq!(none.read_into(&mut []), Ok(0));
    assert_eq!(none.as_slice(), []);
}

#[test]
fn heartbeats_written() {
    let path = [RelayPath { relay_id: RelayId([1, 2, 3, 4]), rssi: -255, snr: -1, odd: 0 }; 43];
    let mut out = [BEFORE; 258];
    assert_eq!(write_heartbeat(&path, &mut out), Err(Refusal::ItemLong));
    assert_eq!(write_heartbeat(&path[..42], &mut out[..251]), Err(Refusal::OutputShort));
    assert_eq!(out, [BEFORE; 258]);
    assert_eq!(write_heartbeat(&path[..42], &mut out), Ok(252));
    assert_eq!(out[252..], [BEFORE; 6]);
    assert_eq!(Heartbeat::from_slice(&out[..252]).unwrap().relay_path(), path[..42]);
    assert_eq!(heartbeat_to_vec(&path[..1]), Ok(vec![1, 2, 3, 4, 255, 0x3f]));
    assert_eq!(heartbeat_to_vec(&[]), Ok(vec![]));
    let bad = RelayPath { rssi: 1, ..path[0] };
    assert_eq!(write_heartbeat(&[path[0], bad], &mut []), Err(Refusal::RssiLarge));
}

#[test]
fn key_texts() {
    assert_eq!(Key::from_slice(&[0; 15]), Err(Refusal::KeyLength));
    assert_eq!(Key::from_slice(&[0; 17]), Err(Refusal::KeyLength));
    assert_eq!(Key::from_slice(&[]), Err(Refusal::KeyLength));
    assert_eq!(Key::from_slice(&[0; 16]), Ok(Key::null()));
    assert_eq!(Key::default(), Key::from_bytes([0; 16]));
    assert_eq!("".parse::<Key>(), Err(Refusal::KeyLength));
    assert_eq!("g".repeat(31).parse::<Key>(), Err(Refusal::KeyLength));
    assert_eq!("g".repeat(32).parse::<Key>(), Err(Refusal::KeyDigit));
    assert_eq!("é".repeat(16).parse::<Key>(), Err(Refusal::KeyDigit));
    let key: Key = "000102030405060708090A0B0c0D0e0f".parse().unwrap();
    assert_eq!(key, root());
    assert_eq!(key.to_string(), "000102030405060708090a0b0c0d0e0f");
    assert_eq!(key.to_vec(), key.to_bytes());
    let mut out = [BEFORE; 33];
    assert_eq!(key.write_text(&mut out[..31]), Err(Refusal::OutputShort));
    assert_eq!(out, [BEFORE; 33]);
    assert_eq!(key.write_text(&mut out), Ok(32));
    assert_eq!(out[32], BEFORE);
}

#[test]
fn streams() {
    let (key, id) = (root(), RelayId([1, 2, 3, 4]));
    let clear = [7; 8180];
    assert_eq!(encrypt_events_commands(&key, true, id, 1, &clear), Err(Refusal::FrameLong));
    let mut out = [BEFORE; 8180];
    assert_eq!(encrypt_events_commands_into(&key, true, id, 1, &clear[..100], &mut out[..99]), Err(Refusal::OutputShort));
    assert_eq!(out, [BEFORE; 8180]);
    assert_eq!(encrypt_events_commands_into(&key, true, id, 1, &clear[..8179], &mut out), Ok(8179));
    assert_eq!(out[8179], BEFORE);
    assert_eq!(encrypt_events_commands(&key, true, id, 1, &out[..8179]).unwrap(), clear[..8179]);
    assert_eq!(encrypt_events_commands(&key, true, id, 1, &[]), Ok(vec![]));
    for (command, id, time) in [(false, id, 1), (true, RelayId([1, 2, 3, 5]), 1), (true, id, 2)] {
        assert_ne!(encrypt_events_commands(&key, command, id, time, &clear[..16]).unwrap(), out[..16]);
    }
}

#[test]
fn frequencies() {
    for n in [0, 1, 2, 4, 100] {
        assert_eq!(decode_freq(&vec![0; n]), Err(Refusal::FrequencyLength));
    }
    assert_eq!(encode_freq(u32::MAX), Err(Refusal::FrequencyLarge));
    assert_eq!(encode_freq(50), Err(Refusal::FrequencyStep));
    assert_eq!(encode_freq(1_200_000_000), Err(Refusal::FrequencyOther));
}

#[test]
fn caches() {
    for size in [0, 65, usize::MAX, 1 << 32, (1 << 32) + 1] {
        assert_eq!(Cache::new(size), Err(Refusal::CacheSize));
    }
    for size in [1, 64] {
        let mut cache = Cache::new(size).unwrap();
        let record = |n: usize| Record { p_type: PayloadType::Event, uplink_id: 0, timestamp: u32::MAX, relay_id: RelayId::from(n as u32) };
        for n in 0..200 {
            assert_eq!(cache.add(&record(n)), Ok(true));
            let full = cache.clone();
            assert_eq!(cache.add(&record(n)), Ok(false));
            assert_eq!(cache.add(&record((n + 1).saturating_sub(size))), Ok(false));
            assert_eq!(cache, full);
        }
        assert_eq!(cache.add(&record(199 - size)), Ok(true));
    }
    // Each of the four fields tells records apart, and so does each byte of the id.
    let record = Record { p_type: PayloadType::Uplink, uplink_id: 1, timestamp: 2, relay_id: RelayId([1, 2, 3, 4]) };
    let mut cache = Cache::new(64).unwrap();
    for other in [
        record,
        Record { p_type: PayloadType::Downlink, ..record },
        Record { uplink_id: 2, ..record },
        Record { timestamp: 3, ..record },
        Record { relay_id: RelayId([0, 2, 3, 4]), ..record },
        Record { relay_id: RelayId([1, 0, 3, 4]), ..record },
        Record { relay_id: RelayId([1, 2, 0, 4]), ..record },
        Record { relay_id: RelayId([1, 2, 3, 0]), ..record },
    ] {
        assert_eq!(cache.add(&other), Ok(true));
        assert_eq!(cache.add(&other), Ok(false));
    }
    assert_eq!(uplink(&[]).record().unwrap().uplink_id, 291);
    assert_eq!(event(Content::Empty).record().unwrap().timestamp, 60);
    assert_eq!(command(Content::Empty).record().unwrap().uplink_id, 0);
}

#[test]
fn hop_edit() {
    let key = root();
    let mut frame = uplink(&[1, 2, 3]).to_vec().unwrap();
    for (hop_count, number) in [(0, 6), (9, 7), (255, 7)] {
        let before = frame.clone();
        assert_eq!(set_hop_count(&mut frame, hop_count, &key).map_err(Refusal::number), Err(number));
        assert_eq!(frame, before);
    }
    for (bad, number) in [(vec![], 1), (vec![0xe0; 8193], 5), (vec![0xe0; 4], 2), (vec![0x40; 20], 3), (vec![0xe0; 13], 4)] {
        let mut b = bad.clone();
        assert_eq!(set_hop_count(&mut b, 0, &key).map_err(Refusal::number), Err(number));
        assert_eq!(b, bad);
    }
    // The MIC that it came with is none of this key's, and is not looked at.
    assert_eq!(MeshPacket::from_slice(&frame).unwrap().validate_mic(&key), Ok(false));
    for hop_count in 1..=8 {
        set_hop_count(&mut frame, hop_count, &key).unwrap();
        let p = MeshPacket::from_slice(&frame).unwrap();
        assert_eq!((p.mhdr.hop_count, p.validate_mic(&key)), (hop_count, Ok(true)));
    }
    // An uplink's odd bits are cleared in the frame, and all else but count and MIC stays; the MIC holds with any of them.
    for odd in 0..4 {
        let mut b = frame.clone();
        b[4] |= odd << 6;
        let p = MeshPacket::from_slice(&b).unwrap();
        assert_eq!(p.validate_mic(&key), Ok(true));
        let Payload::Uplink(u) = &p.payload else { unreachable!() };
        assert_eq!(u.metadata.odd, odd);
        let even = UplinkPayload { metadata: UplinkMetadata { odd: 0, ..u.metadata }, ..*u };
        for hop_count in 1..=8 {
            let mut edited = b.clone();
            set_hop_count(&mut edited, hop_count, &key).unwrap();
            assert_eq!(edited[1..edited.len() - 4], frame[1..frame.len() - 4]);
            let q = MeshPacket::from_slice(&edited).unwrap();
            assert_eq!(q.payload, Payload::Uplink(even));
            assert_eq!((q.mhdr.hop_count, q.validate_mic(&key)), (hop_count, Ok(true)));
        }
        // A refused edit leaves them.
        let before = b.clone();
        assert_eq!(set_hop_count(&mut b, 9, &key), Err(Refusal::HopsMany));
        assert_eq!(b, before);
    }
}

#[test]
fn items_alone() {
    let path = [RelayPath { relay_id: RelayId([1, 2, 3, 4]), rssi: -255, snr: -1, odd: 0 }; 43];
    let beat = Event::Heartbeat(path[..1].to_vec());
    assert_eq!(beat.encode(), Ok(vec![0, 6, 1, 2, 3, 4, 255, 0x3f]));
    assert_eq!(Event::Heartbeat(vec![]).encode(), Ok(vec![0, 0]));
    assert_eq!(Event::Heartbeat(path[..42].to_vec()).encode().unwrap().len(), 254);
    assert_eq!(Event::Heartbeat(path.to_vec()).encode(), Err(Refusal::ItemLong));
    assert_eq!(Event::Heartbeat(vec![RelayPath { snr: 32, ..path[0] }]).encode(), Err(Refusal::SnrLarge));
    assert_eq!(Event::Proprietary(7, vec![1, 2]).encode(), Ok(vec![7, 2, 1, 2]));
    assert_eq!(Event::Proprietary(0, vec![1]).encode(), Err(Refusal::HeartbeatLength));
    assert_eq!(Event::Proprietary(7, vec![1; 256]).encode(), Err(Refusal::ItemLong));
    assert_eq!(Command::Proprietary(0, vec![1]).encode(), Ok(vec![0, 1, 1]));
    assert_eq!(Command::Proprietary(7, vec![1; 255]).encode().unwrap().len(), 257);
    assert_eq!(Command::Proprietary(7, vec![1; 256]).encode(), Err(Refusal::ItemLong));
    let mut out = [BEFORE; 9];
    assert_eq!(beat.write(&mut out[..7]), Err(Refusal::OutputShort));
    assert_eq!(Command::Proprietary(7, vec![]).write(&mut out[..1]), Err(Refusal::OutputShort));
    assert_eq!(out, [BEFORE; 9]);
    assert_eq!(beat.write(&mut out), Ok(8));
    assert_eq!(out[8], BEFORE);
    // A payload is its items, one behind the other.
    let items = vec![beat, Event::Proprietary(7, vec![1, 2])];
    let each: Vec<u8> = items.iter().flat_map(|item| item.encode().unwrap()).collect();
    let mut frame = event(Content::Items(items)).to_vec().unwrap();
    frame.truncate(frame.len() - 4);
    assert_eq!(frame[9..], each);
    let Some(Found::Kept(first)) = Items::of_event(&each).unwrap().next() else { panic!() };
    assert_eq!(first.to_item().encode().unwrap(), each[..8]);
}

#[test]
fn texts() {
    let text = "[Uplink hop_count: 1, uplink_id: 291, relay_id: 0a0b0c0d, mic: 11223344]";
    let frame = hex("e012355007020a0b0c0d11223344");
    let mut packet = MeshPacket::from_slice(&frame).unwrap();
    assert_eq!(packet.to_string(), text);
    packet.mic = None;
    assert_eq!(format!("{packet}"), "[Uplink hop_count: 1, uplink_id: 291, relay_id: 0a0b0c0d, mic: ]");
    assert_eq!(event(Content::Empty).to_string(), "[Event hop_count: 1, timestamp: 60, relay_id: 0a0b0c0d]");
    let mut out = [BEFORE; 99];
    assert_eq!(packet.write_text(&mut out[..63]), Err(Refusal::OutputShort));
    assert_eq!(out, [BEFORE; 99]);
    assert_eq!(packet.write_text(&mut out), Ok(64));
    assert_eq!(out[64], BEFORE);
}

#[test]
fn dumps() {
    let text = "[Uplink hop_count: 1, uplink_id: 291, relay_id: 0a0b0c0d, mic: 11223344]";
    assert_eq!(dump_line_text(b"e012355007020a0b0c0d11223344").unwrap(), text);
    assert_eq!(dump_frame_text(&hex("e012355007020a0b0c0d11223344")).unwrap(), text);
    assert_eq!(dump_line_text(b"4").unwrap(), "refused 30");
    assert_eq!(dump_line_text(b"").unwrap(), "refused 1");
    let longest = dump_frame_text(&hex("efffff000000ff0a0b0c0dffffffff")).unwrap();
    assert!(longest.len() <= TEXT_MOST);
    let mut out = [BEFORE; 80];
    assert_eq!(dump_line(b"40", &mut out[..5]), Err(Refusal::OutputShort));
    assert_eq!(dump_frame(&[0x40], &mut out[..5]), Err(Refusal::OutputShort));
    assert_eq!(out, [BEFORE; 80]);
    assert_eq!(dump_frame(&[0x40], &mut out), Ok(6));
    assert_eq!(&out[..7], b"lora 1\xa5");
}

#[test]
fn ids() {
    let id = RelayId([0x0a, 0, 0xc, 0x0d]);
    assert_eq!(id.to_string(), "0a000c0d");
    assert_eq!(format!("{id:?}"), "0a000c0d");
    assert_eq!(RelayId::from(0x0a00_0c0d), id);
    assert_eq!(RelayId::from([0x0a, 0, 0xc, 0x0d]), id);
    assert_eq!(event(Content::Empty).payload.relay_id(), RelayId([10, 11, 12, 13]));
}
