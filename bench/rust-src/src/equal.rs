//! Before anything is timed: both sides give the same answers on everything that will be.
use crate::frames::{mesh, Random, Told, Up};
use crate::port::{self, Cache, Lent};
use original::aes128::Aes128Key;
use original::cache;
use original::packets::*;

pub fn uplinks(ups: &[Up]) {
    for up in ups {
        let (frame, key) = (&up.frame[..], Aes128Key::from_bytes(up.key));
        let (ours, theirs) = (port::read(frame), mesh(Packet::from_slice(frame).unwrap()));
        let Payload::Uplink(body) = &theirs.payload else { panic!("no uplink") };
        let meta = &body.metadata;
        assert!((ours.kind, ours.payload_type, ours.hop_count) == (0, 0, theirs.mhdr.hop_count.into()));
        assert!(
            ours.has_mic == 1
                && Some((ours.mic as u32).to_be_bytes()) == theirs.mic
                && (ours.relay_id as u32).to_be_bytes() == body.relay_id
        );
        assert!((ours.uplink_id, ours.dr, ours.channel) == (meta.uplink_id.into(), meta.dr.into(), meta.channel.into()));
        assert!((ours.rssi, ours.snr) == (meta.rssi, meta.snr));
        assert!(frame[ours.start as usize..][..ours.len as usize] == body.phy_payload[..]);

        let mut out = [0; port::FRAME_MOST];
        let n = port::write(&ours, &Lent::frame(frame), &mut out);
        assert!(out[..n] == theirs.to_vec().unwrap()[..] && out[..n] == *frame);

        assert!(port::validate(&ours, &up.key, &Lent::frame(frame)) && theirs.validate_mic(key).unwrap());
        let mut wrong = frame.to_vec();
        wrong[frame.len() / 2] ^= 1;
        let theirs_too = mesh(Packet::from_slice(&wrong).unwrap()).validate_mic(key).unwrap();
        assert!(!port::validate(&port::read(&wrong), &up.key, &Lent::frame(&wrong)) && !theirs_too);

        for hops in 1..=8 {
            let mut edited = frame.to_vec();
            port::set_hop_count(&up.key, &mut edited, hops);
            let mut p = mesh(Packet::from_slice(frame).unwrap());
            p.mhdr.hop_count = hops;
            p.set_mic(key).unwrap();
            assert!(edited == p.to_vec().unwrap());
        }

        let mut known = [0; crate::sys::MESH_RECORD_NUMBERS];
        port::record_into(&ours, &mut known);
        let made = cache::record(PayloadType::Uplink, known[1] as u16, known[2] as u32, (known[3] as u32).to_be_bytes());
        assert!(known[0] == 0 && made == cache::PayloadCache::from(&theirs));

        let n = port::dump_frame(frame, &mut out);
        assert!(out[..n] == *theirs.to_string().as_bytes());
        let n = port::dump_line(&up.hex, &mut out);
        assert!(out[..n] == *theirs.to_string().as_bytes());
    }
}

pub fn sealed_run(p: &MeshPacket) -> &[u8] {
    let Payload::Event(body) = &p.payload else { panic!("no event") };
    let [Event::Encrypted(run)] = &body.events[..] else { panic!("not sealed") };
    run
}

pub fn events(all: &[Told]) {
    for told in all {
        let (frame, key) = (&told.frame[..], Aes128Key::from_bytes(told.key));
        let mut out = [0; port::FRAME_MOST];
        let packet = port::read(frame);

        // items sealed, a run of bytes sealed
        let run = sealed_run(&told.sealed);
        if !told.kinds.is_empty() {
            let [_, start, n] = port::seal(&told.composed, &told.key, &told.lent(), &mut out);
            assert!(out[start as usize..][..n as usize] == *run);
        }
        let mut twice = told.sealed.clone();
        twice.encrypt(key).unwrap();
        let [_, start, n] = port::seal(&packet, &told.key, &Lent::frame(frame), &mut out);
        assert!(out[start as usize..][..n as usize] == *sealed_run(&twice) && *sealed_run(&twice) == told.clear[..]);

        // opened: the clear bytes, the counts, and each item
        let mut theirs = mesh(Packet::from_slice(frame).unwrap());
        theirs.decrypt(key).unwrap();
        let Payload::Event(body) = &theirs.payload else { panic!("no event") };
        let (counts, place) = port::decrypt(&packet, &told.key, frame, &mut out);
        let clear = &out[..told.clear.len()];
        assert!(*clear == told.clear[..] && counts[0] as usize == body.events.len() && counts[0] as usize == told.kinds.len());
        // where no item is kept the packet is empty from then on
        assert!(place == if told.kinds.is_empty() { [0, 0, 0] } else { [3, 0, clear.len() as u64] });
        let mut at = 0;
        for event in &body.events {
            let item = port::item(clear, at);
            let Event::Proprietary((tag, value)) = event else { panic!("another item") };
            assert!((item[0], item[1], item[2]) == (1, 2, *tag as u64) && clear[item[3] as usize..][..item[4] as usize] == value[..]);
            at = item[5];
        }
        let last = port::item(clear, at)[0];
        assert!(if told.kinds.is_empty() { last == 3 && counts[4] == 1 } else { last == 0 && counts[5] == 1 });
    }
}

/// A long row of adds, about half of them hits; then the rows that are timed.
pub fn caches(size: u32) {
    let mut random = Random::new(size.into());
    let mut ours = Cache::new(size);
    let mut theirs = cache::Cache::new(size as usize);
    let mut add = |kind: PayloadType, id: u16, timestamp: u32| {
        let made = cache::record(kind, id, timestamp, [10, 11, 12, 13]);
        let (a, b) = (ours.add(&[kind.to_byte().into(), id.into(), timestamp.into(), 0x0a0b0c0d]), theirs.add(made));
        assert!(a == b, "a cache of {size}: {kind:?} {id} {timestamp}");
        a
    };
    for _ in 0..10_000 {
        let (kind, id) = (if random.next() % 4 == 0 { PayloadType::Event } else { PayloadType::Uplink }, random.next() % (size as u64 + 2));
        add(kind, id as u16, (random.next() % 2) as u32);
    }
    for i in 0..10_000u32 {
        assert!(add(PayloadType::Uplink, (i & 4095) as u16, 7));
        assert!(!add(PayloadType::Uplink, (i & 4095) as u16, 7));
        assert!(i + 1 < size || !add(PayloadType::Uplink, ((i + 1 - size) & 4095) as u16, 7));
    }
    for i in 0..10_000 {
        assert!(add(PayloadType::Event, 0, i + 8));
    }
}
