//! `receive`: what is told of each frame, and what stays as it was.
mod common;

use lemikanto::*;

const BEFORE: u8 = 0xa5;

fn keys() -> Keys {
    Keys::from_root(&common::root())
}

fn uplink(uplink_id: u16, relay_id: [u8; 4]) -> Vec<u8> {
    let mut packet = MeshPacket {
        mhdr: Header { payload_type: PayloadType::Uplink, hop_count: 1 },
        payload: Payload::Uplink(UplinkPayload {
            metadata: UplinkMetadata { uplink_id, dr: 0, rssi: 0, snr: 0, channel: 0, odd: 0 },
            relay_id: RelayId(relay_id),
            phy_payload: &[1, 2, 3],
        }),
        mic: None,
    };
    packet.set_mic(&keys().signing).unwrap();
    packet.to_vec().unwrap()
}

fn event(timestamp: u32, items: Vec<Item>) -> Vec<u8> {
    let mut packet = MeshPacket {
        mhdr: Header { payload_type: PayloadType::Event, hop_count: 1 },
        payload: Payload::Event(EventPayload { timestamp, relay_id: RelayId([1, 2, 3, 4]), events: Content::Items(items) }),
        mic: None,
    };
    let mut out = [0; PAYLOAD_MOST];
    packet.encrypt(&keys().encryption, &mut out).unwrap();
    packet.set_mic(&keys().signing).unwrap();
    packet.to_vec().unwrap()
}

#[test]
fn new_and_duplicate() {
    let keys = keys();
    let mut cache = Cache::new(2).unwrap();
    let frame = uplink(7, [1, 2, 3, 4]);
    let mut work = [BEFORE; 10];
    let got = receive(&frame, &keys, &mut cache, &mut work).unwrap();
    let record = MeshPacket::from_slice(&frame).unwrap().record().unwrap();
    assert_eq!(got.relay_id(), Some(RelayId([1, 2, 3, 4])));
    match got {
        Received::New { packet, record: r, opening } => {
            assert_eq!(Ok(packet), MeshPacket::from_slice(&frame));
            assert_eq!(r, record);
            assert_eq!(opening, Opening { clean: true, ..Opening::default() });
        }
        other => panic!("{other:?}"),
    }
    let full = cache.clone();
    assert_eq!(receive(&frame, &keys, &mut cache, &mut work), Ok(Received::Duplicate(record)));
    assert_eq!((cache.clone(), work), (full, [BEFORE; 10]));
    // The same with another hop count is the same; with an id that differs in its last digit it is not.
    let mut hopped = frame.clone();
    set_hop_count(&mut hopped, 5, &keys.signing).unwrap();
    assert_eq!(receive(&hopped, &keys, &mut cache, &mut work), Ok(Received::Duplicate(record)));
    let other = uplink(7, [1, 2, 3, 5]);
    assert!(matches!(receive(&other, &keys, &mut cache, &mut work), Ok(Received::New { .. })));
}

#[test]
fn opened() {
    let keys = keys();
    let mut cache = Cache::new(2).unwrap();
    let path = vec![RelayPath { relay_id: RelayId([9, 9, 9, 9]), rssi: -3, snr: 4, odd: 0 }];
    let items = vec![Item::Heartbeat(path), Item::Proprietary(130, vec![1, 2])];
    let frame = event(60, items.clone());
    // Too short a work buffer: nothing has changed, and the frame can be received again.
    for room in 0..12 {
        let (mut work, before) = (vec![BEFORE; room], cache.clone());
        assert_eq!(receive(&frame, &keys, &mut cache, &mut work), Err(ReceiveError::Refused(Refusal::OutputShort)));
        assert!(work.iter().all(|b| *b == BEFORE));
        assert_eq!(cache, before);
    }
    let mut work = [BEFORE; 13];
    match receive(&frame, &keys, &mut cache, &mut work) {
        Ok(Received::New { packet: MeshPacket { payload: Payload::Event(e), .. }, opening, .. }) => {
            assert_eq!(opening, Opening { kept: 2, kept_bytes: 12, clean: true, ..Opening::default() });
            let found: Vec<Item> = e.items().unwrap().map(|f| if let Found::Kept(k) = f { k.to_item() } else { panic!() }).collect();
            assert_eq!(found, items);
        }
        other => panic!("{other:?}"),
    }
    assert_eq!(work[12], BEFORE);
    let mut work = [BEFORE; 13];
    assert!(matches!(receive(&frame, &keys, &mut cache, &mut work), Ok(Received::Duplicate(_))));
    assert_eq!(work, [BEFORE; 13]);
}

/// An edited frame validates, is known by the same record and opens to the same items; several edits are the last one alone.
#[test]
fn over_more_hops() {
    let keys = keys();
    let path = vec![RelayPath { relay_id: RelayId([9, 9, 9, 9]), rssi: -3, snr: 4, odd: 0 }];
    let frame = event(60, vec![Item::Heartbeat(path), Item::Proprietary(130, vec![1, 2])]);
    let look = |frame: &[u8]| {
        let mut packet = MeshPacket::from_slice(frame).unwrap();
        assert_eq!(packet.validate_mic(&keys.signing), Ok(true));
        let (record, mut work) = (packet.record().unwrap(), [0; PAYLOAD_MOST]);
        let opening = packet.decrypt(&keys.encryption, &mut work).unwrap();
        let Payload::Event(e) = &packet.payload else { panic!() };
        let found: Vec<Item> = e.items().unwrap().map(|f| if let Found::Kept(k) = f { k.to_item() } else { panic!() }).collect();
        (record, opening, found)
    };
    let mut several = frame.clone();
    for hop_count in [2, 8, 0, 5, 9, 1, 3] {
        let before = several.clone();
        if set_hop_count(&mut several, hop_count, &keys.signing).is_err() {
            assert_eq!(several, before);
            continue;
        }
        let mut alone = frame.clone();
        set_hop_count(&mut alone, hop_count, &keys.signing).unwrap();
        assert_eq!(several, alone);
        assert_eq!(look(&several), look(&frame));
    }
}

#[test]
fn not_valid() {
    let keys = keys();
    let mut cache = Cache::new(64).unwrap();
    let empty = cache.clone();
    for frame in [uplink(7, [1, 2, 3, 4]), event(60, vec![Item::Proprietary(1, vec![2])])] {
        for i in 0..frame.len() {
            for bit in 0..8 {
                let mut forged = frame.clone();
                forged[i] ^= 1 << bit;
                let odd = forged[0] == 0xe0 && i == 4 && bit >= 6;
                let mut work = [BEFORE; 20];
                let mut tried = cache.clone();
                let got = receive(&forged, &keys, &mut tried, &mut work);
                if i == 0 && bit >= 5 {
                    assert_eq!(got, Ok(Received::Lora(&forged)));
                } else if odd {
                    // The odd bits of an uplink's snr are not signed: it is valid with any, and they are told.
                    let Ok(Received::New { packet: MeshPacket { payload: Payload::Uplink(p), .. }, .. }) = got else { panic!() };
                    assert_eq!(p.metadata.odd, 1 << (bit - 6));
                    continue;
                } else if i == 0 && bit >= 3 && forged.len() < 15 {
                    assert!(got.is_err());
                } else {
                    assert_eq!(got, Err(ReceiveError::NotValid));
                }
                assert_eq!(tried, empty);
                assert_eq!(work, [BEFORE; 20]);
            }
        }
        let wrong = Keys { signing: keys.encryption, ..keys };
        assert_eq!(receive(&frame, &wrong, &mut cache, &mut [0; 20]), Err(ReceiveError::NotValid));
        assert_eq!(cache, empty);
    }
}

#[test]
fn refused_and_lora() {
    let keys = keys();
    let mut cache = Cache::new(1).unwrap();
    let empty = cache.clone();
    let long = vec![0x40; 8193];
    for (frame, number) in [(&[][..], 1), (&long, 5), (&[0xe0][..], 2), (&[0xe0; 13][..], 4)] {
        let got = receive(frame, &keys, &mut cache, &mut []);
        assert_eq!(got, Err(ReceiveError::Refused(Refusal::from_number(number).unwrap())));
        let error = got.unwrap_err();
        assert_eq!(error.to_string(), Refusal::from_number(number).unwrap().to_string());
        assert!(std::error::Error::source(&error).is_some());
    }
    let lora = receive(&long[..8192], &keys, &mut cache, &mut []).unwrap();
    assert_eq!(lora, Received::Lora(&long[..8192]));
    assert_eq!(lora.relay_id(), None);
    assert_eq!(cache, empty);
    assert_eq!(ReceiveError::NotValid.to_string(), "the MIC is not valid");
}
