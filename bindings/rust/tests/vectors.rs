//! The twelve worked examples of docs/RULES.md, and the published vectors of FIPS 197 and RFC 4493.
mod common;

use common::{block, hex};
use lemikanto::*;

#[test]
fn p1_to_p3_uplink_metadata() {
    let p1 = UplinkMetadata { uplink_id: 291, dr: 5, rssi: -80, snr: 7, channel: 2, odd: 0 };
    assert_eq!(UplinkMetadata::from_bytes([0x12, 0x35, 0x50, 0x07, 0x02]), p1);
    assert_eq!(p1.to_bytes(), Ok([0x12, 0x35, 0x50, 0x07, 0x02]));
    let p2 = UplinkMetadata { uplink_id: 4095, dr: 15, rssi: -255, snr: -32, channel: 255, odd: 0 };
    assert_eq!(UplinkMetadata::from_bytes([0xff, 0xff, 0xff, 0x20, 0xff]), p2);
    assert_eq!(p2.to_bytes(), Ok([0xff, 0xff, 0xff, 0x20, 0xff]));
    let p3 = UplinkMetadata::from_bytes([0, 0, 0, 0xff, 0]);
    assert_eq!(p3, UplinkMetadata { uplink_id: 0, dr: 0, rssi: 0, snr: -1, channel: 0, odd: 3 });
    assert_eq!(p3.to_bytes().unwrap()[3], 0x3f);
}

#[test]
fn p4_to_p8_frequencies() {
    assert_eq!(encode_freq(868_100_000), Ok([0x84, 0x76, 0x28]));
    assert_eq!(decode_freq(&[0x84, 0x76, 0x28]), Ok(868_100_000));
    assert_eq!(encode_freq(2_400_000_001), Err(Refusal::FrequencyOther));
    assert_eq!(decode_freq(&[0xb7, 0x1b, 0x00]), Ok(2_400_000_000));
    assert_eq!(encode_freq(1_200_000_000), Err(Refusal::FrequencyOther));
    assert_eq!(encode_freq(1_677_721_500), Err(Refusal::FrequencyOther));
    assert_eq!(encode_freq(1_677_721_500).unwrap_err().number(), 38);
    assert_eq!(decode_freq(&[0xff, 0xff, 0xff]), Ok(3_355_443_000));
    assert_eq!(encode_freq(1_677_721_650), Err(Refusal::FrequencyLarge));
    assert_eq!(encode_freq(1_677_721_650).unwrap_err().number(), 17);
}

#[test]
fn p9_p10_headers() {
    assert_eq!(Header::from_byte(0xff), Ok(Header { payload_type: PayloadType::Command, hop_count: 8 }));
    assert_eq!(Header::from_byte(0xdf), Err(Refusal::NotMesh));
    assert_eq!(Refusal::NotMesh.number(), 3);
}

#[test]
fn p11_items() {
    let b = hex("01 02 aa bb 00 05 01 02 03 04 05 02 00 03 09 cc");
    let items = Items::of_event(&b).unwrap();
    let opening = Opening { kept: 2, skipped: 1, kept_bytes: 6, skipped_bytes: 7, cut_bytes: 3, clean: false };
    assert_eq!(items.opening(), opening);
    assert_eq!(
        items.collect::<Vec<_>>(),
        [
            Found::Kept(Kept::Proprietary(1, &[0xaa, 0xbb])),
            Found::Skipped(&[1, 2, 3, 4, 5]),
            Found::Kept(Kept::Proprietary(2, &[])),
            Found::Cut(&[3, 9, 0xcc]),
        ]
    );
    let items = Items::of_command(&b).unwrap();
    assert_eq!(items.opening(), Opening { kept: 3, skipped: 0, kept_bytes: 13, skipped_bytes: 0, cut_bytes: 3, clean: false });
    assert_eq!(items.filter(|i| matches!(i, Found::Kept(_))).count(), 3);
}

#[test]
fn p12_cache() {
    let record = |n: u16| Record { p_type: PayloadType::Uplink, uplink_id: n, timestamp: 0, relay_id: RelayId([1, 2, 3, 4]) };
    let (a, b, c) = (record(1), record(2), record(3));
    let mut cache = Cache::new(2).unwrap();
    let answers: Vec<bool> = [a, b, a, c, a, b].iter().map(|r| cache.add(r).unwrap()).collect();
    assert_eq!(answers, [true, true, false, true, true, true]);
}

#[test]
fn fips_197() {
    for (key, clear, sealed) in [
        // Appendices B and C.1.
        ("2b7e151628aed2a6abf7158809cf4f3c", "3243f6a8885a308d313198a2e0370734", "3925841d02dc09fbdc118597196a0b32"),
        ("000102030405060708090a0b0c0d0e0f", "00112233445566778899aabbccddeeff", "69c4e0d86a7b0430d8cdb78070b4c55a"),
    ] {
        let key: Key = key.parse().unwrap();
        let mut b = block(clear);
        encrypt_block(&key, &mut b);
        assert_eq!(b, block(sealed));
        let mut b = block(clear);
        Cipher::new(&key).encrypt_block(&mut b);
        assert_eq!(b, block(sealed));
    }
}

#[test]
fn rfc_4493() {
    let key: Key = "2b7e151628aed2a6abf7158809cf4f3c".parse().unwrap();
    let message = hex(concat!(
        "6bc1bee22e409f96e93d7e117393172a",
        "ae2d8a571e03ac9c9eb76fac45af8e51",
        "30c81c46a35ce411e5fbc1191a0a52ef",
        "f69f2445df4f9b17ad2b417be66c3710"
    ));
    let mac = Cmac::new(&key);
    for (len, tag) in [
        (0, "bb1d6929e95937287fa37d129b756746"),
        (16, "070a16b46b4d4144f79bdd9dd04a287c"),
        (40, "dfa66747de9ae63030ca32611497c827"),
        (64, "51f0bebf7e3b9d92fc49741779363cfe"),
    ] {
        assert_eq!(cmac(&key, &message[..len]), block(tag));
        assert_eq!(mac.tag(&message[..len]), block(tag));
    }
}

#[test]
fn derived_keys() {
    let root = common::root();
    let mut zeros = [0; 16];
    encrypt_block(&root, &mut zeros);
    assert_eq!(root.signing_key().to_bytes(), zeros);
    let mut one = block("01000000000000000000000000000000");
    encrypt_block(&root, &mut one);
    assert_eq!(root.encryption_key().to_bytes(), one);
    assert_eq!(Keys::from_root(&root), Keys { signing: root.signing_key(), encryption: root.encryption_key() });
}
