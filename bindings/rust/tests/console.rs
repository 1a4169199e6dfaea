//! The frames that are built into the console examples, composed.
mod common;

#[allow(dead_code)]
#[path = "../examples/console.rs"]
mod console;

use common::{hex, root};
use lemikanto::*;

fn signed(packet: MeshPacket) -> Vec<u8> {
    let keys = Keys::from_root(&root());
    let mut out = [0; PAYLOAD_MOST];
    let mut packet = packet;
    packet.encrypt(&keys.encryption, &mut out).unwrap();
    packet.set_mic(&keys.signing).unwrap();
    packet.to_vec().unwrap()
}

fn uplink(hop_count: u8, uplink_id: u16, last: u8) -> Vec<u8> {
    signed(MeshPacket {
        mhdr: Header { payload_type: PayloadType::Uplink, hop_count },
        payload: Payload::Uplink(UplinkPayload {
            metadata: UplinkMetadata { uplink_id, dr: 5, rssi: -80, snr: 7, channel: 2, odd: 0 },
            relay_id: RelayId([0x0a, 0x0b, 0x0c, last]),
            phy_payload: &[0x40, 1, 2, 3, 4],
        }),
        mic: None,
    })
}

#[test]
fn frames() {
    let mut forged = uplink(1, 292, 0x0d);
    let last = forged.len() - 1;
    forged[last] ^= 1;
    let path = vec![
        RelayPath { relay_id: RelayId([0x0a, 0x0b, 0x0c, 0x0d]), rssi: -90, snr: -3, odd: 0 },
        RelayPath { relay_id: RelayId([0x0a, 0x0b, 0x0c, 0x1d]), rssi: -101, snr: 4, odd: 0 },
    ];
    let event = signed(MeshPacket {
        mhdr: Header { payload_type: PayloadType::Event, hop_count: 2 },
        payload: Payload::Event(EventPayload {
            timestamp: 1_700_000_000,
            relay_id: RelayId([0x0a, 0x0b, 0x0c, 0x0e]),
            events: Content::Items(vec![Item::Heartbeat(path), Item::Proprietary(130, vec![0xca, 0xfe, 0x01])]),
        }),
        mic: None,
    });
    let command = signed(MeshPacket {
        mhdr: Header { payload_type: PayloadType::Command, hop_count: 1 },
        payload: Payload::Command(CommandPayload {
            timestamp: 1_700_000_060,
            relay_id: RelayId([0x0a, 0x0b, 0x0c, 0x0d]),
            commands: Content::Items(vec![Command::Proprietary(0, vec![0x05])]),
        }),
        mic: None,
    });
    let composed =
        [uplink(1, 291, 0x0d), uplink(2, 291, 0x0d), forged, event, command, hex("4011223344"), uplink(1, 291, 0x1d), hex("e000")];
    assert_eq!(console::FRAMES.map(hex), composed);
    // The second is the first, passed on.
    let mut passed_on = hex(console::FRAMES[0]);
    set_hop_count(&mut passed_on, 2, &Keys::from_root(&root()).signing).unwrap();
    assert_eq!(passed_on, hex(console::FRAMES[1]));
}
