//! What a console does with each frame that it receives: it reads the frame, validates it, looks it up, opens it, finds the relay, and
//! passes on what is valid and new with one hop more. The frames are built in; `examples/console.c` has the same and prints the same.
use lemikanto::{receive, set_hop_count, Cache, Found, Items, Kept, Key, Keys, Payload, ReceiveError, Received, RelayId, PAYLOAD_MOST};

/// An uplink, the same over one hop more, a forged one, a sealed event of a heartbeat and another item, a command, a LoRa frame, an uplink
/// of a relay that is not listed, and what is no frame. They are signed and sealed with the keys that are derived from [`ROOT`].
pub const FRAMES: [&str; 8] = [
    "e012355007020a0b0c0d4001020304b2212410",
    "e112355007020a0b0c0d4001020304e7d64029",
    "e012455007020a0b0c0d40010203040c68db6a",
    "f16553f1000a0b0c0ed551e26d3c75b19fa00c339ce33e52d260245db5e612fb",
    "f86553f13c0a0b0c0d3a8dbdd2f6cdbb",
    "4011223344",
    "e012355007020a0b0c1d4001020304fbe54ffc",
    "e000",
];

const ROOT: &str = "000102030405060708090a0b0c0d0e0f";

/// The relays that are known. Ids are the same where all eight digits are.
const RELAYS: [(RelayId, &str); 2] = [(RelayId([0x0a, 0x0b, 0x0c, 0x0d]), "mill"), (RelayId([0x0a, 0x0b, 0x0c, 0x0e]), "church")];

fn relay(id: RelayId) -> String {
    let name = RELAYS.iter().find(|(known, _)| *known == id).map_or("not listed", |(_, name)| name);
    format!("{id} ({name})")
}

fn hex(b: &[u8]) -> String {
    b.iter().map(|b| format!("{b:02x}")).collect()
}

fn bytes(digits: &str) -> Vec<u8> {
    let digits: Vec<u32> = digits.chars().filter_map(|c| c.to_digit(16)).collect();
    digits.chunks(2).map(|pair| pair.iter().fold(0, |n, d| n * 16 + *d as u8)).collect()
}

fn print_items(items: Items) {
    for found in items {
        match found {
            Found::Kept(Kept::Heartbeat(h)) => {
                println!("  heartbeat");
                for p in h.iter() {
                    println!("    {} rssi {} snr {}", relay(p.relay_id), p.rssi, p.snr);
                }
            }
            Found::Kept(Kept::Proprietary(tag, value)) => println!("  item {tag}: {}", hex(value)),
            Found::Skipped(value) => println!("  skipped: {} bytes", value.len()),
            Found::Cut(tail) => println!("  cut: {} bytes", tail.len()),
        }
    }
}

fn print(received: &Received) -> Result<(), ReceiveError> {
    match received {
        Received::Lora(frame) => println!("lora: {} bytes", frame.len()),
        Received::Duplicate(record) => println!("duplicate: {}", relay(record.relay_id)),
        Received::New { packet, .. } => match &packet.payload {
            Payload::Uplink(p) => {
                let m = &p.metadata;
                println!("uplink {} from {} rssi {} snr {}: {}", m.uplink_id, relay(p.relay_id), m.rssi, m.snr, hex(p.phy_payload));
            }
            Payload::Downlink(p) => {
                println!("downlink {} to {}: {}", p.metadata.uplink_id, relay(p.relay_id), hex(p.phy_payload))
            }
            Payload::Event(p) => {
                println!("event at {} from {}", p.timestamp, relay(p.relay_id));
                print_items(p.items()?);
            }
            Payload::Command(p) => {
                println!("command at {} to {}", p.timestamp, relay(p.relay_id));
                print_items(p.items()?);
            }
        },
    }
    Ok(())
}

/// One hop more, in the frame's own buffer. The hop edit signs whatever it is given, so only a frame that was validated comes here: a forged
/// one would go on with a good MIC.
fn pass_on(frame: &mut [u8], hop_count: u8, keys: &Keys) {
    match set_hop_count(frame, hop_count + 1, &keys.signing) {
        Ok(()) => println!("  passed on: {}", hex(frame)),
        Err(r) => println!("  not passed on: refused {}", r.number()),
    }
}

fn main() -> Result<(), ReceiveError> {
    let root: Key = ROOT.parse()?;
    let keys = Keys::from_root(&root);
    let mut cache = Cache::new(64)?;
    let mut work = [0; PAYLOAD_MOST];
    for digits in FRAMES {
        let mut frame = bytes(digits);
        let mut new = None;
        match receive(&frame, &keys, &mut cache, &mut work) {
            Ok(received) => {
                print(&received)?;
                if let Received::New { packet, .. } = received {
                    new = Some(packet.mhdr.hop_count);
                }
            }
            Err(ReceiveError::NotValid) => println!("not valid"),
            Err(ReceiveError::Refused(r)) => println!("refused {}", r.number()),
        }
        if let Some(hop_count) = new {
            pass_on(&mut frame, hop_count, &keys);
        }
    }
    Ok(())
}
