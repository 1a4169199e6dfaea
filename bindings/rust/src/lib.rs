//! Frames of the ChirpStack gateway mesh: read, written, signed, sealed, opened and edited in place.
//!
//! All of the work is done by a library in which every function is proved; this crate gives its C face the shapes that a Rust programmer
//! expects, under the names of chirpstack-gateway-mesh where there are such. Nothing here decides a byte of a frame.
//!
//! Packets lend their payload from the frame they were read from, from the buffer they were sealed or opened into, or hold the items that a
//! caller composes. `write` fills a lent slice and answers how many bytes; `to_vec` allocates one. Every refusal is a [`Refusal`] and
//! changes nothing that was lent. No call panics. The hop edit, [`set_hop_count`], signs whatever it is given: validate first.
//!
//! ```
//! use lemikanto::{receive, Cache, Key, Keys, Received};
//!
//! let root: Key = "000102030405060708090a0b0c0d0e0f".parse()?;
//! let keys = Keys::from_root(&root);
//! let mut cache = Cache::new(64)?;
//! let mut work = [0; lemikanto::PAYLOAD_MOST];
//! match receive(b"\x40\x01", &keys, &mut cache, &mut work)? {
//!     Received::Lora(frame) => assert_eq!(frame, [0x40, 0x01]),
//!     other => panic!("a LoRa frame was told as {other:?}"),
//! }
//! # Ok::<(), Box<dyn std::error::Error>>(())
//! ```
#![deny(missing_docs)]
#![deny(unsafe_op_in_unsafe_fn)]
#![deny(unsafe_code)]
// No call panics.
#![cfg_attr(not(test), deny(clippy::unwrap_used, clippy::expect_used, clippy::panic, clippy::indexing_slicing))]

mod cache;
mod dump;
mod fields;
mod items;
mod keys;
mod packets;
mod raw;
mod receive;
mod refusal;
mod sys;

pub use cache::{Cache, Record};
pub use dump::{dump_frame, dump_frame_text, dump_line, dump_line_text};
pub use fields::{decode_freq, encode_freq, DownlinkMetadata, Header, PayloadType, RelayId, RelayPath, UplinkMetadata};
pub use items::{heartbeat_to_vec, write_heartbeat, Command, Event, Found, Heartbeat, Item, Items, Kept, Opening};
pub use keys::{cmac, encrypt_block, encrypt_events_commands, encrypt_events_commands_into, Cipher, Cmac, Key, Keys};
pub use packets::{set_hop_count, CommandPayload, Content, DownlinkPayload, EventPayload, MeshPacket, Packet, Payload, UplinkPayload};
pub use receive::{receive, ReceiveError, Received};
pub use refusal::Refusal;

// from include/mesh.table: limits
/// The bytes of the longest frame.
pub const FRAME_MOST: usize = 8192;
/// The bytes of the longest payload of an event or a command: a work buffer of so many takes any.
pub const PAYLOAD_MOST: usize = 8179;
/// The bytes of the longest value of an item.
pub const ITEM_MOST: usize = 255;
/// The entries of the longest path of a heartbeat.
pub const PATH_MOST: usize = 42;
/// The records of the largest cache.
pub const CACHE_MOST: usize = 64;
/// Enough bytes for any text of a frame or a packet.
pub const TEXT_MOST: usize = 90;
// end

/// The version of the library's face that this crate is written for.
pub const VERSION: u32 = sys::MESH_VERSION;

/// The version of the face that the linked library has: [`VERSION`], or the archive is another one's and nothing else may be called. Within a version
/// a size may become smaller: so the archive is not older than the crate.
pub fn version() -> u32 {
    raw::version()
}

/// A run of a slice. What the library names lies in its slice; anything else is refused as it would refuse it, and a run of no bytes never is.
fn part(whole: &[u8], start: u64, len: u64) -> Result<&[u8], Refusal> {
    if len == 0 {
        return Ok(&[]);
    }
    let inside = || {
        let start = usize::try_from(start).ok()?;
        let end = start.checked_add(usize::try_from(len).ok()?)?;
        whole.get(start..end)
    };
    inside().ok_or(Refusal::Outside)
}

#[cfg(test)]
mod tests {
    use super::*;

    #[test]
    fn parts_lie_inside() {
        let b = [1, 2, 3];
        assert_eq!(part(&b, 0, 3), Ok(&b[..]));
        assert_eq!(part(&b, 2, 1), Ok(&b[2..]));
        for start in [0, 3, 4, u64::MAX] {
            assert_eq!(part(&b, start, 0), Ok(&[][..]));
        }
        for (start, len) in [(0, 4), (3, 1), (4, 1), (u64::MAX, 1), (1, u64::MAX), (u64::MAX, u64::MAX)] {
            assert_eq!(part(&b, start, len), Err(Refusal::Outside));
        }
    }
}
