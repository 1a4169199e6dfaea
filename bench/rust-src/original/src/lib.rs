//! The Rust's three files, unchanged; its warnings are compiled away.
#[macro_use]
extern crate anyhow;

#[path = "rust/aes128.rs"]
pub mod aes128;

#[path = "rust/packets.rs"]
pub mod packets;

pub mod cache {
    include!("rust/cache.rs");

    // Beside the Rust in its module, since a record's fields are seen only there.
    pub fn record(p_type: packets::PayloadType, uplink_id: u16, timestamp: u32, relay_id: [u8; 4]) -> PayloadCache {
        PayloadCache { p_type, uplink_id, timestamp, relay_id }
    }
}
