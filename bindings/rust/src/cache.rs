//! Duplicates.
use std::fmt;

use crate::fields::{PayloadType, RelayId};
use crate::raw;
use crate::raw::RecordNumbers;
use crate::sys::MESH_CACHE_WORDS;
use crate::Refusal;

/// What a packet is known by (`PayloadCache`); of a packet, [`MeshPacket::record`](crate::MeshPacket::record).
#[derive(Clone, Copy, Debug, PartialEq, Eq, Hash)]
pub struct Record {
    /// The type in the packet's header.
    pub p_type: PayloadType,
    /// 0 of events and commands.
    pub uplink_id: u16,
    /// Seconds; 0 of uplinks and downlinks.
    pub timestamp: u32,
    /// The relay.
    pub relay_id: RelayId,
}

/// The last records, 1 to 64 of them.
#[derive(Clone, PartialEq, Eq)]
pub struct Cache {
    words: [u32; MESH_CACHE_WORDS],
}

impl Cache {
    /// An empty cache of the last `size` records; [`Refusal::CacheSize`].
    pub fn new(size: usize) -> Result<Cache, Refusal> {
        let mut words = [0; MESH_CACHE_WORDS];
        raw::cache_clear(&mut words, u32::try_from(size).unwrap_or(u32::MAX))?;
        Ok(Cache { words })
    }

    /// True where the record is none of the last; it is added then, and the oldest leaves a full cache. A hit changes nothing.
    pub fn add(&mut self, record: &Record) -> Result<bool, Refusal> {
        let known = RecordNumbers {
            type_: record.p_type.to_byte(),
            uplink_id: record.uplink_id,
            timestamp: record.timestamp,
            relay_id: record.relay_id.number(),
        };
        raw::cache_add(&mut self.words, &known)
    }
}

impl fmt::Debug for Cache {
    fn fmt(&self, f: &mut fmt::Formatter<'_>) -> fmt::Result {
        f.write_str("Cache(..)")
    }
}
