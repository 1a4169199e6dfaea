//! The one thing that a console does.
use std::error::Error;
use std::fmt;

use crate::cache::{Cache, Record};
use crate::fields::RelayId;
use crate::items::Opening;
use crate::keys::Keys;
use crate::packets::{MeshPacket, Packet};
use crate::Refusal;

/// What a frame turned out to be.
#[derive(Clone, Debug, PartialEq, Eq)]
pub enum Received<'a> {
    /// No mesh frame: LoRa's, as it is.
    Lora(&'a [u8]),
    /// A mesh frame that is valid and was received before. It was not opened.
    Duplicate(Record),
    /// A mesh frame that is valid and new; its items, if it has any, lie open in the work buffer.
    New {
        /// The packet.
        packet: MeshPacket<'a>,
        /// What it is known by.
        record: Record,
        /// What its items are.
        opening: Opening,
    },
}

impl Received<'_> {
    /// The relay of a mesh frame, all four bytes of its id.
    pub fn relay_id(&self) -> Option<RelayId> {
        match self {
            Received::Lora(_) => None,
            Received::Duplicate(record) | Received::New { record, .. } => Some(record.relay_id),
        }
    }
}

/// Why nothing was received. The cache and the work buffer are as they were.
#[derive(Clone, Copy, Debug, PartialEq, Eq)]
pub enum ReceiveError {
    /// The frame, the cache or the work buffer was refused.
    Refused(Refusal),
    /// The MIC is not the one that it should be: whoever sent it had another key, or the frame was changed on its way.
    NotValid,
}

impl fmt::Display for ReceiveError {
    fn fmt(&self, f: &mut fmt::Formatter<'_>) -> fmt::Result {
        match self {
            ReceiveError::Refused(r) => fmt::Display::fmt(r, f),
            ReceiveError::NotValid => f.write_str("the MIC is not valid"),
        }
    }
}

impl Error for ReceiveError {
    fn source(&self) -> Option<&(dyn Error + 'static)> {
        match self {
            ReceiveError::Refused(r) => Some(r),
            ReceiveError::NotValid => None,
        }
    }
}

impl From<Refusal> for ReceiveError {
    fn from(r: Refusal) -> Self {
        ReceiveError::Refused(r)
    }
}

/// Reads a frame, validates it, looks it up in the cache, opens it, and finds its relay.
///
/// A frame that does not validate is neither added to the cache nor opened, and a duplicate is not opened; only what is told as new is to be
/// passed on with [`set_hop_count`](crate::set_hop_count), which does not validate. A work buffer of
/// [`PAYLOAD_MOST`](crate::PAYLOAD_MOST) bytes is long enough for any frame; where it is too short the frame is not added either, so that it
/// can be received again.
pub fn receive<'a>(frame: &'a [u8], keys: &Keys, cache: &mut Cache, work: &'a mut [u8]) -> Result<Received<'a>, ReceiveError> {
    let mut packet = match Packet::from_slice(frame)? {
        Packet::Lora(frame) => return Ok(Received::Lora(frame)),
        Packet::Mesh(packet) => packet,
    };
    if !packet.validate_mic(&keys.signing)? {
        return Err(ReceiveError::NotValid);
    }
    let record = packet.record()?;
    // On a copy, which takes the cache's place once all is done.
    let mut seen = cache.clone();
    if !seen.add(&record)? {
        return Ok(Received::Duplicate(record));
    }
    let opening = packet.decrypt(&keys.encryption, work)?;
    *cache = seen;
    Ok(Received::New { packet, record, opening })
}
