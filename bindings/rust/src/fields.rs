//! The fields of headers and bodies.
use std::fmt;

use crate::raw;
use crate::sys::{MESH_COMMAND, MESH_DOWNLINK, MESH_EVENT, MESH_UPLINK};
use crate::Refusal;

/// A relay's id. Two ids are the same where all four bytes are; the text has eight digits in lower case.
#[derive(Clone, Copy, PartialEq, Eq, Hash, PartialOrd, Ord, Default)]
pub struct RelayId(pub [u8; 4]);

impl RelayId {
    pub(crate) fn number(self) -> u32 {
        u32::from_be_bytes(self.0)
    }
}

impl From<[u8; 4]> for RelayId {
    fn from(b: [u8; 4]) -> Self {
        RelayId(b)
    }
}

impl From<u32> for RelayId {
    fn from(n: u32) -> Self {
        RelayId(n.to_be_bytes())
    }
}

impl fmt::Display for RelayId {
    fn fmt(&self, f: &mut fmt::Formatter<'_>) -> fmt::Result {
        write!(f, "{:08x}", self.number())
    }
}

impl fmt::Debug for RelayId {
    fn fmt(&self, f: &mut fmt::Formatter<'_>) -> fmt::Result {
        fmt::Display::fmt(self, f)
    }
}

/// The type of a mesh packet.
#[derive(Clone, Copy, Debug, PartialEq, Eq, Hash)]
#[repr(u8)]
pub enum PayloadType {
    /// A LoRa frame on its way to the border gateway.
    Uplink = MESH_UPLINK,
    /// A LoRa frame on its way to a relay.
    Downlink = MESH_DOWNLINK,
    /// What relays tell.
    Event = MESH_EVENT,
    /// What relays are told.
    Command = MESH_COMMAND,
}

impl PayloadType {
    /// The type of a code; [`Refusal::TypeLarge`] over 3.
    pub fn from_byte(b: u8) -> Result<Self, Refusal> {
        raw::payload_type(b)?;
        Ok(match b {
            MESH_UPLINK => PayloadType::Uplink,
            MESH_DOWNLINK => PayloadType::Downlink,
            MESH_EVENT => PayloadType::Event,
            _ => PayloadType::Command,
        })
    }

    /// Its code.
    pub fn to_byte(self) -> u8 {
        self as u8
    }
}

/// The header byte of a mesh frame (`MHDR`).
#[derive(Clone, Copy, Debug, PartialEq, Eq)]
pub struct Header {
    /// The type of the packet.
    pub payload_type: PayloadType,
    /// 1 to 8.
    pub hop_count: u8,
}

impl Header {
    /// The header of a byte; [`Refusal::NotMesh`].
    pub fn from_byte(b: u8) -> Result<Self, Refusal> {
        let [payload_type, hop_count] = raw::header_read(b)?;
        Ok(Header { payload_type: PayloadType::from_byte(payload_type)?, hop_count })
    }

    /// Its byte; [`Refusal::HopsNone`], [`Refusal::HopsMany`].
    pub fn to_byte(self) -> Result<u8, Refusal> {
        raw::header_write(self.payload_type.to_byte(), self.hop_count)
    }
}

/// How a relay received an uplink.
#[derive(Clone, Copy, Debug, PartialEq, Eq)]
pub struct UplinkMetadata {
    /// 0 to 4095.
    pub uplink_id: u16,
    /// 0 to 15.
    pub dr: u8,
    /// -255 to 0.
    pub rssi: i16,
    /// -32 to 31.
    pub snr: i8,
    /// Any.
    pub channel: u8,
    /// The two bits above the snr as found, 0 to 3. Any value is taken, and none is written.
    pub odd: u8,
}

impl UplinkMetadata {
    /// The metadata of any five bytes.
    pub fn from_bytes(b: [u8; 5]) -> Self {
        let ([uplink_id, dr, channel, odd], rssi, snr) = raw::uplink_metadata_read(&b);
        UplinkMetadata { uplink_id: uplink_id as u16, dr: dr as u8, rssi, snr, channel: channel as u8, odd: odd as u8 }
    }

    /// Its bytes, or the first field that is none.
    pub fn to_bytes(self) -> Result<[u8; 5], Refusal> {
        raw::uplink_metadata_write(self.uplink_id, self.dr, self.rssi, self.snr, self.channel)
    }
}

/// How a relay is to send a downlink.
#[derive(Clone, Copy, Debug, PartialEq, Eq)]
pub struct DownlinkMetadata {
    /// 0 to 4095.
    pub uplink_id: u16,
    /// 0 to 15.
    pub dr: u8,
    /// Hertz: a frequency that [`encode_freq`] takes.
    pub frequency: u32,
    /// 0 to 15.
    pub tx_power: u8,
    /// Seconds, 1 to 16.
    pub delay: u8,
}

impl DownlinkMetadata {
    /// The metadata of any six bytes.
    pub fn from_bytes(b: [u8; 6]) -> Self {
        let [uplink_id, dr, frequency, tx_power, delay] = raw::downlink_metadata_read(&b);
        DownlinkMetadata {
            uplink_id: uplink_id as u16,
            dr: dr as u8,
            frequency: frequency as u32,
            tx_power: tx_power as u8,
            delay: delay as u8,
        }
    }

    /// Its bytes, or the first field that is none.
    pub fn to_bytes(self) -> Result<[u8; 6], Refusal> {
        raw::downlink_metadata_write(self.uplink_id, self.dr, self.frequency, self.tx_power, self.delay)
    }
}

/// An entry of a heartbeat's path: a relay, and how it was received.
#[derive(Clone, Copy, Debug, PartialEq, Eq, Default)]
pub struct RelayPath {
    /// The relay.
    pub relay_id: RelayId,
    /// -255 to 0.
    pub rssi: i16,
    /// -32 to 31.
    pub snr: i8,
    /// The two bits above the snr as found, 0 to 3. Any value is taken, and none is written.
    pub odd: u8,
}

impl RelayPath {
    pub(crate) fn of((relay_id, rssi, snr, odd): (u32, i16, i8, u8)) -> Self {
        RelayPath { relay_id: relay_id.into(), rssi, snr, odd }
    }

    /// The entry of any six bytes.
    pub fn from_bytes(b: [u8; 6]) -> Self {
        RelayPath::of(raw::path_read(&b))
    }

    /// Its bytes, or the first field that is none.
    pub fn to_bytes(self) -> Result<[u8; 6], Refusal> {
        raw::path_write(self.relay_id.number(), self.rssi, self.snr)
    }
}

/// The three bytes of a frequency in hertz: a multiple of 100 under 1,200,000,000, or of 200 from 2,400,000,000 to 3,355,443,000. From
/// 2,400,000,000 up it is halved first; then [`Refusal::FrequencyLarge`], [`Refusal::FrequencyStep`], and [`Refusal::FrequencyOther`] where
/// [`decode_freq`] would give another.
pub fn encode_freq(freq: u32) -> Result<[u8; 3], Refusal> {
    raw::frequency_write(freq)
}

/// The frequency in hertz of three bytes; [`Refusal::FrequencyLength`] of any other count.
pub fn decode_freq(b: &[u8]) -> Result<u32, Refusal> {
    raw::frequency_read(b)
}
