//! Packets.
use std::fmt;

use crate::cache::Record;
use crate::fields::{DownlinkMetadata, Header, PayloadType, RelayId, UplinkMetadata};
use crate::items::{Command, Composed, Item, Items, Lists, Opening};
use crate::keys::Key;
use crate::raw;
use crate::raw::{PacketNumbers, Place};
use crate::sys::{MESH_EMPTY, MESH_ITEMS, MESH_LORA, MESH_OPEN_IN_FRAME, MESH_OPEN_IN_WORK, MESH_SEALED};
use crate::Refusal;
use crate::{part, FRAME_MOST, TEXT_MOST};

/// Any frame.
#[derive(Clone, Debug, PartialEq, Eq)]
pub enum Packet<'a> {
    /// A mesh frame.
    Mesh(MeshPacket<'a>),
    /// Any other, which is LoRa's, as it is.
    Lora(&'a [u8]),
}

impl<'a> Packet<'a> {
    /// Reads a frame: [`Refusal::FrameEmpty`], [`Refusal::FrameLong`], [`Refusal::FrameShort`], [`Refusal::BodyShort`].
    pub fn from_slice(frame: &'a [u8]) -> Result<Self, Refusal> {
        let f = raw::read(frame)?;
        if f.kind == MESH_LORA {
            return Ok(Packet::Lora(part(frame, f.start, f.len)?));
        }
        MeshPacket::of(&f, frame).map(Packet::Mesh)
    }

    /// Writes it at the front of a lent slice; the answer is how many bytes.
    pub fn write(&self, out: &mut [u8]) -> Result<usize, Refusal> {
        match self {
            Packet::Mesh(p) => p.write(out),
            Packet::Lora(frame) => {
                let f = PacketNumbers { kind: MESH_LORA, len: frame.len() as u64, ..PacketNumbers::default() };
                raw::write(&f, &Lists::default().lent(frame), out)
            }
        }
    }

    /// Its bytes, allocated.
    pub fn to_vec(&self) -> Result<Vec<u8>, Refusal> {
        allocated(|out| self.write(out))
    }
}

/// A mesh frame.
#[derive(Clone, Debug, PartialEq, Eq)]
pub struct MeshPacket<'a> {
    /// Its header byte.
    pub mhdr: Header,
    /// Its body.
    pub payload: Payload<'a>,
    /// Its MIC, if it is signed.
    pub mic: Option<[u8; 4]>,
}

/// The body of a mesh frame.
#[derive(Clone, Debug, PartialEq, Eq)]
pub enum Payload<'a> {
    /// A LoRa frame that a relay received.
    Uplink(UplinkPayload<'a>),
    /// A LoRa frame that a relay is to send.
    Downlink(DownlinkPayload<'a>),
    /// What a relay tells.
    Event(EventPayload<'a>),
    /// What a relay is told.
    Command(CommandPayload<'a>),
}

/// The body of an uplink.
#[derive(Clone, Copy, Debug, PartialEq, Eq)]
pub struct UplinkPayload<'a> {
    /// How the relay received it.
    pub metadata: UplinkMetadata,
    /// The relay that received it.
    pub relay_id: RelayId,
    /// The LoRa frame.
    pub phy_payload: &'a [u8],
}

/// The body of a downlink.
#[derive(Clone, Copy, Debug, PartialEq, Eq)]
pub struct DownlinkPayload<'a> {
    /// How the relay is to send it.
    pub metadata: DownlinkMetadata,
    /// The relay that is to send it.
    pub relay_id: RelayId,
    /// The LoRa frame.
    pub phy_payload: &'a [u8],
}

/// The body of an event.
#[derive(Clone, Debug, PartialEq, Eq)]
pub struct EventPayload<'a> {
    /// Seconds since 1970.
    pub timestamp: u32,
    /// The relay that tells it.
    pub relay_id: RelayId,
    /// Its items.
    pub events: Content<'a, Item>,
}

/// The body of a command.
#[derive(Clone, Debug, PartialEq, Eq)]
pub struct CommandPayload<'a> {
    /// Seconds since 1970.
    pub timestamp: u32,
    /// The relay that is told.
    pub relay_id: RelayId,
    /// Its items.
    pub commands: Content<'a, Command>,
}

/// The items of an event or a command. A sealed or an open run of no bytes, or no items, count as empty.
#[derive(Clone, Debug, PartialEq, Eq)]
pub enum Content<'a, I> {
    /// None.
    Empty,
    /// Sealed bytes, of the frame that was read or of the slice that they were sealed into.
    Sealed(&'a [u8]),
    /// Clear bytes, of the frame or of the work buffer; what is skipped or cut in them is not written.
    Open(&'a [u8]),
    /// What a caller composes.
    Items(Vec<I>),
}

fn allocated(write: impl FnOnce(&mut [u8]) -> Result<usize, Refusal>) -> Result<Vec<u8>, Refusal> {
    let mut out = vec![0; FRAME_MOST];
    let length = write(&mut out)?;
    out.truncate(length);
    Ok(out)
}

impl<'a, I> Content<'a, I> {
    fn of(f: &PacketNumbers, frame: &'a [u8]) -> Result<Self, Refusal> {
        Ok(match f.content {
            MESH_EMPTY => Content::Empty,
            MESH_SEALED => Content::Sealed(part(frame, f.start, f.len)?),
            _ => Content::Open(part(frame, f.start, f.len)?),
        })
    }

    /// The bytes that it lies in.
    fn held(&self) -> &'a [u8] {
        match self {
            Content::Sealed(b) | Content::Open(b) => b,
            Content::Empty | Content::Items(_) => &[],
        }
    }

    fn place(&self) -> Place {
        let (content, len) = match self {
            Content::Empty => (MESH_EMPTY, 0),
            Content::Sealed(b) => (MESH_SEALED, b.len()),
            Content::Open(b) => (MESH_OPEN_IN_FRAME, b.len()),
            Content::Items(items) => (MESH_ITEMS, items.len()),
        };
        Place { content, start: 0, len: len as u64 }
    }

    fn opened(&self) -> &'a [u8] {
        match self {
            Content::Open(b) => b,
            _ => &[],
        }
    }

    fn lists(&self) -> Lists
    where
        I: Composed,
    {
        let mut lists = Lists::default();
        if let Content::Items(items) = self {
            for item in items {
                item.lay(&mut lists);
            }
        }
        lists
    }

    fn encrypt(&mut self, f: &PacketNumbers, key: &Key, out: &'a mut [u8]) -> Result<(), Refusal>
    where
        I: Composed,
    {
        let to = raw::seal(f, key.bytes(), &self.lists().lent(self.held()), out)?;
        self.moved(to, out)
    }

    fn decrypt(&mut self, f: &PacketNumbers, key: &Key, work: &'a mut [u8]) -> Result<Opening, Refusal> {
        let (counts, to) = raw::decrypt(f, key.bytes(), self.held(), work)?;
        self.moved(to, work)?;
        Ok(Opening::of(counts))
    }

    fn decode(&mut self, f: &PacketNumbers) -> Result<Option<Opening>, Refusal> {
        let Some((counts, to)) = raw::decode(f, self.held(), &[])? else {
            return Ok(None);
        };
        self.moved(to, self.held())?;
        Ok(Some(Opening::of(counts)))
    }

    /// Sealed or opened into other bytes. What keeps no item is empty from then on.
    fn moved(&mut self, to: Place, into: &'a [u8]) -> Result<(), Refusal> {
        *self = match to.content {
            MESH_EMPTY => Content::Empty,
            MESH_SEALED => Content::Sealed(part(into, to.start, to.len)?),
            MESH_OPEN_IN_FRAME | MESH_OPEN_IN_WORK => Content::Open(part(into, to.start, to.len)?),
            // No call moves composed items; they stay.
            _ => return Ok(()),
        };
        Ok(())
    }
}

impl<'a> UplinkPayload<'a> {
    fn of(f: &PacketNumbers, frame: &'a [u8]) -> Result<Self, Refusal> {
        Ok(UplinkPayload {
            metadata: UplinkMetadata { uplink_id: f.uplink_id, dr: f.dr, rssi: f.rssi, snr: f.snr, channel: f.channel, odd: f.odd },
            relay_id: f.relay_id.into(),
            phy_payload: part(frame, f.start, f.len)?,
        })
    }

    fn flat(&self) -> PacketNumbers {
        let m = &self.metadata;
        PacketNumbers {
            kind: PayloadType::Uplink.to_byte(),
            payload_type: PayloadType::Uplink.to_byte(),
            relay_id: self.relay_id.number(),
            uplink_id: m.uplink_id,
            dr: m.dr,
            rssi: m.rssi,
            snr: m.snr,
            channel: m.channel,
            odd: m.odd,
            len: self.phy_payload.len() as u64,
            ..PacketNumbers::default()
        }
    }

    /// Reads a body: [`Refusal::FrameLong`], [`Refusal::BodyShort`].
    pub fn from_slice(body: &'a [u8]) -> Result<Self, Refusal> {
        UplinkPayload::of(&raw::read_body(PayloadType::Uplink.to_byte(), body)?, body)
    }

    /// Writes it at the front of a lent slice; the answer is how many bytes.
    pub fn write(&self, out: &mut [u8]) -> Result<usize, Refusal> {
        raw::write_body(&self.flat(), &Lists::default().lent(self.phy_payload), out)
    }

    /// Its bytes, allocated.
    pub fn to_vec(&self) -> Result<Vec<u8>, Refusal> {
        allocated(|out| self.write(out))
    }
}

impl<'a> DownlinkPayload<'a> {
    fn of(f: &PacketNumbers, frame: &'a [u8]) -> Result<Self, Refusal> {
        Ok(DownlinkPayload {
            metadata: DownlinkMetadata { uplink_id: f.uplink_id, dr: f.dr, frequency: f.frequency, tx_power: f.tx_power, delay: f.delay },
            relay_id: f.relay_id.into(),
            phy_payload: part(frame, f.start, f.len)?,
        })
    }

    fn flat(&self) -> PacketNumbers {
        let m = &self.metadata;
        PacketNumbers {
            kind: PayloadType::Downlink.to_byte(),
            payload_type: PayloadType::Downlink.to_byte(),
            relay_id: self.relay_id.number(),
            uplink_id: m.uplink_id,
            dr: m.dr,
            frequency: m.frequency,
            tx_power: m.tx_power,
            delay: m.delay,
            len: self.phy_payload.len() as u64,
            ..PacketNumbers::default()
        }
    }

    /// Reads a body: [`Refusal::FrameLong`], [`Refusal::BodyShort`].
    pub fn from_slice(body: &'a [u8]) -> Result<Self, Refusal> {
        DownlinkPayload::of(&raw::read_body(PayloadType::Downlink.to_byte(), body)?, body)
    }

    /// Writes it at the front of a lent slice; the answer is how many bytes.
    pub fn write(&self, out: &mut [u8]) -> Result<usize, Refusal> {
        raw::write_body(&self.flat(), &Lists::default().lent(self.phy_payload), out)
    }

    /// Its bytes, allocated.
    pub fn to_vec(&self) -> Result<Vec<u8>, Refusal> {
        allocated(|out| self.write(out))
    }
}

fn stamped(kind: PayloadType, timestamp: u32, relay_id: RelayId, at: Place) -> PacketNumbers {
    PacketNumbers {
        kind: kind.to_byte(),
        payload_type: kind.to_byte(),
        relay_id: relay_id.number(),
        timestamp,
        content: at.content,
        start: at.start,
        len: at.len,
        ..PacketNumbers::default()
    }
}

impl<'a> EventPayload<'a> {
    fn of(f: &PacketNumbers, frame: &'a [u8]) -> Result<Self, Refusal> {
        Ok(EventPayload { timestamp: f.timestamp, relay_id: f.relay_id.into(), events: Content::of(f, frame)? })
    }

    fn flat(&self) -> PacketNumbers {
        stamped(PayloadType::Event, self.timestamp, self.relay_id, self.events.place())
    }

    /// Reads a body: [`Refusal::FrameLong`], [`Refusal::BodyShort`].
    pub fn from_slice(body: &'a [u8]) -> Result<Self, Refusal> {
        EventPayload::of(&raw::read_body(PayloadType::Event.to_byte(), body)?, body)
    }

    /// Writes it at the front of a lent slice; the answer is how many bytes.
    pub fn write(&self, out: &mut [u8]) -> Result<usize, Refusal> {
        raw::write_body(&self.flat(), &self.events.lists().lent(self.events.held()), out)
    }

    /// Its bytes, allocated.
    pub fn to_vec(&self) -> Result<Vec<u8>, Refusal> {
        allocated(|out| self.write(out))
    }

    /// Seals the items into a lent slice, which holds them from then on. Sealing what is sealed gives the clear bytes, still marked sealed.
    pub fn encrypt(&mut self, key: &Key, out: &'a mut [u8]) -> Result<(), Refusal> {
        self.events.encrypt(&self.flat(), key, out)
    }

    /// Opens the items into a work buffer, which holds them from then on: [`Refusal::OpenMany`], [`Refusal::OpenOne`],
    /// [`Refusal::FrameLong`], [`Refusal::OutputShort`]. A payload that keeps no item is empty from then on.
    pub fn decrypt(&mut self, key: &Key, work: &'a mut [u8]) -> Result<Opening, Refusal> {
        self.events.decrypt(&self.flat(), key, work)
    }

    /// Takes the sealed bytes as clear ones, which they are where the sender does not seal; `None` where they are open already.
    pub fn decode(&mut self) -> Result<Option<Opening>, Refusal> {
        self.events.decode(&self.flat())
    }

    /// The items of an open payload; of any other, none.
    pub fn items(&self) -> Result<Items<'a>, Refusal> {
        Items::of_event(self.events.opened())
    }
}

impl<'a> CommandPayload<'a> {
    fn of(f: &PacketNumbers, frame: &'a [u8]) -> Result<Self, Refusal> {
        Ok(CommandPayload { timestamp: f.timestamp, relay_id: f.relay_id.into(), commands: Content::of(f, frame)? })
    }

    fn flat(&self) -> PacketNumbers {
        stamped(PayloadType::Command, self.timestamp, self.relay_id, self.commands.place())
    }

    /// Reads a body: [`Refusal::FrameLong`], [`Refusal::BodyShort`].
    pub fn from_slice(body: &'a [u8]) -> Result<Self, Refusal> {
        CommandPayload::of(&raw::read_body(PayloadType::Command.to_byte(), body)?, body)
    }

    /// Writes it at the front of a lent slice; the answer is how many bytes.
    pub fn write(&self, out: &mut [u8]) -> Result<usize, Refusal> {
        raw::write_body(&self.flat(), &self.commands.lists().lent(self.commands.held()), out)
    }

    /// Its bytes, allocated.
    pub fn to_vec(&self) -> Result<Vec<u8>, Refusal> {
        allocated(|out| self.write(out))
    }

    /// Seals the items into a lent slice, as of an event.
    pub fn encrypt(&mut self, key: &Key, out: &'a mut [u8]) -> Result<(), Refusal> {
        self.commands.encrypt(&self.flat(), key, out)
    }

    /// Opens the items into a work buffer, as of an event.
    pub fn decrypt(&mut self, key: &Key, work: &'a mut [u8]) -> Result<Opening, Refusal> {
        self.commands.decrypt(&self.flat(), key, work)
    }

    /// Takes the sealed bytes as clear ones; `None` where they are open already.
    pub fn decode(&mut self) -> Result<Option<Opening>, Refusal> {
        self.commands.decode(&self.flat())
    }

    /// The items of an open payload; of any other, none.
    pub fn items(&self) -> Result<Items<'a>, Refusal> {
        Items::of_command(self.commands.opened())
    }
}

impl<'a> Payload<'a> {
    fn of(f: &PacketNumbers, frame: &'a [u8]) -> Result<Self, Refusal> {
        Ok(match PayloadType::from_byte(f.kind)? {
            PayloadType::Uplink => Payload::Uplink(UplinkPayload::of(f, frame)?),
            PayloadType::Downlink => Payload::Downlink(DownlinkPayload::of(f, frame)?),
            PayloadType::Event => Payload::Event(EventPayload::of(f, frame)?),
            PayloadType::Command => Payload::Command(CommandPayload::of(f, frame)?),
        })
    }

    /// Its relay: of an uplink or an event the one that sent it, of a downlink or a command the one that is to take it.
    pub fn relay_id(&self) -> RelayId {
        match self {
            Payload::Uplink(p) => p.relay_id,
            Payload::Downlink(p) => p.relay_id,
            Payload::Event(p) => p.relay_id,
            Payload::Command(p) => p.relay_id,
        }
    }

    fn flat(&self) -> PacketNumbers {
        match self {
            Payload::Uplink(p) => p.flat(),
            Payload::Downlink(p) => p.flat(),
            Payload::Event(p) => p.flat(),
            Payload::Command(p) => p.flat(),
        }
    }

    fn lists(&self) -> Lists {
        match self {
            Payload::Uplink(_) | Payload::Downlink(_) => Lists::default(),
            Payload::Event(p) => p.events.lists(),
            Payload::Command(p) => p.commands.lists(),
        }
    }

    fn held(&self) -> &'a [u8] {
        match self {
            Payload::Uplink(p) => p.phy_payload,
            Payload::Downlink(p) => p.phy_payload,
            Payload::Event(p) => p.events.held(),
            Payload::Command(p) => p.commands.held(),
        }
    }
}

impl<'a> MeshPacket<'a> {
    fn of(f: &PacketNumbers, frame: &'a [u8]) -> Result<Self, Refusal> {
        Ok(MeshPacket {
            mhdr: Header { payload_type: PayloadType::from_byte(f.payload_type)?, hop_count: f.hop_count },
            payload: Payload::of(f, frame)?,
            mic: f.has_mic.then_some(f.mic.to_be_bytes()),
        })
    }

    fn flat(&self) -> PacketNumbers {
        PacketNumbers {
            payload_type: self.mhdr.payload_type.to_byte(),
            hop_count: self.mhdr.hop_count,
            has_mic: self.mic.is_some(),
            mic: self.mic.map_or(0, u32::from_be_bytes),
            ..self.payload.flat()
        }
    }

    /// Reads a mesh frame: [`Refusal::FrameEmpty`], [`Refusal::FrameLong`], [`Refusal::FrameShort`], [`Refusal::NotMesh`],
    /// [`Refusal::BodyShort`].
    pub fn from_slice(frame: &'a [u8]) -> Result<Self, Refusal> {
        MeshPacket::of(&raw::read_mesh(frame)?, frame)
    }

    /// Writes it at the front of a lent slice; the answer is how many bytes. Hop count, fields and items are met first, then
    /// [`Refusal::MicMissing`], [`Refusal::FrameLong`], [`Refusal::OutputShort`].
    pub fn write(&self, out: &mut [u8]) -> Result<usize, Refusal> {
        raw::write(&self.flat(), &self.payload.lists().lent(self.payload.held()), out)
    }

    /// Its bytes, allocated.
    pub fn to_vec(&self) -> Result<Vec<u8>, Refusal> {
        allocated(|out| self.write(out))
    }

    /// Sets the MIC that it has under a signing key. What is to be sealed must be sealed first.
    pub fn set_mic(&mut self, key: &Key) -> Result<(), Refusal> {
        let made = raw::sign(&self.flat(), key.bytes(), &self.payload.lists().lent(self.payload.held()))?;
        self.mic = Some(made.to_be_bytes());
        Ok(())
    }

    /// Whether it has the MIC that it should have under a signing key; [`Refusal::MicMissing`].
    pub fn validate_mic(&self, key: &Key) -> Result<bool, Refusal> {
        raw::validate(&self.flat(), key.bytes(), &self.payload.lists().lent(self.payload.held()))
    }

    /// Seals the items of an event or a command, as [`EventPayload::encrypt`]; of the others nothing.
    pub fn encrypt(&mut self, key: &Key, out: &'a mut [u8]) -> Result<(), Refusal> {
        match &mut self.payload {
            Payload::Event(p) => p.encrypt(key, out),
            Payload::Command(p) => p.encrypt(key, out),
            Payload::Uplink(_) | Payload::Downlink(_) => Ok(()),
        }
    }

    /// Opens the items of an event or a command, as [`EventPayload::decrypt`]; the others hold none, and nothing is done.
    pub fn decrypt(&mut self, key: &Key, work: &'a mut [u8]) -> Result<Opening, Refusal> {
        match &mut self.payload {
            Payload::Event(p) => p.decrypt(key, work),
            Payload::Command(p) => p.decrypt(key, work),
            Payload::Uplink(_) | Payload::Downlink(_) => {
                raw::decrypt(&self.flat(), key.bytes(), self.payload.held(), work).map(|(counts, _)| Opening::of(counts))
            }
        }
    }

    /// Takes sealed bytes as clear ones, as [`EventPayload::decode`].
    pub fn decode(&mut self) -> Result<Option<Opening>, Refusal> {
        match &mut self.payload {
            Payload::Event(p) => p.decode(),
            Payload::Command(p) => p.decode(),
            Payload::Uplink(_) | Payload::Downlink(_) => {
                Ok(raw::decode(&self.flat(), self.payload.held(), &[])?.map(|(counts, _)| Opening::of(counts)))
            }
        }
    }

    /// Writes its text, as `Display` has it, at the front of a lent slice; the answer is how many bytes. [`TEXT_MOST`](crate::TEXT_MOST) take
    /// any; [`Refusal::OutputShort`].
    pub fn write_text(&self, out: &mut [u8]) -> Result<usize, Refusal> {
        raw::text(&self.flat(), out)
    }

    /// What it is known by in a [`Cache`](crate::Cache).
    pub fn record(&self) -> Result<Record, Refusal> {
        let known = raw::record(&self.flat())?;
        Ok(Record {
            p_type: PayloadType::from_byte(known.type_)?,
            uplink_id: known.uplink_id,
            timestamp: known.timestamp,
            relay_id: known.relay_id.into(),
        })
    }
}

/// Its line of a dump; without a MIC nothing stands behind `mic: `.
impl fmt::Display for MeshPacket<'_> {
    fn fmt(&self, f: &mut fmt::Formatter<'_>) -> fmt::Result {
        let mut out = [0; TEXT_MOST];
        // So many bytes take any text, and every packet of these types has one.
        let length = self.write_text(&mut out).map_err(|_| fmt::Error)?;
        f.write_str(&String::from_utf8_lossy(part(&out, 0, length as u64).map_err(|_| fmt::Error)?))
    }
}

/// Gives a received mesh frame another hop count and signs it again, in its buffer: what [`MeshPacket::from_slice`] refuses, then
/// [`Refusal::HopsNone`], [`Refusal::HopsMany`].
///
/// It signs whatever it is given: the MIC that the frame came with is not looked at, and a forged frame comes out of it with a good one.
/// Validate first:
///
/// ```
/// use lemikanto::{set_hop_count, Key, MeshPacket, Refusal};
///
/// /// One hop more, of a frame that is valid; false where it is not, and then the frame is as it was.
/// fn pass_on(frame: &mut [u8], signing: &Key) -> Result<bool, Refusal> {
///     let packet = MeshPacket::from_slice(frame)?;
///     if !packet.validate_mic(signing)? {
///         return Ok(false);
///     }
///     let hop_count = packet.mhdr.hop_count + 1;
///     set_hop_count(frame, hop_count, signing)?;
///     Ok(true)
/// }
///
/// // An event of nothing.
/// let signing = Key::null();
/// let mut frame = *b"\xf0\0\0\0\0\0\0\0\0\0\0\0\0";
/// assert_eq!(pass_on(&mut frame, &signing), Ok(false));
/// assert_eq!(frame[0], 0xf0);
/// let mut packet = MeshPacket::from_slice(&frame)?;
/// packet.set_mic(&signing)?;
/// let mut frame = packet.to_vec()?;
/// assert_eq!(pass_on(&mut frame, &signing), Ok(true));
/// assert_eq!(frame[0], 0xf1);
/// assert!(MeshPacket::from_slice(&frame)?.validate_mic(&signing)?);
/// # Ok::<(), Refusal>(())
/// ```
pub fn set_hop_count(frame: &mut [u8], hop_count: u8, key: &Key) -> Result<(), Refusal> {
    raw::set_hop_count(key.bytes(), frame, hop_count)
}
