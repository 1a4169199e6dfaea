//! The items of events and commands, read and composed, and heartbeats.
use crate::fields::RelayPath;
use crate::raw;
use crate::raw::{At, Counts, Lent};
use crate::sys::{MESH_CUT, MESH_ITEM_HEARTBEAT, MESH_ITEM_PATH, MESH_ITEM_PROPRIETARY, MESH_KEPT, MESH_SKIPPED};
use crate::Refusal;
use crate::{part, PATH_MOST};

/// What a clear payload holds. The three byte counts sum to its length.
#[derive(Clone, Copy, Debug, PartialEq, Eq, Hash, Default)]
pub struct Opening {
    /// Items that are kept.
    pub kept: usize,
    /// Heartbeats whose length is no heartbeat's.
    pub skipped: usize,
    /// The bytes of the kept items.
    pub kept_bytes: usize,
    /// The bytes of the skipped items.
    pub skipped_bytes: usize,
    /// The bytes of an item that the payload's end cuts.
    pub cut_bytes: usize,
    /// Whether nothing was skipped or cut and no path entry has odd bits ([`RelayPath::odd`](crate::RelayPath::odd)). This is so exactly where writing
    /// the kept items gives the payload back, byte for byte. A command has no path entries.
    pub clean: bool,
}

impl Opening {
    pub(crate) fn of(c: Counts) -> Self {
        Opening {
            kept: c.kept as usize,
            skipped: c.skipped as usize,
            kept_bytes: c.kept_bytes as usize,
            skipped_bytes: c.skipped_bytes as usize,
            cut_bytes: c.cut_bytes as usize,
            clean: c.clean,
        }
    }
}

// ---- reading

/// The value of a heartbeat, a path of relays, in the payload that holds it.
#[derive(Clone, Copy, Debug, PartialEq, Eq)]
pub struct Heartbeat<'a> {
    value: &'a [u8],
    entries: usize,
}

impl<'a> Heartbeat<'a> {
    /// The heartbeat of a value; [`Refusal::ItemLong`], [`Refusal::HeartbeatLength`].
    pub fn from_slice(value: &'a [u8]) -> Result<Self, Refusal> {
        // So many places are enough for any value that is no item too long.
        let entries = raw::heartbeat(value, PATH_MOST as u64)? as usize;
        Ok(Heartbeat { value, entries })
    }

    /// The entries of its path.
    pub fn len(&self) -> usize {
        self.entries
    }

    /// Whether the path is empty.
    pub fn is_empty(&self) -> bool {
        self.entries == 0
    }

    /// One entry, from 0; [`Refusal::Outside`].
    pub fn entry(&self, i: usize) -> Result<RelayPath, Refusal> {
        raw::heartbeat_entry(self.value, i as u64).map(RelayPath::of)
    }

    /// The entries in turn.
    pub fn iter(&self) -> impl Iterator<Item = RelayPath> + 'a {
        let heartbeat = *self;
        (0..heartbeat.entries).map_while(move |i| heartbeat.entry(i).ok())
    }

    /// The path, allocated.
    pub fn relay_path(&self) -> Vec<RelayPath> {
        self.iter().collect()
    }

    /// The path, at the front of a lent list; [`Refusal::OutputShort`]. The answer is how many entries.
    pub fn read_into(&self, list: &mut [RelayPath]) -> Result<usize, Refusal> {
        let entries = raw::heartbeat(self.value, list.len() as u64)? as usize;
        for (place, entry) in list.iter_mut().zip(self.iter()) {
            *place = entry;
        }
        Ok(entries)
    }

    /// Its bytes.
    pub fn as_slice(&self) -> &'a [u8] {
        self.value
    }
}

/// An item that is kept, in the payload that holds it.
#[derive(Clone, Copy, Debug, PartialEq, Eq)]
pub enum Kept<'a> {
    /// Tag 0 of an event.
    Heartbeat(Heartbeat<'a>),
    /// Tag and value of any other.
    Proprietary(u8, &'a [u8]),
}

impl Kept<'_> {
    /// The item of an event, with its own bytes. Composed again it is written as it stood, but for the odd bits of a path, which are 0.
    pub fn to_item(&self) -> Item {
        match self {
            Kept::Heartbeat(h) => Item::Heartbeat(h.relay_path()),
            Kept::Proprietary(tag, value) => Item::Proprietary(*tag, value.to_vec()),
        }
    }

    /// The item of a command, with its own bytes. Composed again it is written as it stood. A heartbeat is none of a command's:
    /// [`Refusal::TypeLarge`].
    pub fn to_command(&self) -> Result<Command, Refusal> {
        match self {
            Kept::Heartbeat(_) => Err(Refusal::TypeLarge),
            Kept::Proprietary(tag, value) => Ok(Command::Proprietary(*tag, value.to_vec())),
        }
    }
}

/// What stands at a place of a clear payload.
#[derive(Clone, Copy, Debug, PartialEq, Eq)]
pub enum Found<'a> {
    /// An item.
    Kept(Kept<'a>),
    /// The value of a heartbeat whose length is none. Reading goes on behind it.
    Skipped(&'a [u8]),
    /// All of an item that the payload's end cuts. Nothing follows.
    Cut(&'a [u8]),
}

/// The items of a clear payload in turn.
#[derive(Clone, Debug)]
pub struct Items<'a> {
    is_event: bool,
    payload: &'a [u8],
    at: u64,
    opening: Opening,
}

impl<'a> Items<'a> {
    /// Those of an event; [`Refusal::FrameLong`].
    pub fn of_event(payload: &'a [u8]) -> Result<Self, Refusal> {
        Items::new(true, payload)
    }

    /// Those of a command, which has no heartbeats; [`Refusal::FrameLong`].
    pub fn of_command(payload: &'a [u8]) -> Result<Self, Refusal> {
        Items::new(false, payload)
    }

    fn new(is_event: bool, payload: &'a [u8]) -> Result<Self, Refusal> {
        let opening = Opening::of(raw::count(is_event, payload)?);
        Ok(Items { is_event, payload, at: 0, opening })
    }

    /// What all of the payload holds.
    pub fn opening(&self) -> Opening {
        self.opening
    }

    fn found(&self, item: &At) -> Result<Option<Found<'a>>, Refusal> {
        let value = part(self.payload, item.start, item.len)?;
        Ok(match item.found {
            MESH_KEPT if item.kind == MESH_ITEM_HEARTBEAT => Some(Found::Kept(Kept::Heartbeat(Heartbeat::from_slice(value)?))),
            MESH_KEPT => Some(Found::Kept(Kept::Proprietary(item.tag, value))),
            MESH_SKIPPED => Some(Found::Skipped(value)),
            MESH_CUT => Some(Found::Cut(value)),
            _ => None,
        })
    }
}

impl<'a> Iterator for Items<'a> {
    type Item = Found<'a>;

    fn next(&mut self) -> Option<Found<'a>> {
        // The one refusal of an item is the payload's length, which `new` has met.
        let item = raw::item(self.is_event, self.payload, self.at).ok()?;
        self.at = item.next;
        self.found(&item).ok()?
    }
}

// ---- composing

/// An item of an event that a caller composes.
#[derive(Clone, Debug, PartialEq, Eq)]
pub enum Item {
    /// A path of at most 42 entries.
    Heartbeat(Vec<RelayPath>),
    /// A tag and a value of at most 255 bytes. Tag 0 is a heartbeat's: its value must be a path's bytes.
    Proprietary(u8, Vec<u8>),
}

/// The name that chirpstack-gateway-mesh has for it.
pub type Event = Item;

/// An item of a command that a caller composes. A command has no heartbeats.
#[derive(Clone, Debug, PartialEq, Eq)]
pub enum Command {
    /// A tag and a value of at most 255 bytes.
    Proprietary(u8, Vec<u8>),
}

impl Item {
    /// Writes it alone at the front of a lent slice, as it stands in a payload: tag, length and value. The answer is how many bytes. A bad
    /// entry comes first, then [`Refusal::ItemLong`], [`Refusal::HeartbeatLength`], [`Refusal::OutputShort`].
    pub fn write(&self, out: &mut [u8]) -> Result<usize, Refusal> {
        match self {
            Item::Heartbeat(path) => raw::item_write(true, MESH_ITEM_HEARTBEAT, 0, &heartbeat_to_vec(path)?, out),
            Item::Proprietary(tag, value) => raw::item_write(true, MESH_ITEM_PROPRIETARY, *tag, value, out),
        }
    }

    /// What [`Item::write`] writes, allocated.
    pub fn encode(&self) -> Result<Vec<u8>, Refusal> {
        encoded(|out| self.write(out))
    }
}

impl Command {
    /// Writes it alone at the front of a lent slice, as [`Item::write`]; [`Refusal::ItemLong`], [`Refusal::OutputShort`].
    pub fn write(&self, out: &mut [u8]) -> Result<usize, Refusal> {
        match self {
            Command::Proprietary(tag, value) => raw::item_write(false, MESH_ITEM_PROPRIETARY, *tag, value, out),
        }
    }

    /// What [`Command::write`] writes, allocated.
    pub fn encode(&self) -> Result<Vec<u8>, Refusal> {
        encoded(|out| self.write(out))
    }
}

fn encoded(write: impl FnOnce(&mut [u8]) -> Result<usize, Refusal>) -> Result<Vec<u8>, Refusal> {
    // Tag, length and the longest value.
    let mut out = vec![0; 2 + crate::ITEM_MOST];
    let length = write(&mut out)?;
    out.truncate(length);
    Ok(out)
}

/// The lists that composed items are lent in.
#[derive(Default)]
pub(crate) struct Lists {
    kinds: Vec<[u8; 2]>,
    spans: Vec<[u32; 2]>,
    values: Vec<u8>,
    ids: Vec<u32>,
    rssis: Vec<i16>,
    snrs: Vec<i8>,
}

// Places and lengths over 32 bits stand in payloads that are refused as too long, wherever they point.
fn narrow(n: usize) -> u32 {
    u32::try_from(n).unwrap_or(u32::MAX)
}

impl Lists {
    fn path(&mut self, path: &[RelayPath]) {
        self.kinds.push([MESH_ITEM_PATH, 0]);
        self.spans.push([narrow(self.ids.len()), narrow(path.len())]);
        self.ids.extend(path.iter().map(|p| p.relay_id.number()));
        self.rssis.extend(path.iter().map(|p| p.rssi));
        self.snrs.extend(path.iter().map(|p| p.snr));
    }

    fn value(&mut self, tag: u8, value: &[u8]) {
        // One byte over the most is refused as any more are, and need not be copied.
        let value = value.get(..crate::ITEM_MOST + 1).unwrap_or(value);
        self.kinds.push([MESH_ITEM_PROPRIETARY, tag]);
        self.spans.push([narrow(self.values.len()), narrow(value.len())]);
        self.values.extend_from_slice(value);
    }

    /// They, and the frame that a payload may lie in instead.
    pub(crate) fn lent<'b>(&'b self, frame: &'b [u8]) -> Lent<'b> {
        Lent { frame, work: &self.values, kinds: &self.kinds, spans: &self.spans, ids: &self.ids, rssis: &self.rssis, snrs: &self.snrs }
    }
}

pub(crate) trait Composed {
    fn lay(&self, lists: &mut Lists);
}

impl Composed for Item {
    fn lay(&self, lists: &mut Lists) {
        match self {
            Item::Heartbeat(path) => lists.path(path),
            Item::Proprietary(tag, value) => lists.value(*tag, value),
        }
    }
}

impl Composed for Command {
    fn lay(&self, lists: &mut Lists) {
        match self {
            Command::Proprietary(tag, value) => lists.value(*tag, value),
        }
    }
}

/// The value of a heartbeat of a path, at the front of a lent slice: how many bytes, or the first bad entry, [`Refusal::ItemLong`],
/// [`Refusal::OutputShort`].
pub fn write_heartbeat(path: &[RelayPath], out: &mut [u8]) -> Result<usize, Refusal> {
    let mut lists = Lists::default();
    lists.path(path);
    raw::heartbeat_write(&lists.ids, &lists.rssis, &lists.snrs, out)
}

/// What [`write_heartbeat`] writes, allocated.
pub fn heartbeat_to_vec(path: &[RelayPath]) -> Result<Vec<u8>, Refusal> {
    let mut out = vec![0; crate::ITEM_MOST];
    let length = write_heartbeat(path, &mut out)?;
    out.truncate(length);
    Ok(out)
}
