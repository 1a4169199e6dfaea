//! The protocol's words: numbers, hex and packets, read and written.
use std::io::Write;
use std::time::{Duration, SystemTime, UNIX_EPOCH};

use crate::answers::Stop;
use crate::packets::*;

type Read<T> = Result<T, Stop>;

pub struct Words<'a> {
    rest: Option<&'a [u8]>,
    pub raw: bool,
}

fn cut(b: &[u8], at: u8) -> (&[u8], Option<&[u8]>) {
    match b.iter().position(|c| *c == at) {
        Some(k) => (&b[..k], Some(&b[k + 1..])),
        None => (b, None),
    }
}

impl<'a> Words<'a> {
    pub fn of(line: &'a [u8]) -> Self {
        Words { rest: Some(line), raw: false }
    }

    pub fn more(&self) -> bool {
        self.rest.is_some()
    }

    pub fn word(&mut self) -> Read<&'a [u8]> {
        let (word, rest) = cut(self.rest.ok_or(Stop::Bad("a word is missing"))?, b' ');
        self.rest = rest;
        if word.is_empty() {
            return Err(Stop::Bad("an empty word"));
        }
        Ok(word)
    }

    /// all that is left, spaces and all
    pub fn text(&mut self) -> &'a [u8] {
        self.rest.take().unwrap_or_default()
    }

    pub fn end(&self) -> Read<()> {
        if self.more() { Err(Stop::Bad("a word too many")) } else { Ok(()) }
    }

    pub fn number<T: std::str::FromStr>(&mut self) -> Read<T> {
        number(self.word()?)
    }

    pub fn hex(&mut self) -> Read<Vec<u8>> {
        let word = self.word()?;
        if word == b"-" { Ok(Vec::new()) } else { unhex(word) }
    }

    pub fn bytes<const N: usize>(&mut self) -> Read<[u8; N]> {
        self.hex()?.try_into().map_err(|_| Stop::Bad("hex of the wrong size"))
    }

    pub fn kind(&mut self) -> Read<PayloadType> {
        kind(self.word()?)
    }

    /// event or command: true for the latter
    pub fn is_command(&mut self) -> Read<bool> {
        match self.kind()? {
            PayloadType::Event => Ok(false),
            PayloadType::Command => Ok(true),
            _ => Err(Stop::Bad("event or command")),
        }
    }

    pub fn mesh(&mut self) -> Read<MeshPacket> {
        match self.packet()? {
            Packet::Mesh(p) => Ok(p),
            Packet::Lora(_) => Err(Stop::Bad("no mesh packet")),
        }
    }

    pub fn packet(&mut self) -> Read<Packet> {
        let word = self.word()?;
        if word == b"lora" {
            return Ok(Packet::Lora(self.hex()?));
        }
        let of = kind(word)?;
        let (first, second) = cut(self.word()?, b'@');
        let (payload_type, hop_count) = match second {
            Some(hops) => (kind(first)?, number(hops)?),
            None => (of, number(first)?),
        };
        let payload = match of {
            PayloadType::Uplink => {
                Payload::Uplink(UplinkPayload { metadata: self.up_meta()?, relay_id: self.bytes()?, phy_payload: self.hex()? })
            }
            PayloadType::Downlink => {
                Payload::Downlink(DownlinkPayload { metadata: self.down_meta()?, relay_id: self.bytes()?, phy_payload: self.hex()? })
            }
            PayloadType::Event => {
                Payload::Event(EventPayload { timestamp: at(self.number()?), relay_id: self.bytes()?, events: self.events()? })
            }
            PayloadType::Command => {
                Payload::Command(CommandPayload { timestamp: at(self.number()?), relay_id: self.bytes()?, commands: self.commands()? })
            }
        };
        let mic = match self.word()? {
            b"none" => None,
            word => Some(sized(word)?),
        };
        Ok(Packet::Mesh(MeshPacket { mhdr: MHDR { payload_type, hop_count }, payload, mic }))
    }

    pub fn up_meta(&mut self) -> Read<UplinkMetadata> {
        Ok(UplinkMetadata {
            uplink_id: self.number()?,
            dr: self.number()?,
            rssi: self.number()?,
            snr: self.number()?,
            channel: self.number()?,
        })
    }

    pub fn down_meta(&mut self) -> Read<DownlinkMetadata> {
        Ok(DownlinkMetadata {
            uplink_id: self.number()?,
            dr: self.number()?,
            frequency: self.number()?,
            tx_power: self.number()?,
            delay: self.number()?,
        })
    }

    /// the parts of a BODY: none, a sealed run, or each item's name and value
    fn body<T>(&mut self, sealed: impl Fn(Vec<u8>) -> T, item: impl Fn(&[u8], &[u8]) -> Read<T>) -> Read<Vec<T>> {
        let word = self.word()?;
        if word == b"empty" {
            return Ok(Vec::new());
        }
        if let Some(run) = word.strip_prefix(b"sealed:") {
            let run = unhex(run)?;
            // a sealed run of no bytes counts as empty
            return Ok(if run.is_empty() && !self.raw { Vec::new() } else { vec![sealed(run)] });
        }
        let Some(list) = word.strip_prefix(b"open:") else { return Err(Stop::Bad("empty, sealed: or open:")) };
        if list.is_empty() {
            return Ok(Vec::new());
        }
        list.split(|c| *c == b',')
            .map(|one| {
                let (name, value) = named(one)?;
                if name == b"sealed" && !self.raw { Err(Stop::Bad("a mixture")) } else { item(name, value) }
            })
            .collect()
    }

    fn events(&mut self) -> Read<Vec<Event>> {
        self.body(Event::Encrypted, event)
    }

    fn commands(&mut self) -> Read<Vec<Command>> {
        self.body(Command::Encrypted, command)
    }

    /// a payload of one item, which may be a sealed one
    pub fn item(&mut self, is_command: bool) -> Read<Payload> {
        let (name, value) = named(self.word()?)?;
        let (timestamp, relay_id) = (at(0), [0; 4]);
        Ok(if is_command {
            Payload::Command(CommandPayload { timestamp, relay_id, commands: vec![command(name, value)?] })
        } else {
            Payload::Event(EventPayload { timestamp, relay_id, events: vec![event(name, value)?] })
        })
    }
}

fn named(item: &[u8]) -> Read<(&[u8], &[u8])> {
    let (name, value) = cut(item, b'=');
    Ok((name, value.ok_or(Stop::Bad("an item without ="))?))
}

fn event(name: &[u8], value: &[u8]) -> Read<Event> {
    Ok(match name {
        b"sealed" => Event::Encrypted(unhex(value)?),
        b"hb" => Event::Heartbeat(HeartbeatPayload { relay_path: path(value)? }),
        _ => Event::Proprietary((number(name)?, unhex(value)?)),
    })
}

fn command(name: &[u8], value: &[u8]) -> Read<Command> {
    Ok(match name {
        b"sealed" => Command::Encrypted(unhex(value)?),
        _ => Command::Proprietary((number(name)?, unhex(value)?)),
    })
}

pub fn kind(word: &[u8]) -> Read<PayloadType> {
    match word {
        b"up" => Ok(PayloadType::Uplink),
        b"down" => Ok(PayloadType::Downlink),
        b"event" => Ok(PayloadType::Event),
        b"command" => Ok(PayloadType::Command),
        _ => Err(Stop::Bad("an unknown type")),
    }
}

pub fn number<T: std::str::FromStr>(word: &[u8]) -> Read<T> {
    let digits = word.strip_prefix(b"-").unwrap_or(word);
    if digits.is_empty() || !digits.iter().all(u8::is_ascii_digit) {
        return Err(Stop::Bad("no number"));
    }
    std::str::from_utf8(word).ok().and_then(|t| t.parse().ok()).ok_or(Stop::Bad("a number outside its type"))
}

const fn digits() -> [u8; 256] {
    let mut t = [255u8; 256];
    let mut i = 0;
    while i < 10 {
        t[b'0' as usize + i] = i as u8;
        i += 1;
    }
    i = 0;
    while i < 6 {
        t[b'a' as usize + i] = 10 + i as u8;
        t[b'A' as usize + i] = 10 + i as u8;
        i += 1;
    }
    t
}

static DIGITS: [u8; 256] = digits();

pub fn unhex(text: &[u8]) -> Read<Vec<u8>> {
    if text.len() % 2 != 0 {
        return Err(Stop::Bad("an odd count of digits"));
    }
    let mut out = Vec::with_capacity(text.len() / 2);
    for pair in text.chunks_exact(2) {
        let (a, b) = (DIGITS[pair[0] as usize], DIGITS[pair[1] as usize]);
        if a > 15 || b > 15 {
            return Err(Stop::Bad("no hex digit"));
        }
        out.push(a << 4 | b);
    }
    Ok(out)
}

fn sized<const N: usize>(word: &[u8]) -> Read<[u8; N]> {
    unhex(word)?.try_into().map_err(|_| Stop::Bad("hex of the wrong size"))
}

pub fn entry(word: &[u8]) -> Read<RelayPath> {
    let mut parts = word.split(|c| *c == b'/');
    let mut next = || parts.next().ok_or(Stop::Bad("a path entry is RELAY/RSSI/SNR"));
    let one = RelayPath { relay_id: sized(next()?)?, rssi: number(next()?)?, snr: number(next()?)? };
    if parts.next().is_some() { Err(Stop::Bad("a path entry is RELAY/RSSI/SNR")) } else { Ok(one) }
}

pub fn path(word: &[u8]) -> Read<Vec<RelayPath>> {
    if word.is_empty() { Ok(Vec::new()) } else { word.split(|c| *c == b';').map(entry).collect() }
}

/// TYPE/ID/TIMESTAMP/RELAY
pub fn record(word: &[u8]) -> Read<crate::cache::PayloadCache> {
    let parts: Vec<&[u8]> = word.split(|c| *c == b'/').collect();
    let [of, id, timestamp, relay] = parts[..] else { return Err(Stop::Bad("a record is TYPE/ID/TIMESTAMP/RELAY")) };
    Ok(crate::cache::record(kind(of)?, number(id)?, number(timestamp)?, sized(relay)?))
}

pub fn at(seconds: u32) -> SystemTime {
    UNIX_EPOCH + Duration::from_secs(seconds.into())
}

pub fn seconds(t: SystemTime) -> u64 {
    t.duration_since(UNIX_EPOCH).unwrap().as_secs()
}

// ---- written

pub fn put(out: &mut Vec<u8>, text: std::fmt::Arguments) {
    out.write_fmt(text).unwrap();
}

macro_rules! say {
    ($out:expr, $($rest:tt)*) => { $crate::words::put($out, format_args!($($rest)*)) };
}
pub(crate) use say;

pub fn put_digits(out: &mut Vec<u8>, bytes: &[u8]) {
    out.reserve(bytes.len() * 2);
    for b in bytes {
        out.push(b"0123456789abcdef"[(b >> 4) as usize]);
        out.push(b"0123456789abcdef"[(b & 15) as usize]);
    }
}

pub fn put_hex(out: &mut Vec<u8>, bytes: &[u8]) {
    if bytes.is_empty() { out.push(b'-') } else { put_digits(out, bytes) }
}

pub fn name(t: PayloadType) -> &'static str {
    match t {
        PayloadType::Uplink => "up",
        PayloadType::Downlink => "down",
        PayloadType::Event => "event",
        PayloadType::Command => "command",
    }
}

pub fn put_up_meta(out: &mut Vec<u8>, m: &UplinkMetadata) {
    say!(out, "{} {} {} {} {}", m.uplink_id, m.dr, m.rssi, m.snr, m.channel);
}

pub fn put_down_meta(out: &mut Vec<u8>, m: &DownlinkMetadata) {
    say!(out, "{} {} {} {} {}", m.uplink_id, m.dr, m.frequency, m.tx_power, m.delay);
}

pub fn put_entry(out: &mut Vec<u8>, e: &RelayPath) {
    put_digits(out, &e.relay_id);
    say!(out, "/{}/{}", e.rssi, e.snr);
}

pub fn put_path(out: &mut Vec<u8>, path: &[RelayPath]) {
    for (i, e) in path.iter().enumerate() {
        if i > 0 {
            out.push(b';');
        }
        put_entry(out, e);
    }
}

enum Piece<'a> {
    Sealed(&'a [u8]),
    Path(&'a [RelayPath]),
    Value(u8, &'a [u8]),
}

fn put_body<'a>(out: &mut Vec<u8>, count: usize, piece: impl Fn(usize) -> Piece<'a>) {
    if count == 0 {
        return out.extend_from_slice(b"empty");
    }
    if let (1, Piece::Sealed(run)) = (count, piece(0)) {
        out.extend_from_slice(b"sealed:");
        return put_digits(out, run);
    }
    out.extend_from_slice(b"open:");
    for i in 0..count {
        if i > 0 {
            out.push(b',');
        }
        match piece(i) {
            Piece::Sealed(run) => {
                out.extend_from_slice(b"sealed=");
                put_digits(out, run);
            }
            Piece::Path(path) => {
                out.extend_from_slice(b"hb=");
                put_path(out, path);
            }
            Piece::Value(tag, value) => {
                say!(out, "{tag}=");
                put_digits(out, value);
            }
        }
    }
}

pub fn put_events(out: &mut Vec<u8>, events: &[Event]) {
    put_body(out, events.len(), |i| match &events[i] {
        Event::Encrypted(v) => Piece::Sealed(v),
        Event::Heartbeat(h) => Piece::Path(&h.relay_path),
        Event::Proprietary((t, v)) => Piece::Value(*t, v),
    })
}

pub fn put_commands(out: &mut Vec<u8>, commands: &[Command]) {
    put_body(out, commands.len(), |i| match &commands[i] {
        Command::Encrypted(v) => Piece::Sealed(v),
        Command::Proprietary((t, v)) => Piece::Value(*t, v),
    })
}

/// what follows type and hop count, without the MIC
pub fn put_payload(out: &mut Vec<u8>, p: &Payload) {
    match p {
        Payload::Uplink(p) => {
            put_up_meta(out, &p.metadata);
            out.push(b' ');
            put_digits(out, &p.relay_id);
            out.push(b' ');
            put_hex(out, &p.phy_payload);
        }
        Payload::Downlink(p) => {
            put_down_meta(out, &p.metadata);
            out.push(b' ');
            put_digits(out, &p.relay_id);
            out.push(b' ');
            put_hex(out, &p.phy_payload);
        }
        Payload::Event(p) => {
            say!(out, "{} ", seconds(p.timestamp));
            put_digits(out, &p.relay_id);
            out.push(b' ');
            put_events(out, &p.events);
        }
        Payload::Command(p) => {
            say!(out, "{} ", seconds(p.timestamp));
            put_digits(out, &p.relay_id);
            out.push(b' ');
            put_commands(out, &p.commands);
        }
    }
}

pub fn put_mesh(out: &mut Vec<u8>, p: &MeshPacket) {
    let of = match p.payload {
        Payload::Uplink(_) => PayloadType::Uplink,
        Payload::Downlink(_) => PayloadType::Downlink,
        Payload::Event(_) => PayloadType::Event,
        Payload::Command(_) => PayloadType::Command,
    };
    say!(out, "{} ", name(of));
    if p.mhdr.payload_type != of {
        say!(out, "{}@", name(p.mhdr.payload_type));
    }
    say!(out, "{} ", p.mhdr.hop_count);
    put_payload(out, &p.payload);
    out.push(b' ');
    match &p.mic {
        Some(mic) => put_digits(out, mic),
        None => out.extend_from_slice(b"none"),
    }
}

pub fn put_packet(out: &mut Vec<u8>, p: &Packet) {
    match p {
        Packet::Mesh(p) => put_mesh(out, p),
        Packet::Lora(b) => {
            out.extend_from_slice(b"lora ");
            put_hex(out, b);
        }
    }
}
