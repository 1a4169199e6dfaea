//! Keys, the cipher and the MIC.
use std::fmt;
use std::str::FromStr;

use crate::fields::RelayId;
use crate::raw;
use crate::sys::MESH_CIPHER_WORDS;
use crate::Refusal;

/// A key of 128 bits (`Aes128Key`). Its text is 32 digits; `Debug` does not show it, so that no log holds a key by accident.
#[derive(Clone, Copy, PartialEq, Eq)]
pub struct Key([u8; 16]);

impl Key {
    /// The key of sixteen zeros.
    pub fn null() -> Self {
        Key(raw::null_key())
    }

    /// The key of 16 bytes; [`Refusal::KeyLength`] of any other count.
    pub fn from_slice(b: &[u8]) -> Result<Self, Refusal> {
        raw::key(b).map(Key)
    }

    /// The key of these bytes.
    pub fn from_bytes(b: [u8; 16]) -> Self {
        Key(b)
    }

    /// Its bytes.
    pub fn to_bytes(&self) -> [u8; 16] {
        self.0
    }

    /// Its bytes.
    pub fn to_vec(&self) -> Vec<u8> {
        self.0.to_vec()
    }

    /// Its 32 digits, at the front of a lent slice; [`Refusal::OutputShort`].
    pub fn write_text(&self, out: &mut [u8]) -> Result<usize, Refusal> {
        raw::key_text(&self.0, out)?;
        Ok(Key::TEXT_LENGTH)
    }

    /// The digits of a key's text.
    pub const TEXT_LENGTH: usize = 32;

    /// What packets are signed and validated with, where this is the root key.
    pub fn signing_key(&self) -> Key {
        Key(raw::signing_key(&self.0))
    }

    /// What events and commands are sealed and opened with, where this is the root key.
    pub fn encryption_key(&self) -> Key {
        Key(raw::encryption_key(&self.0))
    }

    pub(crate) fn bytes(&self) -> &[u8; 16] {
        &self.0
    }
}

impl Default for Key {
    fn default() -> Self {
        Key::null()
    }
}

impl FromStr for Key {
    type Err = Refusal;

    /// The key of 32 digits in either case; [`Refusal::KeyLength`], [`Refusal::KeyDigit`].
    fn from_str(text: &str) -> Result<Self, Refusal> {
        raw::key_of_text(text.as_bytes()).map(Key)
    }
}

impl fmt::Display for Key {
    fn fmt(&self, f: &mut fmt::Formatter<'_>) -> fmt::Result {
        let mut text = [0; Key::TEXT_LENGTH];
        self.write_text(&mut text).map_err(|_| fmt::Error)?;
        f.write_str(std::str::from_utf8(&text).map_err(|_| fmt::Error)?)
    }
}

impl fmt::Debug for Key {
    fn fmt(&self, f: &mut fmt::Formatter<'_>) -> fmt::Result {
        f.write_str("Key(..)")
    }
}

/// The two keys that a receiver needs.
#[derive(Clone, Copy, Debug, PartialEq, Eq)]
pub struct Keys {
    /// What packets are signed with.
    pub signing: Key,
    /// What events and commands are sealed with.
    pub encryption: Key,
}

impl Keys {
    /// Those derived from a root key.
    pub fn from_root(root: &Key) -> Self {
        Keys { signing: root.signing_key(), encryption: root.encryption_key() }
    }
}

/// FIPS 197's cipher, made ready for a key once for many blocks.
#[derive(Clone)]
pub struct Cipher([u32; MESH_CIPHER_WORDS]);

impl Cipher {
    /// The cipher of a key.
    pub fn new(key: &Key) -> Self {
        Cipher(raw::prepare(key.bytes()))
    }

    /// Enciphers a block in place.
    pub fn encrypt_block(&self, block: &mut [u8; 16]) {
        raw::encipher(&self.0, block)
    }
}

impl fmt::Debug for Cipher {
    fn fmt(&self, f: &mut fmt::Formatter<'_>) -> fmt::Result {
        f.write_str("Cipher(..)")
    }
}

/// Enciphers a block in place.
pub fn encrypt_block(key: &Key, block: &mut [u8; 16]) {
    raw::encrypt_block(key.bytes(), block)
}

/// RFC 4493's MIC under a key that is made ready once for many messages.
#[derive(Clone, Debug)]
pub struct Cmac(Cipher);

impl Cmac {
    /// The MIC under a key.
    pub fn new(key: &Key) -> Self {
        Cmac(Cipher::new(key))
    }

    /// The tag of a message.
    pub fn tag(&self, message: &[u8]) -> [u8; 16] {
        raw::mac(&(self.0).0, message)
    }
}

/// RFC 4493's tag of a message.
pub fn cmac(key: &Key, message: &[u8]) -> [u8; 16] {
    raw::cmac(key.bytes(), message)
}

/// A payload of an event or a command sealed, or a sealed one opened; [`Refusal::FrameLong`].
pub fn encrypt_events_commands(key: &Key, is_command: bool, relay_id: RelayId, timestamp: u32, payload: &[u8]) -> Result<Vec<u8>, Refusal> {
    // A payload that is refused needs no room.
    let mut out = vec![0; payload.len().min(crate::PAYLOAD_MOST)];
    encrypt_events_commands_into(key, is_command, relay_id, timestamp, payload, &mut out)?;
    Ok(out)
}

/// The same at the front of a lent slice, as many bytes as the payload has; [`Refusal::FrameLong`], [`Refusal::OutputShort`].
pub fn encrypt_events_commands_into(
    key: &Key,
    is_command: bool,
    relay_id: RelayId,
    timestamp: u32,
    payload: &[u8],
    out: &mut [u8],
) -> Result<usize, Refusal> {
    raw::stream(key.bytes(), is_command, relay_id.number(), timestamp, payload, out)?;
    Ok(payload.len())
}

#[cfg(test)]
mod tests {
    use super::*;

    #[test]
    fn debug_shows_no_key() {
        let key = Key::from_bytes([0xab; 16]);
        assert_eq!(format!("{key:?}"), "Key(..)");
        assert_eq!(format!("{:?}", Cmac::new(&key)), "Cmac(Cipher(..))");
        assert_eq!(format!("{:?}", Keys::from_root(&key)), "Keys { signing: Key(..), encryption: Key(..) }");
        assert_eq!(key.to_string(), "ab".repeat(16));
    }
}
