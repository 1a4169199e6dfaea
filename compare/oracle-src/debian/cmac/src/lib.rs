//! The names that the Rust uses of crate `cmac`: RFC 4493, section 2, over whatever `aes` stands beside it.
use aes::Aes128;
pub use aes::cipher::KeyInit;
use aes::cipher::{BlockCipherEncrypt, InvalidLength};

pub struct Cmac<C> {
    cipher: C,
    message: Vec<u8>,
}

impl KeyInit for Cmac<Aes128> {
    fn new_from_slice(key: &[u8]) -> Result<Self, InvalidLength> {
        Ok(Cmac { cipher: Aes128::new_from_slice(key)?, message: Vec::new() })
    }
}

pub trait Mac {
    fn update(&mut self, data: &[u8]);
    fn finalize(self) -> Tag;
}

pub struct Tag([u8; 16]);

impl Tag {
    pub fn into_bytes(self) -> [u8; 16] {
        self.0
    }
}

/// Section 2.3: one bit to the left, and Rb = 87 if a one left at the top.
fn doubled(block: [u8; 16]) -> [u8; 16] {
    let n = u128::from_be_bytes(block);
    ((n << 1) ^ if n >> 127 == 1 { 0x87 } else { 0 }).to_be_bytes()
}

impl Mac for Cmac<Aes128> {
    fn update(&mut self, data: &[u8]) {
        self.message.extend_from_slice(data);
    }

    fn finalize(self) -> Tag {
        let mut l = [0; 16];
        self.cipher.encrypt_block(&mut l);
        let k1 = doubled(l);
        let k2 = doubled(k1);
        let blocks = self.message.len().div_ceil(16).max(1);
        let mut x = [0u8; 16];
        for i in 0..blocks {
            let piece = &self.message[i * 16..self.message.len().min(i * 16 + 16)];
            for (to, from) in x.iter_mut().zip(piece) {
                *to ^= from;
            }
            if i == blocks - 1 {
                if piece.len() < 16 {
                    x[piece.len()] ^= 0x80;
                }
                let last = if piece.len() == 16 { k1 } else { k2 };
                for (to, from) in x.iter_mut().zip(last) {
                    *to ^= from;
                }
            }
            self.cipher.encrypt_block(&mut x);
        }
        Tag(x)
    }
}
