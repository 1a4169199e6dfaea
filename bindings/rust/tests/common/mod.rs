//! What several tests need.
#![allow(dead_code)]
use lemikanto::Key;

/// Bytes of hex digits; spaces do not count.
pub fn hex(text: &str) -> Vec<u8> {
    let digits: Vec<u32> = text.chars().filter(|c| *c != ' ').map(|c| c.to_digit(16).expect("a digit")).collect();
    digits.chunks(2).map(|pair| (pair[0] * 16 + pair[1]) as u8).collect()
}

pub fn block(text: &str) -> [u8; 16] {
    hex(text).try_into().expect("16 bytes")
}

pub fn root() -> Key {
    "000102030405060708090a0b0c0d0e0f".parse().expect("a key")
}

/// Numbers that look random and are the same in every run.
pub struct Lcg(pub u64);

impl Lcg {
    pub fn next(&mut self) -> u32 {
        self.0 = self.0.wrapping_mul(6_364_136_223_846_793_005).wrapping_add(1_442_695_040_888_963_407);
        (self.0 >> 33) as u32
    }

    /// 0 to most, both included.
    pub fn to(&mut self, most: u32) -> u32 {
        self.next() % (most + 1)
    }

    pub fn bytes(&mut self, len: usize) -> Vec<u8> {
        (0..len).map(|_| self.next() as u8).collect()
    }
}
