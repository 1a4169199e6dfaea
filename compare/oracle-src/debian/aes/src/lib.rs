//! The names that the Rust uses of crate `aes` 0.9, over Debian's crate `aes` 0.6.
use debians::cipher::{BlockCipher, NewBlockCipher, generic_array::GenericArray};

pub const BACKEND: &str = "debian";

pub type Block = [u8; 16];

pub struct Aes128(debians::Aes128);

#[derive(Debug)]
pub struct InvalidLength;

pub mod cipher {
    pub use crate::InvalidLength;

    pub trait KeyInit: Sized {
        fn new_from_slice(key: &[u8]) -> Result<Self, InvalidLength>;
    }

    pub trait BlockCipherEncrypt {
        fn encrypt_block(&self, block: &mut crate::Block);
    }
}

impl cipher::KeyInit for Aes128 {
    fn new_from_slice(key: &[u8]) -> Result<Self, InvalidLength> {
        if key.len() != 16 {
            return Err(InvalidLength);
        }
        Ok(Aes128(debians::Aes128::new(GenericArray::from_slice(key))))
    }
}

impl cipher::BlockCipherEncrypt for Aes128 {
    fn encrypt_block(&self, block: &mut Block) {
        self.0.encrypt_block(GenericArray::from_mut_slice(block));
    }
}
