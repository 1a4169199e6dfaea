//! The names that the Rust uses of crate `aes` 0.9, over OpenSSL's AES-128 in ECB mode, a block at a time.
use std::ffi::{c_int, c_uchar, c_void};
use std::ptr;

pub const BACKEND: &str = "openssl";

pub type Block = [u8; 16];

#[link(name = "crypto")]
extern "C" {
    fn EVP_CIPHER_CTX_new() -> *mut c_void;
    fn EVP_CIPHER_CTX_free(ctx: *mut c_void);
    fn EVP_CIPHER_CTX_set_padding(ctx: *mut c_void, pad: c_int) -> c_int;
    fn EVP_aes_128_ecb() -> *const c_void;
    fn EVP_EncryptInit_ex(ctx: *mut c_void, cipher: *const c_void, engine: *mut c_void, key: *const c_uchar, iv: *const c_uchar) -> c_int;
    fn EVP_EncryptUpdate(ctx: *mut c_void, out: *mut c_uchar, len: *mut c_int, data: *const c_uchar, n: c_int) -> c_int;
}

pub struct Aes128(*mut c_void);

#[derive(Debug)]
pub struct InvalidLength;

pub mod cipher {
    pub use crate::InvalidLength;

    pub trait KeyInit: Sized {
        fn new_from_slice(key: &[u8]) -> Result<Self, InvalidLength>;
    }

    pub trait BlockCipherEncrypt {
        fn encrypt_block(&self, block: &mut crate::Block);
    }
}

impl cipher::KeyInit for Aes128 {
    fn new_from_slice(key: &[u8]) -> Result<Self, InvalidLength> {
        if key.len() != 16 {
            return Err(InvalidLength);
        }
        unsafe {
            let ctx = EVP_CIPHER_CTX_new();
            assert!(!ctx.is_null(), "EVP_CIPHER_CTX_new");
            let it = Aes128(ctx);
            assert!(EVP_EncryptInit_ex(ctx, EVP_aes_128_ecb(), ptr::null_mut(), key.as_ptr(), ptr::null()) == 1, "EVP_EncryptInit_ex");
            assert!(EVP_CIPHER_CTX_set_padding(ctx, 0) == 1, "EVP_CIPHER_CTX_set_padding");
            Ok(it)
        }
    }
}

impl cipher::BlockCipherEncrypt for Aes128 {
    fn encrypt_block(&self, block: &mut Block) {
        let clear = *block;
        let mut n: c_int = 0;
        unsafe {
            assert!(EVP_EncryptUpdate(self.0, block.as_mut_ptr(), &mut n, clear.as_ptr(), 16) == 1, "EVP_EncryptUpdate");
        }
        assert!(n == 16, "EVP_EncryptUpdate gave {n} bytes");
    }
}

impl Drop for Aes128 {
    fn drop(&mut self) {
        unsafe { EVP_CIPHER_CTX_free(self.0) }
    }
}
