//! The names that the Rust uses of crate `cmac`, over OpenSSL's own CMAC.
use aes::cipher::InvalidLength;
pub use aes::cipher::KeyInit;
use std::ffi::{c_int, c_uchar, c_void};
use std::marker::PhantomData;
use std::ptr;

#[link(name = "crypto")]
extern "C" {
    fn CMAC_CTX_new() -> *mut c_void;
    fn CMAC_CTX_free(ctx: *mut c_void);
    fn CMAC_Init(ctx: *mut c_void, key: *const c_uchar, len: usize, cipher: *const c_void, engine: *mut c_void) -> c_int;
    fn CMAC_Update(ctx: *mut c_void, data: *const c_uchar, len: usize) -> c_int;
    fn CMAC_Final(ctx: *mut c_void, out: *mut c_uchar, len: *mut usize) -> c_int;
    fn EVP_aes_128_cbc() -> *const c_void;
}

pub struct Cmac<C> {
    ctx: *mut c_void,
    of: PhantomData<C>,
}

impl KeyInit for Cmac<aes::Aes128> {
    fn new_from_slice(key: &[u8]) -> Result<Self, InvalidLength> {
        if key.len() != 16 {
            return Err(InvalidLength);
        }
        unsafe {
            let ctx = CMAC_CTX_new();
            assert!(!ctx.is_null(), "CMAC_CTX_new");
            let it = Cmac { ctx, of: PhantomData };
            assert!(CMAC_Init(ctx, key.as_ptr(), 16, EVP_aes_128_cbc(), ptr::null_mut()) == 1, "CMAC_Init");
            Ok(it)
        }
    }
}

pub trait Mac {
    fn update(&mut self, data: &[u8]);
    fn finalize(self) -> Tag;
}

pub struct Tag([u8; 16]);

impl Tag {
    pub fn into_bytes(self) -> [u8; 16] {
        self.0
    }
}

impl Mac for Cmac<aes::Aes128> {
    fn update(&mut self, data: &[u8]) {
        unsafe { assert!(CMAC_Update(self.ctx, data.as_ptr(), data.len()) == 1, "CMAC_Update") }
    }

    fn finalize(self) -> Tag {
        let mut tag = [0; 16];
        let mut n = 0;
        unsafe { assert!(CMAC_Final(self.ctx, tag.as_mut_ptr(), &mut n) == 1, "CMAC_Final") }
        assert!(n == 16, "CMAC_Final gave {n} bytes");
        Tag(tag)
    }
}

impl<C> Drop for Cmac<C> {
    fn drop(&mut self) {
        unsafe { CMAC_CTX_free(self.ctx) }
    }
}
