//! AES-128, CMAC and the key stream in a few lines, so that the maker of requests can seal and sign. Nothing is judged by them.

fn times2(b: u8) -> u8 {
    (b << 1) ^ if b > 127 { 0x1b } else { 0 }
}

fn s_box() -> [u8; 256] {
    // FIPS 197's inverse by the powers of 3 and of its inverse, then the affine rule
    let mut t = [0u8; 256];
    let (mut p, mut q) = (1u8, 1u8);
    loop {
        p ^= times2(p);
        q ^= q << 1;
        q ^= q << 2;
        q ^= q << 4;
        if q & 0x80 != 0 {
            q ^= 0x09;
        }
        t[p as usize] = q ^ q.rotate_left(1) ^ q.rotate_left(2) ^ q.rotate_left(3) ^ q.rotate_left(4) ^ 0x63;
        if p == 1 {
            break;
        }
    }
    t[0] = 0x63;
    t
}

pub struct Ciphers {
    s: [u8; 256],
}

pub struct Cipher<'a> {
    s: &'a [u8; 256],
    keys: [[u8; 16]; 11],
}

impl Ciphers {
    pub fn new() -> Self {
        Ciphers { s: s_box() }
    }

    pub fn under(&self, key: &[u8; 16]) -> Cipher<'_> {
        let mut keys = [*key; 11];
        let mut rcon = 1;
        for r in 1..11 {
            let k = keys[r - 1];
            let mut n = k;
            for i in 0..4 {
                n[i] ^= self.s[k[12 + (i + 1) % 4] as usize];
            }
            n[0] ^= rcon;
            for i in 4..16 {
                n[i] ^= n[i - 4];
            }
            keys[r] = n;
            rcon = times2(rcon);
        }
        Cipher { s: &self.s, keys }
    }
}

impl Cipher<'_> {
    pub fn block(&self, clear: [u8; 16]) -> [u8; 16] {
        let mut x = clear;
        for i in 0..16 {
            x[i] ^= self.keys[0][i];
        }
        for r in 1..11 {
            let mut y = [0; 16];
            for i in 0..16 {
                y[i] = self.s[x[(i + 4 * (i % 4)) % 16] as usize];
            }
            if r < 10 {
                for c in 0..4 {
                    let col = [y[4 * c], y[4 * c + 1], y[4 * c + 2], y[4 * c + 3]];
                    let all = col[0] ^ col[1] ^ col[2] ^ col[3];
                    for i in 0..4 {
                        y[4 * c + i] ^= all ^ times2(col[i] ^ col[(i + 1) % 4]);
                    }
                }
            }
            for i in 0..16 {
                x[i] = y[i] ^ self.keys[r][i];
            }
        }
        x
    }

    pub fn mic(&self, message: &[u8]) -> [u8; 4] {
        let double = |n: u128| (n << 1) ^ if n >> 127 == 1 { 0x87 } else { 0 };
        let k1 = double(u128::from_be_bytes(self.block([0; 16])));
        let mut x = 0u128;
        let last = message.len().max(1).div_ceil(16) - 1;
        for i in 0..=last {
            let piece = &message[i * 16..message.len().min(i * 16 + 16)];
            let mut b = [0u8; 16];
            b[..piece.len()].copy_from_slice(piece);
            if piece.len() < 16 {
                b[piece.len()] = 0x80;
            }
            x ^= u128::from_be_bytes(b);
            if i == last {
                x ^= if piece.len() == 16 { k1 } else { double(k1) };
            }
            x = u128::from_be_bytes(self.block(x.to_be_bytes()));
        }
        let b = x.to_be_bytes();
        [b[0], b[1], b[2], b[3]]
    }

    pub fn sealed(&self, is_command: bool, relay: &[u8], timestamp: &[u8], clear: &[u8]) -> Vec<u8> {
        let mut a = [0u8; 16];
        a[0] = 1;
        a[5] = is_command as u8;
        a[6..10].copy_from_slice(relay);
        a[10..14].copy_from_slice(timestamp);
        let mut out = clear.to_vec();
        for (i, piece) in out.chunks_mut(16).enumerate() {
            a[15] = (i + 1) as u8;
            for (to, from) in piece.iter_mut().zip(self.block(a)) {
                *to ^= from;
            }
        }
        out
    }
}
