//! The oracle: the Rust, unchanged, behind the line protocol of compare/PROTOCOL.md.
#[macro_use]
extern crate anyhow;

mod answers;
mod words;

#[allow(dead_code)]
#[path = "rust/aes128.rs"]
mod aes128;

#[allow(dead_code)]
#[path = "rust/packets.rs"]
mod packets;

mod cache {
    include!("rust/cache.rs");

    // Beside the Rust in its module, since a record's fields are seen only there.
    pub fn record(p_type: packets::PayloadType, uplink_id: u16, timestamp: u32, relay_id: [u8; 4]) -> PayloadCache {
        PayloadCache { p_type, uplink_id, timestamp, relay_id }
    }

    pub fn fields(r: &PayloadCache) -> (packets::PayloadType, u16, u32, [u8; 4]) {
        (r.p_type, r.uplink_id, r.timestamp, r.relay_id)
    }
}

use std::io::{Cursor, Read, Write};
use std::panic::{self, AssertUnwindSafe};
use std::process::exit;

/// The rules go by a Rust whose failed `read_exact` leaves the cursor at the end.
fn cursor_moves() -> bool {
    let bytes = [0u8; 3];
    let mut cur = Cursor::new(&bytes[..]);
    let mut one = [0; 1];
    let mut four = [0; 4];
    cur.read_exact(&mut one).is_ok() && cur.read_exact(&mut four).is_err() && cur.position() == 3
}

fn answer(line: &[u8], out: &mut Vec<u8>) {
    let start = out.len();
    let said = panic::catch_unwind(AssertUnwindSafe(|| answers::answer(line, out)));
    let text = match said {
        Ok(Ok(())) => None,
        Ok(Err(answers::Stop::Bad(t))) => Some(format!("bad {t}")),
        Ok(Err(answers::Stop::No(n))) => Some(format!("no {n}")),
        Ok(Err(answers::Stop::Unknown(t))) => Some(format!("panic an error that has no number: {}", t.replace('\n', " "))),
        Err(e) => {
            let text = e.downcast_ref::<&str>().map(|t| t.to_string()).or_else(|| e.downcast_ref::<String>().cloned());
            Some(format!("panic {}", text.unwrap_or_default().replace('\n', " ")))
        }
    };
    if let Some(text) = text {
        out.truncate(start);
        out.extend_from_slice(text.as_bytes());
    }
    out.push(b'\n');
}

fn give(out: &mut Vec<u8>) {
    let mut to = std::io::stdout().lock();
    // whoever asked has gone
    if to.write_all(out).and_then(|_| to.flush()).is_err() {
        exit(0);
    }
    out.clear();
}

fn main() {
    if !cursor_moves() {
        eprintln!("oracle: this Rust release leaves the cursor in place when read_exact fails; the rules go by a newer one");
        exit(3);
    }
    panic::set_hook(Box::new(|_| {}));

    let mut input = std::io::stdin().lock();
    let mut held: Vec<u8> = Vec::new(); // what was read and is not answered yet: no newline before `seen`
    let mut seen = 0;
    let mut out: Vec<u8> = Vec::new();
    let mut chunk = vec![0u8; 1 << 16];
    loop {
        let n = match input.read(&mut chunk) {
            Ok(n) => n,
            Err(e) if e.kind() == std::io::ErrorKind::Interrupted => continue,
            Err(_) => 0,
        };
        if n == 0 {
            break;
        }
        held.extend_from_slice(&chunk[..n]);
        let mut start = 0;
        while let Some(k) = held[seen..].iter().position(|b| *b == b'\n') {
            answer(&held[start..seen + k], &mut out);
            seen += k + 1;
            start = seen;
            if out.len() > 1 << 20 {
                give(&mut out);
            }
        }
        held.drain(..start);
        seen = held.len();
        // all lines that have come are answered: nothing waits for more input
        give(&mut out);
    }
    if !held.is_empty() {
        answer(&held, &mut out);
    }
    give(&mut out);
}
