//! What mesh-dump does, from the Rust: frames in hex from standard input, one a line, each printed as its `Display` has it. Only for the
//! lines that are timed: of other frames it prints nothing that can be compared.
use original::packets::Packet;
use std::io::{Read, Write};

fn main() {
    let mut input = Vec::new();
    std::io::stdin().lock().read_to_end(&mut input).expect("standard input");
    if input.is_empty() {
        return;
    }
    let mut out = std::io::BufWriter::with_capacity(1 << 16, std::io::stdout().lock());
    for line in input.strip_suffix(b"\n").unwrap_or(&input).split(|b| *b == b'\n') {
        let shown = match hex::decode(line).map(|frame| Packet::from_slice(&frame)) {
            Ok(Ok(Packet::Mesh(p))) => writeln!(out, "{p}"),
            Ok(Ok(Packet::Lora(b))) => writeln!(out, "lora {}", b.len()),
            _ => writeln!(out, "refused"),
        };
        shown.expect("standard output");
    }
    out.flush().expect("standard output");
}
