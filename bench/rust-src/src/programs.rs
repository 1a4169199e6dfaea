//! Whole programs in turns, each from its start to its end, on lines of uplinks: standard input and output are files.
use crate::clock::of;
use crate::{frames, Row};
use std::fs::File;
use std::path::Path;
use std::process::Command;
use std::time::Instant;

const MOST: usize = 65536;
const RUNS: usize = 41;

/// So many lines of uplinks of one length as 64 KiB hold.
fn lines(length: usize) -> Vec<u8> {
    let ups: Vec<_> = (0..32u64).flat_map(|i| frames::uplinks_from(length, i)).collect();
    let mut text = Vec::new();
    for i in 0..MOST / (2 * length + 1) {
        text.extend_from_slice(&ups[i % ups.len()].hex);
        text.push(b'\n');
    }
    text
}

/// Microseconds.
fn run(words: &[&str], input: &Path, output: &Path) -> f64 {
    let (from, to) = (File::open(input).expect("input"), File::create(output).expect("output"));
    let mut command = Command::new(words[0]);
    command.args(&words[1..]).stdin(from).stdout(to);
    let start = Instant::now();
    let status = command.status().expect("a program");
    let took = start.elapsed();
    assert!(status.success(), "{words:?}: {status}");
    took.as_nanos() as f64 / 1000.0
}

pub fn measure(folder: &str, port: &[&str], rust: &[&str]) -> Vec<Row> {
    let at = |name: &str| Path::new(folder).join(name);
    let (input, ours, theirs) = (at("lines"), at("port.out"), at("rust.out"));
    let mut rows = Vec::new();
    for (what, length) in [
        ("no input at all", 0),
        ("64 KiB of uplinks of 14 bytes", 14),
        ("64 KiB of uplinks of 64 bytes", 64),
        ("64 KiB of uplinks of 255 bytes", 255),
    ] {
        std::fs::write(&input, if length == 0 { Vec::new() } else { lines(length) }).expect("the lines");
        let (mut port_times, mut rust_times) = (Vec::new(), Vec::new());
        for round in 0..RUNS {
            let mut turn = |port_now: bool| {
                if port_now {
                    port_times.push(run(port, &input, &ours));
                } else {
                    rust_times.push(run(rust, &input, &theirs));
                }
            };
            turn(round % 2 == 0);
            turn(round % 2 == 1);
            if round == 0 {
                let (a, b) = (std::fs::read(&ours).expect("output"), std::fs::read(&theirs).expect("output"));
                assert!(a == b && a.is_empty() == (length == 0), "the programs print different lines: {ours:?}, {theirs:?}");
                // the first start of each is not counted: it may have to come from the disk
                port_times.clear();
                rust_times.clear();
            }
        }
        rows.push(Row { what, at: length, both: of(port_times, rust_times) });
    }
    rows
}
