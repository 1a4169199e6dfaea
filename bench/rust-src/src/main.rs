//! The port beside the Rust, in one process and in turns. bench/rust builds and runs it, once for each cipher that the Rust is given.
//!
//! beside calls CIPHER ROWS [PLOT]: every call at every length; one line a measure at the end of the file ROWS, and the plot.
//! beside programs ROWS FOLDER PORT.. -- RUST..: whole programs on 64 KiB of uplink lines, which are put in FOLDER.
mod clock;
mod equal;
mod frames;
mod plot;
mod port;
mod programs;
#[allow(clippy::all)]
mod sys;

use clock::{both, calls, prepared, Both};
use frames::mesh;
use original::aes128::Aes128Key;
use original::cache::{self, PayloadCache};
use original::packets::*;
use port::Lent;
use std::fmt::Write as _;
use std::hint::black_box;
use std::io::Write as _;

const LENGTHS: [usize; 10] = [14, 32, 64, 128, 255, 512, 1024, 2048, 4096, 8192];
const SIZES: [u32; 7] = [1, 2, 4, 8, 16, 32, 64];
const PASSES: usize = 3;

pub struct Row {
    pub what: &'static str,
    pub at: usize,
    pub both: Both,
}

/// At the end of the file: cipher, call, length or size, and of each side median and least.
pub fn keep(file: &str, cipher: &str, rows: &[Row]) {
    let mut to = std::fs::OpenOptions::new().create(true).append(true).open(file).expect("the file of rows");
    for Row { what, at, both: Both { port, rust } } in rows {
        writeln!(to, "{cipher}\t{what}\t{at}\t{:.2}\t{:.2}\t{:.2}\t{:.2}", port.median, port.least, rust.median, rust.least)
            .expect("a row");
    }
}

fn show(rows: &[Row], unit: &str) {
    let head = ["port", "Rust", "ratio", "port", "Rust", "ratio"];
    println!("{:34} {:>6}   {:>32}   {:>32}", format!("{unit} a call"), "at", "median", "least");
    println!("{:34} {:>6}   {:>12} {:>12} {:>6}   {:>12} {:>12} {:>6}", "", "", head[0], head[1], head[2], head[3], head[4], head[5]);
    for Row { what, at, both: Both { port, rust } } in rows {
        let (m, l) = (port.median / rust.median, port.least / rust.least);
        print!("{what:34} {at:6}   {:12.1} {:12.1} {m:6.2}", port.median, rust.median);
        println!("   {:12.1} {:12.1} {l:6.2}", port.least, rust.least);
    }
}

fn of_uplinks(length: usize, rows: &mut Vec<Row>) {
    let ups = frames::uplinks(length);
    equal::uplinks(&ups);
    let pick = |i: usize| black_box(&ups[i % frames::KINDS]);
    let keys: Vec<_> = ups.iter().map(|u| Aes128Key::from_bytes(u.key)).collect();
    let key = |i: usize| *black_box(&keys[i % frames::KINDS]);
    let mut row = |what, both| rows.push(Row { what, at: length, both });

    let mut packet = port::Packet::default();
    row(
        "read",
        both(calls(|i| port::read_into(black_box(&mut packet), &pick(i).frame)), calls(|i| Packet::from_slice(&pick(i).frame).unwrap())),
    );
    let (mut numbers, mut rssi, mut snr) = ([0; sys::MESH_PACKET_NUMBERS], 0, 0);
    row(
        "read, into numbers",
        both(
            calls(|i| port::read_numbers(&pick(i).frame, black_box(&mut numbers), black_box(&mut rssi), black_box(&mut snr))),
            calls(|i| Packet::from_slice(&pick(i).frame).unwrap()),
        ),
    );

    let ours: Vec<_> = ups.iter().map(|u| port::read(&u.frame)).collect();
    let theirs: Vec<_> = ups.iter().map(|u| Packet::from_slice(&u.frame).unwrap()).collect();
    let mut out = [0; port::FRAME_MOST];
    row(
        "write",
        both(
            calls(|i| port::write(black_box(&ours[i % frames::KINDS]), &Lent::frame(&pick(i).frame), black_box(&mut out))),
            calls(|i| black_box(&theirs[i % frames::KINDS]).to_vec().unwrap()),
        ),
    );
    row(
        "read and validate",
        both(
            calls(|i| {
                let up = pick(i);
                port::read_into(black_box(&mut packet), &up.frame);
                port::validate(&packet, &up.key, &Lent::frame(&up.frame))
            }),
            calls(|i| mesh(Packet::from_slice(&pick(i).frame).unwrap()).validate_mic(key(i)).unwrap()),
        ),
    );

    let mut held: Vec<_> = ups.iter().map(|u| u.frame.clone()).collect();
    row(
        "hop edit",
        both(
            calls(|i| port::set_hop_count(&pick(i).key, black_box(&mut held[i % frames::KINDS]), (i & 7) as u8 + 1)),
            calls(|i| {
                let mut p = mesh(Packet::from_slice(&pick(i).frame).unwrap());
                p.mhdr.hop_count = (i & 7) as u8 + 1;
                p.set_mic(key(i)).unwrap();
                p.to_vec().unwrap()
            }),
        ),
    );

    let mut text = String::new();
    let mut shown = |p: Packet| {
        text.clear();
        write!(text, "{}", mesh(p)).unwrap();
        black_box(&text);
    };
    row(
        "dump of a frame",
        both(
            calls(|i| port::dump_frame(&pick(i).frame, black_box(&mut out))),
            calls(|i| shown(Packet::from_slice(&pick(i).frame).unwrap())),
        ),
    );
    row(
        "dump of a line of hex",
        both(
            calls(|i| port::dump_line(&pick(i).hex, black_box(&mut out))),
            calls(|i| shown(Packet::from_slice(&hex::decode(&pick(i).hex).unwrap()).unwrap())),
        ),
    );
}

fn of_events(length: usize, rows: &mut Vec<Row>) {
    let all = frames::events(length);
    equal::events(&all);
    let pick = |i: usize| black_box(&all[i % frames::KINDS]);
    let keys: Vec<_> = all.iter().map(|t| Aes128Key::from_bytes(t.key)).collect();
    let packets: Vec<_> = all.iter().map(|t| port::read(&t.frame)).collect();
    let packet = |i: usize| black_box(&packets[i % frames::KINDS]);
    let mut out = [0; port::FRAME_MOST];
    // what is made ready stays in the nearest cache
    let at_once = (1 << 14) / length + 1;
    let mut row = |what, both| rows.push(Row { what, at: length, both });

    row(
        "seal a run of bytes",
        both(
            calls(|i| port::seal(packet(i), &pick(i).key, &Lent::frame(&pick(i).frame), black_box(&mut out))),
            prepared(at_once, |i| (all[i % frames::KINDS].sealed.clone(), keys[i % frames::KINDS]), |(p, key)| p.encrypt(*key).unwrap()),
        ),
    );
    if !all[0].kinds.is_empty() {
        row(
            "seal items",
            both(
                calls(|i| {
                    let told = pick(i);
                    port::seal(&told.composed, &told.key, &told.lent(), black_box(&mut out))
                }),
                prepared(at_once, |i| (all[i % frames::KINDS].open.clone(), keys[i % frames::KINDS]), |(p, key)| p.encrypt(*key).unwrap()),
            ),
        );
    }
    let ready = |i: usize| (all[i % frames::KINDS].sealed.clone(), keys[i % frames::KINDS]);
    row(
        "open",
        both(
            calls(|i| port::decrypt(packet(i), &pick(i).key, &pick(i).frame, black_box(&mut out))),
            prepared(at_once, ready, |(p, key)| p.decrypt(*key).unwrap()),
        ),
    );
    row(
        "open, and each item looked at",
        both(
            calls(|i| {
                let (counts, [_, start, n]) = port::decrypt(packet(i), &pick(i).key, &pick(i).frame, black_box(&mut out));
                let clear = &out[start as usize..][..n as usize];
                let mut at = 0;
                let mut sum = 0;
                for _ in 0..counts[0] {
                    let item = port::item(clear, at);
                    sum += item[2] + item[4];
                    at = item[5];
                }
                sum
            }),
            prepared(at_once, ready, |(p, key)| {
                p.decrypt(*key).unwrap();
                let Payload::Event(body) = &p.payload else { panic!("no event") };
                body.events.iter().map(|e| if let Event::Proprietary((tag, v)) = e { *tag as u64 + v.len() as u64 } else { 0 }).sum::<u64>()
            }),
        ),
    );
}

const RELAY: [u8; 4] = [10, 11, 12, 13];

fn of_caches(size: u32, rows: &mut Vec<Row>) {
    equal::caches(size);
    let mut row = |what, both| rows.push(Row { what, at: size as usize, both });
    let uplink = |id: u32| cache::record(PayloadType::Uplink, id as u16 & 4095, 0, black_box(RELAY));

    // a record is lent from where it stands, as `mesh_record` leaves one; ids go round in 4,096, of which the cache holds the last
    let mut known = [0, 0, 0, 0x0a0b0c0d];
    let (mut ours, mut theirs) = (port::Cache::new(size), cache::Cache::new(size as usize));
    let (mut a, mut b) = (0u32, 0u32);
    row(
        "new record, uplinks",
        both(
            calls(|_| {
                a += 1;
                known[1] = u64::from(a) & 4095;
                let is_new = ours.add(black_box(&known));
                assert!(is_new);
            }),
            calls(|_| {
                b += 1;
                let is_new = theirs.add(uplink(black_box(b)));
                assert!(is_new);
            }),
        ),
    );

    // the cache is full of 1 to size, size the newest
    let full = || {
        let (mut ours, mut theirs) = (port::Cache::new(size), cache::Cache::new(size as usize));
        for id in 1..=size {
            assert!(ours.add(&[0, id.into(), 0, 0x0a0b0c0d]) && theirs.add(uplink(id)));
        }
        (ours, theirs)
    };
    for (what, id) in [("hit, the oldest record", 1), ("hit, the newest record", size)] {
        let (mut ours, mut theirs) = full();
        let known = [0, id.into(), 0, 0x0a0b0c0d];
        row(
            what,
            both(
                calls(|_| {
                    let is_new = ours.add(black_box(&known));
                    assert!(!is_new);
                }),
                calls(|_| {
                    let is_new = theirs.add(uplink(black_box(id)));
                    assert!(!is_new);
                }),
            ),
        );
    }

    let mut known = [2, 0, 0, 0x0a0b0c0d];
    let (mut ours, mut theirs) = (port::Cache::new(size), cache::Cache::new(size as usize));
    let (mut a, mut b) = (0u32, 0u32);
    row(
        "new record, events",
        both(
            calls(|_| {
                a += 1;
                known[2] = u64::from(a);
                let is_new = ours.add(black_box(&known));
                assert!(is_new);
            }),
            calls(|_| {
                b += 1;
                let is_new = theirs.add(cache::record(PayloadType::Event, 0, black_box(b), black_box(RELAY)));
                assert!(is_new);
            }),
        ),
    );

    // from packets that were read, each of another id
    let frames: Vec<Vec<u8>> = (0..128u32)
        .map(|id| {
            let mut frame = vec![0xe0, (id >> 4) as u8, (id << 4) as u8, 80, 7, 2];
            frame.extend_from_slice(&RELAY);
            frame.extend_from_slice(&[0; 4]);
            frame
        })
        .collect();
    let packets: Vec<_> = frames.iter().map(|f| port::read(f)).collect();
    let read: Vec<_> = frames.iter().map(|f| mesh(Packet::from_slice(f).unwrap())).collect();
    let (mut ours, mut theirs) = (port::Cache::new(size), cache::Cache::new(size as usize));
    let (mut a, mut b) = (0usize, 0usize);
    row(
        "new record, from an uplink read",
        both(
            calls(|_| {
                a += 1;
                port::record_into(black_box(&packets[a & 127]), &mut known);
                let is_new = ours.add(&known);
                assert!(is_new);
            }),
            calls(|_| {
                b += 1;
                let is_new = theirs.add(PayloadCache::from(black_box(&read[b & 127])));
                assert!(is_new);
            }),
        ),
    );
}

fn pass() -> Vec<Row> {
    let mut rows = Vec::new();
    for length in LENGTHS {
        of_uplinks(length, &mut rows);
        of_events(length, &mut rows);
    }
    for size in SIZES {
        of_caches(size, &mut rows);
    }
    let held = port::Cache::new(64);
    let copy = || calls(|_| black_box(&held).0);
    rows.push(Row { what: "a copy of 195 words", at: 780, both: both(copy(), copy()) });
    rows
}

fn main() {
    let words: Vec<String> = std::env::args().collect();
    let words: Vec<&str> = words.iter().map(String::as_str).collect();
    match words[1..] {
        ["calls", cipher, file, ref plot @ ..] => {
            // a debug build, or Debian's cipher on AES instructions, would be no measure
            assert!(!cfg!(debug_assertions) && !cfg!(target_feature = "aes"), "not built as it should be");
            assert!(cipher.starts_with(aes::BACKEND), "built with {}", aes::BACKEND);
            let passes: Vec<Vec<Row>> = (0..PASSES).map(|_| pass()).collect();
            let rows: Vec<Row> = (0..passes[0].len())
                .map(|i| {
                    let each: Vec<Both> = passes.iter().map(|p| p[i].both).collect();
                    Row { what: passes[0][i].what, at: passes[0][i].at, both: clock::merged(&each) }
                })
                .collect();
            show(&rows, "ns");
            keep(file, cipher, &rows);
            if let [to] = plot {
                std::fs::write(to, plot::plot(&rows)).expect("the plot");
            }
        }
        ["programs", file, folder, ref rest @ ..] => {
            let cut = rest.iter().position(|w| *w == "--").expect("--");
            let rows = programs::measure(folder, &rest[..cut], &rest[cut + 1..]);
            show(&rows, "microseconds");
            keep(file, "program", &rows);
        }
        _ => {
            eprintln!("usage: beside calls CIPHER ROWS [PLOT] | beside programs ROWS FOLDER PORT.. -- RUST..");
            std::process::exit(2);
        }
    }
}
