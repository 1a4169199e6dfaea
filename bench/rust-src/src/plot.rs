//! Time against the frame's length, both axes logarithmic: a panel for each of four calls, with the port and the Rust.
use crate::Row;
use std::fmt::Write;

const PANELS: [&str; 4] = ["read", "write", "read and validate", "hop edit"];
const WIDE: f64 = 330.0;
const HIGH: f64 = 250.0;
const LEFT: f64 = 64.0;
const TOP: f64 = 78.0;
const ACROSS: f64 = 112.0;
const DOWN: f64 = 74.0;
/// Colour, dashes and name of each side.
const SIDES: [(&str, &str, &str); 2] = [("#0b5394", "", "port"), ("#b45f06", " stroke-dasharray=\"6 3\"", "Rust")];
/// How far apart two labels at the end of lines are at least.
const APART: f64 = 14.0;

fn time(ns: f64) -> String {
    if ns < 1e3 {
        format!("{ns} ns")
    } else if ns < 1e6 {
        format!("{} \u{b5}s", ns / 1e3)
    } else {
        format!("{} ms", ns / 1e6)
    }
}

pub fn plot(rows: &[Row]) -> String {
    let of = |what: &str| -> Vec<(f64, [f64; 2])> {
        rows.iter().filter(|r| r.what == what).map(|r| (r.at as f64, [r.both.port.least, r.both.rust.least])).collect()
    };
    let lengths: Vec<f64> = of(PANELS[0]).iter().map(|p| p.0).collect();
    let (from, to) = (lengths[0].log2(), lengths[lengths.len() - 1].log2());
    // the two panels of a row have the same scale
    let scales = [0, 1].map(|row| {
        let times = || PANELS[2 * row..][..2].iter().flat_map(|p| of(p)).flat_map(|p| p.1);
        (times().fold(f64::MAX, f64::min).log10().floor(), times().fold(f64::MIN, f64::max).log10().ceil())
    });
    let (width, height) = (LEFT + 2.0 * WIDE + 2.0 * ACROSS, TOP + 2.0 * HIGH + 2.0 * DOWN);

    let mut s = String::new();
    let _ = writeln!(
        s,
        "<svg xmlns=\"http://www.w3.org/2000/svg\" width=\"{width}\" height=\"{height}\" viewBox=\"0 0 {width} {height}\" \
         font-family=\"sans-serif\" font-size=\"12\">\n<rect width=\"{width}\" height=\"{height}\" fill=\"#fff\"/>\n\
         <text x=\"{LEFT}\" y=\"26\" font-size=\"16\">Time of a call against the frame's length (uplinks; least of all rounds)</text>\n\
         <text x=\"{LEFT}\" y=\"46\" fill=\"#444\">port: the proved library through its C face; Rust: the original over a software AES \
         (Debian's aes 0.6)</text>"
    );
    for (i, what) in PANELS.iter().enumerate() {
        let (low, high) = scales[i / 2];
        let x0 = LEFT + (i % 2) as f64 * (WIDE + ACROSS);
        let y0 = TOP + (i / 2) as f64 * (HIGH + DOWN);
        let x = |n: f64| x0 + (n.log2() - from) / (to - from) * WIDE;
        let y = |ns: f64| y0 + HIGH - (ns.log10() - low) / (high - low) * HIGH;
        let _ = writeln!(s, "<text x=\"{x0}\" y=\"{:.1}\" font-weight=\"bold\">{what}</text>", y0 - 8.0);
        for power in low as i32..=high as i32 {
            let (ns, at) = (10f64.powi(power), y(10f64.powi(power)));
            let _ = writeln!(s, "<path d=\"M{x0} {at:.1}h{WIDE}\" stroke=\"#ddd\"/>");
            let _ = writeln!(s, "<text x=\"{:.1}\" y=\"{:.1}\" text-anchor=\"end\" fill=\"#444\">{}</text>", x0 - 6.0, at + 4.0, time(ns));
        }
        for n in [14.0, 64.0, 255.0, 1024.0, 8192.0] {
            let (at, foot) = (x(n), y0 + HIGH);
            let _ = writeln!(s, "<path d=\"M{at:.1} {y0}V{:.1}\" stroke=\"#eee\"/>", foot + 4.0);
            let _ = writeln!(s, "<text x=\"{at:.1}\" y=\"{:.1}\" text-anchor=\"middle\" fill=\"#444\">{n}</text>", foot + 18.0);
        }
        let (middle, foot) = (x0 + WIDE / 2.0, y0 + HIGH + 36.0);
        let _ = writeln!(s, "<text x=\"{middle:.1}\" y=\"{foot:.1}\" text-anchor=\"middle\" fill=\"#444\">bytes of the frame</text>");
        let _ = writeln!(s, "<rect x=\"{x0}\" y=\"{y0}\" width=\"{WIDE}\" height=\"{HIGH}\" fill=\"none\" stroke=\"#888\"/>");

        let points = of(what);
        let last = points[points.len() - 1].1;
        let (mut ends, middle) = (last.map(y), (y(last[0]) + y(last[1])) / 2.0);
        if (ends[0] - ends[1]).abs() < APART {
            let first = if ends[0] <= ends[1] { 0 } else { 1 };
            ends[first] = middle - APART / 2.0;
            ends[1 - first] = middle + APART / 2.0;
        }
        for (side, (colour, dashes, name)) in SIDES.iter().enumerate() {
            let line: Vec<String> = points.iter().map(|p| format!("{:.1},{:.1}", x(p.0), y(p.1[side]))).collect();
            let _ = writeln!(s, "<polyline points=\"{}\" fill=\"none\" stroke=\"{colour}\" stroke-width=\"2\"{dashes}/>", line.join(" "));
            for p in &points {
                let _ = writeln!(s, "<circle cx=\"{:.1}\" cy=\"{:.1}\" r=\"2.5\" fill=\"{colour}\"/>", x(p.0), y(p.1[side]));
            }
            let _ = writeln!(s, "<text x=\"{:.1}\" y=\"{:.1}\" fill=\"{colour}\">{name}</text>", x0 + WIDE + 7.0, ends[side] + 4.0);
        }
    }
    s.push_str("</svg>\n");
    s
}
