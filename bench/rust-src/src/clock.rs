//! Two ways to do a thing, timed in turns: a round of one, a round of the other, and the next time the other way about.
use std::hint::black_box;
use std::time::{Duration, Instant};

/// In each of the passes.
const ROUNDS: usize = 35;
const ROUND: Duration = Duration::from_micros(200);

/// The time that so many calls take.
pub trait Calls: FnMut(usize) -> Duration {}
impl<F: FnMut(usize) -> Duration> Calls for F {}

pub fn calls<T>(mut call: impl FnMut(usize) -> T) -> impl Calls {
    move |n| {
        let start = Instant::now();
        for i in 0..n {
            let answer = call(i);
            black_box(&answer);
        }
        start.elapsed()
    }
}

/// Calls that use up what they are given: so many at once are made ready before the clock starts, and let go after it stops.
pub fn prepared<P, T>(at_once: usize, mut ready: impl FnMut(usize) -> P, mut call: impl FnMut(&mut P) -> T) -> impl Calls {
    move |n| {
        let mut took = Duration::ZERO;
        let mut done = 0;
        while done < n {
            let mut given: Vec<P> = (done..n.min(done + at_once)).map(&mut ready).collect();
            let start = Instant::now();
            for p in &mut given {
                let answer = call(black_box(p));
                black_box(&answer);
            }
            took += start.elapsed();
            done += given.len();
        }
        took
    }
}

#[derive(Clone, Copy)]
pub struct Side {
    pub median: f64,
    pub least: f64,
}

#[derive(Clone, Copy)]
pub struct Both {
    pub port: Side,
    pub rust: Side,
}

/// How many calls make a round.
fn enough(side: &mut impl Calls) -> usize {
    let mut n = 1;
    loop {
        let took = side(n);
        if took >= ROUND {
            return n;
        }
        let grown = n as f64 * ROUND.as_secs_f64() / took.as_secs_f64().max(1e-9);
        n = (grown * 1.05).ceil().min(n as f64 * 10.0) as usize + 1;
    }
}

fn side(mut ns: Vec<f64>) -> Side {
    ns.sort_by(f64::total_cmp);
    Side { median: ns[ns.len() / 2], least: ns[0] }
}

pub fn both(mut port: impl Calls, mut rust: impl Calls) -> Both {
    let (p, r) = (enough(&mut port), enough(&mut rust));
    let (mut ports, mut rusts) = (Vec::new(), Vec::new());
    let mut turn = |ours: bool| {
        if ours {
            ports.push(port(p).as_nanos() as f64 / p as f64);
        } else {
            rusts.push(rust(r).as_nanos() as f64 / r as f64);
        }
    };
    for round in 0..ROUNDS {
        turn(round % 2 == 0);
        turn(round % 2 == 1);
    }
    Both { port: side(ports), rust: side(rusts) }
}

/// Passes over the same, some seconds apart: the machine's own speed changes meanwhile.
pub fn merged(passes: &[Both]) -> Both {
    let one = |of: fn(&Both) -> Side| Side {
        median: side(passes.iter().map(|b| of(b).median).collect()).median,
        least: side(passes.iter().map(|b| of(b).least).collect()).least,
    };
    Both { port: one(|b| b.port), rust: one(|b| b.rust) }
}

/// The same of times that were taken elsewhere.
pub fn of(port: Vec<f64>, rust: Vec<f64>) -> Both {
    Both { port: side(port), rust: side(rust) }
}
