//! Makes a request smaller while something stays true of it: fewer words, items and entries, shorter hex, zeros, smaller numbers.
//! What a request means is not looked at; whoever judges refuses what has become malformed.
use std::time::{Duration, Instant};

pub fn smallest(request: &[u8], stays: &mut dyn FnMut(&[u8]) -> bool) -> Vec<u8> {
    let mut now = request.to_vec();
    let until = Instant::now() + Duration::from_secs(20);
    let mut skip = 0;
    loop {
        let mut search = Search { line: &now, at: 0, skip, until, late: false, found: None, stays: &mut *stays };
        search.candidates();
        let (at, late) = (search.at, search.late);
        match search.found {
            // go on from where something was found
            Some(n) => (now, skip) = (n, at - 1),
            None if late || skip == 0 => return now,
            None => skip = 0,
        }
    }
}

type Span = (usize, usize);

struct Search<'a> {
    line: &'a [u8],
    at: usize,
    skip: usize,
    until: Instant,
    late: bool,
    found: Option<Vec<u8>>,
    stays: &'a mut dyn FnMut(&[u8]) -> bool,
}

fn is_hex(b: &[u8]) -> bool {
    !b.is_empty() && b.iter().all(u8::is_ascii_hexdigit)
}

/// parts of so many bytes are tried with every part left out
const SHORT: usize = 40;

fn sizes(n: usize) -> Vec<usize> {
    if n <= SHORT {
        (1..n).rev().collect()
    } else {
        std::iter::successors(Some(n / 2), |k| Some(k / 2)).take_while(|k| *k > 0).collect()
    }
}

fn number(b: &[u8]) -> Option<i64> {
    std::str::from_utf8(b).ok()?.parse().ok()
}

impl Search<'_> {
    fn spans(&self, (from, to): Span, at: u8) -> Vec<Span> {
        let mut out = Vec::new();
        let mut start = from;
        for i in from..=to {
            if i == to || self.line[i] == at {
                out.push((start, i));
                start = i + 1;
            }
        }
        out
    }

    /// true when the search ends: this one is taken, or time is up
    fn judge(&mut self, made: impl Fn(&[u8]) -> Vec<u8>) -> bool {
        self.at += 1;
        if self.at <= self.skip {
            return false;
        }
        self.late = Instant::now() > self.until;
        if self.late {
            return true;
        }
        let c = made(self.line);
        if (self.stays)(&c) {
            self.found = Some(c);
        }
        self.found.is_some()
    }

    fn with(&mut self, from: usize, to: usize, put: &[u8]) -> bool {
        self.judge(|line| [&line[..from], put, &line[to..]].concat())
    }

    fn candidates(&mut self) -> bool {
        let line = self.line;
        let head = line.iter().position(|c| *c == b' ').map_or(line.len(), |k| k + 1);
        let words = self.spans((head, line.len()), b' ');
        if line.starts_with(b"cache") && self.dropped(&words[1.min(words.len())..]) {
            return true;
        }
        let mut all: Vec<Span> = Vec::new();
        for &(from, to) in &words {
            let items = match line[from..to].iter().position(|c| *c == b':') {
                Some(k) if line[from..].starts_with(b"open:") => self.spans((from + k + 1, to), b','),
                Some(k) => vec![(from + k + 1, to)],
                None => vec![(from, to)],
            };
            if items.len() > 1 && self.dropped(&items) {
                return true;
            }
            for &(from, to) in &items {
                let value = line[from..to].iter().position(|c| *c == b'=').map_or(from, |k| from + k + 1);
                let entries = self.spans((value, to), b';');
                if entries.len() > 1 && self.dropped(&entries) {
                    return true;
                }
                all.extend(entries.iter().flat_map(|e| self.spans(*e, b'/')));
                if value > from {
                    all.push((from, value - 1));
                }
            }
        }
        self.together(&all) || all.iter().any(|p| self.numbers(*p) || self.digits(*p))
    }

    /// without some of the parts, each of which has a mark before or behind it
    fn dropped(&mut self, parts: &[Span]) -> bool {
        let mut k = parts.len() / 2;
        while k > 0 {
            for i in (0..parts.len() - k + 1).step_by(k) {
                let (from, to) = (parts[i].0, parts[i + k - 1].1);
                if if i + k < parts.len() { self.with(from, to + 1, b"") } else { self.with(from - 1, to, b"") } {
                    return true;
                }
            }
            k /= 2;
        }
        false
    }

    /// a part that comes several times, changed in all its places
    fn together(&mut self, parts: &[Span]) -> bool {
        let line = self.line;
        let text = |p: &Span| &line[p.0..p.1];
        for (i, p) in parts.iter().enumerate().take(200) {
            let same: Vec<Span> = parts.iter().filter(|q| text(q) == text(p)).copied().collect();
            if same.len() < 2 || parts[..i].iter().any(|q| text(q) == text(p)) {
                continue;
            }
            let zeros = vec![b'0'; p.1 - p.0];
            let mut puts: Vec<&[u8]> = Vec::new();
            if is_hex(text(p)) && text(p) != zeros {
                puts.push(&zeros);
            }
            if number(text(p)).is_some_and(|n| n > 2) {
                puts.extend([&b"0"[..], b"1", b"2"]);
            }
            for put in puts {
                let all = |line: &[u8]| {
                    let mut out = Vec::new();
                    let mut from = 0;
                    for s in &same {
                        out.extend_from_slice(&line[from..s.0]);
                        out.extend_from_slice(put);
                        from = s.1;
                    }
                    out.extend_from_slice(&line[from..]);
                    out
                };
                if self.judge(all) {
                    return true;
                }
            }
        }
        false
    }

    fn numbers(&mut self, (from, to): Span) -> bool {
        let Some(n) = number(&self.line[from..to]) else { return false };
        [0, 1, n / 100 * 100, n / 2, n - n.signum()].iter().any(|m| m.abs() < n.abs() && self.with(from, to, m.to_string().as_bytes()))
    }

    fn digits(&mut self, (from, to): Span) -> bool {
        if !is_hex(&self.line[from..to]) {
            return false;
        }
        let n = (to - from) / 2;
        let zeros = |k: usize| vec![b'0'; 2 * k];
        if n > 0 && (self.with(from, to, b"-") || self.with(from, to, b"")) {
            return true;
        }
        if self.line[from..from + 2 * n] != zeros(n) && self.with(from, from + 2 * n, &zeros(n)) {
            return true;
        }
        // some bytes left out, of a short part at every place; where the bytes before are the same, that was tried with them
        for k in sizes(n) {
            for i in (0..n - k + 1).step_by(if n <= SHORT { 1 } else { k }) {
                let (a, b) = (from + i * 2, from + (i + k) * 2);
                let again = i >= k && self.line[a - 2 * k..a] == self.line[a..b];
                if !again && self.with(a, b, b"") {
                    return true;
                }
            }
        }
        for k in sizes(n) {
            for i in (0..n - k + 1).step_by(k) {
                let (a, b) = (from + i * 2, from + (i + k) * 2);
                if self.line[a..b].iter().any(|c| *c != b'0') && self.with(a, b, &zeros(k)) {
                    return true;
                }
            }
        }
        false
    }
}
