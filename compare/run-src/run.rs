//! run: makes requests, asks two answering commands and compares every answer. See compare/run.
#[path = "cipher.rs"]
mod cipher;
#[path = "maker.rs"]
mod maker;
#[path = "rules.rs"]
mod rules;
#[path = "shrink.rs"]
mod shrink;

use rules::{Pair, RULES};
use std::collections::BTreeMap;
use std::io::{BufRead, BufReader, IsTerminal, Write};
use std::process::{exit, Child, ChildStdout, Command, Stdio};
use std::sync::mpsc::{sync_channel, SyncSender};
use std::sync::Arc;
use std::time::{Duration, Instant};

const BATCH: usize = 2000;

/// an answering command, fed by a thread of its own
struct Answerer {
    name: String,
    child: Child,
    lines: SyncSender<Arc<Vec<u8>>>,
    answers: BufReader<ChildStdout>,
}

impl Answerer {
    fn start(name: &str, command: &str) -> Self {
        let said = Command::new("sh").arg("-c").arg(command).stdin(Stdio::piped()).stdout(Stdio::piped()).spawn();
        let mut child = said.unwrap_or_else(|e| {
            eprintln!("run: {command}: {e}");
            exit(2)
        });
        let mut to = child.stdin.take().unwrap();
        let answers = BufReader::with_capacity(1 << 16, child.stdout.take().unwrap());
        let (lines, taken) = sync_channel::<Arc<Vec<u8>>>(4);
        std::thread::spawn(move || {
            for lines in taken {
                if to.write_all(&lines).and_then(|_| to.flush()).is_err() {
                    return;
                }
            }
        });
        Answerer { name: name.into(), child, lines, answers }
    }

    fn send(&self, lines: &Arc<Vec<u8>>) {
        // if it has gone, its next answer will be missed
        let _ = self.lines.send(lines.clone());
    }

    fn answer(&mut self, request: &[u8], out: &mut Vec<u8>) {
        out.clear();
        let n = self.answers.read_until(b'\n', out).unwrap_or(0);
        if n == 0 || out.pop() != Some(b'\n') {
            eprintln!("run: {} has stopped answering, here or a little later: {}", self.name, brief(request));
            kept(&[(request, b"", b"")]);
            exit(2);
        }
    }

    fn ask(&mut self, request: &[u8]) -> Vec<u8> {
        self.send(&Arc::new([request, b"\n"].concat()));
        let mut out = Vec::new();
        self.answer(request, &mut out);
        out
    }
}

fn word(answer: &[u8]) -> &[u8] {
    answer.split(|c| *c == b' ').next().unwrap_or(answer)
}

fn same(request: &[u8], left: &[u8], right: &[u8]) -> bool {
    match (word(left), word(right)) {
        (b"panic", _) | (_, b"panic") => false,
        (b"bad", b"bad") => true,
        // what is the oracle's alone
        (a, b) => left == right || word(request) == b"backend" || word(request) == b"cachenum" && (a == b"bad" || b == b"bad"),
    }
}

struct Options {
    left: String,
    right: String,
    raw: Option<String>,
    no_raw: bool,
    smallest: bool,
    file: Option<String>,
    spoiled: bool,
    seeds: Vec<u64>,
    count: u64,
}

fn options() -> Options {
    let here = std::env::var("COMPARE").unwrap_or_else(|_| "compare".into());
    let mut o = Options {
        left: format!("{here}/oracle"),
        right: format!("{here}/port"),
        raw: None,
        no_raw: false,
        smallest: false,
        file: None,
        spoiled: false,
        seeds: vec![1],
        count: 100_000,
    };
    let mut args = std::env::args().skip(1);
    let mut numbers = Vec::new();
    let mut many = None;
    let usage = || -> ! {
        eprintln!("usage: compare/run [OPTION..] [SEED] [COUNT]; the options stand at the head of compare/run");
        exit(2)
    };
    while let Some(a) = args.next() {
        let mut value = || args.next().unwrap_or_else(|| usage());
        match a.as_str() {
            "--left" => o.left = value(),
            "--right" => o.right = value(),
            "--raw" => o.raw = Some(value()),
            "--no-raw" => o.no_raw = true,
            "--rust" => {
                let folder = value();
                std::env::set_var("LEMIKANTO_RUST", folder);
            }
            "--smallest" => o.smallest = true,
            "--file" => o.file = Some(value()),
            "--spoiled" => o.spoiled = true,
            "--seeds" => many = Some(seeds(&value()).unwrap_or_else(|| usage())),
            n => numbers.push(n.parse().unwrap_or_else(|_| usage())),
        }
    }
    match (many, &numbers[..]) {
        (None, []) => {}
        (None, [seed]) => o.seeds = vec![*seed],
        (None, [seed, count]) => (o.seeds, o.count) = (vec![*seed], *count),
        (Some(list), []) => o.seeds = list,
        (Some(list), [count]) => (o.seeds, o.count) = (list, *count),
        _ => usage(),
    }
    // what is spoiled is compared between the two alone: the rules of docs/DIFFERENCES.md look at well-formed requests
    o.no_raw |= o.spoiled;
    o
}

/// A..B, both of them among the seeds
fn seeds(text: &str) -> Option<Vec<u64>> {
    let (a, b) = text.split_once("..")?;
    let list: Vec<u64> = (a.parse().ok()?..=b.parse().ok()?).collect();
    (!list.is_empty()).then_some(list)
}

/// a request with its two answers
type Told<'a> = (&'a [u8], &'a [u8], &'a [u8]);

/// a difference in full
fn kept(all: &[Told]) {
    let Ok(file) = std::env::var("COMPARE_DIFFERENCE") else { return };
    let bytes: Vec<u8> = all.iter().flat_map(|(q, a, b)| [q, &b"\n"[..], a, b"\n", b, b"\n\n"].concat()).collect();
    if std::fs::write(&file, bytes).is_ok() {
        println!("in full in {file}");
    }
}

/// how many, and the smallest request
#[derive(Clone, Default)]
struct Seen(u64, Vec<u8>);

impl Seen {
    fn note(&mut self, request: &[u8]) {
        self.0 += 1;
        if self.1.is_empty() || size(request) < size(&self.1) {
            self.1 = request.to_vec();
        }
    }
}

/// (requests, ok, and each refusal number) of a kind
type Tally = BTreeMap<Vec<u8>, BTreeMap<Vec<u8>, u64>>;

fn tallied(answer: &[u8]) -> Vec<u8> {
    match word(answer) {
        b"no" => answer.to_vec(),
        b"ok" if answer.starts_with(b"ok refused") => answer[3..].to_vec(),
        w => w.to_vec(),
    }
}

struct Run {
    left: Answerer,
    right: Answerer,
    raw: Option<Answerer>,
    amendments: Answerer,
    kinds: Tally,
    /// by entry, the length of its name first, which is their order
    amended: BTreeMap<(usize, String), Seen>,
    ruled: Vec<Seen>,
    start: Instant,
    done: u64,
}

/// what compare/amendments.py says of a pair: the entries that amend it, and the answer that is wanted
fn wanted<'a>(said: &'a [u8], left: &'a [u8]) -> (&'a [u8], &'a [u8]) {
    match said.iter().position(|c| *c == b' ') {
        Some(k) => (&said[..k], &said[k + 1..]),
        None => (b"", left),
    }
}

impl Run {
    fn differ(&mut self, request: &[u8], left: &[u8], right: &[u8]) -> bool {
        let said = self.amendments.ask(&[request, b"\n", left].concat());
        !same(request, wanted(&said, left).1, right)
    }

    fn asked(&mut self, request: &[u8]) -> (Vec<u8>, Vec<u8>) {
        (self.left.ask(request), self.right.ask(request))
    }

    fn asked_raw(&mut self, request: &[u8]) -> (Vec<u8>, Vec<u8>) {
        (self.left.ask(request), self.raw.as_mut().unwrap().ask(&[b"raw ", request].concat()))
    }

    fn found(&mut self, request: &[u8], left: &[u8], right: &[u8]) -> ! {
        let (done, seconds) = (self.done, self.start.elapsed().as_secs_f64());
        let bad = word(left) == b"bad" || word(right) == b"bad";
        let small = shrink::smallest(request, &mut |c| {
            let (l, r) = self.asked(c);
            let malformed = word(&l) == b"bad" || word(&r) == b"bad";
            (bad || !malformed) && self.differ(c, &l, &r)
        });
        println!("\na difference, within {done} requests, {seconds:.2} s");
        let (l, r) = self.asked(&small);
        self.end(["left", "right"], (request, left, right), (&small, &l, &r))
    }

    fn unruled(&mut self, request: &[u8], left: &[u8], raw: &[u8]) -> ! {
        let small = shrink::smallest(request, &mut |c| {
            let (l, r) = self.asked_raw(c);
            word(&l) != b"bad" && l != r && Pair::new(c, &l, &r).rule().is_none()
        });
        println!("\nraw and oracle differ, and no entry of docs/DIFFERENCES.md takes it");
        let (l, r) = self.asked_raw(&small);
        self.end(["oracle", "raw"], (request, left, raw), (&small, &l, &r))
    }

    fn end(&mut self, [one, other]: [&str; 2], found: Told, small: Told) -> ! {
        for (head, (q, a, b)) in [("", found), ("smaller\n", small)] {
            if head.is_empty() || small.0 != found.0 {
                println!("{head}  request {}\n  {one:7} {}\n  {other:7} {}", brief(q), brief(a), brief(b));
                let said = self.amendments.ask(&[q, b"\n", a].concat());
                if !said.is_empty() {
                    println!("  wanted  {}", brief(&said));
                }
            }
        }
        kept(&[found, small]);
        exit(1)
    }

    /// the shortest request of a rule, made smaller while the rule takes it
    fn smallest(&mut self, rule: usize) -> Vec<u8> {
        let from = self.ruled[rule].1.clone();
        shrink::smallest(&from, &mut |c| {
            let (l, r) = self.asked_raw(c);
            l != r && Pair::new(c, &l, &r).rule() == Some(rule)
        })
    }
}

fn main() {
    let o = options();
    let here = std::env::var("COMPARE").unwrap_or_else(|_| "compare".into());
    let listed = std::fs::read_to_string(format!("{here}/../docs/DIFFERENCES.md")).unwrap_or_default();
    // the entry's second column
    let what = |entry: &str| listed.split(&format!("| {entry} | ")).nth(1).and_then(|row| row.split(" |").next());
    std::env::set_var("COMPARE_LEFT", &o.left);
    let mut run = Run {
        left: Answerer::start("left", &o.left),
        right: Answerer::start("right", &o.right),
        raw: if o.no_raw { None } else { Some(Answerer::start("raw", o.raw.as_ref().unwrap_or(&o.left))) },
        amendments: Answerer::start("amendments.py", &format!("exec '{here}/amendments.py' \"$COMPARE_LEFT\"")),
        kinds: BTreeMap::new(),
        amended: BTreeMap::new(),
        ruled: vec![Seen::default(); RULES.len()],
        start: Instant::now(),
        done: 0,
    };
    // its first line
    let mut kinds = Vec::new();
    run.amendments.answer(b"which kinds", &mut kinds);
    let amended: Vec<&[u8]> = kinds.split(|c| *c == b' ').collect();
    let mut maker = maker::Maker::new(o.seeds[0]);
    let all = o.count * o.seeds.len() as u64;
    let mut file = o.file.as_ref().map(|f| {
        BufReader::new(std::fs::File::open(f).unwrap_or_else(|e| {
            eprintln!("run: {f}: {e}");
            exit(2)
        }))
    });
    let tty = std::io::stderr().is_terminal();
    let mut told = run.start;
    let mut made = 0u64;
    let (mut l, mut r, mut w) = (Vec::new(), Vec::new(), Vec::new());
    let mut waiting: Option<Arc<Vec<u8>>> = None;
    loop {
        // the next requests are on their way while the last are compared
        let mut lines = Vec::new();
        let mut raws = Vec::new();
        let mut n = 0;
        while n < BATCH && lines.len() < 1 << 20 {
            let from = lines.len();
            match &mut file {
                None if made == all => break,
                None => {
                    if made > 0 && made % o.count == 0 {
                        maker = maker::Maker::new(o.seeds[(made / o.count) as usize]);
                    }
                    if o.spoiled {
                        maker.next_spoiled(&mut lines);
                        // the oracle's alone
                        if lines[from..].starts_with(b"raw ") {
                            lines[from] = b'R';
                        }
                    } else {
                        maker.next(&mut lines);
                    }
                }
                Some(f) => {
                    if f.read_until(b'\n', &mut lines).unwrap_or(0) == 0 {
                        break;
                    }
                    if lines.last() == Some(&b'\n') {
                        lines.pop();
                    }
                    if lines[from..].starts_with(b"raw ") {
                        lines.truncate(from);
                        continue;
                    }
                }
            }
            lines.push(b'\n');
            raws.extend_from_slice(b"raw ");
            raws.extend_from_slice(&lines[from..]);
            made += 1;
            n += 1;
        }
        let lines = Arc::new(lines);
        run.left.send(&lines);
        run.right.send(&lines);
        if let Some(a) = &run.raw {
            a.send(&Arc::new(raws));
        }
        let last = waiting.replace(lines);
        let Some(last) = last else { continue };
        if last.is_empty() {
            break;
        }
        let (mut pairs, mut rights) = (Vec::new(), Vec::new());
        let (mut differing, mut unruled) = (Vec::new(), Vec::new());
        for request in last[..last.len() - 1].split(|c| *c == b'\n') {
            run.left.answer(request, &mut l);
            run.right.answer(request, &mut r);
            *run.kinds.entry(kind_of(request)).or_default().entry(tallied(&l)).or_default() += 1;
            run.done += 1;
            if amended.contains(&word(request)) {
                for part in [request, b"\n", &l, b"\n"] {
                    pairs.extend_from_slice(part);
                }
                rights.push(r.clone());
            } else if !same(request, &l, &r) {
                differing.push((request.to_vec(), l.clone(), r.clone()));
            }
            let Some(a) = &mut run.raw else { continue };
            a.answer(request, &mut w);
            if l != w && !(word(&l) == b"bad" && word(&w) == b"bad") {
                match Pair::new(request, &l, &w).rule() {
                    Some(i) if word(&w) != b"panic" => run.ruled[i].note(request),
                    _ => unruled.push((request.to_vec(), l.clone(), w.clone())),
                }
            }
        }
        let pairs = Arc::new(pairs);
        run.amendments.send(&pairs);
        let mut lines = pairs.split(|c| *c == b'\n');
        for right in rights {
            let (request, left) = (lines.next().unwrap(), lines.next().unwrap());
            run.amendments.answer(request, &mut w);
            let (entries, wanted) = wanted(&w, left);
            if !same(request, wanted, &right) {
                differing.push((request.to_vec(), left.to_vec(), right));
            } else if !entries.is_empty() {
                for entry in String::from_utf8_lossy(entries).split('+') {
                    run.amended.entry((entry.len(), entry.into())).or_default().note(request);
                }
            }
        }
        if !(differing.is_empty() && unruled.is_empty()) {
            // it takes questions of its own: they come behind those that are on their way, whose answers are taken up first
            for request in waiting.iter().flat_map(|lines| lines.split_inclusive(|c| *c == b'\n')) {
                run.left.answer(request, &mut l);
                run.right.answer(request, &mut r);
                if let Some(a) = &mut run.raw {
                    a.answer(request, &mut w);
                }
            }
            // of several at a time the smallest
            if let Some((request, left, right)) = differing.iter().min_by_key(|d| size(&d.0)) {
                run.found(request, left, right);
            }
            if let Some((request, left, raw)) = unruled.iter().min_by_key(|d| size(&d.0)) {
                run.unruled(request, left, raw);
            }
        }
        if tty && told.elapsed() > Duration::from_millis(300) {
            told = Instant::now();
            let of = if o.file.is_some() { String::new() } else { format!(" of {all}") };
            eprint!("\r{}{of} requests, {:.0} a second ", run.done, run.done as f64 / run.start.elapsed().as_secs_f64());
        }
    }
    let (done, seconds) = (run.done, run.start.elapsed().as_secs_f64());
    if tty {
        eprintln!();
    }
    match (&o.file, &o.seeds[..]) {
        (Some(f), _) => println!("requests of {f}"),
        (None, [seed]) => println!("seed {seed}"),
        (None, list) => println!("seeds {} to {}, {} requests each", list[0], list[list.len() - 1], o.count),
    }
    let mut numbers: BTreeMap<(u32, String), u64> = BTreeMap::new();
    println!("kind           requests        ok   refused       bad");
    for (kind, answers) in &run.kinds {
        let (mut ok, mut no, mut bad) = (0, 0, 0);
        for (a, n) in answers {
            let a = String::from_utf8_lossy(a).to_string();
            match a.as_str() {
                "ok" => ok += n,
                "bad" => bad += n,
                _ => no += n,
            }
            let number = a.split(' ').nth(1).and_then(|t| t.parse().ok()).unwrap_or(0);
            *numbers.entry((number, if a.starts_with("refused") { format!("no {number}") } else { a })).or_default() += n;
        }
        println!("{:12} {:10} {ok:9} {no:9} {bad:9}", String::from_utf8_lossy(kind), ok + no + bad);
    }
    let list: Vec<String> = numbers.iter().map(|((_, a), n)| format!("{a}: {n}")).collect();
    println!("answers   {}", list.join(", "));
    if run.raw.is_some() {
        println!("where the oracle is not the plain Rust, by entry of docs/DIFFERENCES.md");
        for i in 0..RULES.len() {
            let rule = &RULES[i];
            let lost = if what(rule.entry).is_none() { " (not listed there)" } else { "" };
            println!("  {:4} {:9}  {}{lost}", rule.entry, run.ruled[i].0, rule.what);
            if o.smallest && run.ruled[i].0 > 0 {
                let small = run.smallest(i);
                let (a, b) = run.asked_raw(&small);
                println!("         {}\n         oracle {}\n         raw    {}", brief(&small), brief(&a), brief(&b));
            }
        }
    }
    if !run.amended.is_empty() {
        println!("where the port is to answer otherwise, and does, by entry of docs/DIFFERENCES.md");
        for ((_, entry), Seen(n, request)) in &run.amended {
            println!("  {entry:4} {n:9}  {}; as {}", what(entry).unwrap_or("(not listed there)"), brief(request));
        }
    }
    println!("{done} requests, no difference, {seconds:.1} s, {:.0} a second", done as f64 / seconds);
    for mut a in [Some(run.left), Some(run.right), Some(run.amendments), run.raw].into_iter().flatten() {
        drop(a.lines);
        let _ = a.child.wait();
    }
}

/// runs of the same pair of digits told by their count
fn brief(b: &[u8]) -> String {
    let mut out = String::new();
    let mut i = 0;
    while i < b.len() {
        let pair = &b[i..(i + 2).min(b.len())];
        let n = b[i..].chunks(2).take_while(|c| *c == pair).count();
        if n > 12 && pair.iter().all(u8::is_ascii_hexdigit) {
            out += &format!("{}[{n} times]", String::from_utf8_lossy(pair));
            i += 2 * n;
        } else {
            out += &b[i].escape_ascii().to_string();
            i += 1;
        }
    }
    if out.len() > 600 {
        format!("{} ..", &out[..600])
    } else {
        out
    }
}

/// a request of many parts is larger
fn size(request: &[u8]) -> usize {
    request.len() + 64 * request.iter().filter(|c| matches!(c, b',' | b';' | b' ')).count()
}

/// the request's first word, if it is one of the protocol's
fn kind_of(request: &[u8]) -> Vec<u8> {
    let w = word(request);
    if maker::is_kind(w) {
        w.to_vec()
    } else {
        b"(unknown)".to_vec()
    }
}
