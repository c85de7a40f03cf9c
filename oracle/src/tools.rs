//! What the case modules share: random numbers, the comparison with its search for a small input, recorded lines, and times.

use std::collections::BTreeMap;
use std::fmt::Debug;
use std::hint::black_box;
use std::path::Path;
use std::time::Instant;

/// A small generator of pseudo-random numbers (SplitMix64): the same seed gives the same inputs everywhere.
pub struct Rng(u64);

impl Rng {
    pub fn new(seed: u64) -> Self {
        Rng(seed)
    }

    pub fn next(&mut self) -> u64 {
        self.0 = self.0.wrapping_add(0x9E37_79B9_7F4A_7C15);
        let mut z = self.0;
        z = (z ^ (z >> 30)).wrapping_mul(0xBF58_476D_1CE4_E5B9);
        z = (z ^ (z >> 27)).wrapping_mul(0x94D0_49BB_1331_11EB);
        z ^ (z >> 31)
    }

    /// A number below `n`.
    pub fn below(&mut self, n: usize) -> usize {
        (self.next() % n as u64) as usize
    }

    #[allow(dead_code)]
    pub fn pick<T: Copy>(&mut self, from: &[T]) -> T {
        from[self.below(from.len())]
    }

    pub fn bytes(&mut self, n: usize) -> Vec<u8> {
        (0..n).map(|_| self.next() as u8).collect()
    }
}

/// The bytes in hex; `-` for none, so that a recorded line has a word for it.
pub fn hex(bytes: &[u8]) -> String {
    if bytes.is_empty() {
        return "-".to_string();
    }
    bytes.iter().map(|b| format!("{b:02x}")).collect()
}

/// A comparison in progress.
pub struct Compare {
    pub name: &'static str,
    pub rng: Rng,
    /// How many random inputs a module should try.
    pub count: u64,
    /// Whether a module should try all of what it otherwise tries a part of.
    pub every: bool,
    pub inputs: u64,
}

impl Compare {
    pub fn new(name: &'static str, seed: u64, count: u64, every: bool) -> Self {
        Compare { name, rng: Rng::new(seed), count, every, inputs: 0 }
    }

    fn differ<A: Debug>(&self, what: &str, input: &str, published: A, ours: A) -> ! {
        println!("{}: {what} differs at {input}", self.name);
        println!("  published: {published:?}");
        println!("  library:   {ours:?}");
        std::process::exit(1);
    }

    /// Both sides on a list of bytes. Where they differ, bytes are left out and cleared while they still do.
    pub fn bytes<A: PartialEq + Debug>(
        &mut self,
        what: &str,
        input: &[u8],
        published: impl Fn(&[u8]) -> A,
        ours: impl Fn(&[u8]) -> A,
    ) {
        self.inputs += 1;
        if published(input) == ours(input) {
            return;
        }
        let differs = |s: &[u8]| published(s) != ours(s);
        let mut small = input.to_vec();
        let mut piece = small.len().max(1);
        while piece > 0 {
            let mut at = 0;
            while at < small.len() {
                let mut shorter = small.clone();
                shorter.drain(at..(at + piece).min(small.len()));
                if differs(&shorter) {
                    small = shorter;
                } else {
                    at += piece;
                }
            }
            piece /= 2;
        }
        for at in 0..small.len() {
            for plain in [0, b'0', b'A'] {
                let mut other = small.clone();
                other[at] = plain;
                if other != small && small[at] != 0 && differs(&other) {
                    small = other;
                    break;
                }
            }
        }
        self.differ(what, &format!("hex {}", hex(&small)), published(&small), ours(&small));
    }

    /// Both sides on a list of numbers. Where they differ, each number is brought nearer to 0 while they still do.
    pub fn numbers<A: PartialEq + Debug>(
        &mut self,
        what: &str,
        input: &[i64],
        published: impl Fn(&[i64]) -> A,
        ours: impl Fn(&[i64]) -> A,
    ) {
        self.inputs += 1;
        if published(input) == ours(input) {
            return;
        }
        let differs = |s: &[i64]| published(s) != ours(s);
        let mut small = input.to_vec();
        for at in 0..small.len() {
            loop {
                let now = small[at];
                let nearer = [0, now / 2, now - now.signum()];
                let better = nearer.into_iter().filter(|v| v.abs() < now.abs()).find(|&v| {
                    let mut other = small.clone();
                    other[at] = v;
                    differs(&other)
                });
                match better {
                    Some(v) => small[at] = v,
                    None => break,
                }
            }
        }
        self.differ(what, &format!("{small:?}"), published(&small), ours(&small));
    }
}

/// The recorded answers of one module: lines of words, replayed by the program `NAME_vectors` or by one of another name, and runs of programs.
pub struct Record {
    name: &'static str,
    pub rng: Rng,
    first: String,
    /// The lines of each program, by its name.
    texts: BTreeMap<&'static str, String>,
    /// Files, seen from the root, with what stands in them.
    files: Vec<(String, Vec<u8>)>,
}

impl Record {
    pub fn new(name: &'static str, seed: u64) -> Self {
        let first = format!(
            "# Answers of the published Rust, and document 01's where it decides otherwise, written by `oracle record --seed {seed}`.\n"
        );
        Record { name, rng: Rng::new(seed), first, texts: BTreeMap::new(), files: Vec::new() }
    }

    pub fn line(&mut self, words: &[String]) {
        self.line_of(self.name, words);
    }

    /// A line that another program replays.
    pub fn line_of(&mut self, name: &'static str, words: &[String]) {
        let text = self.texts.entry(name).or_insert_with(|| self.first.clone());
        *text += &words.join(" ");
        text.push('\n');
    }

    /// A run of a program: the file with what it reads and the one with what it must write, seen from the root.
    pub fn run(&mut self, [reads, writes]: [&str; 2], input: &[u8], output: &[u8]) {
        self.files.push((reads.to_string(), input.to_vec()));
        self.files.push((writes.to_string(), output.to_vec()));
    }

    /// Writes the files, or, to check, holds the written ones against them. A module that records nothing has none.
    pub fn finish(mut self, check: bool) {
        let runs = self.files.len() / 2;
        let answers: Vec<_> = self.texts.iter().map(|(name, text)| (*name, text.lines().count() - 1)).collect();
        for (name, text) in self.texts {
            assert!(text.len() < 1 << 20, "the replaying program has room for 1 MiB");
            self.files.push((format!("crates/{name}_vectors/stdin"), text.into_bytes()));
        }
        let root = Path::new(env!("CARGO_MANIFEST_DIR")).join("..");
        for (file, bytes) in &self.files {
            let path = root.join(file);
            let fail = |text: &str| -> ! {
                println!("oracle: {file} {text}");
                std::process::exit(1)
            };
            if !check {
                let folder = path.parent().unwrap();
                std::fs::create_dir_all(folder).unwrap_or_else(|e| fail(&e.to_string()));
                std::fs::write(&path, bytes).unwrap_or_else(|e| fail(&e.to_string()));
            } else if std::fs::read(&path).unwrap_or_else(|e| fail(&e.to_string())) != *bytes {
                fail("is not what `oracle record` writes");
            }
        }
        for (name, answers) in answers {
            let more = if runs > 0 && name == self.name { format!(" and {runs} runs") } else { String::new() };
            println!("{name}: {answers} recorded answers{more}");
        }
    }
}

/// A digest of answers (FNV-1a, 64 bits), for answers too many to write out.
pub fn digest(bytes: impl Iterator<Item = u8>) -> u64 {
    bytes.fold(0xCBF2_9CE4_8422_2325, |h, b| (h ^ b as u64).wrapping_mul(0x0000_0100_0000_01B3))
}

/// Times of both sides, measured in turn; or each side once between marks, for a count of its instructions.
pub struct Bench {
    rows: Vec<(String, f64, f64)>,
    once: bool,
    /// The rows to measure, where not all of them, in the order to print them.
    only: Option<&'static [&'static str]>,
}

/// The ten rows of docs/BENCH.md.
pub const TEN: [&str; 10] = [
    "read_ape_tag, 41 items",
    "get, the last of 41 items, keys of many lengths (both from a file's bytes)",
    "set_ape_item on a file of 4 KiB, 41 items (Rust: read, set, replace; no gate)",
    "serialize_ape_tag, 41 items",
    "replace_ape_tag, 4 KiB",
    "replace_ape_tag, 1 MiB",
    "replace_ape_tag, 16 MiB",
    "level on a file of 4 KiB, 41 items, 10,000 gains, N (Rust: read, accumulate, shift, adjust, set, replace; no gate)",
    "undo on a file of 4 KiB, 41 items, 10,000 gains (Rust: read, adjust, remove, replace; no gate)",
    "list_tag, 41 items (Rust: its reader, and a text of its items)",
];

/// Where `oracle/bench` has callgrind cut its count.
#[no_mangle]
#[inline(never)]
pub extern "C" fn oracle_mark() {
    black_box(());
}

/// The time of one call, from some turns of it.
pub fn timed<T>(f: &mut impl FnMut() -> T, turns: u32) -> f64 {
    let start = Instant::now();
    for _ in 0..turns {
        black_box(f());
    }
    start.elapsed().as_secs_f64() / turns as f64
}

impl Bench {
    pub fn new(once: bool, only: Option<&'static [&'static str]>) -> Self {
        Bench { rows: Vec::new(), once, only }
    }

    /// The best time of many rounds, the two sides in turn, each round some milliseconds long.
    pub fn row<A, B>(&mut self, what: &str, mut published: impl FnMut() -> A, mut ours: impl FnMut() -> B) {
        if self.only.is_some_and(|only| !only.contains(&what)) {
            return;
        }
        if self.once {
            // A first call of either may set things up.
            black_box((published(), ours()));
            oracle_mark();
            black_box(published());
            oracle_mark();
            black_box(ours());
            oracle_mark();
            println!("{what}");
            self.rows.push((what.to_string(), 0.0, 0.0));
            return;
        }
        let mut turns = 1;
        while timed(&mut published, turns) * (turns as f64) < 0.002 && turns < 1 << 24 {
            turns *= 2;
        }
        let (mut a, mut b) = (f64::MAX, f64::MAX);
        for _ in 0..60 {
            a = a.min(timed(&mut published, turns));
            b = b.min(timed(&mut ours, turns));
        }
        self.rows.push((what.to_string(), a, b));
    }

    /// Whether every row that was asked for was there.
    pub fn is_whole(&self) -> bool {
        self.only.is_none_or(|only| only.len() == self.rows.len())
    }

    pub fn print(mut self) {
        if let Some(only) = self.only {
            self.rows.sort_by_key(|row| only.iter().position(|what| *what == row.0));
        }
        println!("| call | published Rust | library | ratio |\n|---|---|---|---|");
        for (what, a, b) in &self.rows {
            println!("| {what} | {} | {} | {:.2} |", time(*a), time(*b), b / a);
        }
    }
}

pub fn time(seconds: f64) -> String {
    match seconds {
        s if s < 1e-6 => format!("{:.1} ns", s * 1e9),
        s if s < 1e-3 => format!("{:.2} µs", s * 1e6),
        s => format!("{:.2} ms", s * 1e3),
    }
}
