//! Crates `frame` and `tally`: numbers of four bytes, ID3v1 blocks, where a tag starts and the sound ends, how a gain moves, and what a level does
//! to a list of gains.

use super::{ape, Case};
use crate::frame::{
    adjust_gain_value, ape_tag_start, ends_with_id3v1, find_audio_end, reach, read_u32_le, GainMode, APE_PREAMBLE,
};
use crate::tools::{digest, hex, Bench, Compare, Record};
use std::hint::black_box;

pub const CASE: Case = Case { name: "frame", record, compare, bench };

/// The exported functions, as Rust.
pub mod library {
    use super::Tally;

    extern "C" {
        fn zib_read_u32_le(bytes: *const u8, length: usize, at: usize, value: *mut u32) -> bool;
        fn zib_ends_with_id3v1(file: *const u8, length: usize) -> bool;
        fn zib_ape_tag_start(file: *const u8, length: usize, footer: usize, there: *mut u32, start: *mut usize) -> u32;
        fn zib_find_audio_end(file: *const u8, length: usize, end: *mut usize) -> u32;
        fn zib_adjust_gain_value(current: u8, steps: i32, wrap: bool) -> u8;
        fn zib_tally(
            gains: *const u8,
            length: usize,
            steps: i32,
            wrap: bool,
            low: *mut usize,
            high: *mut usize,
            lost: *mut usize,
            least: *mut u32,
            greatest: *mut u32,
        ) -> bool;
    }

    pub fn read_u32_le(bytes: &[u8]) -> Option<u32> {
        let mut value = 0;
        // SAFETY: the pointer and the length are those of a slice, and `value` lives through the call.
        let there = unsafe { zib_read_u32_le(bytes.as_ptr(), bytes.len(), 0, &mut value) };
        there.then_some(value)
    }

    pub fn ends_with_id3v1(file: &[u8]) -> bool {
        // SAFETY: the pointer and the length are those of a slice.
        unsafe { zib_ends_with_id3v1(file.as_ptr(), file.len()) }
    }

    pub fn ape_tag_start(file: &[u8], footer: usize) -> Option<usize> {
        let (mut there, mut start) = (7, 7);
        // SAFETY: as above.
        let reply = unsafe { zib_ape_tag_start(file.as_ptr(), file.len(), footer, &mut there, &mut start) };
        assert_eq!(reply, 0);
        (there == 1).then_some(start)
    }

    pub fn find_audio_end(file: &[u8]) -> Result<usize, u32> {
        let mut end = 7;
        // SAFETY: as above.
        match unsafe { zib_find_audio_end(file.as_ptr(), file.len(), &mut end) } {
            0 => Ok(end),
            reply => {
                assert_eq!(end, 7, "a refused call changed a lent number");
                Err(reply)
            }
        }
    }

    pub fn adjust_gain_value(current: u8, steps: i32, wrap: bool) -> u8 {
        // SAFETY: numbers only.
        unsafe { zib_adjust_gain_value(current, steps, wrap) }
    }

    pub fn tally(gains: &[u8], steps: i32, wrap: bool) -> Tally {
        let (mut low, mut high, mut lost, mut least, mut greatest) = (7, 7, 7, 7, 7);
        // SAFETY: as above.
        let saturated = unsafe {
            let (g, n) = (gains.as_ptr(), gains.len());
            zib_tally(g, n, steps, wrap, &mut low, &mut high, &mut lost, &mut least, &mut greatest)
        };
        Tally { low, high, lost, least, greatest, saturated }
    }
}

/// What a level does to a list of gains.
#[derive(Debug, PartialEq)]
pub struct Tally {
    low: usize,
    high: usize,
    lost: usize,
    least: u32,
    greatest: u32,
    saturated: bool,
}

/// As the Rust counts while it adjusts. It has no count of what is lost: a gain is lost that the Rust's own adjustment by the opposite steps
/// does not bring back.
fn published_tally(gains: &[u8], steps: i32, wrap: bool) -> Tally {
    let mode = GainMode::from_wrap(wrap);
    let opposite = if wrap { steps.wrapping_neg() } else { steps.saturating_neg() };
    let lost = |&&g: &&u8| adjust_gain_value(adjust_gain_value(g, steps, mode), opposite, mode) != g;
    let stats = reach::tally(&mut gains.to_vec(), steps, mode);
    Tally {
        low: stats.saturated_low,
        high: stats.saturated_high,
        lost: gains.iter().filter(lost).count(),
        least: stats.min_gain.into(),
        greatest: stats.max_gain.into(),
        saturated: stats.saturated(),
    }
}

/// Not inlined, so that a bench counts a call on both sides.
#[inline(never)]
fn published_adjust(current: u8, steps: i32, wrap: bool) -> u8 {
    adjust_gain_value(current, steps, GainMode::from_wrap(wrap))
}

#[inline(never)]
fn published_number(bytes: &[u8]) -> Option<u32> {
    (bytes.len() >= 4).then(|| read_u32_le(bytes))
}

#[inline(never)]
fn published_id3v1(file: &[u8]) -> bool {
    ends_with_id3v1(file)
}

#[inline(never)]
fn published_end(file: &[u8]) -> usize {
    find_audio_end(file)
}

/// The Rust's counts of a list, without what is lost.
#[inline(never)]
fn published_list(gains: &[u8], steps: i32, wrap: bool) -> (usize, usize, u8, u8) {
    let s = reach::tally_list(gains, steps, GainMode::from_wrap(wrap));
    (s.saturated_low, s.saturated_high, s.min_gain, s.max_gain)
}

/// Every step count in -600..600, and those about the ends of i32.
fn step_counts() -> impl Iterator<Item = i32> {
    let ends = [
        i32::MIN,
        i32::MIN + 1,
        i32::MIN + 255,
        i32::MIN + 256,
        i32::MAX - 256,
        i32::MAX - 255,
        i32::MAX - 1,
        i32::MAX,
    ];
    (-600..=600).chain(ends)
}

/// A file with a footer at its end: what precedes it, its size, its flags.
fn footed(before: usize, size: u32, flags: u32) -> Vec<u8> {
    let mut file = vec![0x55; before];
    file.extend_from_slice(APE_PREAMBLE);
    for n in [2000, size, 1, flags, 0, 0] {
        file.extend_from_slice(&n.to_le_bytes());
    }
    file
}

const SIZES: [u32; 14] = [0, 1, 31, 32, 33, 63, 64, 65, 100, 127, 128, 129, 0x7FFF_FFFF, u32::MAX];
const FLAGS: [u32; 6] = [0, 1, 0x2000_0000, 0x7FFF_FFFF, 0x8000_0000, u32::MAX];

#[inline(never)]
fn published_start(file: &[u8]) -> Option<usize> {
    let footer = file.len().checked_sub(32)?;
    ape_tag_start(&file[footer..], footer)
}

/// The Rust's answer with a C face of the library's form: the file as a pointer and a length, and the answer in lent numbers.
extern "C" fn start_face(file: *const u8, length: usize, footer: usize, there: &mut u32, start: &mut usize) -> u32 {
    let file = unsafe { std::slice::from_raw_parts(file, length) };
    (*there, *start) = ape_tag_start(&file[footer..], footer).map_or((0, 0), |at| (1, at));
    0
}

fn our_start(file: &[u8]) -> Option<usize> {
    library::ape_tag_start(file, file.len().checked_sub(32)?)
}

fn tallies(c: &mut Compare, gains: &[u8], steps: i32, wrap: bool) {
    c.bytes(
        &format!("tally by {steps}, wrap {wrap}"),
        gains,
        |g| published_tally(g, steps, wrap),
        |g| library::tally(g, steps, wrap),
    );
}

/// Where the sound of a file ends.
pub fn ends(c: &mut Compare, file: &[u8]) {
    c.bytes("find_audio_end", file, |s| Ok(find_audio_end(s)), library::find_audio_end);
}

fn compare(c: &mut Compare) {
    for wrap in [false, true] {
        for steps in step_counts() {
            for current in 0..=255 {
                c.numbers(
                    "adjust_gain_value (gain, steps, wrap)",
                    &[current, steps as i64, wrap as i64],
                    |a| published_adjust(a[0] as u8, a[1] as i32, a[2] == 1),
                    |a| library::adjust_gain_value(a[0] as u8, a[1] as i32, a[2] == 1),
                );
            }
        }
    }
    let all: Vec<u8> = (0..=255).collect();
    for wrap in [false, true] {
        for steps in step_counts() {
            // Each gain alone, none, all of them, and 1,024 of them, which are counted in blocks.
            for current in 0..=255 {
                tallies(c, &[current], steps, wrap);
            }
            tallies(c, &[], steps, wrap);
            tallies(c, &all, steps, wrap);
            tallies(c, &all.repeat(4), steps, wrap);
        }
    }
    // Every cut of small files, from either end.
    for file in ape::edge_files() {
        for n in 0..=file.len() {
            ends(c, &file[..n]);
            ends(c, &file[n..]);
        }
    }
    for length in 0..300 {
        for at in 0..length {
            let mut file = vec![0; length];
            for (i, b) in b"TAG".iter().enumerate().take(length - at) {
                file[at + i] = *b;
            }
            c.bytes("ends_with_id3v1", &file, ends_with_id3v1, library::ends_with_id3v1);
        }
    }
    for before in 0..160 {
        for size in SIZES.into_iter().chain(before as u32..before as u32 + 70) {
            for flags in FLAGS {
                c.bytes(
                    "ape_tag_start of the footer at EOF-32",
                    &footed(before, size, flags),
                    published_start,
                    our_start,
                );
            }
        }
    }
    for _ in 0..c.count {
        let steps = c.rng.next() as i32 >> c.rng.below(32);
        let input = [c.rng.below(256) as i64, steps as i64, c.rng.below(2) as i64];
        c.numbers(
            "adjust_gain_value (gain, steps, wrap)",
            &input,
            |a| published_adjust(a[0] as u8, a[1] as i32, a[2] == 1),
            |a| library::adjust_gain_value(a[0] as u8, a[1] as i32, a[2] == 1),
        );
        let four = c.rng.bytes(4);
        c.bytes("read_u32_le", &four, |s| (s.len() >= 4).then(|| read_u32_le(s)), library::read_u32_le);
    }
    for _ in 0..c.count / 20 {
        let n = c.rng.below(1000);
        let gains = c.rng.bytes(n);
        let (steps, wrap) = (c.rng.next() as i32 >> c.rng.below(32), c.rng.below(2) == 1);
        tallies(c, &gains, steps, wrap);
    }
    c.inputs += 2;
    assert_eq!(library::find_audio_end(&vec![0; 16_777_217]), Err(1));
    assert_eq!(library::find_audio_end(&vec![0; 16_777_216]), Ok(16_777_216));
    for _ in 0..c.count / 10 {
        let n = c.rng.below(400);
        let file = c.rng.bytes(n);
        c.bytes("ape_tag_start of the footer at EOF-32", &file, published_start, our_start);
    }
}

fn record(r: &mut Record) {
    let words = |w: &[&dyn ToString]| w.iter().map(|x| x.to_string()).collect::<Vec<_>>();
    for wrap in [false, true] {
        let flag = if wrap { "W" } else { "N" };
        for steps in step_counts() {
            let all = digest((0..=255).map(|g| published_adjust(g, steps, wrap)));
            r.line(&words(&[&"gains", &flag, &steps, &format!("{all:016x}")]));
        }
        for (current, steps) in [(0, 9), (250, 10), (3, -9), (255, 1), (1, -1), (128, -300), (128, 300)] {
            r.line(&words(&[&"gain", &flag, &current, &steps, &published_adjust(current, steps, wrap)]));
        }
    }
    for before in [0, 1, 31, 32, 33, 64, 100] {
        for size in SIZES {
            for flags in FLAGS {
                let file = footed(before, size, flags);
                let start = published_start(&file).map_or("none".to_string(), |n| n.to_string());
                r.line(&words(&[&"start", &hex(&file), &start]));
            }
        }
    }
    // For the program `tally_vectors`: `tally FLAG STEPS FIRST LAST LOW HIGH LOST LEAST GREATEST`, of the gains from the first to the last.
    for (flag, wrap) in [("N", false), ("W", true)] {
        for steps in step_counts().filter(|s| !(-600..=600).contains(s) || (-260..=260).contains(s)) {
            for (first, last) in [(0u8, 255u8), (0, 0), (1, 10), (200, 255)] {
                let t = published_tally(&(first..=last).collect::<Vec<_>>(), steps, wrap);
                let asked: [&dyn ToString; 5] = [&"tally", &flag, &steps, &first, &last];
                let counts: [&dyn ToString; 5] = [&t.low, &t.high, &t.lost, &t.least, &t.greatest];
                r.line_of("tally", &words(&[asked, counts].concat()));
            }
        }
    }
    // For the same: `end FILE PLACE`, where the sound ends.
    for file in ape::edge_files().iter().filter(|f| f.len() <= 1024) {
        r.line_of("tally", &words(&[&"end", &hex(file), &find_audio_end(file)]));
    }
    for (before, mark) in [(0, "TAG"), (1, "TAG"), (3, "TAGTAG"), (2, "TAf"), (0, "TA"), (5, "TAG")] {
        for after in [124, 125, 126] {
            let mut file = vec![1; before];
            file.extend_from_slice(mark.as_bytes());
            file.resize(file.len() + after, 0);
            r.line(&words(&[&"id3v1", &hex(&file), &(ends_with_id3v1(&file) as u8)]));
        }
    }
    for _ in 0..40 {
        let four = r.rng.bytes(4);
        r.line(&words(&[&"u32", &hex(&four), &read_u32_le(&four)]));
    }
}

fn bench(b: &mut Bench) {
    fn sum<T: Copy>(from: &[T], f: impl Fn(T) -> u64) -> u64 {
        from.iter().fold(0, |s, &g| s + f(g))
    }
    let gains: Vec<u8> = (0..10_000u32).map(|i| (i * 7) as u8).collect();
    for (flag, wrap) in [("N", false), ("W", true)] {
        b.row(
            &format!("adjust_gain_value, 10,000 gains, {flag}"),
            || sum(&gains, |g| published_adjust(g, black_box(-7), wrap) as u64),
            || sum(&gains, |g| library::adjust_gain_value(g, black_box(-7), wrap) as u64),
        );
    }
    let gains: Vec<u8> = (0..1 << 20).map(|i: u32| (i * 7) as u8).collect();
    for (flag, wrap) in [("N", false), ("W", true)] {
        for (way, steps) in [("up", 7), ("down", -7)] {
            b.row(
                &format!("tally, 1 MiB of gains {way}, {flag}"),
                || published_list(&gains, black_box(steps), wrap),
                || library::tally(&gains, black_box(steps), wrap),
            );
        }
    }
    // Files with a tag, an ID3v1 block, both and neither, in turn.
    let mut id3v1 = vec![0x55; 200];
    id3v1[72..75].copy_from_slice(b"TAG");
    let four = [footed(100, 64, 0x8000_0000), id3v1, footed(0, 32, 0), vec![0x55; 200]];
    let files: Vec<&[u8]> = (0..10_000).map(|i| &four[i % 4][..]).collect();
    b.row(
        "read_u32_le, 10,000 numbers",
        || sum(&files, |f| published_number(f).map_or(0, u64::from)),
        || sum(&files, |f| library::read_u32_le(f).map_or(0, u64::from)),
    );
    b.row(
        "ends_with_id3v1, 10,000 files",
        || sum(&files, |f| published_id3v1(f) as u64),
        || sum(&files, |f| library::ends_with_id3v1(f) as u64),
    );
    b.row(
        "find_audio_end, 10,000 files",
        || sum(&files, |f| published_end(f) as u64),
        || sum(&files, |f| library::find_audio_end(f).map_or(0, |n| n as u64)),
    );
    b.row(
        "ape_tag_start, 10,000 files",
        || sum(&files, |f| published_start(f).map_or(0, |n| n as u64)),
        || sum(&files, |f| our_start(f).map_or(0, |n| n as u64)),
    );
    // Unknown to the compiler, as a function of an archive is.
    let face = black_box(start_face as extern "C" fn(*const u8, usize, usize, &mut u32, &mut usize) -> u32);
    b.row(
        "ape_tag_start, 10,000 files (Rust: behind a C face too)",
        || {
            sum(&files, |f| {
                let (mut there, mut start) = (7, 7);
                let reply = face(f.as_ptr(), f.len(), f.len() - 32, &mut there, &mut start);
                (reply == 0 && there == 1).then_some(start).map_or(0, |n| n as u64)
            })
        },
        || sum(&files, |f| our_start(f).map_or(0, |n| n as u64)),
    );
}
