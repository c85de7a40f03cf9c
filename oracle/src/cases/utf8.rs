//! Crates `utf8` and `lossy`: which texts are UTF-8, and the text with U+FFFD in place of each ill-formed part. The judge is Rust's standard library,
//! through which the published source reads keys and values.

use super::Case;
use crate::tools::{hex, Bench, Compare, Record, Rng};

pub const CASE: Case = Case { name: "utf8", record, compare, bench };

/// The exported functions, as Rust.
pub mod library {
    extern "C" {
        fn zib_is_utf8(text: *const u8, length: usize) -> bool;
        fn zib_lossy_size(text: *const u8, length: usize, room: usize, size: *mut usize) -> u32;
        fn zib_lossy_into(text: *const u8, length: usize, out: *mut u8, room: usize, written: *mut usize) -> u32;
    }

    pub fn is_utf8(text: &[u8]) -> bool {
        // SAFETY: the pointer and the length are those of a slice.
        unsafe { zib_is_utf8(text.as_ptr(), text.len()) }
    }

    /// The length of the text, or none where it is more than the room.
    pub fn lossy_size(text: &[u8], room: usize) -> Option<usize> {
        let mut size = usize::MAX;
        // SAFETY: the pointer and the length are those of a slice, and `size` lives through the call.
        let reply = unsafe { zib_lossy_size(text.as_ptr(), text.len(), room, &mut size) };
        assert!(reply == 0 || reply == 5 && size == usize::MAX);
        (reply == 0).then_some(size)
    }

    /// The length of what was written, or none where there is no room.
    pub fn lossy_into(text: &[u8], out: &mut [u8]) -> Option<usize> {
        let mut written = usize::MAX;
        // SAFETY: each pointer and length are those of a slice, and `written` lives through the call.
        let reply = unsafe { zib_lossy_into(text.as_ptr(), text.len(), out.as_mut_ptr(), out.len(), &mut written) };
        assert!(reply == 0 || reply == 5 && written == usize::MAX);
        (reply == 0).then_some(written)
    }
}

/// Whether the text is UTF-8, what it becomes, and what went wrong with the room for it.
type Answer = (bool, Vec<u8>, &'static str);

fn published(s: &[u8]) -> Answer {
    (std::str::from_utf8(s).is_ok(), String::from_utf8_lossy(s).into_owned().into_bytes(), "")
}

const UNTOUCHED: u8 = 0x55;

/// The library's answer, asked with more than enough room, with exactly enough, and with one byte less.
fn ours(s: &[u8]) -> Answer {
    let mut out = vec![UNTOUCHED; 3 * s.len() + 9];
    let fault = rooms(s, &mut out);
    let n = library::lossy_into(s, &mut out).unwrap_or(0);
    out.truncate(n);
    (library::is_utf8(s), out, fault)
}

/// The same in lent bytes of `UNTOUCHED`, which it leaves as they were.
fn rooms(s: &[u8], out: &mut [u8]) -> &'static str {
    let all = 3 * s.len() + 9;
    let untouched = |o: &[u8]| o.iter().all(|&b| b == UNTOUCHED);
    let Some(n) = library::lossy_into(s, &mut out[..all]) else { return "refused with room for three times the text" };
    if n > all || !untouched(&out[n..all]) {
        return "wrote behind its end";
    }
    let text = String::from_utf8_lossy(s);
    if text.as_bytes() != &out[..n] {
        return "wrote another text";
    }
    out[..n].fill(UNTOUCHED);
    if library::lossy_size(s, n) != Some(text.len()) || n > 0 && library::lossy_size(s, n - 1).is_some() {
        return "another size";
    }
    if n > 0 && (library::lossy_into(s, &mut out[..n - 1]).is_some() || !untouched(&out[..n])) {
        return "one byte less than enough: accepted, or changed";
    }
    if library::lossy_into(s, &mut out[..n]) != Some(n) || text.as_bytes() != &out[..n] || !untouched(&out[n..all]) {
        return "refused or wrong with exactly enough room";
    }
    out[..n].fill(UNTOUCHED);
    ""
}

/// One input. Only where something is wrong is it asked again, to be made small.
fn one(c: &mut Compare, s: &[u8], out: &mut [u8]) {
    if rooms(s, out).is_empty() && library::is_utf8(s) == std::str::from_utf8(s).is_ok() {
        c.inputs += 1;
    } else {
        c.bytes("UTF-8", s, published, ours);
    }
}

/// One representative and both edges of each range of bytes that table 3-7 tells apart: 32 bytes.
const EDGES: [u8; 32] = [
    0x00, 0x41, 0x7F, // one byte
    0x80, 0x88, 0x8F, 0x90, 0x98, 0x9F, 0xA0, 0xB0, 0xBF, // behind a first byte
    0xC0, 0xC1, // none
    0xC2, 0xD0, 0xDF, // two bytes
    0xE0, 0xE1, 0xE8, 0xEC, 0xED, 0xEE, 0xEF, // three
    0xF0, 0xF1, 0xF2, 0xF3, 0xF4, // four
    0xF5, 0xFA, 0xFF, // none
];

/// Every list of `n` of these bytes.
fn every(n: usize, from: &[u8], mut f: impl FnMut(&[u8])) {
    let mut places = vec![0; n];
    let mut s = vec![from[0]; n];
    loop {
        f(&s);
        let Some(at) = places.iter().rposition(|&p| p + 1 < from.len()) else { return };
        places[at] += 1;
        s[at] = from[places[at]];
        for i in at + 1..n {
            places[i] = 0;
            s[i] = from[0];
        }
    }
}

/// A mix of characters of each length, loose bytes and cut characters.
fn mixed(rng: &mut Rng, n: usize) -> Vec<u8> {
    let mut s = Vec::new();
    let weights = [rng.below(8), rng.below(8), rng.below(8), rng.below(8), rng.below(4), rng.below(4) + 1];
    let sum: usize = weights.iter().sum();
    while s.len() < n {
        let mut at = rng.below(sum);
        let kind = weights
            .iter()
            .position(|&w| {
                if at < w {
                    true
                } else {
                    at -= w;
                    false
                }
            })
            .unwrap();
        let code = match kind {
            0 => rng.below(0x80),
            1 => 0x80 + rng.below(0x780),
            2 => 0x800 + rng.below(0xF800),
            3 => 0x10000 + rng.below(0x10_0000),
            4 => {
                s.push(rng.next() as u8);
                continue;
            }
            _ => 0x800 + rng.below(0x10_F800),
        };
        let c = char::from_u32(code as u32).unwrap_or('\u{FFFD}');
        let mut text = [0; 4];
        let text = c.encode_utf8(&mut text).as_bytes();
        let cut = if kind == 5 { rng.below(text.len()) + 1 } else { text.len() };
        s.extend_from_slice(&text[..cut]);
    }
    s.truncate(n);
    s
}

fn compare(c: &mut Compare) {
    let all: Vec<u8> = (0..=255).collect();
    let mut out = vec![UNTOUCHED; 3 * 4096 + 9];
    one(c, &[], &mut out);
    for n in 1..=3 {
        every(n, &all, |s| one(c, s, &mut out));
    }
    for n in 4..=5 {
        every(n, &EDGES, |s| one(c, s, &mut out));
    }
    // Runs of ASCII about the lengths at which they are passed in blocks, with a character or a loose byte at each place.
    for n in (0..=200).chain(505..=520) {
        for at in 0..=n {
            for other in [&b""[..], b"\x80", "é".as_bytes(), "€".as_bytes()] {
                let ascii = vec![0x7F; n];
                one(c, &[&ascii[..at], other, &ascii[at..]].concat(), &mut out);
            }
        }
    }
    for _ in 0..c.count {
        let n = c.rng.below(40);
        let s = mixed(&mut c.rng, n);
        one(c, &s, &mut out);
    }
    for _ in 0..c.count / 100 {
        let n = c.rng.below(4097);
        let s = if c.rng.below(4) == 0 { c.rng.bytes(n) } else { mixed(&mut c.rng, n) };
        one(c, &s, &mut out);
    }
}

/// The worked examples of the Unicode standard on maximal subparts (D93b, tables 3-8 to 3-11), those of document 01, and a character of
/// each length.
const EXAMPLES: [&[u8]; 16] = [
    b"\x61\xF1\x80\x80\xE1\x80\xC2\x62\x80\x63\x80\xBF\x64",
    b"\xC0\xAF\xE0\x80\xBF\xF0\x81\x82\x41",
    b"\xED\xA0\x80\xED\xBF\xBF\xED\xAF\x41",
    b"\xF4\x91\x92\x93\xFF\x41\x80\xBF\x42",
    b"\xE1\x80\xE2\xF0\x91\x92\xF1\xBF\x41",
    b"\xE2\x82\x41",
    b"\xF0\x80",
    b"\xF0\x90\x80",
    b"\xED\xA0\x80",
    b"\xE0\x80\x80",
    b"\xF4\x90\x80\x80",
    b"\xC3\x28",
    b"",
    b"A",
    b"\x41\xC3\xA9\xE2\x82\xAC\xF0\x9F\x98\x80",
    b"\xF4\x8F\xBF\xBF",
];

fn record(r: &mut Record) {
    let mut rng = Rng::new(r.rng.next());
    let mut both = |s: &[u8]| {
        let (valid, text, _) = published(s);
        r.line(&["utf8".into(), hex(s), (valid as u8).to_string()]);
        r.line(&["lossy".into(), hex(s), hex(&text)]);
    };
    EXAMPLES.into_iter().for_each(&mut both);
    let all: Vec<u8> = (0..=255).collect();
    every(1, &all, &mut both);
    every(2, &EDGES, &mut both);
    // Each first byte of two or more, with each kind of second byte.
    for first in 0xC2..=0xF4 {
        for second in [0x7F, 0x80, 0x8F, 0x90, 0x9F, 0xA0, 0xBF, 0xC0] {
            both(&[first, second, 0x80, 0x80]);
            both(&[first, second, 0xBF, 0x41]);
        }
    }
    for _ in 0..200 {
        let n = rng.below(200);
        both(&mixed(&mut rng, n));
    }
    // `size TEXT ROOM SIZE`: about the least room that is enough, `none` where it is less.
    let mut sizes = |s: &[u8]| {
        let size = published(s).1.len();
        for room in [0, size / 2, size.saturating_sub(1), size, size + 1, 3 * s.len()] {
            let answer = if size <= room { size.to_string() } else { "none".into() };
            r.line(&["size".into(), hex(s), room.to_string(), answer]);
        }
    };
    EXAMPLES.into_iter().for_each(&mut sizes);
    sizes(b"plain ASCII");
    for _ in 0..50 {
        let n = rng.below(200);
        sizes(&mixed(&mut rng, n));
    }
}

/// A mebibyte of each kind of text that is measured.
pub fn mebibytes() -> [(&'static str, Vec<u8>); 4] {
    let n = 1 << 20;
    let mut rng = Rng::new(1);
    let text = |rng: &mut Rng, from: &dyn Fn(&mut Rng) -> char| {
        let mut s = String::new();
        while s.len() < n {
            s.push(from(rng));
        }
        s.into_bytes()
    };
    let letter = |rng: &mut Rng| (b'a' + rng.below(26) as u8) as char;
    let ascii = text(&mut rng, &letter);
    let european = text(&mut rng, &|r| {
        if r.below(8) == 0 {
            r.pick(&['é', 'ü', 'ß', 'ø', 'ñ', 'ç', 'å', '€'])
        } else {
            letter(r)
        }
    });
    let cjk = text(&mut rng, &|r| char::from_u32(0x4E00 + r.below(0x5000) as u32).unwrap());
    let random = rng.bytes(n);
    [("ASCII", ascii), ("European", european), ("CJK", cjk), ("random bytes", random)]
}

fn bench(b: &mut Bench) {
    for (name, s) in &mebibytes() {
        b.row(&format!("is_utf8, 1 MiB of {name}"), || std::str::from_utf8(s).is_ok(), || library::is_utf8(s));
        let size = String::from_utf8_lossy(s).len();
        b.row(
            &format!("lossy_size, 1 MiB of {name}"),
            || String::from_utf8_lossy(s).len(),
            || library::lossy_size(s, size),
        );
        // The Rust lends the text itself where it is UTF-8; both sides end with the text in the caller's bytes.
        for (room, of) in [(3 * s.len(), "three times the room"), (size, "exact room")] {
            let (mut x, mut y) = (vec![0; room], vec![0; room]);
            b.row(
                &format!("lossy_into, 1 MiB of {name}, {of}"),
                || {
                    let text = String::from_utf8_lossy(s);
                    x[..text.len()].copy_from_slice(text.as_bytes());
                    text.len()
                },
                || library::lossy_into(s, &mut y),
            );
        }
    }
}
