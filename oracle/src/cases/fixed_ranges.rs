//! Crate `fixed_ranges`: ranges read at fixed places, beside the fields that are parsed. The fields are judged by the published Rust, which
//! writes a range anew where it reads one; the fixed places, and what the two views say of each other, by a second reading of request 10.

use super::Case;
use crate::ape::{format_minmax, shift_stored_value};
use crate::tools::{hex, Bench, Compare, Record, Rng};
use std::hint::black_box;

pub const CASE: Case = Case { name: "fixed_ranges", record, compare, bench };

/// The exported functions, as Rust.
mod library {
    extern "C" {
        fn zib_fixed_range(text: *const u8, length: usize, first: *mut u32, second: *mut u32) -> bool;
        fn zib_compare_range_views(text: *const u8, length: usize) -> u8;
    }

    /// The two numbers; where there are none, both lent numbers stay.
    pub fn fixed_range(text: &[u8]) -> Option<(u32, u32)> {
        let (mut first, mut second) = (1007, 1008);
        // SAFETY: the pointer and the length are those of a slice, and the lent numbers live through the call.
        if unsafe { zib_fixed_range(text.as_ptr(), text.len(), &mut first, &mut second) } {
            return Some((first, second));
        }
        assert_eq!((first, second), (1007, 1008), "nothing is read, and a lent number changed");
        None
    }

    pub fn views(text: &[u8]) -> u8 {
        // SAFETY: as above.
        unsafe { zib_compare_range_views(text.as_ptr(), text.len()) }
    }
}

const NAMES: [&str; 5] = ["agree", "differ", "ours", "fixed", "neither"];

/// Bytes 0 to 2 and bytes 4 to 6, each read as its leading digits.
fn fixed_again(text: &[u8]) -> Option<(u32, u32)> {
    let part = |places: [usize; 3]| {
        let digits: String =
            places.iter().map_while(|&i| text.get(i).map(|&b| b as char).filter(char::is_ascii_digit)).collect();
        digits.parse().ok()
    };
    Some((part([0, 1, 2])?, part([4, 5, 6])?))
}

/// What the published Rust reads: a range shifted by no steps is the range. A field with a byte of hex 80 or more does not parse.
fn published(text: &[u8]) -> Option<(u32, u32)> {
    let text = std::str::from_utf8(text).ok().filter(|t| t.is_ascii())?;
    let written = shift_stored_value("MP3GAIN_MINMAX", text, 0)?;
    let (least, greatest) = written.split_once(',')?;
    Some((least.parse().ok()?, greatest.parse().ok()?))
}

fn views_again(text: &[u8]) -> u8 {
    match (published(text), fixed_again(text)) {
        (Some(here), Some(there)) if here == there => 0,
        (Some(_), Some(_)) => 1,
        (Some(_), None) => 2,
        (None, Some(_)) => 3,
        (None, None) => 4,
    }
}

fn both(c: &mut Compare, text: &[u8]) {
    c.bytes("fixed_range", text, fixed_again, library::fixed_range);
    c.bytes("compare_range_views", text, views_again, library::views);
}

/// Every text of up to so many bytes over an alphabet, the shortest first.
fn each_text(alphabet: &[u8], most: usize, mut f: impl FnMut(&[u8])) {
    for length in 0..=most {
        let mut places = vec![0; length];
        loop {
            f(&places.iter().map(|&i| alphabet[i]).collect::<Vec<_>>());
            let Some(at) = places.iter().rposition(|&i| i + 1 < alphabet.len()) else {
                break;
            };
            places[at] += 1;
            places[at + 1..].fill(0);
        }
    }
}

/// Every text of a form, in which `#` stands for each digit.
fn each_of(form: &str, mut f: impl FnMut(&[u8])) {
    let digits = form.bytes().filter(|&b| b == b'#').count() as u32;
    for n in 0..10u64.pow(digits) {
        let mut left = n;
        let mut text: Vec<u8> = form.bytes().collect();
        for b in text.iter_mut().rev().filter(|b| **b == b'#') {
            *b = b'0' + (left % 10) as u8;
            left /= 10;
        }
        f(&text);
    }
}

/// The forms of the texts that request 10 and its reading name.
const FORMS: [&str; 12] = [
    "#,#", "#,##", "#,###", "##,##", "##,###", "###,##", "###,###", "###;###", "## ,## ", "+##,###", " ##,###",
    "0###,###",
];

/// The texts by name, with the answer.
const FIGURES: [(&str, &str); 13] = [
    ("94,168", "differ"),
    ("0094,168", "ours"),
    ("1094,168", "neither"),
    ("094,168", "agree"),
    ("999,001", "fixed"),
    ("094;168", "fixed"),
    ("+94,168", "ours"),
    (" 94,168", "ours"),
    ("94 ,68 ", "agree"),
    ("0,0", "ours"),
    ("0,000", "agree"),
    ("0,200", "differ"),
    ("", "neither"),
];

fn random_text(rng: &mut Rng) -> Vec<u8> {
    let n = rng.below(12);
    let any = rng.below(4) == 0;
    (0..n).map(|_| if any { rng.next() as u8 } else { rng.pick(b"00112345679,,,,+- x;\t") }).collect()
}

fn compare(c: &mut Compare) {
    for (text, name) in FIGURES {
        assert_eq!(NAMES[views_again(text.as_bytes()) as usize], name, "the second reading of {text:?}");
        both(c, text.as_bytes());
    }
    each_text(b"0123456789,+- x", 4, |text| both(c, text));
    each_text(b"029,+ x", 7, |text| both(c, text));
    for form in FORMS {
        each_of(form, |text| both(c, text));
    }
    each_of("1###,###", |text| both(c, text));
    // Every range that is written has the same two numbers in both views.
    for least in 0..=255 {
        for greatest in 0..=255 {
            let text = format_minmax(least, greatest).into_bytes();
            c.bytes(
                "a range that is written",
                &text,
                |_| (Some((least as u32, greatest as u32)), 0),
                |s| (library::fixed_range(s), library::views(s)),
            );
        }
    }
    for _ in 0..c.count {
        let text = random_text(&mut c.rng);
        both(c, &text);
    }
}

fn record(r: &mut Record) {
    let random: Vec<_> = (0..500).map(|_| random_text(&mut r.rng)).collect();
    let mut line = |text: &[u8]| {
        let fixed = fixed_again(text).map_or("none".to_string(), |(a, b)| format!("{a} {b}"));
        r.line(&[format!("fixed {} {fixed}", hex(text))]);
        r.line(&[format!("views {} {}", hex(text), NAMES[views_again(text) as usize])]);
    };
    for (text, _) in FIGURES {
        line(text.as_bytes());
    }
    each_text(b"02,+ x", 3, &mut line);
    for form in FORMS {
        // Every so many of a form, so that each has about fifty.
        let digits = form.bytes().filter(|&b| b == b'#').count() as u32;
        let (mut i, step) = (0, (10u64.pow(digits) / 50).max(1) | 1);
        each_of(form, |text| {
            if i % step == 0 {
                line(text);
            }
            i += 1;
        });
    }
    for text in random {
        line(&text);
    }
}

fn bench(b: &mut Bench) {
    b.row(
        "fixed_range (Rust: a second reading of request 10)",
        || fixed_again(black_box(b"094,168")),
        || library::fixed_range(black_box(b"094,168")),
    );
    b.row(
        "compare_range_views (Rust: its own range, and a second reading of request 10)",
        || views_again(black_box(b"094,168")),
        || library::views(black_box(b"094,168")),
    );
}
