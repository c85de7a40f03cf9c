//! Crates `number`, `decimal`, `decibels`, `values` and `slip`: undo texts, ranges, gain texts and the level slip.
//!
//! Document 01 compares within a domain. What lies outside is told here by a reading of its own: fields with a byte of hex 80 or more,
//! gain texts of another form, gain texts by more than 255 steps. Where document 01 still gives the answer (as found), that is
//! what the library is held to. Peaks are held to the reading of `peaks`, which has the Rust beside it. The slip is not in the published source: it is held to a second reading of document 01.

use super::{peaks, Case};
use crate::ape::{
    accumulate_undo, format_minmax, format_undo_value, parse_undo_values, parse_undo_wrap, range_wraps_out,
    shift_stored_value, MP3GAIN_VALUE_KEYS,
};
use crate::gain::steps_to_db;
use crate::tools::{hex, Bench, Compare, Record, Rng};
use std::fmt::Debug;
use std::hint::black_box;

pub const CASE: Case = Case { name: "values", record, compare, bench };

/// The exported functions, as Rust, and safe wrappers.
pub mod library {
    extern "C" {
        fn zib_parse_undo(text: *const u8, length: usize, left: *mut i32, right: *mut i32, mode: *mut u32) -> u32;
        fn zib_format_undo_value(
            left: i32,
            right: i32,
            wrap: bool,
            out: *mut u8,
            room: usize,
            written: *mut usize,
        ) -> u32;
        fn zib_accumulate_undo(
            text: *const u8,
            length: usize,
            left: i32,
            right: i32,
            newleft: *mut i32,
            newright: *mut i32,
        ) -> u32;
        fn zib_format_minmax(least: u8, greatest: u8, out: *mut u8, room: usize, written: *mut usize) -> u32;
        fn zib_range_wraps_out(
            key: *const u8,
            key_length: usize,
            value: *const u8,
            value_length: usize,
            steps: i32,
        ) -> bool;
        fn zib_steps_to_db(steps: i32, minus: *mut u32, millionths: *mut u64, rest: *mut u64) -> u32;
        fn zib_shift_stored_value(
            key: *const u8,
            key_length: usize,
            value: *const u8,
            value_length: usize,
            steps: i32,
            moved: *mut u32,
            out: *mut u8,
            room: usize,
            written: *mut usize,
        ) -> u32;
        fn zib_parse_slip(text: *const u8, length: usize, left: *mut i32, right: *mut i32, mode: *mut u32) -> u32;
    }

    pub fn parse_undo(text: &[u8]) -> ((i32, i32), bool) {
        let (mut left, mut right, mut wrap) = (7, 7, 7);
        // SAFETY: pointers and lengths of slices; the lent numbers live through the call. So below.
        let reply = unsafe { zib_parse_undo(text.as_ptr(), text.len(), &mut left, &mut right, &mut wrap) };
        assert!(reply == 0 && wrap < 2);
        ((left, right), wrap == 1)
    }

    pub fn format_undo_into(left: i32, right: i32, wrap: bool, out: &mut [u8], written: &mut usize) -> u32 {
        unsafe { zib_format_undo_value(left, right, wrap, out.as_mut_ptr(), out.len(), written) }
    }

    pub fn accumulate_undo(text: &[u8], left: i32, right: i32) -> (i32, i32) {
        let (mut a, mut b) = (7, 7);
        let reply = unsafe { zib_accumulate_undo(text.as_ptr(), text.len(), left, right, &mut a, &mut b) };
        assert_eq!(reply, 0);
        (a, b)
    }

    pub fn format_minmax_into(least: u8, greatest: u8, out: &mut [u8], written: &mut usize) -> u32 {
        unsafe { zib_format_minmax(least, greatest, out.as_mut_ptr(), out.len(), written) }
    }

    pub fn range_wraps_out(key: &[u8], value: &[u8], steps: i32) -> bool {
        unsafe { zib_range_wraps_out(key.as_ptr(), key.len(), value.as_ptr(), value.len(), steps) }
    }

    pub fn steps_to_db(steps: i32) -> (bool, u64, u64) {
        let (mut minus, mut millionths, mut rest) = (7, 7, 7);
        let reply = unsafe { zib_steps_to_db(steps, &mut minus, &mut millionths, &mut rest) };
        assert!(reply == 0 && minus < 2);
        (minus == 1, millionths, rest)
    }

    pub fn shift_into(
        key: &[u8],
        value: &[u8],
        steps: i32,
        moved: &mut u32,
        out: &mut [u8],
        written: &mut usize,
    ) -> u32 {
        unsafe {
            let (k, v, o) = (key.as_ptr(), value.as_ptr(), out.as_mut_ptr());
            zib_shift_stored_value(k, key.len(), v, value.len(), steps, moved, o, out.len(), written)
        }
    }

    /// The steps and the flag, if the slip names one.
    pub fn parse_slip(text: &[u8]) -> Result<(i32, i32, Option<bool>), u32> {
        let (mut left, mut right, mut mode) = (1007, 1008, 1009);
        match unsafe { zib_parse_slip(text.as_ptr(), text.len(), &mut left, &mut right, &mut mode) } {
            0 => {
                assert!(mode <= 2, "zib_parse_slip answers mode {mode}");
                Ok((left, right, (mode < 2).then_some(mode == 1)))
            }
            reply => {
                assert_eq!((left, right, mode), (1007, 1008, 1009), "a refused call changed a lent number");
                Err(reply)
            }
        }
    }
}

/// What fills an output before a call, to see which bytes it changed.
const FILL: u8 = 0xC3;

/// What a call leaves in lent numbers that it does not touch.
const UNTOUCHED: usize = 77;

/// A call that writes a text, tried with ample room, with exact room, and with one byte less.
fn text_of(call: impl Fn(&mut [u8], &mut usize) -> u32) -> Vec<u8> {
    let (mut out, mut n) = ([FILL; 40], UNTOUCHED);
    assert_eq!(call(&mut out, &mut n), 0);
    assert!(out[n..].iter().all(|&b| b == FILL), "wrote past its length");
    let (mut exact, mut m) = ([FILL; 40], UNTOUCHED);
    assert_eq!((call(&mut exact[..n], &mut m), m), (0, n), "exact room");
    assert!(exact == out, "exact room, other bytes");
    if n > 0 {
        let (mut short, mut m) = ([FILL; 40], UNTOUCHED);
        assert_eq!((call(&mut short[..n - 1], &mut m), m), (5, UNTOUCHED), "one byte short");
        assert!(short == [FILL; 40], "one byte short, and wrote");
    }
    out[..n].to_vec()
}

fn our_undo_text(left: i32, right: i32, wrap: bool) -> Vec<u8> {
    text_of(|out, n| library::format_undo_into(left, right, wrap, out, n))
}

fn our_minmax(least: u8, greatest: u8) -> Vec<u8> {
    text_of(|out, n| library::format_minmax_into(least, greatest, out, n))
}

/// The new text, or none where the value stays as found.
pub fn our_shift(key: &str, value: &[u8], steps: i32) -> Option<Vec<u8>> {
    let key = key.as_bytes();
    let (mut moved, mut out, mut n) = (7, [FILL; 40], UNTOUCHED);
    assert_eq!(library::shift_into(key, value, steps, &mut moved, &mut out, &mut n), 0);
    if moved == 0 {
        assert!(n == 0 && out == [FILL; 40], "stays as found, and wrote");
        return None;
    }
    Some(text_of(|out, n| {
        let mut flag = 7;
        let reply = library::shift_into(key, value, steps, &mut flag, out, n);
        assert_eq!(flag, if reply == 0 { 1 } else { 7 });
        reply
    }))
}

// ---- document 01, read a second time

/// Fields without a byte of hex 80 or more.
fn fields_are_ascii(text: &[u8], from: usize, count: usize) -> bool {
    text.split(|&b| b == b',').skip(from).take(count).all(|f| f.is_ascii())
}

/// Both fields of a range are within the domain; a text without a comma has none.
pub fn is_range_domain(text: &[u8]) -> bool {
    text.is_ascii() || !text.contains(&b',')
}

/// A whole number with spaces about it, exactly.
pub fn whole(field: &[u8]) -> Option<i128> {
    let space = |b: &u8| matches!(b, 9..=13 | 32);
    let from = field.iter().position(|b| !space(b))?;
    let to = field.iter().rposition(|b| !space(b))? + 1;
    let (minus, digits) = match &field[from..to] {
        [b'-', rest @ ..] => (true, rest),
        [b'+', rest @ ..] => (false, rest),
        rest => (false, rest),
    };
    if digits.is_empty() || !digits.iter().all(u8::is_ascii_digit) {
        return None;
    }
    let n = digits.iter().fold(0i128, |n, d| (n * 10 + (d - b'0') as i128).min(1 << 100));
    Some(if minus { -n } else { n })
}

pub fn is_i32(n: i128) -> bool {
    i32::try_from(n).is_ok()
}

/// The numbers of a range that are within i32, each plus the steps.
pub fn range_sums(value: &[u8], steps: i32) -> Vec<i128> {
    let Some(comma) = value.iter().position(|&b| b == b',') else { return vec![] };
    let numbers = [whole(&value[..comma]), whole(&value[comma + 1..])];
    numbers.into_iter().flatten().filter(|&n| is_i32(n)).map(|n| n + steps as i128).collect()
}

/// A gain text: optional sign, 1 to 4 digits, a point, 6 digits, optionally ` dB`.
pub fn is_gain(text: &[u8]) -> bool {
    let text = text.strip_suffix(b" dB").unwrap_or(text);
    let text = if let [b'+' | b'-', rest @ ..] = text { rest } else { text };
    let Some(point) = text.iter().position(|&b| b == b'.') else { return false };
    let (before, after) = (&text[..point], &text[point + 1..]);
    let digits = |s: &[u8]| s.iter().all(u8::is_ascii_digit);
    (1..=4).contains(&before.len()) && after.len() == 6 && digits(before) && digits(after)
}

/// A slip by its form: the steps, whatever their size, and the flag, if it names one (document 02's request 6).
pub fn slip_form(text: &[u8]) -> Option<(i32, i32, Option<bool>)> {
    fn step(line: &[u8], name: &[u8]) -> Option<i32> {
        let text = line.strip_prefix(name)?;
        let digits = if let [b'+' | b'-', rest @ ..] = text { rest } else { text };
        if !(1..=5).contains(&digits.len()) || !digits.iter().all(u8::is_ascii_digit) {
            return None;
        }
        std::str::from_utf8(text).ok()?.parse().ok()
    }
    let lines: Vec<&[u8]> = text.split(|&b| b == b'\n').collect();
    let (first, second, wrap) = match lines[..] {
        [a, b, b""] => (a, b, None),
        [a, b, b"mode=N", b""] => (a, b, Some(false)),
        [a, b, b"mode=W", b""] => (a, b, Some(true)),
        _ => return None,
    };
    Some((step(first, b"left=")?, step(second, b"right=")?, wrap))
}

fn slip_reading(text: &[u8]) -> Result<(i32, i32, Option<bool>), u32> {
    let (left, right, wrap) = slip_form(text).ok_or(13u32)?;
    if left.abs() > 255 || right.abs() > 255 {
        return Err(2);
    }
    Ok((left, right, wrap))
}

// ---- both sides

pub const TRACK_GAIN: &str = "REPLAYGAIN_TRACK_GAIN";
pub const TRACK_PEAK: &str = "REPLAYGAIN_TRACK_PEAK";
pub const MINMAX: &str = "MP3GAIN_MINMAX";

fn is_one_of(key: &str, of: &[&str]) -> bool {
    of.iter().any(|k| k.eq_ignore_ascii_case(key))
}

pub fn is_range_key(key: &str) -> bool {
    is_one_of(key, &[MINMAX, "MP3GAIN_ALBUM_MINMAX"])
}

pub fn is_gain_key(key: &str) -> bool {
    is_one_of(key, &[TRACK_GAIN, "REPLAYGAIN_ALBUM_GAIN"])
}

pub fn is_peak_key(key: &str) -> bool {
    is_one_of(key, &[TRACK_PEAK, "REPLAYGAIN_ALBUM_PEAK"])
}

/// The published answers, or none outside the domain.
fn published_values(text: &[u8]) -> Option<(i32, i32)> {
    fields_are_ascii(text, 0, 2).then_some(())?;
    std::str::from_utf8(text).ok().map(|s| parse_undo_values(Some(s)))
}

fn published_wrap(text: &[u8]) -> Option<bool> {
    fields_are_ascii(text, 2, 1).then_some(())?;
    std::str::from_utf8(text).ok().map(|s| parse_undo_wrap(Some(s)))
}

/// A sum that passes i32 panics in the Rust or wraps, as it was built: there the exact sum decides.
fn published_out(key: &str, value: &[u8], steps: i32) -> Option<bool> {
    is_range_domain(value).then_some(())?;
    let text = std::str::from_utf8(value).ok()?;
    let sums = range_sums(value, steps);
    if is_range_key(key) && !sums.iter().all(|&n| is_i32(n)) {
        return Some(sums.iter().any(|n| !(0..=255).contains(n)));
    }
    Some(range_wraps_out(key, text, steps))
}

/// Gain texts of another form stay as found; those of the form are compared for steps in -255..255.
fn published_shift(key: &str, value: &[u8], steps: i32) -> Option<Option<Vec<u8>>> {
    if is_peak_key(key) {
        return Some(peaks::moved(value, steps));
    }
    if is_gain_key(key) && !is_gain(value) {
        return Some(None);
    }
    let inside = if is_gain_key(key) { (-255..=255).contains(&steps) } else { is_range_domain(value) };
    inside.then_some(())?;
    std::str::from_utf8(value).ok().map(|s| shift_stored_value(key, s, steps).map(String::into_bytes))
}

/// Both sides, where the published one has an answer.
fn both<A: PartialEq + Debug>(
    c: &mut Compare,
    what: impl Fn() -> String,
    text: &[u8],
    published: impl Fn(&[u8]) -> Option<A>,
    ours: impl Fn(&[u8]) -> A,
) {
    let Some(answer) = published(text) else { return };
    if answer == ours(text) {
        c.inputs += 1;
    } else {
        c.bytes(&what(), text, &published, |s| published(s).map(|_| ours(s)));
    }
}

fn undo(c: &mut Compare, text: &[u8]) {
    both(c, || "parse_undo_values".to_string(), text, published_values, |s| library::parse_undo(s).0);
    both(c, || "parse_undo_wrap".to_string(), text, published_wrap, |s| library::parse_undo(s).1);
}

fn accumulate(c: &mut Compare, text: &[u8], left: i32, right: i32) {
    both(
        c,
        || format!("accumulate_undo by {left}, {right}"),
        text,
        |s| published_values(s).map(|_| accumulate_undo(std::str::from_utf8(s).ok(), (left, right))),
        |s| library::accumulate_undo(s, left, right),
    );
}

fn out(c: &mut Compare, key: &str, value: &[u8], steps: i32) {
    both(
        c,
        || format!("range_wraps_out of {key} by {steps}"),
        value,
        |s| published_out(key, s, steps),
        |s| library::range_wraps_out(key.as_bytes(), s, steps),
    );
}

pub fn shift(c: &mut Compare, key: &str, value: &[u8], steps: i32) {
    both(
        c,
        || format!("shift_stored_value of {key} by {steps}"),
        value,
        |s| published_shift(key, s, steps),
        |s| our_shift(key, s, steps),
    );
}

fn range(c: &mut Compare, key: &str, value: &[u8], steps: i32) {
    out(c, key, value, steps);
    shift(c, key, value, steps);
}

fn slip(c: &mut Compare, text: &[u8]) {
    c.bytes("parse_slip, beside a reading of document 01", text, slip_reading, library::parse_slip);
}

// ---- inputs

/// The last is two bytes of hex 80 or more: a Unicode space, which the Rust trims.
const ALPHABET: [&str; 17] =
    ["0", "1", "9", "+", "-", ",", ".", " ", "\t", "\x0B", "\x1C", "W", "w", "n", "d", "B", "\u{A0}"];

const SLIP_WORDS: [&str; 11] = ["left=", "right=", "mode=W", "mode=N", "mode=", "\n", "1", "-", "+", "255", "256"];

/// Every text of at most `most` of these words, the short ones first.
fn every(words: &[&str], most: usize, mut f: impl FnMut(&[u8])) {
    fn go(words: &[&str], left: usize, text: &mut Vec<u8>, f: &mut impl FnMut(&[u8])) {
        if left == 0 {
            return f(text);
        }
        for word in words {
            text.extend_from_slice(word.as_bytes());
            go(words, left - 1, text, f);
            text.truncate(text.len() - word.len());
        }
    }
    for n in 0..=most {
        go(words, n, &mut Vec::new(), &mut f);
    }
}

/// Texts of numbers about every end, and texts that are nearly numbers.
#[rustfmt::skip]
pub const NUMBERS: [&str; 40] = [
    "", "0", "+0", "-0", "5", "+5", "-5", "007", "+003", "-012", "94", "168", "255", "+255", "256",
    "-1", "300", "32767", "32768", "-32768", "2147483647", "+2147483647", "2147483648", "-2147483648",
    "-2147483649", "4294967295", "4294967296", "4294967301", "18446744073709551621", "99999999999999999999999999",
    "00000000000000000000000005", "-00000000000000000000255", "+", "-", "+-1", "--1", "1.0", "1e3", "junk",
    "1 2",
];

const PADS: [(&str, &str); 9] = [
    ("", ""),
    (" ", ""),
    ("", " "),
    ("\t\n\x0B", "\x0C\r "),
    ("\x1C", ""),
    ("", "\x1F"),
    ("\0", ""),
    ("", "\0"),
    ("\x08", "\x0E"),
];

pub const FLAGS: [&str; 14] =
    ["", "W", "w", "N", "n", " W", "w\t", "\x0BW\x0C", "\x1CW", "WW", "W,", "N,W", "x", "W\0"];

/// Steps about every end.
#[rustfmt::skip]
pub const ENDS: [i32; 26] = [
    0, 1, -1, 2, -2, 9, -9, 100, -100, 254, 255, 256, 257, -254, -255, -256, -257, 511, -511, 32768,
    -32768, 65536, i32::MIN, i32::MIN + 1, i32::MAX - 1, i32::MAX,
];

fn padded(number: &str, pad: (&str, &str)) -> String {
    format!("{}{number}{}", pad.0, pad.1)
}

pub fn any_i32(rng: &mut Rng) -> i32 {
    rng.next() as i32 >> rng.below(32)
}

/// One or two bytes of a text left out, put in, or changed.
pub fn nearly(rng: &mut Rng, text: &[u8]) -> Vec<u8> {
    let mut text = text.to_vec();
    for _ in 0..1 + rng.below(2) {
        let word = rng.pick(&ALPHABET).as_bytes();
        let at = rng.below(text.len() + 1);
        let to = at + (at < text.len() && rng.below(3) > 0) as usize;
        text.splice(at..to, if rng.below(3) > 0 { word } else { &[] }.iter().copied());
    }
    text
}

fn random_text(rng: &mut Rng) -> Vec<u8> {
    let n = rng.below(24);
    (0..n).flat_map(|_| rng.pick(&ALPHABET).bytes()).collect()
}

/// A gain text of so many millionths, whose point stands behind at least `digits` digits.
pub fn gain_text(sign: &str, millionths: u64, digits: usize, unit: bool) -> String {
    let (whole, part) = (millionths / 1_000_000, millionths % 1_000_000);
    format!("{sign}{whole:0digits$}.{part:06}{}", if unit { " dB" } else { "" })
}

/// Every spelling of a gain.
pub fn spellings(millionths: i64, mut f: impl FnMut(&str)) {
    let signs: &[&str] = match millionths {
        0 => &["", "+", "-"],
        1.. => &["", "+"],
        _ => &["-"],
    };
    for sign in signs {
        for digits in 1..=4 {
            for unit in [false, true] {
                f(&gain_text(sign, millionths.unsigned_abs(), digits, unit));
            }
        }
    }
}

/// The keys in every kind of spelling, and keys that are nearly one of them.
pub fn keys() -> Vec<String> {
    let mut keys =
        vec!["".to_string(), "MP3GAIN".to_string(), "Title".to_string(), "MP3GAIN\u{5F}MINMA\u{130}".to_string()];
    for key in MP3GAIN_VALUE_KEYS {
        let mixed = key.bytes().enumerate().map(|(i, b)| if i % 2 == 0 { b.to_ascii_lowercase() } else { b } as char);
        keys.extend([key.to_string(), key.to_lowercase(), mixed.collect(), key[1..].to_string(), format!("{key} ")]);
        keys.extend((0..key.len()).map(|at| {
            let mut other = key.as_bytes().to_vec();
            other[at] ^= 0x20;
            String::from_utf8(other).unwrap()
        }));
    }
    keys
}

// ---- the comparison

fn compare(c: &mut Compare) {
    c.inputs += 2;
    assert_eq!((parse_undo_values(None), parse_undo_wrap(None)), library::parse_undo(b""));
    assert_eq!(accumulate_undo(None, (3, i32::MIN)), library::accumulate_undo(b"", 3, i32::MIN));
    compare_undo(c);
    compare_ranges(c);
    compare_gains(c);
    compare_slips(c);
    compare_steps(c);
}

fn compare_undo(c: &mut Compare) {
    every(&ALPHABET, 5, |text| undo(c, text));
    every(&ALPHABET, 3, |text| undo(c, &[b"1,-2,", text].concat()));
    for left in NUMBERS {
        for pad in PADS {
            let left = padded(left, pad);
            undo(c, left.as_bytes());
            for right in NUMBERS {
                for flag in FLAGS {
                    undo(c, format!("{left},{},{flag}", padded(right, pad)).as_bytes());
                }
            }
        }
        for right in NUMBERS {
            for (a, b) in ENDS.iter().flat_map(|a| ENDS.iter().map(move |b| (*a, *b))) {
                accumulate(c, format!("{left},{right},N").as_bytes(), a, b);
            }
        }
    }
    for steps in -600..=600 {
        for text in ["", "+003,-012,N", "-3,junk", "2147483647,-2147483648,W"] {
            accumulate(c, text.as_bytes(), steps, -steps);
        }
    }
    let numbers = || (-1100..=1100).chain(ENDS).chain([i32::MAX / 2, i32::MIN / 2]);
    for wrap in [false, true] {
        for left in numbers() {
            for right in ENDS {
                format_undo(c, left, right, wrap);
                format_undo(c, right, left, wrap);
            }
        }
    }
    for _ in 0..c.count / 2 {
        let (left, right, wrap) = (any_i32(&mut c.rng), any_i32(&mut c.rng), c.rng.below(2) == 1);
        format_undo(c, left, right, wrap);
        let valid = format_undo_value(left, right, wrap).into_bytes();
        undo(c, &valid);
        let near = nearly(&mut c.rng, &valid);
        undo(c, &near);
        let (a, b) = (any_i32(&mut c.rng), any_i32(&mut c.rng));
        accumulate(c, &near, a, b);
        let text = random_text(&mut c.rng);
        undo(c, &text);
    }
}

fn format_undo(c: &mut Compare, left: i32, right: i32, wrap: bool) {
    c.numbers(
        "format_undo_value (left, right, wrap)",
        &[left as i64, right as i64, wrap as i64],
        |n| format_undo_value(n[0] as i32, n[1] as i32, n[2] == 1).into_bytes(),
        |n| our_undo_text(n[0] as i32, n[1] as i32, n[2] == 1),
    );
}

fn compare_ranges(c: &mut Compare) {
    for least in 0..=255 {
        for greatest in 0..=255 {
            c.numbers(
                "format_minmax (least, greatest)",
                &[least, greatest],
                |n| format_minmax(n[0] as u8, n[1] as u8).into_bytes(),
                |n| our_minmax(n[0] as u8, n[1] as u8),
            );
        }
    }
    for steps in [0, 1, -1, 255, -255, 256] {
        every(&ALPHABET, 4, |text| range(c, MINMAX, text, steps));
    }
    for left in NUMBERS {
        for right in NUMBERS {
            for steps in ENDS {
                range(c, MINMAX, format!("{left},{right}").as_bytes(), steps);
            }
        }
        for pad in PADS {
            for steps in [0, 1, -100] {
                range(c, MINMAX, format!("{},{}", padded(left, pad), padded("168", pad)).as_bytes(), steps);
                range(c, MINMAX, format!("{},{}", padded("94", pad), padded(left, pad)).as_bytes(), steps);
            }
        }
    }
    for steps in (-600..=600).chain(ENDS) {
        for n in 0..=255 {
            range(c, MINMAX, format_minmax(n, 255 - n / 2).as_bytes(), steps);
        }
    }
    for key in keys() {
        for value in ["94,168", "-3.500000 dB", "0.998000", "+003,+003,N", "", "é", "1,2,3"] {
            for steps in [0, 1, -255, 255] {
                range(c, &key, value.as_bytes(), steps);
            }
        }
    }
    for _ in 0..c.count / 2 {
        let steps = any_i32(&mut c.rng);
        let valid = format!("{},{}", any_i32(&mut c.rng), any_i32(&mut c.rng));
        range(c, "mp3gain_album_minmax", valid.as_bytes(), steps);
        let small = format_minmax(c.rng.next() as u8, c.rng.next() as u8);
        let near = nearly(&mut c.rng, small.as_bytes());
        range(c, MINMAX, &near, steps);
    }
}

/// A step in -255..255, each in its turn.
pub fn turn(i: u64) -> i32 {
    (i % 511) as i32 - 255
}

/// How many gain texts have one digit before the point, no sign and no unit.
const SHORT: u64 = 10_000_000;

fn compare_gains(c: &mut Compare) {
    // Texts of the form and near it: no other is shifted.
    let form = ["0", "1.", "234567", ".", "+", "-", " ", " dB", "dB", "d", "B", "\u{A0}", "9"];
    every(&form, 5, |text| shift(c, TRACK_GAIN, text, 1));
    for steps in -255..=255 {
        // All that come to zero, or a millionth or two from it.
        let there = (steps as f64 * 1505149.978319906).round() as i64;
        for m in there - 2..=there + 2 {
            spellings(m, |text| shift(c, TRACK_GAIN, text.as_bytes(), steps));
        }
        for m in [0, 1, -1, 999_999, -1_000_000, 1_505_150, -3_500_000, 9_999_999_999, -9_999_999_999] {
            spellings(m, |text| shift(c, "replaygain_album_gain", text.as_bytes(), steps));
        }
    }
    // The short ones (one digit before the point) at every step: four thousand of them in a run of a million, or all.
    let stride = if c.every { 1 } else { (SHORT / (c.count / 250).max(1)).max(1) };
    let threads = std::thread::available_parallelism().map_or(1, |n| n.get() as u64);
    c.inputs += std::thread::scope(|scope| {
        let run = |thread: u64| {
            let mut own = Compare::new(c.name, 0, 0, false);
            for m in (thread * stride..SHORT).step_by((threads * stride) as usize) {
                let text = gain_text("", m + m / stride % stride, 1, false);
                (-255..=255).for_each(|steps| shift(&mut own, TRACK_GAIN, text.as_bytes(), steps));
            }
            own.inputs
        };
        let all: Vec<_> = (0..threads).map(|thread| scope.spawn(move || run(thread))).collect();
        all.into_iter().map(|one| one.join().unwrap()).sum::<u64>()
    });
    for i in 0..c.count {
        let m = c.rng.next() % 10u64.pow(7 + c.rng.below(4) as u32);
        let (sign, digits) = (c.rng.pick(&["", "+", "-"]), 1 + c.rng.below(4));
        let text = gain_text(sign, m, digits, c.rng.below(2) == 0);
        shift(c, TRACK_GAIN, text.as_bytes(), turn(i));
        if i % 4 == 0 {
            let near = nearly(&mut c.rng, text.as_bytes());
            shift(c, TRACK_GAIN, &near, turn(i));
        }
    }
}

fn compare_slips(c: &mut Compare) {
    every(&SLIP_WORDS, 6, |text| slip(c, text));
    every(&SLIP_WORDS, 4, |text| {
        slip(c, &[b"left=", text].concat());
        slip(c, &[b"left=1\nright=", text].concat());
        slip(c, &[b"left=-255\nright=+00255\n", text].concat());
        slip(c, &[text, b"left=1\nright=2\n"].concat());
        slip(c, &[b"left=256\n", text, b"right=2\n"].concat());
    });
    #[rustfmt::skip]
    let steps = [
        "0", "-0", "+0", "1", "-1", "255", "-255", "+00255", "256", "-256", "99999", "-99999", "000255",
        "100000", "", "+", "--1", "1 ", " 1", "1\r",
    ];
    for left in steps {
        for right in steps {
            for mode in [
                "",
                "mode=W\n",
                "mode=N\n",
                "mode=w\n",
                "mode=W",
                "mode=\n",
                "\n",
                "mode=W\nmode=N\n",
                "mode=W\r\n",
                "x",
            ] {
                slip(c, format!("left={left}\nright={right}\n{mode}").as_bytes());
                slip(c, format!("right={left}\nleft={right}\n{mode}").as_bytes());
            }
        }
    }
    let good = b"left=-12\nright=+255\nmode=W\n";
    for at in 0..=good.len() {
        for byte in 0..=255 {
            slip(c, &[&good[..at], &[byte], &good[at..]].concat());
            slip(c, &[&good[..at], &[byte], good.get(at + 1..).unwrap_or(b"")].concat());
        }
    }
    for n in -1000..=1000 {
        slip(c, format!("left={n}\nright=7\n").as_bytes());
        slip(c, format!("left=7\nright={n:+}\nmode=N\n").as_bytes());
    }
    for _ in 0..c.count / 2 {
        let n = c.rng.below(12);
        let text: Vec<u8> = (0..n).flat_map(|_| c.rng.pick(&SLIP_WORDS).bytes()).collect();
        slip(c, &text);
        let (a, b) = (any_i32(&mut c.rng) % 300, any_i32(&mut c.rng) % 300);
        let mode = c.rng.pick(&["", "mode=W\n", "mode=N\n"]);
        let text = format!("left={a}\nright={b}\n{mode}");
        slip(c, text.as_bytes());
        let near = nearly(&mut c.rng, text.as_bytes());
        slip(c, &near);
    }
}

/// Steps as decibels by document 01's step, exactly.
fn exact_db(steps: i64) -> (bool, u64, u64) {
    let units = (steps as i128 * 1_505_149_978_319_906).unsigned_abs();
    (steps < 0, (units / 1_000_000_000) as u64, (units % 1_000_000_000) as u64)
}

/// Steps as decibels; for steps in -255..255 f64 gives the same millionth.
fn compare_steps(c: &mut Compare) {
    let random: Vec<i32> = (0..c.count / 10).map(|_| any_i32(&mut c.rng)).collect();
    for steps in (-1000..=1000).chain(ENDS).chain(random) {
        c.numbers("steps_to_db", &[steps as i64], |n| exact_db(n[0]), |n| library::steps_to_db(n[0] as i32));
    }
    for steps in -255..=255 {
        c.numbers(
            "steps_to_db, the nearest millionth",
            &[steps],
            |n| (steps_to_db(n[0] as i32) * 1_000_000.0).round() as i64,
            |n| {
                let (minus, millionths, rest) = library::steps_to_db(n[0] as i32);
                let nearest = (millionths + (rest >= 500_000_000) as u64) as i64;
                if minus {
                    -nearest
                } else {
                    nearest
                }
            },
        );
    }
}

// ---- recorded answers

fn record(r: &mut Record) {
    let words = |w: &[&dyn ToString]| w.iter().map(|x| x.to_string()).collect::<Vec<_>>();
    // `undo TEXT LEFT RIGHT FLAG`
    let mut texts: Vec<Vec<u8>> = ["-3,junk", "junk,7", "+003,-012,N", "+000,+1000,W"].map(|s| s.into()).to_vec();
    for (i, left) in NUMBERS.iter().enumerate() {
        for (j, right) in NUMBERS.iter().enumerate().filter(|(j, _)| (i + j) % 5 == 0) {
            let pad = PADS[(i + j / 5) % PADS.len()];
            texts.push(
                format!("{},{},{}", padded(left, pad), padded(right, pad), FLAGS[(i * 3 + j) % FLAGS.len()]).into(),
            );
        }
    }
    for _ in 0..500 {
        let valid = format_undo_value(any_i32(&mut r.rng), any_i32(&mut r.rng), r.rng.below(2) == 1);
        texts.push(nearly(&mut r.rng, valid.as_bytes()));
        texts.push(random_text(&mut r.rng));
    }
    for text in &texts {
        if let (Some((left, right)), Some(wrap)) = (published_values(text), published_wrap(text)) {
            r.line(&words(&[&"undo", &hex(text), &left, &right, &(wrap as u8)]));
            let (a, b) = (any_i32(&mut r.rng), r.rng.pick(&ENDS));
            let (x, y) = accumulate_undo(Some(std::str::from_utf8(text).unwrap()), (a, b));
            r.line(&words(&[&"accumulate", &hex(text), &a, &b, &x, &y]));
        }
    }
    // `format LEFT RIGHT FLAG TEXT`
    let mut pairs = vec![(3, -12, false), (0, 1000, true)];
    pairs.extend(ENDS.iter().flat_map(|a| ENDS.iter().map(move |b| (*a, *b, (a ^ b) & 1 == 1))));
    pairs.extend((0..300).map(|_| (any_i32(&mut r.rng), any_i32(&mut r.rng), r.rng.below(2) == 1)));
    for (left, right, wrap) in pairs {
        let text = format_undo_value(left, right, wrap);
        r.line(&words(&[&"format", &left, &right, &(wrap as u8), &hex(text.as_bytes())]));
    }
    // `minmax LEAST GREATEST TEXT`
    for n in 0..=255u8 {
        let other = n.wrapping_mul(37);
        r.line(&words(&[&"minmax", &n, &other, &hex(format_minmax(n, other).as_bytes())]));
    }
    // `out KEY VALUE STEPS ANSWER` and `shift KEY VALUE STEPS TEXT`, `none` where the value stays as found.
    let line = |r: &mut Record, key: &str, value: &[u8], steps: i32| {
        if let Some(answer) = published_out(key, value, steps) {
            r.line(&words(&[&"out", &hex(key.as_bytes()), &hex(value), &steps, &(answer as u8)]));
        }
        if let Some(answer) = published_shift(key, value, steps) {
            let text = answer.map_or("none".to_string(), |t| hex(&t));
            r.line(&words(&[&"shift", &hex(key.as_bytes()), &hex(value), &steps, &text]));
        }
    };
    line(r, MINMAX, b"094,168", 100);
    for (value, steps) in [("-3.500000 dB", 2), ("+1.505150 dB", 1), ("-1.505150 dB", -1)] {
        line(r, TRACK_GAIN, value.as_bytes(), steps);
    }
    for (i, key) in keys().iter().enumerate() {
        line(r, key, b"94,168", turn(i as u64 * 37));
        line(r, key, b"-3.500000 dB", turn(i as u64 * 37));
    }
    for (i, left) in NUMBERS.iter().enumerate() {
        for (j, right) in NUMBERS.iter().enumerate().filter(|(j, _)| (i + j) % 3 == 0) {
            line(r, MINMAX, format!("{left},{right}").as_bytes(), ENDS[(i * 7 + j) % ENDS.len()]);
        }
    }
    for steps in -255..=255i32 {
        let there = (steps as f64 * 1505149.978319906).round() as i64;
        let mut spelled = Vec::new();
        spellings(there, |text| spelled.push(text.to_string()));
        let text = &spelled[steps.unsigned_abs() as usize % spelled.len()];
        let any = gain_text("-", r.rng.next() % 10_000_000_000, 1, true);
        for text in [text, &any] {
            line(r, TRACK_GAIN, text.as_bytes(), steps);
        }
        let value = format_minmax(r.rng.next() as u8, r.rng.next() as u8);
        line(r, MINMAX, value.as_bytes(), steps);
    }
    // `slip TEXT REPLY LEFT RIGHT FLAG`, the flag `-` where the slip names none: not in the published source, by the second reading.
    let mut slips: Vec<Vec<u8>> = Vec::new();
    for _ in 0..600 {
        let (a, b) = (any_i32(&mut r.rng) % 300, any_i32(&mut r.rng) % 300);
        let text = format!("left={a}\nright={b}\n{}", r.rng.pick(&["", "mode=W\n", "mode=N\n"]));
        slips.push(nearly(&mut r.rng, text.as_bytes()));
        slips.push(text.into());
    }
    for text in slips {
        let (reply, (left, right, wrap)) = slip_reading(&text).map_or_else(|e| (e, (0, 0, Some(false))), |w| (0, w));
        let flag = wrap.map_or("-".to_string(), |w| (w as u8).to_string());
        r.line(&words(&[&"slip", &hex(&text), &reply, &left, &right, &flag]));
    }
    // `db STEPS FLAG MILLIONTHS REST`: the Rust has f64, so exactly, by document 01's step.
    let random: Vec<i32> = (0..100).map(|_| any_i32(&mut r.rng)).collect();
    for steps in (-255..=255).chain(ENDS).chain(random) {
        let (minus, millionths, rest) = exact_db(steps as i64);
        r.line(&words(&[&"db", &steps, &(minus as u8), &millionths, &rest]));
    }
    // Peaks: by document 02, where the Rust has f64.
    for (text, steps) in
        [("0.000016", -20), ("1.000000", -28), ("99.999999", 0), ("99.999999", 1), ("00.500000", 0), ("0.9", 1)]
    {
        line(r, TRACK_PEAK, text.as_bytes(), steps);
    }
    for steps in -255..=255 {
        let text = peaks::some_text(&mut r.rng);
        line(r, TRACK_PEAK, text.as_bytes(), steps);
    }
}

// ---- times

#[inline(never)]
fn published_parse(text: &str) -> ((i32, i32), bool) {
    (parse_undo_values(Some(text)), parse_undo_wrap(Some(text)))
}

#[inline(never)]
fn published_format(left: i32, right: i32, wrap: bool) -> String {
    format_undo_value(left, right, wrap)
}

#[inline(never)]
fn published_sums(text: &str, left: i32, right: i32) -> (i32, i32) {
    accumulate_undo(Some(text), (left, right))
}

#[inline(never)]
fn published_range(least: u8, greatest: u8) -> String {
    format_minmax(least, greatest)
}

#[inline(never)]
fn published_shifted(key: &str, value: &str, steps: i32) -> Option<String> {
    shift_stored_value(key, value, steps)
}

#[inline(never)]
fn published_leaves(key: &str, value: &str, steps: i32) -> bool {
    range_wraps_out(key, value, steps)
}

#[inline(never)]
fn published_db(steps: i32) -> f64 {
    steps_to_db(steps)
}

fn bench(b: &mut Bench) {
    let undo = black_box("+003,-012,N");
    b.row("parse_undo, numbers and flag", || published_parse(undo), || library::parse_undo(undo.as_bytes()));
    b.row(
        "format_undo_value",
        || published_format(black_box(3), black_box(-12), false),
        || {
            let (mut out, mut n) = ([0; 32], 0);
            library::format_undo_into(black_box(3), black_box(-12), false, &mut out, &mut n);
            (out, n)
        },
    );
    b.row(
        "accumulate_undo",
        || published_sums(undo, black_box(3), black_box(-12)),
        || library::accumulate_undo(undo.as_bytes(), black_box(3), black_box(-12)),
    );
    b.row(
        "format_minmax",
        || published_range(black_box(94), black_box(168)),
        || {
            let (mut out, mut n) = ([0; 32], 0);
            library::format_minmax_into(black_box(94), black_box(168), &mut out, &mut n);
            (out, n)
        },
    );
    let steps = black_box(-7);
    for (what, key, value) in [
        ("a range", MINMAX, "094,168"),
        ("a gain text", TRACK_GAIN, "-3.500000 dB"),
        ("a peak", TRACK_PEAK, "0.987654"),
        ("another key", "REPLAYGAIN_ALGORITHM", "EBU R128"),
    ] {
        let (key, value) = (black_box(key), black_box(value));
        b.row(
            &format!("shift_stored_value, {what}"),
            || published_shifted(key, value, steps),
            || {
                let (mut moved, mut out, mut n) = (0, [0; 32], 0);
                library::shift_into(key.as_bytes(), value.as_bytes(), steps, &mut moved, &mut out, &mut n);
                (moved, out, n)
            },
        );
    }
    let mut rng = Rng::new(1);
    let texts: Vec<(String, i32)> = (0..1000).map(|i| (peaks::some_text(&mut rng), i % 61 - 30)).collect();
    b.row(
        "shift_stored_value, 1,000 peaks of every size by -30 to 30 steps",
        || texts.iter().filter(|(text, steps)| published_shifted(TRACK_PEAK, text, *steps).is_some()).count(),
        || {
            let (mut moved, mut out, mut n) = (0, [0; 32], 0);
            let shift = |(text, steps): &&(String, i32)| {
                library::shift_into(TRACK_PEAK.as_bytes(), text.as_bytes(), *steps, &mut moved, &mut out, &mut n) == 0
            };
            texts.iter().filter(shift).count()
        },
    );
    let value = black_box("094,168");
    b.row(
        "range_wraps_out",
        || published_leaves(MINMAX, value, steps),
        || library::range_wraps_out(MINMAX.as_bytes(), value.as_bytes(), steps),
    );
    let text = black_box(&b"left=+3\nright=-12\nmode=W\n"[..]);
    b.row("parse_slip (Rust: a second reading of document 01)", || slip_reading(text), || library::parse_slip(text));
    fn each<A>(steps: &[i32], f: impl Fn(i32) -> A) {
        for &n in steps {
            black_box(f(n));
        }
    }
    let steps: Vec<i32> = (0..10_000).map(turn).collect();
    b.row(
        "steps_to_db, 10,000 steps (Rust: the stand-in's product in f64)",
        || each(&steps, published_db),
        || each(&steps, library::steps_to_db),
    );
}
