//! Crate `area_shift`: the stored values of an item area after so many steps, beside the published `ApeTag::shift_stored_gain`.
//!
//! Compared where document 01 compares: keys and values of UTF-8, range fields of ASCII. Gain texts of another form stay as found, and peaks move
//! by the reading of `peaks`, so the published call gets both under a key that it does not know. Where a sum of a range passes i32 the Rust panics or wraps, as it was
//! built: there the exact sum decides. A step outside -255..255 is refused, which the Rust does not do.

use super::ape::{area_of, is_area, item, tag_of, written};
use super::items::{are_utf8, parts};
use super::values::{
    any_i32, gain_text, is_gain, is_gain_key, is_i32, is_peak_key, is_range_domain, is_range_key, keys, nearly,
    range_sums, spellings, turn, ENDS, MINMAX, NUMBERS, TRACK_GAIN,
};
use super::{flags, peaks};
use crate::ape::{format_minmax, format_undo_value, ApeTag, MP3GAIN_VALUE_KEYS};
use crate::tools::{hex, Bench, Compare, Record, Rng};
use std::cell::Cell;

/// The exported function, as Rust, and a safe wrapper. A refusal is `Err` with its number.
mod library {
    extern "C" {
        fn zib_shift_stored_gain(
            area: *const u8,
            length: usize,
            count: usize,
            steps: i32,
            wrap: bool,
            out: *mut u8,
            room: usize,
            items: *mut usize,
            written: *mut usize,
        ) -> u32;
    }

    /// How many items it wrote, and how many bytes.
    pub fn shift_stored_gain(
        area: &[u8],
        count: usize,
        steps: i32,
        wrap: bool,
        out: &mut [u8],
    ) -> Result<(usize, usize), u32> {
        let (mut items, mut length) = (7, 7);
        // SAFETY: pointers and lengths of slices; the lent numbers live through the call.
        let reply = unsafe {
            let (a, o) = (area.as_ptr(), out.as_mut_ptr());
            zib_shift_stored_gain(a, area.len(), count, steps, wrap, o, out.len(), &mut items, &mut length)
        };
        if reply == 0 {
            return Ok((items, length));
        }
        assert_eq!((items, length), (7, 7), "a refused call changed a lent number");
        Err(reply)
    }
}

/// The count of the new items and their area, or the refusal.
pub type Shifted = Result<(usize, Vec<u8>), u32>;

/// The tag that the published call leaves by a step in -255..255; none outside the domain.
pub fn shifted(tag: &ApeTag, steps: i32, wrap: bool) -> Option<ApeTag> {
    let mut items = Vec::new();
    for (i, found) in tag.items.iter().enumerate() {
        let (key, value) = (found.key(), found.value().as_bytes());
        if is_range_key(key) {
            is_range_domain(value).then_some(())?;
            if wrap && !range_sums(value, steps).into_iter().all(is_i32) {
                continue;
            }
        }
        let moves = is_gain_key(key) && is_gain(value);
        let hidden = is_peak_key(key) || is_gain_key(key) && !moves || key.starts_with('\u{1}');
        items.push(if hidden { item(&format!("\u{1}{i}"), "") } else { found.clone() });
    }
    let mut new = tag_of(items);
    new.shift_stored_gain(steps, wrap);
    for found in &mut new.items {
        if let Some(i) = found.key().strip_prefix('\u{1}') {
            let old = &tag.items[i.parse::<usize>().unwrap()];
            let peak = is_peak_key(old.key()).then(|| peaks::moved(old.value().as_bytes(), steps)).flatten();
            *found = peak.map_or(old.clone(), |text| item(old.key(), &String::from_utf8(text).unwrap()));
        }
    }
    Some(new)
}

/// The published answer; none outside the domain.
pub fn published(area: &[u8], count: usize, steps: i32, wrap: bool) -> Option<Shifted> {
    if !is_area(area, count) {
        return Some(Err(12));
    }
    if !(-255..=255).contains(&steps) {
        return Some(Err(2));
    }
    if flags::in_area(area, count) {
        return Some(flags::shift_area(area, count, steps, wrap));
    }
    let parts = parts(area, count);
    are_utf8(&parts).then_some(())?;
    let text = |bytes: &[u8]| String::from_utf8(bytes.to_vec()).unwrap();
    let tag = tag_of(parts.iter().map(|(key, value)| item(&text(key), &text(value))).collect());
    shifted(&tag, steps, wrap).map(|new| Ok((new.len(), area_of(&new))))
}

/// The library's answer: with ample room, exact room, one byte less and no room at all.
pub fn ours(area: &[u8], count: usize, steps: i32, wrap: bool) -> Shifted {
    let items = Cell::new(0);
    let call = |out: &mut [u8]| {
        library::shift_stored_gain(area, count, steps, wrap, out).map(|(n, length)| {
            items.set(n);
            length
        })
    };
    let answer = written(area.len() + 32 * count.min(area.len()), call);
    match &answer {
        Ok(bytes) if bytes.is_empty() => (),
        Ok(_) => assert_eq!(call(&mut []), Err(5), "no room"),
        Err(reason) => assert_eq!(call(&mut []), Err(*reason), "refused, and otherwise without room"),
    }
    answer.map(|bytes| (items.get(), bytes))
}

fn both(c: &mut Compare, area: &[u8], count: usize, steps: i32, wrap: bool) {
    let Some(answer) = published(area, count, steps, wrap) else { return };
    if answer == ours(area, count, steps, wrap) {
        c.inputs += 1;
        return;
    }
    let what = format!("shift_stored_gain of {count} items by {steps}, {}", flag(wrap));
    let theirs = |s: &[u8]| published(s, count, steps, wrap);
    c.bytes(&what, area, theirs, |s| theirs(s).map(|_| ours(s, count, steps, wrap)));
}

pub fn flag(wrap: bool) -> &'static str {
    if wrap {
        "W"
    } else {
        "N"
    }
}

/// Both modes.
fn modes(c: &mut Compare, tag: &ApeTag, steps: i32) {
    let area = area_of(tag);
    both(c, &area, tag.len(), steps, false);
    both(c, &area, tag.len(), steps, true);
}

fn one(c: &mut Compare, key: &str, value: &str, steps: i32) {
    modes(c, &tag_of(vec![item(key, value)]), steps);
}

/// Values of every kind: ranges that stay and that leave, gain texts, peaks, undo texts, and texts that are nearly one of them.
#[rustfmt::skip]
const VALUES: [&str; 24] = [
    "094,168", "000,255", "0,0", "94,168", "300,10", "-0,10", " 5\t,+6 ", "1,2,3", "255,", ",", "", "-3.500000 dB",
    "+1.505150 dB", "0.000000", "-0.000000 dB", "9999.999999 dB", "1.5 dB", "0.988553", "1.000000", "+003,-012,N",
    "EBU R128", "\u{20AC}", "p\u{0}q", "\u{A0}5,6",
];

/// An item area with a value of each kind, duplicates in another case among them.
pub fn full_tag() -> ApeTag {
    let values = ["+003,-012,W", "010,200", "5,250", "-6.510300 dB", "0.988553", "1.000000", "0.900000", "EBU R128"];
    let mut items: Vec<_> = MP3GAIN_VALUE_KEYS.iter().zip(values).map(|(k, v)| item(k, v)).collect();
    items.insert(1, item("Title", "094,168"));
    items.push(item("mp3gain_minmax", "100,101"));
    items.push(item("Replaygain_Track_Gain", "12.000000"));
    items.push(item("", ""));
    tag_of(items)
}

pub fn some_tag(rng: &mut Rng) -> ApeTag {
    let n = if rng.below(40) == 0 { 200 } else { rng.below(7) };
    let mut items = Vec::new();
    for _ in 0..n {
        let key = if rng.below(4) > 0 { rng.pick(&MP3GAIN_VALUE_KEYS) } else { rng.pick(&["Title", "", "AB"]) };
        let turned =
            key.chars().map(|c| if rng.below(4) == 0 { c.to_ascii_lowercase() } else { c }).collect::<String>();
        let number =
            |rng: &mut Rng| if rng.below(3) > 0 { (rng.next() as u8).to_string() } else { rng.pick(&NUMBERS).into() };
        let value = match rng.below(6) {
            0 | 1 => format!("{},{}", number(rng), number(rng)),
            2 | 3 => {
                let (sign, digits) = (rng.pick(&["", "+", "-"]), 1 + rng.below(4));
                let millionths = rng.next() % 10u64.pow(7 + rng.below(4) as u32);
                gain_text(sign, millionths, digits, rng.below(2) == 0)
            }
            4 => rng.pick(&VALUES).to_string(),
            _ => {
                let text = rng.pick(&VALUES);
                String::from_utf8_lossy(&nearly(rng, text.as_bytes())).into_owned()
            }
        };
        items.push(item(&turned, &value));
    }
    tag_of(items)
}

pub fn compare(c: &mut Compare) {
    // One item: every key in every spelling, every kind of value.
    for key in keys() {
        for value in VALUES {
            for steps in [0, 1, -1, 100, -255, 255] {
                one(c, &key, value, steps);
            }
        }
    }
    for value in VALUES {
        for steps in ENDS {
            one(c, MINMAX, value, steps);
            one(c, TRACK_GAIN, value, steps);
        }
    }
    for left in NUMBERS {
        for right in NUMBERS {
            for steps in ENDS {
                one(c, MINMAX, &format!("{left},{right}"), steps);
            }
        }
    }
    // Every step: ranges about every end, and gain texts that come to zero or nearly.
    for steps in -260..=260 {
        for n in 0..=255 {
            one(c, MINMAX, &format_minmax(n, 255 - n / 2), steps);
        }
    }
    for steps in -255..=255 {
        let there = (steps as f64 * 1505149.978319906).round() as i64;
        for m in [there - 1, there, there + 1, 0, -3_500_000, 9_999_999_999] {
            spellings(m, |text| one(c, TRACK_GAIN, text, steps));
        }
    }
    // All kinds at once; then every truncation, every change of one byte, and wrong counts.
    let tag = full_tag();
    for steps in (-300..=300).chain(ENDS) {
        modes(c, &tag, steps);
    }
    let (area, count) = (area_of(&tag), tag.len());
    for wrap in [false, true] {
        for n in [0, 1, count - 1, count + 1, 1 << 32, usize::MAX] {
            both(c, &area, n, 7, wrap);
            both(c, &area, n, 256, wrap);
        }
        for at in 0..area.len() {
            for n in [0, count - 1, count] {
                both(c, &area[..at], n, 7, wrap);
            }
            for value in 0..=255 {
                let mut other = area.clone();
                other[at] = value;
                both(c, &other, count, 7, wrap);
            }
        }
    }
    for i in 0..c.count / 8 {
        let tag = some_tag(&mut c.rng);
        modes(c, &tag, turn(i));
        let steps = any_i32(&mut c.rng);
        modes(c, &tag, steps);
        // The same area damaged.
        let mut area = area_of(&tag);
        if !area.is_empty() {
            let at = c.rng.below(area.len());
            area[at] = c.rng.next() as u8;
            both(c, &area, tag.len(), turn(i), i % 2 == 0);
        }
    }
    limits(c);
}

/// Results at the limit of 16,777,216 bytes and one past it, and areas past it whose result is within.
fn limits(c: &mut Compare) {
    const LIMIT: usize = 16_777_216;
    let mut out = vec![0xC3; LIMIT + 1000];
    // A gain text grows by four bytes, and a range goes under W.
    let (gain, range) = (item(TRACK_GAIN, "1.000000"), item(MINMAX, "300,1"));
    let big = |length: usize| {
        let small = area_of(&tag_of(vec![gain.clone(), range.clone()])).len() + 11;
        area_of(&tag_of(vec![item("AB", &"v".repeat(length - small)), gain.clone(), range.clone()]))
    };
    let goes = area_of(&tag_of(vec![range.clone()])).len();
    let (most, more) = (big(LIMIT - 4), big(LIMIT - 3));
    let (most_w, more_w) = (big(LIMIT - 4 + goes), big(LIMIT - 3 + goes));
    c.inputs += 6;
    let mut call = |area: &[u8], wrap| library::shift_stored_gain(area, 3, 0, wrap, &mut out);
    assert_eq!(call(&more, false), Err(5));
    assert_eq!(call(&most_w, false), Err(5));
    assert_eq!(call(&more_w, true), Err(5));
    assert!(out.iter().all(|&b| b == 0xC3), "a refused call wrote");
    let mut call = |area: &[u8], wrap| library::shift_stored_gain(area, 3, 0, wrap, &mut out);
    assert_eq!(call(&most, false), Ok((3, LIMIT)));
    assert_eq!(call(&most, true), Ok((2, LIMIT - goes)));
    assert_eq!(call(&most_w, true), Ok((2, LIMIT)));
}

/// `shift AREA COUNT STEPS FLAG ROOM REPLY AREA COUNT`
pub fn record(r: &mut Record) {
    let line = |r: &mut Record, area: &[u8], count: usize, steps: i32, wrap: bool, room: usize| {
        let Some(answer) = published(area, count, steps, wrap) else { return };
        let answer = answer.and_then(|(n, bytes)| if bytes.len() > room { Err(5) } else { Ok((n, bytes)) });
        let (reply, n, bytes) = answer.map_or_else(|e| (e, 0, vec![]), |(n, bytes)| (0, n, bytes));
        let given: [&dyn ToString; 6] = [&"shift", &hex(area), &count, &steps, &flag(wrap), &room];
        let gives: [&dyn ToString; 3] = [&reply, &hex(&bytes), &n];
        r.line(&given.iter().chain(&gives).map(|w| w.to_string()).collect::<Vec<_>>());
    };
    let (full, count) = (area_of(&full_tag()), full_tag().len());
    for wrap in [false, true] {
        for (value, steps) in [("094,168", 100), ("300,10", 0), ("-0,10", 0), ("94,168", 0), ("000,200", 55)] {
            line(r, &area_of(&tag_of(vec![item(MINMAX, value)])), 1, steps, wrap, 30);
        }
        for (value, steps) in [("-3.500000 dB", 2), ("+1.505150 dB", 1), ("-1.505150 dB", -1), ("1.500000", 0)] {
            line(r, &area_of(&tag_of(vec![item(TRACK_GAIN, value)])), 1, steps, wrap, 43);
        }
        for steps in [0, 5, 6, -5, -6, 255, -255, 256, i32::MIN] {
            line(r, &full, count, steps, wrap, 4096);
        }
        let Some(Ok((_, exact))) = published(&full, count, 6, wrap) else { unreachable!() };
        line(r, &full, count, 6, wrap, exact.len());
        line(r, &full, count, 6, wrap, exact.len() - 1);
        line(r, &full, count - 1, 5, wrap, 4096);
        line(r, &full[1..], count, 5, wrap, 0);
        line(r, &full[1..], count, 256, wrap, 0);
        line(r, &full, count, -256, wrap, 0);
        line(r, &[], 0, 5, wrap, 0);
    }
    for i in 0..40 {
        let tag = loop {
            let tag = some_tag(&mut r.rng);
            if area_of(&tag).len() < 600 {
                break tag;
            }
        };
        line(r, &area_of(&tag), tag.len(), turn(i * 37), i % 2 == 0, 4096);
    }
    for (area, count) in flags::small_areas() {
        line(r, &area, count, 5, false, 4096);
    }
}

pub fn bench(b: &mut Bench) {
    let value = "The quick brown fox jumps over the lazy dog";
    let n = 41;
    let mut items: Vec<_> = (0..n - 4).map(|i| item(&format!("KEY_{i:03}"), value)).collect();
    items.push(item("MP3GAIN_UNDO", &format_undo_value(3, -12, true)));
    items.push(item(MINMAX, "094,168"));
    items.push(item(TRACK_GAIN, "-3.500000 dB"));
    items.push(item("REPLAYGAIN_ALGORITHM", "EBU R128"));
    let tag = tag_of(items);
    let area = area_of(&tag);
    for (room, name) in [(area.len() + 32 * n, "ample room"), (area.len(), "exact room")] {
        let mut out = vec![0; room];
        b.row(
            &format!("shift_stored_gain, {n} items, {name} (Rust: a copy of a tag already parsed)"),
            || {
                let mut tag = tag.clone();
                tag.shift_stored_gain(2, true);
                tag
            },
            || library::shift_stored_gain(&area, n, 2, true, &mut out),
        );
    }
}
