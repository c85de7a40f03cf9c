//! Crates `keys`, `items`, `area_edit`, `area_drop`, `area_values` and `area_gains`: the item area beside the published `ApeTag`.

use super::ape::{self, area_of, is_area, item, tag_of, written};
use super::{flags, Case};
use crate::ape::{
    reach, read_ape_tag, ApeReplayGain, ApeTag, MP3GAIN_VALUE_KEYS, REPLAYGAIN_KEYS, TAG_MP3GAIN_UNDO, UNDONE_KEYS,
};
use crate::tools::{hex, Bench, Compare, Record, Rng};
use std::cell::Cell;
use std::hint::black_box;

pub const CASE: Case = Case { name: "items", record, compare, bench };

/// The exported functions, as Rust, and safe wrappers. A refusal is `Err` with its number.
pub mod library {
    extern "C" {
        fn zib_is_key(key: *const u8, length: usize) -> bool;
        fn zib_which_key(key: *const u8, length: usize) -> usize;
        fn zib_item_at(
            area: *const u8,
            length: usize,
            at: usize,
            there: *mut u32,
            flags: *mut u32,
            key_start: *mut usize,
            key_end: *mut usize,
            value_start: *mut usize,
            value_end: *mut usize,
        ) -> u32;
        fn zib_get(
            area: *const u8,
            length: usize,
            count: usize,
            key: *const u8,
            key_length: usize,
            there: *mut u32,
            start: *mut usize,
            value_length: *mut usize,
            repeated: *mut u32,
        ) -> u32;
        fn zib_get_undo_gain(area: *const u8, length: usize, count: usize, there: *mut u32, steps: *mut i32) -> u32;
        fn zib_set(
            area: *const u8,
            length: usize,
            count: usize,
            key: *const u8,
            key_length: usize,
            value: *const u8,
            value_length: usize,
            out: *mut u8,
            room: usize,
            items: *mut usize,
            written: *mut usize,
        ) -> u32;
        fn zib_remove(
            area: *const u8,
            length: usize,
            count: usize,
            key: *const u8,
            key_length: usize,
            out: *mut u8,
            room: usize,
            items: *mut usize,
            written: *mut usize,
        ) -> u32;
        fn zib_remove_replaygain(
            area: *const u8,
            length: usize,
            count: usize,
            out: *mut u8,
            room: usize,
            items: *mut usize,
            written: *mut usize,
        ) -> u32;
        fn zib_drop_undone(
            area: *const u8,
            length: usize,
            count: usize,
            out: *mut u8,
            room: usize,
            items: *mut usize,
            written: *mut usize,
        ) -> u32;
        fn zib_take_mp3gain(
            area: *const u8,
            length: usize,
            count: usize,
            out: *mut u8,
            room: usize,
            items: *mut usize,
            written: *mut usize,
        ) -> u32;
        fn zib_set_undo_gain(
            area: *const u8,
            length: usize,
            count: usize,
            left: i32,
            right: i32,
            wrap: bool,
            out: *mut u8,
            room: usize,
            items: *mut usize,
            written: *mut usize,
        ) -> u32;
        fn zib_set_minmax(
            area: *const u8,
            length: usize,
            count: usize,
            least: u8,
            greatest: u8,
            out: *mut u8,
            room: usize,
            items: *mut usize,
            written: *mut usize,
        ) -> u32;
        fn zib_set_replaygain(
            area: *const u8,
            length: usize,
            count: usize,
            track_gain: *const u8,
            track_gain_length: usize,
            track_peak: *const u8,
            track_peak_length: usize,
            album_gain: *const u8,
            album_gain_length: usize,
            album_peak: *const u8,
            album_peak_length: usize,
            algorithm: *const u8,
            algorithm_length: usize,
            out: *mut u8,
            room: usize,
            items: *mut usize,
            written: *mut usize,
        ) -> u32;
    }

    pub fn is_key(key: &[u8]) -> bool {
        // SAFETY: pointers and lengths of slices; the lent numbers live through the call. So below.
        unsafe { zib_is_key(key.as_ptr(), key.len()) }
    }

    /// The place of the key among the eight.
    pub fn which_key(key: &[u8]) -> Option<usize> {
        let place = unsafe { zib_which_key(key.as_ptr(), key.len()) };
        (place < 8).then_some(place)
    }

    /// The flags of an item, and where its key and its value start and end.
    pub fn item_at(area: &[u8], at: usize) -> Result<Option<(u32, [usize; 4])>, u32> {
        let (mut there, mut flags, [mut a, mut b, mut c, mut d]) = (7, 7, [7; 4]);
        let reply = unsafe {
            let s = area.as_ptr();
            zib_item_at(s, area.len(), at, &mut there, &mut flags, &mut a, &mut b, &mut c, &mut d)
        };
        match (reply, there, flags, [a, b, c, d]) {
            (0, 0, 0, [0, 0, 0, 0]) => Ok(None),
            (0, 1, flags, places) => Ok(Some((flags, places))),
            (r, 7, 7, [7, 7, 7, 7]) if r != 0 => Err(r),
            other => panic!("zib_item_at answers {other:?}"),
        }
    }

    /// The value as a part of the area, and whether a later item has the key too.
    pub fn get_both<'a>(area: &'a [u8], count: usize, key: &[u8]) -> Result<Option<(&'a [u8], bool)>, u32> {
        let (mut there, mut start, mut length, mut repeated) = (7, 7, 7, 7);
        let reply = unsafe {
            let (a, k) = (area.as_ptr(), key.as_ptr());
            zib_get(a, area.len(), count, k, key.len(), &mut there, &mut start, &mut length, &mut repeated)
        };
        match (reply, there, start, length, repeated) {
            (0, 0, 0, 0, 0) => Ok(None),
            (0, 1, _, _, 0 | 1) => Ok(Some((&area[start..start + length], repeated == 1))),
            (r, 7, 7, 7, 7) if r != 0 => Err(r),
            other => panic!("zib_get answers {other:?}"),
        }
    }

    /// The value alone.
    pub fn get<'a>(area: &'a [u8], count: usize, key: &[u8]) -> Result<Option<&'a [u8]>, u32> {
        get_both(area, count, key).map(|found| found.map(|(value, _)| value))
    }

    pub fn get_undo_gain(area: &[u8], count: usize) -> Result<Option<i32>, u32> {
        let (mut there, mut steps) = (7, 7);
        let reply = unsafe { zib_get_undo_gain(area.as_ptr(), area.len(), count, &mut there, &mut steps) };
        match (reply, there, steps) {
            (0, 0, 0) => Ok(None),
            (0, 1, n) => Ok(Some(n)),
            (r, 7, 7) if r != 0 => Err(r),
            other => panic!("zib_get_undo_gain answers {other:?}"),
        }
    }

    /// A call that edits: how many items it wrote, and how many bytes. A refused one leaves the lent numbers.
    fn edited(call: impl FnOnce(*mut usize, *mut usize) -> u32) -> Result<(usize, usize), u32> {
        let (mut items, mut length) = (7, 7);
        match call(&mut items, &mut length) {
            0 => Ok((items, length)),
            r => {
                assert_eq!((items, length), (7, 7), "a refused call changed a lent number");
                Err(r)
            }
        }
    }

    pub type Edited = Result<(usize, usize), u32>;

    pub fn set(area: &[u8], count: usize, key: &[u8], value: &[u8], out: &mut [u8]) -> Edited {
        edited(|i, w| unsafe {
            let (k, v) = (key.as_ptr(), value.as_ptr());
            zib_set(area.as_ptr(), area.len(), count, k, key.len(), v, value.len(), out.as_mut_ptr(), out.len(), i, w)
        })
    }

    pub fn remove(area: &[u8], count: usize, key: &[u8], out: &mut [u8]) -> Edited {
        edited(|i, w| unsafe {
            let (a, k) = (area.as_ptr(), key.as_ptr());
            zib_remove(a, area.len(), count, k, key.len(), out.as_mut_ptr(), out.len(), i, w)
        })
    }

    pub fn remove_replaygain(area: &[u8], count: usize, out: &mut [u8]) -> Edited {
        edited(|i, w| unsafe {
            zib_remove_replaygain(area.as_ptr(), area.len(), count, out.as_mut_ptr(), out.len(), i, w)
        })
    }

    pub fn drop_undone(area: &[u8], count: usize, out: &mut [u8]) -> Edited {
        edited(|i, w| unsafe { zib_drop_undone(area.as_ptr(), area.len(), count, out.as_mut_ptr(), out.len(), i, w) })
    }

    pub fn take_mp3gain(area: &[u8], count: usize, out: &mut [u8]) -> Edited {
        edited(|i, w| unsafe { zib_take_mp3gain(area.as_ptr(), area.len(), count, out.as_mut_ptr(), out.len(), i, w) })
    }

    pub fn set_undo_gain(area: &[u8], count: usize, left: i32, right: i32, wrap: bool, out: &mut [u8]) -> Edited {
        edited(|i, w| unsafe {
            let (a, o) = (area.as_ptr(), out.as_mut_ptr());
            zib_set_undo_gain(a, area.len(), count, left, right, wrap, o, out.len(), i, w)
        })
    }

    pub fn set_minmax(area: &[u8], count: usize, least: u8, greatest: u8, out: &mut [u8]) -> Edited {
        edited(|i, w| unsafe {
            zib_set_minmax(area.as_ptr(), area.len(), count, least, greatest, out.as_mut_ptr(), out.len(), i, w)
        })
    }

    /// The texts in the order of REPLAYGAIN_KEYS; an empty one is not set.
    pub fn set_replaygain(area: &[u8], count: usize, texts: [&[u8]; 5], out: &mut [u8]) -> Edited {
        let [a, b, c, d, e] = texts.map(|t| (t.as_ptr(), t.len()));
        edited(|i, w| unsafe {
            let (p, n, o, m) = (area.as_ptr(), area.len(), out.as_mut_ptr(), out.len());
            zib_set_replaygain(p, n, count, a.0, a.1, b.0, b.1, c.0, c.1, d.0, d.1, e.0, e.1, o, m, i, w)
        })
    }
}

/// A call on an area.
#[derive(Debug, Clone)]
pub enum Op {
    Get(Vec<u8>),
    Set(Vec<u8>, Vec<u8>),
    Remove(Vec<u8>),
    RemoveReplaygain,
    DropUndone,
    TakeMp3gain,
    GetUndoGain,
    SetUndoGain(i32, i32, bool),
    SetMinmax(u8, u8),
    /// The five texts, in the order of the source. An empty one is not set: `None` in the source.
    SetReplaygain([Vec<u8>; 5]),
}

/// What a call answers: a value, an area with its count, or a number of steps.
#[derive(Debug, Clone, PartialEq)]
pub enum Answer {
    /// A value, and whether a later item has the key too.
    Value(Option<(Vec<u8>, bool)>),
    Area(usize, Vec<u8>),
    Steps(Option<i32>),
    /// Document 01 puts it outside the compared domain.
    Outside,
}

/// Document 01's rule for a key, read independently.
fn is_key(key: &[u8]) -> bool {
    (2..=255).contains(&key.len())
        && key.iter().all(|b| (0x20..=0x7E).contains(b))
        && !["ID3", "TAG", "OggS", "MP+"].iter().any(|r| key.eq_ignore_ascii_case(r.as_bytes()))
}

/// The keys and values of a good area.
pub fn parts(area: &[u8], count: usize) -> Vec<(&[u8], &[u8])> {
    let mut rest = area;
    (0..count)
        .map(|_| {
            let length = u32::from_le_bytes(rest[..4].try_into().unwrap()) as usize;
            let key = 8 + rest[8..].iter().position(|&b| b == 0).unwrap();
            let part = (&rest[8..key], &rest[key + 1..key + 1 + length]);
            rest = &rest[key + 1 + length..];
            part
        })
        .collect()
}

/// Whether the keys and values are all UTF-8.
pub fn are_utf8(parts: &[(&[u8], &[u8])]) -> bool {
    parts.iter().all(|(k, v)| std::str::from_utf8(k).is_ok() && std::str::from_utf8(v).is_ok())
}

/// Bytes as the strings of an `ApeTag`: UTF-8, or, where an area has other bytes, one character for each byte, which keeps the
/// rules by bytes (only ASCII is folded, and a key that is set is ASCII).
#[derive(Clone, Copy)]
struct Texts {
    utf8: bool,
}

impl Texts {
    fn of(self, bytes: &[u8]) -> String {
        if self.utf8 {
            return String::from_utf8(bytes.to_vec()).unwrap();
        }
        bytes.iter().map(|&b| b as char).collect()
    }

    fn bytes(self, text: &str) -> Vec<u8> {
        if self.utf8 {
            return text.as_bytes().to_vec();
        }
        text.chars().map(|c| c as u8).collect()
    }

    fn area(self, tag: &ApeTag) -> Vec<u8> {
        if self.utf8 {
            return area_of(tag);
        }
        let mut area = Vec::new();
        for item in tag.iter() {
            let value = self.bytes(item.value());
            area.extend_from_slice(&(value.len() as u32).to_le_bytes());
            area.extend_from_slice(&[0; 4]);
            area.extend(self.bytes(item.key()));
            area.push(0);
            area.extend(value);
        }
        area
    }
}

/// The refusals of a call on a good area, as document 01 says.
pub fn refused(op: &Op) -> Result<(), u32> {
    if let Op::Get(key) | Op::Set(key, _) | Op::Remove(key) = op {
        if !is_key(key) {
            return Err(3);
        }
    }
    let set = match op {
        Op::Set(_, value) => std::slice::from_ref(value),
        Op::SetReplaygain(values) => values,
        _ => &[],
    };
    if set.iter().any(|value| std::str::from_utf8(value).is_err()) {
        return Err(4);
    }
    Ok(())
}

/// The published tag with the items of a good area.
fn parsed(area: &[u8], count: usize) -> (Texts, ApeTag) {
    let parts = parts(area, count);
    let texts = Texts { utf8: are_utf8(&parts) };
    (texts, tag_of(parts.iter().map(|(k, v)| item(&texts.of(k), &texts.of(v))).collect()))
}

/// Whether a key has more than one item: document 02's request 2, which the published Rust has not.
pub fn is_repeated(tag: &ApeTag, key: &str) -> bool {
    tag.iter().filter(|i| i.key().eq_ignore_ascii_case(key)).count() > 1
}

/// What the published `ApeTag` does.
fn applied(texts: Texts, tag: &mut ApeTag, op: &Op) -> Answer {
    match op {
        Op::Get(key) => {
            let key = texts.of(key);
            return Answer::Value(tag.get(&key).map(|v| (texts.bytes(v), is_repeated(tag, &key))));
        }
        Op::GetUndoGain if tag.get(TAG_MP3GAIN_UNDO).is_some_and(|v| !v.is_ascii()) => return Answer::Outside,
        Op::GetUndoGain => return Answer::Steps(tag.get_undo_gain()),
        Op::Set(key, value) => tag.set(&texts.of(key), &texts.of(value)),
        Op::Remove(key) => tag.remove(&texts.of(key)),
        Op::RemoveReplaygain => tag.remove_replaygain(),
        Op::DropUndone => UNDONE_KEYS.iter().for_each(|key| tag.remove(key)),
        Op::TakeMp3gain => MP3GAIN_VALUE_KEYS.iter().for_each(|key| tag.remove(key)),
        Op::SetUndoGain(left, right, wrap) => tag.set_undo_gain(*left, *right, *wrap),
        Op::SetMinmax(least, greatest) => tag.set_minmax(*least, *greatest),
        Op::SetReplaygain(values) => {
            let [track_gain, track_peak, album_gain, album_peak, algorithm] =
                values.clone().map(|v| (!v.is_empty()).then(|| texts.of(&v)));
            tag.set_replaygain(&ApeReplayGain { track_gain, track_peak, album_gain, album_peak, algorithm });
        }
    }
    Answer::Area(tag.len(), texts.area(tag))
}

/// The refusals, and else what the published `ApeTag` does; an area with flags is read by `flags`.
pub fn published(area: &[u8], count: usize, op: &Op) -> Result<Answer, u32> {
    if flags::in_area(area, count) {
        return flags::answer(area, count, op);
    }
    if !is_area(area, count) {
        return Err(12);
    }
    refused(op)?;
    let (texts, mut tag) = parsed(area, count);
    Ok(applied(texts, &mut tag, op))
}

/// The library's answer; a call that writes is tried with ample room, exact room, and one byte less.
pub fn ours(area: &[u8], count: usize, op: &Op) -> Result<Answer, u32> {
    let items = Cell::new(0);
    let grown = match op {
        Op::Set(key, value) => key.len() + value.len(),
        Op::SetReplaygain(values) => values.iter().map(|v| v.len() + 30).sum(),
        _ => 0,
    };
    let edit = |call: &dyn Fn(&mut [u8]) -> Result<(usize, usize), u32>| {
        let bytes = written(area.len() + grown + 100, |out| {
            call(out).map(|(n, length)| {
                items.set(n);
                length
            })
        });
        bytes.map(|b| Answer::Area(items.get(), b))
    };
    match op {
        Op::Get(key) => {
            library::get_both(area, count, key).map(|v| Answer::Value(v.map(|(v, more)| (v.to_vec(), more))))
        }
        Op::GetUndoGain => {
            let undo = library::get(area, count, TAG_MP3GAIN_UNDO.as_bytes());
            let steps = library::get_undo_gain(area, count);
            if undo.is_ok_and(|v| v.is_some_and(|v| !v.is_ascii())) {
                return Ok(Answer::Outside);
            }
            steps.map(Answer::Steps)
        }
        Op::Set(key, value) => edit(&|out| library::set(area, count, key, value, out)),
        Op::Remove(key) => edit(&|out| library::remove(area, count, key, out)),
        Op::RemoveReplaygain => edit(&|out| library::remove_replaygain(area, count, out)),
        Op::DropUndone => edit(&|out| library::drop_undone(area, count, out)),
        Op::TakeMp3gain => edit(&|out| library::take_mp3gain(area, count, out)),
        Op::SetUndoGain(left, right, wrap) => {
            edit(&|out| library::set_undo_gain(area, count, *left, *right, *wrap, out))
        }
        Op::SetMinmax(least, greatest) => edit(&|out| library::set_minmax(area, count, *least, *greatest, out)),
        Op::SetReplaygain(values) => {
            edit(&|out| library::set_replaygain(area, count, values.each_ref().map(|v| &v[..]), out))
        }
    }
}

fn both(c: &mut Compare, area: &[u8], count: usize, op: &Op) {
    if published(area, count, op) == ours(area, count, op) {
        c.inputs += 1;
        return;
    }
    let what = format!("{op:?} on an area of {count} items");
    c.bytes(&what, area, |s| published(s, count, op), |s| ours(s, count, op));
}

/// Calls one after another, each on the area that the one before left; the area after the last.
fn each(c: &mut Compare, mut area: Vec<u8>, mut count: usize, ops: &[Op]) -> (Vec<u8>, usize) {
    for op in ops {
        both(c, &area, count, op);
        if let Ok(Answer::Area(n, bytes)) = ours(&area, count, op) {
            (area, count) = (bytes, n);
        }
    }
    (area, count)
}

/// Keys that meet each other in another case, keys of mp3gain, keys at the ends of the rule, and keys that it refuses.
pub fn some_key(rng: &mut Rng) -> Vec<u8> {
    let mut key = match rng.below(10) {
        0 | 1 => MP3GAIN_VALUE_KEYS[rng.below(8)].as_bytes().to_vec(),
        2 => [&b"ID3"[..], b"TAG", b"OggS", b"MP+", b"TAGS", b"ID3v1", b"OggT", b"MP"][rng.below(8)].to_vec(),
        3 => {
            let n = [0, 1, 2, 255, 256, 3][rng.below(6)];
            vec![b'K'; n]
        }
        4 => [&b"[x"[..], b"{x", b"A\x1F", b"A\x7F", b" ~", b"a\xC3\xA9", b"\xFF\xFE", b"A\xC3"][rng.below(8)].to_vec(),
        5 => {
            let n = rng.below(6);
            (0..n).map(|_| (0x20 + rng.below(0x5F)) as u8).collect()
        }
        _ => [&b"AB"[..], b"TITLE", b"ARTIST", b"CD"][rng.below(4)].to_vec(),
    };
    if rng.below(2) == 0 {
        for b in &mut key {
            if rng.below(2) == 0 {
                *b = if rng.below(2) == 0 { b.to_ascii_lowercase() } else { b.to_ascii_uppercase() };
            }
        }
    }
    key
}

/// Empty values, values with zero bytes, numbers as mp3gain writes them, and text; now and then not UTF-8.
pub fn some_value(rng: &mut Rng) -> Vec<u8> {
    const NUMBERS: [&str; 14] = [
        "+003,+003,N",
        "-012,+007,W",
        " -5 , 7 , w ",
        "junk,7,N",
        "-3,junk",
        "2147483648,1,N",
        "-2147483648,1,N",
        "+,-,W",
        "094,168",
        "-6.510300 dB",
        "\u{b}7\t,",
        "",
        ",",
        "00000000000000000005",
    ];
    match rng.below(8) {
        0 => vec![],
        1 => b"p\0q\0"[..rng.below(5)].to_vec(),
        2..=4 => NUMBERS[rng.below(14)].as_bytes().to_vec(),
        5 => {
            let n = rng.below(5);
            rng.bytes(n)
        }
        6 => "Größe π 漢 🐟".as_bytes().to_vec(),
        _ => {
            let n = rng.below(200);
            (0..n).map(|_| (0x20 + rng.below(0x5F)) as u8).collect()
        }
    }
}

/// An area of up to 300 items, and its count.
fn some_area(rng: &mut Rng) -> (Vec<u8>, usize) {
    let n = match rng.below(64) {
        0 => 300,
        1 => rng.below(301),
        2..=7 => 10 + rng.below(31),
        8..=12 => 0,
        _ => 1 + rng.below(6),
    };
    let utf8 = rng.below(8) != 0;
    let good = |text: Vec<u8>| if utf8 { String::from_utf8_lossy(&text).into_owned().into_bytes() } else { text };
    let mut area = Vec::new();
    for _ in 0..n {
        let (key, value) = (good(some_key(rng)), good(some_value(rng)));
        area.extend_from_slice(&(value.len() as u32).to_le_bytes());
        area.extend_from_slice(&[0; 4]);
        area.extend(key);
        area.push(0);
        area.extend(value);
    }
    (area, n)
}

pub fn some_op(rng: &mut Rng) -> Op {
    match rng.below(16) {
        0..=2 => Op::Get(some_key(rng)),
        3..=7 => Op::Set(some_key(rng), some_value(rng)),
        8..=10 => Op::Remove(some_key(rng)),
        11 => Op::RemoveReplaygain,
        12 => Op::DropUndone,
        13 => Op::TakeMp3gain,
        14 => Op::GetUndoGain,
        _ if rng.below(2) == 0 => Op::SetMinmax(rng.next() as u8, rng.next() as u8),
        _ => {
            let step = |rng: &mut Rng| rng.next() as i32 >> rng.below(32);
            Op::SetUndoGain(step(rng), step(rng), rng.below(2) == 0)
        }
    }
}

/// Five texts: about half are there, nearly all of them UTF-8.
fn some_gains(rng: &mut Rng) -> [Vec<u8>; 5] {
    let raw = rng.below(8) == 0;
    [(); 5].map(|_| match rng.below(2) {
        0 => vec![],
        _ if raw => some_value(rng),
        _ => String::from_utf8_lossy(&some_value(rng)).into_owned().into_bytes(),
    })
}

/// An area of a few items, most with a key of REPLAYGAIN_KEYS in any letter case, some of them twice.
fn some_gain_area(rng: &mut Rng) -> (Vec<u8>, usize) {
    let items = (0..rng.below(8)).map(|_| {
        let key: String = match rng.below(6) {
            0 => "AB".into(),
            n => REPLAYGAIN_KEYS[n - 1]
                .chars()
                .map(|c| if rng.below(8) == 0 { c.to_ascii_lowercase() } else { c })
                .collect(),
        };
        item(&key, &String::from_utf8_lossy(&some_value(rng)))
    });
    let tag = tag_of(items.collect());
    (area_of(&tag), tag.len())
}

/// One call of each kind, with a key that is there and one that is not.
pub fn each_op() -> Vec<Op> {
    let bytes = |text: &str| text.as_bytes().to_vec();
    vec![
        Op::Get(bytes("aB")),
        Op::Get(bytes("A")),
        Op::Set(bytes("aB"), bytes("new")),
        Op::Set(bytes("cd"), bytes("")),
        Op::Set(bytes("TAG"), bytes("x")),
        Op::Set(bytes("AB"), vec![0xFF]),
        Op::Remove(bytes("ab")),
        Op::Remove(bytes("XY")),
        Op::Remove(bytes("")),
        Op::RemoveReplaygain,
        Op::DropUndone,
        Op::TakeMp3gain,
        Op::GetUndoGain,
        Op::SetUndoGain(3, -12, false),
        Op::SetMinmax(0, 255),
        Op::SetReplaygain(["-3.500000 dB", "", "+1.505150 dB", "0.9", "EBU R128"].map(bytes)),
        Op::SetReplaygain([bytes("1"), vec![], vec![], vec![], vec![0xFF]]),
    ]
}

fn small_areas() -> Vec<(Vec<u8>, usize)> {
    let tags = [
        tag_of(vec![]),
        tag_of(vec![item("AB", "c")]),
        tag_of(vec![item("", "")]),
        tag_of(vec![item("Ab", ""), item("aB", "p\u{0}q"), item("A", "x")]),
        tag_of(vec![item("MP3GAIN_UNDO", "+003,-7,W"), item("ab", "1")]),
    ];
    tags.iter().map(|tag| (area_of(tag), tag.len())).collect()
}

/// The item at a place, by document 01's rule for an area, with the flags of document 02's request 13.
fn item_at(area: &[u8], at: usize) -> Result<Option<(u32, [usize; 4])>, u32> {
    let Some(rest) = area.get(at..).filter(|rest| !rest.is_empty()) else { return Ok(None) };
    let number = |i: usize| rest.get(i..i + 4).map(|b| u32::from_le_bytes(b.try_into().unwrap()));
    let read = || {
        let (size, flags) = (number(0)? as usize, number(4)?);
        let key_end = at + 8 + rest[8..].iter().position(|&b| b == 0)?;
        let end = key_end + 1 + size;
        (end <= area.len()).then_some((flags, [at + 8, key_end, key_end + 1, end]))
    };
    read().map(Some).ok_or(12)
}

/// The items of an area one after another, and what stands at a place between.
pub fn walk(c: &mut Compare, area: &[u8]) {
    let mut at = 0;
    loop {
        c.bytes("item_at", area, |a| item_at(a, at), |a| library::item_at(a, at));
        let between = c.rng.below(area.len() + 2);
        c.bytes("item_at", area, |a| item_at(a, between), |a| library::item_at(a, between));
        match item_at(area, at) {
            Ok(Some((_, [.., end]))) => at = end,
            _ => return,
        }
    }
}

fn compare(c: &mut Compare) {
    keys(c);
    let ops = each_op();
    for (area, _) in small_areas() {
        for n in 0..=area.len() {
            for at in 0..n + 2 {
                c.bytes("item_at", &area[..n], |a| item_at(a, at), |a| library::item_at(a, at));
            }
        }
        for at in 0..area.len() {
            for value in 0..=255 {
                let mut other = area.clone();
                other[at] = value;
                walk(c, &other);
            }
        }
    }
    // Small areas with right and wrong counts; every truncation; every change of one byte.
    for (area, count) in small_areas() {
        for n in [0, 1, 2, 3, 4, 1 << 32, usize::MAX] {
            for op in &ops {
                both(c, &area, n, op);
            }
        }
        for op in &ops {
            for n in 0..area.len() {
                for count in [count, count.saturating_sub(1), 0] {
                    both(c, &area[..n], count, op);
                }
            }
            for more in 0..=255 {
                let mut longer = area.clone();
                longer.push(more);
                both(c, &longer, count, op);
                both(c, &longer, count + 1, op);
            }
        }
        for at in 0..area.len() {
            for value in 0..=255 {
                let mut other = area.clone();
                other[at] = value;
                for op in &ops {
                    both(c, &other, count, op);
                }
            }
        }
    }
    near_keys(c);
    // Lists of calls, each on the area that the one before left.
    for turn in 0..c.count / 40 {
        let (area, count) = some_area(&mut c.rng);
        let ops: Vec<Op> = (0..8).map(|_| some_op(&mut c.rng)).collect();
        let (mut area, count) = each(c, area, count, &ops);
        let op = Op::SetReplaygain(some_gains(&mut c.rng));
        both(c, &area, count, &op);
        let (gains, n) = some_gain_area(&mut c.rng);
        both(c, &gains, n, &op);
        // The same area damaged.
        let op = some_op(&mut c.rng);
        if !area.is_empty() {
            let at = c.rng.below(area.len());
            area[at] = c.rng.next() as u8;
        }
        both(c, &area, count, &op);
        walk(c, &area);
        let n = c.rng.below(area.len() + 1);
        both(c, &area[..n], count, &op);
        // Keys of few lengths, nearly equal.
        if turn % 4 == 0 {
            let (near, n) = some_near_area(&mut c.rng);
            let ops = some_near_ops(&mut c.rng, &near, n);
            each(c, near, n, &ops);
        }
    }
    limits(c);
}

/// Each letter in any case.
fn any_case(rng: &mut Rng, key: &[u8]) -> Vec<u8> {
    key.iter().map(|b| if rng.below(2) == 0 { b.to_ascii_lowercase() } else { b.to_ascii_uppercase() }).collect()
}

/// A key that differs from others of its length in one byte or in none; its length about a multiple of eight, or the longest, or one more.
fn some_near_key(rng: &mut Rng) -> Vec<u8> {
    let n = rng.pick(&[2, 3, 7, 8, 8, 9, 9, 15, 16, 17, 24, 31, 32, 33, 254, 255, 256]);
    let mut key: Vec<u8> = (0..n).map(|i| b"MP3Gain@"[i % 8]).collect();
    if rng.below(4) != 0 {
        let at = if rng.below(2) == 0 { n - 1 } else { rng.below(n) };
        key[at] = rng.pick(b"@`[{KkMm1Qq ~Zz\x1F\x7F");
    }
    any_case(rng, &key)
}

/// An area of such items, their number about a multiple of sixteen, and its count.
fn some_near_area(rng: &mut Rng) -> (Vec<u8>, usize) {
    let n = rng.pick(&[0, 1, 2, 3, 5, 8, 15, 16, 17, 18, 31, 32, 33, 34, 40, 47, 48, 49, 64, 65]);
    let items = (0..n).map(|_| {
        let key = String::from_utf8(some_near_key(rng)).unwrap();
        item(&key, &String::from_utf8_lossy(&some_value(rng)))
    });
    let tag = tag_of(items.collect());
    (area_of(&tag), tag.len())
}

/// Gets of each key of an area in changed letter case and of other keys, then sets of some of both, then gets again.
fn some_near_ops(rng: &mut Rng, area: &[u8], count: usize) -> Vec<Op> {
    let mut keys: Vec<Vec<u8>> = parts(area, count).iter().map(|(key, _)| key.to_vec()).collect();
    keys.extend([some_key(rng), some_near_key(rng)]);
    let mut ops: Vec<Op> = keys.iter().map(|key| Op::Get(any_case(rng, key))).collect();
    for _ in 0..4 {
        let key = if rng.below(3) == 0 { some_near_key(rng) } else { keys[rng.below(keys.len())].clone() };
        ops.push(Op::Set(any_case(rng, &key), some_value(rng)));
        ops.push(Op::Get(any_case(rng, &key)));
        keys.push(key);
    }
    for _ in 0..4 {
        ops.push(Op::Get(keys[rng.below(keys.len())].clone()));
    }
    ops
}

/// Each place of the sought key among many, and each byte of a key.
fn near_keys(c: &mut Compare) {
    // Each place among up to fifty items: keys of as many lengths, and keys of one.
    for n in 0..=50 {
        let lengths = |i: usize| "Key ".repeat(20)[..i + 2].to_string();
        let one = |i: usize| format!("Key {i:06}");
        for key in [&lengths as &dyn Fn(usize) -> String, &one] {
            let tag = tag_of((0..n).map(|i| item(&key(i), &format!("value {i}"))).collect());
            let other = || b"other".to_vec();
            let mut ops: Vec<Op> = (0..=n).map(|i| Op::Get(key(i).to_lowercase().into_bytes())).collect();
            ops.extend((0..=n).map(|i| Op::Set(key(i).to_lowercase().into_bytes(), other())));
            ops.extend((0..=n).map(|i| Op::Get(key(i).into_bytes())));
            each(c, area_of(&tag), n, &ops);
        }
    }
    // A key that differs in one byte from that of the item, for keys of each length.
    for n in (2..=40).chain([254, 255]) {
        let key: Vec<u8> = (0..n).map(|i| b"MP3Gain@"[i % 8]).collect();
        let area = area_of(&tag_of(vec![item(std::str::from_utf8(&key).unwrap(), "value")]));
        for at in 0..n {
            for b in 0..=255 {
                let mut other = key.clone();
                other[at] = b;
                both(c, &area, 1, &Op::Get(other));
            }
        }
    }
    // Each two bytes at a place of both keys: among eight, at their end, behind them.
    for at in [0, 3, 7, 8] {
        let mut key = b"MP3Gain@x".to_vec();
        let mut area = area_of(&tag_of(vec![item("MP3Gain@x", "")]));
        for a in 0..=255 {
            for b in 0..=255 {
                (key[at], area[8 + at]) = (a, b);
                both(c, &area, 1, &Op::Get(key.clone()));
            }
        }
    }
}

/// The rule for a key, and the eight keys.
fn keys(c: &mut Compare) {
    let mut one = |key: &[u8]| {
        c.bytes("is_key", key, is_key, library::is_key);
        c.bytes(
            "which_key",
            key,
            |k| MP3GAIN_VALUE_KEYS.iter().position(|name| k.eq_ignore_ascii_case(name.as_bytes())),
            library::which_key,
        );
    };
    one(b"");
    for a in 0..=255 {
        one(&[a]);
        for b in 0..=255 {
            one(&[a, b]);
        }
    }
    for name in ["ID3", "TAG", "OggS", "MP+"].iter().chain(&MP3GAIN_VALUE_KEYS) {
        let name = name.as_bytes();
        for at in 0..=name.len() {
            one(&name[..at]);
            for b in 0..=255 {
                let mut longer = name.to_vec();
                longer.insert(at, b);
                one(&longer);
                if at < name.len() {
                    longer = name.to_vec();
                    longer[at] = b;
                    one(&longer);
                }
            }
        }
        // Letter cases by the bits of a number; the longest name has 21 letters.
        for bits in (0..1u32 << name.len().min(21)).step_by(if name.len() > 8 { 97 } else { 1 }) {
            let mixed: Vec<u8> = (0..name.len())
                .map(|i| if bits >> i & 1 == 1 { name[i].to_ascii_lowercase() } else { name[i].to_ascii_uppercase() })
                .collect();
            one(&mixed);
        }
    }
    for n in 250..260 {
        one(&vec![b'k'; n]);
    }
}

/// What a file may have.
const LIMIT: usize = 16_777_216;

/// Results at the limit of 16,777,216 bytes and one past it.
fn limits(c: &mut Compare) {
    let mut out = vec![0xC3; LIMIT + 1000];
    let big = |length: usize| area_of(&tag_of(vec![item("AB", &"v".repeat(length - 11))]));
    let (most, more) = (big(LIMIT), big(LIMIT + 1));
    c.inputs += 16;
    assert_eq!(library::get(&more, 1, b"ab").map(|v| v.map(<[u8]>::len)), Ok(Some(LIMIT + 1 - 11)));
    assert_eq!(library::remove(&more, 1, b"CD", &mut out), Err(5));
    assert_eq!(library::set(&most, 1, b"CD", b"", &mut out), Err(5));
    assert_eq!(library::set_minmax(&most, 1, 0, 1, &mut out), Err(5));
    assert_eq!(library::set(&[], 0, b"AB", &more[11..], &mut out), Err(5));
    assert_eq!(library::set(&[], 0, b"AB", &vec![0xFF; LIMIT + 1], &mut out), Err(4));
    // The smallest item that set_replaygain appends has 30 bytes, and the algorithm's 29.
    let (text, half) = (vec![b'v'; LIMIT + 1], vec![b'v'; LIMIT / 2]);
    let none: &[u8] = &[];
    assert_eq!(library::set_replaygain(&most, 1, [none, none, none, none, b"1"], &mut out), Err(5));
    assert_eq!(library::set_replaygain(&[], 0, [none, &text, none, none, none], &mut out), Err(5));
    assert_eq!(library::set_replaygain(&[], 0, [&half, none, &half, none, none], &mut out), Err(5));
    assert_eq!(library::set_replaygain(&[], 0, [&text[..LIMIT - 29], none, none, none, none], &mut out), Err(5));
    assert!(out.iter().all(|&b| b == 0xC3), "a refused call wrote");
    assert_eq!(
        library::set_replaygain(&[], 0, [&text[..LIMIT - 30], none, none, none, none], &mut out),
        Ok((1, LIMIT))
    );
    assert_eq!(library::remove(&more, 1, b"ab", &mut out), Ok((0, 0)));
    assert_eq!(library::set(&more, 1, b"ab", b"v", &mut out), Ok((1, 12)));
    assert_eq!(library::remove(&most, 1, b"CD", &mut out), Ok((1, LIMIT)));
    assert!(out[..LIMIT] == most[..]);
    assert_eq!(library::set(&[], 0, b"AB", &most[11..], &mut out), Ok((1, LIMIT)));
    assert!(out[..LIMIT] == most[..]);
    assert_eq!(library::set(&most, 1, b"AB", &most[11..], &mut out), Ok((1, LIMIT)));
}

fn record(r: &mut Record) {
    let line = |area: &[u8], count: usize, op: &Op, r: &mut Record| {
        let flag = |wrap: bool| if wrap { "W" } else { "N" }.to_string();
        let (name, given) = match op {
            Op::Get(key) => ("get", vec![hex(key)]),
            Op::Set(key, value) => ("set", vec![hex(key), hex(value)]),
            Op::Remove(key) => ("remove", vec![hex(key)]),
            Op::RemoveReplaygain => ("remove_replaygain", vec![]),
            Op::DropUndone => ("drop_undone", vec![]),
            Op::TakeMp3gain => ("take_mp3gain", vec![]),
            Op::GetUndoGain => ("get_undo_gain", vec![]),
            Op::SetUndoGain(left, right, wrap) => {
                ("set_undo_gain", vec![left.to_string(), right.to_string(), flag(*wrap)])
            }
            Op::SetMinmax(least, greatest) => ("set_minmax", vec![least.to_string(), greatest.to_string()]),
            Op::SetReplaygain(values) => ("set_replaygain", values.iter().map(|v| hex(v)).collect()),
        };
        let answer = match published(area, count, op) {
            Err(n) => vec![n.to_string()],
            Ok(Answer::Value(None)) => vec!["0".to_string(), "none".to_string()],
            Ok(Answer::Value(Some((v, more)))) => vec!["0".to_string(), hex(&v), (more as u8).to_string()],
            Ok(Answer::Steps(n)) => vec!["0".to_string(), n.map_or("none".to_string(), |n| n.to_string())],
            Ok(Answer::Area(n, bytes)) => vec!["0".to_string(), n.to_string(), hex(&bytes)],
            Ok(Answer::Outside) => return,
        };
        let mut words = vec![name.to_string(), count.to_string(), hex(area)];
        words.extend(given);
        words.extend(answer);
        r.line(&words);
    };
    for key in
        ["", "A", "AB", "TAG", "tAg", "TAGS", "ID3", "ID3v1", "oggs", "mp+", "[x", "{x", "a\u{1f}", "a~", "a\u{7f}"]
    {
        r.line(&["key".to_string(), hex(key.as_bytes()), (is_key(key.as_bytes()) as u8).to_string()]);
    }
    for n in [254, 255, 256] {
        let key = vec![b'k'; n];
        r.line(&["key".to_string(), hex(&key), (is_key(&key) as u8).to_string()]);
    }
    for name in MP3GAIN_VALUE_KEYS {
        for key in [name.to_string(), name.to_lowercase(), name[1..].to_string(), format!("{name}_")] {
            let place = MP3GAIN_VALUE_KEYS.iter().position(|n| n.eq_ignore_ascii_case(&key)).unwrap_or(8);
            r.line(&["which".to_string(), hex(key.as_bytes()), place.to_string()]);
        }
    }
    for (area, count) in small_areas() {
        for op in each_op() {
            line(&area, count, &op, r);
            line(&area, count + 1, &op, r);
            for at in (0..area.len()).step_by(5) {
                let mut other = area.clone();
                other[at] ^= 1;
                line(&other, count, &op, r);
            }
        }
    }
    for _ in 0..150 {
        let (mut area, mut count) = loop {
            let (area, count) = some_area(&mut r.rng);
            if area.len() < 600 {
                break (area, count);
            }
        };
        for _ in 0..4 {
            let op = some_op(&mut r.rng);
            line(&area, count, &op, r);
            if let Ok(Answer::Area(n, bytes)) = published(&area, count, &op) {
                (area, count) = (bytes, n);
            }
        }
    }
    for _ in 0..60 {
        let (area, count) = some_gain_area(&mut r.rng);
        let op = Op::SetReplaygain(some_gains(&mut r.rng));
        line(&area, count, &op, r);
    }
    for (area, count) in flags::small_areas() {
        each_op().iter().for_each(|op| line(&area, count, op, r));
    }
}

/// The edits by fixed keys: what each is of a published tag, and the library's call.
type Edit = (&'static str, fn(&mut ApeTag), fn(&[u8], usize, &mut [u8]) -> library::Edited);

const EDITS: [Edit; 5] = [
    ("remove_replaygain", ApeTag::remove_replaygain, library::remove_replaygain),
    ("drop_undone", |tag| UNDONE_KEYS.iter().for_each(|key| tag.remove(key)), library::drop_undone),
    ("take_mp3gain", |tag| MP3GAIN_VALUE_KEYS.iter().for_each(|key| tag.remove(key)), library::take_mp3gain),
    (
        "set_undo_gain",
        |tag| tag.set_undo_gain(3, -12, false),
        |area, count, out| library::set_undo_gain(area, count, 3, -12, false, out),
    ),
    ("set_minmax", |tag| tag.set_minmax(94, 168), |area, count, out| library::set_minmax(area, count, 94, 168, out)),
];

/// How many bytes the keys and values of a tag have, each looked at.
fn texts_of(tag: &ApeTag) -> usize {
    tag.iter().fold(0, |sum, i| sum + black_box(i.key().len() + i.value().len()))
}

/// The same of an area, from item to item.
fn texts_in(area: &[u8]) -> usize {
    let (mut sum, mut at) = (0, 0);
    while let Ok(Some((_, [a, b, c, d]))) = library::item_at(area, at) {
        sum += black_box(b - a + d - c);
        at = d;
    }
    sum
}

/// The calls that look a key up, and those on a tag whose last eight items have the eight keys.
fn bench_keys(b: &mut Bench) {
    let value = "The quick brown fox jumps over the lazy dog";
    let n = 41;
    let plain = (0..n - 8).map(|i| item(&format!("KEY_{i:03}"), value));
    let tag = tag_of(plain.chain(MP3GAIN_VALUE_KEYS.iter().map(|key| item(key, "+003,-012,N"))).collect());
    let area = area_of(&tag);
    let mut out = vec![0; area.len() + 100];
    for (name, published, ours) in EDITS {
        b.row(
            &format!("{name}, {n} items, the last eight with the eight keys (Rust: a copy of a tag already parsed)"),
            || {
                let mut tag = tag.clone();
                published(&mut tag);
                tag
            },
            || ours(&area, n, &mut out),
        );
    }
    let file = reach::serialize(&tag);
    let mut read = vec![0; 3 * file.len()];
    b.row(
        &format!("get_undo_gain, {n} items, the eighth from the end (Rust: a tag already parsed)"),
        || tag.get_undo_gain(),
        || library::get_undo_gain(&area, n),
    );
    b.row(
        &format!("get_undo_gain, {n} items, the eighth from the end (both from a file's bytes)"),
        || read_ape_tag(&file).unwrap().get_undo_gain(),
        || {
            let (count, length) = ape::library::read_ape_tag(&file, &mut read).unwrap().unwrap();
            library::get_undo_gain(&read[..length], count)
        },
    );
    b.row(
        &format!("item_at, {n} items one after another (Rust: over a tag already parsed)"),
        || texts_of(&tag),
        || texts_in(&area),
    );
    b.row(
        &format!("item_at, {n} items one after another (both from a file's bytes)"),
        || texts_of(&read_ape_tag(&file).unwrap()),
        || {
            let (_, length) = ape::library::read_ape_tag(&file, &mut read).unwrap().unwrap();
            texts_in(&read[..length])
        },
    );
    let keys: Vec<&str> = tag.iter().map(|i| i.key()).collect();
    b.row(
        &format!("which_key, {n} keys, the last eight the eight keys (Rust: a search of its list)"),
        || {
            let place = |k: &&str| MP3GAIN_VALUE_KEYS.iter().position(|name| name.eq_ignore_ascii_case(k));
            keys.iter().filter_map(place).sum::<usize>()
        },
        || keys.iter().filter_map(|k| library::which_key(k.as_bytes())).sum::<usize>(),
    );
    // Unknown to the compiler, as a function of an archive is.
    let face = black_box(which_face as extern "C" fn(*const u8, usize) -> usize);
    b.row(
        &format!(
            "which_key, {n} keys, the last eight the eight keys (Rust: a search of its list, behind a C face too)"
        ),
        || keys.iter().map(|k| face(k.as_ptr(), k.len())).filter(|place| *place < 8).sum::<usize>(),
        || keys.iter().filter_map(|k| library::which_key(k.as_bytes())).sum::<usize>(),
    );
    b.row(
        &format!("is_key, {n} keys (Rust: document 01's rule)"),
        || keys.iter().filter(|k| is_key(k.as_bytes())).count(),
        || keys.iter().filter(|k| library::is_key(k.as_bytes())).count(),
    );
}

/// The Rust's search of its list with a C face of the library's form: the key as a pointer and a length, and 8 for none.
extern "C" fn which_face(key: *const u8, length: usize) -> usize {
    let key = unsafe { std::slice::from_raw_parts(key, length) };
    MP3GAIN_VALUE_KEYS.iter().position(|name| name.as_bytes().eq_ignore_ascii_case(key)).unwrap_or(8)
}

/// Keys of many lengths, and none but the last as long as the sought one: the Rust passes each by its length.
const USUAL_KEYS: [&str; 10] = [
    "Title",
    "Artist",
    "Album",
    "Year",
    "Track",
    "Genre",
    "Comment",
    "Composer",
    "Album Artist",
    "MP3GAIN_ALBUM_MINMAX",
];

/// From item to item with no more tested than that each size lies in the area, and no key's end searched, since the keys' lengths are lent.
fn bare_walk(area: &[u8], keys: &[usize]) -> usize {
    keys.iter().fold(0, |at, key| at + 9 + key + u32::from_le_bytes(area[at..at + 4].try_into().unwrap()) as usize)
}

fn bench_lengths(b: &mut Bench) {
    let value = "The quick brown fox jumps over the lazy dog";
    let n = 41;
    let usual = (0..n - 1).map(|i| item(&format!("{} {i}", USUAL_KEYS[i % 10]), value));
    let tag = tag_of(usual.chain([item("REPLAYGAIN_REFERENCE_LOUDNESS", value)]).collect());
    let lengths: Vec<usize> = tag.iter().map(|i| i.key().len()).collect();
    let last = "replaygain_reference_loudness";
    let (area, file) = (area_of(&tag), reach::serialize(&tag));
    let mut out = vec![0; area.len() + 100];
    let mut read = vec![0; 3 * file.len()];
    let mut done = vec![0; file.len() + 300];
    let keys = "keys of many lengths";
    b.row(
        &format!("get, the last of {n} items, {keys} (Rust: a tag already parsed)"),
        || tag.get(last),
        || library::get(&area, n, last.as_bytes()),
    );
    b.row(
        &format!(
            "no call: a bare walk over {n} items, told where each key ends (Rust: get, {keys}, a tag already parsed)"
        ),
        || tag.get(last),
        || bare_walk(&area, &lengths),
    );
    b.row(
        &format!("get, the last of {n} items, {keys} (both from a file's bytes)"),
        || read_ape_tag(&file).unwrap().get(last).map(str::len),
        || {
            let (count, length) = ape::library::read_ape_tag(&file, &mut read).unwrap().unwrap();
            library::get(&read[..length], count, last.as_bytes()).map(|v| v.map(<[u8]>::len))
        },
    );
    let mut parsed = tag.clone();
    b.row(
        &format!("set, the last of {n} items, {keys} (Rust: a tag already parsed, in place)"),
        || parsed.set(last, value),
        || library::set(&area, n, last.as_bytes(), value.as_bytes(), &mut out),
    );
    b.row(
        &format!("set, the last of {n} items, {keys} (both from a file's bytes to a tag's bytes)"),
        || {
            let mut tag = read_ape_tag(&file).unwrap();
            tag.set(last, value);
            reach::serialize(&tag)
        },
        || {
            let (count, length) = ape::library::read_ape_tag(&file, &mut read).unwrap().unwrap();
            let (count, length) =
                library::set(&read[..length], count, last.as_bytes(), value.as_bytes(), &mut out).unwrap();
            ape::library::serialize_ape_tag(&out[..length], count, &mut done)
        },
    );
}

fn bench(b: &mut Bench) {
    bench_keys(b);
    bench_lengths(b);
    let value = "The quick brown fox jumps over the lazy dog";
    let new = "+003,-012,N";
    let n = 41;
    let tag = tag_of((0..n).map(|i| item(&format!("KEY_{i:03}"), value)).collect());
    let (area, file) = (area_of(&tag), reach::serialize(&tag));
    let last = format!("key_{:03}", n - 1);
    let key = last.as_bytes();
    let mut out = vec![0; area.len() + 100];
    let mut read = vec![0; 3 * file.len()];
    let mut done = vec![0; file.len() + 300];
    b.row(
        &format!("get, the last of {n} items (Rust: a tag already parsed)"),
        || tag.get(&last),
        || library::get(&area, n, key),
    );
    b.row(
        &format!("get, the last of {n} items (both from a file's bytes)"),
        || read_ape_tag(&file).unwrap().get(&last).map(str::len),
        || {
            let (count, length) = ape::library::read_ape_tag(&file, &mut read).unwrap().unwrap();
            library::get(&read[..length], count, key).map(|v| v.map(<[u8]>::len))
        },
    );
    let mut parsed = tag.clone();
    b.row(
        &format!("set, the last of {n} items (Rust: a tag already parsed, in place)"),
        || parsed.set(&last, new),
        || library::set(&area, n, key, new.as_bytes(), &mut out),
    );
    b.row(
        &format!("set, the last of {n} items (both from a file's bytes to a tag's bytes)"),
        || {
            let mut tag = read_ape_tag(&file).unwrap();
            tag.set(&last, new);
            reach::serialize(&tag)
        },
        || {
            let (count, length) = ape::library::read_ape_tag(&file, &mut read).unwrap().unwrap();
            let (count, length) = library::set(&read[..length], count, key, new.as_bytes(), &mut out).unwrap();
            ape::library::serialize_ape_tag(&out[..length], count, &mut done)
        },
    );
    let gains = ["-3.500000 dB", "0.987650", "+1.505150 dB", "0.999000", "EBU R128"];
    let [track_gain, track_peak, album_gain, album_peak, algorithm] = gains.map(|text| Some(text.to_string()));
    let gain = ApeReplayGain { track_gain, track_peak, album_gain, album_peak, algorithm };
    let texts = gains.map(str::as_bytes);
    let mut more = vec![0; area.len() + 300];
    b.row(
        &format!("set_replaygain, five texts behind {n} items (Rust: a copy of a tag already parsed)"),
        || {
            let mut tag = tag.clone();
            tag.set_replaygain(&gain);
            tag
        },
        || library::set_replaygain(&area, n, texts, &mut more),
    );
    b.row(
        &format!("set_replaygain, five texts behind {n} items (both from a file's bytes to a tag's bytes)"),
        || {
            let mut tag = read_ape_tag(&file).unwrap();
            tag.set_replaygain(&gain);
            reach::serialize(&tag)
        },
        || {
            let (count, length) = ape::library::read_ape_tag(&file, &mut read).unwrap().unwrap();
            let (count, length) = library::set_replaygain(&read[..length], count, texts, &mut more).unwrap();
            ape::library::serialize_ape_tag(&more[..length], count, &mut done)
        },
    );
    b.row(
        &format!("remove, the last of {n} items (Rust: a copy of a tag already parsed)"),
        || {
            let mut tag = tag.clone();
            tag.remove(&last);
            tag
        },
        || library::remove(&area, n, key, &mut out),
    );
    b.row(
        &format!("remove, the last of {n} items (both from a file's bytes to a tag's bytes)"),
        || {
            let mut tag = read_ape_tag(&file).unwrap();
            tag.remove(&last);
            reach::serialize(&tag)
        },
        || {
            let (count, length) = ape::library::read_ape_tag(&file, &mut read).unwrap().unwrap();
            let (count, length) = library::remove(&read[..length], count, key, &mut out).unwrap();
            ape::library::serialize_ape_tag(&out[..length], count, &mut done)
        },
    );
}
