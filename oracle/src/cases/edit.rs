//! Crates `gate`, `edit` and `undo`: the gate, set and remove on a file, and undo on a file and its gains; with `level` and `shift`, the level call
//! and the shift of an item area.
//!
//! The editing gate and the refusals are not in the published Rust: they are read here a second time from document 01. What an
//! accepted call does to the tag, the file and the gains is the published Rust's.

use super::ape::{area_of, edge_files, headed_files, is_area, item, random_file, tag_of, written};
use super::items::is_repeated;
use super::lengths::{library as lengths, with_length};
use super::{ape, flags, level, listing, shift, Case};
use crate::ape::{find_ape_footer, parse_undo_values, parse_undo_wrap, reach, read_ape_tag, ApeItem, ApeTag};
use crate::frame::{adjust_gain_value, read_u32_le, GainMode};
use crate::tools::{hex, Bench, Compare, Record, Rng};

pub const CASE: Case = Case { name: "edit", record, compare, bench };

/// The declarations, as Rust, and safe wrappers. A refusal is `Err` with its number.
pub mod library {
    extern "C" {
        fn zib_gate(file: *const u8, length: usize, start: *mut usize, end: *mut usize, count: *mut usize) -> u32;
        fn zib_set_ape_item(
            file: *const u8,
            length: usize,
            key: *const u8,
            key_length: usize,
            value: *const u8,
            value_length: usize,
            out: *mut u8,
            room: usize,
            written: *mut usize,
        ) -> u32;
        fn zib_remove_ape_item(
            file: *const u8,
            length: usize,
            key: *const u8,
            key_length: usize,
            out: *mut u8,
            room: usize,
            written: *mut usize,
        ) -> u32;
        fn zib_undo(
            file: *const u8,
            length: usize,
            left: *mut u8,
            left_length: usize,
            right: *mut u8,
            right_length: usize,
            out: *mut u8,
            room: usize,
            written: *mut usize,
            peaks: *mut usize,
        ) -> u32;
    }

    fn done<T>(reply: u32, result: T) -> Result<T, u32> {
        if reply == 0 {
            Ok(result)
        } else {
            Err(reply)
        }
    }

    /// Where the items stand, and how many there are.
    pub fn gate(file: &[u8]) -> Result<(usize, usize, usize), u32> {
        let (mut start, mut end, mut count) = (7, 7, 7);
        // SAFETY: pointers and lengths of slices; the lent numbers live through the call. So below.
        let reply = unsafe { zib_gate(file.as_ptr(), file.len(), &mut start, &mut end, &mut count) };
        assert!(reply == 0 || (start, end, count) == (7, 7, 7), "a refused call changed a lent number");
        done(reply, (start, end, count))
    }

    pub fn set_ape_item(file: &[u8], key: &[u8], value: &[u8], out: &mut [u8]) -> Result<usize, u32> {
        let mut written = 7;
        let reply = unsafe {
            let (f, k, v, o) = (file.as_ptr(), key.as_ptr(), value.as_ptr(), out.as_mut_ptr());
            zib_set_ape_item(f, file.len(), k, key.len(), v, value.len(), o, out.len(), &mut written)
        };
        done(reply, written)
    }

    pub fn remove_ape_item(file: &[u8], key: &[u8], out: &mut [u8]) -> Result<usize, u32> {
        let mut written = 7;
        let reply = unsafe {
            let (f, k, o) = (file.as_ptr(), key.as_ptr(), out.as_mut_ptr());
            zib_remove_ape_item(f, file.len(), k, key.len(), o, out.len(), &mut written)
        };
        done(reply, written)
    }

    /// The length of the file and the number of its peak items.
    pub fn undo(file: &[u8], left: &mut [u8], right: &mut [u8], out: &mut [u8]) -> Result<(usize, usize), u32> {
        let (mut written, mut peaks) = (7, 7);
        let reply = unsafe {
            let (f, o) = (file.as_ptr(), out.as_mut_ptr());
            let (l, r) = (left.as_mut_ptr(), right.as_mut_ptr());
            zib_undo(f, file.len(), l, left.len(), r, right.len(), o, out.len(), &mut written, &mut peaks)
        };
        assert!(reply == 0 || (written, peaks) == (7, 7), "a refused call changed a lent number");
        done(reply, (written, peaks))
    }
}

pub const LIMIT: usize = 16_777_216;
/// The most items of an edited tag: document 02's request 11.
pub const ITEMS: usize = 41;
pub const EIGHT: [&str; 8] = [
    "MP3GAIN_UNDO",
    "MP3GAIN_MINMAX",
    "MP3GAIN_ALBUM_MINMAX",
    "REPLAYGAIN_TRACK_GAIN",
    "REPLAYGAIN_TRACK_PEAK",
    "REPLAYGAIN_ALBUM_GAIN",
    "REPLAYGAIN_ALBUM_PEAK",
    "REPLAYGAIN_ALGORITHM",
];

/// The undo key as tools spell it, and a key that only begins alike.
pub const UNDO_NAMES: [&str; 4] = ["MP3GAIN_UNDO", "mp3gain_undo", "Mp3Gain_Undo", "MP3GAIN_UNDO_"];

/// Document 01's limits of refusal 6.
fn fits(tag: &ApeTag) -> bool {
    tag.len() <= ITEMS && area_of(tag).len() <= 32_768
}

/// Document 01's editing gate: the items of a file that is fit for editing.
pub fn gate(file: &[u8]) -> Option<ApeTag> {
    let Some(footer) = find_ape_footer(file) else { return Some(ApeTag::new()) };
    let number = |at: usize| read_u32_le(&file[footer + at..]) as usize;
    let (version, size, count, header) = (number(8), number(12), number(16), number(20) >> 31);
    if version != 2000 || size < 32 || footer + 32 < size + 32 * header {
        return None;
    }
    // Document 02's request 4: a header that the footer's bit 31 speaks of stands before the items.
    if header == 1 {
        let header = &file[footer - size..][..32];
        let number = |at: usize| read_u32_le(&header[at..]) as usize;
        let said = [number(8), number(12), number(16), number(20) >> 29 & 1];
        if !header.starts_with(b"APETAGEX") || said != [2000, size, count, 1] {
            return None;
        }
    }
    let area = &file[footer + 32 - size..footer];
    if count > ITEMS || area.len() > 32_768 || !is_area(area, count) {
        return None;
    }
    let mut items = Vec::new();
    let mut rest = area;
    while !rest.is_empty() {
        let length = read_u32_le(rest) as usize;
        let key = rest[8..].iter().position(|&b| b == 0)?;
        let value = &rest[8 + key + 1..][..length];
        items.push(item(std::str::from_utf8(&rest[8..8 + key]).ok()?, std::str::from_utf8(value).ok()?));
        rest = &rest[8 + key + 1 + length..];
    }
    Some(tag_of(items))
}

/// The same as places: the items end at the footer, and stand nowhere without one.
pub fn gate_places(file: &[u8]) -> Result<(usize, usize, usize), u32> {
    if flags::in_file(file) {
        return flags::gate_places(file);
    }
    let tag = gate(file).ok_or(8u32)?;
    let end = find_ape_footer(file).unwrap_or(0);
    Ok((end - area_of(&tag).len(), end, tag.len()))
}

/// Document 01's rule for a key.
fn is_key(key: &[u8]) -> bool {
    let reserved = [&b"ID3"[..], b"TAG", b"OggS", b"MP+"];
    (2..=255).contains(&key.len())
        && key.iter().all(|b| (0x20..=0x7E).contains(b))
        && !reserved.iter().any(|r| key.eq_ignore_ascii_case(r))
}

/// The file with its tag replaced, if the tag keeps the limits and the file is not too long.
pub fn finish(file: &[u8], tag: &ApeTag) -> Result<Vec<u8>, u32> {
    if !fits(tag) {
        return Err(6);
    }
    let new = reach::replace(file, tag);
    if new.len() > LIMIT {
        Err(5)
    } else {
        Ok(new)
    }
}

// Of tags with flags the published Rust is not asked, here and below.
pub fn published_set(file: &[u8], key: &[u8], value: &[u8]) -> Result<Vec<u8>, u32> {
    if flags::in_file(file) {
        return flags::set_ape_item(file, key, value);
    }
    if file.len() > LIMIT {
        return Err(1);
    }
    if !is_key(key) {
        return Err(3);
    }
    let value = std::str::from_utf8(value).map_err(|_| 4u32)?;
    let mut tag = gate(file).ok_or(8u32)?;
    tag.set(std::str::from_utf8(key).unwrap(), value);
    finish(file, &tag)
}

pub fn published_remove(file: &[u8], key: &[u8]) -> Result<Vec<u8>, u32> {
    if flags::in_file(file) {
        return flags::remove_ape_item(file, key);
    }
    if file.len() > LIMIT {
        return Err(1);
    }
    if !is_key(key) {
        return Err(3);
    }
    let mut tag = gate(file).ok_or(8u32)?;
    tag.remove(std::str::from_utf8(key).unwrap());
    finish(file, &tag)
}

/// What level and undo leave: the file, both gain lists, and the number of peak items.
#[derive(Clone, PartialEq, Debug)]
pub struct Levelled {
    pub file: Vec<u8>,
    pub left: Vec<u8>,
    pub right: Vec<u8>,
    pub peaks: usize,
}

/// Every gain moved by so many steps.
pub fn moved(gains: &[u8], steps: i32, wrap: bool) -> Vec<u8> {
    gains.iter().map(|&g| adjust_gain_value(g, steps, GainMode::from_wrap(wrap))).collect()
}

pub fn published_undo(file: &[u8], left: &[u8], right: &[u8]) -> Result<Levelled, u32> {
    if flags::in_file(file) {
        return flags::undo(file, left, right);
    }
    if file.len() > LIMIT {
        return Err(1);
    }
    if left.is_empty() {
        return Err(7);
    }
    let mut tag = gate(file).ok_or(8u32)?;
    if is_repeated(&tag, "MP3GAIN_UNDO") {
        return Err(14);
    }
    let text = tag.get("MP3GAIN_UNDO").ok_or(10u32)?.to_string();
    let (left_steps, right_steps) = parse_undo_values(Some(&text));
    let wrap = parse_undo_wrap(Some(&text));
    for key in EIGHT {
        tag.remove(key);
    }
    Ok(Levelled {
        file: reach::replace(file, &tag),
        left: moved(left, left_steps, wrap),
        right: moved(right, right_steps, wrap),
        peaks: 0,
    })
}

/// A call on gains with so much room. Panics where it changed something that it should not have.
pub fn in_room(
    left: &[u8],
    right: &[u8],
    room: usize,
    call: impl Fn(&mut [u8], &mut [u8], &mut [u8]) -> Result<(usize, usize), u32>,
) -> Result<Levelled, u32> {
    let (mut l, mut r, mut out) = (left.to_vec(), right.to_vec(), vec![0xC3; room]);
    match call(&mut l, &mut r, &mut out) {
        Ok((n, peaks)) => {
            assert!(out[n..].iter().all(|&b| b == 0xC3), "wrote past its length");
            out.truncate(n);
            Ok(Levelled { file: out, left: l, right: r, peaks })
        }
        Err(reason) => {
            assert!(l == left && r == right && out.iter().all(|&b| b == 0xC3), "a refused call changed something");
            Err(reason)
        }
    }
}

/// The same with ample room, with exact room, with one byte less, and with none: 5 is the last of the refusals.
pub fn in_rooms(
    left: &[u8],
    right: &[u8],
    ample: usize,
    call: impl Fn(&mut [u8], &mut [u8], &mut [u8]) -> Result<(usize, usize), u32>,
) -> Result<Levelled, u32> {
    let answer = in_room(left, right, ample, &call);
    let Ok(done) = &answer else {
        assert_eq!(in_room(left, right, 0, &call), answer, "refused, and otherwise without room");
        return answer;
    };
    let n = done.file.len();
    assert_eq!(in_room(left, right, n, &call), answer, "exact room");
    if n > 0 {
        assert_eq!(in_room(left, right, n - 1, &call), Err(5), "one byte short");
        assert_eq!(in_room(left, right, 0, &call), Err(5), "no room");
    }
    answer
}

fn our_undo(file: &[u8], left: &[u8], right: &[u8]) -> Result<Levelled, u32> {
    in_rooms(left, right, file.len() + 16, |l, r, out| library::undo(file, l, r, out))
}

/// The key with the case of some letters turned.
fn turned(rng: &mut Rng, key: &str) -> String {
    let turn = |c: char, up| if up { c.to_ascii_uppercase() } else { c.to_ascii_lowercase() };
    key.chars().map(|c| turn(c, rng.below(2) == 0)).collect()
}

fn random_key(rng: &mut Rng) -> String {
    let key = match rng.below(4) {
        0 => "MP3GAIN_UNDO",
        1 => rng.pick(&EIGHT),
        _ => rng.pick(&["Title", "AB", "a=b", "REPLAYGAIN_TRACK_GAI", "MP3GAIN_UNDO2"]),
    };
    turned(rng, key)
}

fn random_value(rng: &mut Rng) -> String {
    let texts = [
        "",
        "+003,+003,N",
        "-012,+004,W",
        "+255,-255,N",
        " 7 , 8 , w ",
        "-3,junk",
        "junk,7",
        "2147483647,-2147483648,W",
        "010,200",
        "+1.234567 dB",
        "0.988553",
        "\u{20AC}uro",
        "p\u{0}q",
    ];
    rng.pick(&texts).to_string()
}

/// A file that mostly passes the gate: items with the eight keys and others, with and without ID3v1, some damaged.
fn edited_file(rng: &mut Rng) -> Vec<u8> {
    if rng.below(8) == 0 {
        return random_file(rng);
    }
    let n = rng.below(7);
    let items = (0..n).map(|_| item(&random_key(rng), &random_value(rng))).collect();
    around(rng, &tag_of(items))
}

/// A file with this tag: audio, ID3v1 or not, some damaged.
pub fn around(rng: &mut Rng, tag: &ApeTag) -> Vec<u8> {
    let length = rng.pick(&[0, 1, 32, 100, 128, 200]);
    let mut front = rng.bytes(length);
    if rng.below(3) == 0 {
        front.extend_from_slice(b"TAG");
        front.resize(length + 128, 0);
    }
    let mut file = reach::replace(&front, tag);
    if rng.below(6) == 0 && !file.is_empty() {
        let at = file.len() - 1 - rng.below(file.len().min(200));
        file[at] = rng.next() as u8;
    }
    file
}

/// So many items, each with its own key.
pub fn some_items(n: usize) -> Vec<ApeItem> {
    (0..n).map(|i| item(&format!("KEY_{i}"), "v")).collect()
}

/// What takes no notice of the gate: reading, splitting and replacement, and the listing of printable items.
fn as_before(c: &mut Compare, file: &[u8]) {
    ape::both(c, file, &[tag_of(some_items(2))]);
    let read = |s: &[u8]| {
        let tag = read_ape_tag(s)?;
        let lines = tag.iter().map(|i| format!("{}={}\n", i.key(), i.value()));
        Some(format!("items={}\n{}", tag.len(), lines.collect::<String>()))
    };
    let listed = |s: &[u8]| {
        let mut text = Box::new([0; listing::library::ROOM]);
        let n = listing::library::list_tag(s, &mut text);
        Some(String::from_utf8_lossy(&text[..n]).into_owned()).filter(|t| t != "items=none\n")
    };
    c.bytes("list_tag", file, read, listed);
}

/// Each call, and its length, which is that of the file or the same refusal.
fn edits(c: &mut Compare, file: &[u8], key: &[u8], value: &[u8]) {
    let room = |s: &[u8]| s.len() + key.len() + value.len() + 200;
    c.bytes("gate", file, gate_places, library::gate);
    c.bytes(
        "set_ape_item",
        file,
        |s| with_length(published_set(s, key, value)),
        |s| {
            let call = written(room(s), |out| library::set_ape_item(s, key, value, out));
            (call, lengths::set_length(s, key, value))
        },
    );
    c.bytes(
        "remove_ape_item",
        file,
        |s| with_length(published_remove(s, key)),
        |s| (written(room(s), |out| library::remove_ape_item(s, key, out)), lengths::remove_length(s, key)),
    );
}

/// An undo text with a byte of hex 80 or more is outside the compared domain.
pub fn in_domain(file: &[u8]) -> bool {
    gate(file).is_none_or(|tag| tag.get("MP3GAIN_UNDO").is_none_or(str::is_ascii))
}

fn undoes(c: &mut Compare, file: &[u8], left: &[u8], right: &[u8]) {
    if in_domain(file) {
        let published = |s: &[u8]| in_domain(s).then(|| with_length(published_undo(s, left, right)));
        let ours = |s: &[u8]| in_domain(s).then(|| (our_undo(s, left, right), lengths::undo_length(s, left, right)));
        c.bytes("undo", file, published, ours);
    }
}

fn compare(c: &mut Compare) {
    let long = vec![b'k'; 256];
    let keys = [
        &b""[..],
        b"A",
        b"AB",
        b"id3",
        b"tag",
        b"OGGS",
        b"mp+",
        b"ID33",
        b"a\x1F",
        b"a\x7F",
        b"a\xC3",
        &long,
        &long[1..],
    ];
    let good =
        reach::replace(b"audio", &tag_of(vec![item("AB", "c"), item("mp3gain_undo", "+003,-002,W"), item("ab", "d")]));
    for key in keys {
        for value in [&b""[..], b"x", b"\xFF", b"\xED\xA0\x80"] {
            edits(c, &good, key, value);
            edits(c, b"", key, value);
        }
    }
    // Every truncation and every change of one byte of a good file.
    for at in 0..good.len() {
        edits(c, &good[..at], b"Ab", b"new");
        undoes(c, &good[..at], b"\x00\x01\x80", b"\xFF");
        for value in 0..=255 {
            let mut other = good.clone();
            other[at] = value;
            edits(c, &other, b"Ab", b"new");
            undoes(c, &other, b"\x00\x01\x80", b"\xFF");
        }
    }
    undoes(c, &good, b"", b"\x05");
    // Refusal 6, from both sides: 39 to 42 items, with an undo item and without, and 32,767 to 32,769 bytes of items.
    for n in ITEMS - 2..=ITEMS + 1 {
        for last in ["KEY_0", "MP3GAIN_UNDO"] {
            let mut items = some_items(n - 1);
            items.push(item(last, "+003,-002,W"));
            let file = reach::replace(b"audio", &tag_of(items));
            edits(c, &file, b"ONE_MORE", b"v");
            edits(c, &file, b"key_0", b"");
            undoes(c, &file, b"\x07", b"");
        }
    }
    // A second undo item in each letter case, in each order, beside a key that only begins alike; then with the gate's refusal.
    for (first, second) in UNDO_NAMES.iter().flat_map(|a| UNDO_NAMES.iter().map(move |b| (a, b))) {
        for (one, two) in
            [("+003,-002,W", "+001,+001,N"), ("", ""), ("junk", "+003,-002,W"), ("+003,-002,N", "+003,-002,N")]
        {
            let items = vec![item("AB", "c"), item(first, one), item("CD", "e"), item(second, two)];
            let mut file = reach::replace(b"audio", &tag_of(items));
            edits(c, &file, first.to_lowercase().as_bytes(), b"v");
            edits(c, &file, b"ab", b"v");
            undoes(c, &file, b"\x07\x80", b"\x00");
            undoes(c, &file, b"", b"\x00");
            let at = file.len() - 24;
            file[at] ^= 1;
            undoes(c, &file, b"\x07\x80", b"\x00");
        }
    }
    // More items than an edited tag may have are read, listed and replaced as before, and not edited.
    for n in [ITEMS + 1, 256] {
        let file = reach::replace(b"audio", &tag_of(some_items(n)));
        assert!(gate(&file).is_none());
        edits(c, &file, b"key_0", b"");
        undoes(c, &file, b"\x07", b"");
        as_before(c, &file);
    }
    // Every single bit of a header, which the footer speaks of or not.
    for file in headed_files(&[0, 1, 31, 32], &[0, 0x8000_0000]) {
        edits(c, &file, b"Ab", b"new");
        undoes(c, &file, b"\x00\x01\x80", b"\xFF");
        as_before(c, &file);
    }
    // What mp3gain wrote has its header.
    let tagged = include_bytes!("../../tagged/mp3gain.mp3");
    assert!(gate(tagged).is_some());
    edits(c, tagged, b"Ab", b"new");
    undoes(c, tagged, b"\x00\x01\x80", b"\xFF");
    for n in 32_740..=32_775 {
        let file = reach::replace(b"audio", &tag_of(vec![item("AB", &"v".repeat(n))]));
        edits(c, &file, b"CD", b"v");
        edits(c, &file, b"ab", b"v");
        edits(c, b"audio", b"AB", &vec![b'v'; n]);
    }
    edits(c, b"audio", b"AB", &vec![b'v'; 70_000]);
    for _ in 0..c.count / 3 {
        let file = edited_file(&mut c.rng);
        let key = random_key(&mut c.rng);
        let value = random_value(&mut c.rng);
        edits(c, &file, key.as_bytes(), value.as_bytes());
        let (l, r) = (c.rng.below(6), c.rng.below(4));
        let (left, right) = (c.rng.bytes(l), c.rng.bytes(r));
        undoes(c, &file, &left, &right);
    }
    // The limit of 16,777,216 bytes, and one past it: files and results.
    let file = vec![0x55; LIMIT + 1];
    let mut out = vec![0; LIMIT + 100];
    c.inputs += 7;
    assert_eq!(library::gate(&file), Err(1));
    assert_eq!(library::gate(&file[..LIMIT]), Ok((0, 0, 0)));
    assert_eq!(library::set_ape_item(&file, b"A", b"\xFF", &mut out), Err(1));
    assert_eq!(library::remove_ape_item(&file, b"A", &mut out), Err(1));
    assert_eq!(library::undo(&file, &mut [], &mut [], &mut out), Err(1));
    assert_eq!(library::set_ape_item(&file[..LIMIT - 75], b"AB", b"c", &mut out), Err(5));
    assert_eq!(library::set_ape_item(&file[..LIMIT - 76], b"AB", b"c", &mut out), Ok(LIMIT));
    level::compare(c);
    shift::compare(c);
}

fn record(r: &mut Record) {
    let reply = |x: Result<Vec<u8>, u32>| match x {
        Ok(bytes) => ("0".to_string(), hex(&bytes)),
        Err(n) => (n.to_string(), "-".to_string()),
    };
    let lines = |r: &mut Record, file: &[u8], key: &[u8], value: &[u8], left: &[u8], right: &[u8]| {
        let (f, k, v) = (hex(file), hex(key), hex(value));
        let (n, bytes) = reply(published_set(file, key, value));
        r.line(&["set".into(), f.clone(), k.clone(), v, n, bytes]);
        let (n, bytes) = reply(published_remove(file, key));
        r.line(&["remove".into(), f.clone(), k, n, bytes]);
        if in_domain(file) {
            let start = ["undo".into(), f, hex(left), hex(right)];
            let end = match published_undo(file, left, right) {
                Ok(u) => ["0".into(), hex(&u.file), hex(&u.left), hex(&u.right)],
                Err(n) => [n.to_string(), "-".into(), hex(left), hex(right)],
            };
            r.line(&[start, end].concat());
        }
    };
    for _ in 0..160 {
        let file = edited_file(&mut r.rng);
        let key = random_key(&mut r.rng).into_bytes();
        let value = random_value(&mut r.rng).into_bytes();
        let (l, m) = (r.rng.below(6), r.rng.below(4));
        let (left, right) = (r.rng.bytes(l), r.rng.bytes(m));
        lines(r, &file, &key, &value, &left, &right);
    }
    // The limit of the items, from both sides.
    for n in ITEMS - 1..=ITEMS + 1 {
        let mut items = some_items(n - 1);
        items.push(item("MP3GAIN_UNDO", "+003,-002,W"));
        lines(r, &reach::replace(b"audio", &tag_of(items)), b"ONE_MORE", b"v", b"\x07", b"\x80");
    }
    for file in &flags::small_files()[..3] {
        lines(r, file, b"ab", b"new", b"\x07", b"\x80");
    }
    shift::record(r);
    level::record(r);
    // `gate FILE REPLY START END COUNT`.
    let random: Vec<_> = (0..100).map(|_| edited_file(&mut r.rng)).collect();
    // Of the headers every fifth: each of the 32 bytes is among them, and bit 29.
    let headed = headed_files(&[0], &[0x8000_0000]);
    for file in edge_files().iter().chain(&random).chain(headed.iter().step_by(5)).chain(&flags::each_type()) {
        let (reply, (start, end, count)) = gate_places(file).map_or_else(|n| (n, (0, 0, 0)), |places| (0, places));
        let numbers = [reply as usize, start, end, count].map(|n| n.to_string());
        r.line(&[&["gate".into(), hex(file)], &numbers[..]].concat());
    }
}

fn bench(b: &mut Bench) {
    let value = "The quick brown fox jumps over the lazy dog";
    let mut items: Vec<_> = (0..40).map(|i| item(&format!("KEY_{i:03}"), value)).collect();
    items.push(item("MP3GAIN_UNDO", "+003,-002,W"));
    let tag = tag_of(items);
    let file = reach::replace(&vec![0x55; 4 << 10], &tag);
    b.row("gate on a file of 4 KiB, 41 items (Rust: read; no gate)", || read_ape_tag(&file), || library::gate(&file));
    for (size, name) in [(4 << 10, "4 KiB"), (1 << 20, "1 MiB"), ((16 << 20) - 8192, "16 MiB")] {
        let file = reach::replace(&vec![0x55; size], &tag);
        let mut out = vec![0; file.len() + 100];
        b.row(
            &format!("set_ape_item on a file of {name}, 41 items (Rust: read, set, replace; no gate)"),
            || {
                let mut tag = read_ape_tag(&file).unwrap();
                tag.set("KEY_020", "new");
                reach::replace(&file, &tag)
            },
            || library::set_ape_item(&file, b"KEY_020", b"new", &mut out),
        );
        b.row(
            &format!("remove_ape_item on a file of {name}, 41 items (Rust: read, remove, replace; no gate)"),
            || {
                let mut tag = read_ape_tag(&file).unwrap();
                tag.remove("KEY_020");
                reach::replace(&file, &tag)
            },
            || library::remove_ape_item(&file, b"KEY_020", &mut out),
        );
        let (mut left, mut right) = (vec![100u8; 5_000], vec![100u8; 5_000]);
        let (mut l, mut r) = (left.clone(), right.clone());
        b.row(
            &format!("undo on a file of {name}, 41 items, 10,000 gains (Rust: read, adjust, remove, replace; no gate)"),
            || {
                let mut tag = read_ape_tag(&file).unwrap();
                let text = tag.get("MP3GAIN_UNDO").unwrap().to_string();
                let (x, y) = parse_undo_values(Some(&text));
                let wrap = parse_undo_wrap(Some(&text));
                for (gains, steps) in [(&mut left, x), (&mut right, y)] {
                    for g in gains.iter_mut() {
                        *g = adjust_gain_value(*g, steps, GainMode::from_wrap(wrap));
                    }
                }
                EIGHT.iter().for_each(|key| tag.remove(key));
                reach::replace(&file, &tag)
            },
            || library::undo(&file, &mut l, &mut r, &mut out),
        );
    }
    level::bench(b);
    shift::bench(b);
}
