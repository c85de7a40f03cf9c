//! Crates `ape`, `ape_write` and `ape_replace`: the footer found, the tag read, serialized and replaced, on whole files.

use super::{flags, frame, Case};
use crate::ape::{find_ape_footer, reach, read_ape_tag, ApeItem, ApeTag};
use crate::tools::{hex, Bench, Compare, Record, Rng};
use std::hint::black_box;

pub const CASE: Case = Case { name: "ape", record, compare, bench };

/// The exported functions, as Rust, and safe wrappers. A refusal is `Err` with its number.
pub mod library {
    extern "C" {
        fn zib_find_ape_footer(file: *const u8, length: usize, there: *mut u32, footer: *mut usize) -> u32;
        fn zib_read_ape_tag(
            file: *const u8,
            length: usize,
            area: *mut u8,
            room: usize,
            there: *mut u32,
            count: *mut usize,
            written: *mut usize,
        ) -> u32;
        fn zib_serialize_ape_tag(
            area: *const u8,
            length: usize,
            count: usize,
            out: *mut u8,
            room: usize,
            written: *mut usize,
        ) -> u32;
        fn zib_split_ape_tag(
            file: *const u8,
            length: usize,
            front: *mut usize,
            from: *mut usize,
            to: *mut usize,
        ) -> u32;
        fn zib_ape_tag_parts(
            file: *const u8,
            length: usize,
            front: *mut usize,
            from: *mut usize,
            to: *mut usize,
        ) -> u32;
        fn zib_cut_ape_tag(file: *const u8, length: usize, front: *mut usize, from: *mut usize, to: *mut usize) -> u32;
        fn zib_replace_ape_tag(
            file: *const u8,
            length: usize,
            area: *const u8,
            area_length: usize,
            count: usize,
            out: *mut u8,
            room: usize,
            written: *mut usize,
        ) -> u32;
    }

    fn done<T>(reply: u32, result: T) -> Result<T, u32> {
        if reply == 0 {
            Ok(result)
        } else {
            Err(reply)
        }
    }

    pub fn find_ape_footer(file: &[u8]) -> Result<Option<usize>, u32> {
        let (mut there, mut footer) = (7, 7);
        // SAFETY: pointers and lengths of slices; the lent numbers live through the call. So below.
        let reply = unsafe { zib_find_ape_footer(file.as_ptr(), file.len(), &mut there, &mut footer) };
        done(reply, (there == 1).then_some(footer))
    }

    /// The count of items and the length of their area, or none for no tag.
    pub fn read_ape_tag(file: &[u8], area: &mut [u8]) -> Result<Option<(usize, usize)>, u32> {
        let (mut there, mut count, mut written) = (7, 7, 7);
        let reply = unsafe {
            let (f, a) = (file.as_ptr(), area.as_mut_ptr());
            zib_read_ape_tag(f, file.len(), a, area.len(), &mut there, &mut count, &mut written)
        };
        done(reply, (there == 1).then_some((count, written)))
    }

    pub fn serialize_ape_tag(area: &[u8], count: usize, out: &mut [u8]) -> Result<usize, u32> {
        let mut written = 7;
        let reply = unsafe {
            zib_serialize_ape_tag(area.as_ptr(), area.len(), count, out.as_mut_ptr(), out.len(), &mut written)
        };
        done(reply, written)
    }

    type Cutting = unsafe extern "C" fn(*const u8, usize, *mut usize, *mut usize, *mut usize) -> u32;

    fn cut(call: Cutting, file: &[u8]) -> Result<(usize, usize, usize), u32> {
        let (mut front, mut from, mut to) = (7, 7, 7);
        let reply = unsafe { call(file.as_ptr(), file.len(), &mut front, &mut from, &mut to) };
        assert!(reply == 0 || (front, from, to) == (7, 7, 7), "a refused call changed a lent number");
        done(reply, (front, from, to))
    }

    /// Where the audio before the tag ends, and where what stands behind it starts and ends. The published Rust calls it split_ape_tag.
    pub fn cut_ape_tag(file: &[u8]) -> Result<(usize, usize, usize), u32> {
        cut(zib_cut_ape_tag, file)
    }

    /// The same of the parts that replacement keeps.
    pub fn ape_tag_parts(file: &[u8]) -> Result<(usize, usize, usize), u32> {
        cut(zib_ape_tag_parts, file)
    }

    /// Those parts by the other name of the same call.
    pub fn split_ape_tag(file: &[u8]) -> Result<(usize, usize, usize), u32> {
        cut(zib_split_ape_tag, file)
    }

    pub fn replace_ape_tag(file: &[u8], area: &[u8], count: usize, out: &mut [u8]) -> Result<usize, u32> {
        let mut written = 7;
        let reply = unsafe {
            let (f, a, o) = (file.as_ptr(), area.as_ptr(), out.as_mut_ptr());
            zib_replace_ape_tag(f, file.len(), a, area.len(), count, o, out.len(), &mut written)
        };
        done(reply, written)
    }
}

/// What fills an output before a call, to see which bytes it changed.
const FILL: u8 = 0xC3;

/// The bytes of an item, whose numbers need not be right.
fn item_bytes(length: u32, flags: u32, key: &[u8], value: &[u8]) -> Vec<u8> {
    [&length.to_le_bytes()[..], &flags.to_le_bytes(), key, &[0], value].concat()
}

/// The item area of a tag.
pub fn area_of(tag: &ApeTag) -> Vec<u8> {
    let mut area = Vec::new();
    for item in &tag.items {
        let (key, value) = (item.key().as_bytes(), item.value().as_bytes());
        area.extend(item_bytes(value.len() as u32, 0, key, value));
    }
    area
}

/// A call that writes, tried with ample room, with exact room, and with one byte less: what it wrote, or the refusal.
/// Panics where it changed a byte that it should not have.
pub fn written(room: usize, call: impl Fn(&mut [u8]) -> Result<usize, u32>) -> Result<Vec<u8>, u32> {
    let mut out = vec![FILL; room];
    let n = match call(&mut out) {
        Ok(n) => n,
        Err(r) => {
            assert!(out.iter().all(|&b| b == FILL), "a refused call wrote");
            return Err(r);
        }
    };
    assert!(out[n..].iter().all(|&b| b == FILL), "wrote past its length");
    let mut exact = vec![FILL; n];
    assert_eq!(call(&mut exact), Ok(n), "exact room");
    assert!(exact == out[..n], "exact room, other bytes");
    if n > 0 {
        let mut short = vec![FILL; n - 1];
        assert_eq!(call(&mut short), Err(5), "one byte short");
        assert!(short.iter().all(|&b| b == FILL), "one byte short, and wrote");
    }
    out.truncate(n);
    Ok(out)
}

/// The count and the area that the published reader gives; a tag with flags is read by `flags`.
pub fn published_read(file: &[u8]) -> Option<(usize, Vec<u8>)> {
    if flags::in_file(file) {
        return flags::read(file);
    }
    read_ape_tag(file).map(|tag| (tag.len(), area_of(&tag)))
}

pub fn our_read(file: &[u8]) -> Option<(usize, Vec<u8>)> {
    let mut count = None;
    let area =
        written(3 * file.len() + 64, |out| library::read_ape_tag(file, out).map(|t| t.map_or(0, |(_, length)| length)));
    let mut out = vec![FILL; 3 * file.len() + 64];
    if let Ok(Some((n, _))) = library::read_ape_tag(file, &mut out) {
        count = Some(n);
    }
    count.map(|n| (n, area.unwrap()))
}

/// Where what precedes the tag ends, and where what follows it stands, if anything does.
type Cut = (usize, Option<(usize, usize)>);

/// Two parts of a file, the second behind the first, as places in it.
fn places(file: &[u8], (audio, rest): (&[u8], &[u8])) -> Cut {
    let from = || rest.as_ptr() as usize - file.as_ptr() as usize;
    (audio.len(), (!rest.is_empty()).then(|| (from(), from() + rest.len())))
}

fn published_split(file: &[u8]) -> Cut {
    places(file, reach::split(file))
}

fn published_parts(file: &[u8]) -> Cut {
    places(file, reach::parts(file))
}

fn cut((front, from, to): (usize, usize, usize)) -> Cut {
    (front, (from != to).then_some((from, to)))
}

fn our_cut(file: &[u8]) -> Cut {
    cut(library::cut_ape_tag(file).unwrap())
}

fn our_split(file: &[u8]) -> Cut {
    cut(library::split_ape_tag(file).unwrap())
}

fn our_parts(file: &[u8]) -> Cut {
    cut(library::ape_tag_parts(file).unwrap())
}

pub fn item(key: &str, value: &str) -> ApeItem {
    ApeItem::new(key.to_string(), value.to_string())
}

pub fn tag_of(items: Vec<ApeItem>) -> ApeTag {
    let mut tag = ApeTag::new();
    tag.items = items;
    tag
}

fn small_tags() -> Vec<ApeTag> {
    vec![
        ApeTag::new(),
        tag_of(vec![item("AB", "c")]),
        tag_of(vec![item("", "")]),
        tag_of(vec![item("MP3GAIN_UNDO", "+003,+003,N"), item("Title", "p\u{0}q")]),
    ]
}

fn random_tag(rng: &mut Rng) -> ApeTag {
    let n = [0, 1, 1, 2, 3, 7][rng.below(6)];
    tag_of(
        (0..n)
            .map(|_| {
                let key: String = (0..rng.below(6)).map(|_| (0x20 + rng.below(0x5F)) as u8 as char).collect();
                let length = rng.below(20);
                let value = String::from_utf8_lossy(&rng.bytes(length)).to_string();
                item(&key, &value)
            })
            .collect(),
    )
}

pub fn block(size: u32, count: u32, flags: u32, version: u32) -> Vec<u8> {
    let mut b = b"APETAGEX".to_vec();
    for n in [version, size, count, flags, 0, 0] {
        b.extend_from_slice(&n.to_le_bytes());
    }
    b
}

fn id3v1(rng: &mut Rng) -> Vec<u8> {
    let mut b = vec![0; 128];
    b[..3].copy_from_slice(b"TAG");
    if rng.below(4) == 0 {
        b[96..104].copy_from_slice(b"APETAGEX");
    }
    b
}

/// A file with a tag at its end, right or wrong in one of many ways.
pub fn random_file(rng: &mut Rng) -> Vec<u8> {
    let before = [0, 1, 31, 32, 33, 100, 200][rng.below(7)];
    let mut file = rng.bytes(before);
    if rng.below(3) == 0 {
        let b = id3v1(rng);
        file.extend(b);
    }
    let mut area = Vec::new();
    let n = rng.below(4) as u32;
    for _ in 0..n {
        let (k, v) = (rng.below(6), rng.below(12));
        let key: Vec<u8> = (0..k).map(|_| rng.next() as u8 | 1).collect();
        let off = if rng.below(8) == 0 { rng.below(40) } else { v };
        area.extend_from_slice(&(off as u32).to_le_bytes());
        area.extend_from_slice(&[0, 0, 0, (rng.below(4) == 0) as u8]);
        area.extend(key);
        if rng.below(12) != 0 {
            area.push(0);
        }
        area.extend(rng.bytes(v));
    }
    let exact = area.len() as u32 + 32;
    let size = match rng.below(12) {
        0 => 0,
        1 => 1,
        2 => 31,
        3 => 32,
        4 => exact + 1,
        5 => exact - 1,
        6 => u32::MAX,
        7 => exact + 32,
        _ => exact,
    };
    let count = match rng.below(10) {
        0 => 0,
        1 => n + 1,
        2 => n.saturating_sub(1),
        3 => u32::MAX,
        _ => n,
    };
    let flags = [0, 0x8000_0000, 0x8000_0000, u32::MAX, 0x2000_0000][rng.below(5)];
    let version = if rng.below(10) == 0 { 1000 } else { 2000 };
    if flags >= 0x8000_0000 && rng.below(4) != 0 {
        file.extend(block(size, count, flags | 0x2000_0000, version));
    }
    file.extend(area);
    file.extend(block(size, count, flags, version));
    if rng.below(3) == 0 {
        let b = id3v1(rng);
        file.extend(b);
    }
    if rng.below(6) == 0 && !file.is_empty() {
        let at = rng.below(file.len());
        file[at] = rng.next() as u8;
    }
    if rng.below(8) == 0 {
        file.truncate(rng.below(file.len() + 1));
    }
    file
}

/// An undo item behind a header that is right, or wrong in one bit, behind so many bytes, or cut by the start of the file. The footer has
/// these flags.
pub fn headed_files(fronts: &[usize], flags: &[u32]) -> Vec<Vec<u8>> {
    let area = item_bytes(11, 0, b"MP3GAIN_UNDO", b"+003,-002,W");
    let block = |flags| block(area.len() as u32 + 32, 1, flags, 2000);
    let good = block(0xA000_0000);
    let mut headers = vec![good.clone()];
    for bit in 0..256 {
        let mut header = good.clone();
        header[bit / 8] ^= 1 << (bit % 8);
        headers.push(header);
    }
    let mut files = Vec::new();
    for footer in flags.iter().map(|&f| block(f)) {
        for header in &headers {
            files.extend(fronts.iter().map(|&n| [&vec![0x55; n], &header[..], &area, &footer].concat()));
        }
        files.extend([0, 1, 31].map(|n| [&good[32 - n..], &area, &footer].concat()));
    }
    files
}

/// Files about each boundary: of their length, the footer's place and numbers, and the items.
pub fn edge_files() -> Vec<Vec<u8>> {
    let id3v1 = [&b"TAG"[..], &[0; 125]].concat();
    let (mut other, mut marked) = (id3v1.clone(), id3v1.clone());
    other[2] = b'f';
    marked[96..104].copy_from_slice(b"APETAGEX");
    let mut files = vec![vec![], id3v1[..127].to_vec(), id3v1.clone(), [b"\x55", &id3v1[..]].concat()];
    // The footer alone: one byte too few, just enough, and one byte before it.
    let alone = block(32, 0, 0, 2000);
    for rest in [&[][..], &id3v1] {
        files.extend([[&alone[1..], rest].concat(), [&alone, rest].concat(), [b"\x55", &alone[..], rest].concat()]);
    }
    // What stands before the tag and behind it.
    let area = item_bytes(1, 0, b"AB", b"c");
    let exact = area.len() as u32 + 32;
    let good = [&area[..], &block(exact, 1, 0, 2000)].concat();
    for front in [&[][..], b"audio", &[b"audio", &id3v1[..]].concat()] {
        for rest in [&[][..], &id3v1, &id3v1[..127], &other, &marked] {
            files.push([front, &good, rest].concat());
        }
    }
    // The footer's size, with and without a header to count, about each place where the tag could start; its other numbers.
    let front = vec![0x55; 40];
    let all = front.len() as u32 + exact;
    let mut footers = Vec::new();
    for flags in [0, 0x8000_0000] {
        for size in
            [0, 1, 31, 32, 33, exact - 1, exact, exact + 1, all - 33, all - 32, all - 31, all, all + 1, u32::MAX]
        {
            footers.push(block(size, 1, flags, 2000));
        }
    }
    footers.extend([0, 2, 41, 42, 256, u32::MAX].map(|count| block(exact, count, 0, 2000)));
    footers.extend([0x2000_0000, 0x7FFF_FFFF, 0xA000_0000, u32::MAX].map(|flags| block(exact, 1, flags, 2000)));
    footers.extend([0, 1000, 1999, 2001, u32::MAX].map(|version| block(exact, 1, 0, version)));
    for footer in footers {
        for rest in [&[][..], &id3v1] {
            files.push([&front, &area, &footer, rest].concat());
        }
    }
    // The items: their flags, lengths and texts, alone and behind a good one, and how many there are.
    let mut items = Vec::new();
    items.extend((0..32).step_by(7).map(|bit| item_bytes(1, 1 << bit, b"AB", b"c")));
    items.extend([0, 2, u32::MAX].map(|length| item_bytes(length, 0, b"AB", b"c")));
    items.extend([&area[..8], &area[..10], &area[..11]].map(|cut| cut.to_vec()));
    for text in ["", "A", "\u{E9}", "\u{20AC}", "\u{10FFFF}"].map(str::as_bytes) {
        items.push(item_bytes(text.len() as u32, 0, text, text));
    }
    for text in [&b"\x80"[..], b"\xFF", b"A\xC3", b"\xE2\x82A", b"\xF0\x80", b"\xF0\x90\x80", b"\xED\xA0\x80"] {
        items.push(item_bytes(1, 0, text, b"c"));
        items.push(item_bytes(text.len() as u32, 0, b"AB", text));
    }
    let mut areas = vec![(vec![], 0)];
    for item in items {
        areas.push(([&area, &item[..]].concat(), 2));
        areas.push((item, 1));
    }
    areas.extend([40, 41, 42, 256].map(|count| (item_bytes(0, 0, b"", b"").repeat(count as usize), count)));
    for (area, count) in areas {
        files.push([b"audio", &area[..], &block(area.len() as u32 + 32, count, 0, 2000)].concat());
    }
    files
}

pub fn both(c: &mut Compare, file: &[u8], tags: &[ApeTag]) {
    c.bytes("find_ape_footer", file, |s| Ok(find_ape_footer(s)), library::find_ape_footer);
    c.bytes("read_ape_tag", file, published_read, our_read);
    c.bytes("cut_ape_tag", file, published_split, our_cut);
    c.bytes("ape_tag_parts", file, published_parts, our_parts);
    c.bytes("split_ape_tag", file, published_parts, our_split);
    frame::ends(c, file);
    // No ID3v1 block fits in less than 128 bytes, so the sound ends where replacement puts the tag.
    assert!(file.len() >= 128 || frame::library::find_audio_end(file) == Ok(our_parts(file).0));
    for tag in tags {
        let (area, count) = (area_of(tag), tag.len());
        c.bytes(
            "replace_ape_tag",
            file,
            |s| Ok(reach::replace(s, tag)),
            |s| {
                let room = s.len() + area.len() + 100;
                written(room, |out| library::replace_ape_tag(s, &area, count, out))
            },
        );
    }
}

/// The rule for an item area, read independently: exactly `count` items, with any flags, and nothing behind them.
pub fn is_area(area: &[u8], count: usize) -> bool {
    let mut rest = area;
    for _ in 0..count {
        let Some(head) = rest.get(..8) else { return false };
        let length = u32::from_le_bytes(head[..4].try_into().unwrap()) as usize;
        let Some(key) = rest[8..].iter().position(|&b| b == 0) else { return false };
        let Some(next) = rest.get(8 + key + 1 + length..) else { return false };
        rest = next;
    }
    rest.is_empty()
}

fn compare(c: &mut Compare) {
    let tags = small_tags();
    // The eight bytes at every offset of every length to 200, with and without `TAG` at EOF-128 and at the front.
    for length in 0..=200usize {
        for at in 0..length.max(1) {
            for marks in 0..4 {
                let mut file = vec![0x55; length];
                if marks & 1 == 1 && length >= 128 {
                    file[length - 128..length - 125].copy_from_slice(b"TAG");
                }
                if marks & 2 == 2 && length >= 3 {
                    file[..3].copy_from_slice(b"TAG");
                }
                for (i, b) in b"APETAGEX".iter().enumerate().take(length - at) {
                    file[at + i] = *b;
                }
                both(c, &file, &tags[..1 + (at + length) % 4]);
            }
        }
    }
    // Every truncation and every change of one byte of good files.
    let mut good = Vec::new();
    for tag in &tags[1..] {
        good.push(reach::replace(b"audio", tag));
        let mut block = vec![0; 128];
        block[..3].copy_from_slice(b"TAG");
        good.push(reach::replace(&block, tag));
    }
    for file in &good {
        for n in 0..file.len() {
            both(c, &file[..n], &tags[1..2]);
        }
        for at in 0..file.len() {
            for value in [0, 1, 31, 32, 0x41, 0x7F, 0x80, 0xFF, file[at].wrapping_add(1), file[at].wrapping_sub(1)] {
                let mut other = file.clone();
                other[at] = value;
                both(c, &other, &tags[1..2]);
            }
        }
    }
    // Areas: good, cut, and changed, with a right and a wrong count.
    for tag in &tags {
        let area = area_of(tag);
        let mut areas = vec![area.clone()];
        areas.extend((0..area.len()).map(|n| area[..n].to_vec()));
        for at in 0..area.len() {
            for value in [0, 1, 9, 0x80, 0xFF] {
                let mut other = area.clone();
                other[at] = value;
                areas.push(other);
            }
        }
        for area in &areas {
            for count in [0, 1, 2, 3, usize::MAX] {
                c.bytes(
                    "serialize_ape_tag, refusal 12",
                    area,
                    |s| is_area(s, count),
                    |s| written(s.len() + 100, |out| library::serialize_ape_tag(s, count, out)) != Err(12),
                );
            }
        }
    }
    for _ in 0..c.count / 4 {
        let file = random_file(&mut c.rng);
        let tag = random_tag(&mut c.rng);
        both(c, &file, std::slice::from_ref(&tag));
        let count = tag.len();
        c.bytes(
            "serialize_ape_tag",
            &area_of(&tag),
            |s| {
                if is_area(s, count) {
                    Ok(if s == area_of(&tag) { reach::serialize(&tag) } else { vec![] })
                } else {
                    Err(12)
                }
            },
            |s| {
                let w = written(s.len() + 100, |out| library::serialize_ape_tag(s, count, out));
                if s == area_of(&tag) {
                    w
                } else {
                    w.map(|_| vec![])
                }
            },
        );
    }
    limits(c);
}

/// Files and results at the limit of 16,777,216 bytes and one past it.
fn limits(c: &mut Compare) {
    const LIMIT: usize = 16_777_216;
    let mut out = vec![FILL; LIMIT + 100];
    let file: Vec<u8> = (0..=LIMIT).map(|i| (i % 251) as u8).collect();
    let tag = &small_tags()[1];
    let area = area_of(tag);
    c.inputs += 10;
    for call in [library::split_ape_tag, library::ape_tag_parts, library::cut_ape_tag] {
        assert_eq!(call(&file), Err(1));
        assert_eq!(call(&file[..LIMIT]), Ok((LIMIT, LIMIT, LIMIT)));
    }
    assert_eq!(library::find_ape_footer(&file), Err(1));
    assert_eq!(library::find_ape_footer(&file[..LIMIT]), Ok(None));
    assert_eq!(library::read_ape_tag(&file, &mut out), Err(1));
    assert_eq!(library::replace_ape_tag(&file, &[], 0, &mut out), Err(1));
    assert_eq!(library::replace_ape_tag(&file[..LIMIT], &[], 0, &mut out), Ok(LIMIT));
    out.fill(FILL);
    assert_eq!(library::replace_ape_tag(&file[..LIMIT - 75], &area, 1, &mut out), Err(5));
    assert!(out.iter().all(|&b| b == FILL));
    assert_eq!(library::replace_ape_tag(&file[..LIMIT - 76], &area, 1, &mut out), Ok(LIMIT));
    assert!(out[..LIMIT] == reach::replace(&file[..LIMIT - 76], tag));
    // The lengths from which on a part is copied in blocks of sixteen and by halves, and what may be left over behind them.
    let blocks = [0, 1, 2, 15, 16, 17, 18].map(|more| 65_535 + more);
    let halves = [0, 1, 2, 16, 17, 1023, 1024, 1025, 2047, 2048, 2049, 3073].map(|more| 6_291_455 + more);
    for n in [&blocks[..], &halves, &[1 << 20, 16_700_001]].concat() {
        c.inputs += 1;
        let want = reach::replace(&file[..n], tag);
        assert_eq!(library::replace_ape_tag(&file[..n], &area, 1, &mut out), Ok(want.len()));
        assert!(out[..want.len()] == want);
    }
}

fn record(r: &mut Record) {
    let words = |w: &[&dyn ToString]| w.iter().map(|x| x.to_string()).collect::<Vec<_>>();
    let tags = small_tags();
    let mut files = vec![Vec::new(), vec![0x55; 31], vec![0x55; 159]];
    let mut foot = vec![0x55; 159];
    foot[..8].copy_from_slice(b"APETAGEX");
    foot[31..34].copy_from_slice(b"TAG");
    files.push(foot);
    for tag in &tags {
        files.push(reach::replace(b"audio", tag));
        let mut block = vec![0; 128];
        block[..3].copy_from_slice(b"TAG");
        files.push(reach::replace(&block, tag));
    }
    files.extend((0..400).map(|_| random_file(&mut r.rng)));
    for file in &files {
        let footer = find_ape_footer(file).map_or("none".to_string(), |n| n.to_string());
        r.line(&words(&[&"footer", &hex(file), &footer]));
        match published_read(file) {
            None => r.line(&words(&[&"read", &hex(file), &"none", &"-"])),
            Some((count, area)) => r.line(&words(&[&"read", &hex(file), &count, &hex(&area)])),
        }
        let tag = &tags[r.rng.below(tags.len())];
        r.line(&words(&[&"replace", &hex(file), &tag.len(), &hex(&area_of(tag)), &hex(&reach::replace(file, tag))]));
    }
    // More items than an edited tag may have.
    let many = reach::replace(b"audio", &tag_of((0..42).map(|i| item(&format!("KEY_{i}"), "v")).collect()));
    let (count, area) = published_read(&many).unwrap();
    r.line(&words(&[&"read", &hex(&many), &count, &hex(&area)]));
    for tag in &tags {
        r.line(&words(&[&"serialize", &tag.len(), &hex(&area_of(tag)), &hex(&reach::serialize(tag))]));
    }
    // `split FILE FRONT FROM TO`, or `split FILE FRONT none` where nothing follows the tag.
    for file in files.iter().chain(&edge_files()) {
        let (front, rest) = published_parts(file);
        let rest = rest.map_or("none".to_string(), |(from, to)| format!("{from} {to}"));
        r.line(&words(&[&"split", &hex(file), &front, &rest]));
    }
    // For the program `cuts_vectors`: `split FILE FRONT FROM TO FRONT FROM TO`, by the published split_ape_tag and by ape_tag_parts; `none none` where
    // nothing follows the tag. A preamble stands in a file that is one byte too short for a footer.
    files[1][..8].copy_from_slice(b"APETAGEX");
    for file in files.iter().chain(&edge_files()) {
        let three = |(front, rest): Cut| match rest {
            Some((from, to)) => format!("{front} {from} {to}"),
            None => format!("{front} none none"),
        };
        let cuts = [three(published_split(file)), three(published_parts(file))];
        r.line_of("cuts", &words(&[&"split", &hex(file), &cuts[0], &cuts[1]]));
    }
    for file in flags::each_type() {
        let (count, area) = published_read(&file).unwrap();
        r.line(&words(&[&"read", &hex(&file), &count, &hex(&area)]));
    }
    for (area, count) in flags::small_areas() {
        let tag = flags::serialize(&area, count).unwrap();
        r.line(&words(&[&"serialize", &count, &hex(&area), &hex(&tag)]));
        r.line(&words(&[&"replace", &hex(b"audio"), &count, &hex(&area), &hex(&[b"audio", &tag[..]].concat())]));
    }
}

#[inline(never)]
fn split_slices(file: &[u8]) -> (&[u8], &[u8]) {
    reach::split(file)
}

#[inline(never)]
fn part_slices(file: &[u8]) -> (&[u8], &[u8]) {
    reach::parts(file)
}

#[inline(never)]
fn published_footer(file: &[u8]) -> Option<usize> {
    find_ape_footer(file)
}

/// The Rust's search with a C face of the library's form: bytes as a pointer and a length, and the answer in lent numbers.
extern "C" fn footer_face(file: *const u8, length: usize, there: &mut u32, footer: &mut usize) -> u32 {
    let file = unsafe { std::slice::from_raw_parts(file, length) };
    (*there, *footer) = find_ape_footer(file).map_or((0, 0), |at| (1, at));
    0
}

/// The row of a tag as halls have it.
pub const LETTERED: &str = "read_ape_tag, 41 items, values of 5 to 40 letters";

/// Its tag: keys of 6 to 22 letters.
pub fn lettered_tag() -> ApeTag {
    let mut rng = Rng::new(1);
    let mut letters = |n| (0..n).map(|_| (b'a' + rng.below(26) as u8) as char).collect::<String>();
    let sizes = |i: usize| (6 + i * 7 % 17, 5 + i * 11 % 36);
    tag_of((0..41).map(sizes).map(|(key, value)| item(&letters(key), &letters(value))).collect())
}

fn bench(b: &mut Bench) {
    let value = "The quick brown fox jumps over the lazy dog";
    for (n, things) in [(1, "item"), (41, "items")] {
        let tag = tag_of((0..n).map(|i| item(&format!("KEY_{i:03}"), value)).collect());
        let file = reach::replace(&vec![0x55; 4096], &tag);
        let mut area = vec![0; 3 * file.len()];
        b.row(
            &format!("read_ape_tag, {n} {things}"),
            || read_ape_tag(&file),
            || library::read_ape_tag(&file, &mut area),
        );
        let area = area_of(&tag);
        let mut out = vec![0; area.len() + 64];
        b.row(
            &format!("serialize_ape_tag, {n} {things}"),
            || reach::serialize(&tag),
            || library::serialize_ape_tag(&area, n, &mut out),
        );
    }
    let file = reach::replace(&vec![0x55; 4096], &lettered_tag());
    let mut area = vec![0; 3 * file.len()];
    b.row(LETTERED, || read_ape_tag(&file), || library::read_ape_tag(&file, &mut area));
    let tag = tag_of(vec![item("TEXT", &value.repeat((1 << 20) / value.len()))]);
    let file = reach::replace(b"", &tag);
    let mut area = vec![0; 3 * file.len()];
    b.row("read_ape_tag, 1 MiB of text", || read_ape_tag(&file), || library::read_ape_tag(&file, &mut area));
    let tag = tag_of((0..41).map(|i| item(&format!("KEY_{i:03}"), value)).collect());
    for (size, name) in [(4 << 10, "4 KiB"), (1 << 20, "1 MiB")] {
        let file = reach::replace(&vec![0x55; size], &tag);
        b.row(
            &format!("find_ape_footer, {name} before a tag"),
            || published_footer(&file),
            || library::find_ape_footer(&file),
        );
        if size == 4 << 10 {
            // Unknown to the compiler, as a function of an archive is.
            let face = black_box(footer_face as extern "C" fn(*const u8, usize, &mut u32, &mut usize) -> u32);
            b.row(
                &format!("find_ape_footer, {name} before a tag (Rust: behind a C face too)"),
                || {
                    let (mut there, mut footer) = (7, 7);
                    let reply = face(file.as_ptr(), file.len(), &mut there, &mut footer);
                    (reply == 0 && there == 1).then_some(footer)
                },
                || library::find_ape_footer(&file),
            );
        }
        b.row(&format!("split_ape_tag, {name} before a tag"), || part_slices(&file), || library::split_ape_tag(&file));
        b.row(&format!("cut_ape_tag, {name} before a tag"), || split_slices(&file), || library::cut_ape_tag(&file));
        b.row(&format!("ape_tag_parts, {name} before a tag"), || part_slices(&file), || library::ape_tag_parts(&file));
    }
    let area = area_of(&tag);
    for (size, name) in [(4 << 10, "4 KiB"), (1 << 20, "1 MiB"), ((16 << 20) - 8192, "16 MiB")] {
        let file = vec![0x55; size];
        let mut out = vec![0; size + area.len() + 64];
        b.row(
            &format!("replace_ape_tag, {name}"),
            || reach::replace(&file, &tag),
            || library::replace_ape_tag(&file, &area, 41, &mut out),
        );
        for past in [1, 8] {
            // The allocation begins on a multiple of sixteen.
            let mut out = vec![0; past + size + area.len() + 64];
            b.row(
                &format!("replace_ape_tag, {name}, an output {past} past a multiple of sixteen"),
                || reach::replace(&file, &tag),
                || library::replace_ape_tag(&file, &area, 41, &mut out[past..]),
            );
        }
        let mut copy = vec![0; size];
        let mut out = vec![0; size + area.len() + 64];
        b.row(
            &format!("replace_ape_tag, {name}, beside memcpy of the file"),
            || copy.copy_from_slice(&file),
            || library::replace_ape_tag(&file, &area, 41, &mut out),
        );
    }
}
