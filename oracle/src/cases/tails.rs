//! Crates `tail_read` and `tail_write`: a tag read from the end of a file, and the end rewritten where it is. The published Rust does both on real
//! files, so files are made here. What is found after each write is held to a second reading of request 9, whose end is held to the Rust.

use super::ape::{area_of, block, edge_files, item, published_read, random_file, tag_of};
use super::Case;
use crate::ape::{find_ape_footer, reach, read_ape_tag, read_ape_tag_from_file, write_ape_tag, ApeTag};
use crate::tools::{hex, Bench, Compare, Record};
use std::fs;
use std::hint::black_box;
use std::path::{Path, PathBuf};

pub const CASE: Case = Case { name: "tails", record, compare, bench };

/// The exported functions, as Rust, and safe wrappers. A refusal is `Err` with its number.
mod library {
    extern "C" {
        fn zib_bytes_needed(probe: *const u8, length: usize, total: usize, needed: *mut usize) -> u32;
        fn zib_read_end(
            end: *const u8,
            length: usize,
            total: usize,
            area: *mut u8,
            room: usize,
            there: *mut u32,
            count: *mut usize,
            written: *mut usize,
        ) -> u32;
        fn zib_rewrite_ape_tail(
            buf: *mut u8,
            room: usize,
            total: *mut usize,
            area: *const u8,
            length: usize,
            count: usize,
            end: *mut usize,
        ) -> u32;
        fn zib_rewrite_within(
            buf: *mut u8,
            room: usize,
            total: *mut usize,
            area: *const u8,
            length: usize,
            count: usize,
            budget: usize,
            whole: *mut u32,
            end: *mut usize,
        ) -> u32;
    }

    fn done<T>(reply: u32, result: T) -> Result<T, u32> {
        if reply == 0 {
            Ok(result)
        } else {
            Err(reply)
        }
    }

    pub fn bytes_needed(probe: &[u8], total: usize) -> Result<usize, u32> {
        let mut needed = 7;
        // SAFETY: pointers and lengths of slices; the lent numbers live through the call. So below.
        let reply = unsafe { zib_bytes_needed(probe.as_ptr(), probe.len(), total, &mut needed) };
        assert!(reply == 0 || needed == 7, "a refused call changed a lent number");
        done(reply, needed)
    }

    /// The count of items and the length of their area, or none for no tag.
    pub fn read_end(end: &[u8], total: usize, area: &mut [u8]) -> Result<Option<(usize, usize)>, u32> {
        let (mut there, mut count, mut written) = (7, 7, 7);
        let reply = unsafe {
            let (e, a) = (end.as_ptr(), area.as_mut_ptr());
            zib_read_end(e, end.len(), total, a, area.len(), &mut there, &mut count, &mut written)
        };
        assert!(reply == 0 || (there, count, written) == (7, 7, 7), "a refused call changed a lent number");
        done(reply, (there == 1).then_some((count, written)))
    }

    /// The first place that is written, and the new length.
    pub fn rewrite(buf: &mut [u8], total: usize, area: &[u8], count: usize) -> Result<(usize, usize), u32> {
        let (mut length, mut end) = (total, 7);
        let reply = unsafe {
            let (b, a) = (buf.as_mut_ptr(), area.as_ptr());
            zib_rewrite_ape_tail(b, buf.len(), &mut length, a, area.len(), count, &mut end)
        };
        assert!(reply == 0 || (length, end) == (total, 7), "a refused call changed a lent number");
        done(reply, (end, length))
    }

    /// Whether all writes were made, the first place that is written, and the length that is found.
    pub fn within(
        buf: &mut [u8],
        total: usize,
        area: &[u8],
        count: usize,
        budget: usize,
    ) -> Result<(bool, usize, usize), u32> {
        let (mut length, mut end, mut whole) = (total, 7, 7);
        let reply = unsafe {
            let (b, a) = (buf.as_mut_ptr(), area.as_ptr());
            zib_rewrite_within(b, buf.len(), &mut length, a, area.len(), count, budget, &mut whole, &mut end)
        };
        assert!(reply == 0 || (length, end, whole) == (total, 7, 7), "a refused call changed a lent number");
        done(reply, (whole == 1, end, length))
    }
}

/// What fills a buffer behind the file, to see which bytes a call changed.
const FILL: u8 = 0xC3;

/// A real file that is written anew for each question, and removed at last.
struct Disk(PathBuf);

impl Disk {
    fn new() -> Disk {
        Disk(std::env::temp_dir().join(format!("zibrunnos-oracle-{}", std::process::id())))
    }

    fn with(&self, file: &[u8]) -> &Path {
        fs::write(&self.0, file).expect("the file is written");
        &self.0
    }

    fn read_tag(&self, file: &[u8]) -> Option<(usize, Vec<u8>)> {
        if super::flags::in_file(file) {
            return published_read(file);
        }
        let tag = read_ape_tag_from_file(self.with(file)).expect("the file is read");
        tag.map(|tag| (tag.len(), area_of(&tag)))
    }

    fn rewritten(&self, file: &[u8], tag: &ApeTag) -> Vec<u8> {
        write_ape_tag(self.with(file), tag).expect("the file is written");
        fs::read(&self.0).expect("the file is read")
    }
}

impl Drop for Disk {
    fn drop(&mut self) {
        drop(fs::remove_file(&self.0));
    }
}

fn probe(file: &[u8]) -> &[u8] {
    &file[file.len().saturating_sub(160)..]
}

/// Request 1's number, read again.
fn number(probe: &[u8], total: usize) -> usize {
    match find_ape_footer(probe) {
        None => probe.len(),
        Some(footer) => {
            let size = u32::from_le_bytes(probe[footer + 12..footer + 16].try_into().unwrap()) as usize;
            total.min(probe.len().max(size + 32 + (probe.len() - footer)))
        }
    }
}

/// Both stages. Panics where a byte is written past the area, or with one byte less than it needs.
fn read_in_stages(file: &[u8]) -> Option<(usize, Vec<u8>)> {
    let needed = library::bytes_needed(probe(file), file.len()).unwrap();
    let end = &file[file.len() - needed..];
    let mut area = vec![FILL; 3 * end.len() + 64];
    let (count, length) = library::read_end(end, file.len(), &mut area).unwrap()?;
    assert!(area[length..].iter().all(|&b| b == FILL), "wrote past its length");
    if length > 0 {
        let mut short = vec![FILL; length - 1];
        assert_eq!(library::read_end(end, file.len(), &mut short), Err(5), "one byte short");
        assert!(short.iter().all(|&b| b == FILL), "one byte short, and wrote");
    }
    area.truncate(length);
    Some((count, area))
}

/// Where the tag of a file starts, and where what follows it does.
fn places(file: &[u8]) -> Option<(usize, usize)> {
    let footer = find_ape_footer(file)?;
    let word = |at: usize| u32::from_le_bytes(file[footer + at..footer + at + 4].try_into().unwrap());
    let before = word(12) as usize + if word(20) >= 1 << 31 { 32 } else { 0 };
    Some(((footer + 32).checked_sub(before)?, footer + 32))
}

/// Request 9, read again: the first place that is written, and the bytes from there on.
fn tail(file: &[u8], tag: &[u8]) -> (usize, Vec<u8>) {
    let n = file.len();
    match places(file) {
        // An ID3v1 block before the tag stays there.
        Some((start, rest)) => (start, [tag, &file[rest..]].concat()),
        None if tag.is_empty() => (n, Vec::new()),
        None if n >= 128 && file[n - 128..].starts_with(b"TAG") => (n - 128, [tag, &file[n - 128..]].concat()),
        None => (n, tag.to_vec()),
    }
}

/// The whole difference to the published writer: a tag of size 0 without a header that ends an ID3v1 block, which it moves.
fn moves_a_block(file: &[u8]) -> bool {
    let n = file.len();
    places(file).is_some_and(|(start, rest)| start == n && rest == n) && n >= 128 && file[n - 128..].starts_with(b"TAG")
}

fn lent(file: &[u8], area: &[u8]) -> Vec<u8> {
    let mut buf = file.to_vec();
    buf.resize(file.len() + area.len() + 100, FILL);
    buf
}

/// The file that the library leaves. Panics where a byte behind it changed, and where a buffer one byte too short is not refused.
fn rewritten(file: &[u8], tag: &ApeTag) -> Vec<u8> {
    let (area, count) = (area_of(tag), tag.len());
    let mut buf = lent(file, &area);
    let old = buf.clone();
    let (_, length) = library::rewrite(&mut buf, file.len(), &area, count).unwrap();
    assert!(buf[length.max(file.len())..] == old[length.max(file.len())..], "wrote past its length");
    if length > file.len() {
        let mut short = old[..length - 1].to_vec();
        assert_eq!(library::rewrite(&mut short, file.len(), &area, count), Err(5), "one byte short");
        assert!(short == old[..length - 1], "one byte short, and wrote");
    }
    buf.truncate(length);
    buf
}

/// Whether the library leaves what is to be found after each number of writes.
fn each_write(file: &[u8], tag: &ApeTag) -> bool {
    let (area, count, n) = (area_of(tag), tag.len(), file.len());
    let (end, bytes) = tail(file, &reach::serialize(tag));
    let mut want = lent(file, &area);
    (0..=bytes.len() + 1).all(|k| {
        let mut buf = lent(file, &area);
        let found = library::within(&mut buf, n, &area, count, k);
        if (1..=bytes.len()).contains(&k) {
            want[end + k - 1] = bytes[k - 1];
        }
        let length = if k > bytes.len() { end + bytes.len() } else { n.max(end + k) };
        found == Ok((k > bytes.len(), end, length)) && buf == want
    })
}

fn tags() -> Vec<ApeTag> {
    vec![
        ApeTag::new(),
        tag_of(vec![item("AB", "c")]),
        tag_of(vec![item("MP3GAIN_UNDO", "+003,+003,N"), item("Title", "p\u{0}q")]),
        tag_of(vec![item("Comment", &"x".repeat(150))]),
    ]
}

/// Tags of each of these in the place of each other, with an ID3v1 block behind, before, on both sides, and none; the block may hold a footer.
fn tagged_files() -> Vec<Vec<u8>> {
    let id3v1 = [&b"TAG"[..], &[0; 125]].concat();
    let mut trap = id3v1.clone();
    trap[96..104].copy_from_slice(b"APETAGEX");
    let long = vec![0x55; 300];
    let mut files = vec![trap.clone(), [&long[..], &trap].concat()];
    for tag in tags().iter().map(reach::serialize) {
        for front in [&[][..], b"audio", &long, &id3v1, &[&long[..], &id3v1].concat()] {
            for rest in [&[][..], &id3v1, &trap] {
                files.push([front, &tag, rest].concat());
            }
        }
    }
    files
}

fn both(c: &mut Compare, disk: &Disk, file: &[u8]) {
    c.bytes("bytes_needed", file, |s| Ok(number(probe(s), s.len())), |s| library::bytes_needed(probe(s), s.len()));
    c.bytes("read_end, beside read_ape_tag_from_file", file, |s| disk.read_tag(s), read_in_stages);
}

fn rewrite_both(c: &mut Compare, disk: &Disk, file: &[u8], tag: &ApeTag) {
    c.bytes(
        "rewrite_ape_tail, beside write_ape_tag",
        file,
        |s| {
            if moves_a_block(s) {
                let (end, bytes) = tail(s, &reach::serialize(tag));
                return [&s[..end], &bytes].concat();
            }
            disk.rewritten(s, tag)
        },
        |s| rewritten(s, tag),
    );
    c.bytes("rewrite_within, each number of writes", file, |_| true, |s| each_write(s, tag));
}

fn compare(c: &mut Compare) {
    let disk = Disk::new();
    let tags = tags();
    for file in edge_files().iter().chain(&tagged_files()) {
        both(c, &disk, file);
        for tag in &tags {
            rewrite_both(c, &disk, file, tag);
        }
    }
    // Every cut of a file with a tag, with and without a block behind it.
    for file in tagged_files().iter().filter(|file| file.len() < 400) {
        for n in 0..file.len() {
            both(c, &disk, &file[..n]);
        }
    }
    // Each size of the footer about each length that matters.
    for rest in [0, 128] {
        for n in [32 + rest, 160, 161, 200, 400] {
            for size in [0, 1, 31, 32, 95, 96, 97, 128, 129, n as u32 - 33, n as u32, u32::MAX - 32, u32::MAX] {
                for flags in [0, 1 << 31] {
                    let mut file = vec![0x55; n];
                    if rest > 0 {
                        file[n - 128..n - 125].copy_from_slice(b"TAG");
                    }
                    file[n - rest - 32..n - rest].copy_from_slice(&block(size, 1, flags, 2000));
                    both(c, &disk, &file);
                    rewrite_both(c, &disk, &file, &tags[1]);
                }
            }
        }
    }
    for i in 0..c.count / 100 {
        let file = random_file(&mut c.rng);
        both(c, &disk, &file);
        let tag = &tags[c.rng.below(tags.len())];
        if i % 10 == 0 {
            rewrite_both(c, &disk, &file, tag);
        }
    }
    limits(c);
}

/// The limit, the order of the refusals, and how much is written for a changed tag of a long loop.
fn limits(c: &mut Compare) {
    const LIMIT: usize = 16_777_216;
    let tag = tag_of(vec![item("AB", "c")]);
    let (area, bad) = (area_of(&tag), [0; 5]);
    c.inputs += 12;
    assert_eq!(library::bytes_needed(&[0; 160], LIMIT), Ok(160));
    assert_eq!(library::bytes_needed(&[0; 160], LIMIT + 1), Err(1));
    assert_eq!(library::read_end(&[0; 160], LIMIT + 1, &mut []), Err(1));
    assert_eq!(library::bytes_needed(&[&[0; 128][..], &block(u32::MAX, 1, 0, 2000)].concat(), LIMIT), Ok(LIMIT));
    let mut buf = vec![0; LIMIT + 200];
    assert_eq!(library::rewrite(&mut buf, LIMIT + 201, &bad, 1), Err(5));
    assert_eq!(library::rewrite(&mut buf, LIMIT + 1, &bad, 1), Err(1));
    assert_eq!(library::rewrite(&mut buf, LIMIT, &bad, 1), Err(12));
    assert_eq!(library::within(&mut buf, LIMIT, &bad, 1, 0), Err(12));
    assert_eq!(library::rewrite(&mut buf, LIMIT - 75, &area, 1), Err(5));
    assert!(buf.iter().all(|&b| b == 0), "a refused call wrote");
    assert_eq!(library::rewrite(&mut buf, LIMIT - 76, &area, 1), Ok((LIMIT - 76, LIMIT)));
    assert_eq!(library::rewrite(&mut buf, LIMIT, &area, 1), Ok((LIMIT - 76, LIMIT)));
    let tag = many();
    let length = LIMIT - 76 + area_of(&tag).len() + 64;
    let sound = LIMIT - 76 - (length - LIMIT);
    let mut buf = [vec![0x55; sound], reach::serialize(&tag)].concat();
    let total = buf.len();
    let (end, length) = library::rewrite(&mut buf, total, &area_of(&tag), tag.len()).unwrap();
    println!("tails: a tag of 41 items in a loop of {length} bytes: {} bytes are written where it is", length - end);
}

fn record(r: &mut Record) {
    let words = |w: &[&dyn ToString]| w.iter().map(|x| x.to_string()).collect::<Vec<_>>();
    let tags = tags();
    let mut files: Vec<_> = tagged_files().into_iter().filter(|file| file.len() < 400).collect();
    files.extend((0..40).map(|_| random_file(&mut r.rng)));
    for file in &files {
        for total in [file.len(), 1000, 16_777_216] {
            r.line(&words(&[&"needed", &hex(probe(file)), &total, &number(probe(file), total)]));
        }
        match published_read(file) {
            None => r.line(&words(&[&"end", &hex(file), &"none", &"-"])),
            Some((count, area)) => r.line(&words(&[&"end", &hex(file), &count, &hex(&area)])),
        }
        let tag = &tags[r.rng.below(tags.len())];
        let (count, area) = (tag.len(), hex(&area_of(tag)));
        let (end, bytes) = tail(file, &reach::serialize(tag));
        let new = [&file[..end], &bytes].concat();
        r.line(&words(&[&"rewrite", &hex(file), &count, &area, &end, &hex(&new)]));
        let k = r.rng.below(bytes.len() + 1);
        let mut found = file.clone();
        found.resize(file.len().max(end + k), 0);
        found[end..end + k].copy_from_slice(&bytes[..k]);
        r.line(&words(&[&"within", &hex(file), &count, &area, &k, &end, &hex(&found)]));
    }
    r.line(&words(&[&"needed", &"-", &16_777_217, &"none"]));
}

/// The tag of 41 items of the other rows.
fn many() -> ApeTag {
    let value = "The quick brown fox jumps over the lazy dog";
    tag_of((0..41).map(|i| item(&format!("KEY_{i:03}"), value)).collect())
}

fn bench(b: &mut Bench) {
    let tag = many();
    let file = reach::replace(&vec![0x55; 4096], &tag);
    let last = probe(&file);
    b.row(
        "bytes_needed, 41 items (Rust: the same reckoning)",
        || number(black_box(last), black_box(file.len())),
        || library::bytes_needed(black_box(last), black_box(file.len())),
    );
    let end = &file[file.len() - number(last, file.len())..];
    let mut area = vec![0; 3 * end.len()];
    b.row(
        "read_end, 41 items (Rust: its reader on the same bytes)",
        || read_ape_tag(end),
        || library::read_end(end, file.len(), &mut area),
    );
    let items = area_of(&tag);
    for (size, name) in [(4 << 10, "4 KiB"), ((16 << 20) - 5000, "16 MiB")] {
        let file = reach::replace(&vec![0x55; size], &tag);
        let mut buf = lent(&file, &items);
        b.row(
            &format!("rewrite_ape_tail, 41 items, {name} (Rust: replace_ape_tag)"),
            || reach::replace(&file, &tag),
            || library::rewrite(&mut buf, file.len(), &items, 41),
        );
    }
    let mut buf = lent(&file, &items);
    b.row(
        "rewrite_within, 41 items, 4 KiB, 1,000 writes (Rust: replace_ape_tag)",
        || reach::replace(&file, &tag),
        || library::within(&mut buf, file.len(), &items, 41, 1000),
    );
}
