//! Crate `listing`: the text that lists the tag of a file, beside one made from what the published reader gives.

use super::ape::{block, item, random_file, tag_of};
use super::{flags, Case};
use crate::ape::{reach, read_ape_tag, ApeTag};
use crate::tools::{hex, Bench, Compare, Record, Rng};

pub const CASE: Case = Case { name: "listing", record, compare, bench };

/// The exported function, as Rust, and a safe wrapper.
pub mod library {
    /// The room that every listing fits into.
    pub const ROOM: usize = 147_473;

    extern "C" {
        fn zib_list_tag(file: *const u8, length: usize, text: *mut [u8; ROOM]) -> usize;
    }

    pub fn list_tag(file: &[u8], text: &mut [u8; ROOM]) -> usize {
        // SAFETY: pointer and length of a slice; the lent array has the size that is declared.
        unsafe { zib_list_tag(file.as_ptr(), file.len(), text) }
    }
}

const FILL: u8 = 0xC3;
const LIMIT: usize = 16_384;

/// The library's listing. Panics where it changed a byte behind its text.
pub fn ours(file: &[u8]) -> Vec<u8> {
    static FILLED: [u8; library::ROOM] = [FILL; library::ROOM];
    let mut text = FILLED;
    let n = library::list_tag(file, &mut text);
    assert!(text[n..] == FILLED[n..], "wrote past its length");
    text[..n].to_vec()
}

/// Document 01's printing of one part of a line, behind what the text has.
fn print(text: &mut String, part: &str, key: bool) {
    for b in part.bytes() {
        match b {
            b'\\' => text.push_str("\\5c"),
            b'=' if key => text.push_str("\\3d"),
            0x20..=0x7E => text.push(b as char),
            _ => *text += &format!("\\{b:02x}"),
        }
    }
}

/// Document 01's listing of what the published reader gives.
fn by_reader(file: &[u8]) -> Vec<u8> {
    if file.len() > LIMIT {
        return b"refused=1\n".to_vec();
    }
    let Some(tag) = read_ape_tag(file) else { return b"items=none\n".to_vec() };
    let mut text = format!("items={}\n", tag.len());
    for item in tag.iter() {
        print(&mut text, item.key(), true);
        text.push('=');
        print(&mut text, item.value(), false);
        text.push('\n');
    }
    text.into_bytes()
}

/// The same; a tag with flags is listed by `flags`.
pub fn published(file: &[u8]) -> Vec<u8> {
    if flags::in_file(file) {
        return flags::list(file);
    }
    by_reader(file)
}

/// A tag of these raw items, with this count in its footer and `before` bytes in front.
fn raw(before: usize, items: &[(&[u8], &[u8])], count: u32) -> Vec<u8> {
    let mut area = Vec::new();
    for (key, value) in items {
        area.extend_from_slice(&(value.len() as u32).to_le_bytes());
        area.extend_from_slice(&[0; 4]);
        area.extend_from_slice(key);
        area.push(0);
        area.extend_from_slice(value);
    }
    let foot = block(area.len() as u32 + 32, count, 0, 2000);
    [vec![0x55; before], area, foot].concat()
}

/// Bytes at the edges of what prints as it is, and parts of UTF-8.
const EDGES: &[u8] = b"=\\\x1f\x20\x21\x7e\x7f\x80\xbf\xc3\xa9\xe2\x82\xac\xf0\x9f\xff\n\tAz09\x0f\xf0";

fn edges(rng: &mut Rng, n: usize) -> Vec<u8> {
    (0..n).map(|_| rng.pick(EDGES)).collect()
}

/// A tag whose parts are of such bytes, with a count that is right or wrong.
fn random_text(rng: &mut Rng) -> Vec<u8> {
    let n = rng.below(5);
    let parts: Vec<_> = (0..n)
        .map(|_| {
            let (k, v) = (rng.below(5), rng.below(9));
            (edges(rng, k), edges(rng, v))
        })
        .collect();
    let items: Vec<_> = parts.iter().map(|(k, v)| (&k[..], &v[..])).collect();
    let count = rng.pick(&[n, n, n, n + 1, n.saturating_sub(1), 4_000_000_000]);
    raw(rng.below(3), &items, count as u32)
}

/// A file of this many bytes that is one tag of one value, every byte of it ill-formed: the longest text of such a file.
fn longest(size: usize) -> Vec<u8> {
    raw(0, &[(b"", &vec![0xFF; size - 41])], 1)
}

/// Document 01's example: key `AB`, value `c`.
fn example() -> ApeTag {
    tag_of(vec![item("AB", "c")])
}

/// The files that are recorded by name, each with its listing: `NAME.in` and `NAME.out` in tests/listed.
fn named() -> Vec<(&'static str, Vec<u8>)> {
    let long = longest(LIMIT + 100);
    vec![
        ("empty", Vec::new()),
        ("no_tag", b"no tag".to_vec()),
        ("no_items", raw(5, &[], 0)),
        ("one_item", reach::replace(b"audio", &example())),
        ("escapes", raw(5, &[(b"A\\\x1f\x7f", b"\\ \x1f~\x7f\n"), (b"B", b"p\0q")], 2)),
        ("broken_utf8", raw(5, &[(b"\xFF\xC3", b"\xC3\xA9 \xE2\x82 \xFF\x80")], 1)),
        ("equals_sign", raw(5, &[(b"a=b", b"c=d")], 1)),
        // The footer says more items than are there, and fewer.
        ("count_too_high", raw(5, &[(b"AB", b"c")], 7)),
        ("count_too_low", raw(5, &[(b"AB", b"c"), (b"CD", b"e")], 1)),
        // The limit, one byte more, and the last bytes of a tag that the limit cuts.
        ("at_limit", longest(LIMIT)),
        ("past_limit", longest(LIMIT + 1)),
        ("cut_tag", long[100..].to_vec()),
        ("mp3gain", include_bytes!("../../tagged/mp3gain.mp3").to_vec()),
        ("mutagen", include_bytes!("../../tagged/mutagen.mp3").to_vec()),
    ]
}

fn compare(c: &mut Compare) {
    let both = |c: &mut Compare, file: &[u8]| c.bytes("list_tag", file, published, ours);
    let named = named();
    for (_, file) in &named {
        both(c, file);
    }
    // Every byte alone in a key and in a value.
    for b in 0..=255u8 {
        both(c, &raw(0, &[(&[b], b"v")], 1));
        both(c, &raw(0, &[(b"k", &[b])], 1));
    }
    // Counts of one digit and more, and sizes about the limit.
    for n in [9, 10, 11, 99, 100, 999, 1000, 1816] {
        both(c, &raw(0, &vec![(&b""[..], &b""[..]); n], n as u32));
    }
    for size in LIMIT - 3..LIMIT + 4 {
        both(c, &longest(size));
        both(c, &vec![0x55; size]);
        both(c, &raw(size - 44, &[(b"AB", b"c")], 1));
    }
    // Every cut and many changes of small files.
    for (_, file) in named.iter().filter(|(_, f)| f.len() < 2000) {
        for n in 0..file.len() {
            both(c, &file[n..]);
            both(c, &file[..n]);
        }
        for at in file.len().saturating_sub(250)..file.len() {
            for value in [0, 1, 31, 32, b'=', b'\\', 0x7E, 0x7F, 0x80, 0xFF] {
                let mut other = file.clone();
                other[at] = value;
                both(c, &other);
            }
        }
    }
    for _ in 0..c.count / 8 {
        let file = random_file(&mut c.rng);
        both(c, &file);
        let file = random_text(&mut c.rng);
        both(c, &file);
    }
}

fn record(r: &mut Record) {
    let alone = reach::serialize(&example());
    r.run(["crates/list/stdin", "crates/list/stdout"], &alone, &published(&alone));
    let mut files = Vec::new();
    for (name, file) in named() {
        let [reads, writes] = ["in", "out"].map(|end| format!("tests/listed/{name}.{end}"));
        r.run([&reads, &writes], &file, &published(&file));
        files.push(file);
    }
    files.extend((0..100).map(|_| random_file(&mut r.rng)));
    files.extend((0..100).map(|_| random_text(&mut r.rng)));
    files.extend(flags::each_type());
    for file in &files {
        r.line(&[hex(file), hex(&published(file))]);
    }
}

fn bench(b: &mut Bench) {
    let value = "The quick brown fox jumps over the lazy dog";
    let mut text = Box::new([0; library::ROOM]);
    for (n, things) in [(1, "item"), (41, "items")] {
        let tag = tag_of((0..n).map(|i| item(&format!("KEY_{i:03}"), value)).collect());
        let whole = reach::replace(&vec![0x55; 4096], &tag);
        let file = &whole[whole.len().saturating_sub(LIMIT)..];
        b.row(
            &format!("list_tag, {n} {things} (Rust: its reader, and a text of its items)"),
            || by_reader(file),
            || library::list_tag(file, &mut text),
        );
    }
}
