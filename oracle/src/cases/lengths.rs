//! Crates `lengths` and `level_lengths`: how long the file will be that a call writes. Compared by `edit`, `level` and `flags` beside each call.
//!
//! The published Rust has no such call: a length is held to that of the file which the other side gives, or to its refusal. What the call does
//! with just that room, and with a byte less, is tested with the call itself (`written`, `in_rooms`).

use super::ape::{item, tag_of};
use super::edit::{self, Levelled, EIGHT, ITEMS, LIMIT};
use super::level::{self, by};
use super::values::{MINMAX, TRACK_GAIN};
use super::Case;
use crate::ape::{format_undo_value, reach};
use crate::tools::{hex, Bench, Compare, Record};

pub const CASE: Case = Case { name: "lengths", record, compare, bench };

/// The declarations, as Rust, and safe wrappers. A refusal is `Err` with its number.
pub mod library {
    use super::level::Level;

    extern "C" {
        fn zib_set_length(
            file: *const u8,
            length: usize,
            key: *const u8,
            key_length: usize,
            value: *const u8,
            value_length: usize,
            bytes: *mut usize,
        ) -> u32;
        fn zib_remove_length(
            file: *const u8,
            length: usize,
            key: *const u8,
            key_length: usize,
            bytes: *mut usize,
        ) -> u32;
        fn zib_level_length(
            file: *const u8,
            length: usize,
            left: *const u8,
            left_length: usize,
            right: *const u8,
            right_length: usize,
            left_steps: i32,
            right_steps: i32,
            wrap: bool,
            bytes: *mut usize,
        ) -> u32;
        fn zib_level_by_slip_length(
            slip: *const u8,
            slip_length: usize,
            file: *const u8,
            length: usize,
            left: *const u8,
            left_length: usize,
            right: *const u8,
            right_length: usize,
            bytes: *mut usize,
        ) -> u32;
        fn zib_undo_length(
            file: *const u8,
            length: usize,
            left: *const u8,
            left_length: usize,
            right: *const u8,
            right_length: usize,
            bytes: *mut usize,
        ) -> u32;
    }

    fn told(call: impl FnOnce(&mut usize) -> u32) -> Result<usize, u32> {
        let mut bytes = 7;
        let reply = call(&mut bytes);
        if reply == 0 {
            return Ok(bytes);
        }
        assert_eq!(bytes, 7, "a refused call changed a lent number");
        Err(reply)
    }

    pub fn set_length(file: &[u8], key: &[u8], value: &[u8]) -> Result<usize, u32> {
        let (f, k, v) = (file.as_ptr(), key.as_ptr(), value.as_ptr());
        // SAFETY: pointers and lengths of slices; the lent number lives through the call. So below.
        told(|n| unsafe { zib_set_length(f, file.len(), k, key.len(), v, value.len(), n) })
    }

    pub fn remove_length(file: &[u8], key: &[u8]) -> Result<usize, u32> {
        told(|n| unsafe { zib_remove_length(file.as_ptr(), file.len(), key.as_ptr(), key.len(), n) })
    }

    pub fn level_length(file: &[u8], left: &[u8], right: &[u8], by: Level) -> Result<usize, u32> {
        let (f, l, r) = (file.as_ptr(), left.as_ptr(), right.as_ptr());
        told(|n| unsafe {
            zib_level_length(f, file.len(), l, left.len(), r, right.len(), by.left, by.right, by.wrap, n)
        })
    }

    pub fn level_by_slip_length(slip: &[u8], file: &[u8], left: &[u8], right: &[u8]) -> Result<usize, u32> {
        let (s, f, l, r) = (slip.as_ptr(), file.as_ptr(), left.as_ptr(), right.as_ptr());
        told(|n| unsafe { zib_level_by_slip_length(s, slip.len(), f, file.len(), l, left.len(), r, right.len(), n) })
    }

    pub fn undo_length(file: &[u8], left: &[u8], right: &[u8]) -> Result<usize, u32> {
        let (f, l, r) = (file.as_ptr(), left.as_ptr(), right.as_ptr());
        told(|n| unsafe { zib_undo_length(f, file.len(), l, left.len(), r, right.len(), n) })
    }
}

/// What a call leaves that has a length: a file, alone or with gains.
pub trait Long {
    fn size(&self) -> usize;
}

impl Long for Vec<u8> {
    fn size(&self) -> usize {
        self.len()
    }
}

impl Long for Levelled {
    fn size(&self) -> usize {
        self.file.len()
    }
}

/// An answer with unlimited room, and the length that goes with it.
pub type WithLength<T> = (Result<T, u32>, Result<usize, u32>);

pub fn with_length<T: Long>(answer: Result<T, u32>) -> WithLength<T> {
    let length = answer.as_ref().map(T::size).map_err(|n| *n);
    (answer, length)
}

/// The ends that need a long file; the rest is in `edit`, `level` and `flags`.
fn compare(c: &mut Compare) {
    let file = vec![0x55; LIMIT + 1];
    let mut out = vec![0; LIMIT];
    let large = vec![b'v'; 32_769];
    let mut is = |ours: Result<usize, u32>, length: Result<usize, u32>| {
        c.inputs += 1;
        assert_eq!(ours, length);
    };
    is(library::set_length(&file, b"A", b"\xFF"), Err(1));
    is(library::set_length(&file[..LIMIT], b"AB", &large), Err(6));
    is(library::set_length(&file[..LIMIT], b"AB", b"c"), Err(5));
    is(library::set_length(&file[..LIMIT - 75], b"AB", b"c"), Err(5));
    is(library::set_length(&file[..LIMIT - 76], b"AB", b"c"), Ok(LIMIT));
    is(edit::library::set_ape_item(&file[..LIMIT - 76], b"AB", b"c", &mut out), Ok(LIMIT));
    is(edit::library::set_ape_item(&file[..LIMIT - 76], b"AB", b"c", &mut out[1..]), Err(5));
    is(library::remove_length(&file, b"AB"), Err(1));
    is(library::remove_length(&file[..LIMIT], b"AB"), Ok(LIMIT));
    is(library::level_length(&file, b"", b"", by(256, 0, false)), Err(1));
    is(library::level_length(&file[..LIMIT - 125], b"\x0A", b"", by(5, 5, false)), Err(5));
    is(library::level_length(&file[..LIMIT - 126], b"\x0A", b"", by(5, 5, false)), Ok(LIMIT));
    is(library::level_by_slip_length(b"left=256\nright=0\n", &file, b"", b""), Err(1));
    is(library::level_by_slip_length(b"left=256\n", &file, b"", b""), Err(13));
    is(library::undo_length(&file, b"", b""), Err(1));
}

/// `set FILE KEY VALUE REPLY LENGTH`, `remove FILE KEY REPLY LENGTH`, `level FILE LEFT RIGHT STEPS STEPS FLAG REPLY LENGTH`,
/// `by_slip SLIP FILE LEFT RIGHT REPLY LENGTH`, `undo FILE LEFT RIGHT REPLY LENGTH`, where a refusal has the length 0.
fn record(r: &mut Record) {
    let line = |r: &mut Record, call: &str, lent: &[String], length: Result<usize, u32>| {
        let (reply, n) = length.map_or_else(|reply| (reply, 0), |n| (0, n));
        r.line(&[&[call.to_string()], lent, &[reply.to_string(), n.to_string()]].concat());
    };
    let one = reach::replace(b"", &tag_of(vec![item("AB", "c")]));
    let mut old = one.clone();
    let at = old.len() - 24;
    old[at..at + 2].copy_from_slice(&1000u16.to_le_bytes());
    let mut block = b"TAG".to_vec();
    block.resize(128, 0);
    let full = reach::replace(b"audio", &tag_of(edit::some_items(ITEMS)));
    let levelled = |wrap| level::published(b"audio", b"\x0A", b"", by(5, 5, wrap)).unwrap().unwrap().file;
    let (n, w) = (levelled(false), levelled(true));
    let twice = reach::replace(b"", &tag_of(vec![item(EIGHT[0], "+001,+001,N"), item("mp3gain_undo", "+001,+001,N")]));
    let moved = reach::replace(b"a", &tag_of(vec![item(TRACK_GAIN, "1.500000"), item(MINMAX, "1,2"), item("AB", "c")]));
    let files = [vec![], one, old, block, full, n, w, twice, moved];
    for file in &files {
        let f = hex(file);
        for (key, value) in
            [(&b"AB"[..], &b"c"[..]), (b"ab", b"\xFF"), (b"A", b"c"), (b"KEY_7", b""), (b"xy", b"longer")]
        {
            let length = with_length(edit::published_set(file, key, value)).1;
            line(r, "set", &[f.clone(), hex(key), hex(value)], length);
            line(r, "remove", &[f.clone(), hex(key)], with_length(edit::published_remove(file, key)).1);
        }
        for (left, right) in [(&b"\x0A"[..], &b""[..]), (b"", b"\x0A"), (b"\x00\xFF", b"\x80")] {
            let gains = [hex(left), hex(right)];
            let with = |first: &[String], last: &[String]| [first, &gains, last].concat();
            let length = with_length(edit::published_undo(file, left, right)).1;
            line(r, "undo", &with(&[f.clone()], &[]), length);
            for (x, y, wrap) in [(5, 5, false), (5, 5, true), (2, -1, false), (-255, 255, true), (0, 256, false)] {
                let length = with_length(level::published(file, left, right, by(x, y, wrap)).unwrap()).1;
                let steps = [x.to_string(), y.to_string(), if wrap { "W" } else { "N" }.to_string()];
                line(r, "level", &with(&[f.clone()], &steps), length);
            }
            for slip in ["left=5\nright=5\n", "left=5\nright=5\nmode=N\n", "left=5\n", "left=256\nright=0\n"] {
                let length = with_length(level::published_by_slip(slip.as_bytes(), file, left, right).unwrap()).1;
                line(r, "by_slip", &with(&[hex(slip.as_bytes()), f.clone()], &[]), length);
            }
        }
    }
}

/// Each length beside its own call.
fn bench(b: &mut Bench) {
    let value = "The quick brown fox jumps over the lazy dog";
    let mut items: Vec<_> = (0..38).map(|i| item(&format!("KEY_{i:03}"), value)).collect();
    items.push(item(EIGHT[0], &format_undo_value(3, -2, true)));
    items.push(item(MINMAX, "094,168"));
    items.push(item(TRACK_GAIN, "-3.500000 dB"));
    let tag = tag_of(items);
    let (mut left, mut right) = (vec![100u8; 5_000], vec![100u8; 5_000]);
    let (l, r) = (left.clone(), right.clone());
    let slip = b"left=1\nright=1\n";
    for (size, name) in [(4 << 10, "4 KiB"), ((16 << 20) - 8192, "16 MiB")] {
        let file = reach::replace(&vec![0x55; size], &tag);
        let mut out = vec![0; file.len() + 300];
        let what = |call: &str| format!("{call} on a file of {name}, 41 items (beside its call, not the Rust)");
        b.row(
            &what("set_length"),
            || edit::library::set_ape_item(&file, b"KEY_020", b"new", &mut out),
            || library::set_length(&file, b"KEY_020", b"new"),
        );
        b.row(
            &what("remove_length"),
            || edit::library::remove_ape_item(&file, b"KEY_020", &mut out),
            || library::remove_length(&file, b"KEY_020"),
        );
        b.row(
            &what("level_length"),
            || level::library::level(&file, &mut left, &mut right, by(1, 1, true), &mut out),
            || library::level_length(&file, &l, &r, by(1, 1, true)),
        );
        b.row(
            &what("level_by_slip_length"),
            || level::library::level_by_slip(slip, &file, &mut left, &mut right, &mut out),
            || library::level_by_slip_length(slip, &file, &l, &r),
        );
        b.row(
            &what("undo_length"),
            || edit::library::undo(&file, &mut left, &mut right, &mut out),
            || library::undo_length(&file, &l, &r),
        );
    }
}
