//! Crate `level`: level on a file and its gains. Run by `edit`.
//!
//! The published Rust has no such call. Its refusals and its steps are read here a second time from document 01; the published functions do
//! what they can: the stored undo accumulated, stored values shifted, items set and removed, gains adjusted, the tag replaced.

use super::ape::{area_of, headed_files, item, random_file, tag_of};
use super::edit::{around, finish, gate, in_domain, in_rooms, moved, some_items, Levelled, ITEMS, LIMIT, UNDO_NAMES};
use super::items::is_repeated;
use super::lengths::{library as lengths, with_length, WithLength};
use super::shift::{flag, full_tag, shifted, some_tag};
use super::values::{any_i32, is_peak_key, nearly, slip_form, turn, ENDS, FLAGS, MINMAX, NUMBERS, TRACK_GAIN};
use super::{flags, peaks};
use crate::ape::{accumulate_undo, format_undo_value, parse_undo_wrap, reach, read_ape_tag, ApeItem, UNDONE_KEYS};
use crate::frame::{adjust_gain_value, GainMode};
use crate::tools::{hex, Bench, Compare, Record, Rng};

/// The exported function, as Rust, and a safe wrapper. A refusal is `Err` with its number.
pub mod library {
    use super::Level;

    extern "C" {
        fn zib_level(
            file: *const u8,
            length: usize,
            left: *mut u8,
            left_length: usize,
            right: *mut u8,
            right_length: usize,
            left_steps: i32,
            right_steps: i32,
            wrap: bool,
            out: *mut u8,
            room: usize,
            written: *mut usize,
            peaks: *mut usize,
        ) -> u32;
        fn zib_resolve_mode(file: *const u8, length: usize, mode: u32, resolved: *mut u32) -> u32;
        fn zib_level_by_slip(
            slip: *const u8,
            slip_length: usize,
            file: *const u8,
            length: usize,
            left: *mut u8,
            left_length: usize,
            right: *mut u8,
            right_length: usize,
            out: *mut u8,
            room: usize,
            written: *mut usize,
            peaks: *mut usize,
        ) -> u32;
    }

    /// The number of the mode that this one is for a file.
    pub fn resolve_mode(file: &[u8], mode: u32) -> Result<u32, u32> {
        let mut resolved = 7;
        // SAFETY: as below.
        let reply = unsafe { zib_resolve_mode(file.as_ptr(), file.len(), mode, &mut resolved) };
        if reply == 0 {
            return Ok(resolved);
        }
        assert_eq!(resolved, 7, "a refused call changed a lent number");
        Err(reply)
    }

    pub fn level_by_slip(
        slip: &[u8],
        file: &[u8],
        left: &mut [u8],
        right: &mut [u8],
        out: &mut [u8],
    ) -> Result<(usize, usize), u32> {
        let (mut written, mut peaks) = (7, 7);
        // SAFETY: as below.
        let reply = unsafe {
            let (f, l, r, o) = (file.as_ptr(), left.as_mut_ptr(), right.as_mut_ptr(), out.as_mut_ptr());
            let (n, m, k) = (file.len(), left.len(), right.len());
            zib_level_by_slip(slip.as_ptr(), slip.len(), f, n, l, m, r, k, o, out.len(), &mut written, &mut peaks)
        };
        if reply == 0 {
            return Ok((written, peaks));
        }
        assert_eq!((written, peaks), (7, 7), "a refused call changed a lent number");
        Err(reply)
    }

    /// The length of the file and the number of its peak items.
    pub fn level(
        file: &[u8],
        left: &mut [u8],
        right: &mut [u8],
        by: Level,
        out: &mut [u8],
    ) -> Result<(usize, usize), u32> {
        let (mut written, mut peaks) = (7, 7);
        // SAFETY: pointers and lengths of slices; the lent numbers live through the call.
        let reply = unsafe {
            let (f, l, r, o) = (file.as_ptr(), left.as_mut_ptr(), right.as_mut_ptr(), out.as_mut_ptr());
            let (n, m, k) = (file.len(), left.len(), right.len());
            zib_level(f, n, l, m, r, k, by.left, by.right, by.wrap, o, out.len(), &mut written, &mut peaks)
        };
        if reply == 0 {
            return Ok((written, peaks));
        }
        assert_eq!((written, peaks), (7, 7), "a refused call changed a lent number");
        Err(reply)
    }
}

const UNDO: &str = "MP3GAIN_UNDO";

/// Two steps and a flag.
#[derive(Clone, Copy, Debug)]
pub struct Level {
    pub left: i32,
    pub right: i32,
    pub wrap: bool,
}

pub fn by(left: i32, right: i32, wrap: bool) -> Level {
    Level { left, right, wrap }
}

/// Document 01's level; none outside the compared domain.
pub fn published(file: &[u8], left: &[u8], right: &[u8], by: Level) -> Option<Result<Levelled, u32>> {
    if flags::in_file(file) {
        return Some(flags::level(file, left, right, by));
    }
    if file.len() > LIMIT {
        return Some(Err(1));
    }
    if [by.left, by.right].iter().any(|s| !(-255..=255).contains(s)) {
        return Some(Err(2));
    }
    if left.is_empty() {
        return Some(Err(7));
    }
    let Some(tag) = gate(file) else { return Some(Err(8)) };
    if is_repeated(&tag, UNDO) {
        return Some(Err(14));
    }
    in_domain(file).then_some(())?;
    let stored = tag.get(UNDO);
    if stored.is_some() && parse_undo_wrap(stored) != by.wrap {
        return Some(Err(9));
    }
    let (x, y) = accumulate_undo(stored, (by.left, by.right));
    if [x, y].iter().any(|n| !(-32_768..=32_767).contains(n)) {
        return Some(Err(11));
    }
    let mut new = if by.left == by.right {
        shifted(&tag, by.left, by.wrap)?
    } else {
        let mut rest = tag.clone();
        UNDONE_KEYS.iter().for_each(|key| rest.remove(key));
        rest
    };
    let (left, right) = (moved(left, by.left, by.wrap), moved(right, by.right, by.wrap));
    let gains = || left.iter().chain(&right).copied();
    new.set_undo_gain(x, y, by.wrap);
    new.set_minmax(gains().min().unwrap(), gains().max().unwrap());
    // Of the old tag: those that were not shifted. Where the steps differ, none is left.
    let kept = |i: &&ApeItem| is_peak_key(i.key()) && peaks::moved(i.value().as_bytes(), by.left).is_none();
    let peaks = if by.left == by.right { tag.iter().filter(kept).count() } else { 0 };
    Some(finish(file, &new).map(|file| Levelled { file, left, right, peaks }))
}

/// The call, and its length.
fn ours(file: &[u8], left: &[u8], right: &[u8], by: Level) -> WithLength<Levelled> {
    let call = in_rooms(left, right, 2 * file.len() + 300, |l, r, out| library::level(file, l, r, by, out));
    (call, lengths::level_length(file, left, right, by))
}

fn both(c: &mut Compare, file: &[u8], left: &[u8], right: &[u8], by: Level) {
    let Some(answer) = published(file, left, right, by) else { return };
    if with_length(answer) == ours(file, left, right, by) {
        c.inputs += 1;
        return;
    }
    let what = format!("level of {left:?} by {} and {right:?} by {}, {},", by.left, by.right, flag(by.wrap));
    let theirs = |s: &[u8]| published(s, left, right, by).map(with_length);
    c.bytes(&what, file, theirs, |s| theirs(s).map(|_| ours(s, left, right, by)));
}

// ---- level by a slip: document 02's request 6

/// The flag of the first undo item of a file that is fit for editing.
fn stored_wrap(file: &[u8]) -> Option<bool> {
    if flags::in_file(file) {
        return flags::stored_wrap(file);
    }
    gate(file).and_then(|tag| tag.get(UNDO).map(|text| parse_undo_wrap(Some(text))))
}

pub fn published_by_slip(slip: &[u8], file: &[u8], left: &[u8], right: &[u8]) -> Option<Result<Levelled, u32>> {
    let Some((x, y, named)) = slip_form(slip) else { return Some(Err(13)) };
    published(file, left, right, by(x, y, named.or_else(|| stored_wrap(file)).unwrap_or(true)))
}

fn by_slip(c: &mut Compare, slip: &[u8], file: &[u8], left: &[u8], right: &[u8]) {
    let ours = |s: &[u8]| {
        let call = in_rooms(left, right, 2 * s.len() + 300, |l, r, out| library::level_by_slip(slip, s, l, r, out));
        (call, lengths::level_by_slip_length(slip, s, left, right))
    };
    let Some(answer) = published_by_slip(slip, file, left, right) else { return };
    if with_length(answer) == ours(file) {
        c.inputs += 1;
        return;
    }
    let what = format!("level of {left:?} and {right:?} by the slip {:?}", String::from_utf8_lossy(slip));
    let theirs = |s: &[u8]| published_by_slip(slip, s, left, right).map(with_length);
    c.bytes(&what, file, theirs, |s| theirs(s).map(|_| ours(s)));
}

fn resolves(c: &mut Compare, file: &[u8]) {
    // An undo text that is not ASCII is outside the compared domain of the flag.
    if !in_domain(file) {
        return;
    }
    for mode in 0..5 {
        let theirs = |s: &[u8]| match mode {
            0 | 1 => Ok(mode),
            2 => Ok(stored_wrap(s).unwrap_or(true) as u32),
            _ => Err(13),
        };
        c.bytes(&format!("resolve_mode of {mode}"), file, theirs, |s| library::resolve_mode(s, mode));
    }
}

/// Slips of every form, good ones and not.
const SLIPS: [&str; 14] = [
    "left=3\nright=3\n",
    "left=3\nright=3\nmode=W\n",
    "left=3\nright=3\nmode=N\n",
    "left=-2\nright=5\n",
    "left=-2\nright=5\nmode=W\n",
    "left=-2\nright=5\nmode=N\n",
    "left=256\nright=0\n",
    "left=0\nright=-256\nmode=W\n",
    "left=3\nright=3\nmode=\n",
    "left=3\nright=3\nmode=w\n",
    "left=3\nright=3\nmode=W",
    "right=3\nleft=3\n",
    "left=3\n",
    "",
];

/// Files without an undo item, with one, and with two, in each letter case, of either flag and of junk; one that is not fit for editing.
fn undo_files() -> Vec<Vec<u8>> {
    let texts = ["+003,-002,W", "+003,-002,N", "junk", "", "1,2,w", "1,2", "+32767,0,W", "+32767,0,N"];
    let mut files = vec![vec![], b"audio".to_vec(), reach::replace(b"audio", &tag_of(vec![item("AB", "c")]))];
    for name in UNDO_NAMES {
        for text in texts {
            files.push(reach::replace(b"audio", &tag_of(vec![item("AB", "c"), item(name, text)])));
            for second in texts {
                let items = vec![item("mp3GAIN_undo", text), item("AB", "c"), item(name, second)];
                files.push(reach::replace(b"audio", &tag_of(items)));
            }
        }
    }
    files.push(refused_by(true, false, false, false, false));
    files
}

fn compare_slips(c: &mut Compare) {
    let (left, right) = (&b"\x0A\x00\xFC\x80"[..], &b"\x07\xFF"[..]);
    for file in undo_files() {
        resolves(c, &file);
        for slip in SLIPS {
            by_slip(c, slip.as_bytes(), &file, left, right);
            by_slip(c, slip.as_bytes(), &file, left, &[]);
            by_slip(c, slip.as_bytes(), &file, &[], right);
        }
    }
    for _ in 0..c.count / 40 {
        let file = some_file(&mut c.rng);
        resolves(c, &file);
        let (left, right) = (some_gains(&mut c.rng, 6), some_gains(&mut c.rng, 3));
        let mut slip = c.rng.pick(&SLIPS).as_bytes().to_vec();
        if c.rng.below(4) == 0 {
            slip = nearly(&mut c.rng, &slip);
        }
        by_slip(c, &slip, &file, &left, &right);
    }
    // 13 comes before 1, and 1 before 2.
    let file = vec![0x55; LIMIT + 1];
    for slip in ["left=3\n", "left=256\nright=0\n", "left=3\nright=3\n"] {
        by_slip(c, slip.as_bytes(), &file, left, right);
    }
}

// ---- inputs

/// An undo text: of a good form with numbers about every end, or nearly one.
fn undo_text(rng: &mut Rng) -> String {
    let number = |rng: &mut Rng| match rng.below(8) {
        0 => rng.pick(&NUMBERS).to_string(),
        1 => any_i32(rng).to_string(),
        2 => format!("{:+04}", rng.pick(&[-32_768, 32_767]) + rng.below(601) as i32 - 300),
        _ => format!("{:+04}", rng.below(1201) as i32 - 600),
    };
    let wrap = if rng.below(4) > 0 { rng.pick(&["W", "N"]) } else { rng.pick(&FLAGS) };
    let text = format!("{},{},{wrap}", number(rng), number(rng));
    match rng.below(8) {
        0 => String::from_utf8_lossy(&nearly(rng, text.as_bytes())).into_owned(),
        1 => text.rsplit_once(',').unwrap().0.to_string(),
        _ => text,
    }
}

/// A file with stored values of every kind, most with an undo text; some are not fit for editing.
pub fn some_file(rng: &mut Rng) -> Vec<u8> {
    if rng.below(16) == 0 {
        return random_file(rng);
    }
    let mut tag = some_tag(rng);
    for _ in 0..rng.pick(&[0, 1, 1, 1, 1, 2]) {
        let at = rng.below(tag.len() + 1);
        tag.items.insert(at, item(rng.pick(&[UNDO, "mp3gain_Undo"]), &undo_text(rng)));
    }
    around(rng, &tag)
}

/// Steps and a flag, mostly the stored one.
pub fn some_level(rng: &mut Rng, file: &[u8]) -> Level {
    let step = |rng: &mut Rng| match rng.below(8) {
        0 => rng.pick(&ENDS),
        1 | 2 => rng.below(511) as i32 - 255,
        _ => rng.below(25) as i32 - 12,
    };
    let left = step(rng);
    let right = if rng.below(2) == 0 { left } else { step(rng) };
    let stored = gate(file).and_then(|tag| tag.get(UNDO).map(|text| parse_undo_wrap(Some(text))));
    let wrap = stored.filter(|_| rng.below(8) > 0).unwrap_or(rng.below(2) == 0);
    Level { left, right, wrap }
}

pub fn some_gains(rng: &mut Rng, most: usize) -> Vec<u8> {
    let n = rng.below(most + 1);
    (0..n).map(|_| if rng.below(3) == 0 { rng.pick(&[0, 1, 254, 255]) } else { rng.next() as u8 }).collect()
}

/// A file that every test of level but the named ones passes, where the flag is N, the left gains are there and the steps are small.
/// 8: version 1000. 14: a second undo item. 9: the stored flag is W. 11: a stored number at its end. 6: 41 items, and MINMAX to come.
fn refused_by(eight: bool, fourteen: bool, nine: bool, eleven: bool, six: bool) -> Vec<u8> {
    let others = if six { ITEMS - 1 - fourteen as usize } else { 2 };
    let mut items: Vec<_> = (0..others).map(|i| item(&format!("{i:02X}"), "")).collect();
    if fourteen {
        items.push(item("mp3gain_undo", "+001,+001,N"));
    }
    items.insert(0, item(UNDO, &format!("{},+000,{}", if eleven { "+32767" } else { "+003" }, flag(nine))));
    let mut file = reach::replace(b"audio", &tag_of(items));
    if eight {
        let at = file.len() - 24;
        file[at..at + 2].copy_from_slice(&1000u16.to_le_bytes());
    }
    file
}

pub fn compare(c: &mut Compare) {
    let (left, right) = (&b"\x0A\x00\xFC\x80"[..], &b"\x07\xFF"[..]);
    // Every set of reasons at once, with and without room: which one is given. Room is tested in `ours`.
    for reasons in 0..128 {
        let has = |bit: u32| reasons >> bit & 1 == 1;
        let file = refused_by(has(0), has(1), has(2), has(3), has(4));
        let gains = if has(5) { &[][..] } else { left };
        for (x, y) in [(-1, -1), (-1, 2), (-1, 256)] {
            both(c, &file, gains, right, by(if has(6) { -256 } else { x }, y, false));
        }
    }
    // A second undo item in each letter case, beside a key that only begins alike, by either flag.
    for (first, second) in UNDO_NAMES.iter().flat_map(|a| UNDO_NAMES.iter().map(move |b| (a, b))) {
        for (one, two) in [("+003,-002,W", "+001,+001,N"), ("", ""), ("junk", "+003,-002,W"), ("+32767,0,N", "0,0,N")] {
            let items = vec![item("AB", "c"), item(first, one), item("CD", "e"), item(second, two)];
            let file = reach::replace(b"audio", &tag_of(items));
            for wrap in [false, true] {
                both(c, &file, left, right, by(-1, -1, wrap));
                both(c, &file, left, right, by(2, -1, wrap));
            }
        }
    }
    // Document 01's figure, and stored values of each kind by every step, equal and not.
    both(c, b"", b"\x0A\x00", b"", by(5, 5, false));
    both(c, b"", b"\xFC\x00", b"", by(5, 5, false));
    let full = reach::replace(b"audio", &full_tag());
    for x in -260..=260 {
        for y in [x, x + 1, -x, 0, 255, 256, -255, -256] {
            for wrap in [false, true] {
                for file in [&full[..], b"", b"audio"] {
                    both(c, file, left, right, by(x, y, wrap));
                    both(c, file, left, &[], by(x, y, wrap));
                }
            }
        }
    }
    for x in ENDS {
        for y in ENDS {
            both(c, &full, left, right, by(x, y, true));
        }
    }
    // Stored undo texts: numbers about every end and flags of every kind; then about the ends of refusal 11, on either side.
    let stored = |text: &str| reach::replace(b"", &tag_of(vec![item(UNDO, text)]));
    for x in NUMBERS {
        for y in NUMBERS {
            for f in FLAGS {
                let file = stored(&format!("{x},{y},{f}"));
                let wrap = parse_undo_wrap(Some(&format!("{x},{y},{f}")));
                both(c, &file, left, right, by(1, -1, wrap));
                both(c, &file, left, &[], by(-255, -255, !wrap));
            }
        }
    }
    for n in 32_400..33_100 {
        for n in [n, -n] {
            for s in [-255, -1, 0, 1, 255] {
                for text in [format!("{n},0,N"), format!("0,{n},N"), format!("{n}"), format!("{n},{n},w")] {
                    let wrap = text.ends_with('w');
                    both(c, &stored(&text), left, right, by(s, 0, wrap));
                    both(c, &stored(&text), left, &[], by(s, s, wrap));
                    both(c, &stored(&text), left, &[], by(0, s, wrap));
                }
            }
        }
    }
    // Every truncation and every change of one byte of a good file.
    let items = [("Ab", "c"), ("mp3gain_undo", "+003,-002,W"), (MINMAX, "9,250"), (TRACK_GAIN, "-3.500000 dB")];
    let peaks = [("REPLAYGAIN_TRACK_PEAK", "1.000000"), ("ReplayGain_Track_Peak", "0.9"), (MINMAX, "1,2")];
    let good = tag_of(items.iter().chain(&peaks).map(|(k, v)| item(k, v)).collect());
    let good = reach::replace(b"audio", &good);
    let calls = [by(5, 5, true), by(6, 6, true), by(5, 5, false), by(2, -1, true)];
    for at in 0..good.len() {
        for call in calls {
            both(c, &good[..at], left, right, call);
        }
        for value in 0..=255 {
            let mut other = good.clone();
            other[at] = value;
            for call in calls {
                both(c, &other, left, right, call);
            }
        }
    }
    // Every single bit of a header.
    for file in headed_files(&[0, 31], &[0, 0x8000_0000]) {
        both(c, &file, left, right, by(5, 5, true));
    }
    // Refusal 6, from both sides: the items of the finished tag, and their bytes, which a shift makes more and a drop fewer.
    for n in ITEMS - 3..=ITEMS + 1 {
        let mut items: Vec<_> = (4..n).map(|i| item(&format!("KEY_{i}"), "v")).collect();
        for kinds in 0..16 {
            items.truncate(n - 4);
            for (i, key) in [UNDO, MINMAX, "REPLAYGAIN_ALGORITHM", "MP3GAIN_ALBUM_MINMAX"].iter().enumerate() {
                let there = kinds >> i & 1 == 1;
                items.push(item(if there { key } else { ["K0", "K1", "K2", "K3"][i] }, "250,1"));
            }
            let file = reach::replace(b"audio", &tag_of(items.clone()));
            for call in [by(9, 9, true), by(9, 9, false), by(9, 8, false), by(1, 1, true)] {
                both(c, &file, left, right, call);
            }
        }
    }
    for n in 32_600..=32_770 {
        for (key, value) in [(TRACK_GAIN, "1.500000"), (MINMAX, "300,1"), ("REPLAYGAIN_TRACK_PEAK", "1.000000")] {
            let rest = area_of(&tag_of(vec![item("AB", ""), item(key, value)])).len();
            let file = reach::replace(b"", &tag_of(vec![item("AB", &"v".repeat(n - rest)), item(key, value)]));
            for call in [by(0, 0, false), by(0, 0, true), by(0, 1, false)] {
                both(c, &file, left, right, call);
            }
        }
    }
    for i in 0..c.count / 8 {
        let file = some_file(&mut c.rng);
        let most = if i % 64 == 0 { 300 } else { 6 };
        let (left, right) = (some_gains(&mut c.rng, most), some_gains(&mut c.rng, most / 2));
        let call = some_level(&mut c.rng, &file);
        both(c, &file, &left, &right, call);
        let step = turn(i);
        both(c, &file, &left, &right, Level { left: step, right: step, ..call });
    }
    compare_slips(c);
    // The limit of 16,777,216 bytes, and one past it: files and results.
    let file = vec![0x55; LIMIT + 1];
    let more = ours(b"", left, right, by(1, 2, false)).1.unwrap();
    for n in [LIMIT + 1, LIMIT, LIMIT - more + 1, LIMIT - more] {
        both(c, &file[..n], left, right, by(1, 2, false));
    }
    both(c, &file, &[], right, by(256, 2, false));
    let many = reach::serialize(&tag_of(some_items(ITEMS)));
    both(c, &[&file[..LIMIT - many.len()], &many].concat(), left, right, by(1, 2, false));
}

/// `level FILE LEFT RIGHT STEPS STEPS FLAG ROOM REPLY FILE LEFT RIGHT PEAKS`
pub fn record(r: &mut Record) {
    let line = |r: &mut Record, file: &[u8], left: &[u8], right: &[u8], by: Level, room: usize| {
        let Some(answer) = published(file, left, right, by) else { return };
        let answer = answer.and_then(|a| if a.file.len() > room { Err(5) } else { Ok(a) });
        let (reply, gives) = answer.map_or_else(
            |n| (n, Levelled { file: vec![], left: left.to_vec(), right: right.to_vec(), peaks: 0 }),
            |a| (0, a),
        );
        let lent: [&dyn ToString; 4] = [&"level", &hex(file), &hex(left), &hex(right)];
        let asked: [&dyn ToString; 4] = [&by.left, &by.right, &flag(by.wrap), &room];
        let after: [&dyn ToString; 5] =
            [&reply, &hex(&gives.file), &hex(&gives.left), &hex(&gives.right), &gives.peaks];
        r.line(&lent.iter().chain(&asked).chain(&after).map(|w| w.to_string()).collect::<Vec<_>>());
    };
    let (left, right) = (&b"\x0A\x00\xFC\x80"[..], &b"\x07\xFF"[..]);
    line(r, b"", b"\x0A\x00", b"", by(5, 5, false), 4096);
    line(r, b"", b"\xFC", b"", by(5, 5, false), 4096);
    // Each refusal that a short file can have, alone and with the next one; 1 needs a file of more than 16 MiB.
    for reasons in [0, 1, 2, 4, 8, 16, 32, 64, 96, 33, 3, 6, 12, 24, 127] {
        let has = |bit: u32| reasons >> bit & 1 == 1;
        let file = refused_by(has(0), has(1), has(2), has(3), has(4));
        let gains = if has(5) { &[][..] } else { left };
        line(
            r,
            &file,
            gains,
            right,
            by(if has(6) { -256 } else { -1 }, -1, false),
            if reasons == 127 { 0 } else { 4096 },
        );
    }
    let file = refused_by(false, false, false, false, false);
    let need = published(&file, left, right, by(1, 2, false)).unwrap().unwrap().file.len();
    for room in [0, need - 1, need, need + 1] {
        line(r, &file, left, right, by(1, 2, false), room);
    }
    // Level sets two items: 39 leave room for them, 40 and 41 do not unless two are dropped, and 42 are not edited.
    for n in ITEMS - 2..=ITEMS + 1 {
        for dropped in [0, 2] {
            let mut items = some_items(n - dropped);
            items.extend(UNDONE_KEYS[..dropped].iter().map(|key| item(key, "v")));
            line(r, &reach::replace(b"audio", &tag_of(items)), left, right, by(1, 2, false), 4096);
        }
    }
    let full = reach::replace(b"audio", &full_tag());
    for (x, y) in [(0, 0), (5, 5), (6, 6), (-5, -5), (-6, -6), (255, 255), (-255, -255), (5, 6), (0, 256), (-256, 0)] {
        for wrap in [false, true] {
            line(r, &full, left, right, by(x, y, wrap), 4096);
        }
    }
    for _ in 0..160 {
        let file = loop {
            let file = some_file(&mut r.rng);
            if file.len() < 500 {
                break file;
            }
        };
        let (left, right) = (some_gains(&mut r.rng, 6), some_gains(&mut r.rng, 3));
        let call = some_level(&mut r.rng, &file);
        line(r, &file, &left, &right, call, 4096);
    }
    for file in &flags::small_files()[..3] {
        line(r, file, left, right, by(5, 5, true), 4096);
    }
    // `by_slip SLIP FILE LEFT RIGHT REPLY FILE LEFT RIGHT PEAKS`: slips of each form, with a file of each number of undo items.
    for (i, file) in undo_files().iter().enumerate().filter(|(i, _)| *i < 3 || i % 9 == 3 || i % 72 == 4) {
        for slip in SLIPS.iter().skip(i / 9 % 3).step_by(if i < 3 { 1 } else { 5 }) {
            let Some(answer) = published_by_slip(slip.as_bytes(), file, left, right) else { continue };
            let (reply, gives) = answer.map_or_else(
                |n| (n, Levelled { file: vec![], left: left.to_vec(), right: right.to_vec(), peaks: 0 }),
                |a| (0, a),
            );
            let words: [&dyn ToString; 10] = [
                &"by_slip",
                &hex(slip.as_bytes()),
                &hex(file),
                &hex(left),
                &hex(right),
                &reply,
                &hex(&gives.file),
                &hex(&gives.left),
                &hex(&gives.right),
                &gives.peaks,
            ];
            r.line(&words.map(|w| w.to_string()));
        }
    }
}

/// What a Rust program does with the published functions to level a file by one step.
fn rust_level(file: &[u8], left: &mut [u8], right: &mut [u8], wrap: Option<bool>) -> Vec<u8> {
    let mut tag = read_ape_tag(file).unwrap();
    let wrap = wrap.unwrap_or_else(|| parse_undo_wrap(tag.get(UNDO)));
    let (x, y) = accumulate_undo(tag.get(UNDO), (1, 1));
    tag.shift_stored_gain(1, wrap);
    let (mut least, mut greatest) = (255, 0);
    for gains in [left, right] {
        for g in gains.iter_mut() {
            *g = adjust_gain_value(*g, 1, GainMode::from_wrap(wrap));
            least = least.min(*g);
            greatest = greatest.max(*g);
        }
    }
    tag.set_undo_gain(x, y, wrap);
    tag.set_minmax(least, greatest);
    reach::replace(file, &tag)
}

pub fn bench(b: &mut Bench) {
    let value = "The quick brown fox jumps over the lazy dog";
    for (size, name) in [(4 << 10, "4 KiB"), (1 << 20, "1 MiB"), ((16 << 20) - 8192, "16 MiB")] {
        for wrap in [false, true] {
            let mut items: Vec<_> = (0..38).map(|i| item(&format!("KEY_{i:03}"), value)).collect();
            items.push(item(UNDO, &format_undo_value(3, -2, wrap)));
            items.push(item(MINMAX, "094,168"));
            items.push(item(TRACK_GAIN, "-3.500000 dB"));
            let file = reach::replace(&vec![0x55; size], &tag_of(items));
            let mut out = vec![0; file.len() + 300];
            let (mut left, mut right) = (vec![100u8; 5_000], vec![100u8; 5_000]);
            let (mut l, mut r) = (left.clone(), right.clone());
            b.row(
                &format!(
                    "level on a file of {name}, 41 items, 10,000 gains, {} (Rust: read, accumulate, shift, adjust, set, replace; no gate)",
                    flag(wrap)
                ),
                || rust_level(&file, &mut left, &mut right, Some(wrap)),
                || library::level(&file, &mut l, &mut r, by(1, 1, wrap), &mut out),
            );
            if size > 4 << 10 || !wrap {
                continue;
            }
            b.row(
                "resolve_mode on a file of 4 KiB, 41 items (Rust: read, get, the flag; no gate)",
                || parse_undo_wrap(read_ape_tag(&file).unwrap().get(UNDO)),
                || library::resolve_mode(&file, 2),
            );
            b.row(
                "level_by_slip without a mode on a file of 4 KiB, 41 items, 10,000 gains (Rust: as level, the stored flag; no slip, no gate)",
                || rust_level(&file, &mut left, &mut right, None),
                || library::level_by_slip(b"left=1\nright=1\n", &file, &mut l, &mut r, &mut out),
            );
        }
    }
}
