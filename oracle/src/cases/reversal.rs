//! Demand 3 on the built library: a list of level, set and remove calls, and the undo after it.
//!
//! What is checked is crates/reversal/specs/Demand.antt, field by field: `Given` is met by the inputs, `Restored` is asked of the library.
//! Which calls the table of replies accepts is a second reading of document 01 (`edit`, `level`), and each reply is held to it.

use super::ape::{item, tag_of};
use super::edit::library::{remove_ape_item, set_ape_item, undo};
use super::edit::{gate, in_room, published_remove, published_set, Levelled, EIGHT, ITEMS};
use super::level::{self, some_gains, Level};
use super::Case;
use crate::ape::{reach, ApeTag};
use crate::tools::{hex, Compare, Rng};

pub const CASE: Case = Case { name: "reversal", record: |_| (), compare, bench: |_| () };

/// A call with its arguments and its own output length.
#[derive(Clone)]
enum Call {
    Level(Level, usize),
    Set(Vec<u8>, Vec<u8>, usize),
    Remove(Vec<u8>, usize),
}

/// What a call gets from the one before.
#[derive(Clone)]
struct State {
    file: Vec<u8>,
    left: Vec<u8>,
    right: Vec<u8>,
}

/// Document 01's book: the bytes before the tag, its items, the bytes after it.
struct Book {
    front: Vec<u8>,
    tag: ApeTag,
    back: Vec<u8>,
}

impl Book {
    fn of(file: &[u8]) -> Option<Self> {
        let (front, back) = reach::parts(file);
        Some(Book { front: front.to_vec(), tag: gate(file)?, back: back.to_vec() })
    }

    fn file(&self) -> Vec<u8> {
        [&self.front[..], &reach::serialize(&self.tag), &self.back].concat()
    }

    fn feed(&mut self, call: &Call) {
        let text = |key| std::str::from_utf8(key).unwrap();
        match call {
            Call::Level(..) => (),
            Call::Set(key, value, _) => self.tag.set(text(key), text(value)),
            Call::Remove(key, _) => self.tag.remove(text(key)),
        }
    }
}

/// Document 01's settled file, without the eight keys.
fn is_settled(file: &[u8]) -> bool {
    let Some(book) = Book::of(file) else { return false };
    let front = &book.front;
    book.file() == file
        && reach::replace(file, &book.tag) == file
        && !(front.len() >= 32 && front[front.len() - 32..].starts_with(b"APETAGEX"))
        && EIGHT.iter().all(|key| book.tag.get(key).is_none())
}

/// What a call gives on the file and the gains that it gets: the library's answer.
fn ours(s: &State, call: &Call) -> Result<Levelled, u32> {
    let (room, edit): (_, &dyn Fn(&mut [u8]) -> Result<usize, u32>) = match call {
        Call::Level(by, room) => {
            return in_room(&s.left, &s.right, *room, |l, r, out| level::library::level(&s.file, l, r, *by, out));
        }
        Call::Set(key, value, room) => (*room, &|out| set_ape_item(&s.file, key, value, out)),
        Call::Remove(key, room) => (*room, &|out| remove_ape_item(&s.file, key, out)),
    };
    in_room(&s.left, &s.right, room, |_, _, out| edit(out).map(|n| (n, 0)))
}

/// What the second reading gives with ample room.
fn reading(s: &State, call: &Call) -> Result<Levelled, u32> {
    let file = match call {
        Call::Level(by, _) => {
            return level::published(&s.file, &s.left, &s.right, *by).expect("within the compared domain");
        }
        Call::Set(key, value, _) => published_set(&s.file, key, value)?,
        Call::Remove(key, _) => published_remove(&s.file, key)?,
    };
    Ok(Levelled { file, left: s.left.clone(), right: s.right.clone(), peaks: 0 })
}

fn room_of(call: &Call) -> usize {
    match call {
        Call::Level(_, room) | Call::Set(_, _, room) | Call::Remove(_, room) => *room,
    }
}

/// What the lists that met the terms did.
#[derive(Default)]
struct Seen {
    lists: u64,
    levels: u64,
    edits: u64,
    refused: [u64; 14],
    back: u64,
    not_back: u64,
}

/// Whether every accepted level call took the gain to 1 through 255, for each gain of a side.
fn land(landed: &mut [bool], gains: &[u8], steps: i32) {
    for (l, &g) in landed.iter_mut().zip(gains) {
        *l &= (1..=255).contains(&(g as i32 + steps));
    }
}

/// One list. The terms are met if a level call is accepted: else there is nothing to check. An error says what does not hold.
fn check(first: &State, calls: &[Call], seen: &mut Seen) -> Result<(), String> {
    let want = |b: bool, what: &str| if b { Ok(()) } else { Err(what.to_string()) };
    let mut book = Book::of(&first.file).unwrap();
    let mut s = first.clone();
    let (mut levels, mut edits, mut refused, mut wrapped) = (0, Vec::new(), [0; 14], true);
    let mut landed = [vec![true; s.left.len()], vec![true; s.right.len()]];
    for call in calls {
        let answer = reading(&s, call).and_then(|a| if a.file.len() > room_of(call) { Err(5) } else { Ok(a) });
        want(answer == ours(&s, call), "a call's answer is not that of the second reading")?;
        let done = match answer {
            Ok(done) => done,
            Err(n) => {
                refused[n as usize] += 1;
                continue;
            }
        };
        if let Call::Level(by, _) = call {
            land(&mut landed[0], &s.left, by.left);
            land(&mut landed[1], &s.right, by.right);
            wrapped &= by.wrap;
            levels += 1;
        } else {
            book.feed(call);
            edits.push(call);
        }
        s = State { file: done.file, left: done.left, right: done.right };
    }
    if levels == 0 {
        return Ok(());
    }
    let undone = in_room(&s.left, &s.right, s.file.len(), |l, r, out| undo(&s.file, l, r, out));
    let undone = undone.map_err(|n| format!("the undo is refused with {n}"))?;
    want(undone.file == book.file(), "the undo's file is not the book's file")?;
    let mut alone = first.clone();
    for call in &edits {
        alone.file = ours(&alone, call).map_err(|n| format!("an edit alone is refused with {n}"))?.file;
    }
    want(alone.file == book.file(), "the accepted edits alone do not end at the book's file")?;
    want(undone.left.len() == first.left.len() && undone.right.len() == first.right.len(), "a gain came or went")?;
    for (side, now, began) in [(0, &undone.left, &first.left), (1, &undone.right, &first.right)] {
        for (i, (now, began)) in now.iter().zip(began).enumerate() {
            let back = now == began;
            let due = wrapped || *began == 0 || landed[side][i];
            want(back == due, &format!("gain {i} of side {side} began at {began} and is {now}"))?;
            seen.back += back as u64;
            seen.not_back += !back as u64;
        }
    }
    seen.lists += 1;
    seen.levels += levels;
    seen.edits += edits.len() as u64;
    seen.refused.iter_mut().zip(refused).for_each(|(all, n)| *all += n);
    Ok(())
}

/// Ends with the shortest list that was found: calls are left out while it still fails.
fn fail(first: &State, mut calls: Vec<Call>, mut why: String) -> ! {
    let mut at = 0;
    while at < calls.len() {
        let mut fewer = calls.clone();
        fewer.remove(at);
        match check(first, &fewer, &mut Seen::default()) {
            Ok(()) => at += 1,
            Err(other) => (calls, why, at) = (fewer, other, 0),
        }
    }
    println!("reversal: {why}");
    println!("  file {}, left {:?}, right {:?}", hex(&first.file), first.left, first.right);
    for call in &calls {
        match call {
            Call::Level(by, room) => println!("  {by:?}, room {room}"),
            Call::Set(key, value, room) => println!("  set {} {}, room {room}", hex(key), hex(value)),
            Call::Remove(key, room) => println!("  remove {}, room {room}", hex(key)),
        }
    }
    std::process::exit(1)
}

// ---- inputs

/// Keys that are none of the eight; the last ones are not good keys.
#[rustfmt::skip]
const KEYS: [&str; 16] = [
    "Title", "TITLE", "tiTle", "Note", "AB", "a=b", "TAGS", "MP3GAIN_UNDO2", "REPLAYGAIN_TRACK_GAI", "MP3GAIN_MINMA", "[x]", "{x}",
    "A", "tAg", "", "\u{C9}t\u{E9}",
];

const TEXTS: [&str; 9] =
    ["", "x", "+003,+003,N", "-012,+004,W", "094,168", "+1.234567 dB", "p\u{0}q", "\u{20AC}uro", "APETAGEX"];

/// A settled file without the eight keys.
fn settled_file(rng: &mut Rng) -> Vec<u8> {
    loop {
        let length = rng.pick(&[0, 1, 5, 31, 32, 33, 127, 128, 129, 160, 200]);
        let mut front = rng.bytes(length);
        for mark in [&b"TAG"[..], b"APETAGEX"] {
            if rng.below(4) == 0 && length > 0 {
                let at = length - rng.pick(&[128, 160, 33, 32, 31, 64]).min(length);
                let end = (at + mark.len()).min(length);
                front[at..end].copy_from_slice(&mark[..end - at]);
            }
        }
        let n = match rng.below(200) {
            0 => ITEMS - 5 + rng.below(6),
            _ => rng.pick(&[0, 0, 1, 2, 4]),
        };
        let mut items: Vec<_> = (0..n).map(|_| item(rng.pick(&KEYS), rng.pick(&TEXTS))).collect();
        if rng.below(200) == 0 {
            items.push(item("LONG", &"v".repeat(32_500 + rng.below(250))));
        }
        let mut back = Vec::new();
        if rng.below(3) == 0 {
            back = rng.bytes(128);
            back[..3].copy_from_slice(b"TAG");
        }
        let file = [front, reach::serialize(&tag_of(items)), back].concat();
        if is_settled(&file) {
            return file;
        }
    }
}

/// How a list's level calls are drawn: the flag that most have, and how far a step goes.
struct Manner {
    wrap: bool,
    far: i32,
}

fn some_call(rng: &mut Rng, manner: &Manner) -> Call {
    let step = |rng: &mut Rng| match rng.below(24) {
        0 => rng.pick(&[-256, -255, 255, 256, i32::MIN, i32::MAX]),
        _ => rng.below(2 * manner.far as usize + 1) as i32 - manner.far,
    };
    let key = rng.pick(&KEYS).as_bytes().to_vec();
    match rng.below(8) {
        0 | 1 => {
            let value = match rng.below(24) {
                0 => b"\xFF".to_vec(),
                1 if rng.below(8) == 0 => vec![b'w'; 32_400 + rng.below(400)],
                _ => rng.pick(&TEXTS).as_bytes().to_vec(),
            };
            Call::Set(key, value, 0)
        }
        2 => Call::Remove(key, 0),
        _ => {
            let left = step(rng);
            let right = if rng.below(2) == 0 { left } else { step(rng) };
            Call::Level(Level { left, right, wrap: manner.wrap ^ (rng.below(10) == 0) }, 0)
        }
    }
}

/// A list of calls, each with ample room, with what it needs or with a byte or more too few, and the first gains.
fn some_list(rng: &mut Rng) -> (State, Vec<Call>) {
    let most = if rng.below(100) == 0 { 40 } else { 5 };
    // Without left gains no level call is accepted.
    let (mut left, right) = (some_gains(rng, most), some_gains(rng, most));
    left.push(rng.next() as u8);
    let first = State { file: settled_file(rng), left, right };
    let manner = Manner { wrap: rng.below(2) == 0, far: rng.pick(&[3, 3, 20, 100, 255]) };
    // Only many far steps pass an undo number's limit.
    let (n, drift) = if rng.below(400) == 0 { (300, rng.pick(&[-255, 255])) } else { (1 + rng.below(10), 0) };
    let mut s = first.clone();
    let mut calls = Vec::new();
    for _ in 0..n {
        let mut call = some_call(rng, &manner);
        if let (Call::Level(by, _), true) = (&mut call, drift != 0) {
            (by.left, by.right) = (drift, if rng.below(8) == 0 { 0 } else { drift });
        }
        let done = reading(&s, &call);
        let need = done.as_ref().map_or(100, |d| d.file.len());
        let most = s.file.len().max(need) + 100;
        let chosen = match rng.below(12) {
            0 => need,
            1 => need.saturating_sub(1),
            2 => s.file.len(),
            3 => rng.below(most),
            _ => most,
        };
        match &mut call {
            Call::Level(_, room) | Call::Set(_, _, room) | Call::Remove(_, room) => *room = chosen,
        }
        if let Ok(done) = done.and_then(|d| if d.file.len() > chosen { Err(5) } else { Ok(d) }) {
            s = State { file: done.file, left: done.left, right: done.right };
        }
        calls.push(call);
    }
    (first, calls)
}

fn compare(c: &mut Compare) {
    let mut seen = Seen::default();
    while seen.lists < c.count / 20 {
        let (first, calls) = some_list(&mut c.rng);
        if let Err(why) = check(&first, &calls, &mut seen) {
            fail(&first, calls, why);
        }
    }
    let refused = seen.refused.iter().enumerate().filter(|(_, &n)| n > 0).map(|(i, n)| format!("{n} with {i}"));
    println!(
        "reversal: {} lists: accepted {} levels and {} edits; refused {}; gains back {}, not back {}",
        seen.lists,
        seen.levels,
        seen.edits,
        refused.collect::<Vec<_>>().join(", "),
        seen.back,
        seen.not_back
    );
    c.inputs += seen.lists;
}
