//! Items with flags, such as pictures: document 02's request 13, read a second time.
//!
//! The published Rust has no flags: it drops those that it reads, and converts every value. So it is asked about tags whose items all have
//! flags zero, and the other modules come here with the rest. This reading works on bytes. It takes from the published Rust what does not
//! look at items: where the footer stands, where a file is cut, and how a gain moves. The recorded answers are among those of `ape`, `items`,
//! `edit` and `listing`.

use super::ape::{self, block, edge_files, written};
use super::edit::{self, in_room, in_rooms, moved, Levelled, EIGHT, ITEMS, LIMIT};
use super::items::{self, each_op, refused, some_key, some_op, some_value, walk, Answer, Op};
use super::lengths::{library as lengths, with_length};
use super::level::{self, by, some_gains, Level};
use super::values::{is_gain, is_i32, range_sums, whole};
use super::{listing, peaks, shift, Case};
use crate::ape::{find_ape_footer, reach};
use crate::frame::read_u32_le;
use crate::tools::{hex, Compare, Rng};

pub const CASE: Case = Case { name: "flags", record: |_| (), compare, bench: |_| () };

// ---- the second reading

/// An item: bit 0 of its flags says read-only, bits 2..1 its type.
#[derive(Clone, Debug, PartialEq)]
pub struct Item {
    key: Vec<u8>,
    value: Vec<u8>,
    flags: u32,
}

fn item(flags: u32, key: &[u8], value: &[u8]) -> Item {
    Item { key: key.to_vec(), value: value.to_vec(), flags }
}

const BINARY: u32 = 1;
const RESERVED: u32 = 3;

fn kind(flags: u32) -> u32 {
    flags / 2 % 4
}

/// The first item of these bytes, and the bytes behind it.
fn first(bytes: &[u8]) -> Option<(Item, &[u8])> {
    let head = bytes.get(..8)?;
    let zero = 8 + bytes[8..].iter().position(|&b| b == 0)?;
    let end = zero + 1 + read_u32_le(head) as usize;
    let value = bytes.get(zero + 1..end)?;
    Some((item(read_u32_le(&head[4..]), &bytes[8..zero], value), &bytes[end..]))
}

/// The items of an area: exactly `count` of them, with any flags.
fn items_of(area: &[u8], count: usize) -> Option<Vec<Item>> {
    let (mut items, mut rest) = (Vec::new(), area);
    for _ in 0..count {
        let (item, behind) = first(rest)?;
        items.push(item);
        rest = behind;
    }
    rest.is_empty().then_some(items)
}

fn area_of(items: &[Item]) -> Vec<u8> {
    let bytes =
        |i: &Item| [&(i.value.len() as u32).to_le_bytes()[..], &i.flags.to_le_bytes(), &i.key, &[0], &i.value].concat();
    items.iter().flat_map(bytes).collect()
}

/// Reading converts keys, and values that are not binary.
fn converted(i: Item) -> Item {
    let lossy = |bytes: &[u8]| String::from_utf8_lossy(bytes).into_owned().into_bytes();
    let value = if kind(i.flags) == BINARY { i.value } else { lossy(&i.value) };
    Item { key: lossy(&i.key), value, flags: i.flags }
}

fn read_items(file: &[u8]) -> Option<Vec<Item>> {
    let footer = find_ape_footer(file)?;
    let [version, size, count] = [8, 12, 16].map(|at| read_u32_le(&file[footer + at..]) as usize);
    if version != 2000 || size > footer + 32 {
        return None;
    }
    let (mut items, mut rest) = (Vec::new(), &file[(footer + 32 - size).min(footer)..footer]);
    while items.len() < count {
        let Some((item, behind)) = first(rest) else { break };
        items.push(converted(item));
        rest = behind;
    }
    Some(items)
}

/// The count of a file's items and their area.
pub fn read(file: &[u8]) -> Option<(usize, Vec<u8>)> {
    read_items(file).map(|items| (items.len(), area_of(&items)))
}

fn is_flagged(items: &[Item]) -> bool {
    items.iter().any(|i| i.flags != 0)
}

/// Whether the published Rust is not to be asked: an area with an item whose flags are not zero.
pub fn in_area(area: &[u8], count: usize) -> bool {
    items_of(area, count).is_some_and(|items| is_flagged(&items))
}

/// The same of a file's tag.
pub fn in_file(file: &[u8]) -> bool {
    read_items(file).is_some_and(|items| is_flagged(&items))
}

/// The gate's test of an item: a type that is not reserved and no stray bit, a key of UTF-8, and a value of UTF-8 unless it is binary.
fn is_editable(i: &Item) -> bool {
    let utf8 = |bytes: &[u8]| std::str::from_utf8(bytes).is_ok();
    i.flags & !7 == 0 && kind(i.flags) != RESERVED && utf8(&i.key) && (kind(i.flags) == BINARY || utf8(&i.value))
}

/// Where the items of a file stand that may be edited, and the items.
fn gate(file: &[u8]) -> Result<(usize, usize, Vec<Item>), u32> {
    if file.len() > LIMIT {
        return Err(1);
    }
    let Some(footer) = find_ape_footer(file) else { return Ok((0, 0, vec![])) };
    let numbers = |at: usize| [8, 12, 16, 20].map(|more| read_u32_le(&file[at + more..]) as usize);
    let [version, size, count, flags] = numbers(footer);
    let header = 32 * (flags >> 31);
    if version != 2000 || size < 32 || size + header > footer + 32 || count > ITEMS || size > 32 + 32_768 {
        return Err(8);
    }
    let start = footer + 32 - size;
    if header > 0 {
        let [v, s, n, f] = numbers(start - 32);
        if !file[start - 32..].starts_with(b"APETAGEX") || [v, s, n, f >> 29 & 1] != [2000, size, count, 1] {
            return Err(8);
        }
    }
    let items = items_of(&file[start..footer], count).ok_or(8u32)?;
    if !items.iter().all(is_editable) {
        return Err(8);
    }
    Ok((start, footer, items))
}

pub fn gate_places(file: &[u8]) -> Result<(usize, usize, usize), u32> {
    gate(file).map(|(start, end, items)| (start, end, items.len()))
}

fn has_key(i: &Item, key: &str) -> bool {
    i.key.eq_ignore_ascii_case(key.as_bytes())
}

fn drop_keys(items: &mut Vec<Item>, keys: &[&str]) {
    items.retain(|i| !keys.iter().any(|key| has_key(i, key)));
}

/// A value that is set: bit 0 stays, and all other bits are cleared.
fn put(i: &mut Item, value: &[u8]) {
    i.value = value.to_vec();
    i.flags %= 2;
}

fn set(items: &mut Vec<Item>, key: &[u8], value: &[u8]) {
    match items.iter_mut().find(|i| i.key.eq_ignore_ascii_case(key)) {
        Some(found) => put(found, value),
        None => items.push(item(0, &key.to_ascii_uppercase(), value)),
    }
}

fn remove(items: &mut Vec<Item>, key: &[u8]) {
    items.retain(|i| !i.key.eq_ignore_ascii_case(key));
}

fn get<'a>(items: &'a [Item], key: &str) -> Option<&'a [u8]> {
    items.iter().find(|i| has_key(i, key)).map(|i| &i.value[..])
}

/// The numbers of an undo text, and whether its flag is W.
fn undo_of(text: &[u8]) -> (i32, i32, bool) {
    let fields: Vec<&[u8]> = text.split(|&b| b == b',').collect();
    let number = |i: usize| fields.get(i).and_then(|f| whole(f)).filter(|&n| is_i32(n)).map(|n| n as i32);
    let left = number(0).unwrap_or(0);
    // One letter, and spaces about it.
    let letters: Vec<u8> =
        fields.get(2).unwrap_or(&&b""[..]).iter().copied().filter(|b| !matches!(b, 9..=13 | 32)).collect();
    (left, number(1).unwrap_or(left), letters.eq_ignore_ascii_case(b"W"))
}

fn undo_gain(items: &[Item]) -> Option<i32> {
    get(items, "MP3GAIN_UNDO").map(|text| undo_of(text).0)
}

fn undo_text(left: i32, right: i32, wrap: bool) -> Vec<u8> {
    format!("{left:+04},{right:+04},{}", shift::flag(wrap)).into_bytes()
}

const RANGES: [&str; 2] = ["MP3GAIN_MINMAX", "MP3GAIN_ALBUM_MINMAX"];
const GAINS: [&str; 2] = ["REPLAYGAIN_TRACK_GAIN", "REPLAYGAIN_ALBUM_GAIN"];
const PEAKS: [&str; 2] = ["REPLAYGAIN_TRACK_PEAK", "REPLAYGAIN_ALBUM_PEAK"];

fn is_one_of(i: &Item, keys: &[&str]) -> bool {
    keys.iter().any(|key| has_key(i, key))
}

/// The new text of a stored value, or none where it stays as found.
fn shifted(i: &Item, steps: i32) -> Option<Vec<u8>> {
    if is_one_of(i, &RANGES) {
        let comma = i.value.iter().position(|&b| b == b',')?;
        let gain = |field: &[u8]| {
            let n = whole(field).filter(|n| (0..=255).contains(n) && !field.contains(&b'-'))? as i32;
            Some(if n == 0 { 0 } else { (n + steps).clamp(0, 255) })
        };
        return Some(format!("{:03},{:03}", gain(&i.value[..comma])?, gain(&i.value[comma + 1..])?).into_bytes());
    }
    if is_one_of(i, &PEAKS) {
        return peaks::moved(&i.value, steps);
    }
    if !is_one_of(i, &GAINS) || !is_gain(&i.value) {
        return None;
    }
    // In thousand-millionths of a millionth of a decibel.
    let minus = i.value[0] == b'-';
    let digits = i.value.iter().filter(|b| b.is_ascii_digit()).fold(0i128, |n, d| n * 10 + (d - b'0') as i128);
    let before = digits * 1_000_000_000 * if minus { -1 } else { 1 };
    let after = before - steps as i128 * 1_505_149_978_319_906;
    let sign = if after < 0 || after == 0 && minus { '-' } else { '+' };
    let millionths = (after.abs() + 500_000_000) / 1_000_000_000;
    Some(format!("{sign}{}.{:06} dB", millionths / 1_000_000, millionths % 1_000_000).into_bytes())
}

fn shift_items(items: &mut Vec<Item>, steps: i32, wrap: bool) {
    let leaves = |i: &Item| is_one_of(i, &RANGES) && range_sums(&i.value, steps).iter().any(|n| !(0..=255).contains(n));
    items.retain(|i| !(wrap && leaves(i)));
    for i in items {
        if let Some(text) = shifted(i, steps) {
            put(i, &text);
        }
    }
}

/// How many items have a key.
fn matches(items: &[Item], key: &[u8]) -> usize {
    items.iter().filter(|i| i.key.eq_ignore_ascii_case(key)).count()
}

/// The flag of the first undo item of a file that is fit for editing.
pub fn stored_wrap(file: &[u8]) -> Option<bool> {
    let (_, _, items) = gate(file).ok()?;
    get(&items, "MP3GAIN_UNDO").map(|text| undo_of(text).2)
}

/// What a call on an area answers.
pub fn answer(area: &[u8], count: usize, op: &Op) -> Result<Answer, u32> {
    let mut items = items_of(area, count).ok_or(12u32)?;
    refused(op)?;
    match op {
        Op::Get(key) => {
            let found = items.iter().find(|i| i.key.eq_ignore_ascii_case(key));
            return Ok(Answer::Value(found.map(|i| (i.value.clone(), matches(&items, key) > 1))));
        }
        Op::GetUndoGain => {
            // As in `items`; `on_area` asks for what is not ASCII too.
            let outside = get(&items, "MP3GAIN_UNDO").is_some_and(|t| !t.is_ascii());
            return Ok(if outside { Answer::Outside } else { Answer::Steps(undo_gain(&items)) });
        }
        Op::Set(key, value) => set(&mut items, key, value),
        Op::Remove(key) => remove(&mut items, key),
        Op::RemoveReplaygain => drop_keys(&mut items, &EIGHT[3..]),
        Op::DropUndone => drop_keys(&mut items, &EIGHT[2..]),
        Op::TakeMp3gain => drop_keys(&mut items, &EIGHT),
        Op::SetUndoGain(left, right, wrap) => set(&mut items, b"MP3GAIN_UNDO", &undo_text(*left, *right, *wrap)),
        Op::SetMinmax(least, most) => set(&mut items, b"MP3GAIN_MINMAX", format!("{least:03},{most:03}").as_bytes()),
        Op::SetReplaygain(texts) => {
            for (key, text) in EIGHT[3..].iter().zip(texts).filter(|(_, text)| !text.is_empty()) {
                set(&mut items, key.as_bytes(), text);
            }
        }
    }
    Ok(Answer::Area(items.len(), area_of(&items)))
}

/// The shift of an area: the count of the new items and their area.
pub fn shift_area(area: &[u8], count: usize, steps: i32, wrap: bool) -> Result<(usize, Vec<u8>), u32> {
    let mut items = items_of(area, count).ok_or(12u32)?;
    if !(-255..=255).contains(&steps) {
        return Err(2);
    }
    shift_items(&mut items, steps, wrap);
    Ok((items.len(), area_of(&items)))
}

fn serialized(items: &[Item]) -> Vec<u8> {
    if items.is_empty() {
        return vec![];
    }
    let area = area_of(items);
    let part = |flags| block(area.len() as u32 + 32, items.len() as u32, flags, 2000);
    [&part(0xA000_0000)[..], &area, &part(0x8000_0000)].concat()
}

/// The tag of an area.
pub fn serialize(area: &[u8], count: usize) -> Option<Vec<u8>> {
    items_of(area, count).map(|items| serialized(&items))
}

fn replaced(file: &[u8], items: &[Item]) -> Vec<u8> {
    let (front, back) = reach::parts(file);
    [front, &serialized(items), back].concat()
}

/// The file with these items, unless they are too many or it is too long.
fn finish(file: &[u8], items: &[Item]) -> Result<Vec<u8>, u32> {
    if items.len() > ITEMS || area_of(items).len() > 32_768 {
        return Err(6);
    }
    Some(replaced(file, items)).filter(|new| new.len() <= LIMIT).ok_or(5)
}

/// The refusals of a key and a value on a file: 1, 3 and 4.
fn edit_items(file: &[u8], op: &Op) -> Result<Vec<Item>, u32> {
    if file.len() > LIMIT {
        return Err(1);
    }
    refused(op)?;
    Ok(gate(file)?.2)
}

pub fn set_ape_item(file: &[u8], key: &[u8], value: &[u8]) -> Result<Vec<u8>, u32> {
    let mut items = edit_items(file, &Op::Set(key.to_vec(), value.to_vec()))?;
    set(&mut items, key, value);
    finish(file, &items)
}

pub fn remove_ape_item(file: &[u8], key: &[u8]) -> Result<Vec<u8>, u32> {
    let mut items = edit_items(file, &Op::Remove(key.to_vec()))?;
    remove(&mut items, key);
    finish(file, &items)
}

pub fn level(file: &[u8], left: &[u8], right: &[u8], by: Level) -> Result<Levelled, u32> {
    if file.len() > LIMIT {
        return Err(1);
    }
    if by.left.abs_diff(0) > 255 || by.right.abs_diff(0) > 255 {
        return Err(2);
    }
    if left.is_empty() {
        return Err(7);
    }
    let (_, _, mut items) = gate(file)?;
    if matches(&items, b"MP3GAIN_UNDO") > 1 {
        return Err(14);
    }
    let stored = get(&items, "MP3GAIN_UNDO").map(undo_of);
    if stored.is_some_and(|(_, _, wrap)| wrap != by.wrap) {
        return Err(9);
    }
    let (x, y, _) = stored.unwrap_or((0, 0, false));
    let (x, y) = (x.saturating_sub(by.left), y.saturating_sub(by.right));
    if [x, y].iter().any(|n| !(-32_768..=32_767).contains(n)) {
        return Err(11);
    }
    let mut peaks = 0;
    if by.left == by.right {
        peaks = items.iter().filter(|i| is_one_of(i, &PEAKS) && shifted(i, by.left).is_none()).count();
        shift_items(&mut items, by.left, by.wrap);
    } else {
        drop_keys(&mut items, &EIGHT[2..]);
    }
    let (left, right) = (moved(left, by.left, by.wrap), moved(right, by.right, by.wrap));
    let gains = || left.iter().chain(&right);
    set(&mut items, b"MP3GAIN_UNDO", &undo_text(x, y, by.wrap));
    let range = format!("{:03},{:03}", gains().min().unwrap(), gains().max().unwrap());
    set(&mut items, b"MP3GAIN_MINMAX", range.as_bytes());
    finish(file, &items).map(|file| Levelled { file, left, right, peaks })
}

pub fn undo(file: &[u8], left: &[u8], right: &[u8]) -> Result<Levelled, u32> {
    if file.len() > LIMIT {
        return Err(1);
    }
    if left.is_empty() {
        return Err(7);
    }
    let (_, _, mut items) = gate(file)?;
    if matches(&items, b"MP3GAIN_UNDO") > 1 {
        return Err(14);
    }
    let (x, y, wrap) = undo_of(get(&items, "MP3GAIN_UNDO").ok_or(10u32)?);
    drop_keys(&mut items, &EIGHT);
    Ok(Levelled { file: replaced(file, &items), left: moved(left, x, wrap), right: moved(right, y, wrap), peaks: 0 })
}

/// The listing: no flags, and every value byte by byte.
pub fn list(file: &[u8]) -> Vec<u8> {
    if file.len() > 16_384 {
        return b"refused=1\n".to_vec();
    }
    let Some(items) = read_items(file) else { return b"items=none\n".to_vec() };
    let print = |text: &mut String, part: &[u8], key: bool| {
        for &b in part {
            let plain = (0x20..=0x7E).contains(&b) && b != b'\\' && !(key && b == b'=');
            *text += &if plain { (b as char).to_string() } else { format!("\\{b:02x}") };
        }
    };
    let mut text = format!("items={}\n", items.len());
    for i in &items {
        print(&mut text, &i.key, true);
        text.push('=');
        print(&mut text, &i.value, false);
        text.push('\n');
    }
    text.into_bytes()
}

// ---- both sides

/// Every call on an area.
fn on_area(c: &mut Compare, area: &[u8], count: usize, ops: &[Op], steps: i32) {
    walk(c, area);
    for op in ops {
        let what = || format!("{op:?} on an area of {count} items");
        held(c, what, area, |s| answer(s, count, op), |s| items::ours(s, count, op));
    }
    held(
        c,
        || format!("get_undo_gain of {count} items"),
        area,
        |s| items_of(s, count).map(|items| undo_gain(&items)).ok_or(12),
        |s| items::library::get_undo_gain(s, count),
    );
    for wrap in [false, true] {
        let what = || format!("shift_stored_gain of {count} items by {steps}, {}", shift::flag(wrap));
        held(c, what, area, |s| shift_area(s, count, steps, wrap), |s| shift::ours(s, count, steps, wrap));
    }
    held(
        c,
        || format!("serialize_ape_tag of {count} items"),
        area,
        |s| serialize(s, count).ok_or(12),
        |s| written(s.len() + 100, |out| ape::library::serialize_ape_tag(s, count, out)),
    );
    for file in [&b""[..], &[b"audio", &block(32, 0, 0, 2000)[..], b"TAG", &[0; 125]].concat()] {
        held(
            c,
            || format!("replace_ape_tag by {count} items in {}", hex(file)),
            area,
            |s| items_of(s, count).map(|items| replaced(file, &items)).ok_or(12),
            |s| written(file.len() + s.len() + 100, |out| ape::library::replace_ape_tag(file, s, count, out)),
        );
    }
}

/// Every call on a file.
fn on_file(c: &mut Compare, file: &[u8], key: &[u8], value: &[u8], levels: &[Level]) {
    held(c, || "read_ape_tag".into(), file, read, ape::our_read);
    held(c, || "list_tag".into(), file, list, listing::ours);
    held(c, || "gate".into(), file, gate_places, edit::library::gate);
    let room = |s: &[u8]| s.len() + key.len() + value.len() + 200;
    held(
        c,
        || format!("set_ape_item of {} to {}", hex(key), hex(value)),
        file,
        |s| with_length(set_ape_item(s, key, value)),
        |s| {
            let call = written(room(s), |out| edit::library::set_ape_item(s, key, value, out));
            (call, lengths::set_length(s, key, value))
        },
    );
    held(
        c,
        || format!("remove_ape_item of {}", hex(key)),
        file,
        |s| with_length(remove_ape_item(s, key)),
        |s| (written(room(s), |out| edit::library::remove_ape_item(s, key, out)), lengths::remove_length(s, key)),
    );
    let (left, right) = (&b"\x0A\x00\xFC\x80"[..], &b"\x07\xFF"[..]);
    for &call in levels {
        held(
            c,
            || format!("level by {call:?}"),
            file,
            |s| with_length(level(s, left, right, call)),
            |s| {
                let room = 2 * s.len() + 300;
                let done = in_rooms(left, right, room, |l, r, out| level::library::level(s, l, r, call, out));
                (done, lengths::level_length(s, left, right, call))
            },
        );
    }
    held(
        c,
        || "undo".into(),
        file,
        |s| with_length(undo(s, left, right)),
        |s| {
            let done = in_rooms(left, right, s.len() + 16, |l, r, out| edit::library::undo(s, l, r, out));
            (done, lengths::undo_length(s, left, right))
        },
    );
}

/// `Compare::bytes`, told what differs only where something does.
fn held<A: PartialEq + std::fmt::Debug>(
    c: &mut Compare,
    what: impl FnOnce() -> String,
    input: &[u8],
    reading: impl Fn(&[u8]) -> A,
    ours: impl Fn(&[u8]) -> A,
) {
    if reading(input) == ours(input) {
        c.inputs += 1;
        return;
    }
    c.bytes(&what(), input, reading, ours);
}

// ---- inputs

/// Flags 0 to 63, each bit alone, and each bit beside those of a read-only binary item.
fn every_flags() -> Vec<u32> {
    let bits = (0..32).flat_map(|bit| [1 << bit, 3 | 1 << bit]);
    (0..64).chain(bits).chain([u32::MAX, !7, !1]).collect()
}

/// Texts that are UTF-8 and that are not.
const TEXTS: [&[u8]; 6] = [b"AB", b"", b"\xE2\x82\xAC", b"\xFF\xD8", b"A\xC3", b"\xE2\x82A"];

fn some_flags(rng: &mut Rng) -> u32 {
    match rng.below(8) {
        0 => 1 << rng.below(32),
        1 => rng.next() as u32,
        2 => rng.below(64) as u32,
        _ => rng.below(6) as u32,
    }
}

/// Stored values of each kind, each of which a shift moves or leaves.
#[rustfmt::skip]
const STORED: [&str; 12] = [
    "094,168", "000,250", "300,1", "1,2,3", "-3.500000 dB", "+1.505150 dB", "12.000000", "1.5 dB", "1.000000", "+003,-012,W", "+003,+003,N",
    "EBU R128",
];

fn some_item(rng: &mut Rng) -> Item {
    let (key, value) = match rng.below(3) {
        0 => (some_key(rng), some_value(rng)),
        1 => (rng.pick(&EIGHT).as_bytes().to_vec(), rng.pick(&STORED).as_bytes().to_vec()),
        _ => {
            let n = rng.below(30);
            (rng.pick(&[&b"Cover Art (front)"[..], b"Title", b"AB"]).to_vec(), rng.bytes(n))
        }
    };
    item(some_flags(rng), &key.into_iter().filter(|&b| b != 0).collect::<Vec<u8>>(), &value)
}

/// An item that passes the gate and has none of the eight keys.
fn some_kept(rng: &mut Rng) -> Item {
    loop {
        let mut kept = some_item(rng);
        kept.flags = rng.below(6) as u32;
        if is_editable(&kept) && !is_one_of(&kept, &EIGHT) {
            return kept;
        }
    }
}

/// Areas of a few items of every kind, small enough to change every byte of them, and their counts.
pub fn small_areas() -> Vec<(Vec<u8>, usize)> {
    let areas = [
        vec![item(3, b"Ab", b"\xFF\xD8")],
        vec![item(0x8000_0004, b"", b""), item(6, b"aB", b"x"), item(1, b"AB", b"\xFF")],
        vec![item(2, b"MP3GAIN_UNDO", b"+003,-7,W"), item(5, b"ab", b"1")],
        vec![item(7, b"mp3gain_minmax", b"094,168"), item(3, b"REPLAYGAIN_TRACK_GAIN", b"-3.500000 dB")],
    ];
    areas.iter().map(|items| (area_of(items), items.len())).collect()
}

/// Files that pass the gate: with a header, without one, and before an ID3v1 block.
pub fn small_files() -> Vec<Vec<u8>> {
    let good = [
        vec![item(2, b"Ab", b"\xFF\xD8"), item(0, b"CD", b"e")],
        vec![item(3, b"MP3GAIN_UNDO", b"+003,-7,W"), item(5, b"aB", b"1"), item(2, b"MP3GAIN_MINMAX", b"9,250")],
        vec![item(1, b"REPLAYGAIN_TRACK_GAIN", b"-3.500000 dB"), item(4, b"Replaygain_Track_Peak", b"0.9")],
    ];
    let id3v1 = [&b"TAG"[..], &[0; 125]].concat();
    let mut files: Vec<_> = good.iter().map(|items| replaced(b"audio", items)).collect();
    let area = area_of(&good[1]);
    files.push([&area[..], &block(area.len() as u32 + 32, 3, 0, 2000)].concat());
    files.push(replaced(&id3v1, &good[0]));
    files
}

/// Files of one item each, with flags of every kind and a value that is not UTF-8.
pub fn each_type() -> Vec<Vec<u8>> {
    (0..12).chain([0x8000_0000]).map(|flags| replaced(b"audio", &[item(flags, b"AB", b"c\xFF")])).collect()
}

const LEVELS: [Level; 4] = [
    Level { left: 5, right: 5, wrap: false },
    Level { left: 6, right: 6, wrap: true },
    Level { left: 0, right: 0, wrap: true },
    Level { left: 2, right: -1, wrap: true },
];

fn some_file(rng: &mut Rng) -> Vec<u8> {
    let n = rng.below(6);
    let items: Vec<_> = (0..n).map(|_| if rng.below(4) == 0 { some_item(rng) } else { some_gated(rng) }).collect();
    damaged(rng, &items)
}

/// A file with these items, with and without ID3v1, one in four with a byte changed.
fn damaged(rng: &mut Rng, items: &[Item]) -> Vec<u8> {
    let length = rng.pick(&[0, 1, 32, 100, 128]);
    let mut front = rng.bytes(length);
    if rng.below(3) == 0 {
        front.extend_from_slice(b"TAG");
        front.resize(length + 128, 0);
    }
    let mut file = replaced(&front, items);
    if rng.below(4) == 0 && !file.is_empty() {
        let at = file.len() - 1 - rng.below(file.len().min(200));
        file[at] = rng.next() as u8;
    }
    file
}

/// An item that mostly passes the gate.
fn some_gated(rng: &mut Rng) -> Item {
    let mut i = some_item(rng);
    i.flags = rng.below(6) as u32;
    if kind(i.flags) == BINARY {
        return i;
    }
    converted(i)
}

// ---- the comparison

/// Where all flags are zero this reading is the published Rust's.
fn as_published(c: &mut Compare) {
    let same = |good: bool, what: &str, bytes: &[u8]| assert!(good, "{what} is read otherwise at {}", hex(bytes));
    for _ in 0..c.count / 40 {
        let n = c.rng.below(7);
        let items: Vec<_> = (0..n).map(|_| Item { flags: 0, ..converted(some_item(&mut c.rng)) }).collect();
        let (area, op) = (area_of(&items), some_op(&mut c.rng));
        same(items::published(&area, n, &op) == answer(&area, n, &op), "a call on an area", &area);
        let (steps, wrap) = (c.rng.below(521) as i32 - 260, c.rng.below(2) == 0);
        let moved = shift::published(&area, n, steps, wrap);
        same(moved.is_none_or(|m| m == shift_area(&area, n, steps, wrap)), "a shift", &area);
        let file = damaged(&mut c.rng, &items);
        if in_file(&file) {
            continue;
        }
        same(ape::published_read(&file) == read(&file), "read_ape_tag", &file);
        same(listing::published(&file) == list(&file), "list_tag", &file);
        same(edit::gate_places(&file) == gate_places(&file), "gate", &file);
        let (key, value) = (some_key(&mut c.rng), some_value(&mut c.rng));
        same(edit::published_set(&file, &key, &value) == set_ape_item(&file, &key, &value), "set_ape_item", &file);
        same(edit::published_remove(&file, &key) == remove_ape_item(&file, &key), "remove_ape_item", &file);
        let (left, right) = (some_gains(&mut c.rng, 5), some_gains(&mut c.rng, 5));
        let call = level::some_level(&mut c.rng, &file);
        let levelled = level::published(&file, &left, &right, call);
        same(levelled.is_none_or(|l| l == level(&file, &left, &right, call)), "level", &file);
        let undone = edit::in_domain(&file).then(|| edit::published_undo(&file, &left, &right));
        same(undone.is_none_or(|u| u == undo(&file, &left, &right)), "undo", &file);
    }
}

/// The smallest files of docs/DIFFERENCES.md: what the published Rust reads there, and what the library does.
fn differences(c: &mut Compare) {
    for (flags, value, theirs, length) in [(1, &b""[..], "", 41), (2, b"\xFF", "\u{FFFD}", 42)] {
        let area = area_of(&[item(flags, b"", value)]);
        let file = [&area[..], &block(area.len() as u32 + 32, 1, 0, 2000)].concat();
        let published = crate::ape::read_ape_tag(&file).unwrap();
        c.inputs += 1;
        assert_eq!((file.len(), published.len(), published.items[0].value()), (length, 1, theirs));
        assert_eq!(ape::our_read(&file), Some((1, area)));
    }
}

fn compare(c: &mut Compare) {
    differences(c);
    as_published(c);
    let ops = each_op();
    // All flags, each with texts that are UTF-8 and that are not, alone and behind another item.
    for flags in every_flags() {
        for key in TEXTS {
            for value in TEXTS {
                let one = item(flags, key, value);
                let two = vec![item(1, b"MP3GAIN_MINMAX", b"094,168"), one.clone()];
                for items in [vec![one], two] {
                    on_area(c, &area_of(&items), items.len(), &ops, 7);
                    on_file(c, &replaced(b"audio", &items), b"aB", b"new", &LEVELS);
                }
            }
        }
        // The items that level, undo and a shift look at, whatever their type.
        for key in EIGHT {
            for value in STORED {
                let items = vec![item(flags, key.as_bytes(), value.as_bytes())];
                on_area(
                    c,
                    &area_of(&items),
                    1,
                    &[Op::GetUndoGain, Op::SetMinmax(1, 2), Op::SetUndoGain(1, 2, true)],
                    0,
                );
                on_file(c, &replaced(b"audio", &items), key.as_bytes(), value.as_bytes(), &LEVELS);
            }
        }
    }
    // Every cut and every change of one byte, of areas and of files; wrong counts.
    for (area, count) in small_areas() {
        for count in [0, 1, 2, 3, 4, 1 << 32, usize::MAX] {
            on_area(c, &area, count, &ops, 7);
        }
        for at in 0..area.len() {
            on_area(c, &area[..at], count, &ops, 7);
            for value in 0..=255 {
                let mut other = area.clone();
                other[at] = value;
                on_area(c, &other, count, &ops, 7);
            }
        }
    }
    for file in small_files() {
        for at in 0..file.len() {
            on_file(c, &file[..at], b"Ab", b"new", &LEVELS);
            on_file(c, &file[at..], b"Ab", b"new", &LEVELS);
            for value in 0..=255 {
                let mut other = file.clone();
                other[at] = value;
                on_file(c, &other, b"Ab", b"new", &LEVELS[..2]);
            }
        }
    }
    for file in edge_files() {
        on_file(c, &file, b"Ab", b"new", &LEVELS);
    }
    limits(c);
    for _ in 0..c.count / 40 {
        let n = c.rng.below(7);
        let items: Vec<_> = (0..n).map(|_| some_item(&mut c.rng)).collect();
        let ops: Vec<_> = (0..4).map(|_| some_op(&mut c.rng)).collect();
        let steps = c.rng.below(521) as i32 - 260;
        let mut area = area_of(&items);
        on_area(c, &area, n, &ops, steps);
        if !area.is_empty() {
            let at = c.rng.below(area.len());
            area[at] = c.rng.next() as u8;
            on_area(c, &area, n, &ops[..1], steps);
        }
        let file = some_file(&mut c.rng);
        let (key, value) = (some_key(&mut c.rng), some_value(&mut c.rng));
        let (step, wrap) = (c.rng.below(25) as i32 - 12, c.rng.below(2) == 0);
        on_file(c, &file, &key, &value, &[by(step, step, wrap), by(step, 1, wrap)]);
    }
    let mut lists = 0;
    while lists < c.count / 100 {
        lists += restored(c) as u64;
    }
    println!("flags: {lists} lists of calls on files with pictures, each undone to the byte");
}

/// A picture counts for the bytes of the items: one that fills them is kept, and one byte more is refused.
fn limits(c: &mut Compare) {
    for n in 32_700..=32_760 {
        let file = replaced(b"audio", &[item(2, b"Cover", &vec![0xFF; n])]);
        on_file(c, &file, b"AB", b"", &LEVELS[..1]);
    }
    let large = replaced(b"audio", &[item(2, b"Cover", &vec![0xFF; 40_000])]);
    assert_eq!(gate_places(&large), Err(8));
    on_file(c, &large, b"AB", b"", &LEVELS);
}

/// Levels and edits of a file with pictures, then an undo: the file is the one that the edits alone give. True where a level was accepted.
fn restored(c: &mut Compare) -> bool {
    let rng = &mut c.rng;
    let n = rng.below(5);
    let mut book: Vec<_> = (0..1 + n).map(|_| some_kept(rng)).collect();
    let length = rng.pick(&[0, 5, 31]);
    let (front, back) =
        (vec![0x55; length], if rng.below(2) == 0 { vec![] } else { [&b"TAG"[..], &[7; 125]].concat() });
    let whole_of = |items: &[Item]| [&front[..], &serialized(items), &back].concat();
    let mut file = whole_of(&book);
    let (mut left, right) = (some_gains(rng, 5), some_gains(rng, 5));
    left.push(rng.next() as u8);
    // Under W every gain is back.
    let (mut l, mut r, mut levels) = (left.clone(), right.clone(), 0);
    let mut told = hex(&file);
    for _ in 0..1 + c.rng.below(6) {
        let rng = &mut c.rng;
        let room = file.len() + 300;
        if rng.below(2) == 0 {
            let step = |rng: &mut Rng| rng.below(511) as i32 - 255;
            let (x, same) = (step(rng), rng.below(2) == 0);
            let call = by(x, if same { x } else { step(rng) }, true);
            let done = in_room(&l, &r, room, |l, r, out| level::library::level(&file, l, r, call, out));
            let done = done.unwrap_or_else(|n| panic!("{call:?} is refused with {n} on {}", hex(&file)));
            (file, l, r, levels) = (done.file, done.left, done.right, levels + 1);
            told += &format!(", {call:?}");
            continue;
        }
        let key = match rng.below(2) {
            0 => rng.pick(&[&b"Title"[..], b"AB", b"Cover Art (front)"]).to_vec(),
            _ => some_kept(rng).key,
        };
        if refused(&Op::Get(key.clone())).is_err() {
            continue;
        }
        let mut out = vec![0; room + key.len()];
        let n = if rng.below(2) == 0 {
            set(&mut book, &key, b"new");
            edit::library::set_ape_item(&file, &key, b"new", &mut out)
        } else {
            remove(&mut book, &key);
            edit::library::remove_ape_item(&file, &key, &mut out)
        };
        out.truncate(n.unwrap_or_else(|n| panic!("an edit of {} is refused with {n} on {}", hex(&key), hex(&file))));
        file = out;
        told += &format!(", edit of {}", hex(&key));
    }
    if levels == 0 {
        return false;
    }
    let undone = in_room(&l, &r, file.len(), |l, r, out| edit::library::undo(&file, l, r, out));
    c.inputs += 1;
    let want = Levelled { file: whole_of(&book), left, right, peaks: 0 };
    assert!(undone == Ok(want), "undo does not give back {told}");
    true
}
