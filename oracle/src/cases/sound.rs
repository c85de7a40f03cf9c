//! The gains in the sound of an MP3. The library is held to a second reading of request 5, written from its words and the tables of
//! ISO/IEC 11172-3 and 13818-3, and to `frame.rs` of the published source where both take a header.

use super::Case;
use crate::ape::reach;
use crate::frame::{
    apply_gain_to_data, calculate_gain_locations, parse_header, read_gain_at, scan_gain_range, GainLocation, GainMode,
    MAX_GAIN_LOCATIONS,
};
use crate::tools::{hex, Bench, Compare, Record, Rng};
use std::hint::black_box;

pub const CASE: Case = Case { name: "sound", record, compare, bench };

/// The exported function, as Rust.
mod library {
    extern "C" {
        fn zib_read_gains(
            file: *const u8,
            file_length: usize,
            left: *mut u8,
            left_length: usize,
            right: *mut u8,
            right_length: usize,
            left_count: *mut usize,
            right_count: *mut usize,
        ) -> u32;
        fn zib_level_mp3(
            file: *const u8,
            file_length: usize,
            left_steps: i32,
            right_steps: i32,
            mode: u32,
            out: *mut u8,
            out_length: usize,
            written: *mut usize,
            peaks: *mut usize,
        ) -> u32;
        fn zib_undo_mp3(
            file: *const u8,
            file_length: usize,
            out: *mut u8,
            out_length: usize,
            written: *mut usize,
            peaks: *mut usize,
        ) -> u32;
        fn zib_level(
            file: *const u8,
            file_length: usize,
            left: *mut u8,
            left_length: usize,
            right: *mut u8,
            right_length: usize,
            left_steps: i32,
            right_steps: i32,
            wrap: bool,
            out: *mut u8,
            out_length: usize,
            written: *mut usize,
            peaks: *mut usize,
        ) -> u32;
        fn zib_undo(
            file: *const u8,
            file_length: usize,
            left: *mut u8,
            left_length: usize,
            right: *mut u8,
            right_length: usize,
            out: *mut u8,
            out_length: usize,
            written: *mut usize,
            peaks: *mut usize,
        ) -> u32;
        fn zib_resolve_mode(file: *const u8, file_length: usize, mode: u32, resolved: *mut u32) -> u32;
    }

    /// The length of a file that was written and its count of peaks, or the refusal, which leaves both lent numbers.
    type Written = Result<(usize, usize), u32>;

    fn written(call: impl FnOnce(&mut usize, &mut usize) -> u32) -> Written {
        let (mut n, mut peaks) = (usize::MAX, usize::MAX);
        let reply = call(&mut n, &mut peaks);
        if reply == 0 {
            return Ok((n, peaks));
        }
        assert_eq!((n, peaks), (usize::MAX, usize::MAX), "a refused call changed a lent number");
        Err(reply)
    }

    // SAFETY of the calls below: pointers and lengths of slices; the lent numbers live through the call.

    pub fn level_mp3(file: &[u8], steps: [i32; 2], mode: u32, out: &mut [u8]) -> Written {
        written(|n, peaks| unsafe {
            zib_level_mp3(file.as_ptr(), file.len(), steps[0], steps[1], mode, out.as_mut_ptr(), out.len(), n, peaks)
        })
    }

    pub fn undo_mp3(file: &[u8], out: &mut [u8]) -> Written {
        written(|n, peaks| unsafe { zib_undo_mp3(file.as_ptr(), file.len(), out.as_mut_ptr(), out.len(), n, peaks) })
    }

    /// Level on lists of gains, by a mode's number.
    pub fn level(file: &[u8], gains: &mut [Vec<u8>; 2], steps: [i32; 2], mode: u32, out: &mut [u8]) -> Written {
        let [left, right] = gains;
        let mut resolved = 0;
        written(|n, peaks| unsafe {
            zib_resolve_mode(file.as_ptr(), file.len(), mode, &mut resolved);
            let (l, r) = (left.as_mut_ptr(), right.as_mut_ptr());
            let (o, wrap) = (out.as_mut_ptr(), resolved == 1);
            zib_level(
                file.as_ptr(),
                file.len(),
                l,
                left.len(),
                r,
                right.len(),
                steps[0],
                steps[1],
                wrap,
                o,
                out.len(),
                n,
                peaks,
            )
        })
    }

    pub fn undo(file: &[u8], gains: &mut [Vec<u8>; 2], out: &mut [u8]) -> Written {
        let [left, right] = gains;
        written(|n, peaks| unsafe {
            let (l, r) = (left.as_mut_ptr(), right.as_mut_ptr());
            zib_undo(file.as_ptr(), file.len(), l, left.len(), r, right.len(), out.as_mut_ptr(), out.len(), n, peaks)
        })
    }

    /// How many gains there are on either side, or the refusal, which leaves both lent numbers.
    pub fn read_gains(file: &[u8], left: &mut [u8], right: &mut [u8]) -> Result<(usize, usize), u32> {
        let (mut m, mut k) = (usize::MAX, usize::MAX);
        // SAFETY: pointers and lengths of slices; the lent numbers live through the call.
        let reply = unsafe {
            let (f, l, r) = (file.as_ptr(), left.as_mut_ptr(), right.as_mut_ptr());
            zib_read_gains(f, file.len(), l, left.len(), r, right.len(), &mut m, &mut k)
        };
        if reply == 0 {
            return Ok((m, k));
        }
        assert_eq!((m, k), (usize::MAX, usize::MAX), "a refused call changed a lent number");
        Err(reply)
    }
}

/// A frame that counts: where it starts, its bytes, whether it has a checksum, and the bits where the gains of either side begin.
struct Frame {
    at: usize,
    size: usize,
    checksum: bool,
    gains: [Vec<usize>; 2],
}

/// So many bits from a bit on, the most significant first.
fn bits(bytes: &[u8], from: usize, count: usize) -> usize {
    (from..from + count).fold(0, |n, i| n * 2 + (bytes[i / 8] >> (7 - i % 8) & 1) as usize)
}

const KILOBITS: [[usize; 14]; 2] = [
    [8, 16, 24, 32, 40, 48, 56, 64, 80, 96, 112, 128, 144, 160],
    [32, 40, 48, 56, 64, 80, 96, 112, 128, 160, 192, 224, 256, 320],
];
const HERTZ: [[usize; 3]; 2] = [[22_050, 24_000, 16_000], [44_100, 48_000, 32_000]];

/// The frame whose header stands at a place.
fn header(audio: &[u8], at: usize) -> Option<Frame> {
    if audio[at] != 0xFF || audio.len() < at + 4 || bits(audio, 8 * at, 12) != 0xFFF {
        return None;
    }
    let field = |from: usize, count: usize| bits(audio, 8 * at + from, count);
    let (id, layer, protection) = (field(12, 1), field(13, 2), field(15, 1));
    let (rate, sampling, padding) = (field(16, 4), field(20, 2), field(22, 1));
    let (mode, emphasis) = (field(24, 2), field(30, 2));
    if layer != 1 || !(1..15).contains(&rate) || sampling == 3 || emphasis == 2 {
        return None;
    }
    let (granules, channels) = (1 + id, if mode == 3 { 1 } else { 2 });
    let bits_a_frame = 576 * granules * KILOBITS[id][rate - 1] * 1000 / HERTZ[id][sampling];
    // Header and checksum; main_data_begin, private_bits and scfsi.
    let mut bit = 8 * at + 32 + 16 * (1 - protection);
    bit += match (id, channels) {
        (1, 1) => 9 + 5 + 4,
        (1, _) => 9 + 3 + 2 * 4,
        (_, 1) => 8 + 1,
        _ => 8 + 2,
    };
    let mut gains = [vec![], vec![]];
    for _ in 0..granules {
        for side in gains.iter_mut().take(channels) {
            // part2_3_length and big_values stand before global_gain, then scalefac_compress, window_switching_flag and the 22 bits
            // behind it, preflag, scalefac_scale and count1table_select.
            side.push(bit + 12 + 9);
            bit += 12 + 9 + 8 + if id == 1 { 4 + 1 + 22 + 1 + 1 + 1 } else { 9 + 1 + 22 + 1 + 1 };
        }
    }
    Some(Frame { at, size: bits_a_frame / 8 + padding, checksum: protection == 0, gains })
}

/// Every frame of audio, from the end of an ID3v2 tag on.
fn frames(audio: &[u8]) -> Vec<Frame> {
    let mut at = 0;
    if audio.starts_with(b"ID3") {
        let byte = |i: usize| audio.get(i).map_or(0, |&b| b as usize);
        at = 10 + (6..10).fold(0, |n, i| n << 7 | byte(i) & 0x7F) + if byte(5) & 0x10 != 0 { 10 } else { 0 };
    }
    let mut found = vec![];
    while at < audio.len() {
        match header(audio, at).filter(|f| f.at + f.size <= audio.len()) {
            Some(frame) => {
                at += frame.size;
                found.push(frame);
            }
            None => at += 1,
        }
    }
    found
}

/// The gains of either side of a file. Refusals 1, 15 and 16.
fn read_again(file: &[u8]) -> Result<[Vec<u8>; 2], u32> {
    if file.len() > 16_777_216 {
        return Err(1);
    }
    let audio = reach::parts(file).0;
    let found = frames(audio);
    if found.is_empty() {
        return Err(15);
    }
    if found.iter().any(|f| f.checksum) {
        return Err(16);
    }
    let side = |i: usize| found.iter().flat_map(|f| &f.gains[i]).map(|&bit| bits(audio, bit, 8) as u8).collect();
    Ok([side(0), side(1)])
}

/// Writes gains into the frames of a file's sound, bit by bit.
fn write_again(file: &[u8], gains: &[Vec<u8>; 2], out: &mut [u8]) {
    for (side, gains) in gains.iter().enumerate() {
        let places = frames(reach::parts(file).0).into_iter().flat_map(|f| f.gains[side].clone());
        for (bit, gain) in places.collect::<Vec<_>>().into_iter().zip(gains) {
            for i in 0..8 {
                let at = bit + i;
                let mask = 0x80 >> (at % 8);
                out[at / 8] = out[at / 8] & !mask | if gain >> (7 - i) & 1 == 1 { mask } else { 0 };
            }
        }
    }
}

/// What a call answers and leaves in an output of this length, which holds 0xA5 before it.
type Filed = (Result<(usize, usize), u32>, Vec<u8>);

/// Level on the lists that the second reading finds, with the gains that it leaves written back.
fn level_again(file: &[u8], steps: [i32; 2], mode: u32, room: usize) -> Filed {
    let mut out = vec![0xA5; room];
    let answer = if mode > 2 {
        Err(13)
    } else if file.len() > 16_777_216 {
        Err(1)
    } else if steps.iter().any(|s| !(-255..=255).contains(s)) {
        Err(2)
    } else {
        read_again(file).and_then(|mut gains| {
            let done = library::level(file, &mut gains, steps, mode, &mut out)?;
            write_again(file, &gains, &mut out);
            Ok(done)
        })
    };
    (answer, out)
}

fn undo_again(file: &[u8], room: usize) -> Filed {
    let mut out = vec![0xA5; room];
    let answer = read_again(file).and_then(|mut gains| {
        let done = library::undo(file, &mut gains, &mut out)?;
        write_again(file, &gains, &mut out);
        Ok(done)
    });
    (answer, out)
}

/// Levels one after another, refused ones too, and an undo after each.
fn levels(c: &mut Compare, first: &[u8]) {
    let mut file = first.to_vec();
    for _ in 0..1 + c.rng.below(3) {
        let small = |rng: &mut Rng| rng.below(41) as i32 - 20;
        let (left, right) = match c.rng.below(8) {
            0 => (c.rng.below(520) as i32 - 260, small(&mut c.rng)),
            1 => (small(&mut c.rng), c.rng.below(520) as i32 - 260),
            2 => (small(&mut c.rng), small(&mut c.rng)),
            _ => {
                let steps = small(&mut c.rng);
                (steps, steps)
            }
        };
        let mode = c.rng.pick(&[0, 0, 1, 2, 2, 3]);
        let room = if c.rng.below(10) == 0 { c.rng.below(file.len() + 200) } else { file.len() + 400 };
        let call = |s: &[u8]| {
            let mut out = vec![0xA5; room];
            (library::level_mp3(s, [left, right], mode, &mut out), out)
        };
        c.bytes("level_mp3", &file, |s| level_again(s, [left, right], mode, room), call);
        if let (Ok((n, _)), out) = call(&file) {
            file = out[..n].to_vec();
        }
        let room = if c.rng.below(10) == 0 { c.rng.below(file.len() + 1) } else { file.len() + 11 };
        let undo = |s: &[u8]| {
            let mut out = vec![0xA5; room];
            (library::undo_mp3(s, &mut out), out)
        };
        c.bytes("undo_mp3", &file, |s| undo_again(s, room), undo);
    }
}

/// What a call answers and leaves in lists of these lengths, which hold 0xA5 before it.
type Left = (Result<(usize, usize), u32>, Vec<u8>, Vec<u8>);

fn expected(file: &[u8], room: [usize; 2]) -> Left {
    let mut lists = room.map(|n| vec![0xA5; n]);
    let answer = read_again(file).map(|gains| {
        for (list, gains) in lists.iter_mut().zip(&gains) {
            let n = list.len().min(gains.len());
            list[..n].copy_from_slice(&gains[..n]);
        }
        (gains[0].len(), gains[1].len())
    });
    let [left, right] = lists;
    (answer, left, right)
}

fn ours(file: &[u8], room: [usize; 2]) -> Left {
    let [mut left, mut right] = room.map(|n| vec![0xA5; n]);
    (library::read_gains(file, &mut left, &mut right), left, right)
}

fn both(c: &mut Compare, what: &str, file: &[u8], room: [usize; 2]) {
    c.bytes(what, file, |s| expected(s, room), |s| ours(s, room));
}

/// A frame of a header's length whose other bytes are below 128, so that no frame begins in it.
fn body(rng: &mut Rng, word: u32, size: usize) -> Vec<u8> {
    let mut file: Vec<u8> = rng.bytes(size).iter().map(|b| b & 0x7F).collect();
    file[..4].copy_from_slice(&word.to_be_bytes());
    file
}

/// A header that is valid here, its frame not too long.
fn valid_word(rng: &mut Rng, checksum: bool) -> u32 {
    loop {
        let word = 0xFFF2_0000 | rng.next() as u32 & 0x0009_FFFF | if checksum { 0 } else { 0x0001_0000 };
        if header(&word.to_be_bytes(), 0).is_some() {
            return word;
        }
    }
}

fn headers(c: &mut Compare) {
    let (mut valid, mut published) = (0, 0);
    let first = if c.every { 0xFF00_0000 } else { 0xFFE0_0000u32 };
    for word in first..=u32::MAX {
        let bytes = word.to_be_bytes();
        let theirs = parse_header(&bytes);
        published += theirs.is_some() as u32;
        // The published source looks at eleven sync bits, and not at the emphasis.
        let here = theirs.filter(|_| word >> 20 == 0xFFF && word & 3 != 2);
        let frame = header(&bytes, 0);
        let size = |f: &Frame| f.size;
        c.numbers(
            "a valid header, its frame's length and its checksum (header)",
            &[word as i64],
            |_| here.as_ref().map(|h| (h.frame_size, h.has_crc)),
            |_| frame.as_ref().map(|f| (f.size, f.checksum)),
        );
        let Some(h) = here else {
            if word & 0xFFF0_0000 == 0xFFF0_0000 || word % 61 == 0 {
                let mut file = vec![0; 1441];
                file[..4].copy_from_slice(&bytes);
                both(c, "read_gains of a header that is not valid", &file, [4, 4]);
            }
            continue;
        };
        valid += 1;
        let n = frame.as_ref().map_or(0, size);
        let file = body(&mut c.rng, word, n);
        let mut places = [GainLocation { byte_offset: 0, bit_offset: 0 }; MAX_GAIN_LOCATIONS];
        let count = calculate_gain_locations(0, &h, &mut places);
        let mut in_order: Vec<usize> = frame.iter().flat_map(|f| f.gains.iter().flatten().copied()).collect();
        in_order.sort();
        c.numbers(
            "the places of a frame's gains, and what stands there (header)",
            &[word as i64],
            |_| {
                let at = |p: &GainLocation| (8 * p.byte_offset + p.bit_offset as usize, read_gain_at(&file, p));
                places[..count].iter().map(at).collect::<Vec<_>>()
            },
            |_| in_order.iter().map(|&bit| (bit, bits(&file, bit, 8) as u8)).collect(),
        );
        both(c, "read_gains of one frame", &file, [4, 4]);
        both(c, "read_gains of one frame without its last byte", &file[..n - 1], [4, 4]);
    }
    println!("sound: {valid} headers are valid here, and {published} in the published source");
    assert_eq!(valid, 129_024, "headers that are valid");
}

/// Frames, junk, cut frames, chance headers and tags one after another.
fn random_file(rng: &mut Rng) -> Vec<u8> {
    let mut file = vec![];
    if rng.below(4) == 0 {
        let size = rng.below(200);
        file.extend([b'I', b'D', b'3', 4, 0, rng.pick(&[0, 0x10, 0xEF, 0xFF]), 0, 0x80, (size >> 7) as u8, size as u8]);
        let n = rng.below(300);
        file.extend(rng.bytes(n));
    }
    let checksums = rng.below(8) == 0;
    for _ in 0..rng.below(8) {
        match rng.below(8) {
            0 => {
                let n = rng.below(80);
                file.extend(rng.bytes(n));
            }
            1 => file.extend(vec![0xFF; rng.below(40)]),
            2 => file.extend([0xFF, rng.next() as u8, rng.next() as u8, rng.next() as u8]),
            _ => {
                let word = valid_word(rng, checksums);
                let n = header(&word.to_be_bytes(), 0).map_or(4, |f| f.size);
                let mut frame = body(rng, word, n);
                if rng.below(3) == 0 {
                    frame[4..].iter_mut().for_each(|b| *b |= (rng.next() as u8) & 0x80);
                }
                if rng.below(6) == 0 {
                    frame.truncate(4 + rng.below(n - 4));
                }
                file.extend(frame);
            }
        }
    }
    match rng.below(6) {
        0 => {
            file.extend(b"TAG");
            file.extend(rng.bytes(125));
        }
        1 => file = reach::replace(&file, &crate::ape::ApeTag::new()),
        2 => {
            let mut tag = crate::ape::ApeTag::new();
            tag.set("Title", "x");
            file = reach::replace(&file, &tag);
        }
        _ => {}
    }
    file
}

fn compare(c: &mut Compare) {
    headers(c);
    for file in [&b""[..], b"ID3", b"ID3\x04\0\x10\0\0\0\0", &[0xFF; 5000], &[0; 16_777_217]] {
        both(c, "read_gains", file, [3, 3]);
    }
    for _ in 0..c.count {
        let file = random_file(&mut c.rng);
        let room = [c.rng.below(24), c.rng.below(24)];
        both(c, "read_gains of frames, junk and tags", &file, room);
        // A copy with some bytes damaged.
        let mut damaged = file.clone();
        for _ in 0..c.rng.below(6).min(damaged.len()) {
            let at = c.rng.below(damaged.len());
            damaged[at] = c.rng.next() as u8;
        }
        both(c, "read_gains of a damaged copy", &damaged, room);
        levels(c, &file);
    }
}

/// A line for a small file, if its gains are few.
fn record(r: &mut Record) {
    let hex_or_none = |bytes: &[u8]| if bytes.is_empty() { "-".into() } else { hex(bytes) };
    let mut line = |file: &[u8]| {
        let answer = read_again(file);
        let (reply, [left, right]) = match answer {
            Ok(gains) => (0, gains),
            Err(reply) => (reply, [vec![], vec![]]),
        };
        let words = [hex_or_none(file), reply.to_string(), hex_or_none(&left), hex_or_none(&right)];
        r.line(&[format!("gains {}", words.join(" "))]);
    };
    let mut rng = Rng::new(5);
    // One frame of each kind: version, channels, checksum; whole, and without its last byte.
    for word in
        [0xFFFB_5064u32, 0xFFFB_50C4, 0xFFF3_4064, 0xFFF3_14C0, 0xFFFA_5064, 0xFFF2_14C0, 0xFFFB_5266, 0xFFE3_5064]
    {
        let size = header(&word.to_be_bytes(), 0).map_or(300, |f| f.size);
        let frame = body(&mut rng, word, size);
        line(&frame);
        line(&frame[..size - 1]);
    }
    let mut lines = 0;
    while lines < 200 {
        let file = random_file(&mut rng);
        if file.len() <= 600 {
            line(&file);
            lines += 1;
        }
    }
}

fn bench(b: &mut Bench) {
    // Frames of 128 kilobits at 44,100 Hz, joint stereo, up to 16 MiB less room for a tag.
    let mut rng = Rng::new(5);
    let mut data = vec![];
    while data.len() < 16_777_216 - 2000 {
        data.extend(body(&mut rng, 0xFFFB_9064, 417));
    }
    let mut out = vec![0; data.len() + 2000];
    b.row(
        "read_gains counts them, 16 MiB of 417-byte frames (Rust: scan_gain_range)",
        || scan_gain_range(black_box(&data)).map_or(0, |r| r.0),
        || library::read_gains(black_box(&data), &mut [], &mut []).map_or(0, |r| r.0),
    );
    let mut copy = data.clone();
    b.row(
        "level_mp3, 16 MiB of 417-byte frames (Rust: a copy, and apply_gain_to_data)",
        || {
            copy.copy_from_slice(black_box(&data));
            apply_gain_to_data(&mut copy, 2, GainMode::Wrapping, None).frames
        },
        || library::level_mp3(black_box(&data), [2, 2], 1, &mut out).map_or(0, |r| r.0),
    );
    let written = library::level_mp3(&data, [2, 2], 1, &mut out).map_or(0, |r| r.0);
    let levelled = out[..written].to_vec();
    b.row(
        "undo_mp3, 16 MiB of 417-byte frames (Rust: a copy, and apply_gain_to_data)",
        || {
            copy.copy_from_slice(black_box(&levelled[..data.len()]));
            apply_gain_to_data(&mut copy, -2, GainMode::Wrapping, None).frames
        },
        || library::undo_mp3(black_box(&levelled), &mut out).map_or(0, |r| r.0),
    );
}
