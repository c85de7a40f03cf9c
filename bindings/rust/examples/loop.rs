//! Levels and undoes an MP3 loop in its file.
//!
//!     loop level FILE LEFT RIGHT [N|W]    move the gains of either side by so many steps; N, the default, holds them within 0..255
//!     loop undo FILE                      bring them back, and take mp3gain's items out of the tag
//!     loop list FILE                      list the tag in the last 16,384 bytes
//!
//! The file is replaced as a whole, or not at all. A link is followed; owner, mode and times are kept; a read-only file is refused. Where the file
//! has a second name (a hard link), that name keeps the old bytes.
//!
//! An MP3 with one channel moves by LEFT, which is stored for both sides. In joint stereo the two channels may be the sum and the difference of
//! left and right, so both have to move by the same number of steps. What is no frame is left as it is, and a line says how many bytes that were.

use std::ffi::OsString;
use std::fs::{self, File, FileTimes, Metadata, OpenOptions};
use std::io::{self, Read, Seek, SeekFrom, Write};
use std::os::unix::fs::{fchown, MetadataExt, OpenOptionsExt};
use std::path::Path;
use std::process::ExitCode;
use zibrunnos::{find_footer, level, list_tag, read_u32_le, split_tag, undo, Mode, Refusal};

/// Where a frame stands, how long it is, and what its header says of its channels and its side information.
#[derive(Debug, PartialEq)]
struct Frame {
    at: usize,
    len: usize,
    side: usize,
    side_len: usize,
    crc: bool,
    mpeg1: bool,
    channels: usize,
    joint: bool,
}

impl Frame {
    /// The layer III frame at this place, if it ends by the end of the sound.
    fn at(sound: &[u8], at: usize) -> Option<Frame> {
        let h = sound.get(at..at + 4)?;
        // Eleven bits to find it by, no reserved version, layer III, no reserved emphasis.
        if h[0] != 0xFF || h[1] & 0xE6 != 0xE2 || h[1] & 0x18 == 0x08 || h[3] & 3 == 2 {
            return None;
        }
        let mpeg1 = h[1] & 0x18 == 0x18;
        const RATES_1: [usize; 15] = [0, 32, 40, 48, 56, 64, 80, 96, 112, 128, 160, 192, 224, 256, 320];
        const RATES_2: [usize; 15] = [0, 8, 16, 24, 32, 40, 48, 56, 64, 80, 96, 112, 128, 144, 160];
        let rates = if mpeg1 { RATES_1 } else { RATES_2 };
        let bits = *rates.get(h[2] as usize >> 4).filter(|&&r| r > 0)? * 1000;
        let hertz = *[44_100, 48_000, 32_000].get(h[2] as usize >> 2 & 3)? >> (3 - (h[1] as usize >> 3 & 3).max(1));
        let pad = h[2] as usize >> 1 & 1;
        let channels = if h[3] >> 6 == 3 { 1 } else { 2 };
        let crc = h[1] & 1 == 0;
        let side_len = match (mpeg1, channels) {
            (true, 2) => 32,
            (true, _) | (false, 2) => 17,
            (false, _) => 9,
        };
        let len = if mpeg1 { 144 } else { 72 } * bits / hertz + pad;
        let side = at + 4 + if crc { 2 } else { 0 };
        let joint = h[3] >> 6 == 1;
        (side + side_len <= at + len && at + len <= sound.len()).then_some(Frame {
            at,
            len,
            side,
            side_len,
            crc,
            mpeg1,
            channels,
            joint,
        })
    }

    /// Whether it holds an encoder's table in place of sound.
    fn is_table(&self, sound: &[u8]) -> bool {
        let at = self.side + self.side_len;
        sound.get(at..at + 4).is_some_and(|m| m == b"Xing" || m == b"Info")
    }

    /// Where the gains of a channel stand, in bits from the start of the side information.
    fn gains(&self, channel: usize) -> impl Iterator<Item = usize> {
        let (first, size, granules) = match (self.mpeg1, self.channels) {
            (true, 1) => (18, 59, 2),
            (true, _) => (20, 59, 2),
            (false, 1) => (9, 63, 1),
            (false, _) => (10, 63, 1),
        };
        let channels = self.channels;
        (0..granules).map(move |granule| first + (granule * channels + channel) * size + 21)
    }

    /// The check sum of the header's last two bytes and the side information.
    fn sum(&self, sound: &[u8]) -> u16 {
        let mut crc: u16 = 0xFFFF;
        for &b in sound[self.at + 2..self.at + 4].iter().chain(&sound[self.side..self.side + self.side_len]) {
            for bit in (0..8).rev() {
                let flips = (crc >> 15) as u8 ^ (b >> bit & 1) == 1;
                crc = crc << 1 ^ if flips { 0x8005 } else { 0 };
            }
        }
        crc
    }
}

fn get(side: &[u8], bit: usize) -> u8 {
    (u16::from_be_bytes([side[bit / 8], side[bit / 8 + 1]]) >> (8 - bit % 8)) as u8
}

fn put(side: &mut [u8], bit: usize, gain: u8) {
    let (at, shift) = (bit / 8, 8 - bit % 8);
    let kept = u16::from_be_bytes([side[at], side[at + 1]]) & !(0xFF << shift);
    side[at..at + 2].copy_from_slice(&(kept | (gain as u16) << shift).to_be_bytes());
}

/// How long the ID3v2 tag is that begins here.
fn id3v2(sound: &[u8]) -> Option<usize> {
    let h = sound.get(..10)?;
    let good = h.starts_with(b"ID3") && h[3] < 0xFF && h[4] < 0xFF && h[6..].iter().all(|b| b & 0x80 == 0);
    let size = h[6..].iter().fold(0, |n, &b| n << 7 | b as usize);
    let len = 10 + size + if h[5] & 0x10 != 0 { 10 } else { 0 };
    (good && len <= sound.len()).then_some(len)
}

/// The frames with sound, and how many bytes are neither a frame nor an ID3v2 tag. It goes from the end of one frame or tag to the next, and one
/// byte on where there is none. No gain and no check sum stands in a byte that this walk looks at, so an undo finds the frames that were levelled.
fn walk(sound: &[u8]) -> (Vec<Frame>, usize) {
    let (mut frames, mut left, mut at) = (Vec::new(), 0, 0);
    while at < sound.len() {
        if let Some(len) = id3v2(&sound[at..]) {
            at += len;
        } else if let Some(frame) = Frame::at(sound, at) {
            at += frame.len;
            if !frame.is_table(sound) {
                frames.push(frame);
            }
        } else {
            at += 1;
            left += 1;
        }
    }
    (frames, left)
}

/// The gains of one side, in the order of the sound.
fn gains(sound: &[u8], frames: &[Frame], channel: usize) -> Vec<u8> {
    let of = |f: &Frame| f.gains(channel).map(|bit| get(&sound[f.side..f.side + f.side_len], bit)).collect::<Vec<_>>();
    frames.iter().filter(|f| channel < f.channels).flat_map(of).collect()
}

/// Puts the gains of both sides back where they stood. A check sum changes by as much as that of the new bytes differs from that of the old ones:
/// one that was right stays right, and one that was wrong comes back with the undo.
fn put_gains(file: &mut [u8], frames: &[Frame], gains: [&[u8]; 2]) {
    let mut gains = gains.map(|list| list.iter());
    for f in frames {
        let before = f.sum(file);
        for (channel, list) in gains.iter_mut().enumerate().take(f.channels) {
            for (bit, gain) in f.gains(channel).zip(list.by_ref()) {
                put(&mut file[f.side..f.side + f.side_len], bit, *gain);
            }
        }
        if f.crc {
            let stored = u16::from_be_bytes([file[f.at + 4], file[f.at + 5]]);
            let sum = stored ^ before ^ f.sum(file);
            file[f.at + 4..f.at + 6].copy_from_slice(&sum.to_be_bytes());
        }
    }
}

/// What is asked for.
#[derive(Clone, Copy)]
pub enum Call {
    Level(i32, i32, Mode),
    Undo,
    List,
}

/// The file after a level or an undo, and what its owner should know.
pub fn changed(file: &[u8], call: Call) -> Result<(Vec<u8>, Vec<String>), String> {
    let refused = |r: Refusal| format!("{r} (refusal {})", r.number());
    // A frame that reaches into the tag is none: what stands there changes.
    let (sound, _) = split_tag(file).map_err(refused)?;
    let (frames, left_out) = walk(sound);
    if frames.is_empty() {
        return Err("it has no MP3 frame with sound".to_string());
    }
    let (mut left, mut right) = (gains(sound, &frames, 0), gains(sound, &frames, 1));
    let mut notes = Vec::new();
    let new = match call {
        Call::Level(l, mut r, mode) => {
            if right.is_empty() && l != r {
                r = l;
                notes.push(format!("it has one channel, which is moved by {l}"));
            }
            if l != r && frames.iter().any(|f| f.joint) {
                return Err("it is in joint stereo, so both sides have to move by the same number of steps".to_string());
            }
            level(file, &mut left, &mut right, l, r, mode)
        }
        Call::Undo => undo(file, &mut left, &mut right),
        Call::List => return Ok((file.to_vec(), notes)),
    };
    let mut new = new.map_err(refused)?;
    put_gains(&mut new.file, &frames, [&left, &right]);
    if let Call::Level(..) = call {
        // The undo has to find the same frames. It would not where a gain becomes part of what looks like an ID3v1 block in front of the tag.
        let (again, _) = split_tag(&new.file).map_err(refused)?;
        if again.len() != sound.len() || walk(again).0 != frames {
            return Err(
                "with these gains its end would look like an ID3v1 block, and an undo would miss it".to_string()
            );
        }
        match new.peaks {
            0 => {}
            1 => notes.push("1 peak in its tag was left as it was: it is still that from before".to_string()),
            n => notes.push(format!("{n} peaks in its tag were left as they were: they are still those from before")),
        }
    }
    match left_out {
        0 => {}
        1 => notes.push("1 byte is part of no whole MP3 frame and was left as it was".to_string()),
        n => notes.push(format!("{n} bytes are part of no whole MP3 frame and were left as they were")),
    }
    Ok((new.file, notes))
}

/// Replaces a file as a whole: what is new is written beside it, brought to the disk, and renamed.
fn replace(path: &Path, old: &Metadata, bytes: &[u8]) -> io::Result<()> {
    let beside = path.with_file_name(format!(".loop-{}.new", std::process::id()));
    let mut out = OpenOptions::new().write(true).create_new(true).mode(0o600).open(&beside)?;
    let mut write = || {
        out.write_all(bytes)?;
        let new = out.metadata()?;
        if (new.uid(), new.gid()) != (old.uid(), old.gid()) {
            fchown(&out, Some(old.uid()), Some(old.gid()))?;
        }
        out.set_permissions(old.permissions())?;
        out.set_times(FileTimes::new().set_accessed(old.accessed()?).set_modified(old.modified()?))?;
        out.sync_all()?;
        fs::rename(&beside, path)
    };
    write().inspect_err(|_| drop(fs::remove_file(&beside)))?;
    // The new name is brought to the disk too. The file is replaced by now, whether or not this works.
    if let Some(folder) = path.parent() {
        let _ = File::open(folder).and_then(|f| f.sync_all());
    }
    Ok(())
}

/// How many bytes are listed, from the end of a file.
const LISTED: u64 = 16_384;

/// The listing of the tag at the end of a file, which goes on before these bytes or does not.
fn listed(end: &[u8], goes_on: bool) -> Result<String, String> {
    if let Ok(Some(footer)) = find_footer(end) {
        let size = read_u32_le(end, footer + 12).unwrap_or(0) as usize;
        if goes_on && size > footer + 32 {
            return Err(format!(
                "its tag has {size} bytes by its footer; only the last 16,384 bytes of a file are listed"
            ));
        }
    }
    Ok(list_tag(end))
}

/// The last bytes of a file, at most so many.
fn last_bytes(path: &Path, most: u64) -> io::Result<Vec<u8>> {
    let mut file = File::open(path)?;
    let length = file.metadata()?.len();
    file.seek(SeekFrom::Start(length.saturating_sub(most)))?;
    let mut bytes = Vec::new();
    file.take(most).read_to_end(&mut bytes)?;
    Ok(bytes)
}

/// Does what is asked for: the text to print, and what the file's owner should know.
pub fn run(call: Call, name: &Path) -> Result<(String, Vec<String>), String> {
    let path = fs::canonicalize(name).map_err(|e| e.to_string())?;
    let about = fs::metadata(&path).map_err(|e| e.to_string())?;
    if !about.is_file() {
        return Err("it is no regular file".to_string());
    }
    if let Call::List = call {
        let end = last_bytes(&path, LISTED).map_err(|e| e.to_string())?;
        return Ok((listed(&end, about.len() > LISTED)?, Vec::new()));
    }
    // A user who may write everything is kept from it by the mode alone.
    if about.permissions().readonly() {
        return Err("it is read-only".to_string());
    }
    OpenOptions::new().write(true).open(&path).map_err(|e| format!("it cannot be written: {e}"))?;
    // One byte more than a file may have is enough to be refused.
    let file = last_bytes(&path, 16_777_217).map_err(|e| e.to_string())?;
    let (new, notes) = changed(&file, call).map_err(|why| format!("{why}; the file is as it was"))?;
    replace(&path, &about, &new).map_err(|e| format!("it cannot be replaced: {e}; the file is as it was"))?;
    Ok((String::new(), notes))
}

/// What the words of the command line ask for, and of which file.
pub fn call_of(words: &[OsString]) -> Result<(Call, &Path), String> {
    let usage = "usage: loop level FILE LEFT RIGHT [N|W] | loop undo FILE | loop list FILE";
    let steps = |word: &OsString| {
        let number = word.to_str().and_then(|w| w.parse().ok());
        number.ok_or_else(|| format!("{} is not a number of steps", word.display()))
    };
    match words {
        [what, name, left, right, rest @ ..] if what == "level" && rest.len() < 2 => {
            let mode = match rest.first().map(|m| m.to_str()) {
                None | Some(Some("N")) => Mode::Saturating,
                Some(Some("W")) => Mode::Wrapping,
                _ => return Err(usage.to_string()),
            };
            Ok((Call::Level(steps(left)?, steps(right)?, mode), Path::new(name)))
        }
        [what, name] if what == "undo" => Ok((Call::Undo, Path::new(name))),
        [what, name] if what == "list" => Ok((Call::List, Path::new(name))),
        _ => Err(usage.to_string()),
    }
}

fn main() -> ExitCode {
    let words: Vec<OsString> = std::env::args_os().skip(1).collect();
    let say = |text: String| drop(writeln!(io::stderr(), "{text}"));
    let (call, name) = match call_of(&words) {
        Ok(asked) => asked,
        Err(why) => {
            say(why);
            return ExitCode::from(2);
        }
    };
    match run(call, name) {
        Ok((text, notes)) => {
            notes.iter().for_each(|note| say(format!("loop: {}: {note}", name.display())));
            // Whoever reads the listing may stop early.
            drop(io::stdout().write_all(text.as_bytes()));
            ExitCode::SUCCESS
        }
        Err(why) => {
            say(format!("loop: {}: {why}", name.display()));
            ExitCode::FAILURE
        }
    }
}
