//! The example `loop_mp3`: short loops of frames made here, levelled and undone.

#[allow(dead_code)]
#[path = "../examples/loop_mp3.rs"]
mod program;

use program::{call_of, changed, run, Call};
use std::ffi::OsString;
use std::fs;
use std::os::unix::ffi::OsStringExt;
use std::os::unix::fs::{chown, symlink, MetadataExt, PermissionsExt};
use std::path::{Path, PathBuf};
use zibrunnos::{read_tag, set_item, Mode, Refusal};

const N: Mode = Mode::Saturating;
const W: Mode = Mode::Wrapping;

/// What the header of a frame says. Version 3 is MPEG 1, 2 is MPEG 2, 0 is MPEG 2.5; mode 0 is stereo, 1 joint stereo, 2 two channels, 3 one.
#[derive(Clone, Copy)]
struct Kind {
    version: u8,
    mode: u8,
    crc: bool,
}

const STEREO: Kind = Kind { version: 3, mode: 0, crc: false };
const MONO: Kind = Kind { version: 3, mode: 3, crc: false };

/// A generator of bytes.
struct Bytes(u64);

impl Bytes {
    fn next(&mut self) -> u8 {
        self.0 = self.0.wrapping_mul(6_364_136_223_846_793_005).wrapping_add(1_442_695_040_888_963_407);
        (self.0 >> 56) as u8
    }
}

/// A loop and where its gains stand: their frame, their channel and their first bit.
#[derive(Clone, Default)]
struct Loop {
    bytes: Vec<u8>,
    ends: Vec<usize>,
    gains: Vec<(usize, usize, usize)>,
}

impl Loop {
    /// Appends a frame with random side information, field by field as ISO/IEC 11172-3 and 13818-3 list them, and `fill` for its main data.
    fn frame(&mut self, kind: Kind, rng: &mut Bytes, mut fill: impl FnMut() -> u8) {
        let start = self.bytes.len();
        let channels = if kind.mode == 3 { 1 } else { 2 };
        // 32 kbit/s at 44.1 kHz, 16 at 22.05, 8 at 11.025.
        let (rate, len) = match kind.version {
            3 => (1, 104),
            2 => (2, 52),
            _ => (1, 52),
        };
        self.bytes.extend([0xFF, 0xE2 | kind.version << 3 | !kind.crc as u8, rate << 4, kind.mode << 6]);
        if kind.crc {
            self.bytes.extend([0, 0]);
        }
        let side = self.bytes.len();
        let mut bits = Vec::new();
        let mut field = |bits: &mut Vec<bool>, n: usize| bits.extend((0..n).map(|_| rng.next() & 1 == 1));
        let (granules, compress, flags) = if kind.version == 3 { (2, 4, 3) } else { (1, 9, 2) };
        // main_data_begin, private_bits, scfsi
        field(&mut bits, if kind.version == 3 { 9 } else { 8 });
        field(&mut bits, if kind.version == 3 { 7 - 2 * channels } else { channels });
        field(&mut bits, if kind.version == 3 { 4 * channels } else { 0 });
        for _ in 0..granules {
            for channel in 0..channels {
                // part2_3_length, big_values, global_gain, scalefac_compress, window switching with its 22 bits, the flags behind them
                field(&mut bits, 12 + 9);
                self.gains.push((self.ends.len(), channel, 8 * side + bits.len()));
                field(&mut bits, 8 + compress + 1 + 22 + flags);
            }
        }
        assert_eq!(bits.len() % 8, 0);
        self.bytes.extend(bits.chunks(8).map(|b| b.iter().fold(0, |n, &bit| n << 1 | bit as u8)));
        while self.bytes.len() < start + len {
            self.bytes.push(fill());
        }
        self.ends.push(self.bytes.len());
    }

    /// Frames of one kind.
    fn of(kind: Kind, n: usize, seed: u64) -> Loop {
        let (mut new, mut rng) = (Loop::default(), Bytes(seed));
        (0..n).for_each(|_| new.frame(kind, &mut rng, || 0x55));
        new
    }

    /// The bytes after a level of the frames that end by `end`.
    fn levelled(&self, end: usize, steps: [i32; 2], wrap: bool) -> Vec<u8> {
        let mut bytes = self.bytes.clone();
        for &(_, channel, bit) in self.gains.iter().filter(|gain| self.ends[gain.0] <= end) {
            let old = gain_at(&bytes, bit) as i32;
            let new = match (wrap, old) {
                (true, _) => (old + steps[channel]).rem_euclid(256),
                (false, 0) => 0,
                (false, _) => (old + steps[channel]).clamp(0, 255),
            };
            for i in 0..8 {
                let (at, mask) = ((bit + i) / 8, 0x80 >> ((bit + i) % 8));
                bytes[at] = if new >> (7 - i) & 1 == 1 { bytes[at] | mask } else { bytes[at] & !mask };
            }
        }
        bytes
    }
}

fn gain_at(bytes: &[u8], bit: usize) -> u8 {
    (bit..bit + 8).fold(0, |n, b| n << 1 | bytes[b / 8] >> (7 - b % 8) & 1)
}

fn level(file: &[u8], left: i32, right: i32, mode: Mode) -> Vec<u8> {
    changed(file, Call::Level(left, right, mode)).unwrap().0
}

fn undo(file: &[u8]) -> Vec<u8> {
    changed(file, Call::Undo).unwrap().0
}

/// How the example says a refusal.
fn refused(why: Refusal) -> String {
    format!("{why} (refusal {})", why.number())
}

fn item(file: &[u8], key: &str) -> String {
    let items = read_tag(file).unwrap().unwrap();
    String::from_utf8(items.get(key.as_bytes()).unwrap().unwrap().to_vec()).unwrap()
}

fn kinds() -> impl Iterator<Item = Kind> {
    [3, 2].into_iter().flat_map(|version| (0..4).map(move |mode| Kind { version, mode, crc: false }))
}

#[test]
fn every_kind_comes_back() {
    for (kind, seed) in kinds().zip(1..) {
        let new = Loop::of(kind, 5, seed);
        for (left, right, mode) in [(7, 7, N), (-100, -100, N), (200, 200, W), (7, -3, W), (0, 1, N)] {
            let steps = [left, if kind.mode == 3 { left } else { right }];
            let file = level(&new.bytes, left, right, mode);
            let moved = new.levelled(new.bytes.len(), steps, mode == W);
            assert_eq!(file[..moved.len()], moved);
            let sign = if mode == W { "W" } else { "N" };
            assert_eq!(item(&file, "MP3GAIN_UNDO"), format!("{:+04},{:+04},{sign}", -steps[0], -steps[1]));
            // Under N a gain that was held comes back changed.
            let held = |&(_, channel, bit): &(usize, usize, usize)| {
                let gain = gain_at(&new.bytes, bit) as i32;
                mode == N && gain > 0 && !(1..=255).contains(&(gain + steps[channel]))
            };
            assert_eq!(undo(&file) == new.bytes, !new.gains.iter().any(held));
        }
    }
}

#[test]
fn every_cut_comes_back() {
    let id3v1 = [&b"TAG"[..], &[b' '; 125]].concat();
    for kind in kinds() {
        let whole = Loop::of(kind, 3, 7);
        for n in 0..=whole.bytes.len() {
            let cut = &whole.bytes[..n];
            let tagged = set_item(cut, b"Title", b"Floor").unwrap();
            for file in [cut.to_vec(), tagged, [cut, &id3v1].concat()] {
                match changed(&file, Call::Level(5, 5, W)) {
                    Err(why) => {
                        assert!(n < whole.ends[0]);
                        assert_eq!(why, refused(Refusal::NoFrame));
                    }
                    Ok((new, _)) => {
                        assert_eq!(new[..n], whole.levelled(n, [5, 5], true)[..n]);
                        assert!(undo(&new) == file, "a loop cut to {n} bytes does not come back");
                    }
                }
            }
        }
    }
}

/// Main data of any bytes, many of them like the start of a frame: whatever the walk takes for a frame, the undo takes for one too.
#[test]
fn any_bytes_come_back() {
    let mut rng = Bytes(3);
    let (mut levelled, mut refused) = (0, 0);
    for turn in 0..3000 {
        let mut new = Loop::default();
        let kind = kinds().nth(turn % 8).unwrap();
        let mut main = Bytes(turn as u64);
        let mut fill =
            move || [0xFF, 0xFB, 0xE2, 0x10, 0x40, b'I', b'D', b'3', 0, main.next()][main.next() as usize % 10];
        for _ in 0..rng.next() % 4 {
            let junk: Vec<u8> = (0..rng.next() % 40).map(|_| fill()).collect();
            new.bytes.extend(junk);
            new.frame(kind, &mut rng, &mut fill);
        }
        new.bytes.truncate(new.bytes.len().saturating_sub(rng.next() as usize % 60));
        match changed(&new.bytes, Call::Level(9, 9, W)) {
            Ok((file, _)) => {
                levelled += 1;
                assert!(undo(&file) == new.bytes, "turn {turn} does not come back");
            }
            Err(_) => refused += 1,
        }
    }
    assert!(levelled > 1000 && refused > 100);
}

#[test]
fn it_goes_on_behind_junk_and_a_second_id3v2_tag() {
    let mut rng = Bytes(11);
    let mut new = Loop::default();
    // A tag whose body is a frame, which is no sound: it stands at the first byte.
    let mut inside = Loop::default();
    inside.frame(STEREO, &mut rng, || 0x55);
    new.bytes.extend([b"ID3\x04\0\0\0\0\0\x68", &inside.bytes[..]].concat());
    new.frame(STEREO, &mut rng, || 0x55);
    new.bytes.extend(b"some junk that is no frame");
    new.frame(STEREO, &mut rng, || 0x55);
    new.bytes.extend(b"ID3\x04\0\0\0\0\0\x10TIT2\0\0\0\x06\0\0\0Floor");
    new.frame(STEREO, &mut rng, || 0x55);
    let file = level(&new.bytes, 3, -3, W);
    assert_eq!(file[..new.bytes.len()], new.levelled(new.bytes.len(), [3, -3], true));
    assert_eq!(undo(&file), new.bytes);
}

/// An encoder's table is a frame. Its gains are 0: N leaves them, W moves them, and both come back.
#[test]
fn a_table_is_a_frame() {
    for word in [b"Xing", b"Info"] {
        let mut table = Loop::of(STEREO, 1, 1);
        table.bytes[4..36].fill(0);
        table.bytes[36..40].copy_from_slice(word);
        let n = table.bytes.len();
        let file = [table.bytes.clone(), Loop::of(STEREO, 2, 2).bytes].concat();
        assert_eq!(level(&file, 1, 1, N)[..n], table.bytes);
        assert_eq!(level(&file, 1, 1, W)[..n], table.levelled(n, [1, 1], true));
        assert_eq!(undo(&level(&file, 1, 1, W)), file);
    }
}

#[test]
fn what_the_calls_do_not_level_is_refused() {
    for mode in 0..4 {
        for (version, crc, why) in
            [(0, false, Refusal::NoFrame), (3, true, Refusal::HasChecksum), (2, true, Refusal::HasChecksum)]
        {
            let file = Loop::of(Kind { version, mode, crc }, 3, 1).bytes;
            assert_eq!(changed(&file, Call::Level(1, 1, N)).unwrap_err(), refused(why));
            assert_eq!(changed(&file, Call::Undo).unwrap_err(), refused(why));
        }
    }
    // One frame is enough.
    let file = [Loop::of(STEREO, 2, 1).bytes, Loop::of(Kind { crc: true, ..STEREO }, 1, 1).bytes].concat();
    assert_eq!(changed(&file, Call::Level(1, 1, N)).unwrap_err(), refused(Refusal::HasChecksum));
}

#[test]
fn steps_for_each_side() {
    assert_eq!(item(&level(&Loop::of(STEREO, 3, 1).bytes, 3, 2, N), "MP3GAIN_UNDO"), "-003,-002,N");
    let mono = Loop::of(MONO, 3, 1).bytes;
    let (file, notes) = changed(&mono, Call::Level(3, -2, W)).unwrap();
    assert_eq!(item(&file, "MP3GAIN_UNDO"), "-003,-003,W");
    assert_eq!(notes, ["it has one channel, which is moved by 3"]);
    assert_eq!(undo(&file), mono);
}

/// A gain that becomes the `T` of `TAG`, 128 bytes before the end of the sound.
#[test]
fn an_end_that_would_look_like_a_tag_is_refused() {
    let mut new = Loop::of(STEREO, 2, 9);
    let (_, _, bit) = new.gains[4];
    let at = bit / 8;
    new.bytes.resize(at + 128, 0x55);
    new.bytes[at..at + 3].copy_from_slice(b"TAG");
    let there = gain_at(&new.bytes, bit);
    // The bytes of `TAG` with the gain one step lower.
    new.bytes[at] = new.bytes[at] & 0x80 | (there - 1) >> 1;
    new.bytes[at + 1] = new.bytes[at + 1] & 0x7F | (there - 1) << 7;
    assert_eq!(gain_at(&new.bytes, bit), there - 1);
    assert_eq!(undo(&level(&new.bytes, 2, 2, W)), new.bytes);
    let why = changed(&new.bytes, Call::Level(1, 1, W)).unwrap_err();
    assert_eq!(why, "with these gains its end would look like part of a tag, and an undo would miss it");
}

#[test]
fn peaks_are_told() {
    let one = set_item(&Loop::of(STEREO, 2, 1).bytes, b"REPLAYGAIN_TRACK_PEAK", b"0.5").unwrap();
    let two = set_item(&one, b"REPLAYGAIN_ALBUM_PEAK", b"0.5").unwrap();
    let notes = |file: &[u8]| changed(file, Call::Level(1, 1, N)).unwrap().1;
    assert_eq!(notes(&one), ["1 peak in its tag was left as it was: it is still that from before"]);
    assert_eq!(notes(&two), ["2 peaks in its tag were left as they were: they are still those from before"]);
}

#[test]
fn a_refusal_says_why() {
    let file = Loop::of(STEREO, 2, 1).bytes;
    assert_eq!(changed(&file, Call::Undo).unwrap_err(), format!("{} (refusal 10)", Refusal::NoUndo));
    assert_eq!(changed(&file, Call::Level(256, 0, N)).unwrap_err(), refused(Refusal::StepOutOfRange));
    assert_eq!(changed(b"", Call::Undo).unwrap_err(), refused(Refusal::NoFrame));
    let once = level(&file, 1, 1, N);
    assert_eq!(changed(&once, Call::Level(1, 1, W)).unwrap_err(), refused(Refusal::FlagDiffers));
}

#[test]
fn words() {
    let call = |words: &[&str]| {
        let words: Vec<OsString> = words.iter().map(OsString::from).collect();
        call_of(&words).map(|(call, name)| (matches!(call, Call::Level(3, -4, W)), name.to_path_buf()))
    };
    assert_eq!(call(&["level", "a.mp3", "3", "-4", "W"]), Ok((true, PathBuf::from("a.mp3"))));
    assert_eq!(call(&["level", "a.mp3", "3", "-4"]), Ok((false, PathBuf::from("a.mp3"))));
    assert_eq!(call(&["undo", "a.mp3"]), Ok((false, PathBuf::from("a.mp3"))));
    assert_eq!(call(&["level", "a.mp3", "3", "four"]), Err("four is not a number of steps".to_string()));
    for words in
        [&[][..], &["level"], &["level", "a", "1"], &["level", "a", "1", "1", "X"], &["undo", "a", "b"], &["up", "a"]]
    {
        assert!(call(words).unwrap_err().starts_with("usage: "));
    }
    let odd = [OsString::from("level"), OsString::from("a"), OsString::from_vec(vec![0xFF]), OsString::from("1")];
    assert!(call_of(&odd).is_err());
}

/// A folder that goes with the test.
struct Folder(PathBuf);

impl Folder {
    fn new(name: &str) -> Folder {
        let path = std::env::temp_dir().join(format!("loop_mp3-{name}-{}", std::process::id()));
        fs::create_dir(&path).unwrap();
        Folder(path)
    }

    fn count(&self) -> usize {
        fs::read_dir(&self.0).unwrap().count()
    }
}

impl Drop for Folder {
    fn drop(&mut self) {
        let _ = fs::remove_dir_all(&self.0);
    }
}

const UP: Call = Call::Level(2, 2, W);

#[test]
fn a_file_keeps_owner_mode_and_times() {
    let folder = Folder::new("kept");
    let file = Loop::of(STEREO, 3, 1).bytes;
    // A name that is no UTF-8.
    let path = folder.0.join(OsString::from_vec(b"loop \xFF.mp3".to_vec()));
    fs::write(&path, &file).unwrap();
    fs::set_permissions(&path, fs::Permissions::from_mode(0o640)).unwrap();
    // Only some users may give a file away.
    let _ = chown(&path, Some(4321), Some(1234));
    let times =
        fs::FileTimes::new().set_modified(std::time::UNIX_EPOCH + std::time::Duration::from_nanos(1_234_567_890_123));
    fs::File::options().write(true).open(&path).unwrap().set_times(times).unwrap();
    let about = |path: &Path| {
        let m = fs::metadata(path).unwrap();
        (m.uid(), m.gid(), m.mode(), m.mtime(), m.mtime_nsec())
    };
    let before = about(&path);
    assert_eq!((before.2 & 0o777, before.3, before.4), (0o640, 1234, 567_890_123));
    run(UP, &path).unwrap();
    assert_eq!(about(&path), before);
    assert_eq!(fs::read(&path).unwrap(), level(&file, 2, 2, W));
    run(Call::Undo, &path).unwrap();
    assert_eq!(about(&path), before);
    assert_eq!(fs::read(&path).unwrap(), file);
    assert_eq!(folder.count(), 1);
}

#[test]
fn a_link_is_followed() {
    let folder = Folder::new("link");
    let file = Loop::of(STEREO, 3, 1).bytes;
    fs::create_dir(folder.0.join("inner")).unwrap();
    let (path, link) = (folder.0.join("inner/loop.mp3"), folder.0.join("link.mp3"));
    fs::write(&path, &file).unwrap();
    symlink("inner/loop.mp3", &link).unwrap();
    run(UP, &link).unwrap();
    assert!(fs::symlink_metadata(&link).unwrap().is_symlink());
    assert_eq!(fs::read(&path).unwrap(), level(&file, 2, 2, W));
    run(Call::Undo, &link).unwrap();
    assert_eq!(fs::read(&path).unwrap(), file);
}

#[test]
fn what_cannot_be_written_is_refused() {
    let folder = Folder::new("refused");
    let path = folder.0.join("loop.mp3");
    let file = level(&Loop::of(STEREO, 3, 1).bytes, 1, 1, W);
    fs::write(&path, &file).unwrap();
    fs::set_permissions(&path, fs::Permissions::from_mode(0o444)).unwrap();
    assert_eq!(run(UP, &path).unwrap_err(), "it is read-only");
    assert_eq!(run(Call::Undo, &path).unwrap_err(), "it is read-only");
    assert_eq!(fs::read(&path).unwrap(), file);
    assert!(run(Call::List, &path).unwrap().0.contains("MP3GAIN_UNDO=-001,-001,W\n"));
    assert_eq!(run(UP, &folder.0).unwrap_err(), "it is no regular file");
    assert!(run(UP, &folder.0.join("none.mp3")).is_err());
    // What stands where the new file is to be written is not touched.
    fs::set_permissions(&path, fs::Permissions::from_mode(0o644)).unwrap();
    let beside = folder.0.join(format!(".loop_mp3-{}.new", std::process::id()));
    fs::write(&beside, b"another's").unwrap();
    assert!(run(UP, &path).unwrap_err().ends_with("the file is as it was"));
    assert_eq!((fs::read(&path).unwrap(), fs::read(&beside).unwrap()), (file, b"another's".to_vec()));
}

#[test]
fn a_long_tag_is_not_listed_as_none() {
    let folder = Folder::new("list");
    let path = folder.0.join("loop.mp3");
    let file = Loop::of(STEREO, 3, 1).bytes;
    fs::write(&path, set_item(&file, b"Title", &[b'x'; 16_000]).unwrap()).unwrap();
    assert!(run(Call::List, &path).unwrap().0.starts_with("items=1\nTITLE=xxx"));
    fs::write(&path, set_item(&file, b"Title", &[b'x'; 17_000]).unwrap()).unwrap();
    let why = run(Call::List, &path).unwrap_err();
    assert_eq!(why, "its tag has 17046 bytes by its footer; only the last 16,384 bytes of a file are listed");
}

#[test]
fn a_huge_file_is_not_read_whole() {
    let folder = Folder::new("huge");
    let path = folder.0.join("loop.mp3");
    let file = Loop::of(STEREO, 3, 1).bytes;
    fs::write(&path, &file).unwrap();
    // Zeros that take no room on the disk, and a tag behind them.
    fs::File::options().write(true).open(&path).unwrap().set_len(1 << 36).unwrap();
    let tag = set_item(b"", b"Title", b"Floor").unwrap();
    std::io::Write::write_all(&mut fs::File::options().append(true).open(&path).unwrap(), &tag).unwrap();
    assert_eq!(run(Call::List, &path).unwrap().0, "items=1\nTITLE=Floor\n");
    let why = refused(Refusal::FileTooLong) + "; the file is as it was";
    assert_eq!(run(UP, &path).unwrap_err(), why);
    assert_eq!(run(Call::Undo, &path).unwrap_err(), why);
}
