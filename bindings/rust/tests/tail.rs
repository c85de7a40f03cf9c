//! The end of a file on a card: how much of it is read, and what is found where power fails after each write.

use std::fs::{self, File};
use std::io::{self, Cursor, Read, Seek, SeekFrom, Write};
use zibrunnos::*;

/// A card in memory. It counts the bytes that are read, and fails after so many writes: each byte is one, and setting the length is one.
struct Card {
    file: Cursor<Vec<u8>>,
    read: usize,
    writes: usize,
}

impl Card {
    fn new(file: &[u8], writes: usize) -> Card {
        Card { file: Cursor::new(file.to_vec()), read: 0, writes }
    }
}

fn power() -> io::Error {
    io::Error::other("power")
}

impl Read for Card {
    fn read(&mut self, to: &mut [u8]) -> io::Result<usize> {
        let n = self.file.read(to)?;
        self.read += n;
        Ok(n)
    }
}

impl Seek for Card {
    fn seek(&mut self, to: SeekFrom) -> io::Result<u64> {
        self.file.seek(to)
    }
}

impl Write for Card {
    fn write(&mut self, from: &[u8]) -> io::Result<usize> {
        if self.writes == 0 {
            return Err(power());
        }
        let n = self.file.write(&from[..from.len().min(self.writes)])?;
        self.writes -= n;
        Ok(n)
    }

    fn flush(&mut self) -> io::Result<()> {
        Ok(())
    }
}

impl Medium for Card {
    fn set_length(&mut self, length: u64) -> io::Result<()> {
        if self.writes == 0 {
            return Err(power());
        }
        self.writes -= 1;
        self.file.get_mut().truncate(length as usize);
        Ok(())
    }

    fn sync(&mut self) -> io::Result<()> {
        Ok(())
    }
}

fn items(list: &[(&str, &str)]) -> Items {
    let mut items = Items::new();
    for (key, value) in list {
        items.set(key.as_bytes(), value.as_bytes()).expect("a good item");
    }
    items
}

/// A tag of one undo item, another of the same length, a longer one, a shorter one, and none.
fn tags() -> [Items; 5] {
    let undo = "MP3GAIN_UNDO";
    let more = [(undo, "+003,+003,W"), ("TITLE", "A title that is longer than a footer and a half of one")];
    [items(&[(undo, "+003,+003,W")]), items(&[(undo, "-015,-015,W")]), items(&more), items(&[("AB", "c")]), items(&[])]
}

/// Sound, with an ID3v1 block before the tag, behind it, or neither.
fn files(tag: &Items) -> Vec<Vec<u8>> {
    let sound: Vec<u8> = (0..700u32).map(|i| (i * 37 % 251) as u8).collect();
    let block = [&b"TAG"[..], &[b'i'; 125]].concat();
    let tag = tag.serialize().expect("a tag");
    vec![[&sound[..], &tag].concat(), [&sound[..], &tag, &block].concat(), [&sound[..], &block, &tag].concat()]
}

#[test]
fn power_fails_after_each_write() {
    for old in tags() {
        for file in files(&old) {
            for new in tags() {
                let mut whole = file.clone();
                whole.resize(file.len() + new.as_bytes().len() + 64, 0xEE);
                let Rewritten { end, length } = rewrite_tail(&mut whole, file.len(), &new).expect("it is rewritten");
                let all = length - end;
                for k in 0..=all + 1 {
                    let mut card = Card::new(&file, k);
                    let done = rewrite_tag_in(&mut card, &new);
                    let found = card.file.into_inner();
                    // Every audio byte old, the first k tail bytes new, the rest old, the length the greater one; the new length where it is set.
                    let written = k.min(all);
                    let mut want = file.clone();
                    want.resize(file.len().max(end + written), 0);
                    want[end..end + written].copy_from_slice(&whole[end..end + written]);
                    if k > all {
                        want.truncate(length);
                    }
                    assert_eq!(found, want);
                    let is_done = k > all || (k == all && length >= file.len());
                    assert_eq!(done.is_ok(), is_done);
                    if is_done {
                        assert_eq!(found, whole[..length]);
                    }
                    // The library says the same of its buffer.
                    let mut buf = file.clone();
                    buf.resize(whole.len(), 0xEE);
                    let said = rewrite_within(&mut buf, file.len(), &new, k).expect("it is rewritten");
                    assert_eq!((said.whole, said.end, &buf[..said.length]), (k > all, end, &want[..]));
                    torn(&file, &old, &new, end, k, &found, is_done);
                }
            }
        }
    }
}

/// What the gate says of a torn file: the laws of crate `torn_tags`.
fn torn(file: &[u8], old: &Items, new: &Items, end: usize, k: usize, found: &[u8], is_done: bool) {
    if k == 0 {
        assert_eq!(gate(found), gate(file));
    }
    if is_done || old.is_empty() || new.is_empty() {
        return;
    }
    let footer = find_footer(file).expect("a short file").expect("a tag");
    let differs = (old.as_bytes().len(), old.len()) != (new.as_bytes().len(), new.len());
    if k <= 12 {
        // The preamble and the version are those of the old header.
        assert_eq!(found, file);
    } else if differs && k >= 20 && end + k <= footer {
        assert_eq!(gate(found), Err(Refusal::NotEditable));
    }
}

#[test]
fn a_torn_tag_may_pass_the_gate() {
    let [old, new, longer, ..] = tags();
    let file = old.serialize().expect("a tag");
    let found = |new: &Items, k: usize| {
        let mut card = Card::new(&file, k);
        assert!(rewrite_tag_in(&mut card, new).is_err());
        gate(&card.file.into_inner())
    };
    // A text of old and new bytes, which was never stored.
    assert_eq!(found(&new, 56), Ok(items(&[("MP3GAIN_UNDO", "-013,+003,W")])));
    // A byte of the old footer is gone: no tag, and no undo.
    assert_eq!(found(&longer, 65), Ok(Items::new()));
}

#[test]
fn no_more_is_read_than_is_needed() {
    let sound = vec![0x55; 1 << 24];
    for tag in tags() {
        for tail in files(&tag) {
            for front in [0, 1, 100, 5000, sound.len() - tail.len()] {
                let file = [&sound[..front], &tail].concat();
                let probe = &file[file.len() - file.len().min(PROBE)..];
                let needed = bytes_needed(probe, file.len()).expect("a file within the limit");
                let mut card = Card::new(&file, 0);
                assert_eq!(read_tag_from(&mut card).expect("it is read"), read_tag(&file).expect("it is read"));
                assert_eq!(card.read, needed);
                assert!(needed <= tag.as_bytes().len() + 32 + 32 + 160);
            }
        }
    }
    let mut card = Card::new(&[&sound[..], b"x"].concat(), 0);
    assert!(matches!(read_tag_from(&mut card), Err(FileError::Refused(Refusal::FileTooLong))));
    assert_eq!(card.read, PROBE);
    for short in 0..40 {
        let mut card = Card::new(&sound[..short], 0);
        assert_eq!(read_tag_from(&mut card).expect("it is read"), None);
        assert_eq!(card.read, short);
    }
}

#[test]
fn a_real_file() {
    let path = std::env::temp_dir().join(format!("zibrunnos-tail-{}", std::process::id()));
    for old in tags() {
        for bytes in files(&old) {
            for new in tags() {
                fs::write(&path, &bytes).expect("a file");
                let mut file = File::options().read(true).write(true).open(&path).expect("a file");
                let length = rewrite_tag_in(&mut file, &new).expect("it is rewritten");
                let got = fs::read(&path).expect("a file");
                let mut buf = bytes.clone();
                buf.resize(bytes.len() + new.as_bytes().len() + 64, 0);
                rewrite_tail(&mut buf, bytes.len(), &new).expect("it is rewritten");
                assert_eq!(got, buf[..length]);
                assert_eq!(read_tag_from(&mut file).expect("it is read"), read_tag(&got).expect("it is read"));
            }
        }
    }
    fs::remove_file(&path).expect("the file is there");
}
