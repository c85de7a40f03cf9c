//! Reads and edits the APEv2 tags of MP3 loops, levels their gains, and undoes it: safe calls over the proved library.
//!
//! [`level`] moves the gains that it is lent and writes mp3gain's undo item into the tag; [`undo`] gives back the file and the gains.
//! [`level_mp3`] and [`undo_mp3`] do so with the gains in the sound of an MP3; `examples/loop_mp3.rs` replaces a file by what they give.
//! `docs/LIBRARY.md` says for each call when it refuses and what it costs, `docs/TERMS.md` what the words mean, and `examples/loop.rs` how
//! the gains are read from an MP3 and written back.
//!
//! A call that fails gives a [`Refusal`] and has changed nothing. The library never reads or writes outside the slices that it is lent, and
//! none of those that it writes can overlap another here, so every function is safe. It keeps nothing between calls, so any thread may call
//! at any time. Results are new vectors. The bindings lend the library outputs that are long enough (those of a new file by [`level_length`] and
//! its like, to the byte), so [`Refusal::NoRoom`] means only that the result would have more than [`FILE_LIMIT`] bytes, or more than the room that
//! [`lossy_size`] is told, or than the buffer that [`rewrite_tail`] and [`rewrite_within`] are lent.
//!
//! ```
//! use zibrunnos::{level, undo, Mode};
//!
//! let loop_file = b"audio".to_vec();
//! let (mut left, mut right) = (vec![10, 0], vec![]);
//! let levelled = level(&loop_file, &mut left, &mut right, 5, 5, Mode::Saturating)?;
//! assert_eq!(left, [15, 0]);
//! assert_eq!(undo(&levelled.file, &mut left, &mut right)?.file, loop_file);
//! assert_eq!(left, [10, 0]);
//! # Ok::<(), zibrunnos::Refusal>(())
//! ```

mod raw;
mod tail;

pub use tail::*;

use std::fmt;

/// The most bytes that a file may have, and that a call writes.
pub const FILE_LIMIT: usize = 16_777_216;
/// The most items of a tag that is edited.
pub const ITEM_LIMIT: usize = 41;
/// The most bytes that the items of a tag that is edited may have.
pub const AREA_LIMIT: usize = 32_768;
/// The most bytes of a file that [`list_tag`] lists.
pub const LIST_LIMIT: usize = 16_384;

/// Why a call was refused; the numbers are those that the library answers in C.
#[derive(Clone, Copy, Debug, PartialEq, Eq)]
#[repr(u32)]
pub enum Refusal {
    /// The file has more than [`FILE_LIMIT`] bytes.
    FileTooLong = 1,
    /// A step lies outside -255..255.
    StepOutOfRange = 2,
    /// The key is not 2 to 255 bytes of hex 20..7E, or is ID3, TAG, OggS or MP+ in any letter case.
    BadKey = 3,
    /// The value is not UTF-8.
    NotUtf8 = 4,
    /// The result would have more than [`FILE_LIMIT`] bytes, or more than the room that [`lossy_size`] is told, or than the buffer that
    /// [`rewrite_tail`] is lent; or the file is said to be longer than that.
    NoRoom = 5,
    /// The new tag would have more than [`ITEM_LIMIT`] items, or more than [`AREA_LIMIT`] bytes of items.
    TagTooLarge = 6,
    /// The list of left gains is empty.
    NoLeftGains = 7,
    /// The file has a tag that does not pass the editing gate: it is damaged, too large, or has an item of an unknown kind. See [`gate`].
    NotEditable = 8,
    /// The file was levelled before in the other [`Mode`].
    FlagDiffers = 9,
    /// The file has no undo item.
    NoUndo = 10,
    /// An undo number would leave -32,768..32,767.
    UndoOutOfRange = 11,
    /// An item area is not exactly as many items as it is said to have. An [`Items`] always is, so no call here gives this.
    MalformedArea = 12,
    /// The level slip has another form.
    MalformedSlip = 13,
    /// The file has more than one undo item.
    SecondUndo = 14,
    /// The sound has no Layer III frame.
    NoFrame = 15,
    /// A frame of the sound has a checksum, which other gains would make wrong.
    HasChecksum = 16,
}

impl Refusal {
    /// The number that the library answers in C.
    pub fn number(self) -> u32 {
        self as u32
    }

    fn of(number: u32) -> Refusal {
        use Refusal::*;
        let all = [
            FileTooLong,
            StepOutOfRange,
            BadKey,
            NotUtf8,
            NoRoom,
            TagTooLarge,
            NoLeftGains,
            NotEditable,
            FlagDiffers,
            NoUndo,
            UndoOutOfRange,
            MalformedArea,
            MalformedSlip,
            SecondUndo,
            NoFrame,
            HasChecksum,
        ];
        all[number as usize - 1]
    }
}

impl fmt::Display for Refusal {
    fn fmt(&self, f: &mut fmt::Formatter) -> fmt::Result {
        f.write_str(match self {
            Refusal::FileTooLong => "the file has more than 16,777,216 bytes",
            Refusal::StepOutOfRange => "a step lies outside -255..255",
            Refusal::BadKey => "no tag may have this key",
            Refusal::NotUtf8 => "the value is not UTF-8",
            Refusal::NoRoom => "the result would have more than 16,777,216 bytes, or more than the room for it",
            Refusal::TagTooLarge => {
                return write!(
                    f,
                    "the tag would have more than {ITEM_LIMIT} items, or more than {AREA_LIMIT} bytes of items"
                )
            }
            Refusal::NoLeftGains => "there are no left gains",
            Refusal::NotEditable => "the file's tag is damaged or too large, or has an item of an unknown kind",
            Refusal::FlagDiffers => "the file was levelled with the other flag before",
            Refusal::NoUndo => "no undo is stored",
            Refusal::UndoOutOfRange => "an undo number would leave -32,768..32,767",
            Refusal::MalformedArea => "the bytes are not the items that they are said to be",
            Refusal::MalformedSlip => "the level slip has another form",
            Refusal::SecondUndo => "the file has more than one undo item",
            Refusal::NoFrame => "the sound has no Layer III frame",
            Refusal::HasChecksum => "a frame of the sound has a checksum",
        })
    }
}

impl std::error::Error for Refusal {}

/// What a call gives, or why it was refused.
pub type Result<T> = std::result::Result<T, Refusal>;

fn done<T>(reply: u32, value: T) -> Result<T> {
    match reply {
        0 => Ok(value),
        number => Err(Refusal::of(number)),
    }
}

/// Lends a call an output of so many bytes, and gives what it wrote there.
fn filled(room: usize, call: impl FnOnce(*mut u8, usize, &mut usize) -> u32) -> Result<Vec<u8>> {
    let (mut out, mut written) = (vec![0; room], 0);
    let reply = call(out.as_mut_ptr(), room, &mut written);
    out.truncate(written);
    done(reply, out)
}

/// The number that a call puts into the one that it is lent.
fn told(call: impl FnOnce(&mut usize) -> u32) -> Result<usize> {
    let mut number = 0;
    let reply = call(&mut number);
    done(reply, number)
}

/// What happens to a gain that would leave 0..255.
#[derive(Clone, Copy, Debug, PartialEq, Eq)]
pub enum Mode {
    /// It is held at 0 or 255, and a gain of 0 stays 0: flag N.
    Saturating,
    /// It is taken modulo 256: flag W.
    Wrapping,
}

impl Mode {
    fn wraps(self) -> bool {
        self == Mode::Wrapping
    }

    fn of(wrap: u32) -> Mode {
        if wrap == 1 {
            Mode::Wrapping
        } else {
            Mode::Saturating
        }
    }
}

/// A number of steps for either side, and the mode: what an undo item holds.
#[derive(Clone, Copy, Debug, PartialEq, Eq)]
pub struct Steps {
    pub left: i32,
    pub right: i32,
    pub mode: Mode,
}

/// The items of a tag, in order: an item area that is always well-formed. It may have more items than a tag that is edited.
///
/// ```
/// use zibrunnos::Items;
///
/// let mut items = Items::new();
/// items.set(b"Title", b"Floor")?;
/// assert_eq!(items.get(b"TITLE")?, Some(&b"Floor"[..]));
/// assert!(items.iter().map(|item| (item.key(), item.value())).eq([(&b"TITLE"[..], &b"Floor"[..])]));
/// items.remove(b"title")?;
/// assert!(items.is_empty());
/// # Ok::<(), zibrunnos::Refusal>(())
/// ```
#[derive(Clone, Debug, Default, PartialEq, Eq)]
pub struct Items {
    bytes: Vec<u8>,
    count: usize,
}

/// The texts of the five ReplayGain items. An empty one is not set.
#[derive(Clone, Copy, Debug, Default)]
pub struct ReplayGain<'a> {
    pub track_gain: &'a [u8],
    pub track_peak: &'a [u8],
    pub album_gain: &'a [u8],
    pub album_peak: &'a [u8],
    pub algorithm: &'a [u8],
}

impl Items {
    /// No items.
    pub fn new() -> Items {
        Items::default()
    }

    /// The number of items.
    pub fn len(&self) -> usize {
        self.count
    }

    /// Whether there are no items.
    pub fn is_empty(&self) -> bool {
        self.count == 0
    }

    /// The bytes of the area: for each item the length of its value and its flags, four bytes each, then its key, a zero byte and its
    /// value.
    pub fn as_bytes(&self) -> &[u8] {
        &self.bytes
    }

    /// The items, in order.
    pub fn iter(&self) -> Iter<'_> {
        Iter { area: &self.bytes, at: 0 }
    }

    /// Makes an edit that adds at most `more` bytes.
    fn edit(
        &mut self,
        more: usize,
        call: impl FnOnce(*const u8, usize, usize, *mut u8, usize, &mut usize, &mut usize) -> u32,
    ) -> Result<()> {
        let mut count = 0;
        let (from, len, items) = (self.bytes.as_ptr(), self.bytes.len(), self.count);
        self.bytes = filled(len + more, |out, room, written| call(from, len, items, out, room, &mut count, written))?;
        self.count = count;
        Ok(())
    }

    /// The value of the first item with this key, and whether a later one has it too.
    fn found(&self, key: &[u8]) -> Result<Option<(&[u8], bool)>> {
        let (mut there, mut start, mut size, mut repeated) = (0, 0, 0, 0);
        let a = &self.bytes;
        // SAFETY: each pointer is that of a slice with the length beside it.
        let reply = unsafe {
            raw::zib_get(
                a.as_ptr(),
                a.len(),
                self.count,
                key.as_ptr(),
                key.len(),
                &mut there,
                &mut start,
                &mut size,
                &mut repeated,
            )
        };
        done(reply, (there == 1).then(|| (&self.bytes[start..start + size], repeated == 1)))
    }

    /// The value of the first item with this key. The letter case of the key does not matter, here and everywhere.
    pub fn get(&self, key: &[u8]) -> Result<Option<&[u8]>> {
        Ok(self.found(key)?.map(|(value, _)| value))
    }

    /// Whether more than one item has this key. The specification allows it once; a second undo item stops [`level`] and [`undo`].
    pub fn repeated(&self, key: &[u8]) -> Result<bool> {
        Ok(self.found(key)?.is_some_and(|(_, repeated)| repeated))
    }

    /// Sets the value of the first item with this key, which keeps its spelling and its place, or adds an item with the key in upper case
    /// at the end. What is set is text: an item that was binary or external is not so any more, and one that was read-only still is.
    pub fn set(&mut self, key: &[u8], value: &[u8]) -> Result<()> {
        // SAFETY: each pointer is that of a slice with the length beside it; the output is a new one.
        self.edit(9 + key.len() + value.len(), |a, l, n, out, room, items, written| unsafe {
            raw::zib_set(a, l, n, key.as_ptr(), key.len(), value.as_ptr(), value.len(), out, room, items, written)
        })
    }

    /// Removes every item with this key.
    pub fn remove(&mut self, key: &[u8]) -> Result<()> {
        // SAFETY: as in `set`.
        self.edit(0, |a, l, n, out, room, items, written| unsafe {
            raw::zib_remove(a, l, n, key.as_ptr(), key.len(), out, room, items, written)
        })
    }

    /// The left number of the first undo item, whether or not there is a second one.
    pub fn undo_gain(&self) -> Result<Option<i32>> {
        let (mut there, mut steps) = (0, 0);
        // SAFETY: as in `get`.
        let reply = unsafe {
            raw::zib_get_undo_gain(self.bytes.as_ptr(), self.bytes.len(), self.count, &mut there, &mut steps)
        };
        done(reply, (there == 1).then_some(steps))
    }

    /// Sets the undo item to these numbers and this mode.
    pub fn set_undo_gain(&mut self, steps: Steps) -> Result<()> {
        // SAFETY: as in `set`.
        self.edit(64, |a, l, n, out, room, items, written| unsafe {
            raw::zib_set_undo_gain(a, l, n, steps.left, steps.right, steps.mode.wraps(), out, room, items, written)
        })
    }

    /// Sets `MP3GAIN_MINMAX` to the least and the greatest gain.
    pub fn set_minmax(&mut self, least: u8, greatest: u8) -> Result<()> {
        // SAFETY: as in `set`.
        self.edit(64, |a, l, n, out, room, items, written| unsafe {
            raw::zib_set_minmax(a, l, n, least, greatest, out, room, items, written)
        })
    }

    /// Sets the ReplayGain items whose texts are not empty.
    pub fn set_replaygain(&mut self, g: ReplayGain) -> Result<()> {
        let more: usize =
            [g.track_gain, g.track_peak, g.album_gain, g.album_peak, g.algorithm].iter().map(|t| t.len() + 40).sum();
        // SAFETY: as in `set`.
        self.edit(more, |a, l, n, out, room, items, written| unsafe {
            raw::zib_set_replaygain(
                a,
                l,
                n,
                g.track_gain.as_ptr(),
                g.track_gain.len(),
                g.track_peak.as_ptr(),
                g.track_peak.len(),
                g.album_gain.as_ptr(),
                g.album_gain.len(),
                g.album_peak.as_ptr(),
                g.album_peak.len(),
                g.algorithm.as_ptr(),
                g.algorithm.len(),
                out,
                room,
                items,
                written,
            )
        })
    }

    /// Removes the five ReplayGain items.
    pub fn remove_replaygain(&mut self) -> Result<()> {
        // SAFETY: as in `set`.
        self.edit(0, |a, l, n, out, room, items, written| unsafe {
            raw::zib_remove_replaygain(a, l, n, out, room, items, written)
        })
    }

    /// Removes what says nothing true after an undo: the five ReplayGain items and `MP3GAIN_ALBUM_MINMAX`.
    pub fn drop_undone(&mut self) -> Result<()> {
        // SAFETY: as in `set`.
        self.edit(0, |a, l, n, out, room, items, written| unsafe {
            raw::zib_drop_undone(a, l, n, out, room, items, written)
        })
    }

    /// Removes mp3gain's eight keys.
    pub fn take_mp3gain(&mut self) -> Result<()> {
        // SAFETY: as in `set`.
        self.edit(0, |a, l, n, out, room, items, written| unsafe {
            raw::zib_take_mp3gain(a, l, n, out, room, items, written)
        })
    }

    /// Moves the stored ranges, gain texts and peaks by so many steps. A gain text of another form than `-3.480000 dB` stays as it is, and so
    /// does a peak of another form than `0.248763`; where gains wrap, a range that would leave 0..255 is removed. A value that moves is text,
    /// as one that is set.
    pub fn shift_stored_gain(&mut self, steps: i32, mode: Mode) -> Result<()> {
        // SAFETY: as in `set`. A value that moves has at most 32 bytes.
        self.edit(32 * self.count, |a, l, n, out, room, items, written| unsafe {
            raw::zib_shift_stored_gain(a, l, n, steps, mode.wraps(), out, room, items, written)
        })
    }

    /// The bytes of a tag with these items: header, items and footer. No items make no tag, and no bytes.
    pub fn serialize(&self) -> Result<Vec<u8>> {
        // SAFETY: as in `set`.
        filled(self.bytes.len() + 64, |out, room, written| unsafe {
            raw::zib_serialize_ape_tag(self.bytes.as_ptr(), self.bytes.len(), self.count, out, room, written)
        })
    }
}

/// An item: its key, its value and its flags.
///
/// ```
/// use zibrunnos::{read_tag, set_item};
///
/// let mut file = set_item(b"audio", b"Cover Art (front)", b"xx")?;
/// let (item, footer) = (5 + 32, file.len() - 32);
/// file[item + 4] = 3; // the flags of a binary item that is read-only
/// file[footer - 1] = 0xFF; // the last byte of its value
/// let items = read_tag(&file)?.expect("a tag");
/// let cover = items.iter().next().expect("an item");
/// assert_eq!((cover.key(), cover.value()), (&b"COVER ART (FRONT)"[..], &b"x\xff"[..]));
/// assert_eq!(cover.flags(), 3);
/// assert!(cover.is_binary() && cover.is_read_only() && !cover.is_external());
/// # Ok::<(), zibrunnos::Refusal>(())
/// ```
#[derive(Clone, Copy, Debug, PartialEq, Eq)]
pub struct Item<'a> {
    key: &'a [u8],
    value: &'a [u8],
    flags: u32,
}

impl<'a> Item<'a> {
    /// Its key, as it is spelled.
    pub fn key(&self) -> &'a [u8] {
        self.key
    }

    /// Its value: text, or the bytes of a picture where it [is binary](Item::is_binary).
    pub fn value(&self) -> &'a [u8] {
        self.value
    }

    /// Its flags: bit 0 says read-only, bits 2..1 are the type (0 text, 1 binary, 2 external, 3 reserved), and the others have no meaning.
    pub fn flags(&self) -> u32 {
        self.flags
    }

    /// Whether it says that it is read-only. No call heeds that: the bit is kept, and nothing is refused for it.
    pub fn is_read_only(&self) -> bool {
        self.flags & 1 == 1
    }

    /// Whether its value is not text, as that of a cover picture.
    pub fn is_binary(&self) -> bool {
        self.flags >> 1 & 3 == 1
    }

    /// Whether its value is a text that says where something else is, such as a link.
    pub fn is_external(&self) -> bool {
        self.flags >> 1 & 3 == 2
    }
}

/// Goes through an [`Items`].
pub struct Iter<'a> {
    area: &'a [u8],
    at: usize,
}

impl<'a> Iterator for Iter<'a> {
    type Item = Item<'a>;

    fn next(&mut self) -> Option<Item<'a>> {
        let a = self.area;
        let (mut there, mut flags, mut key, mut key_end, mut value, mut value_end) = (0, 0, 0, 0, 0, 0);
        // SAFETY: the pointer is that of a slice with the length beside it.
        let reply = unsafe {
            raw::zib_item_at(
                a.as_ptr(),
                a.len(),
                self.at,
                &mut there,
                &mut flags,
                &mut key,
                &mut key_end,
                &mut value,
                &mut value_end,
            )
        };
        (reply == 0 && there == 1).then(|| {
            self.at = value_end;
            Item { key: &a[key..key_end], value: &a[value..value_end], flags }
        })
    }
}

impl<'a> IntoIterator for &'a Items {
    type Item = Item<'a>;
    type IntoIter = Iter<'a>;

    fn into_iter(self) -> Iter<'a> {
        self.iter()
    }
}

/// Reads the items of a file's tag; `None` where the file has no tag.
///
/// The items keep their flags, and the values of binary items are as they are in the file, so a picture that is read here and written back
/// by [`replace_tag`] is whole. In keys and in all other values each part that is not UTF-8 becomes U+FFFD.
///
/// ```
/// use zibrunnos::{read_tag, replace_tag, set_item};
///
/// let mut file = set_item(b"audio", b"Cover Art (front)", b"xx")?;
/// let (item, footer) = (5 + 32, file.len() - 32);
/// (file[item + 4], file[footer - 1]) = (2, 0xFF); // the flags of a binary item, and a value that is no text
/// let items = read_tag(&file)?.expect("a tag");
/// assert_eq!(replace_tag(&file, &items)?, file);
/// # Ok::<(), zibrunnos::Refusal>(())
/// ```
pub fn read_tag(file: &[u8]) -> Result<Option<Items>> {
    let (mut there, mut count) = (0, 0);
    // SAFETY: each pointer is that of a slice with the length beside it; the output is a new one.
    let bytes = filled(3 * file.len(), |out, room, written| unsafe {
        raw::zib_read_ape_tag(file.as_ptr(), file.len(), out, room, &mut there, &mut count, written)
    })?;
    Ok((there == 1).then_some(Items { bytes, count }))
}

/// Gives the file with these items in place of its tag, whatever that was.
pub fn replace_tag(file: &[u8], items: &Items) -> Result<Vec<u8>> {
    let a = &items.bytes;
    // SAFETY: as in `read_tag`.
    filled(file.len() + a.len() + 64, |out, room, written| unsafe {
        raw::zib_replace_ape_tag(file.as_ptr(), file.len(), a.as_ptr(), a.len(), items.count, out, room, written)
    })
}

/// Splits a file into the part before its tag and the part after it. Without a tag, these are the parts before and after the place where
/// one would go, which is before an ID3v1 block.
///
/// ```
/// let file = zibrunnos::set_item(b"audio", b"Title", b"Floor")?;
/// assert_eq!(zibrunnos::split_tag(&file)?, (&b"audio"[..], &b""[..]));
/// # Ok::<(), zibrunnos::Refusal>(())
/// ```
pub fn split_tag(file: &[u8]) -> Result<(&[u8], &[u8])> {
    let (mut front, mut from, mut to) = (0, 0, 0);
    // SAFETY: a slice by its pointer and length.
    let reply = unsafe { raw::zib_split_ape_tag(file.as_ptr(), file.len(), &mut front, &mut from, &mut to) };
    done(reply, (&file[..front], &file[from..to]))
}

/// Gives the two parts of a file that stay when its tag is replaced: those of [`split_tag`], by the name that says what they are for.
///
/// ```
/// let mut block = [0; 128];
/// block[..3].copy_from_slice(b"TAG");
/// assert_eq!(zibrunnos::tag_parts(&block)?, (&b""[..], &block[..]));
/// # Ok::<(), zibrunnos::Refusal>(())
/// ```
pub fn tag_parts(file: &[u8]) -> Result<(&[u8], &[u8])> {
    let (mut front, mut from, mut to) = (0, 0, 0);
    // SAFETY: a slice by its pointer and length.
    let reply = unsafe { raw::zib_ape_tag_parts(file.as_ptr(), file.len(), &mut front, &mut from, &mut to) };
    done(reply, (&file[..front], &file[from..to]))
}

/// Cuts a file around its tag alone. The parts are those of [`split_tag`], but where nothing follows the tag, or there is none, an ID3v1 block
/// at the end of the first part stays there. Without a tag the first is the whole file.
///
/// ```
/// let mut block = [0; 128];
/// block[..3].copy_from_slice(b"TAG");
/// assert_eq!(zibrunnos::cut_tag(&block)?, (&block[..], &b""[..]));
/// assert_eq!(zibrunnos::split_tag(&block)?, (&b""[..], &block[..]));
/// # Ok::<(), zibrunnos::Refusal>(())
/// ```
pub fn cut_tag(file: &[u8]) -> Result<(&[u8], &[u8])> {
    let (mut front, mut from, mut to) = (0, 0, 0);
    // SAFETY: a slice by its pointer and length.
    let reply = unsafe { raw::zib_cut_ape_tag(file.as_ptr(), file.len(), &mut front, &mut from, &mut to) };
    done(reply, (&file[..front], &file[from..to]))
}

/// Gives the items of a file that may be edited: no items where it has no tag. [`Refusal::NotEditable`] says that it may not.
///
/// The tag must be of version 2000, start within the file, have the header that its footer speaks of, and hold exactly the items that its
/// footer counts, no more of them than [`ITEM_LIMIT`] and [`AREA_LIMIT`]. Each is text, binary or external, with no bit of its flags above
/// bit 2; its key is UTF-8, and its value too unless it is binary.
///
/// ```
/// use zibrunnos::{gate, set_item, Refusal};
///
/// let file = set_item(b"audio", b"Title", b"Floor")?;
/// assert_eq!(gate(&file)?.get(b"title")?, Some(&b"Floor"[..]));
/// assert!(gate(b"audio")?.is_empty());
/// assert_eq!(gate(&file[file.len() - 32..]), Err(Refusal::NotEditable));
/// # Ok::<(), zibrunnos::Refusal>(())
/// ```
pub fn gate(file: &[u8]) -> Result<Items> {
    let (mut start, mut end, mut count) = (0, 0, 0);
    // SAFETY: a slice by its pointer and length.
    let reply = unsafe { raw::zib_gate(file.as_ptr(), file.len(), &mut start, &mut end, &mut count) };
    done(reply, Items { bytes: file[start..end].to_vec(), count })
}

/// Sets an item in the tag of a file, as [`Items::set`] does, and gives the new file.
///
/// ```
/// let file = zibrunnos::set_item(b"audio", b"Title", b"Floor")?;
/// assert_eq!(zibrunnos::list_tag(&file), "items=1\nTITLE=Floor\n");
/// assert_eq!(zibrunnos::remove_item(&file, b"title")?, b"audio");
/// assert_eq!(zibrunnos::set_item(b"audio", b"A", b"x"), Err(zibrunnos::Refusal::BadKey));
/// # Ok::<(), zibrunnos::Refusal>(())
/// ```
pub fn set_item(file: &[u8], key: &[u8], value: &[u8]) -> Result<Vec<u8>> {
    // SAFETY: as in `read_tag`.
    filled(set_item_length(file, key, value)?, |out, room, written| unsafe {
        raw::zib_set_ape_item(
            file.as_ptr(),
            file.len(),
            key.as_ptr(),
            key.len(),
            value.as_ptr(),
            value.len(),
            out,
            room,
            written,
        )
    })
}

/// Removes every item with this key from the tag of a file, and gives the new file.
pub fn remove_item(file: &[u8], key: &[u8]) -> Result<Vec<u8>> {
    // SAFETY: as in `read_tag`.
    filled(remove_item_length(file, key)?, |out, room, written| unsafe {
        raw::zib_remove_ape_item(file.as_ptr(), file.len(), key.as_ptr(), key.len(), out, room, written)
    })
}

/// How long the file will be that [`set_item`] gives, or why it gives none.
///
/// ```
/// use zibrunnos::{remove_item_length, set_item, set_item_length, Refusal};
///
/// assert_eq!(set_item_length(b"audio", b"Title", b"Floor"), Ok(5 + 64 + 19));
/// assert_eq!(set_item_length(b"audio", b"A", b"x"), Err(Refusal::BadKey));
/// let file = set_item(b"audio", b"Title", b"Floor")?;
/// assert_eq!((file.len(), remove_item_length(&file, b"title")), (5 + 64 + 19, Ok(5)));
/// # Ok::<(), zibrunnos::Refusal>(())
/// ```
pub fn set_item_length(file: &[u8], key: &[u8], value: &[u8]) -> Result<usize> {
    // SAFETY: slices by their pointers and lengths.
    told(|bytes| unsafe {
        raw::zib_set_length(file.as_ptr(), file.len(), key.as_ptr(), key.len(), value.as_ptr(), value.len(), bytes)
    })
}

/// How long the file will be that [`remove_item`] gives, or why it gives none.
pub fn remove_item_length(file: &[u8], key: &[u8]) -> Result<usize> {
    // SAFETY: as in `set_item_length`.
    told(|bytes| unsafe { raw::zib_remove_length(file.as_ptr(), file.len(), key.as_ptr(), key.len(), bytes) })
}

/// What [`level`] and [`undo`] give.
#[derive(Clone, Debug, PartialEq, Eq)]
pub struct Levelled {
    /// The new file. Its sound is that of the old one: the caller writes the new gains into it.
    pub file: Vec<u8>,
    /// How many peak items of the new tag were left as found, so that they are those of the old loudness; 0 after an undo.
    pub peaks: usize,
}

/// Moves every gain by its side's steps, and gives the file with the undo item and the range of all gains in its tag.
///
/// A gain is the 8-bit `global_gain` of a granule and channel of an MP3 frame. `right` is empty for a mono file. Stored ReplayGain gains
/// move with the steps where these are equal and the text has the form `-3.480000 dB`; with unequal steps all ReplayGain items go.
///
/// ```
/// use zibrunnos::{level, list_tag, Mode, Refusal};
///
/// let (mut left, mut right) = ([120, 0], [254, 131]);
/// let once = level(b"audio", &mut left, &mut right, 2, 2, Mode::Saturating)?;
/// assert_eq!((left, right), ([122, 0], [255, 133]));
/// assert_eq!(list_tag(&once.file), "items=2\nMP3GAIN_UNDO=-002,-002,N\nMP3GAIN_MINMAX=000,255\n");
/// assert_eq!(level(&once.file, &mut left, &mut right, 1, 1, Mode::Wrapping), Err(Refusal::FlagDiffers));
/// # Ok::<(), zibrunnos::Refusal>(())
/// ```
pub fn level(
    file: &[u8],
    left: &mut [u8],
    right: &mut [u8],
    left_steps: i32,
    right_steps: i32,
    mode: Mode,
) -> Result<Levelled> {
    let mut peaks = 0;
    let length = level_length(file, left, right, left_steps, right_steps, mode)?;
    // SAFETY: as in `read_tag`; both lists of gains are borrowed alone.
    let file = filled(length, |out, room, written| unsafe {
        raw::zib_level(
            file.as_ptr(),
            file.len(),
            left.as_mut_ptr(),
            left.len(),
            right.as_mut_ptr(),
            right.len(),
            left_steps,
            right_steps,
            mode.wraps(),
            out,
            room,
            written,
            &mut peaks,
        )
    })?;
    Ok(Levelled { file, peaks })
}

/// How long the file will be that [`level`] gives, or why it gives none. No gain is read.
///
/// ```
/// use zibrunnos::{level, level_length, undo_length, Mode, Refusal};
///
/// assert_eq!(level_length(b"audio", &[120], &[], 2, 2, Mode::Saturating), Ok(5 + 126));
/// assert_eq!(level_length(b"audio", &[], &[], 2, 2, Mode::Saturating), Err(Refusal::NoLeftGains));
/// let once = level(b"audio", &mut [120], &mut [], 2, 2, Mode::Saturating)?;
/// assert_eq!((once.file.len(), undo_length(&once.file, &[122], &[])), (5 + 126, Ok(5)));
/// # Ok::<(), zibrunnos::Refusal>(())
/// ```
pub fn level_length(
    file: &[u8],
    left: &[u8],
    right: &[u8],
    left_steps: i32,
    right_steps: i32,
    mode: Mode,
) -> Result<usize> {
    // SAFETY: as in `set_item_length`.
    told(|bytes| unsafe {
        raw::zib_level_length(
            file.as_ptr(),
            file.len(),
            left.as_ptr(),
            left.len(),
            right.as_ptr(),
            right.len(),
            left_steps,
            right_steps,
            mode.wraps(),
            bytes,
        )
    })
}

/// Moves every gain back by the stored undo item, and gives the file without mp3gain's eight keys. ReplayGain items that were there before
/// the first level do not come back.
pub fn undo(file: &[u8], left: &mut [u8], right: &mut [u8]) -> Result<Levelled> {
    let mut peaks = 0;
    let length = undo_length(file, left, right)?;
    // SAFETY: as in `level`.
    let file = filled(length, |out, room, written| unsafe {
        raw::zib_undo(
            file.as_ptr(),
            file.len(),
            left.as_mut_ptr(),
            left.len(),
            right.as_mut_ptr(),
            right.len(),
            out,
            room,
            written,
            &mut peaks,
        )
    })?;
    Ok(Levelled { file, peaks })
}

/// How long the file will be that [`undo`] gives, or why it gives none. No gain is read.
pub fn undo_length(file: &[u8], left: &[u8], right: &[u8]) -> Result<usize> {
    // SAFETY: as in `set_item_length`.
    told(|bytes| unsafe {
        raw::zib_undo_length(file.as_ptr(), file.len(), left.as_ptr(), left.len(), right.as_ptr(), right.len(), bytes)
    })
}

/// Lists the tag of a file as lines: `items=none` for no tag, or `items=` and the number of items, and `key=value` for each.
///
/// A file of more than [`LIST_LIMIT`] bytes is listed as `refused=1`; pass its last [`LIST_LIMIT`] bytes.
///
/// ```
/// use zibrunnos::{list_tag, set_item, LIST_LIMIT};
///
/// let file = set_item(&[0; 20_000], b"Title", "Fläche".as_bytes())?;
/// assert_eq!(list_tag(&file[file.len() - LIST_LIMIT..]), "items=1\nTITLE=Fl\\c3\\a4che\n");
/// # Ok::<(), zibrunnos::Refusal>(())
/// ```
pub fn list_tag(file: &[u8]) -> String {
    let mut text: Box<[u8; 147_473]> = vec![0; 147_473].into_boxed_slice().try_into().unwrap();
    // SAFETY: the text has the bytes that the call wants.
    let n = unsafe { raw::zib_list_tag(file.as_ptr(), file.len(), &mut *text) };
    String::from_utf8_lossy(&text[..n]).into_owned()
}

/// Gives a gain after so many steps.
pub fn adjust_gain(gain: u8, steps: i32, mode: Mode) -> u8 {
    // SAFETY: numbers only.
    unsafe { raw::zib_adjust_gain_value(gain, steps, mode.wraps()) }
}

/// What a level does to a list of gains.
#[derive(Clone, Copy, Debug, PartialEq, Eq)]
pub struct Tally {
    /// How many it holds at 0.
    pub low: usize,
    /// How many it holds at 255.
    pub high: usize,
    /// How many no undo brings back: those that are not 0 and leave 1..255.
    pub lost: usize,
    /// The least of them afterwards, 255 for none.
    pub least: u8,
    /// The greatest of them afterwards, 0 for none.
    pub greatest: u8,
    /// Whether one was held.
    pub saturated: bool,
}

/// Counts what a level by so many steps does to a list of gains. No gain changes.
///
/// ```
/// use zibrunnos::{tally, Mode, Tally};
///
/// let five = tally(&[5], -5, Mode::Saturating);
/// assert_eq!(five, Tally { low: 0, high: 0, lost: 1, least: 0, greatest: 0, saturated: false });
/// assert_eq!(tally(&[5], -5, Mode::Wrapping).lost, 0);
/// ```
pub fn tally(gains: &[u8], steps: i32, mode: Mode) -> Tally {
    let (mut low, mut high, mut lost, mut least, mut greatest) = (0, 0, 0, 0, 0);
    // SAFETY: a slice by its pointer and length.
    let saturated = unsafe {
        let (g, n) = (gains.as_ptr(), gains.len());
        raw::zib_tally(g, n, steps, mode.wraps(), &mut low, &mut high, &mut lost, &mut least, &mut greatest)
    };
    Tally { low, high, lost, least: least as u8, greatest: greatest as u8, saturated }
}

/// Reads the number of the four bytes at a place, the lowest first; `None` where there are fewer.
pub fn read_u32_le(bytes: &[u8], at: usize) -> Option<u32> {
    let mut value = 0;
    // SAFETY: a slice by its pointer and length.
    let there = unsafe { raw::zib_read_u32_le(bytes.as_ptr(), bytes.len(), at, &mut value) };
    there.then_some(value)
}

/// Finds the place of the footer of a file's tag.
pub fn find_footer(file: &[u8]) -> Result<Option<usize>> {
    let (mut there, mut footer) = (0, 0);
    // SAFETY: a slice by its pointer and length.
    let reply = unsafe { raw::zib_find_ape_footer(file.as_ptr(), file.len(), &mut there, &mut footer) };
    done(reply, (there == 1).then_some(footer))
}

/// Finds where the tag starts whose footer is at this place; `None` where that lies before the file.
pub fn tag_start(file: &[u8], footer: usize) -> Result<Option<usize>> {
    let (mut there, mut start) = (0, 0);
    // SAFETY: a slice by its pointer and length.
    let reply = unsafe { raw::zib_ape_tag_start(file.as_ptr(), file.len(), footer, &mut there, &mut start) };
    done(reply, (there == 1).then_some(start))
}

/// Finds where the sound of a file ends: before its ID3v1 block, if it has one, and before the tag that stands there.
///
/// ```
/// let file = zibrunnos::set_item(b"audio", b"Title", b"Floor")?;
/// assert_eq!(zibrunnos::find_audio_end(&file)?, 5);
/// # Ok::<(), zibrunnos::Refusal>(())
/// ```
pub fn find_audio_end(file: &[u8]) -> Result<usize> {
    let mut end = 0;
    // SAFETY: a slice by its pointer and length.
    let reply = unsafe { raw::zib_find_audio_end(file.as_ptr(), file.len(), &mut end) };
    done(reply, end)
}

/// Whether a file ends in an ID3v1 block: 128 bytes that begin with `TAG`.
pub fn ends_with_id3v1(file: &[u8]) -> bool {
    // SAFETY: a slice by its pointer and length.
    unsafe { raw::zib_ends_with_id3v1(file.as_ptr(), file.len()) }
}

/// Whether a text is UTF-8.
pub fn is_utf8(text: &[u8]) -> bool {
    // SAFETY: a slice by its pointer and length.
    unsafe { raw::zib_is_utf8(text.as_ptr(), text.len()) }
}

/// The length of what [`lossy`] gives for this text, where that is at most `room`.
///
/// ```
/// use zibrunnos::{lossy_size, Refusal};
///
/// assert_eq!(lossy_size(b"\xe2\x82\x41", 4), Ok(4));
/// assert_eq!(lossy_size(b"\xe2\x82\x41", 3), Err(Refusal::NoRoom));
/// ```
pub fn lossy_size(text: &[u8], room: usize) -> Result<usize> {
    let mut size = 0;
    // SAFETY: a slice by its pointer and length.
    let reply = unsafe { raw::zib_lossy_size(text.as_ptr(), text.len(), room, &mut size) };
    done(reply, size)
}

/// Gives a text with U+FFFD in place of each part that is not UTF-8, cut as `from_utf8_lossy` cuts it.
pub fn lossy(text: &[u8]) -> Result<Vec<u8>> {
    // SAFETY: as in `read_tag`.
    filled(3 * text.len(), |out, room, written| unsafe {
        raw::zib_lossy_into(text.as_ptr(), text.len(), out, room, written)
    })
}

/// Whether a call takes this key, or gives [`Refusal::BadKey`] for it.
pub fn is_key(key: &[u8]) -> bool {
    // SAFETY: a slice by its pointer and length.
    unsafe { raw::zib_is_key(key.as_ptr(), key.len()) }
}

/// Which of mp3gain's eight keys this is, in any letter case: 0 for `MP3GAIN_UNDO` to 7 for `REPLAYGAIN_ALGORITHM`.
pub fn which_key(key: &[u8]) -> Option<usize> {
    // SAFETY: a slice by its pointer and length.
    let place = unsafe { raw::zib_which_key(key.as_ptr(), key.len()) };
    (place < 8).then_some(place)
}

/// Reads an undo text. An empty one is 0, 0 and [`Mode::Saturating`]; a right number that cannot be read is the left one.
///
/// ```
/// use zibrunnos::{format_undo, parse_undo, Mode, Steps};
///
/// let steps = Steps { left: 3, right: -12, mode: Mode::Saturating };
/// assert_eq!(format_undo(steps), "+003,-012,N");
/// assert_eq!(parse_undo(b"+003,-012,N"), steps);
/// ```
pub fn parse_undo(text: &[u8]) -> Steps {
    let (mut left, mut right, mut wrap) = (0, 0, 0);
    // SAFETY: a slice by its pointer and length.
    unsafe { raw::zib_parse_undo(text.as_ptr(), text.len(), &mut left, &mut right, &mut wrap) };
    Steps { left, right, mode: Mode::of(wrap) }
}

/// Writes an undo text.
pub fn format_undo(steps: Steps) -> String {
    // SAFETY: as in `read_tag`; no such text has more than 32 bytes.
    let text = filled(32, |out, room, written| unsafe {
        raw::zib_format_undo_value(steps.left, steps.right, steps.mode.wraps(), out, room, written)
    });
    String::from_utf8_lossy(&text.unwrap()).into_owned()
}

/// Gives the undo numbers after a further level by these steps: those of the text less the steps. Where there is no undo item yet, the text
/// is empty.
pub fn accumulate_undo(text: &[u8], left: i32, right: i32) -> (i32, i32) {
    let (mut l, mut r) = (0, 0);
    // SAFETY: a slice by its pointer and length.
    unsafe { raw::zib_accumulate_undo(text.as_ptr(), text.len(), left, right, &mut l, &mut r) };
    (l, r)
}

/// Writes the text of a range of gains, such as `094,168`.
pub fn format_minmax(least: u8, greatest: u8) -> String {
    // SAFETY: as in `read_tag`; the text has seven bytes.
    let text = filled(32, |out, room, written| unsafe { raw::zib_format_minmax(least, greatest, out, room, written) });
    String::from_utf8_lossy(&text.unwrap()).into_owned()
}

/// Whether an item is a range (`MP3GAIN_MINMAX` or `MP3GAIN_ALBUM_MINMAX`) and one of its numbers would leave 0..255.
pub fn range_wraps_out(key: &[u8], value: &[u8], steps: i32) -> bool {
    // SAFETY: slices by their pointers and lengths.
    unsafe { raw::zib_range_wraps_out(key.as_ptr(), key.len(), value.as_ptr(), value.len(), steps) }
}

/// An exact amount of decibels.
#[derive(Clone, Copy, Debug, PartialEq, Eq)]
pub struct Decibels {
    /// Whether it is below zero.
    pub minus: bool,
    /// Whole millionths of a decibel.
    pub millionths: u64,
    /// What is left over, in units of 10^-15 dB: below 1,000,000,000.
    pub rest: u64,
}

/// Gives steps as decibels, exactly: 1.505149978319906 dB each.
///
/// ```
/// use zibrunnos::{steps_to_db, Decibels};
///
/// assert_eq!(steps_to_db(-2), Decibels { minus: true, millionths: 3_010_299, rest: 956_639_812 });
/// ```
pub fn steps_to_db(steps: i32) -> Decibels {
    let (mut minus, mut millionths, mut rest) = (0, 0, 0);
    // SAFETY: numbers only.
    unsafe { raw::zib_steps_to_db(steps, &mut minus, &mut millionths, &mut rest) };
    Decibels { minus: minus == 1, millionths, rest }
}

/// The factors by which steps change the amplitude of either side.
#[derive(Clone, Copy, Debug, PartialEq)]
pub struct Amplitudes {
    pub left: f64,
    pub right: f64,
}

/// Gives 2 to the power steps / 4 for either side: a whole power of two times the `f64` nearest to the fourth root of 1, 2, 4 or 8, with
/// nothing rounded. Zero steps give exactly 1.0.
///
/// ```
/// use zibrunnos::{amplitudes, Amplitudes, Refusal};
///
/// assert_eq!(amplitudes(0, -8)?, Amplitudes { left: 1.0, right: 0.25 });
/// assert_eq!(amplitudes(2, 0)?.left, std::f64::consts::SQRT_2);
/// assert_eq!(amplitudes(0, 256), Err(Refusal::StepOutOfRange));
/// # Ok::<(), zibrunnos::Refusal>(())
/// ```
pub fn amplitudes(left_steps: i32, right_steps: i32) -> Result<Amplitudes> {
    let mut pair = Amplitudes { left: 0.0, right: 0.0 };
    // SAFETY: numbers only.
    let reply = unsafe { raw::zib_amplitudes(left_steps, right_steps, &mut pair.left, &mut pair.right) };
    done(reply, pair)
}

/// The two numbers that stand at the fixed places of a text.
#[derive(Clone, Copy, Debug, PartialEq, Eq)]
pub struct FixedRange {
    /// That of bytes 0 to 2.
    pub first: u32,
    /// That of bytes 4 to 6.
    pub second: u32,
}

/// Reads a range as an older tool does: bytes 0 to 2 and bytes 4 to 6, each as its leading digits. `None` where one of them has none.
///
/// ```
/// use zibrunnos::{fixed_range, FixedRange};
///
/// assert_eq!(fixed_range(b"94,168"), Some(FixedRange { first: 94, second: 68 }));
/// assert_eq!(fixed_range(b"+94,168"), None);
/// ```
pub fn fixed_range(text: &[u8]) -> Option<FixedRange> {
    let mut range = FixedRange { first: 0, second: 0 };
    // SAFETY: a slice by its pointer and length, and numbers.
    let there = unsafe { raw::zib_fixed_range(text.as_ptr(), text.len(), &mut range.first, &mut range.second) };
    there.then_some(range)
}

/// What the fields of a text, which this library parses, and its fixed places, which an older tool reads, say of each other.
#[derive(Clone, Copy, Debug, PartialEq, Eq)]
pub enum Views {
    /// Both read it, as the same two numbers.
    Agree,
    /// Both read it, as other numbers.
    Differ,
    /// Its fields parse, and it has no numbers at the fixed places.
    OnlyOurs,
    /// It has numbers at the fixed places, and its fields do not parse.
    OnlyFixed,
    /// Neither reads it.
    Neither,
}

/// Compares the two views of a text. Of every range that this library writes they agree.
///
/// ```
/// use zibrunnos::{compare_range_views, format_minmax, Views};
///
/// assert_eq!(compare_range_views(format_minmax(94, 168).as_bytes()), Views::Agree);
/// assert_eq!(compare_range_views(b"94,168"), Views::Differ);
/// assert_eq!(compare_range_views(b"0094,168"), Views::OnlyOurs);
/// assert_eq!(compare_range_views(b"999,001"), Views::OnlyFixed);
/// assert_eq!(compare_range_views(b"1094,168"), Views::Neither);
/// ```
pub fn compare_range_views(text: &[u8]) -> Views {
    let all = [Views::Agree, Views::Differ, Views::OnlyOurs, Views::OnlyFixed, Views::Neither];
    // SAFETY: a slice by its pointer and length.
    all[unsafe { raw::zib_compare_range_views(text.as_ptr(), text.len()) } as usize]
}

/// Moves one stored value, a range, a gain text or a peak, by so many steps and gives its new text; `None` where the value stays as it is.
pub fn shift_stored_value(key: &[u8], value: &[u8], steps: i32) -> Option<String> {
    let mut moved = 0;
    // SAFETY: as in `read_tag`; no such text has more than 32 bytes.
    let text = filled(32, |out, room, written| unsafe {
        raw::zib_shift_stored_value(
            key.as_ptr(),
            key.len(),
            value.as_ptr(),
            value.len(),
            steps,
            &mut moved,
            out,
            room,
            written,
        )
    });
    (moved == 1).then(|| String::from_utf8_lossy(&text.unwrap()).into_owned())
}

/// What a level slip asks for: steps for either side, and the mode, if it names one. [`resolve_mode`] says what a slip without a mode means
/// for a file.
#[derive(Clone, Copy, Debug, PartialEq, Eq)]
pub struct Slip {
    pub left: i32,
    pub right: i32,
    pub mode: Option<Mode>,
}

/// Reads a level slip: the lines `left=` and `right=`, each with a number, and if wanted `mode=W` or `mode=N`, each ended by LF.
///
/// ```
/// use zibrunnos::{parse_slip, Mode, Refusal, Slip};
///
/// assert_eq!(parse_slip(b"left=-3\nright=+4\nmode=W\n"), Ok(Slip { left: -3, right: 4, mode: Some(Mode::Wrapping) }));
/// assert_eq!(parse_slip(b"left=-3\nright=+4\n"), Ok(Slip { left: -3, right: 4, mode: None }));
/// assert_eq!(parse_slip(b"left=256\nright=0\n"), Err(Refusal::StepOutOfRange));
/// assert_eq!(parse_slip(b"right=0\nleft=1\n"), Err(Refusal::MalformedSlip));
/// ```
pub fn parse_slip(text: &[u8]) -> Result<Slip> {
    let (mut left, mut right, mut mode) = (0, 0, 0);
    // SAFETY: a slice by its pointer and length.
    let reply = unsafe { raw::zib_parse_slip(text.as_ptr(), text.len(), &mut left, &mut right, &mut mode) };
    done(reply, Slip { left, right, mode: (mode != UNNAMED).then(|| Mode::of(mode)) })
}

/// The number of a slip's mode where it names none.
const UNNAMED: u32 = 2;

/// What the mode of a slip means for a file: a named one itself; else the flag of the file's undo item, and W where it has none.
///
/// ```
/// use zibrunnos::{level, resolve_mode, Mode};
///
/// assert_eq!(resolve_mode(b"audio", None), Mode::Wrapping);
/// let held = level(b"audio", &mut [120], &mut [], 2, 2, Mode::Saturating)?;
/// assert_eq!(resolve_mode(&held.file, None), Mode::Saturating);
/// assert_eq!(resolve_mode(&held.file, Some(Mode::Wrapping)), Mode::Wrapping);
/// # Ok::<(), zibrunnos::Refusal>(())
/// ```
pub fn resolve_mode(file: &[u8], mode: Option<Mode>) -> Mode {
    let number = mode.map_or(UNNAMED, |mode| mode.wraps() as u32);
    let mut resolved = 0;
    // SAFETY: a slice by its pointer and length. A mode's number is never refused.
    unsafe { raw::zib_resolve_mode(file.as_ptr(), file.len(), number, &mut resolved) };
    Mode::of(resolved)
}

/// [`level`] as a slip asks: by its steps, and by its mode as [`resolve_mode`] says.
///
/// ```
/// use zibrunnos::{level_by_slip, list_tag, Refusal};
///
/// let (mut left, mut right) = ([254], []);
/// let once = level_by_slip(b"left=3\nright=3\n", b"audio", &mut left, &mut right)?;
/// assert_eq!((left, list_tag(&once.file)), ([1], "items=2\nMP3GAIN_UNDO=-003,-003,W\nMP3GAIN_MINMAX=001,001\n".to_string()));
/// let other = level_by_slip(b"left=3\nright=3\nmode=N\n", &once.file, &mut left, &mut right);
/// assert_eq!(other, Err(Refusal::FlagDiffers));
/// # Ok::<(), zibrunnos::Refusal>(())
/// ```
pub fn level_by_slip(slip: &[u8], file: &[u8], left: &mut [u8], right: &mut [u8]) -> Result<Levelled> {
    let mut peaks = 0;
    let length = level_by_slip_length(slip, file, left, right)?;
    // SAFETY: as in `level`.
    let file = filled(length, |out, room, written| unsafe {
        raw::zib_level_by_slip(
            slip.as_ptr(),
            slip.len(),
            file.as_ptr(),
            file.len(),
            left.as_mut_ptr(),
            left.len(),
            right.as_mut_ptr(),
            right.len(),
            out,
            room,
            written,
            &mut peaks,
        )
    })?;
    Ok(Levelled { file, peaks })
}

/// The gains in the sound of an MP3, frame by frame and granule by granule: those of channel 0, and those of channel 1, if there is one.
#[derive(Clone, Debug, Default, PartialEq, Eq)]
pub struct Gains {
    pub left: Vec<u8>,
    pub right: Vec<u8>,
}

/// Reads the gains of an MP3.
///
/// ```
/// use zibrunnos::{read_gains, Gains, Refusal};
///
/// let mut mp3 = vec![0xFF, 0xF3, 0x14, 0xC0, 0, 0, 0, 0x01, 0x40];
/// mp3.resize(24, 0);
/// assert_eq!(read_gains(&mp3), Ok(Gains { left: vec![80], right: vec![] }));
/// assert_eq!(read_gains(&mp3[1..]), Err(Refusal::NoFrame));
/// ```
pub fn read_gains(file: &[u8]) -> Result<Gains> {
    let read = |gains: &mut Gains| {
        let (mut left, mut right) = (0, 0);
        // SAFETY: slices by their pointers and lengths.
        let reply = unsafe {
            raw::zib_read_gains(
                file.as_ptr(),
                file.len(),
                gains.left.as_mut_ptr(),
                gains.left.len(),
                gains.right.as_mut_ptr(),
                gains.right.len(),
                &mut left,
                &mut right,
            )
        };
        done(reply, (left, right))
    };
    let mut gains = Gains::default();
    let (left, right) = read(&mut gains)?;
    gains.left.resize(left, 0);
    gains.right.resize(right, 0);
    read(&mut gains)?;
    Ok(gains)
}

/// [`level`] with the gains in the sound of the file itself, by a mode that is named, or by what [`resolve_mode`] says.
///
/// ```
/// use zibrunnos::{level_mp3, read_gains, undo_mp3};
///
/// let mut mp3 = vec![0xFF, 0xF3, 0x14, 0xC0, 0, 0, 0, 0x01, 0x40];
/// mp3.resize(184, 0);
/// let louder = level_mp3(&mp3, 5, 5, None)?;
/// assert_eq!(read_gains(&louder.file)?.left, [85]);
/// assert_eq!(undo_mp3(&louder.file)?, mp3);
/// # Ok::<(), zibrunnos::Refusal>(())
/// ```
pub fn level_mp3(file: &[u8], left_steps: i32, right_steps: i32, mode: Option<Mode>) -> Result<Levelled> {
    let number = mode.map_or(UNNAMED, |mode| mode.wraps() as u32);
    let mut peaks = 0;
    // SAFETY: as in `level`.
    let file = filled(level_room(file), |out, room, written| unsafe {
        raw::zib_level_mp3(file.as_ptr(), file.len(), left_steps, right_steps, number, out, room, written, &mut peaks)
    })?;
    Ok(Levelled { file, peaks })
}

/// How long the new file of a level can be: each item may grow by 32 bytes, the two that are set take 76 at most, and header and footer 64.
fn level_room(file: &[u8]) -> usize {
    file.len() + 32 * ITEM_LIMIT + 140
}

/// [`undo`] with the gains in the sound of the file itself: the file before it was levelled. See [`level_mp3`].
pub fn undo_mp3(file: &[u8]) -> Result<Vec<u8>> {
    let mut peaks = 0;
    // SAFETY: as in `level`.
    filled(file.len() + 11, |out, room, written| unsafe {
        raw::zib_undo_mp3(file.as_ptr(), file.len(), out, room, written, &mut peaks)
    })
}

/// How long the file will be that [`level_by_slip`] gives, or why it gives none. No gain is read.
///
/// ```
/// use zibrunnos::{level_by_slip_length, Refusal};
///
/// assert_eq!(level_by_slip_length(b"left=3\nright=3\n", b"audio", &[254], &[]), Ok(5 + 126));
/// assert_eq!(level_by_slip_length(b"left=3\n", b"audio", &[254], &[]), Err(Refusal::MalformedSlip));
/// ```
pub fn level_by_slip_length(slip: &[u8], file: &[u8], left: &[u8], right: &[u8]) -> Result<usize> {
    // SAFETY: as in `set_item_length`.
    told(|bytes| unsafe {
        raw::zib_level_by_slip_length(
            slip.as_ptr(),
            slip.len(),
            file.as_ptr(),
            file.len(),
            left.as_ptr(),
            left.len(),
            right.as_ptr(),
            right.len(),
            bytes,
        )
    })
}

#[cfg(test)]
mod tests {
    use super::*;

    #[test]
    fn every_refusal_has_its_number() {
        for number in 1..=16 {
            assert_eq!(Refusal::of(number).number(), number);
            assert!(!Refusal::of(number).to_string().is_empty());
        }
    }

    #[test]
    fn items_are_edited_and_read_back() {
        let mut items = Items::new();
        items.set(b"AB", b"c").unwrap();
        items.set_undo_gain(Steps { left: 3, right: -12, mode: Mode::Saturating }).unwrap();
        items.set_minmax(94, 168).unwrap();
        items
            .set_replaygain(ReplayGain { track_gain: b"-3.500000 dB", album_peak: b"0.9", ..Default::default() })
            .unwrap();
        assert_eq!(items.len(), 5);
        assert_eq!(items.undo_gain(), Ok(Some(3)));
        let file = replace_tag(b"audio", &items).unwrap();
        assert_eq!(read_tag(&file), Ok(Some(items.clone())));
        assert_eq!(file, [&b"audio"[..], &items.serialize().unwrap()].concat());
        items.shift_stored_gain(2, Mode::Saturating).unwrap();
        assert_eq!(items.get(b"replaygain_track_gain"), Ok(Some(&b"-6.510300 dB"[..])));
        assert_eq!(items.get(b"mp3gain_minmax"), Ok(Some(&b"096,170"[..])));
        let mut other = items.clone();
        other.remove_replaygain().unwrap();
        assert_eq!(other.len(), 3);
        other.drop_undone().unwrap();
        assert_eq!(other.len(), 3);
        items.take_mp3gain().unwrap();
        assert_eq!(items.iter().collect::<Vec<_>>(), [Item { key: b"AB", value: b"c", flags: 0 }]);
        assert_eq!(items.set(b"AB", b"\xff"), Err(Refusal::NotUtf8));
        assert_eq!(items.len(), 1);
        items.remove(b"aB").unwrap();
        assert!(items.is_empty() && items.as_bytes().is_empty());
        assert_eq!(read_tag(b"audio"), Ok(None));
        let footer = find_footer(&file).unwrap().unwrap();
        assert_eq!((read_u32_le(&file, footer + 8), read_u32_le(&file, file.len() - 3)), (Some(2000), None));
        assert_eq!(tag_start(&file, footer), Ok(Some(5)));
        assert_eq!(find_footer(b"audio"), Ok(None));
    }

    #[test]
    fn the_limits_are_those_of_the_library() {
        assert!(find_footer(&vec![0; FILE_LIMIT]).is_ok());
        assert_eq!(find_footer(&vec![0; FILE_LIMIT + 1]), Err(Refusal::FileTooLong));
        assert_eq!(list_tag(&[0; LIST_LIMIT]), "items=none\n");
        assert_eq!(list_tag(&[0; LIST_LIMIT + 1]), "refused=1\n");
        let mut file = Vec::new();
        for i in 0..ITEM_LIMIT {
            file = set_item(&file, format!("Key {i}").as_bytes(), b"").unwrap();
        }
        assert_eq!(gate(&file).unwrap().len(), ITEM_LIMIT);
        assert_eq!(set_item(&file, b"One more", b""), Err(Refusal::TagTooLarge));
        assert!(set_item(b"", b"AB", &vec![b'x'; AREA_LIMIT - 11]).is_ok());
        assert_eq!(set_item(b"", b"AB", &vec![b'x'; AREA_LIMIT - 10]), Err(Refusal::TagTooLarge));
    }

    #[test]
    fn refused_calls_change_nothing() {
        let (mut left, mut right) = (vec![250], vec![7]);
        assert_eq!(level(b"audio", &mut left, &mut right, 256, 0, Mode::Wrapping), Err(Refusal::StepOutOfRange));
        assert_eq!(undo(b"audio", &mut left, &mut right), Err(Refusal::NoUndo));
        let once = level(b"audio", &mut left, &mut right, 10, -1, Mode::Wrapping).unwrap();
        assert_eq!((left.clone(), right.clone()), (vec![4], vec![6]));
        assert_eq!(level(&once.file, &mut left, &mut right, 1, 1, Mode::Saturating), Err(Refusal::FlagDiffers));
        assert_eq!((left, right), (vec![4], vec![6]));
        assert_eq!(level(b"audio", &mut [], &mut [], 1, 1, Mode::Saturating), Err(Refusal::NoLeftGains));
    }

    #[test]
    fn a_length_is_that_of_its_file_or_the_same_refusal() {
        let (file, mut left, mut right) = (vec![7; FILE_LIMIT - 76], vec![250], vec![7]);
        assert_eq!(set_item_length(&file, b"AB", b"c"), Ok(FILE_LIMIT));
        assert_eq!(set_item(&file, b"AB", b"c").unwrap().len(), FILE_LIMIT);
        assert_eq!(set_item_length(&file, b"AB", b"cd"), Err(Refusal::NoRoom));
        assert_eq!(set_item(&file, b"AB", b"cd"), Err(Refusal::NoRoom));
        assert_eq!(level_length(&file, &left, &right, 1, 1, Mode::Wrapping), Err(Refusal::NoRoom));
        assert_eq!(level(&file, &mut left, &mut right, 1, 1, Mode::Wrapping), Err(Refusal::NoRoom));
        assert_eq!((left, right), (vec![250], vec![7]));
    }

    #[test]
    fn small_texts() {
        assert_eq!(adjust_gain(250, 10, Mode::Saturating), 255);
        assert_eq!(adjust_gain(250, 10, Mode::Wrapping), 4);
        assert!(!ends_with_id3v1(b"TAG"));
        assert!(is_utf8("€".as_bytes()) && !is_utf8(b"\xff"));
        assert_eq!(lossy(b"\xe2\x82\x41").unwrap(), "\u{FFFD}A".as_bytes());
        assert!(is_key(b"AB") && !is_key(b"tag"));
        assert_eq!((which_key(b"mp3gain_undo"), which_key(b"AB")), (Some(0), None));
        assert_eq!(accumulate_undo(b"+003,-012,N", 5, -5), (-2, -7));
        assert_eq!(format_minmax(94, 168), "094,168");
        assert!(range_wraps_out(b"MP3GAIN_MINMAX", b"094,168", 100));
        assert_eq!(shift_stored_value(b"MP3GAIN_MINMAX", b"094,168", 100).as_deref(), Some("194,255"));
        assert_eq!(shift_stored_value(b"REPLAYGAIN_TRACK_PEAK", b"0.9", 1), None);
        assert_eq!(shift_stored_value(b"REPLAYGAIN_TRACK_PEAK", b"1.000000", 1).as_deref(), Some("1.189207"));
        assert_eq!(list_tag(b""), "items=none\n");
    }
}
