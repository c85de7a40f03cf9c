//! The end of a file: its tag read with two small reads, and rewritten where it is.

use crate::{done, filled, raw, Items, Refusal, Result, FILE_LIMIT};
use std::fmt;
use std::fs::File;
use std::io::{self, Read, Seek, SeekFrom, Write};

/// How many final bytes of a file say how many of them reading needs.
pub const PROBE: usize = 160;

/// Gives how many final bytes of a file of `total` bytes [`read_end`] needs, by its last [`PROBE`] bytes, or all of them where it has fewer.
///
/// ```
/// let file = zibrunnos::set_item(&[0; 5000], b"Title", &[b'x'; 300])?;
/// assert_eq!(zibrunnos::bytes_needed(&file[file.len() - 160..], file.len())?, 32 + 8 + 6 + 300 + 32 + 32);
/// assert_eq!(zibrunnos::bytes_needed(&[0; 160], 5000)?, 160);
/// # Ok::<(), zibrunnos::Refusal>(())
/// ```
pub fn bytes_needed(probe: &[u8], total: usize) -> Result<usize> {
    let mut needed = 0;
    // SAFETY: a slice by its pointer and length.
    let reply = unsafe { raw::zib_bytes_needed(probe.as_ptr(), probe.len(), total, &mut needed) };
    done(reply, needed)
}

/// Reads the items of a file's tag from its final bytes, as many as [`bytes_needed`] says, as [`read_tag`](crate::read_tag) does from all of them.
///
/// ```
/// use zibrunnos::{bytes_needed, read_end, read_tag, set_item};
///
/// let file = set_item(&[0; 5000], b"Title", b"Floor")?;
/// let needed = bytes_needed(&file[file.len() - 160..], file.len())?;
/// assert_eq!(read_end(&file[file.len() - needed..], file.len())?, read_tag(&file)?);
/// # Ok::<(), zibrunnos::Refusal>(())
/// ```
pub fn read_end(end: &[u8], total: usize) -> Result<Option<Items>> {
    let (mut there, mut count) = (0, 0);
    // SAFETY: each pointer is that of a slice with the length beside it; the output is a new one.
    let bytes = filled(3 * end.len(), |out, room, written| unsafe {
        raw::zib_read_end(end.as_ptr(), end.len(), total, out, room, &mut there, &mut count, written)
    })?;
    Ok((there == 1).then_some(Items { bytes, count }))
}

/// Why a file was not read or not rewritten.
#[derive(Debug)]
pub enum FileError {
    /// The file could not be read or written.
    Io(io::Error),
    /// The call was refused.
    Refused(Refusal),
}

impl fmt::Display for FileError {
    fn fmt(&self, f: &mut fmt::Formatter) -> fmt::Result {
        match self {
            FileError::Io(e) => e.fmt(f),
            FileError::Refused(r) => r.fmt(f),
        }
    }
}

impl std::error::Error for FileError {}

impl From<io::Error> for FileError {
    fn from(e: io::Error) -> FileError {
        FileError::Io(e)
    }
}

impl From<Refusal> for FileError {
    fn from(r: Refusal) -> FileError {
        FileError::Refused(r)
    }
}

/// Reads the final bytes of a file that hold its tag, and gives them with the length of the file. It reads no byte before them, and none twice.
///
/// A file of more than [`FILE_LIMIT`] bytes is refused by its length, whatever stands in it.
pub fn read_needed(file: &mut (impl Read + Seek)) -> std::result::Result<(Vec<u8>, usize), FileError> {
    let total = usize::try_from(file.seek(SeekFrom::End(0))?).unwrap_or(usize::MAX);
    let mut probe = vec![0; total.min(PROBE)];
    file.seek(SeekFrom::Start((total - probe.len()) as u64))?;
    file.read_exact(&mut probe)?;
    let needed = bytes_needed(&probe, total)?;
    let more = needed - probe.len();
    let mut end = vec![0; more];
    if more > 0 {
        file.seek(SeekFrom::Start((total - needed) as u64))?;
        file.read_exact(&mut end)?;
    }
    end.extend(probe);
    Ok((end, total))
}

/// Reads the items of the tag of a file of any length with two small reads of its end; `None` where the file has no tag.
///
/// ```
/// use std::io::Cursor;
///
/// let file = zibrunnos::set_item(&[0; 5000], b"Title", b"Floor")?;
/// let items = zibrunnos::read_tag_from(&mut Cursor::new(&file)).expect("a tag that is read");
/// assert_eq!(items, zibrunnos::read_tag(&file)?);
/// # Ok::<(), zibrunnos::Refusal>(())
/// ```
pub fn read_tag_from(file: &mut (impl Read + Seek)) -> std::result::Result<Option<Items>, FileError> {
    let (end, total) = read_needed(file)?;
    Ok(read_end(&end, total)?)
}

/// Where a rewritten file differs from the old one: from `end` on, up to `length`, which is its new length.
#[derive(Clone, Copy, Debug, PartialEq, Eq)]
pub struct Rewritten {
    /// The first place that is written; the old length where nothing is.
    pub end: usize,
    pub length: usize,
}

/// Rewrites the end of the file of `total` bytes at the front of a buffer, where it is, with these items for its tag.
///
/// The new file is that of [`replace_tag`](crate::replace_tag), except where an ID3v1 block lies before the tag, which stays there. What has to
/// be written to a card is `buf[end..length]`, in rising order; the file's length is set last. [`rewrite_tag_in`] does that.
/// [`Refusal::NoRoom`] says that the buffer is shorter than `total` or than the new file: `total + items.as_bytes().len() + 64` bytes are enough.
///
/// ```
/// use zibrunnos::{rewrite_tail, set_item, Items, Rewritten};
///
/// let mut items = Items::new();
/// items.set(b"Title", b"Floor")?;
/// let mut buf = [&b"audio"[..], &[0; 100]].concat();
/// assert_eq!(rewrite_tail(&mut buf, 5, &items)?, Rewritten { end: 5, length: 88 });
/// assert_eq!(buf[..88], set_item(b"audio", b"Title", b"Floor")?);
/// # Ok::<(), zibrunnos::Refusal>(())
/// ```
pub fn rewrite_tail(buf: &mut [u8], total: usize, items: &Items) -> Result<Rewritten> {
    let (mut length, mut end) = (total, 0);
    let a = items.as_bytes();
    // SAFETY: each pointer is that of a slice with the length beside it, and they do not overlap.
    let reply = unsafe {
        raw::zib_rewrite_ape_tail(buf.as_mut_ptr(), buf.len(), &mut length, a.as_ptr(), a.len(), items.len(), &mut end)
    };
    done(reply, Rewritten { end, length })
}

/// What is found of a rewriting that was cut: whether all writes were made, the first place that is written, and the length of the file.
#[derive(Clone, Copy, Debug, PartialEq, Eq)]
pub struct Found {
    pub whole: bool,
    pub end: usize,
    pub length: usize,
}

/// Makes only the first `budget` writes of [`rewrite_tail`], each byte being one, and the one behind the last byte setting the length: what is found
/// where power fails then.
///
/// ```
/// use zibrunnos::{rewrite_within, Found, Items};
///
/// let mut items = Items::new();
/// items.set(b"Title", b"Floor")?;
/// let mut buf = [&b"audio"[..], &[0; 100]].concat();
/// assert_eq!(rewrite_within(&mut buf, 5, &items, 8)?, Found { whole: false, end: 5, length: 13 });
/// assert_eq!(buf[..13], *b"audioAPETAGEX");
/// # Ok::<(), zibrunnos::Refusal>(())
/// ```
pub fn rewrite_within(buf: &mut [u8], total: usize, items: &Items, budget: usize) -> Result<Found> {
    let (mut length, mut end, mut whole) = (total, 0, 0);
    let a = items.as_bytes();
    let (b, n) = (buf.as_mut_ptr(), buf.len());
    // SAFETY: as in `rewrite_tail`.
    let reply = unsafe {
        raw::zib_rewrite_within(b, n, &mut length, a.as_ptr(), a.len(), items.len(), budget, &mut whole, &mut end)
    };
    done(reply, Found { whole: whole == 1, end, length })
}

/// A file that can be rewritten where it is.
pub trait Medium: Read + Write + Seek {
    /// Sets the length of the file.
    fn set_length(&mut self, length: u64) -> io::Result<()>;

    /// Waits until all that was written is on the medium.
    fn sync(&mut self) -> io::Result<()>;
}

impl Medium for File {
    fn set_length(&mut self, length: u64) -> io::Result<()> {
        self.set_len(length)
    }

    fn sync(&mut self) -> io::Result<()> {
        self.sync_data()
    }
}

/// How many bytes are written before the medium is waited for.
const SECTOR: usize = 512;

/// Puts these items in place of the tag of a file where it is, and gives the new length. The whole file is read; only its end is written: from the
/// audio end on in rising order, up to the next multiple of 512 bytes at a time, each waited for; the length is set last.
///
/// What a power failure can leave is said under "Torn tags" in `docs/LIBRARY.md`: every byte of the sound, and a tag of new and old bytes, which may be
/// one that was never stored. A refused call writes nothing.
///
/// ```no_run
/// use zibrunnos::{read_tag_from, rewrite_tag_in};
///
/// let mut file = std::fs::File::options().read(true).write(true).open("loop.mp3")?;
/// let mut items = read_tag_from(&mut file)?.unwrap_or_default();
/// items.set(b"Title", b"Floor")?;
/// rewrite_tag_in(&mut file, &items)?;
/// # Ok::<(), Box<dyn std::error::Error>>(())
/// ```
pub fn rewrite_tag_in(file: &mut impl Medium, items: &Items) -> std::result::Result<usize, FileError> {
    let total = usize::try_from(file.seek(SeekFrom::End(0))?).unwrap_or(usize::MAX);
    if total > FILE_LIMIT {
        return Err(FileError::Refused(Refusal::FileTooLong));
    }
    let mut buf = vec![0; total + items.as_bytes().len() + 64];
    file.seek(SeekFrom::Start(0))?;
    file.read_exact(&mut buf[..total])?;
    let Rewritten { end, length } = rewrite_tail(&mut buf, total, items)?;
    file.seek(SeekFrom::Start(end as u64))?;
    let mut at = end;
    while at < length {
        let next = ((at / SECTOR + 1) * SECTOR).min(length);
        file.write_all(&buf[at..next])?;
        file.sync()?;
        at = next;
    }
    if length < total {
        file.set_length(length as u64)?;
        file.sync()?;
    }
    Ok(length)
}
