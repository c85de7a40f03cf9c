//! Levels and undoes an MP3 loop in its file by the calls on the gains in its sound.
//!
//!     loop_mp3 level FILE LEFT RIGHT [N|W]    move the gains of either side by so many steps; N, the default, holds them within 0..255
//!     loop_mp3 undo FILE                      bring them back, and take mp3gain's items out of the tag
//!     loop_mp3 list FILE                      list the tag in the last 16,384 bytes
//!
//! The file is replaced as a whole, or not at all. A link is followed; owner, mode and times are kept; a read-only file is refused. Where the file
//! has a second name (a hard link), that name keeps the old bytes.
//!
//! The frames are those of MPEG-1 and MPEG-2 Layer III, an encoder's table (Xing, Info) among them; what is no whole frame is left as it is. A loop
//! without such a frame is refused (15), and one with a frame that has a checksum (16). MPEG 2.5 and the free format have no such frame, but bytes of
//! their sound may look like one: do not level them.
//!
//! An MP3 with one channel moves by LEFT, which is stored for both sides. In joint stereo the two channels may be the sum and the difference of
//! left and right: give both the same number of steps there, which is not tested.

use std::ffi::OsString;
use std::fs::{self, File, FileTimes, Metadata, OpenOptions};
use std::io::{self, Read, Seek, SeekFrom, Write};
use std::os::unix::fs::{fchown, MetadataExt, OpenOptionsExt};
use std::path::Path;
use std::process::ExitCode;
use zibrunnos::{
    bytes_needed, find_footer, level_mp3, list_tag, read_gains, read_u32_le, tag_parts, undo_mp3, Mode, Refusal,
    FILE_LIMIT, LIST_LIMIT, PROBE,
};

/// What is asked for.
#[derive(Clone, Copy)]
pub enum Call {
    Level(i32, i32, Mode),
    Undo,
    List,
}

/// The file after a level or an undo, and what its owner should know.
pub fn changed(file: &[u8], call: Call) -> Result<(Vec<u8>, Vec<String>), String> {
    let refused = |r: Refusal| format!("{r} (refusal {})", r.number());
    let mut notes = Vec::new();
    let (left, mut right, mode) = match call {
        Call::Level(left, right, mode) => (left, right, mode),
        Call::Undo => return Ok((undo_mp3(file).map_err(refused)?, notes)),
        Call::List => return Ok((file.to_vec(), notes)),
    };
    if left != right && read_gains(file).is_ok_and(|gains| gains.right.is_empty()) {
        right = left;
        notes.push(format!("it has one channel, which is moved by {left}"));
    }
    let new = level_mp3(file, left, right, Some(mode)).map_err(refused)?;
    // The undo has to find the same sound. It would not where a gain becomes part of what looks like an ID3v1 block in front of the tag.
    if tag_parts(&new.file).map_err(refused)?.0.len() != tag_parts(file).map_err(refused)?.0.len() {
        return Err("with these gains its end would look like part of a tag, and an undo would miss it".to_string());
    }
    match new.peaks {
        0 => {}
        1 => notes.push("1 peak in its tag was left as it was: it is still that from before".to_string()),
        n => notes.push(format!("{n} peaks in its tag were left as they were: they are still those from before")),
    }
    Ok((new.file, notes))
}

/// Replaces a file as a whole: what is new is written beside it, brought to the disk, and renamed.
fn replace(path: &Path, old: &Metadata, bytes: &[u8]) -> io::Result<()> {
    let beside = path.with_file_name(format!(".loop_mp3-{}.new", std::process::id()));
    let mut out = OpenOptions::new().write(true).create_new(true).mode(0o600).open(&beside)?;
    let mut write = || {
        out.write_all(bytes)?;
        let new = out.metadata()?;
        if (new.uid(), new.gid()) != (old.uid(), old.gid()) {
            fchown(&out, Some(old.uid()), Some(old.gid()))?;
        }
        out.set_permissions(old.permissions())?;
        out.set_times(FileTimes::new().set_accessed(old.accessed()?).set_modified(old.modified()?))?;
        out.sync_all()?;
        fs::rename(&beside, path)
    };
    write().inspect_err(|_| drop(fs::remove_file(&beside)))?;
    // The new name is brought to the disk too. The file is replaced by now, whether or not this works.
    if let Some(folder) = path.parent() {
        let _ = File::open(folder).and_then(|f| f.sync_all());
    }
    Ok(())
}

/// The listing of the tag of a file. No more of its end is read than the tag needs, and where that is more than is listed, no more than is listed.
fn listed(path: &Path) -> Result<String, String> {
    let mut file = File::open(path).map_err(|e| e.to_string())?;
    let probe = last_bytes(&mut file, PROBE as u64).map_err(|e| e.to_string())?;
    let length = file.metadata().map_err(|e| e.to_string())?.len();
    let needed = bytes_needed(&probe, usize::try_from(length).unwrap_or(usize::MAX).min(FILE_LIMIT));
    let most = needed.map_err(|why| why.to_string())?.min(LIST_LIMIT) as u64;
    let end = last_bytes(&mut file, most).map_err(|e| e.to_string())?;
    if let Ok(Some(footer)) = find_footer(&end) {
        let size = read_u32_le(&end, footer + 12).unwrap_or(0) as usize;
        if length > most && size > footer + 32 {
            return Err(format!(
                "its tag has {size} bytes by its footer; only the last 16,384 bytes of a file are listed"
            ));
        }
    }
    Ok(list_tag(&end))
}

/// The last bytes of a file, at most so many.
fn last_bytes(file: &mut File, most: u64) -> io::Result<Vec<u8>> {
    let length = file.metadata()?.len();
    file.seek(SeekFrom::Start(length.saturating_sub(most)))?;
    let mut bytes = Vec::new();
    file.take(most).read_to_end(&mut bytes)?;
    Ok(bytes)
}

/// Does what is asked for: the text to print, and what the file's owner should know.
pub fn run(call: Call, name: &Path) -> Result<(String, Vec<String>), String> {
    let path = fs::canonicalize(name).map_err(|e| e.to_string())?;
    let about = fs::metadata(&path).map_err(|e| e.to_string())?;
    if !about.is_file() {
        return Err("it is no regular file".to_string());
    }
    if let Call::List = call {
        return Ok((listed(&path)?, Vec::new()));
    }
    // A user who may write everything is kept from it by the mode alone.
    if about.permissions().readonly() {
        return Err("it is read-only".to_string());
    }
    OpenOptions::new().write(true).open(&path).map_err(|e| format!("it cannot be written: {e}"))?;
    // One byte more than a file may have is enough to be refused.
    let file =
        File::open(&path).and_then(|mut f| last_bytes(&mut f, FILE_LIMIT as u64 + 1)).map_err(|e| e.to_string())?;
    let (new, notes) = changed(&file, call).map_err(|why| format!("{why}; the file is as it was"))?;
    replace(&path, &about, &new).map_err(|e| format!("it cannot be replaced: {e}; the file is as it was"))?;
    Ok((String::new(), notes))
}

/// What the words of the command line ask for, and of which file.
pub fn call_of(words: &[OsString]) -> Result<(Call, &Path), String> {
    let usage = "usage: loop_mp3 level FILE LEFT RIGHT [N|W] | loop_mp3 undo FILE | loop_mp3 list FILE";
    let steps = |word: &OsString| {
        let number = word.to_str().and_then(|w| w.parse().ok());
        number.ok_or_else(|| format!("{} is not a number of steps", word.display()))
    };
    match words {
        [what, name, left, right, rest @ ..] if what == "level" && rest.len() < 2 => {
            let mode = match rest.first().map(|m| m.to_str()) {
                None | Some(Some("N")) => Mode::Saturating,
                Some(Some("W")) => Mode::Wrapping,
                _ => return Err(usage.to_string()),
            };
            Ok((Call::Level(steps(left)?, steps(right)?, mode), Path::new(name)))
        }
        [what, name] if what == "undo" => Ok((Call::Undo, Path::new(name))),
        [what, name] if what == "list" => Ok((Call::List, Path::new(name))),
        _ => Err(usage.to_string()),
    }
}

fn main() -> ExitCode {
    let words: Vec<OsString> = std::env::args_os().skip(1).collect();
    let say = |text: String| drop(writeln!(io::stderr(), "{text}"));
    let (call, name) = match call_of(&words) {
        Ok(asked) => asked,
        Err(why) => {
            say(why);
            return ExitCode::from(2);
        }
    };
    match run(call, name) {
        Ok((text, notes)) => {
            notes.iter().for_each(|note| say(format!("loop_mp3: {}: {note}", name.display())));
            // Whoever reads the listing may stop early.
            drop(io::stdout().write_all(text.as_bytes()));
            ExitCode::SUCCESS
        }
        Err(why) => {
            say(format!("loop_mp3: {}: {why}", name.display()));
            ExitCode::FAILURE
        }
    }
}
