//! Stands in for `src/error.rs`: the errors that `ape.rs` and `frame.rs` name.

use std::path::{Path, PathBuf};

pub type Result<T> = std::result::Result<T, Error>;

#[derive(Debug)]
pub enum Error {
    Io { path: PathBuf, source: std::io::Error },
    ReadOnly { path: PathBuf },
    NoMp3Frames,
}

impl Error {
    pub fn io_read(path: &Path, source: std::io::Error) -> Self {
        Error::Io { path: path.to_path_buf(), source }
    }

    pub fn io_write(path: &Path, source: std::io::Error) -> Self {
        Error::Io { path: path.to_path_buf(), source }
    }
}
