//! The files that `get` and `put` are asked for, each with where its bytes come from or go to.
//!
//! NAME.EXT=FILE names both sides. With `--files` each word is both: `put --files disk logs/NIGHT.TXT` makes NIGHT.TXT of that
//! file, `get --files disk NIGHT.TXT` makes the file NIGHT.TXT in the current folder. One NAME.EXT alone is standard input
//! or output.

use super::{full, typed};
use crate::failure::Failure;
use crate::words::{text, Words};
use flex::Name;
use std::ffi::{OsStr, OsString};
use std::os::unix::ffi::OsStrExt;
use std::path::{Path, PathBuf};

pub struct Piece {
    pub name: Name,
    /// The name as it was typed.
    pub shown: String,
    /// The number of its slot, where it is reached by that and not by the name.
    pub slot: Option<usize>,
    /// None: standard input or output.
    pub file: Option<PathBuf>,
}

pub fn pieces(words: &Words) -> Result<Vec<Piece>, Failure> {
    let all: Vec<Piece> =
        words.others().iter().map(|word| piece(word, words.has("--files"))).collect::<Result<_, _>>()?;
    if all.len() > 1 && all.iter().any(|piece| piece.file.is_none()) {
        return Err(Failure::Usage("several files need NAME.EXT=FILE each, or --files".to_string()));
    }
    for (i, piece) in all.iter().enumerate() {
        if all[..i].iter().any(|earlier| full(&earlier.name) == full(&piece.name)) {
            return Err(Failure::Usage(format!("{} is named twice", piece.shown)));
        }
    }
    Ok(all)
}

fn piece(word: &OsString, files: bool) -> Result<Piece, Failure> {
    if files {
        return of_path(word);
    }
    let bytes = word.as_bytes();
    let (shown, file) = match bytes.iter().position(|&byte| byte == b'=') {
        Some(at) if at + 1 == bytes.len() => {
            return Err(Failure::Usage(format!("'{}': no FILE follows its '='", word.to_string_lossy())));
        }
        Some(at) => (os(&bytes[..at]), Some(PathBuf::from(os(&bytes[at + 1..])))),
        None => (word.clone(), None),
    };
    let shown = text(&shown)?.to_string();
    Ok(Piece { name: typed(&shown)?, shown, slot: None, file })
}

/// The word is a path as it stands: a folder may well have a '=' in its name. A file on a diskette has none, so one who
/// wrote NAME.EXT=FILE all the same is told.
fn of_path(word: &OsString) -> Result<Piece, Failure> {
    let shown = text(&last_part(word))?.to_string();
    if shown.contains('=') {
        let why = "with --files each word is a FILE, and no name on a diskette has a '='; NAME.EXT=FILE is for without --files";
        return Err(Failure::Usage(format!("'{}': {}", word.to_string_lossy(), why)));
    }
    Ok(Piece { name: typed(&shown)?, shown, slot: None, file: Some(PathBuf::from(word)) })
}

fn os(bytes: &[u8]) -> OsString {
    OsStr::from_bytes(bytes).to_os_string()
}

fn last_part(word: &OsString) -> OsString {
    Path::new(word).file_name().unwrap_or(word).to_os_string()
}
