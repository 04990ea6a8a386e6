//! `get`: the bytes of files, and whether they can be what was written.

use super::pieces::{pieces, Piece};
use super::{by_slot, print_all, refused, refused_of, refused_with, told_name};
use crate::check::{self, Check};
use crate::failure::{note, Failure};
use crate::image::{is_same, Image};
use crate::replace::{folder, write_file};
use crate::words::Words;
use flex::{Diskette, Name, Reading, Refusal, Slot};
use std::fmt::Display;
use std::fs::{self, Metadata};
use std::os::unix::fs::MetadataExt;
use std::path::{Path, PathBuf};

/// All files are read before the first is given, so that a refusal gives nothing.
pub fn run(words: &Words) -> Result<(), Failure> {
    let pieces = wanted(words)?;
    let mut image = Image::look(words.image(), words.wait())?;
    let mut diskette = Diskette::new(image.read()?);
    let check = check::check(&mut diskette).map_err(refused_of(words, &diskette))?;
    let mut readings = Vec::new();
    let mut all_sound = true;
    for piece in &pieces {
        let reading = read(&mut diskette, piece).map_err(|refusal| unread(words, &mut diskette, piece, refusal))?;
        all_sound &= vouch(words, &check, piece, &reading)?;
        readings.push(reading);
    }
    let own = image.metadata().map_err(|error| Failure::File(error.to_string()))?;
    look_at_places(words, &pieces, &own)?;
    // Whoever takes the bytes may be slow, and no change has to wait for that: the lock goes.
    drop(image);
    for (piece, reading) in pieces.iter().zip(&readings) {
        give(words, piece, trimmed(words, &reading.bytes))?;
    }
    // What is wrong has been said; the bytes are given, but not as if they were right.
    match all_sound {
        true => Ok(()),
        false => Err(Failure::Shown),
    }
}

/// By names, or one by its slot: then the word behind the image, if there is one, is where it goes.
fn wanted(words: &Words) -> Result<Vec<Piece>, Failure> {
    match by_slot::number(words)? {
        Some(number) => {
            words.expect_others(0..=1)?;
            let file = words.others().first().map(PathBuf::from);
            let shown = by_slot::shown(number);
            Ok(vec![Piece { name: Name::of([0; 11]), shown, slot: Some(number), file }])
        }
        None => {
            words.expect_others(1..=usize::MAX)?;
            pieces(words)
        }
    }
}

fn unread(words: &Words, diskette: &mut Diskette, piece: &Piece, refusal: Refusal) -> Failure {
    let what = match piece.slot {
        Some(number) => by_slot::refused_slot(number, refusal),
        None => told_name(&piece.shown, &piece.name, refusal, diskette),
    };
    refused_with(words.image(), &what, refusal)
}

fn read(diskette: &mut Diskette, piece: &Piece) -> Result<Reading, Refusal> {
    match piece.slot {
        Some(number) => by_slot::get(diskette, number),
        None => diskette.get(&piece.name),
    }
}

/// Whether the file is as its slot states and in no other chain. If not, only `--force` goes on.
fn vouch(words: &Words, check: &Check, piece: &Piece, reading: &Reading) -> Result<bool, Failure> {
    let doubts = doubts(check, piece, reading);
    if let Some((refusal, _)) = doubts.first() {
        let texts: Vec<&str> = doubts.iter().map(|(_, text)| text.as_str()).collect();
        let failure = refused(words.image(), &format!("{}: {}", piece.shown, texts.join("; ")))(*refusal);
        if !words.has("--force") {
            return Err(failure);
        }
        failure.say();
        note(&format!("{}: given all the same by --force", piece.shown));
        return Ok(false);
    }
    if let Err(refusal) = check.verdict {
        let text = "damaged, but not in this file, which is chained as stated and shares no sector";
        note(&format!("{}, {}: {}: {}", words.image().display(), piece.shown, text, refusal));
    }
    Ok(true)
}

/// Why the bytes may not be the file's, each with the census's number for it.
fn doubts(check: &Check, piece: &Piece, reading: &Reading) -> Vec<(Refusal, String)> {
    let is_read = |slot: &&Slot| match piece.slot {
        Some(number) => slot.number == number,
        None => slot.entry() == Some(&reading.entry),
    };
    let slot = check.slots.iter().find(is_read);
    let found = slot.into_iter().flat_map(|slot| check.of_slot(slot.number));
    let mut doubts: Vec<(Refusal, String)> = found
        .map(|finding| (Refusal::of(finding.number as u32).unwrap_or(Refusal::CensusFile), finding.text.clone()))
        .collect();
    if !reading.is_as_stated() {
        doubts.push((Refusal::CensusFile, difference(reading)));
    }
    doubts
}

fn difference(reading: &Reading) -> String {
    let stated = format!("its slot states {} sectors to {}", reading.entry.sectors, reading.entry.end);
    match reading.stopped {
        None => format!("{}, and its chain has no end", stated),
        Some(Refusal::End) => format!("{}, and {} were read, to {}", stated, reading.sectors(), reading.last),
        Some(_) => format!("{}, and after {} there is a bad address", stated, reading.sectors()),
    }
}

fn trimmed<'a>(words: &Words, bytes: &'a [u8]) -> &'a [u8] {
    match words.has("--trim") {
        true => &bytes[..bytes.iter().rposition(|&byte| byte != 0).map_or(0, |last| last + 1)],
        false => bytes,
    }
}

/// Where the files go is looked at before the first is written.
fn look_at_places(words: &Words, pieces: &[Piece], image: &Metadata) -> Result<(), Failure> {
    let mut places = Vec::new();
    for path in pieces.iter().filter_map(|piece| piece.file.as_deref()) {
        if let Some(why) = unfit(path, words.has("--replace"), image) {
            return Err(unwritten(path, why));
        }
        let place = place(path);
        if places.contains(&place) {
            return Err(Failure::Usage(format!("{}: two files would be written to it", path.display())));
        }
        places.push(place);
    }
    Ok(())
}

/// A file that is there stays unless it is to be replaced, and one that is read-only or has several names then, too; the image itself is never written to, and a
/// folder can't be.
fn unfit(path: &Path, replace: bool, image: &Metadata) -> Option<&'static str> {
    match fs::metadata(path) {
        Ok(there) if is_same(&there, image) => Some("this is the image itself"),
        Ok(there) if there.is_dir() => Some("this is a folder"),
        Ok(there) if replace && there.is_file() && there.mode() & 0o222 == 0 => {
            Some("it has no write permission; not replaced")
        }
        Ok(there) if replace && there.is_file() && there.nlink() > 1 => {
            Some("it has several hard links, and its other names would keep the old bytes; not replaced")
        }
        Ok(_) if replace => None,
        Ok(there) => Some(way_out(&there)),
        // A link that leads nowhere is no place for a file.
        Err(_) => fs::symlink_metadata(path).ok().map(|_| "it is there already, a link that leads nowhere"),
    }
}

/// What is no plain file is written to, as `write` does it.
fn way_out(there: &Metadata) -> &'static str {
    match there.is_file() {
        true => "it is there already; --replace would replace it",
        false => "it is there already; --replace would write to it",
    }
}

/// The same for all paths that lead to one file, be it there or not.
fn place(path: &Path) -> PathBuf {
    let new = || Some(fs::canonicalize(folder(path)).ok()?.join(path.file_name()?));
    fs::canonicalize(path).ok().or_else(new).unwrap_or_else(|| path.to_path_buf())
}

fn unwritten(path: &Path, why: impl Display) -> Failure {
    Failure::File(format!("{}: {}", path.display(), why))
}

fn give(words: &Words, piece: &Piece, bytes: &[u8]) -> Result<(), Failure> {
    match &piece.file {
        None => print_all(bytes),
        Some(path) => write(path, bytes, words.has("--replace")),
    }
}

/// A file takes its place whole or not at all, as an image does. A link stays: what it leads to is replaced. What is no plain file (a
/// device, a FIFO) is written to.
fn write(path: &Path, bytes: &[u8], replace: bool) -> Result<(), Failure> {
    match fs::metadata(path) {
        Ok(there) if replace && there.is_file() => {
            let target = fs::canonicalize(path).map_err(|error| unwritten(path, error))?;
            write_file(&target, Some(&there), bytes).map_err(Failure::File)
        }
        Ok(_) if replace => fs::write(path, bytes).map_err(|error| unwritten(path, error)),
        _ => write_file(path, None, bytes).map_err(Failure::File),
    }
}
