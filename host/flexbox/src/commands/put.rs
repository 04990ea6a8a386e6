//! `put`: new files, all of them or none.

use super::change::change;
use super::pieces::{pieces, Piece};
use super::{date, info, plural, refused_with, with_extension};
use crate::failure::{note, Failure};
use crate::input;
use crate::words::Words;
use flex::{Diskette, Refusal, ATTRIBUTES, ATTRIBUTE_READ, DATA};

/// What is to be written is read first, so that nothing is asked of the service, and nobody waits for the image's lock,
/// where there is nothing to write: a file that is closed unwritten is no file.
pub fn run(words: &Words) -> Result<(), Failure> {
    let pieces = pieces(words)?;
    let contents: Vec<Vec<u8>> = pieces.iter().map(contents).collect::<Result<_, _>>()?;
    let date = date::today()?;
    let mut bared = Vec::new();
    change(words, |diskette| {
        for (piece, bytes) in pieces.iter().zip(&contents) {
            let shown = with_extension(&piece.shown, &piece.name);
            let unmade =
                |refusal: Refusal, more: &str| refused_with(words.image(), &format!("{}{}", shown, more), refusal);
            if words.has("--replace") && make_room(diskette, piece).map_err(|refusal| unmade(refusal, ""))? {
                bared.push(&piece.shown);
            }
            let room = Room::of(diskette);
            diskette.put(&piece.name, bytes, date).map_err(|refusal| match refusal {
                Refusal::DiskFull => unmade(refusal, &room.wanting(bytes.len())),
                _ => unmade(refusal, ""),
            })?;
        }
        Ok(())
    })?;
    // Nothing refuses this, and the file can now be read.
    for shown in bared {
        note(&format!("{}, {}: the old file was read-protected; the new one is not", words.image().display(), shown));
    }
    Ok(())
}

/// What there is for a new file before it is made.
struct Room {
    free: usize,
    has_slot: bool,
}

impl Room {
    fn of(diskette: &mut Diskette) -> Room {
        let free = info::Record::read(diskette).map_or(0, |record| record.free.into());
        let has_slot = diskette.slots().map_or(false, |slots| slots.iter().any(|slot| slot.entry().is_none()));
        Room { free, has_slot }
    }

    /// How much a file of so many bytes needs, where there is not enough.
    fn wanting(&self, bytes: usize) -> String {
        let sectors = plural((bytes + DATA - 1) / DATA, "sector");
        let slot = if self.has_slot { "" } else { " and one for the directory, which has no slot left" };
        format!(": {} bytes need {}{}, and {} free", bytes, sectors, slot, are(self.free))
    }
}

fn are(count: usize) -> String {
    match count {
        1 => "1 is".to_string(),
        count => format!("{} are", count),
    }
}

fn contents(piece: &Piece) -> Result<Vec<u8>, Failure> {
    match &piece.file {
        Some(path) => input::file(path),
        None => input::standard_input(),
    }
}

/// The old file goes from the copy in memory alone: it is lost only when the new one is saved in its place. Gives whether it was
/// read-protected, by the slot that a delete leaves in the block.
fn make_room(diskette: &mut Diskette, piece: &Piece) -> Result<bool, Refusal> {
    match diskette.delete(&piece.name) {
        Ok(()) => Ok(diskette.block(0)[ATTRIBUTES] & ATTRIBUTE_READ != 0),
        Err(Refusal::NotFound) => Ok(false),
        Err(refusal) => Err(refusal),
    }
}
