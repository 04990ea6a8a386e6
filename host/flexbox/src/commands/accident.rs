//! The last part of `demo`: the accident on a copy of a diskette, two files that end on one shared sector, and its repair.

use super::demo::say;
use super::{census, check, look, refused, repair};
use crate::failure::Failure;
use crate::replace;
use crate::words::Words;
use flex::{Address, Diskette, Name, Refusal, Slot, END, NAME, SECTOR, SLOT};
use std::path::Path;

/// `words` are of the diskette, `damaged` of the copy that is made of it.
pub fn repaired(words: &Words, damaged: &Words) -> Result<(), Failure> {
    let mut diskette = look(words)?;
    let names = match happen(&mut diskette).map_err(refused(words.image(), ""))? {
        Some(names) => names,
        None => return say("It has no two files that could share a sector, so no repair is shown."),
    };
    let path: &Path = damaged.image();
    replace::make(path, diskette.image()).map_err(Failure::File)?;
    say(&format!(
        "An accident on a copy, {}: raw writes let {} and {} end on one shared sector. Check it:",
        path.display(),
        names[0],
        names[1]
    ))?;
    as_damaged(check::run(damaged))?;
    say("What would a repair do?")?;
    as_damaged(repair::run(&damaged.with("--dry-run")))?;
    say("Repair it. Nobody is asked here, by --yes:")?;
    as_damaged(repair::run(&damaged.with("--yes")))?;
    say("Its census: every sector is in one file or free again.")?;
    census::run(damaged)
}

/// A damaged diskette is no failure here.
fn as_damaged(result: Result<(), Failure>) -> Result<(), Failure> {
    match result {
        Err(Failure::Shown) => Ok(()),
        other => other,
    }
}

/// The first file of two sectors or more gets the last sector of the last file for its own last. Both names, if there are two such.
fn happen(diskette: &mut Diskette) -> Result<Option<[Name; 2]>, Refusal> {
    let slots = diskette.slots()?;
    let size = |slot: &&Slot| slot.entry().map_or(0, |entry| entry.sectors);
    let (one, other) = (slots.iter().find(|slot| size(slot) > 1), slots.iter().rev().find(|slot| size(slot) > 0));
    let (slot, one, other) = match (one.zip(one.and_then(Slot::entry)), other.and_then(Slot::entry)) {
        (Some((slot, one)), Some(other)) if one.name != other.name => (slot, one, other),
        _ => return Ok(None),
    };
    let before_last = before(diskette, one.start, one.end)?;
    let mut sector = bytes(diskette, before_last)?;
    sector[..2].copy_from_slice(&[other.end.track, other.end.sector]);
    diskette.write_sector(before_last, &sector)?;
    let place = slot.place.displacement as usize;
    let mut entry = [0; SLOT];
    entry.copy_from_slice(&bytes(diskette, slot.place.sector)?[place..place + SLOT]);
    entry[END - NAME..END - NAME + 2].copy_from_slice(&[other.end.track, other.end.sector]);
    diskette.put_slot(slot.number, &entry)?;
    Ok(Some([one.name, other.name]))
}

/// The sector of a sound file's chain that links to this one.
fn before(diskette: &mut Diskette, start: Address, end: Address) -> Result<Address, Refusal> {
    let mut at = start;
    loop {
        match Address::at(diskette.sector(at)?, 0) {
            next if next == end => return Ok(at),
            next => at = next,
        }
    }
}

fn bytes(diskette: &mut Diskette, address: Address) -> Result<[u8; SECTOR], Refusal> {
    let sector = diskette.sector(address)?;
    Ok(sector.try_into().unwrap_or([0; SECTOR]))
}
