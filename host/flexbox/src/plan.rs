//! What a repair does to a diskette, told before it is done. The proved repair is made on a copy, and the two are compared: nothing here
//! decides what a file keeps.

use crate::check::{Check, Owner, Unreached};
use crate::commands::dropping::drop_file;
use crate::raw;
use flex::{Address, Diskette, Entry, Held, Name, Refusal, Slot, OWNER_DIRECTORY, OWNER_FREE};
use loose::Loose;

/// What is wrong, and what comes out.
pub struct Plan {
    pub check: Check,
    /// Why there is no repair, or the diskette after it.
    pub repaired: Result<Repaired, Refusal>,
}

pub struct Repaired {
    pub diskette: Diskette,
    /// The live files in the order of their slots.
    pub fates: Vec<Fate>,
    /// The sectors that are free then, and those of them that were in no chain.
    pub free: usize,
    pub found: usize,
    /// Slots of the directory that hold no file, and lead to written sectors in no chain that no file leads to; so many are `loose`.
    pub gone: Vec<Unreached>,
    /// The sectors that can be a file's and are taken away: out of a file's chain, or out of no chain, and written.
    taken: usize,
}

/// What becomes of a file.
pub struct Fate {
    pub slot: usize,
    pub entry: Entry,
    pub kept: usize,
    /// Whether its chain was as the slot states it, whoever else has sectors of it.
    pub is_right: bool,
    /// Whether it shared a sector.
    pub is_shared: bool,
    /// Where its chain leads behind what is kept; 0,0 ends it.
    pub next: Address,
    /// Who has that sector then, if it is a data sector.
    pub holder: Option<Owner>,
    /// How many written sectors in no chain its chain leads over behind what the slot states. They can be read now, and are free then.
    pub behind: usize,
    /// How many written sectors in no chain lead to the end that it states: most likely they were its own.
    pub before_end: usize,
}

/// What a repair takes away.
#[derive(Debug, PartialEq, Eq)]
pub struct Loss {
    pub files: usize,
    pub sectors: usize,
    /// Written sectors in no chain beside those: nobody can say whose they are.
    pub nobodys: usize,
}

/// How one who wants a file whole that would be cut can have it, as far as trying it on a copy tells.
pub struct WaysOut {
    /// By giving up the file that it would be cut for.
    pub drop: Option<Name>,
    /// By reading it before the repair and writing it anew afterwards.
    pub save: bool,
}

impl Plan {
    /// Of a diskette that was checked, and of which these files were dropped before.
    pub fn of(check: Check, diskette: &Diskette, dropped: &[Entry]) -> Plan {
        let repaired = Repaired::of(&check, diskette, dropped);
        Plan { check, repaired }
    }
}

impl Repaired {
    /// What the proved repair makes of a diskette that was checked, or why it refuses. What leads to the files that were dropped before is
    /// given up with them.
    pub fn of(check: &Check, diskette: &Diskette, dropped: &[Entry]) -> Result<Repaired, Refusal> {
        let mut copy = diskette.clone();
        copy.repair()?;
        let mut loose = Loose::of(check, diskette.image());
        dropped.iter().for_each(|entry| loose.give_up(entry));
        Repaired::compared(check, diskette.image(), loose, copy)
    }

    /// The slots are where they were, so they are read there: asked for one by one, many take long.
    fn compared(check: &Check, image: &[u8], mut loose: Loose, diskette: Diskette) -> Result<Repaired, Refusal> {
        let held = diskette.survey()?;
        let state = |slot: &Slot| raw::state(&raw::slot(diskette.image(), check.shape, slot.place));
        let after: Vec<Slot> = check
            .slots
            .iter()
            .map(|slot| Slot { number: slot.number, place: slot.place, state: state(slot) })
            .collect();
        let owner = |sector: usize| owner(&held, sector);
        let in_no_chain = loose.written();
        let faults = [check.concerned(45), check.concerned(46)];
        let files = check.slots.iter().zip(&after);
        let fates = files.filter_map(|(old, new)| fate(check, image, &owner, &mut loose, old, new)).map(|fate| Fate {
            is_right: !faults[0][fate.slot],
            is_shared: faults[1][fate.slot],
            ..fate
        });
        let fates: Vec<Fate> = fates.collect();
        Ok(Repaired {
            taken: in_no_chain + pushed_out(check, &fates) + loose.from_free,
            fates,
            free: held.iter().filter(|one| one.owner == OWNER_FREE).count(),
            found: lost(check).filter(|&number| owner(number) == Owner::Free).count(),
            gone: gone(check, &mut loose),
            diskette,
        })
    }

    /// Files that lose something: nobody but the operator can say whether that may be.
    pub fn losing(&self) -> impl Iterator<Item = &Fate> {
        self.fates.iter().filter(|fate| fate.is_cut() || fate.behind > 0 || fate.before_end > 0)
    }

    /// At most so much, with the files that the directory does not reach: a slot may state more sectors than the file ever had.
    pub fn loss(&self, check: &Check) -> Loss {
        let cut: usize = self.losing().map(|fate| fate.lost(check.shape.data_sectors())).sum();
        let files = self.losing().count() + vanishing(check).count() + self.gone.len();
        let sectors = cut + vanishing(check).chain(&self.gone).map(|file| file.loose).sum::<usize>();
        Loss { files, sectors, nobodys: self.taken.saturating_sub(sectors) }
    }

    /// Files that are rightly chained and would be cut all the same: an earlier one, or the directory, has their sectors.
    pub fn wronged(&self) -> impl Iterator<Item = &Fate> {
        self.fates.iter().filter(|fate| fate.is_right && fate.is_cut())
    }
}

/// Files that the directory does not reach, and of which a repair would make sectors free.
pub fn vanishing(check: &Check) -> impl Iterator<Item = &Unreached> {
    check.unreached.iter().filter(|file| file.loose > 0)
}

/// The numbers of the data sectors that no chain holds.
fn lost(check: &Check) -> impl Iterator<Item = usize> {
    let mut held = vec![false; check.shape.data_sectors()];
    for &address in check.chains.iter().flat_map(|(_, sectors)| sectors) {
        held[check.shape.number(address)] = true;
    }
    (0..held.len()).filter(move |&number| !held[number])
}

/// How many sectors are in a file's chain now and not then.
fn pushed_out(check: &Check, fates: &[Fate]) -> usize {
    let is_files = |owner: &Owner| matches!(owner, Owner::File(_));
    let now = check.chains.iter().filter(|(owner, _)| is_files(owner)).map(|(_, sectors)| sectors.len());
    now.sum::<usize>() - fates.iter().map(|fate| fate.kept).sum::<usize>()
}

/// The slots without a file that lead to loose sectors which neither a file nor one that the directory does not reach leads to.
fn gone(check: &Check, loose: &mut Loose) -> Vec<Unreached> {
    check.unreached.iter().for_each(|file| loose.give_up(&file.entry));
    let taken = |file: &Unreached| Unreached { loose: loose.take_chain(&file.entry), ..file.clone() };
    check.gone.iter().map(taken).filter(|file| file.loose > 0).collect()
}

/// All but whether it is right and shared, which is known of all files at once.
fn fate(
    check: &Check,
    image: &[u8],
    owner: &impl Fn(usize) -> Owner,
    loose: &mut Loose,
    old: &Slot,
    new: &Slot,
) -> Option<Fate> {
    let (entry, after) = (old.entry()?, new.entry()?);
    let next = match after.sectors {
        0 => entry.start,
        _ => Address::at(image, check.shape.offset(after.end)),
    };
    Some(Fate {
        slot: old.number,
        entry: entry.clone(),
        kept: after.sectors as usize,
        is_right: false,
        is_shared: false,
        next,
        holder: check.shape.is_data(next).then(|| owner(check.shape.number(next))),
        behind: loose.take_from(next),
        before_end: loose.take_to(entry.end),
    })
}

fn owner(held: &[Held], sector: usize) -> Owner {
    match held.iter().find(|one| one.sector as usize == sector).map_or(OWNER_FREE, |one| one.owner) {
        OWNER_FREE => Owner::Free,
        OWNER_DIRECTORY => Owner::Directory,
        slot => Owner::File(slot.into()),
    }
}

impl Fate {
    pub fn stated(&self) -> usize {
        self.entry.sectors.into()
    }

    pub fn is_cut(&self) -> bool {
        self.kept < self.stated()
    }

    /// How many sectors it loses at most, on a diskette that has so many.
    pub fn lost(&self, data_sectors: usize) -> usize {
        self.stated().min(data_sectors).saturating_sub(self.kept).max(self.before_end) + self.behind
    }

    /// What can be done for this file before the diskette is repaired.
    pub fn ways_out(&self, plan: &Plan, image: &[u8]) -> WaysOut {
        let earlier = match self.holder {
            Some(Owner::File(slot)) => plan.check.slots[slot - 1].entry().map(|entry| entry.name),
            _ => None,
        };
        WaysOut {
            drop: earlier.filter(|name| self.is_whole_without(name, plan, image)),
            save: self.is_saved_by_hand(image),
        }
    }

    /// Whether the file keeps all its sectors where that other one is dropped.
    fn is_whole_without(&self, other: &Name, plan: &Plan, image: &[u8]) -> bool {
        let mut copy = Diskette::new(image.to_vec());
        let held = drop_file(&mut copy, other).and_then(|_| copy.repair()).and_then(|()| copy.survey());
        let chain = plan.check.chains.iter().find(|(owner, _)| *owner == Owner::File(self.slot));
        let (held, chain) = match (held, chain) {
            (Ok(held), Some((_, chain))) => (held, chain),
            _ => return false,
        };
        let own = held.iter().filter(|one| one.owner as usize == self.slot).map(|one| one.sector as usize);
        own.eq(chain.iter().map(|&address| plan.check.shape.number(address)))
    }

    /// Whether it can be read as it is, and be written again once the diskette is repaired.
    fn is_saved_by_hand(&self, image: &[u8]) -> bool {
        let mut copy = Diskette::new(image.to_vec());
        let name = &self.entry.name;
        let bytes = match copy.get(name) {
            Ok(reading) if reading.is_as_stated() => reading.bytes,
            _ => return false,
        };
        let anew =
            copy.repair().and_then(|()| copy.delete(name)).and_then(|()| copy.put(name, &bytes, self.entry.date));
        anew.is_ok()
    }
}

mod loose;
pub mod words;

#[cfg(test)]
mod tests;
