//! What can be read of any file that may once have been a diskette: each file that a slot leads to, as far as its links lead, and the chains
//! that no file holds. The service is not asked: it refuses what has no right shape or directory, and shows no slot of it.

mod lost;
#[cfg(test)]
mod tests;

use crate::check;
use crate::raw;
use flex::{Address, Entry, Place, Shape, State, DATA, SECTOR};
use std::fmt;

/// What stands for the first letter of a deleted file's name, which the delete has overwritten.
const UNKNOWN: u8 = b'_';

/// All that was found, and the image that it was found in: as long as its shape says, a missing end filled up with zeros.
pub struct Salvage {
    pub shape: Shape,
    /// How many sectors of the shape the file has not got, or not whole.
    pub missing: usize,
    pub files: Vec<Found>,
    image: Vec<u8>,
}

/// By what a file was found.
#[derive(Clone, Copy, Debug, PartialEq, Eq)]
pub enum Origin {
    /// The slot of the directory with this number.
    Directory(usize),
    /// A slot in a sector of track 0 that the directory does not reach.
    Unreached,
    /// A deleted slot of either kind.
    Deleted,
    /// No slot: a chain that no file holds.
    Lost,
}

pub struct Found {
    pub origin: Origin,
    /// Where the slot is, and what it says.
    pub slot: Option<(Place, Entry)>,
    pub sectors: Vec<Address>,
    /// Where the link behind the last sector leads; 0,0 ends a chain.
    pub next: Address,
    /// What is not as it should be. Empty: it is whole.
    pub faults: Vec<Fault>,
}

#[derive(Clone, Copy, Debug, PartialEq, Eq)]
pub enum Fault {
    /// Fewer sectors than the slot states.
    Cut,
    /// More sectors than the slot states.
    RunsOn,
    /// As many as the slot states, but another last one.
    OtherEnd,
    /// Another file, or the directory, has some of its sectors.
    Shared,
    /// Record numbers are not 1, 2, 3 and so on.
    OutOfOrder,
    /// Some of its sectors are behind the end of the file.
    Missing,
}

impl fmt::Display for Fault {
    fn fmt(&self, f: &mut fmt::Formatter<'_>) -> fmt::Result {
        f.write_str(match self {
            Fault::Cut => "cut",
            Fault::RunsOn => "runs on",
            Fault::OtherEnd => "other end",
            Fault::Shared => "shared",
            Fault::OutOfOrder => "out of order",
            Fault::Missing => "missing",
        })
    }
}

impl Salvage {
    /// `bytes` may be anything. The shape must be one that a diskette can have.
    pub fn of(bytes: &[u8], shape: Shape, with_deleted: bool) -> Salvage {
        let mut image = bytes.to_vec();
        image.resize(raw::length(shape), 0);
        let directory = check::directory(&image, shape);
        let mut files = by_slots(&image, shape, &directory, with_deleted);
        let held = held(shape, &directory, &files);
        let is_there = |address: Address| shape.offset(address) + SECTOR <= bytes.len();
        for file in &mut files {
            file.faults = faults(&image, shape, file, &held, &is_there);
        }
        files.extend(lost::chains(&image, shape, &held, &is_there));
        let sectors = image.len() / SECTOR;
        let missing = sectors - (bytes.len() / SECTOR).min(sectors);
        Salvage { shape, missing, files, image }
    }

    /// The bytes of a file: 252 a sector.
    pub fn bytes(&self, file: &Found) -> Vec<u8> {
        let data = |&at: &Address| {
            let end = self.shape.offset(at) + SECTOR;
            &self.image[end - DATA..end]
        };
        file.sectors.iter().flat_map(data).copied().collect()
    }

    /// The record number of a file's first sector.
    pub fn first_record(&self, file: &Found) -> u16 {
        file.sectors.first().map_or(0, |&at| raw::record_number(&self.image, self.shape, at))
    }
}

impl Found {
    pub fn is_whole(&self) -> bool {
        self.faults.is_empty() && self.origin != Origin::Lost
    }

    pub fn entry(&self) -> Option<&Entry> {
        self.slot.as_ref().map(|(_, entry)| entry)
    }
}

/// The files that slots lead to: those of the directory, then those of the sectors of track 0 that it does not reach.
fn by_slots(image: &[u8], shape: Shape, directory: &[Address], with_deleted: bool) -> Vec<Found> {
    let of_directory = directory.iter().flat_map(|&sector| raw::slots(image, shape, sector)).enumerate();
    let reached = of_directory.map(|(i, (place, slot))| (Origin::Directory(i + 1), place, slot));
    let rest = (raw::FIRST_OF_DIRECTORY..=shape.per).map(|sector| Address::new(0, sector));
    let rest = rest.filter(|sector| !directory.contains(sector));
    let unreached = rest.flat_map(|sector| raw::slots(image, shape, sector));
    let unreached = unreached.map(|(place, slot)| (Origin::Unreached, place, slot));
    reached
        .chain(unreached)
        .filter_map(|(origin, place, slot)| by_slot(image, shape, origin, place, slot, with_deleted))
        .collect()
}

fn by_slot(image: &[u8], shape: Shape, origin: Origin, place: Place, slot: &[u8], with_deleted: bool) -> Option<Found> {
    let mut letters = slot.to_vec();
    let (origin, limit) = match raw::state(slot) {
        State::NeverUsed => return None,
        State::Live(_) => (origin, shape.data_sectors()),
        State::Deleted if with_deleted => {
            letters[0] = UNKNOWN;
            // Behind a deleted file's last sector the free chain goes on.
            (Origin::Deleted, raw::entry(slot).sectors.into())
        }
        State::Deleted => return None,
    };
    let entry = raw::entry(&letters);
    let is_likely = match origin {
        Origin::Directory(_) => true,
        Origin::Deleted => entry.sectors > 0 && shape.is_data(entry.start),
        _ => raw::looks_like_a_file(&entry, shape),
    };
    if !is_likely {
        return None;
    }
    let (sectors, next) = follow(image, shape, entry.start, limit);
    Some(Found { origin, slot: Some((place, entry)), sectors, next, faults: Vec::new() })
}

/// The sectors from here on, at most so many, to the first link that leads to no data sector or back; and where that link leads.
fn follow(image: &[u8], shape: Shape, start: Address, limit: usize) -> (Vec<Address>, Address) {
    let mut met = vec![false; shape.data_sectors()];
    let (mut sectors, mut next) = (Vec::new(), start);
    while sectors.len() < limit && shape.is_data(next) && !met[shape.number(next)] {
        met[shape.number(next)] = true;
        sectors.push(next);
        next = Address::at(image, shape.offset(next));
    }
    (sectors, next)
}

/// How many live files, and the directory, hold each data sector.
fn held(shape: Shape, directory: &[Address], files: &[Found]) -> Vec<usize> {
    let mut held = vec![0; shape.data_sectors()];
    let live = files.iter().filter(|file| file.origin != Origin::Deleted).flat_map(|file| &file.sectors);
    let taken = directory.iter().filter(|&&sector| shape.is_data(sector));
    live.chain(taken).for_each(|&at| held[shape.number(at)] += 1);
    held
}

fn faults(image: &[u8], shape: Shape, file: &Found, held: &[usize], is_there: &impl Fn(Address) -> bool) -> Vec<Fault> {
    let (place, entry) = match &file.slot {
        Some(slot) => slot,
        None => return Vec::new(),
    };
    let (stated, own) = (entry.sectors as usize, if file.origin == Origin::Deleted { 0 } else { 1 });
    let is_random = raw::is_random(&raw::slot(image, shape, *place));
    let in_order = (1..).zip(&file.sectors).all(|(number, &at)| raw::record_number(image, shape, at) == number);
    let all = [
        (file.sectors.len() < stated, Fault::Cut),
        (file.sectors.len() > stated, Fault::RunsOn),
        (file.sectors.len() == stated && *file.sectors.last().unwrap_or(&Address::NONE) != entry.end, Fault::OtherEnd),
        (file.sectors.iter().any(|&at| held[shape.number(at)] > own), Fault::Shared),
        (!is_random && !in_order, Fault::OutOfOrder),
        (file.sectors.iter().any(|&at| !is_there(at)), Fault::Missing),
    ];
    all.into_iter().filter(|row| row.0).map(|row| row.1).collect()
}
