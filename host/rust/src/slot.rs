//! The slots of a directory, as function 7 shows them.

#![forbid(unsafe_code)]

use crate::layout::{
    Address, ATTRIBUTES, ATTRIBUTE_DELETE, ATTRIBUTE_READ, ATTRIBUTE_WRITE, DATE, END, NAME, PLACE, SIZE, START,
};
use crate::name::Name;
use std::fmt;

/// One slot of the directory.
#[derive(Clone, Debug, PartialEq, Eq)]
pub struct Slot {
    /// The slot's number, all slots counted from 1: the census names a file's owner so.
    pub number: usize,
    /// Where it lies.
    pub place: Place,
    /// What it holds.
    pub state: State,
}

/// Where a slot lies: in this sector, from this byte on.
#[derive(Clone, Copy, Debug, Default, PartialEq, Eq)]
pub struct Place {
    /// A sector of the directory: on track 0, or a data sector that it has taken.
    pub sector: Address,
    /// The slot's first byte in it.
    pub displacement: u8,
}

/// "0,5 byte 40"
impl fmt::Display for Place {
    fn fmt(&self, f: &mut fmt::Formatter<'_>) -> fmt::Result {
        write!(f, "{} byte {}", self.sector, self.displacement)
    }
}

/// What a slot holds, by its first byte.
#[derive(Clone, Debug, PartialEq, Eq)]
pub enum State {
    /// 0.
    NeverUsed,
    /// 128 or more.
    Deleted,
    /// Any other: a file.
    Live(Entry),
}

/// What the directory says of a file.
#[derive(Clone, Debug, PartialEq, Eq)]
pub struct Entry {
    /// Name and extension.
    pub name: Name,
    /// The first sector; 0,0 if there is none.
    pub start: Address,
    /// The last sector; 0,0 if there is none.
    pub end: Address,
    /// The size in sectors.
    pub sectors: u16,
    /// It can be neither deleted nor renamed.
    pub write_protected: bool,
    /// It can't be deleted.
    pub delete_protected: bool,
    /// It can't be opened for read.
    pub read_protected: bool,
    /// Month, day, and the last two digits of the year.
    pub date: [u8; 3],
}

impl Slot {
    /// What the slot says of its file, if it is live.
    pub fn entry(&self) -> Option<&Entry> {
        match &self.state {
            State::Live(entry) => Some(entry),
            _ => None,
        }
    }

    /// The slot that a control block shows, the `number`-th.
    pub(crate) fn shown(block: &[u8], number: usize) -> Slot {
        let place = Place { sector: Address::at(block, PLACE), displacement: block[PLACE + 2] };
        let state = match block[NAME] {
            0 => State::NeverUsed,
            128..=255 => State::Deleted,
            _ => State::Live(Entry::shown(block)),
        };
        Slot { number, place, state }
    }
}

impl Entry {
    /// The file whose slot stands in bytes 4-27 of a control block.
    pub(crate) fn shown(block: &[u8]) -> Entry {
        let mut name = [0; 11];
        name.copy_from_slice(&block[NAME..NAME + 11]);
        Entry {
            name: Name::of(name),
            start: Address::at(block, START),
            end: Address::at(block, END),
            sectors: u16::from_be_bytes([block[SIZE], block[SIZE + 1]]),
            write_protected: block[ATTRIBUTES] & ATTRIBUTE_WRITE != 0,
            delete_protected: block[ATTRIBUTES] & ATTRIBUTE_DELETE != 0,
            read_protected: block[ATTRIBUTES] & ATTRIBUTE_READ != 0,
            date: [block[DATE], block[DATE + 1], block[DATE + 2]],
        }
    }
}
