//! The free chain or a file's, walked by its links as far as they are right.

use super::sectors::{holder, Owner};
use super::Finding;
use flex::{Address, Entry, Shape, Slot};

/// Where the information record begins in an image.
const INFORMATION: usize = 512;

/// What the information record or a slot states of a chain. Nothing states the directory: it is no `Chain`.
pub struct Chain {
    pub owner: Owner,
    pub start: Address,
    pub end: Address,
    pub count: u16,
}

pub struct Walked {
    /// As many of the stated sectors as there are.
    pub sectors: Vec<Address>,
    pub fault: Option<Fault>,
}

/// Why a chain is not as it is stated. `Address`es are where; numbers count the chain's sectors from 1.
#[derive(Clone, Copy, Debug, PartialEq, Eq)]
pub enum Fault {
    /// No sector is stated, but an address is.
    NotEmpty,
    /// The start is no data sector.
    Start,
    /// The chain ends too early, at this sector.
    Short(usize, Address),
    /// This sector's link is no data sector.
    Link(usize, Address, Address),
    /// This sector's link leads back to one before it.
    Circle(usize, Address, Address),
    /// The last of the stated sectors is not the stated end.
    End(Address),
    /// The last of the stated sectors links on.
    RunsOn(Address, Address),
}

fn link(image: &[u8], shape: Shape, address: Address) -> Address {
    Address::at(image, shape.offset(address))
}

impl Chain {
    /// The free chain, by the information record.
    pub fn free(image: &[u8]) -> Chain {
        let count = u16::from_be_bytes([image[INFORMATION + 33], image[INFORMATION + 34]]);
        let (start, end) = (Address::at(image, INFORMATION + 29), Address::at(image, INFORMATION + 31));
        Chain { owner: Owner::Free, start, end, count }
    }

    /// A file's, by its slot.
    pub fn of_file(slot: usize, entry: &Entry) -> Chain {
        Chain { owner: Owner::File(slot), start: entry.start, end: entry.end, count: entry.sectors }
    }

    pub fn walk(&self, image: &[u8], shape: Shape) -> Walked {
        let mut sectors: Vec<Address> = Vec::new();
        let mut seen = vec![false; shape.data_sectors()];
        let mut next = self.start;
        while sectors.len() < self.count as usize {
            let at = sectors.last().copied();
            if let Some(fault) = broken(shape, &seen, sectors.len(), at, next) {
                return Walked { sectors, fault: Some(fault) };
            }
            seen[shape.number(next)] = true;
            sectors.push(next);
            next = link(image, shape, next);
        }
        let fault = self.wrong_end(sectors.last().copied(), next);
        Walked { sectors, fault }
    }

    /// What is wrong after all stated sectors: the last of them, and its link.
    fn wrong_end(&self, last: Option<Address>, next: Address) -> Option<Fault> {
        match last {
            None if (self.start, self.end) != (Address::NONE, Address::NONE) => Some(Fault::NotEmpty),
            None => None,
            Some(last) if last != self.end => Some(Fault::End(last)),
            Some(last) if next != Address::NONE => Some(Fault::RunsOn(last, next)),
            Some(_) => None,
        }
    }

    pub fn finding(&self, fault: Fault, slots: &[Slot]) -> Finding {
        let (number, owners) = match self.owner {
            Owner::File(slot) => (45, vec![slot]),
            _ => (44, vec![]),
        };
        let text = format!("{}: {}", holder(self.owner, slots), self.words(fault));
        let at = fault.place().unwrap_or_else(|| self.stated_in(slots));
        Finding { number, slots: owners, sectors: vec![at], text }
    }

    /// The sector that states this chain: the information record's, or the one with the file's slot.
    fn stated_in(&self, slots: &[Slot]) -> Address {
        match self.owner {
            Owner::File(slot) => slots[slot - 1].place.sector,
            _ => Address::new(0, 3),
        }
    }

    fn words(&self, fault: Fault) -> String {
        let count = self.count;
        match fault {
            Fault::NotEmpty => format!("states no sector, but start {} and end {}", self.start, self.end),
            Fault::Start => format!("its start {} is no data sector; it states {} sectors", self.start, count),
            Fault::Short(i, at) => format!("ends at {}, after {} of {} sectors", at, i, count),
            Fault::Link(i, at, to) => {
                format!("sector {} of {}, at {}, links to {}, which is no data sector", i, count, at, to)
            }
            Fault::Circle(i, at, to) => format!("sector {} of {}, at {}, links back to {}", i, count, at, to),
            Fault::End(last) => {
                format!("sector {} of {} is at {}, but its stated end is {}", count, count, last, self.end)
            }
            Fault::RunsOn(last, to) => {
                format!("runs on: sector {} of {}, at {}, links to {}", count, count, last, to)
            }
        }
    }
}

/// Why the chain can't go on to `next` after `taken` sectors, the last of them at `at`.
fn broken(shape: Shape, seen: &[bool], taken: usize, at: Option<Address>, next: Address) -> Option<Fault> {
    let is_data = shape.is_data(next);
    match at {
        None if is_data => None,
        None => Some(Fault::Start),
        Some(at) if next == Address::NONE => Some(Fault::Short(taken, at)),
        Some(at) if !is_data => Some(Fault::Link(taken, at, next)),
        Some(at) if seen[shape.number(next)] => Some(Fault::Circle(taken, at, next)),
        Some(_) => None,
    }
}

impl Fault {
    /// The sector where it is. None: what is stated is wrong in itself, whatever the sectors hold.
    fn place(self) -> Option<Address> {
        match self {
            Fault::NotEmpty | Fault::Start => None,
            Fault::Short(_, at) | Fault::Link(_, at, _) | Fault::Circle(_, at, _) => Some(at),
            Fault::End(at) | Fault::RunsOn(at, _) => Some(at),
        }
    }
}
