//! The census: which chain holds each data sector.

use crate::directory::{self, END, SIZE, START};
use crate::shape::{address, word, Address, Shape, INFORMATION, NONE};

/// The owners that are no slot.
const FREE: u16 = 0;
const DIRECTORY: u16 = 65_534;

/// The host's form: each output is bytes, two an entry, high byte first.
pub fn census(image: &[u8], sectors: &mut [u8], owners: &mut [u8]) -> u32 {
    let shape = match Shape::of(image) {
        Some(shape) => shape,
        None => return 41,
    };
    let bytes = 2 * shape.data_sectors();
    if sectors.len() != bytes || owners.len() != bytes {
        return 40;
    }
    match holdings(image, shape) {
        Ok(held) => {
            for (i, (sector, owner)) in held.into_iter().enumerate() {
                sectors[2 * i..2 * i + 2].copy_from_slice(&sector.to_be_bytes());
                owners[2 * i..2 * i + 2].copy_from_slice(&owner.to_be_bytes());
            }
            0
        }
        Err(number) => {
            sectors.fill(255);
            owners.fill(255);
            number
        }
    }
}

/// Each data sector's number and its owner, "free chain first, then live slots in order", or the refusal. 02, ticket 4: "The
/// census lists these sectors after the free chain with owner 65,534": those that the directory has taken.
fn holdings(image: &[u8], shape: Shape) -> Result<Vec<(u16, u16)>, u32> {
    let slots = directory::slots(image, shape).ok_or(42u32)?;
    if has_equal_names(image, &slots) {
        return Err(43);
    }
    let free = chain(image, shape, INFORMATION + 29, INFORMATION + 31, INFORMATION + 33).ok_or(44u32)?;
    let mut held: Vec<(u16, u16)> = free.into_iter().map(|sector| (sector, FREE)).collect();
    held.extend(directory::data_sectors(shape, &slots).map(|sector| (sector, DIRECTORY)));
    for (i, &slot) in slots.iter().enumerate() {
        if directory::is_live(image, slot) {
            let file = chain(image, shape, slot + START, slot + END, slot + SIZE).ok_or(45u32)?;
            held.extend(file.into_iter().map(|sector| (sector, i as u16 + 1)));
        }
    }
    if holds_each_once(&held, shape.data_sectors()) {
        Ok(held)
    } else {
        Err(46)
    }
}

/// "43 .. two live slots with equal eleven bytes"; 02, ticket 1: "43 loses its first half"
pub fn has_equal_names(image: &[u8], slots: &[usize]) -> bool {
    let mut names: Vec<&[u8]> =
        slots.iter().filter(|&&slot| directory::is_live(image, slot)).map(|&slot| &image[slot..slot + 11]).collect();
    names.sort_unstable();
    names.windows(2).any(|pair| pair[0] == pair[1])
}

/// The numbers of a chain's sectors in order, if it is right. The three offsets say where its first address, its last
/// address and its count stand. "A chain is right if its count is at most M·S, it has that many data sectors by links, the
/// last is the stated end and links to 0,0; count 0 has both addresses 0,0."
fn chain(image: &[u8], shape: Shape, first: usize, last: usize, count: usize) -> Option<Vec<u16>> {
    let end = address(image, last);
    let count = word(image, count) as usize;
    let mut next = address(image, first);
    if count > shape.data_sectors() {
        return None;
    }
    let mut sectors = Vec::with_capacity(count);
    let mut at: Address = NONE;
    for _ in 0..count {
        at = next;
        if !shape.is_data(at) {
            return None;
        }
        sectors.push(shape.number(at) as u16);
        next = address(image, shape.offset(at));
    }
    // With count 0 `at` is still 0,0 and `next` the first address: both must be 0,0, which is the same test.
    if at == end && next == NONE {
        Some(sectors)
    } else {
        None
    }
}

/// "the chains together [..] hold each data sector once"
fn holds_each_once(held: &[(u16, u16)], data_sectors: usize) -> bool {
    let mut seen = vec![false; data_sectors];
    for &(sector, _) in held {
        if seen[sector as usize] {
            return false;
        }
        seen[sector as usize] = true;
    }
    held.len() == data_sectors
}
