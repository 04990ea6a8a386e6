//! Repair: each live file keeps what it can of its chain, and all that is left becomes the free chain.

use crate::census::has_equal_names;
use crate::directory::{self, MAP, SIZE, START};
use crate::shape::{address, word, Address, Shape, INFORMATION, NONE};
use crate::{BLOCK, TABLE};

/// Where a control block has its activity; 0 is closed.
const ACTIVITY: usize = 2;

/// Where the information record has the first free sector, and behind it the last one and the count.
const FREE: usize = INFORMATION + 29;

/// A live file: where its slot is, how many sectors it states, its byte 23, and what it keeps.
struct File {
    slot: usize,
    stated: usize,
    map: u8,
    kept: Vec<Address>,
}

/// All that a repair stores is worked out before the first store, from the image as it was.
struct Plan {
    shape: Shape,
    files: Vec<File>,
    free: Vec<Address>,
}

/// 02, ticket 12: "repair, on a lent image with all FCBs closed (13 for the table, then 2)".
pub fn repair(image: &mut [u8], table: &[u8]) -> u32 {
    match Plan::of(image, table) {
        Ok(plan) => {
            plan.carry_out(|at, bytes| image[at..at + bytes.len()].copy_from_slice(bytes));
            0
        }
        Err(number) => number,
    }
}

/// One after the other, where a repair stores and what; or the number that it answers. For a test that breaks a repair off.
pub fn repair_stores(image: &[u8], table: &[u8]) -> Result<Vec<(usize, Vec<u8>)>, u32> {
    let mut stores = Vec::new();
    Plan::of(image, table)?.carry_out(|at, bytes| stores.push((at, bytes.to_vec())));
    Ok(stores)
}

/// "After 2 it needs shape, directory and names right and gives the census number if not, changing nothing."
fn accepted(image: &[u8], table: &[u8]) -> Result<(Shape, Vec<usize>), u32> {
    if table.len() != TABLE {
        return Err(13);
    }
    if table.chunks(BLOCK).any(|block| block[ACTIVITY] != 0) {
        return Err(2);
    }
    let shape = Shape::of(image).ok_or(41u32)?;
    let slots = directory::slots(image, shape).ok_or(42u32)?;
    if has_equal_names(image, &slots) {
        return Err(43);
    }
    Ok((shape, slots))
}

impl Plan {
    fn of(image: &[u8], table: &[u8]) -> Result<Plan, u32> {
        let (shape, slots) = accepted(image, table)?;
        // By the number of a data sector: it is a file's by now, or the directory's.
        let mut held = vec![false; shape.data_sectors()];
        for number in directory::data_sectors(shape, &slots) {
            held[number as usize] = true;
        }
        let mut files = Vec::new();
        for slot in slots.into_iter().filter(|&slot| directory::is_live(image, slot)) {
            let stated = word(image, slot + SIZE) as usize;
            let kept = longest_start(image, shape, address(image, slot + START), stated, &mut held);
            files.push(File { slot, stated, map: image[slot + MAP], kept });
        }
        let free = (0..held.len()).filter(|&number| !held[number]).map(|number| shape.data_address(number)).collect();
        Ok(Plan { shape, files, free })
    }

    /// "Start, size, end and last link are set [..]; all other data sectors form the free chain in rising order, and no other
    /// byte changes."
    fn carry_out(&self, mut store: impl FnMut(usize, &[u8])) {
        for file in &self.files {
            store(file.slot + START, &file.record());
            if let Some(&last) = file.kept.last() {
                store(self.shape.offset(last), &[NONE.0, NONE.1]);
            }
        }
        for (i, &sector) in self.free.iter().enumerate() {
            let next = self.free.get(i + 1).copied().unwrap_or(NONE);
            store(self.shape.offset(sector), &[next.0, next.1]);
        }
        store(FREE, &stated(&self.free));
    }
}

impl File {
    /// The slot's start, end, size, and byte 23: "a cut random file's byte 23 becomes 0".
    fn record(&self) -> [u8; 7] {
        let [a, b, c, d, e, f] = stated(&self.kept);
        let is_cut = self.kept.len() < self.stated;
        [a, b, c, d, e, f, if is_cut { 0 } else { self.map }]
    }
}

/// "In slot order each live file keeps the longest start of its chain that stays on data sectors, meets no sector already kept or
/// held by the directory, and is no longer than its stated size." What it keeps is held from then on, so that a chain that leads
/// back to itself ends there as well.
fn longest_start(image: &[u8], shape: Shape, start: Address, most: usize, held: &mut [bool]) -> Vec<Address> {
    let mut kept = Vec::new();
    let mut at = start;
    while kept.len() < most && shape.is_data(at) && !held[shape.number(at)] {
        held[shape.number(at)] = true;
        kept.push(at);
        at = address(image, shape.offset(at));
    }
    kept
}

/// First, last and count of a chain, as a slot and the information record state them; of none 0,0 and 0,0 and 0.
fn stated(chain: &[Address]) -> [u8; 6] {
    let first = chain.first().copied().unwrap_or(NONE);
    let last = chain.last().copied().unwrap_or(NONE);
    let [high, low] = (chain.len() as u16).to_be_bytes();
    [first.0, first.1, last.0, last.1, high, low]
}
