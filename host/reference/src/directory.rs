//! Names, and the directory with its slots. A slot is known by its offset in the image.

use crate::shape::{address, Address, Shape, NONE, SECTOR};

/// The bytes of a slot.
pub const SLOT: usize = 24;
/// "Slots: ten per sector, at 16, 40, .. 232"
const SLOTS: usize = 10;
const FIRST_SLOT: usize = 16;
/// Where a slot has its attributes, start, end, size and byte 23: it is equal to bytes 4-27 of a control block.
pub const ATTRIBUTES: usize = 15 - 4;
pub const START: usize = 17 - 4;
pub const END: usize = 19 - 4;
pub const SIZE: usize = 21 - 4;
pub const MAP: usize = 23 - 4;
pub const DATE: usize = 25 - 4;

/// "begins with a letter and goes on with letters, digits, hyphens or underscores, then zeros to its end"
fn word_is_legal(word: &[u8]) -> bool {
    let used = word.iter().position(|&c| c == 0).unwrap_or(word.len());
    let rest_is_zero = word[used..].iter().all(|&c| c == 0);
    let goes_on = word[..used].iter().all(|&c| c.is_ascii_alphanumeric() || c == b'-' || c == b'_');
    used > 0 && word[0].is_ascii_alphabetic() && goes_on && rest_is_zero
}

/// A name of eight bytes and an extension of three, "likewise. Neither may be empty".
pub fn is_legal(name: &[u8]) -> bool {
    word_is_legal(&name[..8]) && word_is_legal(&name[8..11])
}

/// The slots of the whole directory in order, or nothing if it is not right. 01: "The directory begins at (0, 5) and follows
/// links", to 0,0. 02, ticket 4: "Directory links may now also name data sectors, with at most S − 4 + M·S sectors in the
/// chain."
pub fn slots(image: &[u8], shape: Shape) -> Option<Vec<usize>> {
    let mut slots = Vec::new();
    let mut at = (0, 5);
    for _ in 0..longest(shape) {
        let sector = shape.offset(at);
        slots.extend((0..SLOTS).map(|i| first_slot(sector) + SLOT * i));
        at = address(image, sector);
        if at == NONE {
            return Some(slots);
        }
        if !may_hold_slots(shape, at) {
            return None;
        }
    }
    None
}

/// "S − 4 + M·S"
fn longest(shape: Shape) -> usize {
    shape.per - 4 + shape.data_sectors()
}

/// On track 0 the sectors 5 to S, elsewhere every one.
fn may_hold_slots(shape: Shape, at: Address) -> bool {
    shape.is_data(at) || (shape.exists(at) && at.1 >= 5)
}

/// The first slot of the sector that begins here.
pub fn first_slot(sector: usize) -> usize {
    sector + FIRST_SLOT
}

/// Whether a right directory with these slots has as many sectors as there may be.
pub fn is_longest(shape: Shape, slots: &[usize]) -> bool {
    slots.len() == SLOTS * longest(shape)
}

/// Where the directory's last sector begins. A right directory has at least one sector.
pub fn last_sector(slots: &[usize]) -> usize {
    slots[slots.len() - 1] / SECTOR * SECTOR
}

/// The numbers of the data sectors that a right directory with these slots has, in its order.
pub fn data_sectors(shape: Shape, slots: &[usize]) -> impl Iterator<Item = u16> + '_ {
    let addresses = slots.iter().step_by(SLOTS).map(move |&slot| shape.address(slot / SECTOR));
    addresses.filter(move |&at| shape.is_data(at)).map(move |at| shape.number(at) as u16)
}

/// "First byte 0: never used; 128 or more: deleted; otherwise live."
pub fn is_live(image: &[u8], slot: usize) -> bool {
    (1..128).contains(&image[slot])
}

/// 02, ticket 1: "The name search is to go to the end"
pub fn find(image: &[u8], slots: &[usize], name: &[u8]) -> Option<usize> {
    slots.iter().copied().find(|&slot| is_live(image, slot) && image[slot..slot + 11] == *name)
}

/// "The first deleted or never-used slot is still the one reused."
pub fn vacant(image: &[u8], slots: &[usize]) -> Option<usize> {
    slots.iter().copied().find(|&slot| !is_live(image, slot))
}

/// A slot's directory place: track, sector, displacement.
pub fn place(shape: Shape, slot: usize) -> [u8; 3] {
    let (track, sector) = shape.address(slot / SECTOR);
    [track, sector, (slot % SECTOR) as u8]
}

/// The slot at this place, if the directory has it.
pub fn slot_at(shape: Shape, slots: &[usize], wanted: &[u8]) -> Option<usize> {
    slots.iter().copied().find(|&slot| place(shape, slot) == *wanted)
}
