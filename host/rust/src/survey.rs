//! The census with outputs of the right length, as a list.

#![forbid(unsafe_code)]

use crate::layout::Shape;
use crate::refusal::Refusal;

/// One data sector in the census.
#[derive(Clone, Copy, Debug, PartialEq, Eq)]
pub struct Held {
    /// Its number: sector (t, s) has (t − 1)·S + s − 1.
    pub sector: u16,
    /// [`OWNER_FREE`](crate::OWNER_FREE), [`OWNER_DIRECTORY`](crate::OWNER_DIRECTORY), or the number of the slot whose file
    /// holds it, all slots counted from 1.
    pub owner: u16,
}

/// Which chain holds each data sector: free chain first, then those that the directory has taken, in its order, then the files
/// in the order of their slots.
pub fn survey(image: &[u8]) -> Result<Vec<Held>, Refusal> {
    // Where the shape is wrong this length is wrong too, and the census answers 41 whatever it is.
    let bytes = 2 * Shape::stated(image).map_or(0, Shape::data_sectors);
    let mut sectors = vec![0; bytes];
    let mut owners = vec![0; bytes];
    crate::census(image, &mut sectors, &mut owners)?;
    let word = |bytes: &[u8]| u16::from_be_bytes([bytes[0], bytes[1]]);
    Ok(sectors
        .chunks(2)
        .zip(owners.chunks(2))
        .map(|(sector, owner)| Held { sector: word(sector), owner: word(owner) })
        .collect())
}
