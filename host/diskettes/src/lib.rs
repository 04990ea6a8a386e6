//! Blank diskette images, for the tests, the benchmark and the demo diskette: as the service formats them, with a label, a
//! volume number and a date of zeros, and with other directories than it makes, as another maker's formatter may leave them.
//! Beside them the numbers by which flexbox's tests damage diskettes.

#![forbid(unsafe_code)]

use flex::{Address, Diskette, Shape};

/// The directory's first sector on track 0.
const FIRST_OF_DIRECTORY: usize = 5;

/// Where sector (track, sector) begins on a diskette of `per` sectors a track, whatever its last track is.
pub fn offset(per: usize, track: usize, sector: usize) -> usize {
    let shape = Shape { last: track as u8, per: per as u8 };
    shape.offset(Address::new(track as u8, sector as u8))
}

/// A blank diskette with the last track `last`, `per` sectors a track, and all of (0, 5) to (0, `per`) for its directory.
pub fn blank(last: usize, per: usize) -> Vec<u8> {
    let blank = Diskette::blank(last, per, &[0; 11], 0, [0; 3]);
    blank.expect("a diskette has 2 to 80 tracks of 5 to 36 sectors").into_buffers().0
}

/// The same with these sectors of track 0 for its directory, in this order. The first must be 5.
pub fn with_directory(last: usize, per: usize, directory: &[usize]) -> Vec<u8> {
    let mut image = blank(last, per);
    for sector in FIRST_OF_DIRECTORY..=per {
        link(&mut image, per, sector, 0);
    }
    for pair in directory.windows(2) {
        link(&mut image, per, pair[0], pair[1]);
    }
    image
}

/// A diskette whose directory has all of track 0's sectors from 5 on and the first `taken` data sectors, with a file in every slot: `file`
/// gives its start, end and size by its number from 0 on. No sector is free, and none but the directory's has a link.
pub fn crowded(last: usize, per: usize, taken: usize, file: impl Fn(usize) -> ([u8; 2], [u8; 2], u16)) -> Vec<u8> {
    const SLOTS: usize = 10;
    let mut image = blank(last, per);
    let data_begins = offset(per, 1, 1);
    image[data_begins..].fill(0);
    image[541..547].fill(0);
    let shape = Shape { last: last as u8, per: per as u8 };
    let track_0 = (FIRST_OF_DIRECTORY..=per).map(|sector| Address::new(0, sector as u8));
    let directory: Vec<Address> = track_0.chain((0..taken).map(|number| shape.address(number))).collect();
    for (i, &sector) in directory.iter().enumerate() {
        let at = shape.offset(sector);
        let next = directory.get(i + 1).copied().unwrap_or(Address::NONE);
        image[at..at + 2].copy_from_slice(&[next.track, next.sector]);
        for (k, slot) in image[at + 16..at + 256].chunks_mut(24).enumerate() {
            let (start, end, size) = file(SLOTS * i + k);
            slot[..11].copy_from_slice(format!("F{:07}TXT", SLOTS * i + k).as_bytes());
            slot[13..15].copy_from_slice(&start);
            slot[15..17].copy_from_slice(&end);
            slot[17..19].copy_from_slice(&size.to_be_bytes());
        }
    }
    image
}

/// Links a sector of track 0 to another one of it; 0 ends the chain.
fn link(image: &mut [u8], per: usize, from: usize, to: usize) {
    let at = offset(per, 0, from);
    image[at..at + 2].copy_from_slice(&[0, to as u8]);
}

/// Numbers that look random and are the same every time.
pub struct Numbers(u64);

impl Numbers {
    pub fn start() -> Numbers {
        Numbers(0x2545_f491_4f6c_dd1d)
    }

    pub fn below(&mut self, limit: usize) -> usize {
        self.0 ^= self.0 << 13;
        self.0 ^= self.0 >> 7;
        self.0 ^= self.0 << 17;
        (self.0 % limit as u64) as usize
    }

    pub fn one_of<T: Copy>(&mut self, list: &[T]) -> T {
        list[self.below(list.len())]
    }
}

#[cfg(test)]
mod format_cut;

#[cfg(test)]
mod tests {
    use super::*;

    /// Each slot's directory sector, in the order in which the service shows them.
    fn sectors_of_slots(image: Vec<u8>) -> Vec<u8> {
        let slots = Diskette::new(image).slots().expect("the directory is right");
        slots.iter().map(|slot| slot.place.sector.sector).collect()
    }

    #[test]
    fn the_directory_has_the_sectors_that_are_asked_for_in_their_order() {
        assert_eq!(sectors_of_slots(with_directory(2, 8, &[5])), [5; 10]);
        let three: Vec<u8> = [5, 8, 6].iter().flat_map(|&sector| [sector; 10]).collect();
        assert_eq!(sectors_of_slots(with_directory(2, 8, &[5, 8, 6])), three);
    }

    #[test]
    fn with_the_sectors_upward_it_is_the_blank_diskette() {
        assert_eq!(with_directory(3, 8, &[5, 6, 7, 8]), blank(3, 8));
    }
}
