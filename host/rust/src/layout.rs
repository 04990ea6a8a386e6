//! What stands where: the offsets of a control block and the function codes, by the names that flex.h has for them, and the
//! places of a diskette.

#![forbid(unsafe_code)]

use std::fmt;

/// How many control blocks a table has.
pub const BLOCKS: usize = 8;
/// The bytes of one control block.
pub const BLOCK: usize = 320;
/// The bytes of the table of control blocks. All zero means that all are closed.
pub const TABLE: usize = BLOCKS * BLOCK;

// Offsets in a control block.

/// What [`crate::call`] does.
pub const FUNCTION: usize = 0;
/// The number that the last call on the block answered.
pub const ERROR: usize = 1;
/// 0 closed, 1 read, 2 write, 16 directory.
pub const ACTIVITY: usize = 2;
/// Must be 0.
pub const DRIVE: usize = 3;
/// 4-11, filled up with zeros; 4-27 are as in the directory's slots.
pub const NAME: usize = 4;
/// 12-14, filled up with zeros.
pub const EXTENSION: usize = 12;
/// What the file is protected from.
pub const ATTRIBUTES: usize = 15;
/// 17-18, track and sector.
pub const START: usize = 17;
/// 19-20, track and sector.
pub const END: usize = 19;
/// 21-22, in sectors, high byte first.
pub const SIZE: usize = 21;
/// 25-27: month, day, year.
pub const DATE: usize = 25;
/// 30-31, track and sector.
pub const POSITION: usize = 30;
/// 32-33, high byte first.
pub const RECORD: usize = 32;
/// Of the next byte in the buffer.
pub const INDEX: usize = 34;
/// 47-49: track, sector and displacement of the slot, in any sector of the directory.
pub const PLACE: usize = 47;
/// 53-63: name and extension for a rename. Opening a file sets byte 59 to 255, so preset all eleven before a rename.
pub const NEW_NAME: usize = 53;
/// 64-319: the sector at the position.
pub const BUFFER: usize = 64;

// Attributes of a file. A new file has none; the raw writes alone, put slot and write sector, can set them.

/// It is neither deleted nor renamed.
pub const ATTRIBUTE_WRITE: u8 = 128;
/// It is not deleted.
pub const ATTRIBUTE_DELETE: u8 = 64;
/// It is not opened for read.
pub const ATTRIBUTE_READ: u8 = 32;

// The function codes that are served. "Idle" is activity 0 or 16.

/// Open for read: gives the next byte; open for write: takes one.
pub const NEXT_BYTE: u8 = 0;
/// Idle; the file by this name. Sets the function to 0.
pub const OPEN_READ: u8 = 1;
/// Idle; a new file by this name and date. Sets the function to 0. Where no slot is left the directory takes the first free
/// sector, or the answer is 7.
pub const OPEN_WRITE: u8 = 2;
/// Open; a file closed unwritten is deleted.
pub const CLOSE: u8 = 4;
/// Open for read: back to the first byte. Sets the function to 0.
pub const REWIND: u8 = 5;
/// Idle.
pub const OPEN_DIRECTORY: u8 = 6;
/// Open directory: the next slot to 4-27, whatever it holds.
pub const NEXT_SLOT: u8 = 7;
/// Open directory: 4-27 to the slot that was shown last. A raw write: it asks nothing of what it stores.
pub const PUT_SLOT: u8 = 8;
/// Idle; the sector at 30-31 to the buffer.
pub const READ_SECTOR: u8 = 9;
/// Idle; the buffer to the sector at 30-31, any that exists. A raw write, like put slot.
pub const WRITE_SECTOR: u8 = 10;
/// Idle; the file by this name. 4-27 are then the marked slot: byte 4 is 255.
pub const DELETE: u8 = 12;
/// Idle; the file by this name gets the new name.
pub const RENAME: u8 = 13;

// Owners of data sectors in a census, besides the numbers of slots, which are at most 28,760.

/// In the free chain.
pub const OWNER_FREE: u16 = 0;
/// Taken by the directory when it had no slot left; it is never given back.
pub const OWNER_DIRECTORY: u16 = 65_534;

/// The most bytes that the image of a diskette has: 80 tracks of 36 sectors.
pub const LARGEST_IMAGE: usize = 737_280;
/// The bytes of a sector.
pub const SECTOR: usize = 256;
/// The bytes of a slot of the directory, which stands in a control block from the name on.
pub const SLOT: usize = 24;
/// The bytes of a sector that are a file's own; the first four are its link and its record number.
pub const DATA: usize = 252;

/// Track and sector; 0,0 is no sector and ends a chain.
#[derive(Clone, Copy, Debug, Default, PartialEq, Eq, PartialOrd, Ord, Hash)]
pub struct Address {
    /// From 0 on.
    pub track: u8,
    /// From 1 on.
    pub sector: u8,
}

impl Address {
    /// 0,0: the end of a chain.
    pub const NONE: Address = Address { track: 0, sector: 0 };

    /// Any track and sector, there or not.
    pub const fn new(track: u8, sector: u8) -> Address {
        Address { track, sector }
    }

    /// The address in the two bytes at `at`.
    pub fn at(bytes: &[u8], at: usize) -> Address {
        Address::new(bytes[at], bytes[at + 1])
    }
}

/// "3,12"
impl fmt::Display for Address {
    fn fmt(&self, f: &mut fmt::Formatter<'_>) -> fmt::Result {
        write!(f, "{},{}", self.track, self.sector)
    }
}

/// The last track M and the sectors per track S.
#[derive(Clone, Copy, Debug, PartialEq, Eq)]
pub struct Shape {
    /// M
    pub last: u8,
    /// S
    pub per: u8,
}

impl Shape {
    /// What the information record states, if the image is long enough to have one. Whether it is right the service decides.
    pub fn stated(image: &[u8]) -> Option<Shape> {
        Some(Shape { last: *image.get(550)?, per: *image.get(551)? })
    }

    /// How many data sectors there are.
    pub fn data_sectors(self) -> usize {
        self.last as usize * self.per as usize
    }

    /// Whether a file, the free chain or a directory that has grown can hold this sector.
    pub fn is_data(self, address: Address) -> bool {
        (1..=self.last).contains(&address.track) && (1..=self.per).contains(&address.sector)
    }

    /// The number of a data sector, as the census lists it.
    pub fn number(self, address: Address) -> usize {
        (address.track as usize - 1) * self.per as usize + address.sector as usize - 1
    }

    /// The data sector of this number.
    pub fn address(self, number: usize) -> Address {
        let per = self.per as usize;
        Address::new((number / per + 1) as u8, (number % per + 1) as u8)
    }

    /// Where a sector begins in the image.
    pub fn offset(self, address: Address) -> usize {
        (address.track as usize * self.per as usize + address.sector as usize - 1) * SECTOR
    }
}

#[cfg(test)]
mod tests {
    use super::*;

    #[test]
    fn numbers_and_addresses_are_each_others_inverse() {
        let shape = Shape { last: 3, per: 7 };
        for number in 0..shape.data_sectors() {
            assert!(shape.is_data(shape.address(number)));
            assert_eq!(shape.number(shape.address(number)), number);
        }
        for none in [Address::NONE, Address::new(0, 5), Address::new(1, 0), Address::new(1, 8), Address::new(4, 1)] {
            assert!(!shape.is_data(none), "{}", none);
        }
        assert_eq!(shape.offset(Address::new(0, 3)), 512);
        assert_eq!(shape.offset(Address::new(2, 1)), 14 * 256);
    }
}
