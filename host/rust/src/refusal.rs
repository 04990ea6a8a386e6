//! The numbers given back, as an enum.

#![forbid(unsafe_code)]

use std::fmt;

/// Why a call was refused. Nothing was changed then but byte 1 of the control block, which has the number (and not even that
/// where there is no such block); a census that was refused with 42 to 46 has filled both outputs with 255.
#[derive(Clone, Copy, Debug, PartialEq, Eq, PartialOrd, Ord, Hash)]
pub enum Refusal {
    /// 1: the function code is not served.
    NotServed,
    /// 2: the file is in use by a control block; a repair: a control block is open.
    InUse,
    /// 3: the name exists already.
    Exists,
    /// 4: the name is not found.
    NotFound,
    /// 5: the directory is not right, or the block's place is not a slot of it.
    Directory,
    /// 7: no sector is free, for a file's bytes or for the directory when it has no slot left.
    DiskFull,
    /// 8: the end of the file or of the directory.
    End,
    /// 9: a bad address in reading or deleting.
    BadRead,
    /// 10: a bad address in writing, or in an open for write where the directory is to grow; or it is at its longest. A sector
    /// to write does not exist.
    BadWrite,
    /// 11: the file is write-protected.
    WriteProtected,
    /// 12: the file is delete-protected.
    DeleteProtected,
    /// 13: the table's length is not 2,560, there is no such block, or the block to close is closed.
    NoBlock,
    /// 16: the image's shape is wrong, or the drive is not 0.
    Shape,
    /// 17: the file is read-protected.
    ReadProtected,
    /// 18: the block's activity does not suit the function, or this byte may not be preset.
    Unfit,
    /// 21: the name is not legal.
    BadName,
    /// 40: an output, a text, or an image or a label for a blank diskette has the wrong length.
    OutputLength,
    /// 41: the census or a repair found a wrong shape, or a blank diskette of no right shape was asked for.
    CensusShape,
    /// 42: the census or a repair found a directory that is not right.
    CensusDirectory,
    /// 43: the census or a repair found two files of one name.
    CensusNames,
    /// 44: the census found a free chain that is not right.
    CensusFree,
    /// 45: the census found a file whose chain is not right.
    CensusFile,
    /// 46: the census found a data sector in no chain, or in two.
    CensusSectors,
}

use Refusal::*;

/// Each number of documents 01 and 02 with its name here and its meaning in a few words.
const ALL: [(u8, Refusal, &str); 23] = [
    (1, NotServed, "function not served"),
    (2, InUse, "file in use, or a control block is open"),
    (3, Exists, "name exists already"),
    (4, NotFound, "name not found"),
    (5, Directory, "directory not right, or not a slot of it"),
    (7, DiskFull, "diskette full"),
    (8, End, "end of file or directory"),
    (9, BadRead, "bad address in reading or deleting"),
    (10, BadWrite, "bad address in writing, or where the directory is to grow; or it is at its longest"),
    (11, WriteProtected, "file is write-protected"),
    (12, DeleteProtected, "file is delete-protected"),
    (13, NoBlock, "no such control block, or it is closed"),
    (16, Shape, "not the image of a diskette, or drive not 0"),
    (17, ReadProtected, "file is read-protected"),
    (18, Unfit, "control block not in the right state"),
    (21, BadName, "name not legal"),
    (40, OutputLength, "output, image or label has the wrong length"),
    (41, CensusShape, "not the image of a diskette, or no such shape"),
    (42, CensusDirectory, "directory not right"),
    (43, CensusNames, "two files of one name"),
    (44, CensusFree, "free chain not right"),
    (45, CensusFile, "chain of a file not right"),
    (46, CensusSectors, "a sector is in no chain, or in two"),
];

impl Refusal {
    /// The papers' number.
    pub fn number(self) -> u8 {
        ALL[self as usize].0
    }

    /// What it means, in a few words.
    pub fn meaning(self) -> &'static str {
        ALL[self as usize].2
    }

    /// The refusal with this number, if the papers have it.
    pub fn of(number: u32) -> Option<Refusal> {
        ALL.iter().find(|row| row.0 as u32 == number).map(|row| row.1)
    }
}

/// "004 name not found"
impl fmt::Display for Refusal {
    fn fmt(&self, f: &mut fmt::Formatter<'_>) -> fmt::Result {
        write!(f, "{:03} {}", self.number(), self.meaning())
    }
}

impl std::error::Error for Refusal {}

/// An answer as a result. The archive is proved to answer only with the papers' numbers.
pub(crate) fn settled(answer: u32) -> Result<(), Refusal> {
    match answer {
        0 => Ok(()),
        number => Err(Refusal::of(number).unwrap_or_else(|| unreachable!("the papers have no answer {}", number))),
    }
}

#[cfg(test)]
mod tests {
    use super::*;

    #[test]
    fn the_table_is_in_the_order_of_the_enum() {
        for (row, (number, refusal, _)) in ALL.iter().enumerate() {
            assert_eq!(*refusal as usize, row);
            assert_eq!(refusal.number(), *number);
            assert_eq!(Refusal::of(*number as u32), Some(*refusal));
        }
        assert_eq!(Refusal::of(0), None);
        assert_eq!(Refusal::of(6), None, "the directory grows: it is never full");
        assert_eq!(Refusal::of(14), None);
        assert_eq!(Refusal::of(256 + 13), None);
    }
}
