//! The blank diskette.

use crate::shape::{set_address, set_word, Address, Shape, NONE, SECTOR};

/// Where a sector of a chain has the address of the next one.
const LINK: usize = 0;

// Offsets in the information record.
const LABEL: usize = 16;
const VOLUME: usize = 27;
const FIRST_FREE: usize = 29;
const LAST_FREE: usize = 31;
const FREE_COUNT: usize = 33;
const DATE: usize = 35;
const LAST_TRACK: usize = 38;
const PER_TRACK: usize = 39;

/// The bytes of a label.
const LABEL_BYTES: usize = 11;

/// 02, ticket 2: "from M, S, an eleven-byte label, a volume number and a date, fill a lent image. [..] Bad M or S gives 41, then
/// a wrong image or label length 40, both without a change. [..] Write each sector from a cleared block of 256 bytes." The date
/// is month, day, year.
pub fn format(image: &mut [u8], last: usize, per: usize, label: &[u8], volume: u16, date: [u8; 3]) -> u32 {
    let shape = match Shape::within_limits(last, per) {
        Some(shape) => shape,
        None => return 41,
    };
    if image.len() != shape.bytes() || label.len() != LABEL_BYTES {
        return 40;
    }
    for track in 0..=last as u8 {
        for sector in 1..=per as u8 {
            let mut block = [0u8; SECTOR];
            match (track, sector) {
                (0, 1 | 2 | 4) => (),
                (0, 3) => set_information(&mut block, shape, label, volume, date),
                chained => set_address(&mut block, LINK, behind(shape, chained)),
            }
            let at = shape.offset((track, sector));
            image[at..at + SECTOR].copy_from_slice(&block);
        }
    }
    0
}

/// "01's 29-34, 38 and 39 are set; other bytes not named are zero; label, number and date at 16-26, 27-28 and 35-37 of the
/// information record". Of 29-34 01 says: address of the first free sector, of the last one, and how many there are.
fn set_information(block: &mut [u8], shape: Shape, label: &[u8], volume: u16, date: [u8; 3]) {
    block[LABEL..LABEL + LABEL_BYTES].copy_from_slice(label);
    set_word(block, VOLUME, volume);
    set_address(block, FIRST_FREE, (1, 1));
    set_address(block, LAST_FREE, (shape.last as u8, shape.per as u8));
    set_word(block, FREE_COUNT, shape.data_sectors() as u16);
    block[DATE..DATE + 3].copy_from_slice(&date);
    block[LAST_TRACK] = shape.last as u8;
    block[PER_TRACK] = shape.per as u8;
}

/// The link of a directory's or data sector: "directory 5..S linked upward; data sectors linked by rising track, then sector,
/// record numbers 0".
fn behind(shape: Shape, (track, sector): Address) -> Address {
    if (sector as usize) < shape.per {
        (track, sector + 1)
    } else if track == 0 || track as usize == shape.last {
        NONE
    } else {
        (track + 1, 1)
    }
}
