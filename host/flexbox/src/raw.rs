//! A diskette's bytes read by themselves, where the service shows nothing: what has no right shape, slots outside of the directory, and
//! record numbers.

use flex::{
    Address, Entry, Name, Place, Shape, State, ATTRIBUTES, ATTRIBUTE_DELETE, ATTRIBUTE_READ, ATTRIBUTE_WRITE, DATE,
    END, NAME, SECTOR, SIZE, SLOT, START,
};

/// The directory's first sector, on track 0.
pub const FIRST_OF_DIRECTORY: u8 = 5;
/// Where the first slot begins in a sector of the directory.
const FIRST_SLOT: usize = 16;
/// In a slot: not 0 marks a random file, whose first sectors are its map and have no record number.
const RANDOM: usize = 23 - NAME;
/// In a sector: its record number, high byte first.
const RECORD_NUMBER: usize = 2;
/// The bytes of a name's first part, and of all of it.
const STEM: usize = 8;
const FULL: usize = 11;

/// Whether a diskette can have this shape.
pub fn is_shape(shape: Shape) -> bool {
    (1..=79).contains(&shape.last) && (5..=36).contains(&shape.per)
}

/// The bytes of an image of this shape.
pub fn length(shape: Shape) -> usize {
    (shape.last as usize + 1) * shape.per as usize * SECTOR
}

/// The record number of a sector.
pub fn record_number(image: &[u8], shape: Shape, sector: Address) -> u16 {
    let at = shape.offset(sector) + RECORD_NUMBER;
    u16::from_be_bytes([image[at], image[at + 1]])
}

/// Whether a byte behind the sector's link is not 0: a sector that a file has had is so, by its record number.
pub fn is_written(image: &[u8], shape: Shape, sector: Address) -> bool {
    let at = shape.offset(sector);
    image[at + RECORD_NUMBER..at + SECTOR].iter().any(|&byte| byte != 0)
}

pub fn is_random(slot: &[u8]) -> bool {
    slot[RANDOM] != 0
}

/// The slots of a sector that begins here in the image, each with its place.
pub fn slots(image: &[u8], shape: Shape, sector: Address) -> impl Iterator<Item = (Place, &[u8])> {
    let at = shape.offset(sector);
    (FIRST_SLOT..).step_by(SLOT).take_while(|displacement| displacement + SLOT <= SECTOR).map(move |displacement| {
        let place = Place { sector, displacement: displacement as u8 };
        (place, &image[at + displacement..at + displacement + SLOT])
    })
}

/// The 24 bytes of the slot at this place, which must be in the image.
pub fn slot(image: &[u8], shape: Shape, place: Place) -> [u8; SLOT] {
    let at = shape.offset(place.sector) + place.displacement as usize;
    let mut slot = [0; SLOT];
    slot.copy_from_slice(&image[at..at + SLOT]);
    slot
}

/// What the 24 bytes of a slot say, as the service reads them.
pub fn state(slot: &[u8]) -> State {
    match slot[0] {
        0 => State::NeverUsed,
        128..=255 => State::Deleted,
        _ => State::Live(entry(slot)),
    }
}

/// A slot has what stands in a control block from the name on.
pub fn entry(slot: &[u8]) -> Entry {
    let mut name = [0; FULL];
    name.copy_from_slice(&slot[..FULL]);
    let attributes = slot[ATTRIBUTES - NAME];
    Entry {
        name: Name::of(name),
        start: Address::at(slot, START - NAME),
        end: Address::at(slot, END - NAME),
        sectors: u16::from_be_bytes([slot[SIZE - NAME], slot[SIZE - NAME + 1]]),
        write_protected: attributes & ATTRIBUTE_WRITE != 0,
        delete_protected: attributes & ATTRIBUTE_DELETE != 0,
        read_protected: attributes & ATTRIBUTE_READ != 0,
        date: [slot[DATE - NAME], slot[DATE - NAME + 1], slot[DATE - NAME + 2]],
    }
}

/// Whether a call takes this name: both parts begin with a letter and go on with letters, digits, hyphens and underscores.
pub fn is_legal(name: &Name) -> bool {
    is_word(&name.bytes()[..STEM]) && is_word(&name.bytes()[STEM..])
}

fn is_word(bytes: &[u8]) -> bool {
    let used = bytes.iter().position(|&byte| byte == 0).unwrap_or(bytes.len());
    let goes_on = |&byte: &u8| byte.is_ascii_alphanumeric() || byte == b'-' || byte == b'_';
    bytes[0].is_ascii_alphabetic() && bytes[..used].iter().all(goes_on) && bytes[used..].iter().all(|&byte| byte == 0)
}

/// Whether a slot that nothing vouches for looks like a file's: a legal name, start and end on the diskette, a size that fits on it.
pub fn looks_like_a_file(entry: &Entry, shape: Shape) -> bool {
    is_legal(&entry.name)
        && shape.is_data(entry.start)
        && shape.is_data(entry.end)
        && (1..=shape.data_sectors()).contains(&entry.sectors.into())
}

#[cfg(test)]
mod tests {
    use super::*;
    use flex::Diskette;

    #[test]
    fn slots_are_read_as_the_service_shows_them() {
        let mut diskette = Diskette::new(diskettes::blank(2, 6));
        for name in ["A", "B-2_x.Q", "LONGNAME.BAS"] {
            diskette.put(&name.parse().unwrap(), &[7; 600], [1, 2, 3]).unwrap();
        }
        diskette.delete(&"A".parse().unwrap()).unwrap();
        let mut slot = [0; SLOT];
        slot.copy_from_slice(&diskette.image()[1024 + 16 + 24..1024 + 16 + 48]);
        slot[ATTRIBUTES - NAME] = 160;
        diskette.put_slot(2, &slot).unwrap();
        let shown = diskette.slots().unwrap();
        let shape = Shape { last: 2, per: 6 };
        let read = [5, 6].iter().flat_map(|&sector| slots(diskette.image(), shape, Address::new(0, sector)));
        let read: Vec<_> = read.map(|(place, slot)| (place, state(slot))).collect();
        assert_eq!(read, shown.into_iter().map(|slot| (slot.place, slot.state)).collect::<Vec<_>>());
    }

    /// What the service says of a name decides.
    #[test]
    fn legal_names_are_those_that_a_call_takes() {
        let names = [
            "A.B",
            "a-_9zZ09.T0-",
            "LONGNAME.EXT",
            "9A.TXT",
            "-A.TXT",
            "A.9",
            "A B.TXT",
            "A.T T",
            "A\0B.TXT",
            "A.T\0T",
        ];
        for text in names {
            let (stem, extension) = text.split_once('.').unwrap();
            let mut bytes = [0; FULL];
            bytes[..stem.len()].copy_from_slice(stem.as_bytes());
            bytes[STEM..STEM + extension.len()].copy_from_slice(extension.as_bytes());
            let name = Name::of(bytes);
            let taken = Diskette::new(diskettes::blank(1, 5)).put(&name, b"x", [1, 2, 3]);
            assert_eq!(taken != Err(flex::Refusal::BadName), is_legal(&name), "{:?}", text);
        }
        assert!(!is_legal(&Name::of([0; FULL])) && !is_legal(&Name::of(*b"A\0\0\0\0\0\0\0\0\0\0")));
    }
}
