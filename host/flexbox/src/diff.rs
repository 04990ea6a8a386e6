//! What is not the same on two diskettes: files, slots, sectors and the free chain.

use crate::check::{self, Check, Owner};
use crate::raw;
use flex::{Address, Diskette, Entry, Name, Refusal, Shape, DATA, SECTOR, SLOT};
use std::collections::HashMap;

/// A file's name, and the how manieth of that name it is.
type Key = (Name, usize);

/// One of the two, with all that is compared of it.
pub struct Side {
    pub check: Check,
    image: Vec<u8>,
}

/// A file that one of them has not, or has otherwise.
#[derive(Debug, PartialEq, Eq)]
pub struct FileChange {
    pub name: String,
    /// The slot on each of them, if there is such a file, and its size in sectors.
    pub slots: [Option<usize>; 2],
    pub sectors: [Option<u16>; 2],
    /// From which byte on the contents differ, if both have the file.
    pub differs_from: Option<usize>,
    /// What else differs: date, protection, place.
    pub otherwise: Vec<&'static str>,
}

#[derive(Debug, PartialEq, Eq)]
pub struct Difference {
    pub files: Vec<FileChange>,
    /// By number and by address; None where the two have not the same shape, of slots also where those of one can't be listed.
    pub slots: Option<Vec<usize>>,
    pub sectors: Option<Vec<Address>>,
    pub free_chain: bool,
}

impl Side {
    /// Refused is only what is no image of a diskette.
    pub fn of(diskette: &mut Diskette) -> Result<Side, Refusal> {
        let check = check::check(diskette)?;
        Ok(Side { check, image: diskette.image().to_vec() })
    }

    pub fn shape(&self) -> Shape {
        self.check.shape
    }

    pub fn free(&self) -> &[Address] {
        self.chain(Owner::Free)
    }

    fn chain(&self, owner: Owner) -> &[Address] {
        let found = self.check.chains.iter().find(|(one, _)| *one == owner);
        found.map_or(&[], |(_, sectors)| sectors)
    }

    /// The live files in the order of their slots.
    fn files(&self) -> impl Iterator<Item = (usize, &Entry)> {
        self.check.slots.iter().filter_map(|slot| Some((slot.number, slot.entry()?)))
    }

    /// The files by the bytes of their names, since several may be shown alike, and the how manieth of its name each is.
    fn by_name(&self) -> Vec<(Key, (usize, &Entry))> {
        let mut met: HashMap<Name, usize> = HashMap::new();
        let mut key = |name: Name| {
            let count = met.entry(name).or_insert(0);
            *count += 1;
            (name, *count)
        };
        self.files().map(|(slot, entry)| (key(entry.name), (slot, entry))).collect()
    }

    /// The contents of a file, as far as its chain is right.
    fn contents(&self, slot: usize) -> Vec<u8> {
        let data = |&at: &Address| {
            let end = self.shape().offset(at) + SECTOR;
            &self.image[end - DATA..end]
        };
        self.chain(Owner::File(slot)).iter().flat_map(data).copied().collect()
    }

    fn slot(&self, number: usize) -> Option<[u8; SLOT]> {
        let slot = self.check.slots.get(number - 1)?;
        Some(raw::slot(&self.image, self.shape(), slot.place))
    }
}

impl Difference {
    pub fn of(one: &Side, other: &Side) -> Difference {
        let is_one_shape = one.shape() == other.shape();
        Difference {
            files: files(one, other),
            slots: (is_one_shape && one.check.has_slots() && other.check.has_slots()).then(|| slots(one, other)),
            sectors: is_one_shape.then(|| sectors(one, other)),
            free_chain: one.free() != other.free(),
        }
    }

    /// Whether no byte is another.
    pub fn is_none(&self) -> bool {
        self.sectors.as_ref().map_or(false, Vec::is_empty)
    }
}

/// Those of the first, then those that only the second has. None where the slots of one can't be listed.
fn files(one: &Side, other: &Side) -> Vec<FileChange> {
    if !one.check.has_slots() || !other.check.has_slots() {
        return Vec::new();
    }
    let (ones, others) = (one.by_name(), other.by_name());
    let [of_one, of_other] = [&ones, &others].map(|files| files.iter().copied().collect::<HashMap<_, _>>());
    let added = others.iter().filter(|(key, _)| !of_one.contains_key(key));
    let keys = ones.iter().chain(added).map(|(key, _)| key);
    keys.filter_map(|key| file(one, other, key.0, [of_one.get(key).copied(), of_other.get(key).copied()])).collect()
}

fn file(one: &Side, other: &Side, name: Name, sides: [Option<(usize, &Entry)>; 2]) -> Option<FileChange> {
    let mut change = FileChange {
        name: name.to_string(),
        slots: sides.map(|side| side.map(|(slot, _)| slot)),
        sectors: sides.map(|side| side.map(|(_, entry)| entry.sectors)),
        differs_from: None,
        otherwise: Vec::new(),
    };
    if let [Some((slot, entry)), Some((other_slot, other_entry))] = sides {
        change.differs_from = first_difference(&one.contents(slot), &other.contents(other_slot));
        change.otherwise = otherwise(entry, other_entry, slot == other_slot);
        if change.differs_from.is_none() && change.otherwise.is_empty() && change.sectors[0] == change.sectors[1] {
            return None;
        }
    }
    Some(change)
}

fn first_difference(one: &[u8], other: &[u8]) -> Option<usize> {
    let shorter = one.len().min(other.len());
    let inside = one.iter().zip(other).position(|(a, b)| a != b);
    inside.or_else(|| (one.len() != other.len()).then_some(shorter))
}

fn otherwise(one: &Entry, other: &Entry, is_one_slot: bool) -> Vec<&'static str> {
    let protections = |entry: &Entry| (entry.write_protected, entry.delete_protected, entry.read_protected);
    let all = [
        (one.date != other.date, "date"),
        (protections(one) != protections(other), "protection"),
        ((one.start, one.end) != (other.start, other.end), "place"),
        (!is_one_slot, "slot"),
    ];
    all.into_iter().filter(|row| row.0).map(|row| row.1).collect()
}

fn slots(one: &Side, other: &Side) -> Vec<usize> {
    let count = one.check.slots.len().max(other.check.slots.len());
    (1..=count).filter(|&number| one.slot(number) != other.slot(number)).collect()
}

/// All sectors are compared, track 0 too.
fn sectors(one: &Side, other: &Side) -> Vec<Address> {
    let Shape { last, per } = one.shape();
    let all = (0..=last).flat_map(|track| (1..=per).map(move |sector| Address::new(track, sector)));
    let bytes = |side: &Side, at: usize| side.image[at..at + SECTOR].to_vec();
    all.filter(|&address| {
        let at = one.shape().offset(address);
        bytes(one, at) != bytes(other, at)
    })
    .collect()
}

#[cfg(test)]
mod tests {
    use super::*;
    use diskettes::{blank, offset};

    fn in_use() -> Diskette {
        let mut diskette = Diskette::new(blank(2, 6));
        for (name, sectors) in [("A", 2), ("B", 3)] {
            diskette.put(&name.parse().unwrap(), &vec![7; 252 * sectors], [1, 2, 3]).unwrap();
        }
        diskette
    }

    fn difference(one: &mut Diskette, other: &mut Diskette) -> Difference {
        Difference::of(&Side::of(one).unwrap(), &Side::of(other).unwrap())
    }

    #[test]
    fn nothing_differs_from_itself() {
        let same = difference(&mut in_use(), &mut in_use());
        let none = Difference { files: vec![], slots: Some(vec![]), sectors: Some(vec![]), free_chain: false };
        assert_eq!((same.is_none(), same), (true, none));
    }

    /// Names that are shown alike, and files of one name.
    #[test]
    fn files_are_told_apart_by_their_bytes_and_order() {
        for names in [[1, 2], [b'A', b'A']] {
            let mut one = in_use().image().to_vec();
            (one[1040], one[1064]) = (names[0], names[1]);
            let mut other = one.clone();
            other[offset(6, 1, 3) + 4] = 8;
            let found = difference(&mut Diskette::new(one), &mut Diskette::new(other)).files;
            assert_eq!((found.len(), found[0].slots, found[0].differs_from), (1, [Some(2); 2], Some(0)));
        }
    }

    #[test]
    fn slots_that_cant_be_listed_are_not_compared() {
        let mut other = in_use().image().to_vec();
        other[1025] = 4;
        let found = difference(&mut in_use(), &mut Diskette::new(other));
        assert_eq!((found.slots, found.sectors), (None, Some(vec![Address::new(0, 5)])));
    }

    #[test]
    fn a_byte_a_date_and_a_deleted_file_are_found() {
        let mut other = in_use().image().to_vec();
        other[offset(6, 1, 2) + 4 + 10] = 8;
        other[1024 + 40 + 23] = 9;
        let found = difference(&mut in_use(), &mut Diskette::new(other));
        assert_eq!((found.files[0].name.as_str(), found.files[0].differs_from), ("A.TXT", Some(252 + 10)));
        assert_eq!((found.files[1].name.as_str(), found.files[1].otherwise.as_slice()), ("B.TXT", &["date"][..]));
        assert_eq!((found.files.len(), found.free_chain), (2, false));
        assert_eq!(found.slots, Some(vec![2]));
        assert_eq!(found.sectors, Some(vec![Address::new(0, 5), Address::new(1, 2)]));
        let mut deleted = in_use();
        deleted.delete(&"A".parse().unwrap()).unwrap();
        let found = difference(&mut deleted, &mut in_use());
        assert_eq!((found.files.len(), found.files[0].slots, found.free_chain), (1, [None, Some(1)], true));
        assert_eq!(found.slots, Some(vec![1]));
    }

    #[test]
    fn another_shape_has_other_sectors() {
        let mut other = Diskette::new(blank(3, 6));
        other.put(&"A".parse().unwrap(), &[7; 504], [1, 2, 3]).unwrap();
        let found = difference(&mut in_use(), &mut other);
        assert_eq!((found.slots.is_none(), found.sectors.is_none(), found.is_none()), (true, true, false));
        assert_eq!(found.files.iter().map(|file| file.name.as_str()).collect::<Vec<_>>(), ["B.TXT"]);
    }
}
