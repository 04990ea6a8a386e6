//! `repair --drop`: files that are given up before the diskette is repaired. Their slots are marked as a delete marks them, by a raw write,
//! and the repair finds their sectors: a delete itself may refuse a damaged chain, or hang another file's sectors behind the free chain.

use crate::raw;
use flex::{Diskette, Entry, Name, Refusal, Shape};

/// The first byte of a deleted slot.
const MARK: u8 = 255;

/// Marks the slot of the first file of this name, and gives what it stated. Protection is looked at as a delete does.
pub fn drop_file(diskette: &mut Diskette, name: &Name) -> Result<Entry, Refusal> {
    if !raw::is_legal(name) {
        return Err(Refusal::BadName);
    }
    let slots = diskette.slots()?;
    let found = slots.iter().find_map(|slot| Some((slot, slot.entry().filter(|entry| entry.name == *name)?)));
    let (slot, entry) = found.ok_or(Refusal::NotFound)?;
    if entry.delete_protected {
        return Err(Refusal::DeleteProtected);
    }
    if entry.write_protected {
        return Err(Refusal::WriteProtected);
    }
    let shape = Shape::stated(diskette.image()).ok_or(Refusal::CensusShape)?;
    let mut bytes = raw::slot(diskette.image(), shape, slot.place);
    bytes[0] = MARK;
    diskette.put_slot(slot.number, &bytes)?;
    Ok(entry.clone())
}

#[cfg(test)]
mod tests {
    use super::*;
    use diskettes::Numbers;

    /// Which slot and why not: as a delete answers, on sound diskettes, and what comes out after a repair is the same.
    #[test]
    fn a_file_is_dropped_where_a_delete_would_delete_it() {
        let mut numbers = Numbers::start();
        for _ in 0..200 {
            let mut diskette = Diskette::new(diskettes::blank(2, 6));
            for name in ["A.TXT", "B.TXT", "C.BAS"] {
                diskette.put(&name.parse().unwrap(), &vec![1; 1 + numbers.below(700)], [1, 2, 3]).unwrap();
            }
            let place = diskette.slots().unwrap()[1].place;
            let mut slot = raw::slot(diskette.image(), Shape { last: 2, per: 6 }, place);
            slot[11] = numbers.one_of(&[0, 32, 64, 128, 192]);
            diskette.put_slot(2, &slot).unwrap();
            let name: Name = numbers.one_of(&["A.TXT", "B.TXT", "C.BAS", "D.TXT", "9.TXT"]).parse().unwrap();
            let (mut dropped, mut deleted) = (diskette.clone(), diskette);
            assert_eq!(drop_file(&mut dropped, &name).map(|_| ()), deleted.delete(&name), "{}", name);
            dropped.repair().unwrap();
            deleted.repair().unwrap();
            assert_eq!(dropped.image(), deleted.image());
        }
    }
}
