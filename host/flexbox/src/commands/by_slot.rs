//! `--slot N`: a file by the number of its slot, for one whose name no call takes. A raw write lends it a legal name that no other file has;
//! then the service reads, deletes or renames it as any file, with all that it refuses.

use crate::failure::Failure;
use crate::raw;
use crate::words::Words;
use flex::{Diskette, Name, Reading, Refusal, Shape, Slot, SLOT};

/// The bytes of a name in a slot.
const NAME_BYTES: usize = 11;

/// The number that is typed.
pub fn number(words: &Words) -> Result<Option<usize>, Failure> {
    let number = words.number("--slot", "the number of a slot", 1..=u16::MAX)?;
    if number.is_some() && words.has("--files") {
        return Err(words.misused("--slot and --files do not go together"));
    }
    Ok(number.map(usize::from))
}

/// The same for a change, which is made on a sound diskette alone.
pub fn number_to_change(words: &Words) -> Result<Option<usize>, Failure> {
    let number = number(words)?;
    match number.is_some() && words.has("--force") {
        true => Err(words.misused("--slot and --force do not go together")),
        false => Ok(number),
    }
}

/// How the slot is told.
pub fn shown(number: usize) -> String {
    format!("slot {}", number)
}

/// How it is told with a refusal.
pub fn refused_slot(number: usize, refusal: Refusal) -> String {
    match refusal {
        Refusal::NotFound => format!("slot {}, which holds no file", number),
        _ => shown(number),
    }
}

pub fn get(diskette: &mut Diskette, number: usize) -> Result<Reading, Refusal> {
    // Only the copy in memory has the name that is lent.
    let mut copy = diskette.clone();
    let (name, _) = lend(&mut copy, number)?;
    copy.get(&name)
}

/// Of the lent name nothing stays in the deleted slot.
pub fn delete(diskette: &mut Diskette, number: usize) -> Result<(), Refusal> {
    let (name, mut old) = lend(diskette, number)?;
    diskette.delete(&name)?;
    let deleted = bytes(diskette, number)?;
    old[0] = deleted[0];
    old[NAME_BYTES..].copy_from_slice(&deleted[NAME_BYTES..]);
    diskette.put_slot(number, &old)
}

/// To its own name is refused as the service refuses it.
pub fn rename(diskette: &mut Diskette, number: usize, new: &Name) -> Result<(), Refusal> {
    let (name, old) = lend(diskette, number)?;
    if old[..NAME_BYTES] == *new.bytes() {
        return Err(Refusal::Exists);
    }
    diskette.rename(&name, new)
}

/// Whether the service renames the file of this slot, once it has a name of its own.
pub fn can_rename(diskette: &Diskette, number: usize) -> bool {
    let mut copy = diskette.clone();
    let new = copy.slots().ok().and_then(|slots| unused(&slots, "NEW"));
    new.map_or(false, |new| rename(&mut copy, number, &new).is_ok())
}

/// The name that the file of this slot has then, and its slot before. 4 where it holds no file.
fn lend(diskette: &mut Diskette, number: usize) -> Result<(Name, [u8; SLOT]), Refusal> {
    let slots = diskette.slots()?;
    slots.get(number - 1).and_then(Slot::entry).ok_or(Refusal::NotFound)?;
    let old = bytes(diskette, number)?;
    let name = unused(&slots, "LENT").ok_or(Refusal::NotFound)?;
    let mut slot = old;
    slot[..NAME_BYTES].copy_from_slice(name.bytes());
    diskette.put_slot(number, &slot)?;
    Ok((name, old))
}

/// A legal name that begins so and that no file has.
fn unused(slots: &[Slot], begin: &str) -> Option<Name> {
    let is_taken = |name: &Name| slots.iter().filter_map(Slot::entry).any(|entry| entry.name == *name);
    let mut names = (0..).filter_map(|i| format!("{}{}.TMP", begin, i).parse().ok());
    names.find(|name| !is_taken(name))
}

/// Whatever the slot holds.
fn bytes(diskette: &mut Diskette, number: usize) -> Result<[u8; SLOT], Refusal> {
    let slots = diskette.slots()?;
    let slot = slots.get(number - 1).ok_or(Refusal::NotFound)?;
    let shape = Shape::stated(diskette.image()).ok_or(Refusal::CensusShape)?;
    Ok(raw::slot(diskette.image(), shape, slot.place))
}

#[cfg(test)]
mod tests {
    use super::*;

    /// A.TXT in slot 1, B.TXT in slot 2, whose name these bytes begin.
    fn in_use(begin: &[u8]) -> Diskette {
        let mut diskette = Diskette::new(diskettes::blank(2, 6));
        for name in ["A.TXT", "B.TXT"] {
            diskette.put(&name.parse().unwrap(), &[name.as_bytes()[0]; 300], [1, 2, 3]).unwrap();
        }
        let mut slot = bytes(&mut diskette, 2).unwrap();
        slot[..begin.len()].copy_from_slice(begin);
        diskette.put_slot(2, &slot).unwrap();
        diskette
    }

    #[test]
    fn a_file_is_reached_whatever_its_name_is() {
        for begin in [&b"B"[..], b"9", b"A B", b"\x01\x02", b"LENT0\0\0\0TMP"] {
            let mut diskette = in_use(begin);
            let before = diskette.clone();
            let reading = get(&mut diskette, 2).unwrap();
            assert_eq!((&reading.bytes[..300], reading.is_as_stated()), (&[b'B'; 300][..], true));
            assert_eq!(diskette.image(), before.image());
            let (mut renamed, mut deleted) = (diskette.clone(), diskette.clone());
            rename(&mut renamed, 2, &"NEW.TXT".parse().unwrap()).unwrap();
            assert_eq!(&renamed.get(&"NEW.TXT".parse().unwrap()).unwrap().bytes[..300], [b'B'; 300]);
            assert!(renamed.survey().is_ok());
            delete(&mut deleted, 2).unwrap();
            assert!(deleted.survey().is_ok());
            let mut marked = bytes(&mut before.clone(), 2).unwrap();
            marked[0] = 255;
            assert_eq!(bytes(&mut deleted, 2).unwrap(), marked);
        }
    }

    #[test]
    fn what_the_service_refuses_is_refused() {
        let new: Name = "NEW.TXT".parse().unwrap();
        let mut diskette = in_use(b"9");
        assert_eq!(rename(&mut diskette.clone(), 2, &"A.TXT".parse().unwrap()), Err(Refusal::Exists));
        assert_eq!(rename(&mut diskette.clone(), 2, &"8.TXT".parse().unwrap()), Err(Refusal::BadName));
        for number in [3, 20, 21, 9999] {
            assert_eq!(rename(&mut diskette.clone(), number, &new), Err(Refusal::NotFound), "{}", number);
            assert_eq!(delete(&mut diskette.clone(), number), Err(Refusal::NotFound), "{}", number);
        }
        let mut slot = bytes(&mut diskette, 2).unwrap();
        slot[11] = 224;
        diskette.put_slot(2, &slot).unwrap();
        assert_eq!(get(&mut diskette, 2).unwrap_err(), Refusal::ReadProtected);
        assert_eq!(delete(&mut diskette.clone(), 2), Err(Refusal::DeleteProtected));
        assert_eq!(rename(&mut diskette, 2, &new), Err(Refusal::WriteProtected));
    }
}
