//! Files that a directory cut short has lost: slots that look live, in sectors 5 to S of track 0 that its links do not reach. The service
//! does not show them, and the census says nothing of them but that their sectors are in no chain.

use super::chain::Chain;
use super::sectors::Owner;
use crate::raw;
use flex::{Address, Entry, Place, Shape, Slot, State, SLOT};
use std::fmt;

#[derive(Clone, Debug, PartialEq, Eq)]
pub struct Unreached {
    pub place: Place,
    pub entry: Entry,
    /// How many sectors of its chain no chain has: those a repair would make free.
    pub loose: usize,
}

/// "VANISHED.TXT (at 0,6 byte 16), 3 sectors from 1,1 to 1,3, 3 of them in no chain"
impl fmt::Display for Unreached {
    fn fmt(&self, f: &mut fmt::Formatter<'_>) -> fmt::Result {
        let Entry { name, start, end, sectors, .. } = &self.entry;
        let plural = if *sectors == 1 { "" } else { "s" };
        write!(f, "{} (at {}), {} sector{} from {} to {}", name, self.place, sectors, plural, start, end)?;
        write!(f, ", {} of them in no chain", self.loose)
    }
}

/// `owners` has who holds each data sector.
pub fn files(image: &[u8], shape: Shape, directory: &[Address], owners: &[Vec<Owner>]) -> Vec<Unreached> {
    let track_0 = (raw::FIRST_OF_DIRECTORY..=shape.per).map(|sector| Address::new(0, sector));
    let sectors = track_0.filter(|sector| !directory.contains(sector));
    let slots = sectors.flat_map(|sector| raw::slots(image, shape, sector));
    let files = slots.filter_map(|(place, slot)| match raw::state(slot) {
        State::Live(entry) if raw::looks_like_a_file(&entry, shape) => Some((place, entry)),
        _ => None,
    });
    files.map(|(place, entry)| unreached(image, shape, owners, place, entry)).collect()
}

/// Slots of the directory that are deleted or were never used, though written sectors of their chains are in no chain. Those of a file that
/// was deleted rightly are free or another's: so the first byte of such a slot is damaged, or the free chain.
pub fn gone(image: &[u8], shape: Shape, slots: &[Slot], owners: &[Vec<Owner>]) -> Vec<Unreached> {
    let empty = slots.iter().filter(|slot| slot.entry().is_none());
    let stated = empty.map(|slot| (slot.place, nameless(raw::slot(image, shape, slot.place))));
    let is_likely = |entry: &Entry| shape.is_data(entry.start) && raw::is_written(image, shape, entry.start);
    let likely = stated.filter(|(_, entry)| is_likely(entry));
    likely.map(|(place, entry)| unreached(image, shape, owners, place, entry)).filter(|file| file.loose > 0).collect()
}

/// What a slot says whose first byte is not the name's: that is shown as unknown.
fn nameless(mut slot: [u8; SLOT]) -> Entry {
    slot[0] = u8::MAX;
    raw::entry(&slot)
}

/// It has no slot of the directory that holds a file, so no number.
fn unreached(image: &[u8], shape: Shape, owners: &[Vec<Owner>], place: Place, entry: Entry) -> Unreached {
    let walked = Chain::of_file(0, &entry).walk(image, shape);
    let is_loose = |&address: &Address| owners[shape.number(address)].is_empty();
    let loose = walked.sectors.iter().filter(|&at| is_loose(at)).count();
    Unreached { place, entry, loose }
}
