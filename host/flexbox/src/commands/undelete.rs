//! `undelete`: brings a deleted file back, where its sectors are still free and in their order. A delete hangs them behind the free chain
//! as they are and marks the slot's first byte; so they are taken out of that chain again by raw writes, between two censuses.

use super::change::change;
use super::{full, look, plural, print, refused, refused_of, typed};
use crate::check::{Chain, Fault};
use crate::failure::{note, Failure};
use crate::raw;
use crate::words::Words;
use flex::{Address, Diskette, Entry, Name, Refusal, Shape, Slot, State, SECTOR, SLOT};
use std::fmt::Write;

/// In the information record, sector 0,3: first and last sector of the free chain, and how many it has.
const INFORMATION: Address = Address::new(0, 3);
const FIRST_FREE: usize = 29;
const LAST_FREE: usize = 31;
const FREE_COUNT: usize = 33;

/// A deleted slot.
struct Deleted {
    number: usize,
    slot: [u8; SLOT],
    /// Its sectors in their order, or why it can't be brought back.
    sectors: Result<Vec<Address>, String>,
    /// As many of its sectors from the first on as may still hold its bytes.
    had: Vec<Address>,
}

pub fn run(words: &Words) -> Result<(), Failure> {
    match words.others() {
        [] if words.has("--slot") => {
            Err(words.misused("--slot needs a name, whose first letter the delete has overwritten"))
        }
        [] => list(words),
        _ => bring_back(words),
    }
}

/// What there is to be brought back.
fn list(words: &Words) -> Result<(), Failure> {
    let mut diskette = look(words)?;
    diskette.survey().map_err(refused_of(words, &diskette))?;
    let mut text = String::new();
    for file in deleted(&mut diskette).map_err(refused(words.image(), ""))? {
        let can = match &file.sectors {
            Ok(sectors) => format!("can be brought back, {}", plural(sectors.len(), "sector")),
            Err(why) => format!("can't be brought back: {}", why),
        };
        let _ = writeln!(text, "{:4}  {:12}  {}", file.number, file.entry().name, can);
    }
    if text.is_empty() {
        text.push_str("no slot is deleted\n");
    }
    print(text.as_bytes())
}

fn bring_back(words: &Words) -> Result<(), Failure> {
    let text = words.text(0)?;
    let name = full(&typed(text)?);
    let wanted = words.number("--slot", "a slot", 1..=u16::MAX)?;
    change(words, |diskette| {
        let refused = refused(words.image(), text);
        if !raw::is_legal(&name) {
            return Err(refused(Refusal::BadName));
        }
        let slots = diskette.slots().map_err(&refused)?;
        if slots.iter().filter_map(Slot::entry).any(|entry| entry.name == name) {
            return Err(refused(Refusal::Exists));
        }
        let file = chosen(words, deleted(diskette).map_err(&refused)?, &name, wanted)?;
        let sectors = file.sectors.as_ref().map_err(|why| told(words, text, why))?;
        restore(diskette, &file, sectors, &name).map_err(&refused)
    })
}

/// The one deleted slot that has this name but for the first letter, which the delete has overwritten.
fn chosen(words: &Words, all: Vec<Deleted>, name: &Name, wanted: Option<u16>) -> Result<Deleted, Failure> {
    let is_wanted = |file: &Deleted| wanted.map_or(true, |number| file.number == number as usize);
    let is_there = all.iter().any(is_wanted);
    let fits = |file: &Deleted| file.slot[1..name.bytes().len()] == name.bytes()[1..];
    let mut fitting: Vec<Deleted> = all.into_iter().filter(|file| is_wanted(file) && fits(file)).collect();
    match (fitting.pop(), fitting.is_empty()) {
        (Some(file), true) => Ok(file),
        (None, _) => Err(told(words, &name.to_string(), &none_fits(is_there, wanted))),
        (Some(last), false) => {
            let numbers: Vec<String> = fitting.iter().chain([&last]).map(|file| file.number.to_string()).collect();
            let why = format!("several deleted slots have this name: {}; --slot says which", numbers.join(", "));
            Err(told(words, &name.to_string(), &why))
        }
    }
}

/// Why there is none to choose.
fn none_fits(is_there: bool, wanted: Option<u16>) -> String {
    match wanted {
        Some(number) if !is_there => format!("slot {} is no deleted slot of the directory", number),
        Some(number) => format!("the deleted slot {} has not this name but for the first letter", number),
        None => "no deleted slot has this name but for the first letter".to_string(),
    }
}

fn told(words: &Words, name: &str, why: &str) -> Failure {
    note(&format!("{}, {}: not brought back: {}", words.image().display(), name, why));
    Failure::Shown
}

impl Deleted {
    fn entry(&self) -> Entry {
        raw::entry(&self.slot)
    }
}

/// The deleted slots of a sound diskette.
fn deleted(diskette: &mut Diskette) -> Result<Vec<Deleted>, Refusal> {
    let slots = diskette.slots()?;
    let image = diskette.image();
    let shape = Shape::stated(image).ok_or(Refusal::CensusShape)?;
    let free = Chain::free(image).walk(image, shape).sectors;
    let one = |slot: &Slot| {
        let bytes = raw::slot(image, shape, slot.place);
        let had = had(image, shape, &free, &bytes);
        Deleted { number: slot.number, slot: bytes, sectors: sectors(image, shape, &free, &bytes), had }
    };
    let mut all: Vec<Deleted> = slots.iter().filter(|slot| slot.state == State::Deleted).map(one).collect();
    refuse_common(shape, &mut all);
    Ok(all)
}

/// The free sectors that a deleted slot leads to, with record numbers in order: as many from the first on as there are.
fn had(image: &[u8], shape: Shape, free: &[Address], slot: &[u8; SLOT]) -> Vec<Address> {
    let walked = Chain::of_file(0, &raw::entry(slot)).walk(image, shape).sectors;
    let is_in_order =
        |(i, at): &(usize, Address)| raw::is_random(slot) || raw::record_number(image, shape, *at) as usize == i + 1;
    let own = walked.into_iter().enumerate().take_while(|one| free.contains(&one.1) && is_in_order(one));
    own.map(|(_, at)| at).collect()
}

/// Where several deleted files had a sector, nothing tells whose bytes stand in it: the last of them has overwritten the others.
fn refuse_common(shape: Shape, all: &mut [Deleted]) {
    let mut had = vec![Vec::new(); shape.data_sectors()];
    for file in all.iter() {
        file.had.iter().for_each(|&at| had[shape.number(at)].push(file.number));
    }
    for file in all {
        let number = file.number;
        let other = |at: &Address| had[shape.number(*at)].iter().copied().find(|&other| other != number);
        let common = file.sectors.iter().flatten().find_map(|at| Some((*at, other(at)?)));
        if let Some((at, other)) = common {
            file.sectors = Err(format!("the deleted file of slot {} had its sector {}, too", other, at));
        }
    }
}

/// The file's sectors by its links, all of them free and with record numbers in order.
fn sectors(image: &[u8], shape: Shape, free: &[Address], slot: &[u8; SLOT]) -> Result<Vec<Address>, String> {
    let entry = raw::entry(slot);
    if entry.sectors == 0 {
        return Err("it has no sector".to_string());
    }
    let walked = Chain::of_file(0, &entry).walk(image, shape);
    for (i, &at) in walked.sectors.iter().enumerate() {
        let number = raw::record_number(image, shape, at);
        if !free.contains(&at) {
            return Err(format!("its sector {} of {}, at {}, is not free any more", i + 1, entry.sectors, at));
        }
        if !raw::is_random(slot) && usize::from(number) != i + 1 {
            return Err(format!(
                "its sector {} of {}, at {}, has the record number {}",
                i + 1,
                entry.sectors,
                at,
                number
            ));
        }
    }
    match walked.fault {
        // Behind it the free chain goes on.
        None | Some(Fault::RunsOn(..)) => Ok(walked.sectors),
        Some(_) => Err(format!("its sectors are no longer in order from {} to {}", entry.start, entry.end)),
    }
}

/// Takes the sectors out of the free chain, where they are in one run, and gives the slot its first letter again.
fn restore(diskette: &mut Diskette, file: &Deleted, sectors: &[Address], name: &Name) -> Result<(), Refusal> {
    let image = diskette.image();
    let shape = Shape::stated(image).ok_or(Refusal::CensusShape)?;
    let free = Chain::free(image).walk(image, shape).sectors;
    let first = free.iter().position(|at| at == &sectors[0]).unwrap_or_default();
    let before = first.checked_sub(1).map(|i| free[i]);
    let behind = free.get(first + sectors.len()).copied();
    let mut information = sector(diskette, INFORMATION)?;
    match before {
        Some(before) => link(diskette, before, behind.unwrap_or(Address::NONE))?,
        None => store(&mut information, FIRST_FREE, behind.unwrap_or(Address::NONE)),
    }
    if behind.is_none() {
        store(&mut information, LAST_FREE, before.unwrap_or(Address::NONE));
    }
    let count = (free.len() - sectors.len()) as u16;
    information[FREE_COUNT..FREE_COUNT + 2].copy_from_slice(&count.to_be_bytes());
    diskette.write_sector(INFORMATION, &information)?;
    link(diskette, sectors[sectors.len() - 1], Address::NONE)?;
    let mut slot = file.slot;
    slot[0] = name.bytes()[0];
    diskette.put_slot(file.number, &slot)
}

fn link(diskette: &mut Diskette, at: Address, to: Address) -> Result<(), Refusal> {
    let mut bytes = sector(diskette, at)?;
    store(&mut bytes, 0, to);
    diskette.write_sector(at, &bytes)
}

fn store(bytes: &mut [u8; SECTOR], at: usize, address: Address) {
    bytes[at..at + 2].copy_from_slice(&[address.track, address.sector]);
}

fn sector(diskette: &mut Diskette, at: Address) -> Result<[u8; SECTOR], Refusal> {
    let mut bytes = [0; SECTOR];
    bytes.copy_from_slice(diskette.sector(at)?);
    Ok(bytes)
}

#[cfg(test)]
mod tests {
    use super::*;
    use diskettes::Numbers;

    /// B is deleted, then A, and X takes B's sector and A's slot: whose bytes stand there is not known.
    #[test]
    fn a_sector_that_two_deleted_files_had_is_nobodys() {
        let mut diskette = Diskette::new(diskettes::blank(1, 5));
        let put = |diskette: &mut Diskette, name: &str, bytes: usize| {
            diskette.put(&name.parse().unwrap(), &vec![name.as_bytes()[0]; bytes], [1, 2, 3]).unwrap();
        };
        put(&mut diskette, "A", 4);
        put(&mut diskette, "B", 4);
        put(&mut diskette, "C", 700);
        diskette.delete(&"B".parse().unwrap()).unwrap();
        diskette.delete(&"A".parse().unwrap()).unwrap();
        let can = |diskette: &mut Diskette| {
            let all = deleted(diskette).unwrap();
            all.iter().map(|file| file.sectors.is_ok()).collect::<Vec<bool>>()
        };
        assert_eq!(can(&mut diskette), [true, true]);
        put(&mut diskette, "X", 4);
        diskette.delete(&"X".parse().unwrap()).unwrap();
        assert_eq!(can(&mut diskette), [false, false]);
    }

    fn name(i: usize) -> Name {
        format!("F{}.TXT", i).parse().unwrap()
    }

    /// Files come and go; whatever was deleted last of all is brought back, byte for byte, and the census accepts.
    #[test]
    fn what_was_deleted_last_comes_back() {
        let mut numbers = Numbers::start();
        for _ in 0..300 {
            let mut diskette = Diskette::new(diskettes::blank(3, 6));
            for i in 0..1 + numbers.below(8) {
                let bytes = vec![i as u8 + 1; 252 * (1 + numbers.below(4))];
                if diskette.put(&name(i), &bytes, [1, 2, 3]).is_err() {
                    diskette = Diskette::new(diskettes::blank(3, 6));
                    diskette.put(&name(i), &bytes, [1, 2, 3]).unwrap();
                }
                if numbers.below(3) == 0 {
                    diskette.delete(&name(i)).unwrap();
                }
            }
            let live: Vec<Name> =
                diskette.slots().unwrap().iter().filter_map(|slot| Some(slot.entry()?.name)).collect();
            if live.is_empty() {
                continue;
            }
            let last = numbers.one_of(&live);
            let files =
                |diskette: &mut Diskette| live.iter().map(|name| diskette.get(name).unwrap()).collect::<Vec<_>>();
            let before = files(&mut diskette);
            diskette.delete(&last).unwrap();
            let fitting: Vec<Deleted> = deleted(&mut diskette)
                .unwrap()
                .into_iter()
                .filter(|file| file.slot[1..11] == last.bytes()[1..] && file.sectors.is_ok())
                .collect();
            let file = fitting.last().expect("it can be brought back");
            restore(&mut diskette, file, file.sectors.as_ref().unwrap(), &last).unwrap();
            assert!(diskette.survey().is_ok());
            assert_eq!(files(&mut diskette), before);
        }
    }
}
