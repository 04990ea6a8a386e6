//! Each data sector in one chain (46), the directory among them: who holds it, which are shared, which are lost.

use super::Finding;
use flex::{Address, Shape, Slot};

#[derive(Clone, Copy, Debug, PartialEq, Eq)]
pub enum Owner {
    Free,
    /// The directory, which has taken it.
    Directory,
    /// The file of this slot.
    File(usize),
}

/// Who holds each data sector, by number: nobody, one, or several.
pub fn owners(shape: Shape, chains: &[(Owner, Vec<Address>)]) -> Vec<Vec<Owner>> {
    let mut owners = vec![Vec::new(); shape.data_sectors()];
    for (owner, sectors) in chains {
        for &address in sectors {
            owners[shape.number(address)].push(*owner);
        }
    }
    owners
}

/// The owner as findings name it.
pub fn holder(owner: Owner, slots: &[Slot]) -> String {
    match owner {
        Owner::Free => "the free chain".to_string(),
        Owner::Directory => "the directory".to_string(),
        Owner::File(number) => file(&slots[number - 1]),
    }
}

/// "NORTH.TXT (slot 2, at 0,5 byte 40)"
pub fn file(slot: &Slot) -> String {
    let name = slot.entry().map_or("no file".to_string(), |entry| entry.name.to_string());
    format!("{} (slot {}, at {})", name, slot.number, slot.place)
}

/// A finding for each group of owners that share sectors.
pub fn shared(shape: Shape, owners: &[Vec<Owner>], slots: &[Slot]) -> Vec<Finding> {
    let mut groups: Vec<(&Vec<Owner>, Vec<usize>)> = Vec::new();
    for (number, holders) in owners.iter().enumerate().filter(|(_, holders)| holders.len() > 1) {
        match groups.iter_mut().find(|(group, _)| *group == holders) {
            Some((_, sectors)) => sectors.push(number),
            None => groups.push((holders, vec![number])),
        }
    }
    groups.iter().map(|(holders, sectors)| sharing(shape, holders, sectors, slots)).collect()
}

/// How many holders of one sector are named before the rest is only counted.
const NAMED: usize = 8;

fn sharing(shape: Shape, holders: &[Owner], sectors: &[usize], slots: &[Slot]) -> Finding {
    let mut names: Vec<String> = holders.iter().take(NAMED).map(|&owner| holder(owner, slots)).collect();
    if holders.len() > NAMED {
        names.push(format!("{} more", holders.len() - NAMED));
    }
    let text = format!("{} held by {}", ranges(shape, sectors), names.join(" and by "));
    let files = holders.iter().filter_map(|owner| match owner {
        Owner::Free | Owner::Directory => None,
        Owner::File(number) => Some(*number),
    });
    Finding { number: 46, slots: files.collect(), sectors: addresses(shape, sectors), text }
}

/// The sectors that no chain holds.
pub fn lost(shape: Shape, owners: &[Vec<Owner>]) -> Option<Finding> {
    let sectors: Vec<usize> = (0..owners.len()).filter(|&number| owners[number].is_empty()).collect();
    if sectors.is_empty() {
        return None;
    }
    let text = format!("{} in no chain", ranges(shape, &sectors));
    Some(Finding { number: 46, slots: vec![], sectors: addresses(shape, &sectors), text })
}

fn addresses(shape: Shape, sectors: &[usize]) -> Vec<Address> {
    sectors.iter().map(|&number| shape.address(number)).collect()
}

/// "sector 1,3 is" or "3 sectors are", with the ranges of their numbers: "1,3 to 1,5, 2,2".
fn ranges(shape: Shape, sectors: &[usize]) -> String {
    let words = spans(sectors, |number| shape.address(number));
    match sectors.len() {
        1 => format!("sector {} is", words[0]),
        many => format!("{} sectors ({}) are", many, words.join("; ")),
    }
}

/// Rising numbers of sectors, those that follow each other as one: "1,3 to 1,5".
pub fn spans(sectors: &[usize], address: impl Fn(usize) -> Address) -> Vec<String> {
    let mut runs: Vec<(usize, usize)> = Vec::new();
    for &number in sectors {
        match runs.last_mut() {
            Some(run) if run.1 + 1 == number => run.1 = number,
            _ => runs.push((number, number)),
        }
    }
    let word = |&(first, last): &(usize, usize)| match first == last {
        true => address(first).to_string(),
        false => format!("{} to {}", address(first), address(last)),
    };
    runs.iter().map(word).collect()
}
