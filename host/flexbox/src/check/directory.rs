//! The directory's own links (42) and the names in it (43).

use super::sectors::file;
use super::Finding;
use flex::{Address, Name, Shape, Slot};
use std::collections::HashMap;

/// The directory's sectors as far as its links are right, and what is not right about them.
pub fn walk(image: &[u8], shape: Shape) -> (Vec<Address>, Vec<Finding>) {
    let mut sectors = vec![Address::new(0, 5)];
    let mut at = sectors[0];
    loop {
        let next = Address::at(image, shape.offset(at));
        if next == Address::NONE {
            return (sectors, vec![]);
        }
        if let Some(why) = wrong(shape, &sectors, next) {
            let text = format!("directory: its sector {} links to {}, {}", at, next, why);
            return (sectors, vec![Finding { number: 42, slots: vec![], sectors: vec![at], text }]);
        }
        sectors.push(next);
        at = next;
    }
}

fn wrong(shape: Shape, before: &[Address], next: Address) -> Option<String> {
    let is_on_track_0 = next.track == 0 && (5..=shape.per).contains(&next.sector);
    if !is_on_track_0 && !shape.is_data(next) {
        return Some(format!("which is neither on track 0 in sectors 5 to {} nor a data sector", shape.per));
    }
    before.contains(&next).then(|| "back to a sector before it".to_string())
}

/// Files of one name, each with the first of them.
pub fn names(slots: &[Slot]) -> Vec<Finding> {
    let mut first: HashMap<Name, &Slot> = HashMap::new();
    let mut findings = vec![];
    for (slot, entry) in slots.iter().filter_map(|slot| Some((slot, slot.entry()?))) {
        let earlier = *first.entry(entry.name).or_insert(slot);
        if earlier.number != slot.number {
            let text = format!("{} and slot {} have one name", file(earlier), slot.number);
            findings.push(finding(vec![earlier, slot], text));
        }
    }
    findings
}

fn finding(slots: Vec<&Slot>, text: String) -> Finding {
    let sectors = slots.iter().map(|slot| slot.place.sector).collect();
    Finding { number: 43, slots: slots.iter().map(|slot| slot.number).collect(), sectors, text }
}
