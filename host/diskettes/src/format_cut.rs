//! A format that is cut short while a host writes its sectors in place, as docs/HOST.md tells it to: what the census accepts then is a
//! diskette without files, or the old one; in another order it can be a file without its bytes.

use super::*;
use flex::{Entry, Steps, SECTOR};

const LAST: usize = 3;
const PER: usize = 7;

/// Some files, some of them deleted; sometimes behind as many without a sector as track 0 has slots, so that the directory has grown.
fn in_use(numbers: &mut Numbers) -> Vec<u8> {
    let mut diskette = Diskette::new(blank(LAST, PER));
    for i in 0..numbers.one_of(&[0, 10 * (PER - 4)]) {
        diskette.create(0, &format!("E{}", i).parse().unwrap(), [1, 2, 3]).unwrap();
        // Closed by a restart and not by a call, so that it stays.
        diskette = Diskette::new(diskette.into_buffers().0);
    }
    for i in 0..1 + numbers.below(6) {
        let name = format!("F{}", i).parse().unwrap();
        diskette.put(&name, &vec![i as u8 + 1; 1 + numbers.below(700)], [1, 2, 3]).unwrap();
        if numbers.below(4) == 0 {
            diskette.delete(&name).unwrap();
        }
    }
    diskette.into_buffers().0
}

/// The files that have a sector, with their bytes.
fn files(image: &[u8]) -> Vec<(Entry, Vec<u8>)> {
    let mut diskette = Diskette::new(image.to_vec());
    let slots = diskette.slots().expect("the directory is right");
    let entries = slots.iter().filter_map(|slot| slot.entry().filter(|entry| entry.sectors > 0));
    entries.map(|entry| (entry.clone(), diskette.get(&entry.name).expect("it can be read").bytes)).collect()
}

/// The old image with these sectors of the new one, by their numbers from (0, 1) on.
fn mixed(old: &[u8], new: &[u8], written: impl Fn(usize) -> bool) -> Vec<u8> {
    let mut image = old.to_vec();
    for sector in (0..image.len() / SECTOR).filter(|&sector| written(sector)) {
        let bytes = sector * SECTOR..(sector + 1) * SECTOR;
        image[bytes.clone()].copy_from_slice(&new[bytes]);
    }
    image
}

/// The numbers of (0, 3), and of (0, 5) to (0, S).
const RECORD: usize = 2;
fn is_directory(sector: usize) -> bool {
    (4..PER).contains(&sector)
}

/// Whether the census accepts it though it is neither: None where it refuses.
fn is_bad(old: &[u8], image: &[u8]) -> Option<bool> {
    flex::survey(image).ok()?;
    let left = files(image);
    Some(!left.is_empty() && left != files(old))
}

#[test]
fn in_the_order_that_is_told_nothing_else_is_accepted() {
    let mut numbers = Numbers::start();
    let (mut refused, mut accepted) = (0, 0);
    for _ in 0..20_000 {
        let (old, new) = (in_use(&mut numbers), blank(LAST, PER));
        let group = numbers.below(3);
        let chosen: Vec<bool> = (0..old.len() / SECTOR).map(|_| numbers.below(2) == 0).collect();
        let image = mixed(&old, &new, |sector| match (is_directory(sector), sector == RECORD) {
            (true, _) => group > 0 || chosen[sector],
            (_, true) => group > 1 && chosen[sector],
            _ => group > 1 || group > 0 && chosen[sector],
        });
        match is_bad(&old, &image) {
            None => refused += 1,
            Some(bad) => {
                assert!(!bad);
                accepted += 1;
            }
        }
    }
    assert!(refused > 1_000 && accepted > 1_000, "{} {}", refused, accepted);
}

#[test]
fn in_any_order_a_file_can_lose_its_bytes_unseen() {
    let mut numbers = Numbers::start();
    let bad = (0..20_000).filter(|_| {
        let (old, new) = (in_use(&mut numbers), blank(LAST, PER));
        let one = numbers.below(old.len() / SECTOR);
        is_bad(&old, &mixed(&old, &new, |sector| sector == one)) == Some(true)
    });
    assert!(bad.count() > 100);
}
