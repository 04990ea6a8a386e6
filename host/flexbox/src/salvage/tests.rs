//! On thousands of damaged and truncated diskettes: what the service reads as it is stated is salvaged byte for byte, and no sector that was
//! written is left out.

use super::*;
use diskettes::{blank, offset, Numbers};
use flex::Diskette;

const SHAPE: Shape = Shape { last: 3, per: 6 };
const NAMES: [&str; 5] = ["A.TXT", "B.TXT", "C.BAS", "D.DAT", "E.TXT"];

fn in_use(numbers: &mut Numbers) -> Diskette {
    let mut diskette = Diskette::new(blank(3, 6));
    for (i, name) in NAMES.iter().enumerate() {
        let bytes = vec![i as u8 + 1; 1 + numbers.below(800)];
        diskette.put(&name.parse().unwrap(), &bytes, [1, 2, 3]).unwrap();
    }
    if numbers.below(2) == 0 {
        diskette.delete(&numbers.one_of(&NAMES).parse().unwrap()).unwrap();
    }
    diskette
}

fn damage(image: &mut [u8], numbers: &mut Numbers) {
    let address = [numbers.below(5) as u8, numbers.below(8) as u8];
    let slot = 1024 + 16 + 24 * numbers.below(5);
    match numbers.below(5) {
        0 => image[slot + 13 + 2 * numbers.below(2)..][..2].copy_from_slice(&address),
        1 => image[slot + 18] = numbers.below(9) as u8,
        2 => image[offset(6, 0, 5)..][..2].copy_from_slice(&address),
        3 => image[541 + numbers.below(6)] = numbers.below(8) as u8,
        _ => image[offset(6, 1 + numbers.below(3), 1 + numbers.below(6))..][..2].copy_from_slice(&address),
    }
}

/// The bytes of the file of this slot.
fn of_slot(salvage: &Salvage, number: usize) -> (Vec<u8>, bool) {
    let file = salvage.files.iter().find(|file| file.origin == Origin::Directory(number)).unwrap();
    (salvage.bytes(file), file.is_whole())
}

#[test]
fn what_the_service_reads_is_salvaged_and_no_written_sector_is_left_out() {
    let mut numbers = Numbers::start();
    let (mut read, mut whole, mut lost) = (0, 0, 0);
    for _ in 0..5_000 {
        let mut image = in_use(&mut numbers).image().to_vec();
        (0..numbers.below(4)).for_each(|_| damage(&mut image, &mut numbers));
        let mut diskette = Diskette::new(image.clone());
        let salvage = Salvage::of(&image, SHAPE, false);
        for slot in diskette.slots().unwrap_or_default() {
            let reading = slot.entry().and_then(|entry| diskette.get(&entry.name).ok());
            let first = reading.filter(|reading| Some(&reading.entry) == slot.entry() && reading.is_as_stated());
            if let Some(reading) = first {
                let (bytes, is_whole) = of_slot(&salvage, slot.number);
                assert_eq!(bytes, reading.bytes);
                read += 1;
                whole += is_whole as usize;
            }
        }
        lost += salvage.files.iter().filter(|file| file.origin == Origin::Lost).count();
        all_are_given(&salvage, &image);
    }
    assert!(read > 10_000 && whole > 9_000 && whole < read && lost > 1_000, "{} {} {}", read, whole, lost);
}

/// Every data sector with a byte behind its link is in a file, in a lost chain, in the free chain or the directory's.
fn all_are_given(salvage: &Salvage, image: &[u8]) {
    let given: Vec<Address> = salvage.files.iter().flat_map(|file| file.sectors.clone()).collect();
    let free = check::Chain::free(image).walk(image, SHAPE).sectors;
    let directory = check::directory(image, SHAPE);
    for at in (0..SHAPE.data_sectors()).map(|number| SHAPE.address(number)) {
        let offset = SHAPE.offset(at);
        let is_empty = image[offset + 2..offset + 256].iter().all(|&byte| byte == 0);
        assert!(is_empty || given.contains(&at) || free.contains(&at) || directory.contains(&at), "{}", at);
    }
}

#[test]
fn a_sound_diskette_is_whole_and_has_nothing_else() {
    let mut numbers = Numbers::start();
    for _ in 0..300 {
        let diskette = in_use(&mut numbers);
        let salvage = Salvage::of(diskette.image(), SHAPE, false);
        assert!(salvage.files.iter().all(Found::is_whole));
        assert_eq!(salvage.missing, 0);
    }
}

#[test]
fn of_a_file_that_ends_early_what_is_there_is_given() {
    let mut numbers = Numbers::start();
    for _ in 0..500 {
        let diskette = in_use(&mut numbers);
        let length = numbers.below(diskette.image().len());
        let salvage = Salvage::of(&diskette.image()[..length], SHAPE, false);
        assert_eq!(salvage.missing, 24 - length / SECTOR);
        let all = Salvage::of(diskette.image(), SHAPE, false);
        for file in all.files.iter().filter(|file| file.sectors.iter().all(|&at| SHAPE.offset(at) + SECTOR <= length)) {
            let found = salvage.files.iter().find(|other| other.slot == file.slot);
            // Its slot must be there, too, and the sectors of the directory before it.
            if let Some(found) = found {
                assert_eq!((salvage.bytes(found), found.is_whole()), (all.bytes(file), true));
            } else {
                assert!(length < 7 * SECTOR);
            }
        }
    }
}

/// A in 1,1 1,2, B in 1,3 to 1,5, each sector with its letter; then these bytes are stored.
fn faults_of(stores: &[(usize, &[u8])]) -> Vec<(String, usize, String)> {
    let mut diskette = Diskette::new(blank(3, 6));
    for (name, sectors) in [("A", 2), ("B", 3)] {
        diskette.put(&name.parse().unwrap(), &vec![name.as_bytes()[0]; sectors * 252], [1, 2, 3]).unwrap();
    }
    let mut image = diskette.image().to_vec();
    for (at, bytes) in stores {
        image[*at..at + bytes.len()].copy_from_slice(bytes);
    }
    let salvage = Salvage::of(&image, SHAPE, true);
    let told = salvage.files.iter().map(|file| {
        let name = file.entry().map_or("lost".to_string(), |entry| entry.name.to_string());
        let faults: Vec<String> = file.faults.iter().map(Fault::to_string).collect();
        (name, file.sectors.len(), faults.join(", "))
    });
    told.collect()
}

#[test]
fn what_is_not_as_it_should_be_is_told() {
    let (slot_a, slot_b) = (1024 + 16, 1024 + 40);
    let row = |name: &str, sectors: usize, faults: &str| (name.to_string(), sectors, faults.to_string());
    let b = row("B.TXT", 3, "");
    assert_eq!(faults_of(&[]), [row("A.TXT", 2, ""), b.clone()]);
    let cut = [row("A.TXT", 1, "cut"), b.clone(), row("lost", 1, "")];
    assert_eq!(faults_of(&[(offset(6, 1, 1), &[0, 0])]), cut);
    assert_eq!(faults_of(&[(offset(6, 1, 1), &[9, 9])]), cut);
    assert_eq!(faults_of(&[(offset(6, 1, 1), &[1, 1])]), cut);
    let into = [row("A.TXT", 5, "runs on, shared, out of order"), row("B.TXT", 3, "shared")];
    assert_eq!(faults_of(&[(offset(6, 1, 2), &[1, 3])]), into);
    assert_eq!(faults_of(&[(slot_a + 15, &[1, 1])]), [row("A.TXT", 2, "other end"), b.clone()]);
    assert_eq!(faults_of(&[(offset(6, 1, 2) + 3, &[7])]), [row("A.TXT", 2, "out of order"), b.clone()]);
    // A random file may have any record numbers.
    assert_eq!(faults_of(&[(offset(6, 1, 2) + 3, &[7]), (slot_a + 19, &[1])]), [row("A.TXT", 2, ""), b.clone()]);
    // Deleted by its mark alone: it is still found, with no first letter, and no chain is lost but the rest of a longer one.
    assert_eq!(faults_of(&[(slot_a, &[255])])[0], row("_.TXT", 2, ""));
    // And what another file has by now is told.
    let taken = faults_of(&[(slot_b, &[255]), (slot_a + 13, &[1, 3, 1, 5, 0, 3])]);
    assert_eq!(taken[..2], [row("A.TXT", 3, ""), row("_.TXT", 3, "shared")]);
}
