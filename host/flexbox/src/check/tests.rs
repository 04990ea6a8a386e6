//! The findings beside the proved verdict: on thousands of damaged diskettes the first finding breaks the very rule that
//! the census names, each has a place, and a diskette that the census accepts has none.

use super::*;
use diskettes::{blank, offset, Numbers};
use flex::Steps;

/// A.TXT has two sectors, B.TXT three, C.TXT one; one was deleted. Where it is crowded, there are as many files before them as
/// track 0 has slots, all but one of them gone again, and the directory has taken a sector.
fn in_use(last: usize, per: usize, is_crowded: bool) -> Vec<u8> {
    let mut diskette = Diskette::new(blank(last, per));
    if is_crowded {
        crowd(&mut diskette, 10 * (per - 4));
    }
    for (name, sectors) in [("A", 2), ("OLD", 1), ("B", 3), ("C", 1)] {
        diskette.put(&name.parse().unwrap(), &vec![7; sectors * 252], [1, 2, 3]).unwrap();
    }
    diskette.delete(&"OLD".parse().unwrap()).unwrap();
    diskette.image().to_vec()
}

/// The last file stays, in the first slot of the sector that the directory takes for it.
fn crowd(diskette: &mut Diskette, slots: usize) {
    let name = |n: usize| format!("N{}", n).parse().unwrap();
    for n in 0..=slots {
        // Closed by a restart and not by a call, so that it stays without a sector.
        diskette.create(0, &name(n), [1, 2, 3]).unwrap();
        *diskette = Diskette::new(diskette.image().to_vec());
    }
    (0..slots).for_each(|n| diskette.delete(&name(n)).unwrap());
}

/// One or two bytes changed where it hurts.
fn damage(image: &mut [u8], numbers: &mut Numbers, last: usize, per: usize) {
    let address =
        [numbers.one_of(&[0, 1, 1, last, last + 1]) as u8, numbers.one_of(&[0, 1, 2, 3, 4, 5, per, per + 1]) as u8];
    let slot = 1024 + 16 + 24 * numbers.below(5);
    let (track, sector) = (1 + numbers.below(last), 1 + numbers.below(per));
    match numbers.below(8) {
        0 => image[541 + 2 * numbers.below(2)..][..2].copy_from_slice(&address),
        1 => image[545 + numbers.below(2)] = numbers.below(9) as u8,
        2 => image[slot] = numbers.one_of(b"\0\xffABC"),
        3 => image[slot + 13 + 2 * numbers.below(2)..][..2].copy_from_slice(&address),
        4 => image[slot + 17 + numbers.below(2)] = numbers.below(6) as u8,
        5 => image[offset(per, 0, 5 + numbers.below(per - 4))..][..2].copy_from_slice(&address),
        _ => image[offset(per, track, sector)..][..2].copy_from_slice(&address),
    }
}

#[test]
fn the_first_finding_is_the_verdict() {
    let mut numbers = Numbers::start();
    let mut seen = [0; 47];
    for _ in 0..40_000 {
        let (last, per) = numbers.one_of(&[(2, 5), (1, 9), (3, 6), (2, 8)]);
        let is_crowded = numbers.below(2) == 0;
        let mut image = in_use(last, per, is_crowded);
        for _ in 0..1 + numbers.below(3) {
            damage(&mut image, &mut numbers, last, per);
        }
        let check = check(&mut Diskette::new(image)).unwrap();
        let verdict = check.verdict.map_or_else(Refusal::number, |()| 0);
        assert_eq!(check.findings.first().map_or(0, |first| first.number), verdict, "{:?}", check.findings);
        assert!(check.findings.windows(2).all(|pair| pair[0].number <= pair[1].number));
        assert!(check.findings.iter().all(|finding| !finding.sectors.is_empty()), "{:?}", check.findings);
        seen[verdict as usize] += 1;
    }
    for verdict in [0, 42, 43, 44, 45, 46] {
        assert!(seen[verdict] > 100, "{} only {} times", verdict, seen[verdict]);
    }
}

/// What is said of the five-sector diskette with A in 1,1 1,2 and B in 1,3 1,4 1,5 after these bytes are stored.
fn said(stores: &[(usize, &[u8])]) -> Vec<String> {
    let mut diskette = Diskette::new(blank(1, 5));
    diskette.put(&"A".parse().unwrap(), &[7; 504], [1, 2, 3]).unwrap();
    diskette.put(&"B".parse().unwrap(), &[7; 756], [1, 2, 3]).unwrap();
    let mut image = diskette.image().to_vec();
    for (at, bytes) in stores {
        image[*at..at + bytes.len()].copy_from_slice(bytes);
    }
    check(&mut Diskette::new(image)).unwrap().findings.iter().map(|finding| finding.text.clone()).collect()
}

#[test]
fn a_finding_says_where() {
    let (one, two) = (offset(5, 1, 1), offset(5, 1, 2));
    let a = "A.TXT (slot 1, at 0,5 byte 16)";
    let b = "B.TXT (slot 2, at 0,5 byte 40)";
    assert_eq!(said(&[]), Vec::<String>::new());
    let short = said(&[(one, &[0, 0])]);
    assert_eq!(short, [format!("{}: ends at 1,1, after 1 of 2 sectors", a), "sector 1,2 is in no chain".to_string()]);
    assert_eq!(said(&[(two, &[1, 4])]), [format!("{}: runs on: sector 2 of 2, at 1,2, links to 1,4", a)]);
    assert!(said(&[(one, &[9, 9])])[0].ends_with("sector 1 of 2, at 1,1, links to 9,9, which is no data sector"));
    assert!(said(&[(one, &[1, 1])])[0].ends_with("sector 1 of 2, at 1,1, links back to 1,1"));
    let both = said(&[(one, &[1, 5]), (1024 + 16 + 15, &[1, 5])]);
    assert_eq!(both, [format!("sector 1,5 is held by {} and by {}", a, b), "sector 1,2 is in no chain".to_string()]);
    let twins = said(&[(1024 + 40, b"A")]);
    assert_eq!(twins, ["A.TXT (slot 1, at 0,5 byte 16) and slot 2 have one name"]);
    let hole = said(&[(1024 + 16, &[0])]);
    assert_eq!(hole, ["2 sectors (1,1 to 1,2) are in no chain"]);
    let loose = said(&[(1024, &[0, 5])]);
    assert_eq!(loose, ["directory: its sector 0,5 links to 0,5, back to a sector before it"]);
    let astray = said(&[(1024, &[1, 6])]);
    let why = "which is neither on track 0 in sectors 5 to 5 nor a data sector";
    assert_eq!(astray, [format!("directory: its sector 0,5 links to 1,6, {}", why)]);
    let into_a = said(&[(1024, &[1, 2])]);
    assert!(into_a.contains(&format!("sector 1,2 is held by the directory and by {}", a)), "{:?}", into_a);
    let free = said(&[(541, &[1, 3]), (546, &[1])]);
    assert_eq!(free[0], "the free chain: sector 1 of 1 is at 1,3, but its stated end is 0,0");
    assert_eq!(free[1], format!("sector 1,3 is held by the free chain and by {}", b));
}

/// What is told of files that the directory does not reach, on three tracks of seven sectors with two files in each of the directory's
/// first two sectors, after these bytes are stored.
fn unreached(stores: &[(usize, &[u8])]) -> Vec<String> {
    let mut diskette = Diskette::new(blank(2, 7));
    crowd(&mut diskette, 10);
    diskette.put(&"A".parse().unwrap(), &[7; 504], [1, 2, 3]).unwrap();
    (1..10).for_each(|n| {
        let _ = diskette.create(0, &format!("F{}", n).parse().unwrap(), [1, 2, 3]);
        diskette = Diskette::new(diskette.image().to_vec());
    });
    diskette.put(&"B".parse().unwrap(), &[7; 756], [1, 2, 3]).unwrap();
    let mut image = diskette.image().to_vec();
    for (at, bytes) in stores {
        image[*at..at + bytes.len()].copy_from_slice(bytes);
    }
    check(&mut Diskette::new(image)).unwrap().unreached.iter().map(|file| file.to_string()).collect()
}

#[test]
fn files_that_the_directory_does_not_reach_are_told_by_name() {
    let slot = offset(7, 0, 6) + 16 + 24;
    let b = "B.TXT (at 0,6 byte 40), 3 sectors from 1,3 to 1,5";
    let told = |loose: usize| vec![format!("{}, {} of them in no chain", b, loose)];
    let cut = |more: &[(usize, &'static [u8])]| unreached(&[&[(1024, &[0, 0][..])], more].concat());
    assert_eq!(unreached(&[]), [""; 0]);
    assert_eq!(cut(&[]), told(3));
    // A link that leads astray cuts the directory short, too.
    assert_eq!(unreached(&[(1024, &[9, 9])]), told(3));
    // In its third sector there is nothing.
    assert_eq!(unreached(&[(offset(7, 0, 6), &[0, 0])]), [""; 0]);
    // Its chain ends early, or leads into A: then less of it is in no chain.
    assert_eq!(cut(&[(offset(7, 1, 3), &[0, 0])]), told(1));
    assert_eq!(cut(&[(offset(7, 1, 4), &[1, 1])]), told(2));
    // What does not look like a file's slot is passed over.
    let none: [(usize, &'static [u8]); 7] = [
        (slot, &[255]),
        (slot, b"9"),
        (slot + 8, &[0]),
        (slot + 13, &[0, 1]),
        (slot + 15, &[3, 1]),
        (slot + 17, &[0, 0]),
        (slot + 17, &[0, 15]),
    ];
    for store in none {
        assert_eq!(cut(&[store]), [""; 0], "{:?}", store);
    }
}
