//! What is told of a repair, beside the repair itself, on thousands of damaged diskettes; and the ways out.

use super::*;
use diskettes::{blank, offset, Numbers};

/// A in 1,1 1,2, B in 1,3 to 1,5, C in 2,1; 2,2 to 2,5 are free.
fn in_use() -> Vec<u8> {
    let mut diskette = Diskette::new(blank(2, 5));
    for (name, sectors) in [("A", 2), ("B", 3), ("C", 1)] {
        diskette.put(&name.parse().unwrap(), &vec![name.as_bytes()[0]; sectors * 252], [1, 2, 3]).unwrap();
    }
    diskette.into_buffers().0
}

fn planned(image: Vec<u8>) -> Plan {
    let mut diskette = Diskette::new(image);
    Plan::of(crate::check::check(&mut diskette).unwrap(), &diskette, &[])
}

fn slot(number: usize) -> usize {
    1024 + 16 + 24 * (number - 1)
}

fn plan(stores: &[(usize, &[u8])]) -> (Plan, Vec<u8>) {
    let mut image = in_use();
    for (at, bytes) in stores {
        image[*at..at + bytes.len()].copy_from_slice(bytes);
    }
    (planned(image.clone()), image)
}

/// What each file keeps of what it states, and where its chain leads on.
fn kept(stores: &[(usize, &[u8])]) -> Vec<(usize, usize, Address, Option<Owner>)> {
    let (plan, _) = plan(stores);
    let fates = plan.repaired.unwrap().fates;
    fates.iter().map(|fate| (fate.kept, fate.stated(), fate.next, fate.holder)).collect()
}

#[test]
fn what_each_file_keeps_is_told_with_why() {
    let whole = (1, 1, Address::NONE, None);
    let b = (3, 3, Address::NONE, None);
    let (one, at) = (offset(5, 1, 1), Address::new);
    assert_eq!(kept(&[]), [(2, 2, Address::NONE, None), b, whole]);
    assert_eq!(kept(&[(one, &[0, 0])]), [(1, 2, Address::NONE, None), b, whole]);
    assert_eq!(kept(&[(one, &[9, 9])]), [(1, 2, at(9, 9), None), b, whole]);
    assert_eq!(kept(&[(one, &[1, 1])]), [(1, 2, at(1, 1), Some(Owner::File(1))), b, whole]);
    let shared = [(one, &[1, 5][..]), (slot(1) + 15, &[1, 5])];
    let cut = (2, 3, at(1, 5), Some(Owner::File(1)));
    assert_eq!(kept(&shared), [(2, 2, Address::NONE, None), cut, whole]);
    let runs_on = [(offset(5, 1, 2), &[2, 2][..])];
    assert_eq!(kept(&runs_on), [(2, 2, at(2, 2), Some(Owner::Free)), b, whole]);
    let taken = [(1024, &[1, 3][..]), (offset(5, 1, 3), &[0; 256])];
    let (plan, _) = plan(&taken);
    let fates = plan.repaired.unwrap().fates;
    assert_eq!((fates[1].kept, fates[1].next, fates[1].holder), (0, at(1, 3), Some(Owner::Directory)));
}

#[test]
fn lost_sectors_are_counted_and_found_again() {
    let counts = |stores: &[(usize, &[u8])]| {
        let repaired = plan(stores).0.repaired.unwrap();
        (repaired.free, repaired.found)
    };
    assert_eq!(counts(&[]), (4, 0));
    assert_eq!(counts(&[(slot(2), &[255])]), (7, 3));
    assert_eq!(counts(&[(541, &[0; 6])]), (4, 4));
    assert_eq!(counts(&[(offset(5, 1, 1), &[9, 9])]), (5, 1));
}

#[test]
fn what_is_lost_is_counted() {
    let loss = |stores: &[(usize, &[u8])]| {
        let plan = plan(stores).0;
        let loss = plan.repaired.unwrap().loss(&plan.check);
        assert_eq!(loss.nobodys, 0);
        (loss.files, loss.sectors)
    };
    assert_eq!(loss(&[]), (0, 0));
    assert_eq!(loss(&[(offset(5, 1, 3), &[0, 0])]), (1, 2));
    assert_eq!(loss(&[(offset(5, 1, 3), &[0, 0]), (offset(5, 1, 1), &[9, 9])]), (2, 3));
    // B states one of its three sectors, or none: the others can be read now. A and C have none behind theirs.
    assert_eq!(loss(&[(slot(2) + 17, &[0, 1])]), (1, 2));
    assert_eq!(loss(&[(slot(2) + 17, &[0, 0])]), (1, 3));
    // It states more than the diskette has.
    assert_eq!(loss(&[(slot(2) + 17, &[255, 255])]), (1, 7));
    // A runs on into what B or the free chain has: nothing of A is there. And over lost sectors in a circle.
    assert_eq!(loss(&[(offset(5, 1, 2), &[1, 3])]), (0, 0));
    assert_eq!(loss(&[(offset(5, 1, 2), &[2, 2])]), (0, 0));
    assert_eq!(loss(&[(slot(2), &[255]), (offset(5, 1, 2), &[1, 3]), (offset(5, 1, 5), &[1, 4])]), (1, 3));
}

/// Bytes that no chain has can be a file's, whoever keeps as many sectors as it states.
#[test]
fn written_sectors_in_no_chain_are_counted() {
    let loss = |stores: &[(usize, &[u8])]| {
        let plan = plan(stores).0;
        let repaired = plan.repaired.unwrap();
        let loss = repaired.loss(&plan.check);
        let losing: Vec<usize> = repaired.losing().map(|fate| fate.slot).collect();
        (losing, repaired.gone.len(), loss.sectors, loss.nobodys)
    };
    // A link of B, or its start, leads into the free chain: it keeps three sectors, and its own are in no chain.
    assert_eq!(loss(&[(offset(5, 1, 3), &[2, 2])]), (vec![2], 0, 2, 0));
    assert_eq!(loss(&[(slot(2) + 13, &[2, 2])]), (vec![2], 0, 3, 0));
    // First free is wrong, too, and its own last two are in the free chain: they may be its all the same.
    let both = [(offset(5, 1, 3), &[2, 2][..]), (541, &[1, 4])];
    assert_eq!(loss(&both), (vec![2], 0, 2, 0));
    // A deleted file's bytes in a free chain of which no damaged file has its end are not asked about.
    assert_eq!(loss(&[(541 + 5, &[1]), (offset(5, 2, 3) + 255, &[1])]).0, vec![]);
    // Its stated end is wrong, too: nobody can say whose they were.
    assert_eq!(loss(&[(slot(2) + 13, &[2, 2, 2, 4])]), (vec![], 0, 0, 3));
    // A leads to B's start: B loses three, and A its second.
    assert_eq!(loss(&[(offset(5, 1, 1), &[1, 3])]), (vec![1, 2], 0, 4, 0));
    // The slot's first byte, all of the slot, or the slot and a link are gone.
    assert_eq!(loss(&[(slot(2), &[b'B' | 128])]), (vec![], 1, 3, 0));
    assert_eq!(loss(&[(slot(2), &[0])]), (vec![], 1, 3, 0));
    assert_eq!(loss(&[(slot(2), &[0; 24])]), (vec![], 0, 0, 3));
    assert_eq!(loss(&[(slot(2), &[0]), (offset(5, 1, 3), &[0, 0])]), (vec![], 1, 1, 2));
    // Free sectors that were never written are nobody's; those of a deleted file may be somebody's.
    assert_eq!(loss(&[(541, &[0; 6])]), (vec![], 0, 0, 0));
    assert_eq!(loss(&[(541, &[0; 6]), (offset(5, 2, 3) + 255, &[1])]), (vec![], 0, 0, 1));
}

/// Of a file that is dropped nothing is asked, be it in its chain, behind it, or on the way to its end.
#[test]
fn what_is_dropped_is_not_counted() {
    for stores in [&[][..], &[(offset(5, 1, 3), &[2, 2][..])], &[(slot(2) + 17, &[0, 1])], &[(slot(2) + 13, &[2, 2])]] {
        let (_, image) = plan(stores);
        let mut diskette = Diskette::new(image);
        let entry = drop_file(&mut diskette, &"B.TXT".parse().unwrap()).unwrap();
        let check = crate::check::check(&mut diskette).unwrap();
        let loss = |dropped: &[Entry]| Repaired::of(&check, &diskette, dropped).unwrap().loss(&check);
        assert_eq!(loss(&[entry]), Loss { files: 0, sectors: 0, nobodys: 0 });
        assert_ne!(loss(&[]), Loss { files: 0, sectors: 0, nobodys: 0 });
    }
}

#[test]
fn a_file_that_is_rightly_chained_is_told_apart() {
    let wronged = |stores: &[(usize, &[u8])]| {
        let repaired = plan(stores).0.repaired.unwrap();
        repaired.wronged().map(|fate| fate.slot).collect::<Vec<usize>>()
    };
    assert_eq!(wronged(&[(offset(5, 1, 1), &[9, 9])]), [0; 0]);
    assert_eq!(wronged(&[(offset(5, 1, 1), &[1, 5]), (slot(1) + 15, &[1, 5])]), [2]);
    // A states more than it has, and runs into all of B and C.
    let into = [(offset(5, 1, 2), &[1, 3][..]), (offset(5, 1, 5), &[2, 1]), (slot(1) + 18, &[9])];
    assert_eq!(wronged(&into), [3]);
}

#[test]
fn a_way_out_is_told_where_it_is_one() {
    let ways = |stores: &[(usize, &[u8])]| {
        let (plan, image) = plan(stores);
        let fates = &plan.repaired.as_ref().unwrap().fates;
        let ways = fates[1].ways_out(&plan, &image);
        (ways.drop.map(|name| name.to_string()), ways.save)
    };
    let shared = [(offset(5, 1, 1), &[1, 5][..]), (slot(1) + 15, &[1, 5])];
    assert_eq!(ways(&shared), (Some("A.TXT".to_string()), true));
    // A protected, B read-protected, a name that no call takes.
    let more = |at: usize, byte: &'static [u8]| [&shared[..], &[(at, byte)]].concat();
    assert_eq!(ways(&more(slot(1) + 11, &[128])), (None, true));
    assert_eq!(ways(&more(slot(2) + 11, &[32])), (Some("A.TXT".to_string()), false));
    assert_eq!(ways(&more(slot(1), &[1])), (None, true));
    // The free chain ends in B, which a delete would break; to drop A does not touch it.
    assert_eq!(ways(&more(543, &[1, 3])), (Some("A.TXT".to_string()), true));
    // However little is free by the record: a repair finds the rest.
    assert_eq!(ways(&more(541, &[2, 2, 2, 2, 0, 1])), (Some("A.TXT".to_string()), true));
}

fn counted(repaired: &Repaired, check: &Check) -> usize {
    let loss = repaired.loss(check);
    loss.sectors + loss.nobodys
}

/// How many written sectors are a file's or in no chain before, and not that file's, or free, afterwards.
fn taken_away(repaired: &Repaired, check: &Check, image: &[u8]) -> usize {
    let held = repaired.diskette.survey().unwrap();
    let then = |number: usize| owner(&held, number);
    let of_files = check.chains.iter().filter(|(owner, _)| matches!(owner, Owner::File(_)));
    let gone = of_files.flat_map(|(owner, chain)| chain.iter().map(move |&at| (owner, at)));
    let gone = gone.filter(|&(owner, at)| then(check.shape.number(at)) != *owner).count();
    let freed = lost(check).filter(|&number| crate::raw::is_written(image, check.shape, check.shape.address(number)));
    gone + freed.count()
}

#[test]
fn what_is_told_is_what_the_repair_does() {
    let mut numbers = Numbers::start();
    let (mut cut, mut wronged) = (0, 0);
    for _ in 0..5_000 {
        let mut image = in_use();
        for _ in 0..1 + numbers.below(3) {
            let address = [numbers.below(4) as u8, numbers.below(7) as u8];
            let at = match numbers.below(3) {
                0 => slot(1 + numbers.below(3)) + 13 + 2 * numbers.below(3),
                1 => 541 + 2 * numbers.below(2),
                _ => offset(5, 1 + numbers.below(2), 1 + numbers.below(5)),
            };
            image[at..at + 2].copy_from_slice(&address);
        }
        let plan = planned(image.clone());
        let repaired = plan.repaired.unwrap();
        let held = repaired.diskette.survey().unwrap();
        assert_eq!(repaired.fates.len(), 3);
        for fate in &repaired.fates {
            let own = held.iter().filter(|one| one.owner as usize == fate.slot).count();
            assert_eq!((fate.kept, fate.kept <= fate.stated()), (own, true));
            // What follows a cut is never free: it would have been kept.
            assert!(!fate.is_cut() || fate.holder != Some(Owner::Free));
            cut += fate.is_cut() as usize;
        }
        wronged += repaired.wronged().count();
        assert!(repaired.found <= repaired.free);
        assert!(counted(&repaired, &plan.check) >= taken_away(&repaired, &plan.check, &image));
    }
    assert!(cut > 1000 && wronged > 100, "{} {}", cut, wronged);
}
