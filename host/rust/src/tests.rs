//! The wrapper on the archive: document 01's fixtures P1 to P12 on the five-sector diskette, blank diskettes, raw writes and repair,
//! and the wrapper's own parts.

use super::*;

const TODAY: [u8; 3] = [12, 3, 81];

/// The five-sector diskette of document 01, empty, with all blocks closed.
fn five() -> Diskette {
    Diskette::blank(1, 5, &[0; 11], 0, [0; 3]).unwrap()
}

fn name(text: &str) -> Name {
    text.parse().unwrap()
}

/// This many bytes that differ from their neighbours.
fn bytes(count: usize) -> Vec<u8> {
    (0..count).map(|i| i as u8).collect()
}

/// A file of this many bytes, written and closed.
fn put(diskette: &mut Diskette, text: &str, count: usize) {
    diskette.put(&name(text), &bytes(count), TODAY).unwrap();
}

/// First free, last free and free count, as six bytes.
fn free(diskette: &Diskette) -> &[u8] {
    &diskette.image()[541..547]
}

fn held(diskette: &Diskette) -> Vec<(u16, u16)> {
    diskette.survey().unwrap().iter().map(|held| (held.sector, held.owner)).collect()
}

/// The same diskette with some bytes of its image changed.
fn patched(diskette: &Diskette, at: usize, bytes: &[u8]) -> Diskette {
    let mut image = diskette.image().to_vec();
    image[at..at + bytes.len()].copy_from_slice(bytes);
    Diskette::new(image)
}

#[test]
fn p1_the_empty_diskette_is_accepted() {
    assert_eq!(held(&five()), [(0, 0), (1, 0), (2, 0), (3, 0), (4, 0)]);
}

#[test]
fn p2_close_unwritten_deletes_the_slot() {
    let mut five = five();
    put(&mut five, "A.TXT", 0);
    assert_eq!(five.image()[1024 + 16], 255);
    assert_eq!(free(&five), [1, 1, 1, 5, 0, 5]);
}

#[test]
fn p3_252_bytes_use_one_sector() {
    let mut five = five();
    five.create(0, &name("A.TXT"), TODAY).unwrap();
    five.send(0, &bytes(252)).unwrap();
    assert_eq!(five.block(0)[SIZE..SIZE + 2], [0, 1]);
    assert_eq!(free(&five), [1, 2, 1, 5, 0, 4]);
}

#[test]
fn p4_253_bytes_use_two() {
    let mut five = five();
    put(&mut five, "A.TXT", 253);
    assert_eq!(held(&five), [(2, 0), (3, 0), (4, 0), (0, 1), (1, 1)]);
}

#[test]
fn p5_p6_1260_bytes_fit_and_one_more_does_not() {
    let mut five = five();
    five.create(0, &name("A.TXT"), TODAY).unwrap();
    five.send(0, &bytes(1260)).unwrap();
    assert_eq!(five.send(0, &[1]), Err(Refusal::DiskFull));
    assert_eq!(five.send(0, &[1]), Err(Refusal::DiskFull));
    assert_eq!(five.block(0)[ERROR], 7);
}

#[test]
fn p7_a_deleted_chain_hangs_behind_the_free_chain() {
    let mut five = five();
    put(&mut five, "A.TXT", 252);
    five.delete(&name("A.TXT")).unwrap();
    assert_eq!(held(&five), [(1, 0), (2, 0), (3, 0), (4, 0), (0, 0)]);
}

#[test]
fn a_chain_deleted_on_a_full_diskette_becomes_the_free_chain() {
    let mut five = five();
    put(&mut five, "A.TXT", 252);
    put(&mut five, "B.TXT", 1008);
    five.delete(&name("A.TXT")).unwrap();
    assert_eq!(free(&five), [1, 1, 1, 1, 0, 1]);
    assert_eq!(held(&five)[0], (0, 0));
}

/// Three one-byte files closed, seven more open unwritten: all ten slots of the five-sector diskette are live.
fn ten_files() -> Diskette {
    let mut five = five();
    for text in ["A.TXT", "B.TXT", "C.TXT"] {
        put(&mut five, text, 1);
    }
    for (fcb, text) in ["D.TXT", "E.TXT", "F.TXT", "G.TXT", "H.TXT", "I.TXT", "J.TXT"].iter().enumerate() {
        five.create(fcb, &name(text), TODAY).unwrap();
    }
    five
}

#[test]
fn p8_for_the_eleventh_file_the_directory_grows() {
    let mut five = ten_files();
    assert_eq!(five.create(7, &name("K.TXT"), TODAY), Ok(0));
    assert_eq!(five.block(7)[PLACE..PLACE + 3], [1, 4, 16]);
    assert_eq!(free(&five), [1, 5, 1, 5, 0, 1]);
    assert_eq!(held(&five), [(4, OWNER_FREE), (3, OWNER_DIRECTORY), (0, 1), (1, 2), (2, 3)]);
    let slots = Diskette::new(five.into_buffers().0).slots().unwrap();
    assert_eq!(slots.len(), 20);
    assert_eq!(slots[10].place, Place { sector: Address::new(1, 4), displacement: 16 });
    assert_eq!(slots[10].entry().unwrap().name, name("K.TXT"));
}

#[test]
fn no_slot_and_no_sector_is_a_full_diskette() {
    let mut five = ten_files();
    five.send(0, &bytes(504)).unwrap();
    assert_eq!(free(&five), [0; 6]);
    assert_eq!(five.create(7, &name("K.TXT"), TODAY), Err(Refusal::DiskFull));
    let mut closed = Diskette::new(five.into_buffers().0);
    closed.delete(&name("A.TXT")).unwrap();
    assert_eq!(closed.create(7, &name("K.TXT"), TODAY), Ok(0));
    assert_eq!(closed.block(7)[PLACE..PLACE + 3], [0, 5, 16]);
}

#[test]
fn a_diskette_takes_more_files_than_track_0_has_slots() {
    let mut diskette = Diskette::blank(34, 10, &[0; 11], 0, [0; 3]).unwrap();
    let names: Vec<Name> = (0..200).map(|i| name(&format!("LOG-{}.TXT", i))).collect();
    for (i, name) in names.iter().enumerate() {
        diskette.put(name, &bytes(i + 1), TODAY).unwrap();
    }
    let slots = diskette.slots().unwrap();
    assert_eq!(slots.len(), 200);
    assert_eq!(slots.iter().filter(|slot| slot.place.sector.track > 0).count(), 140);
    let directory = diskette.survey().unwrap().iter().filter(|held| held.owner == OWNER_DIRECTORY).count();
    assert_eq!(directory, 14);
    for (i, name) in names.iter().enumerate() {
        let reading = diskette.get(name).unwrap();
        assert_eq!((&reading.bytes[..i + 1], reading.is_as_stated()), (&bytes(i + 1)[..], true));
        diskette.delete(name).unwrap();
    }
    let owners: Vec<u16> = diskette.survey().unwrap().iter().map(|held| held.owner).collect();
    assert_eq!(owners, [vec![OWNER_FREE; 326], vec![OWNER_DIRECTORY; 14]].concat());
}

#[test]
fn p9_rename_to_itself_and_to_another_name() {
    let mut five = five();
    put(&mut five, "A.TXT", 1);
    assert_eq!(five.rename(&name("A.TXT"), &name("A.TXT")), Err(Refusal::Exists));
    five.rename(&name("A.TXT"), &name("B.TXT")).unwrap();
    assert_eq!(five.open(0, &name("A.TXT")), Err(Refusal::NotFound));
    assert_eq!(five.open(0, &name("B.TXT")), Ok(0));
}

#[test]
fn p10_delete_while_read() {
    let mut five = five();
    put(&mut five, "A.TXT", 1);
    five.open(0, &name("A.TXT")).unwrap();
    assert_eq!(five.ask_of(1, DELETE, &name("A.TXT")), Err(Refusal::InUse));
}

#[test]
fn p11_the_length_must_fit() {
    assert_eq!(five().ask(0, OPEN_DIRECTORY), Ok(0));
    let mut short = Diskette::new(five().image()[..2559].to_vec());
    assert_eq!(short.ask(0, OPEN_DIRECTORY), Err(Refusal::Shape));
    assert_eq!(short.survey(), Err(Refusal::CensusShape));
}

#[test]
fn p12_a_name_begins_with_a_letter() {
    assert_eq!(five().create(0, &name("9A.TXT"), TODAY), Err(Refusal::BadName));
}

#[test]
fn bytes_come_back_then_zeros_then_the_end() {
    let mut five = five();
    put(&mut five, "A.TXT", 300);
    let reading = five.get(&name("A")).unwrap();
    assert_eq!(reading.bytes[..300], bytes(300)[..]);
    assert_eq!(reading.bytes[300..], [0; 204]);
    assert_eq!((reading.sectors(), reading.stopped), (2, Some(Refusal::End)));
    assert!(reading.is_as_stated());
}

/// A has two sectors, B three: 1,1 to 1,2 and 1,3 to 1,5.
fn two_files() -> Diskette {
    let mut five = five();
    put(&mut five, "A.TXT", 504);
    put(&mut five, "B.TXT", 756);
    five
}

#[test]
fn a_chain_that_is_not_as_its_slot_states_is_seen() {
    let two = two_files();
    let offset = |sector| Shape { last: 1, per: 5 }.offset(Address::new(1, sector));
    let read = |at, bytes: &[u8]| patched(&two, at, bytes).get(&name("A.TXT")).unwrap();
    let on = read(offset(2), &[1, 3]);
    assert_eq!((on.sectors(), on.last, on.is_as_stated()), (5, Address::new(1, 5), false));
    let early = read(offset(1), &[0, 0]);
    assert_eq!((early.sectors(), early.last, early.is_as_stated()), (1, Address::new(1, 1), false));
    let elsewhere = read(offset(1), &[1, 5]);
    assert_eq!((elsewhere.sectors(), elsewhere.is_as_stated()), (2, false));
    let bad = read(offset(1), &[9, 9]);
    assert_eq!((bad.sectors(), bad.stopped, bad.is_as_stated()), (1, Some(Refusal::BadRead), false));
    let circle = read(offset(2), &[1, 1]);
    assert_eq!((circle.stopped, circle.is_as_stated()), (None, false));
    assert!(two.clone().get(&name("A.TXT")).unwrap().is_as_stated());
}

#[test]
fn slots_have_all_that_the_directory_says() {
    let mut two = two_files();
    two.delete(&name("A.TXT")).unwrap();
    let slots = two.slots().unwrap();
    assert_eq!(slots.len(), 10);
    assert_eq!((slots[0].number, &slots[0].state), (1, &State::Deleted));
    assert_eq!(slots[2].state, State::NeverUsed);
    assert_eq!(slots[1].place, Place { sector: Address::new(0, 5), displacement: 40 });
    let expected = Entry {
        name: name("B.TXT"),
        start: Address::new(1, 3),
        end: Address::new(1, 5),
        sectors: 3,
        write_protected: false,
        delete_protected: false,
        read_protected: false,
        date: TODAY,
    };
    assert_eq!(slots[1].entry(), Some(&expected));
    assert_eq!(patched(&two, 1024, &[0, 4]).slots(), Err(Refusal::Directory));
}

/// A.TXT with these attributes.
fn with_attributes(attributes: u8) -> Diskette {
    patched(&two_files(), 1024 + 16 + (ATTRIBUTES - NAME), &[attributes])
}

#[test]
fn attributes_are_shown_and_one_of_them_stops_reading() {
    for attributes in 0..=255 {
        let slots = with_attributes(attributes).slots().unwrap();
        let entry = slots[0].entry().unwrap();
        let shown = [entry.write_protected, entry.delete_protected, entry.read_protected];
        assert_eq!(
            shown,
            [ATTRIBUTE_WRITE, ATTRIBUTE_DELETE, ATTRIBUTE_READ].map(|bit| attributes & bit != 0),
            "{}",
            attributes
        );
        let read = with_attributes(attributes).get(&name("A.TXT")).map(|reading| reading.sectors());
        let expected = if entry.read_protected { Err(Refusal::ReadProtected) } else { Ok(2) };
        assert_eq!(read, expected, "{}", attributes);
    }
}

/// A diskette of 35 tracks of 10 sectors, 340 of them for data.
fn standard() -> Diskette {
    Diskette::blank(34, 10, b"ALARMS 1981", 0x1234, TODAY).unwrap()
}

#[test]
fn a_blank_diskette_has_all_sectors_free_in_rising_order() {
    let mut blank = standard();
    assert_eq!(blank.image().len(), 350 * SECTOR);
    let rising: Vec<(u16, u16)> = (0..340).map(|sector| (sector, 0)).collect();
    assert_eq!(held(&blank), rising);
    let slots = blank.slots().unwrap();
    assert_eq!(slots.len(), 60);
    assert!(slots.iter().all(|slot| slot.state == State::NeverUsed));
}

#[test]
fn a_blank_diskette_states_what_was_asked_for() {
    let blank = standard();
    let record = &blank.image()[2 * SECTOR..3 * SECTOR];
    assert_eq!(record[..16], [0; 16]);
    assert_eq!(record[16..27], *b"ALARMS 1981");
    assert_eq!(record[27..29], [0x12, 0x34]);
    assert_eq!(record[29..35], [1, 1, 34, 10, 1, 84]);
    assert_eq!(record[35..40], [12, 3, 81, 34, 10]);
    assert_eq!(record[40..], [0; 216]);
}

#[test]
fn a_blank_diskette_takes_a_file_and_gives_it_back() {
    let mut blank = standard();
    put(&mut blank, "A.TXT", 1000);
    let reading = blank.get(&name("A.TXT")).unwrap();
    assert_eq!(reading.bytes[..1000], bytes(1000)[..]);
    assert!(reading.is_as_stated());
    let expected: Vec<(u16, u16)> =
        (4..340).map(|sector| (sector, 0)).chain((0..4).map(|sector| (sector, 1))).collect();
    assert_eq!(held(&blank), expected);
}

#[test]
fn the_smallest_and_the_largest_diskette_can_be_made() {
    for (last, per) in [(1, 5), (1, 36), (79, 5), (79, 36)] {
        let blank = Diskette::blank(last, per, &[255; 11], u16::MAX, [255; 3]).unwrap();
        assert_eq!(blank.survey().unwrap().len(), last * per);
    }
    assert_eq!(Diskette::blank(79, 36, &[0; 11], 0, [0; 3]).unwrap().image().len(), LARGEST_IMAGE);
}

/// 41 whatever the numbers are; an image for the largest of them would not fit in any memory.
#[test]
fn no_blank_diskette_has_a_wrong_shape() {
    let (most, lost) = (usize::MAX, 1 << 56);
    let lasts = [(0, 10), (80, 10), (256 + 34, 10), (lost + 34, 10), (most - 1, 10), (most, 10)];
    let pers = [(34, 0), (34, 4), (34, 37), (34, 256 + 10), (34, lost + 10), (34, most)];
    for (last, per) in lasts.into_iter().chain(pers).chain([(most, most), (0, 0)]) {
        let refused = Diskette::blank(last, per, &[0; 11], 0, TODAY);
        assert_eq!(refused, Err(Refusal::CensusShape), "{} {}", last, per);
        assert_eq!(format(&mut [], last, per, &[], 0, TODAY), Err(Refusal::CensusShape), "{} {}", last, per);
    }
}

#[test]
fn a_refused_format_changes_nothing() {
    let mut image = vec![7; 2561];
    for label in [&b""[..], b"TEN LETTER", b"12 LETTERS! "] {
        assert_eq!(format(&mut image[..2560], 1, 5, label, 0, TODAY), Err(Refusal::OutputLength));
    }
    for bytes in [0, 2559, 2561] {
        assert_eq!(format(&mut image[..bytes], 1, 5, &[0; 11], 0, TODAY), Err(Refusal::OutputLength));
    }
    assert_eq!(format(&mut image[..2560], 5, 1, &[0; 11], 0, TODAY), Err(Refusal::CensusShape));
    assert!(image.iter().all(|&byte| byte == 7));
}

#[test]
fn format_leaves_nothing_of_what_the_image_held() {
    let mut image = vec![7; 2561];
    format(&mut image[..2560], 1, 5, &[0; 11], 0, [0; 3]).unwrap();
    assert_eq!(image[..2560], *five().image());
    assert_eq!(image[2560], 7);
}

#[test]
fn a_sector_that_is_written_raw_is_read_back() {
    let mut two = two_files();
    let bytes: [u8; SECTOR] = std::array::from_fn(|i| i as u8);
    for address in [Address::new(0, 1), Address::new(0, 5), Address::new(1, 5)] {
        two.write_sector(address, &bytes).unwrap();
        assert_eq!(two.sector(address).unwrap(), bytes);
    }
    for none in [Address::NONE, Address::new(0, 6), Address::new(2, 1)] {
        let before = two.image().to_vec();
        assert_eq!(two.write_sector(none, &bytes), Err(Refusal::BadWrite));
        assert_eq!(two.image(), before);
    }
    assert_eq!(two.survey(), Err(Refusal::CensusDirectory));
}

#[test]
fn a_slot_that_is_put_raw_is_shown() {
    let mut two = two_files();
    let mut slot = [0; SLOT];
    slot.copy_from_slice(&two.image()[1024 + 40..][..SLOT]);
    slot[ATTRIBUTES - NAME] = ATTRIBUTE_READ;
    two.put_slot(2, &slot).unwrap();
    let shown = two.slots().unwrap();
    assert!(shown[1].entry().unwrap().read_protected && !shown[0].entry().unwrap().read_protected);
    assert_eq!(two.get(&name("B.TXT")), Err(Refusal::ReadProtected));
    let before = two.image().to_vec();
    assert_eq!(two.put_slot(0, &slot), Err(Refusal::Directory));
    assert_eq!(two.put_slot(11, &slot), Err(Refusal::End));
    assert_eq!(two.image(), before);
    assert!(two.survey().is_ok());
}

#[test]
fn a_shared_sector_stays_with_the_earlier_file() {
    let offset = |sector| Shape { last: 1, per: 5 }.offset(Address::new(1, sector));
    let shared = patched(&two_files(), offset(1), &[1, 5]);
    let mut shared = patched(&shared, 1024 + 16 + 15, &[1, 5]);
    assert_eq!(shared.survey(), Err(Refusal::CensusSectors));
    shared.repair().unwrap();
    assert_eq!(held(&shared), [(1, 0), (0, 1), (4, 1), (2, 2), (3, 2)]);
    let (a, b) = (shared.get(&name("A.TXT")).unwrap(), shared.get(&name("B.TXT")).unwrap());
    assert_eq!((a.sectors(), a.is_as_stated(), b.sectors(), b.is_as_stated()), (2, true, 2, true));
    assert_eq!(b.bytes[..], bytes(756)[..504]);
    let once = shared.clone();
    shared.repair().unwrap();
    assert_eq!(shared, once);
}

#[test]
fn a_sound_diskette_keeps_its_files_and_its_free_chain_rises() {
    let mut five = five();
    put(&mut five, "A.TXT", 252);
    put(&mut five, "B.TXT", 252);
    five.delete(&name("A.TXT")).unwrap();
    assert_eq!(held(&five), [(2, 0), (3, 0), (4, 0), (0, 0), (1, 2)]);
    five.repair().unwrap();
    assert_eq!(held(&five), [(0, 0), (2, 0), (3, 0), (4, 0), (1, 2)]);
    assert_eq!(five.get(&name("B.TXT")).unwrap().bytes, bytes(252));
}

/// In the order of their tests: each of these has all faults that are tested later, too.
#[test]
fn a_refused_repair_changes_nothing() {
    let twins = patched(&two_files(), 1024 + 40, b"A");
    let loose = patched(&twins, 1024, &[0, 4]);
    let mut open = loose.clone();
    open.ask(0, OPEN_DIRECTORY).unwrap();
    let (image, table) = open.clone().into_buffers();
    let cut = &mut image.clone()[..2559];
    assert_eq!(repair(cut, &table[1..]), Err(Refusal::NoBlock));
    assert_eq!(repair(cut, &table), Err(Refusal::InUse));
    assert_eq!(repair(cut, &[0; TABLE]), Err(Refusal::CensusShape));
    assert_eq!(*cut, image[..2559]);
    for (diskette, refusal) in
        [(open, Refusal::InUse), (loose, Refusal::CensusDirectory), (twins, Refusal::CensusNames)]
    {
        let mut after = diskette.clone();
        assert_eq!(after.repair(), Err(refusal));
        assert_eq!(after, diskette);
    }
}

#[test]
fn sectors_are_read_whole() {
    let mut two = two_files();
    assert_eq!(two.sector(Address::new(1, 1)).unwrap()[..6], [1, 2, 0, 1, 0, 1]);
    assert_eq!(two.sector(Address::new(1, 1)).unwrap().len(), SECTOR);
    assert_eq!(two.sector(Address::new(2, 1)), Err(Refusal::BadRead));
}

#[test]
fn default_extensions() {
    let mut table = vec![0; TABLE];
    extension(&mut table, 7, 11).unwrap();
    assert_eq!(table[7 * BLOCK + EXTENSION..][..3], *b"OUT");
    extension(&mut table, 7, 0).unwrap();
    assert_eq!(table[7 * BLOCK + EXTENSION..][..3], *b"OUT");
    assert_eq!(extension(&mut table, 8, 0), Err(Refusal::NoBlock));
}

#[test]
fn refusals_by_preset() {
    let mut table = vec![0; TABLE];
    assert_eq!(preset(&mut table, 0, 1, 9), Err(Refusal::Unfit));
    assert_eq!(preset(&mut table, 0, usize::MAX, 9), Err(Refusal::Unfit));
    assert_eq!(preset(&mut table, usize::MAX, 0, 9), Err(Refusal::NoBlock));
    assert_eq!(preset(&mut table[1..], 0, 0, 9), Err(Refusal::NoBlock));
    for offset in [2, 28, 29, 32, 52, BLOCK] {
        assert_eq!(preset(&mut table, 0, offset, 9), Err(Refusal::Unfit), "{}", offset);
    }
    assert!(table.iter().all(|&byte| byte == 0));
}

#[test]
fn slot_and_buffer_are_preset_while_no_file_is_open() {
    for (activity, expected) in [(0, Ok(())), (16, Ok(())), (1, Err(Refusal::Unfit)), (2, Err(Refusal::Unfit))] {
        let mut table = vec![0; TABLE];
        table[ACTIVITY] = activity;
        for offset in (ATTRIBUTES..DATE).chain(BUFFER..BLOCK) {
            assert_eq!(preset(&mut table, 0, offset, 9), expected, "{} {}", activity, offset);
            assert_eq!(table[offset], if activity % 16 == 0 { 9 } else { 0 });
        }
    }
}

#[test]
fn empty_slices_are_refused() {
    assert_eq!(call(&mut [], &mut [], 0, 0), Err(Refusal::NoBlock));
    assert_eq!(call(&mut [], &mut [0; TABLE], 0, 0), Err(Refusal::Shape));
    assert_eq!(census(&[], &mut [], &mut []), Err(Refusal::CensusShape));
    assert_eq!(census(five().image(), &mut [], &mut []), Err(Refusal::OutputLength));
    assert_eq!(error_text(&mut [], 1), Err(Refusal::OutputLength));
}

#[test]
fn messages() {
    assert_eq!(message(4), "DISK ERROR #004");
    assert_eq!(message(255), "DISK ERROR #255");
    assert_eq!(Refusal::NotFound.to_string(), "004 name not found");
}
