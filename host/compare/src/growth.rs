//! The directory that grows, step by step, with the answers that 02's request 4 fixes; then every first free, good or bad, where
//! the two services are only compared.

use crate::image::{Address, Shape, NONE};
use crate::pair::{Checked, Mismatch, Pair};
use crate::random::Random;
use crate::scene::Scene;
use crate::tally::Tally;
use flex::{
    Name, Steps, BLOCKS, CLOSE, DELETE, NEW_NAME, NEXT_SLOT, OPEN_DIRECTORY, OWNER_DIRECTORY, PLACE, RENAME, TABLE,
};

const DATE: [u8; 3] = [11, 15, 82];

/// Where the information record states the first and the last free sector and their count.
const FIRST_FREE: usize = 541;
const LAST_FREE: usize = 543;
const FREE_COUNT: usize = 545;

pub fn everything(tally: &mut Tally) -> Checked<()> {
    p8(tally)?;
    grown_twice(tally)?;
    files_in_taken_sectors(tally)?;
    the_longest(tally)?;
    no_free_sector(tally)?;
    first_free_is_no_data_sector(tally)?;
    first_free_is_the_directorys(tally)?;
    links_into_files(tally)?;
    circles(tally)?;
    every_first_free(tally)
}

/// The `n`-th file of a crowded diskette.
fn file(n: usize) -> Name {
    Scene::numbered_name(n)
}

fn new_file() -> Name {
    Name::of(*b"NEW\0\0\0\0\0TXT")
}

fn scene<'a>(tally: &'a mut Tally, last: usize, per: usize, image: &[u8]) -> Scene<'a> {
    let pair = Pair::new(image, &[0; TABLE], tally);
    Scene::new(pair, Random::new(4), last, per, Scene::upward(per))
}

/// The answer that the papers give, from both services.
fn must(scene: &Scene, what: &str, answer: u32, wanted: u32) -> Checked<()> {
    if answer == wanted {
        return Ok(());
    }
    let directory = scene.directory_now().sectors;
    Err(Mismatch(format!(
        "{}: the answer is {} and must be {}; the directory is {:?}",
        what, answer, wanted, directory
    )))
}

/// A new file, for which the directory takes this sector.
fn must_grow(scene: &mut Scene, fcb: usize, name: &Name, taken: Address) -> Checked<()> {
    let answer = scene.create(fcb, name, DATE)?;
    must(scene, "an open for write that finds no slot", answer, 0)?;
    if scene.block(fcb)[PLACE..PLACE + 3] != [taken.0, taken.1, 16] {
        return Err(Mismatch(format!("the new slot is not the first of {:?}", taken)));
    }
    Ok(())
}

fn must_be_sound(scene: &mut Scene) -> Checked<()> {
    let answer = scene.census()?;
    must(scene, "the census of a sound diskette", answer, 0)
}

/// A diskette whose directory has these sectors, with a file of no sector in each of its slots; all other data sectors are free, in
/// rising order.
struct Crowded {
    last: usize,
    per: usize,
    image: Vec<u8>,
}

impl Crowded {
    fn new(last: usize, per: usize, directory: &[Address]) -> Crowded {
        let mut crowded = Crowded { last, per, image: diskettes::blank(last, per) };
        crowded.chain(directory);
        for (i, &at) in directory.iter().enumerate() {
            (0..10).for_each(|slot| crowded.occupy(at, slot, 10 * i + slot));
        }
        let data = (1..=last as u8).flat_map(|track| (1..=per as u8).map(move |sector| (track, sector)));
        let free: Vec<Address> = data.filter(|at| !directory.contains(at)).collect();
        crowded.chain(&free);
        crowded.state(free.first().copied(), free.last().copied(), free.len());
        crowded
    }

    fn offset(&self, at: Address) -> usize {
        Shape { last: self.last as u8, per: self.per as u8 }.offset(at)
    }

    fn set_link(&mut self, at: Address, to: Address) {
        let offset = self.offset(at);
        self.image[offset..offset + 2].copy_from_slice(&[to.0, to.1]);
    }

    /// Each sector links to the next, the last to 0,0.
    fn chain(&mut self, sectors: &[Address]) {
        for (i, &at) in sectors.iter().enumerate() {
            self.set_link(at, sectors.get(i + 1).copied().unwrap_or(NONE));
        }
    }

    /// The `n`-th file's name in this slot of a sector.
    fn occupy(&mut self, at: Address, slot: usize, n: usize) {
        let offset = self.offset(at) + 16 + 24 * slot;
        self.image[offset..offset + 11].copy_from_slice(file(n).bytes());
    }

    fn state(&mut self, first: Option<Address>, last: Option<Address>, count: usize) {
        let (first, last) = (first.unwrap_or(NONE), last.unwrap_or(NONE));
        self.image[FIRST_FREE..FREE_COUNT].copy_from_slice(&[first.0, first.1, last.0, last.1]);
        self.image[FREE_COUNT..FREE_COUNT + 2].copy_from_slice(&(count as u16).to_be_bytes());
    }

    fn scene<'a>(&self, tally: &'a mut Tally) -> Scene<'a> {
        scene(tally, self.last, self.per, &self.image)
    }
}

/// Three one-byte files closed, seven more open unwritten: for an eleventh the directory grows.
fn p8(tally: &mut Tally) -> Checked<()> {
    let mut scene = scene(tally, 1, 5, &diskettes::blank(1, 5));
    for n in 0..3 {
        scene.create(0, &file(n), DATE)?;
        scene.transfer(0, 1)?;
        scene.ask(0, CLOSE)?;
    }
    for n in 3..10 {
        scene.create(n - 3, &file(n), DATE)?;
    }
    must_grow(&mut scene, 7, &file(10), (1, 4))?;
    must_be_sound(&mut scene)?;
    scene.transfer(7, 1)?;
    must_be_sound(&mut scene)?;
    // Closing an unwritten file gives up its own slot and no other, and no sector of the directory.
    for fcb in 0..BLOCKS {
        scene.ask(fcb, CLOSE)?;
    }
    must_be_sound(&mut scene)
}

fn grown_twice(tally: &mut Tally) -> Checked<()> {
    let mut scene = Crowded::new(3, 5, &[(0, 5)]).scene(tally);
    must_grow(&mut scene, 0, &file(10), (1, 1))?;
    for n in 11..20 {
        let answer = scene.create(1, &file(n), DATE)?;
        must(&scene, "an open for write into the new sector", answer, 0)?;
        scene.set_block(1, flex::ACTIVITY, &[0]);
    }
    scene.ask(1, OPEN_DIRECTORY)?;
    must_grow(&mut scene, 1, &file(20), (1, 2))?;
    must_be_sound(&mut scene)?;
    let owners = flex::survey(scene.pair.image()).map(|held| held.iter().map(|one| one.owner).collect::<Vec<u16>>());
    let expected = [vec![0; 13], vec![OWNER_DIRECTORY; 2]].concat();
    if owners != Ok(expected) {
        return Err(Mismatch(format!("the owners are {:?}", owners)));
    }
    list(&mut scene, 30)
}

/// Function 7 shows so many slots, then 8, twice.
fn list(scene: &mut Scene, slots: usize) -> Checked<()> {
    scene.ask(2, OPEN_DIRECTORY)?;
    for _ in 0..slots {
        let answer = scene.ask(2, NEXT_SLOT)?;
        must(scene, "next slot", answer, 0)?;
    }
    for _ in 0..2 {
        let answer = scene.ask(2, NEXT_SLOT)?;
        must(scene, "next slot after the last", answer, 8)?;
    }
    scene.ask(2, CLOSE)?;
    Ok(())
}

/// A file whose slot is in a sector that the directory has taken is written, read, in use, renamed and deleted, and its slot is
/// used again.
fn files_in_taken_sectors(tally: &mut Tally) -> Checked<()> {
    let mut scene = Crowded::new(2, 6, &[(0, 5), (0, 6)]).scene(tally);
    must_grow(&mut scene, 0, &new_file(), (1, 1))?;
    scene.transfer(0, 300)?;
    for code in [flex::OPEN_READ, DELETE] {
        let answer = scene.ask_of(1, code, &new_file())?;
        must(&scene, "a file in a taken sector that is written", answer, 2)?;
    }
    scene.ask(0, CLOSE)?;
    let answer = scene.open(3, &new_file())?;
    must(&scene, "open for read of a file in a taken sector", answer, 0)?;
    scene.transfer(3, 600)?;
    let renamed = Name::of(*b"OTHER\0\0\0TXT");
    scene.preset_all(1, NEW_NAME, renamed.bytes())?;
    for (code, wanted) in [(RENAME, 2), (DELETE, 2), (flex::OPEN_READ, 0)] {
        let answer = scene.ask_of(1, code, &new_file())?;
        must(&scene, "a file in a taken sector that is read", answer, wanted)?;
        scene.ask(1, CLOSE)?;
    }
    scene.ask(3, CLOSE)?;
    scene.preset_all(1, NEW_NAME, renamed.bytes())?;
    for (code, name) in [(RENAME, new_file()), (DELETE, renamed)] {
        let answer = scene.ask_of(1, code, &name)?;
        must(&scene, "rename and delete of a file in a taken sector", answer, 0)?;
        must_be_sound(&mut scene)?;
    }
    must_grow(&mut scene, 0, &new_file(), (1, 1))?;
    scene.ask(0, CLOSE)?;
    must_be_sound(&mut scene)?;
    list(&mut scene, 30)
}

/// The last free sector makes the directory as long as it can be.
fn the_longest(tally: &mut Tally) -> Checked<()> {
    let directory = [(0, 5), (1, 5), (1, 1), (1, 2), (1, 3)];
    let mut scene = Crowded::new(1, 5, &directory).scene(tally);
    must_grow(&mut scene, 0, &new_file(), (1, 4))?;
    if scene.pair.image()[FIRST_FREE..FREE_COUNT + 2] != [0; 6] {
        return Err(Mismatch("the last free sector was taken, and the free chain is not empty".to_string()));
    }
    must_be_sound(&mut scene)?;
    list(&mut scene, 60)?;
    for n in 51..60 {
        scene.set_block(0, flex::ACTIVITY, &[0]);
        let answer = scene.create(0, &file(n), DATE)?;
        must(&scene, "an open for write into the last sector", answer, 0)?;
    }
    let answer = scene.create(1, &file(60), DATE)?;
    must(&scene, "an open for write without a free sector", answer, 7)?;
    // A damaged information record: no sector is free, whatever it says.
    for (first, count, wanted) in [((1, 1), 0, 7), ((1, 1), 1, 10), ((1, 4), 5, 10), ((0, 5), 5, 10)] {
        scene.set_address(FIRST_FREE, first);
        scene.set_word(FREE_COUNT, count);
        let answer = scene.create(1, &file(60), DATE)?;
        must(&scene, "an open for write with the longest directory", answer, wanted)?;
        scene.census()?;
    }
    free_chain_of_the_longest(&mut scene, (1, 4))
}

/// The directory's last sector, stated to be free: the free chain is right by itself, and only the census's last rule is broken.
fn free_chain_of_the_longest(scene: &mut Scene, last: Address) -> Checked<()> {
    scene.set_address(FIRST_FREE, last);
    scene.set_address(LAST_FREE, last);
    scene.set_word(FREE_COUNT, 1);
    let answer = scene.create(1, &file(60), DATE)?;
    must(scene, "an open for write with the longest directory's last sector free", answer, 10)?;
    let answer = scene.census()?;
    must(scene, "the census of that", answer, 46)
}

/// 7, but only where no slot is left, and after 21 and 3.
fn no_free_sector(tally: &mut Tally) -> Checked<()> {
    let mut crowded = Crowded::new(1, 5, &[(0, 5), (1, 2)]);
    crowded.state(None, None, 0);
    let mut scene = crowded.scene(tally);
    let illegal = Name::of(*b"9A\0\0\0\0\0\0TXT");
    for (name, wanted) in [(illegal, 21), (file(19), 3), (new_file(), 7)] {
        let answer = scene.create(0, &name, DATE)?;
        must(&scene, "an open for write without a free sector", answer, wanted)?;
    }
    scene.ask_of(0, DELETE, &file(15))?;
    let answer = scene.create(0, &new_file(), DATE)?;
    must(&scene, "an open for write with a slot left", answer, 0)
}

/// 10, and before it 7.
fn first_free_is_no_data_sector(tally: &mut Tally) -> Checked<()> {
    let mut scene = Crowded::new(1, 5, &[(0, 5)]).scene(tally);
    for first in [(0, 0), (0, 1), (0, 3), (0, 5), (1, 0), (1, 6), (2, 1), (255, 255)] {
        for (count, wanted) in [(0, 7), (1, 10), (5, 10), (65535, 10)] {
            scene.set_address(FIRST_FREE, first);
            scene.set_word(FREE_COUNT, count);
            let answer = scene.create(0, &new_file(), DATE)?;
            must(&scene, "an open for write with a bad first free", answer, wanted)?;
        }
    }
    Ok(())
}

/// Stores are in their order where sectors coincide. The directory's last sector is cleared and then links to itself; an earlier
/// one is cleared and so becomes the last, and its next slot is the one behind the new file's.
fn first_free_is_the_directorys(tally: &mut Tally) -> Checked<()> {
    let directory = [(0, 5), (1, 1), (1, 2), (2, 5)];
    // With count 1 the free chain is empty after that, and sectors are in no chain; with another it does not end as it is stated.
    let inside = [(1, 46), (2, 44), (65535, 44)];
    let at_the_end = [(1, 42), (2, 42), (65535, 42)];
    for (first, next, counts) in [((1, 1), 0, inside), ((1, 2), 0, inside), ((2, 5), 5, at_the_end)] {
        for (count, verdict) in counts {
            let mut scene = Crowded::new(2, 5, &directory).scene(tally);
            scene.set_address(FIRST_FREE, first);
            scene.set_word(FREE_COUNT, count);
            must_grow(&mut scene, 0, &new_file(), first)?;
            let answer = scene.create(1, &file(99), DATE)?;
            must(&scene, "an open for write after the directory took one of its own sectors", answer, next)?;
            let answer = scene.census()?;
            must(&scene, "the census after that", answer, verdict)?;
        }
    }
    Ok(())
}

/// The directory runs into the sectors of a file, whose bytes are then slots; and it takes a file's sector.
fn links_into_files(tally: &mut Tally) -> Checked<()> {
    let mut scene = scene(tally, 2, 6, &diskettes::blank(2, 6));
    for n in 0..2 {
        scene.create(n, &file(n), DATE)?;
        scene.transfer(n, 600)?;
        scene.ask(n, CLOSE)?;
    }
    let image = scene.pair.image().to_vec();
    for to in [(1, 1), (1, 2), (1, 4), (1, 6), (2, 1), (2, 6)] {
        scene.pair.poke_image(0, &image);
        scene.set_address(4 * 256, to);
        scene.census()?;
        for n in 0..22 {
            scene.create(2, &file(100 + n), DATE)?;
            scene.set_block(2, flex::ACTIVITY, &[0]);
        }
        scene.census()?;
        for (code, name) in [(DELETE, file(0)), (flex::OPEN_READ, file(1)), (DELETE, file(105))] {
            scene.ask_of(3, code, &name)?;
            scene.transfer(3, 3)?;
            scene.ask(3, CLOSE)?;
        }
        scene.census()?;
    }
    let mut crowded = Crowded::new(2, 5, &[(0, 5)]);
    let slot = crowded.offset((0, 5)) + 16;
    crowded.image[slot + 13..slot + 19].copy_from_slice(&[1, 1, 1, 1, 0, 1]);
    let mut scene = crowded.scene(tally);
    must_grow(&mut scene, 0, &new_file(), (1, 1))?;
    let answer = scene.census()?;
    must(&scene, "the census where the directory has a file's sector", answer, 46)
}

/// Links that lead back, or astray, behind any sector of the directory: 5, and 42. Without them it is right, one that ends on track 0
/// behind a data sector, too.
fn circles(tally: &mut Tally) -> Checked<()> {
    let directory = [(0, 5), (1, 1), (0, 6), (2, 3)];
    let astray = [(0, 4), (0, 7), (0, 1), (1, 0), (1, 7), (3, 1), (255, 255)];
    for (i, &at) in directory.iter().enumerate() {
        for &to in directory[..=i].iter().chain(&astray) {
            let mut crowded = Crowded::new(2, 6, &directory);
            crowded.set_link(at, to);
            let mut scene = crowded.scene(tally);
            let answer = scene.create(0, &new_file(), DATE)?;
            must(&scene, "an open for write in a directory that is not right", answer, 5)?;
            scene.ask(2, OPEN_DIRECTORY)?;
            let answer = scene.ask(2, NEXT_SLOT)?;
            must(&scene, "next slot in a directory that is not right", answer, 5)?;
            let answer = scene.census()?;
            must(&scene, "the census of a directory that is not right", answer, 42)?;
        }
    }
    for length in [3, 4] {
        let mut scene = Crowded::new(2, 6, &directory[..length]).scene(tally);
        must_be_sound(&mut scene)?;
        list(&mut scene, 10 * length)?;
        must_grow(&mut scene, 0, &new_file(), (1, 2))?;
    }
    Ok(())
}

/// Every address that first free can have on a small diskette, and some that it can't, with counts and links at the limits.
fn every_first_free(tally: &mut Tally) -> Checked<()> {
    let directories: [&[Address]; 4] =
        [&[(0, 5)], &[(0, 5), (1, 2)], &[(0, 5), (1, 2), (1, 4)], &[(0, 5), (1, 5), (0, 6)]];
    for directory in directories {
        let crowded = Crowded::new(1, 6, directory);
        let mut scene = crowded.scene(tally);
        for first in (0..=2).flat_map(|track| (0..=7).map(move |sector| (track, sector))) {
            for count in [0, 1, 2, 6, 65535] {
                for link in [NONE, (1, 3), (0, 5), (1, 2), (9, 9)] {
                    scene.pair.poke_image(0, &crowded.image);
                    one_first_free(&mut scene, first, count, link)?;
                }
            }
        }
    }
    Ok(())
}

/// An open for write, a byte sent, and the census.
fn one_first_free(scene: &mut Scene, first: Address, count: u16, link: Address) -> Checked<()> {
    let shape = Shape { last: scene.last as u8, per: scene.per as u8 };
    if shape.is_data(first) {
        scene.set_address(shape.offset(first), link);
    }
    scene.set_address(FIRST_FREE, first);
    scene.set_address(LAST_FREE, (1, 6));
    scene.set_word(FREE_COUNT, count);
    scene.set_block(0, 0, &[0; flex::BLOCK]);
    if scene.create(0, &new_file(), DATE)? == 0 {
        scene.transfer(0, 1)?;
    }
    scene.census()?;
    Ok(())
}
