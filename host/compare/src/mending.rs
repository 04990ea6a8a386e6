//! Raw writing and repair, with the answers that 02's request 12 fixes: one damaged diskette after another whose repair was worked
//! out by hand, the order of the refusals, every sector that can be written and some that can't; then thousands of diskettes,
//! laid out and damaged at random, where the two services are compared and the test looks at what comes out (repaired.rs).

use crate::image::{Address, Shape, NONE};
use crate::pair::{Checked, Mismatch, Pair};
use crate::random::Random;
use crate::scene::{Scene, SLOT_MAP};
use crate::tally::Tally;
use flex::{
    Steps, ACTIVITY, BLOCK, BLOCKS, BUFFER, CLOSE, NAME, NEXT_SLOT, OPEN_DIRECTORY, OPEN_READ, OWNER_DIRECTORY,
    OWNER_FREE, POSITION, PUT_SLOT, READ_SECTOR, SECTOR, SIZE, SLOT, TABLE, WRITE_SECTOR,
};

/// How many diskettes are damaged at random and repaired.
const DAMAGED: usize = 6_000;

/// Where a slot has its start.
const SLOT_START: usize = 13;

/// Where the information record states first free, last free and their count.
const FREE: usize = 541;

pub fn everything(tally: &mut Tally, random: &mut Random) -> Checked<()> {
    repairs(tally)?;
    refusals(tally)?;
    every_sector_written(tally)?;
    slots_put(tally)?;
    broken_by_hand(tally)?;
    (0..DAMAGED).try_for_each(|i| damaged(tally, random, i))
}

/// A diskette whose files, and the sectors that the directory has taken, are laid out as one likes.
struct Laid {
    shape: Shape,
    image: Vec<u8>,
    /// The directory's sectors.
    directory: Vec<Address>,
    /// Those in files, and all of the directory.
    used: Vec<Address>,
}

impl Laid {
    /// The directory has 0,5 and these.
    fn new(last: u8, per: u8, taken: &[Address]) -> Laid {
        let directory = [&[(0, 5)], taken].concat();
        let image = diskettes::with_directory(last as usize, per as usize, &[5]);
        let mut laid = Laid { shape: Shape { last, per }, image, used: directory.clone(), directory: vec![] };
        laid.chain(&directory);
        for &at in taken {
            let offset = laid.shape.offset(at);
            laid.image[offset + 2..offset + SECTOR].fill(0);
        }
        laid.directory = directory;
        laid
    }

    fn link(&mut self, at: Address, to: Address) {
        let offset = self.shape.offset(at);
        self.image[offset..offset + 2].copy_from_slice(&[to.0, to.1]);
    }

    /// Each sector links to the next, the last to 0,0.
    fn chain(&mut self, sectors: &[Address]) {
        for (i, &at) in sectors.iter().enumerate() {
            self.link(at, sectors.get(i + 1).copied().unwrap_or(NONE));
        }
    }

    /// Where the slot of this number, from 1 on, begins.
    fn slot(&self, number: usize) -> usize {
        self.shape.offset(self.directory[(number - 1) / 10]) + 16 + SLOT * ((number - 1) % 10)
    }

    /// A file in this slot, with these sectors.
    fn file(&mut self, number: usize, sectors: &[Address]) {
        self.chain(sectors);
        self.used.extend(sectors);
        let slot = self.slot(number);
        self.image[slot..slot + 11].copy_from_slice(Scene::numbered_name(number).bytes());
        let (first, last) = ends(sectors);
        self.state(number, first, last, sectors.len() as u16);
    }

    /// What a slot states: start, end, size.
    fn state(&mut self, number: usize, first: Address, last: Address, size: u16) {
        let at = self.slot(number) + SLOT_START;
        self.record(at, first, last, size);
    }

    fn record(&mut self, at: usize, first: Address, last: Address, count: u16) {
        let [high, low] = count.to_be_bytes();
        self.image[at..at + 6].copy_from_slice(&[first.0, first.1, last.0, last.1, high, low]);
    }

    fn set_map(&mut self, number: usize, value: u8) {
        let slot = self.slot(number);
        self.image[slot + SLOT_MAP] = value;
    }

    /// The data sectors that neither the directory nor a file has, in rising order.
    fn unused(&self) -> Vec<Address> {
        let per = self.shape.per;
        let data = (1..=self.shape.last).flat_map(|track| (1..=per).map(move |sector| (track, sector)));
        data.filter(|at| !self.used.contains(at)).collect()
    }

    /// The free chain, in this order.
    fn free(&mut self, sectors: &[Address]) {
        self.chain(sectors);
        let (first, last) = ends(sectors);
        self.record(FREE, first, last, sectors.len() as u16);
    }

    /// All that is unused is free, in rising order; now the diskette is sound.
    fn finish(mut self) -> Laid {
        let unused = self.unused();
        self.free(&unused);
        self
    }

    fn scene<'a>(&self, tally: &'a mut Tally) -> Scene<'a> {
        let pair = Pair::new(&self.image, &[0; TABLE], tally);
        Scene::new(pair, Random::new(12), self.shape.last as usize, self.shape.per as usize, vec![5])
    }

    /// Repaired, the diskette has these files, by slot, and all else is free.
    fn becomes(&self, tally: &mut Tally, what: &str, files: &[(u16, &[Address])]) -> Checked<Vec<u8>> {
        let mut scene = self.scene(tally);
        let answer = scene.repair()?;
        must(what, answer, 0)?;
        let held = flex::survey(scene.pair.image()).map_err(|refusal| Mismatch(format!("{}: {}", what, refusal)))?;
        let of = |owner: u16| held.iter().filter(move |one| one.owner == owner).map(|one| one.sector as usize);
        for &(number, sectors) in files {
            let has: Vec<Address> = of(number).map(|sector| self.shape.data_address(sector)).collect();
            if has != sectors {
                return Err(Mismatch(format!("{}: slot {} has {:?}", what, number, has)));
            }
        }
        let in_files: usize = files.iter().map(|file| file.1.len()).sum();
        let elsewhere = of(OWNER_FREE).count() + of(OWNER_DIRECTORY).count();
        if in_files + elsewhere != held.len() || of(OWNER_DIRECTORY).count() + 1 != self.directory.len() {
            return Err(Mismatch(format!("{}: the census lists {:?}", what, held)));
        }
        Ok(scene.pair.image().to_vec())
    }
}

fn ends(sectors: &[Address]) -> (Address, Address) {
    (sectors.first().copied().unwrap_or(NONE), sectors.last().copied().unwrap_or(NONE))
}

fn must(what: &str, answer: u32, wanted: u32) -> Checked<()> {
    match answer == wanted {
        true => Ok(()),
        false => Err(Mismatch(format!("{}: the answer is {} and must be {}", what, answer, wanted))),
    }
}

/// 1 and 2 on 2×5: 1,1 1,2 1,3 and 1,4 1,5 2,1.
fn two() -> Laid {
    let mut laid = Laid::new(2, 5, &[]);
    laid.file(1, &[(1, 1), (1, 2), (1, 3)]);
    laid.file(2, &[(1, 4), (1, 5), (2, 1)]);
    laid.finish()
}

const FIRST: &[Address] = &[(1, 1), (1, 2), (1, 3)];
const SECOND: &[Address] = &[(1, 4), (1, 5), (2, 1)];

/// Damage, and what is left of the two files.
type Case = (&'static str, fn(&mut Laid), &'static [Address], &'static [Address]);

const CASES: &[Case] = &[
    ("nothing is wrong", |_| (), FIRST, SECOND),
    (
        "the accident: both have one last sector",
        |d| d.link((1, 2), (2, 1)),
        &[(1, 1), (1, 2), (2, 1)],
        &[(1, 4), (1, 5)],
    ),
    ("the second leads into the first", |d| d.link((1, 4), (1, 2)), FIRST, &[(1, 4)]),
    ("the second begins in the first", |d| d.state(2, (1, 3), (2, 1), 3), FIRST, &[]),
    ("two slots have one chain", |d| d.state(2, (1, 1), (1, 3), 3), FIRST, &[]),
    ("a sector links to itself", |d| d.link((1, 2), (1, 2)), &[(1, 1), (1, 2)], SECOND),
    ("a circle of all three", |d| d.link((1, 3), (1, 1)), FIRST, SECOND),
    ("a circle of a file that states 60,000", circle, FIRST, SECOND),
    ("a link off the diskette", |d| d.link((1, 1), (3, 1)), &[(1, 1)], SECOND),
    ("a link to a sector over S", |d| d.link((1, 1), (1, 6)), &[(1, 1)], SECOND),
    ("a link to a sector 0", |d| d.link((1, 1), (1, 0)), &[(1, 1)], SECOND),
    ("a link to the information record", |d| d.link((1, 4), (0, 3)), FIRST, &[(1, 4)]),
    ("a link to the directory", |d| d.link((1, 4), (0, 5)), FIRST, &[(1, 4)]),
    ("the end comes early", |d| d.link((1, 1), NONE), &[(1, 1)], SECOND),
    ("a start that is no sector", |d| d.state(1, (9, 9), (1, 3), 3), &[], SECOND),
    ("a start 0,0", |d| d.state(1, NONE, (1, 3), 3), &[], SECOND),
    ("a size that is too large", |d| d.state(1, (1, 1), (1, 3), 4), FIRST, SECOND),
    ("a size of 65,535", |d| d.state(2, (1, 4), (2, 1), 65_535), FIRST, SECOND),
    ("a size that is too small", |d| d.state(1, (1, 1), (1, 3), 2), &[(1, 1), (1, 2)], SECOND),
    ("a size of 0", |d| d.state(1, (1, 1), (1, 3), 0), &[], SECOND),
    ("another end", |d| d.state(1, (1, 1), (1, 2), 3), FIRST, SECOND),
    ("the free chain is a file's", |d| d.record(FREE, (1, 1), (1, 3), 3), FIRST, SECOND),
    ("the free chain is empty, and sectors are lost", |d| d.record(FREE, NONE, NONE, 0), FIRST, SECOND),
    ("the free chain is nonsense", |d| d.record(FREE, (255, 255), (0, 3), 65_535), FIRST, SECOND),
    ("a slot is gone, and its sectors are lost", |d| unname(d, 1), &[], SECOND),
    ("a file grows over free sectors", grows, &[(1, 1), (1, 2), (1, 3), (2, 2), (2, 3)], SECOND),
    ("a damaged file runs into a sound one", runs_into, &[(1, 1), (1, 4), (1, 5), (2, 1)], &[]),
];

fn circle(laid: &mut Laid) {
    laid.link((1, 3), (1, 2));
    laid.state(1, (1, 1), (1, 3), 60_000);
}

fn unname(laid: &mut Laid, number: usize) {
    let slot = laid.slot(number);
    laid.image[slot] = 255;
}

/// The free chain's first two, which both have by now.
fn grows(laid: &mut Laid) {
    laid.chain(&[(1, 1), (1, 2), (1, 3), (2, 2), (2, 3)]);
    laid.state(1, (1, 1), (2, 3), 5);
}

/// All that the first states is there, so it keeps all of the second: of the two nobody can know whose it was.
fn runs_into(laid: &mut Laid) {
    laid.link((1, 1), (1, 4));
    laid.state(1, (1, 1), (2, 1), 4);
}

fn repairs(tally: &mut Tally) -> Checked<()> {
    for &(what, damage, first, second) in CASES {
        for map in [0, 1, 255] {
            let mut laid = two();
            laid.set_map(1, map);
            laid.set_map(2, map);
            damage(&mut laid);
            laid.becomes(tally, what, &[(1, first), (2, second)])?;
        }
    }
    an_earlier_file_runs_in(tally)?;
    maps(tally)?;
    grown(tally)
}

/// The example of DECISIONS 49, on 1×5: A states two sectors, its first links to where the sound B begins.
fn an_earlier_file_runs_in(tally: &mut Tally) -> Checked<()> {
    let mut laid = Laid::new(1, 5, &[]);
    laid.file(1, &[(1, 1)]);
    laid.file(2, &[(1, 2)]);
    let mut laid = laid.finish();
    laid.link((1, 1), (1, 2));
    laid.state(1, (1, 1), (1, 1), 2);
    laid.becomes(tally, "A runs into B", &[(1, &[(1, 1), (1, 2)]), (2, &[])])?;
    Ok(())
}

/// Byte 23 becomes 0 where fewer sectors are kept than were stated, and only there.
fn maps(tally: &mut Tally) -> Checked<()> {
    for (stated, expected) in [(0, 7), (1, 7), (2, 7), (3, 7), (4, 0), (65_535, 0)] {
        let mut laid = two();
        laid.set_map(1, 7);
        laid.state(1, (1, 1), (1, 3), stated);
        let kept = &FIRST[..FIRST.len().min(stated as usize)];
        let image = laid.becomes(tally, "a file with byte 23", &[(1, kept), (2, SECOND)])?;
        must("byte 23", image[laid.slot(1) + SLOT_MAP].into(), expected)?;
    }
    Ok(())
}

/// Files that lead into the sectors that the directory has taken, and one whose slot is in such a sector.
fn grown(tally: &mut Tally) -> Checked<()> {
    let laid = || {
        let mut laid = Laid::new(2, 5, &[(1, 3), (2, 5)]);
        laid.file(1, &[(1, 1), (1, 2)]);
        laid.file(12, &[(1, 4), (1, 5)]);
        laid.file(30, &[(2, 1)]);
        laid.finish()
    };
    let (one, twelve, thirty): (&[Address], &[Address], &[Address]) = (&[(1, 1), (1, 2)], &[(1, 4), (1, 5)], &[(2, 1)]);
    laid().becomes(tally, "a grown directory", &[(1, one), (12, twelve), (30, thirty)])?;
    let mut into = laid();
    into.link((1, 1), (1, 3));
    into.becomes(tally, "a file into the directory", &[(1, &[(1, 1)]), (12, twelve), (30, thirty)])?;
    let mut from = laid();
    from.state(1, (2, 5), (1, 2), 2);
    from.becomes(tally, "a file that begins in the directory", &[(1, &[]), (12, twelve), (30, thirty)])?;
    let mut crossed = laid();
    crossed.link((2, 1), (1, 5));
    crossed.state(30, (2, 1), (1, 5), 2);
    crossed.becomes(tally, "a file in the directory's last sector", &[(1, one), (12, twelve), (30, thirty)])?;
    let mut free = laid();
    free.record(FREE, (1, 3), (2, 5), 2);
    free.becomes(tally, "the directory's sectors free", &[(1, one), (12, twelve), (30, thirty)])?;
    Ok(())
}

/// 13, 2, 41, 42, 43: each where all that is tested later is wrong as well, and where nothing else is.
fn refusals(tally: &mut Tally) -> Checked<()> {
    let mut sound = two();
    let mut random = Random::new(3);
    let (mut twins, mut loose) = (two(), two());
    let slot = twins.slot(2);
    twins.image[slot..slot + 11].copy_from_slice(Scene::numbered_name(1).bytes());
    loose.image[slot..slot + 11].copy_from_slice(Scene::numbered_name(1).bytes());
    loose.link((0, 5), (0, 4));
    for (laid, closed) in [(&mut loose, 42), (&mut twins, 43), (&mut sound, 0)] {
        let image = laid.image.len();
        for table in [TABLE, 0, 1, TABLE - 1, TABLE + 1, TABLE - BLOCK, TABLE + BLOCK] {
            for (len, shape) in [(image, true), (0, false), (551, false), (image - 1, false), (image + SECTOR, false)] {
                for activity in [0, 1, 2, 16, 3, 255] {
                    for fcb in [0, 3, BLOCKS - 1] {
                        let mut scene = laid.scene(tally);
                        scene.set_block(fcb, ACTIVITY, &[activity]);
                        let answer = scene.pair.repair_lent(len, table, &mut random)?;
                        let wanted = match () {
                            _ if table != TABLE => 13,
                            _ if activity != 0 => 2,
                            _ if !shape => 41,
                            _ => closed,
                        };
                        must("a repair that is refused", answer, wanted)?;
                    }
                }
            }
        }
    }
    Ok(())
}

/// Function 10 at every address that there is and around, from a closed block and from one that lists; and function 9 then.
fn every_sector_written(tally: &mut Tally) -> Checked<()> {
    let laid = two();
    let mut scene = laid.scene(tally);
    let mut random = Random::new(8);
    let tracks = [0, 1, 2, 3, 255];
    for address in tracks.into_iter().flat_map(|track| [0, 1, 2, 3, 4, 5, 6, 255].map(|sector| (track, sector))) {
        for activity in [0, 16, 1, 2, 17] {
            scene.pair.poke_image(0, &laid.image);
            let mut buffer = [0; SECTOR];
            random.fill(&mut buffer);
            // The information record is written as it is but for its first byte, or there would be no diskette any more.
            if address == (0, 3) {
                buffer.copy_from_slice(&laid.image[2 * SECTOR..3 * SECTOR]);
                buffer[0] = random.byte();
            }
            scene.set_block(0, BUFFER, &buffer);
            scene.set_block_address(0, POSITION, address);
            scene.set_block(0, ACTIVITY, &[activity]);
            let exists = address.0 <= 2 && (1..=5).contains(&address.1);
            let wanted = match activity {
                0 | 16 if exists => 0,
                0 | 16 => 10,
                _ => 18,
            };
            must("write sector", scene.ask(0, WRITE_SECTOR)?, wanted)?;
            scene.set_block(0, ACTIVITY, &[0]);
            scene.ask(0, READ_SECTOR)?;
            if wanted == 0 && scene.block(0)[BUFFER..] != buffer {
                return Err(Mismatch(format!("{:?} does not hold what was written", address)));
            }
        }
    }
    unshaped(&mut scene)
}

/// What function 10 leaves is no diskette: all is refused then, a repair too.
fn unshaped(scene: &mut Scene) -> Checked<()> {
    scene.set_block(0, BUFFER, &[0; SECTOR]);
    scene.set_block_address(0, POSITION, (0, 3));
    must("write sector over the information record", scene.ask(0, WRITE_SECTOR)?, 0)?;
    for code in [WRITE_SECTOR, READ_SECTOR, OPEN_READ, PUT_SLOT] {
        must("a call on what is no diskette any more", scene.ask(0, code)?, 16)?;
    }
    must("its census", scene.census()?, 41)?;
    must("its repair", scene.repair()?, 41)
}

/// Function 8 on every slot, of a taken sector too, as function 7 has shown it; not before the first and not behind the last.
fn slots_put(tally: &mut Tally) -> Checked<()> {
    let mut laid = Laid::new(2, 5, &[(1, 3)]);
    laid.file(1, &[(1, 1)]);
    laid.file(13, &[(1, 4)]);
    let laid = laid.finish();
    let mut scene = laid.scene(tally);
    must("put slot in a closed block", scene.ask(0, PUT_SLOT)?, 18)?;
    scene.ask(0, OPEN_DIRECTORY)?;
    must("put slot before any was shown", scene.ask(0, PUT_SLOT)?, 5)?;
    for number in 1..=20 {
        must("next slot", scene.ask(0, NEXT_SLOT)?, 0)?;
        let mut entry = [number as u8; SLOT];
        entry[..11].copy_from_slice(Scene::numbered_name(100 + number).bytes());
        scene.preset_all(0, NAME, &entry)?;
        must("put slot", scene.ask(0, PUT_SLOT)?, 0)?;
        if scene.pair.image()[laid.slot(number)..][..SLOT] != entry {
            return Err(Mismatch(format!("slot {} does not hold what was put", number)));
        }
    }
    must("next slot behind the last", scene.ask(0, NEXT_SLOT)?, 8)?;
    must("put slot once more", scene.ask(0, PUT_SLOT)?, 0)?;
    for link in [(0, 4), (1, 3), (9, 9)] {
        scene.set_address(laid.shape.offset((1, 3)), link);
        must("put slot in a directory that is not right", scene.ask(0, PUT_SLOT)?, 5)?;
    }
    Ok(())
}

/// Service staff break a diskette by raw writes alone, and repair it: a size by function 8, a link by function 10.
fn broken_by_hand(tally: &mut Tally) -> Checked<()> {
    let laid = two();
    let mut scene = laid.scene(tally);
    scene.ask(0, OPEN_DIRECTORY)?;
    scene.ask(0, NEXT_SLOT)?;
    scene.preset_all(0, SIZE, &[0, 9])?;
    must("put slot", scene.ask(0, PUT_SLOT)?, 0)?;
    must("the census with another size", scene.census()?, 45)?;
    scene.preset_all(0, POSITION, &[1, 5])?;
    scene.ask(0, READ_SECTOR)?;
    scene.preset_all(0, BUFFER, &[1, 2])?;
    must("write sector", scene.ask(0, WRITE_SECTOR)?, 0)?;
    must("a repair while a block lists", scene.repair()?, 2)?;
    scene.ask(0, CLOSE)?;
    must("a repair", scene.repair()?, 0)?;
    must("the census", scene.census()?, 0)?;
    let held = flex::survey(scene.pair.image()).unwrap_or_default();
    let kept = |owner: u16| held.iter().filter(|one| one.owner == owner).count();
    must("what both files keep", (10 * kept(1) + kept(2)) as u32, 32)
}

/// A sound diskette with files, holes and a free chain in any order, its directory grown or not.
fn random_diskette(random: &mut Random, largest: bool) -> Laid {
    let (last, per) = match random.below(10) {
        _ if largest => (79, 36),
        0..=6 => (random.between(1, 3), random.between(5, 8)),
        7..=8 => (random.between(1, 8), random.between(5, 12)),
        _ => (random.between(1, 20), random.between(5, 18)),
    };
    let shape = Shape { last: last as u8, per: per as u8 };
    let mut sectors: Vec<Address> = (0..last * per).map(|number| shape.data_address(number)).collect();
    for i in (1..sectors.len()).rev() {
        sectors.swap(i, random.below(i + 1));
    }
    let grown = random.one_of(&[0, 0, 0, 1, 2, 3, 12]).min(sectors.len() / 2);
    let mut laid = Laid::new(shape.last, shape.per, &sectors.split_off(sectors.len() - grown));
    let keeps_some = random.chance(70);
    for number in 1..=10 * (grown + 1) {
        let longest = random.one_of(&[0, 1, 2, 3, 5, 40]);
        let length = random.below(longest + 1).min(sectors.len());
        match random.below(10) {
            0 => unname(&mut laid, number),
            1..=3 => (),
            _ if keeps_some && sectors.len() < 3 => (),
            _ => laid.file(number, &sectors.split_off(sectors.len() - length)),
        }
    }
    fill_with_bytes(&mut laid, random);
    laid.free(&sectors);
    laid
}

/// Record numbers and data of all sectors but the directory's are any bytes; byte 23 and attributes of the slots, too.
fn fill_with_bytes(laid: &mut Laid, random: &mut Random) {
    for number in 0..laid.shape.data_sectors() {
        let at = laid.shape.data_address(number);
        if !laid.directory.contains(&at) {
            let offset = laid.shape.offset(at);
            random.fill(&mut laid.image[offset + 2..offset + SECTOR]);
        }
    }
    for number in 1..=10 * laid.directory.len() {
        let slot = laid.slot(number);
        laid.image[slot + 11] = random.one_of(&[0, 0, 32, 64, 128, 255]);
        laid.image[slot + SLOT_MAP] = random.one_of(&[0, 0, 1, 2, 255]);
    }
}

/// One of the thousands.
fn damaged(tally: &mut Tally, random: &mut Random, i: usize) -> Checked<()> {
    let laid = random_diskette(random, i % 500 == 499);
    let pair = Pair::new(&laid.image, &[0; TABLE], tally);
    let (last, per) = (laid.shape.last as usize, laid.shape.per as usize);
    let mut scene = Scene::new(pair, Random::new(random.next()), last, per, vec![5]);
    must("the census of a diskette that was laid out", scene.census()?, 0)?;
    for _ in 0..random.one_of(&[0, 1, 1, 1, 2, 3, 5, 12]) {
        scene.damage_chains();
    }
    if random.chance(5) {
        scene.damage_image()?;
    }
    if random.chance(5) {
        let (fcb, activity) = (random.below(BLOCKS), random.one_of(&[1, 2, 16, 255]));
        scene.set_block(fcb, ACTIVITY, &[activity]);
    }
    scene.census()?;
    scene.repair()?;
    Ok(())
}
