//! One diskette with its control blocks, and the small steps that the random runs are made of. Those of a host are the
//! wrapper's, [`Steps`]; here it is said what they do to the two services.

use crate::image::{is_live, Directory, Ends, Shape};
use crate::pair::{Checked, Mismatch, Pair};
use crate::random::Random;
use crate::wanted::Wanted;
use flex::{Name, Steps, ACTIVITY, ATTRIBUTES, BLOCK, BLOCKS, FUNCTION, INDEX, NAME, NEXT_BYTE};

pub use crate::image::Address;

/// Names that many files share, so that searches hit, and some of them differ in case or length alone.
const NAMES: [&[u8; 11]; 10] = [
    b"A\0\0\0\0\0\0\0TXT",
    b"a\0\0\0\0\0\0\0TXT",
    b"A\0\0\0\0\0\0\0TX\0",
    b"AB\0\0\0\0\0\0TXT",
    b"ALARM-1\0DAT",
    b"ALARM-12DAT",
    b"ALARM_12DAT",
    b"Z9-_zaZAz9-",
    b"NORTH\0\0\0OUT",
    b"x\0\0\0\0\0\0\0y\0\0",
];

/// Names that are not legal, each for another reason.
const ILLEGAL: [&[u8; 11]; 14] = [
    b"9A\0\0\0\0\0\0TXT",
    b"\0\0\0\0\0\0\0\0TXT",
    b"A\0\0\0\0\0\0\0\0\0\0",
    b"A\0B\0\0\0\0\0TXT",
    b"A\0\0\0\0\0\0ATXT",
    b"A\0\0\0\0\0\0\0T\0T",
    b"-A\0\0\0\0\0\0TXT",
    b"A B\0\0\0\0\0TXT",
    b"A@[`{/:\0TXT",
    b"A\0\0\0\0\0\0\x009XT",
    b"A\0\0\0\0\0\0\0_XT",
    b"A\0\0\0\0\0\0\0T.T",
    b"\xc1\0\0\0\0\0\0\0TXT",
    b"AAAAAAA\xffTXT",
];

/// Letters and the bytes around their ranges.
const EDGES: &[u8] = b"\0-/09:@AZ[^_`az{\x7f\x80\xff";

/// Where a slot has its attributes: it stands in a block from the name on.
pub const SLOT_ATTRIBUTES: usize = ATTRIBUTES - NAME;

/// Where a slot has byte 23 of a block.
pub const SLOT_MAP: usize = 23 - NAME;

/// The activities of a block in which no file is open.
pub const IDLE: &[u8] = &[0, 16];

pub struct Scene<'a> {
    pub pair: Pair<'a>,
    pub random: Random,
    /// M and S as the diskette was made or last formatted.
    pub last: usize,
    pub per: usize,
    /// The directory's sectors likewise.
    directory: Vec<usize>,
    /// Whether transfers pass over the middle of each sector, so that long files take few calls.
    skips: bool,
}

/// A scene as it was once: both buffers, and what is known of the diskette.
pub struct Snapshot {
    image: Vec<u8>,
    table: Vec<u8>,
    last: usize,
    per: usize,
    directory: Vec<usize>,
}

impl<'a> Scene<'a> {
    pub fn new(pair: Pair<'a>, random: Random, last: usize, per: usize, directory: Vec<usize>) -> Scene<'a> {
        Scene { pair, random, last, per, directory, skips: false }
    }

    /// From now on transfers pass over the middle of each sector.
    pub fn skip(&mut self) {
        self.skips = true;
    }

    // Looking.

    pub fn block(&self, fcb: usize) -> &[u8] {
        &self.pair.table()[fcb * BLOCK..(fcb + 1) * BLOCK]
    }

    pub fn activity(&self, fcb: usize) -> u8 {
        self.block(fcb)[ACTIVITY]
    }

    /// A block with one of these activities if there is one, else any.
    pub fn block_with(&mut self, activities: &[u8]) -> usize {
        let fitting: Vec<usize> = (0..BLOCKS).filter(|&fcb| activities.contains(&self.activity(fcb))).collect();
        if fitting.is_empty() {
            self.random.below(BLOCKS)
        } else {
            self.random.one_of(&fitting)
        }
    }

    /// Where a slot begins: often a live one, mostly one that the directory reaches.
    pub fn any_slot(&mut self) -> usize {
        let live = self.live_slots();
        if !live.is_empty() && self.random.chance(60) {
            return self.random.one_of(&live);
        }
        let slots = self.slots();
        if self.random.chance(90) {
            return self.random.one_of(&slots);
        }
        let sector = self.random.between(5, self.per);
        (sector - 1) * 256 + 16 + 24 * self.random.below(10)
    }

    fn shape(&self) -> Shape {
        Shape { last: self.last as u8, per: self.per as u8 }
    }

    /// The directory as it is now, grown or damaged, of a diskette with the shape that it was made with.
    pub fn directory_now(&self) -> Directory {
        Directory::of(self.pair.image(), self.shape())
    }

    /// The slots of the directory as it is now.
    pub fn slots(&self) -> Vec<usize> {
        self.directory_now().slots
    }

    pub fn live_slots(&self) -> Vec<usize> {
        self.slots().into_iter().filter(|&slot| is_live(self.pair.image(), slot)).collect()
    }

    pub fn place(&self, slot: usize) -> [u8; 3] {
        self.shape().place(slot)
    }

    pub fn information(&self, at: usize) -> Address {
        (self.pair.image()[512 + at], self.pair.image()[513 + at])
    }

    pub fn data_sector(&mut self) -> Address {
        (self.random.between(1, self.last) as u8, self.random.between(1, self.per) as u8)
    }

    /// A sector of the directory as it is now, often the last.
    pub fn directory_sector(&mut self) -> Address {
        let directory = self.directory_now();
        if self.random.chance(50) {
            directory.last()
        } else {
            self.random.one_of(&directory.sectors)
        }
    }

    /// An address, good or bad.
    pub fn any_address(&mut self) -> Address {
        match self.random.below(14) {
            0 => (0, 0),
            1 => (0, 1),
            2 => (0, 5),
            3 => (self.last as u8, self.per as u8),
            4 => (self.last as u8 + 1, 1),
            5 => (1, 0),
            6 => (self.last as u8, self.per as u8 + 1),
            7 => (self.random.byte(), self.random.byte()),
            8 => self.information(29),
            9 => self.information(31),
            10 => self.directory_sector(),
            _ => self.data_sector(),
        }
    }

    /// A count or size, often at a limit.
    pub fn any_count(&mut self) -> u16 {
        let sectors = (self.last * self.per) as u16;
        let random = self.random.next() as u16;
        self.random.one_of(&[0, 1, 2, 3, sectors - 1, sectors, sectors + 1, 32767, 65534, 65535, random])
    }

    // Changing what the host owns.

    pub fn set_block(&mut self, fcb: usize, at: usize, bytes: &[u8]) {
        self.pair.poke_table(fcb * BLOCK + at, bytes);
    }

    pub fn set_block_address(&mut self, fcb: usize, at: usize, address: Address) {
        self.set_block(fcb, at, &[address.0, address.1]);
    }

    pub fn set_address(&mut self, at: usize, address: Address) {
        self.pair.poke_image(at, &[address.0, address.1]);
    }

    pub fn set_word(&mut self, at: usize, value: u16) {
        self.pair.poke_image(at, &value.to_be_bytes());
    }

    /// M and S again as the diskette was made.
    pub fn heal_shape(&mut self) {
        self.pair.poke_image(550, &[self.last as u8, self.per as u8]);
    }

    /// A directory that is not right gets its links again as it was made.
    pub fn heal_broken_directory(&mut self) {
        if self.directory_now().ends != Ends::Right {
            self.heal_directory();
        }
    }

    /// The directory's links again as it was made: what it has taken since is lost.
    pub fn heal_directory(&mut self) {
        for i in 0..self.directory.len() {
            let next = self.directory.get(i + 1).copied().unwrap_or(0);
            self.set_address((self.directory[i] - 1) * 256, (0, next as u8));
        }
    }

    pub fn snapshot(&self) -> Snapshot {
        Snapshot {
            image: self.pair.image().to_vec(),
            table: self.pair.table().to_vec(),
            last: self.last,
            per: self.per,
            directory: self.directory.clone(),
        }
    }

    pub fn restore(&mut self, before: Snapshot) {
        self.pair.poke_image(0, &before.image);
        self.pair.poke_table(0, &before.table);
        self.last = before.last;
        self.per = before.per;
        self.directory = before.directory;
    }

    /// A blank diskette again, directory and all.
    pub fn clear(&mut self) {
        let image = diskettes::with_directory(self.last, self.per, &self.directory);
        self.pair.poke_image(0, &image);
    }

    // Shapes.

    /// The directory that format makes.
    pub fn upward(per: usize) -> Vec<usize> {
        (5..=per).collect()
    }

    /// All M and S with which an image of this length can be a diskette.
    pub fn fitting_shapes(&self) -> Vec<(usize, usize)> {
        let sectors = (self.last + 1) * self.per;
        let fits = |per: &usize| sectors % per == 0 && (2..=80).contains(&(sectors / per));
        (5..=36).filter(fits).map(|per| (sectors / per - 1, per)).collect()
    }

    /// The service formats the image: often as it was made, else in any shape that fits. The blocks stay as they are.
    pub fn format(&mut self) -> Checked<()> {
        let shapes = self.fitting_shapes();
        let other = self.random.one_of(&shapes);
        let (last, per) = if self.random.chance(50) { (self.last, self.per) } else { other };
        let wanted = Wanted::of(&mut self.random, last, per);
        self.pair.format_lent(wanted.image_bytes(), &wanted)?;
        self.last = last;
        self.per = per;
        self.directory = Scene::upward(per);
        Ok(())
    }

    // Names.

    pub fn legal_name(&mut self) -> Name {
        let live = self.live_slots();
        if !live.is_empty() && self.random.chance(50) {
            let slot = self.random.one_of(&live);
            return self.name_at(slot);
        }
        Name::of(*self.random.one_of(&NAMES))
    }

    pub fn name_at(&self, slot: usize) -> Name {
        let mut name = [0; 11];
        name.copy_from_slice(&self.pair.image()[slot..slot + 11]);
        Name::of(name)
    }

    /// A name that no file of the usual names has.
    pub fn numbered_name(number: usize) -> Name {
        let mut name = *b"F\0\0\0\0\0\0\0NUM";
        let digits = format!("{}", number % 1000);
        name[1..1 + digits.len()].copy_from_slice(digits.as_bytes());
        Name::of(name)
    }

    pub fn any_name(&mut self) -> Name {
        match self.random.below(20) {
            0..=1 => Name::of(*self.random.one_of(&ILLEGAL)),
            2 => self.name_of_edges(),
            3 => Scene::numbered_name(self.random.below(1000)),
            _ => self.legal_name(),
        }
    }

    fn name_of_edges(&mut self) -> Name {
        let mut name = *self.random.one_of(&NAMES);
        let at = self.random.below(11);
        name[at] = self.random.one_of(EDGES);
        Name::of(name)
    }

    // Calls.

    /// Function 0 up to n times, until refused, and sometimes once again then.
    pub fn transfer(&mut self, fcb: usize, n: usize) -> Checked<()> {
        self.choose(fcb, NEXT_BYTE)?;
        let mut left = n;
        while left > 0 {
            let byte = self.random.byte();
            if self.pair.call(fcb, byte)? != 0 {
                if self.random.chance(30) {
                    self.pair.call(fcb, byte)?;
                }
                break;
            }
            left = (left - 1).saturating_sub(self.skipped(fcb));
        }
        Ok(())
    }

    /// Moves the index from near the start of a sector to near its end; how many bytes that passes over.
    fn skipped(&mut self, fcb: usize) -> usize {
        let index = self.block(fcb)[INDEX];
        if !self.skips || !(8..250).contains(&index) {
            return 0;
        }
        self.set_block(fcb, INDEX, &[252]);
        252 - index as usize
    }

    /// How many bytes to send or fetch: often around the ends of sectors.
    pub fn burst(&mut self) -> usize {
        match self.random.below(10) {
            0..=5 => self.random.between(1, 6),
            6 => self.random.between(250, 254),
            7 => self.random.between(503, 506),
            8 => self.random.between(7, 100),
            _ => self.random.between(1, 600),
        }
    }

    /// Repair with the blocks as they are.
    pub fn repair(&mut self) -> Checked<u32> {
        let (image, table) = (self.pair.image().len(), self.pair.table().len());
        self.pair.repair_lent(image, table, &mut self.random)
    }

    pub fn census(&mut self) -> Checked<u32> {
        let bytes = 2 * self.last * self.per;
        let filler = self.random.byte();
        let image = self.pair.image().len();
        self.pair.census_lent(image, bytes, bytes, filler)
    }
}

/// The entries on both services. A call gives the answer; a refusal ends no step, since what a host does that goes on all the
/// same is to be compared too. Only a difference ends one.
impl Steps for Scene<'_> {
    type Given = u32;
    type Failure = Mismatch;

    /// By the entry, or at once where that would store the byte, too: it takes no call. In an open block the entry refuses all but
    /// the function, and so it does here.
    fn preset(&mut self, fcb: usize, offset: usize, value: u8) -> Checked<()> {
        let is_allowed = offset == FUNCTION || IDLE.contains(&self.activity(fcb));
        if is_allowed && self.random.chance(90) {
            self.set_block(fcb, offset, &[value]);
        } else {
            self.pair.preset(fcb, offset, value)?;
        }
        Ok(())
    }

    /// Now and then left out, so that names without an extension are asked for too.
    fn extension(&mut self, fcb: usize, code: usize) -> Checked<()> {
        if self.random.chance(50) {
            self.pair.extension(fcb, code)?;
        }
        Ok(())
    }

    /// Whatever byte a step gives, any is sent: a function that takes none must not look at it.
    fn call(&mut self, fcb: usize, _: u8) -> Checked<u32> {
        let byte = self.random.byte();
        self.pair.call(fcb, byte)
    }
}
