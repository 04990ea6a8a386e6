//! A call that is cut short by the power: what a host that does as docs/HOST.md says ("When the power can fail") can leave of
//! it, and what a repair must then make of that, by a reading of the diskette that is the test's own: all files as before the
//! call, or all as after it, and so every byte of track 0, but for the free chain's record, and of the directory. That is
//! proved of the rules; here the archive does it.

use crate::image::{address, is_live, word, Address, Directory, Shape};
use crate::random::Random;
use crate::repaired::{mended, FREE};
use flex::{Refusal, CLOSE, DELETE, NEXT_BYTE, OPEN_WRITE, RENAME, SECTOR, SLOT};
use std::ops::Range;

/// Where a slot has its start and its size.
const START: usize = 13;
const SIZE: usize = 17;

/// The free count in the image.
const FREE_COUNT: usize = FREE.start + 4;

/// The slots of a sector: where they begin, and how many they are.
const FIRST_SLOT: usize = 16;
const SLOTS: usize = 10;

/// Of a hundred images that are left, so many are gone on with.
const NIGHTS: usize = 1;

/// A call that was accepted and has changed the image, not raw. Of a sound diskette, as calls alone leave it.
pub struct Cut {
    code: u8,
    shape: Shape,
    before: Vec<u8>,
    after: Vec<u8>,
    /// As it was before the call.
    directory: Directory,
    /// The changed sectors, counted from the image's first: the directory's, and the others.
    listing: Vec<usize>,
    others: Vec<usize>,
    /// How many blocks write, by the table after the call.
    writing: usize,
}

/// How far the host has come with the changed sectors when the power fails.
#[derive(Clone, Copy, PartialEq)]
enum Written {
    /// With some of those that are not the directory's, in whatever order; with all of them; with the directory's, too.
    Part,
    Others,
    All,
    /// A host that makes the stores one by one, in the rules' order. Where the directory grows, two of them are in its new sector: it is
    /// cleared; then it is linked, and has no file yet. Of all other calls each store has a sector of its own, so that the first of them
    /// are also a `Part`.
    Cleared,
    Linked,
    /// What no host should do, to see that the test can fail: the directory's before all others; and where it grows, by a sector that has
    /// the directory's own names, as a deleted copy of it leaves them.
    DirectoryFirst,
    Twins,
}

/// What the repair has made of the files.
#[derive(PartialEq)]
enum Files {
    AsBefore,
    /// The directory has one sector more, of slots that were never used.
    AsBeforeGrown,
    AsAfter,
    /// Some are neither.
    Other,
    /// Nothing: it is refused.
    Refused(Refusal),
    /// What no repair may do, whatever it is given.
    Wrong(String),
}

/// What was left of a call, and what the repair made of it.
pub struct Left {
    written: Written,
    /// The sectors that were written, and how many of the changed ones were not.
    sectors: Vec<usize>,
    missing: usize,
    /// The census's answer before the repair.
    verdict: u32,
    files: Files,
    /// Bytes among which some that are no file's have changed. Nothing is said of them where the directory was written first.
    strayed: Option<Range<usize>>,
    /// The power failed in the repair, too: some of its sectors were written and others not.
    resumed: bool,
    /// The repaired image, if the work goes on with it.
    pub morning: Option<Vec<u8>>,
}

/// A repair that was made, and made again after it was broken off: in between, or before its first sector or after its last.
struct Mended {
    image: Vec<u8>,
    resumed: bool,
}

/// A slot with all that hangs on it: where it is, its 24 bytes, and of a live one its sectors by their links, with all that they hold.
#[derive(PartialEq)]
struct Entry<'a> {
    at: usize,
    slot: &'a [u8],
    sectors: Vec<(Address, &'a [u8])>,
}

/// The entries before the call and after it.
struct Sides<'a> {
    before: Vec<Entry<'a>>,
    after: Vec<Entry<'a>>,
}

impl Cut {
    /// None where the call has changed nothing, or is a raw write, of which nothing is said.
    pub fn of(code: u8, before: Vec<u8>, after: &[u8], writing: usize) -> Option<Cut> {
        if before == after || ![NEXT_BYTE, OPEN_WRITE, CLOSE, DELETE, RENAME].contains(&code) {
            return None;
        }
        let shape = Shape::of(&before)?;
        let directory = Directory::of(&before, shape);
        let changed = (0..before.len() / SECTOR).filter(|&k| sector(&before, k) != sector(after, k));
        let is_listed = |k: &usize| directory.sectors.contains(&shape.address(*k));
        let (listing, others) = changed.partition(is_listed);
        Some(Cut { code, shape, before, after: after.to_vec(), directory, listing, others, writing })
    }

    /// Whether it is worth its time: what happens seldom always, what happens all the while now and then.
    fn is_tried(&self, random: &mut Random) -> bool {
        let percent = match self.code {
            NEXT_BYTE if self.size() == Some(0) => 30,
            OPEN_WRITE if !self.grows() => 5,
            CLOSE => 20,
            _ => 100,
        };
        random.chance(percent)
    }

    /// The power fails at several places of the call, and each time a repair follows. Not for every call.
    pub fn tried(&self, random: &mut Random) -> Vec<Left> {
        if !self.is_tried(random) {
            return vec![];
        }
        let sides = Sides { before: entries(&self.before, self.shape), after: entries(&self.after, self.shape) };
        let part = self.some_others(random);
        let all = [&self.others[..], &self.listing].concat();
        let mut lefts = vec![
            self.left(Written::Part, part, &sides, random),
            self.left(Written::Others, self.others.clone(), &sides, random),
            self.left(Written::All, all.clone(), &sides, random),
        ];
        if self.grows() {
            lefts.push(self.left(Written::Cleared, self.others.clone(), &sides, random));
            lefts.push(self.left(Written::Linked, all, &sides, random));
            lefts.push(self.left(Written::Twins, self.listing.clone(), &sides, random));
        }
        if !self.listing.is_empty() && !self.others.is_empty() {
            let first = [self.listing.clone(), self.some_others(random)].concat();
            lefts.push(self.left(Written::DirectoryFirst, first, &sides, random));
        }
        lefts
    }

    fn some_others(&self, random: &mut Random) -> Vec<usize> {
        self.others.iter().copied().filter(|_| random.chance(50)).collect()
    }

    fn left(&self, written: Written, sectors: Vec<usize>, sides: &Sides, random: &mut Random) -> Left {
        let image = self.image_left(written, &sectors);
        let missing = self.others.len() + self.listing.len() - sectors.len();
        let verdict = flex::survey(&image).map_or_else(|refusal| refusal.number() as u32, |_| 0);
        let left =
            |files| Left { written, sectors, missing, verdict, files, strayed: None, resumed: false, morning: None };
        let made = match repaired(&image, random) {
            Ok(made) => made,
            Err(files) => return left(files),
        };
        let files = sides.judged(&entries(&made.image, self.shape));
        let strayed = match written {
            Written::DirectoryFirst | Written::Twins => return left(files),
            Written::Linked => strayed(&self.grown(), &made.image, self.shape),
            _ if missing == 0 => strayed(&self.after, &made.image, self.shape),
            _ => strayed(&self.before, &made.image, self.shape),
        };
        let morning = Some(made.image).filter(|_| random.chance(NIGHTS));
        Left { strayed, resumed: made.resumed, morning, ..left(files) }
    }

    /// What is on the card when the power fails.
    fn image_left(&self, written: Written, sectors: &[usize]) -> Vec<u8> {
        let mut image = self.before.clone();
        for &k in sectors {
            sector_mut(&mut image, k).copy_from_slice(sector(&self.after, k));
        }
        let names = self.shape.offset(self.directory.last()) + FIRST_SLOT;
        let names = &self.before[names..names + SLOTS * SLOT];
        match written {
            Written::Cleared | Written::Linked => self.new_sector_mut(&mut image).fill(0),
            Written::Twins => self.new_sector_mut(&mut image)[FIRST_SLOT..].copy_from_slice(names),
            _ => (),
        }
        image
    }

    /// As before the call, with a sector more in the directory, which has nothing.
    fn grown(&self) -> Vec<u8> {
        let mut image = self.before.clone();
        let link = self.shape.offset(self.directory.last());
        image[link..link + 2].copy_from_slice(&self.after[link..link + 2]);
        self.new_sector_mut(&mut image).fill(0);
        image
    }

    /// The one that the directory takes.
    fn new_sector_mut<'a>(&self, image: &'a mut [u8]) -> &'a mut [u8] {
        let taken = Directory::of(&self.after, self.shape).last();
        sector_mut(image, self.shape.offset(taken) / SECTOR)
    }

    /// With the last sector written the call must have been made, and before that not. With the directory's first anything can come of
    /// it, but of two files of one name a refusal.
    fn wanted(&self, left: &Left) -> Option<Files> {
        match left.written {
            Written::DirectoryFirst => None,
            Written::Twins => Some(Files::Refused(Refusal::CensusNames)),
            Written::Linked => Some(Files::AsBeforeGrown),
            _ if left.missing == 0 => Some(Files::AsAfter),
            _ => Some(Files::AsBefore),
        }
    }

    /// What is wrong with what came of it, in words.
    pub fn fault(&self, left: &Left) -> Option<String> {
        let what = match (&left.files, self.wanted(left), &left.strayed) {
            _ if self.listing.len() > 1 => "the call has changed more than one sector of the directory".to_string(),
            (Files::Wrong(what), _, _) => what.clone(),
            (files, Some(wanted), _) if *files != wanted => {
                format!("{}; it must be so: {}", files.told(), wanted.told())
            }
            (_, _, Some(bytes)) => format!("of the bytes {:?}, which are no file's, some have changed", bytes),
            _ => return None,
        };
        let sectors = format!("{:?} and the directory's {:?}, written {:?}", self.others, self.listing, left.sectors);
        Some(format!("after a power cut and a repair: {}\n  changed sectors are {}", what, sectors))
    }

    /// The slot of the directory as it was that the call has changed.
    fn slot(&self) -> Option<usize> {
        let differs = |slot: usize| self.before[slot..slot + SLOT] != self.after[slot..slot + SLOT];
        self.directory.slots.iter().copied().find(|&slot| differs(slot))
    }

    /// How many sectors the file of that slot had.
    fn size(&self) -> Option<u16> {
        self.slot().map(|slot| word(&self.before, slot + SIZE))
    }

    fn free_count(&self) -> u16 {
        word(&self.before, FREE_COUNT)
    }

    /// A sector is taken for a file.
    fn takes(&self) -> bool {
        self.code == NEXT_BYTE && self.slot().is_some()
    }

    /// The directory takes a sector.
    fn grows(&self) -> bool {
        self.code == OPEN_WRITE && self.slot().is_none()
    }

    /// A chain goes back to the free ones.
    fn deletes_sectors(&self) -> bool {
        self.code == DELETE && self.size() > Some(0)
    }

    /// A slot is all that it changes; bytes of a file's last sector are.
    fn changes_slot_alone(&self, code: u8) -> bool {
        self.code == code && self.slot().is_some() && self.others.is_empty()
    }

    fn changes_bytes_alone(&self, code: u8) -> bool {
        self.code == code && self.listing.is_empty()
    }

    /// The slot is in a data sector.
    fn is_in_taken(&self) -> bool {
        self.slot().map_or(false, |slot| self.shape.place(slot)[0] > 0)
    }

    fn has_boot_sectors(&self) -> bool {
        self.before[..2 * SECTOR].iter().any(|&byte| byte != 0)
    }

    fn live_files(&self) -> usize {
        self.directory.slots.iter().filter(|&&slot| is_live(&self.before, slot)).count()
    }
}

impl Files {
    fn told(&self) -> String {
        match self {
            Files::AsBefore => "all files are as before the call".to_string(),
            Files::AsBeforeGrown => "all files are as before the call, and the directory has grown".to_string(),
            Files::AsAfter => "all files are as after the call".to_string(),
            Files::Other => "the files are neither those before the call nor those after it".to_string(),
            Files::Refused(refusal) => format!("the repair is refused: {}", refusal),
            Files::Wrong(what) => what.clone(),
        }
    }
}

impl Left {
    /// By a host that writes the directory's sectors last, with some sectors written and others not.
    fn is_between(&self) -> bool {
        matches!(self.written, Written::Part | Written::Others) && !self.sectors.is_empty() && self.missing > 0
    }

    /// By one that writes them first, and this came of it.
    fn is_directory_first(&self, files: Files) -> bool {
        self.written == Written::DirectoryFirst && self.files == files
    }
}

impl Sides<'_> {
    fn judged(&self, entries: &[Entry]) -> Files {
        let unused = |entry: &Entry| entry.slot.iter().all(|&byte| byte == 0);
        match entries.strip_prefix(&self.before[..]) {
            _ if entries == self.after => Files::AsAfter,
            Some([]) => Files::AsBefore,
            Some(gained) if gained.len() == SLOTS && gained.iter().all(unused) => Files::AsBeforeGrown,
            _ => Files::Other,
        }
    }
}

fn sector(image: &[u8], k: usize) -> &[u8] {
    &image[k * SECTOR..(k + 1) * SECTOR]
}

fn sector_mut(image: &mut [u8], k: usize) -> &mut [u8] {
    &mut image[k * SECTOR..(k + 1) * SECTOR]
}

/// What the archive's repair makes of it, which the census must accept; broken off, with some sectors written and others not, and made
/// again, it must give the same image, byte for byte.
fn repaired(image: &[u8], random: &mut Random) -> Result<Mended, Files> {
    let whole = mended(image).map_err(Files::Refused)?;
    if let Err(refusal) = flex::survey(&whole) {
        return Err(Files::Wrong(format!("the census refuses what was repaired: {}", refusal)));
    }
    let mut broken_off = image.to_vec();
    for k in (0..image.len() / SECTOR).filter(|&k| sector(image, k) != sector(&whole, k)) {
        if random.chance(50) {
            sector_mut(&mut broken_off, k).copy_from_slice(sector(&whole, k));
        }
    }
    if mended(&broken_off).as_ref() != Ok(&whole) {
        return Err(Files::Wrong("broken off and made again, the repair gives another image".to_string()));
    }
    let resumed = broken_off != image && broken_off != whole;
    Ok(Mended { image: whole, resumed })
}

/// Of track 0 and of the directory, as it is due, all but the free chain's record must be as it is due: boot sectors, label, volume
/// number, date, what lies between links and slots, and sectors that nothing uses. Where it is not.
fn strayed(due: &[u8], image: &[u8], shape: Shape) -> Option<Range<usize>> {
    let taken = Directory::of(due, shape).sectors.into_iter().filter(|at| at.0 > 0).map(|at| shape.offset(at));
    let track_0 = [0..FREE.start, FREE.end..shape.offset((1, 1))];
    let mut places = track_0.into_iter().chain(taken.map(|at| at..at + SECTOR));
    places.find(|place| due[place.clone()] != image[place.clone()])
}

/// Every slot of the directory, in order.
fn entries(image: &[u8], shape: Shape) -> Vec<Entry<'_>> {
    let entry = |at: usize| Entry {
        at,
        slot: &image[at..at + SLOT],
        sectors: if is_live(image, at) { chain(image, shape, address(image, at + START)) } else { vec![] },
    };
    Directory::of(image, shape).slots.into_iter().map(entry).collect()
}

/// From its first sector on, by links, as long as these are data sectors; in a circle as many as there are.
fn chain(image: &[u8], shape: Shape, first: Address) -> Vec<(Address, &[u8])> {
    let mut sectors = Vec::new();
    let mut next = first;
    while shape.is_data(next) && sectors.len() < shape.data_sectors() {
        let at = shape.offset(next);
        sectors.push((next, &image[at..at + SECTOR]));
        next = address(image, at);
    }
    sectors
}

type MetByCut = fn(&Cut, &Left) -> bool;

/// Situations of calls that are cut short, each with its test. All must occur.
pub const CUT_SITUATIONS: &[(&str, MetByCut)] = &[
    // several sectors change, and some are written
    ("cut: taking a file's first sector", |c, l| l.is_between() && c.takes() && c.size() == Some(0)),
    ("cut: taking a further sector", |c, l| l.is_between() && c.takes() && c.size() > Some(0)),
    ("cut: taking the last free sector", |c, l| l.is_between() && c.takes() && c.free_count() == 1),
    ("cut: taking for a slot in a sector that the directory has taken", |c, l| {
        l.is_between() && c.takes() && c.is_in_taken()
    }),
    ("cut: delete", |c, l| l.is_between() && c.deletes_sectors()),
    ("cut: delete where no sector is free", |c, l| l.is_between() && c.deletes_sectors() && c.free_count() == 0),
    ("cut: delete of a file of several sectors", |c, l| l.is_between() && c.deletes_sectors() && c.size() > Some(1)),
    ("cut: delete in a sector that the directory has taken", |c, l| {
        l.is_between() && c.deletes_sectors() && c.is_in_taken()
    }),
    ("cut: the directory grows", |c, l| l.is_between() && c.grows()),
    ("cut: the directory grows again", |c, l| l.is_between() && c.grows() && c.directory.taken() > 0),
    ("cut: the directory grows by the last free sector", |c, l| l.is_between() && c.grows() && c.free_count() == 1),
    ("cut: the directory's new sector is cleared, and not linked", |_, l| l.written == Written::Cleared),
    ("cut: the directory has grown, and the file is not stored", |_, l| l.files == Files::AsBeforeGrown),
    // one sector changes, and is written or not
    ("cut: a sector filled, not written", |c, l| c.changes_bytes_alone(NEXT_BYTE) && l.missing > 0),
    ("cut: a sector filled, written", |c, l| c.changes_bytes_alone(NEXT_BYTE) && l.missing == 0),
    ("cut: close, not written", |c, l| c.changes_bytes_alone(CLOSE) && l.missing > 0),
    ("cut: close, written", |c, l| c.changes_bytes_alone(CLOSE) && l.missing == 0),
    ("cut: close of an unwritten file, not written", |c, l| c.changes_slot_alone(CLOSE) && l.missing > 0),
    ("cut: close of an unwritten file, written", |c, l| c.changes_slot_alone(CLOSE) && l.missing == 0),
    ("cut: open for write, not written", |c, l| c.changes_slot_alone(OPEN_WRITE) && l.missing > 0),
    ("cut: open for write, written", |c, l| c.changes_slot_alone(OPEN_WRITE) && l.missing == 0),
    ("cut: delete of a file without a sector, not written", |c, l| c.changes_slot_alone(DELETE) && l.missing > 0),
    ("cut: delete of a file without a sector, written", |c, l| c.changes_slot_alone(DELETE) && l.missing == 0),
    ("cut: rename, not written", |c, l| c.changes_slot_alone(RENAME) && l.missing > 0),
    ("cut: rename, written", |c, l| c.changes_slot_alone(RENAME) && l.missing == 0),
    // what is left, and what comes of it
    ("cut: the census says 0 of what is left", |_, l| l.is_between() && l.verdict == 0),
    ("cut: the census says 44 of what is left", |_, l| l.is_between() && l.verdict == 44),
    ("cut: the census says 45 of what is left", |_, l| l.is_between() && l.verdict == 45),
    ("cut: the census says 46 of what is left", |_, l| l.is_between() && l.verdict == 46),
    ("cut: as before, though sectors are written", |_, l| l.is_between() && l.files == Files::AsBefore),
    ("cut: all but the directory's are written", |_, l| l.written == Written::Others && l.is_between()),
    ("cut: all are written, the directory's last", |c, l| {
        l.written == Written::All && !c.others.is_empty() && !c.listing.is_empty()
    }),
    ("cut: while several blocks write", |c, l| l.is_between() && c.writing > 1),
    ("cut: ten files or more", |c, l| l.is_between() && c.live_files() >= 10),
    ("cut: boot sectors that are not empty", |c, l| l.is_between() && c.has_boot_sectors()),
    ("cut: the repair is cut short, too", |_, l| l.is_between() && l.resumed),
    ("cut: the work goes on after the repair", |_, l| l.morning.is_some() && l.is_between()),
    // the test can fail
    ("control: the directory first, and a file has a free sector's old bytes", |c, l| {
        l.is_directory_first(Files::Other) && c.takes()
    }),
    ("control: the directory first, and it grows by a sector that is not cleared", |c, l| {
        l.is_directory_first(Files::Other) && c.grows()
    }),
    ("control: the directory first, and the repair refuses what it grows by", |_, l| {
        l.written == Written::Twins && matches!(l.files, Files::Refused(_))
    }),
];
