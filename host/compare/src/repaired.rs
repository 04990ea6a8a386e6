//! A repair as the test looks at it: what it knows of the diskette before, by a reading of 02 of its own, what must be so
//! afterwards, whatever the two services agree on, and the situations that must occur.

use crate::image::{address, has_twins, is_live, word, Address, Directory, Ends, Shape, NONE};
use crate::random::Random;
use crate::scene::SLOT_MAP as MAP;
use flex::{Held, Refusal, ACTIVITY, BLOCK, OWNER_FREE, SECTOR, SLOT, TABLE};

/// Where a slot has its start; end, size and byte 23 follow, all in one store.
const START: usize = 13;
const END: usize = 15;
const SIZE: usize = 17;
const RECORD: std::ops::Range<usize> = START..MAP + 1;

/// First free, last free and free count in the image.
pub const FREE: std::ops::Range<usize> = 541..547;

/// Why a file keeps so much of its chain and no more.
#[derive(Clone, Copy, PartialEq)]
enum Stop {
    /// It has what it states.
    Full,
    /// The link 0,0 comes before that.
    Early,
    /// An address that is no data sector.
    Astray(Address),
    /// A sector that the directory has taken; that the file has kept itself; that an earlier one has.
    Directory,
    Itself,
    Earlier,
}

/// A live file before the repair.
struct File {
    slot: usize,
    number: u16,
    start: Address,
    end: Address,
    stated: usize,
    map: u8,
    /// As many data sectors as its links give, at most those that it states and those that there are.
    chain: Vec<Address>,
    /// What the last of them links to.
    next: Address,
    /// How many of them it keeps, and why no more.
    kept: usize,
    stop: Stop,
}

/// Looked at before a repair.
pub struct Repaired {
    image: Vec<u8>,
    table: Vec<u8>,
    shape: Option<Shape>,
    directory: Directory,
    twins: bool,
    /// The census's answer before.
    verdict: u32,
    files: Vec<File>,
}

impl Repaired {
    pub fn before(image: &[u8], table: &[u8]) -> Repaired {
        let shape = Shape::of(image);
        let directory = shape.map_or_else(Directory::none, |shape| Directory::of(image, shape));
        let is_right = directory.ends == Ends::Right;
        Repaired {
            image: image.to_vec(),
            table: table.to_vec(),
            twins: has_twins(image, &directory),
            verdict: flex::survey(image).map_or_else(|refusal| refusal.number() as u32, |_| 0),
            files: shape.filter(|_| is_right).map_or(Vec::new(), |shape| files(image, shape, &directory)),
            shape,
            directory,
        }
    }

    /// What is wrong with an accepted repair, whatever the reference says: the census must accept its image, a second repair and
    /// one that was broken off and made again must give the same, the free chain must rise, every file must have a start of its
    /// chain, a sound one all of it, and no other byte may have changed.
    pub fn fault(&self, after: &[u8], random: &mut Random) -> Option<String> {
        let shape = self.shape?;
        let held = match flex::survey(after) {
            Ok(held) => held,
            Err(refusal) => return Some(format!("the census refuses what was repaired: {}", refusal)),
        };
        let again = mended(after);
        if again.as_deref() != Ok(after) {
            return Some("a second repair is refused or changes something".to_string());
        }
        if let Some(at) = self.strayed(shape, after) {
            return Some(format!("byte {} has changed and must not", at));
        }
        if !rises(&held) {
            return Some("the free chain does not rise".to_string());
        }
        let file = self.files.iter().find_map(|file| self.wronged(shape, file, after, &held));
        file.or_else(|| self.not_resumed(after, random))
    }

    /// The first byte that differs and is neither of a live slot's record, of a data sector's link, nor of the free chain's record.
    /// The links of the directory's own sectors stay.
    fn strayed(&self, shape: Shape, after: &[u8]) -> Option<usize> {
        let may_change = |at: usize| {
            let sector = shape.address(at / SECTOR);
            let is_link = at % SECTOR < 2 && shape.is_data(sector) && !self.directory.sectors.contains(&sector);
            let is_record = |file: &File| at >= file.slot && RECORD.contains(&(at - file.slot));
            FREE.contains(&at) || is_link || self.files.iter().any(is_record)
        };
        (0..after.len()).find(|&at| self.image[at] != after[at] && !may_change(at))
    }

    /// What is wrong with a file afterwards.
    fn wronged(&self, shape: Shape, file: &File, after: &[u8], held: &[Held]) -> Option<String> {
        let number = |at: &Address| shape.number(*at);
        let has: Vec<u16> = held.iter().filter(|held| held.owner == file.number).map(|held| held.sector).collect();
        let kept: Vec<u16> = file.chain[..file.kept].iter().map(number).collect();
        if has != kept {
            return Some(format!("slot {} has the sectors {:?} and not {:?}", file.number, has, kept));
        }
        let map = if file.kept < file.stated { 0 } else { file.map };
        if after[file.slot + MAP] != map {
            return Some(format!("slot {}: byte 23 is {} and not {}", file.number, after[file.slot + MAP], map));
        }
        let same = |from: usize, bytes: usize| self.image[from..from + bytes] == after[from..from + bytes];
        let is_whole = same(file.slot, SLOT) && file.chain.iter().all(|&at| same(shape.offset(at), SECTOR));
        if self.must_be_spared(shape, file, held) && !is_whole {
            return Some(format!("slot {} is a sound file and does not have every byte", file.number));
        }
        None
    }

    /// A file that is rightly chained, and of whose sectors neither the directory nor an earlier file, by the census afterwards, has one;
    /// or which shares none, as far as all files' links lead.
    fn must_be_spared(&self, shape: Shape, file: &File, held: &[Held]) -> bool {
        let is_directorys = file.chain.iter().any(|at| self.directory.sectors.contains(at));
        let is_mine = |number: u16| file.chain.iter().any(|&at| shape.number(at) == number);
        let lost = held.iter().any(|held| held.owner != OWNER_FREE && held.owner < file.number && is_mine(held.sector));
        let others = self.files.iter().filter(|other| other.number != file.number);
        let shares = others.flat_map(|other| &other.chain).any(|at| file.chain.contains(at));
        file.is_right() && !is_directorys && (!lost || !shares)
    }

    /// A repair that is broken off after some of its stores, up to three times, and then made whole; and one of which any of the
    /// stores were made, as a host's sectors come to a card in any order.
    fn not_resumed(&self, after: &[u8], random: &mut Random) -> Option<String> {
        let all = match reference::repair_stores(&self.image, &[0; TABLE]) {
            Ok(all) => all,
            Err(_) => return Some("the reference would not repair it".to_string()),
        };
        if all.iter().any(|(at, bytes)| at / SECTOR != (at + bytes.len() - 1) / SECTOR) {
            return Some("a store of the reference goes over the end of a sector".to_string());
        }
        let few = all.len() <= 30;
        let cuts: Vec<usize> =
            if few { (0..=all.len()).collect() } else { (0..6).map(|_| random.below(all.len() + 1)).collect() };
        for cut in cuts {
            let mut image = self.image.clone();
            store(&mut image, &all[..cut]);
            for _ in 0..random.below(3) {
                let rest = reference::repair_stores(&image, &[0; TABLE]).unwrap_or_default();
                store(&mut image, &rest[..random.below(rest.len() + 1)]);
            }
            if mended(&image).as_deref() != Ok(after) {
                return Some(format!("broken off after {} of {} stores, a repair gives another image", cut, all.len()));
            }
        }
        let mut image = self.image.clone();
        let some: Vec<Store> = all.into_iter().filter(|_| random.chance(50)).collect();
        store(&mut image, &some);
        (mended(&image).as_deref() != Ok(after)).then(|| "some stores made, a repair gives another image".to_string())
    }

    fn activities(&self) -> impl Iterator<Item = u8> + '_ {
        self.table.chunks(BLOCK).filter_map(|block| block.get(ACTIVITY).copied())
    }

    /// Of the blocks just this one is not closed.
    fn alone_open(&self, fcb: usize) -> bool {
        self.activities().enumerate().all(|(i, activity)| (activity != 0) == (i == fcb))
    }

    fn any(&self, met: impl Fn(&File) -> bool) -> bool {
        self.files.iter().any(met)
    }

    /// Some file stops so.
    fn stops(&self, stop: Stop) -> bool {
        self.any(|file| file.stop == stop)
    }

    /// How many sectors are kept.
    fn kept(&self) -> usize {
        self.files.iter().map(|file| file.kept).sum()
    }

    /// How many sectors files and free chain state.
    fn stated(&self) -> usize {
        let files: usize = self.files.iter().map(|file| file.stated).sum();
        files + word(&self.image, FREE.start + 4) as usize
    }

    fn data_sectors(&self) -> usize {
        self.shape.map_or(0, |shape| shape.last as usize * shape.per as usize)
    }

    fn first_free(&self) -> Address {
        address(&self.image, FREE.start)
    }
}

impl File {
    /// 01: "it has that many data sectors by links, the last is the stated end and links to 0,0; count 0 has both addresses 0,0".
    fn is_right(&self) -> bool {
        let ends = (self.chain.last().copied().unwrap_or(NONE), self.next);
        self.chain.len() == self.stated && ends == (self.end, NONE)
    }

    /// Rightly chained, and yet an earlier file has a sector of it.
    fn is_wronged(&self) -> bool {
        self.is_right() && self.stop == Stop::Earlier
    }

    fn is_cut(&self) -> bool {
        self.kept < self.stated
    }
}

type Store = (usize, Vec<u8>);

fn store(image: &mut [u8], stores: &[Store]) {
    for (at, bytes) in stores {
        image[*at..at + bytes.len()].copy_from_slice(bytes);
    }
}

/// What the archive makes of a copy of it.
pub fn mended(image: &[u8]) -> Result<Vec<u8>, Refusal> {
    let mut image = image.to_vec();
    flex::repair(&mut image, &[0; TABLE])?;
    Ok(image)
}

fn rises(held: &[Held]) -> bool {
    let free: Vec<u16> = held.iter().filter(|held| held.owner == OWNER_FREE).map(|held| held.sector).collect();
    free.windows(2).all(|pair| pair[0] < pair[1])
}

/// The live files of a right directory, in the order of their slots, each with what it keeps.
fn files(image: &[u8], shape: Shape, directory: &Directory) -> Vec<File> {
    let mut kept: Vec<Address> = Vec::new();
    let mut files = Vec::new();
    for (i, &slot) in directory.slots.iter().enumerate().filter(|(_, &slot)| is_live(image, slot)) {
        let file = file(image, shape, directory, &kept, slot, i as u16 + 1);
        kept.extend(&file.chain[..file.kept]);
        files.push(file);
    }
    files
}

fn file(image: &[u8], shape: Shape, directory: &Directory, before: &[Address], slot: usize, number: u16) -> File {
    let (start, stated) = (address(image, slot + START), word(image, slot + SIZE) as usize);
    let most = stated.min(shape.data_sectors());
    let mut chain = Vec::new();
    let mut next = start;
    while chain.len() < most && shape.is_data(next) {
        chain.push(next);
        next = address(image, shape.offset(next));
    }
    let halts = |i: usize| match chain[i] {
        at if directory.sectors.contains(&at) => Some(Stop::Directory),
        at if before.contains(&at) => Some(Stop::Earlier),
        at if chain[..i].contains(&at) => Some(Stop::Itself),
        _ => None,
    };
    let halted = (0..chain.len()).find_map(|i| halts(i).map(|stop| (i, stop)));
    let at_end = match next {
        _ if chain.len() == stated => Stop::Full,
        NONE => Stop::Early,
        astray => Stop::Astray(astray),
    };
    let (kept, stop) = halted.unwrap_or((chain.len(), at_end));
    File {
        slot,
        number,
        start,
        end: address(image, slot + END),
        stated,
        map: image[slot + MAP],
        chain,
        next,
        kept,
        stop,
    }
}

type MetByRepair = fn(&Repaired, u32) -> bool;

/// Situations of repair, each with its test. All must occur.
pub const REPAIR_SITUATIONS: &[(&str, MetByRepair)] = &[
    ("repair: 13 for a table of no bytes", |r, answer| answer == 13 && r.table.is_empty()),
    ("repair: 13 for a table one byte short", |r, answer| answer == 13 && r.table.len() == TABLE - 1),
    ("repair: 13 for a table one byte long", |r, answer| answer == 13 && r.table.len() == TABLE + 1),
    ("repair: 13 for a table of seven blocks", |r, answer| answer == 13 && r.table.len() == TABLE - BLOCK),
    ("repair: 13 and not 2", |r, answer| answer == 13 && r.activities().any(|activity| activity != 0)),
    ("repair: 13 and not 41", |r, answer| answer == 13 && r.shape.is_none()),
    ("repair: 13 where all else is right", |r, answer| answer == 13 && [0, 44, 45, 46].contains(&r.verdict)),
    ("repair: 2 for block 0 alone", |r, answer| answer == 2 && r.alone_open(0)),
    ("repair: 2 for block 7 alone", |r, answer| answer == 2 && r.alone_open(7)),
    ("repair: 2 for reading alone", |r, answer| answer == 2 && r.activities().all(|activity| activity < 2)),
    ("repair: 2 for writing", |r, answer| answer == 2 && r.activities().any(|activity| activity == 2)),
    ("repair: 2 for the directory alone", |r, answer| answer == 2 && r.activities().all(|activity| activity % 16 == 0)),
    ("repair: 2 for an activity that no call sets", |r, answer| {
        answer == 2 && r.activities().all(|activity| ![1, 2, 16].contains(&activity))
    }),
    ("repair: 2 and not 41", |r, answer| answer == 2 && r.shape.is_none()),
    ("repair: 2 and not 42", |r, answer| answer == 2 && r.verdict == 42),
    ("repair: 2 of a sound diskette", |r, answer| answer == 2 && r.verdict == 0),
    ("repair: 41 for an image of no bytes", |r, answer| answer == 41 && r.image.is_empty()),
    ("repair: 41 for an image of 551 bytes", |r, answer| answer == 41 && r.image.len() == 551),
    ("repair: 41 for a sector too much", |r, answer| {
        answer == 41 && r.image.len() % SECTOR == 0 && r.image.len() > 552
    }),
    ("repair: 42 for a circle", |r, answer| answer == 42 && r.directory.ends == Ends::Never),
    ("repair: 42 for a circle through data sectors", |r, answer| {
        answer == 42 && r.directory.ends == Ends::Never && r.directory.taken() > 0
    }),
    ("repair: 42 for a link astray", |r, answer| answer == 42 && r.directory.ends == Ends::Astray),
    ("repair: 42 and not 43", |r, answer| answer == 42 && r.twins),
    ("repair: 43", |r, answer| answer == 43 && r.twins),
    ("repair: 43 with a directory that has grown", |r, answer| answer == 43 && r.directory.taken() > 0),
    ("repair: of a sound diskette", |r, answer| answer == 0 && r.verdict == 0 && !r.files.is_empty()),
    ("repair: of a sound diskette whose free chain does not rise", |r, answer| {
        answer == 0 && r.verdict == 0 && r.first_free() != NONE && r.first_free() > address(&r.image, FREE.start + 2)
    }),
    ("repair: of a diskette without files", |r, answer| answer == 0 && r.files.is_empty()),
    ("repair: where the census says 44", |r, answer| answer == 0 && r.verdict == 44),
    ("repair: where the census says 45", |r, answer| answer == 0 && r.verdict == 45),
    ("repair: where the census says 46", |r, answer| answer == 0 && r.verdict == 46),
    ("repair: a file shares a sector with an earlier one", |r, answer| answer == 0 && r.stops(Stop::Earlier)),
    ("repair: two files are wholly one", |r, answer| {
        let shares = |file: &File| file.stop == Stop::Earlier && file.kept == 0 && file.stated > 1;
        answer == 0
            && r.any(|file| shares(file) && r.any(|other| other.start == file.start && other.kept == file.stated))
    }),
    ("repair: a file that is rightly chained is cut for an earlier one", |r, answer| {
        answer == 0 && r.any(File::is_wronged)
    }),
    ("repair: a file leads back to itself", |r, answer| answer == 0 && r.stops(Stop::Itself)),
    ("repair: a sector links to itself", |r, answer| {
        answer == 0 && r.any(|file| file.stop == Stop::Itself && file.kept == 1)
    }),
    ("repair: a file ends early", |r, answer| answer == 0 && r.any(|file| file.stop == Stop::Early && file.kept > 0)),
    ("repair: a link off the diskette", |r, answer| {
        answer == 0 && r.any(|file| matches!(file.stop, Stop::Astray((track, _)) if track > 0) && file.kept > 0)
    }),
    ("repair: a link to track 0", |r, answer| {
        answer == 0 && r.any(|file| matches!(file.stop, Stop::Astray((0, _))) && file.kept > 0)
    }),
    ("repair: a start off the diskette", |r, answer| {
        answer == 0 && r.any(|file| matches!(file.stop, Stop::Astray((track, _)) if track > 0) && file.kept == 0)
    }),
    ("repair: a start in the directory's sectors of track 0", |r, answer| {
        answer == 0 && r.any(|file| file.stated > 0 && r.directory.sectors.contains(&file.start) && file.start.0 == 0)
    }),
    ("repair: a start in a sector that the directory has taken", |r, answer| {
        answer == 0 && r.any(|file| file.stop == Stop::Directory && file.kept == 0)
    }),
    ("repair: a link to a sector that the directory has taken", |r, answer| {
        answer == 0 && r.any(|file| file.stop == Stop::Directory && file.kept > 0)
    }),
    ("repair: a start 0,0 with a size", |r, answer| answer == 0 && r.any(|file| file.start == NONE && file.stated > 0)),
    ("repair: size 0 with addresses", |r, answer| {
        answer == 0 && r.any(|file| file.stated == 0 && file.start != NONE && file.end != NONE)
    }),
    ("repair: size 65,535", |r, answer| answer == 0 && r.any(|file| file.stated == 65_535 && file.kept > 0)),
    ("repair: more stated than there are data sectors", |r, answer| {
        answer == 0 && r.any(|file| file.stated > r.data_sectors() && file.kept > 0)
    }),
    ("repair: a chain longer than stated", |r, answer| {
        answer == 0 && r.any(|file| file.stop == Stop::Full && file.next != NONE && file.stated > 0)
    }),
    ("repair: a chain longer than stated, with byte 23", |r, answer| {
        answer == 0 && r.any(|file| file.stop == Stop::Full && file.next != NONE && file.stated > 0 && file.map != 0)
    }),
    ("repair: another end than is stated", |r, answer| {
        answer == 0 && r.any(|file| !file.is_cut() && file.kept > 0 && file.chain[file.kept - 1] != file.end)
    }),
    ("repair: byte 23 of a file that is cut", |r, answer| answer == 0 && r.any(|file| file.is_cut() && file.map != 0)),
    ("repair: byte 23 of a file that keeps nothing", |r, answer| {
        answer == 0 && r.any(|file| file.is_cut() && file.kept == 0 && file.map != 0)
    }),
    ("repair: byte 23 of a file that keeps all", |r, answer| {
        answer == 0 && r.any(|file| !file.is_cut() && file.map != 0 && file.kept > 0)
    }),
    ("repair: byte 23 of a file of size 0", |r, answer| answer == 0 && r.any(|file| file.stated == 0 && file.map != 0)),
    ("repair: sectors are found again", |r, answer| {
        answer == 0 && r.verdict == 46 && r.stated() + r.directory.taken() < r.data_sectors()
    }),
    ("repair: the free chain begins in a file", |r, answer| {
        answer == 0 && r.any(|file| file.chain[..file.kept].contains(&r.first_free()))
    }),
    ("repair: the free chain begins in the directory", |r, answer| {
        answer == 0 && r.first_free().0 > 0 && r.directory.sectors.contains(&r.first_free())
    }),
    ("repair: no sector is left free", |r, answer| {
        answer == 0 && r.kept() + r.directory.taken() == r.data_sectors() && r.verdict != 0
    }),
    ("repair: no file keeps anything", |r, answer| answer == 0 && r.kept() == 0 && r.any(|file| file.stated > 0)),
    ("repair: a directory that has grown", |r, answer| answer == 0 && r.directory.taken() == 1 && r.verdict != 0),
    ("repair: a directory that has grown twice or more", |r, answer| {
        answer == 0 && r.directory.taken() > 1 && r.verdict != 0
    }),
    ("repair: a file cut whose slot is in a sector that the directory has taken", |r, answer| {
        let is_taken = |file: &File| r.shape.map_or(false, |shape| shape.place(file.slot)[0] > 0);
        answer == 0 && r.any(|file| is_taken(file) && file.is_cut() && file.kept > 0)
    }),
    ("repair: a live slot behind a never-used one", |r, answer| {
        let mut behind = r.directory.slots.iter().skip_while(|&&slot| r.image[slot] != 0);
        answer == 0 && r.verdict != 0 && behind.any(|&slot| is_live(&r.image, slot))
    }),
    ("repair: the smallest diskette", |r, answer| answer == 0 && r.verdict != 0 && r.data_sectors() == 5),
    ("repair: the largest diskette", |r, answer| answer == 0 && r.verdict != 0 && r.data_sectors() == 79 * 36),
    ("repair: over a hundred files", |r, answer| answer == 0 && r.verdict != 0 && r.files.len() > 100),
];
