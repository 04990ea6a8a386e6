//! What is measured: the two services, the jobs, and the diskettes that the jobs are done on. A shape is M×S, last track by
//! sectors. Both services are called through a pointer to a function that is not inlined.

use flex::{Diskette, Name, Refusal, Steps};

type Call = fn(&mut [u8], &mut [u8], usize, u8) -> u32;
type Census = fn(&[u8], &mut [u8], &mut [u8]) -> u32;
type Format = fn(&mut [u8], usize, usize, &[u8], u16, [u8; 3]) -> u32;
type Repair = fn(&mut [u8], &[u8]) -> u32;

#[derive(Clone, Copy)]
pub struct Service {
    call: Call,
    census: Census,
    format: Format,
    repair: Repair,
}

#[inline(never)]
fn plain_call(image: &mut [u8], table: &mut [u8], fcb: usize, byte: u8) -> u32 {
    reference::call(image, table, fcb, byte)
}

#[inline(never)]
fn plain_census(image: &[u8], sectors: &mut [u8], owners: &mut [u8]) -> u32 {
    reference::census(image, sectors, owners)
}

#[inline(never)]
fn plain_format(image: &mut [u8], last: usize, per: usize, label: &[u8], volume: u16, date: [u8; 3]) -> u32 {
    reference::format(image, last, per, label, volume, date)
}

#[inline(never)]
fn plain_repair(image: &mut [u8], table: &[u8]) -> u32 {
    reference::repair(image, table)
}

#[inline(never)]
fn proved_call(image: &mut [u8], table: &mut [u8], fcb: usize, byte: u8) -> u32 {
    flex::entry::call(image, table, fcb, byte)
}

#[inline(never)]
fn proved_census(image: &[u8], sectors: &mut [u8], owners: &mut [u8]) -> u32 {
    flex::entry::census(image, sectors, owners)
}

#[inline(never)]
fn proved_format(image: &mut [u8], last: usize, per: usize, label: &[u8], volume: u16, date: [u8; 3]) -> u32 {
    flex::entry::format(image, last, per, label, volume, date)
}

#[inline(never)]
fn proved_repair(image: &mut [u8], table: &[u8]) -> u32 {
    flex::entry::repair(image, table)
}

pub const PLAIN: Service =
    Service { call: plain_call, census: plain_census, format: plain_format, repair: plain_repair };
pub const PROVED: Service =
    Service { call: proved_call, census: proved_census, format: proved_format, repair: proved_repair };

/// An image and a table.
pub type Buffers = (Vec<u8>, Vec<u8>);

impl Service {
    /// Sends bytes that count up until no sector is left; how many were taken.
    pub fn fill(&self, (image, table): &mut Buffers) -> usize {
        let mut sent = 0usize;
        while (self.call)(image, table, 0, sent as u8) == 0 {
            sent += 1;
        }
        sent
    }

    /// Reads as long as they count up; how many did.
    pub fn read(&self, (image, table): &mut Buffers) -> usize {
        let mut fetched = 0usize;
        while (self.call)(image, table, 0, 0) == fetched as u32 % 256 {
            fetched += 1;
        }
        fetched
    }

    /// Loads the data sectors in order, as long as the last byte of each is the one that filling left there; how many were.
    pub fn load(&self, (image, table): &mut Buffers, sectors: &[[u8; 2]]) -> usize {
        let is_loaded = |(n, address): (usize, &[u8; 2])| {
            table[flex::POSITION..flex::POSITION + 2].copy_from_slice(address);
            (self.call)(image, table, 0, 0) == 0 && table[flex::BUFFER + 255] == (n * flex::DATA + 251) as u8
        };
        sectors.iter().enumerate().map(is_loaded).take_while(|&done| done).count()
    }

    /// Stores the buffer into the data sectors in order, by the byte that fills it; how many have that byte at their end.
    pub fn store(&self, (image, table): &mut Buffers, sectors: &[[u8; 2]]) -> usize {
        let first = image.len() - sectors.len() * flex::SECTOR;
        let is_stored = |(n, address): (usize, &[u8; 2])| {
            table[flex::POSITION..flex::POSITION + 2].copy_from_slice(address);
            table[flex::INDEX] = 255;
            (self.call)(image, table, 0, !n as u8) == 0 && image[first + n * flex::SECTOR + 255] == !n as u8
        };
        sectors.iter().enumerate().map(is_stored).take_while(|&done| done).count()
    }

    /// Writes the buffer into the data sectors in order, by write sector; how many have its last byte at their end.
    pub fn write(&self, (image, table): &mut Buffers, sectors: &[[u8; 2]]) -> usize {
        let first = image.len() - sectors.len() * flex::SECTOR;
        let is_written = |(n, address): (usize, &[u8; 2])| {
            table[flex::POSITION..flex::POSITION + 2].copy_from_slice(address);
            table[flex::BUFFER + 255] = !n as u8;
            (self.call)(image, table, 0, 0) == 0 && image[first + n * flex::SECTOR + 255] == !n as u8
        };
        sectors.iter().enumerate().map(is_written).take_while(|&done| done).count()
    }

    /// Opens a file for read in each table; how many were.
    pub fn open_all(&self, image: &mut [u8], tables: &mut [Vec<u8>]) -> usize {
        tables.iter_mut().map(|table| (self.call)(image, table, 0, 0)).filter(|&answer| answer == 0).count()
    }

    /// Takes the census of a diskette that has to be sound.
    pub fn survey(&self, image: &[u8], [sectors, owners]: &mut [Vec<u8>; 2]) {
        assert_eq!((self.census)(image, sectors, owners), 0, "the census refused");
    }

    /// Fills an image of the right length with a blank diskette; how many data sectors it then has, by the count of free ones.
    pub fn format(&self, image: &mut [u8], last: usize, per: usize) -> usize {
        assert_eq!((self.format)(image, last, per, b"MEASUREMENT", 1, DATE), 0, "format refused");
        free_sectors(image)
    }

    /// Repairs a diskette; how many sectors are free then.
    pub fn repair(&self, image: &mut [u8]) -> usize {
        assert_eq!((self.repair)(image, &[0; flex::TABLE]), 0, "repair refused");
        free_sectors(image)
    }
}

/// Where the information record states first free, last free, and how many sectors are free.
const FREE: usize = 2 * flex::SECTOR + 29;
const FREE_COUNT: usize = FREE + 4;

fn free_sectors(image: &[u8]) -> usize {
    u16::from_be_bytes([image[FREE_COUNT], image[FREE_COUNT + 1]]) as usize
}

const DATE: [u8; 3] = [12, 3, 81];

/// Each block has a name of its own.
fn name(fcb: usize) -> Name {
    let mut name = *b"FILE-A\0\0DAT";
    name[5] += fcb as u8;
    Name::of(name)
}

/// The buffers after some work that is not measured, done by the proved service for both.
fn worked((image, table): Buffers, work: impl FnOnce(&mut Diskette) -> Result<u8, Refusal>) -> Buffers {
    let mut diskette = Diskette::of_buffers(image, table);
    work(&mut diskette).expect("a blank diskette takes files");
    diskette.into_buffers()
}

fn blank(last: usize, per: usize) -> Buffers {
    (diskettes::blank(last, per), vec![0; flex::TABLE])
}

/// A blank diskette with a file open for write in block 0.
pub fn to_fill(last: usize, per: usize) -> Buffers {
    worked(blank(last, per), |diskette| diskette.create(0, &name(0), DATE))
}

/// That file, written by now, open for read.
pub fn to_read(filled: Buffers) -> Buffers {
    worked(filled, |diskette| {
        diskette.ask(0, flex::CLOSE)?;
        diskette.open(0, &name(0))
    })
}

/// That file, written or read by now, closed, and read sector chosen.
pub fn to_load(used: Buffers) -> Buffers {
    worked(used, |diskette| {
        diskette.ask(0, flex::CLOSE)?;
        diskette.choose(0, flex::READ_SECTOR).map(|()| 0)
    })
}

/// A blank diskette with all blocks closed, and write sector chosen.
pub fn to_write(last: usize, per: usize) -> Buffers {
    worked(blank(last, per), |diskette| diskette.choose(0, flex::WRITE_SECTOR).map(|()| 0))
}

/// The addresses of the data sectors, in order.
pub fn data_sectors(last: usize, per: usize) -> Vec<[u8; 2]> {
    let track = |track: usize| (1..=per).map(move |sector| [track as u8, sector as u8]);
    (1..=last).flat_map(track).collect()
}

/// How many files the half-full diskette has.
pub fn files(last: usize, per: usize) -> usize {
    flex::BLOCKS.min(last * per / 2)
}

/// The image of a diskette with eight files written at the same time, so that their sectors alternate, until half of it is in
/// use. Those that got no sector are deleted by their close.
pub fn half_full(last: usize, per: usize) -> Vec<u8> {
    let bytes: Vec<u8> = (0..flex::DATA as u8).collect();
    let work = |diskette: &mut Diskette| {
        for fcb in 0..flex::BLOCKS {
            diskette.create(fcb, &name(fcb), DATE)?;
        }
        for sector in 0..last * per / 2 {
            diskette.send(sector % flex::BLOCKS, &bytes)?;
        }
        (0..flex::BLOCKS).try_fold(0, |_, fcb| diskette.ask(fcb, flex::CLOSE))
    };
    worked(blank(last, per), work).0
}

/// The `n`-th of many files.
fn numbered(n: usize) -> Name {
    let mut name = *b"FILE\0\0\0\0DAT";
    name[4..8].copy_from_slice(format!("{:04}", n).as_bytes());
    Name::of(name)
}

/// The image of a diskette with this many files of one sector: where track 0 has no slot left, the directory takes sectors.
pub fn with_files(last: usize, per: usize, files: usize) -> Vec<u8> {
    let work = |diskette: &mut Diskette| {
        (0..files).try_for_each(|n| diskette.put(&numbered(n), &[n as u8], DATE))?;
        Ok(0)
    };
    worked(blank(last, per), work).0
}

/// How many files of a diskette with many are opened.
pub const OPENED: usize = 10;

/// The same image, and a table for each of ten files, evenly spread over the directory, the last one among them: its name stands in
/// block 0, and the next call opens it for read.
pub fn to_open(last: usize, per: usize, files: usize) -> (Vec<u8>, Vec<Vec<u8>>) {
    let table = |i: usize| {
        let mut diskette = Diskette::new(Vec::new());
        let name = numbered((i + 1) * files / OPENED - 1);
        diskette.name(0, &name).and_then(|()| diskette.choose(0, flex::OPEN_READ)).expect("block 0 is closed");
        diskette.into_buffers().1
    };
    (with_files(last, per, files), (0..OPENED).map(table).collect())
}

/// An image to format, all of it zero.
pub fn to_format(last: usize, per: usize) -> Vec<u8> {
    vec![0; (last + 1) * per * flex::SECTOR]
}

/// The same diskette with a free chain that begins in a file and one sector too many in the first file, and how many sectors will be
/// free again: all that were.
pub fn to_repair(mut image: Vec<u8>) -> (Vec<u8>, usize) {
    const FIRST_SLOT: usize = 4 * flex::SECTOR + 16;
    let free = free_sectors(&image);
    let start = FIRST_SLOT + flex::START - flex::NAME;
    image.copy_within(start..start + 2, FREE);
    image[FIRST_SLOT + flex::SIZE - flex::NAME + 1] += 1;
    (image, free)
}

/// The two outputs of a census.
pub fn outputs(data_sectors: usize) -> [Vec<u8>; 2] {
    [vec![0; 2 * data_sectors], vec![0; 2 * data_sectors]]
}
