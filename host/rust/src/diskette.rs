//! A diskette with its control blocks, and the file work that a host does with them.
//!
//! What does a whole job at once ([`Diskette::put`], [`Diskette::get`], ..) uses block 0 and leaves it closed; it is made of
//! the small steps of [`Steps`], which take the number of a block.

#![forbid(unsafe_code)]

use crate::layout::*;
use crate::name::Name;
use crate::refusal::Refusal;
use crate::slot::{Entry, Slot};
use crate::steps::Steps;
use crate::survey::{survey, Held};

/// The block that whole jobs use.
const JOB: usize = 0;

/// The image of a diskette and a table of eight control blocks. Its [`Steps`] end at the first refusal.
#[derive(Clone, Debug, PartialEq, Eq)]
pub struct Diskette {
    image: Vec<u8>,
    table: Vec<u8>,
}

/// What was read of a file, beside what its slot states.
#[derive(Clone, Debug, PartialEq, Eq)]
pub struct Reading {
    /// 252 bytes a sector, so the zeros that fill the last one are among them.
    pub bytes: Vec<u8>,
    /// The slot, as opening found it.
    pub entry: Entry,
    /// The sector that was read last; 0,0 if none was.
    pub last: Address,
    /// Why reading ended: 8 at the end of the chain, 9 at a bad address. None: the chain has no end.
    pub stopped: Option<Refusal>,
}

impl Diskette {
    /// All blocks are closed.
    pub fn new(image: Vec<u8>) -> Diskette {
        Diskette { image, table: vec![0; TABLE] }
    }

    /// A blank diskette of the tracks 0 to `last_track` with `per_track` sectors each; the date is month, day, year. All blocks
    /// are closed.
    ///
    /// ```
    /// # fn main() -> Result<(), Box<dyn std::error::Error>> {
    /// let mut diskette = flex::Diskette::blank(34, 10, b"ALARMS\0\0\0\0\0", 1, [11, 15, 26])?;
    /// diskette.put(&"NIGHT.TXT".parse()?, b"22:41 AMPLIFIER 14 LEVEL LOW\n", [11, 15, 26])?;
    /// assert_eq!(diskette.survey()?.iter().filter(|held| held.owner == 0).count(), 339);
    /// # Ok(())
    /// # }
    /// ```
    pub fn blank(
        last_track: usize,
        per_track: usize,
        label: &[u8; 11],
        volume: u16,
        date: [u8; 3],
    ) -> Result<Diskette, Refusal> {
        let tracks = last_track.saturating_add(1);
        let bytes = tracks.saturating_mul(per_track).saturating_mul(SECTOR);
        // No right shape has more; of a wrong one the service says 41 whatever the image is.
        let mut image = vec![0; bytes.min(LARGEST_IMAGE)];
        crate::format(&mut image, last_track, per_track, label, volume, date)?;
        Ok(Diskette::new(image))
    }

    /// An image and a table that are in use already. Panics if the table is not 2,560 bytes.
    pub fn of_buffers(image: Vec<u8>, table: Vec<u8>) -> Diskette {
        assert_eq!(table.len(), TABLE, "a table has 2,560 bytes");
        Diskette { image, table }
    }

    /// The image and the table, for calls of the entries by themselves.
    pub fn into_buffers(self) -> (Vec<u8>, Vec<u8>) {
        (self.image, self.table)
    }

    /// The image as it is now.
    pub fn image(&self) -> &[u8] {
        &self.image
    }

    /// The 320 bytes of a block. Panics over 7.
    pub fn block(&self, fcb: usize) -> &[u8] {
        &self.table[fcb * BLOCK..(fcb + 1) * BLOCK]
    }

    /// All slots of the directory in order.
    pub fn slots(&mut self) -> Result<Vec<Slot>, Refusal> {
        let mut slots = Vec::new();
        self.ask(JOB, OPEN_DIRECTORY)?;
        loop {
            match self.ask(JOB, NEXT_SLOT) {
                Ok(_) => slots.push(Slot::shown(self.block(JOB), slots.len() + 1)),
                Err(Refusal::End) => break,
                Err(refusal) => {
                    self.ask(JOB, CLOSE)?;
                    return Err(refusal);
                }
            }
        }
        self.ask(JOB, CLOSE)?;
        Ok(slots)
    }

    /// A new file of these bytes. With none it is no file: closed unwritten, it is deleted.
    ///
    /// Where it is refused after the open (7, 10), the block stays open and the slot live, and a sector that the directory has
    /// taken for it stays the directory's: throw the diskette away then, and with it what was done.
    pub fn put(&mut self, name: &Name, bytes: &[u8], date: [u8; 3]) -> Result<(), Refusal> {
        self.create(JOB, name, date)?;
        self.send(JOB, bytes)?;
        self.ask(JOB, CLOSE)?;
        Ok(())
    }

    /// All bytes of a file. On a damaged diskette they need not be what was written: look at [`Reading::is_as_stated`].
    pub fn get(&mut self, name: &Name) -> Result<Reading, Refusal> {
        self.open(JOB, name)?;
        let entry = Entry::shown(self.block(JOB));
        let mut bytes = Vec::new();
        let stopped = loop {
            // A chain has no more bytes than the diskette, unless it runs in a circle.
            if bytes.len() > self.image.len() {
                break None;
            }
            match self.call(JOB, 0) {
                Ok(byte) => bytes.push(byte),
                Err(refusal) => break Some(refusal),
            }
        };
        let last = Address::at(self.block(JOB), POSITION);
        self.ask(JOB, CLOSE)?;
        Ok(Reading { bytes, entry, last, stopped })
    }

    /// Deletes the file of this name; its sectors hang behind the free chain.
    pub fn delete(&mut self, name: &Name) -> Result<(), Refusal> {
        self.ask_of(JOB, DELETE, name)?;
        Ok(())
    }

    /// All eleven bytes of the new name are preset: byte 59 lies among them, and every open sets that to 255.
    pub fn rename(&mut self, old: &Name, new: &Name) -> Result<(), Refusal> {
        self.preset_all(JOB, NEW_NAME, new.bytes())?;
        self.ask_of(JOB, RENAME, old)?;
        Ok(())
    }

    /// The 256 bytes of a sector, a file's or not.
    pub fn sector(&mut self, address: Address) -> Result<&[u8], Refusal> {
        self.preset_all(JOB, POSITION, &[address.track, address.sector])?;
        self.ask(JOB, READ_SECTOR)?;
        Ok(&self.block(JOB)[BUFFER..])
    }

    /// Stores 256 bytes into a sector, a file's or not: a raw write, which can break the diskette. [`Diskette::survey`] tells.
    pub fn write_sector(&mut self, address: Address, bytes: &[u8; SECTOR]) -> Result<(), Refusal> {
        self.preset_all(JOB, POSITION, &[address.track, address.sector])?;
        self.preset_all(JOB, BUFFER, bytes)?;
        self.ask(JOB, WRITE_SECTOR)?;
        Ok(())
    }

    /// Stores the 24 bytes of a slot, the `number`-th from 1 on: a raw write, too. 8 where there is no such slot.
    pub fn put_slot(&mut self, number: usize, slot: &[u8; SLOT]) -> Result<(), Refusal> {
        self.ask(JOB, OPEN_DIRECTORY)?;
        let shown = (0..number).try_for_each(|_| self.ask(JOB, NEXT_SLOT).map(|_| ()));
        let put = shown.and_then(|()| self.preset_all(JOB, NAME, slot)).and_then(|()| self.ask(JOB, PUT_SLOT));
        self.ask(JOB, CLOSE)?;
        put.map(|_| ())
    }

    /// Repairs the diskette, as [`crate::repair`] says. All blocks must be closed.
    pub fn repair(&mut self) -> Result<(), Refusal> {
        crate::repair(&mut self.image, &self.table)
    }

    /// The census: which chain holds each data sector.
    pub fn survey(&self) -> Result<Vec<Held>, Refusal> {
        survey(&self.image)
    }
}

/// The entries on the diskette's own buffers. A call gives the byte read, else 0.
impl Steps for Diskette {
    type Given = u8;
    type Failure = Refusal;

    fn preset(&mut self, fcb: usize, offset: usize, value: u8) -> Result<(), Refusal> {
        crate::preset(&mut self.table, fcb, offset, value)
    }

    fn extension(&mut self, fcb: usize, code: usize) -> Result<(), Refusal> {
        crate::extension(&mut self.table, fcb, code)
    }

    fn call(&mut self, fcb: usize, byte: u8) -> Result<u8, Refusal> {
        crate::call(&mut self.image, &mut self.table, fcb, byte)
    }
}

impl Reading {
    /// How many sectors were read.
    pub fn sectors(&self) -> usize {
        self.bytes.len() / DATA
    }

    /// Whether the chain ended where the slot says, after as many sectors as it says.
    pub fn is_as_stated(&self) -> bool {
        self.stopped == Some(Refusal::End)
            && self.sectors() == self.entry.sectors as usize
            && self.last == self.entry.end
    }
}
