//! What a host does: files written, read, deleted and renamed, the directory walked, the diskette formatted and repaired, sectors and
//! slots written raw, and calls with wrong lengths and numbers.

use crate::image::is_live;
use crate::pair::Checked;
use crate::random::Random;
use crate::scene::{Scene, IDLE, SLOT_ATTRIBUTES};
use crate::wanted::{no_last_tracks, no_per_tracks, Wanted, LABEL, NO_LABELS};
use flex::{
    Steps, ACTIVITY, ATTRIBUTES, BLOCK, BLOCKS, BUFFER, CLOSE, DELETE, DRIVE, END, EXTENSION, FUNCTION, NAME, NEW_NAME,
    NEXT_SLOT, OPEN_DIRECTORY, OPEN_WRITE, POSITION, PUT_SLOT, READ_SECTOR, RENAME, REWIND, SECTOR, SIZE, START, TABLE,
    WRITE_SECTOR,
};

/// Numbers of blocks that do not exist; some of them times 320 wrap around to a small number.
const NO_BLOCKS: [usize; 7] = [8, 9, 255, 256, usize::MAX, usize::MAX / BLOCK + 1, 1 << 32];

/// The functions that write raw.
const RAW: [u8; 2] = [PUT_SLOT, WRITE_SECTOR];

/// Offsets and codes past every limit.
const PAST: [usize; 6] = [320, 65536, 1 << 32, (1 << 32) + 4, usize::MAX, usize::MAX - BLOCK + 1];

impl Scene<'_> {
    /// One thing that a host would do.
    pub fn work(&mut self) -> Checked<()> {
        match self.random.below(40) {
            0..=5 => self.write_file(),
            6..=8 => self.write_on(),
            9..=12 => self.read_file(),
            13..=14 => self.read_on(),
            15..=17 => self.delete_file(),
            18..=20 => self.rename_file(),
            21 => self.walk_directory(),
            22 => self.read_sector(),
            23..=24 => self.survey(),
            25..=26 => self.close(),
            27 => self.rewind(),
            28 => self.fill(),
            29 => self.fiddle(),
            30..=31 => self.any_function(),
            32 => self.leave_holes(),
            33 => self.protect(),
            34 => self.begin_anew(),
            35 => self.wrong_lengths(),
            36 => self.tidy(),
            _ => self.crowd(),
        }
    }

    /// The same where the power can fail in any call: on a sound diskette, which calls alone have changed.
    pub fn work_by_night(&mut self) -> Checked<()> {
        let cuts = Random::new(self.random.next());
        self.pair.cut_calls(Some(cuts));
        let done = self.work();
        self.pair.cut_calls(None);
        done
    }

    fn write_file(&mut self) -> Checked<()> {
        let fcb = self.block_with(IDLE);
        let name = self.any_name();
        let date = [self.random.byte(), self.random.byte(), self.random.byte()];
        if self.create(fcb, &name, date)? != 0 || self.random.chance(15) {
            return Ok(());
        }
        if self.random.chance(90) {
            let n = self.burst();
            self.transfer(fcb, n)?;
        }
        if self.random.chance(70) {
            self.ask(fcb, CLOSE)?;
        }
        Ok(())
    }

    /// Deleted slots become never-used ones: so another maker's formatter leaves them between live ones.
    fn leave_holes(&mut self) -> Checked<()> {
        for slot in self.slots() {
            if self.pair.image()[slot] >= 128 && self.random.chance(50) {
                self.pair.poke_image(slot, &[0; 24]);
            }
        }
        Ok(())
    }

    /// Sites protect files, by means of their own: attributes that no call sets. Mostly none are left, or soon no file could be read.
    fn protect(&mut self) -> Checked<()> {
        for slot in self.live_slots() {
            let attributes = self.random.one_of(&[0, 0, 0, 16, 32, 64, 96, 128, 160, 192, 224]);
            self.pair.poke_image(slot + SLOT_ATTRIBUTES, &[attributes]);
        }
        Ok(())
    }

    fn write_on(&mut self) -> Checked<()> {
        let fcb = self.block_with(&[2]);
        let n = self.burst();
        self.transfer(fcb, n)
    }

    fn read_file(&mut self) -> Checked<()> {
        let fcb = self.block_with(IDLE);
        let name = self.any_name();
        if self.open(fcb, &name)? == 0 && self.random.chance(80) {
            let n = self.burst();
            self.transfer(fcb, n)?;
        }
        if self.random.chance(50) {
            self.ask(fcb, CLOSE)?;
        }
        Ok(())
    }

    fn read_on(&mut self) -> Checked<()> {
        let fcb = self.block_with(&[1]);
        let n = self.burst();
        self.transfer(fcb, n)
    }

    fn delete_file(&mut self) -> Checked<()> {
        let fcb = self.block_with(IDLE);
        let name = self.any_name();
        self.ask_of(fcb, DELETE, &name)?;
        Ok(())
    }

    fn rename_file(&mut self) -> Checked<()> {
        let fcb = self.block_with(IDLE);
        let old = self.any_name();
        let new = if self.random.chance(20) { old } else { self.any_name() };
        if self.random.chance(90) {
            self.preset_all(fcb, NEW_NAME, new.bytes())?;
        }
        self.ask_of(fcb, RENAME, &old)?;
        Ok(())
    }

    /// From the first slot or from where the block is, some slots or all of them.
    fn walk_directory(&mut self) -> Checked<()> {
        let fcb = self.block_with(IDLE);
        if self.activity(fcb) != 16 || self.random.chance(50) {
            self.ask(fcb, OPEN_DIRECTORY)?;
        }
        let most = if self.random.chance(30) { 10 * self.per } else { self.random.between(1, 12) };
        for _ in 0..most {
            if self.ask(fcb, NEXT_SLOT)? != 0 {
                break;
            }
        }
        if self.random.chance(40) {
            self.ask(fcb, CLOSE)?;
        }
        Ok(())
    }

    fn read_sector(&mut self) -> Checked<()> {
        let fcb = self.block_with(IDLE);
        let address = self.any_address();
        self.preset_all(fcb, POSITION, &[address.0, address.1])?;
        self.ask(fcb, READ_SECTOR)?;
        Ok(())
    }

    /// The census, sometimes with an image or outputs of wrong lengths.
    pub fn survey(&mut self) -> Checked<()> {
        self.census()?;
        if self.random.chance(30) {
            let right = 2 * self.last * self.per;
            let lengths = [right, right - 1, right + 1, right - 2, right + 2, right / 2, 0, 1];
            let (sectors, owners) = (self.random.one_of(&lengths), self.random.one_of(&lengths));
            let image = self.image_length();
            let filler = self.random.byte();
            self.pair.census_lent(image, sectors, owners, filler)?;
        }
        Ok(())
    }

    fn close(&mut self) -> Checked<()> {
        let fcb = self.block_with(&[1, 2, 16]);
        self.ask(fcb, CLOSE)?;
        Ok(())
    }

    fn rewind(&mut self) -> Checked<()> {
        let fcb = self.block_with(&[1]);
        if self.ask(fcb, REWIND)? == 0 {
            let n = self.burst();
            self.transfer(fcb, n)?;
        }
        Ok(())
    }

    /// A format that is refused, or one that a host asks for as it should: after it has closed all blocks.
    fn begin_anew(&mut self) -> Checked<()> {
        if self.random.chance(60) {
            return self.wrong_format();
        }
        self.close_all()?;
        self.format()
    }

    fn close_all(&mut self) -> Checked<()> {
        for fcb in 0..BLOCKS {
            if self.activity(fcb) != 0 {
                self.ask(fcb, CLOSE)?;
            }
        }
        Ok(())
    }

    /// A repair as a host asks for it: after it has closed all blocks.
    fn tidy(&mut self) -> Checked<()> {
        self.close_all()?;
        self.repair()?;
        Ok(())
    }

    /// After a restart, when all blocks are closed; sometimes one is not, and sometimes with wrong lengths.
    pub fn mend(&mut self) -> Checked<()> {
        for fcb in 0..BLOCKS {
            self.set_block(fcb, ACTIVITY, &[0]);
        }
        if self.random.chance(10) {
            let (fcb, activity) = (self.random.below(BLOCKS), self.random.one_of(&[1, 2, 16, 3]));
            self.set_block(fcb, ACTIVITY, &[activity]);
        }
        if self.random.chance(20) {
            let (image, table) = (self.image_length(), self.table_length());
            self.pair.repair_lent(image, table, &mut self.random)?;
        }
        self.repair()?;
        Ok(())
    }

    /// Service staff come: raw writes, other work on what they leave, a restart and a repair. Where that is refused, or the diskette has
    /// another shape by then, it is put back from a copy.
    pub fn service_visit(&mut self) -> Checked<()> {
        let before = self.snapshot();
        for _ in 0..self.random.between(1, 3) {
            self.raw_write()?;
        }
        for _ in 0..self.random.below(3) {
            self.work()?;
        }
        for fcb in 0..BLOCKS {
            self.set_block(fcb, ACTIVITY, &[0]);
        }
        let is_repaired = self.repair()? == 0;
        if !is_repaired || self.pair.image()[550..552] != [self.last as u8, self.per as u8] {
            self.restore(before);
        }
        Ok(())
    }

    /// One raw write: a slot that was shown or not, with some bytes changed; or a sector, one that was read and changed, or any bytes.
    pub fn raw_write(&mut self) -> Checked<()> {
        let (any, idle) = (self.random.below(BLOCKS), self.block_with(IDLE));
        let fcb = if self.random.chance(10) { any } else { idle };
        if self.random.chance(50) {
            return self.put_slot(fcb);
        }
        let address = self.any_address();
        self.preset_all(fcb, POSITION, &[address.0, address.1])?;
        if self.random.chance(80) {
            self.ask(fcb, READ_SECTOR)?;
        }
        let link = self.any_address();
        match self.random.below(4) {
            0..=1 => self.preset_all(fcb, BUFFER, &[link.0, link.1])?,
            2 => {
                let (at, byte) = (self.random.below(SECTOR), self.random.byte());
                self.preset_all(fcb, BUFFER + at, &[byte])?;
            }
            _ => {
                let mut bytes = [0; SECTOR];
                self.random.fill(&mut bytes);
                self.set_block(fcb, BUFFER, &bytes);
            }
        }
        self.ask(fcb, WRITE_SECTOR)?;
        Ok(())
    }

    fn put_slot(&mut self, fcb: usize) -> Checked<()> {
        if self.activity(fcb) != 16 || self.random.chance(50) {
            self.ask(fcb, OPEN_DIRECTORY)?;
        }
        for _ in 0..self.random.below(5) {
            self.ask(fcb, NEXT_SLOT)?;
        }
        match self.random.below(5) {
            0 => {
                let name = self.any_name();
                self.preset_all(fcb, NAME, name.bytes())?;
            }
            1 => {
                let attributes = self.random.one_of(&[0, 32, 64, 128]);
                self.preset_all(fcb, ATTRIBUTES, &[attributes])?;
            }
            2 => {
                let (at, address) = (self.random.one_of(&[START, END]), self.any_address());
                self.preset_all(fcb, at, &[address.0, address.1])?;
            }
            3 => {
                let size = self.any_count().to_be_bytes();
                self.preset_all(fcb, SIZE, &size)?;
            }
            _ => {
                let first = self.random.one_of(&[0, 1, 127, 128, 255]);
                self.preset_all(fcb, NAME, &[first])?;
            }
        }
        self.ask(fcb, PUT_SLOT)?;
        if self.random.chance(50) {
            self.ask(fcb, CLOSE)?;
        }
        Ok(())
    }

    /// The diskette or the directory until it is full.
    fn fill(&mut self) -> Checked<()> {
        if self.random.chance(50) || self.last * self.per > 20 {
            return self.fill_directory();
        }
        let fcb = self.block_with(&[2]);
        let n = self.last * self.per * 252 + 2;
        self.transfer(fcb, n)
    }

    /// One-byte files until the slots are used up and some more, or until no sector is left.
    fn fill_directory(&mut self) -> Checked<()> {
        let fcb = self.block_with(IDLE);
        let first = self.random.below(1000);
        for i in 0..10 * (self.per - 4) + 12 {
            self.set_block(fcb, NAME, Scene::numbered_name(first + i).bytes());
            if self.ask(fcb, OPEN_WRITE)? != 0 {
                break;
            }
            self.transfer(fcb, 1)?;
            self.ask(fcb, CLOSE)?;
            if self.information(33) == (0, 0) {
                break;
            }
        }
        Ok(())
    }

    /// Files that are opened for write when the power fails: after the restart their blocks are closed, and their slots are live
    /// without a sector. There are as many as a directory of few slots has room for, and some more, for which it grows.
    fn crowd(&mut self) -> Checked<()> {
        let image = self.pair.image();
        let vacant = self.slots().into_iter().filter(|&slot| !is_live(image, slot)).count();
        let fcb = self.block_with(IDLE);
        let first = self.random.below(1000);
        for i in 0..vacant.min(40) + self.random.below(14) {
            self.set_block(fcb, NAME, Scene::numbered_name(first + i).bytes());
            if ![0, 3].contains(&self.ask(fcb, OPEN_WRITE)?) {
                break;
            }
            self.set_block(fcb, ACTIVITY, &[0]);
        }
        Ok(())
    }

    /// Presets and default extensions, allowed or not.
    fn fiddle(&mut self) -> Checked<()> {
        let fcb = self.random.below(BLOCKS);
        for _ in 0..self.random.between(1, 4) {
            let offset = self.random.below(BLOCK + 10);
            let value = self.random.byte();
            // The drive is put right again, or every later call on the block would be refused for it.
            self.pair.preset(fcb, offset, if offset == DRIVE { 0 } else { value })?;
        }
        if self.random.chance(50) {
            self.pair.preset(fcb, EXTENSION, 0)?;
        }
        let code = self.random.below(14);
        self.pair.extension(fcb, code)?;
        Ok(())
    }

    /// Any code on any block, and sometimes another drive for this one call. Not the raw writes, after which a calm diskette would not
    /// be sound any more.
    pub fn any_function(&mut self) -> Checked<()> {
        let fcb = self.random.below(BLOCKS);
        let other_drive = self.random.chance(25);
        if other_drive {
            let drive = self.random.between(1, 255) as u8;
            self.set_block(fcb, DRIVE, &[drive]);
        }
        let any = self.random.byte();
        let any = if RAW.contains(&any) { 3 } else { any };
        let code =
            self.random.one_of(&[0, 1, 2, 4, 5, 6, 7, 9, 12, 13, 0, 1, 2, 4, 5, 6, 7, 9, 12, 13, 3, 11, 14, any]);
        self.ask(fcb, code)?;
        if other_drive {
            self.set_block(fcb, DRIVE, &[0]);
        }
        Ok(())
    }

    fn image_length(&mut self) -> usize {
        let right = self.pair.image().len();
        self.random.one_of(&[right, right, right, right - 1, right + 1, right - 256, right + 256, 0, 551, 552])
    }

    fn table_length(&mut self) -> usize {
        self.random.one_of(&[TABLE, TABLE, TABLE, TABLE - 1, TABLE + 1, TABLE - BLOCK, TABLE + BLOCK, 0, BLOCK])
    }

    /// Lengths and numbers that are refused before anything else.
    pub fn wrong_lengths(&mut self) -> Checked<()> {
        for _ in 0..4 {
            let number = self.random.one_of(&NO_BLOCKS);
            let fcb = self.random.below(BLOCKS);
            let fcb = if self.random.chance(30) { number } else { fcb };
            let (image, table) = (self.image_length(), self.table_length());
            let byte = self.random.byte();
            let offset = self.random.below(64);
            let past = self.random.one_of(&PAST);
            // Not all lengths are wrong: a raw write that stands in the block would be made.
            if fcb >= BLOCKS || !RAW.contains(&self.block(fcb)[FUNCTION]) {
                self.pair.call_lent(image, table, fcb, byte)?;
            }
            self.pair.preset_lent(table, fcb, if offset == 3 { past } else { offset }, byte)?;
            self.pair.extension_lent(table, fcb, if offset < 16 { offset } else { past })?;
        }
        Ok(())
    }

    /// A format that is refused for its shape, its image, its label, or several of them.
    fn wrong_format(&mut self) -> Checked<()> {
        let (no_last, no_per) = (no_last_tracks(self.last), no_per_tracks(self.per));
        let last = if self.random.chance(30) { self.random.one_of(&no_last) } else { self.last };
        let per = if self.random.chance(30) { self.random.one_of(&no_per) } else { self.per };
        let image = self.image_length();
        let is_right = (last, per, image) == (self.last, self.per, self.pair.image().len());
        let label = if is_right || self.random.chance(30) { self.random.one_of(&NO_LABELS) } else { LABEL };
        let wanted = Wanted::labelled(&mut self.random, last, per, label);
        self.pair.format_lent(image, &wanted)?;
        Ok(())
    }
}
