//! Damaged diskettes, random control blocks, and calls aimed at states that a host alone would hardly reach.

use crate::image::{address, is_live, Address};
use crate::pair::Checked;
use crate::scene::{Scene, SLOT_ATTRIBUTES, SLOT_MAP};
use flex::{
    Steps, ACTIVITY, BLOCK, BLOCKS, BUFFER, CLOSE, DELETE, DRIVE, END, INDEX, NAME, NEW_NAME, NEXT_SLOT, OPEN_READ,
    OPEN_WRITE, PLACE, POSITION, RENAME, SIZE, START,
};

const ACTIVITIES: [u8; 10] = [0, 0, 1, 1, 2, 2, 16, 3, 17, 255];
const INDICES: [u8; 14] = [0, 0, 0, 1, 2, 3, 4, 5, 100, 253, 254, 255, 255, 255];

impl Scene<'_> {
    /// From a state that calls have made: one damage, one look at what that does, and back.
    pub fn what_if(&mut self) -> Checked<()> {
        let before = self.snapshot();
        self.damage_image()?;
        match self.random.below(6) {
            0 => self.aim()?,
            1 => self.work()?,
            2 => self.raw_write()?,
            3 => self.mend()?,
            _ => self.survey()?,
        }
        self.restore(before);
        Ok(())
    }

    /// One thing on the diskette that is not as it should be, or is healed, or a format under blocks that may be open.
    pub fn damage_image(&mut self) -> Checked<()> {
        match self.random.below(18) {
            0 => {
                let count = self.any_count();
                self.set_word(545, count);
            }
            1 => {
                let (at, address) = (self.random.one_of(&[541, 543]), self.any_address());
                self.set_address(at, address);
            }
            2 => self.damage_directory(),
            3..=6 => self.damage_slot(),
            7..=9 => self.damage_link(),
            10 => self.flip(),
            11 => self.reshape(),
            12..=14 => self.share(),
            15 => self.heal_directory(),
            16 => self.heal_shape(),
            _ if self.random.chance(50) => self.clear(),
            _ => self.format()?,
        }
        Ok(())
    }

    /// A link of the directory, or of a sector of track 0 that it may not have.
    fn damage_directory(&mut self) {
        let on_track_0 = (0, self.random.between(5, self.per) as u8);
        let sector = if self.random.chance(70) { self.directory_sector() } else { on_track_0 };
        let next = self.random.between(5, self.per) as u8;
        let address = match self.random.below(10) {
            0 => (0, 4),
            1 => (0, self.per as u8 + 1),
            2 => (1, 5),
            3 => (0, 5),
            4 => (0, 0),
            5 => self.any_address(),
            6 => self.data_sector(),
            7 => self.directory_sector(),
            _ => (0, next),
        };
        self.set_address(diskettes::offset(self.per, sector.0 as usize, sector.1 as usize), address);
    }

    fn damage_slot(&mut self) {
        let slot = self.any_slot();
        match self.random.below(9) {
            0 => {
                let attributes = self.random.one_of(&[0, 0, 16, 32, 64, 128, 192, 223, 255]);
                self.pair.poke_image(slot + SLOT_ATTRIBUTES, &[attributes]);
            }
            8 => {
                let map = self.random.one_of(&[0, 1, 2, 255]);
                self.pair.poke_image(slot + SLOT_MAP, &[map]);
            }
            1 => {
                let first = self.random.one_of(&[0, 1, 127, 128, 255]);
                self.pair.poke_image(slot, &[first]);
            }
            2 => {
                let from = self.any_slot();
                let entry = self.pair.image()[from..from + 24].to_vec();
                self.pair.poke_image(slot, &entry);
            }
            3 => {
                let size = self.any_count();
                self.set_word(slot + 17, size);
            }
            4..=5 => {
                let (at, address) = (self.random.one_of(&[13, 15]), self.any_address());
                self.set_address(slot + at, address);
            }
            _ => self.invent_slot(slot),
        }
    }

    /// A live slot, with attributes, addresses and a size of its own.
    fn invent_slot(&mut self, slot: usize) {
        let name = self.legal_name();
        let attributes = self.random.one_of(&[0, 0, 0, 32, 64, 96, 128, 160, 192, 224]);
        let (start, end, size) = (self.any_address(), self.any_address(), self.any_count());
        self.pair.poke_image(slot, name.bytes());
        self.pair.poke_image(slot + SLOT_ATTRIBUTES, &[attributes]);
        self.set_address(slot + 13, start);
        self.set_address(slot + 15, end);
        self.set_word(slot + 17, size);
    }

    fn damage_link(&mut self) {
        let (track, sector) = self.data_sector();
        let address = if self.random.chance(20) { (track, sector) } else { self.any_address() };
        self.set_address(diskettes::offset(self.per, track as usize, sector as usize), address);
    }

    /// One bit of track 0 or of a sector's first four bytes.
    fn flip(&mut self) {
        let at = if self.random.chance(60) {
            self.random.below(self.per * 256)
        } else {
            self.random.below((self.last + 1) * self.per) * 256 + self.random.below(4)
        };
        let byte = self.pair.image()[at] ^ 1 << self.random.below(8);
        self.pair.poke_image(at, &[byte]);
    }

    /// Other M and S: any, or such that the length still fits.
    fn reshape(&mut self) {
        let fitting = self.fitting_shapes();
        let shape = if self.random.chance(70) {
            let (last, per) = self.random.one_of(&fitting);
            [last as u8, per as u8]
        } else {
            [self.random.byte(), self.random.byte()]
        };
        self.pair.poke_image(550, &shape);
    }

    /// Two slots, or a slot and the free chain, with one and the same sector.
    fn share(&mut self) {
        let (from, to) = (self.any_slot(), self.any_slot());
        let addresses = self.pair.image()[from + 13..from + 19].to_vec();
        if self.random.chance(70) {
            self.pair.poke_image(to + 13, &addresses);
        } else {
            self.pair.poke_image(541, &addresses);
        }
    }

    /// One thing that is wrong with a chain, while shape, directory and names mostly stay right: so a repair can be made.
    pub fn damage_chains(&mut self) {
        match self.random.below(16) {
            0..=6 => self.cross(),
            7..=8 => self.share(),
            9..=10 => self.misstate(),
            11 => {
                let slot = self.any_slot();
                let (at, address) = (self.random.one_of(&[13, 15]), self.any_address());
                self.set_address(slot + at, address);
            }
            12 => {
                let (at, address) = (self.random.one_of(&[541, 543]), self.any_address());
                self.set_address(at, address);
            }
            13 => {
                let count = self.any_count();
                self.set_word(545, count);
            }
            14 => self.damage_link(),
            _ => {
                // A live slot that is marked as deleted loses its sectors.
                let slot = self.any_slot();
                self.pair.poke_image(slot, &[255]);
            }
        }
    }

    /// The size that a slot states, or its byte 23.
    fn misstate(&mut self) {
        let slot = self.any_slot();
        let size = self.any_count();
        self.set_word(slot + 17, size);
        let map = self.random.one_of(&[0, 1, 255]);
        self.pair.poke_image(slot + SLOT_MAP, &[map]);
    }

    /// A sector of a file, the first or a later one, links into a file, back to itself, into the directory, or astray; sometimes the
    /// file states its end there.
    fn cross(&mut self) {
        let (slot, other) = (self.any_slot(), self.any_slot());
        let (here, there) = (self.sector_of(slot), self.sector_of(other));
        let to = match self.random.below(8) {
            0..=3 => there,
            4 => here,
            5 => self.directory_sector(),
            6 => (0, 0),
            _ => self.any_address(),
        };
        if let Some(at) = self.offset_of(here) {
            self.set_address(at, to);
        }
        if self.random.chance(30) {
            self.set_address(slot + 15, to);
        }
    }

    /// A sector of the file of this slot, as far as its links lead.
    fn sector_of(&mut self, slot: usize) -> Address {
        let mut at = address(self.pair.image(), slot + 13);
        for _ in 0..self.random.below(6) {
            match self.offset_of(at).map(|offset| address(self.pair.image(), offset)) {
                Some(next) if self.offset_of(next).is_some() => at = next,
                _ => break,
            }
        }
        at
    }

    /// Where a data sector begins.
    fn offset_of(&self, at: Address) -> Option<usize> {
        let is_data = (1..=self.last).contains(&(at.0 as usize)) && (1..=self.per).contains(&(at.1 as usize));
        is_data.then(|| diskettes::offset(self.per, at.0 as usize, at.1 as usize))
    }

    /// One thing in a control block that no call would have left so.
    pub fn damage_block(&mut self, fcb: usize) {
        match self.random.below(10) {
            0 => {
                let mut block = [0; BLOCK];
                self.random.fill(&mut block);
                self.set_block(fcb, 0, &block);
                let activity = self.random.one_of(&ACTIVITIES);
                self.set_block(fcb, ACTIVITY, &[activity, 0]);
            }
            1 => {
                let activity = self.random.one_of(&ACTIVITIES);
                self.set_block(fcb, ACTIVITY, &[activity]);
            }
            2 => {
                let index = self.random.one_of(&INDICES);
                self.set_block(fcb, INDEX, &[index]);
            }
            3 => {
                let (at, address) = (self.random.one_of(&[START, END, POSITION, BUFFER]), self.any_address());
                self.set_block_address(fcb, at, address);
            }
            4 => {
                let size = self.any_count().to_be_bytes();
                self.set_block(fcb, SIZE, &size);
            }
            5..=6 => self.damage_place(fcb),
            7 => self.join(fcb),
            8 => self.set_block(fcb, DRIVE, &[0]),
            _ => self.set_block(fcb, 0, &[0; BLOCK]),
        }
    }

    fn damage_place(&mut self, fcb: usize) {
        let slot = self.any_slot();
        let [track, sector, displacement] = self.place(slot);
        let place = match self.random.below(8) {
            0 => [0, 0, 0],
            1 => [track, sector, displacement.wrapping_add(1)],
            2 => [1, sector, displacement],
            3 => [0, self.random.byte(), displacement],
            4 => [self.random.byte(), self.random.byte(), self.random.byte()],
            5 => [0, 5, self.random.one_of(&[0, 15, 17, 39, 231, 233, 255])],
            _ => [track, sector, displacement],
        };
        self.set_block(fcb, PLACE, &place);
    }

    /// The block at another one's place.
    fn join(&mut self, fcb: usize) {
        let other = self.random.below(BLOCKS);
        let place = self.block(other)[PLACE..PLACE + 3].to_vec();
        self.set_block(fcb, PLACE, &place);
    }

    /// A block made ready for one call that reaches deep, and that call.
    pub fn aim(&mut self) -> Checked<()> {
        let fcb = self.random.below(BLOCKS);
        self.set_block(fcb, DRIVE, &[0]);
        match self.random.below(10) {
            0..=1 => self.aim_take(fcb),
            2 => self.aim_load(fcb),
            3 => self.aim_index(fcb),
            4 => self.aim_close(fcb),
            5 => self.aim_next_slot(fcb),
            6..=7 => self.aim_growth(fcb),
            _ => self.aim_file(fcb),
        }
    }

    /// Function 0 in writing at index 0.
    fn aim_take(&mut self, fcb: usize) -> Checked<()> {
        let slot = self.any_slot();
        let place = self.place(slot);
        let position = if self.random.chance(30) { self.information(29) } else { self.any_address() };
        let start = self.any_address();
        let size = self.any_count();
        if self.random.chance(40) {
            let count = self.any_count();
            self.set_word(545, count);
        }
        if self.random.chance(50) {
            let first = self.data_sector();
            self.set_address(541, first);
        }
        self.set_block(fcb, PLACE, &place);
        if self.random.chance(20) {
            self.damage_place(fcb);
        }
        self.set_block_address(fcb, START, start);
        self.set_block(fcb, SIZE, &size.to_be_bytes());
        self.set_block_address(fcb, POSITION, position);
        self.set_block(fcb, INDEX, &[0]);
        self.set_block(fcb, ACTIVITY, &[2]);
        let n = self.random.between(1, 3);
        self.transfer(fcb, n)
    }

    /// Function 0 in reading at index 0.
    fn aim_load(&mut self, fcb: usize) -> Checked<()> {
        let (start, position, link) = (self.any_address(), self.any_address(), self.any_address());
        self.set_block_address(fcb, START, start);
        self.set_block_address(fcb, POSITION, position);
        self.set_block_address(fcb, BUFFER, link);
        self.set_block(fcb, INDEX, &[0]);
        self.set_block(fcb, ACTIVITY, &[1]);
        let n = self.random.between(1, 3);
        self.transfer(fcb, n)
    }

    /// Function 0 at any index, often the last ones.
    fn aim_index(&mut self, fcb: usize) -> Checked<()> {
        let (position, index) = (self.any_address(), self.random.one_of(&INDICES));
        let activity = self.random.one_of(&[1, 2, 2]);
        self.set_block_address(fcb, POSITION, position);
        self.set_block(fcb, INDEX, &[index]);
        self.set_block(fcb, ACTIVITY, &[activity]);
        let n = self.random.between(1, 4);
        self.transfer(fcb, n)
    }

    fn aim_close(&mut self, fcb: usize) -> Checked<()> {
        let (position, index) = (self.any_address(), self.random.one_of(&INDICES));
        let activity = self.random.one_of(&[1, 2, 2, 2, 2, 16, 3, 255]);
        let position = if self.random.chance(30) { (0, 0) } else { position };
        self.set_block_address(fcb, POSITION, position);
        self.set_block(fcb, INDEX, &[index]);
        self.set_block(fcb, ACTIVITY, &[activity]);
        self.damage_place(fcb);
        self.ask(fcb, CLOSE)?;
        Ok(())
    }

    fn aim_next_slot(&mut self, fcb: usize) -> Checked<()> {
        if self.random.chance(20) {
            self.damage_directory();
        }
        self.set_block(fcb, ACTIVITY, &[16]);
        self.damage_place(fcb);
        let mut left = self.random.between(1, 3);
        while left > 0 && self.ask(fcb, NEXT_SLOT)? == 0 {
            left -= 1;
        }
        Ok(())
    }

    /// Open for write where no slot is left, or one at most, with any free chain.
    fn aim_growth(&mut self, fcb: usize) -> Checked<()> {
        self.occupy_slots();
        if self.random.chance(60) {
            let first = if self.random.chance(60) { self.any_address() } else { self.directory_sector() };
            self.set_address(541, first);
        }
        if self.random.chance(60) {
            let count = self.any_count();
            self.set_word(545, count);
        }
        let idle = self.random.one_of(&[0, 0, 16]);
        let name = if self.random.chance(70) { Scene::numbered_name(999) } else { self.any_name() };
        self.set_block(fcb, ACTIVITY, &[idle]);
        self.set_block(fcb, NAME, name.bytes());
        if self.ask(fcb, OPEN_WRITE)? == 0 {
            self.transfer(fcb, 2)?;
        }
        Ok(())
    }

    /// Every slot of the directory becomes live, but for one now and then.
    fn occupy_slots(&mut self) {
        let left = if self.random.chance(20) { self.any_slot() } else { 0 };
        for (i, slot) in self.slots().into_iter().enumerate() {
            if slot != left && !is_live(self.pair.image(), slot) {
                self.pair.poke_image(slot, &[0; 24]);
                self.pair.poke_image(slot, Scene::numbered_name(i).bytes());
            }
        }
    }

    /// Delete, rename or open for read of a slot made for it, with counts at the limit, and another block at its place.
    fn aim_file(&mut self, fcb: usize) -> Checked<()> {
        let slot = self.findable_slot();
        let place = self.place(slot);
        if self.random.chance(50) {
            self.aim_counts(slot);
        }
        let other = self.random.below(BLOCKS);
        if self.random.chance(60) {
            let activity = self.random.one_of(&ACTIVITIES);
            self.set_block(other, PLACE, &place);
            self.set_block(other, ACTIVITY, &[activity]);
        }
        let idle = self.random.one_of(&[0, 0, 16]);
        let (name, new) = (self.name_at(slot), self.any_name());
        self.set_block(fcb, ACTIVITY, &[idle]);
        self.set_block(fcb, NAME, name.bytes());
        self.set_block(fcb, NEW_NAME, new.bytes());
        let code = self.random.one_of(&[DELETE, DELETE, DELETE, RENAME, RENAME, OPEN_READ, OPEN_WRITE]);
        self.ask(fcb, code)?;
        Ok(())
    }

    /// A slot that a search finds: a live one, or one invented in one of the first four places of a directory sector.
    fn findable_slot(&mut self) -> usize {
        let live = self.live_slots();
        if !live.is_empty() && self.random.chance(40) {
            return self.random.one_of(&live);
        }
        let (track, sector) = if self.random.chance(80) { (0, 5) } else { self.directory_sector() };
        let slot = diskettes::offset(self.per, track as usize, sector as usize) + 16 + 24 * self.random.below(4);
        self.invent_slot(slot);
        let name = Scene::numbered_name(self.random.below(1000));
        if self.random.chance(50) {
            self.pair.poke_image(slot, name.bytes());
        }
        slot
    }

    /// Good addresses, mostly, and counts that sum up to 65,535 or one more.
    fn aim_counts(&mut self, slot: usize) {
        for at in [slot + 13, slot + 15, 541, 543] {
            let address = if self.random.chance(80) { self.data_sector() } else { self.any_address() };
            self.set_address(at, address);
        }
        let size = if self.random.chance(15) { 0 } else { self.random.between(1, 65535) };
        let count = self.random.one_of(&[65535 - size, 65536 - size.max(1), 0, 1]);
        self.set_word(slot + 17, size as u16);
        self.set_word(545, count as u16);
        if count == 0 && self.random.chance(50) {
            self.set_address(543, (0, 7));
        }
        if self.random.chance(20) {
            let last = self.information(31);
            self.set_address(slot + 13, last);
        }
    }
}
