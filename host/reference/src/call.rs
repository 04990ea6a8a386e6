//! The FMS call and its twelve functions.
//!
//! A function tests in the papers' order and stores only after its last test, so that an `Err` has changed nothing.

use crate::block_at;
use crate::directory::{self, ATTRIBUTES, DATE, END, SIZE, SLOT, START};
use crate::shape::{address, set_address, set_word, word, Address, Shape, INFORMATION, NONE, SECTOR};

// Offsets in a control block.
const FUNCTION: usize = 0;
const ERROR: usize = 1;
const ACTIVITY: usize = 2;
const DRIVE: usize = 3;
const NAME: usize = 4;
const FILE_START: usize = 17;
const FILE_END: usize = 19;
const FILE_SIZE: usize = 21;
const FILE_DATE: usize = 25;
const POSITION: usize = 30;
const RECORD: usize = 32;
const INDEX: usize = 34;
const PLACE: usize = 47;
const NEW_NAME: usize = 53;
const COMPRESSION: usize = 59;
const BUFFER: usize = 64;

// Activities.
const CLOSED: u8 = 0;
const READ: u8 = 1;
const WRITE: u8 = 2;
const DIRECTORY: u8 = 16;

// Offsets in the image.
const FIRST_FREE: usize = INFORMATION + 29;
const LAST_FREE: usize = INFORMATION + 31;
const FREE_COUNT: usize = INFORMATION + 33;

/// What a function does: the byte that it gives back, or the number of its refusal.
type Outcome = Result<u8, u8>;

/// One call: both buffers, the shape of the image, and where the block begins in the table.
struct Call<'a> {
    image: &'a mut [u8],
    table: &'a mut [u8],
    shape: Shape,
    f: usize,
}

/// The FMS call: 256 times the answer plus the byte. "A refusal returns byte 0 and stores only its number in FCB byte 1;
/// with 13 for table or number, nothing. Success answers 0 and stores 0 in byte 1."
pub fn call(image: &mut [u8], table: &mut [u8], fcb: usize, byte: u8) -> u32 {
    let f = match block_at(table, fcb) {
        Some(f) => f,
        None => return 256 * 13,
    };
    match answered(image, table, f, byte) {
        Ok(byte) => {
            table[f + ERROR] = 0;
            byte as u32
        }
        Err(number) => {
            table[f + ERROR] = number;
            256 * number as u32
        }
    }
}

/// "16 shape, 1, 16 drive, 18, then each function's own order"
fn answered(image: &mut [u8], table: &mut [u8], f: usize, byte: u8) -> Outcome {
    let shape = Shape::of(image).ok_or(16)?;
    let function = table[f + FUNCTION];
    let activity = table[f + ACTIVITY];
    if ![0, 1, 2, 4, 5, 6, 7, 8, 9, 10, 12, 13].contains(&function) {
        return Err(1);
    }
    if table[f + DRIVE] != 0 {
        return Err(16);
    }
    let mut call = Call { image, table, shape, f };
    match (function, activity) {
        (0, READ) => call.read_byte(),
        (0, WRITE) => call.write_byte(byte),
        (1, CLOSED | DIRECTORY) => call.open_read(),
        (2, CLOSED | DIRECTORY) => call.open_write(),
        (4, CLOSED) => Err(13),
        (4, READ | DIRECTORY) => call.closed(),
        (4, WRITE) => call.close_write(),
        (5, READ) => call.rewind(),
        (6, CLOSED | DIRECTORY) => call.open_directory(),
        (7, DIRECTORY) => call.next_slot(),
        (8, DIRECTORY) => call.put_slot(),
        (9, CLOSED | DIRECTORY) => call.read_sector(),
        (10, CLOSED | DIRECTORY) => call.write_sector(),
        (12, CLOSED | DIRECTORY) => call.delete(),
        (13, CLOSED | DIRECTORY) => call.rename(),
        _ => Err(18),
    }
}

impl Call<'_> {
    // The block's parts.

    fn block(&self, at: usize) -> u8 {
        self.table[self.f + at]
    }

    fn set(&mut self, at: usize, value: u8) {
        self.table[self.f + at] = value;
    }

    fn block_address(&self, at: usize) -> Address {
        address(self.table, self.f + at)
    }

    fn set_block_address(&mut self, at: usize, value: Address) {
        set_address(self.table, self.f + at, value);
    }

    fn zero(&mut self, from: usize, to: usize) {
        self.table[self.f + from..=self.f + to].fill(0);
    }

    fn name(&self, at: usize) -> [u8; 11] {
        let mut name = [0; 11];
        name.copy_from_slice(&self.table[self.f + at..self.f + at + 11]);
        name
    }

    /// "Slot to 4-27."
    fn slot_to_block(&mut self, slot: usize) {
        let at = self.f + NAME;
        self.table[at..at + SLOT].copy_from_slice(&self.image[slot..slot + SLOT]);
    }

    fn sector_to_buffer(&mut self, sector: usize) {
        let at = self.f + BUFFER;
        self.table[at..at + 256].copy_from_slice(&self.image[sector..sector + 256]);
    }

    // What several functions ask.

    fn legal_name(&self, at: usize) -> Result<[u8; 11], u8> {
        let name = self.name(at);
        if directory::is_legal(&name) {
            Ok(name)
        } else {
            Err(21)
        }
    }

    fn slots(&self) -> Result<Vec<usize>, u8> {
        directory::slots(self.image, self.shape).ok_or(5)
    }

    /// The slot of the block's directory place; 5 if the directory is not right or has no such slot.
    fn own_slot(&self) -> Result<usize, u8> {
        let place = [self.block(PLACE), self.block(PLACE + 1), self.block(PLACE + 2)];
        directory::slot_at(self.shape, &self.slots()?, &place).ok_or(5)
    }

    /// 2: a block of one of these activities has the slot's place.
    fn not_in_use(&self, slot: usize, activities: &[u8]) -> Result<(), u8> {
        let place = directory::place(self.shape, slot);
        let in_use = self
            .table
            .chunks(crate::BLOCK)
            .any(|block| activities.contains(&block[ACTIVITY]) && block[PLACE..PLACE + 3] == place);
        if in_use {
            Err(2)
        } else {
            Ok(())
        }
    }

    // Opening.

    /// "21, 5, 4, 2 (an FCB of activity 2 has that place)"; 02, ticket 6: "Sites want attribute 32 to stop reading. Open for read
    /// gives 17 for such a file, after 4 and before 2."
    fn open_read(&mut self) -> Outcome {
        let name = self.legal_name(NAME)?;
        let slot = directory::find(self.image, &self.slots()?, &name).ok_or(4)?;
        if self.image[slot + ATTRIBUTES] & 32 != 0 {
            return Err(17);
        }
        self.not_in_use(slot, &[WRITE])?;
        self.opened(READ, slot)
    }

    /// "21, 5, 3 [..]; the first deleted or never-used slot in order gets name and date, all else 0." 02, ticket 4: "When no slot
    /// is left, open for write takes the first free sector, clears it and links it behind the last directory sector".
    fn open_write(&mut self) -> Outcome {
        let name = self.legal_name(NAME)?;
        let slots = self.slots()?;
        if directory::find(self.image, &slots, &name).is_some() {
            return Err(3);
        }
        let slot = match directory::vacant(self.image, &slots) {
            Some(slot) => slot,
            None => self.grow_directory(&slots)?,
        };
        let date = self.f + FILE_DATE;
        self.image[slot..slot + SLOT].fill(0);
        self.image[slot..slot + 11].copy_from_slice(&name);
        self.image[slot + DATE..slot + DATE + 3].copy_from_slice(&self.table[date..date + 3]);
        self.opened(WRITE, slot)
    }

    /// "takes the first free sector, clears it and links it behind the last directory sector; if the count is 0 it answers 7,
    /// then 10 if that sector is no data sector or the chain is at its longest." Gives the first slot of the new sector. The
    /// stores are in this order on a damaged image too, where the new sector may be one of the directory's.
    fn grow_directory(&mut self, slots: &[usize]) -> Result<usize, u8> {
        let count = word(self.image, FREE_COUNT);
        if count == 0 {
            return Err(7);
        }
        let taken = address(self.image, FIRST_FREE);
        if !self.shape.is_data(taken) || directory::is_longest(self.shape, slots) {
            return Err(10);
        }
        self.shorten_free_chain(taken, count);
        let sector = self.shape.offset(taken);
        self.image[sector..sector + SECTOR].fill(0);
        set_address(self.image, directory::last_sector(slots), taken);
        Ok(directory::first_slot(sector))
    }

    /// "Both then copy the slot to 4-27, zero 0 and 30-35, set 2, 47-49, and 59 to 255."
    fn opened(&mut self, activity: u8, slot: usize) -> Outcome {
        self.slot_to_block(slot);
        self.set(FUNCTION, 0);
        self.zero(30, 35);
        self.set(ACTIVITY, activity);
        let at = self.f + PLACE;
        self.table[at..at + 3].copy_from_slice(&directory::place(self.shape, slot));
        self.set(COMPRESSION, 255);
        Ok(0)
    }

    // Function 0.

    /// "Returns the buffer byte at the index; index + 1, 256 becoming 0."
    fn read_byte(&mut self) -> Outcome {
        if self.block(INDEX) == 0 {
            self.load()?;
        }
        let index = self.block(INDEX);
        self.set(INDEX, index.wrapping_add(1));
        Ok(self.block(BUFFER + index as usize))
    }

    /// "the next sector is the start if the position is 0,0, else the buffer's link; 0,0 gives 8, not a data sector 9.
    /// Position, record number (the sector's bytes 2-3) and buffer follow; index becomes 4."
    fn load(&mut self) -> Result<(), u8> {
        let next = if self.block_address(POSITION) == NONE {
            self.block_address(FILE_START)
        } else {
            self.block_address(BUFFER)
        };
        if next == NONE {
            return Err(8);
        }
        if !self.shape.is_data(next) {
            return Err(9);
        }
        let sector = self.shape.offset(next);
        self.set_block_address(POSITION, next);
        set_word(self.table, self.f + RECORD, word(self.image, sector + 2));
        self.sector_to_buffer(sector);
        self.set(INDEX, 4);
        Ok(())
    }

    /// "Then the byte is stored and the index moves on. At index 255 the position must be a data sector (10), and buffer
    /// bytes 4-255 go to the image."
    fn write_byte(&mut self, byte: u8) -> Outcome {
        if self.block(INDEX) == 0 {
            self.take()?;
        }
        let index = self.block(INDEX);
        if index == 255 {
            self.position_is_data()?;
        }
        self.set(BUFFER + index as usize, byte);
        self.set(INDEX, index.wrapping_add(1));
        if index == 255 {
            self.store_buffer();
        }
        Ok(0)
    }

    fn position_is_data(&self) -> Result<(), u8> {
        if self.shape.is_data(self.block_address(POSITION)) {
            Ok(())
        } else {
            Err(10)
        }
    }

    fn store_buffer(&mut self) {
        let sector = self.shape.offset(self.block_address(POSITION));
        let at = self.f + BUFFER;
        self.image[sector + 4..sector + 256].copy_from_slice(&self.table[at + 4..at + 256]);
    }

    /// "index 0 takes a sector, checked so: place (5), position neither 0,0 nor a data sector (10), free count 0 (7),
    /// first free not a data sector or size 65,535 (10)."
    fn take(&mut self) -> Result<(), u8> {
        let slot = self.own_slot()?;
        let former = self.block_address(POSITION);
        if former != NONE {
            self.position_is_data()?;
        }
        let count = word(self.image, FREE_COUNT);
        if count == 0 {
            return Err(7);
        }
        let taken = address(self.image, FIRST_FREE);
        let size = word(self.table, self.f + FILE_SIZE);
        if !self.shape.is_data(taken) || size == 65535 {
            return Err(10);
        }
        self.shorten_free_chain(taken, count);
        self.lengthen_file(former, taken, size + 1);
        // "the slot's copy of 17-22": slot bytes 13-18.
        let at = self.f + FILE_START;
        self.image[slot + START..slot + SIZE + 2].copy_from_slice(&self.table[at..at + 6]);
        self.set(INDEX, 4);
        Ok(())
    }

    /// "First free moves to that sector's link, count falls by 1; if it was 1, both addresses become 0,0."
    fn shorten_free_chain(&mut self, taken: Address, count: u16) {
        let link = address(self.image, self.shape.offset(taken));
        set_address(self.image, FIRST_FREE, link);
        set_word(self.image, FREE_COUNT, count - 1);
        if count == 1 {
            set_address(self.image, FIRST_FREE, NONE);
            set_address(self.image, LAST_FREE, NONE);
        }
    }

    /// "The FCB's size grows by 1; stores are made in the order told here. The new sector and the buffer get link 0,0,
    /// record number equal to the size, zeros. The former position's link (unless 0,0), start (if it was 0,0), end, the
    /// position itself, record number [..] follow."
    fn lengthen_file(&mut self, former: Address, taken: Address, size: u16) {
        set_word(self.table, self.f + FILE_SIZE, size);
        let sector = self.shape.offset(taken);
        self.image[sector..sector + 256].fill(0);
        set_word(self.image, sector + 2, size);
        self.sector_to_buffer(sector);
        if former != NONE {
            set_address(self.image, self.shape.offset(former), taken);
        }
        if self.block_address(FILE_START) == NONE {
            self.set_block_address(FILE_START, taken);
        }
        self.set_block_address(FILE_END, taken);
        self.set_block_address(POSITION, taken);
        set_word(self.table, self.f + RECORD, size);
    }

    // Closing, rewinding.

    fn closed(&mut self) -> Outcome {
        self.set(ACTIVITY, CLOSED);
        Ok(0)
    }

    /// "Writing: position 0,0: place (5), the slot's first byte becomes 255; else, if the index isn't 0, the buffer is
    /// stored as above (10). Activity 0."
    fn close_write(&mut self) -> Outcome {
        if self.block_address(POSITION) == NONE {
            let slot = self.own_slot()?;
            self.image[slot] = 255;
        } else if self.block(INDEX) != 0 {
            self.position_is_data()?;
            self.store_buffer();
        }
        self.closed()
    }

    /// "zeroes 0, 30-31 and 34"
    fn rewind(&mut self) -> Outcome {
        self.set(FUNCTION, 0);
        self.zero(30, 31);
        self.set(INDEX, 0);
        Ok(0)
    }

    // The directory, and single sectors.

    /// "activity 16, 47-49 zero"
    fn open_directory(&mut self) -> Outcome {
        self.set(ACTIVITY, DIRECTORY);
        self.zero(47, 49);
        Ok(0)
    }

    /// "place 0,0,0 goes to the first slot; after the last, 8 and no move; 5 before 8. Slot to 4-27."
    fn next_slot(&mut self) -> Outcome {
        let slots = self.slots()?;
        let place = [self.block(PLACE), self.block(PLACE + 1), self.block(PLACE + 2)];
        let next = if place == [0, 0, 0] {
            0
        } else {
            let slot = directory::slot_at(self.shape, &slots, &place).ok_or(5)?;
            1 + slots.iter().position(|&s| s == slot).ok_or(5)?
        };
        let slot = *slots.get(next).ok_or(8)?;
        let at = self.f + PLACE;
        self.table[at..at + 3].copy_from_slice(&directory::place(self.shape, slot));
        self.slot_to_block(slot);
        Ok(0)
    }

    /// "any existing sector at 30-31 to the buffer, else 9"
    fn read_sector(&mut self) -> Outcome {
        let wanted = self.block_address(POSITION);
        if !self.shape.exists(wanted) {
            return Err(9);
        }
        self.sector_to_buffer(self.shape.offset(wanted));
        Ok(0)
    }

    /// 02, ticket 12: "functions 8 (activity 16; 5)". The manual: "The directory information is copied from the Directory
    /// Information portion of the FCB into the directory entry to which the FCB currently points." 0,0,0 points to none.
    fn put_slot(&mut self) -> Outcome {
        let slot = self.own_slot()?;
        let at = self.f + NAME;
        self.image[slot..slot + SLOT].copy_from_slice(&self.table[at..at + SLOT]);
        Ok(0)
    }

    /// 02, ticket 12: "and 10 (activity 0 or 16; 10 if no such sector)". The manual: "The disk address being written is taken from
    /// the Current Position bytes of the FCB; the data is taken from the FCB Sector Buffer."
    fn write_sector(&mut self) -> Outcome {
        let wanted = self.block_address(POSITION);
        if !self.shape.exists(wanted) {
            return Err(10);
        }
        let sector = self.shape.offset(wanted);
        let at = self.f + BUFFER;
        self.image[sector..sector + SECTOR].copy_from_slice(&self.table[at..at + SECTOR]);
        Ok(0)
    }

    // Deleting, renaming.

    /// "21, 5, 4, 2 (activity 1 or 2), 12, 11 [..] The slot's first byte becomes 255; slot to 4-27."
    fn delete(&mut self) -> Outcome {
        let name = self.legal_name(NAME)?;
        let slot = directory::find(self.image, &self.slots()?, &name).ok_or(4)?;
        self.not_in_use(slot, &[READ, WRITE])?;
        let attributes = self.image[slot + ATTRIBUTES];
        if attributes & 64 != 0 {
            return Err(12);
        }
        if attributes & 128 != 0 {
            return Err(11);
        }
        if word(self.image, slot + SIZE) != 0 {
            self.hang_behind_free_chain(slot)?;
        }
        self.image[slot] = 255;
        self.slot_to_block(slot);
        Ok(0)
    }

    /// "start and end, and last free if the count isn't 0, must be data sectors and the summed count at most 65,535 (9); the
    /// chain is hung behind the free chain unwalked: last free's link, or first free if the count is 0, becomes the start,
    /// last free the end, and the size is added to the count."
    fn hang_behind_free_chain(&mut self, slot: usize) -> Result<(), u8> {
        let start = address(self.image, slot + START);
        let end = address(self.image, slot + END);
        let size = word(self.image, slot + SIZE);
        let last = address(self.image, LAST_FREE);
        let count = word(self.image, FREE_COUNT);
        let addresses =
            self.shape.is_data(start) && self.shape.is_data(end) && (count == 0 || self.shape.is_data(last));
        let sum = match count.checked_add(size) {
            Some(sum) if addresses => sum,
            _ => return Err(9),
        };
        if count == 0 {
            set_address(self.image, FIRST_FREE, start);
        } else {
            set_address(self.image, self.shape.offset(last), start);
        }
        set_address(self.image, LAST_FREE, end);
        set_word(self.image, FREE_COUNT, sum);
        Ok(())
    }

    /// "21 for either name, 5, 4, 2 (activity 1 or 2), 11, 3 (its own name too). New name to slot and FCB."
    fn rename(&mut self) -> Outcome {
        let name = self.legal_name(NAME)?;
        let new_name = self.legal_name(NEW_NAME)?;
        let slots = self.slots()?;
        let slot = directory::find(self.image, &slots, &name).ok_or(4)?;
        self.not_in_use(slot, &[READ, WRITE])?;
        if self.image[slot + ATTRIBUTES] & 128 != 0 {
            return Err(11);
        }
        if directory::find(self.image, &slots, &new_name).is_some() {
            return Err(3);
        }
        self.image[slot..slot + 11].copy_from_slice(&new_name);
        let at = self.f + NAME;
        self.table[at..at + 11].copy_from_slice(&new_name);
        Ok(0)
    }
}
