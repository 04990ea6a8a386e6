//! Situations: what the test looks at before and after a call to know that the places that are easy to get wrong were reached.
//! This says nothing about right or wrong, only about what has been tried. Those of the census and of format are in surveyed.rs
//! and formatted.rs.

use crate::image::{address, is_live, word, Address, Directory, Ends, Shape, NONE};
use crate::scene::SLOT_ATTRIBUTES;
use flex::{ACTIVITY, ATTRIBUTE_READ, BUFFER, FUNCTION, INDEX, NAME, NEW_NAME, PLACE, POSITION, SIZE, START};

/// Where opening a file puts its 255: inside the new name.
const COMPRESSION: usize = 59;

/// Looked at before an FMS call, on a table and an image of the right form.
pub struct Seen {
    pub code: u8,
    pub activity: u8,
    f: usize,
    shape: Option<Shape>,
    index: u8,
    position: Address,
    start: Address,
    size: u16,
    /// The buffer's link.
    link: Address,
    place: [u8; 3],
    /// Byte 59 of the block.
    compression: u8,
    first: Address,
    last: Address,
    count: u16,
    link_of_first: Address,
    directory: Directory,
    names: Names,
    /// Some live slot is read protected.
    any_secret: bool,
    /// The first byte of each slot, by its place.
    firsts: Vec<([u8; 3], u8)>,
    /// First free is a sector that the file of some live slot begins with.
    first_is_a_files: bool,
    image_len: usize,
}

/// The block's name and its new name, and where they are in the directory.
struct Names {
    /// The slot that the name names, by a plain search.
    slot: Option<Slot>,
    /// The new name equals the name.
    are_equal: bool,
    /// A search comes to a never-used slot before a live one of the name; of the new name.
    behind_hole: bool,
    new_behind_hole: bool,
}

struct Slot {
    place: [u8; 3],
    attributes: u8,
    start: Address,
    end: Address,
    size: u16,
}

/// A call with its answer, and what the table says then.
pub struct After {
    before: Seen,
    answer: u32,
    place: [u8; 3],
    /// The activities of the other blocks that have the place of the block, or of the slot that its name named.
    others: Vec<u8>,
    /// Some other block writes, whatever its place is.
    another_writes: bool,
}

impl After {
    /// An open for write that was accepted and for which the directory took a sector.
    fn grew(&self) -> bool {
        self.answer == 0 && self.before.crowds()
    }

    /// This function was accepted, and the slot is in a sector that the directory had taken before.
    fn is_in_taken(&self, code: u8) -> bool {
        let slot = self.before.names.slot.as_ref().map_or(self.place, |slot| slot.place);
        self.before.code == code && self.answer == 0 && slot[0] != 0
    }

    /// This function was refused for a file in use whose slot is in a sector that the directory had taken.
    fn is_in_use_in_taken(&self, code: u8) -> bool {
        let is_taken = self.before.names.slot.as_ref().map_or(false, |slot| slot.place[0] != 0);
        self.before.code == code && self.answer == 2 && is_taken
    }
}

fn triple(bytes: &[u8], at: usize) -> [u8; 3] {
    [bytes[at], bytes[at + 1], bytes[at + 2]]
}

impl Seen {
    pub fn before(image: &[u8], table: &[u8], fcb: usize) -> Option<Seen> {
        if table.len() != flex::TABLE || fcb >= flex::BLOCKS {
            return None;
        }
        let f = fcb * flex::BLOCK;
        let block = &table[f..f + flex::BLOCK];
        let shape = Shape::of(image);
        let free = |at: usize| if shape.is_some() { address(image, 512 + at) } else { NONE };
        let first = free(29);
        let is_data = shape.map_or(false, |shape| shape.is_data(first));
        let directory = shape.map_or_else(Directory::none, |shape| Directory::of(image, shape));
        let live: Vec<usize> = directory.slots.iter().copied().filter(|&slot| is_live(image, slot)).collect();
        let opens_for_write = block[FUNCTION] == 2;
        Some(Seen {
            code: block[FUNCTION],
            activity: block[ACTIVITY],
            f,
            shape,
            index: block[INDEX],
            position: address(block, POSITION),
            start: address(block, START),
            size: word(block, SIZE),
            link: address(block, BUFFER),
            place: triple(block, PLACE),
            compression: block[COMPRESSION],
            first,
            last: free(31),
            count: shape.map_or(0, |_| word(image, 512 + 33)),
            link_of_first: shape.filter(|_| is_data).map_or(NONE, |shape| address(image, shape.offset(first))),
            names: Names::of(image, shape, &directory, block),
            any_secret: live.iter().any(|&slot| image[slot + SLOT_ATTRIBUTES] & ATTRIBUTE_READ != 0),
            firsts: shape.filter(|_| opens_for_write).map_or(Vec::new(), |shape| firsts(image, shape, &directory)),
            first_is_a_files: opens_for_write && live.iter().any(|&slot| address(image, slot + 13) == first),
            directory,
            image_len: image.len(),
        })
    }

    pub fn after(self, answer: u32, table: &[u8]) -> After {
        let own = triple(table, self.f + PLACE);
        let place = self.names.slot.as_ref().map_or(own, |slot| slot.place);
        let others = (0..flex::BLOCKS)
            .map(|i| i * flex::BLOCK)
            .filter(|&f| f != self.f && triple(table, f + PLACE) == place)
            .map(|f| table[f + ACTIVITY])
            .collect();
        let writes = |f: usize| f != self.f && table[f + ACTIVITY] == 2;
        let another_writes = (0..flex::BLOCKS).any(|i| writes(i * flex::BLOCK));
        After { before: self, answer, place: own, others, another_writes }
    }

    fn is(&self, code: u8, activity: u8) -> bool {
        self.shape.is_some() && self.code == code && self.activity == activity
    }

    /// At index 0 of writing.
    fn takes(&self) -> bool {
        self.is(0, 2) && self.index == 0
    }

    /// At index 0 of reading.
    fn loads(&self) -> bool {
        self.is(0, 1) && self.index == 0
    }

    fn is_data(&self, address: Address) -> bool {
        self.shape.map_or(false, |shape| shape.is_data(address))
    }

    fn position_fits(&self) -> bool {
        self.position == NONE || self.is_data(self.position)
    }

    /// The position is the diskette's last sector; the one behind it by number; the first of a track behind its last.
    fn is_last_sector(&self) -> bool {
        self.shape.map_or(false, |shape| self.position == (shape.last, shape.per))
    }

    fn is_sector_past(&self) -> bool {
        self.shape.map_or(false, |shape| self.position == (shape.last, shape.per + 1))
    }

    fn is_track_past(&self) -> bool {
        self.shape.map_or(false, |shape| self.position == (shape.last + 1, 1))
    }

    /// An open for read by the name of such a slot.
    fn opens(&self, met: impl Fn(&Slot) -> bool) -> bool {
        self.code == 1 && self.names.slot.as_ref().map_or(false, met)
    }

    /// A delete.
    fn deletes(&self, met: impl Fn(&Slot) -> bool) -> bool {
        self.code == 12 && self.names.slot.as_ref().map_or(false, met)
    }

    /// A rename.
    fn renames(&self, met: impl Fn(&Slot) -> bool) -> bool {
        self.code == 13 && self.names.slot.as_ref().map_or(false, met)
    }

    /// The first byte of the slot at this place.
    fn first_byte(&self, place: [u8; 3]) -> Option<u8> {
        self.firsts.iter().find(|row| row.0 == place).map(|row| row.1)
    }

    /// An open for write that finds no slot left in a right directory.
    fn crowds(&self) -> bool {
        self.code == 2
            && [0, 16].contains(&self.activity)
            && self.directory.ends == Ends::Right
            && !self.directory.has_room
    }

    /// First free is one of the directory's sectors, but not its last.
    fn first_is_inside_directory(&self) -> bool {
        self.directory.sectors.contains(&self.first) && self.directory.last() != self.first
    }

    /// The block's place is in a sector that the directory has taken.
    fn is_at_taken(&self) -> bool {
        self.place[0] != 0 && self.directory.sectors.contains(&(self.place[0], self.place[1]))
    }

    fn is_slot(&self, place: [u8; 3]) -> bool {
        let at = (place[0], place[1]);
        self.directory.sectors.contains(&at) && (16..=232).contains(&place[2]) && (place[2] - 16) % 24 == 0
    }

    fn summed(&self, slot: &Slot) -> u32 {
        self.count as u32 + slot.size as u32
    }
}

impl Names {
    fn of(image: &[u8], shape: Option<Shape>, directory: &Directory, block: &[u8]) -> Names {
        let (name, new_name) = (&block[NAME..][..11], &block[NEW_NAME..][..11]);
        let searches = [1, 12, 13].contains(&block[FUNCTION]);
        Names {
            slot: shape.filter(|_| searches).and_then(|shape| named(image, shape, directory, name)),
            are_equal: name == new_name,
            behind_hole: behind_hole(image, directory, name),
            new_behind_hole: behind_hole(image, directory, new_name),
        }
    }
}

fn named(image: &[u8], shape: Shape, directory: &Directory, name: &[u8]) -> Option<Slot> {
    let slot = directory.slots.iter().copied().find(|&slot| image[slot..slot + 11] == *name)?;
    Some(Slot {
        place: shape.place(slot),
        attributes: image[slot + SLOT_ATTRIBUTES],
        start: address(image, slot + 13),
        end: address(image, slot + 15),
        size: word(image, slot + 17),
    })
}

/// Does a search come to a never-used slot before a live one of this name?
fn behind_hole(image: &[u8], directory: &Directory, name: &[u8]) -> bool {
    let mut behind = directory.slots.iter().copied().skip_while(|&slot| image[slot] != 0);
    (1..128).contains(&name[0]) && behind.any(|slot| image[slot..slot + 11] == *name)
}

/// The first byte of each slot, by its place.
fn firsts(image: &[u8], shape: Shape, directory: &Directory) -> Vec<([u8; 3], u8)> {
    directory.slots.iter().map(|&slot| (shape.place(slot), image[slot])).collect()
}

type Met = fn(&After) -> bool;

/// Situations of FMS calls, each with its test. All must occur.
pub const CALL_SITUATIONS: &[(&str, Met)] = &[
    // the shape
    ("shape: image of no bytes", |a| a.answer == 16 && a.before.image_len == 0),
    ("shape: image of 551 bytes", |a| a.answer == 16 && a.before.image_len == 551),
    ("shape: image of 552 bytes", |a| a.answer == 16 && a.before.image_len == 552),
    ("drive not 0 on a right image", |a| a.answer == 16 && a.before.shape.is_some()),
    // function 0, writing
    ("write: first sector taken", |a| a.before.takes() && a.answer == 0 && a.before.position == NONE),
    ("write: further sector taken", |a| a.before.takes() && a.answer == 0 && a.before.position != NONE),
    ("write: last free sector taken", |a| a.before.takes() && a.answer == 0 && a.before.count == 1),
    ("write: last free sector taken though it has a link", |a| {
        a.before.takes() && a.answer == 0 && a.before.count == 1 && a.before.link_of_first != NONE
    }),
    ("write: sector taken whose link 0,0 comes too early", |a| {
        a.before.takes() && a.answer == 0 && a.before.count > 1 && a.before.link_of_first == NONE
    }),
    ("write: sector taken whose link is no data sector", |a| {
        let link = a.before.link_of_first;
        a.before.takes() && a.answer == 0 && a.before.count > 1 && link != NONE && !a.before.is_data(link)
    }),
    ("write: former position is the sector taken", |a| {
        a.before.takes() && a.answer == 0 && a.before.position == a.before.first
    }),
    ("write: former position is the last sector of the diskette", |a| {
        let last = a.before.shape.map_or(NONE, |shape| (shape.last, shape.per));
        a.before.takes() && a.answer == 0 && a.before.position == last
    }),
    ("write: start is kept at position 0,0", |a| {
        a.before.takes() && a.answer == 0 && a.before.position == NONE && a.before.start != NONE
    }),
    ("write: start is set at a later position", |a| {
        a.before.takes() && a.answer == 0 && a.before.position != NONE && a.before.start == NONE
    }),
    ("write: size becomes 65,535", |a| a.before.takes() && a.answer == 0 && a.before.size == 65534),
    ("write: size 65,535 refused", |a| {
        a.before.takes()
            && a.answer == 10
            && a.before.size == 65535
            && a.before.position_fits()
            && a.before.is_data(a.before.first)
    }),
    ("write: first free refused", |a| {
        a.before.takes() && a.answer == 10 && a.before.size != 65535 && a.before.position_fits()
    }),
    ("write: first free 0,0 with a count refused", |a| {
        a.before.takes() && a.answer == 10 && a.before.first == NONE && a.before.count > 0 && a.before.position_fits()
    }),
    ("write: position refused", |a| a.before.takes() && a.answer == 10 && !a.before.position_fits()),
    ("write: position refused before free count 0", |a| a.before.takes() && a.answer == 10 && a.before.count == 0),
    ("write: free count 0 refused before first free and size", |a| {
        a.before.takes() && a.answer == 7 && !a.before.is_data(a.before.first) && a.before.size == 65535
    }),
    ("write: place refused before position", |a| a.before.takes() && a.answer == 5 && !a.before.position_fits()),
    ("write: no place asked at an index of 1 to 254", |a| {
        let is_slot = a.before.is_slot(a.before.place);
        a.before.is(0, 2) && a.answer == 0 && (1..255).contains(&a.before.index) && !is_slot
    }),
    ("write: index 1 to 3", |a| a.before.is(0, 2) && a.answer == 0 && (1..4).contains(&a.before.index)),
    ("write: index 254", |a| a.before.is(0, 2) && a.answer == 0 && a.before.index == 254),
    ("write: index 255 stores the buffer", |a| a.before.is(0, 2) && a.answer == 0 && a.before.index == 255),
    ("write: index 255 refused", |a| a.before.is(0, 2) && a.answer == 10 && a.before.index == 255),
    ("write: index 255 refused at position 0,0", |a| {
        a.before.is(0, 2) && a.answer == 10 && a.before.index == 255 && a.before.position == NONE
    }),
    ("write: two blocks write at one place", |a| a.before.takes() && a.answer == 0 && a.others.contains(&2)),
    ("write: the slot is in a sector that the directory has taken", |a| {
        a.before.takes() && a.answer == 0 && a.before.is_at_taken()
    }),
    ("write: the sector taken is one of the directory's", |a| {
        a.before.takes() && a.answer == 0 && a.before.directory.sectors.contains(&a.before.first)
    }),
    // function 0, reading
    ("read: start loaded", |a| a.before.loads() && a.answer == 0 && a.before.position == NONE),
    ("read: link loaded", |a| a.before.loads() && a.answer == 0 && a.before.position != NONE),
    ("read: link loaded though the position is no sector", |a| {
        a.before.loads() && a.answer == 0 && !a.before.position_fits()
    }),
    ("read: the sector links to itself", |a| {
        a.before.loads() && a.answer == 0 && a.before.position != NONE && a.before.position == a.before.link
    }),
    ("read: start 0,0 is the end", |a| a.before.loads() && a.answer == 8 && a.before.position == NONE),
    ("read: link 0,0 is the end", |a| a.before.loads() && a.answer == 8 && a.before.position != NONE),
    ("read: start refused", |a| a.before.loads() && a.answer == 9 && a.before.position == NONE),
    ("read: link refused", |a| a.before.loads() && a.answer == 9 && a.before.position != NONE),
    ("read: link 0,1 refused", |a| {
        a.before.loads() && a.answer == 9 && a.before.link == (0, 1) && a.before.position != NONE
    }),
    ("read: index 1 to 3", |a| a.before.is(0, 1) && a.answer == 0 && (1..4).contains(&a.before.index)),
    ("read: index 255", |a| a.before.is(0, 1) && a.answer == 0 && a.before.index == 255),
    // 1, 2
    ("open read: another block reads", |a| a.before.code == 1 && a.answer == 0 && a.others.contains(&1)),
    ("open read: a closed block has the place", |a| a.before.code == 1 && a.answer == 0 && a.others.contains(&0)),
    ("open read: a directory block has the place", |a| a.before.code == 1 && a.answer == 0 && a.others.contains(&16)),
    ("open read: a name behind a never-used slot", |a| {
        a.before.code == 1 && a.answer == 0 && a.before.names.behind_hole
    }),
    ("open read: 17 by attribute 32 alone", |a| a.answer == 17 && a.before.opens(|slot| slot.attributes == 32)),
    ("open read: 17 with delete protection", |a| a.answer == 17 && a.before.opens(|slot| slot.attributes == 96)),
    ("open read: 17 with write protection", |a| a.answer == 17 && a.before.opens(|slot| slot.attributes == 160)),
    ("open read: 17 with both", |a| a.answer == 17 && a.before.opens(|slot| slot.attributes == 224)),
    ("open read: 17 of a file that is read", |a| a.before.code == 1 && a.answer == 17 && a.others.contains(&1)),
    ("open read: 17 and not 2 of a file that is written", |a| {
        a.before.code == 1 && a.answer == 17 && a.others.contains(&2)
    }),
    ("open read: 4 where another file is read protected", |a| {
        a.before.code == 1 && a.answer == 4 && a.before.any_secret && a.before.names.slot.is_none()
    }),
    ("open read: 17 from a directory block", |a| a.before.is(1, 16) && a.answer == 17),
    ("open read: 17 behind a never-used slot", |a| a.before.code == 1 && a.answer == 17 && a.before.names.behind_hole),
    ("open read: all attributes but 32 do not matter", |a| {
        a.answer == 0 && a.before.opens(|slot| slot.attributes == 223)
    }),
    ("open read: attribute 16 does not matter", |a| a.answer == 0 && a.before.opens(|slot| slot.attributes == 16)),
    ("open write: 3 for a name behind a never-used slot", |a| {
        a.before.code == 2 && a.answer == 3 && a.before.names.behind_hole
    }),
    ("open read: from a directory block", |a| a.before.is(1, 16) && a.answer == 0),
    ("open write: from a directory block", |a| a.before.is(2, 16) && a.answer == 0),
    ("open write: a deleted slot", |a| {
        a.before.code == 2 && a.answer == 0 && a.before.first_byte(a.place).map_or(false, |byte| byte >= 128)
    }),
    ("open write: a never-used slot", |a| {
        a.before.code == 2 && a.answer == 0 && a.before.first_byte(a.place) == Some(0)
    }),
    ("open write: a slot of a later directory sector", |a| {
        a.before.code == 2 && a.answer == 0 && a.place[..2] != [0, 5]
    }),
    ("open write: a slot that another block still writes", |a| {
        a.before.code == 2 && a.answer == 0 && a.others.contains(&2)
    }),
    ("open write: a deleted slot in a sector that the directory has taken", |a| {
        a.is_in_taken(2) && a.before.first_byte(a.place).map_or(false, |byte| byte >= 128)
    }),
    ("open write: a never-used slot in a sector that the directory has taken", |a| {
        a.is_in_taken(2) && a.before.first_byte(a.place) == Some(0)
    }),
    // 2, where no slot is left
    ("growth: for the first time", |a| a.grew() && a.before.directory.taken() == 0),
    ("growth: for the second time", |a| a.grew() && a.before.directory.taken() == 1),
    ("growth: for the third time or later", |a| a.grew() && a.before.directory.taken() > 1),
    ("growth: from a directory block", |a| a.grew() && a.before.activity == 16),
    ("growth: while another block writes", |a| a.grew() && a.another_writes),
    ("growth: behind 0,5 alone", |a| a.grew() && a.before.directory.sectors.len() == 1),
    ("growth: behind a later sector of track 0", |a| {
        a.grew() && a.before.directory.last().0 == 0 && a.before.directory.sectors.len() > 1
    }),
    ("growth: behind a sector of track 0 that follows a data sector", |a| {
        a.grew() && a.before.directory.last().0 == 0 && a.before.directory.taken() > 0
    }),
    ("growth: with the last free sector", |a| a.grew() && a.before.count == 1),
    ("growth: with the last free sector though it has a link", |a| {
        a.grew() && a.before.count == 1 && a.before.link_of_first != NONE
    }),
    ("growth: by a sector whose link 0,0 comes too early", |a| {
        a.grew() && a.before.count > 1 && a.before.link_of_first == NONE
    }),
    ("growth: by a sector whose link is no data sector", |a| {
        let link = a.before.link_of_first;
        a.grew() && a.before.count > 1 && link != NONE && !a.before.is_data(link)
    }),
    ("growth: by the last sector of the diskette", |a| {
        a.grew() && a.before.shape.map_or(false, |shape| a.before.first == (shape.last, shape.per))
    }),
    ("growth: by the directory's last sector", |a| a.grew() && a.before.directory.last() == a.before.first),
    ("growth: by the directory's last sector with count 1", |a| {
        a.grew() && a.before.directory.last() == a.before.first && a.before.count == 1
    }),
    ("growth: by another sector of the directory", |a| a.grew() && a.before.first_is_inside_directory()),
    ("growth: by a file's sector", |a| a.grew() && a.before.first_is_a_files),
    ("growth: to the longest directory", |a| {
        let longest = a.before.shape.map_or(0, |shape| shape.longest());
        a.grew() && a.before.directory.sectors.len() + 1 == longest
    }),
    ("growth: 7", |a| a.before.crowds() && a.answer == 7),
    ("growth: 7 of a directory that has grown", |a| {
        a.before.crowds() && a.answer == 7 && a.before.directory.taken() > 0
    }),
    ("growth: 7 and not 10 where first free is no data sector", |a| {
        a.before.crowds() && a.answer == 7 && a.before.first != NONE && !a.before.is_data(a.before.first)
    }),
    ("growth: 7 and not 10 of the longest directory", |a| {
        let longest = a.before.shape.map_or(0, |shape| shape.longest());
        a.before.crowds() && a.answer == 7 && a.before.directory.sectors.len() == longest
    }),
    ("growth: 10 for first free", |a| {
        a.before.crowds() && a.answer == 10 && a.before.first != NONE && !a.before.is_data(a.before.first)
    }),
    ("growth: 10 for first free on track 0", |a| {
        a.before.crowds() && a.answer == 10 && a.before.first.0 == 0 && a.before.first.1 >= 5
    }),
    ("growth: 10 for first free 0,0 with a count", |a| a.before.crowds() && a.answer == 10 && a.before.first == NONE),
    ("growth: 10 of the longest directory", |a| {
        a.before.crowds() && a.answer == 10 && a.before.is_data(a.before.first)
    }),
    ("growth: 3 and not 7 or 10", |a| {
        let no_free = a.before.count == 0 || !a.before.is_data(a.before.first);
        a.before.crowds() && a.answer == 3 && no_free
    }),
    ("growth: 21 and not 7 or 10", |a| {
        let no_free = a.before.count == 0 || !a.before.is_data(a.before.first);
        a.before.crowds() && a.answer == 21 && no_free
    }),
    ("growth: not where a slot is left, though no sector is free", |a| {
        a.before.code == 2 && a.answer == 0 && a.before.directory.has_room && a.before.count == 0
    }),
    ("directory: 5 in a circle through data sectors", |a| {
        a.answer == 5 && a.before.directory.ends == Ends::Never && a.before.directory.taken() > 0
    }),
    ("directory: 5 in a circle on track 0", |a| {
        a.answer == 5 && a.before.directory.ends == Ends::Never && a.before.directory.taken() == 0
    }),
    ("directory: 5 where a data sector links astray", |a| {
        a.answer == 5 && a.before.directory.ends == Ends::Astray && a.before.directory.last().0 > 0
    }),
    ("directory: an open for write while it is in a circle", |a| {
        a.before.code == 2 && a.answer == 5 && a.before.directory.ends == Ends::Never
    }),
    ("taken sector: open read", |a| a.is_in_taken(1)),
    ("taken sector: delete", |a| a.is_in_taken(12)),
    ("taken sector: rename", |a| a.is_in_taken(13)),
    ("taken sector: open read of a file in use", |a| a.is_in_use_in_taken(1)),
    ("taken sector: delete of a file in use", |a| a.is_in_use_in_taken(12)),
    ("taken sector: rename of a file in use", |a| a.is_in_use_in_taken(13)),
    ("taken sector: close unwritten", |a| {
        a.before.is(4, 2) && a.answer == 0 && a.before.position == NONE && a.before.is_at_taken()
    }),
    // 4
    ("close: reading", |a| a.before.is(4, 1) && a.answer == 0),
    ("close: directory", |a| a.before.is(4, 16) && a.answer == 0),
    ("close: unwritten", |a| a.before.is(4, 2) && a.answer == 0 && a.before.position == NONE),
    ("close: position 0,0 with a size and an index", |a| {
        a.before.is(4, 2) && a.answer == 0 && a.before.position == NONE && a.before.size != 0 && a.before.index != 0
    }),
    ("close: position 0,0, place refused", |a| a.before.is(4, 2) && a.answer == 5 && a.before.position == NONE),
    ("close: buffer stored", |a| {
        a.before.is(4, 2) && a.answer == 0 && a.before.position != NONE && a.before.index != 0
    }),
    ("close: index 0 stores nothing", |a| {
        a.before.is(4, 2) && a.answer == 0 && a.before.is_data(a.before.position) && a.before.index == 0
    }),
    ("close: index 0 asks nothing of the position", |a| {
        a.before.is(4, 2) && a.answer == 0 && !a.before.position_fits() && a.before.index == 0
    }),
    // 7
    ("next slot: the first", |a| a.before.code == 7 && a.answer == 0 && a.before.place == [0, 0, 0]),
    ("next slot: in the same sector", |a| {
        a.before.code == 7 && a.answer == 0 && a.before.place[..2] == a.place[..2] && a.place[0] == 0
    }),
    ("next slot: in the next sector", |a| {
        a.before.code == 7 && a.answer == 0 && a.before.place[1] != 0 && a.before.place[..2] != a.place[..2]
    }),
    ("next slot: from track 0 to a data sector", |a| {
        a.before.code == 7 && a.answer == 0 && a.before.place[0] == 0 && a.before.place[1] != 0 && a.place[0] != 0
    }),
    ("next slot: in a data sector", |a| {
        a.before.code == 7 && a.answer == 0 && a.place[0] != 0 && a.before.place[..2] == a.place[..2]
    }),
    ("next slot: from a data sector to another", |a| {
        let moved = a.before.place[..2] != a.place[..2];
        a.before.code == 7 && a.answer == 0 && a.before.place[0] != 0 && a.place[0] != 0 && moved
    }),
    ("next slot: from a data sector back to track 0", |a| {
        a.before.code == 7 && a.answer == 0 && a.before.place[0] != 0 && a.place[0] == 0
    }),
    ("next slot: the end in a data sector", |a| a.before.code == 7 && a.answer == 8 && a.before.place[0] != 0),
    ("next slot: not between slots of a data sector", |a| {
        a.before.code == 7 && a.answer == 5 && a.before.directory.ends == Ends::Right && a.before.is_at_taken()
    }),
    ("next slot: a data sector that is not the directory's", |a| {
        let at = (a.before.place[0], a.before.place[1]);
        let is_elsewhere = a.before.is_data(at) && !a.before.directory.sectors.contains(&at);
        a.before.code == 7 && a.answer == 5 && a.before.directory.ends == Ends::Right && is_elsewhere
    }),
    ("next slot: place 0,0,0 in a directory that is not right", |a| {
        a.before.code == 7 && a.answer == 5 && a.before.place == [0, 0, 0]
    }),
    ("next slot: not between slots", |a| a.before.code == 7 && a.answer == 5 && a.before.place[..2] == [0, 5]),
    // 8, 10
    ("put slot: on track 0", |a| a.before.code == 8 && a.answer == 0 && a.before.place[0] == 0),
    ("put slot: in a sector that the directory has taken", |a| a.is_in_taken(8)),
    ("put slot: before any was shown", |a| a.before.is(8, 16) && a.answer == 5 && a.before.place == [0, 0, 0]),
    ("put slot: not between slots", |a| {
        a.before.is(8, 16) && a.answer == 5 && a.before.directory.ends == Ends::Right && a.before.place != [0, 0, 0]
    }),
    ("put slot: a slot of a directory that is not right", |a| {
        a.before.is(8, 16)
            && a.answer == 5
            && a.before.directory.ends != Ends::Right
            && a.before.is_slot(a.before.place)
    }),
    ("put slot: another block reads there", |a| a.before.code == 8 && a.answer == 0 && a.others.contains(&1)),
    ("put slot: another block writes there", |a| a.before.code == 8 && a.answer == 0 && a.others.contains(&2)),
    ("write sector: from a closed block", |a| a.before.is(10, 0) && a.answer == 0),
    ("write sector: from a directory block", |a| a.before.is(10, 16) && a.answer == 0),
    ("write sector: a boot sector", |a| a.before.code == 10 && a.answer == 0 && a.before.position == (0, 1)),
    ("write sector: the information record", |a| a.before.code == 10 && a.answer == 0 && a.before.position == (0, 3)),
    ("write sector: the directory's first", |a| a.before.code == 10 && a.answer == 0 && a.before.position == (0, 5)),
    ("write sector: one that the directory has taken", |a| {
        let is_directorys = a.before.directory.sectors.contains(&a.before.position);
        a.before.code == 10 && a.answer == 0 && is_directorys && a.before.position.0 > 0
    }),
    ("write sector: the last", |a| a.before.code == 10 && a.answer == 0 && a.before.is_last_sector()),
    ("write sector: first free", |a| {
        a.before.code == 10 && a.answer == 0 && a.before.count > 0 && a.before.position == a.before.first
    }),
    ("write sector: while another block writes", |a| a.before.code == 10 && a.answer == 0 && a.another_writes),
    ("write sector: 0,0 refused", |a| a.before.is(10, 0) && a.answer == 10 && a.before.position == NONE),
    ("write sector: a sector over S refused", |a| a.before.code == 10 && a.answer == 10 && a.before.is_sector_past()),
    ("write sector: a track over M refused", |a| a.before.code == 10 && a.answer == 10 && a.before.is_track_past()),
    // 9
    ("read sector: on track 0", |a| a.before.code == 9 && a.answer == 0 && a.before.position.0 == 0),
    ("read sector: the last", |a| a.before.code == 9 && a.answer == 0 && a.before.is_last_sector()),
    ("read sector: 0,0 refused", |a| a.before.code == 9 && a.answer == 9 && a.before.position == NONE),
    ("read sector: a sector over S refused", |a| a.before.code == 9 && a.answer == 9 && a.before.is_sector_past()),
    ("read sector: a track over M refused", |a| a.before.code == 9 && a.answer == 9 && a.before.is_track_past()),
    // 12
    ("delete: size 0", |a| a.answer == 0 && a.before.deletes(|slot| slot.size == 0)),
    ("delete: size 0 with addresses that are no data sectors", |a| {
        a.answer == 0 && a.before.deletes(|slot| slot.size == 0 && slot.start != NONE && !a.before.is_data(slot.start))
    }),
    ("delete: of a name behind a never-used slot", |a| {
        a.before.code == 12 && a.answer == 0 && a.before.names.behind_hole
    }),
    ("delete: behind a free chain", |a| a.answer == 0 && a.before.count > 0 && a.before.deletes(|slot| slot.size > 0)),
    ("delete: behind an empty free chain", |a| {
        a.answer == 0 && a.before.count == 0 && a.before.deletes(|slot| slot.size > 0)
    }),
    ("delete: last free is not asked at count 0", |a| {
        a.answer == 0
            && a.before.count == 0
            && a.before.last != NONE
            && !a.before.is_data(a.before.last)
            && a.before.deletes(|slot| slot.size > 0)
    }),
    ("delete: counts sum up to 65,535", |a| a.answer == 0 && a.before.deletes(|slot| a.before.summed(slot) == 65535)),
    ("delete: counts sum up to 65,536", |a| {
        a.answer == 9
            && a.before.is_data(a.before.last)
            && a.before.deletes(|slot| {
                a.before.summed(slot) == 65536 && a.before.is_data(slot.start) && a.before.is_data(slot.end)
            })
    }),
    ("delete: start refused", |a| {
        a.answer == 9 && a.before.deletes(|slot| !a.before.is_data(slot.start) && a.before.is_data(slot.end))
    }),
    ("delete: end refused", |a| {
        a.answer == 9 && a.before.deletes(|slot| a.before.is_data(slot.start) && !a.before.is_data(slot.end))
    }),
    ("delete: last free refused", |a| {
        a.answer == 9
            && !a.before.is_data(a.before.last)
            && a.before.deletes(|slot| a.before.is_data(slot.start) && a.before.is_data(slot.end))
    }),
    ("delete: last free is the file's start", |a| {
        a.answer == 0 && a.before.count > 0 && a.before.deletes(|slot| slot.size > 0 && slot.start == a.before.last)
    }),
    ("delete: both protections give 12", |a| a.answer == 12 && a.before.deletes(|slot| slot.attributes & 192 == 192)),
    ("delete: read protection does not matter", |a| a.answer == 0 && a.before.deletes(|slot| slot.attributes == 32)),
    ("delete: in use by a reader", |a| a.answer == 2 && a.before.code == 12 && a.others == [1]),
    ("delete: in use by a writer", |a| a.answer == 2 && a.before.code == 12 && a.others == [2]),
    ("delete: a closed block has the place", |a| a.answer == 0 && a.before.deletes(|_| true) && a.others.contains(&0)),
    ("delete: a directory block has the place", |a| {
        a.answer == 0 && a.before.deletes(|_| true) && a.others.contains(&16)
    }),
    // 13
    ("rename: its own name", |a| a.answer == 3 && a.before.renames(|_| true) && a.before.names.are_equal),
    ("rename: another file's name", |a| a.answer == 3 && a.before.renames(|_| true) && !a.before.names.are_equal),
    ("rename: byte 59 spoils the new name", |a| a.answer == 21 && a.before.code == 13 && a.before.compression == 255),
    ("rename: delete protection does not matter", |a| {
        a.answer == 0 && a.before.renames(|slot| slot.attributes & 64 != 0)
    }),
    ("rename: read protection does not matter", |a| a.answer == 0 && a.before.renames(|slot| slot.attributes == 32)),
    ("rename: of a name behind a never-used slot", |a| {
        a.before.code == 13 && a.answer == 0 && a.before.names.behind_hole
    }),
    ("rename: 3 for a new name behind a never-used slot", |a| {
        a.before.code == 13 && a.answer == 3 && a.before.names.new_behind_hole && !a.before.names.are_equal
    }),
    ("rename: in use by a reader", |a| a.answer == 2 && a.before.code == 13 && a.others == [1]),
    ("rename: in use by a writer", |a| a.answer == 2 && a.before.code == 13 && a.others == [2]),
    ("rename: a closed block has the place", |a| a.answer == 0 && a.before.renames(|_| true) && a.others.contains(&0)),
];
