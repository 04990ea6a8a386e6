//! Situations of format: what the test looks at before the image is filled.

use crate::image::{is_live, Directory, Shape};
use crate::wanted::{Wanted, LABEL};
use flex::ACTIVITY;

/// Looked at before a format.
pub struct Formatted {
    wanted: Wanted,
    image_len: usize,
    /// What the image is before.
    shape: Option<Shape>,
    /// It has a live slot.
    has_files: bool,
    /// Its directory has grown.
    has_grown: bool,
    /// Of each block.
    activities: Vec<u8>,
}

impl Formatted {
    pub fn before(image: &[u8], table: &[u8], wanted: &Wanted) -> Formatted {
        let shape = Shape::of(image);
        let directory = shape.map_or_else(Directory::none, |shape| Directory::of(image, shape));
        Formatted {
            wanted: wanted.clone(),
            image_len: image.len(),
            shape,
            has_files: directory.slots.iter().any(|&slot| is_live(image, slot)),
            has_grown: directory.taken() > 0,
            activities: table.chunks(flex::BLOCK).map(|block| block[ACTIVITY]).collect(),
        }
    }

    fn is(&self, last: usize, per: usize) -> bool {
        (self.wanted.last, self.wanted.per) == (last, per)
    }

    fn image_is_right(&self) -> bool {
        self.image_len == self.wanted.image_bytes()
    }

    fn label_is_right(&self) -> bool {
        self.wanted.label.len() == LABEL
    }

    /// The image is this much longer than it should be, and all else is right.
    fn image_is_off_by(&self, bytes: isize) -> bool {
        self.label_is_right() && self.image_len.wrapping_sub(self.wanted.image_bytes()) == bytes as usize
    }

    /// The label alone is wrong, of this many bytes.
    fn label_alone_has(&self, bytes: usize) -> bool {
        self.image_is_right() && self.wanted.label.len() == bytes
    }

    /// M alone is wrong, and this.
    fn last_alone_is(&self, last: usize) -> bool {
        self.wanted.last == last && self.wanted.per_is_right() && self.image_is_right() && self.label_is_right()
    }

    /// S alone is wrong, and this.
    fn per_alone_is(&self, per: usize) -> bool {
        self.wanted.per == per && self.wanted.last_is_right() && self.image_is_right() && self.label_is_right()
    }

    /// M or S has more than these bits, though not twice as many; by these alone both would be right, and so would the image.
    fn is_right_by(&self, bits: u32) -> bool {
        let Wanted { last, per, .. } = self.wanted;
        let most = (1 << bits) - 1;
        let cut = Wanted { last: last & most, per: per & most, ..self.wanted.clone() };
        let is_right = cut.last_is_right() && cut.per_is_right() && cut.image_bytes() == self.image_len;
        is_right && last.max(per) >> bits <= most
    }
}

type MetByFormat = fn(&Formatted, u32) -> bool;

/// Situations of format, each with its test. All must occur.
pub const FORMAT_SITUATIONS: &[(&str, MetByFormat)] = &[
    ("format: the smallest diskette", |f, answer| answer == 0 && f.is(1, 5)),
    ("format: the largest diskette", |f, answer| answer == 0 && f.is(79, 36)),
    ("format: over a diskette with files", |f, answer| answer == 0 && f.has_files),
    ("format: over a diskette whose directory has grown", |f, answer| answer == 0 && f.has_grown),
    ("format: over a diskette of another shape", |f, answer| {
        let wanted = Shape { last: f.wanted.last as u8, per: f.wanted.per as u8 };
        answer == 0 && f.shape.map_or(false, |shape| shape != wanted)
    }),
    ("format: over what is no diskette", |f, answer| answer == 0 && f.shape.is_none()),
    ("format: while all blocks are closed", |f, answer| answer == 0 && f.activities.iter().all(|&is| is == 0)),
    ("format: while a block reads", |f, answer| answer == 0 && f.activities.contains(&1)),
    ("format: while a block writes", |f, answer| answer == 0 && f.activities.contains(&2)),
    ("format: 40 for an image of no bytes", |f, answer| answer == 40 && f.image_len == 0 && f.label_is_right()),
    ("format: 40 for an image one byte short", |f, answer| answer == 40 && f.image_is_off_by(-1)),
    ("format: 40 for an image one byte long", |f, answer| answer == 40 && f.image_is_off_by(1)),
    ("format: 40 for an image a track short", |f, answer| {
        answer == 40 && f.image_is_off_by(-((f.wanted.per * flex::SECTOR) as isize))
    }),
    ("format: 40 for an image a track long", |f, answer| {
        answer == 40 && f.image_is_off_by((f.wanted.per * flex::SECTOR) as isize)
    }),
    ("format: 40 for the image of M and S the other way round", |f, answer| {
        answer == 40 && f.label_is_right() && f.image_len == (f.wanted.per + 1) * f.wanted.last * flex::SECTOR
    }),
    ("format: 40 for a label of no bytes", |f, answer| answer == 40 && f.label_alone_has(0)),
    ("format: 40 for a label of 10 bytes", |f, answer| answer == 40 && f.label_alone_has(10)),
    ("format: 40 for a label of 12 bytes", |f, answer| answer == 40 && f.label_alone_has(12)),
    ("format: 40 for both image and label", |f, answer| answer == 40 && !f.image_is_right() && !f.label_is_right()),
    ("format: 41 for M 0 alone", |f, answer| answer == 41 && f.last_alone_is(0)),
    ("format: 41 for M 80 alone", |f, answer| answer == 41 && f.last_alone_is(80)),
    ("format: 41 for S 4 alone", |f, answer| answer == 41 && f.per_alone_is(4)),
    ("format: 41 for S 37 alone", |f, answer| answer == 41 && f.per_alone_is(37)),
    ("format: 41 for both M and S", |f, answer| answer == 41 && !f.wanted.last_is_right() && !f.wanted.per_is_right()),
    ("format: 41 and not 40 with an image of another length", |f, answer| answer == 41 && !f.image_is_right()),
    ("format: 41 and not 40 with a label of another length", |f, answer| answer == 41 && !f.label_is_right()),
    ("format: 41 where 8 bits of M and S would be right", |f, answer| answer == 41 && f.is_right_by(8)),
    ("format: 41 where 16 bits of M and S would be right", |f, answer| answer == 41 && f.is_right_by(16)),
    ("format: 41 where 32 bits of M and S would be right", |f, answer| answer == 41 && f.is_right_by(32)),
    ("format: 41 where the product of 64 bits is the image's length", |f, answer| {
        answer == 41 && f.image_len > 0 && f.image_is_right() && f.wanted.last.max(f.wanted.per) > 1 << 32
    }),
];
