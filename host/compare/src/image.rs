//! A diskette as the test looks at it, between calls and to know what has been tried: its shape, and the directory by its links.
//! Written for the test, beside the reference's.

/// Track and sector.
pub type Address = (u8, u8);

/// 0,0: the end of a chain.
pub const NONE: Address = (0, 0);

/// Where the image states its last track and the sectors of a track.
pub const SHAPE: std::ops::Range<usize> = 550..552;

#[derive(Clone, Copy, PartialEq)]
pub struct Shape {
    pub last: u8,
    pub per: u8,
}

pub fn address(bytes: &[u8], at: usize) -> Address {
    (bytes[at], bytes[at + 1])
}

pub fn word(bytes: &[u8], at: usize) -> u16 {
    u16::from_be_bytes([bytes[at], bytes[at + 1]])
}

impl Shape {
    pub fn of(image: &[u8]) -> Option<Shape> {
        let shape = Shape { last: *image.get(SHAPE.start)?, per: *image.get(SHAPE.start + 1)? };
        let right = (1..=79).contains(&shape.last)
            && (5..=36).contains(&shape.per)
            && image.len() == (shape.last as usize + 1) * shape.per as usize * 256;
        Some(shape).filter(|_| right)
    }

    pub fn is_data(&self, (track, sector): Address) -> bool {
        (1..=self.last).contains(&track) && (1..=self.per).contains(&sector)
    }

    pub fn offset(&self, (track, sector): Address) -> usize {
        (track as usize * self.per as usize + sector as usize - 1) * 256
    }

    pub fn data_sectors(&self) -> usize {
        self.last as usize * self.per as usize
    }

    /// The number of a data sector, as the census lists it.
    pub fn number(&self, (track, sector): Address) -> u16 {
        (track as u16 - 1) * self.per as u16 + sector as u16 - 1
    }

    /// Of the sector before which there are this many in the image.
    pub fn address(&self, sectors: usize) -> Address {
        ((sectors / self.per as usize) as u8, (sectors % self.per as usize + 1) as u8)
    }

    /// The data sector of this number.
    pub fn data_address(&self, number: usize) -> Address {
        self.address(self.per as usize + number)
    }

    /// How many sectors a directory can have.
    pub fn longest(&self) -> usize {
        self.per as usize - 4 + self.data_sectors()
    }

    fn may_be_the_directorys(&self, (track, sector): Address) -> bool {
        self.is_data((track, sector)) || (track == 0 && (5..=self.per).contains(&sector))
    }

    /// The place of the slot that begins here.
    pub fn place(&self, slot: usize) -> [u8; 3] {
        let (track, sector) = self.address(slot / 256);
        [track, sector, (slot % 256) as u8]
    }
}

/// How the directory's links end.
#[derive(Clone, Copy, PartialEq)]
pub enum Ends {
    /// At 0,0: it is right.
    Right,
    /// At an address where no slots can be.
    Astray,
    /// In a circle.
    Never,
}

/// The directory by its links from 0,5 on, as far as these are right.
pub struct Directory {
    pub sectors: Vec<Address>,
    pub ends: Ends,
    /// Where its slots begin in the order in which a search comes to them.
    pub slots: Vec<usize>,
    /// Some slot is deleted or never used.
    pub has_room: bool,
}

impl Directory {
    pub fn of(image: &[u8], shape: Shape) -> Directory {
        let mut sectors = vec![(0, 5)];
        let mut passed = vec![false; image.len() / 256];
        let ends = loop {
            let at = shape.offset(sectors[sectors.len() - 1]);
            passed[at / 256] = true;
            let next = address(image, at);
            if next == NONE {
                break Ends::Right;
            }
            if !shape.may_be_the_directorys(next) {
                break Ends::Astray;
            }
            if passed[shape.offset(next) / 256] {
                break Ends::Never;
            }
            sectors.push(next);
        };
        let slots: Vec<usize> = sectors.iter().flat_map(|&at| slots_of(shape.offset(at))).collect();
        let has_room = slots.iter().any(|&slot| !is_live(image, slot));
        Directory { sectors, ends, slots, has_room }
    }

    /// Of what is no diskette.
    pub fn none() -> Directory {
        Directory { sectors: vec![], ends: Ends::Astray, slots: vec![], has_room: false }
    }

    pub fn last(&self) -> Address {
        self.sectors.last().copied().unwrap_or(NONE)
    }

    /// How many data sectors it has.
    pub fn taken(&self) -> usize {
        self.sectors.iter().filter(|at| at.0 > 0).count()
    }
}

fn slots_of(sector: usize) -> impl Iterator<Item = usize> {
    (0..10).map(move |i| sector + 16 + 24 * i)
}

pub fn is_live(image: &[u8], slot: usize) -> bool {
    (1..128).contains(&image[slot])
}

/// Two live slots have equal names.
pub fn has_twins(image: &[u8], directory: &Directory) -> bool {
    let live = directory.slots.iter().filter(|&&slot| is_live(image, slot));
    let mut names: Vec<&[u8]> = live.map(|&slot| &image[slot..slot + 11]).collect();
    names.sort_unstable();
    names.windows(2).any(|pair| pair[0] == pair[1])
}
