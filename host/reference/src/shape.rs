//! The image: its shape, and where its sectors are.

/// A sector's address as it stands in the image: track, then sector.
pub type Address = (u8, u8);

/// 0,0: the end of a chain, or no sector yet.
pub const NONE: Address = (0, 0);

/// The bytes of a sector.
pub const SECTOR: usize = 256;

/// Sector (0, 3), the information record, begins here whatever the shape is.
pub const INFORMATION: usize = 2 * SECTOR;

/// M is the last track, S the sectors per track.
#[derive(Clone, Copy)]
pub struct Shape {
    pub last: usize,
    pub per: usize,
}

impl Shape {
    /// "The shape is right if the length is at least 552, both limits hold and the length is (M + 1)·S·256."
    pub fn of(image: &[u8]) -> Option<Shape> {
        if image.len() < 552 {
            return None;
        }
        Shape::within_limits(image[550] as usize, image[551] as usize).filter(|shape| image.len() == shape.bytes())
    }

    /// The two limits: 1 ≤ M ≤ 79 and 5 ≤ S ≤ 36.
    pub fn within_limits(last: usize, per: usize) -> Option<Shape> {
        if (1..=79).contains(&last) && (5..=36).contains(&per) {
            Some(Shape { last, per })
        } else {
            None
        }
    }

    /// "(M + 1)·S·256"
    pub fn bytes(&self) -> usize {
        (self.last + 1) * self.per * SECTOR
    }

    /// "Sectors are numbered from 1, tracks from 0."
    pub fn exists(&self, (track, sector): Address) -> bool {
        track as usize <= self.last && sector >= 1 && sector as usize <= self.per
    }

    /// "A data sector has 1 ≤ t ≤ M and 1 ≤ s ≤ S."
    pub fn is_data(&self, address: Address) -> bool {
        address.0 >= 1 && self.exists(address)
    }

    /// "Sector (t, s) begins at (t·S + s − 1)·256." Only of a sector that exists.
    pub fn offset(&self, (track, sector): Address) -> usize {
        (track as usize * self.per + sector as usize - 1) * SECTOR
    }

    /// The address of the sector before which there are this many in the image.
    pub fn address(&self, sectors: usize) -> Address {
        ((sectors / self.per) as u8, (sectors % self.per) as u8 + 1)
    }

    /// The address of the data sector with this number.
    pub fn data_address(&self, number: usize) -> Address {
        self.address(self.per + number)
    }

    /// How many data sectors there are.
    pub fn data_sectors(&self) -> usize {
        self.last * self.per
    }

    /// "its number is (t − 1)·S + s − 1". Only of a data sector.
    pub fn number(&self, (track, sector): Address) -> usize {
        (track as usize - 1) * self.per + sector as usize - 1
    }
}

/// The address that stands at `at`.
pub fn address(bytes: &[u8], at: usize) -> Address {
    (bytes[at], bytes[at + 1])
}

pub fn set_address(bytes: &mut [u8], at: usize, address: Address) {
    bytes[at] = address.0;
    bytes[at + 1] = address.1;
}

/// "Two-byte numbers are high byte first."
pub fn word(bytes: &[u8], at: usize) -> u16 {
    u16::from_be_bytes([bytes[at], bytes[at + 1]])
}

pub fn set_word(bytes: &mut [u8], at: usize, value: u16) {
    bytes[at..at + 2].copy_from_slice(&value.to_be_bytes());
}
