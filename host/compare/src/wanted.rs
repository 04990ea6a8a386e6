//! What format is asked for, right or wrong.

use crate::random::Random;

/// The bytes of a label.
pub const LABEL: usize = 11;

/// Labels of another length.
pub const NO_LABELS: [usize; 4] = [0, 10, 12, 300];

/// What is lost of a number where a program keeps 8, 16 or 32 bits of it, or 32 or 64 of its product with 256.
const LOST: [usize; 5] = [1 << 8, 1 << 16, 1 << 32, 1 << 24, 1 << 56];

/// Format of one of the two services.
pub type Format = fn(&mut [u8], usize, usize, &[u8], u16, [u8; 3]) -> u32;

/// A blank diskette to be made: all that format is given beside the image.
#[derive(Clone)]
pub struct Wanted {
    pub last: usize,
    pub per: usize,
    pub label: Vec<u8>,
    pub volume: u16,
    pub date: [u8; 3],
}

impl Wanted {
    /// Of this shape, with any label, volume number and date.
    pub fn of(random: &mut Random, last: usize, per: usize) -> Wanted {
        Wanted::labelled(random, last, per, LABEL)
    }

    /// The same with a label of this many bytes.
    pub fn labelled(random: &mut Random, last: usize, per: usize, bytes: usize) -> Wanted {
        let mut label = vec![0; bytes];
        let mut date = [0; 3];
        random.fill(&mut label);
        random.fill(&mut date);
        Wanted { last, per, label, volume: random.next() as u16, date }
    }

    pub fn last_is_right(&self) -> bool {
        (1..=79).contains(&self.last)
    }

    pub fn per_is_right(&self) -> bool {
        (5..=36).contains(&self.per)
    }

    /// The bytes of its image, as a program would work them out that does not look at the limits first.
    pub fn image_bytes(&self) -> usize {
        self.last.wrapping_add(1).wrapping_mul(self.per).wrapping_mul(flex::SECTOR)
    }

    /// The answer of one of the services, to which this label is lent.
    pub fn made(&self, format: Format, image: &mut [u8], label: &[u8]) -> u32 {
        format(image, self.last, self.per, label, self.volume, self.date)
    }
}

/// Last tracks that no diskette has, some of them this one when a part of the number is lost.
pub fn no_last_tracks(last: usize) -> Vec<usize> {
    [0, 80, 255, 256, 1 << 32, usize::MAX].into_iter().chain(LOST.map(|lost| last + lost)).collect()
}

/// Likewise sectors per track.
pub fn no_per_tracks(per: usize) -> Vec<usize> {
    [0, 4, 37, 255, 256, 1 << 32, usize::MAX].into_iter().chain(LOST.map(|lost| per + lost)).collect()
}
