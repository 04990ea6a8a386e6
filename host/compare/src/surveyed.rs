//! Situations of the census: what the test looks at before it is taken.

use crate::image::{address, has_twins, is_live, word, Address, Directory, Ends, Shape, NONE};

/// Looked at before a census.
pub struct Surveyed {
    /// A search comes to a never-used slot before a live one.
    hole: bool,
    /// Two live slots have equal names.
    twins: bool,
    directory: Directory,
    /// The first sector that the directory has taken is first free; the start of a file.
    directory_is_free: bool,
    directory_is_a_files: bool,
    /// Of two live slots with equal names one is in a sector that the directory has taken.
    twin_in_taken: bool,
    free: (Address, Address, u16),
    /// Each live slot's start, end and size.
    files: Vec<(Address, Address, u16)>,
    data_sectors: u32,
}

impl Surveyed {
    pub fn of(image: &[u8]) -> Option<Surveyed> {
        let shape = Shape::of(image)?;
        let directory = Directory::of(image, shape);
        let live: Vec<usize> = directory.slots.iter().copied().filter(|&slot| is_live(image, slot)).collect();
        let chain =
            |first: usize, last: usize, count: usize| (address(image, first), address(image, last), word(image, count));
        let mut names: Vec<(&[u8], u8)> =
            live.iter().map(|&slot| (&image[slot..slot + 11], shape.place(slot)[0])).collect();
        names.sort_unstable();
        let free = chain(541, 543, 545);
        let files: Vec<_> = live.iter().map(|&slot| chain(slot + 13, slot + 15, slot + 17)).collect();
        let taken: Vec<Address> = directory.sectors.iter().copied().filter(|at| at.0 > 0).collect();
        Some(Surveyed {
            hole: directory.slots.iter().skip_while(|&&slot| image[slot] != 0).any(|&slot| is_live(image, slot)),
            twin_in_taken: names.windows(2).any(|pair| pair[0].0 == pair[1].0 && pair[1].1 > 0),
            directory_is_free: free.2 > 0 && taken.contains(&free.0),
            directory_is_a_files: files.iter().any(|file| file.2 > 0 && taken.contains(&file.0)),
            twins: has_twins(image, &directory),
            directory,
            free,
            files,
            data_sectors: shape.data_sectors() as u32,
        })
    }

    fn total(&self) -> u32 {
        self.free.2 as u32 + self.directory.taken() as u32 + self.files.iter().map(|file| file.2 as u32).sum::<u32>()
    }
}

type MetByCensus = fn(&Surveyed, u32) -> bool;

/// Situations of the census, each with its test. All must occur.
pub const CENSUS_SITUATIONS: &[(&str, MetByCensus)] = &[
    ("census: accepted with no file", |s, answer| answer == 0 && s.files.is_empty()),
    ("census: accepted with files and free sectors", |s, answer| answer == 0 && !s.files.is_empty() && s.free.2 > 0),
    ("census: accepted with no free sector", |s, answer| answer == 0 && s.free.2 == 0),
    ("census: accepted with a file of no sector", |s, answer| answer == 0 && s.files.iter().any(|file| file.2 == 0)),
    ("census: accepted with a live slot behind a never-used one", |s, answer| answer == 0 && s.hole),
    ("census: two equal names", |s, answer| answer == 43 && s.twins && !s.hole),
    ("census: two equal names and a live slot behind a never-used one", |s, answer| answer == 43 && s.twins && s.hole),
    ("census: free count over M·S", |s, answer| answer == 44 && s.free.2 as u32 > s.data_sectors),
    ("census: free count 0 with an address", |s, answer| answer == 44 && s.free.2 == 0),
    ("census: free chain wrong inside", |s, answer| answer == 44 && s.free.2 > 1 && s.free.2 as u32 <= s.data_sectors),
    ("census: a file's count over M·S", |s, answer| {
        answer == 45 && s.files.iter().any(|file| file.2 as u32 > s.data_sectors)
    }),
    ("census: a file's count 0 with an address", |s, answer| {
        answer == 45 && s.files.iter().any(|file| file.2 == 0 && (file.0 != NONE || file.1 != NONE))
    }),
    ("census: sectors lost", |s, answer| answer == 46 && s.total() < s.data_sectors),
    ("census: sectors shared", |s, answer| answer == 46 && s.total() > s.data_sectors),
    ("census: sectors shared and as many lost", |s, answer| answer == 46 && s.total() == s.data_sectors),
    ("census: accepted with a sector that the directory has taken", |s, answer| {
        answer == 0 && s.directory.taken() == 1 && s.free.2 > 0 && !s.files.is_empty()
    }),
    ("census: accepted with several of them", |s, answer| answer == 0 && s.directory.taken() > 1),
    ("census: accepted with several of them and no free sector", |s, answer| {
        answer == 0 && s.directory.taken() > 1 && s.free.2 == 0
    }),
    ("census: accepted with the longest directory", |s, answer| {
        answer == 0 && s.directory.taken() as u32 == s.data_sectors
    }),
    ("census: accepted with a sector of track 0 behind one that was taken", |s, answer| {
        answer == 0 && s.directory.taken() > 0 && s.directory.last().0 == 0
    }),
    ("census: 42 for a circle through data sectors", |s, answer| {
        answer == 42 && s.directory.ends == Ends::Never && s.directory.taken() > 0
    }),
    ("census: 42 for a data sector that links astray", |s, answer| {
        answer == 42 && s.directory.ends == Ends::Astray && s.directory.last().0 > 0
    }),
    ("census: 43 for a name in a sector that was taken", |s, answer| answer == 43 && s.twin_in_taken),
    ("census: 46 for a sector of the directory that is free", |s, answer| answer == 46 && s.directory_is_free),
    ("census: 46 for a sector of the directory that is a file's", |s, answer| answer == 46 && s.directory_is_a_files),
];
