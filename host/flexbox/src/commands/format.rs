//! `format`: a blank diskette, in a new file or in the place of an old one.

use super::{date, refused, try_print};
use crate::failure::Failure;
use crate::image::Image;
use crate::replace;
use crate::words::Words;
use flex::{Diskette, Refusal, LARGEST_IMAGE};
use std::ffi::OsStr;
use std::fs;
use std::io;
use std::os::unix::ffi::OsStrExt;
use std::path::{Path, PathBuf};

/// How many tracks and sectors a track there are unless the words say otherwise.
const TRACKS: u16 = 35;
const SECTORS: u16 = 10;

/// The bytes of a label.
const LABEL: usize = 11;

/// What is asked for. Tracks are counted: the last one, M, has a number that is one less.
pub struct Wanted {
    pub tracks: u16,
    pub sectors: u16,
    pub label: [u8; LABEL],
    pub volume: u16,
    pub date: [u8; 3],
}

pub fn run(words: &Words) -> Result<(), Failure> {
    make(words.image(), &wanted(words)?, |bytes| save(words, bytes))
}

/// The service makes it in memory before any file is touched. Once it is saved, another image is there: a line that can't be printed
/// must not hide that.
pub fn make(image: &Path, wanted: &Wanted, save: impl FnOnce(&[u8]) -> Saved) -> Result<(), Failure> {
    let diskette = blank(wanted).map_err(refused(image, NOT_MADE))?;
    let (free, kept) = keep(image, &diskette, save)?;
    let mut lines = format!(
        "{}: blank, {} tracks of {} sectors, {} bytes, {} sectors free\n",
        image.display(),
        wanted.tracks,
        wanted.sectors,
        diskette.image().len(),
        free
    );
    let kept = kept.map_or(String::new(), |kept| format!("the old image is {}", kept.display()));
    if !kept.is_empty() {
        lines.push_str(&format!("{}: {}\n", image.display(), kept));
    }
    let and = if kept.is_empty() { "" } else { ", and " };
    try_print(lines.as_bytes())
        .map_err(|problem| Failure::File(format!("{}: formatted{}{}, but {}", image.display(), and, kept, problem)))
}

const NOT_MADE: &str = "the blank diskette, which is therefore not made";

/// Where the old image is kept, if there was one.
type Saved = Result<Option<PathBuf>, Failure>;

/// Saves a diskette that the census accepts, and gives how many of its sectors are free, and what saving gives.
fn keep(
    image: &Path,
    diskette: &Diskette,
    save: impl FnOnce(&[u8]) -> Saved,
) -> Result<(usize, Option<PathBuf>), Failure> {
    let held = diskette.survey().map_err(refused(image, NOT_MADE))?;
    let kept = save(diskette.image())?;
    Ok((held.iter().filter(|held| held.owner == 0).count(), kept))
}

fn blank(wanted: &Wanted) -> Result<Diskette, Refusal> {
    let last_track = usize::from(wanted.tracks) - 1;
    Diskette::blank(last_track, wanted.sectors.into(), &wanted.label, wanted.volume, wanted.date)
}

fn wanted(words: &Words) -> Result<Wanted, Failure> {
    Ok(Wanted {
        tracks: words.number("--tracks", "a number of tracks", 2..=80)?.unwrap_or(TRACKS),
        sectors: words.number("--sectors", "a number of sectors a track", 5..=36)?.unwrap_or(SECTORS),
        label: match words.value("--label") {
            None => [0; LABEL],
            Some(word) => {
                label(word).ok_or_else(|| words.unfit("--label", "at most eleven characters of printable ASCII"))?
            }
        },
        volume: words.number("--volume", "a number", 0..=u16::MAX)?.unwrap_or(0),
        date: match words.value("--date") {
            None => date::today()?,
            Some(word) => word.to_str().and_then(date::typed).ok_or_else(|| words.unfit("--date", DATES))?,
        },
    })
}

const DATES: &str = "MONTH-DAY-YEAR, a day of the calendar with a year from 00 to 99 or from 1900 to 2099";

/// Zeros fill it up, as they do names.
fn label(word: &OsStr) -> Option<[u8; LABEL]> {
    let bytes = word.as_bytes();
    let mut label = [0; LABEL];
    label.get_mut(..bytes.len())?.copy_from_slice(bytes);
    bytes.iter().all(|&byte| byte == b' ' || byte.is_ascii_graphic()).then_some(label)
}

/// What is there already stays unless it is to be replaced, and then it is locked as for any other change, and kept.
fn save(words: &Words, bytes: &[u8]) -> Saved {
    let path = words.image();
    match is_there(path)? {
        false => replace::make(path, bytes).map(|()| None).map_err(Failure::File),
        true if words.has("--replace") => put_over(words, bytes).map(Some),
        true => Err(Failure::File(format!("{}: it is there already{}", path.display(), way_out(path)))),
    }
}

/// What is larger than any diskette is not kept twice, and so not replaced.
fn put_over(words: &Words, bytes: &[u8]) -> Result<PathBuf, Failure> {
    let mut image = Image::take(words.image(), words.wait())?;
    let old = image.read()?;
    if old.len() > LARGEST_IMAGE {
        let why = "more than 737,280 bytes, so no diskette; not replaced";
        return Err(Failure::File(format!("{}: {}", words.image().display(), why)));
    }
    image.save_keeping(&old, bytes)
}

/// `--replace` is a way out only where it would not refuse what is there.
fn way_out(path: &Path) -> String {
    match Image::unfit(path) {
        None => "; --replace would make a blank one, and keep this one beside it".to_string(),
        Some(why) => format!(", and --replace would refuse it: {}", why),
    }
}

/// A link counts as it stands, wherever it leads.
pub fn is_there(path: &Path) -> Result<bool, Failure> {
    match fs::symlink_metadata(path) {
        Ok(_) => Ok(true),
        Err(error) if error.kind() == io::ErrorKind::NotFound => Ok(false),
        Err(error) => Err(Failure::File(format!("{}: {}", path.display(), error))),
    }
}

#[cfg(test)]
mod tests {
    use super::*;

    #[test]
    fn what_the_census_refuses_is_not_saved() {
        let mut saved = Vec::new();
        let mut kept = |image: Vec<u8>| {
            keep(Path::new("disk"), &Diskette::new(image), |bytes| {
                saved.push(bytes.to_vec());
                Ok(None)
            })
        };
        let mut damaged = diskettes::blank(1, 5);
        damaged[546] = 4;
        assert!(matches!(kept(damaged), Err(Failure::Refused(Refusal::CensusFree, _))));
        assert!(matches!(kept(diskettes::blank(1, 5)), Ok((5, None))));
        assert_eq!(saved, [diskettes::blank(1, 5)]);
    }

    #[test]
    fn labels() {
        assert_eq!(label(OsStr::new("MAIN 1")), Some(*b"MAIN 1\0\0\0\0\0"));
        assert_eq!(label(OsStr::new("")), Some([0; LABEL]));
        assert_eq!(label(OsStr::new("ELEVEN ~~ 1")), Some(*b"ELEVEN ~~ 1"));
        for wrong in ["TWELVE ~~ 12", "A\tB", "A\nB", "\u{e4}", "\u{7f}"] {
            assert_eq!(label(OsStr::new(wrong)), None, "{:?}", wrong);
        }
        assert_eq!(label(OsStr::from_bytes(b"A\xff")), None);
    }
}
