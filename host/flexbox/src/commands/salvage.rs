//! `salvage`: all that can be read of any file that may once have been a diskette, into a folder, and a list of it.

use super::{plural, print, print_json};
use crate::failure::Failure;
use crate::image::Image;
use crate::json;
use crate::raw;
use crate::replace::write_file;
use crate::salvage::{Fault, Found, Origin, Salvage};
use crate::words::Words;
use flex::{Address, Name, Shape, LARGEST_IMAGE};
use std::collections::HashSet;
use std::fmt::Write;
use std::fs;
use std::io;
use std::path::Path;

/// A file in the folder, or why it is not there.
pub struct Saved {
    pub name: String,
    pub failure: Option<String>,
}

/// Status 1 where something is not whole, or in no file: what could be read is given, but not as if it were all. A file that can't be
/// written, status 3, does not keep the others from being saved and listed.
pub fn run(words: &Words) -> Result<(), Failure> {
    let folder = Path::new(&words.others()[0]);
    let bytes = Image::look(words.image(), words.wait())?.read()?;
    let salvage = Salvage::of(&bytes, shape(words, &bytes)?, words.has("--deleted"));
    let names = names(&salvage.files);
    make_folder(folder)?;
    let save = |(file, name): (&Found, String)| Saved {
        failure: write_file(&folder.join(&name), None, &salvage.bytes(file)).err(),
        name,
    };
    let saved: Vec<Saved> = salvage.files.iter().zip(names).map(save).collect();
    match words.has("--json") {
        true => print_json(&as_json(words, &salvage, &saved, bytes.len()))?,
        false => print(as_text(words, &salvage, &saved, bytes.len()).as_bytes())?,
    }
    unwritten(&saved)?;
    match salvage.missing == 0 && salvage.files.iter().all(Found::is_whole) {
        true => Ok(()),
        false => Err(Failure::Shown),
    }
}

/// Why the first of them is not there, and how many others are not.
fn unwritten(saved: &[Saved]) -> Result<(), Failure> {
    let failures: Vec<&String> = saved.iter().filter_map(|file| file.failure.as_ref()).collect();
    match failures.as_slice() {
        [] => Ok(()),
        [only] => Err(Failure::File(only.to_string())),
        [first, others @ ..] => {
            Err(Failure::File(format!("{}; {} more not written", first, plural(others.len(), "file"))))
        }
    }
}

/// What is typed, or what the information record states.
fn shape(words: &Words, bytes: &[u8]) -> Result<Shape, Failure> {
    if let Some(value) = words.value("--shape") {
        let shape = value.to_str().and_then(typed);
        return shape
            .ok_or_else(|| words.unfit("--shape", "M,S, the last track 1 to 79 and the sectors a track 5 to 36"));
    }
    Shape::stated(bytes).filter(|&shape| raw::is_shape(shape)).ok_or_else(|| {
        let why = "states no shape that a diskette can have";
        let fitting = fitting(bytes.len());
        Failure::Usage(format!("{} {}; --shape M,S gives one{}", words.image().display(), why, fitting))
    })
}

/// "34,10"
fn typed(text: &str) -> Option<Shape> {
    let (last, per) = text.split_once(',')?;
    Some(Shape { last: last.parse().ok()?, per: per.parse().ok()? }).filter(|&shape| raw::is_shape(shape))
}

/// The shapes that have just this length.
fn fitting(length: usize) -> String {
    let all = (0..=u8::MAX).flat_map(|last| (0..=u8::MAX).map(move |per| Shape { last, per }));
    let fit = all.filter(|&shape| raw::is_shape(shape) && raw::length(shape) == length);
    let words: Vec<String> = fit.map(|shape| format!("{},{}", shape.last, shape.per)).collect();
    match words.is_empty() {
        true => String::new(),
        false => format!("; by its length it may be {}", words.join(" or ")),
    }
}

/// A folder that was not there, or that is empty: nothing is replaced.
fn make_folder(folder: &Path) -> Result<(), Failure> {
    let failed = |why: String| Failure::File(format!("{}: {}", folder.display(), why));
    match fs::read_dir(folder) {
        Ok(mut files) => match files.next() {
            None => Ok(()),
            Some(file) => {
                let name =
                    file.map_or_else(|error| error.to_string(), |file| file.file_name().to_string_lossy().into_owned());
                Err(failed(format!("it is not empty, it has {}; salvage needs a new folder or an empty one", name)))
            }
        },
        Err(error) if error.kind() == io::ErrorKind::NotFound => {
            fs::create_dir(folder).map_err(|error| failed(error.to_string()))
        }
        Err(error) => Err(failed(error.to_string())),
    }
}

/// What each file is called in the folder: as on the diskette, with _ for what is no letter, digit or hyphen, and a number behind it where
/// the name is taken, in large or small letters, since some file systems do not tell them apart; a lost chain LOST0001.DAT and on.
fn names(files: &[Found]) -> Vec<String> {
    let mut taken = HashSet::new();
    let mut lost = 0;
    let mut name = |file: &Found| {
        let plain = match file.entry() {
            Some(entry) => safe(&entry.name),
            None => {
                lost += 1;
                format!("LOST{:04}.DAT", lost)
            }
        };
        let numbered = |number: usize| if number == 1 { plain.clone() } else { format!("{}-{}", plain, number) };
        (1..).map(numbered).find(|name| taken.insert(name.to_lowercase())).unwrap_or_default()
    };
    files.iter().map(&mut name).collect()
}

fn safe(name: &Name) -> String {
    let (stem, extension) = name.bytes().split_at(8);
    let word = |bytes: &[u8]| -> String {
        let used = bytes.iter().position(|&byte| byte == 0).unwrap_or(bytes.len());
        let letter = |&byte: &u8| if byte.is_ascii_alphanumeric() || byte == b'-' { byte as char } else { '_' };
        bytes[..used].iter().map(letter).collect()
    };
    match word(extension).as_str() {
        "" => word(stem),
        extension => format!("{}.{}", word(stem), extension),
    }
}

fn as_text(words: &Words, salvage: &Salvage, saved: &[Saved], length: usize) -> String {
    let mut text = told_length(salvage, length);
    for (file, Saved { name, failure }) in salvage.files.iter().zip(saved) {
        let missing = if failure.is_none() { "" } else { ", NOT WRITTEN" };
        let _ = writeln!(text, "  {}{}: {}", name, missing, line(salvage, file));
    }
    let there = || salvage.files.iter().zip(saved).filter(|(_, saved)| saved.failure.is_none()).map(|(file, _)| file);
    let whole = there().filter(|file| file.is_whole()).count();
    let lost = there().filter(|file| file.origin == Origin::Lost).count();
    let _ = writeln!(
        text,
        "{}: {} in {}, {} of them whole; {} in no file",
        words.image().display(),
        plural(there().count() - lost, "file"),
        Path::new(&words.others()[0]).display(),
        whole,
        plural(lost, "chain")
    );
    text
}

/// What does not fit to the shape.
fn told_length(salvage: &Salvage, length: usize) -> String {
    let shape = salvage.shape;
    let expected = raw::length(shape);
    let what = format!("tracks 0 to {} of {} sectors have {} bytes", shape.last, shape.per, expected);
    match length {
        _ if length < expected => {
            let missing = plural(salvage.missing, "sector");
            format!("{}, and the file has {}: {} read as zeros\n", what, length, missing)
        }
        _ if length > LARGEST_IMAGE => format!("{}, and the file has more: the rest was not looked at\n", what),
        _ if length > expected => format!("{}, and the file has {}: the rest was not looked at\n", what, length),
        _ => String::new(),
    }
}

/// "slot 2, at 0,5 byte 40: 2 of 5 sectors: cut, behind 1,6 it leads to 9,9"
fn line(salvage: &Salvage, file: &Found) -> String {
    let (place, entry) = match &file.slot {
        Some((place, entry)) => (place, entry),
        None => return lost_line(salvage, file),
    };
    let origin = match file.origin {
        Origin::Directory(number) => format!("slot {}, at {}", number, place),
        Origin::Deleted => format!("a deleted slot at {}", place),
        _ => format!("a slot at {}, which the directory does not reach", place),
    };
    let mut words: Vec<String> = file.faults.iter().map(Fault::to_string).collect();
    if words.is_empty() {
        words.push("whole".to_string());
    }
    if entry.read_protected {
        words.push("read-protected".to_string());
    }
    let ends = match file.faults.contains(&Fault::Cut) && file.next != Address::NONE {
        true => format!("; the next link is {}", file.next),
        false => String::new(),
    };
    format!(
        "{}: {} of {}: {}{}",
        origin,
        file.sectors.len(),
        plural(entry.sectors.into(), "sector"),
        words.join(", "),
        ends
    )
}

fn lost_line(salvage: &Salvage, file: &Found) -> String {
    let (first, last) = (file.sectors[0], file.sectors[file.sectors.len() - 1]);
    let size = plural(file.sectors.len(), "sector");
    let missing = if file.faults.is_empty() { "" } else { ", missing" };
    let record = salvage.first_record(file);
    format!("in no file: {} from {} to {}, the first is record {}{}", size, first, last, record, missing)
}

pub fn as_json(words: &Words, salvage: &Salvage, saved: &[Saved], length: usize) -> String {
    let files = salvage.files.iter().zip(saved).map(|(file, saved)| file_as_json(salvage, file, saved));
    json::Object::new()
        .with_text("image", &words.image().to_string_lossy())
        .with_text("folder", &words.others()[0].to_string_lossy())
        .with("bytes", length)
        .with("last_track", salvage.shape.last)
        .with("sectors_per_track", salvage.shape.per)
        .with("missing_sectors", salvage.missing)
        .with("files", json::list(files))
        .end()
}

fn file_as_json(salvage: &Salvage, file: &Found, saved: &Saved) -> String {
    let (origin, slot) = match file.origin {
        Origin::Directory(number) => ("directory", Some(number)),
        Origin::Unreached => ("unreached", None),
        Origin::Deleted => ("deleted", None),
        Origin::Lost => ("lost", None),
    };
    let entry = file.entry();
    let place = file.slot.as_ref().map(|(place, _)| place);
    json::Object::new()
        .with_text("file", &saved.name)
        .with("is_written", saved.failure.is_none())
        .with_text("origin", origin)
        .with("slot", json::number(slot))
        .with("directory_sector", place.map_or("null".to_string(), |place| json::address(place.sector)))
        .with("displacement", json::number(place.map(|place| place.displacement.into())))
        .with("name", entry.map_or("null".to_string(), |entry| json::text(&entry.name.to_string())))
        .with("stated_sectors", json::number(entry.map(|entry| entry.sectors.into())))
        .with("sectors", json::list(file.sectors.iter().map(|&at| json::address(at))))
        .with("first_record", salvage.first_record(file))
        .with("is_whole", file.is_whole())
        .with("faults", json::list(file.faults.iter().map(|fault| json::text(&fault.to_string()))))
        .end()
}

#[cfg(test)]
mod tests {
    use super::*;

    #[test]
    fn names_are_safe_and_none_is_taken_twice() {
        assert_eq!(safe(&Name::of(*b"A/../B\0\0T X")), "A____B.T_X");
        assert_eq!(safe(&Name::of(*b"..\0\0\0\0\0\0\0\0\0")), "__");
        let file = |name: Option<&str>| Found {
            origin: Origin::Lost,
            slot: name.map(|name| {
                let mut slot = [0; flex::SLOT];
                slot[..11].copy_from_slice(name.parse::<Name>().unwrap().bytes());
                (flex::Place::default(), crate::raw::entry(&slot))
            }),
            sectors: Vec::new(),
            next: Address::NONE,
            faults: Vec::new(),
        };
        let files = [Some("A.TXT"), Some("LOST0001.DAT"), Some("A.TXT"), None, Some("A.TXT"), None].map(file);
        let expected = ["A.TXT", "LOST0001.DAT", "A.TXT-2", "LOST0001.DAT-2", "A.TXT-3", "LOST0002.DAT"];
        assert_eq!(names(&files), expected);
        assert_eq!(names(&[Some("A.TXT"), Some("a.TXT")].map(file)), ["A.TXT", "a.TXT-2"]);
    }

    #[test]
    fn shapes_are_those_of_diskettes() {
        assert_eq!(typed("34,10"), Some(Shape { last: 34, per: 10 }));
        for wrong in ["0,10", "80,10", "34,4", "34,37", "34", "34,10,1", "x,10", ""] {
            assert_eq!(typed(wrong), None, "{}", wrong);
        }
        assert_eq!(fitting(89_600), "; by its length it may be 9,35 or 13,25 or 24,14 or 34,10 or 49,7 or 69,5");
        assert_eq!(fitting(89_601), "");
    }
}
