//! New files that a flexbox which is gone has left beside an image: `.flexbox-PROCESS-NUMBER-IMAGE.new`. A kill or a cut of power leaves
//! them; the next change of that image removes them, under its lock.

use crate::failure::note;
use crate::image::Image;
use std::ffi::{OsStr, OsString};
use std::fs;
use std::os::unix::ffi::{OsStrExt, OsStringExt};
use std::path::{Path, PathBuf};
use std::process;

const BEGIN: &str = ".flexbox-";
const END: &str = ".new";
/// How many bytes of an image's name are in that of a new file: a name has 255 at the most.
const NAMED: usize = 64;

/// The name of this process's new file for what is to be at `path`.
pub fn name(path: &Path, number: u32) -> OsString {
    let mut name = format!("{}{}-{}-", BEGIN, process::id(), number).into_bytes();
    name.extend_from_slice(named(path));
    name.extend_from_slice(END.as_bytes());
    OsString::from_vec(name)
}

fn named(path: &Path) -> &[u8] {
    let name = path.file_name().unwrap_or_default().as_bytes();
    &name[..name.len().min(NAMED)]
}

/// What is there for the image at this path of processes that are gone. One with our own number is gone, too: this is asked
/// before we make any.
pub fn beside(path: &Path) -> Vec<PathBuf> {
    let folder = crate::replace::folder(path);
    let files = fs::read_dir(folder).into_iter().flatten().flatten();
    // A folder of such a name is none of ours.
    let is_file = |file: &fs::DirEntry| file.file_type().map_or(false, |kind| kind.is_file());
    let left = files.filter(|file| is_left(&file.file_name(), path) && is_file(file));
    let mut left: Vec<PathBuf> = left.map(|file| file.path()).collect();
    left.sort();
    left
}

fn is_left(name: &OsStr, path: &Path) -> bool {
    process_of(name, path).map_or(false, |id| id == process::id() || !is_running(id))
}

/// The process that has made this file, if it is a new file for what is at `path`.
fn process_of(name: &OsStr, path: &Path) -> Option<u32> {
    let rest = name.as_bytes().strip_prefix(BEGIN.as_bytes())?.strip_suffix(END.as_bytes())?;
    let numbers = rest.strip_suffix(named(path))?.strip_suffix(b"-")?;
    let (id, number) = std::str::from_utf8(numbers).ok()?.split_once('-')?;
    number.parse::<u32>().ok()?;
    id.parse().ok()
}

/// Where there is no /proc nothing is known of processes, and none is gone.
fn is_running(id: u32) -> bool {
    let all = Path::new("/proc");
    !all.join("self").exists() || all.join(id.to_string()).exists()
}

/// Whoever changes the image has its lock: no other can be about to put such a file in its place.
pub fn remove(image: &Image) {
    for path in beside(image.path()) {
        if fs::remove_file(&path).is_ok() {
            let name = path.file_name().unwrap_or_default().to_string_lossy();
            note(&format!("{}: {}, left by a flexbox that is gone, is removed", image.named().display(), name));
        }
    }
}

#[cfg(test)]
mod tests {
    use super::*;
    use std::os::unix::process::parent_id;

    #[test]
    fn only_new_files_of_this_image_and_of_no_process_are_left() {
        let path = Path::new("there/disk");
        // No process has this number: Linux has at most 4,194,304.
        let gone = |rest: &str| is_left(OsStr::new(&format!(".flexbox-{}-{}", 4_200_000, rest)), path);
        assert!(gone("0-disk.new") && gone("17-disk.new"));
        for other in ["0-disk2.new", "0-other.new", "0.new", "-disk.new", "x-disk.new", "0-disk", "0disk.new"] {
            assert!(!gone(other), "{}", other);
        }
        let running = format!(".flexbox-{}-0-disk.new", parent_id());
        assert!(!is_left(OsStr::new(&running), path));
        assert!(is_left(&name(path, 3), path), "of a process that had our number");
        assert!(!is_left(OsStr::new("disk"), path) && !is_left(OsStr::new(".flexbox-disk.new"), path));
    }

    #[test]
    fn a_folder_is_not_left() {
        let folder = std::env::temp_dir().join(format!("flexbox-leftovers-{}", process::id()));
        fs::create_dir_all(folder.join(".flexbox-4200000-0-disk.new")).unwrap();
        fs::write(folder.join(".flexbox-4200000-1-disk.new"), b"").unwrap();
        let left = beside(&folder.join("disk"));
        fs::remove_dir_all(&folder).unwrap();
        assert_eq!(left, [folder.join(".flexbox-4200000-1-disk.new")]);
    }

    #[test]
    fn a_long_name_is_cut() {
        let long = PathBuf::from("d".repeat(255));
        assert!(name(&long, 100).len() <= 255);
        assert!(is_left(&name(&long, 100), &long));
    }
}
