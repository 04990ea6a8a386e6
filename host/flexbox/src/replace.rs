//! A new image takes its place at once or not at all: over an old image, which may be kept beside it, or where no file is. So does a
//! file that is read from a diskette.

use crate::image::{changed_meanwhile, Image};
use crate::leftovers;
use std::fs::{self, File, Metadata, OpenOptions, Permissions};
use std::io::{self, Write};
use std::os::unix::fs::{MetadataExt, OpenOptionsExt, PermissionsExt};
use std::path::{Path, PathBuf};

/// How many names are tried for a new file.
const TRIES: u32 = 100;
/// The mode of a file that only its owner may read until it is in place.
const PRIVATE: u32 = 0o600;
/// The mode of a new file like any other, before the process's mask is taken from it.
const USUAL: u32 = 0o666;

/// Where a new image goes.
enum Place<'a> {
    /// Over this one, which is locked; owner and mode are kept.
    Over(&'a Image),
    /// Where no file is.
    Empty(&'a Path),
    /// Where no file is, beside this one, with its owner and mode: it is kept there.
    Beside(&'a Image, &'a Path),
    /// A file of this machine: over this one, whose owner and mode are kept, or where no file is.
    File(&'a Path, Option<&'a Metadata>),
}

/// What failed, and whether the new file was in its place by then.
struct Unsaved {
    why: String,
    is_in_place: bool,
}

/// How a new image got its place.
enum Put {
    Renamed,
    /// It still has the name under which it was made, too.
    Linked,
}

/// Puts `bytes` in the old image's place.
pub fn replace(image: &Image, bytes: &[u8]) -> Result<(), String> {
    leftovers::remove(image);
    save(&Place::Over(image), bytes).map_err(|unsaved| unsaved.why)
}

/// Makes a file of this machine of `bytes`: over the `old` one, or where no file is.
pub fn write_file(path: &Path, old: Option<&Metadata>, bytes: &[u8]) -> Result<(), String> {
    save(&Place::File(path, old), bytes).map_err(|unsaved| unsaved.why)
}

/// Makes a new image of `bytes`. A file that is there stays as it is, also one that came just now.
pub fn make(path: &Path, bytes: &[u8]) -> Result<(), String> {
    save(&Place::Empty(path), bytes).map_err(|unsaved| unsaved.why)
}

/// Puts `bytes` in the old image's place, after its `old` bytes are safe beside it, in a file of their own. Gives that file. It is made
/// anew and not moved or linked: at no moment is there no image, and a file system without links will do. Where the image stays as
/// it is, the file goes again.
pub fn replace_keeping(image: &Image, old: &[u8], bytes: &[u8]) -> Result<PathBuf, String> {
    leftovers::remove(image);
    let kept = keep(image, old)?;
    match save(&Place::Over(image), bytes) {
        Ok(()) => Ok(kept),
        Err(unsaved) if unsaved.is_in_place || !image.is_still_there().unwrap_or(false) => {
            Err(format!("{}; the old image is {}", unsaved.why, kept.display()))
        }
        Err(unsaved) => {
            // This file was made above, so nobody else's is deleted.
            let _ = fs::remove_file(&kept);
            Err(unsaved.why)
        }
    }
}

/// Keeps the old bytes under the first of IMAGE.before, IMAGE.before-2 and on that is free: an older one is never lost.
fn keep(image: &Image, old: &[u8]) -> Result<PathBuf, String> {
    let free = (1..=TRIES).map(|number| before(image, number)).find(|path| fs::symlink_metadata(path).is_err());
    let path = free.ok_or_else(|| {
        format!("{}: not changed: {} old images are kept beside it already", image.named().display(), TRIES)
    })?;
    save(&Place::Beside(image, &path), old).map_err(|unsaved| {
        if unsaved.is_in_place {
            // This file was made here, too.
            let _ = fs::remove_file(&path);
        }
        unsaved.why
    })?;
    Ok(path)
}

/// Beside the name that was typed, or, where that is a link, beside what it leads to.
fn before(image: &Image, number: u32) -> PathBuf {
    let is_link = fs::symlink_metadata(image.named()).map_or(false, |metadata| metadata.file_type().is_symlink());
    let mut path = if is_link { image.path() } else { image.named() }.as_os_str().to_os_string();
    path.push(".before");
    if number > 1 {
        path.push(format!("-{}", number));
    }
    path.into()
}

/// Writes `bytes` to a new file beside the place, syncs it, puts it in place and syncs the folder. A power cut at any moment
/// leaves what was there or the new image, whole; at worst the new file stays behind beside it. What failed is told with
/// the file that is meant.
fn save(place: &Place, bytes: &[u8]) -> Result<(), Unsaved> {
    let folder = place.folder();
    let not_yet = |why: String| Unsaved { why, is_in_place: false };
    // Opened first, so that one who may not sync it learns so before anything is changed.
    let opened =
        File::open(folder).map_err(|error| not_yet(place.unsaved("its folder can't be opened to be synced", error)))?;
    let (new, file) = create_beside(folder, place).map_err(|error| {
        not_yet(place.unsaved(&format!("a new {} can't be made in its folder", place.what()), error))
    })?;
    let put = fill(file, place, bytes).and_then(|()| place.put(&new));
    if put.is_err() {
        // This file was made above, so nobody else's is deleted.
        let _ = fs::remove_file(&new);
    }
    let removed = match put.map_err(not_yet)? {
        Put::Renamed => Ok(()),
        Put::Linked => remove_first_name(place, &new),
    };
    // Only then is the rename itself safe from a cut; so is an image that keeps both its names.
    let synced = opened.sync_all().map_err(|error| {
        format!("{}: {}, but its folder could not be synced: {}", folder.display(), place.is_put(), error)
    });
    removed.and(synced).map_err(|why| Unsaved { why, is_in_place: true })
}

pub fn folder(path: &Path) -> &Path {
    path.parent().filter(|folder| *folder != Path::new("")).unwrap_or_else(|| Path::new("."))
}

/// A file that was not there, with a name of its own.
fn create_beside(folder: &Path, place: &Place) -> io::Result<(PathBuf, File)> {
    let mut number = 0;
    loop {
        let path = folder.join(leftovers::name(place.path(), number));
        match OpenOptions::new().write(true).create_new(true).mode(place.mode()).open(&path) {
            Ok(file) => return Ok((path, file)),
            Err(error) if error.kind() == io::ErrorKind::AlreadyExists && number < TRIES => number += 1,
            Err(error) => return Err(error),
        }
    }
}

fn fill(mut file: File, place: &Place, bytes: &[u8]) -> Result<(), String> {
    keep_owner_and_mode(&file, place).map_err(|error| {
        let name = place.named().display();
        format!("{}: its owner and mode can't be given to the new {}: {}", name, place.what(), error)
    })?;
    let written = file.write_all(bytes).and_then(|()| file.sync_all());
    written.map_err(|error| place.unsaved(&format!("the new {} could not be written beside it", place.what()), error))
}

/// The owner first: a change of it can take mode bits away.
fn keep_owner_and_mode(file: &File, place: &Place) -> io::Result<()> {
    let old = match place {
        Place::Over(image) | Place::Beside(image, _) => image.metadata()?,
        Place::File(_, Some(old)) => (*old).clone(),
        Place::File(_, None) | Place::Empty(_) => return Ok(()),
    };
    let new = file.metadata()?;
    if (old.uid(), old.gid()) != (new.uid(), new.gid()) {
        posix::set_owner(file, old.uid(), old.gid())?;
    }
    file.set_permissions(Permissions::from_mode(old.mode() & 0o7777))
}

impl Place<'_> {
    fn folder(&self) -> &Path {
        match self {
            Place::Over(image) => folder(image.path()),
            Place::Empty(path) | Place::Beside(_, path) | Place::File(path, _) => folder(path),
        }
    }

    /// What is to be changed or made, without links: the new file is named after it.
    fn path(&self) -> &Path {
        match self {
            Place::Over(image) | Place::Beside(image, _) => image.path(),
            Place::Empty(path) | Place::File(path, _) => path,
        }
    }

    fn what(&self) -> &str {
        match self {
            Place::File(..) => "file",
            _ => "image",
        }
    }

    fn mode(&self) -> u32 {
        match self {
            Place::Over(_) | Place::Beside(..) | Place::File(_, Some(_)) => PRIVATE,
            Place::Empty(_) | Place::File(_, None) => USUAL,
        }
    }

    /// As it was typed.
    fn named(&self) -> &Path {
        match self {
            Place::Over(image) | Place::Beside(image, _) => image.named(),
            Place::Empty(path) | Place::File(path, _) => path,
        }
    }

    /// What is so once it has its place.
    fn is_put(&self) -> &str {
        match self {
            Place::Over(_) | Place::Empty(_) => "the new image is in place",
            Place::File(..) => "the new file is in place",
            Place::Beside(..) => "not changed: the old image was kept",
        }
    }

    /// The new file is gone by the time that one reads this, so the image is named.
    fn unsaved(&self, what: &str, error: io::Error) -> String {
        let outcome = match self {
            Place::Over(_) => "not changed",
            Place::Empty(_) => "not made",
            Place::File(_, Some(_)) => "not replaced",
            Place::File(_, None) => "not written",
            Place::Beside(..) => "not changed, since the old image is not kept",
        };
        format!("{}: {}: {}: {}", self.named().display(), outcome, what, error)
    }

    fn put(&self, new: &Path) -> Result<Put, String> {
        match self {
            Place::Over(image) => put_over(new, image),
            Place::Empty(path) => put_where_none_is(new, path, "not made"),
            Place::File(path, None) => put_where_none_is(new, path, "not written"),
            Place::File(path, Some(_)) => {
                fs::rename(new, path).map(|()| Put::Renamed).map_err(|error| format!("{}: {}", path.display(), error))
            }
            Place::Beside(image, path) => {
                unchanged(image)?;
                put_where_none_is(new, path, "the old image is not kept, nor changed")
            }
        }
    }
}

/// The lock is advisory: a program that does not ask for it may have put another file there meanwhile, or written to this one. What it
/// wrote would be lost, and not be in the image that is kept.
fn put_over(new: &Path, image: &Image) -> Result<Put, String> {
    let named = |error: io::Error| format!("{}: {}", image.named().display(), error);
    unchanged(image)?;
    if !image.is_still_there().map_err(named)? {
        return Err(format!("{}: another file was put there meanwhile; not changed", image.named().display()));
    }
    fs::rename(new, image.path()).map(|()| Put::Renamed).map_err(named)
}

/// Read once more as late as can be: behind this come a look at the name and the rename alone.
fn unchanged(image: &Image) -> Result<(), String> {
    let name = image.named().display();
    match image.is_as_read() {
        Ok(true) => Ok(()),
        Ok(false) => Err(changed_meanwhile(image.named())),
        Err(error) => Err(format!("{}: it can't be read once more, so nothing is written: {}", name, error)),
    }
}

/// Where the file system has no rename that replaces nothing (NFS has none), the file gets its name as a second one.
fn put_where_none_is(new: &Path, path: &Path, outcome: &str) -> Result<Put, String> {
    let put = posix::rename_new(new, path).map(|()| Put::Renamed).or_else(|error| match error.kind() {
        io::ErrorKind::InvalidInput | io::ErrorKind::Unsupported => fs::hard_link(new, path).map(|()| Put::Linked),
        _ => Err(error),
    });
    put.map_err(|error| match error.kind() {
        io::ErrorKind::AlreadyExists => {
            format!("{}: another file was put there meanwhile; {}", path.display(), outcome)
        }
        _ => format!("{}: {}: {}", path.display(), outcome, error),
    })
}

/// A name that is gone has been removed: NFS may say so of what it was asked for twice.
fn remove_first_name(place: &Place, new: &Path) -> Result<(), String> {
    match fs::remove_file(new) {
        Err(error) if error.kind() != io::ErrorKind::NotFound => Err(format!(
            "{}: {}, but its first name, {}, could not be removed: {}; flexbox does not change an image with two names until \
             one is removed",
            place.named().display(),
            place.is_put(),
            new.display(),
            error
        )),
        _ => Ok(()),
    }
}

#[cfg(test)]
mod tests {
    use super::*;
    use std::env;
    use std::os::unix::fs::symlink;
    use std::os::unix::process::parent_id;
    use std::process;
    use std::time::Duration;

    /// An empty folder of its own for a test.
    fn folder(test: &str) -> PathBuf {
        let folder = env::temp_dir().join(format!("flexbox-{}-{}", test, process::id()));
        fs::create_dir(&folder).unwrap();
        folder
    }

    fn take(path: &Path) -> Image {
        Image::take(path, Duration::ZERO).unwrap()
    }

    #[test]
    fn the_new_bytes_are_there_and_no_other_file() {
        let folder = folder("replace");
        let path = folder.join("disk");
        fs::write(&path, b"old").unwrap();
        replace(&take(&path), b"new and longer").unwrap();
        assert_eq!(fs::read(&path).unwrap(), b"new and longer");
        assert_eq!(fs::read_dir(&folder).unwrap().count(), 1);
        fs::remove_dir_all(&folder).unwrap();
    }

    #[test]
    fn a_file_that_another_made_is_neither_used_nor_deleted() {
        let folder = folder("others");
        let path = folder.join("disk");
        fs::write(&path, b"old").unwrap();
        let others = [format!(".flexbox-{}-0-disk.new", parent_id()), ".flexbox-4200000-0-disk2.new".to_string()];
        others.iter().for_each(|other| fs::write(folder.join(other), b"another's").unwrap());
        let left = folder.join(".flexbox-4200000-0-disk.new");
        fs::write(&left, b"of a process that is gone").unwrap();
        replace(&take(&path), b"new").unwrap();
        assert_eq!(fs::read(&path).unwrap(), b"new");
        others.iter().for_each(|other| assert_eq!(fs::read(folder.join(other)).unwrap(), b"another's"));
        assert!(!left.exists());
        fs::remove_dir_all(&folder).unwrap();
    }

    #[test]
    fn a_file_that_was_put_there_meanwhile_stays() {
        let folder = folder("meanwhile");
        let path = folder.join("disk");
        fs::write(&path, b"old").unwrap();
        let image = take(&path);
        fs::write(folder.join("other"), b"other").unwrap();
        fs::rename(folder.join("other"), &path).unwrap();
        assert!(replace(&image, b"new").is_err());
        assert_eq!(fs::read(&path).unwrap(), b"other");
        assert_eq!(fs::read_dir(&folder).unwrap().count(), 1);
        fs::remove_dir_all(&folder).unwrap();
    }

    #[test]
    fn an_image_that_was_written_to_since_it_was_read_stays() {
        let folder = folder("written");
        let path = folder.join("disk");
        fs::write(&path, b"old").unwrap();
        for other in ["new", "older", "ol", ""] {
            let mut image = take(&path);
            let old = image.read().unwrap();
            fs::write(&path, other).unwrap();
            let told = replace(&image, b"changed").unwrap_err();
            assert!(told.ends_with("disk: changed meanwhile by another program; nothing is written"), "{}", told);
            assert_eq!(replace_keeping(&image, &old, b"changed").unwrap_err(), told);
            assert_eq!(fs::read_to_string(&path).unwrap(), other);
            assert_eq!(fs::read_dir(&folder).unwrap().count(), 1);
            // Back as it was, it is what was read.
            fs::write(&path, b"old").unwrap();
            assert!(image.is_as_read().unwrap());
        }
        fs::remove_dir_all(&folder).unwrap();
    }

    #[test]
    fn an_old_image_is_kept_and_an_older_one_is_not_lost() {
        let folder = folder("keeping");
        let path = folder.join("disk");
        for (number, name) in ["disk.before", "disk.before-2", "disk.before-3"].iter().enumerate() {
            let (old, new) = (format!("image {}", number), format!("image {}", number + 1));
            fs::write(&path, &old).unwrap();
            fs::set_permissions(&path, Permissions::from_mode(0o640)).unwrap();
            let kept = replace_keeping(&take(&path), old.as_bytes(), new.as_bytes()).unwrap();
            assert_eq!(kept, folder.join(name));
            assert_eq!((fs::read_to_string(&path).unwrap(), fs::read_to_string(&kept).unwrap()), (new, old));
            assert_eq!(fs::metadata(&kept).unwrap().mode() & 0o7777, 0o640);
        }
        assert_eq!(fs::read_to_string(folder.join("disk.before")).unwrap(), "image 0");
        fs::remove_dir_all(&folder).unwrap();
    }

    #[test]
    fn what_is_kept_stays_where_another_image_was_put_there_meanwhile() {
        let folder = folder("kept");
        let path = folder.join("disk");
        fs::write(&path, b"old").unwrap();
        let image = take(&path);
        fs::remove_file(&path).unwrap();
        fs::write(&path, b"other").unwrap();
        let told = replace_keeping(&image, b"old", b"new").unwrap_err();
        assert!(told.ends_with("disk.before"), "{}", told);
        assert_eq!(
            (fs::read(&path).unwrap(), fs::read(folder.join("disk.before")).unwrap()),
            (b"other".to_vec(), b"old".to_vec())
        );
        assert_eq!(fs::read_dir(&folder).unwrap().count(), 2);
        fs::remove_dir_all(&folder).unwrap();
    }

    #[test]
    fn a_new_image_is_there_whole_and_with_the_usual_mode() {
        let folder = folder("make");
        let path = folder.join("disk");
        make(&path, b"new").unwrap();
        fs::write(folder.join("usual"), b"").unwrap();
        let mode = |name| fs::metadata(folder.join(name)).unwrap().mode();
        assert_eq!((fs::read(&path).unwrap(), mode("disk")), (b"new".to_vec(), mode("usual")));
        assert_eq!(fs::read_dir(&folder).unwrap().count(), 2);
        fs::remove_dir_all(&folder).unwrap();
    }

    #[test]
    fn a_file_is_replaced_with_its_mode_or_made_where_none_is() {
        let folder = folder("files");
        let path = folder.join("file");
        write_file(&path, None, b"old").unwrap();
        assert!(write_file(&path, None, b"new")
            .unwrap_err()
            .ends_with("another file was put there meanwhile; not written"));
        fs::set_permissions(&path, Permissions::from_mode(0o640)).unwrap();
        let old = fs::metadata(&path).unwrap();
        write_file(&path, Some(&old), b"new").unwrap();
        let new = fs::metadata(&path).unwrap();
        assert_eq!((fs::read(&path).unwrap(), new.mode(), new.uid()), (b"new".to_vec(), old.mode(), old.uid()));
        assert_eq!(fs::read_dir(&folder).unwrap().count(), 1);
        fs::remove_dir_all(&folder).unwrap();
    }

    #[test]
    fn what_is_there_is_never_made_anew() {
        let folder = folder("there");
        let path = folder.join("disk");
        fs::write(&path, b"old").unwrap();
        symlink("nowhere", folder.join("link")).unwrap();
        assert!(make(&path, b"new").is_err());
        assert!(make(&folder.join("link"), b"new").is_err());
        assert_eq!(fs::read(&path).unwrap(), b"old");
        assert_eq!(fs::read_dir(&folder).unwrap().count(), 2);
        fs::remove_dir_all(&folder).unwrap();
    }

    #[test]
    fn a_first_name_is_gone_or_told() {
        let folder = folder("first-name");
        let place = Place::Empty(Path::new("disk"));
        let name = folder.join("name");
        fs::write(&name, b"new").unwrap();
        assert!(remove_first_name(&place, &name).is_ok());
        assert!(!name.exists());
        assert!(remove_first_name(&place, &name).is_ok());
        let told = remove_first_name(&place, &folder).unwrap_err();
        assert!(told.contains(&format!("its first name, {}, could not be removed: ", folder.display())), "{}", told);
        fs::remove_dir_all(&folder).unwrap();
    }
}
