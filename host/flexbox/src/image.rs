//! Image files: opened, locked and read to be looked at or changed.
//!
//! The lock is flock's, on the image file itself: shared to look, exclusive from before a change is read until after the new image is in
//! place. Where somebody is asked before a change, that is done under the shared lock, and the exclusive one is taken then. A change
//! renames a new file over the old one, so whoever waits opens the path anew for each try, and looks, once the lock is had, whether the
//! path still leads to that file. Not everybody asks for the lock: so what was read is read again just before it is replaced.

use crate::failure::{note, Failure};
use crate::input;
use crate::locks;
use crate::replace;
use posix::Lock;
use std::fmt::Display;
use std::fs::{self, File, Metadata, OpenOptions};
use std::io::{self, Seek, SeekFrom};
use std::os::unix::fs::{MetadataExt, OpenOptionsExt};
use std::path::{Path, PathBuf};
use std::thread;
use std::time::{Duration, Instant};

/// How long one sleeps between two tries to get a lock.
const PAUSE: Duration = Duration::from_millis(20);
/// A shorter wait than this is not worth a message.
const QUIET: Duration = Duration::from_millis(300);

/// What an image is opened for.
#[derive(Clone, Copy, PartialEq, Eq)]
enum Access {
    Look,
    LookToChange,
    Change,
}

impl Access {
    fn lock(self) -> Lock {
        match self {
            Access::Look | Access::LookToChange => Lock::Shared,
            Access::Change => Lock::Exclusive,
        }
    }
}

/// An image file that is open and locked.
pub struct Image {
    /// As it was typed: messages name it so.
    named: PathBuf,
    /// Without links: this is what is replaced.
    path: PathBuf,
    file: File,
    /// The bytes that were read of it, if it was read.
    seen: Option<Vec<u8>>,
}

impl Image {
    /// Opens an image to look at it.
    pub fn look(named: &Path, wait: Duration) -> Result<Image, Failure> {
        Image::open(named, Access::Look, wait)
    }

    /// Opens an image to look at it and to change it later, once it is claimed: what `take` would refuse is refused at once.
    pub fn look_to_change(named: &Path, wait: Duration) -> Result<Image, Failure> {
        Image::open(named, Access::LookToChange, wait)
    }

    /// Opens an image to change it. A read-only file is a diskette with its write-protect tab: refused even for root.
    pub fn take(named: &Path, wait: Duration) -> Result<Image, Failure> {
        Image::open(named, Access::Change, wait)
    }

    /// The exclusive lock on what was looked at. Between the two locks others may change it: it must still be what was read.
    pub fn claim(self, wait: Duration) -> Result<Image, Failure> {
        let Image { named, file, seen, .. } = self;
        drop(file);
        let mut image = Image::take(&named, wait)?;
        image.read()?;
        match image.seen == seen {
            true => Ok(image),
            false => Err(Failure::File(changed_meanwhile(&named))),
        }
    }

    /// Why `take` would refuse what is there, as far as that can be seen without opening it.
    pub fn unfit(named: &Path) -> Option<String> {
        match fs::metadata(named) {
            Ok(metadata) => suits(&metadata, Access::Change).err(),
            Err(error) if error.kind() == io::ErrorKind::NotFound => Some("a link that leads nowhere".to_string()),
            Err(error) => Some(error.to_string()),
        }
    }

    /// Each try begins at the name: an image that was replaced is not waited for while the new one is free.
    fn open(named: &Path, access: Access, wait: Duration) -> Result<Image, Failure> {
        let mut patience = Patience::new(named, wait);
        loop {
            let image = Image::open_file(named, access)?;
            if !image.try_lock(access.lock())? {
                patience.pause(|| image.metadata().map_or(String::new(), |file| locks::holders(&file)))?;
            } else if image.is_still_there().map_err(failed(named))? {
                // The file may have got another mode or a second name meanwhile.
                image.suits(access)?;
                return Ok(image);
            }
        }
    }

    fn open_file(named: &Path, access: Access) -> Result<Image, Failure> {
        // A link stays a link: what it leads to is replaced.
        let path = fs::canonicalize(named).map_err(failed(named))?;
        let metadata = fs::metadata(&path).map_err(failed(named))?;
        suits(&metadata, access).map_err(failed(named))?;
        // Should the path have become a FIFO by now, opening it does not wait.
        let mut options = OpenOptions::new();
        options.read(true).write(access != Access::Look).custom_flags(posix::OPEN_WITHOUT_WAITING);
        let file = options.open(&path).map_err(failed(named))?;
        Ok(Image { named: named.to_path_buf(), path, file, seen: None })
    }

    fn suits(&self, access: Access) -> Result<(), Failure> {
        let metadata = self.metadata().map_err(failed(&self.named))?;
        suits(&metadata, access).map_err(failed(&self.named))
    }

    fn try_lock(&self, lock: Lock) -> Result<bool, Failure> {
        match posix::try_lock(&self.file, lock) {
            // A file system without locks has nobody who could hold one; what is only looked at is read all the same.
            Err(_) if lock == Lock::Shared => Ok(true),
            Err(error) => Err(Failure::File(format!("{}: it can't be locked: {}", self.named.display(), error))),
            Ok(had) => Ok(had),
        }
    }

    /// The file's bytes; of one that is too large as many as show that.
    pub fn read(&mut self) -> Result<Vec<u8>, Failure> {
        let bytes = self.bytes().map_err(failed(&self.named))?;
        self.seen = Some(bytes.clone());
        Ok(bytes)
    }

    fn bytes(&self) -> io::Result<Vec<u8>> {
        let mut file = &self.file;
        file.seek(SeekFrom::Start(0))?;
        input::bounded(file)
    }

    /// Whether the file has the bytes that were read of it. Of one that was not read nothing is asked.
    pub fn is_as_read(&self) -> io::Result<bool> {
        match &self.seen {
            Some(seen) => Ok(*seen == self.bytes()?),
            None => Ok(true),
        }
    }

    /// Puts a new image in the old one's place, at once or not at all.
    pub fn save(self, bytes: &[u8]) -> Result<(), Failure> {
        replace::replace(&self, bytes).map_err(Failure::File)
    }

    /// The same, and the old bytes are kept beside it, in a file that was not there. Gives its path.
    pub fn save_keeping(self, old: &[u8], bytes: &[u8]) -> Result<PathBuf, Failure> {
        replace::replace_keeping(&self, old, bytes).map_err(Failure::File)
    }

    pub fn named(&self) -> &Path {
        &self.named
    }

    pub fn path(&self) -> &Path {
        &self.path
    }

    pub fn metadata(&self) -> io::Result<Metadata> {
        self.file.metadata()
    }

    /// Whether the name that was typed and the path behind its links both lead to the file that is open here.
    pub fn is_still_there(&self) -> io::Result<bool> {
        let own = self.file.metadata()?;
        Ok(leads_to(&self.named, &own)? && leads_to(&self.path, &own)?)
    }
}

/// What is told of an image that is no longer what was read.
pub fn changed_meanwhile(named: &Path) -> String {
    format!("{}: changed meanwhile by another program; nothing is written", named.display())
}

fn leads_to(path: &Path, file: &Metadata) -> io::Result<bool> {
    match fs::metadata(path) {
        Ok(there) => Ok(is_same(&there, file)),
        Err(error) if error.kind() == io::ErrorKind::NotFound => Ok(false),
        Err(error) => Err(error),
    }
}

pub fn is_same(one: &Metadata, other: &Metadata) -> bool {
    (one.dev(), one.ino()) == (other.dev(), other.ino())
}

fn failed<W: Display>(named: &Path) -> impl Fn(W) -> Failure + '_ {
    move |why| Failure::File(format!("{}: {}", named.display(), why))
}

/// Whether this file may be opened as an image at all; if not, why.
fn suits(metadata: &Metadata, access: Access) -> Result<(), String> {
    if !metadata.is_file() {
        return Err("not a regular file".to_string());
    }
    if access == Access::Look {
        return Ok(());
    }
    if metadata.mode() & 0o222 == 0 {
        return Err("it has no write permission, which is a diskette's write-protect tab; not changed".to_string());
    }
    if metadata.nlink() > 1 {
        return Err(format!(
            "it has {} hard links, and a new file under one of its names would part them; not changed",
            metadata.nlink()
        ));
    }
    Ok(())
}

/// How long a lock is still waited for.
struct Patience<'a> {
    named: &'a Path,
    wait: Duration,
    began: Instant,
    said: bool,
}

impl Patience<'_> {
    fn new(named: &Path, wait: Duration) -> Patience<'_> {
        Patience { named, wait, began: Instant::now(), said: false }
    }

    /// A moment's sleep, or, after all of the time, the end. `holders` says who has the lock.
    fn pause(&mut self, holders: impl Fn() -> String) -> Result<(), Failure> {
        let (name, seconds) = (self.named.display(), self.wait.as_secs());
        if self.began.elapsed() >= self.wait {
            let what = format!("another program still has it locked after {} s", seconds);
            return Err(Failure::Locked(format!("{}: {}{}", name, what, holders())));
        }
        if !self.said && self.began.elapsed() >= QUIET {
            note(&format!("{}: locked by another program; waiting up to {} s{}", name, seconds, holders()));
            self.said = true;
        }
        thread::sleep(PAUSE);
        Ok(())
    }
}
