//! Reading what others give, never more than a diskette can hold; and asking.

use crate::failure::Failure;
use flex::LARGEST_IMAGE;
use std::fs::File;
use std::io::{self, BufRead, Read, Write};
use std::path::Path;

/// At most one byte past the largest diskette: enough to know that there is more.
pub fn bounded(reader: impl Read) -> io::Result<Vec<u8>> {
    let mut bytes = Vec::new();
    reader.take(LARGEST_IMAGE as u64 + 1).read_to_end(&mut bytes)?;
    Ok(bytes)
}

/// The bytes that a new file on the diskette gets.
pub fn contents(reader: impl Read, what: &str) -> Result<Vec<u8>, Failure> {
    let bytes = bounded(reader).map_err(|error| Failure::File(format!("{}: {}", what, error)))?;
    if bytes.len() > LARGEST_IMAGE {
        return Err(Failure::File(format!("{}: more than 737,280 bytes, which is more than any diskette holds", what)));
    }
    if bytes.is_empty() {
        return Err(Failure::Usage(format!("{} is empty, and the service keeps no file without a byte", what)));
    }
    Ok(bytes)
}

pub fn standard_input() -> Result<Vec<u8>, Failure> {
    contents(io::stdin().lock(), "standard input")
}

/// Whether there is somebody to ask.
pub fn can_ask() -> bool {
    posix::is_terminal(&io::stdin())
}

/// Whether the answer to a question is y or yes; no answer is none.
pub fn ask(question: &str) -> bool {
    let mut answer = String::new();
    // Where nobody can be asked, nobody answers.
    let _ = write!(io::stderr(), "{}", question);
    let _ = io::stdin().lock().read_line(&mut answer);
    is_yes(&answer)
}

fn is_yes(answer: &str) -> bool {
    matches!(answer.trim().to_lowercase().as_str(), "y" | "yes")
}

pub fn file(path: &Path) -> Result<Vec<u8>, Failure> {
    let what = path.display().to_string();
    match File::open(path) {
        Ok(file) => contents(file, &what),
        Err(error) => Err(Failure::File(format!("{}: {}", what, error))),
    }
}

#[cfg(test)]
mod tests {
    use super::*;

    #[test]
    fn yes_is_y_or_yes() {
        assert!(["y\n", "Y", " yes \n", "YES\r\n"].iter().all(|answer| is_yes(answer)));
        assert!(!["", "\n", "n", "yikes no", "yes, but", "ye", "no y"].iter().any(|answer| is_yes(answer)));
    }

    #[test]
    fn no_more_is_read_than_a_diskette_holds_and_one_byte() {
        assert_eq!(bounded(io::repeat(7)).unwrap().len(), LARGEST_IMAGE + 1);
        assert!(matches!(contents(io::repeat(7), "x"), Err(Failure::File(_))));
        assert!(matches!(contents(io::empty(), "x"), Err(Failure::Usage(_))));
        assert_eq!(contents(io::repeat(7).take(LARGEST_IMAGE as u64), "x").unwrap().len(), LARGEST_IMAGE);
    }
}
