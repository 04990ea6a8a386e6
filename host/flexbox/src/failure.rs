//! Why a command failed, what is said of it on standard error, and the exit status that it gives.

use flex::Refusal;
use std::fmt;
use std::io::{self, Write};

#[derive(Debug)]
pub enum Failure {
    /// The words of the command are wrong.
    Usage(String),
    /// The service or its census refused: by what, and what was asked.
    Refused(Refusal, String),
    /// Refused or damaged, by now repaired too, and all that there is to say has been said.
    Shown,
    /// Of several images, each told by itself: the highest status.
    Several(u8),
    /// A damaged diskette was not repaired.
    Unrepaired(String),
    /// A file of this machine can't be read, or may not be written.
    File(String),
    /// Another program holds the image.
    Locked(String),
}

impl Failure {
    pub fn status(&self) -> u8 {
        match self {
            Failure::Refused(..) | Failure::Shown => 1,
            Failure::Usage(_) | Failure::Unrepaired(_) => 2,
            Failure::File(_) => 3,
            Failure::Locked(_) => 4,
            Failure::Several(worst) => *worst,
        }
    }

    pub fn say(&self) {
        match self {
            Failure::Refused(..) => tell(&self.to_string()),
            Failure::Shown | Failure::Several(_) => {}
            _ => note(&self.to_string()),
        }
    }
}

/// What is said of it; nothing where all has been said.
impl fmt::Display for Failure {
    fn fmt(&self, f: &mut fmt::Formatter<'_>) -> fmt::Result {
        match self {
            Failure::Refused(refusal, what) => {
                write!(f, "{}: {} ({})", flex::message(refusal.number()), refusal.meaning(), what)
            }
            Failure::Usage(text) | Failure::Unrepaired(text) | Failure::File(text) | Failure::Locked(text) => {
                f.write_str(text)
            }
            Failure::Shown | Failure::Several(_) => Ok(()),
        }
    }
}

/// Says something on standard error that is no failure.
pub fn note(text: &str) {
    tell(&format!("flexbox: {}", text));
}

/// A line on standard error. Where that is full or closed nobody can be told, and the work goes on to its right status.
pub fn tell(line: &str) {
    let _ = writeln!(io::stderr(), "{}", line);
}
