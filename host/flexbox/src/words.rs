//! The words behind a command: options and operands.

use crate::failure::Failure;
use std::ffi::{OsStr, OsString};
use std::ops::RangeInclusive;
use std::os::unix::ffi::OsStrExt;
use std::path::Path;
use std::time::Duration;

/// How many seconds a command waits for a locked image unless `--wait` says otherwise.
const WAIT: u16 = 5;
/// The options that every command has besides `--help`.
const COMMON: &[&str] = &["--wait N"];

/// A command as the table of commands has it.
pub struct Command {
    pub name: &'static str,
    /// What follows the name.
    pub usage: &'static str,
    /// What it does, in one line.
    pub summary: &'static str,
    /// More about it, for `help COMMAND`.
    pub details: &'static str,
    /// How many operands it takes, at least and at most.
    pub operands: (usize, usize),
    /// The options of its own: "--name", or "--name VALUE" where the next word is its value.
    pub options: &'static [&'static str],
    pub run: fn(&Words) -> Result<(), Failure>,
}

impl Command {
    /// A usage error: one line, with the right words.
    pub fn misused(&self, problem: &str) -> Failure {
        Failure::Usage(format!("{}: {}; usage: flexbox {} {}", self.name, problem, self.name, self.usage))
    }

    /// The option that a word is, and whether a value follows it.
    fn option(&self, word: &str) -> Option<(&'static str, bool)> {
        let parts = |option: &&'static str| match option.split_once(' ') {
            Some((name, _)) => (name, true),
            None => (*option, false),
        };
        self.options.iter().chain(COMMON).map(parts).find(|(name, _)| *name == word)
    }
}

pub struct Words {
    command: &'static Command,
    operands: Vec<OsString>,
    /// In the order in which they were typed, with their values.
    options: Vec<(&'static str, Option<OsString>)>,
    wait: Duration,
}

impl Words {
    /// The same command on this image, without options and other words.
    pub fn on(&self, image: &OsStr) -> Words {
        Words { command: self.command, operands: vec![image.to_os_string()], options: Vec::new(), wait: self.wait }
    }

    /// The same command with its options on each of the words by itself.
    pub fn each(&self) -> Vec<Words> {
        let one = |word: &OsString| Words {
            command: self.command,
            operands: vec![word.clone()],
            options: self.options.clone(),
            wait: self.wait,
        };
        self.operands.iter().map(one).collect()
    }

    /// The same words and this option.
    pub fn with(&self, option: &'static str) -> Words {
        let options = self.options.iter().cloned().chain([(option, None)]).collect();
        Words { command: self.command, operands: self.operands.clone(), options, wait: self.wait }
    }

    /// The words behind the command's name. None: help is asked for.
    pub fn parse(command: &'static Command, words: &[OsString]) -> Result<Option<Words>, Failure> {
        let mut parsed = Words { command, operands: Vec::new(), options: Vec::new(), wait: Duration::ZERO };
        let mut rest = words.iter();
        while let Some(word) = rest.next() {
            let text = word.to_str().unwrap_or("");
            let (name, joined) = split(word);
            match command.option(name) {
                Some((name, false)) if joined.is_some() => {
                    return Err(command.misused(&format!("'{}' takes no value", name)));
                }
                Some((name, false)) => parsed.options.push((name, None)),
                Some((name, true)) => {
                    let value = joined.or_else(|| rest.next().cloned());
                    let value = value.ok_or_else(|| command.misused(&format!("no value follows '{}'", name)))?;
                    parsed.options.push((name, Some(value)));
                }
                None if text == "--help" || text == "-h" => return Ok(None),
                None if text == "--" => {
                    parsed.operands.extend(rest.by_ref().cloned());
                }
                None if text.starts_with("--") => {
                    return Err(command.misused(&format!("no such option '{}'", text)));
                }
                None => parsed.operands.push(word.clone()),
            }
        }
        let (least, most) = command.operands;
        if !(least..=most).contains(&parsed.operands.len()) {
            return Err(command.misused("wrong number of words"));
        }
        let seconds = parsed.number("--wait", "a number of seconds", 0..=u16::MAX)?.unwrap_or(WAIT);
        parsed.wait = Duration::from_secs(seconds.into());
        Ok(Some(parsed))
    }

    /// Whether the command has this option at all.
    pub fn takes(&self, option: &str) -> bool {
        self.command.option(option).is_some()
    }

    pub fn has(&self, option: &str) -> bool {
        self.options.iter().any(|(name, _)| *name == option)
    }

    /// The value of an option, the last one where it was typed twice.
    pub fn value(&self, option: &str) -> Option<&OsStr> {
        self.options.iter().rev().find(|(name, _)| *name == option).and_then(|(_, value)| value.as_deref())
    }

    /// All values of an option that can be typed several times.
    pub fn values<'a>(&'a self, option: &'a str) -> impl Iterator<Item = &'a OsString> {
        self.options.iter().filter(move |(name, _)| *name == option).filter_map(|(_, value)| value.as_ref())
    }

    /// The number that is the value of an option, within its limits.
    pub fn number(&self, option: &str, what: &str, limits: RangeInclusive<u16>) -> Result<Option<u16>, Failure> {
        let number = |value: &OsStr| value.to_str()?.parse().ok().filter(|number| limits.contains(number));
        match self.value(option) {
            None => Ok(None),
            Some(value) => match number(value) {
                Some(number) => Ok(Some(number)),
                None => Err(self.unfit(option, &format!("{} from {} to {}", what, limits.start(), limits.end()))),
            },
        }
    }

    /// A usage error of this command.
    pub fn misused(&self, problem: &str) -> Failure {
        self.command.misused(problem)
    }

    /// Where options change how many words follow the image: that there are as many.
    pub fn expect_others(&self, counts: RangeInclusive<usize>) -> Result<(), Failure> {
        match counts.contains(&self.others().len()) {
            true => Ok(()),
            false => Err(self.misused("wrong number of words")),
        }
    }

    /// A usage error: the option has another value than it takes.
    pub fn unfit(&self, option: &str, takes: &str) -> Failure {
        let value = self.value(option).unwrap_or_default().to_string_lossy();
        Failure::Usage(format!("{}: {} takes {}, not '{}'", self.command.name, option, takes, value.escape_debug()))
    }

    pub fn wait(&self) -> Duration {
        self.wait
    }

    /// The first operand of every command.
    pub fn image(&self) -> &Path {
        Path::new(&self.operands[0])
    }

    /// What follows the image.
    pub fn others(&self) -> &[OsString] {
        &self.operands[1..]
    }

    /// An operand behind the image as text.
    pub fn text(&self, i: usize) -> Result<&str, Failure> {
        text(&self.others()[i])
    }
}

/// "--wait=1" is an option and its value.
fn split(word: &OsStr) -> (&str, Option<OsString>) {
    let bytes = word.as_bytes();
    match bytes.iter().position(|&byte| byte == b'=').filter(|_| bytes.starts_with(b"--")) {
        Some(at) => {
            let name = OsStr::from_bytes(&bytes[..at]).to_str().unwrap_or("");
            (name, Some(OsStr::from_bytes(&bytes[at + 1..]).to_os_string()))
        }
        None => (word.to_str().unwrap_or(""), None),
    }
}

pub fn text(word: &OsString) -> Result<&str, Failure> {
    word.to_str().ok_or_else(|| Failure::Usage(format!("'{}' is no text", word.to_string_lossy())))
}

/// A word as one would have to type it in a shell.
pub fn quoted(word: &str) -> String {
    let is_plain = |byte: u8| byte.is_ascii_alphanumeric() || b"_./,:@%+-=".contains(&byte);
    match word.bytes().all(is_plain) && !word.is_empty() {
        // What begins with a hyphen would be an option.
        true if word.starts_with('-') => format!("./{}", word),
        true => word.to_string(),
        false => format!("'{}'", word.replace('\'', "'\\''")),
    }
}

#[cfg(test)]
mod tests {
    use super::*;

    #[test]
    fn a_shell_takes_what_is_quoted_as_one_word() {
        assert_eq!(quoted("disks/a.dsk"), "disks/a.dsk");
        assert_eq!(quoted("my disk"), "'my disk'");
        assert_eq!(quoted("it's $HOME"), "'it'\\''s $HOME'");
        assert_eq!(quoted("--x"), "./--x");
        assert_eq!(quoted(""), "''");
        for word in ["a b", "a'b", "a\"b", "a\\b", "$(a)", "*", "a;b", "~", "a\nb", "\u{e4}", "#", "!"] {
            let told = std::process::Command::new("sh").arg("-c").arg(format!("printf %s {}", quoted(word))).output();
            assert_eq!(String::from_utf8(told.unwrap().stdout).unwrap(), word);
        }
    }
}
