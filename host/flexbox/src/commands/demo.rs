//! `demo`: the main job, told step by step. A new diskette is formatted and filled; then a file comes and goes on one that is in
//! use; then a damaged copy of that is repaired. Each step goes through the image file, as a command does.

use super::change::change;
use super::format::{is_there, make, Wanted};
use super::{accident, census, date, list, look, print, refused, typed};
use crate::failure::Failure;
use crate::replace;
use crate::words::Words;
use std::path::Path;

/// What fills the new diskette: the logs of three sites, with their bytes.
const LOGS: [(&str, usize); 3] = [("NORTH.TXT", 6 * flex::DATA), ("SOUTH.TXT", 5 * flex::DATA), ("WEST.TXT", 200)];

/// What is written to the other.
const NAME: &str = "NIGHT.TXT";
const LINES: &str = "\
22:41 NORTH AMPLIFIER 14 LEVEL LOW
22:41 NORTH AMPLIFIER 15 NO SIGNAL
22:58 NORTH AMPLIFIER 14 SUPPLY 41 VOLTS
23:07 FEEDER 2 OFF BY HAND
02:15 CREW AT AMPLIFIER 14
02:52 FEEDER 2 ON
02:53 NORTH AMPLIFIER 14 LEVEL NORMAL
02:53 NORTH AMPLIFIER 15 LEVEL NORMAL
05:02 MAINS FAILED, RUNNING ON BATTERY
05:06 MAINS BACK
";

pub fn run(words: &Words) -> Result<(), Failure> {
    let (new, damaged) = (words.on(&words.others()[0]), words.on(&words.others()[1]));
    refuse_what_is_there(new.image(), "NEW")?;
    refuse_what_is_there(damaged.image(), "DAMAGED")?;
    fill_a_new_one(&new)?;
    work_on_one_in_use(words)?;
    accident::repaired(words, &damaged)
}

fn fill_a_new_one(words: &Words) -> Result<(), Failure> {
    let (image, date) = (words.image(), date::today()?);
    say(&format!("Format {}, a new diskette:", image.display()))?;
    let wanted = Wanted { tracks: 3, sectors: 6, label: *b"NEW\0\0\0\0\0\0\0\0", volume: 1, date };
    make(image, &wanted, |bytes| replace::make(image, bytes).map(|()| None).map_err(Failure::File))?;
    say("Fill it with three logs, one call a byte. Its directory:")?;
    change(words, |diskette| {
        LOGS.iter().try_for_each(|&(name, bytes)| {
            diskette.put(&typed(name)?, &log(name, bytes), date).map_err(refused(image, name))
        })
    })?;
    list::run(words)?;
    say("Its census: every sector is in one file, and none is free.")?;
    census::run(words)?;
    say("Read the three logs back:")?;
    LOGS.iter().try_for_each(|&(name, bytes)| read_back(words, name, &log(name, bytes)))
}

/// Looked at before the first step is told. Unlike `format` this command replaces nothing.
fn refuse_what_is_there(image: &Path, operand: &str) -> Result<(), Failure> {
    match is_there(image)? {
        true => Err(Failure::File(format!(
            "{}: it is there already; demo needs a {} that is not there yet",
            image.display(),
            operand
        ))),
        false => Ok(()),
    }
}

/// A log of so many bytes.
fn log(name: &str, bytes: usize) -> Vec<u8> {
    let site = name.trim_end_matches(".TXT");
    let line = |i: usize| format!("{:02}:{:02} {} AMPLIFIER {} LEVEL LOW\n", i / 6, i % 6 * 10, site, i % 24 + 1);
    (0..).map(line).flat_map(String::into_bytes).take(bytes).collect()
}

fn read_back(words: &Words, name: &str, written: &[u8]) -> Result<(), Failure> {
    let bytes = look(words)?.get(&typed(name)?).map_err(refused(words.image(), name))?.bytes;
    if !is_back(&bytes, written) {
        return Err(Failure::File(format!("{}: not as it was written", name)));
    }
    print(format!("{}: {} bytes, as they were written\n", name, written.len()).as_bytes())
}

/// Behind what was written there are only the zeros that fill the last sector.
fn is_back(read: &[u8], written: &[u8]) -> bool {
    read.strip_prefix(written).map_or(false, |rest| rest.iter().all(|&byte| byte == 0))
}

fn work_on_one_in_use(words: &Words) -> Result<(), Failure> {
    let image = words.image();
    let name = typed(NAME)?;
    say(&format!("A diskette that is in use, {}. Its directory:", image.display()))?;
    list::run(words)?;
    say("Its census: every sector is free, the directory's or in one file.")?;
    census::run(words)?;
    say(&format!("Write {}, {} bytes, one call a byte:", NAME, LINES.len()))?;
    let date = date::today()?;
    change(words, |diskette| diskette.put(&name, LINES.as_bytes(), date).map_err(refused(image, NAME)))?;
    list::run(words)?;
    census::run(words)?;
    say(&format!("Read {} back, without the zeros that fill its last sector:", NAME))?;
    let mut diskette = look(words)?;
    let bytes = diskette.get(&name).map_err(refused(image, NAME))?.bytes;
    print(bytes.split(|&byte| byte == 0).next().unwrap_or_default())?;
    say(&format!("Delete {}. Its sectors hang behind the free chain:", NAME))?;
    change(words, |diskette| diskette.delete(&name).map_err(refused(image, NAME)))?;
    list::run(words)?;
    census::run(words)
}

pub fn say(line: &str) -> Result<(), Failure> {
    print(format!("\n{}\n", line).as_bytes())
}

#[cfg(test)]
mod tests {
    use super::*;

    #[test]
    fn only_zeros_follow_what_was_written() {
        assert!(is_back(b"right\0\0", b"right"));
        for (read, written) in
            [(&b"right\0"[..], &b"wrong"[..]), (b"right\0", b"righ"), (b"righ", b"right"), (b"right\x07\0", b"right")]
        {
            assert!(!is_back(read, written), "{:?} {:?}", read, written);
        }
    }
}
