//! Safe calls of the proved diskette service, `libflex.a`.
//!
//! The service works on two lent buffers: the image of a diskette, and a table of eight control blocks of 320 bytes. All of
//! its state is in these two; it keeps none of its own. docs/RULES.md says what each entry does to every byte of them, for all
//! inputs, and that is proved; [`Refusal`] has the numbers that it gives back.
//!
//! [`Diskette`] holds the two buffers and does the file work:
//!
//! ```no_run
//! # fn main() -> Result<(), Box<dyn std::error::Error>> {
//! let mut diskette = flex::Diskette::new(std::fs::read("alarms.dsk")?);
//! diskette.put(&"NIGHT.TXT".parse()?, b"22:41 AMPLIFIER 14 LEVEL LOW\n", [11, 15, 26])?;
//! diskette.survey()?; // every sector is free, the directory's or in one file
//! std::fs::write("new.dsk", diskette.image())?;
//! # Ok(())
//! # }
//! ```
//!
//! The small steps that these jobs are made of, on any block, are those of [`Steps`].
//!
//! [`preset`], [`extension`], [`call`], [`census`], [`error_text`], [`format`] and [`repair`] are the seven entries on buffers of
//! the host's own, and [`entry`] has them with the archive's bare answers.

#![deny(unsafe_code)]
#![warn(missing_docs)]

mod diskette;
#[allow(unsafe_code)]
pub mod entry;
mod layout;
mod name;
mod refusal;
mod slot;
mod steps;
mod survey;

pub use diskette::{Diskette, Reading};
pub use layout::*;
pub use name::{Name, NameTooLong};
use refusal::settled;
pub use refusal::Refusal;
pub use slot::{Entry, Place, Slot, State};
pub use steps::Steps;
pub use survey::{survey, Held};

/// The version of this crate, which is that of flex.h.
pub const VERSION: &str = env!("CARGO_PKG_VERSION");

/// Writes one byte of block `fcb`: offset 0 always, 3-27, 30-31 and 53-319 while no file is open in it.
pub fn preset(table: &mut [u8], fcb: usize, offset: usize, value: u8) -> Result<(), Refusal> {
    settled(entry::preset(table, fcb, offset, value))
}

/// Gives block `fcb` the extension of this code, 0 to 11 of BIN TXT CMD BAS SYS BAK SCR DAT BAC DIR PRT OUT, if it has none
/// and no file is open in it.
pub fn extension(table: &mut [u8], fcb: usize, code: usize) -> Result<(), Refusal> {
    settled(entry::extension(table, fcb, code))
}

/// Does what byte 0 of block `fcb` asks for; `byte` is what function 0 writes. Gives the byte read, else 0.
pub fn call(image: &mut [u8], table: &mut [u8], fcb: usize, byte: u8) -> Result<u8, Refusal> {
    let packed = entry::call(image, table, fcb, byte);
    settled(packed / 256)?;
    Ok((packed % 256) as u8)
}

/// Lists which chain holds each data sector: outputs of two bytes an entry, high byte first, one entry a data sector.
/// [`survey`] does the same with the outputs made for it.
pub fn census(image: &[u8], sectors: &mut [u8], owners: &mut [u8]) -> Result<(), Refusal> {
    settled(entry::census(image, sectors, owners))
}

/// Writes "DISK ERROR #" and the number in three digits to the first 15 bytes.
pub fn error_text(text: &mut [u8], number: u8) -> Result<(), Refusal> {
    settled(entry::error_text(text, number))
}

/// Fills an image with a blank diskette of the tracks 0 to `last_track` with `per_track` sectors each; the date is month, day,
/// year. The image must have (`last_track` + 1) · `per_track` · 256 bytes and the label eleven, of any kind. No control block
/// may be open on what the image held. [`Diskette::blank`] does the same with the image made for it.
pub fn format(
    image: &mut [u8],
    last_track: usize,
    per_track: usize,
    label: &[u8],
    volume: u16,
    date: [u8; 3],
) -> Result<(), Refusal> {
    settled(entry::format(image, last_track, per_track, label, volume, date))
}

/// Repairs a damaged diskette whose shape, directory and names are right. Each live file, in the order of the slots, keeps the
/// longest start of its chain that goes over data sectors which neither the directory nor an earlier file holds, and is no longer
/// than the file states; all other data sectors are then free, in rising order. A file that is rightly chained and shares nothing
/// keeps every byte, and the census accepts what comes out. All blocks of the table must be closed. [`Diskette::repair`] does
/// the same with its own two buffers.
pub fn repair(image: &mut [u8], table: &[u8]) -> Result<(), Refusal> {
    settled(entry::repair(image, table))
}

/// The service's text for a number.
pub fn message(number: u8) -> String {
    let mut text = [0; 15];
    entry::error_text(&mut text, number);
    String::from_utf8_lossy(&text).into_owned()
}

#[cfg(test)]
mod tests;
