//! The commands, one a module, and what they share.

mod accident;
mod by_slot;
mod census;
mod change;
mod check;
mod date;
mod demo;
mod diff;
#[cfg(test)]
mod documented;
pub mod dropping;
mod dump;
mod format;
mod get;
pub mod info;
pub mod list;
mod pieces;
mod put;
mod repair;
mod report;
mod salvage;
mod table;
mod undelete;

pub use table::{find, overview};

use crate::check::Check;
use crate::failure::Failure;
use crate::image::Image;
use crate::raw;
use crate::words::Words;
use flex::{Diskette, Name, Refusal, Shape, LARGEST_IMAGE};
use std::io::{self, Write};
use std::path::Path;

/// The diskette, to be looked at.
fn look(words: &Words) -> Result<Diskette, Failure> {
    Ok(Diskette::new(Image::look(words.image(), words.wait())?.read()?))
}

/// A command on each of several images: what fails is told, the others go on, and the status is the highest.
fn on_each(words: &Words, one: impl Fn(&Words) -> Result<(), Failure>) -> Result<(), Failure> {
    let mut worst = 0;
    for words in words.each() {
        if let Err(failure) = one(&words) {
            failure.say();
            worst = worst.max(failure.status());
        }
    }
    match worst {
        0 => Ok(()),
        worst => Err(Failure::Several(worst)),
    }
}

/// The end of a line on an image, where its directory has lost files.
fn not_reached(check: &Check) -> String {
    match check.unreached_names().as_slice() {
        [] => String::new(),
        names => format!("; not reached by the directory: {}", names.join(", ")),
    }
}

fn typed(name: &str) -> Result<Name, Failure> {
    name.parse().map_err(|error: flex::NameTooLong| Failure::Usage(error.to_string()))
}

/// The name as the service takes it: with TXT where it has no extension.
fn full(name: &Name) -> Name {
    let mut bytes = *name.bytes();
    if !name.has_extension() {
        bytes[8..].copy_from_slice(b"TXT");
    }
    Name::of(bytes)
}

/// The typed name as it is told, with the extension that it has not got.
fn with_extension(shown: &str, name: &Name) -> String {
    match name.has_extension() {
        true => shown.to_string(),
        false => format!("{}, which has no extension and so is {}", shown, full(name)),
    }
}

/// The same where it is refused, with a hint.
fn told_name(shown: &str, name: &Name, refusal: Refusal, diskette: &mut Diskette) -> String {
    with_extension(shown, name) + &hint(name, refusal, diskette)
}

/// The files that have a name which is not found in other letters, large or small.
fn hint(name: &Name, refusal: Refusal, diskette: &mut Diskette) -> String {
    let slots = if refusal == Refusal::NotFound { diskette.slots().unwrap_or_default() } else { Vec::new() };
    let names = slots.iter().filter_map(|slot| Some(slot.entry()?.name.to_string()));
    let wanted = full(name).to_string();
    let others = names.filter(|other| other.eq_ignore_ascii_case(&wanted));
    others.map(|other| format!("; there is {}: upper and lower case differ", other)).collect()
}

/// What a refusal is told with: the image, and what was asked of it.
fn refused<'a>(image: &'a Path, what: &'a str) -> impl Fn(Refusal) -> Failure + 'a {
    move |refusal| refused_with(image, what, refusal)
}

fn refused_with(image: &Path, what: &str, refusal: Refusal) -> Failure {
    let comma = if what.is_empty() { "" } else { ", " };
    Failure::Refused(refusal, format!("{}{}{}", image.display(), comma, what))
}

/// The same of a diskette, whose image may not be one by its length.
fn refused_of<'a>(words: &'a Words, diskette: &Diskette) -> impl Fn(Refusal) -> Failure + 'a {
    let what = wrong_length(diskette.image());
    move |refusal| refused_with(words.image(), &what, refusal)
}

/// Which length an image has and which was expected; empty where it has the length of its shape.
fn wrong_length(image: &[u8]) -> String {
    let length = image.len();
    match Shape::stated(image) {
        _ if length > LARGEST_IMAGE => "more than 737,280 bytes".to_string(),
        None => format!("{} bytes, too short for a diskette", length),
        Some(Shape { last, per }) if !raw::is_shape(Shape { last, per }) => {
            format!("{} bytes; it states tracks 0 to {} of {} sectors, which no diskette has", length, last, per)
        }
        Some(shape) if raw::length(shape) != length => {
            let (Shape { last, per }, expected) = (shape, raw::length(shape));
            format!("{} bytes; tracks 0 to {} of {} sectors, as it states, have {}", length, last, per, expected)
        }
        Some(_) => String::new(),
    }
}

pub fn print(bytes: &[u8]) -> Result<(), Failure> {
    try_print(bytes).map_err(Failure::File)
}

/// Where somebody needs every byte, one who does not read on is a failure, too.
fn print_all(bytes: &[u8]) -> Result<(), Failure> {
    write_out(bytes).map_err(|error| Failure::File(unprinted(error)))
}

/// What failed is given in words, to which a command can add what it has done by then. A reader who has seen enough is no failure.
fn try_print(bytes: &[u8]) -> Result<(), String> {
    match write_out(bytes) {
        Err(error) if error.kind() != io::ErrorKind::BrokenPipe => Err(unprinted(error)),
        _ => Ok(()),
    }
}

fn unprinted(error: io::Error) -> String {
    format!("standard output: {}", error)
}

fn write_out(bytes: &[u8]) -> io::Result<()> {
    if posix::output_was_closed() {
        return Err(io::Error::new(io::ErrorKind::Other, "it is closed"));
    }
    let mut out = io::stdout();
    out.write_all(bytes).and_then(|()| out.flush())
}

fn print_json(json: &str) -> Result<(), Failure> {
    print(format!("{}\n", json).as_bytes())
}

pub fn plural(count: usize, what: &str) -> String {
    format!("{} {}{}", count, what, if count == 1 { "" } else { "s" })
}

/// The letter of the i-th file in a picture; files past the last letter share '#'.
pub fn letter(i: usize) -> char {
    const LETTERS: &[u8] = b"ABCDEFGHIJKLMNOPQRSTUVWXYZabcdefghijklmnopqrstuvwxyz0123456789";
    LETTERS.get(i).map_or('#', |&letter| letter as char)
}
