//! `diff`: what is not the same on two diskettes. Exit status 0: nothing; 1: something.

use super::{plural, print, print_json, refused_of};
use crate::check::spans;
use crate::diff::{Difference, FileChange, Side};
use crate::failure::Failure;
use crate::json;
use crate::words::Words;
use flex::{Address, Shape, SECTOR};
use std::fmt::Write;

pub fn run(words: &Words) -> Result<(), Failure> {
    let (one, other) = (side(words)?, side(&words.on(&words.others()[0]))?);
    let difference = Difference::of(&one, &other);
    match words.has("--json") {
        true => print_json(&as_json(words, &one, &other, &difference))?,
        false => print(as_text(words, &one, &other, &difference).as_bytes())?,
    }
    match difference.is_none() {
        true => Ok(()),
        false => Err(Failure::Shown),
    }
}

fn side(words: &Words) -> Result<Side, Failure> {
    let mut diskette = super::look(words)?;
    Side::of(&mut diskette).map_err(refused_of(words, &diskette))
}

fn as_text(words: &Words, one: &Side, other: &Side, difference: &Difference) -> String {
    let names = [words.image().to_string_lossy(), words.others()[0].to_string_lossy()];
    if difference.is_none() {
        return format!("{} and {} are the same, byte for byte\n", names[0], names[1]);
    }
    let mut text = String::new();
    if one.shape() != other.shape() {
        let _ =
            writeln!(text, "shape: {} in {}, {} in {}", shape(one.shape()), names[0], shape(other.shape()), names[1]);
    }
    for (side, name) in [(one, &names[0]), (other, &names[1])] {
        if !side.check.has_slots() {
            let _ = writeln!(text, "{}: its slots can't be listed, so its files are not compared", name);
        }
    }
    for file in &difference.files {
        let _ = writeln!(text, "{}: {}", file.name, changed(file, [&names[0], &names[1]]));
    }
    if difference.free_chain {
        let (first, second) = (chain(one.free()), chain(other.free()));
        let _ = writeln!(text, "free chain: {} in {}, {} in {}", first, names[0], second, names[1]);
    }
    text + &counted(one.shape(), difference)
}

fn shape(shape: Shape) -> String {
    format!("tracks 0 to {} of {} sectors", shape.last, shape.per)
}

fn chain(sectors: &[Address]) -> String {
    match sectors {
        [] => "no sector".to_string(),
        [first, ..] => {
            let size = plural(sectors.len(), "sector");
            format!("{} from {} to {}", size, first, sectors[sectors.len() - 1])
        }
    }
}

/// The slots by their numbers, the sectors as ranges.
fn counted(shape: Shape, difference: &Difference) -> String {
    let mut text = String::new();
    match difference.slots.as_deref() {
        None | Some([]) => {}
        Some(slots) => {
            let numbers: Vec<String> = slots.iter().map(usize::to_string).collect();
            let _ = writeln!(text, "slots that differ: {}", numbers.join(", "));
        }
    }
    if let Some(sectors) = &difference.sectors {
        let per = shape.per as usize;
        let address = |number: usize| Address::new((number / per) as u8, (number % per + 1) as u8);
        let numbers: Vec<usize> = sectors.iter().map(|&at| shape.offset(at) / SECTOR).collect();
        let _ = writeln!(text, "sectors that differ: {}", spans(&numbers, address).join("; "));
    }
    text
}

fn changed(file: &FileChange, names: [&str; 2]) -> String {
    let words = match (file.sectors, file.differs_from) {
        ([Some(_), None], _) => return format!("only in {}", names[0]),
        ([None, _], _) => return format!("only in {}", names[1]),
        ([Some(one), Some(other)], from) => {
            let sizes = (one != other).then(|| format!("{} and {} sectors", one, other));
            let bytes = from.map(|byte| format!("other bytes from byte {} on", byte));
            let rest = file.otherwise.iter().map(|what| format!("another {}", what));
            sizes.into_iter().chain(bytes).chain(rest).collect::<Vec<String>>()
        }
    };
    words.join(", ")
}

pub fn as_json(words: &Words, one: &Side, other: &Side, difference: &Difference) -> String {
    let slots = difference.slots.as_ref().map(|slots| json::list(slots.iter().map(usize::to_string)));
    let sectors = difference.sectors.as_ref().map(|sectors| json::list(sectors.iter().map(|&at| json::address(at))));
    let null = || "null".to_string();
    json::Object::new()
        .with_text("image", &words.image().to_string_lossy())
        .with_text("other", &words.others()[0].to_string_lossy())
        .with("is_same", difference.is_none())
        .with("is_one_shape", one.shape() == other.shape())
        .with("files", json::list(difference.files.iter().map(file_as_json)))
        .with("slots", slots.unwrap_or_else(null))
        .with("sectors", sectors.unwrap_or_else(null))
        .with(
            "free_chain",
            json::list([one, other].map(|side| json::list(side.free().iter().map(|&at| json::address(at))))),
        )
        .with("is_free_chain_same", !difference.free_chain)
        .end()
}

fn file_as_json(file: &FileChange) -> String {
    json::Object::new()
        .with_text("name", &file.name)
        .with("slot", json::list(file.slots.map(json::number)))
        .with("sectors", json::list(file.sectors.map(|size| json::number(size.map(usize::from)))))
        .with("differs_from", json::number(file.differs_from))
        .with("otherwise", json::list(file.otherwise.iter().map(|what| json::text(what))))
        .end()
}
