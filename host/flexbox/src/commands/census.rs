//! `census`: which file holds each sector, as the proved census lists it.

use super::list::live;
use super::{change, letter, look, plural, print, print_json, refused_of};
use crate::failure::Failure;
use crate::json;
use crate::words::Words;
use flex::{Diskette, Held, Refusal, Shape, Slot, OWNER_DIRECTORY, OWNER_FREE};
use std::fmt::Write;

pub fn run(words: &Words) -> Result<(), Failure> {
    let mut diskette = look(words)?;
    let shape = Shape::stated(diskette.image()).unwrap_or(Shape { last: 0, per: 0 });
    let census = diskette.survey();
    if words.has("--json") {
        print_json(&as_json(words, shape, &census))?;
    }
    match census {
        Ok(_) if words.has("--json") => Ok(()),
        Ok(held) => {
            let slots = diskette.slots().map_err(refused_of(words, &diskette))?;
            print(as_text(shape, &held, &slots).as_bytes())
        }
        Err(refusal) => Err(not_accepted(words, &mut diskette, refusal)),
    }
}

/// With the places where the damage is.
fn not_accepted(words: &Words, diskette: &mut Diskette, refusal: Refusal) -> Failure {
    let failure = refused_of(words, diskette)(refusal);
    failure.say();
    change::say_where(words.image(), diskette);
    Failure::Shown
}

/// The sign of a free sector, and of one that the directory has taken. No file has them.
const FREE: char = '.';
const DIRECTORY: char = '=';

/// A picture of the diskette: a line a track, a sign a sector, then the files with their letters.
fn as_text(shape: Shape, held: &[Held], slots: &[Slot]) -> String {
    let signs = signs(slots);
    let mut text = map(held, &signs, shape.per as usize);
    text.push('\n');
    for (slot, entry) in live(slots) {
        let size = plural(entry.sectors as usize, "sector");
        let _ = writeln!(text, "{}  {:12}  {}", signs[slot.number], entry.name, size);
    }
    let count = |owner: u16| held.iter().filter(|held| held.owner == owner).count();
    if count(OWNER_DIRECTORY) > 0 {
        let _ = writeln!(text, "{}  directory     {}", DIRECTORY, plural(count(OWNER_DIRECTORY), "sector"));
    }
    let _ = writeln!(text, "{}  free          {}", FREE, plural(count(OWNER_FREE), "sector"));
    text
}

/// The sign of each slot, by its number; at 0 that of a free sector.
fn signs(slots: &[Slot]) -> Vec<char> {
    let mut signs = vec![FREE; slots.len() + 1];
    for (i, (slot, _)) in live(slots).enumerate() {
        signs[slot.number] = letter(i);
    }
    signs
}

/// An accepted census names each sector once, so every place of the map is filled.
fn map(held: &[Held], signs: &[char], per: usize) -> String {
    let mut sectors = vec!['?'; held.len()];
    for one in held {
        sectors[one.sector as usize] = match one.owner {
            OWNER_DIRECTORY => DIRECTORY,
            owner => signs[owner as usize],
        };
    }
    let mut text = String::from("track  sectors 1 to ");
    let _ = writeln!(text, "{}", per);
    for (i, track) in sectors.chunks(per).enumerate() {
        let _ = writeln!(text, "{:5}  {}", i + 1, track.iter().collect::<String>());
    }
    text
}

/// The census's two lists as one, in its order; none where it refuses.
pub fn as_json(words: &Words, shape: Shape, census: &Result<Vec<Held>, Refusal>) -> String {
    let sectors = census.iter().flatten().map(|held| {
        let address = json::address(shape.address(held.sector as usize));
        json::Object::new().with("sector", address).with("owner", held.owner).end()
    });
    json::Object::new()
        .with_text("image", &words.image().to_string_lossy())
        .with("last_track", shape.last)
        .with("sectors_per_track", shape.per)
        .with("verdict", census.as_ref().map_or_else(|refusal| refusal.number(), |_| 0))
        .with("sectors", json::list(sectors))
        .end()
}

#[cfg(test)]
mod tests {
    use super::*;

    #[test]
    fn the_map_has_a_sign_a_sector() {
        let held = [(1, 0), (4, OWNER_DIRECTORY), (0, 1), (3, 3), (2, 3), (5, 3)]
            .map(|(sector, owner)| Held { sector, owner });
        let text = "track  sectors 1 to 2\n    1  A.\n    2  BB\n    3  =B\n";
        assert_eq!(map(&held, &['.', 'A', '-', 'B'], 2), text);
    }
}
