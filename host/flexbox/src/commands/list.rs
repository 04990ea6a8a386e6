//! `list`: the directory.

use super::{look, plural, print, print_json, refused_of};
use crate::failure::Failure;
use crate::json;
use crate::words::Words;
use flex::{Entry, Slot, State};
use std::fmt::Write;

pub fn run(words: &Words) -> Result<(), Failure> {
    let mut diskette = look(words)?;
    let slots = diskette.slots().map_err(refused_of(words, &diskette))?;
    match words.has("--json") {
        true => print_json(&as_json(words, &slots)),
        false => print(as_text(&slots).as_bytes()),
    }
}

pub fn live(slots: &[Slot]) -> impl Iterator<Item = (&Slot, &Entry)> {
    slots.iter().filter_map(|slot| slot.entry().map(|entry| (slot, entry)))
}

/// How many slots are in this state.
fn count(slots: &[Slot], state: State) -> usize {
    slots.iter().filter(|slot| slot.state == state).count()
}

/// What the file is protected from, as `list` shows it and in words.
pub fn protections(entry: &Entry) -> Vec<(&'static str, &'static str)> {
    let all = [
        (entry.write_protected, ("W", "write")),
        (entry.delete_protected, ("D", "delete")),
        (entry.read_protected, ("R", "read")),
    ];
    all.into_iter().filter(|row| row.0).map(|row| row.1).collect()
}

/// The live files, one a line, and how many slots are left.
fn as_text(slots: &[Slot]) -> String {
    let mut text = String::from("slot  name          sectors  date      protected\n");
    for (slot, entry) in live(slots) {
        let _ = writeln!(text, "{}", line(slot.number, entry).trim_end());
    }
    let _ = writeln!(
        text,
        "{} in {} slots; {} deleted, {} never used",
        plural(live(slots).count(), "file"),
        slots.len(),
        count(slots, State::Deleted),
        count(slots, State::NeverUsed)
    );
    text
}

fn line(number: usize, entry: &Entry) -> String {
    let [month, day, year] = entry.date;
    let date = format!("{:02}-{:02}-{:02}", month, day, year);
    let letters: String = protections(entry).iter().map(|row| row.0).collect();
    format!("{:4}  {:12}  {:7}  {}  {}", number, entry.name, entry.sectors, date, letters)
}

pub fn as_json(words: &Words, slots: &[Slot]) -> String {
    let files = live(slots).map(|(slot, entry)| file_as_json(slot, entry));
    json::Object::new()
        .with_text("image", &words.image().to_string_lossy())
        .with("slots", slots.len())
        .with("deleted", count(slots, State::Deleted))
        .with("never_used", count(slots, State::NeverUsed))
        .with("files", json::list(files))
        .end()
}

fn file_as_json(slot: &Slot, entry: &Entry) -> String {
    json::Object::new()
        .with("slot", slot.number)
        .with("directory_sector", json::address(slot.place.sector))
        .with("displacement", slot.place.displacement)
        .with_text("name", &entry.name.to_string())
        .with("sectors", entry.sectors)
        .with("start", json::address(entry.start))
        .with("end", json::address(entry.end))
        .with("date", json::date(entry.date))
        .with("write_protected", entry.write_protected)
        .with("delete_protected", entry.delete_protected)
        .with("read_protected", entry.read_protected)
        .end()
}

#[cfg(test)]
mod tests {
    use super::*;
    use flex::{Address, Place};

    #[test]
    fn the_directory_has_a_line_a_file() {
        let entry = Entry {
            name: "A.TXT".parse().unwrap(),
            start: Address::new(1, 1),
            end: Address::new(1, 1),
            sectors: 1,
            write_protected: true,
            delete_protected: false,
            read_protected: true,
            date: [7, 4, 81],
        };
        let slot = |number, state| Slot { number, place: Place::default(), state };
        let text = as_text(&[slot(1, State::Live(entry)), slot(2, State::NeverUsed)]);
        assert!(text.contains("   1  A.TXT               1  07-04-81  WR\n"));
        assert!(text.ends_with("1 file in 2 slots; 0 deleted, 1 never used\n"));
    }
}
