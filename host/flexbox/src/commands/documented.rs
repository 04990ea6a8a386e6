//! The fields that `--json` prints are those of the table in docs/FLEXBOX.md: every one of them, and no other.

use super::{census, check, diff, find, info, list, salvage};
use crate::diff::{Difference, Side};
use crate::failure::Failure;
use crate::json::reading::{read, Value};
use crate::salvage::Salvage;
use crate::words::Words;
use diskettes::{blank, offset};
use flex::{Diskette, Shape};
use std::collections::BTreeSet;

const DOCUMENT: &str = include_str!("../../../../docs/FLEXBOX.md");
/// Where the table begins. A line has the commands, their fields, and what these hold.
const TABLE: &str = "| `--json` of | Fields | What they hold |";
/// With what JSON must quote.
const NAME: &str = "a \"quoted\"\\\n\u{7f} name";

/// What is in backticks.
fn quoted(cell: &str) -> Vec<&str> {
    cell.split('`').skip(1).step_by(2).collect()
}

/// The fields that the table has for a command.
fn documented(command: &str) -> BTreeSet<String> {
    let table = DOCUMENT.split(TABLE).nth(1).expect("docs/FLEXBOX.md has the table of fields");
    let mut fields = BTreeSet::new();
    for row in table.lines().skip(2).take_while(|line| line.starts_with('|')) {
        let cells: Vec<&str> = row.split('|').collect();
        if quoted(cells[1]).contains(&command) {
            for field in quoted(cells[2]) {
                assert!(fields.insert(field.to_string()), "{} is there twice for {}", field, command);
            }
        }
    }
    fields
}

fn in_use() -> Vec<u8> {
    let mut diskette = Diskette::new(blank(2, 6));
    for name in ["A", "B"] {
        diskette.put(&name.parse().unwrap(), &[7; 504], [1, 2, 3]).unwrap();
    }
    diskette.into_buffers().0
}

/// Sound; A's second sector is B's, with the slot of A; the directory leads nowhere; its second sector, where A's slot is too, is not
/// reached.
fn images() -> Vec<Vec<u8>> {
    let (mut shared, mut loose, mut cut) = (in_use(), in_use(), in_use());
    shared[offset(6, 1, 1)..][..2].copy_from_slice(&[1, 4]);
    shared[1024 + 16 + 15..][..2].copy_from_slice(&[1, 4]);
    loose[1024..1026].copy_from_slice(&[0, 9]);
    cut.copy_within(1024 + 16..1024 + 40, offset(6, 0, 6) + 16);
    cut[1024..1026].copy_from_slice(&[0, 0]);
    vec![in_use(), shared, loose, cut]
}

/// What a command prints of a diskette; None where `list` is refused.
fn printed(command: &str, image: Vec<u8>) -> Option<String> {
    let second = ["salvage", "diff"].contains(&command).then(|| "second".into());
    let typed: Vec<_> = ["--json".into(), NAME.into()].into_iter().chain(second).collect();
    let words = Words::parse(find(command).unwrap(), &typed).ok().flatten().unwrap();
    let mut diskette = Diskette::new(image);
    let record = info::Record::read(&mut diskette).unwrap();
    let shape = Shape::stated(diskette.image()).unwrap();
    match command {
        "salvage" => {
            let found = Salvage::of(diskette.image(), shape, false);
            let saved = |_| salvage::Saved { name: String::new(), failure: None };
            Some(salvage::as_json(&words, &found, &found.files.iter().map(saved).collect::<Vec<_>>(), 0))
        }
        "diff" => {
            let sides = [&mut diskette, &mut Diskette::new(in_use())].map(|side| Side::of(side).unwrap());
            Some(diff::as_json(&words, &sides[0], &sides[1], &Difference::of(&sides[0], &sides[1])))
        }
        "list" => Some(list::as_json(&words, &diskette.slots().ok()?)),
        "info" => Some(info::as_json(&words, &record, &crate::check::check(&mut diskette).unwrap())),
        "check" => {
            let left = ["left".to_string()];
            Some(check::as_json(&words, &crate::check::check(&mut diskette).unwrap(), &left))
        }
        _ => Some(census::as_json(&words, shape, &diskette.survey())),
    }
}

#[test]
fn every_field_is_documented_and_every_documented_one_is_there() {
    for command in ["list", "info", "check", "census", "salvage", "diff"] {
        let mut fields = BTreeSet::new();
        for json in images().into_iter().filter_map(|image| printed(command, image)) {
            let value = read(&json);
            fields.extend(value.fields());
            match value {
                Value::Object(members) => {
                    assert!(members.contains(&("image".to_string(), Value::Text(NAME.to_string()))))
                }
                other => panic!("no object: {:?}", other),
            }
        }
        assert!(fields.len() >= 5, "{}: {:?}", command, fields);
        assert_eq!(fields, documented(command), "{}", command);
    }
}

/// What is no diskette, or can't be read, has the same fields.
#[test]
fn check_prints_one_object_whatever_it_is() {
    let words = Words::parse(find("check").unwrap(), &["--json".into(), NAME.into()]).ok().flatten().unwrap();
    let refused = Failure::Refused(flex::Refusal::CensusShape, String::new());
    let fields = |json: &str| -> Vec<String> {
        match read(json) {
            Value::Object(members) => members.into_iter().map(|(name, _)| name).collect(),
            other => panic!("no object: {:?}", other),
        }
    };
    let right = fields(&printed("check", in_use()).unwrap());
    for failure in [refused, Failure::File("gone".to_string()), Failure::Locked("locked".to_string())] {
        assert_eq!(fields(&check::unseen_as_json(&words, &failure)), right);
    }
    let told = check::unseen_as_json(&words, &Failure::File("it's \"gone\"".to_string()));
    assert!(told.contains("\"verdict\":null,\"meaning\":\"it's \\\"gone\\\"\""), "{}", told);
}
