//! `check`: what is damaged and where, in passes as fsck has them.

use super::{look, not_reached, on_each, plural, print, print_json, refused_of};
use crate::check::{check, Check, Unreached};
use crate::failure::Failure;
use crate::json;
use crate::leftovers;
use crate::words::Words;
use std::fmt::Write;
use std::fs;
use std::path::PathBuf;

/// A pass for each rule of the census, in its order.
const PASSES: [(u8, &str); 5] = [
    (42, "the directory's links"),
    (43, "the names of files"),
    (44, "the free chain"),
    (45, "the chains of files"),
    (46, "each sector in one chain"),
];

/// All that is known of one image; of several a line each. Ends with status 1 where the census refuses.
pub fn run(words: &Words) -> Result<(), Failure> {
    match words.others() {
        [] => one(words, as_text),
        _ => on_each(words, |words| one(words, line)),
    }
}

fn one(words: &Words, as_text: impl Fn(&Words, &Check, &[String]) -> String) -> Result<(), Failure> {
    let (check, left) = match look_at(words) {
        Ok(seen) => seen,
        Err(failure) => {
            if words.has("--json") {
                print_json(&unseen_as_json(words, &failure))?;
            }
            return Err(failure);
        }
    };
    match words.has("--json") {
        true => print_json(&as_json(words, &check, &left))?,
        false => print(as_text(words, &check, &left).as_bytes())?,
    }
    check.verdict.map_err(|_| Failure::Shown)
}

fn look_at(words: &Words) -> Result<(Check, Vec<String>), Failure> {
    let mut diskette = look(words)?;
    let check = check(&mut diskette).map_err(refused_of(words, &diskette))?;
    Ok((check, left_behind(words)))
}

/// The names of new files that a flexbox which is gone has left beside the image.
fn left_behind(words: &Words) -> Vec<String> {
    let path = fs::canonicalize(words.image()).unwrap_or_else(|_| words.image().to_path_buf());
    let name = |left: &PathBuf| left.file_name().unwrap_or_default().to_string_lossy().into_owned();
    leftovers::beside(&path).iter().map(name).collect()
}

fn as_text(words: &Words, check: &Check, left: &[String]) -> String {
    let mut text = String::new();
    for (i, (number, what)) in PASSES.iter().enumerate() {
        let _ = writeln!(text, "Pass {}: {}", i + 1, what);
        for finding in check.findings.iter().filter(|finding| finding.number == *number) {
            let _ = writeln!(text, "  {} {}", number, finding);
        }
        if *number == 42 && !check.has_slots() {
            text.push_str("  the slots can't be listed: names, files and their sectors are not checked\n");
        }
    }
    text.push_str(&(unreached(check) + &gone(check)));
    for name in left {
        let _ = writeln!(text, "  left by a flexbox that is gone: {}; the next change of the image removes it", name);
    }
    text.push_str(&last_line(words, check));
    text
}

/// All that is told of one of several images: the last line of its report, the files that the directory has lost, and how much else there is.
fn line(words: &Words, check: &Check, left: &[String]) -> String {
    let mut line = last_line(words, check).trim_end().to_string() + &not_reached(check);
    let counts = [
        (check.gone.len(), "deleted or damaged slot", "with sectors in no chain"),
        (left.len(), "file", "left by a flexbox that is gone"),
    ];
    for (count, what, how) in counts.into_iter().filter(|row| row.0 > 0) {
        let _ = write!(line, "; {} {}", plural(count, what), how);
    }
    line + "\n"
}

/// The files that the directory has lost, a line each.
pub fn unreached(check: &Check) -> String {
    let line = |file: &Unreached| format!("  not reached by the directory: {}\n", file);
    check.unreached.iter().map(line).collect()
}

/// The slots without a file that lead to sectors in no chain, a line each.
pub fn gone(check: &Check) -> String {
    let line = |file: &Unreached| format!("  of a deleted or damaged slot: {}\n", file);
    check.gone.iter().map(line).collect()
}

pub fn last_line(words: &Words, check: &Check) -> String {
    let name = words.image().display();
    let free = check.free_sectors();
    let all = check.shape.data_sectors();
    match check.verdict {
        Ok(()) => {
            let files = plural(check.files().unwrap_or_default(), "file");
            let taken = match check.directory_sectors() {
                0 => String::new(),
                sectors => format!(" ({} by the directory)", sectors),
            };
            format!("{}: clean, {}, {} of {} sectors used{}, {} free\n", name, files, all - free, all, taken, free)
        }
        Err(refusal) => {
            let (number, places) = (flex::message(refusal.number()), plural(check.findings.len(), "finding"));
            format!("{}: DAMAGED, {}: {}: {}\n", name, places, number, refusal.meaning())
        }
    }
}

pub fn as_json(words: &Words, check: &Check, left: &[String]) -> String {
    let findings = check.findings.iter().map(|finding| {
        json::Object::new()
            .with("number", finding.number)
            .with_text("text", &finding.text)
            .with("slots", json::list(finding.slots.iter().map(|slot| slot.to_string())))
            .with("sectors", json::list(finding.sectors.iter().map(|&sector| json::address(sector))))
            .end()
    });
    let (number, meaning) =
        check.verdict.map_or_else(|refusal| (refusal.number(), refusal.meaning()), |()| (0, "clean"));
    json::Object::new()
        .with_text("image", &words.image().to_string_lossy())
        .with("verdict", number)
        .with_text("meaning", meaning)
        .with("files", json::number(check.files()))
        .with("data_sectors", check.shape.data_sectors())
        .with("free_sectors", check.free_sectors())
        .with("directory_sectors", check.directory_sectors())
        .with("findings", json::list(findings))
        .with("unreached", json::list(check.unreached.iter().map(unreached_as_json)))
        .with("left_behind", json::list(left.iter().map(|name| json::text(name))))
        .end()
}

/// The same fields for what is no image of a diskette, with 41, or could not be read, with null.
pub fn unseen_as_json(words: &Words, failure: &Failure) -> String {
    let (number, meaning) = match failure {
        Failure::Refused(refusal, _) => (json::number(Some(refusal.number().into())), refusal.meaning().to_string()),
        other => (json::number(None), other.to_string()),
    };
    let none = || json::number(None);
    let empty = || json::list(Vec::new());
    json::Object::new()
        .with_text("image", &words.image().to_string_lossy())
        .with("verdict", number)
        .with_text("meaning", &meaning)
        .with("files", none())
        .with("data_sectors", none())
        .with("free_sectors", none())
        .with("directory_sectors", none())
        .with("findings", empty())
        .with("unreached", empty())
        .with("left_behind", json::list(left_behind(words).iter().map(|name| json::text(name))))
        .end()
}

fn unreached_as_json(file: &Unreached) -> String {
    json::Object::new()
        .with_text("name", &file.entry.name.to_string())
        .with("directory_sector", json::address(file.place.sector))
        .with("displacement", file.place.displacement)
        .with("sectors", file.entry.sectors)
        .with("start", json::address(file.entry.start))
        .with("end", json::address(file.entry.end))
        .with("in_no_chain", file.loose)
        .end()
}
