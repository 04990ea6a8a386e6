//! `repair`: says what is wrong and what each file keeps, then mends the diskette and keeps the old image beside it.
//!
//! Exit status: 0 nothing was wrong, and nothing is written; 1 repaired; 2 not repaired, with the reason.

use super::by_slot;
use super::check as report;
use super::dropping::drop_file;
use super::{full, hint, plural, print, try_print, typed, with_extension, wrong_length};
use crate::check::{self, file, Check, Owner, Unreached};
use crate::failure::Failure;
use crate::image::Image;
use crate::input;
use crate::plan::words::{lost, of_nobody, outcome, taker};
use crate::plan::{vanishing, Fate, Loss, Plan, Repaired};
use crate::words::{quoted, text, Words};
use flex::{Diskette, Entry, Refusal};
use std::fmt::Write;

pub fn run(words: &Words) -> Result<(), Failure> {
    // Others may read while somebody thinks about the question; the lock to change it is taken after the answer.
    let mut image = match words.has("--dry-run") {
        true => Image::look(words.image(), words.wait())?,
        false => Image::look_to_change(words.image(), words.wait())?,
    };
    let old = image.read()?;
    let mut diskette = Diskette::new(old.clone());
    let found = check::check(&mut diskette).map_err(|refusal| unrepairable(words, refusal, &wrong_length(&old)))?;
    print(told_first(words, &found).as_bytes())?;
    if found.verdict.is_ok() {
        return nothing_wrong(words);
    }
    let (dropped, files) = drop_files(words, &mut diskette)?;
    let check = match words.has("--drop") {
        true => check::check(&mut diskette).map_err(|refusal| unrepairable(words, refusal, ""))?,
        false => found,
    };
    let plan = Plan::of(check, &diskette, &files);
    let repaired = plan
        .repaired
        .as_ref()
        .map_err(|&refusal| unrepairable(words, refusal, &reason(words, &plan, refusal, &diskette)))?;
    print((dropped + &told(words, &plan, repaired, diskette.image())).as_bytes())?;
    if words.has("--dry-run") {
        print(b"a dry run: nothing is written\n")?;
        return Err(Failure::Shown);
    }
    agree(words, &plan, repaired)?;
    save(words, image.claim(words.wait())?, &old, repaired)?;
    Err(Failure::Shown)
}

/// What is wrong, before anything is done about it.
fn told_first(words: &Words, found: &Check) -> String {
    let line = report::last_line(words, found);
    match found.verdict {
        Ok(()) => line,
        Err(_) => line + &findings(found) + &report::unreached(found) + &report::gone(found),
    }
}

/// A sound diskette is not written at all; one who wants a file gone from it has asked the wrong command.
fn nothing_wrong(words: &Words) -> Result<(), Failure> {
    match words.has("--drop") {
        false => Ok(()),
        true => {
            let why = "nothing is wrong with it, so no file is dropped; flexbox delete deletes one";
            Err(Failure::Unrepaired(format!("{}: {}", words.image().display(), why)))
        }
    }
}

/// The files that are given up, each told in a line.
fn drop_files(words: &Words, diskette: &mut Diskette) -> Result<(String, Vec<Entry>), Failure> {
    let (mut lines, mut files) = (String::new(), Vec::new());
    for word in words.values("--drop") {
        let typed_name = text(word)?;
        let name = full(&typed(typed_name)?);
        let file = drop_file(diskette, &name).map_err(|refusal| {
            let (disk, hint) = (words.image().display(), hint(&name, refusal, diskette));
            let told = format!("{} can't be dropped: {}{}", with_extension(typed_name, &name), refusal, hint);
            Failure::Unrepaired(format!("{}: not changed, since {}", disk, told))
        })?;
        let _ = writeln!(lines, "{} is dropped first", name);
        files.push(file);
    }
    Ok((lines, files))
}

/// Once it is saved, a line that can't be printed must not hide that.
fn save(words: &Words, image: Image, old: &[u8], repaired: &Repaired) -> Result<(), Failure> {
    let disk = words.image().display();
    let kept = image.save_keeping(old, repaired.diskette.image())?;
    let line = format!("{}: repaired; the old image is {}", disk, kept.display());
    try_print(format!("{}\n", line).as_bytes()).map_err(|problem| Failure::File(format!("{}, but {}", line, problem)))
}

fn unrepairable(words: &Words, refusal: Refusal, why: &str) -> Failure {
    let colon = if why.is_empty() { "" } else { ": " };
    let way_out = match refusal {
        Refusal::CensusNames => String::new(),
        _ => {
            let disk = quoted(&words.image().to_string_lossy());
            format!("; flexbox salvage {} FOLDER saves what can be read", disk)
        }
    };
    Failure::Unrepaired(format!("{}: not repairable: {}{}{}{}", words.image().display(), refusal, colon, why, way_out))
}

/// What one who reads the refusal needs to know of it.
fn reason(words: &Words, plan: &Plan, refusal: Refusal, diskette: &Diskette) -> String {
    let first = plan.check.findings.iter().find(|finding| finding.number == refusal.number());
    let what = first.map_or(String::new(), |finding| finding.to_string());
    match refusal {
        Refusal::CensusNames => what + &names_way_out(words, &plan.check, diskette),
        _ => what,
    }
}

/// How one of two files of one name gets another, or is given up, where trying it on a copy works.
fn names_way_out(words: &Words, check: &Check, diskette: &Diskette) -> String {
    let disk = quoted(&words.image().to_string_lossy());
    let twins = check.findings.iter().filter(|finding| finding.number == 43).flat_map(|finding| &finding.slots);
    let twins: Vec<usize> = twins.copied().collect();
    let names_alone = check.findings.iter().all(|finding| finding.number == 43);
    let can_rename = |&&slot: &&usize| by_slot::can_rename(diskette, slot);
    if let Some(slot) = twins.iter().find(can_rename).filter(|_| names_alone) {
        return format!("; flexbox rename --slot {} {} NEW.EXT gives one of them another", slot, disk);
    }
    let name = twins.first().and_then(|&slot| check.slots[slot - 1].entry()).map(|entry| entry.name);
    match name {
        Some(name) if drop_file(&mut diskette.clone(), &name).is_ok() => {
            format!("; flexbox rename --force {} {} NEW.EXT gives the first of them another", disk, name)
        }
        _ => format!("; flexbox salvage {} FOLDER saves both", disk),
    }
}

fn findings(check: &Check) -> String {
    check.findings.iter().map(|finding| format!("  {} {}\n", finding.number, finding)).collect()
}

/// What each file keeps, what is free then, and which sound files lose something.
fn told(words: &Words, plan: &Plan, repaired: &Repaired, image: &[u8]) -> String {
    let mut text = String::from("a repair leaves:\n");
    for fate in &repaired.fates {
        let slot = &plan.check.slots[fate.slot - 1];
        let _ = writeln!(text, "  {}: {}", file(slot), outcome(&plan.check, fate));
    }
    let found = match repaired.found {
        0 => String::new(),
        found => {
            format!(", {} of them found again, which {} in no chain", found, if found == 1 { "was" } else { "were" })
        }
    };
    let _ = writeln!(text, "  free: {}{}", plural(repaired.free, "sector"), found);
    if let Some(lost) = lost(&repaired.loss(&plan.check)) {
        let _ = writeln!(text, "  lost: {}", lost);
    }
    let told = if plan.check.slots.len() > MANY_SLOTS { 1 } else { NAMED };
    for fate in repaired.wronged().take(told) {
        text.push_str(&wronged(words, plan, fate, image));
    }
    let more = repaired.wronged().count().saturating_sub(told);
    if more > 0 {
        let _ = writeln!(text, "and {} more rightly chained files would be cut", more);
    }
    text
}

/// A sound file that would be cut: for whom, and what one can do about it before.
fn wronged(words: &Words, plan: &Plan, fate: &Fate, image: &[u8]) -> String {
    let (name, other) = (fate.entry.name, taker(&plan.check, fate));
    let is_damaged =
        matches!(fate.holder, Some(Owner::File(slot)) if plan.check.of_slot(slot).any(|one| one.number == 45));
    let which = if is_damaged { "which is damaged and comes before it" } else { "which comes before it" };
    let mut text = format!("{} is rightly chained, and would be cut for {}, {}.\n", name, other, which);
    let ways = fate.ways_out(plan, image);
    let disk = quoted(&words.image().to_string_lossy());
    if let Some(earlier) = ways.drop {
        let _ = writeln!(
            text,
            "  to keep all of {} and lose {}: flexbox repair --drop {} {}",
            name, earlier, earlier, disk
        );
    }
    if ways.save {
        let _ = writeln!(
            text,
            "  to keep what both have now: flexbox get --force {} {}=FILE before, flexbox put --replace {} {}=FILE afterwards",
            disk, name, disk, name
        );
    }
    text
}

/// Where something would be lost that can be a file's, somebody has to say that it may.
fn agree(words: &Words, plan: &Plan, repaired: &Repaired) -> Result<(), Failure> {
    let loss = repaired.loss(&plan.check);
    if words.has("--yes") || (loss.files, loss.nobodys) == (0, 0) {
        return Ok(());
    }
    let (disk, lost) = (words.image().display(), would_be_lost(plan, repaired, &loss));
    if !input::can_ask() {
        let why = "standard input is no terminal to ask at; --yes repairs it all the same";
        return Err(Failure::Unrepaired(format!("{}: not changed, since {}; {}", disk, lost, why)));
    }
    match input::ask(&format!("flexbox: {}: {}. Repair it all the same? [y/N] ", disk, lost)) {
        true => Ok(()),
        false => Err(Failure::Unrepaired(format!("{}: not changed", disk))),
    }
}

/// How many files the question names, and how many sound ones get their ways out told, before the rest is only counted.
const NAMED: usize = 8;
/// With more slots than this to try a way out takes a second or so: then it is told for one file.
const MANY_SLOTS: usize = 2_000;

/// What is lost, counted, and by whom: what was printed of it may have gone to a file, where the one who is asked does not see it.
fn would_be_lost(plan: &Plan, repaired: &Repaired, loss: &Loss) -> String {
    let nobodys = || format!("{} would be free, which may be a file's", of_nobody(loss.nobodys));
    let (count, sectors) = (plural(loss.files, "file"), plural(loss.sectors, "sector"));
    let of_files = || format!("{} would lose up to {}: {}", count, sectors, names(plan, repaired, loss.files));
    match (loss.files, loss.nobodys) {
        (0, _) => nobodys(),
        (_, 0) => of_files(),
        _ => format!("{}; and {}", of_files(), nobodys()),
    }
}

/// The first of the files that lose something.
fn names(plan: &Plan, repaired: &Repaired, count: usize) -> String {
    let cut = repaired.losing().map(|fate| losing(plan, fate));
    let in_no_chain = |file: &Unreached| format!("{} in no chain", plural(file.loose, "sector"));
    let vanished = vanishing(&plan.check)
        .map(|file| format!("{} (not reached by the directory, {})", file.entry.name, in_no_chain(file)));
    let gone = repaired.gone.iter().map(|file| {
        format!("{} (of the deleted or damaged slot at {}, {})", file.entry.name, file.place, in_no_chain(file))
    });
    let mut files: Vec<String> = cut.chain(vanished).chain(gone).take(NAMED).collect();
    if count > NAMED {
        files.push(format!("{} more", count - NAMED));
    }
    files.join(", ")
}

/// "NORTH.TXT (5 to 2 sectors)", and for whom where the chain of the one that is cut is right.
fn losing(plan: &Plan, fate: &Fate) -> String {
    let name = fate.entry.name;
    match fate.is_cut() {
        false if fate.before_end > 0 => {
            format!("{} ({} on the way to its stated end)", name, plural(fate.lost(0), "sector"))
        }
        false => format!("{} ({} behind its stated size)", name, plural(fate.behind, "sector")),
        true if fate.is_right => {
            format!("{} ({} to {}, for {})", name, fate.stated(), plural(fate.kept, "sector"), taker(&plan.check, fate))
        }
        true => format!("{} ({} to {})", name, fate.stated(), plural(fate.kept, "sector")),
    }
}
