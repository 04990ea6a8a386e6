//! What a repair would do, and what to type next.

use super::{escaped, Subject};
use crate::check::Check;
use crate::commands::plural;
use crate::plan::words::{lost, outcome};
use crate::plan::Repaired;
use crate::words::quoted;
use flex::Refusal;
use std::fmt::Write;

/// How many files are told before the rest is only counted.
const TOLD: usize = 100;

pub fn section(subject: &Subject) -> String {
    let mut text = String::from("<section>\n<h2>Repair</h2>\n");
    text.push_str(&match subject.repaired {
        None => "<p>There is nothing to repair.</p>\n".to_string(),
        Some(Err(refusal)) => format!("<p>It can't be repaired: {}.</p>\n", escaped(&refusal.to_string())),
        Some(Ok(repaired)) => outcomes(subject.check, repaired),
    });
    for (what, command) in next(subject) {
        let _ = writeln!(text, "<p class=\"next\">{}: <code>{}</code></p>", what, escaped(&command));
    }
    text.push_str("</section>\n");
    text
}

/// The files that are not kept whole, and what is lost.
fn outcomes(check: &Check, repaired: &Repaired) -> String {
    let changed: Vec<_> =
        repaired.fates.iter().filter(|fate| fate.is_cut() || !fate.is_right || fate.is_shared).collect();
    let whole = repaired.fates.len() - changed.len();
    let mut text = format!("<p>A repair leaves {} of {} as they are", whole, plural(repaired.fates.len(), "file"));
    let _ = write!(text, ", and {} free.", plural(repaired.free, "sector"));
    if let Some(lost) = lost(&repaired.loss(check)) {
        let _ = write!(text, " <strong class=\"broken\">Would be lost: {}.</strong>", lost);
    }
    text.push_str("</p>\n<ul>\n");
    for fate in changed.iter().take(TOLD) {
        let (name, what) = (fate.entry.name.to_string(), outcome(check, fate));
        let _ = writeln!(text, "<li>{}: {}</li>", escaped(&name), escaped(&what));
    }
    if changed.len() > TOLD {
        let _ = writeln!(text, "<li>and {} more</li>", changed.len() - TOLD);
    }
    text.push_str("</ul>\n");
    text
}

/// What to do, and the command for it.
fn next(subject: &Subject) -> Vec<(&'static str, String)> {
    let disk = quoted(subject.name);
    let save = ("First save what can be read", format!("flexbox salvage {} FOLDER", disk));
    match subject.repaired {
        None => vec![],
        Some(Err(Refusal::CensusNames)) => {
            let twin = subject.check.findings.iter().find(|finding| finding.number == 43);
            let slot = twin.and_then(|finding| subject.check.slots.get(finding.slots.first()? - 1));
            let name = slot.and_then(|slot| slot.entry()).map_or(String::new(), |entry| entry.name.to_string());
            let command = match slot {
                Some(slot) if subject.check.findings.iter().all(|finding| finding.number == 43) => {
                    format!("flexbox rename --slot {} {} NEW.EXT", slot.number, disk)
                }
                _ => format!("flexbox rename --force {} {} NEW.EXT", disk, quoted(&name)),
            };
            vec![save, ("Then give the first of the two another name", command)]
        }
        Some(Err(_)) => vec![save],
        Some(Ok(_)) => vec![save, ("Then repair", format!("flexbox repair {}", disk))],
    }
}
