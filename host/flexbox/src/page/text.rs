//! The words of the page: heading, facts, what the census says, and the directory.

use super::{escaped, Signs, Subject};
use crate::check::{Check, Owner};
use crate::commands::list::protections;
use crate::commands::plural;
use flex::{Entry, Slot};
use std::fmt::Write;

/// The rules of the census in words, by its numbers.
const RULES: [(u8, &str); 5] = [
    (42, "The directory's links lead through sectors 5 and up of track 0 and data sectors to an end"),
    (43, "No two files have one name"),
    (44, "The free chain has as many sectors as it states, to its stated end"),
    (45, "Each file's chain has as many sectors as its slot states, to its stated end"),
    (46, "Each data sector is free, the directory's or in one file, and never two of these"),
];

pub fn heading(name: &str, check: &Check) -> String {
    let (class, word, words) = match check.verdict {
        Ok(()) => (
            "sound",
            "Sound",
            "The census accepts it: every data sector is free, the directory's or in one file.".to_string(),
        ),
        Err(refusal) => {
            let number = flex::message(refusal.number());
            ("damaged", "Damaged", format!("The census refuses it: {}, {}.", number, refusal.meaning()))
        }
    };
    format!(
        "<header>\n<h1>{}</h1>\n<p class=\"verdict {}\"><strong>{}</strong> {}</p>\n</header>\n",
        escaped(name),
        class,
        word,
        escaped(&words)
    )
}

pub fn facts(subject: &Subject) -> String {
    let (record, check) = (subject.record, subject.check);
    let shape = check.shape;
    let all = shape.data_sectors();
    let free = check.free_sectors();
    let facts = [
        ("Tracks", format!("0 to {}", shape.last)),
        ("Sectors a track", shape.per.to_string()),
        ("Label", record.shown_label().to_string()),
        ("Volume", record.volume.to_string()),
        ("Made", record.made()),
        ("Files", check.files().map_or("not known".to_string(), |files| files.to_string())),
        ("Free", format!("{} of {} sectors", free, all)),
        ("File", format!("{} bytes", subject.image.len())),
        ("Looked at", subject.time.to_string()),
        ("flexbox", env!("CARGO_PKG_VERSION").to_string()),
    ];
    let mut text = String::from("<dl>\n");
    for (name, value) in facts {
        let _ = writeln!(text, "<div><dt>{}</dt><dd>{}</dd></div>", name, escaped(&value));
    }
    let used = 100 * (all - free.min(all)) / all.max(1);
    let _ =
        writeln!(text, "</dl>\n<div class=\"bar\" title=\"{}% in use\"><i style=\"width:{}%\"></i></div>", used, used);
    text
}

/// Each rule of the census, kept or broken, and where it is broken.
pub fn findings(check: &Check) -> String {
    let mut text = String::from("<section>\n<h2>Census</h2>\n<ul class=\"rules\">\n");
    for (number, rule) in RULES {
        let broken: Vec<_> = check.findings.iter().filter(|finding| finding.number == number).collect();
        let unknown = number != 42 && number != 44 && !check.has_slots();
        let (class, mark) = match (broken.is_empty(), unknown) {
            (false, _) => ("broken", "✗"),
            (true, true) => ("unknown", "?"),
            (true, false) => ("kept", "✓"),
        };
        let _ = write!(text, "<li class=\"{}\"><b>{}</b> {} <small>{}</small>", class, mark, rule, number);
        if !broken.is_empty() {
            text.push_str("<ul>");
            for finding in broken.iter().take(TOLD) {
                let _ = write!(text, "<li>{}</li>", linked(finding));
            }
            if broken.len() > TOLD {
                let _ = write!(text, "<li>and {} more</li>", broken.len() - TOLD);
            }
            text.push_str("</ul>");
        }
        text.push_str("</li>\n");
    }
    text.push_str("</ul>\n");
    for file in check.unreached.iter().take(TOLD) {
        let _ = writeln!(text, "<p class=\"broken\">Not reached by the directory: {}</p>", escaped(&file.to_string()));
    }
    text.push_str("</section>\n");
    text
}

/// How many findings of a rule are told before the rest is only counted, and how many files are listed.
const TOLD: usize = 200;
const LISTED: usize = 2_000;

/// The text of a finding, leading to its first sector.
fn linked(finding: &crate::check::Finding) -> String {
    match finding.sectors.first() {
        Some(at) => format!("<a href=\"#c-{}-{}\">{}</a>", at.track, at.sector, escaped(&finding.text)),
        None => escaped(&finding.text),
    }
}

pub fn directory(check: &Check, signs: &Signs) -> String {
    let mut text = String::from("<section class=\"files\">\n<h2>Directory</h2>\n");
    let (listed, count) = listed(check);
    if listed.is_empty() {
        let why = if check.has_slots() { "There is no file." } else { "It can't be listed." };
        let _ = writeln!(text, "<p>{}</p>\n</section>", why);
        return text;
    }
    text.push_str(
        "<div class=\"scroll\"><table>\n<thead><tr><th></th><th>Slot</th><th>Name</th><th>State</th><th>Sectors</th><th>From</th>\
         <th>To</th><th>Date</th><th>Protected</th></tr></thead>\n<tbody>\n",
    );
    for (slot, entry, is_damaged) in &listed {
        text.push_str(&line(signs, slot, entry, *is_damaged));
    }
    text.push_str("</tbody>\n</table></div>\n");
    if count > listed.len() {
        let more = count - listed.len();
        let _ =
            writeln!(text, "<p>And {} more files, which are sound or as damaged: flexbox list shows all.</p>", more);
    }
    let _ = writeln!(text, "<p>{} in all.</p>\n</section>", plural(check.slots.len(), "slot"));
    text
}

/// The live files, with whether they are damaged, and how many there are. Of very many the damaged ones come first, and then they are
/// put in the order of their slots.
fn listed(check: &Check) -> (Vec<(&Slot, &Entry, bool)>, usize) {
    let damaged = check.concerned(0);
    let live = check.slots.iter().filter_map(|slot| Some((slot, slot.entry()?, damaged[slot.number])));
    let mut live: Vec<(&Slot, &Entry, bool)> = live.collect();
    let count = live.len();
    if count > LISTED {
        live.sort_by_key(|row| !row.2);
        live.truncate(LISTED);
        live.sort_by_key(|row| row.0.number);
    }
    (live, count)
}

fn line(signs: &Signs, slot: &Slot, entry: &Entry, is_damaged: bool) -> String {
    let owner = Owner::File(slot.number);
    let [month, day, year] = entry.date;
    let protected: Vec<&str> = protections(entry).iter().map(|row| row.1).collect();
    let state = if is_damaged { "<td class=\"broken\">damaged</td>" } else { "<td>sound</td>" };
    format!(
        "<tr class=\"row{}\"><td><span class=\"key\" style=\"background:{}\">{}</span></td><td>{}</td><td class=\"name\">{}</td>\
         {}<td>{}</td><td>{}</td><td>{}</td><td>{:02}-{:02}-{:02}</td><td>{}</td></tr>\n",
        slot.number,
        signs.colour(owner),
        escaped(signs.letter(owner)),
        slot.number,
        escaped(&entry.name.to_string()),
        state,
        entry.sectors,
        entry.start,
        entry.end,
        month,
        day,
        year,
        protected.join(", "),
    )
}
