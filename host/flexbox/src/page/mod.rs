//! A diskette as one HTML page with all that it needs: no script, nothing from the network. `map` draws the sectors, `text` has
//! the words around them, `repair` what a repair would do; what is shown comes from the check, and the verdict from the proved census.

mod map;
mod repair;
mod text;

use crate::check::{Check, Owner};
use crate::commands::info::Record;
use crate::commands::letter;
use crate::plan::Repaired;
use flex::{Refusal, Slot};
use std::collections::HashMap;
use std::fmt::Write;

const STYLE: &str = include_str!("style.css");

/// With more files than this none is highlighted by its line, and the signs of files are not classes of their sectors.
const HIGHLIGHTED: usize = 200;

/// What a page is made of. `name` is what the image is called, `time` when it was looked at, `repaired` what a repair makes of it, if
/// it is damaged.
#[derive(Clone, Copy)]
pub struct Subject<'a> {
    pub name: &'a str,
    pub record: &'a Record,
    pub check: &'a Check,
    pub repaired: Option<&'a Result<Repaired, Refusal>>,
    pub image: &'a [u8],
    pub time: &'a str,
}

/// The page of a diskette.
pub fn page(subject: &Subject) -> String {
    let check = subject.check;
    let signs = Signs::of(&check.slots);
    let mut page = String::from("<!DOCTYPE html>\n<html lang=\"en\">\n<head>\n<meta charset=\"utf-8\">\n");
    page.push_str(
        "<meta http-equiv=\"Content-Security-Policy\" content=\"default-src 'none'; style-src 'unsafe-inline'\">\n\
         <meta name=\"viewport\" content=\"width=device-width, initial-scale=1\">\n",
    );
    let _ = writeln!(page, "<title>{}: FLEX diskette</title>", escaped(subject.name));
    let _ = writeln!(page, "<style>\n{}{}</style>\n</head>\n<body>\n<main>", STYLE, highlights(check, &signs));
    page.push_str(&text::heading(subject.name, check));
    page.push_str(&text::facts(subject));
    page.push_str(&text::findings(check));
    page.push_str(&repair::section(subject));
    page.push_str("<div class=\"beside\">\n");
    page.push_str(&map::map(check, &signs, subject.image));
    page.push_str(&text::directory(check, &signs));
    page.push_str("</div>\n</main>\n</body>\n</html>\n");
    page
}

/// Pointing at a file's line in the directory dims all sectors but its own.
fn highlights(check: &Check, signs: &Signs) -> String {
    let mut rules = String::new();
    for slot in check.slots.iter().filter(|slot| slot.entry().is_some() && signs.are_few()) {
        let n = slot.number;
        let _ = writeln!(rules, "body:has(.row{}:hover) .cell:not(.slot{}) {{ opacity: .18; }}", n, n);
    }
    rules
}

/// A text where HTML is expected.
pub fn escaped(text: &str) -> String {
    let mut safe = String::new();
    for letter in text.chars() {
        match letter {
            '&' => safe.push_str("&amp;"),
            '<' => safe.push_str("&lt;"),
            '>' => safe.push_str("&gt;"),
            '"' => safe.push_str("&quot;"),
            '\'' => safe.push_str("&#39;"),
            other => safe.push(other),
        }
    }
    safe
}

/// The letter and the colour of each file, by its slot.
pub struct Signs(HashMap<usize, (String, String)>);

impl Signs {
    /// In the order of the slots. Hues are as far apart as can be, and none is red: that is the colour of damage.
    fn of(slots: &[Slot]) -> Signs {
        let files = slots.iter().filter(|slot| slot.entry().is_some()).enumerate();
        let sign = |(i, slot): (usize, &Slot)| {
            let hue = 35 + (i * 185 + 160) % 299;
            let colour = format!("hsl({} 58% {}%)", hue, [70, 63, 79][i / 5 % 3]);
            (slot.number, (letter(i).to_string(), colour))
        };
        Signs(files.map(sign).collect())
    }

    /// Whether there are so few files that each is told apart.
    pub fn are_few(&self) -> bool {
        self.0.len() <= HIGHLIGHTED
    }

    pub fn letter(&self, owner: Owner) -> &str {
        match owner {
            Owner::Free => "·",
            Owner::Directory => "=",
            Owner::File(slot) => self.0.get(&slot).map_or("?", |sign| &sign.0),
        }
    }

    pub fn colour(&self, owner: Owner) -> &str {
        match owner {
            Owner::Free => "var(--free)",
            Owner::Directory => "var(--directory)",
            Owner::File(slot) => self.0.get(&slot).map_or("var(--free)", |sign| &sign.1),
        }
    }
}

#[cfg(test)]
mod tests;
