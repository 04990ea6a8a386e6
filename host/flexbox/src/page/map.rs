//! The sectors as rows of cells, a row a track, drawn in SVG.

use super::{escaped, Signs};
use crate::check::{Check, Owner};
use flex::Address;
use std::fmt::Write;

// Measures in pixels.
const WIDTH: usize = 26;
const HEIGHT: usize = 24;
const GAP: usize = 3;
/// Left of the rows and above them, for the numbers.
const MARGIN: usize = 34;

/// How many holders and findings of a sector are told before the rest is only counted.
const TOLD: usize = 4;

/// What is known of one sector.
struct Cell<'a> {
    address: Address,
    /// Who holds it, and as which sector of how many.
    holders: Vec<(Owner, usize, usize)>,
    /// What it is on track 0.
    system: Option<&'static str>,
    /// What is wrong with it.
    damage: Vec<&'a str>,
    link: Address,
}

pub fn map(check: &Check, signs: &Signs, image: &[u8]) -> String {
    let (tracks, per) = (check.shape.last as usize + 1, check.shape.per as usize);
    let (width, height) = (MARGIN + per * (WIDTH + GAP), MARGIN + tracks * (HEIGHT + GAP));
    let mut text = String::from("<section class=\"map\">\n<h2>Sectors</h2>\n");
    text.push_str(LEGEND);
    let _ = writeln!(
        text,
        "<div class=\"scroll\"><svg width=\"{}\" height=\"{}\" viewBox=\"0 0 {} {}\" role=\"img\" \
         aria-label=\"The sectors of the diskette, a row a track\">",
        width, height, width, height
    );
    text.push_str(&numbers(tracks, per));
    for cell in cells(check, image) {
        text.push_str(&drawn(&cell, check, signs));
    }
    text.push_str("</svg></div>\n</section>\n");
    text
}

const LEGEND: &str = "<p class=\"legend\"><span class=\"key file\">A</span> held by a file \
    <span class=\"key\">·</span> free <span class=\"key lost\">?</span> not known to be in any chain \
    <span class=\"key system\">=</span> directory and system <span class=\"key directory\">=</span> taken by the directory \
    <span class=\"key bad\">!</span> damaged here. A row is a track, from 0 on; point at a sector to see who holds it.</p>\n";

/// Numbers of sectors above, of tracks to the left.
fn numbers(tracks: usize, per: usize) -> String {
    let mut text = String::from("<g class=\"number\">\n");
    for i in 0..per {
        let x = MARGIN + i * (WIDTH + GAP) + WIDTH / 2;
        let _ = writeln!(text, "<text x=\"{}\" y=\"{}\">{}</text>", x, MARGIN - 10, i + 1);
    }
    for i in 0..tracks {
        let y = MARGIN + i * (HEIGHT + GAP) + HEIGHT / 2;
        let _ = writeln!(text, "<text x=\"{}\" y=\"{}\">{}</text>", MARGIN / 2 - 2, y, i);
    }
    text.push_str("</g>\n");
    text
}

/// All sectors in order, track 0 first.
fn cells<'a>(check: &'a Check, image: &[u8]) -> Vec<Cell<'a>> {
    let shape = check.shape;
    let addresses = (0..=shape.last).flat_map(|track| (1..=shape.per).map(move |sector| Address::new(track, sector)));
    let mut cells: Vec<Cell> = addresses.map(|address| cell(check, image, address)).collect();
    let per = shape.per as usize;
    for (owner, sectors) in &check.chains {
        for (i, address) in sectors.iter().enumerate() {
            let at = address.track as usize * per + address.sector as usize - 1;
            cells[at].holders.push((*owner, i + 1, sectors.len()));
        }
    }
    cells
}

fn cell<'a>(check: &'a Check, image: &[u8], address: Address) -> Cell<'a> {
    let found = check.findings.iter().filter(|finding| finding.sectors.contains(&address));
    Cell {
        address,
        holders: Vec::new(),
        system: (address.track == 0).then(|| system(check, address)),
        damage: found.map(|finding| finding.text.as_str()).collect(),
        link: Address::at(image, check.shape.offset(address)),
    }
}

fn system(check: &Check, address: Address) -> &'static str {
    match address.sector {
        _ if check.directory.contains(&address) => "directory",
        1 | 2 => "boot sector",
        3 => "information record",
        _ => "not used",
    }
}

fn drawn(cell: &Cell, check: &Check, signs: &Signs) -> String {
    let Address { track, sector } = cell.address;
    let (x, y) = (MARGIN + (sector as usize - 1) * (WIDTH + GAP), MARGIN + track as usize * (HEIGHT + GAP));
    let mut text = format!("<g class=\"cell{}\" id=\"c-{}-{}\"><title>", classes(cell, signs), track, sector);
    text.push_str(&escaped(&told(cell, check)));
    let (letter, colour) = face(cell, signs);
    let place = format!("x=\"{}\" y=\"{}\" width=\"{}\" height=\"{}\" rx=\"4\"", x, y, WIDTH, HEIGHT);
    let _ = write!(text, "</title><rect {} style=\"fill:{}\"/>", place, colour);
    if let Some((second, ..)) = cell.holders.get(1) {
        // The second holder's colour fills the lower right half.
        let (right, low) = (x + WIDTH, y + HEIGHT);
        let fill = signs.colour(*second);
        let _ = write!(text, "<path d=\"M{} {}V{}H{}Z\" style=\"fill:{}\"/>", right, y, low, x, fill);
    }
    let _ = write!(text, "<text x=\"{}\" y=\"{}\">{}</text>", x + WIDTH / 2, y + HEIGHT / 2, escaped(&letter));
    if !cell.damage.is_empty() {
        let _ = write!(text, "<rect class=\"damage\" {}/>", place);
    }
    text.push_str("</g>\n");
    text
}

/// The classes by which the directory's lines find their sectors; of very many files it is only said that there is one.
fn classes(cell: &Cell, signs: &Signs) -> String {
    if !signs.are_few() && cell.holders.iter().any(|(owner, ..)| matches!(owner, Owner::File(_))) {
        return " slots".to_string();
    }
    let mut text = String::new();
    for (owner, ..) in &cell.holders {
        match owner {
            Owner::Free => text.push_str(" free"),
            Owner::Directory => text.push_str(" directory"),
            Owner::File(number) => {
                let _ = write!(text, " slot{}", number);
            }
        }
    }
    text
}

/// The letters and the colour of a sector.
fn face(cell: &Cell, signs: &Signs) -> (String, String) {
    if let Some(system) = cell.system {
        let letter = match system {
            "directory" => "=",
            "boot sector" => "b",
            "information record" => "i",
            _ => "",
        };
        return (letter.to_string(), "var(--system)".to_string());
    }
    match cell.holders.first() {
        None => ("?".to_string(), "var(--lost)".to_string()),
        Some((owner, ..)) => {
            let letters: String = cell.holders.iter().take(2).map(|(owner, ..)| signs.letter(*owner)).collect();
            (letters, signs.colour(*owner).to_string())
        }
    }
}

/// What is shown of a sector when one points at it.
fn told(cell: &Cell, check: &Check) -> String {
    let mut lines = vec![format!("sector {}", cell.address)];
    lines.extend(cell.system.map(str::to_string));
    for &(owner, i, of) in cell.holders.iter().take(TOLD) {
        let name = match owner {
            Owner::Free => "free chain".to_string(),
            Owner::Directory => "taken by the directory".to_string(),
            Owner::File(number) => {
                check.slots[number - 1].entry().map_or(String::new(), |entry| entry.name.to_string())
            }
        };
        lines.push(format!("{}, sector {} of {}", name, i, of));
    }
    if cell.holders.len() > TOLD {
        lines.push(format!("and {} more files", cell.holders.len() - TOLD));
    }
    if cell.system.is_none() && cell.holders.is_empty() {
        let why = if check.has_slots() { "in no chain" } else { "not free; its file is not known" };
        lines.push(why.to_string());
    }
    if cell.system.map_or(true, |system| system == "directory") {
        lines.push(format!("links to {}", cell.link));
    }
    lines.extend(cell.damage.iter().take(TOLD).map(|text| format!("damaged: {}", text)));
    if cell.damage.len() > TOLD {
        lines.push(format!("and {} more findings", cell.damage.len() - TOLD));
    }
    lines.join("\n")
}
