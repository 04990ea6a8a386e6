//! `info`: the shape of a diskette, its label and date, and how much is free.

use super::{look, not_reached, on_each, plural, print, print_json, refused_of};
use crate::check::{check, Check};
use crate::failure::Failure;
use crate::json;
use crate::words::Words;
use flex::{Address, Diskette, Refusal};

/// The information record, sector (0, 3), by its common FLEX layout.
pub struct Record {
    pub label: String,
    pub volume: u16,
    pub first_free: Address,
    pub last_free: Address,
    pub free: u16,
    pub date: [u8; 3],
}

impl Record {
    pub fn read(diskette: &mut Diskette) -> Result<Record, Refusal> {
        let sector = diskette.sector(Address::new(0, 3))?;
        let number = |at: usize| u16::from_be_bytes([sector[at], sector[at + 1]]);
        Ok(Record {
            label: label(&sector[16..27]),
            volume: number(27),
            first_free: Address::at(sector, 29),
            last_free: Address::at(sector, 31),
            free: number(33),
            date: [sector[35], sector[36], sector[37]],
        })
    }

    pub fn shown_label(&self) -> &str {
        if self.label.is_empty() {
            "none"
        } else {
            &self.label
        }
    }

    /// The date of the diskette as text.
    pub fn made(&self) -> String {
        match self.date {
            [0, 0, 0] => "no date".to_string(),
            [month, day, year] => format!("{:02}-{:02}-{:02}", month, day, year),
        }
    }
}

/// Up to the zeros or blanks at its end; what is no printable letter is shown as '?'.
fn label(bytes: &[u8]) -> String {
    let used = bytes.iter().rposition(|&byte| byte != 0 && byte != b' ').map_or(0, |last| last + 1);
    let shown = |&byte: &u8| if byte == b' ' || byte.is_ascii_graphic() { byte as char } else { '?' };
    bytes[..used].iter().map(shown).collect()
}

/// All of one image; of several a line each.
pub fn run(words: &Words) -> Result<(), Failure> {
    match words.others() {
        [] => one(words, as_text),
        _ => on_each(words, |words| one(words, line)),
    }
}

fn one(words: &Words, as_text: impl Fn(&Words, &Record, &Check) -> String) -> Result<(), Failure> {
    let mut diskette = look(words)?;
    let refused = refused_of(words, &diskette);
    let record = Record::read(&mut diskette).map_err(&refused)?;
    let check = check(&mut diskette).map_err(&refused)?;
    match words.has("--json") {
        true => print_json(&as_json(words, &record, &check)),
        false => print(as_text(words, &record, &check).as_bytes()),
    }
}

/// "disk: tracks 0 to 4 of 8 sectors, label MAIN, volume 1, made 12-03-81, 3 files, 19 sectors free, census accepted"
fn line(words: &Words, record: &Record, check: &Check) -> String {
    let files = check.files().map_or("files not known".to_string(), |files| plural(files, "file"));
    format!(
        "{}: tracks 0 to {} of {} sectors, label {}, volume {}, made {}, {}, {} free, census {}{}\n",
        words.image().display(),
        check.shape.last,
        check.shape.per,
        record.shown_label(),
        record.volume,
        record.made(),
        files,
        plural(record.free.into(), "sector"),
        census(check),
        not_reached(check)
    )
}

fn census(check: &Check) -> String {
    check.verdict.map_or_else(|refusal| refusal.to_string(), |()| "accepted".to_string())
}

fn as_text(words: &Words, record: &Record, check: &Check) -> String {
    let shape = check.shape;
    let sectors = (shape.last as usize + 1) * shape.per as usize;
    let free = match record.free {
        0 => "no sector".to_string(),
        count => format!("{} from {} to {}", plural(count as usize, "sector"), record.first_free, record.last_free),
    };
    let files = match (check.files(), check.directory_sectors()) {
        (Some(files), 0) => format!("{} in {} slots", files, check.slots.len()),
        (Some(files), taken) => {
            let sectors = plural(taken, "data sector");
            format!("{} in {} slots; the directory has taken {}", files, check.slots.len(), sectors)
        }
        (None, _) => "not known: the slots can't be listed".to_string(),
    };
    format!(
        "image    {}, {} bytes\nshape    tracks 0 to {} (M), {} sectors a track (S): {} sectors, {} of them for files\n\
         label    {}\nvolume   {}\nmade     {}\nfree     {}\nfiles    {}\n{}census   {}\n",
        words.image().display(),
        sectors * flex::SECTOR,
        shape.last,
        shape.per,
        sectors,
        shape.data_sectors(),
        record.shown_label(),
        record.volume,
        record.made(),
        free,
        files,
        unreached(check),
        census(check)
    )
}

/// A line that is there only where there is something to tell.
fn unreached(check: &Check) -> String {
    match check.unreached_names().as_slice() {
        [] => String::new(),
        names => format!("beyond   in sectors of track 0 that the directory does not reach: {}\n", names.join(", ")),
    }
}

pub fn as_json(words: &Words, record: &Record, check: &Check) -> String {
    json::Object::new()
        .with_text("image", &words.image().to_string_lossy())
        .with("last_track", check.shape.last)
        .with("sectors_per_track", check.shape.per)
        .with("data_sectors", check.shape.data_sectors())
        .with("directory_sectors", check.directory_sectors())
        .with_text("label", &record.label)
        .with("volume", record.volume)
        .with("date", json::date(record.date))
        .with("free", record.free)
        .with("first_free", json::address(record.first_free))
        .with("last_free", json::address(record.last_free))
        .with("files", json::number(check.files()))
        .with("slots", json::number(check.files().map(|_| check.slots.len())))
        .with("census", check.verdict.map_or_else(Refusal::number, |()| 0))
        .with("unreached", json::list(check.unreached_names().iter().map(|name| json::text(name))))
        .end()
}
