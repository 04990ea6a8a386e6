//! The two services side by side, each on its own copy of both buffers. Every call is made on both; the answers and all
//! bytes of both buffers must then be equal, margins included.

use crate::cut::Cut;
use crate::formatted::Formatted;
use crate::lent::Lent;
use crate::random::Random;
use crate::repaired::Repaired;
use crate::seen::Seen;
use crate::surveyed::Surveyed;
use crate::tally::{row_of_call, Tally, CENSUS, ERROR_TEXT, EXTENSION, FORMAT, PRESET, REPAIR};
use crate::wanted::Wanted;
use flex::{Held, ACTIVITY, BLOCK, TABLE};
use std::collections::VecDeque;
use std::fmt::{self, Write};

/// A call that was made, with all that a repetition needs besides the buffers; or a power cut in the one before, and a repair.
#[derive(Clone, Copy, Debug)]
#[allow(dead_code)] // the fields are printed
pub enum Made {
    Preset { table: usize, fcb: usize, offset: usize, value: u8 },
    Extension { table: usize, fcb: usize, code: usize },
    Call { image: usize, table: usize, fcb: usize, byte: u8, function: Option<u8>, activity: Option<u8> },
    Census { image: usize, sectors: usize, owners: usize },
    ErrorText { text: usize, number: u8 },
    Format { image: usize, last: usize, per: usize, label: usize, volume: u16, date: [u8; 3] },
    Repair { image: usize, table: usize },
    PowerCut,
}

/// The two services differ, or do together what they must not.
pub struct Mismatch(pub String);

impl fmt::Display for Mismatch {
    fn fmt(&self, f: &mut fmt::Formatter<'_>) -> fmt::Result {
        f.write_str(&self.0)
    }
}

pub type Checked<T> = Result<T, Mismatch>;

struct Side {
    image: Lent,
    table: Lent,
}

pub struct Pair<'a> {
    plain: Side,
    proved: Side,
    tally: &'a mut Tally,
    recent: VecDeque<Made>,
    /// While the power can fail in any call: where, by chance.
    cuts: Option<Random>,
}

/// How many calls are shown before one that differs.
const SHOWN: usize = 12;

impl<'a> Pair<'a> {
    pub fn new(image: &[u8], table: &[u8], tally: &'a mut Tally) -> Pair<'a> {
        let side = || Side { image: Lent::new(image), table: Lent::new(table) };
        Pair { plain: side(), proved: side(), tally, recent: VecDeque::new(), cuts: None }
    }

    pub fn image(&self) -> &[u8] {
        self.plain.image.bytes()
    }

    pub fn table(&self) -> &[u8] {
        self.plain.table.bytes()
    }

    pub fn calls(&self) -> u64 {
        self.tally.calls
    }

    /// The host may change what it owns between calls: the same on both sides.
    pub fn poke_image(&mut self, at: usize, bytes: &[u8]) {
        for side in [&mut self.plain, &mut self.proved] {
            side.image.bytes_mut()[at..at + bytes.len()].copy_from_slice(bytes);
        }
    }

    pub fn poke_table(&mut self, at: usize, bytes: &[u8]) {
        for side in [&mut self.plain, &mut self.proved] {
            side.table.bytes_mut()[at..at + bytes.len()].copy_from_slice(bytes);
        }
    }

    /// From now on the power can fail in any call; with none, no more. The diskette must be sound, and only calls may change it.
    pub fn cut_calls(&mut self, cuts: Option<Random>) {
        self.cuts = cuts;
    }

    pub fn preset(&mut self, fcb: usize, offset: usize, value: u8) -> Checked<u32> {
        self.preset_lent(self.plain.table.len(), fcb, offset, value)
    }

    pub fn preset_lent(&mut self, table: usize, fcb: usize, offset: usize, value: u8) -> Checked<u32> {
        let plain = reference::preset(self.plain.table.lend(table), fcb, offset, value);
        let proved = flex::entry::preset(self.proved.table.lend(table), fcb, offset, value);
        self.compare(Made::Preset { table, fcb, offset, value }, plain, proved)?;
        self.tally.count(PRESET, plain);
        Ok(plain)
    }

    pub fn extension(&mut self, fcb: usize, code: usize) -> Checked<u32> {
        self.extension_lent(self.plain.table.len(), fcb, code)
    }

    pub fn extension_lent(&mut self, table: usize, fcb: usize, code: usize) -> Checked<u32> {
        let plain = reference::extension(self.plain.table.lend(table), fcb, code);
        let proved = flex::entry::extension(self.proved.table.lend(table), fcb, code);
        self.compare(Made::Extension { table, fcb, code }, plain, proved)?;
        self.tally.count(EXTENSION, plain);
        Ok(plain)
    }

    /// The answer of a call.
    pub fn call(&mut self, fcb: usize, byte: u8) -> Checked<u32> {
        self.call_lent(self.plain.image.len(), self.plain.table.len(), fcb, byte)
    }

    /// The same with an image and a table of these lengths lent.
    pub fn call_lent(&mut self, image: usize, table: usize, fcb: usize, byte: u8) -> Checked<u32> {
        let row = row_of_call(self.plain.table.lend(table), fcb);
        let before = Seen::before(self.plain.image.lend(image), self.plain.table.lend(table), fcb);
        let image_before = self.cuts.as_ref().map(|_| self.proved.image.bytes().to_vec());
        let plain = reference::call(self.plain.image.lend(image), self.plain.table.lend(table), fcb, byte);
        let proved = flex::entry::call(self.proved.image.lend(image), self.proved.table.lend(table), fcb, byte);
        let made = Made::Call {
            image,
            table,
            fcb,
            byte,
            function: before.as_ref().map(|seen| seen.code),
            activity: before.as_ref().map(|seen| seen.activity),
        };
        self.compare(made, plain, proved)?;
        self.tally.count(row, plain / 256);
        if let Some(seen) = before {
            let code = seen.code;
            self.tally.note_call(&seen.after(plain / 256, self.plain.table.bytes()));
            if let Some(image) = image_before.filter(|_| plain / 256 == 0) {
                self.cut_short(made, code, image)?;
            }
        }
        Ok(plain / 256)
    }

    /// The power fails in the call that was made on this image, here and there; after a repair all files must be as before the call or
    /// as after it. Now and then the work goes on so, with all blocks lost.
    fn cut_short(&mut self, made: Made, code: u8, before: Vec<u8>) -> Checked<()> {
        let writing = self.table().chunks(BLOCK).filter(|block| block[ACTIVITY] == 2).count();
        let cut = Cut::of(code, before, self.proved.image.bytes(), writing);
        let (cut, random) = match (cut, &mut self.cuts) {
            (Some(cut), Some(random)) => (cut, random),
            _ => return Ok(()),
        };
        for left in cut.tried(random) {
            if let Some(fault) = cut.fault(&left) {
                return Err(self.misdeed(made, &fault));
            }
            self.tally.note_cut(&cut, &left);
            if let Some(morning) = left.morning {
                self.remember(Made::PowerCut);
                self.poke_image(0, &morning);
                self.poke_table(0, &[0; TABLE]);
                break;
            }
        }
        Ok(())
    }

    /// The census with outputs of these lengths, filled with `filler` before.
    pub fn census_lent(&mut self, image: usize, sectors: usize, owners: usize, filler: u8) -> Checked<u32> {
        let mut plain = [Lent::new(&vec![filler; sectors]), Lent::new(&vec![filler; owners])];
        let mut proved = plain.clone();
        let surveyed = Surveyed::of(self.plain.image.lend(image));
        let expected = {
            let [list, owner] = &mut plain;
            reference::census(self.plain.image.lend(image), list.lend(sectors), owner.lend(owners))
        };
        let answer = {
            let [list, owner] = &mut proved;
            flex::entry::census(self.proved.image.lend(image), list.lend(sectors), owner.lend(owners))
        };
        let made = Made::Census { image, sectors, owners };
        self.compare(made, expected, answer)?;
        self.compare_outputs(made, &plain, &proved)?;
        self.tally.count(CENSUS, expected);
        if let Some(surveyed) = surveyed {
            self.tally.note_census(&surveyed, expected);
        }
        Ok(expected)
    }

    fn compare_outputs(&mut self, made: Made, plain: &[Lent; 2], proved: &[Lent; 2]) -> Checked<()> {
        for (i, name) in ["sectors", "owners"].iter().enumerate() {
            if let Some(difference) = plain[i].difference(&proved[i]) {
                return Err(self.mismatch(made, describe(name, difference)));
            }
        }
        Ok(())
    }

    pub fn error_text(&mut self, len: usize, number: u8, filler: u8) -> Checked<u32> {
        let mut plain = Lent::new(&vec![filler; len]);
        let mut proved = plain.clone();
        let expected = reference::error_text(plain.lend(len), number);
        let answer = flex::entry::error_text(proved.lend(len), number);
        let made = Made::ErrorText { text: len, number };
        self.compare(made, expected, answer)?;
        if let Some(difference) = plain.difference(&proved) {
            return Err(self.mismatch(made, describe("text", difference)));
        }
        self.tally.count(ERROR_TEXT, expected);
        Ok(expected)
    }

    /// Format of an image of this length. A refusal must change nothing; what is made must be blank to the census.
    pub fn format_lent(&mut self, image: usize, wanted: &Wanted) -> Checked<u32> {
        let Wanted { last, per, volume, date, .. } = *wanted;
        let formatted = Formatted::before(self.plain.image.lend(image), self.plain.table.bytes(), wanted);
        let before = self.proved.image.clone();
        let label = Lent::new(&wanted.label);
        let lent = label.clone();
        let plain = wanted.made(reference::format, self.plain.image.lend(image), label.bytes());
        let proved = wanted.made(flex::entry::format, self.proved.image.lend(image), lent.bytes());
        let made = Made::Format { image, last, per, label: label.len(), volume, date };
        self.compare(made, plain, proved)?;
        if let Some(difference) = label.difference(&lent) {
            return Err(self.mismatch(made, describe("label", difference)));
        }
        if plain == 0 {
            self.must_be_blank(made, image, last * per)?;
        } else if before != self.proved.image {
            return Err(self.misdeed(made, "a format was refused and changed the image"));
        }
        self.tally.count(FORMAT, plain);
        self.tally.note_format(&formatted, plain);
        Ok(plain)
    }

    /// 02, ticket 2: "The census must accept every blank diskette, with the numbers in rising order." All sectors are free.
    fn must_be_blank(&mut self, made: Made, image: usize, data_sectors: usize) -> Checked<()> {
        let rising = (0..data_sectors as u16).map(|sector| Held { sector, owner: 0 });
        match flex::survey(self.proved.image.lend(image)) {
            Ok(listed) if listed.iter().copied().eq(rising) => Ok(()),
            Ok(_) => {
                Err(self.misdeed(made, "the census of a blank diskette does not list free sectors in rising order"))
            }
            Err(refusal) => Err(self.misdeed(made, &format!("the census refuses a blank diskette: {}", refusal))),
        }
    }

    /// Repair with an image and a table of these lengths lent. A refusal must change nothing; what an accepted repair leaves must
    /// be as 02 promises, by the test's own eyes.
    pub fn repair_lent(&mut self, image: usize, table: usize, random: &mut Random) -> Checked<u32> {
        let repaired = Repaired::before(self.plain.image.lend(image), self.plain.table.lend(table));
        let before = self.proved.image.clone();
        let plain = reference::repair(self.plain.image.lend(image), self.plain.table.lend(table));
        let proved = flex::entry::repair(self.proved.image.lend(image), self.proved.table.lend(table));
        let made = Made::Repair { image, table };
        self.compare(made, plain, proved)?;
        if plain != 0 && before != self.proved.image {
            return Err(self.misdeed(made, "a repair was refused and changed the image"));
        }
        if plain == 0 {
            if let Some(fault) = repaired.fault(self.proved.image.lend(image), random) {
                return Err(self.misdeed(made, &fault));
            }
        }
        self.tally.count(REPAIR, plain);
        self.tally.note_repair(&repaired, plain);
        Ok(plain)
    }

    /// The answers, then both buffers whole.
    fn compare(&mut self, made: Made, plain: u32, proved: u32) -> Checked<()> {
        self.remember(made);
        if plain != proved {
            let text = format!(
                "answers: reference {} + {}, archive {} + {}",
                plain / 256,
                plain % 256,
                proved / 256,
                proved % 256
            );
            let small = format!("answers: reference {}, archive {}", plain, proved);
            return Err(self.mismatch(made, if matches!(made, Made::Call { .. }) { text } else { small }));
        }
        if let Some(difference) = self.plain.image.difference(&self.proved.image) {
            return Err(self.mismatch(made, describe("image", difference)));
        }
        if let Some(difference) = self.plain.table.difference(&self.proved.table) {
            return Err(self.mismatch(made, describe("table", difference)));
        }
        Ok(())
    }

    fn remember(&mut self, made: Made) {
        if self.recent.len() == SHOWN {
            self.recent.pop_front();
        }
        self.recent.push_back(made);
    }

    fn mismatch(&self, made: Made, what: String) -> Mismatch {
        self.told(format!("the reference and the archive differ\n  in {:?}\n  {}", made, what))
    }

    fn misdeed(&self, made: Made, what: &str) -> Mismatch {
        self.told(format!("{}\n  in {:?}", what, made))
    }

    /// With the calls that led to it.
    fn told(&self, mut text: String) -> Mismatch {
        text.push_str("\n  after the calls");
        for earlier in &self.recent {
            let _ = write!(text, "\n    {:?}", earlier);
        }
        Mismatch(text)
    }
}

fn describe(buffer: &str, (at, plain, proved): (isize, u8, u8)) -> String {
    format!("{} byte {}: reference {}, archive {}", buffer, at, plain, proved)
}
