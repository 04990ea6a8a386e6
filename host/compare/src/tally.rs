//! What the run has reached: each answer of each function, and the situations that are easy to get wrong.

use crate::cut::{Cut, Left, CUT_SITUATIONS};
use crate::formatted::{Formatted, FORMAT_SITUATIONS};
use crate::repaired::{Repaired, REPAIR_SITUATIONS};
use crate::seen::{After, CALL_SITUATIONS};
use crate::surveyed::{Surveyed, CENSUS_SITUATIONS};
use flex::{ACTIVITY, FUNCTION};
use std::fmt::Write;

/// Each function with every answer that documents 01 and 02 let it give, in their order: each must occur, and no other may.
const EXPECTED: [(&str, &[u32]); 22] = [
    ("preset", &[13, 18, 0]),
    ("default extension", &[13, 0]),
    ("error text", &[40, 0]),
    ("census", &[41, 40, 42, 43, 44, 45, 46, 0]),
    ("format", &[41, 40, 0]),
    ("repair", &[13, 2, 41, 42, 43, 0]),
    ("call, no such table or block", &[13]),
    ("call, code not served", &[16, 1]),
    ("0 reading", &[16, 8, 9, 0]),
    ("0 writing", &[16, 5, 10, 7, 0]),
    ("0 neither", &[16, 18]),
    ("1 open read", &[16, 18, 21, 5, 4, 17, 2, 0]),
    ("2 open write", &[16, 18, 21, 5, 3, 7, 10, 0]),
    ("4 close", &[16, 18, 13, 5, 10, 0]),
    ("5 rewind", &[16, 18, 0]),
    ("6 open directory", &[16, 18, 0]),
    ("7 next slot", &[16, 18, 5, 8, 0]),
    ("8 put slot", &[16, 18, 5, 0]),
    ("9 read sector", &[16, 18, 9, 0]),
    ("10 write sector", &[16, 18, 10, 0]),
    ("12 delete", &[16, 18, 21, 5, 4, 2, 12, 11, 9, 0]),
    ("13 rename", &[16, 18, 21, 5, 4, 2, 11, 3, 0]),
];

pub const PRESET: usize = 0;
pub const EXTENSION: usize = 1;
pub const ERROR_TEXT: usize = 2;
pub const CENSUS: usize = 3;
pub const FORMAT: usize = 4;
pub const REPAIR: usize = 5;

/// The row of an FMS call, by the block as the call finds it.
pub fn row_of_call(table: &[u8], fcb: usize) -> usize {
    if table.len() != flex::TABLE || fcb >= flex::BLOCKS {
        return 6;
    }
    let block = &table[fcb * flex::BLOCK..];
    match (block[FUNCTION], block[ACTIVITY]) {
        (0, 1) => 8,
        (0, 2) => 9,
        (0, _) => 10,
        (1, _) => 11,
        (2, _) => 12,
        (4, _) => 13,
        (5, _) => 14,
        (6, _) => 15,
        (7, _) => 16,
        (8, _) => 17,
        (9, _) => 18,
        (10, _) => 19,
        (12, _) => 20,
        (13, _) => 21,
        _ => 7,
    }
}

pub struct Tally {
    pub calls: u64,
    /// By row and answer; no answer is over 46, and a larger one counts as 63.
    answers: [[u64; 64]; EXPECTED.len()],
    call_situations: Vec<u64>,
    census_situations: Vec<u64>,
    format_situations: Vec<u64>,
    repair_situations: Vec<u64>,
    cut_situations: Vec<u64>,
}

impl Tally {
    pub fn new() -> Tally {
        Tally {
            calls: 0,
            answers: [[0; 64]; EXPECTED.len()],
            call_situations: vec![0; CALL_SITUATIONS.len()],
            census_situations: vec![0; CENSUS_SITUATIONS.len()],
            format_situations: vec![0; FORMAT_SITUATIONS.len()],
            repair_situations: vec![0; REPAIR_SITUATIONS.len()],
            cut_situations: vec![0; CUT_SITUATIONS.len()],
        }
    }

    pub fn count(&mut self, row: usize, answer: u32) {
        self.calls += 1;
        self.answers[row][answer.min(63) as usize] += 1;
    }

    pub fn note_call(&mut self, after: &After) {
        count_met(&mut self.call_situations, CALL_SITUATIONS, |met| met(after));
    }

    pub fn note_census(&mut self, surveyed: &Surveyed, answer: u32) {
        count_met(&mut self.census_situations, CENSUS_SITUATIONS, |met| met(surveyed, answer));
    }

    pub fn note_format(&mut self, formatted: &Formatted, answer: u32) {
        count_met(&mut self.format_situations, FORMAT_SITUATIONS, |met| met(formatted, answer));
    }

    pub fn note_repair(&mut self, repaired: &Repaired, answer: u32) {
        count_met(&mut self.repair_situations, REPAIR_SITUATIONS, |met| met(repaired, answer));
    }

    pub fn note_cut(&mut self, cut: &Cut, left: &Left) {
        count_met(&mut self.cut_situations, CUT_SITUATIONS, |met| met(cut, left));
    }

    /// Answers by function, as "answer ×count".
    pub fn answers(&self) -> String {
        let mut text = String::new();
        for (row, (name, expected)) in EXPECTED.iter().enumerate() {
            let _ = write!(text, "  {:29}", name);
            for &answer in *expected {
                let _ = write!(text, " {}×{}", answer, self.answers[row][answer as usize]);
            }
            text.push('\n');
        }
        text
    }

    fn situations(&self) -> impl Iterator<Item = (&'static str, u64)> + '_ {
        let of_calls = counted(&self.call_situations, CALL_SITUATIONS);
        let of_census = counted(&self.census_situations, CENSUS_SITUATIONS);
        let of_format = counted(&self.format_situations, FORMAT_SITUATIONS);
        let of_repair = counted(&self.repair_situations, REPAIR_SITUATIONS);
        let of_cuts = counted(&self.cut_situations, CUT_SITUATIONS);
        of_calls.chain(of_census).chain(of_format).chain(of_repair).chain(of_cuts)
    }

    /// Each situation with its count.
    pub fn situations_text(&self) -> String {
        self.situations().map(|(name, count)| format!("  {:9}  {}\n", count, name)).collect()
    }

    pub fn situations_count(&self) -> usize {
        self.situations().count()
    }

    /// What should have occurred and did not, or the reverse.
    pub fn faults(&self) -> Vec<String> {
        let mut faults = Vec::new();
        for (row, (name, expected)) in EXPECTED.iter().enumerate() {
            for answer in 0..64 {
                let wanted = expected.contains(&answer);
                let met = self.answers[row][answer as usize] > 0;
                match (wanted, met) {
                    (true, false) => faults.push(format!("{}: the answer {} did not occur", name, answer)),
                    (false, true) => faults.push(format!("{}: the answer {} is not one of the papers'", name, answer)),
                    _ => (),
                }
            }
        }
        let missed = self.situations().filter(|row| row.1 == 0);
        faults.extend(missed.map(|(name, _)| format!("did not occur: {}", name)));
        faults
    }
}

/// One more for each situation whose test is met.
fn count_met<T>(counts: &mut [u64], situations: &[(&str, T)], is_met: impl Fn(&T) -> bool) {
    for (count, (_, test)) in counts.iter_mut().zip(situations) {
        *count += is_met(test) as u64;
    }
}

/// Each situation's name with its count.
fn counted<'a, T: 'static>(
    counts: &'a [u64],
    situations: &'static [(&'static str, T)],
) -> impl Iterator<Item = (&'static str, u64)> + 'a {
    situations.iter().map(|row| row.0).zip(counts.iter().copied())
}
