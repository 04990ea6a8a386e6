//! `report`: the diskette as a page to look at.

use super::{date, look, print, refused_of};
use crate::check::check;
use crate::failure::Failure;
use crate::page::{page, Subject};
use crate::plan::Repaired;
use crate::words::Words;

/// The page is made of a damaged diskette, too; only what is no image of a diskette is refused.
pub fn run(words: &Words) -> Result<(), Failure> {
    let mut diskette = look(words)?;
    let refused = refused_of(words, &diskette);
    let record = super::info::Record::read(&mut diskette).map_err(&refused)?;
    let check = check(&mut diskette).map_err(&refused)?;
    let (name, time) = (words.image().to_string_lossy(), date::now()?);
    let subject =
        Subject { name: &name, record: &record, check: &check, repaired: None, image: diskette.image(), time: &time };
    if check.verdict.is_ok() {
        return print(page(&subject).as_bytes());
    }
    let repaired = Repaired::of(&check, &diskette, &[]);
    print(page(&Subject { repaired: Some(&repaired), ..subject }).as_bytes())
}
