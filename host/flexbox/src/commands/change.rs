//! What put, delete and rename have in common: lock, census, work, census, save.
//!
//! A diskette that the census refuses is not changed: sound files could be lost. `--force` is for those who know.

use super::{by_slot, hint, refused, refused_of, refused_with, told_name, with_extension};
use crate::check;
use crate::failure::{note, tell, Failure};
use crate::image::Image;
use crate::words::{quoted, Words};
use flex::{Diskette, Name, Refusal};
use std::path::Path;

/// How many findings are told before the rest is only counted.
const TOLD: usize = 8;

/// A change of the image that is saved only if no part of it was refused and the census accepts what comes out.
pub fn change(words: &Words, work: impl FnOnce(&mut Diskette) -> Result<(), Failure>) -> Result<(), Failure> {
    let mut image = Image::take(words.image(), words.wait())?;
    let old = image.read()?;
    let mut diskette = Diskette::new(old.clone());
    let was_sound = accept(words, &mut diskette)?;
    work(&mut diskette)?;
    match diskette.survey() {
        Err(refusal) if was_sound => {
            Err(refused(words.image(), "after the change, which is therefore not saved")(refusal))
        }
        _ if was_sound => image.save(diskette.image()),
        survey => save_forced(words, image, &old, &diskette, survey.err()),
    }
}

/// What was changed though it was damaged may have lost sound files: the old image is kept.
fn save_forced(
    words: &Words,
    image: Image,
    old: &[u8],
    diskette: &Diskette,
    refusal: Option<Refusal>,
) -> Result<(), Failure> {
    let kept = image.save_keeping(old, diskette.image())?;
    let census = refusal.map_or("accepted".to_string(), |refusal| refusal.to_string());
    let disk = words.image().display();
    let how = if words.has("--force") { "saved by --force" } else { "saved" };
    note(&format!("{}: {}; its census: {}; the old image is {}", disk, how, census, kept.display()));
    Ok(())
}

/// Whether the census accepts the diskette as it is. Where it does not, only `--force` goes on, and says so.
fn accept(words: &Words, diskette: &mut Diskette) -> Result<bool, Failure> {
    let refusal = match diskette.survey() {
        Ok(_) => return Ok(true),
        Err(refusal) => refusal,
    };
    let failure = refused_of(words, diskette)(refusal);
    if refusal == Refusal::CensusShape {
        return Err(failure);
    }
    failure.say();
    say_where(words.image(), diskette);
    let name = words.image().display();
    if words.has("--slot") && words.takes("--force") && has_twins_alone(diskette) {
        note(&format!("{}: changed all the same: but for the names nothing is wrong", name));
        return Ok(false);
    }
    if words.has("--force") {
        note(&format!("{}: damaged, and changed all the same by --force: sound files may be lost", name));
        return Ok(false);
    }
    let can_force = words.takes("--force") && !words.has("--slot");
    let way_out = if can_force { "; --force would change it" } else { "" };
    note(&format!("{}: not changed, since that could destroy sound files{}", name, way_out));
    let word = quoted(&words.image().to_string_lossy());
    note(&format!("flexbox repair --dry-run {} says what a repair would do", word));
    Err(Failure::Shown)
}

/// Whether files of one name are all that is wrong: then a slot can be renamed or deleted as on a sound diskette.
fn has_twins_alone(diskette: &mut Diskette) -> bool {
    check::check(diskette).map_or(false, |check| check.findings.iter().all(|finding| finding.number == 43))
}

/// Tells the places of the damage on standard error.
pub fn say_where(image: &Path, diskette: &mut Diskette) {
    if let Ok(check) = check::check(diskette) {
        for finding in check.findings.iter().take(TOLD) {
            tell(&format!("  {} {}", finding.number, finding));
        }
        if check.findings.len() > TOLD {
            let word = quoted(&image.to_string_lossy());
            tell(&format!("  and {} more: flexbox check {}", check.findings.len() - TOLD, word));
        }
    }
}

/// `delete`
pub fn delete(words: &Words) -> Result<(), Failure> {
    if let Some(number) = by_slot::number_to_change(words)? {
        words.expect_others(0..=0)?;
        return change(words, |diskette| {
            let deleted = by_slot::delete(diskette, number);
            deleted.map_err(|refusal| refused_with(words.image(), &by_slot::refused_slot(number, refusal), refusal))
        });
    }
    words.expect_others(1..=1)?;
    let text = words.text(0)?;
    let name = super::typed(text)?;
    change(words, |diskette| {
        let deleted = diskette.delete(&name);
        deleted.map_err(|refusal| refused_with(words.image(), &told_name(text, &name, refusal, diskette), refusal))
    })
}

/// `rename`
pub fn rename(words: &Words) -> Result<(), Failure> {
    let number = by_slot::number_to_change(words)?;
    let others = if number.is_some() { 1 } else { 2 };
    words.expect_others(others..=others)?;
    let new = words.text(others - 1)?;
    let to = super::typed(new)?;
    if let Some(number) = number {
        return change(words, |diskette| {
            by_slot::rename(diskette, number, &to).map_err(|refusal| {
                let what = format!("{} to {}", by_slot::refused_slot(number, refusal), told_new(new, &to));
                refused_with(words.image(), &what, refusal)
            })
        });
    }
    let old = words.text(0)?;
    let from = super::typed(old)?;
    change(words, |diskette| {
        let renamed = diskette.rename(&from, &to);
        renamed.map_err(|refusal| {
            let names = format!("{} to {}", with_extension(old, &from), told_new(new, &to));
            let what = names + &hint(&from, refusal, diskette);
            refused_with(words.image(), &what, refusal)
        })
    })
}

/// Of a new name TXT is not taken for the extension.
fn told_new(shown: &str, name: &Name) -> String {
    match name.has_extension() {
        true => shown.to_string(),
        false => format!("{}, which has no extension, and a new name must have one", shown),
    }
}

#[cfg(test)]
mod tests {
    use super::*;
    use crate::commands::find;
    use std::{env, fs, process};

    /// Changes a sound diskette to this one; what is in the file then, and whether it was refused.
    fn changed_to(test: &str, image: Vec<u8>) -> (Vec<u8>, bool) {
        let path = env::temp_dir().join(format!("flexbox-change-{}-{}", test, process::id()));
        fs::write(&path, diskettes::blank(1, 5)).unwrap();
        let words = Words::parse(find("delete").unwrap(), &[path.clone().into(), "A".into(), "--force".into()]);
        let words = words.ok().flatten().unwrap();
        let result = change(&words, |diskette| {
            *diskette = Diskette::new(image);
            Ok(())
        });
        let bytes = fs::read(&path).unwrap();
        fs::remove_file(&path).unwrap();
        (bytes, matches!(result, Err(Failure::Refused(..))))
    }

    #[test]
    fn a_change_that_damages_a_sound_diskette_is_not_saved() {
        let mut damaged = diskettes::blank(1, 5);
        damaged[546] = 4;
        assert_eq!(changed_to("damaged", damaged), (diskettes::blank(1, 5), true));
        let mut sound = diskettes::blank(1, 5);
        sound[530] = 7;
        assert_eq!(changed_to("sound", sound.clone()), (sound, false));
    }
}
