//! What a repair does to a file, in words.

use super::{Fate, Loss};
use crate::check::{holder, Check, Owner};
use crate::commands::plural;
use flex::Address;

/// "cut from 5 to 2 sectors: it ends there"
pub fn outcome(check: &Check, fate: &Fate) -> String {
    let size = plural(fate.kept, "sector");
    match fate.is_cut() {
        true => format!("cut from {} to {}: {}", fate.stated(), size, why_cut(check, fate)),
        false if fate.is_right => format!("kept whole, {}{}", size, doubt(fate)),
        false if fate.before_end > 0 => {
            let (lead, end) = (plural(fate.before_end, "sector"), fate.entry.end);
            format!("kept as it is stated, {}, but to its stated end, {}, lead {} that no file has", size, end, lead)
        }
        false if fate.kept == 0 => "kept as it is stated, no sector".to_string(),
        false if fate.next != Address::NONE => {
            format!("kept as it is stated, {}; behind them its chain led on to {}", size, fate.next)
        }
        false => format!("kept as it is stated, {}; another end was stated, {}", size, fate.entry.end),
    }
}

/// "up to 3 sectors of 1 file, and 1 written sector in no chain". None: nothing is lost.
pub fn lost(loss: &Loss) -> Option<String> {
    let of_files = format!("up to {} of {}", plural(loss.sectors, "sector"), plural(loss.files, "file"));
    match (loss.files, loss.nobodys) {
        (0, 0) => None,
        (_, 0) => Some(of_files),
        (0, nobodys) => Some(of_nobody(nobodys)),
        (_, nobodys) => Some(format!("{}, and {}", of_files, of_nobody(nobodys))),
    }
}

/// "1 written sector in no chain"
pub fn of_nobody(sectors: usize) -> String {
    format!("{} in no chain", plural(sectors, "written sector"))
}

/// The repair gives a shared sector to one of its files, and does not know whose bytes stand in it.
fn doubt(fate: &Fate) -> &'static str {
    match fate.is_shared {
        true => "; what stands where it shared a sector may be another's",
        false => "",
    }
}

fn why_cut(check: &Check, fate: &Fate) -> String {
    let leads = match fate.kept {
        0 => format!("its start is {}", fate.next),
        _ => format!("it leads on to {}", fate.next),
    };
    match fate.holder {
        None if fate.next == Address::NONE && fate.kept > 0 => "it ends there".to_string(),
        None => format!("{}, which is no data sector", leads),
        Some(Owner::File(slot)) if slot == fate.slot => format!("it leads back to {}", fate.next),
        Some(owner) => format!("{}, which {} has", leads, holder(owner, &check.slots)),
    }
}

/// Who has what the file would lose.
pub fn taker(check: &Check, fate: &Fate) -> String {
    fate.holder.map_or(String::new(), |owner| holder(owner, &check.slots))
}
