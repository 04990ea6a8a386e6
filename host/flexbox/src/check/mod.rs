//! Where a diskette is damaged. The verdict is the proved census's alone; this finds, from the directory that the service shows
//! and the links of the image, every place that such a verdict can come from: which slot, which file, which sector, and who
//! shares it.

mod chain;
mod directory;
mod sectors;
mod unreached;

pub use chain::{Chain, Fault};
pub use sectors::{file, holder, spans, Owner};
pub use unreached::Unreached;

use flex::{Address, Diskette, Refusal, Shape, Slot};
use std::fmt;

/// One thing that is not right.
#[derive(Clone, Debug, PartialEq, Eq)]
pub struct Finding {
    /// 42 to 46: which rule of the census it breaks.
    pub number: u8,
    /// The slots of the files that it concerns.
    pub slots: Vec<usize>,
    /// The sectors where it is; at least one.
    pub sectors: Vec<Address>,
    pub text: String,
}

impl fmt::Display for Finding {
    fn fmt(&self, f: &mut fmt::Formatter<'_>) -> fmt::Result {
        f.write_str(&self.text)
    }
}

/// All that is known of a diskette of the right shape.
pub struct Check {
    pub shape: Shape,
    /// What the proved census says.
    pub verdict: Result<(), Refusal>,
    /// In the order of the census's rules. Empty if the verdict is good.
    pub findings: Vec<Finding>,
    /// Empty if the directory is not right: then the service does not list them.
    pub slots: Vec<Slot>,
    /// The directory's sectors as far as its links are right.
    pub directory: Vec<Address>,
    /// The free chain, the data sectors of the directory, and the files' chains, each as far as its links are right.
    pub chains: Vec<(Owner, Vec<Address>)>,
    /// What looks like files in sectors of track 0 that the directory does not reach.
    pub unreached: Vec<Unreached>,
    /// Slots of the directory that hold no file, and lead to sectors in no chain all the same.
    pub gone: Vec<Unreached>,
}

/// Looks at the whole diskette. Refused is only what is no image of a diskette (41).
pub fn check(diskette: &mut Diskette) -> Result<Check, Refusal> {
    let verdict = match diskette.survey() {
        Err(Refusal::CensusShape) => return Err(Refusal::CensusShape),
        verdict => verdict.map(|_| ()),
    };
    let shape = Shape::stated(diskette.image()).ok_or(Refusal::CensusShape)?;
    let slots = diskette.slots().unwrap_or_default();
    let image = diskette.image();
    let (directory, mut findings) = directory::walk(image, shape);
    let directory_is_right = findings.is_empty();
    findings.extend(directory::names(&slots));
    let mut chains = Vec::new();
    for chain in stated(image, &slots) {
        let walked = chain.walk(image, shape);
        findings.extend(walked.fault.map(|fault| chain.finding(fault, &slots)));
        chains.push((chain.owner, walked.sectors));
    }
    // The census lists them behind the free chain, which is the first.
    chains.insert(1, (Owner::Directory, taken(&directory).collect()));
    let owners = sectors::owners(shape, &chains);
    findings.extend(sectors::shared(shape, &owners, &slots));
    if directory_is_right {
        findings.extend(sectors::lost(shape, &owners));
    }
    let unreached = unreached::files(image, shape, &directory, &owners);
    let gone = unreached::gone(image, shape, &slots, &owners);
    Ok(Check { shape, verdict, findings, slots, directory, chains, unreached, gone })
}

/// The directory's sectors as far as its links are right.
pub fn directory(image: &[u8], shape: Shape) -> Vec<Address> {
    directory::walk(image, shape).0
}

/// The data sectors among those of the directory: it has taken them when it had no slot left.
fn taken(directory: &[Address]) -> impl Iterator<Item = Address> + '_ {
    directory.iter().copied().filter(|address| address.track != 0)
}

/// The free chain, then the live files', as they are stated.
fn stated(image: &[u8], slots: &[Slot]) -> Vec<Chain> {
    let files = slots.iter().filter_map(|slot| slot.entry().map(|entry| Chain::of_file(slot.number, entry)));
    [Chain::free(image)].into_iter().chain(files).collect()
}

impl Check {
    /// What concerns the file of this slot.
    pub fn of_slot(&self, number: usize) -> impl Iterator<Item = &Finding> {
        self.findings.iter().filter(move |finding| finding.slots.contains(&number))
    }

    /// Whether a finding of this rule, or with 0 of any, concerns the file of each slot, by its number.
    pub fn concerned(&self, rule: u8) -> Vec<bool> {
        let mut concerned = vec![false; self.slots.len() + 1];
        let findings = self.findings.iter().filter(|finding| rule == 0 || finding.number == rule);
        findings.flat_map(|finding| &finding.slots).for_each(|&slot| concerned[slot] = true);
        concerned
    }

    pub fn free_sectors(&self) -> usize {
        self.sectors_of(Owner::Free)
    }

    /// How many data sectors the directory has.
    pub fn directory_sectors(&self) -> usize {
        self.sectors_of(Owner::Directory)
    }

    fn sectors_of(&self, wanted: Owner) -> usize {
        self.chains.iter().filter(|(owner, _)| *owner == wanted).map(|(_, sectors)| sectors.len()).sum()
    }

    /// Whether it is known which files there are: the service lists no slots of a directory that is not right.
    pub fn has_slots(&self) -> bool {
        !self.slots.is_empty()
    }

    /// The names of the files that the directory does not reach.
    pub fn unreached_names(&self) -> Vec<String> {
        self.unreached.iter().map(|file| file.entry.name.to_string()).collect()
    }

    /// How many files there are, if that is known.
    pub fn files(&self) -> Option<usize> {
        self.has_slots().then(|| self.slots.iter().filter(|slot| slot.entry().is_some()).count())
    }
}

#[cfg(test)]
mod tests;
