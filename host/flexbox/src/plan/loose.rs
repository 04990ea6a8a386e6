//! The data sectors that no chain has, and whose they may be: a repair makes them free, and what was written in them can be a file's bytes.
//! So can what the free chain alone has, where a damaged file's stated end lies: then the free chain may be what is wrong.

use super::lost;
use crate::check::{Chain, Check, Owner};
use crate::raw;
use flex::{Address, Entry, Shape};

/// Each is taken once: for the first whose it may be.
pub struct Loose<'a> {
    image: &'a [u8],
    shape: Shape,
    /// By the sector's number: in no chain, and not taken yet.
    is_loose: Vec<bool>,
    /// By the sector's number: in the free chain alone, and not taken yet.
    is_free: Vec<bool>,
    /// The sectors of either kind whose links lead to this one.
    led_from: Vec<Vec<usize>>,
    /// How many written ones were taken from the free chain.
    pub from_free: usize,
}

impl<'a> Loose<'a> {
    pub fn of(check: &Check, image: &'a [u8]) -> Loose<'a> {
        let shape = check.shape;
        let mut loose = Loose {
            image,
            shape,
            is_loose: vec![false; shape.data_sectors()],
            is_free: free_alone(check),
            led_from: vec![Vec::new(); shape.data_sectors()],
            from_free: 0,
        };
        lost(check).for_each(|number| loose.is_loose[number] = true);
        for number in (0..shape.data_sectors()).filter(|&number| loose.is_loose[number] || loose.is_free[number]) {
            let next = loose.link(number);
            if shape.is_data(next) {
                loose.led_from[shape.number(next)].push(number);
            }
        }
        loose
    }

    /// How many are left that were written.
    pub fn written(&self) -> usize {
        (0..self.is_loose.len()).filter(|&number| self.is_loose[number] && self.is_written(number)).count()
    }

    /// Takes those that a chain leads over from here on, and counts the written ones.
    pub fn take_from(&mut self, from: Address) -> usize {
        let (mut at, mut count) = (from, 0);
        while let Some(number) = self.loose(at) {
            count += self.take(number);
            at = self.link(number);
        }
        count
    }

    /// Takes this one and those that lead to it.
    pub fn take_to(&mut self, end: Address) -> usize {
        let mut waiting: Vec<usize> = self.number(end).into_iter().collect();
        let mut count = 0;
        while let Some(number) = waiting.pop() {
            if self.is_loose[number] || self.is_free[number] {
                count += self.take(number);
                waiting.extend(&self.led_from[number]);
            }
        }
        count
    }

    /// Takes those that are in the chain that a slot states.
    pub fn take_chain(&mut self, entry: &Entry) -> usize {
        let walked = Chain::of_file(0, entry).walk(self.image, self.shape).sectors;
        walked.into_iter().filter_map(|at| Some(self.take(self.loose(at)?))).sum()
    }

    /// Nothing is asked about all that leads to this file.
    pub fn give_up(&mut self, entry: &Entry) {
        let last = Chain::of_file(0, entry).walk(self.image, self.shape).sectors.last().copied();
        self.take_chain(entry);
        self.take_from(last.map_or(entry.start, |last| self.link(self.shape.number(last))));
        self.take_to(entry.end);
    }

    fn number(&self, at: Address) -> Option<usize> {
        self.shape.is_data(at).then(|| self.shape.number(at))
    }

    fn loose(&self, at: Address) -> Option<usize> {
        self.number(at).filter(|&number| self.is_loose[number])
    }

    /// 1 if it was written.
    fn take(&mut self, number: usize) -> usize {
        let written = self.is_written(number).into();
        if self.is_free[number] {
            self.from_free += written;
        }
        self.is_loose[number] = false;
        self.is_free[number] = false;
        written
    }

    fn is_written(&self, number: usize) -> bool {
        raw::is_written(self.image, self.shape, self.shape.address(number))
    }

    fn link(&self, number: usize) -> Address {
        Address::at(self.image, self.shape.offset(self.shape.address(number)))
    }
}

/// The sectors that the free chain has, and neither a file nor the directory.
fn free_alone(check: &Check) -> Vec<bool> {
    let mut alone = vec![false; check.shape.data_sectors()];
    let (free, held): (Vec<_>, Vec<_>) = check.chains.iter().partition(|(owner, _)| *owner == Owner::Free);
    free.iter().flat_map(|(_, sectors)| sectors).for_each(|&at| alone[check.shape.number(at)] = true);
    held.iter().flat_map(|(_, sectors)| sectors).for_each(|&at| alone[check.shape.number(at)] = false);
    alone
}
