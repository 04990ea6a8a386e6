//! The chains that neither a file nor the directory nor the free chain holds: what a cut file has lost, or one whose slot is gone.

use super::{follow, Fault, Found, Origin};
use crate::check::Chain;
use crate::raw;
use flex::{Address, Shape};

/// Each from a sector that none of the others leads to; what goes round in a circle from its lowest sector. Chains without a byte that is
/// not 0 behind their links were never written, and are passed over.
pub fn chains(image: &[u8], shape: Shape, held: &[usize], is_there: &impl Fn(Address) -> bool) -> Vec<Found> {
    let mut is_loose: Vec<bool> = held.iter().map(|&count| count == 0).collect();
    for at in Chain::free(image).walk(image, shape).sectors {
        is_loose[shape.number(at)] = false;
    }
    let mut found = Vec::new();
    for start in starts(image, shape, &is_loose) {
        let sectors = take(image, shape, start, &mut is_loose);
        if sectors.iter().any(|&at| raw::is_written(image, shape, at)) {
            let next = sectors.last().map_or(Address::NONE, |&last| link(image, shape, last));
            let is_missing = sectors.iter().any(|&at| !is_there(at));
            let faults = if is_missing { vec![Fault::Missing] } else { Vec::new() };
            found.push(Found { origin: Origin::Lost, slot: None, sectors, next, faults });
        }
    }
    found
}

fn link(image: &[u8], shape: Shape, at: Address) -> Address {
    Address::at(image, shape.offset(at))
}

/// First the sectors that no loose one leads to, then all of them: what is taken by then is passed over.
fn starts(image: &[u8], shape: Shape, is_loose: &[bool]) -> Vec<Address> {
    let loose: Vec<Address> = (0..is_loose.len()).filter(|&i| is_loose[i]).map(|i| shape.address(i)).collect();
    let mut is_led_to = vec![false; is_loose.len()];
    for to in loose.iter().map(|&at| link(image, shape, at)).filter(|&to| shape.is_data(to)) {
        is_led_to[shape.number(to)] = true;
    }
    let heads = loose.iter().copied().filter(|&at| !is_led_to[shape.number(at)]);
    heads.chain(loose.iter().copied()).collect()
}

/// The loose sectors from here on. They are no longer loose then.
fn take(image: &[u8], shape: Shape, start: Address, is_loose: &mut [bool]) -> Vec<Address> {
    let (mut sectors, _) = follow(image, shape, start, shape.data_sectors());
    let loose = sectors.iter().take_while(|&&at| is_loose[shape.number(at)]).count();
    sectors.truncate(loose);
    sectors.iter().for_each(|&at| is_loose[shape.number(at)] = false);
    sectors
}
