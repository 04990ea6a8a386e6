//! Makes the demo diskette, host/demo.dsk, and writes it to standard output: `make_demo > host/demo.dsk`.
//!
//! Four tracks of eight data sectors and three alarm logs of a site, on a diskette that has been in use. NORTH.TXT and SOUTH.TXT
//! were written at the same time by two control blocks, so their sectors alternate. An older log before them was deleted,
//! so its slot can be used again and its sectors are at the end of the free chain. The same bytes come out every time;
//! host/test compares them with the file.

#![forbid(unsafe_code)]

use flex::{Diskette, Name, Steps};
use std::error::Error;
use std::io::{self, Write};

const DATE: [u8; 3] = [12, 3, 81];

fn line(minute: usize, text: &str) -> String {
    format!("{:02}:{:02} {}\n", minute / 60, minute % 60, text)
}

/// Two logs written at the same time, a line of one and a line of the other.
fn side_by_side(diskette: &mut Diskette, north: &Name, south: &Name) -> Result<(), Box<dyn Error>> {
    diskette.create(0, north, DATE)?;
    diskette.create(1, south, DATE)?;
    for i in 0..40 {
        let level = format!("AMPLIFIER {} LEVEL {}", i / 2 % 9 + 1, ["LOW", "NORMAL"][i % 2]);
        diskette.send(0, line(360 + 11 * i, &level).as_bytes())?;
        let supply = format!("AMPLIFIER {} SUPPLY {} VOLTS", i % 24 + 1, 51 + 7 * i % 11);
        diskette.send(1, line(363 + 11 * i, &supply).as_bytes())?;
    }
    diskette.ask(0, flex::CLOSE)?;
    diskette.ask(1, flex::CLOSE)?;
    Ok(())
}

fn make() -> Result<Diskette, Box<dyn Error>> {
    let mut diskette = Diskette::new(diskettes::blank(4, 8));
    let old: String = (0..12).map(|i| line(7 * i, "TEST OF ALL BELLS AND LAMPS")).collect();
    diskette.put(&"OLD".parse()?, old.as_bytes(), DATE)?;
    side_by_side(&mut diskette, &"NORTH".parse()?, &"SOUTH".parse()?)?;
    let feeder = |i: usize| format!("FEEDER {} {}", i % 4 + 1, ["OFF", "ON"][i / 4 % 2]);
    let power: String = (0..24).map(|i| line(420 + 13 * i, &feeder(i))).collect();
    diskette.put(&"POWER".parse()?, power.as_bytes(), DATE)?;
    diskette.delete(&"OLD".parse()?)?;
    diskette.survey()?;
    Ok(diskette)
}

fn main() -> Result<(), Box<dyn Error>> {
    io::stdout().write_all(make()?.image())?;
    Ok(())
}
