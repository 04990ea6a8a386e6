//! The small steps that file work is made of, written once: over the three entries that work on control blocks.

#![forbid(unsafe_code)]

use crate::layout::{DATE, FUNCTION, NAME, OPEN_READ, OPEN_WRITE};
use crate::name::Name;

/// The code of the extension TXT, for a name that is given without one.
const TXT: usize = 1;

/// The steps of a host on control blocks. `fcb` is the number of a block.
///
/// [`crate::Diskette`] takes them on its own two buffers:
///
/// ```no_run
/// use flex::{Diskette, Steps, CLOSE};
/// # fn main() -> Result<(), Box<dyn std::error::Error>> {
/// let mut diskette = Diskette::new(std::fs::read("alarms.dsk")?);
/// diskette.create(3, &"NIGHT.TXT".parse()?, [11, 15, 26])?;
/// diskette.send(3, b"22:41 AMPLIFIER 14 LEVEL LOW\n")?; // as often as there is something to send
/// diskette.ask(3, CLOSE)?;
/// # Ok(())
/// # }
/// ```
///
/// Another service has them too when it says what the three entries do: the test that compares two services makes each of them
/// on both.
pub trait Steps {
    /// What a call gives: the byte read, or whatever else the service tells of a call.
    type Given;
    /// What ends a step before it is done, as a refusal does.
    type Failure;

    /// Writes one byte of a block, where that is allowed.
    fn preset(&mut self, fcb: usize, offset: usize, value: u8) -> Result<(), Self::Failure>;

    /// Gives a block the extension of this code, if it has none.
    fn extension(&mut self, fcb: usize, code: usize) -> Result<(), Self::Failure>;

    /// Calls with the function that stands in byte 0 of the block; `byte` is what function 0 writes.
    fn call(&mut self, fcb: usize, byte: u8) -> Result<Self::Given, Self::Failure>;

    /// Writes some bytes of a block, one after the other.
    fn preset_all(&mut self, fcb: usize, offset: usize, values: &[u8]) -> Result<(), Self::Failure> {
        values.iter().enumerate().try_for_each(|(i, &value)| self.preset(fcb, offset + i, value))
    }

    /// Presets the name of a file, with TXT for an extension where it has none.
    fn name(&mut self, fcb: usize, name: &Name) -> Result<(), Self::Failure> {
        self.preset_all(fcb, NAME, name.bytes())?;
        if name.has_extension() {
            Ok(())
        } else {
            self.extension(fcb, TXT)
        }
    }

    /// Presets the function that calls do from now on.
    fn choose(&mut self, fcb: usize, function: u8) -> Result<(), Self::Failure> {
        self.preset(fcb, FUNCTION, function)
    }

    /// Calls with this function.
    fn ask(&mut self, fcb: usize, function: u8) -> Result<Self::Given, Self::Failure> {
        self.choose(fcb, function)?;
        self.call(fcb, 0)
    }

    /// Calls with this function on the file of this name.
    fn ask_of(&mut self, fcb: usize, function: u8, name: &Name) -> Result<Self::Given, Self::Failure> {
        self.name(fcb, name)?;
        self.ask(fcb, function)
    }

    /// Opens a file for read.
    fn open(&mut self, fcb: usize, name: &Name) -> Result<Self::Given, Self::Failure> {
        self.ask_of(fcb, OPEN_READ, name)
    }

    /// Opens a new file for write.
    fn create(&mut self, fcb: usize, name: &Name, date: [u8; 3]) -> Result<Self::Given, Self::Failure> {
        self.preset_all(fcb, DATE, &date)?;
        self.ask_of(fcb, OPEN_WRITE, name)
    }

    /// Sends bytes to a file that is open for write.
    fn send(&mut self, fcb: usize, bytes: &[u8]) -> Result<(), Self::Failure> {
        bytes.iter().try_for_each(|&byte| self.call(fcb, byte).map(|_| ()))
    }
}
