//! `dump`: one sector's bytes.

use super::{look, print, refused};
use crate::failure::Failure;
use crate::words::Words;
use flex::Address;
use std::fmt::Write;

pub fn run(words: &Words) -> Result<(), Failure> {
    let text = words.text(0)?;
    let address = address(text)
        .ok_or_else(|| Failure::Usage(format!("dump: '{}' is no sector; write track,sector as in 3,12", text)))?;
    let mut diskette = look(words)?;
    let bytes = diskette.sector(address).map_err(refused(words.image(), text))?;
    print(as_text(bytes).as_bytes())
}

/// "3,12"
fn address(text: &str) -> Option<Address> {
    let (track, sector) = text.split_once(',')?;
    Some(Address::new(track.trim().parse().ok()?, sector.trim().parse().ok()?))
}

/// Sixteen bytes a line, as numbers and as letters.
fn as_text(bytes: &[u8]) -> String {
    let mut text = String::new();
    for (i, line) in bytes.chunks(16).enumerate() {
        let _ = write!(text, "{:02x} ", i * 16);
        for byte in line {
            let _ = write!(text, " {:02x}", byte);
        }
        let letter = |&byte: &u8| if byte == b' ' || byte.is_ascii_graphic() { byte as char } else { '.' };
        let _ = writeln!(text, "  |{}|", line.iter().map(letter).collect::<String>());
    }
    text
}

#[cfg(test)]
mod tests {
    use super::*;

    #[test]
    fn a_line_has_sixteen_bytes() {
        let text = as_text(b"\x01\x02ALARM 14 LOW\n\xff\x00");
        assert_eq!(text, "00  01 02 41 4c 41 52 4d 20 31 34 20 4c 4f 57 0a ff  |..ALARM 14 LOW..|\n10  00  |.|\n");
    }

    #[test]
    fn addresses() {
        assert_eq!(address("3,12"), Some(Address::new(3, 12)));
        assert_eq!(address("3"), None);
        assert_eq!(address("3,256"), None);
    }
}
