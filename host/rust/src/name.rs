//! Names as they are typed and as they stand in a control block.

#![forbid(unsafe_code)]

use std::error::Error;
use std::fmt;
use std::str::FromStr;

/// Eight bytes of name and three of extension, each filled up with zeros. Whether it is legal the service decides.
#[derive(Clone, Copy, Debug, PartialEq, Eq, Hash)]
pub struct Name([u8; 11]);

/// The text does not fit in the eleven bytes of a name.
#[derive(Clone, Debug, PartialEq, Eq)]
pub struct NameTooLong(String);

impl Name {
    /// The eleven bytes of a slot or of a control block.
    pub fn of(bytes: [u8; 11]) -> Name {
        Name(bytes)
    }

    /// As they stand in a slot or in a control block.
    pub fn bytes(&self) -> &[u8; 11] {
        &self.0
    }

    /// Whether the extension is not empty.
    pub fn has_extension(&self) -> bool {
        self.0[8] != 0
    }
}

/// NAME.EXT, or NAME alone.
impl FromStr for Name {
    type Err = NameTooLong;

    fn from_str(text: &str) -> Result<Name, NameTooLong> {
        let (stem, extension) = text.split_once('.').unwrap_or((text, ""));
        if stem.len() > 8 || extension.len() > 3 {
            return Err(NameTooLong(text.to_string()));
        }
        let mut bytes = [0; 11];
        bytes[..stem.len()].copy_from_slice(stem.as_bytes());
        bytes[8..8 + extension.len()].copy_from_slice(extension.as_bytes());
        Ok(Name(bytes))
    }
}

/// NAME.EXT. A damaged slot may hold anything: what is no printable letter is shown as '?'.
impl fmt::Display for Name {
    fn fmt(&self, f: &mut fmt::Formatter<'_>) -> fmt::Result {
        f.pad(&format!("{}.{}", shown(&self.0[..8]), shown(&self.0[8..])))
    }
}

fn shown(bytes: &[u8]) -> String {
    let used = bytes.iter().position(|&byte| byte == 0).unwrap_or(bytes.len());
    bytes[..used].iter().map(|&byte| if byte.is_ascii_graphic() { byte as char } else { '?' }).collect()
}

impl fmt::Display for NameTooLong {
    fn fmt(&self, f: &mut fmt::Formatter<'_>) -> fmt::Result {
        write!(f, "'{}': a name has at most 8 characters, an extension at most 3", self.0)
    }
}

impl Error for NameTooLong {}

#[cfg(test)]
mod tests {
    use super::*;

    fn typed(text: &str) -> Name {
        text.parse().unwrap()
    }

    #[test]
    fn typed_names_are_filled_up_with_zeros() {
        assert_eq!(typed("AMPL.TXT").bytes(), b"AMPL\0\0\0\0TXT");
        assert_eq!(typed("A-LONG_1.X").bytes(), b"A-LONG_1X\0\0");
        assert_eq!(typed("AMPL").bytes(), b"AMPL\0\0\0\0\0\0\0");
        assert!(!typed("AMPL").has_extension());
        assert!(typed("A.B.C").has_extension());
        assert!("NINECHARS.TXT".parse::<Name>().is_err());
        assert!("AMPL.TEXT".parse::<Name>().is_err());
    }

    #[test]
    fn slots_are_shown_whatever_they_hold() {
        assert_eq!(Name::of(*b"AMPL\0\0\0\0TXT").to_string(), "AMPL.TXT");
        assert_eq!(Name::of(*b"A\x07 C\xff\0\0\0T\0\0").to_string(), "A??C?.T");
    }
}
