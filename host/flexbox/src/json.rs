//! JSON, as much of it as the commands print.

#[cfg(test)]
pub mod reading;

use flex::Address;
use std::fmt::{Display, Write};

/// A text in quotes.
pub fn text(text: &str) -> String {
    let mut quoted = String::from("\"");
    for letter in text.chars() {
        match letter {
            '"' | '\\' => {
                quoted.push('\\');
                quoted.push(letter);
            }
            control if (control as u32) < 32 || control as u32 == 127 => {
                let _ = write!(quoted, "\\u{:04x}", control as u32);
            }
            other => quoted.push(other),
        }
    }
    quoted.push('"');
    quoted
}

pub fn list(items: impl IntoIterator<Item = String>) -> String {
    format!("[{}]", items.into_iter().collect::<Vec<String>>().join(","))
}

/// A number, or null where it is not known.
pub fn number(number: Option<usize>) -> String {
    number.map_or("null".to_string(), |number| number.to_string())
}

/// Track and sector.
pub fn address(address: Address) -> String {
    format!("[{},{}]", address.track, address.sector)
}

/// Month, day and the last two digits of the year.
pub fn date([month, day, year]: [u8; 3]) -> String {
    Object::new().with("month", month).with("day", day).with("year", year).end()
}

pub struct Object(String);

impl Object {
    pub fn new() -> Object {
        Object(String::from("{"))
    }

    /// A member whose value is JSON already: a number, a list, an object, true or false.
    pub fn with(mut self, name: &str, value: impl Display) -> Object {
        let comma = if self.0.len() > 1 { "," } else { "" };
        let _ = write!(self.0, "{}{}:{}", comma, text(name), value);
        self
    }

    pub fn with_text(self, name: &str, value: &str) -> Object {
        self.with(name, text(value))
    }

    pub fn end(mut self) -> String {
        self.0.push('}');
        self.0
    }
}

#[cfg(test)]
mod tests {
    use super::*;

    #[test]
    fn every_text_is_quoted_rightly() {
        assert_eq!(text("a\"b\\c\n\u{7f}é"), "\"a\\\"b\\\\c\\u000a\\u007fé\"");
        let object = Object::new().with_text("name", "A").with("size", 3).with("at", address(Address::new(1, 2))).end();
        assert_eq!(object, "{\"name\":\"A\",\"size\":3,\"at\":[1,2]}");
        assert_eq!((number(Some(3)).as_str(), number(None).as_str()), ("3", "null"));
        assert_eq!(list(["1".to_string(), "2".to_string()]), "[1,2]");
    }
}
