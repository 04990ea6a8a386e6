//! JSON read back, for the tests: all of a text must be one value, and then its fields have names.

use std::collections::BTreeSet;

#[derive(Debug, PartialEq)]
pub enum Value {
    /// A number, true, false or null, as it is written.
    Word(String),
    Text(String),
    List(Vec<Value>),
    Object(Vec<(String, Value)>),
}

/// Panics where it is no JSON.
pub fn read(text: &str) -> Value {
    let mut reader = Reader { rest: text };
    let value = reader.value();
    assert_eq!(reader.rest, "", "something follows");
    value
}

impl Value {
    /// The names of all fields below: "date.year", and "files[].name" in the objects of a list.
    pub fn fields(&self) -> BTreeSet<String> {
        let mut names = BTreeSet::new();
        self.add_fields("", &mut names);
        names
    }

    fn add_fields(&self, name: &str, names: &mut BTreeSet<String>) {
        match self {
            Value::Object(members) => {
                let dot = if name.is_empty() { "" } else { "." };
                members
                    .iter()
                    .for_each(|(member, value)| value.add_fields(&format!("{}{}{}", name, dot, member), names));
            }
            // An empty list does not tell what is in it when it is not.
            Value::List(items) if items.iter().all(|item| matches!(item, Value::Object(_))) => {
                items.iter().for_each(|item| item.add_fields(&format!("{}[]", name), names));
            }
            _ => {
                names.insert(name.to_string());
            }
        }
    }
}

struct Reader<'a> {
    rest: &'a str,
}

impl Reader<'_> {
    fn takes(&mut self, sign: char) -> bool {
        let rest = self.rest.strip_prefix(sign);
        self.rest = rest.unwrap_or(self.rest);
        rest.is_some()
    }

    fn must_take(&mut self, sign: char) {
        assert!(self.takes(sign), "no {} before {}", sign, self.rest);
    }

    fn value(&mut self) -> Value {
        match self.rest.chars().next() {
            Some('{') => Value::Object(self.items('{', '}', Reader::member)),
            Some('[') => Value::List(self.items('[', ']', Reader::value)),
            Some('"') => Value::Text(self.text()),
            _ => Value::Word(self.word()),
        }
    }

    /// What stands between these signs, with commas in between.
    fn items<T>(&mut self, from: char, to: char, one: fn(&mut Self) -> T) -> Vec<T> {
        self.must_take(from);
        let mut items = Vec::new();
        while !self.takes(to) {
            if !items.is_empty() {
                self.must_take(',');
            }
            items.push(one(self));
        }
        items
    }

    fn member(&mut self) -> (String, Value) {
        let name = self.text();
        self.must_take(':');
        (name, self.value())
    }

    fn text(&mut self) -> String {
        self.must_take('"');
        let mut text = String::new();
        loop {
            let letter = self.letter();
            match letter {
                '"' => return text,
                '\\' => text.push(self.escaped()),
                other => {
                    assert!(other as u32 >= 32, "a control character in a text");
                    text.push(other);
                }
            }
        }
    }

    fn letter(&mut self) -> char {
        let letter = self.rest.chars().next().expect("the text ends too early");
        self.must_take(letter);
        letter
    }

    fn escaped(&mut self) -> char {
        match self.letter() {
            'u' => {
                let (digits, rest) = self.rest.split_at(4);
                self.rest = rest;
                u32::from_str_radix(digits, 16).ok().and_then(char::from_u32).expect("four digits")
            }
            sign => {
                assert!(sign == '"' || sign == '\\', "\\{}", sign);
                sign
            }
        }
    }

    fn word(&mut self) -> String {
        let end = self.rest.find(|sign: char| !sign.is_ascii_alphanumeric()).unwrap_or(self.rest.len());
        let (word, rest) = self.rest.split_at(end);
        self.rest = rest;
        assert!(["true", "false", "null"].contains(&word) || word.parse::<u64>().is_ok(), "no value: {}", word);
        word.to_string()
    }
}
