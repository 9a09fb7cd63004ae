//! A reader of JSON for the tests: strict, and it must take the whole text.

use std::collections::BTreeMap;

#[derive(Clone, Debug, PartialEq)]
pub enum Value {
    Null,
    Bool(bool),
    Number(u64),
    Text(String),
    List(Vec<Value>),
    Object(BTreeMap<String, Value>),
}

impl Value {
    /// A member of an object, or an item of a list by its number.
    #[track_caller]
    pub fn at(&self, path: &str) -> &Value {
        path.split('/').fold(self, |value, name| match value {
            Value::Object(members) => members.get(name).unwrap_or_else(|| panic!("no member {name} of {path}")),
            Value::List(items) => &items[name.parse::<usize>().unwrap()],
            _ => panic!("no {name} of {path}"),
        })
    }
}

pub fn text(text: &str) -> Value {
    Value::Text(text.to_string())
}

/// The value that a text is.
#[track_caller]
pub fn read(text: &str) -> Value {
    assert!(text.is_ascii(), "JSON is printed in ASCII");
    let mut reader = Reader {
        bytes: text.as_bytes(),
        place: 0,
    };
    let value = reader.value();
    reader.blanks();
    assert_eq!(reader.place, text.len(), "nothing follows the value");
    value
}

struct Reader<'a> {
    bytes: &'a [u8],
    place: usize,
}

impl Reader<'_> {
    fn blanks(&mut self) {
        while self.bytes.get(self.place).is_some_and(|byte| b" \n".contains(byte)) {
            self.place += 1;
        }
    }

    fn next(&mut self) -> u8 {
        self.place += 1;
        self.bytes[self.place - 1]
    }

    fn word(&mut self, word: &str, value: Value) -> Value {
        assert!(self.bytes[self.place..].starts_with(word.as_bytes()), "{word} is expected");
        self.place += word.len();
        value
    }

    fn value(&mut self) -> Value {
        self.blanks();
        match self.bytes[self.place] {
            b'n' => self.word("null", Value::Null),
            b't' => self.word("true", Value::Bool(true)),
            b'f' => self.word("false", Value::Bool(false)),
            b'"' => Value::Text(self.text()),
            b'[' => Value::List(self.items(b']', Reader::value)),
            b'{' => {
                let members = self.items(b'}', |reader| {
                    reader.blanks();
                    let name = reader.text();
                    reader.blanks();
                    assert_eq!(reader.next(), b':');
                    (name, reader.value())
                });
                let count = members.len();
                let members: BTreeMap<String, Value> = members.into_iter().collect();
                assert_eq!(members.len(), count, "no member is named twice");
                Value::Object(members)
            }
            _ => self.number(),
        }
    }

    fn number(&mut self) -> Value {
        let start = self.place;
        while self.bytes.get(self.place).is_some_and(u8::is_ascii_digit) {
            self.place += 1;
        }
        let digits = std::str::from_utf8(&self.bytes[start..self.place]).unwrap();
        Value::Number(digits.parse().unwrap())
    }

    fn items<T>(&mut self, end: u8, item: fn(&mut Self) -> T) -> Vec<T> {
        self.next();
        self.blanks();
        let mut found = Vec::new();
        if self.bytes[self.place] == end {
            self.next();
            return found;
        }
        loop {
            found.push(item(self));
            self.blanks();
            match self.next() {
                b',' => {}
                byte => {
                    assert_eq!(byte, end);
                    return found;
                }
            }
        }
    }

    fn text(&mut self) -> String {
        assert_eq!(self.next(), b'"');
        let mut units: Vec<u16> = Vec::new();
        loop {
            match self.next() {
                b'"' => return String::from_utf16(&units).unwrap(),
                b'\\' => match self.next() {
                    b'u' => {
                        let digits = std::str::from_utf8(&self.bytes[self.place..self.place + 4]).unwrap();
                        units.push(u16::from_str_radix(digits, 16).unwrap());
                        self.place += 4;
                    }
                    byte => {
                        assert!(b"\"\\".contains(&byte));
                        units.push(byte.into());
                    }
                },
                byte => {
                    assert!((32..127).contains(&byte), "a control byte is escaped");
                    units.push(byte.into());
                }
            }
        }
    }
}
