//! JSON as it is written: on one line, and ASCII only, so that it is valid for any text and harms no terminal.

use std::fmt::{self, Write};

pub enum Json {
    Null,
    Bool(bool),
    Number(usize),
    Text(String),
    List(Vec<Json>),
    Object(Members),
}

/// The members of an object, in their order.
pub type Members = Vec<(String, Json)>;

/// Members by their names.
pub fn members<const N: usize>(named: [(&str, Json); N]) -> Members {
    named.map(|(name, value)| (name.to_string(), value)).into()
}

impl Json {
    pub fn text(text: impl ToString) -> Json {
        Json::Text(text.to_string())
    }

    /// An object of members in this order.
    pub fn object<const N: usize>(named: [(&str, Json); N]) -> Json {
        Json::Object(members(named))
    }
}

/// A number, or null where there is none.
pub fn number(number: Option<usize>) -> Json {
    number.map_or(Json::Null, Json::Number)
}

/// Text, or null where there is none.
impl<T: ToString> From<Option<T>> for Json {
    fn from(text: Option<T>) -> Json {
        text.map_or(Json::Null, Json::text)
    }
}

impl fmt::Display for Json {
    fn fmt(&self, f: &mut fmt::Formatter<'_>) -> fmt::Result {
        match self {
            Json::Null => f.write_str("null"),
            Json::Bool(value) => write!(f, "{value}"),
            Json::Number(value) => write!(f, "{value}"),
            Json::Text(text) => write_text(f, text),
            Json::List(items) => {
                f.write_char('[')?;
                for (place, item) in items.iter().enumerate() {
                    write!(f, "{}{item}", if place > 0 { "," } else { "" })?;
                }
                f.write_char(']')
            }
            Json::Object(members) => {
                f.write_char('{')?;
                for (place, (name, value)) in members.iter().enumerate() {
                    f.write_str(if place > 0 { "," } else { "" })?;
                    write_text(f, name)?;
                    write!(f, ":{value}")?;
                }
                f.write_char('}')
            }
        }
    }
}

fn write_text(f: &mut fmt::Formatter<'_>, text: &str) -> fmt::Result {
    f.write_char('"')?;
    for unit in text.encode_utf16() {
        match u8::try_from(unit).map(char::from) {
            Ok('"') => f.write_str("\\\"")?,
            Ok('\\') => f.write_str("\\\\")?,
            Ok(plain @ ' '..='~') => f.write_char(plain)?,
            _ => write!(f, "\\u{unit:04x}")?,
        }
    }
    f.write_char('"')
}

#[cfg(test)]
mod tests {
    use super::*;

    #[test]
    fn text_is_ascii() {
        assert_eq!(
            Json::text("a\"b\\c\n\u{e9}\u{1f600}\u{7f}").to_string(),
            "\"a\\\"b\\\\c\\u000a\\u00e9\\ud83d\\ude00\\u007f\""
        );
    }

    #[test]
    fn members_keep_their_order() {
        let object = Json::object([("b", Json::List(vec![Json::Number(1), Json::Null])), ("a", Json::Bool(true))]);
        assert_eq!(object.to_string(), "{\"b\":[1,null],\"a\":true}");
        assert_eq!(Json::List(Vec::new()).to_string(), "[]");
    }
}
