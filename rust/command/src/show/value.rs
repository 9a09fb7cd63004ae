//! A setting's value as it is shown: in a table, in JSON, and hidden where it is a secret.

use crate::hex::encoded;
use crate::json::{members, Json, Members};
use crate::report::HIDDEN;
use crate::secrets::{mark, swallowed_secret};
use crate::visible::{pieces, string};

/// What is hidden: nothing, or passphrases and keys and every text that holds one of these.
pub enum Hiding {
    None,
    Secrets(Vec<Vec<u8>>),
}

/// A value, or its absence.
pub enum Value {
    Flag(Option<bool>),
    /// Words, numbers and addresses.
    Plain(Option<String>),
    /// Addresses; none where it is absent.
    List(Vec<String>),
    /// A string as it is meant.
    Text(Option<Vec<u8>>),
    /// The name of a network, which is no secret, since it is on the air, unless it swallowed the next line.
    Name(Option<Vec<u8>>),
    /// The same in hex.
    Hex(Option<Vec<u8>>),
    /// Texts without escapes; none where it is absent.
    Texts(Vec<Vec<u8>>),
    Secret(Option<Vec<u8>>),
}

impl Value {
    /// The value in a table; none where it is absent.
    pub fn shown(&self, hiding: &Hiding) -> Option<String> {
        match self {
            Value::Flag(flag) => flag.map(|flag| flag.to_string()),
            Value::Plain(text) => text.clone(),
            Value::List(items) => (!items.is_empty()).then(|| items.join(", ")),
            Value::Text(text) => text.as_ref().map(|text| hiding.text(text)),
            Value::Name(name) => name.as_deref().map(|name| hiding.name(name)),
            Value::Hex(name) if name.as_deref().is_some_and(|name| hiding.hides(name)) => Some(HIDDEN.to_string()),
            Value::Hex(name) => name.as_deref().map(encoded),
            Value::Texts(texts) => {
                let texts: Vec<String> = texts.iter().map(|text| hiding.entry(text)).collect();
                (!texts.is_empty()).then(|| texts.join(", "))
            }
            Value::Secret(secret) => secret.as_ref().map(|secret| hiding.secret(secret)),
        }
    }

    /// The value in JSON, as one or more members of an object.
    pub fn members(&self, key: &str, hiding: &Hiding) -> Members {
        let value = match self {
            Value::Flag(flag) => flag.map_or(Json::Null, Json::Bool),
            Value::Plain(text) => Json::from(text.clone()),
            Value::List(items) if items.is_empty() => Json::Null,
            Value::List(items) => Json::List(items.iter().map(Json::text).collect()),
            Value::Text(text) => Json::from(text.as_ref().map(|text| hiding.masked(text))),
            Value::Name(name) => Json::from(name.as_deref().filter(|name| !hiding.hides(name)).map(String::from_utf8_lossy)),
            Value::Hex(name) => Json::from(name.as_deref().filter(|name| !hiding.hides(name)).map(encoded)),
            Value::Texts(texts) if texts.is_empty() => Json::Null,
            Value::Texts(texts) => Json::List(texts.iter().map(|text| Json::text(hiding.masked(text))).collect()),
            Value::Secret(secret) => return hiding.secret_members(key, secret.as_deref()),
        };
        members([(key, value)])
    }
}

impl Hiding {
    /// A string for a terminal, with dots for the secrets that stand in it.
    pub fn text(&self, text: &[u8]) -> String {
        string(text, &self.marks(text))
    }

    /// The same of a text without escapes.
    fn entry(&self, text: &[u8]) -> String {
        pieces(text, &self.marks(text)).into_iter().map(|piece| piece.text).collect()
    }

    /// Whether the name of a network is hidden.
    pub fn hides(&self, name: &[u8]) -> bool {
        matches!(self, Hiding::Secrets(_)) && swallowed_secret(name).is_some()
    }

    /// The name of a network for a terminal.
    pub fn name(&self, name: &[u8]) -> String {
        if self.hides(name) {
            HIDDEN.to_string()
        } else {
            string(name, &[])
        }
    }

    /// A secret for a terminal.
    pub fn secret(&self, secret: &[u8]) -> String {
        match self {
            Hiding::None => string(secret, &[]),
            Hiding::Secrets(_) => format!("{} (hidden, --secrets shows it)", ".".repeat(secret.len())),
        }
    }

    /// A secret as two members: itself or null, and whether it is hidden.
    pub fn secret_members(&self, key: &str, secret: Option<&[u8]>) -> Members {
        let is_hidden = secret.is_some() && matches!(self, Hiding::Secrets(_));
        let shown = secret.filter(|_| !is_hidden).map(|secret| String::from_utf8_lossy(secret));
        members([(key, Json::from(shown)), (&format!("{key}_hidden"), Json::Bool(is_hidden))])
    }

    /// A text with the secrets that stand in it left out, without their lengths.
    pub fn masked(&self, text: &[u8]) -> String {
        let marks = self.marks(text);
        let mut bytes = Vec::new();
        for (place, byte) in text.iter().enumerate() {
            match (marks[place], place > 0 && marks[place - 1]) {
                (false, _) => bytes.push(*byte),
                (true, false) => bytes.extend(HIDDEN.as_bytes()),
                (true, true) => {}
            }
        }
        String::from_utf8_lossy(&bytes).into_owned()
    }

    fn marks(&self, text: &[u8]) -> Vec<bool> {
        let mut marks = vec![false; text.len()];
        if let Hiding::Secrets(secrets) = self {
            mark(text, secrets, &mut marks);
        }
        marks
    }
}
