//! From a refusal to a finding: the sentence that says what was found and what is allowed, and the place in the line.
//!
//! The number and the line are the library's. What is added here is worked out from the line again, for the reader only; where
//! that fails, the general sentence of the number stands in.

mod groups;
mod kinds;
mod lines;
mod names;
mod rules;
#[cfg(test)]
mod tests;
mod texts;
mod unplaced;

use crate::catalogue::{iwd_groups_of, kind_in, Dialect, Keys, Kind};
use crate::layout::{self, Form};
pub use crate::messages::filled;
use crate::messages::{general, Message};
use crate::secrets;
use crate::visible::{pieces, quoted, visible, Piece};
use crate::Refusal;
use std::fmt;
use std::ops::Range;
pub use unplaced::unplaced_lines;

/// A file as it was asked about: its bytes under its name, its size where more is known than was read, and the service.
pub struct Subject<'a> {
    pub name: &'a [u8],
    pub file: &'a [u8],
    pub size: Option<u64>,
    pub service: Option<usize>,
    /// Whether only a ConnMan file would do.
    pub for_move: bool,
}

impl<'a> Subject<'a> {
    pub fn new(name: &'a [u8], file: &'a [u8]) -> Subject<'a> {
        Subject {
            name,
            file,
            size: None,
            service: None,
            for_move: false,
        }
    }
}

/// A refusal as it is told: its number, its line with what of it may be shown, and one sentence.
pub struct Finding {
    pub number: u8,
    pub line: Option<usize>,
    pub sentence: String,
    /// The same sentence, without the length of a passphrase or key where it tells one.
    pub discreet: String,
    pub excerpt: Option<Excerpt>,
}

/// As `Refusal` is shown, with the sentence that says what was found.
impl fmt::Display for Finding {
    fn fmt(&self, f: &mut fmt::Formatter<'_>) -> fmt::Result {
        if let Some(line) = self.line {
            write!(f, "line {line}: ")?;
        }
        write!(f, "{} [{}]", self.sentence, self.number)
    }
}

/// A line as it is shown, and the place in it that is to blame, as a byte of the line.
pub struct Excerpt {
    pub pieces: Vec<Piece>,
    pub place: usize,
}

/// What is worked out of a refusal.
pub(crate) struct Diagnosis {
    pub message: Message,
    pub parts: Vec<(&'static str, String)>,
    pub place: Option<usize>,
    /// What was found, where that tells the length of a secret, in words that do not.
    pub discreet: Option<&'static str>,
}

impl Diagnosis {
    fn new(message: Message) -> Diagnosis {
        Diagnosis {
            message,
            parts: Vec::new(),
            place: None,
            discreet: None,
        }
    }

    fn with(mut self, name: &'static str, part: impl ToString) -> Diagnosis {
        self.parts.push((name, part.to_string()));
        self
    }

    fn at(mut self, place: usize) -> Diagnosis {
        self.place = Some(place);
        self
    }
}

/// The finding of a refusal.
///
/// ```
/// use qewaris::diagnosis::{finding, Subject};
///
/// let file = b"[service_till]\nType = wifi\nName = Desk 4\nPassphrase = lowtide\n";
/// let refusal = qewaris::check_connman(b"shop.config", file).unwrap_err();
/// let found = finding(&Subject::new(b"shop.config", file), &refusal);
/// assert_eq!(found.to_string(), "line 4: Passphrase has 7 bytes; it needs 8 to 63 [12]");
/// let shown: String = found.excerpt.unwrap().pieces.into_iter().map(|piece| piece.text).collect();
/// assert_eq!(shown, "Passphrase = .......");
/// ```
pub fn finding(subject: &Subject<'_>, refusal: &Refusal) -> Finding {
    let blamed = refusal.line().and_then(|line| Blamed::new(subject, line));
    let found = diagnosis(subject, blamed.as_ref(), refusal).filter(|found| found.message.number() == refusal.number());
    let found = found.unwrap_or_else(|| Diagnosis::new(general(refusal.number())));
    told(refusal, &found, blamed.as_ref())
}

fn told(refusal: &Refusal, found: &Diagnosis, blamed: Option<&Blamed<'_>>) -> Finding {
    let text = |parts: &[(&str, String)]| {
        let sentence = found.message.text(parts);
        sentence.unwrap_or_else(|| general(refusal.number()).text(&[]).unwrap_or_default())
    };
    let discreet = |(name, part): &(&'static str, String)| match found.discreet {
        Some(words) if *name == "found" => (*name, words.to_string()),
        _ => (*name, part.clone()),
    };
    let parts: Vec<(&str, String)> = found.parts.iter().map(discreet).collect();
    Finding {
        number: refusal.number(),
        line: refusal.line(),
        sentence: text(&found.parts),
        discreet: text(&parts),
        excerpt: blamed.map(|blamed| blamed.excerpt(found.place)),
    }
}

fn diagnosis(subject: &Subject<'_>, blamed: Option<&Blamed<'_>>, refusal: &Refusal) -> Option<Diagnosis> {
    match refusal.number() {
        1 => Some(Diagnosis::new(Message::Size).with("found", grouped(subject.size?))),
        2 => names::name(subject),
        3 => lines::unrecognized(blamed?),
        5 => groups::bad_header(blamed?),
        6 => groups::unknown_group(blamed?),
        7 => groups::repeated_group(blamed?),
        8 => lines::early_setting(blamed?),
        9 => lines::unknown_key(blamed?),
        10 => lines::repeated_key(blamed?),
        11 => texts::broken_text(blamed?),
        12 => kinds::broken_kind(blamed?),
        13 => groups::many_services(blamed?),
        14 => rules::missing(subject, refusal.line()),
        15 => rules::contradiction(subject, refusal.line()),
        16 => unplaced::no_place(blamed?),
        18 => no_service(subject),
        _ => None,
    }
}

fn no_service(subject: &Subject<'_>) -> Option<Diagnosis> {
    let count = match layout::services(subject.file).len() {
        0 => "none".to_string(),
        count => count.to_string(),
    };
    let found = Diagnosis::new(Message::NoService).with("found", subject.service?);
    Some(found.with("allowed", count))
}

/// A number with commas between its thousands.
fn grouped(number: u64) -> String {
    let digits = number.to_string();
    let groups: Vec<String> = digits.as_bytes().rchunks(3).rev().map(visible).collect();
    groups.join(",")
}

/// The line that is to blame, and what of it is hidden.
pub(crate) struct Blamed<'a> {
    dialect: Dialect,
    file: &'a [u8],
    number: usize,
    line: &'a [u8],
    hidden: Vec<bool>,
}

impl<'a> Blamed<'a> {
    fn new(subject: &Subject<'a>, number: usize) -> Option<Blamed<'a>> {
        Some(Blamed {
            dialect: Dialect::of(subject.name),
            file: subject.file,
            number,
            line: layout::line(subject.file, number)?,
            hidden: secrets::hidden(subject.file, number),
        })
    }

    /// The line's key and value, if it is a setting.
    fn setting(&self) -> Option<(Range<usize>, Range<usize>)> {
        match layout::form(self.dialect, self.line) {
            Form::Setting { key, value } => Some((key, value)),
            _ => None,
        }
    }

    /// The name of the group that the line stands in, or that it begins.
    fn group(&self) -> Option<&'a [u8]> {
        let headers = layout::lines(self.file).take(self.number).filter_map(|line| self.header(line));
        headers.last()
    }

    fn header(&self, line: &'a [u8]) -> Option<&'a [u8]> {
        match layout::form(self.dialect, line) {
            Form::Header(name) => line.get(name),
            _ => None,
        }
    }

    /// The keys of its group.
    fn keys(&self) -> Option<Keys> {
        crate::catalogue::keys_of(self.dialect, self.group()?)
    }

    /// The kind of its value, where its key has one.
    fn kind(&self) -> Option<Kind> {
        let (key, _) = self.setting()?;
        kind_in(self.keys()?, self.line.get(key)?)
    }

    fn is_hidden(&self, places: Range<usize>) -> bool {
        places.into_iter().any(|place| self.hidden.get(place) == Some(&true))
    }

    /// A part of the line in quotation marks, or none where it may not be shown.
    fn quote(&self, places: Range<usize>) -> Option<String> {
        if self.is_hidden(places.clone()) || places.len() > 80 {
            return None;
        }
        self.line.get(places).map(quoted)
    }

    /// A key as it is told: with its group, where two groups of iwd have such a key.
    fn name(&self, key: Range<usize>) -> Option<String> {
        let word = self.word(key.clone())?;
        match self.dialect {
            Dialect::Iwd if iwd_groups_of(self.line.get(key)?).count() > 1 => {
                Some(format!("{word} of [{}]", String::from_utf8_lossy(self.group()?)))
            }
            _ => Some(word),
        }
    }

    /// A part of the line as it stands, or none where it may not be shown.
    fn word(&self, places: Range<usize>) -> Option<String> {
        let text = self.line.get(places.clone())?;
        (!self.is_hidden(places)).then(|| visible(text))
    }

    /// A byte of the line as it is called, without telling which it is where it may not be shown.
    fn byte(&self, place: usize) -> String {
        let byte = self.line.get(place).copied().unwrap_or(b' ');
        let telling = byte.is_ascii_graphic() && !b".:,-".contains(&byte);
        if telling && self.is_hidden(place..place + 1) {
            "another character".to_string()
        } else {
            called(byte)
        }
    }

    fn excerpt(&self, place: Option<usize>) -> Excerpt {
        Excerpt {
            pieces: pieces(self.line, &self.hidden),
            place: place.unwrap_or_else(|| layout::blanks(self.line)),
        }
    }
}

/// A byte by its name.
fn called(byte: u8) -> String {
    match byte {
        b' ' => "a space".to_string(),
        b'\t' => "a tab".to_string(),
        b'.' => "a dot".to_string(),
        b':' => "a colon".to_string(),
        b',' => "a comma".to_string(),
        b'-' => "a hyphen".to_string(),
        b'"' => "a quotation mark".to_string(),
        33..=126 => format!("the character {}", char::from(byte)),
        _ => format!("byte {byte}"),
    }
}
