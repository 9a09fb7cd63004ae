//! An explanation, as JSON.

use super::Explanation;
use crate::forms::head;
use crate::json::{members, Json};
use crate::warnings::Row;

pub fn refusal(number: u8, explanation: &Explanation) -> String {
    let number = Json::Number(number.into());
    let texts = [explanation.title, explanation.meaning, explanation.remedy];
    explained(number, Json::Null, texts, Json::Null)
}

pub fn warning(row: &Row) -> String {
    explained(
        Json::Null,
        Json::text(row.name),
        [row.title, row.meaning, row.remedy],
        Json::text(row.source),
    )
}

fn explained(number: Json, word: Json, [title, meaning, remedy]: [&str; 3], source: Json) -> String {
    let mut found = head("explanation", "explain");
    found.extend(members([
        ("number", number),
        ("word", word),
        ("title", Json::text(title)),
        ("meaning", Json::text(meaning)),
        ("remedy", Json::text(remedy)),
        ("source", source),
    ]));
    Json::Object(found).to_string()
}
