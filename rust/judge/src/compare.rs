//! Putting a case to the library and to the reference, and telling every difference.

use crate::answer::Outcome;
use crate::case::Case;
use crate::entry::Entry;
use crate::judged::{self, Answers};
use crate::library;
use crate::properties;

/// A difference: at which entry point or of which promise, and the members that differ.
#[derive(Clone, Debug, PartialEq, Eq)]
pub struct Difference {
    pub place: String,
    /// The numbers that the judge and the library answered.
    pub numbers: (u8, u8),
    /// A member, what the judge says and what the library says.
    pub members: Vec<(String, String, String)>,
}

/// What came of a case: the library's answers, and where they differ from the paper.
pub struct Trial {
    pub answers: Answers,
    pub differences: Vec<Difference>,
}

/// Puts a case to both, and the library's answers to the promises.
pub fn try_case(case: &Case) -> Trial {
    let answers = library::answers(case);
    let mut differences = differences(&judged::answers(case), &answers);
    differences.extend(properties::broken_promises(case, &answers));
    Trial { answers, differences }
}

/// Whether the library differs from the paper at this case.
pub fn differs(case: &Case) -> bool {
    !try_case(case).differences.is_empty()
}

/// Where the answers found are not those expected, entry point by entry point.
pub fn differences(expected: &Answers, found: &Answers) -> Vec<Difference> {
    let entries = |answers: &Answers| answers.iter().map(|(entry, _)| *entry).collect::<Vec<_>>();
    assert_eq!(entries(expected), entries(found), "both answer at the same entry points");
    let pairs = expected.iter().zip(found).filter(|((_, judge), (_, library))| judge != library);
    pairs
        .map(|((entry, judge), (_, library))| difference(*entry, judge, library))
        .collect()
}

fn difference(entry: Entry, judge: &Outcome, library: &Outcome) -> Difference {
    let pairs = judge.fields().into_iter().zip(library.fields());
    let members = pairs
        .filter(|(judge, library)| judge != library)
        .map(|((name, judge), (_, library))| (name, judge, library));
    Difference {
        place: entry.name().to_string(),
        numbers: (judge.answer.number(), library.answer.number()),
        members: members.collect(),
    }
}
