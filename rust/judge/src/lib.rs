//! The outside judge of Qewaris: document 01, and what document 02 changed of it, read a second time, and compared with the library over
//! the C boundary.
//!
//! `reference` is the second reading, `generate` makes cases, `compare` puts a case to both and looks for any difference, and
//! `shrink` makes a differing case small. `one` is for fuzzers.
//!
//! `cargo test -p judge --test million` runs a million cases and prints how often each entry point gave each answer, and what else the
//! cases met. `cargo test -p judge --test standard` compares IPv6 addresses, the judge's and the library's, with Rust's standard library.
//! The other tests try the judge itself: `papers`, `open_points`, `backslashes` and `ipv6` on the papers' own examples, `reach` what the
//! generators reach, `shrinking` and `encodings` what their names say.

#![deny(unsafe_code)]

pub mod answer;
pub mod blamed;
pub mod case;
pub mod compare;
pub mod coverage;
pub mod encoding;
pub mod entry;
pub mod escapes;
pub mod generate;
pub mod ipv6;
pub mod judged;
pub mod layout;
pub mod library;
pub mod met;
pub mod own;
pub mod properties;
pub mod random;
pub mod reference;
pub mod show;
pub mod shrink;
pub mod sizes;

/// Puts the case that some bytes stand for (see `encoding`) to the library and to the reference. Panics, with the case made small
/// and in print, where they differ.
pub fn one(data: &[u8]) {
    let case = encoding::decode(data);
    if compare::differs(&case) {
        panic!("the library and the judge differ\n{}", small_report(&case));
    }
}

/// A differing case made small, in print.
pub fn small_report(case: &case::Case) -> String {
    let small = shrink::shrink(case, &compare::differs);
    show::report(&small, &compare::try_case(&small).differences)
}
