//! Files that earn each sentence, with the sentence.

mod ipv6;
mod lines;
mod names;
mod rules;
mod values;

use crate::messages::Message;
pub use rules::MOVES;

/// A sentence's name, a file name, a file, and what is said of it.
pub type Check = (Message, &'static str, &'static [u8], &'static str);

/// The same with the number of the service that is moved.
pub type Move = (Message, &'static str, &'static [u8], usize, &'static str);

pub fn checks() -> impl Iterator<Item = &'static Check> {
    let all = [names::CHECKS, lines::CHECKS, values::CHECKS, ipv6::CHECKS, rules::CHECKS];
    all.into_iter().flatten()
}
