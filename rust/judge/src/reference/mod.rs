//! The rules of document 01, the figures of request 2026-01, the escapes of request 2026-02 and the IPv6 addresses of request 2026-03, a
//! second time: plain programs over byte strings, a function for each thing that the paper names.
//!
//! Nothing here knows the library. `iwd::read` and `connman::read` read a file under its name; the file that they give answers
//! every question about it; `writer` and `moving` write. What the C boundary makes of these answers is `layout`'s.

pub mod addressing;
pub mod connman;
pub mod dialect;
pub mod file_name;
pub mod groups;
pub mod ipv6_text;
pub mod iwd;
pub mod kind;
pub mod lines;
pub mod moving;
pub mod record;
pub mod refusal;
pub mod text;
pub mod writer;

pub use addressing::{Addressing, Ipv4, Ipv6};
pub use dialect::Dialect;
pub use record::{Credential, Record};
pub use refusal::{Fault, Refusal};

/// The longest file: 1 is "file over 16,384 bytes".
pub const LONGEST_FILE: usize = 16_384;

/// "An accepted reading also gives the number of setting lines and, for ConnMan, of services."
#[derive(Clone, Copy, Debug, PartialEq, Eq)]
pub struct Counts {
    pub settings: usize,
    pub services: usize,
}
