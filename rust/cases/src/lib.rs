//! Outside cases: the tables of `tests/cases`, written by hand from documents 01 and 02 and docs/DECISIONS.md, run over the C
//! boundary.
//!
//! `table` reads every table, and `written` says how bytes are written in one. Each other public module answers the cases of
//! one table: `leaves`, `files`, `settings`, `records`, `writing` and `moving`. A case's answer is text, which is compared with what the
//! table expects.

mod ask;
pub mod files;
pub mod leaves;
pub mod moving;
pub mod records;
mod rooms;
pub mod settings;
mod show;
pub mod table;
pub mod writing;
pub mod written;
