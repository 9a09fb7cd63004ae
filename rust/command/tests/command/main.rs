//! The built command as a person runs it: words, exit statuses, both streams, and the files on disk afterwards.

mod advice;
mod check;
mod common;
mod examples;
mod folders;
mod interrupted;
mod json;
mod list;
mod moving;
mod pages;
mod secrets;
mod several;
mod show;
mod terminal;
mod usage;
mod warnings;
