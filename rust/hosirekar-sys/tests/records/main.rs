//! The records of hexx's answers, replayed through the archive. Of a case that differs, its record, its
//! part, its number and its line are told, and what differs first.

#[path = "../common/mod.rs"]
mod common;

mod builders;
mod faces;
mod reading;
mod stored;
