//! Documents 01 and 02 (Slips 1 to 8): the paper "Superelevation runoff about the axis, categories II to V", rule by
//! rule, with what document 02 changes and adds: Slip 1, "The bank is widened, the shoulder is kept";
//! Slip 2, "A whole day's cards in one call"; Slip 3, "Stop looking once found";
//! Slip 4, "Write the book as well as read it"; Slip 5, "Heights above the benchmark";
//! Slip 6, "Halfway goes up in millimetres"; Slip 7, "The method of the Minsk handbook";
//! Slip 8, "Walk from row to row".
//!
//! Written to be read beside the papers: their words, their order, exact fractions throughout.
#![forbid(unsafe_code)]

pub mod book;
pub mod card;
pub mod day;
pub mod fraction;
pub mod minsk;
pub mod rows;
pub mod section;
pub mod walked;
pub mod writer;

pub use book::{read_book, BookReply};
pub use card::{check_card, Card, Numbers, Profile};
pub use day::{fill_day, DayReply};
pub use minsk::{check_minsk_card, fill_minsk_table, minsk_rows};
pub use rows::{fill_table, rows, stations, TableReply};
pub use walked::{walk_table, WalkReply};
pub use writer::{write_book, WriterReply};

#[cfg(test)]
mod above_benchmark;
#[cfg(test)]
mod both_bodies;
#[cfg(test)]
mod halfway;
#[cfg(test)]
mod handbook;
#[cfg(test)]
mod kept_shoulder;
#[cfg(test)]
mod once_found;
#[cfg(test)]
mod printed;
#[cfg(test)]
mod readings;
#[cfg(test)]
mod row_to_row;
#[cfg(test)]
mod whole_day;
#[cfg(test)]
mod written_back;
