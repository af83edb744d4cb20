//! Second implementation of the access decision engine of documents 01 and 02.
//!
//! It is written from the texts of document 01 and of the done requests of document 02 alone,
//! shares no code with the proved engine, and serves as its counterpart in the differential test.
//! It is written to be read: every lookup is a linear scan of the site. Names follow Addendum
//! 135-2008j (document 002).

#![forbid(unsafe_code)]

pub mod answer;
pub mod build;
pub mod bytes;
pub mod engine;
pub mod entry;
mod factor_read;
pub mod generate;
pub mod journal;
pub mod layout;
pub mod longer;
pub mod numbers;
pub mod occurrences;
pub mod one_point;
pub mod print;
mod rights;
pub mod scenarios;
pub mod settings;
pub mod site;
pub mod state;
pub mod time;
pub mod wiegand;
