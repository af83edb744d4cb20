//! Plain Rust engines that the benchmark measures the proved one against: what a Rust engineer with
//! the standard library alone would write for speed.
//!
//! Both follow documents 01 and 02 and share all but the lookups: `hashed` finds records by hash maps
//! that each call builds, `linear` scans the site and takes nothing from the heap. The calls of 26-bit
//! readers are in `wiegand`. Of the `reference` crate they take only the papers' numbers, so that the
//! tests compare two implementations.

#![forbid(unsafe_code)]

mod answer;
mod bytes;
mod factor_read;
mod hashed;
mod journal;
mod linear;
mod longer;
mod lookup;
mod range;
mod rights;
mod site;
mod state;
pub mod wiegand;

use reference::engine::Engine;

/// Records found by hash maps.
pub const HASHED: Engine = Engine {
    check_site: site::check_site::<hashed::Hashed>,
    fresh_state: state::fresh_state::<hashed::Hashed>,
    run_journal: journal::run_journal::<hashed::Hashed>,
    shorten_state: longer::shorten_state::<hashed::Hashed>,
    lengthen_state: longer::lengthen_state::<hashed::Hashed>,
};

/// Records found by scans.
pub const LINEAR: Engine = Engine {
    check_site: site::check_site::<linear::Linear>,
    fresh_state: state::fresh_state::<linear::Linear>,
    run_journal: journal::run_journal::<linear::Linear>,
    shorten_state: longer::shorten_state::<linear::Linear>,
    lengthen_state: longer::lengthen_state::<linear::Linear>,
};
