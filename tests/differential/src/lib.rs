//! The proved engine beside the `reference` crate: its calls, the comparison of one call through
//! both engines, and what the tests share. The benchmark has it beside the engines of `plain`.
//!
//! At the repository's root, `bash library/build` writes the library that is linked here, and
//! `rt ci`, or `rt run` in crates/print_journal, the printing program. Then:
//!
//! ```text
//! cargo test --release --offline --manifest-path tests/Cargo.toml
//! cargo run --release --offline --manifest-path tests/Cargo.toml --bin bench
//! cargo run --release --offline --manifest-path tests/Cargo.toml --bin bench -- --instructions
//! ```
//!
//! WARBLEHAY_SEED and WARBLEHAY_CASES set another seed and another number of random cases, 10,000
//! or more, WARBLEHAY_LIB_DIR and WARBLEHAY_BIN_DIR other places of the library and of the program.
//! The gate sets none of them.

#![forbid(unsafe_code)]

pub mod colliding;
pub mod compare;
mod faults;
pub mod proved;
pub mod small;

pub use reference::settings;
