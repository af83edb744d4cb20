//! What the environment sets for the random tests of all packages, and how they print.

use crate::generate::Random;
use std::fmt::Display;
use std::io::{self, Write};
use std::str::FromStr;

/// The seed of a run that sets no other, so that the gate always tries the same cases.
const SEED: u64 = 135_2008;

/// The random numbers of a test: from WARBLEHAY_SEED or the fixed seed.
pub fn random() -> Random {
    Random::new(set("WARBLEHAY_SEED").unwrap_or(SEED))
}

/// The fewest random cases of a test: among fewer, some event, mark or refusal may not occur, and a
/// test that asks for all of them would fail by chance.
const FEWEST_CASES: usize = 10_000;

/// The number of random cases: WARBLEHAY_CASES or the usual one.
pub fn cases(usual: usize) -> usize {
    set("WARBLEHAY_CASES").map_or(usual, enough)
}

fn enough(cases: usize) -> usize {
    assert!(
        cases >= FEWEST_CASES,
        "WARBLEHAY_CASES is {cases}: set {FEWEST_CASES} or more"
    );
    cases
}

fn set<T: FromStr>(name: &str) -> Option<T> {
    let text = std::env::var_os(name)?;
    let number = text.to_str().and_then(|text| text.parse().ok());
    assert!(number.is_some(), "{name} is not a number: {text:?}");
    number
}

/// Prints past the test harness, which shows only what failing tests print.
pub fn print(title: &str, table: impl Display) {
    let text = format!("\n{title}\n{table}");
    // A closed standard output is no reason to fail.
    let _ = io::stdout().write_all(text.as_bytes());
}

#[cfg(test)]
mod tests {
    use super::*;

    #[test]
    #[should_panic(expected = "WARBLEHAY_CASES is 0: set 10000 or more")]
    fn no_cases_are_refused() {
        enough(0);
    }

    #[test]
    fn the_fewest_cases_are_enough() {
        assert_eq!(enough(FEWEST_CASES), FEWEST_CASES);
    }
}
