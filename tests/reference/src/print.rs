//! The output of the printing program.

use crate::engine::{Engine, REFERENCE};
use crate::numbers::{refusal, ANSWER_LENGTH, ENTRY_LENGTH};
use crate::state::state_length;
use std::fmt::Write;

/// What this crate's engine prints.
pub fn print_journal(site: &[u8], journal: &[u8]) -> String {
    print_by(REFERENCE, site, journal)
}

/// From the fresh state, one line of hexadecimal digits for each answer; of an input turned back,
/// only the number.
pub fn print_by(engine: Engine, site: &[u8], journal: &[u8]) -> String {
    let mut state = vec![0; state_length(site)];
    let refused = (engine.fresh_state)(site, &mut state);
    if refused != refusal::ACCEPTED {
        return format!("{refused}\n");
    }
    let mut answers = vec![0; journal.len() / ENTRY_LENGTH * ANSWER_LENGTH];
    let refused = (engine.run_journal)(site, &mut state, journal, &mut answers);
    if refused != refusal::ACCEPTED {
        return format!("{refused}\n");
    }
    answers.chunks_exact(ANSWER_LENGTH).map(line).collect()
}

fn line(answer: &[u8]) -> String {
    let mut line = String::with_capacity(2 * ANSWER_LENGTH + 1);
    for byte in answer {
        // Writing into a String cannot fail.
        let _ = write!(line, "{byte:02X}");
    }
    line.push('\n');
    line
}
