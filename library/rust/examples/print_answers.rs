//! `print_answers SITE JOURNAL`: the answers to a journal from the fresh state, or the number of
//! the call that is turned back.

use std::process::ExitCode;
use std::{env, fs, io};
use warblehay::numbers::{ANSWER_SIZE, ENTRY_SIZE};
use warblehay::{fresh_state, run_journal, state_length, TurnedBack};

fn answers(site: &[u8], journal: &[u8]) -> Result<Vec<u8>, TurnedBack> {
    let mut state = vec![0; state_length(site)];
    let mut answers = vec![0; journal.len() / ENTRY_SIZE * ANSWER_SIZE];
    fresh_state(site, &mut state)?;
    run_journal(site, &mut state, journal, &mut answers)?;
    Ok(answers)
}

fn text(answers: Result<Vec<u8>, TurnedBack>) -> String {
    match answers {
        Ok(answers) => answers.chunks_exact(ANSWER_SIZE).map(line).collect(),
        Err(turned_back) => format!("{}\n", turned_back.number()),
    }
}

fn line(answer: &[u8]) -> String {
    let digits: String = answer.iter().map(|byte| format!("{byte:02X}")).collect();
    digits + "\n"
}

fn run(site: &str, journal: &str) -> io::Result<()> {
    print!("{}", text(answers(&fs::read(site)?, &fs::read(journal)?)));
    Ok(())
}

fn main() -> ExitCode {
    let arguments: Vec<String> = env::args().collect();
    let [_, site, journal] = &arguments[..] else {
        eprintln!("usage: print_answers SITE JOURNAL");
        return ExitCode::FAILURE;
    };
    if let Err(error) = run(site, journal) {
        eprintln!("print_answers: {error}");
        return ExitCode::FAILURE;
    }
    ExitCode::SUCCESS
}
