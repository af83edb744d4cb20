//! `read_card SITE POINT TIME BITS`: the answer to a card at a point, in the fresh state of the
//! site, or the number of the call that is turned back. BITS are those of the reader, as text of 0
//! and 1, as many as it handed over.

use std::error::Error;
use std::process::ExitCode;
use std::{env, fs};
use warblehay::numbers::*;
use warblehay::{fresh_state, read_wiegand26, run_journal, state_length, Factor, TurnedBack};

/// At most 64 bits as one number, the first bit highest, with their count.
fn bits(text: &str) -> Option<(u64, u32)> {
    let is_bits = text.bytes().all(|digit| matches!(digit, b'0' | b'1'));
    if text.len() > 64 || !is_bits {
        return None;
    }
    let number = text
        .bytes()
        .fold(0, |number, digit| number << 1 | u64::from(digit == b'1'));
    Some((number, text.len() as u32))
}

fn entry(point: u32, time: u32, factor: Factor) -> [u8; ENTRY_SIZE] {
    let mut entry = [0; ENTRY_SIZE];
    entry[ENTRY_OPERATION] = OPERATION_FACTOR;
    entry[ENTRY_ARGUMENT] = factor.format;
    entry[ENTRY_TIME..][..4].copy_from_slice(&time.to_be_bytes());
    entry[ENTRY_INSTANCE..][..4].copy_from_slice(&point.to_be_bytes());
    entry[ENTRY_VALUE..][..8].copy_from_slice(&factor.value);
    entry
}

fn answer(
    site: &[u8],
    point: u32,
    time: u32,
    (number, count): (u64, u32),
) -> Result<[u8; ANSWER_SIZE], TurnedBack> {
    let entry = entry(point, time, read_wiegand26(number, count)?);
    let mut state = vec![0; state_length(site)];
    let mut answer = [0; ANSWER_SIZE];
    fresh_state(site, &mut state)?;
    run_journal(site, &mut state, &entry, &mut answer)?;
    Ok(answer)
}

fn text(answer: Result<[u8; ANSWER_SIZE], TurnedBack>) -> String {
    match answer {
        Ok(answer) => answer.iter().map(|byte| format!("{byte:02X}")).collect(),
        Err(turned_back) => turned_back.number().to_string(),
    }
}

fn run([site, point, time, digits]: [&String; 4]) -> Result<(), Box<dyn Error>> {
    let bits = bits(digits).ok_or("BITS are at most 64, each 0 or 1")?;
    let answer = answer(&fs::read(site)?, point.parse()?, time.parse()?, bits);
    println!("{}", text(answer));
    Ok(())
}

fn main() -> ExitCode {
    let arguments: Vec<String> = env::args().collect();
    let [_, site, point, time, digits] = &arguments[..] else {
        eprintln!("usage: read_card SITE POINT TIME BITS");
        return ExitCode::FAILURE;
    };
    if let Err(error) = run([site, point, time, digits]) {
        eprintln!("read_card: {error}");
        return ExitCode::FAILURE;
    }
    ExitCode::SUCCESS
}
