//! `convert_state shorten SITE LONGER STATE` brings over the longer state that an engine of before
//! left; `convert_state lengthen SITE STATE LONGER` is the way back. Of what is turned back no file
//! is written.

use std::error::Error;
use std::process::ExitCode;
use std::{env, fs};
use warblehay::{lengthen_state, shorten_state, state_length, TurnedBack};

fn shortened(site: &[u8], longer: &[u8]) -> Result<Vec<u8>, TurnedBack> {
    let mut state = vec![0; state_length(site)];
    shorten_state(site, longer, &mut state)?;
    Ok(state)
}

fn lengthened(site: &[u8], state: &[u8]) -> Result<Vec<u8>, TurnedBack> {
    let mut longer = vec![0; site.len()];
    lengthen_state(site, state, &mut longer)?;
    Ok(longer)
}

fn run([way, site, from, to]: [&String; 4]) -> Result<(), Box<dyn Error>> {
    let convert = match way.as_str() {
        "shorten" => shortened,
        "lengthen" => lengthened,
        _ => return Err("the way is shorten or lengthen".into()),
    };
    let converted = convert(&fs::read(site)?, &fs::read(from)?)?;
    Ok(fs::write(to, converted)?)
}

fn main() -> ExitCode {
    let arguments: Vec<String> = env::args().collect();
    let [_, way, site, from, to] = &arguments[..] else {
        eprintln!("usage: convert_state shorten|lengthen SITE FROM TO");
        return ExitCode::FAILURE;
    };
    if let Err(error) = run([way, site, from, to]) {
        eprintln!("convert_state: {error}");
        return ExitCode::FAILURE;
    }
    ExitCode::SUCCESS
}
