//! Tries wrong definitions: each definition of `crates/octets/specs`, `crates/model/specs` and `crates/wiegand/specs` with one change in one
//! place, made by rule (`rules.rs`) or by hand (the file `list`), against the computed cases of `crates/cases`, `crates/model/proofs` and
//! `crates/wiegand/proofs`. Each shall be refused by a case; those of what the theorems state (`Part`, `Earned`, `Shifts`, `InPlace` and `Demands` of the
//! model, `Theorems` of the 26-bit readers) by a case or by a theorem's proof.
//!
//!     cargo run --release --offline --manifest-path tests/Cargo.toml -p wrong_definitions -- [OPTIONS]
//!
//!     --file Site          those of one file
//!     --definition kind    those of one definition
//!     --part 2/3           the second of each three
//!     --jobs 2             working copies at once
//!     --whole              each by `rt verdict`, from nothing known
//!     --show               print them and try none
//!
//! A change is tried in a working copy under `target/wrong_definitions` by `rt check`, which goes over what the change reaches. One that the
//! definitions themselves do not take (a name or a type that does not fit) is counted apart. Changes that say the same are in the file `equal`,
//! each with the reason why no input tells the two apart; they are left out. Exit status 1 if one was not refused.

#![forbid(unsafe_code)]

mod copy;
mod definitions;
mod disk;
mod edits;
mod imports;
mod layout;
mod names;
mod options;
mod rules;
mod subject;
mod tokens;
mod trial;
mod wrong;

use copy::Verdict;
use definitions::File;
use disk::read;
use options::Options;
use std::collections::BTreeSet;
use std::fs;
use std::path::{Path, PathBuf};
use std::process::ExitCode;
use subject::Subject;
use trial::Trial;
use wrong::Wrong;

/// The files of definitions, but for the lists of modules.
fn spec_files(repository: &Path) -> Result<Vec<File>, String> {
    let mut files = Vec::new();
    for dir in Subject::ALL.iter().flat_map(|s| s.specs()) {
        let path = repository.join("crates").join(dir);
        let entries = fs::read_dir(&path).map_err(|e| format!("{}: {e}", path.display()))?;
        let mut names: Vec<String> = entries
            .flatten()
            .map(|e| e.file_name().to_string_lossy().to_string())
            .collect();
        names.sort();
        for name in names
            .iter()
            .filter(|n| n.ends_with(".antt") && *n != "Lib.antt")
        {
            files.push(File::new(&format!("{dir}/{name}"), read(&path.join(name))?));
        }
    }
    Ok(files)
}

/// The counts, and the definitions that no well-typed change was made of.
fn report(wrong: &[Wrong], verdicts: &[Verdict], files: &[File], o: &Options) -> ExitCode {
    let count = |v: Verdict| verdicts.iter().filter(|x| **x == v).count();
    let typed: BTreeSet<(&str, &str)> = wrong
        .iter()
        .zip(verdicts)
        .filter(|(_, v)| **v != Verdict::NotTyped)
        .map(|(w, _)| (w.file.as_str(), w.definition.as_str()))
        .collect();
    for file in files.iter().filter(|_| o.part.1 == 1) {
        for d in file
            .definitions
            .iter()
            .filter(|d| o.selects(&file.name, &d.name))
        {
            if !typed.contains(&(file.name.as_str(), d.name.as_str())) {
                println!(
                    "no wrong definition of it is well typed: {} {}",
                    file.name, d.name
                );
            }
        }
    }
    let tried = verdicts.len() - count(Verdict::NotTyped);
    println!(
        "tried {tried}, refused {}, accepted {}, not ended {}; not well typed {}",
        count(Verdict::Refused),
        count(Verdict::Accepted),
        count(Verdict::NotEnded),
        count(Verdict::NotTyped)
    );
    ExitCode::from(u8::from(count(Verdict::Refused) < tried))
}

fn run() -> Result<ExitCode, String> {
    let o = Options::read()?;
    let package = PathBuf::from(env!("CARGO_MANIFEST_DIR"));
    let repository = package
        .join("../..")
        .canonicalize()
        .map_err(|e| e.to_string())?;
    let files = spec_files(&repository)?;
    let names = names::all_names(&repository, &files)?;
    let mut all = wrong::by_rule(&files, &names);
    all.extend(wrong::by_hand(
        &files,
        &edits::read(&read(&package.join("list"))?)?,
    )?);
    let equal = edits::read(&read(&package.join("equal"))?)?;
    let mut wrong = wrong::without_equal(all, &files, &equal)?;
    wrong.retain(|w| o.selects(&w.file, &w.definition));
    let (k, n) = o.part;
    let wrong: Vec<Wrong> = wrong.into_iter().skip(k - 1).step_by(n).collect();
    eprintln!(
        "{} wrong definitions, {} equal ones left out",
        wrong.len(),
        equal.len()
    );
    if o.show {
        wrong.iter().for_each(|w| println!("{w}"));
        return Ok(ExitCode::SUCCESS);
    }
    let trial = Trial {
        wrong: &wrong,
        files: &files,
        names: &names,
        repository: &repository,
    };
    let verdicts = trial.verdicts(&o)?;
    Ok(report(&wrong, &verdicts, &files, &o))
}

fn main() -> ExitCode {
    run().unwrap_or_else(|e| {
        eprintln!("{e}");
        ExitCode::from(2)
    })
}

#[cfg(test)]
mod tests {
    use super::*;

    fn package() -> &'static Path {
        Path::new(env!("CARGO_MANIFEST_DIR"))
    }

    fn edits_of(name: &str) -> Vec<edits::Edit> {
        let found = edits::read(&read(&package().join(name)).unwrap()).unwrap();
        assert!(!found.is_empty(), "{name}");
        found
    }

    #[test]
    fn each_text_of_list_and_equal_stands_once() {
        let files = spec_files(&package().join("../..")).unwrap();
        let mut astray = Vec::new();
        for name in ["list", "equal"] {
            let edits = edits_of(name);
            let errors = edits.iter().filter_map(|e| e.apply(&files).err());
            astray.extend(errors.map(|e| format!("{name}: {e}")));
        }
        assert!(astray.is_empty(), "{}", astray.join("\n"));
    }

    #[test]
    fn each_equal_one_is_made_by_a_rule() {
        let repository = package().join("../..");
        let files = spec_files(&repository).unwrap();
        let names = names::all_names(&repository, &files).unwrap();
        let made = wrong::by_rule(&files, &names);
        let left = wrong::without_equal(made, &files, &edits_of("equal"));
        assert!(left.is_ok(), "{}", left.err().unwrap_or_default());
    }
}
