//! docs/PROMISES.md names every must-fail edit, and none that is not there; each statement of its tables is
//! the type of a theorem that is named beside it, in a file that is named there.

use std::collections::BTreeSet;
use std::fs;
use std::path::{Path, PathBuf};

/// Fewer rows would mean that the document is read wrongly.
const FEWEST_STATEMENTS: usize = 20;

/// What a table's last column or a sentence begins with where it names edits.
const GUARDED: &str = "Guarded by";

fn repository(path: &str) -> PathBuf {
    let root = Path::new(env!("CARGO_MANIFEST_DIR")).join("../..");
    root.join(path)
}

fn names_in(directory: &Path) -> Vec<String> {
    let files = fs::read_dir(directory).into_iter().flatten();
    let names = files.map(|file| file.expect("a file").file_name());
    names
        .map(|name| name.into_string().expect("text"))
        .collect()
}

/// Every edit, as `crate/edit`.
fn edits() -> BTreeSet<String> {
    let mut edits = BTreeSet::new();
    for name in names_in(&repository("crates")) {
        for file in names_in(&repository("crates").join(&name).join("must-fail")) {
            let edit = file.strip_suffix(".edit").expect("an edit");
            edits.insert(format!("{name}/{edit}"));
        }
    }
    edits
}

/// The words between backquotes.
fn quoted(text: &str) -> impl Iterator<Item = &str> {
    text.split('`').skip(1).step_by(2)
}

/// The last cell of a table's row.
fn last_cell(row: &str) -> &str {
    let cells = row.trim_matches('|');
    cells.rsplit('|').next().unwrap_or(cells).trim()
}

/// The cells of a table's row.
fn cells(row: &str) -> Vec<&str> {
    let cells = row.trim_matches('|').split('|');
    cells.map(str::trim).collect()
}

/// The rows of the tables whose third column has proofs, each with the crate that the table's head names.
fn proved(document: &str) -> Vec<(&str, Vec<&str>)> {
    let mut found = Vec::new();
    for block in document.split("\n\n") {
        let mut rows = block.lines().filter(|line| line.starts_with('|'));
        let Some(head) = rows.next() else {
            continue;
        };
        if cells(head)
            .get(2)
            .is_some_and(|cell| cell.starts_with("Proof"))
        {
            let mut words = quoted(head).filter_map(|word| word.strip_prefix("crates/"));
            let (name, _) = words
                .next()
                .and_then(|word| word.split_once('/'))
                .expect("a crate");
            found.extend(rows.skip(1).map(|row| (name, cells(row))));
        }
    }
    found
}

/// The theorems of a file of proofs, each with its statement without the name of a module.
fn theorems(path: &str) -> Vec<(String, String)> {
    let text = fs::read_to_string(repository(path)).unwrap_or_else(|e| panic!("{path}: {e}"));
    let lines = text.lines().filter_map(|line| line.strip_prefix("pub "));
    let pairs = lines.filter_map(|line| line.split_once(" : "));
    pairs
        .map(|(name, statement)| {
            let statement = statement.rsplit('.').next().unwrap_or(statement);
            (name.to_owned(), statement.to_owned())
        })
        .collect()
}

/// The parts of a document that name edits: the cells under such a head, and such sentences. A blank
/// line ends a table or a paragraph.
fn guarding(document: &str) -> Vec<String> {
    let mut parts = Vec::new();
    for block in document.split("\n\n") {
        let mut rows = block.lines().filter(|line| line.starts_with('|'));
        if rows
            .next()
            .is_some_and(|head| last_cell(head).starts_with(GUARDED))
        {
            parts.extend(rows.map(|row| last_cell(row).to_owned()));
            continue;
        }
        let paragraph = block.replace('\n', " ");
        let sentences = paragraph
            .split(". ")
            .filter_map(|sentence| sentence.split_once(GUARDED));
        parts.extend(sentences.map(|(_, names)| names.to_owned()));
    }
    parts
}

/// The edit that a word names, with its crate or alone.
fn named<'a>(word: &str, edits: &'a BTreeSet<String>) -> &'a String {
    let ends = |edit: &&String| {
        *edit == word || edit.split_once('/').is_some_and(|(_, name)| name == word)
    };
    let mut found = edits.iter().filter(ends);
    let edit = found
        .next()
        .unwrap_or_else(|| panic!("there is no edit {word}"));
    assert_eq!(found.next(), None, "{word} is two edits");
    edit
}

#[test]
fn every_edit_is_named_and_every_name_is_an_edit() {
    let document = fs::read_to_string(repository("docs/PROMISES.md")).expect("the promises");
    let edits = edits();
    let parts = guarding(&document);
    let guards: BTreeSet<&String> = parts
        .iter()
        .flat_map(|part| quoted(part))
        .map(|word| named(word, &edits))
        .collect();
    let unnamed: Vec<&String> = edits.iter().filter(|edit| !guards.contains(edit)).collect();
    assert!(unnamed.is_empty(), "not in docs/PROMISES.md: {unnamed:?}");
    assert!(!guards.is_empty(), "no edit");
}

/// Elsewhere an edit is named with its crate.
#[test]
fn every_edit_named_with_its_crate_is_there() {
    let document = fs::read_to_string(repository("docs/PROMISES.md")).expect("the promises");
    let crates = BTreeSet::from_iter(names_in(&repository("crates")));
    let edits = edits();
    let of_a_crate = |word: &&str| {
        word.split_once('/')
            .is_some_and(|(name, _)| crates.contains(name))
    };
    let words: Vec<&str> = quoted(&document).filter(of_a_crate).collect();
    assert!(!words.is_empty(), "no edit is named with its crate");
    for word in words {
        assert!(edits.contains(word), "there is no edit {word}");
    }
}

#[test]
fn every_statement_has_the_theorem_that_is_named_beside_it() {
    let document = fs::read_to_string(repository("docs/PROMISES.md")).expect("the promises");
    let rows = proved(&document);
    assert!(rows.len() >= FEWEST_STATEMENTS, "only {} rows", rows.len());
    for (name, row) in rows {
        let is_file = |word: &&str| word.ends_with(".antt");
        let (files, named): (Vec<&str>, Vec<&str>) = quoted(row[2]).partition(is_file);
        let path_of = |file: &&str| match file.strip_prefix("proofs/").unwrap_or(file) {
            file if file.starts_with("crates/") => file.to_owned(),
            file => format!("crates/{name}/proofs/{file}"),
        };
        let there: Vec<(String, String)> = files
            .iter()
            .flat_map(|file| theorems(&path_of(file)))
            .collect();
        for theorem in &named {
            let is_there = there.iter().any(|(name, _)| name == theorem);
            assert!(is_there, "there is no theorem {theorem} in {files:?}");
        }
        for statement in quoted(row[0]) {
            let proves = |(name, of): &&(String, String)| {
                of == statement && (named.is_empty() || named.contains(&name.as_str()))
            };
            let theorem = there.iter().find(proves);
            assert!(
                theorem.is_some(),
                "no theorem is of {statement} in {files:?}"
            );
        }
    }
}
