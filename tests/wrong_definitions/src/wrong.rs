//! The wrong definitions: by rule, by hand, less the equal ones.

use crate::definitions::{Definition, File};
use crate::edits::Edit;
use crate::names::AllNames;
use crate::rules;
use crate::subject::Subject;
use crate::tokens::plain;
use std::collections::BTreeSet;

/// A wrong definition: what is shown of it, and its file's text.
pub struct Wrong {
    pub file: String,
    pub definition: String,
    pub old: String,
    pub new: String,
    pub text: String,
}

impl std::fmt::Display for Wrong {
    fn fmt(&self, f: &mut std::fmt::Formatter) -> std::fmt::Result {
        let Wrong {
            file,
            definition,
            old,
            new,
            ..
        } = self;
        writeln!(
            f,
            "file: {file}\ndefinition: {definition}\nold: {old}\nnew: {new}"
        )
    }
}

/// The lines of a change before and after, widened until they stand once in the definition.
fn shown(file: &File, d: &Definition, change: &rules::Change) -> (String, String) {
    let text = &file.text;
    let (mut start, mut end) = (change.start, change.end);
    let line_start = |at: usize| text[..at].rfind('\n').map_or(0, |n| n + 1);
    let line_end = |at: usize| text[at..].find('\n').map_or(text.len(), |n| at + n);
    (start, end) = (line_start(start), line_end(end));
    while plain(&text[d.start..d.end])
        .matches(&plain(&text[start..end]))
        .count()
        > 1
    {
        if start > d.start {
            start = line_start(start - 1);
        } else {
            end = line_end((end + 1).min(d.end));
        }
    }
    let new = format!(
        "{}{}{}",
        &text[start..change.start],
        change.text,
        &text[change.end..end]
    );
    (plain(&text[start..end]), plain(&new))
}

/// Those that the rules make.
pub fn by_rule(files: &[File], names: &AllNames) -> Vec<Wrong> {
    let mut found = Vec::new();
    for file in files {
        let names = &names[&Subject::of(&file.name)];
        for d in &file.definitions {
            for change in rules::changes(file, d, names) {
                let (old, new) = shown(file, d, &change);
                let mut text = file.text.clone();
                text.replace_range(change.start..change.end, &change.text);
                found.push(Wrong {
                    file: file.name.clone(),
                    definition: d.name.clone(),
                    old,
                    new,
                    text,
                });
            }
        }
    }
    found
}

/// Those that are written by hand.
pub fn by_hand(files: &[File], edits: &[Edit]) -> Result<Vec<Wrong>, String> {
    let made = |e: &Edit| {
        let (old, new): (Vec<String>, Vec<String>) = e.pairs.iter().cloned().unzip();
        let text = e.apply(files)?;
        Ok(Wrong {
            file: e.file.clone(),
            definition: e.definition.clone(),
            old: old.join(" .. "),
            new: new.join(" .. "),
            text,
        })
    };
    edits.iter().map(made).collect()
}

/// The equal ones taken out of `all`, each change once. An equal one that no rule makes is an error.
pub fn without_equal(
    all: Vec<Wrong>,
    files: &[File],
    equal: &[Edit],
) -> Result<Vec<Wrong>, String> {
    let mut left_out = BTreeSet::new();
    let made: BTreeSet<(String, String)> = all
        .iter()
        .map(|w| (w.file.clone(), plain(&w.text)))
        .collect();
    for edit in equal {
        let text = (edit.file.clone(), plain(&edit.apply(files)?));
        let named = format!("{} {}: {:?}", edit.file, edit.definition, edit.pairs);
        if edit.why.is_empty() {
            return Err(format!("equal, without a reason: {named}"));
        }
        if !made.contains(&text) {
            return Err(format!("equal, and not made by a rule: {named}"));
        }
        left_out.insert(text);
    }
    Ok(all
        .into_iter()
        .filter(|w| left_out.insert((w.file.clone(), plain(&w.text))))
        .collect())
}

/// The words of a wrong definition that its file does not have as it stands: names to bring in.
pub fn added(w: &Wrong, files: &[File]) -> String {
    let before = files
        .iter()
        .find(|f| f.name == w.file)
        .map_or(String::new(), |f| plain(&f.text));
    let known: BTreeSet<&str> = before.split(' ').collect();
    let now = plain(&w.text);
    now.split(' ')
        .filter(|t| !known.contains(t))
        .collect::<Vec<_>>()
        .join(" ")
}
