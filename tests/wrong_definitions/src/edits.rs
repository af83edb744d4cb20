//! Changes written by hand: blocks of lines with a blank line between, words compared and not spaces.
//!
//!     file: model/specs/Site.antt
//!     definition: kind
//!     old: field 0 1 s
//!     new: field 1 1 s
//!     why: needed where the change is said to be equal
//!
//! `old` stands once in the definition, or in the file where none is named. A block can have several pairs of old and new.

use crate::definitions::File;
use crate::tokens::tokens;

/// One block.
#[derive(Default)]
pub struct Edit {
    pub file: String,
    pub definition: String,
    pub pairs: Vec<(String, String)>,
    pub why: String,
}

pub fn read(text: &str) -> Result<Vec<Edit>, String> {
    let code = text
        .lines()
        .filter(|l| !l.starts_with('#'))
        .collect::<Vec<_>>()
        .join("\n");
    code.split("\n\n")
        .filter(|b| !b.trim().is_empty())
        .map(block)
        .collect()
}

fn block(text: &str) -> Result<Edit, String> {
    let mut edit = Edit::default();
    for line in text.lines().filter(|l| !l.is_empty()) {
        let (key, value) = line
            .split_once(": ")
            .ok_or(format!("not a line of an edit: {line}"))?;
        match key {
            "file" => edit.file = value.to_string(),
            "definition" => edit.definition = value.to_string(),
            "old" => edit.pairs.push((value.to_string(), String::new())),
            "new" => {
                edit.pairs
                    .last_mut()
                    .ok_or(format!("no old before: {line}"))?
                    .1 = value.to_string()
            }
            "why" => edit.why = value.to_string(),
            _ => return Err(format!("not a line of an edit: {line}")),
        }
    }
    Ok(edit)
}

impl Edit {
    /// The text of the file with the edit made.
    pub fn apply(&self, files: &[File]) -> Result<String, String> {
        let file = files
            .iter()
            .find(|f| f.name == self.file)
            .ok_or(format!("no file {}", self.file))?;
        let mut text = file.text.clone();
        for (old, new) in &self.pairs {
            let changed = File::new(&self.file, text.clone());
            let (from, to) = self.range(&changed)?;
            let (start, end) = place(&text, from, to, old).ok_or(format!(
                "{} {}: not once there: {old}",
                self.file, self.definition
            ))?;
            text.replace_range(start..end, new);
        }
        Ok(text)
    }

    fn range(&self, file: &File) -> Result<(usize, usize), String> {
        if self.definition.is_empty() {
            return Ok((0, file.text.len()));
        }
        let found = file.definitions.iter().find(|d| d.name == self.definition);
        found
            .map(|d| (d.start, d.end))
            .ok_or(format!("no definition {}", self.definition))
    }
}

/// Where the words of `old` stand in `text[from..to]`, if they do so once.
fn place(text: &str, from: usize, to: usize, old: &str) -> Option<(usize, usize)> {
    let there = tokens(text, from, to);
    let wanted = tokens(old, 0, old.len());
    let fits = |at: &usize| {
        there[*at..]
            .iter()
            .zip(&wanted)
            .all(|(a, b)| a.text == b.text)
    };
    let mut places = (0..(there.len() + 1).saturating_sub(wanted.len())).filter(fits);
    let first = places.next()?;
    if places.next().is_some() {
        return None;
    }
    Some((there[first].start, there[first + wanted.len() - 1].end))
}

#[cfg(test)]
mod tests {
    use super::*;

    #[test]
    fn an_edit_is_made_where_it_fits_once() {
        let text = "abbrev pub a : ℕ\na = f 0\n    (g 1)\n\nabbrev pub b : ℕ\nb = f 0\n";
        let files = [File::new("x", text.to_string())];
        let edit = &read("# a note\nfile: x\ndefinition: a\nold: f 0 (g 1)\nnew: f 2\nwhy: no\n")
            .unwrap()[0];
        assert_eq!(
            edit.apply(&files).unwrap(),
            "abbrev pub a : ℕ\na = f 2\n\nabbrev pub b : ℕ\nb = f 0\n"
        );
        assert!(read("file: x\nold: f 0\nnew: f 1\n").unwrap()[0]
            .apply(&files)
            .is_err());
    }
}
