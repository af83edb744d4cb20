//! The definitions of a file of specs, and what the rules ask about names.

use crate::tokens::{tokens, Token};
use std::collections::BTreeMap;

/// A file of definitions; `name` is as `model/specs/Site.antt`.
pub struct File {
    pub name: String,
    pub text: String,
    pub definitions: Vec<Definition>,
}

/// A definition: its body is the lines below the one with its type.
#[derive(Clone, Debug)]
pub struct Definition {
    pub name: String,
    pub signature: String,
    pub indent: usize,
    pub start: usize,
    pub end: usize,
}

/// One clause of a definition: the words before its `=` and those after.
pub struct Clause<'a> {
    pub head: Vec<Token<'a>>,
    pub body: Vec<Token<'a>>,
}

const STARTS: [&str; 3] = ["abbrev pub ", "unfoldable pub ", "pub record "];

impl File {
    pub fn new(name: &str, text: String) -> File {
        let definitions = definitions(&text);
        File {
            name: name.to_string(),
            text,
            definitions,
        }
    }
}

fn definitions(text: &str) -> Vec<Definition> {
    let mut found: Vec<Definition> = Vec::new();
    let mut open = false;
    let mut at = 0;
    for line in text.split_inclusive('\n') {
        let next = at + line.len();
        let word = line.trim_start();
        let indent = line.len() - word.len();
        // A comment among the fields of a record does not end it.
        let within = found.last().is_some_and(|d| indent > d.indent);
        let start = STARTS.iter().find_map(|s| word.strip_prefix(s));
        if let Some(rest) = start {
            found.push(begun(rest, indent, next));
            open = true;
        } else if word.is_empty() || (word.starts_with("--") && !within) {
            open = false;
        } else if open && !word.starts_with("--") {
            found.last_mut().expect("a definition is open").end = next;
        }
        at = next;
    }
    found
}

fn begun(rest: &str, indent: usize, at: usize) -> Definition {
    let name = rest
        .split_whitespace()
        .next()
        .unwrap_or_default()
        .to_string();
    let signature = rest
        .split_once(" : ")
        .map_or("", |(_, s)| s)
        .trim()
        .to_string();
    Definition {
        name,
        signature,
        indent,
        start: at,
        end: at,
    }
}

impl Definition {
    /// The clauses; of a record, its lines as one clause without a head.
    pub fn clauses<'a>(&self, text: &'a str) -> Vec<Clause<'a>> {
        let mut found: Vec<Clause> = Vec::new();
        let mut in_head = false;
        for token in tokens(text, self.start, self.end) {
            if token.indent == Some(self.indent) || found.is_empty() {
                in_head = token.indent == Some(self.indent);
                found.push(Clause {
                    head: Vec::new(),
                    body: Vec::new(),
                });
            }
            let clause = found.last_mut().expect("a clause is open");
            if !in_head {
                clause.body.push(token);
            } else if token.text == "=" {
                in_head = false;
            } else {
                clause.head.push(token);
            }
        }
        found
    }

    /// The types of its arguments and, last, of its value.
    pub fn types(&self) -> Vec<String> {
        let mut types = vec![String::new()];
        let mut depth = 0;
        for token in tokens(&self.signature, 0, self.signature.len()) {
            match token.text {
                "(" | "{" => depth += 1,
                ")" | "}" => depth -= 1,
                "→" if depth == 0 => {
                    types.push(String::new());
                    continue;
                }
                _ => {}
            }
            let last = types.last_mut().expect("there is a type");
            last.push_str(token.text);
            last.push(' ');
        }
        types.iter().map(|t| t.trim().to_string()).collect()
    }
}

impl Clause<'_> {
    /// The arguments that are plain names, with their types.
    pub fn parameters(&self, types: &[String]) -> BTreeMap<String, String> {
        let mut found = BTreeMap::new();
        let mut i = 1;
        let mut place = 0;
        while let Some(end) = crate::tokens::argument_end(&self.head, i) {
            if end == i + 1 && place + 1 < types.len() {
                found.insert(self.head[i].text.to_string(), types[place].clone());
            }
            place += 1;
            i = end;
        }
        found
    }
}

#[cfg(test)]
mod tests {
    use super::*;

    #[test]
    fn bodies_clauses_and_parameters() {
        let text = "-- why\nunfoldable pub f : ℕ → List ℕ → ℕ → Bool\nf a [] b = true\nf a (x ∷ s) b =\n    g a\n\nabbrev pub c : ℕ\nc = 1\n";
        let file = File::new("f", text.to_string());
        assert_eq!(file.definitions.len(), 2);
        let f = &file.definitions[0];
        let clauses = f.clauses(text);
        assert_eq!(clauses.len(), 2);
        assert_eq!(clauses[1].body[0].text, "g");
        assert_eq!(f.types(), ["ℕ", "List ℕ", "ℕ", "Bool"]);
        let parameters = clauses[1].parameters(&f.types());
        assert_eq!(parameters.keys().collect::<Vec<_>>(), ["a", "b"]);
        assert_eq!(parameters["a"], parameters["b"]);
    }
}
