//! Names that can stand for one another, of each subject: fields of one type in one struct, constants of one family, variants of one enum,
//! definitions of one type in one file.

use crate::definitions::File;
use crate::disk::read;
use crate::subject::{Subject, NUMBERS};
use std::collections::BTreeMap;
use std::path::Path;

/// The names of each subject.
pub type AllNames = BTreeMap<Subject, Names>;

/// For each name the one to try in its place.
#[derive(Default)]
pub struct Names {
    fields: BTreeMap<String, Vec<String>>,
    constants: BTreeMap<String, String>,
    zeros: Vec<String>,
    variants: BTreeMap<String, String>,
    enums: BTreeMap<String, String>,
    definitions: BTreeMap<(String, String), String>,
}

/// From the files of definitions and the code of each subject.
pub fn all_names(repository: &Path, files: &[File]) -> Result<AllNames, String> {
    let of = |subject: Subject| {
        let code = read(&repository.join("crates").join(subject.code()))?;
        let named = |f: &&File| Subject::of(&f.name) == subject || f.name == NUMBERS;
        let files: Vec<&File> = files.iter().filter(named).collect();
        Ok((subject, Names::new(&files, &code)))
    };
    Subject::ALL.into_iter().map(of).collect()
}

impl Names {
    /// From files of definitions, and code with structs and enums.
    pub fn new(files: &[&File], code: &str) -> Names {
        let mut names = Names::default();
        for (name, items) in declared(code) {
            names.add_declared(&name, &items);
        }
        for file in files {
            names.add_records(file);
            names.add_definitions(file);
            if file.name.ends_with("Numbers.antt") {
                names.add_constants(file);
            }
        }
        names
    }

    pub fn siblings(&self, field: &str) -> &[String] {
        self.fields.get(field).map_or(&[], |v| v)
    }

    pub fn constant(&self, name: &str) -> Option<&String> {
        self.constants.get(name)
    }

    pub fn is_zero(&self, word: &str) -> bool {
        word == "0"
            || self
                .zeros
                .iter()
                .any(|z| z == word.trim_start_matches("n."))
    }

    pub fn variant(&self, name: &str) -> Option<&String> {
        self.variants.get(name)
    }

    /// The enum of a variant.
    pub fn enum_of(&self, variant: &str) -> Option<&String> {
        self.enums.get(variant)
    }

    pub fn definition(&self, file: &str, name: &str) -> Option<&String> {
        self.definitions.get(&(file.to_string(), name.to_string()))
    }

    fn add_declared(&mut self, name: &str, items: &[(String, String)]) {
        let is_enum = items.iter().all(|(_, t)| t.is_empty());
        if !is_enum {
            return self.add_fields(items);
        }
        let variants: Vec<&String> = items.iter().map(|(n, _)| n).collect();
        for (i, v) in variants.iter().enumerate() {
            self.variants
                .insert(v.to_string(), variants[(i + 1) % variants.len()].clone());
            self.enums.insert(v.to_string(), name.to_string());
        }
    }

    fn add_fields(&mut self, fields: &[(String, String)]) {
        for (i, (name, kind)) in fields.iter().enumerate() {
            let others = fields[i + 1..].iter().chain(&fields[..i]);
            let Some((sibling, _)) = others.clone().find(|(_, k)| k == kind) else {
                continue;
            };
            let siblings = self.fields.entry(name.clone()).or_default();
            if !siblings.contains(sibling) {
                siblings.push(sibling.clone());
            }
        }
    }

    fn add_records(&mut self, file: &File) {
        for d in &file.definitions {
            let lines = file.text[d.start..d.end].lines();
            let fields: Vec<(String, String)> = lines
                .filter_map(|l| l.trim().strip_prefix("pub ")?.split_once(" : "))
                .map(|(n, t)| (n.to_string(), t.to_string()))
                .collect();
            self.add_fields(&fields);
        }
    }

    fn add_definitions(&mut self, file: &File) {
        let ds = &file.definitions;
        if file.name.ends_with("Numbers.antt") {
            return;
        }
        for (i, d) in ds.iter().enumerate() {
            let mut others = ds[i + 1..].iter().chain(&ds[..i]);
            if let Some(other) =
                others.find(|o| o.signature == d.signature && d.signature != "Type 0")
            {
                self.definitions
                    .insert((file.name.clone(), d.name.clone()), other.name.clone());
            }
        }
    }

    fn add_constants(&mut self, file: &File) {
        let all: Vec<&str> = file.definitions.iter().map(|d| d.name.as_str()).collect();
        for (i, d) in file.definitions.iter().enumerate() {
            let mut others = all[i + 1..].iter().chain(&all[..i]);
            let family = others.clone().find(|o| family(o) == family(&d.name));
            let other = family.or_else(|| others.next());
            self.constants
                .insert(d.name.clone(), other.expect("two constants").to_string());
            if file.text[d.start..d.end].trim_end().ends_with("= 0") {
                self.zeros.push(d.name.clone());
            }
        }
    }
}

fn family(constant: &str) -> &str {
    if constant.ends_with("_size") {
        return "size";
    }
    match constant.split('_').next().unwrap_or(constant) {
        "authentication" => "access",
        first => first,
    }
}

type Items = Vec<(String, String)>;

/// The structs with their fields and types (numbers of all widths are one type), the enums with their variants.
fn declared(code: &str) -> Vec<(String, Items)> {
    let mut found: Vec<(String, Items)> = Vec::new();
    let mut open = false;
    for line in code.lines() {
        let word = line.trim();
        let start = word
            .strip_prefix("pub struct ")
            .or(word.strip_prefix("pub enum "));
        if let Some(name) = start.and_then(|s| s.strip_suffix(" {")) {
            found.push((name.to_string(), Vec::new()));
            open = true;
        } else if word == "}" {
            open = false;
        } else if open && word.ends_with(',') {
            let item = word.trim_start_matches("pub ").trim_end_matches(',');
            let (name, kind) = item.split_once(": ").unwrap_or((item, ""));
            let number = ["u8", "u16", "u32", "u64", "usize"].contains(&kind);
            let kind = if number { "number" } else { kind };
            found
                .last_mut()
                .expect("an item is open")
                .1
                .push((name.to_string(), kind.to_string()));
        }
    }
    found
}

#[cfg(test)]
mod tests {
    use super::*;

    #[test]
    fn siblings_have_one_type() {
        let code = "pub struct S {\n    pub a: u8,\n    pub b: bool,\n    pub c: u32,\n}\npub enum E {\n    X,\n    Y,\n}\n";
        let numbers = "abbrev pub role_a : ℕ\nrole_a = 0\n\nabbrev pub b : ℕ\nb = 1\n\nabbrev pub role_c : ℕ\nrole_c = 2\n";
        let names = Names::new(&[&File::new("Numbers.antt", numbers.to_string())], code);
        assert_eq!(names.siblings("a"), ["c"]);
        assert!(names.siblings("b").is_empty());
        assert_eq!(names.variant("Y").unwrap(), "X");
        assert_eq!(names.constant("role_a").unwrap(), "role_c");
        assert!(names.is_zero("n.role_a") && !names.is_zero("b"));
    }
}
