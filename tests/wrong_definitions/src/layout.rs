//! What a working copy is made of.
//!
//! Of document 01: the crate `octets` with its definitions alone, and a crate `model` with the definitions and, as its proofs, the cases. They
//! stand in one crate so that one check, which goes over what a change reaches, tries it. A copy for statements has the proofs of the crate
//! `model` instead.
//!
//! Of the 26-bit readers: the crates `octets` and `model` as they stand, and a crate `wiegand` with the types, the definitions and the cases. A
//! copy for statements has the theorems' proofs too.

use crate::disk::{copy_dir, read, write};
use crate::subject::Subject;
use std::collections::BTreeMap;
use std::path::Path;

/// What a copy has as proofs: all cases, or the proofs of the crate, the theorems' among them.
#[derive(Clone, Copy, PartialEq, Eq, PartialOrd, Ord)]
pub enum Proofs {
    Cases,
    Theorems,
}

/// The kind of a working copy.
#[derive(Clone, Copy, PartialEq, Eq, PartialOrd, Ord)]
pub struct Layout {
    pub subject: Subject,
    pub proofs: Proofs,
}

impl Layout {
    /// The name of a copy's directory.
    pub fn directory(self, job: usize) -> String {
        let proofs = match self.proofs {
            Proofs::Cases => "cases",
            Proofs::Theorems => "theorems",
        };
        format!("{}-{proofs}{job}", self.subject.name())
    }

    /// Writes what every change is tried in, but for the modules of cases.
    pub fn write(self, repository: &Path, root: &Path) -> Result<(), String> {
        let from = |path: &str| repository.join("crates").join(path);
        let to = |path: &str| root.join("crates").join(path);
        write(&root.join("crates.txt"), self.crates())?;
        for dir in self.directories() {
            copy_dir(&from(dir), &to(dir))?;
        }
        if let Some((file, code)) = self.code(repository)? {
            write(&to(file), &code)?;
        }
        for name in self.base() {
            let file = format!("{}/proofs/{name}.antt", self.subject.name());
            write(&to(&file), &read(&from(&file))?)?;
        }
        Ok(())
    }

    /// The modules of cases, by name, as they stand in the crate that is checked.
    pub fn cases(self, repository: &Path) -> Result<BTreeMap<String, String>, String> {
        let from = |path: &str| repository.join("crates").join(path);
        let own = format!("{}/proofs", self.subject.name());
        let mut cases = modules(&from(&own), &|name| self.has(name))?;
        if self.subject == Subject::Model {
            if self.proofs == Proofs::Cases {
                cases.extend(modules(&from("cases/proofs"), &|_| true)?);
            }
            cases.values_mut().for_each(|text| *text = in_model(text));
        }
        Ok(cases)
    }

    /// The modules of proofs that the cases rest on.
    pub fn base(self) -> &'static [&'static str] {
        match self.subject {
            Subject::Model => &["Open", "Build", "Parts"],
            Subject::Wiegand => &[],
        }
    }

    /// Whether a module of the crate's proofs is tried as a case.
    fn has(self, module: &str) -> bool {
        let computed: &[&str] = match self.subject {
            Subject::Model => &["Cases", "Applied", "Premises"],
            Subject::Wiegand => &["Cases", "Door"],
        };
        let wanted = self.proofs == Proofs::Theorems || computed.contains(&module);
        wanted && !self.base().contains(&module)
    }

    fn crates(self) -> &'static str {
        match self.subject {
            Subject::Model => "octets:\nmodel: octets\n",
            Subject::Wiegand => "octets:\nmodel: octets\nwiegand: octets model\n",
        }
    }

    /// The directories that are copied as they stand.
    fn directories(self) -> &'static [&'static str] {
        match (self.subject, self.proofs) {
            (Subject::Model, Proofs::Cases) => &["octets/specs", "model/src", "model/specs"],
            (Subject::Model, Proofs::Theorems) => &[
                "octets/src",
                "octets/specs",
                "octets/proofs",
                "model/src",
                "model/specs",
            ],
            (Subject::Wiegand, _) => &[
                "octets/src",
                "octets/specs",
                "octets/proofs",
                "model/src",
                "model/specs",
                "model/proofs",
                "wiegand/specs",
            ],
        }
    }

    /// The file of code that is not copied as it stands, without functions.
    fn code(self, repository: &Path) -> Result<Option<(&'static str, String)>, String> {
        match (self.subject, self.proofs) {
            (Subject::Model, Proofs::Cases) => Ok(Some((
                "octets/src/lib.rt",
                "// Definitions alone.\n".to_string(),
            ))),
            (Subject::Model, Proofs::Theorems) => Ok(None),
            (Subject::Wiegand, _) => {
                let file = "wiegand/src/lib.rt";
                let code = read(&repository.join("crates").join(file))?;
                Ok(Some((file, without_modules(&code))))
            }
        }
    }
}

/// The modules of a directory of proofs that pass a test, by name.
fn modules(
    directory: &Path,
    test: &dyn Fn(&str) -> bool,
) -> Result<BTreeMap<String, String>, String> {
    let list = read(&directory.join("Lib.antt"))?;
    let names = list.lines();
    let names = names.filter_map(|l| l.trim_start_matches("pub ").strip_prefix("mod "));
    names
        .filter(|name| test(name))
        .map(|name| {
            let text = read(&directory.join(format!("{name}.antt")))?;
            Ok((name.to_string(), text))
        })
        .collect()
}

/// A file of cases with the names that its modules have within the crate `model`.
fn in_model(text: &str) -> String {
    text.replace("Rattle.cases.proofs.", "Rattle.model.proofs.")
}

/// Code without the modules that it names.
fn without_modules(code: &str) -> String {
    code.split_inclusive('\n')
        .filter(|line| !line.starts_with("pub mod "))
        .collect()
}

#[cfg(test)]
mod tests {
    use super::*;

    const READERS: Layout = Layout {
        subject: Subject::Wiegand,
        proofs: Proofs::Cases,
    };

    #[test]
    fn theorems_are_in_a_copy_for_statements_alone() {
        let statements = Layout {
            proofs: Proofs::Theorems,
            ..READERS
        };
        assert!(READERS.has("Door") && !READERS.has("Written"));
        assert!(statements.has("Door") && statements.has("Written"));
        assert_ne!(READERS.directory(0), statements.directory(0));
    }

    #[test]
    fn code_without_functions() {
        let code = "// why\n\npub mod read; // the way there\n\npub enum E {\n    X,\n}\n";
        assert_eq!(
            without_modules(code),
            "// why\n\n\npub enum E {\n    X,\n}\n"
        );
    }
}
