//! A working copy, in which wrong definitions are tried one after the other.

use crate::disk::{failed, read, write};
use crate::layout::Layout;
use std::collections::{BTreeMap, BTreeSet};
use std::fs;
use std::os::unix::process::CommandExt;
use std::path::{Path, PathBuf};
use std::process::{Command, Stdio};
use std::time::{Duration, Instant};

/// What became of a wrong definition.
#[derive(Clone, Copy, Debug, PartialEq, Eq)]
pub enum Verdict {
    Refused,
    Accepted,
    NotTyped,
    NotEnded,
}

const LIMIT: Duration = Duration::from_secs(120);

/// What a check may use, in KiB; each of its threads reserves 1 GiB for its stack.
const MEMORY: u32 = 12_000_000;

/// The status of a check that refuses the crate. With another it judged nothing.
const NOT_PROVED: i32 = 1;

/// What is said of declarations that rest on one that has an error.
const NOT_CHECKED: [&str; 2] = [" was not checked: ", " were not checked: "];

/// The same, with the module of the case that refused it.
pub struct Outcome {
    pub verdict: Verdict,
    pub module: Option<String>,
}

/// The cases are kept by module.
pub struct WorkingCopy {
    root: PathBuf,
    layout: Layout,
    cases: BTreeMap<String, String>,
    whole: bool,
}

impl WorkingCopy {
    /// Made anew at `root` from the repository. `whole`: each change is tried by `rt verdict`, from nothing known.
    pub fn new(
        repository: &Path,
        root: &Path,
        layout: Layout,
        whole: bool,
    ) -> Result<WorkingCopy, String> {
        if root.exists() {
            fs::remove_dir_all(root).or_else(|e| failed(root, e))?;
        }
        layout.write(repository, root)?;
        Ok(WorkingCopy {
            root: root.to_path_buf(),
            layout,
            cases: layout.cases(repository)?,
            whole,
        })
    }

    /// What becomes of a file (as `model/specs/Site.antt`) made `text`; the file is put back. The cases of the module `first` are tried before all.
    pub fn outcome(&self, file: &str, text: &str, first: &str) -> Result<Outcome, String> {
        let path = self.root.join("crates").join(file);
        let before = read(&path)?;
        write(&path, text)?;
        let outcome = self.tried(first);
        write(&path, &before)?;
        outcome
    }

    fn tried(&self, first: &str) -> Result<Outcome, String> {
        if self.cases.contains_key(first) && !self.whole {
            let outcome = self.check(&self.needed(first))?;
            if outcome.verdict != Verdict::Accepted {
                return Ok(outcome);
            }
        }
        self.check_all()
    }

    /// What becomes of the copy as it stands.
    pub fn check_all(&self) -> Result<Outcome, String> {
        self.check(&self.cases.keys().cloned().collect())
    }

    /// A module of cases and those that it uses.
    fn needed(&self, name: &str) -> BTreeSet<String> {
        let mut found = BTreeSet::from([name.to_string()]);
        let mut todo = vec![name.to_string()];
        while let Some(module) = todo.pop() {
            let own = format!("Rattle.{}.proofs", self.layout.subject.name());
            let uses = |other: &str| self.cases[&module].contains(&format!("{own}.{other}."));
            for other in self.cases.keys().filter(|other| uses(other)) {
                if found.insert(other.clone()) {
                    todo.push(other.clone());
                }
            }
        }
        found
    }

    /// The check of the definitions with some modules of cases.
    fn check(&self, modules: &BTreeSet<String>) -> Result<Outcome, String> {
        let proofs = self
            .root
            .join("crates")
            .join(self.layout.subject.name())
            .join("proofs");
        let base = self.layout.base().iter();
        let mut list: String = base.map(|name| format!("pub mod {name}\n")).collect();
        for (name, text) in &self.cases {
            let path = proofs.join(format!("{name}.antt"));
            if modules.contains(name) {
                list += &format!("pub mod {name}\n");
                write(&path, text)?;
            } else if path.exists() {
                fs::remove_file(&path).or_else(|e| failed(&path, e))?;
            }
        }
        write(&proofs.join("Lib.antt"), &list)?;
        let log = self.root.join("log");
        let Some(proved) = self.run(&log)? else {
            return Ok(Outcome {
                verdict: Verdict::NotEnded,
                module: None,
            });
        };
        let said = read(&log)?;
        Ok(if proved {
            Outcome {
                verdict: Verdict::Accepted,
                module: None,
            }
        } else {
            self.judged(&said)
        })
    }

    /// Whether the check proves all; nothing if it does not end in time, or without a verdict.
    fn run(&self, log: &Path) -> Result<Option<bool>, String> {
        let verb = if self.whole { "verdict" } else { "check" };
        let checked = self.root.join("crates").join(self.layout.subject.name());
        let out = fs::File::create(log).or_else(|e| failed(log, e))?;
        let err = out.try_clone().or_else(|e| failed(log, e))?;
        let mut shell = Command::new("sh");
        shell.args([
            "-c",
            &format!("ulimit -d {MEMORY}; exec rt {verb} --jobs 2"),
        ]);
        shell
            .current_dir(&checked)
            .stdin(Stdio::null())
            .stdout(out)
            .stderr(err)
            .process_group(0);
        let mut child = shell.spawn().or_else(|e| failed(Path::new("rt"), e))?;
        let start = Instant::now();
        while start.elapsed() < LIMIT {
            if let Some(status) = child.try_wait().or_else(|e| failed(Path::new("rt"), e))? {
                let judged = status.success() || status.code() == Some(NOT_PROVED);
                return Ok(judged.then_some(status.success()));
            }
            std::thread::sleep(Duration::from_millis(20));
        }
        let group = format!("-{}", child.id());
        Command::new("kill")
            .args(["--", &group])
            .status()
            .or_else(|e| failed(Path::new("kill"), e))?;
        child.wait().or_else(|e| failed(Path::new("rt"), e))?;
        Ok(None)
    }

    /// A failed check refuses the change where its errors are in cases alone and one is a fact that does not hold. An error in the definitions,
    /// or in what the cases rest on, makes errors in the cases too, and says nothing of them. A file is named as it stands in the crate that is
    /// checked.
    fn judged(&self, said: &str) -> Outcome {
        let case_of = |line: &str| {
            let in_case = |c: &&String| line.starts_with(&format!("./proofs/{c}.antt:"));
            self.cases.keys().find(in_case).cloned()
        };
        let errors: Vec<&str> = said.lines().filter(|l| l.contains(": error: ")).collect();
        let in_cases = errors.iter().all(|l| case_of(l).is_some());
        let follows = |line: &str| NOT_CHECKED.iter().any(|words| line.contains(words));
        let mut facts = errors.iter().filter(|line| !follows(line));
        let module = facts.next().filter(|_| in_cases).and_then(|l| case_of(l));
        let verdict = match module {
            Some(_) => Verdict::Refused,
            None => Verdict::NotTyped,
        };
        Outcome { verdict, module }
    }
}

#[cfg(test)]
mod tests {
    use super::*;
    use crate::layout::Proofs;
    use crate::subject::Subject;

    #[test]
    fn a_type_error_is_no_refusal() {
        let cases = BTreeMap::from([("Runs".to_string(), String::new())]);
        let copy = WorkingCopy {
            root: PathBuf::new(),
            layout: Layout {
                subject: Subject::Model,
                proofs: Proofs::Cases,
            },
            cases,
            whole: false,
        };
        let fact = "./proofs/Runs.antt:1:2: error: `a`: the two types differ\n";
        let follows = "./proofs/Runs.antt:3:4: error: 1 declaration that depends on `a`, which was not admitted, was not checked: b\n";
        let in_specs = "./specs/Site.antt:5:6: error: `kind`: `c` is not in scope\n";
        let in_base = "./proofs/Open.antt:7:8: error: 2 declarations that depend on `kind`, which was rejected, were not checked: d and e\n";
        let verdict = |said: &[&str]| copy.judged(&said.concat()).verdict;
        assert_eq!(verdict(&[fact, follows]), Verdict::Refused);
        assert_eq!(verdict(&[in_specs, fact]), Verdict::NotTyped);
        assert_eq!(verdict(&[fact, in_base]), Verdict::NotTyped);
        assert_eq!(verdict(&[follows]), Verdict::NotTyped);
        assert_eq!(verdict(&["rt: octets NOT PROVED\n"]), Verdict::NotTyped);
        assert_eq!(copy.judged(fact).module, Some("Runs".to_string()));
    }
}
