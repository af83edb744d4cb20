//! Wrong definitions tried, in as many working copies at once as there are jobs.

use crate::copy::{Verdict, WorkingCopy};
use crate::definitions::File;
use crate::imports::with_imports;
use crate::layout::{Layout, Proofs};
use crate::names::AllNames;
use crate::options::Options;
use crate::subject::Subject;
use crate::wrong::{added, Wrong};
use std::collections::{BTreeMap, BTreeSet};
use std::path::Path;
use std::sync::atomic::{AtomicUsize, Ordering};
use std::sync::Mutex;

/// The copies that a change is tried in: one of what the theorems state that no case refuses is tried on the theorems' proofs too.
fn layouts(w: &Wrong) -> Vec<Layout> {
    let subject = Subject::of(&w.file);
    let with = |proofs| Layout { subject, proofs };
    let mut layouts = vec![with(Proofs::Cases)];
    if subject.statements().contains(&w.file.as_str()) {
        layouts.push(with(Proofs::Theorems));
    }
    layouts
}

/// What is tried, and where.
pub struct Trial<'a> {
    pub wrong: &'a [Wrong],
    pub files: &'a [File],
    pub names: &'a AllNames,
    pub repository: &'a Path,
}

/// What the jobs share: the next wrong definition, the verdicts, and for each definition and file the module that refused it last.
struct Shared {
    next: AtomicUsize,
    verdicts: Mutex<Vec<Verdict>>,
    refusing: Mutex<BTreeMap<String, String>>,
}

impl Trial<'_> {
    /// The verdicts, in the order of the wrong definitions.
    pub fn verdicts(&self, o: &Options) -> Result<Vec<Verdict>, String> {
        let shared = Shared {
            next: AtomicUsize::new(0),
            verdicts: Mutex::new(vec![Verdict::NotEnded; self.wrong.len()]),
            refusing: Mutex::new(BTreeMap::new()),
        };
        let shared_by_all = &shared;
        std::thread::scope(|s| {
            let job = |n: usize| s.spawn(move || self.work(n, o.whole, shared_by_all));
            let jobs: Vec<_> = (0..o.jobs.max(1)).map(job).collect();
            jobs.into_iter()
                .try_for_each(|j| j.join().expect("a job does not panic"))
        })?;
        Ok(shared.verdicts.into_inner().expect("a job does not panic"))
    }

    /// One job: the next wrong definition, while there is one.
    fn work(&self, job: usize, whole: bool, shared: &Shared) -> Result<(), String> {
        let copies = self.copies(job, whole)?;
        loop {
            let i = shared.next.fetch_add(1, Ordering::Relaxed);
            let Some(w) = self.wrong.get(i) else {
                return Ok(());
            };
            let subject = Subject::of(&w.file);
            let added = added(w, self.files);
            let text = with_imports(&w.text, &added, subject, &self.names[&subject]);
            let tried: Vec<&WorkingCopy> = layouts(w).iter().map(|l| &copies[l]).collect();
            let verdict = shared.verdict(w, &text, &tried)?;
            shared.verdicts.lock().expect("a job does not panic")[i] = verdict;
        }
    }

    /// The working copies of a job.
    fn copies(&self, job: usize, whole: bool) -> Result<BTreeMap<Layout, WorkingCopy>, String> {
        let layouts: BTreeSet<Layout> = self.wrong.iter().flat_map(layouts).collect();
        let copy = |layout| Ok((layout, self.copy(layout, job, whole)?));
        layouts.into_iter().map(copy).collect()
    }

    /// A working copy in which all holds.
    fn copy(&self, layout: Layout, job: usize, whole: bool) -> Result<WorkingCopy, String> {
        let copies = self.repository.join("target/wrong_definitions");
        let root = copies.join(layout.directory(job));
        let copy = WorkingCopy::new(self.repository, &root, layout, whole)?;
        if copy.check_all()?.verdict == Verdict::Accepted {
            return Ok(copy);
        }
        let log = root.join("log");
        Err(format!(
            "the cases do not hold as they are: see {}",
            log.display()
        ))
    }
}

impl Shared {
    /// The verdict on one, of the first copy that does not accept it; what is not refused is printed.
    fn verdict(&self, w: &Wrong, text: &str, copies: &[&WorkingCopy]) -> Result<Verdict, String> {
        let definition = format!("{} {}", w.file, w.definition);
        let first = self.first_module(&definition, &w.file);
        let mut outcome = copies[0].outcome(&w.file, text, &first)?;
        for copy in &copies[1..] {
            if outcome.verdict == Verdict::Accepted {
                outcome = copy.outcome(&w.file, text, "")?;
            }
        }
        if let Some(module) = outcome.module {
            let mut refusing = self.refusing.lock().expect("a job does not panic");
            refusing.insert(definition, module.clone());
            refusing.insert(w.file.clone(), module);
        }
        if outcome.verdict != Verdict::Refused {
            println!("{:?}\n{w}", outcome.verdict);
        }
        Ok(outcome.verdict)
    }

    /// The module of cases that refused the last change of the definition or of the file; at first the one with the file's name.
    fn first_module(&self, definition: &str, file: &str) -> String {
        let refusing = self.refusing.lock().expect("a job does not panic");
        let last = refusing.get(definition).or(refusing.get(file)).cloned();
        let name = file.rsplit('/').next().unwrap_or(file);
        last.unwrap_or(name.trim_end_matches(".antt").to_string())
    }
}
