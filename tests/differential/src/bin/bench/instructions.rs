//! Instruction counts: the program runs itself under `valgrind --tool=callgrind` and tells it where
//! each call begins and ends; callgrind writes a file for each.

use crate::calls::{Call, Setting, ENGINES};
use crate::meter::Meter;
use crate::readers;
use crate::valgrind::{missing, request, this_program_under};
use std::collections::HashMap;
use std::ffi::{CString, OsString};
use std::hint::black_box;
use std::path::Path;
use std::{env, fs, io, process};

/// Requests to callgrind, by the numbers of its header.
const TOGGLE_COLLECT: usize = 0x4354_0002;
const DUMP_STATS_AT: usize = 0x4354_0003;

/// What callgrind writes before the name of a dump, and before its count.
const NAME: &str = "desc: Trigger: Client Request: ";
const TOTAL: &str = "totals: ";

/// The name of the floor's count.
const FLOOR: &str = "floor";

fn key(setting: &Setting, call: &str, engine: &str) -> String {
    format!("{}/{}/{call}/{engine}", setting.shape, setting.records())
}

fn reader_key(call: &readers::Call, engine: &str) -> String {
    format!("{}/{}/{engine}", readers::SHAPE, call.name())
}

/// Under valgrind: has the instructions of each call written. It hands back no figures.
pub struct Dumps;

impl Dumps {
    fn count<T>(name: &str, call: impl FnOnce() -> T) {
        let name = CString::new(name).expect("a name without zeros");
        request(TOGGLE_COLLECT, 0);
        black_box(call());
        request(TOGGLE_COLLECT, 0);
        request(DUMP_STATS_AT, name.as_ptr() as usize);
    }
}

impl Meter for Dumps {
    fn engines(&mut self, setting: &Setting, call: &Call) -> [f64; 3] {
        for (name, engine) in ENGINES {
            let mut buffers = call.buffers(setting);
            let key = key(setting, call.name, name);
            Dumps::count(&key, || call.make(&engine, setting, &mut buffers));
        }
        [0.0; 3]
    }

    fn readers(&mut self, call: &readers::Call) -> [f64; 2] {
        for (name, engine) in readers::ENGINES {
            Dumps::count(&reader_key(call, name), || call.make(engine));
        }
        [0.0; 2]
    }

    fn floor(&mut self, setting: &Setting) -> f64 {
        Dumps::count(&key(setting, FLOOR, ""), || setting.read_once());
        0.0
    }

    fn show(&self, _: f64) -> String {
        String::new()
    }
}

/// The counts that a run under valgrind wrote, by name.
pub struct Counts(HashMap<String, f64>);

impl Counts {
    /// Runs this program with its own arguments under valgrind.
    pub fn of_this_program() -> io::Result<Counts> {
        let directory = env::temp_dir().join(format!("bench-{}", process::id()));
        fs::create_dir_all(&directory)?;
        let counts = Counts::written_in(&directory);
        fs::remove_dir_all(&directory)?;
        counts
    }

    fn written_in(directory: &Path) -> io::Result<Counts> {
        let mut out = OsString::from("--callgrind-out-file=");
        out.push(directory.join("counts"));
        let options = [
            "--tool=callgrind".into(),
            "--collect-atstart=no".into(),
            out,
        ];
        let output = this_program_under(&options)?.output().map_err(missing)?;
        if !output.status.success() {
            let errors = String::from_utf8_lossy(&output.stderr).into_owned();
            return Err(io::Error::other(errors));
        }
        let mut counts = HashMap::new();
        for file in fs::read_dir(directory)? {
            counts.extend(count_in(&fs::read_to_string(file?.path())?));
        }
        Ok(Counts(counts))
    }

    fn of(&self, key: &str) -> f64 {
        let count = self.0.get(key);
        *count.unwrap_or_else(|| panic!("no count of {key}"))
    }
}

/// The name and the count of a dump; the file of the program's end has no name.
fn count_in(dump: &str) -> Option<(String, f64)> {
    let value = |start: &str| dump.lines().find_map(|line| line.strip_prefix(start));
    let count = value(TOTAL)?.trim().parse().ok()?;
    Some((value(NAME)?.to_owned(), count))
}

impl Meter for Counts {
    fn engines(&mut self, setting: &Setting, call: &Call) -> [f64; 3] {
        ENGINES.map(|(name, _)| self.of(&key(setting, call.name, name)))
    }

    fn readers(&mut self, call: &readers::Call) -> [f64; 2] {
        readers::ENGINES.map(|(name, _)| self.of(&reader_key(call, name)))
    }

    fn floor(&mut self, setting: &Setting) -> f64 {
        self.of(&key(setting, FLOOR, ""))
    }

    fn show(&self, figure: f64) -> String {
        format!("{figure:.0}")
    }
}

#[cfg(test)]
mod tests {
    use super::*;

    #[test]
    fn a_dump_has_a_name_and_a_count() {
        let dump = "version: 1\ndesc: Trigger: Client Request: campus/250/one entry/proved\n\n\
                    fn=(1) main\n0 1531\n\ntotals: 1531\n";
        let name = "campus/250/one entry/proved".to_owned();
        assert_eq!(count_in(dump), Some((name, 1_531.0)));
        assert_eq!(
            count_in("desc: Trigger: Program termination\n\ntotals: 0\n"),
            None
        );
    }
}
