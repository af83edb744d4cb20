//! Loads and stores of one read: the program runs itself under `valgrind --tool=lackey`, which
//! writes a line for each access to memory. Those of the buffers that are lent to a call are counted
//! as they come.
//!
//! Each call also checks the site and the state. So a read moves what the run of a journal of that
//! read moves, less what the run of the empty journal on the same site and state does.

use crate::calls::{Call, Setting, ENGINES, ONE_ENTRY};
use crate::valgrind::{missing, this_program_under};
use reference::entry::{Action, Entry};
use reference::numbers::{authorization_mode, kind, ENTRY_LENGTH};
use reference::site::{instance_of, kind_of, records, PointRecord};
use std::hint::black_box;
use std::io::{self, BufRead, BufReader, Read, Write};
use std::ops::Range;
use std::process::Stdio;
use std::thread;

/// What is counted, as the table has it.
pub const MOVED: [&str; 6] = [
    "site loads",
    "site bytes",
    "state loads",
    "state bytes",
    "state stores",
    "bytes stored",
];

/// A number for each of them.
pub type Moved = [u64; MOVED.len()];

/// Where the number of accesses stands; that of their bytes is next to it.
const SITE_LOADS: usize = 0;
const STATE_LOADS: usize = 2;
const STATE_STORES: usize = 4;

/// The trace goes where the program prints, so that it has the program's marks in their order.
const OPTIONS: [&str; 4] = [
    "--tool=lackey",
    "--basic-counts=no",
    "--trace-mem=yes",
    "--log-fd=1",
];

/// The marks around a call, the first with the addresses of site and state, each with its length.
const BEGIN: &str = "begin ";
const END: &str = "end";

/// How many calls are marked: of each engine, without the read and with it.
const CALLS: usize = 2 * ENGINES.len();

/// The addresses of the buffers that are lent to a call.
#[derive(Debug, PartialEq)]
struct Lent {
    site: Range<usize>,
    state: Range<usize>,
}

impl Lent {
    fn mark(site: &[u8], state: &[u8]) -> String {
        let [site, state] = [site, state].map(|bytes| {
            let start = bytes.as_ptr() as usize;
            format!("{start:x} {:x}", bytes.len())
        });
        format!("{BEGIN}{site} {state}")
    }

    fn in_mark(line: &str) -> Option<Lent> {
        let numbers = line.strip_prefix(BEGIN)?.split(' ');
        let numbers = numbers.map(|number| usize::from_str_radix(number, 16).ok());
        let numbers = numbers.collect::<Option<Vec<_>>>()?;
        let [site, site_length, state, state_length] = numbers.try_into().ok()?;
        Some(Lent {
            site: site..site + site_length,
            state: state..state + state_length,
        })
    }

    fn count(&self, access: &Access, moved: &mut Moved) {
        let mut add = |place: usize| {
            moved[place] += 1;
            moved[place + 1] += access.bytes;
        };
        if access.loads && self.site.contains(&access.address) {
            add(SITE_LOADS);
        }
        if access.loads && self.state.contains(&access.address) {
            add(STATE_LOADS);
        }
        if access.stores && self.state.contains(&access.address) {
            add(STATE_STORES);
        }
    }
}

/// An access to memory; one that modifies both loads and stores.
#[derive(Debug, PartialEq)]
struct Access {
    loads: bool,
    stores: bool,
    address: usize,
    bytes: u64,
}

impl Access {
    /// Nothing of a line that is no access, such as that of an instruction.
    fn in_line(line: &str) -> Option<Access> {
        let (kind, place) = line.strip_prefix(' ')?.split_once(' ')?;
        let (loads, stores) = match kind {
            "L" => (true, false),
            "S" => (false, true),
            "M" => (true, true),
            _ => return None,
        };
        let (address, bytes) = place.split_once(',')?;
        Some(Access {
            loads,
            stores,
            address: usize::from_str_radix(address, 16).ok()?,
            bytes: bytes.parse().ok()?,
        })
    }
}

/// What each call moved that has both its marks in the trace.
fn moved_in(mut trace: impl BufRead) -> io::Result<Vec<Moved>> {
    let mut calls = Vec::new();
    let mut begun = None;
    let mut line = String::new();
    while trace.read_line(&mut line)? > 0 {
        let text = line.trim_end();
        if text.starts_with(BEGIN) {
            begun = Lent::in_mark(text).map(|lent| (lent, Moved::default()));
        } else if text == END {
            calls.extend(begun.take().map(|(_, moved)| moved));
        } else if let Some((lent, moved)) = &mut begun {
            if let Some(access) = Access::in_line(text) {
                lent.count(&access, moved);
            }
        }
        line.clear();
    }
    Ok(calls)
}

/// What the read moves, by engine, of what the calls without and with it do.
fn differences(calls: Vec<Moved>) -> io::Result<[Moved; ENGINES.len()]> {
    let calls: [Moved; CALLS] = calls.try_into().map_err(|calls: Vec<Moved>| {
        let marked = calls.len();
        io::Error::other(format!("the trace has marks of {marked} of {CALLS} calls"))
    })?;
    let mut differences = [Moved::default(); ENGINES.len()];
    for (difference, pair) in differences.iter_mut().zip(calls.chunks_exact(2)) {
        for (place, number) in difference.iter_mut().enumerate() {
            let less = pair[1][place].checked_sub(pair[0][place]);
            *number = less.ok_or_else(|| {
                let name = MOVED[place];
                io::Error::other(format!("fewer {name} with the read than without"))
            })?;
        }
    }
    Ok(differences)
}

/// What the read, the only entry of the call's journal, moves, by engine.
pub fn of_one_read(setting: &Setting, read: &Call) -> io::Result<[Moved; ENGINES.len()]> {
    assert_asks_rules(setting, read);
    read.assert_agreed(setting);
    let length = setting.site.len().to_be_bytes();
    let input = [&length[..], &setting.site, &setting.state, read.journal()].concat();
    let mut child = this_program_under(&OPTIONS)?
        .stdin(Stdio::piped())
        .stdout(Stdio::piped())
        .spawn()
        .map_err(missing)?;
    let mut stdin = child.stdin.take().expect("it is piped");
    let trace = BufReader::new(child.stdout.take().expect("it is piped"));
    // The program reads no input before it has written a long trace, so that both are worked on at
    // the same time.
    let (written, calls) = thread::scope(|scope| {
        let writer = scope.spawn(move || stdin.write_all(&input));
        let calls = moved_in(trace);
        (writer.join().expect("it does not panic"), calls)
    });
    let status = child.wait()?;
    if !status.success() {
        return Err(io::Error::other(format!("valgrind ends with {status}")));
    }
    written?;
    differences(calls?)
}

/// Panics unless the call's journal is a factor read at a point in mode AUTHORIZE.
fn assert_asks_rules(setting: &Setting, read: &Call) {
    let entry = Entry::read(read.journal()).expect("an entry in range");
    assert!(matches!(entry.action, Action::ReadFactor { .. }));
    let is_point =
        |record: &&[u8]| kind_of(record) == kind::POINT && instance_of(record) == entry.instance;
    let point = records(&setting.site).find(is_point).expect("the point");
    let mode = PointRecord(point).authorization_mode();
    assert_eq!(mode, authorization_mode::AUTHORIZE);
}

/// Under valgrind: makes the calls of each engine between marks, the empty journal first. The length of
/// the site, the site, the state and the read are the input; to make them here would be traced too, for
/// minutes.
pub fn make_marked_calls() -> io::Result<()> {
    let mut input = Vec::new();
    io::stdin().read_to_end(&mut input)?;
    let (length, rest) = input.split_first_chunk().expect("the length of the site");
    let (site, rest) = rest.split_at(usize::from_be_bytes(*length));
    let (state, entry) = rest.split_at(rest.len() - ENTRY_LENGTH);
    let setting = Setting {
        shape: "",
        site: site.to_vec(),
        state: state.to_vec(),
        // No call here takes one.
        longer: Vec::new(),
        calls: vec![
            Call::run("no entry", Vec::new(), 0),
            Call::run(ONE_ENTRY, entry.to_vec(), 1),
        ],
    };
    for (name, engine) in ENGINES {
        for call in &setting.calls {
            let mut buffers = call.buffers(&setting);
            println!("{}", Lent::mark(&setting.site, &buffers.state));
            let returned = black_box(call.make(&engine, &setting, black_box(&mut buffers)));
            println!("{END}");
            call.assert_granted(name, returned, &buffers);
        }
    }
    Ok(())
}

#[cfg(test)]
mod tests {
    use super::*;

    fn access(loads: bool, stores: bool) -> Option<Access> {
        Some(Access {
            loads,
            stores,
            address: 0x1_ffef_fe7e,
            bytes: 8,
        })
    }

    #[test]
    fn a_line_of_the_trace_is_an_access_or_none() {
        assert_eq!(Access::in_line(" L 1ffeffe7e,8"), access(true, false));
        assert_eq!(Access::in_line(" S 1ffeffe7e,8"), access(false, true));
        assert_eq!(Access::in_line(" M 1ffeffe7e,8"), access(true, true));
        for other in ["I  04001090,3", "==7== Lackey", " L 1ffeffe7e", "", END] {
            assert_eq!(Access::in_line(other), None, "{other}");
        }
    }

    #[test]
    fn a_mark_has_the_addresses() {
        let (site, state) = ([1; 64], [2; 32]);
        let addresses = |bytes: &[u8]| {
            let start = bytes.as_ptr() as usize;
            start..start + bytes.len()
        };
        let lent = Lent {
            site: addresses(&site),
            state: addresses(&state),
        };
        assert_eq!(Lent::in_mark(&Lent::mark(&site, &state)), Some(lent));
        assert_eq!(Lent::in_mark("begin 1000 2000 40"), None);
    }

    /// Of accesses before, at and behind the ends of the buffers.
    #[test]
    fn accesses_are_counted_between_the_marks() {
        let trace =
            " L 1000,8\nbegin 1000 40 2000 40\nI  1000,3\n L fff,1\n L 1000,8\n L 103f,1\n \
                     L 1040,4\n S 1000,8\n M 2000,4\n S 203f,1\n L 2010,16\nend\n L 1000,8\n\
                     begin 1000 40 2000 40\n L 1000,8\n";
        let calls = moved_in(trace.as_bytes()).expect("a trace");
        assert_eq!(calls, [[2, 9, 2, 20, 2, 5]]);
    }

    #[test]
    fn a_read_moves_what_the_empty_journal_does_not() {
        let (none, one) = ([10, 80, 4, 16, 0, 0], [13, 104, 5, 20, 2, 8]);
        let calls = [none, one, one, one, none, one];
        let (read, nothing) = ([3, 24, 1, 4, 2, 8], [0; 6]);
        let moved = differences(calls.to_vec()).expect("all calls");
        assert_eq!(moved, [read, nothing, read]);
        let error = |calls: &[Moved]| differences(calls.to_vec()).expect_err("an error");
        let marks = "the trace has marks of 5 of 6 calls";
        assert_eq!(error(&calls[1..]).to_string(), marks);
        let fewer = "fewer site loads with the read than without";
        assert_eq!(error(&[one, none, one, one, one, one]).to_string(), fewer);
    }
}
