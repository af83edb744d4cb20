//! A call on whose outcome the engines disagree: its buffers are cut to what the fault needs, and shown.

use reference::generate::{Case, Forms};
use reference::numbers::{ANSWER_LENGTH, ENTRY_LENGTH, RECORD_LENGTH};
use reference::state::kept_records;
use std::fmt::Write;
use std::ops::Range;

/// A call of one engine on the buffers that it takes.
pub type Call<B> = fn(&mut B) -> u8;

/// The units of a buffer, and the buffers without a part of them.
type Cut<B> = (usize, fn(&B, &Range<usize>) -> B);

/// The buffers of a call.
pub trait Buffers: Clone + PartialEq {
    /// What may be left out of them, in this order.
    fn cuts(&self) -> Vec<Cut<Self>>;

    /// The name, the bytes and the unit of each.
    fn shown(&self) -> Vec<(&'static str, &[u8], usize)>;
}

impl Buffers for Case {
    fn cuts(&self) -> Vec<Cut<Case>> {
        let entries = self.journal.len() / ENTRY_LENGTH;
        let records = self.site.len() / RECORD_LENGTH;
        vec![(entries, without_entries), (records, without_records)]
    }

    fn shown(&self) -> Vec<(&'static str, &[u8], usize)> {
        vec![
            ("site", &self.site, RECORD_LENGTH),
            ("state", &self.state, RECORD_LENGTH),
            ("journal", &self.journal, ENTRY_LENGTH),
            ("answers", &self.answers, ANSWER_LENGTH),
        ]
    }
}

impl Buffers for Forms {
    fn cuts(&self) -> Vec<Cut<Forms>> {
        vec![(self.site.len() / RECORD_LENGTH, without_records_of_forms)]
    }

    fn shown(&self) -> Vec<(&'static str, &[u8], usize)> {
        vec![
            ("site", &self.site, RECORD_LENGTH),
            ("longer state", &self.longer, RECORD_LENGTH),
            ("state", &self.state, RECORD_LENGTH),
        ]
    }
}

/// What a call hands back, and the buffers after it.
pub fn called<B: Buffers>(call: Call<B>, buffers: &B) -> (u8, B) {
    let mut after = buffers.clone();
    (call(&mut after), after)
}

/// The buffers without the entries and records that their fault does not need. It tries again after
/// each success, since an object can go only after what names it.
pub fn smallest<B: Buffers>(buffers: &B, has_fault: impl Fn(&B) -> bool) -> B {
    let mut fewer = buffers.clone();
    for (units, without) in buffers.cuts() {
        fewer = cut(fewer, units, without, &has_fault);
    }
    if fewer == *buffers {
        return fewer;
    }
    smallest(&fewer, has_fault)
}

/// Leaves out units that the fault does not need: large parts first, since a case may be long, and
/// at last each unit alone.
fn cut<B: Buffers>(
    mut buffers: B,
    mut units: usize,
    without: fn(&B, &Range<usize>) -> B,
    has_fault: impl Fn(&B) -> bool,
) -> B {
    let mut size = units;
    while size > 0 {
        let mut start = 0;
        while start < units {
            let part = start..units.min(start + size);
            let smaller = without(&buffers, &part);
            if has_fault(&smaller) {
                buffers = smaller;
                units -= part.len();
            } else {
                start = part.end;
            }
        }
        size /= 2;
    }
    buffers
}

fn without_entries(case: &Case, part: &Range<usize>) -> Case {
    Case {
        journal: without(&case.journal, ENTRY_LENGTH, part),
        answers: without(&case.answers, ANSWER_LENGTH, part),
        ..case.clone()
    }
}

fn without_records(case: &Case, part: &Range<usize>) -> Case {
    Case {
        state: without(&case.state, RECORD_LENGTH, &kept_in(&case.site, part)),
        site: without(&case.site, RECORD_LENGTH, part),
        ..case.clone()
    }
}

fn without_records_of_forms(forms: &Forms, part: &Range<usize>) -> Forms {
    Forms {
        longer: without(&forms.longer, RECORD_LENGTH, part),
        state: without(&forms.state, RECORD_LENGTH, &kept_in(&forms.site, part)),
        site: without(&forms.site, RECORD_LENGTH, part),
    }
}

/// Which state records belong to a part of the site's records.
fn kept_in(site: &[u8], part: &Range<usize>) -> Range<usize> {
    let kept_before = |place: usize| kept_records(&site[..place * RECORD_LENGTH]).count();
    kept_before(part.start)..kept_before(part.end)
}

/// Bytes without a part of their units, where they have it whole.
fn without(bytes: &[u8], unit: usize, part: &Range<usize>) -> Vec<u8> {
    let mut bytes = bytes.to_vec();
    if part.end * unit <= bytes.len() {
        bytes.drain(part.start * unit..part.end * unit);
    }
    bytes
}

/// The buffers, what each engine hands back, and the buffers that it changes.
pub fn report<B: Buffers>(proved: Call<B>, reference: Call<B>, buffers: &B) -> String {
    let mut text = String::from("the engines disagree\n");
    for (name, bytes, unit) in buffers.shown() {
        text.push_str(&rows(name, bytes, unit));
    }
    for (name, call) in [("proved", proved), ("reference", reference)] {
        let (returned, after) = called(call, buffers);
        let _ = writeln!(text, "{name}: {returned}");
        let pairs = after.shown().into_iter().zip(buffers.shown());
        for ((name, bytes, unit), _) in pairs.filter(|(after, before)| after.1 != before.1) {
            text.push_str(&rows(&format!("{name} after"), bytes, unit));
        }
    }
    text
}

/// A buffer in hexadecimal digits, a unit to a line.
fn rows(name: &str, bytes: &[u8], unit: usize) -> String {
    let mut text = format!("  {name}, {} bytes\n", bytes.len());
    for row in bytes.chunks(unit) {
        text.push_str("   ");
        for word in row.chunks(4) {
            text.push(' ');
            for byte in word {
                // Writing into a String cannot fail.
                let _ = write!(text, "{byte:02X}");
            }
        }
        text.push('\n');
    }
    text
}
