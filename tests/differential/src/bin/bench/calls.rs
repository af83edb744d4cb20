//! The calls that are measured, and the engines that make them.

use crate::journals::Writer;
use crate::shapes::Shape;
use differential::proved::PROVED;
use plain::{HASHED, LINEAR};
use reference::engine::Engine;
use reference::entry::entries;
use reference::longer::lengthened;
use reference::numbers::{
    event, refusal, ANSWER_LENGTH, ENTRY_LENGTH, MOST_JOURNAL_BYTES, RECORD_LENGTH,
};
use reference::scenarios::paper_cases::{printed_journal, printed_site};
use reference::state::{fresh_state, state_length};
use std::hint::black_box;

pub const ENGINES: [(&str, Engine); 3] =
    [("proved", PROVED), ("hashed", HASHED), ("linear", LINEAR)];

/// The names of the calls, as the table has them.
pub const ONE_ENTRY: &str = "one entry";
pub const LONGEST: &str = "longest journal";

/// A site, the state that runs begin with in both forms, and the calls on them.
pub struct Setting {
    pub shape: &'static str,
    pub site: Vec<u8>,
    pub state: Vec<u8>,
    pub longer: Vec<u8>,
    pub calls: Vec<Call>,
}

pub struct Call {
    pub name: &'static str,
    action: Action,
}

enum Action {
    CheckSite,
    FreshState,
    ShortenState,
    LengthenState,
    /// A run of the journal, with the fewest grants that are meant.
    Run {
        journal: Vec<u8>,
        granted: usize,
    },
}

/// The buffers that a call may write.
#[derive(Clone, PartialEq)]
pub struct Buffers {
    pub state: Vec<u8>,
    /// Only of a call that writes it, so that it takes no room in caches from others.
    longer: Vec<u8>,
    answers: Vec<u8>,
}

/// What stands in a buffer that a call writes whole.
const UNWRITTEN: u8 = 0xA5;

impl Setting {
    pub fn new(shape: &Shape, records: usize) -> Setting {
        let site = shape.site(records);
        assert_eq!(site.len(), records * RECORD_LENGTH);
        let state = shape.state(&site);
        let one = Writer::new(&site, &state).one_entry();
        let most = MOST_JOURNAL_BYTES / ENTRY_LENGTH;
        let longest = Writer::new(&site, &state).journal(most, |number| shape.unknown_card(number));
        assert_eq!(longest.len(), MOST_JOURNAL_BYTES);
        let calls = vec![
            Call::new("check_site", Action::CheckSite),
            Call::new("fresh_state", Action::FreshState),
            Call::new("shorten_state", Action::ShortenState),
            Call::new("lengthen_state", Action::LengthenState),
            Call::run(ONE_ENTRY, one, 1),
            Call::run(LONGEST, longest, most / 2),
        ];
        Setting {
            shape: shape.name,
            longer: lengthened(&site, &state),
            site,
            state,
            calls,
        }
    }

    /// The example of the paper.
    pub fn example() -> Setting {
        let site = printed_site();
        let mut state = vec![0; state_length(&site)];
        assert_eq!(fresh_state(&site, &mut state), refusal::ACCEPTED);
        let calls = vec![
            Call::new("check_site", Action::CheckSite),
            Call::run("three entries", printed_journal(), 1),
        ];
        Setting {
            shape: "example",
            longer: lengthened(&site, &state),
            site,
            state,
            calls,
        }
    }

    pub fn records(&self) -> usize {
        self.site.len() / RECORD_LENGTH
    }

    /// Reads site and state once, which no engine can do without.
    pub fn read_once(&self) -> u64 {
        let sum = |bytes: &[u8]| {
            let (words, _) = bytes.as_chunks();
            let words = words.iter().map(|word| u64::from_ne_bytes(*word));
            words.fold(0, u64::wrapping_add)
        };
        sum(black_box(&self.site)).wrapping_add(sum(black_box(&self.state)))
    }
}

impl Call {
    fn new(name: &'static str, action: Action) -> Call {
        Call { name, action }
    }

    pub fn run(name: &'static str, journal: Vec<u8>, granted: usize) -> Call {
        Call::new(name, Action::Run { journal, granted })
    }

    pub fn journal(&self) -> &[u8] {
        match &self.action {
            Action::Run { journal, .. } => journal,
            _ => &[],
        }
    }

    /// Buffers as each call finds them.
    pub fn buffers(&self, setting: &Setting) -> Buffers {
        let longer = match self.action {
            Action::LengthenState => setting.longer.len(),
            _ => 0,
        };
        let mut buffers = Buffers {
            state: vec![0; setting.state.len()],
            longer: vec![0; longer],
            answers: vec![0; entries(self.journal()).count() * ANSWER_LENGTH],
        };
        self.reset(setting, &mut buffers);
        buffers
    }

    pub fn reset(&self, setting: &Setting, buffers: &mut Buffers) {
        match self.action {
            Action::FreshState | Action::ShortenState => buffers.state.fill(UNWRITTEN),
            _ => buffers.state.copy_from_slice(&setting.state),
        }
        buffers.longer.fill(UNWRITTEN);
        buffers.answers.fill(0);
    }

    pub fn make(&self, engine: &Engine, setting: &Setting, buffers: &mut Buffers) -> u8 {
        let site = black_box(&setting.site[..]);
        match &self.action {
            Action::CheckSite => (engine.check_site)(site),
            Action::FreshState => (engine.fresh_state)(site, &mut buffers.state),
            Action::ShortenState => {
                (engine.shorten_state)(site, &setting.longer, &mut buffers.state)
            }
            Action::LengthenState => {
                (engine.lengthen_state)(site, &buffers.state, &mut buffers.longer)
            }
            Action::Run { journal, .. } => {
                (engine.run_journal)(site, &mut buffers.state, journal, &mut buffers.answers)
            }
        }
    }

    /// Panics unless every engine works the call through, all with the same outcome, and grants
    /// what is meant to be granted.
    pub fn assert_agreed(&self, setting: &Setting) {
        let title = format!(
            "{}, {} records, {}",
            setting.shape,
            setting.records(),
            self.name
        );
        let outcomes = ENGINES.map(|(name, engine)| {
            let mut buffers = self.buffers(setting);
            let returned = self.make(&engine, setting, &mut buffers);
            self.assert_granted(&format!("{title}, {name}"), returned, &buffers);
            buffers
        });
        let [proved, others @ ..] = &outcomes;
        assert!(
            others.iter().all(|other| other == proved),
            "{title}: the engines disagree"
        );
    }

    /// Panics unless the call was worked through and granted what is meant to be granted.
    pub fn assert_granted(&self, title: &str, returned: u8, buffers: &Buffers) {
        assert_eq!(returned, refusal::ACCEPTED, "{title}: turned back");
        if let Action::Run { granted, .. } = self.action {
            let grants = buffers.grants();
            assert!(grants >= granted, "{title}: {grants} grants");
        }
    }
}

impl Buffers {
    fn grants(&self) -> usize {
        let granted = event::GRANTED.to_be_bytes();
        let answers = self.answers.chunks_exact(ANSWER_LENGTH);
        answers
            .filter(|answer| answer.starts_with(&granted))
            .count()
    }
}

#[cfg(test)]
mod tests {
    use super::*;
    use crate::shapes::SHAPES;

    /// What the benchmark asserts, also where nobody runs it.
    #[test]
    fn the_engines_agree_on_every_call() {
        let sizes = SHAPES
            .iter()
            .flat_map(|shape| [(shape, 250), (shape, 2_000)]);
        let settings = sizes.map(|(shape, records)| Setting::new(shape, records));
        for setting in settings.chain([Setting::example()]) {
            for call in &setting.calls {
                call.assert_agreed(&setting);
            }
        }
    }
}
