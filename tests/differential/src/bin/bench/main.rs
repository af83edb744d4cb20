//! `bench [--instructions | --loads] [--shape NAME] [--records NUMBER] [--call NAME] [REPETITIONS]`:
//! the proved engine beside the plain ones, over sites of all shapes and sizes, and over the bits of
//! readers. It asserts that the engines agree and that the calls are worked through, and no time.
//!
//! Times are medians of 15 or of the given number of repetitions. With `--instructions` the program
//! counts the instructions of one call each, by callgrind; with `--loads`, what one granted read loads
//! from the site and loads from and stores to the state, by lackey. A shape, a number of records and
//! a call, by their names in the table, leave out all others.

#![deny(unsafe_code)]

mod calls;
mod instructions;
mod journals;
mod loads;
mod meter;
mod readers;
mod shapes;
mod table;
mod times;
mod valgrind;

use calls::{Setting, ONE_ENTRY};
use instructions::{Counts, Dumps};
use meter::Meter;
use shapes::SHAPES;
use std::process::ExitCode;
use std::{env, io};
use table::{print_heading, print_moved, print_readers, print_summary, Site};
use times::Times;
use valgrind::is_running_on_valgrind;

const RECORDS: [usize; 4] = [250, 500, 1_000, 2_000];
const REPETITIONS: usize = 15;

const USAGE: &str = "usage: bench [--instructions | --loads] [--shape NAME] [--records NUMBER] \
                     [--call NAME] [REPETITIONS]";

/// What is measured.
enum Figures {
    Times,
    Instructions,
    Loads,
}

/// What the arguments ask for.
struct Arguments {
    figures: Figures,
    shape: Option<String>,
    records: Option<usize>,
    call: Option<String>,
    repetitions: usize,
}

impl Arguments {
    fn read() -> Option<Arguments> {
        let mut read = Arguments {
            figures: Figures::Times,
            shape: None,
            records: None,
            call: None,
            repetitions: REPETITIONS,
        };
        let mut arguments = env::args().skip(1);
        while let Some(argument) = arguments.next() {
            match &argument[..] {
                "--instructions" => read.figures = Figures::Instructions,
                "--loads" => read.figures = Figures::Loads,
                "--shape" => read.shape = Some(arguments.next()?),
                "--records" => read.records = Some(arguments.next()?.parse().ok()?),
                "--call" => read.call = Some(arguments.next()?),
                number => read.repetitions = number.parse().ok().filter(|&number| number > 0)?,
            }
        }
        Some(read)
    }

    fn wants(&self, shape: &str, records: usize) -> bool {
        self.shape.as_ref().is_none_or(|name| name == shape)
            && self.records.is_none_or(|number| number == records)
    }

    fn wants_call(&self, name: &str) -> bool {
        self.call.as_ref().is_none_or(|call| call == name)
    }

    /// Whether they name what takes no site.
    fn are_of_readers(&self) -> bool {
        let named = [self.shape.as_deref(), self.call.as_deref()];
        let mut of_readers = [readers::SHAPE, readers::READ, readers::WRITE].into_iter();
        of_readers.any(|name| named.contains(&Some(name)))
    }

    /// The sites to measure, made one after the other.
    fn settings(&self) -> impl Iterator<Item = Setting> + '_ {
        let example = self.wants("example", 6).then(Setting::example);
        let sizes = SHAPES
            .iter()
            .flat_map(|shape| RECORDS.map(|records| (shape, records)));
        let wanted = sizes.filter(|(shape, records)| self.wants(shape.name, *records));
        example
            .into_iter()
            .chain(wanted.map(|(shape, records)| Setting::new(shape, records)))
    }
}

fn measure(arguments: &Arguments, meter: &mut impl Meter) {
    if !arguments.are_of_readers() {
        measure_sites(arguments, meter);
    }
    if arguments.wants(readers::SHAPE, readers::SIZE) {
        measure_readers(arguments, meter);
    }
}

/// Measures the sites, printing each as soon as it is.
fn measure_sites(arguments: &Arguments, meter: &mut impl Meter) {
    print_heading("call");
    let mut sites = Vec::new();
    for mut setting in arguments.settings() {
        setting.calls.retain(|call| arguments.wants_call(call.name));
        let mut figures = Vec::new();
        for call in &setting.calls {
            call.assert_agreed(&setting);
            figures.push((call.name, meter.engines(&setting, call)));
        }
        let site = Site {
            shape: setting.shape,
            records: setting.records(),
            calls: figures,
            floor: meter.floor(&setting),
        };
        site.print(meter);
        sites.push(site);
    }
    print_summary(&sites);
}

fn measure_readers(arguments: &Arguments, meter: &mut impl Meter) {
    let mut figures = Vec::new();
    for call in readers::calls() {
        if arguments.wants_call(call.name()) {
            call.assert_agreed();
            figures.push((call.name(), meter.readers(&call)));
        }
    }
    if !figures.is_empty() {
        print_readers(&figures, meter);
    }
}

fn measure_times(arguments: &Arguments) {
    let repetitions = arguments.repetitions;
    println!("Medians of {repetitions}, the engines in turn; buffers are reset before each call.");
    measure(arguments, &mut Times { repetitions });
}

fn count_instructions(arguments: &Arguments) -> io::Result<()> {
    if is_running_on_valgrind() {
        measure(arguments, &mut Dumps);
        return Ok(());
    }
    let mut counts = Counts::of_this_program()?;
    println!("Instructions of one call, by callgrind.");
    measure(arguments, &mut counts);
    Ok(())
}

/// Counts on the sites that have such a read, printing each as soon as it is.
fn count_loads(arguments: &Arguments) -> io::Result<()> {
    if is_running_on_valgrind() {
        return loads::make_marked_calls();
    }
    println!("What one granted read moves from the site and from and to the state, by lackey.");
    print_heading("moved");
    for setting in arguments.settings() {
        if let Some(read) = setting.calls.iter().find(|call| call.name == ONE_ENTRY) {
            let moved = loads::of_one_read(&setting, read)?;
            print_moved(setting.shape, setting.records(), &moved);
        }
    }
    Ok(())
}

fn main() -> ExitCode {
    let Some(arguments) = Arguments::read() else {
        eprintln!("{USAGE}");
        return ExitCode::FAILURE;
    };
    let (counted, result) = match arguments.figures {
        Figures::Times => {
            measure_times(&arguments);
            return ExitCode::SUCCESS;
        }
        Figures::Instructions => ("instructions", count_instructions(&arguments)),
        Figures::Loads => ("loads", count_loads(&arguments)),
    };
    if let Err(error) = result {
        eprintln!("bench: no {counted} counted: {error}");
        return ExitCode::FAILURE;
    }
    ExitCode::SUCCESS
}
