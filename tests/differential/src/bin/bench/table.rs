//! The tables of all figures, and the summary of each shape.

use crate::calls::{LONGEST, ONE_ENTRY};
use crate::loads::{Moved, MOVED};
use crate::meter::Meter;
use crate::readers;

/// The sizes that the summary is about.
const LARGEST: usize = 2_000;
const HALF: usize = 1_000;

/// The figures of one site.
pub struct Site {
    pub shape: &'static str,
    pub records: usize,
    /// By call: of the proved, the hashed and the linear engine.
    pub calls: Vec<(&'static str, [f64; 3])>,
    pub floor: f64,
}

impl Site {
    fn of(&self, call: &str) -> Option<[f64; 3]> {
        let found = self.calls.iter().find(|(name, _)| *name == call);
        found.map(|(_, figures)| *figures)
    }

    pub fn print(&self, meter: &impl Meter) {
        let title = title(self.shape, self.records);
        for (call, figures) in &self.calls {
            print_engines(&title, call, *figures, |figure| meter.show(figure));
        }
        println!("{title}{:<16}{:>15}", "read once", meter.show(self.floor));
    }
}

fn title(shape: &str, records: usize) -> String {
    format!("{shape:<12}{records:>6}  ")
}

/// The heading of a table of sites; its third column says what the figures are of.
pub fn print_heading(third: &str) {
    println!(
        "{:<12}{:>6}  {third:<16}{:>15}{:>15}{:>15}{:>10}{:>10}",
        "shape", "size", "proved", "hashed", "linear", "/hashed", "/linear"
    );
}

/// A line of such a table: the figures of the engines, and those of the proved one beside the
/// others where they are not 0.
fn print_engines(title: &str, name: &str, figures: [f64; 3], show: impl Fn(f64) -> String) {
    let [proved, others @ ..] = figures;
    let ratios = others.map(|other| match other {
        0.0 => "-".into(),
        other => format!("{:.2}", proved / other),
    });
    let ([a, b, c], [d, e]) = (figures.map(show), ratios);
    println!("{title}{name:<16}{a:>15}{b:>15}{c:>15}{d:>10}{e:>10}");
}

/// What one read moves at a site, by engine.
pub fn print_moved(shape: &str, records: usize, engines: &[Moved; 3]) {
    for (index, name) in MOVED.iter().enumerate() {
        let figures = engines.each_ref().map(|moved| moved[index] as f64);
        print_engines(&title(shape, records), name, figures, |figure| {
            format!("{figure:.0}")
        });
    }
}

/// A column of the summary: its heading, the aim and the figure of the largest site, with that of
/// half the size.
struct Column {
    heading: [&'static str; 2],
    aim: &'static str,
    figure: fn(&Site, Option<&Site>) -> Option<f64>,
}

fn ratio(site: &Site, call: &str, to: usize) -> Option<f64> {
    let figures = site.of(call)?;
    Some(figures[0] / figures[to])
}

fn growth(site: &Site, half: Option<&Site>, call: &str) -> Option<f64> {
    Some(site.of(call)?[0] / half?.of(call)?[0])
}

const HASHED: usize = 1;
const LINEAR: usize = 2;

const COLUMNS: [Column; 7] = [
    Column {
        heading: [ONE_ENTRY, "/hashed"],
        aim: "0.50",
        figure: |site, _| ratio(site, ONE_ENTRY, HASHED),
    },
    Column {
        heading: [LONGEST, "/hashed"],
        aim: "0.50",
        figure: |site, _| ratio(site, LONGEST, HASHED),
    },
    Column {
        heading: [ONE_ENTRY, "growth"],
        aim: "2.20",
        figure: |site, half| growth(site, half, ONE_ENTRY),
    },
    Column {
        heading: [LONGEST, "growth"],
        aim: "2.20",
        figure: |site, half| growth(site, half, LONGEST),
    },
    Column {
        heading: [ONE_ENTRY, "/read once"],
        aim: "3.00",
        figure: |site, _| Some(site.of(ONE_ENTRY)?[0] / site.floor),
    },
    Column {
        heading: [ONE_ENTRY, "/linear"],
        aim: "1.00*",
        figure: |site, _| ratio(site, ONE_ENTRY, LINEAR),
    },
    Column {
        heading: [LONGEST, "/linear"],
        aim: "1.00*",
        figure: |site, _| ratio(site, LONGEST, LINEAR),
    },
];

/// A line for each shape that was measured at its largest.
pub fn print_summary(sites: &[Site]) {
    println!("\nThe proved engine at {LARGEST} records; growth is that from {HALF}.");
    print_line("", |column| column.heading[0].into());
    print_line("", |column| column.heading[1].into());
    print_line("aim", |column| column.aim.into());
    for site in sites.iter().filter(|site| site.records == LARGEST) {
        let mut halves = sites.iter().filter(|half| half.records == HALF);
        let half = halves.find(|half| half.shape == site.shape);
        print_line(site.shape, |column| {
            let figure = (column.figure)(site, half);
            figure.map_or("-".into(), |figure| format!("{figure:.2}"))
        });
    }
    println!("* the aim of the colliding shape, in place of those beside the hashed engine");
}

fn print_line(name: &str, text: impl Fn(&Column) -> String) {
    print!("{name:<12}");
    for column in &COLUMNS {
        print!("{:>16}", text(column));
    }
    println!();
}

/// The table of the readers: by call, of the proved and the plain engine.
pub fn print_readers(calls: &[(&str, [f64; 2])], meter: &impl Meter) {
    println!("\nReaders' bits; a figure is that of all calls.");
    println!(
        "{:<12}{:>6}  {:<16}{:>15}{:>15}{:>10}",
        "shape", "size", "call", "proved", "plain", "/plain"
    );
    for (call, figures) in calls {
        let [proved, plain] = *figures;
        let [a, b] = figures.map(|figure| meter.show(figure));
        println!(
            "{:<12}{:>6}  {call:<16}{a:>15}{b:>15}{:>10.2}",
            readers::SHAPE,
            readers::SIZE,
            proved / plain
        );
    }
}
