//! The tables of docs/FORMATS.md. Each file of tests uses a part of it.

#![allow(dead_code)]

use crate::library;
use std::fs;
use std::ops::Range;

/// A row of a table, by the titles of its columns.
pub struct Row(Vec<(String, String)>);

impl Row {
    pub fn cell(&self, title: &str) -> Option<&str> {
        let (_, cell) = self.0.iter().find(|(column, _)| column == title)?;
        Some(cell)
    }

    pub fn name(&self) -> &str {
        self.cell("Name").expect("a name")
    }

    /// The number beside the name: an offset, a bit or the number itself.
    pub fn value(&self) -> u64 {
        self.0[1]
            .1
            .parse()
            .unwrap_or_else(|_| panic!("a number beside {}", self.name()))
    }

    pub fn number(&self, title: &str) -> usize {
        self.cell(title)
            .and_then(|cell| cell.parse().ok())
            .unwrap_or_else(|| panic!("{title} of {}", self.name()))
    }

    pub fn range(&self) -> &str {
        self.cell("Range").expect("a range")
    }

    pub fn bytes(&self) -> Range<usize> {
        let offset = self.number("Offset");
        offset..offset + self.number("Length")
    }

    /// The largest number that the field can hold.
    pub fn most(&self) -> u64 {
        u64::MAX >> (64 - 8 * self.number("Length"))
    }
}

/// The cells of a line of a table, without the marks of names and thousands.
fn cells(line: &str) -> Option<Vec<String>> {
    let cells = line.strip_prefix("| ")?.strip_suffix('|')?;
    let plain = |cell: &str| cell.trim().replace(['`', ','], "");
    Some(cells.split('|').map(plain).collect())
}

pub fn text() -> String {
    let document = library::repository("docs/FORMATS.md");
    fs::read_to_string(document).expect("the document is there")
}

/// The rows of all tables that have a column of this title.
pub fn rows(title: &str) -> Vec<Row> {
    let mut titles: Option<Vec<String>> = None;
    let mut rows = Vec::new();
    for line in text().lines() {
        match (cells(line), &titles) {
            (Some(cells), Some(titles)) => {
                assert_eq!(cells.len(), titles.len(), "{line}");
                rows.push(Row(titles.iter().cloned().zip(cells).collect()));
            }
            (Some(cells), None) => titles = Some(cells),
            (None, _) if line.starts_with("|--") => {}
            (None, _) => titles = None,
        }
    }
    rows.retain(|row| row.cell(title).is_some());
    assert!(!rows.is_empty(), "{title}");
    rows
}

/// The fields whose names start so.
pub fn fields(start: &str) -> Vec<Row> {
    let mut rows = rows("Offset");
    rows.retain(|row| row.name().starts_with(start));
    assert!(!rows.is_empty(), "{start}");
    rows
}

/// The row of a name.
pub fn row_of(name: &str) -> Row {
    let mut rows = rows("Name");
    rows.retain(|row| row.name() == name);
    rows.pop().unwrap_or_else(|| panic!("{name}"))
}

/// Writes a number over a field.
pub fn put(bytes: &mut [u8], field: Range<usize>, number: u64) {
    let digits = number.to_be_bytes();
    let length = field.len();
    bytes[field].copy_from_slice(&digits[digits.len() - length..]);
}
