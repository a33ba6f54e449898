//! A table of what occurs how often, by section, row and column.

use std::fmt::Write;

/// Rows below this are pointed at.
const ENOUGH: u64 = 50;

pub struct Section {
    pub title: &'static str,
    /// Whether the columns are shown, or the sum alone.
    pub by_column: bool,
    pub rows: &'static [&'static str],
}

pub struct Table {
    sections: &'static [Section],
    columns: &'static [&'static str],
    /// For each row its count in each column, and last that of no column.
    counts: Vec<Vec<u64>>,
    column: usize,
}

impl Table {
    pub fn new(sections: &'static [Section], columns: &'static [&'static str]) -> Self {
        let rows = sections.iter().map(|section| section.rows.len()).sum();
        Table {
            sections,
            columns,
            counts: vec![vec![0; columns.len() + 1]; rows],
            column: columns.len(),
        }
    }

    /// What is added from now on belongs to this column, or to none.
    pub fn set_column(&mut self, column: Option<usize>) {
        self.column = column.unwrap_or(self.columns.len());
    }

    pub fn add_many(&mut self, section: &str, row: &str, count: u64) {
        let position = self
            .sections
            .iter()
            .flat_map(|section| section.rows.iter().map(|&name| (section.title, name)))
            .position(|name| name == (section, row))
            .unwrap_or_else(|| panic!("the row {row} of {section} is not listed"));
        self.counts[position][self.column] += count;
    }

    pub fn add(&mut self, section: &str, row: &str) {
        self.add_many(section, row, 1);
    }

    /// Counts a row where something holds.
    pub fn add_if(&mut self, holds: bool, section: &str, row: &str) {
        if holds {
            self.add(section, row);
        }
    }

    pub fn print(&self) -> String {
        let mut text = String::new();
        let mut counts = self.counts.iter();
        for section in self.sections {
            self.print_heading(&mut text, section);
            for (row, counts) in section.rows.iter().zip(&mut counts) {
                _ = write!(text, "  {row:<52}");
                for count in &counts[..self.columns.len()] {
                    _ = match section.by_column {
                        true => write!(text, "{count:>8}"),
                        false => write!(text, "{:8}", ""),
                    };
                }
                let all: u64 = counts.iter().sum();
                let note = if all < ENOUGH { "  few" } else { "" };
                _ = writeln!(text, "{all:>8}{note}");
            }
            text.push('\n');
        }
        text
    }

    fn print_heading(&self, text: &mut String, section: &Section) {
        _ = write!(text, "{:<54}", section.title);
        for column in self.columns {
            let column = if section.by_column { column } else { "" };
            _ = write!(text, "{column:>8}");
        }
        _ = writeln!(text, "{:>8}", "all");
    }
}
