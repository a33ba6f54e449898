//! Counts what occurs in a corpus.

use std::fmt::Write;

use crate::corpus::Case;
use crate::file::{self, Cause, MOST_BYTES, MOST_STEPS, Study};
use crate::report;
use crate::rows;
use crate::table::Table;
use crate::watch::Watch;

/// The table of a corpus, and a line on whether this program still prints what is stored there.
pub fn count(cases: &[Case]) -> String {
    let mut table = Table::new(&rows::SECTIONS, &rows::COLUMNS);
    let mut other = 0;
    for case in cases {
        count_file(&mut table, &case.study);
        if report::of_file(&case.study).text.as_bytes() != case.expected {
            other += 1;
        }
    }
    let mut text = table.print();
    _ = writeln!(
        text,
        "{} cases, {other} print something else than is stored",
        cases.len()
    );
    text
}

fn count_file(table: &mut Table, bytes: &[u8]) {
    match file::read(bytes) {
        Ok(study) => count_study(table, &study),
        Err(fault) => {
            table.add("faults", fault_row(fault.cause));
            let steps = bytes.get(..fault.place).map(file::read);
            let full = matches!(steps, Some(Ok(study)) if study.steps.len() == MOST_STEPS);
            if full && fault.cause != Cause::TooManySteps {
                table.add("limits", "4,096 steps, then fault 5 to 9 (large)");
            }
        }
    }
    match bytes.len() {
        0 => table.add("limits", "no byte"),
        1 => table.add("limits", "one byte"),
        MOST_BYTES => table.add("limits", "exactly 32,768 bytes (large)"),
        length if length == MOST_BYTES + 1 => table.add("limits", "exactly 32,769 bytes (large)"),
        length if length > MOST_BYTES + 1 => table.add("limits", "over 32,769 bytes (large)"),
        _ => {}
    }
}

fn count_study(table: &mut Table, study: &Study) {
    table.set_column(Some(usize::from(study.code) - 1));
    table.add("sound studies", "studies");
    table.add_many("sound studies", "steps", study.steps.len() as u64);
    let mut watch = Watch::new(table, study.code);
    for &step in &study.steps {
        watch.step(step);
    }
    table.set_column(None);
    match study.steps.len() {
        0 => table.add("limits", "no step"),
        MOST_STEPS => table.add("limits", "exactly 4,096 steps (large)"),
        _ => {}
    }
}

fn fault_row(cause: Cause) -> &'static str {
    match cause {
        Cause::LengthMissing => "5 layer 1, inside a length",
        Cause::BodyMissing => "5 layer 1, behind a length",
        Cause::UnknownKind => "6 layer 1, unknown kind",
        Cause::LengthBelowTwo => "7 layer 1, length below 2",
        Cause::LengthNotKinds => "7 layer 1, length not the kind's",
        Cause::NoRecord => "8 layer 2, no record",
        Cause::FirstNotProtocol => "8 layer 2, first record is a step",
        Cause::LaterProtocol => "8 layer 2, later record of kind 1",
        Cause::UnknownCode => "9 layer 2, unknown code",
        Cause::TooManyBytes => "10 layer 1, bytes (large)",
        Cause::TooManySteps => "10 layer 1, steps (large)",
    }
}
