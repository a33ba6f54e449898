//! Times another program and this one on the same studies.

use std::fmt::Write;
use std::fs;
use std::io;
use std::path::Path;

use crate::against;
use crate::file;
use crate::speed::{self, ROWS, Row, Way};

/// The argument that tells the other program what to time.
fn argument(way: Way) -> &'static str {
    match way {
        Way::Run => "run",
        Way::Settle => "settle",
        Way::File => "file",
    }
}

/// The middle one of three speeds.
fn median(mut speed: impl FnMut() -> io::Result<u128>) -> io::Result<u128> {
    let mut speeds = [speed()?, speed()?, speed()?];
    speeds.sort_unstable();
    Ok(speeds[1])
}

/// The number that the other program prints for a study file.
fn printed_speed(program: &Path, way: Way, study: &[u8]) -> io::Result<u128> {
    let output = against::run(program, &[argument(way)], study)?;
    let printed = String::from_utf8_lossy(&output.stdout);
    printed.trim().parse().map_err(|_| {
        let message = format!(
            "{} {} printed {printed:?} and ended with {}",
            program.display(),
            argument(way),
            output.status
        );
        io::Error::other(message)
    })
}

struct Speeds {
    program: u128,
    own: u128,
}

fn speeds(row: &Row, code: u8, folder: &Path, program: &Path) -> io::Result<Speeds> {
    let path = folder.join(row.file_name(code));
    let bytes = fs::read(&path)?;
    let study = file::read(&bytes)
        .map_err(|_| io::Error::other(format!("{} is no sound study file", path.display())))?;
    Ok(Speeds {
        own: median(|| Ok(speed::with_races(row.way, &study)))?,
        program: median(|| printed_speed(program, row.way, &bytes))?,
    })
}

/// Times every row and code, and answers the table.
pub fn table(folder: &Path, program: &Path) -> io::Result<String> {
    let mut text = String::from("thousands of steps a second, the median of three\n\n");
    _ = writeln!(
        text,
        "{:<26}{:>6}{:>12}{:>12}{:>9}",
        "", "code", "program", "second", "ratio"
    );
    let (mut rows, mut slower) = (0, 0);
    for row in &ROWS {
        for code in 1..=4 {
            let Speeds { program, own } = speeds(row, code, folder, program)?;
            let ratio = program as f64 / own as f64;
            let note = if program < own { "  slower" } else { "" };
            _ = writeln!(
                text,
                "{:<26}{code:>6}{program:>12}{own:>12}{ratio:>9.1}{note}",
                row.name
            );
            rows += 1;
            slower += usize::from(program < own);
        }
    }
    _ = writeln!(text, "\n{rows} rows, {slower} slower");
    Ok(text)
}
