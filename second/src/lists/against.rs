//! Compares another program with this one on lists of requests: many are piped to it at once.

use std::fs;
use std::io;
use std::ops::Range;
use std::path::Path;
use std::process::Output;

use crate::against::{self, SAVED};
use crate::lists::{draw, text};

/// How many lists one process is given.
const BATCH: u64 = 500;

/// An input for which the other program prints something else.
struct Difference {
    name: String,
    input: Vec<u8>,
    expected: String,
    output: Output,
}

fn difference(program: &Path, name: String, input: Vec<u8>) -> io::Result<Option<Difference>> {
    let expected = text::of_input(&input);
    let output = against::run(program, &[], &input)?;
    let same = output.stdout == expected.as_bytes();
    Ok((!same).then_some(Difference {
        name,
        input,
        expected,
        output,
    }))
}

/// Compares some lists at once. If they differ, each is run alone, to find those that do.
fn compare_batch(program: &Path, seed: u64, numbers: Range<u64>) -> io::Result<Vec<Difference>> {
    let name = format!("{:05}-to-{:05}", numbers.start, numbers.end - 1);
    let Some(batch) = difference(program, name, draw::input(seed, numbers.clone()))? else {
        return Ok(Vec::new());
    };
    let mut found = Vec::new();
    for number in numbers {
        let input = draw::input(seed, number..number + 1);
        found.extend(difference(program, format!("{number:05}"), input)?);
    }
    // Lists that differ only together are one difference.
    if found.is_empty() {
        found.push(batch);
    }
    Ok(found)
}

fn save(folder: &Path, difference: &Difference) -> io::Result<()> {
    fs::create_dir_all(folder)?;
    let file = |ending: &str| folder.join(format!("{}.{ending}", difference.name));
    fs::write(file("list"), &difference.input)?;
    fs::write(file("second"), &difference.expected)?;
    fs::write(file("other"), &difference.output.stdout)?;
    eprintln!(
        "list {}: {}, saved in {}",
        difference.name,
        difference.output.status,
        folder.display()
    );
    Ok(())
}

/// Compares so many lists of a seed, and answers how many differ. The first few are saved.
pub fn compare(program: &Path, count: u64, seed: u64, folder: &Path) -> io::Result<usize> {
    let mut differ = 0;
    for start in (0..count).step_by(BATCH as usize) {
        let end = count.min(start + BATCH);
        for difference in compare_batch(program, seed, start..end)? {
            if differ < SAVED {
                save(folder, &difference)?;
            }
            differ += 1;
        }
    }
    Ok(differ)
}
