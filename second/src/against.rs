//! Compares another program with this one: each case is piped to it.

use std::fs;
use std::io::{self, Write};
use std::path::Path;
use std::process::{Command, Output, Stdio};
use std::sync::Mutex;
use std::sync::atomic::{AtomicU64, Ordering};
use std::thread;

use crate::cases;
use crate::report;

/// How many differing cases are saved.
pub const SAVED: usize = 5;

struct Difference {
    number: u64,
    study: Vec<u8>,
    expected: String,
    output: Output,
}

/// Runs a program with arguments, and bytes on its standard input. Input that it does not read is
/// no matter.
pub fn run(program: &Path, arguments: &[&str], input: &[u8]) -> io::Result<Output> {
    let mut child = Command::new(program)
        .args(arguments)
        .stdin(Stdio::piped())
        .stdout(Stdio::piped())
        .stderr(Stdio::piped())
        .spawn()?;
    let stdin = child.stdin.take();
    thread::scope(|scope| {
        scope.spawn(move || stdin.map(|mut stdin| stdin.write_all(input)));
        child.wait_with_output()
    })
}

/// The case of a number, if the other program prints something else or ends with another status.
fn difference(program: &Path, seed: u64, number: u64) -> io::Result<Option<Difference>> {
    let study = cases::case(seed, number);
    let printed = report::of_file(&study);
    let output = run(program, &[], &study)?;
    let status = i32::from(!printed.sound);
    let same = output.stdout == printed.text.as_bytes() && output.status.code() == Some(status);
    Ok((!same).then_some(Difference {
        number,
        study,
        expected: printed.text,
        output,
    }))
}

fn save(folder: &Path, difference: &Difference) -> io::Result<()> {
    fs::create_dir_all(folder)?;
    let file = |ending: &str| folder.join(format!("{:05}.{ending}", difference.number));
    fs::write(file("study"), &difference.study)?;
    fs::write(file("second"), &difference.expected)?;
    fs::write(file("other"), &difference.output.stdout)
}

/// Compares so many cases of a seed, and answers how many differ. The first few are saved.
pub fn compare(program: &Path, count: u64, seed: u64, folder: &Path) -> io::Result<u64> {
    let next = AtomicU64::new(0);
    let found = Mutex::new((0, Vec::new()));
    let work = || -> io::Result<()> {
        loop {
            let number = next.fetch_add(1, Ordering::Relaxed);
            if number >= count {
                return Ok(());
            }
            if let Some(difference) = difference(program, seed, number)? {
                let mut found = found.lock().expect("no thread panics while it holds this");
                found.0 += 1;
                found.1.push(difference);
                found.1.sort_by_key(|difference| difference.number);
                found.1.truncate(SAVED);
            }
        }
    };
    let threads = thread::available_parallelism().map_or(1, usize::from);
    thread::scope(|scope| {
        let workers: Vec<_> = (0..threads).map(|_| scope.spawn(work)).collect();
        workers
            .into_iter()
            .try_for_each(|worker| worker.join().expect("a worker does not panic"))
    })?;
    let (differ, saved) = found.into_inner().expect("all threads have ended");
    for difference in &saved {
        save(folder, difference)?;
        eprintln!(
            "case {}: {}, saved in {}",
            difference.number,
            difference.output.status,
            folder.display()
        );
    }
    Ok(differ)
}
