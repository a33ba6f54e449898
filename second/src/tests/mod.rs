//! The worked examples of the documents, by page, and what holds of every generated study.

mod buffer;
mod facts;
mod files;
mod generated;
mod guarantee;
mod mesi;
mod model;
mod neat;
mod races;
mod requests;
mod speed;

use crate::bench::Bench;
use crate::file::{self, Study};
use crate::protocol::{self, Kind};
use crate::report;
use crate::step::{Call, Step};

/// A step as the documents write it, for example `store 0 10 41`: numbers are to base ten, a
/// byte's value to base sixteen.
fn step(text: &str) -> Step {
    let words: Vec<&str> = text.split_whitespace().collect();
    let number = |word: &str| word.parse::<u8>().expect("a number to base ten");
    let byte = |word: &str| u8::from_str_radix(word, 16).expect("a number to base sixteen");
    match *words {
        ["load", core, address] => Step::Call(Call::Load {
            core: number(core),
            address: number(address),
        }),
        ["store", core, address, value] => Step::Call(Call::Store {
            core: number(core),
            address: number(address),
            byte: byte(value),
        }),
        ["acquire", core] => Step::Call(Call::Acquire { core: number(core) }),
        ["release", core] => Step::Call(Call::Release { core: number(core) }),
        ["evict", core, line] => Step::Call(Call::Evict {
            core: number(core),
            line: number(line),
        }),
        ["move", place] => Step::Move {
            place: number(place),
        },
        _ => panic!("{text} is no step"),
    }
}

/// Steps with semicolons between.
fn steps(text: &str) -> Vec<Step> {
    text.split(';').map(step).collect()
}

fn report_of(code: u8, text: &str) -> String {
    let study = Study {
        code,
        steps: steps(text),
    };
    let printed = report::of_file(&file::write(&study));
    assert!(printed.sound);
    printed.text
}

/// The lines of the steps alone.
fn lines(code: u8, text: &str) -> Vec<String> {
    let report = report_of(code, text);
    let lines: Vec<&str> = report.lines().collect();
    lines[1..lines.len() - 2]
        .iter()
        .map(|line| line.to_string())
        .collect()
}

fn last_line(code: u8, text: &str) -> String {
    lines(code, text).pop().expect("there is a step")
}

fn bench_after(code: u8, text: &str) -> Bench {
    let mut bench = Bench::new(protocol::by_code(code).expect("a known code"));
    for step in steps(text) {
        bench.step(step);
    }
    bench
}

/// Places and messages on their way.
fn on_their_way(bench: &Bench) -> Vec<(u8, Kind)> {
    let protocol = bench.protocol();
    protocol::open_places(protocol)
        .into_iter()
        .filter_map(|place| Some((place, protocol.message(place)?)))
        .collect()
}

/// Checks steps with their lines, given as rows.
fn check_rows(code: u8, rows: &[(&str, &str)]) {
    let text: Vec<&str> = rows.iter().map(|row| row.0).collect();
    let expected: Vec<&str> = rows.iter().map(|row| row.1).collect();
    assert_eq!(lines(code, &text.join(";")), expected);
}

/// The image that is 00 everywhere but at one address.
fn image_with(address: usize, byte: u8) -> String {
    let mut bytes = [0; 64];
    bytes[address] = byte;
    bytes.map(|byte| format!("{byte:02x}")).concat()
}
