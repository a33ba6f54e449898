//! Reports and fault lines.

use crate::bench::{Bench, Marked};
use crate::file::{self, Fault, Study};
use crate::protocol;
use crate::race::Log;
use crate::step::{Call, Outcome, Step};

/// What the program prints for a file, and whether it is a report.
#[derive(Clone, Debug, PartialEq, Eq)]
pub struct Printed {
    pub text: String,
    pub sound: bool,
}

pub fn of_file(bytes: &[u8]) -> Printed {
    match file::read(bytes) {
        Ok(study) => Printed {
            text: of_study(&study),
            sound: true,
        },
        Err(fault) => Printed {
            text: line_of_fault(fault),
            sound: false,
        },
    }
}

/// The report of a study that was read.
pub fn of_study(study: &Study) -> String {
    let protocol = protocol::by_code(study.code).expect("a study that was read has a known code");
    let mut bench = Bench::new(protocol);
    let mut text = format!("protocol {}\n", study.code);
    text.reserve(length(study.steps.len()));
    for &step in &study.steps {
        let marked = bench.step(step);
        push_step_line(&mut text, step, marked);
    }
    text += &counts_line(bench.log());
    push_hex_line(&mut text, &bench.image());
    text
}

/// The bytes of a report of so many steps.
pub fn length(steps: usize) -> usize {
    163 + 14 * steps
}

pub fn counts_line(log: &Log) -> String {
    format!("ended {:05} race {:05}\n", log.count(), log.first_race())
}

/// The line of a fault of a file.
pub fn line_of_fault(fault: Fault) -> String {
    fault_line(fault.cause.number(), fault.place, fault.cause.layer())
}

pub fn fault_line(number: u8, place: usize, layer: u8) -> String {
    format!("fault {number:02} place {place:05} layer {layer}\n")
}

fn push_hex(text: &mut String, byte: u8) {
    for digit in [byte >> 4, byte & 15] {
        text.push(char::from_digit(digit.into(), 16).expect("a digit is below 16"));
    }
}

/// A line of two digits for each byte.
pub fn push_hex_line(text: &mut String, bytes: &[u8]) {
    for &byte in bytes {
        push_hex(text, byte);
    }
    text.push('\n');
}

pub fn push_step_line(text: &mut String, step: Step, marked: Marked) {
    let own = match step {
        Step::Call(call) => Some(call),
        Step::Move { .. } => None,
    };
    let ended = marked.outcome.ended();
    let (letter, refusal) = match marked.outcome {
        Outcome::Refused(refusal) => ('R', refusal.number()),
        Outcome::Waits => ('W', 0),
        Outcome::Ended(_) => ('E', 0),
        Outcome::Moved | Outcome::Finished(_) => ('M', 0),
    };
    let shown = ended.map(|ended| ended.call).or(own);
    text.push(letter);
    text.push(' ');
    text.push(shown.map_or('-', core_digit));
    text.push(' ');
    text.push(shown.map_or('-', Call::letter));
    text.push(' ');
    match ended.and_then(|ended| ended.byte()) {
        Some(byte) => push_hex(text, byte),
        None => text.push_str("--"),
    }
    text.push_str(if marked.races { " ! 0" } else { " . 0" });
    text.push(char::from(b'0' + refusal));
    text.push('\n');
}

fn core_digit(call: Call) -> char {
    match call.core() {
        core @ 0..=7 => char::from(b'0' + core),
        _ => '-',
    }
}
