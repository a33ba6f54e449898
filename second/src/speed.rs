//! Steps a second, on synthetic studies in memory.

use std::fmt::Write;
use std::fs;
use std::hint::black_box;
use std::io;
use std::path::Path;
use std::time::{Duration, Instant};

use crate::bench::{Bench, Marked};
use crate::file::{self, MOST_STEPS, Study};
use crate::play::{self, Length};
use crate::protocol;
use crate::random::Random;
use crate::report;
use crate::step::{Call, Outcome, Step};

const SHORTEST: Duration = Duration::from_millis(300);

/// What is timed of a study.
#[derive(Clone, Copy, Debug, PartialEq, Eq)]
pub enum Way {
    /// A run of its steps.
    Run,
    /// Each of its calls, and behind it a settle. Calls and moves count as steps.
    Settle,
    /// From the bytes of its file to the printed report.
    File,
}

pub struct Row {
    pub name: &'static str,
    /// The first part of the name of its study files.
    pub file: &'static str,
    pub way: Way,
    /// Makes the steps of its study for a code.
    make: fn(u8) -> Vec<Step>,
}

const fn row(name: &'static str, file: &'static str, way: Way, make: fn(u8) -> Vec<Step>) -> Row {
    Row {
        name,
        file,
        way,
        make,
    }
}

pub const ROWS: [Row; 6] = [
    row("hits", "hits", Way::Run, hits),
    row("misses with their moves", "misses", Way::Run, misses),
    row("releases with all moves", "releases", Way::Run, releases),
    row("mixed", "mixed", Way::Run, mixed),
    row("settles", "settles", Way::Settle, settles),
    row("whole files", "mixed", Way::File, mixed),
];

impl Row {
    pub fn study(&self, code: u8) -> Study {
        let steps = (self.make)(code);
        Study { code, steps }
    }

    pub fn file_name(&self, code: u8) -> String {
        format!("{}-{code}.study", self.file)
    }
}

/// A study in the making, cut to as many steps as a file may have.
struct Draft {
    bench: Bench,
    steps: Vec<Step>,
}

fn new_bench(code: u8) -> Bench {
    Bench::new(protocol::by_code(code).expect("codes 1 to 4 are known"))
}

impl Draft {
    fn new(code: u8) -> Self {
        Draft {
            bench: new_bench(code),
            steps: Vec::new(),
        }
    }

    fn call(&mut self, call: Call) {
        self.make(Step::Call(call));
    }

    fn make(&mut self, step: Step) {
        self.bench.step(step);
        self.steps.push(step);
    }

    /// Moves the first open place until none is open.
    fn settle(&mut self) {
        while let Some(place) = self.bench.next_open(0) {
            self.make(Step::Move { place });
        }
    }

    /// Repeats rounds until there are steps enough.
    fn rounds(mut self, mut round: impl FnMut(&mut Self, u8)) -> Vec<Step> {
        let mut number = 0;
        while self.steps.len() < MOST_STEPS {
            round(&mut self, number);
            number = number.wrapping_add(1);
        }
        self.steps.truncate(MOST_STEPS);
        self.steps
    }
}

/// Core 0 stores and loads, on lines that it holds after the first round.
fn hits(code: u8) -> Vec<Step> {
    Draft::new(code).rounds(|draft, round| {
        let address = round % 16;
        draft.call(Call::Store {
            core: 0,
            address,
            byte: round,
        });
        draft.settle();
        draft.call(Call::Load { core: 0, address });
    })
}

/// Each core in turn loads a line that it does not hold, and drops it.
fn misses(code: u8) -> Vec<Step> {
    Draft::new(code).rounds(|draft, round| {
        let (core, line) = (round % 8, round / 8 % 8);
        let address = line * 8;
        draft.call(Call::Load { core, address });
        draft.settle();
        draft.call(Call::Evict { core, line });
    })
}

/// A core writes to every line, and releases.
fn releases(code: u8) -> Vec<Step> {
    Draft::new(code).rounds(|draft, round| {
        let core = round % 8;
        for line in 0..8 {
            draft.call(Call::Store {
                core,
                address: line * 8 + core,
                byte: round,
            });
            draft.settle();
        }
        draft.call(Call::Release { core });
        draft.settle();
    })
}

fn mixed(code: u8) -> Vec<Step> {
    let random = &mut Random::of_case(1, code.into());
    play::study(random, code, 3, Length::Exactly(MOST_STEPS)).steps
}

/// Calls alone: each core in turn hands a byte over to the next one, which then drops the line.
/// Nothing is refused, if each call is followed by a settle.
fn settles(code: u8) -> Vec<Step> {
    Draft::new(code).rounds(|draft, round| {
        let (from, to) = (round % 8, round.wrapping_add(1) % 8);
        let address = round.wrapping_mul(9) % 64;
        draft.call(Call::Store {
            core: from,
            address,
            byte: round,
        });
        draft.call(Call::Release { core: from });
        draft.call(Call::Acquire { core: to });
        draft.call(Call::Load { core: to, address });
        let line = address / 8;
        draft.call(Call::Evict { core: to, line });
    })
}

/// Writes the study file of each row and code. Rows with the same study share a file.
pub fn write_studies(folder: &Path) -> io::Result<()> {
    fs::create_dir_all(folder)?;
    for row in &ROWS {
        for code in 1..=4 {
            let bytes = file::write(&row.study(code));
            fs::write(folder.join(row.file_name(code)), bytes)?;
        }
    }
    Ok(())
}

/// Steps a second, in thousands, of one whole study made again and again. The study answers how
/// many steps it made.
fn thousands(mut study: impl FnMut() -> usize) -> u128 {
    let start = Instant::now();
    let mut made = 0;
    while start.elapsed() < SHORTEST {
        made += study() as u128;
    }
    made * 1_000_000 / start.elapsed().as_nanos()
}

/// The speed of the protocol alone, without a log.
fn alone(study: &Study) -> u128 {
    let mut protocol = protocol::by_code(study.code).expect("codes 1 to 4 are known");
    thousands(|| {
        protocol.clear();
        for &step in &study.steps {
            black_box(protocol::step(protocol.as_mut(), step));
        }
        study.steps.len()
    })
}

/// What a place for an outcome holds before anything is written there.
const NOTHING: Marked = Marked {
    outcome: Outcome::Moved,
    races: false,
};

/// The speed with the log, which is searched for each load and store. Outcomes are written into
/// a list that is there before.
pub fn with_races(way: Way, study: &Study) -> u128 {
    match way {
        Way::Run => run(study),
        Way::Settle => settle(study),
        Way::File => whole_file(study),
    }
}

fn run(study: &Study) -> u128 {
    let mut bench = new_bench(study.code);
    let mut outcomes = vec![NOTHING; study.steps.len()];
    thousands(|| {
        bench.set_up();
        bench
            .run(&study.steps, &mut outcomes)
            .expect("there are outcomes enough");
        black_box(&outcomes);
        study.steps.len()
    })
}

fn settle(study: &Study) -> u128 {
    let mut bench = new_bench(study.code);
    let most = study.steps.len() * (1 + bench.protocol().reach());
    let mut outcomes = vec![NOTHING; most];
    thousands(|| {
        bench.set_up();
        let mut made = 0;
        for &step in &study.steps {
            outcomes[made] = bench.step(step);
            made += 1;
            made += bench.settle(&mut outcomes[made..]).moves;
        }
        black_box(&outcomes);
        made
    })
}

fn whole_file(study: &Study) -> u128 {
    let bytes = file::write(study);
    thousands(|| {
        black_box(report::of_file(black_box(&bytes)));
        study.steps.len()
    })
}

pub fn table() -> String {
    let mut text = format!(
        "thousands of steps a second; studies of {MOST_STEPS} steps, made again and again\n"
    );
    push_part(&mut text, "protocol alone", |row, study| {
        (row.way == Way::Run).then(|| alone(study))
    });
    push_part(&mut text, "with races by search", |row, study| {
        Some(with_races(row.way, study))
    });
    text
}

/// A part of the table, with the rows that have a speed in it.
fn push_part(text: &mut String, title: &str, speed: impl Fn(&Row, &Study) -> Option<u128>) {
    _ = writeln!(
        text,
        "\n{title:<26}{:>10}{:>10}{:>10}{:>10}",
        "code 1", "code 2", "code 3", "code 4"
    );
    for row in &ROWS {
        let speeds = (1..=4).map(|code| speed(row, &row.study(code)));
        if let Some(speeds) = speeds.collect::<Option<Vec<u128>>>() {
            _ = write!(text, "  {:<24}", row.name);
            for speed in speeds {
                _ = write!(text, "{speed:>10}");
            }
            text.push('\n');
        }
    }
}
