//! Counts what occurs in lists of requests.

use crate::bench::{Bench, Marked};
use crate::file::{self, Study};
use crate::lists::draw::moves_to_settle;
use crate::lists::format::{self, Broken, Part, Reader, Request};
use crate::lists::rows;
use crate::lists::study::rooms;
use crate::lists::text::{self, FILL, FILL_ANSWER};
use crate::protocol::{Bottom, Stack};
use crate::report;
use crate::step::{CORES, Outcome, Step};
use crate::table::Table;
use crate::whole::{self, Answer};

/// The section of single steps, and of those in runs.
const STEPS: &str = "steps, alone or in a run";

/// The table of an input, and how many lists it has.
pub fn count(input: &[u8]) -> String {
    let mut table = Table::new(&rows::SECTIONS, &rows::COLUMNS);
    let lists = format::split(input);
    for list in &lists {
        table.set_column(None);
        let counted = list.and_then(|list| count_list(&mut table, list));
        if let Err(broken) = counted {
            table.add("lists", broken_row(broken));
        }
    }
    format!("{}{} lists\n", table.print(), lists.len())
}

fn broken_row(broken: Broken) -> &'static str {
    match broken {
        Broken::Stack => "broken, the first two bytes",
        Broken::CutShort => "broken, ends inside a request",
        Broken::UnknownRequest => "broken, unknown request",
        Broken::UnknownStep => "broken, unknown kind of step",
        Broken::UnknownPart => "broken, unknown part of a study",
    }
}

fn count_list(table: &mut Table, list: &[u8]) -> Result<(), Broken> {
    let (stack, mut reader) = Reader::new(list)?;
    table.set_column(Some(column(stack)));
    table.add("lists", "lists");
    let mut counter = Counter {
        table,
        bench: Bench::new(stack.cleared()),
    };
    while let Some(request) = reader.next() {
        let request = request?;
        counter.table.add("lists", "requests");
        counter.look_at(&request);
        text::push_request(&mut String::new(), &mut counter.bench, &request);
    }
    Ok(())
}

fn column(stack: Stack) -> usize {
    let first = match stack.bottom {
        Bottom::Neat => 0,
        Bottom::Mesi => 3,
    };
    first + usize::from(stack.buffers)
}

/// How a room stands to what is needed, in the words of the rows.
fn fit(needed: usize, room: usize) -> &'static str {
    match room {
        _ if room == needed => "exactly enough",
        _ if room > needed => "more than enough",
        0 => "none",
        _ if room + 1 == needed => "one too few",
        _ => "fewer",
    }
}

struct Counter<'a> {
    table: &'a mut Table,
    /// The bench before the request that is looked at.
    bench: Bench,
}

impl Counter<'_> {
    fn look_at(&mut self, request: &Request) {
        match request {
            Request::Step(step) => self.step(*step),
            Request::Run { steps, room } => self.run(steps, (*room).into()),
            Request::Settle { room } => self.settle((*room).into()),
            Request::Image { address } => self.image(*address),
            Request::NextOpen { place } => self.next_open(*place),
            Request::Counts => self.counts(),
            Request::SetUp => self.set_up(),
            Request::Write { code, room, steps } => self.write(*code, (*room).into(), steps),
            Request::File { room, bytes } => self.file((*room).into(), bytes),
            Request::Study {
                steps,
                parts,
                answers,
                room,
            } => self.study(steps, parts, (*answers).into(), (*room).into()),
        }
    }

    fn step(&mut self, step: Step) {
        let marked = self.bench.clone().step(step);
        self.outcome(step, marked);
    }

    fn outcome(&mut self, step: Step, marked: Marked) {
        let row = match (step, marked.outcome) {
            (_, Outcome::Refused(refusal)) => format!("refused {}", refusal.number()),
            (Step::Call(call), Outcome::Waits) => format!("{} waits", call.name()),
            (_, Outcome::Ended(ended)) => format!("{} ended", ended.call.name()),
            (_, Outcome::Finished(ended)) => format!("moved, {} ended", ended.call.name()),
            (_, Outcome::Moved) => "moved".into(),
            (Step::Move { .. }, Outcome::Waits) => unreachable!("no move waits"),
        };
        self.table.add(STEPS, &row);
        let row = match step {
            Step::Call(_) => "ended, marked",
            Step::Move { .. } => "moved, ended, marked",
        };
        self.table.add_if(marked.races, STEPS, row);
    }

    fn run(&mut self, steps: &[Step], room: usize) {
        let row = match (steps, fit(steps.len(), room)) {
            ([], _) => "no step".into(),
            (_, fit) => format!("room: {fit}"),
        };
        self.table.add("runs", &row);
        let made = room >= steps.len();
        let mut bench = self.bench.clone();
        let mut refused = Vec::new();
        for &step in steps {
            let marked = bench.step(step);
            refused.push(matches!(marked.outcome, Outcome::Refused(_)));
            if made {
                self.outcome(step, marked);
            }
        }
        // A refused last step does not show whether the run goes on behind it.
        refused.pop();
        let row = if made {
            "made, with a refused step inside"
        } else {
            "turned down, with a refused step inside"
        };
        self.table.add_if(refused.contains(&true), "runs", row);
    }

    fn settle(&mut self, room: usize) {
        let needed = moves_to_settle(&self.bench);
        let row = match (needed, room) {
            (0, 0) => "no place open, no room".into(),
            (0, _) => "no place open, some room".into(),
            _ => format!("room: {}", fit(needed, room)),
        };
        self.table.add("settles", &row);
        let mut outcomes = vec![FILL; room];
        let settled = self.bench.clone().settle(&mut outcomes);
        let ends = outcomes[..settled.moves]
            .iter()
            .any(|marked| marked.outcome.ended().is_some());
        self.table.add_if(ends, "settles", "a call ends");
    }

    fn image(&mut self, address: u8) {
        let row = match (address, self.bench.image_of(address)) {
            (63, _) => "63",
            (64, _) => "64",
            (_, Err(_)) => "above 64",
            (_, Ok(0)) => "below 63, byte 00",
            (_, Ok(_)) => "below 63, another byte",
        };
        self.table.add("images", row);
    }

    fn next_open(&mut self, place: u8) {
        let first = self.bench.next_open(0);
        let next = self.bench.next_open(place);
        let row = match (place, first, next) {
            (0..=71, None, _) => "no place open",
            (0..=71, Some(first), _) if place < first => "below every open place",
            (_, _, Some(next)) if next == place => "at an open place",
            (_, _, Some(_)) => "between open places",
            (0..=71, ..) => "above every open place, below 72",
            (72, ..) => "72",
            _ => "above 72",
        };
        self.table.add("next open places", row);
    }

    fn counts(&mut self) {
        let log = self.bench.log();
        let row = match (log.count(), log.first_race()) {
            (0, _) => "no call ended",
            (_, 0) => "calls ended, no race",
            _ => "a race",
        };
        self.table.add("counts", row);
    }

    fn set_up(&mut self) {
        let open = self.is_open();
        let buffers = (0..CORES as u8).any(|core| !self.bench.protocol().entries(core).is_empty());
        let race = self.bench.log().first_race() != 0;
        self.table.add_if(open, "set-ups", "while a place is open");
        self.table
            .add_if(buffers, "set-ups", "while there are buffered stores");
        self.table.add_if(race, "set-ups", "after a race");
        self.table
            .add_if(!open && !buffers && !race, "set-ups", "after none of these");
    }

    fn is_open(&self) -> bool {
        self.bench.next_open(0).is_some()
    }

    fn write(&mut self, code: u8, room: usize, steps: &[Step]) {
        let steps = steps.to_vec();
        let needed = file::write(&Study { code, steps }).len();
        let row = match (code, room < needed) {
            (1..=4, _) => format!("known code, room: {}", fit(needed, room)),
            (_, true) => "unknown code, too little room".into(),
            (_, false) => "unknown code, room enough".into(),
        };
        self.table.add("writer", &row);
    }

    fn file(&mut self, room: usize, bytes: &[u8]) {
        let row = match file::read(bytes) {
            Ok(study) => {
                let needed = report::length(study.steps.len());
                format!("sound, output: {}", fit(needed, room))
            }
            Err(_) if room >= report::length(0) => "a fault, output for a report".into(),
            Err(fault) => format!("fault {}, output too short", fault.cause.number()),
        };
        self.table.add("study files", &row);
    }

    fn study(&mut self, steps: &[Step], parts: &[Part], answers: usize, room: usize) {
        let needed = rooms(parts);
        let row = match (answers < parts.len(), room < needed) {
            (true, true) => "too few answers and outcomes".into(),
            (true, false) => format!("answers: {}", fit(parts.len(), answers)),
            (false, true) => format!("outcomes: {}", fit(needed, room)),
            (false, false) => match (answers > parts.len(), room > needed) {
                (false, false) => "exactly enough of both".into(),
                (true, true) => "more than enough of both".into(),
                (true, false) => "more than enough answers".into(),
                (false, true) => "more than enough outcomes".into(),
            },
        };
        self.table.add("whole studies", &row);
        let made = answers >= parts.len() && room >= needed;
        let row = if made {
            "made, on a bench with a place open"
        } else {
            "turned down, on a bench with a place open"
        };
        let open = self.is_open();
        self.table.add_if(open, "whole studies", row);
        if made {
            self.parts(steps, parts);
        }
    }

    /// What the parts of a study that is made come to.
    fn parts(&mut self, steps: &[Step], parts: &[Part]) {
        let requests = text::requests_of(parts, steps);
        let mut answers = vec![FILL_ANSWER; parts.len()];
        let mut outcomes = vec![FILL; rooms(parts)];
        let mut bench = self.bench.clone();
        whole::study(&mut bench, &requests, &mut answers, &mut outcomes)
            .expect("there are answers and outcomes enough");
        for ((part, request), answer) in parts.iter().zip(&requests).zip(answers) {
            let row = part_row(*part, *request, answer, steps.len());
            self.table.add("parts of whole studies", row);
        }
        let left = outcomes.last() == Some(&FILL);
        self.table
            .add_if(left, "parts of whole studies", "room left at the end");
    }
}

/// The row of a part of a study with so many steps, by the request that it stands for.
fn part_row(part: Part, request: whole::Request, answer: Answer, steps: usize) -> &'static str {
    let past = matches!(part, Part::Step { index } if usize::from(index) >= steps);
    let beyond = match (part, request) {
        (Part::Run { count, .. }, whole::Request::Run { steps, .. }) => {
            steps.len() < usize::from(count)
        }
        _ => false,
    };
    match answer {
        Answer::Stepped(_) if past => "step past the steps",
        Answer::Stepped(marked) => match marked.outcome {
            Outcome::Refused(_) => "step, refused",
            Outcome::Waits => "step, waits",
            Outcome::Ended(_) => "step, ended",
            Outcome::Moved | Outcome::Finished(_) => "step, moved",
        },
        Answer::Ran(Err(_)) => "run without room",
        Answer::Ran(Ok(())) if beyond => "run beyond the steps",
        Answer::Ran(Ok(())) => "run with room",
        Answer::Settled(settled) => match (settled.moves, settled.open) {
            (0, true) => "settle without room, a place is open",
            (_, true) => "settle, a place is still open",
            (0, false) => "settle, no place was open",
            (_, false) => "settle, no place is open any more",
        },
        Answer::Imaged(Ok(_)) => "image",
        Answer::Imaged(Err(_)) => "image, refused",
        Answer::Found(Some(_)) => "next open place",
        Answer::Found(None) => "next open place, none",
    }
}
