//! What is printed for lists of requests.

use std::fmt::Write;
use std::iter;

use crate::bench::{Bench, Marked, Settled};
use crate::call::{self, CallFault};
use crate::lists::format::{self, Part, Reader, Request};
use crate::protocol::Stack;
use crate::report;
use crate::step::{Call, Ended, Outcome, Refusal, Step};
use crate::whole::{self, Answer};

/// What every list for outcomes is filled with: no step comes to it.
pub const FILL: Marked = Marked {
    outcome: Outcome::Ended(Ended {
        call: Call::Evict {
            core: 255,
            line: 255,
        },
        answer: None,
    }),
    races: true,
};

pub const FILL_ANSWER: Answer = Answer::Found(Some(255));
const FILL_BYTE: u8 = 0xee;

/// The step that an outcome is shown as where its own step is not shown.
const ANY_MOVE: Step = Step::Move { place: 0 };

const BROKEN: &str = "broken\n";

/// The text of an input.
pub fn of_input(input: &[u8]) -> String {
    let lists = format::split(input).into_iter();
    lists
        .map(|list| list.map_or(BROKEN.into(), of_list))
        .collect()
}

/// The text of one list.
pub fn of_list(list: &[u8]) -> String {
    let Ok((stack, mut reader)) = Reader::new(list) else {
        return BROKEN.into();
    };
    let mut bench = Bench::new(stack.cleared());
    let mut text = heading(stack);
    while let Some(request) = reader.next() {
        match request {
            Ok(request) => push_request(&mut text, &mut bench, &request),
            Err(_) => return text + BROKEN,
        }
    }
    text
}

fn heading(stack: Stack) -> String {
    format!("list {} {}\n", stack.bottom.number(), stack.buffers)
}

/// Makes a request, and prints what it comes to.
pub fn push_request(text: &mut String, bench: &mut Bench, request: &Request) {
    match request {
        Request::Step(step) => report::push_step_line(text, *step, bench.step(*step)),
        Request::Run { steps, room } => {
            let mut outcomes = vec![FILL; (*room).into()];
            push_ran(text, bench.run(steps, &mut outcomes));
            push_outcomes(text, steps, &outcomes);
        }
        Request::Settle { room } => {
            let mut outcomes = vec![FILL; (*room).into()];
            push_settled(text, bench.settle(&mut outcomes));
            push_outcomes(text, &[], &outcomes);
        }
        Request::Image { address } => push_image(text, bench.image_of(*address)),
        Request::NextOpen { place } => push_next(text, bench.next_open(*place)),
        Request::Counts => *text += &report::counts_line(bench.log()),
        Request::SetUp => {
            bench.set_up();
            *text += "set up\n";
        }
        Request::Write { code, room, steps } => {
            let mut buffer = vec![FILL_BYTE; (*room).into()];
            push_length(text, "wrote", call::write_file(*code, steps, &mut buffer));
            report::push_hex_line(text, &buffer);
        }
        Request::File { room, bytes } => {
            let mut output = vec![FILL_BYTE; (*room).into()];
            push_length(text, "report", call::run_file(bytes, &mut output));
            report::push_hex_line(text, &output);
        }
        Request::Study {
            steps,
            parts,
            answers,
            room,
        } => {
            let requests = requests_of(parts, steps);
            let mut answers = vec![FILL_ANSWER; (*answers).into()];
            let mut outcomes = vec![FILL; (*room).into()];
            let written = whole::study(bench, &requests, &mut answers, &mut outcomes);
            push_length(text, "study", written);
            for answer in answers {
                push_answer(text, answer);
            }
            push_outcomes(text, &[], &outcomes);
        }
    }
}

/// The requests that the parts of a whole study stand for.
pub fn requests_of<'a>(parts: &[Part], steps: &'a [Step]) -> Vec<whole::Request<'a>> {
    let request = |&part: &Part| match part {
        Part::Step { index } => {
            let past = Step::Move { place: 255 };
            whole::Request::Step(*steps.get(usize::from(index)).unwrap_or(&past))
        }
        Part::Run { from, count, room } => {
            let behind = steps.get(from.into()..).unwrap_or_default();
            whole::Request::Run {
                steps: &behind[..behind.len().min(count.into())],
                room: room.into(),
            }
        }
        Part::Settle { room } => whole::Request::Settle { room: room.into() },
        Part::Image { address } => whole::Request::Image { address },
        Part::NextOpen { place } => whole::Request::NextOpen { place },
    };
    parts.iter().map(request).collect()
}

/// A line for each outcome, shown as that of its step, or of a move past the steps.
fn push_outcomes(text: &mut String, steps: &[Step], outcomes: &[Marked]) {
    let steps = steps.iter().copied().chain(iter::repeat(ANY_MOVE));
    for (step, &outcome) in steps.zip(outcomes) {
        report::push_step_line(text, step, outcome);
    }
}

fn push_answer(text: &mut String, answer: Answer) {
    match answer {
        Answer::Stepped(marked) => report::push_step_line(text, ANY_MOVE, marked),
        Answer::Ran(ran) => push_ran(text, ran),
        Answer::Settled(settled) => push_settled(text, settled),
        Answer::Imaged(image) => push_image(text, image),
        Answer::Found(place) => push_next(text, place),
    }
}

fn push_ran(text: &mut String, ran: Result<(), CallFault>) {
    match ran {
        Ok(()) => *text += "run done\n",
        Err(fault) => *text += &fault.line(),
    }
}

fn push_settled(text: &mut String, settled: Settled) {
    let open = if settled.open { "open" } else { "shut" };
    _ = writeln!(text, "settle {:05} {open}", settled.moves);
}

fn push_image(text: &mut String, image: Result<u8, Refusal>) {
    _ = match image {
        Ok(byte) => writeln!(text, "image {byte:02x}"),
        Err(refusal) => writeln!(text, "image refused {:02}", refusal.number()),
    };
}

fn push_next(text: &mut String, place: Option<u8>) {
    _ = match place {
        Some(place) => writeln!(text, "next {place:05}"),
        None => writeln!(text, "next none"),
    };
}

fn push_length(text: &mut String, word: &str, length: Result<usize, CallFault>) {
    match length {
        Ok(length) => _ = writeln!(text, "{word} {length:05}"),
        Err(fault) => *text += &fault.line(),
    }
}
