//! A whole study in one call: requests, and what each is answered.

use crate::bench::{Bench, Marked, Settled};
use crate::call::CallFault;
use crate::step::{Refusal, Step};

/// One request of a study. Room is how many outcomes it may write.
#[derive(Clone, Copy, Debug)]
pub enum Request<'a> {
    Step(Step),
    Run { steps: &'a [Step], room: usize },
    Settle { room: usize },
    Image { address: u8 },
    NextOpen { place: u8 },
}

impl Request<'_> {
    pub fn room(self) -> usize {
        match self {
            Request::Run { room, .. } | Request::Settle { room } => room,
            Request::Step(_) | Request::Image { .. } | Request::NextOpen { .. } => 0,
        }
    }
}

#[derive(Clone, Copy, Debug, PartialEq, Eq)]
pub enum Answer {
    Stepped(Marked),
    Ran(Result<(), CallFault>),
    Settled(Settled),
    Imaged(Result<u8, Refusal>),
    Found(Option<u8>),
}

/// Sets the bench up, answers each request, and answers how many outcomes were written. Without
/// answers for all requests and outcomes for all their rooms, nothing changes.
pub fn study(
    bench: &mut Bench,
    requests: &[Request],
    answers: &mut [Answer],
    outcomes: &mut [Marked],
) -> Result<usize, CallFault> {
    let room: usize = requests.iter().map(|request| request.room()).sum();
    if answers.len() < requests.len() || outcomes.len() < room {
        return Err(CallFault::TooFewOutcomes);
    }
    bench.set_up();
    let mut written = 0;
    for (answer, &request) in answers.iter_mut().zip(requests) {
        let free = &mut outcomes[written..written + request.room()];
        *answer = match request {
            Request::Step(step) => Answer::Stepped(bench.step(step)),
            Request::Run { steps, .. } => Answer::Ran(bench.run(steps, free)),
            Request::Settle { .. } => Answer::Settled(bench.settle(free)),
            Request::Image { address } => Answer::Imaged(bench.image_of(address)),
            Request::NextOpen { place } => Answer::Found(bench.next_open(place)),
        };
        written += match (request, *answer) {
            (Request::Run { steps, .. }, Answer::Ran(Ok(()))) => steps.len(),
            (_, Answer::Settled(settled)) => settled.moves,
            _ => 0,
        };
    }
    Ok(written)
}
