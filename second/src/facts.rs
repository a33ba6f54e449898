//! Studies with what is known of their ends, as definitions to be checked against proved rules.

use std::fmt::Write;

use crate::mesi::{Mesi, State};
use crate::neat::Neat;
use crate::play::{self, Length};
use crate::protocol::{self, Bottom, Kind, Protocol, Stack};
use crate::random::Random;
use crate::step::{CORES, Call, LINES, Step};

/// How many studies each protocol has.
const STUDIES: u64 = 24;

/// No line is longer, if it can be broken.
const WIDTH: usize = 140;

const HEADING: &str = "\
-- Made by the second program from the rules in docs/: studies with what is known of their ends.
use Rattle.std.specs.Prelude.{ℕ, List, [], ◌∷◌}
use Rattle.protocol.specs.declared.steps.Step.TheVariants.{Load, Store, Acquire, Release, Evict, Move}
use Rattle.known_studies.specs.Ends.{Ending, ending}
";

/// A study, and the numbers that are known of its end.
pub struct Ending {
    pub steps: Vec<Step>,
    pub known: Vec<usize>,
}

/// The text for a seed.
pub fn text(seed: u64) -> String {
    let mut text = String::from(HEADING);
    text += "\n-- Under Neat, with due after the last step.\n";
    push_endings(&mut text, "neat_dues", &neat_dues(seed));
    text += "\n-- Under bus MESI, with each copy after the last step, line by line and core by core: \
             0 is I, 1 S, 2 E, 3 M.\n";
    push_endings(&mut text, "mesi_copies", &mesi_copies(seed));
    text += "\n-- The reach of a buffer over bus MESI, over Neat, over a buffer over bus MESI, \
             and over a buffer over Neat.\n";
    _ = writeln!(
        text,
        "abbrev pub reaches : List ℕ\nreaches = {}",
        list(reaches())
    );
    text
}

fn push_endings(text: &mut String, name: &str, endings: &[Ending]) {
    _ = writeln!(text, "abbrev pub {name} : List Ending\n{name} =");
    let mut start = "    ";
    for ending in endings {
        let steps = list(ending.steps.iter().copied().map(step_text));
        let known = list(&ending.known);
        push_wrapped(text, start, &format!("ending ({steps}) ({known})"));
        start = "    ∷ ";
    }
    _ = writeln!(text, "{start}[]");
}

/// A list as it is written down.
fn list<T: ToString>(items: impl IntoIterator<Item = T>) -> String {
    let items = items.into_iter().map(|item| item.to_string());
    let items: Vec<String> = items.chain(["[]".into()]).collect();
    items.join(" ∷ ")
}

fn step_text(step: Step) -> String {
    match step {
        Step::Call(Call::Load { core, address }) => format!("Load {core} {address}"),
        Step::Call(Call::Store {
            core,
            address,
            byte,
        }) => format!("Store {core} {address} {byte}"),
        Step::Call(Call::Acquire { core }) => format!("Acquire {core}"),
        Step::Call(Call::Release { core }) => format!("Release {core}"),
        Step::Call(Call::Evict { core, line }) => format!("Evict {core} {line}"),
        Step::Move { place } => format!("Move {place}"),
    }
}

/// Adds an expression, which is broken before a `∷` where a line would be too long.
fn push_wrapped(text: &mut String, start: &str, expression: &str) {
    let length = |text: &str| text.chars().count();
    let mut pieces = expression.split(" ∷ ");
    let mut line = format!("{start}{}", pieces.next().unwrap_or_default());
    for piece in pieces {
        if length(&line) + length(piece) + 3 > WIDTH {
            _ = writeln!(text, "{line}");
            line = format!("    ∷ {piece}");
        } else {
            _ = write!(line, " ∷ {piece}");
        }
    }
    _ = writeln!(text, "{line}");
}

/// The reaches of one buffer and of two.
pub fn reaches() -> [usize; 4] {
    let reach = |bottom, buffers| Stack { bottom, buffers }.cleared().reach();
    [
        reach(Bottom::Mesi, 1),
        reach(Bottom::Neat, 1),
        reach(Bottom::Mesi, 2),
        reach(Bottom::Neat, 2),
    ]
}

/// The protocol after some steps.
fn after<P: Protocol>(mut protocol: P, steps: &[Step]) -> P {
    for &step in steps {
        protocol::step(&mut protocol, step);
    }
    protocol
}

/// Draws studies of a code until one ends as is asked for.
fn draw(
    random: &mut Random,
    code: u8,
    (shortest, longest): (usize, usize),
    ends: impl Fn(&[Step]) -> bool,
) -> Vec<Step> {
    loop {
        let length = random.between(shortest, longest);
        let study = play::study(random, code, 4, Length::Exactly(length));
        if ends(&study.steps) {
            return study.steps;
        }
    }
}

/// What a study under Neat ends with.
#[derive(Clone, Copy)]
enum NeatEnd {
    Carries(Kind),
    HeldBackBehind(Kind),
    Noted,
    /// An acquire or release waits for nothing but Puts and PutAcks.
    WaitsForPuts,
    Several,
    Nothing,
}

const NEAT_ENDS: [NeatEnd; 13] = [
    NeatEnd::Carries(Kind::GetLine),
    NeatEnd::Carries(Kind::Data),
    NeatEnd::Carries(Kind::Put),
    NeatEnd::Carries(Kind::PutAck),
    NeatEnd::Carries(Kind::Commit),
    NeatEnd::Carries(Kind::Close),
    NeatEnd::Carries(Kind::PutAllAck),
    NeatEnd::HeldBackBehind(Kind::Put),
    NeatEnd::HeldBackBehind(Kind::PutAck),
    NeatEnd::Noted,
    NeatEnd::WaitsForPuts,
    NeatEnd::Several,
    NeatEnd::Nothing,
];

impl NeatEnd {
    fn holds(self, neat: &Neat) -> bool {
        let open = protocol::open_places(neat);
        match self {
            NeatEnd::Carries(kind) => open.iter().any(|&place| neat.message(place) == Some(kind)),
            NeatEnd::HeldBackBehind(kind) => neat.held_back_behind().contains(&kind),
            NeatEnd::Noted => neat.has_noted(),
            NeatEnd::WaitsForPuts => neat.waits_for_puts(),
            NeatEnd::Several => open.len() > 4,
            NeatEnd::Nothing => open.is_empty(),
        }
    }
}

/// Studies under Neat, with due after the last step.
pub fn neat_dues(seed: u64) -> Vec<Ending> {
    let ending = |number| {
        let random = &mut Random::of_case(seed, number);
        let end = NEAT_ENDS[number as usize % NEAT_ENDS.len()];
        let steps = draw(random, 1, (8, 24), |steps| {
            end.holds(&after(Neat::new(), steps))
        });
        let known = vec![after(Neat::new(), &steps).due()];
        Ending { steps, known }
    };
    (0..STUDIES).map(ending).collect()
}

/// What a study under bus MESI ends with.
#[derive(Clone, Copy)]
enum MesiEnd {
    Has(State),
    /// A core has S, and no other core holds the line.
    LoneShared,
    SharedByThree,
    AllStates,
}

const MESI_ENDS: [MesiEnd; 6] = [
    MesiEnd::Has(State::Shared),
    MesiEnd::Has(State::Exclusive),
    MesiEnd::Has(State::Modified),
    MesiEnd::LoneShared,
    MesiEnd::SharedByThree,
    MesiEnd::AllStates,
];

impl MesiEnd {
    fn holds(self, mesi: &Mesi) -> bool {
        let has = |state| states(mesi).any(|found| found == Some(state));
        let sharers = |line| {
            let shares = |&core: &usize| mesi.state(core, line) == Some(State::Shared);
            (0..CORES).filter(shares).count()
        };
        match self {
            MesiEnd::Has(state) => has(state),
            MesiEnd::LoneShared => (0..LINES).any(|line| sharers(line) == 1),
            MesiEnd::SharedByThree => (0..LINES).any(|line| sharers(line) >= 3),
            MesiEnd::AllStates => {
                has(State::Shared) && has(State::Exclusive) && has(State::Modified)
            }
        }
    }
}

/// The state of each copy, line by line and core by core; none is I.
fn states(mesi: &Mesi) -> impl Iterator<Item = Option<State>> {
    (0..LINES).flat_map(move |line| (0..CORES).map(move |core| mesi.state(core, line)))
}

fn state_number(state: Option<State>) -> usize {
    match state {
        None => 0,
        Some(State::Shared) => 1,
        Some(State::Exclusive) => 2,
        Some(State::Modified) => 3,
    }
}

/// Studies under bus MESI, with the number of each copy's state after the last step.
pub fn mesi_copies(seed: u64) -> Vec<Ending> {
    let ending = |number| {
        let random = &mut Random::of_case(seed, STUDIES + number);
        let end = MESI_ENDS[number as usize % MESI_ENDS.len()];
        let steps = draw(random, 2, (6, 16), |steps| {
            end.holds(&after(Mesi::new(), steps))
        });
        let mesi = after(Mesi::new(), &steps);
        let known = states(&mesi).map(state_number).collect();
        Ending { steps, known }
    };
    (0..STUDIES).map(ending).collect()
}
