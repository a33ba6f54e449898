//! Watches the steps of a study, and counts what they come to.

use crate::bench::{Bench, Marked};
use crate::buffer::ENTRIES;
use crate::protocol::{self, Kind};
use crate::step::{CORES, Call, Ended, Outcome, Refusal, Step};
use crate::table::Table;

const PUTTING: [Kind; 2] = [Kind::Put, Kind::PutAck];

/// The first place that is none of Neat's.
const NO_PLACE: u8 = 72;

pub struct Watch<'a> {
    table: &'a mut Table,
    bench: Bench,
    ended: Vec<Call>,
    /// Whether a Commit of the core was moved before the Close that it was sent with.
    early_commit: [bool; CORES],
}

/// What is looked at before a step, to tell afterwards what it did.
struct Before {
    /// The message at the moved place, or at the place of the call's line.
    message: Option<Kind>,
    /// Whether a Put or PutAck of the core is on its way.
    putting: bool,
    waits: bool,
    /// The addresses of the core's entries, oldest first.
    entries: Vec<u8>,
}

impl<'a> Watch<'a> {
    pub fn new(table: &'a mut Table, code: u8) -> Self {
        let protocol = protocol::by_code(code).expect("a study that was read has a known code");
        Watch {
            table,
            bench: Bench::new(protocol),
            ended: Vec::new(),
            early_commit: [false; CORES],
        }
    }

    pub fn step(&mut self, step: Step) {
        let before = self.look(step);
        let marked = self.bench.step(step);
        if let Some(ended) = marked.outcome.ended() {
            self.ended(step, ended, marked);
            self.ended.push(ended.call);
        }
        match step {
            Step::Call(call) => self.called(call, marked.outcome, &before),
            Step::Move { place } => self.moved(place, marked.outcome, &before),
        }
    }

    fn message(&self, place: u8) -> Option<Kind> {
        self.bench.protocol().message(place)
    }

    fn situation(&mut self, holds: bool, row: &str) {
        self.table.add_if(holds, "situations", row);
    }

    fn buffers(&self, core: u8) -> bool {
        !self.bench.protocol().entries(core).is_empty()
    }

    fn look(&self, step: Step) -> Before {
        let protocol = self.bench.protocol();
        let (core, place) = match step {
            Step::Call(call) => (call.core(), line_place(call)),
            Step::Move { place } => (place / 9, Some(place)),
        };
        if usize::from(core) >= CORES {
            return Before {
                message: None,
                putting: false,
                waits: false,
                entries: Vec::new(),
            };
        }
        let entries = protocol.entries(core);
        Before {
            message: place.and_then(|place| protocol.message(place)),
            putting: (0..8).any(|line| is_putting(protocol.message(core * 9 + line))),
            waits: protocol.waits(core),
            entries: entries.into_iter().map(|(address, _)| address).collect(),
        }
    }

    fn ended(&mut self, step: Step, ended: Ended, marked: Marked) {
        let name = ended.call.name();
        let way = match step {
            Step::Call(_) => "at once",
            Step::Move { .. } => "by a move",
        };
        self.table.add("calls ended", &format!("{name} {way}"));
        let (Call::Load { core, address } | Call::Store { core, address, .. }) = ended.call else {
            return;
        };
        let stores = |call: &&Call| matches!(call, Call::Store { address: a, .. } if *a == address);
        let newest = self.ended.iter().rev().find(stores);
        let row = if marked.races {
            format!("{name} {way}, marked")
        } else if newest.is_some_and(|store| store.core() != core) {
            format!("{name}, another's store handed over")
        } else {
            return;
        };
        self.table.add("loads and stores ended, by mark", &row);
    }

    fn called(&mut self, call: Call, outcome: Outcome, before: &Before) {
        if let Outcome::Refused(refusal) = outcome {
            let row = refusal_row(call, refusal, before.waits);
            return self.table.add("steps refused", &row);
        }
        let waits = outcome == Outcome::Waits;
        let beside = is_putting(before.message);
        match call {
            Call::Load { address, .. } => {
                let found = before.entries.contains(&address);
                self.situation(found, "load from an entry");
                self.situation(
                    waits && beside,
                    "load or store begins with GetLine held back",
                );
            }
            Call::Store { core, address, .. } => {
                let found = before.entries.contains(&address);
                let full = before.entries.len() == ENTRIES && !found;
                // With a full buffer, the line that is asked for is the oldest entry's.
                let asked = before.entries.first().unwrap_or(&address) / 8;
                let held = waits && is_putting(self.message(core * 9 + asked));
                self.situation(found, "store replaces an entry");
                self.situation(full && !waits, "store into a full buffer, ended at once");
                self.situation(full && waits, "store into a full buffer, waits");
                self.situation(held, "load or store begins with GetLine held back");
            }
            Call::Acquire { .. } => {
                let beside = waits && before.putting;
                self.situation(beside, "acquire begins beside Put or PutAck");
            }
            Call::Release { core } => {
                let beside = waits && before.putting;
                let drains = waits && self.buffers(core);
                self.situation(beside, "release begins beside Put or PutAck");
                self.situation(drains, "release with entries, waits for a store");
            }
            Call::Evict { .. } => {
                let now = line_place(call).and_then(|place| self.message(place));
                let sends = before.message.is_none() && now == Some(Kind::Put);
                self.situation(sends, "evict sends a Put");
                self.situation(beside, "evict of an I line with Put or PutAck");
            }
        }
    }

    fn moved(&mut self, place: u8, outcome: Outcome, before: &Before) {
        let Some(kind) = before.message else {
            let row = if place < NO_PLACE {
                "4 place below 72"
            } else {
                "4 place from 72"
            };
            return self.table.add("steps refused", row);
        };
        self.table.add("messages moved", kind_name(kind));
        let core = place / 9;
        let ended = outcome.ended().map(|ended| ended.call);
        let answered = self.message(core * 9 + 8) == Some(Kind::PutAllAck);
        match kind {
            Kind::GetLine | Kind::Put => {}
            Kind::Data => {
                let row = if self.buffers(core) {
                    "release goes on in a move, next store waits"
                } else {
                    "release goes on in a move, release waits below"
                };
                self.situation(ended.is_none(), row);
            }
            Kind::PutAck | Kind::PutAllAck => {
                let follows = self.message(place) == Some(Kind::GetLine);
                self.situation(follows, "GetLine follows in the move of a PutAck");
                let left = kind == Kind::PutAllAck && ended.is_none();
                self.situation(left, "PutAllAck moved, a Put or PutAck is left");
                if let Some(call) = ended {
                    let row = format!("{} ended by a {}", call.name(), kind_name(kind));
                    self.table.add("situations", &row);
                }
            }
            Kind::Commit => {
                self.situation(answered, "Commit answered by PutAllAck");
                self.early_commit[usize::from(core)] = !answered;
            }
            Kind::Close => {
                let early = std::mem::take(&mut self.early_commit[usize::from(core)]);
                let row = match (answered, early) {
                    (false, _) => "Close noted, Commits are left",
                    (true, true) => "Close answered in its own move, Commits came before",
                    (true, false) => "Close 0 answered in its own move",
                };
                self.table.add("situations", row);
            }
        }
    }
}

fn is_putting(message: Option<Kind>) -> bool {
    message.is_some_and(|kind| PUTTING.contains(&kind))
}

/// The place of the line that a call is about, if it is about one.
fn line_place(call: Call) -> Option<u8> {
    let line = match call {
        Call::Load { address, .. } | Call::Store { address, .. } => address / 8,
        Call::Evict { line, .. } => line,
        Call::Acquire { .. } | Call::Release { .. } => return None,
    };
    (call.core() < 8 && line < 8).then(|| call.core() * 9 + line)
}

fn refusal_row(call: Call, refusal: Refusal, waits: bool) -> String {
    let beyond = match call {
        Call::Load { address, .. } | Call::Store { address, .. } => address > 63,
        Call::Evict { line, .. } => line > 7,
        Call::Acquire { .. } | Call::Release { .. } => false,
    };
    match refusal {
        Refusal::NoSuchCore if beyond => "1 core above 7, address or line beyond too".into(),
        Refusal::NoSuchCore => "1 core above 7".into(),
        Refusal::NoSuchAddress if waits => "2 address or line beyond, core waits".into(),
        Refusal::NoSuchAddress if matches!(call, Call::Evict { .. }) => "2 line above 7".into(),
        Refusal::NoSuchAddress => "2 address above 63".into(),
        Refusal::CoreWaits => format!("3 {}", call.name()),
        Refusal::PlaceNotOpen => unreachable!("no core call is refused 4"),
    }
}

fn kind_name(kind: Kind) -> &'static str {
    match kind {
        Kind::GetLine => "GetLine",
        Kind::Data => "Data",
        Kind::Put => "Put",
        Kind::PutAck => "PutAck",
        Kind::Commit => "Commit",
        Kind::Close => "Close",
        Kind::PutAllAck => "PutAllAck",
    }
}
