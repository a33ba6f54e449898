//! Study files: reading, writing, and what is wrong with those that are turned down.

use crate::step::{Call, Step};

pub const MOST_BYTES: usize = 32_768;
pub const MOST_STEPS: usize = 4_096;

#[derive(Clone, Debug, PartialEq, Eq)]
pub struct Study {
    pub code: u8,
    pub steps: Vec<Step>,
}

/// Every way in which a file can be wrong.
#[derive(Clone, Copy, Debug, PartialEq, Eq)]
pub enum Cause {
    LengthMissing,
    BodyMissing,
    UnknownKind,
    LengthBelowTwo,
    LengthNotKinds,
    NoRecord,
    FirstNotProtocol,
    LaterProtocol,
    UnknownCode,
    TooManyBytes,
    TooManySteps,
}

impl Cause {
    pub fn number(self) -> u8 {
        match self {
            Cause::LengthMissing | Cause::BodyMissing => 5,
            Cause::UnknownKind => 6,
            Cause::LengthBelowTwo | Cause::LengthNotKinds => 7,
            Cause::NoRecord | Cause::FirstNotProtocol | Cause::LaterProtocol => 8,
            Cause::UnknownCode => 9,
            Cause::TooManyBytes | Cause::TooManySteps => 10,
        }
    }

    pub fn layer(self) -> u8 {
        match self.number() {
            8 | 9 => 2,
            _ => 1,
        }
    }
}

#[derive(Clone, Copy, Debug, PartialEq, Eq)]
pub struct Fault {
    pub cause: Cause,
    pub place: usize,
}

enum Record {
    Protocol { code: u8 },
    Step(Step),
}

/// The first record of the bytes, and how many bytes it has.
fn record(bytes: &[u8]) -> Result<(Record, usize), Cause> {
    let (length, rest) = bytes.split_first_chunk().ok_or(Cause::LengthMissing)?;
    let length = usize::from(u16::from_le_bytes(*length));
    let content = rest.get(..length).ok_or(Cause::BodyMissing)?;
    let (kind, body) = content.split_first_chunk().ok_or(Cause::LengthBelowTwo)?;
    let record = match (u16::from_le_bytes(*kind), body) {
        (1, &[code]) => Record::Protocol { code },
        (2, &[core, address]) => Record::Step(Step::Call(Call::Load { core, address })),
        (3, &[core, address, byte]) => Record::Step(Step::Call(Call::Store {
            core,
            address,
            byte,
        })),
        (4, &[core]) => Record::Step(Step::Call(Call::Acquire { core })),
        (5, &[core]) => Record::Step(Step::Call(Call::Release { core })),
        (6, &[core, line]) => Record::Step(Step::Call(Call::Evict { core, line })),
        (7, &[place]) => Record::Step(Step::Move { place }),
        (1..=7, _) => return Err(Cause::LengthNotKinds),
        _ => return Err(Cause::UnknownKind),
    };
    Ok((record, 2 + length))
}

pub fn read(bytes: &[u8]) -> Result<Study, Fault> {
    if bytes.len() > MOST_BYTES {
        return Err(Fault {
            cause: Cause::TooManyBytes,
            place: MOST_BYTES,
        });
    }
    let mut study: Option<Study> = None;
    let mut place = 0;
    while place < bytes.len() {
        let fault = |cause| Fault { cause, place };
        let (record, size) = record(&bytes[place..]).map_err(fault)?;
        match (record, &mut study) {
            (Record::Protocol { .. }, Some(_)) => return Err(fault(Cause::LaterProtocol)),
            (Record::Step(_), None) => return Err(fault(Cause::FirstNotProtocol)),
            (Record::Protocol { code: 1..=4 }, None) => {
                study = Some(Study {
                    code: bytes[place + size - 1],
                    steps: Vec::new(),
                });
            }
            (Record::Protocol { .. }, None) => return Err(fault(Cause::UnknownCode)),
            (Record::Step(step), Some(study)) => {
                if study.steps.len() == MOST_STEPS {
                    return Err(fault(Cause::TooManySteps));
                }
                study.steps.push(step);
            }
        }
        place += size;
    }
    study.ok_or(Fault {
        cause: Cause::NoRecord,
        place: 0,
    })
}

/// A record of a kind with any body.
pub fn raw_record(kind: u16, body: &[u8]) -> Vec<u8> {
    let length = 2 + body.len() as u16;
    [&length.to_le_bytes(), &kind.to_le_bytes(), body].concat()
}

pub fn protocol_record(code: u8) -> Vec<u8> {
    raw_record(1, &[code])
}

/// The kind of a step, and its fields.
pub fn kind_and_fields(step: Step) -> (u8, Vec<u8>) {
    match step {
        Step::Call(Call::Load { core, address }) => (2, vec![core, address]),
        Step::Call(Call::Store {
            core,
            address,
            byte,
        }) => (3, vec![core, address, byte]),
        Step::Call(Call::Acquire { core }) => (4, vec![core]),
        Step::Call(Call::Release { core }) => (5, vec![core]),
        Step::Call(Call::Evict { core, line }) => (6, vec![core, line]),
        Step::Move { place } => (7, vec![place]),
    }
}

pub fn step_record(step: Step) -> Vec<u8> {
    let (kind, fields) = kind_and_fields(step);
    raw_record(kind.into(), &fields)
}

/// The records of a study, one by one.
pub fn records(study: &Study) -> Vec<Vec<u8>> {
    let steps = study.steps.iter().copied().map(step_record);
    std::iter::once(protocol_record(study.code))
        .chain(steps)
        .collect()
}

pub fn write(study: &Study) -> Vec<u8> {
    records(study).concat()
}
