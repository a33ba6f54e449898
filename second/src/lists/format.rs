//! Lists of requests as bytes: reading and writing.

use crate::block;
use crate::file;
use crate::protocol::{Bottom, Stack};
use crate::step::{Call, Step};

#[derive(Clone, Debug, PartialEq, Eq)]
pub enum Request {
    Step(Step),
    Run {
        steps: Vec<Step>,
        room: u8,
    },
    Settle {
        room: u8,
    },
    Image {
        address: u8,
    },
    NextOpen {
        place: u8,
    },
    Counts,
    SetUp,
    Write {
        code: u8,
        room: u16,
        steps: Vec<Step>,
    },
    File {
        room: u16,
        bytes: Vec<u8>,
    },
    Study {
        steps: Vec<Step>,
        parts: Vec<Part>,
        answers: u8,
        room: u8,
    },
}

/// A request of a whole study. Its steps are named by their position.
#[derive(Clone, Copy, Debug, PartialEq, Eq)]
pub enum Part {
    Step { index: u8 },
    Run { from: u8, count: u8, room: u8 },
    Settle { room: u8 },
    Image { address: u8 },
    NextOpen { place: u8 },
}

/// Why a list cannot be read on.
#[derive(Clone, Copy, Debug, PartialEq, Eq)]
pub enum Broken {
    /// One of the first two bytes is missing, or is no number of a stack.
    Stack,
    CutShort,
    UnknownRequest,
    UnknownStep,
    UnknownPart,
}

/// Takes a list apart, from its start on.
pub struct Reader<'a> {
    left: &'a [u8],
}

impl<'a> Reader<'a> {
    /// What the list stands over, and a reader of its requests.
    pub fn new(list: &'a [u8]) -> Result<(Stack, Self), Broken> {
        let &[bottom, buffers @ 0..=2, ref left @ ..] = list else {
            return Err(Broken::Stack);
        };
        let bottom = match bottom {
            1 => Bottom::Neat,
            2 => Bottom::Mesi,
            _ => return Err(Broken::Stack),
        };
        Ok((Stack { bottom, buffers }, Reader { left }))
    }

    /// The next request, or nothing at the end of the list.
    pub fn next(&mut self) -> Option<Result<Request, Broken>> {
        (!self.left.is_empty()).then(|| self.request())
    }

    fn byte(&mut self) -> Result<u8, Broken> {
        let (&byte, left) = self.left.split_first().ok_or(Broken::CutShort)?;
        self.left = left;
        Ok(byte)
    }

    fn two_bytes(&mut self) -> Result<u16, Broken> {
        Ok(u16::from_le_bytes([self.byte()?, self.byte()?]))
    }

    fn bytes(&mut self, count: usize) -> Result<Vec<u8>, Broken> {
        let (bytes, left) = self.left.split_at_checked(count).ok_or(Broken::CutShort)?;
        self.left = left;
        Ok(bytes.to_vec())
    }

    fn request(&mut self) -> Result<Request, Broken> {
        Ok(match self.byte()? {
            1 => Request::Step(self.step()?),
            2 => {
                let (count, room) = (self.byte()?, self.byte()?);
                let steps = self.steps(count)?;
                Request::Run { steps, room }
            }
            3 => Request::Settle { room: self.byte()? },
            4 => Request::Image {
                address: self.byte()?,
            },
            5 => Request::NextOpen {
                place: self.byte()?,
            },
            6 => Request::Counts,
            7 => Request::SetUp,
            8 => {
                let (code, room, count) = (self.byte()?, self.two_bytes()?, self.byte()?);
                let steps = self.steps(count)?;
                Request::Write { code, room, steps }
            }
            9 => {
                let (room, length) = (self.two_bytes()?, self.two_bytes()?);
                let bytes = self.bytes(length.into())?;
                Request::File { room, bytes }
            }
            10 => {
                let count = self.byte()?;
                let steps = self.steps(count)?;
                let parts = (0..self.byte()?)
                    .map(|_| self.part())
                    .collect::<Result<_, _>>()?;
                let (answers, room) = (self.byte()?, self.byte()?);
                Request::Study {
                    steps,
                    parts,
                    answers,
                    room,
                }
            }
            _ => return Err(Broken::UnknownRequest),
        })
    }

    fn steps(&mut self, count: u8) -> Result<Vec<Step>, Broken> {
        (0..count).map(|_| self.step()).collect()
    }

    fn step(&mut self) -> Result<Step, Broken> {
        let kind = self.byte()?;
        Ok(match kind {
            2 => Step::Call(Call::Load {
                core: self.byte()?,
                address: self.byte()?,
            }),
            3 => Step::Call(Call::Store {
                core: self.byte()?,
                address: self.byte()?,
                byte: self.byte()?,
            }),
            4 => Step::Call(Call::Acquire { core: self.byte()? }),
            5 => Step::Call(Call::Release { core: self.byte()? }),
            6 => Step::Call(Call::Evict {
                core: self.byte()?,
                line: self.byte()?,
            }),
            7 => Step::Move {
                place: self.byte()?,
            },
            _ => return Err(Broken::UnknownStep),
        })
    }

    fn part(&mut self) -> Result<Part, Broken> {
        Ok(match self.byte()? {
            1 => Part::Step {
                index: self.byte()?,
            },
            2 => Part::Run {
                from: self.byte()?,
                count: self.byte()?,
                room: self.byte()?,
            },
            3 => Part::Settle { room: self.byte()? },
            4 => Part::Image {
                address: self.byte()?,
            },
            5 => Part::NextOpen {
                place: self.byte()?,
            },
            _ => return Err(Broken::UnknownPart),
        })
    }
}

/// The bytes of a list.
pub fn write(stack: Stack, requests: &[Request]) -> Vec<u8> {
    let mut bytes = vec![stack.bottom.number(), stack.buffers];
    for request in requests {
        push_request(&mut bytes, request);
    }
    bytes
}

/// The numbers of steps and parts are below 256, and those of bytes below 65,536.
pub fn push_request(bytes: &mut Vec<u8>, request: &Request) {
    match request {
        Request::Step(step) => {
            bytes.push(1);
            push_step(bytes, *step);
        }
        Request::Run { steps, room } => {
            bytes.extend([2, steps.len() as u8, *room]);
            push_steps(bytes, steps);
        }
        Request::Settle { room } => bytes.extend([3, *room]),
        Request::Image { address } => bytes.extend([4, *address]),
        Request::NextOpen { place } => bytes.extend([5, *place]),
        Request::Counts => bytes.push(6),
        Request::SetUp => bytes.push(7),
        Request::Write { code, room, steps } => {
            bytes.extend([8, *code]);
            bytes.extend(room.to_le_bytes());
            bytes.push(steps.len() as u8);
            push_steps(bytes, steps);
        }
        Request::File { room, bytes: file } => {
            bytes.push(9);
            bytes.extend(room.to_le_bytes());
            bytes.extend((file.len() as u16).to_le_bytes());
            bytes.extend(file);
        }
        Request::Study {
            steps,
            parts,
            answers,
            room,
        } => {
            bytes.extend([10, steps.len() as u8]);
            push_steps(bytes, steps);
            bytes.push(parts.len() as u8);
            parts.iter().for_each(|&part| push_part(bytes, part));
            bytes.extend([*answers, *room]);
        }
    }
}

fn push_steps(bytes: &mut Vec<u8>, steps: &[Step]) {
    steps.iter().for_each(|&step| push_step(bytes, step));
}

fn push_step(bytes: &mut Vec<u8>, step: Step) {
    let (kind, fields) = file::kind_and_fields(step);
    bytes.push(kind);
    bytes.extend(fields);
}

fn push_part(bytes: &mut Vec<u8>, part: Part) {
    match part {
        Part::Step { index } => bytes.extend([1, index]),
        Part::Run { from, count, room } => bytes.extend([2, from, count, room]),
        Part::Settle { room } => bytes.extend([3, room]),
        Part::Image { address } => bytes.extend([4, address]),
        Part::NextOpen { place } => bytes.extend([5, place]),
    }
}

/// The lists of an input, each of which stands behind its length. What is cut short is broken.
pub fn split(mut input: &[u8]) -> Vec<Result<&[u8], Broken>> {
    let mut lists = Vec::new();
    while !input.is_empty() {
        let list = block::take(&mut input).ok_or(Broken::CutShort);
        lists.push(list);
        if list.is_err() {
            break;
        }
    }
    lists
}
