//! Neat: a queue of messages for each place, and a struct for each core.
//!
//! Only the front of a queue is on its way. A GetLine that is held back stands behind the Put or
//! PutAck of its place, and comes to the front when that leaves.

use std::collections::VecDeque;

use crate::protocol::{Kind, Protocol};
use crate::step::{CORES, Call, Ended, LINE_BYTES, LINES, Refusal};

const PLACES_PER_CORE: usize = LINES + 1;
const PLACES: usize = CORES * PLACES_PER_CORE;

/// What is due for a message to the LLC, and so at most for each place of a core.
const DUE_TO_LLC: usize = 2;

type Bytes = [u8; LINE_BYTES];

/// A line's bytes, and a bit for each byte that was written.
#[derive(Clone, Copy, Debug)]
struct Block {
    bytes: Bytes,
    written: u8,
}

impl Block {
    fn clean(bytes: Bytes) -> Self {
        Block { bytes, written: 0 }
    }

    fn dirty(&self) -> bool {
        self.written != 0
    }

    fn write(&mut self, offset: usize, byte: u8) {
        self.bytes[offset] = byte;
        self.written |= 1 << offset;
    }

    /// Puts the written bytes, and no others, into a line.
    fn write_back(&self, line: &mut Bytes) {
        for (offset, byte) in line.iter_mut().enumerate() {
            if self.written & (1 << offset) != 0 {
                *byte = self.bytes[offset];
            }
        }
    }
}

#[derive(Clone, Copy, Debug)]
enum Message {
    GetLine,
    Data(Bytes),
    Put(Block),
    PutAck,
    Commit(Block),
    Close(usize),
    PutAllAck,
}

impl Message {
    fn kind(&self) -> Kind {
        match self {
            Message::GetLine => Kind::GetLine,
            Message::Data(_) => Kind::Data,
            Message::Put(_) => Kind::Put,
            Message::PutAck => Kind::PutAck,
            Message::Commit(_) => Kind::Commit,
            Message::Close(_) => Kind::Close,
            Message::PutAllAck => Kind::PutAllAck,
        }
    }
}

#[derive(Clone, Default)]
struct Core {
    /// The private lines; none is I.
    lines: [Option<Block>; LINES],
    /// The queues of the core's places: one for each line, and last the close place.
    queues: [VecDeque<Message>; PLACES_PER_CORE],
    waits: Option<Call>,
    noted: Option<usize>,
    received: usize,
}

impl Core {
    fn close_place(&mut self) -> &mut VecDeque<Message> {
        &mut self.queues[LINES]
    }

    /// A load or store: ends on a V line, else asks for the line.
    fn access(&mut self, call: Call, address: u8) -> Option<Ended> {
        let line = usize::from(address) / LINE_BYTES;
        match &mut self.lines[line] {
            Some(block) => Some(done(call, block)),
            None => {
                self.queues[line].push_back(Message::GetLine);
                self.waits = Some(call);
                None
            }
        }
    }

    fn evict(&mut self, line: usize) {
        if let Some(block) = self.lines[line].take()
            && block.dirty()
        {
            self.queues[line].push_back(Message::Put(block));
        }
    }

    /// Sends a Commit for each dirty line and then the Close. An acquire drops every line.
    fn close(&mut self, call: Call) {
        let mut commits = 0;
        for (line, queue) in self.lines.iter_mut().zip(&mut self.queues) {
            if let Some(block) = line
                && block.dirty()
            {
                queue.push_back(Message::Commit(*block));
                block.written = 0;
                commits += 1;
            }
            if matches!(call, Call::Acquire { .. }) {
                *line = None;
            }
        }
        self.close_place().push_back(Message::Close(commits));
        self.waits = Some(call);
    }

    /// Looks at the noted Close.
    fn look(&mut self) {
        if self.noted == Some(self.received) {
            self.noted = None;
            self.received = 0;
            self.close_place().push_back(Message::PutAllAck);
        }
    }

    /// Whether the core waits for an acquire or release.
    fn closes(&self) -> bool {
        matches!(
            self.waits,
            Some(Call::Acquire { .. } | Call::Release { .. })
        )
    }

    /// Ends the acquire or release that the core waits for, if the core is done.
    fn settle(&mut self) -> Option<Ended> {
        let putting = self.queues[..LINES]
            .iter()
            .flatten()
            .any(|message| matches!(message, Message::Put(_) | Message::PutAck));
        let done = self.queues[LINES].is_empty() && self.noted.is_none() && !putting;
        if self.closes() && done {
            self.waits.take().map(Ended::silent)
        } else {
            None
        }
    }

    /// Moves the front message of a place, if there is one.
    fn deliver(
        &mut self,
        place: usize,
        llc: &mut [Bytes; LINES],
    ) -> Result<Option<Ended>, Refusal> {
        let queue = &mut self.queues[place];
        let message = queue.pop_front().ok_or(Refusal::PlaceNotOpen)?;
        Ok(match message {
            Message::GetLine => {
                queue.push_front(Message::Data(llc[place]));
                None
            }
            Message::Data(bytes) => {
                let block = self.lines[place].insert(Block::clean(bytes));
                self.waits.take().map(|call| done(call, block))
            }
            Message::Put(block) => {
                block.write_back(&mut llc[place]);
                queue.push_front(Message::PutAck);
                None
            }
            Message::Commit(block) => {
                block.write_back(&mut llc[place]);
                self.received += 1;
                self.look();
                None
            }
            Message::Close(commits) => {
                self.noted = Some(commits);
                self.look();
                None
            }
            Message::PutAck | Message::PutAllAck => self.settle(),
        })
    }
}

/// Does a load or store on a line that is there.
fn done(call: Call, block: &mut Block) -> Ended {
    match call {
        Call::Load { address, .. } => {
            Ended::load(call, block.bytes[usize::from(address) % LINE_BYTES])
        }
        Call::Store { address, byte, .. } => {
            block.write(usize::from(address) % LINE_BYTES, byte);
            Ended::silent(call)
        }
        Call::Acquire { .. } | Call::Release { .. } | Call::Evict { .. } => Ended::silent(call),
    }
}

#[derive(Clone)]
pub struct Neat {
    cores: [Core; CORES],
    llc: [Bytes; LINES],
}

impl Neat {
    pub fn new() -> Self {
        Neat {
            cores: Default::default(),
            llc: Default::default(),
        }
    }
}

impl Protocol for Neat {
    fn clear(&mut self) {
        *self = Neat::new();
    }

    fn begin(&mut self, call: Call) -> Option<Ended> {
        let core = &mut self.cores[usize::from(call.core())];
        match call {
            Call::Load { address, .. } | Call::Store { address, .. } => core.access(call, address),
            Call::Acquire { .. } | Call::Release { .. } => {
                core.close(call);
                None
            }
            Call::Evict { line, .. } => {
                core.evict(line.into());
                Some(Ended::silent(call))
            }
        }
    }

    fn deliver(&mut self, place: u8) -> Result<Option<Ended>, Refusal> {
        let place = usize::from(place);
        self.cores
            .get_mut(place / PLACES_PER_CORE)
            .ok_or(Refusal::PlaceNotOpen)?
            .deliver(place % PLACES_PER_CORE, &mut self.llc)
    }

    fn waits(&self, core: u8) -> bool {
        self.cores[usize::from(core)].waits.is_some()
    }

    fn message(&self, place: u8) -> Option<Kind> {
        let place = usize::from(place);
        let core = self.cores.get(place / PLACES_PER_CORE)?;
        core.queues[place % PLACES_PER_CORE]
            .front()
            .map(Message::kind)
    }

    fn next_open(&self, place: u8) -> Option<u8> {
        let queues = self.cores.iter().flat_map(|core| &core.queues);
        (0..PLACES as u8)
            .zip(queues)
            .skip(place.into())
            .find(|(_, queue)| !queue.is_empty())
            .map(|(place, _)| place)
    }

    fn home(&self, address: u8) -> u8 {
        let address = usize::from(address);
        self.llc[address / LINE_BYTES][address % LINE_BYTES]
    }

    fn reach(&self) -> usize {
        Neat::REACH
    }

    fn fork(&self) -> Box<dyn Protocol> {
        Box::new(self.clone())
    }
}

impl Neat {
    /// Eight Commits and a Close.
    pub const REACH: usize = PLACES_PER_CORE * DUE_TO_LLC;

    /// The bound on the moves still to come.
    pub fn due(&self) -> usize {
        self.cores
            .iter()
            .flat_map(|core| &core.queues)
            .flatten()
            .map(|message| match message.kind() {
                Kind::GetLine | Kind::Put | Kind::Commit | Kind::Close => DUE_TO_LLC,
                Kind::Data | Kind::PutAck | Kind::PutAllAck => 1,
            })
            .sum()
    }

    /// The messages behind which a GetLine is held back.
    pub fn held_back_behind(&self) -> Vec<Kind> {
        self.cores
            .iter()
            .flat_map(|core| &core.queues)
            .filter(|queue| queue.len() > 1)
            .filter_map(|queue| queue.front().map(Message::kind))
            .collect()
    }

    /// Whether the Close of some core is noted.
    pub fn has_noted(&self) -> bool {
        self.cores.iter().any(|core| core.noted.is_some())
    }

    /// Whether some core waits for an acquire or release whose PutAllAck has come.
    pub fn waits_for_puts(&self) -> bool {
        self.cores
            .iter()
            .any(|core| core.closes() && core.queues[LINES].is_empty() && core.noted.is_none())
    }
}
