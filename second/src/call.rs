//! Calls of an embedding program: why they are turned down, and those that fill a buffer.

use crate::file::{self, Fault, MOST_STEPS, Study};
use crate::protocol::Stack;
use crate::report;
use crate::step::Step;

/// Why a call was turned down whole. What it was to fill is then left as it was.
#[derive(Clone, Copy, Debug, PartialEq, Eq)]
pub enum CallFault {
    File(Fault),
    UnknownCode,
    TooManySteps,
    OutputTooShort,
    TooFewOutcomes,
}

impl CallFault {
    pub fn line(self) -> String {
        let of_call = |number| report::fault_line(number, 0, 3);
        match self {
            CallFault::File(fault) => report::line_of_fault(fault),
            CallFault::UnknownCode => of_call(9),
            CallFault::TooManySteps => of_call(10),
            CallFault::OutputTooShort => of_call(11),
            CallFault::TooFewOutcomes => of_call(12),
        }
    }
}

/// Writes the file of a code and steps into a buffer, and answers its length.
pub fn write_file(code: u8, steps: &[Step], buffer: &mut [u8]) -> Result<usize, CallFault> {
    if Stack::of_code(code).is_none() {
        return Err(CallFault::UnknownCode);
    }
    if steps.len() > MOST_STEPS {
        return Err(CallFault::TooManySteps);
    }
    let steps = steps.to_vec();
    fill(buffer, &file::write(&Study { code, steps }))
}

/// Runs a study file, prints its report into a buffer, and answers the report's length.
pub fn run_file(bytes: &[u8], output: &mut [u8]) -> Result<usize, CallFault> {
    let study = file::read(bytes).map_err(CallFault::File)?;
    fill(output, report::of_study(&study).as_bytes())
}

/// Fills the start of a buffer, if all bytes have room there.
fn fill(buffer: &mut [u8], bytes: &[u8]) -> Result<usize, CallFault> {
    buffer
        .get_mut(..bytes.len())
        .ok_or(CallFault::OutputTooShort)?
        .copy_from_slice(bytes);
    Ok(bytes.len())
}
