//! Corpus files: study files with what they print, each behind its length.

use std::io::{self, Write};

use crate::cases;
use crate::report;

/// The files that come first in every corpus.
pub const FIRST: [&[u8]; 3] = [
    &[],
    &[0x00],
    &[
        0x03, 0x00, 0x01, 0x00, 0x02, // protocol: bus MESI
        0x05, 0x00, 0x03, 0x00, 0x00, 0x0a, 0x41, // store by core 0 at 10 of 41
        0x04, 0x00, 0x02, 0x00, 0x01, 0x0a, // load by core 1 at 10
        0x04, 0x00, 0x06, 0x00, 0x00, 0x01, // evict by core 0 of line 1
        0x03, 0x00, 0x07, 0x00, 0x00, // move of place 0
    ],
];

/// Writes a corpus of so many cases in all.
pub fn write(out: &mut impl Write, seed: u64, count: u64) -> io::Result<()> {
    let first = FIRST.iter().map(|study| study.to_vec());
    let generated = (0..).map(|number| cases::case(seed, number));
    let studies = first.chain(generated);
    for (study, _) in studies.zip(0..count) {
        let printed = report::of_file(&study);
        write_block(out, &study)?;
        write_block(out, printed.text.as_bytes())?;
    }
    out.flush()
}

fn write_block(out: &mut impl Write, bytes: &[u8]) -> io::Result<()> {
    let length = u32::try_from(bytes.len()).map_err(io::Error::other)?;
    out.write_all(&length.to_le_bytes())?;
    out.write_all(bytes)
}

pub struct Case<'a> {
    pub study: &'a [u8],
    pub expected: &'a [u8],
}

/// The cases of a corpus file, or nothing if it is damaged.
pub fn read(mut bytes: &[u8]) -> Option<Vec<Case<'_>>> {
    let mut cases = Vec::new();
    while !bytes.is_empty() {
        let study = read_block(&mut bytes)?;
        let expected = read_block(&mut bytes)?;
        cases.push(Case { study, expected });
    }
    Some(cases)
}

fn read_block<'a>(bytes: &mut &'a [u8]) -> Option<&'a [u8]> {
    let (length, rest) = bytes.split_first_chunk()?;
    let length = usize::try_from(u32::from_le_bytes(*length)).ok()?;
    let (block, rest) = rest.split_at_checked(length)?;
    *bytes = rest;
    Some(block)
}
