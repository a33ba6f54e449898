//! Bytes behind their length, which is four bytes, the low one first.

pub fn push(out: &mut Vec<u8>, bytes: &[u8]) {
    let length = u32::try_from(bytes.len()).expect("no block has four billion bytes");
    out.extend(length.to_le_bytes());
    out.extend(bytes);
}

/// Takes the first block, or nothing if it is cut short.
pub fn take<'a>(bytes: &mut &'a [u8]) -> Option<&'a [u8]> {
    let (length, rest) = bytes.split_first_chunk()?;
    let length = usize::try_from(u32::from_le_bytes(*length)).ok()?;
    let (block, rest) = rest.split_at_checked(length)?;
    *bytes = rest;
    Some(block)
}
