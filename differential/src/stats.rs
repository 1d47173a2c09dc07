//! The batch format, and the count of each outcome in a batch's listings.

use std::{
    collections::BTreeMap,
    io::{self, ErrorKind, Read, Write},
};

/// Reads one entry: a 4-byte length, then that many bytes. `None` at the end.
pub fn read_entry(from: &mut impl Read) -> io::Result<Option<Vec<u8>>> {
    let mut length = [0; 4];
    if from.read(&mut length[..1])? == 0 {
        return Ok(None);
    }
    from.read_exact(&mut length[1..])?;
    let length = u32::from_le_bytes(length);
    let mut entry = vec![];
    from.take(length.into()).read_to_end(&mut entry)?;
    if entry.len() < length as usize {
        return Err(io::Error::new(ErrorKind::UnexpectedEof, "an entry is cut off"));
    }
    Ok(Some(entry))
}

/// Writes one entry.
pub fn write_entry(to: &mut impl Write, entry: &[u8]) -> io::Result<()> {
    let length = u32::try_from(entry.len()).map_err(io::Error::other)?;
    to.write_all(&length.to_le_bytes())?;
    to.write_all(entry)
}

/// The outcome that a listing tells: its first word, and a refusal's number.
pub fn outcome_of(listing: &str) -> String {
    let mut words = listing.split_whitespace();
    match (words.next(), words.next()) {
        (Some("layout"), _) => "accepted".to_owned(),
        (Some("refused"), Some(number)) => format!("refused {number:>2}"),
        _ => listing.trim_end().to_owned(),
    }
}

/// How often each outcome occurs in a batch's output.
pub fn count(from: &mut impl Read) -> io::Result<BTreeMap<String, usize>> {
    let mut counts = BTreeMap::new();
    while let Some(listing) = read_entry(from)? {
        let listing = String::from_utf8(listing).map_err(io::Error::other)?;
        *counts.entry(outcome_of(&listing)).or_insert(0) += 1;
    }
    Ok(counts)
}
