//! Cases for the C driver (driver.c), with what ours did with them here.

use std::{fs::File, io, path::Path};

use std::io::{BufWriter, Write};

use layout_compare::lent::Lender;
use layout_rust::generate::{Class, Rng, class_cases};

use crate::compare::{Call, call_of, parts};

/// Stands for the default's length where none is lent.
const NO_DEFAULT: u32 = u32::MAX;

/// Writes COUNT entries: mode, image length, area length, default length in 4
/// bytes each, the run's code and what it told in 8 each (0 without a default),
/// the image, the default, the answer if there is one (its length is the code).
pub fn write(count: u64, seed: u64, class: Class, file: &Path) -> io::Result<bool> {
    let (rng, mut lender) = (Rng::new(!seed), Lender::default());
    let mut to = BufWriter::new(File::create(file)?);
    for pair in class_cases(class, seed).take(count as usize) {
        let image = parts(&pair.case.input).1;
        let Call { mode, area, default } =
            call_of(class, &rng, &pair.case.input, pair.default.as_deref());
        let done = lender.run(image, mode, default, area).map_err(io::Error::other)?;
        let default_len = default.map_or(NO_DEFAULT, |default| default.len() as u32);
        for number in [mode, image.len() as u32, area as u32, default_len] {
            to.write_all(&number.to_le_bytes())?;
        }
        for number in [done.code, done.told.unwrap_or(0)] {
            to.write_all(&number.to_le_bytes())?;
        }
        to.write_all(image)?;
        to.write_all(default.unwrap_or_default())?;
        to.write_all(done.answer)?;
    }
    to.flush()?;
    Ok(true)
}
