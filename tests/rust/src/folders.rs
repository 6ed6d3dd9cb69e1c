//! Folders with generated files, for programs that this check does not run itself.

use crate::generate::random::Random;
use crate::listings::{generated, write_files};
use std::fs;
use std::io;
use std::path::Path;

/// Lays down `cases` folders, with the numbers from 0 as their names.
pub fn lay_down(folder: &Path, cases: usize, seed: u64) -> io::Result<()> {
    let mut random = Random::seeded(seed);
    for number in 0..cases {
        let place = folder.join(number.to_string());
        fs::create_dir_all(&place)?;
        write_files(&place, &generated(&mut random, number).1)?;
    }
    Ok(())
}
