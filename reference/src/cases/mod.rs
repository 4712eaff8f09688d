//! Inputs to compare another program on, with what it is to print.

mod bad_lines;
mod lines;
mod random;
mod scribe;
mod scripts;
mod tables;

use std::fs;
use std::io::{self, Write};
use std::path::Path;

use crate::{check, listing, trial};

/// How much of an input is shown.
const SHOWN_BYTES: usize = 80;

/// An input, of any bytes.
type Input = Vec<u8>;

/// The program that the inputs are for.
#[derive(Clone, Copy, Debug, PartialEq, Eq)]
pub enum Kind {
    Listing,
    Trial,
    Check,
}

impl Kind {
    /// At least `count` inputs, always the same ones for one seed.
    fn inputs(self, seed: u64, count: usize) -> Vec<Input> {
        match self {
            Kind::Listing => lines::inputs(seed, count),
            Kind::Trial => scripts::inputs(seed, count),
            Kind::Check => tables::inputs(seed, count),
        }
    }

    fn expected(self, input: &[u8]) -> io::Result<Vec<u8>> {
        let mut output = Vec::new();
        match self {
            Kind::Listing => listing::run(input, &mut output)?,
            Kind::Trial => trial::run(input, &mut output)?,
            Kind::Check => check::run(input, &mut output)?,
        }
        Ok(output)
    }

    /// Prints each input on a line, unusual bytes escaped and long inputs cut.
    pub fn show(self, seed: u64, count: usize, output: &mut impl Write) -> io::Result<()> {
        for input in self.inputs(seed, count) {
            let shown = &input[..input.len().min(SHOWN_BYTES)];
            let cut = if shown.len() < input.len() { "..." } else { "" };
            writeln!(output, "{}{cut}", shown.escape_ascii())?;
        }
        Ok(())
    }

    /// Writes 0001.in with 0001.out, and so on, and answers how many there are.
    pub fn write(self, seed: u64, count: usize, directory: &Path) -> io::Result<usize> {
        fs::create_dir_all(directory)?;
        let inputs = self.inputs(seed, count);
        for (number, input) in (1..).zip(&inputs) {
            let expected = self.expected(input)?;
            fs::write(directory.join(format!("{number:04}.in")), input)?;
            fs::write(directory.join(format!("{number:04}.out")), expected)?;
        }
        Ok(inputs.len())
    }
}
