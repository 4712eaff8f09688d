//! The strength checker: whether a table of levels is an orthogonal array. As
//! in the published check, the tuples of levels at every choice of columns are
//! counted in a hash map.

use std::collections::HashMap;
use std::fmt;
use std::io::{self, BufRead, Write};

use crate::slip::{Layer, Slip};
use crate::text;

const MOST_FACTORS: u32 = 17;
const MOST_COMBINATIONS: u32 = 65_536;
const MOST_RUNS: usize = 65_536;

/// At least two levels and at most 65,536 combinations: no longer tuples.
const LONGEST_TUPLE: usize = 16;

/// The levels of a run at some columns, filled up with zeros.
type Tuple = [u8; LONGEST_TUPLE];

/// A table of levels, run after run, and what it is claimed to be.
#[derive(Clone, Debug, PartialEq, Eq)]
pub struct Table {
    pub levels: u32,
    pub strength: u32,
    pub factors: u32,
    pub runs: usize,
    pub cells: Vec<u8>,
}

#[derive(Clone, Debug, PartialEq, Eq)]
pub enum Verdict {
    /// An orthogonal array of this index.
    Yes { index: usize },
    /// None: these levels at these columns come so many times.
    No {
        columns: Vec<u32>,
        levels: Vec<u8>,
        times: usize,
    },
}

impl fmt::Display for Verdict {
    fn fmt(&self, to: &mut fmt::Formatter) -> fmt::Result {
        match self {
            Verdict::Yes { index } => write!(to, "yes: index {index}"),
            Verdict::No {
                columns,
                levels,
                times,
            } => {
                let columns = text::joined(columns, " ");
                let levels = text::joined(levels, " ");
                write!(to, "no: columns {columns}, levels {levels}: {times} times")
            }
        }
    }
}

/// Reads a table and prints the verdict.
pub fn run(input: impl BufRead, output: &mut impl Write) -> io::Result<()> {
    match read(input)? {
        Err(bad_line) => writeln!(output, "{bad_line}")?,
        Ok(table) => match table.check() {
            Err(slip) => writeln!(output, "{slip}")?,
            Ok(verdict) => writeln!(output, "{verdict}")?,
        },
    }
    output.flush()
}

/// The table, or what is said of the first line that cannot be read.
fn read(input: impl BufRead) -> io::Result<Result<Table, String>> {
    let mut lines = input.split(b'\n');
    let first = lines.next().transpose()?.unwrap_or_default();
    let numbers = text::decimals(&text::words(&first));
    let Some(&[levels, strength, factors]) = numbers.as_deref() else {
        return Ok(Err(
            "line 1: expected levels, strength and factors".to_string()
        ));
    };
    let mut table = Table {
        levels,
        strength,
        factors,
        runs: 0,
        cells: Vec::new(),
    };
    for (number, line) in (2u64..).zip(lines) {
        let line = line?;
        let words = text::words(&line);
        if text::is_idle(&words) {
            continue;
        }
        let Some(run) = text::decimals(&words) else {
            return Ok(Err(format!("line {number}: expected levels")));
        };
        table.runs += 1;
        table.cells.extend(run.into_iter().map(saturated));
    }
    Ok(Ok(table))
}

/// A level as a cell holds it. No level is as high as 255.
fn saturated(level: u32) -> u8 {
    u8::try_from(level).unwrap_or(u8::MAX)
}

impl Table {
    pub fn check(&self) -> Result<Verdict, Slip> {
        let combinations = self.combinations()?;
        for columns in choices(0, self.factors, self.strength) {
            if let Some((levels, times)) = self.failing(&columns, combinations) {
                return Ok(Verdict::No {
                    columns,
                    levels,
                    times,
                });
            }
        }
        Ok(Verdict::Yes {
            index: self.runs / combinations,
        })
    }

    /// s^t, or the refusal.
    fn combinations(&self) -> Result<usize, Slip> {
        let (s, t, d) = (self.levels, self.strength, self.factors);
        let layer = Layer::Checker;
        layer.refuses_if(!(2..=16).contains(&s), 1, 0)?;
        layer.refuses_if(d == 0 || d > MOST_FACTORS, 2, 0)?;
        layer.refuses_if(t == 0 || t > d, 3, 0)?;
        let combinations = s.checked_pow(t).filter(|&n| n <= MOST_COMBINATIONS);
        let combinations = combinations.ok_or(layer.slip(5, 0))?;
        layer.refuses_if(self.runs == 0 || self.runs > MOST_RUNS, 5, 0)?;
        layer.refuses_if(self.cells.len() != self.runs * d as usize, 6, 0)?;
        let no_level = self.cells.iter().position(|&cell| u32::from(cell) >= s);
        let place = no_level.unwrap_or(0) as u32;
        layer.refuses_if(no_level.is_some(), 9, place)?;
        Ok(combinations as usize)
    }

    /// The lowest combination that fails at these columns, and how often it comes.
    fn failing(&self, columns: &[u32], combinations: usize) -> Option<(Vec<u8>, usize)> {
        let counts = self.counts(columns);
        let fails = |times: usize| times * combinations != self.runs;
        if counts.len() == combinations && !counts.values().any(|&times| fails(times)) {
            return None;
        }
        (0..combinations).find_map(|combination| {
            let tuple = self.tuple(combination);
            let times = counts.get(&tuple).copied().unwrap_or(0);
            fails(times).then(|| (tuple[..columns.len()].to_vec(), times))
        })
    }

    /// How many runs have each tuple of levels at these columns.
    fn counts(&self, columns: &[u32]) -> HashMap<Tuple, usize> {
        let mut counts = HashMap::new();
        for run in self.cells.chunks_exact(self.factors as usize) {
            let mut tuple = Tuple::default();
            for (level, &column) in tuple.iter_mut().zip(columns) {
                *level = run[column as usize];
            }
            *counts.entry(tuple).or_insert(0) += 1;
        }
        counts
    }

    /// The tuple that a number stands for: its digits in base s, highest first.
    fn tuple(&self, mut combination: usize) -> Tuple {
        let s = self.levels as usize;
        let mut tuple = Tuple::default();
        for level in tuple[..self.strength as usize].iter_mut().rev() {
            *level = (combination % s) as u8;
            combination /= s;
        }
        tuple
    }
}

/// All choices of t of the numbers from `first` to d - 1, in dictionary order.
pub fn choices(first: u32, d: u32, t: u32) -> Vec<Vec<u32>> {
    if t == 0 {
        return vec![vec![]];
    }
    let mut all = vec![];
    for j in first..d {
        for mut rest in choices(j + 1, d, t - 1) {
            rest.insert(0, j);
            all.push(rest);
        }
    }
    all
}

#[cfg(test)]
mod tests {
    use super::*;

    fn printed(input: &str) -> String {
        let mut output = Vec::new();
        run(input.as_bytes(), &mut output).unwrap();
        String::from_utf8(output).unwrap()
    }

    #[test]
    fn choices_in_dictionary_order() {
        let expected = [[0, 1], [0, 2], [0, 3], [1, 2], [1, 3], [2, 3]];
        assert_eq!(choices(0, 4, 2), expected);
        assert_eq!(choices(0, 17, 8).len(), 24_310);
    }

    #[test]
    fn arrays() {
        assert_eq!(
            printed("2 2 3\n0 0 0\n0 1 1\n1 0 1\n1 1 0\n"),
            "yes: index 1\n"
        );
        assert_eq!(
            printed("2 1 3\n0 0 0\n0 1 1\n1 0 1\n1 1 0"),
            "yes: index 2\n"
        );
        let loose = "02\t2 2 \r\n# all four\n\n0 0\r\n\t1  1\n1 0\n 0 1 \n";
        assert_eq!(printed(loose), "yes: index 1\n");
    }

    #[test]
    fn the_first_columns_and_the_lowest_levels_that_fail() {
        let table = "2 2 3\n0 0 0\n0 1 0\n1 0 1\n1 1 1\n";
        assert_eq!(printed(table), "no: columns 0 2, levels 0 0: 2 times\n");
        let table = "2 2 3\n0 0 0\n0 1 1\n1 0 1\n1 1 1\n";
        assert_eq!(printed(table), "no: columns 0 2, levels 1 0: 0 times\n");
        let table = "2 2 2\n0 0\n0 1\n1 0\n1 1\n1 1\n";
        assert_eq!(printed(table), "no: columns 0 1, levels 0 0: 1 times\n");
    }

    #[test]
    fn refusals() {
        for (table, number, place) in [
            ("1 0 0\n", 1, 0),
            ("17 1 1\n0\n", 1, 0),
            ("2 0 0\n", 2, 0),
            ("2 1 18\n", 2, 0),
            ("2 0 1\n", 3, 0),
            ("2 3 2\n", 3, 0),
            ("2 17 17\n0\n", 5, 0),
            ("16 16 16\n0\n", 5, 0),
            ("2 1 1\n", 5, 0),
            ("2 1 2\n0 0\n9\n", 6, 0),
            ("2 1 2\n0 1\n1 2\n", 9, 3),
            ("2 1 2\n0 1\n256 0\n", 9, 2),
        ] {
            let answer = printed(table);
            let start = format!("refused {number} by checker at {place}: ");
            assert!(answer.starts_with(&start), "{table:?}: {answer}");
        }
    }

    #[test]
    fn lines_that_cannot_be_read() {
        for first in [
            "",
            "\n2 1 1\n",
            "2 1\n",
            "2 1 1 1\n",
            "2 1 x\n",
            "# 2 1 1\n",
        ] {
            let answer = "line 1: expected levels, strength and factors\n";
            assert_eq!(printed(first), answer, "{first:?}");
        }
        assert_eq!(printed("99 1 1\n\n0\n-1\nx\n"), "line 4: expected levels\n");
        assert_eq!(printed("2 1 1\n00000000000"), "line 2: expected levels\n");
    }

    #[test]
    fn the_longest_refusals_and_arrays() {
        let most = "2 1 1\n".to_string() + &"0\n1\n".repeat(32_768);
        assert_eq!(printed(&most), "yes: index 32768\n");
        assert!(printed(&(most + "0\n")).starts_with("refused 5 by checker at 0: "));
    }
}
