//! How long the rows of a large strip, and the check of a strip, take straight
//! from the published listings.

use std::hint::black_box;
use std::io::{self, Write};
use std::time::Instant;

use crate::check::Table;
use crate::shuffle::Shuffler;
use crate::strip::{Cell, Strip, Wanted};

const RUNS: usize = 101;

const LARGE: Wanted = Wanted {
    levels: 13,
    strength: 4,
    factors: 13,
    seed: 1,
};

const CHECKED: Wanted = Wanted {
    levels: 7,
    strength: 3,
    factors: 7,
    seed: 1,
};

/// Times the cells of the whole strip into a table that is there already.
pub fn rows(output: &mut impl Write) -> io::Result<()> {
    let (strip, mut table) = cells(LARGE);
    let milliseconds = times(|| black_box(&strip).fill(black_box(&mut table)));
    writeln!(
        output,
        "strip 13 4 13 1 1: {} cells, {RUNS} runs",
        table.len()
    )?;
    print(&milliseconds, output)?;
    writeln!(output, "checksum {}", checksum(&table))
}

/// Times the check of the levels of a whole strip.
pub fn check(output: &mut impl Write) -> io::Result<()> {
    let (strip, mut cells) = cells(CHECKED);
    strip.fill(&mut cells);
    let table = Table {
        levels: strip.levels(),
        strength: strip.strength(),
        factors: strip.factors(),
        runs: strip.labels() as usize,
        cells: cells.iter().map(|cell| cell.level as u8).collect(),
    };
    let milliseconds = times(|| {
        let _ = black_box(black_box(&table).check());
    });
    writeln!(
        output,
        "check 7 3 7 1 1: {} cells, {RUNS} runs",
        table.cells.len()
    )?;
    print(&milliseconds, output)?;
    let verdict = table.check().expect("the table is not refused");
    writeln!(output, "{verdict}")
}

/// A strip, and room for all its cells.
fn cells(wanted: Wanted) -> (Strip, Vec<Cell>) {
    let strip = Strip::plan(wanted, Shuffler::Hash).expect("the strip is an accepted one");
    let cells = vec![Cell::default(); (strip.labels() * strip.factors()) as usize];
    (strip, cells)
}

/// How many milliseconds each run takes, in rising order.
fn times(mut work: impl FnMut()) -> Vec<f64> {
    let mut milliseconds: Vec<f64> = (0..RUNS)
        .map(|_| {
            let start = Instant::now();
            work();
            start.elapsed().as_secs_f64() * 1e3
        })
        .collect();
    milliseconds.sort_by(f64::total_cmp);
    milliseconds
}

fn print(milliseconds: &[f64], output: &mut impl Write) -> io::Result<()> {
    writeln!(output, "median milliseconds {:.3}", milliseconds[RUNS / 2])?;
    writeln!(output, "fastest milliseconds {:.3}", milliseconds[0])
}

/// The sum of (index + 1) times (level times 65,536 plus fine setting) over
/// all cells, modulo 2^32.
fn checksum(table: &[Cell]) -> u32 {
    let mut sum: u32 = 0;
    for (place, cell) in (1u32..).zip(table) {
        sum = sum.wrapping_add(place.wrapping_mul(cell.level * 65_536 + cell.fine));
    }
    sum
}
