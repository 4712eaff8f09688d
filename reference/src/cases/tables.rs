//! Tables for the strength checker: a fixed part, then random ones.

use super::Input;
use super::bad_lines::IDLE_LINES;
use super::lines::{DIVIDED, strengths};
use super::random::Random;
use crate::arithmetic::Arithmetic;
use crate::shuffle::Shuffler;
use crate::strip::{Strip, Wanted};
use crate::text;

/// Most tables come from arrays of at most this many runs.
const MODERATE_RUNS: u32 = 300;

const MOST_FACTORS: u32 = 17;

/// Bytes that spoil a table, or do not.
const STRANGE: &[u8] = b"0129 \t\n\r#-+a/\0\x0b\x7f\x80\xff";

/// At least `count` tables, always the same ones for one seed.
pub fn inputs(seed: u64, count: usize) -> Vec<Input> {
    let mut random = Random(seed);
    let mut all = Vec::new();
    all.extend(FIXED.map(<[u8]>::to_vec));
    largest_tables(&mut all);
    every_strip(&mut random, &mut all);
    while all.len() < count {
        all.push(random_table(&mut random));
    }
    all
}

/// The claim and the runs of a table.
struct Sheet {
    s: u32,
    t: u32,
    d: u32,
    runs: Vec<Vec<u32>>,
}

impl Sheet {
    fn lines(&self) -> Vec<String> {
        let first = format!("{} {} {}", self.s, self.t, self.d);
        let runs = self.runs.iter().map(|run| text::joined(run, " "));
        [first].into_iter().chain(runs).collect()
    }

    fn text(&self) -> Input {
        let lines = self.lines();
        lines
            .iter()
            .flat_map(|line| [line, "\n"].concat().into_bytes())
            .collect()
    }

    /// The same table in an unusual spelling.
    fn loose_text(&self, random: &mut Random) -> Input {
        let mut text = Vec::new();
        for (place, line) in self.lines().iter().enumerate() {
            if place > 0 && random.one_in(8) {
                text.extend(random.pick(&IDLE_LINES));
                text.push(b'\n');
            }
            text.extend(random.respell(line));
            text.push(b'\n');
        }
        if random.one_in(2) {
            text.pop();
        }
        text
    }
}

/// Tables that are refused, cannot be read, or are small.
const FIXED: [&[u8]; 76] = [
    // Refused by 1.
    b"0 1 1\n0\n",
    b"1 1 1\n0\n",
    b"17 1 1\n0\n",
    b"4294967295 1 1\n0\n",
    b"0 0 0\n",
    b"17 9 99\n7 7\n",
    // By 2.
    b"2 1 0\n0\n",
    b"2 1 18\n0\n",
    b"2 0 0\n",
    b"16 19 18\n",
    b"2 1 4294967295\n0\n1\n",
    // By 3.
    b"2 0 1\n0\n1\n",
    b"2 2 1\n0\n1\n",
    b"2 18 17\n0\n1\n",
    b"16 4294967295 17\n",
    b"2 0 17\n",
    // By 5.
    b"2 17 17\n0\n",
    b"16 5 5\n0 0 0 0 0\n",
    b"16 17 17\n",
    b"3 11 17\n2\n",
    b"2 1 1\n",
    b"2 1 1",
    b"2 1 1\n\n# no runs\n \t\r\n",
    // By 6.
    b"2 1 2\n0 1\n1\n",
    b"2 1 2\n0 1\n1 0 1\n",
    b"2 1 1\n0 1\n",
    b"2 1 3\n9 9\n",
    b"2 1 17\n0\n1\n",
    // By 9.
    b"2 1 1\n0\n2\n",
    b"2 1 2\n0 1\n1 2\n",
    b"2 1 2\n4294967295 1\n1 2\n",
    b"2 1 1\n256\n257\n",
    b"16 1 1\n15\n16\n",
    b"16 1 1\n255\n",
    b"3 1 2\n0 0\n1 1\n2 258\n",
    // Lines of different lengths, and yet runs times factors.
    b"2 2 2\n0 0 0\n1\n1 0 1 1\n\n",
    b"2 2 2\n0\n0 0 1\n1 0 1\n1\n",
    b"2 1 2\n0\n1 1 0\n",
    // The first line cannot be read.
    b"",
    b"\n",
    b"\n2 1 1\n0\n1\n",
    b"# two levels\n2 1 1\n0\n1\n",
    b"2\n",
    b"2 1\n",
    b"2 1 1 1\n0\n1\n",
    b"2,1,1\n0\n1\n",
    b"2 1 -1\n0\n1\n",
    b"2 1 +1\n0\n1\n",
    b"2 1 1a\n0\n1\n",
    b"2 1 4294967296\n",
    b"2 1 00000000001\n",
    b"\xff\n",
    b"2\x0b1 1\n0\n1\n",
    b"2 1 1\r\r\n0\n1\n",
    // A later line cannot be read, whatever else is at fault.
    b"2 1 1\n0\n1\nx\n",
    b"2 1 1\n0\n-1\n",
    b"2 1 1\n0\n1 #\n",
    b"2 1 1\n\n#\n0\n1.\ny\n",
    b"2 1 1\n4294967296\n",
    b"2 1 1\n00000000000\n1",
    b"0 0 0\nx",
    b"17 1 18\n0 1\n2 3\n\xff",
    b"2 1 1\n0\r\n1\r\r\n",
    b"2 1 1\n0\n\0\n",
    b"2 1 1\n0,1\n",
    b"2 1 1\n0/1\n",
    // Small arrays.
    b"2 1 1\n0\n1\n",
    b"2 1 1\r\n1\r\n0\r",
    b" 02\t1  0000000001 \n# one\n\n 1\n\t0000000000",
    b"2 1 1\n0\n0\n1\n1\n1\n0\n",
    b"2 2 3\n0 0 0\n0 1 1\n1 0 1\n1 1 0\n",
    b"2 1 3\n0 0 0\n0 1 1\n1 0 1\n1 1 0\n",
    // Small tables that are none.
    b"2 3 3\n0 0 0\n0 1 1\n1 0 1\n1 1 0\n",
    b"2 2 3\n0 0 0\n0 1 0\n1 0 1\n1 1 1\n",
    b"2 1 1\n1\n",
    b"16 2 2\n0 0\n",
];

/// Tables at the limits of runs and combinations.
fn largest_tables(all: &mut Vec<Input>) {
    let most = b"0\n1\n".repeat(32_768);
    all.push([b"2 1 1\n".as_slice(), &most].concat());
    all.push([b"2 1 1\n".as_slice(), &most, b"1\n"].concat());
    all.push([b"2 1 1\n".as_slice(), &most, b"x\n"].concat());
    all.push([b"3 1 1\n".as_slice(), &most].concat());
    all.push([b"2 1 1\n".as_slice(), &most[4..], b"1\n1\n"].concat());
    let mut full = factorial(16, 4);
    all.push(full.text());
    full.runs[65_535][3] = 14;
    all.push(full.text());
    let mut even = factorial(2, 16);
    for run in &mut even.runs {
        run.push(run.iter().sum::<u32>() % 2);
    }
    even.d = 17;
    all.push(even.text());
    even.runs[1][16] = 0;
    all.push(even.text());
}

/// Every combination of d levels once: strength d.
fn factorial(s: u32, d: u32) -> Sheet {
    let digit = |number: u32, place: u32| number / s.pow(place) % s;
    let runs = (0..s.pow(d))
        .map(|number| (0..d).rev().map(|place| digit(number, place)).collect())
        .collect();
    Sheet { s, t: d, d, runs }
}

/// A strip of every count and strength with few labels, with as many factors
/// as it can have.
fn every_strip(random: &mut Random, all: &mut Vec<Input>) {
    for s in 2..=16 {
        for t in moderate_strengths(s) {
            let mut sheet = strip(random, s, t, s, 1);
            random.shuffle(&mut sheet.runs);
            all.push(sheet.text());
        }
    }
}

fn moderate_strengths(s: u32) -> Vec<u32> {
    let moderate = |&t: &u32| s.pow(t) <= MODERATE_RUNS;
    strengths(s).into_iter().filter(moderate).collect()
}

/// The levels of as many strips as the index, one after the other.
fn strip(random: &mut Random, s: u32, t: u32, d: u32, index: u32) -> Sheet {
    let mut runs = Vec::new();
    for _ in 0..index {
        let wanted = Wanted {
            levels: s,
            strength: t,
            factors: d,
            seed: random.seed(),
        };
        let shuffler = random.pick(&[Shuffler::Turn, Shuffler::Hash]);
        let strip = Strip::plan(wanted, shuffler).expect("the strip is an accepted one");
        let level = |label, factor| strip.cell(label, factor).level;
        runs.extend((0..strip.labels()).map(|i| (0..d).map(|j| level(i, j)).collect()));
    }
    Sheet { s, t, d, runs }
}

/// Polynomials at every code, and their highest coefficient: s + 1 factors.
fn widest(s: u32, t: u32) -> Sheet {
    let arithmetic = Arithmetic::of_strip(s);
    let Sheet { runs, .. } = factorial(s, t);
    let runs = runs.into_iter().map(|digits| {
        let values = (0..s).map(|j| arithmetic.polynomial(&digits, j));
        values.chain([digits[t as usize - 1]]).collect()
    });
    Sheet {
        s,
        t,
        d: s + 1,
        runs: runs.collect(),
    }
}

/// Two levels and up to 17 factors: the parities of chosen digits of a number.
/// Different choices meet in every combination: strength 2. If each has an odd
/// number of digits, no three of them cancel: strength 3.
fn parities(random: &mut Random) -> Sheet {
    let digits = random.between(3, 6);
    let t = random.between(2, 3);
    let odd = |mask: &u32| t == 2 || mask.count_ones() % 2 == 1;
    let mut masks: Vec<u32> = (1..1 << digits).filter(odd).collect();
    random.shuffle(&mut masks);
    let most = MOST_FACTORS.min(masks.len() as u32);
    let d = random.between(t, most);
    masks.truncate(d as usize);
    let parity = |number: u32, mask: &u32| (number & mask).count_ones() % 2;
    let runs = (0..1 << digits)
        .map(|number| masks.iter().map(|mask| parity(number, mask)).collect())
        .collect();
    Sheet { s: 2, t, d, runs }
}

/// An orthogonal array, its runs and levels shuffled.
fn random_array(random: &mut Random) -> Sheet {
    let s = match random.below(4) {
        0 => random.between(2, 16),
        _ => random.pick(&DIVIDED),
    };
    let highest = moderate_strengths(s).len() as u32;
    let t = random.between(highest.min(2), highest);
    let mut sheet = match random.below(6) {
        0 => parities(random),
        1 if DIVIDED.contains(&s) => widest(s, t),
        2 => factorial(s, if s == 6 { 3 } else { t }),
        _ => {
            let d = random.between(t, s);
            let index = random.pick(&[1, 1, 2, 3]);
            strip(random, s, t, d, index)
        }
    };
    random.shuffle(&mut sheet.runs);
    shuffle_levels(random, &mut sheet);
    if random.one_in(3) {
        sheet.t = random.between(1, sheet.t);
    }
    sheet
}

fn shuffle_levels(random: &mut Random, sheet: &mut Sheet) {
    for factor in 0..sheet.d as usize {
        let mut levels: Vec<u32> = (0..sheet.s).collect();
        random.shuffle(&mut levels);
        for run in &mut sheet.runs {
            run[factor] = levels[run[factor] as usize];
        }
    }
}

fn random_table(random: &mut Random) -> Input {
    let mut sheet = random_array(random);
    match random.below(14) {
        0..3 => {}
        3..6 => change_cell(random, &mut sheet),
        6 => swap_cells(random, &mut sheet),
        7 => change_runs(random, &mut sheet),
        8 => random_levels(random, &mut sheet),
        9 => change_claim(random, &mut sheet),
        10 => move_cell(random, &mut sheet),
        11 => no_level(random, &mut sheet),
        12 => sheet.t = random.between(1, sheet.d),
        _ => {
            let mut text = sheet.text();
            random.mutate(&mut text, STRANGE);
            return text;
        }
    }
    if random.one_in(3) {
        sheet.loose_text(random)
    } else {
        sheet.text()
    }
}

/// The place of any cell.
fn place(random: &mut Random, sheet: &Sheet) -> (usize, usize) {
    let run = random.index(sheet.runs.len());
    (run, random.index(sheet.d as usize))
}

/// Another level in one cell.
fn change_cell(random: &mut Random, sheet: &mut Sheet) {
    let (run, factor) = place(random, sheet);
    let cell = &mut sheet.runs[run][factor];
    *cell = (*cell + random.between(1, sheet.s - 1)) % sheet.s;
}

/// Two cells of one factor in each other's place.
fn swap_cells(random: &mut Random, sheet: &mut Sheet) {
    let (one, factor) = place(random, sheet);
    let (other, _) = place(random, sheet);
    let level = sheet.runs[one][factor];
    sheet.runs[one][factor] = sheet.runs[other][factor];
    sheet.runs[other][factor] = level;
}

/// A run in another's place, one more, or one fewer.
fn change_runs(random: &mut Random, sheet: &mut Sheet) {
    let (one, _) = place(random, sheet);
    let (other, _) = place(random, sheet);
    let run = sheet.runs[other].clone();
    match random.below(3) {
        0 => sheet.runs[one] = run,
        1 => sheet.runs.push(run),
        _ => drop(sheet.runs.remove(one)),
    }
}

fn random_levels(random: &mut Random, sheet: &mut Sheet) {
    for cell in sheet.runs.iter_mut().flatten() {
        *cell = random.below(sheet.s);
    }
}

/// Numbers that may well be refused.
fn change_claim(random: &mut Random, sheet: &mut Sheet) {
    match random.below(4) {
        0 => sheet.s = random.near(17),
        1 => sheet.t = random.near(sheet.d + 1),
        2 => sheet.d = random.near(18),
        _ => {
            let [s, t, d] = [17, 5, 18].map(|limit| random.near(limit));
            (sheet.s, sheet.t, sheet.d) = (s, t, d);
        }
    }
}

/// A cell put into another line, or left out.
fn move_cell(random: &mut Random, sheet: &mut Sheet) {
    let (one, factor) = place(random, sheet);
    let level = sheet.runs[one].remove(factor);
    if random.one_in(2) {
        let (other, _) = place(random, sheet);
        sheet.runs[other].push(level);
    }
}

/// Cells that hold no level.
fn no_level(random: &mut Random, sheet: &mut Sheet) {
    let s = sheet.s;
    for _ in 0..random.between(1, 3) {
        let (run, factor) = place(random, sheet);
        let high = random.pick(&[s, s + 1, 16, 255, 256, 256 + s - 1, 65_536, u32::MAX]);
        sheet.runs[run][factor] = high;
    }
}

#[cfg(test)]
mod tests {
    use super::*;
    use crate::check;

    fn verdict(table: &[u8]) -> String {
        let mut output = Vec::new();
        check::run(table, &mut output).unwrap();
        String::from_utf8(output).unwrap()
    }

    #[test]
    fn every_refusal_of_the_checker_is_met() {
        let verdicts = FIXED.map(verdict);
        for number in [1, 2, 3, 5, 6, 9] {
            let start = format!("refused {number} by checker at ");
            assert!(verdicts.iter().any(|verdict| verdict.starts_with(&start)));
        }
    }

    #[test]
    fn random_arrays_are_arrays() {
        let mut random = Random(1);
        for _ in 0..60 {
            let sheet = random_array(&mut random);
            let text = sheet.text();
            assert!(verdict(&text).starts_with("yes: index "));
            assert_eq!(verdict(&text), verdict(&sheet.loose_text(&mut random)));
        }
    }
}
