//! A strip: its plan, and the level and fine setting of each cell by Bush's
//! construction with the multi-jittered offset, as published.

use std::fmt;

use crate::arithmetic::Arithmetic;
use crate::shuffle::Shuffler;

/// A strip has no more labels than this.
pub const MOST_LABELS: u32 = 65_536;

/// At most 65,536 labels and at least two levels: never more digits than this.
const MOST_DIGITS: usize = 16;

const LEVEL_KEY: u32 = 0x51633e2d;
const FINE_KEY: u32 = 0x68bc21eb;

/// Why there is no strip. Each has its number.
#[derive(Clone, Copy, Debug, PartialEq, Eq)]
pub enum Refusal {
    /// The count is outside 2 to 16.
    Count = 1,
    /// There are no factors, or more than levels.
    Factors = 2,
    /// The strength is 0 or above the number of factors.
    Strength = 3,
    /// Strength 2 or more, and the levels have no dividing arithmetic.
    Arithmetic = 4,
    /// More than 65,536 labels.
    Labels = 5,
    /// The input line of the listing is malformed.
    Malformed = 18,
}

impl Refusal {
    pub fn number(self) -> u32 {
        self as u32
    }
}

/// The numbers a strip is asked for with.
#[derive(Clone, Copy, Debug, PartialEq, Eq)]
pub struct Wanted {
    pub levels: u32,
    pub strength: u32,
    pub factors: u32,
    pub seed: u32,
}

#[derive(Clone, Copy, Debug, Default, PartialEq, Eq)]
pub struct Cell {
    pub level: u32,
    pub fine: u32,
}

impl fmt::Display for Cell {
    fn fmt(&self, to: &mut fmt::Formatter) -> fmt::Result {
        write!(to, "{}/{}", self.level, self.fine)
    }
}

#[derive(Clone, Debug)]
pub struct Strip {
    s: u32,
    t: u32,
    d: u32,
    seed: u32,
    labels: u32,
    arithmetic: Arithmetic,
    shuffler: Shuffler,
}

impl Strip {
    /// The strip, or the refusal of the smallest number that applies.
    pub fn plan(wanted: Wanted, shuffler: Shuffler) -> Result<Strip, Refusal> {
        let Wanted {
            levels: s,
            strength: t,
            factors: d,
            seed,
        } = wanted;
        if !(2..=16).contains(&s) {
            return Err(Refusal::Count);
        }
        if d == 0 || d > s {
            return Err(Refusal::Factors);
        }
        if t == 0 || t > d {
            return Err(Refusal::Strength);
        }
        if t >= 2 && matches!(s, 6 | 9 | 10 | 12 | 14 | 15) {
            return Err(Refusal::Arithmetic);
        }
        let labels = s
            .checked_pow(t)
            .filter(|&n| n <= MOST_LABELS)
            .ok_or(Refusal::Labels)?;
        let arithmetic = Arithmetic::of_strip(s);
        Ok(Strip {
            s,
            t,
            d,
            seed,
            labels,
            arithmetic,
            shuffler,
        })
    }

    /// N, the number of labels.
    pub fn labels(&self) -> u32 {
        self.labels
    }

    pub fn levels(&self) -> u32 {
        self.s
    }

    pub fn strength(&self) -> u32 {
        self.t
    }

    pub fn factors(&self) -> u32 {
        self.d
    }

    /// Whether every code of its arithmetic but 0 has an inverse.
    pub fn divides(&self) -> bool {
        (1..self.s).all(|code| self.arithmetic.inverse(code).is_some())
    }

    /// The published bushOA for label i and factor j, in whole numbers. All
    /// three shuffles are done for every cell, as they are there.
    pub fn cell(&self, i: u32, j: u32) -> Cell {
        let i = self.shuffled(i);
        let sub_levels = self.labels / self.s;
        let level = self
            .shuffler
            .out(self.key(j, LEVEL_KEY), self.s, self.value(i, j));
        let sub_level = self
            .shuffler
            .out(self.key(j, FINE_KEY), sub_levels, i / self.s);
        Cell {
            level,
            fine: level * sub_levels + sub_level,
        }
    }

    /// The cells of all labels, label by label. The table has N times d cells.
    pub fn fill(&self, table: &mut [Cell]) {
        for (i, row) in (0..self.labels).zip(table.chunks_exact_mut(self.d as usize)) {
            for (j, cell) in (0..self.d).zip(row) {
                *cell = self.cell(i, j);
            }
        }
    }

    /// Where the seed sends the label number.
    fn shuffled(&self, i: u32) -> u32 {
        self.shuffler.out(self.seed, self.labels, i)
    }

    /// The value of factor j: the polynomial whose coefficients are the base-s
    /// digits of the shuffled label number, at the code j.
    fn value(&self, shuffled: u32, j: u32) -> u32 {
        let digits = digits(shuffled, self.s);
        self.arithmetic.polynomial(&digits[..self.t as usize], j)
    }

    /// A factor's key of one kind, modulo 2^32.
    fn key(&self, j: u32, kind: u32) -> u32 {
        self.seed.wrapping_mul(j + 1).wrapping_mul(kind)
    }
}

/// The digits of i in base b, lowest first.
fn digits(mut i: u32, b: u32) -> [u32; MOST_DIGITS] {
    let mut digits = [0; MOST_DIGITS];
    for digit in &mut digits {
        if i == 0 {
            break;
        }
        *digit = i % b;
        i /= b;
    }
    digits
}

#[cfg(test)]
mod tests {
    use super::*;
    use crate::check::choices;
    use std::collections::BTreeSet;

    fn strip(levels: u32, strength: u32, factors: u32, seed: u32, shuffler: Shuffler) -> Strip {
        Strip::plan(
            Wanted {
                levels,
                strength,
                factors,
                seed,
            },
            shuffler,
        )
        .unwrap()
    }

    fn refusal(levels: u32, strength: u32, factors: u32) -> Option<Refusal> {
        let wanted = Wanted {
            levels,
            strength,
            factors,
            seed: 1,
        };
        Strip::plan(wanted, Shuffler::Hash).err()
    }

    /// Whether the labels' levels at these factors are all different.
    fn meet_in_every_combination(strip: &Strip, factors: &[u32]) -> bool {
        let combinations: BTreeSet<Vec<u32>> = (0..strip.labels)
            .map(|i| factors.iter().map(|&j| strip.cell(i, j).level).collect())
            .collect();
        combinations.len() == strip.labels as usize
    }

    #[test]
    fn the_strip_of_three_levels_by_the_turn() {
        let strip = strip(3, 2, 3, 1, Shuffler::Turn);
        let expected = [
            [(0, 2), (2, 7), (1, 5)],
            [(1, 5), (0, 1), (2, 8)],
            [(2, 6), (2, 8), (2, 6)],
            [(0, 0), (0, 2), (0, 0)],
            [(1, 3), (1, 5), (1, 3)],
            [(2, 7), (0, 0), (1, 4)],
            [(0, 1), (1, 3), (2, 7)],
            [(1, 4), (2, 6), (0, 1)],
            [(2, 8), (1, 4), (0, 2)],
        ];
        for (i, row) in (0..).zip(expected) {
            for (j, (level, fine)) in (0..).zip(row) {
                assert_eq!(
                    strip.cell(i, j),
                    Cell { level, fine },
                    "label {i}, factor {j}"
                );
            }
        }
    }

    #[test]
    fn any_t_factors_meet_in_every_combination() {
        let plans = [
            (2, 1),
            (2, 2),
            (3, 3),
            (4, 2),
            (4, 3),
            (5, 2),
            (5, 3),
            (6, 1),
            (7, 2),
            (8, 2),
            (9, 1),
            (10, 1),
            (11, 2),
            (12, 1),
            (13, 2),
            (14, 1),
            (15, 1),
            (16, 2),
        ];
        for shuffler in [Shuffler::Turn, Shuffler::Hash] {
            for seed in [0, 1, u32::MAX] {
                for (s, t) in plans {
                    let strip = strip(s, t, s, seed, shuffler);
                    for factors in choices(0, s, t) {
                        assert!(
                            meet_in_every_combination(&strip, &factors),
                            "{s} {t} {seed} {shuffler:?} {factors:?}"
                        );
                    }
                }
            }
        }
    }

    #[test]
    fn every_factor_has_every_fine_setting_once() {
        for shuffler in [Shuffler::Turn, Shuffler::Hash] {
            for seed in [0, 1, 77, u32::MAX] {
                for (s, t) in [
                    (2, 2),
                    (3, 2),
                    (4, 4),
                    (5, 3),
                    (6, 1),
                    (8, 3),
                    (13, 3),
                    (15, 1),
                ] {
                    let strip = strip(s, t, s, seed, shuffler);
                    for j in 0..s {
                        let mut fine: Vec<u32> =
                            (0..strip.labels).map(|i| strip.cell(i, j).fine).collect();
                        fine.sort();
                        assert!(fine.into_iter().eq(0..strip.labels));
                    }
                }
            }
        }
    }

    #[test]
    fn clock_residues_for_four_levels_miss_half_the_combinations_of_factors_0_and_2() {
        let mut strip = strip(4, 2, 4, 1, Shuffler::Hash);
        assert!(meet_in_every_combination(&strip, &[0, 2]));
        strip.arithmetic = Arithmetic::Residues { count: 4 };
        let combinations: BTreeSet<(u32, u32)> = (0..strip.labels)
            .map(|i| (strip.cell(i, 0).level, strip.cell(i, 2).level))
            .collect();
        assert_eq!(combinations.len(), 8);
    }

    #[test]
    fn a_sub_level_from_the_unshuffled_number_can_repeat_a_fine_setting() {
        let strip = strip(3, 2, 3, 2, Shuffler::Hash);
        let sub_levels = strip.labels / strip.s;
        let different = |fine: &dyn Fn(u32) -> u32| {
            (0..strip.labels).map(fine).collect::<BTreeSet<u32>>().len()
        };
        assert_eq!(different(&|i| strip.cell(i, 0).fine), 9);
        let from_unshuffled = different(&|i| {
            let key = strip.key(0, FINE_KEY);
            strip.cell(i, 0).level * sub_levels + strip.shuffler.out(key, sub_levels, i / strip.s)
        });
        assert!(from_unshuffled < 9);
    }

    #[test]
    fn the_smallest_refusal_is_given() {
        assert_eq!(refusal(0, 0, 0), Some(Refusal::Count));
        assert_eq!(refusal(1, 1, 1), Some(Refusal::Count));
        assert_eq!(refusal(17, 1, 1), Some(Refusal::Count));
        assert_eq!(refusal(6, 2, 0), Some(Refusal::Factors));
        assert_eq!(refusal(3, 2, 4), Some(Refusal::Factors));
        assert_eq!(refusal(6, 0, 2), Some(Refusal::Strength));
        assert_eq!(refusal(6, 3, 2), Some(Refusal::Strength));
        assert_eq!(refusal(16, u32::MAX, 16), Some(Refusal::Strength));
        assert_eq!(refusal(6, 2, 2), Some(Refusal::Arithmetic));
        assert_eq!(refusal(6, 1, 2), None);
        assert_eq!(refusal(15, 15, 15), Some(Refusal::Arithmetic));
        assert_eq!(refusal(16, 4, 16), None);
        assert_eq!(refusal(16, 5, 16), Some(Refusal::Labels));
        assert_eq!(refusal(16, 16, 16), Some(Refusal::Labels));
        assert_eq!(refusal(7, 5, 7), None);
        assert_eq!(refusal(7, 6, 7), Some(Refusal::Labels));
    }
}
