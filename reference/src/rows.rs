//! All rows of a strip, and the way from settings to a label: by trying every
//! label.

use std::fmt;

use crate::slip::{Layer, Slip};
use crate::strip::{Cell, Strip};

/// A factor with a level or a fine setting that is sought.
#[derive(Clone, Copy, Debug, PartialEq, Eq)]
pub struct Wish {
    pub factor: u32,
    pub setting: u32,
}

impl fmt::Display for Wish {
    fn fmt(&self, to: &mut fmt::Formatter) -> fmt::Result {
        write!(to, "{}/{}", self.factor, self.setting)
    }
}

pub struct Rows {
    strip: Strip,
    cells: Vec<Cell>,
}

impl Rows {
    pub fn of(strip: Strip) -> Rows {
        let mut cells = vec![Cell::default(); (strip.labels() * strip.factors()) as usize];
        strip.fill(&mut cells);
        Rows { strip, cells }
    }

    pub fn strip(&self) -> &Strip {
        &self.strip
    }

    pub fn row(&self, label: u32) -> &[Cell] {
        let width = self.strip.factors() as usize;
        let start = label as usize * width;
        &self.cells[start..start + width]
    }

    /// The label that has all of these levels.
    pub fn find(&self, wishes: &[Wish]) -> Result<u32, Slip> {
        let strip = &self.strip;
        let no_factor = |wish: &Wish| wish.factor >= strip.factors();
        let no_level = |wish: &Wish| wish.setting >= strip.levels();
        refuse_at(8, wishes.iter().position(no_factor))?;
        refuse_at(9, wishes.iter().position(no_level))?;
        Layer::Strip.refuses_if(wishes.len() != strip.strength() as usize, 11, 0)?;
        let repeats = |&k: &usize| {
            let factor = wishes[k].factor;
            wishes[..k].iter().any(|earlier| earlier.factor == factor)
        };
        refuse_at(12, (0..wishes.len()).find(repeats))?;
        Ok(self.only_label(|row| {
            wishes
                .iter()
                .all(|wish| row[wish.factor as usize].level == wish.setting)
        }))
    }

    /// The label that has this fine setting.
    pub fn locate(&self, wish: Wish) -> Result<u32, Slip> {
        Layer::Strip.refuses_if(wish.factor >= self.strip.factors(), 8, 0)?;
        Layer::Strip.refuses_if(wish.setting >= self.strip.labels(), 9, 0)?;
        Ok(self.only_label(|row| row[wish.factor as usize].fine == wish.setting))
    }

    /// The label whose row is as wished, and the proof by trial that no other is.
    fn only_label(&self, wished: impl Fn(&[Cell]) -> bool) -> u32 {
        let mut labels = (0..self.strip.labels()).filter(|&label| wished(self.row(label)));
        let label = labels.next().expect("some label is as wished");
        assert_eq!(labels.next(), None, "no other label is as wished");
        label
    }
}

/// The refusal at the wish that is at fault, if there is one.
fn refuse_at(number: u32, fault: Option<usize>) -> Result<(), Slip> {
    let place = fault.unwrap_or(0) as u32;
    Layer::Strip.refuses_if(fault.is_some(), number, place)
}

#[cfg(test)]
mod tests {
    use super::*;
    use crate::shuffle::Shuffler;
    use crate::strip::Wanted;

    fn rows(levels: u32, strength: u32, factors: u32, seed: u32, shuffler: Shuffler) -> Rows {
        let wanted = Wanted {
            levels,
            strength,
            factors,
            seed,
        };
        Rows::of(Strip::plan(wanted, shuffler).unwrap())
    }

    fn wishes<const T: usize>(pairs: [(u32, u32); T]) -> [Wish; T] {
        pairs.map(|(factor, setting)| Wish { factor, setting })
    }

    fn nine() -> Rows {
        rows(3, 2, 3, 1, Shuffler::Turn)
    }

    #[test]
    fn the_examples_of_find() {
        assert_eq!(nine().find(&wishes([(1, 0), (2, 1)])), Ok(5));
        assert_eq!(nine().find(&wishes([(0, 2), (2, 0)])), Ok(8));
        let refused = |number, place| Err(Layer::Strip.slip(number, place));
        assert_eq!(nine().find(&wishes([(0, 5), (3, 0)])), refused(8, 1));
        assert_eq!(
            nine().find(&wishes([(0, 5), (0, 1), (1, 1)])),
            refused(9, 0)
        );
        assert_eq!(
            nine().find(&wishes([(0, 1), (0, 1), (1, 1)])),
            refused(11, 0)
        );
        assert_eq!(nine().find(&wishes([(1, 0), (1, 2)])), refused(12, 1));
        assert_eq!(nine().find(&[]), refused(11, 0));
    }

    #[test]
    fn the_examples_of_locate() {
        let located = |factor, setting| nine().locate(Wish { factor, setting });
        assert_eq!(located(1, 5), Ok(4));
        assert_eq!(located(3, 9), Err(Layer::Strip.slip(8, 0)));
        assert_eq!(located(2, 9), Err(Layer::Strip.slip(9, 0)));
    }

    #[test]
    fn each_label_is_found_and_located_by_its_own_row() {
        for (s, t, d) in [(2, 1, 2), (4, 2, 3), (5, 3, 5), (8, 2, 8)] {
            for shuffler in [Shuffler::Turn, Shuffler::Hash] {
                let rows = rows(s, t, d, u32::MAX, shuffler);
                for label in 0..s.pow(t) {
                    let row = rows.row(label);
                    let wish = |factor: u32, setting| Wish { factor, setting };
                    let last: Vec<Wish> =
                        (d - t..d).map(|j| wish(j, row[j as usize].level)).collect();
                    assert_eq!(rows.find(&last), Ok(label));
                    let fine = row[d as usize - 1].fine;
                    assert_eq!(rows.locate(wish(d - 1, fine)), Ok(label));
                }
            }
        }
    }
}
