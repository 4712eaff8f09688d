//! The plain book: a cursor, and how each label stands. It has no torn labels,
//! so nothing here is refused by number 17.

use crate::rows::Rows;
use crate::slip::{Layer, Slip};

const HIGHEST_GRADE: u32 = 1000;

#[derive(Clone, Copy, Debug, PartialEq, Eq)]
pub enum Standing {
    Waiting,
    Out,
    Graded(u32),
}

/// How many labels stand in each way.
#[derive(Clone, Copy, Debug, Default, PartialEq, Eq)]
pub struct Counts {
    pub waiting: u32,
    pub out: u32,
    pub graded: u32,
}

#[derive(Clone, Debug, PartialEq, Eq)]
pub struct Book {
    cursor: u32,
    standings: Vec<Standing>,
}

/// What an effect is asked for: from level b of a factor to level a.
#[derive(Clone, Copy, Debug, PartialEq, Eq)]
pub struct Between {
    pub factor: u32,
    pub a: u32,
    pub b: u32,
}

/// Each call is told how many words of memory it is handed.
impl Book {
    pub fn open(labels: u32) -> Book {
        Book {
            cursor: 0,
            standings: vec![Standing::Waiting; labels as usize],
        }
    }

    pub fn take(&mut self, words: u32) -> Result<u32, Slip> {
        self.needs_all(words)?;
        let labels = self.labels();
        let waiting = (0..labels)
            .map(|step| (self.cursor + step) % labels)
            .find(|&label| self.standing(label) == Standing::Waiting);
        let Some(label) = waiting else {
            let some_out = self.standings.contains(&Standing::Out);
            return Err(Layer::Book.slip(if some_out { 14 } else { 15 }, 0));
        };
        self.stand(label, Standing::Out);
        self.cursor = (label + 1) % labels;
        Ok(label)
    }

    pub fn mark(&mut self, words: u32, label: u32, grade: u32) -> Result<(), Slip> {
        self.needs_all(words)?;
        self.needs_label(label)?;
        Layer::Book.refuses_if(grade > HIGHEST_GRADE, 10, 0)?;
        self.needs(label, self.standing(label) == Standing::Out)?;
        self.stand(label, Standing::Graded(grade));
        Ok(())
    }

    pub fn spoil(&mut self, words: u32, label: u32) -> Result<(), Slip> {
        self.needs_all(words)?;
        self.needs_label(label)?;
        self.needs(label, self.standing(label) == Standing::Out)?;
        self.stand(label, Standing::Waiting);
        Ok(())
    }

    pub fn strike(&mut self, words: u32, label: u32) -> Result<(), Slip> {
        self.needs_all(words)?;
        self.needs_label(label)?;
        self.needs(label, matches!(self.standing(label), Standing::Graded(_)))?;
        self.stand(label, Standing::Waiting);
        Ok(())
    }

    pub fn finish(&self, words: u32) -> Result<(), Slip> {
        self.needs_all(words)?;
        Layer::Book.refuses_if(!self.is_graded(), 16, 0)
    }

    /// The sum of the grades at level a less that at level b.
    pub fn effect(&self, words: u32, rows: &Rows, asked: Between) -> Result<i64, Slip> {
        let Between { factor, a, b } = asked;
        let levels = rows.strip().levels();
        self.needs_all(words)?;
        Layer::Book.refuses_if(factor >= rows.strip().factors(), 8, 0)?;
        Layer::Book.refuses_if(a >= levels, 9, 0)?;
        Layer::Book.refuses_if(b >= levels, 9, 1)?;
        Layer::Book.refuses_if(!self.is_graded(), 16, 0)?;
        Ok(self.sum(rows, factor, a) - self.sum(rows, factor, b))
    }

    /// The sum of the grades of the labels that have a level.
    pub fn sum(&self, rows: &Rows, factor: u32, level: u32) -> i64 {
        (0..self.labels())
            .filter(|&label| rows.row(label)[factor as usize].level == level)
            .map(|label| match self.standing(label) {
                Standing::Graded(grade) => i64::from(grade),
                Standing::Waiting | Standing::Out => 0,
            })
            .sum()
    }

    pub fn counts(&self) -> Counts {
        let mut counts = Counts::default();
        for standing in &self.standings {
            match standing {
                Standing::Waiting => counts.waiting += 1,
                Standing::Out => counts.out += 1,
                Standing::Graded(_) => counts.graded += 1,
            }
        }
        counts
    }

    pub fn labels(&self) -> u32 {
        self.standings.len() as u32
    }

    pub fn standing(&self, label: u32) -> Standing {
        self.standings[label as usize]
    }

    pub fn is_graded(&self) -> bool {
        self.counts().graded == self.labels()
    }

    fn stand(&mut self, label: u32, standing: Standing) {
        self.standings[label as usize] = standing;
    }

    fn needs_all(&self, words: u32) -> Result<(), Slip> {
        Layer::Book.refuses_if(words != self.labels(), 6, 0)
    }

    fn needs_label(&self, label: u32) -> Result<(), Slip> {
        Layer::Book.refuses_if(label >= self.labels(), 7, label)
    }

    fn needs(&self, label: u32, stands_so: bool) -> Result<(), Slip> {
        Layer::Book.refuses_if(!stands_so, 13, label)
    }
}

#[cfg(test)]
mod tests {
    use super::*;

    fn refused<T>(number: u32, place: u32) -> Result<T, Slip> {
        Err(Layer::Book.slip(number, place))
    }

    #[test]
    fn take_goes_once_round_from_the_cursor() {
        let mut book = Book::open(3);
        assert_eq!([0, 1, 2].map(|_| book.take(3)), [Ok(0), Ok(1), Ok(2)]);
        assert_eq!(book.take(3), refused(14, 0));
        assert_eq!(book.spoil(3, 1), Ok(()));
        assert_eq!(book.spoil(3, 0), Ok(()));
        assert_eq!(book.take(3), Ok(0));
        assert_eq!(book.mark(3, 2, 7), Ok(()));
        assert_eq!(book.strike(3, 2), Ok(()));
        assert_eq!([0, 1].map(|_| book.take(3)), [Ok(1), Ok(2)]);
    }

    #[test]
    fn the_smallest_number_is_given_and_nothing_changes() {
        let mut book = Book::open(2);
        book.take(2).unwrap();
        let before = book.clone();
        assert_eq!(book.mark(1, 9, 1001), refused(6, 0));
        assert_eq!(book.mark(2, 9, 1001), refused(7, 9));
        assert_eq!(book.mark(2, 1, 1001), refused(10, 0));
        assert_eq!(book.mark(2, 1, 1000), refused(13, 1));
        assert_eq!(book.strike(2, 0), refused(13, 0));
        assert_eq!(book.spoil(2, 2), refused(7, 2));
        assert_eq!(book.finish(3), refused(6, 0));
        assert_eq!(book.finish(2), refused(16, 0));
        assert_eq!(book, before);
    }

    #[test]
    fn a_strip_is_done_when_every_label_is_graded() {
        let mut book = Book::open(1);
        book.take(1).unwrap();
        book.mark(1, 0, 1000).unwrap();
        assert_eq!(book.take(1), refused(15, 0));
        assert_eq!(book.finish(1), Ok(()));
    }
}
