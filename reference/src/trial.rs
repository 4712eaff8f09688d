//! A trial from start to finish: a script in, what happened out.

use std::io::{self, BufRead, Write};

use crate::book::{Book, Counts};
use crate::listing;
use crate::rows::Rows;
use crate::script::{self, Call, Command};
use crate::slip::{Layer, Slip};
use crate::strip::{Refusal, Strip};
use crate::text;

/// A strip with its book, which may be finished.
pub struct Trial {
    rows: Rows,
    book: Book,
    finished: bool,
}

/// Reads the script from its first line to its last, and prints.
pub fn run(mut input: impl BufRead, output: &mut impl Write) -> io::Result<()> {
    let first = listing::first_line(&mut input)?;
    match listing::parse(&first).and_then(|request| Ok((request, request.plan()?))) {
        Err(refusal) => writeln!(output, "1 {}", first_line_slip(refusal))?,
        Ok((_, strip)) if !strip.divides() => {
            writeln!(
                output,
                "1 no trial: no arithmetic of so many levels divides"
            )?;
        }
        Ok((request, strip)) => {
            writeln!(output, "trial {request}")?;
            perform(&mut Trial::open(strip), input, output)?;
        }
    }
    output.flush()
}

fn perform(trial: &mut Trial, input: impl BufRead, output: &mut impl Write) -> io::Result<()> {
    for (number, line) in (2u64..).zip(input.split(b'\n')) {
        if let Some(answer) = trial.answer(&line?) {
            writeln!(output, "{number} {answer}")?;
        }
    }
    trial.close(output)
}

fn first_line_slip(refusal: Refusal) -> Slip {
    let layer = match refusal {
        Refusal::Malformed => Layer::Listing,
        Refusal::Count => Layer::Arithmetic,
        Refusal::Factors | Refusal::Strength | Refusal::Arithmetic | Refusal::Labels => Layer::Plan,
    };
    layer.slip(refusal.number(), 0)
}

impl Trial {
    pub fn open(strip: Strip) -> Trial {
        Trial {
            book: Book::open(strip.labels()),
            rows: Rows::of(strip),
            finished: false,
        }
    }

    pub fn rows(&self) -> &Rows {
        &self.rows
    }

    pub fn book(&self) -> &Book {
        &self.book
    }

    pub fn is_finished(&self) -> bool {
        self.finished
    }

    /// Does what a line asks for and answers it, if it asks for something.
    pub fn answer(&mut self, line: &[u8]) -> Option<String> {
        let call = match script::read(line)? {
            Ok(call) => call,
            Err(bad) => return Some(format!("bad line: {bad}")),
        };
        let outcome = match self.turned_away(&call.command) {
            Some(why) => format!("turned away: the book is {why}"),
            None => self.call(&call).unwrap_or_else(|slip| slip.to_string()),
        };
        Some(format!("{call}: {outcome}"))
    }

    fn turned_away(&self, command: &Command) -> Option<&'static str> {
        match command {
            Command::Find(_) | Command::Locate(_) => None,
            Command::Effect(_) => (!self.finished).then_some("not finished"),
            _ => self.finished.then_some("finished"),
        }
    }

    fn call(&mut self, call: &Call) -> Result<String, Slip> {
        let book = &mut self.book;
        let words = call.words.unwrap_or(book.labels());
        match call.command {
            Command::Take => {
                let label = book.take(words)?;
                Ok(format!("label {label}, {}", self.row(label)))
            }
            Command::Mark { label, grade } => {
                book.mark(words, label, grade)?;
                Ok("graded".to_string())
            }
            Command::Spoil { label } => {
                book.spoil(words, label)?;
                Ok("waiting".to_string())
            }
            Command::Strike { label } => {
                book.strike(words, label)?;
                Ok("waiting".to_string())
            }
            Command::Finish => {
                book.finish(words)?;
                self.finished = true;
                Ok("finished".to_string())
            }
            Command::Find(ref wishes) => Ok(format!("label {}", self.rows.find(wishes)?)),
            Command::Locate(wish) => Ok(format!("label {}", self.rows.locate(wish)?)),
            Command::Effect(asked) => Ok(book.effect(words, &self.rows, asked)?.to_string()),
        }
    }

    fn row(&self, label: u32) -> String {
        text::joined(self.rows.row(label), " ")
    }

    /// Prints what stands at the end.
    fn close(&self, output: &mut impl Write) -> io::Result<()> {
        if !self.finished {
            let Counts {
                waiting,
                out,
                graded,
            } = self.book.counts();
            return writeln!(
                output,
                "not finished: {waiting} waiting, {out} out, {graded} graded"
            );
        }
        for factor in 0..self.rows.strip().factors() {
            writeln!(output, "factor {factor}: {}", self.effects(factor))?;
        }
        Ok(())
    }

    /// The effects between all levels of a factor, and its best level.
    fn effects(&self, factor: u32) -> String {
        let sums: Vec<i64> = (0..self.rows.strip().levels())
            .map(|level| self.book.sum(&self.rows, factor, level))
            .collect();
        let pairs = (1..sums.len()).flat_map(|a| (0..a).map(move |b| (a, b)));
        let effects = pairs.map(|(a, b)| format!("{a}-{b} {}", sums[a] - sums[b]));
        let largest = sums.iter().max();
        let best = sums.iter().position(|sum| Some(sum) == largest);
        format!(
            "{}; best level {}",
            text::joined(effects, ", "),
            best.expect("there are levels")
        )
    }
}

#[cfg(test)]
mod tests {
    use super::*;

    fn printed(script: &[u8]) -> String {
        let mut output = Vec::new();
        run(script, &mut output).unwrap();
        String::from_utf8(output).unwrap()
    }

    #[test]
    fn the_example_of_nine_labels() {
        let script = include_str!("../../examples/nine-labels.txt");
        let kept = include_str!("../expected/nine-labels.txt");
        assert_eq!(printed(script.as_bytes()), kept);
        for line in [
            "find 0/2 2/0: label 8\n",
            "locate 1/5: label 4\n",
            "effect 0 2 0: 60\n",
            "factor 0: 1-0 30, 2-0 60, 2-1 30; best level 2\n",
        ] {
            assert!(kept.contains(line), "{line}");
        }
    }

    #[test]
    fn first_lines_without_a_trial() {
        for (script, answer) in [
            (
                "3 2 3 1 0",
                "1 refused 18 by listing at 0: the first line is malformed\n",
            ),
            (
                "3 2 3 1 0\r\n",
                "1 refused 18 by listing at 0: the first line is malformed\n",
            ),
            (
                "17 2 3 1 0\n",
                "1 refused 1 by arithmetic at 0: no arithmetic of this count\n",
            ),
            (
                "6 2 3 1 0\ntake\n",
                "1 refused 4 by plan at 0: no arithmetic of so many levels divides\n",
            ),
            (
                "6 1 7 1 0\n",
                "1 refused 2 by plan at 0: the factors are none, or more than the levels\n",
            ),
            (
                "6 1 3 1 0\ntake\n",
                "1 no trial: no arithmetic of so many levels divides\n",
            ),
        ] {
            assert_eq!(printed(script.as_bytes()), answer, "{script:?}");
        }
    }

    #[test]
    fn a_book_that_is_not_finished() {
        let script = b"2 1 1 0 0\n\n# a note\r\ntake with 3\n take\r\neffect 0 1 0\ntakes";
        let answers = "\
trial 2 1 1 0 0
4 take with 3: refused 6 by book at 0: the words handed in are not as many as the labels
5 take: label 0, 0/0
6 effect 0 1 0: turned away: the book is not finished
7 bad line: no such command
not finished: 1 waiting, 1 out, 0 graded
";
        assert_eq!(printed(script), answers);
    }

    #[test]
    fn a_finished_book_takes_no_grades_and_the_lowest_best_level_wins() {
        let script = b"2 1 1 0 0\ntake\ntake\nmark 1 0\nmark 0 0\nfinish\ntake with 9\n\
            effect 1 2 2 with 9\neffect 1 2 2\neffect 0 2 2\neffect 0 0 2\neffect 0 0 0";
        let answers = "\
trial 2 1 1 0 0
2 take: label 0, 0/0
3 take: label 1, 1/1
4 mark 1 0: graded
5 mark 0 0: graded
6 finish: finished
7 take with 9: turned away: the book is finished
8 effect 1 2 2 with 9: refused 6 by book at 0: the words handed in are not as many as the labels
9 effect 1 2 2: refused 8 by book at 0: no such factor
10 effect 0 2 2: refused 9 by book at 0: no such level or fine setting
11 effect 0 0 2: refused 9 by book at 1: no such level or fine setting
12 effect 0 0 0: 0
factor 0: 1-0 0; best level 0
";
        assert_eq!(printed(script), answers);
    }
}
