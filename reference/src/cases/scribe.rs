//! Writes a trial script line by line and does what each line asks for, so
//! that the next line can go by how the labels stand.

use super::Input;
use super::bad_lines::{BAD_LINES, IDLE_LINES};
use super::lines;
use super::random::Random;
use crate::book::{Book, Standing};
use crate::listing;
use crate::strip::{Cell, Strip};
use crate::text;
use crate::trial::Trial;

/// From here on a strip is large: few lines but the needed ones.
const LARGE: u32 = 1000;

/// Bytes that spoil a line, or do not.
const STRANGE: &[u8] = b"0129 \t/#-+aT\0\x0b\x7f\x80\xff";

/// Levels, strength, factors, seed and shuffler.
pub type Plan = [u32; 5];

pub struct Scribe<'a> {
    random: &'a mut Random,
    trial: Trial,
    grades: Grades,
    text: Input,
}

/// How the labels are graded.
enum Grades {
    Any,
    Ends,
    Same(u32),
    Additive { base: i32, shares: Vec<Vec<i32>> },
}

impl Grades {
    fn of(random: &mut Random, strip: &Strip) -> Grades {
        match random.below(8) {
            0 => Grades::Ends,
            1 => Grades::Same(random.between(0, 1000)),
            2 | 3 => Grades::Any,
            _ => Grades::additive(random, strip),
        }
    }

    /// Shares of either sign, small enough that each sum is 0 to 1000.
    fn additive(random: &mut Random, strip: &Strip) -> Grades {
        let (s, d) = (strip.levels(), strip.factors());
        let reach = random.between(1, 500 / d);
        let share = |random: &mut Random| random.between(0, 2 * reach) as i32 - reach as i32;
        let shares = (0..d)
            .map(|_| (0..s).map(|_| share(random)).collect())
            .collect();
        let base = random.between(d * reach, 1000 - d * reach) as i32;
        Grades::Additive { base, shares }
    }

    fn grade(&self, random: &mut Random, row: &[Cell]) -> u32 {
        match self {
            Grades::Any => random.between(0, 1000),
            Grades::Ends => random.pick(&[0, 1000]),
            Grades::Same(grade) => *grade,
            Grades::Additive { base, shares } => {
                let shares = shares.iter().zip(row);
                let sum: i32 = shares.map(|(share, cell)| share[cell.level as usize]).sum();
                (base + sum) as u32
            }
        }
    }
}

/// A script that finishes its book, and asks for more after that.
pub fn finished(random: &mut Random, plan: Plan) -> Input {
    let mut scribe = Scribe::open(random, plan);
    let size = scribe.batch_size();
    while !scribe.trial.is_finished() && !scribe.book().is_graded() {
        scribe.batch(size);
    }
    scribe.finish();
    scribe.close()
}

/// A script that stops before its end.
pub fn unfinished(random: &mut Random, plan: Plan) -> Input {
    let mut scribe = Scribe::open(random, plan);
    let size = scribe.random.between(1, 9);
    for _ in 0..scribe.random.between(0, 8) {
        scribe.batch(size);
        scribe.noise();
    }
    scribe.close()
}

impl Scribe<'_> {
    fn open(random: &mut Random, [s, t, d, seed, shuffler]: Plan) -> Scribe<'_> {
        let text = lines::line(s, t, d, seed, shuffler);
        let strip = listing::parse(&text).and_then(|request| request.plan());
        let strip = strip.expect("the plan is an accepted one");
        Scribe {
            grades: Grades::of(random, &strip),
            random,
            trial: Trial::open(strip),
            text,
        }
    }

    /// The whole text, now and then without its last line feed.
    fn close(mut self) -> Input {
        if self.random.one_in(4) {
            self.text.pop();
        }
        self.text
    }

    fn book(&self) -> &Book {
        self.trial.book()
    }

    fn labels(&self) -> u32 {
        self.book().labels()
    }

    fn is_large(&self) -> bool {
        self.labels() > LARGE
    }

    fn batch_size(&mut self) -> u32 {
        let labels = self.labels();
        if self.is_large() {
            labels / 8
        } else {
            self.random.pick(&[1, 2, 5, labels / 4 + 1, labels])
        }
    }

    /// Takes some labels, grades most of those that are out, and more.
    fn batch(&mut self, size: u32) {
        let waiting = self.book().counts().waiting;
        let one_too_many = u32::from(self.random.one_in(4));
        for _ in 0..size.min(waiting + one_too_many) {
            self.call("take".to_string());
        }
        let rare = if self.is_large() { 200 } else { 12 };
        for label in self.labels_out() {
            match self.random.below(rare) {
                0 => self.call(format!("spoil {label}")),
                1 => {}
                _ => self.mark(label),
            }
        }
        if self.random.one_in(4) {
            let label = self.random.below(self.labels());
            self.call(format!("strike {label}"));
        }
        for _ in 0..self.random.below(3) {
            self.noise();
        }
    }

    /// The labels that are out, in one order or another.
    fn labels_out(&mut self) -> Vec<u32> {
        let is_out = |&label: &u32| self.book().standing(label) == Standing::Out;
        let mut out: Vec<u32> = (0..self.labels()).filter(is_out).collect();
        match self.random.below(3) {
            0 => {}
            1 => out.reverse(),
            _ => self.random.shuffle(&mut out),
        }
        out
    }

    fn mark(&mut self, label: u32) {
        let row = self.trial.rows().row(label);
        let grade = self.grades.grade(self.random, row);
        self.call(format!("mark {label} {grade}"));
    }

    fn finish(&mut self) {
        if self.random.one_in(3) {
            self.call("take".to_string());
        }
        self.call("finish".to_string());
        for _ in 0..self.random.between(3, 12) {
            self.question();
        }
        for _ in 0..self.random.below(6) {
            self.noise();
        }
    }

    /// Something to ask a finished book for.
    fn question(&mut self) {
        match self.random.below(8) {
            0..3 => self.search(),
            3 => {
                let effect = self.wild_effect();
                let call = self.with_some_words(effect);
                self.ask(&call);
            }
            _ => {
                let strip = self.trial.rows().strip();
                let (s, d) = (strip.levels(), strip.factors());
                let [factor, a, b] = [d, s, s].map(|size| self.random.below(size));
                self.call(format!("effect {factor} {a} {b}"));
            }
        }
    }

    /// A find or locate that is not refused.
    fn search(&mut self) {
        let strip = self.trial.rows().strip();
        let (s, t, d) = (strip.levels(), strip.strength(), strip.factors());
        if self.random.one_in(2) {
            let fine = self.random.below(self.labels());
            let factor = self.random.below(d);
            return self.ask(&format!("locate {factor}/{fine}"));
        }
        let mut factors: Vec<u32> = (0..d).collect();
        self.random.shuffle(&mut factors);
        let wishes = factors[..t as usize]
            .iter()
            .map(|factor| format!("{factor}/{}", self.random.below(s)));
        let wishes = text::joined(wishes, " ");
        self.ask(&format!("find {wishes}"));
    }

    /// Something that need not be there.
    fn noise(&mut self) {
        match self.random.below(8) {
            0..3 => {
                let call = self.wild_call();
                self.ask(&call);
            }
            3 => {
                let mut line = self.wild_call().into_bytes();
                self.random.mutate(&mut line, STRANGE);
                self.line(&line);
            }
            4 => self.search(),
            5 | 6 => {
                let line = self.random.pick(&BAD_LINES);
                self.line(line);
            }
            _ => {
                let line = self.random.pick(&IDLE_LINES);
                self.line(line);
            }
        }
    }

    /// A call that may well be refused or turned away.
    fn wild_call(&mut self) -> String {
        let label = self.random.near(self.labels());
        let call = match self.random.below(8) {
            0 => "take".to_string(),
            1 => format!("mark {label} {}", self.random.near(1001)),
            2 => format!("spoil {label}"),
            3 => format!("strike {label}"),
            4 => "finish".to_string(),
            5 => self.wild_effect(),
            6 => return self.wild_find(),
            _ => {
                let factors = self.trial.rows().strip().factors();
                return format!("locate {}/{label}", self.random.near(factors));
            }
        };
        self.with_some_words(call)
    }

    fn with_some_words(&mut self, call: String) -> String {
        if self.random.one_in(3) {
            format!("{call} with {}", self.random.near(self.labels()))
        } else {
            call
        }
    }

    fn wild_effect(&mut self) -> String {
        let strip = self.trial.rows().strip();
        let (s, d) = (strip.levels(), strip.factors());
        let [factor, a, b] = [d, s, s].map(|limit| self.random.near(limit));
        format!("effect {factor} {a} {b}")
    }

    fn wild_find(&mut self) -> String {
        let strip = self.trial.rows().strip();
        let (s, t, d) = (strip.levels(), strip.strength(), strip.factors());
        let count = self.random.pick(&[t, t, t, t + 1, t + 4, t.max(2) - 1]);
        // Few factors, so that some come twice.
        let d = self.random.between(1, d);
        let wishes: Vec<String> = (0..count)
            .map(|_| match self.random.below(8) {
                0 => format!("{}/{}", self.random.near(d), self.random.near(s)),
                _ => format!("{}/{}", self.random.below(d), self.random.below(s)),
            })
            .collect();
        format!("find {}", wishes.join(" "))
    }

    /// A call of the book, now and then with its memory named.
    fn call(&mut self, mut call: String) {
        if self.random.one_in(16) {
            call += &format!(" with {}", self.labels());
        }
        self.ask(&call);
    }

    /// A line of these words, now and then in an unusual spelling.
    fn ask(&mut self, words: &str) {
        if self.random.one_in(12) {
            let line = self.random.respell(words);
            self.line(&line);
        } else {
            self.line(words.as_bytes());
        }
    }

    fn line(&mut self, line: &[u8]) {
        self.trial.answer(line);
        self.text.extend(line);
        self.text.push(b'\n');
    }
}
