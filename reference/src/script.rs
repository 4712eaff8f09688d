//! The lines of a trial script after its first one.

use std::fmt;

use crate::book::Between;
use crate::rows::Wish;
use crate::text;

#[derive(Clone, Debug, PartialEq, Eq)]
pub enum Command {
    Take,
    Mark { label: u32, grade: u32 },
    Spoil { label: u32 },
    Strike { label: u32 },
    Finish,
    Find(Vec<Wish>),
    Locate(Wish),
    Effect(Between),
}

/// A command, with the number of words that it says it is handed.
#[derive(Clone, Debug, PartialEq, Eq)]
pub struct Call {
    pub command: Command,
    pub words: Option<u32>,
}

#[derive(Clone, Copy, Debug, PartialEq, Eq)]
pub enum BadLine {
    NoSuchCommand,
    Expected(&'static str),
}

/// What a line asks for, or nothing where it is empty or a comment.
pub fn read(line: &[u8]) -> Option<Result<Call, BadLine>> {
    let words = text::words(line);
    if text::is_idle(&words) {
        return None;
    }
    let (name, rest) = words.split_first()?;
    Some(match form(name) {
        None => Err(BadLine::NoSuchCommand),
        Some(form) => call(name, rest).ok_or(BadLine::Expected(form)),
    })
}

/// The form of the command of this name.
fn form(name: &[u8]) -> Option<&'static str> {
    let forms = [
        "take [with WORDS]",
        "mark LABEL GRADE [with WORDS]",
        "spoil LABEL [with WORDS]",
        "strike LABEL [with WORDS]",
        "finish [with WORDS]",
        "find FACTOR/LEVEL ..",
        "locate FACTOR/FINE",
        "effect FACTOR A B [with WORDS]",
    ];
    forms
        .into_iter()
        .find(|form| form.split(' ').next().map(str::as_bytes) == Some(name))
}

fn call(name: &[u8], rest: &[&[u8]]) -> Option<Call> {
    if let b"find" | b"locate" = name {
        let command = search(name, wishes(rest)?)?;
        return Some(Call {
            command,
            words: None,
        });
    }
    let (rest, words) = match rest {
        [rest @ .., b"with", words] => (rest, Some(text::decimal(words)?)),
        _ => (rest, None),
    };
    let command = match (name, text::decimals(rest)?.as_slice()) {
        (b"take", []) => Command::Take,
        (b"finish", []) => Command::Finish,
        (b"spoil", &[label]) => Command::Spoil { label },
        (b"strike", &[label]) => Command::Strike { label },
        (b"mark", &[label, grade]) => Command::Mark { label, grade },
        (b"effect", &[factor, a, b]) => Command::Effect(Between { factor, a, b }),
        _ => return None,
    };
    Some(Call { command, words })
}

/// There is at least one wish, and for locate no second one.
fn search(name: &[u8], wishes: Vec<Wish>) -> Option<Command> {
    match (name, wishes.as_slice()) {
        (_, []) => None,
        (b"find", _) => Some(Command::Find(wishes)),
        (b"locate", &[wish]) => Some(Command::Locate(wish)),
        _ => None,
    }
}

fn wishes(words: &[&[u8]]) -> Option<Vec<Wish>> {
    words.iter().map(|word| wish(word)).collect()
}

fn wish(word: &[u8]) -> Option<Wish> {
    let mut parts = word.split(|&byte| byte == b'/');
    let wish = Wish {
        factor: text::decimal(parts.next()?)?,
        setting: text::decimal(parts.next()?)?,
    };
    parts.next().is_none().then_some(wish)
}

impl fmt::Display for Command {
    fn fmt(&self, to: &mut fmt::Formatter) -> fmt::Result {
        match self {
            Command::Take => write!(to, "take"),
            Command::Mark { label, grade } => write!(to, "mark {label} {grade}"),
            Command::Spoil { label } => write!(to, "spoil {label}"),
            Command::Strike { label } => write!(to, "strike {label}"),
            Command::Finish => write!(to, "finish"),
            Command::Find(wishes) => write!(to, "find {}", text::joined(wishes, " ")),
            Command::Locate(wish) => write!(to, "locate {wish}"),
            Command::Effect(Between { factor, a, b }) => write!(to, "effect {factor} {a} {b}"),
        }
    }
}

impl fmt::Display for Call {
    fn fmt(&self, to: &mut fmt::Formatter) -> fmt::Result {
        write!(to, "{}", self.command)?;
        match self.words {
            Some(words) => write!(to, " with {words}"),
            None => Ok(()),
        }
    }
}

impl fmt::Display for BadLine {
    fn fmt(&self, to: &mut fmt::Formatter) -> fmt::Result {
        match self {
            BadLine::NoSuchCommand => write!(to, "no such command"),
            BadLine::Expected(form) => write!(to, "expected {form}"),
        }
    }
}

#[cfg(test)]
mod tests {
    use super::*;

    fn shown(line: &str) -> String {
        match read(line.as_bytes()) {
            None => "nothing".to_string(),
            Some(Ok(call)) => call.to_string(),
            Some(Err(bad)) => bad.to_string(),
        }
    }

    #[test]
    fn words_are_repeated_in_the_plain_form() {
        assert_eq!(shown(" \tmark\t07  0000000100 \r"), "mark 7 100");
        assert_eq!(shown("take with 009"), "take with 9");
        assert_eq!(shown("find 00/02  2/0"), "find 0/2 2/0");
        assert_eq!(shown("effect 1 2 0 with 9"), "effect 1 2 0 with 9");
        assert_eq!(shown("  # take"), "nothing");
        assert_eq!(shown("\r"), "nothing");
    }

    #[test]
    fn bad_lines() {
        for line in ["Take", "takes", "with 9", "9", "take\u{b}", "take\r "] {
            assert_eq!(shown(line), "no such command", "{line:?}");
        }
        for (line, form) in [
            ("take 1", "take [with WORDS]"),
            ("take with", "take [with WORDS]"),
            ("mark 1", "mark LABEL GRADE [with WORDS]"),
            ("mark 1 with 9", "mark LABEL GRADE [with WORDS]"),
            ("mark 1 4294967296", "mark LABEL GRADE [with WORDS]"),
            ("spoil -1", "spoil LABEL [with WORDS]"),
            ("strike 1 with 1 with 1", "strike LABEL [with WORDS]"),
            ("finish # done", "finish [with WORDS]"),
            ("find", "find FACTOR/LEVEL .."),
            ("find 0/1 with 9", "find FACTOR/LEVEL .."),
            ("find 0/1/2", "find FACTOR/LEVEL .."),
            ("locate 0/1 1/1", "locate FACTOR/FINE"),
            ("locate 01", "locate FACTOR/FINE"),
            ("effect 0 1", "effect FACTOR A B [with WORDS]"),
        ] {
            assert_eq!(shown(line), format!("expected {form}"), "{line:?}");
        }
    }
}
