//! The strip listing: one input line in, the strip or a refusal out.

use std::fmt;
use std::io::{self, BufRead, Write};

use crate::shuffle::Shuffler;
use crate::strip::{Refusal, Strip, Wanted};
use crate::text;

/// Five numbers of ten digits, four spaces and a line feed.
const LONGEST_LINE: u64 = 5 * 10 + 4 + 1;

/// What a well-formed line asks for.
#[derive(Clone, Copy, Debug, PartialEq, Eq)]
pub struct Request {
    pub wanted: Wanted,
    pub shuffler: Shuffler,
}

impl Request {
    pub fn plan(self) -> Result<Strip, Refusal> {
        Strip::plan(self.wanted, self.shuffler)
    }
}

/// The five numbers.
impl fmt::Display for Request {
    fn fmt(&self, to: &mut fmt::Formatter) -> fmt::Result {
        let Wanted {
            levels,
            strength,
            factors,
            seed,
        } = self.wanted;
        let shuffler = match self.shuffler {
            Shuffler::Turn => 0,
            Shuffler::Hash => 1,
        };
        write!(to, "{levels} {strength} {factors} {seed} {shuffler}")
    }
}

/// Reads the first line and prints.
pub fn run(input: impl BufRead, output: &mut impl Write) -> io::Result<()> {
    let line = first_line(input)?;
    match parse(&line).and_then(|request| Ok((request, request.plan()?))) {
        Ok((request, strip)) => print(request, &strip, output)?,
        Err(refusal) => writeln!(output, "refused {}", refusal.number())?,
    }
    output.flush()
}

/// The first line with its line feed, read no further than it can be long.
pub fn first_line(input: impl BufRead) -> io::Result<Vec<u8>> {
    let mut line = Vec::new();
    input.take(LONGEST_LINE).read_until(b'\n', &mut line)?;
    Ok(line)
}

/// Parses the line with its line feed.
pub fn parse(line: &[u8]) -> Result<Request, Refusal> {
    five_numbers(line)
        .and_then(request)
        .ok_or(Refusal::Malformed)
}

fn five_numbers(line: &[u8]) -> Option<[u32; 5]> {
    let mut parts = line.strip_suffix(b"\n")?.split(|&byte| byte == b' ');
    let mut numbers = [0; 5];
    for number in &mut numbers {
        *number = text::decimal(parts.next()?)?;
    }
    if parts.next().is_some() {
        return None;
    }
    Some(numbers)
}

fn request([levels, strength, factors, seed, shuffler]: [u32; 5]) -> Option<Request> {
    let shuffler = match shuffler {
        0 => Shuffler::Turn,
        1 => Shuffler::Hash,
        _ => return None,
    };
    Some(Request {
        wanted: Wanted {
            levels,
            strength,
            factors,
            seed,
        },
        shuffler,
    })
}

fn print(request: Request, strip: &Strip, output: &mut impl Write) -> io::Result<()> {
    writeln!(output, "strip {request}")?;
    for label in 0..strip.labels() {
        write!(output, "{label}")?;
        for factor in 0..strip.factors() {
            write!(output, " {}", strip.cell(label, factor))?;
        }
        writeln!(output)?;
    }
    Ok(())
}

#[cfg(test)]
mod tests {
    use super::*;

    fn listed(input: &[u8]) -> String {
        let mut output = Vec::new();
        run(input, &mut output).unwrap();
        String::from_utf8(output).unwrap()
    }

    #[test]
    fn the_kept_listing() {
        let kept = include_str!("../expected/3-2-3-1-0.txt");
        assert_eq!(listed(b"3 2 3 1 0\n"), kept);
        assert_eq!(listed(b"0000000003 02 003 1 0000000000\n"), kept);
        assert_eq!(listed(b"3 2 3 1 0\n\xff and more"), kept);
    }

    #[test]
    fn the_longest_line_is_read_whole() {
        let line = b"0000000003 0000000002 0000000003 0000000001 0000000000\n";
        assert_eq!(line.len() as u64, LONGEST_LINE);
        assert!(listed(line).starts_with("strip 3 2 3 1 0\n"));
    }

    #[test]
    fn malformed_lines() {
        let lines: [&[u8]; 18] = [
            b"",
            b"\n",
            b"3 2 3 1 0",
            b"3 2 3 1\n",
            b"3 2 3 1 0 0\n",
            b"3  2 3 1 0\n",
            b" 3 2 3 1 0\n",
            b"3 2 3 1 0 \n",
            b"3 2 3 1 0\r\n",
            b"3\t2 3 1 0\n",
            b"+3 2 3 1 0\n",
            b"3 2 3 -1 0\n",
            b"3 2 3 4294967296 0\n",
            b"3 2 3 00000000001 0\n",
            b"3 2 3 1 2\n",
            b"0 0 0 0 2\n",
            b"3 2 3 1 0\0\n",
            b"3 2 3 \xb9 0\n",
        ];
        for line in lines {
            assert_eq!(listed(line), "refused 18\n", "{}", line.escape_ascii());
        }
    }

    #[test]
    fn refused_plans() {
        for (line, number) in [
            ("17 1 1 0 0\n", 1),
            ("3 1 4 0 0\n", 2),
            ("3 3 2 0 0\n", 3),
            ("6 2 6 0 1\n", 4),
            ("16 5 16 0 1\n", 5),
        ] {
            assert_eq!(listed(line.as_bytes()), format!("refused {number}\n"));
        }
    }

    #[test]
    fn an_endless_line_is_refused() {
        let endless = io::BufReader::new(io::repeat(b'0'));
        let mut output = Vec::new();
        run(endless, &mut output).unwrap();
        assert_eq!(output, b"refused 18\n");
    }
}
