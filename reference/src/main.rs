//! The commands of the second program.

use std::env;
use std::io::{self, BufWriter, Write};
use std::path::Path;
use std::process::ExitCode;

use reference::cases::Kind;
use reference::{bench, check, listing, trial};

const USAGE: &str = "\
usage: reference listing                 the strip listing of standard input's first line
       reference trial                   what the script on standard input does
       reference check                   whether standard input's table is an orthogonal array
       reference cases SEED COUNT        shows at least COUNT inputs of the listing
       reference cases SEED COUNT DIR    writes DIR/0001.in, DIR/0001.out and so on
       reference scripts SEED COUNT ..   the same for the trial
       reference tables SEED COUNT ..    the same for the check
       reference bench                   times the rows of a large strip
       reference bench check             times the check of a strip";

fn main() -> ExitCode {
    let arguments: Vec<String> = env::args().skip(1).collect();
    let arguments: Vec<&str> = arguments.iter().map(String::as_str).collect();
    match run(&arguments) {
        Ok(true) => ExitCode::SUCCESS,
        Ok(false) => {
            eprintln!("{USAGE}");
            ExitCode::from(2)
        }
        Err(error) => {
            eprintln!("reference: {error}");
            ExitCode::FAILURE
        }
    }
}

/// Answers whether the arguments name a command.
fn run(arguments: &[&str]) -> io::Result<bool> {
    let mut output = BufWriter::new(io::stdout().lock());
    match arguments {
        ["listing"] => listing::run(io::stdin().lock(), &mut output)?,
        ["trial"] => trial::run(io::stdin().lock(), &mut output)?,
        ["check"] => check::run(io::stdin().lock(), &mut output)?,
        ["bench"] => bench::rows(&mut output)?,
        ["bench", "check"] => bench::check(&mut output)?,
        ["cases", rest @ ..] => return cases(Kind::Listing, rest, &mut output),
        ["scripts", rest @ ..] => return cases(Kind::Trial, rest, &mut output),
        ["tables", rest @ ..] => return cases(Kind::Check, rest, &mut output),
        _ => return Ok(false),
    }
    output.flush()?;
    Ok(true)
}

/// Shows inputs, or writes them. Answers whether it was told which.
fn cases(kind: Kind, arguments: &[&str], output: &mut impl Write) -> io::Result<bool> {
    let [seed, count, rest @ ..] = arguments else {
        return Ok(false);
    };
    let (Ok(seed), Ok(count)) = (seed.parse(), count.parse()) else {
        return Ok(false);
    };
    match rest {
        [] => kind.show(seed, count, output)?,
        [directory] => {
            let written = kind.write(seed, count, Path::new(directory))?;
            writeln!(output, "{written} cases")?;
        }
        _ => return Ok(false),
    }
    output.flush()?;
    Ok(true)
}
