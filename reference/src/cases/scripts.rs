//! Trial scripts: a fixed part, then random ones.

use super::Input;
use super::bad_lines::{BAD_LINES, IDLE_LINES};
use super::lines::{self, DIVIDED, UNDIVIDED, strengths};
use super::random::Random;
use super::scribe::{self, Plan};

/// Most scripts have at most this many labels.
const MODERATE_LABELS: u32 = 300;

/// How many of the listing's refused first lines are tried here.
const REFUSED_FIRST_LINES: usize = 30;

const NINE: &[u8] = b"3 2 3 1 0\n";

/// At least `count` scripts, always the same ones for one seed.
pub fn inputs(seed: u64, count: usize) -> Vec<Input> {
    let mut random = Random(seed);
    let mut all = Vec::new();
    fixed_scripts(&mut all);
    no_trials(&mut random, &mut all);
    every_plan(&mut random, &mut all);
    large_plans(&mut random, &mut all);
    while all.len() < count {
        all.push(random_script(&mut random));
    }
    all
}

fn fixed_scripts(all: &mut Vec<Input>) {
    all.push(include_bytes!("../../../examples/nine-labels.txt").to_vec());
    all.push([NINE, REFUSALS.as_bytes()].concat());
    all.push([NINE, SPELLINGS].concat());
    all.push([NINE, &BAD_LINES.join(b"\n".as_slice())].concat());
    all.push([NINE, &BAD_LINES.join(b"\r\ntake\r\n".as_slice())].concat());
    all.push([NINE, &IDLE_LINES.join(b"\ntake\n".as_slice())].concat());
    for rest in SHORT {
        all.push([NINE, rest].concat());
    }
    all.push(long_lines());
}

/// Every refusal of every call, the first number going before the others.
const REFUSALS: &str = "\
take with 8\ntake with 10\ntake with 0\ntake with 4294967295\ntake with 9
mark 9 1001 with 8\nmark 9 1001\nmark 4294967295 0\nmark 0 1001\nmark 1 1001\nmark 1 1000
mark 0 4294967295\nspoil 9 with 0\nspoil 9\nspoil 8\nstrike 9 with 1\nstrike 9\nstrike 0\nstrike 1
finish with 8\nfinish\nfind 0/5 3/0\nfind 0/5 0/1 1/1\nfind 0/1 0/1 1/1\nfind 1/0 1/2\nfind 1/0
find 4294967295/0 0/0\nfind 0/3 1/3\nfind 0/2 1/3\nfind 3/3 3/3\nfind 2/0 0/2\nlocate 3/9\nlocate 2/9
locate 4294967295/4294967295\nlocate 1/5\neffect 0 1 2\neffect 9 9 9 with 8
mark 0 1000\nmark 0 5\nspoil 0\nstrike 0
take\ntake\ntake\ntake\ntake\ntake\ntake\ntake\nstrike 1\ntake\ntake\nfinish
mark 8 0\nmark 7 100\nmark 6 200\nmark 5 0\nmark 4 1000\nmark 3 1\nmark 2 999\nmark 1 500\ntake
mark 0 17\ntake\ntake with 3\nfinish with 3\nfinish with 9
take\nmark 0 5\nspoil 0\nstrike 0\nfinish\nfinish with 3\nmark 99 1001 with 1
effect 3 3 3 with 8\neffect 3 3 3\neffect 0 3 3\neffect 0 1 3\neffect 0 3 1\neffect 4294967295 0 0
effect 0 0 4294967295\neffect 0 1 1 with 9\neffect 0 1 0\neffect 0 0 1\neffect 2 2 1\neffect 1 0 2
find 0/2 2/0\nfind 0/3 2/0\nlocate 1/5\nlocate 1/9
";

const SPELLINGS: &[u8] = b"\
  take\n\ttake\ntake  \ntake\t\ntake\r\ntake \r\n \t take\t \t\r\ntake   with\t0000000009\n\
mark 00 0000000095\nmark\t1\t110\n mark  2  115 \r\nmark 0000000003 100 with 9\n\
find 00/02 02/00\nfind  0/2\t2/0\r\nlocate 0000000001/0000000005\nlocate 001/9\n\
spoil 004 with 09\nstrike\t0001\neffect 00 01 02\nfinish with 010\n";

/// Short scripts, and the last line with and without its line feed.
const SHORT: [&[u8]; 12] = [
    b"",
    b"\n",
    b"\r",
    b"take",
    b"take\r",
    b"take\n\n",
    b"take\n#",
    b"take\nmark 0 5",
    b"mark",
    b"find",
    b"take\r\r\ntake\r \ntake\n",
    b"\xff",
];

/// Lines that are longer than any that is needed.
fn long_lines() -> Input {
    let lines = [
        [b"take".as_slice(), &b" ".repeat(70_000)].concat(),
        [b"\t".repeat(70_000).as_slice(), b"take"].concat(),
        [b"#".as_slice(), &b"take ".repeat(20_000)].concat(),
        b"take".repeat(20_000),
        [b"take with ".as_slice(), &b"0".repeat(70_000), b"9"].concat(),
        [b"find".as_slice(), &b" 0/0".repeat(5_000)].concat(),
        [b"find".as_slice(), &b" 0/0".repeat(5_000), b" 3/0"].concat(),
        [b"find".as_slice(), &b" 0/0".repeat(5_000), b" 0/"].concat(),
        b"mark 0 5 ".repeat(10_000),
        b"take".to_vec(),
    ];
    [NINE, &lines.join(&b'\n')].concat()
}

/// First lines that are malformed or refused, with what may follow them.
const NO_TRIALS: [&str; 15] = [
    "",
    "3 2 3 1 0",
    "3 2 3 1 0\r\ntake\n",
    "\n3 2 3 1 0\ntake\n",
    "# nine labels\n3 2 3 1 0\ntake\n",
    "trial 3 2 3 1 0\ntake\n",
    "3 2 3 1 2\ntake\n",
    "17 2 3 1 0\ntake\n",
    "1 1 1 1 0\n",
    "3 2 4 1 0\ntake\n",
    "3 0 3 1 0\ntake\n",
    "6 2 3 1 1\ntake\n",
    "16 5 16 1 1\ntake\n",
    "6 1 7 1 1\ntake\n",
    "15 2 1 1 1\ntake\n",
];

/// First lines that are malformed, refused, or have no trial.
fn no_trials(random: &mut Random, all: &mut Vec<Input>) {
    all.extend(NO_TRIALS.map(|first| first.as_bytes().to_vec()));
    for s in UNDIVIDED {
        let first = lines::line(
            s,
            1,
            random.between(1, s),
            random.seed(),
            random.between(0, 1),
        );
        all.push([first.as_slice(), b"take\nlocate 0/0\n"].concat());
    }
    let mut refused = Vec::new();
    lines::refused_plans(random, &mut refused);
    lines::malformed_lines(&mut refused);
    random.shuffle(&mut refused);
    for first in &refused[..REFUSED_FIRST_LINES] {
        let rest = random.pick(&[b"".as_slice(), b"take\nfinish\n"]);
        all.push([first, rest].concat());
    }
}

/// Every count with every strength that has few labels, by both shufflers,
/// from start to finish.
fn every_plan(random: &mut Random, all: &mut Vec<Input>) {
    let mut special = [0, 1, u32::MAX].into_iter().cycle();
    for s in DIVIDED {
        for t in strengths_up_to(s, MODERATE_LABELS) {
            for shuffler in [0, 1] {
                let seed = special.next().unwrap_or(0);
                let d = random.pick(&[t, s, s]);
                all.push(scribe::finished(random, [s, t, d, seed, shuffler]));
            }
        }
    }
}

fn large_plans(random: &mut Random, all: &mut Vec<Input>) {
    for plan in [
        [5, 5, 5, 4_000_000_007, 1],
        [13, 3, 13, u32::MAX, 1],
        [16, 3, 16, 1, 0],
        [11, 4, 4, 77, 1],
        [7, 5, 7, 0, 1],
        [16, 4, 4, u32::MAX, 1],
    ] {
        all.push(scribe::finished(random, plan));
    }
}

/// The strengths of a count that have at most so many labels.
fn strengths_up_to(s: u32, labels: u32) -> impl Iterator<Item = u32> {
    strengths(s)
        .into_iter()
        .filter(move |&t| s.pow(t) <= labels)
}

fn random_script(random: &mut Random) -> Input {
    let most = if random.one_in(40) {
        8 * MODERATE_LABELS
    } else {
        MODERATE_LABELS
    };
    let plan = random_plan(random, most);
    match random.below(5) {
        0 => scribe::unfinished(random, plan),
        _ => scribe::finished(random, plan),
    }
}

fn random_plan(random: &mut Random, most_labels: u32) -> Plan {
    let s = random.pick(&DIVIDED);
    let strengths: Vec<u32> = strengths_up_to(s, most_labels).collect();
    let t = random.pick(&strengths);
    let d = random.between(t, s);
    [s, t, d, random.seed(), random.between(0, 1)]
}

#[cfg(test)]
mod tests {
    use super::*;
    use crate::trial;

    #[test]
    fn every_refusal_but_a_torn_word_is_met() {
        let mut scripts = Vec::new();
        fixed_scripts(&mut scripts);
        no_trials(&mut Random(1), &mut scripts);
        let mut output = Vec::new();
        for script in &scripts {
            trial::run(script.as_slice(), &mut output).unwrap();
        }
        let output = String::from_utf8(output).unwrap();
        for number in 1..=18 {
            let met = output.contains(&format!("refused {number} by "));
            assert_eq!(met, number != 17, "{number}");
        }
    }

    #[test]
    fn a_finished_script_finishes() {
        let mut random = Random(1);
        for _ in 0..20 {
            let plan = random_plan(&mut random, 50);
            let mut output = Vec::new();
            let script = scribe::finished(&mut random, plan);
            trial::run(script.as_slice(), &mut output).unwrap();
            let output = String::from_utf8(output).unwrap();
            assert!(output.contains("\nfactor 0: "), "{plan:?}");
        }
    }
}
