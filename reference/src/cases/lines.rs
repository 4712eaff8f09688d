//! Input lines of the listing: a fixed part, then random ones.

use super::Input;
use super::random::Random;
use crate::strip::MOST_LABELS;

/// Most cases have at most this many cells, or as few as their strength lets.
const MODERATE_CELLS: u32 = 12_000;

/// The counts whose arithmetic divides.
pub const DIVIDED: [u32; 9] = [2, 3, 4, 5, 7, 8, 11, 13, 16];

/// The counts whose arithmetic does not divide.
pub const UNDIVIDED: [u32; 6] = [6, 9, 10, 12, 14, 15];

/// At least `count` inputs, always the same ones for one seed.
pub fn inputs(seed: u64, count: usize) -> Vec<Input> {
    let mut random = Random(seed);
    let mut all = Vec::new();
    every_plan(&mut random, &mut all);
    large_plans(&mut all);
    keys_at_the_top(&mut all);
    unusual_spellings(&mut all);
    refused_plans(&mut random, &mut all);
    malformed_lines(&mut all);
    while all.len() < count {
        all.push(random_input(&mut random));
    }
    all
}

pub fn line(s: u32, t: u32, d: u32, seed: u32, shuffler: u32) -> Input {
    format!("{s} {t} {d} {seed} {shuffler}\n").into_bytes()
}

/// The strengths that a count of levels can have.
pub fn strengths(s: u32) -> Vec<u32> {
    let highest = if UNDIVIDED.contains(&s) { 1 } else { s };
    (1..=highest)
        .filter(|&t| s.checked_pow(t).is_some_and(|n| n <= MOST_LABELS))
        .collect()
}

/// The largest number of factors that keeps a strip moderate.
fn moderate_factors(s: u32, t: u32) -> u32 {
    (MODERATE_CELLS / s.pow(t)).clamp(t, s)
}

/// Every count with every strength by both shufflers: once with as many
/// factors as are moderate and a special seed, once with a random number of
/// factors and a random seed.
fn every_plan(random: &mut Random, all: &mut Vec<Input>) {
    // Three seeds going round over two shufflers: each shuffler has them all.
    let mut special = [0, 1, u32::MAX].into_iter().cycle();
    for s in 2..=16 {
        for t in strengths(s) {
            for shuffler in [0, 1] {
                let d = moderate_factors(s, t);
                all.extend(special.next().map(|seed| line(s, t, d, seed, shuffler)));
                all.push(line(s, t, random.between(t, d), random.next(), shuffler));
            }
        }
    }
}

fn large_plans(all: &mut Vec<Input>) {
    all.push(line(16, 4, 16, 1, 1));
    all.push(line(16, 4, 16, u32::MAX, 0));
    all.push(line(13, 4, 13, 1, 1));
    all.push(line(13, 4, 13, u32::MAX, 1));
    all.push(line(11, 4, 11, 0, 1));
    all.push(line(8, 5, 8, 4_000_000_007, 1));
    all.push(line(7, 5, 7, u32::MAX, 1));
    for t in [1, 2] {
        for d in t..=2 {
            for seed in [0, 1, u32::MAX] {
                all.push(line(2, t, d, seed, 0));
                all.push(line(2, t, d, seed, 1));
            }
        }
    }
}

/// Seeds by which the level key or the fine key of a factor is 2^32 - 1, so
/// that a last sum that wrapped would show.
fn keys_at_the_top(all: &mut Vec<Input>) {
    for kind in [0x51633e2d, 0x68bc21eb] {
        for factor in [0, 2] {
            let seed = inverse_modulo_2_32(kind * (factor + 1)).wrapping_mul(u32::MAX);
            for (s, t, d) in [(3, 2, 3), (3, 3, 3), (5, 2, 5), (7, 2, 7), (13, 2, 13)] {
                all.push(line(s, t, d, seed, 1));
            }
            all.push(line(3, 2, 3, seed, 0));
        }
    }
}

/// The number whose product with an odd one is 1 modulo 2^32.
fn inverse_modulo_2_32(odd: u64) -> u32 {
    let odd = odd as u32;
    let mut inverse: u32 = 1;
    for _ in 0..32 {
        inverse = inverse.wrapping_mul(2u32.wrapping_sub(odd.wrapping_mul(inverse)));
    }
    inverse
}

/// Accepted lines in an unusual form.
fn unusual_spellings(all: &mut Vec<Input>) {
    let inputs: [&[u8]; 9] = [
        b"03 002 0003 00001 000000\n",
        b"0000000003 0000000002 0000000003 0000000001 0000000000\n",
        b"0000000013 0000000002 0000000013 4294967295 0000000001\n",
        b"4 2 4 0000000000 01\n",
        b"3 2 3 1 0\n3 2 3 2 1\n",
        b"3 2 3 1 1\n\n",
        b"5 2 5 9 1\nnonsense",
        b"5 2 5 9 0\n\xff\xfe\0\n",
        b"7 1 1 9 1\n\r\n",
    ];
    all.extend(inputs.map(<[u8]>::to_vec));
}

/// Levels, strength and factors that there is no strip of.
const REFUSED: [(u32, u32, u32); 78] = [
    // The count of levels.
    (0, 1, 1),
    (1, 1, 1),
    (17, 1, 1),
    (18, 1, 1),
    (u32::MAX, 1, 1),
    // The number of factors.
    (2, 1, 0),
    (16, 1, 0),
    (2, 1, 3),
    (3, 1, 4),
    (15, 1, 16),
    (16, 1, 17),
    (7, 1, u32::MAX),
    // The strength.
    (2, 0, 2),
    (16, 0, 16),
    (2, 2, 1),
    (2, 3, 2),
    (5, 4, 3),
    (16, 17, 16),
    (13, u32::MAX, 13),
    (11, 256, 11),
    (3, 65_536, 3),
    // No dividing arithmetic.
    (6, 2, 2),
    (6, 2, 6),
    (6, 3, 6),
    (9, 2, 2),
    (9, 2, 9),
    (9, 3, 9),
    (10, 2, 2),
    (10, 2, 10),
    (10, 3, 10),
    (12, 2, 2),
    (12, 2, 12),
    (12, 3, 12),
    (14, 2, 2),
    (14, 2, 14),
    (14, 3, 14),
    (15, 2, 2),
    (15, 2, 15),
    (15, 3, 15),
    // Too many labels.
    (16, 5, 5),
    (16, 5, 16),
    (16, 8, 16),
    (16, 16, 16),
    (13, 5, 13),
    (13, 13, 13),
    (11, 5, 5),
    (11, 11, 11),
    (8, 6, 8),
    (8, 8, 8),
    (7, 6, 6),
    (7, 7, 7),
    // Several conditions at once.
    (0, 0, 0),
    (1, 0, 0),
    (1, 2, 2),
    (17, 17, 17),
    (17, 5, 18),
    (17, 0, 1),
    (0, 5, 3),
    (u32::MAX, u32::MAX, u32::MAX),
    (u32::MAX, 0, 0),
    (6, 0, 0),
    (6, 2, 0),
    (6, 2, 7),
    (6, 9, 7),
    (16, 5, 17),
    (16, 0, 17),
    (16, 20, 17),
    (5, 7, 6),
    (6, 3, 2),
    (6, 7, 6),
    (15, 16, 15),
    (16, 6, 5),
    (10, 11, 10),
    (10, 5, 10),
    (15, 15, 15),
    (12, 6, 12),
    (9, 9, 9),
    (14, 5, 5),
];

/// Well-formed lines that ask for a strip there is not.
pub fn refused_plans(random: &mut Random, all: &mut Vec<Input>) {
    for (s, t, d) in REFUSED {
        let seed = random.seed();
        let shuffler = random.between(0, 1);
        all.push(line(s, t, d, seed, shuffler));
    }
}

const MALFORMED: [&[u8]; 81] = [
    // Nothing, or no line feed.
    b"",
    b"\n",
    b"\n3 2 3 1 0\n",
    b"\n\n",
    b" ",
    b" \n",
    b"    \n",
    b"3",
    b"3 2 3 1 0",
    b"3 2 3 1 0\r",
    b"0000000003 0000000002 0000000003 0000000001 0000000000",
    // Spaces and other separators.
    b" 3 2 3 1 0\n",
    b"3 2 3 1 0 \n",
    b"3  2 3 1 0\n",
    b"3 2 3 1  0\n",
    b"3 2 3 1 0  \n",
    b"3\t2\t3\t1\t0\n",
    b"3 2 3 1\t0\n",
    b"\t3 2 3 1 0\n",
    b"3 2 3 1 0\t\n",
    b"3 2 3 1 0\r\n",
    b"3\r2 3 1 0\n",
    b"3 2 3 1 0\x0b\n",
    b"3 2 3 1 0\x0c\n",
    b"3,2,3,1,0\n",
    b"3, 2, 3, 1, 0\n",
    b"3\n2 3 1 0\n",
    b"3 2 3 1\n0\n",
    b"3 2 3 1 \n0\n",
    b"32310\n",
    // Letters, signs, points.
    b"a b c d e\n",
    b"strip 3 2 3 1 0\n",
    b"3 2 3 1 O\n",
    b"3 2 3 1 0a\n",
    b"x3 2 3 1 0\n",
    b"0x3 2 3 1 0\n",
    b"3 2 3 1f 0\n",
    b"3 2 3 1e0 0\n",
    b"-3 2 3 1 0\n",
    b"+3 2 3 1 0\n",
    b"3 2 3 -1 0\n",
    b"3 2 3 1 -0\n",
    b"3 2 3 1 +0\n",
    b"3 2 3 1.0 0\n",
    b"3 2 3 1_0 0\n",
    b"3 2 3 / 0\n",
    b"3 2 3 : 0\n",
    b"\"3 2 3 1 0\"\n",
    // Too large, too long.
    b"3 2 3 4294967296 0\n",
    b"3 2 3 9999999999 0\n",
    b"3 2 3 00000000001 0\n",
    b"00000000003 2 3 1 0\n",
    b"3 2 3 1 00000000000\n",
    b"4294967296 2 3 1 0\n",
    b"3 2 3 18446744073709551617 0\n",
    // The shuffler.
    b"3 2 3 1 2\n",
    b"3 2 3 1 9\n",
    b"3 2 3 1 10\n",
    b"3 2 3 1 4294967295\n",
    // Malformed goes before every other refusal.
    b"0 0 0 0 2\n",
    b"17 0 99 1 2\n",
    b"6 2 6 1 2\n",
    b"16 5 16 1 3\n",
    b"0 0 0 0\n",
    // Four and six numbers.
    b"3 2 3 1\n",
    b"3 2 3 1 0 0\n",
    b"3 2 3 1 0 1 1 1\n",
    // Bytes that are no text.
    b"\0\n",
    b"\0",
    b"3\x002 3 1 0\n",
    b"3 2 3 1 0\0\n",
    b"\x003 2 3 1 0\n",
    b"\xff\n",
    b"\xff\xff\xff\xff",
    b"3 2 3 1 \xb0\n",
    b"3 2 3 1 0\xff\n",
    b"\xb3 2 3 1 0\n",
    b"3\xa02 3 1 0\n",
    b"\xef\xbb\xbf3 2 3 1 0\n",
    b"3 2 3 1 \xef\xbc\x90\n",
    b"3 2 \xd9\xa3 1 0\n",
];

pub fn malformed_lines(all: &mut Vec<Input>) {
    all.extend(MALFORMED.map(<[u8]>::to_vec));
    // Long first lines.
    for length in [54, 55, 56, 255, 256, 65_536, 300_000] {
        all.push(vec![b'0'; length]);
        all.push([vec![b'3'; length].as_slice(), b"\n"].concat());
    }
    all.push([b"3 2 3 1 0".as_slice(), &vec![b' '; 70_000], b"\n"].concat());
    all.push([b"3 2 3 1 ".as_slice(), &vec![b'0'; 70_000], b"\n"].concat());
    all.push(b"3 2 3 1 0 ".repeat(10_000));
}

fn random_input(random: &mut Random) -> Input {
    match random.between(0, 7) {
        0 => mutated(random),
        1 | 2 => near_the_limits(random),
        _ => random_plan(random),
    }
}

fn random_plan(random: &mut Random) -> Input {
    let s = random.between(2, 16);
    let t = random.pick(&strengths(s));
    let d = random.between(t, moderate_factors(s, t));
    let seed = random.seed();
    line(s, t, d, seed, random.between(0, 1))
}

/// A line that may well be refused, and is moderate where it is not.
fn near_the_limits(random: &mut Random) -> Input {
    let s = random.between(0, 18);
    let t = random.between(0, 7);
    let mut d = random.between(0, 18);
    if strengths(s.clamp(2, 16)).contains(&t) && d >= t {
        d = d.min(moderate_factors(s.clamp(2, 16), t) + random.between(0, 1) * 18);
    }
    line(s, t, d, random.seed(), random.between(0, 1))
}

/// A random plan's line with one byte put in, taken out or changed.
fn mutated(random: &mut Random) -> Input {
    let bytes = b"0129 \n\t\r-+a/:.,\0\x7f\x80\xff";
    let mut input = line(
        random.between(2, 9),
        1,
        1,
        random.seed(),
        random.between(0, 1),
    );
    random.mutate(&mut input, bytes);
    input
}
