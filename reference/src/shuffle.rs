//! The two shufflers: the turn, and the published hash.

/// Above this size a shuffler leaves every number as it is.
pub const LARGEST_SIZE: u32 = 65_536;

#[derive(Clone, Copy, Debug, PartialEq, Eq)]
pub enum Shuffler {
    Turn,
    Hash,
}

impl Shuffler {
    /// The way out: where the shuffle of `size` numbers by `key` sends `number`.
    pub fn out(self, key: u32, size: u32, number: u32) -> u32 {
        if number >= size || size > LARGEST_SIZE {
            return number;
        }
        match self {
            Shuffler::Turn => exact_turn(number, size, key),
            Shuffler::Hash => permute(number, size, key),
        }
    }
}

/// The published `permute(i, l, p)`, for i < l. Two things differ from some
/// printings: key 0 is a key like any other, and the last sum is exact.
fn permute(i: u32, l: u32, p: u32) -> u32 {
    exact_turn(walk(i, l, p), l, p)
}

/// The loop of the published listing: rounds until the number is below l.
fn walk(mut i: u32, l: u32, p: u32) -> u32 {
    let w = mask(l);
    loop {
        i = round(i, w, p);
        if i < l {
            return i;
        }
    }
}

/// The smallest number of the form 2^k - 1 that is not below l - 1.
fn mask(l: u32) -> u32 {
    let mut w = l - 1;
    w |= w >> 1;
    w |= w >> 2;
    w |= w >> 4;
    w |= w >> 8;
    w |= w >> 16;
    w
}

/// The loop's body. Products keep their low 32 bits.
fn round(mut i: u32, w: u32, p: u32) -> u32 {
    i ^= p;
    i = i.wrapping_mul(0xe170893d);
    i ^= p >> 16;
    i ^= (i & w) >> 4;
    i ^= p >> 8;
    i = i.wrapping_mul(0x0929eb3f);
    i ^= p >> 23;
    i ^= (i & w) >> 1;
    i = i.wrapping_mul(1 | (p >> 27));
    i = i.wrapping_mul(0x6935fa69);
    i ^= (i & w) >> 11;
    i = i.wrapping_mul(0x74dcb303);
    i ^= (i & w) >> 2;
    i = i.wrapping_mul(0x9e501cc3);
    i ^= (i & w) >> 2;
    i = i.wrapping_mul(0xc860a3df);
    i &= w;
    i ^= i >> 5;
    i
}

/// The remainder of i + p by l, the sum being exact.
fn exact_turn(i: u32, l: u32, p: u32) -> u32 {
    ((u64::from(i) + u64::from(p)) % u64::from(l)) as u32
}

#[cfg(test)]
mod tests {
    use super::*;

    fn all(shuffler: Shuffler, key: u32, size: u32) -> Vec<u32> {
        (0..size).map(|i| shuffler.out(key, size, i)).collect()
    }

    #[test]
    fn hash_of_four_by_key_one() {
        assert_eq!(all(Shuffler::Hash, 1, 4), [3, 1, 0, 2]);
    }

    #[test]
    fn hash_of_three_by_key_one_moves_nothing_and_two_needs_two_rounds() {
        assert_eq!(all(Shuffler::Hash, 1, 3), [0, 1, 2]);
        let w = mask(3);
        assert!(round(0, w, 1) < 3);
        assert!(round(1, w, 1) < 3);
        let once = round(2, w, 1);
        assert!(once >= 3);
        assert!(round(once, w, 1) < 3);
    }

    #[test]
    fn a_wrapping_last_sum_sends_two_numbers_to_zero() {
        let (size, key) = (3, u32::MAX);
        let wrapped: Vec<u32> = (0..size)
            .map(|i| walk(i, size, key).wrapping_add(key) % size)
            .collect();
        assert_eq!(wrapped.iter().filter(|&&x| x == 0).count(), 2);

        let mut exact = all(Shuffler::Hash, key, size);
        exact.sort();
        assert_eq!(exact, [0, 1, 2]);
    }

    #[test]
    fn mask_is_the_smallest_that_reaches() {
        for l in 1..=LARGEST_SIZE {
            let w = mask(l);
            assert!((w + 1).is_power_of_two());
            assert!(w >= l - 1);
            assert!(w == 0 || w / 2 < l - 1);
        }
    }

    #[test]
    fn both_shufflers_send_each_number_to_one_place() {
        let keys = [
            0,
            1,
            2,
            1000,
            0x51633e2d,
            0x8000_0000,
            u32::MAX - 1,
            u32::MAX,
        ];
        for shuffler in [Shuffler::Turn, Shuffler::Hash] {
            for key in keys {
                for size in (1..=64).chain([243, 2197, 28_561, 65_535, 65_536]) {
                    let mut sorted = all(shuffler, key, size);
                    sorted.sort();
                    assert!(sorted.into_iter().eq(0..size), "{shuffler:?} {key} {size}");
                }
            }
        }
    }

    #[test]
    fn the_turn_adds_exactly() {
        assert_eq!(Shuffler::Turn.out(1, 9, 8), 0);
        assert_eq!(Shuffler::Turn.out(u32::MAX, 7, 6), 2);
    }

    #[test]
    fn outside_its_sizes_a_shuffler_moves_nothing() {
        for shuffler in [Shuffler::Turn, Shuffler::Hash] {
            for (size, number) in [
                (0, 0),
                (0, 5),
                (5, 5),
                (5, u32::MAX),
                (65_537, 3),
                (u32::MAX, 3),
            ] {
                assert_eq!(shuffler.out(1, size, number), number);
            }
        }
    }
}
