//! Arithmetic on the codes 0 to s - 1.

#[derive(Clone, Copy, Debug, PartialEq, Eq)]
pub enum Arithmetic {
    /// Whole numbers modulo the count.
    Residues { count: u32 },
    /// Polynomials over the field of two elements, modulo `modulus`. Bit k of
    /// a code, and of the modulus, is the coefficient of z^k.
    Polynomials { count: u32, modulus: u32 },
}

impl Arithmetic {
    /// The arithmetic that a strip of `count` levels has.
    pub fn of_strip(count: u32) -> Arithmetic {
        match count {
            4 => Arithmetic::Polynomials {
                count,
                modulus: 0b111,
            },
            8 => Arithmetic::Polynomials {
                count,
                modulus: 0b1011,
            },
            16 => Arithmetic::Polynomials {
                count,
                modulus: 0b1_0011,
            },
            _ => Arithmetic::Residues { count },
        }
    }

    pub fn count(self) -> u32 {
        match self {
            Arithmetic::Residues { count } | Arithmetic::Polynomials { count, .. } => count,
        }
    }

    pub fn sum(self, a: u32, b: u32) -> u32 {
        match self {
            Arithmetic::Residues { count } => (a + b) % count,
            Arithmetic::Polynomials { .. } => a ^ b,
        }
    }

    pub fn difference(self, a: u32, b: u32) -> u32 {
        match self {
            Arithmetic::Residues { count } => (a + count - b) % count,
            Arithmetic::Polynomials { .. } => a ^ b,
        }
    }

    pub fn product(self, a: u32, b: u32) -> u32 {
        match self {
            Arithmetic::Residues { count } => a * b % count,
            Arithmetic::Polynomials { modulus, .. } => remainder(carryless_product(a, b), modulus),
        }
    }

    /// The code whose product with `a` is one; 0 for 0; nothing where no code is.
    pub fn inverse(self, a: u32) -> Option<u32> {
        if a == 0 {
            return Some(0);
        }
        (1..self.count()).find(|&b| self.product(a, b) == 1)
    }

    /// The polynomial with these coefficients, lowest first, at `point`.
    ///
    /// For residues this is the published evalPoly with its remainder taken
    /// at the end. With t digits in base s and a point below s the number
    /// before the remainder is below s^t.
    pub fn polynomial(self, digits: &[u32], point: u32) -> u32 {
        match self {
            Arithmetic::Residues { count } => {
                let mut answer = 0;
                for &digit in digits.iter().rev() {
                    answer = answer * point + digit;
                }
                answer % count
            }
            Arithmetic::Polynomials { .. } => {
                let mut answer = 0;
                for &digit in digits.iter().rev() {
                    answer = self.sum(self.product(answer, point), digit);
                }
                answer
            }
        }
    }
}

/// The product of two polynomials over the field of two elements.
fn carryless_product(a: u32, b: u32) -> u32 {
    let mut product = 0;
    for k in 0..4 {
        if (b >> k) & 1 == 1 {
            product ^= a << k;
        }
    }
    product
}

/// The remainder of a product of two codes by the modulus.
fn remainder(mut a: u32, modulus: u32) -> u32 {
    let degree = modulus.ilog2();
    for k in (degree..8).rev() {
        if (a >> k) & 1 == 1 {
            a ^= modulus << (k - degree);
        }
    }
    a
}

#[cfg(test)]
mod tests {
    use super::*;

    #[test]
    fn binary_products() {
        let four = Arithmetic::of_strip(4);
        assert_eq!(four.product(2, 2), 3);
        assert_eq!(four.inverse(2), Some(3));
        assert_eq!(Arithmetic::of_strip(8).product(4, 4), 6);
        assert_eq!(Arithmetic::of_strip(16).product(8, 2), 3);
    }

    #[test]
    fn every_arithmetic_keeps_the_laws() {
        for s in 2..=16 {
            let f = Arithmetic::of_strip(s);
            assert_eq!(f.count(), s);
            for a in 0..s {
                assert_eq!(f.sum(a, 0), a);
                assert_eq!(f.product(a, 1), a);
                for b in 0..s {
                    assert!(f.sum(a, b) < s && f.product(a, b) < s && f.difference(a, b) < s);
                    assert_eq!(f.sum(a, b), f.sum(b, a));
                    assert_eq!(f.product(a, b), f.product(b, a));
                    assert_eq!(f.sum(f.difference(a, b), b), a);
                    for c in 0..s {
                        assert_eq!(f.sum(f.sum(a, b), c), f.sum(a, f.sum(b, c)));
                        assert_eq!(f.product(f.product(a, b), c), f.product(a, f.product(b, c)));
                        assert_eq!(
                            f.product(a, f.sum(b, c)),
                            f.sum(f.product(a, b), f.product(a, c))
                        );
                    }
                }
            }
        }
    }

    #[test]
    fn every_code_has_an_inverse_where_strength_two_is_accepted() {
        for s in [2, 3, 4, 5, 7, 8, 11, 13, 16] {
            let f = Arithmetic::of_strip(s);
            for a in 1..s {
                assert_eq!(f.product(a, f.inverse(a).unwrap()), 1);
            }
        }
        for s in [6, 9, 10, 12, 14, 15] {
            let f = Arithmetic::of_strip(s);
            assert!((1..s).any(|a| f.inverse(a).is_none()));
        }
    }

    #[test]
    fn a_polynomial_is_the_sum_of_digit_times_power() {
        for s in [2, 3, 4, 5, 7, 8, 11, 13, 16] {
            let f = Arithmetic::of_strip(s);
            for i in 0..s * s * s {
                let digits = [i % s, i / s % s, i / s / s];
                for j in 0..s {
                    let square = f.product(j, j);
                    let value = f.sum(
                        f.sum(digits[0], f.product(digits[1], j)),
                        f.product(digits[2], square),
                    );
                    assert_eq!(f.polynomial(&digits, j), value);
                }
            }
        }
    }
}
