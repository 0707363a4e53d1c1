// Fractions in plain Rust by the algorithm of the crate frac128: parts of 128 bits, crosswise cancelling for products, and the least
// common denominator for sums.

const MOST: u128 = (1 << 127) - 1;
const WORD: u128 = u64::MAX as u128;

#[derive(Clone, Copy)]
pub struct Frac {
    pub num: i128,
    pub den: u128,
}

fn gcd_words(mut a: u64, mut b: u64) -> u64 {
    while b != 0 {
        (a, b) = (b, a % b);
    }
    a
}

fn gcd(mut a: u128, mut b: u128) -> u128 {
    if a <= WORD && b <= WORD {
        return gcd_words(a as u64, b as u64) as u128;
    }
    while b != 0 {
        (a, b) = (b, a % b);
    }
    a
}

fn divide(a: u128, b: u128) -> u128 {
    if b == 1 {
        a
    } else if a <= WORD && b <= WORD {
        (a as u64 / b as u64) as u128
    } else {
        a / b
    }
}

fn within(a: u128, b: u128) -> Option<u128> {
    a.checked_mul(b).filter(|product| *product <= MOST)
}

fn signed(negative: bool, magnitude: u128) -> i128 {
    if negative { -(magnitude as i128) } else { magnitude as i128 }
}

impl Frac {
    pub fn new(num: i128, den: i128) -> Option<Frac> {
        if den == 0 {
            return None;
        }
        let (top, below) = (num.unsigned_abs(), den.unsigned_abs());
        let by = gcd(top, below);
        let (top, below) = (divide(top, by), divide(below, by));
        if top > MOST || below > MOST {
            return None;
        }
        Some(Frac { num: signed((num < 0) != (den < 0), top), den: below })
    }

    pub fn whole(number: i64) -> Frac {
        Frac { num: i128::from(number), den: 1 }
    }

    pub fn times(self, other: Frac) -> Option<Frac> {
        let (left, right) = (self.num.unsigned_abs(), other.num.unsigned_abs());
        let (across, back) = (gcd(left, other.den), gcd(right, self.den));
        let top = within(divide(left, across), divide(right, back))?;
        let den = within(divide(self.den, back), divide(other.den, across))?;
        Some(Frac { num: signed((self.num < 0) != (other.num < 0), top), den })
    }

    pub fn plus(self, other: Frac) -> Option<Frac> {
        let by = gcd(self.den, other.den);
        let (up, down) = (divide(other.den, by), divide(self.den, by));
        let common = within(down, other.den)?;
        let left = signed(self.num < 0, within(self.num.unsigned_abs(), up)?);
        let right = signed(other.num < 0, within(other.num.unsigned_abs(), down)?);
        let num = left.checked_add(right).filter(|sum| sum.unsigned_abs() <= MOST)?;
        let rest = gcd(num.unsigned_abs(), by);
        let top = divide(num.unsigned_abs(), rest);
        Some(Frac { num: signed(num < 0, top), den: divide(common, rest) })
    }
}
