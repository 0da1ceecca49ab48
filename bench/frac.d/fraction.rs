//! Fractions in plain Rust, with the algorithms of `frac128`; and a source of them.
use std::cmp::Ordering;
use std::hint::black_box;

const LIMIT: u128 = 1 << 127;

const NARROW: u128 = u64::MAX as u128;

#[derive(Clone, Copy, PartialEq, Eq, Debug)]
pub struct Frac {
    pub num: i128,
    pub den: u128,
}

/// An operation that doesn't fit, with its operands.
#[derive(Clone, Copy, Debug)]
pub struct Wide {
    pub op: char,
    pub left: Frac,
    pub right: Frac,
}

/// In 64 bits as soon as the numbers allow it.
fn gcd(a: u128, b: u128) -> u128 {
    if a == 1 || b == 1 {
        return 1;
    }
    if a <= NARROW && b <= NARROW {
        return narrow_gcd(a as u64, b as u64) as u128;
    }
    if a == 0 || b == 0 {
        return a.max(b);
    }
    if a <= NARROW {
        return narrow_gcd(a as u64, (b % a) as u64) as u128;
    }
    if b <= NARROW {
        return narrow_gcd(b as u64, (a % b) as u64) as u128;
    }
    odd_gcd(a >> a.trailing_zeros(), b >> b.trailing_zeros()) << a.trailing_zeros().min(b.trailing_zeros())
}

fn narrow_gcd(a: u64, b: u64) -> u64 {
    if a == 0 || b == 0 {
        return a.max(b);
    }
    let twos = a.trailing_zeros().min(b.trailing_zeros());
    narrow_odd_gcd(a >> a.trailing_zeros(), b >> b.trailing_zeros()) << twos
}

fn odd_gcd(mut a: u128, mut b: u128) -> u128 {
    while a != b {
        if a <= NARROW && b <= NARROW {
            return narrow_odd_gcd(a as u64, b as u64) as u128;
        }
        let (least, apart) = (a.min(b), a.abs_diff(b));
        a = apart >> apart.trailing_zeros();
        b = least;
    }
    a
}

fn narrow_odd_gcd(mut a: u64, mut b: u64) -> u64 {
    while a != b {
        let (least, apart) = (a.min(b), a.abs_diff(b));
        a = apart >> apart.trailing_zeros();
        b = least;
    }
    a
}

fn div_rem(n: u128, divisor: u128) -> (u128, u128) {
    if n <= NARROW && divisor <= NARROW {
        let (n, divisor) = (n as u64, divisor as u64);
        return ((n / divisor) as u128, (n % divisor) as u128);
    }
    // One division: without `black_box` the rest would be made by a second one.
    let quotient = black_box(n / divisor);
    (quotient, n.wrapping_sub(quotient.wrapping_mul(divisor)))
}

fn divided(n: u128, divisor: u128) -> u128 {
    if divisor == 1 { n } else { div_rem(n, divisor).0 }
}

fn reduced(num: u128, den: u128) -> (u128, u128) {
    let divisor = gcd(num, den);
    (divided(num, divisor), divided(den, divisor))
}

fn signed(is_negative: bool, size: u128) -> i128 {
    if is_negative { -(size as i128) } else { size as i128 }
}

fn product_in(a: u128, b: u128) -> Option<u128> {
    a.checked_mul(b).filter(|&product| product < LIMIT)
}

fn scaled(n: i128, by: u128) -> Option<i128> {
    Some(signed(n < 0, product_in(n.unsigned_abs(), by)?))
}

/// The greatest whole number that is at most num / den, and what is left of `num`.
fn whole_and_rest(num: i128, den: u128) -> (i128, u128) {
    let (whole, rest) = div_rem(num.unsigned_abs(), den);
    if num >= 0 {
        (whole as i128, rest)
    } else if rest == 0 {
        (-(whole as i128), 0)
    } else {
        (-(whole as i128) - 1, den - rest)
    }
}

fn cmp_rests(mut a: u128, mut b: u128, mut c: u128, mut d: u128) -> Ordering {
    loop {
        if a == 0 || c == 0 {
            return a.cmp(&c);
        }
        let (whole, rest) = div_rem(d, c);
        let (other_whole, other_rest) = div_rem(b, a);
        if whole != other_whole {
            return whole.cmp(&other_whole);
        }
        (a, b, c, d) = (rest, c, other_rest, a);
    }
}

impl Frac {
    pub const ZERO: Frac = Frac { num: 0, den: 1 };
    pub const ONE: Frac = Frac { num: 1, den: 1 };

    pub fn make(num: i128, den: i128) -> Option<Frac> {
        if den == 0 {
            return None;
        }
        let (size, den_size) = reduced(num.unsigned_abs(), den.unsigned_abs());
        if size >= LIMIT || den_size >= LIMIT {
            return None;
        }
        Some(Frac { num: signed((num < 0) != (den < 0), size), den: den_size })
    }

    pub fn add(&self, other: &Frac) -> Option<Frac> {
        let divisor = gcd(self.den, other.den);
        let (own, others) = (divided(self.den, divisor), divided(other.den, divisor));
        let num = scaled(self.num, others)?.checked_add(scaled(other.num, own)?)?;
        if num == i128::MIN {
            return None;
        }
        let den = product_in(own, other.den)?;
        let common = gcd(num.unsigned_abs(), divisor);
        Some(Frac { num: signed(num < 0, divided(num.unsigned_abs(), common)), den: divided(den, common) })
    }

    pub fn neg(&self) -> Frac {
        Frac { num: -self.num, den: self.den }
    }

    pub fn mul(&self, other: &Frac) -> Option<Frac> {
        let (left, other_den) = reduced(self.num.unsigned_abs(), other.den);
        let (right, own_den) = reduced(other.num.unsigned_abs(), self.den);
        let size = product_in(left, right)?;
        let den = product_in(own_den, other_den)?;
        Some(Frac { num: signed((self.num < 0) != (other.num < 0), size), den })
    }

    pub fn checked_add(&self, other: &Frac) -> Result<Frac, Wide> {
        self.add(other).ok_or_else(|| Wide { op: '+', left: *self, right: *other })
    }

    pub fn checked_sub(&self, other: &Frac) -> Result<Frac, Wide> {
        self.add(&other.neg()).ok_or_else(|| Wide { op: '-', left: *self, right: *other })
    }

    pub fn checked_mul(&self, other: &Frac) -> Result<Frac, Wide> {
        self.mul(other).ok_or_else(|| Wide { op: '*', left: *self, right: *other })
    }

    /// `other` isn't 0.
    pub fn checked_div(&self, other: &Frac) -> Result<Frac, Wide> {
        let inverse = Frac { num: signed(other.num < 0, other.den), den: other.num.unsigned_abs() };
        self.mul(&inverse).ok_or_else(|| Wide { op: '/', left: *self, right: *other })
    }

    pub fn cmp(&self, other: &Frac) -> Ordering {
        let (whole, rest) = whole_and_rest(self.num, self.den);
        let (other_whole, other_rest) = whole_and_rest(other.num, other.den);
        if whole != other_whole {
            return whole.cmp(&other_whole);
        }
        cmp_rests(rest, self.den, other_rest, other.den)
    }
}

/// A linear congruential generator, of which the upper halves are used.
pub struct Random {
    pub state: u64,
}

impl Random {
    pub fn next(&mut self) -> u128 {
        self.state = self.state.wrapping_mul(6_364_136_223_846_793_005).wrapping_add(1_442_695_040_888_963_407);
        (self.state >> 32) as u128
    }

    pub fn below(&mut self, limit: u128) -> i128 {
        let mut drawn = 0;
        for _ in 0..4 {
            drawn = (drawn << 32) | self.next();
        }
        (drawn % limit) as i128
    }

    pub fn fraction(&mut self, limits: (u128, u128)) -> Frac {
        let size = self.below(limits.0);
        let num = if self.next() % 2 == 0 { size } else { -size };
        let den = self.below(limits.1);
        Frac::make(num, den + 1).unwrap_or(Frac::ZERO)
    }
}
