//! Whole numbers of any size, as far as exact chances and near ones need them.

use std::cmp::Ordering;

/// A whole number: its digits to the base 2^64, least first, with no 0 at the end.
#[derive(Clone, Debug, PartialEq, Eq)]
pub struct Natural(Vec<u64>);

impl Natural {
    pub fn new(number: u64) -> Natural {
        // Most numbers of a row are 0, which takes no memory here and in what is made of it.
        Natural(if number == 0 { Vec::new() } else { vec![number] })
    }

    /// The number with these digits, of which the last may be 0.
    fn of(mut digits: Vec<u64>) -> Natural {
        while digits.last() == Some(&0) {
            digits.pop();
        }
        Natural(digits)
    }

    /// This power of two, or of ten.
    pub fn two_to(power: usize) -> Natural {
        Natural::new(1).raised(power)
    }

    pub fn ten_to(power: usize) -> Natural {
        // 19 tens at once, which is as many as 64 bits hold.
        let many = (0..power / 19).fold(Natural::new(1), |many, _| many.times(10u64.pow(19)));
        many.times(10u64.pow((power % 19) as u32))
    }

    pub fn is_zero(&self) -> bool {
        self.0.is_empty()
    }

    /// How many binary digits this number has; 0 has none.
    pub fn digits(&self) -> usize {
        self.0.last().map_or(0, |last| 64 * self.0.len() - last.leading_zeros() as usize)
    }

    /// This number where it has room in 64 bits.
    pub fn small(&self) -> Option<u64> {
        (self.0.len() < 2).then(|| self.0.first().copied().unwrap_or(0))
    }

    /// This number times a small one.
    pub fn times(&self, factor: u64) -> Natural {
        if self.is_zero() {
            return Natural::new(0);
        }
        let mut digits = Vec::with_capacity(self.0.len() + 1);
        let mut carry = 0;
        for &digit in &self.0 {
            let product = u128::from(digit) * u128::from(factor) + carry;
            digits.push(product as u64);
            carry = product >> 64;
        }
        digits.push(carry as u64);
        Natural::of(digits)
    }

    pub fn product(&self, other: &Natural) -> Natural {
        if let Some(factor) = other.small() {
            return self.times(factor);
        }
        let mut digits = vec![0; self.0.len() + other.0.len()];
        for (place, &digit) in self.0.iter().enumerate() {
            let mut carry = 0;
            for (at, &factor) in other.0.iter().enumerate() {
                let held = &mut digits[place + at];
                let product = u128::from(digit) * u128::from(factor) + u128::from(*held) + carry;
                *held = product as u64;
                carry = product >> 64;
            }
            digits[place + other.0.len()] = carry as u64;
        }
        Natural::of(digits)
    }

    pub fn plus(&self, other: &Natural) -> Natural {
        let mut digits = Vec::new();
        let mut carry = 0;
        for place in 0..self.0.len().max(other.0.len()) {
            let digit = |number: &Natural| u128::from(number.0.get(place).copied().unwrap_or(0));
            let sum = digit(self) + digit(other) + carry;
            digits.push(sum as u64);
            carry = sum >> 64;
        }
        digits.push(carry as u64);
        Natural::of(digits)
    }

    /// This number less another, which is at most as large.
    pub fn minus(&self, other: &Natural) -> Natural {
        let mut digits = self.0.clone();
        let mut borrowed = false;
        for (place, digit) in digits.iter_mut().enumerate() {
            let taken = other.0.get(place).copied().unwrap_or(0);
            let (left, first) = digit.overflowing_sub(taken);
            let (left, second) = left.overflowing_sub(u64::from(borrowed));
            *digit = left;
            borrowed = first || second;
        }
        assert!(!borrowed && other.0.len() <= self.0.len(), "a difference below 0");
        Natural::of(digits)
    }

    /// This number times 2^power.
    pub fn raised(&self, power: usize) -> Natural {
        if self.is_zero() {
            return Natural::new(0);
        }
        let (whole, part) = (power / 64, power % 64);
        let mut digits = vec![0; whole];
        let mut carry = 0;
        for &digit in &self.0 {
            let wide = u128::from(digit) << part | carry;
            digits.push(wide as u64);
            carry = wide >> 64;
        }
        digits.push(carry as u64);
        Natural::of(digits)
    }

    /// This number over 2^power, rounded down.
    pub fn lowered(&self, power: usize) -> Natural {
        let (whole, part) = (power / 64, power % 64);
        let left = self.0.get(whole..).unwrap_or(&[]);
        let digit = |place: usize| u128::from(left.get(place).copied().unwrap_or(0));
        let digits = (0..left.len()).map(|at| ((digit(at + 1) << 64 | digit(at)) >> part) as u64);
        Natural::of(digits.collect())
    }

    /// This number over another, which is above 0, rounded down: one binary digit at a time.
    pub fn over(&self, divisor: &Natural) -> Natural {
        assert!(!divisor.is_zero(), "a division by 0");
        let mut left = self.clone();
        let mut quotient = Natural::new(0);
        for power in (0..=self.digits().saturating_sub(divisor.digits())).rev() {
            let part = divisor.raised(power);
            if part <= left {
                left = left.minus(&part);
                quotient = quotient.plus(&Natural::two_to(power));
            }
        }
        quotient
    }
}

impl Ord for Natural {
    fn cmp(&self, other: &Natural) -> Ordering {
        let by_length = self.0.len().cmp(&other.0.len());
        by_length.then_with(|| self.0.iter().rev().cmp(other.0.iter().rev()))
    }
}

impl PartialOrd for Natural {
    fn partial_cmp(&self, other: &Natural) -> Option<Ordering> {
        Some(self.cmp(other))
    }
}

#[cfg(test)]
mod tests {
    use super::*;
    use crate::random::Random;

    /// A number of up to four digits, among them many 0 and many of all ones.
    fn any(random: &mut Random) -> Natural {
        let length = random.below(5);
        let digit = |random: &mut Random| match random.below(3) {
            0 => 0,
            1 => u64::MAX,
            _ => random.next(),
        };
        Natural::of((0..length).map(|_| digit(random)).collect())
    }

    #[test]
    fn digits_are_carried() {
        let most = Natural::new(u64::MAX);
        let square = most.times(u64::MAX);
        assert_eq!(square, Natural(vec![1, u64::MAX - 1]));
        assert_eq!(square.plus(&most).plus(&most), Natural(vec![u64::MAX, u64::MAX]));
        assert_eq!(most.plus(&Natural::new(1)), Natural(vec![0, 1]));
        assert!(most < most.plus(&Natural::new(1)) && Natural::new(0) < Natural::new(1));
        assert_eq!(most.times(0), Natural::new(0));
        assert_eq!(Natural::ten_to(20).small(), None);
        assert_eq!(Natural::ten_to(19).small(), Some(10_000_000_000_000_000_000));
        assert_eq!(Natural::ten_to(0), Natural::new(1));
        assert_eq!(
            Natural::ten_to(57).times(10),
            Natural::ten_to(29).product(&Natural::ten_to(29))
        );
    }

    #[test]
    fn what_is_done_is_undone() {
        let mut random = Random::new(1);
        for _ in 0..5_000 {
            let [a, b, c] = [(); 3].map(|()| any(&mut random));
            assert_eq!(a.plus(&b).minus(&b), a);
            assert_eq!(a.product(&b), b.product(&a));
            assert_eq!(a.plus(&b).product(&c), a.product(&c).plus(&b.product(&c)));
            let power = random.below(200);
            assert_eq!(a.raised(power).lowered(power), a);
            assert_eq!(a.raised(power), a.product(&Natural::two_to(power)));
            assert_eq!(a.raised(power).digits(), if a.is_zero() { 0 } else { a.digits() + power });
            if !b.is_zero() {
                let quotient = a.over(&b);
                let rest = a.minus(&quotient.product(&b));
                assert!(rest < b);
                assert_eq!(a.lowered(power), a.over(&Natural::two_to(power)));
            }
        }
    }
}
