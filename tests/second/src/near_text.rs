//! The figures of near chances in decimal, and what `nightnear` must print.

use crate::natural::Natural;
use crate::near::{self, highest, Around, Nearly};
use crate::plan;
use crate::refusal::Refusal;
use crate::report;

/// How many binary digits are kept while a number is multiplied by ten.
const KEPT: usize = 60;
/// The least number of six decimal digits, and the least of seven.
const SIX: u64 = 100_000;
const SEVEN: u64 = 1_000_000;

/// `digits` × 10^-`tens`: 0, 1, or six digits.
#[derive(Clone, Copy, Debug, Default, PartialEq, Eq)]
pub struct Decimal {
    pub digits: u64,
    pub tens: u32,
}

impl Decimal {
    pub const ZERO: Decimal = Decimal { digits: 0, tens: 0 };
    pub const ONE: Decimal = Decimal { digits: 1, tens: 0 };

    /// The lower of two numbers, rounded down.
    pub fn lower(around: &Around) -> Decimal {
        let Around { lower, twos, .. } = around;
        if lower.is_zero() {
            Decimal::ZERO
        } else if *lower == Natural::two_to(*twos) {
            Decimal::ONE
        } else {
            Decimal::down(lower, *twos)
        }
    }

    /// The upper of two numbers, rounded up: that which follows it is rounded down, and one is
    /// added.
    pub fn upper(around: &Around) -> Decimal {
        let Around { upper, twos, .. } = around;
        let next = upper.plus(&Natural::new(1));
        if upper.is_zero() {
            return Decimal::ZERO;
        }
        if next >= Natural::two_to(*twos) {
            return Decimal::ONE;
        }
        let Decimal { digits, tens } = Decimal::down(&next, *twos);
        match digits + 1 {
            SEVEN if tens == 6 => Decimal::ONE,
            SEVEN => Decimal { digits: SIX, tens: tens - 1 },
            digits => Decimal { digits, tens },
        }
    }

    /// Six digits of a number above 0 over 2^twos.
    fn down(number: &Natural, twos: usize) -> Decimal {
        let mut number = number.clone();
        let mut tens = 0;
        loop {
            let digits = number.lowered(twos);
            if digits >= Natural::new(SIX) {
                let digits = digits.small().expect("less than ten times six digits");
                return Decimal { digits, tens };
            }
            number = highest(&number.times(10), KEPT);
            tens += 1;
        }
    }

    /// Whether this number is at most the other, by cross products.
    pub fn at_most(self, other: Decimal) -> bool {
        let ten_to = |decimal: Decimal| Natural::ten_to(decimal.tens as usize);
        ten_to(other).times(self.digits) <= ten_to(self).times(other.digits)
    }

    /// As it is printed.
    pub fn text(self) -> String {
        if self == Decimal::ZERO || self == Decimal::ONE {
            return self.digits.to_string();
        }
        let digits = self.digits.to_string();
        format!("{}.{}e-{}", &digits[..1], &digits[1..], self.tens - 5)
    }
}

/// Two numbers around a chance, and their decimals: all that a caller in C is told.
#[derive(Clone, Copy, Debug, Default, PartialEq, Eq)]
pub struct Share {
    pub lower: u64,
    pub upper: u64,
    pub twos: u32,
    pub lowest: Decimal,
    pub highest: Decimal,
}

impl Share {
    pub fn of(around: &Around) -> Share {
        let [lower, upper] = [&around.lower, &around.upper]
            .map(|number| number.small().expect("it is at most 2^33"));
        let [lowest, highest] = [Decimal::lower(around), Decimal::upper(around)];
        Share { lower, upper, twos: around.twos as u32, lowest, highest }
    }
}

/// The two lines of a chain, or its refusal alone.
pub fn lines(said: &Result<Nearly, Refusal>) -> String {
    let line = |around: &Around| {
        let Share { lowest, highest, .. } = Share::of(around);
        format!("{} {}", lowest.text(), highest.text())
    };
    match said {
        Ok(Nearly { near, miss, .. }) => format!("near {}\nmiss {}\n", line(near), line(miss)),
        Err(refusal) => format!("{}\n", report::refused(*refusal)),
    }
}

/// The state that the words of a command line ask for, None where there is no word. A word that
/// says no number counts as one that names no state, and so do two words.
pub fn from(words: &[String]) -> Option<u64> {
    match words {
        [] => None,
        [word] => Some(plan::number(word).unwrap_or(u64::MAX)),
        _ => Some(u64::MAX),
    }
}

/// All that `nightnear` prints for these words and this file.
pub fn text(words: &[String], file: &[u8]) -> String {
    lines(&near::of_file(file, from(words)))
}

#[cfg(test)]
mod tests {
    use super::*;

    /// The decimals of two numbers over a power of two.
    fn decimals(lower: u64, upper: u64, twos: usize) -> [String; 2] {
        let [lower, upper] = [lower, upper].map(Natural::new);
        let around = Around { lower, upper, twos };
        [Decimal::lower(&around).text(), Decimal::upper(&around).text()]
    }

    #[test]
    fn none_and_all_are_printed_as_such() {
        assert_eq!(decimals(0, 0, 0), ["0", "0"]);
        assert_eq!(decimals(1, 1, 0), ["1", "1"]);
        assert_eq!(decimals((1 << 31) - 4, 1 << 31, 31), ["9.99999e-1", "1"]);
    }

    #[test]
    fn six_digits_are_rounded_apart() {
        // 0.375 and 0.375: one more than the upper number is taken, and one more of its last digit.
        assert_eq!(decimals(3 << 30, 3 << 30, 33), ["3.75000e-1", "3.75001e-1"]);
        // One over 2^10 is 0.0009765625.
        assert_eq!(decimals(1 << 30, 1 << 30, 40), ["9.76562e-4", "9.76563e-4"]);
        // 0.09999999 and a little more, whose digit beyond the sixth carries through all of them.
        let part = (1u64 << 35) * 9_999_999 / 100_000_000;
        assert_eq!(decimals(part, part, 35), ["9.99999e-2", "1.00000e-1"]);
        // Just below 0.123457, and the number that follows is above it.
        let part = (1u64 << 31) * 123_457 / 1_000_000;
        assert_eq!(decimals(part, part, 31), ["1.23456e-1", "1.23458e-1"]);
        // 0.9999999: it carries to 1.
        let part = (1u64 << 31) * 9_999_999 / 10_000_000;
        assert_eq!(decimals(part, part, 31), ["9.99999e-1", "1"]);
    }

    #[test]
    fn what_only_one_is_missing_to_is_1() {
        assert_eq!(decimals(1 << 30, (1 << 31) - 1, 31), ["5.00000e-1", "1"]);
        assert_eq!(decimals(1 << 30, (1 << 31) - 2, 31), ["5.00000e-1", "1"]);
        assert_eq!(decimals(1, 1, 1), ["5.00000e-1", "1"]);
    }

    /// Numbers just above six digits of their own, of which cutting at 60 binary digits on the way
    /// takes one from the first and none from the second: at 61 the first would keep it, and at 59
    /// the second lose it.
    #[test]
    fn sixty_binary_digits_are_kept() {
        let lower = |number, twos| decimals(number, number, twos)[0].clone();
        assert_eq!(lower(2_095_963_414, 1_005), "6.11276e-294");
        assert_eq!(lower(2_763_734_101, 1_018), "9.83922e-298");
    }

    #[test]
    fn exponents_have_no_zeros_before_them() {
        // 2^-1970; 1,970 times the logarithm of 2 is 593.02909.
        let printed = decimals(1 << 30, 1 << 30, 2_000);
        assert_eq!(printed, ["9.35208e-594", "9.35209e-594"]);
    }

    #[test]
    fn decimals_are_compared_by_what_they_say() {
        let quarter =
            [(25, 2), (250_000, 6), (2_500_000, 7)].map(|(digits, tens)| Decimal { digits, tens });
        for decimal in quarter {
            assert!(quarter.iter().all(|&other| decimal.at_most(other)));
            assert!(decimal.at_most(Decimal { digits: 2_500_001, tens: 7 }));
            assert!(!decimal.at_most(Decimal { digits: 249_999, tens: 6 }));
            assert!(decimal.at_most(Decimal::ONE) && !decimal.at_most(Decimal::ZERO));
        }
    }

    #[test]
    fn words_that_name_no_state_are_3_after_the_file() {
        let file = crate::file::write(&crate::worked::address(&[5], &[]), 2);
        let printed = |words: &[&str], file: &[u8]| {
            text(&words.iter().map(|word| word.to_string()).collect::<Vec<_>>(), file)
        };
        assert_eq!(printed(&["5"], &file), "near 1 1\nmiss 0 0\n");
        assert_eq!(printed(&["6"], &file), "near 0 0\nmiss 1 1\n");
        assert_eq!(printed(&["0"], &file), printed(&[], &file));
        let mut wrong = crate::worked::address(&[5], &[]);
        wrong.start = 7;
        let wrong = crate::file::write(&wrong, 2);
        assert_eq!(printed(&[], &wrong), "refused 3 at 0\n");
        assert_eq!(printed(&["0"], &wrong), printed(&["0"], &file));
        for words in [&["7"][..], &[""], &["x"], &["-1"], &["18446744073709551616"], &["0", "0"]] {
            assert_eq!(printed(words, &file), "refused 3 at 0\n");
            assert_eq!(printed(words, &file[1..]), "refused 20 at 0\n");
        }
    }
}
