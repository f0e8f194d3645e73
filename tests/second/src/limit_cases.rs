//! Limits beside what is known of a chance: at its figures and at the chance itself, just above and
//! just below them, and far from them.

use crate::exact::Exact;
use crate::limit::{self, Judged, MOST_DIGITS, MOST_TENS};
use crate::natural::Natural;
use crate::near_text::Decimal;
use crate::random::Random;

/// All limits that lie beside what is known of a chance.
pub fn beside(judged: &Judged) -> Vec<Decimal> {
    let Judged { near, truth, .. } = judged;
    let mut limits = Vec::new();
    for figure in [near.lowest, near.highest] {
        let finer = in_seven_digits(figure);
        for decimal in [figure, finer] {
            limits.extend(with_neighbours(decimal));
        }
        // Between the two.
        limits.push(Decimal { digits: finer.digits + 5, ..finer });
    }
    let at = cut(truth, in_seven_digits(near.lowest).tens);
    limits.extend(with_neighbours(at));
    limits.push(shortest(at));
    limits.retain(|limit| limit::new(limit.digits, u64::from(limit.tens)).is_some());
    limits
}

/// As many of them as that.
pub fn some(random: &mut Random, judged: &Judged, many: usize) -> Vec<Decimal> {
    let beside = beside(judged);
    let one = |random: &mut Random| match random.below(8) {
        0 => far(random),
        _ => random.pick(&beside),
    };
    (0..many).map(|_| one(random)).collect()
}

/// A decimal, one of its last place below it and one above.
fn with_neighbours(decimal: Decimal) -> [Decimal; 3] {
    let Decimal { digits, tens } = decimal;
    [digits.saturating_sub(1), digits, digits + 1].map(|digits| Decimal { digits, tens })
}

/// A figure with one digit more than it is printed with; 1 has then as many as a limit may have.
fn in_seven_digits(figure: Decimal) -> Decimal {
    match figure {
        Decimal::ONE => Decimal { digits: 1_000_000, tens: 6 },
        Decimal { digits, tens } => Decimal { digits: 10 * digits, tens: tens + 1 },
    }
}

/// A chance rounded down to so many places.
fn cut(chance: &Exact, tens: u32) -> Decimal {
    let parts = chance.reached.product(&Natural::ten_to(tens as usize));
    let digits = parts.over(&chance.whole).small().expect("a chance in seven digits");
    Decimal { digits, tens }
}

/// The same number with no zeros at its end.
fn shortest(mut decimal: Decimal) -> Decimal {
    while decimal.tens > 0 && decimal.digits.is_multiple_of(10) {
        decimal = Decimal { digits: decimal.digits / 10, tens: decimal.tens - 1 };
    }
    decimal
}

/// Limits that are nowhere near most chances: the most, the least, and any.
pub fn far(random: &mut Random) -> Decimal {
    let most = random.pick(&[1, 9, 99, MOST_DIGITS as usize]);
    let tens = random.pick(&[7, 8, 9, 12, 19, 20, 40, MOST_TENS as usize]);
    let any = (random.between(1, most) as u64, random.between(7, tens) as u64);
    let (digits, tens) = random.pick(&[
        (1, 0),
        (1, 1),
        (1, MOST_TENS),
        (MOST_DIGITS, 7),
        (MOST_DIGITS, MOST_TENS),
        any,
        any,
        any,
    ]);
    limit::new(digits, tens).expect("these are limits")
}

/// Digits and tens that mostly say no limit.
pub fn wrong(random: &mut Random) -> (u64, u64) {
    let tens = random.below(8) as u64;
    random.pick(&[
        (0, tens),
        (10u64.pow(tens as u32) + 1, tens),
        (MOST_DIGITS + 1, 7 + tens),
        ((1 << 32) + 1, MOST_TENS),
        (u64::MAX, u64::MAX),
        (1 + tens, MOST_TENS + 1),
        (1 + tens, 1 << 32),
        (1, (1 << 32) + 9),
        (1, u64::MAX),
    ])
}

#[cfg(test)]
mod tests {
    use super::*;
    use crate::chain::Chain;
    use crate::fraction::Fraction;
    use crate::limit::Verdict;
    use crate::plan::Plan;
    use crate::{file, worked};

    fn verdicts(copies: u64, weights: [u64; 3]) -> Vec<(u64, u32, Verdict)> {
        let file = file::write(&Plan { copies, weights }.chain(), 2);
        let judged = Judged::of_file(&file).expect("a plan");
        let said = |limit: Decimal| (limit.digits, limit.tens, judged.verdict(limit));
        beside(&judged).into_iter().map(said).collect()
    }

    #[test]
    fn limits_stand_at_a_figure_and_beside_it() {
        use Verdict::{Broken, Kept, Open};
        let six = verdicts(6, [1, 20, 100]);
        for expected in [
            (248_121, 15, Open),
            (248_120, 15, Broken),
            (2_481_209, 16, Broken),
            (2_481_210, 16, Open),
            (2_481_215, 16, Open),
            (2_481_219, 16, Open),
            (248_122, 15, Kept),
            (2_481_221, 16, Kept),
        ] {
            assert!(six.contains(&expected), "{expected:?} in {six:?}");
        }
    }

    #[test]
    fn limits_stand_at_a_chance_and_beside_it() {
        use Verdict::{Broken, Kept};
        let one = verdicts(1, [1, 1, 3]);
        for expected in [
            (2_499_999, 7, Broken),
            (249_999, 6, Broken),
            (2_500_000, 7, Kept),
            (25, 2, Kept),
            (2_500_001, 7, Kept),
        ] {
            assert!(one.contains(&expected), "{expected:?} in {one:?}");
        }
    }

    #[test]
    fn limits_stand_beside_none_and_all() {
        for (start, chance) in [(6, Fraction::ZERO), (5, Fraction::ONE)] {
            let chain = Chain { start, ..worked::address(&[5], &[]) };
            let judged = Judged::of_file(&file::write(&chain, 2)).expect("a chain");
            assert_eq!(judged.fraction, Some(chance));
            assert_eq!(some(&mut Random::new(3), &judged, 50).len(), 50);
        }
    }
}
