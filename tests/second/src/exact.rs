//! The chance as a fraction of whole numbers of any size, from its equations alone.
//!
//! By Cramer's rule it is one determinant over another. Both are found modulo as many primes as
//! their size asks for, and put together from what is left modulo each. The determinant of the
//! equations is above 0 and at most the product of the live states' denominators, because each row
//! has its denominator, less its own loop, on the diagonal, and elsewhere nothing above 0.

use crate::chain::Chain;
use crate::equations;
use crate::fraction::Fraction;
use crate::live::Reach;
use crate::modular::{inverse, multiply, solved, subtract, MANY_PRIMES};
use crate::natural::Natural;
use crate::near_text::Decimal;
use std::cmp::Ordering;

/// A chance: `reached` over `whole`, which is above 0; not in lowest terms.
#[derive(Debug)]
pub struct Exact {
    pub reached: Natural,
    pub whole: Natural,
}

impl Exact {
    /// The chance of a chain that gives no refusal.
    pub fn of(chain: &Chain, reach: &Reach) -> Exact {
        if chain.starts_at_goal() {
            return Exact { reached: Natural::new(1), whole: Natural::new(1) };
        }
        if !reach.live[chain.start()] {
            return Exact { reached: Natural::new(0), whole: Natural::new(1) };
        }
        let live = (0..chain.states()).filter(|&state| reach.live[state]);
        let digits: u32 = live.map(|state| 32 - chain.denominators[state].leading_zeros()).sum();
        // Each prime has 64 digits, and one more than enough shows whether they were enough.
        let (last, primes) = MANY_PRIMES[..digits as usize / 63 + 2].split_last().expect("some");
        let both = |prime: &u64| {
            let equations = equations::of_chance(chain, reach, *prime);
            let (share, whole) = solved(equations, *prime).expect("it divides the determinant");
            (multiply(share, whole, *prime), whole)
        };
        let (reached, whole): (Vec<u64>, Vec<u64>) = primes.iter().map(both).unzip();
        let exact = Exact { reached: joined(primes, &reached), whole: joined(primes, &whole) };
        let left = (remainder(&exact.reached, *last), remainder(&exact.whole, *last));
        assert!(left == both(last), "too few primes for a determinant");
        assert!(exact.reached <= exact.whole && !exact.whole.is_zero(), "this is no chance");
        exact
    }

    /// A chance that is known as a fraction.
    pub fn known(Fraction { numerator, denominator }: Fraction) -> Exact {
        let [reached, whole] = [numerator, denominator]
            .map(|number| Natural::new(number.try_into().expect("it is at most M")));
        Exact { reached, whole }
    }

    /// How the chance stands to a decimal, by cross products.
    pub fn beside(&self, decimal: Decimal) -> Ordering {
        let ten_to = Natural::ten_to(decimal.tens as usize);
        self.reached.product(&ten_to).cmp(&self.whole.times(decimal.digits))
    }

    pub fn at_most(&self, decimal: Decimal) -> bool {
        self.beside(decimal).is_le()
    }

    /// Whether the chance is less than another, by cross products.
    pub fn below(&self, other: &Exact) -> bool {
        self.reached.product(&other.whole) < other.reached.product(&self.whole)
    }

    /// The chance of missing every goal, over the same number.
    pub fn missed(&self) -> Natural {
        self.whole.minus(&self.reached)
    }
}

/// What is left of a number modulo a prime.
fn remainder(number: &Natural, prime: u64) -> u64 {
    let prime = Natural::new(prime);
    let rest = number.minus(&number.over(&prime).product(&prime));
    rest.small().expect("it is below the prime")
}

/// The number below the product of these primes that leaves this modulo each of them, by Garner's
/// method: it is a sum of factors below each prime times the primes before it.
fn joined(primes: &[u64], left: &[u64]) -> Natural {
    let mut factors: Vec<u64> = Vec::new();
    for (&prime, &left) in primes.iter().zip(left) {
        let mut factor = left;
        for (&before, &earlier) in primes.iter().zip(&factors) {
            let rest = subtract(factor, earlier % prime, prime);
            factor = multiply(rest, inverse(before % prime, prime), prime);
        }
        factors.push(factor);
    }
    let parts = primes.iter().zip(&factors).rev();
    parts.fold(Natural::new(0), |sum, (&prime, &factor)| {
        sum.times(prime).plus(&Natural::new(factor))
    })
}

#[cfg(test)]
mod tests {
    use super::*;
    use crate::generate::{draw, FAMILIES};
    use crate::random::Random;
    use crate::worked::{address, chain, no_fit};
    use crate::{chain::M, figures};

    /// Whether a chain has this chance.
    fn has(chain: &Chain, reached: u64, whole: u64) -> bool {
        let exact = Exact::of(chain, &Reach::of(chain));
        exact.reached.times(whole) == exact.whole.times(reached)
    }

    #[test]
    fn worked_chains_have_their_chances() {
        assert!(has(&address(&[5], &[]), 4_375, 4_376));
        assert!(has(&address(&[6], &[]), 1, 4_376));
        assert!(has(&no_fit(), 1, 6_442_450_941));
        assert!(has(&address(&[0], &[]), 1, 1));
        assert!(has(&Chain { start: 6, ..address(&[5], &[]) }, 0, 1));
    }

    /// 62 steps of one in M each.
    #[test]
    fn the_rarest_chance_is_found() {
        let mut rows = vec![vec![(0, 1)]];
        rows.extend((1..63).map(|state| vec![(state - 1, 1), (63, M - 1)]));
        rows.push(vec![(63, 1)]);
        let rows: Vec<&[(u8, u32)]> = rows.iter().map(Vec::as_slice).collect();
        let chain = Chain { start: 62, ..chain(&rows, &[0], &[]) };
        let exact = Exact::of(&chain, &Reach::of(&chain));
        let whole = (0..62).fold(Natural::new(1), |product, _| product.times(u64::from(M)));
        assert_eq!(exact.whole, exact.reached.product(&whole));
    }

    #[test]
    fn chances_that_fit_are_those_of_the_equations() {
        for family in FAMILIES {
            for seed in 0..30 {
                let chain = draw(&mut Random::new(seed), family);
                let reach = Reach::of(&chain);
                if let Some(Fraction { numerator, denominator }) =
                    figures::true_chance(&chain, &reach)
                {
                    assert!(has(&chain, numerator as u64, denominator as u64), "{}", family.0);
                }
            }
        }
    }
}
