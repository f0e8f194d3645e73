//! The chance and the expected reward from their equations alone, modulo large primes.
//!
//! No step and no order enters here. The unknowns are the live states: each other state that their
//! equations name is a goal or has no path to a goal, and its value is known.

use crate::chain::{Chain, M};
use crate::fraction::Fraction;
use crate::live::Reach;
use crate::modular::{last_unknown, multiply, subtract, PRIMES};

/// A figure at the start, known by its remainders modulo `PRIMES`.
pub struct Solution {
    remainders: [u64; PRIMES.len()],
}

/// The chance of a chain whose start is live. Where edges were lost, that of the chain in which
/// nothing of what is missing leads to a goal.
pub fn chance(chain: &Chain, reach: &Reach) -> Solution {
    // Denominator times x of the state equals the sum of weight times x of the target; x is 1 on
    // goals and 0 on states with no path to a goal.
    solve(chain, reach, |state| to_goals(chain, state))
}

/// The same where all that is missing leads to a goal.
pub fn chance_at_most(chain: &Chain, reach: &Reach) -> Solution {
    let missing = chain.missing();
    solve(chain, reach, |state| to_goals(chain, state) + missing[state])
}

/// The weight from a state to goals.
fn to_goals(chain: &Chain, state: usize) -> u64 {
    let row = chain.edges.iter().filter(|edge| usize::from(edge.from) == state);
    row.filter(|edge| chain.goals[usize::from(edge.to)]).map(|edge| u64::from(edge.weight)).sum()
}

/// The expected reward of a chain whose start is live and whose reward is not infinite.
pub fn reward(chain: &Chain, reach: &Reach) -> Solution {
    // Denominator times y equals denominator times reward, plus the sum of weight times edge reward,
    // plus the sum of weight times y of the target; y is 0 on goals.
    solve(chain, reach, |state| {
        let leaving = chain.edges.iter().filter(|edge| usize::from(edge.from) == state);
        let by_edges: u64 = leaving.map(|e| u64::from(e.weight) * u64::from(e.reward)).sum();
        u64::from(chain.denominators[state]) * u64::from(chain.rewards[state]) + by_edges
    })
}

/// The equations of the chance, as `modular` takes them, of a chain whose start is live.
pub fn of_chance(chain: &Chain, reach: &Reach, prime: u64) -> Vec<Vec<u64>> {
    written(chain, reach, |state| to_goals(chain, state), prime)
}

/// Solves the equations whose right sides are `known`.
fn solve(chain: &Chain, reach: &Reach, known: impl Fn(usize) -> u64) -> Solution {
    let remainders = PRIMES.map(|prime| {
        let equations = written(chain, reach, &known, prime);
        last_unknown(equations, prime).expect("the prime divides the determinant")
    });
    Solution { remainders }
}

/// The equations whose right sides are `known`, modulo a prime.
fn written(
    chain: &Chain,
    reach: &Reach,
    known: impl Fn(usize) -> u64,
    prime: u64,
) -> Vec<Vec<u64>> {
    // The start comes last, so that its value is the one that elimination leaves.
    let mut unknowns: Vec<usize> = (0..chain.states()).filter(|&i| reach.live[i]).collect();
    unknowns.retain(|&i| i != chain.start());
    unknowns.push(chain.start());
    let mut column = vec![None; chain.states()];
    for (place, &state) in unknowns.iter().enumerate() {
        column[state] = Some(place);
    }

    let mut equations = vec![vec![0; unknowns.len() + 1]; unknowns.len()];
    for (place, &state) in unknowns.iter().enumerate() {
        equations[place][place] = u64::from(chain.denominators[state]);
        equations[place][unknowns.len()] = known(state);
    }
    for edge in &chain.edges {
        let (from, to) = (column[usize::from(edge.from)], column[usize::from(edge.to)]);
        if let (Some(from), Some(to)) = (from, to) {
            let factor = &mut equations[from][to];
            *factor = subtract(*factor, u64::from(edge.weight), prime);
        }
    }
    equations
}

impl Solution {
    /// Whether the figure is this fraction: cross products agree modulo every prime. The
    /// denominator is below every prime, so none divides it.
    pub fn is(&self, fraction: Fraction) -> bool {
        PRIMES.iter().zip(self.remainders).all(|(&prime, remainder)| {
            let product = multiply(remainder, fraction.denominator as u64, prime);
            u128::from(product) == fraction.numerator
        })
    }

    /// The figure as a fraction with both numbers at most M, if it is one.
    ///
    /// Each step of Euclid's method on a prime and the figure's remainder leaves two numbers with
    /// left = factor × figure modulo the prime. A fraction with both numbers at most M turns up
    /// there, at the first `left` at most M, because 2 × M × M is below the prime.
    pub fn fraction(&self) -> Option<Fraction> {
        let (mut before, mut left) = (i128::from(PRIMES[0]), i128::from(self.remainders[0]));
        let (mut factor_before, mut factor) = (0, 1);
        while left > i128::from(M) {
            let quotient = before / left;
            (before, left) = (left, before - quotient * left);
            (factor_before, factor) = (factor, factor_before - quotient * factor);
        }
        if !(1..=i128::from(M)).contains(&factor) {
            return None;
        }
        let fraction = Fraction::new(left as u128, factor as u128);
        self.is(fraction).then_some(fraction)
    }
}

#[cfg(test)]
mod tests {
    use super::*;

    fn solution(numerator: u64, denominator: u64) -> Solution {
        // One equation with one unknown: denominator × x = numerator.
        let remainders = PRIMES.map(|prime| {
            last_unknown(vec![vec![denominator, numerator]], prime).expect("no prime divides it")
        });
        Solution { remainders }
    }

    #[test]
    fn finds_every_fraction_that_fits() {
        let m = u64::from(M);
        for (p, q) in [(0, 7), (1, 1), (1, m), (m - 1, m), (m, 1), (m, m - 1), (4375, 4376)] {
            let expected = Fraction::new(p.into(), q.into());
            assert_eq!(solution(p, q).fraction(), Some(expected));
        }
    }

    #[test]
    fn finds_none_that_does_not_fit() {
        assert_eq!(solution(1, 6_442_450_941).fraction(), None);
        assert!(solution(1, 6_442_450_941).is(Fraction::new(1, 6_442_450_941)));
    }
}
