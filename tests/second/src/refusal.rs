//! Refusals, and those that a chain's tables give before any figure is sought.

use crate::chain::{Chain, M};
use std::collections::HashSet;

/// A refusal's number and place.
#[derive(Clone, Copy, Debug, PartialEq, Eq)]
pub struct Refusal {
    pub number: u32,
    pub place: usize,
}

/// The first place at which a chain breaks one rule.
type Place = fn(&Chain) -> Option<usize>;

/// Least number first, because the least number that applies is the one given.
///
/// A file cannot give 11: its rewards have two bytes, so none is above 65,535.
const RULES: [(u32, Place); 8] = [
    (3, start_outside),
    (4, no_goal),
    (5, denominator_outside),
    (6, edge_names_no_state),
    (7, weight_outside),
    (8, pair_given_before),
    (9, row_sum_differs),
    (10, order_entry_wrong),
];

/// The refusal that the tables of a chain give, if any.
pub fn of_tables(chain: &Chain) -> Option<Refusal> {
    least(chain, RULES)
}

/// The same of a chain that edges were lost from: its rows may fall short.
pub fn of_left(chain: &Chain) -> Option<Refusal> {
    least(chain, RULES.map(|rule| if rule.0 == 9 { (9, row_sum_exceeds as Place) } else { rule }))
}

fn least(chain: &Chain, rules: [(u32, Place); 8]) -> Option<Refusal> {
    rules.iter().find_map(|&(number, first_place)| {
        first_place(chain).map(|place| Refusal { number, place })
    })
}

fn start_outside(chain: &Chain) -> Option<usize> {
    (chain.start() >= chain.states()).then_some(0)
}

fn no_goal(chain: &Chain) -> Option<usize> {
    (!chain.goals.contains(&true)).then_some(0)
}

fn denominator_outside(chain: &Chain) -> Option<usize> {
    chain.denominators.iter().position(|d| !(1..=M).contains(d))
}

fn edge_names_no_state(chain: &Chain) -> Option<usize> {
    let outside = |state: u8| usize::from(state) >= chain.states();
    chain.edges.iter().position(|edge| outside(edge.from) || outside(edge.to))
}

fn weight_outside(chain: &Chain) -> Option<usize> {
    chain.edges.iter().position(|edge| !(1..=M).contains(&edge.weight))
}

fn pair_given_before(chain: &Chain) -> Option<usize> {
    let mut seen = HashSet::new();
    chain.edges.iter().position(|edge| !seen.insert((edge.from, edge.to)))
}

fn row_sum_differs(chain: &Chain) -> Option<usize> {
    first_row(chain, |sum, denominator| sum != denominator)
}

fn row_sum_exceeds(chain: &Chain) -> Option<usize> {
    first_row(chain, |sum, denominator| sum > denominator)
}

/// The first row whose sum is wrong beside its denominator.
fn first_row(chain: &Chain, wrong: fn(u64, u64) -> bool) -> Option<usize> {
    let mut rows = chain.row_sums().into_iter().zip(&chain.denominators);
    rows.position(|(sum, &denominator)| wrong(sum, u64::from(denominator)))
}

fn order_entry_wrong(chain: &Chain) -> Option<usize> {
    let mut seen = HashSet::new();
    chain
        .order
        .iter()
        .position(|&state| usize::from(state) >= chain.states() || !seen.insert(state))
}
