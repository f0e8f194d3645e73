//! Document 02, request 12: how nearly a chain is a line in its order, and the limit that follows.

use crate::chain::Chain;
use crate::live::Reach;

/// How far a chain is from a line.
pub struct Line {
    /// m: how many live states there are other than the start.
    pub others: usize,
    /// The smallest b: the most places that an edge between two of them spans, counted among them.
    pub span: usize,
}

impl Line {
    /// Of a well-formed chain in its order.
    pub fn of(chain: &Chain, reach: &Reach) -> Line {
        let turns = reach.turns(chain);
        let place = |state: u8| turns.iter().position(|&turn| turn == state);
        let span = |from, to| Some(place(from)?.abs_diff(place(to)?));
        let spans = chain.edges.iter().filter_map(|edge| span(edge.from, edge.to));
        Line { others: turns.len(), span: spans.max().unwrap_or(0) }
    }

    /// The most that rows × columns can add up to over the steps of an exact run that answers.
    pub fn limit(&self) -> u64 {
        (self.others * (self.span + 1) * (self.span + 3)) as u64
    }
}

#[cfg(test)]
mod tests {
    use super::*;
    use crate::step_list;
    use crate::worked::{address, chain};

    /// m, b, the limit, and the sum of rows × columns over the steps.
    fn figures(chain: &Chain) -> [u64; 4] {
        let list = step_list::of_chain(chain);
        let sum = list.records.iter().map(|record| record.rows * record.columns).sum::<usize>();
        [list.line.others as u64, list.line.span as u64, list.line.limit(), sum as u64]
    }

    #[test]
    fn the_address_chain_is_a_line() {
        assert_eq!(figures(&address(&[5], &[])), [4, 1, 32, 8]);
    }

    #[test]
    fn a_state_that_leads_to_start_goal_and_trap_reaches_the_limit() {
        let rows = [&[(1, 1)][..], &[(0, 1), (2, 1), (3, 1)], &[(2, 1)], &[(3, 1)]];
        assert_eq!(figures(&chain(&rows, &[2], &[])), [1, 0, 3, 3]);
    }

    #[test]
    fn no_state_but_the_start_leaves_nothing() {
        assert_eq!(figures(&chain(&[&[(1, 1)][..], &[(1, 1)]], &[1], &[])), [0, 0, 0, 0]);
    }

    /// Between 1 and 3 stand the start, a goal and a trap in the order, and no place is counted for them.
    #[test]
    fn a_place_is_counted_among_the_live_states_alone() {
        let rows = [&[(1, 1)][..], &[(3, 1)], &[(2, 1)], &[(2, 1), (4, 1)], &[(4, 1)]];
        let mut chain = chain(&rows, &[2], &[]);
        chain.order = vec![1, 0, 2, 4, 3];
        assert_eq!(figures(&chain), [2, 1, 16, 3]);
    }
}
