//! A chain's tables as a caller lends them to the writer: any numbers at all.

use crate::block::{self, RECORDS};
use crate::chain::{Chain, Edge, M, MOST_EDGES, MOST_STATES};
use crate::file;
use crate::refusal::Refusal;
use std::collections::HashSet;

/// The numbers of an edge in the list: from, to, weight, reward.
pub const EDGE: usize = 4;
/// The greatest reward.
pub const MOST_REWARD: u64 = 65_535;
/// The version that the writer makes.
const VERSION: u8 = 2;

#[derive(Clone, Debug)]
pub struct Tables {
    pub states: u64,
    pub start: u64,
    pub goals: u64,
    pub denominators: Vec<u64>,
    pub edges: Vec<u64>,
    pub order: Vec<u64>,
    pub rewards: Vec<u64>,
}

impl Tables {
    pub fn of(chain: &Chain) -> Tables {
        let goals = chain.goals.iter().enumerate();
        let edge = |edge: &Edge| {
            let ends = [edge.from, edge.to].map(u64::from);
            [ends[0], ends[1], u64::from(edge.weight), u64::from(edge.reward)]
        };
        Tables {
            states: chain.states() as u64,
            start: u64::from(chain.start),
            goals: goals.map(|(i, &goal)| u64::from(goal) << i).sum(),
            denominators: chain.denominators.iter().map(|&d| u64::from(d)).collect(),
            edges: chain.edges.iter().flat_map(edge).collect(),
            order: chain.order.iter().map(|&state| u64::from(state)).collect(),
            rewards: chain.rewards.iter().map(|&reward| u64::from(reward)).collect(),
        }
    }

    /// The file that the writer makes of these tables in a buffer of this length, or its refusal: the
    /// least number that applies, at its least place.
    pub fn written(&self, buffer_length: usize) -> Result<Vec<u8>, Refusal> {
        let rules: [fn(&Tables) -> Option<usize>; 9] = [
            Tables::start_outside,
            Tables::goals_outside,
            Tables::denominator_outside,
            Tables::edge_names_no_state,
            Tables::weight_outside,
            Tables::pair_given_before,
            Tables::row_sum_differs,
            Tables::order_entry_wrong,
            Tables::reward_too_large,
        ];
        if self.misshaped() {
            return Err(Refusal { number: 1, place: 0 });
        }
        if buffer_length < self.file_length() {
            return Err(Refusal { number: 2, place: 0 });
        }
        for (number, rule) in (3..).zip(rules) {
            if let Some(place) = rule(self) {
                return Err(Refusal { number, place });
            }
        }
        Ok(file::write(&self.chain(), VERSION))
    }

    /// The file's length, for tables whose shape is right.
    pub fn file_length(&self) -> usize {
        let edges = self.edges.len() / EDGE;
        block::LENGTH * (1 + self.n().div_ceil(RECORDS) + edges.div_ceil(RECORDS))
    }

    fn n(&self) -> usize {
        usize::try_from(self.states).expect("a state's number fits")
    }

    fn misshaped(&self) -> bool {
        let lengths = [self.denominators.len(), self.order.len(), self.rewards.len()];
        !(1..=MOST_STATES as u64).contains(&self.states)
            || lengths.iter().any(|&length| length as u64 != self.states)
            || !self.edges.len().is_multiple_of(EDGE)
            || !(1..=MOST_EDGES).contains(&(self.edges.len() / EDGE))
    }

    fn edge_rows(&self) -> impl Iterator<Item = &[u64]> {
        self.edges.chunks(EDGE)
    }

    fn start_outside(&self) -> Option<usize> {
        (self.start >= self.states).then_some(0)
    }

    fn goals_outside(&self) -> Option<usize> {
        let past = self.states < 64 && self.goals >> self.states != 0;
        (self.goals == 0 || past).then_some(0)
    }

    fn denominator_outside(&self) -> Option<usize> {
        self.denominators.iter().position(|d| !(1..=u64::from(M)).contains(d))
    }

    fn edge_names_no_state(&self) -> Option<usize> {
        self.edge_rows().position(|edge| edge[0] >= self.states || edge[1] >= self.states)
    }

    fn weight_outside(&self) -> Option<usize> {
        self.edge_rows().position(|edge| !(1..=u64::from(M)).contains(&edge[2]))
    }

    fn pair_given_before(&self) -> Option<usize> {
        let mut seen = HashSet::new();
        self.edge_rows().position(|edge| !seen.insert((edge[0], edge[1])))
    }

    fn row_sum_differs(&self) -> Option<usize> {
        let sum = |state: usize| -> u64 {
            self.edge_rows().filter(|edge| edge[0] == state as u64).map(|edge| edge[2]).sum()
        };
        (0..self.n()).find(|&state| sum(state) != self.denominators[state])
    }

    fn order_entry_wrong(&self) -> Option<usize> {
        let mut seen = HashSet::new();
        self.order.iter().position(|&state| state >= self.states || !seen.insert(state))
    }

    fn reward_too_large(&self) -> Option<usize> {
        // A state's place is its number, an edge's 64 and its index: states come first.
        let of_edge = || self.edge_rows().position(|edge| edge[3] > MOST_REWARD);
        let of_state = self.rewards.iter().position(|&reward| reward > MOST_REWARD);
        of_state.or_else(|| of_edge().map(|index| 64 + index))
    }

    /// The chain of tables that nothing refuses.
    fn chain(&self) -> Chain {
        let short = |&number: &u64| u16::try_from(number).expect("a reward is at most 65,535");
        let small = |&number: &u64| u8::try_from(number).expect("a state's number is a byte");
        let edge = |edge: &[u64]| Edge {
            from: small(&edge[0]),
            to: small(&edge[1]),
            weight: u32::try_from(edge[2]).expect("a weight is at most M"),
            reward: short(&edge[3]),
        };
        let whole = |&number: &u64| u32::try_from(number).expect("a denominator is at most M");
        Chain {
            start: small(&self.start),
            denominators: self.denominators.iter().map(whole).collect(),
            rewards: self.rewards.iter().map(short).collect(),
            goals: (0..self.states).map(|i| self.goals >> i & 1 == 1).collect(),
            order: self.order.iter().map(small).collect(),
            edges: self.edge_rows().map(edge).collect(),
        }
    }
}

#[cfg(test)]
mod tests {
    use super::*;
    use crate::refusal::of_tables;
    use crate::worked;

    #[test]
    fn tables_of_a_chain_are_written_as_its_file() {
        for case in worked::chains() {
            let tables = Tables::of(&case.chain);
            let file = file::write(&case.chain, VERSION);
            assert_eq!(tables.file_length(), file.len(), "{}", case.name);
            let expected = of_tables(&case.chain).map_or(Ok(file.clone()), Err);
            assert_eq!(tables.written(file.len()), expected, "{}", case.name);
            let short = Err(Refusal { number: 2, place: 0 });
            assert_eq!(tables.written(file.len() - 1), short, "{}", case.name);
        }
    }

    #[test]
    fn a_large_reward_of_an_edge_is_11_after_the_states() {
        let mut tables = Tables::of(&worked::chains()[0].chain);
        tables.edges[EDGE + 3] = MOST_REWARD + 1;
        tables.edges[2 * EDGE + 3] = u64::MAX;
        assert_eq!(tables.written(usize::MAX), Err(Refusal { number: 11, place: 65 }));
        tables.rewards[6] = MOST_REWARD + 1;
        assert_eq!(tables.written(usize::MAX), Err(Refusal { number: 11, place: 6 }));
    }

    #[test]
    fn no_edges_are_1() {
        let mut tables = Tables::of(&worked::chains()[0].chain);
        tables.edges.clear();
        assert_eq!(tables.written(usize::MAX), Err(Refusal { number: 1, place: 0 }));
    }
}
