//! The chain: its tables as a chain file holds them, and its limits.

use crate::block::VERSIONS;

/// The most states of a chain.
pub const MOST_STATES: usize = 64;
/// The most edges of a chain.
pub const MOST_EDGES: usize = 4_096;
/// The most that a denominator, a weight and a kept row's total may be.
pub const M: u32 = 2_147_483_647;

/// One edge: its probability is `weight` over the denominator of `from`; each turn along it earns
/// `reward`.
#[derive(Clone, Copy, Debug, PartialEq, Eq)]
pub struct Edge {
    pub from: u8,
    pub to: u8,
    pub weight: u32,
    pub reward: u16,
}

/// A chain as a file holds it; whether it is well formed is for `refusal` to say.
///
/// `denominators`, `rewards`, `goals` and `order` have one entry a state.
#[derive(Clone, Debug, PartialEq, Eq)]
pub struct Chain {
    pub start: u8,
    pub denominators: Vec<u32>,
    pub rewards: Vec<u16>,
    pub goals: Vec<bool>,
    pub order: Vec<u8>,
    pub edges: Vec<Edge>,
}

impl Chain {
    /// n, the number of states.
    pub fn states(&self) -> usize {
        self.denominators.len()
    }

    /// The start state as an index.
    pub fn start(&self) -> usize {
        usize::from(self.start)
    }

    /// The versions of the files that can hold this chain: in version 1 an edge has no reward.
    pub fn versions(&self) -> &'static [u8] {
        if self.edges.iter().any(|edge| edge.reward > 0) {
            &VERSIONS[1..]
        } else {
            &VERSIONS
        }
    }

    /// The sum of each row's weights; every edge names states.
    pub fn row_sums(&self) -> Vec<u64> {
        let mut sums = vec![0; self.states()];
        for edge in &self.edges {
            sums[usize::from(edge.from)] += u64::from(edge.weight);
        }
        sums
    }

    /// What each row lacks of its denominator, which no row exceeds: nothing, unless edges were lost.
    pub fn missing(&self) -> Vec<u64> {
        let rows = self.denominators.iter().zip(self.row_sums());
        rows.map(|(&denominator, sum)| u64::from(denominator) - sum).collect()
    }

    /// Whether the start is a goal.
    pub fn starts_at_goal(&self) -> bool {
        self.goals[self.start()]
    }
}
