//! A chain while it is being generated: rows that grow edge by edge.

use crate::chain::{Chain, Edge, M};
use crate::random::Random;
use std::collections::BTreeMap;

pub struct Draft {
    pub start: usize,
    pub goals: Vec<bool>,
    /// For each state, the weight to each target.
    pub rows: Vec<BTreeMap<usize, u32>>,
}

impl Draft {
    /// n states without edges or goals.
    pub fn new(n: usize) -> Draft {
        Draft { start: 0, goals: vec![false; n], rows: vec![BTreeMap::new(); n] }
    }

    pub fn states(&self) -> usize {
        self.rows.len()
    }

    pub fn edge(&mut self, from: usize, to: usize, weight: u32) {
        *self.rows[from].entry(to).or_insert(0) += weight;
    }

    /// Makes some states goals, at least one.
    pub fn some_goals(&mut self, random: &mut Random, once_in: usize) {
        for goal in &mut self.goals {
            *goal = random.once_in(once_in);
        }
        let one = random.below(self.states());
        self.goals[one] = true;
    }

    /// The chain: each empty row becomes a loop, denominators are the row sums, edges are shuffled.
    pub fn finish(mut self, random: &mut Random) -> Chain {
        let n = self.states();
        for (state, row) in self.rows.iter_mut().enumerate() {
            if row.is_empty() {
                row.insert(state, random.pick(&[1, 1, 7, M]));
            }
        }
        let mut edges = Vec::new();
        for (from, row) in self.rows.iter().enumerate() {
            let row = row.iter();
            edges.extend(row.map(|(&to, &weight)| Edge {
                from: from as u8,
                to: to as u8,
                weight,
                reward: 0,
            }));
        }
        random.shuffle(&mut edges);
        let paid = rewards(random, edges.len());
        for (edge, reward) in edges.iter_mut().zip(paid) {
            edge.reward = reward;
        }
        let mut order: Vec<u8> = (0..n as u8).collect();
        match random.below(3) {
            0 => {}
            1 => order.reverse(),
            _ => random.shuffle(&mut order),
        }
        Chain {
            start: self.start as u8,
            denominators: self.rows.iter().map(|row| row.values().sum()).collect(),
            rewards: rewards(random, n),
            goals: self.goals,
            order,
            edges,
        }
    }
}

/// Rewards for n states or edges: none, small ones, or up to the most that a file can hold.
fn rewards(random: &mut Random, n: usize) -> Vec<u16> {
    let most = random.pick(&[0, 1, 1, 9, 65_535]);
    let reward = |random: &mut Random| match random.below(4) {
        0 => 0,
        1 => most as u16,
        _ => random.between(0, most) as u16,
    };
    (0..n).map(|_| reward(random)).collect()
}
