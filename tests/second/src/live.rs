//! Which states matter: a search forward from the start and one backward from the goals.
//!
//! Where edges were lost, what a row lacks is Unknown, which counts as a goal for a path to one
//! (document 02, request 10): the search backward begins at the rows that fall short too.

use crate::chain::Chain;

/// What the two searches found, one entry a state.
pub struct Reach {
    /// Reached from the start without passing a goal, in no or more steps.
    pub reached: Vec<bool>,
    /// Has a path to a goal, or to Unknown.
    pub to_goal: Vec<bool>,
    /// Live: no goal, reached, and with such a path.
    pub live: Vec<bool>,
}

impl Reach {
    /// Searches a chain that gives no refusal.
    pub fn of(chain: &Chain) -> Reach {
        // A goal's own row counts as a plain self-loop: no edge leads on from a goal.
        let forward = |state: usize| -> Vec<usize> {
            let edges = chain.edges.iter().filter(|edge| usize::from(edge.from) == state);
            edges.filter(|_| !chain.goals[state]).map(|edge| usize::from(edge.to)).collect()
        };
        let backward = |state: usize| -> Vec<usize> {
            let edges = chain.edges.iter().filter(|edge| usize::from(edge.to) == state);
            edges.map(|edge| usize::from(edge.from)).collect()
        };
        let n = chain.states();
        let missing = chain.missing();
        let ends = (0..n).filter(|&state| chain.goals[state] || missing[state] > 0).collect();
        let reached = search(n, vec![chain.start()], forward);
        let to_goal = search(n, ends, backward);
        let live = (0..n).map(|i| !chain.goals[i] && reached[i] && to_goal[i]).collect();
        Reach { reached, to_goal, live }
    }

    /// Whether the expected reward is infinite: a reached state has no path to a goal.
    pub fn reward_is_infinite(&self) -> bool {
        self.reached.iter().zip(&self.to_goal).any(|(&reached, &to_goal)| reached && !to_goal)
    }

    /// The states that are removed, in their turn: all that an order decides.
    pub fn turns(&self, chain: &Chain) -> Vec<u8> {
        let removed = |&state: &u8| self.live[usize::from(state)] && state != chain.start;
        chain.order.iter().copied().filter(removed).collect()
    }

    /// How many states are live.
    pub fn live_count(&self) -> usize {
        self.live.iter().filter(|&&live| live).count()
    }
}

/// The states found from `first` by following `next`.
fn search(n: usize, first: Vec<usize>, next: impl Fn(usize) -> Vec<usize>) -> Vec<bool> {
    let mut found = vec![false; n];
    let mut waiting = first;
    while let Some(state) = waiting.pop() {
        if !found[state] {
            found[state] = true;
            waiting.extend(next(state));
        }
    }
    found
}
