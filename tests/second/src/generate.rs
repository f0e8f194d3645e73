//! Families of well-formed chains.

use crate::chain::{Chain, M, MOST_STATES};
use crate::draft::Draft;
use crate::live::Reach;
use crate::random::Random;
use crate::step_list;

type Make = fn(&mut Random) -> Chain;

/// A family: a name, and what makes one of its chains.
pub type Family = (&'static str, Make);

pub const FAMILIES: [Family; 10] = [
    ("tiny", tiny),
    ("walk", walk),
    ("banded", banded),
    ("retry", retry),
    ("dense", dense),
    ("traps", traps),
    ("unreachable", unreachable_states),
    ("near M", near_m),
    ("powers", powers),
    ("beside a power", beside_a_power),
];

/// Families whose chance mostly fits, whatever the order.
const FITTING: [Make; 5] = [walk, banded, retry, traps, unreachable_states];

/// A chain of the family. One whose start is not live has no rows: it is mostly drawn again.
pub fn draw(random: &mut Random, family: Family) -> Chain {
    loop {
        let chain = (family.1)(random);
        if Reach::of(&chain).live[chain.start()] || random.once_in(4) {
            return chain;
        }
    }
}

/// A chain with many orders that mostly fit: three live states or more stand beside the start.
pub fn draw_for_orders(random: &mut Random) -> Chain {
    loop {
        let chain = random.pick(&FITTING)(random);
        let reach = Reach::of(&chain);
        if reach.live[chain.start()] && reach.live_count() > 3 {
            return chain;
        }
    }
}

/// A chain whose numbers outgrow the exact engine after some finished steps.
pub fn draw_grown(random: &mut Random) -> Chain {
    loop {
        let chain = random.pick(&FAMILIES).1(random);
        let list = step_list::of_chain(&chain);
        if list.chance.is_err() && !list.records.is_empty() {
            return chain;
        }
    }
}

/// One to four states, any edges: loops, starts that are goals, goals with edges out.
fn tiny(random: &mut Random) -> Chain {
    let n = random.between(1, 4);
    let mut draft = Draft::new(n);
    for from in 0..n {
        for to in 0..n {
            if random.once_in(2) {
                draft.edge(from, to, random.between(1, 4) as u32);
            }
        }
    }
    draft.some_goals(random, 4);
    draft.start = random.below(n);
    draft.finish(random)
}

/// Even steps to both neighbours between a goal and a trap or another goal: long chains that fit.
fn walk(random: &mut Random) -> Chain {
    let n = random.between(3, MOST_STATES);
    let mut draft = Draft::new(n);
    let waits = random.once_in(2);
    for state in 1..n - 1 {
        let scale = random.pick(&[1, 1, 1, 6, 1_000_003]);
        draft.edge(state, state - 1, scale);
        draft.edge(state, state + 1, scale);
        if waits && random.once_in(3) {
            draft.edge(state, state, scale);
        }
    }
    draft.goals[n - 1] = true;
    draft.goals[0] = random.once_in(2);
    draft.start = random.below(n);
    // A goal's own row counts as a loop, wherever it leads.
    draft.edge(n - 1, random.below(n), 1);
    draft.finish(random)
}

/// Edges to states close by, with small weights.
fn banded(random: &mut Random) -> Chain {
    let most_states = random.pick(&[12, 12, MOST_STATES]);
    let n = random.between(3, most_states);
    let width = random.between(1, 4);
    let most = random.pick(&[1, 1, 2, 5, 1_000]);
    let mut draft = Draft::new(n);
    for from in 0..n {
        for to in from.saturating_sub(width)..(from + width + 1).min(n) {
            if !random.once_in(3) {
                draft.edge(from, to, random.between(1, most) as u32);
            }
        }
    }
    draft.some_goals(random, 20);
    draft.start = random.below(n);
    draft.finish(random)
}

/// As the address chain: each state goes on, back to the first, or is lost.
fn retry(random: &mut Random) -> Chain {
    let n = random.between(4, 24);
    let (goal, lost) = (n - 1, n - 2);
    let mut draft = Draft::new(n);
    for state in 0..lost {
        let next = if state + 1 == lost { goal } else { state + 1 };
        draft.edge(state, next, random.between(1, 9) as u32);
        draft.edge(state, 0, random.between(1, 3) as u32);
        if random.once_in(3) {
            draft.edge(state, lost, 1);
        }
    }
    draft.goals[goal] = true;
    draft.goals[lost] = random.once_in(3);
    draft.finish(random)
}

/// Every pair of states has an edge; now and then all 4,096 of them.
fn dense(random: &mut Random) -> Chain {
    let n = if random.once_in(40) { MOST_STATES } else { random.between(2, 16) };
    let most = random.pick(&[1, 2, 100, 30_000_000]);
    let mut draft = Draft::new(n);
    for from in 0..n {
        for to in 0..n {
            draft.edge(from, to, random.between(1, most) as u32);
        }
    }
    draft.some_goals(random, n);
    draft.finish(random)
}

/// Some states form closed cycles or loops that no goal can be reached from.
fn traps(random: &mut Random) -> Chain {
    let n = random.between(4, 20);
    let trapped = random.between(1, n / 2);
    let mut draft = Draft::new(n);
    for state in 0..trapped {
        draft.edge(state, random.below(trapped), 1);
        draft.edge(state, (state + 1) % trapped, random.between(1, 5) as u32);
    }
    for state in trapped..n {
        for _ in 0..random.between(1, 4) {
            draft.edge(state, random.below(n), random.between(1, 3) as u32);
        }
    }
    draft.goals[random.between(trapped, n - 1)] = true;
    draft.start = if random.once_in(8) { random.below(n) } else { random.between(trapped, n - 1) };
    draft.finish(random)
}

/// A few states are reached; others, whose weights would never fit, only lead to them or lie
/// behind a goal.
fn unreachable_states(random: &mut Random) -> Chain {
    let near = random.between(2, 6);
    let n = near + random.between(1, 12);
    let mut draft = Draft::new(n);
    for from in 0..near {
        for _ in 0..random.between(1, 3) {
            draft.edge(from, random.below(near), random.between(1, 4) as u32);
        }
    }
    for from in near..n {
        let heavy = M - random.between(0, 50) as u32;
        let light = random.between(1, 1_000) as u32;
        draft.edge(from, random.below(n), heavy - light);
        draft.edge(from, random.below(n), light);
    }
    let goal = random.below(near);
    draft.goals[goal] = true;
    draft.edge(goal, random.between(near, n - 1), 1);
    draft.start = random.below(near);
    draft.finish(random)
}

/// Denominators at M or a little below, with rare and frequent ways out.
fn near_m(random: &mut Random) -> Chain {
    let n = random.between(2, 9);
    let mut draft = Draft::new(n);
    for from in 0..n {
        let mut left = M - random.pick(&[0, 0, 1, 2, 1_000]);
        for _ in 0..random.between(0, 3) {
            let most = random.pick(&[1, 3, 100, M as usize / 4]);
            let weight = random.between(1, most) as u32;
            draft.edge(from, random.below(n), weight);
            left -= weight;
        }
        draft.edge(from, random.below(n), left);
    }
    draft.some_goals(random, n);
    draft.finish(random)
}

/// Row totals at and beside powers of two: their products lie where rounding takes one more bit.
fn powers(random: &mut Random) -> Chain {
    let n = random.between(3, 8);
    let (goal, trap) = (n - 1, n - 2);
    let mut draft = Draft::new(n);
    for from in 0..trap {
        let total = ((1u32 << random.between(3, 31)) - 1 + random.below(3) as u32).min(M);
        let next = if from + 1 == trap { goal } else { from + 1 };
        draft.edge(from, next, 1);
        let to_next = random.pick(&[0, 0, 1, total / 2 - 1]);
        let to_self = random.pick(&[0, 0, 0, 1, total / 4]);
        for (to, weight) in [(next, to_next), (from, to_self)] {
            if weight > 0 {
                draft.edge(from, to, weight);
            }
        }
        draft.edge(from, random.pick(&[trap, trap, goal, 0]), total - 1 - to_next - to_self);
    }
    draft.goals[goal] = true;
    draft.finish(random)
}

/// Neighbours whose row totals are 2^a − 1 and 2^a + 1. Their product, 2^(2a) − 1, needs one bit
/// less taken off where it is rounded down than where it is rounded up.
fn beside_a_power(random: &mut Random) -> Chain {
    let n = random.pick(&[4, 4, 5, 6]);
    let (goal, trap) = (n - 1, n - 2);
    let power = 1 << random.between(16, 30);
    let mut draft = Draft::new(n);
    for from in 0..trap {
        let total = if from % 2 == 0 { power - 1 } else { power + 1 };
        let next = if from + 1 == trap { goal } else { from + 1 };
        let most_to_next = random.pick(&[1, power / 2]);
        let to_next = random.between(1, most_to_next);
        let to_goal = random.between(1, power / 4);
        draft.edge(from, next, to_next as u32);
        draft.edge(from, goal, to_goal as u32);
        draft.edge(from, random.pick(&[trap, trap, goal]), (total - to_next - to_goal) as u32);
    }
    draft.goals[goal] = true;
    draft.finish(random)
}
