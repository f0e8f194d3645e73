//! Families of chains whose chances are small, whose numbers lie far apart, or which lose much on
//! the way.

use crate::chain::{Chain, M, MOST_STATES};
use crate::draft::Draft;
use crate::generate::Family;
use crate::plan::{Plan, MOST_COPIES, MOST_WEIGHT};
use crate::random::Random;

pub const NEAR_FAMILIES: [Family; 9] = [
    ("copies", copies),
    ("thin", thin),
    ("own loops", own_loops),
    ("1 and M", one_and_m),
    ("gateways", gateways),
    ("any size", any_size),
    ("all sizes, dense", all_sizes_dense),
    ("sums that carry", sums_that_carry),
    ("one row", one_row),
];

/// A plan of copies, in its own order or another.
fn copies(random: &mut Random) -> Chain {
    let copies = random.between(1, MOST_COPIES as usize) as u64;
    let most = random.pick(&[3, 30, 1_000, MOST_WEIGHT as usize]);
    let weight = |random: &mut Random| match random.below(4) {
        0 => 1,
        1 => MOST_WEIGHT,
        _ => random.between(1, most) as u64,
    };
    let weights = [(); 3].map(|()| weight(random));
    let mut chain = Plan { copies, weights }.chain();
    match random.below(6) {
        0 => chain.order.reverse(),
        1 => random.shuffle(&mut chain.order),
        _ => {}
    }
    chain
}

/// A line of states with one part in M, or a few, from each to the next; the rest goes astray or,
/// at times, to the goal, so that missing it is what is rare.
fn thin(random: &mut Random) -> Chain {
    let most_states = random.pick(&[6, 20, MOST_STATES]);
    let n = random.between(4, most_states);
    let (last, astray) = (n - 1, n - 2);
    let mut draft = Draft::new(n);
    let back = random.pick(&[Some(astray), Some(astray), Some(0), None]);
    let most = random.pick(&[1, 1, 7, 1 << 20]);
    for state in 0..astray {
        let next = if state + 1 == astray { last } else { state + 1 };
        let on = random.between(1, most);
        let any = random.between(on + 2, M as usize);
        let whole = random.pick(&[M as usize, M as usize, any]);
        draft.edge(state, next, on as u32);
        draft.edge(state, back.unwrap_or_else(|| random.below(n)), (whole - on - 1) as u32);
        draft.edge(state, astray, 1);
    }
    draft.goals[if random.once_in(3) { astray } else { last }] = true;
    draft.start = if random.once_in(4) { random.below(n) } else { 0 };
    finished(draft, random)
}

/// States that stay where they are for up to M turns, and leave by small weights.
fn own_loops(random: &mut Random) -> Chain {
    let most_states = random.pick(&[5, 12, MOST_STATES]);
    let n = random.between(2, most_states);
    let mut draft = Draft::new(n);
    for state in 0..n {
        let mut left = M;
        for _ in 0..random.between(1, 3) {
            let most = random.pick(&[1, 1, 2, 1_000]);
            let out = random.between(1, most) as u32;
            let any = random.below(n);
            draft.edge(state, random.pick(&[(state + 1).min(n - 1), any]), out);
            left -= out;
        }
        draft.edge(state, state, left);
    }
    draft.some_goals(random, n);
    finished(draft, random)
}

/// Weights of 1 and weights of what is left of M, side by side.
fn one_and_m(random: &mut Random) -> Chain {
    let most_states = random.pick(&[4, 10, 30, MOST_STATES]);
    let n = random.between(2, most_states);
    let edges = random.between(1, 5);
    let mut draft = Draft::new(n);
    for state in 0..n {
        for _ in 0..edges {
            draft.edge(state, random.below(n), 1);
        }
        let many = random.pick(&[0, 1, 1, 2]);
        for _ in 0..many {
            draft.edge(state, random.below(n), (M - edges as u32) / many);
        }
    }
    draft.some_goals(random, n);
    draft.start = random.below(n);
    finished(draft, random)
}

/// All ways lead through a few states, which most of the others lead to and come from.
fn gateways(random: &mut Random) -> Chain {
    let n = random.pick(&[5, 9, 16, 33, MOST_STATES]);
    let gates = random.between(1, 3);
    let (goal, lost) = (n - 1, n - 2);
    let mut draft = Draft::new(n);
    for state in gates..lost {
        draft.edge(state, random.below(gates), size(random, 29));
        draft.edge(state, random.pick(&[goal, lost, state]), size(random, 10));
    }
    for gate in 0..gates {
        for state in 0..n {
            if !random.once_in(5) {
                draft.edge(gate, state, size(random, 24));
            }
        }
    }
    draft.goals[goal] = true;
    draft.goals[lost] = random.once_in(6);
    draft.start = random.below(lost);
    finished(draft, random)
}

/// Some edges of any size between any two states.
fn any_size(random: &mut Random) -> Chain {
    let most_states = random.pick(&[3, 8, 24, MOST_STATES]);
    let n = random.between(2, most_states);
    let mut draft = Draft::new(n);
    for state in 0..n {
        for _ in 0..random.between(1, 6) {
            draft.edge(state, random.below(n), size(random, 28));
        }
    }
    draft.some_goals(random, n);
    draft.start = random.below(n);
    finished(draft, random)
}

/// An edge of any size between any two states, but for one that nothing leads on from.
fn all_sizes_dense(random: &mut Random) -> Chain {
    let n = if random.once_in(60) { MOST_STATES } else { random.between(3, 18) };
    let (goal, lost) = (n - 2, n - 1);
    let mut draft = Draft::new(n);
    for from in 0..lost {
        for to in 0..n {
            draft.edge(from, to, size(random, 25));
        }
    }
    draft.goals[goal] = true;
    draft.start = random.below(goal);
    finished(draft, random)
}

/// A row with a weight of 61 digits and two of up to 30, which add up to 2^30 or a little less:
/// whether they count among the highest 31 of the sum is up to digits that a sum cuts off.
fn sums_that_carry(random: &mut Random) -> Chain {
    // 0 is the start, 1 the state whose D is that sum, 2 is removed before it, 3 stands in the way.
    let [start, summed, removed, other, goal, lost] = [0, 1, 2, 3, 4, 5];
    let mut draft = Draft::new(6);
    let low = 1 << random.below(12);
    let less = random.pick(&[0, 0, 1, low / 2]);
    let aside = random.pick(&[goal, lost]);
    draft.edge(start, summed, 1);
    draft.edge(start, aside, random.between(1, 1_000) as u32);
    draft.edge(summed, other, M - 1 - random.below(1 << 20) as u32);
    draft.edge(summed, removed, 1);
    draft.edge(removed, goal, (1 << 30) - low - less);
    draft.edge(removed, lost, low);
    draft.edge(other, goal, random.between(1, 3) as u32);
    draft.edge(other, random.pick(&[start, lost]), random.between(1, 3) as u32);
    draft.goals[goal] = true;
    let mut chain = finished(draft, random);
    chain.order = vec![2, 1, 3, 0, 4, 5];
    chain
}

/// One state with all that it leads to: no row is made anew. Shares close to none and to all are
/// among them.
fn one_row(random: &mut Random) -> Chain {
    let mut draft = Draft::new(3);
    let total = random.pick(&[M, M, M - 1, 1 << 30, 1_000_000, 10_000_000, 999_999_999]);
    let most = random.pick(&[12, 2_000, total as usize - 1]);
    let part = random.between(1, most) as u32;
    let stays = random.pick(&[0, 0, 1, (total - part) / 2]);
    let sides = random.pick(&[[1, 2], [2, 1]]);
    for (to, weight) in [(sides[0], part), (sides[1], total - part - stays), (0, stays)] {
        if weight > 0 {
            draft.edge(0, to, weight);
        }
    }
    draft.goals[1] = true;
    finished(draft, random)
}

/// A weight with up to so many binary digits, all numbers of digits alike.
fn size(random: &mut Random, most_digits: usize) -> u32 {
    let least = 1 << random.below(most_digits);
    random.between(least, 2 * least - 1) as u32
}

/// The chain, in which no row outgrows M: the edges of one that would are made smaller.
fn finished(mut draft: Draft, random: &mut Random) -> Chain {
    for row in &mut draft.rows {
        while row.values().map(|&weight| u64::from(weight)).sum::<u64>() > u64::from(M) {
            row.values_mut().for_each(|weight| *weight = weight.div_ceil(2));
        }
    }
    draft.finish(random)
}

#[cfg(test)]
mod tests {
    use super::*;
    use crate::generate::{draw, FAMILIES};
    use crate::live::Reach;
    use crate::near_held::faults;
    use crate::near_text::Share;
    use crate::refusal::of_tables;
    use crate::{exact::Exact, near};

    /// Chains of each family.
    const EACH: u64 = 60;

    #[test]
    fn figures_of_all_kinds_of_chains_are_held() {
        for (place, family) in NEAR_FAMILIES.into_iter().chain(FAMILIES).enumerate() {
            for seed in 0..EACH {
                let chain = draw(&mut Random::new(seed << 8 | place as u64), family);
                assert_eq!(of_tables(&chain), None, "{}", family.0);
                let said = near::of_chain(&chain);
                let exact = Exact::of(&chain, &Reach::of(&chain));
                for (around, part) in [(&said.near, &exact.reached), (&said.miss, &exact.missed())]
                {
                    let faults = faults(&Share::of(around), said.rows, part, &exact.whole);
                    assert!(faults.is_empty(), "{} {seed}: {faults:?} {said:?}", family.0);
                }
            }
        }
    }
}
