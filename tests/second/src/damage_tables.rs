//! Damage to a chain's tables: files that are well formed and hold chains that are not.

use crate::chain::{Chain, Edge, M, MOST_EDGES};
use crate::random::Random;

type Damage = fn(&mut Random, &mut Chain);

/// Damage whose refusal has a place, one for each number; each fault of it comes in two ways or more.
const PLACED: [Damage; 6] = [
    denominator_outside,
    edge_names_no_state,
    weight_outside,
    pair_again,
    row_sum_wrong,
    order_entry_wrong,
];

const PLACELESS: [Damage; 2] = [start_outside, no_goal];

/// Faults of one number, whose least place must be given, or of several, whose least number must.
pub fn damage(random: &mut Random, chain: &mut Chain) {
    if random.once_in(2) {
        let damage = random.pick(&PLACED);
        for _ in 0..random.between(2, 4) {
            damage(random, chain);
        }
        return;
    }
    for _ in 0..random.pick(&[1, 2, 3]) {
        let damages = if random.once_in(5) { &PLACELESS[..] } else { &PLACED };
        random.pick(damages)(random, chain);
    }
}

fn any_state(random: &mut Random, chain: &Chain) -> usize {
    random.below(chain.states())
}

fn any_edge<'a>(random: &mut Random, chain: &'a mut Chain) -> &'a mut Edge {
    let place = random.below(chain.edges.len());
    &mut chain.edges[place]
}

/// A number that names no state: just outside, the most, or between.
fn no_state(random: &mut Random, chain: &Chain) -> u8 {
    let n = chain.states();
    let any = random.between(n, 255);
    random.pick(&[n, any, 255]) as u8
}

/// A number that is neither a weight nor a denominator.
fn no_weight(random: &mut Random) -> u32 {
    let any = random.between(M as usize + 1, u32::MAX as usize) as u32;
    random.pick(&[0, 0, M + 1, M + 2, any, u32::MAX])
}

fn start_outside(random: &mut Random, chain: &mut Chain) {
    chain.start = no_state(random, chain);
}

fn no_goal(_: &mut Random, chain: &mut Chain) {
    chain.goals.fill(false);
}

fn denominator_outside(random: &mut Random, chain: &mut Chain) {
    let state = any_state(random, chain);
    chain.denominators[state] = no_weight(random);
}

fn edge_names_no_state(random: &mut Random, chain: &mut Chain) {
    let outside = no_state(random, chain);
    let at_from = random.once_in(2);
    let edge = any_edge(random, chain);
    *(if at_from { &mut edge.from } else { &mut edge.to }) = outside;
}

fn weight_outside(random: &mut Random, chain: &mut Chain) {
    any_edge(random, chain).weight = no_weight(random);
}

/// Gives a pair again, beside its first edge or in the place of another.
fn pair_again(random: &mut Random, chain: &mut Chain) {
    let again = *any_edge(random, chain);
    if chain.edges.len() < MOST_EDGES && random.once_in(2) {
        let place = random.between(0, chain.edges.len());
        chain.edges.insert(place, again);
    } else {
        let other = any_edge(random, chain);
        (other.from, other.to) = (again.from, again.to);
    }
}

fn row_sum_wrong(random: &mut Random, chain: &mut Chain) {
    random.pick(&[row_sum_off, row_sum_off_by_a_turn])(random, chain);
}

fn row_sum_off(random: &mut Random, chain: &mut Chain) {
    let state = any_state(random, chain);
    let denominator = &mut chain.denominators[state];
    *denominator =
        if random.once_in(2) { *denominator % M + 1 } else { random.between(1, 9) as u32 };
}

/// A row whose sum is its denominator and 2^32 more: the same in 32 bits.
fn row_sum_off_by_a_turn(random: &mut Random, chain: &mut Chain) {
    let state = any_state(random, chain);
    let mut row: Vec<&mut Edge> =
        chain.edges.iter_mut().filter(|edge| usize::from(edge.from) == state).collect();
    if row.len() < 3 {
        return row_sum_off(random, chain);
    }
    for edge in row.iter_mut().skip(3) {
        edge.weight = 1;
    }
    for edge in row.iter_mut().take(3) {
        edge.weight = M;
    }
    let sum: u64 = row.iter().map(|edge| u64::from(edge.weight)).sum();
    chain.denominators[state] = (sum - (1 << 32)) as u32;
}

/// An entry that names no state, or one that another position has too.
fn order_entry_wrong(random: &mut Random, chain: &mut Chain) {
    let position = any_state(random, chain);
    let other = any_state(random, chain);
    chain.order[position] = if position == other || random.once_in(2) {
        no_state(random, chain)
    } else {
        chain.order[other]
    };
}
