//! Damage to the head block, which says how many states and edges the file holds.

use crate::block::{mend, FIRST_RECORD, LENGTH, RECORDS};
use crate::chain::{Chain, Edge, MOST_EDGES, MOST_STATES};
use crate::damage::{any_block, any_file, block_at, other_byte};
use crate::random::Random;

/// The fields that every later test leans on, with the head's check always mended.
pub fn head_field(random: &mut Random, chain: Chain) -> Vec<u8> {
    let mut file = any_file(random, &chain);
    let head = block_at(&mut file, 0);
    for _ in 0..random.between(1, 2) {
        match random.below(5) {
            0 => head[FIRST_RECORD] = random.pick(&[0, 1, 62, 63, 64, 65, 127, 128, 255]),
            1 => head[FIRST_RECORD] = head[FIRST_RECORD].wrapping_add(random.pick(&[1, 255])),
            2 => {
                let edges = random.pick(&[0u16, 1, 63, 64, 4_095, 4_096, 4_097, 32_768, 65_535]);
                head[FIRST_RECORD + 2..FIRST_RECORD + 4].copy_from_slice(&edges.to_le_bytes());
            }
            3 => head[FIRST_RECORD + random.between(4, 7)] = random.byte(),
            _ => {
                head[FIRST_RECORD + 2] = head[FIRST_RECORD + 2].wrapping_add(random.pick(&[1, 255]))
            }
        }
    }
    mend(head);
    if random.once_in(3) {
        let place = any_block(random, &file);
        let at = place * LENGTH + random.below(LENGTH);
        file[at] = other_byte(random, file[at]);
    }
    file
}

/// Files that agree in everything with their head, which holds too few or too many states or edges.
pub fn outside_the_ranges(random: &mut Random, mut chain: Chain) -> Vec<u8> {
    match random.below(4) {
        0 => {
            chain.denominators.clear();
            chain.rewards.clear();
            chain.goals.clear();
            chain.order.clear();
        }
        1 => chain.edges.clear(),
        2 => {
            let n = random.pick(&[MOST_STATES + 1, MOST_STATES + 1, 2 * RECORDS, 255]);
            while chain.states() < n {
                another_state(&mut chain);
            }
        }
        _ => {
            // The last number of edges that the largest chain's blocks would hold.
            let full = MOST_EDGES.next_multiple_of(RECORDS);
            let edges = random.pick(&[MOST_EDGES + 1, MOST_EDGES + 1, full, 2 * MOST_EDGES]);
            chain.edges = chain.edges.iter().copied().cycle().take(edges).collect();
        }
    }
    any_file(random, &chain)
}

/// A state that only leads to itself, last in the order.
fn another_state(chain: &mut Chain) {
    let state = chain.states() as u8;
    chain.denominators.push(1);
    chain.rewards.push(0);
    chain.goals.push(false);
    chain.order.push(state);
    chain.edges.push(Edge { from: state, to: state, weight: 1, reward: 0 });
}
