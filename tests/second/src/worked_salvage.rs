//! Damaged files worked by hand, with all that `salvage` prints for them.

use crate::block::{self, mend, LENGTH, RECORDS};
use crate::chain::{Chain, Edge, M};
use crate::damage::block_at;
use crate::examples;
use crate::file;
use crate::worked_refused;

/// A file, and what is printed for it.
pub type Salvaged = (&'static str, Vec<u8>, &'static str);

pub type Triple = (u8, u8, u32);

/// States that nothing leads to, whose edges fill a block.
const FILLERS: u8 = 8;

/// The blocks of edges.
pub const FIRST: usize = 2;
pub const SECOND: usize = 3;

/// A chain that starts at 0: the first edges lie in one block, filled up with edges of states that
/// stand behind the others, and the second in the next.
pub fn chain(states: u8, goals: &[u8], first: &[Triple], second: &[Triple]) -> Chain {
    let fillers = states..states + FILLERS;
    let pairs = fillers.clone().flat_map(|from| fillers.clone().map(move |to| (from, to, 1)));
    let fill: Vec<Triple> = pairs.take(RECORDS - first.len()).collect();
    let triples = [first, &fill, second].concat();
    let row = |state: u8| triples.iter().filter(move |edge| edge.0 == state).map(|edge| edge.2);
    let edge = |&(from, to, weight): &Triple| Edge { from, to, weight, reward: 0 };
    Chain {
        start: 0,
        denominators: (0..fillers.end).map(|state| row(state).sum()).collect(),
        rewards: vec![0; fillers.end.into()],
        goals: (0..fillers.end).map(|state| goals.contains(&state)).collect(),
        order: (0..fillers.end).collect(),
        edges: triples.iter().map(edge).collect(),
    }
}

/// The file of a chain, damaged at a place.
pub fn damaged(chain: &Chain, place: usize, damage: impl Fn(&mut [u8])) -> Vec<u8> {
    let mut file = file::write(chain, 2);
    damage(block_at(&mut file, place));
    file
}

pub fn check_wrong(block: &mut [u8]) {
    block[block::CHECK] ^= 1;
}

/// The file of a chain whose second block of edges is lost.
fn without(states: u8, goals: &[u8], kept: &[Triple], lost: &[Triple]) -> Vec<u8> {
    damaged(&chain(states, goals, kept, lost), SECOND, check_wrong)
}

/// Every file.
pub fn all() -> Vec<Salvaged> {
    let mut cases = weights();
    cases.extend(paths());
    cases.extend(ends());
    cases.extend(numbers());
    cases.extend(many_lost());
    cases.extend(worked_refused::all());
    cases.push(("damaged.chain", examples::DAMAGED.to_vec(), examples::DAMAGED_TEXT));
    cases
}

/// What a row lacks is Unknown.
fn weights() -> Vec<Salvaged> {
    let [goal, trap] = [(1, 1, 1), (2, 2, 1)];
    // Removing 1 leaves Goal 1, Unknown 1 and a total of 3 × M, which two bits less make 1610612736.
    let rare = [(0, 1, 1), (0, 3, M - 1), (1, 2, 1), (1, 3, 1), (2, 2, 1), (3, 3, 1)];
    vec![
        (
            "part of a row",
            without(3, &[1], &[(0, 1, 1), goal, trap], &[(0, 2, 2)]),
            "bounds 1/3 1/1\nlost 3 21\nshort 0 2\n",
        ),
        (
            "a third each, in lowest terms with Unknown",
            without(3, &[1], &[(0, 1, 2), (0, 2, 2), goal, trap], &[(0, 0, 2)]),
            "bounds 1/3 2/3\nlost 3 21\nshort 0 2\n",
        ),
        (
            "beside the start's own loop",
            without(3, &[1], &[(0, 0, 1), (0, 1, 1), goal, trap], &[(0, 2, 1)]),
            "bounds 1/2 1/1\nlost 3 21\nshort 0 1\n",
        ),
        (
            "rounded",
            without(4, &[2], &rare, &[(1, 3, 1)]),
            "bounds 0/1 1/805306368\nlost 3 21\nshort 1 1\n",
        ),
        (
            "a lost block that no row lacks",
            damaged(
                &Chain {
                    denominators: [&[1, 1], &[8; 7][..], &[5]].concat(),
                    ..chain(2, &[1], &[(0, 1, 1), goal], &[(0, 0, 9)])
                },
                SECOND,
                check_wrong,
            ),
            "bounds 1/1 1/1\nlost 3 21\n",
        ),
    ]
}

/// Unknown counts as a goal where a path to one is asked for, and nowhere else.
fn paths() -> Vec<Salvaged> {
    vec![
        (
            "a row that is lost whole",
            without(3, &[2], &[(0, 1, 1), (2, 2, 1)], &[(1, 2, 1)]),
            "bounds 0/1 1/1\nlost 3 21\nshort 1 1\n",
        ),
        (
            "a short state is not worth 1",
            without(
                4,
                &[2],
                &[(0, 1, 1), (1, 2, 3), (1, 3, 1), (2, 2, 1), (3, 3, 1)],
                &[(1, 0, 1)],
            ),
            "bounds 3/5 4/5\nlost 3 21\nshort 1 1\n",
        ),
        (
            "a short state stops no path",
            without(4, &[3], &[(0, 1, 1), (1, 2, 1), (2, 3, 1), (3, 3, 1)], &[(1, 0, 1)]),
            "bounds 1/2 1/1\nlost 3 21\nshort 1 1\n",
        ),
        (
            "a trap whose row is lost is none",
            without(3, &[1], &[(0, 1, 1), (0, 2, 1), (1, 1, 1)], &[(2, 2, 7)]),
            "bounds 1/2 1/1\nlost 3 21\nshort 2 7\n",
        ),
    ]
}

/// Where the bounds are one fraction, whatever is lost.
fn ends() -> Vec<Salvaged> {
    vec![
        (
            "a goal's row is lost",
            without(2, &[1], &[(0, 1, 1)], &[(1, 0, 1)]),
            "bounds 1/1 1/1\nlost 3 21\nshort 1 1\n",
        ),
        (
            "the start is a goal and its row is lost",
            without(2, &[0], &[(1, 1, 1)], &[(0, 1, 5)]),
            "bounds 1/1 1/1\nlost 3 21\nshort 0 5\n",
        ),
        (
            "the start has no path",
            without(4, &[1], &[(0, 2, 1), (1, 1, 1), (2, 2, 1)], &[(3, 1, 1)]),
            "bounds 0/1 0/1\nlost 3 21\nshort 3 1\n",
        ),
        (
            "what lies behind a goal is lost",
            without(3, &[1], &[(0, 1, 1), (1, 2, 1)], &[(2, 2, 1)]),
            "bounds 1/1 1/1\nlost 3 21\nshort 2 1\n",
        ),
    ]
}

/// By which number a block is lost: a field of it, or two, are other bytes, and its check is right.
fn numbers() -> Vec<Salvaged> {
    let chain = || chain(2, &[1], &[(0, 0, 1), (1, 1, 1)], &[(0, 1, 1)]);
    let changed = |fields: &[(usize, u8)]| {
        damaged(&chain(), SECOND, |block| {
            for &(at, byte) in fields {
                block[at] = byte;
            }
            mend(block);
        })
    };
    let [number, kind, version, count, behind] =
        [(block::NUMBER, 2), (block::KIND, 2), (block::VERSION, 1), (block::COUNT, 0), (509, 1)];
    let [by_22, by_23, by_24] = [
        "bounds 0/1 1/1\nlost 3 22\nshort 0 1\n",
        "bounds 0/1 1/1\nlost 3 23\nshort 0 1\n",
        "bounds 0/1 1/1\nlost 3 24\nshort 0 1\n",
    ];
    let mut version_1 = chain();
    version_1.edges[RECORDS].reward = 256;
    vec![
        ("its number", changed(&[number]), by_22),
        ("its number and its kind", changed(&[number, kind]), by_22),
        ("its number and its version", changed(&[number, version]), by_22),
        ("its kind", changed(&[kind]), by_23),
        ("its version", changed(&[version]), by_23),
        ("its version, with a reward", changed(&[version, (block::FIRST_RECORD + 2, 1)]), by_23),
        ("an unknown version", changed(&[(block::VERSION, 3)]), by_23),
        ("its kind and its count", changed(&[kind, count]), by_23),
        ("its count", changed(&[count]), by_24),
        ("the zeros behind its edge", changed(&[behind]), by_24),
        ("a reward in version 1", file::write(&version_1, 1), by_24),
    ]
}

fn many_lost() -> Vec<Salvaged> {
    let chain = chain(2, &[1], &[(0, 0, 1), (1, 1, 1)], &[(0, 1, 1)]);
    let mut swapped = file::write(&chain, 2);
    swapped[FIRST * LENGTH..].rotate_left(LENGTH);
    let few = Chain {
        start: 0,
        denominators: vec![3, M],
        rewards: vec![0; 2],
        goals: vec![false, true],
        order: vec![0, 1],
        edges: vec![
            Edge { from: 0, to: 1, weight: 3, reward: 0 },
            Edge { from: 1, to: 1, weight: M, reward: 0 },
        ],
    };
    vec![
        (
            "two blocks exchanged",
            swapped,
            "bounds 0/1 1/1\nlost 2 22\nlost 3 22\nshort 0 2\nshort 1 1\nshort 2 8\nshort 3 8\nshort 4 8\n\
             short 5 8\nshort 6 8\nshort 7 8\nshort 8 8\nshort 9 5\n",
        ),
        (
            "the only block of edges",
            damaged(&few, FIRST, check_wrong),
            "bounds 0/1 1/1\nlost 2 21\nshort 0 3\nshort 1 2147483647\n",
        ),
        (
            "the only block of edges, and the start is a goal",
            damaged(&Chain { start: 1, ..few }, FIRST, check_wrong),
            "bounds 1/1 1/1\nlost 2 21\nshort 0 3\nshort 1 2147483647\n",
        ),
    ]
}

#[cfg(test)]
mod tests {
    use super::*;
    use crate::salvage;

    #[test]
    fn every_damaged_file_has_its_text() {
        for (name, file, text) in all() {
            assert_eq!(salvage::text(&file), text, "{name}");
        }
    }
}
