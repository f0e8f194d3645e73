//! Chains whose near chances are worked by hand or known beforehand.

use crate::chain::{Chain, M};
use crate::plan::{Plan, MOST_WEIGHT};
use crate::worked::{address, chain, no_fit};

/// A lower and an upper number, and the power of two that they are over.
pub type Numbers = (u64, u64, usize);

/// A chain with what must be said of it: the numbers of reaching a goal and of missing all, where
/// they are worked out, and what is printed.
pub struct Known {
    pub name: &'static str,
    pub chain: Chain,
    pub near: Option<Numbers>,
    pub miss: Option<Numbers>,
    pub text: &'static str,
}

/// Nothing, and all.
const NONE: Option<Numbers> = Some((0, 0, 0));
const ALL: Option<Numbers> = Some((1, 1, 0));

/// Copies, with LOSS, REBUILD and FINISH.
fn plan(copies: u64, weights: [u64; 3]) -> Chain {
    Plan { copies, weights }.chain()
}

/// The start goes to the goal 1 by one of these weights and is lost in 2 by the other.
fn two_ways(goal: u32, lost: u32) -> Chain {
    chain(&[&[(1, goal), (2, lost)], &[(1, 1)], &[(2, 1)]], &[1], &[])
}

/// 2 is removed first, then 1, whose row then has a weight of 61 digits to 3 and two small ones
/// that add up to 2^30: these reach the highest 31 digits of the sum where none of them is cut, and
/// 5 digits are cut off.
fn carries(low: u32) -> Chain {
    let rows: [&[(u8, u32)]; 6] = [
        &[(1, 1), (4, 1)],
        &[(3, M - 1), (2, 1)],
        &[(4, (1 << 30) - low), (5, low)],
        &[(4, 1), (5, 1)],
        &[(4, 1)],
        &[(5, 1)],
    ];
    Chain { order: vec![2, 1, 3, 0, 4, 5], ..chain(&rows, &[4], &[]) }
}

pub fn all() -> Vec<Known> {
    let mut known = from_the_issue();
    known.extend(plans());
    known.extend(by_hand());
    known
}

/// Plans whose chances are known as fractions from elsewhere.
fn plans() -> Vec<Known> {
    let texts = [
        // 1/193151246.
        ("near, five copies", 5, [1, 20, 100], "near 5.17728e-9 5.17729e-9\nmiss 9.99999e-1 1\n"),
        // 2.691711861519...e-33.
        ("near, 32 copies", 32, [1, 20, 100], "near 2.69171e-33 2.69172e-33\nmiss 9.99999e-1 1\n"),
        // 1.225126606156...e-166.
        (
            "near, 32 copies that are hardly lost",
            32,
            [1, MOST_WEIGHT, MOST_WEIGHT],
            "near 1.22512e-166 1.22513e-166\nmiss 9.99999e-1 1\n",
        ),
        // Missing it is 4.058487121421...e-6; 31 rows widen the other number to a little over
        // 0.999996.
        (
            "near, 32 copies that are hardly kept",
            32,
            [MOST_WEIGHT, 1, 1],
            "near 9.99995e-1 9.99997e-1\nmiss 4.05848e-6 4.05849e-6\n",
        ),
    ];
    texts
        .map(|(name, copies, weights, text)| {
            let chain = plan(copies, weights);
            Known { name, chain, near: None, miss: None, text }
        })
        .into()
}

/// Those of the issue and of the rules that it names.
fn from_the_issue() -> Vec<Known> {
    vec![
        Known {
            name: "near, address, goal 5",
            chain: address(&[5], &[]),
            near: Some((2_146_992_886, 2_146_992_927, 31)),
            miss: Some((2_010_076_082, 2_010_076_121, 43)),
            text: "near 9.99771e-1 9.99772e-1\nmiss 2.28519e-4 2.28520e-4\n",
        },
        Known {
            name: "near, address, goal 6",
            chain: address(&[6], &[]),
            near: Some((2_010_076_082, 2_010_076_121, 43)),
            miss: Some((2_146_992_886, 2_146_992_927, 31)),
            text: "near 2.28519e-4 2.28520e-4\nmiss 9.99771e-1 9.99772e-1\n",
        },
        Known {
            name: "near, six copies",
            chain: plan(6, [1, 20, 100]),
            near: None,
            miss: None,
            text: "near 2.48121e-10 2.48122e-10\nmiss 9.99999e-1 1\n",
        },
        Known {
            name: "near, one copy",
            chain: plan(1, [1, 1, 3]),
            near: None,
            miss: None,
            text: "near 2.49999e-1 2.50001e-1\nmiss 7.49999e-1 7.50001e-1\n",
        },
    ]
}

fn by_hand() -> Vec<Known> {
    vec![
        Known {
            name: "near, the start is a goal",
            chain: address(&[0], &[]),
            near: ALL,
            miss: NONE,
            text: "near 1 1\nmiss 0 0\n",
        },
        Known {
            name: "near, no path to a goal",
            chain: Chain { start: 6, ..address(&[5], &[]) },
            near: NONE,
            miss: ALL,
            text: "near 0 0\nmiss 1 1\n",
        },
        // Nothing can be lost, and one row is made anew.
        Known {
            name: "near, two visits",
            chain: chain(&[&[(1, 1)], &[(1, 1), (2, 1)], &[(2, 1)]], &[2], &[]),
            near: Some(((1 << 31) - 8, 1 << 31, 31)),
            miss: NONE,
            text: "near 9.99999e-1 1\nmiss 0 0\n",
        },
        // 1 is removed first, and both the start and 2 lead to it: three rows are made anew.
        Known {
            name: "near, two rows at once",
            chain: chain(&[&[(1, 1)], &[(2, 1)], &[(1, 1), (3, 1)], &[(3, 1)]], &[3], &[]),
            near: Some(((1 << 31) - 16, 1 << 31, 31)),
            miss: NONE,
            text: "near 9.99999e-1 1\nmiss 0 0\n",
        },
        // The own loop is no part of D, which is 2.
        Known {
            name: "near, loop, goal and trap",
            chain: chain(&[&[(0, 1), (1, 1), (2, 1)], &[(1, 1)], &[(2, 1)]], &[1], &[]),
            near: Some(((1 << 31) - 4, (1 << 31) + 6, 32)),
            miss: Some(((1 << 31) - 4, (1 << 31) + 6, 32)),
            text: "near 4.99999e-1 5.00001e-1\nmiss 4.99999e-1 5.00001e-1\n",
        },
        Known {
            name: "near, one in M",
            chain: two_ways(1, M - 1),
            near: Some(((1 << 30) - 2, (1 << 30) + 4, 61)),
            miss: Some(((1 << 31) - 6, 1 << 31, 31)),
            text: "near 4.65661e-10 4.65662e-10\nmiss 9.99999e-1 1\n",
        },
        // D is 6,442,450,940: one less than the sum, which has 33 digits.
        Known {
            name: "near, no fit",
            chain: no_fit(),
            near: Some((1_431_655_760, 1_431_655_773, 63)),
            miss: Some(((1 << 31) - 8, 1 << 31, 31)),
            text: "near 1.55220e-10 1.55221e-10\nmiss 9.99999e-1 1\n",
        },
        Known {
            name: "near, a carry that is cut off",
            chain: carries(1 << 4),
            near: Some((1_610_612_724, 1_610_612_750, 31)),
            miss: Some((2_147_483_632, 2_147_483_667, 33)),
            text: "near 7.49999e-1 7.50001e-1\nmiss 2.49999e-1 2.50001e-1\n",
        },
        Known {
            name: "near, a carry that is not",
            chain: carries(1 << 5),
            near: Some((1_610_612_724, 1_610_612_750, 31)),
            miss: Some((2_147_483_632, 2_147_483_666, 33)),
            text: "near 7.49999e-1 7.50001e-1\nmiss 2.49999e-1 2.50001e-1\n",
        },
        // Only one is missing to 2^31, and one is added before a number is rounded up.
        Known {
            name: "near, next to 1",
            chain: two_ways(M - 5, 5),
            near: Some((2_147_483_638, (1 << 31) - 1, 31)),
            miss: Some((1_342_177_277, 1_342_177_284, 59)),
            text: "near 9.99999e-1 1\nmiss 2.32830e-9 2.32831e-9\n",
        },
    ]
}

#[cfg(test)]
mod tests {
    use super::*;
    use crate::near::{self, Around};
    use crate::near_text::lines;

    #[test]
    fn every_known_chain_has_its_figures() {
        for Known { name, chain, near, miss, text } in all() {
            let said = near::of_chain(&chain);
            let numbers = |around: &Around| {
                let small = |number: &crate::natural::Natural| number.small().expect("small");
                (small(&around.lower), small(&around.upper), around.twos)
            };
            assert!(near.is_none_or(|near| near == numbers(&said.near)), "{name}: {said:?}");
            assert!(miss.is_none_or(|miss| miss == numbers(&said.miss)), "{name}: {said:?}");
            assert_eq!(lines(&Ok(said)), text, "{name}");
        }
    }
}
