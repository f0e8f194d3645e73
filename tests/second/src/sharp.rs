//! Chains at the edges of the rules for no fit and for rounding, worked by hand.

use crate::chain::M;
use crate::worked::{chain, paid, Worked};

/// Chains that a rule one off would answer otherwise.
pub fn chains() -> Vec<Worked> {
    let mut cases = totals();
    cases.extend(rewards());
    cases
}

/// State 0 goes to 1 or is lost, state 1 goes to the goal or is lost: removing 1 leaves a row of
/// (to 1) × (to the goal) in Goal, whose total is the product of the two rows' totals.
fn totals() -> Vec<Worked> {
    let two_rows = |to_1, lost_from_0, to_goal, lost_from_1| {
        let rows = [
            &[(1, to_1), (3, lost_from_0)][..],
            &[(2, to_goal), (3, lost_from_1)],
            &[(2, 1)],
            &[(3, 1)],
        ];
        chain(&rows, &[2], &[])
    };
    vec![
        // 65,536 × 32,768 = 2^31.
        Worked {
            name: "a total of M + 1",
            chain: two_rows(1, 65_535, 1, 32_767),
            lines: &["chance refused 12 at 1", "bounds 0/1 1/1073741824"],
        },
        // M × 2, which one bit less makes M.
        Worked {
            name: "a total of M × 2",
            chain: two_rows(1, M - 1, 1, 1),
            lines: &["chance refused 12 at 1", "bounds 0/1 1/2147483647"],
        },
        // 65,535 × 65,537 = 2^32 − 1, which one bit less makes M + 1 and two make 2^30: of Goal's 4
        // one is left, and 1 is unknown.
        Worked {
            name: "a total of M × 2 + 1",
            chain: two_rows(1, 65_534, 4, 65_533),
            lines: &["chance refused 12 at 1", "bounds 1/1073741824 1/536870912"],
        },
    ]
}

/// Nothing is lost here, so that the reward is not infinite.
fn rewards() -> Vec<Worked> {
    // 65,537 × 32,767 is M − 32,768, to which removing 1 adds the weight to it.
    let two_rows = |to_1, to_goal| {
        chain(&[&[(1, to_1), (2, to_goal)], &[(2, 1)], &[(2, 1)]], &[2], &[32_767, 1])
    };
    vec![
        Worked {
            name: "a first Reward of M",
            chain: chain(&[&[(0, 1), (1, M - 1)], &[(1, 1)]], &[1], &[1]),
            lines: &["chance 1/1", "reward 2147483647/2147483646"],
        },
        Worked {
            name: "a first Reward of M + 1",
            chain: chain(&[&[(0, 1), (1, 65_535)], &[(1, 1)]], &[1], &[32_768]),
            lines: &["chance 1/1", "reward refused 12 at 64"],
        },
        Worked {
            name: "a first Reward of M by edges",
            chain: paid(chain(&[&[(0, 1), (1, M - 1)], &[(1, 1)]], &[1], &[]), &[1, 1]),
            lines: &["chance 1/1", "reward 2147483647/2147483646"],
        },
        Worked {
            name: "a first Reward of M + 1 by edges",
            chain: paid(chain(&[&[(0, 1), (1, 65_535)], &[(1, 1)]], &[1], &[]), &[32_768; 2]),
            lines: &["chance 1/1", "reward refused 12 at 64"],
        },
        Worked {
            name: "a Reward of M after a step",
            chain: two_rows(32_768, 32_769),
            lines: &["chance 1/1", "reward 2147483647/65537"],
        },
        Worked {
            name: "a Reward of M + 1 after a step",
            chain: two_rows(32_769, 32_768),
            lines: &["chance 1/1", "reward refused 12 at 1"],
        },
    ]
}
