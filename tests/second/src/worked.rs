//! The chains that document 01 works by hand, and some with rewards on edges, with their answers.

use crate::chain::{Chain, Edge, M};
use crate::sharp;

/// A chain with what its report must say.
pub struct Worked {
    pub name: &'static str,
    pub chain: Chain,
    /// Lines that the report must hold; document 01 does not give every line of every chain.
    pub lines: &'static [&'static str],
}

/// A chain in the order of its states, from rows of (to, weight); a row's sum is its denominator.
pub fn chain(rows: &[&[(u8, u32)]], goals: &[usize], rewards: &[u16]) -> Chain {
    let mut edges = Vec::new();
    for (from, row) in (0..).zip(rows) {
        edges.extend(row.iter().map(|&(to, weight)| Edge { from, to, weight, reward: 0 }));
    }
    Chain {
        start: 0,
        denominators: rows.iter().map(|row| row.iter().map(|edge| edge.1).sum()).collect(),
        rewards: (0..rows.len()).map(|i| rewards.get(i).copied().unwrap_or(0)).collect(),
        goals: (0..rows.len()).map(|i| goals.contains(&i)).collect(),
        order: (0..rows.len() as u8).collect(),
        edges,
    }
}

/// The address chain of source 000.
pub fn address(goals: &[usize], rewards: &[u16]) -> Chain {
    let rows: [&[(u8, u32)]; 7] = [
        &[(5, 7), (1, 1)],
        &[(0, 4), (2, 1)],
        &[(0, 4), (3, 1)],
        &[(0, 4), (4, 1)],
        &[(0, 4), (6, 1)],
        &[(5, 1)],
        &[(6, 1)],
    ];
    chain(&rows, goals, rewards)
}

/// The dice of Knuth and Yao.
pub fn dice(goals: &[usize], rewards: &[u16]) -> Chain {
    let halves: [[(u8, u32); 2]; 7] = [
        [(1, 1), (2, 1)],
        [(3, 1), (4, 1)],
        [(5, 1), (6, 1)],
        [(1, 1), (7, 1)],
        [(8, 1), (9, 1)],
        [(10, 1), (11, 1)],
        [(2, 1), (12, 1)],
    ];
    let faces: Vec<[(u8, u32); 1]> = (7..13).map(|face| [(face, 1)]).collect();
    let mut rows: Vec<&[(u8, u32)]> = halves.iter().map(|row| &row[..]).collect();
    rows.extend(faces.iter().map(|row| &row[..]));
    chain(&rows, goals, rewards)
}

/// A rare way on, then a row of thirds: the totals' product is above M.
pub fn no_fit() -> Chain {
    let rows = [&[(1, 1), (3, M - 1)][..], &[(2, 1), (3, 2)], &[(2, 1)], &[(3, 1)]];
    chain(&rows, &[2], &[])
}

fn with(mut chain: Chain, change: impl Fn(&mut Chain)) -> Chain {
    change(&mut chain);
    chain
}

/// The chain with these rewards on its first edges.
pub fn paid(chain: Chain, rewards: &[u16]) -> Chain {
    with(chain, |chain| {
        for (edge, &reward) in chain.edges.iter_mut().zip(rewards) {
            edge.reward = reward;
        }
    })
}

/// Every worked chain that a file can hold.
pub fn chains() -> Vec<Worked> {
    let mut cases = Vec::new();
    let mut add = |name, chain, lines| cases.push(Worked { name, chain, lines });
    add(
        "address, goal 5",
        address(&[5], &[]),
        &[
            "states 7",
            "edges 12",
            "goals 1",
            "live 5",
            "chance 4375/4376",
            "reward infinite",
            "bounds 4375/4376 4375/4376",
        ],
    );
    add("address, goal 6", address(&[6], &[]), &["chance 1/4376"]);
    add("address, goals 5 and 6", address(&[5, 6], &[1]), &["chance 1/1", "reward 625/547"]);
    for face in 7..13 {
        add("one face of the dice", dice(&[face], &[]), &["edges 20", "chance 1/6"]);
    }
    add("all faces", dice(&[7, 8, 9, 10, 11, 12], &[1; 7]), &["chance 1/1", "reward 11/3"]);
    add(
        "loop, goal and trap",
        chain(&[&[(0, 1), (1, 1), (2, 1)], &[(1, 1)], &[(2, 1)]], &[1], &[]),
        &["live 1", "chance 1/2", "bounds 1/2 1/2"],
    );
    add(
        "two visits on the way",
        chain(&[&[(1, 1)], &[(1, 1), (2, 1)], &[(2, 1)]], &[2], &[1, 1]),
        &["live 2", "chance 1/1", "reward 3/1"],
    );
    add(
        "a trap of two states",
        chain(&[&[(1, 1), (3, 1)], &[(2, 1)], &[(1, 1)], &[(3, 1)]], &[3], &[]),
        &["live 1", "chance 1/2", "reward infinite"],
    );
    add(
        "a goal with an edge back",
        chain(&[&[(1, 1)], &[(0, 1)]], &[1], &[]),
        &["live 1", "chance 1/1"],
    );
    add("no fit", no_fit(), &["chance refused 12 at 1", "bounds 0/1 1/1610612736"]);
    let rare = [&[(1, 1), (2, M - 1)][..], &[(1, 1)], &[(2, 1)]];
    add("one in M", chain(&rare, &[1], &[]), &["chance 1/2147483647"]);
    add(
        "a denominator above M",
        with(chain(&rare, &[1], &[]), |chain| chain.denominators[0] = M + 1),
        &["refused 5 at 0"],
    );
    add("no goal", chain(&rare, &[], &[]), &["refused 4 at 0"]);
    let loops: Vec<[(u8, u32); 1]> = (0..64).map(|state| [(state, 1)]).collect();
    let rows: Vec<&[(u8, u32)]> = loops.iter().map(|row| &row[..]).collect();
    let all: Vec<usize> = (0..64).collect();
    add("64 goals", chain(&rows, &all, &[]), &["goals 64", "live 0", "chance 1/1", "reward 0/1"]);
    let retry = |rewards| chain(&[&[(0, 1), (1, 1)], &[(1, 1)]], &[1], rewards);
    add("rewards on edges", paid(retry(&[]), &[3, 5]), &["chance 1/1", "reward 8/1"]);
    add("and on a goal's edge", paid(retry(&[]), &[3, 5, 7]), &["chance 1/1", "reward 8/1"]);
    add("and on the state", paid(retry(&[1]), &[3, 5, 7]), &["chance 1/1", "reward 10/1"]);
    add(
        "rewards that the chance does not carry",
        paid(chain(&[&[(1, 40_000), (2, 40_001)], &[(1, 1)], &[(2, 1)]], &[1], &[]), &[65_535]),
        &["chance 40000/80001", "reward infinite", "bounds 40000/80001 40000/80001"],
    );
    cases
}

/// The chains of document 01, and those at the edges of its rules.
pub fn all() -> Vec<Worked> {
    let mut cases = chains();
    cases.extend(sharp::chains());
    cases
}

#[cfg(test)]
mod tests {
    use super::*;
    use crate::{equations, file, fraction::Fraction, live::Reach, report};

    #[test]
    fn every_worked_chain_has_its_answer() {
        for case in all() {
            for &version in case.chain.versions() {
                let report = report::of_file(&file::write(&case.chain, version));
                for line in case.lines {
                    assert!(report.lines().any(|l| l == *line), "{}: {line}\n{report}", case.name);
                }
            }
        }
    }

    #[test]
    fn the_address_report_is_whole() {
        let case = &chains()[0];
        let expected: String = case.lines.iter().map(|line| format!("{line}\n")).collect();
        assert_eq!(report::of_file(&file::write(&case.chain, 2)), expected);
    }

    #[test]
    fn the_equations_know_the_chance_that_has_no_fit() {
        let case = chains().into_iter().find(|case| case.name == "no fit").expect("it is listed");
        let solution = equations::chance(&case.chain, &Reach::of(&case.chain));
        assert!(solution.is(Fraction::new(1, 6_442_450_941)));
        assert!(!solution.is(Fraction::new(1, 6_442_450_940)));
    }
}
