//! Checking a colleague's solver, request 14 of document 02: what the C entry must say of a table,
//! and what `checkshares` must print.

use crate::chain::{Chain, M, MOST_STATES};
use crate::figures;
use crate::file;
use crate::fraction::{gcd, Fraction};
use crate::live::Reach;
use crate::refusal::{of_tables, Refusal};
use crate::report;

/// The bytes of the longest table.
pub const LONGEST: usize = 4 * (MOST_STATES + 1);

/// What is said of a table that is not refused: yes, or the least state that is broken.
#[derive(Clone, Copy, Debug, PartialEq, Eq)]
pub enum Said {
    Yes,
    No(usize),
}

/// A table: one denominator, and a numerator for each state.
#[derive(Clone, Debug)]
pub struct Table {
    pub denominator: u32,
    pub numerators: Vec<u32>,
}

impl Table {
    /// The table that is the chance at every state, where one denominator up to M serves all of them.
    pub fn right(chain: &Chain) -> Option<Table> {
        let shares: Option<Vec<Fraction>> =
            (0..chain.states()).map(|state| share(chain, state)).collect();
        let shares = shares?;
        let mut common = 1;
        for share in &shares {
            common = common / gcd(common, share.denominator) * share.denominator;
            if common > u128::from(M) {
                return None;
            }
        }
        let numerator = |share: &Fraction| share.numerator * (common / share.denominator);
        let numerators = shares.iter().map(|share| numerator(share) as u32).collect();
        Some(Table { denominator: common as u32, numerators })
    }

    /// The denominator first, each number in four bytes, the least first.
    pub fn bytes(&self) -> Vec<u8> {
        let numbers = [self.denominator].into_iter().chain(self.numerators.iter().copied());
        numbers.flat_map(u32::to_le_bytes).collect()
    }

    /// The same fractions with all numbers so many times as large.
    pub fn times(&self, factor: u32) -> Table {
        let numerators = self.numerators.iter().map(|&x| x * factor).collect();
        Table { denominator: self.denominator * factor, numerators }
    }
}

/// The chance at a state, whether the chain's own start reaches it or not.
fn share(chain: &Chain, state: usize) -> Option<Fraction> {
    let from = Chain { start: state as u8, ..chain.clone() };
    figures::true_chance(&from, &Reach::of(&from))
}

/// Whether a state's goal value, zero or equation is broken.
fn broken(chain: &Chain, reach: &Reach, whole: u64, table: &[u64], state: usize) -> bool {
    if chain.goals[state] {
        return table[state] != whole;
    }
    if !reach.to_goal[state] {
        return table[state] != 0;
    }
    let leaving = chain.edges.iter().filter(|edge| usize::from(edge.from) == state);
    let brought =
        leaving.map(|edge| u128::from(edge.weight) * u128::from(table[usize::from(edge.to)]));
    u128::from(chain.denominators[state]) * u128::from(table[state]) != brought.sum()
}

/// What is said of a chain file and a table in bytes. The file's refusals come first, then 2 for the
/// table's length, then 3 to 9, 33 and 34.
pub fn of_file(file: &[u8], shares: &[u8]) -> Result<Said, Refusal> {
    let chain = file::read(file)?;
    if shares.len() != 4 * (chain.states() + 1) {
        return Err(Refusal { number: 2, place: 0 });
    }
    if let Some(refusal) = of_tables(&chain).filter(|refusal| refusal.number < 10) {
        return Err(refusal);
    }
    let number = |i: usize| u32::from_le_bytes(shares[4 * i..4 * i + 4].try_into().expect("four"));
    let whole = u64::from(number(0));
    if whole == 0 || whole > u64::from(M) {
        return Err(Refusal { number: 33, place: 0 });
    }
    let table: Vec<u64> = (1..=chain.states()).map(|i| u64::from(number(i))).collect();
    if let Some(place) = table.iter().position(|&x| x > whole) {
        return Err(Refusal { number: 34, place });
    }
    let reach = Reach::of(&chain);
    let first = (0..chain.states()).find(|&state| broken(&chain, &reach, whole, &table, state));
    Ok(first.map_or(Said::Yes, Said::No))
}

/// The line that `checkshares` prints for this file and this table; a missing one is empty.
pub fn line(file: &[u8], shares: &[u8]) -> String {
    let said = match of_file(file, shares) {
        Ok(Said::Yes) => "yes".to_string(),
        Ok(Said::No(state)) => format!("no at {state}"),
        Err(refusal) => report::refused(refusal),
    };
    format!("{said}\n")
}

#[cfg(test)]
mod tests {
    use super::*;
    use crate::worked::{address, chain};

    fn printed(chain: &Chain, denominator: u32, numerators: &[u32]) -> String {
        let table = Table { denominator, numerators: numerators.to_vec() };
        line(&file::write(chain, 2), &table.bytes())
    }

    #[test]
    fn the_address_chain_has_its_table() {
        let chain = address(&[5], &[]);
        let shares = [4375, 4368, 4340, 4200, 3500, 4376, 0];
        let right = Table::right(&chain).expect("its numbers are small");
        assert_eq!((right.denominator, right.numerators.as_slice()), (4376, shares.as_slice()));
        assert_eq!(printed(&chain, 4376, &shares), "yes\n");
        assert_eq!(printed(&chain, 8752, &shares.map(|x| 2 * x)), "yes\n");
        assert_eq!(printed(&chain, 4376, &[4375, 4368, 4340, 4201, 3500, 4376, 0]), "no at 2\n");
        assert_eq!(printed(&chain, 4376, &[4375, 4368, 4340, 4200, 3500, 4375, 0]), "no at 0\n");
        assert_eq!(printed(&chain, 0, &shares), "refused 33 at 0\n");
        assert_eq!(printed(&chain, 4370, &shares), "refused 34 at 0\n");
        assert_eq!(printed(&chain, 4376, &shares[1..]), "refused 2 at 0\n");
        assert_eq!(line(&file::write(&chain, 2), &[]), "refused 2 at 0\n");
        assert_eq!(line(&[], &[]), "refused 20 at 0\n");
    }

    #[test]
    fn every_equation_alone_is_met_by_a_wrong_table() {
        // 0 to the goal 1 and to the trap 2: with 2 over 2 everywhere each equation holds.
        let rows: [&[(u8, u32)]; 3] = [&[(1, 1), (2, 1)], &[(1, 1)], &[(2, 1)]];
        let trap = chain(&rows, &[1], &[]);
        assert_eq!(printed(&trap, 2, &[2, 2, 2]), "no at 2\n");
        assert_eq!(printed(&trap, 2, &[1, 2, 0]), "yes\n");
    }

    #[test]
    fn states_that_the_start_cannot_reach_count() {
        // 1 is not reached, and leads to the goal 2 and to the trap 3.
        let rows: [&[(u8, u32)]; 4] = [&[(2, 1)], &[(2, 1), (3, 2)], &[(2, 1)], &[(3, 1)]];
        let apart = chain(&rows, &[2], &[]);
        assert_eq!(printed(&apart, 3, &[3, 1, 3, 0]), "yes\n");
        assert_eq!(printed(&apart, 3, &[3, 0, 3, 0]), "no at 1\n");
        assert_eq!(printed(&apart, 3, &[3, 2, 3, 0]), "no at 1\n");
    }

    #[test]
    fn a_goals_own_row_is_not_looked_at() {
        let rows: [&[(u8, u32)]; 3] = [&[(1, 1)], &[(2, 1)], &[(2, 1)]];
        assert_eq!(printed(&chain(&rows, &[1], &[]), 7, &[7, 7, 0]), "yes\n");
    }
}
