//! Within so many retries, request 13 of document 02: what the C entry must answer, and what
//! `nightwithin` must print.

use crate::chain::{Chain, Edge};
use crate::file;
use crate::fraction::gcd;
use crate::natural::Natural;
use crate::plan;
use crate::refusal::{of_tables, Refusal};
use crate::report;

/// The most steps, and what the answer is a number of.
pub const MOST_STEPS: u64 = 1_000;
pub const PARTS: u64 = 1_073_741_824;

/// The edges that leave each state.
fn rows(chain: &Chain) -> Vec<Vec<&Edge>> {
    let mut rows = vec![Vec::new(); chain.states()];
    for edge in &chain.edges {
        rows[usize::from(edge.from)].push(edge);
    }
    rows
}

/// What the start holds after so many rounds.
pub fn held(chain: &Chain, steps: u64) -> u64 {
    let rows = rows(chain);
    let mut values: Vec<u64> =
        chain.goals.iter().map(|&goal| if goal { PARTS } else { 0 }).collect();
    for _ in 0..steps {
        let before = values.clone();
        for (state, row) in rows.iter().enumerate().filter(|&(state, _)| !chain.goals[state]) {
            let brings =
                |edge: &&Edge| u128::from(edge.weight) * u128::from(before[usize::from(edge.to)]);
            let sum: u128 = row.iter().map(brings).sum();
            values[state] = (sum / u128::from(chain.denominators[state])) as u64;
        }
    }
    values[chain.start()]
}

/// The true chance within so many steps: a numerator, and the denominator, which is a power of what
/// all denominators divide. None where that has no room in 64 bits.
pub fn truly(chain: &Chain, steps: u64) -> Option<(Natural, Natural)> {
    let mut common = 1u128;
    for &denominator in &chain.denominators {
        let denominator = u128::from(denominator);
        common = common / gcd(common, denominator) * denominator;
        if common > u128::from(u64::MAX) {
            return None;
        }
    }
    let common = common as u64;
    let rows = rows(chain);
    let mut power = Natural::new(1);
    let mut values: Vec<Natural> =
        chain.goals.iter().map(|&goal| Natural::new(u64::from(goal))).collect();
    for _ in 0..steps {
        power = power.times(common);
        let next = |state: usize| {
            if chain.goals[state] {
                return power.clone();
            }
            let share = common / u64::from(chain.denominators[state]);
            let brings = |edge: &&Edge| values[usize::from(edge.to)].times(u64::from(edge.weight));
            let sum = rows[state].iter().map(brings);
            sum.fold(Natural::new(0), |sum, brought| sum.plus(&brought)).times(share)
        };
        values = (0..chain.states()).map(next).collect();
    }
    Some((values[chain.start()].clone(), power))
}

/// Whether so many parts are at most the true chance within so many steps, and short of it by at
/// most a part for each step.
pub fn near(parts: u64, steps: u64, truth: &(Natural, Natural)) -> bool {
    let (numerator, denominator) = truth;
    let all = numerator.times(PARTS);
    denominator.times(parts) <= all && all <= denominator.times(parts + steps)
}

/// The parts of a chain file, or the refusal: 32 for the steps, then the file's, then 3 to 9.
pub fn of_file(file: &[u8], steps: u64) -> Result<u64, Refusal> {
    if steps > MOST_STEPS {
        return Err(Refusal { number: 32, place: 0 });
    }
    let chain = file::read(file)?;
    match of_tables(&chain).filter(|refusal| refusal.number < 10) {
        Some(refusal) => Err(refusal),
        None => Ok(held(&chain, steps)),
    }
}

/// What the words of a command line say of the steps: None counts as too many, and so does any other
/// number of words than one.
pub fn steps(words: &[String]) -> Option<u64> {
    match words {
        [word] => plan::number(word),
        _ => None,
    }
}

/// The line that `nightwithin` prints for these words and this file.
pub fn line(words: &[String], file: &[u8]) -> String {
    let steps = steps(words).unwrap_or(u64::MAX);
    let said = of_file(file, steps)
        .map_or_else(report::refused, |parts| format!("within {steps} {parts} of {PARTS}"));
    format!("{said}\n")
}

#[cfg(test)]
mod tests {
    use super::*;
    use crate::chain::M;
    use crate::worked::{address, chain, no_fit};

    #[test]
    fn the_address_chain_has_its_line() {
        let file = file::write(&address(&[5], &[]), 2);
        let printed = |word: &str| line(&[word.to_string()], &file);
        assert_eq!(printed("3"), "within 3 1033476505 of 1073741824\n");
        assert_eq!(printed("0"), "within 0 0 of 1073741824\n");
        assert_eq!(printed("1001"), "refused 32 at 0\n");
        assert_eq!(line(&[], &[]), "refused 32 at 0\n");
        assert_eq!(line(&["3".to_string(), "4".to_string()], &file), "refused 32 at 0\n");
        assert_eq!(line(&["0".to_string()], &[]), "refused 20 at 0\n");
    }

    #[test]
    fn the_whole_sum_is_rounded_down_once() {
        // Half of an odd number, twice: each half alone would be rounded down.
        let rows: [&[(u8, u32)]; 5] =
            [&[(1, 1), (2, 1)], &[(3, 1), (4, 2)], &[(3, 1), (4, 2)], &[(3, 1)], &[(4, 1)]];
        assert_eq!(held(&chain(&rows, &[3], &[]), 2), PARTS / 3);
        // One in M is less than a part.
        let rows: [&[(u8, u32)]; 2] = [&[(0, M - 1), (1, 1)], &[(1, 1)]];
        assert_eq!(held(&chain(&rows, &[1], &[]), 1_000), 0);
    }

    #[test]
    fn the_true_chance_is_near_the_parts() {
        let truth = truly(&address(&[5], &[]), 3).expect("its denominators are small");
        assert!(near(1_033_476_505, 3, &truth));
        assert!(!near(1_033_476_501, 3, &truth) && !near(1_033_476_506, 3, &truth));
        assert!(truly(&no_fit(), 2).is_some());
    }

    #[test]
    fn a_goal_start_holds_everything() {
        let rows: [&[(u8, u32)]; 2] = [&[(1, 1)], &[(1, 1)]];
        for steps in [0, 1, 1_000] {
            assert_eq!(held(&chain(&rows, &[0], &[]), steps), PARTS);
        }
    }
}
