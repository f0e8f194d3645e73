//! All plans with the same weights, from 1 to 32 copies: what `plantable` must print.

use crate::exact::Exact;
use crate::limit::Judged;
use crate::natural::Natural;
use crate::plan::{Plan, MOST_COPIES};
use crate::refusal::Refusal;
use crate::report;

/// The chances of 1 to 32 copies as fractions, from their equations alone.
///
/// Let x be the chance with k copies left. With fewer than all of them, all × x of k = lost +
/// rebuild × before × x of k + 1, where `lost` is k! × loss^k and `before` is `all` of k − 1. With
/// the last copy there is no rebuild, so that what stands over `lost` is less by rebuild × before.
pub fn chances([loss, rebuild, finish]: [u64; 3]) -> Vec<Exact> {
    let mut lost = Natural::new(1);
    let (mut before, mut all) = (Natural::new(0), Natural::new(1));
    let mut chances = Vec::new();
    for k in 1..=MOST_COPIES {
        lost = lost.times(k * loss);
        let back = before.times(k * loss * rebuild);
        let whole = all.times(k * loss + finish).minus(&back);
        chances.push(Exact { reached: lost.clone(), whole: whole.clone() });
        let next = whole.plus(&all.times(rebuild));
        (before, all) = (all, next);
    }
    chances
}

/// What is said of each number of copies, from 1 on.
pub struct PlanTable {
    pub weights: [u64; 3],
    pub plans: Vec<Judged>,
}

impl PlanTable {
    /// The table of these weights, or 31.
    pub fn of(weights: [u64; 3]) -> Result<PlanTable, Refusal> {
        let plan = |copies| Plan { copies, weights };
        if let Some(refusal) = plan(1).refusal() {
            return Err(refusal);
        }
        let judged = |(copies, chance)| Judged::new(&plan(copies).chain(), chance);
        Ok(PlanTable { weights, plans: (1..).zip(chances(weights)).map(judged).collect() })
    }

    /// What is said of so many copies.
    pub fn plan(&self, copies: u64) -> &Judged {
        &self.plans[copies as usize - 1]
    }

    /// The 32 lines.
    fn lines(&self) -> String {
        let line = |(copies, plan): (u64, &Judged)| format!("copies {copies} {}\n", plan.figures());
        (1..).zip(&self.plans).map(line).collect()
    }
}

/// The weights that words say, as those of a plan with copies before them.
pub fn weights(words: &[String]) -> [u64; 3] {
    let copies = ["1".to_string()];
    Plan::of_words(&[&copies, words].concat()).weights
}

/// All that `plantable` prints for these words.
pub fn text(words: &[String]) -> String {
    match PlanTable::of(weights(words)) {
        Ok(table) => table.lines(),
        Err(refusal) => format!("{}\n", report::refused(refusal)),
    }
}

#[cfg(test)]
mod tests {
    use super::*;
    use crate::live::Reach;
    use crate::plan::MOST_WEIGHT;
    use crate::random::Random;

    #[test]
    fn chances_are_those_of_the_chains() {
        let mut random = Random::new(32);
        for turn in 0..24 {
            let most = [1, 3, 100, MOST_WEIGHT as usize][turn % 4];
            let weights = [(); 3].map(|()| random.between(1, most) as u64);
            for (copies, chance) in (1..).zip(chances(weights)) {
                let chain = Plan { copies, weights }.chain();
                let exact = Exact::of(&chain, &Reach::of(&chain));
                assert!(!chance.below(&exact) && !exact.below(&chance), "{copies} {weights:?}");
            }
        }
    }

    #[test]
    fn chances_worked_by_hand() {
        let fraction = |exact: &Exact| (exact.reached.small(), exact.whole.small());
        let chances = chances([1, 1, 3]);
        assert_eq!(fraction(&chances[0]), (Some(1), Some(4)));
        // 5 × x = 1 + y and 5 × y = 2 × x.
        assert_eq!(fraction(&chances[1]), (Some(2), Some(23)));
    }

    #[test]
    fn words_are_weights_as_those_of_a_plan_are() {
        let said = |line: &str| {
            let words: Vec<String> = line.split(' ').map(str::to_string).collect();
            text(&words)
        };
        assert_eq!(text(&[]), "refused 31 at 0\n");
        assert_eq!(said("1"), "refused 31 at 1\n");
        assert_eq!(said("1 20"), "refused 31 at 2\n");
        assert_eq!(said("1 x 0"), "refused 31 at 1\n");
        assert_eq!(said("1 20 1000001"), "refused 31 at 2\n");
        assert_eq!(said("1 20 100 1"), "refused 31 at 2\n");
        assert_eq!(said("0 20 100 1"), "refused 31 at 0\n");
        let table = said("1 20 100");
        assert_eq!(table.lines().count(), 32);
        assert_eq!(table.lines().nth(5), Some("copies 6 2.48121e-10 2.48122e-10"));
        assert_eq!(table.lines().nth(31), Some("copies 32 2.69171e-33 2.69172e-33"));
    }
}
