//! The fewest copies that keep a limit: what `fewestcopies` must print.

use crate::limit::{self, Verdict};
use crate::near_text::Decimal;
use crate::plan::MOST_COPIES;
use crate::plan_table::{weights, PlanTable};
use crate::refusal::Refusal;
use crate::report;

/// The answer: `least` copies are kept, one more than the most where none is; from `open` copies on
/// and below that it cannot be said. The two are equal where all is said.
#[derive(Clone, Copy, Debug, PartialEq, Eq)]
pub struct Fewest {
    pub open: u64,
    pub least: u64,
}

impl Fewest {
    /// Looks at every number of copies in turn.
    pub fn of(table: &PlanTable, limit: Decimal) -> Fewest {
        let mut open = 1;
        for copies in 1..=MOST_COPIES {
            match table.plan(copies).verdict(limit) {
                Verdict::Kept => return Fewest { open, least: copies },
                Verdict::Broken => open = copies + 1,
                Verdict::Open => {}
            }
        }
        Fewest { open, least: MOST_COPIES + 1 }
    }

    /// Whether it is true of the chances: nothing here knows how it was found.
    pub fn holds(self, table: &PlanTable, limit: Decimal) -> bool {
        let Fewest { open, least } = self;
        let in_turn = 1 <= open && open <= least && least <= MOST_COPIES + 1;
        in_turn
            && (1..=MOST_COPIES).all(|copies| {
                let kept = table.plan(copies).truth.at_most(limit);
                (copies < least || kept) && (copies >= open || !kept)
            })
    }

    /// The answer with the figures that belong to it.
    pub fn text(self, table: &PlanTable) -> String {
        let Fewest { open, least } = self;
        let (word, copies) =
            if least > MOST_COPIES { ("none", MOST_COPIES) } else { ("copies", least) };
        let first = format!("{word} {copies} {}\n", table.plan(copies).figures());
        if open < least {
            format!("{first}open {open}\n")
        } else {
            first
        }
    }

    /// The answer that a text says, whatever its figures are.
    pub fn of_text(text: &str) -> Option<Fewest> {
        let mut lines = text.lines().map(|line| line.split(' ').collect::<Vec<_>>());
        let least = match lines.next()?[..] {
            ["copies", copies, _, _] => copies.parse().ok()?,
            ["none", "32", _, _] => MOST_COPIES + 1,
            _ => return None,
        };
        match lines.next().as_deref() {
            None => Some(Fewest { open: least, least }),
            Some(["open", open]) => Some(Fewest { open: open.parse().ok()?, least }),
            Some(_) => None,
        }
    }
}

/// What the words of a command line ask: 31 for the weights, then 35 where what follows them is not
/// one word that says a limit.
pub fn asked(words: &[String]) -> Result<(PlanTable, Decimal), Refusal> {
    let (first, behind) = words.split_at(words.len().min(3));
    let table = PlanTable::of(weights(first))?;
    Ok((table, limit::of_words(behind).ok_or(limit::NO_LIMIT)?))
}

/// All that `fewestcopies` prints where this is asked.
pub fn text(asked: &Result<(PlanTable, Decimal), Refusal>) -> String {
    match asked {
        Ok((table, limit)) => Fewest::of(table, *limit).text(table),
        Err(refusal) => format!("{}\n", report::refused(*refusal)),
    }
}

#[cfg(test)]
mod tests {
    use super::*;
    use crate::limit_known::words;
    use crate::random::Random;
    use crate::{limit_cases, plan::MOST_WEIGHT};

    /// Tables of any weights and of weights that hardly keep copies, with limits beside a chance.
    fn each(mut test: impl FnMut(&PlanTable, Decimal)) {
        let mut random = Random::new(32);
        for turn in 0..60 {
            let most = [4, 100, MOST_WEIGHT as usize][turn % 3];
            let mut weights = [(); 3].map(|()| random.between(1, most) as u64);
            if turn % 4 == 0 {
                weights = [MOST_WEIGHT, weights[1] % 9 + 1, 1];
            }
            let table = PlanTable::of(weights).expect("the weights are right");
            let copies = random.between(1, MOST_COPIES as usize) as u64;
            for limit in limit_cases::beside(table.plan(copies)) {
                test(&table, limit);
            }
        }
    }

    #[test]
    fn an_answer_is_true_and_no_sharper_one_is_said() {
        each(|table, limit| {
            let fewest @ Fewest { open, least } = Fewest::of(table, limit);
            assert!(fewest.holds(table, limit));
            assert_eq!(Fewest::of_text(&fewest.text(table)), Some(fewest));
            let said = |copies| table.plan(copies).verdict(limit);
            assert!((open..least).all(|copies| said(copies) == Verdict::Open));
            assert!((1..open).all(|copies| said(copies) != Verdict::Kept));
        });
    }

    #[test]
    fn one_copy_too_few_or_too_many_is_not_true() {
        each(|table, limit| {
            let kept = |&copies: &u64| table.plan(copies).truth.at_most(limit);
            let first = (1..=MOST_COPIES).find(kept).unwrap_or(MOST_COPIES + 1);
            let holds = |open, least| Fewest { open, least }.holds(table, limit);
            assert!(holds(first, first) && holds(1, MOST_COPIES + 1));
            assert!(!holds(first - 1, first - 1) && !holds(first + 1, first + 1));
        });
    }

    #[test]
    fn weights_are_refused_before_the_limit() {
        let refused = |line: &str| asked(&words(line)).err().map(|refusal| refusal.number);
        assert_eq!(refused("1 20 100 1e-9"), None);
        assert_eq!(refused("1 20 0 x"), Some(31));
        assert_eq!(refused("1 20 1e-9"), Some(31));
        assert_eq!(refused("1 20 100 1 1"), Some(35));
        assert_eq!(asked(&[]).err(), Some(Refusal { number: 31, place: 0 }));
    }
}
