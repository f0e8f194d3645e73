//! Planning copies, request 5 of document 02: what `plancopies` must print for its words.

use crate::chain::Chain;
use crate::figures;
use crate::fraction::Fraction;
use crate::live::Reach;
use crate::random::Random;
use crate::refusal::Refusal;
use crate::report;
use crate::worked;

pub const MOST_COPIES: u64 = 32;
pub const MOST_WEIGHT: u64 = 1_000_000;

/// How many digits a word has at most: those of a number of 64 bits.
const MOST_DIGITS: usize = 20;

/// How many numbers of copies are tried: all that are right, and one beyond each end.
pub const COPIES: u64 = MOST_COPIES + 2;

/// Copies, and the weights loss, rebuild and finish.
#[derive(Clone, Copy, Debug)]
pub struct Plan {
    pub copies: u64,
    pub weights: [u64; 3],
}

impl Plan {
    /// The plan that the words of a command line say.
    pub fn of_words(words: &[String]) -> Plan {
        let number = |place: usize| words.get(place).and_then(|word| number(word)).unwrap_or(0);
        // A word too many counts as a wrong finish.
        let finish = if words.len() > 4 { 0 } else { number(3) };
        Plan { copies: number(0), weights: [number(1), number(2), finish] }
    }

    /// 30 for the copies, then 31 at the least place of a weight.
    pub fn refusal(&self) -> Option<Refusal> {
        if !(1..=MOST_COPIES).contains(&self.copies) {
            return Some(Refusal { number: 30, place: 0 });
        }
        let wrong = |weight: &u64| !(1..=MOST_WEIGHT).contains(weight);
        let place = self.weights.iter().position(wrong)?;
        Some(Refusal { number: 31, place })
    }

    /// State k means k copies left, and the last state is the finished job.
    pub fn chain(&self) -> Chain {
        let [loss, rebuild, finish] = self.weights.map(|weight| weight as u32);
        let copies = self.copies as u8;
        let finished = copies + 1;
        let mut rows = vec![vec![(0, 1)]];
        for k in 1..=copies {
            let mut row = vec![(finished, finish), (k - 1, u32::from(k) * loss)];
            if k < copies {
                row.push((k + 1, rebuild));
            }
            rows.push(row);
        }
        rows.push(vec![(finished, 1)]);
        let rows: Vec<&[(u8, u32)]> = rows.iter().map(Vec::as_slice).collect();
        Chain { start: copies, ..worked::chain(&rows, &[0], &[]) }
    }

    /// The chain, unless the plan is refused.
    pub fn planned(&self) -> Option<Chain> {
        self.refusal().is_none().then(|| self.chain())
    }

    /// The chance that no copy is left before the finish, or 12 at place 0.
    pub fn chance(&self) -> Result<Fraction, Refusal> {
        if let Some(refusal) = self.refusal() {
            return Err(refusal);
        }
        let chain = self.chain();
        let chance = figures::chance(&chain, &Reach::of(&chain));
        chance.map_err(|refusal| Refusal { place: 0, ..refusal })
    }

    /// The line that is printed.
    pub fn line(&self) -> String {
        let said = self.chance().map_or_else(report::refused, |chance| chance.to_string());
        format!("{said}\n")
    }
}

/// The number that a word says in decimal; None where it says none that has room in 64 bits.
pub fn number(word: &str) -> Option<u64> {
    let digits = !word.is_empty() && word.bytes().all(|byte| byte.is_ascii_digit());
    if !digits || word.len() > MOST_DIGITS {
        return None;
    }
    word.parse().ok()
}

/// Numbers at the ends of a weight's range and of 64 bits, and beyond.
const ENDS: [u64; 9] =
    [0, 1, 2, MOST_WEIGHT - 1, MOST_WEIGHT, MOST_WEIGHT + 1, 1 << 32, (1 << 32) + 1, u64::MAX];

/// Words that say no number of 64 bits, and two long ones that do.
pub const ODD: [&str; 12] = [
    "",
    "x",
    "-1",
    "+1",
    "1.0",
    " 1",
    "1 ",
    "0x1",
    "18446744073709551616",
    "000000000000000000001",
    "00000000000000000001",
    "18446744073709551615",
];

/// The words of a plan with so many copies. Few copies and small weights answer; the others mostly
/// outgrow M.
pub fn words(random: &mut Random, copies: u64) -> Vec<String> {
    let most = random.pick(&[2, 3, 10, 100, 1_000, MOST_WEIGHT as usize]);
    let mut words = vec![copies.to_string()];
    for _ in 0..3 {
        words.push(random.between(1, most).to_string());
    }
    if random.once_in(3) {
        words[random.between(1, 3)] = random.pick(&ENDS).to_string();
    }
    if random.once_in(8) {
        words[random.below(4)] = random.pick(&ODD).to_string();
    }
    if random.once_in(16) {
        words.truncate(random.below(4));
    }
    if random.once_in(16) {
        words.push(random.pick(&ODD).to_string());
    }
    words
}

/// Plans that are worked by hand, as one line of words each, with what is printed.
pub const KNOWN: [(&str, &str); 11] = [
    ("1 1 1 3", "1/4"),
    ("1 1 7 3", "1/4"),
    ("1 1 1000000 3", "1/4"),
    ("2 1 1 1", "2/7"),
    ("1 1000000 1 1000000", "1/2"),
    ("0 0 0 0", "refused 30 at 0"),
    ("33 1 1 1", "refused 30 at 0"),
    ("32 0 0 0", "refused 31 at 0"),
    ("1 1 0 1", "refused 31 at 1"),
    ("3 1 20 1000", "3/523245503"),
    ("3 1 20 1 000", "refused 31 at 2"),
];

#[cfg(test)]
mod tests {
    use super::*;

    #[test]
    fn every_known_plan_has_its_line() {
        for (words, line) in KNOWN {
            let words: Vec<String> = words.split(' ').map(str::to_string).collect();
            assert_eq!(Plan::of_words(&words).line(), format!("{line}\n"), "{words:?}");
        }
    }

    #[test]
    fn odd_words_count_as_out_of_range() {
        let numbers: Vec<Option<u64>> = ODD.into_iter().map(number).collect();
        assert!(numbers[..10].iter().all(Option::is_none));
        assert_eq!(numbers[10..], [Some(1), Some(u64::MAX)]);
    }

    #[test]
    fn a_chance_is_that_of_the_chain_written_out() {
        let rows: [&[(u8, u32)]; 4] =
            [&[(0, 1)], &[(0, 5), (2, 7), (3, 2)], &[(1, 10), (3, 2)], &[(3, 1)]];
        let chain = Chain { start: 2, ..worked::chain(&rows, &[0], &[]) };
        let plan = Plan { copies: 2, weights: [5, 7, 2] };
        assert_eq!(plan.chance(), figures::chance(&chain, &Reach::of(&chain)));
    }
}
