//! Limits: which numbers and words say one, and what is said of a chance beside it.

use crate::chain::Chain;
use crate::exact::Exact;
use crate::figures;
use crate::fraction::Fraction;
use crate::live::Reach;
use crate::near::{self, Nearly};
use crate::near_text::{Decimal, Share};
use crate::refusal::Refusal;
use crate::report;

/// A word that says a limit has at most so many bytes, and so many digits behind its `e-`.
pub const MOST_BYTES: usize = 40;
const MOST_EXPONENT: usize = 3;
/// The most that the digits of a limit say, and the most tens that they are over.
pub const MOST_DIGITS: u64 = 9_999_999;
pub const MOST_TENS: u64 = 700;

/// What is said where there is no limit, before anything else is looked at.
pub const NO_LIMIT: Refusal = Refusal { number: 35, place: 0 };

/// The limit `digits` × 10^-`tens`, where these numbers say one: it is above 0 and at most 1.
pub fn new(digits: u64, tens: u64) -> Option<Decimal> {
    if !(1..=MOST_DIGITS).contains(&digits) || tens > MOST_TENS {
        return None;
    }
    let limit = Decimal { digits, tens: tens as u32 };
    limit.at_most(Decimal::ONE).then_some(limit)
}

/// The limit that a word says.
pub fn of_word(word: &str) -> Option<Decimal> {
    let (number, exponent) = parted(word, "e-");
    let (whole, part) = parted(number, ".");
    let said = |text: &str| !text.is_empty() && text.bytes().all(|byte| byte.is_ascii_digit());
    let right = word.len() <= MOST_BYTES
        && said(whole)
        && part.is_none_or(said)
        && exponent.is_none_or(|exponent| said(exponent) && exponent.len() <= MOST_EXPONENT);
    if !right {
        return None;
    }
    let part = part.unwrap_or("");
    // What has no room in 128 bits is above the most all the more.
    let digits = format!("{whole}{part}").parse::<u128>().ok()?.try_into().ok()?;
    let more: u64 = exponent.map_or(0, |exponent| exponent.parse().expect("three digits"));
    new(digits, part.len() as u64 + more)
}

/// A word before the first such mark, and behind it where there is one.
fn parted<'a>(word: &'a str, mark: &str) -> (&'a str, Option<&'a str>) {
    match word.split_once(mark) {
        Some((before, behind)) => (before, Some(behind)),
        None => (word, None),
    }
}

/// The limit that the words of a command line say: one word.
pub fn of_words(words: &[String]) -> Option<Decimal> {
    match words {
        [word] => of_word(word),
        _ => None,
    }
}

#[derive(Clone, Copy, Debug, PartialEq, Eq)]
pub enum Verdict {
    Kept = 1,
    Broken = 2,
    Open = 3,
}

/// What a verdict goes by, and the chance that it speaks of.
pub struct Judged {
    /// The chance where the exact entry answers.
    pub fraction: Option<Fraction>,
    /// The near chances, of which the first has the figures that are printed.
    pub near: Share,
    pub miss: Share,
    /// How many rows were made anew for them.
    pub rows: usize,
    /// The chance whatever the order, from the equations alone.
    pub truth: Exact,
}

impl Judged {
    /// What is said of a chain that gives no refusal, whose chance this is.
    pub fn new(chain: &Chain, truth: Exact) -> Judged {
        let Nearly { near, miss, rows } = near::of_chain(chain);
        let [near, miss] = [&near, &miss].map(Share::of);
        let fraction = figures::chance(chain, &Reach::of(chain)).ok();
        Judged { fraction, near, miss, rows, truth }
    }

    /// What is said of a chain file.
    pub fn of_file(file: &[u8]) -> Result<Judged, Refusal> {
        let chain = near::read(file, None)?;
        let truth = Exact::of(&chain, &Reach::of(&chain));
        Ok(Judged::new(&chain, truth))
    }

    /// The fraction decides where there is one, and else the figures as they are printed.
    pub fn verdict(&self, limit: Decimal) -> Verdict {
        match self.fraction {
            Some(fraction) if Exact::known(fraction).at_most(limit) => Verdict::Kept,
            Some(_) => Verdict::Broken,
            None if self.near.highest.at_most(limit) => Verdict::Kept,
            None if !self.near.lowest.at_most(limit) => Verdict::Broken,
            None => Verdict::Open,
        }
    }

    /// Whether the limit lies between the figures.
    pub fn between(&self, limit: Decimal) -> bool {
        self.near.lowest.at_most(limit) && !self.near.highest.at_most(limit)
    }

    /// Whether a verdict is true of the chance: nothing here knows how it was found.
    pub fn allows(&self, verdict: Verdict, limit: Decimal) -> bool {
        match verdict {
            Verdict::Kept => self.truth.at_most(limit),
            Verdict::Broken => !self.truth.at_most(limit),
            Verdict::Open => self.fraction.is_none() && self.between(limit),
        }
    }

    /// The two figures as they are printed.
    pub fn figures(&self) -> String {
        format!("{} {}", self.near.lowest.text(), self.near.highest.text())
    }

    /// The line of a verdict.
    fn line(&self, limit: Decimal) -> String {
        let verdict = match self.verdict(limit) {
            Verdict::Kept => "kept",
            Verdict::Broken => "broken",
            Verdict::Open => "open",
        };
        format!("{verdict} {}", self.figures())
    }
}

/// What is known of a file that is asked about.
pub type Known<'a> = Result<&'a Judged, Refusal>;

pub fn known(judged: &Result<Judged, Refusal>) -> Known<'_> {
    judged.as_ref().map_err(|&refusal| refusal)
}

/// All that `nightlimit` prints for these words and a file of which this is known.
pub fn text(words: &[String], known: Known) -> String {
    let asked = of_words(words).ok_or(NO_LIMIT);
    let line = asked.and_then(|limit| known.map(|judged| judged.line(limit)));
    format!("{}\n", line.unwrap_or_else(report::refused))
}
