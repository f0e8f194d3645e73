//! Compares what the product says of limits with this implementation's, through C and through
//! `nightlimit`, and holds each verdict to the chance as a fraction.

use crate::compare;
use crate::limit::{self, Judged, Known, Verdict, NO_LIMIT};
use crate::limit_words;
use crate::met::Met;
use crate::near_text::Decimal;
use crate::product_limits::{self, Limited};
use crate::programs;
use crate::random::Random;
use crate::refusal::Refusal;
use crate::report;
use crate::tally::{Asked, Case, Tally};

/// Calls the entry on a file with digits and tens, and compares what it returns.
pub fn entry(tally: &mut Tally, case: Case, file: &[u8], known: Known, (digits, tens): (u64, u64)) {
    let asked = limit::new(digits, tens).ok_or(NO_LIMIT);
    let judged = asked.and_then(|limit| Ok((known?, limit)));
    let (number, place, verdict) = match judged {
        Ok((judged, limit)) => (0, 0, judged.verdict(limit) as u32),
        Err(Refusal { number, place }) => (number, place as u32, 0),
    };
    let told = Limited { number, place, verdict, file_unchanged: true };
    let came = product_limits::limit(file, digits, tens);
    compare::same(tally, case, file, (&told, &came), &format!("limit {digits}e-{tens}"));
    tally.number(Asked::Limit, number);
    if let (Ok((judged, limit)), Ok(came)) = (judged, &came) {
        held_to(tally, case, file, (judged, limit), came);
        meet(tally, judged, limit);
    }
}

/// The same at a limit.
pub fn at(tally: &mut Tally, case: Case, file: &[u8], known: Known, limit: Decimal) {
    entry(tally, case, file, known, (limit.digits, u64::from(limit.tens)));
}

/// Holds a verdict to the chance, whatever this implementation's own is.
fn held_to(
    tally: &mut Tally,
    case: Case,
    file: &[u8],
    (judged, limit): (&Judged, Decimal),
    came: &Limited,
) {
    let verdicts = [Verdict::Kept, Verdict::Broken, Verdict::Open];
    let said = verdicts.into_iter().find(|&verdict| verdict as u32 == came.verdict);
    let holds = said.is_some_and(|verdict| judged.allows(verdict, limit));
    tally.check(case, file, holds, || {
        format!("the chance and the limit {limit:?} do not allow the verdict {}", came.verdict)
    });
}

/// Counts the kinds of verdicts.
fn meet(tally: &mut Tally, judged: &Judged, limit: Decimal) {
    let exact = judged.fraction.is_some();
    let verdict = judged.verdict(limit);
    let [kept, broken, open] =
        [Verdict::Kept, Verdict::Broken, Verdict::Open].map(|other| verdict == other);
    let between = judged.between(limit);
    tally.meet(Met::KeptByFraction, kept && exact);
    tally.meet(Met::BrokenByFraction, broken && exact);
    tally.meet(Met::KeptByFigures, kept && !exact);
    tally.meet(Met::BrokenByFigures, broken && !exact);
    tally.meet(Met::OpenLimit, open);
    tally.meet(Met::KeptBetween, kept && between);
    tally.meet(Met::BrokenBetween, broken && between);
    let is = |figure: Decimal| figure.at_most(limit) && limit.at_most(figure);
    tally.meet(Met::AtLower, open && is(judged.near.lowest));
    tally.meet(Met::AtUpper, kept && !exact && is(judged.near.highest));
    let chance = judged.truth.beside(limit).is_eq();
    tally.meet(Met::AtChance, chance && exact);
    tally.meet(Met::AtOpenChance, chance && open);
}

/// Runs `nightlimit` with these words and compares all that it prints, which it hands back.
pub fn program(
    tally: &mut Tally,
    case: Case,
    words: &[String],
    file: &[u8],
    known: Known,
) -> String {
    let expected = limit::text(words, known);
    tally.number(Asked::LimitText, report::number(&expected));
    let says = limit::of_words(words).is_some();
    tally.meet(Met::WordOfLimit, words.len() == 1 && says);
    tally.meet(Met::WordOfNone, words.len() == 1 && !says);
    let printed = |judged: &Judged| {
        words == [judged.near.lowest.text()] || words == [judged.near.highest.text()]
    };
    tally.meet(Met::WordOfFigure, says && known.is_ok_and(printed));
    compare::with_words(tally, case, (programs::NIGHTLIMIT, 1), words, file, &expected)
}

/// Runs `nightlimit` with words that say no limit, while no file comes.
pub fn unread(tally: &mut Tally, case: Case, words: &[String]) {
    let expected = format!("{}\n", report::refused(NO_LIMIT));
    let came = programs::unread(programs::NIGHTLIMIT, words);
    compare::said(tally, case, (programs::NIGHTLIMIT, 1), words, &[], &expected, &came);
    tally.meet(Met::Unread, true);
}

/// The words of a limit: one, and at times another behind it, or none.
pub fn words(random: &mut Random, limit: Decimal) -> Vec<String> {
    let mut words = vec![limit_words::word(random, limit)];
    match random.below(24) {
        0 => words.clear(),
        1 => words.push(random.pick(&["", "1", "x"]).to_string()),
        _ => {}
    }
    words
}

/// Whether every figure but none is a limit's word, and says what it is.
pub fn figures_are_words(tally: &mut Tally, case: Case, file: &[u8], judged: &Judged) {
    for share in [&judged.near, &judged.miss] {
        for figure in [share.lowest, share.highest] {
            let said = limit::of_word(&figure.text());
            let expected = (figure != Decimal::ZERO).then_some(figure);
            tally.check(case, file, said == expected, || {
                format!("the figure {} is read as {said:?}", figure.text())
            });
        }
    }
}
