//! Compares what `salvage` prints with what this implementation says, and holds the two fractions to
//! what is known of them from elsewhere.

use crate::block::RECORDS;
use crate::chain::{Chain, Edge};
use crate::compare;
use crate::entry::Pair;
use crate::equations;
use crate::figures;
use crate::fraction::Fraction;
use crate::live::Reach;
use crate::met::Met;
use crate::programs;
use crate::refusal::Refusal;
use crate::report;
use crate::salvage::{self, Left};
use crate::steps::{steps, Figure};
use crate::tally::{Asked, Case, Tally};
use std::collections::HashSet;

/// Runs `salvage` and compares all that it prints.
pub fn program(tally: &mut Tally, case: Case, file: &[u8]) {
    text(tally, case, file, &salvage::text(file));
}

/// Runs `salvage` and compares all that it prints with a text that is known from elsewhere; what it
/// says is then held to the equations and, where nothing is lost, to the report.
pub fn text(tally: &mut Tally, case: Case, file: &[u8], expected: &str) {
    compare::printed(tally, case, programs::SALVAGE, file, expected);
    let saved = salvage::of_file(file);
    tally.number(Asked::SalvageText, saved.as_ref().map_or_else(|refusal| refusal.number, |_| 0));
    match &saved {
        Ok((left, bounds)) => {
            meet(tally, left, *bounds);
            held_to(tally, case, file, left, *bounds);
        }
        Err(refusal) => meet_refusal(tally, file, *refusal),
    }
    if Left::of(file).map_or(true, |left| left.lost.is_empty()) {
        let report = report::of_file(file);
        let last = report.lines().last().expect("a report has a line");
        tally.check(case, file, expected.lines().eq([last]), || {
            format!("nothing is lost, and salvage says {expected:?} where the report says {last:?}")
        });
    }
}

/// Counts the kinds of file that are saved.
fn meet(tally: &mut Tally, left: &Left, (lower, upper): Pair) {
    let Left { chain, lost, indices } = left;
    let missing = chain.missing();
    let reach = Reach::of(chain);
    let any_short = |kind: &dyn Fn(usize) -> bool| {
        (0..chain.states()).any(|state| missing[state] > 0 && kind(state))
    };
    for (number, kind) in (21..).zip([Met::LostBy21, Met::LostBy22, Met::LostBy23, Met::LostBy24]) {
        tally.meet(kind, lost.iter().any(|refusal| refusal.number == number));
    }
    let some = !lost.is_empty();
    tally.meet(Met::LostNothing, !some);
    tally.meet(Met::LostSeveral, lost.len() > 1 && !indices.is_empty());
    tally.meet(Met::LostAll, lost.len() > 1 && indices.is_empty());
    tally.meet(Met::ShortOfNothing, some && !any_short(&|_| true));
    tally.meet(Met::ShortWhole, any_short(&|i| missing[i] == u64::from(chain.denominators[i])));
    tally.meet(Met::ShortGoal, any_short(&|state| chain.goals[state]));
    tally.meet(Met::ShortUnreached, any_short(&|state| !reach.reached[state]));
    tally.meet(Met::NoPathLeft, upper == Fraction::ZERO && any_short(&|_| true));
    let apart = lower != Fraction::ZERO && lower != upper && upper != Fraction::ONE;
    tally.meet(Met::Narrower, some && apart);
}

/// Counts an edge that is refused and stands behind a lost block, and a row that exceeds its
/// denominator though a block is lost.
fn meet_refusal(tally: &mut Tally, file: &[u8], refusal: Refusal) {
    let Ok(left) = Left::of(file) else { return };
    let block = refusal.place / RECORDS;
    let kept_before = left.indices.iter().filter(|&&index| index / RECORDS < block).count();
    let of_edge = (6..=8).contains(&refusal.number);
    tally.meet(Met::IndexMoved, of_edge && kept_before < block * RECORDS);
    tally.meet(Met::Exceeds, refusal.number == 9 && !left.lost.is_empty());
}

/// The bounds of what is left enclose the chances where nothing and where all of what is missing leads
/// to a goal, and are these where no row was rounded.
fn held_to(tally: &mut Tally, case: Case, file: &[u8], left: &Left, (lower, upper): Pair) {
    let Left { chain, lost, .. } = left;
    let reach = Reach::of(chain);
    if lost.is_empty() || !reach.live[chain.start()] {
        return;
    }
    let least = equations::chance(chain, &reach);
    let most = equations::chance_at_most(chain, &reach);
    let rounded = steps(chain, &reach, Figure::Chance).end.is_err();
    let holds = if rounded {
        least.fraction().is_none_or(|least| lower.at_most(least))
            && most.fraction().is_none_or(|most| most.at_most(upper))
    } else {
        least.is(lower) && most.is(upper)
    };
    tally.check(case, file, holds, || {
        format!("the equations of what is left do not give the bounds {lower} and {upper}")
    });
    tally.meet(Met::Rounded, rounded);
    tally.meet(Met::Told, !rounded);
}

/// The chance of the well-formed chain whose file was damaged lies between the two fractions, unless
/// the damage went into what is kept. One that has no fit is known by its bounds.
pub fn completed(tally: &mut Tally, case: Case, file: &[u8], whole: &Chain) {
    let Ok((left, (lower, upper))) = salvage::of_file(file) else { return };
    if !completes(&left.chain, whole) {
        return;
    }
    let reach = Reach::of(whole);
    let (least, most) = match figures::true_chance(whole, &reach) {
        Some(chance) => (chance, chance),
        None => figures::bounds(whole, &reach),
    };
    tally.check(case, file, lower.at_most(most) && least.at_most(upper), || {
        format!("{lower} and {upper} do not hold the chance from {least} to {most} of the chain")
    });
    tally.meet(Met::Completed, !left.lost.is_empty());
}

/// Whether lost records can complete what is left to this chain.
fn completes(left: &Chain, whole: &Chain) -> bool {
    let triple = |edge: &Edge| (edge.from, edge.to, edge.weight);
    let all: HashSet<_> = whole.edges.iter().map(triple).collect();
    left.start == whole.start
        && left.denominators == whole.denominators
        && left.goals == whole.goals
        && left.edges.iter().all(|edge| all.contains(&triple(edge)))
}
