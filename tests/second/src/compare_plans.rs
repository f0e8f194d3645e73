//! Compares what the product says of plans with this implementation's: its planner's entry, near
//! chances through C and through `plantable`, and `fewestcopies`.

use crate::compare;
use crate::compare_near;
use crate::fewest::{self, Fewest};
use crate::fraction::Fraction;
use crate::limit::Known;
use crate::met::Met;
use crate::near_text::Decimal;
use crate::plan::{Plan, MOST_COPIES};
use crate::plan_table::{self, PlanTable};
use crate::product::Neared;
use crate::product_limits::{self, Planned};
use crate::programs;
use crate::refusal::Refusal;
use crate::report;
use crate::tally::{Asked, Case, Tally};

/// Calls the entry of a plan's near chances; compares what it returns with what is known of the plan,
/// and holds what it answers to the chance.
pub fn near(tally: &mut Tally, case: Case, plan: &Plan, known: Known) {
    let told = compare_near::told(known.map(|judged| [judged.near, judged.miss]));
    let came = product_limits::plan_near(plan);
    compare::same(tally, case, &[], (&told, &came), &format!("near chances of {plan:?}"));
    tally.number(Asked::PlanNear, told.number);
    if let (Ok(judged), Ok(came @ Neared { number: 0, .. })) = (known, &came) {
        compare_near::held_to(tally, case, &[], (&judged.truth, judged.rows), came);
    }
}

/// Calls the planner's entry and compares what it returns.
pub fn copies(tally: &mut Tally, case: Case, plan: &Plan) {
    let told = match plan.chance() {
        Ok(Fraction { numerator, denominator }) => {
            let [numerator, denominator] = [numerator, denominator].map(|number| number as u64);
            Planned { numerator, denominator, ..Planned::default() }
        }
        Err(Refusal { number, place }) => {
            Planned { number, place: place as u32, ..Planned::default() }
        }
    };
    let came = product_limits::copies(plan);
    compare::same(tally, case, &[], (&told, &came), &format!("{plan:?}"));
    tally.number(Asked::Copies, told.number);
}

/// Every number of copies of a table through C, and that each has a smaller chance than one fewer.
pub fn table(tally: &mut Tally, case: Case, table: &PlanTable) {
    let weights = table.weights;
    for copies in 1..=MOST_COPIES {
        near(tally, case, &Plan { copies, weights }, Ok(table.plan(copies)));
    }
    for copies in 1..MOST_COPIES {
        let [fewer, more] = [copies, copies + 1].map(|copies| &table.plan(copies).truth);
        let less = more.below(fewer);
        tally.check(case, &[], less, || {
            format!("{weights:?}: the chance of {copies} copies is not above that of one more")
        });
        tally.meet(Met::Less, less);
    }
}

/// Runs `plantable` with these words and compares all that it prints, which it hands back.
pub fn table_program(tally: &mut Tally, case: Case, words: &[String]) -> String {
    let expected = plan_table::text(words);
    tally.number(Asked::TableText, report::number(&expected));
    compare::with_words(tally, case, (programs::PLANTABLE, 3), words, &[], &expected)
}

/// Runs `fewestcopies` with these words; compares all that it prints, which it hands back, and holds
/// what it says to the chances.
pub fn fewest_program(tally: &mut Tally, case: Case, words: &[String]) -> String {
    let asked = fewest::asked(words);
    let expected = fewest::text(&asked);
    tally.number(Asked::FewestText, report::number(&expected));
    let came = compare::with_words(tally, case, (programs::FEWESTCOPIES, 4), words, &[], &expected);
    if let Ok((table, limit)) = asked {
        fewest_held_to(tally, case, &table, limit, &came);
        meet(tally, Fewest::of(&table, limit));
    }
    came
}

/// Holds an answer to the chances, whatever this implementation's own is.
fn fewest_held_to(tally: &mut Tally, case: Case, table: &PlanTable, limit: Decimal, came: &str) {
    let said = Fewest::of_text(came);
    let holds = said.is_some_and(|said| said.holds(table, limit));
    tally.check(case, &[], holds, || {
        format!("{:?}: the chances and {limit:?} do not allow {came:?}", table.weights)
    });
}

/// Counts the kinds of answers.
fn meet(tally: &mut Tally, Fewest { open, least }: Fewest) {
    let none = least > MOST_COPIES;
    tally.meet(Met::FewestSure, !none && open == least);
    tally.meet(Met::FewestOne, least == 1);
    tally.meet(Met::FewestOpen, !none && open < least);
    tally.meet(Met::FewestManyOpen, open + 1 < least);
    tally.meet(Met::FewestNone, none && open == least);
    tally.meet(Met::FewestNoneOpen, none && open < least);
}
