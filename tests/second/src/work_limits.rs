//! The units of a run that are about limits and plans.

use crate::compare_limit;
use crate::compare_plans;
use crate::damage::{self, DAMAGES, RECORDS_WRONG};
use crate::file;
use crate::generate::{self, Family, FAMILIES};
use crate::limit::{known, Judged};
use crate::limit_cases;
use crate::limit_chains::LIMIT_FAMILIES;
use crate::limit_known;
use crate::limit_words;
use crate::near_chains::NEAR_FAMILIES;
use crate::plan::{self, Plan, MOST_COPIES, MOST_WEIGHT};
use crate::plan_table::PlanTable;
use crate::random::Random;
use crate::tally::{Case, Tally};

/// How many units each part has.
const CHAINS: u64 = 80 * (FAMILIES.len() + NEAR_FAMILIES.len() + 4 * LIMIT_FAMILIES.len()) as u64;
const DAMAGED: u64 = 100 * DAMAGES.len() as u64;
const WORDS: u64 = 1_200;
const PLANS: u64 = 2_000;
const PLAN_WORDS: u64 = 400;
pub const UNITS: u64 = CHAINS + DAMAGED + WORDS + PLANS + PLAN_WORDS;

/// How many limits each chain and each plan is asked about.
const LIMITS: usize = 6;
/// One chain, one plan in so many runs a program.
const CHAIN_ONCE_IN: usize = 4;
const FEWEST_ONCE_IN: usize = 3;
const TABLE_ONCE_IN: usize = 8;

pub fn unit(tally: &mut Tally, seed: u64, place: u64) {
    let random = &mut Random::new(seed);
    if place < CHAINS {
        one_chain(tally, random, seed, place);
    } else if place < CHAINS + DAMAGED {
        one_damage(tally, random, seed, place);
    } else if place < CHAINS + DAMAGED + WORDS {
        one_word(tally, random, seed);
    } else if place < UNITS - PLAN_WORDS {
        one_plan(tally, random, seed);
    } else {
        one_of_words(tally, random, seed);
    }
}

/// The families of chains; those made for limits come more often.
fn family(place: u64) -> Family {
    let families = FAMILIES.iter().chain(&NEAR_FAMILIES);
    let families: Vec<&Family> =
        families.chain([&LIMIT_FAMILIES; 4].into_iter().flatten()).collect();
    *families[(place % families.len() as u64) as usize]
}

fn one_chain(tally: &mut Tally, random: &mut Random, seed: u64, place: u64) {
    let family = family(place);
    let case = Case { family: family.0, seed };
    let chain = generate::draw(random, family);
    let file = file::write(&chain, random.pick(chain.versions()));
    let judged = Judged::of_file(&file).expect("the chain is well formed");
    let limits = limit_cases::some(random, &judged, LIMITS);
    compare_limit::figures_are_words(tally, case, &file, &judged);
    for &limit in &limits {
        compare_limit::at(tally, case, &file, Ok(&judged), limit);
    }
    if random.once_in(CHAIN_ONCE_IN) {
        let words = compare_limit::words(random, limits[0]);
        compare_limit::program(tally, case, &words, &file, Ok(&judged));
    }
}

/// A file that is mostly refused, with a limit and with none.
fn one_damage(tally: &mut Tally, random: &mut Random, seed: u64, place: u64) {
    let damage = DAMAGES[(place % DAMAGES.len() as u64) as usize];
    let case = Case { family: damage.0, seed };
    let file = damage::request(random, damage).file;
    let judged = Judged::of_file(&file);
    let known = known(&judged);
    let limit = limit_cases::far(random);
    compare_limit::at(tally, case, &file, known, limit);
    compare_limit::entry(tally, case, &file, known, limit_cases::wrong(random));
    if random.once_in(CHAIN_ONCE_IN) || damage.0 == RECORDS_WRONG {
        let words = compare_limit::words(random, limit);
        compare_limit::program(tally, case, &words, &file, known);
    }
}

/// A word that says a limit or not, beside a chance that is known.
fn one_word(tally: &mut Tally, random: &mut Random, seed: u64) {
    let case = Case { family: "words of limits", seed };
    let nights = limit_known::nights();
    let file = file::write(&nights[random.below(nights.len())].chain, 2);
    let judged = Judged::of_file(&file).expect("the chain is well formed");
    let limit = limit_cases::some(random, &judged, 1)[0];
    let word = limit_words::word(random, limit);
    let words = [limit_words::changed(random, &word)];
    compare_limit::program(tally, case, &words, &file, Ok(&judged));
}

/// Weights of a plan: any, small ones, and those at the ends.
fn weights(random: &mut Random) -> [u64; 3] {
    let most = random.pick(&[MOST_WEIGHT as usize, MOST_WEIGHT as usize, 1_000, 30, 4]);
    [(); 3].map(|()| match random.below(10) {
        0 => 1,
        1 => MOST_WEIGHT,
        _ => random.between(1, most) as u64,
    })
}

/// Every number of copies with the same weights, and limits beside the chances of some.
fn one_plan(tally: &mut Tally, random: &mut Random, seed: u64) {
    let case = Case { family: "plans with limits", seed };
    let weights = weights(random);
    let table = PlanTable::of(weights).expect("the weights are right");
    compare_plans::table(tally, case, &table);
    let mut limit = None;
    for _ in 0..LIMITS {
        let most = random.pick(&[MOST_COPIES, MOST_COPIES, 8, 3]);
        let copies = random.between(1, most as usize) as u64;
        let (plan, judged) = (Plan { copies, weights }, table.plan(copies));
        let beside = limit_cases::some(random, judged, 1)[0];
        compare_plans::copies(tally, case, &plan);
        compare_limit::at(tally, case, &file::write(&plan.chain(), 2), Ok(judged), beside);
        limit = Some(beside);
    }
    let mut words = weights.map(|weight| weight.to_string()).to_vec();
    if random.once_in(TABLE_ONCE_IN) {
        compare_plans::table_program(tally, case, &words);
    }
    if let Some(limit) = limit.filter(|_| random.once_in(FEWEST_ONCE_IN)) {
        words.push(limit_words::word(random, limit));
        compare_plans::fewest_program(tally, case, &words);
    }
}

/// Words that are mostly no plan, through both programs, and the plans that they say through C.
fn one_of_words(tally: &mut Tally, random: &mut Random, seed: u64) {
    let case = Case { family: "words of plans", seed };
    let any = random.below(plan::COPIES as usize) as u64;
    let copies = random.pick(&[any, any, any, 1 << 32, (1 << 32) + 1, u64::MAX]);
    let words = plan::words(random, copies);
    let plan = Plan::of_words(&words);
    let judged = match plan.refusal() {
        Some(refusal) => Err(refusal),
        None => Judged::of_file(&file::write(&plan.chain(), 2)),
    };
    compare_plans::copies(tally, case, &plan);
    compare_plans::near(tally, case, &plan, known(&judged));
    let mut words: Vec<String> = words.into_iter().skip(1).collect();
    compare_plans::table_program(tally, case, &words);
    for _ in 0..random.pick(&[0, 1, 1, 1, 1, 1, 1, 2]) {
        let limit = limit_cases::far(random);
        let word = limit_words::word(random, limit);
        words.push(limit_words::changed(random, &word));
    }
    compare_plans::fewest_program(tally, case, &words);
}
