//! The whole work of a run, cut into units that any thread can take.

use crate::block;
use crate::chain::MOST_STATES;
use crate::compare;
use crate::compare_check;
use crate::compare_choice;
use crate::compare_file;
use crate::compare_near;
use crate::compare_salvage;
use crate::compare_steps;
use crate::compare_within;
use crate::damage::{self, DAMAGES, RECORDS_WRONG};
use crate::damage_edges::{self, LOSSES};
use crate::damage_lent::{self, LENT_DAMAGES};
use crate::file;
use crate::generate::{self, FAMILIES};
use crate::known;
use crate::live::Reach;
use crate::near_chains::NEAR_FAMILIES;
use crate::plan::{self, Plan};
use crate::random::Random;
use crate::tables::Tables;
use crate::tally::{Asked, Case, Tally};
use crate::text_work;
use crate::work_limits;
use std::collections::HashSet;
use std::sync::atomic::{AtomicU64, Ordering};
use std::thread;

/// The seed of the run; each unit has its own seed, made from this one and its place.
const SEED: u64 = 0x6e69_6768_7463_6861;

/// How many units each part has.
const CHAINS: u64 = 2_100 * FAMILIES.len() as u64;
const ORDERED: u64 = 400;
const DAMAGED: u64 = 2_000 * DAMAGES.len() as u64;
const LENT: u64 = 500 * LENT_DAMAGES.len() as u64;
const GROWN: u64 = 600;
const LOST: u64 = 450 * LOSSES.len() as u64;
const NEAR: u64 = 300 * NEAR_FAMILIES.len() as u64;
const PLANS: u64 = 120 * plan::COPIES;
/// Behind these come those of limits, then those of texts.
const UNITS: u64 = CHAINS + ORDERED + DAMAGED + LENT + GROWN + LOST + NEAR + PLANS;
const LIMITED: u64 = UNITS + work_limits::UNITS;
const END: u64 = LIMITED + text_work::UNITS;

/// How many orders each chain of the ordered part is given.
const ORDERS: usize = 8;
/// One unit in so many runs the program too, and each whose family asks for it. It shares no factor
/// with the numbers of families, so that chains of every family reach the program.
const REPORT_ONCE_IN: u64 = 23;

/// Which units are done: from one up to another, one in so many, which shares no factor with others.
#[derive(Clone, Copy, PartialEq, Eq)]
pub struct Part {
    first: u64,
    end: u64,
    once_in: u64,
}

pub const ALL: Part = Part { first: 0, end: END, once_in: 1 };
pub const SAMPLE: Part = Part { first: 0, end: END, once_in: 199 };
/// Limits and plans alone, and texts alone.
pub const LIMITS: Part = Part { first: UNITS, end: LIMITED, once_in: 1 };
pub const TEXTS: Part = Part { first: LIMITED, end: END, once_in: 1 };

/// Does these units, on as many threads as the machine has cores.
pub fn run(part: Part) -> Tally {
    let mut tally = Tally::default();
    known::answers(&mut tally);
    let next = AtomicU64::new(part.first);
    let threads = thread::available_parallelism().map_or(1, usize::from);
    thread::scope(|scope| {
        let workers: Vec<_> = (0..threads).map(|_| scope.spawn(|| worker(&next, part))).collect();
        for worker in workers {
            tally.join(worker.join().expect("a thread of this program failed"));
        }
    });
    if part == ALL {
        tally.judge_coverage();
    }
    tally
}

fn worker(next: &AtomicU64, part: Part) -> Tally {
    let mut tally = Tally::default();
    loop {
        let place = next.fetch_add(part.once_in, Ordering::Relaxed);
        if place >= part.end {
            return tally;
        }
        let seed = Random::new(SEED ^ place).next();
        let with_report = place.is_multiple_of(REPORT_ONCE_IN);
        if place < CHAINS {
            one_chain(&mut tally, seed, place, with_report);
        } else if place < CHAINS + ORDERED {
            one_chain_in_many_orders(&mut tally, seed);
        } else if place < CHAINS + ORDERED + DAMAGED {
            one_damage(&mut tally, seed, place, with_report);
        } else if place < CHAINS + ORDERED + DAMAGED + LENT {
            one_writing(&mut tally, seed, place);
        } else if place < UNITS - PLANS - NEAR - LOST {
            one_grown(&mut tally, seed);
        } else if place < UNITS - PLANS - NEAR {
            one_salvage(&mut tally, seed, place);
        } else if place < UNITS - PLANS {
            one_near(&mut tally, seed, place, with_report);
        } else if place < UNITS {
            one_plan(&mut tally, seed, place);
        } else if place < LIMITED {
            work_limits::unit(&mut tally, seed, place - UNITS);
        } else {
            let place = place - LIMITED;
            text_work::unit(&mut tally, Random::new(SEED ^ place).next(), place);
        }
    }
}

fn one_chain(tally: &mut Tally, seed: u64, place: u64, with_report: bool) {
    let family = FAMILIES[(place % FAMILIES.len() as u64) as usize];
    let case = Case { family: family.0, seed };
    let mut random = Random::new(seed);
    let chain = generate::draw(&mut random, family);
    let version = damage::any_version(&mut random, &chain);
    let file = file::write(&chain, version);
    tally.chain(&file);
    compare_file::chain(tally, case, &chain, version);
    let tables = Tables::of(&chain);
    compare::writer(tally, case, &tables, buffer_length(&mut random, tables.file_length()));
    compare_steps::entry(tally, case, &file, list_length(&mut random, chain.states()));
    compare_choice::entry(tally, case, &file, order_length(&mut random, chain.states()));
    compare_within::entry(tally, case, &file, compare_within::steps(&mut random));
    let table = compare_check::table(&mut random, &chain);
    compare_check::entry(tally, case, &file, &table);
    compare_near::entry(tally, case, &file, None);
    if random.once_in(4) {
        let state = compare_near::state(&mut random, chain.states());
        compare_near::entry(tally, case, &file, Some(state));
    }
    if with_report {
        compare::report(tally, case, &file);
        compare_steps::program(tally, case, &file);
        compare_choice::program(tally, case, &file);
        compare_within::program(tally, case, &compare_within::words(&mut random), &file);
        compare_check::program(tally, case, &file, Some(&table));
        compare_salvage::program(tally, case, &file);
        let words = compare_near::words(&mut random, chain.states());
        compare_near::program(tally, case, &words, &file);
    }
}

/// The order decides whether the exact chance fits and how far the bounds open, never the chance.
fn one_chain_in_many_orders(tally: &mut Tally, seed: u64) {
    let case = Case { family: "orders", seed };
    let mut random = Random::new(seed);
    let mut chain = generate::draw_for_orders(&mut random);
    let mut chances = Vec::new();
    let mut all_bounds = Vec::new();
    let mut turns_that_fit = HashSet::new();
    for _ in 0..ORDERS {
        random.shuffle(&mut chain.order);
        let version = random.pick(chain.versions());
        let (exact, bounds) = compare_file::chain(tally, case, &chain, version);
        let file = file::write(&chain, version);
        compare_steps::entry(tally, case, &file, MOST_STATES);
        compare_near::entry(tally, case, &file, None);
        if let Some((chance, _)) = exact {
            chances.push(chance);
            turns_that_fit.insert(Reach::of(&chain).turns(&chain));
        }
        all_bounds.extend(bounds);
    }
    tally.reordered += u64::from(turns_that_fit.len() > 1);
    let Some(&chance) = chances.first() else { return };
    let file = file::write(&chain, 2);
    tally.check(case, &file, chances.iter().all(|&other| other == chance), || {
        format!("one chain under many orders has the chances {chances:?}")
    });
    for bounds in all_bounds {
        compare::enclosure(tally, case, &file, chance, bounds);
    }
}

fn one_damage(tally: &mut Tally, seed: u64, place: u64, with_report: bool) {
    let damage = DAMAGES[(place % DAMAGES.len() as u64) as usize];
    let case = Case { family: damage.0, seed };
    let mut random = Random::new(seed);
    let request = damage::request(&mut random, damage);
    compare::entry(tally, case, &request, Asked::EntryOnDamage);
    let any = random.below(MOST_STATES + 6);
    compare_steps::entry(tally, case, &request.file, random.pick(&[MOST_STATES, any]));
    let own = request.file.get(block::FIRST_RECORD).map_or(0, |&n| usize::from(n));
    compare_choice::entry(tally, case, &request.file, random.pick(&[own, own, any]));
    compare_within::entry(tally, case, &request.file, compare_within::steps(&mut random));
    let table = compare_check::any_table(&mut random, &request.file);
    compare_check::entry(tally, case, &request.file, &table);
    let state = compare_near::state(&mut random, own);
    for from in [None, Some(state)] {
        compare_near::entry(tally, case, &request.file, from);
    }
    if with_report || damage.0 == RECORDS_WRONG {
        compare::report(tally, case, &request.file);
        compare_steps::program(tally, case, &request.file);
        compare_choice::program(tally, case, &request.file);
        compare_within::program(tally, case, &compare_within::words(&mut random), &request.file);
        compare_check::program(tally, case, &request.file, Some(&table));
        compare_salvage::program(tally, case, &request.file);
        let words = compare_near::words(&mut random, own);
        compare_near::program(tally, case, &words, &request.file);
    }
}

/// Tables that are damaged, and buffers of every length that matters.
fn one_writing(tally: &mut Tally, seed: u64, place: u64) {
    let damage = LENT_DAMAGES[(place % LENT_DAMAGES.len() as u64) as usize];
    let case = Case { family: damage.0, seed };
    let mut random = Random::new(seed);
    let tables = damage_lent::lent(&mut random, damage);
    let longest = file::MOST_BLOCKS * block::LENGTH;
    let length = if tables.states > 64 { longest } else { tables.file_length() };
    let length = buffer_length(&mut random, length);
    compare::writer(tally, case, &tables, length);
}

/// A chain that ends in 12 after some steps, through C and through the program.
fn one_grown(tally: &mut Tally, seed: u64) {
    let case = Case { family: "grown", seed };
    let mut random = Random::new(seed);
    let chain = generate::draw_grown(&mut random);
    let file = file::write(&chain, damage::any_version(&mut random, &chain));
    tally.chain(&file);
    compare_file::lists(tally, case, &file, chain.states());
    compare_steps::program(tally, case, &file);
    compare_file::orders(tally, case, &file, chain.states());
    compare_near::entry(tally, case, &file, None);
}

/// The file of a chain that lost blocks of edges, and that chain's own chance.
fn one_salvage(tally: &mut Tally, seed: u64, place: u64) {
    let loss = LOSSES[(place % LOSSES.len() as u64) as usize];
    let case = Case { family: loss.0, seed };
    let mut random = Random::new(seed);
    let chain = damage_edges::chain(&mut random);
    let file = (loss.1)(&mut random, chain.clone());
    compare_salvage::program(tally, case, &file);
    compare_salvage::completed(tally, case, &file, &chain);
    compare_near::entry(tally, case, &file, None);
}

/// A chain of the kinds that near chances are for, at times with a start that is no state, and from
/// other states: at times from all.
fn one_near(tally: &mut Tally, seed: u64, place: u64, with_report: bool) {
    let family = NEAR_FAMILIES[(place % NEAR_FAMILIES.len() as u64) as usize];
    let case = Case { family: family.0, seed };
    let mut random = Random::new(seed);
    let mut chain = generate::draw(&mut random, family);
    let n = chain.states();
    if random.once_in(8) {
        chain.start = random.pick(&[n as u8, 64, 255]);
    }
    let file = file::write(&chain, random.pick(chain.versions()));
    tally.chain(&file);
    compare_near::entry(tally, case, &file, None);
    compare_near::entry(tally, case, &file, Some(compare_near::state(&mut random, n)));
    if random.once_in(16) {
        compare_near::from_all(tally, case, &file, n);
    }
    if with_report {
        compare_near::program(tally, case, &compare_near::words(&mut random, n), &file);
    }
}

/// n records, one less, none, or more.
fn list_length(random: &mut Random, n: usize) -> usize {
    let more = n + random.below(MOST_STATES);
    random.pick(&[n, n, more, more, n - 1, 0])
}

/// n numbers, one less, one more, or none.
fn order_length(random: &mut Random, n: usize) -> usize {
    random.pick(&[n, n, n, n, n - 1, n + 1, 0])
}

/// Every number of copies in turn, with weights and words of all kinds.
fn one_plan(tally: &mut Tally, seed: u64, place: u64) {
    let case = Case { family: "plans", seed };
    let words = plan::words(&mut Random::new(seed), place % plan::COPIES);
    compare::plan(tally, case, &words);
    if let Some(chain) = Plan::of_words(&words).planned() {
        compare_near::entry(tally, case, &file::write(&chain, 2), None);
    }
}

/// A file's own length, one byte less, none, or more.
fn buffer_length(random: &mut Random, file_length: usize) -> usize {
    let more = file_length + random.below(2 * block::LENGTH);
    random.pick(&[file_length, file_length, more, more, file_length - 1, 0])
}
