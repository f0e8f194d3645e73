//! Damage to the tables that the writer is lent, so that each of its numbers is expected.

use crate::chain::{M, MOST_EDGES, MOST_STATES};
use crate::generate::{self, FAMILIES};
use crate::random::Random;
use crate::tables::{Tables, EDGE, MOST_REWARD};

/// What is done to the tables.
type Damage = fn(&mut Random, &mut Tables);

/// From this one on each damages a single number.
const SINGLE: usize = 6;

/// Each with its name; one may give several numbers, and every second chain gets one more of them.
pub const LENT_DAMAGES: [(&str, Damage); 14] = [
    ("lent: states", states),
    ("lent: a table's length", length),
    ("lent: edge numbers", edge_numbers),
    ("lent: no edges", |_, tables| tables.edges.clear()),
    ("lent: start", |random, tables| tables.start = beyond(random, tables.states - 1)),
    ("lent: goals", goals),
    ("lent: denominator", |random, tables| {
        let at = random.below(tables.denominators.len());
        tables.denominators[at] = random.pick(&[0, u64::from(M) + 1, u64::MAX, 1]);
    }),
    ("lent: edge", |random, tables| {
        let at = EDGE * random.below(tables.edges.len() / EDGE) + random.below(2);
        tables.edges[at] = random.pick(&[tables.states, 64, 255, 256, u64::MAX]);
    }),
    ("lent: weight", |random, tables| {
        let at = EDGE * random.below(tables.edges.len() / EDGE) + 2;
        tables.edges[at] = random.pick(&[0, u64::from(M) + 1, u64::from(u32::MAX) + 2, 1]);
    }),
    ("lent: pair", |random, tables| {
        let count = tables.edges.len() / EDGE;
        let [one, other] = [random.below(count), random.below(count)].map(|e| EDGE * e);
        tables.edges[one] = tables.edges[other];
        tables.edges[one + 1] = tables.edges[other + 1];
    }),
    ("lent: order", |random, tables| {
        let at = random.below(tables.order.len());
        tables.order[at] = random.pick(&[0, tables.states, 256, u64::MAX]);
    }),
    ("lent: reward", |random, tables| {
        let at = random.below(tables.rewards.len());
        tables.rewards[at] = random.pick(&[MOST_REWARD, MOST_REWARD + 1, u64::MAX]);
    }),
    ("lent: edge reward", |random, tables| {
        let at = EDGE * random.below(tables.edges.len() / EDGE) + 3;
        tables.edges[at] = random.pick(&[MOST_REWARD, MOST_REWARD + 1, u64::MAX]);
    }),
    ("lent: buffer", |_, _| {}),
];

/// The tables of a chain that is well formed, damaged.
pub fn lent(random: &mut Random, damage: (&str, Damage)) -> Tables {
    let family = random.pick(&FAMILIES);
    let mut tables = Tables::of(&generate::draw(random, family));
    damage.1(random, &mut tables);
    // A second one only to single numbers, and where there are any: the least number is given.
    let lists = [&tables.denominators, &tables.edges, &tables.order, &tables.rewards];
    if random.once_in(2) && lists.iter().all(|list| list.len() >= EDGE) {
        random.pick(&LENT_DAMAGES[SINGLE..]).1(random, &mut tables);
    }
    tables
}

/// `most` or a number above it.
fn beyond(random: &mut Random, most: u64) -> u64 {
    random.pick(&[most, most + 1, 255, 256, u64::MAX])
}

fn states(random: &mut Random, tables: &mut Tables) {
    tables.states = random.pick(&[0, 65, tables.states + 1, u64::MAX, u64::MAX - 61]);
}

fn length(random: &mut Random, tables: &mut Tables) {
    let table = match random.below(3) {
        0 => &mut tables.denominators,
        1 => &mut tables.order,
        _ => &mut tables.rewards,
    };
    match random.below(3) {
        0 => table.clear(),
        1 => table.push(0),
        _ => table.truncate(table.len() - 1),
    }
}

fn edge_numbers(random: &mut Random, tables: &mut Tables) {
    match random.below(3) {
        0 => tables.edges.push(1),
        1 => tables.edges.truncate(tables.edges.len() - 1),
        _ => tables.edges.resize(EDGE * (MOST_EDGES + 1), 1),
    }
}

fn goals(random: &mut Random, tables: &mut Tables) {
    tables.goals = match random.below(3) {
        0 => 0,
        1 if tables.states < MOST_STATES as u64 => tables.goals | 1 << tables.states,
        _ => u64::MAX,
    };
}
