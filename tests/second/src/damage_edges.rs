//! Damage to blocks of edges, each lost in its own way while the others are saved.

use crate::block::{self, mend, FIRST_RECORD, LENGTH, RECORD, RECORDS, VERSIONS};
use crate::chain::{Chain, Edge, MOST_EDGES, MOST_STATES};
use crate::damage::{any_file, base, block_at, other_byte, Damage};
use crate::damage_tables;
use crate::draft::Draft;
use crate::random::Random;
use std::ops::Range;

pub const LOSSES: [Damage; 8] = [
    ("a block of edges", one_block),
    ("some blocks of edges", some_blocks),
    ("all blocks of edges", all_blocks),
    ("moved blocks of edges", moved_blocks),
    ("a block of edges that no row needs", needless_block),
    ("a block of edges, and denominators", denominators_too),
    ("blocks of edges, and the records", records_too),
    ("blocks of edges, and the head or states", any_block_too),
];

/// A chain to damage: often without rewards on its edges, which version 1 cannot hold, and often with
/// each row in one block or two, so that few rows fall short.
pub fn chain(random: &mut Random) -> Chain {
    let mut chain = if random.once_in(3) { base(random) } else { many_ends(random) };
    if random.once_in(2) {
        chain.edges.iter_mut().for_each(|edge| edge.reward = 0);
    }
    if random.once_in(2) {
        chain.edges.sort_by_key(|edge| edge.from);
    }
    chain
}

/// Goals and traps by turns, and states that soon come to one: what is left says something of them.
fn many_ends(random: &mut Random) -> Chain {
    let n = random.between(9, MOST_STATES);
    let ends = random.between(2, n / 3);
    let most = random.pick(&[1, 4, 1_000]);
    let mut draft = Draft::new(n);
    for from in ends..n {
        draft.edge(from, random.below(ends), random.between(1, most) as u32);
        for _ in 0..random.between(1, 9) {
            draft.edge(from, random.below(n), random.between(1, most) as u32);
        }
    }
    for goal in (0..ends).step_by(2) {
        draft.goals[goal] = true;
    }
    draft.start = if random.once_in(4) { random.below(ends) } else { random.between(ends, n - 1) };
    draft.finish(random)
}

/// The places of a file's blocks of edges.
fn edge_blocks(chain: &Chain) -> Range<usize> {
    let first = 1 + chain.states().div_ceil(RECORDS);
    first..first + chain.edges.len().div_ceil(RECORDS)
}

fn any_place(random: &mut Random, places: Range<usize>) -> usize {
    random.between(places.start, places.end - 1)
}

fn one_block(random: &mut Random, chain: Chain) -> Vec<u8> {
    let mut file = any_file(random, &chain);
    let place = any_place(random, edge_blocks(&chain));
    lose(random, block_at(&mut file, place));
    file
}

fn some_blocks(random: &mut Random, chain: Chain) -> Vec<u8> {
    let mut file = any_file(random, &chain);
    let once_in = random.pick(&[2, 3, 8]);
    for place in edge_blocks(&chain) {
        if random.once_in(once_in) {
            lose(random, block_at(&mut file, place));
        }
    }
    file
}

fn all_blocks(random: &mut Random, chain: Chain) -> Vec<u8> {
    let mut file = any_file(random, &chain);
    for place in edge_blocks(&chain) {
        lose(random, block_at(&mut file, place));
    }
    file
}

/// Two blocks of edges exchanged, or one given twice; numbered anew or not.
fn moved_blocks(random: &mut Random, chain: Chain) -> Vec<u8> {
    let mut file = any_file(random, &chain);
    let [place, other] = [(); 2].map(|()| any_place(random, edge_blocks(&chain)));
    let [here, there] = [place, other].map(|place| block_at(&mut file, place).to_vec());
    block_at(&mut file, place).copy_from_slice(&there);
    if random.once_in(2) {
        block_at(&mut file, other).copy_from_slice(&here);
    }
    if random.once_in(2) {
        for place in [place, other] {
            let block = block_at(&mut file, place);
            block[block::NUMBER..block::COUNT].copy_from_slice(&(place as u16).to_le_bytes());
            mend(block);
        }
    }
    file
}

/// The rows are whole without the first block of edges, which is lost.
fn needless_block(random: &mut Random, mut chain: Chain) -> Vec<u8> {
    chain.edges.truncate(MOST_EDGES - RECORDS);
    let state = |random: &mut Random| random.byte() % 80;
    let needless = |random: &mut Random| Edge {
        from: state(random),
        to: state(random),
        weight: random.next() as u32,
        reward: 0,
    };
    chain.edges.splice(0..0, (0..RECORDS).map(|_| needless(random)));
    let mut file = any_file(random, &chain);
    lose(random, block_at(&mut file, edge_blocks(&chain).start));
    file
}

/// The first block is lost, and some rows have what is left of them for a denominator, or one more or
/// less.
fn denominators_too(random: &mut Random, mut chain: Chain) -> Vec<u8> {
    for _ in 0..random.between(1, 3) {
        let state = random.below(chain.states());
        let left = chain.edges.iter().skip(RECORDS).filter(|edge| usize::from(edge.from) == state);
        let sum: u32 = left.map(|edge| edge.weight).sum();
        chain.denominators[state] = (sum + random.pick(&[0, 1, 1, 2])).max(2) - 1;
    }
    let mut file = any_file(random, &chain);
    lose(random, block_at(&mut file, edge_blocks(&chain).start));
    file
}

/// The first block or some are lost, and the records of the others have faults.
fn records_too(random: &mut Random, mut chain: Chain) -> Vec<u8> {
    damage_tables::damage(random, &mut chain);
    if random.once_in(3) {
        return some_blocks(random, chain);
    }
    let mut file = any_file(random, &chain);
    lose(random, block_at(&mut file, edge_blocks(&chain).start));
    file
}

/// Some blocks are lost, and any block is damaged.
fn any_block_too(random: &mut Random, chain: Chain) -> Vec<u8> {
    let place = any_place(random, 0..edge_blocks(&chain).end);
    let mut file = some_blocks(random, chain);
    lose(random, block_at(&mut file, place));
    file
}

/// Ways in which a block is lost, mostly: a reward in version 2 and a byte that the check does not see
/// leave it as good as it was.
const WAYS: [fn(&mut Random, &mut [u8]); 8] =
    [any_byte, run_of_zeros, number, kind, version, count, zero, all_bytes];

/// One way, or two at once, of which the least number counts.
fn lose(random: &mut Random, block: &mut [u8]) {
    for _ in 0..random.pick(&[1, 1, 1, 2]) {
        random.pick(&WAYS)(random, block);
    }
}

fn any_byte(random: &mut Random, block: &mut [u8]) {
    let at = random.below(LENGTH);
    block[at] = other_byte(random, block[at]);
}

/// FF where there had been zeros.
fn run_of_zeros(random: &mut Random, block: &mut [u8]) {
    let begin = random.below(block::CHECK);
    let zeros = block[begin..block::CHECK].iter().take_while(|&&byte| byte == 0).count();
    let length = random.between(0, zeros);
    block[begin..begin + length].fill(255);
}

fn number(random: &mut Random, block: &mut [u8]) {
    field(random, block, block::NUMBER..block::NUMBER + 2);
}

fn kind(random: &mut Random, block: &mut [u8]) {
    field(random, block, block::KIND..block::KIND + 1);
}

fn count(random: &mut Random, block: &mut [u8]) {
    field(random, block, block::COUNT..block::COUNT + 2);
}

/// Another byte in a field, and the check mended.
fn field(random: &mut Random, block: &mut [u8], field: Range<usize>) {
    let at = any_place(random, field);
    block[at] = other_byte(random, block[at]);
    mend(block);
}

/// Another version, mostly with the check that it asks for.
fn version(random: &mut Random, block: &mut [u8]) {
    let any = random.byte();
    block[block::VERSION] = random.pick(&[VERSIONS[0], VERSIONS[1], VERSIONS[0], 0, 3, any]);
    if !random.once_in(4) {
        mend(block);
    }
}

/// Bytes behind the last record, or the reward of one, which version 1 does not have.
fn zero(random: &mut Random, block: &mut [u8]) {
    let count = usize::from(block[block::COUNT]).clamp(1, RECORDS);
    let behind = FIRST_RECORD + count * RECORD..block::CHECK;
    let record = FIRST_RECORD + random.below(count) * RECORD;
    let at = if behind.is_empty() || random.once_in(2) { record + 2..record + 4 } else { behind };
    field(random, block, at);
}

/// The whole block overwritten, at times with a check that is right.
fn all_bytes(random: &mut Random, block: &mut [u8]) {
    match random.below(3) {
        0 => block.fill(0),
        1 => block.fill(255),
        _ => block.fill_with(|| random.byte()),
    }
    if random.once_in(2) {
        mend(block);
    }
}
