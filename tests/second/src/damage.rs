//! Damaged requests: every way in which a file, a mode or an answer's length can be wrong.

use crate::block::{self, mend, FIRST_RECORD, LENGTH, RECORD, RECORDS, VERSIONS};
use crate::chain::Chain;
use crate::damage_check::{by_251, check_byte, ff_for_zeros, version, zero_for_ff};
use crate::damage_head::{head_field, outside_the_ranges};
use crate::damage_tables;
use crate::draft::Draft;
use crate::entry::{ANSWER, BOUNDS};
use crate::file::{self, MOST_BLOCKS};
use crate::generate::FAMILIES;
use crate::random::Random;

/// What one call of the C entry is given.
pub struct Request {
    pub file: Vec<u8>,
    pub mode: u32,
    pub answer_length: usize,
}

/// A family of damage: a name, and what damages the file of a well-formed chain.
pub type Damage = (&'static str, fn(&mut Random, Chain) -> Vec<u8>);

pub const DAMAGES: [Damage; 14] = [
    ("a field", any_field),
    ("the head", head_field),
    ("outside the head's ranges", outside_the_ranges),
    ("any byte", any_byte),
    ("a byte by 251", by_251),
    ("0 for FF", zero_for_ff),
    ("FF for a run of zeros", ff_for_zeros),
    ("the check", check_byte),
    ("the version", version),
    ("the length", length),
    ("beyond 69 blocks", beyond_the_most),
    ("moved blocks", moved_blocks),
    ("no chain at all", noise),
    (RECORDS_WRONG, records_wrong),
];

/// The family whose faults differ only in their place, which the C entry does not tell.
pub const RECORDS_WRONG: &str = "the records";

/// The file of some chain, damaged by one family, with a mode and a length that may be wrong too.
pub fn request(random: &mut Random, damage: Damage) -> Request {
    let chain = base(random);
    Request {
        file: (damage.1)(random, chain),
        mode: any_mode(random),
        answer_length: any_length(random),
    }
}

/// A chain to damage: of any family, and at times of two blocks of states or many of edges.
pub fn base(random: &mut Random) -> Chain {
    if random.once_in(4) {
        many_blocks(random)
    } else {
        random.pick(&FAMILIES).1(random)
    }
}

fn many_blocks(random: &mut Random) -> Chain {
    let n = random.pick(&[63, 64, 64]);
    let mut draft = Draft::new(n);
    for from in 0..n {
        for _ in 0..random.pick(&[1, 2, 5]) {
            draft.edge(from, random.below(n), 1);
        }
    }
    draft.some_goals(random, 9);
    draft.finish(random)
}

fn any_mode(random: &mut Random) -> u32 {
    match random.below(20) {
        0 => random.pick(&[BOUNDS + 1, 4, 255, 256, 1 << 16, u32::MAX - 1, u32::MAX]),
        1 => (random.next() as u32).max(BOUNDS + 1),
        _ => random.between(0, BOUNDS as usize) as u32,
    }
}

fn any_length(random: &mut Random) -> usize {
    match random.below(16) {
        0 => random.below(ANSWER),
        1..=5 => random.between(ANSWER + 1, 3 * ANSWER),
        _ => ANSWER,
    }
}

/// The file of a chain, in a version that can hold it, or at times in another.
pub fn any_file(random: &mut Random, chain: &Chain) -> Vec<u8> {
    file::write(chain, any_version(random, chain))
}

/// A version that can hold the chain, or at times another: rewards on edges are 24 in version 1.
pub fn any_version(random: &mut Random, chain: &Chain) -> u8 {
    let versions = if random.once_in(8) { &VERSIONS } else { chain.versions() };
    random.pick(versions)
}

/// One block of a file.
pub fn block_at(file: &mut [u8], place: usize) -> &mut [u8] {
    &mut file[place * LENGTH..(place + 1) * LENGTH]
}

pub fn any_block(random: &mut Random, file: &[u8]) -> usize {
    random.below(file.len() / LENGTH)
}

/// Mends the check, or leaves it wrong.
fn mend_at_times(random: &mut Random, block: &mut [u8]) {
    if !random.once_in(4) {
        mend(block);
    }
}

/// One or two fields of any block: its kind, version, number, count, a byte of a record, or the
/// zeros after the last record.
fn any_field(random: &mut Random, chain: Chain) -> Vec<u8> {
    let mut file = any_file(random, &chain);
    for _ in 0..random.between(1, 2) {
        let place = any_block(random, &file);
        let block = block_at(&mut file, place);
        let count = usize::from(block[block::COUNT]).min(RECORDS);
        let rest = FIRST_RECORD + count * RECORD;
        let record = FIRST_RECORD + random.below(count.max(1)) * RECORD;
        let at = match random.below(16) {
            0 => block::KIND,
            1 => block::VERSION,
            2 | 3 => block::NUMBER + random.below(2),
            4 | 5 => block::COUNT + random.below(2),
            6 if rest < block::CHECK => random.between(rest, block::CHECK - 1),
            7..=9 => record + random.pick(&[2, 3, 6]),
            _ => record + random.below(RECORD),
        };
        block[at] = other_byte(random, block[at]);
        mend_at_times(random, block);
    }
    file
}

pub fn other_byte(random: &mut Random, byte: u8) -> u8 {
    let any = random.byte();
    let other = random.pick(&[0, 1, 2, 3, 255, any, byte.wrapping_add(1), byte.wrapping_sub(1)]);
    if other == byte {
        byte ^ 1
    } else {
        other
    }
}

fn any_byte(random: &mut Random, chain: Chain) -> Vec<u8> {
    let mut file = any_file(random, &chain);
    let place = any_block(random, &file);
    let block = block_at(&mut file, place);
    let at = random.below(LENGTH);
    block[at] = other_byte(random, block[at]);
    mend_at_times(random, block);
    file
}

fn length(random: &mut Random, chain: Chain) -> Vec<u8> {
    let mut file = any_file(random, &chain);
    let blocks = file.len() / LENGTH;
    match random.below(4) {
        0 => file.truncate(random.below(file.len())),
        1 => file.truncate(random.below(blocks) * LENGTH),
        2 => file.extend(vec![random.pick(&[0, 255]); random.between(1, 2 * LENGTH)]),
        _ => {
            let place = any_block(random, &file);
            let again = block_at(&mut file, place).to_vec();
            file.extend(again);
        }
    }
    file
}

/// More than the largest chain file, in whole blocks and not, with a good head and a bad one.
fn beyond_the_most(random: &mut Random, chain: Chain) -> Vec<u8> {
    let mut file = any_file(random, &chain);
    let blocks = MOST_BLOCKS + random.pick(&[0, 1, 1, 2, 187, 256]);
    let past = random.pick(&[0, 0, 0, 1, 511]);
    file.resize(blocks * LENGTH + past, random.pick(&[0, 255]));
    if random.once_in(4) {
        let at = random.below(LENGTH);
        file[at] ^= 1;
        mend_at_times(random, block_at(&mut file, 0));
    }
    file
}

/// Two blocks exchanged, one dropped or one given twice; numbered anew or not.
fn moved_blocks(random: &mut Random, chain: Chain) -> Vec<u8> {
    let file = any_file(random, &chain);
    let mut blocks: Vec<Vec<u8>> = file.chunks(LENGTH).map(<[u8]>::to_vec).collect();
    let (place, other) = (random.below(blocks.len()), random.below(blocks.len()));
    match random.below(3) {
        0 => blocks.swap(place, other),
        1 => {
            blocks.remove(place);
        }
        _ => blocks[place] = blocks[other].clone(),
    }
    if random.once_in(2) {
        for (number, block) in blocks.iter_mut().enumerate() {
            block[block::NUMBER..block::NUMBER + 2].copy_from_slice(&(number as u16).to_le_bytes());
            mend(block);
        }
    }
    blocks.concat()
}

/// Bytes that no chain wrote, the first block's check mended at times.
fn noise(random: &mut Random, _: Chain) -> Vec<u8> {
    let any = random.below(3 * LENGTH);
    let length = random.pick(&[0, 1, 511, 512, 513, 1_024, 1_536, 35_328, 35_840, any]);
    let mut file = match random.below(3) {
        0 => vec![0; length],
        1 => vec![255; length],
        _ => (0..length).map(|_| random.byte()).collect(),
    };
    if length >= LENGTH && random.once_in(2) {
        // Some of the bytes that every head begins with: the more of them, the further it gets.
        let head = block_at(&mut file, 0);
        let fields = [block::HEAD, random.pick(&VERSIONS), 0, 0, 1, 0];
        let right = random.between(0, fields.len());
        head[..right].copy_from_slice(&fields[..right]);
        mend(head);
    }
    file
}

/// Whole blocks whose records are wrong: faults in the tables, or flags and zeros of some blocks.
fn records_wrong(random: &mut Random, mut chain: Chain) -> Vec<u8> {
    if random.once_in(5) {
        let chain = many_blocks(random);
        let mut file = any_file(random, &chain);
        for _ in 0..random.between(1, 3) {
            flag_or_zero_wrong(random, &mut file);
        }
        return file;
    }
    damage_tables::damage(random, &mut chain);
    any_file(random, &chain)
}

/// A flag above 1, another number where a block has a zero, or another reward of an edge, with the
/// check mended.
fn flag_or_zero_wrong(random: &mut Random, file: &mut [u8]) {
    let place = any_block(random, file);
    let block = block_at(file, place);
    let count = usize::from(block[block::COUNT]);
    let end = FIRST_RECORD + count * RECORD;
    let record = FIRST_RECORD + random.below(count) * RECORD;
    let at = match block[block::KIND] {
        _ if end < block::CHECK && random.once_in(4) => random.between(end, block::CHECK - 1),
        block::HEAD => record + random.between(4, 7),
        block::STATES => record + 6,
        _ => record + random.between(2, 3),
    };
    block[at] = random.between(2, 255) as u8;
    mend(block);
}
