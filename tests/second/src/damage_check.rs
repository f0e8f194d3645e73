//! Damage that the check is there for: bytes that it sees or does not see, and versions.

use crate::block::{self, mend, FIRST_RECORD, RECORD, VERSIONS};
use crate::chain::{Chain, Edge};
use crate::damage::{any_block, any_file, block_at, other_byte};
use crate::random::Random;

/// Modulo 251 two bytes that differ by 251 are one: in version 2 this damage passes the check unmended.
pub fn by_251(random: &mut Random, chain: Chain) -> Vec<u8> {
    let mut file = any_file(random, &chain);
    let place = any_block(random, &file);
    let block = block_at(&mut file, place);
    let end = random.pick(&[FIRST_RECORD, FIRST_RECORD + RECORD, block::CHECK]);
    let places: Vec<usize> = (0..end).filter(|&at| block[at] < 5 || block[at] > 250).collect();
    let at = random.pick(&places);
    block[at] = if block[at] < 5 { block[at] + 251 } else { block[at] - 251 };
    file
}

/// Modulo 255 the bytes 0 and 255 are one: in version 1 this damage passes the check unmended.
pub fn zero_for_ff(random: &mut Random, chain: Chain) -> Vec<u8> {
    let mut file = any_file(random, &chain);
    let place = any_block(random, &file);
    let block = block_at(&mut file, place);
    let end = random.pick(&[FIRST_RECORD, FIRST_RECORD + RECORD, block::CHECK]);
    let zeros: Vec<usize> = (0..end).filter(|&at| block[at] == 0).collect();
    if !zeros.is_empty() {
        block[random.pick(&zeros)] = 255;
    }
    file
}

/// What the bad controller did, unmended: runs of many lengths, 251 and 502 among them, which version 2
/// does not see.
pub fn ff_for_zeros(random: &mut Random, mut chain: Chain) -> Vec<u8> {
    let any = random.between(1, block::CHECK);
    let wanted = random.pick(&[1, 2, 3, 8, 16, 63, 250, 251, 251, 252, 500, 501, 502, 502, any]);
    if wanted > 500 {
        chain = lone_state();
    }
    let mut file = any_file(random, &chain);
    let place = if wanted > 500 { 2 } else { any_block(random, &file) };
    let block = block_at(&mut file, place);
    let runs: Vec<usize> = (0..=block::CHECK - wanted)
        .filter(|&begin| block[begin..begin + wanted].iter().all(|&byte| byte == 0))
        .collect();
    if !runs.is_empty() {
        let begin = random.pick(&runs);
        block[begin..begin + wanted].fill(255);
    }
    file
}

/// 64 loops, of which the last stands alone in its block and has one byte that is not zero: no block
/// of a well-formed chain has a longer run of zeros.
fn lone_state() -> Chain {
    let n = 64;
    Chain {
        start: 0,
        denominators: vec![1; n],
        rewards: vec![0; n],
        goals: (0..n).map(|state| state == 0).collect(),
        order: (0..n as u8).rev().collect(),
        edges: (0..n as u8)
            .map(|state| Edge { from: state, to: state, weight: 1, reward: 0 })
            .collect(),
    }
}

/// A wrong check, among them 255 or 251 where the sum is 0 and the two sums exchanged.
pub fn check_byte(random: &mut Random, chain: Chain) -> Vec<u8> {
    let mut file = any_file(random, &chain);
    let place = any_block(random, &file);
    let block = block_at(&mut file, place);
    let at = block::CHECK + random.below(2);
    match random.below(3) {
        0 => block[at] = other_byte(random, block[at]),
        1 => block.swap(block::CHECK, block::CHECK + 1),
        _ => {
            // The last byte before the check turns the first sum into 0, which the modulus may not
            // stand for.
            let modulus = if block[block::VERSION] == 2 { 251 } else { 255 };
            block[block::CHECK - 1] = 0;
            block[block::CHECK - 1] = modulus - block::check(block)[0];
            mend(block);
            block[block::CHECK] = random.pick(&[0, modulus]);
        }
    }
    file
}

/// A version byte changed, in one block or in all, and the check mended by that version's rule or
/// left: two versions in one file, and unknown versions whose old check is right.
pub fn version(random: &mut Random, chain: Chain) -> Vec<u8> {
    let mut file = any_file(random, &chain);
    let any = random.byte();
    let version =
        random.pick(&[VERSIONS[0], VERSIONS[1], VERSIONS[0], VERSIONS[1], 0, 3, 255, any]);
    let one = any_block(random, &file);
    let all = random.once_in(4);
    let mends = !random.once_in(4);
    for place in 0..file.len() / block::LENGTH {
        if all || place == one {
            let block = block_at(&mut file, place);
            block[block::VERSION] = version;
            if mends {
                mend(block);
            }
        }
    }
    file
}
