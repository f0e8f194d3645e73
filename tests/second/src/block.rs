//! One block of a chain file: where its fields lie, and its check.

/// The length of a block.
pub const LENGTH: usize = 512;
/// The most records of a block.
pub const RECORDS: usize = 63;
/// The length of a record.
pub const RECORD: usize = 8;

/// Where a block's fields lie.
pub const KIND: usize = 0;
pub const VERSION: usize = 1;
pub const NUMBER: usize = 2;
pub const COUNT: usize = 4;
pub const FIRST_RECORD: usize = 6;
pub const CHECK: usize = 510;

/// The kinds of block, in their turn.
pub const HEAD: u8 = 1;
pub const STATES: u8 = 2;
pub const EDGES: u8 = 3;

/// The versions that a block may carry.
pub const VERSIONS: [u8; 2] = [1, 2];

/// Fletcher's two sums over the bytes before the check: in a block that carries version 2 modulo 251,
/// both begun at 1, and in any other modulo 255, both begun at 0.
pub fn check(block: &[u8]) -> [u8; 2] {
    let (modulus, begin) = if block[VERSION] == 2 { (251, 1) } else { (255, 0) };
    let (mut first, mut second) = (begin, begin);
    for &byte in &block[..CHECK] {
        first = (first + u32::from(byte)) % modulus;
        second = (second + first) % modulus;
    }
    [first as u8, second as u8]
}

/// Writes the check that the block's other bytes demand.
pub fn mend(block: &mut [u8]) {
    let sums = check(block);
    block[CHECK..LENGTH].copy_from_slice(&sums);
}

/// A whole block with these records, its check written.
pub fn build(version: u8, kind: u8, number: usize, records: &[[u8; RECORD]]) -> [u8; LENGTH] {
    assert!(records.len() <= RECORDS, "more records than a block holds");
    let mut block = [0; LENGTH];
    block[KIND] = kind;
    block[VERSION] = version;
    block[NUMBER..NUMBER + 2].copy_from_slice(&(number as u16).to_le_bytes());
    block[COUNT..COUNT + 2].copy_from_slice(&(records.len() as u16).to_le_bytes());
    for (place, record) in records.iter().enumerate() {
        let at = FIRST_RECORD + place * RECORD;
        block[at..at + RECORD].copy_from_slice(record);
    }
    mend(&mut block);
    block
}

/// The two bytes at `at` as a number.
pub fn two_bytes(bytes: &[u8], at: usize) -> u16 {
    u16::from_le_bytes([bytes[at], bytes[at + 1]])
}

/// The four bytes at `at` as a number.
pub fn four_bytes(bytes: &[u8], at: usize) -> u32 {
    u32::from_le_bytes([bytes[at], bytes[at + 1], bytes[at + 2], bytes[at + 3]])
}

#[cfg(test)]
mod tests {
    use super::*;

    /// A block of version 2 with every byte value in it.
    fn sample() -> [u8; LENGTH] {
        let mut records = [[0; RECORD]; 32];
        for (at, byte) in records.iter_mut().flatten().enumerate() {
            *byte = at as u8;
        }
        build(2, EDGES, 7, &records)
    }

    #[test]
    fn one_byte_is_seen_unless_it_differs_by_251() {
        let block = sample();
        for at in (0..CHECK).filter(|&at| at != VERSION) {
            for value in 0..=255 {
                let mut other = block;
                other[at] = value;
                let unseen = [0, 251].contains(&block[at].abs_diff(value));
                assert_eq!(check(&other) == check(&block), unseen, "byte {at}, value {value}");
            }
        }
    }

    #[test]
    fn ff_for_zeros_is_seen_unless_251_or_502_are_filled() {
        for version in VERSIONS {
            let mut block = [0; LENGTH];
            block[VERSION] = version;
            for begin in VERSION + 1..CHECK {
                for end in begin + 1..=CHECK {
                    let mut other = block;
                    other[begin..end].fill(255);
                    let unseen = version == 1 || [251, 502].contains(&(end - begin));
                    assert_eq!(check(&other) == check(&block), unseen, "{begin} to {end}");
                }
            }
        }
    }
}
