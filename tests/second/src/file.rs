//! The writer and the reader of chain files.

use crate::block::{self, four_bytes, two_bytes, RECORD, RECORDS};
use crate::chain::{Chain, Edge, MOST_EDGES, MOST_STATES};
use crate::refusal::Refusal;

/// The most blocks of a chain file.
pub const MOST_BLOCKS: usize = 1 + MOST_STATES.div_ceil(RECORDS) + MOST_EDGES.div_ceil(RECORDS);

/// The chain file of this version that holds these tables, well formed or not.
pub fn write(chain: &Chain, version: u8) -> Vec<u8> {
    let edge_count = (chain.edges.len() as u16).to_le_bytes();
    let head = [chain.states() as u8, chain.start, edge_count[0], edge_count[1], 0, 0, 0, 0];
    let states: Vec<[u8; RECORD]> = (0..chain.states()).map(|i| state_record(chain, i)).collect();
    let edges: Vec<[u8; RECORD]> = chain.edges.iter().map(edge_record).collect();

    let mut file = block::build(version, block::HEAD, 0, &[head]).to_vec();
    for (kind, records) in [(block::STATES, states), (block::EDGES, edges)] {
        for part in records.chunks(RECORDS) {
            let number = file.len() / block::LENGTH;
            file.extend(block::build(version, kind, number, part));
        }
    }
    file
}

fn state_record(chain: &Chain, i: usize) -> [u8; RECORD] {
    let d = chain.denominators[i].to_le_bytes();
    let r = chain.rewards[i].to_le_bytes();
    [d[0], d[1], d[2], d[3], r[0], r[1], u8::from(chain.goals[i]), chain.order[i]]
}

fn edge_record(edge: &Edge) -> [u8; RECORD] {
    let w = edge.weight.to_le_bytes();
    let r = edge.reward.to_le_bytes();
    [edge.from, edge.to, r[0], r[1], w[0], w[1], w[2], w[3]]
}

/// A chain file whose head and states are in order.
pub struct Opened {
    /// The chain, as yet without edges.
    pub chain: Chain,
    /// For each block of edges in turn its edges, or the refusal that it gives.
    pub edges: Vec<Result<Vec<Edge>, Refusal>>,
}

/// The tables that a chain file holds, or the refusal 20 to 24 that it gives.
pub fn read(file: &[u8]) -> Result<Chain, Refusal> {
    let Opened { mut chain, edges } = open(file)?;
    for block in edges {
        chain.edges.extend(block?);
    }
    Ok(chain)
}

/// What a chain file holds, or the refusal 20 to 24 that its head or its states give.
pub fn open(file: &[u8]) -> Result<Opened, Refusal> {
    if file.is_empty() || !file.len().is_multiple_of(block::LENGTH) {
        return Err(Refusal { number: 20, place: 0 });
    }
    let blocks: Vec<&[u8]> = file.chunks(block::LENGTH).collect();
    let version = blocks[0][block::VERSION];
    let head = records(blocks[0], 0, version, block::HEAD, 1)?[0];
    let n = usize::from(head[0]);
    let edge_count = usize::from(two_bytes(head, 2));
    let head_fits = (1..=MOST_STATES).contains(&n)
        && (1..=MOST_EDGES).contains(&edge_count)
        && head[4..] == [0; 4];
    let first_edges = 1 + n.div_ceil(RECORDS);
    if !head_fits || blocks.len() != first_edges + edge_count.div_ceil(RECORDS) {
        return Err(Refusal { number: 24, place: 0 });
    }

    let mut chain = Chain {
        start: head[1],
        denominators: Vec::new(),
        rewards: Vec::new(),
        goals: Vec::new(),
        order: Vec::new(),
        edges: Vec::new(),
    };
    for (place, bytes) in blocks.iter().enumerate().take(first_edges).skip(1) {
        let count = (n - chain.states()).min(RECORDS);
        read_states(&mut chain, &records(bytes, place, version, block::STATES, count)?, place)?;
    }
    let edges = (first_edges..blocks.len()).map(|place| {
        let count = (edge_count - (place - first_edges) * RECORDS).min(RECORDS);
        read_edges(&records(blocks[place], place, version, block::EDGES, count)?, place, version)
    });
    Ok(Opened { chain, edges: edges.collect() })
}

/// Takes the states of the block at `place`.
fn read_states(chain: &mut Chain, records: &[&[u8]], place: usize) -> Result<(), Refusal> {
    for record in records {
        if record[6] > 1 {
            return Err(Refusal { number: 24, place });
        }
        chain.denominators.push(four_bytes(record, 0));
        chain.rewards.push(two_bytes(record, 4));
        chain.goals.push(record[6] == 1);
        chain.order.push(record[7]);
    }
    Ok(())
}

/// The edges of the block at `place`.
fn read_edges(records: &[&[u8]], place: usize, version: u8) -> Result<Vec<Edge>, Refusal> {
    let edge = |record: &&[u8]| {
        let (weight, reward) = (four_bytes(record, 4), two_bytes(record, 2));
        if version == 1 && reward != 0 {
            return Err(Refusal { number: 24, place });
        }
        Ok(Edge { from: record[0], to: record[1], weight, reward })
    };
    records.iter().map(edge).collect()
}

/// The records of the block at `place`, which must carry block 0's version, be of this kind and have
/// this count.
///
/// Tests what all kinds share, in its order: 21, 22, 23, 24.
fn records(
    bytes: &[u8],
    place: usize,
    version: u8,
    kind: u8,
    count: usize,
) -> Result<Vec<&[u8]>, Refusal> {
    let known = block::VERSIONS.contains(&version) && bytes[block::VERSION] == version;
    let end = block::FIRST_RECORD + count * RECORD;
    let tests = [
        (21, bytes[block::CHECK..] == block::check(bytes)),
        (22, usize::from(two_bytes(bytes, block::NUMBER)) == place),
        (23, bytes[block::KIND] == kind && known),
        (24, usize::from(two_bytes(bytes, block::COUNT)) == count),
        (24, bytes[end..block::CHECK].iter().all(|&byte| byte == 0)),
    ];
    match tests.iter().find(|(_, holds)| !holds) {
        Some(&(number, _)) => Err(Refusal { number, place }),
        None => Ok(bytes[block::FIRST_RECORD..end].chunks(RECORD).collect()),
    }
}

#[cfg(test)]
mod tests {
    use super::*;
    use crate::worked;

    #[test]
    fn reads_what_it_wrote() {
        for case in worked::chains() {
            for &version in case.chain.versions() {
                let read = read(&write(&case.chain, version));
                assert_eq!(read.as_ref(), Ok(&case.chain), "{}", case.name);
            }
        }
    }

    #[test]
    fn zeros_pass_the_check_and_have_no_kind() {
        assert_eq!(read(&[0; 512]), Err(Refusal { number: 23, place: 0 }));
    }

    #[test]
    fn one_version_byte_changed_is_21_or_23() {
        for case in worked::chains() {
            let file = write(&case.chain, 2);
            for place in 0..file.len() / block::LENGTH {
                for version in (0..=255).filter(|&version| version != 2) {
                    let mut other = file.clone();
                    other[place * block::LENGTH + block::VERSION] = version;
                    let number = read(&other).expect_err(case.name).number;
                    assert!([21, 23].contains(&number), "{}: {number}", case.name);
                }
            }
        }
    }

    #[test]
    fn two_versions_in_one_file_are_23() {
        let chain = &worked::chains()[0].chain;
        let [mut file, other] = [2, 1].map(|version| write(chain, version));
        let last = file.len() - block::LENGTH;
        file[last..].copy_from_slice(&other[last..]);
        assert_eq!(read(&file), Err(Refusal { number: 23, place: last / block::LENGTH }));
    }

    #[test]
    fn rewards_on_edges_are_24_in_version_1() {
        let mut chain = worked::chains()[0].chain.clone();
        for reward in [1, 255, 256, 65_535] {
            chain.edges[3].reward = reward;
            assert_eq!(read(&write(&chain, 1)), Err(Refusal { number: 24, place: 2 }));
            assert_eq!(read(&write(&chain, 2)).as_ref(), Ok(&chain));
        }
    }

    #[test]
    fn empty_and_broken_lengths_are_20() {
        for length in [0, 1, 511, 513] {
            assert_eq!(read(&vec![0; length]), Err(Refusal { number: 20, place: 0 }));
        }
    }

    #[test]
    fn the_largest_chain_has_69_blocks() {
        assert_eq!(MOST_BLOCKS, 69);
    }
}
