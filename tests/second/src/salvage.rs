//! Saving what is left of a damaged file, request 10 of document 02: what `salvage` must print.

use crate::block::RECORDS;
use crate::chain::Chain;
use crate::entry::Pair;
use crate::figures;
use crate::file;
use crate::live::Reach;
use crate::refusal::{of_left, of_tables, Refusal};
use crate::report::refused;

/// What is left of a file whose head and states are in order.
pub struct Left {
    /// The chain with the edges of the blocks that are kept, in the file's order.
    pub chain: Chain,
    /// For each of them its index in the whole file.
    pub indices: Vec<usize>,
    /// The refusal of each block of edges that is lost, in turn.
    pub lost: Vec<Refusal>,
}

impl Left {
    /// Of a file, or the refusal 20 to 24 that it gives.
    pub fn of(file: &[u8]) -> Result<Left, Refusal> {
        let file::Opened { chain, edges } = file::open(file)?;
        let mut left = Left { chain, indices: Vec::new(), lost: Vec::new() };
        for (place, block) in edges.into_iter().enumerate() {
            match block {
                Ok(edges) => {
                    left.indices.extend((0..edges.len()).map(|i| place * RECORDS + i));
                    left.chain.edges.extend(edges);
                }
                Err(refusal) => left.lost.push(refusal),
            }
        }
        Ok(left)
    }

    /// The refusal 3 to 10 of what is left, if any: an edge's place is its index in the whole file.
    fn refusal(&self) -> Option<Refusal> {
        let rules = if self.lost.is_empty() { of_tables } else { of_left };
        rules(&self.chain).map(|Refusal { number, place }| match number {
            6..=8 => Refusal { number, place: self.indices[place] },
            _ => Refusal { number, place },
        })
    }

    /// The lost blocks and the rows that fell short, a line each.
    fn lines(&self) -> String {
        let lost = self.lost.iter().map(|lost| format!("lost {} {}\n", lost.place, lost.number));
        let missing = self.chain.missing().into_iter().enumerate();
        let short = missing.filter(|&(_, weight)| weight > 0);
        lost.chain(short.map(|(state, weight)| format!("short {state} {weight}\n"))).collect()
    }
}

/// What is left of a file and both bounds, or the refusal that it gives.
pub fn of_file(file: &[u8]) -> Result<(Left, Pair), Refusal> {
    let left = Left::of(file)?;
    if let Some(refusal) = left.refusal() {
        return Err(refusal);
    }
    let bounds = figures::bounds(&left.chain, &Reach::of(&left.chain));
    Ok((left, bounds))
}

/// All that `salvage` prints for a file.
pub fn text(file: &[u8]) -> String {
    match of_file(file) {
        Ok((left, (lower, upper))) => format!("bounds {lower} {upper}\n{}", left.lines()),
        Err(refusal) => format!("{}\n", refused(refusal)),
    }
}
