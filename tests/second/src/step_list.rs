//! The step list of document 02, request 2: what its C entry must answer, and what `nightsteps` must
//! print.

use crate::chain::{Chain, MOST_STATES};
use crate::figures;
use crate::file;
use crate::fraction::Fraction;
use crate::line::Line;
use crate::live::Reach;
use crate::refusal::{of_tables, Refusal};
use crate::report;
use crate::steps::{steps, Figure, StepRecord};
use std::fmt::Write;

/// The records of the finished steps of a chain, and the chance or the 12 that ended them.
pub struct StepList {
    pub states: usize,
    pub records: Vec<StepRecord>,
    pub chance: Result<Fraction, Refusal>,
    pub line: Line,
}

/// The step list of a chain file in a list with room for so many records, or the refusal that leaves
/// the list: the file's 20 to 24, then 2 for a list shorter than n, then 3 to 10.
pub fn of_file(file: &[u8], room: usize) -> Result<StepList, Refusal> {
    let chain = file::read(file)?;
    if room < chain.states() {
        return Err(Refusal { number: 2, place: 0 });
    }
    match of_tables(&chain) {
        Some(refusal) => Err(refusal),
        None => Ok(of_chain(&chain)),
    }
}

/// The step list of a well-formed chain.
pub fn of_chain(chain: &Chain) -> StepList {
    let reach = Reach::of(chain);
    let live = reach.live[chain.start()];
    let records = if live { steps(chain, &reach, Figure::Chance).records } else { Vec::new() };
    let chance = figures::chance(chain, &reach);
    StepList { states: chain.states(), records, chance, line: Line::of(chain, &reach) }
}

/// All that `nightsteps` prints for a chain file. It lends room for the largest chain.
pub fn text(file: &[u8]) -> String {
    let list = match of_file(file, MOST_STATES) {
        Ok(list) => list,
        Err(refusal) => return format!("{}\n", report::refused(refusal)),
    };
    let mut text = String::new();
    for StepRecord { state, rows, columns, divisor } in &list.records {
        writeln!(text, "state {state} rows {rows} columns {columns} divisor {divisor}")
            .expect("a string takes every line");
    }
    let chance = list.chance.map_or_else(report::refused, |chance| chance.to_string());
    text + &format!("chance {chance}\n")
}
