//! Compares what the product says of tables with what this implementation says, through C and
//! through `checkshares`.

use crate::chain::{Chain, M};
use crate::check::{self, Said, Table};
use crate::compare;
use crate::file;
use crate::live::Reach;
use crate::met::Met;
use crate::product::{self, Checked};
use crate::programs;
use crate::random::Random;
use crate::tally::{Asked, Case, Tally};

/// Of chains with more states a right table is worked out only now and then.
const FEW_STATES: usize = 10;
const OFTEN: usize = 24;

/// Calls the entry with this table and compares what it returns.
pub fn entry(tally: &mut Tally, case: Case, file: &[u8], shares: &[u8]) {
    let expected = check::of_file(file, shares);
    let mut told = Checked::default();
    match expected {
        Ok(Said::Yes) => told.right = 1,
        Ok(Said::No(state)) => told.state = state as u32,
        Err(refusal) => {
            told.number = refusal.number;
            told.place = refusal.place as u32;
        }
    }
    let came = product::check(file, shares);
    compare::same(tally, case, file, (&told, &came), &format!("check of {shares:?}"));
    tally.number(Asked::Check, told.number);
    if let Ok(said) = expected {
        meet(tally, file, shares, said);
    }
}

/// Which kinds of table were met.
fn meet(tally: &mut Tally, file: &[u8], shares: &[u8], said: Said) {
    let chain = file::read(file).expect("it was answered");
    let reach = Reach::of(&chain);
    match said {
        Said::Yes => tally.meet(Met::Right, shares.len() > 8),
        Said::No(state) if chain.goals[state] => tally.meet(Met::GoalValue, true),
        Said::No(state) if !reach.to_goal[state] => tally.meet(Met::Zero, true),
        Said::No(state) if !reach.reached[state] => tally.meet(Met::Unreached, true),
        Said::No(_) => tally.meet(Met::Equation, true),
    }
}

/// Runs `checkshares` with this table, or with none, and compares its line.
pub fn program(tally: &mut Tally, case: Case, file: &[u8], shares: Option<&[u8]>) {
    let expected = check::line(file, shares.unwrap_or(&[]));
    let came = programs::text(programs::checked(file, shares));
    tally.check(case, file, came == expected, || {
        format!("checkshares of {shares:?}: expected {expected:?}, came {came:?}")
    });
    let number = check::of_file(file, shares.unwrap_or(&[])).map_or_else(|r| r.number, |_| 0);
    tally.number(Asked::CheckText, number);
}

/// Compares the right table of a chain, where there is one, and the same wrong in each state in turn;
/// then tables of other lengths, and a missing one.
pub fn tables(tally: &mut Tally, case: Case, chain: &Chain, file: &[u8]) {
    let n = chain.states();
    if let Some(right) = Table::right(chain) {
        entry(tally, case, file, &right.bytes());
        program(tally, case, file, Some(&right.bytes()));
        for state in 0..n {
            let mut wrong = right.times(1);
            let share = &mut wrong.numerators[state];
            *share = if *share == 0 { 1 } else { *share - 1 };
            entry(tally, case, file, &wrong.bytes());
        }
    }
    for length in [0, 4, 4 * n, 4 * n + 3, 4 * n + 5, 4 * n + 8, check::LONGEST + 1, 512] {
        entry(tally, case, file, &vec![1; length]);
    }
    program(tally, case, file, Some(&vec![1; check::LONGEST + 1]));
    program(tally, case, file, None);
}

/// A table for a well-formed chain: right, also not in lowest terms; wrong in a state or two; one
/// that meets every equation and is wrong all the same; out of range; or of another length.
pub fn table(random: &mut Random, chain: &Chain) -> Vec<u8> {
    let n = chain.states();
    let few = n <= FEW_STATES || random.once_in(OFTEN);
    let right = if few { Table::right(chain) } else { None };
    let any = random.between(1, 1_000) as u32;
    let mut table = right.unwrap_or(Table { denominator: any, numerators: vec![any; n] });
    let most = (M / table.denominator) as usize;
    if random.once_in(2) {
        table = table.times(random.between(1, most) as u32);
    }
    let whole = table.denominator;
    let state = random.below(n);
    match random.below(12) {
        0..=3 => {}
        4..=7 => table.numerators[state] = other(random, table.numerators[state], whole),
        8 => {
            for state in [state, random.below(n)] {
                table.numerators[state] = other(random, table.numerators[state], whole);
            }
        }
        9 => table.numerators = vec![whole; n],
        10 => table.denominator = random.pick(&[0, M, M + 1, u32::MAX, whole / 2]),
        _ => table.numerators[state] = random.pick(&[whole.saturating_add(1), M, u32::MAX]),
    }
    let mut bytes = table.bytes();
    if random.once_in(12) {
        let length = bytes.len();
        let all = [0, 4, length - 1, length - 4, length + 1, length + 4, check::LONGEST];
        bytes.resize(random.pick(&all), 0);
    }
    bytes
}

/// Another numerator: mostly a neighbour.
fn other(random: &mut Random, numerator: u32, whole: u32) -> u32 {
    let any = random.below(whole as usize + 1) as u32;
    let below = numerator.saturating_sub(1);
    let above = (numerator + 1).min(whole);
    random.pick(&[below, above, above, any])
}

/// A table for a file of which nothing is known: of the length that its head asks for, mostly.
pub fn any_table(random: &mut Random, file: &[u8]) -> Vec<u8> {
    let states = file.get(6).map_or(1, |&states| usize::from(states));
    let whole = random.between(1, 9) as u32;
    let numerators = (0..states).map(|_| random.below(whole as usize + 1) as u32).collect();
    let mut bytes = Table { denominator: whole, numerators }.bytes();
    if random.once_in(8) {
        bytes.truncate(random.below(bytes.len() + 1));
    }
    bytes
}
