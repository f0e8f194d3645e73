//! The step rule and the rounding rule, in numbers of 128 bits: where no fit arises, and the bounds.
//!
//! A kept row's numbers are at most M before each step, so nothing here comes near 2^64.

use crate::chain::{Chain, M};
use crate::fraction::{gcd, Fraction};
use crate::live::Reach;
use crate::refusal::Refusal;

/// The figure that the steps serve: it decides on the Reward column and on what a row above M does.
#[derive(Clone, Copy, PartialEq, Eq)]
pub enum Figure {
    Chance,
    Reward,
    Bounds,
}

/// The place of a no fit before the first step.
const BEFORE_THE_FIRST: usize = 64;

/// What the step list says of one removed state (document 02, request 2).
#[derive(Clone, Debug, PartialEq, Eq)]
pub struct StepRecord {
    pub state: usize,
    /// How many other kept rows had a weight to it at its turn.
    pub rows: usize,
    /// How many columns its row had a weight in: states but itself, Goal and Trap.
    pub columns: usize,
    /// The largest divisor taken out of a row that the step made, 1 if it made none.
    pub divisor: u128,
}

/// The finished steps of an order, and how it ended.
pub struct Steps {
    pub records: Vec<StepRecord>,
    pub end: Result<LastRow, Refusal>,
}

/// One kept row.
#[derive(Clone)]
struct Row {
    /// The weight to each state; only those to live states can be above 0.
    weights: Vec<u128>,
    goal: u128,
    trap: u128,
    unknown: u128,
    reward: u128,
}

impl Row {
    /// The row's total, Reward not counted.
    fn total(&self) -> u128 {
        self.weights.iter().sum::<u128>() + self.goal + self.trap + self.unknown
    }

    /// The same change to every column, Reward included.
    fn map(&self, change: impl Fn(u128) -> u128) -> Row {
        Row {
            weights: self.weights.iter().map(|&weight| change(weight)).collect(),
            goal: change(self.goal),
            trap: change(self.trap),
            unknown: change(self.unknown),
            reward: change(self.reward),
        }
    }

    /// The greatest common divisor of all columns.
    fn divisor(&self) -> u128 {
        let last = [self.goal, self.trap, self.unknown, self.reward];
        self.weights.iter().chain(&last).fold(0, |a, &b| gcd(a, b))
    }

    /// In how many columns there is a weight: those of the states but t, Goal and Trap.
    fn columns(&self, t: usize) -> usize {
        let others = self.weights.iter().enumerate().filter(|&(state, _)| state != t);
        let weights = others.map(|(_, &weight)| weight).chain([self.goal, self.trap]);
        weights.filter(|&weight| weight > 0).count()
    }

    /// This row after state t, whose row is `removed`, is removed; `d` is D of that row.
    fn without(&self, t: usize, removed: &Row, d: u128) -> Row {
        let to_t = self.weights[t];
        let join = |old: u128, of_t: u128| old * d + to_t * of_t;
        let pairs = self.weights.iter().zip(&removed.weights);
        let mut weights: Vec<u128> = pairs.map(|(&old, &of_t)| join(old, of_t)).collect();
        weights[t] = 0;
        Row {
            weights,
            goal: join(self.goal, removed.goal),
            trap: join(self.trap, removed.trap),
            unknown: join(self.unknown, removed.unknown),
            reward: join(self.reward, removed.reward),
        }
    }

    /// The rounding rule, for a row in lowest terms whose total is above M.
    fn rounded(&self) -> Row {
        let total = self.total();
        let fits = |k: &u32| total.div_ceil(1 << k) <= u128::from(M);
        let k = (1..64).find(fits).expect("the total is below 2^63");
        let mut row = self.map(|value| value >> k);
        row.unknown = 0;
        row.unknown = total.div_ceil(1 << k) - row.total();
        row
    }

    /// The row as it is kept: in lowest terms, and rounded where the figure allows it.
    fn kept(&self, figure: Figure, place: usize) -> Result<Row, Refusal> {
        let divisor = self.divisor();
        let row = self.map(|value| value / divisor);
        if row.total() <= u128::from(M) && row.reward <= u128::from(M) {
            return Ok(row);
        }
        match figure {
            Figure::Bounds => Ok(row.rounded()),
            Figure::Chance | Figure::Reward => Err(Refusal { number: 12, place }),
        }
    }
}

/// What the start's row says after the last step: the bounds, which are one fraction where nothing
/// was rounded or lost.
pub struct LastRow {
    pub lower: Fraction,
    pub upper: Fraction,
}

/// Makes the steps of the order on a chain whose start is live.
///
/// Refuses 12 where a row has no fit.
pub fn steps(chain: &Chain, reach: &Reach, figure: Figure) -> Steps {
    let mut records = Vec::new();
    let end = first_rows(chain, reach, figure).and_then(|mut rows| {
        for (position, &state) in chain.order.iter().enumerate() {
            let t = usize::from(state);
            if t != chain.start() && rows[t].is_some() {
                records.push(remove(&mut rows, t, figure, position)?);
            }
        }
        Ok(last_row(&rows, chain.start()))
    });
    Steps { records, end }
}

fn first_rows(chain: &Chain, reach: &Reach, figure: Figure) -> Result<Vec<Option<Row>>, Refusal> {
    let row = |state| first_row(chain, reach, figure, state).kept(figure, BEFORE_THE_FIRST);
    (0..chain.states()).map(|i| reach.live[i].then(|| row(i)).transpose()).collect()
}

/// Removes state t, whose row is kept, at this position of the order.
///
/// A live state has weight outside its own loop at its turn, rounded or not: rounding turns what it
/// takes off into Unknown.
fn remove(
    rows: &mut [Option<Row>],
    t: usize,
    figure: Figure,
    position: usize,
) -> Result<StepRecord, Refusal> {
    let removed = rows[t].take().expect("the row is kept");
    let d = removed.total() - removed.weights[t];
    assert!(d > 0, "a live state whose whole row leads to itself");
    let mut record = StepRecord { state: t, rows: 0, columns: removed.columns(t), divisor: 1 };
    for row in rows.iter_mut().flatten().filter(|row| row.weights[t] > 0) {
        let made = row.without(t, &removed, d);
        record.rows += 1;
        record.divisor = record.divisor.max(made.divisor());
        *row = made.kept(figure, position)?;
    }
    Ok(record)
}

fn last_row(rows: &[Option<Row>], start: usize) -> LastRow {
    let row = rows[start].as_ref().expect("the start is live");
    let d = row.total() - row.weights[start];
    LastRow { lower: Fraction::new(row.goal, d), upper: Fraction::new(row.goal + row.unknown, d) }
}

fn first_row(chain: &Chain, reach: &Reach, figure: Figure, state: usize) -> Row {
    let weights = vec![0; chain.states()];
    let mut row = Row { weights, goal: 0, trap: 0, unknown: 0, reward: 0 };
    for edge in chain.edges.iter().filter(|edge| usize::from(edge.from) == state) {
        let to = usize::from(edge.to);
        let column = if chain.goals[to] {
            &mut row.goal
        } else if reach.to_goal[to] {
            &mut row.weights[to]
        } else {
            &mut row.trap
        };
        *column += u128::from(edge.weight);
        if figure == Figure::Reward {
            row.reward += u128::from(edge.weight) * u128::from(edge.reward);
        }
    }
    // Nothing, unless edges were lost.
    row.unknown = u128::from(chain.denominators[state]) - row.total();
    if figure == Figure::Reward {
        row.reward += u128::from(chain.rewards[state]) * row.total();
    }
    row
}
