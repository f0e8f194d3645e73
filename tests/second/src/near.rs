//! Near chances: two numbers over a power of two around the chance of reaching a goal, and two
//! around that of missing every goal, near each other in proportion however small the chance is.
//!
//! States are removed in the file's order, as document 01 has it. Here a weight keeps its 31
//! highest binary digits wherever they stand, and a row is never refused.

use crate::chain::Chain;
use crate::file;
use crate::live::Reach;
use crate::natural::Natural;
use crate::refusal::{of_tables, Refusal};

/// How many binary digits a weight keeps, and how many a weight may have beside the largest before
/// it is cut in a sum.
const KEPT: usize = 31;
const SUMMED: usize = 56;
/// What one row made anew may lose is counted in parts of 2^30.
const PARTS: usize = 30;

/// `lower` and `upper` over 2^`twos`.
#[derive(Clone, Debug, PartialEq, Eq)]
pub struct Around {
    pub lower: Natural,
    pub upper: Natural,
    pub twos: usize,
}

impl Around {
    /// This number over 2^0, twice.
    fn exactly(number: u64) -> Around {
        Around { lower: Natural::new(number), upper: Natural::new(number), twos: 0 }
    }
}

/// What is said of a chain.
#[derive(Clone, Debug, PartialEq, Eq)]
pub struct Nearly {
    pub near: Around,
    pub miss: Around,
    /// How many rows were made anew.
    pub rows: usize,
}

/// x with all but its highest digits 0, of which there are so many.
pub fn highest(x: &Natural, most: usize) -> Natural {
    cut(x, x.digits().saturating_sub(most))
}

/// x with so many of its lowest digits 0.
fn cut(x: &Natural, lowest: usize) -> Natural {
    x.lowered(lowest).raised(lowest)
}

/// One kept row: the weight to each state, then Goal and Trap.
type Row = Vec<Natural>;

/// D of a row: the weights that lead away from its own state, added up.
fn outside(row: &Row, own: usize) -> Natural {
    let others = row.iter().enumerate().filter(|&(column, x)| column != own && !x.is_zero());
    let others: Vec<&Natural> = others.map(|(_, x)| x).collect();
    let most = others.iter().map(|x| x.digits()).max().unwrap_or(0);
    let lowest = most.saturating_sub(SUMMED);
    let sum = others.iter().fold(Natural::new(0), |sum, x| sum.plus(&cut(x, lowest)));
    highest(&sum, KEPT)
}

/// The rows that are kept, by state.
struct Table {
    rows: Vec<Option<Row>>,
    made: usize,
}

impl Table {
    /// The chain's own weights.
    fn new(chain: &Chain, reach: &Reach) -> Table {
        let n = chain.states();
        let mut rows: Vec<Option<Row>> =
            reach.live.iter().map(|&live| live.then(|| vec![Natural::new(0); n + 2])).collect();
        for edge in &chain.edges {
            let to = usize::from(edge.to);
            let column = match () {
                () if chain.goals[to] => n,
                () if reach.to_goal[to] => to,
                () => n + 1,
            };
            if let Some(row) = &mut rows[usize::from(edge.from)] {
                row[column] = row[column].plus(&Natural::new(u64::from(edge.weight)));
            }
        }
        Table { rows, made: 0 }
    }

    fn remove(&mut self, s: usize) {
        let removed = self.rows[s].take().expect("the row is kept");
        let d = outside(&removed, s);
        for row in self.rows.iter_mut().flatten().filter(|row| !row[s].is_zero()) {
            *row = anew(row, s, &removed, &d);
            self.made += 1;
        }
    }
}

/// A row with a weight to s after s is removed, whose row and D these are.
fn anew(row: &Row, s: usize, removed: &Row, d: &Natural) -> Row {
    let weight = |column: usize| {
        // Most columns have no weight in either row.
        if column == s || (row[column].is_zero() && removed[column].is_zero()) {
            return Natural::new(0);
        }
        let sum = row[column].product(d).plus(&row[s].product(&removed[column]));
        highest(&sum, KEPT)
    };
    let made: Row = (0..row.len()).map(weight).collect();
    let spare = |x: &Natural| x.digits().saturating_sub(KEPT);
    let least = made.iter().filter(|x| !x.is_zero()).map(spare).min().unwrap_or(0);
    made.iter().map(|x| x.lowered(least)).collect()
}

/// The numbers around `part` over `whole`, of the start's last row, after so many rows.
fn around(part: &Natural, whole: &Natural, rows: usize) -> Around {
    if part.is_zero() {
        return Around::exactly(0);
    }
    let twos = KEPT + whole.digits() - part.digits();
    let quotient = part.raised(twos).over(whole);
    let all = Natural::two_to(PARTS);
    let sure = all.minus(&Natural::new(2 * rows as u64 + 2));
    let lower = quotient.product(&sure).lowered(PARTS);
    let more = quotient.plus(&Natural::new(1)).raised(PARTS);
    let rounded_up = more.plus(&sure).minus(&Natural::new(1)).over(&sure);
    Around { lower, upper: rounded_up.min(Natural::two_to(twos)), twos }
}

/// What is said of a chain that gives no refusal.
pub fn of_chain(chain: &Chain) -> Nearly {
    let reach = Reach::of(chain);
    let start = chain.start();
    if chain.starts_at_goal() {
        return Nearly { near: Around::exactly(1), miss: Around::exactly(0), rows: 0 };
    }
    if !reach.live[start] {
        return Nearly { near: Around::exactly(0), miss: Around::exactly(1), rows: 0 };
    }
    let mut table = Table::new(chain, &reach);
    for state in reach.turns(chain) {
        table.remove(usize::from(state));
    }
    let row = table.rows[start].as_ref().expect("the start's row is never removed");
    let d = outside(row, start);
    let n = chain.states();
    let [near, miss] = [n, n + 1].map(|column| around(&row[column], &d, table.made));
    Nearly { near, miss, rows: table.made }
}

/// The chain of a file, or the refusal: 20 to 24, then 3 to 10. Where a state is given, it stands
/// in the place of the file's start before anything of the chain is looked at.
pub fn read(file: &[u8], from: Option<u64>) -> Result<Chain, Refusal> {
    let mut chain = file::read(file)?;
    if let Some(state) = from {
        if state >= chain.states() as u64 {
            return Err(Refusal { number: 3, place: 0 });
        }
        chain.start = state as u8;
    }
    match of_tables(&chain) {
        Some(refusal) => Err(refusal),
        None => Ok(chain),
    }
}

/// What is said of a chain file.
pub fn of_file(file: &[u8], from: Option<u64>) -> Result<Nearly, Refusal> {
    read(file, from).map(|chain| of_chain(&chain))
}

#[cfg(test)]
mod tests {
    use super::*;
    use crate::chain::M;
    use crate::worked::{address, chain};

    fn row(weights: &[u64]) -> Row {
        weights.iter().map(|&weight| Natural::new(weight)).collect()
    }

    #[test]
    fn the_31_highest_digits_stay() {
        let top = |x: u64| highest(&Natural::new(x), KEPT).small();
        assert_eq!(top(0), Some(0));
        assert_eq!(top((1 << 31) - 1), Some((1 << 31) - 1));
        assert_eq!(top((1 << 31) + 1), Some(1 << 31));
        assert_eq!(top((1 << 40) - 1), Some((1 << 40) - (1 << 9)));
    }

    #[test]
    fn a_sum_is_cut_by_its_largest_weight_and_the_own_one_is_not_in_it() {
        let m = u64::from(M);
        assert_eq!(outside(&row(&[5, 1 << 60, 7]), 1), Natural::new(12));
        // 61 digits: 5 are cut off each weight, and what is left adds up to 2^30 or not.
        let sum = |a: u64, b: u64| outside(&row(&[m << 30, a, b, u64::MAX]), 3).small();
        assert_eq!(sum((1 << 30) - 32, 32), Some((m + 1) << 30));
        assert_eq!(sum((1 << 30) - 16, 16), Some(m << 30));
    }

    #[test]
    fn a_row_is_divided_by_what_its_least_weight_has_to_spare() {
        // 2^31 × 2^3 + 1 × 2^40 to the first, and 2^32 × 2^3 to its own: 41 digits and 36, of which
        // 5 are to spare.
        let made = anew(&row(&[1 << 31, 1, 1 << 32]), 1, &row(&[1 << 40, 9, 0]), &Natural::new(8));
        assert_eq!(made, row(&[((1 << 34) + (1 << 40)) >> 5, 0, 1 << 30]));
        // A weight without digits to spare leaves the row as it is.
        let made = anew(&row(&[1 << 31, 1, 0]), 1, &row(&[1 << 40, 9, 3]), &Natural::new(8));
        assert_eq!(made, row(&[(1 << 34) + (1 << 40), 0, 3]));
    }

    #[test]
    fn rows_are_counted_where_they_are_made() {
        assert_eq!(of_chain(&address(&[5], &[])).rows, 4);
        // 1 is led to by the start and by 2, and 2 by 1 alone.
        let rows = [&[(1, 1)][..], &[(2, 1)], &[(1, 1), (3, 1)], &[(3, 1)]];
        let mut chain = chain(&rows, &[3], &[]);
        assert_eq!(of_chain(&chain).rows, 3);
        chain.order.reverse();
        assert_eq!(of_chain(&chain).rows, 2);
    }
}
