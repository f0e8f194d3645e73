//! The chosen order of document 02, request 11: what its C entry must answer, and what `reorder` must
//! write.

use crate::chain::Chain;
use crate::file;
use crate::live::Reach;
use crate::refusal::{of_tables, Refusal};

/// The version of the files that the writer makes.
const VERSION: u8 = 2;

/// The chosen order, and the sum of the products by which its states were chosen.
pub struct Choice {
    pub order: Vec<u8>,
    pub sum: usize,
}

/// The choice for a chain file, in a list of so many numbers, or the refusal that leaves the list: the
/// file's 20 to 24, then 1 for a list of another length than n, then 3 to 9. The file's own order is
/// not looked at.
pub fn of_file(file: &[u8], room: usize) -> Result<Choice, Refusal> {
    let mut chain = file::read(file)?;
    if room != chain.states() {
        return Err(Refusal { number: 1, place: 0 });
    }
    chain.order = (0..).take(room).collect();
    of_tables(&chain).map_or_else(|| Ok(of_chain(&chain)), Err)
}

/// The file of the same chain with the chosen order.
pub fn reordered(file: &[u8]) -> Result<Vec<u8>, Refusal> {
    let chain = file::read(file)?;
    let Choice { order, .. } = of_file(file, chain.states())?;
    Ok(file::write(&Chain { order, ..chain }, VERSION))
}

/// The choice for a well-formed chain.
pub fn of_chain(chain: &Chain) -> Choice {
    let reach = Reach::of(chain);
    let mut rows = Rows::of(chain, &reach);
    let removed = |&state: &usize| reach.live[state] && state != chain.start();
    let mut left: Vec<usize> = (0..chain.states()).filter(removed).collect();
    let mut order = Vec::new();
    let mut sum = 0;
    while let Some(&state) = left.iter().min_by_key(|&&state| (rows.product(state), state)) {
        sum += rows.product(state);
        order.push(state);
        rows.remove(state);
        left.retain(|&other| other != state);
    }
    order.extend((0..chain.states()).filter(|state| !removed(state)));
    Choice { order: order.iter().map(|&state| state as u8).collect(), sum }
}

/// Where the kept rows have a weight: in the columns of the states, then Goal, then Trap. No weight is
/// negative, so a step makes none 0 and the weights themselves are not needed.
struct Rows(Vec<Vec<bool>>);

impl Rows {
    fn of(chain: &Chain, reach: &Reach) -> Rows {
        let n = chain.states();
        let mut rows = vec![vec![false; n + 2]; n];
        for edge in &chain.edges {
            let [from, to] = [edge.from, edge.to].map(usize::from);
            if reach.live[from] {
                let column = match (reach.live[to], chain.goals[to]) {
                    (true, _) => to,
                    (false, true) => n,
                    (false, false) => n + 1,
                };
                rows[from][column] = true;
            }
        }
        Rows(rows)
    }

    /// The rows that lead to a state times the columns that it leads to, its own loop not counted.
    fn product(&self, state: usize) -> usize {
        let others = self.0.iter().enumerate().filter(|&(other, _)| other != state);
        let rows = others.filter(|(_, row)| row[state]).count();
        let columns = self.0[state].iter().enumerate();
        rows * columns.filter(|&(column, &weighs)| weighs && column != state).count()
    }

    fn remove(&mut self, state: usize) {
        let nothing = vec![false; self.0[state].len()];
        let removed = std::mem::replace(&mut self.0[state], nothing);
        for row in self.0.iter_mut().filter(|row| row[state]) {
            for (weighs, &more) in row.iter_mut().zip(&removed) {
                *weighs |= more;
            }
            row[state] = false;
        }
    }
}

#[cfg(test)]
mod tests {
    use super::*;
    use crate::examples::EXAMPLES;

    /// Orders and sums that were worked by hand, by the example's name.
    const WORKED: [(&str, &[u8], usize); 2] = [
        // At its turn each probe has one row that leads to it, and leads to two columns.
        ("address", &[1, 2, 3, 4, 0, 5, 6], 8),
        // At its turn each store has one row that leads to it, and leads to three columns; then the
        // gateway has one and two.
        ("gateway", &[2, 3, 4, 5, 1, 0, 6, 7], 14),
    ];

    #[test]
    fn every_worked_order_is_chosen() {
        for (name, order, sum) in WORKED {
            let (_, file, ..) =
                EXAMPLES.into_iter().find(|example| example.0.contains(name)).expect("an example");
            let choice = of_file(file, order.len()).unwrap_or_else(|refusal| panic!("{refusal:?}"));
            assert_eq!((&choice.order[..], choice.sum), (order, sum), "{name}");
        }
    }
}
