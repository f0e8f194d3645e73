//! Families of chains whose chances are decimals, so that a limit can be the chance itself.

use crate::chain::{Chain, M};
use crate::draft::Draft;
use crate::generate::Family;
use crate::random::Random;

pub const LIMIT_FAMILIES: [Family; 3] = [
    ("decimals", decimals),
    ("decimals in two rows", two_rows),
    ("decimals that outgrow M", hidden),
];

/// What a decimal can be a part of: no prime but 2 and 5 divides it.
const WHOLES: [u32; 12] = [2, 4, 5, 8, 10, 16, 25, 40, 100, 1_000, 10_000, 1_000_000];

/// A whole, and a part of it.
fn part(random: &mut Random, wholes: &[u32]) -> (u32, u32) {
    let whole = random.pick(wholes);
    (random.between(1, whole as usize - 1) as u32, whole)
}

/// A part of the row leads on, and the rest elsewhere.
fn row(draft: &mut Draft, state: usize, next: usize, lost: usize, (part, whole): (u32, u32)) {
    draft.edge(state, next, part);
    draft.edge(state, lost, whole - part);
}

/// One row, at times with an own loop, which leaves the chance as it is.
fn decimals(random: &mut Random) -> Chain {
    let [start, goal, lost] = [0, 1, 2];
    let mut draft = Draft::new(3);
    let share = part(random, &WHOLES);
    row(&mut draft, start, goal, lost, share);
    if random.once_in(3) {
        draft.edge(start, start, random.between(1, 1_000_000) as u32);
    }
    draft.goals[goal] = true;
    draft.finish(random)
}

/// Two rows, one after the other.
fn two_rows(random: &mut Random) -> Chain {
    let [start, other, goal, lost] = [0, 1, 2, 3];
    let mut draft = Draft::new(4);
    let shares = [(); 2].map(|()| part(random, &WHOLES[..10]));
    row(&mut draft, start, other, lost, shares[0]);
    row(&mut draft, other, goal, lost, shares[1]);
    draft.goals[goal] = true;
    draft.finish(random)
}

/// Two states with the same chance, to which the start leads by weights that no step can shorten.
fn hidden(random: &mut Random) -> Chain {
    let [start, first, second, goal, lost] = [0, 1, 2, 3, 4];
    let mut draft = Draft::new(5);
    let share = part(random, &WHOLES);
    let weight = random.pick(&[1, 3, 7, 1_000_003]);
    row(&mut draft, start, first, second, (weight, M));
    for state in [first, second] {
        row(&mut draft, state, goal, lost, share);
    }
    draft.goals[goal] = true;
    draft.finish(random)
}

#[cfg(test)]
mod tests {
    use super::*;
    use crate::generate::draw;
    use crate::limit::Judged;
    use crate::limit_cases::beside;
    use crate::{exact::Exact, live::Reach};

    /// Whether some limit is the chance itself.
    fn met(judged: &Judged) -> bool {
        beside(judged).iter().any(|&limit| judged.truth.beside(limit).is_eq())
    }

    #[test]
    fn chances_are_decimals_and_limits_meet_them() {
        for family in LIMIT_FAMILIES {
            let mut fractions = 0;
            for seed in 0..100 {
                let chain = draw(&mut Random::new(seed), family);
                let judged = Judged::new(&chain, Exact::of(&chain, &Reach::of(&chain)));
                fractions += u32::from(judged.fraction.is_some());
                assert!(met(&judged), "{} {seed}", family.0);
            }
            // A half outgrows M in one order alone.
            let outgrown = family.0 == "decimals that outgrow M";
            assert!(if outgrown { fractions < 20 } else { fractions == 100 }, "{}", family.0);
        }
    }
}
