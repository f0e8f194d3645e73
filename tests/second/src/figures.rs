//! The three figures of a chain that gives no refusal 3 to 11.
//!
//! The equations alone give the chance and the reward; the steps only say whether they fit.

use crate::chain::Chain;
use crate::equations;
use crate::fraction::Fraction;
use crate::live::Reach;
use crate::refusal::Refusal;
use crate::steps::{steps, Figure};

/// The exact chance, or refusal 12.
pub fn chance(chain: &Chain, reach: &Reach) -> Result<Fraction, Refusal> {
    if let Some(known) = known_chance(chain, reach) {
        return Ok(known);
    }
    steps(chain, reach, Figure::Chance).end?;
    Ok(equations::chance(chain, reach).fraction().expect("a chance whose steps fit is at most M"))
}

/// The chance by the equations alone, whatever the order, where neither of its numbers is above M.
pub fn true_chance(chain: &Chain, reach: &Reach) -> Option<Fraction> {
    known_chance(chain, reach).or_else(|| equations::chance(chain, reach).fraction())
}

/// The expected reward, None where it is infinite, or refusal 12.
pub fn reward(chain: &Chain, reach: &Reach) -> Result<Option<Fraction>, Refusal> {
    if chain.starts_at_goal() {
        return Ok(Some(Fraction::ZERO));
    }
    if reach.reward_is_infinite() {
        return Ok(None);
    }
    steps(chain, reach, Figure::Reward).end?;
    let reward = equations::reward(chain, reach).fraction();
    Ok(Some(reward.expect("a reward whose steps fit is at most M")))
}

/// The lower and the upper bound of the chance. They are never refused: rounding makes rows fit.
pub fn bounds(chain: &Chain, reach: &Reach) -> (Fraction, Fraction) {
    if let Some(known) = known_chance(chain, reach) {
        return (known, known);
    }
    let Ok(row) = steps(chain, reach, Figure::Bounds).end else {
        unreachable!("the bounds were refused");
    };
    (row.lower, row.upper)
}

/// The chance where no row is made: the start is a goal or is not live.
fn known_chance(chain: &Chain, reach: &Reach) -> Option<Fraction> {
    if chain.starts_at_goal() {
        Some(Fraction::ONE)
    } else if !reach.live[chain.start()] {
        Some(Fraction::ZERO)
    } else {
        None
    }
}
