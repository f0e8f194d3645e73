//! What `nightchance` must print.

use crate::chain::Chain;
use crate::figures;
use crate::file;
use crate::live::Reach;
use crate::refusal::{of_tables, Refusal};

/// The whole report on a chain file.
pub fn of_file(file: &[u8]) -> String {
    let read = file::read(file).and_then(|chain| match of_tables(&chain) {
        Some(refusal) => Err(refusal),
        None => Ok(chain),
    });
    match read {
        Ok(chain) => of_chain(&chain),
        Err(refusal) => format!("{}\n", refused(refusal)),
    }
}

fn of_chain(chain: &Chain) -> String {
    let reach = Reach::of(chain);
    let chance = figures::chance(chain, &reach).map_or_else(refused, |chance| chance.to_string());
    let reward = figures::reward(chain, &reach).map_or_else(refused, |reward| match reward {
        Some(fraction) => fraction.to_string(),
        None => "infinite".to_string(),
    });
    let (lower, upper) = figures::bounds(chain, &reach);
    let goals = chain.goals.iter().filter(|&&goal| goal).count();
    format!(
        "states {}\nedges {}\ngoals {goals}\nlive {}\n\
         chance {chance}\nreward {reward}\nbounds {lower} {upper}\n",
        chain.states(),
        chain.edges.len(),
        reach.live_count(),
    )
}

/// A refusal as the programs print it.
pub fn refused(refusal: Refusal) -> String {
    format!("refused {} at {}", refusal.number, refusal.place)
}

/// The number of the refusal that is all that a program printed; 0 where it printed anything else.
pub fn number(text: &str) -> u32 {
    match text.split(' ').collect::<Vec<_>>()[..] {
        ["refused", number, "at", _] => number.parse().expect("a refusal's number"),
        _ => 0,
    }
}
