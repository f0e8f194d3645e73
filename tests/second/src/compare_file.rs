//! Compares all that is asked of one chain, or of one file, in every mode, room and number that matters.

use crate::chain::{Chain, MOST_STATES};
use crate::compare;
use crate::compare_choice;
use crate::compare_steps;
use crate::compare_within;
use crate::damage::Request;
use crate::entry::{Pair, ANSWER, BOUNDS, DEFAULT, EXACT};
use crate::file;
use crate::random::Random;
use crate::tally::{Asked, Case, Tally};

/// Compares every mode on a well-formed chain. Hands back the exact chance and the bounds.
pub fn chain(
    tally: &mut Tally,
    case: Case,
    chain: &Chain,
    version: u8,
) -> (Option<Pair>, Option<Pair>) {
    let mut random = Random::new(case.seed);
    let file = file::write(chain, version);
    let mut request = Request { file, mode: EXACT, answer_length: ANSWER };
    let exact = compare::entry(tally, case, &request, Asked::EntryOnChain);
    request.mode = DEFAULT;
    request.answer_length = random.between(ANSWER, 3 * ANSWER);
    compare::entry(tally, case, &request, Asked::EntryOnChain);
    request.mode = BOUNDS;
    let bounds = compare::entry(tally, case, &request, Asked::EntryOnChain);
    if let (Some(exact), Some(bounds)) = (exact, bounds) {
        compare::enclosure(tally, case, &request.file, exact.0, bounds);
    }
    (exact, bounds)
}

/// Compares the step lists of a file of n states in lists of every length that matters.
pub fn lists(tally: &mut Tally, case: Case, file: &[u8], n: usize) {
    for room in [0, n - 1, n, n + 1, MOST_STATES, MOST_STATES + 3] {
        compare_steps::entry(tally, case, file, room);
    }
}

/// Compares the order that is chosen for a file of n states in lists of every length that matters, and
/// the file with that order.
pub fn orders(tally: &mut Tally, case: Case, file: &[u8], n: usize) {
    for room in [0, n - 1, n, n + 1] {
        compare_choice::entry(tally, case, file, room);
    }
    compare_choice::program(tally, case, file);
}

/// Compares the chance of a file within every number of steps that matters, and a line of each kind of
/// word.
pub fn within(tally: &mut Tally, case: Case, file: &[u8]) {
    for steps in [0, 1, 2, 3, 24, 1_000, 1_001] {
        compare_within::entry(tally, case, file, steps);
    }
    compare_within::program(tally, case, &["3".to_string()], file);
}
