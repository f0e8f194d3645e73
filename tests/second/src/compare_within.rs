//! Compares the product's chance within so many steps with this implementation's, through C and
//! through `nightwithin`.

use crate::compare;
use crate::figures;
use crate::file;
use crate::live::Reach;
use crate::met::Met;
use crate::plan;
use crate::product::{self, Reached};
use crate::programs;
use crate::random::Random;
use crate::tally::{Asked, Case, Tally};
use crate::within::{self, MOST_STEPS, PARTS};

/// Up to so many steps the true chance is worked out too: its numbers grow with each.
const EXACT_STEPS: u64 = 24;

/// Calls the entry with so many steps and compares what it returns; what it answers is then held to
/// the true chance within so many steps, and to the chance.
pub fn entry(tally: &mut Tally, case: Case, file: &[u8], steps: u64) {
    let expected = within::of_file(file, steps);
    let mut told = Reached { number: 0, place: 0, parts: 0, file_unchanged: true };
    match expected {
        Ok(parts) => told.parts = parts as u32,
        Err(refusal) => {
            told.number = refusal.number;
            told.place = refusal.place as u32;
        }
    }
    let came = product::within(file, steps);
    compare::same(tally, case, file, (&told, &came), &format!("within {steps}"));
    tally.number(Asked::Within, told.number);
    if let (Ok(_), Ok(Reached { number: 0, parts, .. })) = (expected, came) {
        held_to(tally, case, file, steps, u64::from(parts));
    }
}

/// The two inequalities of the true chance within so many steps, and that of the chance.
fn held_to(tally: &mut Tally, case: Case, file: &[u8], steps: u64, parts: u64) {
    let mut chain = file::read(file).expect("it was answered");
    // The file's own order may be wrong, and none decides the chance.
    chain.order = (0..chain.states() as u8).collect();
    tally.meet(Met::Between, parts > 0 && parts < PARTS);
    if steps <= EXACT_STEPS {
        if let Some(truth) = within::truly(&chain, steps) {
            tally.check(case, file, within::near(parts, steps, &truth), || {
                format!("within {steps}: {parts} parts are above the true chance or not near it")
            });
            tally.meet(Met::Near, steps > 0);
        }
    }
    if let Ok(chance) = figures::chance(&chain, &Reach::of(&chain)) {
        let below = u128::from(parts) * chance.denominator <= u128::from(PARTS) * chance.numerator;
        tally.check(case, file, below, || {
            format!("within {steps}: {parts} parts are more than the chance {chance}")
        });
    }
}

/// Runs `nightwithin` with these words and compares its line, and whether it tells its usage.
pub fn program(tally: &mut Tally, case: Case, words: &[String], file: &[u8]) {
    let expected = within::line(words, file);
    compare::with_words(tally, case, (programs::NIGHTWITHIN, 1), words, file, &expected);
    let steps = within::steps(words).unwrap_or(u64::MAX);
    let number = within::of_file(file, steps).map_or_else(|refusal| refusal.number, |_| 0);
    tally.number(Asked::WithinText, number);
}

/// A number of steps: mostly few, at times the most, and now and then too many.
pub fn steps(random: &mut Random) -> u64 {
    if random.once_in(16) {
        return random.pick(&[MOST_STEPS, MOST_STEPS + 1, 1 << 32, (1 << 32) + 3, u64::MAX]);
    }
    let most = random.pick(&[3, 3, 24, 100]);
    random.below(most + 1) as u64
}

/// The words of a number of steps: at times none, two, or one that says no number.
pub fn words(random: &mut Random) -> Vec<String> {
    let mut words = vec![steps(random).to_string()];
    if random.once_in(8) {
        words[0] = random.pick(&plan::ODD).to_string();
    }
    if random.once_in(16) {
        words.push(random.pick(&plan::ODD).to_string());
    }
    if random.once_in(16) {
        words.clear();
    }
    words
}
