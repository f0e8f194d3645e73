//! Compares the product's chosen order with this implementation's, through C and through `reorder`.

use crate::choice::{self, Choice};
use crate::compare::{held, AROUND};
use crate::compare_steps;
use crate::file;
use crate::met::Met;
use crate::product::{self, Listing, Ordered};
use crate::programs;
use crate::random::Random;
use crate::refusal::Refusal;
use crate::report;
use crate::step_list;
use crate::tally::{Case, Tally};

/// The bytes of a number of the list.
const NUMBER: usize = 8;

/// Calls the entry with a list of so many numbers; compares what it returns and every byte of the list
/// and around it. The sum is held to the step list of the file with that order too.
pub fn entry(tally: &mut Tally, case: Case, file: &[u8], room: usize) {
    let expected = choice::of_file(file, room);
    let mut random = Random::new(case.seed);
    let start = random.pick(&[0, NUMBER, AROUND]);
    let length = start + NUMBER * room + random.pick(&[0, AROUND]);
    let mut memory = held(&mut random, length);
    let mut expected_memory = memory.clone();
    if let Ok(Choice { order, .. }) = &expected {
        for (place, &state) in expected_memory[start..].chunks_mut(NUMBER).zip(order) {
            place.copy_from_slice(&u64::from(state).to_ne_bytes());
        }
    }
    let told = told(&expected);
    let came = product::order(&Listing { file, start, room }, &mut memory);
    let alike = came.as_ref().is_ok_and(|came| *came == told) && memory == expected_memory;
    tally.check(case, file, alike, || {
        format!("order, list of {room}: expected {told:?}, came {came:?}")
    });
    match expected {
        Ok(choice) => steps_of(tally, case, file, &choice),
        Err(refusal) => {
            tally.meet(Met::OrderLengthWrong, refusal.number == 1);
            tally.meet(Met::OrderRefused, refusal.number != 1);
        }
    }
}

/// What the entry must return: on a refusal the sum is 0.
fn told(expected: &Result<Choice, Refusal>) -> Ordered {
    let (number, place, sum) = match expected {
        Ok(choice) => (0, 0, choice.sum as u32),
        Err(refusal) => (refusal.number, refusal.place as u32, 0),
    };
    Ordered { number, place, sum, file_unchanged: true }
}

/// The step list of the chain with the chosen order: the product's is compared, and where it answers
/// its rows times its columns have to add up to the sum.
fn steps_of(tally: &mut Tally, case: Case, file: &[u8], choice: &Choice) {
    let reordered = choice::reordered(file).expect("the file was taken");
    compare_steps::entry(tally, case, &reordered, choice.order.len());
    let list = step_list::of_chain(&file::read(&reordered).expect("it is read back"));
    tally.meet(Met::OrderWithTwelve, list.chance.is_err());
    if list.chance.is_ok() {
        let sum: usize = list.records.iter().map(|record| record.rows * record.columns).sum();
        tally.check(case, &reordered, sum == choice.sum, || {
            format!(
                "the step list's products add up to {sum}, those of the order to {}",
                choice.sum
            )
        });
        tally.meet(Met::OrderWithSum, choice.sum > 0);
    }
}

/// Runs `reorder` and compares all that it writes.
pub fn program(tally: &mut Tally, case: Case, file: &[u8]) {
    let expected = match choice::reordered(file) {
        Ok(reordered) => (reordered, Vec::new()),
        Err(refusal) => (Vec::new(), format!("{}\n", report::refused(refusal)).into_bytes()),
    };
    let came = programs::both(programs::REORDER, &[], file);
    let alike = came.as_ref().is_ok_and(|came| *came == expected);
    tally.check(case, file, alike, || {
        format!(
            "reorder: expected {} bytes and {:?}",
            expected.0.len(),
            String::from_utf8_lossy(&expected.1)
        )
    });
    tally.meet(Met::Rewritten, !expected.0.is_empty());
    tally.meet(Met::NotRewritten, expected.0.is_empty());
}
