//! Compares the product's step list with this implementation's, through C and through `nightsteps`.

use crate::compare::{self, held, AROUND};
use crate::line::Line;
use crate::met::Met;
use crate::product::{self, Listing, Stepped};
use crate::programs;
use crate::random::Random;
use crate::refusal::Refusal;
use crate::step_list::{self, StepList};
use crate::steps::StepRecord;
use crate::tally::{Asked, Case, Tally};

/// The bytes of a record: four numbers of 8.
const RECORD: usize = 32;

/// Calls the step list's entry with a list of so many records; compares what it returns, the records
/// and every byte of the list and around it.
pub fn entry(tally: &mut Tally, case: Case, file: &[u8], room: usize) {
    let expected = step_list::of_file(file, room);
    let mut random = Random::new(case.seed);
    let start = random.pick(&[0, 8, AROUND]);
    let length = start + RECORD * room + random.pick(&[0, AROUND]);
    let mut memory = held(&mut random, length);
    let mut expected_memory = memory.clone();
    if let Ok(list) = &expected {
        let places = expected_memory[start..].chunks_mut(RECORD);
        for (place, record) in places.zip(&list.records) {
            place.copy_from_slice(&bytes(record));
        }
    }
    let told = told(&expected);
    let came = product::steps(&Listing { file, start, room }, &mut memory);
    let alike = came.as_ref().is_ok_and(|came| *came == told) && memory == expected_memory;
    tally.check(case, file, alike, || {
        let wrong = (0..memory.len()).filter(|&at| memory[at] != expected_memory[at]).count();
        format!("steps, list of {room}: expected {told:?}, came {came:?}, {wrong} bytes wrong")
    });
    tally.number(Asked::Steps, told.number);
    meet(tally, &expected, room);
    if let Ok(list) = &expected {
        if list.chance.is_ok() {
            limit(tally, case, file, list, &memory[start..]);
        }
    }
}

/// Holds the records that came with an answer to the limit of request 12.
fn limit(tally: &mut Tally, case: Case, file: &[u8], list: &StepList, memory: &[u8]) {
    let number = |bytes: &[u8]| u64::from_ne_bytes(bytes.try_into().expect("8 bytes"));
    let product = |record: &[u8]| number(&record[8..16]) * number(&record[16..24]);
    let products: u64 = memory.chunks(RECORD).take(list.records.len()).map(product).sum();
    let limit = list.line.limit();
    tally.check(case, file, products <= limit, || {
        let Line { others, span } = list.line;
        format!("{others} states, edges of {span} places: {products} is above {limit}")
    });
    let some = list.line.others > 0;
    tally.meet(Met::Point, some && list.line.span == 0 && products == limit);
    tally.meet(Met::Narrow, some && (1..4).contains(&list.line.span));
    tally.meet(Met::Wide, list.line.span > 3);
}

/// A record as a caller in C finds it.
fn bytes(record: &StepRecord) -> [u8; RECORD] {
    let &StepRecord { state, rows, columns, divisor } = record;
    let divisor = u64::try_from(divisor).expect("a divisor has 8 bytes");
    let mut bytes = [0; RECORD];
    let numbers = [state as u64, rows as u64, columns as u64, divisor];
    for (place, number) in bytes.chunks_mut(8).zip(numbers) {
        place.copy_from_slice(&number.to_ne_bytes());
    }
    bytes
}

/// What the entry must return: on a refusal the fraction is 0 over 0, and only 12 has a count.
fn told(expected: &Result<StepList, Refusal>) -> Stepped {
    let (records, chance) = match expected {
        Ok(list) => (list.records.len(), list.chance),
        Err(refusal) => (0, Err(*refusal)),
    };
    let count = records as u32;
    let file_unchanged = true;
    match chance {
        Ok(fraction) => {
            let [numerator, denominator] = [fraction.numerator, fraction.denominator]
                .map(|number| u32::try_from(number).expect("an answer's numbers are at most M"));
            Stepped { number: 0, place: 0, count, numerator, denominator, file_unchanged }
        }
        Err(Refusal { number, place }) => {
            let place = place as u32;
            Stepped { number, place, count, numerator: 0, denominator: 0, file_unchanged }
        }
    }
}

/// Counts the kinds of outcome and of list that a call has met.
fn meet(tally: &mut Tally, expected: &Result<StepList, Refusal>, room: usize) {
    let list = match expected {
        Ok(list) => list,
        Err(refusal) => return tally.meet(Met::TooShort, refusal.number == 2),
    };
    let some = !list.records.is_empty();
    tally.meet(Met::Through, list.chance.is_ok() && some);
    tally.meet(Met::NoStep, list.chance.is_ok() && !some);
    tally.meet(Met::StoppedLater, list.chance.is_err() && some);
    tally.meet(Met::StoppedAtOnce, list.chance.is_err() && !some);
    tally.meet(Met::Exact, room == list.states);
    tally.meet(Met::Longer, room > list.states);
    tally.meet(Met::Divided, list.records.iter().any(|record| record.divisor > 1));
}

/// Runs `nightsteps` and compares all that it prints.
pub fn program(tally: &mut Tally, case: Case, file: &[u8]) {
    text(tally, case, file, &step_list::text(file));
}

/// Runs `nightsteps` and compares all that it prints with a text that is known from elsewhere.
pub fn text(tally: &mut Tally, case: Case, file: &[u8], expected: &str) {
    compare::printed(tally, case, programs::NIGHTSTEPS, file, expected);
    let last = expected.lines().last().expect("a text has a line");
    let words: Vec<&str> = last.split(' ').collect();
    let number = match words[..] {
        [.., "refused", number, "at", _] => number.parse().expect("a refusal's number"),
        _ => 0,
    };
    tally.number(Asked::StepsText, number);
    tally.meet(Met::PrintedLater, number == 12 && expected.lines().count() > 1);
}
