//! Compares the product with this implementation, one request at a time.

use crate::block::four_bytes;
use crate::damage::Request;
use crate::entry::{self, Pair, ANSWER, EXACT};
use crate::file;
use crate::fraction::Fraction;
use crate::plan::Plan;
use crate::product::{self, Call, Reply, Writing, Written};
use crate::programs;
use crate::random::Random;
use crate::refusal::Refusal;
use crate::report;
use crate::tables::Tables;
use crate::tally::{Asked, Case, Tally};
use std::fmt::Debug;
use std::io;

/// Bytes before and behind an answer that must stay as they are.
pub const AROUND: usize = 24;

/// Calls the C entry; compares its number, its answer and every byte around the answer. Hands back
/// the product's answer where it gives one.
pub fn entry(tally: &mut Tally, case: Case, request: &Request, asked: Asked) -> Option<Pair> {
    let Request { file, mode, answer_length } = request;
    let expected = entry::chance(file, *mode, *answer_length);

    // Filled with random bytes, and at any alignment.
    let mut random = Random::new(case.seed);
    let start = random.between(AROUND - 8, AROUND);
    let mut memory: Vec<u8> = (0..answer_length + 2 * AROUND).map(|_| random.byte()).collect();
    let mut expected_memory = memory.clone();
    if let Ok(answer) = expected {
        expected_memory[start..start + ANSWER].copy_from_slice(&entry::bytes(answer));
    }
    let call = Call { file, mode: *mode, start, answer_length: *answer_length };
    let reply = product::chance(&call, &mut memory);

    let expected_number = expected.map_or_else(|refusal| refusal.number, |_| 0);
    let good = |reply: &Reply| reply.number == expected_number && reply.file_unchanged;
    let alike = reply.as_ref().is_ok_and(good) && memory == expected_memory;
    tally.check(case, file, alike, || {
        let expected = told(expected_number, &expected_memory[start..]);
        let came = match &reply {
            Ok(reply) => differences(reply, &memory, &expected_memory, start),
            Err(error) => format!("nothing: {error}"),
        };
        format!("entry, mode {mode}, answer of {answer_length}: expected {expected}, came {came}")
    });
    tally.number(asked, expected_number);
    if reply.ok()?.number != 0 || *answer_length < ANSWER {
        return None;
    }
    let answer = decode(&memory[start..])?;
    if *mode != EXACT && answer.0 != answer.1 {
        tally.open_bounds += 1;
    }
    Some(answer)
}

/// What an entry returned, in words.
fn told(number: u32, answer: &[u8]) -> String {
    match number {
        0 => format!("the answer {:?}", numbers(answer)),
        _ => format!("refusal {number}"),
    }
}

/// A reply in words, with every byte that is not as it was expected.
fn differences(reply: &Reply, memory: &[u8], expected: &[u8], start: usize) -> String {
    let changed = (0..memory.len()).filter(|&at| memory[at] != expected[at]);
    format!(
        "{}; wrong bytes, counted from the answer: {:?}; file unchanged: {}",
        told(reply.number, &memory[start..]),
        changed.map(|at| at as isize - start as isize).collect::<Vec<_>>(),
        reply.file_unchanged
    )
}

/// The four numbers of an answer.
fn numbers(answer: &[u8]) -> [u32; 4] {
    [0, 4, 8, 12].map(|at| four_bytes(answer, at))
}

/// The two fractions of an answer; None where one is over 0, which `entry` has told of.
fn decode(answer: &[u8]) -> Option<Pair> {
    let [lower, lower_by, upper, upper_by] = numbers(answer).map(u128::from);
    if lower_by == 0 || upper_by == 0 {
        return None;
    }
    Some((Fraction::new(lower, lower_by), Fraction::new(upper, upper_by)))
}

/// What memory holds before a call, which must not show afterwards: all bits set, or anything.
pub fn held(random: &mut Random, length: usize) -> Vec<u8> {
    let before = random.pick(&[Some(0xff), None]);
    (0..length).map(|_| before.unwrap_or_else(|| random.byte())).collect()
}

/// Calls the writer; compares what it returns, the file and every byte of the buffer and around it.
pub fn writer(tally: &mut Tally, case: Case, tables: &Tables, buffer_length: usize) {
    let expected = tables.written(buffer_length);
    let mut random = Random::new(case.seed);
    let start = random.between(AROUND - 8, AROUND);
    let mut memory = held(&mut random, buffer_length + 2 * AROUND);
    let mut expected_memory = memory.clone();
    let mut told = Written { number: 0, place: 0, length: 0, tables_unchanged: true };
    match &expected {
        Ok(file) => {
            expected_memory[start..start + file.len()].copy_from_slice(file);
            told.length = file.len() as u32;
        }
        Err(Refusal { number, place }) => {
            told.number = *number;
            told.place = *place as u32;
        }
    }
    let came = product::write(&Writing { tables, start, buffer_length }, &mut memory);
    let alike = came.as_ref().is_ok_and(|came| *came == told) && memory == expected_memory;
    tally.check(case, &memory, alike, || {
        let wrong = (0..memory.len()).filter(|&at| memory[at] != expected_memory[at]).count();
        format!("writer, buffer of {buffer_length}: expected {told:?}, came {came:?}, {wrong} bytes wrong")
    });
    tally.number(Asked::Writer, told.number);
    // What the product wrote is read back as these tables, and those are written as it was.
    if let (Ok(_), Some(file)) = (&expected, memory.get(start..start + told.length as usize)) {
        let again = file::read(file).map(|chain| Tables::of(&chain).written(file.len()));
        tally.check(case, file, matches!(again, Ok(Ok(again)) if again == file), || {
            "what the writer wrote is not read back as what was lent".to_string()
        });
    }
}

/// Whether the product's bounds hold the product's exact chance.
pub fn enclosure(tally: &mut Tally, case: Case, file: &[u8], exact: Fraction, bounds: Pair) {
    let (lower, upper) = bounds;
    tally.check(case, file, lower.at_most(exact) && exact.at_most(upper), || {
        format!("the bounds {lower} and {upper} do not hold the chance {exact}")
    });
}

/// Holds what a call returned to what it should; `asked` says which call it was.
pub fn same<T: Debug + PartialEq>(
    tally: &mut Tally,
    case: Case,
    file: &[u8],
    (told, came): (&T, &io::Result<T>),
    asked: &str,
) {
    tally.check(case, file, came.as_ref().is_ok_and(|came| came == told), || {
        format!("{asked}: expected {told:?}, came {came:?}")
    });
}

/// Runs a program on a file and compares all that it prints, which it hands back.
pub fn printed(tally: &mut Tally, case: Case, name: &str, file: &[u8], expected: &str) -> String {
    let came = programs::text(programs::printed(name, file));
    tally.check(case, file, came == expected, || {
        format!("{name}: expected {expected:?}, came {came:?}")
    });
    came
}

/// Runs `nightchance` and compares its whole report, which it hands back.
pub fn report(tally: &mut Tally, case: Case, file: &[u8]) -> String {
    let expected = report::of_file(file);
    let came = printed(tally, case, programs::NIGHTCHANCE, file, &expected);

    for line in expected.lines() {
        let words: Vec<&str> = line.split(' ').collect();
        match words[..] {
            ["refused" | "chance", .., "at", _] => {
                let number = words[words.len() - 3].parse().expect("a refusal's number");
                tally.number(Asked::Report, number);
            }
            ["chance", _] => tally.number(Asked::Report, 0),
            ["reward", "refused", ..] => tally.rewards[2] += 1,
            ["reward", "infinite"] => tally.rewards[1] += 1,
            ["reward", _] => tally.rewards[0] += 1,
            _ => {}
        }
    }
    came
}

/// Runs `plancopies` on these words and compares its line, and whether it tells its usage.
pub fn plan(tally: &mut Tally, case: Case, words: &[String]) {
    let plan = Plan::of_words(words);
    let expected = plan.line();
    with_words(tally, case, (programs::PLANCOPIES, 4), words, &[], &expected);
    tally.number(Asked::Planner, plan.chance().map_or_else(|refusal| refusal.number, |_| 0));
}

/// Runs a program that takes so many words on these, and compares its line, which it hands back, and
/// what it tells people.
pub fn with_words(
    tally: &mut Tally,
    case: Case,
    asked: (&str, usize),
    words: &[String],
    file: &[u8],
    expected: &str,
) -> String {
    let came = programs::both(asked.0, words, file);
    said(tally, case, asked, words, file, expected, &came);
    programs::text(came.map(|(printed, _)| printed))
}

/// Holds what a program said on both its outputs to what it should.
pub fn said(
    tally: &mut Tally,
    case: Case,
    (name, wanted): (&str, usize),
    words: &[String],
    file: &[u8],
    expected: &str,
    came: &io::Result<(Vec<u8>, Vec<u8>)>,
) {
    let right = came.as_ref().is_ok_and(|(printed, told)| {
        printed == expected.as_bytes() && programs::reminded(name, wanted, words, told)
    });
    tally.check(case, file, right, || {
        format!("{name} {words:?}: expected {expected:?}, came {came:?}")
    });
}

/// Compares a whole report, and those of its lines that are known from elsewhere.
pub fn report_lines(tally: &mut Tally, case: Case, file: &[u8], expected: &[&str]) {
    let came = report(tally, case, file);
    for line in expected {
        tally.check(case, file, came.lines().any(|other| other == *line), || {
            format!("report: expected the line {line:?}, came {came:?}")
        });
    }
}
