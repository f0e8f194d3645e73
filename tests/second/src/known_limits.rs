//! What is known of limits and plans beforehand: nights, words and plans worked by hand.

use crate::compare_limit;
use crate::compare_plans;
use crate::examples::DAMAGED;
use crate::file;
use crate::limit::{known, Judged, MOST_DIGITS, MOST_TENS};
use crate::limit_cases;
use crate::limit_known::{nights, words, Night, FEWEST, TABLES};
use crate::limit_words::{LIMITS, NONE};
use crate::tally::{Case, Tally};

pub fn answers(tally: &mut Tally) {
    for (place, night) in nights().into_iter().enumerate() {
        one_night(tally, Case { family: night.name, seed: place as u64 }, &night);
    }
    all_words(tally);
    for (place, (line, text)) in FEWEST.into_iter().enumerate() {
        let case = Case { family: "known fewest copies", seed: place as u64 };
        let came = compare_plans::fewest_program(tally, case, &words(line));
        is(tally, case, &came, text);
    }
    for (place, (line, lines)) in TABLES.into_iter().enumerate() {
        let case = Case { family: "known tables of plans", seed: place as u64 };
        let came = compare_plans::table_program(tally, case, &words(line));
        for known in lines {
            let line = came.lines().find(|line| line == known).unwrap_or(&came);
            is(tally, case, line, known);
        }
    }
    let case = Case { family: "no words of plans", seed: 0 };
    compare_plans::table_program(tally, case, &[]);
    compare_plans::fewest_program(tally, case, &[]);
}

/// Holds what came to a text that is known.
fn is(tally: &mut Tally, case: Case, came: &str, known: &str) {
    tally.check(case, &[], came == known, || format!("expected {known:?}, came {came:?}"));
}

/// Every limit beside the chance, all numbers of tens, and the lines that are known.
fn one_night(tally: &mut Tally, case: Case, night: &Night) {
    for version in [1, 2] {
        let file = file::write(&night.chain, version);
        let judged = Judged::of_file(&file).expect("the chain is well formed");
        for limit in limit_cases::beside(&judged) {
            compare_limit::at(tally, case, &file, Ok(&judged), limit);
        }
        compare_limit::figures_are_words(tally, case, &file, &judged);
    }
    let file = file::write(&night.chain, 2);
    let judged = Judged::of_file(&file).expect("the chain is well formed");
    for tens in 0..=MOST_TENS + 1 {
        for digits in [1, MOST_DIGITS] {
            compare_limit::entry(tally, case, &file, Ok(&judged), (digits, tens));
        }
    }
    for (word, line) in night.lines {
        let came = compare_limit::program(tally, case, &words(word), &file, Ok(&judged));
        is(tally, case, &came, &format!("{line}\n"));
    }
}

/// Every word that is known, with a file that is answered and with files that are refused.
fn all_words(tally: &mut Tally) {
    let case = Case { family: "known words of limits", seed: 0 };
    let file = file::write(&nights()[0].chain, 2);
    let files = [&file, DAMAGED, &[]].map(|file: &[u8]| (file, Judged::of_file(file)));
    let all = LIMITS.iter().map(|limit| limit.0).chain(NONE);
    for (turn, word) in all.enumerate() {
        // The refused ones with a part of them.
        for (file, judged) in files.iter().take(if turn % 8 == 0 { 3 } else { 1 }) {
            compare_limit::program(tally, case, &[word.to_string()], file, known(judged));
        }
    }
    for words in [&[][..], &["1", ""], &["1", "1"], &["x", "1"], &["0.5", "0.5", "0.5"]] {
        let words: Vec<String> = words.iter().map(|word| word.to_string()).collect();
        compare_limit::program(tally, case, &words, &file, known(&files[0].1));
        compare_limit::unread(tally, case, &words);
    }
    for word in ["0", "x", "", "1.1", "1e-701"] {
        compare_limit::unread(tally, case, &[word.to_string()]);
    }
}
