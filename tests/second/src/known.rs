//! What is known beforehand: chains worked by hand, the examples, plans, and files that are refused at sight.

use crate::block;
use crate::chain::{Chain, MOST_STATES};
use crate::compare;
use crate::compare_check;
use crate::compare_file;
use crate::compare_limit;
use crate::compare_near;
use crate::compare_salvage;
use crate::compare_steps;
use crate::compare_text;
use crate::compare_within;
use crate::damage::Request;
use crate::entry::{ANSWER, EXACT};
use crate::examples::EXAMPLES;
use crate::file;
use crate::known_limits;
use crate::limit::Judged;
use crate::limit_known::words;
use crate::near_known;
use crate::plan::{self, Plan};
use crate::tally::{Asked, Case, Tally};
use crate::text_work;
use crate::worked;
use crate::worked_salvage;
use crate::worked_steps;

/// The chains worked by hand and the examples: all the product's answers, and the lines that
/// document 01, our own working and the examples' script give.
pub fn answers(tally: &mut Tally) {
    for (place, worked) in worked::all().into_iter().enumerate() {
        let case = Case { family: worked.name, seed: place as u64 };
        for &version in worked.chain.versions() {
            let file = file::write(&worked.chain, version);
            compare_file::chain(tally, case, &worked.chain, version);
            compare::report_lines(tally, case, &file, worked.lines);
            compare_file::lists(tally, case, &file, worked.chain.states());
            compare_file::orders(tally, case, &file, worked.chain.states());
            compare_file::within(tally, case, &file);
            compare_check::tables(tally, case, &worked.chain, &file);
            compare_salvage::program(tally, case, &file);
            compare_near::entry(tally, case, &file, None);
            compare_near::from_all(tally, case, &file, worked.chain.states());
        }
    }
    for (place, (family, chain, text)) in worked_steps::all().into_iter().enumerate() {
        let case = Case { family, seed: place as u64 };
        for &version in chain.versions() {
            let file = file::write(&chain, version);
            compare_steps::text(tally, case, &file, text);
            compare_file::lists(tally, case, &file, chain.states());
        }
    }
    for (place, (family, file, text)) in worked_salvage::all().into_iter().enumerate() {
        compare_salvage::text(tally, Case { family, seed: place as u64 }, &file, text);
    }
    for (family, file, lines, text) in EXAMPLES {
        let case = Case { family, seed: 0 };
        compare::report_lines(tally, case, file, lines);
        compare_steps::text(tally, case, file, text);
        compare_file::within(tally, case, file);
        compare_near::program(tally, case, &[], file);
        compare_check::tables(
            tally,
            case,
            &file::read(file).expect("an example is a chain file"),
            file,
        );
    }
    for (line, printed) in plan::KNOWN {
        let case = Case { family: "known plans", seed: 0 };
        let words = words(line);
        tally.check(case, &[], Plan::of_words(&words).line() == format!("{printed}\n"), || {
            format!("this implementation does not say {printed} of the plan {line}")
        });
        compare::plan(tally, case, &words);
    }
    near_chances(tally);
    known_limits::answers(tally);
    text_work::known(tally);
    let zeros = Case { family: "512 zero bytes", seed: 0 };
    compare::report_lines(tally, zeros, &[0; 512], &["refused 23 at 0"]);
    far_too_long(tally);
}

/// The chains whose near chances are known: both calls from every state, also where the file's start
/// is no state, and the program; with the first chain it is given words of each kind.
fn near_chances(tally: &mut Tally) {
    for (place, known) in near_known::all().into_iter().enumerate() {
        let case = Case { family: known.name, seed: place as u64 };
        let n = known.chain.states();
        let file = file::write(&known.chain, 2);
        let wrong = file::write(&Chain { start: n as u8, ..known.chain.clone() }, 2);
        compare_near::known(tally, case, &file, &known);
        for file in [&file, &file::write(&known.chain, 1), &wrong] {
            compare_near::entry(tally, case, file, None);
            compare_near::from_all(tally, case, file, n);
        }
        let start = known.chain.start.to_string();
        compare_near::text(tally, case, &[], &file, known.text);
        compare_near::text(tally, case, &[start], &wrong, known.text);
        if place == 0 {
            for word in plan::ODD.into_iter().chain(["0", "6", "7", "63", "64", "255", "256"]) {
                compare_near::program(tally, case, &[word.to_string()], &file);
            }
            for words in [["0", "0"], ["0", ""], ["", "x"]] {
                compare_near::program(tally, case, &words.map(str::to_string), &file);
            }
            compare_near::program(tally, case, &[], &wrong);
        }
    }
}

/// A chain file with 65,536 blocks behind it: in two bytes its block total would be right.
fn far_too_long(tally: &mut Tally) {
    let case = Case { family: "65,536 blocks too many", seed: 0 };
    let mut file = file::write(&worked::chains()[0].chain, 2);
    file.resize(file.len() + 65_536 * block::LENGTH, 0);
    compare::report(tally, case, &file);
    compare_steps::program(tally, case, &file);
    compare_steps::entry(tally, case, &file, MOST_STATES);
    compare_file::orders(tally, case, &file, worked::chains()[0].chain.states());
    compare_within::entry(tally, case, &file, 3);
    compare_within::program(tally, case, &["3".to_string()], &file);
    compare_check::entry(tally, case, &file, &[]);
    compare_check::program(tally, case, &file, None);
    compare_salvage::program(tally, case, &file);
    compare_near::entry(tally, case, &file, None);
    compare_near::entry(tally, case, &file, Some(0));
    for words in [vec![], vec!["0".to_string()], vec!["x".to_string()]] {
        compare_near::program(tally, case, &words, &file);
    }
    let refusal = Judged::of_file(&file).err().expect("it is refused");
    compare_limit::entry(tally, case, &file, Err(refusal), (1, 0));
    compare_limit::program(tally, case, &words("1"), &file, Err(refusal));
    compare_text::there_and_back(tally, case, &file, compare_text::ROOM);
    compare_text::showchain(tally, case, &file);
    let request = Request { file, mode: EXACT, answer_length: ANSWER };
    compare::entry(tally, case, &request, Asked::EntryOnDamage);
}
