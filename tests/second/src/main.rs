//! A second implementation of documents 01 and 02, compared with the product.
//!
//! It makes chains and damaged requests from fixed seeds, calls the C entries of the product's static
//! library on all of them and its programs `nightchance`, `nightsteps`, `reorder`, `nightwithin`,
//! `checkshares`, `nightnear`, `nightlimit` and `salvage` on a part, runs its programs `plancopies`,
//! `plantable` and `fewestcopies` on plans, and compares every answer with its own; so it does with
//! chains as text, through C, `showchain` and `makechain`. Its last line is
//! `second: N passed, 0 failed`, where N counts comparisons.
//!
//! `cargo run --release` compares, with the word `sample` on a small part of it, with `limits` on
//! limits and plans and with `texts` on texts alone, beside what is known beforehand; `cargo test`
//! tries this implementation alone on the chains that are worked by hand. The product is sought below
//! the repository's `target`.

mod block;
mod chain;
mod check;
mod choice;
mod compare;
mod compare_check;
mod compare_choice;
mod compare_file;
mod compare_limit;
mod compare_near;
mod compare_plans;
mod compare_salvage;
mod compare_steps;
mod compare_text;
mod compare_within;
mod damage;
mod damage_check;
mod damage_edges;
mod damage_head;
mod damage_lent;
mod damage_tables;
mod draft;
mod entry;
mod equations;
mod exact;
mod examples;
mod fewest;
mod figures;
mod file;
mod fraction;
mod generate;
mod known;
mod known_limits;
mod limit;
mod limit_cases;
mod limit_chains;
mod limit_known;
mod limit_words;
mod line;
mod live;
mod met;
mod modular;
mod natural;
mod near;
mod near_chains;
mod near_held;
mod near_known;
mod near_text;
mod plan;
mod plan_table;
mod product;
mod product_limits;
mod product_text;
mod programs;
mod random;
mod refusal;
mod report;
mod salvage;
mod sharp;
mod step_list;
mod steps;
mod tables;
mod tally;
mod tally_text;
mod text;
mod text_damage;
mod text_damage_words;
mod text_known;
mod text_known_lines;
mod text_work;
mod within;
mod work;
mod work_limits;
mod worked;
mod worked_refused;
mod worked_salvage;
mod worked_steps;

use std::env;
use std::process::ExitCode;

fn main() -> ExitCode {
    let part = match env::args().nth(1).as_deref() {
        None => work::ALL,
        Some("sample") => work::SAMPLE,
        Some("limits") => work::LIMITS,
        Some("texts") => work::TEXTS,
        Some(_) => {
            eprintln!("usage: second [sample | limits | texts]");
            return ExitCode::FAILURE;
        }
    };
    let programs = [
        programs::NIGHTCHANCE,
        programs::NIGHTSTEPS,
        programs::REORDER,
        programs::NIGHTWITHIN,
        programs::CHECKSHARES,
        programs::NIGHTNEAR,
        programs::SALVAGE,
        programs::PLANCOPIES,
        programs::NIGHTLIMIT,
        programs::PLANTABLE,
        programs::FEWESTCOPIES,
        programs::SHOWCHAIN,
        programs::MAKECHAIN,
    ];
    for program in programs.map(programs::program).into_iter().chain([product::driver()]) {
        if !program.is_file() {
            eprintln!("The program {} is missing.", program.display());
            return ExitCode::FAILURE;
        }
    }
    if work::run(part).print() {
        ExitCode::SUCCESS
    } else {
        ExitCode::FAILURE
    }
}
