//! Nights, plans and limits whose lines are known beforehand.

use crate::chain::{Chain, M};
use crate::plan::{Plan, MOST_WEIGHT};
use crate::worked::{address, chain, no_fit};

/// A chain, the word of a limit, and the line that is printed.
pub struct Night {
    pub name: &'static str,
    pub chain: Chain,
    pub lines: &'static [(&'static str, &'static str)],
}

/// A quarter by its equations, at which the exact entry does not arrive: the start's row outgrows M.
pub fn hidden_quarter() -> Chain {
    let quarter: &[(u8, u32)] = &[(3, 1), (4, 3)];
    chain(&[&[(1, 1), (2, M - 1)], quarter, quarter, &[(3, 1)], &[(4, 1)]], &[3], &[])
}

fn plan(copies: u64, weights: [u64; 3]) -> Chain {
    Plan { copies, weights }.chain()
}

pub fn nights() -> Vec<Night> {
    let mut nights = from_the_issue();
    nights.extend(by_fractions());
    nights.extend(by_figures());
    nights
}

fn from_the_issue() -> Vec<Night> {
    vec![
        Night {
            name: "limit, six copies",
            chain: plan(6, [1, 20, 100]),
            lines: &[
                ("1e-9", "kept 2.48121e-10 2.48122e-10"),
                ("1e-10", "broken 2.48121e-10 2.48122e-10"),
                ("2.48121e-10", "open 2.48121e-10 2.48122e-10"),
                ("2.48122e-10", "kept 2.48121e-10 2.48122e-10"),
                // Just below both figures.
                ("0.0000000002481209", "broken 2.48121e-10 2.48122e-10"),
                ("2481219e-16", "open 2.48121e-10 2.48122e-10"),
            ],
        },
        Night {
            name: "limit, a quarter",
            chain: plan(1, [1, 1, 3]),
            lines: &[
                ("0.25", "kept 2.49999e-1 2.50001e-1"),
                ("0.2499999", "broken 2.49999e-1 2.50001e-1"),
                ("0.2500001", "kept 2.49999e-1 2.50001e-1"),
                ("25e-2", "kept 2.49999e-1 2.50001e-1"),
                ("25e-3", "broken 2.49999e-1 2.50001e-1"),
                ("24.99999e-2", "broken 2.49999e-1 2.50001e-1"),
            ],
        },
    ]
}

/// Nights that the exact entry answers.
fn by_fractions() -> Vec<Night> {
    vec![
        // 4375/4376 is 0.99977147...
        Night {
            name: "limit, address, goal 5",
            chain: address(&[5], &[]),
            lines: &[
                ("1", "kept 9.99771e-1 9.99772e-1"),
                ("0.9997715", "kept 9.99771e-1 9.99772e-1"),
                ("0.9997714", "broken 9.99771e-1 9.99772e-1"),
                ("1e-700", "broken 9.99771e-1 9.99772e-1"),
            ],
        },
        // 1/4376 is 0.000228519195...
        Night {
            name: "limit, address, goal 6",
            chain: address(&[6], &[]),
            lines: &[
                ("2.285191e-4", "broken 2.28519e-4 2.28520e-4"),
                ("2.285192e-4", "kept 2.28519e-4 2.28520e-4"),
                ("0.0003", "kept 2.28519e-4 2.28520e-4"),
            ],
        },
        Night {
            name: "limit, no path to a goal",
            chain: Chain { start: 6, ..address(&[5], &[]) },
            lines: &[("1e-700", "kept 0 0"), ("1", "kept 0 0")],
        },
        Night {
            name: "limit, the start is a goal",
            chain: address(&[0], &[]),
            lines: &[("1", "kept 1 1"), ("1.000000", "kept 1 1"), ("0.9999999", "broken 1 1")],
        },
    ]
}

/// Nights that the exact entry refuses with 12.
fn by_figures() -> Vec<Night> {
    vec![
        Night {
            name: "limit, a quarter that does not fit",
            chain: hidden_quarter(),
            lines: &[
                ("0.25", "open 2.49999e-1 2.50001e-1"),
                ("0.2500001", "open 2.49999e-1 2.50001e-1"),
                ("0.250001", "kept 2.49999e-1 2.50001e-1"),
                ("0.249999", "open 2.49999e-1 2.50001e-1"),
                ("0.2499989", "broken 2.49999e-1 2.50001e-1"),
            ],
        },
        // 1/6442450941.
        Night {
            name: "limit, no fit",
            chain: no_fit(),
            lines: &[
                ("1.55220e-10", "open 1.55220e-10 1.55221e-10"),
                ("1.55221e-10", "kept 1.55220e-10 1.55221e-10"),
                ("1.55219e-10", "broken 1.55220e-10 1.55221e-10"),
                ("9999999e-700", "broken 1.55220e-10 1.55221e-10"),
                ("1", "kept 1.55220e-10 1.55221e-10"),
            ],
        },
        Night {
            name: "limit, 32 copies that are hardly lost",
            chain: plan(32, [1, MOST_WEIGHT, MOST_WEIGHT]),
            lines: &[
                ("1.22512e-166", "open 1.22512e-166 1.22513e-166"),
                ("122513e-171", "kept 1.22512e-166 1.22513e-166"),
                ("1.225119e-166", "broken 1.22512e-166 1.22513e-166"),
                ("9e-167", "broken 1.22512e-166 1.22513e-166"),
                ("1.3e-166", "kept 1.22512e-166 1.22513e-166"),
            ],
        },
    ]
}

/// The words of `fewestcopies`, and all that it prints. The chances are known as fractions.
pub const FEWEST: [(&str, &str); 24] = [
    ("1 20 100 1e-10", "copies 7 1.37799e-11 1.37800e-11\n"),
    ("1 20 100 2.48121e-10", "copies 7 1.37799e-11 1.37800e-11\nopen 6\n"),
    ("20 20 100 1e-6", "none 32 1.13247e-6 1.13248e-6\n"),
    ("1 20 100 2.48122e-10", "copies 6 2.48121e-10 2.48122e-10\n"),
    ("1 20 100 2.481209e-10", "copies 7 1.37799e-11 1.37800e-11\n"),
    ("1 20 100 1", "copies 1 9.90099e-3 9.90100e-3\n"),
    ("1 20 100 1e-33", "none 32 2.69171e-33 2.69172e-33\n"),
    ("1 20 100 2.69171e-33", "none 32 2.69171e-33 2.69172e-33\nopen 32\n"),
    ("1 20 100 2.69172e-33", "copies 32 2.69171e-33 2.69172e-33\n"),
    ("20 20 100 1.13247e-6", "none 32 1.13247e-6 1.13248e-6\nopen 32\n"),
    // A quarter, and 2/23.
    ("1 1 3 0.25", "copies 1 2.49999e-1 2.50001e-1\n"),
    ("1 1 3 0.2499999", "copies 2 8.69565e-2 8.69566e-2\n"),
    ("1 1 3 0.086956522", "refused 35 at 0\n"),
    ("1 1 3 8.695653e-2", "copies 2 8.69565e-2 8.69566e-2\n"),
    ("1 1 3 8.695652e-2", "copies 3 3.92156e-2 3.92157e-2\n"),
    // Copies that are hardly kept: many of them have figures between which the limit lies.
    ("1000000 1 1 0.999997", "copies 12 9.99996e-1 9.99997e-1\nopen 4\n"),
    ("1000000 1 1 0.999996", "none 32 9.99995e-1 9.99997e-1\nopen 11\n"),
    ("1000000 1 1 0.9999999", "copies 1 9.99998e-1 1\n"),
    ("1000000 1 1 0.9", "none 32 9.99995e-1 9.99997e-1\n"),
    ("0 20 100 x", "refused 31 at 0\n"),
    ("1 20 100 x", "refused 35 at 0\n"),
    ("1 20 100", "refused 35 at 0\n"),
    ("1 20", "refused 31 at 2\n"),
    ("1 20 100 1e-9 1", "refused 35 at 0\n"),
];

/// The words of `plantable`, and lines that it prints among others, or alone where it refuses.
pub const TABLES: [(&str, &[&str]); 8] = [
    (
        "1 20 100",
        &[
            "copies 1 9.90099e-3 9.90100e-3",
            "copies 5 5.17728e-9 5.17729e-9",
            "copies 6 2.48121e-10 2.48122e-10",
            "copies 7 1.37799e-11 1.37800e-11",
            "copies 32 2.69171e-33 2.69172e-33",
        ],
    ),
    ("20 20 100", &["copies 32 1.13247e-6 1.13248e-6"]),
    ("1 1 3", &["copies 1 2.49999e-1 2.50001e-1", "copies 2 8.69565e-2 8.69566e-2"]),
    ("1 20 1000001", &["refused 31 at 2"]),
    ("1 0 0", &["refused 31 at 1"]),
    ("1 20 100 1", &["refused 31 at 2"]),
    ("0 20 100 1", &["refused 31 at 0"]),
    ("1 20", &["refused 31 at 2"]),
];

/// The words of a line.
pub fn words(line: &str) -> Vec<String> {
    line.split(' ').map(str::to_string).collect()
}

#[cfg(test)]
mod tests {
    use super::*;
    use crate::limit::{self, Judged};
    use crate::{fewest, file, plan_table};

    #[test]
    fn every_known_night_has_its_line() {
        for Night { name, chain, lines } in nights() {
            let judged = Judged::of_file(&file::write(&chain, 2)).expect(name);
            for (word, line) in lines {
                let text = limit::text(&words(word), Ok(&judged));
                assert_eq!(text, format!("{line}\n"), "{name}: {word}");
            }
        }
    }

    #[test]
    fn every_known_plan_has_its_fewest_copies() {
        for (line, text) in FEWEST {
            assert_eq!(fewest::text(&fewest::asked(&words(line))), text, "{line}");
        }
    }

    #[test]
    fn every_known_table_has_its_lines() {
        for (line, lines) in TABLES {
            let text = plan_table::text(&words(line));
            assert!(lines.iter().all(|line| text.lines().any(|other| other == *line)), "{line}");
        }
    }
}
