//! Counts checks and tells of the first that fail.

use crate::met::{Met, MET};
use crate::tally_text::Texts;
use std::collections::{BTreeMap, HashSet};
use std::hash::{DefaultHasher, Hash, Hasher};
use std::ops::RangeInclusive;
use std::{env, fs};

/// How many failures are told in full.
const TOLD: usize = 5;

/// Where a refusal number was expected; each is a column of the table.
#[derive(Clone, Copy)]
pub enum Asked {
    EntryOnChain,
    EntryOnDamage,
    Report,
    Writer,
    Steps,
    StepsText,
    Planner,
    Within,
    WithinText,
    Check,
    CheckText,
    SalvageText,
    Near,
    NearText,
    Limit,
    LimitText,
    PlanNear,
    Copies,
    TableText,
    FewestText,
}

/// The columns of the table, each with room for the numbers below it.
const ASKED: usize = 20;
const HEADINGS: [&str; ASKED] = [
    "entry on chains",
    "entry on damage",
    "reports",
    "writer",
    " steps",
    "printed",
    " plans",
    "within",
    "printed",
    " check",
    "printed",
    "salvage",
    "  near",
    "printed",
    "limits",
    "printed",
    "plans near",
    "plans in C",
    "tables",
    "fewest",
];

/// The numbers that a file's bytes, a mode and an answer's length can give; 0 is an answer. 11 needs
/// a reward above what two bytes hold; 12 comes from the exact mode alone.
const GIVEN: [RangeInclusive<u32>; 3] = [0..=10, 12..=12, 20..=24];
/// Those that need a mode or an answer, which a report does not have.
const NOT_REPORTED: [u32; 2] = [1, 2];
/// Those that need a mode, which the step list does not have.
const NOT_LISTED: [u32; 1] = [1];
/// For each other column the numbers that it can give, and what is asked there in words.
const COVERED: [(Asked, &[RangeInclusive<u32>], &str); 15] = [
    (Asked::Writer, &[0..=11], "call of the writer"),
    (Asked::Within, &WITHIN, "call within so many steps"),
    (Asked::WithinText, &WITHIN, "text of nightwithin"),
    (Asked::Check, &CHECKED, "check of a table"),
    (Asked::CheckText, &CHECKED, "text of checkshares"),
    (Asked::SalvageText, &ALWAYS, "text of salvage"),
    (Asked::Near, &ALWAYS, "call for near chances"),
    (Asked::NearText, &ALWAYS, "text of nightnear"),
    (Asked::Planner, &PLANNED, "plan"),
    (Asked::Limit, &LIMITED, "call for a limit"),
    (Asked::LimitText, &LIMITED, "text of nightlimit"),
    (Asked::PlanNear, &[0..=0, 30..=31], "call for a plan's near chances"),
    (Asked::Copies, &PLANNED, "call for a plan"),
    (Asked::TableText, &[0..=0, 31..=31], "text of plantable"),
    (Asked::FewestText, &[0..=0, 31..=31, 35..=35], "text of fewestcopies"),
];
/// What needs no mode and no room, and always fits.
const ALWAYS: [RangeInclusive<u32>; 3] = [0..=0, 3..=10, 20..=24];
/// Within so many steps the order is not looked at.
const WITHIN: [RangeInclusive<u32>; 4] = [0..=0, 3..=9, 20..=24, 32..=32];
/// Nor is it for a table.
const CHECKED: [RangeInclusive<u32>; 5] = [0..=0, 2..=9, 20..=24, 33..=33, 34..=34];
/// A limit is looked at before a file that is always answered or refused as such.
const LIMITED: [RangeInclusive<u32>; 4] = [0..=0, 3..=10, 20..=24, 35..=35];
const PLANNED: [RangeInclusive<u32>; 3] = [0..=0, 12..=12, 30..=31];
/// How many different chains a run has at least, and how many that fit in different orders.
const CHAINS: usize = 20_000;
const REORDERED: u64 = 300;

/// A case: what made it, and the seed that makes it again.
#[derive(Clone, Copy)]
pub struct Case {
    pub family: &'static str,
    pub seed: u64,
}

#[derive(Default)]
pub struct Tally {
    passed: u64,
    failed: u64,
    told: Vec<String>,
    /// How often each number was expected, by `Asked`; 0 is an answer.
    numbers: BTreeMap<u32, [u64; ASKED]>,
    /// How often each kind was met, by its place in `MET`.
    met: BTreeMap<usize, u64>,
    /// The generated chains, each by a hash of its file, so that none counts twice.
    chains: HashSet<u64>,
    /// Chains whose chance fits in two different orders or more.
    pub reordered: u64,
    /// Bounds whose lower and upper fraction differ.
    pub open_bounds: u64,
    /// Reports whose reward is a fraction, infinite, and refused.
    pub rewards: [u64; 3],
    /// What the comparisons of texts met.
    pub texts: Texts,
}

impl Tally {
    /// Counts one check; `differs` tells what was expected and what came, on this file.
    pub fn check(
        &mut self,
        case: Case,
        file: &[u8],
        holds: bool,
        differs: impl FnOnce() -> String,
    ) {
        if holds {
            self.passed += 1;
            return;
        }
        self.failed += 1;
        if self.told.len() < TOLD {
            let path = env::temp_dir().join(format!("second-{:016x}.chain", case.seed));
            let kept = match fs::write(&path, file) {
                Ok(()) => format!("the file is {}", path.display()),
                Err(error) => format!("the file could not be kept: {error}"),
            };
            let Case { family, seed } = case;
            self.told.push(format!("{family}, seed {seed:#018x}: {}; {kept}", differs()));
        }
    }

    /// Counts a generated chain.
    pub fn chain(&mut self, file: &[u8]) {
        let mut hasher = DefaultHasher::new();
        file.hash(&mut hasher);
        self.chains.insert(hasher.finish());
    }

    /// Counts a number that was expected.
    pub fn number(&mut self, asked: Asked, number: u32) {
        self.numbers.entry(number).or_default()[asked as usize] += 1;
    }

    /// How often a number was expected there.
    fn expected(&self, asked: Asked, number: u32) -> u64 {
        self.numbers.get(&number).map_or(0, |row| row[asked as usize])
    }

    /// Counts a kind where it was met.
    pub fn meet(&mut self, kind: Met, met: bool) {
        *self.met.entry(kind as usize).or_default() += u64::from(met);
    }

    /// How often the kind at this place of `MET` was met.
    fn met(&self, place: usize) -> u64 {
        self.met.get(&place).copied().unwrap_or(0)
    }

    /// Fails for each number that nothing expected, because a pass says nothing about it, and where
    /// chains, orders or step lists are too few.
    pub fn judge_coverage(&mut self) {
        for number in GIVEN.into_iter().flatten() {
            let [chains, damage, reports, lists, texts] = [
                Asked::EntryOnChain,
                Asked::EntryOnDamage,
                Asked::Report,
                Asked::Steps,
                Asked::StepsText,
            ]
            .map(|asked| self.expected(asked, number));
            self.cover(chains + damage > 0, || format!("no call of the entry expects {number}"));
            if !NOT_REPORTED.contains(&number) {
                self.cover(reports > 0, || format!("no report expects {number}"));
                self.cover(texts > 0, || format!("no text of nightsteps expects {number}"));
            }
            if !NOT_LISTED.contains(&number) {
                self.cover(lists > 0, || format!("no call for a step list expects {number}"));
            }
        }
        for (asked, numbers, words) in COVERED {
            for number in numbers.iter().cloned().flatten() {
                let expected = self.expected(asked, number);
                self.cover(expected > 0, || format!("no {words} expects {number}"));
            }
        }
        for (place, (kind, least)) in MET.into_iter().enumerate() {
            let met = self.met(place);
            self.cover(met >= least, || format!("only {met} {kind}"));
        }
        let (chains, reordered) = (self.chains.len(), self.reordered);
        self.cover(chains >= CHAINS, || format!("only {chains} chains differ"));
        self.cover(reordered >= REORDERED, || format!("only {reordered} chains fit in two orders"));
        for (holds, lacks) in self.texts.judged() {
            self.cover(holds, || lacks);
        }
    }

    /// Counts one check of what the run itself covers; it is told however many others failed.
    fn cover(&mut self, holds: bool, lacks: impl FnOnce() -> String) {
        if holds {
            self.passed += 1;
        } else {
            self.failed += 1;
            self.told.push(format!("the run covers too little: {}", lacks()));
        }
    }

    /// Adds what another thread counted.
    pub fn join(&mut self, other: Tally) {
        self.passed += other.passed;
        self.failed += other.failed;
        self.told.extend(other.told);
        self.told.truncate(TOLD);
        for (number, row) in other.numbers {
            for (mine, theirs) in self.numbers.entry(number).or_default().iter_mut().zip(row) {
                *mine += theirs;
            }
        }
        for (mine, theirs) in self.rewards.iter_mut().zip(other.rewards) {
            *mine += theirs;
        }
        for (place, theirs) in other.met {
            *self.met.entry(place).or_default() += theirs;
        }
        self.chains.extend(other.chains);
        self.reordered += other.reordered;
        self.open_bounds += other.open_bounds;
        self.texts.join(other.texts);
    }

    /// Prints a line for each number, with how often each column expected it.
    fn print_numbers(&self) {
        println!("number   {}", HEADINGS.join("   "));
        for (number, row) in &self.numbers {
            let cell = |(heading, count): (&&str, &u64)| format!("{count:0$}", heading.len());
            let cells: Vec<String> = HEADINGS.iter().zip(row).map(cell).collect();
            println!("{number:6}   {}", cells.join("   "));
        }
    }

    /// Prints the failures, the table and the last line; true where nothing failed.
    pub fn print(&self) -> bool {
        for failure in &self.told {
            println!("{failure}");
        }
        self.print_numbers();
        let [fractions, infinite, refused] = self.rewards;
        println!("different generated chains: {}", self.chains.len());
        println!("chains that fit in two orders or more: {}", self.reordered);
        println!("bounds whose fractions differ: {}", self.open_bounds);
        for (place, (kind, _)) in MET.iter().enumerate() {
            println!("{kind}: {}", self.met(place));
        }
        println!("rewards: {fractions} fractions, {infinite} infinite, {refused} refused");
        self.texts.print();
        println!("second: {} passed, {} failed", self.passed, self.failed);
        self.failed == 0
    }
}
