//! Counts what the comparisons of a chain's text met, and tells what they lack.

use crate::programs::{MAKECHAIN, SHOWCHAIN};
use crate::refusal::Refusal;
use crate::text::{Turn, Wrong};
use crate::text_damage::TEXT_DAMAGES;
use std::collections::BTreeMap;
use std::ops::RangeInclusive;

/// Where a number was expected; each is a column of the table.
#[derive(Clone, Copy)]
pub enum Way {
    Show,
    Showchain,
    Make,
    Makechain,
}

/// The columns in words, each with the numbers that it can give; 0 is an answer.
const WAYS: [(&str, &[RangeInclusive<u32>]); 4] = [
    ("show", &[0..=0, 2..=2, 20..=24]),
    (SHOWCHAIN, &[0..=0, 20..=24]),
    ("make", &[0..=0, 2..=10, 40..=41]),
    (MAKECHAIN, &[0..=0, 3..=10, 40..=41]),
];

impl Way {
    pub fn name(self) -> &'static str {
        WAYS[self as usize].0
    }
}

/// How a text ends: a file, its length or one of its lines refused, or its chain.
#[derive(Clone, Copy, PartialEq, Eq)]
pub enum End {
    Made,
    Line,
    Length,
    Chain,
}

/// Those ends in words.
const ENDS: [&str; 4] = ["made", "refused by 40", "by 41", "by 3 to 10"];

impl End {
    pub fn of(made: &Result<Vec<u8>, Refusal>) -> End {
        match made {
            Ok(_) => End::Made,
            Err(Refusal { number: 40, .. }) => End::Line,
            Err(Refusal { number: 41, .. }) => End::Length,
            Err(_) => End::Chain,
        }
    }
}

/// What a comparison met; each is a line after the table.
#[derive(Clone, Copy)]
pub enum TextMet {
    SameFile,
    SecondVersion,
    RefusedAndShown,
    Longest,
    SameText,
    Dressed,
    WrongStates,
    WrongEdges,
    WrongStart,
    WrongState,
    WrongOrder,
    WrongEdge,
    WrongBehind,
    Missing,
    WrongAfterSilent,
    WrongFirstLine,
    LaterPlace,
    FullLength,
    OneTooLong,
    NoNewline,
}

/// Each kind in words, and how often a run meets it at least.
const TEXT_MET: [(&str, u64); 20] = [
    ("files of version 2 made again of their text", 5_000),
    ("files of version 1 made as version 2", 1_000),
    ("texts of chains that 3 to 10 refuse", 500),
    ("texts of 183,707 bytes", 1),
    ("texts shown again of the file made of them", 1_500),
    ("such texts with comments or empty lines", 500),
    ("wrong lines where states are to come", 300),
    ("wrong lines where edges are to come", 300),
    ("wrong lines where the start is to come", 300),
    ("wrong lines where a state is to come", 1_000),
    ("wrong lines where the order is to come", 300),
    ("wrong lines where an edge is to come", 1_000),
    ("wrong lines behind the last edge", 300),
    ("lines that are missing", 300),
    ("wrong lines behind comments or empty lines", 500),
    ("wrong lines that are the first", 100),
    ("chains of a text refused at a later place than 0", 300),
    ("texts of 262,144 bytes that are read", 20),
    ("texts of 262,145 bytes", 20),
    ("texts made without their last newline", 100),
];

#[derive(Default)]
pub struct Texts {
    /// How often each number was expected, by `Way`.
    numbers: BTreeMap<u32, [u64; WAYS.len()]>,
    /// How often each kind was met, by its place in `TEXT_MET`.
    met: [u64; TEXT_MET.len()],
    /// How the texts of each kind of damage ended, by `End`.
    damages: BTreeMap<&'static str, [u64; ENDS.len()]>,
}

impl Texts {
    pub fn number(&mut self, way: Way, number: u32) {
        self.numbers.entry(number).or_default()[way as usize] += 1;
    }

    pub fn meet(&mut self, kind: TextMet, met: bool) {
        self.met[kind as usize] += u64::from(met);
    }

    /// Counts a text of this kind of damage.
    pub fn damage(&mut self, name: &'static str, end: End) {
        self.damages.entry(name).or_default()[end as usize] += 1;
    }

    /// Counts the first wrong line of a text.
    pub fn wrong(&mut self, wrong: Wrong) {
        let kind = match wrong.turn {
            Turn::States => TextMet::WrongStates,
            Turn::Edges => TextMet::WrongEdges,
            Turn::Start => TextMet::WrongStart,
            Turn::State => TextMet::WrongState,
            Turn::Order => TextMet::WrongOrder,
            Turn::Edge => TextMet::WrongEdge,
            Turn::End => TextMet::WrongBehind,
        };
        self.meet(if wrong.missing { TextMet::Missing } else { kind }, true);
        self.meet(TextMet::WrongAfterSilent, wrong.passed > 0);
        self.meet(TextMet::WrongFirstLine, wrong.line == 1);
    }

    /// What a run must have met: whether it did, and what it lacks else.
    pub fn judged(&self) -> Vec<(bool, String)> {
        let mut judged = Vec::new();
        for (place, (way, numbers)) in WAYS.iter().enumerate() {
            for number in numbers.iter().cloned().flatten() {
                let expected = self.numbers.get(&number).map_or(0, |row| row[place]);
                judged.push((expected > 0, format!("no {way} expects {number}")));
            }
        }
        for (met, (kind, least)) in self.met.iter().zip(TEXT_MET) {
            judged.push((*met >= least, format!("only {met} {kind}")));
        }
        for (name, _, ends) in TEXT_DAMAGES {
            for &end in ends {
                let met = self.damages.get(name).map_or(0, |row| row[end as usize]);
                let words = ENDS[end as usize];
                judged.push((met > 0, format!("no text with damage to {name} is {words}")));
            }
        }
        judged
    }

    pub fn join(&mut self, other: Texts) {
        for (number, row) in other.numbers {
            add(self.numbers.entry(number).or_default(), row);
        }
        for (name, row) in other.damages {
            add(self.damages.entry(name).or_default(), row);
        }
        add(&mut self.met, other.met);
    }

    pub fn print(&self) {
        println!("number   show    showchain   make    makechain");
        for (number, [show, showchain, make, makechain]) in &self.numbers {
            println!("{number:6}   {show:5}   {showchain:9}   {make:5}   {makechain:9}");
        }
        for (met, (kind, _)) in self.met.iter().zip(TEXT_MET) {
            println!("{kind}: {met}");
        }
        for (name, row) in &self.damages {
            let ends: Vec<String> =
                row.iter().zip(ENDS).map(|(met, end)| format!("{met} {end}")).collect();
            println!("texts with damage to {name}: {}", ends.join(", "));
        }
    }
}

fn add<const N: usize>(mine: &mut [u64; N], theirs: [u64; N]) {
    for (mine, theirs) in mine.iter_mut().zip(theirs) {
        *mine += theirs;
    }
}
