//! The text of a chain, which people read and write: shown of a file, and made into one.

use crate::block::LENGTH;
use crate::chain::{Chain, Edge, MOST_EDGES, MOST_STATES};
use crate::file::{self, MOST_BLOCKS};
use crate::refusal::Refusal;
use crate::tables::Tables;
use std::ops::RangeInclusive;

/// The longest text that a file is made of.
pub const LONGEST: usize = 262_144;
/// The room that a file is made in, whatever its length.
pub const FILE_ROOM: usize = MOST_BLOCKS * LENGTH;

/// What fits a field of one byte, of two and of four.
const BYTE: RangeInclusive<u64> = 0..=255;
const SHORT: RangeInclusive<u64> = 0..=65_535;
const LONG: RangeInclusive<u64> = 0..=4_294_967_295;

/// The text of a chain, well formed or not.
pub fn of_chain(chain: &Chain) -> String {
    let Chain { start, denominators, rewards, order, edges, .. } = chain;
    let n = chain.states();
    let mut lines =
        vec![format!("states {n}"), format!("edges {}", edges.len()), format!("start {start}")];
    lines.extend((0..n).map(|i| {
        let goal = if chain.goals[i] { " goal" } else { "" };
        format!("state {i} denominator {} reward {}{goal}", denominators[i], rewards[i])
    }));
    let order: Vec<String> = order.iter().map(u8::to_string).collect();
    lines.push(format!("order {}", order.join(" ")));
    lines.extend(edges.iter().map(|Edge { from, to, weight, reward }| {
        format!("edge {from} {to} weight {weight} reward {reward}")
    }));
    lines.join("\n") + "\n"
}

/// The text of a chain file, or the refusal 20 to 24 that it gives.
pub fn of_file(file: &[u8]) -> Result<String, Refusal> {
    file::read(file).map(|chain| of_chain(&chain))
}

/// What a line may say at its turn; behind the last edge none may say anything.
#[derive(Clone, Copy, Debug, PartialEq, Eq)]
pub enum Turn {
    States,
    Edges,
    Start,
    State,
    Order,
    Edge,
    End,
}

/// The first wrong line of a text.
#[derive(Clone, Copy, Debug, PartialEq, Eq)]
pub struct Wrong {
    /// Its number, from 1, or the number after the last where it is missing.
    pub line: usize,
    pub turn: Turn,
    pub missing: bool,
    /// How many lines before it say nothing.
    pub passed: usize,
}

/// The lines of a text. Behind its last newline no line begins.
fn lines(text: &[u8]) -> Vec<&[u8]> {
    let mut lines: Vec<&[u8]> = text.split(|&byte| byte == b'\n').collect();
    lines.pop_if(|last| last.is_empty());
    lines
}

/// Whether a line is neither empty nor a comment.
fn says(line: &[u8]) -> bool {
    !line.is_empty() && line[0] != b'#'
}

/// The text without comments and empty lines, each line ended by a newline.
pub fn bare(text: &[u8]) -> Vec<u8> {
    lines(text)
        .into_iter()
        .filter(|line| says(line))
        .flat_map(|line| [line, b"\n"].concat())
        .collect()
}

/// A text of which some lines are read.
struct Reader<'a> {
    lines: Vec<&'a [u8]>,
    /// How many lines are behind, and how many of them say nothing.
    behind: usize,
    passed: usize,
}

impl Reader<'_> {
    fn wrong(&self, turn: Turn, missing: bool) -> Wrong {
        Wrong { line: self.behind + 1, turn, missing, passed: self.passed }
    }

    /// Goes on to the next line that says something; false where there is none.
    fn seek(&mut self) -> bool {
        let silent = self.lines[self.behind..].iter().take_while(|line| !says(line)).count();
        self.behind += silent;
        self.passed += silent;
        self.behind < self.lines.len()
    }

    /// What the next line says, by its words.
    fn line<T>(
        &mut self,
        turn: Turn,
        meaning: impl FnOnce(&[&str]) -> Option<T>,
    ) -> Result<T, Wrong> {
        if !self.seek() {
            return Err(self.wrong(turn, true));
        }
        // A byte that is no ASCII leaves a word that means nothing.
        let line = String::from_utf8_lossy(self.lines[self.behind]);
        let words: Vec<&str> = line.split(' ').collect();
        let meant = meaning(&words).ok_or(self.wrong(turn, false))?;
        self.behind += 1;
        Ok(meant)
    }
}

/// A decimal without leading zeros.
fn number(word: &str, fits: RangeInclusive<u64>) -> Option<u64> {
    let digits = word.bytes().all(|byte| byte.is_ascii_digit());
    if !digits || (word.starts_with('0') && word != "0") {
        return None;
    }
    word.parse().ok().filter(|number| fits.contains(number))
}

/// A line of a name and a number.
fn named(words: &[&str], name: &str, fits: RangeInclusive<u64>) -> Option<u64> {
    match words {
        [first, count] if *first == name => number(count, fits),
        _ => None,
    }
}

/// Denominator, reward and goal mark of state i.
fn state(words: &[&str], i: usize) -> Option<(u32, u16, bool)> {
    let (words, goal) = match words {
        [words @ .., "goal"] => (words, true),
        _ => (words, false),
    };
    let ["state", place, "denominator", denominator, "reward", reward] = words else {
        return None;
    };
    number(place, i as u64..=i as u64)?;
    Some((number(denominator, LONG)? as u32, number(reward, SHORT)? as u16, goal))
}

fn order(words: &[&str], n: usize) -> Option<Vec<u8>> {
    match words {
        ["order", entries @ ..] if entries.len() == n => {
            entries.iter().map(|entry| Some(number(entry, BYTE)? as u8)).collect()
        }
        _ => None,
    }
}

fn edge(words: &[&str]) -> Option<Edge> {
    let ["edge", from, to, "weight", weight, "reward", reward] = words else { return None };
    Some(Edge {
        from: number(from, BYTE)? as u8,
        to: number(to, BYTE)? as u8,
        weight: number(weight, LONG)? as u32,
        reward: number(reward, SHORT)? as u16,
    })
}

/// The chain that a text says, well formed or not, or the first line that no such text has there.
pub fn read(text: &[u8]) -> Result<Chain, Wrong> {
    let mut reader = Reader { lines: lines(text), behind: 0, passed: 0 };
    let n = reader.line(Turn::States, |words| named(words, "states", 1..=MOST_STATES as u64))?;
    let count = reader.line(Turn::Edges, |words| named(words, "edges", 1..=MOST_EDGES as u64))?;
    let start = reader.line(Turn::Start, |words| named(words, "start", BYTE))? as u8;
    let n = n as usize;
    let mut chain = Chain {
        start,
        denominators: Vec::new(),
        rewards: Vec::new(),
        goals: Vec::new(),
        order: Vec::new(),
        edges: Vec::new(),
    };
    for i in 0..n {
        let (denominator, reward, goal) = reader.line(Turn::State, |words| state(words, i))?;
        chain.denominators.push(denominator);
        chain.rewards.push(reward);
        chain.goals.push(goal);
    }
    chain.order = reader.line(Turn::Order, |words| order(words, n))?;
    for _ in 0..count {
        chain.edges.push(reader.line(Turn::Edge, edge)?);
    }
    if reader.seek() {
        return Err(reader.wrong(Turn::End, false));
    }
    Ok(chain)
}

/// The version 2 file that a text is made into, or its refusal: 41, 40, then the writer's.
pub fn made(text: &[u8]) -> Result<Vec<u8>, Refusal> {
    if text.len() > LONGEST {
        return Err(Refusal { number: 41, place: 0 });
    }
    let chain = read(text).map_err(|wrong| Refusal { number: 40, place: wrong.line })?;
    Tables::of(&chain).written(FILE_ROOM)
}

#[cfg(test)]
mod tests {
    use super::*;
    use crate::damage;
    use crate::random::Random;
    use crate::refusal::of_tables;
    use crate::worked;

    #[test]
    fn what_is_shown_is_read_again_and_made_where_nothing_refuses_it() {
        for seed in 0..2_000 {
            let mut random = Random::new(seed);
            let chain = damage::base(&mut random);
            let text = of_chain(&chain);
            assert_eq!(read(text.as_bytes()), Ok(chain.clone()));
            assert_eq!(bare(text.as_bytes()), text.as_bytes());
            let file = file::write(&chain, 2);
            assert_eq!(of_file(&file).as_ref(), Ok(&text));
            let made = made(text.as_bytes());
            assert_eq!(made, of_tables(&chain).map_or(Ok(file), Err));
        }
    }

    #[test]
    fn a_shown_text_has_its_records_on_the_lines_that_the_issue_says() {
        let text = of_chain(&worked::address(&[5], &[]));
        let lines: Vec<&str> = text.lines().collect();
        let n = 7;
        assert_eq!(lines[3], "state 0 denominator 8 reward 0");
        assert_eq!(lines[5 + 3], "state 5 denominator 1 reward 0 goal");
        assert_eq!(lines[n + 3], "order 0 1 2 3 4 5 6");
        assert_eq!(lines[n + 4], "edge 0 5 weight 7 reward 0");
        assert_eq!(lines[n + 4 + 11], "edge 6 6 weight 1 reward 0");
        assert_eq!(lines.len(), n + 4 + 12);
    }
}
