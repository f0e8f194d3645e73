//! Texts whose end is worked by hand from the issue that asked for them.

use crate::chain::{Chain, Edge, MOST_EDGES, MOST_STATES};
use crate::text::LONGEST;
use crate::text_known_lines::{EDGES, HEAD, SMALL, STATES};

/// A text with what must come of it: a refusal's number and place, or 0 at 0 for a file.
pub struct Known {
    pub text: Vec<u8>,
    pub number: u32,
    pub place: usize,
}

/// The shortest text that a file is made of.
pub const SHORTEST: &str = "states 1\n\
    edges 1\n\
    start 0\n\
    state 0 denominator 1 reward 0 goal\n\
    order 0\n\
    edge 0 0 weight 1 reward 0\n";

/// What stands before the small text, what behind it, and what comes of it. A comment is one by its
/// first byte, whatever else it holds.
const AROUND: [(&str, &str, u32, usize); 15] = [
    ("", "", 0, 0),
    ("\n", "\n\n", 0, 0),
    ("# first\n\n", "# last\n", 0, 0),
    ("#", "", 40, 2),
    ("#\n", "# without a newline", 0, 0),
    ("# \u{e9}\0\n", "", 0, 0),
    ("# ends in CR\r\n", "#\r", 0, 0),
    ("\r\n", "", 40, 1),
    (" \n", "", 40, 1),
    ("", " ", 40, 10),
    ("", "\r\n", 40, 10),
    ("", "\0", 40, 10),
    ("", "\n\n.", 40, 12),
    ("", " # c\n", 40, 10),
    ("", SMALL, 40, 10),
];

/// Texts that are no change of the small one.
const WHOLE: [(&str, u32, usize); 9] = [
    (SHORTEST, 0, 0),
    ("", 40, 1),
    ("\n", 40, 2),
    ("\n\n", 40, 3),
    ("#", 40, 2),
    ("#\n#", 40, 3),
    ("states 2", 40, 2),
    ("states 2\n\n# c\n", 40, 4),
    ("states 1\nedges 1\nstart 9\nstate 0 denominator 0 reward 0\norder 9\nedge 9 9 weight 0 reward 0", 3, 0),
];

/// The chain of the longest text: every number is as long as its field allows.
pub fn longest() -> Chain {
    let edge = Edge { from: 255, to: 255, weight: u32::MAX, reward: u16::MAX };
    Chain {
        start: 255,
        denominators: vec![u32::MAX; MOST_STATES],
        rewards: vec![u16::MAX; MOST_STATES],
        goals: vec![true; MOST_STATES],
        order: vec![255; MOST_STATES],
        edges: vec![edge; MOST_EDGES],
    }
}

/// A text of as many states and edges as there may be, and so many edges said; each goes anywhere.
fn full(said: usize) -> Vec<u8> {
    let mut text = "states 64\nedges 4096\nstart 63\n".to_string();
    for i in 0..64 {
        text += &format!("state {i} denominator 64 reward {i} goal\n");
    }
    let order: Vec<String> = (0..64).rev().map(|i: u8| i.to_string()).collect();
    text += &format!("order {}\n", order.join(" "));
    for edge in 0..said {
        text += &format!("edge {} {} weight 1 reward {edge}\n", edge / 64 % 64, edge % 64);
    }
    text.into_bytes()
}

/// The small text with something else for one of its lines, from 1.
pub fn with_line(line: usize, other: &str) -> Vec<u8> {
    let mut lines: Vec<&str> = SMALL.lines().collect();
    lines[line - 1] = other;
    (lines.join("\n") + "\n").into_bytes()
}

pub fn all() -> Vec<Known> {
    let mut known = Vec::new();
    let mut add = |text, number, place| known.push(Known { text, number, place });
    for (line, other, number, place) in HEAD.into_iter().chain(STATES).chain(EDGES) {
        add(with_line(line, other), number, place);
    }
    for (before, behind, number, place) in AROUND {
        add(format!("{before}{SMALL}{behind}").into_bytes(), number, place);
    }
    for (text, number, place) in WHOLE {
        add(text.as_bytes().to_vec(), number, place);
    }
    // 68 lines stand before its edges.
    for (said, number, place) in [(4_095, 40, 4_164), (4_096, 0, 0), (4_097, 40, 4_165)] {
        add(full(said), number, place);
    }
    add(SMALL.replace('\n', "\r\n").into_bytes(), 40, 1);
    add(SMALL.trim_end().as_bytes().to_vec(), 0, 0);
    for (wrong, place) in [("", 0), ("x", 70_001)] {
        let lines = "\n".repeat(70_000);
        let number = if place == 0 { 0 } else { 40 };
        add(format!("{lines}{wrong}{SMALL}").into_bytes(), number, place);
    }
    for length in [LONGEST, LONGEST + 1, LONGEST + 2, 4 * LONGEST] {
        let too_long = length > LONGEST;
        let comment = |text: &str| format!("#{}\n{text}", "-".repeat(length - text.len() - 2));
        let wrong = comment(&SMALL.replace("states 2", "states 65"));
        add(comment(SMALL).into_bytes(), if too_long { 41 } else { 0 }, 0);
        add(wrong.into_bytes(), if too_long { 41 } else { 40 }, if too_long { 0 } else { 2 });
    }
    known
}

#[cfg(test)]
mod tests {
    use super::*;
    use crate::text::{bare, made, of_chain, read};

    #[test]
    fn every_known_text_has_its_end() {
        for Known { text, number, place } in all() {
            let (came, at) = made(&text).map_or_else(|r| (r.number, r.place), |_| (0, 0));
            let told = String::from_utf8_lossy(&text[..text.len().min(300)]);
            assert_eq!((came, at), (number, place), "{told}");
        }
    }

    #[test]
    fn the_small_text_says_its_chain() {
        let edges = [(0, 1, 1, 3), (0, 0, 1, 0), (1, 1, 1, 65_535)];
        let chain = Chain {
            start: 0,
            denominators: vec![2, 1],
            rewards: vec![1, 0],
            goals: vec![false, true],
            order: vec![1, 0],
            edges: edges.map(|(from, to, weight, reward)| Edge { from, to, weight, reward }).into(),
        };
        assert_eq!(read(SMALL.as_bytes()), Ok(chain));
        let file = made(SMALL.as_bytes()).expect("it is well formed");
        assert_eq!(file.len(), 3 * 512);
        assert_eq!(file[..14], [1, 2, 0, 0, 1, 0, 2, 0, 3, 0, 0, 0, 0, 0]);
        let states = [2, 2, 1, 0, 2, 0, 2, 0, 0, 0, 1, 0, 0, 1, 1, 0, 0, 0, 0, 0, 1, 0];
        assert_eq!(file[512..534], states);
        let edges = [0, 1, 3, 0, 1, 0, 0, 0, 0, 0, 0, 0, 1, 0, 0, 0, 1, 1, 255, 255, 1, 0, 0, 0];
        assert_eq!(file[1_030..1_054], edges);
    }

    #[test]
    fn the_longest_text_has_183_707_bytes() {
        let text = of_chain(&longest());
        assert_eq!(text.len(), 183_707);
        assert_eq!(read(text.as_bytes()), Ok(longest()));
    }

    /// Cut behind any line, a line is missing; without any line, the next is wrong or one is missing.
    #[test]
    fn every_line_is_needed() {
        let lines: Vec<&str> = SMALL.lines().collect();
        let place = |lines: &[&str]| made(lines.join("\n").as_bytes()).expect_err("cut").place;
        for line in 0..lines.len() {
            assert_eq!(place(&lines[..line]), line + 1);
            let mut others = lines.clone();
            others.remove(line);
            let wrong = if line < 6 { line + 1 } else { lines.len() };
            assert_eq!(place(&others), wrong);
        }
    }

    #[test]
    fn what_says_nothing_is_left_out() {
        let dressed = format!("\n#\n{}\n# c", SMALL.replace('\n', "\n\n# c\n"));
        assert_eq!(bare(dressed.as_bytes()), SMALL.as_bytes());
        assert_eq!(made(dressed.as_bytes()), made(SMALL.as_bytes()));
    }
}
