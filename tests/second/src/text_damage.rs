//! Damaged texts: every way in which a line, what stands between lines or a whole text can be wrong,
//! and those in which they only look so.

use crate::chain::Chain;
use crate::damage;
use crate::damage_tables;
use crate::file;
use crate::generate::FAMILIES;
use crate::random::Random;
use crate::tally_text::End;
use crate::text::{self, LONGEST};
use crate::text_damage_words::{count, form, goal_mark, limit, spaces, words};

type Change = fn(&mut Random, &mut Vec<u8>);

/// What is damaged, what damages it, and how some of the texts must end.
pub type TextDamage = (&'static str, Change, &'static [End]);

pub const TEXT_DAMAGES: [TextDamage; 21] = [
    ("nothing", |_, _| {}, &[End::Made, End::Chain]),
    ("a byte, changed", byte_changed, &[End::Made, End::Line, End::Chain]),
    ("a byte, added", byte_added, &[End::Made, End::Line, End::Chain]),
    ("a byte, left out", byte_left_out, &[End::Made, End::Line, End::Chain]),
    ("a line, left out", line_left_out, &[End::Line]),
    ("a line, doubled", line_doubled, &[End::Line]),
    ("lines, swapped", lines_swapped, &[End::Made, End::Line]),
    ("a number's limit", limit, &[End::Made, End::Line, End::Chain]),
    ("a number's form", form, &[End::Line]),
    ("the counts", count, &[End::Line]),
    ("the spaces", spaces, &[End::Line]),
    ("the words", words, &[End::Line]),
    ("goal marks", goal_mark, &[End::Made, End::Line, End::Chain]),
    ("the last newline", last_newline, &[End::Made]),
    ("what says nothing", dress, &[End::Made, End::Chain]),
    ("what nearly says nothing", near_comment, &[End::Line]),
    ("the end, cut off at a line", cut_at_line, &[End::Line]),
    ("the end, cut off at a byte", cut_at_byte, &[End::Line, End::Made]),
    ("the end, with more behind it", more_behind, &[End::Line]),
    ("the length", length, &[End::Made, End::Line, End::Length, End::Chain]),
    ("all of it", noise, &[End::Line, End::Length]),
];

/// The text of some chain, well formed or at times not, damaged once or twice: the first wrong line
/// is the one that counts.
pub fn damaged(random: &mut Random, damage: TextDamage) -> Vec<u8> {
    let mut chain = some_chain(random);
    if random.once_in(6) {
        damage_tables::damage(random, &mut chain);
    }
    let mut text = text::of_chain(&chain).into_bytes();
    if random.once_in(2) {
        dress(random, &mut text);
    }
    (damage.1)(random, &mut text);
    if random.once_in(8) {
        random.pick(&TEXT_DAMAGES).1(random, &mut text);
    }
    text
}

/// Mostly a short one, so that lines of every kind are damaged.
fn some_chain(random: &mut Random) -> Chain {
    if random.once_in(4) {
        damage::base(random)
    } else {
        random.pick(&FAMILIES[..4]).1(random)
    }
}

/// The parts of a text between newlines; the last is empty where the text ends in one.
pub type Lines = Vec<Vec<u8>>;

/// Changes a text by its lines.
pub fn edit(text: &mut Vec<u8>, change: impl FnOnce(&mut Lines)) {
    let mut lines: Lines = text.split(|&byte| byte == b'\n').map(<[u8]>::to_vec).collect();
    change(&mut lines);
    *text = lines.join(&b'\n');
}

/// A line of any kind of record, or any line at all.
pub fn any_line(random: &mut Random, lines: &Lines) -> usize {
    let name = random.pick(&["states", "edges", "start", "state ", "order", "edge ", "", ""]);
    let all = 0..lines.len();
    let places: Vec<usize> =
        all.filter(|&place| lines[place].starts_with(name.as_bytes())).collect();
    if places.is_empty() {
        random.below(lines.len())
    } else {
        random.pick(&places)
    }
}

/// A byte of a line of any kind, or the newline behind it.
fn any_byte(random: &mut Random, text: &[u8]) -> usize {
    let lines = text.split(|&byte| byte == b'\n').map(<[u8]>::to_vec).collect();
    let line = any_line(random, &lines);
    let before: usize = lines[..line].iter().map(|line| line.len() + 1).sum();
    (before + random.below(lines[line].len() + 1)).min(text.len().saturating_sub(1))
}

/// A byte that matters in a text, or any byte.
fn some_byte(random: &mut Random) -> u8 {
    let any = random.byte();
    let matters = random.pick(b"  \n\n\r\t##0123456789-+.,=aAeEgost\0\x0b\x0c\x7f\xa0\xff");
    random.pick(&[any, matters, matters, matters])
}

fn byte_changed(random: &mut Random, text: &mut Vec<u8>) {
    let at = any_byte(random, text);
    if let Some(byte) = text.get_mut(at) {
        *byte = some_byte(random);
    }
}

fn byte_added(random: &mut Random, text: &mut Vec<u8>) {
    let at = any_byte(random, text);
    text.insert(random.pick(&[at, at, at, text.len()]), some_byte(random));
}

fn byte_left_out(random: &mut Random, text: &mut Vec<u8>) {
    let at = any_byte(random, text);
    if at < text.len() {
        text.remove(at);
    }
}

fn line_left_out(random: &mut Random, text: &mut Vec<u8>) {
    edit(text, |lines| {
        let line = any_line(random, lines);
        lines.remove(line);
    });
}

/// At once, or anywhere.
fn line_doubled(random: &mut Random, text: &mut Vec<u8>) {
    edit(text, |lines| {
        let line = any_line(random, lines);
        let other = random.below(lines.len());
        lines.insert(random.pick(&[line, line, other]), lines[line].clone());
    });
}

fn lines_swapped(random: &mut Random, text: &mut Vec<u8>) {
    edit(text, |lines| {
        let line = any_line(random, lines);
        let other = any_line(random, lines);
        let next = (line + 1).min(lines.len() - 1);
        lines.swap(line, random.pick(&[other, next]));
    });
}

fn last_newline(random: &mut Random, text: &mut Vec<u8>) {
    if random.once_in(3) {
        text.extend(vec![b'\n'; random.between(1, 3)]);
    } else {
        text.pop_if(|last| *last == b'\n');
    }
}

/// Comments and empty lines, before the first line, behind the last and anywhere.
fn dress(random: &mut Random, text: &mut Vec<u8>) {
    const SILENT: [&[u8]; 9] = [
        b"",
        b"",
        b"#",
        b"##",
        b"# of what it models",
        b"#states 7",
        b"# edge 0 1 weight 1 reward 0",
        b"#\t0 \x00 caf\xc3\xa9 \xff",
        b"#\r#",
    ];
    edit(text, |lines| {
        for _ in 0..random.between(1, 6) {
            let any = random.between(0, lines.len() - 1);
            let last = lines.len() - 1;
            let at = random.pick(&[any, any, any, 0, last]);
            lines.insert(at, random.pick(&SILENT).to_vec());
        }
    });
}

/// Lines that are neither empty nor a comment, and comments behind a record.
fn near_comment(random: &mut Random, text: &mut Vec<u8>) {
    const LINES: [&[u8]; 14] = [
        b" ",
        b"  ",
        b"\t",
        b"\r",
        b"\0",
        b" #",
        b" # c",
        b"\t# c",
        b"\r#",
        b"//",
        b";",
        b"--",
        b"\xef\xbb\xbf# c",
        b"\"#\"",
    ];
    const BEHIND: [&[u8]; 5] = [b" # c", b"# c", b"#", b" #", b" // c"];
    edit(text, |lines| {
        let line = any_line(random, lines);
        if random.once_in(2) {
            lines.insert(line, random.pick(&LINES).to_vec());
        } else {
            lines[line].extend(random.pick(&BEHIND));
        }
    });
}

fn cut_at_line(random: &mut Random, text: &mut Vec<u8>) {
    edit(text, |lines| {
        lines.truncate(any_line(random, lines));
        lines.push(Vec::new());
    });
}

fn cut_at_byte(random: &mut Random, text: &mut Vec<u8>) {
    let any = any_byte(random, text);
    let last = text.len().saturating_sub(1);
    text.truncate(random.pick(&[any, any, any, last]));
}

/// One line more, said before or new, or the whole text again.
fn more_behind(random: &mut Random, text: &mut Vec<u8>) {
    let again = text.clone();
    edit(text, |lines| {
        let said = lines[any_line(random, lines)].clone();
        let new = random.pick(&["edge 0 0 weight 1 reward 0", "end", "states 1", ".", "goal"]);
        let behind = lines.len() - 1;
        lines.insert(behind, random.pick(&[&said, new.as_bytes()]).to_vec());
    });
    if random.once_in(4) {
        text.extend(again);
    }
}

/// Lines that say nothing, up to just the longest text, one byte less or more, or far more.
fn length(random: &mut Random, text: &mut Vec<u8>) {
    if random.once_in(3) {
        byte_changed(random, text);
    }
    let past = random.pick(&[0, 0, 0, 1, 1, 2, 65_536, LONGEST]);
    let wanted = (LONGEST + past).saturating_sub(random.pick(&[0, 0, 0, 1]));
    let missing = wanted.saturating_sub(text.len());
    let mut silent = match random.below(3) {
        _ if missing < 2 => b"\n".repeat(missing),
        0 => b"\n".repeat(missing),
        1 => b"#\n".repeat(missing.div_ceil(2)),
        _ => [b"#", &b"x".repeat(missing)[..]].concat(),
    };
    silent.drain(..silent.len().saturating_sub(missing));
    // What is left of a comment after so many bytes still begins as one, and ends its line.
    if let [first, .., last] = &mut silent[..] {
        (*first, *last) = (b'#', b'\n');
    }
    let lines: Vec<usize> = (1..text.len()).filter(|&at| text[at - 1] == b'\n').collect();
    let at = if lines.is_empty() || random.once_in(3) { 0 } else { random.pick(&lines) };
    text.splice(at..at, silent);
}

/// Bytes that are no text, or a text that says nothing; and the file instead of its text.
fn noise(random: &mut Random, text: &mut Vec<u8>) {
    let any = random.below(600);
    *text = match random.below(8) {
        0 => Vec::new(),
        1 => (0..any).map(|_| random.byte()).collect(),
        2 => (0..any).map(|_| some_byte(random)).collect(),
        3 => b"\n".repeat(any),
        4 => b"# c\n".repeat(any),
        5 => vec![random.pick(&[0, b' ', b's', 255]); random.pick(&[1, 9, LONGEST, LONGEST + 1])],
        6 => b"states 1".to_vec(),
        _ => file::write(&some_chain(random), 2),
    };
}

#[cfg(test)]
mod tests {
    use super::*;

    #[test]
    fn every_damage_ends_as_it_is_listed_and_what_is_made_is_shown_bare() {
        for (name, change, ends) in TEXT_DAMAGES {
            let mut met = [0; 4];
            for seed in 0..400 {
                let text = damaged(&mut Random::new(seed), (name, change, ends));
                let made = text::made(&text);
                met[End::of(&made) as usize] += 1;
                if let Ok(file) = made {
                    let shown = text::of_file(&file).map(String::into_bytes);
                    assert_eq!(shown, Ok(text::bare(&text)), "{name}, seed {seed}");
                }
            }
            assert!(ends.iter().all(|&end| met[end as usize] > 0), "{name}: {met:?}");
        }
    }
}
