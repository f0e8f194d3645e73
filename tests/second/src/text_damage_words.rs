//! Damage to what the lines of a text say: numbers, words, spaces and goal marks.

use crate::random::Random;
use crate::text_damage::{any_line, edit};

/// Changes some line of a text by its words, as they stand between single spaces.
fn edit_words(
    random: &mut Random,
    text: &mut Vec<u8>,
    change: impl FnOnce(&mut Random, &mut Vec<String>),
) {
    edit(text, |lines| {
        let line = any_line(random, lines);
        let said = String::from_utf8_lossy(&lines[line]).into_owned();
        let mut words = said.split(' ').map(str::to_string).collect();
        change(random, &mut words);
        lines[line] = words.join(" ").into_bytes();
    });
}

/// Changes some number of some line, where there is one.
fn edit_number(
    random: &mut Random,
    text: &mut Vec<u8>,
    change: impl FnOnce(&mut Random, &str, &str) -> String,
) {
    edit_words(random, text, |random, words| {
        let all = 0..words.len();
        let is_number = |word: &String| word.parse::<u64>().is_ok();
        let numbers: Vec<usize> = all.filter(|&place| is_number(&words[place])).collect();
        if !numbers.is_empty() {
            let place = random.pick(&numbers);
            let name = words[..place].iter().rfind(|word| !is_number(word)).cloned();
            words[place] = change(random, &name.unwrap_or_default(), &words[place]);
        }
    });
}

/// A number just below its limit, at it, past it, or larger by what a field or a register loses.
pub fn limit(random: &mut Random, text: &mut Vec<u8>) {
    edit_number(random, text, |random, name, number| {
        let most: u128 = match name {
            "states" => 64,
            "edges" => 4_096,
            "reward" => 65_535,
            "denominator" | "weight" => 4_294_967_295,
            _ => 255,
        };
        let number: u128 = number.parse().unwrap_or(0);
        let turn = 1u128 << random.pick(&[8, 16, 31, 32, 63, 64, 65]);
        let any = u128::from(random.next());
        let some = [0, 1, most - 1, most, most + 1, most + 1, number + most + 1];
        let far = [number + turn, turn - 1, turn, any, 10 * most, 10 * most + 9, number * 10];
        let digits = "9".repeat(random.between(1, 50));
        match random.below(8) {
            0 => digits,
            1..=3 => random.pick(&far).to_string(),
            _ => random.pick(&some).to_string(),
        }
    });
}

/// A number that is written in another way.
pub fn form(random: &mut Random, text: &mut Vec<u8>) {
    edit_number(random, text, |random, _, number| match random.below(14) {
        0 | 1 => format!("0{number}"),
        2 => format!("00{number}"),
        3 => format!("{}{number}", "0".repeat(random.between(3, 40))),
        4 => format!("+{number}"),
        5 => format!("-{number}"),
        6 => String::new(),
        7 => format!("{number}.0"),
        8 => format!("0x{number}"),
        9 => format!("{number}_"),
        10 => format!("{number},"),
        11 => format!("{number}:"),
        12 => format!("{number}/"),
        _ => random.pick(&["x", "one", "1e1", "\u{661}", "0b1", "goal"]).to_string(),
    });
}

/// More or fewer states or edges than there are lines.
pub fn count(random: &mut Random, text: &mut Vec<u8>) {
    edit(text, |lines| {
        let name = random.pick(&["states ", "edges "]);
        let named = |line: &&mut Vec<u8>| line.starts_with(name.as_bytes());
        if let Some(line) = lines.iter_mut().find(named) {
            let said = String::from_utf8_lossy(&line[name.len()..]).parse::<u64>().unwrap_or(1);
            let other = random.pick(&[said + 1, said.saturating_sub(1), 1, 2, 63, 64, 4_096]);
            *line = format!("{name}{other}").into_bytes();
        }
    });
}

/// Another space than a single one between two words, or one where none belongs.
pub fn spaces(random: &mut Random, text: &mut Vec<u8>) {
    if random.once_in(12) {
        // As editors of another system end lines.
        return edit(text, |lines| {
            let last = lines.len() - 1;
            lines[..last].iter_mut().for_each(|line| line.push(b'\r'));
        });
    }
    edit(text, |lines| {
        let line = any_line(random, lines);
        let line = &mut lines[line];
        let all = 0..line.len();
        let places: Vec<usize> = all.filter(|&at| line[at] == b' ').collect();
        let some: &[u8] =
            random.pick(&[b"\t", b"  ", b"", b"\x0b", b"\xc2\xa0", b" \t", b"=", b"\r"]);
        match random.below(6) {
            0 => line.insert(0, b' '),
            1 => line.push(b' '),
            2 => line.push(b'\r'),
            3 => line.push(b'\t'),
            _ if places.is_empty() => line.push(b' '),
            _ => {
                let at = random.pick(&places);
                line.splice(at..=at, some.iter().copied());
            }
        }
    });
}

/// A word left out, doubled, put elsewhere, written otherwise, or one too many.
pub fn words(random: &mut Random, text: &mut Vec<u8>) {
    const OTHER: [&str; 12] = [
        "states",
        "edges",
        "start",
        "state",
        "denominator",
        "reward",
        "goal",
        "order",
        "edge",
        "weight",
        "0",
        "",
    ];
    edit_words(random, text, |random, words| {
        let [place, other] = [(); 2].map(|()| random.below(words.len()));
        match random.below(7) {
            0 => {
                words.remove(place);
            }
            1 => words.insert(place, words[place].clone()),
            2 => words.swap(place, other),
            3 => words[place] = words[place].to_uppercase(),
            4 => words.push(random.pick(&OTHER).to_string()),
            5 => {
                words[place].pop();
            }
            _ => words[place] = random.pick(&OTHER).to_string(),
        }
    });
}

/// A goal mark more or less, or one that is none.
pub fn goal_mark(random: &mut Random, text: &mut Vec<u8>) {
    const MARKS: [&str; 9] =
        [" Goal", " goals", " goal goal", "goal", " goal ", " 1", " no goal", " goal=1", "  goal"];
    let turn = |line: &mut Vec<u8>| match line.strip_suffix(b" goal") {
        Some(plain) => *line = plain.to_vec(),
        None => line.extend(b" goal"),
    };
    edit(text, |lines| {
        if random.once_in(6) {
            // All of them, so that none or another set is left.
            let states = lines.iter_mut().filter(|line| line.starts_with(b"state "));
            return states.for_each(|line| turn(line));
        }
        let all = 0..lines.len();
        let states: Vec<usize> = all.filter(|&at| lines[at].starts_with(b"state ")).collect();
        let any = any_line(random, lines);
        let place = if states.is_empty() || random.once_in(6) { any } else { random.pick(&states) };
        if random.once_in(2) {
            turn(&mut lines[place]);
        } else {
            lines[place].extend(random.pick(&MARKS).bytes());
        }
    });
}
