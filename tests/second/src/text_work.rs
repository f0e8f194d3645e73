//! The part of a run that compares texts: what is known beforehand, and units as those of `work`.

use crate::block::LENGTH;
use crate::compare_text::{back_and_there, makechain, show, showchain, there_and_back, NONE, ROOM};
use crate::damage::{self, DAMAGES};
use crate::examples::{DAMAGED, EXAMPLES};
use crate::file;
use crate::generate::{self, FAMILIES};
use crate::near_chains::NEAR_FAMILIES;
use crate::programs;
use crate::random::Random;
use crate::tally::{Case, Tally};
use crate::tally_text::End;
use crate::text::{self, FILE_ROOM};
use crate::text_damage::{damaged, TEXT_DAMAGES};
use crate::text_known::{self, Known, SHORTEST};
use crate::text_known_lines::SMALL;
use crate::worked;
use std::fs;

/// How many units each part has. The first are the chains that the other entries are asked of too.
const CHAINS: u64 = 2_100 * FAMILIES.len() as u64;
const NEAR: u64 = 100 * NEAR_FAMILIES.len() as u64;
const FILES: u64 = 300 * DAMAGES.len() as u64;
const TEXTS: u64 = 600 * TEXT_DAMAGES.len() as u64;
const BYTES: u64 = SHORTEST.len() as u64 + 1;
pub const UNITS: u64 = CHAINS + NEAR + FILES + TEXTS + BYTES;

/// One chain in so many is given to the programs too, and one damaged file or text in so many.
const CHAIN_ONCE_IN: u64 = 97;
const DAMAGE_ONCE_IN: u64 = 13;

/// Does the unit at this place.
pub fn unit(tally: &mut Tally, seed: u64, place: u64) {
    let once_in = if place < CHAINS + NEAR { CHAIN_ONCE_IN } else { DAMAGE_ONCE_IN };
    let with_program = place.is_multiple_of(once_in);
    if place < CHAINS {
        one_chain(tally, seed, FAMILIES[(place % FAMILIES.len() as u64) as usize], with_program);
    } else if place < CHAINS + NEAR {
        let family = NEAR_FAMILIES[(place % NEAR_FAMILIES.len() as u64) as usize];
        one_chain(tally, seed, family, with_program);
    } else if place < CHAINS + NEAR + FILES {
        one_file(tally, seed, place, with_program);
    } else if place < UNITS - BYTES {
        one_text(tally, seed, place, with_program);
    } else {
        one_byte(tally, seed, (UNITS - 1 - place) as usize);
    }
}

fn one_chain(tally: &mut Tally, seed: u64, family: generate::Family, with_program: bool) {
    let case = Case { family: family.0, seed };
    let mut random = Random::new(seed);
    let chain = generate::draw(&mut random, family);
    let file = file::write(&chain, random.pick(chain.versions()));
    file_and_text(tally, case, &file, &mut random);
    if with_program {
        showchain(tally, case, &file);
        makechain(tally, case, text::of_chain(&chain).as_bytes());
    }
}

/// Files that are damaged; every third holds a chain that is not well formed.
fn one_file(tally: &mut Tally, seed: u64, place: u64, with_program: bool) {
    let last = DAMAGES.len() - 1;
    let any = (place % DAMAGES.len() as u64) as usize;
    let damage = DAMAGES[if place.is_multiple_of(3) { last } else { any }];
    let case = Case { family: damage.0, seed };
    let mut random = Random::new(seed);
    let file = damage::request(&mut random, damage).file;
    file_and_text(tally, case, &file, &mut random);
    if with_program {
        showchain(tally, case, &file);
    }
}

fn one_text(tally: &mut Tally, seed: u64, place: u64, with_program: bool) {
    let damage = TEXT_DAMAGES[(place % TEXT_DAMAGES.len() as u64) as usize];
    let case = Case { family: damage.0, seed };
    let mut random = Random::new(seed);
    let text = damaged(&mut random, damage);
    let more = FILE_ROOM + random.below(2 * LENGTH);
    let less = random.below(FILE_ROOM);
    let common = random.pick(&[FILE_ROOM, FILE_ROOM, more]);
    let rare = random.pick(&[FILE_ROOM - 1, 0, less]);
    let length = if random.once_in(16) { rare } else { common };
    back_and_there(tally, case, &text, length);
    tally.texts.damage(damage.0, End::of(&text::made(&text)));
    if with_program {
        makechain(tally, case, &text);
    }
}

/// The shortest text with any byte put in one place or standing there, with none, and cut off.
fn one_byte(tally: &mut Tally, seed: u64, at: usize) {
    let case = Case { family: "any byte of the shortest text", seed };
    let (before, behind) = SHORTEST.as_bytes().split_at(at);
    let rest = behind.get(1..).unwrap_or_default();
    let mut try_text = |text: &[&[u8]]| back_and_there(tally, case, &text.concat(), FILE_ROOM);
    for byte in 0..=255 {
        try_text(&[before, &[byte], behind]);
        try_text(&[before, &[byte], rest]);
    }
    try_text(&[before, rest]);
    try_text(&[before]);
}

/// A file there and back, in just the room for its text or more; at times also in less or none.
fn file_and_text(tally: &mut Tally, case: Case, file: &[u8], random: &mut Random) {
    let more = (0, random.below(2 * LENGTH));
    there_and_back(tally, case, file, random.pick(&[ROOM, ROOM, more]));
    if random.once_in(8) {
        let less = (random.between(1, 250_000), 0);
        show(tally, case, file, random.pick(&[(1, 0), less, NONE]));
    }
}

/// The small text without any one line, with it twice, with any two swapped, cut off behind it, and
/// with a line more before it.
fn every_line(tally: &mut Tally) {
    const MORE: [&str; 9] = ["", "#", "#x", "# states 2", " ", " #", "\r", "x", "goal"];
    let case = Case { family: "any line of a small text", seed: 0 };
    let all: Vec<&str> = SMALL.split('\n').collect();
    let mut try_lines = |lines: &[&str]| {
        back_and_there(tally, case, lines.join("\n").as_bytes(), FILE_ROOM);
    };
    for line in 0..all.len() {
        try_lines(&all[..line]);
        try_lines(&[&all[..line], &all[line + 1..]].concat());
        try_lines(&[&all[..=line], &all[line..]].concat());
        for more in MORE {
            try_lines(&[&all[..line], &[more], &all[line..]].concat());
        }
        for other in 0..line {
            let mut swapped = all.clone();
            swapped.swap(line, other);
            try_lines(&swapped);
        }
    }
}

/// Every example has its text beside it, with comments.
fn examples(tally: &mut Tally) {
    for (family, file, ..) in EXAMPLES {
        let case = Case { family, seed: 0 };
        let path = programs::below_root("examples").join(family).with_extension("text");
        let text = fs::read(path).unwrap_or_default();
        let shown = text::of_file(file).map(String::into_bytes);
        tally.check(case, &text, shown.is_ok_and(|shown| shown == text::bare(&text)), || {
            "the example's text is missing, or says something else".to_string()
        });
        back_and_there(tally, case, &text, FILE_ROOM);
        makechain(tally, case, &text);
    }
}

/// The texts and the chains that are known beforehand.
pub fn known(tally: &mut Tally) {
    for (place, Known { text, number, place: at }) in text_known::all().into_iter().enumerate() {
        let case = Case { family: "known texts", seed: place as u64 };
        let came = text::made(&text).map_or_else(|r| (r.number, r.place), |_| (0, 0));
        tally.check(case, &text, came == (number, at), || {
            format!("this implementation says {came:?} of a known text, not {:?}", (number, at))
        });
        for length in [0, FILE_ROOM - 1, FILE_ROOM, FILE_ROOM + 1] {
            back_and_there(tally, case, &text, length);
        }
        makechain(tally, case, &text);
    }
    every_line(tally);
    examples(tally);
    let worked = worked::all().into_iter().map(|case| (case.name, file::write(&case.chain, 2)));
    let chains = EXAMPLES.iter().map(|example| (example.0, example.1.to_vec()));
    let longest = file::write(&text_known::longest(), 2);
    let others = [("longest", longest), ("damaged.chain", DAMAGED.to_vec()), ("none", Vec::new())];
    for (place, (family, file)) in worked.chain(chains).chain(others).enumerate() {
        let case = Case { family, seed: place as u64 };
        for room in [ROOM, (0, 1), (1, 0), NONE] {
            there_and_back(tally, case, &file, room);
        }
        showchain(tally, case, &file);
    }
}
