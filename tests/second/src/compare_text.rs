//! Compares the texts that the product shows and the files that it makes of texts with this
//! implementation's, through C and through `showchain` and `makechain`, there and back.

use crate::block::VERSION;
use crate::compare::{held, AROUND};
use crate::file;
use crate::product_text::{self, Told};
use crate::programs;
use crate::random::Random;
use crate::refusal::{of_tables, Refusal};
use crate::report;
use crate::tally::{Case, Tally};
use crate::tally_text::{TextMet, Way};
use crate::text::{self, FILE_ROOM, LONGEST};
use std::io;

/// A buffer for a text that is just its room: no byte less and none more.
pub const ROOM: (usize, usize) = (0, 0);
/// A buffer of no bytes.
pub const NONE: (usize, usize) = (u32::MAX as usize, 0);

/// What a call is expected to write, or its refusal.
type Expected = Result<Vec<u8>, Refusal>;

const TOO_SHORT: Expected = Err(Refusal { number: 2, place: 0 });

/// Compares one call: what it returns, what it wrote and every byte around that. Hands back what the
/// product wrote where that is as long as it should be.
fn call(
    tally: &mut Tally,
    (case, way, lent): (Case, Way, &[u8]),
    expected: &Expected,
    buffer_length: usize,
    entry: impl FnOnce(&mut [u8]) -> io::Result<Told>,
) -> Option<Vec<u8>> {
    let written = expected.as_ref().map_or(0, Vec::len);
    let mut random = Random::new(case.seed);
    let mut memory = held(&mut random, (written + AROUND).min(buffer_length));
    let mut expected_memory = memory.clone();
    let mut told =
        Told { number: 0, place: 0, length: 0, lent_unchanged: true, rest_unchanged: true };
    match expected {
        Ok(bytes) => {
            expected_memory[..written].copy_from_slice(bytes);
            told.length = written as u32;
        }
        Err(refusal) => (told.number, told.place) = (refusal.number, refusal.place as u32),
    }
    let came = entry(&mut memory);
    let same = came.as_ref().is_ok_and(|came| *came == told);
    tally.check(case, lent, same && memory == expected_memory, || {
        let wrong = (0..memory.len()).find(|&at| memory[at] != expected_memory[at]);
        format!("{}: expected {told:?}, came {came:?}, first wrong byte {wrong:?}", way.name())
    });
    tally.texts.number(way, told.number);
    memory.truncate(written);
    (same && expected.is_ok()).then_some(memory)
}

/// Shows a file in a buffer so much shorter and longer than its room.
pub fn show(tally: &mut Tally, case: Case, file: &[u8], room: (usize, usize)) -> Option<Vec<u8>> {
    let (less, more) = room;
    let too_short = less > more;
    let expected = if too_short { TOO_SHORT } else { text::of_file(file).map(String::into_bytes) };
    // A buffer that is too short is filled by the driver alone, which knows its length.
    let known = if too_short { 0 } else { usize::MAX };
    let shown = call(tally, (case, Way::Show, file), &expected, known, |memory| {
        product_text::show(file, room, memory)
    });
    tally.texts.meet(TextMet::Longest, shown.as_ref().is_some_and(|text| text.len() == 183_707));
    shown
}

/// Makes a file of a text in a buffer of so many bytes.
pub fn make(tally: &mut Tally, case: Case, text: &[u8], buffer_length: usize) -> Option<Vec<u8>> {
    let too_short = buffer_length < FILE_ROOM;
    let expected = if too_short { TOO_SHORT } else { text::made(text) };
    let made = call(tally, (case, Way::Make, text), &expected, buffer_length, |memory| {
        product_text::make(text, buffer_length, memory)
    });
    if too_short {
        return made;
    }
    match expected {
        Err(Refusal { number: 40, .. }) => {
            tally.texts.wrong(text::read(text).expect_err("a line is wrong"));
        }
        Err(refusal) => tally.texts.meet(TextMet::LaterPlace, refusal.place > 0),
        Ok(_) => tally.texts.meet(TextMet::NoNewline, !text.ends_with(b"\n")),
    }
    let read = expected.is_ok_and(|_| text.len() == LONGEST);
    tally.texts.meet(TextMet::FullLength, read);
    tally.texts.meet(TextMet::OneTooLong, text.len() == LONGEST + 1);
    made
}

/// A file to its text and back: it is made again where nothing refuses its chain, and else the
/// writer's refusal is given.
pub fn there_and_back(tally: &mut Tally, case: Case, file: &[u8], room: (usize, usize)) {
    let Some(shown) = show(tally, case, file, room) else { return };
    let made = make(tally, case, &shown, FILE_ROOM);
    let chain = file::read(file).expect("it was shown");
    let refused = of_tables(&chain).is_some();
    tally.texts.meet(TextMet::RefusedAndShown, refused);
    if refused {
        return;
    }
    let second = file[VERSION] == 2;
    let again = if second { file.to_vec() } else { file::write(&chain, 2) };
    tally.check(case, file, made.is_some_and(|made| made == again), || {
        "the file made of its text is another".to_string()
    });
    tally.texts.meet(TextMet::SameFile, second);
    tally.texts.meet(TextMet::SecondVersion, !second);
}

/// A text to its file and back: what is shown is the text without what says nothing.
pub fn back_and_there(tally: &mut Tally, case: Case, text: &[u8], buffer_length: usize) {
    let Some(made) = make(tally, case, text, buffer_length) else { return };
    let shown = show(tally, case, &made, ROOM);
    let bare = text::bare(text);
    tally.check(case, text, shown.is_some_and(|shown| shown == bare), || {
        "the text shown of its file is another".to_string()
    });
    tally.texts.meet(TextMet::SameText, true);
    tally.texts.meet(TextMet::Dressed, bare.len() < text.len());
}

/// Runs `showchain` and compares all that it writes; a refusal is what it prints.
pub fn showchain(tally: &mut Tally, case: Case, file: &[u8]) {
    let shown = text::of_file(file).map(String::into_bytes);
    let number = number(&shown);
    let printed = shown.unwrap_or_else(refusal_line);
    program(tally, (case, Way::Showchain, file), (printed, Vec::new()), number);
}

/// Runs `makechain` and compares all that it writes; a refusal is what it complains of.
pub fn makechain(tally: &mut Tally, case: Case, text: &[u8]) {
    let made = text::made(text);
    let number = number(&made);
    let written = match made {
        Ok(file) => (file, Vec::new()),
        Err(refusal) => (Vec::new(), refusal_line(refusal)),
    };
    program(tally, (case, Way::Makechain, text), written, number);
}

fn number(expected: &Expected) -> u32 {
    expected.as_ref().map_or_else(|refusal| refusal.number, |_| 0)
}

fn refusal_line(refusal: Refusal) -> Vec<u8> {
    format!("{}\n", report::refused(refusal)).into_bytes()
}

fn program(
    tally: &mut Tally,
    (case, way, given): (Case, Way, &[u8]),
    expected: (Vec<u8>, Vec<u8>),
    number: u32,
) {
    let name = way.name();
    let came = programs::both(name, &[], given);
    tally.check(case, given, came.as_ref().is_ok_and(|came| *came == expected), || {
        let told =
            |bytes: &[u8]| String::from_utf8_lossy(&bytes[..bytes.len().min(80)]).into_owned();
        let both = |(printed, complained): &(Vec<u8>, Vec<u8>)| {
            format!("{} bytes {:?} and {:?}", printed.len(), told(printed), told(complained))
        };
        format!("{name}: expected {}, came {:?}", both(&expected), came.as_ref().map(both))
    });
    tally.texts.number(way, number);
}
