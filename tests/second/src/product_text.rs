//! The C entries of a chain's text, through the driver: `driver_text.h`.

use crate::product::asked;
use std::io;

/// How the driver numbers them.
const SHOW: usize = 20;
const MAKE: usize = 21;

/// What one of them returns, and what it left as it was.
#[derive(Debug, PartialEq, Eq)]
pub struct Told {
    pub number: u32,
    pub place: u32,
    pub length: u32,
    /// The file or the text.
    pub lent_unchanged: bool,
    /// What lies around the memory, in the buffer and before it.
    pub rest_unchanged: bool,
}

/// What the entry that shows a file returns, in a buffer so much shorter and longer than its room;
/// `memory`, which the buffer begins with, then holds what it left there.
pub fn show(file: &[u8], (less, more): (usize, usize), memory: &mut [u8]) -> io::Result<Told> {
    call(&[SHOW, file.len(), memory.len(), less, more], file, memory)
}

/// The same of the entry that makes a file of a text, in a buffer of so many bytes.
pub fn make(text: &[u8], buffer_length: usize, memory: &mut [u8]) -> io::Result<Told> {
    call(&[MAKE, text.len(), memory.len(), buffer_length], text, memory)
}

fn call(numbers: &[usize], lent: &[u8], memory: &mut [u8]) -> io::Result<Told> {
    let [number, place, length, lent_unchanged, rest_unchanged] =
        asked(|driver| driver.ask(numbers, lent, memory))?;
    let [lent_unchanged, rest_unchanged] = [lent_unchanged, rest_unchanged].map(|held| held == 1);
    Ok(Told { number, place, length, lent_unchanged, rest_unchanged })
}
