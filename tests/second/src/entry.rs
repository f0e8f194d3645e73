//! What the C entry must answer.

use crate::chain::Chain;
use crate::figures;
use crate::file;
use crate::fraction::Fraction;
use crate::live::Reach;
use crate::refusal::{of_tables, Refusal};

/// The modes: the default, which means bounds since request 9; exact; bounds.
pub const DEFAULT: u32 = 0;
pub const EXACT: u32 = 1;
pub const BOUNDS: u32 = 2;

/// The length of an answer: four numbers of 4 bytes.
pub const ANSWER: usize = 16;

/// A lower and an upper bound; an exact answer is one fraction twice.
pub type Pair = (Fraction, Fraction);

/// The answer to this request, or the refusal that it gives.
pub fn chance(file: &[u8], mode: u32, answer_length: usize) -> Result<Pair, Refusal> {
    if mode > BOUNDS {
        return Err(Refusal { number: 1, place: 0 });
    }
    if answer_length < ANSWER {
        return Err(Refusal { number: 2, place: 0 });
    }
    let chain = file::read(file)?;
    if let Some(refusal) = of_tables(&chain) {
        return Err(refusal);
    }
    figures_of(&chain, mode)
}

fn figures_of(chain: &Chain, mode: u32) -> Result<Pair, Refusal> {
    let reach = Reach::of(chain);
    match mode {
        EXACT => figures::chance(chain, &reach).map(|chance| (chance, chance)),
        _ => Ok(figures::bounds(chain, &reach)),
    }
}

/// The bytes of an answer: lower, upper; numerator first; little-endian.
pub fn bytes(answer: Pair) -> [u8; ANSWER] {
    let (lower, upper) = answer;
    let numbers = [lower.numerator, lower.denominator, upper.numerator, upper.denominator];
    let mut bytes = [0; ANSWER];
    for (place, number) in bytes.chunks_mut(4).zip(numbers) {
        let number = u32::try_from(number).expect("an answer's numbers are at most M");
        place.copy_from_slice(&number.to_le_bytes());
    }
    bytes
}
