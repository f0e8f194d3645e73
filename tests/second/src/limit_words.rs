//! Words that say a limit, words that say none, and words that may say either.

use crate::limit::MOST_BYTES;
use crate::near_text::Decimal;
use crate::random::Random;

/// Words with the digits and the tens of the limit that they say.
pub const LIMITS: [(&str, u64, u32); 34] = [
    ("1e-12", 1, 12),
    ("2.5e-9", 25, 10),
    ("0.001", 1, 3),
    ("1", 1, 0),
    ("2.48121e-10", 248_121, 15),
    ("00.1", 1, 1),
    ("01", 1, 0),
    ("1e-0", 1, 0),
    ("1e-00", 1, 0),
    ("1e-000", 1, 0),
    ("1.0", 10, 1),
    ("1.000000", 1_000_000, 6),
    ("0.10", 10, 2),
    ("10e-1", 10, 1),
    ("10e-001", 10, 1),
    ("0.5", 5, 1),
    ("5e-1", 5, 1),
    ("0.9999999", 9_999_999, 7),
    ("9999999e-7", 9_999_999, 7),
    ("9999999e-700", 9_999_999, 700),
    ("9.999999e-694", 9_999_999, 700),
    ("1000000e-6", 1_000_000, 6),
    ("1e-700", 1, 700),
    ("0.1e-699", 1, 700),
    ("1.0e-699", 10, 700),
    ("0000000001e-1", 1, 1),
    ("1e-099", 1, 99),
    ("1e-009", 1, 9),
    // 40 bytes each.
    ("0000000000000000000000000000000000000001", 1, 0),
    ("0.00000000000000000000000000000000000001", 1, 38),
    ("00000000000000000000000000000000000001.0", 10, 1),
    ("0.00000000000000000000000000000009999999", 9_999_999, 38),
    ("0.000000000000000000000000000000009e-667", 9, 700),
    ("00000000000000000000000000000000007e-700", 7, 700),
];

/// Words that say none.
pub const NONE: [&str; 60] = [
    "",
    ".",
    "e",
    "e-",
    "-",
    ".5",
    "5.",
    ".",
    "1.",
    ".1",
    "0",
    "00",
    "0.0",
    "0e-1",
    "0.000e-3",
    "1.1",
    "2",
    "11e-1",
    "1.01",
    "101e-2",
    "1.0000001",
    "10",
    "10000001e-7",
    "10000000e-8",
    "10000000e-7",
    "1.0000000",
    "1.000000000",
    "0.12345678",
    "12345678e-9",
    "1E-3",
    "1e3",
    "1e+3",
    "1e",
    "1e-",
    "1e--3",
    "1-e3",
    "1e-1000",
    "1e-0001",
    "1e-701",
    "0.1e-700",
    "1.0e-700",
    "1e-999",
    "9999999e-701",
    "1e-1.0",
    "1e-.5",
    "1.e-3",
    "1..5",
    "0.1.2",
    "1e-1e-1",
    "+1",
    "-1",
    " 1",
    "1 ",
    "1 e-3",
    "1x",
    "0x1",
    "0,5",
    "½",
    "١",
    // 41 bytes.
    "00000000000000000000000000000000000000001",
];

/// What words are made of that may say a limit or not.
const LETTERS: [char; 17] =
    ['0', '1', '2', '3', '4', '5', '6', '7', '8', '9', '.', 'e', '-', 'E', '+', ' ', 'x'];

/// A word that says this limit, with a point, an `e-`, zeros before both numbers, or none of them; at
/// times as a figure is printed.
pub fn word(random: &mut Random, limit: Decimal) -> String {
    let Decimal { digits, tens } = limit;
    if (100_000..1_000_000).contains(&digits) && tens > 5 && random.once_in(3) {
        return limit.text();
    }
    let mut number = digits.to_string();
    let most = random.pick(&[0, 0, 1, 3, 12, MOST_BYTES]);
    number = "0".repeat(random.below(most + 1)) + &number;
    let after = random.below(number.len().min(tens as usize + 1));
    let left = tens as usize - after;
    if after > 0 {
        number.insert(number.len() - after, '.');
    }
    if left > 0 || random.once_in(4) {
        let width = random.between(1, 3);
        number += &format!("e-{left:0width$}");
    }
    // What is too long is so by zeros alone, unless a point stands among them.
    while number.len() > MOST_BYTES {
        let shorter = number.strip_prefix('0').filter(|shorter| !shorter.starts_with('.'));
        match shorter {
            Some(shorter) => number = shorter.to_string(),
            None => return format!("{digits}e-{tens}"),
        }
    }
    number
}

/// A word with some of its letters changed, left out or put in, or one of any letters.
pub fn changed(random: &mut Random, word: &str) -> String {
    if random.once_in(6) {
        return (0..random.below(9)).map(|_| random.pick(&LETTERS)).collect();
    }
    let mut letters: Vec<char> = word.chars().collect();
    for _ in 0..random.below(3) {
        let at = random.below(letters.len() + 1);
        let letter = random.pick(&LETTERS);
        match random.below(3) {
            0 => letters.insert(at, letter),
            1 if at < letters.len() => letters[at] = letter,
            2 if at < letters.len() => drop(letters.remove(at)),
            _ => letters.push(letter),
        }
    }
    letters.into_iter().collect()
}

#[cfg(test)]
mod tests {
    use super::*;
    use crate::limit::{self, of_word};

    #[test]
    fn words_that_say_a_limit_say_their_own() {
        for (word, digits, tens) in LIMITS {
            assert_eq!(of_word(word), Some(Decimal { digits, tens }), "{word}");
        }
        assert_eq!(LIMITS.iter().filter(|word| word.0.len() == MOST_BYTES).count(), 6);
    }

    #[test]
    fn words_that_say_none_say_none() {
        for word in NONE {
            assert_eq!(of_word(word), None, "{word}");
        }
        assert_eq!(NONE.map(str::len).into_iter().max(), Some(MOST_BYTES + 1));
    }

    #[test]
    fn a_limit_is_said_by_the_words_made_for_it() {
        let mut random = Random::new(7);
        for _ in 0..20_000 {
            let any = [1, 10, 9_999, 9_999_999][random.below(4)];
            let (digits, tens) = (random.between(1, any) as u64, random.below(701) as u64);
            let tens = random.pick(&[tens, tens % 10]);
            if let Some(limit) = limit::new(digits, tens) {
                let word = word(&mut random, limit);
                assert_eq!(of_word(&word), Some(limit), "{word}");
            }
        }
    }

    #[test]
    fn changed_words_say_limits_and_none() {
        let mut random = Random::new(8);
        let says = |_| of_word(&changed(&mut random, "2.5e-9")).is_some();
        let many = (0..1_000).map(says).filter(|&says| says).count();
        assert!((200..800).contains(&many), "{many}");
    }

    #[test]
    fn numbers_that_are_no_limit_are_none() {
        let none = [(0, 0), (0, 700), (2, 0), (11, 1), (10_000_000, 7), (10_000_000, 700)];
        let more = [(1, 701), (9_999_999, 6), (1, 1 << 32), ((1 << 32) + 1, 20), (1, u64::MAX)];
        for (digits, tens) in none.into_iter().chain(more) {
            assert_eq!(limit::new(digits, tens), None, "{digits} {tens}");
        }
    }
}
