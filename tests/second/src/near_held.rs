//! What numbers around a chance and their decimals must meet beside the chance itself, by cross
//! products: nothing here knows how they were found.

use crate::natural::Natural;
use crate::near_text::{Decimal, Share};

/// A test in words that say what does not hold where it fails.
type Test = (&'static str, bool);

/// What does not hold of two numbers around `part` over `whole`, after so many rows made anew.
pub fn faults(share: &Share, rows: usize, part: &Natural, whole: &Natural) -> Vec<&'static str> {
    let mut tests = numbers(share, rows, part, whole);
    tests.extend(decimals(share, part, whole));
    tests.into_iter().filter(|(_, holds)| !holds).map(|(fault, _)| fault).collect()
}

/// The numbers lie around the chance, and near each other in proportion.
fn numbers(share: &Share, rows: usize, part: &Natural, whole: &Natural) -> Vec<Test> {
    let [lower, upper] = [share.lower, share.upper].map(Natural::new);
    let twos = share.twos as usize;
    let part = part.raised(twos);
    let apart = if lower < upper { upper.minus(&lower) } else { Natural::new(0) };
    let one_more = lower.times((1 << 16) + 1);
    let by_rows = lower.times(4 * rows as u64 + 8);
    vec![
        ("the lower number is above the chance", whole.product(&lower) <= part),
        ("the upper number is below the chance", part <= whole.product(&upper)),
        ("the upper number is above 1", upper <= Natural::two_to(twos)),
        ("the lower number is above the upper", lower <= upper),
        ("the numbers are further apart than one part in 2^16", upper.raised(16) <= one_more),
        ("the numbers are further apart than the rows allow", apart.raised(30) <= by_rows),
    ]
}

/// The decimals lie around the numbers, so around the chance, and no further from them than
/// rounding takes them.
///
/// A lower one is less than one of its last place below its number, and one part in 2^40: of the
/// products that lead to it, at most some hundred, each is cut by less than one part in 2^59. An
/// upper one is at most one of its last place above the number that follows its own.
fn decimals(share: &Share, part: &Natural, whole: &Natural) -> Vec<Test> {
    let Share { lower, upper, twos, lowest, highest } = *share;
    let unit = Natural::two_to(twos as usize);
    let [least, most] = [lowest, highest].map(in_millionths);
    let digits = |decimal: Decimal| unit.times(decimal.digits);
    let number = |number: u64, decimal: Decimal| ten_to(decimal).times(number);
    let short = number(lower, least).raised(40);
    let shorter = digits(least).plus(&unit).times((1 << 40) + 1);
    let past = number(upper, most).plus(&ten_to(most)).plus(&unit);
    let is_one = unit == Natural::new(lower);
    let at_least = whole.times(most.digits) >= part.product(&ten_to(most));
    vec![
        ("the lower decimal has another form", has_form(lowest, lower == 0, is_one)),
        ("the lower decimal is above its number", digits(least) <= number(lower, least)),
        ("the lower decimal is too far below its number", short < shorter),
        ("the lower decimal is above the chance", {
            whole.times(least.digits) <= part.product(&ten_to(least))
        }),
        ("the upper decimal has another form", {
            has_form(highest, upper == 0, upper > 0 && highest == Decimal::ONE)
        }),
        ("the upper decimal is below its number", digits(most) >= number(upper, most)),
        ("the upper decimal is too far above its number", upper == 0 || digits(most) <= past),
        ("the upper decimal is below the chance", at_least),
    ]
}

/// 1 as a number of 10^-6, which is how many places any other decimal has at least.
fn in_millionths(decimal: Decimal) -> Decimal {
    match decimal {
        Decimal::ONE => Decimal { digits: 1_000_000, tens: 6 },
        other => other,
    }
}

fn ten_to(decimal: Decimal) -> Natural {
    Natural::ten_to(decimal.tens as usize)
}

/// 0 stands for 0, and 1 where it may; anything else has six digits behind the point or behind
/// zeros there.
fn has_form(decimal: Decimal, is_zero: bool, is_one: bool) -> bool {
    match decimal {
        Decimal::ZERO => is_zero,
        Decimal::ONE => is_one,
        Decimal { digits, tens } => {
            !is_zero && !is_one && (100_000..1_000_000).contains(&digits) && tens >= 6
        }
    }
}
