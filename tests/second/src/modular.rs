//! Arithmetic modulo a prime below 2^64, and systems of linear equations there.

use std::sync::LazyLock;

/// The three largest primes below 2^64.
pub const PRIMES: [u64; 3] =
    [18_446_744_073_709_551_557, 18_446_744_073_709_551_533, 18_446_744_073_709_551_521];

/// So many of the largest primes below 2^64, largest first: their product is above 2^2200.
pub static MANY_PRIMES: LazyLock<Vec<u64>> =
    LazyLock::new(|| (0..u64::MAX).rev().filter(|&number| is_prime(number)).take(35).collect());

/// Whether a large number is prime, by the test of Miller and Rabin: below 2^64 these bases leave no
/// doubt.
fn is_prime(number: u64) -> bool {
    const BASES: [u64; 12] = [2, 3, 5, 7, 11, 13, 17, 19, 23, 29, 31, 37];
    let twos = (number - 1).trailing_zeros();
    BASES.iter().all(|&base| {
        let mut value = power(base, (number - 1) >> twos, number);
        let mut passes = value == 1;
        for _ in 0..twos {
            passes |= value == number - 1;
            value = multiply(value, value, number);
        }
        passes
    })
}

pub fn multiply(a: u64, b: u64, prime: u64) -> u64 {
    (u128::from(a) * u128::from(b) % u128::from(prime)) as u64
}

pub fn subtract(a: u64, b: u64, prime: u64) -> u64 {
    if a >= b {
        a - b
    } else {
        prime - (b - a)
    }
}

fn power(a: u64, mut exponent: u64, modulus: u64) -> u64 {
    let (mut result, mut square) = (1, a);
    while exponent > 0 {
        if exponent & 1 == 1 {
            result = multiply(result, square, modulus);
        }
        square = multiply(square, square, modulus);
        exponent >>= 1;
    }
    result
}

/// The inverse of a number that the prime does not divide, by Fermat's little theorem.
pub fn inverse(a: u64, prime: u64) -> u64 {
    power(a, prime - 2, prime)
}

/// The value of the last unknown. Each equation lists the factors of all unknowns, then its right
/// side; there are as many equations as unknowns. None where the prime divides the determinant.
pub fn last_unknown(equations: Vec<Vec<u64>>, prime: u64) -> Option<u64> {
    solved(equations, prime).map(|(last, _)| last)
}

/// The value of the last unknown, and the determinant.
pub fn solved(mut equations: Vec<Vec<u64>>, prime: u64) -> Option<(u64, u64)> {
    let unknowns = equations.len();
    let mut determinant = 1;
    for column in 0..unknowns {
        let pivot = (column..unknowns).find(|&row| equations[row][column] != 0)?;
        equations.swap(column, pivot);
        determinant = multiply(determinant, equations[column][column], prime);
        if pivot != column {
            determinant = subtract(0, determinant, prime);
        }
        let (above, below) = equations.split_at_mut(column + 1);
        let pivot = &above[column];
        let scale = inverse(pivot[column], prime);
        for row in below.iter_mut().filter(|row| row[column] != 0) {
            let factor = multiply(row[column], scale, prime);
            for i in (column..=unknowns).filter(|&i| pivot[i] != 0) {
                row[i] = subtract(row[i], multiply(factor, pivot[i], prime), prime);
            }
        }
    }
    let last = equations.last()?;
    Some((multiply(last[unknowns], inverse(last[unknowns - 1], prime), prime), determinant))
}

#[cfg(test)]
mod tests {
    use super::*;

    #[test]
    fn solves_two_equations() {
        // 2x + 3y = 13 and 5x - y = 7, whose solution is x = 2, y = 3.
        for prime in PRIMES {
            let equations = vec![vec![2, 3, 13], vec![5, prime - 1, 7]];
            assert_eq!(last_unknown(equations.clone(), prime), Some(3));
            assert_eq!(solved(equations, prime), Some((3, prime - 17)));
            // The first equation does not name x: the two change places.
            assert_eq!(solved(vec![vec![0, 2, 6], vec![5, 1, 8]], prime), Some((3, prime - 10)));
        }
    }

    #[test]
    fn the_largest_primes_come_first() {
        assert_eq!(MANY_PRIMES[..3], PRIMES);
        assert!(!is_prime(PRIMES[0] - 2) && !is_prime(4_294_967_291 * 4_294_967_279));
    }

    #[test]
    fn no_value_without_a_unique_solution() {
        let equations = vec![vec![1, 2, 3], vec![2, 4, 6]];
        assert_eq!(last_unknown(equations, PRIMES[0]), None);
    }
}
