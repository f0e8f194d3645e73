//! Step lists worked by hand: a chain, and all that `nightsteps` prints for it.

use crate::chain::{Chain, M};
use crate::worked::{address, chain, dice, no_fit};

/// Each with its name.
pub fn all() -> Vec<(&'static str, Chain, &'static str)> {
    let stops = [
        &[(1, 1), (2, 1)][..],
        &[(0, 1), (3, 1), (4, 1)],
        &[(3, 1), (4, M - 1)],
        &[(3, 1)],
        &[(4, 1)],
    ];
    vec![
        (
            "steps: address, goal 5",
            address(&[5], &[]),
            "state 1 rows 1 columns 2 divisor 1\n\
             state 2 rows 1 columns 2 divisor 1\n\
             state 3 rows 1 columns 2 divisor 1\n\
             state 4 rows 1 columns 2 divisor 1\n\
             chance 4375/4376\n",
        ),
        (
            "steps: address, goals 5 and 6",
            address(&[5, 6], &[]),
            "state 1 rows 1 columns 2 divisor 1\n\
             state 2 rows 1 columns 2 divisor 1\n\
             state 3 rows 1 columns 2 divisor 1\n\
             state 4 rows 1 columns 2 divisor 8\n\
             chance 1/1\n",
        ),
        (
            "steps: one face of the dice",
            dice(&[7], &[]),
            "state 1 rows 2 columns 2 divisor 1\n\
             state 3 rows 1 columns 2 divisor 2\n\
             chance 1/6\n",
        ),
        ("steps: the largest divisor", divided(), DIVIDED),
        (
            "steps: no fit after one step",
            chain(&stops, &[3], &[]),
            "state 1 rows 1 columns 3 divisor 1\nchance refused 12 at 2\n",
        ),
        ("steps: no fit at the first step", no_fit(), "chance refused 12 at 1\n"),
        ("steps: the start is a goal", chain(&[&[(1, 1)], &[(1, 1)]], &[0], &[]), "chance 1/1\n"),
        ("steps: the start is lost", chain(&[&[(0, 1)], &[(1, 1)]], &[1], &[]), "chance 0/1\n"),
        (
            "steps: only the start",
            chain(&[&[(0, 1), (1, 1)], &[(1, 1)]], &[1], &[]),
            "chance 1/1\n",
        ),
    ]
}

/// Removing 1, whose D is 12, makes of row 0 twelve times 1, 1 and 2, of row 2 four times 3, 3, 1
/// and 2, of row 3 eight times 2 and 1: the largest divisor is neither the last nor the least, and
/// the loop of 1 is no column of it.
fn divided() -> Chain {
    let rows = [
        &[(1, 3), (2, 1)][..],
        &[(1, 5), (4, 4), (5, 8)],
        &[(0, 1), (1, 1), (3, 1)],
        &[(1, 1), (4, 1)],
        &[(4, 1)],
        &[(5, 1)],
    ];
    chain(&rows, &[4], &[])
}

const DIVIDED: &str = "state 1 rows 3 columns 2 divisor 12\n\
                       state 2 rows 1 columns 4 divisor 1\n\
                       state 3 rows 1 columns 2 divisor 9\n\
                       chance 4/11\n";

#[cfg(test)]
mod tests {
    use super::*;
    use crate::{block::VERSIONS, file, step_list};

    #[test]
    fn every_worked_step_list_is_whole() {
        for (name, chain, text) in all() {
            for version in VERSIONS {
                assert_eq!(step_list::text(&file::write(&chain, version)), text, "{name}");
            }
        }
    }

    #[test]
    fn a_list_shorter_than_n_is_2_after_the_file_and_before_the_chain() {
        let mut chain = address(&[5], &[]);
        chain.start = 9;
        let mut file = file::write(&chain, 2);
        let number = |file: &[u8], room| step_list::of_file(file, room).map_err(|r| r.number).err();
        assert_eq!(number(&file, 6), Some(2));
        assert_eq!(number(&file, 7), Some(3));
        file[600] ^= 1;
        assert_eq!(number(&file, 6), Some(21));
    }
}
