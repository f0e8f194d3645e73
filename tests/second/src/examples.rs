//! The example chains of the repository, with lines that their reports must hold and all that
//! `nightsteps` prints for them.

/// An example: its name, its file, lines of its report, and its step list.
pub type Example = (&'static str, &'static [u8], &'static [&'static str], &'static str);

const GATEWAY: &[u8] = include_bytes!("../../../examples/gateway.chain");

/// The example that is no chain file any more, and what is saved of it.
pub const DAMAGED: &[u8] = include_bytes!("../../../examples/damaged.chain");
pub const DAMAGED_TEXT: &str = include_str!("../../../examples/damaged.stdout");

pub const EXAMPLES: [Example; 7] = [
    (
        "address.chain",
        include_bytes!("../../../examples/address.chain"),
        &["chance 4375/4376", "reward infinite", "bounds 4375/4376 4375/4376"],
        "state 1 rows 1 columns 2 divisor 1\n\
         state 2 rows 1 columns 2 divisor 1\n\
         state 3 rows 1 columns 2 divisor 1\n\
         state 4 rows 1 columns 2 divisor 1\n\
         chance 4375/4376\n",
    ),
    (
        "dice.chain",
        include_bytes!("../../../examples/dice.chain"),
        &["chance 1/1", "reward 11/3", "bounds 1/1 1/1"],
        "state 1 rows 2 columns 2 divisor 1\n\
         state 2 rows 2 columns 2 divisor 2\n\
         state 3 rows 1 columns 2 divisor 1\n\
         state 4 rows 1 columns 1 divisor 3\n\
         state 5 rows 2 columns 1 divisor 1\n\
         state 6 rows 1 columns 1 divisor 12\n\
         chance 1/1\n",
    ),
    (
        "long.chain",
        include_bytes!("../../../examples/long.chain"),
        &["chance refused 12 at 3", "reward infinite"],
        "state 1 rows 1 columns 3 divisor 2\n\
         state 2 rows 1 columns 3 divisor 2\n\
         chance refused 12 at 3\n",
    ),
    (
        "gateway.chain",
        GATEWAY,
        &["live 6", "chance refused 12 at 4", "reward infinite"],
        "state 1 rows 5 columns 4 divisor 1\n\
         state 2 rows 4 columns 4 divisor 16\n\
         state 3 rows 3 columns 3 divisor 3994\n\
         chance refused 12 at 4\n",
    ),
    (
        "backup.chain",
        include_bytes!("../../../examples/backup.chain"),
        &["live 2", "chance 59/19265", "reward infinite"],
        "state 1 rows 1 columns 3 divisor 25\nchance 59/19265\n",
    ),
    (
        "copies.chain",
        include_bytes!("../../../examples/copies.chain"),
        &["states 7", "edges 16", "live 5", "chance refused 12 at 4"],
        "state 1 rows 1 columns 3 divisor 3\n\
         state 2 rows 1 columns 3 divisor 1\n\
         state 3 rows 1 columns 3 divisor 3\n\
         chance refused 12 at 4\n",
    ),
    (
        "retries.chain",
        include_bytes!("../../../examples/retries.chain"),
        &["live 2", "chance 1/1", "reward 38209/3201", "bounds 1/1 1/1"],
        "state 1 rows 1 columns 2 divisor 1\nchance 1/1\n",
    ),
];

#[cfg(test)]
mod tests {
    use super::*;
    use crate::{file, report, step_list};

    #[test]
    fn every_example_has_its_answer() {
        for (name, file, lines, text) in EXAMPLES {
            let report = report::of_file(file);
            for line in lines {
                assert!(report.lines().any(|l| l == *line), "{name}: {line}\n{report}");
            }
            assert_eq!(step_list::text(file), text, "{name}");
        }
    }

    #[test]
    fn with_the_gateway_last_in_the_order_the_chance_fits() {
        let mut chain = file::read(GATEWAY).expect("it is a chain file");
        let at = chain.order.iter().position(|&state| state == 1).expect("each state is there");
        chain.order[at..].rotate_left(1);
        let text = step_list::text(&file::write(&chain, 2));
        assert!(text.ends_with("chance 2421953/481015391\n"), "{text}");
    }
}
