//! Refusals of damaged files, worked by hand: what `salvage` prints for them.

use crate::block::LENGTH;
use crate::chain::Chain;
use crate::damage::block_at;
use crate::file;
use crate::worked_salvage::{chain, check_wrong, damaged, Salvaged, Triple, FIRST, SECOND};

/// Every file.
pub fn all() -> Vec<Salvaged> {
    let mut cases = of_edges();
    cases.extend(others());
    cases
}

/// The first block of edges is lost, and an edge of the second is refused at its index in the whole
/// file; a pair that stood in the lost block is none that was given before.
fn of_edges() -> Vec<Salvaged> {
    let first = [(0, 1, 1), (1, 1, 1)];
    let rest = |second: &[Triple]| damaged(&chain(2, &[1], &first, second), FIRST, check_wrong);
    vec![
        ("an edge to no state", rest(&[(0, 0, 1), (0, 200, 1)]), "refused 6 at 64\n"),
        ("an edge from no state", rest(&[(10, 0, 1)]), "refused 6 at 63\n"),
        ("no weight", rest(&[(0, 0, 1), (1, 0, 1), (0, 3, 0)]), "refused 7 at 65\n"),
        ("a pair again", rest(&[(0, 0, 1), (0, 0, 1)]), "refused 8 at 64\n"),
        (
            "a pair that only the lost block has too",
            rest(&[(0, 1, 1)]),
            "bounds 1/2 1/1\nlost 2 21\nshort 0 1\nshort 1 1\nshort 2 8\nshort 3 8\nshort 4 8\nshort 5 8\n\
             short 6 8\nshort 7 8\nshort 8 8\nshort 9 5\n",
        ),
    ]
}

fn others() -> Vec<Salvaged> {
    let chain = || chain(2, &[1], &[(0, 0, 2), (0, 1, 2), (1, 1, 1)], &[(0, 2, 1)]);
    let mut cases = Vec::new();
    let mut add = |name, change: fn(&mut Chain), places: &[usize], text| {
        let mut chain = chain();
        change(&mut chain);
        let mut file = file::write(&chain, 2);
        for &place in places {
            check_wrong(block_at(&mut file, place));
        }
        cases.push((name, file, text));
    };
    let lost = &[SECOND][..];
    add("no start", |chain| chain.start = 64, lost, "refused 3 at 0\n");
    add(
        "no goal, though a row falls short",
        |chain| chain.goals[1] = false,
        lost,
        "refused 4 at 0\n",
    );
    add("no denominator", |chain| chain.denominators[1] = 0, lost, "refused 5 at 1\n");
    add("a row above its denominator", |chain| chain.denominators[0] = 3, lost, "refused 9 at 0\n");
    add(
        "a row that falls short of a file that is whole",
        |chain| chain.denominators[0] = 6,
        &[],
        "refused 9 at 0\n",
    );
    add("no order", |chain| chain.order[9] = 0, lost, "refused 10 at 9\n");
    add("a block of states too", |_| {}, &[1, SECOND], "refused 21 at 1\n");
    add("the head too", |_| {}, &[0, SECOND], "refused 21 at 0\n");
    let file = file::write(&chain(), 2);
    cases.push(("a block less", file[..file.len() - LENGTH].to_vec(), "refused 24 at 0\n"));
    cases.push(("a byte more", [&file[..], &[0]].concat(), "refused 20 at 0\n"));
    cases
}
