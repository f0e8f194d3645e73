//! Compares the product's near chances with this implementation's, through C and through
//! `nightnear`, and holds them to the chance as a fraction.

use crate::compare;
use crate::exact::Exact;
use crate::live::Reach;
use crate::met::Met;
use crate::near::{self, Nearly};
use crate::near_held::faults;
use crate::near_known::Known;
use crate::near_text::{self, Decimal, Share};
use crate::plan;
use crate::product::{self, Neared};
use crate::programs;
use crate::random::Random;
use crate::refusal::Refusal;
use crate::report;
use crate::tally::{Asked, Case, Tally};
use crate::{chain::Chain, file};

/// Calls the entry, or where a state is given the one that starts there; compares what it returns,
/// and holds what it answers to the chance.
pub fn entry(tally: &mut Tally, case: Case, file: &[u8], from: Option<u64>) {
    let chain = near::read(file, from);
    let said = chain.as_ref().map(near::of_chain).map_err(|&refusal| refusal);
    let shares = |said: &Nearly| [&said.near, &said.miss].map(Share::of);
    let told = told(said.as_ref().map(shares).map_err(|&refusal| refusal));
    let came = product::near(file, from);
    compare::same(tally, case, file, (&told, &came), &format!("near chances from {from:?}"));
    tally.number(Asked::Near, told.number);
    if let (Ok(chain), Ok(said), Ok(came @ Neared { number: 0, .. })) = (&chain, &said, &came) {
        held_to(tally, case, file, (&Exact::of(chain, &Reach::of(chain)), said.rows), came);
        meet(tally, chain, said, &told);
    }
    if from.is_some() {
        let wrong = file::read(file).is_ok_and(|chain| chain.start() >= chain.states());
        tally.meet(Met::NearFrom, said.is_ok());
        tally.meet(Met::NearFromWrongStart, said.is_ok() && wrong);
    }
}

/// Compares the numbers of a chain that are known from elsewhere.
pub fn known(tally: &mut Tally, case: Case, file: &[u8], known: &Known) {
    let came = product::near(file, None);
    let numbers = |share: Share| (share.lower, share.upper, share.twos as usize);
    let alike = came.as_ref().is_ok_and(|came| {
        known.near.is_none_or(|near| near == numbers(came.near))
            && known.miss.is_none_or(|miss| miss == numbers(came.miss))
    });
    tally.check(case, file, alike, || {
        format!("near chances: expected {:?} and {:?}, came {came:?}", known.near, known.miss)
    });
}

/// What the entry must return: on a refusal all but number and place is 0.
pub fn told(said: Result<[Share; 2], Refusal>) -> Neared {
    let file_unchanged = true;
    match said {
        Ok([near, miss]) => Neared { number: 0, place: 0, near, miss, file_unchanged },
        Err(Refusal { number, place }) => {
            Neared { number, place: place as u32, file_unchanged, ..Neared::default() }
        }
    }
}

/// Holds both figures to the chance of the chain, which no order decides, after so many rows.
pub fn held_to(
    tally: &mut Tally,
    case: Case,
    file: &[u8],
    (exact, rows): (&Exact, usize),
    came: &Neared,
) {
    for (share, part) in [(&came.near, &exact.reached), (&came.miss, &exact.missed())] {
        let faults = faults(share, rows, part, &exact.whole);
        tally.check(case, file, faults.is_empty(), || {
            format!("{share:?} after {rows} rows made anew: {faults:?}")
        });
    }
}

/// Counts the kinds of figures.
fn meet(tally: &mut Tally, chain: &Chain, said: &Nearly, told: &Neared) {
    let Neared { near, miss, .. } = told;
    // A number over 2^k has 31 digits or so: its share is about 2^31 over 2^k.
    let rarer = |share: &Share, than: u32| share.lower > 0 && share.twos > 31 + than;
    tally.meet(Met::NearRare, rarer(near, 31));
    tally.meet(Met::NearRarest, rarer(near, 1_000));
    tally.meet(Met::MissRare, rarer(miss, 31));
    tally.meet(Met::MissNever, miss.upper == 0 && !chain.starts_at_goal());
    tally.meet(Met::NearManyRows, said.rows > 1_000);
    let shares = [near, miss];
    let whole = |share: &Share| share.twos < 64 && share.upper == 1 << share.twos;
    let one = |share: &&Share| share.highest == Decimal::ONE && share.lowest != Decimal::ONE;
    tally.meet(Met::UpToOne, shares.iter().any(|share| one(share) && whole(share)));
    tally.meet(Met::RoundedToOne, shares.iter().any(|share| one(share) && !whole(share)));
}

/// Runs `nightnear` with these words and compares all that it prints.
pub fn program(tally: &mut Tally, case: Case, words: &[String], file: &[u8]) {
    text(tally, case, words, file, &near_text::text(words, file));
}

/// Runs `nightnear` and compares all that it prints with a text that is known from elsewhere. It takes
/// one word or none.
pub fn text(tally: &mut Tally, case: Case, words: &[String], file: &[u8], expected: &str) {
    let wanted = words.len().min(1);
    compare::with_words(tally, case, (programs::NIGHTNEAR, wanted), words, file, expected);
    tally.number(Asked::NearText, report::number(expected));
}

/// All that can be asked of a chain of n states by a state, and some that name none.
pub fn from_all(tally: &mut Tally, case: Case, file: &[u8], n: usize) {
    let n = n as u64;
    for state in (0..n + 2).chain([255, 256, 1 << 32, u64::MAX]) {
        entry(tally, case, file, Some(state));
    }
}

/// A state that the chance is asked from: mostly below n, at times not.
pub fn state(random: &mut Random, n: usize) -> u64 {
    if random.once_in(12) {
        return random.pick(&[n as u64, 64, 255, 256, 1 << 32, (1 << 32) + 1, u64::MAX]);
    }
    random.below(n.max(1)) as u64
}

/// The words of a command line: none, a state, one that says no number, or two.
pub fn words(random: &mut Random, n: usize) -> Vec<String> {
    let mut words = vec![state(random, n).to_string()];
    match random.below(8) {
        0..=2 => words.clear(),
        3 => words[0] = random.pick(&plan::ODD).to_string(),
        4 => words.push(random.pick(&["0", "x", ""]).to_string()),
        _ => {}
    }
    words
}
