//! Makes a list of choices smaller while the case made from it still shows a difference.

use crate::{generate, Case, Kind, Size, Source};

/// Choices at the beginning of a list that are lowered with new choices after them.
const FIRST: usize = 16;
/// How many lists of new choices are tried.
const TRIES: u64 = 8;

/// The case of the smallest list found.
pub fn shrink(kind: Kind, size: &Size, choices: &[u64], differs: impl Fn(&Case) -> bool) -> Case {
    // The choices that are used, and the case, if it shows a difference.
    let attempt = |choices: &[u64]| {
        let mut from = Source::list(choices);
        let case = generate(kind, &mut from, size)?;
        differs(&case).then(|| (from.taken().to_vec(), case))
    };
    let mut best = attempt(choices).expect("the choices show a difference");
    loop {
        let found = smaller(&best.0)
            .find_map(|choices| attempt(&choices).filter(|found| (found.0.len(), &found.0) < (best.0.len(), &best.0)));
        match found {
            Some(found) => best = found,
            None => return best.1,
        }
    }
}

/// The list with a piece left out; with one of the first choices lowered, and those after it new or a
/// piece of them left out; with one choice lowered.
fn smaller(choices: &[u64]) -> impl Iterator<Item = Vec<u64>> + '_ {
    let cut = [256, 64, 16, 4, 1].into_iter().flat_map(move |piece| {
        (0..choices.len()).step_by(piece).map(move |start| {
            let end = choices.len().min(start + piece);
            [&choices[..start], &choices[end..]].concat()
        })
    });
    let renewed = (0..choices.len().min(FIRST)).flat_map(move |i| {
        lower(choices[i]).flat_map(move |to| {
            (0..TRIES).map(move |seed| {
                let mut from = Source::random(seed);
                let after = (i + 1..choices.len()).map(|_| from.below(1 << 32));
                choices[..i].iter().copied().chain([to]).chain(after).collect()
            })
        })
    });
    let shortened = (0..choices.len().min(FIRST)).flat_map(move |i| {
        let pieces = (1..FIRST).flat_map(move |piece| (0..FIRST).map(move |skip| (piece, skip)));
        pieces.filter(move |_| choices[i] > 0).map(move |(piece, skip)| {
            let start = choices.len().min(i + 1 + skip);
            let end = choices.len().min(start + piece);
            let before = choices[..i].iter().copied().chain([choices[i] - 1]);
            before.chain(choices[i + 1..start].iter().copied()).chain(choices[end..].iter().copied()).collect()
        })
    });
    let lowered = (0..choices.len()).flat_map(move |i| {
        lower(choices[i]).map(move |to| {
            let mut list = choices.to_vec();
            list[i] = to;
            list
        })
    });
    cut.chain(renewed).chain(shortened).chain(lowered)
}

fn lower(choice: u64) -> impl Iterator<Item = u64> {
    [0, choice / 2, choice.saturating_sub(1)].into_iter().filter(move |&to| to < choice)
}
