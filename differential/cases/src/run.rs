//! A comparison as a program runs it: enumerations, random cases, cases at the limits, figures. It stops
//! at the first difference and prints the smallest input found that shows it.

use std::process::ExitCode;
use std::time::Instant;

use crate::{
    exhaustive, figures, large, long_size, outside, plans, random_size, Case, Comparison, Difference, Edges, Kind,
    Plan, Size, Source,
};

/// Which cases are run.
#[derive(Clone, Copy, PartialEq)]
pub enum Domain {
    /// Document 01's compared domain, which is tight, and what both sides refuse.
    Compared,
    /// Both edge rules; also inputs outside it, and lent buffers of any length.
    Any,
}

impl Domain {
    fn size(self, size: Size) -> Size {
        Size { edges: if self == Domain::Any { None } else { size.edges }, ..size }
    }

    /// A listed case, under each edge rule if it has one.
    fn cases(self, case: Case) -> Vec<Case> {
        if self == Domain::Any && case.kind().has_grid() {
            Edges::ALL.map(|edges| case.clone().under(edges)).to_vec()
        } else {
            vec![case]
        }
    }
}

/// Of so many random cases there is one with a long side, as these take longer.
const LONG: u64 = 20;

/// Runs `[SEED [CASES]]`: CASES random cases of each kind; 1 and 20000 if not given.
pub fn run(mut comparison: Comparison, domain: Domain, words: &[String]) -> ExitCode {
    let number = |i: usize, default| words.get(i).map_or(default, |word| word.parse().expect("a number"));
    match whole(&mut comparison, domain, number(0, 1), number(1, 20_000)) {
        Ok(()) => {
            println!("\n{}no difference", comparison.tally);
            ExitCode::SUCCESS
        }
        Err(difference) => {
            println!("{difference}");
            ExitCode::FAILURE
        }
    }
}

type Outcome = Result<(), Box<Difference>>;

/// Drawn cases come first: a difference on one of them is made smaller.
fn whole(comparison: &mut Comparison, domain: Domain, seed: u64, count: u64) -> Outcome {
    for plan in exhaustive() {
        let plan = Plan { size: domain.size(plan.size), ..plan };
        reported(comparison, plan.name, |comparison| enumerated(comparison, &plan, seed))?;
    }
    let kinds = || Kind::ALL.into_iter().filter(|kind| domain == Domain::Any || kind.in_original());
    let on_grid = || kinds().filter(|kind| kind.has_grid());
    let (size, long) = (domain.size(random_size()), domain.size(long_size()));
    random(comparison, "random", kinds(), &size, seed, count)?;
    random(comparison, "random, a long side", on_grid(), &long, seed, count / LONG)?;
    if domain == Domain::Any {
        let (size, long) = (plans::outside(size), plans::outside(long));
        random(comparison, "random, any input", kinds(), &size, seed, count)?;
        random(comparison, "random, any input, a long side", on_grid(), &long, seed, count / LONG)?;
        for (name, cases) in outside() {
            reported(comparison, name, |comparison| listed(comparison, domain, cases))?;
        }
    }
    reported(comparison, "at the limits", |comparison| listed(comparison, domain, large()))?;
    reported(comparison, "document 01's figures", |comparison| known(comparison, domain))
}

fn known(comparison: &mut Comparison, domain: Domain) -> Outcome {
    let mut list = figures().into_iter().filter(|figure| domain == Domain::Any || figure.is_compared());
    list.try_for_each(|figure| comparison.known(&figure.case, &figure.answer))
}

fn enumerated(comparison: &mut Comparison, plan: &Plan, seed: u64) -> Outcome {
    for &kind in plan.kinds {
        let mut from = Source::every(seed);
        loop {
            comparison.drawn(kind, &mut from, &plan.size)?;
            if !from.advance() {
                break;
            }
        }
    }
    Ok(())
}

fn random(
    c: &mut Comparison,
    name: &str,
    kinds: impl Iterator<Item = Kind>,
    size: &Size,
    seed: u64,
    count: u64,
) -> Outcome {
    for kind in kinds {
        reported(c, &format!("{name}: {}", kind.name()), |comparison| {
            let mut from = Source::random(seed);
            for _ in 0..count {
                comparison.drawn(kind, &mut from, size)?;
                from.advance();
            }
            Ok(())
        })?;
    }
    Ok(())
}

fn listed(comparison: &mut Comparison, domain: Domain, cases: impl Iterator<Item = Case>) -> Outcome {
    cases.flat_map(|case| domain.cases(case)).try_for_each(|case| comparison.case(&case))
}

/// Runs a part, and prints how many calls of it were accepted and refused.
fn reported(comparison: &mut Comparison, name: &str, part: impl FnOnce(&mut Comparison) -> Outcome) -> Outcome {
    let (accepted, refused) = (comparison.tally.accepted(), comparison.tally.refused());
    let time = Instant::now();
    part(comparison)?;
    let accepted = comparison.tally.accepted() - accepted;
    let refused = comparison.tally.refused() - refused;
    let seconds = time.elapsed().as_secs_f64();
    println!("{name}: {accepted} accepted, {refused} refused, {seconds:.1} s");
    Ok(())
}
