//! Holds two sides against each other, case by case, and counts.

use std::collections::BTreeMap;
use std::fmt;

use crate::{generate, shrink, Answer, Case, Kind, Lent, Size, Source};

/// Accepted and refused calls by kind of call and number.
#[derive(Default)]
pub struct Tally(BTreeMap<&'static str, BTreeMap<u8, u64>>);

impl Tally {
    fn count(&mut self, name: &'static str, number: u8) {
        *self.0.entry(name).or_default().entry(number).or_default() += 1;
    }

    /// Counts a case, or for a frame its start, if it has one, and each of its calls.
    fn case(&mut self, case: &Case, answer: &Answer) {
        if let Case::Frame { calls, .. } = case.call() {
            if !Lent::of(case).no_start {
                self.count("start", answer.number);
            }
            for (call, values) in calls.iter().zip(answer.values.chunks(3)) {
                self.count(call.name(), values[0] as u8);
            }
        } else {
            self.count(case.kind().name(), answer.number);
        }
    }

    pub fn accepted(&self) -> u64 {
        self.0.values().filter_map(|numbers| numbers.get(&0)).sum()
    }

    pub fn refused(&self) -> u64 {
        self.0.values().flat_map(BTreeMap::values).sum::<u64>() - self.accepted()
    }
}

impl fmt::Display for Tally {
    fn fmt(&self, f: &mut fmt::Formatter<'_>) -> fmt::Result {
        for (name, numbers) in &self.0 {
            write!(f, "{name:26}{:9} accepted", numbers.get(&0).unwrap_or(&0))?;
            for (number, count) in numbers.iter().filter(|(&number, _)| number != 0) {
                write!(f, ", {count} refused with {number}")?;
            }
            writeln!(f)?;
        }
        let (accepted, refused) = (self.accepted(), self.refused());
        writeln!(f, "{:26}{accepted:9} accepted, {refused} refused", "in all")
    }
}

type Answers = dyn Fn(&Case) -> Option<Answer>;

/// One side of a comparison. It may have no answer to some cases.
pub struct Side {
    name: &'static str,
    answer: Box<Answers>,
}

impl Side {
    pub fn new(name: &'static str, answer: impl Fn(&Case) -> Option<Answer> + 'static) -> Side {
        Side { name, answer: Box::new(answer) }
    }
}

/// A case on which the sides differ, and each side's name and its answer, if it has one.
#[derive(Debug)]
pub struct Difference {
    pub case: Case,
    pub answers: [(&'static str, Option<Answer>); 2],
}

impl Difference {
    fn between(case: &Case, answers: [(&'static str, impl Into<Option<Answer>>); 2]) -> Box<Difference> {
        let answers = answers.map(|(name, answer)| (name, answer.into()));
        Box::new(Difference { case: case.clone(), answers })
    }
}

/// Most characters that are printed of a case or an answer.
const MOST: usize = 4_000;

/// A value as it is printed, with the end left out if that is long.
fn shortened(value: &impl fmt::Debug) -> String {
    let mut text = format!("{value:?}");
    if text.len() > MOST {
        text.truncate(MOST);
        text.push_str(" and so on");
    }
    text
}

impl fmt::Display for Difference {
    fn fmt(&self, f: &mut fmt::Formatter<'_>) -> fmt::Result {
        write!(f, "a difference: {}", shortened(&self.case))?;
        self.answers.iter().try_for_each(|(name, answer)| match answer {
            Some(answer) => write!(f, "\n{name}: {}", shortened(answer)),
            None => write!(f, "\n{name}: no answer"),
        })?;
        if let [(_, Some(one)), (_, Some(other))] = &self.answers {
            let first = one.bytes.iter().zip(&other.bytes).position(|(a, b)| a != b);
            first.map_or(Ok(()), |at| write!(f, "\nthe bytes differ first at {at}"))?;
        }
        Ok(())
    }
}

/// Two sides. A case to which one of them has no answer is left out, unless its answer is known.
pub struct Comparison {
    sides: [Side; 2],
    pub tally: Tally,
}

impl Comparison {
    pub fn new(sides: [Side; 2]) -> Comparison {
        Comparison { sides, tally: Tally::default() }
    }

    fn answers(&self, case: &Case) -> Option<[(&'static str, Answer); 2]> {
        let [first, second] = &self.sides;
        Some([(first.name, (first.answer)(case)?), (second.name, (second.answer)(case)?)])
    }

    fn difference(&self, case: &Case) -> Option<Box<Difference>> {
        let answers = self.answers(case)?;
        (answers[0].1 != answers[1].1).then(|| Difference::between(case, answers))
    }

    /// One case. A difference is given as it is.
    pub fn case(&mut self, case: &Case) -> Result<(), Box<Difference>> {
        let Some(answers) = self.answers(case) else {
            return Ok(());
        };
        if answers[0].1 != answers[1].1 {
            return Err(Difference::between(case, answers));
        }
        self.tally.case(case, &answers[0].1);
        Ok(())
    }

    /// A case whose answer is known: both sides must give it.
    pub fn known(&mut self, case: &Case, answer: &Answer) -> Result<(), Box<Difference>> {
        for side in &self.sides {
            let given = (side.answer)(case);
            if given.as_ref() != Some(answer) {
                let answers = [(side.name, given), ("known", Some(answer.clone()))];
                return Err(Difference::between(case, answers));
            }
        }
        self.tally.case(case, answer);
        Ok(())
    }

    /// One case from a source. A difference is given on the smallest case found.
    pub fn drawn(&mut self, kind: Kind, from: &mut Source, size: &Size) -> Result<(), Box<Difference>> {
        let Some(case) = generate(kind, from, size) else {
            return Ok(());
        };
        self.case(&case).map_err(|_| {
            let differs = |case: &Case| self.difference(case).is_some();
            let smallest = shrink(kind, size, from.taken(), differs);
            self.difference(&smallest).expect("the smallest case shows it too")
        })
    }
}
