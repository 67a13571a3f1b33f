//! Which cases pass a comparison, and which are left out.

use cases::{figures, model, Answer, Case, Comparison, Figure, Side};

/// Two sides; each is the model, but with another answer to document 01's figure e.
fn comparison(first: Option<Answer>, second: Option<Answer>) -> Comparison {
    let side = |name, other: Option<Answer>| {
        let figure = figure_e().case;
        let answer = move |case: &Case| {
            if *case == figure {
                other.clone()
            } else {
                Some(model::answer(case))
            }
        };
        Side::new(name, answer)
    };
    Comparison::new([side("first", first), side("second", second)])
}

fn figure_e() -> Figure {
    figures().into_iter().find(|figure| figure.letter == 'e').expect("figure e")
}

#[test]
fn a_known_answer_passes_and_is_counted() {
    let Figure { case, answer, .. } = figure_e();
    let mut sides = comparison(Some(answer.clone()), Some(answer.clone()));
    assert!(sides.known(&case, &answer).is_ok());
    assert_eq!((sides.tally.accepted(), sides.tally.refused()), (1, 0));
}

#[test]
fn a_side_without_an_answer_is_a_difference_where_it_is_known() {
    let Figure { case, answer, .. } = figure_e();
    let given = Some(answer.clone());
    for (sides, name) in [([None, None], "first"), ([None, given.clone()], "first"), ([given, None], "second")] {
        let [first, second] = sides;
        let mut sides = comparison(first, second);
        let difference = sides.known(&case, &answer).expect_err("a side has no answer");
        assert_eq!(difference.answers, [(name, None), ("known", Some(answer.clone()))]);
        assert!(difference.to_string().contains(&format!("\n{name}: no answer\nknown: Answer")));
        assert_eq!(sides.tally.accepted() + sides.tally.refused(), 0);
    }
}

#[test]
fn sides_that_are_wrong_alike_are_found_where_the_answer_is_known() {
    let Figure { case, answer, .. } = figure_e();
    let wrong = Some(Answer::refused(7));
    let mut sides = comparison(wrong.clone(), wrong.clone());
    let difference = sides.known(&case, &answer).expect_err("both are wrong");
    assert_eq!(difference.answers, [("first", wrong), ("known", Some(answer))]);
    // Nothing says so where the answer is not known.
    assert!(sides.case(&case).is_ok());
}

#[test]
fn one_wrong_side_is_found() {
    let Figure { case, answer, .. } = figure_e();
    let (right, wrong) = (Some(answer.clone()), Some(Answer::refused(7)));
    let mut sides = comparison(right.clone(), wrong.clone());
    let difference = sides.known(&case, &answer).expect_err("the second is wrong");
    assert_eq!(difference.answers, [("second", wrong.clone()), ("known", right.clone())]);
    let difference = sides.case(&case).expect_err("they differ");
    assert_eq!(difference.answers, [("first", right), ("second", wrong)]);
}

#[test]
fn a_case_without_an_answer_is_left_out() {
    let Figure { case, answer, .. } = figure_e();
    let mut sides = comparison(None, Some(answer));
    assert!(sides.case(&case).is_ok());
    assert_eq!(sides.tally.accepted() + sides.tally.refused(), 0);
}

#[test]
fn long_answers_are_cut_where_they_are_printed() {
    let answer = |last| Some(Answer { bytes: [vec![7; 9_999], vec![last]].concat(), ..Answer::default() });
    let mut sides = comparison(answer(1), answer(2));
    let text = sides.case(&figure_e().case).expect_err("they differ").to_string();
    assert!(text.len() < 10_000);
    assert!(text.contains(" and so on\nsecond: "));
    assert!(text.ends_with(" and so on\nthe bytes differ first at 9999"));
}
