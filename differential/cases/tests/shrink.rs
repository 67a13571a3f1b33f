//! A side that is wrong is found, and the case that shows it is small.

use cases::{
    long_size, model, random_size, Answer, Case, Comparison, Difference, Edges, Kind, Mode, Side, Size, Source,
    BLOCK_SIDE,
};

/// The smallest case found that shows a difference from the model.
fn found(kind: Kind, size: &Size, wrong: impl Fn(&Case) -> Answer + 'static) -> Box<Difference> {
    let wrong = Side::new("wrong", move |case| Some(wrong(case)));
    let model = Side::new("model", |case| Some(model::answer(case)));
    let mut comparison = Comparison::new([wrong, model]);
    let mut from = Source::random(1);
    for _ in 0..10_000 {
        if let Err(difference) = comparison.drawn(kind, &mut from, size) {
            return difference;
        }
        from.advance();
    }
    panic!("no difference found");
}

#[test]
fn rows_taken_for_pixels() {
    let difference = found(Kind::Read, &random_size(), |case| {
        let mut case = case.clone();
        if let Case::Read { grid, .. } = &mut case {
            if grid.mode == Mode::P {
                grid.mode = Mode::R;
            }
        }
        model::answer(&case)
    });
    let Case::Read { grid, image, .. } = difference.case else { panic!("a read") };
    // The least is a full block of one row, two columns and two bands of one bit.
    assert_eq!((grid.mode, grid.bands, grid.nbpp), (Mode::P, 2, 1));
    assert_eq!((grid.nrows, grid.ncols, image.len()), (1, 2, 2));
}

#[test]
fn rule_not_looked_at() {
    let size = Size { edges: None, ..random_size() };
    let difference = found(Kind::Read, &size, |case| model::answer(&case.clone().under(Edges::Tight)));
    let Case::Read { grid, image, .. } = difference.case else { panic!("a read") };
    // The least is one column of two rows of one bit, in a block of two columns.
    assert_eq!((grid.mode, grid.edges, grid.bands, grid.nbpp), (Mode::B, Edges::Full, 1, 1));
    assert_eq!((grid.nrows, grid.ncols, grid.nppbh, image.len()), (2, 1, 2, 1));
}

#[test]
fn skip_that_clears() {
    let difference = found(Kind::Frame, &random_size(), |case| {
        let mut answer = model::answer(case);
        if let Case::Frame { calls, .. } = case {
            if calls.iter().any(|call| call.name() == "skip") {
                answer.bytes[0] = 0;
            }
        }
        answer
    });
    let Case::Frame { grid, calls } = difference.case else { panic!("a frame") };
    assert_eq!((grid.nrows, grid.ncols), (1, 1));
    assert_eq!(calls.len(), 2);
}

#[test]
fn long_side_cut() {
    let difference = found(Kind::Read, &long_size(), |case| {
        let mut case = case.clone();
        if let Case::Read { grid, .. } = &mut case {
            grid.nppbh = grid.nppbh.min(BLOCK_SIDE);
        }
        model::answer(&case)
    });
    let Case::Read { grid, .. } = difference.case else { panic!("a read") };
    assert_eq!((grid.nrows, grid.ncols, grid.nppbh), (1, 8_193, 8_193));
    assert_eq!((grid.mode, grid.bands, grid.nbpp), (Mode::B, 1, 1));
}
