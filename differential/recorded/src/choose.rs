//! Which cases are recorded.

use cases::{generate, Call, Case, Edges, Kind, Lengths, Mode, Size, Source, WIDTHS};

/// Small pictures, so that the file stays small.
fn small() -> Size {
    Size {
        picture: 5,
        block: 3,
        long: 0,
        bands: 3,
        list: 3,
        calls: 4,
        image: 128,
        lengths: Lengths::Mixed,
        refusals: true,
        every_byte: false,
        outside: false,
        mode: None,
        width: None,
        edges: Some(Edges::Tight),
    }
}

/// More than one block, the last of a row or column cut by the picture's edge, more than one band.
fn has_edges(case: &Case) -> bool {
    case.grid().is_none_or(|g| {
        let cut = !g.nrows.is_multiple_of(g.nppbv) || !g.ncols.is_multiple_of(g.nppbh);
        cut && g.blocks() > 1 && g.bands > 1
    })
}

fn writes(case: &Case) -> bool {
    matches!(case, Case::Frame { calls, .. } if calls.iter().any(|call| call.name() == "write"))
}

/// A drawn case that is wanted. A frame ends with the question how far it is.
fn draw(kind: Kind, from: &mut Source, size: &Size, wanted: impl Fn(&Case) -> bool) -> Case {
    loop {
        if let Some(mut case) = generate(kind, from, size).filter(&wanted) {
            if let Case::Frame { calls, .. } = &mut case {
                calls.extend([Call::Progress, Call::Finish]);
            }
            return case;
        }
    }
}

/// The cases of a seed.
pub fn cases(seed: u64) -> Vec<Case> {
    let mut from = Source::random(seed);
    let mut list = Vec::new();
    let any = |_: &Case| true;
    for mode in Mode::ALL {
        for width in WIDTHS {
            // One sample of a wide band fills much of the image.
            let image = if width > 32 { 256 } else { 128 };
            let size = Size { mode: Some(mode), width: Some(width), image, ..small() };
            let plain = Size { refusals: false, ..size };
            let all = |case: &Case| has_edges(case) && matches!(case, Case::Read { bands: None, .. });
            let listed = |case: &Case| has_edges(case) && matches!(case, Case::Read { bands: Some(_), .. });
            for _ in 0..2 {
                list.push(draw(Kind::Read, &mut from, &plain, all));
                list.push(draw(Kind::Read, &mut from, &plain, listed));
                list.push(draw(Kind::Read, &mut from, &size, any));
            }
            if mode != Mode::S {
                list.push(draw(Kind::Whole, &mut from, &size, any));
            }
            list.push(draw(Kind::Window, &mut from, &plain, has_edges));
            list.push(draw(Kind::Window, &mut from, &size, any));
            list.push(draw(Kind::Frame, &mut from, &size, |case| has_edges(case) && writes(case)));
        }
        // Marks in two words.
        let size = Size { mode: Some(mode), width: Some(1), picture: 10, block: 1, ..small() };
        let two_words = |case: &Case| case.grid().is_some_and(|g| g.blocks() > 64 && g.bands == 1);
        let long = |case: &Case| matches!(case, Case::Frame { calls, .. } if calls.len() > 64);
        list.push(draw(Kind::Frame, &mut from, &size, |case| two_words(case) && long(case)));
        list.push(draw(Kind::FromMarks, &mut from, &size, two_words));
        let size = Size { mode: Some(mode), width: Some(8), ..small() };
        for _ in 0..30 {
            for kind in [Kind::Parse, Kind::MaskWrite, Kind::Lookup, Kind::FromMarks] {
                list.push(draw(kind, &mut from, &size, any));
            }
        }
        for _ in 0..30 {
            list.push(draw(Kind::ToSequential, &mut from, &size, any));
            list.push(draw(Kind::FromSequential, &mut from, &size, any));
        }
    }
    for _ in 0..60 {
        list.push(draw(Kind::Select, &mut from, &small(), any));
    }
    list
}
