//! Which cases are enumerated, and how large random ones are.

use crate::{Edges, Kind, Lengths, Size};

/// All cases of some kinds up to a size.
pub struct Plan {
    pub name: &'static str,
    pub kinds: &'static [Kind],
    pub size: Size,
}

/// Random cases, tight.
pub fn random_size() -> Size {
    Size {
        picture: 12,
        block: 5,
        long: 0,
        bands: 5,
        list: 6,
        calls: 8,
        image: u64::MAX,
        lengths: Lengths::Mixed,
        refusals: true,
        every_byte: false,
        outside: false,
        mode: None,
        width: None,
        edges: Some(Edges::Tight),
    }
}

/// Random cases on pictures with a side of 8,193 to 9,000 that is a block's too.
pub fn long_size() -> Size {
    Size { picture: 2, block: 2, long: 808, bands: 2, list: 3, calls: 3, ..random_size() }
}

/// Of these cases some lie outside the compared domain.
pub fn outside(size: Size) -> Size {
    Size { outside: true, ..size }
}

/// The enumerations, tight. Data is random, but for the plans that say otherwise.
pub fn exhaustive() -> Vec<Plan> {
    [reads(), frames(), tables_and_reorderings(), long_sides()].into_iter().flatten().collect()
}

fn small() -> Size {
    Size {
        picture: 2,
        block: 2,
        bands: 2,
        list: 0,
        calls: 0,
        lengths: Lengths::Least,
        refusals: false,
        ..random_size()
    }
}

/// Pictures to 3 x 3.
fn three() -> Size {
    Size { picture: 3, block: 3, ..small() }
}

/// Images of one byte, and every byte.
fn one_byte() -> Size {
    Size { image: 1, every_byte: true, ..small() }
}

fn reads() -> Vec<Plan> {
    vec![
        Plan {
            name: "every block and list of up to 2 bands, pictures to 3 x 3",
            kinds: &[Kind::Read],
            size: Size { list: 2, ..three() },
        },
        Plan {
            name: "every length of image, pictures to 2 x 2",
            kinds: &[Kind::Read, Kind::Whole],
            size: Size { lengths: Lengths::Any, ..small() },
        },
        Plan {
            name: "every window, pictures to 3 x 3",
            kinds: &[Kind::Window],
            size: Size { block: 2, list: 1, ..three() },
        },
        Plan { name: "every image of one byte", kinds: &[Kind::Read, Kind::Whole, Kind::Window], size: one_byte() },
    ]
}

fn frames() -> Vec<Plan> {
    let deep = Size { calls: 3, ..small() };
    vec![
        Plan { name: "every write of one byte", kinds: &[Kind::Frame], size: Size { picture: 1, ..one_byte() } },
        Plan {
            name: "every call after none or all blocks, pictures to 2 x 2",
            kinds: &[Kind::Frame],
            size: Size { calls: 1, ..small() },
        },
        Plan { name: "every list of 3 calls, 12 bits", kinds: &[Kind::Frame], size: Size { width: Some(12), ..deep } },
        Plan { name: "every list of 3 calls, 16 bits", kinds: &[Kind::Frame], size: Size { width: Some(16), ..deep } },
    ]
}

fn tables_and_reorderings() -> Vec<Plan> {
    vec![
        Plan {
            name: "every set of marks, pictures to 3 x 3",
            kinds: &[Kind::FromMarks],
            size: Size { width: Some(8), ..three() },
        },
        Plan {
            name: "every table header, one record",
            kinds: &[Kind::Parse, Kind::Rewrite, Kind::Lookup, Kind::MaskWrite],
            size: Size { width: Some(8), image: 1, ..small() },
        },
        Plan {
            name: "every shape to 3 x 3 x 3, and list of up to 2 bands",
            kinds: &[Kind::ToSequential, Kind::FromSequential, Kind::Select],
            size: Size { block: 3, bands: 3, list: 2, ..small() },
        },
    ]
}

/// Pictures with a side above 8,192 that is a block's too. Windows on it are those at its ends, and drawn ones.
fn long_sides() -> Vec<Plan> {
    let long = Size { long: 2, list: 1, calls: 1, ..small() };
    let line = Size { picture: 1, block: 1, bands: 1, list: 0, ..long };
    let widths = [
        (1, "every call on a side of 8,193 or 8,194, 1 bit", "every side to 9,000 in one block, 1 bit"),
        (8, "every call on a side of 8,193 or 8,194, 8 bits", "every side to 9,000 in one block, 8 bits"),
        (12, "every call on a side of 8,193 or 8,194, 12 bits", "every side to 9,000 in one block, 12 bits"),
        (16, "every call on a side of 8,193 or 8,194, 16 bits", "every side to 9,000 in one block, 16 bits"),
    ];
    let calls: &[Kind] = &[Kind::Read, Kind::Whole, Kind::Window, Kind::Frame, Kind::FromMarks];
    let mut plans = Vec::new();
    for (width, every_call, every_side) in widths {
        let width = Some(width);
        plans.push(Plan { name: every_call, kinds: calls, size: Size { width, ..long } });
        plans.push(Plan { name: every_side, kinds: &[Kind::Read], size: Size { long: 808, width, ..line } });
    }
    plans.push(Plan {
        name: "every table header on a side of 8,193 or 8,194, one record",
        kinds: &[Kind::Parse, Kind::Rewrite, Kind::Lookup, Kind::MaskWrite],
        size: Size { width: Some(1), ..line },
    });
    plans
}
