//! The buffers that a call is lent beside its input.

use crate::model::{self, layout, mask, questions, subheader};
use crate::{Answer, Case, Widths};

/// What a lent buffer holds before the first call.
const PATTERN: u8 = 0xa5;

/// Lengths: of an output in bytes (in 32-bit words for the mask from marks), of a frame's image in
/// bytes and of its marks in words, of the outputs for a subheader's parts in bytes. A frame may have
/// no start: its first call then works on what the buffers held before. The width table stands here too.
#[derive(Clone, Copy, Debug, Default, PartialEq)]
pub struct Lent {
    pub output: u64,
    pub image: u64,
    pub marks: u64,
    pub parts: [u64; 3],
    pub no_start: bool,
    pub widths: Widths,
}

/// A buffer of so many bytes, as it is lent.
pub fn pattern(length: u64) -> Vec<u8> {
    vec![PATTERN; length as usize]
}

impl Lent {
    /// What a case names; else what the call fills and no more.
    pub fn of(case: &Case) -> Lent {
        match case {
            Case::Lent { lent, .. } => *lent,
            Case::Frame { grid, .. } => Lent {
                image: u64::try_from(layout::image_bytes(grid)).unwrap_or(u64::MAX),
                marks: questions::mark_words(grid),
                ..Lent::default()
            },
            Case::WriteSubheader { .. } => Lent { parts: subheader::PARTS, ..Lent::default() },
            _ => Lent { output: filled(case), ..Lent::default() },
        }
    }

    pub fn output(&self) -> Vec<u8> {
        pattern(self.output)
    }

    pub fn output_words(&self) -> Vec<u32> {
        vec![u32::from_ne_bytes([PATTERN; 4]); self.output as usize]
    }

    pub fn image(&self) -> Vec<u8> {
        pattern(self.image)
    }

    pub fn marks(&self) -> Vec<u64> {
        vec![u64::from_ne_bytes([PATTERN; 8]); self.marks as usize]
    }

    pub fn parts(&self) -> [Vec<u8>; 3] {
        self.parts.map(pattern)
    }
}

/// How long an output the call fills; 0 if it is refused whatever its output. The output is looked at
/// last, so that only a call that is refused with 9 for an empty one fills some.
fn filled(case: &Case) -> u64 {
    let Answer { number: 9, .. } = model::lent_answer(case, &Lent::default()) else {
        return 0;
    };
    let count = |list: &Option<Vec<u32>>, bands: u32| list.as_ref().map_or(u64::from(bands), |list| list.len() as u64);
    match case {
        Case::Read { grid, row, column, bands, .. } => {
            let pixels = layout::actual_rows(grid, *row) * layout::actual_columns(grid, *column);
            count(bands, grid.bands) * pixels * layout::sample_bytes(grid)
        }
        Case::Window { grid, area, bands, .. } => {
            let pixels = u64::from(area.rows) * u64::from(area.columns);
            count(bands, grid.bands) * pixels * layout::sample_bytes(grid)
        }
        Case::MaskWrite { grid, header, .. } => mask::table_bytes(grid, header),
        Case::FromMarks { grid, .. } => mask::records(grid),
        Case::ToSequential { data, .. } | Case::FromSequential { data, .. } => data.len() as u64,
        Case::Select { pack, data, bands, .. } => data.len() as u64 / u64::from(pack.bands) * count(bands, pack.bands),
        _ => unreachable!("a call with no output is refused with 9"),
    }
}
