//! A case is one call, or for a frame a list of calls, with everything that it is handed.

use crate::{Edges, Grid, Lent, Mode, Subheader, Widths};

#[derive(Clone, Debug, PartialEq)]
pub enum Case {
    /// `decode_block`.
    Read {
        grid: Grid,
        image: Vec<u8>,
        row: u32,
        column: u32,
        level: u32,
        bands: Option<Vec<u32>>,
    },
    /// The whole nominal block as a part of the image.
    Whole {
        grid: Grid,
        image: Vec<u8>,
        row: u32,
        column: u32,
    },
    /// A rectangle of the picture.
    Window {
        grid: Grid,
        image: Vec<u8>,
        area: Area,
        bands: Option<Vec<u32>>,
    },
    /// A start and the calls after it; or the calls alone, see `Lent`.
    Frame {
        grid: Grid,
        calls: Vec<Call>,
    },
    Parse {
        grid: Grid,
        table: Vec<u8>,
    },
    /// A table parsed and written again.
    Rewrite {
        grid: Grid,
        table: Vec<u8>,
    },
    MaskWrite {
        grid: Grid,
        header: Header,
        blocks: Vec<u32>,
        pads: Vec<u32>,
    },
    Lookup {
        grid: Grid,
        table: Vec<u8>,
        row: u32,
        column: u32,
        band: u32,
    },
    FromMarks {
        grid: Grid,
        marks: Vec<u64>,
    },
    ToSequential {
        pack: Pack,
        data: Vec<u8>,
    },
    FromSequential {
        pack: Pack,
        data: Vec<u8>,
    },
    /// `fused_bip_to_bsq_swap`, or its parallel form; mode P.
    Select {
        pack: Pack,
        data: Vec<u8>,
        bands: Option<Vec<u32>>,
        tile: u32,
        parallel: bool,
    },
    /// Three parts of an image subheader, the count of bands and the edge rule.
    ReadSubheader {
        parts: [Vec<u8>; 3],
        bands: u32,
        edges: Edges,
    },
    WriteSubheader {
        subheader: Subheader,
    },
    /// A width table loaded.
    Load {
        bytes: Vec<u8>,
    },
    /// One of the others, with these lent buffers and this width table.
    Lent {
        case: Box<Case>,
        lent: Lent,
    },
}

#[derive(Clone, Debug, PartialEq)]
pub enum Call {
    Write {
        row: u32,
        column: u32,
        shape: [u32; 3],
        data: Vec<u8>,
    },
    Skip {
        row: u32,
        column: u32,
    },
    Progress,
    Finish,
    /// With a scratch of so many bytes. Later calls are handed the grid that is then in force.
    Relay {
        scratch: u64,
    },
    /// One of the others, with a width table of its own.
    Handed {
        widths: Widths,
        call: Box<Call>,
    },
}

/// A rectangle of the picture.
#[derive(Clone, Copy, Debug, PartialEq)]
pub struct Area {
    pub top: u32,
    pub left: u32,
    pub rows: u32,
    pub columns: u32,
}

/// The fields of a mask table before its records. Lengths are in bytes, `code_bits` in bits.
#[derive(Clone, Copy, Debug, Default, PartialEq)]
pub struct Header {
    pub imdatoff: u32,
    pub block_length: u16,
    pub pad_length: u16,
    pub code_bits: u16,
    pub code: u32,
}

/// What a reordering takes beside its data; `size` is the bytes of a sample.
#[derive(Clone, Copy, Debug, PartialEq)]
pub struct Pack {
    pub mode: Mode,
    pub rows: u32,
    pub columns: u32,
    pub bands: u32,
    pub size: u32,
}

/// The number of the first question answered no, or 0; the values and the bytes beside it.
///
/// | case | values | bytes |
/// |---|---|---|
/// | read | bands, rows, columns of the answer | samples |
/// | whole block | none | the part |
/// | window | none | samples |
/// | frame | number and two values a call | image, then mark words, then each scratch |
/// | parse | IMDATOFF, two record lengths, code bits, code, bytes used | none |
/// | rewrite, mask write | none | the table |
/// | lookup | present, offset known, offset | none |
/// | mask from marks | two record lengths, code bits | 32-bit words |
/// | reorderings | none | samples |
/// | subheader read | PVTYPE, PJUST, IC, ABPP, the grid's fields | IREP, ICAT |
/// | subheader write | none | the three parts |
/// | widths loaded | none | the entries |
///
/// In a frame the two values are the count for progress, row and column for a finish with 15, and for a re-lay whether
/// the rule in force after it is full.
/// PVTYPE, PJUST, IC and the edge rule are given by their place in `ALL`, IMODE by its letter. Words are
/// big-endian. The samples, tables, words and parts are the lent outputs, the image and the mark words the
/// lent buffers: whole, as the calls left them.
#[derive(Clone, Debug, Default, PartialEq)]
pub struct Answer {
    pub number: u8,
    pub values: Vec<u64>,
    pub bytes: Vec<u8>,
}

/// The number of an answer that was a panic.
pub const PANIC: u8 = 255;
/// The number of a refusal that belongs to no question.
pub const UNKNOWN: u8 = 254;

impl Answer {
    pub fn refused(number: u8) -> Answer {
        Answer { number, ..Answer::default() }
    }
}

#[derive(Clone, Copy, Debug, PartialEq, Eq, PartialOrd, Ord)]
pub enum Kind {
    Read,
    Whole,
    Window,
    Frame,
    Parse,
    Rewrite,
    MaskWrite,
    Lookup,
    FromMarks,
    ToSequential,
    FromSequential,
    Select,
    ReadSubheader,
    WriteSubheader,
    Load,
}

impl Kind {
    pub const ALL: [Kind; 15] = [
        Kind::Read,
        Kind::Whole,
        Kind::Window,
        Kind::Frame,
        Kind::Parse,
        Kind::Rewrite,
        Kind::MaskWrite,
        Kind::Lookup,
        Kind::FromMarks,
        Kind::ToSequential,
        Kind::FromSequential,
        Kind::Select,
        Kind::ReadSubheader,
        Kind::WriteSubheader,
        Kind::Load,
    ];

    pub fn name(self) -> &'static str {
        match self {
            Kind::Read => "block read",
            Kind::Whole => "whole block",
            Kind::Window => "window",
            Kind::Frame => "frame",
            Kind::Parse => "mask parse",
            Kind::Rewrite => "mask parse, write",
            Kind::MaskWrite => "mask write",
            Kind::Lookup => "mask lookup",
            Kind::FromMarks => "mask from marks",
            Kind::ToSequential => "to band sequential",
            Kind::FromSequential => "from band sequential",
            Kind::Select => "pixel to band sequential",
            Kind::ReadSubheader => "subheader read",
            Kind::WriteSubheader => "subheader write",
            Kind::Load => "widths loaded",
        }
    }

    /// Has the original an answer?
    pub fn in_original(self) -> bool {
        !matches!(self, Kind::ReadSubheader | Kind::WriteSubheader | Kind::Load)
    }

    /// Is the call about a picture in blocks?
    pub fn has_grid(self) -> bool {
        !matches!(self, Kind::ToSequential | Kind::FromSequential | Kind::Select | Kind::Load)
    }
}

impl Case {
    pub fn kind(&self) -> Kind {
        match self {
            Case::Read { .. } => Kind::Read,
            Case::Whole { .. } => Kind::Whole,
            Case::Window { .. } => Kind::Window,
            Case::Frame { .. } => Kind::Frame,
            Case::Parse { .. } => Kind::Parse,
            Case::Rewrite { .. } => Kind::Rewrite,
            Case::MaskWrite { .. } => Kind::MaskWrite,
            Case::Lookup { .. } => Kind::Lookup,
            Case::FromMarks { .. } => Kind::FromMarks,
            Case::ToSequential { .. } => Kind::ToSequential,
            Case::FromSequential { .. } => Kind::FromSequential,
            Case::Select { .. } => Kind::Select,
            Case::ReadSubheader { .. } => Kind::ReadSubheader,
            Case::WriteSubheader { .. } => Kind::WriteSubheader,
            Case::Load { .. } => Kind::Load,
            Case::Lent { case, .. } => case.kind(),
        }
    }

    /// The case without its lent buffers.
    pub fn call(&self) -> &Case {
        match self {
            Case::Lent { case, .. } => case,
            case => case,
        }
    }

    /// The grid that the call is handed, if it takes one.
    pub fn grid(&self) -> Option<&Grid> {
        match self.call() {
            Case::Read { grid, .. }
            | Case::Whole { grid, .. }
            | Case::Window { grid, .. }
            | Case::Frame { grid, .. }
            | Case::Parse { grid, .. }
            | Case::Rewrite { grid, .. }
            | Case::MaskWrite { grid, .. }
            | Case::Lookup { grid, .. }
            | Case::FromMarks { grid, .. }
            | Case::WriteSubheader { subheader: Subheader { grid, .. } } => Some(grid),
            _ => None,
        }
    }

    /// The same, to be changed.
    pub fn grid_mut(&mut self) -> Option<&mut Grid> {
        match self {
            Case::Lent { case, .. } => case.grid_mut(),
            Case::Read { grid, .. }
            | Case::Whole { grid, .. }
            | Case::Window { grid, .. }
            | Case::Frame { grid, .. }
            | Case::Parse { grid, .. }
            | Case::Rewrite { grid, .. }
            | Case::MaskWrite { grid, .. }
            | Case::Lookup { grid, .. }
            | Case::FromMarks { grid, .. }
            | Case::WriteSubheader { subheader: Subheader { grid, .. } } => Some(grid),
            _ => None,
        }
    }

    /// The case under an edge rule, if it has one.
    pub fn under(mut self, edges: Edges) -> Case {
        if let Case::ReadSubheader { edges: given, .. } = &mut self {
            *given = edges;
        } else if let Some(grid) = self.grid_mut() {
            grid.edges = edges;
        }
        self
    }
}

impl Call {
    pub fn name(&self) -> &'static str {
        match self {
            Call::Write { .. } => "write",
            Call::Skip { .. } => "skip",
            Call::Progress => "progress",
            Call::Finish => "finish",
            Call::Relay { .. } => "re-lay",
            Call::Handed { call, .. } => call.name(),
        }
    }

    /// The call without its table, and the table that it is handed: its own or the frame's.
    pub fn with_widths(&self, widths: &Widths) -> (&Call, Widths) {
        match self {
            Call::Handed { widths, call } => (call, *widths),
            call => (call, *widths),
        }
    }
}
