//! Facts in words: the questions that the library asks, modes and counts.

use gezdunar::InterleaveMode;

/// The question of a number.
pub fn question(number: u32) -> &'static str {
    match number {
        1 => {
            "Are NROWS and NCOLS 1 to 99,999,999, NPPBH 1 to 8,192 or NCOLS, NPPBV 1 to 8,192 or NROWS, \
             bands 1 to 99,999?"
        }
        2 => "Is NBPP 1 to 16, 24 to 32, 40, 48, 56 or 64, and not barred by the width table?",
        3 => "Is NBPR = NCOLS / NPPBH and NBPC = NROWS / NPPBV, both rounded up and at most 9,999?",
        4 => "Is the image at most 4,294,967,294 bytes?",
        5 => "Is the resolution level 0?",
        6 => "Is the block inside the grid?",
        7 => "Does the image reach the end of every block that is read?",
        8 => "Is every listed band below the count of bands?",
        9 => "Does the output hold the answer?",
        10 => "Has the window at least one row and column, all inside the picture?",
        11 => "Does the image buffer hold the image?",
        12 => "Are there words for every mark?",
        13 => "Is the shape bands, actual rows, actual columns?",
        14 => "Is the data's length exact?",
        15 => "Is every block written or skipped?",
        16 => "Has the mask table ten bytes?",
        17 => "Is each record length 0 or 4?",
        18 => "Is the pad code at most 32 bits?",
        19 => "Is the rest of the mask table there?",
        20 => "Does the pad code fit its bytes, and is it 0 for length 0?",
        21 => "Is the written mask table at most 4,294,967,295 bytes?",
        22 => "Has each offset list one entry a record, or none for length 0?",
        23 => {
            "Have the parts 38, 2 and 19 bytes, and are NROWS, NCOLS, ABPP, NBPR, NBPC, NPPBH, NPPBV and NBPP \
             all digits?"
        }
        24 => {
            "Is PVTYPE INT, or SI, R, C or B padded with spaces, PJUST R or L, IC NC or NM, IMODE B, P, R or S, \
             and ABPP at most 99?"
        }
        26 => "Is every bit above NBPP zero in each sample?",
        27 => "Is the edge rule still tight?",
        33 => {
            "Has the width table 68 bytes: the length 66, version 1, and for each NBPP from 0 to 64 the bytes of a \
             sample, or 0?"
        }
        99 => "Is the mode B, P, R or S, and the edge rule T or F?",
        _ => "Not known to this tool.",
    }
}

/// A mode in words.
pub fn mode(imode: InterleaveMode) -> &'static str {
    match imode {
        InterleaveMode::B => "B, band after band in each block",
        InterleaveMode::P => "P, pixel after pixel",
        InterleaveMode::R => "R, row after row",
        InterleaveMode::S => "S, band after band over the whole image",
    }
}

/// Facts, one a line.
pub fn lines(facts: impl IntoIterator<Item = (&'static str, String)>) -> String {
    facts.into_iter().map(|(name, value)| format!("{name:36}{value}\n")).collect()
}

/// A count of things in words.
pub fn count(number: usize, thing: &str) -> String {
    let ending = if number == 1 { "" } else { "s" };
    format!("{number} {thing}{ending}")
}
