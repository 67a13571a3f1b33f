//! The original's enums of fields of a subheader: `types.rs`.

use std::str::FromStr;

use cases::{Justification, Mode, PixelValue};

use crate::imode;
use crate::jbp::image::types::{InterleaveMode, PixelJustification, PixelValueType};
use crate::refusal::{guarded, Refusal};

/// `PixelValueType::from_str`.
pub fn pixel_value(text: &str) -> Result<PixelValue, Refusal> {
    Ok(match guarded(|| PixelValueType::from_str(text))? {
        PixelValueType::UnsignedInt => PixelValue::Int,
        PixelValueType::SignedInt => PixelValue::Si,
        PixelValueType::Real => PixelValue::R,
        PixelValueType::Complex => PixelValue::C,
        PixelValueType::BiLevel => PixelValue::B,
    })
}

/// `PixelValueType::to_str`.
pub fn pixel_value_text(value: PixelValue) -> &'static str {
    let value = match value {
        PixelValue::Int => PixelValueType::UnsignedInt,
        PixelValue::Si => PixelValueType::SignedInt,
        PixelValue::R => PixelValueType::Real,
        PixelValue::C => PixelValueType::Complex,
        PixelValue::B => PixelValueType::BiLevel,
    };
    value.to_str()
}

/// `PixelJustification::from_char`.
pub fn justification(letter: char) -> Result<Justification, Refusal> {
    Ok(match guarded(|| PixelJustification::from_char(letter))? {
        PixelJustification::Right => Justification::R,
        PixelJustification::Left => Justification::L,
    })
}

/// `PixelJustification::to_char`.
pub fn justification_letter(value: Justification) -> char {
    let value = match value {
        Justification::R => PixelJustification::Right,
        Justification::L => PixelJustification::Left,
    };
    value.to_char()
}

/// `InterleaveMode::from_char`.
pub fn mode(letter: char) -> Result<Mode, Refusal> {
    Ok(match guarded(|| InterleaveMode::from_char(letter))? {
        InterleaveMode::B => Mode::B,
        InterleaveMode::P => Mode::P,
        InterleaveMode::R => Mode::R,
        InterleaveMode::S => Mode::S,
    })
}

/// `InterleaveMode::to_char`.
pub fn mode_letter(value: Mode) -> char {
    imode(value).to_char()
}
