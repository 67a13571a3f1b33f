//! Pictures that a person can look at: PGM for one band, PPM for three.

use crate::failure::Failure;
use crate::files;
use gezdunar::Shape;
use std::ffi::OsStr;
use std::path::Path;

/// Refuses a count of bands that no preview shows, or another than the file's name tells.
pub fn check(place: &OsStr, bands: usize) -> Result<(), Failure> {
    let shown = place.to_string_lossy();
    if bands != 1 && bands != 3 {
        let choose = "choose with --list, as in --list 2 or --list 4,2,0";
        return Err(Failure::Arguments(format!("--preview shows one band or three, not {bands}; {choose}")));
    }
    match Path::new(place).extension().and_then(OsStr::to_str) {
        Some("pgm") if bands == 3 => {
            Err(Failure::Arguments(format!("--preview {shown}: PGM holds one band; three are PPM, .ppm")))
        }
        Some("ppm") if bands == 1 => {
            Err(Failure::Arguments(format!("--preview {shown}: PPM holds three bands; one is PGM, .pgm")))
        }
        _ => Ok(()),
    }
}

/// The name of the format for a count of bands.
pub fn format_name(bands: usize) -> &'static str {
    match bands {
        1 => "PGM",
        _ => "PPM",
    }
}

/// The file's first lines.
pub fn header(shape: Shape) -> String {
    let magic = match shape.bands {
        1 => "P5",
        _ => "P6",
    };
    format!("{magic}\n{} {}\n255\n", shape.columns, shape.rows)
}

/// The samples that become 0 and 255 in a preview.
#[derive(Debug, Clone, Copy)]
struct Range {
    low: u64,
    high: u64,
}

impl Range {
    /// All numbers of so many bits.
    fn of_bits(bits: u32) -> Range {
        Range { low: 0, high: u64::MAX >> 64_u32.saturating_sub(bits).min(63) }
    }

    /// From the smallest to the largest of samples.
    fn of_samples(samples: &[u8], sample_bytes: usize) -> Range {
        let numbers = samples.chunks_exact(sample_bytes).map(number);
        let range = Range { low: u64::MAX, high: 0 };
        numbers.fold(range, |range, number| Range { low: range.low.min(number), high: range.high.max(number) })
    }

    /// A number of the range in 8 bits, to the nearest; 0 where the range is one number.
    fn scaled(self, number: u64) -> u8 {
        let span = u128::from(self.high.saturating_sub(self.low));
        let over = u128::from(number.saturating_sub(self.low));
        (over * 255 + span / 2).checked_div(span).map_or(0, |value| value.min(255) as u8)
    }
}

/// A sample's number.
pub fn number(bytes: &[u8]) -> u64 {
    bytes.iter().fold(0, |number, byte| (number << 8) | u64::from(*byte))
}

/// The preview's pixels: samples scaled by their width or, stretched, from each band's smallest to its largest.
pub fn pixels(samples: &[u8], sample_bytes: usize, bands: usize, bits: u32, stretch: bool) -> Result<Vec<u8>, Failure> {
    let count = samples.len() / sample_bytes;
    let mut pixels = files::room(count as u64)?;
    pixels.resize(count, 0);
    let planes = samples.chunks_exact((count / bands * sample_bytes).max(1));
    for (band, plane) in planes.enumerate() {
        let range = if stretch { Range::of_samples(plane, sample_bytes) } else { Range::of_bits(bits) };
        let places = pixels.iter_mut().skip(band).step_by(bands);
        for (place, sample) in places.zip(plane.chunks_exact(sample_bytes)) {
            *place = range.scaled(number(sample));
        }
    }
    Ok(pixels)
}

#[cfg(test)]
mod tests {
    use super::*;

    #[test]
    fn every_width_reaches_from_0_to_255() {
        for bits in 1..=64 {
            let range = Range::of_bits(bits);
            assert_eq!((range.scaled(0), range.scaled(range.high)), (0, 255));
            assert_eq!(u128::from(range.high), (1_u128 << bits) - 1);
        }
        assert!((0..=255).all(|number| u64::from(Range::of_bits(8).scaled(number)) == number));
        assert_eq!(
            [0, 8, 9, 2048, 4087, 4095].map(|number| Range::of_bits(12).scaled(number)),
            [0, 0, 1, 128, 255, 255]
        );
    }

    #[test]
    fn a_stretch_goes_by_the_band() {
        // 100 and 300; 200 and 7; 7 and 7.
        let samples = [0, 100, 1, 44, 0, 200, 0, 7, 0, 7, 0, 7];
        assert_eq!(pixels(&samples, 2, 3, 12, true).ok(), Some(vec![0, 255, 0, 255, 0, 0]));
        assert_eq!(pixels(&samples, 2, 1, 12, true).ok(), Some(vec![81, 255, 168, 0, 0, 0]));
    }

    #[test]
    fn three_bands_stand_pixel_by_pixel() {
        let samples = [1, 2, 3, 4, 5, 6];
        assert_eq!(pixels(&samples, 1, 3, 8, false).ok(), Some(vec![1, 3, 5, 2, 4, 6]));
    }
}
