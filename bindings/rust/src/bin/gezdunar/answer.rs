//! What becomes of a read's samples: a raw file, a preview, or numbers on standard output.

use crate::arguments::{flag, numbers, optional, Given, Known};
use crate::failure::Failure;
use crate::output::Output;
use crate::picture::Picture;
use crate::preview;
use crate::streams;
use crate::words::count;
use gezdunar::{Bands, Shape};

/// The options of an answer.
pub const OPTIONS: [Known; 4] = [optional("--list"), optional("--output"), optional("--preview"), flag("--stretch")];

/// What help says of an answer.
pub const HELP: &str = "\
answer:
  --list BANDS        the bands to read, in this order, with commas between, as
                      in 4,2,0; a band may be repeated. --list \"\" is an empty
                      list: no bands, 0 bytes. Without --list all bands are
                      read.
  --output FILE       the samples, raw: band by band, row by row, big-endian,
                      each in as many whole bytes as its bits need; - is
                      standard output
  --preview FILE      a picture to look at: PGM (.pgm) of one band, or PPM
                      (.ppm) of three bands as red, green and blue. 0 becomes 0,
                      and the largest number of the sample's bits becomes 255;
                      - is standard output
  --stretch           in a preview: a band's smallest sample becomes 0, its
                      largest 255
  A file of that name is replaced. With neither --output nor --preview the shape
  is printed, and the samples as numbers if they are at most 1,024.
";

/// How many samples are printed at most.
const PRINTED: usize = 1024;

/// The bands that are asked for.
#[derive(Debug)]
pub struct List(Option<Vec<u32>>);

impl List {
    /// The bands that the options give: all, or a list.
    pub fn new(given: &Given) -> Result<List, Failure> {
        Ok(List(given.value("--list").map(|text| numbers("--list", text)).transpose()?))
    }

    /// The bands as the library takes them.
    pub fn bands(&self) -> Bands<'_> {
        self.0.as_deref().map_or(Bands::All, Bands::Listed)
    }

    /// The number of the band at a place of the answer.
    fn band(&self, place: usize) -> usize {
        self.0.as_ref().and_then(|list| list.get(place)).map_or(place, |band| *band as usize)
    }
}

/// What becomes of the samples.
#[derive(Debug)]
enum Form {
    Numbers,
    Raw(Output),
    Preview { output: Output, stretch: bool },
}

/// An answer that is asked for.
#[derive(Debug)]
pub struct Answer {
    /// The bands.
    pub list: List,
    form: Form,
}

impl Answer {
    /// The answer that the options give. The place of a file is looked at, but nothing is written.
    pub fn new(given: &Given, picture: &Picture) -> Result<Answer, Failure> {
        let list = List::new(given)?;
        let inputs = given.files(&["--image", "--parts-file"]);
        let stretch = given.has("--stretch");
        let form = match (given.value("--output"), given.value("--preview")) {
            (Some(_), Some(_)) => {
                let what = "--output and --preview cannot stand together: run the command once for each";
                return Err(Failure::Arguments(what.to_owned()));
            }
            (_, None) if stretch => return Err(Failure::Arguments("--stretch is only for --preview".to_owned())),
            (None, None) => Form::Numbers,
            (Some(place), None) => Form::Raw(Output::new("--output", place, &inputs)?),
            (None, Some(place)) => {
                preview::check(place, list.bands().count(picture.grid.bands))?;
                Form::Preview { output: Output::new("--preview", place, &inputs)?, stretch }
            }
        };
        Ok(Answer { list, form })
    }

    /// Writes or prints the samples.
    pub fn give(&self, picture: &Picture, shape: Shape, samples: &[u8]) -> Result<(), Failure> {
        let sample_bytes = picture.sizes.sample_bytes;
        let Shape { bands, rows, columns } = shape;
        let counts = format!("{}, {}, {}", count(bands, "band"), count(rows, "row"), count(columns, "column"));
        let sizes = format!("{counts}, {} a sample: {}", count(sample_bytes, "byte"), count(samples.len(), "byte"));
        match &self.form {
            Form::Numbers => streams::print(&format!("{sizes}\n{}", self.table(sample_bytes, shape, samples))),
            Form::Raw(output) => {
                output.write(&[samples])?;
                output.tell(&sizes)
            }
            Form::Preview { output, stretch } => {
                let pixels = preview::pixels(samples, sample_bytes, bands, picture.grid.nbpp, *stretch)?;
                output.write(&[preview::header(shape).as_bytes(), &pixels])?;
                output.tell(&format!("{} of {counts}", preview::format_name(bands)))
            }
        }
    }

    /// The samples as numbers, where they are few.
    fn table(&self, sample_bytes: usize, shape: Shape, samples: &[u8]) -> String {
        if samples.len() / sample_bytes > PRINTED {
            return format!("(more than {PRINTED} samples are not printed: give --output or --preview)\n");
        }
        let numbers: Vec<String> =
            samples.chunks_exact(sample_bytes).map(preview::number).map(|n| n.to_string()).collect();
        let width = numbers.iter().map(String::len).max().unwrap_or(0);
        let line = |row: &[String]| row.iter().map(|number| format!(" {number:>width$}")).collect::<String>() + "\n";
        let band = |(place, band): (usize, &[String])| {
            let rows: String = band.chunks(shape.columns.max(1)).map(line).collect();
            format!("band {}:\n{rows}", self.list.band(place))
        };
        numbers.chunks((shape.rows * shape.columns).max(1)).enumerate().map(band).collect()
    }
}
